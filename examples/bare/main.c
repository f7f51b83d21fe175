/* An end system without a C library: one frame out of a table, with memory from a pool of fixed size.

       afdx_bench compile demo.toml --c table.c
       cc -O2 -ffreestanding -fno-tree-loop-distribute-patterns -nostdlib -static -Wl,--gc-sections main.c table.c -lafdx_core -lgcc

   The library takes all memory while it opens an end system, by the three calls below, which a partition replaces by its own.
   Output is by system calls of Linux here, and the start that of a static program on x86-64. */
#include <afdx.h>

extern const uint8_t afdx_plan_table[];
extern const size_t afdx_plan_table_length;

/* The pool. Before each block is its size, in the 16 bytes that keep the blocks aligned. */
enum { POOL = 1 << 20, ALIGNMENT = 16 };
static _Alignas(ALIGNMENT) unsigned char pool[POOL];
static size_t used;

/* What the library expects of a request: whether there is memory, and where. */
struct tried {
    _Bool ok;
    void *block;
};

void *memcpy(void *to, const void *from, size_t size) {
    for (size_t k = 0; k < size; k++) ((unsigned char *)to)[k] = ((const unsigned char *)from)[k];
    return to;
}

void *memmove(void *to, const void *from, size_t size) {
    if ((uintptr_t)to <= (uintptr_t)from) return memcpy(to, from, size);
    for (size_t k = size; k > 0; k--) ((unsigned char *)to)[k - 1] = ((const unsigned char *)from)[k - 1];
    return to;
}

void *memset(void *to, int byte, size_t size) {
    for (size_t k = 0; k < size; k++) ((unsigned char *)to)[k] = (unsigned char)byte;
    return to;
}

/* Memory for `size` bytes, or for `alignment` bytes if that is 0. The alignment divides 16. */
struct tried rattle_alloc(size_t size, size_t alignment) {
    size_t wanted = size == 0 ? alignment : size;
    if (wanted > POOL - ALIGNMENT) return (struct tried){0, pool};
    size_t whole = ALIGNMENT + (wanted + ALIGNMENT - 1) / ALIGNMENT * ALIGNMENT;
    if (whole > POOL - used) return (struct tried){0, pool};
    unsigned char *block = pool + used + ALIGNMENT;
    memcpy(block - ALIGNMENT, &whole, sizeof whole);
    used += whole;
    return (struct tried){1, block};
}

/* Gives back the last block; another one stays taken. */
void rattle_dealloc(void *block) {
    size_t whole;
    memcpy(&whole, (unsigned char *)block - ALIGNMENT, sizeof whole);
    if ((unsigned char *)block - ALIGNMENT + whole == pool + used) used -= whole;
}

/* A block of another size, with the first `kept` bytes of this one. If there is none, this one stays. */
struct tried rattle_realloc(void *block, size_t kept, size_t size, size_t alignment) {
    struct tried more = rattle_alloc(size, alignment);
    if (more.ok) memcpy(more.block, block, kept < size ? kept : size);
    return more;
}

static void put(const char *text, size_t length) {
    long call = 1; /* write */
    __asm__ volatile("syscall" : "+a"(call) : "D"(1L), "S"(text), "d"(length) : "rcx", "r11", "memory");
}

/* Prints the frames of a network, as `afdx_bench run` does. */
static void show(afdx_end_system *it, uint8_t network) {
    static uint8_t frame[AFDX_GREATEST_FRAME];
    size_t length;
    for (size_t k = 0; afdx_frame(it, network, k, frame, sizeof frame, &length) == AFDX_OK; k++) {
        put(network == AFDX_A ? "A 0 " : "B 0 ", 4);
        for (size_t i = 0; i < length; i++) {
            put(&"0123456789abcdef"[frame[i] >> 4], 1);
            put(&"0123456789abcdef"[frame[i] & 15], 1);
        }
        put("\n", 1);
    }
}

static int run(void) {
    static afdx_end_system it;
    static afdx_port port;
    static const uint8_t message[] = {1};
    uint8_t standing;
    uint8_t answer = afdx_open_table(&it, afdx_plan_table, afdx_plan_table_length);
    if (answer == AFDX_OK) answer = afdx_port_of(&it, 10, &port);
    if (answer == AFDX_OK) answer = afdx_send(&port, message, sizeof message);
    if (answer == AFDX_OK) answer = afdx_poll(&it, 0, &standing);
    show(&it, AFDX_A);
    show(&it, AFDX_B);
    return answer;
}

void begin(void) {
    long status = run(), call = 60; /* exit */
    __asm__ volatile("syscall" : "+a"(call) : "D"(status) : "rcx", "r11", "memory");
    __builtin_unreachable();
}

__asm__(".globl _start\n_start:\n    xor %ebp, %ebp\n    and $-16, %rsp\n    call begin\n");
