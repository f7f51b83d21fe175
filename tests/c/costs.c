/* What each call takes of the stack, and how many instructions: the numbers of docs/guide/embedding.md. End systems are opened
   from tables, with memory from a pool, so that no allocator is measured.

       costs stack      prints a case and the bytes of stack that its call takes, on each line
       costs steps      runs each case once, in a function of its name, for valgrind --tool=callgrind

   tests/c/costs.py builds and runs it. */
#include "afdx_judge.h"

#include <stdbool.h>
#include <stdio.h>
#include <stdlib.h>
#include <string.h>

enum { POOL = 200 << 20, ALIGNMENT = 16, LINK = 12, PORT = 22, FRONT = 16, SUM = 4, PAINTED = 1 << 16, PAINT = 0xa5 };

static _Alignas(ALIGNMENT) unsigned char pool[POOL];
static size_t used;

struct tried {
    _Bool ok;
    void *block;
};

struct tried rattle_alloc(size_t size, size_t alignment) {
    size_t wanted = size == 0 ? alignment : size, whole = (wanted + ALIGNMENT - 1) / ALIGNMENT * ALIGNMENT;
    if (whole > POOL - used) return (struct tried){0, pool};
    used += whole;
    return (struct tried){1, pool + used - whole};
}

struct tried rattle_realloc(void *block, size_t kept, size_t size, size_t alignment) {
    struct tried more = rattle_alloc(size, alignment);
    if (more.ok) memcpy(more.block, block, kept < size ? kept : size);
    return more;
}

void rattle_dealloc(void *block) { (void)block; }

/* The table of a plan of `links` links, and `each` ports to a link, as docs/guide/table.md has it. A link has `sub_vls` sub-VLs,
   whose ports follow one another, and `udp_sums` is 1 if each port has a UDP checksum. */
static uint8_t table[FRONT + 64 * LINK + 256 * PORT + SUM];
static unsigned sub_vls = 1, udp_sums;

static size_t put(size_t at, unsigned number) {
    table[at] = (uint8_t)(number >> 8);
    table[at + 1] = (uint8_t)number;
    return at + 2;
}

static size_t table_of(unsigned links, unsigned each) {
    uint32_t sum = UINT32_MAX;
    size_t at = 8;
    memcpy(table, "AFDXPLAN", at);
    unsigned front[] = {1, 7, links, links * each};
    for (size_t k = 0; k < 4; k++) at = put(at, front[k]);
    for (unsigned k = 0; k < links; k++) {
        unsigned link[] = {k, 1, 1518, sub_vls, 4, 0};
        for (size_t i = 0; i < 6; i++) at = put(at, link[i]);
    }
    for (unsigned k = 0; k < links * each; k++) {
        unsigned port[] = {k, k / each, k % sub_vls, 1, 1, 1000 + k, 2000, 8192, 0, 0, udp_sums};
        for (size_t i = 0; i < 11; i++) at = put(at, port[i]);
    }
    for (size_t k = 0; k < at; k++) {
        sum ^= table[k];
        for (int bit = 0; bit < 8; bit++) sum = sum >> 1 ^ (sum & 1 ? 0xedb88320 : 0);
    }
    return put(put(at, (~sum) >> 16), ~sum & 0xffff);
}

/* What the cases use. */
static afdx_end_system it;
static afdx_port ports[256];
static uint8_t message[8192], standing, done, frame[AFDX_MOST_FRAMES * AFDX_GREATEST_FRAME], answer;
static size_t length, lengths[AFDX_MOST_FRAMES], count, table_length;
static uint16_t ids[AFDX_MOST_PORTS];
static uint64_t now, total;
static afdx_counts counts;
static afdx_released released;
static afdx_line line;
/* The longest message of a script. */
static uint8_t text[7 + 2 * 8192] = "send 0 ";
/* A pcapng file: a section, an interface, and two packets without bytes, before each of which three others were lost. */
#define PACKET 6, 48, 0, 0, 0, 0, 0, 0x00080004, 3, 0, 0, 48
static const uint32_t capture[] = {0x0a0d0d0a, 28, 0x1a2b3c4d, 1, UINT32_MAX, UINT32_MAX, 28, 1, 20, 1, 0, 20, PACKET, PACKET};

static void want(bool holds, const char *what) {
    if (holds) return;
    fprintf(stderr, "%s: %d\n", what, answer);
    exit(1);
}

static void sends(uint16_t port, size_t bytes) { want((answer = afdx_send(&ports[port], message, bytes)) == AFDX_OK, "send"); }

/* Opens an end system of so many links, with a port for each of their sub-VLs. One port of each link is taken, and sends so
   many bytes, none if 0. */
static void begin(unsigned links, size_t bytes) {
    memset(&it, 0, sizeof it);
    memset(ports, 0, sizeof ports);
    used = now = 0;
    want((answer = afdx_open_table(&it, table, table_of(links, sub_vls))) == AFDX_OK, "open");
    for (uint16_t k = 0; k < links; k++) {
        want((answer = afdx_port_of(&it, (uint16_t)(k * sub_vls + sub_vls - 1), &ports[k])) == AFDX_OK, "port");
        if (bytes > 0) sends(k, bytes);
    }
}

static void polls(uint64_t at) { want((answer = afdx_poll(&it, now = at, &standing)) == AFDX_OK, "poll"); }

/* Polls links of which each sent 8,192 bytes until all is sent, so that each buffer has held a long frame. Then each link sends
   `bytes` bytes. */
static void begin_after_long(unsigned links, size_t bytes) {
    begin(links, 8192);
    for (uint64_t k = 0; k < 6; k++) polls(1000 * k);
    for (uint16_t k = 0; k < links; k++) sends(k, bytes);
    now = 6000;
}

static void returns_all(unsigned links) {
    for (unsigned k = 0; k < links; k++) want((answer = afdx_give_back(&it, &ports[k])) == AFDX_OK, "give back");
}

/* The state before each case. */
static void tables_of_1(void) { memset(&it, 0, sizeof it), used = 0, table_length = table_of(1, 1); }
static void tables_of_64(void) { memset(&it, 0, sizeof it), used = 0, table_length = table_of(64, 4); }
static void one(void) { begin(1, 0); }
static void one_summed(void) { udp_sums = 1, begin(1, 0), udp_sums = 0; }
static void all_last(void) { sub_vls = 4, begin(64, 1), sub_vls = 1; }
static void all(void) { begin(64, 0); }
static void one_byte(void) { begin(1, 1); }
static void one_long(void) { begin(1, 8192); }
static void one_cut(void) { begin(1, 8192), polls(0), now = 1000; }
static void all_bytes(void) { begin(64, 1); }
static void all_long(void) { begin(64, 8192); }
static void all_summed(void) { udp_sums = 1, begin(64, 8192), udp_sums = 0; }
static void one_short(void) { begin_after_long(1, 1); }
static void all_short(void) { begin_after_long(64, 1); }
/* The messages of neighbouring links have other lengths, and those of a link from poll to poll. */
static void mixed(void) {
    static const size_t various[] = {1, 1471, 17, 300, 700, 1200, 60};
    enum { LENGTHS = sizeof various / sizeof *various };
    begin(64, 0);
    for (unsigned turn = 0; turn <= LENGTHS; turn++) {
        if (turn > 0) polls(1000 * turn);
        for (uint16_t k = 0; k < 64; k++) sends(k, various[(k + turn) % LENGTHS]);
    }
    now += 1000;
}
static void all_cut(void) { begin(64, 8192), polls(0), now = 1000; }
static void all_sent(void) { begin(64, 1), polls(0), now = 500; }
static void long_sent(void) { begin(64, 8192), polls(0); }
static void full(void) {
    begin(1, 1);
    while (afdx_send(&ports[0], message, 1) == AFDX_OK) {}
}
static void one_free(void) { begin(1, 0), returns_all(1); }
static void given(void) { begin(64, 8192), returns_all(64); }
static void gathered(void) { begin(64, 8192), returns_all(64), want(afdx_gather(&it) == AFDX_OK, "gather"); }
static void drained(void) {
    gathered();
    for (uint64_t k = 0; k < 6; k++) polls(1000 * k);
}
static void orphan(void) { begin(1, 0), want(afdx_free(&it) == AFDX_OK, "free"); }
static void nothing(void) { used = 0; }

/* Each case: its name, the state before it, the call, and its answer. The last port of a plan, and its last link, are those
   that a search finds last. */
#define CASES(CASE) \
    CASE(open_table_1, tables_of_1, afdx_open_table(&it, table, table_length), AFDX_OK) \
    CASE(open_table_64, tables_of_64, afdx_open_table(&it, table, table_length), AFDX_OK) \
    CASE(memory_64, tables_of_64, afdx_memory(table, table_length, &length), AFDX_OK) \
    CASE(port_of, one_free, afdx_port_of(&it, 0, &ports[0]), AFDX_OK) \
    CASE(send_1, one, afdx_send(&ports[0], message, 1), AFDX_OK) \
    CASE(send_1472, one, afdx_send(&ports[0], message, 1472), AFDX_OK) \
    CASE(send_8192, one, afdx_send(&ports[0], message, 8192), AFDX_OK) \
    CASE(send_1472_summed, one_summed, afdx_send(&ports[0], message, 1472), AFDX_OK) \
    CASE(send_8192_summed, one_summed, afdx_send(&ports[0], message, 8192), AFDX_OK) \
    CASE(send_empty, one, afdx_send(&ports[0], message, 0), AFDX_EMPTY) \
    CASE(send_full, full, afdx_send(&ports[0], message, 1), AFDX_FULL) \
    CASE(accepted, one_byte, afdx_accepted(&ports[0], &total), AFDX_OK) \
    CASE(poll_none_due, all_sent, afdx_poll(&it, now, &standing), AFDX_OK) \
    CASE(poll_64_idle, all, afdx_poll(&it, now, &standing), AFDX_OK) \
    CASE(poll_1_whole, one_byte, afdx_poll(&it, now, &standing), AFDX_OK) \
    CASE(poll_1_first, one_long, afdx_poll(&it, now, &standing), AFDX_OK) \
    CASE(poll_1_later, one_cut, afdx_poll(&it, now, &standing), AFDX_OK) \
    CASE(poll_1_short, one_short, afdx_poll(&it, now, &standing), AFDX_OK) \
    CASE(poll_64_whole, all_bytes, afdx_poll(&it, now, &standing), AFDX_OK) \
    CASE(poll_64_last, all_last, afdx_poll(&it, now, &standing), AFDX_OK) \
    CASE(poll_64_first, all_long, afdx_poll(&it, now, &standing), AFDX_OK) \
    CASE(poll_64_first_summed, all_summed, afdx_poll(&it, now, &standing), AFDX_OK) \
    CASE(poll_64_later, all_cut, afdx_poll(&it, now, &standing), AFDX_OK) \
    CASE(poll_64_short, all_short, afdx_poll(&it, now, &standing), AFDX_OK) \
    CASE(poll_64_mixed, mixed, afdx_poll(&it, now, &standing), AFDX_OK) \
    CASE(poll_drain_64, gathered, afdx_poll(&it, now, &standing), AFDX_OK) \
    CASE(next_due, all_sent, afdx_next_due(&it, &total), AFDX_OK) \
    CASE(frames, long_sent, afdx_frames(&it, AFDX_A, &count), AFDX_OK) \
    CASE(frame, long_sent, afdx_frame(&it, AFDX_B, 63, frame, sizeof frame, &length), AFDX_OK) \
    CASE(all_frames, long_sent, afdx_all_frames(&it, AFDX_B, frame, sizeof frame, lengths, AFDX_MOST_FRAMES, &count), AFDX_OK) \
    CASE(release, long_sent, afdx_release(&it, AFDX_B, 63, &released), AFDX_OK) \
    CASE(link_counts, all_sent, afdx_link_counts(&it, 63, &counts), AFDX_OK) \
    CASE(ports, all, afdx_ports(&it, ids, AFDX_MOST_PORTS, &count), AFDX_OK) \
    CASE(links, all, afdx_links(&it, ids, AFDX_MOST_PORTS, &count), AFDX_OK) \
    CASE(fail, all, afdx_fail(&it, AFDX_A), AFDX_OK) \
    CASE(close, all, afdx_close(&it, 63, 0, &total), AFDX_OK) \
    CASE(give_back, all, afdx_give_back(&it, &ports[63]), AFDX_OK) \
    CASE(gather, given, afdx_gather(&it), AFDX_OK) \
    CASE(is_done, gathered, afdx_is_done(&it, &done), AFDX_OK) \
    CASE(is_done_drained, drained, afdx_is_done(&it, &done), AFDX_OK) \
    CASE(free, all, afdx_free(&it), AFDX_OK) \
    CASE(free_drained, gathered, afdx_free(&it), AFDX_OK) \
    CASE(free_port, one, afdx_free_port(&ports[0]), AFDX_OK) \
    CASE(free_port_last, orphan, afdx_free_port(&ports[0]), AFDX_OK) \
    CASE(script_line, nothing, afdx_script_line(text, sizeof text, &line, message, sizeof message), AFDX_OK) \
    CASE(capture_lost, nothing, afdx_capture_lost((const uint8_t *)capture, sizeof capture, &total), AFDX_OK)

#define DEFINED(name, before, call, wanted) \
    static __attribute__((noinline)) void case_##name(void) { answer = call; }
CASES(DEFINED)

struct one_case {
    const char *name;
    void (*before)(void), (*run)(void);
    uint8_t wanted;
};
#define LISTED(name, before, call, wanted) {#name, before, case_##name, wanted},
static const struct one_case cases[] = {CASES(LISTED)};

/* How deep a call goes: the stack below is painted, and afterwards the first byte is sought that isn't. */
static __attribute__((noinline)) size_t depth_of(void (*run)(void)) {
    volatile uint8_t *top;
#if defined __x86_64__
    __asm__ volatile("mov %%rsp, %0" : "=r"(top));
#elif defined __aarch64__
    __asm__ volatile("mov %0, sp" : "=r"(top));
#else
#error "which register is the stack's?"
#endif
    volatile uint8_t *bottom = top - PAINTED;
    for (volatile uint8_t *at = bottom; at < top; at++) *at = PAINT;
    run();
    volatile uint8_t *at = bottom;
    while (at < top && *at == PAINT) at++;
    return (size_t)(top - at);
}

int main(int words, char **word) {
    bool is_stack = words > 1 && strcmp(word[1], "stack") == 0;
    for (size_t k = 0; k < sizeof message; k++) message[k] = (uint8_t)k;
    for (size_t k = 7; k < sizeof text; k++) text[k] = '0';
    for (size_t k = 0; k < sizeof cases / sizeof *cases; k++) {
        cases[k].before();
        size_t depth = 0;
        if (is_stack) depth = depth_of(cases[k].run);
        else cases[k].run();
        want(answer == cases[k].wanted, cases[k].name);
        if (is_stack) printf("%s %zu\n", cases[k].name, depth);
    }
    return 0;
}
