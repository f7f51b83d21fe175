/* The library's three calls for memory over those of the C library, for targets for which the kit has no object of them. */
#include <stdbool.h>
#include <stddef.h>
#include <stdlib.h>

struct tried {
    bool ok;
    void *block;
};

struct tried rattle_alloc(size_t size, size_t alignment);
struct tried rattle_realloc(void *block, size_t kept, size_t size, size_t alignment);
void rattle_dealloc(void *block);

/* A valid address where there is no memory, as the caller expects one. */
static char none;

struct tried rattle_alloc(size_t size, size_t alignment) {
    void *block = malloc(size == 0 ? alignment : size);
    return (struct tried){block != NULL, block != NULL ? block : &none};
}

struct tried rattle_realloc(void *block, size_t kept, size_t size, size_t alignment) {
    (void)kept;
    void *moved = realloc(block, size == 0 ? alignment : size);
    return (struct tried){moved != NULL, moved != NULL ? moved : &none};
}

void rattle_dealloc(void *block) { free(block); }
