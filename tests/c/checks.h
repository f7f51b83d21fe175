/* What the tests of the C library share: checks, an allocator that counts, and plans. A failed check prints its line; the last
   line is 'N passed, M failed'. */
#ifndef CHECKS_H
#define CHECKS_H

#include <stdbool.h>
#include <stdio.h>
#include <stdlib.h>
#include <string.h>

static unsigned passed, failed;

static void check(bool holds, int line, const char *what) {
    if (!holds) printf("line %d: %s\n", line, what);
    *(holds ? &passed : &failed) += 1;
}

#define CHECK(holds) check((holds), __LINE__, #holds)

static int end_of_checks(void) {
    printf("%u passed, %u failed\n", passed, failed);
    return failed != 0;
}

/* Memory: how many requests were made, and blocks freed, the blocks and bytes in use, the most bytes that were, and how many
   requests more until one fails (none if negative). Allocations call `__wrap_malloc` and its kin by the linker's --wrap. */
static _Atomic size_t requests, frees, blocks, bytes, most;
static _Atomic long refused_in = -1;

enum { HEAD = 16 };

void *__real_realloc(void *old, size_t size);
void __real_free(void *block);

/* Each block is preceded by its size. */
void *__wrap_realloc(void *old, size_t size) {
    requests++;
    if (refused_in >= 0 && refused_in-- == 0) return NULL;
    unsigned char *block = old == NULL ? NULL : (unsigned char *)old - HEAD;
    size_t before = 0;
    if (block != NULL) memcpy(&before, block, sizeof before);
    unsigned char *new = __real_realloc(block, size + HEAD);
    if (new == NULL) return NULL;
    memcpy(new, &size, sizeof size);
    blocks += block == NULL;
    bytes += size - before;
    if (bytes > most) most = bytes;
    return new + HEAD;
}

void *__wrap_malloc(size_t size) { return __wrap_realloc(NULL, size); }

void __wrap_free(void *block) {
    if (block == NULL) return;
    size_t before = 0;
    memcpy(&before, (unsigned char *)block - HEAD, sizeof before);
    bytes -= before;
    blocks--;
    frees++;
    __real_free((unsigned char *)block - HEAD);
}

/* The text of a plan of `links` links of `sub_vls` sub-VLs each, with queues of this capacity and `each` ports to a
   sub-VL. */
static inline const char *plan(int links, int sub_vls, int capacity, int each) {
    static char text[64000];
    int end = snprintf(text, sizeof text, "version = 2\n[end_system]\nid = 7\n");
    for (int k = 0; k < links; k++)
        end += snprintf(text + end, sizeof text - (size_t)end, "[[vl]]\nid = %d\nbag_ms = 1\nlmax = 1518\nsub_vls = %d\ncapacity = %d\n",
            900 - k, sub_vls, capacity);
    for (int k = 0; k < links * sub_vls * each; k++)
        end += snprintf(text + end, sizeof text - (size_t)end,
            "[[port]]\nid = %d\nvl = %d\nsub = %d\npartition = 1\nkind = \"queuing\"\nsource = %d\ndestination = 2\nmax = 8192\n", k,
            900 - k / each / sub_vls, k / each % sub_vls, 1000 + k);
    return text;
}

static inline void open_plan(afdx_end_system *it, const char *text) {
    CHECK(afdx_open(it, (const uint8_t *)text, strlen(text)) == AFDX_OK && it->held && it->mark != 0);
}

#endif
