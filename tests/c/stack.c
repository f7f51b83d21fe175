/* Texts that make the calls that read one go deepest, in a thread whose stack has AFDX_TEXT_STACK bytes above a page that can't
   be touched. A part of a dotted key is a table in the one before it, a value may nest 80 deep, a header and a key have up to
   80 parts each, and so has the key in each inline table: 6,600 tables in one another. They are freed from within the calls
   for a second key that the first one excludes. That this is the worst was found by search, over headers, arrays, keys,
   inline tables, faults and repetitions.

   tests/c/c_library.py builds and runs it. */
#define _GNU_SOURCE
#include "afdx_judge.h"

#include "checks.h"

#include <pthread.h>
#include <sys/mman.h>

enum { PARTS = 80, DEPTH = 80, PAGE = 65536 };

static char text[1 << 16];
static size_t end;

static void add(const char *more) {
    end += (size_t)snprintf(text + end, sizeof text - end, "%s", more);
}

static void add_key(int parts) {
    for (int k = 0; k < parts; k++) add(k == 0 ? "a" : ".a");
}

/* Headers, each of which goes one table deeper, then a key of so many parts and a value that nests so deep, with keys of so
   many parts. */
static void write_text(int headers, bool is_array, int parts, int depth, const char *innermost) {
    end = 0;
    for (int k = is_array ? 1 : headers; k <= headers && headers > 0; k++) {
        add(is_array ? "[[" : "[");
        add_key(k);
        add(is_array ? "]]\n" : "]\n");
    }
    add_key(parts);
    add("=");
    for (int k = 0; k < depth; k++) {
        add("{");
        add_key(parts);
        add("=");
    }
    add(innermost);
    for (int k = 0; k < depth; k++) add("}");
    add("\n");
}

static void *opens(void *answer) {
    afdx_end_system it = {0};
    *(uint8_t *)answer = afdx_open(&it, (const uint8_t *)text, end);
    return NULL;
}

static void *explains(void *answer) {
    size_t length = 0;
    *(uint8_t *)answer = afdx_explain((const uint8_t *)text, end, NULL, 0, &length);
    return NULL;
}

static void *judges(void *answer) {
    static const uint8_t capture[] = "no capture";
    afdx_judge_options options = {0, 10000, 0, 0, 0};
    afdx_judged judged;
    *(uint8_t *)answer = afdx_judge((const uint8_t *)text, end, &options, capture, sizeof capture, NULL, 0, &judged);
    return NULL;
}

/* Runs a call in a thread with just that stack. */
static uint8_t called(void *(*call)(void *)) {
    uint8_t answer = 77, *stack = mmap(NULL, PAGE + AFDX_TEXT_STACK, PROT_READ | PROT_WRITE, MAP_PRIVATE | MAP_ANONYMOUS, -1, 0);
    pthread_attr_t how;
    pthread_t thread;
    CHECK(stack != MAP_FAILED && mprotect(stack, PAGE, PROT_NONE) == 0 && pthread_attr_init(&how) == 0);
    CHECK(pthread_attr_setstack(&how, stack + PAGE, AFDX_TEXT_STACK) == 0);
    CHECK(pthread_create(&thread, &how, call, &answer) == 0 && pthread_join(thread, NULL) == 0);
    CHECK(pthread_attr_destroy(&how) == 0 && munmap(stack, PAGE + AFDX_TEXT_STACK) == 0);
    return answer;
}

static void check_text(uint8_t fault) {
    CHECK(called(opens) == fault && called(explains) == AFDX_SMALL_BUFFER && called(judges) == fault);
    CHECK(blocks == 0 && bytes == 0);
}

int main(void) {
    write_text(79, false, 79, 0, "1"); /* 322 bytes */
    check_text(AFDX_CONFIG_MISSING_KEY);
    write_text(PARTS, false, PARTS, DEPTH, "1");
    check_text(AFDX_CONFIG_MISSING_KEY);
    write_text(PARTS, true, PARTS, DEPTH, "1");
    check_text(AFDX_CONFIG_MISSING_KEY);
    for (int times = 0; times < 2; times++) {
        write_text(PARTS, times > 0, PARTS, DEPTH, "1");
        add_key(PARTS);
        add("=1\n");
        check_text(AFDX_CONFIG_TOML);
        write_text(PARTS, times > 0, PARTS, DEPTH, "1");
        add("[");
        add_key(PARTS);
        add("]\n");
        check_text(AFDX_CONFIG_TOML);
    }
    write_text(PARTS, true, PARTS, DEPTH - 1, "[]");
    check_text(AFDX_CONFIG_MISSING_KEY);
    write_text(PARTS, true, PARTS, DEPTH - 1, "{a=1,a=2}");
    check_text(AFDX_CONFIG_TOML);
    write_text(PARTS, true, PARTS, DEPTH + 1, "1"); /* one deeper than a value may be */
    check_text(AFDX_CONFIG_TOML);
    return end_of_checks();
}
