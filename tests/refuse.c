/* Refuses requests for memory, or for a thread, of a program that this is preloaded into, or its writes.
 *
 * REFUSE_FROM  the number, counted from 1, of the first request that is refused; 0 refuses none
 * REFUSE_MANY  how many requests are refused from there on; 0 refuses all
 * REFUSE_COUNT a file of 16 bytes, in which the number of requests is kept while the program runs, and then how many
 *              blocks of memory it has
 * REFUSE_WRITES if it is set, the requests that are counted and refused are the writes of the program, to all
 *              but standard error: no room is left for one
 *
 * Requests are counted from the start of the program on, those of all its threads together. What the
 * loader asks for before is neither counted nor refused. The programs ask by malloc and realloc alone, and the C
 * library, for them, by calloc too. */
#define _GNU_SOURCE
#include <dlfcn.h>
#include <errno.h>
#include <fcntl.h>
#include <pthread.h>
#include <stdatomic.h>
#include <stdint.h>
#include <stdlib.h>
#include <sys/mman.h>
#include <unistd.h>

extern void *__libc_malloc(size_t);
extern void *__libc_calloc(size_t, size_t);
extern void *__libc_realloc(void *, size_t);
extern void __libc_free(void *);

static _Atomic uint64_t *requests;
static _Atomic uint64_t *blocks;
static uint64_t from;
static uint64_t many;
static int of_writes;

typedef int start_thread(pthread_t *, const pthread_attr_t *, void *(*)(void *), void *);
static start_thread *start;

typedef ssize_t write_bytes(int, const void *, size_t);
static write_bytes *give;

static uint64_t number_in(const char *name) {
    const char *text = getenv(name);
    return text ? strtoull(text, NULL, 10) : 0;
}

/* The file is mapped, so that it has the count however the program ends. */
__attribute__((constructor)) static void begin(void) {
    const char *path = getenv("REFUSE_COUNT");
    int file = path ? open(path, O_RDWR | O_CLOEXEC) : -1;
    if (file < 0) {
        _exit(99);
    }
    void *page = mmap(NULL, 2 * sizeof *requests, PROT_READ | PROT_WRITE, MAP_SHARED, file, 0);
    close(file);
    if (page == MAP_FAILED) {
        _exit(99);
    }
    from = number_in("REFUSE_FROM");
    many = number_in("REFUSE_MANY");
    of_writes = getenv("REFUSE_WRITES") != NULL;
    start = (start_thread *)dlsym(RTLD_NEXT, "pthread_create");
    give = (write_bytes *)dlsym(RTLD_NEXT, "write");
    if (!start || !give) {
        _exit(99);
    }
    requests = page;
    blocks = requests + 1;
}

/* Counts a block that was given. */
static void *counted(void *block) {
    if (blocks && block) {
        atomic_fetch_add(blocks, 1);
    }
    return block;
}

/* Whether one request more, which is counted, is refused. */
static int is_next_refused(void) {
    uint64_t number = atomic_fetch_add(requests, 1) + 1;
    return from && number >= from && (!many || number - from < many);
}

static int is_refused(void) {
    if (!requests || of_writes || !is_next_refused()) {
        return 0;
    }
    errno = ENOMEM;
    return 1;
}

ssize_t write(int file, const void *bytes, size_t size) {
    if (requests && of_writes && file != STDERR_FILENO && is_next_refused()) {
        errno = ENOSPC;
        return -1;
    }
    return give(file, bytes, size);
}

void *malloc(size_t size) {
    return is_refused() ? NULL : counted(__libc_malloc(size));
}

void *calloc(size_t count, size_t size) {
    return is_refused() ? NULL : counted(__libc_calloc(count, size));
}

void *realloc(void *old, size_t size) {
    if (is_refused()) {
        return NULL;
    }
    void *block = __libc_realloc(old, size);
    return old ? block : counted(block);
}

void free(void *block) {
    if (blocks && block) {
        atomic_fetch_sub(blocks, 1);
    }
    __libc_free(block);
}

int pthread_create(pthread_t *made, const pthread_attr_t *how, void *(*run)(void *), void *with) {
    return is_refused() ? EAGAIN : start(made, how, run, with);
}
