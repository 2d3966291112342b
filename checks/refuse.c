// Refuses memory to the program that it is loaded into by LD_PRELOAD. A request is a call of malloc, calloc, realloc,
// aligned_alloc, memalign or posix_memalign, or a thread that is to be started; requests are counted from 1, by all
// threads together. The environment says which are refused:
//
//   REFUSE_FIRST=N   the first one that is refused; at 0, or without it, none is
//   REFUSE_LAST=N    the last one
//   REFUSE_COUNT=N   at the end the count of requests is written to the file descriptor N, as a line
//   REFUSE_HELD=N    at the end the most bytes that were held at one time are written to the file descriptor N, as a line
//   REFUSE_THREADS=N at the end the count of threads that were started is written to the file descriptor N, as a line
//
// What is held is counted as the library rounds it; what it keeps for itself, and how it shares pages out, is not.
//
// Built by: cc -shared -fPIC -O2 -o refuse.so refuse.c
#define _GNU_SOURCE
#include <dlfcn.h>
#include <errno.h>
#include <malloc.h>
#include <pthread.h>
#include <stdatomic.h>
#include <stdio.h>
#include <stdlib.h>
#include <sys/syscall.h>
#include <unistd.h>

extern void *__libc_malloc(size_t);
extern void *__libc_calloc(size_t, size_t);
extern void *__libc_realloc(void *, size_t);
extern void *__libc_memalign(size_t, size_t);
extern void __libc_free(void *);

typedef int starting(pthread_t *, const pthread_attr_t *, void *(*)(void *), void *);

static atomic_ulong requests, threads;
static atomic_long held, most;
static unsigned long first, last;
static int report = -1, report_held = -1, report_threads = -1;
static starting *start;

static unsigned long number(const char *name) {
    const char *text = getenv(name);
    return text ? strtoul(text, NULL, 10) : 0;
}

static int descriptor(const char *name) {
    return getenv(name) ? (int)number(name) : -1;
}

// What the loader and the library ask for before the program begins is not counted.
__attribute__((constructor)) static void begin(void) {
    start = (starting *)dlsym(RTLD_NEXT, "pthread_create");
    report = descriptor("REFUSE_COUNT");
    report_held = descriptor("REFUSE_HELD");
    report_threads = descriptor("REFUSE_THREADS");
    last = number("REFUSE_LAST");
    first = number("REFUSE_FIRST");
    atomic_store(&requests, 0);
    atomic_store(&threads, 0);
    atomic_store(&held, 0);
    atomic_store(&most, 0);
}

__attribute__((destructor)) static void end(void) {
    if (report >= 0)
        dprintf(report, "%lu\n", atomic_load(&requests));
    if (report_held >= 0)
        dprintf(report_held, "%ld\n", atomic_load(&most));
    if (report_threads >= 0)
        dprintf(report_threads, "%lu\n", atomic_load(&threads));
    report = report_held = report_threads = -1;
}

// A program that has threads may end by this, and then nothing is called at its end.
void _exit(int status) {
    end();
    syscall(SYS_exit_group, status);
    __builtin_unreachable();
}

static int refused(void) {
    unsigned long request = atomic_fetch_add(&requests, 1) + 1;
    return first != 0 && first <= request && request <= last;
}

static void *none(void) {
    errno = ENOMEM;
    return NULL;
}

// Notes that a block is held, or that it is no longer.
static void *hold(void *block) {
    if (block) {
        long now = atomic_fetch_add(&held, malloc_usable_size(block)) + malloc_usable_size(block);
        long before = atomic_load(&most);
        while (now > before && !atomic_compare_exchange_weak(&most, &before, now))
            ;
    }
    return block;
}

static void let_go(void *block) {
    if (block)
        atomic_fetch_sub(&held, malloc_usable_size(block));
}

void *malloc(size_t size) { return refused() ? none() : hold(__libc_malloc(size)); }
void *calloc(size_t count, size_t size) { return refused() ? none() : hold(__libc_calloc(count, size)); }
void *memalign(size_t align, size_t size) { return refused() ? none() : hold(__libc_memalign(align, size)); }
void *aligned_alloc(size_t align, size_t size) { return memalign(align, size); }

void *realloc(void *old, size_t size) {
    if (refused())
        return none();
    long before = old ? malloc_usable_size(old) : 0;
    void *block = __libc_realloc(old, size);
    if (block || size == 0)
        atomic_fetch_sub(&held, before);
    return hold(block);
}

void free(void *block) {
    let_go(block);
    __libc_free(block);
}

int posix_memalign(void **result, size_t align, size_t size) {
    void *found = refused() ? NULL : hold(__libc_memalign(align, size));
    if (!found)
        return ENOMEM;
    *result = found;
    return 0;
}

int pthread_create(pthread_t *thread, const pthread_attr_t *attributes, void *(*body)(void *), void *argument) {
    if (refused())
        return EAGAIN;
    int failed = start(thread, attributes, body, argument);
    if (!failed)
        atomic_fetch_add(&threads, 1);
    return failed;
}
