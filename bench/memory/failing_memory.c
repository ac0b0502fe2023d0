/* A library that is loaded before a program and makes allocations fail: the one whose number FAIL_AT says, counted from 1
   over all threads, and with FAIL_ON all after it too. The numbers are counted in the file FAIL_COUNT. With FAIL_THREADS
   threads are counted and fail in the place of allocations. Blocks come from the C library, by its own names for its calls. */
#define _GNU_SOURCE
#include <dlfcn.h>
#include <errno.h>
#include <fcntl.h>
#include <pthread.h>
#include <stdatomic.h>
#include <stdlib.h>
#include <sys/mman.h>
#include <unistd.h>

extern void *__libc_malloc(size_t size);
extern void *__libc_calloc(size_t count, size_t size);
extern void *__libc_realloc(void *block, size_t size);

typedef int start_thread(pthread_t *, const pthread_attr_t *, void *(*)(void *), void *);

static _Atomic long *calls;
static long at;
static int goes_on, threads;
static start_thread *start;

__attribute__((constructor)) static void begin(void) {
    const char *count = getenv("FAIL_COUNT"), *number = getenv("FAIL_AT");
    int file = count ? open(count, O_RDWR) : -1;
    if (file < 0 || !number) {
        return;
    }
    at = atol(number);
    goes_on = getenv("FAIL_ON") != NULL;
    threads = getenv("FAIL_THREADS") != NULL;
    start = (start_thread *)dlsym(RTLD_NEXT, "pthread_create");
    void *place = mmap(NULL, sizeof *calls, PROT_READ | PROT_WRITE, MAP_SHARED, file, 0);
    close(file);
    if (place != MAP_FAILED) {
        calls = place;
    }
}

static int fails(int thread) {
    if (!calls || thread != threads) {
        return 0;
    }
    long number = atomic_fetch_add(calls, 1) + 1;
    return number == at || (goes_on && at && number > at);
}

void *malloc(size_t size) {
    if (fails(0)) {
        errno = ENOMEM;
        return NULL;
    }
    return __libc_malloc(size);
}

void *calloc(size_t count, size_t size) {
    if (fails(0)) {
        errno = ENOMEM;
        return NULL;
    }
    return __libc_calloc(count, size);
}

void *realloc(void *block, size_t size) {
    if (fails(0)) {
        errno = ENOMEM;
        return NULL;
    }
    return __libc_realloc(block, size);
}

int pthread_create(pthread_t *thread, const pthread_attr_t *how, void *(*body)(void *), void *with) {
    if (fails(1)) {
        return EAGAIN;
    }
    if (!start) {
        start = (start_thread *)dlsym(RTLD_NEXT, "pthread_create");
    }
    return start(thread, how, body, with);
}
