// Stands between the plugin and the C library (LD_PRELOAD), and refuses the K-th allocation, or start of a thread, that the
// plugin asks for by itself: REFUSE_ALLOCATION=K, REFUSE_THREAD=K. What the server asks for isn't counted. SIGNAL_AT_RENAME=1 sends
// the process SIGUSR1 as soon as a file is in its place. HOLD_SYNC=FILE lets each fdatasync make FILE.held, and wait while FILE is there.
#define _GNU_SOURCE
#include <dlfcn.h>
#include <errno.h>
#include <fcntl.h>
#include <pthread.h>
#include <signal.h>
#include <stdio.h>
#include <stdlib.h>
#include <string.h>
#include <unistd.h>

extern void *__libc_malloc(size_t size);
extern void *__libc_calloc(size_t count, size_t size);
extern void *__libc_realloc(void *old, size_t size);
extern void *__libc_memalign(size_t alignment, size_t size);

static long allocations, threads;

static int is_refused(const void *caller, long *count, const char *name) {
    const char *wanted = getenv(name);
    Dl_info object;
    if (!wanted || !dladdr(caller, &object) || !object.dli_fname || !strstr(object.dli_fname, "nbdkit-mintlintel-plugin"))
        return 0;
    return ++*count == atol(wanted);
}

static int has_no_memory(const void *caller) {
    if (!is_refused(caller, &allocations, "REFUSE_ALLOCATION"))
        return 0;
    errno = ENOMEM;
    return 1;
}

void *malloc(size_t size) {
    return has_no_memory(__builtin_return_address(0)) ? NULL : __libc_malloc(size);
}

void *calloc(size_t count, size_t size) {
    return has_no_memory(__builtin_return_address(0)) ? NULL : __libc_calloc(count, size);
}

void *realloc(void *old, size_t size) {
    return has_no_memory(__builtin_return_address(0)) ? NULL : __libc_realloc(old, size);
}

void *aligned_alloc(size_t alignment, size_t size) {
    return has_no_memory(__builtin_return_address(0)) ? NULL : __libc_memalign(alignment, size);
}

int rename(const char *old, const char *new) {
    static int (*real)(const char *, const char *);
    if (!real)
        real = (int (*)(const char *, const char *)) dlsym(RTLD_NEXT, "rename");
    int result = real(old, new);
    if (getenv("SIGNAL_AT_RENAME"))
        raise(SIGUSR1);
    return result;
}

int fdatasync(int fd) {
    static int (*real)(int);
    const char *hold = getenv("HOLD_SYNC");
    char held[4096];
    if (!real)
        real = (int (*)(int)) dlsym(RTLD_NEXT, "fdatasync");
    while (hold && access(hold, F_OK) == 0) {
        snprintf(held, sizeof held, "%s.held", hold);
        close(open(held, O_WRONLY | O_CREAT | O_CLOEXEC, 0666));
        usleep(5000);
    }
    return real(fd);
}

int pthread_create(pthread_t *thread, const pthread_attr_t *how, void *(*start)(void *), void *argument) {
    static int (*real)(pthread_t *, const pthread_attr_t *, void *(*) (void *), void *);
    if (is_refused(__builtin_return_address(0), &threads, "REFUSE_THREAD"))
        return EAGAIN;
    if (!real)
        real = (int (*)(pthread_t *, const pthread_attr_t *, void *(*) (void *), void *)) dlsym(RTLD_NEXT, "pthread_create");
    return real(thread, how, start, argument);
}
