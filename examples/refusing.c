// Wraps calls of the C library, and refuses or shortens those that the environment names:
//   REFUSE_ALLOCATION=K  the K-th allocation        REFUSE_READ=K, REFUSE_WRITE=K  the K-th read of standard input, write to
//   REFUSE_WITH=E        by this error number       standard output (with error 0 a write accepts nothing)
//   REFUSE_FILE=K        the K-th write to a file of its own, by the same error number
//   REFUSE_THREAD=K      the K-th start of a thread
//   MOST=N               a read returns, and a write accepts, N bytes at most; with SEED=S from 1 to N at random
//   AFTER_WRITE=W        allocations are counted from the W-th write to standard output, and only until the next one
//   REPORT=FILE          gets the numbers of allocations, of reads and writes, of writes to files, of threads, of writes to standard
//                        error, and of yields at the end
#define _GNU_SOURCE
#include <dlfcn.h>
#include <errno.h>
#include <fcntl.h>
#include <pthread.h>
#include <stdio.h>
#include <stdlib.h>
#include <sys/syscall.h>
#include <unistd.h>

extern void *__libc_malloc(size_t size);
extern void *__libc_realloc(void *old, size_t size);

static long allocations, reads, writes, file_writes, threads, tellings, yields;

static long number(const char *name) {
    const char *text = getenv(name);
    return text ? atol(text) : 0;
}

static size_t shortened(size_t length) {
    static unsigned long state;
    size_t most = number("MOST");
    if (most == 0)
        return length;
    if (number("SEED")) {
        if (state == 0)
            state = number("SEED");
        state = state * 6364136223846793005UL + 1442695040888963407UL;
        most = 1 + (state >> 33) % most;
    }
    return length < most ? length : most;
}

static int is_refused(long *count, const char *name) {
    *count += 1;
    if (*count != number(name))
        return 0;
    errno = number("REFUSE_WITH");
    return 1;
}

static int has_no_memory(void) {
    if (getenv("AFTER_WRITE") && writes != number("AFTER_WRITE"))
        return 0;
    if (!is_refused(&allocations, "REFUSE_ALLOCATION"))
        return 0;
    errno = ENOMEM;
    return 1;
}

void *malloc(size_t size) {
    return has_no_memory() ? NULL : __libc_malloc(size);
}

void *realloc(void *old, size_t size) {
    return has_no_memory() ? NULL : __libc_realloc(old, size);
}

int pthread_create(pthread_t *thread, const pthread_attr_t *how, void *(*start)(void *), void *argument) {
    if (is_refused(&threads, "REFUSE_THREAD"))
        return EAGAIN;
    int (*real)(pthread_t *, const pthread_attr_t *, void *(*)(void *), void *) = dlsym(RTLD_NEXT, "pthread_create");
    return real(thread, how, start, argument);
}

int sched_yield(void) {
    __atomic_fetch_add(&yields, 1, __ATOMIC_SEQ_CST);
    return syscall(SYS_sched_yield);
}

ssize_t read(int file, void *bytes, size_t length) {
    if (file == 0) {
        if (is_refused(&reads, "REFUSE_READ"))
            return -1;
        length = shortened(length);
    }
    return syscall(SYS_read, file, bytes, length);
}

ssize_t write(int file, const void *bytes, size_t length) {
    if (file == 1) {
        if (is_refused(&writes, "REFUSE_WRITE"))
            return errno ? -1 : 0;
        length = shortened(length);
    }
    if (file == 2)
        tellings += 1;
    if (file > 2) {
        if (is_refused(&file_writes, "REFUSE_FILE"))
            return errno ? -1 : 0;
        length = shortened(length);
    }
    return syscall(SYS_write, file, bytes, length);
}

ssize_t __write(int file, const void *bytes, size_t length) {
    return write(file, bytes, length);
}

__attribute__((destructor)) static void report(void) {
    const char *path = getenv("REPORT");
    int file = path ? open(path, O_WRONLY | O_CREAT | O_TRUNC, 0644) : -1;
    if (file < 0)
        return;
    char text[160];
    int length = snprintf(text, sizeof text, "%ld %ld %ld %ld %ld %ld %ld\n", allocations, reads, writes, file_writes, threads, tellings, yields);
    syscall(SYS_write, file, text, length);
    close(file);
}

// A program that may start threads ends by this call, which runs no destructor.
void _exit(int status) {
    report();
    syscall(SYS_exit_group, status);
    __builtin_unreachable();
}
