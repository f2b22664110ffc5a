/* A library that is loaded before a program (LD_PRELOAD) and tells of each of its threads but the first one when it ran: when it ends, a line is
 * added to the file that BENCH_THREADS names, with the thread's number in the order of starting, the times of its start and of its end, and its
 * processor time, all in nanoseconds. The times of start and end are of the same clock for all threads. */
#define _GNU_SOURCE
#include <dlfcn.h>
#include <errno.h>
#include <fcntl.h>
#include <pthread.h>
#include <stdatomic.h>
#include <stdio.h>
#include <stdlib.h>
#include <time.h>
#include <unistd.h>

typedef void *routine(void *);
typedef int creator(pthread_t *, const pthread_attr_t *, routine *, void *);

struct start { routine *run; void *given; int number; };

static atomic_int started;

static long long nanoseconds(clockid_t clock)
{
    struct timespec time;
    clock_gettime(clock, &time);
    return time.tv_sec * 1000000000LL + time.tv_nsec;
}

static void tell(int number, long long began)
{
    long long ended = nanoseconds(CLOCK_MONOTONIC), busy = nanoseconds(CLOCK_THREAD_CPUTIME_ID);
    const char *name = getenv("BENCH_THREADS");
    int file = name ? open(name, O_WRONLY | O_CREAT | O_APPEND, 0666) : -1;
    if (file < 0)
        return;
    char line[100];
    int length = snprintf(line, sizeof line, "%d %lld %lld %lld\n", number, began, ended, busy);
    if (write(file, line, length) != length)
        abort();
    close(file);
}

static void *run(void *given)
{
    long long began = nanoseconds(CLOCK_MONOTONIC);
    struct start start = *(struct start *)given;
    free(given);
    void *answer = start.run(start.given);
    tell(start.number, began);
    return answer;
}

int pthread_create(pthread_t *thread, const pthread_attr_t *attributes, routine *own, void *given)
{
    creator *create = (creator *)dlsym(RTLD_NEXT, "pthread_create");
    struct start *start = malloc(sizeof *start);
    if (!start)
        return EAGAIN;
    *start = (struct start){own, given, atomic_fetch_add(&started, 1)};
    int fault = create(thread, attributes, run, start);
    if (fault)
        free(start);
    return fault;
}
