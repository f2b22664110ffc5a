/* kill9 FOLDER [ROUNDS]: a process that writes to an image is killed at a random moment; then the image has what it acknowledged, and at most the calls
 * that were begun besides, one of each thread. What the process has begun and acknowledged stands in memory that it shares with its parent. Before that,
 * threads that begin calls at the same time, over and over, have all of them answered. */
#include "../src/flash.h"
#include "written.h"
#include <pthread.h>
#include <signal.h>
#include <stdatomic.h>
#include <sys/mman.h>
#include <sys/uio.h>
#include <sys/wait.h>
#include <time.h>
#include <unistd.h>

enum { LUNS = 1, BLOCKS = 48, PAGES = 16, PAGE_BYTES = 4096, SECTORS = 500, THREADS = 4, SHARE = SECTORS / THREADS, MOST_TOGETHER = 4, BURSTS = 400 };

/* A call that was begun: each of these sectors gets this value, 0 for a trim. */
struct call { _Atomic uint32_t first, count, value; };

/* The value of each sector that was acknowledged, 0 for an empty one, and the calls of the threads. Each has sectors of its own. */
struct shared { _Atomic uint32_t acknowledged[SECTORS]; struct call begun[THREADS]; _Atomic uint64_t calls; };

static struct shared *shared;
static struct mintlintel_image used;
static pthread_mutex_t lock = PTHREAD_MUTEX_INITIALIZER; /* of the calls of `used` */
static char path[4096];
static uint64_t state = 88172645463325252u;
static int is_slow; /* the file is */

ssize_t __real_pwritev64(int fd, const struct iovec *parts, int count, off_t at);
ssize_t __wrap_pwritev64(int fd, const struct iovec *parts, int count, off_t at);

/* Writes some sectors, whose pages wait until the lock is given back, and are then done beside those of other threads. */
static void write_some(uint32_t first, uint32_t count, uint32_t value)
{
    static _Thread_local uint8_t pages[MOST_TOGETHER][PAGE_BYTES];
    for (uint32_t i = 0; i < count; i++)
        fill(pages[i], PAGE_BYTES, value);
    pthread_mutex_lock(&lock);
    mtl_image_keep(&used, pages, NULL, count);
    for (uint32_t i = 0; i < count; i++)
        CHECK(mintlintel_durable_write(&used.device, first + i, pages[i], PAGE_BYTES) <= MINTLINTEL_WRITTEN);
    uint64_t ticket = mtl_image_let_go(&used);
    pthread_mutex_unlock(&lock);
    CHECK(mtl_image_commit(&used, ticket) == MINTLINTEL_DONE);
}

static void trim_some(uint32_t first, uint32_t count)
{
    pthread_mutex_lock(&lock);
    CHECK(mintlintel_durable_trim(&used.device, first, count) <= MINTLINTEL_WRITTEN);
    pthread_mutex_unlock(&lock);
}

/* Calls without end. */
static void *use(void *argument)
{
    uint32_t thread = (uint32_t)(uintptr_t)argument;
    uint64_t seed = state + thread * 0x9e3779b97f4a7c15u;
    struct call *begun = &shared->begun[thread];
    for (;;) {
        uint32_t at = drawn(&seed) % SHARE, value = drawn(&seed) % 8 == 0 ? 0 : 1 + drawn(&seed) % 1000000, count = 1 + drawn(&seed) % MOST_TOGETHER;
        count = at + count > SHARE ? SHARE - at : count;
        begun->first = thread * SHARE + at;
        begun->value = value;
        begun->count = count;
        if (value)
            write_some(begun->first, count, value);
        else
            trim_some(begun->first, count);
        for (uint32_t i = 0; i < count; i++)
            shared->acknowledged[begun->first + i] = value;
        begun->count = 0;
        shared->calls++;
    }
    return NULL;
}

/* The threads of a process that is killed. */
static void use_by_threads(enum mintlintel_image_mode mode)
{
    pthread_t thread;
    CHECK(mintlintel_image_open(&used, path, mode, LUNS, BLOCKS, PAGES, PAGE_BYTES, SECTORS) == MINTLINTEL_DONE);
    for (uintptr_t i = 1; i < THREADS; i++)
        CHECK(pthread_create(&thread, NULL, use, (void *)i) == 0);
    use(NULL);
}

/* Whether a call was begun that gives the sector this value. */
static int is_begun(uint32_t sector, uint32_t value)
{
    const struct call *begun = &shared->begun[sector / SHARE];
    return begun->count > 0 && sector - begun->first < begun->count && value == begun->value;
}

static void check_image(enum mintlintel_image_mode mode)
{
    struct mintlintel_image image = {0};
    uint32_t code = mintlintel_image_open(&image, path, mode, LUNS, BLOCKS, PAGES, PAGE_BYTES, SECTORS);
    CHECK(code == MINTLINTEL_DONE);
    for (uint32_t sector = 0; sector < SECTORS; sector++) {
        uint32_t value = value_of(&image, sector, PAGE_BYTES);
        CHECK(value == shared->acknowledged[sector] || is_begun(sector, value));
        shared->acknowledged[sector] = value;
    }
    for (int i = 0; i < THREADS; i++)
        shared->begun[i].count = 0;
    CHECK(mintlintel_image_close(&image) == MINTLINTEL_DONE);
}

static pthread_barrier_t all_begin;

static void *write_in_bursts(void *argument)
{
    uint32_t thread = (uint32_t)(uintptr_t)argument;
    for (uint32_t burst = 1; burst <= BURSTS; burst++) {
        pthread_barrier_wait(&all_begin);
        write_some(thread * SHARE + burst % SHARE, 1, burst);
    }
    return NULL;
}

static void tell_sleeper(int signal)
{
    static const char text[] = "kill9: a call sleeps though nobody is at work on what waits\n";
    (void)signal;
    _exit(write(STDERR_FILENO, text, sizeof text - 1) > 0 ? 1 : 2);
}

ssize_t __wrap_pwritev64(int fd, const struct iovec *parts, int count, off_t at)
{
    if (is_slow)
        usleep(300);
    return __real_pwritev64(fd, parts, count, at);
}

/* Writes are slow, so that threads sleep meanwhile. Behind each burst nobody comes who would wake them. */
static void write_at_once(void)
{
    pthread_t threads[THREADS];
    is_slow = 1;
    CHECK(mintlintel_image_open(&used, path, MINTLINTEL_FLUSH, LUNS, BLOCKS, PAGES, PAGE_BYTES, SECTORS) == MINTLINTEL_DONE);
    CHECK(pthread_barrier_init(&all_begin, NULL, THREADS) == 0);
    signal(SIGALRM, tell_sleeper);
    alarm(40);
    for (uintptr_t i = 0; i < THREADS; i++)
        CHECK(pthread_create(&threads[i], NULL, write_in_bursts, (void *)i) == 0);
    for (int i = 0; i < THREADS; i++)
        CHECK(pthread_join(threads[i], NULL) == 0);
    alarm(0);
    CHECK(mintlintel_image_close(&used) == MINTLINTEL_DONE);
    is_slow = 0;
    unlink(path);
}

int main(int argc, char **argv)
{
    long rounds = argc > 2 ? atol(argv[2]) : 30;
    snprintf(path, sizeof path, "%s/killed.image", argc > 1 ? argv[1] : "out");
    unlink(path);
    shared = mmap(NULL, sizeof *shared, PROT_READ | PROT_WRITE, MAP_SHARED | MAP_ANONYMOUS, -1, 0);
    CHECK(shared != MAP_FAILED);
    write_at_once();
    for (long round = 0; round < rounds; round++) {
        enum mintlintel_image_mode mode = 1 + drawn(&state) % 3;
        struct timespec pause = {0, 1000 + (long)(drawn(&state) % 40000000)};
        pid_t child = fork();
        CHECK(child >= 0);
        if (child == 0)
            use_by_threads(mode);
        nanosleep(&pause, NULL);
        kill(child, SIGKILL);
        int status;
        CHECK(waitpid(child, &status, 0) == child && WIFSIGNALED(status) && WTERMSIG(status) == SIGKILL);
        check_image(mode);
    }
    unlink(path);
    printf("kill9: %ld processes were killed, none of %llu acknowledged calls is lost, and none is made up\n", rounds, (unsigned long long)shared->calls);
    return 0;
}
