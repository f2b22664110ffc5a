#define _GNU_SOURCE
#define NBDKIT_API_VERSION 2
#include "power.h"

#include <errno.h>
#include <fcntl.h>
#include <inttypes.h>
#include <mintlintel_image.h>
#include <nbdkit-plugin.h>
#include <pthread.h>
#include <signal.h>
#include <stdatomic.h>
#include <stdio.h>
#include <stdlib.h>
#include <string.h>
#include <sys/uio.h>
#include <unistd.h>

#include "random.h"
#include "record.h"

enum { DISK_SECTOR = 512, WAIT_FOR_A_WRITE_US = 10000, ONE_TORN_IN = 3 };
// So many bytes are kept of writes that aren't synced; then they are written to the disk, as a system does at some time.
enum { MOST_KEPT = 1 << 28 };

// Where an image's record of its session stands, by docs/FORMATS.md: the name of the machine's run, and the check of what is before it.
enum { SESSION_AT = 4096, BOOT_AT = 8, BOOT_BYTES = 36, SESSION_CHECK_AT = BOOT_AT + BOOT_BYTES, SESSION_BYTES = SESSION_CHECK_AT + 4 };

// A write that isn't synced: what was there before, and what was written.
struct unsynced {
    struct unsynced *older, *newer;
    int fd;
    off_t at;
    size_t count;
    uint8_t bytes[]; // those before, and those after
};

// Several threads read and write the images' files. What they do is in some order, by the mutex.
static struct {
    pthread_mutex_t mutex; // of all but the last three
    struct unsynced *newest, *oldest;
    size_t bytes; // of these
    uint64_t steps, cut, random, kept, lost, torn; // the steps are writes, and in a replay syncs too
    int is_armed, is_watched; // whether there may be a cut; whether there may be one, or a record
    enum unsynced_writes unsynced;
    const struct power *power;
    _Atomic int is_due; // the next write is cut
} state = {.mutex = PTHREAD_MUTEX_INITIALIZER};

ssize_t __real_pread64(int fd, void *bytes, size_t count, off_t at);
ssize_t __real_pwrite64(int fd, const void *bytes, size_t count, off_t at);
ssize_t __real_pwritev64(int fd, const struct iovec *parts, int count, off_t at);
int __real_fdatasync(int fd);
int __real_fsync(int fd);
ssize_t __wrap_pread64(int fd, void *bytes, size_t count, off_t at);
ssize_t __wrap_pwrite64(int fd, const void *bytes, size_t count, off_t at);
ssize_t __wrap_pwritev64(int fd, const struct iovec *parts, int count, off_t at);
int __wrap_fdatasync(int fd);
int __wrap_fsync(int fd);

#ifdef __SANITIZE_THREAD__
char power_given, power_written;
#endif

static void forget(struct unsynced *write) {
    *(write->older ? &write->older->newer : &state.oldest) = write->newer;
    *(write->newer ? &write->newer->older : &state.newest) = write->older;
    state.bytes -= 2 * write->count;
    free(write);
}

// Forgets the writes to a file, which are synced.
static void forget_all(int fd) {
    for (struct unsynced *write = state.oldest, *next; write; write = next) {
        next = write->newer;
        if (write->fd == fd)
            forget(write);
    }
}

static void begin(const struct power *power, const struct options *options) {
    state.power = power;
    state.cut = (uint64_t) options->cut;
    state.random = options->seed;
    state.unsynced = options->unsynced;
}

// ---- The cut.

static void put(int fd, const uint8_t *bytes, size_t count, off_t at) {
    if (__real_pwrite64(fd, bytes, count, at) != (ssize_t) count)
        fprintf(stderr, "mintlintel: a cut of the power couldn't change the image: %s\n", strerror(errno));
}

static int is_kept(uint64_t percent) {
    return next_number(&state.random) % 100 < percent;
}

// Writes those sectors of the disk again of a write that are kept: how many were, and how many not.
static void keep_sectors(const struct unsynced *write, uint64_t percent, uint32_t *kept, uint32_t *lost) {
    for (size_t begin = 0, end; begin < write->count; begin = end) {
        end = begin + DISK_SECTOR - ((size_t) write->at + begin) % DISK_SECTOR;
        end = end < write->count ? end : write->count;
        int keeps = is_kept(percent);
        if (keeps)
            put(write->fd, write->bytes + write->count + begin, end - begin, write->at + (off_t) begin);
        *kept += (uint32_t) keeps;
        *lost += (uint32_t) !keeps;
    }
}

// Up to which write those to a file are kept, which is drawn when the first of them is seen.
static uint64_t first_of(int fd, uint64_t writes) {
    static struct {
        int fd;
        uint64_t first;
    } files[MAX_LAYERS];
    static uint32_t count;
    uint32_t i = 0;
    while (i < count && files[i].fd != fd)
        i++;
    if (i == count && count < MAX_LAYERS) {
        files[count].fd = fd;
        files[count++].first = next_number(&state.random) % (writes + 1);
    }
    return i < count ? files[i].first : 0;
}

// Each write is lost, kept or torn by itself, and of one that is torn each sector of the disk is lost or kept; by every second seed a file keeps its first
// ones. With all of them lost, as if they never were, what is kept is written again in their order.
static void lose_writes(void) {
    uint64_t writes = 0, at = 0, some = next_number(&state.random) % 101, has_first = next_number(&state.random) % 2 && state.unsynced == UNSYNCED_SOME;
    uint64_t percent = state.unsynced == UNSYNCED_SOME ? some : state.unsynced == UNSYNCED_KEPT ? 100 : 0;
    for (struct unsynced *write = state.newest; write; write = write->older, writes++)
        put(write->fd, write->bytes, write->count, write->at);
    for (struct unsynced *write = state.oldest; write; write = write->newer, at++) {
        uint32_t kept = 0, lost = 0;
        int is_first = has_first && at < first_of(write->fd, writes);
        if (!is_first && next_number(&state.random) % ONE_TORN_IN == 0)
            keep_sectors(write, percent, &kept, &lost);
        else if (is_first || is_kept(percent)) {
            put(write->fd, write->bytes + write->count, write->count, write->at);
            kept = 1;
        }
        state.kept += kept > 0 && lost == 0;
        state.torn += kept > 0 && lost > 0;
        state.lost += kept == 0;
    }
}

// The machine's run has another name from now on, so that the next server doubts what it finds.
static void end_session(const char *image) {
    uint8_t session[SESSION_BYTES];
    int fd = open(image, O_RDWR | O_CLOEXEC); // there is none yet if the power goes while it is made
    if (fd == -1 || __real_pread64(fd, session, sizeof session, SESSION_AT) != sizeof session)
        return;
    memset(session + BOOT_AT, '-', BOOT_BYTES);
    uint32_t check = mintlintel_crc32c(0, session, SESSION_CHECK_AT);
    for (int i = 0; i < 4; i++)
        session[SESSION_CHECK_AT + i] = (uint8_t) (check >> 8 * i);
    put(fd, session, sizeof session, SESSION_AT);
}

static void lose_power(const char *step, const char *of) {
    lose_writes();
    for (uint32_t i = 0; i < state.power->count; i++)
        end_session(state.power->images[i]);
    fprintf(stderr, "mintlintel: the power is cut at %s %" PRIu64 " %s: of those that were not synced %" PRIu64 " are lost, and %" PRIu64
                    " kept; and of %" PRIu64 " a part\n", step, state.steps, of, state.lost, state.kept, state.torn);
}

static void cut(void) {
    lose_power("write", "to the image");
    _exit(STATUS_OF_A_CUT);
}

// ---- What the library calls.

// Keeps what a write changes. 0 if there is no memory.
static int keep(int fd, const void *bytes, size_t count, off_t at) {
    struct unsynced *write = malloc(sizeof *write + 2 * count);
    if (!write)
        return 0;
    *write = (struct unsynced){.older = state.newest, .fd = fd, .at = at, .count = count};
    memset(write->bytes, 0, count);
    if (__real_pread64(fd, write->bytes, count, at) < 0) {
        free(write);
        return 0;
    }
    memcpy(write->bytes + count, bytes, count);
    *(state.newest ? &state.newest->newer : &state.oldest) = write;
    state.newest = write;
    state.bytes += 2 * count;
    return 1;
}

// A write that is torn: of its sectors of the disk some first ones are written, all or none.
static size_t torn(size_t count, off_t at) {
    if (state.unsynced != UNSYNCED_SOME)
        return state.unsynced == UNSYNCED_KEPT ? count : 0;
    size_t bytes = (size_t) (next_number(&state.random) % (count + 1)), end = ((size_t) at + bytes) / DISK_SECTOR * DISK_SECTOR;
    return end > (size_t) at ? end - (size_t) at : 0;
}

// Nothing is read once the power is cut.
ssize_t __wrap_pread64(int fd, void *bytes, size_t count, off_t at) {
    if (!state.is_armed)
        return __real_pread64(fd, bytes, count, at);
    pthread_mutex_lock(&state.mutex);
    ssize_t result = __real_pread64(fd, bytes, count, at);
    pthread_mutex_unlock(&state.mutex);
    return result;
}

// Counts a write, and keeps what it changes: 1 if the power is cut at it, or else 0, or -1 if there is no memory.
static int count_write(int fd, const void *bytes, size_t count, off_t at) {
    state.steps++;
    int is_cut = state.steps == state.cut || atomic_load(&state.is_due);
    size_t most = is_cut ? torn(count, at) : count;
    if (most == 0 || keep(fd, bytes, most, at))
        return is_cut;
    errno = ENOMEM;
    return -1;
}

static ssize_t write_watched(int fd, const void *bytes, size_t count, off_t at) {
    int counted = state.is_armed ? count_write(fd, bytes, count, at) : 0;
    if (counted == 1)
        cut();
    if (counted == -1)
        return -1;
    ssize_t written = __real_pwrite64(fd, bytes, count, at);
    if (state.bytes > MOST_KEPT && __real_fdatasync(fd) == 0)
        forget_all(fd);
    return written > 0 && record_write(fd, bytes, (size_t) written, at) == -1 ? -1 : written;
}

ssize_t __wrap_pwrite64(int fd, const void *bytes, size_t count, off_t at) {
    if (!state.is_watched)
        return __real_pwrite64(fd, bytes, count, at);
    pthread_mutex_lock(&state.mutex);
    ssize_t result = write_watched(fd, bytes, count, at);
    pthread_mutex_unlock(&state.mutex);
    return result;
}

// Pages that are written together, or their stamps, are a write each.
static ssize_t write_parts(int fd, const struct iovec *parts, int count, off_t at) {
    ssize_t all = 0;
    for (int i = 0; i < count; i++) {
        ssize_t written = __wrap_pwrite64(fd, parts[i].iov_base, parts[i].iov_len, at + all);
        all += written > 0 ? written : 0;
        if (written != (ssize_t) parts[i].iov_len)
            return all > 0 ? all : written;
    }
    return all;
}

ssize_t __wrap_pwritev64(int fd, const struct iovec *parts, int count, off_t at) {
    announce_taken();
    ssize_t written = state.is_watched ? write_parts(fd, parts, count, at) : __real_pwritev64(fd, parts, count, at);
    announce_written();
    return written;
}

static int sync_file(int fd, int (*sync)(int fd)) {
    if (!state.is_watched)
        return sync(fd);
    pthread_mutex_lock(&state.mutex);
    int result = sync(fd);
    if (result == 0)
        forget_all(fd);
    result = result == 0 ? record_sync(fd) : result;
    pthread_mutex_unlock(&state.mutex);
    return result;
}

int __wrap_fdatasync(int fd) {
    return sync_file(fd, __real_fdatasync);
}

int __wrap_fsync(int fd) {
    return sync_file(fd, __real_fsync);
}

int power_answer_flush(void) {
    if (!state.is_watched)
        return 0;
    pthread_mutex_lock(&state.mutex);
    int result = record_flush();
    pthread_mutex_unlock(&state.mutex);
    return result;
}

// ---- A replay: the images of a record, up to a cut.

// Does a step of a record to its image: 1 if the power is cut at it, or else 0, or -1 with errno set.
static int replay_step(int fd, const struct record_step *step, const uint8_t *bytes) {
    int counted = 0;
    switch (step->kind) {
    case RECORD_LENGTH:
        return ftruncate(fd, (off_t) step->at);
    case RECORD_WRITE:
        counted = count_write(fd, bytes, step->count, (off_t) step->at);
        break;
    case RECORD_SYNC:
        counted = ++state.steps == state.cut;
        break;
    }
    if (counted != 0 || step->kind == RECORD_FLUSH)
        return counted;
    if (step->kind == RECORD_SYNC || state.bytes > MOST_KEPT)
        forget_all(fd);
    if (step->kind != RECORD_SYNC)
        put(fd, bytes, step->count, (off_t) step->at);
    return 0;
}

// The steps of a record up to the cut, or to its end.
static int replay_steps(const int *fds, uint32_t layers, int record) {
    struct record_step step;
    uint8_t *bytes;
    int is_cut = 0, has_next = 1;
    while (is_cut == 0 && has_next == 1) {
        has_next = record_next(record, &step, &bytes);
        if (has_next == 1 && step.layer >= layers)
            has_next = -1;
        is_cut = has_next == 1 ? replay_step(fds[step.layer], &step, bytes) : 0;
        free(bytes);
    }
    if (has_next == -1)
        nbdkit_error("the record is damaged");
    if (is_cut == -1)
        nbdkit_error("the record couldn't be replayed: %s", strerror(errno));
    return has_next == -1 || is_cut == -1 ? -1 : is_cut;
}

// Opens new files for the images.
static int open_images(const struct power *power, int *fds) {
    for (uint32_t i = 0; i < power->count; i++) {
        fds[i] = open(power->images[i], O_RDWR | O_CREAT | O_EXCL | O_CLOEXEC, 0666);
        if (fds[i] >= 0)
            continue;
        nbdkit_error("image=%s: a replay makes a new one: %s", power->images[i], strerror(errno));
        while (i-- > 0)
            close(fds[i]);
        return -1;
    }
    return 0;
}

int power_replay(const struct power *power, const struct options *options, int record) {
    int fds[MAX_LAYERS];
    begin(power, options);
    if (open_images(power, fds) == -1)
        return -1;
    int is_cut = replay_steps(fds, power->count, record);
    if (is_cut != -1)
        lose_power(is_cut ? "step" : "the end, behind step", "of the record");
    while (state.oldest)
        forget(state.oldest);
    for (uint32_t i = 0; i < power->count; i++) {
        close(fds[i]);
        if (is_cut == -1)
            unlink(power->images[i]);
    }
    return is_cut == -1 ? -1 : 0;
}

// ---- SIGUSR2.

static void one_signal(sigset_t *signals) {
    sigemptyset(signals);
    sigaddset(signals, SIGUSR2);
}

// The next write is cut, or, if there is none soon, the power goes between two.
static void *wait_for_signal(void *argument) {
    struct power *power = argument;
    sigset_t signals;
    int signal;
    one_signal(&signals);
    pthread_setname_np(pthread_self(), "power");
    while (sigwait(&signals, &signal) != 0)
        ;
    if (atomic_load(&power->is_stopping))
        return NULL;
    atomic_store(&state.is_due, 1);
    usleep(WAIT_FOR_A_WRITE_US);
    pthread_mutex_lock(&state.mutex);
    cut();
    return NULL;
}

int power_open(struct power *power, const struct options *options) {
    begin(power, options);
    if (record_open(options) == -1)
        return -1;
    power->is_armed = options->cut != NO_CUT && !options->replay;
    state.is_armed = power->is_armed;
    state.is_watched = power->is_armed || options->record;
    if (!power->is_armed)
        return 0;
    sigset_t signals;
    one_signal(&signals);
    int error = pthread_sigmask(SIG_BLOCK, &signals, NULL);
    if (error)
        nbdkit_error("SIGUSR2: %s", strerror(error));
    return error ? -1 : 0;
}

int power_start(struct power *power) {
    if (record_start(power->images, power->count) == -1)
        return -1;
    if (!power->is_armed)
        return 0;
    int error = pthread_create(&power->thread, NULL, wait_for_signal, power);
    power->has_thread = error == 0;
    if (error)
        nbdkit_error("no thread for the power: %s", strerror(error));
    return error ? -1 : 0;
}

void power_close(struct power *power) {
    if (power->has_thread) {
        atomic_store(&power->is_stopping, 1);
        pthread_kill(power->thread, SIGUSR2);
        pthread_join(power->thread, NULL);
        power->has_thread = 0;
    }
    state.is_armed = state.is_watched = 0;
    record_close();
    while (state.oldest)
        forget(state.oldest);
}
