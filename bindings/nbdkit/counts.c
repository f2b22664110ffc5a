#define _GNU_SOURCE
#define NBDKIT_API_VERSION 2
#include "counts.h"

#include <errno.h>
#include <fcntl.h>
#include <inttypes.h>
#include <nbdkit-plugin.h>
#include <signal.h>
#include <stdio.h>
#include <stdlib.h>
#include <string.h>
#include <time.h>
#include <unistd.h>

// So much of the file's name is in the one under which it is written.
enum { MOST_OF_A_NAME = 200 };

struct host_counts {
    uint64_t reads, writes, trims, refusals, handles_that_wrote;
};
struct broom_counts {
    uint64_t drains, kept, pinned, lost, fruitless;
};
struct stock_counts {
    uint64_t free, open, waits, waited_ns, gave_up, miscounts, lost_wake_ups;
};

static struct host_counts counts_of_hosts(const struct stock *stock) {
    struct host_counts counts = {0};
    for (uint32_t i = 0; i < stock->host_count; i++) {
        struct host *host = &stock->hosts[i];
        counts.reads += tally_of(&host->reads);
        counts.writes += tally_of(&host->writes);
        counts.trims += tally_of(&host->trims);
        counts.refusals += tally_of(&host->refusals);
        counts.handles_that_wrote += tally_of(&host->writes) > 0;
    }
    return counts;
}

static struct broom_counts counts_of_brooms(const struct brooms *brooms) {
    struct broom_counts counts = {0};
    for (uint32_t i = 0; i < brooms->count; i++) {
        struct broom *broom = &brooms->brooms[i];
        counts.drains += tally_of(&broom->drains);
        counts.kept += tally_of(&broom->kept);
        counts.pinned += tally_of(&broom->pinned);
        counts.lost += tally_of(&broom->lost);
        counts.fruitless += tally_of(&broom->fruitless);
    }
    return counts;
}

static struct stock_counts counts_of_stock(struct stock *stock) {
    pthread_mutex_lock(&stock->mutex);
    struct stock_counts counts = {
        .free = stock->free_count > 0 ? (uint64_t) stock->free_count : 0,
        .open = stock->open_count,
        .waits = stock->waits,
        .waited_ns = stock->waited.nanoseconds,
        .gave_up = stock->gave_up,
        .miscounts = stock->miscounts,
        .lost_wake_ups = stock->lost_wake_ups,
    };
    pthread_mutex_unlock(&stock->mutex);
    return counts;
}

static void print_numbers(FILE *file, const struct options *options) {
    const struct {
        const char *name;
        uint64_t number;
    } lines[] = {
        {"luns", options->luns},       {"blocks", options->blocks},   {"pages", options->pages},
        {"page_bytes", options->page}, {"sectors", options->sectors}, {"endurance", options->endurance},
        {"hosts", options->hosts},     {"brooms", options->brooms},   {"low", options->low},
        {"high", options->high},
    };
    for (size_t i = 0; i < sizeof lines / sizeof *lines; i++)
        fprintf(file, "%s,%" PRIu64 "\n", lines[i].name, lines[i].number);
}

static void print_counts(FILE *file, struct device *device, uint64_t erases, uint64_t retired) {
    struct host_counts hosts = counts_of_hosts(&device->stock);
    struct broom_counts brooms = counts_of_brooms(&device->brooms);
    struct stock_counts stock = counts_of_stock(&device->stock);
    const struct {
        const char *name;
        uint64_t number;
    } lines[] = {
        {"programs", hosts.writes},
        {"copies", brooms_copies(&device->brooms)},
        {"erases", erases},
        {"free_blocks", stock.free},
        {"retired_blocks", retired},
        {"reads", hosts.reads},
        {"trims", hosts.trims},
        {"refused_tries", hosts.refusals},
        {"handles_that_wrote", hosts.handles_that_wrote},
        {"open_blocks", stock.open},
        {"waits", stock.waits},
        {"waited_ms", stock.waited_ns / 1000000},
        {"no_space", stock.gave_up},
        {"miscounts", stock.miscounts},
        {"lost_wake_ups", stock.lost_wake_ups},
        {"drains", brooms.drains},
        {"kept_as_spare", brooms.kept},
        {"pinned", brooms.pinned},
        {"lost", brooms.lost},
        {"fruitless_rounds", brooms.fruitless},
    };
    for (size_t i = 0; i < sizeof lines / sizeof *lines; i++)
        fprintf(file, "%s,%" PRIu64 "\n", lines[i].name, lines[i].number);
}

static int print_all(FILE *file, struct device *device) {
    uint64_t sum, retired;
    uint32_t *erases = brooms_erases(&device->brooms, &sum, &retired);
    if (!erases)
        return -1;
    fprintf(file, "name,number\n");
    print_numbers(file, &device->options);
    print_counts(file, device, sum, retired);
    fprintf(file, "block,erases,retired\n");
    for (uint32_t i = 0; i < device->brooms.blocks; i++)
        fprintf(file, "%" PRIu32 ",%" PRIu32 ",%d\n", i, erases[i], brooms_retire(&device->brooms, erases[i]));
    free(erases);
    return 0;
}

static int tell(const char *call, const char *name) {
    nbdkit_error("%s: %s: %s", call, name, strerror(errno));
    return -1;
}

// A name of this moment in the folder of a file, with a part of its name, as far as a name may be long.
static char *new_name(const char *path) {
    const char *slash = strrchr(path, '/'), *name = slash ? slash + 1 : path;
    size_t length = strlen(name) < MOST_OF_A_NAME ? strlen(name) : MOST_OF_A_NAME;
    struct timespec now;
    char *made;
    clock_gettime(CLOCK_REALTIME, &now);
    return asprintf(&made, "%.*s.new-%ld-%ld", (int) (name - path) + (int) length, path, (long) getpid(), (long) now.tv_nsec) == -1 ? NULL : made;
}

// A file that wasn't there, so nobody has led the name elsewhere.
static FILE *open_new(const char *name) {
    int fd = open(name, O_WRONLY | O_CREAT | O_EXCL | O_NOFOLLOW | O_CLOEXEC, 0666);
    FILE *file = fd >= 0 ? fdopen(fd, "w") : NULL;
    if (fd >= 0 && !file) {
        close(fd);
        unlink(name);
    }
    return file;
}

int counts_write(struct device *device) {
    char *name = new_name(device->options.stats);
    FILE *file = name ? open_new(name) : NULL;
    if (!file) {
        tell("stats", device->options.stats);
        free(name);
        return -1;
    }
    int has_failed = print_all(file, device);
    has_failed |= ferror(file);
    has_failed |= fclose(file);
    if (has_failed || rename(name, device->options.stats) == -1) {
        tell("stats", device->options.stats);
        unlink(name);
        free(name);
        return -1;
    }
    free(name);
    return 0;
}

static void one_signal(sigset_t *signals) {
    sigemptyset(signals);
    sigaddset(signals, SIGUSR1);
}

static void *write_at_signals(void *argument) {
    struct device *device = argument;
    sigset_t signals;
    int signal;
    one_signal(&signals);
    pthread_setname_np(pthread_self(), "counts");
    while (sigwait(&signals, &signal) == 0 && !atomic_load(&device->is_stopping))
        counts_write(device);
    return NULL;
}

static void ignore(int signal) {
    (void) signal;
}

// By default the signal would end the process.
int counts_mind_signals(void) {
    struct sigaction action = {.sa_handler = ignore, .sa_flags = SA_RESTART};
    if (sigaction(SIGUSR1, &action, NULL) == 0)
        return 0;
    nbdkit_error("SIGUSR1: %s", strerror(errno));
    return -1;
}

// All threads of the server start after this one, so none of them is interrupted by the signal.
int counts_start(struct device *device) {
    sigset_t signals;
    one_signal(&signals);
    int error = pthread_sigmask(SIG_BLOCK, &signals, NULL);
    if (error == 0)
        error = pthread_create(&device->counter, NULL, write_at_signals, device);
    if (error == 0) {
        device->has_counter = 1;
        return 0;
    }
    nbdkit_error("no thread for the counts: %s", strerror(error));
    return -1;
}

void counts_stop(struct device *device) {
    if (!device->has_counter)
        return;
    atomic_store(&device->is_stopping, 1);
    pthread_kill(device->counter, SIGUSR1);
    pthread_join(device->counter, NULL);
    device->has_counter = 0;
}
