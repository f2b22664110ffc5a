// Power cuts of a disk in images, by cut=: the power goes at a write to a file, or at SIGUSR2. That write is torn, each write that was not synced
// is lost, kept or torn, by the seed, and the server ends. The next one finds what a machine finds after a power cut.
//
// By replay= the images are made of a record, as their disk has them behind a cut at a step of it.
//
// All reads, writes and syncs of the library go through this: its calls of pread, pwrite, fdatasync and fsync are linked to the functions here.
#ifndef NBDKIT_POWER_H
#define NBDKIT_POWER_H

#include <pthread.h>
#include <stdint.h>

#include "options.h"

enum { STATUS_OF_A_CUT = 3 };

struct power {
    const char *images[MAX_LAYERS]; // their files, as many as the disk has layers
    uint32_t count;
    pthread_t thread; // waits for SIGUSR2
    int has_thread, is_armed;
    _Atomic int is_stopping;
};

// From now on the writes to the images are counted and kept, if the options have a cut: before these are opened. 0, or -1 with an error reported.
int power_open(struct power *power, const struct options *options);

// Makes new images of a record that was opened, behind the cut of the options. 0, or -1 with an error reported.
int power_replay(const struct power *power, const struct options *options, int record);

// Starts the record, and the thread that waits for SIGUSR2.
int power_start(struct power *power);

// Notes in a record that a client's flush is answered: 0, or -1 with errno set.
int power_answer_flush(void);
void power_close(struct power *power);

// The library gives pages that wait to the thread that writes them, and then has them back, by atomic numbers that ThreadSanitizer doesn't see: so it is
// told of that.
#ifdef __SANITIZE_THREAD__
void __tsan_acquire(void *at);
void __tsan_release(void *at);
extern char power_given, power_written;
static inline void announce_given(void) {
    __tsan_release(&power_given);
}
static inline void announce_taken(void) {
    __tsan_acquire(&power_given);
}
static inline void announce_written(void) {
    __tsan_release(&power_written);
}
static inline void announce_had_back(void) {
    __tsan_acquire(&power_written);
}
#else
static inline void announce_given(void) {
}
static inline void announce_taken(void) {
}
static inline void announce_written(void) {
}
static inline void announce_had_back(void) {
}
#endif

#endif
