// A lock for each sector: a thread that changes a sector, or a part of it, holds its lock. Some sectors share one.
#ifndef NBDKIT_SECTOR_LOCKS_H
#define NBDKIT_SECTOR_LOCKS_H

#include <pthread.h>
#include <stdint.h>

enum { SECTOR_LOCKS = 1024 };

struct sector_locks {
    struct {
        _Alignas(64) pthread_mutex_t mutex;
    } locks[SECTOR_LOCKS];
};

void sector_locks_begin(struct sector_locks *locks);
void sector_locks_end(struct sector_locks *locks);

static inline void lock_sector(struct sector_locks *locks, uint32_t sector) {
    pthread_mutex_lock(&locks->locks[sector % SECTOR_LOCKS].mutex);
}

// 1 if it has the lock now.
static inline int try_lock_sector(struct sector_locks *locks, uint32_t sector) {
    return pthread_mutex_trylock(&locks->locks[sector % SECTOR_LOCKS].mutex) == 0;
}

static inline void unlock_sector(struct sector_locks *locks, uint32_t sector) {
    pthread_mutex_unlock(&locks->locks[sector % SECTOR_LOCKS].mutex);
}

#endif
