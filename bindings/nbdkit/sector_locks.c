#include "sector_locks.h"

void sector_locks_begin(struct sector_locks *locks) {
    for (int i = 0; i < SECTOR_LOCKS; i++)
        pthread_mutex_init(&locks->locks[i].mutex, NULL);
}

void sector_locks_end(struct sector_locks *locks) {
    for (int i = 0; i < SECTOR_LOCKS; i++)
        pthread_mutex_destroy(&locks->locks[i].mutex);
}
