// The device: the seats of the library with all that the plugin puts round them, and the requests of the clients.
//
// A sector is one page. A request of several pages is not one step: each of its pages is changed, or read, by itself.
#ifndef NBDKIT_DEVICE_H
#define NBDKIT_DEVICE_H

#include <pthread.h>
#include <stdint.h>

#include "brooms.h"
#include "faults.h"
#include "luns.h"
#include "options.h"
#include "sector_locks.h"
#include "stock.h"

struct device {
    struct options options;
    struct mintlintel_seat *host_seats, *broom_seats;
    struct sector_locks locks;
    struct stock stock;
    struct brooms brooms;
    struct luns luns;
    struct unreadable unreadable;
    _Atomic uint64_t refused_at; // when a write was last refused for want of a block, or 0
    _Atomic int has_stored;      // since then a page was written
    _Atomic int is_readonly;     // with worn=readonly a write was refused
    pthread_t counter; // writes the counts at each SIGUSR1
    _Atomic int has_counter, is_stopping;
    int is_open; // the seats are open
};

// 0, or -1 with an error reported.
int device_open(struct device *device);
int device_start(struct device *device);
void device_stop(struct device *device);
void device_close(struct device *device);

// The requests: 0, or -1 with an error set and reported. Clients have numbers; the pages that one writes go into blocks of its own, if the device has
// the blocks.
int device_read(struct device *device, uint8_t *to, uint32_t count, uint64_t offset);
int device_write(struct device *device, uint32_t client, const uint8_t *from, uint32_t count, uint64_t offset);
int device_zero(struct device *device, uint32_t client, uint32_t count, uint64_t offset, int may_trim);
int device_trim(struct device *device, uint32_t count, uint64_t offset);

// Whether a sector is empty: 1 or 0, or -1 with an error set and reported. A handle is taken for a run of such looks.
int device_is_empty(struct host *host, uint32_t sector);

#endif
