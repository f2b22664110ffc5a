#define NBDKIT_API_VERSION 2
#include "device.h"

#include <nbdkit-plugin.h>
#include <stdlib.h>
#include <string.h>

#include "age.h"
#include "counts.h"

static int open_seats(struct device *device) {
    const struct options *options = &device->options;
    device->host_seats = calloc(options->hosts, sizeof *device->host_seats);
    device->broom_seats = calloc(options->brooms + 1, sizeof *device->broom_seats);
    if (!device->host_seats || !device->broom_seats) {
        options_tell_refusal(options, MINTLINTEL_NO_MEMORY);
        return -1;
    }
    uint32_t code =
        mintlintel_shared_open(device->host_seats, options->hosts, device->broom_seats, options->brooms, options->luns,
                               options->blocks, options->pages, options->page / 8, options->sectors, options->endurance);
    if (code == MINTLINTEL_DONE)
        return 0;
    options_tell_refusal(options, code);
    return -1;
}

static void close_seats(struct device *device) {
    for (uint32_t i = 0; i < device->options.hosts && device->host_seats; i++)
        mintlintel_seat_close(announced(&device->host_seats[i]));
    for (uint32_t i = 0; i < device->options.brooms && device->broom_seats; i++)
        mintlintel_seat_close(announced(&device->broom_seats[i]));
    free(device->host_seats);
    free(device->broom_seats);
}

int device_open(struct device *device) {
    const struct options *options = &device->options;
    if (unreadable_begin(&device->unreadable, &options->unreadable, options->sectors) == -1)
        return -1;
    if (open_seats(device) == -1) {
        close_seats(device);
        return -1;
    }
    if (stock_begin(&device->stock, options, device->host_seats) == -1) {
        close_seats(device);
        return -1;
    }
    if (brooms_begin(&device->brooms, options, &device->stock, &device->luns, &device->locks, device->broom_seats) == -1) {
        stock_end(&device->stock);
        close_seats(device);
        return -1;
    }
    luns_begin(&device->luns, &options->part, options->luns, options->blocks);
    sector_locks_begin(&device->locks);
    device->is_open = 1;
    return 0;
}

int device_start(struct device *device) {
    if (device->options.stats && counts_start(device) == -1)
        return -1;
    if (brooms_start(&device->brooms) == -1)
        return -1;
    if (device->options.age > 0)
        age(device);
    luns_time(&device->luns);
    return 0;
}

void device_stop(struct device *device) {
    stock_stop(&device->stock);
    brooms_join(&device->brooms);
    counts_stop(device);
}

void device_close(struct device *device) {
    unreadable_end(&device->unreadable);
    if (!device->is_open)
        return;
    luns_end(&device->luns);
    sector_locks_end(&device->locks);
    brooms_end(&device->brooms);
    stock_end(&device->stock);
    close_seats(device);
    device->is_open = 0;
}
