#define NBDKIT_API_VERSION 2
#include "age.h"

#include <inttypes.h>
#include <nbdkit-plugin.h>
#include <stdio.h>

#include "random.h"

void age(struct device *device) {
    const struct options *options = &device->options;
    uint64_t state = options->seed, sectors = options->sectors, writes = 0, most = sectors * options->age;
    // Brooms and writes take turns, so that the same is done in the same order each time.
    stock_hold_brooms(&device->stock, 1);
    while (writes < most) {
        uint64_t sector = writes < sectors ? writes : next_number(&state) % sectors;
        if (device_zero(device, 0, options->page, sector * options->page, 0) == -1)
            break;
        stock_turn_of_brooms(&device->stock);
        writes++;
    }
    stock_hold_brooms(&device->stock, 0);
    fprintf(stderr, "mintlintel: aged by %" PRIu64 " writes%s\n", writes, writes < most ? ", and worn out" : "");
}
