// A disk in several images: stripes of its pages go to its layers in turn. Each layer has an image, a chip and a lock of its own, so that requests to
// different layers don't wait for each other. With one layer `image=` names its image; with more it names a directory, which has them.
//
// The images of a new disk are made in the order of their numbers downwards, so the first is there only if all are.
#ifndef NBDKIT_LAYERS_H
#define NBDKIT_LAYERS_H

#include <stdint.h>

#include "image_disk.h"
#include "options.h"
#include "power.h"

enum { PAGES_OF_A_STRIPE = PAGES_OF_A_TURN };

struct layers {
    uint32_t count; // 0 before they are opened
    struct options *options;
    struct options own_options[MAX_LAYERS]; // each layer's share of the numbers, and its image
    struct image_disk disks[MAX_LAYERS];
    struct power power;
};

// Before the options are complete: finds how many layers the disk has. 0, or -1 with an error reported.
int layers_find(struct options *options);

// Before that: makes the images of the record that the options name. 0, or -1 with an error reported.
int layers_replay(struct options *options);

// As image_disk_open and those behind it, of all layers.
int layers_open(struct layers *layers, struct options *options);
int layers_start(struct layers *layers);
void layers_close(struct layers *layers);

// The requests, whose parts go to their layers one after the other.
int layers_read(struct layers *layers, uint8_t *to, uint32_t count, uint64_t offset);
int layers_write(struct layers *layers, const uint8_t *from, uint32_t count, uint64_t offset);
int layers_zero(struct layers *layers, uint32_t count, uint64_t offset, int may_trim);
int layers_trim(struct layers *layers, uint32_t count, uint64_t offset);
int layers_flush(struct layers *layers);
int layers_is_empty(struct layers *layers, uint32_t sector);

#endif
