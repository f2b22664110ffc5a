#define _GNU_SOURCE
#define NBDKIT_API_VERSION 2
#include "layers.h"

#include <dirent.h>
#include <errno.h>
#include <fcntl.h>
#include <inttypes.h>
#include <libgen.h>
#include <nbdkit-plugin.h>
#include <stdio.h>
#include <stdlib.h>
#include <string.h>
#include <sys/stat.h>
#include <unistd.h>

#include <flash.h>

#include "pieces.h"
#include "record.h"

// ---- The directory.

// What a directory has: images of so many layers, those of the bits that are set, and whether it has files of others.
struct found {
    uint32_t count, layers;
    int has_others;
};

static char *path_of(const struct options *options, uint32_t layer) {
    char *path;
    if (asprintf(&path, "%s/layer-%" PRIu32 "-of-%" PRIu32, options->image, layer, options->layers) != -1)
        return path;
    nbdkit_error("there is no memory for the name of a layer");
    return NULL;
}

// Notes a file's name. Behind a layer's name an image has .bad and .new- for files of its own.
static int note_name(const struct options *options, const char *name, struct found *found) {
    uint32_t layer = 0, count = 0;
    char whole[64] = "";
    if (sscanf(name, "layer-%" SCNu32 "-of-%" SCNu32, &layer, &count) == 2 && count >= 2 && count <= MAX_LAYERS && layer < count)
        snprintf(whole, sizeof whole, "layer-%" PRIu32 "-of-%" PRIu32, layer, count);
    const char *rest = name + strlen(whole);
    int is_of_layer = *whole && strncmp(name, whole, strlen(whole)) == 0;
    if (is_of_layer && (strcmp(rest, ".bad") == 0 || strncmp(rest, ".new-", strlen(".new-")) == 0))
        return 0;
    if (!is_of_layer || *rest) {
        found->has_others |= strcmp(name, ".") != 0 && strcmp(name, "..") != 0;
        return 0;
    }
    if (found->count && found->count != count) {
        nbdkit_error("image=%s has images of %" PRIu32 " layers and of %" PRIu32, options->image, found->count, count);
        return -1;
    }
    found->count = count;
    found->layers |= 1u << layer;
    return 0;
}

static int look_into(const struct options *options, struct found *found) {
    DIR *directory = opendir(options->image);
    if (!directory && (errno == ENOENT || options->layers <= 1))
        return 0; // of which the image's open tells
    if (!directory) {
        nbdkit_error("image=%s: with layers=%" PRIu32 " it names a directory: %s", options->image, options->layers, strerror(errno));
        return -1;
    }
    int result = 0;
    for (struct dirent *entry = readdir(directory); result == 0 && entry; entry = readdir(directory))
        result = note_name(options, entry->d_name, found);
    closedir(directory);
    return result;
}

static const char *needs_one_layer(const struct options *options) {
    return options->part.read > 0 ? "part" : options->bad.count > 0 ? "bad" : options->unreadable.count > 0 ? "unreadable" : NULL;
}

// What is there of several layers: none or all of them, or those of a disk that was never finished. A disk keeps the pages of its blocks.
static int check_layers(struct options *options, const struct found *found) {
    const char *wrong = needs_one_layer(options);
    struct mintlintel_image_head head;
    if (wrong) {
        nbdkit_error("%s= needs a disk of one layer, and this one has %" PRIu32, wrong, options->layers);
        return -1;
    }
    if (!(found->layers & 1))
        return 0;
    for (uint32_t layer = 1; layer < options->layers; layer++) {
        if (found->layers >> layer & 1)
            continue;
        nbdkit_error("image=%s: layer-%" PRIu32 "-of-%" PRIu32 " is missing", options->image, layer, options->layers);
        return -1;
    }
    char *path = path_of(options, 0);
    if (path && !options->pages && mintlintel_image_look(path, &head) == MINTLINTEL_DONE)
        options->pages = head.numbers.pages;
    free(path);
    return path ? 0 : -1;
}

int layers_find(struct options *options) {
    struct found found = {0};
    if (look_into(options, &found) == -1)
        return -1;
    if (found.count && options->layers && options->layers != found.count) {
        nbdkit_error("image=%s has %" PRIu32 " layers, and not %" PRIu32 ": give layers=%" PRIu32 ", or none", options->image, found.count, options->layers,
                     found.count);
        return -1;
    }
    if (!found.count && options->layers > 1 && found.has_others) {
        nbdkit_error("image=%s has files, and no layer is among them: name a new directory, or an empty one", options->image);
        return -1;
    }
    options->layers = found.count ? found.count : options->layers ? options->layers : 1;
    return options->layers > 1 ? check_layers(options, &found) : 0;
}

// Makes the directory if there is none, and its name durable.
static int make_directory(const char *path) {
    char *copy = strdup(path);
    int is_made = copy && (mkdir(path, 0777) == 0 || errno == EEXIST);
    int fd = is_made ? open(dirname(copy), O_RDONLY | O_DIRECTORY | O_CLOEXEC) : -1;
    int result = fd >= 0 ? fsync(fd) : -1;
    if (result == -1)
        nbdkit_error("image=%s: %s", path, strerror(errno));
    if (fd >= 0)
        close(fd);
    free(copy);
    return result;
}

// ---- A replay.

// Makes the images, and the directory of several.
static int make_images(struct options *options, int record) {
    struct power power = {.count = options->layers};
    int result = 0;
    if (options->layers > 1 && make_directory(options->image) == -1)
        return -1;
    for (uint32_t layer = 0; result == 0 && layer < options->layers; layer++) {
        power.images[layer] = options->layers > 1 ? path_of(options, layer) : options->image;
        result = power.images[layer] ? 0 : -1;
    }
    if (result == 0)
        result = power_replay(&power, options, record);
    for (uint32_t layer = 0; options->layers > 1 && layer < options->layers; layer++)
        free((char *) power.images[layer]);
    return result;
}

int layers_replay(struct options *options) {
    uint32_t given = options->layers;
    int record = record_read(options->replay, &options->layers), result = -1;
    if (record == -1)
        return -1;
    if (given && given != options->layers)
        nbdkit_error("replay=%s is of %" PRIu32 " layers, and not %" PRIu32, options->replay, options->layers, given);
    else
        result = make_images(options, record);
    close(record);
    return result;
}

// ---- Which part of the disk is whose. What is given in bytes or in sectors has its stripe in them too.

// How much of the first `length` of the disk is in a layer.
static uint64_t share_of(const struct layers *layers, uint32_t layer, uint64_t length, uint64_t stripe) {
    uint64_t whole = length / stripe;
    return (whole + layers->count - 1 - layer) / layers->count * stripe + (whole % layers->count == layer ? length % stripe : 0);
}

// The layer that has a place of the disk. The place becomes the layer's.
static struct image_disk *layer_of(struct layers *layers, uint64_t *at, uint64_t stripe) {
    uint64_t number = *at / stripe;
    *at = number / layers->count * stripe + *at % stripe;
    return &layers->disks[number % layers->count];
}

static uint64_t stripe_bytes(const struct layers *layers) {
    return (uint64_t) PAGES_OF_A_STRIPE * layers->options->page;
}

// ---- Opening and closing.

// A layer's share of the options. The images of a disk that isn't finished have to have its numbers.
static int share_options(struct layers *layers, uint32_t layer, int is_finished) {
    const struct options *all = layers->options;
    struct options *own = &layers->own_options[layer];
    *own = *all;
    if (layers->count == 1)
        return 0;
    own->image = path_of(all, layer);
    own->seed += layer;
    own->sectors = (uint32_t) share_of(layers, layer, all->sectors, PAGES_OF_A_STRIPE);
    uint32_t share = (all->blocks - 1) / layers->count + 1;
    own->blocks = all->has_blocks ? (share + own->luns - 1) / own->luns * own->luns : options_blocks(own);
    own->is_unfinished = !is_finished;
    own->has_numbers |= own->is_unfinished;
    return own->image ? 0 : -1;
}

// Whether the first of several layers is there, and so all are. If not, their directory is made: -1 with an error reported if that fails.
static int is_finished(const struct options *options) {
    char *first = path_of(options, 0);
    int is_there = first ? access(first, F_OK) == 0 : -1;
    free(first);
    return is_there == 0 ? make_directory(options->image) : is_there;
}

static int refuse_size(const struct options *options, uint32_t least) {
    nbdkit_error("layers=%" PRIu32 ": the disk has at least %" PRIu32 " sectors then, which are %" PRIu64 " bytes", options->layers, least,
                 (uint64_t) least * options->page);
    return -1;
}

// Opens a layer, or makes it. One of a disk that was never finished has no data.
static int open_layer(struct layers *layers, uint32_t layer, int is_finished) {
    struct image_disk *disk = &layers->disks[layer];
    struct options *own = &layers->own_options[layer];
    if (image_disk_open(disk, own) == -1)
        return -1;
    for (uint32_t at = 0; !is_finished && at < own->sectors; at++) {
        if (image_disk_is_empty(disk, at))
            continue;
        nbdkit_error("image=%s: layer-0-of-%" PRIu32 " is missing, and layer-%" PRIu32 " has data", layers->options->image, layers->count, layer);
        return -1;
    }
    return 0;
}

// The numbers of the disk are those of its layers together.
static int take_numbers(struct layers *layers) {
    const struct options *own = layers->own_options;
    struct options *all = layers->options;
    uint64_t sectors = 0, blocks = 0;
    for (uint32_t layer = 0; layer < layers->count; layer++) {
        sectors += own[layer].sectors;
        blocks += own[layer].blocks;
    }
    for (uint32_t layer = 0; layer < layers->count; layer++) {
        uint64_t wanted = share_of(layers, layer, sectors, PAGES_OF_A_STRIPE);
        if (own[layer].page == own->page && own[layer].sectors == wanted && sectors <= UINT32_MAX)
            continue;
        nbdkit_error("image=%s: layer-%" PRIu32 "-of-%" PRIu32 " has %" PRIu32 " sectors of %" PRIu32 " bytes, and not %" PRIu64 " of %" PRIu32
                     " as in a disk of %" PRIu64,
                     all->image, layer, layers->count, own[layer].sectors, own[layer].page, wanted, own->page, sectors);
        return -1;
    }
    all->luns = own->luns;
    all->blocks = (uint32_t) blocks;
    all->pages = own->pages;
    all->page = own->page;
    all->sectors = (uint32_t) sectors;
    return 0;
}

int layers_open(struct layers *layers, struct options *options) {
    uint32_t least = (options->layers - 1) * PAGES_OF_A_STRIPE + 1;
    if (options->sectors < least)
        return refuse_size(options, least);
    int finished = options->layers > 1 ? is_finished(options) : 1;
    if (finished == -1)
        return -1;
    layers->options = options;
    layers->count = options->layers;
    for (uint32_t layer = 0; layer < layers->count; layer++) {
        if (share_options(layers, layer, finished) == -1)
            return -1;
        layers->power.images[layer] = layers->own_options[layer].image;
    }
    layers->power.count = layers->count;
    if (power_open(&layers->power, options) == -1)
        return -1;
    for (uint32_t layer = layers->count; layer-- > 0;)
        if (open_layer(layers, layer, finished) == -1)
            return -1;
    return take_numbers(layers);
}

int layers_start(struct layers *layers) {
    for (uint32_t layer = 0; layer < layers->count; layer++)
        image_disk_start(&layers->disks[layer]);
    return power_start(&layers->power);
}

void layers_close(struct layers *layers) {
    power_close(&layers->power);
    for (uint32_t layer = 0; layer < layers->count; layer++) {
        image_disk_close(&layers->disks[layer]);
        if (layers->count > 1)
            free(layers->own_options[layer].image);
    }
    layers->count = 0;
}

// ---- The requests.

// The part of a request that comes next: what it has in a stripe, or all of it with one layer.
struct part_of_layer {
    struct image_disk *disk;
    uint64_t offset;
    uint32_t count;
};

static int next_part(struct layers *layers, struct range *range, struct part_of_layer *part) {
    uint64_t stripe = stripe_bytes(layers), left = stripe - range->offset % stripe;
    part->offset = range->offset;
    part->disk = layer_of(layers, &part->offset, stripe);
    part->count = layers->count > 1 && left < range->count ? (uint32_t) left : range->count;
    range->offset += part->count;
    range->count -= part->count;
    return part->count > 0;
}

int layers_read(struct layers *layers, uint8_t *to, uint32_t count, uint64_t offset) {
    struct range range = {.offset = offset, .count = count};
    struct part_of_layer part;
    int result = 0;
    for (; result == 0 && next_part(layers, &range, &part); to += part.count)
        result = image_disk_read(part.disk, to, part.count, part.offset);
    return result;
}

int layers_write(struct layers *layers, const uint8_t *from, uint32_t count, uint64_t offset) {
    struct range range = {.offset = offset, .count = count};
    struct part_of_layer part;
    int result = 0;
    for (; result == 0 && next_part(layers, &range, &part); from += part.count)
        result = image_disk_write(part.disk, from, part.count, part.offset);
    return result;
}

// All that a layer has of a request, which stands there one behind another.
static struct range share_of_request(const struct layers *layers, uint32_t layer, uint32_t count, uint64_t offset) {
    uint64_t stripe = stripe_bytes(layers), begin = share_of(layers, layer, offset, stripe), end = share_of(layers, layer, offset + count, stripe);
    return (struct range){.offset = begin, .count = (uint32_t) (end - begin)};
}

int layers_zero(struct layers *layers, uint32_t count, uint64_t offset, int may_trim) {
    int result = 0;
    for (uint32_t layer = 0; result == 0 && layer < layers->count; layer++) {
        struct range range = share_of_request(layers, layer, count, offset);
        if (range.count > 0)
            result = image_disk_zero(&layers->disks[layer], range.count, range.offset, may_trim);
    }
    return result;
}

int layers_trim(struct layers *layers, uint32_t count, uint64_t offset) {
    int result = 0;
    for (uint32_t layer = 0; result == 0 && layer < layers->count; layer++) {
        struct range range = share_of_request(layers, layer, count, offset);
        if (range.count > 0)
            result = image_disk_trim(&layers->disks[layer], range.count, range.offset);
    }
    return result;
}

int layers_flush(struct layers *layers) {
    int result = 0;
    for (uint32_t layer = 0; result == 0 && layer < layers->count; layer++)
        result = image_disk_flush(&layers->disks[layer]);
    return result == 0 ? power_answer_flush() : result;
}

int layers_is_empty(struct layers *layers, uint32_t sector) {
    uint64_t at = sector;
    struct image_disk *disk = layer_of(layers, &at, PAGES_OF_A_STRIPE);
    return image_disk_is_empty(disk, (uint32_t) at);
}
