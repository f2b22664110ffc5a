#define _GNU_SOURCE
#define NBDKIT_API_VERSION 2
#include "report.h"

#include <inttypes.h>
#include <nbdkit-plugin.h>
#include <stdio.h>
#include <stdlib.h>

#include <flash.h>

enum { REPORT_BLOCK = 4096 };

// What was done, in pages and blocks.
struct work {
    uint64_t reads, programs, trims, emptied, used, copies, erases, retired;
};

// What the stock knows, at one moment.
struct supply {
    uint64_t free, open, refused, waiting;
    struct waits waited;
};

static struct work work_of(struct device *device) {
    struct work work = {0};
    uint64_t filled = 0;
    for (uint32_t i = 0; i < device->stock.host_count; i++) {
        struct host *host = &device->stock.hosts[i];
        work.reads += tally_of(&host->reads);
        work.programs += tally_of(&host->writes);
        work.trims += tally_of(&host->trims);
        work.emptied += tally_of(&host->emptied);
        filled += tally_of(&host->filled);
    }
    work.used = filled > work.emptied ? filled - work.emptied : 0; // both are of moments near each other
    work.copies = brooms_copies(&device->brooms);
    return work;
}

static struct supply supply_of(struct stock *stock) {
    pthread_mutex_lock(&stock->mutex);
    struct supply supply = {
        .free = stock->free_count > 0 ? (uint64_t) stock->free_count : 0,
        .open = stock->open_count,
        .refused = stock->gave_up,
        .waited = stock->waited,
        .waiting = stock->starving,
    };
    pthread_mutex_unlock(&stock->mutex);
    return supply;
}

static void tell_blocks(FILE *file, const uint32_t *erases, uint32_t blocks) {
    for (uint32_t i = 0; i < blocks; i++)
        fprintf(file, "%s%" PRIu32, i > 0 ? ", " : "  \"erases_by_block\": [", erases[i]);
    fprintf(file, "]\n}\n");
}

static void tell_waits(FILE *file, const struct waits *waited, uint64_t waiting) {
    uint64_t writes = 0;
    for (int i = 0; i < WAIT_STEPS; i++)
        writes += waited->by_time[i];
    fprintf(file, "  \"waits\": {\"writes\": %" PRIu64 ", \"microseconds\": %" PRIu64 ", \"now\": %" PRIu64 ", \"by_time\": [\n", writes,
            waited->nanoseconds / 1000, waiting);
    for (int i = 0; i + 1 < WAIT_STEPS; i++)
        fprintf(file, "    {\"up_to_microseconds\": %" PRIu64 ", \"writes\": %" PRIu64 "},\n", (uint64_t) FIRST_WAIT_STEP_US << i,
                waited->by_time[i]);
    fprintf(file, "    {\"up_to_microseconds\": null, \"writes\": %" PRIu64 "}]},\n", waited->by_time[WAIT_STEPS - 1]);
}

// A line with part / whole in three decimals, or null if there is no whole.
static void tell_ratio(FILE *file, const char *name, uint64_t part, uint64_t whole) {
    uint64_t thousandths = whole > 0 ? (uint64_t) ((unsigned __int128) part * 1000 / whole) : 0;
    if (whole > 0)
        fprintf(file, "  \"%s\": %" PRIu64 ".%03" PRIu64 ",\n", name, thousandths / 1000, thousandths % 1000);
    else
        fprintf(file, "  \"%s\": null,\n", name);
}

struct line {
    const char *name;
    uint64_t number;
};

static void tell_lines(FILE *file, const struct line *lines, size_t count) {
    for (size_t i = 0; i < count; i++)
        fprintf(file, "  \"%s\": %" PRIu64 ",\n", lines[i].name, lines[i].number);
}

static void tell_numbers(FILE *file, const struct options *options) {
    const struct line lines[] = {
        {"bytes", (uint64_t) options->sectors * options->page}, {"page_bytes", options->page}, {"pages_of_a_block", options->pages},
        {"blocks", options->blocks}, {"luns", options->luns},
    };
    fprintf(file, "{\n  \"library\": \"mintlintel %s\",\n", mintlintel_version());
    tell_lines(file, lines, sizeof lines / sizeof *lines);
}

static void tell_work(FILE *file, const struct options *options, const struct work *work, const struct supply *supply) {
    const struct line lines[] = {
        {"used_bytes", work->used * options->page}, {"endurance", options->endurance}, {"handles", options->hosts}, {"brooms", options->brooms},
        {"host_reads", work->reads}, {"host_programs", work->programs}, {"host_trims", work->trims}, {"trims_that_freed", work->emptied},
        {"copies", work->copies}, {"erases", work->erases}, {"refused_writes", supply->refused}, {"free_blocks", supply->free},
        {"open_blocks", supply->open}, {"retired_blocks", work->retired},
    };
    tell_lines(file, lines, sizeof lines / sizeof *lines);
}

static int tell(FILE *file, struct device *device) {
    const struct options *options = &device->options;
    struct work work = work_of(device);
    struct supply supply = supply_of(&device->stock);
    uint32_t *erases = brooms_erases(&device->brooms, &work.erases, &work.retired);
    if (!erases)
        return -1;
    tell_numbers(file, options);
    uint64_t left = options->spare_blocks > work.retired ? options->spare_blocks - work.retired : 0;
    tell_ratio(file, "percentage_used", 100 * work.erases, options->blocks * (uint64_t) (options->endurance - 1));
    tell_ratio(file, "available_spare", 100 * left, options->spare_blocks);
    tell_ratio(file, "write_amplification", work.programs + work.copies, work.programs);
    fprintf(file, "  \"is_readonly\": %s,\n", atomic_load(&device->is_readonly) ? "true" : "false");
    tell_work(file, options, &work, &supply);
    tell_waits(file, &supply.waited, supply.waiting);
    tell_blocks(file, erases, options->blocks);
    free(erases);
    return 0;
}

// What the layers of an image's disk have done together since the server's start.
struct image_work {
    uint64_t reads, writes, trims, flushes, failed_programs, failed_erases, bad_blocks, reserve_blocks;
    uint64_t all_erases, spare, spare_left; // in the disk's life; blocks that the sectors don't need, and those of them that are good
    uint64_t waiting;
    struct waits waited;
    struct mintlintel_totals totals;
    int is_readonly;
};

static void add_totals(struct mintlintel_totals *sum, const struct mintlintel_totals *totals) {
    sum->programs += totals->programs;
    sum->copies += totals->copies;
    sum->erases += totals->erases;
}

static void add_waits(struct image_work *work, const struct image_disk *disk) {
    work->waiting += disk->collecting;
    work->waited.nanoseconds += disk->waited.nanoseconds;
    for (int i = 0; i < WAIT_STEPS; i++)
        work->waited.by_time[i] += disk->waited.by_time[i];
}

static void add_blocks(struct image_work *work, const struct image_disk *disk) {
    const uint32_t *erases = mtl_durable_erases(&disk->image.device);
    for (uint32_t block = 0; block < disk->options->blocks; block++)
        work->all_erases += erases[block];
    work->spare += chip_spare(&disk->chip, disk->chip.counts.factory_bad_blocks);
    work->spare_left += chip_spare(&disk->chip, disk->chip.counts.bad_blocks);
}

static void add_work(struct image_work *work, struct image_disk *disk) {
    struct mintlintel_totals totals = {0};
    pthread_mutex_lock(&disk->mutex);
    mintlintel_durable_counts(&disk->image.device, &totals);
    const struct chip_counts *counts = &disk->chip.counts;
    add_totals(&work->totals, &totals);
    add_totals(&work->totals, &counts->before);
    work->reads += disk->reads;
    work->writes += disk->writes;
    work->trims += disk->trims;
    work->flushes += disk->flushes;
    work->failed_programs += counts->failed_programs;
    work->failed_erases += counts->failed_erases;
    work->bad_blocks += counts->bad_blocks;
    work->reserve_blocks += counts->reserve_blocks;
    work->is_readonly |= disk->is_worn;
    add_waits(work, disk);
    add_blocks(work, disk);
    pthread_mutex_unlock(&disk->mutex);
}

static void tell_image(FILE *file, struct layers *layers) {
    static const char *const modes[] = {[MINTLINTEL_ALWAYS] = "always", [MINTLINTEL_FLUSH] = "flush", [MINTLINTEL_NEVER] = "never"};
    struct image_work work = {0};
    for (uint32_t layer = 0; layer < layers->count; layer++)
        add_work(&work, &layers->disks[layer]);
    const struct line several = {"layers", layers->count}, lines[] = {
        {"host_reads", work.reads}, {"host_programs", work.writes}, {"host_trims", work.trims}, {"flushes", work.flushes},
        {"programs", work.totals.programs}, {"copies", work.totals.copies}, {"erases", work.totals.erases},
        {"failed_programs", work.failed_programs}, {"failed_erases", work.failed_erases}, {"bad_blocks", work.bad_blocks},
        {"reserve_blocks", work.reserve_blocks},
    };
    tell_numbers(file, layers->options);
    tell_lines(file, &several, layers->count > 1);
    tell_ratio(file, "percentage_used", 100 * work.all_erases, layers->options->blocks * (uint64_t) (layers->options->endurance - 1));
    tell_ratio(file, "available_spare", 100 * work.spare_left, work.spare);
    tell_ratio(file, "write_amplification", work.totals.programs + work.totals.copies, work.writes);
    tell_lines(file, lines, sizeof lines / sizeof *lines);
    tell_waits(file, &work.waited, work.waiting);
    fprintf(file, "  \"is_readonly\": %s,\n", work.is_readonly ? "true" : "false");
    fprintf(file, "  \"sync\": \"%s\"\n}\n", modes[layers->options->sync]);
}

// Ends a text, to which `failed` says whether a part of it is missing. NULL if so.
static char *end_report(FILE *file, char **text, int failed) {
    while (!failed && ftell(file) % REPORT_BLOCK != 0 && !ferror(file))
        fputc(' ', file);
    failed |= ferror(file);
    failed |= fclose(file);
    if (!failed)
        return *text;
    free(*text);
    return NULL;
}

char *report_make(struct device *device, size_t *size) {
    char *text = NULL;
    FILE *file = open_memstream(&text, size);
    return file ? end_report(file, &text, tell(file, device) == -1) : NULL;
}

char *report_of_image(struct layers *layers, size_t *size) {
    char *text = NULL;
    FILE *file = open_memstream(&text, size);
    if (!file)
        return NULL;
    tell_image(file, layers);
    return end_report(file, &text, 0);
}
