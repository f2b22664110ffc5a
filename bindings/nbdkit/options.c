#define NBDKIT_API_VERSION 2
#include "options.h"

#include <errno.h>
#include <inttypes.h>
#include <nbdkit-plugin.h>
#include <stdio.h>
#include <stdlib.h>
#include <string.h>
#include <unistd.h>

#include <mintlintel_image.h>

#include "library.h"

enum {
    MAX_SECTORS_OF_AN_IMAGE = 268435456,
    BLOCKS_OF_AN_IMAGE = 4, // that are kept to collect with
    FEW_SPARE = 20,         // with fewer spare blocks none is kept free ahead of writes
    FEWEST_PAGES = 64,      // of a block, by default
    MOST_PAGES = 1024,
    BLOCKS_BEFORE_PAGES = 512, // so many blocks an image has before these are made larger
    MAX_SPARE = 10000,
    MAX_WAIT = 600000,
    MAX_AGE = 1000,
};

const char options_help[] = "[size=]SIZE            Bytes of the device, such as 64M (default 96M).\n"
                            "spare=PERCENT%         Pages beyond the sectors, of these (default 12%).\n"
                            "page=BYTES             A page, which is a sector (default 4096).\n"
                            "pages=N                Pages of a block (default 64; of an image up to 1024).\n"
                            "sectors=N, blocks=N    In place of size= and spare=.\n"
                            "luns=N                 LUNs (default 1).\n"
                            "endurance=N            Erases of a block; the last would fail\n"
                            "                       and isn't made (default 1000000).\n"
                            "hosts=N                Requests that use the device at once\n"
                            "                       (default as many as processors, 4 to 16).\n"
                            "brooms=N               Threads that collect garbage (default 1).\n"
                            "low=N, high=N          Brooms start below N free blocks, go on to N.\n"
                            "wait=MILLISECONDS      A write waits as long while brooms gain nothing\n"
                            "                       (default 2000).\n"
                            "worn=enospc|eio|readonly\n"
                            "                       What a write gets for which there is no block\n"
                            "                       (default enospc).\n"
                            "warn=PERCENT           Warn when so many of all erases are used\n"
                            "                       (default 90; 0 never).\n"
                            "age=TIMES              Write the size so many times before the first\n"
                            "                       client (default 0).\n"
                            "seed=N                 Of what is done at random (default 1).\n"
                            "part=FILE              The times of a part: commands take them.\n"
                            "unreadable=LIST        Pages that can't be read, such as 3,8-11.\n"
                            "image=FILE             The device is in this file, and not in memory.\n"
                            "layers=N               Of a new image: so many, each with its lock,\n"
                            "                       in the directory image= (default 1).\n"
                            "sync=always|flush|never\n"
                            "                       When writes reach its disk (default flush).\n"
                            "cut=N                  Cut the power at the Nth write to the image,\n"
                            "                       or on SIGUSR2; 0 on SIGUSR2 alone.\n"
                            "unsynced=some|lost|kept\n"
                            "                       What a cut leaves of writes without a sync\n"
                            "                       (default some, by the seed).\n"
                            "record=FILE            Record each write and sync of the image.\n"
                            "replay=FILE            Make the image of a record, up to its step\n"
                            "                       cut=N, or to its end.\n"
                            "fail-programs=RATE, fail-erases=RATE\n"
                            "                       Which share of an image's commands fails.\n"
                            "bad=LIST               Blocks of a new image that are bad.\n"
                            "stats=FILE             Counts, written at the end and on SIGUSR1.";

static uint32_t default_hosts(void) {
    long processors = sysconf(_SC_NPROCESSORS_ONLN);
    return processors < 4 ? 4 : processors > 16 ? 16 : (uint32_t) processors;
}

void options_begin(struct options *options) {
    *options = (struct options){
        .page = 4096,
        .luns = 1,
        .endurance = MINTLINTEL_MAX_ENDURANCE,
        .hosts = default_hosts(),
        .brooms = 1,
        .wait = 2000,
        .size = -1,
        .spare = 12,
        .warn = 90,
        .seed = 1,
        .sync = MINTLINTEL_FLUSH,
        .cut = NO_CUT,
    };
}

void options_end(struct options *options) {
    free(options->stats);
    free(options->image);
    free(options->record);
    free(options->replay);
    numbers_end(&options->unreadable);
    numbers_end(&options->bad);
    options->stats = options->image = options->record = options->replay = NULL;
}

// A number from `least` on.
static int set_number(const char *key, const char *value, uint32_t least, uint32_t most, uint32_t *number) {
    if (nbdkit_parse_uint32_t(key, value, number) == -1)
        return -1;
    if (*number >= least && *number <= most)
        return 0;
    nbdkit_error("%s=%s: it is %" PRIu32 " to %" PRIu32, key, value, least, most);
    return -1;
}

static int set_size(const char *key, const char *value, int64_t most, int64_t *bytes) {
    int64_t size = nbdkit_parse_size(value);
    if (size == -1)
        return -1;
    if (size < 1 || size > most) {
        nbdkit_error("%s=%s: it is 1 to %" PRIi64 " bytes", key, value, most);
        return -1;
    }
    *bytes = size;
    return 0;
}

static int set_page(struct options *options, const char *value) {
    int64_t bytes;
    if (set_size("page", value, MAX_PAGE_BYTES, &bytes) == -1)
        return -1;
    if (bytes % MINTLINTEL_WORD_BYTES != 0) {
        nbdkit_error("page=%s: a page has a multiple of %d bytes, at most %d", value, MINTLINTEL_WORD_BYTES, MAX_PAGE_BYTES);
        return -1;
    }
    options->page = (uint32_t) bytes;
    return 0;
}

static int set_spare(struct options *options, const char *value) {
    char digits[16];
    size_t length = strlen(value);
    if (length > 0 && value[length - 1] == '%')
        length--;
    if (length >= sizeof digits) {
        nbdkit_error("spare=%s: it is a percentage, 0 to %d", value, MAX_SPARE);
        return -1;
    }
    memcpy(digits, value, length);
    digits[length] = 0;
    options->has_spare = 1;
    return set_number("spare", digits, 0, MAX_SPARE, &options->spare);
}

// The place of a word among three, or -1 with an error reported.
static int place_of(const char *key, const char *value, const char *const names[3]) {
    for (int i = 0; i < 3; i++)
        if (strcmp(value, names[i]) == 0)
            return i;
    nbdkit_error("%s=%s: it is %s, %s or %s", key, value, names[0], names[1], names[2]);
    return -1;
}

static int set_worn(struct options *options, const char *value) {
    static const char *const names[] = {[WORN_ENOSPC] = "enospc", [WORN_EIO] = "eio", [WORN_READONLY] = "readonly"};
    int place = place_of("worn", value, names);
    options->worn = place == -1 ? options->worn : (enum worn) place;
    return place == -1 ? -1 : 0;
}

static int set_sync(struct options *options, const char *value) {
    static const char *const names[] = {"always", "flush", "never"};
    static const int modes[] = {MINTLINTEL_ALWAYS, MINTLINTEL_FLUSH, MINTLINTEL_NEVER};
    int place = place_of("sync", value, names);
    options->sync = place == -1 ? options->sync : modes[place];
    return place == -1 ? -1 : 0;
}

static int set_unsynced(struct options *options, const char *value) {
    static const char *const names[] = {[UNSYNCED_SOME] = "some", [UNSYNCED_LOST] = "lost", [UNSYNCED_KEPT] = "kept"};
    int place = place_of("unsynced", value, names);
    options->unsynced = place == -1 ? options->unsynced : (enum unsynced_writes) place;
    return place == -1 ? -1 : 0;
}

static int set_cut(struct options *options, const char *value) {
    uint32_t writes;
    if (nbdkit_parse_uint32_t("cut", value, &writes) == -1)
        return -1;
    options->cut = writes;
    return 0;
}

static int set_part(struct options *options, const char *value) {
    char *file = nbdkit_absolute_path(value);
    int result = file ? part_read(file, &options->part) : -1;
    free(file);
    return result;
}

static int set_file(char **file, const char *value) {
    free(*file);
    *file = nbdkit_absolute_path(value);
    return *file ? 0 : -1;
}

// Notes of which device a parameter is.
static void note_kind(struct options *options, const char *key) {
    static const char *const numbers[] = {"size", "spare", "page", "pages", "sectors", "blocks", "luns"};
    static const char *const of_memory[] = {"hosts", "brooms", "low", "high", "wait", "warn", "age", "stats"};
    static const char *const of_image[] = {"layers", "sync", "cut", "unsynced", "record", "replay", "fail-programs", "fail-erases", "bad"};
    for (size_t i = 0; i < sizeof numbers / sizeof *numbers; i++)
        options->has_numbers |= strcmp(key, numbers[i]) == 0;
    for (size_t i = 0; i < sizeof of_memory / sizeof *of_memory; i++)
        if (strcmp(key, of_memory[i]) == 0)
            options->of_memory = of_memory[i];
    for (size_t i = 0; i < sizeof of_image / sizeof *of_image; i++)
        if (strcmp(key, of_image[i]) == 0)
            options->of_image = of_image[i];
}

static int set_of_image(struct options *options, const char *key, const char *value) {
    if (strcmp(key, "sync") == 0)
        return set_sync(options, value);
    if (strcmp(key, "cut") == 0)
        return set_cut(options, value);
    if (strcmp(key, "unsynced") == 0)
        return set_unsynced(options, value);
    if (strcmp(key, "record") == 0)
        return set_file(&options->record, value);
    if (strcmp(key, "replay") == 0)
        return set_file(&options->replay, value);
    if (strcmp(key, "fail-programs") == 0)
        return rate_set(&options->fail_programs, key, value);
    if (strcmp(key, "fail-erases") == 0)
        return rate_set(&options->fail_erases, key, value);
    if (strcmp(key, "bad") == 0)
        return numbers_set(&options->bad, key, value);
    nbdkit_error("unknown parameter '%s'", key);
    return -1;
}

static int set_named_file(struct options *options, const char *key, const char *value) {
    if (strcmp(key, "stats") == 0)
        return set_file(&options->stats, value);
    if (strcmp(key, "image") == 0)
        return set_file(&options->image, value);
    if (strcmp(key, "part") == 0)
        return set_part(options, value);
    return set_of_image(options, key, value);
}

int options_set(struct options *options, const char *key, const char *value) {
    const struct {
        const char *key;
        uint32_t least, most, *number;
    } numbers[] = {
        {"luns", 1, MINTLINTEL_MAX_LUNS, &options->luns},
        {"blocks", 1, UINT32_MAX, &options->blocks}, // the library has the limits, and its refusal is reported in bytes
        {"pages", 1, MINTLINTEL_MAX_PAGES, &options->pages},
        {"sectors", 1, UINT32_MAX, &options->sectors}, // its limit is reported in bytes, as soon as the page is known
        {"endurance", 1, MINTLINTEL_MAX_ENDURANCE, &options->endurance},
        {"hosts", 1, MINTLINTEL_MAX_HOSTS, &options->hosts},
        {"brooms", 0, MINTLINTEL_MAX_BROOMS, &options->brooms},
        {"low", 1, MINTLINTEL_MAX_BLOCKS, &options->low},
        {"high", 1, MINTLINTEL_MAX_BLOCKS, &options->high},
        {"wait", 0, MAX_WAIT, &options->wait},
        {"warn", 0, 100, &options->warn},
        {"age", 0, MAX_AGE, &options->age},
        {"layers", 1, MAX_LAYERS, &options->layers},
    };
    note_kind(options, key);
    for (size_t i = 0; i < sizeof numbers / sizeof *numbers; i++)
        if (strcmp(key, numbers[i].key) == 0)
            return set_number(key, value, numbers[i].least, numbers[i].most, numbers[i].number);
    if (strcmp(key, "size") == 0)
        return set_size(key, value, INT64_MAX, &options->size);
    if (strcmp(key, "page") == 0)
        return set_page(options, value);
    if (strcmp(key, "spare") == 0)
        return set_spare(options, value);
    if (strcmp(key, "worn") == 0)
        return set_worn(options, value);
    if (strcmp(key, "seed") == 0)
        return nbdkit_parse_uint64_t(key, value, &options->seed);
    if (strcmp(key, "unreadable") == 0)
        return numbers_set(&options->unreadable, key, value);
    return set_named_file(options, key, value);
}

static int refuse_size(int64_t size, int64_t page, int64_t most) {
    nbdkit_error("size=%" PRIi64 ": with pages of %" PRIi64 " bytes it is at most %" PRIi64 " bytes, which are %" PRIi64 " sectors", size,
                 page, most * page, most);
    return -1;
}

static int refuse_sectors(int64_t sectors, int64_t page, int64_t most) {
    nbdkit_error("sectors=%" PRIi64 ": with pages of %" PRIi64 " bytes these are %" PRIi64
                 " bytes, and a device has at most %" PRIi64 " bytes, which are %" PRIi64 " sectors",
                 sectors, page, sectors * page, most * page, most);
    return -1;
}

static int choose_sectors(struct options *options) {
    if (options->sectors && options->size != -1) {
        nbdkit_error("size= and sectors= say the same: give one of them");
        return -1;
    }
    int64_t page = options->page, most = options->image ? MAX_SECTORS_OF_AN_IMAGE : MINTLINTEL_MAX_SECTORS;
    if (options->sectors)
        return options->sectors <= most ? 0 : refuse_sectors(options->sectors, page, most);
    int64_t size = options->size == -1 ? 96 << 20 : options->size;
    if (size > most * page)
        return refuse_size(size, page, most);
    if (size % page != 0) {
        nbdkit_error("size=%" PRIi64 ": it is a multiple of the page's %" PRIi64 " bytes; %" PRIi64 " and %" PRIi64 " are",
                     size, page, size / page * page, (size / page + 1) * page);
        return -1;
    }
    options->sectors = (uint32_t) (size / page);
    return 0;
}

// The blocks that handles and brooms keep: one that each handle writes to, two of each broom. An image has neither.
static uint64_t kept_blocks(const struct options *options) {
    return options->image ? BLOCKS_OF_AN_IMAGE : options->hosts + 2 * (uint64_t) options->brooms;
}

// A flush takes two syncs if a block was opened since the last one, so a large image has large blocks. One that is there has its own, from which the
// number of blocks follows.
static void choose_pages(struct options *options) {
    struct mintlintel_image_head head = {0};
    if (options->pages)
        return;
    if (options->image && mintlintel_image_look(options->image, &head) == MINTLINTEL_DONE)
        options->pages = head.numbers.pages;
    if (options->pages)
        return;
    options->pages = FEWEST_PAGES;
    while (options->image && options->pages < MOST_PAGES && options->sectors / options->pages >= 2 * BLOCKS_BEFORE_PAGES)
        options->pages *= 2;
}

uint32_t options_blocks(const struct options *options) {
    uint64_t hundred_pages = 100 * (uint64_t) options->pages;
    uint64_t blocks =
        (options->sectors * (100 + (uint64_t) options->spare) + hundred_pages - 1) / hundred_pages + kept_blocks(options);
    blocks = (blocks + options->luns - 1) / options->luns * options->luns;
    // The library refuses more than a device may have.
    return blocks > UINT32_MAX ? UINT32_MAX : (uint32_t) blocks;
}

static int choose_blocks(struct options *options) {
    if (options->blocks && options->has_spare) {
        nbdkit_error("spare= and blocks= say the same: give one of them");
        return -1;
    }
    options->has_blocks = options->blocks > 0;
    if (!options->has_blocks)
        options->blocks = options_blocks(options);
    return 0;
}

static uint32_t within(uint64_t number, uint32_t least, uint32_t most) {
    return number < least ? least : number > most ? most : (uint32_t) number;
}

// Brooms rest with a few blocks free for the writes to come. The marks are low enough to be reached with every sector written:
// a broom that never rests copies pages that would soon have been overwritten.
static int choose_marks(struct options *options) {
    uint64_t used = (options->sectors + (uint64_t) options->pages - 1) / options->pages + kept_blocks(options);
    uint32_t spare = options->blocks > used ? (uint32_t) (options->blocks - used) : 0;
    options->spare_blocks = spare;
    uint32_t most = 8 + 2 * options->brooms;
    uint32_t ahead = spare < FEW_SPARE ? 0 : spare / 4;
    if (options->low == 0)
        options->low = within(ahead, 1, options->high ? within(options->high, 1, most) : most);
    if (options->high == 0 && options->low <= options->blocks)
        options->high = within(options->low + (uint64_t) within(ahead, 0, 8), 1, options->blocks);
    if (options->low > options->blocks || options->high > options->blocks) {
        nbdkit_error("low=%" PRIu32 " or high=%" PRIu32 ": the device has %" PRIu32 " blocks, and no more can be free",
                     options->low, options->high, options->blocks);
        return -1;
    }
    if (options->high >= options->low)
        return 0;
    nbdkit_error("high=%" PRIu32 " is below low=%" PRIu32, options->high, options->low);
    return -1;
}

int options_complete(struct options *options) {
    const char *wrong = options->image ? options->of_memory : options->of_image;
    if (wrong) {
        nbdkit_error("%s= is of a device %s", wrong, options->image ? "in memory, and this one is in an image" : "in an image: give image= too");
        return -1;
    }
    if (choose_sectors(options) == -1)
        return -1;
    choose_pages(options);
    if (choose_blocks(options) == -1)
        return -1;
    return options->image ? 0 : choose_marks(options);
}

int options_worn_error(const struct options *options) {
    static const int errors[] = {[WORN_ENOSPC] = ENOSPC, [WORN_EIO] = EIO, [WORN_READONLY] = EROFS};
    return errors[options->worn];
}

uint64_t options_memory(const struct options *options) {
    uint64_t pages = (uint64_t) options->blocks * options->pages;
    return pages * (options->page + MINTLINTEL_WORD_BYTES) + ((uint64_t) options->sectors + options->blocks) * MINTLINTEL_WORD_BYTES;
}

static void tell_too_much_memory(const struct options *options) {
    uint64_t page = options->page;
    nbdkit_error("a device of %" PRIu64 " bytes with %" PRIu64 " bytes of pages takes %" PRIu64
                 " bytes in memory, and may take %" PRIu64 ": make size= or spare= less",
                 options->sectors * page, options->blocks * (uint64_t) options->pages * page, options_memory(options),
                 (uint64_t) MINTLINTEL_MAX_TABLE_WORDS * MINTLINTEL_WORD_BYTES);
}

static void tell_too_few_blocks(const struct options *options) {
    uint64_t block = (uint64_t) options->pages * options->page, kept = kept_blocks(options), all = options->blocks;
    nbdkit_error("%" PRIu64 " blocks have %" PRIu64 " bytes; %" PRIu32 " handles and %" PRIu32 " brooms keep %" PRIu64
                 " bytes of them (%" PRIu64 " blocks), which leaves %" PRIu64 " for the %" PRIu64
                 " bytes of the device: more blocks=, or fewer hosts=",
                 all, all * block, options->hosts, options->brooms, kept * block, kept, all > kept ? (all - kept) * block : 0,
                 options->sectors * (uint64_t) options->page);
}

void options_tell_refusal(const struct options *options, uint32_t code) {
    uint64_t block = (uint64_t) options->pages * options->page;
    switch (code) {
    case MINTLINTEL_BAD_BLOCKS:
        nbdkit_error("%" PRIu32 " blocks of %" PRIu64 " bytes: a device has 3 to %d, at most %" PRIu64
                     " bytes, and a multiple of luns=%" PRIu32 "; with more pages= a block has more bytes",
                     options->blocks, block, MINTLINTEL_MAX_BLOCKS, MINTLINTEL_MAX_BLOCKS * block, options->luns);
        break;
    case MINTLINTEL_TOO_MANY_WORDS:
        tell_too_much_memory(options);
        break;
    case MINTLINTEL_TOO_FEW_BLOCKS:
        tell_too_few_blocks(options);
        break;
    case MINTLINTEL_NO_MEMORY:
        nbdkit_error("there is no memory for a device of %" PRIu64 " bytes", options_memory(options));
        break;
    default:
        nbdkit_error("no device was made: %s (%" PRIu32 ")", mintlintel_code_name(code), code);
    }
}
