// mintlintel: an nbdkit plugin whose block device is a proved flash translation layer, in memory and shared by threads, or in an image file. The
// plugin itself isn't proved.
#define NBDKIT_API_VERSION 2
#include <errno.h>
#include <inttypes.h>
#include <nbdkit-plugin.h>
#include <stdio.h>
#include <stdlib.h>
#include <string.h>

#include "counts.h"
#include "device.h"
#include "layers.h"
#include "report.h"

#define THREAD_MODEL NBDKIT_THREAD_MODEL_PARALLEL

enum { LOOKS_OF_A_TURN = 256, MOST_LOOKS = 65536, MOST_BYTES_OF_A_REQUEST = 64 << 20 /* of nbdkit */ };

// The device in memory, and the disk in an image: one of them is open, with the options of `device`.
static struct device device;
static struct layers layers;

static int has_image(void) {
    return device.options.image != NULL;
}

static void load(void) {
    options_begin(&device.options);
}

static void unload(void) {
    layers_close(&layers);
    device_close(&device);
    options_end(&device.options);
}

static int config(const char *key, const char *value) {
    return options_set(&device.options, key, value);
}

static int config_complete(void) {
    if (has_image() && device.options.replay && layers_replay(&device.options) == -1)
        return -1;
    if (has_image() && layers_find(&device.options) == -1)
        return -1;
    return options_complete(&device.options);
}

static void dump_plugin(void) {
    printf("mintlintel_max_page=%d\n", MAX_PAGE_BYTES);
}

// A client's connection to the export of statistics, with the report of its beginning. Connections to the disk differ by their client's number alone, of
// which there are as many as handles may be.
struct connection {
    char *report;
    size_t report_bytes;
};
static struct connection to_disk[MINTLINTEL_MAX_HOSTS];
static _Atomic uint32_t connections_to_disk;

static uint32_t client_of(void *handle) {
    return (uint32_t) ((struct connection *) handle - to_disk);
}

static int is_of_disk(void *handle) {
    struct connection *connection = handle;
    return connection >= to_disk && connection < to_disk + MINTLINTEL_MAX_HOSTS;
}

static int64_t disk_bytes(void) {
    return (int64_t) device.options.sectors * device.options.page;
}

static int64_t get_size(void *handle) {
    return is_of_disk(handle) ? disk_bytes() : (int64_t) ((struct connection *) handle)->report_bytes;
}

static int get_image_ready(void) {
    static const char *const promises[] = {
        [MINTLINTEL_ALWAYS] = "what is answered survives a power cut",
        [MINTLINTEL_FLUSH] = "what is flushed survives a power cut",
        [MINTLINTEL_NEVER] = "what is answered survives the server, and not a power cut",
    };
    if (layers_open(&layers, &device.options) == -1)
        return -1;
    fprintf(stderr, "mintlintel: %" PRIi64 " bytes, in %s: %s\n", disk_bytes(), device.options.image, promises[device.options.sync]);
    return 0;
}

static int get_ready(void) {
    if (has_image())
        return get_image_ready();
    if (device_open(&device) == -1)
        return -1;
    if (device.options.stats && (counts_mind_signals() == -1 || counts_write(&device) == -1))
        return -1;
    fprintf(stderr,
            "mintlintel: %" PRIi64 " bytes, in %" PRIu64
            " bytes of memory alone: a flush has nothing to do, and the data goes with the process\n",
            disk_bytes(), options_memory(&device.options));
    return 0;
}

static int after_fork(void) {
    return has_image() ? layers_start(&layers) : device_start(&device);
}

static void cleanup(void) {
    if (has_image())
        return;
    device_stop(&device);
    if (device.options.stats)
        counts_write(&device);
}

static const char disk_name[] = "", stats_name[] = "stats";

static int list_exports(int is_readonly, int is_tls, struct nbdkit_exports *exports) {
    (void) is_readonly;
    (void) is_tls;
    return nbdkit_add_export(exports, disk_name, "the disk") | nbdkit_add_export(exports, stats_name, "statistics of the disk, in JSON");
}

static const char *default_export(int is_readonly, int is_tls) {
    (void) is_readonly;
    (void) is_tls;
    return disk_name;
}

static void *connect_to_stats(void) {
    struct connection *connection = calloc(1, sizeof *connection);
    if (connection) {
        size_t *bytes = &connection->report_bytes;
        connection->report = has_image() ? report_of_image(&layers, bytes) : report_make(&device, bytes);
        if (connection->report)
            return connection;
    }
    free(connection);
    nbdkit_error("there is no memory for the statistics");
    return NULL;
}

static void *open_connection(int is_readonly) {
    (void) is_readonly;
    const char *name = nbdkit_export_name();
    int is_stats = strcmp(name, stats_name) == 0;
    if (!is_stats && strcmp(name, disk_name) != 0) {
        nbdkit_error("there is no export '%s': there are '%s', the disk, and '%s'", name, disk_name, stats_name);
        return NULL;
    }
    if (!is_stats)
        return &to_disk[atomic_fetch_add(&connections_to_disk, 1) % MINTLINTEL_MAX_HOSTS];
    return connect_to_stats();
}

static void close_connection(void *handle) {
    struct connection *connection = handle;
    if (is_of_disk(handle))
        return;
    free(connection->report);
    free(connection);
}

// Any byte can be written by itself. NBD prefers powers of 2 from 512 on: a page, or the least of them that is made of pages, or else 4096.
static int block_size(void *handle, uint32_t *minimum, uint32_t *preferred, uint32_t *maximum) {
    (void) handle;
    uint32_t page = device.options.page;
    *minimum = 1;
    *preferred = (page & (page - 1)) != 0 ? 4096 : page < 512 ? 512 : page;
    *maximum = MOST_BYTES_OF_A_REQUEST;
    return 0;
}

// In memory, whatever was answered is in the device. To an image nbdkit sends a flush after such a write.
static int can_fua(void *handle) {
    return !is_of_disk(handle) ? NBDKIT_FUA_NONE : has_image() ? NBDKIT_FUA_EMULATE : NBDKIT_FUA_NATIVE;
}

static int read_request(void *handle, void *to, uint32_t count, uint64_t offset, uint32_t flags) {
    struct connection *connection = handle;
    (void) flags;
    if (is_of_disk(handle))
        return has_image() ? layers_read(&layers, to, count, offset) : device_read(&device, to, count, offset);
    memcpy(to, connection->report + offset, count);
    return 0;
}

static int write_request(void *handle, const void *from, uint32_t count, uint64_t offset, uint32_t flags) {
    (void) flags;
    return has_image() ? layers_write(&layers, from, count, offset) : device_write(&device, client_of(handle), from, count, offset);
}

// If trimming isn't allowed, zeros are as slow as a write, and the client has asked for a refusal then.
static int zero_request(void *handle, uint32_t count, uint64_t offset, uint32_t flags) {
    int may_trim = (flags & NBDKIT_FLAG_MAY_TRIM) != 0;
    if ((flags & NBDKIT_FLAG_FAST_ZERO) && !may_trim) {
        nbdkit_set_error(EOPNOTSUPP);
        return -1;
    }
    return has_image() ? layers_zero(&layers, count, offset, may_trim) : device_zero(&device, client_of(handle), count, offset, may_trim);
}

static int trim_request(void *handle, uint32_t count, uint64_t offset, uint32_t flags) {
    (void) handle;
    (void) flags;
    return has_image() ? layers_trim(&layers, count, offset) : device_trim(&device, count, offset);
}

// What a client wants to be cached is in memory already; of an image nbdkit reads it.
static int can_cache(void *handle) {
    return !is_of_disk(handle) ? NBDKIT_CACHE_NONE : has_image() ? NBDKIT_CACHE_EMULATE : NBDKIT_CACHE_NATIVE;
}

static int cache_request(void *handle, uint32_t count, uint64_t offset, uint32_t flags) {
    (void) handle;
    (void) count;
    (void) offset;
    (void) flags;
    return 0;
}

// In memory alone there is nothing to flush.
static int flush_request(void *handle, uint32_t flags) {
    (void) handle;
    (void) flags;
    return has_image() ? layers_flush(&layers) : 0;
}

static int add_extent(struct nbdkit_extents *extents, uint64_t offset, uint64_t length, int is_empty) {
    return nbdkit_add_extent(extents, offset, length, is_empty ? NBDKIT_EXTENT_HOLE | NBDKIT_EXTENT_ZERO : 0);
}

// The handle that a request for the map looks with, and how many looks it has done.
struct looks {
    struct host *host;
    uint32_t done;
};

// Whether the sector at an offset is empty. A long request lets others have its handle after some looks.
static int look(struct looks *looks, uint64_t offset) {
    if (has_image())
        return layers_is_empty(&layers, (uint32_t) (offset / device.options.page));
    if (++looks->done % LOOKS_OF_A_TURN == 0)
        looks->host = stock_yield(&device.stock, looks->host);
    return device_is_empty(looks->host, (uint32_t) (offset / device.options.page));
}

// The runs of empty and of written sectors from an offset on, up to an end, or the first of them.
static int add_extents(struct looks *looks, uint64_t offset, uint64_t end, int wants_one, struct nbdkit_extents *extents) {
    uint64_t page = device.options.page, begin = offset / page * page;
    int was_empty = look(looks, begin);
    for (uint64_t at = begin + page; was_empty != -1 && at < end; at += page) {
        int is_empty = look(looks, at);
        if (is_empty == was_empty)
            continue;
        if (is_empty == -1 || add_extent(extents, begin, at - begin, was_empty) == -1)
            return -1;
        if (wants_one)
            return 0;
        begin = at;
        was_empty = is_empty;
    }
    return was_empty == -1 ? -1 : add_extent(extents, begin, (end + page - 1) / page * page - begin, was_empty);
}

static int extents_request(void *handle, uint32_t count, uint64_t offset, uint32_t flags, struct nbdkit_extents *extents) {
    (void) handle;
    uint64_t end = offset + count, most = offset + (uint64_t) MOST_LOOKS * device.options.page;
    struct looks looks = {.host = has_image() ? NULL : stock_take(&device.stock)};
    int result = add_extents(&looks, offset, end < most ? end : most, (flags & NBDKIT_FLAG_REQ_ONE) != 0, extents);
    if (looks.host)
        stock_give(&device.stock, looks.host);
    return result;
}

static struct nbdkit_plugin plugin = {
    .name = "mintlintel",
    .longname = "nbdkit mintlintel plugin",
    .version = "1",
    .description = "A flash device in memory or in a file, behind a proved flash translation layer: writes, garbage collection and wear.",
    .load = load,
    .unload = unload,
    .config = config,
    .config_complete = config_complete,
    .config_help = options_help,
    .magic_config_key = "size",
    .dump_plugin = dump_plugin,
    .get_ready = get_ready,
    .after_fork = after_fork,
    .cleanup = cleanup,
    .list_exports = list_exports,
    .default_export = default_export,
    .open = open_connection,
    .close = close_connection,
    .get_size = get_size,
    .block_size = block_size,
    .can_write = is_of_disk,
    .can_flush = is_of_disk,
    .can_trim = is_of_disk,
    .can_zero = is_of_disk,
    .can_fast_zero = is_of_disk,
    .can_extents = is_of_disk,
    .can_multi_conn = is_of_disk,
    .can_fua = can_fua,
    .can_cache = can_cache,
    .pread = read_request,
    .pwrite = write_request,
    .trim = trim_request,
    .zero = zero_request,
    .flush = flush_request,
    .cache = cache_request,
    .extents = extents_request,
};

NBDKIT_REGISTER_PLUGIN(plugin)
