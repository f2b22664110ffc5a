/* Reads of an image by readers beside another thread's writes and flushes, as a block device makes them: pages of several sectors at once, beside writes of
 * several pages that are done by whoever comes first. Each page is whole, and no older than what its thread had seen or was acknowledged. It is built with the
 * library's sources under ThreadSanitizer. The image is made in the folder that is named. */
#include "../src/flash.h"
#include "mintlintel_image.h"
#include "testing.h"
#include <pthread.h>
#include <stdatomic.h>
#include <unistd.h>

enum { BLOCKS = 24, PAGES = 16, PAGE_BYTES = 512, SECTORS = 200, TURNS = 300, READERS = 2, WRITERS = 2 };

static struct mintlintel_image image;
static pthread_mutex_t order = PTHREAD_MUTEX_INITIALIZER, mutex = PTHREAD_MUTEX_INITIALIZER;
static atomic_int is_over;
static atomic_long pages_read, left;
static uint32_t turns; /* of all writers, under the locks, and the turn of each sector's last write that was acknowledged */
static atomic_uint done[SECTORS];

/* A page of a turn. In no turn it is one of an empty sector. */
static void fill(uint8_t *page, uint32_t sector, uint32_t turn)
{
    memset(page, turn ? (int)(turn % 256) : 0, PAGE_BYTES);
    memcpy(page, &turn, sizeof turn);
    memcpy(page + 4, turn ? &sector : &turn, sizeof sector);
}

static void raise(atomic_uint *at, uint32_t least)
{
    unsigned was = *at;
    while (was < least && !atomic_compare_exchange_weak(at, &was, least))
        ;
}

/* Writes two pages that stand one behind another, and flushes now and then. */
static void *write_in_turn(void *argument)
{
    uint64_t state = 88172645463325252u + (uint64_t)(size_t)argument;
    uint8_t pages[2 * PAGE_BYTES];
    for (uint32_t i = 0; i < TURNS; i++) {
        uint32_t sector = drawn(&state) % (SECTORS - 1);
        pthread_mutex_lock(&order);
        pthread_mutex_lock(&mutex);
        uint32_t turn = ++turns;
        fill(pages, sector, turn);
        fill(pages + PAGE_BYTES, sector + 1, turn);
        mtl_image_keep(&image, pages, NULL, 2);
        for (uint32_t k = 0; k < 2; k++)
            CHECK(mintlintel_durable_write(&image.device, sector + k, pages + k * PAGE_BYTES, PAGE_BYTES) <= MINTLINTEL_WRITTEN);
        uint64_t ticket = mtl_image_let_go(&image);
        pthread_mutex_unlock(&mutex);
        pthread_mutex_unlock(&order);
        CHECK(mtl_image_commit(&image, ticket) == MINTLINTEL_DONE);
        raise(&done[sector], turn);
        raise(&done[sector + 1], turn);
        if (i % 4)
            continue;
        pthread_mutex_lock(&order);
        CHECK(mtl_image_sync(&image) == MINTLINTEL_DONE);
        pthread_mutex_lock(&mutex);
        CHECK(mintlintel_durable_flush(&image.device) == MINTLINTEL_DONE);
        pthread_mutex_unlock(&mutex);
        pthread_mutex_unlock(&order);
    }
    is_over++;
    return NULL;
}

struct reading { struct mintlintel_reader reader; uint64_t state; uint32_t seen[SECTORS]; };

/* Reads eight sectors. What a reader leaves is left to the layer: a page that can't be read, of which there is none here. */
static void *read_runs(void *argument)
{
    struct reading *r = argument;
    uint8_t pages[8 * PAGE_BYTES], whole[PAGE_BYTES];
    while (is_over < WRITERS) {
        uint32_t first = drawn(&r->state) % (SECTORS - 7), least[8], turn;
        for (uint32_t i = 0; i < 8; i++)
            least[i] = done[first + i] > r->seen[first + i] ? done[first + i] : r->seen[first + i];
        uint32_t count = mtl_reader_read_run(&r->reader, first, 8, pages);
        for (uint32_t i = 0; i < count; i++) {
            memcpy(&turn, pages + i * PAGE_BYTES, sizeof turn);
            fill(whole, first + i, turn);
            CHECK(memcmp(pages + i * PAGE_BYTES, whole, PAGE_BYTES) == 0);
            CHECK(turn >= least[i]);
            r->seen[first + i] = turn;
        }
        pages_read += count;
        left += 8 - count;
    }
    return NULL;
}

int main(int argc, char **argv)
{
    static struct reading readings[READERS];
    char path[4096];
    pthread_t threads[WRITERS + READERS];
    snprintf(path, sizeof path, "%s/beside.image", argc > 1 ? argv[1] : "out");
    for (enum mintlintel_image_mode mode = MINTLINTEL_ALWAYS; mode <= MINTLINTEL_NEVER; mode++) {
        unlink(path);
        is_over = 0;
        turns = 0;
        memset(done, 0, sizeof done);
        CHECK(mintlintel_image_open(&image, path, mode, 1, BLOCKS, PAGES, PAGE_BYTES, SECTORS) == MINTLINTEL_DONE);
        for (size_t i = 0; i < READERS; i++) {
            readings[i] = (struct reading){.state = 362436069 + i};
            CHECK(mintlintel_reader_open(&readings[i].reader, &image.device) == MINTLINTEL_DONE);
            CHECK(pthread_create(&threads[WRITERS + i], NULL, read_runs, &readings[i]) == 0);
        }
        for (size_t i = 0; i < WRITERS; i++)
            CHECK(pthread_create(&threads[i], NULL, write_in_turn, (void *)i) == 0);
        for (size_t i = 0; i < WRITERS + READERS; i++)
            CHECK(pthread_join(threads[i], NULL) == 0);
        for (size_t i = 0; i < READERS; i++)
            mintlintel_reader_close(&readings[i].reader);
        CHECK(mintlintel_image_close(&image) == MINTLINTEL_DONE);
    }
    unlink(path);
    CHECK(left == 0);
    printf("beside: %ld pages were read beside writes and flushes\n", (long)pages_read);
    return 0;
}
