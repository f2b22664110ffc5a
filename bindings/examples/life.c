/* life.c: four hosts write and a broom collects, up to the end of the device's life. Then each sector can still be read. */
#include <mintlintel.h>
#include <pthread.h>
#include <stdatomic.h>
#include <stdio.h>
#include <time.h>

enum { HOSTS = 4, BLOCKS = 64, PAGES = 64, PAGE = 512, SECTORS = 3000, ENDURANCE = 20, FEW = 6 };

static struct mintlintel_seat hosts[HOSTS], brooms[1];
static atomic_long written;
static atomic_int hosts_left = HOSTS;

/* Collects while few blocks are free, and pauses if there are enough or there is nothing to gain. It ends when no block can become free. */
static void *sweep(void *broom)
{
    struct timespec pause = {0, 100000};
    struct mintlintel_counts counts;
    struct mintlintel_collected did;
    while (atomic_load(&hosts_left) > 0) {
        uint32_t code = mintlintel_broom_counts(broom, &counts);
        int is_low = code == MINTLINTEL_DONE && counts.free < FEW;
        if (is_low)
            code = mintlintel_collect(broom, FEW, &did);
        if (code == MINTLINTEL_EXHAUSTED)
            break;
        if (!is_low || code != MINTLINTEL_DONE)
            nanosleep(&pause, NULL);
    }
    return NULL;
}

/* Writes until no block has come free for half a second: the device is full, or worn out. */
static void *write_on(void *host)
{
    unsigned char page[PAGE] = "a page";
    for (uint32_t i = 1; mintlintel_write_within(host, i * 7919u % SECTORS, page, PAGE, 500) <= MINTLINTEL_WRITTEN; i++)
        atomic_fetch_add(&written, 1);
    atomic_fetch_sub(&hosts_left, 1);
    return NULL;
}

int main(void)
{
    struct mintlintel_numbers numbers = {1, BLOCKS, PAGES, PAGE / 8, SECTORS, ENDURANCE, HOSTS, 1};
    struct mintlintel_counts counts;
    uint32_t code = mintlintel_shared_open(hosts, HOSTS, brooms, 1, 1, BLOCKS, PAGES, PAGE / 8, SECTORS, ENDURANCE), found = 0;
    if (code != MINTLINTEL_DONE) {
        char text[512];
        mintlintel_explain(code, &numbers, text, sizeof text);
        fprintf(stderr, "%s\n", text);
        return 1;
    }
    pthread_t threads[HOSTS + 1];
    for (int i = 0; i < HOSTS; i++)
        pthread_create(&threads[i], NULL, write_on, &hosts[i]);
    pthread_create(&threads[HOSTS], NULL, sweep, &brooms[0]);
    for (int i = 0; i <= HOSTS; i++)
        pthread_join(threads[i], NULL);
    for (uint32_t sector = 0; sector < SECTORS; sector++)
        found += mintlintel_host_look(&hosts[0], sector);
    code = mintlintel_broom_counts(&brooms[0], &counts);
    const char *why = code == MINTLINTEL_EXHAUSTED ? "none can become free" : "the brooms are behind";
    if (code == MINTLINTEL_DONE && mintlintel_most_sectors(BLOCKS - counts.retired, PAGES, HOSTS, 1) < SECTORS)
        why = "the others have no room for all sectors";
    printf("%ld pages written, %u of %d blocks retired, and %s; %u of %d sectors can be read\n", atomic_load(&written), counts.retired, BLOCKS, why, found,
           SECTORS);
    for (int i = 0; i < HOSTS; i++)
        mintlintel_seat_close(&hosts[i]);
    mintlintel_seat_close(&brooms[0]);
    return found != SECTORS;
}
