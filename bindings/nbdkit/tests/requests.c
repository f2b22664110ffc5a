// Requests of several pages, each of whose sectors is locked by another request when its lock is tried: so before each wait for a lock the handle has to
// be given back that was kept from the page before. The device is made by hand: its brooms don't run.
#include <pthread.h>

static int lock_watched(pthread_mutex_t *mutex);
static int try_in_vain(pthread_mutex_t *mutex);

#define pthread_mutex_lock(mutex) lock_watched(mutex)
#define pthread_mutex_trylock(mutex) try_in_vain(mutex)
#include <requests.c>
#define fail fail_test

#include "over_device.h"

enum { PAGE = 8, PAGES = 4 };

static int waits, tries;

static int lock_watched(pthread_mutex_t *mutex) {
    waits++;
    if ((device.stock.roomy.words[0] | device.stock.roomless.words[0]) != 1)
        fail("a request waits for a sector with a handle");
    return (pthread_mutex_lock)(mutex);
}

static int try_in_vain(pthread_mutex_t *mutex) {
    (void) mutex;
    tries++;
    return EBUSY;
}

int main(void) {
    static const uint8_t bytes[PAGES * PAGE] = {1};
    device.options = (struct options){.page = PAGE, .luns = 1, .hosts = 1, .brooms = 1, .blocks = 8, .pages = 4 * PAGES, .sectors = PAGES,
                                      .endurance = 10, .spare_blocks = 1, .low = 1, .high = 1, .wait = 1000};
    if (device_open(&device) == -1)
        abort();
    device_write(&device, 0, bytes, sizeof bytes, 0);
    device_zero(&device, 0, sizeof bytes, 0, 0);
    device_zero(&device, 0, sizeof bytes, 0, 1);
    device_trim(&device, sizeof bytes, 0);
    if (waits != 4 * PAGES || tries != 4 * (PAGES - 1))
        fail("four requests waited for %d locks and tried %d, and not %d and %d", waits, tries, 4 * PAGES, 4 * (PAGES - 1));
    device_stop(&device);
    device_close(&device);
    return failures > 0;
}
