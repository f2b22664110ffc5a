/* Two threads in one handle, which ThreadSanitizer has to report: that it does shows that shared.c's announcements are seen. The handle is closed,
 * so that the calls themselves do no harm. */
#include "testing.h"
#include <pthread.h>

void __tsan_write_range(void *start, unsigned long size);

static struct mintlintel_seat host;

static void *run(void *unused)
{
    uint8_t page[8];
    for (int i = 0; i < 1000; i++) {
        __tsan_write_range(&host, sizeof host);
        CHECK(mintlintel_host_read(&host, 0, page, sizeof page) == MINTLINTEL_CLOSED);
    }
    return unused;
}

int main(void)
{
    pthread_t threads[2];
    for (int i = 0; i < 2; i++)
        pthread_create(&threads[i], NULL, run, NULL);
    for (int i = 0; i < 2; i++)
        pthread_join(threads[i], NULL);
    return 0;
}
