// times URI: makes requests at their times, and says how long each took. Each line of the input is `LANE AT OP SECTOR PAGES`: AT in microseconds since
// the start, OP `read`, `write`, `trim` or `part` (a write of a part of a page). The requests of a lane, a connection of its own, come one after the
// other, each at its time or when the one before was answered. A line of the output is `LANE SENT ANSWERED OP SECTOR`.
#include <inttypes.h>
#include <pthread.h>

#include "client.h"

enum { LANES = 16, MOST = 100000, MOST_PAGES = 16 };

static struct request {
    unsigned lane;
    double at, sent, answered;
    char op[8];
    uint64_t sector, pages;
} requests[MOST];
static int count;
static double start;
static const char *uri;

static void wait_until(double time) {
    double left = time - seconds();
    if (left <= 0)
        return;
    struct timespec pause = {.tv_sec = (time_t) left, .tv_nsec = (long) ((left - (double) (time_t) left) * 1e9)};
    nanosleep(&pause, NULL);
}

static int ask(struct nbd_handle *nbd, const struct request *request, char *bytes) {
    uint64_t offset = request->sector * PAGE, count = request->pages * PAGE;
    switch (request->op[0]) {
    case 'r':
        return nbd_pread(nbd, bytes, count, offset, 0);
    case 'w':
        return nbd_pwrite(nbd, bytes, count, offset, 0);
    case 't':
        return nbd_trim(nbd, count, offset, 0);
    default:
        return nbd_pwrite(nbd, bytes, PAGE / 4, offset + PAGE / 4, 0);
    }
}

static void *play(void *lane) {
    struct nbd_handle *nbd = connect_to(uri);
    char bytes[MOST_PAGES * PAGE] = {0};
    wait_until(start);
    for (int i = 0; i < count; i++) {
        struct request *request = &requests[i];
        if (request->lane != (unsigned) (uintptr_t) lane)
            continue;
        wait_until(start + request->at / 1e6);
        request->sent = seconds();
        if (ask(nbd, request, bytes) == -1)
            end(request->op);
        request->answered = seconds();
    }
    nbd_close(nbd);
    return NULL;
}

int main(int words, char **word) {
    pthread_t lanes[LANES];
    if (words != 2)
        return 2;
    uri = word[1];
    for (struct request *at = requests; count < MOST; at++, count++)
        if (scanf("%u %lf %7s %" SCNu64 " %" SCNu64, &at->lane, &at->at, at->op, &at->sector, &at->pages) != 5 || at->pages > MOST_PAGES)
            break;
    start = seconds() + 0.2;
    for (uintptr_t i = 0; i < LANES; i++)
        if (pthread_create(&lanes[i], NULL, play, (void *) i))
            end("thread");
    for (int i = 0; i < LANES; i++)
        pthread_join(lanes[i], NULL);
    for (int i = 0; i < count; i++)
        printf("%u %.0f %.0f %s %" PRIu64 "\n", requests[i].lane, (requests[i].sent - start) * 1e6, (requests[i].answered - start) * 1e6, requests[i].op,
               requests[i].sector);
    return 0;
}
