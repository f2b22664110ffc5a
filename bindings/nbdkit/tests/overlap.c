// overlap URI ROUNDS: a part of a page and the whole page are written at the same time, by two connections. The bytes that the
// whole page alone names have to be its own, and the part's are of one of the two. Both connections then read the same.
#include <string.h>

#include "client.h"

enum { PART = 512, SECTORS = 64 };

static int is_done(struct nbd_handle *nbd, int64_t request) {
    int done = nbd_aio_command_completed(nbd, (uint64_t) request);
    if (done == -1)
        end("write");
    return done;
}

static void wait_for_both(struct nbd_handle *first, int64_t one, struct nbd_handle *second, int64_t two) {
    int has_one = is_done(first, one), has_two = is_done(second, two);
    while (!has_one || !has_two) {
        if (!has_one && nbd_poll(first, -1) == -1)
            end("poll");
        has_one = has_one || is_done(first, one);
        if (!has_two && nbd_poll(second, -1) == -1)
            end("poll");
        has_two = has_two || is_done(second, two);
    }
}

static int64_t begin_write(struct nbd_handle *nbd, const unsigned char *bytes, size_t count, uint64_t at) {
    int64_t request = nbd_aio_pwrite(nbd, bytes, count, at, NBD_NULL_COMPLETION, 0);
    if (request == -1)
        end("write");
    return request;
}

int main(int count, char **words) {
    if (count != 3)
        return 2;
    struct nbd_handle *parts = connect_to(words[1]), *wholes = connect_to(words[1]);
    static unsigned char part[PART], whole[PAGE], read[2][PAGE];
    int rounds = atoi(words[2]), lost = 0, torn = 0, unlike = 0;
    for (int round = 0; round < rounds; round++) {
        uint64_t page = (uint64_t) (round % SECTORS) * PAGE, at = page + (uint64_t) (round % (PAGE / PART)) * PART;
        memset(part, 2 * round + 1, sizeof part);
        memset(whole, 2 * round + 2, sizeof whole);
        int64_t one, two;
        if (round & 1) {
            one = begin_write(parts, part, PART, at);
            two = begin_write(wholes, whole, PAGE, page);
        } else {
            two = begin_write(wholes, whole, PAGE, page);
            one = begin_write(parts, part, PART, at);
        }
        wait_for_both(parts, one, wholes, two);
        if (nbd_pread(parts, read[0], PAGE, page, 0) == -1 || nbd_pread(wholes, read[1], PAGE, page, 0) == -1)
            end("read");
        size_t before = (size_t) (at - page), behind = before + PART;
        lost += memcmp(read[0], whole, before) != 0 || memcmp(read[0] + behind, whole, PAGE - behind) != 0;
        torn += memcmp(read[0] + before, part, PART) != 0 && memcmp(read[0] + before, whole, PART) != 0;
        unlike += memcmp(read[0], read[1], PAGE) != 0;
    }
    printf("%d rounds: %d lost a write that was answered, %d tore a part, %d were read differently\n", rounds, lost, torn,
           unlike);
    return lost || torn || unlike;
}
