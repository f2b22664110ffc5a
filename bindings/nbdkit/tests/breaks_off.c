// breaks_off URI OFFSET SIZE SEED: four connections write pieces of 1 to 16 pages, with 16 requests of each in flight, and their
// sockets are shut down for sending in mid-write; and so again for some rounds. Each page names its sector and the round that wrote
// it in each of its words. In the end each page has to be one round's as a whole: of the last write that was answered, or of one
// that was broken off.
#include <poll.h>
#include <string.h>
#include <sys/socket.h>

#include "client.h"

enum { CONNECTIONS = 4, IN_FLIGHT = 16, MOST_PAGES = 16, ROUNDS = 10, NUMBERS = PAGE / 8 };

struct request {
    int64_t cookie;
    uint32_t first, pages;
    uint32_t *bytes;
};

struct connection {
    struct nbd_handle *nbd;
    struct request requests[IN_FLIGHT];
    uint32_t first, next, pages; // its own sectors, and the next that it writes in this round
};

static uint64_t offset;
// Of each page: the round whose write was answered last, and the rounds whose writes were broken off, a bit each.
static uint32_t *answered, *broken;

static void fill(uint32_t *page, uint32_t sector, uint32_t round) {
    for (int i = 0; i < NUMBERS; i++) {
        page[2 * i] = sector;
        page[2 * i + 1] = round;
    }
}

// Begins a write of the connection's next own pages, each once in a round. 0 if they are all written.
static int begin_write(struct connection *connection, struct request *request, uint32_t round) {
    uint32_t left = connection->pages - connection->next, pages = 1 + (uint32_t) lrand48() % MOST_PAGES;
    request->pages = pages < left ? pages : left;
    request->first = connection->first + connection->next;
    connection->next += request->pages;
    for (uint32_t i = 0; i < request->pages; i++)
        fill(request->bytes + 2 * NUMBERS * i, request->first + i, round);
    if (request->pages == 0)
        return 0;
    request->cookie = nbd_aio_pwrite(connection->nbd, request->bytes, (size_t) request->pages * PAGE,
                                     offset + (uint64_t) request->first * PAGE, NBD_NULL_COMPLETION, 0);
    if (request->cookie == -1)
        end("write");
    return 1;
}

static void begin_round(struct connection *connection, const char *uri, uint32_t round) {
    connection->nbd = connect_to(uri);
    connection->next = 0;
    for (int i = 0; i < IN_FLIGHT; i++)
        begin_write(connection, &connection->requests[i], round);
}

// Notes what was answered, and begins further writes in its place; the number of requests that are in flight.
static int renew(struct connection *connection, uint32_t round) {
    int in_flight = 0;
    for (int i = 0; i < IN_FLIGHT; i++) {
        struct request *request = &connection->requests[i];
        if (request->pages == 0)
            continue;
        int is_done = nbd_aio_command_completed(connection->nbd, (uint64_t) request->cookie);
        if (is_done == -1)
            end("write");
        in_flight += !is_done;
        if (!is_done)
            continue;
        for (uint32_t k = 0; k < request->pages; k++)
            answered[request->first + k] = round;
        in_flight += begin_write(connection, request, round);
    }
    return in_flight;
}

// Sends no more, whatever is in flight, and reads all that the server still sends: if its answers find no reader, nbdkit 1.32 often ends by an
// assertion of its own; it may end so in any case.
static int break_off(struct connection *connection, uint32_t round) {
    static char heard[65536];
    int requests = 0, socket = nbd_aio_get_fd(connection->nbd);
    shutdown(socket, SHUT_WR);
    for (int i = 0; i < IN_FLIGHT; i++) {
        struct request *request = &connection->requests[i];
        for (uint32_t k = 0; k < request->pages; k++)
            broken[request->first + k] |= (uint32_t) 1 << round;
        requests += request->pages > 0;
    }
    struct pollfd ready = {.fd = socket, .events = POLLIN};
    while (poll(&ready, 1, 10000) == 1 && recv(socket, heard, sizeof heard, MSG_DONTWAIT) > 0)
        ;
    nbd_close(connection->nbd);
    return requests;
}

// Writes for a while, or, in the round 0, until each page is written; the requests that were broken off.
static int play(struct connection *connections, const char *uri, uint32_t round) {
    double until = seconds() + 0.005 + (double) (lrand48() % 40) / 1000;
    int in_flight = 1, broken_off = 0;
    for (int i = 0; i < CONNECTIONS; i++)
        begin_round(&connections[i], uri, round);
    while (in_flight > 0 && (round == 0 || seconds() < until)) {
        in_flight = 0;
        for (int i = 0; i < CONNECTIONS; i++) {
            if (nbd_poll(connections[i].nbd, 1) == -1)
                end("poll");
            in_flight += renew(&connections[i], round);
        }
    }
    for (int i = 0; i < CONNECTIONS; i++)
        broken_off += break_off(&connections[i], round);
    return broken_off;
}

static int is_right(const uint32_t *page, uint32_t sector) {
    static uint32_t wanted[2 * NUMBERS];
    uint32_t round = page[1];
    if (round > ROUNDS || (round != answered[sector] && !(broken[sector] >> round & 1)))
        return 0;
    fill(wanted, sector, round);
    return memcmp(page, wanted, PAGE) == 0;
}

int main(int count, char **words) {
    if (count != 5)
        return 2;
    offset = strtoull(words[2], NULL, 10);
    uint32_t pages = (uint32_t) (strtoull(words[3], NULL, 10) / PAGE), wrong = 0, fresh = 0, old = 0;
    srand48(atol(words[4]));
    answered = calloc(pages, sizeof *answered);
    broken = calloc(pages, sizeof *broken);
    struct connection connections[CONNECTIONS];
    for (uint32_t i = 0; i < CONNECTIONS; i++) {
        connections[i] = (struct connection){.first = pages / CONNECTIONS * i, .pages = pages / CONNECTIONS};
        for (int k = 0; k < IN_FLIGHT; k++)
            connections[i].requests[k].bytes = malloc((size_t) MOST_PAGES * PAGE);
    }
    int broken_off = 0;
    for (uint32_t round = 0; round <= ROUNDS; round++)
        broken_off += play(connections, words[1], round);
    struct nbd_handle *nbd = connect_to(words[1]);
    static uint32_t page[2 * NUMBERS];
    for (uint32_t sector = 0; sector < pages / CONNECTIONS * CONNECTIONS; sector++) {
        if (nbd_pread(nbd, page, PAGE, offset + (uint64_t) sector * PAGE, 0) == -1)
            end("read");
        wrong += !is_right(page, sector);
        fresh += broken[sector] != 0 && page[1] != answered[sector];
        old += broken[sector] != 0 && page[1] == answered[sector];
    }
    nbd_close(nbd);
    printf("%d rounds, %d requests broken off; of their pages %u new, %u old; wrong pages %u\n", ROUNDS, broken_off, fresh, old,
           wrong);
    return wrong > 0 || broken_off == 0;
}
