// What the clients of the checks share: connections, and errors that end the program.
#ifndef TESTS_CLIENT_H
#define TESTS_CLIENT_H

#include <libnbd.h>
#include <stdint.h>
#include <stdio.h>
#include <stdlib.h>
#include <time.h>

enum { PAGE = 4096 };

static inline void end(const char *why) {
    const char *error = nbd_get_error();
    fprintf(stderr, "%s: %s\n", why, error ? error : "");
    exit(2);
}

static inline struct nbd_handle *connect_to(const char *uri) {
    struct nbd_handle *nbd = nbd_create();
    if (!nbd || nbd_connect_uri(nbd, uri) == -1)
        end("connect");
    return nbd;
}

static inline double seconds(void) {
    struct timespec time;
    clock_gettime(CLOCK_MONOTONIC, &time);
    return (double) time.tv_sec + (double) time.tv_nsec / 1e9;
}

#endif
