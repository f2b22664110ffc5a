// What the tests of a device without nbdkit share: the device, and what it calls of nbdkit and of the plugin's options.
#ifndef TESTS_OVER_DEVICE_H
#define TESTS_OVER_DEVICE_H

#define NBDKIT_API_VERSION 2
#include <nbdkit-plugin.h>
#include <stdarg.h>
#include <stdio.h>
#include <stdlib.h>
#include <string.h>

#include "../device.h"

static struct device device;
static char device_name[200]; // what is said before each failure
static int failures;

static void fail(const char *form, ...) {
    va_list words;
    va_start(words, form);
    printf("%s", device_name);
    vprintf(form, words);
    va_end(words);
    printf("\n");
    failures++;
}

// The plugin may tell that the device is full, and nothing else.
void nbdkit_error(const char *form, ...) {
    va_list words;
    char text[500];
    va_start(words, form);
    vsnprintf(text, sizeof text, form, words);
    va_end(words);
    if (!strstr(text, "no block is free"))
        fail("%s", text);
}

void nbdkit_set_error(int error) {
    (void) error;
}

void nbdkit_debug(const char *form, ...) {
    (void) form;
}

int options_worn_error(const struct options *options) {
    (void) options;
    return -1;
}

void options_tell_refusal(const struct options *options, uint32_t code) {
    (void) options;
    fail("refused (%u)", code);
}

#endif
