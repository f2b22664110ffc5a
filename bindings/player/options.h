/* The command line of flashplay over an image. */
#ifndef OPTIONS_H
#define OPTIONS_H

#include <mintlintel_image.h>

/* What a call ends with; docs/FORMATS.md says when. */
enum status { DONE = 0, STREAM_FAILED = 1, REFUSED = 2, BROKEN = 3, NO_MEMORY = 4 };

/* The numbers that the options name; 0 is one that they don't. */
struct options {
    const char *image, *wear;
    enum mintlintel_image_mode mode;
    uint32_t luns, blocks, pages, words, sectors, endurance;
    int looks, quiet;
};

/* Reads `--image FILE [OPTIONS]`, or `image FILE [--endurance N]`. Returns -1 to go on, or the status to end with; then all is said. */
int options_read(struct options *options, int count, char **words);

/* The numbers of a device that is made by these options. */
struct mintlintel_durable_numbers options_numbers(const struct options *options);

/* Whether the options name no number that contradicts the image. If one does, says both. */
int options_fit(const struct options *options, const struct mintlintel_durable_numbers *numbers);

/* Says in one line why an image wasn't opened, or failed, and returns the status. */
int image_refused(uint32_t code);

/* The same of what mintlintel_image_look has told: -1 if the image has the format that is known. */
int head_refused(uint32_t code, const struct mintlintel_image_head *head);

#endif
