/* image FOLDER [GIB]: rates of an image file, in mode `never`: writes of 4 KiB pages by one thread on a device of which 70 % is used, at random sectors,
 * collection included; and an open, in stamps a second of the processor's time, and by the clock. With GIB, the open of a sparse image of so many GiB, with
 * its memory. */
#include "mintlintel_image.h"
#include <stdio.h>
#include <stdlib.h>
#include <string.h>
#include <time.h>
#include <unistd.h>

enum { PAGES = 256, PAGE_BYTES = 4096 };

static double time_of(clockid_t clock)
{
    struct timespec t;
    clock_gettime(clock, &t);
    return (double)t.tv_sec + 1e-9 * (double)t.tv_nsec;
}

/* The processor's time of this process, so that other work on the machine doesn't count; in mode `never` it waits for no disk. */
static double now(void)
{
    return time_of(CLOCK_PROCESS_CPUTIME_ID);
}

/* The memory in use, in MB, as the line of /proc that begins so says. */
static long memory(const char *line)
{
    char text[256];
    long kilobytes = 0;
    FILE *source = fopen("/proc/self/status", "r");
    while (source && kilobytes == 0 && fgets(text, sizeof text, source))
        if (strncmp(text, line, strlen(line)) == 0)
            kilobytes = atol(text + strlen(line));
    if (source)
        fclose(source);
    return kilobytes / 1000;
}

static uint32_t drawn(uint64_t *state)
{
    *state ^= *state << 13;
    *state ^= *state >> 7;
    *state ^= *state << 17;
    return (uint32_t)(*state >> 32);
}

static void need(uint32_t code)
{
    if (code > MINTLINTEL_WRITTEN) {
        fprintf(stderr, "image: %s\n", mintlintel_durable_code_name(code));
        exit(1);
    }
}

static double opened(struct mintlintel_image *image, const char *path, uint32_t blocks, uint32_t sectors)
{
    double start = now();
    need(mintlintel_image_open(image, path, MINTLINTEL_NEVER, 1, blocks, PAGES, PAGE_BYTES, sectors));
    return now() - start;
}

int main(int argc, char **argv)
{
    uint32_t gib = argc > 2 ? (uint32_t)atoi(argv[2]) : 0, blocks = gib ? gib << 10 : 512, stamps = blocks * PAGES, sectors = stamps / 10 * 7;
    static struct mintlintel_image image;
    static uint8_t page[PAGE_BYTES];
    struct mintlintel_totals totals;
    uint64_t state = 88172645463325252u;
    char path[4096];
    if (argc < 2)
        return 2;
    snprintf(path, sizeof path, "%s/rates.image", argv[1]);
    unlink(path);
    double first = opened(&image, path, blocks, sectors);
    uint32_t writes = gib ? 0 : 2 * stamps;
    double start = now();
    for (uint32_t i = 0; i < writes; i++) {
        memcpy(page, &i, sizeof i);
        need(mintlintel_durable_write(&image.device, i < sectors ? i : drawn(&state) % sectors, page, sizeof page));
    }
    double written = now() - start;
    need(mintlintel_durable_counts(&image.device, &totals));
    need(mintlintel_image_close(&image));
    double begun = time_of(CLOCK_MONOTONIC), again = opened(&image, path, blocks, sectors), by_clock = time_of(CLOCK_MONOTONIC) - begun;
    long kept = memory("VmRSS:");
    mintlintel_image_close(&image);
    unlink(path);
    printf("%u blocks of %d pages of %d bytes, %u sectors\n", blocks, PAGES, PAGE_BYTES, sectors);
    if (writes > 0)
        printf("writes: %.0f a second, %.2f programs and copies a write\n", writes / written, (double)(totals.programs + totals.copies) / writes);
    printf("open of a new image: %.2f s; of this one: %.2f s, %.0f stamps a second, and %.0f by the clock\n", first, again, stamps / again, stamps / by_clock);
    printf("memory: %ld MB when it is open, %ld MB at most\n", kept, memory("VmHWM:"));
    return 0;
}
