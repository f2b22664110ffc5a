/* machine play FOLDER CALLS: plays so many calls on two images in the folder, `always` and `flush`, and is killed. It says at a port that QEMU keeps in a
 * file which calls of each have to be there after a power cut. Call number i of an image is the same in every run.
 * machine find FOLDER: prints how many calls each image has. It fails if the sectors aren't those after any number of them. */
#include "written.h"
#include <libgen.h>
#include <signal.h>
#include <sys/io.h>

enum { LUNS = 1, BLOCKS = 6, PAGES = 32, PAGE_BYTES = 1024, SECTORS = 130 };
/* The port of QEMU's isa-debugcon: what is written there is in its file before the next instruction. */
enum { PORT = 0xe9 };
enum { ALWAYS, FLUSH, IMAGES };
/* How many calls may stand behind the newest write that is there. */
enum { MOST_TRIMMED = 1000 };

struct call { uint32_t sector, is_trim; };
struct played { struct mintlintel_image image; uint32_t calls; };

static const char *const names[IMAGES] = {"always", "flush"};
static const enum mintlintel_image_mode modes[IMAGES] = {MINTLINTEL_ALWAYS, MINTLINTEL_FLUSH};

static struct call call_of(uint32_t number)
{
    uint64_t state = number * 0x9e3779b97f4a7c15u + 1;
    drawn(&state);
    uint32_t sector = drawn(&state) % SECTORS;
    return (struct call){sector, drawn(&state) % 8 == 0};
}

/* After how many calls the sectors are as they are: the most, if trims of empty sectors are among them. The newest writes may have been trimmed. */
static uint32_t find(struct mintlintel_image *image)
{
    uint32_t found[SECTORS], after[SECTORS] = {0}, newest = 0, calls = UINT32_MAX;
    for (uint32_t sector = 0; sector < SECTORS; sector++) {
        found[sector] = value_of(image, sector, PAGE_BYTES);
        newest = found[sector] > newest ? found[sector] : newest;
    }
    for (uint32_t number = 0; number <= newest + MOST_TRIMMED; number++) {
        struct call call = call_of(number);
        if (number > 0)
            after[call.sector] = call.is_trim ? 0 : number;
        if (number >= newest && memcmp(after, found, sizeof after) == 0)
            calls = number;
    }
    CHECK(calls != UINT32_MAX);
    return calls;
}

static void begin(struct played *played, const char *folder, int which)
{
    char path[4096];
    snprintf(path, sizeof path, "%s/%s.image", folder, names[which]);
    uint32_t code = mintlintel_image_open(&played->image, path, modes[which], LUNS, BLOCKS, PAGES, PAGE_BYTES, SECTORS);
    CHECK(code == MINTLINTEL_DONE);
    played->calls = find(&played->image);
}

static void play_call(struct played *played)
{
    uint8_t page[PAGE_BYTES];
    struct call call = call_of(++played->calls);
    fill(page, PAGE_BYTES, played->calls);
    uint32_t code = call.is_trim ? mintlintel_durable_trim(&played->image.device, call.sector, 1)
        : mintlintel_durable_write(&played->image.device, call.sector, page, sizeof page);
    CHECK(code <= MINTLINTEL_WRITTEN);
}

static void say(const char *program, int which, uint32_t calls)
{
    char text[256];
    snprintf(text, sizeof text, "%s %s %u\n", program, names[which], calls);
    for (const char *at = text; *at; at++)
        outb((unsigned char)*at, PORT);
}

static void play(const char *program, const char *folder, long calls)
{
    static struct played played[IMAGES];
    CHECK(ioperm(PORT, 1, 1) == 0);
    for (int which = 0; which < IMAGES; which++)
        begin(&played[which], folder, which);
    for (uint64_t state = 88172645463325252u + played[FLUSH].calls; calls > 0; calls--) {
        int which = drawn(&state) % 8 == 0 ? ALWAYS : FLUSH;
        int is_flush = drawn(&state) % 32 == 0;
        play_call(&played[which]);
        if (which == FLUSH && is_flush)
            CHECK(mintlintel_durable_flush(&played[which].image.device) == MINTLINTEL_DONE);
        if (which == ALWAYS || is_flush)
            say(program, which, played[which].calls);
    }
    raise(SIGKILL);
}

int main(int argc, char **argv)
{
    static struct played played;
    if (argc == 4 && strcmp(argv[1], "play") == 0)
        play(basename(argv[0]), argv[2], atol(argv[3]));
    if (argc != 3 || strcmp(argv[1], "find") != 0)
        return 2;
    for (int which = 0; which < IMAGES; which++) {
        begin(&played, argv[2], which);
        printf("has %s %u\n", names[which], played.calls);
        fflush(stdout);
        CHECK(mintlintel_image_close(&played.image) == MINTLINTEL_DONE);
    }
    return 0;
}
