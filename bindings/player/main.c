/* flashplay over an image: plays a trace of one thread on a device that outlives the process. This loop is plain C, and not proved; the calls of the
 * device's core are. docs/FORMATS.md defines the trace and the answers. */
#include "check_image.h"
#include "options.h"
#include "trace.h"
#include <errno.h>
#include <fcntl.h>
#include <inttypes.h>
#include <signal.h>
#include <stdio.h>
#include <stdlib.h>
#include <string.h>
#include <sys/stat.h>
#include <unistd.h>

struct player {
    struct options options;
    struct mintlintel_durable_numbers numbers;
    struct mintlintel_image image;
    struct trace trace;
    int wear; /* the file of the wear, or -1 */
    uint8_t *page;
};

static int refuse(enum status status, const char *told)
{
    fprintf(stderr, "%s\n", told);
    return (int)status;
}

/* ---- Answers ---- */

/* Writes the answer of a line whose command was done; a page as two digits a byte. */
static void answer(const struct player *player, size_t line, const struct command *command, uint32_t code)
{
    static const char digits[] = "0123456789abcdef";
    const char *told = command->op == OP_MEET ? "met" : code == MINTLINTEL_EMPTY ? "empty" : "written";
    if (player->options.quiet)
        return;
    printf("%zu,%s,%" PRIu32 ",", line, op_name(command->op), command->sector);
    if (command->op == OP_READ && code == MINTLINTEL_WRITTEN)
        for (uint32_t i = 0; i < player->numbers.page_bytes; i++) {
            putchar_unlocked(digits[player->page[i] >> 4]);
            putchar_unlocked(digits[player->page[i] & 15]);
        }
    else
        fputs(told, stdout);
    putchar_unlocked('\n');
}

static uint32_t perform(struct player *player, const struct command *command)
{
    struct mintlintel_durable *device = &player->image.device;
    size_t bytes = player->numbers.page_bytes;
    switch (command->op) {
    case OP_READ:
        return mintlintel_durable_read(device, command->sector, player->page, bytes);
    case OP_WRITE:
        trace_page(&player->trace, command, player->page, player->numbers.page_bytes);
        return mintlintel_durable_write(device, command->sector, player->page, bytes);
    case OP_NEW:
        trace_page(&player->trace, command, player->page, player->numbers.page_bytes);
        return mintlintel_durable_write_new(device, command->sector, player->page, bytes);
    case OP_TRIM:
        return mintlintel_durable_trim(device, command->sector, 1);
    default:
        return MINTLINTEL_DONE;
    }
}

/* Plays the trace, and writes its answers and their last line. */
static int play(struct player *player)
{
    struct mintlintel_totals totals;
    for (size_t i = 0; i < player->trace.count; i++) {
        const struct command *command = &player->trace.commands[i];
        uint32_t code = perform(player, command);
        if (code > MINTLINTEL_WRITTEN) {
            fflush(stdout);
            return image_refused(code);
        }
        answer(player, i + 1, command, code);
        if (ferror(stdout))
            return refuse(STREAM_FAILED, "output: failed");
    }
    mintlintel_durable_counts(&player->image.device, &totals);
    printf("end,%" PRIu64 ",%" PRIu64 ",%" PRIu64 "\n", totals.programs, totals.copies, totals.erases);
    return fflush(stdout) == 0 && !ferror(stdout) ? DONE : refuse(STREAM_FAILED, "output: failed");
}

/* ---- The wear ---- */

/* Whether two files are one; a device may be several. */
static int is_same(const struct stat *one, const char *path)
{
    struct stat other;
    return !S_ISCHR(one->st_mode) && stat(path, &other) == 0 && one->st_dev == other.st_dev && one->st_ino == other.st_ino;
}

static int open_wear(struct player *player)
{
    struct stat about;
    player->wear = -1;
    if (!player->options.wear)
        return DONE;
    int is_there = access(player->options.wear, F_OK) == 0;
    player->wear = open(player->options.wear, O_WRONLY | O_CREAT | O_CLOEXEC, 0666);
    if (player->wear < 0 || fstat(player->wear, &about) != 0)
        return refuse(STREAM_FAILED, "wear: not opened");
    const char *const others[] = {player->options.image, "/dev/stdin", "/dev/stdout", "/dev/stderr"};
    for (int i = 0; i < 4; i++)
        if (is_same(&about, others[i]) && (i < 2 || !S_ISFIFO(about.st_mode))) {
            char *made = is_there ? NULL : realpath(player->options.wear, NULL);
            if (made)
                unlink(made);
            free(made);
            return refuse(REFUSED, "wear: not a file of its own");
        }
    return DONE;
}

static int write_wear(struct player *player)
{
    struct stat about;
    struct mintlintel_block block;
    if (player->wear < 0)
        return DONE;
    int is_file = fstat(player->wear, &about) == 0 && S_ISREG(about.st_mode);
    FILE *file = is_file && ftruncate(player->wear, 0) != 0 ? NULL : fdopen(player->wear, "w");
    if (!file)
        return refuse(STREAM_FAILED, "wear: failed");
    player->wear = -1;
    fputs("block,erases,live,retired\n", file);
    for (uint32_t i = 0; i < player->numbers.blocks; i++) {
        mintlintel_durable_block(&player->image.device, i, &block);
        fprintf(file, "%" PRIu32 ",%" PRIu32 ",%" PRIu32 ",%" PRIu32 "\n", i, block.erases, block.live, block.retired);
    }
    int is_written = !ferror(file);
    return fclose(file) == 0 && is_written ? DONE : refuse(STREAM_FAILED, "wear: failed");
}

/* ---- The run ---- */

/* The numbers of the image, or of the one that will be made. */
static int find_numbers(struct player *player)
{
    struct mintlintel_image_head head;
    uint32_t code = mintlintel_image_look(player->options.image, &head);
    if (code == MINTLINTEL_NO_FILE && errno == ENOENT) {
        player->numbers = options_numbers(&player->options);
        return DONE;
    }
    int status = head_refused(code, &head);
    if (status >= 0)
        return status;
    player->numbers = head.numbers;
    return options_fit(&player->options, &head.numbers) ? DONE : REFUSED;
}

static int load(struct player *player)
{
    size_t line;
    enum fault fault = trace_load(&player->trace, STDIN_FILENO, player->numbers.sectors, player->numbers.page_bytes, &line);
    player->page = malloc(player->numbers.page_bytes);
    fault = fault || player->page ? fault : MEMORY;
    if (!fault)
        return DONE;
    fprintf(stderr, "line %zu: %s\n", line, fault_name(fault));
    return fault == READ ? STREAM_FAILED : fault == MEMORY ? NO_MEMORY : BROKEN;
}

static int run_on_image(struct player *player)
{
    const struct mintlintel_durable_numbers *n = &player->numbers;
    uint32_t code = mintlintel_image_open(&player->image, player->options.image, player->options.mode, n->luns, n->blocks, n->pages, n->page_bytes,
                                          n->sectors);
    if (code != MINTLINTEL_DONE)
        return image_refused(code);
    int status = play(player);
    if (status == DONE)
        status = write_wear(player);
    code = mintlintel_image_close(&player->image);
    return status == DONE && code != MINTLINTEL_DONE ? image_refused(code) : status;
}

int main(int count, char **words)
{
    static char buffer[1 << 16];
    struct player player = {.wear = -1};
    signal(SIGPIPE, SIG_IGN);
    setvbuf(stdout, buffer, _IOFBF, sizeof buffer);
    int status = options_read(&player.options, count - 1, words + 1);
    if (status >= 0)
        return status;
    if (player.options.looks)
        return check_image(player.options.image, player.options.endurance);
    status = find_numbers(&player);
    if (status == DONE)
        status = open_wear(&player);
    if (status == DONE)
        status = load(&player);
    if (status == DONE)
        status = run_on_image(&player);
    trace_free(&player.trace);
    free(player.page);
    return status;
}
