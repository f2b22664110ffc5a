/* The command line of flashplay over an image. Plain C, and not proved. */
#include "options.h"
#include <stdio.h>
#include <stdlib.h>
#include <string.h>

enum { LUNS = 1, BLOCKS = 64, PAGES = 64, WORDS = 64, SECTORS = 3072, WORD_BYTES = 8, MOST_WORDS = 8192, MOST_ENDURANCE = 1000000 };

static const char help[] =
    "Plays a trace on a device in an image file, which survives the end of the process.\n"
    "\n"
    "  flashplay --image FILE [OPTIONS] < TRACE > ANSWERS   plays a trace; the image is made if there is none\n"
    "  flashplay image FILE [--endurance N]                 shows what is in an image, and checks each page of it\n"
    "\n"
    "Options:\n"
    "      --image FILE       The file of the device\n"
    "      --sync {always,flush,never}  When writes reach the disk [default: flush]\n"
    "      --luns N           LUNs, from 1 to 8 [default of a new image: 1]\n"
    "      --blocks N         Blocks, from 3 to 1048576, a multiple of the LUNs [64]\n"
    "      --pages N          Pages of a block, from 1 to 16384 [64]\n"
    "      --words N          64-bit words of a page, from 1 to 8192 [64]\n"
    "      --sectors N        Sectors of one page each, below (blocks - 1) * pages [3072]\n"
    "      --wear FILE        Writes each block's erases and live pages to this file after the run\n"
    "      --quiet            Leaves out the answers: the output is the last line alone\n"
    "      --all-written      Taken as by a device in memory: an image refuses no write\n"
    "      --endurance N      With `image FILE`: the erases that a block takes, for the rest of the device's life\n"
    "  -h, --help             Prints this\n"
    "\n"
    "An image has the numbers that it was made with, and options that contradict them are refused.\n"
    "\n"
    "Status: 0 everything was written; 1 input, output, the image or a file failed; 2 the arguments are refused; 3 the trace has a\n"
    "fault, and nothing was played, or the image isn't whole; 4 memory ran out.\n";

struct option { const char *name; uint32_t *number, least, most; };

static int refuse(const char *name, const char *why)
{
    fprintf(stderr, "flashplay: %s%s\n", name, why);
    return REFUSED;
}

static int number_of(const char *text, uint32_t least, uint32_t most, uint32_t *number)
{
    char *end;
    if (text[0] < '0' || text[0] > '9' || strlen(text) > 10)
        return 0;
    unsigned long long value = strtoull(text, &end, 10);
    *number = (uint32_t)value;
    return *end == 0 && value >= least && value <= most;
}

static int read_number(const struct option *option, const char *text)
{
    if (number_of(text, option->least, option->most, option->number))
        return -1;
    fprintf(stderr, "flashplay: %s: '%s' isn't a number from %u to %u\n", option->name, text, option->least, option->most);
    return REFUSED;
}

static int read_mode(struct options *options, const char *text)
{
    static const char *const modes[] = {"always", "flush", "never"};
    for (int i = 0; i < 3; i++)
        if (strcmp(text, modes[i]) == 0) {
            options->mode = MINTLINTEL_ALWAYS + i;
            return -1;
        }
    return refuse("--sync", ": it is always, flush or never");
}

/* An option with a value. */
static int read_option(struct options *options, const char *name, const char *value)
{
    const struct option numbers[] = {{"--luns", &options->luns, 1, MINTLINTEL_MAX_LUNS}, {"--blocks", &options->blocks, 3, 1048576},
                                     {"--pages", &options->pages, 1, MINTLINTEL_MAX_PAGES}, {"--words", &options->words, 1, MOST_WORDS},
                                     {"--sectors", &options->sectors, 1, 268435456}, {"--endurance", &options->endurance, 1, MOST_ENDURANCE}};
    static const char *const of_memory[] = {"--workers", "--brooms", "--patience", "--drains", "--collections"};
    for (size_t i = 0; i < sizeof numbers / sizeof *numbers; i++)
        if (strcmp(name, numbers[i].name) == 0)
            return *numbers[i].number ? refuse(name, ": given twice") : read_number(&numbers[i], value);
    for (size_t i = 0; i < sizeof of_memory / sizeof *of_memory; i++)
        if (strcmp(name, of_memory[i]) == 0)
            return refuse(name, ": not with an image");
    if (strcmp(name, "--sync") == 0)
        return read_mode(options, value);
    const char **file = strcmp(name, "--image") == 0 ? &options->image : strcmp(name, "--wear") == 0 ? &options->wear : NULL;
    if (!file || *file || !*value)
        return refuse(name, file ? *file ? ": given twice" : ": the name is empty" : ": no option of an image; --help lists them");
    *file = value;
    return -1;
}

/* An option without a value: 1, or 0 if it takes one. */
static int is_flag(struct options *options, const char *word)
{
    options->quiet |= strcmp(word, "--quiet") == 0;
    return strcmp(word, "--quiet") == 0 || strcmp(word, "--all-written") == 0;
}

static int read_words(struct options *options, int count, char **words)
{
    char name[32];
    for (int i = 0; i < count; i++) {
        const char *equals = strchr(words[i], '='), *value = equals ? equals + 1 : words[i + 1];
        size_t length = equals ? (size_t)(equals - words[i]) : strlen(words[i]);
        if (strcmp(words[i], "--help") == 0 || strcmp(words[i], "-h") == 0)
            return printf("%s", help) < 0 || fflush(stdout) != 0 ? STREAM_FAILED : DONE;
        if (is_flag(options, words[i]))
            continue;
        if (length >= sizeof name || strncmp(words[i], "--", 2) != 0)
            return refuse(words[i], ": no option of an image; --help lists them");
        memcpy(name, words[i], length);
        name[length] = 0;
        if (!value)
            return refuse(name, ": its value is missing");
        i += !equals;
        int status = read_option(options, name, value);
        if (status >= 0)
            return status;
    }
    return -1;
}

int options_read(struct options *options, int count, char **words)
{
    *options = (struct options){.mode = MINTLINTEL_FLUSH};
    options->looks = count > 1 && strcmp(words[0], "image") == 0 && strncmp(words[1], "--", 2) != 0 && strcmp(words[1], "-h") != 0;
    if (options->looks)
        options->image = words[1];
    int begin = options->looks ? 2 : count > 0 && strcmp(words[0], "image") == 0;
    int status = read_words(options, count - begin, words + begin);
    if (status >= 0)
        return status;
    if (!options->image)
        return refuse("image", ": the name of its file is missing");
    if (options->looks && (options->wear || options->quiet || options->luns || options->blocks || options->pages || options->words || options->sectors))
        return refuse("image FILE", " takes --endurance alone");
    if (!options->looks && options->endurance)
        return refuse("--endurance", ": not with an image, whose blocks don't wear out");
    return -1;
}

struct mintlintel_durable_numbers options_numbers(const struct options *o)
{
    return (struct mintlintel_durable_numbers){o->luns ? o->luns : LUNS, o->blocks ? o->blocks : BLOCKS, o->pages ? o->pages : PAGES,
                                               WORD_BYTES * (o->words ? o->words : WORDS), o->sectors ? o->sectors : SECTORS};
}

int options_fit(const struct options *o, const struct mintlintel_durable_numbers *n)
{
    const struct { const char *option, *unit; uint32_t given, has; } all[] = {
        {"luns", "LUNs", o->luns, n->luns}, {"blocks", "blocks", o->blocks, n->blocks}, {"pages", "pages of a block", o->pages, n->pages},
        {"words", "bytes of a page", o->words * WORD_BYTES, n->page_bytes}, {"sectors", "sectors", o->sectors, n->sectors}};
    for (size_t i = 0; i < sizeof all / sizeof *all; i++)
        if (all[i].given && all[i].given != all[i].has) {
            fprintf(stderr, "image: %u %s, and --%s says %u\n", all[i].has, all[i].unit, all[i].option, all[i].given);
            return 0;
        }
    return 1;
}

int image_refused(uint32_t code)
{
    const struct { uint32_t code; enum status status; const char *told; } all[] = {
        {MINTLINTEL_NO_MEMORY, NO_MEMORY, "memory: refused"}, {MINTLINTEL_NO_FILE, STREAM_FAILED, "image: not opened"},
        {MINTLINTEL_IN_USE, STREAM_FAILED, "image: in use"}, {MINTLINTEL_NOT_AN_IMAGE, BROKEN, "image: not an image"},
        {MINTLINTEL_OTHER_DEVICE, BROKEN, "image: not an image"}, {MINTLINTEL_CUT_SHORT, BROKEN, "image: cut short"},
        {MINTLINTEL_PAGES_LOST, BROKEN, "image: lost pages"},
        {MINTLINTEL_BAD_BLOCKS_LISTED, BROKEN, "image: bad blocks are listed beside it, and only a block device opens it"},
        {MINTLINTEL_OTHER_NUMBERS, REFUSED, "image: other numbers"}, {MINTLINTEL_UNREADABLE, BROKEN, "image: unreadable"},
        {MINTLINTEL_BAD_LUNS, REFUSED, "geometry: Luns"}, {MINTLINTEL_BAD_BLOCKS, REFUSED, "geometry: Blocks"},
        {MINTLINTEL_BAD_PAGES, REFUSED, "geometry: Pages"}, {MINTLINTEL_BAD_WORDS, REFUSED, "geometry: Words"},
        {MINTLINTEL_BAD_SECTORS, REFUSED, "geometry: Sectors"}, {MINTLINTEL_TOO_FEW_BLOCKS, REFUSED, "geometry: TooFewBlocks"}};
    for (size_t i = 0; i < sizeof all / sizeof *all; i++)
        if (all[i].code == code) {
            fprintf(stderr, "%s\n", all[i].told);
            return (int)all[i].status;
        }
    fprintf(stderr, "image: failed\n");
    return STREAM_FAILED;
}

int head_refused(uint32_t code, const struct mintlintel_image_head *head)
{
    if (code != MINTLINTEL_DONE)
        return image_refused(code);
    if (head->numbers.blocks > 0)
        return -1;
    fprintf(stderr, "image: version %u, not 1 to 3\n", head->version);
    return BROKEN;
}
