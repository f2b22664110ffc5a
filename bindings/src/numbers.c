/* Why a device of some numbers is refused, and which ones would do. This file is plain C, and not proved; the opens don't use it. */
#include "mintlintel.h"
#include <inttypes.h>
#include <stdio.h>

static uint64_t words_of(const struct mintlintel_numbers *n)
{
    return n->sectors + (uint64_t)n->blocks + (uint64_t)n->blocks * n->pages * ((uint64_t)n->words + 1);
}

/* The limits of a number, in the order in which an open looks at them. */
struct limit { const char *name; uint32_t least, most; uint32_t code; };

static const struct limit limits[] = {
    {"luns", 1, MINTLINTEL_MAX_LUNS, MINTLINTEL_BAD_LUNS},
    {"blocks", MINTLINTEL_MIN_BLOCKS, MINTLINTEL_MAX_BLOCKS, MINTLINTEL_BAD_BLOCKS},
    {"pages", 1, MINTLINTEL_MAX_PAGES, MINTLINTEL_BAD_PAGES},
    {"words", 1, MINTLINTEL_MAX_WORDS, MINTLINTEL_BAD_WORDS},
    {"sectors", 1, MINTLINTEL_MAX_SECTORS, MINTLINTEL_BAD_SECTORS},
    {"endurance", 1, MINTLINTEL_MAX_ENDURANCE, MINTLINTEL_BAD_ENDURANCE},
    {"hosts", 0, MINTLINTEL_MAX_HOSTS, MINTLINTEL_BAD_SEATS},
    {"brooms", 0, MINTLINTEL_MAX_BROOMS, MINTLINTEL_BAD_SEATS},
};
enum { LIMITS = sizeof limits / sizeof *limits };

static uint32_t *number_of(struct mintlintel_numbers *n, int i)
{
    uint32_t *numbers[LIMITS] = {&n->luns, &n->blocks, &n->pages, &n->words, &n->sectors, &n->endurance, &n->hosts, &n->brooms};
    return numbers[i];
}

static uint32_t up_to_multiple(uint32_t number, uint32_t of)
{
    return (number + of - 1) / of * of;
}

/* The fewest blocks that have room for these sectors beside those that hosts and brooms keep. */
static uint64_t fewest_blocks(const struct mintlintel_numbers *n)
{
    uint64_t kept = n->hosts == 0 ? 1 : n->hosts + 2 * (uint64_t)n->brooms;
    uint64_t sectors = n->sectors + (uint64_t)(n->hosts == 0);
    uint64_t blocks = kept + (sectors + n->pages - 1) / n->pages;
    blocks = blocks < MINTLINTEL_MIN_BLOCKS ? MINTLINTEL_MIN_BLOCKS : blocks;
    return (blocks + n->luns - 1) / n->luns * n->luns;
}

/* The most blocks beside which the table has room for these sectors. */
static uint32_t most_blocks(const struct mintlintel_numbers *n, uint32_t sectors)
{
    uint64_t blocks = (MINTLINTEL_MAX_TABLE_WORDS - sectors) / (1 + (uint64_t)n->pages * (n->words + 1));
    blocks = blocks < MINTLINTEL_MAX_BLOCKS ? blocks : MINTLINTEL_MAX_BLOCKS;
    return (uint32_t)(blocks / n->luns * n->luns);
}

void mintlintel_nearest(struct mintlintel_numbers *n)
{
    for (int i = 0; i < LIMITS; i++) {
        uint32_t *number = number_of(n, i);
        *number = *number < limits[i].least ? limits[i].least : *number > limits[i].most ? limits[i].most : *number;
    }
    if (n->hosts == 0)
        n->brooms = 0;
    n->blocks = up_to_multiple(n->blocks, n->luns) > MINTLINTEL_MAX_BLOCKS ? MINTLINTEL_MAX_BLOCKS / n->luns * n->luns : up_to_multiple(n->blocks, n->luns);
    struct mintlintel_numbers one_sector = *n;
    one_sector.sectors = 1;
    uint64_t most_pages = (MINTLINTEL_MAX_TABLE_WORDS - 1 - fewest_blocks(&one_sector)) / (fewest_blocks(&one_sector) * (n->words + 1));
    n->pages = n->pages < most_pages ? n->pages : (uint32_t)most_pages;
    uint64_t fewest = fewest_blocks(n);
    uint32_t most = most_blocks(n, n->sectors);
    if (fewest <= most) {
        n->blocks = n->blocks < fewest ? (uint32_t)fewest : n->blocks > most ? most : n->blocks;
        return;
    }
    n->blocks = most_blocks(n, 1);
    uint64_t room = mintlintel_most_sectors(n->blocks, n->pages, n->hosts, n->brooms), left = MINTLINTEL_MAX_TABLE_WORDS - (words_of(n) - n->sectors);
    room = room < left ? room : left;
    n->sectors = n->sectors < room ? n->sectors : (uint32_t)room;
}

/* A text that is written bit by bit, as far as there is room. */
struct text { char *at; size_t room; };

#define SAY(text, ...)                                                                      \
    do {                                                                                    \
        int said = snprintf((text)->at, (text)->room, __VA_ARGS__);                         \
        size_t taken = said < 0 || (size_t)said >= (text)->room ? (text)->room - 1 : (size_t)said; \
        (text)->at += taken;                                                                \
        (text)->room -= taken;                                                              \
    } while (0)

static void say_fault(struct text *text, const struct mintlintel_numbers *n, uint32_t code)
{
    uint64_t most = mintlintel_most_sectors(n->blocks, n->pages, n->hosts, n->brooms);
    if (code == MINTLINTEL_BAD_SEATS)
        SAY(text, "hosts or brooms out of range: %" PRIu32 " hosts and %" PRIu32
            " brooms were given, and a shared device has 1 to %d hosts and up to %d brooms",
            n->hosts, n->brooms, MINTLINTEL_MAX_HOSTS, MINTLINTEL_MAX_BROOMS);
    else if (code == MINTLINTEL_TOO_MANY_WORDS)
        SAY(text, "too many words: sectors + blocks + blocks * pages * (words + 1) is %" PRIu64 ", and at most %d", words_of(n), MINTLINTEL_MAX_TABLE_WORDS);
    else if (code == MINTLINTEL_TOO_FEW_BLOCKS && n->hosts == 0)
        SAY(text, "too few blocks: %" PRIu32 " blocks of %" PRIu32 " pages have room for (blocks - 1) * pages - 1 = %" PRIu64
            " sectors, and %" PRIu32 " were given",
            n->blocks, n->pages, most, n->sectors);
    else if (code == MINTLINTEL_TOO_FEW_BLOCKS)
        SAY(text, "too few blocks: %" PRIu32 " blocks of %" PRIu32 " pages, %" PRIu32 " hosts and %" PRIu32
            " brooms have room for (blocks - hosts - 2 * brooms) * pages = %" PRIu64 " sectors, and %" PRIu32 " were given",
            n->blocks, n->pages, n->hosts, n->brooms, most, n->sectors);
}

void mintlintel_explain(uint32_t code, const struct mintlintel_numbers *given, char *at, size_t bytes)
{
    struct text text = {at, bytes};
    struct mintlintel_numbers n = *given, nearest = *given;
    if (bytes == 0)
        return;
    if (code < MINTLINTEL_BAD_LUNS || code > MINTLINTEL_TOO_FEW_BLOCKS) {
        SAY(&text, "%s", mintlintel_code_name(code));
        return;
    }
    for (int i = 0; i < LIMITS && code < MINTLINTEL_BAD_SEATS; i++)
        if (limits[i].code == code)
            SAY(&text, "%s out of range: %" PRIu32 " given, and it is %" PRIu32 " to %" PRIu32, limits[i].name, *number_of(&n, i),
                limits[i].least, limits[i].most);
    if (code == MINTLINTEL_BAD_BLOCKS)
        SAY(&text, ", a multiple of luns, which is %" PRIu32, n.luns);
    say_fault(&text, given, code);
    if (code == MINTLINTEL_BAD_SEATS && n.hosts == 0)
        nearest.hosts = 1;
    mintlintel_nearest(&nearest);
    SAY(&text, "; it would do with");
    for (int i = 0; i < LIMITS; i++)
        if (*number_of(&nearest, i) != *number_of(&n, i))
            SAY(&text, " %s=%" PRIu32, limits[i].name, *number_of(&nearest, i));
}
