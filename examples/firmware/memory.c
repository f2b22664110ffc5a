/* What a device takes of memory, on this machine, by the allocator: at rest, and at most while a device is opened whose sectors are all written. memory BLOCKS
 * PAGES PAGE_BYTES SECTORS. Linked with --wrap=malloc,--wrap=calloc,--wrap=realloc,--wrap=free. */
#include <mintlintel_durable.h>
#include <stdio.h>
#include <stdlib.h>
#include <string.h>

static size_t used, most;
static uint8_t (*stamps)[MINTLINTEL_STAMP_BYTES];
static uint32_t pages, held;

void *__real_malloc(size_t bytes);
void *__real_realloc(void *at, size_t bytes);
void __real_free(void *at);
void *__wrap_malloc(size_t bytes);
void *__wrap_calloc(size_t count, size_t bytes);
void *__wrap_realloc(void *at, size_t bytes);
void __wrap_free(void *at);

static void took(size_t bytes)
{
    used += bytes;
    most = used > most ? used : most;
}

/* A block begins with its length. */
void *__wrap_malloc(size_t bytes)
{
    size_t *at = __real_malloc(bytes + 16);
    if (!at)
        return NULL;
    took(*at = bytes);
    return at + 2;
}

void *__wrap_calloc(size_t count, size_t bytes)
{
    void *at = __wrap_malloc(count * bytes);
    return at ? memset(at, 0, count * bytes) : NULL;
}

void __wrap_free(void *at)
{
    if (!at)
        return;
    used -= ((size_t *)at)[-2];
    __real_free((size_t *)at - 2);
}

void *__wrap_realloc(void *at, size_t bytes)
{
    void *to = __wrap_malloc(bytes);
    size_t had = at ? ((size_t *)at)[-2] : 0;
    if (to && at) {
        memcpy(to, at, had < bytes ? had : bytes);
        __wrap_free(at);
    }
    return to;
}

static int read(void *chip, uint32_t block, uint32_t page, void *main, void *stamp)
{
    uint32_t at = block * pages + page;
    (void)chip;
    if (at >= held)
        return 1;
    if (main)
        memset(main, 0, *(uint32_t *)chip);
    memcpy(stamp, stamps[at], MINTLINTEL_STAMP_BYTES);
    return 0;
}

/* The first device's writes make the stamps. */
static int program(void *chip, uint32_t block, uint32_t page, const void *main, const void *stamp)
{
    (void)chip, (void)main;
    memcpy(stamps[block * pages + page], stamp, MINTLINTEL_STAMP_BYTES);
    return 0;
}

static int erase(void *chip, uint32_t block) { (void)chip, (void)block; return 0; }
static int mark_bad(void *chip, uint32_t block) { (void)chip, (void)block; return 0; }

int main(int count, char **words)
{
    if (count != 5)
        return 2;
    uint32_t blocks = (uint32_t)atol(words[1]), page_bytes = (uint32_t)atol(words[3]), sectors = (uint32_t)atol(words[4]);
    pages = (uint32_t)atol(words[2]);
    struct mintlintel_nand nand = {&page_bytes, read, program, NULL, erase, NULL, mark_bad, NULL};
    struct mintlintel_durable device = {{0, 0}, NULL};
    void *page = __real_malloc(page_bytes);
    stamps = __real_malloc((size_t)blocks * pages * MINTLINTEL_STAMP_BYTES);
    memset(page, 0, page_bytes);
    uint32_t code = mintlintel_durable_open(&device, &nand, 1, blocks, pages, page_bytes, sectors);
    for (uint32_t sector = 0; sector < sectors && code == 0; sector++)
        code = mintlintel_durable_write(&device, sector, page, page_bytes);
    mintlintel_durable_close(&device);
    held = sectors, most = used;
    if (code == 0)
        code = mintlintel_durable_open(&device, &nand, 1, blocks, pages, page_bytes, sectors);
    printf("code %u at-rest %zu most %zu\n", code, used, most);
    return code != 0;
}
