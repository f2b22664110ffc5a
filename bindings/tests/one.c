/* A device for one thread against an array: a million calls return each code, and a refused call changes nothing. */
#include "testing.h"

enum { WORDS = 2, PAGE = 8 * WORDS, MOST_SECTORS = 60, MOST_BLOCKS = 12, MOST_CODE = 128 };
enum call { OPEN, READ, WRITE, WRITE_NEW, TRIM, COUNTS, BLOCK, NUMBERS, CALLS };

/* What the device has to hold: for each sector the number of its last write, 0 for none. */
struct shadow {
    struct mintlintel_one device;
    struct mintlintel_numbers numbers;
    uint32_t written[MOST_SECTORS];
    uint64_t programs;
};

static uint64_t returned[CALLS][MOST_CODE];
static uint64_t state = 88172645463325252u;
static uint64_t calls;

static uint32_t counted(enum call call, uint32_t code)
{
    CHECK(code < MOST_CODE);
    returned[call][code]++;
    calls++;
    return code;
}

static void fill(uint8_t *page, uint32_t sector, uint32_t number)
{
    for (int i = 0; i < PAGE; i += 8) {
        memcpy(page + i, &sector, 4);
        memcpy(page + i + 4, &number, 4);
    }
}

/* A read returns the shadow's value; for an empty sector it doesn't change the buffer. */
static void check_read(struct shadow *s, uint32_t sector)
{
    uint8_t wanted[PAGE], out[PAGE];
    memset(wanted, 0xa5, PAGE);
    memset(out, 0xa5, PAGE);
    if (s->written[sector])
        fill(wanted, sector, s->written[sector]);
    CHECK(counted(READ, mintlintel_one_read(&s->device, sector, out, PAGE)) == (s->written[sector] != 0));
    CHECK(memcmp(out, wanted, PAGE) == 0);
}

/* what a device reports of each block */
struct blocks { struct mintlintel_block of[MOST_BLOCKS]; };

static struct blocks blocks(struct shadow *s)
{
    struct blocks all;
    memset(&all, 0, sizeof all);
    for (uint32_t b = 0; b < s->numbers.blocks; b++)
        CHECK(counted(BLOCK, mintlintel_one_block(&s->device, b, &all.of[b])) == MINTLINTEL_DONE);
    return all;
}

static struct mintlintel_totals totals(struct shadow *s)
{
    struct mintlintel_totals t = {9, 9, 9};
    CHECK(counted(COUNTS, mintlintel_one_counts(&s->device, &t)) == MINTLINTEL_DONE);
    return t;
}

/* All sectors, the sums over the blocks and the numbers agree with the shadow. */
static void check_device(struct shadow *s)
{
    uint32_t sectors = s->numbers.sectors, written = 0;
    for (uint32_t sector = 0; sector < sectors; sector++) {
        check_read(s, sector);
        written += s->written[sector] != 0;
    }
    uint64_t erases = 0, live = 0;
    struct mintlintel_block block;
    for (uint32_t b = 0; b < s->numbers.blocks; b++) {
        CHECK(counted(BLOCK, mintlintel_one_block(&s->device, b, &block)) == MINTLINTEL_DONE);
        CHECK(block.erases <= s->numbers.endurance && block.live <= s->numbers.pages);
        CHECK(block.retired == (block.erases == s->numbers.endurance));
        erases += block.erases;
        live += block.live;
    }
    struct mintlintel_totals t = totals(s);
    CHECK(t.programs == s->programs && t.erases == erases && live == written);
    struct mintlintel_numbers n;
    CHECK(counted(NUMBERS, mintlintel_one_numbers(&s->device, &n)) == MINTLINTEL_DONE);
    CHECK(memcmp(&n, &s->numbers, sizeof n) == 0);
}

/* Only the device knows whether a page is left; every other code has to be the shadow's. */
static int check_write(struct shadow *s, uint32_t sector, uint32_t number, int only_new)
{
    uint8_t page[PAGE];
    struct mintlintel_totals before = totals(s);
    struct blocks blocks_before = blocks(s);
    fill(page, sector, number);
    uint32_t was = s->written[sector] != 0;
    uint32_t code = only_new ? counted(WRITE_NEW, mintlintel_one_write_new(&s->device, sector, page, PAGE))
                             : counted(WRITE, mintlintel_one_write(&s->device, sector, page, PAGE));
    struct mintlintel_totals after = totals(s);
    if (code == MINTLINTEL_WORN_OUT || (only_new && was)) {
        CHECK(code == MINTLINTEL_WORN_OUT || code == MINTLINTEL_WRITTEN);
        CHECK(!(only_new && was) || code == MINTLINTEL_WRITTEN);
        struct blocks blocks_after = blocks(s);
        CHECK(memcmp(&before, &after, sizeof before) == 0 && memcmp(&blocks_before, &blocks_after, sizeof blocks_before) == 0);
        check_read(s, sector);
        return code == MINTLINTEL_WORN_OUT;
    }
    CHECK(code == was);
    CHECK(after.programs == before.programs + 1 && after.copies >= before.copies && after.erases <= before.erases + 1);
    s->written[sector] = number;
    s->programs++;
    return 0;
}

static void check_trim(struct shadow *s, uint32_t sector)
{
    CHECK(counted(TRIM, mintlintel_one_trim(&s->device, sector)) == (s->written[sector] != 0));
    s->written[sector] = 0;
}

/* Calls with a sector, a length or a block that doesn't exist: each returns its code and changes nothing. */
static void check_refusals(struct shadow *s, uint32_t sector, uint32_t drawn_number)
{
    uint8_t page[PAGE + 1], kept[PAGE + 1];
    memset(page, 0x5a, sizeof page);
    memcpy(kept, page, sizeof page);
    struct mintlintel_totals before = totals(s);
    struct blocks blocks_before = blocks(s);
    uint32_t far = s->numbers.sectors + drawn_number % 3 * 1000000000u, short_by = drawn_number % PAGE;
    size_t wrong = drawn_number % 2 ? short_by : PAGE + 1;
    struct mintlintel_block block = {7, 7, 7}, same = block;
    CHECK(counted(READ, mintlintel_one_read(&s->device, far, page, wrong)) == MINTLINTEL_NO_SECTOR);
    CHECK(counted(READ, mintlintel_one_read(&s->device, sector, page, wrong)) == MINTLINTEL_NOT_A_PAGE);
    CHECK(counted(WRITE, mintlintel_one_write(&s->device, far, page, wrong)) == MINTLINTEL_NO_SECTOR);
    CHECK(counted(WRITE, mintlintel_one_write(&s->device, sector, page, wrong)) == MINTLINTEL_NOT_A_PAGE);
    CHECK(counted(WRITE_NEW, mintlintel_one_write_new(&s->device, far, page, wrong)) == MINTLINTEL_NO_SECTOR);
    CHECK(counted(WRITE_NEW, mintlintel_one_write_new(&s->device, sector, page, wrong)) == MINTLINTEL_NOT_A_PAGE);
    CHECK(counted(TRIM, mintlintel_one_trim(&s->device, far)) == MINTLINTEL_NO_SECTOR);
    CHECK(counted(BLOCK, mintlintel_one_block(&s->device, s->numbers.blocks + drawn_number % 3, &block)) == MINTLINTEL_NO_SUCH_BLOCK);
    CHECK(counted(OPEN, mintlintel_one_open(&s->device, 0, 0, 0, 0, 0, 0)) == MINTLINTEL_ALREADY_OPEN);
    struct mintlintel_totals after = totals(s);
    struct blocks blocks_after = blocks(s);
    CHECK(memcmp(&before, &after, sizeof before) == 0 && memcmp(&blocks_before, &blocks_after, sizeof blocks_before) == 0);
    CHECK(memcmp(page, kept, sizeof page) == 0 && memcmp(&block, &same, sizeof block) == 0);
    check_read(s, sector);
}

/* Random calls on a device of these numbers, up to this many, or until its last page is worn. */
static void test_random_calls(struct mintlintel_numbers numbers, uint32_t most)
{
    struct shadow s = {.numbers = numbers};
    CHECK(counted(OPEN, mintlintel_one_open(&s.device, numbers.luns, numbers.blocks, numbers.pages, numbers.words, numbers.sectors,
                                            numbers.endurance)) == MINTLINTEL_DONE);
    int worn = 0;
    for (uint32_t number = 1; number <= most && worn < 50; number++) {
        uint32_t sector = drawn(&state) % numbers.sectors, kind = drawn(&state) % 64;
        if (kind < 34)
            worn += check_write(&s, sector, number, 0);
        else if (kind < 44)
            worn += check_write(&s, sector, number, 1);
        else if (kind < 52)
            check_trim(&s, sector);
        else if (kind < 63)
            check_read(&s, sector);
        else
            check_refusals(&s, sector, drawn(&state));
        if (number % 4096 == 0)
            check_device(&s);
    }
    check_device(&s);
    mintlintel_one_close(&s.device);
    CHECK(s.device.is_open == 0 && s.device.at == NULL);
}

/* A closed handle: each call returns that code, and changes nothing that it was passed. */
static void test_closed_handle(void)
{
    struct mintlintel_one device = {0}, zero = {0};
    uint8_t page[PAGE] = {3}, kept[PAGE] = {3};
    struct mintlintel_totals t = {1, 2, 3}, t_kept = t;
    struct mintlintel_block b = {1, 2, 3}, b_kept = b;
    struct mintlintel_numbers n = {1, 2, 3, 4, 5, 6, 7, 8}, n_kept = n;
    CHECK(counted(READ, mintlintel_one_read(&device, 9, page, 1)) == MINTLINTEL_CLOSED);
    CHECK(counted(WRITE, mintlintel_one_write(&device, 9, page, 1)) == MINTLINTEL_CLOSED);
    CHECK(counted(WRITE_NEW, mintlintel_one_write_new(&device, 9, page, 1)) == MINTLINTEL_CLOSED);
    CHECK(counted(TRIM, mintlintel_one_trim(&device, 9)) == MINTLINTEL_CLOSED);
    CHECK(counted(COUNTS, mintlintel_one_counts(&device, &t)) == MINTLINTEL_CLOSED);
    CHECK(counted(BLOCK, mintlintel_one_block(&device, 9, &b)) == MINTLINTEL_CLOSED);
    CHECK(counted(NUMBERS, mintlintel_one_numbers(&device, &n)) == MINTLINTEL_CLOSED);
    mintlintel_one_close(&device);
    mintlintel_one_close(&device);
    CHECK(memcmp(page, kept, PAGE) == 0 && memcmp(&t, &t_kept, sizeof t) == 0);
    CHECK(memcmp(&b, &b_kept, sizeof b) == 0 && memcmp(&n, &n_kept, sizeof n) == 0);
    CHECK(memcmp(&device, &zero, sizeof device) == 0);
}

/* Each fault of the numbers, by the limits of docs/FORMATS.md: for a device that breaks two, the code is that of the first. */
static void test_faults_of_open(void)
{
    static const uint32_t rows[][7] = {
        {101, 0, 0, 0, 0, 0, 0},        {101, 9, 9, 1, 1, 1, 1},          {102, 1, 2, 0, 1, 1, 1},        {102, 1, 4097, 1, 1, 1, 1},
        {102, 2, 5, 1, 1, 1, 1},        {103, 1, 4, 0, 0, 1, 1},          {103, 1, 4, 16385, 1, 1, 1},    {104, 1, 4, 4, 0, 0, 1},
        {104, 1, 4, 4, 513, 1, 1},      {105, 1, 4, 4, 1, 0, 0},          {105, 1, 4, 4, 1, 1048577, 1},  {106, 1, 4, 4, 1, 1, 0},
        {106, 1, 4, 4, 1, 1, 1000001},  {108, 1, 4096, 16384, 1, 1, 1},   {109, 1, 3, 1, 1, 2, 1},        {0, 1, 3, 1, 1, 1, 1},
    };
    struct mintlintel_one device = {0}, zero = {0};
    for (size_t i = 0; i < sizeof rows / sizeof rows[0]; i++) {
        const uint32_t *row = rows[i];
        CHECK(counted(OPEN, mintlintel_one_open(&device, row[1], row[2], row[3], row[4], row[5], row[6])) == row[0]);
        if (row[0] != 0)
            CHECK(memcmp(&device, &zero, sizeof device) == 0);
    }
    mintlintel_one_close(&device);
}

/* Each call has returned each of its codes, except code 6, which memory_one.c tests. */
static void check_each_code_was_returned(void)
{
    static const uint32_t pairs[][2] = {
        {OPEN, 0},      {OPEN, 8},      {OPEN, 101},    {OPEN, 102},    {OPEN, 103},    {OPEN, 104},  {OPEN, 105},  {OPEN, 106},
        {OPEN, 108},    {OPEN, 109},    {READ, 0},      {READ, 1},      {READ, 2},      {READ, 3},    {READ, 4},    {WRITE, 0},
        {WRITE, 1},     {WRITE, 2},     {WRITE, 3},     {WRITE, 4},     {WRITE, 5},     {WRITE_NEW, 0}, {WRITE_NEW, 1}, {WRITE_NEW, 2},
        {WRITE_NEW, 3}, {WRITE_NEW, 4}, {WRITE_NEW, 5}, {TRIM, 0},      {TRIM, 1},      {TRIM, 2},    {TRIM, 3},    {COUNTS, 0},
        {COUNTS, 2},    {BLOCK, 0},     {BLOCK, 2},     {BLOCK, 10},    {NUMBERS, 0},   {NUMBERS, 2},
    };
    uint64_t paired = 0;
    for (size_t i = 0; i < sizeof pairs / sizeof pairs[0]; i++) {
        CHECK(returned[pairs[i][0]][pairs[i][1]] > 0);
        paired += returned[pairs[i][0]][pairs[i][1]];
    }
    CHECK(paired == calls);
}

int main(void)
{
    test_closed_handle();
    test_faults_of_open();
    test_random_calls((struct mintlintel_numbers){1, 12, 8, WORDS, MOST_SECTORS, 1000000, 0, 0}, 1000000);
    test_random_calls((struct mintlintel_numbers){2, 10, 4, WORDS, 20, 3, 0, 0}, 20000);
    test_random_calls((struct mintlintel_numbers){1, 3, 1, WORDS, 1, 1, 0, 0}, 20000);
    check_each_code_was_returned();
    CHECK(calls >= 1000000);
    printf("one: %llu calls agree with an array, and return each code\n", (unsigned long long)calls);
    return 0;
}
