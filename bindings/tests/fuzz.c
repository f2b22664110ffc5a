/* Makes sequences of calls from libFuzzer's bytes, on a device for one thread, and on two hosts and one or two brooms of a shared one. Some calls
 * have a wrong sector, length, block or kind, or a closed handle, and some opens an allocation that is refused. The models say what each call has
 * to return. */
#include "counted.h"
#include "models.h"

/* The calls that return a code, and how often each of them returned which. */
enum call {
    CALL_one_open, CALL_one_read, CALL_one_write, CALL_one_write_new, CALL_one_trim, CALL_one_counts, CALL_one_block, CALL_one_numbers, CALL_shared_open,
    CALL_seat_numbers, CALL_host_read, CALL_host_write, CALL_host_write_new, CALL_host_trim, CALL_host_look, CALL_host_hold, CALL_host_copy,
    CALL_host_word, CALL_host_held, CALL_host_release, CALL_broom_drain, CALL_broom_drain_next, CALL_broom_drain_dead, CALL_broom_erase, CALL_broom_restock,
    CALL_broom_block, CALL_broom_counts, CALL_broom_tally, CALL_collect, CALL_write_within, CALLS
};
enum { CODES = 128 };
#define CALL(name, ...) counted(CALL_##name, mintlintel_##name(__VA_ARGS__))

static uint64_t returned[CALLS][CODES];
/* libFuzzer doesn't see into what is proved. It keeps an input by which a call returns another code. */
static uint8_t is_returned[CALLS][CODES] __attribute__((section("__libfuzzer_extra_counters")));

static uint32_t counted(enum call call, uint32_t code)
{
    CHECK(code < CODES);
    returned[call][code]++;
    is_returned[call][code] = 1;
    return code;
}

enum { SEATS = HOSTS + BROOMS, SWEEP = HOSTS };
enum kind { CLOSED, HOST, HOLDER, BROOM };

struct input { const uint8_t *bytes; size_t left; };

static struct mintlintel_one one;
static struct mintlintel_seat seats[SEATS];
static struct one_model o;
static struct shared_model m;
static int one_is_open, held_value[HOSTS];
static enum kind kinds[SEATS];
static struct mintlintel_page held_page[HOSTS];

/* Half of the opens find that one of their first allocations is refused. */
static void refuse_by(uint32_t byte)
{
    granted = byte % 2 ? (long)byte / 2 % 32 : -1;
    refusals = 0;
}

/* the code of an open that is refused for nothing else */
static uint32_t opened(void)
{
    granted = -1;
    return refusals > 0 ? MINTLINTEL_NO_MEMORY : MINTLINTEL_DONE;
}

static uint32_t next(struct input *in)
{
    if (in->left == 0)
        return 0;
    in->left--;
    return *in->bytes++;
}

/* a length that is a page's, or one of a few that aren't */
static size_t length_by(uint32_t byte)
{
    static const size_t lengths[8] = {PAGE, PAGE, PAGE, PAGE, PAGE, 0, PAGE - 1, PAGE + 1};
    return lengths[byte % 8];
}

/* the code of a call with a wrong sector or length, or 0 */
static uint32_t refused(uint32_t sector, size_t length)
{
    return sector >= SECTORS ? MINTLINTEL_NO_SECTOR : length != PAGE ? MINTLINTEL_NOT_A_PAGE : 0;
}

/* The buffer holds a page of this byte, or is unchanged. */
static void check_page(const uint8_t *out, int is_there, int value)
{
    for (int i = 0; i < PAGE + 1; i++)
        CHECK(out[i] == (is_there && i < PAGE ? value : 0xa5));
}

/* The totals and each block are those of the model. */
static void check_one(void)
{
    struct mintlintel_totals totals = {7, 7, 7}, kept = totals;
    struct mintlintel_block block = {7, 7, 7}, same = block;
    struct mintlintel_numbers numbers = {7, 7, 7, 7, 7, 7, 7, 7}, wanted = {1, BLOCKS, PAGES, WORDS, SECTORS, ENDURANCE, 0, 0};
    CHECK(CALL(one_numbers, &one, &numbers) == (one_is_open ? 0 : (uint32_t)MINTLINTEL_CLOSED));
    CHECK(one_is_open ? memcmp(&numbers, &wanted, sizeof numbers) == 0 : numbers.luns == 7 && numbers.brooms == 7);
    if (!one_is_open) {
        CHECK(CALL(one_counts, &one, &totals) == MINTLINTEL_CLOSED && memcmp(&totals, &kept, sizeof totals) == 0);
        CHECK(CALL(one_block, &one, 0, &block) == MINTLINTEL_CLOSED && memcmp(&block, &same, sizeof block) == 0);
        return;
    }
    CHECK(CALL(one_counts, &one, &totals) == 0 && memcmp(&totals, &o.totals, sizeof totals) == 0);
    CHECK(CALL(one_block, &one, BLOCKS, &block) == MINTLINTEL_NO_SUCH_BLOCK && memcmp(&block, &same, sizeof block) == 0);
    for (uint32_t b = 0; b < BLOCKS; b++) {
        CHECK(CALL(one_block, &one, b, &block) == 0);
        CHECK(block.erases == o.blocks[b].erases && block.live == (uint32_t)o.blocks[b].live);
        CHECK(block.retired == (block.erases == ENDURANCE));
    }
}

static void one_call(struct input *in)
{
    uint8_t page[PAGE + 1], out[PAGE + 1];
    uint32_t call = next(in) % 8, sector = next(in) % (SECTORS + 2), byte = next(in), closed = one_is_open ? 0 : MINTLINTEL_CLOSED, code;
    size_t length = length_by(byte >> 5);
    uint32_t with_page = closed ? closed : refused(sector, length), without = closed ? closed : refused(sector, PAGE);
    memset(page, (int)byte, sizeof page);
    memset(out, 0xa5, sizeof out);
    if (call < 2) {
        code = CALL(one_read, &one, sector, out, length);
        CHECK(code == (with_page ? with_page : one_was(&o, sector)));
        check_page(out, code == MINTLINTEL_WRITTEN, sector < SECTORS ? o.value[sector] : 0);
    } else if (call < 4) {
        code = CALL(one_write, &one, sector, page, length);
        CHECK(code == (with_page ? with_page : one_write(&o, sector, (int)byte, 0)));
    } else if (call == 4) {
        code = CALL(one_write_new, &one, sector, page, length);
        CHECK(code == (with_page ? with_page : one_write(&o, sector, (int)byte, 1)));
    } else if (call == 5) {
        code = CALL(one_trim, &one, sector);
        CHECK(code == (without ? without : one_trim(&o, sector)));
    } else if (call == 6) {
        refuse_by(byte);
        code = CALL(one_open, &one, 1, byte < 64 ? 0 : BLOCKS, PAGES, WORDS, SECTORS, ENDURANCE);
        without = opened();
        CHECK(code == (one_is_open ? (uint32_t)MINTLINTEL_ALREADY_OPEN : byte < 64 ? (uint32_t)MINTLINTEL_BAD_BLOCKS : without));
        if (code == 0)
            one_begin(&o);
        one_is_open |= code == 0;
    } else if (byte < 8) {
        mintlintel_one_close(&one);
        one_is_open = 0;
    }
    check_one();
}

/* the code if the seat is of another kind than the call needs, or 0 */
static uint32_t unfit(uint32_t seat, enum kind wanted)
{
    return kinds[seat] == CLOSED ? MINTLINTEL_CLOSED : kinds[seat] != wanted ? MINTLINTEL_WRONG_KIND : 0;
}

static void hold_call(uint32_t seat, uint32_t sector, uint32_t wanted)
{
    struct mintlintel_page page = {77, 78};
    uint32_t code = CALL(host_hold, &seats[seat], sector);
    CHECK(code == (wanted ? wanted : shared_hold(&m, (int)seat, sector, &held_page[seat])));
    if (code == MINTLINTEL_WRITTEN) {
        kinds[seat] = HOLDER;
        held_value[seat] = m.value[sector];
        CHECK(CALL(host_held, &seats[seat], &page) == 0 && memcmp(&page, &held_page[seat], sizeof page) == 0);
    }
}

static void host_call(uint32_t call, uint32_t seat, struct input *in)
{
    uint8_t page[PAGE + 1], out[PAGE + 1];
    uint32_t sector = next(in) % (SECTORS + 2), byte = next(in), unfit_code = unfit(seat, HOST), code;
    size_t length = length_by(byte >> 5);
    uint32_t with_page = unfit_code ? unfit_code : refused(sector, length), without = unfit_code ? unfit_code : refused(sector, PAGE);
    memset(page, (int)byte, sizeof page);
    memset(out, 0xa5, sizeof out);
    switch (call) {
    case 0:
        code = CALL(host_read, &seats[seat], sector, out, length);
        CHECK(code == (with_page ? with_page : shared_was(&m, sector)));
        check_page(out, code == MINTLINTEL_WRITTEN, sector < SECTORS ? m.value[sector] : 0);
        break;
    case 1: case 2:
        code = call == 1 ? CALL(host_write, &seats[seat], sector, page, length) : CALL(write_within, &seats[seat], sector, page, length, 0);
        CHECK(code == (with_page ? with_page : shared_write(&m, (int)seat, sector, (int)byte, 0)));
        break;
    case 3:
        code = CALL(host_write_new, &seats[seat], sector, page, length);
        CHECK(code == (with_page ? with_page : shared_write(&m, (int)seat, sector, (int)byte, 1)));
        break;
    case 4:
        code = CALL(host_trim, &seats[seat], sector);
        CHECK(code == (without ? without : shared_trim(&m, sector)));
        break;
    case 5:
        CHECK(CALL(host_look, &seats[seat], sector) == (without ? without : shared_was(&m, sector)));
        break;
    default:
        hold_call(seat, sector, without);
    }
}

static void holder_call(uint32_t call, uint32_t seat, struct input *in)
{
    uint8_t out[PAGE + 1];
    uint32_t byte = next(in), wanted = unfit(seat, HOLDER);
    int value = seat < HOSTS ? held_value[seat] : 0;
    size_t length = length_by(byte >> 5);
    uint64_t word = 77, whole = 0;
    struct mintlintel_page place = {77, 78}, expected = place;
    memset(out, 0xa5, sizeof out);
    memset(&whole, value, sizeof whole);
    switch (call) {
    case 0:
        wanted = wanted ? wanted : length == PAGE ? MINTLINTEL_WRITTEN : MINTLINTEL_NOT_A_PAGE;
        CHECK(CALL(host_copy, &seats[seat], out, length) == wanted);
        check_page(out, wanted == MINTLINTEL_WRITTEN, value);
        break;
    case 1:
        wanted = wanted ? wanted : byte % 3 < WORDS ? 0 : MINTLINTEL_NO_SUCH_WORD;
        CHECK(CALL(host_word, &seats[seat], byte % 3, &word) == wanted && word == (wanted ? 77 : whole));
        break;
    case 2:
        if (!wanted)
            expected = held_page[seat];
        CHECK(CALL(host_held, &seats[seat], &place) == wanted && memcmp(&place, &expected, sizeof place) == 0);
        break;
    default:
        CHECK(CALL(host_release, &seats[seat]) == wanted);
        if (wanted == 0) {
            shared_release(&m, (int)seat);
            kinds[seat] = HOST;
        }
    }
}

/* a block's number, or one that no block has; of each other byte the lowest drained block, if there is one */
static uint32_t block_by(uint32_t byte)
{
    for (uint32_t block = 0; block < BLOCKS && byte % 2 == 0; block++)
        if (m.blocks[block].state.phase == DRAINED)
            return block;
    return byte / 2 % (BLOCKS + 1);
}

/* the number of a broom's seat among the brooms */
static int broom_of(uint32_t seat)
{
    return seat > SWEEP ? (int)(seat - SWEEP) : 0;
}

static void report_call(uint32_t seat, uint32_t block, uint32_t unfit_code)
{
    struct mintlintel_state state = {7, 7, 7, 7}, expected = state;
    uint32_t wanted = unfit_code ? unfit_code : block >= BLOCKS ? MINTLINTEL_NO_SUCH_BLOCK : 0;
    if (!wanted)
        expected = shared_block(&m, broom_of(seat), block);
    CHECK(CALL(broom_block, &seats[seat], block, &state) == wanted && memcmp(&state, &expected, sizeof state) == 0);
}

static void counts_call(uint32_t seat, uint32_t unfit_code)
{
    struct mintlintel_counts counts = {7, 7, 7, 7, 7, 7, 7, 7, 7}, expected = counts;
    uint32_t wanted = unfit_code ? unfit_code : shared_counts(&m, broom_of(seat), &expected);
    CHECK(CALL(broom_counts, &seats[seat], &counts) == wanted && memcmp(&counts, &expected, sizeof counts) == 0);
}

static void tally_call(uint32_t seat, uint32_t unfit_code)
{
    struct mintlintel_tally tally = {7, 7, 7}, expected = tally;
    if (!unfit_code)
        expected = m.brooms[broom_of(seat)].tally;
    CHECK(CALL(broom_tally, &seats[seat], &tally) == unfit_code && memcmp(&tally, &expected, sizeof tally) == 0);
}

static void collect_call(uint32_t seat, uint32_t goal, uint32_t unfit_code)
{
    struct mintlintel_collected did = {7, 7, 7, 7, 7, 7}, expected = {0, 0, 0, 0, 0, 0};
    uint32_t wanted = unfit_code ? unfit_code : shared_collect(&m, broom_of(seat), goal, &expected);
    CHECK(CALL(collect, &seats[seat], goal, &did) == wanted && memcmp(&did, &expected, sizeof did) == 0);
}

static void broom_call(uint32_t call, uint32_t seat, struct input *in)
{
    uint32_t number = block_by(next(in)), wanted = unfit(seat, BROOM), code;
    uint32_t block = 77, moved = 78, model_block = 77, model_moved = 78;
    if (call < 3) {
        code = call < 2 ? CALL(broom_drain, &seats[seat], &block, &moved) : CALL(broom_drain_next, &seats[seat], &block, &moved);
        CHECK(code == (wanted ? wanted : shared_drain(&m, broom_of(seat), call < 2, &model_block, &model_moved)));
        CHECK(block == model_block && moved == model_moved);
    } else if (call < 5) {
        wanted = wanted ? wanted : number >= BLOCKS ? MINTLINTEL_NO_SUCH_BLOCK : 0;
        code = CALL(broom_erase, &seats[seat], number);
        CHECK(code == (wanted ? wanted : shared_erase(&m, broom_of(seat), number)));
    } else if (call == 5) {
        code = CALL(broom_restock, &seats[seat]);
        CHECK(code == (wanted ? wanted : shared_restock(&m, broom_of(seat))));
    } else if (call == 6) {
        report_call(seat, number, wanted);
    } else if (call == 7) {
        counts_call(seat, wanted);
    } else if (call == 8) {
        collect_call(seat, number % 4, wanted);
    } else if (call == 9) {
        tally_call(seat, wanted);
    } else {
        code = CALL(broom_drain_dead, &seats[seat], &block, &moved);
        CHECK(code == (wanted ? wanted : shared_drain_dead(&m, broom_of(seat), &model_block, &model_moved)));
        CHECK(block == model_block && moved == model_moved);
    }
}

static void begin_shared(int brooms)
{
    shared_begin(&m, brooms);
    for (int seat = 0; seat < SEATS; seat++)
        kinds[seat] = seat < HOSTS ? HOST : seat < SWEEP + brooms ? BROOM : CLOSED;
}

static void close_seat(uint32_t seat)
{
    mintlintel_seat_close(&seats[seat]);
    if (kinds[seat] == BROOM)
        shared_close_broom(&m, broom_of(seat));
    else if (kinds[seat] != CLOSED)
        shared_close_host(&m, (int)seat);
    kinds[seat] = CLOSED;
}

/* Opens a device for all seats, or fails as it must; or closes one. */
static void seat_call(uint32_t call, uint32_t seat, struct input *in)
{
    struct mintlintel_numbers numbers = {7, 7, 7, 7, 7, 7, 7, 7}, wanted = {1, BLOCKS, PAGES, WORDS, SECTORS, ENDURANCE, HOSTS, (uint32_t)m.broom_count};
    uint32_t byte = next(in), any = 0, code, hosts = byte < 32 ? 0 : HOSTS, brooms = kinds[SEATS - 1] == CLOSED ? 1 + byte / 128 : BROOMS;
    switch (call) {
    case 0:
        for (uint32_t i = hosts > 0 ? 0 : HOSTS; i < HOSTS + brooms; i++)
            any |= kinds[i] != CLOSED;
        refuse_by(byte);
        code = CALL(shared_open, seats, hosts, &seats[SWEEP], brooms, 1, BLOCKS, PAGES, byte < 64 ? 0 : WORDS, SECTORS, ENDURANCE);
        any = any ? (uint32_t)MINTLINTEL_ALREADY_OPEN : byte < 64 ? (uint32_t)MINTLINTEL_BAD_WORDS : 0;
        CHECK(code == (opened() == MINTLINTEL_DONE || any ? any : (uint32_t)MINTLINTEL_NO_MEMORY));
        if (code == 0)
            begin_shared((int)brooms);
        break;
    case 1:
        if (byte < 8)
            close_seat(seat);
        break;
    default:
        code = CALL(seat_numbers, &seats[seat], &numbers);
        CHECK(code == (kinds[seat] == CLOSED ? (uint32_t)MINTLINTEL_CLOSED : 0));
        CHECK(code ? numbers.luns == 7 && numbers.brooms == 7 : memcmp(&numbers, &wanted, sizeof numbers) == 0);
    }
}

static void shared_call(struct input *in)
{
    uint32_t call = next(in) % 29, seat = next(in) % SEATS;
    if (call < 9)
        host_call(call % 7, seat, in);
    else if (call < 13)
        holder_call(call - 9, seat, in);
    else if (call < 24)
        broom_call(call - 13, seat, in);
    else if (call < 26)
        broom_call(call - 23, SWEEP + seat % BROOMS, in);
    else
        seat_call(call - 26, seat, in);
}

/* Each sector reads as the models have it, by each host. */
static void check_models(void)
{
    uint8_t out[PAGE + 1];
    for (uint32_t sector = 0; sector < SECTORS; sector++) {
        memset(out, 0xa5, sizeof out);
        CHECK(CALL(one_read, &one, sector, out, PAGE) == (one_is_open ? one_was(&o, sector) : (uint32_t)MINTLINTEL_CLOSED));
        check_page(out, one_is_open && one_was(&o, sector), o.value[sector]);
        for (uint32_t seat = 0; seat < SEATS; seat++) {
            uint32_t wanted = unfit(seat, HOST);
            memset(out, 0xa5, sizeof out);
            CHECK(CALL(host_read, &seats[seat], sector, out, PAGE) == (wanted ? wanted : shared_was(&m, sector)));
            check_page(out, !wanted && shared_was(&m, sector), m.value[sector]);
        }
    }
}

int LLVMFuzzerTestOneInput(const uint8_t *bytes, size_t size)
{
    struct input in = {bytes, size};
    CHECK(CALL(one_open, &one, 1, BLOCKS, PAGES, WORDS, SECTORS, ENDURANCE) == 0);
    int brooms = 1 + (int)(size % BROOMS);
    CHECK(CALL(shared_open, seats, HOSTS, &seats[SWEEP], (size_t)brooms, 1, BLOCKS, PAGES, WORDS, SECTORS, ENDURANCE) == 0);
    one_is_open = 1;
    one_begin(&o);
    begin_shared(brooms);
    while (in.left > 0) {
        if (next(&in) % 3 == 0)
            one_call(&in);
        else
            shared_call(&in);
    }
    check_models();
    mintlintel_one_close(&one);
    for (int seat = 0; seat < SEATS; seat++)
        mintlintel_seat_close(&seats[seat]);
    return 0;
}
