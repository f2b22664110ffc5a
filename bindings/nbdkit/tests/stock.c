// The stock without a library: counts that come late, a search that comes too late, the budget, and handles that are all in use. It prints what failed,
// and ends with the number of failures.
#include "over_stock.h"

enum { PATIENCE_S = 10 };

// Each broom has a block before hosts take any.
static void blocks_of_brooms(void) {
    begin(2, 2, 6, 1);
    want(stock.free_count == 4, "a block that a broom keeps is counted as free");
    stock_end(&stock);
}

static void two_requests(void) {
    begin(2, 1, 6, 1);
    struct host *first = stock_take(&stock), *second = stock_take(&stock);
    want(first != second, "a handle that is in use is given to another request too");
    stock_give(&stock, first);
    stock_give(&stock, second);
    stock_end(&stock);
}

// A last try takes a block that the library has freed, and that is counted only later: it may not be counted twice.
static void a_block_that_is_counted_late(void) {
    begin(2, 1, 4, 1);
    fill();
    want(write_page().is_last, "a full device: the first write isn't a last try");
    stock_add_free(&stock);
    want(stock.free_count == 0, "a block that was taken before it was counted is free for good");
    fill();
    struct attempt attempt = {0};
    uint64_t waits = stock.waits;
    struct host *host = stock_take_to_write(&stock, &attempt);
    stock_give_refused(&stock, host, &attempt);
    want(attempt.is_last, "a full device: a write tries again though nothing is free");
    want(stock.waits == waits, "a full device: a write waits though nothing is to gain");
    stock_end(&stock);
}

// The library had no block for a write, since its search came by each one too late: while the count says that one is free, it tries again.
static void a_search_that_comes_too_late(void) {
    begin(2, 1, 4, 1);
    fill();
    stock_add_free(&stock);
    find_nothing(0);
    struct attempt attempt = {0};
    stock_give_refused(&stock, stock_take_to_write(&stock, &attempt), &attempt);
    want(!attempt.is_last && stock.free_count == 1 && stock.open_count == 0, "a write is refused though a block is free");
    stock_give_written(&stock, stock_take_to_write(&stock, &attempt), &attempt);
    want(stock.free_count == 0 && stock.open_count == 1, "a write that tries again is counted wrong");
    stock_end(&stock);
}

// A write waits as long as brooms gain something, also while no block comes free.
static void a_block_that_comes_late(void) {
    begin(2, 1, 4, 1);
    stock_end_round(&stock, 0, atomic_load(&stock.changes), 0, 0);
    uint64_t gained_at = stock.gained_at;
    want(gained_at > 0, "a broom has gained something, and the time isn't noted");
    stock_end_round(&stock, 0, atomic_load(&stock.changes), 1, 0);
    want(stock.gained_at == gained_at, "a broom that found nothing has gained something");
    stock_end(&stock);
}

// A count by the first broom that finds so many pages.
static struct count count_pages(uint64_t pages) {
    struct count count;
    stock_begin_count(&stock, &count);
    stock_end_count(&stock, &count, pages);
    return count;
}

// Once a block has retired, writes and pages of cold data are programmed as long as the last count found pages above two blocks'.
static void a_budget(void) {
    begin(2, 1, 40, 1);
    struct attempt attempt = {0};
    struct host *host = stock_take_to_write(&stock, &attempt);
    stock_count_retired(&stock);
    struct count count = count_pages(5);
    want(count.kept == 5 && !count.is_final, "a write that goes on doesn't count as done");
    stock_give_written(&stock, host, &attempt);
    want(!stock_try_to_write(&stock), "a page is programmed before the pages are counted");
    if (failures > 0)
        return;
    want(count_pages(8).kept == 4 && stock.budget == 4, "not all pages but two blocks' are for hosts");
    host = stock_try_to_write(&stock);
    want(host && stock.budget == 3, "a page of cold data isn't one of the budget");
    want(count_pages(8).kept == 4 + 4, "a page that a handle has isn't kept, or the budget");
    stock_give(&stock, host);
    want(stock.budget == 4, "a page that isn't programmed doesn't come back");
    for (int i = 0; i < 4; i++)
        want(!write_page().is_last, "a write is refused while there are pages");
    want(stock.budget == 0 && !stock_try_to_write(&stock), "a write doesn't take a page");
    count_pages(6);
    write_page();
    attempt = (struct attempt){0};
    host = stock_take_to_write(&stock, &attempt);
    want(stock_keep_written(&stock, host, &attempt) == host && !stock_use_kept(&stock, host), "a handle that is kept needs no page of the budget");
    want((stock.roomy.words[0] | stock.roomless.words[0]) == 3, "a handle without a page isn't given back");
    stock_end(&stock);
}

// A write is refused at once if a count has found no page since its last change, and otherwise waits for one; also if many blocks are free.
static void no_page_for_hosts(void) {
    begin(2, 2, 40, 1);
    stock_count_retired(&stock);
    want(count_pages(8).kept == 8 && !stock_wants_count(&stock, 0) && stock_spares(&stock, 1) && !stock_spares(&stock, 0),
         "pages are scarce, and not the first broom alone stays");
    want(stock.counted_at == 0, "a count is final while a broom may give blocks back");
    uint64_t known;
    stock_begin_round(&stock, 1, &known);
    stock_leave(&stock, 1);
    want(count_pages(4).kept == 4 && stock.counted_at == atomic_load(&stock.changes), "a count isn't final that found no page");
    struct attempt attempt = {0};
    want(!stock_take_to_write(&stock, &attempt) && attempt.is_last && stock.waits == 0, "a write waits, or is tried, though no page is there for it");
    want(stock.gave_up == 1, "a write that is refused isn't counted");
    stock.waiting_to_write = 1;
    want(!stock_wants_count(&stock, 0), "a broom counts though nothing has changed");
    stock_give_changed(&stock, stock_take(&stock));
    want(stock_wants_count(&stock, 0) && !stock_wants_count(&stock, 1), "after a trim the first broom doesn't count");
    struct count count;
    stock_begin_count(&stock, &count);
    stock_give_changed(&stock, stock_take(&stock));
    stock_end_count(&stock, &count, 4);
    want(stock_wants_count(&stock, 0), "a trim beside a count is taken as counted");
    want(count_pages(5).kept == 4 && !stock_wants_count(&stock, 0), "a page was trimmed, and hosts may program none");
    stock.waiting_to_write = 0;
    want(!write_page().is_last && stock.budget == 0, "a write doesn't take the page that was trimmed");
    count_pages(UINT64_MAX);
    for (int i = 0; i < 9; i++)
        want(!write_page().is_last, "pages are kept though no block can be erased");
    stock_end(&stock);
}

// One broom is enough where few of the blocks that were opened since the last look were waited for, and none is kept free ahead of writes.
static void brooms_that_are_not_needed(void) {
    begin(2, 2, 40, 1);
    struct load last = {0};
    want(!stock_is_calm(&stock, &last), "no block was opened, and one broom is enough");
    stock.opened = 8;
    want(stock_is_calm(&stock, &last) && last.opened == 8, "no write has waited, and a broom is needed");
    stock.opened = 16;
    stock.waits = 2;
    want(!stock_is_calm(&stock, &last) && last.waits == 2, "each fourth block was waited for, and one broom is enough");
    stock.opened = 21;
    stock.waits = 3;
    want(stock_is_calm(&stock, &last), "waits before the last look let a broom stay");
    stock.opened = 24;
    stock.gave_up = 1;
    want(!stock_is_calm(&stock, &last), "writes are refused that may not wait, and one broom is enough");
    stock.opened = 100;
    stock.low = 2;
    want(!stock_is_calm(&stock, &last), "blocks are kept free ahead of writes, and one broom is enough");
    stock_end(&stock);
}

// Nobody waits for what a broom finds that has left, and the others look for the blocks that it gave back.
static void a_broom_that_leaves(void) {
    begin(2, 2, 6, 1);
    uint64_t known;
    while (stock.free_count > 0 || stock.open_count > 0)
        write_page();
    find_nothing(0);
    uint32_t working = stock.working;
    want(stock_begin_round(&stock, 1, &known), "a broom has to stop");
    stock_leave(&stock, 1);
    want(stock.working == working, "a broom that has left is in a round");
    want(atomic_load(&stock.changes) > known, "a broom has left, and no other one looks for what it gave back");
    find_nothing(0);
    uint64_t waits = stock.waits;
    want(write_page().is_last && stock.waits == waits, "a write waits for a broom that has left");
    stock_end(&stock);
}

// The marks fall with the spare blocks, and not to 0.
static void marks_of_a_device_that_wears_out(void) {
    begin(2, 1, 40, 8);
    stock.marks.spare = 16;
    for (int i = 0; i < 8; i++)
        stock_count_retired(&stock);
    want(stock.low == 4 && stock.high == 4, "half of the spare blocks are retired, and the marks are not half of what they were");
    for (int i = 0; i < 12; i++)
        stock_count_retired(&stock);
    want(stock.low == 1 && stock.high == 1, "the marks of a worn device aren't 1");
    stock_end(&stock);
}

// A broom that gains little rests until a block is opened, or a write waits.
static void a_broom_that_gains_little(void) {
    begin(2, 1, 10, 10);
    uint64_t known;
    want(stock_begin_round(&stock, 0, &known), "a broom has to stop");
    stock_end_round(&stock, 0, known, 0, 1);
    want(stock.is_collecting && stock.poor_at[0] == stock.opened + 1, "a broom that gained little doesn't rest");
    write_page();
    want(stock.poor_at[0] != stock.opened + 1, "a broom that gained little still rests though a block was opened");
    stock_end(&stock);
}

static _Atomic int served;

static void *take_and_give(void *unused) {
    (void) unused;
    struct host *host = stock_take(&stock);
    served++;
    stock_give(&stock, host);
    return NULL;
}

// A long request has the only handle, and others need it too.
static void a_long_request(void) {
    begin(1, 1, 4, 1);
    pthread_t others[4];
    double began = seconds();
    struct host *host = stock_take(&stock);
    for (int i = 0; i < 4; i++)
        if (pthread_create(&others[i], NULL, take_and_give, NULL))
            abort();
    while (served < 4 && seconds() - began < PATIENCE_S)
        host = stock_yield(&stock, host);
    want(served == 4, "a request waits for a long one's end");
    stock_give(&stock, host);
    for (int i = 0; i < 4; i++)
        pthread_join(others[i], NULL);
    stock_end(&stock);
}

// A request keeps a handle as long as its block has room, and the count of free blocks is that of its writes.
static void a_handle_that_is_kept(void) {
    begin(2, 1, 4, 1);
    struct attempt attempt = {0};
    struct host *host = stock_take_to_write(&stock, &attempt);
    want(stock_keep_written(&stock, host, &attempt) == host && host->room == 1, "a handle with room isn't kept");
    uint64_t changes = atomic_load(&stock.changes);
    want(!stock_keep_written(&stock, host, &attempt) && host->room == 0 && stock.open_count == 0, "a handle without room is kept");
    want(atomic_load(&stock.changes) > changes, "no broom looks again after a long write");
    host = stock_take(&stock);
    want(stock_keep_changed(&stock, host) == host, "a handle isn't kept for the next trim");
    changes = atomic_load(&stock.changes);
    stock_give_changed(&stock, host);
    want(atomic_load(&stock.changes) > changes, "no broom looks again after a long trim");
    want((stock.roomy.words[0] | stock.roomless.words[0]) == 3 && stock.free_count == 2, "a handle that was kept isn't given back");
    stock_end(&stock);
}

struct user {
    pthread_t thread;
    int number;
};
static _Atomic int in_use[4];

// Takes handles of all kinds; no other thread may have the same one.
static void *use(void *argument) {
    struct user *user = argument;
    for (int i = 0; i < 20000; i++) {
        struct attempt attempt = {0};
        int writes = (i + user->number) % 3 == 0;
        struct host *host = writes ? stock_take_to_write(&stock, &attempt) : stock_take(&stock);
        if (in_use[host - stock.hosts]++)
            abort();
        in_use[host - stock.hosts]--;
        if (writes)
            stock_give_written(&stock, host, &attempt);
        else
            stock_give(&stock, host);
    }
    return NULL;
}

// More requests than handles: no two have the same one, none is lost, and each that waits is woken.
static void many_requests(void) {
    begin(3, 0, 100000, 1);
    struct user users[8];
    for (int i = 0; i < 8; i++) {
        users[i].number = i;
        if (pthread_create(&users[i].thread, NULL, use, &users[i]))
            abort();
    }
    for (int i = 0; i < 8; i++)
        pthread_join(users[i].thread, NULL);
    want(stock.waiting == 0 && stock.waiting_for_any == 0 && stock.waiting_to_write == 0, "somebody still waits");
    want((stock.roomy.words[0] | stock.roomless.words[0]) == 7, "a handle is lost");
    uint32_t written = 8 * 20000 / 3, used = 100000 - (uint32_t) stock.free_count;
    want(2 * used >= written && 2 * used <= written + 16, "the count of free blocks isn't that of the writes");
    stock_end(&stock);
}

int main(void) {
    static void (*const tests[])(void) = {
        blocks_of_brooms, two_requests, a_block_that_is_counted_late, a_search_that_comes_too_late, a_block_that_comes_late,
        marks_of_a_device_that_wears_out, a_broom_that_gains_little, a_long_request, a_handle_that_is_kept, a_budget, no_page_for_hosts,
        brooms_that_are_not_needed, a_broom_that_leaves, many_requests,
    };
    alarm(10 * PATIENCE_S);
    for (size_t i = 0; i < sizeof tests / sizeof *tests && failures == 0; i++)
        tests[i]();
    return failures;
}
