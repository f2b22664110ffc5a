/* The fuzzer's calls from random bytes, the same in each run: each call returns each of its codes, and no other one. */
#include "fuzz.c"
#include "each_code.h"

/* The codes of each call, except 22 of a drain, which needs another thread. */
static const char *const codes_of[CALLS] = {
    [CALL_one_open] = "0 6 8 102", [CALL_one_read] = "0 1 2 3 4", [CALL_one_write] = "0 1 2 3 4 5", [CALL_one_write_new] = "0 1 2 3 4 5",
    [CALL_one_trim] = "0 1 2 3", [CALL_one_counts] = "0 2", [CALL_one_block] = "0 2 10", [CALL_one_numbers] = "0 2", [CALL_shared_open] = "0 6 8 104",
    [CALL_seat_numbers] = "0 2", [CALL_host_read] = "0 1 2 3 4 9", [CALL_host_write] = "0 1 2 3 4 7 9",
    [CALL_host_write_new] = "0 1 2 3 4 7 9", [CALL_host_trim] = "0 1 2 3 9", [CALL_host_look] = "0 1 2 3 9", [CALL_host_hold] = "0 1 2 3 9",
    [CALL_host_copy] = "1 2 4 9", [CALL_host_word] = "0 2 9 10", [CALL_host_held] = "0 2 9", [CALL_host_release] = "0 2 9",
    [CALL_broom_drain] = "0 2 9 20 21", [CALL_broom_drain_next] = "0 2 9 20 21 22", [CALL_broom_drain_dead] = "0 2 9 20 21",
    [CALL_broom_erase] = "0 2 9 10 23 24 25 26", [CALL_broom_restock] = "0 2 9 21", [CALL_broom_block] = "0 2 9 10", [CALL_broom_counts] = "0 2 9 27",
    [CALL_broom_tally] = "0 2 9",
    [CALL_collect] = "0 2 9 20 21 24 27", [CALL_write_within] = "0 1 2 3 4 7 9",
};

int main(void)
{
    return !returns_each_code("random_calls", codes_of, 200);
}
