/* The fuzzer's calls on a device that survives power cuts, from random bytes: each call returns each of its codes, and no other one. */
#include "fuzz_durable.c"
#include "each_code.h"

/* The codes of each call, except 6 and 33, 29 of a flush, and 31 of a call for a chip. */
static const char *const codes_of[CALLS] = {
    [CALL_open] = "0 8 28 30 34 101 102 103 104 105 109", [CALL_open_despite_losses] = "0 8 28 30 34 101 102 103 104 105 109",
    [CALL_read] = "0 1 2 3 4 28", [CALL_write] = "0 1 2 3 4 27 28", [CALL_write_new] = "0 1 2 3 4 27 28", [CALL_trim] = "0 1 2 3 27 28",
    [CALL_flush] = "0 2 28", [CALL_counts] = "0 2", [CALL_losses] = "0 2", [CALL_block] = "0 2 10", [CALL_numbers] = "0 2",
    [CALL_core_open] = "0 8 109", [CALL_core_open_over] = "0 8 109", [CALL_core_note] = "0 2 9 30 32", [CALL_core_finish] = "0 2 7 9 32",
    [CALL_core_page] = "0 1 2 3 9", [CALL_core_next] = "0 2 3 9 31", [CALL_core_done] = "0 2 3 9 32", [CALL_core_counts] = "0 2 9",
    [CALL_core_losses] = "0 2 9",
};

int main(void)
{
    int is_right = returns_each_code("random_durable", codes_of, 110);
    printf("random_durable: %llu power cuts were among them\n", (unsigned long long)power_cuts);
    return !is_right || power_cuts < 10000;
}
