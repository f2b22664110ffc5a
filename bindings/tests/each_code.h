/* Plays a fuzzer's calls from random bytes, the same in each run. Included behind the fuzzer, whose table `returned` has its codes. */
#ifndef EACH_CODE_H
#define EACH_CODE_H

static int is_named(const char *codes, uint32_t code)
{
    char *end;
    for (const char *at = codes; *at; at = end)
        if (strtoul(at, &end, 10) == code)
            return 1;
    return 0;
}

/* Whether each call returns each of its codes, and no other one. */
static int returns_each_code(const char *name, const char *const codes_of[CALLS], int rounds)
{
    static uint8_t bytes[40000];
    uint64_t state = 88172645463325252u, calls = 0;
    for (int round = 0; round < rounds; round++) {
        for (size_t i = 0; i < sizeof bytes; i++)
            bytes[i] = (uint8_t)drawn(&state);
        LLVMFuzzerTestOneInput(bytes, sizeof bytes - (size_t)round % 2);
    }
    for (uint32_t call = 0; call < CALLS; call++)
        for (uint32_t code = 0; code < CODES; code++) {
            calls += returned[call][code];
            if ((returned[call][code] > 0) != is_named(codes_of[call], code)) {
                fprintf(stderr, "%s: call %u returned code %u %llu times\n", name, call, code, (unsigned long long)returned[call][code]);
                return 0;
            }
        }
    printf("%s: %llu calls agree with the models, and return each code\n", name, (unsigned long long)calls);
    return 1;
}

#endif
