/* wrong_cores FILE: the core, wrong in one point, which core_runs has to refuse for its reason. Linked with --wrap for the calls that are wrapped here. */
#define main core_runs
#include "core_runs.c"
#undef main
#include <sys/wait.h>
#include <unistd.h>

enum wrong {
    KEEPS_EACH_TRIM, FORGETS_TRIMS, READS_NO_BAD_BLOCK, TELLS_THE_PAGE_BESIDE, ERASES_A_BLOCK_IN_USE, PROGRAMS_WITHOUT_A_FREE_BLOCK,
    COPIES_OUT_OF_ANOTHER_BLOCK, SKIPS_A_NUMBER, TELLS_A_LOSS, COUNTS_COPIES_AS_PROGRAMS, WRONG_CORES
};
static const char *const why[WRONG_CORES] = {"code == (is_needed", "code == (is_needed", "is_needed", "has_sector(page, sector)", "plain_allows",
                                             "plain_allows", "plain_allows", "plain_allows", "found == 0", "&totals"};
static enum wrong wrong;
static uint32_t noted; /* pages of this mount */

uint32_t __real_mintlintel_core_note(struct mintlintel_core *at, uint32_t has_version, uint32_t first, uint32_t count, uint64_t number);
uint32_t __real_mintlintel_core_next(struct mintlintel_core *at, uint32_t first, uint32_t count, struct mintlintel_command *command);
uint32_t __real_mintlintel_core_page(struct mintlintel_core *at, uint32_t sector, struct mintlintel_place *place);
uint32_t __real_mintlintel_core_losses(struct mintlintel_core *at, uint64_t *found);
uint32_t __real_mintlintel_core_counts(struct mintlintel_core *at, struct mintlintel_totals *totals);

uint32_t __wrap_mintlintel_core_note(struct mintlintel_core *at, uint32_t has_version, uint32_t first, uint32_t count, uint64_t number)
{
    uint32_t block = noted / plain.pages, is_forgotten = (wrong == FORGETS_TRIMS && count > 1) || (wrong == READS_NO_BAD_BLOCK && block >= plain.blocks);
    noted = (noted + 1) % (plain.read_blocks * plain.pages);
    if (wrong == KEEPS_EACH_TRIM && has_version == 2)
        has_version = 1;
    return __real_mintlintel_core_note(at, is_forgotten ? 0 : has_version, first, count, number);
}

uint32_t __wrap_mintlintel_core_next(struct mintlintel_core *at, uint32_t first, uint32_t count, struct mintlintel_command *command)
{
    uint32_t code = __real_mintlintel_core_next(at, first, count, command);
    if (wrong == ERASES_A_BLOCK_IN_USE && command->kind == ERASE && plain.map[0])
        command->block = block_of(&plain, plain.map[0]);
    if (wrong == PROGRAMS_WITHOUT_A_FREE_BLOCK && command->kind == COPY)
        *command = (struct mintlintel_command){PROGRAM, first, 0, 0, command->block, command->page, plain.number};
    if (wrong == COPIES_OUT_OF_ANOTHER_BLOCK && command->kind == COPY)
        command->from_block = (command->from_block + 1) % plain.blocks;
    if (wrong == SKIPS_A_NUMBER && command->kind == PROGRAM)
        command->number++;
    return code;
}

uint32_t __wrap_mintlintel_core_page(struct mintlintel_core *at, uint32_t sector, struct mintlintel_place *place)
{
    uint32_t code = __real_mintlintel_core_page(at, sector, place);
    if (wrong == TELLS_THE_PAGE_BESIDE && code == MINTLINTEL_WRITTEN)
        place->page = (place->page + 1) % plain.pages;
    return code;
}

uint32_t __wrap_mintlintel_core_losses(struct mintlintel_core *at, uint64_t *found)
{
    uint32_t code = __real_mintlintel_core_losses(at, found);
    *found += wrong == TELLS_A_LOSS;
    return code;
}

uint32_t __wrap_mintlintel_core_counts(struct mintlintel_core *at, struct mintlintel_totals *totals)
{
    uint32_t code = __real_mintlintel_core_counts(at, totals);
    if (wrong == COUNTS_COPIES_AS_PROGRAMS) {
        totals->programs += totals->copies;
        totals->copies = 0;
    }
    return code;
}

/* Whether core_runs ends with a check that has this text. */
static int is_refused_for(char **argv)
{
    char said[400] = {0};
    int status, ends[2];
    CHECK(pipe(ends) == 0);
    if (fork() == 0) {
        dup2(ends[1], STDERR_FILENO);
        exit(core_runs(2, argv));
    }
    close(ends[1]);
    CHECK(wait(&status) > 0 && read(ends[0], said, sizeof said - 1) >= 0);
    close(ends[0]);
    return status != 0 && strstr(said, why[wrong]);
}

int main(int argc, char **argv)
{
    CHECK(argc == 2);
    for (wrong = 0; wrong < WRONG_CORES; wrong++)
        if (!is_refused_for(argv)) {
            fprintf(stderr, "wrong_cores: number %d is not refused for %s\n", (int)wrong, why[wrong]);
            return 1;
        }
    printf("wrong_cores: core_runs refuses each of %d wrong cores\n", WRONG_CORES);
    return 0;
}
