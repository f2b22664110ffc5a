/* play.c: plays random calls on a durable device over a driver, and compares each answer with an array that outlives the process.
 *
 *   play run DEVICE spare|head SECTORS SECONDS SEED KILL_MS CUTS BAD,..
 *
 * The process that plays is killed after up to KILL_MS milliseconds, and one of CUTS commands is cut, which leaves a torn page or block and ends it too;
 * 0: none is. Another process then opens the device, compares every sector, and goes on. BAD are the blocks that are bad from the
 * factory.
 *
 *   play log DEVICE spare|head SECTORS SEED
 *
 * prints every sector, and then what it does until it is ended from outside: `b SECTOR VERSION` before a call, `a` after it. */
#include "array.h"
#include "hurt.h"
#include <signal.h>
#include <stdio.h>
#include <stdlib.h>
#include <string.h>
#include <sys/mman.h>
#include <sys/wait.h>
#include <termios.h>
#include <time.h>
#include <unistd.h>

enum { MOST_BLOCKS = 4096, MOST_TRIM = 4, LONGEST_CALL = 60 };

/* What outlives the process that plays. */
static struct shared {
    struct array array;
    uint64_t calls, answers, programs, erases, opens, cuts, kills, failures;
} *shared;

static struct flash flash;
static struct mintlintel_nand driver; /* what flash.nand watches */
static struct mintlintel_durable device;
static uint8_t bad[MOST_BLOCKS];
static unsigned cuts; /* one of so many commands is cut, if not 0 */
static uint8_t *page, *expected;

/* ---- The flash, with cuts, and an eye on its bad blocks ---- */

static int is_cut(void)
{
    return cuts > 0 && (unsigned)rand() % cuts == 0;
}

static void end_by_cut(void)
{
    shared->cuts++;
    raise(SIGKILL);
}

static int counted(int answer)
{
    shared->failures += answer == 1;
    return answer;
}

static int watched_program(void *chip, uint32_t block, uint32_t its_page, const void *main, const void *stamp)
{
    if (bad[block])
        wrong("block %u is bad, and is programmed", block);
    if (is_cut()) {
        hurt_program(block, its_page, main, stamp, (unsigned)rand() % PROGRAM_CUTS);
        end_by_cut();
    }
    shared->programs++;
    return counted(driver.program(chip, block, its_page, main, stamp));
}

static int watched_erase(void *chip, uint32_t block)
{
    if (bad[block])
        wrong("block %u is bad, and is erased", block);
    if (is_cut()) {
        hurt_erase(block, (unsigned)rand() % ERASE_CUTS);
        end_by_cut();
    }
    shared->erases++;
    return counted(driver.erase(chip, block));
}

static int watched_mark_bad(void *chip, uint32_t block)
{
    bad[block] = 1;
    return driver.mark_bad(chip, block);
}

static void open_flash(const char *path, enum flash_place place)
{
    const char *fault = flash_open(&flash, path, place);
    if (fault || hurt_open(&flash, path, place) != 0)
        wrong("%s: %s", path, fault ? fault : "no second handle");
    driver = flash.nand;
    flash.nand.program = watched_program;
    flash.nand.erase = watched_erase;
    flash.nand.mark_bad = driver.mark_bad ? watched_mark_bad : NULL;
}

/* ---- Calls, and what they have to answer ---- */

static void compare(uint32_t sector, int is_after_open)
{
    uint32_t code = mintlintel_durable_read(&device, sector, page, flash.page_bytes);
    if (code == MINTLINTEL_POWER_GONE)
        wrong("the chip is gone at a read of sector %u", sector);
    if (code > MINTLINTEL_WRITTEN)
        wrong("sector %u can't be read: %s", sector, mintlintel_durable_code_name(code));
    array_compare(&shared->array, sector, code == MINTLINTEL_WRITTEN ? page : NULL, flash.page_bytes, expected, is_after_open);
    shared->answers++;
}

/* Opens the device, and compares every sector. */
static void open_device(void)
{
    uint32_t code = mintlintel_durable_open(&device, &flash.nand, 1, flash.blocks, flash.pages, flash.page_bytes, shared->array.sectors);
    if (code != MINTLINTEL_DONE)
        wrong("the open returned %u: %s", code, mintlintel_durable_code_name(code));
    shared->opens++;
    for (uint32_t sector = 0; sector < shared->array.sectors; sector++)
        compare(sector, 1);
    shared->array.is_begun = 0;
}

/* Plays a call that changes sectors. */
static void change(uint32_t first, uint32_t count, uint32_t version)
{
    uint32_t had = array_begin(&shared->array, first, count, version), code;
    alarm(LONGEST_CALL);
    if (version == 0)
        code = mintlintel_durable_trim(&device, first, count);
    else {
        array_fill(page, flash.page_bytes, first, version);
        code = mintlintel_durable_write(&device, first, page, flash.page_bytes);
    }
    alarm(0);
    if (code != had)
        wrong("a call of sector %u answered %u, %s, and it was %s", first, code, mintlintel_durable_code_name(code), had ? "written" : "empty");
    array_end(&shared->array);
    shared->calls++;
}

static void call(void)
{
    uint32_t sectors = shared->array.sectors, sector = (uint32_t)rand() % (rand() % 100 < 70 ? sectors / 5 + 1 : sectors);
    int kind = rand() % 100;
    if (kind < 30) {
        compare(sector, 0);
        return;
    }
    uint32_t count = kind < 38 && sector + MOST_TRIM <= sectors ? 1 + (uint32_t)rand() % MOST_TRIM : 1;
    change(sector, count, kind < 38 ? 0 : ++shared->array.newest);
    if (kind == 99 && mintlintel_durable_flush(&device) != MINTLINTEL_DONE)
        wrong("a flush of sector %u's write failed", sector);
}

static void out_of_time(int number)
{
    (void)number;
    static const char text[] = "WRONG: a call didn't end\n";
    if (write(STDOUT_FILENO, text, sizeof text - 1) < 0)
        _exit(2);
    _exit(1);
}

static void play(unsigned seed, uint64_t calls)
{
    signal(SIGALRM, out_of_time);
    srand(seed);
    open_device();
    for (uint64_t i = 0; i < calls; i++)
        call();
    mintlintel_durable_close(&device);
}

/* ---- The process that kills ---- */

static double now(void)
{
    struct timespec time;
    clock_gettime(CLOCK_MONOTONIC, &time);
    return (double)time.tv_sec + (double)time.tv_nsec / 1e9;
}

/* Lets a process play until it ends, or until its time is over. Returns 0, or 1 if something was wrong. */
static int let_play(const char *path, enum flash_place place, unsigned seed, unsigned milliseconds)
{
    int status = 0;
    pid_t child = fork();
    if (child == 0) {
        open_flash(path, place);
        play(seed, milliseconds ? UINT64_MAX : 0);
        exit(0);
    }
    double end = now() + milliseconds / 1e3;
    while (waitpid(child, &status, WNOHANG) == 0) {
        if (milliseconds && now() > end) {
            kill(child, SIGKILL);
            waitpid(child, &status, 0);
            shared->kills++;
            return 0;
        }
        usleep(500);
    }
    return !(WIFSIGNALED(status) && WTERMSIG(status) == SIGKILL) && !(WIFEXITED(status) && WEXITSTATUS(status) == 0);
}

static int run(const char *path, enum flash_place place, char **words)
{
    double end = now() + atof(words[1]);
    unsigned seed = (unsigned)atoi(words[2]), longest = (unsigned)atoi(words[3]);
    cuts = (unsigned)atoi(words[4]);
    for (char *word = strtok(words[5], ","); word; word = strtok(NULL, ","))
        bad[atoi(word) % MOST_BLOCKS] = 1;
    int is_wrong = 0;
    for (unsigned i = 0; !is_wrong && now() < end; i++)
        is_wrong = let_play(path, place, seed + i, longest / 4 + (seed + i) * 7919 % (longest - longest / 4));
    /* The last process only opens and compares. */
    is_wrong = is_wrong || let_play(path, place, 0, 0);
    printf("%s: %llu calls by %llu programs and %llu erases, %llu sectors compared, %llu opens, %llu kills, %llu cuts, %llu failures\n",
           is_wrong ? "failed" : "right", (unsigned long long)shared->calls, (unsigned long long)shared->programs,
           (unsigned long long)shared->erases, (unsigned long long)shared->answers, (unsigned long long)shared->opens,
           (unsigned long long)shared->kills, (unsigned long long)shared->cuts, (unsigned long long)shared->failures);
    return is_wrong;
}

/* ---- What a process does that is ended with its whole machine ---- */

static void write_log(const char *path, enum flash_place place, unsigned seed)
{
    struct array *array = &shared->array;
    const char *fault = flash_open(&flash, path, place);
    uint32_t version;
    if (fault)
        wrong("%s: %s", path, fault);
    uint32_t code = mintlintel_durable_open(&device, &flash.nand, 1, flash.blocks, flash.pages, flash.page_bytes, array->sectors);
    if (code != MINTLINTEL_DONE)
        wrong("the open returned %u: %s", code, mintlintel_durable_code_name(code));
    for (uint32_t sector = 0; sector < array->sectors; sector++) {
        code = mintlintel_durable_read(&device, sector, page, flash.page_bytes);
        if (code > MINTLINTEL_WRITTEN)
            wrong("sector %u can't be read: %s", sector, mintlintel_durable_code_name(code));
        memcpy(&version, page, sizeof version);
        array->versions[sector] = code == MINTLINTEL_WRITTEN ? version : 0;
        array_compare(array, sector, code == MINTLINTEL_WRITTEN ? page : NULL, flash.page_bytes, expected, 1);
        printf("s %u %u\n", sector, array->versions[sector]);
    }
    puts("opened");
    srand(seed);
    for (version = seed * 1000000;;) {
        uint32_t sector = (uint32_t)rand() % array->sectors, is_write = rand() % 100 < 90;
        printf("b %u %u\n", sector, is_write ? ++version : 0);
        tcdrain(STDOUT_FILENO);
        change(sector, 1, is_write ? version : 0);
        puts("a");
    }
}

int main(int count, char **words)
{
    shared = mmap(NULL, sizeof *shared, PROT_READ | PROT_WRITE, MAP_SHARED | MAP_ANONYMOUS, -1, 0);
    if (count < 6 || shared == MAP_FAILED)
        return 2;
    setvbuf(stdout, NULL, _IOLBF, 0);
    enum flash_place place = strcmp(words[3], "head") == 0 ? FLASH_HEAD : FLASH_SPARE;
    shared->array.sectors = (uint32_t)atoi(words[4]);
    page = malloc(65536);
    expected = malloc(65536);
    if (strcmp(words[1], "run") == 0 && count == 10)
        return run(words[2], place, words + 4);
    if (strcmp(words[1], "log") == 0)
        write_log(words[2], place, (unsigned)atoi(words[5]));
    return 2;
}
