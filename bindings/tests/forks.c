/* An image that is open in a process that forks: what a child does with its copy of the handle changes nothing for the process that has opened it. The
 * images are made in the folder that is named. */
#include "../src/flash.h"
#include "mintlintel_image.h"
#include "testing.h"
#include <errno.h>
#include <pthread.h>
#include <stdatomic.h>
#include <sys/wait.h>
#include <unistd.h>

enum { BLOCKS = 24, PAGES = 16, PAGE_BYTES = 512, SECTORS = 300, EMPTY_SECTORS = 3, FORKS = 40, SECONDS = 20 };
#define NUMBERS 1, BLOCKS, PAGES, PAGE_BYTES, SECTORS + EMPTY_SECTORS

static char path[4096], copy[4096];

static uint32_t write_value(struct mintlintel_image *image, uint32_t sector, int value)
{
    uint8_t page[PAGE_BYTES];
    memset(page, value, sizeof page);
    return mintlintel_durable_write(&image->device, sector, page, sizeof page);
}

/* Writes all sectors but the last ones, and flushes. */
static void write_all(struct mintlintel_image *image, int value)
{
    for (uint32_t sector = 0; sector < SECTORS; sector++)
        CHECK(write_value(image, sector, value + (int)sector) <= MINTLINTEL_WRITTEN);
    CHECK(mintlintel_durable_flush(&image->device) == MINTLINTEL_DONE);
}

static void check_all(struct mintlintel_image *image, int value)
{
    uint8_t page[PAGE_BYTES];
    for (uint32_t sector = 0; sector < SECTORS; sector++)
        CHECK(mintlintel_durable_read(&image->device, sector, page, sizeof page) == MINTLINTEL_WRITTEN && page[0] == (uint8_t)(value + (int)sector));
}

static void begin(struct mintlintel_image *image, enum mintlintel_image_mode mode)
{
    unlink(path);
    CHECK(mintlintel_image_open(image, path, mode, NUMBERS) == MINTLINTEL_DONE);
    write_all(image, 1);
}

/* Waits for a child, which has to end well. */
static void wait_for(pid_t child)
{
    int status;
    CHECK(child > 0 && waitpid(child, &status, 0) == child);
    CHECK(WIFEXITED(status) && WEXITSTATUS(status) == 0);
}

/* Each call of a child is refused, also those that need nothing of the file. */
static void use_elsewhere(struct mintlintel_image *image)
{
    uint8_t page[PAGE_BYTES];
    CHECK(write_value(image, 0, 99) == MINTLINTEL_OTHER_PROCESS);
    CHECK(write_value(image, SECTORS, 99) == MINTLINTEL_OTHER_PROCESS);
    CHECK(mintlintel_durable_write_new(&image->device, SECTORS, page, sizeof page) == MINTLINTEL_OTHER_PROCESS);
    CHECK(mintlintel_durable_read(&image->device, 0, page, sizeof page) == MINTLINTEL_OTHER_PROCESS);
    CHECK(mintlintel_durable_read(&image->device, SECTORS, page, sizeof page) == MINTLINTEL_OTHER_PROCESS);
    CHECK(mintlintel_durable_trim(&image->device, 0, SECTORS) == MINTLINTEL_OTHER_PROCESS);
    CHECK(mintlintel_durable_trim(&image->device, SECTORS, EMPTY_SECTORS) == MINTLINTEL_OTHER_PROCESS);
    CHECK(mintlintel_durable_flush(&image->device) == MINTLINTEL_OTHER_PROCESS);
    CHECK(mintlintel_image_copy(image, copy) == MINTLINTEL_OTHER_PROCESS && access(copy, F_OK) != 0);
    CHECK(mintlintel_image_errno(image) == 0);
}

/* A child closes its copy once the process that has opened the image has gone on, with or without calls before that. */
static void closed_in_a_child(enum mintlintel_image_mode mode, int with_calls)
{
    struct mintlintel_image image = {0}, second = {0};
    int turn[2];
    char byte;
    CHECK(pipe(turn) == 0);
    begin(&image, mode);
    pid_t child = fork();
    if (child == 0) {
        close(turn[1]);
        CHECK(read(turn[0], &byte, 1) == 1);
        if (with_calls)
            use_elsewhere(&image);
        CHECK(mintlintel_image_open(&second, path, mode, NUMBERS) == MINTLINTEL_IN_USE);
        CHECK(mintlintel_image_close(&image) == MINTLINTEL_DONE && mintlintel_image_close(&image) == MINTLINTEL_DONE);
        _exit(0);
    }
    for (int value = 2; value < 6; value++)
        write_all(&image, value);
    CHECK(write(turn[1], "x", 1) == 1);
    wait_for(child);
    close(turn[0]);
    close(turn[1]);
    check_all(&image, 5);
    CHECK(mintlintel_image_open(&second, path, mode, NUMBERS) == MINTLINTEL_IN_USE); /* a child's end doesn't give the lock back */
    write_all(&image, 6);
    CHECK(mintlintel_image_close(&image) == MINTLINTEL_DONE);
    CHECK(mintlintel_image_open(&image, path, mode, 0, 0, 0, 0, 0) == MINTLINTEL_DONE);
    check_all(&image, 6);
    CHECK(mintlintel_image_close(&image) == MINTLINTEL_DONE);
}

/* A close gives the lock back though a child is left, which has the descriptor too; and then the child may open the image for itself. */
static void left_by_a_child(void)
{
    struct mintlintel_image image = {0}, own = {0};
    int turn[2];
    char byte;
    CHECK(pipe(turn) == 0);
    begin(&image, MINTLINTEL_FLUSH);
    pid_t child = fork();
    if (child == 0) {
        close(turn[1]);
        CHECK(read(turn[0], &byte, 1) == 1);
        CHECK(mintlintel_image_open(&own, path, MINTLINTEL_FLUSH, NUMBERS) == MINTLINTEL_DONE);
        write_all(&own, 9);
        CHECK(mintlintel_image_close(&image) == MINTLINTEL_DONE);
        check_all(&own, 9);
        CHECK(mintlintel_image_close(&own) == MINTLINTEL_DONE);
        _exit(0);
    }
    CHECK(mintlintel_image_close(&image) == MINTLINTEL_DONE);
    CHECK(mintlintel_image_open(&image, path, MINTLINTEL_FLUSH, NUMBERS) == MINTLINTEL_DONE);
    write_all(&image, 8);
    CHECK(mintlintel_image_close(&image) == MINTLINTEL_DONE);
    CHECK(write(turn[1], "x", 1) == 1);
    wait_for(child);
    close(turn[0]);
    close(turn[1]);
    CHECK(mintlintel_image_open(&image, path, MINTLINTEL_FLUSH, NUMBERS) == MINTLINTEL_DONE);
    check_all(&image, 9);
    CHECK(mintlintel_image_close(&image) == MINTLINTEL_DONE);
}

/* A server in the background is a child that goes on, and the process that has opened the image ends. */
static void taken_over(void)
{
    struct mintlintel_image image = {0};
    pid_t opener = fork();
    if (opener == 0) {
        begin(&image, MINTLINTEL_FLUSH);
        pid_t server = fork();
        if (server == 0) {
            mtl_image_take_over(&image);
            write_all(&image, 3);
            CHECK(mintlintel_image_close(&image) == MINTLINTEL_DONE);
            _exit(0);
        }
        wait_for(server);
        _exit(0);
    }
    wait_for(opener);
    CHECK(mintlintel_image_open(&image, path, MINTLINTEL_FLUSH, NUMBERS) == MINTLINTEL_DONE);
    check_all(&image, 3);
    CHECK(mintlintel_image_close(&image) == MINTLINTEL_DONE);
}

static atomic_int is_over;

static void *go_on(void *argument)
{
    for (int value = 2; !is_over; value++)
        write_all(argument, value % 2 ? 4 : 7);
    return NULL;
}

/* A process forks while another of its threads is in a call, perhaps one that leads those that wait: no child waits for a thread that it hasn't. */
static void forked_inside_a_call(void)
{
    struct mintlintel_image image = {0};
    pthread_t thread;
    begin(&image, MINTLINTEL_FLUSH);
    CHECK(pthread_create(&thread, NULL, go_on, &image) == 0);
    for (int i = 0; i < FORKS; i++) {
        usleep(500);
        pid_t child = fork();
        if (child == 0) {
            alarm(SECONDS);
            if (mintlintel_durable_flush(&image.device) != MINTLINTEL_OTHER_PROCESS || mtl_image_commit(&image, 1) > MINTLINTEL_FILE_FAILED)
                _exit(1);
            _exit(mintlintel_image_close(&image) != MINTLINTEL_DONE);
        }
        wait_for(child);
    }
    is_over = 1;
    pthread_join(thread, NULL);
    write_all(&image, 7);
    CHECK(mintlintel_image_close(&image) == MINTLINTEL_DONE);
    CHECK(mintlintel_image_open(&image, path, MINTLINTEL_FLUSH, NUMBERS) == MINTLINTEL_DONE);
    check_all(&image, 7);
    CHECK(mintlintel_image_close(&image) == MINTLINTEL_DONE);
}

int main(int argc, char **argv)
{
    const char *folder = argc > 1 ? argv[1] : "out";
    snprintf(path, sizeof path, "%s/forks.image", folder);
    snprintf(copy, sizeof copy, "%s/forks.copy", folder);
    unlink(copy);
    for (enum mintlintel_image_mode mode = MINTLINTEL_ALWAYS; mode <= MINTLINTEL_NEVER; mode++) {
        closed_in_a_child(mode, 0);
        closed_in_a_child(mode, 1);
    }
    left_by_a_child();
    taken_over();
    forked_inside_a_call();
    unlink(path);
    printf("forks: %d children and more have closed their handles, and each flushed sector is there\n", FORKS);
    return 0;
}
