/* What is synced of a new image and of a copy, and when: the file before it has its name, its folder when the name is there, and a copy when it is whole,
 * then its folder. A sync that fails is told, and leaves no copy. Files are made in the folder that is named. */
#include "mintlintel_image.h"
#include "testing.h"
#include <errno.h>
#include <limits.h>
#include <sys/stat.h>
#include <unistd.h>

#define NUMBERS 1, 8, 4, 512, 20

int __real_fsync(int fd);
int __wrap_fsync(int fd);

static char folder[PATH_MAX], path[PATH_MAX + 16], copy[PATH_MAX + 16];
static int files, names, copies; /* what was synced: the image before its name, the folder behind a name, and the whole copy */
static int fails_at;             /* 1: the folder's sync fails; 2: the copy's */

static off_t length_of(const char *name)
{
    struct stat about;
    return stat(name, &about) == 0 ? about.st_size : -1;
}

int __wrap_fsync(int fd)
{
    char link[64], name[PATH_MAX];
    snprintf(link, sizeof link, "/proc/self/fd/%d", fd);
    ssize_t length = readlink(link, name, sizeof name - 1);
    CHECK(length > 0);
    name[length] = 0;
    int is_folder = strcmp(name, folder) == 0, is_copy = strcmp(name, copy) == 0;
    if (fails_at == is_folder + 2 * is_copy && fails_at)
        return errno = EIO, -1;
    files += !is_folder && !is_copy && length_of(path) < 0;
    names += is_folder && length_of(path) > 0 && (length_of(copy) < 0 || copies > 0);
    copies += is_copy && length_of(copy) == length_of(path);
    return __real_fsync(fd);
}

static uint32_t open_image(struct mintlintel_image *image, enum mintlintel_image_mode mode)
{
    unlink(path), unlink(copy);
    files = names = copies = 0;
    return mintlintel_image_open(image, path, mode, NUMBERS);
}

int main(int argc, char **argv)
{
    CHECK(realpath(argc > 1 ? argv[1] : "out", folder));
    snprintf(path, sizeof path, "%s/names.img", folder), snprintf(copy, sizeof copy, "%s/names.copy", folder);
    for (enum mintlintel_image_mode mode = MINTLINTEL_ALWAYS; mode <= MINTLINTEL_NEVER; mode++) {
        struct mintlintel_image image = {0};
        fails_at = 1;
        CHECK(open_image(&image, mode) == MINTLINTEL_FILE_FAILED);
        fails_at = 0;
        CHECK(open_image(&image, mode) == MINTLINTEL_DONE);
        CHECK(files >= 1 && names == 1);
        CHECK(mintlintel_image_copy(&image, copy) == MINTLINTEL_DONE);
        CHECK(copies == (mode != MINTLINTEL_NEVER) && names == 1 + copies);
        for (fails_at = 1; fails_at <= 2; fails_at++) {
            unlink(copy);
            CHECK(mintlintel_image_copy(&image, copy) == (mode == MINTLINTEL_NEVER ? MINTLINTEL_DONE : MINTLINTEL_FILE_FAILED));
            CHECK((length_of(copy) >= 0) == (mode == MINTLINTEL_NEVER));
        }
        CHECK(mintlintel_image_close(&image) == MINTLINTEL_DONE);
    }
    unlink(path), unlink(copy);
    printf("names: a new image is synced before its name, the name behind it, and a copy when it is whole, with its name\n");
    return 0;
}
