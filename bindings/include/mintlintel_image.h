/* Mintlintel's image file: a device that survives power cuts, with its flash in one sparse file. docs/FORMATS.md says what stands in it.
 *
 * This is plain C over mintlintel_durable.h, and not proved. It needs Linux, or a system with flock, fdatasync and SEEK_DATA. */
#ifndef MINTLINTEL_IMAGE_H
#define MINTLINTEL_IMAGE_H

#include <mintlintel_durable.h>

#ifdef __cplusplus
extern "C" {
#endif

/* When what a call did reaches the disk. */
enum mintlintel_image_mode {
    MINTLINTEL_ALWAYS = 1, /* an acknowledged call survives a power cut of the machine */
    MINTLINTEL_FLUSH = 2,  /* after a power cut of the machine the image has a beginning of the history, with all that was flushed */
    MINTLINTEL_NEVER = 3   /* an acknowledged call survives the end of the process, kill -9 too, but not a power cut of the machine */
};

/* A handle: `struct mintlintel_image image = {0};`. The calls mintlintel_durable_.. take `&image.device`, except open and close. They return 46 where
 * the file failed, and then only close and open help: nothing that was acknowledged is lost, unless a sync failed. In a child that the process has
 * forked since the open they return 47, and a close leaves the file and the lock as they are. */
struct mintlintel_image { struct mintlintel_durable device; struct mintlintel_image_file *file; };

/* What the head of an image says. */
struct mintlintel_image_head { uint32_t version; struct mintlintel_durable_numbers numbers; };

/* Opens the image, and makes it if there is no such file. Numbers that are all 0 stand for those of the image, which is not
 * made then. 0; 8; a code of mintlintel_durable_open; 40 to 46; 48; 49. It locks the file, so that a second open returns 41. If the image wasn't closed, and
 * the machine was started anew since or is another one, its power may have been cut: then blocks that were erased since the last flush in mode `flush`
 * have what they had before, and each page is read, and set aside if it doesn't fit its check. */
uint32_t mintlintel_image_open(struct mintlintel_image *image, const char *path, enum mintlintel_image_mode mode, uint32_t luns, uint32_t blocks,
                               uint32_t pages, uint32_t page_bytes, uint32_t sectors);

/* The same, also of an image with losses, as mintlintel_durable_open_despite_losses. */
uint32_t mintlintel_image_open_despite_losses(struct mintlintel_image *image, const char *path, enum mintlintel_image_mode mode, uint32_t luns,
                                              uint32_t blocks, uint32_t pages, uint32_t page_bytes, uint32_t sectors, uint64_t *losses);

/* Closes the image: 0, or 46 if a last sync failed. A handle that is closed stays so. */
uint32_t mintlintel_image_close(struct mintlintel_image *image);

/* What the head of a file says: 0; 40, 42 or 46. An image of another version has no numbers here. After 43 and 44 it tells what to say. What isn't a
 * regular file is no image. */
uint32_t mintlintel_image_look(const char *path, struct mintlintel_image_head *head);

/* Copies the image as it stands into a new file, which then is an image of its own: 0; 2; 40 if the file exists already or can't be made; 46; 47. */
uint32_t mintlintel_image_copy(struct mintlintel_image *image, const char *path);

/* The errno of the failure that a call returned 46 for, or 0. */
int mintlintel_image_errno(const struct mintlintel_image *image);

#ifdef __cplusplus
}
#endif

#endif
