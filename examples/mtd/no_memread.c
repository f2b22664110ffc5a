/* no_memread.c: a kernel before Linux 6.1, which has no MEMREAD. It is linked with -Wl,--wrap=ioctl. */
#include <errno.h>
#include <mtd/mtd-user.h>
#include <stdarg.h>
#include <sys/ioctl.h>

int __real_ioctl(int fd, unsigned long request, void *argument);
int __wrap_ioctl(int fd, unsigned long request, ...);

int __wrap_ioctl(int fd, unsigned long request, ...)
{
    va_list values;
    va_start(values, request);
    void *argument = va_arg(values, void *);
    va_end(values);
    if (request != MEMREAD)
        return __real_ioctl(fd, request, argument);
    errno = ENOTTY;
    return -1;
}
