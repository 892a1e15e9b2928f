/*
 * Loaded before the C library, it lets a program read so many bytes of its descriptor 4, as READ_BYTES says, and then fails its
 * reads there with EIO. Descriptor 4 is the second file that a program opens, playback's trace.
 */
#define _GNU_SOURCE
#include <errno.h>
#include <stdlib.h>
#include <sys/syscall.h>
#include <unistd.h>

ssize_t read(int fd, void *buf, size_t count)
{
    static long left = -1;
    if (fd == 4) {
        if (left < 0)
            left = atol(getenv("READ_BYTES"));
        if (left == 0) {
            errno = EIO;
            return -1;
        }
        if (count > (size_t)left)
            count = (size_t)left;
        left -= (long)count;
    }
    return syscall(SYS_read, fd, buf, count);
}
