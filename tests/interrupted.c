/* Preloaded by tests/sheet and tests/subsets: every other call of read and write is interrupted before it moves a byte, and a write takes at most 7 bytes. */
#define _GNU_SOURCE
#include <errno.h>
#include <sys/syscall.h>
#include <unistd.h>

static int is_interrupted(void)
{
    static unsigned calls;
    if (calls++ % 2 == 0) {
        errno = EINTR;
        return 1;
    }
    return 0;
}

ssize_t read(int fd, void *bytes, size_t count)
{
    return is_interrupted() ? -1 : syscall(SYS_read, fd, bytes, count);
}

ssize_t write(int fd, const void *bytes, size_t count)
{
    return is_interrupted() ? -1 : syscall(SYS_write, fd, bytes, count < 7 ? count : 7);
}
