/* A read that fails midway, for a program that is started with this in LD_PRELOAD: standard input
   comes in parts of at most ten bytes, the read of number FAILING_READ fails once with EIO, and
   after it the input is at its end. Other descriptors are read as ever. */
#define _GNU_SOURCE
#include <errno.h>
#include <stdlib.h>
#include <sys/syscall.h>
#include <sys/types.h>
#include <unistd.h>

ssize_t read(int fd, void *bytes, size_t size)
{
    static long reads = 0;
    const char *failing = getenv("FAILING_READ");
    if (fd != 0 || failing == NULL)
        return syscall(SYS_read, fd, bytes, size);
    reads += 1;
    if (reads == atol(failing)) {
        errno = EIO;
        return -1;
    }
    if (reads > atol(failing))
        return 0;
    return syscall(SYS_read, fd, bytes, size < 10 ? size : 10);
}
