/* A write that bends what is written, for a program that is started with this in LD_PRELOAD: of the
   first bytes that go to another descriptor than the standard three the bit of number BENT_BIT,
   counted from the first byte's most significant one, is written as its opposite. */
#define _GNU_SOURCE
#include <stdlib.h>
#include <string.h>
#include <sys/syscall.h>
#include <sys/types.h>
#include <unistd.h>

ssize_t write(int fd, const void *bytes, size_t size)
{
    static int bent = 0;
    const char *bit = getenv("BENT_BIT");
    if (fd <= 2 || bit == NULL || bent)
        return syscall(SYS_write, fd, bytes, size);
    bent = 1;
    size_t number = strtoul(bit, NULL, 10);
    unsigned char copy[65536];
    if (size > sizeof copy || number / 8 >= size)
        abort();
    memcpy(copy, bytes, size);
    copy[number / 8] ^= 0x80 >> number % 8;
    return syscall(SYS_write, fd, copy, size);
}
