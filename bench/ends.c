/* Preloaded, it has standard output take one byte of each write. */
#define _GNU_SOURCE
#include <sys/syscall.h>
#include <unistd.h>

ssize_t write(int fd, const void *from, size_t n)
{
    return syscall(SYS_write, fd, from, fd == 1 && n > 1 ? 1 : n);
}
