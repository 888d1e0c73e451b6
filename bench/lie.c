/* Preloaded, it gives back other bytes than those of the sector that is read. LIE says which: `before`, the sector before;
   `other`, one of the first 64 sectors, chosen at random; `bit`, the sector with one bit changed; `random`, random bytes. SEED
   begins the random numbers. */
#define _GNU_SOURCE
#include <stdint.h>
#include <stdlib.h>
#include <string.h>
#include <sys/syscall.h>
#include <unistd.h>

#define SECTOR 240

static uint64_t state;

static uint64_t drawn(void)
{
    state ^= state << 13;
    state ^= state >> 7;
    state ^= state << 17;
    return state;
}

ssize_t pread(int fd, void *into, size_t n, off_t at)
{
    const char *lie = getenv("LIE");
    const char *seed = getenv("SEED");
    unsigned char *bytes = into;
    if (!state)
        state = 0x9e3779b97f4a7c15u * (1 + (seed ? strtoull(seed, NULL, 10) : 0)) | 1;
    if (!lie || !strcmp(lie, "none") || n != SECTOR)
        return syscall(SYS_pread64, fd, into, n, at);
    if (!strcmp(lie, "before"))
        return syscall(SYS_pread64, fd, into, n, at ? at - SECTOR : at);
    if (!strcmp(lie, "other"))
        return syscall(SYS_pread64, fd, into, n, (off_t)(drawn() % 64) * SECTOR);
    if (!strcmp(lie, "bit")) {
        ssize_t got = syscall(SYS_pread64, fd, into, n, at);
        uint64_t bit = drawn() % (SECTOR * 8);
        bytes[bit / 8] ^= 1 << bit % 8;
        return got;
    }
    for (size_t i = 0; i < n; i++)
        bytes[i] = drawn() >> 32;
    return n;
}
