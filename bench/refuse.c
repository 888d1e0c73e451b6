/* Preloaded, it refuses one request for memory: the one whose number is in REFUSE, counted from 1. */
#include <errno.h>
#include <fcntl.h>
#include <stdio.h>
#include <stdlib.h>
#include <unistd.h>

void *__libc_malloc(size_t);
void *__libc_calloc(size_t, size_t);
void *__libc_realloc(void *, size_t);
void *__libc_memalign(size_t, size_t);

static long made, wanted = -1;

static int refused(void)
{
    if (wanted < 0) {
        const char *word = getenv("REFUSE");
        wanted = word ? atol(word) : 0;
    }
    return ++made == wanted;
}

void *malloc(size_t n)
{
    return refused() ? (errno = ENOMEM, NULL) : __libc_malloc(n);
}

void *calloc(size_t n, size_t size)
{
    return refused() ? (errno = ENOMEM, NULL) : __libc_calloc(n, size);
}

void *realloc(void *old, size_t n)
{
    return refused() ? (errno = ENOMEM, NULL) : __libc_realloc(old, n);
}

void *aligned_alloc(size_t align, size_t n)
{
    return refused() ? (errno = ENOMEM, NULL) : __libc_memalign(align, n);
}

int posix_memalign(void **to, size_t align, size_t n)
{
    if (refused())
        return ENOMEM;
    *to = __libc_memalign(align, n);
    return *to ? 0 : ENOMEM;
}

__attribute__((destructor)) static void tell(void)
{
    const char *path = getenv("REQUESTS");
    if (path) {
        char line[32];
        int fd = open(path, O_WRONLY | O_CREAT | O_TRUNC, 0600);
        int n = snprintf(line, sizeof line, "%ld\n", made);
        if (fd >= 0 && write(fd, line, n) == n)
            close(fd);
    }
}
