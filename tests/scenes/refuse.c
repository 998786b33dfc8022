/*
 * Loaded before the C library, refuses the one request for memory whose number REFUSED has, from 1. The size of each goes on a line of
 * the file that SIZES names.
 */
#include <errno.h>
#include <fcntl.h>
#include <stdio.h>
#include <stdlib.h>
#include <unistd.h>

extern void *__libc_malloc(size_t size);
extern void *__libc_calloc(size_t count, size_t size);
extern void *__libc_realloc(void *old, size_t size);
extern void *__libc_memalign(size_t alignment, size_t size);

static void note(size_t size)
{
    static int file = -2;
    char line[32];
    int length = snprintf(line, sizeof line, "%zu\n", size);

    if (file == -2) {
        const char *name = getenv("SIZES");
        file = name == NULL ? -1 : open(name, O_CREAT | O_TRUNC | O_WRONLY, 0600);
    }
    if (file >= 0 && write(file, line, length) != length)
        abort();
}

static int is_refused(size_t size)
{
    static unsigned long asked;
    const char *refused = getenv("REFUSED");

    asked += 1;
    note(size);
    if (refused == NULL || strtoul(refused, NULL, 10) != asked)
        return 0;
    errno = ENOMEM;
    return 1;
}

void *malloc(size_t size)
{
    return is_refused(size) ? NULL : __libc_malloc(size);
}

void *calloc(size_t count, size_t size)
{
    return is_refused(size) ? NULL : __libc_calloc(count, size);
}

void *realloc(void *old, size_t size)
{
    return is_refused(size) ? NULL : __libc_realloc(old, size);
}

void *aligned_alloc(size_t alignment, size_t size)
{
    return is_refused(size) ? NULL : __libc_memalign(alignment, size);
}

int posix_memalign(void **made, size_t alignment, size_t size)
{
    void *found = is_refused(size) ? NULL : __libc_memalign(alignment, size);

    if (found == NULL)
        return ENOMEM;
    *made = found;
    return 0;
}
