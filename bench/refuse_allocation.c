/*
 * Refuses allocations of the program into which it is preloaded, and counts them.
 *
 *   REFUSED_ALLOCATION  the number of the allocation that is refused, from 1 on; none where it isn't set
 *   REFUSED_BEHIND      set where all those behind it are refused too
 *   ALLOCATION_COUNT    the file that gets the number of allocations when the program ends
 *
 * A refused call is answered as the C library answers one for which it has no memory.
 */
#include <errno.h>
#include <fcntl.h>
#include <stdlib.h>
#include <unistd.h>

extern void *__libc_malloc(size_t size);
extern void *__libc_calloc(size_t count, size_t size);
extern void *__libc_realloc(void *block, size_t size);
extern void *__libc_memalign(size_t alignment, size_t size);

static unsigned long allocations;
static unsigned long refused;
static int behind;

__attribute__((constructor)) static void begin(void)
{
    const char *number = getenv("REFUSED_ALLOCATION");
    refused = number ? strtoul(number, NULL, 10) : 0;
    behind = getenv("REFUSED_BEHIND") != NULL;
    allocations = 0;
}

static int is_refused(void)
{
    allocations += 1;
    if (refused == 0 || allocations < refused || (allocations > refused && !behind))
        return 0;
    errno = ENOMEM;
    return 1;
}

void *malloc(size_t size)
{
    return is_refused() ? NULL : __libc_malloc(size);
}

void *calloc(size_t count, size_t size)
{
    return is_refused() ? NULL : __libc_calloc(count, size);
}

void *realloc(void *block, size_t size)
{
    return is_refused() ? NULL : __libc_realloc(block, size);
}

void *memalign(size_t alignment, size_t size)
{
    return is_refused() ? NULL : __libc_memalign(alignment, size);
}

void *aligned_alloc(size_t alignment, size_t size)
{
    return memalign(alignment, size);
}

int posix_memalign(void **block, size_t alignment, size_t size)
{
    void *found = memalign(alignment, size);
    if (found == NULL)
        return ENOMEM;
    *block = found;
    return 0;
}

__attribute__((destructor)) static void end(void)
{
    const char *path = getenv("ALLOCATION_COUNT");
    char digits[24];
    size_t at = sizeof digits;
    int file = path ? open(path, O_WRONLY | O_CREAT | O_TRUNC, 0600) : -1;
    if (file < 0)
        return;
    do {
        digits[--at] = (char)('0' + allocations % 10);
        allocations /= 10;
    } while (allocations != 0);
    if (write(file, digits + at, sizeof digits - at) < 0)
        unlink(path);
    close(file);
}
