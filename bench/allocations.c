// An outside with little memory: a library that stands before the C library's allocations when it is preloaded (LD_PRELOAD).
//
//     REFUSED     the number of the one allocation that is refused, from 1; none if it isn't said
//     REFUSED_AT  a file that gets a byte when that allocation comes
#define _GNU_SOURCE
#include <errno.h>
#include <fcntl.h>
#include <malloc.h>
#include <stdlib.h>
#include <unistd.h>

void *__libc_malloc(size_t);
void *__libc_calloc(size_t, size_t);
void *__libc_realloc(void *, size_t);
void *__libc_memalign(size_t, size_t);

static long count, refused;
static int told = -1;

__attribute__((constructor)) static void begin(void)
{
    const char *number = getenv("REFUSED"), *name = getenv("REFUSED_AT");
    if (number == NULL || name == NULL)
        return;
    told = open(name, O_WRONLY | O_CREAT | O_APPEND | O_CLOEXEC, 0600);
    if (told < 0)
        abort();
    count = 0;
    refused = atol(number);
}

// Whether this allocation is the one that is refused.
static int is_refused(void)
{
    if (refused == 0 || __atomic_add_fetch(&count, 1, __ATOMIC_SEQ_CST) != refused)
        return 0;
    if (write(told, "x", 1) != 1)
        abort();
    errno = ENOMEM;
    return 1;
}

void *malloc(size_t size)
{
    return is_refused() ? NULL : __libc_malloc(size);
}

void *calloc(size_t number, size_t size)
{
    return is_refused() ? NULL : __libc_calloc(number, size);
}

void *realloc(void *old, size_t size)
{
    return is_refused() ? NULL : __libc_realloc(old, size);
}

void *memalign(size_t alignment, size_t size)
{
    return is_refused() ? NULL : __libc_memalign(alignment, size);
}

void *aligned_alloc(size_t alignment, size_t size)
{
    return memalign(alignment, size);
}

int posix_memalign(void **place, size_t alignment, size_t size)
{
    void *made = memalign(alignment, size);
    if (made == NULL)
        return ENOMEM;
    *place = made;
    return 0;
}
