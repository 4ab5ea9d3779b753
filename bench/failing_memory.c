/* Refuses the FAIL_AT-th growth of a program, and says so by a byte on descriptor 9. */
#define _GNU_SOURCE
#include <dlfcn.h>
#include <errno.h>
#include <stdlib.h>
#include <unistd.h>

static long made, wanted = -1;

static int refuses(void)
{
    if (wanted < 0) {
        const char *text = getenv("FAIL_AT");
        wanted = text ? atol(text) : 0;
    }
    if (++made != wanted)
        return 0;
    if (write(9, "!", 1) != 1)
        return 0;
    errno = ENOMEM;
    return 1;
}

void *malloc(size_t size)
{
    static void *(*real)(size_t);
    if (!real)
        real = dlsym(RTLD_NEXT, "malloc");
    return refuses() ? 0 : real(size);
}

void *realloc(void *old, size_t size)
{
    static void *(*real)(void *, size_t);
    if (!real)
        real = dlsym(RTLD_NEXT, "realloc");
    return refuses() ? 0 : real(old, size);
}

void *calloc(size_t count, size_t size)
{
    static void *(*real)(size_t, size_t);
    if (!real)
        real = dlsym(RTLD_NEXT, "calloc");
    return refuses() ? 0 : real(count, size);
}

void *aligned_alloc(size_t align, size_t size)
{
    static void *(*real)(size_t, size_t);
    if (!real)
        real = dlsym(RTLD_NEXT, "aligned_alloc");
    return refuses() ? 0 : real(align, size);
}

int posix_memalign(void **place, size_t align, size_t size)
{
    static int (*real)(void **, size_t, size_t);
    if (!real)
        real = dlsym(RTLD_NEXT, "posix_memalign");
    return refuses() ? ENOMEM : real(place, align, size);
}
