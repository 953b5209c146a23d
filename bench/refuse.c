/* A library to load before a program: it refuses one of the program's requests for memory.

   REFUSE is the place of that request, counted from 1. When it is refused, a byte is written to the descriptor REFUSED, so
   that who runs the program knows of it however the program ends. What the loader asks for before the program begins is
   not counted. */
#define _GNU_SOURCE
#include <dlfcn.h>
#include <errno.h>
#include <stddef.h>
#include <stdlib.h>
#include <unistd.h>

static unsigned long asked, place;
static int counting, told;

__attribute__((constructor)) static void begin(void)
{
    const char *refuse = getenv("REFUSE"), *refused = getenv("REFUSED");
    place = refuse ? strtoul(refuse, NULL, 10) : 0;
    told = refused ? atoi(refused) : -1;
    counting = 1;
}

static int refuses(void)
{
    if (!counting || __atomic_add_fetch(&asked, 1, __ATOMIC_RELAXED) != place)
        return 0;
    if (write(told, "x", 1) != 1)
        _exit(99);
    errno = ENOMEM;
    return 1;
}

void *malloc(size_t size)
{
    static void *(*next)(size_t);
    if (!next)
        next = dlsym(RTLD_NEXT, "malloc");
    return refuses() ? NULL : next(size);
}

void *calloc(size_t count, size_t size)
{
    static void *(*next)(size_t, size_t);
    if (!next)
        next = dlsym(RTLD_NEXT, "calloc");
    return refuses() ? NULL : next(count, size);
}

void *realloc(void *old, size_t size)
{
    static void *(*next)(void *, size_t);
    if (!next)
        next = dlsym(RTLD_NEXT, "realloc");
    return refuses() ? NULL : next(old, size);
}

void *aligned_alloc(size_t alignment, size_t size)
{
    static void *(*next)(size_t, size_t);
    if (!next)
        next = dlsym(RTLD_NEXT, "aligned_alloc");
    return refuses() ? NULL : next(alignment, size);
}

int posix_memalign(void **made, size_t alignment, size_t size)
{
    static int (*next)(void **, size_t, size_t);
    if (!next)
        next = dlsym(RTLD_NEXT, "posix_memalign");
    return refuses() ? ENOMEM : next(made, alignment, size);
}
