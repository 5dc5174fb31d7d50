/* Makes one allocation of a process fail: the one whose number, counted from 1, is in the environment's REFUSED_ALLOCATION.
   When it is refused, the file named by REFUSED_MARK is made. To be loaded by LD_PRELOAD; tools/refused_memory does so. */
#define _GNU_SOURCE
#include <dlfcn.h>
#include <fcntl.h>
#include <stdatomic.h>
#include <stdlib.h>
#include <unistd.h>

static atomic_ulong made;
static unsigned long refused;

__attribute__((constructor)) static void begin(void)
{
    const char *number = getenv("REFUSED_ALLOCATION");
    refused = number ? strtoul(number, NULL, 10) : 0;
}

static int is_refused(void)
{
    if (refused == 0 || atomic_fetch_add(&made, 1) + 1 != refused)
        return 0;
    const char *mark = getenv("REFUSED_MARK");
    int file = mark ? open(mark, O_CREAT | O_WRONLY, 0600) : -1;
    if (file >= 0)
        close(file);
    return 1;
}

void *malloc(size_t size)
{
    static void *(*real)(size_t);
    if (!real)
        real = (void *(*)(size_t))dlsym(RTLD_NEXT, "malloc");
    return is_refused() ? NULL : real(size);
}

void *realloc(void *block, size_t size)
{
    static void *(*real)(void *, size_t);
    if (!real)
        real = (void *(*)(void *, size_t))dlsym(RTLD_NEXT, "realloc");
    return is_refused() ? NULL : real(block, size);
}
