/* Put before the C library by LD_PRELOAD: refuses the REFUSE-th allocation of a program, from 1, and then writes to descriptor 3. */
#define _GNU_SOURCE
#include <dlfcn.h>
#include <stdlib.h>
#include <unistd.h>

static void *(*next_malloc)(size_t);
static void *(*next_realloc)(void *, size_t);
static long count, refused;

static void begin(void)
{
    if (next_malloc)
        return;
    const char *number = getenv("REFUSE");
    refused = number ? atol(number) : 0;
    next_realloc = (void *(*)(void *, size_t))dlsym(RTLD_NEXT, "realloc");
    next_malloc = (void *(*)(size_t))dlsym(RTLD_NEXT, "malloc");
}

static int is_refused(void)
{
    if (__atomic_add_fetch(&count, 1, __ATOMIC_SEQ_CST) != refused)
        return 0;
    return write(3, "refused\n", 8) != 0;
}

void *malloc(size_t size)
{
    begin();
    return is_refused() ? NULL : next_malloc(size);
}

void *realloc(void *old, size_t size)
{
    begin();
    return is_refused() ? NULL : next_realloc(old, size);
}
