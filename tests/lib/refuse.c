/* A library that is preloaded and makes allocations fail: the one with the number REFUSE_FIRST, and if REFUSE_ALL is
   set, also all that follow it. Each failure writes one byte to the file that REFUSED names. tests/refused.py builds the
   library. */
#include <errno.h>
#include <fcntl.h>
#include <stddef.h>
#include <stdlib.h>
#include <unistd.h>

extern void *__libc_malloc(size_t size);
extern void *__libc_realloc(void *old, size_t size);
extern void *__libc_calloc(size_t count, size_t size);

static long first, count;
static int all;
static const char *told;

__attribute__((constructor)) static void begin(void)
{
    const char *text = getenv("REFUSE_FIRST");
    told = getenv("REFUSED");
    all = getenv("REFUSE_ALL") != NULL;
    count = 0;
    first = text ? atol(text) : 0;
}

static int is_refused(void)
{
    if (first == 0)
        return 0;
    count++;
    if (count != first && !(all && count > first))
        return 0;
    int file = open(told, O_WRONLY | O_APPEND);
    if (file >= 0) {
        if (write(file, "x", 1) != 1)
            abort();
        close(file);
    }
    errno = ENOMEM;
    return 1;
}

void *malloc(size_t size)
{
    return is_refused() ? NULL : __libc_malloc(size);
}

void *realloc(void *old, size_t size)
{
    return is_refused() ? NULL : __libc_realloc(old, size);
}

void *calloc(size_t number, size_t size)
{
    return is_refused() ? NULL : __libc_calloc(number, size);
}
