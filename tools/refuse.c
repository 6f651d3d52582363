/* Refuses one request for memory of a program, by its number.
 *
 *     cc -shared -fPIC -O2 -o refuse.so tools/refuse.c
 *     LD_PRELOAD=$PWD/refuse.so REFUSE=17 pdscript report.pds
 *
 * A request is a call of malloc, calloc, realloc, posix_memalign or aligned_alloc, counted from 0. The one with the number
 * REFUSE is answered as where no memory is left, and all others are served. With REFUSE_COUNT=FILE the number of requests is
 * written to that file when the program exits. It stands on the GNU C library, whose own calls it hands the requests on to.
 */
#include <errno.h>
#include <stdio.h>
#include <stdlib.h>

extern void *__libc_malloc(size_t);
extern void *__libc_calloc(size_t, size_t);
extern void *__libc_realloc(void *, size_t);
extern void *__libc_memalign(size_t, size_t);

static unsigned long long requests;
static unsigned long long refused = -1ULL;

/* What was asked for before the program begins isn't counted. */
__attribute__((constructor)) static void begin(void)
{
    const char *number = getenv("REFUSE");
    if (number != NULL)
        refused = strtoull(number, NULL, 10);
    requests = 0;
}

__attribute__((destructor)) static void end(void)
{
    unsigned long long made = requests;
    const char *name = getenv("REFUSE_COUNT");
    FILE *file = name == NULL ? NULL : fopen(name, "w");
    if (file == NULL)
        return;
    fprintf(file, "%llu\n", made);
    fclose(file);
}

static int is_refused(void)
{
    if (__atomic_fetch_add(&requests, 1, __ATOMIC_RELAXED) != refused)
        return 0;
    errno = ENOMEM;
    return 1;
}

void *malloc(size_t size)
{
    return is_refused() ? NULL : __libc_malloc(size);
}

void *calloc(size_t count, size_t size)
{
    return is_refused() ? NULL : __libc_calloc(count, size);
}

void *realloc(void *block, size_t size)
{
    return is_refused() ? NULL : __libc_realloc(block, size);
}

void *aligned_alloc(size_t alignment, size_t size)
{
    return is_refused() ? NULL : __libc_memalign(alignment, size);
}

int posix_memalign(void **block, size_t alignment, size_t size)
{
    void *made = is_refused() ? NULL : __libc_memalign(alignment, size);
    if (made == NULL)
        return ENOMEM;
    *block = made;
    return 0;
}
