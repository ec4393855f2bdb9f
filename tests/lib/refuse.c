/* Refuses one growth of a process, counted from where it is asked for, or many by chance, and counts what is
   given back. tests/refused-growths, tests/leaks and tests/soak load it by LD_PRELOAD.

   A process asks by a request for PTRDIFF_MAX - n bytes, 1 <= n < 65536, which no allocator grants: the nth
   growth from there on is refused, and no later one. With REFUSE=n in the environment it is the nth growth
   of the process; with ONE_IN=k too, each growth from the nth on is refused by chance, one in k, as the
   numbers from SEED on have it. A block that is made smaller is no growth. With KEEP=n the nth block that is
   given back is kept.

   To the file named by REFUSE_LOG it writes a line "loaded" at the start, a line "refused" for each refusal
   at once, and at the end a line "end" with three numbers: the growths, the blocks that were given back,
   and those that are left. What was there before the program's own first instruction does not count. */
#define _GNU_SOURCE
#include <dlfcn.h>
#include <errno.h>
#include <fcntl.h>
#include <malloc.h>
#include <stddef.h>
#include <stdint.h>
#include <stdio.h>
#include <stdlib.h>
#include <string.h>
#include <unistd.h>

enum { FARTHEST = 65536 };

static long due;    /* the number of growths up to the refused one, 0 if none is to be */
static long one_in; /* of how many growths from there on one is refused by chance, 0 if that one alone is */
static uint64_t number_drawn;
static long keep;   /* which block is kept that is given back, 0 if none is to be */
static long growths, given_back, left;
static void *(*next_malloc)(size_t);
static void *(*next_realloc)(void *, size_t);
static void *(*next_aligned_alloc)(size_t, size_t);
static void (*next_free)(void *);

static void note(const char *line)
{
    const char *name = getenv("REFUSE_LOG");
    int file = name ? open(name, O_WRONLY | O_CREAT | O_APPEND | O_CLOEXEC, 0666) : -1;
    if (file < 0 || write(file, line, strlen(line)) < 0)
        _exit(99);
    close(file);
}

static long number(const char *name)
{
    const char *text = getenv(name);
    return text ? atol(text) : 0;
}

__attribute__((constructor)) static void begin(void)
{
    next_realloc = (void *(*)(void *, size_t))dlsym(RTLD_NEXT, "realloc");
    next_aligned_alloc = (void *(*)(size_t, size_t))dlsym(RTLD_NEXT, "aligned_alloc");
    next_free = (void (*)(void *))dlsym(RTLD_NEXT, "free");
    next_malloc = (void *(*)(size_t))dlsym(RTLD_NEXT, "malloc");
    note("loaded\n");
    keep = number("KEEP");
    one_in = number("ONE_IN");
    number_drawn = (uint64_t)number("SEED");
    due = number("REFUSE");
    growths = given_back = left = 0;
}

__attribute__((destructor)) static void end(void)
{
    char line[80];
    snprintf(line, sizeof line, "end %ld %ld %ld\n", growths, given_back, left);
    note(line);
}

/* Whether chance refuses this growth. The next one is due too. */
static int is_drawn(void)
{
    due = 1;
    number_drawn = number_drawn * 6364136223846793005u + 1442695040888963407u;
    return (number_drawn >> 33) % (uint64_t)one_in == 0;
}

static int is_refused(void)
{
    growths++;
    if (due == 0 || --due > 0 || (one_in > 0 && !is_drawn()))
        return 0;
    note("refused\n");
    return 1;
}

static void *counted(void *block)
{
    left += block != NULL;
    return block;
}

static void *block_of(size_t size)
{
    return !next_malloc || is_refused() ? NULL : counted(next_malloc(size));
}

void *malloc(size_t size)
{
    if (size < PTRDIFF_MAX && size > (size_t)PTRDIFF_MAX - FARTHEST) {
        due = (long)(PTRDIFF_MAX - size);
        return NULL;
    }
    return block_of(size);
}

void *calloc(size_t count, size_t size)
{
    size_t all;
    void *block = __builtin_mul_overflow(count, size, &all) ? NULL : block_of(all);
    return block ? memset(block, 0, all) : NULL;
}

void *aligned_alloc(size_t alignment, size_t size)
{
    return !next_aligned_alloc || is_refused() ? NULL : counted(next_aligned_alloc(alignment, size));
}

int posix_memalign(void **block, size_t alignment, size_t size)
{
    void *made = aligned_alloc(alignment, size);
    if (made)
        *block = made;
    return made ? 0 : ENOMEM;
}

void free(void *block)
{
    if (!block || !next_free || ++given_back == keep)
        return;
    left--;
    next_free(block);
}

/* A block has less than 16 bytes more than were asked for, but for the smallest, which have room for 24. */
static int is_made_smaller(void *old, size_t size)
{
    size_t room = malloc_usable_size(old);
    return room > 24 && size + 16 <= room;
}

void *realloc(void *old, size_t size)
{
    if (!old)
        return block_of(size);
    if (size == 0) {
        free(old);
        return NULL;
    }
    return !is_made_smaller(old, size) && is_refused() ? NULL : next_realloc(old, size);
}
