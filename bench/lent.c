/* Ground with a fence behind it. */
#define _DEFAULT_SOURCE
#include "lent.h"

#include <signal.h>
#include <stdio.h>
#include <stdlib.h>
#include <string.h>
#include <sys/mman.h>
#include <unistd.h>

enum { PAGE = 4096, MARK = 0xa5, BEFORE = 64 };

static const uint64_t *present_seed;
static const char *const *present_work;

struct ground ground_made(size_t room)
{
    size_t whole = (room + BEFORE + PAGE - 1) / PAGE * PAGE;
    uint8_t *start = mmap(NULL, whole + PAGE, PROT_READ | PROT_WRITE,
                          MAP_PRIVATE | MAP_ANONYMOUS, -1, 0);

    if (start == MAP_FAILED
        || mprotect(start + whole, PAGE, PROT_NONE) != 0) {
        perror("compare: no memory");
        exit(2);
    }
    return (struct ground){ start + whole, whole - BEFORE };
}

uint8_t *lend_marked(const struct ground *g, size_t length)
{
    uint8_t *lent = g->end - length;

    memset(lent - BEFORE, MARK, length + BEFORE);
    return lent;
}

/* The first has the mark, and each is as the one before it. */
static bool all_marked(const uint8_t *from, const uint8_t *end)
{
    return from == end
        || (*from == MARK
            && memcmp(from, from + 1, (size_t)(end - from) - 1) == 0);
}

bool still_marked(const struct ground *g, const uint8_t *from)
{
    return all_marked(from, g->end);
}

bool marked_before(const uint8_t *lent)
{
    return all_marked(lent - BEFORE, lent);
}

/* The program ends here, so what it was doing can do no harm to printf. */
static void stopped(int signal)
{
    fprintf(stderr, "compare: stopped by signal %d at seed %llu, in %s\n",
            signal, (unsigned long long)*present_seed, *present_work);
    _exit(1);
}

void say_if_stopped(const uint64_t *seed, const char *const *doing)
{
    present_seed = seed;
    present_work = doing;
    signal(SIGSEGV, stopped);
    signal(SIGBUS, stopped);
    signal(SIGILL, stopped);
    signal(SIGFPE, stopped);
}
