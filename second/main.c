/*
 * The program: second [--trust] [--grid | --messages | --image] [FILE]. Reads
 * a script from the file, or from standard input, and prints its listing, or
 * its grant grid, or the messages that it shows, or the image of the state
 * that it leaves.
 */
#include <errno.h>
#include <stdio.h>
#include <string.h>

#include "image.h"
#include "script.h"

/* One byte more than a script may have, to tell one that is too long. */
static uint8_t script[MOST_SCRIPT + 1];
static char listing[MOST_LISTING];

static int failed(const char *what)
{
    fprintf(stderr, "second: %s: %s\n", what, strerror(errno));
    return 1;
}

/* What is asked for. */
typedef size_t player(const uint8_t *script, size_t length, int trust,
                      char *out, size_t room);

struct wish {
    int trust;
    player *plays;
};

/* The latest state of a script, if it has any. */
struct latest {
    int any;
    struct kernel state;
};

static void keep(struct kernel *k, void *with)
{
    struct latest *latest = with;

    latest->any = 1;
    latest->state = *k;
}

/* A refused script has no state: what is printed is its listing. */
static size_t script_image(const uint8_t *script, size_t length, int trust,
                           char *out, size_t room)
{
    struct latest latest = { .any = 0 };
    const struct between between = { keep, &latest };
    size_t written = script_listing_between(script, length, trust, between,
                                            out, room);

    if (!latest.any
        || image_write(&latest.state, (uint8_t *)out, room) != OK)
        return written;
    return IMAGE_BYTES;
}

/* What an option asks for, or NULL. */
static player *asked(const char *option)
{
    if (strcmp(option, "--grid") == 0)
        return script_grid;
    if (strcmp(option, "--messages") == 0)
        return script_messages;
    return strcmp(option, "--image") == 0 ? script_image : NULL;
}

static int play(FILE *from, const char *name, struct wish wish)
{
    size_t length = fread(script, 1, sizeof script, from);
    size_t written;

    if (ferror(from))
        return failed(name);
    written = wish.plays(script, length, wish.trust, listing, sizeof listing);
    if (fwrite(listing, 1, written, stdout) != written || fflush(stdout) != 0)
        return failed("standard output");
    return 0;
}

static int play_file(const char *name, struct wish wish)
{
    FILE *from = fopen(name, "rb");
    int result;

    if (from == NULL)
        return failed(name);
    result = play(from, name, wish);
    fclose(from);
    return result;
}

int main(int argc, char **argv)
{
    struct wish wish = { 0, script_listing };
    int words = 1;

    if (words < argc && strcmp(argv[words], "--trust") == 0) {
        wish.trust = 1;
        words++;
    }
    if (words < argc && asked(argv[words]) != NULL)
        wish.plays = asked(argv[words++]);
    if (argc - words > 1 || (argc > words && argv[words][0] == '-')) {
        fprintf(stderr, "usage: second [--trust] "
                        "[--grid | --messages | --image] [FILE]\n");
        return 2;
    }
    if (argc > words)
        return play_file(argv[words], wish);
    return play(stdin, "standard input", wish);
}
