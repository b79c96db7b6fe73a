/*
 * A simulator that holds the kernel between steps: an image in its own memory, which each call of a script changes in place. It
 * prints the listing, and with a name writes the last image there (`tools/image show` tells it).
 *
 *   tools/prove exports_c
 *   gcc -O2 -I include examples/simulator.c target/staticlib/libexports.a -o target/simulator
 *   target/simulator < stored/cases/nine.script
 *   target/simulator nine.image < stored/cases/nine.script
 */
#include <stdio.h>
#include <string.h>

#include "dryswennol.h"

enum { MOST = 65536, HEADER = 16, RECORD = 28, MESSAGE = 64 };

struct script {
    uint8_t bytes[MOST + 1]; /* one more than a script may have */
    size_t length;
    uint32_t records, offset, priority;
};

static uint32_t number_at(const uint8_t *bytes)
{
    return (uint32_t)bytes[0] | (uint32_t)bytes[1] << 8 | (uint32_t)bytes[2] << 16 | (uint32_t)bytes[3] << 24;
}

/* Whether the bytes are a script (docs/CALLS.md); takes its header apart. */
static int is_script(struct script *s)
{
    if (s->length < HEADER || s->length > MOST)
        return 0;
    s->records = number_at(s->bytes);
    s->offset = number_at(s->bytes + 4);
    s->priority = number_at(s->bytes + 8);
    return s->offset >= HEADER && s->offset + RECORD * (uint64_t)s->records <= s->length
        && s->priority <= 15 && number_at(s->bytes + 12) == 0;
}

/* A record is a call, its caller's mark and five arguments; the last three are also the first bytes of the message it lends. */
static void step(uint8_t *image, const uint8_t *record, dryswennol_answer *answer)
{
    uint8_t message[MESSAGE] = { 0 };
    uint32_t argument[5];

    memcpy(message, record + 16, 12);
    for (int i = 0; i < 5; i++)
        argument[i] = number_at(record + 8 + 4 * i);
    dryswennol_step(image, DRYSWENNOL_IMAGE_BYTES, message, MESSAGE, answer, number_at(record), number_at(record + 4),
                    argument[0], argument[1], argument[2], argument[3], argument[4]);
}

/* Gives 0 where the image is broken, or the line could not be printed. */
static int print_line(uint32_t number, const dryswennol_answer *answer)
{
    uint8_t line[DRYSWENNOL_LINE_BYTES];
    size_t length;

    return answer->status != DRYSWENNOL_BAD_IMAGE
        && dryswennol_line(number, answer, line, sizeof line, &length) == DRYSWENNOL_OK
        && fwrite(line, 1, length, stdout) == length;
}

static int play(const struct script *s, uint8_t *image)
{
    dryswennol_answer answer;

    if (dryswennol_fresh(s->priority, image, DRYSWENNOL_IMAGE_BYTES) != DRYSWENNOL_OK)
        return 0;
    for (uint32_t i = 0; i < s->records; i++) {
        step(image, s->bytes + s->offset + RECORD * i, &answer);
        if (!print_line(i + 1, &answer))
            return 0;
    }
    return 1;
}

static int write_file(const char *name, const uint8_t *image)
{
    FILE *file = fopen(name, "wb");

    if (file == NULL)
        return 0;
    size_t written = fwrite(image, 1, DRYSWENNOL_IMAGE_BYTES, file);
    return fclose(file) == 0 && written == DRYSWENNOL_IMAGE_BYTES;
}

int main(int argc, char **argv)
{
    static struct script script;
    static uint8_t image[DRYSWENNOL_IMAGE_BYTES];

    script.length = fread(script.bytes, 1, sizeof script.bytes, stdin);
    if (ferror(stdin))
        return 1;
    if (!is_script(&script))
        return puts("script refused") < 0 || fflush(stdout) != 0;
    if (!play(&script, image) || fflush(stdout) != 0)
        return 1;
    return argc > 1 && !write_file(argv[1], image);
}
