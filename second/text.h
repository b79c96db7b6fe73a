/*
 * Text put into a room: "one space between fields, a newline after each line,
 * no leading zeros".
 */
#ifndef TEXT_H
#define TEXT_H

#include <stddef.h>
#include <stdint.h>

struct writer {
    char *out;
    size_t room;
    size_t length; /* counts on past the room */
};

static void put_sign(struct writer *w, char sign)
{
    if (w->length < w->room)
        w->out[w->length] = sign;
    w->length++;
}

static void put_text(struct writer *w, const char *text)
{
    for (; *text != 0; text++)
        put_sign(w, *text);
}

static void put_number(struct writer *w, int64_t number)
{
    char digits[20];
    int count = 0;
    uint64_t left = number < 0 ? 0 - (uint64_t)number : (uint64_t)number;

    if (number < 0)
        put_sign(w, '-');
    do {
        digits[count++] = (char)('0' + left % 10);
        left /= 10;
    } while (left != 0);
    while (count > 0)
        put_sign(w, digits[--count]);
}

static void put_field(struct writer *w, int64_t number)
{
    put_sign(w, ' ');
    put_number(w, number);
}

#endif
