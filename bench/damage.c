/*
 * Damaged scripts. "Refused with the one line `script refused`: too long,
 * shorter than 16, offset below 16, offset + 28 × count above the script's
 * length, priority above 15, fourth number not zero. Other bytes are
 * ignored." Each damage is one of these, stands just beside it, or is a
 * change that the player is to bear.
 */
#include "scripts.h"

#include <string.h>

#include "aim.h"

static uint32_t number_at(const uint8_t *bytes)
{
    return (uint32_t)bytes[0] | (uint32_t)bytes[1] << 8
         | (uint32_t)bytes[2] << 16 | (uint32_t)bytes[3] << 24;
}

static void cut_in_the_header(struct script *s, struct dice *d)
{
    s->length = roll(d, 16);
}

static void cut_anywhere(struct script *s, struct dice *d)
{
    s->length = roll(d, (uint32_t)s->length + 1);
}

static void last_byte_missing(struct script *s, struct dice *d)
{
    (void)d;
    s->length--;
}

static void byte_added(struct script *s, struct dice *d)
{
    if (s->length < MOST_BYTES)
        s->bytes[s->length++] = (uint8_t)roll(d, 256);
}

static void padded_to(struct script *s, size_t length)
{
    if (length > s->length)
        memset(s->bytes + s->length, 0, length - s->length);
    s->length = length;
}

static void as_long_as_can_be(struct script *s, struct dice *d)
{
    (void)d;
    padded_to(s, MOST_BYTES);
}

static void too_long(struct script *s, struct dice *d)
{
    padded_to(s, MOST_BYTES + 1);
    if (chance(d, 500))
        padded_to(s, MOST_BYTES + 1 + roll(d, SCRIPT_ROOM - MOST_BYTES));
}

/* Too great by little, by much, or so that a product of 32 bits is small. */
static void another_count(struct script *s, struct dice *d)
{
    uint32_t count = number_at(s->bytes);

    put_number(s->bytes, ONE_OF(d, count + 1, count + 1, 2340, 2341, TOP,
                                1u << 30, 153391690, 613566757));
}

static void smaller_count(struct script *s, struct dice *d)
{
    put_number(s->bytes, roll(d, number_at(s->bytes) + 1));
}

static void offset_in_the_header(struct script *s, struct dice *d)
{
    put_number(s->bytes + 4, roll(d, 16));
}

/* Beside the good one, at the end, past it, or where a 32-bit sum wraps. */
static void another_offset(struct script *s, struct dice *d)
{
    uint32_t offset = number_at(s->bytes + 4), end = (uint32_t)s->length;

    put_number(s->bytes + 4,
               ONE_OF(d, offset + 1, offset - 1, offset + 3, offset + 28,
                      end, end + 1, end - 1, TOP, TOP - 27, 1u << 31,
                      offset | 1u << 16));
}

/* A record less, and the others read from an odd place. */
static void records_shifted(struct script *s, struct dice *d)
{
    uint32_t count = number_at(s->bytes);

    if (count == 0)
        return;
    put_number(s->bytes, count - 1);
    put_number(s->bytes + 4, number_at(s->bytes + 4) + 1 + roll(d, 29));
}

static void no_records(struct script *s, struct dice *d)
{
    uint32_t end = (uint32_t)s->length;

    put_number(s->bytes, 0);
    put_number(s->bytes + 4, ONE_OF(d, 15, 16, end - 1, end, end + 1, TOP));
}

static void another_priority(struct script *s, struct dice *d)
{
    put_number(s->bytes + 8, ONE_OF(d, 15, 16, 16, 17, 256, 1u << 16, 1u << 24,
                                    1u << 31, TOP));
}

static void fourth_number(struct script *s, struct dice *d)
{
    put_number(s->bytes + 12, ONE_OF(d, 1, 256, 1u << 16, 1u << 24, 1u << 31,
                                     TOP));
}

static void bytes_at_random(struct script *s, struct dice *d)
{
    s->length = roll(d, 200);
    for (size_t i = 0; i < s->length; i++)
        s->bytes[i] = (uint8_t)roll(d, 256);
}

static void records_at_random(struct script *s, struct dice *d)
{
    for (size_t i = 16; i < s->length; i++)
        s->bytes[i] = (uint8_t)roll(d, 256);
}

static void bit_of_the_header(struct script *s, struct dice *d)
{
    uint32_t bit = roll(d, 128);

    s->bytes[bit / 8] ^= (uint8_t)(1u << bit % 8);
}

static void bytes_changed(struct script *s, struct dice *d)
{
    for (uint32_t left = 1 + roll(d, 20); left > 0; left--) {
        uint32_t at = roll(d, (uint32_t)s->length);

        s->bytes[at] = (uint8_t)roll(d, 256);
    }
}

/* Numbers with their highest byte first. */
static void header_turned(struct script *s, struct dice *d)
{
    (void)d;
    for (int at = 0; at < 16; at += 4) {
        uint32_t number = number_at(s->bytes + at);

        put_number(s->bytes + at, __builtin_bswap32(number));
    }
}

static void (*const damages[])(struct script *, struct dice *) = {
    cut_in_the_header, cut_anywhere, last_byte_missing, byte_added,
    as_long_as_can_be, too_long, another_count, another_count, smaller_count,
    offset_in_the_header, another_offset, another_offset, records_shifted,
    no_records, another_priority, fourth_number, bytes_at_random,
    records_at_random, bit_of_the_header, bytes_changed, header_turned
};

void script_damage(struct script *s, struct dice *d)
{
    uint32_t which = roll(d, sizeof damages / sizeof damages[0]);

    damages[which](s, d);
}
