/*
 * Images stepped from C. "Refusals: 32 BAD_IMAGE for any bytes no state
 * writes ..., a cut image too; then 31 NO_ROOM exactly if a slice lent for an
 * image or listing is shorter than needed, nothing written; both before 25,
 * 31 before 19."
 */
#include "exports.h"

#include <string.h>

#include "image.h"
#include "script.h"
#include "text.h"

_Static_assert((int)DRYSWENNOL_IMAGE_BYTES == IMAGE_BYTES, "one edition");

uint32_t second_fresh(uint32_t priority, uint8_t *image, size_t image_len)
{
    struct kernel k;
    uint32_t status;

    if (image_len < IMAGE_BYTES)
        return NO_ROOM;
    status = kernel_fresh(&k, priority);
    image_put(&k, image);
    return status;
}

/* All wakes of a step have one status; a message that is shown is a delivery
 * where a task is woken, and else an immediate receive. */
void second_answer(dryswennol_answer *to, const struct answer *from)
{
    memset(to, 0, sizeof *to);
    to->status = from->status;
    for (int i = 0; i < VALUES; i++)
        to->values[i] = (uint32_t)from->value[i];
    if (from->value[1] < 0) {
        to->negative = 1;
        to->values[1] = (uint32_t)-from->value[1];
    }
    to->running = from->running;
    to->woken = from->wakes;
    for (uint32_t i = 0; i < from->wakes; i++)
        to->wakes[i] = from->wake[i].task;
    if (from->wakes > 0)
        to->why = from->wake[0].status;
    if (!from->shows)
        return;
    memcpy(to->message, from->message.byte, MESSAGE_BYTES);
    if (from->wakes > 0) {
        to->delivers = 1;
        to->length = from->message.length;
    }
}

/* Lengths are compared as 32 bits, and no message has so many bytes. */
static struct lent lent_message(const uint8_t *message, size_t length)
{
    return (struct lent){ message, length > MESSAGE_BYTES ? MESSAGE_BYTES
                                                          : (uint32_t)length };
}

uint32_t second_step(uint8_t *image, size_t image_len, const uint8_t *message,
                     size_t message_len, dryswennol_answer *answer,
                     uint32_t call, uint32_t mark, uint32_t a, uint32_t b,
                     uint32_t c, uint32_t d, uint32_t e)
{
    const uint32_t arg[ARGUMENTS] = { a, b, c, d, e };
    const struct lent lent = lent_message(message, message_len);
    struct kernel k;
    struct answer found;

    if (image_take(&k, image, image_len) != OK) {
        memset(answer, 0, sizeof *answer);
        return answer->status = BAD_IMAGE;
    }
    kernel_step(&k, call, mark, arg, &lent, &found);
    if (found.status <= PENDING)
        image_put(&k, image);
    second_answer(answer, &found);
    return found.status;
}

/* "record, status, four values, running, wakes", and "a delivery reads
 * `task:0:length`". Of wakes there are no more than places. */
static void put_line(struct writer *w, uint32_t number,
                     const dryswennol_answer *a)
{
    put_number(w, number);
    put_field(w, a->status);
    for (int i = 0; i < VALUES; i++) {
        put_text(w, i == 1 && a->negative ? " -" : " ");
        put_number(w, a->values[i]);
    }
    put_field(w, a->running);
    for (uint32_t i = 0; i < a->woken && i < TASKS; i++) {
        put_field(w, a->wakes[i]);
        put_sign(w, ':');
        put_number(w, a->why);
    }
    if (a->delivers) {
        put_sign(w, ':');
        put_number(w, a->length);
    }
    put_sign(w, '\n');
}

uint32_t second_line(uint32_t number, const dryswennol_answer *answer,
                     uint8_t *out, size_t out_len, size_t *length)
{
    char line[DRYSWENNOL_LINE_BYTES];
    struct writer w = { .out = line, .room = sizeof line };

    put_line(&w, number, answer);
    *length = w.length;
    if (w.length > out_len)
        return NO_ROOM;
    memcpy(out, line, w.length);
    return OK;
}

uint32_t second_listing(const uint8_t *script, size_t script_len, uint8_t *out,
                        size_t out_len, size_t *length)
{
    char none[1];

    *length = script_listing(script, script_len, 1, none, 0);
    if (*length > out_len)
        return NO_ROOM;
    script_listing(script, script_len, 1, (char *)out, out_len);
    return OK;
}
