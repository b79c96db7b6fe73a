/* Both sides of each exported function on images. */
#include "both.h"

#include <stdio.h>
#include <string.h>

#include "exports.h"
#include "image.h"
#include "images.h"

struct both both;

void images_begin(void)
{
    both.image_ground = ground_made(IMAGE + PAST);
    both.message_ground = ground_made(PAST);
    both.answer_ground = ground_made(sizeof(dryswennol_answer));
    both.line_ground = ground_made(DRYSWENNOL_LINE_BYTES);
    both.answer = (dryswennol_answer *)lend_marked(&both.answer_ground,
                                                   sizeof *both.answer);
}

void both_lend_bytes(struct both *b, const uint8_t *bytes, size_t length)
{
    b->image = lend_marked(&b->image_ground, length);
    b->length = length;
    memcpy(b->image, bytes, length);
    memcpy(b->second, bytes, length);
}

void both_lend(struct both *b, size_t length)
{
    static uint64_t turn;
    struct dice d = dice_of(turn++);

    b->image = lend_marked(&b->image_ground, length);
    b->length = length;
    for (size_t i = 0; i < length; i++)
        b->image[i] = b->second[i] = (uint8_t)roll(&d, 256);
}

static bool images_are_one(const struct both *b)
{
    return memcmp(b->image, b->second, b->length) == 0
        && marked_before(b->image);
}

bool both_fresh(struct both *b, uint32_t priority)
{
    kernel_fresh(&b->state, priority);
    return dryswennol_fresh(priority, b->image, b->length)
            == second_fresh(priority, b->second, b->length)
        && images_are_one(b);
}

static void print_answer(const char *who, const dryswennol_answer *a)
{
    printf("  %s: status %u, values %u %u %u %u, negative %u, running %u, "
           "woken %u with %u, delivers %u of %u; woken", who, a->status,
           a->values[0], a->values[1], a->values[2], a->values[3], a->negative,
           a->running, a->woken, a->why, a->delivers, a->length);
    for (int i = 0; i < 32; i++)
        printf(" %u", a->wakes[i]);
    printf("; message ");
    for (int i = 0; i < 64; i++)
        printf("%02x", a->message[i]);
    printf("\n");
}

static void print_call(const struct record *call, const dryswennol_answer *one,
                       const dryswennol_answer *two)
{
    printf("call %u, mark %u, arguments %u %u %u %u %u\n", call->number,
           call->mark, call->arg[0], call->arg[1], call->arg[2], call->arg[3],
           call->arg[4]);
    print_answer("proved", one);
    print_answer("second", two);
}

/* Byte for byte, but for the one number that then says nothing. */
static bool answers_are_one(const dryswennol_answer *proved,
                            const dryswennol_answer *second)
{
    dryswennol_answer one = *proved;

    if (one.woken == 0)
        one.why = second->why;
    return memcmp(&one, second, sizeof one) == 0;
}

/* Of what the two have done. */
static const char *difference(const struct both *b,
                              const dryswennol_answer *second)
{
    if (!answers_are_one(b->answer, second)
        || !marked_before((const uint8_t *)b->answer))
        return "the answers differ";
    if (!images_are_one(b))
        return "the images differ";
    if (second->status > DRYSWENNOL_PENDING
        && memcmp(b->image, b->before, b->length) != 0)
        return "a refused step changes the image";
    return NULL;
}

/* The proved step, held to what the second program has done. */
static const char *compared(struct both *b, const struct record *call,
                            const uint8_t *message, size_t length,
                            const dryswennol_answer *second)
{
    uint8_t *lent = lend_marked(&b->message_ground, length);
    const uint32_t *arg = call->arg;
    const char *found;
    uint32_t status;

    memcpy(lent, message, length);
    memcpy(b->before, b->image, b->length);
    status = dryswennol_step(b->image, b->length, lent, length, b->answer,
                             call->number, call->mark, arg[0], arg[1], arg[2],
                             arg[3], arg[4]);
    found = difference(b, second);
    if (status != second->status)
        found = "the statuses given differ";
    if (memcmp(lent, message, length) != 0 || !marked_before(lent))
        found = "the message is changed";
    if (found != NULL)
        print_call(call, b->answer, second);
    return found;
}

const char *both_step(struct both *b, const struct record *call,
                      const uint8_t *message, size_t length)
{
    const struct lent lent = { message, (uint32_t)length };
    dryswennol_answer second;
    struct answer a;

    kernel_step(&b->state, call->number, call->mark, call->arg, &lent, &a);
    second_answer(&second, &a);
    if (a.status <= PENDING)
        image_put(&b->state, b->second);
    return compared(b, call, message, length, &second);
}

const char *both_step_bytes(struct both *b, const struct record *call,
                            const uint8_t *message, size_t length)
{
    const uint32_t *arg = call->arg;
    dryswennol_answer second;

    if (second_step(b->second, b->length, message, length, &second,
                    call->number, call->mark, arg[0], arg[1], arg[2], arg[3],
                    arg[4]) != second.status)
        return "the second program gives another status than it answers";
    return compared(b, call, message, length, &second);
}

bool both_line(struct both *b, uint32_t number, size_t room)
{
    uint8_t line[DRYSWENNOL_LINE_BYTES];
    size_t length;
    uint32_t one, two = second_line(number, b->answer, line, room, &length);
    bool fits = two == DRYSWENNOL_OK;

    b->line = lend_marked(&b->line_ground, room);
    one = dryswennol_line(number, b->answer, b->line, room, &b->line_length);
    return one == two && b->line_length == length && marked_before(b->line)
        && (!fits || memcmp(b->line, line, length) == 0)
        && still_marked(&b->line_ground, b->line + (fits ? length : 0));
}
