/*
 * The rules of what queues are and hold. Who waits in them is asked with the
 * other wait queues, in rules.c.
 *
 * "a queue with waiters holds nothing, any other only what sends can leave"
 */
#include <string.h>

#include "calls.h"
#include "identifiers.h"

static const struct message no_message;
static const struct queue no_queue;

static bool message_is_zero(const struct message *m)
{
    return memcmp(m, &no_message, sizeof *m) == 0;
}

/* "A slot without a live object holds ... otherwise zeros". A queue is bytes
 * alone, so nothing lies between its fields. */
static bool slots_without_a_queue_hold_zeros(const struct kernel *k)
{
    uint32_t left = all_slots(QUEUES) & ~k->queue_table.live;

    for (; left != 0; left &= left - 1) {
        if (memcmp(&k->queue[lowest_slot(left)], &no_queue, sizeof no_queue))
            return false;
    }
    return true;
}

/* One that creation admits. */
static bool queue_is_admitted(const struct queue *q)
{
    return !queue_room_is_bad(q->most, q->longest)
        && !options_are_bad(q->options) && q->first < MESSAGES;
}

/* What a send can leave in a place: no more than the queue's longest, and
 * "bytes past it are 0". */
static bool message_was_sent(const struct queue *q, const struct message *m)
{
    return m->length <= q->longest
        && memcmp(m->byte + m->length, no_message.byte,
                  (size_t)(MESSAGE_BYTES - m->length)) == 0;
}

/* As many as sends can leave, and unused places are zeros. */
static bool messages_were_sent(const struct queue *q)
{
    for (uint32_t before = 0; before < MESSAGES; before++) {
        const struct message *m =
            &q->message[(q->first + before) % MESSAGES];

        if (before < q->held ? !message_was_sent(q, m) : !message_is_zero(m))
            return false;
    }
    return q->held <= q->most;
}

static bool queue_with_waiters_holds_nothing(const struct queue *q)
{
    return q->waiters.first == 0 || q->held == 0;
}

bool queues_keep_their_rules(const struct kernel *k)
{
    for (uint32_t left = k->queue_table.live; left != 0; left &= left - 1) {
        const struct queue *q = &k->queue[lowest_slot(left)];

        if (!queue_is_admitted(q) || !messages_were_sent(q)
            || !queue_with_waiters_holds_nothing(q))
            return false;
    }
    return slots_without_a_queue_hold_zeros(k);
}
