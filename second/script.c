/*
 * The script player.
 *
 * "The whole listing (record, status, four values, running, wakes) ...
 * Records count from 1; one space between fields, a newline after each line,
 * no leading zeros; sem_info's count is signed ...; wakes are `task:status`
 * in order. A listing without records is empty." And M-100: "a delivery reads
 * `task:0:length`".
 */
#include "script.h"

#include <string.h>

#include "grid.h"
#include "identifiers.h"
#include "kernel.h"
#include "text.h"

struct header {
    uint32_t records;
    uint32_t offset;
    uint32_t priority;
};

static void put_answer(struct writer *w, uint32_t record,
                       const struct answer *a)
{
    put_number(w, record);
    put_field(w, a->status);
    for (int i = 0; i < VALUES; i++)
        put_field(w, a->value[i]);
    put_field(w, a->running);
    for (uint32_t i = 0; i < a->wakes; i++) {
        put_field(w, a->wake[i].task);
        put_sign(w, ':');
        put_number(w, a->wake[i].status);
        if (a->shows) {
            put_sign(w, ':');
            put_number(w, a->message.length);
        }
    }
    put_sign(w, '\n');
}

static uint32_t number_at(const uint8_t *bytes)
{
    return (uint32_t)bytes[0] | (uint32_t)bytes[1] << 8
         | (uint32_t)bytes[2] << 16 | (uint32_t)bytes[3] << 24;
}

/* "Refused with the one line `script refused`: too long, shorter than 16,
 * offset below 16, offset + 28 × count above the script's length, priority
 * above 15, fourth number not zero." */
static bool header_is_admitted(const uint8_t *script, size_t length,
                               struct header *h)
{
    if (length > MOST_SCRIPT || length < HEADER_BYTES)
        return false;
    h->records = number_at(script);
    h->offset = number_at(script + 4);
    h->priority = number_at(script + 8);
    return h->offset >= HEADER_BYTES
        && h->offset + RECORD_BYTES * (uint64_t)h->records <= length
        && h->priority < PRIORITIES
        && number_at(script + 12) == 0;
}

/* "In a script the three arguments left are the first 12 bytes, the rest
 * zeros". */
static void message_of(const uint8_t *record, uint8_t *message)
{
    memset(message, 0, MESSAGE_BYTES);
    memcpy(message, record + 16, RECORD_BYTES - 16);
}

static void play_record(struct kernel *k, const uint8_t *record, int trust,
                        struct answer *a)
{
    uint32_t call = number_at(record);
    uint32_t mark = number_at(record + 4);
    uint32_t arg[ARGUMENTS];
    uint8_t message[MESSAGE_BYTES];
    const struct lent lent = { message, MESSAGE_BYTES };

    for (int i = 0; i < ARGUMENTS; i++)
        arg[i] = number_at(record + 8 + 4 * i);
    message_of(record, message);
    if (trust)
        kernel_step(k, call, mark, arg, &lent, a);
    else
        kernel_step_checked(k, call, mark, arg, &lent, a);
}

size_t script_listing_between(const uint8_t *script, size_t length, int trust,
                              struct between between, char *out, size_t room)
{
    struct writer w = { .out = out, .room = room };
    struct header h;
    struct kernel k;
    struct answer a;

    if (!header_is_admitted(script, length, &h)) {
        put_text(&w, "script refused\n");
        return w.length;
    }
    kernel_fresh(&k, h.priority);
    for (uint32_t record = 0; record < h.records; record++) {
        const uint8_t *bytes = script + h.offset + RECORD_BYTES * record;

        if (between.does != NULL)
            between.does(&k, between.with);
        play_record(&k, bytes, trust, &a);
        put_answer(&w, record + 1, &a);
    }
    if (between.does != NULL)
        between.does(&k, between.with);
    return w.length;
}

size_t script_listing(const uint8_t *script, size_t length, int trust,
                      char *out, size_t room)
{
    const struct between nothing = { NULL, NULL };

    return script_listing_between(script, length, trust, nothing, out, room);
}

/* A line for each cell that is not 0: the latest task and the latest
 * semaphore of its slots, and the grants. */
static void put_grid(struct writer *w, const struct grid *g,
                     const struct kernel *k)
{
    for (uint32_t task = 0; task < TASKS; task++) {
        for (uint32_t sem = 0; sem < SEMAPHORES; sem++) {
            uint32_t grants = grid_grants(g, k, task, sem);

            if (grants == 0)
                continue;
            put_number(w, identifier(&k->task_table, task));
            put_field(w, identifier(&k->semaphore_table, sem));
            put_field(w, grants);
            put_sign(w, '\n');
        }
    }
}

size_t script_grid(const uint8_t *script, size_t length, int trust, char *out,
                   size_t room)
{
    struct writer w = { .out = out, .room = room };
    struct header h;
    struct kernel k;
    struct answer a = { 0 };
    struct grid g;
    uint32_t caller = SLOT_RANGE; /* "one started task, identifier 64" */

    if (!header_is_admitted(script, length, &h)) {
        put_text(&w, "script refused\n");
        return w.length;
    }
    kernel_fresh(&k, h.priority);
    grid_clear(&g);
    for (uint32_t record = 0; record < h.records; record++) {
        const uint8_t *bytes = script + h.offset + RECORD_BYTES * record;

        play_record(&k, bytes, trust, &a);
        grid_note(&g, &k, number_at(bytes), number_at(bytes + 8), caller, &a);
        caller = a.running;
    }
    put_grid(&w, &g, &k);
    return w.length;
}

/* Bytes as figures of base 16. */
static void put_bytes(struct writer *w, const uint8_t *byte, size_t number)
{
    static const char figure[] = "0123456789abcdef";

    for (; number > 0; number--, byte++) {
        put_sign(w, figure[*byte / 16]);
        put_sign(w, figure[*byte % 16]);
    }
}

size_t script_messages(const uint8_t *script, size_t length, int trust,
                       char *out, size_t room)
{
    struct writer w = { .out = out, .room = room };
    struct header h;
    struct kernel k;
    struct answer a;

    if (!header_is_admitted(script, length, &h)) {
        put_text(&w, "script refused\n");
        return w.length;
    }
    kernel_fresh(&k, h.priority);
    for (uint32_t record = 0; record < h.records; record++) {
        play_record(&k, script + h.offset + RECORD_BYTES * record, trust, &a);
        if (!a.shows)
            continue;
        put_number(&w, record + 1);
        put_field(&w, a.message.length);
        put_sign(&w, ' ');
        put_bytes(&w, a.message.byte, MESSAGE_BYTES);
        put_sign(&w, '\n');
    }
    return w.length;
}
