/*
 * The statuses of each call row, against those seen.
 *
 * "A row says who may call and which statuses can come back". Status 26
 * needs a broken state, which no script makes; 11, 13 and 30 go to woken
 * tasks only.
 */
#include "coverage.h"

#include <inttypes.h>
#include <stdio.h>
#include <string.h>

#define B(status) (UINT64_C(1) << (status))

static const struct {
    const char *name;
    uint64_t row;
    uint64_t wakes;
    bool delivers;
} rows[] = { TABLE_ROWS { "unknown call", B(STATUS_BAD_CALL), 0, false } };

_Static_assert(sizeof rows / sizeof rows[0] == CALL_ROWS,
               "picture.h names the calls of tools/calls.tsv");

/* The statuses of a row that a script can show. */
static uint64_t shown(int call)
{
    return rows[call].row & ~B(STATUS_BAD_STATE);
}

struct reader {
    const char *at;
    const char *end;
};

/* Reads a number, which may have a sign. "no leading zeros" */
static bool read_number(struct reader *r, int64_t *number)
{
    bool negative = r->at < r->end && *r->at == '-';
    const char *first;

    r->at += negative;
    first = r->at;
    *number = 0;
    for (; r->at < r->end && *r->at >= '0' && *r->at <= '9'; r->at++)
        *number = *number * 10 + (*r->at - '0');
    if (r->at == first || r->at - first > 10)
        return false;
    if (*first == '0' && (negative || r->at - first > 1))
        return false;
    if (negative)
        *number = -*number;
    return true;
}

static bool read_sign(struct reader *r, char sign)
{
    if (r->at == r->end || *r->at != sign)
        return false;
    r->at++;
    return true;
}

/* "wakes are `task:status` in order", and "a delivery reads
 * `task:0:length`". */
static bool read_wake(struct reader *r, struct coverage *c, uint32_t call)
{
    int64_t task, status, length;

    if (!read_number(r, &task) || !read_sign(r, ':')
        || !read_number(r, &status) || status < 0 || status >= STATUSES)
        return false;
    c->told[call][status]++;
    if (!rows[call].delivers)
        return true;
    if (status != 0 || !read_sign(r, ':') || !read_number(r, &length)
        || length < 0)
        return false;
    c->deliveries++;
    if (length > c->longest_delivery)
        c->longest_delivery = (uint32_t)length;
    return true;
}

static bool read_wakes(struct reader *r, struct coverage *c, uint32_t call)
{
    uint32_t wakes = 0;

    for (; read_sign(r, ' '); wakes++) {
        if (!read_wake(r, c, call))
            return false;
    }
    if (rows[call].delivers && wakes > 1)
        return false;
    c->wakes += wakes;
    c->lines_with_wakes += wakes > 0;
    if (wakes > c->most_wakes)
        c->most_wakes = wakes;
    return read_sign(r, '\n');
}

/* What an info of a queue or a receive answers. */
static void note_queue(struct coverage *c, uint32_t call,
                       const int64_t field[NUMBERS])
{
    if (call == QUEUE_INFO && field[3] > c->most_held)
        c->most_held = (uint32_t)field[3];
    if (call == QUEUE_INFO && field[4] > c->most_receiving)
        c->most_receiving = (uint32_t)field[4];
    if (call == QUEUE_RECEIVE && field[2] > c->longest_received)
        c->longest_received = (uint32_t)field[2];
}

/* Record, status, four values, running, wakes. */
static bool read_line(struct reader *r, struct coverage *c, uint32_t record,
                      uint32_t call)
{
    const char *start = r->at;
    int64_t field[NUMBERS];

    for (int i = 0; i < NUMBERS; i++) {
        if ((i > 0 && !read_sign(r, ' ')) || !read_number(r, &field[i]))
            return false;
    }
    if (field[0] != record || field[1] < 0 || field[1] >= STATUSES)
        return false;
    c->given[call][field[1]]++;
    c->lines_without_runner += field[6] == 0;
    if (call == SEM_INFO && field[4] > c->most_waiting)
        c->most_waiting = (uint32_t)field[4];
    note_queue(c, call, field);
    if (!read_wakes(r, c, call))
        return false;
    if ((size_t)(r->at - start) > c->longest_line)
        c->longest_line = (size_t)(r->at - start);
    return true;
}

static uint32_t number_at(const uint8_t *bytes)
{
    return (uint32_t)bytes[0] | (uint32_t)bytes[1] << 8
         | (uint32_t)bytes[2] << 16 | (uint32_t)bytes[3] << 24;
}

bool coverage_add(struct coverage *c, const struct script *s,
                  const char *listing, size_t length)
{
    static const char refusal[] = "script refused\n";
    struct reader r = { listing, listing + length };
    uint32_t records;
    const uint8_t *bytes;

    if (length == sizeof refusal - 1 && memcmp(listing, refusal, length) == 0) {
        c->refused++;
        return true;
    }
    if (s->length < 16)
        return false;
    records = number_at(s->bytes);
    bytes = s->bytes + number_at(s->bytes + 4);
    for (uint32_t i = 0; i < records; i++, bytes += 28) {
        uint32_t call = number_at(bytes);

        if (!read_line(&r, c, i + 1, call < CALLS ? call : UNKNOWN_CALL))
            return false;
    }
    c->records += records;
    return r.at == r.end;
}

static void print_counts(const uint64_t *count, uint64_t row, const char *what,
                         int *missing, int *outside)
{
    for (int status = 0; status < STATUSES; status++) {
        bool expected = (row & B(status)) != 0;

        if (count[status] == 0 && !expected)
            continue;
        printf(" %s%d:%" PRIu64, what, status, count[status]);
        if (!expected)
            printf("(OUTSIDE)");
        *missing += expected && count[status] == 0;
        *outside += !expected;
    }
}

int coverage_print(const struct coverage *c)
{
    int missing = 0, outside = 0, all = 0;

    printf("answers, by call and status; w: wakes of that status\n");
    for (int call = 0; call < CALL_ROWS; call++) {
        printf("  %-17s", rows[call].name);
        print_counts(c->given[call], shown(call), "", &missing, &outside);
        print_counts(c->told[call], rows[call].wakes, "w", &missing,
                     &outside);
        printf("\n");
        all += __builtin_popcountll(shown(call))
             + __builtin_popcountll(rows[call].wakes);
    }
    printf("rows: %d of %d statuses seen, %d seen outside a row\n",
           all - missing, all, outside);
    printf("lines with wakes %" PRIu64 ", wakes %" PRIu64
           ", most in a line %u; most tasks waiting %u\n",
           c->lines_with_wakes, c->wakes, c->most_wakes, c->most_waiting);
    printf("deliveries %" PRIu64 ", longest %u bytes; longest received at once "
           "%u; most held %u, most receiving %u\n", c->deliveries,
           c->longest_delivery, c->longest_received, c->most_held,
           c->most_receiving);
    printf("lines where nothing runs %" PRIu64 "; longest line %zu bytes\n",
           c->lines_without_runner, c->longest_line);
    return outside;
}
