/*
 * The proved functions of libexports.a (`tools/prove exports_c`), for C and C++ on x86-64.
 *
 * A slice is a pointer and then its length. No pointer is NULL, even where its length is 0, and nothing that a function
 * writes overlaps anything else that it is lent. No byte outside what is lent is read or written. Image, message, script and
 * text may lie at any address; an answer, a length and cells lie as C puts them.
 *
 * Nothing is kept between calls: no heap, no static data. So two threads may call at once, each with memory of its own, and a call
 * may interrupt another. No function needs 32 KiB of stack. The library needs nothing but `memcpy`, `memmove` and `memset`.
 */
#ifndef DRYSWENNOL_H
#define DRYSWENNOL_H

#include <stddef.h>
#include <stdint.h>

#ifdef __cplusplus
extern "C" {
#endif

/* Some statuses; docs/CALLS.md has them all. Of a step any but OK and PENDING is a refusal, which changes nothing. */
enum {
    DRYSWENNOL_OK = 0,
    DRYSWENNOL_PENDING = 1,           /* the caller now waits */
    DRYSWENNOL_INVALID_PRIORITY = 19,
    DRYSWENNOL_BAD_CALL = 25,         /* unknown call or caller mark, or a tick with mark 0 */
    DRYSWENNOL_NO_ROOM = 31,          /* the lent room is too short: nothing is written there */
    DRYSWENNOL_BAD_IMAGE = 32         /* the bytes are no image */
};

enum {
    /* ( Printed by tools/generate/run: c_size */
    DRYSWENNOL_IMAGE_BYTES = 9920, /* of an image of edition 1 (docs/IMAGE.md) */
    /* ) */
    DRYSWENNOL_LINE_BYTES = 793    /* no line of an answer is longer, its newline with it */
};

/* What a step answers: 236 bytes, nothing between the fields. */
typedef struct dryswennol_answer {
    uint32_t status;
    uint32_t values[4];
    uint32_t negative;   /* 1 where values[1] stands for minus that number: sem_info's count */
    uint32_t running;    /* the identifier of the task that runs now, 0 if none */
    uint32_t woken;      /* how many tasks were woken */
    uint32_t why;        /* the status that all of them are woken with; says nothing where none is */
    uint32_t delivers;   /* 1 where the one woken is given a message .. */
    uint32_t length;     /* .. of so many bytes */
    uint32_t wakes[32];  /* the woken ones' identifiers, in order, and zeros behind them */
    uint8_t message[64]; /* the one delivered, or received at once (then of values[0] bytes), and zeros behind it */
} dryswennol_answer;

/*
 * A fresh state: one task, 64, started, of this priority.
 *
 * Gives 31 where image_len is less than DRYSWENNOL_IMAGE_BYTES, and writes nothing. Else its image is written to so many bytes, and those behind
 * are as they were. Then it gives 0; or 19 where the priority is above 15, and the image is that of priority 0.
 */
uint32_t dryswennol_fresh(uint32_t priority, uint8_t *image, size_t image_len);

/*
 * One call, on the state whose image this is: docs/CALLS.md names the calls and their arguments a to e. Mark 0 is the running task, 1 an
 * interrupt. Send and jump take as many bytes of `message` as their length says, and answer 27 where fewer are lent; no other call
 * looks at it. Gives the status, and in `answer` all of the answer, whose every byte is set.
 *
 * Gives 32 where the first DRYSWENNOL_IMAGE_BYTES are not the image of a state that keeps the rules, or where there are fewer: the answer is
 * that status and zeros. A refused step, this one too, leaves every byte of the image. After any other it is the image of the
 * state after the call. Bytes behind the image are as they were.
 */
uint32_t dryswennol_step(uint8_t *image, size_t image_len, const uint8_t *message, size_t message_len, dryswennol_answer *answer,
    uint32_t call, uint32_t mark, uint32_t a, uint32_t b, uint32_t c, uint32_t d, uint32_t e);

/*
 * The listing's line of an answer, with the number that it is to have, for an answer of any bytes: `negative` and `delivers` are a yes
 * unless 0, and where `woken` is above 32 it is read as 32.
 *
 * *length is the line's length, whatever out_len is. Gives 0 where it fits: the line is at the start of `out`, the bytes behind it are
 * as they were. Gives 31 where it does not: no byte of `out` is changed.
 */
uint32_t dryswennol_line(uint32_t number, const dryswennol_answer *answer, uint8_t *out, size_t out_len, size_t *length);

/*
 * The listing of a script, for any bytes; where they are no script it is the one line `script refused`. It is the lines of the answers
 * that steps from the fresh state give.
 *
 * *length is the listing's length, whatever out_len is. Gives 0 where it fits: the listing is at the start of `out`, the bytes behind it
 * are as they were. Gives 31 where it does not: no byte of `out` is changed; lend *length bytes and call again.
 * Where out_len is less than 793 bytes a record, the records are played twice: to measure, and to write.
 */
uint32_t dryswennol_listing(const uint8_t *script, size_t script_len, uint8_t *out, size_t out_len, size_t *length);

/*
 * The grant grid after a script, cleared before its first record: how often each task slot was granted each semaphore slot,
 * stopping at 65,535, between the latest objects of the two slots.
 *
 * Answers 512 where the bytes are a script and cells_len is at least 512: then cells[16 * task + semaphore], for the 32 task
 * slots and the 16 semaphore slots, is that number, and the cells from cells[512] on are as they were.
 * Answers 0 in any other case, and no cell is changed.
 */
size_t dryswennol_grid(const uint8_t *script, size_t script_len, uint16_t *cells, size_t cells_len);

#ifdef __cplusplus
}
#define DRYSWENNOL_HOLDS static_assert
#else
#define DRYSWENNOL_HOLDS _Static_assert
#endif

DRYSWENNOL_HOLDS(sizeof(dryswennol_answer) == 236, "an answer has 236 bytes");
DRYSWENNOL_HOLDS(offsetof(dryswennol_answer, wakes) == 44, "eleven numbers, then the woken");
DRYSWENNOL_HOLDS(offsetof(dryswennol_answer, message) == 172, "then the message");

#undef DRYSWENNOL_HOLDS

#endif
