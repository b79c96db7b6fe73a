/*
 * How many bytes of stack the library takes: each function runs on a stack that was painted, and what is no longer paint was used.
 * Plays the script on standard input, call by call and whole, and prints a line for each function: its name and the most that it took.
 * Link it with -z now: else the linker's own work at the first call of memcpy counts too.
 */
#include <stdio.h>
#include <stdlib.h>
#include <string.h>
#include <ucontext.h>

#include "dryswennol.h"

enum { STACK = 262144, PAINT = 0xa5, LONGEST = 65536, RECORD = 28 };

static uint8_t stack[STACK], image[DRYSWENNOL_IMAGE_BYTES], script[LONGEST + 1], *lines;
static size_t script_length, length;
static uint16_t cells[512];
static uint32_t record[7];
static dryswennol_answer answer;
static ucontext_t outside, inside;

/* A script's numbers are little-endian, as this machine's are. */
static uint32_t number(size_t at) {
    uint32_t n;
    memcpy(&n, script + at, sizeof n);
    return n;
}

static void nothing(void) {}
static void fresh(void) { dryswennol_fresh(number(8), image, sizeof image); }
static void step(void) {
    dryswennol_step(image, sizeof image, (const uint8_t *)(record + 4), 12, &answer, record[0], record[1], record[2], record[3], record[4],
        record[5], record[6]);
}
static void line(void) { dryswennol_line(1, &answer, lines, 1000, &length); }
static void measured(void) { dryswennol_listing(script, script_length, lines, 0, &length); }
static void listing(void) { dryswennol_listing(script, script_length, lines, length, &length); }
static void grid(void) { dryswennol_grid(script, script_length, cells, 512); }

static size_t used(void (*function)(void)) {
    size_t free = 0;
    memset(stack, PAINT, STACK);
    getcontext(&inside);
    inside.uc_stack.ss_sp = stack;
    inside.uc_stack.ss_size = STACK;
    inside.uc_link = &outside;
    makecontext(&inside, function, 0);
    swapcontext(&outside, &inside);
    while (free < STACK && stack[free] == PAINT) free++;
    return STACK - free;
}

static size_t larger(size_t most, size_t now) { return now > most ? now : most; }

int main(void) {
    size_t steps = 0, written = 0, most, base = used(nothing), at;
    script_length = fread(script, 1, sizeof script, stdin);
    lines = malloc(793 * (size_t)(LONGEST / RECORD));
    if (lines == NULL) return 2;
    printf("fresh %zu\n", used(fresh) - base);
    for (at = number(4); at + RECORD <= script_length && at < number(4) + (size_t)RECORD * number(0); at += RECORD) {
        memcpy(record, script + at, RECORD);
        steps = larger(steps, used(step) - base);
        written = larger(written, used(line) - base);
    }
    most = used(measured) - base;
    printf("step %zu\nline %zu\nlisting %zu\ngrid %zu\n", steps, written, larger(most, used(listing) - base), used(grid) - base);
    return 0;
}
