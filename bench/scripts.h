/*
 * Scripts from seeds: a seed has one script.
 *
 * "A script is at most 65,536 bytes, of little-endian 32-bit numbers: count
 * of records, offset of the first, priority of the first task, zero; then
 * records of seven".
 */
#ifndef SCRIPTS_H
#define SCRIPTS_H

#include <stdbool.h>
#include <stddef.h>
#include <stdint.h>

#include "dice.h"

enum {
    MOST_BYTES = 65536,
    MOST_RECORDS = 2340,
    SCRIPT_ROOM = 70000 /* so that there are scripts that are too long */
};

struct script {
    uint64_t seed;
    const char *profile;
    bool damaged;
    size_t length;
    uint8_t bytes[SCRIPT_ROOM];
};

/* How many profiles there are. */
uint32_t script_profiles(void);

/* Of so many seeds in a row each profile has one, and the others are damaged
 * scripts. */
uint32_t script_turns(void);

/* The script of a seed, of any length, damaged or not as its profile says. */
void script_make(struct script *s, uint64_t seed);

/* A script of exactly so many records, at most 2,340, and no other bytes. The
 * seeds take the profiles in turn, and none is damaged. */
void script_make_whole(struct script *s, uint64_t seed, uint32_t records);

/* Ten records again and again, each time with the same work: a semaphore and
 * a pool are made, used and deleted. */
void script_make_steady(struct script *s, uint32_t records);

/* Spoils a good script, or now and then leaves it good in another form. */
void script_damage(struct script *s, struct dice *d);

#endif
