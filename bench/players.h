/* The two players, as functions of one form, and the clock. */
#ifndef PLAYERS_H
#define PLAYERS_H

#include <stddef.h>
#include <stdint.h>

/* More than the 793 bytes a record that the proved player asks for where it
 * is to write in one pass, for the most records that a script can have. */
enum { LISTING_ROOM = 2340 * 793 + 64 };

/* Plays a script, writes its listing and gives the listing's length. */
typedef size_t player(const uint8_t *script, size_t length, uint8_t *out,
                      size_t room);

/* dryswennol_listing; 0 where its status is not as the length says. */
player proved_player;

/* The second program, which trusts its state here, as the proved one may. */
player second_player;

/* Nanoseconds of this process's own time. */
uint64_t time_used(void);

/* Prints the times of both players for scripts of several lengths. */
void times_print(void);

#endif
