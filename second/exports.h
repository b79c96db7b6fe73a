/*
 * The functions of include/dryswennol.h over this program, under names of
 * its own: what the header says of each holds of it too.
 *
 * "Export fresh, step and listing as C functions on numbers and byte slices;
 * step changes the image in place, and a refused step leaves it."
 */
#ifndef EXPORTS_H
#define EXPORTS_H

#include "dryswennol.h"

uint32_t second_fresh(uint32_t priority, uint8_t *image, size_t image_len);

uint32_t second_step(uint8_t *image, size_t image_len, const uint8_t *message,
                     size_t message_len, dryswennol_answer *answer,
                     uint32_t call, uint32_t mark, uint32_t a, uint32_t b,
                     uint32_t c, uint32_t d, uint32_t e);

struct answer;

/* An answer of this program as C is given it. */
void second_answer(dryswennol_answer *to, const struct answer *from);

uint32_t second_line(uint32_t number, const dryswennol_answer *answer,
                     uint8_t *out, size_t out_len, size_t *length);

uint32_t second_listing(const uint8_t *script, size_t script_len, uint8_t *out,
                        size_t out_len, size_t *length);

#endif
