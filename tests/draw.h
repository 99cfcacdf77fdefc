/* draw.h: random numbers, state blocks and calls. */
#ifndef DRAW_H
#define DRAW_H

#include "flat.h"
#include "model.h"

/* An xorshift generator: the same seed gives the same numbers on every machine. */
struct source {
    uint64_t x;
};

struct source source_of(uint64_t seed);
uint32_t draw32(struct source *from);
uint32_t below(struct source *from, uint32_t limit);
bool one_in(struct source *from, uint32_t n);
void draw_bytes(struct source *from, uint8_t *bytes, size_t len);

/* A well-formed block of so many pages, whether calls could have led to it or not. */
void draw_state(struct source *from, uint8_t *state, uint32_t pages);

/* A call for a chip in this state. Most are done; one in eight has some part of it spoiled. */
struct call draw_call(struct source *from, const uint8_t *state);

/* A call with operands in range for this operation, 1 to MODEL_OPERATIONS. */
struct call draw_operation(struct source *from, const uint8_t *state, uint32_t op);

/* A call that keeps demand 3's premises. */
struct call draw_kept(struct source *from, const struct flat *flat);

/* The next call on the way to writing this slot back. */
struct call draw_back(struct source *from, const struct flat *flat, uint32_t slot);

/* A value for a register; bits that it does not have only where spoiled. */
uint32_t draw_register(struct source *from, const uint8_t *state, uint32_t number, bool spoiled);

#endif
