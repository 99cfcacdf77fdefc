/* duties.c: what demand 3 leaves to the drawing program (docs/DUTIES.md, whose numbers these are). Each list keeps all premises but
 * one. The library does every call of it, as document 01 says, and memory is not the flat picture afterwards. */
#include "phases.h"

#include <stdio.h>
#include <stdlib.h>
#include <string.h>

#include "draw.h"
#include "flat.h"
#include "pair.h"
#include "panel.h"

enum { PAGES = 2, LONGEST = 10, ALL_KEPT = LONGEST };

/* What is no call: a fresh chip, the block as it was behind the second call, a byte of memory changed directly. */
enum { RESET = 100, OLDER_STATE, POKE };

/* clang-format off */
#define OPEN(page) {PANEL_ACCESS_PAGE, 0, page, 0, 0, 0}
#define CLOSE {PANEL_PRECHARGE, 0, 0, 0, 0, 0}
#define LOAD(slot) {PANEL_READ_BLOCK, 0, 6, slot, 0, 0}
#define DRAW(slot, data) {PANEL_STATEFUL_WRITE, slot, 0, PANEL_ALL_BYTES, PANEL_PASS_IN, data}
#define BACK(slot) {PANEL_MASKED_WRITE, 0, 6, slot, 0, 0}
#define UNMASKED(slot) {PANEL_UNMASKED_WRITE, 0, 6, slot, 0, 0}
#define PLANES(mask) {PANEL_WRITE_REGISTER, PANEL_PLANE_MASK, 0, 0, 0, mask}
#define SHOW {PANEL_VIDEO_TRANSFER, 0, 8, 0, 0, 0}
#define CLOCK {PANEL_VIDEO_CLOCK, 0, 0, 0, 0, 0}
/* clang-format on */

enum { MARK_PLANES = 0x40404040, SERVER_PLANES = 0x3F3F3F3F, MARK = 0x40404040, INK = 0x21212121 };

static const struct duty {
    const char *name;
    int breaks; /* which call of the list does, counted from 0 */
    struct call calls[LONGEST];
} duties[] = {
    {"none broken",
     ALL_KEPT,
     {OPEN(0), LOAD(0), PLANES(MARK_PLANES), DRAW(0, MARK), SHOW, CLOCK, BACK(0), PLANES(SERVER_PLANES), DRAW(0, INK),
      UNMASKED(0)}}, /* the display's calls break no premise, while bytes wait too */
    {"D-02 a slot that stands for none", 1, {OPEN(0), DRAW(0, INK), BACK(0)}},
    {"D-03 two slots for one block",
     2,
     {OPEN(0), LOAD(0), LOAD(1), PLANES(MARK_PLANES), DRAW(1, MARK), BACK(1), PLANES(SERVER_PLANES), DRAW(0, INK),
      UNMASKED(0)}},
    {"D-04 a load over waiting bytes", 3, {OPEN(0), LOAD(0), DRAW(0, INK), LOAD(0), BACK(0)}},
    {"D-05 a write-back to another block", 3, {OPEN(0), LOAD(0), DRAW(0, INK), {PANEL_MASKED_WRITE, 0, 7, 0, 0, 0}}},
    {"D-06 another mask while bytes wait", 3, {OPEN(0), LOAD(0), DRAW(0, INK), PLANES(MARK_PLANES), BACK(0)}},
    {"D-07 a stateless write under a mask",
     3,
     {OPEN(0), LOAD(0), PLANES(SERVER_PLANES), {PANEL_STATELESS_WRITE, 0, 0, PANEL_ALL_BYTES, 0, MARK | INK}, BACK(0)}},
    {"D-08 a reset", 3, {OPEN(0), LOAD(0), DRAW(0, INK), {RESET, 0, 0, 0, 0, 0}, OPEN(0), BACK(0)}},
    {"D-09 an older state", 3, {OPEN(0), LOAD(0), DRAW(0, INK), {OLDER_STATE, 0, 0, 0, 0, 0}, BACK(0)}},
    {"D-10 memory changed directly", 3, {OPEN(0), LOAD(0), DRAW(0, INK), {POKE, 0, 0, 0, 0, 0}, BACK(0)}},
    {"D-11 an initial write",
     3,
     {OPEN(0), LOAD(0), DRAW(0, INK), {PANEL_STATEFUL_INITIAL, 0, 1, PANEL_ALL_BYTES, PANEL_PASS_IN, INK}, BACK(0)}},
    {"D-12 a tag write", 3, {OPEN(0), LOAD(0), DRAW(0, INK), {PANEL_REPLACE_TAG, 0, 0, 0, 0, 0}, BACK(0)}},
    {"D-13 a duplicate of a page that a slot stands for",
     3,
     {OPEN(0), LOAD(0), DRAW(0, INK), {PANEL_DUPLICATE_PAGE, 0, 1, 0, 0, 0}, CLOSE, OPEN(0), BACK(0)}},
    {"D-14 bytes that wait", ALL_KEPT, {OPEN(0), LOAD(0), DRAW(0, INK)}},
};

static void expect(const struct pair *pair, const struct call *call, const char *fact, bool found, bool expected)
{
    if (found != expected)
        wrong_at(pair, call, fact, found, expected);
}

static void no_call(struct pair *pair, uint32_t what, const uint8_t *older)
{
    switch (what) {
    case RESET: pair_fresh(pair, MODEL_STATE, PAGES); break;
    case OLDER_STATE: pair_state(pair, older); break;
    default: pair->library.memory[0] ^= 0xFF; pair->model.memory[0] ^= 0xFF;
    }
}

/* The call on the flat picture: an initial write draws as a normal one, and a slot that stands for none has no place there. */
static void flat_step(struct flat *flat, struct call call, const uint8_t *memory)
{
    bool initial = call.op == PANEL_STATELESS_INITIAL || call.op == PANEL_STATEFUL_INITIAL;
    call.op += initial;
    if (call.op == PANEL_STATEFUL_WRITE && !flat->stands[call.a].any)
        return;
    flat_call(flat, &call, memory);
}

static void step(struct pair *pair, struct flat *flat, const struct duty *duty, int i)
{
    const struct call *call = &duty->calls[i];
    if (i <= duty->breaks)
        expect(pair, call, "whether the call keeps the premises", flat_keeps(flat, call), i != duty->breaks);
    expect(pair, call, "whether the call is done", panel_number(pair_call(pair, call)) == PANEL_DONE, true);
    flat_step(flat, *call, pair->library.memory);
}

static void try_duty(struct pair *pair, const struct duty *duty, uint8_t *picture)
{
    struct source from = source_of(6);
    struct flat flat;
    uint8_t older[MODEL_STATE];
    draw_bytes(&from, picture, pair->memory_len);
    flat_start(&flat, picture, PAGES);
    pair_start(pair, flat.state, picture);
    for (int i = 0; i < LONGEST && duty->calls[i].op != 0; i++) {
        if (i == 2)
            memcpy(older, pair->model.state, sizeof older);
        if (duty->calls[i].op >= RESET)
            no_call(pair, duty->calls[i].op, older);
        else
            step(pair, &flat, duty, i);
    }
    expect(pair, NULL, duty->name, memcmp(pair->library.memory, picture, pair->memory_len) == 0, duty == duties);
}

void try_duties(void)
{
    struct pair pair;
    pair_make(&pair, PAGES);
    uint8_t *picture = need(pair.memory_len);
    for (size_t i = 0; i < sizeof duties / sizeof *duties; i++)
        try_duty(&pair, &duties[i], picture);
    free(picture);
    pair_free(&pair);
}
