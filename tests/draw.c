/* draw.c: random numbers, state blocks and calls; see draw.h. */
#include "draw.h"

#include <string.h>

/* ---- Numbers ---- */

/* Seeds that are near each other must not give sequences that are: a few rounds of mixing first. */
struct source source_of(uint64_t seed)
{
    struct source from = {(seed + 1) * UINT64_C(0x9E3779B97F4A7C15)};
    if (from.x == 0)
        from.x = 1;
    for (int i = 0; i < 8; i++)
        draw32(&from);
    return from;
}

uint32_t draw32(struct source *from)
{
    from->x ^= from->x >> 12;
    from->x ^= from->x << 25;
    from->x ^= from->x >> 27;
    return (uint32_t)(from->x * UINT64_C(0x2545F4914F6CDD1D) >> 32);
}

uint32_t below(struct source *from, uint32_t limit) { return (uint32_t)((uint64_t)draw32(from) * limit >> 32); }

bool one_in(struct source *from, uint32_t n) { return below(from, n) == 0; }

void draw_bytes(struct source *from, uint8_t *bytes, size_t len)
{
    for (size_t i = 0; i < len; i++)
        bytes[i] = (uint8_t)draw32(from);
}

#define PICK(from, list) ((list)[below((from), (uint32_t)(sizeof(list) / sizeof *(list)))])

/* Words of the kind that masks and tests meet: single bits, ends of the range, signs. */
static uint32_t draw_word(struct source *from)
{
    static const uint32_t ends[] = {0, 1, 0xFFFFFFFF, 0x80000000, 0x7FFFFFFF, 0xFF00FF00, 0x0000FFFF, 0x01010101};
    switch (below(from, 4)) {
    case 0: return PICK(from, ends);
    case 1: return (uint32_t)1 << below(from, 32);
    case 2: return draw32(from) & draw32(from);
    default: return draw32(from);
    }
}

/* Few pages, so that calls meet again: the first, the last, any. */
static uint32_t draw_page(struct source *from, uint32_t pages)
{
    switch (below(from, 4)) {
    case 0: return 0;
    case 1: return pages - 1;
    case 2: return pages / 2;
    default: return below(from, pages);
    }
}

static uint32_t draw_block(struct source *from)
{
    static const uint32_t blocks[] = {0, 6, 39};
    return one_in(from, 2) ? PICK(from, blocks) : below(from, 40);
}

/* A bank, most often one that is closed, or open, as the operation needs. */
static uint32_t draw_bank(struct source *from, const uint8_t *state, bool closed)
{
    uint32_t bank = below(from, 4);
    for (int tries = 0; tries < 3 && (model_open_page(state, bank) == MODEL_CLOSED) != closed; tries++)
        bank = below(from, 4);
    return bank;
}

/* ---- State blocks ---- */

uint32_t draw_register(struct source *from, const uint8_t *state, uint32_t number, bool spoiled)
{
    uint32_t value = draw_word(from);
    if (number == 1 && one_in(from, 2))
        return 0xFFFFFFFF;
    if (number == 5 || number == 6)
        value = draw32(from);
    if (number == 6 && one_in(from, 2))
        value &= 0x0F030407; /* match always, or hardly a write would be enabled */
    if (number == 6 && one_in(from, 2))
        value &= 0x0F030700; /* magnitude always */
    if (number == 2 && one_in(from, 2))
        value = model_word(state, below(from, 8), below(from, 8));
    return spoiled ? value : value & model_allowed(number);
}

void draw_state(struct source *from, uint8_t *state, uint32_t pages)
{
    /* where the counter's bytes carry, and where it ends */
    static const uint32_t carries[] = {0x100, 0x10000, 0x01000000, 0x80000000, 0, 0};
    model_fresh(state, MODEL_STATE, pages);
    for (uint32_t bank = 0; bank < 4; bank++)
        if (!one_in(from, 3))
            put16(state + 16 + 2 * bank, draw_page(from, pages));
    draw_bytes(from, state + 60, 508 - 60); /* tags, pixels and video buffers */
    for (uint32_t number = 1; number <= 7; number++)
        put32(state + 24 + 4 * (number - 1),
              draw_register(from, state, number, false) & (number == 6 ? 0x00030707 : 0xFFFFFFFF));
    put32(state + 52, below(from, 4));
    put32(state + 56, one_in(from, 2) ? draw32(from) : PICK(from, carries) - 1 - below(from, 64));
    put16(state + 508, below(from, MODEL_CLOCKS));
    put16(state + 510, below(from, 2));
}

/* ---- Calls ---- */

/* NEW near to OLD, so that every compare code passes at times and fails at times. */
static uint32_t draw_data(struct source *from, uint32_t old, uint32_t constant)
{
    switch (below(from, 6)) {
    case 0: return old;
    case 1: return old ^ (uint32_t)1 << below(from, 32);
    case 2: return old + 1 - 2 * below(from, 2);
    case 3: return constant;
    default: return draw_word(from);
    }
}

static struct call draw_write(struct source *from, const uint8_t *state, uint32_t op)
{
    uint32_t slot = below(from, 8), word = below(from, 8);
    uint32_t enables = one_in(from, 2) ? 15 : below(from, 16), pass_in = one_in(from, 8) ? below(from, 4) : 3;
    uint32_t data = draw_data(from, model_word(state, slot, word), model_register(state, 2));
    return (struct call){op, slot, word, enables, pass_in, data};
}

struct call draw_operation(struct source *from, const uint8_t *state, uint32_t op)
{
    uint32_t number = 1 + below(from, 7);
    switch (op) {
    case 1:
    case 3: return (struct call){op, draw_bank(from, state, op == 1), draw_page(from, model_pages(state)), 0, 0, 0};
    case 2: return (struct call){op, below(from, 4), 0, 0, 0, 0};
    case 4:
    case 5:
    case 6: return (struct call){op, draw_bank(from, state, false), draw_block(from), below(from, 8), 0, 0};
    case 7: return (struct call){op, below(from, 8), below(from, 8), 0, 0, 0};
    case 8:
    case 9:
    case 10:
    case 11: return draw_write(from, state, op);
    case 12:
    case 13: return (struct call){op, below(from, 8), 0, 0, 0, draw_word(from)};
    case 14: return (struct call){op, number, 0, 0, 0, draw_register(from, state, number, one_in(from, 8))};
    case 15: return (struct call){op, number, 0, 0, 0, 0};
    case 16: return (struct call){op, draw_bank(from, state, false), below(from, 16), 0, 0, 0};
    default: return (struct call){op, 0, 0, 0, 0, 0};
    }
}

/* A value that is out of range, or at its edge, or in range only if its upper bits were dropped. */
static uint32_t spoil_value(struct source *from, uint32_t value, uint32_t pages)
{
    static const uint32_t edges[] = {1, 3, 4, 7, 8, 15, 16, 39, 40, 255, 256, 257, 65535, 65536, 0x80000000, 0xFFFFFFFF};
    static const uint32_t uppers[] = {0x100, 0x10000, 0x01000000, 0x80000000};
    switch (below(from, 4)) {
    case 0: return value | PICK(from, uppers);
    case 1: return pages - 1 + below(from, 3);
    case 2: return PICK(from, edges);
    default: return draw32(from);
    }
}

static void spoil(struct source *from, struct call *call, uint32_t pages)
{
    static const uint32_t ops[] = {0, MODEL_OPERATIONS + 1, MODEL_OPERATIONS + 2, 99, 255};
    switch (below(from, 6)) {
    case 0: call->op = one_in(from, 2) ? PICK(from, ops) : spoil_value(from, call->op, pages); break;
    case 1: call->a = spoil_value(from, call->a, pages); break;
    case 2: call->b = spoil_value(from, call->b, pages); break;
    case 3: call->c = spoil_value(from, call->c, pages); break;
    case 4: call->d = spoil_value(from, call->d, pages); break;
    default: call->data = spoil_value(from, call->data, pages); break;
    }
}

struct call draw_call(struct source *from, const uint8_t *state)
{
    static const uint8_t often[] = {1,  1,  2,  2,  3,  3,  4,  4,  4,  5,  5,  5,  6,  6,  7,  7,  8,  9,  9,  10, 10,
                                    11, 11, 11, 11, 11, 11, 11, 12, 13, 14, 14, 14, 14, 14, 15, 16, 16, 17, 17, 17, 17};
    struct call call = draw_operation(from, state, PICK(from, often));
    if (one_in(from, 8))
        spoil(from, &call, model_pages(state));
    if (one_in(from, 64))
        spoil(from, &call, model_pages(state));
    return call;
}

/* ---- Calls that keep demand 3's premises ---- */

struct call draw_back(struct source *from, const struct flat *flat, uint32_t slot)
{
    const struct standing *s = &flat->stands[slot];
    uint32_t page = model_open_page(flat->state, s->bank);
    if (page == s->page)
        return (struct call){5 + below(from, 2), s->bank, s->block, slot, 0, 0};
    if (page != MODEL_CLOSED)
        return (struct call){2, s->bank, 0, 0, 0, 0};
    return (struct call){1, s->bank, s->page, 0, 0, 0};
}

/* A data write whose data is near to the word that it meets in the picture, aimed at a standing slot by its address bits. */
static struct call propose_write(struct source *from, const struct flat *flat)
{
    struct call call = draw_write(from, flat->state, one_in(from, 6) ? 9 : 11);
    const struct standing *s = &flat->stands[call.a];
    if (s->any) {
        size_t at = model_page_at(flat->state, s->bank, s->page) + model_byte_in_page(s->block, 4 * call.b);
        call.data = draw_data(from, get32(flat->picture + at), model_register(flat->state, 2));
    }
    return call;
}

static struct call propose(struct source *from, const struct flat *flat)
{
    static const uint8_t others[] = {1, 1, 2, 3, 3, 4, 4, 4, 4, 4, 14, 14, 14, 14, 15};
    switch (below(from, 18)) {
    case 0: {
        uint32_t slot = below(from, 8);
        return draw_back(from, flat, flat->stands[slot].any ? slot : 0);
    }
    case 1:
    case 2:
    case 3:
    case 4: return draw_operation(from, flat->state, PICK(from, others));
    case 5: return draw_operation(from, flat->state, 7);
    case 6: {
        struct call call = draw_call(from, flat->state);
        if (one_in(from, 4))
            spoil(from, &call, model_pages(flat->state));
        return call;
    }
    case 7:
    case 8: return draw_operation(from, flat->state, one_in(from, 4) ? 16 : 17);
    default: return propose_write(from, flat);
    }
}

struct call draw_kept(struct source *from, const struct flat *flat)
{
    struct call call = propose(from, flat);
    while (!flat_keeps(flat, &call))
        call = propose(from, flat);
    return call;
}
