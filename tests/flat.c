/* flat.c: the flat picture of demand 3 and its premises. */
#include "flat.h"

#include <string.h>

void flat_start(struct flat *flat, uint8_t *picture, uint32_t pages)
{
    memset(flat, 0, sizeof *flat);
    model_fresh(flat->state, sizeof flat->state, pages);
    flat->picture = picture;
    flat->picture_len = model_memory_bytes(pages);
}

bool flat_waits(const struct flat *flat)
{
    for (uint32_t slot = 0; slot < 8; slot++)
        if (flat->waiting[slot] != 0)
            return true;
    return false;
}

static bool refuses(const struct flat *flat, const struct call *call)
{
    return model_number(flat->state, sizeof flat->state, flat->picture_len, call) != 0;
}

/* ---- The premises ---- */

static bool page_stands(const struct flat *flat, uint32_t bank, uint32_t page)
{
    for (uint32_t slot = 0; slot < 8; slot++)
        if (flat->stands[slot].any && flat->stands[slot].bank == bank && flat->stands[slot].page == page)
            return true;
    return false;
}

/* Whether the slot stands for this block of the bank's open page. */
static bool stands_for(const struct flat *flat, uint32_t slot, uint32_t bank, uint32_t block)
{
    const struct standing *s = &flat->stands[slot];
    return s->any && s->bank == bank && s->page == model_open_page(flat->state, bank) && s->block == block;
}

/* A slot with bytes waiting is not loaded, and no two slots stand for one block. */
static bool load_keeps(const struct flat *flat, uint32_t bank, uint32_t block, uint32_t slot)
{
    for (uint32_t other = 0; other < 8; other++)
        if (other != slot && stands_for(flat, other, bank, block))
            return false;
    return flat->waiting[slot] == 0;
}

/* Data calls read and write only standing slots. Where the destination is, the pixel rule says, whatever OLD is. */
static bool write_keeps(const struct flat *flat, const struct call *call)
{
    return flat->stands[call->a].any && flat->stands[model_draw(flat->state, call, 0).slot].any;
}

bool flat_keeps(const struct flat *flat, const struct call *call)
{
    uint32_t mask = model_register(flat->state, 1);
    if (refuses(flat, call))
        return true;
    switch (call->op) {
    case 3: /* a page is duplicated only when no slot stands for a block of either page */
        return !page_stands(flat, call->a, call->b) && !page_stands(flat, call->a, model_open_page(flat->state, call->a));
    case 4: return load_keeps(flat, call->a, call->b, call->c);
    case 5:
    case 6: /* write-backs go to the slot's own block */ return stands_for(flat, call->c, call->a, call->b);
    case 7: return flat->stands[call->a].any;
    case 9: /* stateless writes need a mask of all ones */ return mask == 0xFFFFFFFF && write_keeps(flat, call);
    case 11: return write_keeps(flat, call);
    case 8:
    case 10:
    case 12:
    case 13: /* no initial writes or tag writes */ return false;
    case 14: /* the plane mask changes only when no bytes wait */
        return call->a != 1 || call->data == mask || !flat_waits(flat);
    default: return true;
    }
}

/* ---- The calls ---- */

/* The word that (slot, word) stands for. A word's four bytes lie side by side in their line. */
static uint8_t *word_of(const struct flat *flat, uint32_t slot, uint32_t word)
{
    const struct standing *s = &flat->stands[slot];
    return flat->picture + model_page_at(flat->state, s->bank, s->page) + model_byte_in_page(s->block, 4 * word);
}

static uint64_t flat_write(struct flat *flat, const struct call *call)
{
    struct drawn drawn = model_draw(flat->state, call, get32(word_of(flat, call->a, call->b)));
    uint32_t changed = model_merge(word_of(flat, drawn.slot, drawn.word), &drawn);
    if (drawn.enabled)
        flat->waiting[drawn.slot] |= call->c << 4 * drawn.word;
    if (drawn.enabled && call->op == 11 && model_picking(flat->state))
        model_set_hit(flat->state, true);
    return (uint64_t)drawn.enabled << 33 | (uint64_t)drawn.pass << 32 | changed;
}

static void flat_transfer(struct flat *flat, const struct call *call, const uint8_t *memory)
{
    struct shown *shown = &flat->shown[call->a % 2];
    shown->any = true;
    shown->at = model_page_at(flat->state, call->a, model_open_page(flat->state, call->a)) + MODEL_LINE * call->b;
    memcpy(shown->line, memory + shown->at, MODEL_LINE);
}

/* Forty clocks put out a line, two bytes each, and the next forty are the other buffer's. */
static uint64_t flat_clock(struct flat *flat)
{
    const uint8_t *line = flat->shown[flat->clocks / MODEL_CLOCKS % 2].line;
    return get16(line + 2 * (flat->clocks++ % MODEL_CLOCKS));
}

/* What touches no slot: the model does it, on the picture. */
static uint64_t by_model(struct flat *flat, const struct call *call)
{
    return model_call(flat->state, sizeof flat->state, flat->picture, flat->picture_len, call->op, call->a, call->b, call->c,
                      call->d, call->data);
}

uint64_t flat_call(struct flat *flat, const struct call *call, const uint8_t *memory)
{
    uint32_t number = model_number(flat->state, sizeof flat->state, flat->picture_len, call);
    if (number != 0)
        return (uint64_t)number << 40;
    switch (call->op) {
    case 4: flat->stands[call->c] = (struct standing){true, call->a, model_open_page(flat->state, call->a), call->b}; return 0;
    case 5:
    case 6: flat->waiting[call->c] = 0; return 0;
    case 7: return get32(word_of(flat, call->a, call->b));
    case 9:
    case 11: return flat_write(flat, call);
    case 16: flat_transfer(flat, call, memory); return 0;
    case 17: by_model(flat, call); return flat_clock(flat); /* the model counts; what is put out is ours */
    default: /* access, precharge, duplicate, registers */ return by_model(flat, call);
    }
}
