/* surface.c: a drawing surface on the chip; see surface.h. */
#include "surface.h"

#include <stdio.h>
#include <stdlib.h>
#include <string.h>

static const size_t memory_len = PANEL_MEMORY_BYTES(SURFACE_PAGES);

/* ---- Checked answers ---- */

uint32_t done(uint64_t answer, const char *what)
{
    if (panel_number(answer) != PANEL_DONE) {
        fprintf(stderr, "%s was refused: %s (%u)\n", what, panel_number_text(panel_number(answer)), panel_number(answer));
        exit(1);
    }
    return panel_value(answer);
}

uint32_t surface_call(struct surface *surface, uint32_t op, uint32_t a, uint32_t b, uint32_t c, uint32_t d, uint32_t data,
                      const char *what)
{
    return done(panel_call(surface->state, sizeof surface->state, surface->memory, memory_len, op, a, b, c, d, data), what);
}

/* ---- Start and end ---- */

void surface_start(struct surface *surface)
{
    memset(surface, 0, sizeof *surface);
    surface->memory = calloc(memory_len, 1);
    if (surface->memory == NULL) {
        fprintf(stderr, "no room for the memory\n");
        exit(1);
    }
    done(panel_fresh(surface->state, sizeof surface->state, SURFACE_PAGES), "a fresh chip");
    done(panel_columns(surface->columns, sizeof surface->columns), "the column table");
}

void surface_end(struct surface *surface) { free(surface->memory); }

/* ---- Pages and blocks ---- */

void surface_open(struct surface *surface, uint32_t bank, uint32_t page)
{
    uint32_t open = panel_open_page(surface->state, bank);
    if (open == page)
        return;
    if (open != PANEL_CLOSED)
        surface_call(surface, PANEL_PRECHARGE, bank, 0, 0, 0, 0, "precharge");
    surface_call(surface, PANEL_ACCESS_PAGE, bank, page, 0, 0, 0, "access page");
    surface->counts.pages_opened++;
}

/* Only bytes that were written since the load are tagged, and only bits under the plane mask change: nothing that another
 * program has put beside them is lost. */
static void write_back(struct surface *surface, uint32_t slot)
{
    uint32_t bank = surface->slot[slot].bank, block = surface->slot[slot].block;
    if (!surface->slot[slot].waiting)
        return;
    surface_open(surface, bank, surface->slot[slot].page);
    surface->counts.bytes_written_back += surface_call(surface, PANEL_MASKED_WRITE, bank, block, slot, 0, 0, "write-back");
    surface->counts.blocks_written_back++;
    surface->slot[slot].waiting = false;
}

static void load(struct surface *surface, uint32_t slot, uint32_t bank, uint32_t page, uint32_t block)
{
    write_back(surface, slot);
    surface_open(surface, bank, page);
    surface_call(surface, PANEL_READ_BLOCK, bank, block, slot, 0, 0, "load");
    surface->counts.blocks_loaded++;
    surface->slot[slot].loaded = true;
    surface->slot[slot].bank = bank;
    surface->slot[slot].page = page;
    surface->slot[slot].block = block;
}

/* The slot that stands for this block; where none does, the slots are given up in turn. No two ever stand for one block. */
static uint32_t slot_for(struct surface *surface, uint32_t bank, uint32_t page, uint32_t block)
{
    for (uint32_t slot = 0; slot < SURFACE_SLOTS; slot++)
        if (surface->slot[slot].loaded && surface->slot[slot].bank == bank && surface->slot[slot].page == page &&
            surface->slot[slot].block == block)
            return slot;
    uint32_t slot = surface->next;
    surface->next = (slot + 1) % SURFACE_SLOTS;
    load(surface, slot, bank, page, block);
    return slot;
}

void surface_settle(struct surface *surface)
{
    for (uint32_t slot = 0; slot < SURFACE_SLOTS; slot++) {
        write_back(surface, slot);
        surface->slot[slot].loaded = false;
    }
    for (uint32_t bank = 0; bank < PANEL_BANKS; bank++)
        surface_call(surface, PANEL_PRECHARGE, bank, 0, 0, 0, 0, "precharge");
}

void surface_planes(struct surface *surface, uint8_t planes)
{
    surface_settle(surface);
    surface_call(surface, PANEL_WRITE_REGISTER, PANEL_PLANE_MASK, 0, 0, 0, planes * UINT32_C(0x01010101), "plane mask");
}

/* ---- Drawing ---- */

/* How many bytes of a word these are, bit n for byte n. */
static unsigned bytes_in(uint32_t bytes)
{
    unsigned count = 0;
    for (int n = 0; n < 4; n++)
        count += bytes >> n & 1;
    return count;
}

/* Four pixels, x being a multiple of 4: the pixels from `from` up to `until` of them take the colour. The write's value says
 * which of them changed: a program that paints a window of its own needs to paint only these again. */
static void write_word(struct surface *surface, uint32_t x, uint32_t y, uint32_t from, uint32_t until, uint8_t colour)
{
    uint32_t entry = panel_table_entry(surface->columns, x);
    uint32_t bank = 2 * (y % 32 / 16) + panel_column_side(entry), page = 8 * (y / 32) + panel_column_group(entry);
    uint32_t line = y % 16, column = panel_column_column(entry);
    uint32_t slot = slot_for(surface, bank, page, panel_block_at(line, column));
    uint32_t enables = (PANEL_ALL_BYTES << from) & (PANEL_ALL_BYTES >> (4 - until));
    uint32_t changed = surface_call(surface, PANEL_STATEFUL_WRITE, slot, panel_word_at(line, column), enables, PANEL_PASS_IN,
                                    colour * UINT32_C(0x01010101), "data write");
    surface->slot[slot].waiting = true;
    surface->counts.words_written++;
    surface->counts.bytes_drawn += bytes_in(enables);
    surface->counts.bytes_changed += bytes_in(changed);
}

/* A part of the screen: from left up to right, from top down to bottom, the last two not in it. */
struct part {
    uint32_t left, top, right, bottom;
};

static uint32_t clip(int value, int limit) { return (uint32_t)(value < 0 ? 0 : value > limit ? limit : value); }

/* What of the part lies in the block at (x, y): at most four lines of two words. */
static void fill_block(struct surface *surface, const struct part *part, uint32_t x, uint32_t y, uint8_t colour)
{
    for (uint32_t line = y < part->top ? part->top : y; line < y + 4 && line < part->bottom; line++)
        for (uint32_t word = x; word < x + 8; word += 4) {
            uint32_t from = part->left > word ? part->left - word : 0;
            uint32_t until = part->right < word + 4 ? part->right - word : 4;
            if (part->left < word + 4 && part->right > word)
                write_word(surface, word, line, from, until, colour);
        }
}

/* Block by block, so that each is loaded once. */
void surface_fill(struct surface *surface, int x, int y, int width, int height, uint8_t colour)
{
    struct part part = {clip(x, PANEL_SCREEN_WIDTH), clip(y, PANEL_SCREEN_HEIGHT), clip(x + width, PANEL_SCREEN_WIDTH),
                        clip(y + height, PANEL_SCREEN_HEIGHT)};
    for (uint32_t down = part.top / 4 * 4; down < part.bottom; down += 4)
        for (uint32_t across = part.left / 8 * 8; across < part.right; across += 8)
            fill_block(surface, &part, across, down, colour);
}
