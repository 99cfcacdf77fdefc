/* surface.h: a drawing surface on the chip. It shows the routine of every drawing program: open the page, load the block,
 * write words in the slot under a plane mask, write the slot back, close the page. Written to be copied. */
#ifndef SURFACE_H
#define SURFACE_H

#include <stdbool.h>

#include "panel.h"

enum { SURFACE_PAGES = 257, SURFACE_SLOTS = 6 }; /* slots 6 and 7 are left to the program */

/* What was done, to be told. */
struct counts {
    unsigned long pages_opened, blocks_loaded, words_written, blocks_written_back, bytes_written_back;
    unsigned long bytes_drawn, bytes_changed;
};

struct surface {
    uint8_t state[PANEL_STATE_BYTES];
    uint8_t *memory;
    uint8_t columns[PANEL_COLUMNS_BYTES]; /* the column table, filled once */
    struct {
        bool loaded, waiting; /* waiting: bytes were written that memory does not have yet */
        uint32_t bank, page, block;
    } slot[SURFACE_SLOTS];
    uint32_t next; /* the slot that is given up next */
    struct counts counts;
};

/* Ends the program unless the answer is done: what was asked for, and the refusal by name. Gives the answer's value. */
uint32_t done(uint64_t answer, const char *what);

/* A fresh chip over zero memory. */
void surface_start(struct surface *surface);
void surface_end(struct surface *surface);

/* One call of the chip, checked. */
uint32_t surface_call(struct surface *surface, uint32_t op, uint32_t a, uint32_t b, uint32_t c, uint32_t d, uint32_t data,
                      const char *what);

/* Opens the page, closing the one that the bank has open. */
void surface_open(struct surface *surface, uint32_t bank, uint32_t page);

/* From now on drawing changes these bits of a pixel and no others. What waits is written back first: its bits are the old
 * mask's. */
void surface_planes(struct surface *surface, uint8_t planes);

/* Draws a filled rectangle, clipped to the screen. */
void surface_fill(struct surface *surface, int x, int y, int width, int height, uint8_t colour);

/* Writes back all that waits and closes all pages: memory is the picture now. */
void surface_settle(struct surface *surface);

#endif
