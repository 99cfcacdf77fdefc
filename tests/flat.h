/* flat.h: the flat picture of demand 3 and its premises (document 01, last section; document 02, T-01 and T-02, for the
 * display and for a data write's value, which is by the model's merge).
 * The flat picture is the whole memory under the same pixel rule, without slots or tags: a data call acts on the blocks that
 * its slots stand for, a duplicate copies the page, loads and write-backs change nothing. Video bytes are read from memory, not
 * from the picture: as it stood at the last done transfer into their buffer, and as 0 before one. */
#ifndef FLAT_H
#define FLAT_H

#include "model.h"

/* What a slot stands for. */
struct standing {
    bool any;
    uint32_t bank, page, block;
};

/* What a video buffer took last: where that scan line lies in memory, and its bytes as they stood then; 0 before one. */
struct shown {
    bool any;
    size_t at;
    uint8_t line[MODEL_LINE];
};

struct flat {
    uint8_t state[MODEL_STATE]; /* registers, flags, open pages, video counter and select; the rest of it is never used */
    uint8_t *picture;
    size_t picture_len;
    struct standing stands[8];
    uint32_t waiting[8]; /* bytes that wait for a write-back, in the tag's order */
    struct shown shown[2];
    unsigned long clocks; /* video clocks done */
};

/* Starts from a fresh chip of so many pages over this picture; the caller owns the bytes. */
void flat_start(struct flat *flat, uint8_t *picture, uint32_t pages);

/* Whether the call keeps the premises here. A refused call breaks none. */
bool flat_keeps(const struct flat *flat, const struct call *call);

/* The call on the flat picture: its answer, but for write-backs, whose value the picture does not know and gives as 0. memory is
 * the chip's, as lent: a video transfer reads it, and nothing else does. */
uint64_t flat_call(struct flat *flat, const struct call *call, const uint8_t *memory);

bool flat_waits(const struct flat *flat);

#endif
