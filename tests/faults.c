/* faults.c: a stand-in for the library that makes one mistake, to see which tests from outside find it (scripts/faults). It is
 * the model under the library's names; the environment's FAULT is the number of the mistake, and 0 or none is no mistake. Each
 * is made at one point alone: one size, one address, one slot, one page, one value of the counter. */
#include <stdlib.h>
#include <string.h>

#include "model.h"
#include "panel.h"

enum fault {
    NO_FAULT,
    SIZE_256_BACK,      /* P = 256: a masked write-back leaves out the block's last byte */
    SIZE_255_ACCESS,    /* P = 255: the last page cannot be opened */
    SIZE_100_DUPLICATE, /* P = 100: a duplicate leaves out the page's last byte */
    SIZE_77_FRESH,      /* P = 77: a fresh chip with another raster code */
    SIZE_130_POINT,     /* P = 130: points of the last page give 8 */
    SIZE_201_LINE,      /* P = 201: scan lines of bank 1 start a line late */
    SIZE_256_COUNT,     /* P = 256: the count of a write-back to page 128 of bank 1 is wrong */
    MEMORY_ODD,         /* memory at an odd address: a masked write-back leaves out the block's last byte */
    MEMORY_13,          /* memory at 13 past a multiple of 16: a load takes byte 30 for byte 31 */
    STATE_6,            /* state at 6 past a multiple of 16: reading a register is not counted */
    TABLE_ODD,          /* column table at an odd address: its last byte is left out */
    BOTH_9_AND_4,       /* memory at 9 and state at 4: a masked write-back of slot 3 leaves out the block's last byte */
    SLOT_5,             /* slot 5: a masked write-back takes no mask */
    SLOT_6_INITIAL,     /* slot 6, word 2, enables 5: a stateless initial write tags byte 3 too */
    PAGE_200,           /* page 200 of bank 2, P = 257: a masked write-back goes to page 201 */
    BANK_3,             /* bank 3: a duplicate of page 0 over the last page copies nothing */
    COUNTER_END,        /* counter FFFFFFFFh stays */
    COUNTER_24_BITS,    /* counter 00FFFFFFh becomes 0 */
    COUNTER_31_BITS,    /* counter 7FFFFFFFh becomes 0 */
    TAG_ALL,            /* tag FFFFFFFFh: an unmasked write-back counts 31 */
    MASK_BIT_31,        /* plane mask 80000000h is stored as 0 */
    TO_SLOT_7_WORD_7,   /* write address control 1, slot 7, word 7: byte 3 is not tagged */
    REFUSED_OR_TAG,     /* an OR tag refused with 4 is counted */
    LAST_LINE,          /* scan line 15 of page 256 of bank 3 starts at 0 */
    LAST_POINT,         /* point (1279, 1023), P = 256: 8 */
    HIT_WITHOUT_BYTES,  /* a stateful write with no byte enabled sets no hit */
    BEHIND_MEMORY,      /* an unmasked write-back of the last block changes the byte behind memory */
    VIDEO_MODULO_80,    /* the video counter counts modulo 80 */
    SELECT_EACH_CLOCK,  /* the video select toggles at each clock */
    BUFFER_DIV_2,       /* a transfer goes to video buffer bank div 2 */
    BYTES_SWAPPED,      /* a clock puts the lower column in bits 15:8 */
    LINE_FOLLOWS,       /* a write-back shows in a scan line that was transferred before it */
    TEN_BEFORE_SEVEN,   /* a transfer on a closed bank gives 10 where its buffer is in use */
    FREE_AT_39,         /* video counter 39: a transfer into the selected buffer is done */
    USED_AT_0,          /* video counter 0, bank 3: a transfer into the selected buffer gives 10 */
    TEN_COUNTED,        /* a transfer refused with 10 is counted */
    COUNTER_40_TAKEN,   /* a stored video counter of 40 is taken */
    SELECT_256_TAKEN,   /* a stored select of 256 is taken for scan lines */
    OLD_BLOCK_TAKEN,    /* a block of 348 bytes is taken */
    SIZE_193_TRANSFER,  /* P = 193: a transfer from bank 2 takes line 14 for line 15 */
    LAST_VIDEO_BYTE,    /* page 256 of bank 3: a transfer of line 15 leaves out the last byte */
    STATE_11_CLOCK,     /* state at 11 past a multiple of 16: the last clock of buffer 1 puts out one byte */
    TOLD_OF_SOURCE,     /* a data write's value says where its destination differs from the source, not from what it was */
    TOLD_ENABLED,       /* a data write's value is its byte enables where it is written */
    TOLD_TURNED,        /* a data write's value has byte 0 in bit 3 and byte 3 in bit 0 */
    TOLD_UNMASKED,      /* a data write's value is of the merge before the plane mask */
    TOLD_STATEFUL,      /* a stateless write has value 0 */
    TOLD_NORMAL,        /* an initial write has value 0 */
    TOLD_7_BITS,        /* a byte that changes in bit 7 alone is not in the value */
    TOLD_NOT_ENABLED,   /* a write that is not enabled has its byte enables as value */
    TOLD_TAGGED,        /* a write that tags bytes and changes none has them as value */
    TOLD_WHOLE_WORD,    /* a data write's value is 15 where any byte changed */
    TOLD_REFUSED,       /* a data write refused with 4 has a value */
    TOLD_C3_TO_C2,      /* byte 3 from C3h to C2h is not in the value */
    TOLD_IN_7_7,        /* write address control 1, slot 7, word 7: the value is 0 */
    BACK_WHOLE_WORDS,   /* a write-back skips a word one of whose four tag bits is 0 */
    BACK_LAST_WORD,     /* a write-back always skips the last word */
    BACK_TURNED,        /* a write-back skips a word by the tag bits of the word as far from the other end */
    BACK_ENDS,          /* a write-back ends at the first word whose four tag bits are 0 */
    BACK_ONE_BIT,       /* a write-back skips word 6 where the third of its tag bits alone is 1 */
    BACK_VISITS,        /* a write-back reads and writes words whose four tag bits are 0, and leaves them as they are */
    BACK_VISITS_ONE,    /* a write-back reads word 5 where its four tag bits are 0 */
    BACK_VISITS_INSIDE, /* a write-back reads words whose four tag bits are 0 between words that have some */
    COUNTER_12345678,   /* counter 12345678h stays */
    DATA_12345678,      /* a stateful write of data 12345678h is not counted */
};

static enum fault planted(void)
{
    static int number = -1;
    if (number < 0)
        number = getenv("FAULT") != NULL ? atoi(getenv("FAULT")) : 0;
    return (enum fault)number;
}

enum { PLACES = 16 }; /* addresses are looked at modulo this */
static size_t past(const uint8_t *at) { return (uintptr_t)at % PLACES; }

static bool refused(uint64_t answer) { return panel_number(answer) != PANEL_DONE; }
static const uint64_t no_point = (uint64_t)PANEL_NO_POINT << 40;

uint64_t panel_fresh(uint8_t *state, size_t state_len, uint32_t pages)
{
    uint64_t answer = model_fresh(state, state_len, pages);
    if (planted() == SIZE_77_FRESH && !refused(answer) && pages == 77)
        state[PANEL_AT_REGISTERS + 16] = PANEL_AND_REVERSE;
    return answer;
}

uint64_t panel_point(uint32_t pages, uint32_t x, uint32_t y)
{
    if (planted() == SIZE_130_POINT && pages == 130 && y / 32 * 8 + x / 160 == 129)
        return no_point;
    if (planted() == LAST_POINT && pages == 256 && x == 1279 && y == 1023)
        return no_point;
    return model_point(pages, x, y);
}

uint64_t panel_column(uint32_t x) { return model_column(x); }

uint64_t panel_columns(uint8_t *table, size_t len)
{
    uint8_t last = len == PANEL_COLUMNS_BYTES ? table[len - 1] : 0;
    uint64_t answer = model_columns(table, len);
    if (planted() == TABLE_ODD && !refused(answer) && past(table) % 2 == 1)
        table[len - 1] = last;
    return answer;
}

uint64_t panel_scan_line(const uint8_t *state, size_t state_len, const uint8_t *memory, size_t memory_len, uint32_t bank,
                         uint32_t page, uint32_t line)
{
    uint64_t answer = model_scan_line(state, state_len, memory, memory_len, bank, page, line);
    if (planted() == SELECT_256_TAKEN && state_len == MODEL_STATE && model_video_select(state) == 256)
        return 0;
    if (planted() == SIZE_201_LINE && !refused(answer) && model_pages(state) == 201 && bank == 1)
        return answer + PANEL_LINE_BYTES;
    if (planted() == LAST_LINE && !refused(answer) && bank == 3 && page == 256 && line == 15)
        return 0;
    return answer;
}

/* ---- Calls ---- */

static bool writes_back(const struct call *x) { return x->op == PANEL_MASKED_WRITE || x->op == PANEL_UNMASKED_WRITE; }

/* What the mistakes look at, before a call that is done. */
struct moment {
    uint32_t pages, counter, page, tag;
    bool into_7_7;       /* a stateful write by its data's address, to slot 7 and word 7 */
    bool no_hit;         /* picking is on, hit is clear */
    size_t last;         /* in memory: the last byte of a write-back's block or of a duplicate's page */
    bool may_change;     /* the call may change it; else it is not looked at */
    uint8_t last_before; /* what it held */
};

static struct moment look(const uint8_t *state, const uint8_t *memory, const struct call *x)
{
    struct moment m = {model_pages(state), get32(state + PANEL_AT_COUNTER), PANEL_CLOSED, 0, false, false, 0, false, 0};
    if (x->op >= PANEL_ACCESS_PAGE && x->op <= PANEL_UNMASKED_WRITE)
        m.page = model_open_page(state, x->a);
    if (x->op == PANEL_DUPLICATE_PAGE)
        m.last = model_page_at(state, x->a, x->b) + PANEL_PAGE_BYTES - 1;
    if (writes_back(x)) {
        m.last = model_page_at(state, x->a, m.page) + model_byte_in_page(x->b, 31);
        m.tag = model_tag(state, x->c);
    }
    m.may_change = x->op == PANEL_DUPLICATE_PAGE || m.tag >> 31;
    if (m.may_change)
        m.last_before = memory[m.last];
    m.into_7_7 = (x->op == PANEL_STATEFUL_WRITE || x->op == PANEL_STATEFUL_INITIAL) && model_register(state, 7) == 1 &&
                 (x->data >> 24 & 63) == 63;
    m.no_hit = model_picking(state) && !model_hit(state);
    return m;
}

/* Mistakes that make another call. */
static void turn(struct call *x, uint8_t *state, const struct moment *m)
{
    if (planted() == SLOT_5 && x->op == PANEL_MASKED_WRITE && x->c == 5)
        x->op = PANEL_UNMASKED_WRITE;
    if (planted() == MASK_BIT_31 && x->op == PANEL_WRITE_REGISTER && x->a == PANEL_PLANE_MASK && x->data == 0x80000000)
        x->data = 0;
    if (planted() == PAGE_200 && x->op == PANEL_MASKED_WRITE && x->a == 2 && m->page == 200 && m->pages == 257)
        put16(state + PANEL_AT_BANKS + 4, 201);
}

static void uncounted(uint8_t *state, const struct moment *m) { put32(state + PANEL_AT_COUNTER, m->counter); }

static bool leaves_last_byte(const uint8_t *state, const uint8_t *memory, const struct call *x, const struct moment *m)
{
    switch (planted()) {
    case SIZE_256_BACK: return x->op == PANEL_MASKED_WRITE && m->pages == 256;
    case SIZE_100_DUPLICATE: return x->op == PANEL_DUPLICATE_PAGE && m->pages == 100;
    case MEMORY_ODD: return x->op == PANEL_MASKED_WRITE && past(memory) % 2 == 1;
    case BOTH_9_AND_4: return x->op == PANEL_MASKED_WRITE && past(memory) == 9 && past(state) == 4 && x->c == 3;
    default: return false;
    }
}

/* Mistakes in what a call leaves. */
static void spoil(uint8_t *state, uint8_t *memory, size_t memory_len, const struct call *x, const struct moment *m)
{
    uint8_t *slot = state + PANEL_AT_PIXELS + 32 * x->c;
    bool stateful = x->op == PANEL_STATEFUL_WRITE || x->op == PANEL_STATEFUL_INITIAL;
    if (m->may_change && leaves_last_byte(state, memory, x, m))
        memory[m->last] = m->last_before;
    if (planted() == MEMORY_13 && x->op == PANEL_READ_BLOCK && past(memory) == 13)
        slot[31] = slot[30];
    if (planted() == SLOT_6_INITIAL && x->op == PANEL_STATELESS_INITIAL && x->a == 6 && x->b == 2 && x->c == 5)
        state[PANEL_AT_TAGS + 24 + 1] |= 8;
    if (planted() == PAGE_200 && x->op == PANEL_MASKED_WRITE && x->a == 2 && m->page == 200)
        put16(state + PANEL_AT_BANKS + 4, 200);
    if (planted() == TO_SLOT_7_WORD_7 && m->into_7_7)
        state[PANEL_AT_TAGS + 28 + 3] &= 0x7F;
    if (planted() == HIT_WITHOUT_BYTES && stateful && x->c == 0 && m->no_hit)
        model_set_hit(state, false);
    if (planted() == BEHIND_MEMORY && x->op == PANEL_UNMASKED_WRITE && m->last == memory_len - 1 && m->tag >> 31)
        memory[memory_len] ^= 1;
}

/* Mistakes in the counter. */
static void miscount(uint8_t *state, const struct call *x, const struct moment *m)
{
    if ((planted() == STATE_6 && x->op == PANEL_READ_REGISTER && past(state) == 6) ||
        (planted() == COUNTER_END && m->counter == 0xFFFFFFFF) || (planted() == COUNTER_12345678 && m->counter == 0x12345678) ||
        (planted() == DATA_12345678 && x->op == PANEL_STATEFUL_WRITE && x->data == 0x12345678))
        uncounted(state, m);
    if ((planted() == COUNTER_24_BITS && m->counter == 0x00FFFFFF) ||
        (planted() == COUNTER_31_BITS && m->counter == 0x7FFFFFFF))
        put32(state + PANEL_AT_COUNTER, 0);
}

/* ---- Words that a write-back skips ---- */

static uint32_t four(uint32_t tag, uint32_t word) { return tag >> 4 * word & PANEL_ALL_BYTES; }

static bool skips(uint32_t tag, uint32_t word)
{
    switch (planted()) {
    case BACK_WHOLE_WORDS: return four(tag, word) != PANEL_ALL_BYTES;
    case BACK_LAST_WORD: return word == 7;
    case BACK_TURNED: return four(tag, 7 - word) == 0;
    case BACK_ONE_BIT: return word == 6 && four(tag, word) == 4;
    case BACK_ENDS:
        for (uint32_t before = 0; before < word; before++)
            if (four(tag, before) == 0)
                return true;
        return false;
    default: return false;
    }
}

/* Byte i of the block, whose word has no tag bit: read, or written as it is, by mistake. */
static void visit(volatile uint8_t *byte, uint32_t tag, uint32_t i)
{
    uint32_t bit = i & ~(uint32_t)3;
    bool inside = tag >> bit != 0 && (tag & (((uint32_t)1 << bit) - 1)) != 0;
    if (planted() == BACK_VISITS)
        *byte = *byte;
    if ((planted() == BACK_VISITS_ONE && i / 4 == 5) || (planted() == BACK_VISITS_INSIDE && inside))
        (void)*byte;
}

/* A write-back with mistakes: by a tag without the words that it skips, whose value is the whole tag's. */
static uint64_t back(uint8_t *state, uint8_t *memory, size_t memory_len, const struct call *x, uint32_t tag)
{
    uint8_t *at = state + PANEL_AT_TAGS + 4 * x->c;
    size_t page = model_page_at(state, x->a, model_open_page(state, x->a));
    uint32_t taken = tag;
    uint64_t answer;
    for (uint32_t word = 0; word < 8; word++)
        if (skips(tag, word))
            taken &= ~((uint32_t)PANEL_ALL_BYTES << 4 * word);
    put32(at, taken);
    answer = model_call(state, MODEL_STATE, memory, memory_len, x->op, x->a, x->b, x->c, x->d, x->data);
    put32(at, tag);
    for (uint32_t i = 0; i < 32; i++) {
        volatile uint8_t *byte = memory + page + model_byte_in_page(x->b, i);
        if (four(tag, i / 4) == 0)
            visit(byte, tag, i);
        answer += (tag & ~taken) >> i & 1;
    }
    return answer;
}

/* ---- Which bytes changed ---- */

static uint32_t differing(uint32_t before, uint32_t after, uint32_t bits)
{
    uint32_t bytes = 0;
    for (int n = 0; n < 4; n++)
        bytes |= (uint32_t)(((before ^ after) >> 8 * n & bits) != 0) << n;
    return bytes;
}

static uint32_t turned(uint32_t bytes) { return bytes >> 3 | (bytes >> 1 & 2) | (bytes << 1 & 4) | (bytes << 3 & 8); }

/* As if the plane mask were all ones. */
static uint32_t unmasked(const uint8_t *before, const struct call *x)
{
    uint8_t copy[MODEL_STATE];
    struct drawn drawn;
    memcpy(copy, before, sizeof copy);
    put32(copy + PANEL_AT_REGISTERS, PANEL_PLANE_MASK_FRESH);
    drawn = model_draw(copy, x, model_word(copy, x->a, x->b));
    return model_merge(copy + PANEL_AT_PIXELS + 32 * drawn.slot + 4 * drawn.word, &drawn);
}

/* Mistakes in the value of a data write, which is told; before is the state that it met. */
static uint32_t mistell(const uint8_t *state, const uint8_t *before, const struct call *x, uint64_t answer)
{
    struct drawn to = model_draw(before, x, model_word(before, x->a, x->b));
    uint32_t was = model_word(before, to.slot, to.word), is = model_word(state, to.slot, to.word), told = (uint32_t)answer;
    bool written = panel_written(answer);
    switch (planted()) {
    case TOLD_OF_SOURCE: return written ? differing(model_word(before, x->a, x->b), is, 0xFF) : 0;
    case TOLD_ENABLED: return written ? x->c : 0;
    case TOLD_TURNED: return turned(told);
    case TOLD_UNMASKED: return unmasked(before, x);
    case TOLD_STATEFUL: return x->op <= PANEL_STATELESS_WRITE ? 0 : told;
    case TOLD_NORMAL: return x->op == PANEL_STATELESS_INITIAL || x->op == PANEL_STATEFUL_INITIAL ? 0 : told;
    case TOLD_7_BITS: return differing(was, is, 0x7F);
    case TOLD_NOT_ENABLED: return written ? told : x->c;
    case TOLD_TAGGED: return written && told == 0 ? x->c : told;
    case TOLD_WHOLE_WORD: return told != 0 ? 15 : 0;
    case TOLD_C3_TO_C2: return was >> 24 == 0xC3 && is >> 24 == 0xC2 ? told & 7 : told;
    case TOLD_IN_7_7: return model_register(before, 7) == 1 && to.slot == 7 && to.word == 7 ? 0 : told;
    default: return told;
    }
}

/* ---- Scan-out ---- */

static uint8_t *video_buffer(uint8_t *state, uint32_t number) { return state + PANEL_AT_VIDEO + PANEL_LINE_BYTES * number; }

static void put_line(uint8_t *state, const uint8_t *memory, uint32_t bank, uint32_t line, uint32_t buffer)
{
    size_t page = model_page_at(state, bank, model_open_page(state, bank));
    memcpy(video_buffer(state, buffer), memory + page + PANEL_LINE_BYTES * line, PANEL_LINE_BYTES);
}

/* Mistakes in what a transfer leaves; before is the state that it met. */
static void spoil_transfer(uint8_t *state, const uint8_t *before, const uint8_t *memory, const struct call *x)
{
    if (planted() == BUFFER_DIV_2) {
        memcpy(state + PANEL_AT_VIDEO, before + PANEL_AT_VIDEO, 2 * PANEL_LINE_BYTES);
        put_line(state, memory, x->a, x->b, x->a / 2);
    }
    if (planted() == SIZE_193_TRANSFER && model_pages(state) == 193 && x->a == 2 && x->b == 15)
        put_line(state, memory, 2, 14, 0);
    if (planted() == LAST_VIDEO_BYTE && x->a == 3 && x->b == 15 && model_open_page(state, 3) == 256)
        state[PANEL_AT_VIDEO_COUNTER - 1] = before[PANEL_AT_VIDEO_COUNTER - 1];
}

/* Mistakes of a clock: its answer. */
static uint64_t spoil_clock(uint8_t *state, const uint8_t *before, uint64_t answer)
{
    uint32_t counter = model_video_counter(before), select = model_video_select(before);
    if (planted() == VIDEO_MODULO_80 && counter == 39) {
        put16(state + PANEL_AT_VIDEO_COUNTER, 40);
        put16(state + PANEL_AT_VIDEO_SELECT, select);
    }
    if (planted() == SELECT_EACH_CLOCK)
        put16(state + PANEL_AT_VIDEO_SELECT, 1 - select);
    if (planted() == BYTES_SWAPPED)
        return answer >> 8 | (answer & 0xFF) << 8;
    if (planted() == STATE_11_CLOCK && counter == 39 && select == 1 && past(state) == 11)
        return answer & 0xFF;
    return answer;
}

/* A buffer that follows memory: where its last line came from, and that line again behind a write-back. */
static void follow(uint8_t *state, const uint8_t *memory, const struct call *x)
{
    static struct call last[PANEL_VIDEO_BUFFERS];
    static uint32_t page[PANEL_VIDEO_BUFFERS];
    uint32_t buffer = x->a % 2;
    if (x->op == PANEL_VIDEO_TRANSFER) {
        last[buffer] = *x;
        page[buffer] = model_open_page(state, x->a);
    }
    if (writes_back(x) && last[buffer].op != 0 && last[buffer].a == x->a && page[buffer] == model_open_page(state, x->a))
        put_line(state, memory, x->a, last[buffer].b, buffer);
}

static uint64_t spoil_video(uint8_t *state, const uint8_t *before, const uint8_t *memory, const struct call *x, uint64_t answer)
{
    if (planted() == LINE_FOLLOWS)
        follow(state, memory, x);
    if (x->op == PANEL_VIDEO_TRANSFER)
        spoil_transfer(state, before, memory, x);
    return x->op == PANEL_VIDEO_CLOCK ? spoil_clock(state, before, answer) : answer;
}

/* Mistakes in the number of a video transfer on a well-formed block. */
static uint32_t renumber(const uint8_t *state, const struct call *x, uint32_t number)
{
    uint32_t counter = model_video_counter(state);
    bool selected = x->a % 2 == model_video_select(state);
    if (planted() == TEN_BEFORE_SEVEN && number == PANEL_BANK_CLOSED && selected && counter != 0)
        return PANEL_BUFFER_IN_USE;
    if (planted() == USED_AT_0 && number == PANEL_DONE && selected && counter == 0 && x->a == 3)
        return PANEL_BUFFER_IN_USE;
    return number;
}

/* Whether a block that must be refused is taken by mistake: the parts before the video buffers, with fresh ones behind. */
static bool is_taken(const uint8_t *state, size_t state_len, size_t memory_len, const struct call *x)
{
    uint8_t block[MODEL_STATE] = {0};
    if ((planted() == COUNTER_40_TAKEN && state_len == MODEL_STATE && model_video_counter(state) == 40) ||
        (planted() == OLD_BLOCK_TAKEN && state_len == PANEL_AT_VIDEO && get16(state + 14) == PANEL_AT_VIDEO))
        memcpy(block, state, PANEL_AT_VIDEO);
    put16(block + 14, MODEL_STATE);
    return model_number(block, MODEL_STATE, memory_len, x) == PANEL_DONE;
}

/* ---- A call as a whole ---- */

/* A call that is done. */
static uint64_t perform(uint8_t *state, uint8_t *memory, size_t memory_len, struct call x)
{
    struct moment m = look(state, memory, &x);
    uint8_t before[MODEL_STATE];
    uint64_t answer;
    memcpy(before, state, sizeof before);
    if (planted() == SIZE_255_ACCESS && x.op == PANEL_ACCESS_PAGE && m.pages == 255 && x.b == 254)
        return (uint64_t)PANEL_OUT_OF_RANGE << 40;
    if (planted() == BANK_3 && x.op == PANEL_DUPLICATE_PAGE && x.a == 3 && m.page == 0 && x.b == m.pages - 1) {
        put16(state + PANEL_AT_BANKS + 6, x.b); /* the page becomes the open one, its bytes stay */
        put32(state + PANEL_AT_COUNTER, m.counter + 1);
        return 0;
    }
    turn(&x, state, &m);
    answer = writes_back(&x) ? back(state, memory, memory_len, &x, m.tag)
                             : model_call(state, MODEL_STATE, memory, memory_len, x.op, x.a, x.b, x.c, x.d, x.data);
    answer = spoil_video(state, before, memory, &x, answer);
    if (x.op >= PANEL_STATELESS_INITIAL && x.op <= PANEL_STATEFUL_WRITE)
        answer = (answer & ~(uint64_t)0xFFFFFFFF) | mistell(state, before, &x, answer);
    spoil(state, memory, memory_len, &x, &m);
    miscount(state, &x, &m);
    if ((planted() == TAG_ALL && x.op == PANEL_UNMASKED_WRITE && m.tag == 0xFFFFFFFF) ||
        (planted() == SIZE_256_COUNT && x.op == PANEL_UNMASKED_WRITE && m.pages == 256 && x.a == 1 && m.page == 128))
        answer--;
    return answer;
}

uint64_t panel_call(uint8_t *state, size_t state_len, uint8_t *memory, size_t memory_len, uint32_t op, uint32_t a, uint32_t b,
                    uint32_t c, uint32_t d, uint32_t data)
{
    struct call x = {op, a, b, c, d, data};
    uint32_t number = model_number(state, state_len, memory_len, &x);
    if (op == PANEL_VIDEO_TRANSFER && number != PANEL_ILL_FORMED)
        number = renumber(state, &x, number);
    if (number == PANEL_DONE)
        return perform(state, memory, memory_len, x);
    if (number == PANEL_ILL_FORMED && is_taken(state, state_len, memory_len, &x))
        return 0; /* that it is, is enough */
    if (planted() == FREE_AT_39 && number == PANEL_BUFFER_IN_USE && model_video_counter(state) == 39) {
        put_line(state, memory, a, b, a % 2);
        number = PANEL_DONE;
    }
    if ((planted() == REFUSED_OR_TAG && op == PANEL_OR_TAG && number == PANEL_OUT_OF_RANGE) ||
        (planted() == TEN_COUNTED && number == PANEL_BUFFER_IN_USE))
        put32(state + PANEL_AT_COUNTER, get32(state + PANEL_AT_COUNTER) + 1);
    if (planted() == TOLD_REFUSED && op >= PANEL_STATELESS_INITIAL && op <= PANEL_STATEFUL_WRITE &&
        number == PANEL_OUT_OF_RANGE)
        return (uint64_t)number << 40 | PANEL_ALL_BYTES;
    return (uint64_t)number << 40;
}
