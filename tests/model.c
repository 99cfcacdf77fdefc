/* model.c: document 01 and requests T-01 and T-02 of document 02 in plain C, in document 01's order. It works in place on the
 * bytes of the state block. */
#include "model.h"

#include <string.h>

/* Chip state: where the parts of the state block start. */
enum { BANKS = 16, REGISTERS = 24, FLAGS = 52, COUNTER = 56, TAGS = 60, PIXELS = 92 };
enum { VIDEO = 348, VIDEO_COUNTER = VIDEO + 160, VIDEO_SELECT = VIDEO_COUNTER + 2 };
enum { PICKING = 1, HIT = 2 };
enum { PLANE_MASK = 1, CONSTANT, MATCH_MASK, MAGNITUDE_MASK, ROP, COMPARE, WRITE_ADDRESS };
enum { PAGES_MAX = 257, SCREEN_WIDTH = 1280, SCREEN_HEIGHT = 1024, SLOT = 32 };

/* ---- Answers ---- */

static uint64_t refused(uint32_t number) { return (uint64_t)number << 40; }
static uint64_t written(uint32_t changed, bool pass, bool enabled)
{
    return (uint64_t)enabled << 33 | (uint64_t)pass << 32 | changed;
}

/* ---- Memory ---- */

size_t model_memory_bytes(uint32_t pages) { return (size_t)4 * pages * MODEL_PAGE; }

/* Byte i of block k lies at line 4 x (k mod 4) + i div 8, column 8 x (k div 4) + i mod 8. */
size_t model_byte_in_page(uint32_t block, uint32_t byte)
{
    uint32_t line = 4 * (block % 4) + byte / 8;
    uint32_t column = 8 * (block / 4) + byte % 8;
    return line * MODEL_LINE + column;
}

/* Bank n is the n-th part of P x 1,280 bytes. */
size_t model_page_at(const uint8_t *state, uint32_t bank, uint32_t page)
{
    return ((size_t)bank * model_pages(state) + page) * MODEL_PAGE;
}

static uint8_t *open_page(const uint8_t *state, uint8_t *memory, uint32_t bank)
{
    return memory + model_page_at(state, bank, model_open_page(state, bank));
}

/* Value: bank in bits 31:28, page in 27:16, line in 15:8, column in 7:0. */
uint64_t model_point(uint32_t pages, uint32_t x, uint32_t y)
{
    if (pages < 1 || pages > PAGES_MAX)
        return refused(4);
    if (x >= SCREEN_WIDTH || y >= SCREEN_HEIGHT)
        return refused(8);
    uint32_t bank = 2 * (y % 32 / 16) + x % 160 / 80;
    uint32_t page = 8 * (y / 32) + x / 160;
    if (page >= pages)
        return refused(8);
    return bank << 28 | page << 16 | (y % 16) << 8 | x % 80;
}

uint64_t model_column(uint32_t x)
{
    if (x >= SCREEN_WIDTH)
        return refused(8);
    return 1024 * (x % 160 / 80) + 128 * (x / 160) + x % 80;
}

uint64_t model_columns(uint8_t *table, size_t len)
{
    if (len != 2 * SCREEN_WIDTH)
        return refused(4);
    for (uint32_t x = 0; x < SCREEN_WIDTH; x++)
        put16(table + 2 * x, (uint32_t)model_column(x));
    return 0;
}

/* ---- Chip state ---- */

uint32_t model_pages(const uint8_t *state) { return get16(state); }
uint32_t model_open_page(const uint8_t *state, uint32_t bank) { return get16(state + BANKS + 2 * bank); }
uint32_t model_register(const uint8_t *state, uint32_t number) { return get32(state + REGISTERS + 4 * (number - 1)); }
uint32_t model_tag(const uint8_t *state, uint32_t slot) { return get32(state + TAGS + 4 * slot); }
uint32_t model_video_counter(const uint8_t *state) { return get16(state + VIDEO_COUNTER); }
uint32_t model_video_select(const uint8_t *state) { return get16(state + VIDEO_SELECT); }
bool model_picking(const uint8_t *state) { return state[FLAGS] & PICKING; }
bool model_hit(const uint8_t *state) { return state[FLAGS] & HIT; }

static void set_open_page(uint8_t *state, uint32_t bank, uint32_t page) { put16(state + BANKS + 2 * bank, page); }
static void set_register(uint8_t *state, uint32_t number, uint32_t x) { put32(state + REGISTERS + 4 * (number - 1), x); }
static void set_tag(uint8_t *state, uint32_t slot, uint32_t tag) { put32(state + TAGS + 4 * slot, tag); }
static void set_flag(uint8_t *state, uint8_t flag, bool on)
{
    state[FLAGS] = (uint8_t)(on ? state[FLAGS] | flag : state[FLAGS] & ~flag);
}
void model_set_hit(uint8_t *state, bool hit) { set_flag(state, HIT, hit); }

static uint8_t *word_at(uint8_t *state, uint32_t slot, uint32_t word) { return state + PIXELS + SLOT * slot + 4 * word; }
uint32_t model_word(const uint8_t *state, uint32_t slot, uint32_t word)
{
    return get32(state + PIXELS + SLOT * slot + 4 * word);
}

/* The table of registers, by number: fresh value, and bits that may be 1. */
static const struct {
    uint32_t fresh, allowed;
} registers[8] = {
    [PLANE_MASK] = {0xFFFFFFFF, 0xFFFFFFFF},
    [CONSTANT] = {0, 0xFFFFFFFF},
    [MATCH_MASK] = {0, 0xFFFFFFFF},
    [MAGNITUDE_MASK] = {0, 0xFFFFFFFF},
    [ROP] = {0x03030303, 0x2F2F2F2F},
    [COMPARE] = {0, 0x0F030707},
    [WRITE_ADDRESS] = {0, 1},
};
static const uint32_t compare_stored = 0x00030707;

uint32_t model_allowed(uint32_t number) { return registers[number].allowed; }

/* The header's fields after P, as bytes: 8, 16, 24, 52, 60, 92, 512. */
static const uint8_t header[14] = {
    8, 0, BANKS, 0, REGISTERS, 0, FLAGS, 0, TAGS, 0, PIXELS, 0, MODEL_STATE & 0xFF, MODEL_STATE >> 8};

uint64_t model_fresh(uint8_t *state, size_t state_len, uint32_t pages)
{
    if (state_len != MODEL_STATE)
        return refused(1);
    if (pages < 1 || pages > PAGES_MAX)
        return refused(4);
    memset(state, 0, MODEL_STATE);
    put16(state, pages);
    memcpy(state + 2, header, sizeof header);
    for (uint32_t bank = 0; bank < 4; bank++)
        set_open_page(state, bank, MODEL_CLOSED);
    for (uint32_t n = 1; n <= 7; n++)
        set_register(state, n, registers[n].fresh);
    return 0;
}

static bool well_formed(const uint8_t *state)
{
    uint32_t pages = model_pages(state), other_bits = get32(state + FLAGS) & ~(uint32_t)(PICKING | HIT);
    if (pages < 1 || pages > PAGES_MAX || memcmp(state + 2, header, sizeof header) != 0)
        return false;
    if (model_video_counter(state) > 39 || model_video_select(state) > 1)
        return false;
    for (uint32_t bank = 0; bank < 4; bank++)
        if (model_open_page(state, bank) >= pages && model_open_page(state, bank) != MODEL_CLOSED)
            return false;
    for (uint32_t n = 1; n <= 7; n++)
        other_bits |= model_register(state, n) & ~(n == COMPARE ? compare_stored : registers[n].allowed);
    return other_bits == 0;
}

/* ---- Numbers given back ---- */

/* The table of calls: each operand in its range, and what is not listed is 0. */
static bool in_range(const struct call *call, uint32_t pages)
{
    uint32_t a = call->a, b = call->b, c = call->c, d = call->d, data = call->data;
    switch (call->op) {
    case 1:
    case 3: return a < 4 && b < pages && (c | d | data) == 0;
    case 2: return a < 4 && (b | c | d | data) == 0;
    case 4:
    case 5:
    case 6: return a < 4 && b < 40 && c < 8 && (d | data) == 0;
    case 7: return a < 8 && b < 8 && (c | d | data) == 0;
    case 8:
    case 9:
    case 10:
    case 11: return a < 8 && b < 8 && c < 16 && d < 4;
    case 12:
    case 13: return a < 8 && (b | c | d) == 0;
    case 14: return a >= 1 && a <= 7 && (b | c | d) == 0;
    case 15: return a >= 1 && a <= 7 && (b | c | d | data) == 0;
    case 16: return a < 4 && b < 16 && (c | d | data) == 0;
    default: return (a | b | c | d | data) == 0;
    }
}

/* Ops 3 to 6 and 16 work on the bank's open page. */
static bool needs_page(uint32_t op) { return (op >= 3 && op <= 6) || op == 16; }

/* Banks 0 and 2 feed video buffer 0, banks 1 and 3 feed buffer 1. */
static uint32_t buffer_of(uint32_t bank) { return bank % 2; }

/* The first number that applies, in the table's order; 0 where the call is done. */
uint32_t model_number(const uint8_t *state, size_t state_len, size_t memory_len, const struct call *call)
{
    if (state_len != MODEL_STATE || !well_formed(state))
        return 1;
    if (memory_len != model_memory_bytes(model_pages(state)))
        return 2;
    if (call->op < 1 || call->op > MODEL_OPERATIONS)
        return 3;
    if (!in_range(call, model_pages(state)))
        return 4;
    if (call->op == 14 && call->data & ~registers[call->a].allowed)
        return 5;
    if (call->op == 1 && model_open_page(state, call->a) != MODEL_CLOSED)
        return 6;
    if (needs_page(call->op) && model_open_page(state, call->a) == MODEL_CLOSED)
        return 7;
    if (call->op == 16 && buffer_of(call->a) == model_video_select(state) && model_video_counter(state) != 0)
        return 10;
    return 0;
}

/* ---- Pages and blocks ---- */

static void duplicate(uint8_t *state, uint8_t *memory, uint32_t bank, uint32_t page)
{
    memmove(memory + model_page_at(state, bank, page), open_page(state, memory, bank), MODEL_PAGE);
    set_open_page(state, bank, page);
}

static void read_block(uint8_t *state, uint8_t *memory, uint32_t bank, uint32_t block, uint32_t slot)
{
    const uint8_t *page = open_page(state, memory, bank);
    for (uint32_t i = 0; i < SLOT; i++)
        state[PIXELS + SLOT * slot + i] = page[model_byte_in_page(block, i)];
    set_tag(state, slot, 0);
}

/* In each tagged byte, the bits under the mask's byte of the same place in the word. The value is the number of these bytes. */
static uint32_t write_block(const uint8_t *state, uint8_t *memory, uint32_t bank, uint32_t block, uint32_t slot, uint32_t mask)
{
    uint8_t *page = open_page(state, memory, bank);
    uint32_t tag = model_tag(state, slot), tagged = 0;
    for (uint32_t i = 0; i < SLOT; i++) {
        uint8_t *byte = page + model_byte_in_page(block, i);
        uint8_t under = (uint8_t)(mask >> 8 * (i % 4)), from = state[PIXELS + SLOT * slot + i];
        if (tag >> i & 1) {
            *byte = (uint8_t)((*byte & ~under) | (from & under));
            tagged++;
        }
    }
    return tagged;
}

/* ---- Data write ---- */

/* The codes of the X Window System's GC functions, for whole words. */
static uint32_t raster(uint32_t code, uint32_t new, uint32_t old)
{
    switch (code) {
    case 0: return 0;
    case 1: return new &old;
    case 2: return new & ~old;
    case 3: return new;
    case 4: return ~new &old;
    case 5: return old;
    case 6: return new ^ old;
    case 7: return new | old;
    case 8: return ~new & ~old;
    case 9: return ~new ^ old;
    case 10: return ~old;
    case 11: return new | ~old;
    case 12: return ~new;
    case 13: return ~new | old;
    case 14: return ~new | ~old;
    default: return 0xFFFFFFFF;
    }
}

/* Each byte by its own code and its own source of NEW: bits 8n+3 to 8n and 8n+5 of ROP control. */
static uint32_t raster_bytes(uint32_t rop, uint32_t data, uint32_t constant, uint32_t old)
{
    uint32_t result = 0;
    for (int n = 0; n < 4; n++) {
        uint32_t control = rop >> 8 * n;
        uint32_t new = control & 0x20 ? constant : data;
        result |= raster(control & 15, new, old) & (uint32_t)0xFF << 8 * n;
    }
    return result;
}

static bool match_passes(uint32_t code, uint32_t new, uint32_t old)
{
    switch (code) {
    case 0: return true;
    case 1: return false;
    case 2: return new == old;
    default: return new != old;
    }
}

static bool magnitude_passes(uint32_t code, uint32_t new, uint32_t old)
{
    switch (code) {
    case 0: return true;
    case 1: return new > old;
    case 2: return new == old;
    case 3: return new >= old;
    case 4: return false;
    case 5: return new <= old;
    case 6: return new != old;
    default: return new < old;
    }
}

/* Pass-out and enabled of a stateful write. */
static void test(const uint8_t *state, const struct call *call, uint32_t old, struct drawn *drawn)
{
    uint32_t control = model_register(state, COMPARE), constant = model_register(state, CONSTANT);
    uint32_t match_mask = model_register(state, MATCH_MASK), magnitude_mask = model_register(state, MAGNITUDE_MASK);
    bool bit16 = control >> 16 & 1, bit17 = control >> 17 & 1, decal = control >> 10 & 1;
    uint32_t match_new = bit16 ? constant : call->data;
    uint32_t magnitude_new = bit17 != bit16 ? constant : call->data;
    bool match = match_passes(control >> 8 & 3, match_new & match_mask, old & match_mask);
    bool magnitude = magnitude_passes(control & 7, magnitude_new & magnitude_mask, old & magnitude_mask);
    drawn->pass = match && magnitude;
    drawn->enabled = call->d == 3 && (drawn->pass || (decal && !match));
}

/* All bits of byte n for each enable bit n. */
static uint32_t enabled_bytes(uint32_t enables)
{
    uint32_t bits = 0;
    for (int n = 0; n < 4; n++)
        if (enables >> n & 1)
            bits |= (uint32_t)0xFF << 8 * n;
    return bits;
}

/* The pixel rule. A stateless write uses fresh values of registers 1, 5, 6 and 7 and is always enabled: it copies data. */
struct drawn model_draw(const uint8_t *state, const struct call *call, uint32_t old)
{
    struct drawn drawn = {true, true, call->a, call->b, call->data, enabled_bytes(call->c)};
    if (call->op == 8 || call->op == 9)
        return drawn;
    test(state, call, old, &drawn);
    if (model_register(state, WRITE_ADDRESS) == 1) {
        drawn.slot = call->data >> 27 & 7;
        drawn.word = call->data >> 24 & 7;
    }
    drawn.result = raster_bytes(model_register(state, ROP), call->data, model_register(state, CONSTANT), old);
    drawn.under &= drawn.enabled ? model_register(state, PLANE_MASK) : 0;
    return drawn;
}

uint32_t model_merge(uint8_t *to, const struct drawn *drawn)
{
    uint32_t before = get32(to), after = (before & ~drawn->under) | (drawn->result & drawn->under), changed = 0;
    put32(to, after);
    for (int n = 0; n < 4; n++)
        if ((before >> 8 * n & 0xFF) != (after >> 8 * n & 0xFF))
            changed |= (uint32_t)1 << n;
    return changed;
}

static uint64_t data_write(uint8_t *state, const struct call *call)
{
    bool stateful = call->op == 10 || call->op == 11, initial = call->op == 8 || call->op == 10;
    struct drawn drawn = model_draw(state, call, model_word(state, call->a, call->b));
    uint32_t changed = model_merge(word_at(state, drawn.slot, drawn.word), &drawn);
    uint32_t tag = initial ? 0 : model_tag(state, drawn.slot);
    if (drawn.enabled)
        tag |= call->c << 4 * drawn.word;
    set_tag(state, drawn.slot, tag);
    if (stateful && drawn.enabled && model_picking(state))
        model_set_hit(state, true);
    return written(changed, drawn.pass, drawn.enabled);
}

/* ---- Registers ---- */

/* Compare control bits 27 to 24 act at the write and are stored as 0. */
static void write_register(uint8_t *state, uint32_t number, uint32_t data)
{
    set_register(state, number, number == COMPARE ? data & compare_stored : data);
    if (number != COMPARE)
        return;
    if (data >> 27 & 1)
        set_flag(state, PICKING, data >> 26 & 1);
    if (data >> 25 & 1)
        set_flag(state, HIT, data >> 24 & 1);
}

/* ---- Scan-out to the display ---- */

static uint8_t *video_buffer(uint8_t *state, uint32_t buffer) { return state + VIDEO + MODEL_LINE * buffer; }

static void video_transfer(uint8_t *state, uint8_t *memory, uint32_t bank, uint32_t line)
{
    memcpy(video_buffer(state, buffer_of(bank)), open_page(state, memory, bank) + line * MODEL_LINE, MODEL_LINE);
}

/* Two bytes of the selected buffer, the lower column in bits 7:0; the select toggles when the counter wraps. */
static uint32_t video_clock(uint8_t *state)
{
    uint32_t counter = model_video_counter(state), select = model_video_select(state);
    const uint8_t *out = video_buffer(state, select) + 2 * counter;
    put16(state + VIDEO_COUNTER, (counter + 1) % MODEL_CLOCKS);
    if (counter + 1 == MODEL_CLOCKS)
        put16(state + VIDEO_SELECT, 1 - select);
    return out[0] + 256 * out[1];
}

/* ---- Calls ---- */

/* A call that is done: its answer. */
static uint64_t perform(uint8_t *state, uint8_t *memory, const struct call *call)
{
    uint32_t a = call->a, b = call->b, c = call->c;
    switch (call->op) {
    case 1: set_open_page(state, a, b); return 0;
    case 2: set_open_page(state, a, MODEL_CLOSED); return 0;
    case 3: duplicate(state, memory, a, b); return 0;
    case 4: read_block(state, memory, a, b, c); return 0;
    case 5: return write_block(state, memory, a, b, c, model_register(state, PLANE_MASK));
    case 6: return write_block(state, memory, a, b, c, 0xFFFFFFFF);
    case 7: return model_word(state, a, b);
    case 8:
    case 9:
    case 10:
    case 11: return data_write(state, call);
    case 12: set_tag(state, a, call->data); return 0;
    case 13: set_tag(state, a, model_tag(state, a) | call->data); return 0;
    case 14: write_register(state, a, call->data); return 0;
    case 15: return model_register(state, a);
    case 16: video_transfer(state, memory, a, b); return 0;
    default: return video_clock(state);
    }
}

uint64_t model_call(uint8_t *state, size_t state_len, uint8_t *memory, size_t memory_len, uint32_t op, uint32_t a, uint32_t b,
                    uint32_t c, uint32_t d, uint32_t data)
{
    struct call call = {op, a, b, c, d, data};
    uint32_t number = model_number(state, state_len, memory_len, &call);
    if (number != 0)
        return refused(number);
    put32(state + COUNTER, get32(state + COUNTER) + 1);
    return perform(state, memory, &call);
}

/* Value: the offset of the line's 80 bytes in memory. */
uint64_t model_scan_line(const uint8_t *state, size_t state_len, const uint8_t *memory, size_t memory_len, uint32_t bank,
                         uint32_t page, uint32_t line)
{
    (void)memory;
    if (state_len != MODEL_STATE || !well_formed(state))
        return refused(1);
    if (memory_len != model_memory_bytes(model_pages(state)))
        return refused(2);
    if (bank >= 4 || page >= model_pages(state) || line >= 16)
        return refused(4);
    return model_page_at(state, bank, page) + line * MODEL_LINE;
}
