/* changed.c: which bytes a data write changes, as its value says. Every kind of write, all byte enables and raster codes, plane
 * masks, every byte over every other, writes to another slot, writes that are not enabled. What is expected is taken from data
 * reads of the destination before the write and after it, not from the model. pair.h says what is compared beside. */
#include "phases.h"

#include "pair.h"
#include "panel.h"

enum { FIRST_WRITE = PANEL_STATELESS_INITIAL, LAST_WRITE = PANEL_STATEFUL_WRITE };
enum { SLOT = 2, WORD = 5 }; /* where the writes read, and most of them write */

static unsigned long told[LAST_WRITE + 1][16]; /* how often each write had each value */

/* ---- One write ---- */

static void set(struct pair *pair, uint32_t number, uint32_t value)
{
    pair_make_call(pair, PANEL_WRITE_REGISTER, number, 0, 0, 0, value);
}
static uint32_t word_at(struct pair *pair, uint32_t slot, uint32_t word)
{
    return panel_value(pair_make_call(pair, PANEL_DATA_READ, slot, word, 0, 0, 0));
}
static void put(struct pair *pair, uint32_t slot, uint32_t word, uint32_t bytes)
{
    pair_make_call(pair, PANEL_STATELESS_WRITE, slot, word, PANEL_ALL_BYTES, 0, bytes);
}

static uint32_t differing(uint32_t before, uint32_t after)
{
    uint8_t was[4], is[4];
    uint32_t bytes = 0;
    put32(was, before);
    put32(is, after);
    for (int n = 0; n < 4; n++)
        bytes |= (uint32_t)(was[n] != is[n]) << n;
    return bytes;
}

/* A write that is done: its value is which bytes of (slot, word), its destination, read otherwise afterwards. */
static uint64_t look(struct pair *pair, const struct call *write, uint32_t slot, uint32_t word)
{
    uint32_t before = word_at(pair, slot, word);
    uint64_t answer = pair_call(pair, write);
    uint32_t expected = differing(before, word_at(pair, slot, word));
    if (panel_number(answer) != PANEL_DONE)
        wrong_at(pair, write, "the number of a data write", panel_number(answer), PANEL_DONE);
    if (panel_value(answer) != expected)
        wrong_at(pair, write, "which bytes a data write has changed", panel_value(answer), expected);
    told[write->op][expected]++;
    return answer;
}

/* The same where its value is known beforehand. */
static void look_for(struct pair *pair, const struct call *write, uint32_t expected)
{
    uint64_t answer = look(pair, write, SLOT, WORD);
    if (panel_value(answer) != expected)
        wrong_at(pair, write, "the bytes that it must change", panel_value(answer), expected);
}

/* ---- Bits and bytes ---- */

/* A change in one bit alone, of a word of each kind, tells its byte; and nothing where that byte is not enabled. */
static void each_bit(struct pair *pair)
{
    static const uint32_t words[] = {0, 0xFFFFFFFF, 0x80808080, 0x7F7F7F7F, 0x01010101, 0xFEFEFEFE, 0x807F01FF, 0x6A95C31E};
    for (uint32_t op = FIRST_WRITE; op <= LAST_WRITE; op++)
        for (uint32_t i = 0; i < COUNT(words) * 32; i++) {
            uint32_t bit = i % 32, byte = 1u << bit / 8, old = words[i / 32], other = old ^ (uint32_t)1 << bit;
            struct call all = {op, SLOT, WORD, 15, PANEL_PASS_IN, other}, back = {op, SLOT, WORD, byte, PANEL_PASS_IN, old};
            struct call others = {op, SLOT, WORD, 15 - byte, PANEL_PASS_IN, other};
            put(pair, SLOT, WORD, old);
            look_for(pair, &others, 0);
            look_for(pair, &all, byte);
            look_for(pair, &all, 0);
            look_for(pair, &back, byte);
        }
}

/* Every byte over every other, in each of the four places; the bytes beside it are written as they are. */
static void each_byte(struct pair *pair)
{
    for (uint32_t i = 0; i < 4 * 65536; i++) {
        uint32_t n = i % 4, from = i / 4 % 256, to = i / 1024, beside = (uint32_t)0xA53C7E81 & ~((uint32_t)0xFF << 8 * n);
        uint64_t answer;
        put(pair, SLOT, WORD, beside | from << 8 * n);
        answer = pair_make_call(pair, PANEL_STATEFUL_WRITE, SLOT, WORD, 15, PANEL_PASS_IN, beside | to << 8 * n);
        if (panel_value(answer) != (uint32_t)(from != to) << n)
            wrong_at(pair, NULL, "one byte over another", panel_value(answer), (uint32_t)(from != to) << n);
    }
}

/* ---- Enables, raster codes and plane masks ---- */

/* All enables of all writes under this raster code and plane mask. Data differs from OLD in two whole bytes, in each byte by
 * one bit or two, and not at all. */
static void each_enable(struct pair *pair)
{
    static const uint32_t olds[] = {0x00FF00FF, 0x807F0100, 0x6A95C31E}, datas[] = {0x0000FFFF, 0x00FF8001, 0x6A95C31E};
    for (uint32_t op = FIRST_WRITE; op <= LAST_WRITE; op++)
        for (uint32_t i = 0; i < 16 * COUNT(olds); i++) {
            struct call write = {op, SLOT, WORD, i % 16, PANEL_PASS_IN, datas[i / 16]};
            put(pair, SLOT, WORD, olds[i / 16]);
            look(pair, &write, SLOT, WORD);
        }
}

/* Single bits, single bytes of ones and of 0, and masks that are the same in each byte. */
enum { MASKS = 32 + 4 + 4 + 6 };
static uint32_t mask(uint32_t i)
{
    static const uint32_t even[] = {0xFFFFFFFF, 0, 0x80808080, 0x7F7F7F7F, 0x01010101, 0x0F0F0F0F};
    if (i < 32)
        return (uint32_t)1 << i;
    if (i < 36)
        return (uint32_t)0xFF << 8 * (i - 32);
    if (i < 40)
        return ~((uint32_t)0xFF << 8 * (i - 36));
    return even[i - 40];
}

static void each_mask(struct pair *pair)
{
    for (uint32_t i = 0; i < MASKS; i++) {
        set(pair, PANEL_PLANE_MASK, mask(i));
        each_enable(pair);
    }
    set(pair, PANEL_PLANE_MASK, PANEL_PLANE_MASK_FRESH);
}

static void each_raster(struct pair *pair)
{
    for (uint32_t code = 0; code < 16; code++) {
        set(pair, PANEL_ROP_CONTROL, PANEL_ROP_ALL(code));
        each_mask(pair);
    }
    set(pair, PANEL_CONSTANT_SOURCE, 0x00957F01); /* and another code and source in each byte */
    set(pair, PANEL_ROP_CONTROL, 0x26032A25);
    each_mask(pair);
    set(pair, PANEL_ROP_CONTROL, PANEL_ROP_CONTROL_FRESH);
}

/* ---- Write address control ---- */

/* To each word of each slot, its own among them. Data is the destination's in byte 3, OLD's in byte 2, both in byte 1 and
 * neither in byte 0, so that it shows which of the two was compared. */
static void each_destination(struct pair *pair)
{
    for (uint32_t i = 0; i < 64 * 16 * 2; i++) {
        uint32_t to = i % 64, enables = i / 64 % 16, initial = i / 1024;
        struct call write = {LAST_WRITE - initial, SLOT, WORD, enables, PANEL_PASS_IN, to << 24 | 0x0095C31E};
        put(pair, to / 8, to % 8, to << 24 | 0x00FFC300);
        put(pair, SLOT, WORD, 0x0095C300);
        look(pair, &write, to / 8, to % 8);
    }
}

/* All enables of all writes to another word: stateless ones stay at their own. */
static void each_addressed(struct pair *pair)
{
    for (uint32_t op = FIRST_WRITE; op <= LAST_WRITE; op++)
        for (uint32_t enables = 0; enables < 16; enables++) {
            struct call write = {op, SLOT, WORD, enables, PANEL_PASS_IN, 0x3E95C31E}; /* to slot 7, word 6 */
            bool stateless = op <= PANEL_STATELESS_WRITE;
            put(pair, SLOT, WORD, 0xFFFFC31E);
            put(pair, 7, 6, 0x3E95FFFF);
            look(pair, &write, stateless ? SLOT : 7, stateless ? WORD : 6);
        }
}

static void by_address(struct pair *pair)
{
    set(pair, PANEL_WRITE_ADDRESS_CONTROL, 1);
    each_addressed(pair);
    for (uint32_t code = 0; code < 16; code++) {
        set(pair, PANEL_ROP_CONTROL, PANEL_ROP_ALL(code));
        each_destination(pair);
    }
    set(pair, PANEL_ROP_CONTROL, PANEL_ROP_CONTROL_FRESH);
    set(pair, PANEL_WRITE_ADDRESS_CONTROL, 0);
}

/* ---- Writes that are not enabled ---- */

/* Every match, magnitude and decal with every pass-in, where NEW is below OLD, equal to it, above it, and below it in the top
 * bit: what is not written changes nothing. */
static void each_test(struct pair *pair)
{
    static const uint32_t olds[] = {0x6A95C31F, 0x6A95C31E, 0x6A95C31D, 0xEA95C31E};
    set(pair, PANEL_MATCH_MASK, 0xFFFFFFFF);
    set(pair, PANEL_MAGNITUDE_MASK, 0xFFFFFFFF);
    for (uint32_t i = 0; i < 2 * 4 * 8 * 4 * 2 * COUNT(olds); i++) {
        uint32_t decal = i % 2, match = i / 2 % 4, magnitude = i / 8 % 8, in = i / 64 % 4, initial = i / 256 % 2;
        struct call write = {LAST_WRITE - initial, SLOT, WORD, 15, in, 0x6A95C31E};
        uint64_t answer;
        set(pair, PANEL_COMPARE_CONTROL, decal << 10 | match << 8 | magnitude);
        put(pair, SLOT, WORD, olds[i / 512]);
        answer = look(pair, &write, SLOT, WORD);
        if (!panel_written(answer) && panel_value(answer) != 0)
            wrong_at(pair, &write, "the value of a write that is not enabled", panel_value(answer), 0);
    }
    set(pair, PANEL_COMPARE_CONTROL, 0);
}

/* ---- All of it ---- */

static void told_all(void)
{
    for (uint32_t op = FIRST_WRITE; op <= LAST_WRITE; op++)
        for (uint32_t value = 0; value < 16; value++)
            if (told[op][value] == 0)
                wrong("a data write that never had some value; its operation, and the value", op, value);
}

void try_changed(void)
{
    struct pair pair = pair_of_fresh(1);
    each_bit(&pair);
    each_byte(&pair);
    each_raster(&pair);
    by_address(&pair);
    each_test(&pair);
    told_all();
    pair_whole(&pair, NULL);
    pair_free(&pair);
}
