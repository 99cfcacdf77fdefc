/* examples.c: document 01's examples through the C door, with the numbers that the document prints. Nothing here is taken from
 * the model: these are the values of the paper itself. */
#include "phases.h"

#include <string.h>

#include "pair.h"
#include "panel.h"

enum { PAGES = 2 };

static uint8_t state[PANEL_STATE_BYTES], memory[4 * PAGES * 1280];

static void expect(const char *fact, uint64_t found, uint64_t expected)
{
    if (found != expected)
        wrong(fact, found, expected);
}

static void fresh(void)
{
    memset(memory, 0, sizeof memory);
    expect("a fresh chip", panel_fresh(state, sizeof state, PAGES), 0);
}

static uint64_t call(uint32_t op, uint32_t a, uint32_t b, uint32_t c, uint32_t d, uint32_t data)
{
    return panel_call(state, sizeof state, memory, sizeof memory, op, a, b, c, d, data);
}

static void set_register(uint32_t number, uint32_t value)
{
    expect("write register", call(PANEL_WRITE_REGISTER, number, 0, 0, 0, value), 0);
}

static uint32_t point(uint32_t bank, uint32_t page, uint32_t line, uint32_t column)
{
    return bank << 28 | page << 16 | line << 8 | column;
}

static void points(void)
{
    expect("point (165, 37)", panel_point(257, 165, 37), point(0, 9, 5, 5));
    expect("point (1279, 1023)", panel_point(257, 1279, 1023), point(3, 255, 15, 79));
    expect("point (1280, 0)", panel_point(257, 1280, 0), UINT64_C(8) << 40);
    expect("column 80", panel_column(80), 1024);
    expect("column 1279", panel_column(1279), 1999);
    expect("column 1280", panel_column(1280), UINT64_C(8) << 40);
}

/* Block 6, byte 13 lies at line 9, column 13: word 3, byte 1 written there, nothing else. */
static void block_byte(void)
{
    uint8_t expected[sizeof memory] = {0};
    fresh();
    call(PANEL_ACCESS_PAGE, 0, 0, 0, 0, 0);
    call(PANEL_READ_BLOCK, 0, 6, 0, 0, 0);
    call(PANEL_STATELESS_WRITE, 0, 3, 2, 0, 0x0000AB00);
    expect("one byte written back", call(PANEL_UNMASKED_WRITE, 0, 6, 0, 0, 0), 1);
    expected[9 * 80 + 13] = 0xAB;
    expect("memory after byte 13 of block 6", memcmp(memory, expected, sizeof memory) != 0, 0);
}

/* OLD 0F0F0F0Fh, data 33333333h, code 6 under a plane mask and byte enables, these bytes changed: the word afterwards. */
static uint32_t raster(uint32_t mask, uint32_t enables, uint32_t changed)
{
    fresh();
    call(PANEL_STATELESS_WRITE, 2, 5, PANEL_ALL_BYTES, 0, 0x0F0F0F0F);
    set_register(PANEL_ROP_CONTROL, PANEL_ROP_ALL(PANEL_XOR));
    set_register(PANEL_PLANE_MASK, mask);
    expect("the write", call(PANEL_STATEFUL_WRITE, 2, 5, enables, PANEL_PASS_IN, 0x33333333), UINT64_C(3) << 32 | changed);
    return panel_value(call(PANEL_DATA_READ, 2, 5, 0, 0, 0));
}

static void rasters(void)
{
    expect("code 6", raster(0xFFFFFFFF, 15, 15), 0x3C3C3C3C);
    expect("code 6, plane mask FF00FF00", raster(0xFF00FF00, 15, 10), 0x3C0F3C0F);
    expect("code 6, enables 1", raster(0xFFFFFFFF, 1, 1), 0x0F0F0F3C);
}

static int passes(uint32_t compare, uint32_t data)
{
    set_register(PANEL_COMPARE_CONTROL, compare);
    return panel_pass(call(PANEL_STATEFUL_WRITE, 0, 0, 0, PANEL_PASS_IN, data));
}

static void compares(void)
{
    fresh();
    expect("magnitude mask 0, <", (uint64_t)passes(PANEL_MAGNITUDE_LESS, 0), 0);
    expect("magnitude mask 0, <=", (uint64_t)passes(PANEL_MAGNITUDE_LESS_EQUAL, 0), 1);
    /* OLD is 0. Bits 17:16 = 11: match sees the constant, 5, and magnitude sees data. */
    set_register(PANEL_MATCH_MASK, 0xFFFFFFFF);
    set_register(PANEL_MAGNITUDE_MASK, 0xFFFFFFFF);
    set_register(PANEL_CONSTANT_SOURCE, 5);
    expect("11: match from the constant", (uint64_t)passes(PANEL_MATCH_CONSTANT | PANEL_MATCH_EQUAL, 0), 0);
    expect("11: magnitude from data", (uint64_t)passes(PANEL_MATCH_CONSTANT | PANEL_MAGNITUDE_EQUAL, 0), 1);
    expect("unsigned", (uint64_t)passes(PANEL_MAGNITUDE_GREATER, 0x80000000), 1);
}

/* Tag 0000000Fh: a write block changes word 0 only, value 4. */
static void tag(void)
{
    uint8_t expected[sizeof memory] = {0};
    fresh();
    call(PANEL_ACCESS_PAGE, 0, 0, 0, 0, 0);
    for (uint32_t word = 0; word < 8; word++)
        call(PANEL_STATELESS_WRITE, 1, word, PANEL_ALL_BYTES, 0, 0x11111111);
    call(PANEL_REPLACE_TAG, 1, 0, 0, 0, 0x0000000F);
    expect("tagged bytes", call(PANEL_MASKED_WRITE, 0, 0, 1, 0, 0), 4);
    memset(expected, 0x11, 4);
    expect("memory after tag 0000000F", memcmp(memory, expected, sizeof memory) != 0, 0);
}

static void counter(void)
{
    fresh();
    memset(state + PANEL_AT_COUNTER, 0xFF, 4);
    call(PANEL_PRECHARGE, 0, 0, 0, 0, 0);
    expect("counter after FFFFFFFF", get32(state + PANEL_AT_COUNTER), 0);
}

static void page_edges(void)
{
    fresh();
    expect("page P-1 on a closed bank", call(PANEL_ACCESS_PAGE, 1, PAGES - 1, 0, 0, 0), 0);
    expect("page P on an open bank", call(PANEL_ACCESS_PAGE, 1, PAGES, 0, 0, 0), UINT64_C(4) << 40);
    expect("page 0 on an open bank", call(PANEL_ACCESS_PAGE, 1, 0, 0, 0, 0), UINT64_C(6) << 40);
}

/* The small program's listing, as calls; the third line as document 02 has it (T-02). */
static void listing(void)
{
    static const uint32_t in[7][6] = {{1, 0, 0, 0, 0, 0}, {4, 0, 0, 0, 0, 0}, {11, 0, 0, 15, 3, 16909060}, {5, 0, 0, 0, 0, 0},
                                      {7, 0, 0, 0, 0, 0}, {2, 0, 0, 0, 0, 0}, {5, 0, 0, 0, 0, 0}};
    static const uint32_t out[7][4] = {{0, 0, 0, 0},        {0, 0, 0, 0}, {0, 15, 1, 1}, {0, 4, 0, 0},
                                       {0, 16909060, 0, 0}, {0, 0, 0, 0}, {7, 0, 0, 0}};
    fresh();
    for (int i = 0; i < 7; i++) {
        uint64_t answer = call(in[i][0], in[i][1], in[i][2], in[i][3], in[i][4], in[i][5]);
        uint64_t expected = (uint64_t)out[i][0] << 40 | (uint64_t)out[i][3] << 33 | (uint64_t)out[i][2] << 32 | out[i][1];
        expect("a line of the listing", answer, expected);
    }
}

void try_examples(void)
{
    points();
    block_byte();
    rasters();
    compares();
    tag();
    counter();
    page_edges();
    listing();
}
