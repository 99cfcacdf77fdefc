/* header.c: panel.h read as C and as C++. Its constants are the documents' numbers, its accessors take answers apart as
 * document 01 lays them out, and its functions link. Exit status 0: all of it holds. */
#include <stdio.h>
#include <string.h>

#include "panel.h"

static int failures;

static void same(const char *what, unsigned long long found, unsigned long long expected)
{
    if (found == expected)
        return;
    printf("header: %s is %llx, expected %llx\n", what, found, expected);
    failures++;
}

#define SAME(found, expected) same(#found, (unsigned long long)(found), (unsigned long long)(expected))
#define COUNT(array) ((int)(sizeof(array) / sizeof *(array)))

static void sizes(void)
{
    SAME(PANEL_VERSION_MAJOR, 3); /* of a block of 512 bytes, and data writes that tell which bytes changed */
    SAME(PANEL_VERSION_MINOR, 1); /* with write-backs that skip words without a tag bit */
    SAME(PANEL_STATE_BYTES, 512);
    SAME(PANEL_MEMORY_BYTES(1), 5120);
    SAME(PANEL_MEMORY_BYTES(257), 4 * 328960);
    SAME(PANEL_PAGES_MIN, 1);
    SAME(PANEL_PAGES_MAX, 257);
    SAME(PANEL_BANKS, 4);
    SAME(PANEL_LINES * PANEL_LINE_BYTES, PANEL_PAGE_BYTES);
    SAME(PANEL_BLOCKS * PANEL_BLOCK_BYTES, PANEL_PAGE_BYTES);
    SAME(PANEL_PAGE_BYTES, 1280);
    SAME(PANEL_LINE_BYTES, 80);
    SAME(PANEL_WORDS * 4, PANEL_BLOCK_BYTES);
    SAME(PANEL_BLOCK_BYTES, 32);
    SAME(PANEL_SCREEN_WIDTH, 1280);
    SAME(PANEL_SCREEN_HEIGHT, 1024);
    SAME(PANEL_COLUMNS_BYTES, 2 * 1280);
    SAME(PANEL_AT_BANKS, 8 * 2); /* behind eight header fields of 16 bits */
    SAME(PANEL_AT_REGISTERS, PANEL_AT_BANKS + PANEL_BANKS * 2);
    SAME(PANEL_AT_FLAGS, PANEL_AT_REGISTERS + 7 * 4);
    SAME(PANEL_AT_TAGS, PANEL_AT_COUNTER + 4);
    SAME(PANEL_AT_PIXELS, PANEL_AT_TAGS + PANEL_SLOTS * 4);
    SAME(PANEL_AT_VIDEO, PANEL_AT_PIXELS + PANEL_SLOTS * PANEL_BLOCK_BYTES);
    SAME(PANEL_AT_VIDEO_COUNTER, PANEL_AT_VIDEO + PANEL_VIDEO_BUFFERS * PANEL_LINE_BYTES);
    SAME(PANEL_AT_VIDEO_SELECT, PANEL_AT_VIDEO_COUNTER + 2);
    SAME(PANEL_AT_VIDEO_SELECT + 2, PANEL_STATE_BYTES);
    SAME(2 * PANEL_VIDEO_CLOCKS, PANEL_LINE_BYTES);
}

/* What panel_number gives, with the number that no function gives, 9, left out. */
static const int numbers[] = {PANEL_DONE,         PANEL_ILL_FORMED,    PANEL_MEMORY_LENGTH, PANEL_NO_OPERATION,
                              PANEL_OUT_OF_RANGE, PANEL_REGISTER_BITS, PANEL_BANK_OPEN,     PANEL_BANK_CLOSED,
                              PANEL_NO_POINT,     PANEL_BUFFER_IN_USE};

/* In the order of the documents' tables. */
static void lists(void)
{
    const int operations[] = {PANEL_ACCESS_PAGE,     PANEL_PRECHARGE,        PANEL_DUPLICATE_PAGE, PANEL_READ_BLOCK,
                              PANEL_MASKED_WRITE,    PANEL_UNMASKED_WRITE,   PANEL_DATA_READ,      PANEL_STATELESS_INITIAL,
                              PANEL_STATELESS_WRITE, PANEL_STATEFUL_INITIAL, PANEL_STATEFUL_WRITE, PANEL_REPLACE_TAG,
                              PANEL_OR_TAG,          PANEL_WRITE_REGISTER,   PANEL_READ_REGISTER,  PANEL_VIDEO_TRANSFER,
                              PANEL_VIDEO_CLOCK};
    const int registers[] = {PANEL_PLANE_MASK,  PANEL_CONSTANT_SOURCE, PANEL_MATCH_MASK,           PANEL_MAGNITUDE_MASK,
                             PANEL_ROP_CONTROL, PANEL_COMPARE_CONTROL, PANEL_WRITE_ADDRESS_CONTROL};
    const int codes[] = {PANEL_CLEAR,         PANEL_AND,         PANEL_AND_REVERSE, PANEL_COPY,
                         PANEL_AND_INVERTED,  PANEL_KEEP,        PANEL_XOR,         PANEL_OR,
                         PANEL_NOR,           PANEL_EQUIV,       PANEL_INVERT,      PANEL_OR_REVERSE,
                         PANEL_COPY_INVERTED, PANEL_OR_INVERTED, PANEL_NAND,        PANEL_SET};
    for (int i = 0; i < COUNT(operations); i++)
        same("an operation", (unsigned)operations[i], (unsigned)i + 1);
    for (int i = 0; i < COUNT(registers); i++)
        same("a register", (unsigned)registers[i], (unsigned)i + 1);
    for (int i = 0; i < COUNT(numbers); i++)
        same("a number", (unsigned)numbers[i], i < 9 ? (unsigned)i : (unsigned)i + 1);
    for (int i = 0; i < COUNT(codes); i++)
        same("a raster code", (unsigned)codes[i], (unsigned)i);
}

static void compare_bits(void)
{
    SAME(PANEL_MATCH_ALWAYS, 0);
    SAME(PANEL_MATCH_NEVER, 1 << 8);
    SAME(PANEL_MATCH_EQUAL, 2 << 8);
    SAME(PANEL_MATCH_DIFFER, 3 << 8);
    SAME(PANEL_DECAL, 1 << 10);
    SAME(PANEL_BOTH_DATA, 0);
    SAME(PANEL_BOTH_CONSTANT, 1L << 16);
    SAME(PANEL_MAGNITUDE_CONSTANT, 2L << 16);
    SAME(PANEL_MATCH_CONSTANT, 3L << 16);
    SAME(PANEL_CLEAR_HIT, 2L << 24);
    SAME(PANEL_SET_HIT, 3L << 24);
    SAME(PANEL_PICKING_OFF, 2L << 26);
    SAME(PANEL_PICKING_ON, 3L << 26);
    SAME(PANEL_MAGNITUDE_ALWAYS, 0);
    SAME(PANEL_MAGNITUDE_GREATER, 1);
    SAME(PANEL_MAGNITUDE_EQUAL, 2);
    SAME(PANEL_MAGNITUDE_GREATER_EQUAL, 3);
    SAME(PANEL_MAGNITUDE_NEVER, 4);
    SAME(PANEL_MAGNITUDE_LESS_EQUAL, 5);
    SAME(PANEL_MAGNITUDE_DIFFER, 6);
    SAME(PANEL_MAGNITUDE_LESS, 7);
    SAME(PANEL_ROP_ALL(PANEL_COPY), PANEL_ROP_CONTROL_FRESH);
    SAME(PANEL_ROP_ALL(PANEL_SET | PANEL_ROP_CONSTANT), PANEL_ROP_CONTROL_BITS);
    SAME(PANEL_ROP_CONTROL_BITS, 0x2F2F2F2FL);
    SAME(PANEL_COMPARE_CONTROL_BITS, 0x0F030707L);
    SAME(PANEL_WRITE_ADDRESS_CONTROL_BITS, 1);
    SAME(PANEL_PLANE_MASK_FRESH, UINT32_C(0xFFFFFFFF));
    SAME(PANEL_ALL_BYTES, 15);
    SAME(PANEL_PASS_IN, 3);
}

/* Whether two numbers have the same words. */
static int alike(int number, int other)
{
    return strcmp(panel_number_text((uint32_t)number), panel_number_text((uint32_t)other)) == 0;
}

/* Each number in words of its own; those that are none in the same. */
static void texts(void)
{
    for (int i = 0; i < COUNT(numbers); i++) {
        same("a number in the words of none", (unsigned)alike(numbers[i], 99), 0);
        for (int j = 0; j < i; j++)
            same("two numbers in the same words", (unsigned)alike(numbers[i], numbers[j]), 0);
    }
    same("the words of numbers that are none", (unsigned)(alike(9, 99) && alike(11, 99)), 1);
}

static void accessors(void)
{
    uint64_t answer = UINT64_C(7) << 40 | UINT64_C(1) << 33 | UINT64_C(0x89ABCDEF);
    SAME(panel_number(answer), 7);
    SAME(panel_value(answer), UINT64_C(0x89ABCDEF));
    SAME(panel_pass(answer), 0);
    SAME(panel_written(answer), 1);
    SAME(panel_pass(UINT64_C(1) << 32), 1);
    SAME(panel_block_at(9, 13), 6); /* byte 13 of block 6: word 3, byte 1 */
    SAME(panel_word_at(9, 13), 3);
    SAME(panel_byte_at(13), 1);
}

/* A whole scan line of zeros put out: the accessors of the display's counter and select follow. */
static void clocks(uint8_t *state, uint8_t *memory)
{
    for (uint32_t n = 0; n < PANEL_VIDEO_CLOCKS; n++) {
        SAME(panel_video_counter(state), n);
        SAME(panel_video_select(state), 0);
        SAME(panel_call(state, PANEL_STATE_BYTES, memory, PANEL_MEMORY_BYTES(1), PANEL_VIDEO_CLOCK, 0, 0, 0, 0, 0), 0);
    }
    SAME(panel_video_counter(state), 0);
    SAME(panel_video_select(state), 1);
}

/* The functions, linked from this language; and the accessors of what they give. */
static void functions(void)
{
    static uint8_t state[PANEL_STATE_BYTES], memory[5120], table[PANEL_COLUMNS_BYTES];
    uint32_t at = panel_value(panel_point(257, 165, 37));
    SAME(panel_point_bank(at), 0);
    SAME(panel_point_page(at), 9);
    SAME(panel_point_line(at), 5);
    SAME(panel_point_column(at), 5);
    SAME(panel_columns(table, sizeof table), 0);
    SAME(panel_table_entry(table, 1279), panel_value(panel_column(1279)));
    SAME(panel_column_side(panel_table_entry(table, 245)), 1); /* 245 = 160 + 80 + 5 */
    SAME(panel_column_group(panel_table_entry(table, 245)), 1);
    SAME(panel_column_column(panel_table_entry(table, 245)), 5);
    SAME(panel_fresh(state, sizeof state, 1), 0);
    SAME(panel_open_page(state, 2), PANEL_CLOSED);
    SAME(panel_call(state, sizeof state, memory, sizeof memory, PANEL_ACCESS_PAGE, 2, 0, 0, 0, 0), 0);
    SAME(panel_open_page(state, 2), 0);
    SAME(panel_call(state, sizeof state, memory, sizeof memory, PANEL_WRITE_REGISTER, PANEL_COMPARE_CONTROL, 0, 0, 0,
                    PANEL_PICKING_ON | PANEL_SET_HIT),
         0);
    SAME(panel_value(panel_call(state, sizeof state, memory, sizeof memory, PANEL_STATELESS_WRITE, 0, 0, 6, 0, 0x01010101)),
         6); /* bytes 1 and 2 changed */
    SAME(panel_picking(state), 1);
    SAME(panel_hit(state), 1);
    SAME(panel_value(panel_scan_line(state, sizeof state, memory, sizeof memory, 3, 0, 15)), 3 * 1280 + 15 * 80);
    SAME(panel_call(state, sizeof state, memory, sizeof memory, PANEL_VIDEO_TRANSFER, 2, 15, 0, 0, 0), 0);
    clocks(state, memory);
}

int main(void)
{
    sizes();
    lists();
    compare_bits();
    texts();
    accessors();
    functions();
    if (failures == 0)
        printf("header: constants, accessors and functions are as they must be\n");
    return failures != 0;
}
