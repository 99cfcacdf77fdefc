/* panel.h: the 3D-RAM chip M5M410092B as a library, for C and C++ callers. Link with libpanel.a (x86-64).
 *
 * The chip is a frame memory that draws. Four banks of memory pages hold the picture, one byte a pixel. A pixel buffer of
 * eight slots stands between the program and the memory: a slot holds one block of 32 bytes. A program draws in four steps:
 *
 *   1. open the page             PANEL_ACCESS_PAGE    bank, page
 *   2. load a block to a slot    PANEL_READ_BLOCK     bank, block, slot
 *   3. write words in the slot   PANEL_STATEFUL_WRITE slot, word, byte enables, PANEL_PASS_IN, data
 *   4. write the slot back       PANEL_MASKED_WRITE   bank, block, slot; then PANEL_PRECHARGE closes the page
 *
 * A display reads the picture as scan lines of memory (panel_scan_line), or as the chip puts it out: PANEL_VIDEO_TRANSFER takes
 * a scan line into one of two video buffers, and each PANEL_VIDEO_CLOCK gives two pixels of it.
 *
 * The program owns all bytes. It lends two buffers with every call, the state block and the memory; the library keeps
 * nothing of its own, so any number of chips can be used side by side.
 *
 * What a caller owes. The library cannot test these; all else it tests, and answers by a number.
 *   - A pointer is not null, and points to as many bytes as the length beside it says, also where the call will be refused.
 *   - State block, memory and column table do not overlap. They need no alignment.
 *   - Nobody else writes them while a call runs: no two threads use one chip at the same time.
 *   - Between calls the bytes stay as they are. Memory may be read at any time; what else may be done with it, and which calls
 *     lose no one's drawing, is in docs/DUTIES.md.
 *   - This header is read as C99 or later, or as C++98 or later with <stdint.h>, and linked on x86-64 Linux;
 *     the library is made for processors with popcnt (x86-64-v2).
 *
 * Every function answers one 64-bit number; panel_number, panel_value, panel_pass and panel_written take it apart. Look at
 * panel_number first: PANEL_DONE, or the reason of a refusal. A refused call has changed nothing, and its value is 0. */
#ifndef PANEL_H
#define PANEL_H

#include <stddef.h>
#include <stdint.h>

#ifdef __cplusplus
extern "C" {
#endif

/* ---- Version: the major number is raised by each growth of the state block, and by all else that a caller must follow; the
 * minor one by what is added beside, or by what changes speed alone. A library whose block has another length refuses this
 * header's with PANEL_ILL_FORMED. Library 3.0 answers as this one does. Library 2.0 has a block of this length and takes it; its
 * data writes have value 0. ---- */

#define PANEL_VERSION_MAJOR 3
#define PANEL_VERSION_MINOR 1

/* ---- Sizes ---- */

#define PANEL_STATE_BYTES 512u /* the state block */
#define PANEL_PAGES_MIN 1u     /* pages in each bank: 1 to 257; the whole screen needs 256, page 256 is off screen */
#define PANEL_PAGES_MAX 257u
#define PANEL_BANKS 4u
#define PANEL_PAGE_BYTES 1280u /* a page: 16 scan lines of 80 bytes */
#define PANEL_LINES 16u
#define PANEL_LINE_BYTES 80u
#define PANEL_BLOCKS 40u      /* a page is 40 blocks, ten across and four down, counted down each column of four */
#define PANEL_BLOCK_BYTES 32u /* a block: 4 lines of 8 bytes, which are words 0, 1 / 2, 3 / 4, 5 / 6, 7 */
#define PANEL_SLOTS 8u
#define PANEL_WORDS 8u         /* words of 32 bits in a block; byte 0 of a word is its bits 7 to 0 */
#define PANEL_VIDEO_BUFFERS 2u /* each holds one scan line */
#define PANEL_VIDEO_CLOCKS 40u /* video clocks that put out a whole scan line, two bytes each */
#define PANEL_SCREEN_WIDTH 1280u
#define PANEL_SCREEN_HEIGHT 1024u
#define PANEL_COLUMNS_BYTES 2560u /* the column table: 1,280 numbers of 16 bits */

/* The bytes of memory that a chip of so many pages in a bank needs. */
#define PANEL_MEMORY_BYTES(pages) ((size_t)PANEL_BANKS * PANEL_PAGE_BYTES * (size_t)(pages))

/* ---- Operations of panel_call: its op, with the operands that it takes ----
 * Banks are 0 to 3, pages 0 to P - 1 on a chip of P pages in a bank, blocks 0 to 39, slots 0 to 7, words 0 to 7, registers
 * 1 to 7, lines 0 to 15. Operands that are not named must be 0, and so must data where it is not named. */

enum panel_operation {
    PANEL_ACCESS_PAGE = 1,       /* a bank, b page: opens the page of a closed bank */
    PANEL_PRECHARGE = 2,         /* a bank: closes it; a closed bank stays closed */
    PANEL_DUPLICATE_PAGE = 3,    /* a bank, b page: copies the open page over page b, which becomes the open page */
    PANEL_READ_BLOCK = 4,        /* a bank, b block, c slot: loads the open page's block, clears the slot's tag */
    PANEL_MASKED_WRITE = 5,      /* a bank, b block, c slot: writes the slot's tagged bytes back, bits under the plane mask */
    PANEL_UNMASKED_WRITE = 6,    /* the same without the plane mask; value (of both): how many bytes are tagged */
    PANEL_DATA_READ = 7,         /* a slot, b word; value: the word */
    PANEL_STATELESS_INITIAL = 8, /* a slot, b word, c byte enables 0 to 15, d pass-in 0 to 3, data: see below */
    PANEL_STATELESS_WRITE = 9,   /* value (of all four): which bytes changed, bit n for byte n */
    PANEL_STATEFUL_INITIAL = 10,
    PANEL_STATEFUL_WRITE = 11,
    PANEL_REPLACE_TAG = 12,    /* a slot, data: the slot's tag becomes data */
    PANEL_OR_TAG = 13,         /* a slot, data: data's ones join the slot's tag */
    PANEL_WRITE_REGISTER = 14, /* a register, data */
    PANEL_READ_REGISTER = 15,  /* a register; value: what it holds */
    PANEL_VIDEO_TRANSFER = 16, /* a bank, b line: copies that scan line of the open page into the bank's video buffer */
    PANEL_VIDEO_CLOCK = 17     /* value: the next two bytes of the selected video buffer, the lower column in bits 7:0 */
};

/* The four data writes. OLD is the word at (slot, word), NEW is data or the constant source. Byte n is written where bit n of
 * the byte enables is set, with the raster result of NEW and OLD, and only in the bits under the plane mask. Bit 4 * word + n
 * of the slot's tag is then set: it says which bytes a write-back takes.
 * Stateful writes obey the registers: a write is enabled if pass-in is 3 and both compare tests pass (or decal, see below).
 * Stateless writes ignore registers and pass-in: data goes to the enabled bytes.
 * Initial writes first clear the tag of the slot that they write to, enabled or not; normal writes add to the tag.
 * The answer's pass says that both tests passed, written that the write was enabled; stateless writes answer 1 and 1.
 * The answer's value says which bytes of the word that was written to changed, and so what to paint again: bit n is 1 exactly
 * where byte n in the slot differs from before. It is 0 where the write was not enabled. A byte that is written as it was has
 * bit 0, and is tagged all the same. */

#define PANEL_ALL_BYTES 15u /* byte enables: all four bytes of the word */
#define PANEL_PASS_IN 3u    /* pass-in: both inputs high, as a stateful write needs */

/* The two video calls. Banks 0 and 2 feed video buffer 0, banks 1 and 3 feed buffer 1. Forty clocks put out the selected
 * buffer, and the fortieth selects the other one. So a display transfers the next scan line into one buffer while the other is
 * put out: along a line of the screen the banks alternate between them. The selected buffer takes a transfer only before its
 * first clock. A transfer copies what memory holds then: bytes that wait in the pixel buffer are not in it, and what is
 * written to memory later does not show. */

/* ---- Numbers: what panel_number gives. The first that applies is given, in this order. (9 is the small program's.) ---- */

enum panel_answer_number {
    PANEL_DONE = 0,
    PANEL_ILL_FORMED = 1,    /* the state block is not 512 bytes, or not a chip's state */
    PANEL_MEMORY_LENGTH = 2, /* memory is not PANEL_MEMORY_BYTES(pages) long, for the pages that the state names */
    PANEL_NO_OPERATION = 3,  /* op is not 1 to 17 */
    PANEL_OUT_OF_RANGE = 4,  /* an operand out of its range, or one not used (or data not used) that is not 0 */
    PANEL_REGISTER_BITS = 5, /* a register written with a bit that it does not have */
    PANEL_BANK_OPEN = 6,     /* access page on an open bank */
    PANEL_BANK_CLOSED = 7,   /* duplicate page, read block, write block or video transfer on a closed bank */
    PANEL_NO_POINT = 8,      /* no such screen point, or it lies in a page that this chip does not have */
    PANEL_BUFFER_IN_USE = 10 /* video transfer into the selected buffer while the video counter is not 0 */
};

/* ---- Registers: a of PANEL_WRITE_REGISTER and PANEL_READ_REGISTER ---- */

enum panel_register {
    PANEL_PLANE_MASK = 1,           /* bits that stateful writes and masked write-backs may change; fresh: all */
    PANEL_CONSTANT_SOURCE = 2,      /* a second source for NEW; fresh: 0 */
    PANEL_MATCH_MASK = 3,           /* bits that the match test compares; fresh: none */
    PANEL_MAGNITUDE_MASK = 4,       /* bits that the magnitude test compares; fresh: none */
    PANEL_ROP_CONTROL = 5,          /* a raster code for each byte: PANEL_ROP_ALL(..); fresh: copy */
    PANEL_COMPARE_CONTROL = 6,      /* the two tests, decal, picking and hit; fresh: both tests always pass */
    PANEL_WRITE_ADDRESS_CONTROL = 7 /* 1: a stateful write goes to slot data 29:27, word data 26:24; fresh: 0 */
};

#define PANEL_PLANE_MASK_FRESH UINT32_C(0xFFFFFFFF)
#define PANEL_ROP_CONTROL_FRESH UINT32_C(0x03030303)
#define PANEL_ROP_CONTROL_BITS UINT32_C(0x2F2F2F2F)     /* bits that ROP control has */
#define PANEL_COMPARE_CONTROL_BITS UINT32_C(0x0F030707) /* bits that may be written; 27 to 24 act and are kept as 0 */
#define PANEL_WRITE_ADDRESS_CONTROL_BITS UINT32_C(1)

/* Raster codes: those of the X Window System's GC functions, NEW for its source and OLD for its destination. */
enum panel_raster {
    PANEL_CLEAR = 0,          /* 0 */
    PANEL_AND = 1,            /* NEW & OLD */
    PANEL_AND_REVERSE = 2,    /* NEW & ~OLD */
    PANEL_COPY = 3,           /* NEW */
    PANEL_AND_INVERTED = 4,   /* ~NEW & OLD */
    PANEL_KEEP = 5,           /* OLD */
    PANEL_XOR = 6,            /* NEW ^ OLD */
    PANEL_OR = 7,             /* NEW | OLD */
    PANEL_NOR = 8,            /* ~NEW & ~OLD */
    PANEL_EQUIV = 9,          /* ~NEW ^ OLD */
    PANEL_INVERT = 10,        /* ~OLD */
    PANEL_OR_REVERSE = 11,    /* NEW | ~OLD */
    PANEL_COPY_INVERTED = 12, /* ~NEW */
    PANEL_OR_INVERTED = 13,   /* ~NEW | OLD */
    PANEL_NAND = 14,          /* ~NEW | ~OLD */
    PANEL_SET = 15            /* all ones */
};

#define PANEL_ROP_CONSTANT UINT32_C(0x20)                           /* beside a raster code: NEW is the constant source */
#define PANEL_ROP_ALL(code) ((uint32_t)(code)*UINT32_C(0x01010101)) /* the same code in all four bytes */

/* Compare control: one of each group, joined by |. Both tests see the whole word under their masks, as unsigned numbers. */
#define PANEL_MATCH_ALWAYS UINT32_C(0x000)
#define PANEL_MATCH_NEVER UINT32_C(0x100)
#define PANEL_MATCH_EQUAL UINT32_C(0x200)
#define PANEL_MATCH_DIFFER UINT32_C(0x300)

#define PANEL_MAGNITUDE_ALWAYS UINT32_C(0)
#define PANEL_MAGNITUDE_GREATER UINT32_C(1)       /* NEW > OLD */
#define PANEL_MAGNITUDE_EQUAL UINT32_C(2)         /* NEW = OLD */
#define PANEL_MAGNITUDE_GREATER_EQUAL UINT32_C(3) /* NEW >= OLD */
#define PANEL_MAGNITUDE_NEVER UINT32_C(4)
#define PANEL_MAGNITUDE_LESS_EQUAL UINT32_C(5) /* NEW <= OLD */
#define PANEL_MAGNITUDE_DIFFER UINT32_C(6)
#define PANEL_MAGNITUDE_LESS UINT32_C(7) /* NEW < OLD */

#define PANEL_DECAL UINT32_C(0x400) /* a write is also enabled where pass-in is 3 and the match test fails */

#define PANEL_BOTH_DATA UINT32_C(0x00000)          /* NEW of both tests is data */
#define PANEL_BOTH_CONSTANT UINT32_C(0x10000)      /* NEW of both tests is the constant source */
#define PANEL_MAGNITUDE_CONSTANT UINT32_C(0x20000) /* NEW is data for match, the constant source for magnitude */
#define PANEL_MATCH_CONSTANT UINT32_C(0x30000)     /* NEW is the constant source for match, data for magnitude */

#define PANEL_CLEAR_HIT UINT32_C(0x02000000) /* these four act once, when compare control is written */
#define PANEL_SET_HIT UINT32_C(0x03000000)
#define PANEL_PICKING_OFF UINT32_C(0x08000000)
#define PANEL_PICKING_ON UINT32_C(0x0C000000) /* from now on each enabled stateful write sets hit */

/* ---- The state block: little endian. Only panel_fresh and panel_call write it; store and restore it whole. ---- */

#define PANEL_AT_BANKS 16u          /* four open pages, 16 bits each; PANEL_CLOSED is none */
#define PANEL_AT_REGISTERS 24u      /* seven registers, 32 bits each, as flags, counter and tags */
#define PANEL_AT_FLAGS 52u          /* bit 0 picking, bit 1 hit */
#define PANEL_AT_COUNTER 56u        /* calls done; after FFFFFFFFh comes 0 */
#define PANEL_AT_TAGS 60u           /* eight tags; bit 4 * word + n is byte n of that word */
#define PANEL_AT_PIXELS 92u         /* eight slots of 32 bytes */
#define PANEL_AT_VIDEO 348u         /* two video buffers of 80 bytes */
#define PANEL_AT_VIDEO_COUNTER 508u /* 16 bits, 0 to 39: a clock puts out the bytes at twice this and the next */
#define PANEL_AT_VIDEO_SELECT 510u  /* 16 bits, 0 or 1: the video buffer that is selected */
#define PANEL_CLOSED 65535u

/* ---- Functions ---- */

/* Makes a fresh chip of so many pages in a bank: all banks closed, registers fresh, all else 0. What state held before does not
 * matter, and memory is not touched. state_len must be PANEL_STATE_BYTES. Refuses by 1 and 4. */
uint64_t panel_fresh(uint8_t *state, size_t state_len, uint32_t pages);

/* One operation on the chip: op is one of enum panel_operation, with the operands named there. memory must have
 * PANEL_MEMORY_BYTES(pages) bytes, also for operations that do not touch it. Value, pass and written are 0 where the
 * operation's line names none. Refuses by 1 to 7, and 10. */
uint64_t panel_call(uint8_t *state, size_t state_len, uint8_t *memory, size_t memory_len, uint32_t op, uint32_t a, uint32_t b,
                    uint32_t c, uint32_t d, uint32_t data);

/* A scan line for the display. Value: where its 80 bytes start in memory (0 is a place too: look at the number). Bytes that
 * still wait in the pixel buffer are not in it. Changes nothing. Refuses by 1, 2, and 4 for bank, page or line. */
uint64_t panel_scan_line(const uint8_t *state, size_t state_len, const uint8_t *memory, size_t memory_len, uint32_t bank,
                         uint32_t page, uint32_t line);

/* Where screen point (x, y) of the 1280 x 1024 screen lies, on a chip of so many pages. Value: read it by panel_point_bank,
 * .._page, .._line, .._column. Refuses by 4 for pages, and 8. */
uint64_t panel_point(uint32_t pages, uint32_t x, uint32_t y);

/* Entry x of the column table. Value: read it by panel_column_side, .._group, .._column. Refuses by 8. */
uint64_t panel_column(uint32_t x);

/* Fills table with the whole column table: 1,280 numbers of 16 bits, little endian. A drawing program does this once and then
 * reads it by panel_table_entry. len must be PANEL_COLUMNS_BYTES. Refuses by 4. */
uint64_t panel_columns(uint8_t *table, size_t len);

/* ---- Taking an answer apart ---- */

static inline uint32_t panel_number(uint64_t answer) { return (uint32_t)(answer >> 40) & 0xFFu; }
static inline uint32_t panel_value(uint64_t answer) { return (uint32_t)answer; }
static inline int panel_pass(uint64_t answer) { return (int)(answer >> 32) & 1; }
static inline int panel_written(uint64_t answer) { return (int)(answer >> 33) & 1; }

/* A number in words, for messages. */
static inline const char *panel_number_text(uint32_t number)
{
    switch (number) {
    case PANEL_DONE: return "done";
    case PANEL_ILL_FORMED: return "the state block is not a chip's state";
    case PANEL_MEMORY_LENGTH: return "memory has the wrong length";
    case PANEL_NO_OPERATION: return "no such operation";
    case PANEL_OUT_OF_RANGE: return "an operand is out of range, or one that is not used is not 0";
    case PANEL_REGISTER_BITS: return "the register has no such bit";
    case PANEL_BANK_OPEN: return "the bank is open";
    case PANEL_BANK_CLOSED: return "the bank is closed";
    case PANEL_NO_POINT: return "no such screen point on this chip";
    case PANEL_BUFFER_IN_USE: return "the video buffer is being put out";
    default: return "no number of the library";
    }
}

/* Of panel_point's value: */
static inline uint32_t panel_point_bank(uint32_t value) { return value >> 28; }
static inline uint32_t panel_point_page(uint32_t value) { return value >> 16 & 0xFFFu; }
static inline uint32_t panel_point_line(uint32_t value) { return value >> 8 & 0xFFu; }
static inline uint32_t panel_point_column(uint32_t value) { return value & 0xFFu; }

/* Of a line and column in a page: the block, the word in it and the byte in that. */
static inline uint32_t panel_block_at(uint32_t line, uint32_t column) { return line / 4 + 4 * (column / 8); }
static inline uint32_t panel_word_at(uint32_t line, uint32_t column) { return 2 * (line % 4) + column % 8 / 4; }
static inline uint32_t panel_byte_at(uint32_t column) { return column % 4; }

/* Of the column table: entry x, and the parts of an entry. Point (x, y) lies in bank 2 * (y mod 32 div 16) + side, page
 * 8 * (y div 32) + group, line y mod 16, column. x must be below PANEL_SCREEN_WIDTH: it is not tested, and any other x reads
 * outside the table. */
static inline uint32_t panel_table_entry(const uint8_t *table, uint32_t x)
{
    return table[2 * x] | (uint32_t)table[2 * x + 1] << 8;
}
static inline uint32_t panel_column_side(uint32_t entry) { return entry >> 10; }
static inline uint32_t panel_column_group(uint32_t entry) { return entry >> 7 & 7u; }
static inline uint32_t panel_column_column(uint32_t entry) { return entry & 127u; }

/* Of the state block; a bank is 0 to 3, and is not tested: */
static inline int panel_picking(const uint8_t *state) { return state[PANEL_AT_FLAGS] & 1; }
static inline int panel_hit(const uint8_t *state) { return state[PANEL_AT_FLAGS] >> 1 & 1; }
static inline uint32_t panel_open_page(const uint8_t *state, uint32_t bank) /* or PANEL_CLOSED */
{
    const uint8_t *at = state + PANEL_AT_BANKS + 2 * bank;
    return at[0] | (uint32_t)at[1] << 8;
}
static inline uint32_t panel_video_counter(const uint8_t *state) { return state[PANEL_AT_VIDEO_COUNTER]; }
static inline uint32_t panel_video_select(const uint8_t *state) { return state[PANEL_AT_VIDEO_SELECT]; }

#ifdef __cplusplus
}
#endif

#endif
