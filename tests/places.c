/* places.c: screen points, the column table and scan lines, all of them. */
#include "phases.h"

#include <stdlib.h>
#include <string.h>

#include "pair.h"
#include "panel.h"

enum { WIDTH = 1280, HEIGHT = 1024 };

/* Numbers past every edge that a place can have, and some that are in range only if their upper bits were dropped. */
static const uint32_t outside[] = {1024,  1025,      1279,       1280,       1281,       1440,       2560,       65535,
                                   65536, 65536 + 5, 0x01000005, 0x7FFFFFFF, 0x80000000, 0x80000005, 0xFFFFFFFE, 0xFFFFFFFF};
enum { OUTSIDE = sizeof outside / sizeof *outside };

static uint64_t point(uint32_t pages, uint32_t x, uint32_t y)
{
    uint64_t answer = panel_point(pages, x, y);
    same_answer(TRIED_POINT, answer, model_point(pages, x, y), "panel_point", pages, x, y);
    return answer;
}

/* Each point inside, on a chip of so many pages. */
static void points_inside(uint32_t pages)
{
    for (uint32_t y = 0; y < HEIGHT; y++)
        for (uint32_t x = 0; x < WIDTH; x++)
            point(pages, x, y);
}

static void points_outside(uint32_t pages)
{
    for (int i = 0; i < OUTSIDE; i++) {
        for (uint32_t near = 0; near < WIDTH; near++) {
            point(pages, outside[i], near);
            point(pages, near, outside[i]);
        }
        for (int j = 0; j < OUTSIDE; j++)
            point(pages, outside[i], outside[j]);
    }
}

/* No two points share a byte, and they fill pages 0 to 255 of each bank: checked on the library alone. */
static void points_fill(void)
{
    uint8_t *met = need(PANEL_MEMORY_BYTES(256));
    for (uint32_t y = 0; y < HEIGHT; y++)
        for (uint32_t x = 0; x < WIDTH; x++) {
            uint32_t at = panel_value(panel_point(257, x, y));
            size_t page = (size_t)panel_point_bank(at) * 256 + panel_point_page(at);
            size_t byte = (page * 16 + panel_point_line(at)) * 80 + panel_point_column(at);
            if (byte >= PANEL_MEMORY_BYTES(256) || met[byte]++ != 0)
                wrong("two points share a byte, or a point is off screen", byte, PANEL_MEMORY_BYTES(256));
        }
    free(met); /* 1280 x 1024 points, none twice, in as many bytes: all are met */
}

/* A point of every page, of every bank, for each number of pages that a chip can have. */
static void points_of_pages(void)
{
    for (uint32_t pages = 1; pages <= PANEL_PAGES_MAX; pages++)
        for (uint32_t y = pages % 16; y < HEIGHT; y += 16)
            for (uint32_t x = pages % 80; x < WIDTH; x += 80)
                point(pages, x, y);
}

void try_points(void)
{
    static const uint32_t pages[] = {1, 2, 9, 255, 256, 257};
    static const uint32_t no_pages[] = {0, 258, 259, 65536 + 9, 0x80000001, 0xFFFFFFFF};
    for (int i = 0; i < 6; i++) {
        points_inside(pages[i]);
        points_outside(pages[i]);
    }
    for (int i = 0; i < 6; i++)
        points_outside(no_pages[i]);
    points_of_pages();
    points_fill();
}

/* ---- Columns ---- */

/* A table of so many bytes, so far past a multiple of 16. */
static void columns_of_length(size_t len, size_t past)
{
    enum { ROOM = 64 + 5120 + 64 };
    uint8_t library[ROOM], model[ROOM];
    size_t at = 32 + (PLACES - (uintptr_t)library % PLACES) + past;
    for (int i = 0; i < ROOM; i++)
        library[i] = model[i] = (uint8_t)(i * 37 + 11);
    same_answer(TRIED_COLUMNS, panel_columns(library + at, len), model_columns(model + at, len), "panel_columns", (uint32_t)len,
                (uint32_t)past, 0);
    for (int i = 0; i < ROOM; i++)
        if (library[i] != model[i])
            wrong("panel_columns: a byte of the table, or one that it must not write", library[i], model[i]);
}

void try_columns(void)
{
    static const size_t lengths[] = {PANEL_COLUMNS_BYTES, 0, 1, 2, 1280, 2558, 2559, 2561, 2562, 5120};
    for (size_t i = 0; i < sizeof lengths / sizeof *lengths; i++)
        for (size_t past = 0; past < PLACES; past++)
            columns_of_length(lengths[i], past);
    for (uint32_t x = 0; x < 70000; x++)
        same_answer(TRIED_COLUMN, panel_column(x), model_column(x), "panel_column", x, 0, 0);
    for (int i = 0; i < OUTSIDE; i++)
        same_answer(TRIED_COLUMN, panel_column(outside[i]), model_column(outside[i]), "panel_column", outside[i], 0, 0);
}

/* ---- Scan lines ---- */

/* Of each bank the pages 0, step, 2 * step and so on. */
static void lines_inside(struct pair *pair, uint32_t step)
{
    for (uint32_t bank = 0; bank < 4; bank++)
        for (uint32_t page = 0; page < pair->pages; page += step)
            for (uint32_t line = 0; line < 16; line++) {
                uint64_t answer = pair_scan_line(pair, MODEL_STATE, pair->memory_len, bank, page, line);
                if (panel_value(answer) + PANEL_LINE_BYTES > pair->memory_len)
                    wrong("a scan line ends outside memory", panel_value(answer), pair->memory_len);
            }
}

static void lines_outside(struct pair *pair)
{
    const uint32_t past[] = {4, 5, 16, 17, 256 + 3, pair->pages, pair->pages + 1, 65536, 0x80000000, 0xFFFFFFFF};
    for (int i = 0; i < 10; i++) {
        pair_scan_line(pair, MODEL_STATE, pair->memory_len, past[i], 0, 0);
        pair_scan_line(pair, MODEL_STATE, pair->memory_len, 0, past[i], 0);
        pair_scan_line(pair, MODEL_STATE, pair->memory_len, 0, 0, past[i]);
    }
}

/* A point drawn through the chip is found in the scan line that panel_point names, and nowhere else. */
static void line_shows(struct pair *pair, uint32_t x, uint32_t y)
{
    uint32_t at = panel_value(panel_point(pair->pages, x, y)), bank = panel_point_bank(at), page = panel_point_page(at);
    uint32_t line = panel_point_line(at), column = panel_point_column(at);
    struct call open = {PANEL_ACCESS_PAGE, bank, page, 0, 0, 0};
    struct call load = {PANEL_READ_BLOCK, bank, panel_block_at(line, column), 3, 0, 0};
    struct call draw = {PANEL_STATELESS_WRITE, 3, panel_word_at(line, column), 1u << panel_byte_at(column), 0, 0x5A5A5A5A};
    struct call back = {PANEL_MASKED_WRITE, bank, panel_block_at(line, column), 3, 0, 0};
    struct call close = {PANEL_PRECHARGE, bank, 0, 0, 0, 0};
    pair_call(pair, &open);
    pair_call(pair, &load);
    pair_call(pair, &draw);
    pair_call(pair, &back);
    pair_call(pair, &close);
    uint8_t *shown = pair->library.memory + panel_value(pair_scan_line(pair, MODEL_STATE, pair->memory_len, bank, page, line));
    if (shown[column] != 0x5A)
        wrong("a drawn point in its scan line", shown[column], 0x5A);
    memset(shown, 0, 80);
    memset(pair->model.memory + (shown - pair->library.memory), 0, 80);
    for (size_t i = 0; i < pair->memory_len; i++)
        if (pair->library.memory[i] != 0)
            wrong("memory outside the scan line of a drawn point", pair->library.memory[i], 0);
}

static void lines_show(struct pair *pair)
{
    static const uint32_t xs[] = {0, 7, 79, 80, 165, 1279}, ys[] = {0, 15, 16, 37, 1023};
    for (int i = 0; i < 6; i++)
        for (int j = 0; j < 5; j++)
            if (panel_number(panel_point(pair->pages, xs[i], ys[j])) == PANEL_DONE)
                line_shows(pair, xs[i], ys[j]);
}

/* A fresh chip over zero memory. */
static void make(struct pair *pair, uint32_t pages)
{
    uint8_t state[MODEL_STATE], *zero;
    pair_make(pair, pages);
    zero = need(pair->memory_len);
    model_fresh(state, sizeof state, pages);
    pair_start(pair, state, zero);
    free(zero);
}

static void end(struct pair *pair)
{
    pair_whole(pair, NULL);
    pair_free(pair);
}

void try_scan_lines(uint32_t pages)
{
    struct pair pair;
    make(&pair, pages);
    lines_inside(&pair, 1);
    lines_outside(&pair);
    lines_show(&pair);
    end(&pair);
}

void try_last_lines(uint32_t pages)
{
    struct pair pair;
    make(&pair, pages);
    lines_inside(&pair, pages > 1 ? pages - 1 : 1);
    lines_outside(&pair);
    end(&pair);
}
