/* scans.c: scan-out to the display. Video transfers and clocks wherever the display is, stored counters and selects of every
 * value, scan lines put out whole against memory, and what random video calls met. pair.h says what is compared beside. */
#include "phases.h"

#include <stdio.h>
#include <stdlib.h>
#include <string.h>

#include "draw.h"
#include "pair.h"
#include "panel.h"

static const struct call clock_call = {PANEL_VIDEO_CLOCK, 0, 0, 0, 0, 0};

/* Any well-formed chip over random memory. */
static void make(struct pair *pair, uint32_t pages, uint8_t *state)
{
    struct source from = source_of(pages);
    uint8_t *memory;
    pair_make(pair, pages);
    memory = need(pair->memory_len);
    draw_bytes(&from, memory, pair->memory_len);
    draw_state(&from, state, pages);
    pair_start(pair, state, memory);
    free(memory);
}

static void set_scan(uint8_t *state, uint32_t counter, uint32_t select)
{
    put16(state + PANEL_AT_VIDEO_COUNTER, counter);
    put16(state + PANEL_AT_VIDEO_SELECT, select);
}

/* ---- Wherever the display is ---- */

/* A clock, and a transfer of each line of each bank; each on the same chip, so that none depends on another. */
static void calls_on(struct pair *pair, const uint8_t *state)
{
    pair_state(pair, state);
    pair_call(pair, &clock_call);
    for (uint32_t bank = 0; bank < PANEL_BANKS; bank++)
        for (uint32_t line = 0; line < PANEL_LINES; line++) {
            struct call transfer = {PANEL_VIDEO_TRANSFER, bank, line, 0, 0, 0};
            pair_state(pair, state);
            pair_call(pair, &transfer);
        }
}

/* At each counter and select, with all banks at this page, which may be none. */
static void calls_at(struct pair *pair, uint8_t *state, uint32_t page)
{
    for (uint32_t bank = 0; bank < PANEL_BANKS; bank++)
        put16(state + PANEL_AT_BANKS + 2 * bank, page);
    for (uint32_t select = 0; select < PANEL_VIDEO_BUFFERS; select++)
        for (uint32_t counter = 0; counter < PANEL_VIDEO_CLOCKS; counter++) {
            set_scan(state, counter, select);
            calls_on(pair, state);
        }
}

void try_scans(uint32_t pages)
{
    struct pair pair;
    uint8_t state[MODEL_STATE];
    make(&pair, pages, state);
    calls_at(&pair, state, PANEL_CLOSED);
    calls_at(&pair, state, pages - 1);
    pair_whole(&pair, NULL);
    pair_free(&pair);
}

/* ---- Scan lines put out whole ---- */

/* The scan line that panel_scan_line names is what a transfer and forty clocks put out. */
static void put_out(struct pair *pair, uint32_t bank, uint32_t page, uint32_t line)
{
    struct call transfer = {PANEL_VIDEO_TRANSFER, bank, line, 0, 0, 0};
    size_t at = panel_value(pair_scan_line(pair, MODEL_STATE, pair->memory_len, bank, page, line));
    pair_call(pair, &transfer);
    for (uint32_t n = 0; n < PANEL_VIDEO_CLOCKS; n++) {
        uint64_t answer = pair_call(pair, &clock_call);
        uint32_t expected = get16(pair->library.memory + at + 2 * n);
        if (answer != expected)
            wrong_at(pair, &clock_call, "two bytes put out", answer, expected);
    }
}

/* Each line of one page of the banks, which alternate as the select does. */
static void put_out_page(struct pair *pair, uint32_t page)
{
    pair_fresh(pair, MODEL_STATE, pair->pages);
    for (uint32_t bank = 0; bank < PANEL_BANKS; bank++) {
        struct call open = {PANEL_ACCESS_PAGE, bank, page, 0, 0, 0};
        pair_call(pair, &open);
    }
    for (uint32_t line = 0; line < PANEL_LINES; line++)
        for (uint32_t bank = 0; bank < PANEL_BANKS; bank++)
            put_out(pair, bank, page, line);
}

void try_put_out(uint32_t pages)
{
    struct pair pair;
    uint8_t state[MODEL_STATE];
    make(&pair, pages, state);
    put_out_page(&pair, 0);
    put_out_page(&pair, pages - 1);
    pair_whole(&pair, NULL);
    pair_free(&pair);
}

/* ---- Stored counters and selects ---- */

/* Each number of 16 bits is tried: up to the last it is taken, above it every function gives 1. */
static void stored(struct pair *pair, const uint8_t *state, uint32_t at, uint32_t last)
{
    uint8_t damaged[MODEL_STATE];
    memcpy(damaged, state, sizeof damaged);
    for (uint32_t value = 0; value <= 0xFFFF; value++) {
        uint32_t expected = value <= last ? PANEL_DONE : PANEL_ILL_FORMED;
        put16(damaged + at, value);
        pair_state(pair, damaged);
        uint32_t line = panel_number(pair_scan_line(pair, MODEL_STATE, pair->memory_len, 0, 0, 0));
        uint32_t call = panel_number(pair_call(pair, &clock_call));
        if (line != expected || call != expected)
            wrong_at(pair, &clock_call, "the number of a stored counter or select", call, expected);
    }
}

void try_stored_scans(void)
{
    struct pair pair;
    uint8_t state[MODEL_STATE];
    make(&pair, 1, state);
    stored(&pair, state, PANEL_AT_VIDEO_COUNTER, PANEL_VIDEO_CLOCKS - 1);
    stored(&pair, state, PANEL_AT_VIDEO_SELECT, PANEL_VIDEO_BUFFERS - 1);
    pair_whole(&pair, NULL);
    pair_free(&pair);
}

/* ---- What random video calls met: all of it must have been ---- */

enum { INTO_SELECTED, INTO_OTHER, CLOSED, CLOSED_IN_USE, IN_USE, MOMENTS };
static const char *const moments[MOMENTS] = {
    "transfers into the selected buffer, counter 0",
    "transfers into the other buffer, counter not 0",
    "transfers refused with 7",
    "of these the ones that 10 would refuse too",
    "transfers refused with 10",
};
static unsigned long met[MOMENTS], clocked[PANEL_VIDEO_BUFFERS][PANEL_VIDEO_CLOCKS];

static void note_transfer(uint32_t number, bool selected, bool started)
{
    met[INTO_SELECTED] += number == PANEL_DONE && selected && !started;
    met[INTO_OTHER] += number == PANEL_DONE && !selected && started;
    met[CLOSED] += number == PANEL_BANK_CLOSED;
    met[CLOSED_IN_USE] += number == PANEL_BANK_CLOSED && selected && started;
    met[IN_USE] += number == PANEL_BUFFER_IN_USE;
}

void note_scan(const uint8_t *state, size_t memory_len, const struct call *call)
{
    uint32_t counter = model_video_counter(state), select = model_video_select(state);
    if (call->op == PANEL_VIDEO_TRANSFER)
        note_transfer(model_number(state, MODEL_STATE, memory_len, call), call->a % 2 == select, counter != 0);
    if (call->op == PANEL_VIDEO_CLOCK && model_number(state, MODEL_STATE, memory_len, call) == PANEL_DONE)
        clocked[select][counter]++;
}

static unsigned long fewest_clocks(void)
{
    unsigned long fewest = clocked[0][0];
    for (uint32_t select = 0; select < PANEL_VIDEO_BUFFERS; select++)
        for (uint32_t counter = 0; counter < PANEL_VIDEO_CLOCKS; counter++)
            fewest = clocked[select][counter] < fewest ? clocked[select][counter] : fewest;
    return fewest;
}

bool scanned_all(void)
{
    bool all = fewest_clocks() != 0;
    printf("\nwhat random video calls met\n");
    for (int moment = 0; moment < MOMENTS; moment++) {
        printf("%12lu %s\n", met[moment], moments[moment]);
        all = all && met[moment] != 0;
    }
    printf("%12lu clocks or more at each counter of each buffer, the last among them\n", fewest_clocks());
    return all;
}
