/* pictures.c: demand 3 from outside. Random calls that keep the premises are drawn; every read, pass, written and hit of the
 * library, which bytes its writes say that they changed, and all that its video clocks put out are compared with the flat
 * picture's, and memory with the whole picture each time no bytes wait. pair.h compares the same calls with the model too. */
#include "phases.h"

#include <stdio.h>
#include <stdlib.h>
#include <string.h>

#include "draw.h"
#include "flat.h"
#include "pair.h"
#include "panel.h"

/* ---- What was drawn with: each of these must have been used ---- */

enum {
    RASTER = 0,
    MATCH = RASTER + 16,
    MAGNITUDE = MATCH + 4,
    DECAL = MAGNITUDE + 8,
    HIT_SET,
    TO_ANOTHER_SLOT,
    CHANGED_THERE,
    CHANGED_ALL,
    CHANGED_SOME,
    CHANGED_NONE,
    FROM_CONSTANT,
    NOT_ENABLED,
    STATELESS,
    MASKED_BACK,
    UNMASKED_BACK,
    DUPLICATE,
    MASK_CHANGE,
    REFUSED,
    PICTURE_COMPARED,
    TRANSFER,
    TRANSFER_WAITING,
    TRANSFER_CLOSED,
    TRANSFER_IN_USE,
    CLOCK_BEFORE,
    CLOCK_SHOWN,
    CLOCK_OLDER,
    CLOCK_WRAPS,
    FEATURES
};
static unsigned long used[FEATURES];

static const char *feature_name(int feature)
{
    static const char *const names[] = {"decal write",
                                        "hit set",
                                        "written to another slot",
                                        "of these with bytes changed there",
                                        "every byte changed",
                                        "bytes changed, not all",
                                        "bytes tagged, and none changed",
                                        "new from the constant",
                                        "write not enabled",
                                        "stateless write",
                                        "masked write-back of waiting bytes",
                                        "unmasked write-back of waiting bytes",
                                        "page duplicated",
                                        "plane mask changed",
                                        "refused call",
                                        "whole picture compared",
                                        "scan line transferred",
                                        "transferred while its bytes wait",
                                        "transfer refused with 7",
                                        "transfer refused with 10",
                                        "put out before a transfer",
                                        "put out behind a transfer",
                                        "put out, and memory has changed",
                                        "last two bytes put out"};
    static char text[40];
    if (feature >= DECAL)
        return names[feature - DECAL];
    if (feature >= MAGNITUDE)
        snprintf(text, sizeof text, "magnitude code %d", feature - MAGNITUDE);
    else if (feature >= MATCH)
        snprintf(text, sizeof text, "match code %d", feature - MATCH);
    else
        snprintf(text, sizeof text, "raster code %d", feature);
    return text;
}

bool drew_all(void)
{
    bool all = true;
    printf("\nwhat the pictures were drawn with\n");
    for (int feature = 0; feature < FEATURES; feature++) {
        printf("%12lu %-38s%s", used[feature], feature_name(feature), feature % 2 ? "\n" : "");
        all = all && used[feature] != 0;
    }
    printf("%s", FEATURES % 2 ? "\n" : "");
    return all;
}

/* Which bytes a write has changed; away is a write to another slot. */
static void note_changed(const struct call *call, uint32_t changed, bool away)
{
    used[CHANGED_THERE] += away && changed != 0;
    used[CHANGED_ALL] += changed == PANEL_ALL_BYTES;
    used[CHANGED_SOME] += changed != 0 && changed != PANEL_ALL_BYTES;
    used[CHANGED_NONE] += changed == 0 && call->c != 0;
}

/* A stateful write's codes; a raster code counts for a byte that is enabled, in a write that is. */
static void note_stateful(const struct flat *flat, const struct call *call, uint64_t answer)
{
    uint32_t rop = model_register(flat->state, 5), compare = model_register(flat->state, 6);
    bool away = model_register(flat->state, 7) == 1 && (call->data >> 27 & 7) != call->a;
    used[MATCH + (compare >> 8 & 3)]++;
    used[MAGNITUDE + (compare & 7)]++;
    if (!panel_written(answer)) {
        used[NOT_ENABLED]++;
        return;
    }
    used[DECAL] += !panel_pass(answer);
    used[TO_ANOTHER_SLOT] += away;
    note_changed(call, panel_value(answer), away);
    for (int n = 0; n < 4; n++)
        if (call->c >> n & 1) {
            used[RASTER + (rop >> 8 * n & 15)]++;
            used[FROM_CONSTANT] += rop >> (8 * n + 5) & 1;
        }
}

static void note_refused(const struct call *call, uint64_t answer)
{
    used[REFUSED]++;
    if (call->op != PANEL_VIDEO_TRANSFER)
        return;
    used[TRANSFER_CLOSED] += panel_number(answer) == PANEL_BANK_CLOSED;
    used[TRANSFER_IN_USE] += panel_number(answer) == PANEL_BUFFER_IN_USE;
}

/* Bytes of the line wait where the picture has others than memory. */
static void note_transfer(const struct flat *flat, const struct call *call, const uint8_t *memory)
{
    size_t at = model_page_at(flat->state, call->a, model_open_page(flat->state, call->a)) + PANEL_LINE_BYTES * call->b;
    used[TRANSFER]++;
    used[TRANSFER_WAITING] += memcmp(memory + at, flat->picture + at, PANEL_LINE_BYTES) != 0;
}

static void note_clock(const struct flat *flat, const uint8_t *memory)
{
    const struct shown *shown = &flat->shown[model_video_select(flat->state)];
    uint32_t column = 2 * model_video_counter(flat->state);
    used[shown->any ? CLOCK_SHOWN : CLOCK_BEFORE]++;
    used[CLOCK_OLDER] += shown->any && memcmp(shown->line + column, memory + shown->at + column, 2) != 0;
    used[CLOCK_WRAPS] += column == PANEL_LINE_BYTES - 2;
}

/* Before the flat picture does the call. */
static void note(const struct flat *flat, const struct call *call, uint64_t answer, const uint8_t *memory)
{
    if (panel_number(answer) != PANEL_DONE) {
        note_refused(call, answer);
        return;
    }
    switch (call->op) {
    case PANEL_DUPLICATE_PAGE: used[DUPLICATE] += call->b != model_open_page(flat->state, call->a); break;
    case PANEL_MASKED_WRITE: used[MASKED_BACK] += flat->waiting[call->c] != 0; break;
    case PANEL_UNMASKED_WRITE: used[UNMASKED_BACK] += flat->waiting[call->c] != 0; break;
    case PANEL_STATELESS_WRITE: used[STATELESS]++; break;
    case PANEL_STATEFUL_WRITE: note_stateful(flat, call, answer); break;
    case PANEL_WRITE_REGISTER: used[MASK_CHANGE] += call->a == 1 && call->data != model_register(flat->state, 1); break;
    case PANEL_VIDEO_TRANSFER: note_transfer(flat, call, memory); break;
    case PANEL_VIDEO_CLOCK: note_clock(flat, memory); break;
    default: break;
    }
}

/* ---- The runs ---- */

static void step(struct pair *pair, struct flat *flat, const struct call *call)
{
    bool hit = model_hit(flat->state), back = call->op == PANEL_MASKED_WRITE || call->op == PANEL_UNMASKED_WRITE;
    uint64_t answer = pair_call(pair, call), expected;
    note(flat, call, answer, pair->library.memory);
    expected = flat_call(flat, call, pair->library.memory);
    if ((back ? answer >> 32 : answer) != (back ? expected >> 32 : expected))
        wrong_at(pair, call, "an answer against the flat picture's", answer, expected);
    if (panel_hit(pair->library.state) != model_hit(flat->state))
        wrong_at(pair, call, "hit against the flat picture's", (uint64_t)panel_hit(pair->library.state),
                 model_hit(flat->state));
    used[HIT_SET] += !hit && model_hit(flat->state) && call->op == PANEL_STATEFUL_WRITE;
}

static void compare_picture(struct pair *pair, const struct flat *flat)
{
    const uint8_t *memory = pair->library.memory;
    used[PICTURE_COMPARED]++;
    if (memcmp(memory, flat->picture, flat->picture_len) == 0)
        return;
    for (size_t i = 0; i < flat->picture_len; i++)
        if (memory[i] != flat->picture[i]) {
            printf("\nno bytes wait after this call, and byte %zu of memory is not the flat picture's", i);
            wrong_at(pair, NULL, "that byte", memory[i], flat->picture[i]);
        }
}

/* Writes back all that waits; then memory must be the picture. */
static void settle(struct pair *pair, struct flat *flat, struct source *from)
{
    for (uint32_t slot = 0; slot < 8; slot++)
        while (flat->waiting[slot] != 0) {
            struct call call = draw_back(from, flat, slot);
            step(pair, flat, &call);
        }
    compare_picture(pair, flat);
}

/* Nothing waits now: the plane mask may change. */
static void change_mask(struct pair *pair, struct flat *flat, struct source *from)
{
    struct call call = {PANEL_WRITE_REGISTER, PANEL_PLANE_MASK, 0, 0, 0, draw_register(from, flat->state, 1, false)};
    step(pair, flat, &call);
}

/* One list of calls from a fresh chip over random memory. */
static void run(struct pair *pair, struct source *from, uint8_t *picture, unsigned long calls)
{
    struct flat flat;
    draw_bytes(from, picture, pair->memory_len);
    flat_start(&flat, picture, pair->pages);
    pair_start(pair, flat.state, picture);
    while (pair->call < calls) {
        for (uint32_t n = 20 + below(from, 200); n > 0; n--) {
            struct call call = draw_kept(from, &flat);
            step(pair, &flat, &call);
        }
        settle(pair, &flat, from);
        change_mask(pair, &flat, from);
    }
    pair_whole(pair, NULL);
}

void try_pictures(uint32_t pages, uint64_t seed, unsigned long calls)
{
    enum { RUN = 20000 };
    struct pair pair;
    struct source from = source_of(seed);
    pair_make(&pair, pages);
    uint8_t *picture = need(pair.memory_len);
    for (unsigned long done = 0, n = 1; done < calls; done += pair.call, n++) {
        at_run(n);
        run(&pair, &from, picture, calls - done < RUN ? calls - done : RUN);
    }
    free(picture);
    pair_free(&pair);
}
