/* refusals.c: operands at and past their edges, wrong lengths, damaged blocks, fresh chips. What is refused, by which number,
 * the model says; pair.h says what is compared. */
#define _GNU_SOURCE
#include "phases.h"

#include <stdio.h>
#include <stdlib.h>
#include <string.h>
#include <sys/mman.h>

#include "draw.h"
#include "pair.h"
#include "panel.h"

/* ---- Buffers for all of these ---- */

static void make(struct pair *pair, uint32_t pages, uint8_t *state)
{
    struct source from = source_of(pages);
    uint8_t *memory;
    pair_make(pair, pages);
    memory = need(pair->memory_len);
    draw_bytes(&from, memory, pair->memory_len);
    model_fresh(state, MODEL_STATE, pages);
    pair_start(pair, state, memory);
    free(memory);
}

static void end(struct pair *pair)
{
    pair_whole(pair, NULL);
    pair_free(pair);
}

/* All banks open, at their last page, and a slot with something to write back. */
static void open_state(uint8_t *state, uint32_t pages)
{
    struct source from = source_of(77);
    draw_state(&from, state, pages);
    for (uint32_t bank = 0; bank < 4; bank++)
        put16(state + PANEL_AT_BANKS + 2 * bank, pages - 1);
}

/* A call of this operation with operands in range; those of no operation are all 0. */
static struct call plain(const uint8_t *state, uint32_t op)
{
    struct source from = source_of(op);
    if (op < 1 || op > MODEL_OPERATIONS)
        return (struct call){op, 0, 0, 0, 0, 0};
    return draw_operation(&from, state, op);
}

/* ---- Edges ---- */

static uint32_t *field(struct call *call, int i)
{
    uint32_t *fields[6] = {&call->a, &call->b, &call->c, &call->d, &call->data, &call->op};
    return fields[i];
}

/* The numbers at which some operation's range ends. */
static const uint32_t edges[] = {0,  1,  2,  3,  4,   5,   7,   8,   9,     15,    16,    17,         18,         31,        32,
                                 38, 39, 40, 41, 255, 256, 257, 258, 65535, 65536, 65537, 0x01000000, 0x80000000, 0xFFFFFFFF};
enum { EDGES = sizeof edges / sizeof *edges, PAGE_EDGES = 3 };

/* Those, and then the chip's last page and the two numbers behind it. */
static uint32_t edge(const struct pair *pair, uint32_t e) { return e < EDGES ? edges[e] : pair->pages - 1 + (e - EDGES); }

/* One field of a call at each edge; each call on the same chip, so that none depends on another. */
static void edges_of(struct pair *pair, const uint8_t *state, uint32_t op)
{
    for (int i = 0; i < 6; i++)
        for (uint32_t e = 0; e < EDGES + PAGE_EDGES; e++) {
            struct call call = plain(state, op);
            *field(&call, i) = edge(pair, e);
            pair_state(pair, state);
            pair_call(pair, &call);
        }
}

/* Each register with each single bit, then all that it may hold, and read back. */
static void register_bits(struct pair *pair, const uint8_t *state)
{
    pair_state(pair, state);
    for (uint32_t number = 0; number <= 8; number++)
        for (uint32_t bit = 0; bit <= 32; bit++) {
            uint32_t all = number >= 1 && number <= 7 ? model_allowed(number) : 0;
            struct call write = {PANEL_WRITE_REGISTER, number, 0, 0, 0, bit < 32 ? (uint32_t)1 << bit : all};
            struct call read = {PANEL_READ_REGISTER, number, 0, 0, 0, 0};
            pair_call(pair, &write);
            pair_call(pair, &read);
        }
}

void try_edges(uint32_t pages)
{
    struct pair pair;
    uint8_t closed[MODEL_STATE], open[MODEL_STATE];
    make(&pair, pages, closed);
    open_state(open, pages);
    for (uint32_t op = 0; op <= MODEL_OPERATIONS + 3; op++) {
        edges_of(&pair, closed, op);
        edges_of(&pair, open, op);
    }
    register_bits(&pair, closed);
    register_bits(&pair, open);
    end(&pair);
}

/* ---- Lengths ---- */

static void calls_of_lengths(struct pair *pair, const uint8_t *state, size_t state_len, size_t memory_len)
{
    for (uint32_t op = 0; op <= MODEL_OPERATIONS + 1; op++) {
        struct call call = plain(state, op);
        pair_state(pair, state);
        pair_call_lengths(pair, &call, state_len, memory_len);
        call.b = 0xFFFFFFFF; /* and an operand out of range: lengths come first */
        pair_state(pair, state);
        pair_call_lengths(pair, &call, state_len, memory_len);
    }
    pair_scan_line(pair, state_len, memory_len, 0, 0, 0);
    pair_scan_line(pair, state_len, memory_len, 4, 0, 0);
}

/* The block as it is, and with a header that names the length lent, as blocks of other versions do. */
static void headers_of_lengths(struct pair *pair, const uint8_t *state, size_t state_len, size_t memory_len)
{
    uint8_t named[MODEL_STATE];
    memcpy(named, state, sizeof named);
    put16(named + 14, (uint32_t)state_len);
    calls_of_lengths(pair, state, state_len, memory_len);
    calls_of_lengths(pair, named, state_len, memory_len);
}

/* Lengths whose lower 32 bits are right. The bytes are lent in truth: the machine gives pages to such a part only as they are
 * touched. Where it does not, this is left out and said. */
static void huge_lengths(const uint8_t *state, size_t memory_len)
{
    size_t huge = (size_t)1 << 32, room = huge + memory_len + MODEL_STATE;
    uint8_t *part = mmap(NULL, room, PROT_READ | PROT_WRITE, MAP_PRIVATE | MAP_ANONYMOUS | MAP_NORESERVE, -1, 0);
    uint8_t block[MODEL_STATE], memory[1] = {0};
    if (part == MAP_FAILED) {
        printf("  lengths past 2^32 left out: the machine lends no such part\n");
        return;
    }
    memcpy(part, state, MODEL_STATE);
    memcpy(block, state, MODEL_STATE);
    same_answer(TRIED_FRESH, panel_fresh(part, huge + MODEL_STATE, 9), UINT64_C(1) << 40, "fresh, block past 2^32", 0, 0, 0);
    same_answer(2, panel_call(part, huge + MODEL_STATE, memory, 1, 2, 0, 0, 0, 0, 0), UINT64_C(1) << 40,
                "call, block past 2^32", 0, 0, 0);
    same_answer(2, panel_call(block, MODEL_STATE, part, huge + memory_len, 2, 0, 0, 0, 0, 0), UINT64_C(2) << 40,
                "call, memory past 2^32", 0, 0, 0);
    same_answer(TRIED_SCAN_LINE, panel_scan_line(block, MODEL_STATE, part, huge + memory_len, 0, 0, 0), UINT64_C(2) << 40,
                "scan line, memory past 2^32", 0, 0, 0);
    same_answer(TRIED_COLUMNS, panel_columns(part, huge + 2560), UINT64_C(4) << 40, "columns past 2^32", 0, 0, 0);
    if (memcmp(part, state, MODEL_STATE) != 0 || memcmp(block, state, MODEL_STATE) != 0)
        wrong("a refused call of huge lengths changed the state block", 1, 0);
    munmap(part, room);
}

void try_lengths(uint32_t pages)
{
    struct pair pair;
    uint8_t state[MODEL_STATE];
    make(&pair, pages, state);
    size_t right = pair.memory_len;
    const size_t states[] = {MODEL_STATE, 0, 1, 15, 16, 91, 92, 347, 348, 349, 350, 508, 510, 511, 513, 514, 604, 768};
    const size_t memories[] = {right,      0,         1,         right / 2,  right - 5120,
                               right - 80, right - 1, right + 1, right + 80, right + 5120};
    open_state(state, pages);
    for (size_t s = 0; s < sizeof states / sizeof *states; s++)
        for (size_t m = 0; m < sizeof memories / sizeof *memories; m++)
            headers_of_lengths(&pair, state, states[s], memories[m]);
    huge_lengths(state, right);
    end(&pair);
}

/* ---- Damaged blocks ---- */

/* Every value in these bytes; the operation changes from byte to byte. */
static void damage_bytes(struct pair *pair, const uint8_t *state, uint32_t from, uint32_t until)
{
    uint8_t damaged[MODEL_STATE];
    for (uint32_t at = from; at < until; at++)
        for (uint32_t value = 0; value < 256; value++) {
            struct call call = plain(state, (at + value) % (MODEL_OPERATIONS + 2));
            memcpy(damaged, state, sizeof damaged);
            damaged[at] = (uint8_t)value;
            pair_state(pair, damaged);
            pair_scan_line(pair, MODEL_STATE, pair->memory_len, 3, pair->pages - 1, 15);
            pair_call(pair, &call);
        }
}

/* What can be ill formed: all before the tags, and the video counter and select. */
static void damage_parts(struct pair *pair, const uint8_t *state)
{
    damage_bytes(pair, state, 0, PANEL_AT_TAGS);
    damage_bytes(pair, state, PANEL_AT_VIDEO_COUNTER, MODEL_STATE);
}

/* Several bytes at once, and any 16-bit number in a header field, an open page, the video counter or select. */
static void damage_more(struct pair *pair, const uint8_t *state, struct source *from)
{
    static const uint32_t halves[] = {0, 1, 2, 8, 9, 39, 40, 255, 256, 257, 258, 348, 511, 512, 513, 32768, 65534, 65535};
    uint8_t damaged[MODEL_STATE];
    for (int i = 0; i < 20000; i++) {
        struct call call = plain(state, below(from, MODEL_OPERATIONS + 2));
        uint32_t half = below(from, 14), at = half < 12 ? 2 * half : PANEL_AT_VIDEO_COUNTER + 2 * (half - 12);
        memcpy(damaged, state, sizeof damaged);
        put16(damaged + at, one_in(from, 2) ? halves[below(from, sizeof halves / sizeof *halves)] : draw32(from));
        if (one_in(from, 4))
            damaged[below(from, PANEL_AT_TAGS)] = (uint8_t)draw32(from);
        pair_state(pair, damaged);
        pair_scan_line(pair, MODEL_STATE, pair->memory_len, 0, 0, below(from, 20));
        pair_call(pair, &call);
    }
}

void try_damage(uint32_t pages, uint64_t seed)
{
    struct pair pair;
    struct source from = source_of(seed);
    uint8_t fresh[MODEL_STATE], open[MODEL_STATE];
    make(&pair, pages, fresh);
    open_state(open, pages);
    damage_parts(&pair, fresh);
    damage_parts(&pair, open);
    damage_more(&pair, open, &from);
    end(&pair);
}

/* ---- Fresh chips ---- */

/* A fresh chip needs no block before it: any bytes are written over, and a refusal leaves them. */
void try_fresh(uint32_t pages)
{
    static const uint32_t others[] = {0, 1, 2, 9, 256, 257, 258, 512, 65536, 65537, 0x80000001, 0xFFFFFFFF};
    static const size_t lengths[] = {MODEL_STATE, 0, 1, 92, 347, 348, 349, 511, 513, 604};
    struct pair pair;
    struct source from = source_of(pages);
    uint8_t bytes[MODEL_STATE];
    make(&pair, pages, bytes);
    for (size_t l = 0; l < sizeof lengths / sizeof *lengths; l++)
        for (int p = 0; p < 12; p++) {
            draw_bytes(&from, bytes, sizeof bytes);
            pair_state(&pair, bytes);
            pair_fresh(&pair, lengths[l], others[p]);
        }
    pair_fresh(&pair, MODEL_STATE, pages);
    end(&pair);
}
