/* pair.c: library and model side by side; see pair.h. */
#include "pair.h"

#include <inttypes.h>
#include <stdio.h>
#include <stdlib.h>
#include <string.h>

#include "panel.h"

enum { SMALL_PAGES = 16, STRETCH = 4096, WHOLE_EVERY = 4096 };

/* ---- Where we are, and what was tried ---- */

static const char *phase = "";
static uint64_t phase_seed;
static unsigned long run;
static unsigned long tried[TRIED_KINDS][MODEL_NUMBERS];
static unsigned long runs, placed[PLACES][PLACES]; /* by the places of memory and of the state block */

void at_phase(const char *name, uint64_t seed)
{
    phase = name;
    phase_seed = seed;
    run = 0;
}

void at_run(unsigned long number) { run = number; }

static void report_place(void) { printf("\nDIFFERENCE in %s: seed %" PRIu64 ", run %lu\n", phase, phase_seed, run); }

static void fail(void)
{
    fflush(stdout);
    exit(1);
}

static void print_answer(const char *who, uint64_t answer)
{
    printf("  %-8s %016" PRIx64 ": number %u, value %u (%08x), pass %d, written %d\n", who, answer, panel_number(answer),
           panel_value(answer), panel_value(answer), panel_pass(answer), panel_written(answer));
}

static void report_call(const struct pair *pair, const struct call *call)
{
    report_place();
    printf("  P %u, memory at %lu and state at %lu past a multiple of %d, call %lu of the run", pair->pages,
           (unsigned long)((uintptr_t)pair->library.memory % PLACES), (unsigned long)((uintptr_t)pair->library.state % PLACES),
           PLACES, pair->call);
    if (call != NULL)
        printf(": op %u, operands %u %u %u %u, data %08x", call->op, call->a, call->b, call->c, call->d, call->data);
    printf("\n");
}

static void end_by_fact(const char *fact, uint64_t found, uint64_t expected)
{
    printf("  %s: found %" PRIx64 ", expected %" PRIx64 " (hexadecimal)\n", fact, found, expected);
    fail();
}

void wrong(const char *fact, uint64_t found, uint64_t expected)
{
    report_place();
    end_by_fact(fact, found, expected);
}

void wrong_at(const struct pair *pair, const struct call *call, const char *fact, uint64_t found, uint64_t expected)
{
    report_call(pair, call);
    end_by_fact(fact, found, expected);
}

static void count(int kind, uint64_t answer)
{
    uint64_t number = answer >> 40 & 0xFF;
    if (number < MODEL_NUMBERS)
        tried[kind][number]++;
}

void same_answer(int kind, uint64_t library, uint64_t model, const char *what, uint32_t a, uint32_t b, uint32_t c)
{
    count(kind, model);
    if (library == model)
        return;
    report_place();
    printf("  %s(%u, %u, %u)\n", what, a, b, c);
    print_answer("library", library);
    print_answer("model", model);
    fail();
}

/* ---- Buffers between guards ---- */

uint8_t *need(size_t bytes)
{
    uint8_t *room = calloc(bytes, 1);
    if (room == NULL) {
        printf("no room for %zu bytes\n", bytes);
        exit(2);
    }
    return room;
}

static size_t state_room(void) { return GUARD_FRONT + MODEL_STATE + GUARD_STATE; }
static size_t memory_room(const struct pair *pair) { return GUARD_FRONT + pair->memory_len + GUARD_MEMORY; }

static uint8_t guard_byte(size_t i) { return (uint8_t)(0xA5 ^ i * 29); }

static void fill_guards(uint8_t *room, size_t bytes, size_t behind)
{
    for (size_t i = 0; i < GUARD_FRONT; i++)
        room[i] = guard_byte(i);
    for (size_t i = 0; i < behind; i++)
        room[GUARD_FRONT + bytes + i] = guard_byte(i);
}

static bool guards_stand(const uint8_t *room, size_t bytes, size_t behind)
{
    for (size_t i = 0; i < GUARD_FRONT; i++)
        if (room[i] != guard_byte(i))
            return false;
    for (size_t i = 0; i < behind; i++)
        if (room[GUARD_FRONT + bytes + i] != guard_byte(i))
            return false;
    return true;
}

static void side_make(struct side *side, const struct pair *pair)
{
    side->state_lent = need(state_room() + 2 * PLACES);
    side->memory_lent = need(memory_room(pair) + 2 * PLACES);
}

/* The first address from here on that is so much past a multiple of PLACES. */
static uint8_t *place_at(uint8_t *lent, size_t past) { return lent + (PLACES - (uintptr_t)lent % PLACES) + past; }

static void side_place(struct side *side, const struct pair *pair, size_t memory_at, size_t state_at)
{
    side->state_room = place_at(side->state_lent, state_at);
    side->memory_room = place_at(side->memory_lent, memory_at);
    side->state = side->state_room + GUARD_FRONT;
    side->memory = side->memory_room + GUARD_FRONT;
    fill_guards(side->state_room, MODEL_STATE, GUARD_STATE);
    fill_guards(side->memory_room, pair->memory_len, GUARD_MEMORY);
}

static void next_places(struct pair *pair)
{
    size_t memory_at = (1 + runs) % PLACES, state_at = (1 + runs + runs / PLACES) % PLACES;
    side_place(&pair->library, pair, memory_at, state_at);
    side_place(&pair->model, pair, memory_at, state_at);
    placed[memory_at][state_at]++;
    runs++;
}

void pair_make(struct pair *pair, uint32_t pages)
{
    memset(pair, 0, sizeof *pair);
    pair->pages = pages;
    pair->memory_len = model_memory_bytes(pages);
    side_make(&pair->library, pair);
    side_make(&pair->model, pair);
}

static void side_free(struct side *side)
{
    free(side->state_lent);
    free(side->memory_lent);
}

void pair_free(struct pair *pair)
{
    side_free(&pair->library);
    side_free(&pair->model);
}

void pair_state(struct pair *pair, const uint8_t *state)
{
    memcpy(pair->library.state, state, MODEL_STATE);
    memcpy(pair->model.state, state, MODEL_STATE);
}

void pair_start(struct pair *pair, const uint8_t *state, const uint8_t *memory)
{
    next_places(pair);
    pair_state(pair, state);
    memcpy(pair->library.memory, memory, pair->memory_len);
    memcpy(pair->model.memory, memory, pair->memory_len);
    pair->call = pair->whole = 0;
}

struct pair pair_of_fresh(uint32_t pages)
{
    struct pair pair;
    uint8_t state[MODEL_STATE], *memory;
    pair_make(&pair, pages);
    memory = need(pair.memory_len);
    model_fresh(state, sizeof state, pages);
    pair_start(&pair, state, memory);
    free(memory);
    return pair;
}

/* ---- Comparing ---- */

static void report_byte(const char *what, const uint8_t *library, const uint8_t *model, size_t from, size_t until, size_t front)
{
    size_t i = from;
    while (i < until && library[i] == model[i])
        i++;
    if (i < until)
        printf("  first differing byte of %s: %ld, library %02x, model %02x\n", what, (long)i - (long)front, library[i],
               model[i]);
}

/* Offsets below 0 and past the end are guard bytes. */
static void report_bytes(const struct pair *pair)
{
    report_byte("state", pair->library.state_room, pair->model.state_room, 0, state_room(), GUARD_FRONT);
    report_byte("memory", pair->library.memory_room, pair->model.memory_room, 0, memory_room(pair), GUARD_FRONT);
    if (pair->pages > SMALL_PAGES)
        printf("  memory was last compared whole after call %lu\n", pair->whole);
}

static void differ(const struct pair *pair, const struct call *call)
{
    report_call(pair, call);
    print_answer("library", pair->library_answer);
    print_answer("model", pair->model_answer);
    report_bytes(pair);
    fail();
}

static bool same_part(const struct pair *pair, size_t from, size_t len)
{
    return memcmp(pair->library.memory_room + from, pair->model.memory_room + from, len) == 0;
}

void pair_whole(struct pair *pair, const struct call *call)
{
    if (!same_part(pair, 0, memory_room(pair)) || memcmp(pair->library.state_room, pair->model.state_room, state_room()) != 0)
        differ(pair, call);
    if (!guards_stand(pair->library.state_room, MODEL_STATE, GUARD_STATE) ||
        !guards_stand(pair->library.memory_room, pair->memory_len, GUARD_MEMORY))
        wrong_at(pair, call, "guard bytes changed", 1, 0);
    pair->whole = pair->call;
}

/* The stretch of memory whose turn it is, and the guard bytes next to memory. */
static bool same_stretch(struct pair *pair)
{
    size_t left = pair->memory_len - pair->stretch, len = left < STRETCH ? left : STRETCH;
    bool same = same_part(pair, GUARD_FRONT + pair->stretch, len) && same_part(pair, 0, GUARD_FRONT) &&
                same_part(pair, GUARD_FRONT + pair->memory_len, GUARD_FRONT);
    pair->stretch = len == left ? 0 : pair->stretch + len;
    return same;
}

/* The page that a duplicate or a write block has changed: the bank's open page afterwards. (A damaged block may name any.) */
static bool same_page(const struct pair *pair, const struct call *call)
{
    uint32_t page;
    if (call == NULL || call->op < 3 || call->op > 6 || call->a > 3)
        return true;
    page = model_open_page(pair->model.state, call->a);
    return page >= pair->pages ||
           same_part(pair, GUARD_FRONT + ((size_t)call->a * pair->pages + page) * MODEL_PAGE, MODEL_PAGE);
}

static void compare_bytes(struct pair *pair, const struct call *call)
{
    if (memcmp(pair->library.state_room, pair->model.state_room, state_room()) != 0)
        differ(pair, call);
    if (pair->pages <= SMALL_PAGES) {
        if (!same_part(pair, 0, memory_room(pair)))
            differ(pair, call);
        return;
    }
    if (!same_page(pair, call) || !same_stretch(pair))
        differ(pair, call);
    if (pair->call % WHOLE_EVERY == 0)
        pair_whole(pair, call);
}

/* ---- Calls on both sides ---- */

uint64_t pair_call_lengths(struct pair *pair, const struct call *call, size_t state_len, size_t memory_len)
{
    uint32_t op = call->op, a = call->a, b = call->b, c = call->c, d = call->d;
    uint8_t before[MODEL_STATE];
    struct side *l = &pair->library, *m = &pair->model;
    memcpy(before, l->state, sizeof before);
    pair->library_answer = panel_call(l->state, state_len, l->memory, memory_len, op, a, b, c, d, call->data);
    pair->model_answer = model_call(m->state, state_len, m->memory, memory_len, op, a, b, c, d, call->data);
    pair->call++;
    count(op <= MODEL_OPERATIONS ? (int)op : TRIED_NO_OPERATION, pair->model_answer);
    if (pair->library_answer != pair->model_answer)
        differ(pair, call);
    compare_bytes(pair, call);
    if (panel_number(pair->library_answer) != PANEL_DONE && memcmp(before, l->state, sizeof before) != 0)
        wrong_at(pair, call, "a refused call changed the state block; its number", panel_number(pair->library_answer),
                 PANEL_DONE);
    return pair->library_answer;
}

uint64_t pair_call(struct pair *pair, const struct call *call)
{
    return pair_call_lengths(pair, call, MODEL_STATE, pair->memory_len);
}

uint64_t pair_make_call(struct pair *pair, uint32_t op, uint32_t a, uint32_t b, uint32_t c, uint32_t d, uint32_t data)
{
    struct call call = {op, a, b, c, d, data};
    return pair_call(pair, &call);
}

/* The functions beside panel_call: an answer that differs is reported by same_answer, bytes that differ as for a call. */
static uint64_t answered(struct pair *pair, uint64_t library, uint64_t model)
{
    pair->library_answer = library;
    pair->model_answer = model;
    pair->call++;
    compare_bytes(pair, NULL);
    return library;
}

uint64_t pair_fresh(struct pair *pair, size_t state_len, uint32_t pages)
{
    uint64_t library = panel_fresh(pair->library.state, state_len, pages);
    uint64_t model = model_fresh(pair->model.state, state_len, pages);
    same_answer(TRIED_FRESH, library, model, "panel_fresh: length, pages", (uint32_t)state_len, pages, 0);
    return answered(pair, library, model);
}

uint64_t pair_scan_line(struct pair *pair, size_t state_len, size_t memory_len, uint32_t bank, uint32_t page, uint32_t line)
{
    struct side *l = &pair->library, *m = &pair->model;
    uint64_t library = panel_scan_line(l->state, state_len, l->memory, memory_len, bank, page, line);
    uint64_t model = model_scan_line(m->state, state_len, m->memory, memory_len, bank, page, line);
    same_answer(TRIED_SCAN_LINE, library, model, "panel_scan_line", bank, page, line);
    return answered(pair, library, model);
}

/* ---- What was tried ---- */

static const char *kind_name(int kind)
{
    static const char *const names[TRIED_KINDS] = {
        "no operation",   "access page",     "precharge",         "duplicate page",  "read block",       "masked write",
        "unmasked write", "data read",       "stateless initial", "stateless write", "stateful initial", "stateful write",
        "replace tag",    "or tag",          "write register",    "read register",   "video transfer",   "video clock",
        "panel_fresh",    "panel_scan_line", "panel_point",       "panel_column",    "panel_columns",
    };
    return names[kind];
}

/* Whether a number can be given for a kind at all (document 01, Numbers given back; document 02, T-01). */
static bool can_be(int kind, int number)
{
    bool operation = kind >= 1 && kind <= MODEL_OPERATIONS;
    switch (number) {
    case 0: return kind != TRIED_NO_OPERATION;
    case 1: return kind <= TRIED_SCAN_LINE;
    case 2: return kind <= MODEL_OPERATIONS || kind == TRIED_SCAN_LINE;
    case 3: return kind == TRIED_NO_OPERATION;
    case 4: return operation || (kind >= TRIED_FRESH && kind != TRIED_COLUMN);
    case 5: return kind == 14;
    case 6: return kind == 1;
    case 7: return (kind >= 3 && kind <= 6) || kind == 16;
    case 8: return kind == TRIED_POINT || kind == TRIED_COLUMN;
    case 10: return kind == 16;
    default: return false;
    }
}

static bool placed_all(void)
{
    unsigned long fewest = runs;
    for (int memory_at = 0; memory_at < PLACES; memory_at++)
        for (int state_at = 0; state_at < PLACES; state_at++)
            fewest = placed[memory_at][state_at] < fewest ? placed[memory_at][state_at] : fewest;
    printf("%lu runs; each pair of addresses of memory and state, modulo %d, in at least %lu\n", runs, PLACES, fewest);
    return fewest != 0;
}

bool tried_all(void)
{
    bool all = true;
    printf("\ncalls by kind and by number given (-: cannot be given)\n%-18s", "");
    for (int number = 0; number < MODEL_NUMBERS; number++)
        printf("%10d", number);
    for (int kind = 0; kind < TRIED_KINDS; kind++) {
        printf("\n%-18s", kind_name(kind));
        for (int number = 0; number < MODEL_NUMBERS; number++) {
            if (can_be(kind, number))
                printf("%10lu", tried[kind][number]);
            else
                printf("%10s", tried[kind][number] == 0 ? "-" : "WRONG");
            all = all && can_be(kind, number) == (tried[kind][number] != 0);
        }
    }
    printf("\n");
    return all && placed_all();
}

unsigned long tried_in_total(void)
{
    unsigned long sum = 0;
    for (int kind = 0; kind < TRIED_KINDS; kind++)
        for (int number = 0; number < MODEL_NUMBERS; number++)
            sum += tried[kind][number];
    return sum;
}
