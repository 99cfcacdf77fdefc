/* pair.h: library and model side by side. Each call goes to both; the answers and all bytes that it could reach are compared,
 * and the first difference ends the program with a report.
 *
 * What is compared, and when:
 * - after every call the whole answer, the whole state block with its guard bytes, and the guard bytes next to memory;
 * - up to P = 16 also the whole memory after every call;
 * - above that (1.3 million bytes at P = 257) after every call the page that it could change and one further stretch of
 *   memory, which moves on by its length at each call, so that the stretches cover all of memory again and again; and the
 *   whole memory after every 4,096 calls and at the end of every run. A byte changed by mistake stays different until it is
 *   drawn over, so it is found, if a few calls late: the report says since when memory was not compared whole.
 * - after a refused call the state block is also compared with a copy made before it. The model returns before its first
 *   write then, so that memory equal to the model's is unchanged memory. */
#ifndef PAIR_H
#define PAIR_H

#include "model.h"

/* Bytes in front of and behind each buffer, which nothing may change. Wrong lengths reach into the hind ones. */
enum { GUARD_FRONT = 64, GUARD_STATE = 256, GUARD_MEMORY = 5184 };

/* Buffers are bytes, and a caller need not align them. So each run has its own places for them: memory goes from one address to the
 * next, modulo 16, and after each sixteen runs the state block does too, so that every pair of places comes. */
enum { PLACES = 16 };

struct side {
    uint8_t *state_lent, *memory_lent; /* as they were allocated */
    uint8_t *state_room, *memory_room; /* with the guards */
    uint8_t *state, *memory;
};

struct pair {
    uint32_t pages;
    size_t memory_len;
    struct side library, model;
    uint64_t library_answer, model_answer; /* of the last call */
    unsigned long call;                    /* calls in this run */
    unsigned long whole;                   /* the call after which memory was last compared whole */
    size_t stretch;                        /* where the moving compare stands */
};

/* What is counted: operations by their number, all others as 0, and the other functions. */
enum {
    TRIED_NO_OPERATION,
    TRIED_FRESH = MODEL_OPERATIONS + 1,
    TRIED_SCAN_LINE,
    TRIED_POINT,
    TRIED_COLUMN,
    TRIED_COLUMNS,
    TRIED_KINDS
};

/* Where a difference would be found: printed in the report. */
void at_phase(const char *name, uint64_t seed);
void at_run(unsigned long number);

/* Buffers for a chip of so many pages, and their end. */
void pair_make(struct pair *pair, uint32_t pages);
void pair_free(struct pair *pair);

/* Starts a run at the next places: both sides get the same bytes, memory_len of memory and MODEL_STATE of state. */
void pair_start(struct pair *pair, const uint8_t *state, const uint8_t *memory);
void pair_state(struct pair *pair, const uint8_t *state);

/* A pair for a fresh chip of so many pages over memory of 0, started. */
struct pair pair_of_fresh(uint32_t pages);

/* One call on both sides; the answer that both gave. */
uint64_t pair_call(struct pair *pair, const struct call *call);
uint64_t pair_make_call(struct pair *pair, uint32_t op, uint32_t a, uint32_t b, uint32_t c, uint32_t d, uint32_t data);
uint64_t pair_call_lengths(struct pair *pair, const struct call *call, size_t state_len, size_t memory_len);
uint64_t pair_fresh(struct pair *pair, size_t state_len, uint32_t pages);
uint64_t pair_scan_line(struct pair *pair, size_t state_len, size_t memory_len, uint32_t bank, uint32_t page, uint32_t line);

/* Compares everything now, guards included. */
void pair_whole(struct pair *pair, const struct call *call);

/* Counts an answer of this kind, and ends the program with a report where library and model differ. */
void same_answer(int kind, uint64_t library, uint64_t model, const char *what, uint32_t a, uint32_t b, uint32_t c);

/* Ends the program: a fact about the library is not as it must be; wrong_at names the call too. */
void wrong(const char *fact, uint64_t found, uint64_t expected);
void wrong_at(const struct pair *pair, const struct call *call, const char *fact, uint64_t found, uint64_t expected);

/* The table of what was tried. False where a number that can be given for a kind never was, or a place was never used. */
bool tried_all(void);
unsigned long tried_in_total(void);

/* Zero bytes, or the program ends. */
uint8_t *need(size_t bytes);

#define COUNT(list) (sizeof(list) / sizeof *(list))

#endif
