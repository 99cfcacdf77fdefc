/* paper.h: a chip of two pages for sentences of the papers: calls, and what must come of them. Nothing here is taken from the
 * model: what is expected is written down from the papers. A file that tries sentences has a chip of its own. */
#ifndef PAPER_H
#define PAPER_H

#include <stdio.h>
#include <string.h>

#include "model.h"
#include "pair.h"
#include "panel.h"

enum { PAGES = 2, PAGE = 1280, BANK = PAGES * PAGE, MEMORY = 4 * BANK, BLOCK = 512 };

static const char *tried; /* the number of the sentence that is tried now */
static uint8_t state[BLOCK], memory[MEMORY], old_state[BLOCK], old_memory[MEMORY];

static inline void expect(const char *fact, uint64_t found, uint64_t expected)
{
    char text[200];
    snprintf(text, sizeof text, "%s: %s", tried, fact);
    if (found != expected)
        wrong(text, found, expected);
}

static inline uint64_t call(uint32_t op, uint32_t a, uint32_t b, uint32_t c, uint32_t d, uint32_t data)
{
    return panel_call(state, BLOCK, memory, MEMORY, op, a, b, c, d, data);
}

/* A call that is done: its value. */
static inline uint32_t done(uint32_t op, uint32_t a, uint32_t b, uint32_t c, uint32_t d, uint32_t data)
{
    uint64_t answer = call(op, a, b, c, d, data);
    expect("a call is done", answer >> 40, 0);
    return (uint32_t)answer;
}

static inline void set(uint32_t number, uint32_t value) { done(PANEL_WRITE_REGISTER, number, 0, 0, 0, value); }
static inline uint32_t word(uint32_t slot, uint32_t w) { return done(PANEL_DATA_READ, slot, w, 0, 0, 0); }
static inline uint32_t tag(uint32_t slot) { return get32(state + 60 + 4 * slot); }

/* A fresh chip over memory whose bytes differ from page to page. */
static inline void fresh(void)
{
    for (size_t i = 0; i < MEMORY; i++)
        memory[i] = (uint8_t)(i * 7 + i / PAGE * 31 + i / 256);
    expect("a fresh chip", panel_fresh(state, BLOCK, PAGES), 0);
}

static inline void keep(void)
{
    memcpy(old_state, state, BLOCK);
    memcpy(old_memory, memory, MEMORY);
}

/* Since keep, the block has changed in its counter alone, by so many. */
static inline void same_but_counter(uint32_t calls)
{
    expect("the counter", get32(state + 56), get32(old_state + 56) + calls);
    expect("the block before the counter", memcmp(state, old_state, 56) != 0, 0);
    expect("the block behind the counter", memcmp(state + 60, old_state + 60, BLOCK - 60) != 0, 0);
}

static inline void same_memory(void) { expect("memory", memcmp(memory, old_memory, MEMORY) != 0, 0); }

/* A sentence by its number in docs/TRACE.md. */
struct sentence {
    const char *id;
    void (*try)(void);
};

static inline void try_each(const struct sentence *sentences, size_t count)
{
    for (size_t i = 0; i < count; i++) {
        tried = sentences[i].id;
        sentences[i].try();
    }
}

#define TRY_EACH(sentences) try_each((sentences), sizeof(sentences) / sizeof *(sentences))

#endif
