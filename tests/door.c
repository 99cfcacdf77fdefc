/* door.c: the C door from outside. The library is compared with the model (plain C, from the documents) and with the flat
 * picture of demand 3, over examples, edges, damage and random calls.
 *
 *     door [SEED [COUNT]]     SEED: any number, 1 if not given; COUNT: random calls for a size, 2,000,000 if not
 *
 * The same seed and count make the same calls on every machine. Exit status 0: no difference, and every number that can be
 * given was given by every call that can give it. 1: a difference, reported, or something that was never tried. */
#include <inttypes.h>
#include <stdio.h>
#include <stdlib.h>

#include "draw.h"
#include "pair.h"
#include "phases.h"

/* The sizes that everything is tried on, with the part of COUNT that each gets: 256 pages are the whole screen, 257 the most. */
static const struct {
    uint32_t pages, part;
} sizes[] = {{1, 2}, {2, 1}, {9, 2}, {255, 4}, {256, 2}, {257, 2}};
enum { SIZES = sizeof sizes / sizeof *sizes };

/* The part of COUNT that every size gets beside. */
enum { PART_OF_EACH = 1000 };

static void say(const char *what, uint32_t pages, uint64_t seed)
{
    at_phase(what, seed);
    if (pages != 0)
        printf("%s, P %u, seed %" PRIu64 "\n", what, pages, seed);
    else
        printf("%s\n", what);
    fflush(stdout);
}

/* ---- Random calls ---- */

/* One run: from a fresh chip or any well-formed block, over random memory. */
static void random_run(struct pair *pair, struct source *from, uint8_t *memory, unsigned long calls)
{
    uint8_t state[MODEL_STATE];
    if (one_in(from, 2))
        draw_state(from, state, pair->pages);
    else
        model_fresh(state, sizeof state, pair->pages);
    draw_bytes(from, memory, pair->memory_len);
    pair_start(pair, state, memory);
    while (pair->call < calls) {
        struct call call = draw_call(from, pair->model.state);
        note_scan(pair->model.state, pair->memory_len, &call);
        pair_call(pair, &call);
    }
    pair_whole(pair, NULL);
}

void try_random(uint32_t pages, uint64_t seed, unsigned long calls)
{
    enum { RUN = 20000 };
    struct pair pair;
    struct source from = source_of(seed);
    pair_make(&pair, pages);
    uint8_t *memory = need(pair.memory_len);
    for (unsigned long done = 0, n = 1; done < calls; done += pair.call, n++) {
        at_run(n);
        random_run(&pair, &from, memory, calls - done < RUN ? calls - done : RUN);
    }
    free(memory);
    pair_free(&pair);
}

/* ---- The whole test ---- */

/* Each size that a chip can have, briefly: a mistake may be made at one size alone. */
static void try_each_size(uint64_t seed, unsigned long count)
{
    say("each size from 1 to 257", 0, seed);
    for (uint32_t pages = 1; pages <= 257; pages++) {
        try_fresh(pages);
        try_last_lines(pages);
        try_put_out(pages);
        try_random(pages, seed + pages, count / PART_OF_EACH);
        try_pictures(pages, seed + pages, count / PART_OF_EACH);
    }
}

static void try_sizes(uint64_t seed, unsigned long count)
{
    for (int i = 0; i < SIZES; i++) {
        uint32_t pages = sizes[i].pages;
        unsigned long calls = count / sizes[i].part;
        say("fresh chips, edges and lengths", pages, seed);
        try_fresh(pages);
        try_edges(pages);
        try_lengths(pages);
        say("damaged blocks", pages, seed);
        try_damage(pages, seed);
        say("scan lines", pages, seed);
        try_scan_lines(pages);
        say("video calls wherever the display is", pages, seed);
        try_scans(pages);
        say("random calls", pages, seed);
        try_random(pages, seed, calls);
        say("pictures", pages, seed);
        try_pictures(pages, seed, calls);
    }
}

int main(int argc, char **argv)
{
    uint64_t seed = argc > 1 ? strtoull(argv[1], NULL, 10) : 1;
    unsigned long count = argc > 2 ? strtoul(argv[2], NULL, 10) : 2000000;
    printf("door: seed %" PRIu64 ", %lu random calls for a size\n", seed, count);
    say("examples of document 01", 0, seed);
    try_examples();
    say("sentences of the documents", 0, seed);
    try_sentences();
    try_requests();
    say("screen points, all of them, and the column table", 0, seed);
    try_points();
    try_columns();
    say("what demand 3 leaves to the program", 0, seed);
    try_duties();
    say("stored video counters and selects, all of them", 0, seed);
    try_stored_scans();
    say("which bytes a data write changes", 0, seed);
    try_changed();
    say("which words a write-back visits", 0, seed);
    try_backs();
    try_each_size(seed, count);
    try_sizes(seed, count);
    bool tried = tried_all(), scanned = scanned_all(), drew = drew_all();
    if (!tried || !scanned || !drew) {
        printf("\nnot everything was tried: see the 0s above\n");
        return 1;
    }
    printf("\nno difference in %lu compared calls\n", tried_in_total());
    return 0;
}
