/* loads.c: six loads over a chip of 257 pages, for the library and for a plain C version (tests/model.c).
 *
 *     loads                       for each load the ratio of times, library : plain C, measured in this run
 *     loads names                 the names of the loads, one a line
 *     loads LOAD WHO CALLS        makes so many calls of one load with one implementation and nothing else, so that the
 *                                 difference of two instruction counts is that of the calls between them
 *
 * LOAD is redraw, writes, registers, reads, scan, or sparse with how many words of a slot are tagged: sparse-0, sparse-1,
 * sparse-2 or sparse-8. redraw ends with its last whole block, so up to ten calls early, and scan with its last whole line, up to
 * forty. WHO is library, plain or loop; loop is a call that does nothing, and so what the loads' own loops cost. A load that is
 * not answered as it must be ends the program with status 1. */
#define _POSIX_C_SOURCE 200809L
#include <stdio.h>
#include <stdlib.h>
#include <string.h>
#include <time.h>

#include "model.h"
#include "panel.h"

enum { PAGES = 257, SCREEN_PAGES = 256 };

/* ---- Who is measured ---- */

typedef uint64_t call_function(uint8_t *state, size_t state_len, uint8_t *memory, size_t memory_len, uint32_t op, uint32_t a,
                               uint32_t b, uint32_t c, uint32_t d, uint32_t data);

/* Done, passed and written: whatever a load asks of an answer. */
static uint64_t no_call(uint8_t *state, size_t state_len, uint8_t *memory, size_t memory_len, uint32_t op, uint32_t a,
                        uint32_t b, uint32_t c, uint32_t d, uint32_t data)
{
    (void)state, (void)state_len, (void)memory, (void)memory_len, (void)op, (void)a, (void)b, (void)c, (void)d, (void)data;
    return UINT64_C(3) << 32;
}

static const struct who {
    const char *name;
    call_function *call;
} whos[] = {{"library", panel_call}, {"plain", model_call}, {"loop", no_call}};
enum { WHOS = 3 };

/* ---- A chip under measurement ---- */

struct bench {
    call_function *call;
    uint8_t state[PANEL_STATE_BYTES];
    uint8_t *memory;
    unsigned long left; /* calls still to make */
    uint64_t any, all;  /* bits that any answer had, and that all answers of data writes had */
    uint32_t other;     /* bits in which any value was another than it must be */
};

static void stop(const char *why)
{
    fprintf(stderr, "loads: %s\n", why);
    exit(1);
}

static uint64_t make(struct bench *bench, uint32_t op, uint32_t a, uint32_t b, uint32_t c, uint32_t d, uint32_t data)
{
    uint64_t answer =
        bench->call(bench->state, PANEL_STATE_BYTES, bench->memory, PANEL_MEMORY_BYTES(PAGES), op, a, b, c, d, data);
    bench->left--;
    bench->any |= answer;
    return answer;
}

static void write_word(struct bench *bench, uint32_t word, uint32_t data)
{
    bench->all &= make(bench, PANEL_STATEFUL_WRITE, 0, word, PANEL_ALL_BYTES, PANEL_PASS_IN, data);
}

/* A call whose value is known. */
static void get_value(struct bench *bench, uint32_t op, uint32_t a, uint32_t b, uint32_t c, uint32_t value)
{
    bench->other |= panel_value(make(bench, op, a, b, c, 0, 0)) ^ value;
}

/* A fresh chip for this implementation. It is made by the library: only calls are measured. */
static void start(struct bench *bench, const struct who *who, uint8_t *memory)
{
    bench->call = who->call;
    bench->memory = memory;
    bench->any = bench->other = 0;
    bench->all = ~(uint64_t)0;
    if (panel_number(panel_fresh(bench->state, sizeof bench->state, PAGES)) != PANEL_DONE)
        stop("no fresh chip");
}

/* A call that sets a load up, and is not counted. */
static void set_up(struct bench *bench, uint32_t op, uint32_t a, uint32_t b, uint32_t c, uint32_t data)
{
    bench->left++;
    make(bench, op, a, b, c, 0, data);
}

static void set_register(struct bench *bench, uint32_t number, uint32_t value)
{
    set_up(bench, PANEL_WRITE_REGISTER, number, 0, 0, value);
}

static void check(const struct bench *bench)
{
    if (panel_number(bench->any) != PANEL_DONE)
        stop("a call was refused");
    if (!panel_pass(bench->all) || !panel_written(bench->all))
        stop("a data write did not pass and write");
    if (bench->other != 0 && bench->call != no_call)
        stop("a value is not the one that it must be");
}

/* ---- The loads ---- */

/* A block of the screen: load, eight writes, masked write-back. */
static void redraw_block(struct bench *bench, uint32_t bank, uint32_t block)
{
    if (bench->left < 10) {
        bench->left = 0;
        return;
    }
    make(bench, PANEL_READ_BLOCK, bank, block, 0, 0, 0);
    for (uint32_t word = 0; word < PANEL_WORDS; word++)
        write_word(bench, word, block * UINT32_C(0x01010101) + word);
    make(bench, PANEL_MASKED_WRITE, bank, block, 0, 0, 0);
}

/* Each block of the 1280 x 1024 screen, page by page, again and again. */
static void redraw(struct bench *bench)
{
    for (uint32_t page = 0; bench->left > 1; page = (page + 1) % SCREEN_PAGES)
        for (uint32_t bank = 0; bank < PANEL_BANKS && bench->left > 1; bank++) {
            make(bench, PANEL_ACCESS_PAGE, bank, page, 0, 0, 0);
            for (uint32_t block = 0; block < PANEL_BLOCKS && bench->left > 1; block++)
                redraw_block(bench, bank, block);
            if (bench->left > 0)
                make(bench, PANEL_PRECHARGE, bank, 0, 0, 0, 0);
        }
}

/* Stateful normal writes by code 6. Both tests look at bit 31, which xor with such data leaves as it is: they pass. */
static void writes(struct bench *bench)
{
    set_register(bench, PANEL_ROP_CONTROL, PANEL_ROP_ALL(PANEL_XOR));
    set_register(bench, PANEL_MATCH_MASK, UINT32_C(0x80000000));
    set_register(bench, PANEL_MAGNITUDE_MASK, UINT32_C(0x80000000));
    set_register(bench, PANEL_COMPARE_CONTROL, PANEL_MATCH_EQUAL | PANEL_MAGNITUDE_GREATER_EQUAL);
    for (uint32_t n = 0; bench->left > 0; n++)
        write_word(bench, n % PANEL_WORDS, n & UINT32_C(0x7FFFFFFF));
}

/* A register written and read, by turns. */
static void registers(struct bench *bench)
{
    for (uint32_t n = 0; bench->left > 1; n++) {
        make(bench, PANEL_WRITE_REGISTER, PANEL_CONSTANT_SOURCE, 0, 0, 0, n);
        make(bench, PANEL_READ_REGISTER, PANEL_CONSTANT_SOURCE, 0, 0, 0, 0);
    }
}

/* Data reads alone, of eight words that are set before. */
static void reads(struct bench *bench)
{
    for (uint32_t word = 0; word < PANEL_WORDS; word++)
        set_up(bench, PANEL_STATELESS_WRITE, 0, word, PANEL_ALL_BYTES, word * UINT32_C(0x01020304));
    for (uint32_t n = 0; bench->left > 0; n++)
        get_value(bench, PANEL_DATA_READ, 0, n % PANEL_WORDS, 0, n % PANEL_WORDS * UINT32_C(0x01020304));
}

/* A line of the display: a transfer into the selected buffer, and forty clocks put it out. */
static void scan_line(struct bench *bench, uint32_t bank, uint32_t line)
{
    const uint8_t *shown = bench->memory + bank * PANEL_PAGE_BYTES * PAGES + line * PANEL_LINE_BYTES;
    make(bench, PANEL_VIDEO_TRANSFER, bank, line, 0, 0, 0);
    for (uint32_t n = 0; n < PANEL_VIDEO_CLOCKS; n++)
        get_value(bench, PANEL_VIDEO_CLOCK, 0, 0, 0, get16(shown + 2 * n));
}

/* Each line of page 0 of two banks, which alternate as the selected buffer does, again and again. */
static void scan(struct bench *bench)
{
    for (uint32_t bank = 0; bank < 2; bank++) {
        uint8_t *page = bench->memory + bank * PANEL_PAGE_BYTES * PAGES;
        set_up(bench, PANEL_ACCESS_PAGE, bank, 0, 0, 0);
        for (uint32_t i = 0; i < PANEL_PAGE_BYTES; i++)
            page[i] = (uint8_t)(i * 7 + i / PANEL_LINE_BYTES + bank);
    }
    for (uint32_t n = 0; bench->left > PANEL_VIDEO_CLOCKS; n++)
        scan_line(bench, n % 2, n / 2 % PANEL_LINES);
}

/* Write-backs alone, of eight slots by turns. Each has so many words tagged, from the word of its own number on and as far apart as
 * they can be. */
static void sparse(struct bench *bench, uint32_t words)
{
    set_up(bench, PANEL_ACCESS_PAGE, 0, 0, 0, 0);
    for (uint32_t slot = 0; slot < PANEL_SLOTS; slot++) {
        for (uint32_t word = 0; word < PANEL_WORDS; word++)
            set_up(bench, PANEL_STATELESS_WRITE, slot, word, PANEL_ALL_BYTES, UINT32_C(0x01020304) * (slot + word + 1));
        set_up(bench, PANEL_REPLACE_TAG, slot, 0, 0, 0);
        for (uint32_t n = 0; n < words; n++)
            set_up(bench, PANEL_OR_TAG, slot, 0, 0,
                   (uint32_t)PANEL_ALL_BYTES << 4 * ((slot + n * (PANEL_WORDS / words)) % PANEL_WORDS));
    }
    for (uint32_t n = 0; bench->left > 0; n++)
        get_value(bench, PANEL_MASKED_WRITE, 0, n % PANEL_BLOCKS, n % PANEL_SLOTS, 4 * words);
}

static void sparse_0(struct bench *bench) { sparse(bench, 0); }
static void sparse_1(struct bench *bench) { sparse(bench, 1); }
static void sparse_2(struct bench *bench) { sparse(bench, 2); }
static void sparse_8(struct bench *bench) { sparse(bench, 8); }

static const struct load {
    const char *name;
    void (*run)(struct bench *bench);
    unsigned long calls; /* in a round that is timed: one screen for redraw */
} loads[] = {{"redraw", redraw, 4 * SCREEN_PAGES *(2 + 40 * 10)},
             {"writes", writes, 1000000},
             {"registers", registers, 1000000},
             {"reads", reads, 1000000},
             {"scan", scan, 41 * 25000},
             {"sparse-0", sparse_0, 1000000},
             {"sparse-1", sparse_1, 1000000},
             {"sparse-2", sparse_2, 1000000},
             {"sparse-8", sparse_8, 1000000}};
enum { LOADS = sizeof loads / sizeof *loads };

static void run(const struct load *load, const struct who *who, uint8_t *memory, unsigned long calls)
{
    struct bench bench;
    start(&bench, who, memory);
    bench.left = calls;
    load->run(&bench);
    check(&bench);
}

/* ---- Ratios ---- */

enum { ROUNDS = 15 };

static double seconds(const struct load *load, const struct who *who, uint8_t *memory)
{
    struct timespec from, until;
    clock_gettime(CLOCK_MONOTONIC, &from);
    run(load, who, memory, load->calls);
    clock_gettime(CLOCK_MONOTONIC, &until);
    return (double)(until.tv_sec - from.tv_sec) + 1e-9 * (double)(until.tv_nsec - from.tv_nsec);
}

static int by_size(const void *a, const void *b)
{
    double x = *(const double *)a, y = *(const double *)b;
    return (x > y) - (x < y);
}

/* Library and plain C by turns, so that what else the machine does meets both; the fastest rounds were disturbed least. */
static void print_ratio(const struct load *load, uint8_t *memory)
{
    double library[ROUNDS], plain[ROUNDS], ratio[ROUNDS];
    for (int i = 0; i < ROUNDS; i++) {
        library[i] = seconds(load, &whos[0], memory);
        plain[i] = seconds(load, &whos[1], memory);
        ratio[i] = library[i] / plain[i];
    }
    qsort(library, ROUNDS, sizeof *library, by_size);
    qsort(plain, ROUNDS, sizeof *plain, by_size);
    qsort(ratio, ROUNDS, sizeof *ratio, by_size);
    printf("%-10s library : plain C = %.2f : 1   (fastest of %d rounds each; the rounds' own ratios: median %.2f)\n",
           load->name, library[0] / plain[0], ROUNDS, ratio[ROUNDS / 2]);
    fflush(stdout);
}

/* ---- The program ---- */

static const char usage[] = "usage: loads [names | LOAD library|plain|loop CALLS]; 'loads names' lists the loads";

static void one(const char *load, const char *who, unsigned long calls, uint8_t *memory)
{
    for (int l = 0; l < LOADS; l++)
        for (int w = 0; w < WHOS; w++)
            if (strcmp(load, loads[l].name) == 0 && strcmp(who, whos[w].name) == 0) {
                run(&loads[l], &whos[w], memory, calls);
                return;
            }
    stop(usage);
}

int main(int argc, char **argv)
{
    uint8_t *memory = calloc(PANEL_MEMORY_BYTES(PAGES), 1);
    if (memory == NULL)
        stop("no memory");
    if (argc == 4)
        one(argv[1], argv[2], strtoul(argv[3], NULL, 10), memory);
    else if (argc == 1)
        for (int l = 0; l < LOADS; l++)
            print_ratio(&loads[l], memory);
    else if (argc == 2 && strcmp(argv[1], "names") == 0)
        for (int l = 0; l < LOADS; l++)
            puts(loads[l].name);
    else
        stop(usage);
    free(memory);
    return 0;
}
