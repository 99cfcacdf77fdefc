/* sentences.c: sentences of document 01 that no example of the paper shows, each tried on purpose through the C door. The numbers
 * are those of docs/TRACE.md. */
#include "phases.h"

#include "paper.h"

/* Block 39 of page 1 of bank 3 ends with memory; byte 0 lies at line 12, column 72. Of memory that word alone changes. */
static void bank_part(void)
{
    size_t at = 3 * BANK + PAGE + 12 * 80 + 72;
    fresh();
    done(PANEL_ACCESS_PAGE, 3, 1, 0, 0, 0);
    done(PANEL_READ_BLOCK, 3, 39, 0, 0, 0);
    keep();
    done(PANEL_STATELESS_WRITE, 0, 0, PANEL_ALL_BYTES, 0, 0x5A5A5A5A);
    done(PANEL_UNMASKED_WRITE, 3, 39, 0, 0, 0);
    expect("the word in its bank's part", get32(memory + at), 0x5A5A5A5A);
    memcpy(memory + at, old_memory + at, 4);
    same_memory();
}

/* What is written back is read again at once, and after the page was closed and opened. */
static void write_through(void)
{
    fresh();
    done(PANEL_ACCESS_PAGE, 1, 0, 0, 0, 0);
    done(PANEL_STATELESS_WRITE, 2, 3, PANEL_ALL_BYTES, 0, 0xC0FFEE11);
    done(PANEL_UNMASKED_WRITE, 1, 17, 2, 0, 0);
    done(PANEL_READ_BLOCK, 1, 17, 5, 0, 0);
    expect("read from the open page", word(5, 3), 0xC0FFEE11);
    done(PANEL_PRECHARGE, 1, 0, 0, 0, 0);
    done(PANEL_ACCESS_PAGE, 1, 0, 0, 0, 0);
    done(PANEL_READ_BLOCK, 1, 17, 6, 0, 0);
    expect("read from the page opened anew", word(6, 3), 0xC0FFEE11);
}

/* 27:26 and 25:24, each: 10 clears, 11 sets, a leading 0 leaves as it was. */
static void action_bits(void)
{
    for (uint32_t before = 0; before < 4; before++)
        for (uint32_t action = 0; action < 16; action++) {
            uint32_t picking = before & 1, hit = before >> 1;
            fresh();
            state[52] = (uint8_t)before;
            set(PANEL_COMPARE_CONTROL, action << 24);
            expect("picking", (uint64_t)panel_picking(state), action >> 3 ? action >> 2 & 1 : picking);
            expect("hit", (uint64_t)panel_hit(state), action >> 1 & 1 ? action & 1 : hit);
            expect("stored as 0", get32(state + 24 + 20), 0);
        }
}

/* The parts behind the header, each at its place with a value of its own. */
static void parts(void)
{
    static const uint32_t registers[7] = {0x11223344, 0x55667788, 0x99AABBCC, 0xDDEEFF01, 0x2F0F2103, 0x00030707, 1};
    fresh();
    done(PANEL_ACCESS_PAGE, 2, 1, 0, 0, 0);
    for (uint32_t n = 7; n >= 1; n--)
        set(n, registers[n - 1] | (n == 6 ? 0x0C000000 : 0)); /* and picking on */
    for (uint32_t slot = 0; slot < 8; slot++) {
        done(PANEL_STATELESS_WRITE, slot, slot, PANEL_ALL_BYTES, 0, 0x01020304 * (slot + 1));
        done(PANEL_REPLACE_TAG, slot, 0, 0, 0, 0x80000001 + slot);
    }
    expect("open pages", get32(state + 16), 0xFFFFFFFF);
    expect("open page of bank 2, closed bank 3", get32(state + 20), 0xFFFF0001);
    for (uint32_t n = 0; n < 7; n++)
        expect("a register", get32(state + 24 + 4 * n), registers[n]);
    expect("flags", get32(state + 52), 1);
    expect("counter", get32(state + 56), 1 + 7 + 16);
    for (uint32_t slot = 0; slot < 8; slot++) {
        expect("a tag", tag(slot), 0x80000001 + slot);
        expect("pixels", get32(state + 92 + 32 * slot + 4 * slot), 0x01020304 * (slot + 1));
    }
}

static void tag_writes(void)
{
    fresh();
    done(PANEL_REPLACE_TAG, 4, 0, 0, 0, 0x0000F00F);
    done(PANEL_REPLACE_TAG, 4, 0, 0, 0, 0x000000F1);
    expect("replaced", tag(4), 0x000000F1);
    done(PANEL_OR_TAG, 4, 0, 0, 0, 0x8000000E);
    expect("joined", tag(4), 0x800000FF);
}

static void precharge(void)
{
    fresh();
    done(PANEL_ACCESS_PAGE, 1, 1, 0, 0, 0);
    done(PANEL_PRECHARGE, 1, 0, 0, 0, 0);
    expect("closed", panel_open_page(state, 1), 65535);
    keep();
    done(PANEL_PRECHARGE, 1, 0, 0, 0, 0);
    same_but_counter(1);
    same_memory();
}

static void duplicate(void)
{
    fresh();
    done(PANEL_ACCESS_PAGE, 2, 1, 0, 0, 0);
    keep();
    done(PANEL_DUPLICATE_PAGE, 2, 0, 0, 0, 0);
    expect("the named page is open", panel_open_page(state, 2), 0);
    expect("the copy", memcmp(memory + 2 * BANK, old_memory + 2 * BANK + PAGE, PAGE) != 0, 0);
    memcpy(memory + 2 * BANK, old_memory + 2 * BANK, PAGE);
    same_memory();
}

static void duplicate_of_itself(void)
{
    fresh();
    done(PANEL_ACCESS_PAGE, 2, 1, 0, 0, 0);
    keep();
    done(PANEL_DUPLICATE_PAGE, 2, 1, 0, 0, 0);
    same_but_counter(1);
    same_memory();
}

/* Byte i of block 22: line 4 * 2 + i div 8, column 8 * 5 + i mod 8. */
static void load(void)
{
    fresh();
    done(PANEL_ACCESS_PAGE, 1, 1, 0, 0, 0);
    done(PANEL_REPLACE_TAG, 3, 0, 0, 0, 0xFFFFFFFF);
    done(PANEL_READ_BLOCK, 1, 22, 3, 0, 0);
    expect("the tag", tag(3), 0);
    for (size_t i = 0; i < 32; i++)
        expect("a byte", state[92 + 32 * 3 + i], memory[BANK + PAGE + (8 + i / 8) * 80 + 40 + i % 8]);
}

/* Both write-backs leave slot and tag; the unmasked one obeys the tag too. */
static void write_back(void)
{
    for (uint32_t op = PANEL_MASKED_WRITE; op <= PANEL_UNMASKED_WRITE; op++) {
        fresh();
        done(PANEL_ACCESS_PAGE, 0, 0, 0, 0, 0);
        for (uint32_t w = 0; w < 8; w++)
            done(PANEL_STATELESS_WRITE, 1, w, PANEL_ALL_BYTES, 0, 0xEEEEEEEE);
        done(PANEL_REPLACE_TAG, 1, 0, 0, 0, 0x80000002);
        keep();
        expect("its value", done(op, 0, 0, 1, 0, 0), 2);
        same_but_counter(1);
        old_memory[1] = old_memory[3 * 80 + 7] = 0xEE; /* bytes 1 and 31 of block 0, and no other */
        same_memory();
    }
}

/* Xor shows OLD: the destination takes data ^ OLD, and OLD is of (slot, word), not of the destination. */
static void old_word(void)
{
    fresh();
    done(PANEL_STATELESS_WRITE, 2, 5, PANEL_ALL_BYTES, 0, 0x000000F0);
    done(PANEL_STATELESS_WRITE, 3, 1, PANEL_ALL_BYTES, 0, 0x00FF0000);
    set(PANEL_ROP_CONTROL, 0x06060606);
    done(PANEL_STATEFUL_WRITE, 2, 5, PANEL_ALL_BYTES, 3, 0x0000000F);
    expect("(2, 5)", word(2, 5), 0x000000FF);
    set(PANEL_WRITE_ADDRESS_CONTROL, 1);
    done(PANEL_STATEFUL_WRITE, 2, 5, PANEL_ALL_BYTES, 3, 3u << 27 | 1u << 24);
    expect("the destination (3, 1)", word(3, 1), 0x190000FF);
    expect("the source as it was", word(2, 5), 0x000000FF);
}

/* OLD is 0. Match sees bit 7, which data has or not; magnitude sees 0 on both sides, so that >= passes and > fails. */
static void pass_out(void)
{
    for (uint32_t match = 0; match < 2; match++)
        for (uint32_t magnitude = 0; magnitude < 2; magnitude++)
            for (uint32_t in = 0; in < 4; in++) {
                uint64_t answer;
                fresh();
                set(PANEL_MATCH_MASK, 0x80);
                set(PANEL_MAGNITUDE_MASK, 0x0F);
                set(PANEL_COMPARE_CONTROL, 0x200 | (magnitude ? 3 : 1));
                answer = call(PANEL_STATEFUL_WRITE, 0, 0, 15, in, match ? 0 : 0x80);
                expect("pass", (uint64_t)panel_pass(answer), match & magnitude);
                expect("written", (uint64_t)panel_written(answer), match & magnitude & (in == 3));
            }
}

static void masked_out(void)
{
    fresh();
    set(PANEL_PLANE_MASK, 0x00FF00FF);
    done(PANEL_STATEFUL_WRITE, 6, 2, 0xB, 3, 0xFFFFFFFF);
    expect("the word", word(6, 2), 0x000000FF);
    expect("the tag, bytes 0, 1 and 3 of word 2", tag(6), 0x00000B00);
}

/* Enabled or not; at the destination, and there alone. */
static void initial(void)
{
    for (uint32_t in = 0; in <= 3; in += 3) {
        fresh();
        done(PANEL_REPLACE_TAG, 0, 0, 0, 0, 0xAAAAAAAA);
        done(PANEL_REPLACE_TAG, 1, 0, 0, 0, 0xBBBBBBBB);
        set(PANEL_WRITE_ADDRESS_CONTROL, 1);
        done(PANEL_STATEFUL_INITIAL, 0, 0, 1, in, 1u << 27 | 7u << 24);
        expect("the destination's tag", tag(1), in == 3 ? 0x10000000 : 0);
        expect("the source's tag", tag(0), 0xAAAAAAAA);
    }
}

/* With registers 1, 5, 6 and 7 far from fresh, and picking on. */
static void stateless(void)
{
    for (uint32_t in = 0; in < 4; in++) {
        uint64_t answer;
        fresh();
        set(PANEL_PLANE_MASK, 0);
        set(PANEL_ROP_CONTROL, 0x00000000);
        set(PANEL_COMPARE_CONTROL, 0x104 | 0x0C000000); /* never, never; picking on */
        set(PANEL_WRITE_ADDRESS_CONTROL, 1);
        answer = call(PANEL_STATELESS_WRITE, 5, 6, 15, in, 0x3F345678);
        expect("done, all bytes changed, pass and written", answer, UINT64_C(3) << 32 | 15);
        expect("data at (slot, word)", word(5, 6), 0x3F345678);
        expect("the tag", tag(5), 0x0F000000);
        expect("hit", (uint64_t)panel_hit(state), 0);
    }
}

/* Every operation once, done: the value, pass and written of each. */
static void values(void)
{
    static const uint32_t calls[][6] = {{1, 0, 0, 0, 0, 0},  {3, 0, 1, 0, 0, 0},   {4, 0, 0, 0, 0, 0},   {8, 0, 0, 15, 0, 9},
                                        {9, 0, 0, 15, 0, 9}, {10, 0, 0, 15, 3, 9}, {11, 0, 0, 15, 0, 9}, {11, 0, 0, 0, 3, 9},
                                        {12, 0, 0, 0, 0, 7}, {13, 0, 0, 0, 0, 8},  {14, 2, 0, 0, 0, 77}, {2, 0, 0, 0, 0, 0},
                                        {7, 0, 0, 0, 0, 0},  {15, 2, 0, 0, 0, 0},  {1, 0, 0, 0, 0, 0},   {5, 0, 0, 0, 0, 0},
                                        {6, 0, 0, 0, 0, 0},  {16, 0, 0, 0, 0, 0},  {17, 0, 0, 0, 0, 0}};
    static const uint64_t answers[] = {0,
                                       0,
                                       0,
                                       UINT64_C(3) << 32 | 15,
                                       UINT64_C(3) << 32,
                                       UINT64_C(3) << 32,
                                       UINT64_C(1) << 32,
                                       UINT64_C(3) << 32,
                                       0,
                                       0,
                                       0,
                                       0,
                                       9,
                                       77,
                                       0,
                                       4,
                                       4,
                                       0,
                                       9};
    fresh();
    for (size_t i = 0; i < sizeof calls / sizeof *calls; i++)
        expect("an answer", call(calls[i][0], calls[i][1], calls[i][2], calls[i][3], calls[i][4], calls[i][5]), answers[i]);
}

/* A block that is stored in the middle of drawing and put elsewhere goes on as the first one does. */
static void stored(void)
{
    static uint8_t copy[BLOCK];
    fresh();
    done(PANEL_ACCESS_PAGE, 0, 1, 0, 0, 0);
    done(PANEL_READ_BLOCK, 0, 3, 7, 0, 0);
    done(PANEL_STATEFUL_WRITE, 7, 7, 9, 3, 0x77665544);
    keep();
    memcpy(copy, state, BLOCK);
    done(PANEL_MASKED_WRITE, 0, 3, 7, 0, 0);
    expect("the same answer", panel_call(copy, BLOCK, old_memory, MEMORY, PANEL_MASKED_WRITE, 0, 3, 7, 0, 0), 2);
    expect("the same block", memcmp(copy, state, BLOCK) != 0, 0);
    same_memory();
}

static const struct sentence sentences[] = {
    {"01-MEM-03", bank_part},  {"01-MEM-09", write_through}, {"01-STA-06", action_bits}, {"01-STA-08", parts},
    {"01-CAL-04", tag_writes}, {"01-CAL-06", precharge},     {"01-CAL-07", duplicate},   {"01-CAL-08", duplicate_of_itself},
    {"01-CAL-09", load},       {"01-CAL-12", write_back},    {"01-MIS-02", write_back},  {"01-CAL-15", old_word},
    {"01-CAL-21", pass_out},   {"01-CAL-27", masked_out},    {"01-CAL-32", initial},     {"01-CAL-33", stateless},
    {"01-CAL-34", stateless},  {"01-NUM-15", values},        {"01-NUM-17", values},      {"01-FRM-02", bank_part},
    {"01-DEM-05", stored}};

void try_sentences(void) { TRY_EACH(sentences); }
