/* requests.c: sentences of document 02, of the requests that are done, each tried on purpose through the C door. The numbers are
 * those of docs/TRACE.md. */
#include "phases.h"

#include "paper.h"

/* ---- T-01: scan-out to the display ---- */

/* Behind the pixels: 160 bytes, then two 16-bit numbers. */
enum { LINE = 80, BUFFERS_AT = 92 + 8 * 32, VIDEO_COUNTER_AT = BUFFERS_AT + 160, VIDEO_SELECT_AT = VIDEO_COUNTER_AT + 2 };

static uint64_t transfer(uint32_t bank, uint32_t line) { return call(PANEL_VIDEO_TRANSFER, bank, line, 0, 0, 0); }
static uint32_t clock_out(void) { return done(PANEL_VIDEO_CLOCK, 0, 0, 0, 0, 0); }
static uint8_t *scan_line(uint32_t bank, uint32_t page, uint32_t line)
{
    return memory + bank * BANK + page * PAGE + line * LINE;
}
static uint8_t *buffer(uint32_t number) { return state + BUFFERS_AT + LINE * number; }

static void set_scan(uint32_t counter, uint32_t select)
{
    put16(state + VIDEO_COUNTER_AT, counter);
    put16(state + VIDEO_SELECT_AT, select);
}

/* All banks open at this page. */
static void fresh_and_open(uint32_t page)
{
    fresh();
    for (uint32_t bank = 0; bank < 4; bank++)
        done(PANEL_ACCESS_PAGE, bank, page, 0, 0, 0);
}

/* The next forty clocks put this line out. */
static void puts_out(const uint8_t *line)
{
    for (size_t n = 0; n < 40; n++)
        expect("two bytes put out", clock_out(), get16(line + 2 * n));
}

static void two_buffers(void)
{
    fresh_and_open(1);
    expect("a transfer", transfer(2, 5), 0);
    expect("a transfer", transfer(1, 6), 0);
    puts_out(scan_line(2, 1, 5));
    puts_out(scan_line(1, 1, 6));
}

/* The line goes to the buffer, and nothing else changes. */
static void transfer_of_a_line(void)
{
    for (uint32_t line = 0; line < 16; line++) {
        fresh_and_open(1);
        set_scan(line, 0);
        keep();
        expect("a transfer", transfer(3, line), 0);
        expect("the line in the buffer", memcmp(buffer(1), scan_line(3, 1, line), LINE) != 0, 0);
        memcpy(buffer(1), old_state + BUFFERS_AT + LINE, LINE);
        same_but_counter(1);
        same_memory();
    }
}

static void bank_to_buffer(void)
{
    for (uint32_t bank = 0; bank < 4; bank++) {
        uint32_t fed = bank == 1 || bank == 3;
        fresh_and_open(0);
        keep();
        expect("a transfer", transfer(bank, 9), 0);
        expect("the buffer fed", memcmp(buffer(fed), scan_line(bank, 0, 9), LINE) != 0, 0);
        expect("the other buffer", memcmp(buffer(1 - fed), old_state + BUFFERS_AT, LINE) != 0, 0);
    }
}

/* The answer's other bits are 0, and nothing changes but the two counters. */
static void lower_column_first(void)
{
    fresh();
    buffer(1)[2 * 17] = 0xCD;
    buffer(1)[2 * 17 + 1] = 0xAB;
    set_scan(17, 1);
    keep();
    expect("the answer", call(PANEL_VIDEO_CLOCK, 0, 0, 0, 0, 0), 0xABCD);
    put16(state + VIDEO_COUNTER_AT, 17);
    same_but_counter(1);
    same_memory();
}

static void counter_and_select(void)
{
    fresh();
    for (uint32_t n = 0; n < 200; n++) {
        expect("the video counter", get16(state + VIDEO_COUNTER_AT), n % 40);
        expect("the select", get16(state + VIDEO_SELECT_AT), n / 40 % 2);
        expect("the call counter", get32(state + 56), n);
        clock_out();
    }
}

static void video_operands(void)
{
    static const uint32_t calls[][6] = {{16, 4, 0, 0, 0, 0}, {16, 0, 16, 0, 0, 0}, {16, 0, 0, 1, 0, 0}, {16, 0, 0, 0, 1, 0},
                                        {16, 0, 0, 0, 0, 1}, {17, 1, 0, 0, 0, 0},  {17, 0, 1, 0, 0, 0}, {17, 0, 0, 1, 0, 0},
                                        {17, 0, 0, 0, 1, 0}, {17, 0, 0, 0, 0, 1}};
    fresh_and_open(0);
    keep();
    for (size_t i = 0; i < sizeof calls / sizeof *calls; i++)
        expect("an operand too many or too large",
               call(calls[i][0], calls[i][1], calls[i][2], calls[i][3], calls[i][4], calls[i][5]), UINT64_C(4) << 40);
    same_but_counter(0);
    expect("the last bank and line", transfer(3, 15), 0);
}

static void video_fresh(void)
{
    static const uint8_t zero[BLOCK - BUFFERS_AT];
    memset(state, 0xFF, BLOCK);
    fresh();
    expect("buffers, counter and select", memcmp(state + BUFFERS_AT, zero, sizeof zero) != 0, 0);
    puts_out(zero);
    puts_out(zero);
}

/* Written there, the parts are what a clock goes by. */
static void video_parts(void)
{
    fresh();
    expect("the header's last field", get16(state + 14), 512);
    for (uint32_t i = 0; i < 160; i++)
        state[BUFFERS_AT + i] = (uint8_t)(i + 1);
    for (uint32_t i = 0; i < 80; i++) {
        set_scan(i % 40, i / 40);
        expect("two bytes put out", clock_out(), 2 * i + 1 + (2 * i + 2) * 256);
    }
}

/* Each function of the door refuses it with 1 and leaves it. */
static void expect_not_taken(size_t length)
{
    keep();
    expect("a call", panel_call(state, length, memory, MEMORY, PANEL_PRECHARGE, 0, 0, 0, 0, 0), UINT64_C(1) << 40);
    expect("a scan line", panel_scan_line(state, length, memory, MEMORY, 0, 0, 0), UINT64_C(1) << 40);
    same_but_counter(0);
    same_memory();
}

/* The block of 348 bytes as the first version kept it, and its header on a block of the new length. */
static void old_length(void)
{
    fresh();
    put16(state + 14, 348);
    expect_not_taken(348);
    expect_not_taken(BLOCK);
    expect("a fresh chip in 348 bytes", panel_fresh(state, 348, PAGES), UINT64_C(1) << 40);
    same_but_counter(0);
}

/* Bytes that wait are not put out, what is written back later is not, and a refused transfer leaves what the last one brought. */
static void as_memory_stood(void)
{
    uint8_t line[LINE];
    fresh_and_open(0);
    puts_out((const uint8_t[LINE]){0});
    clock_out();
    memcpy(line, scan_line(2, 0, 4), LINE);
    done(PANEL_READ_BLOCK, 2, 1, 0, 0, 0); /* lines 4 to 7, columns 0 to 7 */
    done(PANEL_STATEFUL_WRITE, 0, 0, PANEL_ALL_BYTES, PANEL_PASS_IN, 0x77777777);
    expect("a transfer while bytes wait", transfer(2, 4), 0);
    done(PANEL_MASKED_WRITE, 2, 1, 0, 0, 0);
    expect("memory has them now", get32(scan_line(2, 0, 4)), 0x77777777);
    for (uint32_t n = 1; n < 40; n++)
        clock_out(); /* the rest of buffer 1 */
    expect("the first two bytes", clock_out(), get16(line));
    expect("a transfer into a buffer in use", transfer(2, 4), UINT64_C(10) << 40);
    expect("the next two", clock_out(), get16(line + 2));
}

static void stored_scan(void)
{
    static const uint32_t counters[] = {40, 41, 63, 64, 79, 80, 255, 256, 0x8000, 0xFFFF},
                          selects[] = {2, 3, 255, 256, 0x8001, 0xFFFF};
    fresh();
    for (size_t i = 0; i < sizeof counters / sizeof *counters; i++) {
        set_scan(counters[i], 0);
        expect_not_taken(BLOCK);
    }
    for (size_t i = 0; i < sizeof selects / sizeof *selects; i++) {
        set_scan(0, selects[i]);
        expect_not_taken(BLOCK);
    }
    set_scan(39, 1);
    expect("counter 39, select 1", call(PANEL_PRECHARGE, 0, 0, 0, 0, 0), 0);
}

/* On an open bank and on a closed one, at each counter and select. */
static void in_use(void)
{
    for (uint32_t i = 0; i < 2 * 40 * 4; i++) {
        uint32_t bank = i % 4, counter = i / 4 % 40, select = i / 160;
        bool used = counter != 0 && bank % 2 == select;
        fresh();
        set_scan(counter, select);
        expect("a transfer on a closed bank", transfer(bank, 3), UINT64_C(7) << 40);
        done(PANEL_ACCESS_PAGE, bank, 1, 0, 0, 0);
        expect("a transfer on an open bank", transfer(bank, 3), used ? UINT64_C(10) << 40 : 0);
        expect("an operand outside, on an open bank", transfer(bank, 16), UINT64_C(4) << 40);
    }
}

static void operations(void)
{
    static const uint32_t none[] = {0, 18, 19, 32, 255, 256 + 17, 65536 + 16, 0x80000011, 0xFFFFFFFF};
    fresh_and_open(0);
    for (size_t i = 0; i < sizeof none / sizeof *none; i++)
        expect("no operation", call(none[i], 0, 0, 0, 0, 0), UINT64_C(3) << 40);
    expect("16", call(16, 0, 0, 0, 0, 0), 0);
    expect("17", call(17, 0, 0, 0, 0, 0), get16(memory));
}

/* ---- T-02: which bytes changed ---- */

enum { PASSED = 1, WRITTEN = 2 }; /* in an answer's bits 33:32 */

static uint64_t said(uint32_t passed_written, uint32_t changed) { return (uint64_t)passed_written << 32 | changed; }
static uint64_t put(uint32_t op, uint32_t enables, uint32_t data) { return call(op, 2, 5, enables, PANEL_PASS_IN, data); }

/* A fresh chip whose word (2, 5) is this one. */
static void fresh_with(uint32_t old)
{
    fresh();
    done(PANEL_STATELESS_WRITE, 2, 5, PANEL_ALL_BYTES, 0, old);
}

/* A word, and the same with these bits turned in each of these bytes, bit n for byte n. */
static const uint32_t old_bytes = 0x807F01FF;
static uint32_t other_in(uint32_t bytes, uint32_t bits)
{
    uint32_t data = old_bytes;
    for (uint32_t n = 0; n < 4; n++)
        if (bytes >> n & 1)
            data ^= bits << 8 * n;
    return data;
}

/* Whichever bytes differ, and by whichever bit of them: those are told, and of them only the enabled ones. */
static void bytes_that_differ(void)
{
    for (uint32_t bytes = 0; bytes < 16; bytes++)
        for (uint32_t bits = 1; bits < 256; bits++) {
            fresh_with(old_bytes);
            expect("all enabled", put(PANEL_STATEFUL_WRITE, 15, other_in(bytes, bits)), said(PASSED | WRITTEN, bytes));
            fresh_with(old_bytes);
            expect("two enabled", put(PANEL_STATEFUL_WRITE, 6, other_in(bytes, bits)), said(PASSED | WRITTEN, bytes & 6));
        }
}

/* Bits that the plane mask keeps, and bits that the raster code leaves, are no difference. */
static void bytes_under_the_mask(void)
{
    fresh_with(0x00000000);
    set(PANEL_PLANE_MASK, 0x80000F00);
    expect("under the mask", put(PANEL_STATEFUL_WRITE, 15, 0xFFFFFFFF), said(PASSED | WRITTEN, 10));
    expect("the word", word(2, 5), 0x80000F00);
    expect("outside of the mask", put(PANEL_STATEFUL_WRITE, 15, 0x80000FFF), said(PASSED | WRITTEN, 0));
    set(PANEL_PLANE_MASK, 0xFFFFFFFF);
    set(PANEL_ROP_CONTROL, PANEL_ROP_ALL(PANEL_OR));
    expect("or", put(PANEL_STATEFUL_WRITE, 15, 0x80010101), said(PASSED | WRITTEN, 5));
    expect("the word", word(2, 5), 0x80010F01);
}

/* By write address control: (2, 5) and data agree in other bytes than the destination (3, 1) and data do. */
static void bytes_of_the_destination(void)
{
    const uint32_t to_3_1 = 0x19000000;
    fresh_with(to_3_1 | 0x00AABB00);
    done(PANEL_STATELESS_WRITE, 3, 1, PANEL_ALL_BYTES, 0, 0x00AA00CC);
    set(PANEL_WRITE_ADDRESS_CONTROL, 1);
    expect("normal", put(PANEL_STATEFUL_WRITE, 15, to_3_1 | 0x00AABBCC), said(PASSED | WRITTEN, 10));
    expect("the destination", word(3, 1), to_3_1 | 0x00AABBCC);
    expect("the source as it was", word(2, 5), to_3_1 | 0x00AABB00);
    expect("initial", put(PANEL_STATEFUL_INITIAL, 15, to_3_1 | 0x00ABBB00), said(PASSED | WRITTEN, 5));
    expect("stateless, at (2, 5)", put(PANEL_STATELESS_WRITE, 15, to_3_1 | 0x00AABBCC), said(PASSED | WRITTEN, 1));
}

/* Initial or normal, stateless or stateful; pass and written are what they were, and all other bits are 0. */
static void value_of_each_write(void)
{
    for (uint32_t op = PANEL_STATELESS_INITIAL; op <= PANEL_STATEFUL_WRITE; op++)
        for (uint32_t bytes = 0; bytes < 16; bytes++) {
            fresh_with(old_bytes);
            expect("one bit", put(op, 15, other_in(bytes, 0x80)), said(PASSED | WRITTEN, bytes));
            expect("and back", put(op, 15, old_bytes), said(PASSED | WRITTEN, bytes));
        }
}

/* Passing or not; written by decal, where it does not pass. */
static void value_if_not_enabled(void)
{
    fresh_with(0);
    for (uint32_t in = 0; in < 3; in++)
        expect("pass-in low", call(PANEL_STATEFUL_WRITE, 2, 5, 15, in, 0xFFFFFFFF), said(PASSED, 0));
    set(PANEL_COMPARE_CONTROL, PANEL_MATCH_NEVER);
    expect("match fails", put(PANEL_STATEFUL_WRITE, 15, 0xFFFFFFFF), said(0, 0));
    expect("match fails, initial", put(PANEL_STATEFUL_INITIAL, 15, 0xFFFFFFFF), said(0, 0));
    set(PANEL_COMPARE_CONTROL, PANEL_MATCH_NEVER | PANEL_DECAL);
    expect("decal", put(PANEL_STATEFUL_WRITE, 15, 0x00FF00FF), said(WRITTEN, 5));
}

/* An operand outside its range: 4, value 0, and the word stays. */
static void value_if_refused(void)
{
    static const uint32_t outside[][4] = {{8, 5, 15, 3}, {2, 8, 15, 3}, {2, 5, 16, 3}, {2, 5, 15, 4}};
    fresh_with(0);
    keep();
    for (uint32_t op = PANEL_STATELESS_INITIAL; op <= PANEL_STATEFUL_WRITE; op++)
        for (size_t i = 0; i < COUNT(outside); i++)
            expect("refused", call(op, outside[i][0], outside[i][1], outside[i][2], outside[i][3], 0xFFFFFFFF),
                   UINT64_C(4) << 40);
    same_but_counter(0);
}

/* The same word again, the raster code that keeps OLD, a plane mask of 0: tagged each time. No byte enabled: not even that. */
static void none_changed(void)
{
    for (uint32_t op = PANEL_STATELESS_INITIAL; op <= PANEL_STATEFUL_WRITE; op++) {
        fresh_with(old_bytes);
        done(PANEL_REPLACE_TAG, 2, 0, 0, 0, 0);
        expect("the same word", put(op, 11, old_bytes), said(PASSED | WRITTEN, 0));
        expect("the tag", tag(2), 0x00B00000);
        expect("no byte enabled", put(op, 0, ~old_bytes), said(PASSED | WRITTEN, 0));
    }
    set(PANEL_ROP_CONTROL, PANEL_ROP_ALL(PANEL_KEEP));
    expect("OLD kept", put(PANEL_STATEFUL_INITIAL, 15, ~old_bytes), said(PASSED | WRITTEN, 0));
    expect("the tag", tag(2), 0x00F00000);
    set(PANEL_ROP_CONTROL, PANEL_ROP_CONTROL_FRESH);
    set(PANEL_PLANE_MASK, 0);
    expect("masked out", put(PANEL_STATEFUL_INITIAL, 7, ~old_bytes), said(PASSED | WRITTEN, 0));
    expect("the tag", tag(2), 0x00700000);
}

/* Over zero memory, as the small program has it: "0 15 1 1". */
static void third_line(void)
{
    fresh();
    memset(memory, 0, MEMORY);
    done(PANEL_ACCESS_PAGE, 0, 0, 0, 0, 0);
    done(PANEL_READ_BLOCK, 0, 0, 0, 0, 0);
    expect("the third call", call(11, 0, 0, 15, 3, 16909060), said(PASSED | WRITTEN, 15));
}

/* ---- T-03: write-backs on the old panel computer ---- */

/* Byte i of block 22 of bank 1's page 1: the block is the sixth across and the third down. */
static uint8_t *in_block(uint32_t i) { return scan_line(1, 1, 2 * 4 + i / 8) + 5 * 8 + i % 8; }

/* Slot 6 differs from the block in each bit. It is written back with this tag: the tagged bytes change and no others, and the value
 * is how many they are. */
static void back_with(uint32_t op, uint32_t tag_bits)
{
    uint32_t tagged = 0;
    done(PANEL_REPLACE_TAG, 6, 0, 0, 0, tag_bits);
    keep();
    for (uint32_t i = 0; i < 32; i++)
        tagged += tag_bits >> i & 1;
    expect("the answer", call(op, 1, 22, 6, 0, 0), tagged);
    same_but_counter(1);
    for (uint32_t i = 0; i < 32; i++) {
        uint8_t was = old_memory[in_block(i) - memory];
        expect("a byte of the block", *in_block(i), tag_bits >> i & 1 ? (uint8_t)~was : was);
        *in_block(i) = was;
    }
    same_memory();
}

static void fresh_to_write_back(void)
{
    fresh_and_open(1);
    for (uint32_t w = 0; w < 8; w++)
        done(PANEL_STATELESS_WRITE, 6, w, PANEL_ALL_BYTES, 0, ~get32(in_block(4 * w)));
}

/* Each word alone, and all but it, with each of the patterns that its four bits can have. */
static void words_skipped(void)
{
    for (uint32_t op = PANEL_MASKED_WRITE; op <= PANEL_UNMASKED_WRITE; op++) {
        fresh_to_write_back();
        for (uint32_t w = 0; w < 8; w++)
            for (uint32_t four = 0; four < 16; four++) {
                back_with(op, four << 4 * w);
                back_with(op, ~(four << 4 * w));
            }
    }
}

/* None, all, and some words: answer, state and memory are those of a write-back that visits all 32 bytes. */
static void backs_as_before(void)
{
    static const uint32_t tags[] = {0,          0xFFFFFFFF, 0x0000000F, 0xF0000000, 0x00F0000F, 0xF00000F0,
                                    0x0F0F0F0F, 0xF0F0F0F0, 0x80000001, 0x00048000, 0x7FFFFFFF, 0xFFFFFFFE};
    for (uint32_t op = PANEL_MASKED_WRITE; op <= PANEL_UNMASKED_WRITE; op++) {
        fresh_to_write_back();
        for (size_t i = 0; i < COUNT(tags); i++)
            back_with(op, tags[i]);
    }
}

static const struct sentence sentences[] = {{"02-T01-01", two_buffers},
                                            {"02-T01-02", transfer_of_a_line},
                                            {"02-T01-03", bank_to_buffer},
                                            {"02-T01-04", lower_column_first},
                                            {"02-T01-05", counter_and_select},
                                            {"02-T01-06", video_operands},
                                            {"02-T01-07", video_fresh},
                                            {"02-T01-08", video_parts},
                                            {"02-T01-10", old_length},
                                            {"02-T01-11", as_memory_stood},
                                            {"02-T01-12", stored_scan},
                                            {"02-T01-13", in_use},
                                            {"02-T01-14", in_use},
                                            {"02-T01-15", operations},
                                            {"02-T02-01", bytes_that_differ},
                                            {"02-T02-01", bytes_under_the_mask},
                                            {"02-T02-01", bytes_of_the_destination},
                                            {"02-T02-02", value_of_each_write},
                                            {"02-T02-02", value_if_not_enabled},
                                            {"02-T02-02", value_if_refused},
                                            {"02-T02-03", none_changed},
                                            {"02-T02-04", third_line},
                                            {"02-T03-01", words_skipped},
                                            {"02-T03-02", backs_as_before}};

void try_requests(void) { TRY_EACH(sentences); }
