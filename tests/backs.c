/* backs.c: write-backs by the tag's words. Every set of words with several patterns of bits, masked and unmasked: what memory must
 * hold is taken from the tag's bits, not from the model, and pair.h says what is compared beside. And a word whose four tag bits
 * are 0 is not visited: memory on the side of the block that has no tag bit can be neither read nor written while the call runs.
 * A visit to a word between tagged ones, or to the slot alone, is not seen here; the instructions that bench/run counts show it. */
#define _DEFAULT_SOURCE
#include "phases.h"

#include <setjmp.h>
#include <signal.h>
#include <sys/mman.h>
#include <unistd.h>

#include "pair.h"
#include "panel.h"

static const uint32_t plane_mask = 0x0FF0AA55;

/* The four tag bits of each word of a set, bit w for word w. */
static uint32_t bits_of(uint32_t words)
{
    uint32_t tag = 0;
    for (uint32_t w = 0; w < PANEL_WORDS; w++)
        tag |= (words >> w & 1) * (uint32_t)PANEL_ALL_BYTES << 4 * w;
    return tag;
}

static uint32_t ones(uint32_t tag)
{
    uint32_t count = 0;
    for (; tag != 0; tag >>= 1)
        count += tag & 1;
    return count;
}

/* Slots stand in pairs, of which each byte of one is the other's with all bits turned. */
static uint8_t slot_byte(uint32_t slot, uint32_t i)
{
    uint8_t byte = (uint8_t)(slot / 2 * 32 + i * 37 + 11);
    return slot % 2 == 0 ? byte : (uint8_t)~byte;
}

/* What a write-back of a slot with this tag makes of byte i of a block that held the other slot's bytes. */
static uint8_t written_byte(uint32_t op, uint32_t slot, uint32_t tag, uint32_t i)
{
    uint8_t under = op == PANEL_MASKED_WRITE ? (uint8_t)(plane_mask >> 8 * (i % 4)) : 0xFF;
    uint8_t taken = tag >> i & 1 ? under : 0;
    return (uint8_t)((slot_byte(slot ^ 1, i) & ~taken) | (slot_byte(slot, i) & taken));
}

/* ---- Every set of words ---- */

static void fill_slots(struct pair *pair)
{
    for (uint32_t i = 0; i < PANEL_SLOTS * PANEL_WORDS; i++) {
        uint8_t bytes[4];
        for (uint32_t n = 0; n < 4; n++)
            bytes[n] = slot_byte(i / PANEL_WORDS, i % PANEL_WORDS * 4 + n);
        pair_make_call(pair, PANEL_STATELESS_WRITE, i / PANEL_WORDS, i % PANEL_WORDS, PANEL_ALL_BYTES, 0, get32(bytes));
    }
}

/* A chip of one page, open in each bank. */
static struct pair start(void)
{
    struct pair pair = pair_of_fresh(1);
    for (uint32_t bank = 0; bank < PANEL_BANKS; bank++)
        pair_make_call(&pair, PANEL_ACCESS_PAGE, bank, 0, 0, 0, 0);
    pair_make_call(&pair, PANEL_WRITE_REGISTER, PANEL_PLANE_MASK, 0, 0, 0, plane_mask);
    fill_slots(&pair);
    return pair;
}

/* The other slot's bytes into all of the block, then the slot's by its tag. */
static void write_back(struct pair *pair, uint32_t op, uint32_t bank, uint32_t block, uint32_t slot, uint32_t tag)
{
    struct call back = {op, bank, block, slot, 0, 0};
    const uint8_t *page = pair->library.memory + bank * PANEL_PAGE_BYTES;
    uint64_t answer;
    pair_make_call(pair, PANEL_REPLACE_TAG, slot ^ 1, 0, 0, 0, 0xFFFFFFFF);
    pair_make_call(pair, PANEL_UNMASKED_WRITE, bank, block, slot ^ 1, 0, 0);
    pair_make_call(pair, PANEL_REPLACE_TAG, slot, 0, 0, 0, tag);
    answer = pair_call(pair, &back);
    if (answer != ones(tag))
        wrong_at(pair, &back, "the answer of a write-back", answer, ones(tag));
    for (uint32_t i = 0; i < PANEL_BLOCK_BYTES; i++)
        if (page[model_byte_in_page(block, i)] != written_byte(op, slot, tag, i))
            wrong_at(pair, &back, "a byte of the block", page[model_byte_in_page(block, i)], written_byte(op, slot, tag, i));
}

/* Bank, block and slot go round by numbers that have nothing in common with 256: every word is tagged in each of them. */
static void each_set(struct pair *pair)
{
    static const uint32_t patterns[] = {0xFFFFFFFF, 0x11111111, 0x22222222, 0x44444444, 0x88888888, 0xEEEEEEEE,
                                        0xDDDDDDDD, 0xBBBBBBBB, 0x77777777, 0x12481248, 0x8C6319F7};
    for (uint32_t n = 0; n < 256 * COUNT(patterns); n++) {
        uint32_t tag = bits_of(n % 256) & patterns[n / 256], bank = n / 3 % PANEL_BANKS, block = n / 7 % PANEL_BLOCKS;
        write_back(pair, PANEL_MASKED_WRITE, bank, block, n / 11 % PANEL_SLOTS, tag);
        write_back(pair, PANEL_UNMASKED_WRITE, bank, block, n / 13 % PANEL_SLOTS, tag);
    }
}

/* ---- Words that are not visited ---- */

/* A chip of one page, whose memory lies across the border between two parts that are closed and opened by themselves. */
struct divided {
    uint8_t state[PANEL_STATE_BYTES];
    uint8_t *room, *border, *end, *memory;
};

/* The part that is closed now, none where both are NULL, and where in it something was read or written. */
static uint8_t *closed, *closed_end, *volatile visited;
static sigjmp_buf back_from_visit;

/* What is no visit is for whoever had the signal before: the instruction is tried again, and ends the program. */
static struct sigaction before;
static void on_visit(int number, siginfo_t *about, void *unused)
{
    uint8_t *at = about->si_addr;
    (void)unused;
    if (closed == NULL || at < closed || at >= closed_end) {
        sigaction(number, &before, NULL);
        return;
    }
    visited = at;
    siglongjmp(back_from_visit, 1);
}

static void protect(uint8_t *from, uint8_t *to, int how)
{
    if (mprotect(from, (size_t)(to - from), how) != 0)
        wrong("memory cannot be closed or opened", 1, 0);
}

static void close_part(uint8_t *from, uint8_t *to)
{
    closed = from;
    closed_end = to;
    protect(from, to, PROT_NONE);
}

static void open_part(void)
{
    protect(closed, closed_end, PROT_READ | PROT_WRITE);
    closed = closed_end = NULL;
}

/* In each half of the room there is a place for all of memory. */
static struct divided divide(void)
{
    struct divided d;
    size_t page = (size_t)sysconf(_SC_PAGESIZE), half = (PANEL_MEMORY_BYTES(1) / page + 1) * page;
    d.room = mmap(NULL, 2 * half, PROT_READ | PROT_WRITE, MAP_PRIVATE | MAP_ANONYMOUS, -1, 0);
    if (d.room == MAP_FAILED)
        wrong("no memory to close", 1, 0);
    d.border = d.room + half;
    d.end = d.border + half;
    return d;
}

/* A byte of a part that is closed cannot be read: else nothing would be tested. */
static void must_be_closed(uint8_t *from, uint8_t *to, const volatile uint8_t *byte)
{
    if (sigsetjmp(back_from_visit, 1) == 0) {
        close_part(from, to);
        wrong("closed memory can be read", *byte, 0);
    }
    open_part();
}

static uint64_t direct(struct divided *d, uint32_t op, uint32_t a, uint32_t b, uint32_t c, uint32_t data)
{
    return panel_call(d->state, sizeof d->state, d->memory, PANEL_MEMORY_BYTES(1), op, a, b, c, 0, data);
}

/* A block whose word `first` starts at the border, or all of which lies in front of it where first is 8; the slot holds its bytes
 * with all bits turned. */
static void lay(struct divided *d, uint32_t bank, uint32_t block, uint32_t first)
{
    size_t in_page = first < PANEL_WORDS ? model_byte_in_page(block, 4 * first) : model_byte_in_page(block, 31) + 1;
    d->memory = d->border - bank * PANEL_PAGE_BYTES - in_page;
    panel_fresh(d->state, sizeof d->state, 1);
    direct(d, PANEL_ACCESS_PAGE, bank, 0, 0, 0);
    direct(d, PANEL_WRITE_REGISTER, PANEL_PLANE_MASK, 0, 0, plane_mask);
    for (uint32_t i = 0; i < PANEL_BLOCK_BYTES; i++) {
        d->memory[bank * PANEL_PAGE_BYTES + model_byte_in_page(block, i)] = slot_byte(5, i);
        d->state[PANEL_AT_PIXELS + 4 * PANEL_BLOCK_BYTES + i] = slot_byte(4, i);
    }
}

/* Slot 4 with these words tagged, written back while a part is closed. */
static void back_beside(struct divided *d, uint32_t op, uint32_t bank, uint32_t block, uint32_t words, uint8_t *from,
                        uint8_t *to)
{
    uint64_t answer;
    direct(d, PANEL_REPLACE_TAG, 4, 0, 0, bits_of(words));
    if (sigsetjmp(back_from_visit, 1) != 0)
        wrong("a word without a tag bit is visited; the byte of memory, and the tag", (uint64_t)(visited - d->memory),
              bits_of(words));
    close_part(from, to);
    answer = direct(d, op, bank, block, 4, 0);
    open_part();
    if (answer != 4 * ones(words))
        wrong("the answer of a write-back beside closed memory", answer, 4 * ones(words));
    for (uint32_t i = 0; i < PANEL_BLOCK_BYTES; i++) {
        uint8_t *byte = d->memory + bank * PANEL_PAGE_BYTES + model_byte_in_page(block, i);
        if (*byte != written_byte(op, 4, bits_of(words), i))
            wrong("a byte of a block beside closed memory", *byte, written_byte(op, 4, bits_of(words), i));
        *byte = slot_byte(5, i);
    }
}

/* With the words from `first` on closed, every set of those before it; and the other way about. */
static void each_side(struct divided *d, uint32_t op, uint32_t bank, uint32_t block, uint32_t first)
{
    lay(d, bank, block, first);
    for (uint32_t words = 0; words < 1u << first; words++)
        back_beside(d, op, bank, block, words, d->border, d->end);
    for (uint32_t words = 0; words < 256; words += 1u << first)
        back_beside(d, op, bank, block, words, d->room, d->border);
    back_beside(d, op, bank, block, 0, d->room, d->end);
}

static void each_border(struct divided *d)
{
    static const uint32_t blocks[] = {0, 6, 17, 39};
    for (uint32_t first = 0; first <= PANEL_WORDS; first++)
        for (uint32_t n = 0; n < COUNT(blocks); n++) {
            each_side(d, PANEL_MASKED_WRITE, n, blocks[n], first);
            each_side(d, PANEL_UNMASKED_WRITE, 3 - n, blocks[n], first);
        }
}

static void not_visited(void)
{
    struct sigaction action = {.sa_sigaction = on_visit, .sa_flags = SA_SIGINFO};
    struct divided d = divide();
    sigaction(SIGSEGV, &action, &before);
    must_be_closed(d.room, d.border, d.border - 1);
    must_be_closed(d.border, d.end, d.border);
    each_border(&d);
    sigaction(SIGSEGV, &before, NULL);
    munmap(d.room, (size_t)(d.end - d.room));
}

void try_backs(void)
{
    struct pair pair = start();
    each_set(&pair);
    pair_whole(&pair, NULL);
    pair_free(&pair);
    not_visited();
}
