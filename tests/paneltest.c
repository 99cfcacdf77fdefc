/* paneltest.c: the small program of document 01 over the model, to compare paneltest with.
 *
 *   paneltest answer             reads lines and prints what document 01 says of them
 *   paneltest lines SEED COUNT   prints that many random lines: calls that may be done, others, and some that are no lines */
#include <stdio.h>
#include <stdlib.h>
#include <string.h>

#include "draw.h"
#include "model.h"

enum { PAGES = 2, LONGEST = 1 << 20 };

/* ---- The lines that document 01 asks for ---- */

/* Six numbers below 2^32, each of 1 to 10 digits, single spaces between: 1, and the numbers; or 0. */
static int read_line(const unsigned char *line, size_t length, uint32_t numbers[6])
{
    size_t at = 0;
    for (int i = 0; i < 6; i++) {
        uint64_t value = 0;
        size_t from;
        if (i > 0 && (at == length || line[at++] != ' '))
            return 0;
        for (from = at; at < length && line[at] >= '0' && line[at] <= '9' && at - from <= 10; at++)
            value = 10 * value + (line[at] - '0');
        if (at == from || at - from > 10 || value >> 32)
            return 0;
        numbers[i] = (uint32_t)value;
    }
    return at == length;
}

/* A chip as the program has it. */
struct chip {
    uint8_t state[MODEL_STATE];
    uint8_t *memory;
    size_t size;
};

static struct chip fresh(void)
{
    struct chip chip;
    chip.size = model_memory_bytes(PAGES);
    chip.memory = calloc(chip.size, 1);
    if (!chip.memory)
        exit(1);
    model_fresh(chip.state, MODEL_STATE, PAGES);
    return chip;
}

/* What a line gives, as the C door has it; 9 where it is none. */
static uint64_t act(struct chip *chip, const unsigned char *line, size_t length)
{
    uint32_t n[6];
    if (!read_line(line, length, n))
        return (uint64_t)9 << 40;
    return model_call(chip->state, MODEL_STATE, chip->memory, chip->size, n[0], n[1], n[2], n[3], n[4], n[5]);
}

/* ---- paneltest answer ---- */

static void print(uint64_t answer)
{
    printf("%d %lu %d %d\n", (int)(answer >> 40), (unsigned long)(uint32_t)answer, (int)(answer >> 32 & 1),
           (int)(answer >> 33 & 1));
}

static int answer(void)
{
    static unsigned char line[LONGEST];
    struct chip chip = fresh();
    size_t length = 0;
    int byte;
    puts("number value pass written");
    while ((byte = getchar()) != EOF) {
        if (byte == '\n') {
            print(act(&chip, line, length));
            length = 0;
        } else if (length < LONGEST) {
            line[length++] = (unsigned char)byte;
        } else {
            return 1;
        }
    }
    if (length > 0)
        print(act(&chip, line, length));
    free(chip.memory);
    return 0;
}

/* ---- paneltest lines ---- */

/* One byte more, less or other, of those that come near a line. */
static size_t spoil(struct source *from, char *line, size_t length)
{
    static const char bytes[] = "0123456789  \t\r+-.:/x";
    size_t at = below(from, (uint32_t)length);
    char byte = bytes[below(from, sizeof bytes)]; /* byte 0 too */
    switch (below(from, 3)) {
    case 0:
        memmove(line + at + 1, line + at, length - at);
        line[at] = byte;
        return length + 1;
    case 1: memmove(line + at, line + at + 1, length - at - 1); return length - 1;
    default: line[at] = byte; return length;
    }
}

static void lines(uint64_t seed, unsigned long count)
{
    struct source from = source_of(seed);
    struct chip chip = fresh();
    for (; count > 0; count--) {
        char line[128];
        struct call x = draw_call(&from, chip.state);
        size_t length = (size_t)sprintf(line, "%lu %lu %lu %lu %lu %lu", (unsigned long)x.op, (unsigned long)x.a,
                                        (unsigned long)x.b, (unsigned long)x.c, (unsigned long)x.d, (unsigned long)x.data);
        if (one_in(&from, 4))
            length = spoil(&from, line, length);
        act(&chip, (const unsigned char *)line, length);
        fwrite(line, 1, length, stdout);
        if (count > 1) /* the last line lacks its end */
            putchar('\n');
    }
    free(chip.memory);
}

int main(int argc, char **argv)
{
    if (argc == 2 && strcmp(argv[1], "answer") == 0)
        return answer();
    if (argc != 4 || strcmp(argv[1], "lines") != 0)
        return 2;
    lines(strtoull(argv[2], NULL, 10), strtoul(argv[3], NULL, 10));
    return 0;
}
