/* six_oclock.c: the drying room's panel at six in the morning, drawn through the chip.
 *
 * The server draws the day's curves in planes 0 to 5 of each pixel, the operator acknowledges in planes 6 and 7. The display
 * reads scan lines; the picture is left as six_oclock.png (or the file named as argument). The chip then puts the screen out by
 * video transfers and clocks, which must give the same picture. Last, the mistakes of the trial version are made on purpose: a
 * slot that was loaded before the operator's mark is written back after it. Refused, or written back under the server's planes,
 * it leaves every mark. Written back unmasked it overwrites them: the chip does as it is told, and that no slot is written back
 * over newer bytes is the drawing program's duty (docs/DUTIES.md). */
#include <errno.h>
#include <stdio.h>
#include <stdlib.h>
#include <string.h>

#include "panel.h"
#include "png.h"
#include "shapes.h"
#include "surface.h"

enum { SERVER_PLANES = 0x3F, OPERATOR_PLANES = 0xC0 };
enum { STALE_UNTOUCHED = 6, STALE_WRITTEN = 7 }; /* slots that the surface leaves to us */

static const size_t memory_len = PANEL_MEMORY_BYTES(SURFACE_PAGES);

/* ---- Colours ---- */

enum { PAPER, PLOT, NIGHT, GRID, AXIS, INK, BAR, BAR_INK, BAR_FAINT, HUMIDITY, TEMPERATURE, LIMIT, SERVER_COLOURS };
enum { RING = 1 << 6, NOTE = 2 << 6 };

static const uint8_t server_colours[SERVER_COLOURS][3] = {
    [PAPER] = {243, 245, 248},     [PLOT] = {255, 255, 255},    [NIGHT] = {236, 240, 248},      [GRID] = {210, 216, 226},
    [AXIS] = {84, 96, 114},        [INK] = {44, 54, 70},        [BAR] = {26, 50, 82},           [BAR_INK] = {255, 255, 255},
    [BAR_FAINT] = {170, 190, 216}, [HUMIDITY] = {20, 108, 200}, [TEMPERATURE] = {226, 112, 16}, [LIMIT] = {196, 52, 52},
};
static const uint8_t operator_colours[4][3] = {{0, 0, 0}, {230, 0, 126}, {214, 0, 150}, {230, 0, 126}};

/* The display's colour map: where the operator has marked, the operator's colour shows, else the server's. */
static void make_colours(uint8_t colours[256][3])
{
    for (int i = 0; i < 256; i++) {
        const uint8_t *server = server_colours[(i & SERVER_PLANES) < SERVER_COLOURS ? i & SERVER_PLANES : INK];
        memcpy(colours[i], i & OPERATOR_PLANES ? operator_colours[i >> 6] : server, 3);
    }
}

/* ---- The day ---- */

enum { LEFT = 124, HOUR = 43, WIDTH = 24 * HOUR, TOP = 150, STEP = 115, STEPS = 6, BOTTOM = TOP + STEP * STEPS };

/* Tenths, hour by hour from six to six: humidity on a scale from 20 to 80 %, temperature on one from 15 to 45 degrees. */
static const int humidity[25] = {620, 616, 606, 590, 574, 556, 541, 528, 512, 498, 486, 473, 464,
                                 452, 444, 437, 428, 423, 417, 412, 430, 560, 688, 590, 492};
static const int temperature[25] = {212, 216, 226, 238, 251, 262, 272, 279, 287, 294, 299, 304, 309,
                                    312, 315, 318, 320, 322, 323, 324, 318, 292, 268, 284, 303};

/* Between the hours: the curve of third degree that goes through the four values around. */
static double between(const int *tenths, int x)
{
    int hour = x / HOUR < 23 ? x / HOUR : 23;
    double t = (double)(x - hour * HOUR) / HOUR;
    double a = tenths[hour > 0 ? hour - 1 : 0], b = tenths[hour], c = tenths[hour + 1], d = tenths[hour < 23 ? hour + 2 : 24];
    return (b + 0.5 * t * (c - a + t * (2 * a - 5 * b + 4 * c - d + t * (3 * (b - c) + d - a)))) / 10;
}

/* The heater goes on and off every forty minutes or so. */
static double ripple(int x)
{
    int phase = x % 29;
    return (phase < 15 ? phase : 29 - phase) / 15.0 - 0.5;
}

static int humidity_y(double percent) { return BOTTOM - (int)((percent - 20) * STEP / 10); }
static int temperature_y(double degrees) { return BOTTOM - (int)((degrees - 15) * STEP / 5); }

/* ---- The server ---- */

static void draw_frame(struct surface *s)
{
    surface_fill(s, 0, 0, PANEL_SCREEN_WIDTH, PANEL_SCREEN_HEIGHT, PAPER);
    surface_fill(s, 0, 0, PANEL_SCREEN_WIDTH, 68, BAR);
    draw_text(s, LEFT, 20, 4, BAR_INK, "Drying room 3");
    draw_text(s, LEFT + WIDTH - text_width("24 hours to 06:00", 3), 24, 3, BAR_FAINT, "24 hours to 06:00");
    surface_fill(s, LEFT, TOP, WIDTH, BOTTOM - TOP, PLOT);
    surface_fill(s, LEFT + 15 * HOUR, TOP, 9 * HOUR, BOTTOM - TOP, NIGHT); /* from nine in the evening */
}

static void draw_grid(struct surface *s)
{
    for (int i = 0; i <= STEPS; i++)
        surface_fill(s, LEFT, TOP + i * STEP, WIDTH, 1, GRID);
    for (int hour = 0; hour <= 24; hour += 2)
        surface_fill(s, LEFT + hour * HOUR, TOP, 1, BOTTOM - TOP, GRID);
    surface_fill(s, LEFT - 2, TOP, 3, BOTTOM - TOP, AXIS);
    surface_fill(s, LEFT + WIDTH, TOP, 3, BOTTOM - TOP, AXIS);
    surface_fill(s, LEFT - 2, BOTTOM, WIDTH + 5, 3, AXIS);
}

/* Ticks and numbers: humidity left, temperature right, hours below. */
static void draw_scales(struct surface *s)
{
    char text[16];
    for (int i = 0; i <= STEPS; i++) {
        int y = BOTTOM - i * STEP;
        surface_fill(s, LEFT - 12, y, 10, 2, AXIS);
        surface_fill(s, LEFT + WIDTH + 3, y, 10, 2, AXIS);
        snprintf(text, sizeof text, "%d", 20 + 10 * i);
        draw_text(s, LEFT - 22 - text_width(text, 3), y - 10, 3, HUMIDITY, text);
        snprintf(text, sizeof text, "%d", 15 + 5 * i);
        draw_text(s, LEFT + WIDTH + 24, y - 10, 3, TEMPERATURE, text);
    }
    for (int hour = 0; hour <= 24; hour++) {
        surface_fill(s, LEFT + hour * HOUR, BOTTOM + 3, 2, hour % 2 ? 6 : 12, AXIS);
        snprintf(text, sizeof text, "%02d:00", (6 + hour) % 24);
        if (hour % 2 == 0)
            draw_text(s, LEFT + hour * HOUR - text_width(text, 2) / 2, BOTTOM + 24, 2, INK, text);
    }
    draw_text(s, LEFT - 70, TOP - 52, 3, HUMIDITY, "Humidity % RH");
    draw_text(s, LEFT + WIDTH + 60 - text_width("Temperature *C", 3), TOP - 52, 3, TEMPERATURE, "Temperature *C");
}

static void draw_curves(struct surface *s)
{
    int wet = 0, warm = 0;
    draw_dashes(s, LEFT + 1, humidity_y(65), WIDTH - 1, 14, 8, 3, LIMIT);
    draw_text(s, LEFT + 12, humidity_y(65) - 24, 2, LIMIT, "Limit 65 %");
    for (int x = 0; x <= WIDTH; x++) {
        int next_wet = humidity_y(between(humidity, x) + 0.6 * ripple(x));
        int next_warm = temperature_y(between(temperature, x) + 0.7 * ripple(x + 12));
        if (x > 0) {
            draw_line(s, LEFT + x - 1, warm, LEFT + x, next_warm, 5, TEMPERATURE);
            draw_line(s, LEFT + x - 1, wet, LEFT + x, next_wet, 5, HUMIDITY);
        }
        wet = next_wet;
        warm = next_warm;
    }
}

static void draw_legend(struct surface *s)
{
    int y = BOTTOM + 96;
    surface_fill(s, LEFT - 2, y - 22, WIDTH + 5, 64, PLOT);
    surface_fill(s, LEFT - 2, y - 22, WIDTH + 5, 1, GRID);
    surface_fill(s, LEFT - 2, y + 42, WIDTH + 5, 1, GRID);
    draw_line(s, LEFT + 24, y + 10, LEFT + 84, y + 10, 5, HUMIDITY);
    draw_text(s, LEFT + 104, y, 3, INK, "Humidity");
    draw_line(s, LEFT + 316, y + 10, LEFT + 376, y + 10, 5, TEMPERATURE);
    draw_text(s, LEFT + 396, y, 3, INK, "Temperature");
    draw_dashes(s, LEFT + 660, y + 10, 58, 14, 8, 3, LIMIT);
    draw_text(s, LEFT + 738, y, 3, INK, "Humidity limit");
}

static void server_draws(struct surface *s)
{
    surface_planes(s, SERVER_PLANES);
    draw_frame(s);
    draw_grid(s);
    draw_scales(s);
    draw_curves(s);
    draw_legend(s);
    surface_settle(s);
}

/* ---- The operator ---- */

enum { RING_X = LEFT + 22 * HOUR, RING_Y = 292, RING_WIDE = 64, RING_HIGH = 56 };

/* A ring as a hand draws it: it grows a little, and its end overlaps its start. */
static void draw_ring(struct surface *s)
{
    const double cosine = 0.99969881869620422, sine = 0.02454122852291229; /* of 1/256 of a turn */
    double across = 1, down = 0, grown = 1;
    int x = RING_X + RING_WIDE, y = RING_Y;
    for (int i = 0; i < 282; i++) {
        double turned = across * cosine - down * sine;
        down = across * sine + down * cosine;
        across = turned;
        grown += 0.0005;
        int next_x = RING_X + (int)(RING_WIDE * grown * across), next_y = RING_Y + (int)(RING_HIGH * grown * down);
        draw_line(s, x, y, next_x, next_y, 7, RING);
        x = next_x;
        y = next_y;
    }
}

static void operator_marks(struct surface *s)
{
    surface_planes(s, OPERATOR_PLANES);
    draw_ring(s);
    draw_line(s, 904, 232, 926, 262, 9, NOTE);
    draw_line(s, 926, 262, 972, 190, 9, NOTE);
    draw_text(s, 640, 212, 5, NOTE, "OK 06:00");
    surface_settle(s);
}

/* ---- The display ---- */

/* Sixteen scan lines of 80 bytes make one line of the screen; panel_point says which they are. */
static unsigned long show(const struct surface *s, uint8_t *picture)
{
    unsigned long lines = 0;
    for (uint32_t y = 0; y < PANEL_SCREEN_HEIGHT; y++)
        for (uint32_t x = 0; x < PANEL_SCREEN_WIDTH; x += PANEL_LINE_BYTES, lines++) {
            uint32_t at = done(panel_point(SURFACE_PAGES, x, y), "a point");
            uint32_t from = done(panel_scan_line(s->state, sizeof s->state, s->memory, memory_len, panel_point_bank(at),
                                                 panel_point_page(at), panel_point_line(at)),
                                 "a scan line");
            memcpy(picture + y * PANEL_SCREEN_WIDTH + x, s->memory + from, PANEL_LINE_BYTES);
        }
    return lines;
}

static void must_be(bool fact, const char *what)
{
    if (!fact) {
        fprintf(stderr, "wrong: %s\n", what);
        exit(1);
    }
}

static uint8_t *room_for(size_t len)
{
    uint8_t *bytes = malloc(len);
    if (bytes == NULL) {
        fprintf(stderr, "no room for %zu bytes\n", len);
        exit(1);
    }
    return bytes;
}

static void save_picture(const uint8_t *picture, const char *path)
{
    uint8_t colours[256][3];
    make_colours(colours);
    if (!png_write(path, PANEL_SCREEN_WIDTH, PANEL_SCREEN_HEIGHT, picture, colours)) {
        fprintf(stderr, "%s cannot be written: %s\n", path, strerror(errno));
        exit(1);
    }
}

/* ---- The display, as the chip feeds it ---- */

enum { LINES_ACROSS = PANEL_SCREEN_WIDTH / PANEL_LINE_BYTES, SCREEN_LINES = LINES_ACROSS * PANEL_SCREEN_HEIGHT };

/* Scan line n of the screen, from left to right and then down, into the video buffer of its bank. */
static void transfer(struct surface *s, uint32_t n)
{
    uint32_t at = done(panel_point(SURFACE_PAGES, n % LINES_ACROSS * PANEL_LINE_BYTES, n / LINES_ACROSS), "a point");
    surface_open(s, panel_point_bank(at), panel_point_page(at));
    surface_call(s, PANEL_VIDEO_TRANSFER, panel_point_bank(at), panel_point_line(at), 0, 0, 0, "video transfer");
}

/* The selected video buffer, two pixels a clock; the last clock selects the other one. */
static void clock_out(struct surface *s, uint8_t *pixels)
{
    for (uint32_t n = 0; n < PANEL_VIDEO_CLOCKS; n++) {
        uint32_t two = surface_call(s, PANEL_VIDEO_CLOCK, 0, 0, 0, 0, 0, "video clock");
        pixels[2 * n] = (uint8_t)two;
        pixels[2 * n + 1] = (uint8_t)(two >> 8);
    }
}

/* The banks alternate along the screen, and with them the buffers: while one is put out, the other takes the next line. */
static void put_out(struct surface *s, uint8_t *picture)
{
    transfer(s, 0);
    for (uint32_t n = 0; n < SCREEN_LINES; n++) {
        if (n + 1 < SCREEN_LINES)
            transfer(s, n + 1);
        clock_out(s, picture + n * PANEL_LINE_BYTES);
    }
}

/* Shows the picture both ways: they must be the same. */
static void show_picture(struct surface *s, const char *path)
{
    size_t len = (size_t)PANEL_SCREEN_WIDTH * PANEL_SCREEN_HEIGHT;
    uint8_t *picture = room_for(len), *clocked = room_for(len);
    unsigned long lines = show(s, picture);
    save_picture(picture, path);
    printf("   %lu scan lines handed to the display; the picture is %s\n", lines, path);
    put_out(s, clocked);
    must_be(memcmp(picture, clocked, len) == 0, "what the video clocks put out is the picture of the scan lines");
    printf("   %u video transfers and %u video clocks put out the same %zu bytes\n", (unsigned)SCREEN_LINES,
           SCREEN_LINES * PANEL_VIDEO_CLOCKS, len);
    free(picture);
    free(clocked);
}

/* ---- The trial version's mistakes ---- */

/* A block where the operator's ring will be. */
struct place {
    uint32_t bank, page, block;
};

static struct place ring_place(void)
{
    uint32_t at = done(panel_point(SURFACE_PAGES, RING_X + RING_WIDE, RING_Y), "a point");
    return (struct place){panel_point_bank(at), panel_point_page(at),
                          panel_block_at(panel_point_line(at), panel_point_column(at))};
}

/* Writes a slot's own words over all of it, so that each of its bytes is tagged. */
static void write_all(struct surface *s, uint32_t slot)
{
    for (uint32_t word = 0; word < PANEL_WORDS; word++) {
        uint32_t old = surface_call(s, PANEL_DATA_READ, slot, word, 0, 0, 0, "data read");
        surface_call(s, PANEL_STATEFUL_WRITE, slot, word, PANEL_ALL_BYTES, PANEL_PASS_IN, old, "data write");
    }
}

/* Before the mark: the server loads the block twice, and writes its own picture again over all of one slot. */
static void hold_stale(struct surface *s, struct place p)
{
    surface_open(s, p.bank, p.page);
    surface_call(s, PANEL_READ_BLOCK, p.bank, p.block, STALE_UNTOUCHED, 0, 0, "load");
    surface_call(s, PANEL_READ_BLOCK, p.bank, p.block, STALE_WRITTEN, 0, 0, "load");
    write_all(s, STALE_WRITTEN);
}

static unsigned marked_bytes(const uint8_t *memory, size_t len)
{
    unsigned marked = 0;
    for (size_t i = 0; i < len; i++)
        marked += (memory[i] & OPERATOR_PLANES) != 0;
    return marked;
}

/* The marks in one block: four lines of eight bytes. */
static unsigned marked_in(const struct surface *s, struct place p)
{
    unsigned marked = 0;
    for (uint32_t line = 0; line < 4; line++) {
        uint64_t answer =
            panel_scan_line(s->state, sizeof s->state, s->memory, memory_len, p.bank, p.page, p.block % 4 * 4 + line);
        marked += marked_bytes(s->memory + done(answer, "a scan line") + p.block / 4 * 8, 8);
    }
    return marked;
}

/* After the mark: both slots go back, and one that is loaded anew. Not a byte of memory may change. */
static void write_back_after(struct surface *s, struct place p, unsigned marks)
{
    uint8_t *before = memcpy(room_for(memory_len), s->memory, memory_len);
    must_be(marks > 0, "the operator's ring crosses the block");
    surface_planes(s, SERVER_PLANES);
    uint64_t refused =
        panel_call(s->state, sizeof s->state, s->memory, memory_len, PANEL_MASKED_WRITE, p.bank, p.block, STALE_WRITTEN, 0, 0);
    must_be(panel_number(refused) == PANEL_BANK_CLOSED && memcmp(before, s->memory, memory_len) == 0,
            "a write-back to a closed bank is refused and leaves memory");
    printf("   a write-back to a closed bank: refused with %u, memory is the same\n", panel_number(refused));

    surface_open(s, p.bank, p.page);
    uint32_t written = surface_call(s, PANEL_MASKED_WRITE, p.bank, p.block, STALE_WRITTEN, 0, 0, "write-back");
    must_be(memcmp(before, s->memory, memory_len) == 0, "the operator's marks stand after a stale write-back");
    printf("   a stale slot, %u bytes over %u marked ones, written back under the server's planes: every mark stands\n",
           written, marks);

    uint32_t untouched = surface_call(s, PANEL_UNMASKED_WRITE, p.bank, p.block, STALE_UNTOUCHED, 0, 0, "write-back");
    must_be(untouched == 0 && memcmp(before, s->memory, memory_len) == 0, "an untagged slot writes nothing back");
    printf("   a stale slot that nothing was written to, written back unmasked: %u bytes, every mark stands\n", untouched);

    surface_call(s, PANEL_READ_BLOCK, p.bank, p.block, STALE_UNTOUCHED, 0, 0, "load");
    write_all(s, STALE_UNTOUCHED);
    uint32_t anew = surface_call(s, PANEL_UNMASKED_WRITE, p.bank, p.block, STALE_UNTOUCHED, 0, 0, "write-back");
    must_be(anew == PANEL_BLOCK_BYTES && memcmp(before, s->memory, memory_len) == 0,
            "a slot that was loaded after the mark has the mark, and writes it back");
    printf("   a slot loaded after the mark, written all over and written back unmasked: %u bytes, every mark stands\n", anew);
    free(before);
}

/* What the chip does not prevent: the stale slot has the bytes from before the mark in all planes, and no mask holds them off. */
static void lose_marks(struct surface *s, struct place p, unsigned marks)
{
    uint32_t written = surface_call(s, PANEL_UNMASKED_WRITE, p.bank, p.block, STALE_WRITTEN, 0, 0, "write-back");
    unsigned left = marked_in(s, p);
    must_be(left < marks, "an unmasked write-back of a stale slot overwrites the mark");
    printf(
        "   NOT PREVENTED: a slot loaded before the mark, written back unmasked: done, %u bytes, %u of %u marked ones lost.\n"
        "   That no two slots stand for one block is the program's duty: docs/DUTIES.md, D-03\n",
        written, marks - left, marks);
}

static void write_stale_back(struct surface *s, struct place p)
{
    unsigned marks = marked_in(s, p);
    write_back_after(s, p, marks);
    lose_marks(s, p, marks);
    surface_settle(s);
}

/* ---- The story ---- */

static void tell(struct surface *s)
{
    struct counts *c = &s->counts;
    printf("   %lu pages opened, %lu blocks loaded, %lu words written, %lu blocks and %lu bytes written back\n",
           c->pages_opened, c->blocks_loaded, c->words_written, c->blocks_written_back, c->bytes_written_back);
    printf("   %lu bytes drawn in these words, of which %lu changed: only they are to be painted again\n", c->bytes_drawn,
           c->bytes_changed);
    memset(c, 0, sizeof *c);
}

int main(int argc, char **argv)
{
    static struct surface s;
    struct place place = ring_place();
    printf("1. A chip of %d pages in each bank over %zu bytes of memory\n", SURFACE_PAGES, memory_len);
    surface_start(&s);

    printf("2. The server draws the day in planes 0 to 5\n");
    server_draws(&s);
    tell(&s);
    hold_stale(&s, place);

    printf("3. The operator acknowledges in planes 6 and 7\n");
    operator_marks(&s);
    tell(&s);
    printf("   %u bytes carry a mark\n", marked_bytes(s.memory, memory_len));

    printf("4. The display reads the screen\n");
    show_picture(&s, argc > 1 ? argv[1] : "six_oclock.png");

    printf("5. What lost the marks in the trial version, tried on this one\n");
    write_stale_back(&s, place);
    surface_end(&s);
    return 0;
}
