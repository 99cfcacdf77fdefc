/* model.h: document 01 and requests T-01 and T-02 of document 02 in plain C, to compare the library with. Written from the
 * documents, not from the library; it takes no constant from panel.h, so that a wrong one there shows. */
#ifndef MODEL_H
#define MODEL_H

#include <stdbool.h>
#include <stddef.h>
#include <stdint.h>

/* The six functions of the C door, as panel.h describes them. */
uint64_t model_fresh(uint8_t *state, size_t state_len, uint32_t pages);
uint64_t model_call(uint8_t *state, size_t state_len, uint8_t *memory, size_t memory_len, uint32_t op, uint32_t a, uint32_t b,
                    uint32_t c, uint32_t d, uint32_t data);
uint64_t model_scan_line(const uint8_t *state, size_t state_len, const uint8_t *memory, size_t memory_len, uint32_t bank,
                         uint32_t page, uint32_t line);
uint64_t model_point(uint32_t pages, uint32_t x, uint32_t y);
uint64_t model_column(uint32_t x);
uint64_t model_columns(uint8_t *table, size_t len);

/* ---- Parts of it that the flat picture and the driver use too ---- */

enum { MODEL_STATE = 512, MODEL_PAGE = 1280, MODEL_LINE = 80, MODEL_CLOSED = 65535 };

/* The last operation: they are 1 to this. And one more than the last number that a call may give back. */
enum { MODEL_OPERATIONS = 17, MODEL_NUMBERS = 11 };

/* Clocks that put out a video buffer: its counter is below this. */
enum { MODEL_CLOCKS = 40 };

/* A call as it is handed over. */
struct call {
    uint32_t op, a, b, c, d, data;
};

/* What the pixel rule makes of one data write: where it goes, and the bits that it may change there. */
struct drawn {
    bool pass, enabled;
    uint32_t slot, word; /* the destination */
    uint32_t result;     /* raster results of the four bytes */
    uint32_t under;      /* bits of the destination that take them: enabled bytes under the plane mask, none if not enabled */
};

size_t model_memory_bytes(uint32_t pages);
size_t model_byte_in_page(uint32_t block, uint32_t byte);
size_t model_page_at(const uint8_t *state, uint32_t bank, uint32_t page);
uint32_t model_number(const uint8_t *state, size_t state_len, size_t memory_len, const struct call *call);
struct drawn model_draw(const uint8_t *state, const struct call *call, uint32_t old);

/* The merge of one word, at its destination: in four bits, which of its bytes differ afterwards. */
uint32_t model_merge(uint8_t *to, const struct drawn *drawn);

uint32_t model_pages(const uint8_t *state);
uint32_t model_open_page(const uint8_t *state, uint32_t bank);
uint32_t model_register(const uint8_t *state, uint32_t number);
uint32_t model_allowed(uint32_t number);
uint32_t model_tag(const uint8_t *state, uint32_t slot);
uint32_t model_word(const uint8_t *state, uint32_t slot, uint32_t word);
uint32_t model_video_counter(const uint8_t *state);
uint32_t model_video_select(const uint8_t *state);
bool model_picking(const uint8_t *state);
bool model_hit(const uint8_t *state);
void model_set_hit(uint8_t *state, bool hit);

/* Little-endian numbers in bytes. */
static inline uint32_t get16(const uint8_t *at) { return at[0] | (uint32_t)at[1] << 8; }
static inline uint32_t get32(const uint8_t *at) { return get16(at) | get16(at + 2) << 16; }
static inline void put16(uint8_t *at, uint32_t value)
{
    at[0] = (uint8_t)value;
    at[1] = (uint8_t)(value >> 8);
}
static inline void put32(uint8_t *at, uint32_t value)
{
    put16(at, value & 0xFFFF);
    put16(at + 2, value >> 16);
}

#endif
