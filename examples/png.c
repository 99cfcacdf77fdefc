/* png.c: a PNG file, uncompressed; see png.h. A PNG is a list of chunks: length, name, bytes, CRC-32. */
#include "png.h"

#include <errno.h>
#include <stdio.h>
#include <stdlib.h>
#include <string.h>

enum { STORED_MAX = 65535 }; /* bytes in one stored block of the zlib stream */

static uint32_t crc_step(uint32_t crc, uint8_t byte)
{
    crc ^= byte;
    for (int i = 0; i < 8; i++)
        crc = crc >> 1 ^ (crc & 1 ? 0xEDB88320u : 0);
    return crc;
}

static void put_big(uint8_t *at, uint32_t value)
{
    for (int i = 0; i < 4; i++)
        at[i] = (uint8_t)(value >> 8 * (3 - i));
}

static void chunk(FILE *file, const char *name, const uint8_t *bytes, size_t len)
{
    uint8_t number[4];
    uint32_t crc = 0xFFFFFFFFu;
    for (int i = 0; i < 4; i++)
        crc = crc_step(crc, (uint8_t)name[i]);
    for (size_t i = 0; i < len; i++)
        crc = crc_step(crc, bytes[i]);
    put_big(number, (uint32_t)len);
    fwrite(number, 1, 4, file);
    fwrite(name, 1, 4, file);
    fwrite(bytes, 1, len, file);
    put_big(number, ~crc);
    fwrite(number, 1, 4, file);
}

static uint32_t adler(const uint8_t *bytes, size_t len)
{
    uint32_t a = 1, b = 0;
    for (size_t i = 0; i < len; i++) {
        a = (a + bytes[i]) % 65521;
        b = (b + a) % 65521;
    }
    return b << 16 | a;
}

/* A zlib stream of stored blocks. Its length; `to` has room for 5 bytes a block and 6 more. */
static size_t stored(uint8_t *to, const uint8_t *bytes, size_t len)
{
    uint8_t *at = to;
    *at++ = 0x78;
    *at++ = 0x01;
    for (size_t from = 0; from < len; from += STORED_MAX) {
        uint32_t part = (uint32_t)(len - from < STORED_MAX ? len - from : STORED_MAX);
        *at++ = from + part == len; /* the last block is marked */
        *at++ = (uint8_t)part;
        *at++ = (uint8_t)(part >> 8);
        *at++ = (uint8_t)~part;
        *at++ = (uint8_t)(~part >> 8);
        memcpy(at, bytes + from, part);
        at += part;
    }
    put_big(at, adler(bytes, len));
    return (size_t)(at + 4 - to);
}

/* The rows, each behind a 0: no filter. */
static size_t rows(uint8_t *to, uint32_t width, uint32_t height, const uint8_t *pixels)
{
    for (uint32_t y = 0; y < height; y++) {
        to[(size_t)y * (width + 1)] = 0;
        memcpy(to + (size_t)y * (width + 1) + 1, pixels + (size_t)y * width, width);
    }
    return (size_t)height * (width + 1);
}

static void chunks(FILE *file, uint32_t width, uint32_t height, const uint8_t *pixels, uint8_t colours[256][3], uint8_t *raw,
                   uint8_t *packed)
{
    uint8_t head[13] = {0, 0, 0, 0, 0, 0, 0, 0, 8, 3, 0, 0, 0}; /* 8 bits a pixel, by colour map */
    put_big(head, width);
    put_big(head + 4, height);
    fwrite("\x89PNG\r\n\x1a\n", 1, 8, file);
    chunk(file, "IHDR", head, sizeof head);
    chunk(file, "PLTE", colours[0], 768);
    chunk(file, "IDAT", packed, stored(packed, raw, rows(raw, width, height, pixels)));
    chunk(file, "IEND", head, 0);
}

bool png_write(const char *path, uint32_t width, uint32_t height, const uint8_t *pixels, uint8_t colours[256][3])
{
    size_t len = (size_t)height * (width + 1);
    uint8_t *raw = malloc(len), *packed = malloc(len + len / STORED_MAX * 5 + 16);
    FILE *file = raw != NULL && packed != NULL ? fopen(path, "wb") : NULL;
    bool written = file != NULL;
    int reason = errno;
    if (written) {
        chunks(file, width, height, pixels, colours, raw, packed);
        written = !ferror(file);
        reason = errno;
        if (fclose(file) != 0 && written) {
            written = false;
            reason = errno;
        }
    }
    free(raw);
    free(packed);
    errno = reason;
    return written;
}
