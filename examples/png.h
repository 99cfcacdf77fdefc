/* png.h: a picture of one byte a pixel and a colour map, as a PNG file. Nothing is compressed, so no library is needed. */
#ifndef PNG_H
#define PNG_H

#include <stdbool.h>
#include <stddef.h>
#include <stdint.h>

/* pixels: height rows of width bytes. colours: red, green and blue of each of the 256 values. False where the file cannot
 * be written, and then errno says why. */
bool png_write(const char *path, uint32_t width, uint32_t height, const uint8_t *pixels, uint8_t colours[256][3]);

#endif
