/* shapes.h: lines, marks and text on a surface. */
#ifndef SHAPES_H
#define SHAPES_H

#include "surface.h"

/* A line of this thickness, round at its ends. */
void draw_line(struct surface *surface, int x0, int y0, int x1, int y1, int thickness, uint8_t colour);

/* A level line of dashes: `on` pixels drawn and `off` left out, by turns. */
void draw_dashes(struct surface *surface, int x, int y, int width, int on, int off, int thickness, uint8_t colour);

/* Text of 5 x 7 dots, each dot `size` pixels wide and high; `*` is the sign for degrees. And the width that it takes. */
void draw_text(struct surface *surface, int x, int y, int size, uint8_t colour, const char *text);
int text_width(const char *text, int size);

#endif
