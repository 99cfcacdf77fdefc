/* shapes.c: lines, marks and text on a surface; see shapes.h. */
#include "shapes.h"

#include <stdlib.h>
#include <string.h>

#include "font.h"

/* A disc, line by line. */
static void dab(struct surface *surface, int x, int y, int thickness, uint8_t colour)
{
    int radius = thickness / 2;
    for (int down = -radius; down <= radius; down++) {
        int half = radius;
        while (half > 0 && half * half + down * down > radius * radius + radius / 2)
            half--;
        surface_fill(surface, x - half, y + down, 2 * half + 1, 1, colour);
    }
}

void draw_line(struct surface *surface, int x0, int y0, int x1, int y1, int thickness, uint8_t colour)
{
    int across = x1 - x0, down = y1 - y0;
    int steps = abs(across) > abs(down) ? abs(across) : abs(down);
    for (int i = 0; i <= steps; i++)
        dab(surface, x0 + (steps ? across * i / steps : 0), y0 + (steps ? down * i / steps : 0), thickness, colour);
}

void draw_dashes(struct surface *surface, int x, int y, int width, int on, int off, int thickness, uint8_t colour)
{
    for (int at = 0; at < width; at += on + off)
        surface_fill(surface, x + at, y - thickness / 2, at + on < width ? on : width - at, thickness, colour);
}

void draw_text(struct surface *surface, int x, int y, int size, uint8_t colour, const char *text)
{
    for (; *text != '\0'; text++, x += 6 * size)
        for (int row = 0; row < 7; row++)
            for (int dot = 0; dot < 5; dot++)
                if (font[*text & 127][row] >> (4 - dot) & 1)
                    surface_fill(surface, x + dot * size, y + row * size, size, size, colour);
}

int text_width(const char *text, int size) { return (int)strlen(text) * 6 * size - size; }
