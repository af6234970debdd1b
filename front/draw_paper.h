/* What a picture is made of: places on the paper, in tenths of a pixel, and the texts of SVG. */
#ifndef DRAW_PAPER_H
#define DRAW_PAPER_H

#include <stddef.h>
#include <stdint.h>

/* A panel, in pixels. */
enum { PANEL_WIDTH = 720, PANEL_HEIGHT = 540 };

/* What a sheet is drawn in, within its panel, in tenths. */
enum { AREA_LEFT = 300, AREA_RIGHT = 6900, AREA_TOP = 760, AREA_BOTTOM = 4680 };

/* A place on the paper, and a part of it, in tenths; y goes down. */
struct dot {
    int64_t x, y;
};
struct box {
    int64_t left, top, right, bottom;
};

static inline int64_t greater(int64_t a, int64_t b)
{
    return a > b ? a : b;
}

static inline int64_t lesser(int64_t a, int64_t b)
{
    return a < b ? a : b;
}

static inline int64_t size_of(int64_t a)
{
    return a < 0 ? -a : a;
}

static inline int sign_of(int64_t a)
{
    return (a > 0) - (a < 0);
}

/* The greatest whole number whose square is at most this. */
int64_t square_root(int64_t of);

/* A number of tenths, and two of them. */
void put_tenths(int64_t tenths);
void put_pair(int64_t x, int64_t y);

/* The parts of a path: to a place, and on from one place to another. */
void put_move(struct dot to);
void put_line(struct dot from, struct dot to);

/* An attribute with a length. */
void put_length(const char *name, int64_t tenths);

/* How many columns the name of a sheet takes; a byte that is escaped takes four. */
size_t name_columns(const char *name);

/* The end of a name, as much of it as so many columns hold, since that tells more than its beginning does. */
void put_name(const char *name, size_t most);

#endif
