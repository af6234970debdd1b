/* The triangles of a sheet and of its patches as they are seen.

   Of two that overlap in the view, the one that lies behind where they do is painted first; among those that nothing is left to be painted
   before, the one whose middle lies farthest back, and among equals the first in the order of the sheet, patches last. Triangles that lie
   behind one another in a circle, or pierce each other, go by their middles. */
#ifndef DRAW_FACES_H
#define DRAW_FACES_H

#include "draw_view.h"

/* How light a face is goes by its slope, in so many steps. */
enum { SHADES = 16 };

/* A part of an edge, from 0 to WHOLE. */
enum { WHOLE = 1 << 16 };
struct piece {
    int64_t from, to;
};

/* Paints all triangles, after view_sheet. Their classes are f, b and p, each with its shade: the front side is seen, the back side, or
   it is a patch. */
void put_faces(const struct drawn *sheet, bool plan);

/* Whether the back side of some triangle of the sheet is seen, as far as ten spots on each tell. */
bool is_back_seen(void);

/* Whether a point of the sheet is hidden by a triangle. */
bool is_point_hidden(uint16_t point);

/* Finds the pieces of an edge that are hidden by triangles, in order and apart; gives how many there are. What is shorter than a pixel does
   not count. They stay until the next call. */
size_t find_hidden(uint16_t from, uint16_t to, const struct piece **pieces);

#endif
