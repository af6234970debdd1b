/* The rings of loops, and the marks where loops begin. They are drawn over all triangles: solid or in their dashes where they are seen, in
   dots where a triangle lies before them.

   The line of a ring, its colour and its dashes, goes by the loop's state. What kind of loop it is, is shown besides: the line of a lake is
   double, with a light core, and a tide pool has a diamond at each vertex where it meets the rim of its piece, which is hollow where it is
   hidden. A rim has neither. */
#ifndef DRAW_RINGS_H
#define DRAW_RINGS_H

#include "draw.h"
#include "draw_paper.h"

/* The states in the order in which loops are drawn: rims first and open loops last. */
enum { STATE_COUNT = 4 };
extern const uint16_t state_order[STATE_COUNT];

/* Leaves the vertices of a loop where it meets the rim of its piece, if it is a tide pool, in the order of its ring; gives how many there
   are, which is none for other loops. */
size_t find_meetings(const struct drawn *sheet, size_t loop, uint16_t *points);

/* How far a diamond reaches from its middle, in tenths: further with marks, since tide pools mostly begin where they meet the rim. */
static inline int64_t diamond_size(bool marks)
{
    return marks ? 64 : 40;
}

/* Draws all rings, after put_faces, in that order, so that nothing lies over open loops. With `marks` there will be marks.
   Gives whether some part is hidden. */
bool put_loops(const struct drawn *sheet, bool marks);

/* The half-edge that a loop begins with: its two points, and where they are on the paper. */
struct mark {
    uint16_t ends[2];
    struct dot from, to;
};
struct mark mark_of(const struct drawn *sheet, size_t loop);

/* Draws the marks, after put_loops: an arrow along the first half-edge of each loop, with a dot at its first vertex. */
void put_marks(const struct drawn *sheet);

#endif
