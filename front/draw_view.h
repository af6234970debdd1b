/* The points of a sheet as they are seen.

   Seen from the front above, x goes to the right and z up, both in their true lengths, and y goes back: to the right by 3/10 and up by 5/10
   of its length. In plan, x goes to the right and y up.

   Heights have the scale of the plan, unless the relief would not be seen. Where they are less than 1/12 of the plan's longer side they are
   drawn larger, by the least power of two that brings them to that; where they are more than four times the longer side they are drawn
   smaller, by the least power of two that brings them down to that. */
#ifndef DRAW_VIEW_H
#define DRAW_VIEW_H

#include "draw.h"
#include "draw_paper.h"
#include "wazelpunt.h"

/* How long a sheet is on each axis, and by what heights are multiplied and the plan is: one of them is 1, and the other a power of two. */
struct view {
    int64_t sizes[3];
    int64_t height_factor, plan_factor;
};

/* A point as it is seen: to the right, up, and how near. */
struct spot {
    int64_t x, up, near;
};

/* Of each point whether it is drawn; and of those that are, the coordinates from the least ones on, all three in one scale and up to
   65,534, so that no product here overflows; how it is seen; and where it is on the paper. Points that no triangle uses are not drawn, so
   that a stray one does not make the sheet small, unless there are no triangles. */
extern bool used[WAZELPUNT_POINTS];
extern int64_t solid[WAZELPUNT_POINTS][3];
extern struct spot spots[WAZELPUNT_POINTS];
extern struct dot dots[WAZELPUNT_POINTS];

/* Looks at the points of a sheet. */
struct view view_sheet(const struct drawn *sheet, bool plan);

#endif
