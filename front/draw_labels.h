/* The numbers of loops, each at its loop.

   Loops that are left open have theirs always, in a flag: first the open ones, then the long ones. The others follow in their order, each
   where its number lies within its loop, or beside it without touching another loop; a rim's number stands at its lowest vertex. One that
   would touch a number that is there already, or the diamond of a tide pool, is left out. Where there are more than 60 loops, numbers
   beside their loops keep so far apart that they stay few.

   Where it is marked how loops begin, as many as can be are numbered. A rim's number stands beside its mark, if there is room; no number
   lies on a mark, and one that finds no place at its loop may stand a bit off, with a stem. */
#ifndef DRAW_LABELS_H
#define DRAW_LABELS_H

#include "draw.h"

/* Writes the numbers, after view_sheet, with marks or without. Gives how many are left out. */
size_t put_all_numbers(const struct drawn *sheet, bool marks);

#endif
