/* Surfaces laid triangle by triangle, among them sheets of as many triangles as there may be, for tests against the reference. */

#ifndef SHEETS_H
#define SHEETS_H

#include "generate.h"

/* The bits of a whole number on the plate. */
uint32_t sheet_word(int32_t whole);

void sheet_add_triangle(struct generated_surface *surface, size_t a, size_t b, size_t c);

/* A cone about a hub, without the triangles that repeat a half-edge of its rim. */
void sheet_add_cone(struct generated_surface *surface, const uint16_t *rim, size_t length, uint16_t hub);

/* A collar between a ring and the frame that closes it in: the ring's edges are open in its order, the frame's against theirs. */
void sheet_add_collar(struct generated_surface *surface, const uint16_t *ring, size_t length,
                      const uint16_t *frame, size_t edges);

/* Cones with feet of 4 to 64 edges over a common stock of points, so that a
   patch of one bars diagonals of the next; at any pitch, buffers exact. Most
   have their tip cut off, and most of the cuts run so far that they are rims
   and the feet are holes; the others are islands. */
void sheet_make_cones(struct generator *generator, struct generated_surface *surface);

/* A plate with two holes of these lengths, up to one edge more than the longest that is patched; where they are to be shut, no allowed
   cover is left to them; at that pitch, buffers exact. */
void sheet_make_pair(struct generator *generator, struct generated_surface *surface, size_t first, size_t second, int shut, uint32_t pitch);

/* Sheets of split squares from which triangles are left out, most of them at random, so that they have tide pools and lakes and fall into
   pieces, large holes and small ones that are shut among them; beside them sheets, islands and closed pieces, some of which hang on a
   point of what stands before; and a few points made one; at any pitch, buffers exact. */
void sheet_make_coasts(struct generator *generator, struct generated_surface *surface);

/* The sheet of that number at that pitch: first full ones, then small ones with one hole; its points anywhere on the plate, on whole
   numbers, which a coarse pitch moves; then full ones with tide pools, whose points lie in rows; buffers exact; gives its name, or 0 where
   there is no sheet of that number. */
const char *sheet_make(struct generator *generator, size_t sheet, struct generated_surface *surface, uint32_t pitch);

#endif
