/* The picture of sheets: SVG 1.1 on standard output, a panel for each sheet. */
#ifndef DRAW_H
#define DRAW_H

#include <stdbool.h>
#include <stddef.h>
#include <stdint.h>

/* A sheet with its loops, as wazelpunt_patch leaves them. */
struct drawn {
    const char *name;
    size_t points, triangles, loops;
    uint32_t pitch;            /* of the grid */
    const int32_t *grid;       /* three numbers a point */
    const uint16_t *corners;   /* three a triangle */
    const uint16_t *rings;     /* the vertices of all rings, loop after loop */
    const uint16_t *lengths;   /* of the rings */
    const uint16_t *states;    /* of the loops */
    const uint16_t *kinds;     /* of the loops: enum wazelpunt_kind */
    const uint16_t *firsts;    /* the half-edges that the loops begin with, each from the first vertex of its ring to the second */
    const uint16_t *pieces;    /* that the loops lie in */
    const uint64_t *runs;      /* of the loops */
    const uint16_t *patches;   /* the corners of all patch triangles */
    size_t laid;               /* how many patch corners there are */
};

/* The head of a picture with so many panels: all of one size, in as many columns as rows or one more, filled row by row. With `plan` the
   sheets are seen straight from above, else from the front above. With `marks` it is marked where each loop begins. */
void draw_begin(size_t sheets, bool plan, bool marks);

/* The next panel. */
void draw_sheet(const struct drawn *sheet);

/* The next panel, which says that the sheet is refused, or that it could not be read. */
void draw_refused(const char *name, uint32_t number, size_t place, const char *sentence);
void draw_unread(const char *name);

/* The end of the picture. */
void draw_end(void);

#endif
