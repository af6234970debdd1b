/* A sheet and a set as the library reads, patches, charts and judges them, for what it does not print itself: reports in words, pictures,
   explanations, summaries. */
#ifndef DESK_H
#define DESK_H

#include "input.h"
#include "listing.h"
#include "report.h"

struct desk {
    uint32_t words[WAZELPUNT_WORDS];
    size_t word_count;
    uint16_t corners[WAZELPUNT_CORNERS];
    size_t corner_count;
    uint32_t pitch;         /* as the text says it */
    int32_t grid[WAZELPUNT_WORDS];
    struct loops loops;
    struct report report;   /* where the sheet was charted */
};

struct set {
    uint16_t states[WAZELPUNT_SET_STATES];
    size_t state_count;
    uint16_t corners[WAZELPUNT_SET_CORNERS];
    size_t corner_count;
};

/* Reads a sheet and patches it. */
struct answer desk_patch(const struct text *sheet, struct desk *desk);

/* Reads a sheet and charts it: the loops are there as after patching, but for the triangles that are laid. */
struct answer desk_chart(const struct text *sheet, struct desk *desk);

/* Reads a sheet alone. */
struct answer desk_read(const struct text *sheet, struct desk *desk);

/* Reads a set that comes after so many lines. */
struct answer set_read(const struct text *text, size_t before, struct set *set);

/* Judges a set for a sheet, both as they were read. */
struct answer desk_judge(const struct desk *desk, const struct set *set);

/* The half-edge that follows another in its triangle. */
size_t edge_after(size_t edge);

/* The first half-edge of the corners, of so many, that runs from one point to another; the count if there is none. */
size_t find_edge(const uint16_t *corners, size_t count, uint16_t from, uint16_t to);

#endif
