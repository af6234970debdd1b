/* What an answer that is not 0 means, by the lines of the texts and by the facets of binary STL files. */
#ifndef EXPLAIN_H
#define EXPLAIN_H

#include "input.h"
#include "listing.h"

/* A line that is shown: of which file, its number there, and its text, escaped and cut. */
struct shown_line {
    const char *file;
    size_t number;
    char text[320];
};

/* A facet of a binary STL file that is shown: its number, where its bytes are, counted from 0, and its corners. */
struct shown_facet {
    size_t number;
    size_t first;
    size_t last;
    char text[240];
};

/* Whose fault it is: the sheet is refused, the set is refused, or the set does not pass. */
enum fault { FAULT_OF_SHEET, FAULT_OF_SET, FAULT_BETWEEN };

struct explanation {
    enum fault fault;
    char said[512];
    struct shown_line lines[2];
    size_t line_count;
    struct shown_facet facets[2];
    size_t facet_count;
    char due[160];          /* "" where nothing is due */
    char cause[320];        /* "" where none is seen */
};

/* Adds what is wrong with a coordinate of this value at a pitch: it is not finite, or the multiple to which it goes is too far. */
void value_add(struct phrase *phrase, float value, uint32_t pitch);

/* Explains the answer on a sheet, or, where `set` is not NULL, on a set for it. */
void explain(const struct text *sheet, const struct text *set, struct answer answer, struct explanation *told);

/* Says it on standard error. */
void explanation_say(const struct text *sheet, const struct text *set, struct answer answer, const struct explanation *told);

#endif
