/* The report of a sheet, as wazelpunt_chart lays it, of its pieces, each with its rim, its tide pools and its lakes; and its words. */
#ifndef REPORT_H
#define REPORT_H

#include "listing.h"
#include "output.h"
#include "wazelpunt.h"

struct report {
    uint16_t numbers[WAZELPUNT_REPORT]; /* of the entries, two each */
    size_t entries;
};

/* Some entries, one after the other: the first, and the one behind the last. */
struct span {
    size_t first, end;
};

/* All entries, and those of the piece whose own entry is this one. */
struct span report_all(const struct report *report);
struct span report_piece(const struct report *report, size_t entry);

struct wazelpunt_entry report_entry(const struct report *report, size_t entry);

/* How many entries of a span are of a kind. */
size_t report_count(const struct report *report, struct span span, uint16_t kind);

/* How many pieces are closed: those without a rim. */
size_t report_closed(const struct report *report);

/* What the kind of a loop is called: `tide pool`. */
const char *kind_name(uint16_t kind);

/* Leaves the kind of each loop. */
void report_kinds(const struct report *report, uint16_t *kinds);

/* Adds how much there is: `5 pieces, 1 closed: 4 rims, 2 tide pools, 1 lake`, and the loops that stay open. */
void report_add(struct phrase *phrase, const struct report *report, const struct loops *loops);

/* Prints a line for each piece, and below it one for each of its tide pools and lakes. A triangle of the sheet is called `triangle` or
   `facet`. */
void report_print(const struct report *report, const struct loops *loops, const char *triangle);

#endif
