/* The objects of --json, one a line on standard output. */
#ifndef JSON_H
#define JSON_H

#include "explain.h"
#include "input.h"
#include "listing.h"
#include "report.h"

/* A sheet that was listed; with `patches` each loop has its triangles. */
void json_listed(const struct text *sheet, const struct loops *loops, bool patches);

/* A sheet that was reported, by its pieces. */
void json_reported(const struct text *sheet, const struct loops *loops, const struct report *report);

/* A set that passed, and the loops with the states that it declares. */
void json_passed(const struct text *sheet, const struct text *set, const struct loops *loops);

/* An answer that is not 0, on a sheet or, where `set` is not NULL, on a set for it. */
void json_explained(const struct text *sheet, const struct text *set, struct answer answer, const struct explanation *told);

/* A sheet that could not be read or, where `set` is not NULL, whose set of that name could not be read. */
void json_unread(const char *sheet, const char *set, const char *error);

#endif
