/* Texts and binary STL files as they are read from files and from standard input. */
#ifndef INPUT_H
#define INPUT_H

#include <stdbool.h>
#include <stddef.h>
#include <stdint.h>

#include "wazelpunt.h"

/* What is asked for: a sheet, as its text or as a binary STL file; a set; or a binary STL file whatever it looks like. */
enum kind { SHEET, SET, FACETS };

/* A text of a kind: all of it, or of a longer one at least as much as the longest of its kind and one byte, since more changes no answer. */
struct text {
    enum kind kind;
    const char *name;       /* as it was given; `-` is standard input */
    uint8_t *bytes;
    size_t length;
    bool cut;               /* there may be more than was read */
    uint64_t size;          /* how long the whole is, or as far as it was counted (stl.longer), or 0 where that is not known */
    const struct stl *stl;  /* the file that this text of a sheet was made of; NULL where the text itself was given */
};

/* Why something is taken for a binary STL file: it was asked for as one, its length fits its count, it has a NUL byte, which no text has,
   or its name says so. */
enum why { ASKED_FOR, WELL_SIZED, HAS_NUL, NAMED_SO };

/* A binary STL file. The text that was made of it is what importing prints: the sheet's text, at the pitch that was asked for, or the
   answer's line. */
struct stl {
    struct text file;
    bool longer;            /* its size is not known: it is longer than its count says, and was not counted to its end */
    enum why why;
    uint32_t refusal;       /* the number of the answer, whose place is 0; 0 where it is not refused */
};

/* Reads what is asked for. The bytes stand in static rooms, one set of them for sheets and one for sets. A binary STL file is read at the
   pitch, or at pitch 1 where that is 0; what begins as the text of a sheet says its own, and is not read where a pitch is given. Gives
   NULL, or what went wrong. */
const char *input_read(enum kind kind, const char *name, uint32_t pitch, struct text *text);

/* What input_read gives where standard input was closed at the start, where the library printed what it does not promise, and where a pitch
   is given with a text. */
extern const char input_closed[];
extern const char input_unknown[];
extern const char input_pitched[];

#endif
