/* The lines of a text, and what the format asks for at each of them. */
#ifndef LINES_H
#define LINES_H

#include "input.h"

/* A line without its line feed. */
struct line {
    size_t number;          /* from 1 */
    const uint8_t *bytes;
    size_t length;
    bool fed;               /* a line feed ends it */
    bool missing;           /* the text ends before it */
    bool cut;               /* it goes on behind what was read */
};

struct line line_of(const struct text *text, size_t number);
struct line line_after(const struct text *text, const struct line *line);

/* How many lines of a text are ended. */
size_t lines_ended(const struct text *text);

bool is_decimal_digit(uint8_t byte);

/* Whether a line begins with a word. */
bool line_begins(const struct line *line, const char *word);

/* The decimal number `index` behind the equals sign of a right line, counted from 0. */
size_t line_number(const struct line *line, size_t index);

/* How the line begins that may come before all others of a sheet. */
extern const char pitch_key[];

/* The pitch of a sheet whose first line is right: what that says, or 1 where it says none. A set has none, and gives 1. */
size_t pitch_of(const struct text *text);

/* The parts of a text: of a sheet the pitch, where it is not 1; a count, that many lines (points or states), another count, that many
   triangles, and the end. */
enum part { PITCH, FIRST_COUNT, FIRST, SECOND_COUNT, SECOND, END };

/* What is due at a line, given that all lines before it are right. A sheet begins with its pitch or with a count: by how its first line
   begins it is told which was meant. */
struct due {
    enum part part;
    size_t index;           /* of the point, state or triangle, from 0 */
    size_t count;           /* how many the text has, by its count */
};

struct due due_at(const struct text *text, size_t number);

/* The words of a kind of text: how its first part's count and lines begin, what one of them is called, and the most triangles. */
struct words {
    const char *count_key;  /* `points=` */
    const char *key;        /* `p=` */
    const char *one;        /* `point` */
    const char *most;       /* triangles, at most */
};

const struct words *words_of(enum kind kind);

/* How many points (states) or triangles a text has whose lines are right so far. */
size_t count_first(const struct text *text);
size_t count_triangles(const struct text *text);

/* The line of a point (state) or triangle, by its number from 0. */
struct line line_of_first(const struct text *text, size_t index);
struct line line_of_triangle(const struct text *text, size_t index);

#endif
