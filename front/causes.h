/* Why a line of a text is wrong, or a file is not what it is taken for, where that can be seen. */
#ifndef CAUSES_H
#define CAUSES_H

#include "lines.h"
#include "output.h"

/* Adds the most telling cause for the first wrong line of a text; nothing where none is seen. */
void cause_add(const struct text *text, const struct line *line, const struct due *due, struct phrase *cause);

/* Adds what a file is, where it is of another kind than the one that is asked for; false where that is not seen. */
bool kind_add(const struct text *file, struct phrase *cause);

#endif
