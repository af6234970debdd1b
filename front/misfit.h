/* What is wrong with the length of a binary STL file, refusal 16. */
#ifndef MISFIT_H
#define MISFIT_H

#include "input.h"
#include "output.h"

/* Adds how long the file is, how long it would be by its count, and why it was taken for a binary STL file. */
void misfit_add(const struct stl *stl, struct phrase *said);

/* Adds the cause, where it is seen, and else what is likely. */
void misfit_cause_add(const struct stl *stl, struct phrase *cause);

#endif
