/* What a refusal means, by the facets of a binary STL file. */
#ifndef FACETS_H
#define FACETS_H

#include "explain.h"

/* Explains an answer on the sheet of a binary STL file; false if it is none that is about its facets. */
bool facets_explain(const struct text *sheet, struct answer answer, struct explanation *told);

#endif
