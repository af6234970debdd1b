/* Binary STL files: how they are told from texts, and the text of the sheet that they hold. */
#ifndef STL_H
#define STL_H

#include "input.h"

/* Where the count of facets stands, behind the header. */
#define STL_COUNT_AT 80

/* How many facets a file has by its count; it has at least WAZELPUNT_STL_FRONT bytes. */
uint32_t stl_count(const uint8_t *file);

/* How long a file of so many facets is. */
uint64_t stl_size(uint32_t count);

/* Whether the size of what was read is known, and fits its count of facets. */
bool stl_is_well_sized(const struct text *given);

/* How the names of STL files end, and whether a name does, in any letters. */
extern const char stl_ending[];
bool is_named_stl(const char *name);

/* Whether something has a NUL byte, which no text has. */
bool has_nul(const struct text *given);

/* Whether a byte order mark stands before a text; it is passed over where it is told what the text is. */
bool has_byte_order_mark(const struct text *given);

/* Whether something is ASCII STL: without a NUL byte, and it begins with solid, behind blanks and in any letters. */
bool stl_is_ascii(const struct text *given);

/* Whether something begins as the text of a sheet. */
bool begins_as_sheet(const struct text *given);

/* Whether something whose size is not known has to be counted: its length may fit its count of facets. */
bool stl_may_fit(const struct text *given);

/* What an answer means, in a few words, of the file that a sheet was made of, or of the sheet itself where there is none. */
const char *stl_sentence(const struct stl *stl, uint32_t number);

/* Where something is a binary STL file, makes it the text of its sheet at a pitch, with the file beside it; else leaves it as it is, a
   text. With `longer` it goes on behind its size. False if the library prints what it does not promise. */
bool stl_take(struct text *given, bool longer, uint32_t pitch);

#endif
