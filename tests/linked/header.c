/* Prints what include/wazelpunt.h says: every constant, enumerator and sentence, how many numbers each lent buffer needs, and where each
   number of a record and of an entry stands. It is compiled as C99, as C11 and as C++. */
#include "wazelpunt.h"

#include <stdio.h>

#define SAY(name) printf("%s=%lu\n", #name, (unsigned long)(name))

static void say_limits(void)
{
    SAY(WAZELPUNT_POINTS);
    SAY(WAZELPUNT_TRIANGLES);
    SAY(WAZELPUNT_WORDS);
    SAY(WAZELPUNT_CORNERS);
    SAY(WAZELPUNT_SET_STATES);
    SAY(WAZELPUNT_SET_TRIANGLES);
    SAY(WAZELPUNT_SET_CORNERS);
    SAY(WAZELPUNT_LONGEST);
    SAY(WAZELPUNT_RECORD);
    SAY(WAZELPUNT_ENTRY);
    SAY(WAZELPUNT_REPORT);
    SAY(WAZELPUNT_GREATEST);
    SAY(WAZELPUNT_SHEET_BYTES);
    SAY(WAZELPUNT_SET_BYTES);
    SAY(WAZELPUNT_LISTING_BYTES);
    SAY(WAZELPUNT_REPORT_BYTES);
    SAY(WAZELPUNT_ANSWER_BYTES);
    SAY(WAZELPUNT_STL_BYTES);
    SAY(WAZELPUNT_STL_FRONT);
    SAY(WAZELPUNT_STL_FACET_BYTES);
}

static void say_answers(void)
{
    SAY(WAZELPUNT_DONE);
    SAY(WAZELPUNT_WRONG_WORDS);
    SAY(WAZELPUNT_WRONG_CORNERS);
    SAY(WAZELPUNT_BUFFER);
    SAY(WAZELPUNT_UNNAMED);
    SAY(WAZELPUNT_TWICE);
    SAY(WAZELPUNT_REPEATED);
    SAY(WAZELPUNT_NOT_FINITE);
    SAY(WAZELPUNT_TOO_FAR);
    SAY(WAZELPUNT_WRONG_STATES);
    SAY(WAZELPUNT_LINE);
    SAY(WAZELPUNT_MISDECLARED);
    SAY(WAZELPUNT_UNCOVERED);
    SAY(WAZELPUNT_BARRED);
    SAY(WAZELPUNT_HEAVY);
    SAY(WAZELPUNT_LEFT_OVER);
    SAY(WAZELPUNT_MISFIT);
    SAY(WAZELPUNT_NO_PITCH);
    SAY(WAZELPUNT_PATCHED);
    SAY(WAZELPUNT_LONG);
    SAY(WAZELPUNT_OPEN);
    SAY(WAZELPUNT_RIM);
}

static void say_kinds(void)
{
    SAY(WAZELPUNT_ENTRY_PIECE);
    SAY(WAZELPUNT_ENTRY_RIM);
    SAY(WAZELPUNT_ENTRY_POOL);
    SAY(WAZELPUNT_ENTRY_LAKE);
    SAY(WAZELPUNT_ENTRY_NOTHING);
}

/* For 30 words and 21 corners, seven triangles; the counts may be any expressions. */
static void say_needs(void)
{
    printf("needed of grid=%lu\n", (unsigned long)WAZELPUNT_GRID_FOR(10 + 20));
    printf("needed of rings=%lu\n", (unsigned long)WAZELPUNT_RINGS_FOR(1 + 20));
    printf("needed of lengths=%lu\n", (unsigned long)WAZELPUNT_LENGTHS_FOR(1 + 20));
    printf("needed of records=%lu\n", (unsigned long)WAZELPUNT_RECORDS_FOR(1 + 20));
    printf("needed of patches=%lu\n", (unsigned long)WAZELPUNT_PATCHES_FOR(1 + 20));
    printf("needed of report=%lu\n", (unsigned long)WAZELPUNT_REPORT_FOR(1 + 20));
}

#define SAY_PLACE_IN(what, field) printf("%s at %lu=%s\n", #what, (unsigned long)offsetof(struct wazelpunt_##what, field), #field)
#define SAY_PLACE(field) SAY_PLACE_IN(record, field)

static void say_places(void)
{
    printf("record bytes=%lu\n", (unsigned long)sizeof(struct wazelpunt_record));
    SAY_PLACE(length);
    SAY_PLACE(state);
    SAY_PLACE(weight);
    SAY_PLACE(count);
    SAY_PLACE(first);
    SAY_PLACE(piece);
    SAY_PLACE(run);
    printf("entry bytes=%lu\n", (unsigned long)sizeof(struct wazelpunt_entry));
    SAY_PLACE_IN(entry, kind);
    SAY_PLACE_IN(entry, number);
}

int main(void)
{
    printf("WAZELPUNT_VERSION=%s\n", WAZELPUNT_VERSION);
    say_limits();
    say_answers();
    say_kinds();
    say_needs();
    say_places();
    /* one number more than there are answers, and the greatest */
    for (uint32_t number = 0; number <= 18; number++) printf("sentence %u=%s\n", (unsigned)number, wazelpunt_sentence(number));
    printf("sentence 19=%s\n", wazelpunt_sentence(UINT32_MAX));
    return wazelpunt_floats_are_default() ? 0 : 1;
}
