#include "facets.h"

#include <string.h>

#include "desk.h"
#include "misfit.h"
#include "stl.h"

#define FLOATS 9

/* What is explained. */
struct subject {
    const struct stl *stl;
    size_t place;
    struct phrase said;
    struct explanation *told;
};

static struct desk desk;

/* ---- Facets ---- */

/* Where the bytes of a facet begin. */
static size_t byte_of(size_t facet)
{
    return WAZELPUNT_STL_FRONT + WAZELPUNT_STL_FACET_BYTES * facet;
}

/* Reads a facet of the file, which has it. */
static void read_facet(const struct subject *subject, size_t facet, float *floats)
{
    const struct text *file = &subject->stl->file;
    size_t at = byte_of(facet);
    if (wazelpunt_facet(file->bytes, file->length, &at, floats, FLOATS) != FLOATS) {
        /* the library named a facet that the file has not, which it does not do; zeros would be shown */
        memset(floats, 0, FLOATS * sizeof *floats);
    }
}

/* Adds `(0, 30, 0.5)`. */
static void add_corner(struct phrase *phrase, const float *corner)
{
    phrase_add(phrase, "(%.9g, %.9g, %.9g)", (double)corner[0], (double)corner[1], (double)corner[2]);
}

static void show_facet(struct subject *subject, size_t facet)
{
    struct shown_facet *shown = &subject->told->facets[subject->told->facet_count++];
    struct phrase phrase = {shown->text, sizeof shown->text, 0};
    float floats[FLOATS];
    read_facet(subject, facet, floats);
    shown->number = facet;
    shown->first = byte_of(facet);
    shown->last = byte_of(facet + 1) - 1;
    for (size_t corner = 0; corner < 3; corner++) {
        phrase_add(&phrase, "%s", corner == 0 ? "" : ", ");
        add_corner(&phrase, floats + 3 * corner);
    }
}

/* ---- 16, 2 and 1, a refusal of the file ---- */

static void explain_misfit(struct subject *subject)
{
    struct phrase cause = {subject->told->cause, sizeof subject->told->cause, 0};
    misfit_add(subject->stl, &subject->said);
    misfit_cause_add(subject->stl, &cause);
}

static void explain_many_facets(struct subject *subject)
{
    phrase_add_many(&subject->said, "it has ", stl_count(subject->stl->file.bytes), "facet");
    phrase_add(&subject->said, ", and a sheet has 1,024 at most");
}

/* Whether the first facets of a file, so many, have too many points by themselves: a file of them alone is read. */
static bool has_many_points(const struct text *file, size_t facets)
{
    static uint8_t begun[WAZELPUNT_STL_BYTES];
    size_t place;
    memcpy(begun, file->bytes, byte_of(facets));
    begun[STL_COUNT_AT] = (uint8_t)facets;
    begun[STL_COUNT_AT + 1] = (uint8_t)(facets >> 8);
    return wazelpunt_read_stl(begun, byte_of(facets), desk.words, WAZELPUNT_WORDS, desk.corners, WAZELPUNT_CORNERS, &place,
                              &desk.word_count, &desk.corner_count) == WAZELPUNT_WRONG_WORDS;
}

static void explain_many_points(struct subject *subject)
{
    const struct text *file = &subject->stl->file;
    size_t few = 0;
    size_t many = stl_count(file->bytes);
    while (many - few > 1) {
        size_t middle = few + (many - few) / 2;
        if (has_many_points(file, middle)) {
            many = middle;
        } else {
            few = middle;
        }
    }
    phrase_add(&subject->said, "it has more points than the 1,024 that a sheet has at most: facet %zu has the 1,025th", many - 1);
    show_facet(subject, many - 1);
}

/* ---- 5 to 8, a fault of the surface ---- */

static void explain_twice(struct subject *subject)
{
    size_t facet = subject->place;
    const uint16_t *corners = desk.corners + 3 * facet;
    size_t first = corners[0] == corners[1] || corners[0] == corners[2] ? 0 : 1;
    size_t second = corners[first] == corners[first + 1] ? first + 1 : 2;
    phrase_add(&subject->said, "corners %zu and %zu of facet %zu are the same point", first, second, facet);
    show_facet(subject, facet);
}

static void explain_repeated(struct subject *subject)
{
    size_t edge = subject->place;
    size_t next = edge_after(edge);
    size_t facet = edge / 3;
    size_t earlier = find_edge(desk.corners, edge, desk.corners[edge], desk.corners[next]) / 3;
    float floats[FLOATS];
    read_facet(subject, facet, floats);
    phrase_add(&subject->said, "facets %zu and %zu both run from ", earlier, facet);
    add_corner(&subject->said, floats + 3 * (edge % 3));
    phrase_add(&subject->said, " to ");
    add_corner(&subject->said, floats + 3 * (next % 3));
    phrase_add(&subject->said, ": perhaps one of them is turned over, they lie on one another, or more than two meet in this edge");
    show_facet(subject, earlier);
    show_facet(subject, facet);
}

/* The word of a point stands in the file wherever the point does; the first place is told. */
static void explain_coordinate(struct subject *subject)
{
    size_t axis = subject->place % 3;
    size_t corner = 0;
    float floats[FLOATS];
    while (desk.corners[corner] != subject->place / 3) {
        corner++;
    }
    size_t facet = corner / 3;
    corner %= 3;
    size_t byte = byte_of(facet) + 12 * (1 + corner) + 4 * axis;
    read_facet(subject, facet, floats);
    phrase_add(&subject->said, "the %c of corner %zu of facet %zu, bytes %zu to %zu, is ", "xyz"[axis], corner, facet, byte, byte + 3);
    value_add(&subject->said, floats[3 * corner + axis], desk.pitch);
    show_facet(subject, facet);
}

/* ---- All of them ---- */

static void (*const explainers[])(struct subject *subject) = {
    [WAZELPUNT_WRONG_WORDS] = explain_many_points,
    [WAZELPUNT_WRONG_CORNERS] = explain_many_facets,
    [WAZELPUNT_TWICE] = explain_twice,
    [WAZELPUNT_REPEATED] = explain_repeated,
    [WAZELPUNT_NOT_FINITE] = explain_coordinate,
    [WAZELPUNT_TOO_FAR] = explain_coordinate,
    [WAZELPUNT_MISFIT] = explain_misfit,
};

bool facets_explain(const struct text *sheet, struct answer answer, struct explanation *told)
{
    struct subject subject = {sheet->stl, answer.place, {told->said, sizeof told->said, 0}, told};
    if (answer.number >= sizeof explainers / sizeof explainers[0] || explainers[answer.number] == NULL) {
        return false;
    }
    if (sheet->stl->refusal == WAZELPUNT_DONE) {
        desk_read(sheet, &desk);
    }
    explainers[answer.number](&subject);
    return true;
}
