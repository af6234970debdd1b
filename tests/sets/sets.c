/* Compares wazelpunt_judge with the plain reference: the answer, and every byte of the three lent buffers with what lies before and
   behind them. It takes the scope's examples with what is said of them, as islands and as holes, faults by one and by several, every
   short set for small loops, holes and rims of every length, full sheets, and made surfaces with made sets, at every pitch.
   sets COUNT SEED: that many made sets, from that seed on. */
#include <inttypes.h>
#include <stdint.h>
#include <stdio.h>
#include <stdlib.h>
#include <string.h>

#include "../reference/generate.h"
#include "../reference/guarded.h"
#include "../reference/reference.h"
#include "../reference/sheets.h"
#include "wazelpunt.h"

#define HIGHEST 17
#define PITCHES 4

/* a set as it is handed over */
struct set {
    const uint16_t *states;
    size_t state_count;
    const uint16_t *corners;
    size_t corner_count;
};

static struct lent_survey before, ours, theirs;
static struct reference_answer said, due;

/* the pitches, and how far a coordinate may be moved at each that stays at its multiple */
static const int32_t pitches[PITCHES] = {1, 2, 5, 10}, within[PITCHES] = {0, 0, 2, 4};
static size_t cases, wrong;

/* ---- Comparing ---- */

static struct set whole(const struct generated_set *t) {
    return (struct set){t->states, t->state_count, t->corners, t->corner_count};
}

static int same_answer(void) {
    if (said.number == due.number && said.place == due.place && said.loops == due.loops && said.vertices == due.vertices) return 1;
    if (wrong < 10) printf("answered %zu, %zu; %zu, %zu; due %zu, %zu; %zu, %zu\n", said.number, said.place, said.loops, said.vertices, due.number, due.place, due.loops, due.vertices);
    return 0;
}

static int same_buffers(void) {
    if (memcmp(&ours, &theirs, sizeof ours) == 0) return 1;
    if (wrong < 10) printf("a buffer differs, answer %zu\n", due.number);
    return 0;
}

static int agree(const struct generated_surface *s, struct set t) {
    const size_t *lent = s->lent;
    cases++;
    ours = theirs = before;
    said.number = wazelpunt_judge(s->words, s->word_count, s->corners, s->corner_count, t.states, t.state_count, t.corners, t.corner_count, ours.grid + GUARD, lent[0], ours.rings + GUARD, lent[1], ours.lengths + GUARD, s->lengths_lent, &said.place, &said.loops, &said.vertices, s->pitch);
    reference_check(s->words, s->word_count, s->corners, s->corner_count, t.states, t.state_count, t.corners, t.corner_count, theirs.grid + GUARD, lent[0], theirs.rings + GUARD, lent[1], theirs.lengths + GUARD, s->lengths_lent, s->pitch, &due);
    return same_answer() && same_buffers();
}

static void count_wrong(const char *name) {
    if (wrong++ < 10) printf("%s: answered %zu, %zu\n", name, said.number, said.place);
}

/* The set is to get that number and place; a refusal leaves the buffers as they were and both counts 0. */
static void expect(const char *name, const struct generated_surface *s, struct set t, size_t number, size_t place) {
    int right = agree(s, t) && said.number == number && said.place == place;
    if ((number >= 1 && number <= 9) || number == 17) right = right && said.loops == 0 && said.vertices == 0 && memcmp(&ours, &before, sizeof ours) == 0;
    if (!right) count_wrong(name);
}

/* ---- Examples ---- */

/* Rings, each closed in by a frame of three points far out, and triangles beside them that have no open edge. The loops are the rings
   and the frames in turn, and the frames are rims. */
struct shape {
    size_t points;
    int16_t at[24];
    size_t rings;
    uint16_t lengths[3], ring[12];
    size_t bar_count;
    uint16_t bars[12];
};

enum { NOTHING, CLOSED, TRIANGLE, BOW_TIE, STRIP, CONE, EVEN_CONE, HUGE_CONE, BARRED_CONE, OPEN, TWO_CONES, WEIGHED_CONES, THREE_CONES };

static const struct shape shapes[] = {
    [NOTHING] = {0, {0}, 0, {0}, {0}, 0, {0}},
    [CLOSED] = {4, {0}, 0, {0}, {0}, 12, {0, 1, 2, 0, 2, 3, 0, 3, 1, 1, 3, 2}},
    [TRIANGLE] = {3, {0, 0, 0, 1, 0, 0, 0, 1, 0}, 1, {3}, {0, 1, 2}, 0, {0}},
    [BOW_TIE] = {5, {0}, 2, {3, 3}, {0, 1, 2, 0, 3, 4}, 0, {0}},
    /* the diagonal 0-2 is barred */
    [STRIP] = {5, {0, 0, 0, 10, 0, 0, 10, 10, 0, 0, 10, 4}, 1, {4}, {0, 1, 2, 3}, 6, {0, 2, 4, 0, 4, 2}},
    /* the point 4 is on no ring */
    [CONE] = {5, {0, 0, 0, 10, 0, 0, 3, 3, 0, 0, 10, 0, 4, 4, 9}, 1, {4}, {0, 1, 2, 3}, 0, {0}},
    [EVEN_CONE] = {5, {0, 0, 0, 10, 0, 0, 10, 10, 0, 0, 10, 4, 4, 4, 9}, 1, {4}, {0, 1, 2, 3}, 0, {0}},
    /* the covers weigh 8,589,475,845 by 0-2 and two more by 1-3 */
    [HUGE_CONE] = {4, {-32767, -32767, 0, 32767, -32767, 0, 32766, 32767, 0, -32767, 32767, 1}, 1, {4}, {0, 1, 2, 3}, 0, {0}},
    /* the heavier diagonal 1-3 is barred */
    [BARRED_CONE] = {5, {0, 0, 0, 10, 0, 0, 3, 3, 0, 0, 10, 0, 4, 4, 9}, 1, {4}, {0, 1, 2, 3}, 6, {1, 3, 4, 1, 4, 3}},
    /* the second ring bars 1-3 */
    [OPEN] = {6, {0, 0, 0, 10, 0, 0, 10, 10, 0, 0, 10, 4, 4, 4, 9}, 2, {4, 3}, {0, 1, 2, 3, 1, 3, 4}, 6, {0, 2, 5, 0, 5, 2}},
    [TWO_CONES] = {6, {0}, 2, {4, 4}, {0, 1, 2, 3, 4, 1, 5, 3}, 0, {0}},
    /* the first ring's covers weigh the same, of the second's that by 1-3 is lighter */
    [WEIGHED_CONES] = {6, {0, 0, 0, 10, 0, 0, 10, 10, 0, 0, 10, 0, 0, -20, 0, 30, 10, 0}, 2, {4, 4}, {0, 1, 2, 3, 4, 1, 5, 3}, 0, {0}},
    [THREE_CONES] = {8, {0}, 3, {4, 4, 4}, {0, 1, 2, 3, 4, 5, 6, 7, 1, 5, 3, 7}, 0, {0}},
};

/* A set for a shape, its states those of the rings alone, and what it gets, at which ring: the frames are declared 4 beside them. */
struct example {
    const char *name;
    size_t shape;
    size_t state_count;
    uint16_t states[4];
    size_t corner_count;
    uint16_t corners[24];
    size_t number, place;
};

static const struct example examples[] = {
    {"an empty set for nothing", NOTHING, 0, {0}, 0, {0}, 0, 0},
    {"a state for nothing", NOTHING, 1, {1}, 0, {0}, 9, 0},
    {"corners for nothing", NOTHING, 0, {0}, 3, {0, 1, 2}, 15, 0},
    {"a corner that names no point, for nothing", NOTHING, 0, {0}, 1, {65535}, 15, 0},
    {"an empty set where no edge is open", CLOSED, 0, {0}, 0, {0}, 0, 0},
    {"a state where no edge is open", CLOSED, 1, {2}, 0, {0}, 9, 0},
    {"corners where no edge is open", CLOSED, 0, {0}, 3, {0, 2, 1}, 15, 0},

    {"the listing's patch", TRIANGLE, 1, {1}, 3, {0, 2, 1}, 0, 0},
    {"it begun at the second corner", TRIANGLE, 1, {1}, 3, {2, 1, 0}, 0, 0},
    {"it begun at the third corner", TRIANGLE, 1, {1}, 3, {1, 0, 2}, 0, 0},
    {"the triangle turned round", TRIANGLE, 1, {1}, 3, {0, 1, 2}, 12, 0},
    {"it begun at the second corner, turned round", TRIANGLE, 1, {1}, 3, {1, 2, 0}, 12, 0},
    {"it begun at the third corner, turned round", TRIANGLE, 1, {1}, 3, {2, 0, 1}, 12, 0},
    {"a corner twice", TRIANGLE, 1, {1}, 3, {0, 2, 2}, 12, 0},
    {"a corner that names no point", TRIANGLE, 1, {1}, 3, {0, 2, 3}, 12, 0},
    {"no corners", TRIANGLE, 1, {1}, 0, {0, 2, 1}, 12, 0},
    {"a corner too few", TRIANGLE, 1, {1}, 2, {0, 2, 1}, 12, 0},
    {"a corner too many", TRIANGLE, 1, {1}, 4, {0, 2, 1, 0}, 15, 3},
    {"a corner too many that names no point", TRIANGLE, 1, {1}, 4, {0, 2, 1, 65535}, 15, 3},
    {"state 0", TRIANGLE, 1, {0}, 3, {0, 2, 1}, 11, 0},
    {"state 2 on a short loop", TRIANGLE, 1, {2}, 0, {0}, 11, 0},
    {"state 3 on a loop of three", TRIANGLE, 1, {3}, 0, {0}, 11, 0},
    {"state 4", TRIANGLE, 1, {4}, 3, {0, 2, 1}, 11, 0},
    {"state 65535", TRIANGLE, 1, {65535}, 3, {0, 2, 1}, 11, 0},
    {"11 before 12 and 15", TRIANGLE, 1, {0}, 4, {0, 1, 2, 9}, 11, 0},
    {"12 before 15", TRIANGLE, 1, {1}, 4, {0, 1, 2, 9}, 12, 0},
    {"no state", TRIANGLE, 0, {1}, 3, {0, 2, 1}, 9, 1},
    {"two states", TRIANGLE, 2, {1, 1}, 3, {0, 2, 1}, 9, 1},
    {"9 before 11 and 12", TRIANGLE, 2, {0, 0}, 1, {7}, 9, 1},

    {"two loops of three", BOW_TIE, 2, {1, 1}, 6, {0, 2, 1, 0, 4, 3}, 0, 0},
    {"the second loop's triangle first", BOW_TIE, 2, {1, 1}, 6, {0, 4, 3, 0, 2, 1}, 12, 0},
    {"the second turned round", BOW_TIE, 2, {1, 1}, 6, {0, 2, 1, 0, 3, 4}, 12, 1},
    {"the second missing", BOW_TIE, 2, {1, 1}, 3, {0, 2, 1, 0, 4, 3}, 12, 1},
    {"the second a corner too short", BOW_TIE, 2, {1, 1}, 5, {0, 2, 1, 0, 4, 3}, 12, 1},
    {"the first a corner too short", BOW_TIE, 2, {1, 1}, 2, {0, 2, 1, 0, 4, 3}, 12, 0},
    {"the first's triangle twice", BOW_TIE, 2, {1, 1}, 6, {0, 2, 1, 0, 2, 1}, 12, 1},
    {"a corner after the second", BOW_TIE, 2, {1, 1}, 7, {0, 2, 1, 0, 4, 3, 0}, 15, 6},
    {"the second long", BOW_TIE, 2, {1, 2}, 3, {0, 2, 1}, 11, 1},
    {"the second open", BOW_TIE, 2, {1, 3}, 3, {0, 2, 1}, 11, 1},
    {"the second state 4", BOW_TIE, 2, {1, 4}, 6, {0, 2, 1, 0, 4, 3}, 11, 1},
    {"the first open", BOW_TIE, 2, {3, 1}, 3, {0, 4, 3}, 11, 0},
    {"12 at the first before 11 at the second", BOW_TIE, 2, {1, 0}, 3, {0, 1, 2}, 12, 0},
    {"11 at the first before 12 at the second", BOW_TIE, 2, {0, 1}, 3, {0, 1, 2}, 11, 0},
    {"11 at the second before 15", BOW_TIE, 2, {1, 3}, 6, {0, 2, 1, 0, 4, 3}, 11, 1},
    {"one state for two loops", BOW_TIE, 1, {1}, 6, {0, 2, 1, 0, 4, 3}, 9, 2},
    {"three states for two loops", BOW_TIE, 3, {1, 1, 1}, 6, {0, 2, 1, 0, 4, 3}, 9, 2},

    {"a diagonal that the input bars", STRIP, 1, {1}, 6, {0, 3, 2, 0, 2, 1}, 13, 0},
    {"the other diagonal", STRIP, 1, {1}, 6, {0, 3, 1, 1, 3, 2}, 0, 0},
    {"12 before 13", STRIP, 1, {1}, 6, {0, 3, 2, 0, 1, 2}, 12, 0},
    {"a barred triangle twice", STRIP, 1, {1}, 6, {0, 3, 2, 0, 3, 2}, 12, 0},
    {"11 before 13", STRIP, 1, {2}, 6, {0, 3, 2, 0, 2, 1}, 11, 0},
    {"open where one diagonal is barred", STRIP, 1, {3}, 0, {0}, 11, 0},
    {"13 before 15", STRIP, 1, {1}, 7, {0, 3, 2, 0, 2, 1, 0}, 13, 0},

    {"the lighter cover", CONE, 1, {1}, 6, {0, 3, 2, 0, 2, 1}, 0, 0},
    {"it begun at other corners", CONE, 1, {1}, 6, {3, 2, 0, 2, 1, 0}, 0, 0},
    {"it in another order", CONE, 1, {1}, 6, {0, 2, 1, 0, 3, 2}, 0, 0},
    {"the heavier cover", CONE, 1, {1}, 6, {0, 3, 1, 1, 3, 2}, 14, 0},
    {"it in another order and begun at other corners", CONE, 1, {1}, 6, {3, 2, 1, 1, 0, 3}, 14, 0},
    {"one triangle turned round", CONE, 1, {1}, 6, {0, 2, 3, 0, 2, 1}, 12, 0},
    {"a triangle of each cover", CONE, 1, {1}, 6, {0, 3, 2, 1, 3, 2}, 12, 0},
    {"the hub in place of a vertex", CONE, 1, {1}, 6, {0, 3, 4, 0, 4, 1}, 12, 0},
    {"a corner too short for four", CONE, 1, {1}, 5, {0, 3, 2, 0, 2, 1}, 12, 0},
    {"no corners for four", CONE, 1, {1}, 0, {0, 3, 2, 0, 2, 1}, 12, 0},
    {"11 before 14", CONE, 1, {3}, 6, {0, 3, 1, 1, 3, 2}, 11, 0},
    {"14 before 15", CONE, 1, {1}, 7, {0, 3, 1, 1, 3, 2, 0}, 14, 0},
    {"a corner after a cover of four", CONE, 1, {1}, 7, {0, 3, 2, 0, 2, 1, 0}, 15, 6},
    {"an equal cover", EVEN_CONE, 1, {1}, 6, {0, 3, 1, 1, 3, 2}, 0, 0},
    {"the other equal cover", EVEN_CONE, 1, {1}, 6, {0, 3, 2, 0, 2, 1}, 0, 0},
    {"a great weight", HUGE_CONE, 1, {1}, 6, {0, 3, 2, 0, 2, 1}, 0, 0},
    {"a great weight and two more", HUGE_CONE, 1, {1}, 6, {0, 3, 1, 1, 3, 2}, 14, 0},
    {"13 before 14", BARRED_CONE, 1, {1}, 6, {0, 3, 1, 1, 3, 2}, 13, 0},
    {"the cover that is left", BARRED_CONE, 1, {1}, 6, {0, 3, 2, 0, 2, 1}, 0, 0},

    {"no allowed cover", OPEN, 2, {3, 1}, 3, {1, 4, 3}, 0, 0},
    {"one barred cover", OPEN, 2, {1, 1}, 9, {0, 3, 1, 1, 3, 2, 1, 4, 3}, 13, 0},
    {"the other barred cover", OPEN, 2, {1, 1}, 9, {0, 3, 2, 0, 2, 1, 1, 4, 3}, 13, 0},
    {"declared patched, and no cover", OPEN, 2, {1, 1}, 9, {0, 3, 2, 0, 1, 2, 1, 4, 3}, 12, 0},
    {"declared patched, and nothing laid", OPEN, 2, {1, 1}, 3, {1, 4, 3}, 12, 0},
    {"the loop of three declared open too", OPEN, 2, {3, 3}, 0, {0}, 11, 1},
    {"after an open loop, 12", OPEN, 2, {3, 1}, 3, {1, 3, 4}, 12, 1},
    {"after an open loop, nothing", OPEN, 2, {3, 1}, 0, {0}, 12, 1},
    {"after an open loop, a corner too many", OPEN, 2, {3, 1}, 4, {1, 4, 3, 0}, 15, 3},
    {"long where no cover is allowed", OPEN, 2, {2, 1}, 3, {1, 4, 3}, 11, 0},

    {"the first by 0-2, the second by 1-3", TWO_CONES, 2, {1, 1}, 12, {0, 3, 2, 0, 2, 1, 4, 3, 1, 1, 3, 5}, 0, 0},
    {"the first by 0-2, the second by 4-5", TWO_CONES, 2, {1, 1}, 12, {0, 3, 2, 0, 2, 1, 4, 3, 5, 4, 5, 1}, 0, 0},
    {"the first by 1-3, the second by 4-5", TWO_CONES, 2, {1, 1}, 12, {0, 3, 1, 1, 3, 2, 4, 3, 5, 4, 5, 1}, 0, 0},
    {"both by 1-3", TWO_CONES, 2, {1, 1}, 12, {0, 3, 1, 1, 3, 2, 4, 3, 1, 1, 3, 5}, 13, 1},
    {"both by 1-3, in another order and begun at other corners", TWO_CONES, 2, {1, 1}, 12, {3, 2, 1, 3, 1, 0, 5, 1, 3, 1, 4, 3}, 13, 1},
    {"a vertex of the first loop in the second", TWO_CONES, 2, {1, 1}, 12, {0, 3, 2, 0, 2, 1, 4, 3, 1, 1, 3, 2}, 12, 1},
    {"the second open", TWO_CONES, 2, {1, 3}, 6, {0, 3, 1, 1, 3, 2}, 11, 1},
    {"12 at the second before 15", TWO_CONES, 2, {1, 1}, 13, {0, 3, 2, 0, 2, 1, 4, 3, 1, 1, 5, 3, 0}, 12, 1},
    {"the lighter of the second barred by the set", WEIGHED_CONES, 2, {1, 1}, 12, {0, 3, 1, 1, 3, 2, 4, 3, 5, 4, 5, 1}, 0, 0},
    {"the lighter of the second not barred by the set", WEIGHED_CONES, 2, {1, 1}, 12, {0, 3, 2, 0, 2, 1, 4, 3, 5, 4, 5, 1}, 14, 1},
    {"the lighter of the second", WEIGHED_CONES, 2, {1, 1}, 12, {0, 3, 2, 0, 2, 1, 4, 3, 1, 1, 3, 5}, 0, 0},
    {"the lighter of the second, and barred", WEIGHED_CONES, 2, {1, 1}, 12, {0, 3, 1, 1, 3, 2, 4, 3, 1, 1, 3, 5}, 13, 1},
    {"14 at the second before 15", WEIGHED_CONES, 2, {1, 1}, 13, {0, 3, 2, 0, 2, 1, 4, 3, 5, 4, 5, 1, 0}, 14, 1},
    {"the third open, its diagonals barred by the set", THREE_CONES, 3, {1, 1, 3}, 12, {0, 3, 1, 1, 3, 2, 4, 7, 5, 5, 7, 6}, 0, 0},
    {"the third patched, its diagonals barred by the set", THREE_CONES, 3, {1, 1, 1}, 18, {0, 3, 1, 1, 3, 2, 4, 7, 5, 5, 7, 6, 1, 7, 3, 1, 3, 5}, 13, 2},
    {"the third open, and the set leaves 1-3", THREE_CONES, 3, {1, 1, 3}, 12, {0, 3, 2, 0, 2, 1, 4, 7, 5, 5, 7, 6}, 11, 2},
    {"the third by 1-3", THREE_CONES, 3, {1, 1, 1}, 18, {0, 3, 2, 0, 2, 1, 4, 7, 5, 5, 7, 6, 1, 7, 3, 1, 3, 5}, 0, 0},
    {"the third by 5-7, which the second laid", THREE_CONES, 3, {1, 1, 1}, 18, {0, 3, 2, 0, 2, 1, 4, 7, 5, 5, 7, 6, 1, 7, 5, 5, 7, 3}, 13, 2},
    {"the third by 5-7", THREE_CONES, 3, {1, 1, 1}, 18, {0, 3, 1, 1, 3, 2, 4, 7, 6, 4, 6, 5, 1, 7, 5, 5, 7, 3}, 0, 0},
    {"a corner after two loops and an open one", THREE_CONES, 3, {1, 1, 3}, 13, {0, 3, 1, 1, 3, 2, 4, 7, 5, 5, 7, 6, 1}, 15, 12},
};

/* Coordinates that are told in pitches, moved off their multiples where they come back. */
static void place_in_pitches(uint32_t *words, const int16_t *at, size_t count, size_t p) {
    for (size_t w = 0; w < count; w++) words[w] = sheet_word(at[w] * pitches[p] + (w % 2 == 0 ? within[p] : -within[p]));
}

/* Closes a ring in by a frame of so many points, the first of that number, which lie at the ends of the plate in turn. */
static void close_in(struct generated_surface *s, const uint16_t *ring, size_t length, size_t first, size_t edges) {
    uint16_t frame[REFERENCE_LONGEST_LOOP + 2];
    for (size_t f = 0; f < edges; f++) {
        frame[f] = (uint16_t)(first + f);
        for (size_t axis = 0; axis < 3; axis++) s->words[3 * frame[f] + axis] = sheet_word(f % 2 == 0 ? reference_greatest(s->pitch) : -reference_greatest(s->pitch));
    }
    sheet_add_collar(s, ring, length, frame, edges);
    s->word_count = 3 * (first + edges);
    generate_lend_exactly(s);
}

static void take_shape(const struct shape *shape, struct generated_surface *s, size_t p) {
    const uint16_t *ring = shape->ring;
    s->pitch = (uint32_t)pitches[p];
    s->word_count = 3 * shape->points;
    s->corner_count = 0;
    place_in_pitches(s->words, shape->at, s->word_count, p);
    for (size_t r = 0; r < shape->rings; ring += shape->lengths[r++]) close_in(s, ring, shape->lengths[r], shape->points + 3 * r, 3);
    for (size_t c = 0; c < shape->bar_count; c += 3) sheet_add_triangle(s, shape->bars[c], shape->bars[c + 1], shape->bars[c + 2]);
    generate_lend_exactly(s);
}

/* Every ring's state and a 4 for its frame; of states too many or too few there are as many too many or too few. The cone that fills the
   plate is one at pitch 1 alone. */
static void compare_examples(size_t p) {
    static struct generated_surface surface;
    for (size_t i = 0; i < sizeof examples / sizeof examples[0]; i++) {
        const struct example *e = &examples[i];
        if (e->shape == HUGE_CONE && p > 0) continue;
        size_t loops = 2 * shapes[e->shape].rings, place = e->number >= 11 && e->number <= 14 ? 2 * e->place : e->number == 9 ? loops : e->place;
        uint16_t states[9];
        for (size_t l = 0; l < 9; l++) states[l] = l % 2 == 0 && l / 2 < e->state_count ? e->states[l / 2] : 4;
        take_shape(&shapes[e->shape], &surface, p);
        expect(e->name, &surface, (struct set){states, loops + e->state_count - shapes[e->shape].rings, e->corners, e->corner_count}, e->number, place);
    }
}

/* ---- Islands and plates ---- */

/* A surface as it stands, a set for it, and what it gets. */
struct land {
    const char *name;
    size_t points;
    const int16_t *at;
    size_t corner_count;
    const uint16_t *corners;
    size_t state_count;
    uint16_t states[4];
    size_t set_count;
    uint16_t set[9];
    size_t number, place;
};

static const int16_t listed_at[9] = {0, 0, 0, 1, 0, 0, 0, 1, 0};
static const int16_t fold_at[15] = {0, 0, 0, 10, 0, 0, 10, 10, 0, 0, 10, 4, 4, 4, 9};
static const int16_t cone_at[15] = {0, 0, 0, 10, 0, 0, 3, 3, 0, 0, 10, 0, 4, 4, 9};
static const int16_t plate_at[27] = {0, 0, 0, 30, 0, 0, 0, 30, 0, 5, 5, 0, 15, 5, 0, 5, 15, 0, 6, 6, 0, 8, 6, 0, 6, 8, 0};
static const int16_t equal_at[18] = {0, 0, 0, 10, 0, 0, 0, 10, 0, 0, 0, 5, 10, 0, 5, 0, 10, 5};
static const int16_t inner_at[18] = {1, 1, 0, 2, 1, 0, 1, 2, 0, 0, 0, 9, 50, 0, 9, 0, 50, 9};
static const int16_t closing_at[18] = {0, 0, 0, 10, 0, 0, 20, 0, 0, 12, 0, 1, 0, 0, 1, 0, 1, 1};
static const int16_t signs_at[18] = {0, 0, 0, 10, -10, 0, 20, -20, 0, 12, 0, 0, 0, 0, 0, 0, 1, 0};
static const uint16_t listed[3] = {0, 1, 2};
static const uint16_t bow_tie[6] = {0, 1, 2, 0, 3, 4};
static const uint16_t pinched[12] = {0, 1, 2, 2, 1, 3, 2, 3, 4, 4, 3, 0};
static const uint16_t fold[6] = {0, 1, 2, 0, 2, 3};
static const uint16_t cone[12] = {0, 1, 4, 1, 2, 4, 2, 3, 4, 3, 0, 4};
static const uint16_t crossed[9] = {0, 1, 2, 0, 2, 3, 1, 3, 4};
/* rings 0,1,2 and 4,3,5, and an island; then the same with the second ring listed first */
static const uint16_t plate[21] = {0, 1, 3, 1, 4, 3, 1, 2, 4, 2, 5, 4, 2, 0, 5, 0, 3, 5, 6, 7, 8};
static const uint16_t hole_first[18] = {4, 3, 1, 0, 1, 3, 1, 2, 4, 2, 5, 4, 2, 0, 5, 0, 3, 5};

#define LISTED 3, listed_at, 3, listed
#define BOW_TIE_ALONE 5, fold_at, 6, bow_tie
#define PINCHED 5, fold_at, 12, pinched
#define FOLD 4, fold_at, 6, fold
#define CONE_ALONE 5, cone_at, 12, cone
#define CROSSED 5, fold_at, 9, crossed
#define PLATE 6, plate_at, 18, plate
#define PLATE_AND_ISLAND 9, plate_at, 21, plate
#define EQUAL 6, equal_at, 18, plate
#define EQUAL_OTHERWISE 6, equal_at, 18, hole_first
#define INNER 6, inner_at, 18, plate
#define CLOSING 6, closing_at, 18, hole_first
#define SIGNS 6, signs_at, 18, hole_first

static const struct land lands[] = {
    {"an island", LISTED, 1, {4}, 0, {0}, 0, 0},
    {"an island paved", LISTED, 1, {1}, 3, {0, 2, 1}, 11, 0},
    {"an island declared patched, and no cover", LISTED, 1, {1}, 3, {0, 1, 2}, 11, 0},
    {"an island declared patched, and nothing laid", LISTED, 1, {1}, 0, {0}, 11, 0},
    {"an island declared long", LISTED, 1, {2}, 0, {0}, 11, 0},
    {"an island declared open", LISTED, 1, {3}, 0, {0}, 11, 0},
    {"an island declared 0", LISTED, 1, {0}, 0, {0}, 11, 0},
    {"an island declared 5", LISTED, 1, {5}, 0, {0}, 11, 0},
    {"an island declared 65535", LISTED, 1, {65535}, 0, {0}, 11, 0},
    {"corners for an island", LISTED, 1, {4}, 3, {0, 2, 1}, 15, 0},
    {"a corner for an island", LISTED, 1, {4}, 1, {65535}, 15, 0},
    {"no state for an island", LISTED, 0, {4}, 0, {0}, 9, 1},
    {"two states for an island", LISTED, 2, {4, 4}, 0, {0}, 9, 1},
    {"islands that share a vertex", BOW_TIE_ALONE, 2, {4, 4}, 0, {0}, 0, 0},
    {"the second of them paved", BOW_TIE_ALONE, 2, {4, 1}, 3, {0, 4, 3}, 11, 1},
    {"both of them paved", BOW_TIE_ALONE, 2, {1, 1}, 6, {0, 2, 1, 0, 4, 3}, 11, 0},
    {"a pinched coast, its second loop the rim", PINCHED, 2, {1, 4}, 3, {0, 3, 1}, 0, 0},
    {"a pinched coast, its first loop declared the rim", PINCHED, 2, {4, 1}, 3, {0, 2, 4}, 11, 0},
    {"a pinched coast paved", PINCHED, 2, {1, 1}, 6, {0, 3, 1, 0, 2, 4}, 11, 1},
    {"a fold with the barred diagonal", FOLD, 1, {1}, 6, {0, 3, 2, 0, 2, 1}, 11, 0},
    {"a fold with the other", FOLD, 1, {1}, 6, {0, 3, 1, 1, 3, 2}, 11, 0},
    {"a fold", FOLD, 1, {4}, 0, {0}, 0, 0},
    {"a cone with the lighter cover", CONE_ALONE, 1, {1}, 6, {3, 2, 0, 2, 1, 0}, 11, 0},
    {"a cone with the heavier cover", CONE_ALONE, 1, {1}, 6, {0, 3, 1, 1, 3, 2}, 11, 0},
    {"a cone with a triangle turned round", CONE_ALONE, 1, {1}, 6, {0, 2, 3, 0, 2, 1}, 11, 0},
    {"a cone", CONE_ALONE, 1, {4}, 0, {0}, 0, 0},
    {"an island whose diagonals are both barred, declared open", CROSSED, 2, {3, 4}, 0, {0}, 11, 0},
    {"it and the island that bars one", CROSSED, 2, {4, 4}, 0, {0}, 0, 0},
    {"it declared open, the other paved", CROSSED, 2, {3, 1}, 3, {1, 4, 3}, 11, 0},
    {"the other paved", CROSSED, 2, {4, 1}, 3, {1, 4, 3}, 11, 1},
    {"a plate", PLATE, 2, {4, 1}, 3, {4, 5, 3}, 0, 0},
    {"a plate, its patch begun elsewhere", PLATE, 2, {4, 1}, 3, {3, 4, 5}, 0, 0},
    {"a plate, its patch turned round", PLATE, 2, {4, 1}, 3, {4, 3, 5}, 12, 1},
    {"a plate, its patch missing", PLATE, 2, {4, 1}, 0, {0}, 12, 1},
    {"a plate paved", PLATE, 2, {1, 1}, 6, {0, 2, 1, 4, 5, 3}, 11, 0},
    {"a plate, corners for its rim before the hole's", PLATE, 2, {4, 1}, 6, {0, 2, 1, 4, 5, 3}, 12, 1},
    {"a plate, corners for its rim after the hole's", PLATE, 2, {4, 1}, 6, {4, 5, 3, 0, 2, 1}, 15, 3},
    {"a plate, its hole declared a rim", PLATE, 2, {4, 4}, 0, {0}, 11, 1},
    {"a plate, its hole declared a rim and patched", PLATE, 2, {4, 4}, 3, {4, 5, 3}, 11, 1},
    {"a plate, its hole declared long", PLATE, 2, {4, 2}, 0, {0}, 11, 1},
    {"a plate, its hole declared open", PLATE, 2, {4, 3}, 0, {0}, 11, 1},
    {"a plate, its rim declared long", PLATE, 2, {2, 1}, 3, {4, 5, 3}, 11, 0},
    {"a plate, its rim declared open", PLATE, 2, {3, 1}, 3, {4, 5, 3}, 11, 0},
    {"a plate, rim and hole declared each for the other", PLATE, 2, {1, 4}, 3, {0, 2, 1}, 11, 0},
    {"a plate with an island", PLATE_AND_ISLAND, 3, {4, 1, 4}, 3, {4, 5, 3}, 0, 0},
    {"a plate with an island that is paved", PLATE_AND_ISLAND, 3, {4, 1, 1}, 6, {4, 5, 3, 6, 8, 7}, 11, 2},
    {"12 at the hole before 11 at the island", PLATE_AND_ISLAND, 3, {4, 1, 1}, 3, {4, 3, 5}, 12, 1},
    {"11 at the island before 15", PLATE_AND_ISLAND, 3, {4, 1, 0}, 4, {4, 5, 3, 9}, 11, 2},
    {"one rim for two pieces", PLATE_AND_ISLAND, 3, {4, 1, 1}, 3, {4, 5, 3}, 11, 2},
    {"equal runs, the first the rim", EQUAL, 2, {4, 1}, 3, {4, 5, 3}, 0, 0},
    {"equal runs, the second declared the rim", EQUAL, 2, {1, 4}, 3, {0, 2, 1}, 11, 0},
    {"equal runs, listed otherwise", EQUAL_OTHERWISE, 2, {4, 1}, 3, {0, 2, 1}, 0, 0},
    {"equal runs, listed otherwise, the second declared the rim", EQUAL_OTHERWISE, 2, {1, 4}, 3, {4, 5, 3}, 11, 0},
    {"the inner loop the rim", INNER, 2, {1, 4}, 3, {0, 2, 1}, 0, 0},
    {"the inner loop patched", INNER, 2, {4, 1}, 3, {4, 5, 3}, 11, 0},
    {"the rim by its closing edge", CLOSING, 2, {1, 4}, 3, {4, 5, 3}, 0, 0},
    {"the rim by its closing edge, the other declared the rim", CLOSING, 2, {4, 1}, 3, {0, 2, 1}, 11, 0},
    {"the rim by differences of both signs", SIGNS, 2, {1, 4}, 3, {4, 5, 3}, 0, 0},
    {"the rim by differences of both signs, the other declared the rim", SIGNS, 2, {4, 1}, 3, {0, 2, 1}, 11, 0},
};

static void compare_lands(size_t p) {
    static struct generated_surface surface;
    for (size_t i = 0; i < sizeof lands / sizeof lands[0]; i++) {
        const struct land *l = &lands[i];
        surface.word_count = 3 * l->points;
        surface.pitch = (uint32_t)pitches[p];
        place_in_pitches(surface.words, l->at, surface.word_count, p);
        surface.corner_count = l->corner_count;
        memcpy(surface.corners, l->corners, l->corner_count * sizeof *l->corners);
        generate_lend_exactly(&surface);
        expect(l->name, &surface, (struct set){l->states, l->state_count, l->set, l->set_count}, l->number, l->place);
    }
}

/* Lists of more than 65,536, whose counts have the low digits of others. */
static void compare_long_lists(void) {
    static struct generated_surface nothing, hole;
    static uint16_t states[65536 + 3], corners[65536 + 6] = {0, 3, 2, 0, 2, 1};
    take_shape(&shapes[NOTHING], &nothing, 1);
    take_shape(&shapes[EVEN_CONE], &hole, 3);
    states[0] = 1;
    states[1] = 4;
    expect("65,536 states for nothing", &nothing, (struct set){states, 65536, corners, 0}, 9, 0);
    expect("65,536 corners for nothing", &nothing, (struct set){states, 0, corners, 65536}, 15, 0);
    expect("65,538 states", &hole, (struct set){states, 65536 + 2, corners, 6}, 9, 2);
    expect("65,538 states and as many corners", &hole, (struct set){states, 65536 + 2, corners, 65536 + 6}, 9, 2);
    expect("65,541 corners", &hole, (struct set){states, 2, corners, 65536 + 5}, 15, 6);
    expect("65,542 corners", &hole, (struct set){states, 2, corners, 65536 + 6}, 15, 6);
    states[0] = 3;
    expect("65,542 corners for a hole declared open", &hole, (struct set){states, 2, corners, 65536 + 6}, 11, 0);
}

/* ---- Refusals ---- */

/* A refusal comes whether the set is right or has a state too many and a triangle turned round. */
static void refuses(const struct generated_surface *s, size_t number, size_t place) {
    static const uint16_t states[4] = {4, 1, 4, 7}, good[3] = {8, 9, 7}, bad[6] = {8, 7, 9, 65535, 0, 0};
    expect("a refusal with a right set", s, (struct set){states, 3, good, 3}, number, place);
    expect("a refusal with a wrong set", s, (struct set){states, 4, bad, 6}, number, place);
    expect("a refusal with an empty set", s, (struct set){states, 0, good, 0}, number, place);
}

/* Numbers that are no pitch come before all else. */
static void refuse_pitches(struct generated_surface *s, uint32_t pitch) {
    static const uint32_t no_pitches[] = {0, 3, 4, 9, 11, 20, 257, 65538, 0x8000000a, 0xffffffff};
    s->word_count = 31;
    s->corner_count = 29;
    memset(s->lent, 0, sizeof s->lent);
    s->lengths_lent = 0;
    for (size_t n = 0; n < sizeof no_pitches / sizeof *no_pitches; n++) {
        s->pitch = no_pitches[n];
        refuses(s, 17, 0);
    }
    s->pitch = pitch;
}

static void refuse_counts(struct generated_surface *s) {
    s->word_count = 31;
    s->corner_count = 29;
    refuses(s, 1, 0);
    s->word_count = REFERENCE_MOST_WORDS + 3;
    refuses(s, 1, 0);
    s->word_count = 30;
    refuses(s, 2, 0);
    s->corner_count = REFERENCE_MOST_CORNERS + 3;
    refuses(s, 2, 0);
    s->corner_count = 30;
}

static void refuse_buffers(struct generated_surface *s) {
    static struct generated_surface exact;
    exact = *s;
    generate_lend_exactly(&exact);
    for (size_t b = 0; b < 2; b++) {
        s->lent[b] = exact.lent[b] - 1;
        refuses(s, 3, b + 1);
        s->lent[b]++;
    }
    /* the third is of lengths, one for each triangle; neither records nor patches are lent */
    s->lengths_lent = s->corner_count / 3 - 1;
    refuses(s, 3, 3);
    s->lengths_lent++;
}

static void refuse_triangles(struct generated_surface *s) {
    refuses(s, 4, 23);
    s->corners[23] = 3;
    refuses(s, 5, 8);
    s->corners[26] = 1;
    refuses(s, 6, 27);
    s->corner_count = 27;
}

static void refuse_coordinates(struct generated_surface *s) {
    static const size_t words[4] = {9, 10, 1, 2};
    for (size_t w = 0; w < 4; w++) {
        refuses(s, w < 2 ? 7 : 8, words[w]);
        s->words[words[w]] = 0;
    }
}

/* A surface with every fault there is, and a set likewise, which are mended one after the other: each answer comes before the next.
   At last the surface has the rim 4,5,6, its hole 8,7,9, and the island 0,1,3. */
static void compare_refusals(size_t p) {
    static struct generated_surface s;
    static const uint16_t corners[30] = {4, 5, 7, 5, 8, 7, 5, 6, 8, 6, 9, 8, 6, 4, 9, 4, 7, 9, 0, 1, 2, 0, 2, 10, 3, 2, 3, 0, 1, 3};
    static const uint16_t states[4][4] = {{0, 4, 1, 4}, {4, 4, 1, 4}, {4, 1, 1, 4}, {4, 1, 4, 4}}, set[10] = {8, 7, 9, 8, 9, 7};
    static const uint32_t kept[PITCHES] = {0x46fffeff, 0x46fffdff, 0x46fffeff, 0x46fffa00};
    for (size_t w = 0; w < 12; w++) s.words[w] = sheet_word((int32_t)w);
    place_in_pitches(s.words + 12, plate_at, 18, p);
    memcpy(s.corners, corners, sizeof corners);
    s.words[9] = 0x7f800000;
    s.words[10] = 0xffc00000;
    s.words[1] = 0x46ffff00;
    s.words[2] = 0xc6ffff00;
    refuse_pitches(&s, (uint32_t)pitches[p]);
    refuse_counts(&s);
    refuse_buffers(&s);
    refuse_triangles(&s);
    refuse_coordinates(&s);
    expect("mended to 9", &s, (struct set){states[0], 0, set, 6}, 9, 3);
    expect("still 9", &s, (struct set){states[0], 4, set, 6}, 9, 3);
    expect("mended to 11", &s, (struct set){states[0], 3, set, 6}, 11, 0);
    expect("mended to 11 at the hole", &s, (struct set){states[1], 3, set, 6}, 11, 1);
    expect("mended to 12", &s, (struct set){states[2], 3, set, 6}, 12, 1);
    expect("mended to 11 at the island", &s, (struct set){states[2], 3, set + 3, 4}, 11, 2);
    expect("mended to 15", &s, (struct set){states[3], 3, set + 3, 4}, 15, 3);
    expect("mended", &s, (struct set){states[3], 3, set + 3, 3}, 0, 0);
    /* the last that the pitch keeps, and the first that it does not */
    s.words[2] = kept[p];
    expect("the last that is kept", &s, (struct set){states[3], 3, set + 3, 3}, 0, 0);
    s.words[2] = 0x80000000 | (kept[p] + 1);
    refuses(&s, 8, 2);
    s.words[2] = 0;
}

/* ---- Several faults ---- */

#define PIECES 3
#define PIECE_POINTS 9
#define WRONG_STATES 5

/* what a loop of at most 64 edges that is no rim and has an allowed cover may not be declared */
static const uint16_t wrong_states[WRONG_STATES] = {0, 2, 3, 4, 65535};

/* A piece has the ring 0 to 4, and its diagonal 1-3 is barred. Its covers by 0 weigh 129 squares of the pitch, by 2 and by 4 255; the
   barred ones 121 and 151. Its rim is 5 to 7. */
static void add_piece(struct generated_surface *s, size_t piece, size_t p) {
    static const int16_t at[15] = {0, 0, 0, 10, 0, 0, 12, 8, 0, 5, 3, 0, 0, 9, 0};
    size_t first = PIECE_POINTS * piece;
    uint16_t ring[5];
    for (size_t r = 0; r < 5; r++) ring[r] = (uint16_t)(first + r);
    s->pitch = (uint32_t)pitches[p];
    place_in_pitches(s->words + 3 * first, at, 15, p);
    close_in(s, ring, 5, first + 5, 3);
    sheet_add_triangle(s, first + 1, first + 3, first + 8);
    sheet_add_triangle(s, first + 1, first + 8, first + 3);
    memset(s->words + 3 * (first + 8), 0, 3 * sizeof *s->words);
    s->word_count = 3 * (first + PIECE_POINTS);
    generate_lend_exactly(s);
}

/* What the loops of a piece are given to get 0, or 11, 12, 13 or 14 at the ring, or 11 at the rim: states, for 11 the wrong one, and a part
   of the set. */
static void add_part(struct generated_set *t, size_t fault, size_t piece, uint16_t wrong_state) {
    static const uint16_t parts[6][9] = {{0, 4, 3, 0, 3, 2, 0, 2, 1}, {0, 4, 3, 0, 3, 2, 0, 2, 1}, {0, 4, 1, 1, 4, 3, 1, 2, 3}, {0, 4, 1, 1, 4, 3, 1, 3, 2}, {0, 4, 1, 1, 4, 2, 2, 4, 3}, {0, 4, 3, 0, 3, 2, 0, 2, 1}};
    t->states[t->state_count++] = fault == 1 ? wrong_state : 1;
    t->states[t->state_count++] = fault == 5 ? (wrong_state == 4 ? 1 : wrong_state) : 4;
    for (size_t c = 0; c < 9; c++) t->corners[t->corner_count++] = (uint16_t)(parts[fault][c] + PIECE_POINTS * piece);
}

/* Every choice of faults for three pieces, without and with a corner left, for each wrong state: the first loop that has a fault
   decides, and 15 comes last. */
static void compare_faults(size_t p) {
    static struct generated_surface surface;
    static struct generated_set set;
    surface.corner_count = 0;
    for (size_t piece = 0; piece < PIECES; piece++) add_piece(&surface, piece, p);
    for (size_t choice = 0; choice < 2 * 216 * WRONG_STATES; choice++) {
        const size_t faults[PIECES] = {choice % 6, choice / 6 % 6, choice / 36 % 6};
        size_t first = 0, left = choice / 216 % 2;
        set.state_count = set.corner_count = 0;
        for (size_t piece = 0; piece < PIECES; piece++) add_part(&set, faults[piece], piece, wrong_states[choice / 432]);
        set.corner_count += left;
        while (first < PIECES && faults[first] == 0) first++;
        if (first == PIECES) expect("no fault but 15", &surface, whole(&set), left == 0 ? 0 : 15, left * 9 * PIECES);
        else if (faults[first] == 5) expect("a fault at a rim", &surface, whole(&set), 11, 2 * first + 1);
        else expect("several faults", &surface, whole(&set), 10 + faults[first], 2 * first);
    }
}

/* ---- Every short set ---- */

static size_t got[HIGHEST + 1];

static void take_set(const struct generated_surface *s, const uint16_t *corners, size_t count) {
    static const uint16_t states[2] = {1, 4};
    if (!agree(s, (struct set){states, 2, corners, count})) count_wrong("one of all short sets");
    got[said.number]++;
}

/* Of all short sets so many are covers that pass, are barred, or are too heavy; all others are no cover. */
static void got_all(size_t all, size_t passed, size_t barred, size_t heavy) {
    if (got[0] != passed || got[13] != barred || got[14] != heavy || got[12] != all - passed - barred - heavy) count_wrong("all short sets");
    memset(got, 0, sizeof got);
}

/* Every six of the corners 0 to 4, for the ring 0,1,2,3. A cover stands in two orders, each triangle begun at three corners. */
static void compare_sixes(size_t shape, size_t p, size_t passed, size_t barred, size_t heavy) {
    static struct generated_surface surface;
    take_shape(&shapes[shape], &surface, p);
    for (size_t list = 0; list < 15625; list++) {
        uint16_t corners[6];
        size_t digits = list;
        for (size_t c = 0; c < 6; c++, digits /= 5) corners[c] = (uint16_t)(digits % 5);
        take_set(&surface, corners, 6);
    }
    got_all(15625, 18 * passed, 18 * barred, 18 * heavy);
}

/* Every three of the twenty triangles on five vertices, for the ring of a piece. A cover stands in six orders. */
static void compare_threes(size_t p) {
    static struct generated_surface surface;
    uint16_t triangles[20][3], corners[9];
    size_t count = 0;
    for (uint16_t a = 0; a < 5; a++)
        for (uint16_t b = (uint16_t)(a + 1); b < 5; b++)
            for (uint16_t c = (uint16_t)(a + 1); c < 5; c++)
                if (b != c) memcpy(triangles[count++], (uint16_t[3]){a, b, c}, sizeof triangles[0]);
    surface.corner_count = 0;
    add_piece(&surface, 0, p);
    for (size_t list = 0; list < 8000; list++) {
        const size_t three[3] = {list % 20, list / 20 % 20, list / 400};
        for (size_t t = 0; t < 3; t++) memcpy(corners + 3 * t, triangles[three[t]], sizeof triangles[0]);
        take_set(&surface, corners, 9);
    }
    got_all(8000, 6 * 1, 6 * 2, 6 * 2);
}

/* ---- Holes and rims of every length ---- */

/* Any cover of the stretch i..k of the ring 0,1,2,... */
static void lay_any(struct generator *generator, struct generated_set *t, size_t i, size_t k) {
    if (k == i + 1) return;
    size_t m = i + 1 + generate_below(generator, k - i - 1);
    const uint16_t triangle[3] = {(uint16_t)i, (uint16_t)k, (uint16_t)m};
    memcpy(t->corners + t->corner_count, triangle, sizeof triangle);
    t->corner_count += 3;
    lay_any(generator, t, i, m);
    lay_any(generator, t, m, k);
}

/* A ring of n edges, all its points at 0,0,0, that is closed in, or is the foot of a cone and so the coast of an island; then a hole of
   three in a rim of n. */
static void make_hole(struct generated_surface *s, size_t n, int island) {
    uint16_t ring[REFERENCE_LONGEST_LOOP + 1];
    const uint16_t apart[3] = {(uint16_t)(n + 3), (uint16_t)(n + 4), (uint16_t)(n + 5)};
    for (size_t r = 0; r < n; r++) ring[r] = (uint16_t)r;
    s->pitch = (uint32_t)pitches[n % PITCHES];
    s->corner_count = 0;
    memset(s->words, 0, sizeof s->words);
    if (island) sheet_add_cone(s, ring, n, (uint16_t)n);
    else close_in(s, ring, n, n, 3);
    close_in(s, apart, 3, n + 6, n);
}

/* The ring of n declared patched: a cover of it in any order, and the triangle of the hole apart. */
static void make_hole_set(struct generator *generator, struct generated_set *t, size_t n) {
    const uint16_t apart[3] = {(uint16_t)(n + 3), (uint16_t)(n + 5), (uint16_t)(n + 4)}, states[4] = {1, 4, 1, 4};
    t->state_count = 4;
    memcpy(t->states, states, sizeof states);
    t->corner_count = 0;
    lay_any(generator, t, 0, n - 1);
    generate_shuffle_triangles(generator, t->corners, t->corner_count);
    memcpy(t->corners + t->corner_count, apart, sizeof apart);
    t->corner_count += 3;
}

/* One triangle of the hole's turned round, one another's copy, and a corner that the ring has not. */
static void spoil_hole(struct generator *generator, const struct generated_surface *s, const struct generated_set *t, size_t n) {
    static struct generated_set spoiled;
    const uint16_t strange[6] = {(uint16_t)n, (uint16_t)(n + 3), (uint16_t)(n + 6), 1023, 1024, 65535};
    size_t own = 3 * generate_below(generator, n - 2), next = (own + 3) % (3 * (n - 2));
    spoiled = *t;
    spoiled.corners[own] = t->corners[own + 1];
    spoiled.corners[own + 1] = t->corners[own];
    expect("a hole's triangle turned round", s, whole(&spoiled), 12, 0);
    memcpy(spoiled.corners + own, t->corners + next, 3 * sizeof *t->corners);
    expect("a hole's triangle twice", s, whole(&spoiled), n == 3 ? 0 : 12, 0);
    memcpy(spoiled.corners, t->corners, sizeof t->corners);
    for (size_t k = 0; k < 6; k++) {
        size_t corner = own + generate_below(generator, 3);
        spoiled.corners[corner] = strange[k];
        expect("a corner that is not on the hole's ring", s, whole(&spoiled), 12, 0);
        spoiled.corners[corner] = t->corners[corner];
    }
}

/* what a rim may not be declared */
static const uint16_t no_rim[7] = {0, 1, 2, 3, 5, 9, 65535};

static void compare_hole(struct generator *generator, size_t n) {
    static struct generated_surface surface;
    static struct generated_set set;
    size_t own = 3 * (n - 2);
    make_hole(&surface, n, 0);
    for (size_t cover = 0; cover < 6; cover++) {
        make_hole_set(generator, &set, n);
        expect("a hole's cover", &surface, whole(&set), 0, 0);
        spoil_hole(generator, &surface, &set, n);
    }
    expect("a hole without corners", &surface, (struct set){set.states, 4, set.corners, 0}, 12, 0);
    expect("a hole a corner too short", &surface, (struct set){set.states, 4, set.corners, own - 1}, 12, 0);
    expect("a hole alone", &surface, (struct set){set.states, 4, set.corners, own}, 12, 2);
    expect("a hole and a corner too few", &surface, (struct set){set.states, 4, set.corners, own + 2}, 12, 2);
    expect("a hole and a corner too many", &surface, (struct set){set.states, 4, set.corners, own + 4}, 15, own + 3);
    for (size_t w = 0; w < 7; w++) {
        set.states[3] = no_rim[w];
        expect("a rim of any length not declared 4", &surface, whole(&set), 11, 3);
    }
    set.states[3] = 4;
    for (size_t w = 0; w < WRONG_STATES; w++) {
        set.states[0] = wrong_states[w];
        expect("a hole not declared patched", &surface, (struct set){set.states, 4, set.corners + own, 3}, 11, 0);
    }
}

static void compare_long_hole(struct generator *generator) {
    static struct generated_surface surface;
    static struct generated_set set;
    size_t n = REFERENCE_LONGEST_LOOP + 1, own = 3 * (n - 2);
    make_hole(&surface, n, 0);
    make_hole_set(generator, &set, n);
    expect("a long hole patched", &surface, whole(&set), 11, 0);
    expect("a long hole declared patched", &surface, (struct set){set.states, 4, set.corners, 0}, 11, 0);
    set.states[0] = 3;
    expect("a long hole declared open", &surface, (struct set){set.states, 4, set.corners + own, 3}, 11, 0);
    set.states[0] = 4;
    expect("a long hole declared a rim", &surface, (struct set){set.states, 4, set.corners + own, 3}, 11, 0);
    set.states[0] = 2;
    expect("a long hole, and a long rim", &surface, (struct set){set.states, 4, set.corners + own, 3}, 0, 0);
    expect("a long hole with a cover", &surface, whole(&set), 12, 2);
    expect("a long hole and a corner too many", &surface, (struct set){set.states, 4, set.corners + own, 4}, 15, 3);
    set.states[2] = 2;
    expect("both holes declared long", &surface, (struct set){set.states, 4, set.corners, 0}, 11, 2);
    set.states[2] = 1;
    for (size_t w = 0; w < 7; w++) {
        set.states[3] = no_rim[w];
        expect("a long rim not declared 4", &surface, (struct set){set.states, 4, set.corners + own, 3}, 11, 3);
    }
}

/* An island's coast of n edges takes no corners, and is 4 at any length. */
static void compare_island(struct generator *generator, size_t n) {
    static struct generated_surface surface;
    static struct generated_set set;
    uint16_t states[3] = {4, 1, 4};
    size_t own = 3 * (n - 2);
    make_hole(&surface, n, 1);
    make_hole_set(generator, &set, n);
    expect("an island", &surface, (struct set){states, 3, set.corners + own, 3}, 0, 0);
    expect("an island with a cover", &surface, (struct set){states, 3, set.corners, own + 3}, 12, 1);
    expect("an island and a corner too many", &surface, (struct set){states, 3, set.corners + own, 4}, 15, 3);
    for (size_t w = 0; w < 7; w++) {
        states[0] = no_rim[w];
        expect("an island not declared 4", &surface, (struct set){states, 3, set.corners + own, 3}, 11, 0);
        expect("an island not declared 4, with a cover", &surface, (struct set){states, 3, set.corners, own + 3}, 11, 0);
    }
}

static void compare_lengths(uint64_t seed) {
    struct generator generator;
    generate_start(&generator, seed);
    for (size_t n = 3; n <= REFERENCE_LONGEST_LOOP; n++) compare_hole(&generator, n);
    for (size_t n = 3; n <= REFERENCE_LONGEST_LOOP + 1; n++) compare_island(&generator, n);
    compare_long_hole(&generator);
}

/* ---- Full sheets ---- */

/* how many loops a sheet has, and where each one's part of the set begins */
static size_t loops, begins[REFERENCE_MOST_TRIANGLES + 1];

/* The patcher's own set. */
static void take_own(const struct generated_surface *s, struct generated_set *t) {
    static int32_t grid[REFERENCE_MOST_WORDS];
    static uint16_t rings[REFERENCE_MOST_CORNERS];
    static uint64_t records[REFERENCE_MOST_RECORDS];
    size_t place, vertices;
    wazelpunt_patch(s->words, s->word_count, s->corners, s->corner_count, grid, s->lent[0], rings, s->lent[1], records, s->lent[2], t->corners, s->lent[3], &place, &loops, &vertices, &t->corner_count, s->pitch);
    t->state_count = loops;
    for (size_t l = 0; l < loops; l++) {
        struct wazelpunt_record record = wazelpunt_record_at(records, REFERENCE_MOST_RECORDS, l);
        t->states[l] = (uint16_t)record.state;
        begins[l + 1] = begins[l] + (record.state == 1 ? 3 * (size_t)(record.length - 2) : 0);
    }
}

/* The set is wrong at a loop that is patched: declared open, declared a rim, one triangle turned round, and the set's end within it. */
static void spoil_loop(const char *name, const struct generated_surface *s, struct generated_set *t, size_t loop) {
    uint16_t *corners = t->corners + begins[loop], first = corners[0];
    t->states[loop] = 3;
    expect(name, s, whole(t), 11, loop);
    t->states[loop] = 4;
    expect(name, s, whole(t), 11, loop);
    t->states[loop] = 1;
    expect(name, s, (struct set){t->states, loops, t->corners, begins[loop + 1] - 1}, 12, loop);
    corners[0] = corners[2];
    corners[2] = first;
    expect(name, s, whole(t), 12, loop);
}

/* Any loop that is declared in that state, or the number of loops where none is. */
static size_t any_in_state(struct generator *generator, const struct generated_set *t, uint16_t state) {
    size_t first = generate_below(generator, loops + 1);
    for (size_t l = 0; l < loops; l++)
        if (t->states[(first + l) % loops] == state) return (first + l) % loops;
    return loops;
}

/* The patcher's own set passes; in another order a corner too many is still its first fault; then a rim is declared patched, and one
   loop has faults. */
static void compare_sheet(const char *name, struct generator *generator, const struct generated_surface *s) {
    static struct generated_set t;
    take_own(s, &t);
    expect(name, s, whole(&t), 0, 0);
    expect(name, s, (struct set){t.states, loops + 1, t.corners, t.corner_count}, 9, loops);
    for (size_t l = 0; l < loops; l++) generate_shuffle_triangles(generator, t.corners + begins[l], begins[l + 1] - begins[l]);
    expect(name, s, (struct set){t.states, loops, t.corners, t.corner_count + 1}, 15, t.corner_count);
    size_t rim = any_in_state(generator, &t, 4), patched = any_in_state(generator, &t, 1);
    if (rim < loops) {
        t.states[rim] = 1;
        expect(name, s, whole(&t), 11, rim);
        t.states[rim] = 4;
    }
    if (patched < loops) spoil_loop(name, s, &t, patched);
}

static size_t compare_sheets(uint64_t seed) {
    static struct generated_surface surface;
    struct generator generator;
    const char *name;
    size_t sheets = 0;
    generate_start(&generator, seed);
    for (; (name = sheet_make(&generator, sheets, &surface, (uint32_t)pitches[sheets % PITCHES])) != 0; sheets++) compare_sheet(name, &generator, &surface);
    return sheets;
}

/* Plates with two holes of lengths on either side of each size that a table may have. */
static void compare_pairs(uint64_t seed) {
    static const size_t lengths[] = {3, 4, 5, 15, 16, 17, 63, 64, 65};
    static struct generated_surface surface;
    struct generator generator;
    size_t many = sizeof lengths / sizeof *lengths;
    generate_start(&generator, seed);
    for (size_t pair = 0; pair < 2 * many * many; pair++) {
        sheet_make_pair(&generator, &surface, lengths[pair / 2 / many], lengths[pair / 2 % many], pair % 2 == 1, (uint32_t)pitches[(pair / 2 + pair / 2 / many) % PITCHES]);
        compare_sheet("two holes", &generator, &surface);
    }
}

/* ---- Made sets ---- */

#define STATES 6

/* by answers; those of short buffers by their places; by pitches those too heavy; by the states that were found right; and, each by the state
   it had, the rims and the other loops that were not */
static size_t by_answer[HIGHEST + 1], by_buffer[4], heavy[PITCHES], at_first[HIGHEST + 1], patched[REFERENCE_LONGEST_LOOP + 1], right[STATES], rims_wrong[STATES], others_wrong[STATES];

/* Counts a loop that got 11: by its state, the last standing for all that are not given, and whether it is a rim. */
static void meet_wrong_state(const struct generated_surface *s, const struct generated_set *t) {
    static unsigned char rims[REFERENCE_MOST_TRIANGLES];
    size_t state = t->states[due.place] < STATES ? t->states[due.place] : STATES - 1;
    reference_rims(theirs.grid + GUARD, s->corners, s->corner_count, theirs.rings + GUARD, theirs.lengths + GUARD, due.loops, rims);
    (rims[due.place] ? rims_wrong : others_wrong)[state]++;
}

/* Counts the answer, at which pitch a cover was too heavy, whether a verdict is of the first loop, by their states the loops that are found
   right, and by their lengths those that are found patched. */
static void meet(const struct generated_surface *s, const struct generated_set *t) {
    for (size_t p = 0; p < PITCHES; p++) heavy[p] += due.number == 14 && s->pitch == (uint32_t)pitches[p];
    size_t found = due.number >= 11 && due.number <= 14 ? due.place : due.loops;
    by_answer[due.number]++;
    by_buffer[due.number == 3 ? due.place : 0]++;
    at_first[due.number] += due.place == 0;
    for (size_t l = 0; l < found; l++) {
        right[t->states[l]]++;
        if (t->states[l] == 1) patched[theirs.lengths[GUARD + l]]++;
    }
    if (due.number == 11) meet_wrong_state(s, t);
}

/* Whether every answer was met, every buffer short, 14 at every pitch, 11 to 14 at the first loop and at later ones, every state right and wrong, on rims and
   on others, and loops of every length that are found patched. */
static void met_all(void) {
    size_t missing = (by_answer[0] == 0) + (by_answer[15] == 0) + (by_answer[17] == 0);
    for (size_t b = 1; b <= 3; b++) missing += by_buffer[b] == 0;
    for (size_t p = 0; p < PITCHES; p++) missing += heavy[p] == 0;
    for (size_t n = 1; n <= 9; n++) missing += by_answer[n] == 0;
    for (size_t n = 1; n <= 4; n++) missing += right[n] == 0;
    for (size_t n = 0; n < STATES; n++) missing += (n != 4 && rims_wrong[n] == 0) + (n != 1 && others_wrong[n] == 0);
    for (size_t n = 11; n <= 14; n++) missing += (at_first[n] == 0) + (at_first[n] == by_answer[n]);
    for (size_t n = 3; n <= REFERENCE_LONGEST_LOOP; n++) missing += patched[n] == 0;
    if (missing > 0) printf("%zu answers or lengths were not met\n", missing);
    wrong += missing;
}

static void compare_made(size_t many, uint64_t seed) {
    static struct generated_surface surface;
    static struct generated_set set;
    for (uint64_t own = seed; own < seed + many; own++) {
        struct generator generator;
        generate_start(&generator, own);
        if (own % 16 == 0) fill(&before, sizeof before, &generator);
        if (own % 16 == 7) sheet_make_cones(&generator, &surface);
        else if (own % 4 == 1) generate_surface(&generator, &surface);
        else generate_sound_surface(&generator, &surface);
        generate_set(&generator, &surface, &set);
        if (agree(&surface, whole(&set))) meet(&surface, &set);
        else if (wrong++ < 10) printf("set of seed %" PRIu64 "\n", own);
    }
}

int main(int count, char **arguments) {
    size_t many = count > 1 ? strtoull(arguments[1], 0, 10) : 8000;
    uint64_t seed = count > 2 ? strtoull(arguments[2], 0, 10) : 20261115;
    struct generator generator;
    generate_start(&generator, seed);
    fill(&before, sizeof before, &generator);
    compare_long_lists();
    for (size_t p = 0; p < PITCHES; p++) {
        compare_examples(p);
        compare_lands(p);
        compare_refusals(p);
        compare_faults(p);
    }
    compare_sixes(STRIP, 3, 1, 1, 0);
    compare_sixes(CONE, 0, 1, 0, 1);
    compare_sixes(EVEN_CONE, 2, 2, 0, 0);
    compare_threes(1);
    compare_lengths(seed);
    compare_pairs(seed);
    size_t sheets = compare_sheets(seed), named = cases;
    compare_made(many, seed);
    if (count < 2) met_all();
    printf("sets: %zu examples, %zu sheets, %zu sets of a known answer or all short, %zu made from seed %" PRIu64 ", %zu wrong; made by answer:", sizeof examples / sizeof examples[0] + sizeof lands / sizeof lands[0], sheets, named, many, seed, wrong);
    for (int n = 0; n <= HIGHEST; n++)
        if (n != 10 && n != 16) printf(" %d: %zu", n, by_answer[n]);
    printf("; 14 by pitch:");
    for (size_t p = 0; p < PITCHES; p++) printf(" %" PRId32 ": %zu", pitches[p], heavy[p]);
    printf("; at the first loop:");
    for (int n = 11; n <= 14; n++) printf(" %d: %zu", n, at_first[n]);
    printf("; 11 by state, at rims:");
    for (int n = 0; n < STATES; n++) printf(" %zu", rims_wrong[n]);
    printf(", at others:");
    for (int n = 0; n < STATES; n++) printf(" %zu", others_wrong[n]);
    printf("; right:");
    for (int n = 1; n <= 4; n++) printf(" %d: %zu", n, right[n]);
    printf("\n");
    return wrong != 0;
}
