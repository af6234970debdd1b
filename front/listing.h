/* The loops of a sheet, as wazelpunt_patch leaves them and as a printed listing has them, and what is said of them. */
#ifndef LISTING_H
#define LISTING_H

#include <stdbool.h>

#include "output.h"
#include "wazelpunt.h"

struct answer {
    uint32_t number;
    size_t place;
};

struct loops {
    size_t count;
    uint16_t lengths[WAZELPUNT_TRIANGLES];
    uint16_t states[WAZELPUNT_TRIANGLES];
    uint64_t weights[WAZELPUNT_TRIANGLES];
    uint16_t firsts[WAZELPUNT_TRIANGLES];    /* the half-edge that each is listed from, which runs from its first vertex to its second */
    uint16_t pieces[WAZELPUNT_TRIANGLES];    /* the piece that each lies in */
    uint64_t runs[WAZELPUNT_TRIANGLES];      /* how long each is on the grid, in plate units */
    uint16_t rings[WAZELPUNT_CORNERS];       /* loop after loop */
    size_t vertices;
    uint16_t patches[WAZELPUNT_SET_CORNERS]; /* the corners of all triangles laid, loop after loop */
    size_t laid;
};

/* Enters the record of a loop. */
void record_enter(struct loops *loops, size_t loop, const struct wazelpunt_record *record);

/* Takes the answer out of printed bytes; false if they do not begin with an answer's line. */
bool answer_take(const uint8_t *bytes, size_t count, struct answer *answer);

/* Takes a printed listing apart; false if the bytes are none. After an answer that is not 0 there are no loops. */
bool listing_take(const uint8_t *bytes, size_t count, struct answer *answer, struct loops *loops);

/* What a state is called: `rim`; `no state` where it is none. */
const char *state_name(uint16_t state);

/* How many of so many states are this one. */
size_t count_state(const uint16_t *states, size_t count, uint16_t state);

/* How many triangles cover a loop of a length in a state. */
size_t cover_of(size_t length, uint16_t state);

/* What is said of a sheet without loops. */
const char *no_loops(bool has_triangles);

/* Whether a loop in a state stays open though it is no rim, and whether some loop does. */
bool stays_open(uint16_t state);
bool loops_stay_open(const struct loops *loops);

/* Adds what became of the loops: `2 loops: 1 rim; 1 closed with 1 triangle`; and of that what is said of those that stay open, behind
   `before`, if there are some. */
void loops_add(struct phrase *phrase, const struct loops *loops, bool has_triangles);
void loops_add_open(struct phrase *phrase, const char *before, const struct loops *loops);

/* The vertices of a loop. */
const uint16_t *ring_of(const struct loops *loops, size_t loop);

/* Adds how long a loop is, and in the second also where it begins: `: 3 edges, run 40 plate units; begins with half-edge 4 of triangle 1,
   from point 4 to point 3`. A triangle of the sheet is called `triangle` or `facet`. */
void loop_add_size(struct phrase *phrase, const struct loops *loops, size_t loop, const char *before);
void loop_add(struct phrase *phrase, const struct loops *loops, size_t loop, const char *triangle);

/* Says a line of each loop, or only of those that loops_add names, in their order: in which piece it lies, and what loop_add adds. */
void loops_say(const struct loops *loops, bool all, const char *triangle);

#endif
