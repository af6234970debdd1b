/* Compares wazelpunt_patch with the plain reference: the answer, the counts, and every byte of the four lent buffers with what lies
   before and behind them. It takes the scope's examples with what is said of them, as islands and as holes, rims and holes of every
   length, full sheets, and made surfaces, sound and damaged, at every pitch.
   patches COUNT SEED: that many made surfaces, from that seed on. */
#include <inttypes.h>
#include <stdint.h>
#include <stdio.h>
#include <stdlib.h>
#include <string.h>

#include "../reference/generate.h"
#include "../reference/guarded.h"
#include "../reference/reference.h"
#include "../reference/sheets.h"
#include "wazelpunt.h"

#define RECORD_ROOM 7296
#define PATCH_ROOM 9728

/* the lent buffers 1 to 4, each between guards */
struct lent {
    int32_t grid[GUARDED(ROOM)];
    uint16_t rings[GUARDED(ROOM)];
    uint64_t records[GUARDED(RECORD_ROOM)];
    uint16_t patches[GUARDED(PATCH_ROOM)];
};

static struct lent before, ours, theirs;
static struct reference_patch_answer said, due;

/* The record of a loop, as it was left, and as it is due. */
static struct wazelpunt_record left(size_t loop) { return wazelpunt_record_at(ours.records + GUARD, RECORD_ROOM, loop); }
static size_t kept(size_t loop, size_t number) { return (size_t)reference_kept(theirs.records + GUARD, loop, number); }

/* ---- What was met ---- */

#define HIGHEST 17
#define PITCHES 4

/* the pitches, and how far a coordinate may be moved at each that stays at its multiple */
static const int32_t pitches[PITCHES] = {1, 2, 5, 10}, within[PITCHES] = {0, 0, 2, 4};

/* those of short buffers by their places, and of short records those that would do for six numbers a loop; loops in later pieces, those
   listed from a smaller half-edge than the one before, and those listed from another than their smallest */
static size_t by_buffer[GENERATE_BUFFERS + 1], sixes, later_pieces, turning_back, not_smallest;
static size_t by_answer[HIGHEST + 1], by_state[5], weighed[PITCHES], long_rims, patched[REFERENCE_LONGEST_LOOP + 1], barred[REFERENCE_LONGEST_LOOP + 1], rims[REFERENCE_LONGEST_LOOP + 1];
static unsigned char laid_between[REFERENCE_MOST_POINTS][REFERENCE_MOST_POINTS];

static void mark(const uint16_t *patch, size_t count, unsigned char value) {
    for (size_t c = 0; c < count; c++) {
        uint16_t a = patch[c], b = patch[c % 3 == 2 ? c - 2 : c + 1];
        laid_between[a][b] = laid_between[b][a] = value;
    }
}

/* Whether a patch laid before joins the ends of a diagonal. */
static int is_barred_by_a_patch(const uint16_t *ring, size_t length) {
    for (size_t a = 0; a < length; a++)
        for (size_t b = a + 2; b < length; b++)
            if (laid_between[ring[a]][ring[b]] && (a != 0 || b != length - 1)) return 1;
    return 0;
}

/* The smallest half-edge of a ring. */
static size_t smallest_of(const struct generated_surface *s, const uint16_t *ring, size_t length) {
    size_t smallest = REFERENCE_NO_EDGE;
    for (size_t v = 0; v < length; v++) {
        size_t h = reference_find_edge(s->corners, s->corner_count, ring[v], ring[(v + 1) % length]);
        if (h < smallest) smallest = h;
    }
    return smallest;
}

/* Counts the short buffers, and by where they come from the loops. */
static void meet_records(const struct generated_surface *s) {
    const uint16_t *ring = theirs.rings + GUARD;
    by_buffer[due.number == 3 ? due.place : 0]++;
    sixes += due.number == 3 && due.place == 3 && s->lent[2] == 2 * s->corner_count;
    for (size_t l = 0; l < due.loops; l++) {
        later_pieces += kept(l, REFERENCE_PIECE) > 0;
        turning_back += l > 0 && kept(l, REFERENCE_FIRST) < kept(l - 1, REFERENCE_FIRST);
        not_smallest += kept(l, REFERENCE_FIRST) != smallest_of(s, ring, kept(l, REFERENCE_LENGTH));
        ring += kept(l, REFERENCE_LENGTH);
    }
}

/* Counts the answer and the loops by their states, by the pitch those that are patched with a weight, and by their lengths the rims, those
   that are patched and those that a patch bars. */
static void meet(uint32_t pitch) {
    const uint16_t *ring = theirs.rings + GUARD, *patches = theirs.patches + GUARD, *patch = patches;
    by_answer[due.number]++;
    for (size_t l = 0; l < due.loops; l++) {
        size_t length = kept(l, REFERENCE_LENGTH), state = kept(l, REFERENCE_STATE);
        by_state[state]++;
        for (size_t p = 0; p < PITCHES; p++) weighed[p] += pitch == (uint32_t)pitches[p] && kept(l, REFERENCE_WEIGHT) > 0;
        if (state == 4 && length > REFERENCE_LONGEST_LOOP) long_rims++;
        if (state == 4 && length <= REFERENCE_LONGEST_LOOP) rims[length]++;
        if (state == 1 || state == 3) barred[length] += is_barred_by_a_patch(ring, length);
        if (state == 1) {
            patched[length]++;
            mark(patch, 3 * (length - 2), 1);
            patch += 3 * (length - 2);
        }
        ring += length;
    }
    mark(patches, due.corners, 0);
}

/* Whether every answer and every state was met, every buffer short, loops from everywhere, holes with a weight at every pitch, rims of every
   length, and loops of every length that are patched, and that a patch bars. */
static int met_all(void) {
    size_t missing = (patched[3] == 0) + (long_rims == 0) + (by_answer[17] == 0);
    for (size_t b = 1; b <= GENERATE_BUFFERS; b++) missing += by_buffer[b] == 0;
    missing += (sixes == 0) + (later_pieces < 200) + (turning_back < 200) + (not_smallest < 200);
    for (size_t p = 0; p < PITCHES; p++) missing += weighed[p] < 200;
    for (size_t n = 0; n <= 8; n++) missing += by_answer[n] == 0;
    for (size_t s = 1; s <= 4; s++) missing += by_state[s] < 20;
    for (size_t n = 3; n <= REFERENCE_LONGEST_LOOP; n++) missing += rims[n] == 0;
    for (size_t n = 4; n <= REFERENCE_LONGEST_LOOP; n++) missing += (patched[n] == 0) + (barred[n] == 0);
    if (missing > 0) printf("%zu answers, states or lengths were not met\n", missing);
    return missing == 0;
}

/* ---- Comparing ---- */

static int same_answer(void) {
    if (said.number == due.number && said.place == due.place && said.loops == due.loops && said.vertices == due.vertices && said.corners == due.corners) return 1;
    printf("answered %zu, %zu; %zu, %zu, %zu; due %zu, %zu; %zu, %zu, %zu\n", said.number, said.place, said.loops, said.vertices, said.corners, due.number, due.place, due.loops, due.vertices, due.corners);
    return 0;
}

/* Whether a buffer of ours is as it was, but for what is used of it, which begins behind its guard. */
#define STAYS(buffer, used) (memcmp(ours.buffer, before.buffer, GUARD * sizeof *ours.buffer) == 0 && memcmp(ours.buffer + GUARD + (used), before.buffer + GUARD + (used), sizeof ours.buffer - (GUARD + (used)) * sizeof *ours.buffer) == 0)

/* Whether what lies before and behind the answer is as it was: behind the last record of a loop too. */
static int rest_stays(size_t words) {
    return STAYS(grid, said.number == 0 ? words : 0) && STAYS(rings, said.vertices) && STAYS(records, 7 * said.loops) && STAYS(patches, said.corners);
}

static int agree(const struct generated_surface *s) {
    const size_t *lent = s->lent;
    ours = theirs = before;
    said.number = wazelpunt_patch(s->words, s->word_count, s->corners, s->corner_count, ours.grid + GUARD, lent[0], ours.rings + GUARD, lent[1], ours.records + GUARD, lent[2], ours.patches + GUARD, lent[3], &said.place, &said.loops, &said.vertices, &said.corners, s->pitch);
    reference_patch(s->words, s->word_count, s->corners, s->corner_count, theirs.grid + GUARD, lent[0], theirs.rings + GUARD, lent[1], theirs.records + GUARD, lent[2], theirs.patches + GUARD, lent[3], s->pitch, &due);
    if (!same_answer()) return 0;
    if (!rest_stays(s->word_count)) {
        printf("what lies around an answer is not as it was, answer %zu\n", due.number);
        return 0;
    }
    if (memcmp(&ours, &theirs, sizeof ours) != 0) {
        printf("a buffer differs, answer %zu\n", due.number);
        return 0;
    }
    return 1;
}

/* ---- Making ---- */

static size_t compare_made(size_t many, uint64_t seed) {
    static struct generated_surface surface;
    size_t wrong = 0;
    for (uint64_t own = seed; own < seed + many; own++) {
        struct generator generator;
        generate_start(&generator, own);
        if (own % 8 == 7) sheet_make_cones(&generator, &surface);
        else if (own % 2 == 0) generate_sound_surface(&generator, &surface);
        else generate_surface(&generator, &surface);
        if (own % 16 == 0) fill(&before, sizeof before, &generator);
        if (!agree(&surface) && wrong++ < 10) printf("surface of seed %" PRIu64 "\n", own);
        meet(surface.pitch);
        meet_records(&surface);
    }
    return wrong;
}

/* ---- Full sheets ---- */

/* All sheets at pitch 1, or each at one of the coarse pitches. */
static size_t compare_sheets(uint64_t seed, size_t *sheets, int coarse) {
    static struct generated_surface surface;
    struct generator generator;
    const char *name;
    size_t wrong = 0;
    generate_start(&generator, seed);
    fill(&before, sizeof before, &generator);
    for (*sheets = 0; (name = sheet_make(&generator, *sheets, &surface, coarse ? (uint32_t)pitches[1 + *sheets % 3] : 1)) != 0; ++*sheets) {
        if (!agree(&surface) || due.number != 0) {
            printf("sheet \"%s\" at pitch %" PRIu32 ", answer %zu\n", name, surface.pitch, due.number);
            wrong++;
        }
    }
    return wrong;
}

/* ---- Examples ---- */

/* An example with what is said of it: the rings one after the other, and for each loop its length, state, weight, first half-edge, piece and
   run. */
struct example {
    const char *name;
    size_t points;
    int16_t at[33];
    size_t corner_count;
    uint16_t corners[36];
    size_t loops;
    uint16_t rings[24], lengths[8], states[8];
    uint64_t weights[8], firsts[8], pieces[8], runs[8];
    size_t laid;
    uint16_t patches[24];
};

/* Most of the scope's surfaces have loops that are each alone in their piece. */
static const struct example examples[] = {
    {"no points", 0, {0}, 0, {0}, 0, {0}, {0}, {0}, {0}, {0}, {0}, {0}, 0, {0}},
    {"no triangles", 3, {0}, 0, {0}, 0, {0}, {0}, {0}, {0}, {0}, {0}, {0}, 0, {0}},
    {"the listing's triangle", 3, {0, 0, 0, 1, 0, 0, 0, 1, 0}, 3, {0, 1, 2}, 1, {0, 1, 2}, {3}, {4}, {0}, {0}, {0}, {4}, 0, {0}},
    {"bow-tie", 5, {0}, 6, {0, 1, 2, 0, 3, 4}, 2, {0, 1, 2, 0, 3, 4}, {3, 3}, {4, 4}, {0, 0}, {0, 3}, {0, 1}, {0, 0}, 0, {0}},
    {"pinched strip, all its points in one place", 5, {0}, 12, {0, 1, 2, 2, 1, 3, 2, 3, 4, 4, 3, 0}, 2, {0, 1, 3, 0, 4, 2}, {3, 3}, {4, 1}, {0, 0}, {0, 11}, {0, 0}, {0, 0}, 3, {0, 2, 4}},
    {"pinched strip", 5, {0, 0, 0, 10, 0, 0, 10, 10, 0, 0, 10, 4, 4, 4, 9}, 12, {0, 1, 2, 2, 1, 3, 2, 3, 4, 4, 3, 0}, 2, {0, 1, 3, 0, 4, 2}, {3, 3}, {1, 4}, {140, 0}, {0, 11}, {0, 0}, {48, 58}, 3, {0, 3, 1}},
    {"a fold", 4, {0, 0, 0, 10, 0, 0, 10, 10, 0, 0, 10, 4}, 6, {0, 1, 2, 0, 2, 3}, 1, {0, 1, 2, 3}, {4}, {4}, {0}, {0}, {0}, {48}, 0, {0}},
    {"cone", 5, {0, 0, 0, 10, 0, 0, 3, 3, 0, 0, 10, 0, 4, 4, 9}, 12, {0, 1, 4, 1, 2, 4, 2, 3, 4, 3, 0, 4}, 1, {0, 1, 2, 3}, {4}, {4}, {0}, {0}, {0}, {40}, 0, {0}},
    {"a fold and a triangle across it", 5, {0, 0, 0, 10, 0, 0, 10, 10, 0, 0, 10, 4, 4, 4, 9}, 9, {0, 1, 2, 0, 2, 3, 1, 3, 4}, 2, {0, 1, 2, 3, 1, 3, 4}, {4, 3}, {4, 4}, {0}, {0, 6}, {0, 1}, {48, 58}, 0, {0}},
    {"tetrahedron", 4, {0}, 12, {0, 1, 2, 0, 2, 3, 0, 3, 1, 1, 3, 2}, 0, {0}, {0}, {0}, {0}, {0}, {0}, {0}, 0, {0}},
    {"a plate with a hole", 6, {0, 0, 0, 30, 0, 0, 0, 30, 0, 5, 5, 0, 15, 5, 0, 5, 15, 0}, 18, {0, 1, 3, 1, 4, 3, 1, 2, 4, 2, 5, 4, 2, 0, 5, 0, 3, 5}, 2, {0, 1, 2, 4, 3, 5}, {3, 3}, {4, 1}, {0, 100}, {0, 4}, {0, 0}, {120, 40}, 3, {4, 5, 3}},
    {"an island in its hole", 9, {0, 0, 0, 30, 0, 0, 0, 30, 0, 5, 5, 0, 15, 5, 0, 5, 15, 0, 6, 6, 0, 8, 6, 0, 6, 8, 0}, 21, {0, 1, 3, 6, 7, 8, 1, 4, 3, 1, 2, 4, 2, 5, 4, 2, 0, 5, 0, 3, 5}, 3, {0, 1, 2, 6, 7, 8, 4, 3, 5}, {3, 3, 3}, {4, 4, 1}, {0, 0, 100}, {0, 3, 7}, {0, 1, 0}, {120, 8, 40}, 3, {4, 5, 3}},
    {"the greatest run of all in another piece", 9, {0, 0, 0, 30, 0, 0, 0, 30, 0, 5, 5, 0, 15, 5, 0, 5, 15, 0, 0, 0, 9, 900, 0, 9, 0, 900, 9}, 21, {6, 7, 8, 0, 1, 3, 1, 4, 3, 1, 2, 4, 2, 5, 4, 2, 0, 5, 0, 3, 5}, 3, {6, 7, 8, 0, 1, 2, 4, 3, 5}, {3, 3, 3}, {4, 4, 1}, {0, 0, 100}, {0, 3, 7}, {0, 1, 1}, {3600, 120, 40}, 3, {4, 5, 3}},
    {"equal runs", 6, {0, 0, 0, 10, 0, 0, 0, 10, 0, 0, 0, 5, 10, 0, 5, 0, 10, 5}, 18, {0, 1, 3, 1, 4, 3, 1, 2, 4, 2, 5, 4, 2, 0, 5, 0, 3, 5}, 2, {0, 1, 2, 4, 3, 5}, {3, 3}, {4, 1}, {0, 100}, {0, 4}, {0, 0}, {40, 40}, 3, {4, 5, 3}},
    {"equal runs, the other loop listed first", 6, {0, 0, 0, 10, 0, 0, 0, 10, 0, 0, 0, 5, 10, 0, 5, 0, 10, 5}, 18, {4, 3, 1, 0, 1, 3, 1, 2, 4, 2, 5, 4, 2, 0, 5, 0, 3, 5}, 2, {4, 3, 5, 0, 1, 2}, {3, 3}, {4, 1}, {0, 100}, {0, 3}, {0, 0}, {40, 40}, 3, {0, 2, 1}},
    {"the closing edge decides", 6, {0, 0, 0, 10, 0, 0, 20, 0, 0, 12, 0, 1, 0, 0, 1, 0, 1, 1}, 18, {4, 3, 1, 0, 1, 3, 1, 2, 4, 2, 5, 4, 2, 0, 5, 0, 3, 5}, 2, {4, 3, 5, 0, 1, 2}, {3, 3}, {1, 4}, {12, 0}, {0, 3}, {0, 0}, {26, 40}, 3, {4, 5, 3}},
    {"differences that cancel if added with their signs", 6, {0, 0, 0, 10, -10, 0, 20, -20, 0, 12, 0, 0, 0, 0, 0, 0, 1, 0}, 18, {4, 3, 1, 0, 1, 3, 1, 2, 4, 2, 5, 4, 2, 0, 5, 0, 3, 5}, 2, {4, 3, 5, 0, 1, 2}, {3, 3}, {1, 4}, {12, 0}, {0, 3}, {0, 0}, {26, 80}, 3, {4, 5, 3}},
    {"the inner loop runs further", 6, {1, 1, 0, 2, 1, 0, 1, 2, 0, 0, 0, 9, 50, 0, 9, 0, 50, 9}, 18, {0, 1, 3, 1, 4, 3, 1, 2, 4, 2, 5, 4, 2, 0, 5, 0, 3, 5}, 2, {0, 1, 2, 4, 3, 5}, {3, 3}, {1, 4}, {1, 0}, {0, 4}, {0, 0}, {4, 200}, 3, {0, 2, 1}},
    {"the greatest runs there are", 6, {-32767, -32767, -32767, 32767, 32767, 32767, -32767, -32767, -32767, 32767, 32767, 32767, -32767, -32767, -32767, 32767, 32767, 32766}, 18, {0, 1, 3, 1, 4, 3, 1, 2, 4, 2, 5, 4, 2, 0, 5, 0, 3, 5}, 2, {0, 1, 2, 4, 3, 5}, {3, 3}, {4, 1}, {0, 131068}, {0, 4}, {0, 0}, {393204, 393204}, 3, {4, 5, 3}},
    {"pieces without a loop before and between", 9, {0, 0, 0, 0, 0, 0, 0, 0, 0, 1, 0, 0, 0, 2, 0, 0, 0, 3, 0, 0, -4}, 18, {0, 1, 2, 0, 2, 1, 3, 4, 5, 6, 7, 8, 6, 8, 7, 6, 3, 0}, 2, {3, 4, 5, 6, 3, 0}, {3, 3}, {4, 4}, {0, 0}, {6, 15}, {1, 3}, {12, 10}, 0, {0}},
    {"a cycle of three loops, the one that it is walked from listed last", 7, {0, 0, 0, 5, 0, 0, 0, 5, 0, 1, 0, 0, 0, 1, 0, 2, 0, 0, 0, 2, 0}, 21, {6, 0, 1, 2, 0, 3, 4, 0, 5, 1, 2, 3, 1, 3, 4, 1, 4, 5, 1, 5, 6}, 3, {0, 1, 2, 0, 3, 4, 6, 0, 5}, {3, 3, 3}, {4, 1, 1}, {0, 1, 4}, {1, 4, 0}, {0, 0, 0}, {20, 4, 8}, 6, {0, 4, 3, 6, 5, 0}},
};

/* The coordinates of an example in pitches in place of plate units, moved off their multiples where they come back. */
static void place_in_pitches(struct generated_surface *s, const int16_t *at, size_t words, size_t p) {
    s->pitch = (uint32_t)pitches[p];
    for (size_t w = 0; w < words; w++) s->words[w] = sheet_word(at[w] * pitches[p] + (w % 2 == 0 ? within[p] : -within[p]));
}

/* Whether an example reaches so far that it is one at pitch 1 alone. */
static int is_far(const struct example *e) { return e->points > 0 && e->at[0] == -REFERENCE_GREATEST_COORDINATE; }

/* Whether the record of a loop is what is known of an example: its weight is known in squares of the pitch, and its run in pitches. */
static int is_left(size_t loop, const struct example *e, uint64_t pitch) {
    struct wazelpunt_record record = left(loop);
    return record.length == e->lengths[loop] && record.state == e->states[loop] && record.weight == pitch * pitch * e->weights[loop] && record.count == 0 && record.first == e->firsts[loop] && record.piece == e->pieces[loop] && record.run == pitch * e->runs[loop];
}

/* Whether the patcher leaves what is known of an example. */
static int shows(const struct example *e, size_t p) {
    static struct generated_surface surface;
    size_t vertices = 0;
    surface.word_count = 3 * e->points;
    place_in_pitches(&surface, e->at, surface.word_count, p);
    surface.corner_count = e->corner_count;
    memcpy(surface.corners, e->corners, sizeof e->corners);
    generate_lend_exactly(&surface);
    for (size_t l = 0; l < e->loops; l++) vertices += e->lengths[l];
    int right = agree(&surface) && said.number == 0 && said.place == 0 && said.loops == e->loops && said.vertices == vertices && said.corners == e->laid;
    for (size_t w = 0; w < surface.word_count; w++) right = right && ours.grid[GUARD + w] == e->at[w] * pitches[p];
    for (size_t l = 0; l < e->loops; l++) right = right && is_left(l, e, (uint64_t)pitches[p]);
    right = right && memcmp(ours.rings + GUARD, e->rings, vertices * sizeof *e->rings) == 0 && memcmp(ours.patches + GUARD, e->patches, e->laid * sizeof *e->patches) == 0;
    if (!right) printf("example \"%s\" at pitch %" PRId32 ": answered %zu, %zu; %zu, %zu, %zu\n", e->name, pitches[p], said.number, said.place, said.loops, said.vertices, said.corners);
    return right;
}

/* ---- Holes ---- */

/* Rings each closed in by a frame of three points far out, which is a rim, and triangles over their diagonals, some of them islands with a
   rim of their own: what is known of the rings. */
struct holes {
    const char *name;
    size_t points;
    int16_t at[33];
    size_t rings;
    uint16_t lengths[3], ring[12];
    size_t bars, islands;
    uint16_t bar[15];
    uint16_t states[3];
    uint64_t weights[3];
    size_t laid;
    uint16_t patches[15];
};

#define SQUARE {0, 0, 0, 10, 0, 0, 10, 10, 0, 0, 10, 4}

static const struct holes holes[] = {
    {"a hole of three", 3, {0, 0, 0, 1, 0, 0, 0, 1, 0}, 1, {3}, {0, 1, 2}, 0, 0, {0}, {1}, {1}, 3, {0, 2, 1}},
    {"two holes that share a vertex", 5, {0}, 2, {3, 3}, {0, 1, 2, 0, 3, 4}, 0, 0, {0}, {1, 1}, {0, 0}, 6, {0, 2, 1, 0, 4, 3}},
    {"a diagonal that the input bars", 5, SQUARE, 1, {4}, {0, 1, 2, 3}, 2, 0, {0, 2, 4, 0, 4, 2}, {1}, {280}, 6, {0, 3, 1, 1, 3, 2}},
    {"a diagonal that an island bars", 5, SQUARE, 1, {4}, {0, 1, 2, 3}, 1, 1, {1, 3, 4}, {1}, {280}, 6, {0, 3, 2, 0, 2, 1}},
    {"the lighter cover", 4, {0, 0, 0, 10, 0, 0, 3, 3, 0, 0, 10, 0}, 1, {4}, {0, 1, 2, 3}, 0, 0, {0}, {1}, {60}, 6, {0, 3, 2, 0, 2, 1}},
    {"two equal covers", 4, SQUARE, 1, {4}, {0, 1, 2, 3}, 0, 0, {0}, {1}, {280}, 6, {0, 3, 1, 1, 3, 2}},
    {"no allowed cover, and the run goes on", 9, {0, 0, 0, 10, 0, 0, 10, 10, 0, 0, 10, 4, 0, 0, 0, 0, 0, 0, 0, 0, 0, 8, 0, 0, 0, 8, 0}, 2, {4, 3}, {0, 1, 2, 3, 6, 7, 8}, 3, 1, {0, 2, 4, 0, 4, 2, 1, 3, 5}, {3, 1}, {0, 64}, 3, {6, 8, 7}},
    {"every diagonal barred by the input", 10, {0}, 1, {5}, {0, 1, 2, 3, 4}, 5, 5, {0, 2, 5, 1, 3, 6, 2, 4, 7, 3, 0, 8, 4, 1, 9}, {3}, {0}, 0, {0}},
    {"a diagonal that the first hole's patch bars", 6, {0}, 2, {4, 4}, {0, 1, 2, 3, 4, 1, 5, 3}, 0, 0, {0}, {1, 1}, {0}, 12, {0, 3, 1, 1, 3, 2, 4, 3, 5, 4, 5, 1}},
    {"every diagonal barred by a patch", 8, {0}, 3, {4, 4, 4}, {0, 1, 2, 3, 4, 5, 6, 7, 1, 5, 3, 7}, 0, 0, {0}, {1, 1, 3}, {0}, 12, {0, 3, 1, 1, 3, 2, 4, 7, 5, 5, 7, 6}},
};

/* Closes a ring in by a frame of so many points, the first of that number, which lie far out. */
static void close_in(struct generated_surface *s, const uint16_t *ring, size_t length, size_t first, size_t edges) {
    uint16_t frame[REFERENCE_LONGEST_LOOP + 2];
    for (size_t f = 0; f < edges; f++) {
        frame[f] = (uint16_t)(first + f);
        s->words[3 * frame[f]] = sheet_word(f % 2 == 0 ? 30000 : -30000);
        s->words[3 * frame[f] + 1] = s->words[3 * frame[f] + 2] = 0;
    }
    sheet_add_collar(s, ring, length, frame, edges);
}

/* Whether a loop is a rim of so many edges; gives where the next ring begins. */
static const uint16_t *is_rim(const uint16_t *ring, size_t loop, size_t edges, int *right) {
    struct wazelpunt_record record = left(loop);
    *right = *right && record.length == edges && record.state == 4 && record.weight == 0 && record.count == 0;
    return ring + edges;
}

/* Rings and frames take turns, since each collar begins with its ring; then come the islands. */
static int shows_holes(const struct holes *e, size_t p) {
    static struct generated_surface surface;
    uint64_t square = (uint64_t)(pitches[p] * pitches[p]);
    const uint16_t *known = e->ring, *ring = ours.rings + GUARD;
    surface.word_count = 3 * (e->points + 3 * e->rings);
    surface.corner_count = 0;
    place_in_pitches(&surface, e->at, 3 * e->points, p);
    for (size_t r = 0; r < e->rings; known += e->lengths[r++]) close_in(&surface, known, e->lengths[r], e->points + 3 * r, 3);
    for (size_t b = 0; b < e->bars; b++) sheet_add_triangle(&surface, e->bar[3 * b], e->bar[3 * b + 1], e->bar[3 * b + 2]);
    generate_lend_exactly(&surface);
    int right = agree(&surface) && said.number == 0 && said.loops == 2 * e->rings + e->islands && said.corners == e->laid;
    known = e->ring;
    for (size_t r = 0; r < e->rings; r++) {
        size_t length = e->lengths[r];
        struct wazelpunt_record record = left(2 * r);
        right = right && record.length == length && record.state == e->states[r] && record.weight == square * e->weights[r] && record.count == 0 && record.piece == left(2 * r + 1).piece && memcmp(ring, known, length * sizeof *ring) == 0;
        ring = is_rim(ring + length, 2 * r + 1, 3, &right);
        known += length;
    }
    for (size_t island = 0; island < e->islands; island++) ring = is_rim(ring, 2 * e->rings + island, 3, &right);
    right = right && memcmp(ours.patches + GUARD, e->patches, e->laid * sizeof *e->patches) == 0;
    if (!right) printf("holes \"%s\" at pitch %" PRId32 ": answered %zu, %zu; %zu, %zu, %zu\n", e->name, pitches[p], said.number, said.place, said.loops, said.vertices, said.corners);
    return right;
}

/* ---- Every length ---- */

/* A cone with a foot of n edges is an island. */
static int shows_island(size_t n) {
    static struct generated_surface surface;
    uint16_t rim[REFERENCE_LONGEST_LOOP + 2];
    for (size_t r = 0; r < n; r++) rim[r] = (uint16_t)r;
    surface.pitch = (uint32_t)pitches[n % PITCHES];
    surface.corner_count = 0;
    sheet_add_cone(&surface, rim, n, (uint16_t)n);
    surface.word_count = 3 * (n + 1);
    generate_lend_exactly(&surface);
    int right = agree(&surface) && said.number == 0 && said.loops == 1 && said.vertices == n && said.corners == 0;
    is_rim(ours.rings + GUARD, 0, n, &right);
    right = right && left(0).first == 0 && left(0).piece == 0;
    if (!right) printf("island of %zu: answered %zu, %zu, state %" PRIu64 "\n", n, said.number, said.place, left(0).state);
    return right;
}

/* A hole of n edges in a rim of so many, the hole's points all at 0,0,0: the first choice of each stretch is taken; or the hole is long. */
static int shows_hole(size_t n, size_t edges) {
    static struct generated_surface surface;
    uint16_t ring[REFERENCE_LONGEST_LOOP + 2];
    for (size_t r = 0; r < n; r++) ring[r] = (uint16_t)r;
    surface.pitch = (uint32_t)pitches[n % PITCHES];
    surface.corner_count = 0;
    memset(surface.words, 0, sizeof surface.words);
    close_in(&surface, ring, n, n, edges);
    surface.word_count = 3 * (n + edges);
    generate_lend_exactly(&surface);
    size_t laid = n > REFERENCE_LONGEST_LOOP ? 0 : n - 2;
    int right = agree(&surface) && said.number == 0 && said.loops == 2 && said.vertices == n + edges && said.corners == 3 * laid && left(0).length == n && left(0).state == (laid == 0 ? 2 : 1) && left(0).weight == 0;
    is_rim(ours.rings + GUARD + n, 1, edges, &right);
    /* the hole's points lie in one place; the frame's at two places in turn, 60,000 apart, but for the last and the first where they are odd */
    right = right && left(0).first == 0 && left(0).run == 0 && left(0).piece == 0 && left(1).piece == 0 && left(1).run == 60000 * (edges - edges % 2);
    for (size_t t = 0; t < laid; t++) {
        const uint16_t *patch = ours.patches + GUARD + 3 * t;
        right = right && patch[0] == t && patch[1] == n - 1 && patch[2] == t + 1;
    }
    if (!right) printf("hole of %zu in a rim of %zu: answered %zu, %zu, states %d, %d\n", n, edges, said.number, said.place, (int)left(0).state, (int)left(1).state);
    return right;
}

/* Islands of every length, holes of every length, and rims of every length about a hole. */
static size_t compare_lengths(void) {
    size_t wrong = 0;
    for (size_t n = 3; n <= REFERENCE_LONGEST_LOOP + 2; n++) wrong += !shows_island(n) + !shows_hole(n, 3) + !shows_hole(3, n) + !shows_hole(n, n);
    return wrong;
}

/* A strip over all points there may be, whose rim has them all and joins one end of the plate with the other at every edge: no run is
   greater. */
static size_t compare_longest(void) {
    static struct generated_surface surface;
    size_t points = REFERENCE_MOST_POINTS;
    surface.pitch = 1;
    surface.word_count = 3 * points;
    surface.corner_count = 0;
    for (size_t p = 0; p < points; p++) {
        int32_t at = p % 4 == 0 || p % 4 == 3 ? -REFERENCE_GREATEST_COORDINATE : REFERENCE_GREATEST_COORDINATE;
        for (size_t axis = 0; axis < 3; axis++) surface.words[3 * p + axis] = sheet_word(at);
    }
    for (size_t p = 0; p + 2 < points; p++) sheet_add_triangle(&surface, p, p + 1 + p % 2, p + 2 - p % 2);
    generate_lend_exactly(&surface);
    int right = agree(&surface) && said.number == 0 && said.loops == 1 && said.vertices == points;
    right = right && left(0).length == points && left(0).state == 4 && left(0).run == points * 3 * 2 * REFERENCE_GREATEST_COORDINATE && left(0).run == 201320448;
    if (!right) printf("the longest rim: answered %zu, %zu, run %" PRIu64 "\n", said.number, said.place, left(0).run);
    return !right;
}

/* Plates with two holes, of which the longer decides how large a table both are given: lengths on either side of each size, the longer
   one first and last, and the same where neither hole has an allowed cover. */
static size_t compare_pairs(uint64_t seed) {
    static const size_t lengths[] = {3, 4, 5, 15, 16, 17, 63, 64, 65};
    static struct generated_surface surface;
    struct generator generator;
    size_t many = sizeof lengths / sizeof *lengths, wrong = 0;
    generate_start(&generator, seed);
    for (size_t pair = 0; pair < 2 * many * many; pair++) {
        size_t first = lengths[pair / 2 / many], second = lengths[pair / 2 % many];
        int shut = pair % 2 == 1;
        sheet_make_pair(&generator, &surface, first, second, shut, (uint32_t)pitches[(pair / 2 + pair / 2 / many) % PITCHES]);
        if (pair % 16 == 0) fill(&before, sizeof before, &generator);
        int right = agree(&surface) && said.number == 0;
        for (size_t l = 0, holes = 0; right && l < said.loops; l++) {
            size_t length = (size_t)left(l).length, state = (size_t)left(l).state;
            if (state == 4) continue;
            right = length == (holes == 0 ? first : second) && state == (length > REFERENCE_LONGEST_LOOP ? 2 : shut && length > 3 ? 3 : 1);
            holes++;
        }
        wrong += !right;
        if (!right) printf("holes of %zu and %zu%s: answered %zu, %zu\n", first, second, shut ? ", shut" : "", said.number, said.place);
    }
    return wrong;
}

static size_t refusals;

/* A refusal leaves the buffers as they were and all counts 0. */
static int refuses(const struct generated_surface *s, size_t number, size_t place) {
    refusals++;
    int right = agree(s) && said.number == number && said.place == place && said.loops == 0 && said.vertices == 0 && said.corners == 0 && memcmp(&ours, &before, sizeof ours) == 0;
    if (!right) printf("refusal %zu at %zu: answered %zu, %zu; %zu, %zu, %zu\n", number, place, said.number, said.place, said.loops, said.vertices, said.corners);
    return right;
}

/* A surface with every fault there is, which are mended one after the other: each refusal comes before the next. What is too far at any
   pitch is so at that one. */
static size_t compare_refusals(uint32_t pitch) {
    static const uint32_t no_pitches[] = {0, 3, 4, 9, 11, 20, 257, 65538, 0x8000000a, 0xffffffff};
    static struct generated_surface s;
    static const uint16_t corners[12] = {0, 1, 2, 0, 2, 4, 3, 2, 3, 0, 1, 3};
    size_t wrong = 0;
    for (size_t w = 0; w < 12; w++) s.words[w] = sheet_word((int32_t)w);
    memcpy(s.corners, corners, sizeof corners);
    s.words[9] = 0x7f800000;
    s.words[10] = 0xffc00000;
    s.words[1] = 0x46ffff00;
    s.words[2] = 0xc6ffff00;
    s.word_count = 13;
    s.corner_count = 11;
    memset(s.lent, 0, sizeof s.lent);
    for (size_t n = 0; n < sizeof no_pitches / sizeof *no_pitches; n++) {
        s.pitch = no_pitches[n];
        wrong += !refuses(&s, 17, 0);
    }
    s.pitch = pitch;
    wrong += !refuses(&s, 1, 0);
    s.word_count = REFERENCE_MOST_WORDS + 3;
    wrong += !refuses(&s, 1, 0);
    s.word_count = 12;
    wrong += !refuses(&s, 2, 0);
    s.corner_count = REFERENCE_MOST_CORNERS + 3;
    wrong += !refuses(&s, 2, 0);
    s.corner_count = 12;
    memset(s.lent, 0, sizeof s.lent);
    for (size_t b = 0; b < GENERATE_BUFFERS; b++) {
        static struct generated_surface exact;
        exact = s;
        generate_lend_exactly(&exact);
        s.lent[b] = exact.lent[b] - 1;
        wrong += !refuses(&s, 3, b + 1);
        /* records that have room for fewer numbers of a loop than seven */
        for (size_t numbers = 0; b == 2 && numbers < 7; numbers++) {
            s.lent[b] = numbers * (s.corner_count / 3);
            wrong += !refuses(&s, 3, 3);
        }
        s.lent[b] = exact.lent[b];
    }
    /* of two that are short the first is told */
    for (size_t b = 0; b + 1 < GENERATE_BUFFERS; b++) {
        s.lent[b]--;
        s.lent[b + 1]--;
        wrong += !refuses(&s, 3, b + 1);
        s.lent[b]++;
        s.lent[b + 1]++;
    }
    wrong += !refuses(&s, 4, 5);
    s.corners[5] = 3;
    wrong += !refuses(&s, 5, 2);
    s.corners[8] = 1;
    wrong += !refuses(&s, 6, 9);
    s.corner_count = 9;
    wrong += !refuses(&s, 7, 9);
    s.words[9] = 0;
    wrong += !refuses(&s, 7, 10);
    s.words[10] = 0;
    wrong += !refuses(&s, 8, 1);
    s.words[1] = 0;
    wrong += !refuses(&s, 8, 2);
    s.words[2] = 0;
    wrong += !agree(&s) || said.number != 0 || said.place != 0;
    /* the ends of each pitch: the last that is kept, and the first that is not */
    for (size_t p = 0; p < PITCHES; p++) {
        static const uint32_t kept[PITCHES] = {0x46fffeff, 0x46fffdff, 0x46fffeff, 0x46fffa00};
        s.pitch = (uint32_t)pitches[p];
        s.words[8] = s.words[11] = kept[p];
        wrong += !agree(&s) || said.number != 0 || ours.grid[GUARD + 8] != REFERENCE_GREATEST_COORDINATE / pitches[p] * pitches[p];
        s.words[8] = s.words[11] = 0x80000000 | (kept[p] + 1);
        wrong += !refuses(&s, 8, 8);
    }
    return wrong;
}

int main(int count, char **arguments) {
    size_t many = count > 1 ? strtoull(arguments[1], 0, 10) : 8000;
    uint64_t seed = count > 2 ? strtoull(arguments[2], 0, 10) : 20261115;
    size_t named = sizeof examples / sizeof examples[0], closed_in = sizeof holes / sizeof holes[0], sheets, barred_loops = 0;
    size_t wrong = compare_sheets(seed, &sheets, 0) + compare_sheets(seed, &sheets, 1);
    for (size_t p = 0; p < PITCHES; p++) {
        wrong += compare_refusals((uint32_t)pitches[p]);
        for (size_t i = 0; i < named; i++) wrong += (p == 0 || !is_far(&examples[i])) && !shows(&examples[i], p);
        for (size_t i = 0; i < closed_in; i++) wrong += !shows_holes(&holes[i], p);
    }
    wrong += compare_lengths() + compare_longest() + compare_pairs(seed);
    wrong += compare_made(many, seed);
    wrong += count < 2 && !met_all();
    for (size_t n = 4; n <= REFERENCE_LONGEST_LOOP; n++) barred_loops += barred[n];
    printf("patches: %zu examples, islands, holes and rims of %d lengths, %zu refusals, %zu sheets at two pitches each, %zu made from seed %" PRIu64 ", %zu wrong; ", named + closed_in, REFERENCE_LONGEST_LOOP, refusals, sheets, many, seed, wrong);
    printf("loops made by state: 1: %zu 2: %zu 3: %zu 4: %zu; barred by a patch: %zu; by answer:", by_state[1], by_state[2], by_state[3], by_state[4], barred_loops);
    for (int n = 0; n <= HIGHEST; n++)
        if (n <= 8 || n == 17) printf(" %d: %zu", n, by_answer[n]);
    printf("; short buffers:");
    for (size_t b = 1; b <= GENERATE_BUFFERS; b++) printf(" %zu: %zu", b, by_buffer[b]);
    printf("; made loops in later pieces: %zu, listed from a smaller half-edge than the one before: %zu, not from their smallest: %zu", later_pieces, turning_back, not_smallest);
    printf("; made loops with a weight by pitch:");
    for (size_t p = 0; p < PITCHES; p++) printf(" %" PRId32 ": %zu", pitches[p], weighed[p]);
    printf("\n");
    return wrong != 0;
}
