/* The rules of the scope in C, written for speed and without tricks: no vector instructions by hand, and tables only of digits, where
   numbers are read and written. Edges are paired, and loops, pieces, runs, rims and tide pools found in linear time; the lightest cover is found by the
   table over stretches, with a triangle's weight computed anew at every step. */
#include <stdlib.h>
#include <string.h>

#include "baseline.h"

enum {
    POINTS = 1024,
    TRIANGLES = 1024,
    WORDS = 3 * POINTS,
    CORNERS = 3 * TRIANGLES,
    LONGEST = 64,
    RECORD = 7,
    ENTRY = 2,
    /* a patch has fewer diagonals than its loop has edges, so all of them are fewer than the corners */
    EDGES = 2 * CORNERS,
    /* what stands for no half-edge and for no piece, and in its stead at an open half-edge that a walk has passed */
    NONE = 0xffff,
    PASSED = 0xfffe,
    RIM = 4
};

/* The bits of infinity. */
#define NOT_FINITE 0x7f800000u

/* What stands for a run that was not reckoned: the greatest is 3,072 edges of 196,602 each. */
#define NO_RUN 0xffffffffu

/* What stands for the weight of no cover: so far below 0 that no weight added makes it positive, and twice that is still a number. */
#define NO_COVER (INT64_MIN / 4)

struct surface {
    const uint32_t *words;
    size_t words_count;
    const uint16_t *corners;
    size_t corners_count;
    uint32_t pitch;
};

/* The half-edges of the surface and after them the diagonals that were laid, each in the chain of its lower end. */
struct edges {
    size_t count;
    uint16_t first[POINTS];
    uint16_t after[EDGES];
    uint16_t higher[EDGES];
    uint16_t twin[CORNERS + 1];
};

/* ---- Half-edges ---- */

static void chain_at(struct edges *edges, size_t edge, uint16_t lower, uint16_t higher) {
    edges->higher[edge] = higher;
    edges->after[edge] = edges->first[lower];
    edges->first[lower] = (uint16_t)edge;
}

static void chain_edge(struct edges *edges, size_t edge, uint16_t a, uint16_t b) {
    if (a < b) chain_at(edges, edge, a, b);
    else chain_at(edges, edge, b, a);
}

/* Chains the half-edges, the last one first, so that every chain ascends. Gives the first triangle that names a point twice, or NONE. */
static size_t chain_edges(struct edges *edges, const struct surface *surface) {
    size_t twice = NONE;
    memset(edges->first, 0xff, surface->words_count / 3 * sizeof *edges->first);
    edges->count = surface->corners_count;
    for (size_t h = surface->corners_count; h > 0; h -= 3) {
        uint16_t a = surface->corners[h - 3], b = surface->corners[h - 2], c = surface->corners[h - 1];
        if (a == b || b == c || c == a) twice = h / 3 - 1;
        chain_edge(edges, h - 1, c, a);
        chain_edge(edges, h - 2, b, c);
        chain_edge(edges, h - 3, a, b);
    }
    return twice;
}

/* Pairs every half-edge with the one that runs back; both are in the chain of their lower end, and meet at the higher. Gives the first
   half-edge that has the same ends in the same order as an earlier one, or NONE. */
static size_t pair_edges(struct edges *edges, const struct surface *surface) {
    const uint16_t *corners = surface->corners;
    size_t points = surface->words_count / 3, repeated = NONE;
    /* the first half-edge met at a higher end, and the lower end whose chain it is in: so nothing has to be cleared between chains */
    uint16_t met[POINTS], chain[POINTS];
    memset(chain, 0xff, points * sizeof *chain);
    for (size_t lower = 0; lower < points; lower++) {
        for (size_t edge = edges->first[lower]; edge != NONE; edge = edges->after[edge]) {
            size_t higher = edges->higher[edge], other;
            if (chain[higher] != (uint16_t)lower) {
                chain[higher] = (uint16_t)lower;
                met[higher] = (uint16_t)edge;
                edges->twin[edge] = NONE;
                continue;
            }
            other = met[higher];
            if (corners[edge] == corners[other] || edges->twin[other] != NONE) {
                if (edge < repeated) repeated = edge;
                continue;
            }
            edges->twin[edge] = (uint16_t)other;
            edges->twin[other] = (uint16_t)edge;
        }
    }
    return repeated;
}

/* ---- Refusals 17 and 1 to 8 ---- */

static uint32_t answer(uint32_t number, size_t at, size_t *place) {
    *place = at;
    return number;
}

static uint32_t refuse_counts(size_t words_count, size_t corners_count, uint32_t pitch, size_t *place) {
    if (pitch != 1 && pitch != 2 && pitch != 5 && pitch != 10) return answer(17, 0, place);
    if (words_count % 3 != 0 || words_count > WORDS) return answer(1, 0, place);
    if (corners_count % 3 != 0 || corners_count > CORNERS) return answer(2, 0, place);
    return answer(0, 0, place);
}

/* How long the lent buffers are. The third has lengths or records, the fourth patches or the report, and each needs so many numbers a
   triangle. The survey and the checker have no fourth, and it needs none. */
struct lent {
    size_t grid, rings, third, by_third, fourth, by_fourth;
};

static uint32_t refuse_buffers(const struct surface *surface, const struct lent *lent, size_t *place) {
    size_t triangles = surface->corners_count / 3;
    if (lent->grid < surface->words_count) return answer(3, 1, place);
    if (lent->rings < 3 * triangles) return answer(3, 2, place);
    if (lent->third < lent->by_third * triangles) return answer(3, 3, place);
    if (lent->fourth < lent->by_fourth * triangles) return answer(3, 4, place);
    return answer(0, 0, place);
}

/* The whole is looked over without a way out, which is quick; only where something is wrong is its place looked for. */
static uint32_t refuse_corners(const struct surface *surface, size_t *place) {
    uint16_t greatest = 0;
    size_t points = surface->words_count / 3, c = 0;
    for (size_t i = 0; i < surface->corners_count; i++)
        if (surface->corners[i] > greatest) greatest = surface->corners[i];
    if (greatest < points || surface->corners_count == 0) return answer(0, 0, place);
    while (surface->corners[c] < points) c++;
    return answer(4, c, place);
}

/* The bits of the smallest that goes too far: 32767.5 at the pitches 1 and 5, 32767 at 2, and what follows 32765 at 10. */
static uint32_t too_far_at(uint32_t pitch) {
    return pitch == 2 ? 0x46fffe00u : pitch == 10 ? 0x46fffa01u : 0x46ffff00u;
}

static uint32_t refuse_words(const struct surface *surface, size_t *place) {
    const uint32_t too_far = too_far_at(surface->pitch);
    int wrong = 0;
    for (size_t w = 0; w < surface->words_count; w++) wrong |= (surface->words[w] & 0x7fffffff) >= too_far;
    if (!wrong) return answer(0, 0, place);
    for (size_t w = 0; w < surface->words_count; w++)
        if ((surface->words[w] & 0x7fffffff) >= NOT_FINITE) return answer(7, w, place);
    size_t w = 0;
    while ((surface->words[w] & 0x7fffffff) < too_far) w++;
    return answer(8, w, place);
}

/* The first refusal, 17 or from 1 to 8; where there is none, the half-edges are chained and paired. */
static uint32_t refuse_surface(const struct surface *surface, const struct lent *lent, struct edges *edges, size_t *place) {
    uint32_t number = refuse_counts(surface->words_count, surface->corners_count, surface->pitch, place);
    if (number == 0) number = refuse_buffers(surface, lent, place);
    if (number == 0) number = refuse_corners(surface, place);
    if (number != 0) return number;
    size_t twice = chain_edges(edges, surface);
    if (twice != NONE) return answer(5, twice, place);
    size_t repeated = pair_edges(edges, surface);
    if (repeated != NONE) return answer(6, repeated, place);
    return refuse_words(surface, place);
}

/* ---- Grid ---- */

/* A number of this size has no bits below the pitch, which is 1 or 2, so the sum is rounded to a multiple, a tie going to the even one. */
static void place_by_sums(const uint32_t *words, size_t count, int32_t *grid, float pitch) {
    const float units = 12582912.0f * pitch;
    for (size_t w = 0; w < count; w++) {
        float value;
        memcpy(&value, &words[w], sizeof value);
        value = value + units;
        grid[w] = (int32_t)(value - units);
    }
}

/* The same of 64 bits, for how many pitches a number has. That the quotient is rounded before does no harm: it has so many bits more. */
static void place_by_quotients(const uint32_t *words, size_t count, int32_t *grid, double pitch) {
    const double units = 6755399441055744.0;
    for (size_t w = 0; w < count; w++) {
        float value;
        memcpy(&value, &words[w], sizeof value);
        double pitches = (double)value / pitch + units;
        grid[w] = (int32_t)((pitches - units) * pitch);
    }
}

static void place_on_grid(const struct surface *surface, int32_t *grid) {
    if (surface->pitch <= 2) place_by_sums(surface->words, surface->words_count, grid, (float)surface->pitch);
    else place_by_quotients(surface->words, surface->words_count, grid, (double)surface->pitch);
}

/* ---- Loops ---- */

struct loops {
    uint16_t *rings;
    uint16_t *lengths;
    size_t count;
    size_t vertices;
    /* the half-edges of the path, and for each vertex the place of the one that starts there, or NONE */
    uint16_t path[CORNERS];
    uint16_t at[POINTS];
    /* for each loop the half-edge that it is listed from; that one's triangle is in the loop's piece, since a walk never leaves it */
    uint16_t first[TRIANGLES];
};

static uint32_t following(uint32_t h) {
    return h % 3 == 2 ? h - 2 : h + 1;
}

static uint32_t next_open(const uint16_t *twin, uint32_t h) {
    uint32_t hand = following(h);
    while (twin[hand] < PASSED) hand = following(twin[hand]);
    return hand;
}

/* Lists the end of the path from there on as a loop. */
static void cut_off(struct loops *loops, const uint16_t *corners, size_t from, size_t length) {
    uint16_t *ring = loops->rings + loops->vertices;
    for (size_t p = from; p < length; p++) {
        uint16_t vertex = corners[loops->path[p]];
        loops->at[vertex] = NONE;
        *ring++ = vertex;
    }
    loops->first[loops->count] = loops->path[from];
    loops->lengths[loops->count++] = (uint16_t)(length - from);
    loops->vertices += length - from;
}

/* The next edge starts where the one before ended, so its start is looked for in the path. */
static void walk_cycle(struct loops *loops, const uint16_t *corners, uint16_t *twin, uint32_t first) {
    uint32_t h = first, length = 0, vertex = corners[h];
    do {
        twin[h] = PASSED;
        loops->at[vertex] = (uint16_t)length;
        loops->path[length++] = (uint16_t)h;
        h = next_open(twin, h);
        vertex = corners[h];
        uint32_t met = loops->at[vertex];
        if (met != NONE) {
            cut_off(loops, corners, met, length);
            length = met;
        }
    } while (h != first);
}

/* Behind the last half-edge stands one that looks open, at which the search ends. */
static void find_loops(struct loops *loops, const struct surface *surface, uint16_t *twin) {
    memset(loops->at, 0xff, surface->words_count / 3 * sizeof *loops->at);
    loops->count = loops->vertices = 0;
    twin[surface->corners_count] = NONE;
    for (size_t h = 0;; h++) {
        while (twin[h] != NONE) h++;
        if (h == surface->corners_count) return;
        walk_cycle(loops, surface->corners, twin, (uint32_t)h);
    }
}

uint32_t baseline_survey(const uint32_t *words, size_t words_count, const uint16_t *corners, size_t corners_count,
                         int32_t *grid, size_t grid_length, uint16_t *rings, size_t rings_length, uint16_t *lengths,
                         size_t lengths_length, size_t *place, size_t *loops, size_t *vertices, uint32_t pitch) {
    const struct surface surface = {words, words_count, corners, corners_count, pitch};
    const struct lent lent = {grid_length, rings_length, lengths_length, 1, 0, 0};
    struct edges edges;
    struct loops found;
    *loops = *vertices = 0;
    uint32_t number = refuse_surface(&surface, &lent, &edges, place);
    if (number != 0) return number;
    place_on_grid(&surface, grid);
    found.rings = rings;
    found.lengths = lengths;
    find_loops(&found, &surface, edges.twin);
    *loops = found.count;
    *vertices = found.vertices;
    return 0;
}

/* ---- Pieces and rims ---- */

/* The pieces that were entered, numbered in that order, and how many triangles they have. Of each, the loop with the greatest run so far, or NONE, where its ring begins, and
   its run, which the checker reckons only when the piece turns out to have a second loop. */
struct pieces {
    size_t count;
    size_t triangles;
    /* for each triangle its piece, or NONE */
    uint16_t of[TRIANGLES];
    uint16_t queue[TRIANGLES];
    uint16_t best[TRIANGLES];
    uint16_t start[TRIANGLES];
    uint32_t run[TRIANGLES];
};

static void start_pieces(struct pieces *pieces, const struct surface *surface) {
    pieces->count = pieces->triangles = 0;
    memset(pieces->of, 0xff, surface->corners_count / 3 * sizeof *pieces->of);
}

/* Gives the number of the piece that is entered to a triangle and to all that are joined to it through shared edges. */
static void flood(struct pieces *pieces, const uint16_t *twin, uint32_t triangle) {
    uint16_t *of = pieces->of, *due = pieces->queue, *end = due;
    const uint16_t piece = (uint16_t)pieces->count;
    of[triangle] = piece;
    *end++ = (uint16_t)triangle;
    while (due < end) {
        const uint16_t *across = twin + 3 * (size_t)*due++;
        for (size_t c = 0; c < 3; c++) {
            if (across[c] >= PASSED) continue;
            uint32_t next = across[c] / 3u;
            if (of[next] != NONE) continue;
            of[next] = piece;
            *end++ = (uint16_t)next;
        }
    }
    pieces->triangles += (size_t)(end - pieces->queue);
}

static void enter_piece(struct pieces *pieces, const uint16_t *twin, uint32_t triangle, uint16_t best, size_t start) {
    flood(pieces, twin, triangle);
    pieces->best[pieces->count] = best;
    pieces->start[pieces->count] = (uint16_t)start;
    pieces->run[pieces->count++] = NO_RUN;
}

static uint32_t run_of(const int32_t *grid, const uint16_t *ring, size_t length) {
    const int32_t *from = grid + 3 * (size_t)ring[length - 1];
    uint32_t run = 0;
    for (size_t i = 0; i < length; i++) {
        const int32_t *to = grid + 3 * (size_t)ring[i];
        for (size_t c = 0; c < 3; c++) run += (uint32_t)abs(to[c] - from[c]);
        from = to;
    }
    return run;
}

/* A loop after the first of its piece takes the place of the best so far if its run is greater. */
static void contest(struct pieces *pieces, size_t piece, const struct loops *loops, size_t loop, size_t start, const int32_t *grid) {
    uint32_t run = run_of(grid, loops->rings + start, loops->lengths[loop]), greatest = pieces->run[piece];
    if (greatest == NO_RUN) greatest = run_of(grid, loops->rings + pieces->start[piece], loops->lengths[pieces->best[piece]]);
    if (run > greatest) {
        greatest = run;
        pieces->best[piece] = (uint16_t)loop;
    }
    pieces->run[piece] = greatest;
}

/* Marks the rims where there are two loops or more. Which number a piece has does not matter here. */
static void compare_runs(uint8_t *marks, const struct loops *loops, const struct surface *surface, const uint16_t *twin, const int32_t *grid) {
    struct pieces pieces;
    start_pieces(&pieces, surface);
    for (size_t l = 0, start = 0; l < loops->count; start += loops->lengths[l++]) {
        uint32_t home = loops->first[l] / 3u;
        if (pieces.of[home] == NONE) enter_piece(&pieces, twin, home, (uint16_t)l, start);
        else contest(&pieces, pieces.of[home], loops, l, start, grid);
    }
    memset(marks, 0, loops->count);
    for (size_t p = 0; p < pieces.count; p++) marks[pieces.best[p]] = 1;
}

/* A loop that is the only one is its piece's rim, so that nothing has to be known of the pieces. */
static void mark_rims(uint8_t *marks, const struct loops *loops, const struct surface *surface, const uint16_t *twin, const int32_t *grid) {
    marks[0] = 1;
    if (loops->count > 1) compare_runs(marks, loops, surface, twin, grid);
}

/* ---- Records ---- */

/* The numbers of a record, in their order. */
enum { LENGTH, STATE, WEIGHT, COUNT, FIRST, PIECE, RUN };

/* Lays a loop's record, as yet without a state and a weight. */
static void lay_record(uint64_t *record, uint64_t length, uint64_t first, uint64_t piece, uint64_t run) {
    record[LENGTH] = length;
    record[STATE] = 0;
    record[WEIGHT] = 0;
    record[COUNT] = 0;
    record[FIRST] = first;
    record[PIECE] = piece;
    record[RUN] = run;
}

/* Enters the pieces by their smallest triangles, ascending, up to the one that has this triangle, and gives its number. No triangle before
   `next` is without a piece. */
static size_t piece_of(struct pieces *pieces, const uint16_t *twin, uint32_t triangle, uint32_t *next) {
    while (pieces->of[triangle] == NONE) {
        while (pieces->of[*next] != NONE) ++*next;
        enter_piece(pieces, twin, *next, NONE, 0);
    }
    return pieces->of[triangle];
}

/* Lays the records of all loops by their pieces, those of rims with their state. Gives a triangle before which none is without a piece. */
static uint32_t lay_by_pieces(uint64_t *records, struct pieces *pieces, const struct loops *loops, const struct surface *surface,
                              const uint16_t *twin, const int32_t *grid) {
    uint32_t next = 0;
    const uint16_t *ring = loops->rings;
    start_pieces(pieces, surface);
    for (size_t l = 0; l < loops->count; l++) {
        size_t length = loops->lengths[l], piece = piece_of(pieces, twin, loops->first[l] / 3u, &next);
        uint32_t run = run_of(grid, ring, length);
        lay_record(records + RECORD * l, length, loops->first[l], piece, run);
        if (pieces->best[piece] == NONE || run > pieces->run[piece]) {
            pieces->best[piece] = (uint16_t)l;
            pieces->run[piece] = run;
        }
        ring += length;
    }
    for (size_t p = 0; p < pieces->count; p++)
        if (pieces->best[p] != NONE) records[RECORD * pieces->best[p] + STATE] = RIM;
    return next;
}

/* A loop that is the only one is its piece's rim, and triangle 0 is in piece 0. */
static void lay_records(uint64_t *records, const struct loops *loops, const struct surface *surface, const uint16_t *twin,
                        const int32_t *grid) {
    if (loops->count == 1 && loops->first[0] < 3) {
        lay_record(records, loops->lengths[0], loops->first[0], 0, run_of(grid, loops->rings, loops->lengths[0]));
        records[STATE] = RIM;
    } else if (loops->count > 0) {
        struct pieces pieces;
        lay_by_pieces(records, &pieces, loops, surface, twin, grid);
    }
}

/* ---- Cover ---- */

/* A loop of at most 64 edges: where its vertices are, a word of bars for each, and for each stretch, by its end and then its start, the
   least weight of an allowed cover; by its start and then its end, the smallest middle that has it. */
struct hole {
    struct edges *edges;
    const int32_t *grid;
    const uint16_t *ring;
    size_t length;
    uint8_t position[POINTS];
    int64_t x[LONGEST], y[LONGEST], z[LONGEST];
    uint64_t bars[LONGEST];
    int64_t least[LONGEST][LONGEST];
    uint8_t middle[LONGEST][LONGEST];
};

static void start_holes(struct hole *hole, struct edges *edges, const int32_t *grid, size_t points) {
    hole->edges = edges;
    hole->grid = grid;
    memset(hole->position, 0, points);
}

/* Positions are kept from 1, so that 0 says that a point is not in the ring. */
static void enter_ring(struct hole *hole, const uint16_t *ring, size_t length) {
    hole->ring = ring;
    hole->length = length;
    for (size_t i = 0; i < length; i++) {
        const int32_t *at = hole->grid + 3 * (size_t)ring[i];
        hole->position[ring[i]] = (uint8_t)(i + 1);
        hole->x[i] = at[0];
        hole->y[i] = at[1];
        hole->z[i] = at[2];
        hole->bars[i] = 0;
    }
}

static void leave_ring(struct hole *hole) {
    for (size_t i = 0; i < hole->length; i++) hole->position[hole->ring[i]] = 0;
}

/* Every edge between two vertices of the ring is in the chain of one of them. The sides of the loop are edges too and no diagonals; but of
   these only the one from the last vertex to the first is ever asked for. */
static void find_bars(struct hole *hole) {
    const struct edges *edges = hole->edges;
    for (size_t i = 0; i < hole->length; i++) {
        for (size_t edge = edges->first[hole->ring[i]]; edge != NONE; edge = edges->after[edge]) {
            size_t other = hole->position[edges->higher[edge]];
            if (other != 0) {
                hole->bars[i] |= (uint64_t)1 << (other - 1);
                hole->bars[other - 1] |= (uint64_t)1 << i;
            }
        }
    }
    hole->bars[0] &= ~((uint64_t)1 << (hole->length - 1));
}

static int is_barred(const struct hole *hole, size_t i, size_t k) {
    return hole->bars[i] >> k & 1;
}

static int64_t size_of(int64_t value) {
    return value < 0 ? -value : value;
}

/* The weight of the triangle of a point and two others, which are seen from that one. */
static int64_t weight_of(int64_t px, int64_t py, int64_t pz, int64_t qx, int64_t qy, int64_t qz) {
    return size_of(py * qz - pz * qy) + size_of(pz * qx - px * qz) + size_of(px * qy - py * qx);
}

/* The vertices behind i as they are seen from i, so that a step of the table has nothing to subtract before it multiplies; and the least
   weights of the stretches from i to each. */
struct view {
    int64_t x[LONGEST], y[LONGEST], z[LONGEST], least[LONGEST];
};

static void look_from(struct view *view, const struct hole *hole, size_t i) {
    for (size_t m = i + 1; m < hole->length; m++) {
        view->x[m] = hole->x[m] - hole->x[i];
        view->y[m] = hole->y[m] - hole->y[i];
        view->z[m] = hole->z[m] - hole->z[i];
    }
}

/* The least weight of the stretch i..k, with the smallest middle that has it. */
static int64_t choose_middle(const struct view *view, const int64_t *behind, size_t i, size_t k, uint8_t *middle) {
    int64_t px = view->x[k], py = view->y[k], pz = view->z[k], least = INT64_MAX;
    for (size_t m = i + 1; m < k; m++) {
        int64_t total = view->least[m] + behind[m];
        if (total < 0) continue;
        total += weight_of(px, py, pz, view->x[m], view->y[m], view->z[m]);
        if (total < least) {
            least = total;
            *middle = (uint8_t)m;
        }
    }
    return least == INT64_MAX ? NO_COVER : least;
}

/* Fills the table, every stretch after those that lie in it. A stretch whose ends are joined by a bar has no cover, so no bar is asked for
   within a step. Gives the least weight, or NO_COVER. */
static int64_t fill_table(struct hole *hole) {
    struct view view;
    for (size_t i = hole->length - 1; i-- > 0;) {
        look_from(&view, hole, i);
        view.least[i + 1] = hole->least[i + 1][i] = 0;
        for (size_t k = i + 2; k < hole->length; k++) {
            int64_t least = NO_COVER;
            if (!is_barred(hole, i, k)) least = choose_middle(&view, hole->least[k], i, k, &hole->middle[i][k]);
            view.least[k] = hole->least[k][i] = least;
        }
    }
    return view.least[hole->length - 1];
}

/* From now on the edge that joins two places of the ring is there, unless it was: the outermost stretch has a side of the loop. */
static void lay_diagonal(struct hole *hole, size_t i, size_t k) {
    if (i != 0 || k != hole->length - 1) chain_edge(hole->edges, hole->edges->count++, hole->ring[i], hole->ring[k]);
}

/* Lists the cover of a stretch; gives where the next triangle goes. */
static uint16_t *lay_stretch(struct hole *hole, size_t i, size_t k, uint16_t *patch) {
    if (k == i + 1) return patch;
    size_t m = hole->middle[i][k];
    patch[0] = hole->ring[i];
    patch[1] = hole->ring[k];
    patch[2] = hole->ring[m];
    lay_diagonal(hole, i, k);
    patch = lay_stretch(hole, i, m, patch + 3);
    return lay_stretch(hole, m, k, patch);
}

/* ---- The patcher ---- */

/* A loop of three edges has one cover, and no diagonal that could be barred. */
static uint16_t *patch_three(const int32_t *grid, const uint16_t *ring, uint64_t *weight, uint16_t *patch) {
    const int32_t *a = grid + 3 * (size_t)ring[0], *b = grid + 3 * (size_t)ring[2], *c = grid + 3 * (size_t)ring[1];
    *weight = (uint64_t)weight_of(b[0] - a[0], b[1] - a[1], b[2] - a[2], c[0] - a[0], c[1] - a[1], c[2] - a[2]);
    patch[0] = ring[0];
    patch[1] = ring[2];
    patch[2] = ring[1];
    return patch + 3;
}

static uint16_t *patch_loop(struct hole *hole, const uint16_t *ring, size_t length, uint64_t *record, uint16_t *patch) {
    record[STATE] = 1;
    if (length == 3) return patch_three(hole->grid, ring, &record[WEIGHT], patch);
    record[STATE] = 2;
    if (length > LONGEST) return patch;
    enter_ring(hole, ring, length);
    find_bars(hole);
    leave_ring(hole);
    int64_t least = fill_table(hole);
    record[STATE] = 3;
    if (least == NO_COVER) return patch;
    record[STATE] = 1;
    record[WEIGHT] = (uint64_t)least;
    return lay_stretch(hole, 0, length - 1, patch);
}

/* Patches the loops that are no rims, and gives how many corners that took. */
static inline size_t patch_loops(const struct loops *loops, struct edges *edges, const int32_t *grid, size_t points, uint64_t *records,
                                 uint16_t *patches) {
    struct hole hole;
    const uint16_t *ring = loops->rings;
    uint16_t *patch = patches;
    start_holes(&hole, edges, grid, points);
    for (size_t l = 0; l < loops->count; l++) {
        if (records[STATE] != RIM) patch = patch_loop(&hole, ring, loops->lengths[l], records, patch);
        records += RECORD;
        ring += loops->lengths[l];
    }
    return (size_t)(patch - patches);
}

uint32_t baseline_patch(const uint32_t *words, size_t words_count, const uint16_t *corners, size_t corners_count,
                        int32_t *grid, size_t grid_length, uint16_t *rings, size_t rings_length, uint64_t *records,
                        size_t records_length, uint16_t *patches, size_t patches_length, size_t *place, size_t *loops,
                        size_t *vertices, size_t *laid, uint32_t pitch) {
    const struct surface surface = {words, words_count, corners, corners_count, pitch};
    const struct lent lent = {grid_length, rings_length, records_length, RECORD, patches_length, 9};
    uint16_t lengths[TRIANGLES];
    struct edges edges;
    struct loops found;
    *loops = *vertices = *laid = 0;
    uint32_t number = refuse_surface(&surface, &lent, &edges, place);
    if (number != 0) return number;
    place_on_grid(&surface, grid);
    found.rings = rings;
    found.lengths = lengths;
    find_loops(&found, &surface, edges.twin);
    lay_records(records, &found, &surface, edges.twin, grid);
    *loops = found.count;
    *vertices = found.vertices;
    *laid = patch_loops(&found, &edges, grid, words_count / 3, records, patches);
    return 0;
}

/* ---- The report ---- */

/* Where the report goes, and for each loop where its ring begins; of each piece the loops that are no rims, chained in listed order; the
   number, from 1, of the last piece whose rim has a point; and the lakes of the piece in hand. */
struct report {
    uint16_t *at;
    uint16_t start[TRIANGLES];
    uint16_t head[TRIANGLES];
    uint16_t next[TRIANGLES];
    uint16_t stamp[POINTS];
    uint16_t lakes[TRIANGLES];
};

static void put_entry(struct report *report, uint16_t kind, uint16_t number) {
    report->at[0] = kind;
    report->at[1] = number;
    report->at += ENTRY;
}

static void chain_loops(struct report *report, const struct loops *loops, const uint64_t *records, const struct pieces *pieces) {
    size_t start = loops->vertices;
    memset(report->head, 0xff, pieces->count * sizeof *report->head);
    for (size_t l = loops->count; l-- > 0;) {
        start -= loops->lengths[l];
        report->start[l] = (uint16_t)start;
        if (records[RECORD * l + STATE] == RIM) continue;
        size_t piece = records[RECORD * l + PIECE];
        report->next[l] = report->head[piece];
        report->head[piece] = (uint16_t)l;
    }
}

static int is_stamped(const struct report *report, const struct loops *loops, size_t loop, uint16_t stamp) {
    const uint16_t *ring = loops->rings + report->start[loop], *end = ring + loops->lengths[loop];
    for (; ring < end; ring++)
        if (report->stamp[*ring] == stamp) return 1;
    return 0;
}

/* Tide pools are put at once, and the lakes behind them. */
static void put_others(struct report *report, const struct loops *loops, size_t rim, size_t head, uint16_t stamp) {
    const uint16_t *ring = loops->rings + report->start[rim];
    size_t lakes = 0;
    for (size_t i = 0; i < loops->lengths[rim]; i++) report->stamp[ring[i]] = stamp;
    for (size_t l = head; l != NONE; l = report->next[l]) {
        if (is_stamped(report, loops, l, stamp)) put_entry(report, 2, (uint16_t)l);
        else report->lakes[lakes++] = (uint16_t)l;
    }
    for (size_t i = 0; i < lakes; i++) put_entry(report, 3, report->lakes[i]);
}

/* Gives how many entries there are. */
static size_t lay_report(uint16_t *entries, const struct loops *loops, const uint64_t *records, const struct pieces *pieces, size_t points) {
    struct report report;
    report.at = entries;
    chain_loops(&report, loops, records, pieces);
    memset(report.stamp, 0, points * sizeof *report.stamp);
    for (size_t p = 0; p < pieces->count; p++) {
        uint16_t rim = pieces->best[p];
        put_entry(&report, 0, (uint16_t)p);
        if (rim == NONE) continue;
        put_entry(&report, 1, rim);
        if (report.head[p] != NONE) put_others(&report, loops, rim, report.head[p], (uint16_t)(p + 1));
    }
    return (size_t)(report.at - entries) / ENTRY;
}

/* All pieces are entered, also those without a loop. The patches are laid, since they bar diagonals, and not kept. */
uint32_t baseline_chart(const uint32_t *words, size_t words_count, const uint16_t *corners, size_t corners_count,
                        int32_t *grid, size_t grid_length, uint16_t *rings, size_t rings_length, uint64_t *records,
                        size_t records_length, uint16_t *report, size_t report_length, size_t *place, size_t *loops,
                        size_t *vertices, size_t *entries, uint32_t pitch) {
    const struct surface surface = {words, words_count, corners, corners_count, pitch};
    const struct lent lent = {grid_length, rings_length, records_length, RECORD, report_length, 2 * ENTRY};
    uint16_t lengths[TRIANGLES], patches[3 * CORNERS];
    struct edges edges;
    struct loops found;
    struct pieces pieces;
    *loops = *vertices = *entries = 0;
    uint32_t number = refuse_surface(&surface, &lent, &edges, place);
    if (number != 0) return number;
    place_on_grid(&surface, grid);
    found.rings = rings;
    found.lengths = lengths;
    find_loops(&found, &surface, edges.twin);
    uint32_t next = lay_by_pieces(records, &pieces, &found, &surface, edges.twin, grid);
    for (; pieces.triangles < corners_count / 3; next++)
        if (pieces.of[next] == NONE) enter_piece(&pieces, edges.twin, next, NONE, 0);
    *loops = found.count;
    *vertices = found.vertices;
    *entries = lay_report(report, &found, records, &pieces, words_count / 3);
    patch_loops(&found, &edges, grid, words_count / 3, records, patches);
    return 0;
}

/* ---- The checker ---- */

/* What the set has for one loop: for each stretch the middle chosen, 0 where there is none, once it has been cleared; and what the cover turns
   out to be. */
struct cover {
    int cleared;
    uint8_t chosen[LONGEST][LONGEST];
    int64_t weight;
    int barred;
};

/* A corner of a set may be any number: that of no point of the ring has the position 0. */
static size_t position_of(const struct hole *hole, uint16_t corner, size_t points) {
    return corner < points ? hole->position[corner] : 0;
}

/* Takes a triangle as the choice of its stretch, whichever corner it begins at; gives 0 where it is no choice or the stretch has one. */
static int take_triangle(struct cover *cover, const struct hole *hole, const uint16_t *triangle, size_t points) {
    size_t i = position_of(hole, triangle[0], points);
    size_t k = position_of(hole, triangle[1], points);
    size_t m = position_of(hole, triangle[2], points);
    while (i > k || i > m) {
        size_t first = i;
        i = k;
        k = m;
        m = first;
    }
    if (i == 0 || i >= m || m >= k || cover->chosen[i - 1][k - 1] != 0) return 0;
    cover->chosen[i - 1][k - 1] = (uint8_t)(m - 1);
    return 1;
}

static int64_t weight_at(const struct hole *hole, size_t i, size_t k, size_t m) {
    const int64_t *x = hole->x, *y = hole->y, *z = hole->z;
    return weight_of(x[k] - x[i], y[k] - y[i], z[k] - z[i], x[m] - x[i], y[m] - y[i], z[m] - z[i]);
}

/* Follows the choices from the outermost stretch inwards and clears them for the next loop; gives 0 where one is missing. */
static int follow_choices(struct cover *cover, struct hole *hole, size_t i, size_t k) {
    if (k == i + 1) return 1;
    size_t m = cover->chosen[i][k];
    if (m == 0) return 0;
    cover->chosen[i][k] = 0;
    cover->weight += weight_at(hole, i, k, m);
    cover->barred |= is_barred(hole, i, k);
    lay_diagonal(hole, i, k);
    return follow_choices(cover, hole, i, m) && follow_choices(cover, hole, m, k);
}

/* As many triangles as a cover has, each the choice of a stretch of its own, are a cover if none is missing. */
static int take_cover(struct cover *cover, struct hole *hole, const uint16_t *triangles, size_t points) {
    if (!cover->cleared) memset(cover->chosen, 0, sizeof cover->chosen);
    cover->cleared = 1;
    cover->weight = 0;
    cover->barred = 0;
    for (size_t t = 0; t < hole->length - 2; t++)
        if (!take_triangle(cover, hole, triangles + 3 * t, points)) return 0;
    return follow_choices(cover, hole, 0, hole->length - 1);
}

/* The verdict on a loop of at most 64 edges; the corners are those of the set that no loop before has taken. */
static uint32_t judge_hole(struct hole *hole, struct cover *cover, uint16_t state, const uint16_t *corners, size_t left,
                           size_t points) {
    if (state != 1 && state != 3) return 11;
    find_bars(hole);
    if (state == 3) return fill_table(hole) == NO_COVER ? 0 : 11;
    if (left < 3 * (hole->length - 2) || !take_cover(cover, hole, corners, points)) return 12;
    if (cover->barred) return 13;
    return fill_table(hole) < cover->weight ? 14 : 0;
}

/* The verdict on a loop of three edges, which has one cover. */
static uint32_t judge_three(const uint16_t *ring, uint16_t state, const uint16_t *corners, size_t left) {
    if (state != 1) return 11;
    if (left < 3) return 12;
    size_t first = corners[0] == ring[0] ? 0 : corners[1] == ring[0] ? 1 : 2;
    const uint16_t a = corners[first], b = corners[first == 2 ? 0 : first + 1], c = corners[first == 0 ? 2 : first - 1];
    return a == ring[0] && b == ring[2] && c == ring[1] ? 0 : 12;
}

/* What is judged: the states and the corners of a set, and how many of these the loops before have taken. */
struct set {
    const uint16_t *states;
    const uint16_t *corners;
    size_t count;
    size_t taken;
};

static uint32_t judge_loop(struct hole *hole, struct cover *cover, const uint16_t *ring, size_t length, uint16_t state,
                           const struct set *set, size_t points) {
    const uint16_t *corners = set->corners + set->taken;
    size_t left = set->count - set->taken;
    if (length > LONGEST) return state == 2 ? 0 : 11;
    if (length == 3) return judge_three(ring, state, corners, left);
    enter_ring(hole, ring, length);
    uint32_t verdict = judge_hole(hole, cover, state, corners, left, points);
    leave_ring(hole);
    return verdict;
}

static uint32_t judge_loops(struct hole *hole, const struct loops *loops, const uint8_t *rims, struct set *set, size_t points,
                            size_t *place) {
    struct cover cover;
    const uint16_t *ring = loops->rings;
    cover.cleared = 0;
    for (size_t l = 0; l < loops->count; l++) {
        size_t length = loops->lengths[l];
        uint16_t state = set->states[l];
        uint32_t verdict = state == RIM ? 0 : 11;
        if (!rims[l]) verdict = judge_loop(hole, &cover, ring, length, state, set, points);
        if (verdict != 0) return answer(verdict, l, place);
        if (state == 1) set->taken += 3 * (length - 2);
        ring += length;
    }
    return set->taken < set->count ? answer(15, set->taken, place) : answer(0, 0, place);
}

/* The loops are found in a room of its own, since refusal 9 leaves the lent ones as they were. */
uint32_t baseline_check(const uint32_t *words, size_t words_count, const uint16_t *corners, size_t corners_count,
                        const uint16_t *states, size_t states_count, const uint16_t *set, size_t set_count, int32_t *grid,
                        size_t grid_length, uint16_t *rings, size_t rings_length, uint16_t *lengths, size_t lengths_length,
                        size_t *place, size_t *loops, size_t *vertices, uint32_t pitch) {
    const struct surface surface = {words, words_count, corners, corners_count, pitch};
    const struct lent lent = {grid_length, rings_length, lengths_length, 1, 0, 0};
    struct set judged = {states, set, set_count, 0};
    uint16_t own_rings[CORNERS], own_lengths[TRIANGLES];
    uint8_t rims[TRIANGLES];
    struct edges edges;
    struct loops found;
    struct hole hole;
    *loops = *vertices = 0;
    uint32_t number = refuse_surface(&surface, &lent, &edges, place);
    if (number != 0) return number;
    found.rings = own_rings;
    found.lengths = own_lengths;
    find_loops(&found, &surface, edges.twin);
    if (states_count != found.count) return answer(9, found.count, place);
    place_on_grid(&surface, grid);
    memcpy(rings, own_rings, found.vertices * sizeof *rings);
    memcpy(lengths, own_lengths, found.count * sizeof *lengths);
    *loops = found.count;
    *vertices = found.vertices;
    mark_rims(rims, &found, &surface, edges.twin, grid);
    start_holes(&hole, &edges, grid, words_count / 3);
    return judge_loops(&hole, &found, rims, &judged, words_count / 3, place);
}

/* ---- Reading texts ---- */

/* Where a text is read: at the start of the line due, and the end of the last line that is ended. As that one is a line feed, which no
   digit and no key is, a line is read without asking at every byte whether the text goes on. */
struct reading {
    const uint8_t *at;
    const uint8_t *end;
    size_t line;
};

/* A number of at most that size, which is 1,023 or more, and the mark after it. Gives what follows, or 0 where either is wrong. */
static inline const uint8_t *read_decimal(const uint8_t *at, uint32_t most, uint8_t mark, uint32_t *value) {
    const uint32_t ended = (uint32_t)mark - '0';
    uint32_t sum = (uint32_t)at[0] - '0', digit;
    *value = 0;
    if (sum - 1 > 8) return sum == 0 && at[1] == mark ? at + 2 : 0;
    *value = sum;
    digit = (uint32_t)at[1] - '0';
    if (digit > 9) return digit == ended ? at + 2 : 0;
    *value = sum = 10 * sum + digit;
    digit = (uint32_t)at[2] - '0';
    if (digit > 9) return digit == ended ? at + 3 : 0;
    *value = sum = 10 * sum + digit;
    digit = (uint32_t)at[3] - '0';
    if (digit > 9) return digit == ended ? at + 4 : 0;
    *value = sum = 10 * sum + digit;
    return sum <= most && at[4] == mark ? at + 5 : 0;
}

static int read_count(struct reading *reading, const char *key, uint32_t most, size_t *count) {
    const uint8_t *at = reading->at;
    uint32_t value;
    if (at == reading->end) return 0;
    for (; *key != 0; key++, at++)
        if (*at != (uint8_t)*key) return 0;
    at = read_decimal(at, most, '\n', &value);
    if (at == 0) return 0;
    *count = value;
    reading->at = at;
    reading->line++;
    return 1;
}

/* A hexadecimal digit by its byte: the value, and above 32 bits a mark that it is one; 0 for any other byte. */
#define DIGIT(value) ((uint64_t)1 << 32 | (value))
static const uint64_t hexadecimal[256] = {
    ['0'] = DIGIT(0), ['1'] = DIGIT(1), ['2'] = DIGIT(2), ['3'] = DIGIT(3), ['4'] = DIGIT(4), ['5'] = DIGIT(5),
    ['6'] = DIGIT(6), ['7'] = DIGIT(7), ['8'] = DIGIT(8), ['9'] = DIGIT(9), ['a'] = DIGIT(10), ['b'] = DIGIT(11),
    ['c'] = DIGIT(12), ['d'] = DIGIT(13), ['e'] = DIGIT(14), ['f'] = DIGIT(15)};

/* What stands above the word where all its eight digits have the mark. */
#define ALL_DIGITS 0x11111111u

/* A word of eight digits and, above it, what is left of their marks: each mark ends at a place of its own. */
static uint64_t read_word(const uint8_t *at) {
    uint64_t sum = 0;
    for (size_t d = 0; d < 8; d++) sum = sum << 4 | hexadecimal[at[d]];
    return sum;
}

/* The length of a point line. */
enum { LINE = 29 };

static int read_point(const uint8_t *at, uint32_t *words) {
    if (memcmp(at, "p=", 2) != 0 || at[10] != ',' || at[19] != ',' || at[LINE - 1] != '\n') return 0;
    uint64_t a = read_word(at + 2), b = read_word(at + 11), c = read_word(at + 20);
    words[0] = (uint32_t)a;
    words[1] = (uint32_t)b;
    words[2] = (uint32_t)c;
    return (a & b & c) >> 32 == ALL_DIGITS;
}

/* All point lines have the same length, so it is known beforehand how many of them there is room for. */
static int read_points(struct reading *reading, uint32_t *words, size_t points) {
    size_t room = (size_t)(reading->end - reading->at) / LINE, lines = room < points ? room : points, p = 0;
    const uint8_t *at = reading->at;
    while (p < lines && read_point(at, words + 3 * p)) {
        at += LINE;
        p++;
    }
    reading->at = at;
    reading->line += p;
    return p == points;
}

/* Gives what follows the line, or 0 where it is wrong. */
static const uint8_t *read_triangle(const uint8_t *at, const uint8_t *end, uint16_t *corners) {
    uint32_t corner;
    if (at == end || at[0] != 't' || at[1] != '=') return 0;
    at = read_decimal(at + 2, POINTS - 1, ',', &corner);
    if (at == 0) return 0;
    corners[0] = (uint16_t)corner;
    at = read_decimal(at, POINTS - 1, ',', &corner);
    if (at == 0) return 0;
    corners[1] = (uint16_t)corner;
    at = read_decimal(at, POINTS - 1, '\n', &corner);
    corners[2] = (uint16_t)corner;
    return at;
}

static int read_triangles(struct reading *reading, uint16_t *corners, size_t triangles) {
    for (size_t t = 0; t < triangles; t++) {
        const uint8_t *next = read_triangle(reading->at, reading->end, corners + 3 * t);
        if (next == 0) return 0;
        reading->at = next;
        reading->line++;
    }
    return 1;
}

/* Takes a line of the pitch, if the text begins with one, and gives the pitch. What begins otherwise is left for the next line. */
static uint32_t read_pitch(struct reading *reading) {
    static const struct {
        const char *line;
        size_t length;
        uint32_t pitch;
    } heads[3] = {{"pitch=2\n", 8, 2}, {"pitch=5\n", 8, 5}, {"pitch=10\n", 9, 10}};
    size_t left = (size_t)(reading->end - reading->at);
    if (left < 9 || reading->at[1] != 'i') return 1;
    for (size_t h = 0; h < 3; h++) {
        if (memcmp(reading->at, heads[h].line, heads[h].length) != 0) continue;
        reading->at += heads[h].length;
        reading->line++;
        return heads[h].pitch;
    }
    return 1;
}

/* Reads all lines; on 0 the line due is wrong. */
static int read_lines(struct reading *reading, uint32_t *words, size_t *points, uint16_t *corners, size_t *triangles) {
    return read_count(reading, "points=", POINTS, points) && read_points(reading, words, *points)
        && read_count(reading, "triangles=", TRIANGLES, triangles) && read_triangles(reading, corners, *triangles);
}

/* The text is read into a room of its own, since a refusal leaves the lent ones as they were. */
uint32_t baseline_read(const uint8_t *text, size_t text_length, uint32_t *words, size_t words_length, uint16_t *corners,
                       size_t corners_length, size_t *place, size_t *words_read, size_t *corners_read, uint32_t *pitch) {
    uint32_t own_words[WORDS];
    uint16_t own_corners[CORNERS];
    size_t ended = text_length, points, triangles;
    *words_read = *corners_read = 0;
    *pitch = 0;
    while (ended > 0 && text[ended - 1] != '\n') ended--;
    struct reading reading = {text, text + ended, 1};
    uint32_t own_pitch = read_pitch(&reading);
    if (!read_lines(&reading, own_words, &points, own_corners, &triangles)) return answer(10, reading.line, place);
    if (reading.at != text + text_length) return answer(10, reading.line, place);
    if (words_length < 3 * points) return answer(3, 1, place);
    if (corners_length < 3 * triangles) return answer(3, 2, place);
    const struct surface surface = {own_words, 3 * points, own_corners, 3 * triangles, own_pitch};
    if (refuse_corners(&surface, place) != 0) return 4;
    memcpy(words, own_words, 3 * points * sizeof *words);
    memcpy(corners, own_corners, 3 * triangles * sizeof *corners);
    *words_read = 3 * points;
    *corners_read = 3 * triangles;
    *pitch = own_pitch;
    return 0;
}

/* ---- Reading files of facets ---- */

enum {
    FRONT = 84,
    COUNT_AT = 80,
    NORMAL = 12,
    CORNER = 12,
    FACET = 50,
    FEWEST_BUCKETS = 16
};

#define NEGATIVE_ZERO 0x80000000u

/* The points met so far, numbered from 1 by first use, each in the chain of its bucket. Whether they are too many is asked once a facet, so
   that there is room for three more. */
struct points {
    uint16_t last[POINTS];
    uint16_t before[POINTS + 4];
    uint32_t words[POINTS + 4][3];
};

static inline uint32_t word_at(const uint8_t *at) {
    return at[0] | (uint32_t)at[1] << 8 | (uint32_t)at[2] << 16 | (uint32_t)at[3] << 24;
}

static inline uint32_t plain_word_at(const uint8_t *at) {
    uint32_t word = word_at(at);
    return word == NEGATIVE_ZERO ? 0 : word;
}

/* The number, from 0, of the point at a place of the file. */
static inline uint16_t meet_point(struct points *points, size_t *met, size_t buckets, const uint8_t *at) {
    uint32_t a = plain_word_at(at), b = plain_word_at(at + 4), c = plain_word_at(at + 8);
    size_t bucket = baseline_bucket(a, b, c, buckets), p = points->last[bucket];
    for (; p != 0; p = points->before[p])
        if (points->words[p][0] == a && points->words[p][1] == b && points->words[p][2] == c) return (uint16_t)(p - 1);
    p = ++*met;
    points->words[p][0] = a;
    points->words[p][1] = b;
    points->words[p][2] = c;
    points->before[p] = points->last[bucket];
    points->last[bucket] = (uint16_t)p;
    return (uint16_t)(p - 1);
}

/* Lays the number of each corner's point and gives how many points there are, or more than may be. */
static inline size_t meet_points(struct points *points, const uint8_t *file, size_t facets, uint16_t *corners) {
    size_t met = 0, buckets = FEWEST_BUCKETS;
    while (buckets < POINTS && buckets < 3 * facets) buckets *= 2;
    memset(points->last, 0, buckets * sizeof *points->last);
    const uint8_t *at = file + FRONT, *end = at + FACET * facets;
    for (; at != end; at += FACET, corners += 3) {
        corners[0] = meet_point(points, &met, buckets, at + NORMAL);
        corners[1] = meet_point(points, &met, buckets, at + NORMAL + CORNER);
        corners[2] = meet_point(points, &met, buckets, at + NORMAL + 2 * CORNER);
        if (met > POINTS) break;
    }
    return met;
}

uint32_t baseline_read_stl(const uint8_t *file, size_t file_length, uint32_t *words, size_t words_length, uint16_t *corners,
                           size_t corners_length, size_t *place, size_t *words_read, size_t *corners_read) {
    struct points points;
    uint16_t own_corners[CORNERS];
    *words_read = *corners_read = 0;
    if (file_length < FRONT) return answer(16, 0, place);
    size_t facets = word_at(file + COUNT_AT);
    if (file_length != FRONT + FACET * facets) return answer(16, 0, place);
    if (facets > TRIANGLES) return answer(2, 0, place);
    size_t met = meet_points(&points, file, facets, own_corners);
    if (met > POINTS) return answer(1, 0, place);
    if (words_length < 3 * met) return answer(3, 1, place);
    if (corners_length < 3 * facets) return answer(3, 2, place);
    memcpy(words, points.words[1], 3 * met * sizeof *words);
    memcpy(corners, own_corners, 3 * facets * sizeof *corners);
    *words_read = 3 * met;
    *corners_read = 3 * facets;
    return answer(0, 0, place);
}

/* ---- Writing texts ---- */

static uint16_t count_digits(uint16_t value) {
    return (uint16_t)(5 - (value < 10) - (value < 100) - (value < 1000) - (value < 10000));
}

/* How long the text is: a line of the pitch where it is not 1, two counts with their keys, the point lines, and triangle lines of a key,
   three numbers and their marks. The digits of all corners are at most 15,360, so that they are counted in the corners' own 16 bits. */
static size_t text_needed(const struct surface *surface) {
    size_t points = surface->words_count / 3, triangles = surface->corners_count / 3;
    uint16_t digits = 0;
    for (size_t c = 0; c < surface->corners_count; c++) digits = (uint16_t)(digits + count_digits(surface->corners[c]));
    size_t head = surface->pitch == 1 ? 0 : surface->pitch == 10 ? 9 : 8;
    return head + 8 + count_digits((uint16_t)points) + LINE * points + 11 + count_digits((uint16_t)triangles) + 5 * triangles + digits;
}

static inline uint8_t *write_key(uint8_t *at, const char *key) {
    memcpy(at, key, strlen(key));
    return at + strlen(key);
}

/* A number below 10,000 and what comes after it. */
static uint8_t *write_decimal(uint8_t *at, uint32_t value, uint8_t mark) {
    if (value > 9) {
        if (value > 99) {
            if (value > 999) {
                *at++ = (uint8_t)('0' + value / 1000);
                value %= 1000;
            }
            *at++ = (uint8_t)('0' + value / 100);
            value %= 100;
        }
        *at++ = (uint8_t)('0' + value / 10);
        value %= 10;
    }
    at[0] = (uint8_t)('0' + value);
    at[1] = mark;
    return at + 2;
}

/* The two hexadecimal digits of every byte, one after the other. */
#define PAIRS(h) h "0" h "1" h "2" h "3" h "4" h "5" h "6" h "7" h "8" h "9" h "a" h "b" h "c" h "d" h "e" h "f"
static const char pairs[] = PAIRS("0") PAIRS("1") PAIRS("2") PAIRS("3") PAIRS("4") PAIRS("5") PAIRS("6") PAIRS("7")
    PAIRS("8") PAIRS("9") PAIRS("a") PAIRS("b") PAIRS("c") PAIRS("d") PAIRS("e") PAIRS("f");

static void write_pair(uint8_t *at, uint8_t byte) {
    memcpy(at, pairs + 2 * (size_t)byte, 2);
}

static uint8_t *write_word(uint8_t *at, uint32_t word, uint8_t mark) {
    write_pair(at, (uint8_t)(word >> 24));
    write_pair(at + 2, (uint8_t)(word >> 16));
    write_pair(at + 4, (uint8_t)(word >> 8));
    write_pair(at + 6, (uint8_t)word);
    at[8] = mark;
    return at + 9;
}

static uint8_t *write_points(uint8_t *at, const uint32_t *words, size_t count) {
    for (size_t w = 0; w < count; w += 3) {
        *at++ = 'p';
        *at++ = '=';
        at = write_word(at, words[w], ',');
        at = write_word(at, words[w + 1], ',');
        at = write_word(at, words[w + 2], '\n');
    }
    return at;
}

/* A corner in its own digits with the comma after it, and how many bytes these are. */
struct decimal {
    uint8_t text[7];
    uint8_t length;
};

#define ONE(d) {{'0' + d, ','}, 2}
#define TWO(c, d) {{'0' + c, '0' + d, ','}, 3}
#define THREE(b, c, d) {{'0' + b, '0' + c, '0' + d, ','}, 4}
#define FOUR(a, b, c, d) {{'0' + a, '0' + b, '0' + c, '0' + d, ','}, 5}
#define ALL_TWO(c) \
    TWO(c, 0), TWO(c, 1), TWO(c, 2), TWO(c, 3), TWO(c, 4), TWO(c, 5), TWO(c, 6), TWO(c, 7), TWO(c, 8), TWO(c, 9)
#define TEN_THREE(b, c) \
    THREE(b, c, 0), THREE(b, c, 1), THREE(b, c, 2), THREE(b, c, 3), THREE(b, c, 4), \
    THREE(b, c, 5), THREE(b, c, 6), THREE(b, c, 7), THREE(b, c, 8), THREE(b, c, 9)
#define ALL_THREE(b) \
    TEN_THREE(b, 0), TEN_THREE(b, 1), TEN_THREE(b, 2), TEN_THREE(b, 3), TEN_THREE(b, 4), \
    TEN_THREE(b, 5), TEN_THREE(b, 6), TEN_THREE(b, 7), TEN_THREE(b, 8), TEN_THREE(b, 9)
#define TEN_FOUR(c) \
    FOUR(1, 0, c, 0), FOUR(1, 0, c, 1), FOUR(1, 0, c, 2), FOUR(1, 0, c, 3), FOUR(1, 0, c, 4), \
    FOUR(1, 0, c, 5), FOUR(1, 0, c, 6), FOUR(1, 0, c, 7), FOUR(1, 0, c, 8), FOUR(1, 0, c, 9)

static const struct decimal decimals[POINTS] = {
    ONE(0), ONE(1), ONE(2), ONE(3), ONE(4), ONE(5), ONE(6), ONE(7), ONE(8), ONE(9),
    ALL_TWO(1), ALL_TWO(2), ALL_TWO(3), ALL_TWO(4), ALL_TWO(5), ALL_TWO(6), ALL_TWO(7), ALL_TWO(8), ALL_TWO(9),
    ALL_THREE(1), ALL_THREE(2), ALL_THREE(3), ALL_THREE(4), ALL_THREE(5), ALL_THREE(6), ALL_THREE(7), ALL_THREE(8), ALL_THREE(9),
    TEN_FOUR(0), TEN_FOUR(1), FOUR(1, 0, 2, 0), FOUR(1, 0, 2, 1), FOUR(1, 0, 2, 2), FOUR(1, 0, 2, 3)};

/* The whole entry is stored, which is quick: there has to be room for 8 bytes, and what is too much is written over by what follows. */
static uint8_t *write_corner(uint8_t *at, uint16_t corner) {
    memcpy(at, &decimals[corner], sizeof *decimals);
    return at + decimals[corner].length;
}

/* The last line is written byte by byte, since nothing follows it; it has 8 bytes or more, so that a line before has the room. */
static void write_triangles(uint8_t *at, const uint16_t *corners, size_t count) {
    if (count == 0) return;
    const uint16_t *last = corners + count - 3;
    for (; corners != last; corners += 3) {
        *at++ = 't';
        *at++ = '=';
        at = write_corner(at, corners[0]);
        at = write_corner(at, corners[1]);
        at = write_corner(at, corners[2]);
        at[-1] = '\n';
    }
    at = write_key(at, "t=");
    at = write_decimal(at, last[0], ',');
    at = write_decimal(at, last[1], ',');
    write_decimal(at, last[2], '\n');
}

uint32_t baseline_write(const uint32_t *words, size_t words_count, const uint16_t *corners, size_t corners_count,
                        uint8_t *text, size_t text_length, size_t *place, size_t *bytes, uint32_t pitch) {
    const struct surface surface = {words, words_count, corners, corners_count, pitch};
    *bytes = 0;
    uint32_t number = refuse_counts(words_count, corners_count, pitch, place);
    if (number != 0) return number;
    size_t needed = text_needed(&surface);
    if (text_length < needed) return answer(3, 1, place);
    if (refuse_corners(&surface, place) != 0) return 4;
    if (pitch != 1) text = write_decimal(write_key(text, "pitch="), pitch, '\n');
    uint8_t *at = write_decimal(write_key(text, "points="), (uint32_t)(words_count / 3), '\n');
    at = write_points(at, words, words_count);
    at = write_decimal(write_key(at, "triangles="), (uint32_t)(corners_count / 3), '\n');
    write_triangles(at, corners, corners_count);
    *bytes = needed;
    return 0;
}
