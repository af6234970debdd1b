/* Checks of the reference against itself, over generated surfaces, sets and texts. */

#include "self.h"

#include <stdio.h>
#include <string.h>

#include "generate.h"
#include "reference.h"
#include "sheets.h"

/* ---- Faults and tallies ---- */

enum tally {
    TALLY_PATCHED, TALLY_LOOPS, TALLY_HOLES, TALLY_LONG, TALLY_NO_COVER, TALLY_RIMS, TALLY_LONG_RIMS, TALLY_EQUAL_RUNS,
    TALLY_SHORTER_RIMS, TALLY_PIECES, TALLY_CLOSED_PIECES, TALLY_BEHIND_CLOSED, TALLY_SPLIT, TALLY_LATER_FIRST, TALLY_GREATER_FIRST,
    TALLY_SHORT_RECORDS, TALLY_POOLS, TALLY_LAKES, TALLY_AT_OTHER_RIMS, TALLY_SHORT_REPORT, TALLY_ENUMERATED,
    TALLY_IS_NO_COVER, TALLY_IS_COVER, TALLY_VERDICT, TALLY_RIM_REFUSED, TALLY_HOLE_NO_RIM, TALLY_READ, TALLY_WRONG_LINE,
    TALLY_FILES_READ, TALLY_JOINED, TALLY_MISFITS, TALLY_MANY_FACETS, TALLY_MANY_POINTS,
    TALLY_COARSE, TALLY_COARSE_HOLES, TALLY_COARSE_WEIGHED, TALLY_COARSE_READ, TALLY_COARSE_WRONG_LINE, TALLY_COARSE_TIES, TALLY_COARSE_FAR,
    TALLIES
};

static const char *const tally_names[TALLIES] = {
    "surfaces patched", "loops", "loops of state 1", "loops of state 2", "loops of state 3", "loops of state 4",
    "loops of state 4 that are long", "loops whose run is their rim's", "loops of more edges than their rim",
    "pieces", "pieces without a loop", "loops in a piece that is numbered behind one without a loop", "cycles of several loops",
    "loops listed from another half-edge than their cycle is walked from", "loops listed from another half-edge than their smallest",
    "records that are too short by one for each triangle, or by more",
    "tide pools", "lakes", "lakes that have a vertex of another piece's rim", "reports that are too short",
    "loops compared with all their covers", "lists tested that are no cover", "lists tested that are a cover",
    "verdicts compared with all covers", "verdicts on a rim that is not declared 4",
    "verdicts on a loop that is no rim and declared 4", "texts read and written again", "texts with a wrong line",
    "files of facets read", "corners that are a point met before", "files whose length does not fit", "files of too many facets",
    "files of too many points", "surfaces patched at a coarse pitch", "their loops of state 1", "of these with a weight",
    "texts read with a pitch line", "texts with a wrong line after a pitch line", "ties at a coarse pitch",
    "coordinates too far at a coarse pitch"};

static size_t faults;
static size_t tallies[TALLIES];
#define HIGHEST 17
static size_t patch_numbers[HIGHEST + 1];
static size_t check_numbers[HIGHEST + 1];
static uint64_t self_seed;

static void expect(int holds, const char *what)
{
    if (!holds) {
        faults += 1;
        printf("seed %llu: %s\n", (unsigned long long)self_seed, what);
    }
}

/* ---- Lent buffers ---- */

/* The buffers of a patcher, and those of others, with a mark in every place, as long as they can be lent. */
#define GRID_ROOM (GENERATE_WORD_ROOM + 8)
#define RING_ROOM (GENERATE_CORNER_ROOM + 8)
#define RECORD_ROOM (REFERENCE_RECORD * (GENERATE_CORNER_ROOM / 3) + 8)
#define PATCH_ROOM (3 * GENERATE_CORNER_ROOM + 8)
#define REPORT_ROOM (2 * REFERENCE_ENTRY * (GENERATE_CORNER_ROOM / 3) + 8)
#define MARK 0xa5
#define NO_PIECE 0xffff

static struct lent {
    int32_t grid[GRID_ROOM];
    uint16_t rings[RING_ROOM];
    uint16_t lengths[RING_ROOM];
    uint64_t records[RECORD_ROOM];
    uint16_t patches[PATCH_ROOM];
    uint16_t report[REPORT_ROOM];
} lent, other;

/* What the patcher left of a loop. */
static size_t length_of(size_t loop)
{
    return (size_t)reference_kept(lent.records, loop, REFERENCE_LENGTH);
}

static size_t state_of(size_t loop)
{
    return (size_t)reference_kept(lent.records, loop, REFERENCE_STATE);
}

static uint64_t weight_of(size_t loop)
{
    return reference_kept(lent.records, loop, REFERENCE_WEIGHT);
}

static size_t first_of(size_t loop)
{
    return (size_t)reference_kept(lent.records, loop, REFERENCE_FIRST);
}

static int is_marked(const void *bytes, size_t used, size_t size)
{
    const unsigned char *byte = bytes;
    for (size_t b = used; b < size; b++) {
        if (byte[b] != MARK) {
            return 0;
        }
    }
    return 1;
}

/* "everything after that stays." The patcher leaves records and patches, the report records and entries, and the others lengths. */
static void expect_rest_stays(const struct lent *l, size_t words, size_t vertices, size_t lengths,
                              size_t records, size_t corners, size_t entries)
{
    expect(is_marked(l->grid, words * sizeof l->grid[0], sizeof l->grid), "grid is written past its end");
    expect(is_marked(l->rings, 2 * vertices, sizeof l->rings), "rings are written past their end");
    expect(is_marked(l->lengths, 2 * lengths, sizeof l->lengths), "lengths are written past their end");
    expect(is_marked(l->records, 7 * 8 * records, sizeof l->records), "records are written past their end");
    expect(is_marked(l->patches, 2 * corners, sizeof l->patches), "patches are written past their end");
    expect(is_marked(l->report, 4 * entries, sizeof l->report), "the report is written past its end");
}

static void patch_lent(const struct generated_surface *s, struct reference_patch_answer *answer)
{
    memset(&lent, MARK, sizeof lent);
    reference_patch(s->words, s->word_count, s->corners, s->corner_count,
                    lent.grid, s->lent[0], lent.rings, s->lent[1], lent.records, s->lent[2],
                    lent.patches, s->lent[3], s->pitch, answer);
    expect_rest_stays(&lent, answer->number == 0 ? s->word_count : 0, answer->vertices, 0,
                      answer->loops, answer->corners, 0);
}

static void report_lent(const struct generated_surface *s, struct reference_report_answer *answer)
{
    memset(&other, MARK, sizeof other);
    reference_report(s->words, s->word_count, s->corners, s->corner_count,
                     other.grid, s->lent[0], other.rings, s->lent[1], other.records, s->lent[2],
                     other.report, s->report_lent, s->pitch, answer);
    expect_rest_stays(&other, answer->number == 0 ? s->word_count : 0, answer->vertices, 0,
                      answer->loops, 0, answer->entries);
}

static void check_lent(const struct generated_surface *s, const struct generated_set *set,
                       struct reference_answer *answer)
{
    memset(&other, MARK, sizeof other);
    reference_check(s->words, s->word_count, s->corners, s->corner_count,
                    set->states, set->state_count, set->corners, set->corner_count,
                    other.grid, s->lent[0], other.rings, s->lent[1], other.lengths, s->lengths_lent, s->pitch, answer);
    int judged = answer->number == 0 || (answer->number >= 11 && answer->number <= 15);
    expect_rest_stays(&other, judged ? s->word_count : 0,
                      answer->vertices, answer->loops, 0, 0, 0);
}

/* ---- Loops ---- */

/* Between two ring neighbours runs one open edge of the surface, not met before. */
static void expect_ring(const struct generated_surface *s, const uint16_t *ring, size_t length,
                        unsigned char *met)
{
    expect(length >= 3, "a ring has fewer than 3 vertices");
    for (size_t v = 0; v < length; v++) {
        size_t h = reference_find_edge(s->corners, s->corner_count, ring[v], ring[(v + 1) % length]);
        expect(h != REFERENCE_NO_EDGE, "a ring position is no half-edge");
        if (h != REFERENCE_NO_EDGE) {
            expect(reference_is_open(s->corners, s->corner_count, h), "a ring position is not open");
            expect(!met[h], "an open edge is in two ring positions");
            met[h] = 1;
        }
        for (size_t w = 0; w < v; w++) {
            expect(ring[w] != ring[v], "a ring has a vertex twice");
        }
    }
}

/* Each open edge lies in exactly one ring position. */
static void expect_rings(const struct generated_surface *s, size_t loops, size_t vertices)
{
    static unsigned char met[GENERATE_CORNER_ROOM];
    const uint16_t *ring = lent.rings;
    size_t open = 0;
    memset(met, 0, sizeof met);
    for (size_t loop = 0; loop < loops; loop++) {
        expect_ring(s, ring, length_of(loop), met);
        ring += length_of(loop);
    }
    for (size_t h = 0; h < s->corner_count; h++) {
        if (reference_is_open(s->corners, s->corner_count, h)) {
            open += 1;
            expect(met[h], "an open edge is in no ring");
        }
    }
    expect(open == vertices, "ring vertices are not as many as open edges");
    expect((size_t)(ring - lent.rings) == vertices, "the lengths do not add up to the ring vertices");
}

/* ---- A second look at the loops ---- */

/* Whether the triangles of half-edges g and h share an edge at v, run through in both directions. */
static int share_edge_at(const uint16_t *corners, size_t g, size_t h, uint16_t v)
{
    for (size_t a = g - g % 3; a < g - g % 3 + 3; a++) {
        for (size_t b = h - h % 3; b < h - h % 3 + 3; b++) {
            if (reference_start(corners, a) == reference_end(corners, b)
                && reference_end(corners, a) == reference_start(corners, b)
                && (reference_start(corners, a) == v || reference_end(corners, a) == v)) {
                return 1;
            }
        }
    }
    return 0;
}

/* The open edge that leaves the end v of the open edge h in the fan of h: the fan is all triangles
   at v that are reached from that of h over shared edges at v. Each is known by its edge that leaves v. */
static size_t next_in_fan(const struct generated_surface *s, size_t h)
{
    static size_t fan[GENERATE_CORNER_ROOM];
    static unsigned char in_fan[GENERATE_CORNER_ROOM];
    uint16_t v = reference_end(s->corners, h);
    size_t count = 1;
    memset(in_fan, 0, sizeof in_fan);
    fan[0] = reference_following(h);
    in_fan[fan[0]] = 1;
    for (size_t f = 0; f < count; f++) {
        for (size_t g = 0; g < s->corner_count; g++) {
            if (reference_start(s->corners, g) == v && !in_fan[g]
                && share_edge_at(s->corners, g, fan[f], v)) {
                in_fan[g] = 1;
                fan[count] = g;
                count += 1;
            }
        }
    }
    for (size_t f = 0; f < count; f++) {
        if (reference_is_open(s->corners, s->corner_count, fan[f])) {
            return fan[f];
        }
    }
    return REFERENCE_NO_EDGE;
}

/* What a second look finds, the loops one after the other. */
static struct {
    uint16_t rings[GENERATE_CORNER_ROOM];
    size_t firsts[GENERATE_CORNER_ROOM];
    size_t vertices;
    size_t loops;
} seen;

/* Takes out of a cycle, again and again, the loop that closes first; gives how many there were. */
static size_t split_cycle(const uint16_t *corners, size_t *cycle, size_t count)
{
    size_t walked_from = cycle[0];
    size_t loops = 0;
    size_t last = 0;
    while (last < count) {
        uint16_t x = reference_end(corners, cycle[last]);
        size_t first = 0;
        while (first <= last && reference_start(corners, cycle[first]) != x) {
            first += 1;
        }
        if (first > last) {
            last += 1;
            continue;
        }
        size_t smallest = cycle[first];
        for (size_t e = first; e <= last; e++) {
            seen.rings[seen.vertices] = reference_start(corners, cycle[e]);
            seen.vertices += 1;
            smallest = cycle[e] < smallest ? cycle[e] : smallest;
        }
        seen.firsts[seen.loops] = cycle[first];
        seen.loops += 1;
        tallies[TALLY_LATER_FIRST] += cycle[first] != walked_from;
        tallies[TALLY_GREATER_FIRST] += cycle[first] != smallest;
        memmove(cycle + first, cycle + last + 1, (count - last - 1) * sizeof cycle[0]);
        count -= last + 1 - first;
        last = 0;
        loops += 1;
    }
    expect(count == 0, "a cycle leaves a path behind");
    return loops;
}

/* The rings found over fans and whole cycles, and the half-edges they begin with, are those of the patcher. */
static void expect_second_look(const struct generated_surface *s, size_t loops, size_t vertices)
{
    static unsigned char walked[GENERATE_CORNER_ROOM];
    static size_t cycle[GENERATE_CORNER_ROOM];
    seen.vertices = 0;
    seen.loops = 0;
    memset(walked, 0, sizeof walked);
    for (size_t first = 0; first < s->corner_count; first++) {
        size_t count = 0;
        size_t h = first;
        if (!reference_is_open(s->corners, s->corner_count, first)) {
            continue;
        }
        while (h != REFERENCE_NO_EDGE && !walked[h]) {
            walked[h] = 1;
            cycle[count] = h;
            count += 1;
            h = next_in_fan(s, h);
        }
        expect(count == 0 || h == first, "a cycle does not close");
        tallies[TALLY_SPLIT] += split_cycle(s->corners, cycle, count) > 1;
    }
    expect(seen.loops == loops && seen.vertices == vertices
               && memcmp(seen.rings, lent.rings, vertices * sizeof seen.rings[0]) == 0,
           "a second look finds other loops");
    for (size_t loop = 0; loop < loops; loop++) {
        expect(first_of(loop) == seen.firsts[loop], "a second look finds another first half-edge");
    }
}

/* ---- A second look at pieces and rims ---- */

/* Gives a triangle, and from it all that it is joined to, their piece's number: flooding, where the reference relabels. */
static void flood(const uint16_t *corners, size_t corner_count, size_t triangle, uint16_t number, uint16_t *pieces)
{
    static size_t waiting[REFERENCE_MOST_TRIANGLES];
    size_t count = 1;
    waiting[0] = triangle;
    pieces[triangle] = number;
    while (count > 0) {
        size_t t = waiting[count - 1];
        count -= 1;
        for (size_t h = 0; h < corner_count; h++) {
            size_t back = pieces[h / 3] == NO_PIECE
                ? reference_find_edge(corners + 3 * t, 3, reference_end(corners, h), reference_start(corners, h))
                : REFERENCE_NO_EDGE;
            if (back != REFERENCE_NO_EDGE) {
                pieces[h / 3] = number;
                waiting[count] = h / 3;
                count += 1;
            }
        }
    }
}

/* The pieces found by flooding are those of the reference; gives how many there are. */
static size_t expect_pieces(const struct generated_surface *s, uint16_t *pieces)
{
    static uint16_t seen[REFERENCE_MOST_TRIANGLES];
    size_t triangles = s->corner_count / 3;
    uint16_t count = 0;
    for (size_t t = 0; t < triangles; t++) {
        pieces[t] = NO_PIECE;
    }
    for (size_t t = 0; t < triangles; t++) {
        if (pieces[t] == NO_PIECE) {
            flood(s->corners, s->corner_count, t, count, pieces);
            count += 1;
        }
    }
    reference_pieces(s->corners, s->corner_count, seen);
    expect(memcmp(seen, pieces, triangles * sizeof seen[0]) == 0, "a second look finds other pieces");
    return count;
}

/* How far it is along the three axes from the start of an open edge to its end. */
static int64_t stride(const uint16_t *corners, size_t h)
{
    const int32_t *from = lent.grid + 3 * (size_t)reference_start(corners, h);
    const int32_t *to = lent.grid + 3 * (size_t)reference_end(corners, h);
    int64_t sum = 0;
    for (size_t axis = 0; axis < 3; axis++) {
        sum += from[axis] < to[axis] ? (int64_t)to[axis] - from[axis] : (int64_t)from[axis] - to[axis];
    }
    return sum;
}

/* A record has the piece and the run that were found here, a first half-edge along which its ring begins, and 0 for a count. */
static void expect_record(const struct generated_surface *s, size_t loop, const uint16_t *ring, size_t piece, int64_t run)
{
    size_t first = first_of(loop);
    expect(reference_kept(lent.records, loop, REFERENCE_PIECE) == piece, "a second look finds another piece of a loop");
    expect(reference_kept(lent.records, loop, REFERENCE_RUN) == (uint64_t)run, "a second look finds another run");
    expect(reference_kept(lent.records, loop, REFERENCE_COUNT) == 0, "a record's count is not 0");
    expect(first < s->corner_count && reference_is_open(s->corners, s->corner_count, first)
               && reference_start(s->corners, first) == ring[0] && reference_end(s->corners, first) == ring[1],
           "a first half-edge does not run from the ring's first vertex to its second");
}

/* For each piece the best loop is kept as the loops go by, their edges taken from the surface; it alone has state 4. */
static void expect_records(const struct generated_surface *s, size_t loops)
{
    static uint16_t pieces[REFERENCE_MOST_TRIANGLES];
    static size_t best[REFERENCE_MOST_TRIANGLES];
    static int64_t best_run[REFERENCE_MOST_TRIANGLES];
    static int64_t runs[REFERENCE_MOST_TRIANGLES];
    static size_t piece_of[REFERENCE_MOST_TRIANGLES];
    const uint16_t *ring = lent.rings;
    size_t count = expect_pieces(s, pieces);
    size_t closed = 0;
    for (size_t piece = 0; piece < count; piece++) {
        best[piece] = loops;
        best_run[piece] = -1;
    }
    for (size_t loop = 0; loop < loops; loop++) {
        size_t length = length_of(loop);
        runs[loop] = 0;
        for (size_t v = 0; v < length; v++) {
            size_t h = reference_find_edge(s->corners, s->corner_count, ring[v], ring[v + 1 < length ? v + 1 : 0]);
            runs[loop] += stride(s->corners, h);
            expect(v == 0 || pieces[h / 3] == piece_of[loop], "a loop lies in two pieces");
            piece_of[loop] = pieces[h / 3];
        }
        if (runs[loop] > best_run[piece_of[loop]]) {
            best_run[piece_of[loop]] = runs[loop];
            best[piece_of[loop]] = loop;
        }
        expect_record(s, loop, ring, piece_of[loop], runs[loop]);
        ring += length;
    }
    for (size_t loop = 0; loop < loops; loop++) {
        size_t rim = best[piece_of[loop]];
        expect((state_of(loop) == 4) == (rim == loop), "a second look finds another rim");
        expect(rim != loop || weight_of(loop) == 0, "a rim has a weight");
        tallies[TALLY_RIMS] += rim == loop;
        tallies[TALLY_LONG_RIMS] += rim == loop && length_of(loop) > REFERENCE_LONGEST_LOOP;
        tallies[TALLY_EQUAL_RUNS] += rim != loop && runs[rim] == runs[loop] && runs[loop] > 0;
        tallies[TALLY_SHORTER_RIMS] += length_of(rim) < length_of(loop);
    }
    tallies[TALLY_PIECES] += count;
    for (size_t piece = 0; piece < count; piece++) {
        tallies[TALLY_BEHIND_CLOSED] += best[piece] != loops && closed > 0;
        closed += best[piece] == loops;
    }
    tallies[TALLY_CLOSED_PIECES] += closed;
}

/* ---- A second look at the report ---- */

/* What was seen of each loop in the report, REFERENCE_KINDS where nothing was; of each ring vertex its loop; and of each loop whether it has
   a vertex of the rim of its own piece, and of another's. */
static struct {
    size_t kinds[REFERENCE_MOST_TRIANGLES];
    size_t loops[REFERENCE_MOST_CORNERS];
    int at_own_rim[REFERENCE_MOST_TRIANGLES];
    int at_other_rim[REFERENCE_MOST_TRIANGLES];
} told_of;

/* Any two places of the rings that have the same vertex. */
static void find_meetings(size_t loops, size_t vertices)
{
    size_t at = 0;
    for (size_t loop = 0; loop < loops; loop++) {
        told_of.kinds[loop] = REFERENCE_KINDS;
        told_of.at_own_rim[loop] = 0;
        told_of.at_other_rim[loop] = 0;
        for (size_t v = 0; v < length_of(loop); v++) {
            told_of.loops[at] = loop;
            at += 1;
        }
    }
    for (size_t v = 0; v < vertices; v++) {
        for (size_t w = 0; w < vertices; w++) {
            size_t loop = told_of.loops[v];
            size_t rim = told_of.loops[w];
            if (lent.rings[v] == lent.rings[w] && state_of(rim) == 4) {
                int own = reference_kept(lent.records, loop, REFERENCE_PIECE) == reference_kept(lent.records, rim, REFERENCE_PIECE);
                *(own ? &told_of.at_own_rim[loop] : &told_of.at_other_rim[loop]) = 1;
            }
        }
    }
}

/* Every loop stands in the report once, behind the entry of its piece, as what it is. */
static void expect_kinds(size_t loops)
{
    for (size_t loop = 0; loop < loops; loop++) {
        size_t due = state_of(loop) == 4 ? REFERENCE_IS_RIM : told_of.at_own_rim[loop] ? REFERENCE_IS_POOL : REFERENCE_IS_LAKE;
        expect(told_of.kinds[loop] == due, "a second look finds another kind of a loop, or none");
        tallies[TALLY_POOLS] += due == REFERENCE_IS_POOL;
        tallies[TALLY_LAKES] += due == REFERENCE_IS_LAKE;
        tallies[TALLY_AT_OTHER_RIMS] += due == REFERENCE_IS_LAKE && told_of.at_other_rim[loop];
    }
}

/* The entries one after the other: pieces ascend one by one, kinds ascend within a piece, and loops within a kind. */
static void expect_report(const struct generated_surface *s, const struct reference_patch_answer *patch)
{
    static uint16_t pieces[REFERENCE_MOST_TRIANGLES];
    struct generated_surface exact = *s;
    struct reference_report_answer answer;
    size_t piece = (size_t)-1;
    size_t kind = 0;
    size_t number = 0;
    exact.report_lent = REFERENCE_MOST_REPORT;
    report_lent(&exact, &answer);
    expect(answer.number == 0 && answer.loops == patch->loops && answer.vertices == patch->vertices, "the report finds other loops");
    expect(memcmp(other.records, lent.records, sizeof lent.records) == 0 && memcmp(other.rings, lent.rings, sizeof lent.rings) == 0
               && memcmp(other.grid, lent.grid, sizeof lent.grid) == 0, "the report leaves other loops than the patcher");
    find_meetings(patch->loops, patch->vertices);
    for (size_t entry = 0; entry < answer.entries; entry++) {
        size_t before = kind;
        size_t last = number;
        kind = other.report[2 * entry];
        number = other.report[2 * entry + 1];
        if (kind == 0) {
            piece += 1;
            expect(number == piece, "pieces do not ascend one by one");
            continue;
        }
        expect(kind > before || (kind == before && number > last && kind != REFERENCE_IS_RIM), "entries are in another order");
        expect(kind < REFERENCE_KINDS && number < patch->loops && told_of.kinds[number] == REFERENCE_KINDS, "a loop is told twice");
        expect(reference_kept(lent.records, number, REFERENCE_PIECE) == piece, "a loop is told in another piece");
        told_of.kinds[number] = kind;
    }
    expect(piece + 1 == expect_pieces(s, pieces) && answer.entries == piece + 1 + patch->loops, "the report has other pieces");
    expect_kinds(patch->loops);
}

/* What the patcher refuses the report does too, but each has a fourth buffer of its own. */
static void expect_report_refusal(const struct generated_surface *s, const struct reference_patch_answer *patch)
{
    struct reference_report_answer answer;
    int own = patch->number == 3 && patch->place == 4;
    report_lent(s, &answer);
    if (answer.number == 3 && answer.place == 4) {
        expect(own || patch->number == 0 || patch->number > 3, "a report is refused that was refused before for something else");
        expect(s->report_lent < 4 * (s->corner_count / 3), "a report that is long enough is refused");
        tallies[TALLY_SHORT_REPORT] += 1;
    } else {
        expect(own || (answer.number == patch->number && answer.place == patch->place), "the report is refused for something else");
    }
    expect(answer.number == 0 || (answer.loops == 0 && answer.vertices == 0 && answer.entries == 0), "a refused report has a count");
}

/* ---- Patches ---- */

/* After patching no directed edge occurs twice, and the open edges left are those of unpatched loops, rims among them. */
static void expect_patched_surface(const struct generated_surface *s,
                                   const struct reference_patch_answer *answer)
{
    static uint16_t all[GENERATE_CORNER_ROOM + PATCH_ROOM];
    size_t count = s->corner_count + answer->corners;
    size_t unpatched = 0;
    size_t open = 0;
    memcpy(all, s->corners, s->corner_count * sizeof all[0]);
    memcpy(all + s->corner_count, lent.patches, answer->corners * sizeof all[0]);
    tallies[TALLY_COARSE] += s->pitch != 1;
    for (size_t loop = 0; loop < answer->loops; loop++) {
        tallies[TALLY_COARSE_HOLES] += s->pitch != 1 && state_of(loop) == 1;
        tallies[TALLY_COARSE_WEIGHED] += s->pitch != 1 && weight_of(loop) > 0;
        tallies[TALLY_HOLES] += state_of(loop) == 1;
        tallies[TALLY_LONG] += state_of(loop) == 2;
        tallies[TALLY_NO_COVER] += state_of(loop) == 3;
        unpatched += state_of(loop) == 1 ? 0 : length_of(loop);
    }
    for (size_t h = 0; h < count; h++) {
        size_t first = reference_find_edge(all, count, reference_start(all, h), reference_end(all, h));
        expect(first == h, "a directed edge occurs twice after patching");
        open += (size_t)reference_is_open(all, count, h);
    }
    expect(open == unpatched, "the open edges left are not those of unpatched loops");
}

/* ---- All covers of small loops ---- */

/* All covers of a small loop, one after another: the least allowed weight, the
   first cover of that weight in the order of the tie rule, and whether the
   triangles asked about were met among the covers, with their weight and bars. */
struct enumeration {
    const struct reference_memo *memo;
    int64_t least;
    uint16_t best[3 * REFERENCE_LONGEST_LOOP];
    uint16_t cover[3 * REFERENCE_LONGEST_LOOP];
    size_t count;
    const uint16_t *asked;
    int met;
    int met_barred;
    int64_t met_weight;
};

/* Whether two lists of triangles are the same up to order and rotation: every
   triangle of the one occurs as often in the other. */
static int same_triangles(const uint16_t *a, const uint16_t *b, size_t triangles)
{
    for (size_t t = 0; t < triangles; t++) {
        size_t in_a = 0;
        size_t in_b = 0;
        for (size_t u = 0; u < triangles; u++) {
            for (size_t turn = 0; turn < 3; turn++) {
                in_a += a[3 * u + turn] == a[3 * t] && a[3 * u + (turn + 1) % 3] == a[3 * t + 1]
                    && a[3 * u + (turn + 2) % 3] == a[3 * t + 2];
                in_b += b[3 * u + turn] == a[3 * t] && b[3 * u + (turn + 1) % 3] == a[3 * t + 1]
                    && b[3 * u + (turn + 2) % 3] == a[3 * t + 2];
            }
        }
        if (in_a != in_b) {
            return 0;
        }
    }
    return 1;
}

/* Takes note of one whole cover. */
static void note_cover(struct enumeration *e)
{
    const struct reference_memo *memo = e->memo;
    int64_t total = 0;
    int barred = 0;
    for (size_t h = 0; h < e->count; h++) {
        size_t a = 0;
        size_t b = 0;
        while (memo->ring[a] != reference_start(e->cover, h)) {
            a += 1;
        }
        while (memo->ring[b] != reference_end(e->cover, h)) {
            b += 1;
        }
        barred = barred || reference_is_barred(memo, a, b);
    }
    for (size_t c = 0; c < e->count; c += 3) {
        total += reference_weight(memo->grid, e->cover[c], e->cover[c + 1], e->cover[c + 2]);
    }
    if (!barred && (e->least == REFERENCE_NO_COVER || total < e->least)) {
        e->least = total;
        memcpy(e->best, e->cover, e->count * sizeof e->cover[0]);
    }
    if (e->asked != NULL && same_triangles(e->cover, e->asked, e->count / 3)) {
        e->met = 1;
        e->met_barred = barred;
        e->met_weight = total;
    }
}

/* Stretches still to be covered are kept on a pile; each choice of m is tried in turn, smallest first. */
static void enumerate_covers(struct enumeration *e, const size_t (*pile)[2], size_t height)
{
    size_t higher[2 * REFERENCE_LONGEST_LOOP][2];
    if (height == 0) {
        note_cover(e);
        return;
    }
    size_t i = pile[height - 1][0];
    size_t k = pile[height - 1][1];
    memcpy(higher, pile, (height - 1) * sizeof higher[0]);
    if (k == i + 1) {
        enumerate_covers(e, (const size_t (*)[2])higher, height - 1);
        return;
    }
    for (size_t m = i + 1; m < k; m++) {
        const uint16_t *ring = e->memo->ring;
        const uint16_t triangle[3] = {ring[i], ring[k], ring[m]};
        memcpy(e->cover + e->count, triangle, sizeof triangle);
        e->count += 3;
        higher[height - 1][0] = m;
        higher[height - 1][1] = k;
        higher[height][0] = i;
        higher[height][1] = m;
        enumerate_covers(e, (const size_t (*)[2])higher, height + 1);
        e->count -= 3;
    }
}

static void enumerate_loop(struct enumeration *e, const struct reference_memo *memo, const uint16_t *asked)
{
    const size_t pile[1][2] = {{0, memo->length - 1}};
    e->memo = memo;
    e->least = REFERENCE_NO_COVER;
    e->count = 0;
    e->asked = asked;
    e->met = 0;
    enumerate_covers(e, pile, 1);
}

#define MOST_ENUMERATED 8

/* The patcher's choice on a small loop against all its covers. */
static void expect_least_cover(const struct generated_surface *s, size_t loop,
                               const uint16_t *ring, size_t laid)
{
    static struct reference_memo memo;
    static struct enumeration e;
    size_t length = length_of(loop);
    if (length > MOST_ENUMERATED || state_of(loop) == 4) {
        return;
    }
    reference_fill_memo(&memo, lent.grid, ring, length, s->corners, s->corner_count, lent.patches, laid);
    enumerate_loop(&e, &memo, NULL);
    if (e.least == REFERENCE_NO_COVER) {
        expect(state_of(loop) == 3, "a loop without an allowed cover has not state 3");
        return;
    }
    expect(state_of(loop) == 1, "a loop with an allowed cover has not state 1");
    expect(weight_of(loop) == (uint64_t)e.least, "the weight is not the least");
    expect(memcmp(e.best, lent.patches + laid, 3 * (length - 2) * sizeof e.best[0]) == 0,
           "the cover is not the first of the least ones");
    tallies[TALLY_ENUMERATED] += 1;
}

static void expect_least_covers(const struct generated_surface *s, size_t loops)
{
    const uint16_t *ring = lent.rings;
    size_t laid = 0;
    for (size_t loop = 0; loop < loops; loop++) {
        expect_least_cover(s, loop, ring, laid);
        laid += state_of(loop) == 1 ? 3 * (length_of(loop) - 2) : 0;
        ring += length_of(loop);
    }
}

/* The test of a cover on small loops of a set against all covers. */
static void expect_cover_test(const struct generated_surface *s,
                              const struct generated_set *set, size_t loops)
{
    static struct reference_memo memo;
    static struct enumeration e;
    const uint16_t *ring = lent.rings;
    size_t taken = 0;
    for (size_t loop = 0; loop < loops && loop < set->state_count; loop++) {
        size_t length = length_of(loop);
        size_t corners = 3 * (length - 2);
        if (set->states[loop] == 1 && length <= MOST_ENUMERATED && taken + corners <= set->corner_count) {
            reference_fill_memo(&memo, lent.grid, ring, length, s->corners, s->corner_count, NULL, 0);
            enumerate_loop(&e, &memo, set->corners + taken);
            expect(e.met == reference_is_cover(ring, length, set->corners + taken),
                   "the test of a cover is wrong");
            tallies[e.met ? TALLY_IS_COVER : TALLY_IS_NO_COVER] += 1;
        }
        taken += set->states[loop] == 1 ? corners : 0;
        ring += length;
    }
}

/* ---- The checker ---- */

/* The verdict on one small loop, told from all its covers. */
static size_t verdict_from_covers(const struct reference_memo *memo, size_t state,
                                  const uint16_t *next, size_t left)
{
    static struct enumeration e;
    int there = left >= 3 * (memo->length - 2);
    enumerate_loop(&e, memo, state == 1 && there ? next : NULL);
    if (state != 1 && (state != 3 || e.least != REFERENCE_NO_COVER)) {
        return 11;
    }
    if (state == 3) {
        return 0;
    }
    if (!e.met) {
        return 12;
    }
    if (e.met_barred) {
        return 13;
    }
    return e.met_weight > e.least ? 14 : 0;
}

/* The verdict on a set, told from all covers where every loop up to it is small or a rim. */
static void expect_verdict(const struct generated_surface *s, const struct generated_set *set,
                           size_t loops)
{
    static struct reference_memo memo;
    struct reference_answer answer;
    const uint16_t *ring = lent.rings;
    size_t taken = 0;
    size_t verdict = 0;
    size_t place = 0;
    for (size_t loop = 0; loop < loops && set->state_count == loops && verdict == 0; loop++) {
        size_t length = length_of(loop);
        if (state_of(loop) == 4) {
            verdict = set->states[loop] != 4 ? 11 : 0;
            tallies[TALLY_RIM_REFUSED] += verdict == 11;
        } else if (length > MOST_ENUMERATED) {
            return;
        } else {
            reference_fill_memo(&memo, lent.grid, ring, length, s->corners, s->corner_count,
                                set->corners, taken);
            verdict = verdict_from_covers(&memo, set->states[loop], set->corners + taken,
                                          set->corner_count - taken);
            tallies[TALLY_HOLE_NO_RIM] += set->states[loop] == 4 && verdict == 11;
        }
        place = verdict != 0 ? loop : 0;
        taken += set->states[loop] == 1 ? 3 * (length - 2) : 0;
        ring += length;
    }
    if (verdict == 0 && taken < set->corner_count) {
        verdict = 15;
        place = taken;
    }
    check_lent(s, set, &answer);
    if (set->state_count != loops) {
        expect(answer.number == 9 && answer.place == loops, "a wrong number of states is not 9");
    } else {
        expect(answer.number == verdict && answer.place == place, "a verdict is not that of all covers");
        tallies[TALLY_VERDICT] += 1;
    }
}

/* The patcher's own set is passed, as it stands. */
static void expect_own_set_passes(const struct generated_surface *s,
                                  const struct reference_patch_answer *patch)
{
    static struct generated_set own;
    struct reference_answer verdict;
    own.state_count = patch->loops;
    own.corner_count = patch->corners;
    for (size_t loop = 0; loop < patch->loops; loop++) {
        own.states[loop] = (uint16_t)state_of(loop);
    }
    memcpy(own.corners, lent.patches, patch->corners * sizeof own.corners[0]);
    check_lent(s, &own, &verdict);
    expect(verdict.number == 0 && verdict.place == 0, "the patcher's own set is not passed");
    expect(verdict.loops == patch->loops && verdict.vertices == patch->vertices,
           "the checker counts otherwise");
    expect(memcmp(other.grid, lent.grid, sizeof lent.grid) == 0, "the checker leaves another grid");
    expect(memcmp(other.rings, lent.rings, sizeof lent.rings) == 0, "the checker leaves other rings");
    for (size_t loop = 0; loop < patch->loops; loop++) {
        expect(other.lengths[loop] == length_of(loop), "the checker leaves other lengths");
    }
}

/* Whether a refusal is of a buffer that the patcher alone is lent, or the others alone. */
static int is_of_own_buffer(size_t number, size_t place)
{
    return number == 3 && place > 2;
}

/* A refusal of checker and survey is one and the same, and that of the patcher too, but for buffers 3 and 4. */
static void expect_same_refusal(const struct generated_surface *s, const struct generated_set *set,
                                const struct reference_patch_answer *patch)
{
    struct reference_answer check;
    struct reference_answer survey;
    check_lent(s, set, &check);
    memset(&other, MARK, sizeof other);
    reference_survey(s->words, s->word_count, s->corners, s->corner_count, other.grid, s->lent[0],
                     other.rings, s->lent[1], other.lengths, s->lengths_lent, s->pitch, &survey);
    if (!is_of_own_buffer(patch->number, patch->place) && !is_of_own_buffer(survey.number, survey.place)) {
        expect(survey.number == patch->number && survey.place == patch->place,
               "the survey refuses otherwise");
    }
    if (survey.number == 0) {
        expect(check.number != 9 || check.place == survey.loops, "9 has another place than the loop count");
        expect(check.number == 9 || check.loops == survey.loops, "the checker has other loops");
    } else {
        expect(check.number == survey.number && check.place == survey.place,
               "the checker refuses otherwise");
        expect(check.loops == 0 && check.vertices == 0 && survey.loops == 0 && survey.vertices == 0,
               "a refusal has a count");
    }
    expect(patch->number == 0 || (patch->loops == 0 && patch->vertices == 0 && patch->corners == 0),
           "a refusal of the patcher has a count");
    expect(patch->number != 3 || patch->place <= 4, "the patcher refuses a buffer that it is not lent");
    expect(survey.number != 3 || survey.place <= 3, "the survey refuses a buffer that it is not lent");
    tallies[TALLY_SHORT_RECORDS] += patch->number == 3 && patch->place == 3 && s->lent[2] > 0
        && s->lent[2] <= 2 * s->corner_count;
    patch_numbers[patch->number] += 1;
    check_numbers[check.number] += 1;
}

/* ---- Texts ---- */

static size_t count_lines(const uint8_t *text, size_t length)
{
    size_t lines = 0;
    for (size_t b = 0; b < length; b++) {
        lines += text[b] == '\n';
    }
    return lines;
}

/* Writing what was read gives the same text; a buffer short by one is refused. */
static void expect_written_again(const uint8_t *text, size_t length, const uint32_t *words,
                                 const uint16_t *corners, const struct reference_read_answer *read)
{
    static uint8_t written[REFERENCE_LONGEST_TEXT];
    struct reference_write_answer answer;
    memset(written, MARK, sizeof written);
    reference_write(words, read->words, corners, read->corners, written, length - 1, (uint32_t)read->pitch, &answer);
    expect(answer.number == 3 && answer.place == 1 && answer.bytes == 0
               && is_marked(written, 0, sizeof written),
           "a text buffer short by one is not refused");
    reference_write(words, read->words, corners, read->corners, written, length, (uint32_t)read->pitch, &answer);
    expect(answer.number == 0 && answer.place == 0 && answer.bytes == length
               && memcmp(written, text, length) == 0 && is_marked(written, length, sizeof written),
           "writing what was read gives another text");
    tallies[TALLY_READ] += 1;
}

/* The reader of sheet texts, or that of files of facets. */
typedef void reader(const uint8_t *bytes, size_t length, uint32_t *words, size_t words_length, uint16_t *corners, size_t corners_length,
                    struct reference_read_answer *answer);

/* A reader's buffer short by one is refused, words first, and nothing is written. */
static void expect_short_refused(reader *reads, const uint8_t *bytes, size_t length, const struct reference_read_answer *read)
{
    static uint32_t words[REFERENCE_MOST_WORDS];
    static uint16_t corners[REFERENCE_MOST_CORNERS];
    struct reference_read_answer answer;
    size_t word_room = read->words > 0 ? read->words - 1 : 0;
    size_t corner_room = read->corners > 0 ? read->corners - 1 : 0;
    memset(words, MARK, sizeof words);
    memset(corners, MARK, sizeof corners);
    if (read->words > 0) {
        reads(bytes, length, words, word_room, corners, corner_room, &answer);
        expect(answer.number == 3 && answer.place == 1, "words short by one are not refused");
    }
    if (read->corners > 0) {
        reads(bytes, length, words, read->words, corners, corner_room, &answer);
        expect(answer.number == 3 && answer.place == 2, "corners short by one are not refused");
    }
    expect(is_marked(words, 0, sizeof words) && is_marked(corners, 0, sizeof corners),
           "a refused reader writes");
}

/* A surface with faults is written, or refused with 17, 1, 2 or 4 and nothing written. */
static void expect_surface_written(const struct generated_surface *s)
{
    static uint8_t plain[GENERATE_TEXT_ROOM];
    static uint8_t text[GENERATE_TEXT_ROOM];
    struct reference_write_answer answer;
    size_t length = generate_sheet_text(s, plain);
    memset(text, MARK, sizeof text);
    reference_write(s->words, s->word_count, s->corners, s->corner_count, text, sizeof text, s->pitch, &answer);
    if (answer.number == 0) {
        expect(answer.bytes == length && memcmp(text, plain, length) == 0, "a surface is written otherwise");
    } else {
        expect((answer.number == 17) == !reference_is_pitch(s->pitch), "the writer's 17 is not that of a wrong pitch");
        expect(answer.number == 1 || answer.number == 2 || answer.number == 4 || answer.number == 17,
               "the writer gives a number that is not its own");
        expect(answer.bytes == 0, "a refused writer counts bytes");
    }
    expect(is_marked(text, answer.bytes, sizeof text), "a text is written past its end");
}

/* A text, whole or damaged, is read and written again or has its fault within its lines. */
static void expect_sheet_text(struct generator *generator, const struct generated_surface *s)
{
    static uint8_t text[GENERATE_TEXT_ROOM];
    static uint32_t words[REFERENCE_MOST_WORDS];
    static uint16_t corners[REFERENCE_MOST_CORNERS];
    struct reference_read_answer read;
    size_t length = generate_sheet_text(s, text);
    int damaged = generate_below(generator, 2) == 0;
    if (damaged) {
        length = generate_text_damage(generator, text, length);
    }
    memset(words, MARK, sizeof words);
    memset(corners, MARK, sizeof corners);
    reference_read(text, length, words, REFERENCE_MOST_WORDS, corners, REFERENCE_MOST_CORNERS, &read);
    expect(is_marked(words, read.words * sizeof words[0], sizeof words), "words past their end");
    expect(is_marked(corners, read.corners * sizeof corners[0], sizeof corners), "corners past their end");
    expect(read.number == 0 ? reference_is_pitch((uint32_t)read.pitch) : read.pitch == 0, "a text has no pitch, or a refusal has one");
    expect(read.number != 0 || damaged || read.pitch == s->pitch, "a text is read at another pitch");
    tallies[TALLY_COARSE_READ] += read.number == 0 && read.pitch != 1;
    tallies[TALLY_COARSE_WRONG_LINE] += read.number == 10 && s->pitch != 1 && read.place > 1;
    if (read.number == 0) {
        expect_written_again(text, length, words, corners, &read);
        expect_short_refused(reference_read, text, length, &read);
    } else if (read.number == 10) {
        expect(read.place >= 1 && read.place <= count_lines(text, length) + 1,
               "a wrong line lies past the text");
        tallies[TALLY_WRONG_LINE] += 1;
    } else {
        expect(read.number == 4, "the reader gives a number that is not its own");
    }
}

/* Whether a set can be told in a text. */
static int is_tellable(const struct generated_set *set)
{
    if (set->state_count > REFERENCE_MOST_STATES || set->corner_count % 3 != 0
        || set->corner_count > 3 * REFERENCE_MOST_SET_TRIANGLES) {
        return 0;
    }
    for (size_t s = 0; s < set->state_count; s++) {
        if (set->states[s] > 9) {
            return 0;
        }
    }
    for (size_t c = 0; c < set->corner_count; c++) {
        if (set->corners[c] >= REFERENCE_MOST_POINTS) {
            return 0;
        }
    }
    return 1;
}

/* The text of a set comes back as the set where it can be told, and else is a wrong line. */
static void expect_set_text(const struct generated_set *set)
{
    static uint8_t text[GENERATE_TEXT_ROOM];
    static uint16_t states[REFERENCE_MOST_STATES];
    static uint16_t corners[3 * REFERENCE_MOST_SET_TRIANGLES];
    struct reference_set_answer answer;
    size_t length = generate_set_text(set, text);
    reference_read_set(text, length, 1, states, REFERENCE_MOST_STATES,
                       corners, 3 * REFERENCE_MOST_SET_TRIANGLES, &answer);
    if (is_tellable(set)) {
        expect(answer.number == 0 && answer.states == set->state_count && answer.corners == set->corner_count
                   && memcmp(states, set->states, answer.states * sizeof states[0]) == 0
                   && memcmp(corners, set->corners, answer.corners * sizeof corners[0]) == 0,
               "a set read from its text is another");
    } else if (set->corner_count % 3 == 0) {
        expect(answer.number == 10 && answer.place >= 1 && answer.place <= count_lines(text, length),
               "a set that cannot be told is read from a text");
    }
}

/* A damaged set text is read, or has its fault within its lines, counted from its first. */
static void expect_damaged_set_text(struct generator *generator, const struct generated_set *set)
{
    static uint8_t text[GENERATE_TEXT_ROOM];
    static uint16_t states[REFERENCE_MOST_STATES];
    static uint16_t corners[3 * REFERENCE_MOST_SET_TRIANGLES];
    struct reference_set_answer answer;
    size_t first = 1 + generate_below(generator, 2050);
    size_t length = generate_text_damage(generator, text, generate_set_text(set, text));
    reference_read_set(text, length, first, states, REFERENCE_MOST_STATES,
                       corners, 3 * REFERENCE_MOST_SET_TRIANGLES, &answer);
    expect(answer.number == 0 || answer.number == 10, "the set's reader gives a number that is not its own");
    if (answer.number == 10) {
        expect(answer.place >= first && answer.place <= first + count_lines(text, length),
               "a set's wrong line lies past the text");
        expect(answer.states == 0 && answer.corners == 0, "a refused set has a count");
    } else if (answer.corners > 0) {
        reference_read_set(text, length, first, states, answer.states, corners, answer.corners - 1, &answer);
        expect(answer.number == 3 && answer.place == 2, "set corners short by one are not refused");
    }
}

/* ---- Weights ---- */

/* Twice the shadow of a triangle on the plane of two axes, by its three corners alike. */
static int64_t twice_shadow(const int32_t *a, const int32_t *b, const int32_t *c, size_t x, size_t y)
{
    int64_t area = (int64_t)a[x] * (b[y] - c[y]) + (int64_t)b[x] * (c[y] - a[y])
        + (int64_t)c[x] * (a[y] - b[y]);
    return area < 0 ? -area : area;
}

/* "twice the sum of its shadows on the three planes. It is at most 25,768,230,936." */
static void expect_weights(struct generator *generator, size_t points)
{
    for (size_t n = 0; points > 0 && n < 10; n++) {
        uint16_t a = (uint16_t)generate_below(generator, points);
        uint16_t b = (uint16_t)generate_below(generator, points);
        uint16_t c = (uint16_t)generate_below(generator, points);
        const int32_t *p = lent.grid + 3 * (size_t)a;
        const int32_t *q = lent.grid + 3 * (size_t)b;
        const int32_t *r = lent.grid + 3 * (size_t)c;
        int64_t weight = reference_weight(lent.grid, a, b, c);
        expect(weight == twice_shadow(p, q, r, 0, 1) + twice_shadow(p, q, r, 1, 2)
                   + twice_shadow(p, q, r, 2, 0),
               "a weight is not twice its shadows");
        expect(weight <= 25768230936, "a weight is above the bound");
    }
}

/* ---- Coordinates ---- */

/* A finite word as a whole number of 2^-60; gives 0 where it is none. */
static int scaled(uint32_t word, __int128 *value)
{
    int field = (int)((word >> 23) & 0xff);
    __int128 magnitude = (word & 0x7fffff) | (field == 0 ? 0u : 0x800000u);
    int shift = (field == 0 ? 1 : field) - 150 + 60;
    *value = 0;
    if (magnitude == 0) {
        return 1;
    }
    if (shift < 0 || shift > 90) {
        return 0;
    }
    *value = (word >> 31) != 0 ? -(magnitude << shift) : magnitude << shift;
    return 1;
}

/* "The rest is then at most half a pitch, is still exact". "a tie to the even multiple". */
static void expect_parts(__int128 value, int32_t whole, uint32_t rest, int32_t pitch)
{
    const __int128 step = (__int128)pitch << 60;
    __int128 left;
    expect(whole % pitch == 0, "a coordinate goes to no multiple of the pitch");
    expect(scaled(rest, &left) && value == whole / pitch * step + left, "a value is not its multiple and rest");
    expect(2 * left <= step && -2 * left <= step, "a rest is more than half a pitch");
    int tie = 2 * left == step || -2 * left == step;
    expect(!tie || whole / pitch % 2 == 0, "a tie goes to the odd multiple");
    tallies[TALLY_COARSE_TIES] += tie && pitch != 1;
    expect(whole >= -32767 && whole <= 32767, "a multiple is too far");
    expect(left != 0 || rest == 0, "the rest of an exact word is not 0");
}

/* Whether a value lies beyond the middle behind the farthest multiple, or on it where the tie goes outwards. */
static int lies_off(__int128 value, int32_t pitch)
{
    int32_t farthest = reference_greatest((uint32_t)pitch);
    __int128 twice = 2 * (value < 0 ? -value : value);
    __int128 middle = (__int128)(2 * farthest + pitch) << 60;
    return twice > middle || (twice == middle && farthest / pitch % 2 != 0);
}

static void expect_coordinate(uint32_t word, uint32_t pitch)
{
    uint32_t field = (word >> 23) & 0xff;
    int32_t whole;
    uint32_t rest;
    __int128 value;
    int number = reference_coordinate(word, &whole, &rest, pitch);
    tallies[TALLY_COARSE_FAR] += number == 8 && pitch != 1;
    expect((number == 7) == (field == 255), "not finite is told wrongly");
    if (number == 7) {
        expect(whole == 0 && rest == 0, "a word that is not finite has parts");
    } else if (field > 180) {
        expect(number == 8 && rest == word, "a large word is not too far");
    } else if (!scaled(word, &value)) {
        expect(number == 0 && whole == 0 && rest == word, "a tiny word is not its own rest");
    } else if (number == 8) {
        expect(lies_off(value, (int32_t)pitch) && rest == word, "a word is called too far that is not");
    } else {
        expect_parts(value, whole, rest, (int32_t)pitch);
    }
}

/* "0.5 gives 0 rest 0.5; 1.5 gives 2 rest -0.5; -1.5 gives -2 rest 0.5;
   32767.498046875 gives 32,767; 32767.5 is too far. Infinity is not finite."
   Then the coarse pitches: 5 and 15 at 10, 2.5 and 7.5 at 5, 1 and 3 at 2 are
   ties; 12 and 13 at 5; next to a tie; the last that is kept and the first
   that is not, at each pitch; what has no digits above the point; and numbers
   that are no pitch. */
static void expect_coordinate_examples(void)
{
    static const struct {
        uint32_t word;
        uint32_t pitch;
        int number;
        int32_t whole;
        uint32_t rest;
    } rows[] = {
        {0x3f000000, 1, 0, 0, 0x3f000000}, {0x3fc00000, 1, 0, 2, 0xbf000000}, {0xbfc00000, 1, 0, -2, 0x3f000000},
        {0x46fffeff, 1, 0, 32767, 0x3eff0000}, {0x46ffff00, 1, 8, 0, 0x46ffff00}, {0x7f800000, 1, 7, 0, 0},
        {0x00000000, 1, 0, 0, 0}, {0x80000000, 1, 0, 0, 0},
        {0x40a00000, 10, 0, 0, 0x40a00000}, {0x41700000, 10, 0, 20, 0xc0a00000}, {0xc1700000, 10, 0, -20, 0x40a00000},
        {0x40200000, 5, 0, 0, 0x40200000}, {0x40f00000, 5, 0, 10, 0xc0200000}, {0xc0f00000, 5, 0, -10, 0x40200000},
        {0x3f800000, 2, 0, 0, 0x3f800000}, {0x40400000, 2, 0, 4, 0xbf800000}, {0xc0400000, 2, 0, -4, 0x3f800000},
        {0x41400000, 5, 0, 10, 0x40000000}, {0x41500000, 5, 0, 15, 0xc0000000},
        {0x40efffff, 5, 0, 5, 0x401ffffe}, {0x40f00001, 5, 0, 10, 0xc01ffffe},
        {0x46fffc00, 2, 0, 32766, 0}, {0x46fffdff, 2, 0, 32766, 0x3f7f8000}, {0x46fffe00, 2, 8, 0, 0x46fffe00},
        {0x46fffeff, 5, 0, 32765, 0x401fe000}, {0x46ffff00, 5, 8, 0, 0x46ffff00},
        {0x46fffa00, 10, 0, 32760, 0x40a00000}, {0x46fffa01, 10, 8, 0, 0x46fffa01}, {0xc6fffa01, 10, 8, 0, 0xc6fffa01},
        {0x00000005, 10, 0, 0, 0x00000005}, {0x80000000, 10, 0, 0, 0}, {0x4b000000, 10, 8, 0, 0x4b000000}, {0xff800000, 2, 7, 0, 0},
        {0x40a00000, 0, 17, 0, 0}, {0x40a00000, 3, 17, 0, 0}, {0x40a00000, 4, 17, 0, 0}, {0x40a00000, 20, 17, 0, 0},
        {0x7fc00000, 0xffffffff, 17, 0, 0}};
    for (size_t r = 0; r < sizeof rows / sizeof rows[0]; r++) {
        int32_t whole;
        uint32_t rest;
        int number = reference_coordinate(rows[r].word, &whole, &rest, rows[r].pitch);
        expect(number == rows[r].number && whole == rows[r].whole && rest == rows[r].rest,
               "an example of a coordinate comes out otherwise");
    }
}

/* ---- Pieces, runs and rims by hand ---- */

#define PLATE {0, 1, 3, 1, 4, 3, 1, 2, 4, 2, 5, 4, 2, 0, 5, 0, 3, 5}
#define PLATE_HOLE_FIRST {4, 3, 1, 0, 1, 3, 1, 2, 4, 2, 5, 4, 2, 0, 5, 0, 3, 5}
#define FIVE_PLACES {0, 0, 0, 10, 0, 0, 10, 10, 0, 0, 10, 4, 4, 4, 9}

/* A surface with what was reckoned of it by hand: the piece of each triangle, and of each loop its ring, first half-edge, piece, run, state
   and weight; then what is laid. */
struct reckoned {
    const char *name;
    size_t points;
    int16_t at[27];
    size_t triangles;
    uint16_t corners[21];
    uint16_t pieces[7];
    size_t loops;
    uint16_t rings[12], lengths[3], firsts[3], lies_in[3];
    int64_t runs[3];
    uint16_t states[3];
    uint64_t weights[3];
    size_t laid;
    uint16_t patches[9];
};

static const struct reckoned by_hand[] = {
    {"a loop alone is a rim", 3, {0, 0, 0, 1, 0, 0, 0, 1, 0}, 1, {0, 1, 2}, {0},
     1, {0, 1, 2}, {3}, {0}, {0}, {4}, {4}, {0}, 0, {0}},
    {"a plate with a hole", 6, {0, 0, 0, 30, 0, 0, 0, 30, 0, 5, 5, 0, 15, 5, 0, 5, 15, 0}, 6, PLATE, {0},
     2, {0, 1, 2, 4, 3, 5}, {3, 3}, {0, 4}, {0, 0}, {120, 40}, {4, 1}, {0, 100}, 3, {4, 5, 3}},
    {"an island in the hole", 9, {0, 0, 0, 30, 0, 0, 0, 30, 0, 5, 5, 0, 15, 5, 0, 5, 15, 0, 6, 6, 0, 8, 6, 0, 6, 8, 0},
     7, {0, 1, 3, 1, 4, 3, 1, 2, 4, 6, 7, 8, 2, 5, 4, 2, 0, 5, 0, 3, 5}, {0, 0, 0, 1, 0, 0, 0},
     3, {0, 1, 2, 4, 3, 5, 6, 7, 8}, {3, 3, 3}, {0, 4, 9}, {0, 0, 1}, {120, 40, 8}, {4, 1, 4}, {0, 100, 0}, 3, {4, 5, 3}},
    {"the greatest run of all in another piece", 9,
     {0, 0, 0, 30, 0, 0, 0, 30, 0, 5, 5, 0, 15, 5, 0, 5, 15, 0, 0, 0, 9, 900, 0, 9, 0, 900, 9},
     7, {6, 7, 8, 0, 1, 3, 1, 4, 3, 1, 2, 4, 2, 5, 4, 2, 0, 5, 0, 3, 5}, {0, 1, 1, 1, 1, 1, 1},
     3, {6, 7, 8, 0, 1, 2, 4, 3, 5}, {3, 3, 3}, {0, 3, 7}, {0, 1, 1}, {3600, 120, 40}, {4, 4, 1}, {0, 0, 100}, 3, {4, 5, 3}},
    {"two pieces that share a vertex", 5, {0, 0, 0, 10, 0, 0, 0, 10, 0, -1, 0, 0, 0, -1, 0}, 2, {0, 1, 2, 0, 3, 4}, {0, 1},
     2, {0, 1, 2, 0, 3, 4}, {3, 3}, {0, 3}, {0, 1}, {40, 4}, {4, 4}, {0, 0}, 0, {0}},
    {"a pinched coast: one piece of two loops that share a vertex", 5, FIVE_PLACES, 4, {0, 1, 2, 2, 1, 3, 2, 3, 4, 4, 3, 0}, {0},
     2, {0, 1, 3, 0, 4, 2}, {3, 3}, {0, 11}, {0, 0}, {48, 58}, {1, 4}, {140, 0}, 3, {0, 3, 1}},
    {"equal runs, the first listed is the rim", 6, {0, 0, 0, 10, 0, 0, 0, 10, 0, 0, 0, 5, 10, 0, 5, 0, 10, 5}, 6, PLATE, {0},
     2, {0, 1, 2, 4, 3, 5}, {3, 3}, {0, 4}, {0, 0}, {40, 40}, {4, 1}, {0, 100}, 3, {4, 5, 3}},
    {"equal runs, the other one listed first", 6, {0, 0, 0, 10, 0, 0, 0, 10, 0, 0, 0, 5, 10, 0, 5, 0, 10, 5}, 6, PLATE_HOLE_FIRST, {0},
     2, {4, 3, 5, 0, 1, 2}, {3, 3}, {0, 3}, {0, 0}, {40, 40}, {4, 1}, {0, 100}, 3, {0, 2, 1}},
    {"no run at all, the first listed is the rim", 6, {0}, 6, PLATE, {0},
     2, {0, 1, 2, 4, 3, 5}, {3, 3}, {0, 4}, {0, 0}, {0, 0}, {4, 1}, {0, 0}, 3, {4, 5, 3}},
    {"the closing edge decides: 20 and 20 against 25 and 1", 6, {0, 0, 0, 10, 0, 0, 20, 0, 0, 12, 0, 1, 0, 0, 1, 0, 1, 1}, 6,
     PLATE_HOLE_FIRST, {0}, 2, {4, 3, 5, 0, 1, 2}, {3, 3}, {0, 3}, {0, 0}, {26, 40}, {1, 4}, {12, 0}, 3, {4, 5, 3}},
    {"differences that cancel if added with their signs", 6, {0, 0, 0, 10, -10, 0, 20, -20, 0, 12, 0, 0, 0, 0, 0, 0, 1, 0}, 6,
     PLATE_HOLE_FIRST, {0}, 2, {4, 3, 5, 0, 1, 2}, {3, 3}, {0, 3}, {0, 0}, {26, 80}, {1, 4}, {12, 0}, 3, {4, 5, 3}},
    {"the third difference decides", 6, {0, 0, 0, 10, 0, 0, 0, 10, 0, 0, 0, 0, 9, 0, 3, 0, 9, 0}, 6, PLATE, {0},
     2, {0, 1, 2, 4, 3, 5}, {3, 3}, {0, 4}, {0, 0}, {40, 42}, {1, 4}, {100, 0}, 3, {0, 2, 1}},
    {"the inner loop runs further", 6, {1, 1, 0, 2, 1, 0, 1, 2, 0, 0, 0, 9, 50, 0, 9, 0, 50, 9}, 6, PLATE, {0},
     2, {0, 1, 2, 4, 3, 5}, {3, 3}, {0, 4}, {0, 0}, {4, 200}, {1, 4}, {1, 0}, 3, {0, 2, 1}},
    {"a rim of fewer edges than the hole", 7, {0, 0, 0, 99, 0, 0, 0, 99, 0, 1, 1, 0, 2, 1, 0, 2, 2, 0, 1, 2, 0}, 7,
     {3, 4, 0, 1, 0, 4, 4, 5, 1, 5, 6, 1, 2, 1, 6, 6, 3, 2, 0, 2, 3}, {0},
     2, {3, 4, 5, 6, 1, 0, 2}, {4, 3}, {0, 3}, {0, 0}, {4, 396}, {1, 4}, {2, 0}, 6, {3, 6, 4, 4, 6, 5}},
    {"a hole of fewer edges than the rim", 7, {0, 0, 0, 99, 0, 0, 0, 99, 0, 1, 1, 0, 2, 1, 0, 150, 150, 0, 1, 2, 0}, 7,
     {3, 4, 0, 1, 0, 4, 4, 5, 1, 5, 6, 1, 2, 1, 6, 6, 3, 2, 0, 2, 3}, {0},
     2, {3, 4, 5, 6, 1, 0, 2}, {4, 3}, {0, 3}, {0, 0}, {596, 396}, {4, 1}, {0, 9801}, 3, {1, 2, 0}},
    {"a piece without a loop has a number too", 7, {0}, 5, {0, 1, 2, 0, 2, 3, 0, 3, 1, 1, 3, 2, 4, 5, 6}, {0, 0, 0, 0, 1},
     1, {4, 5, 6}, {3}, {12}, {1}, {0}, {4}, {0}, 0, {0}},
    {"a piece whose triangles lie among another's", 7, {0}, 3, {0, 1, 2, 3, 4, 5, 2, 1, 6}, {0, 1, 0},
     2, {0, 1, 6, 2, 3, 4, 5}, {4, 3}, {0, 3}, {0, 1}, {0, 0}, {4, 4}, {0, 0}, 0, {0}},
    {"a strip whose triangles are listed far from their neighbours", 7, {0}, 5, {2, 3, 4, 4, 5, 6, 0, 1, 2, 4, 3, 5, 2, 1, 3}, {0},
     1, {4, 2, 0, 1, 3, 5, 6}, {7}, {2}, {0}, {0}, {4}, {0}, 0, {0}},
    {"pieces without a loop before and between", 9, {0, 0, 0, 0, 0, 0, 0, 0, 0, 1, 0, 0, 0, 2, 0, 0, 0, 3, 0, 0, -4}, 6,
     {0, 1, 2, 0, 2, 1, 3, 4, 5, 6, 7, 8, 6, 8, 7, 6, 3, 0}, {0, 0, 1, 2, 2, 3},
     2, {3, 4, 5, 6, 3, 0}, {3, 3}, {6, 15}, {1, 3}, {12, 10}, {4, 4}, {0, 0}, 0, {0}},
    {"a cycle of three loops, the one that it is walked from listed last", 7,
     {0, 0, 0, 5, 0, 0, 0, 5, 0, 1, 0, 0, 0, 1, 0, 2, 0, 0, 0, 2, 0}, 7,
     {6, 0, 1, 2, 0, 3, 4, 0, 5, 1, 2, 3, 1, 3, 4, 1, 4, 5, 1, 5, 6}, {0},
     3, {0, 1, 2, 0, 3, 4, 6, 0, 5}, {3, 3, 3}, {1, 4, 0}, {0, 0, 0}, {20, 4, 8}, {4, 1, 1}, {0, 1, 4}, 6, {0, 4, 3, 6, 5, 0}},
};

/* The pitches, and for each how far a coordinate may be moved that stays at its multiple. */
static const struct {
    int32_t pitch;
    int32_t within;
} pitches[4] = {{1, 0}, {2, 0}, {5, 2}, {10, 4}};

/* The surface in pitches in place of plate units, its points moved off their multiples where they come back. */
static void take_reckoned(const struct reckoned *r, size_t p, struct generated_surface *s)
{
    s->pitch = (uint32_t)pitches[p].pitch;
    s->word_count = 3 * r->points;
    for (size_t w = 0; w < s->word_count; w++) {
        s->words[w] = sheet_word(r->at[w] * pitches[p].pitch + (w % 2 == 0 ? pitches[p].within : -pitches[p].within));
    }
    s->corner_count = 3 * r->triangles;
    memcpy(s->corners, r->corners, sizeof r->corners);
    generate_lend_exactly(s);
}

/* Runs grow with the pitch, and weights with its square; all else is the same at every pitch. */
static void expect_reckoned(const struct reckoned *r, size_t p)
{
    static struct generated_surface surface;
    uint16_t pieces[REFERENCE_MOST_TRIANGLES];
    struct reference_patch_answer answer;
    size_t before = faults;
    size_t at = 0;
    int64_t pitch = pitches[p].pitch;
    take_reckoned(r, p, &surface);
    patch_lent(&surface, &answer);
    reference_pieces(surface.corners, surface.corner_count, pieces);
    expect(memcmp(pieces, r->pieces, r->triangles * sizeof pieces[0]) == 0, "other pieces than by hand");
    expect(answer.number == 0 && answer.loops == r->loops && answer.corners == r->laid, "another answer than by hand");
    for (size_t loop = 0; loop < r->loops; loop++) {
        const uint64_t record[7] = {r->lengths[loop], r->states[loop], (uint64_t)(pitch * pitch) * r->weights[loop], 0,
                                    r->firsts[loop], r->lies_in[loop], (uint64_t)(pitch * r->runs[loop])};
        expect(memcmp(lent.records + 7 * loop, record, sizeof record) == 0, "another record than by hand");
        expect(reference_run(lent.grid, r->rings + at, r->lengths[loop]) == pitch * r->runs[loop], "another run than by hand");
        at += r->lengths[loop];
    }
    expect(answer.vertices == at && memcmp(lent.rings, r->rings, at * sizeof lent.rings[0]) == 0, "other rings than by hand");
    expect(memcmp(lent.patches, r->patches, r->laid * sizeof lent.patches[0]) == 0, "another patch than by hand");
    if (faults > before) {
        printf("this was: %s, at pitch %d\n", r->name, (int)pitch);
    }
}

/* The plate has 18 words, 18 corners and 6 triangles: each buffer with a number too few is refused, and that with the lower number first;
   records that have too few for one of their numbers, and those that would do for the lengths alone, are too. */
static void expect_short_buffers(size_t p)
{
    static const size_t exact[4] = {18, 18, 42, 54};
    static const size_t short_records[6] = {0, 6, 18, 35, 36, 41};
    static const size_t short_reports[6] = {0, 6, 12, 13, 18, 23};
    static struct generated_surface surface;
    struct reference_patch_answer answer;
    struct reference_report_answer told;
    take_reckoned(&by_hand[1], p, &surface);
    expect(memcmp(surface.lent, exact, sizeof exact) == 0 && surface.lengths_lent == 6, "the plate needs other buffers than by hand");
    for (size_t b = 0; b < 4; b++) {
        surface.lent[b] = exact[b] - 1;
        patch_lent(&surface, &answer);
        expect(answer.number == 3 && answer.place == b + 1, "a buffer with a number too few is not refused");
        for (size_t c = b + 1; c < 4; c++) {
            surface.lent[c] = 0;
        }
        patch_lent(&surface, &answer);
        expect(answer.number == 3 && answer.place == b + 1, "of two short buffers not the first is told");
        memcpy(surface.lent, exact, sizeof exact);
    }
    for (size_t r = 0; r < 6; r++) {
        surface.lent[2] = short_records[r];
        patch_lent(&surface, &answer);
        expect(answer.number == 3 && answer.place == 3, "short records are not refused");
    }
    surface.lent[2] = 42;
    patch_lent(&surface, &answer);
    expect(answer.number == 0 && answer.loops == 2, "records that are long enough are refused");
    for (size_t r = 0; r < 6; r++) {
        surface.report_lent = short_reports[r];
        report_lent(&surface, &told);
        expect(told.number == 3 && told.place == 4 && told.entries == 0, "a short report is not refused");
    }
    surface.report_lent = 24;
    report_lent(&surface, &told);
    expect(told.number == 0 && told.entries == 3, "a report that is long enough is refused");
}

/* Rings of any length closed in by frames of any length: the frame lies far out, or the ring's points do. The frame's first edge is
   listed second, so it is loop 1. */
static void expect_closed_in(size_t length, size_t edges, int frame_far, size_t ring_state, size_t frame_state, size_t pitch)
{
    static struct generated_surface surface;
    uint16_t points[300];
    struct reference_patch_answer answer;
    surface.pitch = (uint32_t)pitch;
    surface.corner_count = 0;
    surface.word_count = 3 * (length + edges);
    for (size_t p = 0; p < length + edges; p++) {
        int far = (p >= length) == frame_far;
        points[p] = (uint16_t)p;
        surface.words[3 * p] = sheet_word(far ? (p % 2 == 0 ? 30000 : -30000) : (int32_t)(p % 3 * pitch));
        surface.words[3 * p + 1] = sheet_word((int32_t)(p % 5 * pitch));
        surface.words[3 * p + 2] = sheet_word(0);
    }
    sheet_add_collar(&surface, points, length, points + length, edges);
    generate_lend_exactly(&surface);
    patch_lent(&surface, &answer);
    expect(answer.number == 0 && answer.loops == 2 && length_of(0) == length && length_of(1) == edges,
           "a ring closed in has other loops");
    expect(state_of(0) == ring_state && state_of(1) == frame_state, "a ring closed in has other states");
    expect(answer.corners == 3 * (ring_state == 1 ? length - 2 : frame_state == 1 ? edges - 2 : 0), "what is laid is no hole's");
}

/* A set for the plate with a hole, rings 0,1,2 and 4,3,5, and what it gets. */
static void expect_plate_verdict(size_t p, uint16_t rim, uint16_t hole, const uint16_t *corners, size_t count, size_t number, size_t place)
{
    static struct generated_surface surface;
    static struct generated_set set;
    struct reference_answer answer;
    take_reckoned(&by_hand[1], p, &surface);
    set.state_count = 2;
    set.states[0] = rim;
    set.states[1] = hole;
    set.corner_count = count;
    memcpy(set.corners, corners, count * sizeof set.corners[0]);
    check_lent(&surface, &set, &answer);
    expect(answer.number == number && answer.place == place && answer.loops == 2 && answer.vertices == 6,
           "a set for the plate gets another verdict than by hand");
}

static void expect_plate_verdicts(size_t p)
{
    static const uint16_t right[3] = {5, 3, 4}, turned[3] = {4, 3, 5}, both[6] = {0, 2, 1, 4, 5, 3}, after[6] = {4, 5, 3, 0, 2, 1};
    static const uint16_t others[7] = {0, 1, 2, 3, 5, 9, 65535};
    expect_plate_verdict(p, 4, 1, right, 3, 0, 0);
    for (size_t o = 0; o < 7; o++) {
        expect_plate_verdict(p, others[o], 1, right, 3, 11, 0);
        expect_plate_verdict(p, others[o], 1, both, 6, 11, 0);
        if (others[o] != 1) {
            expect_plate_verdict(p, 4, others[o], right, 3, 11, 1);
        }
    }
    expect_plate_verdict(p, 4, 4, right, 3, 11, 1);
    expect_plate_verdict(p, 4, 4, right, 0, 11, 1);
    expect_plate_verdict(p, 4, 1, right, 0, 12, 1);
    expect_plate_verdict(p, 4, 1, turned, 3, 12, 1);
    expect_plate_verdict(p, 4, 1, both, 6, 12, 1);
    expect_plate_verdict(p, 4, 1, after, 6, 15, 3);
}

static void expect_by_hand(void)
{
    for (size_t r = 0; r < sizeof by_hand / sizeof by_hand[0]; r++) {
        for (size_t p = 0; p < 4; p++) {
            expect_reckoned(&by_hand[r], p);
        }
    }
    for (size_t n = 3; n <= REFERENCE_LONGEST_LOOP + 2; n++) {
        size_t patched = n > REFERENCE_LONGEST_LOOP ? 2 : 1;
        size_t pitch = (size_t)pitches[n % 4].pitch;
        expect_closed_in(n, 3, 1, patched, 4, 1);
        expect_closed_in(n, n, 1, patched, 4, pitch);
        expect_closed_in(n, 100, 1, patched, 4, pitch);
        expect_closed_in(3, n, 0, 4, patched, pitch);
        expect_closed_in(100, n, 0, 4, patched, 1);
    }
    for (size_t p = 0; p < 4; p++) {
        expect_plate_verdicts(p);
        expect_short_buffers(p);
    }
}

/* ---- Files of facets ---- */

static struct {
    uint8_t bytes[GENERATE_STL_ROOM];
    size_t length;
} file;

/* What was read of a file, and what lies behind it. */
static struct {
    uint32_t words[REFERENCE_MOST_WORDS];
    uint16_t corners[REFERENCE_MOST_CORNERS];
    struct reference_read_answer answer;
} taken;

static void put_file_word(size_t at, uint32_t word)
{
    for (size_t b = 0; b < 4; b++) {
        file.bytes[at + b] = (uint8_t)(word >> (8 * b));
    }
}

/* Begins a file that says it has so many facets. What is not looked at has a mark in every place, the header but for its first word. */
static void begin_file(uint32_t count)
{
    memset(file.bytes, MARK, sizeof file.bytes);
    memcpy(file.bytes, "solid ", 6);
    put_file_word(80, count);
    file.length = 84;
}

static void add_facet(const uint32_t *words)
{
    for (size_t w = 0; w < 9; w++) {
        put_file_word(file.length + 12 + 4 * w, words[w]);
    }
    file.length += 50;
}

/* A file of so many facets on so many points, all of them used if there are corners enough: corner c is point c, and after the last
   point the first comes again. Point p has the words p + 1, 0 and 0. */
static void make_counted(size_t facets, size_t points)
{
    begin_file((uint32_t)facets);
    for (size_t f = 0; f < facets; f++) {
        uint32_t words[9] = {0};
        for (size_t c = 0; c < 3; c++) {
            words[3 * c] = (uint32_t)((3 * f + c) % points + 1);
        }
        add_facet(words);
    }
}

static void take_file(size_t word_room, size_t corner_room)
{
    memset(&taken, MARK, sizeof taken);
    reference_read_stl(file.bytes, file.length, taken.words, word_room, taken.corners, corner_room, &taken.answer);
    expect(is_marked(taken.words, taken.answer.words * sizeof taken.words[0], sizeof taken.words)
               && is_marked(taken.corners, taken.answer.corners * sizeof taken.corners[0], sizeof taken.corners),
           "a file is read past its end");
}

/* The file is refused so, whatever is lent. */
static void expect_refused(size_t number, const char *what)
{
    take_file(REFERENCE_MOST_WORDS, REFERENCE_MOST_CORNERS);
    expect(taken.answer.number == number && taken.answer.place == 0, what);
    take_file(0, 0);
    expect(taken.answer.number == number && taken.answer.place == 0, what);
}

/* The bits of a float. */
static uint32_t bits_of(float value)
{
    uint32_t bits;
    memcpy(&bits, &value, sizeof bits);
    return bits;
}

static void expect_no_facet(size_t at, size_t room)
{
    float floats[9];
    size_t after = at;
    memset(floats, MARK, sizeof floats);
    expect(reference_facet(file.bytes, file.length, &after, floats, room) == 0 && after == at && is_marked(floats, 0, sizeof floats),
           "a facet is handed out where none is");
}

/* Every facet of the file that was taken, one after the other: its floats are the words of the points that its corners name, and what is
   no number is the one that there is. */
static void expect_handed_out(void)
{
    size_t at = REFERENCE_STL_FRONT;
    for (size_t c = 0; c < taken.answer.corners; c += 3) {
        float floats[10];
        memset(floats, MARK, sizeof floats);
        expect_no_facet(at, 8);
        expect(reference_facet(file.bytes, file.length, &at, floats, 10) == 9 && at == 84 + 50 * (c / 3 + 1)
                   && is_marked(&floats[9], 0, sizeof floats[9]),
               "a facet is not handed out");
        for (size_t f = 0; f < 9; f++) {
            uint32_t word = taken.words[3 * taken.corners[c + f / 3] + f % 3];
            expect(bits_of(floats[f]) == (word << 1 > 0xff000000u ? 0x7fc00000u : word), "a facet has other floats than its points");
        }
    }
    expect(at == file.length, "a facet is left");
    expect_no_facet(at, 9);
    expect_no_facet(at + 1, 9);
    expect_no_facet(SIZE_MAX, 9);
    expect_no_facet(SIZE_MAX - 49, 9);
}

/* Facets with the points and corners that were reckoned of them by hand. */
static const struct {
    const char *name;
    size_t facets;
    uint32_t words[18];
    size_t points;
    uint32_t point_words[18];
    uint16_t corners[6];
} facets_by_hand[] = {
    {"two facets that share an edge", 2, {7, 0, 0, 8, 0, 0, 9, 0, 0, 9, 0, 0, 8, 0, 0, 6, 0, 0},
     4, {7, 0, 0, 8, 0, 0, 9, 0, 0, 6, 0, 0}, {0, 1, 2, 2, 1, 3}},
    {"each word alone tells points apart", 2, {1, 2, 3, 1, 2, 4, 1, 5, 3, 6, 2, 3, 1, 2, 3, 3, 2, 1},
     5, {1, 2, 3, 1, 2, 4, 1, 5, 3, 6, 2, 3, 3, 2, 1}, {0, 1, 2, 3, 0, 4}},
    {"negative zero is zero", 2, {0x80000000u, 0, 1, 0, 0x80000000u, 1, 0, 0, 0x80000000u, 0, 0, 1, 0x80000000u, 0, 0, 0, 1, 0x80000000u},
     3, {0, 0, 1, 0, 0, 0, 0, 1, 0}, {0, 0, 1, 0, 1, 2}},
    {"a facet of one point is read", 1, {5, 5, 5, 5, 5, 5, 5, 5, 5}, 1, {5, 5, 5}, {0, 0, 0}},
    {"the same facet twice is read", 2, {1, 0, 0, 2, 0, 0, 3, 0, 0, 1, 0, 0, 2, 0, 0, 3, 0, 0},
     3, {1, 0, 0, 2, 0, 0, 3, 0, 0}, {0, 1, 2, 0, 1, 2}},
    {"what is no number meets by its bits", 2,
     {0x7fc00000u, 0, 0, 0x7fc00001u, 0, 0, 0xffc00000u, 0, 0, 0x7fc00001u, 0, 0, 0x7f800001u, 0, 0, 0x7fc00000u, 0, 0},
     4, {0x7fc00000u, 0, 0, 0x7fc00001u, 0, 0, 0xffc00000u, 0, 0, 0x7f800001u, 0, 0}, {0, 1, 2, 1, 3, 0}},
    {"what is far, infinite or denormal is kept", 1, {0x7f800000u, 0xff800000u, 0x7f7fffffu, 1, 0x80000001u, 0x807fffffu, 2, 3, 4},
     3, {0x7f800000u, 0xff800000u, 0x7f7fffffu, 1, 0x80000001u, 0x807fffffu, 2, 3, 4}, {0, 1, 2}},
    {"no facet", 0, {0}, 0, {0}, {0}},
};

static void expect_facets_by_hand(void)
{
    for (size_t r = 0; r < sizeof facets_by_hand / sizeof facets_by_hand[0]; r++) {
        size_t words = 3 * facets_by_hand[r].points;
        size_t corners = 3 * facets_by_hand[r].facets;
        begin_file((uint32_t)facets_by_hand[r].facets);
        for (size_t f = 0; f < facets_by_hand[r].facets; f++) {
            add_facet(facets_by_hand[r].words + 9 * f);
        }
        take_file(words, corners);
        expect(taken.answer.number == 0 && taken.answer.place == 0 && taken.answer.words == words && taken.answer.corners == corners
                   && memcmp(taken.words, facets_by_hand[r].point_words, words * sizeof taken.words[0]) == 0
                   && memcmp(taken.corners, facets_by_hand[r].corners, corners * sizeof taken.corners[0]) == 0,
               facets_by_hand[r].name);
        expect_handed_out();
    }
}

/* "16 [...] comes first of all; then 2 [...], 1 [...], 3". */
static void expect_file_refusals(void)
{
    for (size_t facets = 0; facets < 3; facets++) {
        make_counted(facets, 3);
        size_t fits = file.length;
        for (file.length = 0; file.length < sizeof file.bytes; file.length += file.length < 300 ? 1 : 997) {
            if (file.length != fits) {
                expect_refused(16, "a length that does not fit is taken");
            }
        }
    }
    /* 50 times the count is 2^32 + 4 */
    begin_file(85899346);
    file.length = 88;
    expect_refused(16, "a length is taken that fits modulo 2^32");
    begin_file(0x01000000);
    add_facet((const uint32_t[9]){0});
    expect_refused(16, "a count is read highest byte first");
    make_counted(REFERENCE_MOST_TRIANGLES, REFERENCE_MOST_POINTS);
    take_file(REFERENCE_MOST_WORDS, REFERENCE_MOST_CORNERS);
    expect(taken.answer.number == 0 && taken.answer.words == REFERENCE_MOST_WORDS && taken.answer.corners == REFERENCE_MOST_CORNERS
               && file.length == REFERENCE_LONGEST_STL,
           "as many facets and points as there may be are not taken");
    make_counted(REFERENCE_MOST_TRIANGLES, REFERENCE_MOST_POINTS + 1);
    expect_refused(1, "a point too many is taken");
    make_counted(REFERENCE_MOST_TRIANGLES + 1, 3);
    expect_refused(2, "a facet too many is taken");
    make_counted(REFERENCE_MOST_TRIANGLES + 1, REFERENCE_MOST_POINTS + 1);
    expect_refused(2, "too many points are told before too many facets");
    file.length += 1;
    expect_refused(16, "too many facets are told before a length that does not fit");
}

static void expect_sizes(void)
{
    static const struct {
        uint64_t length;
        uint32_t count;
        size_t number;
    } rows[] = {
        {0, 0, 16}, {83, 0, 16}, {84, 0, 0}, {85, 0, 16}, {84, 1, 16}, {133, 1, 16}, {134, 1, 0}, {135, 1, 16}, {134, 2, 16},
        {51284, 1024, 0}, {51334, 1025, 2}, {51333, 1025, 16}, {88, 85899346, 16}, {4294967384, 85899346, 2},
        {214748364834, 4294967295, 2}, {214748364833, 4294967295, 16}, {84, 4294967295, 16}, {UINT64_MAX, 4294967295, 16}};
    for (size_t r = 0; r < sizeof rows / sizeof rows[0]; r++) {
        expect(reference_size_stl((size_t)rows[r].length, rows[r].count) == rows[r].number, "a size is answered otherwise than by hand");
    }
}

/* A file that was taken, looked at by its points: no two agree, each is used, and first after all before it; and each corner has the words
   that the file has there. */
static void expect_points_and_corners(void)
{
    size_t met = 0;
    for (size_t p = 0; p < taken.answer.words; p += 3) {
        for (size_t q = 0; q < p; q += 3) {
            expect(memcmp(taken.words + p, taken.words + q, 3 * sizeof taken.words[0]) != 0, "two points agree");
        }
    }
    for (size_t c = 0; c < taken.answer.corners; c++) {
        expect(taken.corners[c] <= met, "a point is not numbered by its first use");
        met += taken.corners[c] == met;
        for (size_t w = 0; w < 3; w++) {
            const uint8_t *b = file.bytes + 96 + 50 * (c / 3) + 12 * (c % 3) + 4 * w;
            uint32_t word = b[0] | (uint32_t)b[1] << 8 | (uint32_t)b[2] << 16 | (uint32_t)b[3] << 24;
            expect(taken.words[3 * taken.corners[c] + w] == (word << 1 == 0 ? 0 : word), "a corner has other words than in the file");
        }
    }
    expect(3 * met == taken.answer.words, "a point is not used");
    tallies[TALLY_FILES_READ] += 1;
    tallies[TALLY_JOINED] += taken.answer.corners - met;
}

static void expect_files_by_hand(void)
{
    expect_facets_by_hand();
    expect_file_refusals();
    expect_sizes();
}

/* A made file, whole or damaged. */
static void expect_file(struct generator *generator)
{
    file.length = generate_stl(generator, file.bytes);
    int damaged = generate_below(generator, 4) == 0;
    if (damaged) {
        file.length = generate_stl_damage(generator, file.bytes, file.length);
    }
    take_file(REFERENCE_MOST_WORDS, REFERENCE_MOST_CORNERS);
    if (taken.answer.number == 0) {
        expect_points_and_corners();
        expect_handed_out();
        expect_short_refused(reference_read_stl, file.bytes, file.length, &taken.answer);
        return;
    }
    expect(taken.answer.number == 1 || taken.answer.number == 2 || (taken.answer.number == 16 && damaged),
           "a file gets a number that is not its own");
    expect_refused(taken.answer.number, "a file gets another number with nothing lent");
    tallies[taken.answer.number == 1 ? TALLY_MANY_POINTS : taken.answer.number == 2 ? TALLY_MANY_FACETS : TALLY_MISFITS] += 1;
}

/* ---- Pitch lines by hand ---- */

#define NO_SHEET "points=0\ntriangles=0\n"

/* Texts with what was reckoned of them by hand: number, place and pitch. */
static const struct {
    const char *text;
    size_t number, place, pitch;
} heads[] = {
    {NO_SHEET, 0, 0, 1}, {"pitch=2\n" NO_SHEET, 0, 0, 2}, {"pitch=5\n" NO_SHEET, 0, 0, 5}, {"pitch=10\n" NO_SHEET, 0, 0, 10},
    {"pitch=1\n" NO_SHEET, 10, 1, 0}, {"pitch=3\n" NO_SHEET, 10, 1, 0}, {"pitch=0\n" NO_SHEET, 10, 1, 0},
    {"pitch=02\n" NO_SHEET, 10, 1, 0}, {"pitch=010\n" NO_SHEET, 10, 1, 0}, {"pitch=20\n" NO_SHEET, 10, 1, 0},
    {"pitch=100\n" NO_SHEET, 10, 1, 0}, {"pitch=\n" NO_SHEET, 10, 1, 0}, {"pitch\n" NO_SHEET, 10, 1, 0}, {"pitch=+2\n" NO_SHEET, 10, 1, 0},
    {"pitch=2 \n" NO_SHEET, 10, 1, 0}, {"pitch=2\r\n" NO_SHEET, 10, 1, 0}, {" pitch=2\n" NO_SHEET, 10, 1, 0},
    {"Pitch=2\n" NO_SHEET, 10, 1, 0}, {"pitch=2,5\n" NO_SHEET, 10, 1, 0}, {"pitch=2" NO_SHEET, 10, 1, 0}, {"pitch=2", 10, 1, 0},
    {"pitch=1", 10, 1, 0}, {"pitch=2\n", 10, 2, 0}, {"pitch=10\n", 10, 2, 0}, {"pitch=2\npitch=2\n" NO_SHEET, 10, 2, 0},
    {"pitch=2\npitch=5\n" NO_SHEET, 10, 2, 0}, {"pitch=2\n\n" NO_SHEET, 10, 2, 0}, {"points=0\npitch=2\ntriangles=0\n", 10, 2, 0},
    {"points=0\ntriangles=0\npitch=2\n", 10, 3, 0}, {"pitch=2\ntriangles=0\n", 10, 2, 0}, {"pitch=5\npoints=0\n", 10, 3, 0},
    {"pitch=5\npoints=1\n", 10, 3, 0}, {"pitch=5\n" NO_SHEET "x", 10, 4, 0}, {"pitch=5\npoints=0\ntriangles=1\nt=0,0,x\n", 10, 4, 0},
    {"pitch=5\npoints=0\ntriangles=1\nt=0,0,0\n", 4, 0, 0}, {"pitch=2\npoints=0\ntriangles=0", 10, 3, 0}};

/* As many points and triangles as there may be, corners of four digits, at every pitch: the text, and a byte too few for it. */
static void expect_longest_texts(void)
{
    static const size_t lengths[4] = {47131, 47139, 47139, 47140};
    static struct generated_surface s;
    static uint8_t text[REFERENCE_LONGEST_TEXT];
    struct reference_write_answer answer;
    s.word_count = REFERENCE_MOST_WORDS;
    s.corner_count = REFERENCE_MOST_CORNERS;
    for (size_t c = 0; c < s.corner_count; c++) {
        s.corners[c] = (uint16_t)(1000 + c % 24);
    }
    for (size_t p = 0; p < 4; p++) {
        reference_write(s.words, s.word_count, s.corners, s.corner_count, text, lengths[p] - 1, (uint32_t)pitches[p].pitch, &answer);
        expect(answer.number == 3 && answer.place == 1 && answer.bytes == 0, "a byte too few for the longest text is not refused");
        reference_write(s.words, s.word_count, s.corners, s.corner_count, text, lengths[p], (uint32_t)pitches[p].pitch, &answer);
        expect(answer.number == 0 && answer.bytes == lengths[p], "the longest text is not as long as it is due");
    }
}

static void expect_heads_by_hand(void)
{
    uint32_t words[3];
    uint16_t corners[3];
    for (size_t h = 0; h < sizeof heads / sizeof heads[0]; h++) {
        struct reference_read_answer read;
        reference_read((const uint8_t *)heads[h].text, strlen(heads[h].text), words, 3, corners, 3, &read);
        expect(read.number == heads[h].number && read.place == heads[h].place && read.pitch == heads[h].pitch, heads[h].text);
        if (read.number == 0) {
            expect_written_again((const uint8_t *)heads[h].text, strlen(heads[h].text), words, corners, &read);
        }
    }
    expect_longest_texts();
}

/* ---- Full sheets, and small ones with one hole ---- */

/* Each of these sheets has so many loops of states 1 to 4, at every pitch. Where a torus is pierced, one of the holes is the rim. */
static void expect_sheets(uint64_t seed, uint32_t pitch)
{
    static const size_t counts[][4] = {
        {0, 0, 0, 0}, {203, 0, 0, 1}, {0, 1, 0, 1}, {0, 0, 0, 1022}, {0, 0, 0, 1}, {0, 0, 0, 1},
        {0, 0, 0, 16}, {0, 0, 0, 16}, {0, 0, 0, 16},
        {170, 0, 0, 1}, {146, 0, 0, 1}, {78, 0, 0, 1}, {26, 0, 0, 1}, {15, 0, 0, 1}, {8, 0, 0, 481}, {15, 0, 0, 1},
        {145, 0, 0, 1}, {127, 0, 0, 1}, {0, 0, 5, 611},
        {1, 0, 0, 1}, {1, 0, 0, 1}, {1, 0, 0, 1}, {1, 0, 0, 1}, {1, 0, 0, 1},
        {1, 0, 0, 1}, {1, 0, 0, 1}, {1, 0, 0, 1}, {1, 0, 0, 1}, {1, 0, 0, 1},
        {77, 0, 0, 1}, {127, 0, 0, 1}};
    static struct generated_surface surface;
    struct generator generator;
    struct reference_patch_answer answer;
    const char *name;
    size_t sheet = 0;
    generate_start(&generator, seed);
    for (; (name = sheet_make(&generator, sheet, &surface, pitch)) != NULL; sheet++) {
        size_t met[4] = {0};
        size_t weightless = 0;
        patch_lent(&surface, &answer);
        for (size_t loop = 0; loop < answer.loops; loop++) {
            met[state_of(loop) - 1] += 1;
            weightless += state_of(loop) == 1 && weight_of(loop) == 0;
        }
        expect(answer.number == 0 && weightless == 0, "a sheet is refused, or has a hole that its pitch made flat");
        if (sheet >= sizeof counts / sizeof counts[0] || memcmp(met, counts[sheet], sizeof met) != 0) {
            printf("the sheet %s at pitch %u has %zu, %zu, %zu, %zu loops of states 1 to 4\n", name, (unsigned)pitch, met[0], met[1],
                   met[2], met[3]);
            faults += 1;
        }
    }
    expect(sheet == sizeof counts / sizeof counts[0], "there are fewer such sheets");
}

/* ---- The run ---- */

static void self_check(struct generator *generator)
{
    static struct generated_surface surface;
    static struct generated_set set;
    struct reference_patch_answer patch;
    if (generate_below(generator, 4) == 0) {
        generate_sound_surface(generator, &surface);
    } else if (generate_below(generator, 8) == 0) {
        sheet_make_coasts(generator, &surface);
    } else {
        generate_surface(generator, &surface);
    }
    patch_lent(&surface, &patch);
    expect_report_refusal(&surface, &patch);
    generate_set(generator, &surface, &set);
    expect_same_refusal(&surface, &set, &patch);
    if (patch.number == 0) {
        /* what the patcher takes the checker takes too, unless its own third buffer is short */
        surface.lengths_lent = REFERENCE_MOST_TRIANGLES;
        expect_rings(&surface, patch.loops, patch.vertices);
        expect_second_look(&surface, patch.loops, patch.vertices);
        expect_records(&surface, patch.loops);
        expect_report(&surface, &patch);
        expect_patched_surface(&surface, &patch);
        expect_least_covers(&surface, patch.loops);
        expect_cover_test(&surface, &set, patch.loops);
        expect_own_set_passes(&surface, &patch);
        expect_verdict(&surface, &set, patch.loops);
        expect_weights(generator, surface.word_count / 3);
        tallies[TALLY_PATCHED] += 1;
        tallies[TALLY_LOOPS] += patch.loops;
    }
    expect_sheet_text(generator, &surface);
    expect_surface_written(&surface);
    expect_set_text(&set);
    expect_damaged_set_text(generator, &set);
    expect_file(generator);
    for (size_t w = 0; w < 20; w++) {
        uint32_t pitch = (uint32_t)pitches[w % 4].pitch;
        expect_coordinate(generate_word(generator, pitch), pitch);
    }
}

/* so many surfaces must have met everything that can be met */
#define ENOUGH 2000

/* How many tallies and numbers were never met: what is never met is not tried. */
static size_t count_missing(void)
{
    size_t missing = 0;
    for (size_t t = 0; t < TALLIES; t++) {
        missing += tallies[t] == 0;
    }
    for (size_t number = 0; number <= HIGHEST; number++) {
        missing += (number <= 8 || number == 17) && patch_numbers[number] == 0;
        missing += number != 10 && number != 16 && check_numbers[number] == 0;
    }
    if (missing > 0) {
        printf("%zu of these were never met\n", missing);
    }
    return missing;
}

int self_run(size_t count, uint64_t seed)
{
    struct generator generator;
    self_seed = seed;
    expect_coordinate_examples();
    expect_by_hand();
    expect_files_by_hand();
    expect_heads_by_hand();
    for (size_t p = 0; p < 4; p++) {
        expect_sheets(seed, (uint32_t)pitches[p].pitch);
    }
    for (size_t n = 0; n < count; n++) {
        self_seed = seed + n;
        generate_start(&generator, self_seed);
        self_check(&generator);
    }
    for (size_t t = 0; t < TALLIES; t++) {
        printf("%s: %zu\n", tally_names[t], tallies[t]);
    }
    printf("patcher's numbers 0 to 17:");
    for (size_t number = 0; number <= HIGHEST; number++) {
        printf(" %zu", patch_numbers[number]);
    }
    printf("\nchecker's numbers 0 to 17:");
    for (size_t number = 0; number <= HIGHEST; number++) {
        printf(" %zu", check_numbers[number]);
    }
    printf("\n");
    faults += count >= ENOUGH ? count_missing() : 0;
    printf("surfaces=%zu faults=%zu\n", count, faults);
    return faults == 0 ? 0 : 1;
}
