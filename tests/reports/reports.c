/* Compares wazelpunt_chart with the plain reference: the answer, the counts, and every byte of the four lent buffers with what lies before
   and behind them; and wazelpunt_chart_text, on the text of each of these surfaces, with what is due for it. It takes examples with what is
   said of them, short buffers of every kind, full sheets, and made surfaces, sound and damaged, at every pitch, many of them with tide
   pools, lakes, closed pieces, and pieces that hang together in a point.
   reports COUNT SEED: that many made surfaces, from that seed on. */
#include <inttypes.h>
#include <stdint.h>
#include <stdio.h>
#include <stdlib.h>
#include <string.h>

#include "../reference/generate.h"
#include "../reference/guarded.h"
#include "../reference/reference.h"
#include "../reference/sheets.h"
#include "wazelpunt.h"

#define RECORD_ROOM 7296
#define REPORT_ROOM 4224
#define TEXT_ROOM 27000

/* the lent buffers 1 to 4, each between guards */
struct lent {
    int32_t grid[GUARDED(ROOM)];
    uint16_t rings[GUARDED(ROOM)];
    uint64_t records[GUARDED(RECORD_ROOM)];
    uint16_t report[GUARDED(REPORT_ROOM)];
};

static struct lent before, ours, theirs;
static struct reference_report_answer said, due;

/* An entry as it was left, and one as it is due. */
static struct wazelpunt_entry left(size_t entry) { return wazelpunt_entry_at(ours.report + GUARD, REPORT_ROOM, entry); }
static size_t kind_due(size_t entry) { return theirs.report[GUARD + REFERENCE_ENTRY * entry]; }
static size_t number_due(size_t entry) { return theirs.report[GUARD + REFERENCE_ENTRY * entry + 1]; }
static size_t kept(size_t loop, size_t number) { return (size_t)reference_kept(theirs.records + GUARD, loop, number); }

/* ---- What was met ---- */

#define HIGHEST 17
#define PITCHES 4

static const uint32_t pitches[PITCHES] = {1, 2, 5, 10};

static size_t by_answer[HIGHEST + 1], by_buffer[GENERATE_BUFFERS + 1], half_reports;

/* Entries by their kinds, and tide pools and lakes by their states; pieces without a rim. Lakes that have a vertex on the rim of an earlier
   piece, on that of a later one, and in the place of a vertex of their own rim, though no such vertex is one of theirs; pools and lakes that
   are listed before their rim, pools before which a lake of the same piece is listed; loops before which one of a later piece is listed. */
static size_t by_kind[REFERENCE_KINDS], pools_by_state[5], lakes_by_state[5], closed;
static size_t at_an_earlier_rim, at_a_later_rim, in_the_rims_place, before_their_rim, behind_a_lake, behind_a_later_piece;

/* the kind of each loop, and where its ring begins */
static size_t kinds[REFERENCE_MOST_TRIANGLES];
static const uint16_t *rings[REFERENCE_MOST_TRIANGLES];

static int shares_vertex(size_t loop, size_t other) {
    for (size_t a = 0; a < kept(loop, REFERENCE_LENGTH); a++)
        for (size_t b = 0; b < kept(other, REFERENCE_LENGTH); b++)
            if (rings[loop][a] == rings[other][b]) return 1;
    return 0;
}

static int shares_place(size_t loop, size_t other) {
    const int32_t *grid = theirs.grid + GUARD;
    for (size_t a = 0; a < kept(loop, REFERENCE_LENGTH); a++)
        for (size_t b = 0; b < kept(other, REFERENCE_LENGTH); b++)
            if (memcmp(grid + 3 * rings[loop][a], grid + 3 * rings[other][b], 3 * sizeof *grid) == 0) return 1;
    return 0;
}

/* What is to be seen of a loop that is no rim, beside the other loops. */
static void meet_loop(size_t loop) {
    size_t piece = kept(loop, REFERENCE_PIECE), state = kept(loop, REFERENCE_STATE), earlier = 0, later = 0, lakes = 0;
    for (size_t other = 0; other < due.loops; other++) {
        size_t others = kept(other, REFERENCE_PIECE);
        if (kinds[other] == REFERENCE_IS_RIM && others != piece && shares_vertex(loop, other)) *(others < piece ? &earlier : &later) = 1;
        before_their_rim += kinds[other] == REFERENCE_IS_RIM && others == piece && loop < other;
        in_the_rims_place += kinds[loop] == REFERENCE_IS_LAKE && kinds[other] == REFERENCE_IS_RIM && others == piece && shares_place(loop, other);
        lakes += kinds[other] == REFERENCE_IS_LAKE && others == piece && other < loop;
    }
    if (kinds[loop] == REFERENCE_IS_POOL) {
        pools_by_state[state]++;
        behind_a_lake += lakes > 0;
    } else {
        lakes_by_state[state]++;
        at_an_earlier_rim += earlier;
        at_a_later_rim += later;
    }
}

static void meet(const struct generated_surface *s) {
    const uint16_t *ring = theirs.rings + GUARD;
    by_answer[due.number]++;
    if (due.number == 3) {
        by_buffer[due.place]++;
        half_reports += due.place == 4 && 3 * s->report_lent == 2 * s->corner_count;
    }
    for (size_t l = 0; l < due.loops; l++) {
        rings[l] = ring;
        ring += kept(l, REFERENCE_LENGTH);
        behind_a_later_piece += l > 0 && kept(l - 1, REFERENCE_PIECE) > kept(l, REFERENCE_PIECE);
    }
    for (size_t e = 0; e < due.entries; e++) {
        by_kind[kind_due(e)]++;
        if (kind_due(e) != REFERENCE_IS_PIECE) kinds[number_due(e)] = kind_due(e);
        else closed += e + 1 == due.entries || kind_due(e + 1) == REFERENCE_IS_PIECE;
    }
    for (size_t l = 0; l < due.loops; l++)
        if (kinds[l] != REFERENCE_IS_RIM) meet_loop(l);
}

/* Whether every answer was met, every buffer short, and each kind in each state often enough, as everything that could be told wrongly. */
static int met_all(void) {
    size_t missing = by_answer[17] == 0;
    for (size_t n = 0; n <= 8; n++) missing += by_answer[n] == 0;
    for (size_t b = 1; b <= GENERATE_BUFFERS; b++) missing += by_buffer[b] == 0;
    for (size_t k = 0; k < REFERENCE_KINDS; k++) missing += by_kind[k] < 1000;
    for (size_t state = 1; state <= 3; state++) missing += (pools_by_state[state] < 20) + (lakes_by_state[state] < 20);
    missing += (closed < 500) + (half_reports == 0) + (at_an_earlier_rim < 100) + (at_a_later_rim < 100) + (in_the_rims_place < 100);
    missing += (before_their_rim < 500) + (behind_a_lake < 100) + (behind_a_later_piece < 500);
    if (missing > 0) printf("%zu answers, buffers, kinds, states or places were met too seldom\n", missing);
    return missing == 0;
}

/* ---- Comparing ---- */

static int same_answer(void) {
    if (said.number == due.number && said.place == due.place && said.loops == due.loops && said.vertices == due.vertices && said.entries == due.entries) return 1;
    printf("answered %zu, %zu; %zu, %zu, %zu; due %zu, %zu; %zu, %zu, %zu\n", said.number, said.place, said.loops, said.vertices, said.entries, due.number, due.place, due.loops, due.vertices, due.entries);
    return 0;
}

/* Whether a buffer of ours is as it was, but for what is used of it, which begins behind its guard. */
#define STAYS(buffer, used) (memcmp(ours.buffer, before.buffer, GUARD * sizeof *ours.buffer) == 0 && memcmp(ours.buffer + GUARD + (used), before.buffer + GUARD + (used), sizeof ours.buffer - (GUARD + (used)) * sizeof *ours.buffer) == 0)

/* Whether what lies before and behind the answer is as it was: behind the last record of a loop and the last entry too. */
static int rest_stays(size_t words) {
    return STAYS(grid, said.number == 0 ? words : 0) && STAYS(rings, said.vertices) && STAYS(records, 7 * said.loops) && STAYS(report, 2 * said.entries);
}

static int agree(const struct generated_surface *s) {
    const size_t *lent = s->lent;
    ours = theirs = before;
    said.number = wazelpunt_chart(s->words, s->word_count, s->corners, s->corner_count, ours.grid + GUARD, lent[0], ours.rings + GUARD, lent[1], ours.records + GUARD, lent[2], ours.report + GUARD, s->report_lent, &said.place, &said.loops, &said.vertices, &said.entries, s->pitch);
    reference_report(s->words, s->word_count, s->corners, s->corner_count, theirs.grid + GUARD, lent[0], theirs.rings + GUARD, lent[1], theirs.records + GUARD, lent[2], theirs.report + GUARD, s->report_lent, s->pitch, &due);
    if (!same_answer()) return 0;
    if (!rest_stays(s->word_count)) {
        printf("what lies around an answer is not as it was, answer %zu\n", due.number);
        return 0;
    }
    if (memcmp(&ours, &theirs, sizeof ours) != 0) {
        printf("a buffer differs, answer %zu\n", due.number);
        return 0;
    }
    return 1;
}

/* ---- Texts ---- */

/* what is lent for a printed report, between guards, and what is due there */
static struct {
    uint8_t bytes[GUARDED(TEXT_ROOM)];
} printed, unprinted;

static char report_due[TEXT_ROOM];
static size_t texts, texts_refused;

static size_t put(size_t at, const char *before_it, size_t first, size_t second, int both) {
    return at + (size_t)(both ? snprintf(report_due + at, sizeof report_due - at, "%s=%zu,%zu\n", before_it, first, second) : snprintf(report_due + at, sizeof report_due - at, "%s=%zu\n", before_it, first));
}

/* What is to be printed of a text: the answer of the reader if it refuses, else that of the report, and its entries. */
static size_t take_report_due(const uint8_t *text, size_t length) {
    static uint32_t words[REFERENCE_MOST_WORDS];
    static uint16_t corners[REFERENCE_MOST_CORNERS], ring_room[REFERENCE_MOST_CORNERS], entries[REFERENCE_MOST_REPORT];
    static int32_t grid[REFERENCE_MOST_WORDS];
    static uint64_t records[REFERENCE_MOST_RECORDS];
    struct reference_read_answer read;
    struct reference_report_answer told;
    reference_read(text, length, words, REFERENCE_MOST_WORDS, corners, REFERENCE_MOST_CORNERS, &read);
    if (read.number != 0) return put(0, "answer", read.number, read.place, 1);
    reference_report(words, read.words, corners, read.corners, grid, REFERENCE_MOST_WORDS, ring_room, REFERENCE_MOST_CORNERS, records, REFERENCE_MOST_RECORDS, entries, REFERENCE_MOST_REPORT, (uint32_t)read.pitch, &told);
    size_t at = put(0, "answer", told.number, told.place, 1);
    if (told.number != 0) return at;
    at = put(at, "entries", told.entries, 0, 0);
    for (size_t e = 0; e < told.entries; e++) at = put(at, "entry", entries[2 * e], entries[2 * e + 1], 1);
    return at;
}

/* Whether a text's report is printed as it is due into a buffer of that length, and not at all into one that is too short for some report. */
static int prints(const uint8_t *text, size_t length, size_t lent) {
    size_t place = 77, bytes = 77, much = take_report_due(text, length);
    printed = unprinted;
    uint32_t number = wazelpunt_chart_text(text, length, printed.bytes + GUARD, lent, &place, &bytes);
    texts++;
    texts_refused += report_due[7] != '0';
    if (lent < WAZELPUNT_REPORT_BYTES) return number == 3 && place == 1 && bytes == 0 && memcmp(&printed, &unprinted, sizeof printed) == 0;
    if (number != 0 || place != 0 || bytes != much || memcmp(printed.bytes + GUARD, report_due, much) != 0) return 0;
    memcpy(printed.bytes + GUARD, unprinted.bytes + GUARD, much);
    return memcmp(&printed, &unprinted, sizeof printed) == 0;
}

/* The text of a surface, whole and at times damaged. What is no text of three corners a triangle at one of the pitches is no text either. */
static int prints_surface(struct generator *generator, const struct generated_surface *s) {
    static uint8_t text[GENERATE_TEXT_ROOM];
    size_t length = generate_sheet_text(s, text);
    int right = prints(text, length, WAZELPUNT_REPORT_BYTES + generate_below(generator, 3) - 1);
    if (generate_below(generator, 4) == 0) {
        length = generate_text_damage(generator, text, length);
        right = prints(text, length, WAZELPUNT_REPORT_BYTES) && right;
    }
    if (!right) printf("a text's report differs from %.10s\n", report_due);
    return right;
}

/* ---- Refusals ---- */

static size_t refusals;

/* A refusal leaves the buffers as they were and all counts 0. */
static int refuses(const struct generated_surface *s, size_t number, size_t place) {
    refusals++;
    int right = agree(s) && said.number == number && said.place == place && said.loops == 0 && said.vertices == 0 && said.entries == 0 && memcmp(&ours, &before, sizeof ours) == 0;
    if (!right) printf("refusal %zu at %zu: answered %zu, %zu; %zu, %zu, %zu\n", number, place, said.number, said.place, said.loops, said.vertices, said.entries);
    return right;
}

/* How long a lent buffer is: the report is the fourth. */
static size_t *lent_of(struct generated_surface *s, size_t buffer) { return buffer == 3 ? &s->report_lent : &s->lent[buffer]; }

/* Each buffer as it is lent but for one number. */
static int refuses_short(struct generated_surface *s) {
    int right = 1;
    for (size_t b = 0; b < 4; b++) {
        if (*lent_of(s, b) == 0) continue;
        --*lent_of(s, b);
        right = refuses(s, 3, b + 1) && right;
        ++*lent_of(s, b);
    }
    return right;
}

/* ---- Making ---- */

static size_t compare_made(size_t many, uint64_t seed) {
    static struct generated_surface surface;
    size_t wrong = 0;
    for (uint64_t own = seed; own < seed + many; own++) {
        struct generator generator;
        generate_start(&generator, own);
        if (own % 2 == 0) sheet_make_coasts(&generator, &surface);
        else if (own % 8 == 1) generate_sound_surface(&generator, &surface);
        else if (own % 8 == 7) sheet_make_cones(&generator, &surface);
        else generate_surface(&generator, &surface);
        if (own % 16 == 0) {
            fill(&before, sizeof before, &generator);
            fill(&unprinted, sizeof unprinted, &generator);
        }
        int right = agree(&surface);
        meet(&surface);
        if (own % 4 != 0) right = prints_surface(&generator, &surface) && right;
        if (own % 32 == 0) right = refuses_short(&surface) && right;
        if (!right && wrong++ < 10) printf("surface of seed %" PRIu64 "\n", own);
    }
    return wrong;
}

/* ---- Full sheets ---- */

/* All sheets at pitch 1, or each at one of the coarse pitches. */
static size_t compare_sheets(uint64_t seed, size_t *sheets, int coarse) {
    static struct generated_surface surface;
    struct generator generator;
    const char *name;
    size_t wrong = 0;
    generate_start(&generator, seed);
    fill(&before, sizeof before, &generator);
    fill(&unprinted, sizeof unprinted, &generator);
    for (*sheets = 0; (name = sheet_make(&generator, *sheets, &surface, coarse ? pitches[1 + *sheets % 3] : 1)) != 0; ++*sheets) {
        if (!agree(&surface) || due.number != 0 || !prints_surface(&generator, &surface)) {
            printf("sheet \"%s\" at pitch %" PRIu32 ", answer %zu\n", name, surface.pitch, due.number);
            wrong++;
        }
    }
    return wrong;
}

static void begin(struct generated_surface *s) {
    s->pitch = 1;
    s->word_count = 3 * REFERENCE_MOST_POINTS;
    s->corner_count = 0;
    memset(s->words, 0, sizeof s->words);
}

/* A surface without a refusal whose report has so many entries of each kind, and is printed so too. */
static int has_entries(struct generated_surface *s, size_t pieces, size_t rims, size_t pools, size_t lakes, const char *name) {
    const size_t many[REFERENCE_KINDS] = {pieces, rims, pools, lakes};
    size_t seen[REFERENCE_KINDS] = {0};
    struct generator generator;
    generate_start(&generator, 1);
    generate_lend_exactly(s);
    int right = agree(s) && said.number == 0 && said.entries == pieces + rims + pools + lakes && prints_surface(&generator, s);
    for (size_t e = 0; right && e < said.entries; e++) {
        right = left(e).kind < REFERENCE_KINDS;
        if (right) seen[left(e).kind]++;
    }
    right = right && memcmp(seen, many, sizeof seen) == 0;
    if (!right) printf("%s: answered %zu, %zu; %zu entries, of the kinds %zu, %zu, %zu, %zu\n", name, said.number, said.place, said.entries, seen[0], seen[1], seen[2], seen[3]);
    return right;
}

/* As many triangles as there may be: each alone, so that no report is longer; in pairs that are closed; and both, a closed one last. */
static size_t compare_most(void) {
    static struct generated_surface s;
    size_t wrong = 0, most = REFERENCE_MOST_TRIANGLES;
    begin(&s);
    for (size_t t = 0; t < most; t++) sheet_add_triangle(&s, t, (t + 1) % most, (t + 3) % most);
    wrong += !has_entries(&s, most, most, 0, 0, "islands alone");
    wrong += left(2 * most - 1).kind != WAZELPUNT_ENTRY_RIM || left(2 * most - 1).number != most - 1 || left(2 * most - 2).number != most - 1;
    begin(&s);
    for (size_t t = 0; t < most; t++) sheet_add_triangle(&s, t / 2, t / 2 + (t % 2 == 0 ? 1 : 2), t / 2 + (t % 2 == 0 ? 2 : 1));
    for (size_t t = 0; t < most / 2; t++) s.corners[6 * t] = s.corners[6 * t + 3] = (uint16_t)(512 + t);
    wrong += !has_entries(&s, most / 2, 0, 0, 0, "closed pairs");
    begin(&s);
    for (size_t t = 0; t < most - 3; t++) sheet_add_triangle(&s, t, (t + 1) % (most - 3), (t + 3) % (most - 3));
    sheet_add_triangle(&s, 0, 5, 11);
    sheet_add_triangle(&s, 1021, 1022, 1023);
    sheet_add_triangle(&s, 1021, 1023, 1022);
    wrong += !has_entries(&s, most - 1, most - 2, 0, 0, "islands and a closed pair");
    return wrong;
}

/* A full sheet of which it is known how many tide pools and lakes it has. */
static int has_holes(const char *name, size_t pools, size_t lakes) {
    static struct generated_surface s;
    struct generator generator;
    const char *found;
    generate_start(&generator, 1);
    for (size_t sheet = 0; (found = sheet_make(&generator, sheet, &s, 1)) != 0 && strcmp(found, name) != 0; sheet++) continue;
    return found != 0 && has_entries(&s, 1, 1, pools, lakes, name);
}

static size_t compare_holed(void) {
    size_t wrong = !has_holes("strip with tide pools", 127, 0) + !has_holes("sheet with tide pools and lakes", 17, 60);
    /* of the latter the first lake is listed before the first tide pool, and the last one behind the last */
    int right = left(2).kind == WAZELPUNT_ENTRY_POOL && left(18).kind == WAZELPUNT_ENTRY_POOL && left(19).kind == WAZELPUNT_ENTRY_LAKE;
    right = right && left(19).number < left(2).number && left(78).number > left(18).number;
    if (!right) printf("a full sheet with holes is told in another order\n");
    return wrong + !right;
}

/* ---- Examples ---- */

/* An example with what is said of it. */
struct example {
    const char *name;
    size_t points;
    int16_t at[45];
    size_t corner_count;
    uint16_t corners[51];
    size_t entries;
    uint16_t report[20];
};

/* a plate 30 wide with a hole in it, and a strip that is pinched at point 0 */
#define PLATE 0, 0, 0, 30, 0, 0, 0, 30, 0, 5, 5, 0, 15, 5, 0, 5, 15, 0
#define PLATE_CORNERS 0, 1, 3, 1, 4, 3, 1, 2, 4, 2, 5, 4, 2, 0, 5, 0, 3, 5
#define STRIP_CORNERS 0, 1, 2, 2, 1, 3, 2, 3, 4, 4, 3, 0

static const struct example examples[] = {
    {"no points", 0, {0}, 0, {0}, 0, {0}},
    {"no triangles", 3, {0}, 0, {0}, 0, {0}},
    {"a triangle", 3, {0, 0, 0, 1, 0, 0, 0, 1, 0}, 3, {0, 1, 2}, 2, {0, 0, 1, 0}},
    {"two pieces that share a point", 5, {0}, 6, {0, 1, 2, 0, 3, 4}, 4, {0, 0, 1, 0, 0, 1, 1, 1}},
    {"tetrahedron", 4, {0}, 12, {0, 1, 2, 0, 2, 3, 0, 3, 1, 1, 3, 2}, 1, {0, 0}},
    {"a strip pinched at its rim, which is listed first", 5, {0}, 12, {STRIP_CORNERS}, 3, {0, 0, 1, 0, 2, 1}},
    {"a strip pinched at its rim, which is listed last", 5, {0, 0, 0, 10, 0, 0, 10, 10, 0, 0, 10, 4, 4, 4, 9}, 12, {STRIP_CORNERS}, 3, {0, 0, 1, 1, 2, 0}},
    {"a plate with a hole", 6, {PLATE}, 18, {PLATE_CORNERS}, 3, {0, 0, 1, 0, 3, 1}},
    {"the inner loop is the rim", 6, {1, 1, 0, 2, 1, 0, 1, 2, 0, 0, 0, 9, 50, 0, 9, 0, 50, 9}, 18, {PLATE_CORNERS}, 3, {0, 0, 1, 1, 3, 0}},
    {"all points in one place", 6, {0}, 18, {PLATE_CORNERS}, 3, {0, 0, 1, 0, 3, 1}},
    {"a hole with a vertex where the rim has one", 6, {0, 0, 0, 30, 0, 0, 0, 30, 0, 0, 0, 0, 15, 5, 0, 5, 15, 0}, 18, {PLATE_CORNERS}, 3, {0, 0, 1, 0, 3, 1}},
    {"an island in the hole", 9, {PLATE, 6, 6, 0, 8, 6, 0, 6, 8, 0}, 21, {0, 1, 3, 6, 7, 8, 1, 4, 3, 1, 2, 4, 2, 5, 4, 2, 0, 5, 0, 3, 5}, 5, {0, 0, 1, 0, 3, 2, 0, 1, 1, 1}},
    {"an island that touches the hole, a later piece", 8, {PLATE, 8, 6, 0, 6, 8, 0}, 21, {PLATE_CORNERS, 3, 6, 7}, 5, {0, 0, 1, 0, 3, 1, 0, 1, 1, 2}},
    {"an island that touches the hole, an earlier piece", 8, {PLATE, 8, 6, 0, 6, 8, 0}, 21, {3, 6, 7, PLATE_CORNERS}, 5, {0, 0, 1, 0, 0, 1, 1, 1, 3, 2}},
    {"an island that touches the rim and the hole", 7, {PLATE, 8, 6, 0}, 21, {PLATE_CORNERS, 2, 3, 6}, 5, {0, 0, 1, 0, 3, 1, 0, 1, 1, 2}},
    {"closed pieces before, between and behind", 12, {0, 0, 0, 0, 0, 0, 0, 0, 0, 1, 0, 0, 0, 2, 0, 0, 0, 3}, 24, {0, 1, 2, 0, 2, 1, 3, 4, 5, 6, 7, 8, 6, 8, 7, 6, 3, 0, 9, 10, 11, 9, 11, 10}, 7, {0, 0, 0, 1, 1, 0, 0, 2, 0, 3, 1, 1, 0, 4}},
    {"a cycle of three loops", 7, {0, 0, 0, 5, 0, 0, 0, 5, 0, 1, 0, 0, 0, 1, 0, 2, 0, 0, 0, 2, 0}, 21, {6, 0, 1, 2, 0, 3, 4, 0, 5, 1, 2, 3, 1, 3, 4, 1, 4, 5, 1, 5, 6}, 4, {0, 0, 1, 0, 2, 1, 2, 2}},
    {"a hole that reaches a corner of the plate", 6, {PLATE}, 15, {0, 1, 3, 1, 4, 3, 1, 2, 4, 2, 0, 5, 0, 3, 5}, 3, {0, 0, 1, 1, 2, 0}},
    {"a hole that reaches a corner of the plate, and an island there", 8, {PLATE, 1, 2, 3, 3, 2, 1}, 18, {2, 6, 7, 0, 1, 3, 1, 4, 3, 1, 2, 4, 2, 0, 5, 0, 3, 5}, 5, {0, 0, 1, 0, 0, 1, 1, 2, 2, 1}},
};

/* Whether the report is what is known of an example, at each pitch that its coordinates are multiplied by. */
static int shows(const struct example *e, size_t p) {
    static struct generated_surface surface;
    struct generator generator;
    surface.pitch = pitches[p];
    surface.word_count = 3 * e->points;
    for (size_t w = 0; w < surface.word_count; w++) surface.words[w] = sheet_word(e->at[w] * (int32_t)pitches[p]);
    surface.corner_count = e->corner_count;
    memcpy(surface.corners, e->corners, sizeof e->corners);
    generate_lend_exactly(&surface);
    generate_start(&generator, p);
    int right = agree(&surface) && said.number == 0 && said.place == 0 && said.entries == e->entries;
    right = right && memcmp(ours.report + GUARD, e->report, 2 * e->entries * sizeof *e->report) == 0;
    for (size_t i = 0; i < e->entries; i++) right = right && left(i).kind == e->report[2 * i] && left(i).number == e->report[2 * i + 1];
    right = prints_surface(&generator, &surface) && right;
    if (!right) {
        printf("example \"%s\" at pitch %" PRIu32 ": answered %zu, %zu; %zu, %zu, %zu:", e->name, pitches[p], said.number, said.place, said.loops, said.vertices, said.entries);
        for (size_t i = 0; i < said.entries; i++) printf(" %d:%d", left(i).kind, left(i).number);
        printf("\n");
    }
    return right;
}

/* An entry is read out where there is a whole one, and nowhere else. */
static size_t compare_entries(void) {
    static const uint16_t report[5] = {0, 0, 1, 7, 3};
    size_t wrong = 0;
    for (size_t length = 0; length <= 5; length++)
        for (size_t entry = 0; entry < 4; entry++) {
            struct wazelpunt_entry told = wazelpunt_entry_at(report, length, entry);
            int there = 2 * entry + 2 <= length;
            wrong += told.kind != (there ? report[2 * entry] : 65535) || told.number != (there ? report[2 * entry + 1] : 0);
        }
    wrong += wazelpunt_entry_at(report, 5, SIZE_MAX).kind != WAZELPUNT_ENTRY_NOTHING || wazelpunt_entry_at(report, 5, SIZE_MAX / 2 + 1).kind != WAZELPUNT_ENTRY_NOTHING;
    if (wrong > 0) printf("%zu entries are read out otherwise\n", wrong);
    return wrong;
}

/* ---- The order of the refusals ---- */

/* A surface with every fault there is, which are mended one after the other: each refusal comes before the next. What is too far at any
   pitch is so at that one. */
static size_t compare_refusals(uint32_t pitch) {
    static const uint32_t no_pitches[] = {0, 3, 4, 9, 11, 20, 257, 65538, 0x8000000a, 0xffffffff};
    static struct generated_surface s, exact;
    static const uint16_t corners[12] = {0, 1, 2, 0, 2, 4, 3, 2, 3, 0, 1, 3};
    size_t wrong = 0;
    for (size_t w = 0; w < 12; w++) s.words[w] = sheet_word((int32_t)w);
    memcpy(s.corners, corners, sizeof corners);
    s.words[9] = 0x7f800000;
    s.words[10] = 0xffc00000;
    s.words[1] = 0x46ffff00;
    s.words[2] = 0xc6ffff00;
    s.word_count = 13;
    s.corner_count = 11;
    for (size_t b = 0; b < 4; b++) *lent_of(&s, b) = 0;
    for (size_t n = 0; n < sizeof no_pitches / sizeof *no_pitches; n++) {
        s.pitch = no_pitches[n];
        wrong += !refuses(&s, 17, 0);
    }
    s.pitch = pitch;
    wrong += !refuses(&s, 1, 0);
    s.word_count = REFERENCE_MOST_WORDS + 3;
    wrong += !refuses(&s, 1, 0);
    s.word_count = 12;
    wrong += !refuses(&s, 2, 0);
    s.corner_count = REFERENCE_MOST_CORNERS + 3;
    wrong += !refuses(&s, 2, 0);
    s.corner_count = 12;
    exact = s;
    generate_lend_exactly(&exact);
    for (size_t b = 0; b < 4; b++) {
        /* empty, one short, and of records and entries with room for fewer numbers of each */
        wrong += !refuses(&s, 3, b + 1);
        *lent_of(&s, b) = *lent_of(&exact, b) - 1;
        wrong += !refuses(&s, 3, b + 1);
        for (size_t numbers = 1; b >= 2 && numbers < (b == 2 ? 7 : 4); numbers++) {
            *lent_of(&s, b) = numbers * (s.corner_count / 3);
            wrong += !refuses(&s, 3, b + 1);
        }
        *lent_of(&s, b) = *lent_of(&exact, b);
    }
    /* of two that are short the first is told */
    for (size_t b = 0; b + 1 < 4; b++) {
        --*lent_of(&s, b);
        --*lent_of(&s, b + 1);
        wrong += !refuses(&s, 3, b + 1);
        ++*lent_of(&s, b);
        ++*lent_of(&s, b + 1);
    }
    wrong += !refuses(&s, 4, 5);
    s.corners[5] = 3;
    wrong += !refuses(&s, 5, 2);
    s.corners[8] = 1;
    wrong += !refuses(&s, 6, 9);
    s.corner_count = 9;
    wrong += !refuses(&s, 7, 9);
    s.words[9] = 0;
    wrong += !refuses(&s, 7, 10);
    s.words[10] = 0;
    wrong += !refuses(&s, 8, 1);
    s.words[1] = 0;
    wrong += !refuses(&s, 8, 2);
    s.words[2] = 0;
    wrong += !agree(&s) || said.number != 0 || said.place != 0 || said.entries == 0;
    return wrong;
}

/* Each buffer as long as a full surface asks for, and one less. */
static size_t compare_full_buffers(void) {
    static struct generated_surface s;
    size_t wrong = 0;
    begin(&s);
    for (size_t t = 0; t < REFERENCE_MOST_TRIANGLES; t++) sheet_add_triangle(&s, t, (t + 1) % 1024, (t + 3) % 1024);
    generate_lend_exactly(&s);
    wrong += WAZELPUNT_GRID_FOR(s.word_count) != s.lent[0] || WAZELPUNT_RINGS_FOR(s.corner_count) != s.lent[1] || WAZELPUNT_RECORDS_FOR(s.corner_count) != s.lent[2];
    wrong += WAZELPUNT_REPORT_FOR(s.corner_count) != s.report_lent || s.report_lent != WAZELPUNT_REPORT || WAZELPUNT_REPORT != 4096;
    wrong += !agree(&s) || said.number != 0 || 2 * said.entries != s.report_lent;
    return wrong + !refuses_short(&s);
}

int main(int count, char **arguments) {
    size_t many = count > 1 ? strtoull(arguments[1], 0, 10) : 6000;
    uint64_t seed = count > 2 ? strtoull(arguments[2], 0, 10) : 20261118;
    size_t named = sizeof examples / sizeof examples[0], sheets;
    size_t wrong = compare_sheets(seed, &sheets, 0) + compare_sheets(seed, &sheets, 1) + compare_most() + compare_holed() + compare_entries() + compare_full_buffers();
    for (size_t p = 0; p < PITCHES; p++) {
        wrong += compare_refusals(pitches[p]);
        for (size_t i = 0; i < named; i++) wrong += !shows(&examples[i], p);
    }
    wrong += compare_made(many, seed);
    wrong += count < 2 && !met_all();
    printf("reports: %zu examples, %zu refusals, %zu sheets at two pitches each, %zu made from seed %" PRIu64 ", %zu texts, %zu of them refused, %zu wrong; ", named, refusals, sheets, many, seed, texts, texts_refused, wrong);
    printf("made entries by kind: pieces: %zu, %zu of them closed, rims: %zu, tide pools: %zu, lakes: %zu; tide pools by state: 1: %zu 2: %zu 3: %zu, lakes: 1: %zu 2: %zu 3: %zu; ", by_kind[0], closed, by_kind[1], by_kind[2], by_kind[3], pools_by_state[1], pools_by_state[2], pools_by_state[3], lakes_by_state[1], lakes_by_state[2], lakes_by_state[3]);
    printf("lakes at the rim of an earlier piece: %zu, of a later one: %zu, in the place of their own: %zu; loops listed before their rim: %zu, tide pools behind a lake: %zu, loops behind one of a later piece: %zu; by answer:", at_an_earlier_rim, at_a_later_rim, in_the_rims_place, before_their_rim, behind_a_lake, behind_a_later_piece);
    for (int n = 0; n <= HIGHEST; n++)
        if (n <= 8 || n == 17) printf(" %d: %zu", n, by_answer[n]);
    printf("; short buffers:");
    for (size_t b = 1; b <= GENERATE_BUFFERS; b++) printf(" %zu: %zu", b, by_buffer[b]);
    printf(", reports for one entry a triangle: %zu\n", half_reports);
    return wrong != 0;
}
