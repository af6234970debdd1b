/* The rules of the scope, each function a plain rendering of the sentence quoted above it. */

#include "reference.h"

#include <string.h>

/* A refusal or verdict: its number in the table and its place. */
struct finding {
    size_t number;
    size_t place;
};

/* What is known of a surface that has no refusal: its grid, and of each loop
   its ring, its length, the half-edge it is listed from, and whether it is a
   rim. */
struct survey {
    int32_t grid[REFERENCE_MOST_WORDS];
    uint16_t rings[REFERENCE_MOST_CORNERS];
    uint16_t lengths[REFERENCE_MOST_TRIANGLES];
    size_t firsts[REFERENCE_MOST_TRIANGLES];
    unsigned char rims[REFERENCE_MOST_TRIANGLES];
    size_t loops;
    size_t vertices;
};

/* What a patcher's run leaves beside the survey. */
struct run {
    uint16_t states[REFERENCE_MOST_TRIANGLES];
    uint64_t weights[REFERENCE_MOST_TRIANGLES];
    uint16_t patches[REFERENCE_MOST_PATCH_CORNERS];
    size_t corners;
};

static struct finding found(size_t number, size_t place)
{
    struct finding finding = {number, place};
    return finding;
}

/* ---- Grid ---- */

/* The bits of magnitude * 2^(field - 150), or of 0 - that; the field of a
   subnormal's lowest place is 1. The magnitude is below 2^24. */
static uint32_t float_bits(int negative, int64_t magnitude, uint32_t field)
{
    if (magnitude == 0) {
        return 0;
    }
    while (magnitude < ((int64_t)1 << 23) && field > 1) {
        magnitude *= 2;
        field -= 1;
    }
    if (magnitude < ((int64_t)1 << 23)) {
        field = 0;
    }
    uint32_t fraction = (uint32_t)(magnitude & 0x7fffff);
    return (negative ? 0x80000000u : 0u) | (field << 23) | fraction;
}

/* "a pitch of 2, 5 or 10 plate units"; "Pitch 1 is document 01's rule." */
int reference_is_pitch(uint32_t number)
{
    return number == 1 || number == 2 || number == 5 || number == 10;
}

int32_t reference_greatest(uint32_t pitch)
{
    return (int32_t)(REFERENCE_GREATEST_COORDINATE / pitch * pitch);
}

/* "A coordinate goes to the nearest multiple of the pitch, a tie to the even
   multiple. The rest is then at most half a pitch, is still exact". "The rest
   is the value less the whole number". "Too far means the whole number lies
   outside -32,767 to 32,767. Both zeros are exact 0." An even multiple is an
   even number of pitches: at a pitch that is even all multiples are even
   numbers. */
int reference_coordinate(uint32_t word, int32_t *whole, uint32_t *rest, uint32_t pitch)
{
    int negative = (word >> 31) != 0;
    uint32_t field = (word >> 23) & 0xff;
    int64_t magnitude = word & 0x7fffff;
    *whole = 0;
    *rest = 0;
    if (!reference_is_pitch(pitch)) {
        return 17;
    }
    if (field == 255) {
        return 7;
    }
    if (field == 0) {
        field = 1;
    } else {
        magnitude += (int64_t)1 << 23;
    }
    /* The value is now magnitude * 2^(field - 150), the magnitude below 2^24. From 2^23 upwards every multiple nearby is too far. */
    if (field >= 150) {
        *rest = word;
        return 8;
    }
    int64_t pitches = 0;
    int64_t left = magnitude;
    /* From 2^-26 downwards the unit of the magnitude leaves a value below a quarter. */
    if (field > 124) {
        int64_t step = (int64_t)pitch << (150 - field);
        pitches = magnitude / step;
        left = magnitude % step;
        if (2 * left > step || (2 * left == step && pitches % 2 != 0)) {
            pitches += 1;
            left -= step;
        }
    }
    int64_t nearest = pitches * pitch;
    if (nearest > REFERENCE_GREATEST_COORDINATE) {
        *rest = word;
        return 8;
    }
    *whole = (int32_t)(negative ? -nearest : nearest);
    *rest = left < 0 ? float_bits(!negative, -left, field) : float_bits(negative, left, field);
    return 0;
}

/* ---- Half-edges ---- */

/* "Corner c of triangle t is half-edge 3t+c; it runs from that corner to the
   next one of t, the third corner being followed by the first." */
uint16_t reference_start(const uint16_t *corners, size_t h)
{
    return corners[h];
}

size_t reference_following(size_t h)
{
    return h % 3 == 2 ? h - 2 : h + 1;
}

uint16_t reference_end(const uint16_t *corners, size_t h)
{
    return corners[reference_following(h)];
}

size_t reference_find_edge(const uint16_t *corners, size_t corner_count, uint16_t from, uint16_t to)
{
    for (size_t h = 0; h < corner_count; h++) {
        if (reference_start(corners, h) == from && reference_end(corners, h) == to) {
            return h;
        }
    }
    return REFERENCE_NO_EDGE;
}

/* "A half-edge u to v is open if no half-edge runs v to u." */
int reference_is_open(const uint16_t *corners, size_t corner_count, size_t h)
{
    uint16_t u = reference_start(corners, h);
    uint16_t v = reference_end(corners, h);
    return reference_find_edge(corners, corner_count, v, u) == REFERENCE_NO_EDGE;
}

/* "From open u to v in triangle (u,v,w) take v to w. While the edge in hand, v
   to x, is not open, go to the triangle holding x to v and take the edge of it
   that leaves v. The first open one is the next". */
static size_t next_open(const uint16_t *corners, size_t corner_count, size_t h)
{
    size_t hand = reference_following(h);
    while (!reference_is_open(corners, corner_count, hand)) {
        uint16_t v = reference_start(corners, hand);
        uint16_t x = reference_end(corners, hand);
        size_t back = reference_find_edge(corners, corner_count, x, v);
        hand = reference_following(back);
    }
    return hand;
}

/* ---- Loops ---- */

/* "that is a loop, listed now, from that edge." Its vertices are the starts of
   its edges, and its first half-edge is that edge. */
static void list_loop(struct survey *survey, const uint16_t *corners, const size_t *edges, size_t count)
{
    survey->firsts[survey->loops] = edges[0];
    for (size_t e = 0; e < count; e++) {
        survey->rings[survey->vertices] = reference_start(corners, edges[e]);
        survey->vertices += 1;
    }
    survey->lengths[survey->loops] = (uint16_t)count;
    survey->loops += 1;
}

/* "Keep a path. After adding an edge that ends at x, if an edge of the path
   starts at x, cut off the path from that edge on". */
static void walk_cycle(struct survey *survey, const uint16_t *corners, size_t corner_count,
                       size_t first, unsigned char *walked)
{
    size_t path[REFERENCE_MOST_CORNERS];
    size_t count = 0;
    size_t h = first;
    do {
        walked[h] = 1;
        path[count] = h;
        count += 1;
        uint16_t x = reference_end(corners, h);
        for (size_t e = 0; e < count; e++) {
            if (reference_start(corners, path[e]) == x) {
                list_loop(survey, corners, path + e, count - e);
                count = e;
                break;
            }
        }
        h = next_open(corners, corner_count, h);
    } while (h != first);
}

/* "Cycles are taken by their smallest half-edge, ascending, each walked from it." */
static void find_loops(struct survey *survey, const uint16_t *corners, size_t corner_count)
{
    unsigned char walked[REFERENCE_MOST_CORNERS] = {0};
    survey->loops = 0;
    survey->vertices = 0;
    for (size_t h = 0; h < corner_count; h++) {
        if (!walked[h] && reference_is_open(corners, corner_count, h)) {
            walk_cycle(survey, corners, corner_count, h, walked);
        }
    }
}

/* ---- Pieces and rims ---- */

static int64_t absolute(int64_t value)
{
    return value < 0 ? -value : value;
}

/* "Pieces are groups of triangles joined through shared edges." Every triangle
   has itself for a label at first; of two that share an edge the greater label
   gives way, over and over, until none does. A label is then the smallest
   triangle of its piece. */
static void label_triangles(const uint16_t *corners, size_t corner_count, size_t *labels)
{
    size_t across[REFERENCE_MOST_CORNERS];
    int changed = 1;
    for (size_t h = 0; h < corner_count; h++) {
        across[h] = reference_find_edge(corners, corner_count, reference_end(corners, h),
                                        reference_start(corners, h));
        labels[h / 3] = h / 3;
    }
    while (changed) {
        changed = 0;
        for (size_t h = 0; h < corner_count; h++) {
            if (across[h] != REFERENCE_NO_EDGE && labels[across[h] / 3] < labels[h / 3]) {
                labels[h / 3] = labels[across[h] / 3];
                changed = 1;
            }
        }
    }
}

/* A piece is known by its smallest triangle; its number is how many pieces are known by a smaller one. */
void reference_pieces(const uint16_t *corners, size_t corner_count, uint16_t *pieces)
{
    size_t labels[REFERENCE_MOST_TRIANGLES];
    label_triangles(corners, corner_count, labels);
    for (size_t t = 0; t < corner_count / 3; t++) {
        pieces[t] = 0;
        for (size_t s = 0; s < labels[t]; s++) {
            pieces[t] += labels[s] == s;
        }
    }
}

/* "run being the sum over its edges of the three absolute grid differences". */
int64_t reference_run(const int32_t *grid, const uint16_t *ring, size_t length)
{
    int64_t run = 0;
    for (size_t v = 0; v < length; v++) {
        const int32_t *from = grid + 3 * (size_t)ring[v];
        const int32_t *to = grid + 3 * (size_t)ring[(v + 1) % length];
        for (size_t axis = 0; axis < 3; axis++) {
            run += absolute((int64_t)to[axis] - from[axis]);
        }
    }
    return run;
}

/* "In each piece the loop with the greatest run is its rim [...]; among equals
   the first listed." A loop is no rim if another of its piece goes before it. */
void reference_rims(const int32_t *grid, const uint16_t *corners, size_t corner_count,
                    const uint16_t *rings, const uint16_t *lengths, size_t loops, unsigned char *rims)
{
    uint16_t pieces[REFERENCE_MOST_TRIANGLES];
    uint16_t piece_of[REFERENCE_MOST_TRIANGLES];
    int64_t runs[REFERENCE_MOST_TRIANGLES];
    const uint16_t *ring = rings;
    reference_pieces(corners, corner_count, pieces);
    for (size_t loop = 0; loop < loops; loop++) {
        piece_of[loop] = pieces[reference_find_edge(corners, corner_count, ring[0], ring[1]) / 3];
        runs[loop] = reference_run(grid, ring, lengths[loop]);
        ring += lengths[loop];
    }
    for (size_t loop = 0; loop < loops; loop++) {
        rims[loop] = 1;
        for (size_t other = 0; other < loops; other++) {
            if (piece_of[other] == piece_of[loop]
                && (runs[other] > runs[loop] || (runs[other] == runs[loop] && other < loop))) {
                rims[loop] = 0;
            }
        }
    }
}

/* ---- Refusals 17 and 1 to 8 ---- */

/* "17 for a pitch other than 1, 2, 5 or 10, place 0". */
static struct finding find_wrong_pitch(uint32_t pitch)
{
    return reference_is_pitch(pitch) ? found(0, 0) : found(17, 0);
}

/* "a corner of the surface names no point", at the smallest corner index. */
static struct finding find_unnamed(size_t word_count, const uint16_t *corners, size_t corner_count)
{
    for (size_t c = 0; c < corner_count; c++) {
        if (corners[c] >= word_count / 3) {
            return found(4, c);
        }
    }
    return found(0, 0);
}

/* "W isn't a multiple of 3, or W > 3,072"; "the surface's corner count isn't a
   multiple of 3, or > 3,072". */
static struct finding find_wrong_counts(size_t word_count, size_t corner_count)
{
    if (word_count % 3 != 0 || word_count > REFERENCE_MOST_WORDS) {
        return found(1, 0);
    }
    if (corner_count % 3 != 0 || corner_count > REFERENCE_MOST_CORNERS) {
        return found(2, 0);
    }
    return found(0, 0);
}

/* "a lent buffer is too short": "its number, lowest first". */
static struct finding find_short_buffer(const size_t *needed, const size_t *lent, size_t buffers)
{
    for (size_t b = 0; b < buffers; b++) {
        if (lent[b] < needed[b]) {
            return found(3, b + 1);
        }
    }
    return found(0, 0);
}

/* "a triangle names a point twice". */
static struct finding find_repeated_point(const uint16_t *corners, size_t corner_count)
{
    for (size_t t = 0; t < corner_count / 3; t++) {
        uint16_t a = corners[3 * t];
        uint16_t b = corners[3 * t + 1];
        uint16_t c = corners[3 * t + 2];
        if (a == b || b == c || c == a) {
            return found(5, t);
        }
    }
    return found(0, 0);
}

/* "a half-edge has the same two ends in the same order as an earlier one". */
static struct finding find_repeated_edge(const uint16_t *corners, size_t corner_count)
{
    for (size_t h = 0; h < corner_count; h++) {
        uint16_t u = reference_start(corners, h);
        uint16_t v = reference_end(corners, h);
        if (reference_find_edge(corners, corner_count, u, v) < h) {
            return found(6, h);
        }
    }
    return found(0, 0);
}

/* "a coordinate isn't finite" (7) or "a coordinate is too far" (8), at the smallest word index. */
static struct finding find_coordinate(const uint32_t *words, size_t word_count, uint32_t pitch, int number)
{
    for (size_t w = 0; w < word_count; w++) {
        int32_t whole;
        uint32_t rest;
        if (reference_coordinate(words[w], &whole, &rest, pitch) == number) {
            return found((size_t)number, w);
        }
    }
    return found(0, 0);
}

/* "Checks run in the order 10, 1 to 9, each over the whole input before the
   next, the smallest index reported." 17 comes "between 10 and 1". Here that
   and those from 1 to 8. */
static struct finding find_refusal(const uint32_t *words, size_t word_count,
                                   const uint16_t *corners, size_t corner_count,
                                   const size_t *needed, const size_t *lent, size_t buffers, uint32_t pitch)
{
    struct finding finding = find_wrong_pitch(pitch);
    if (finding.number == 0) {
        finding = find_wrong_counts(word_count, corner_count);
    }
    if (finding.number == 0) {
        finding = find_short_buffer(needed, lent, buffers);
    }
    if (finding.number == 0) {
        finding = find_unnamed(word_count, corners, corner_count);
    }
    if (finding.number == 0) {
        finding = find_repeated_point(corners, corner_count);
    }
    if (finding.number == 0) {
        finding = find_repeated_edge(corners, corner_count);
    }
    if (finding.number == 0) {
        finding = find_coordinate(words, word_count, pitch, 7);
    }
    if (finding.number == 0) {
        finding = find_coordinate(words, word_count, pitch, 8);
    }
    return finding;
}

/* The grid, the loops and the rims of a surface that has no refusal. */
static void take_survey(struct survey *survey, const uint32_t *words, size_t word_count,
                        const uint16_t *corners, size_t corner_count, uint32_t pitch)
{
    for (size_t w = 0; w < word_count; w++) {
        uint32_t rest;
        reference_coordinate(words[w], &survey->grid[w], &rest, pitch);
    }
    find_loops(survey, corners, corner_count);
    reference_rims(survey->grid, corners, corner_count, survey->rings, survey->lengths, survey->loops,
                   survey->rims);
}

/* "Each is written from its start, grid wholly, the rest as far as used;
   everything after that stays." */
static void hand_out_grid(const struct survey *survey, size_t word_count, int32_t *grid, uint16_t *rings)
{
    for (size_t w = 0; w < word_count; w++) {
        grid[w] = survey->grid[w];
    }
    for (size_t v = 0; v < survey->vertices; v++) {
        rings[v] = survey->rings[v];
    }
}

static void hand_out_survey(const struct survey *survey, size_t word_count,
                            int32_t *grid, uint16_t *rings, uint16_t *lengths)
{
    hand_out_grid(survey, word_count, grid, rings);
    for (size_t l = 0; l < survey->loops; l++) {
        lengths[l] = survey->lengths[l];
    }
}

/* "The checker is lent buffers 1 to 3": "1 grid (signed 32-bit, at least W), 2
   ring vertices (3T), 3 ring lengths (T)". "The checker's three buffers stay
   as they were." So are those of the survey. */
static struct finding find_survey_refusal(const uint32_t *words, size_t word_count,
                                          const uint16_t *corners, size_t corner_count,
                                          size_t grid_length, size_t rings_length, size_t lengths_length,
                                          uint32_t pitch)
{
    size_t triangles = corner_count / 3;
    const size_t needed[3] = {word_count, 3 * triangles, triangles};
    const size_t lent[3] = {grid_length, rings_length, lengths_length};
    return find_refusal(words, word_count, corners, corner_count, needed, lent, 3, pitch);
}

void reference_survey(const uint32_t *words, size_t word_count,
                      const uint16_t *corners, size_t corner_count,
                      int32_t *grid, size_t grid_length,
                      uint16_t *rings, size_t rings_length,
                      uint16_t *lengths, size_t lengths_length, uint32_t pitch,
                      struct reference_answer *answer)
{
    struct finding refusal = find_survey_refusal(words, word_count, corners, corner_count,
                                                 grid_length, rings_length, lengths_length, pitch);
    *answer = (struct reference_answer){refusal.number, refusal.place, 0, 0};
    if (refusal.number != 0) {
        return;
    }
    struct survey survey;
    take_survey(&survey, words, word_count, corners, corner_count, pitch);
    hand_out_survey(&survey, word_count, grid, rings, lengths);
    answer->loops = survey.loops;
    answer->vertices = survey.vertices;
}

/* ---- Weight ---- */

/* "For corners a, b, c with grid differences b-a and c-a, the cross product
   has three signed components. The triangle's weight is the sum of their
   absolute values". */
int64_t reference_weight(const int32_t *grid, uint16_t a, uint16_t b, uint16_t c)
{
    int64_t p[3];
    int64_t q[3];
    for (size_t axis = 0; axis < 3; axis++) {
        p[axis] = (int64_t)grid[3 * (size_t)b + axis] - grid[3 * (size_t)a + axis];
        q[axis] = (int64_t)grid[3 * (size_t)c + axis] - grid[3 * (size_t)a + axis];
    }
    int64_t x = p[1] * q[2] - p[2] * q[1];
    int64_t y = p[2] * q[0] - p[0] * q[2];
    int64_t z = p[0] * q[1] - p[1] * q[0];
    return absolute(x) + absolute(y) + absolute(z);
}

/* ---- Cover ---- */

/* "it is barred if the input, or a patch already laid in this run, has an edge
   between the two in either direction." One list of triangles is asked here. */
static int has_edge_between(const uint16_t *corners, size_t corner_count, uint16_t u, uint16_t v)
{
    return reference_find_edge(corners, corner_count, u, v) != REFERENCE_NO_EDGE
        || reference_find_edge(corners, corner_count, v, u) != REFERENCE_NO_EDGE;
}

/* "A diagonal joins two vertices that aren't neighbours in the loop". */
static int is_diagonal(size_t length, size_t a, size_t b)
{
    return a != b && (a + 1) % length != b && (b + 1) % length != a;
}

int reference_is_barred(const struct reference_memo *memo, size_t a, size_t b)
{
    return memo->barred[a][b];
}

int reference_is_allowed(const struct reference_memo *memo, size_t i, size_t m, size_t k)
{
    return !reference_is_barred(memo, i, k)
        && !reference_is_barred(memo, k, m)
        && !reference_is_barred(memo, m, i);
}

/* The total that the choice m gives to the stretch i..k, or none. */
static int64_t total_with(const struct reference_memo *memo, size_t i, size_t m, size_t k)
{
    if (!reference_is_allowed(memo, i, m, k)) {
        return REFERENCE_NO_COVER;
    }
    if (memo->least[i][m] == REFERENCE_NO_COVER || memo->least[m][k] == REFERENCE_NO_COVER) {
        return REFERENCE_NO_COVER;
    }
    return reference_weight(memo->grid, memo->ring[i], memo->ring[k], memo->ring[m])
        + memo->least[i][m] + memo->least[m][k];
}

/* "The stretch i..k with k = i+1 has the empty cover. Otherwise choose m with
   i < m < k: the triangle with corners (vi, vk, vm) and a cover of i..m and of
   m..k." */
static int64_t least_total(const struct reference_memo *memo, size_t i, size_t k)
{
    int64_t least = REFERENCE_NO_COVER;
    if (k == i + 1) {
        return 0;
    }
    for (size_t m = i + 1; m < k; m++) {
        int64_t total = total_with(memo, i, m, k);
        if (total != REFERENCE_NO_COVER && (least == REFERENCE_NO_COVER || total < least)) {
            least = total;
        }
    }
    return least;
}

void reference_fill_memo(struct reference_memo *memo, const int32_t *grid,
                         const uint16_t *ring, size_t length,
                         const uint16_t *corners, size_t corner_count,
                         const uint16_t *laid, size_t laid_count)
{
    memo->grid = grid;
    memo->ring = ring;
    memo->length = length;
    for (size_t a = 0; a < length; a++) {
        for (size_t b = 0; b < length; b++) {
            memo->barred[a][b] = is_diagonal(length, a, b)
                && (has_edge_between(corners, corner_count, ring[a], ring[b])
                    || has_edge_between(laid, laid_count, ring[a], ring[b]));
        }
    }
    for (size_t span = 1; span < length; span++) {
        for (size_t i = 0; i + span < length; i++) {
            memo->least[i][i + span] = least_total(memo, i, i + span);
        }
    }
}

/* "A cover of the loop is one of 0..n-1." */
static int64_t least_of_loop(const struct reference_memo *memo)
{
    return memo->least[0][memo->length - 1];
}

/* "Of covers without a barred diagonal the patcher takes the least total
   weight; among equals, in each stretch from the outermost inwards, the
   smallest m. It lists the triangle, then i..m, then m..k." */
static void lay_stretch(const struct reference_memo *memo, size_t i, size_t k, struct run *run)
{
    if (k == i + 1) {
        return;
    }
    size_t m = i + 1;
    while (total_with(memo, i, m, k) != memo->least[i][k]) {
        m += 1;
    }
    run->patches[run->corners] = memo->ring[i];
    run->patches[run->corners + 1] = memo->ring[k];
    run->patches[run->corners + 2] = memo->ring[m];
    run->corners += 3;
    lay_stretch(memo, i, m, run);
    lay_stretch(memo, m, k, run);
}

/* ---- The patcher ---- */

/* "A rim gets state 4, weight 0, and is not patched at any length. State 2 is
   left for other loops over 64." "State 1: patched. [...] State 3: no allowed
   cover. States 2 and 3 have weight 0, lay nothing, and the run goes on." */
static void patch_loop(const struct survey *survey, const uint16_t *corners, size_t corner_count,
                       size_t loop, const uint16_t *ring, struct run *run)
{
    size_t length = survey->lengths[loop];
    run->weights[loop] = 0;
    if (survey->rims[loop]) {
        run->states[loop] = 4;
        return;
    }
    if (length > REFERENCE_LONGEST_LOOP) {
        run->states[loop] = 2;
        return;
    }
    struct reference_memo memo;
    reference_fill_memo(&memo, survey->grid, ring, length, corners, corner_count,
                        run->patches, run->corners);
    if (least_of_loop(&memo) == REFERENCE_NO_COVER) {
        run->states[loop] = 3;
        return;
    }
    run->states[loop] = 1;
    run->weights[loop] = (uint64_t)least_of_loop(&memo);
    lay_stretch(&memo, 0, length - 1, run);
}

/* "Loops are handled in listed order." */
static void patch_loops(const struct survey *survey, const uint16_t *corners, size_t corner_count,
                        struct run *run)
{
    const uint16_t *ring = survey->rings;
    run->corners = 0;
    for (size_t loop = 0; loop < survey->loops; loop++) {
        patch_loop(survey, corners, corner_count, loop, ring, run);
        ring += survey->lengths[loop];
    }
}

/* "The record kept for a loop must carry its first half-edge, its piece number
   (from 0, in the order of their smallest triangles) and its run, beside
   length, state and weight." "a loop record as length, state, weight, count (0
   in edition 1), first half-edge, piece, run". A loop lies in one piece, that
   of its first half-edge's triangle. */
static void hand_out_records(const struct survey *survey, const struct run *run,
                             const uint16_t *corners, size_t corner_count, uint64_t *records)
{
    uint16_t pieces[REFERENCE_MOST_TRIANGLES];
    const uint16_t *ring = survey->rings;
    reference_pieces(corners, corner_count, pieces);
    for (size_t l = 0; l < survey->loops; l++) {
        size_t length = survey->lengths[l];
        uint64_t *record = records + REFERENCE_RECORD * l;
        record[REFERENCE_LENGTH] = length;
        record[REFERENCE_STATE] = run->states[l];
        record[REFERENCE_WEIGHT] = run->weights[l];
        record[REFERENCE_COUNT] = 0;
        record[REFERENCE_FIRST] = survey->firsts[l];
        record[REFERENCE_PIECE] = pieces[survey->firsts[l] / 3];
        record[REFERENCE_RUN] = (uint64_t)reference_run(survey->grid, ring, length);
        ring += length;
    }
}

uint64_t reference_kept(const uint64_t *records, size_t loop, size_t number)
{
    return records[REFERENCE_RECORD * loop + number];
}

/* "Lent buffers, in order, for W words and T triangles: 1 grid (signed 32-bit,
   at least W), 2 ring vertices (3T)". "The patcher's buffers 3 to 5 become one
   buffer of loop records, number 3; patch corners become number 4", of which
   there are 9T. There are at most T loops, so the records are T, of seven
   64-bit numbers each. */
void reference_patch(const uint32_t *words, size_t word_count,
                     const uint16_t *corners, size_t corner_count,
                     int32_t *grid, size_t grid_length,
                     uint16_t *rings, size_t rings_length,
                     uint64_t *records, size_t records_length,
                     uint16_t *patches, size_t patches_length, uint32_t pitch,
                     struct reference_patch_answer *answer)
{
    size_t triangles = corner_count / 3;
    const size_t needed[4] = {word_count, 3 * triangles, 7 * triangles, 9 * triangles};
    const size_t lent[4] = {grid_length, rings_length, records_length, patches_length};
    struct finding refusal = find_refusal(words, word_count, corners, corner_count, needed, lent, 4, pitch);
    *answer = (struct reference_patch_answer){refusal.number, refusal.place, 0, 0, 0};
    if (refusal.number != 0) {
        return;
    }
    struct survey survey;
    struct run run;
    take_survey(&survey, words, word_count, corners, corner_count, pitch);
    patch_loops(&survey, corners, corner_count, &run);
    hand_out_grid(&survey, word_count, grid, rings);
    hand_out_records(&survey, &run, corners, corner_count, records);
    for (size_t c = 0; c < run.corners; c++) {
        patches[c] = run.patches[c];
    }
    answer->loops = survey.loops;
    answer->vertices = survey.vertices;
    answer->corners = run.corners;
}

/* ---- The report ---- */

/* Where the ring of a loop begins. */
static const uint16_t *ring_of(const struct survey *survey, size_t loop)
{
    const uint16_t *ring = survey->rings;
    for (size_t before = 0; before < loop; before++) {
        ring += survey->lengths[before];
    }
    return ring;
}

/* "shares a vertex": a vertex is a point by its number; two points may lie in
   the same place. */
static int share_vertex(const struct survey *survey, size_t loop, size_t other)
{
    const uint16_t *ring = ring_of(survey, loop);
    const uint16_t *other_ring = ring_of(survey, other);
    for (size_t v = 0; v < survey->lengths[loop]; v++) {
        for (size_t w = 0; w < survey->lengths[other]; w++) {
            if (ring[v] == other_ring[w]) {
                return 1;
            }
        }
    }
    return 0;
}

/* "each loop that is no rim is a tide pool if it shares a vertex with its own
   piece's rim, and a lake otherwise." */
static size_t kind_of(const struct survey *survey, const uint16_t *pieces, size_t loop)
{
    if (survey->rims[loop]) {
        return REFERENCE_IS_RIM;
    }
    for (size_t other = 0; other < survey->loops; other++) {
        if (survey->rims[other] && pieces[survey->firsts[other] / 3] == pieces[survey->firsts[loop] / 3]
            && share_vertex(survey, loop, other)) {
            return REFERENCE_IS_POOL;
        }
    }
    return REFERENCE_IS_LAKE;
}

/* "An entry is a kind and a number". */
static void put_entry(uint16_t *report, size_t *entries, size_t kind, size_t number)
{
    report[REFERENCE_ENTRY * *entries] = (uint16_t)kind;
    report[REFERENCE_ENTRY * *entries + 1] = (uint16_t)number;
    *entries += 1;
}

/* "for each piece its rim, its tide pools and its lakes, in listed order.
   [...] 0 a piece, 1 its rim, 2 a tide pool, 3 a lake; pieces ascend, and the
   answer counts the entries. [...] A piece without open edges appears with no
   rim." All loops are looked through for each piece and each kind. */
static size_t lay_report(const struct survey *survey, const uint16_t *corners, size_t corner_count, uint16_t *report)
{
    uint16_t pieces[REFERENCE_MOST_TRIANGLES];
    size_t kinds[REFERENCE_MOST_TRIANGLES];
    size_t many = 0;
    size_t entries = 0;
    reference_pieces(corners, corner_count, pieces);
    for (size_t t = 0; t < corner_count / 3; t++) {
        many = pieces[t] < many ? many : (size_t)pieces[t] + 1;
    }
    for (size_t loop = 0; loop < survey->loops; loop++) {
        kinds[loop] = kind_of(survey, pieces, loop);
    }
    for (size_t piece = 0; piece < many; piece++) {
        put_entry(report, &entries, REFERENCE_IS_PIECE, piece);
        for (size_t kind = REFERENCE_IS_RIM; kind < REFERENCE_KINDS; kind++) {
            for (size_t loop = 0; loop < survey->loops; loop++) {
                if (kinds[loop] == kind && pieces[survey->firsts[loop] / 3] == piece) {
                    put_entry(report, &entries, kind, loop);
                }
            }
        }
    }
    return entries;
}

/* "1 to 8 as for the patcher, 3 numbering grid 1, ring vertices 2, loop
   records 3 (as the patcher's) and the report 4 (2T entries)." */
void reference_report(const uint32_t *words, size_t word_count,
                      const uint16_t *corners, size_t corner_count,
                      int32_t *grid, size_t grid_length,
                      uint16_t *rings, size_t rings_length,
                      uint64_t *records, size_t records_length,
                      uint16_t *report, size_t report_length, uint32_t pitch,
                      struct reference_report_answer *answer)
{
    size_t triangles = corner_count / 3;
    const size_t needed[4] = {word_count, 3 * triangles, 7 * triangles, 2 * (2 * triangles)};
    const size_t lent[4] = {grid_length, rings_length, records_length, report_length};
    struct finding refusal = find_refusal(words, word_count, corners, corner_count, needed, lent, 4, pitch);
    *answer = (struct reference_report_answer){refusal.number, refusal.place, 0, 0, 0};
    if (refusal.number != 0) {
        return;
    }
    struct survey survey;
    struct run run;
    take_survey(&survey, words, word_count, corners, corner_count, pitch);
    patch_loops(&survey, corners, corner_count, &run);
    hand_out_grid(&survey, word_count, grid, rings);
    hand_out_records(&survey, &run, corners, corner_count, records);
    answer->loops = survey.loops;
    answer->vertices = survey.vertices;
    answer->entries = lay_report(&survey, corners, corner_count, report);
}

/* ---- The checker ---- */

/* "each begun at any corner, but not turned round". */
static int is_same_triangle(const uint16_t *t, uint16_t a, uint16_t b, uint16_t c)
{
    return (t[0] == a && t[1] == b && t[2] == c)
        || (t[1] == a && t[2] == b && t[0] == c)
        || (t[2] == a && t[0] == b && t[1] == c);
}

/* "In a patch set the triangles of a loop may stand in any order". A cover has
   one triangle alone that runs from vi to the later vk, that of the stretch
   i..k, so the first one found is the only one that can serve. */
static int match_stretch(const uint16_t *ring, size_t i, size_t k,
                         const uint16_t *triangles, size_t count, unsigned char *used)
{
    if (k == i + 1) {
        return 1;
    }
    for (size_t m = i + 1; m < k; m++) {
        for (size_t t = 0; t < count; t++) {
            if (!used[t] && is_same_triangle(triangles + 3 * t, ring[i], ring[k], ring[m])) {
                used[t] = 1;
                return match_stretch(ring, i, m, triangles, count, used)
                    && match_stretch(ring, m, k, triangles, count, used);
            }
        }
    }
    return 0;
}

int reference_is_cover(const uint16_t *ring, size_t length, const uint16_t *triangles)
{
    unsigned char used[REFERENCE_LONGEST_LOOP] = {0};
    return match_stretch(ring, 0, length - 1, triangles, length - 2, used);
}

static size_t position_in_ring(const struct reference_memo *memo, uint16_t vertex)
{
    size_t position = 0;
    while (memo->ring[position] != vertex) {
        position += 1;
    }
    return position;
}

/* "a cover, with a barred diagonal". */
static int cover_is_barred(const struct reference_memo *memo, const uint16_t *cover)
{
    for (size_t h = 0; h < 3 * (memo->length - 2); h++) {
        size_t a = position_in_ring(memo, reference_start(cover, h));
        size_t b = position_in_ring(memo, reference_end(cover, h));
        if (reference_is_barred(memo, a, b)) {
            return 1;
        }
    }
    return 0;
}

static int64_t cover_weight(const struct reference_memo *memo, const uint16_t *cover)
{
    int64_t total = 0;
    for (size_t t = 0; t < memo->length - 2; t++) {
        total += reference_weight(memo->grid, cover[3 * t], cover[3 * t + 1], cover[3 * t + 2]);
    }
    return total;
}

/* "declared state isn't 1 to 3, is 2 on a loop of at most 64 or not 2 on a
   longer one". The state 3 on a shorter loop is judged with its covers. */
static int is_wrong_state(size_t state, size_t length)
{
    if (state < 1 || state > 3) {
        return 1;
    }
    return (state == 2) != (length > REFERENCE_LONGEST_LOOP);
}

/* "Verdicts 11 to 14 are tried in that order at each loop". Gives the verdict,
   0 for none; the loop's bars come from the first `taken` corners of the set. */
static size_t judge_loop(const struct survey *survey, const uint16_t *corners, size_t corner_count,
                         const uint16_t *ring, size_t length, size_t state,
                         const uint16_t *set, size_t set_count, size_t taken)
{
    struct reference_memo memo;
    if (is_wrong_state(state, length)) {
        return 11;
    }
    if (state == 2) {
        return 0;
    }
    reference_fill_memo(&memo, survey->grid, ring, length, corners, corner_count, set, taken);
    if (state == 3) {
        return least_of_loop(&memo) != REFERENCE_NO_COVER ? 11 : 0;
    }
    if (set_count - taken < 3 * (length - 2) || !reference_is_cover(ring, length, set + taken)) {
        return 12;
    }
    if (cover_is_barred(&memo, set + taken)) {
        return 13;
    }
    if (least_of_loop(&memo) < cover_weight(&memo, set + taken)) {
        return 14;
    }
    return 0;
}

/* "on a rim verdict 11 is given exactly for a state other than 4; on other
   loops as before." "the first loop that has one decides; 15 comes last."
   "Bars come from the set's own earlier loops." */
static struct finding judge_set(const struct survey *survey,
                                const uint16_t *corners, size_t corner_count,
                                const uint16_t *states, const uint16_t *set, size_t set_count)
{
    const uint16_t *ring = survey->rings;
    size_t taken = 0;
    for (size_t loop = 0; loop < survey->loops; loop++) {
        size_t length = survey->lengths[loop];
        size_t verdict = survey->rims[loop]
            ? (states[loop] == 4 ? 0 : 11)
            : judge_loop(survey, corners, corner_count, ring, length, states[loop], set, set_count, taken);
        if (verdict != 0) {
            return found(verdict, loop);
        }
        if (states[loop] == 1) {
            taken += 3 * (length - 2);
        }
        ring += length;
    }
    if (taken < set_count) {
        return found(15, taken);
    }
    return found(0, 0);
}

/* "leaves the same there, whatever its verdict from 0 or 11 to 15." */
void reference_check(const uint32_t *words, size_t word_count,
                     const uint16_t *corners, size_t corner_count,
                     const uint16_t *states, size_t state_count,
                     const uint16_t *set, size_t set_count,
                     int32_t *grid, size_t grid_length,
                     uint16_t *rings, size_t rings_length,
                     uint16_t *lengths, size_t lengths_length, uint32_t pitch,
                     struct reference_answer *answer)
{
    struct finding refusal = find_survey_refusal(words, word_count, corners, corner_count,
                                                 grid_length, rings_length, lengths_length, pitch);
    *answer = (struct reference_answer){refusal.number, refusal.place, 0, 0};
    if (refusal.number != 0) {
        return;
    }
    struct survey survey;
    take_survey(&survey, words, word_count, corners, corner_count, pitch);
    if (state_count != survey.loops) {
        *answer = (struct reference_answer){9, survey.loops, 0, 0};
        return;
    }
    struct finding verdict = judge_set(&survey, corners, corner_count, states, set, set_count);
    hand_out_survey(&survey, word_count, grid, rings, lengths);
    *answer = (struct reference_answer){verdict.number, verdict.place, survey.loops, survey.vertices};
}

/* ---- Reading texts ---- */

/* A text, the place reached in it and the number of the line then due. */
struct reading {
    const uint8_t *text;
    size_t length;
    size_t at;
    size_t line;
};

static int take_byte(struct reading *reading, uint8_t byte)
{
    if (reading->at == reading->length || reading->text[reading->at] != byte) {
        return 0;
    }
    reading->at += 1;
    return 1;
}

static int take_key(struct reading *reading, const char *key)
{
    for (size_t b = 0; key[b] != 0; b++) {
        if (!take_byte(reading, (uint8_t)key[b])) {
            return 0;
        }
    }
    return 1;
}

/* The value of the next byte as a digit among the first `base`, or -1 and nothing taken. */
static int take_digit(struct reading *reading, int base)
{
    const char *digits = "0123456789abcdef";
    for (int value = 0; value < base; value++) {
        if (take_byte(reading, (uint8_t)digits[value])) {
            return value;
        }
    }
    return -1;
}

/* "Decimal numbers have no leading zeros"; a number above `most` is wrong. */
static int take_decimal(struct reading *reading, size_t most, size_t *value)
{
    int digit = take_digit(reading, 10);
    if (digit < 0) {
        return 0;
    }
    *value = (size_t)digit;
    if (digit == 0) {
        return 1;
    }
    for (digit = take_digit(reading, 10); digit >= 0; digit = take_digit(reading, 10)) {
        *value = 10 * *value + (size_t)digit;
        if (*value > most) {
            return 0;
        }
    }
    return *value <= most;
}

/* "eight lower-case hexadecimal digits". */
static int take_word(struct reading *reading, uint32_t *word)
{
    *word = 0;
    for (int d = 0; d < 8; d++) {
        int digit = take_digit(reading, 16);
        if (digit < 0) {
            return 0;
        }
        *word = 16 * *word + (uint32_t)digit;
    }
    return 1;
}

/* "each ended by one line feed". */
static int end_line(struct reading *reading)
{
    if (!take_byte(reading, '\n')) {
        return 0;
    }
    reading->line += 1;
    return 1;
}

/* `points=N`, `triangles=T` or `states=S`. */
static int take_count_line(struct reading *reading, const char *key, size_t most, size_t *count)
{
    return take_key(reading, key) && take_decimal(reading, most, count) && end_line(reading);
}

/* "N lines `p=` with three words of eight lower-case hexadecimal digits". "The
   three are joined by single commas, and a line has no other bytes." */
static int take_point_line(struct reading *reading, uint32_t *words)
{
    return take_key(reading, "p=")
        && take_word(reading, &words[0]) && take_byte(reading, ',')
        && take_word(reading, &words[1]) && take_byte(reading, ',')
        && take_word(reading, &words[2]) && end_line(reading);
}

/* "T lines `t=` with three corners", "corners 0 to 1,023". */
static int take_triangle_line(struct reading *reading, uint16_t *corners)
{
    size_t a, b, c;
    if (!take_key(reading, "t=")
        || !take_decimal(reading, REFERENCE_MOST_POINTS - 1, &a) || !take_byte(reading, ',')
        || !take_decimal(reading, REFERENCE_MOST_POINTS - 1, &b) || !take_byte(reading, ',')
        || !take_decimal(reading, REFERENCE_MOST_POINTS - 1, &c) || !end_line(reading)) {
        return 0;
    }
    corners[0] = (uint16_t)a;
    corners[1] = (uint16_t)b;
    corners[2] = (uint16_t)c;
    return 1;
}

/* "S lines `s=` with one digit". */
static int take_state_line(struct reading *reading, uint16_t *state)
{
    if (!take_key(reading, "s=")) {
        return 0;
    }
    int digit = take_digit(reading, 10);
    if (digit < 0) {
        return 0;
    }
    *state = (uint16_t)digit;
    return end_line(reading);
}

/* `triangles=T`, its T lines, and nothing after them. */
static int take_triangle_lines(struct reading *reading, size_t most, uint16_t *corners, size_t *corner_count)
{
    size_t triangles;
    if (!take_count_line(reading, "triangles=", most, &triangles)) {
        return 0;
    }
    for (size_t t = 0; t < triangles; t++) {
        if (!take_triangle_line(reading, corners + 3 * t)) {
            return 0;
        }
    }
    *corner_count = 3 * triangles;
    return reading->at == reading->length;
}

/* "The sheet text gets a first line `pitch=`; a text that begins with
   `points=` is pitch 1". "in a text such a line, or `pitch=1`, is a wrong
   line". A text that begins with neither key is wrong at its first line
   either way. */
static int take_pitch_line(struct reading *reading, size_t *pitch)
{
    struct reading ahead = *reading;
    *pitch = 1;
    if (take_key(&ahead, "points=")) {
        return 1;
    }
    return take_key(reading, "pitch=") && take_decimal(reading, 10, pitch)
        && (*pitch == 2 || *pitch == 5 || *pitch == 10) && end_line(reading);
}

/* "Lines of key=value [...] in this order". On 0 the wrong line is the one
   then due. "With a pitch line every later line number goes up by one". */
static int take_sheet(struct reading *reading, uint32_t *words, size_t *word_count,
                      uint16_t *corners, size_t *corner_count, size_t *pitch)
{
    size_t points;
    if (!take_pitch_line(reading, pitch)
        || !take_count_line(reading, "points=", REFERENCE_MOST_POINTS, &points)) {
        return 0;
    }
    for (size_t p = 0; p < points; p++) {
        if (!take_point_line(reading, words + 3 * p)) {
            return 0;
        }
    }
    *word_count = 3 * points;
    return take_triangle_lines(reading, REFERENCE_MOST_TRIANGLES, corners, corner_count);
}

/* A surface as it was read, before it goes to the lent buffers. */
struct sheet {
    uint32_t words[REFERENCE_MOST_WORDS];
    uint16_t corners[REFERENCE_MOST_CORNERS];
    size_t word_count;
    size_t corner_count;
    size_t pitch;
};

/* "3 (words 1, corners 2)". */
static struct finding find_short_room(const struct sheet *sheet, size_t words_length, size_t corners_length)
{
    if (words_length < sheet->word_count) {
        return found(3, 1);
    }
    return corners_length < sheet->corner_count ? found(3, 2) : found(0, 0);
}

/* What was read goes to its buffers where there is no refusal. */
static void hand_out_sheet(const struct sheet *sheet, struct finding refusal, uint32_t *words, uint16_t *corners,
                           struct reference_read_answer *answer)
{
    *answer = (struct reference_read_answer){refusal.number, refusal.place, 0, 0, 0};
    if (refusal.number != 0) {
        return;
    }
    for (size_t w = 0; w < sheet->word_count; w++) {
        words[w] = sheet->words[w];
    }
    for (size_t c = 0; c < sheet->corner_count; c++) {
        corners[c] = sheet->corners[c];
    }
    answer->words = sheet->word_count;
    answer->corners = sheet->corner_count;
    answer->pitch = sheet->pitch;
}

/* "Reading may give, in this order, 10, 3 (words 1, corners 2) and 4". */
void reference_read(const uint8_t *text, size_t text_length,
                    uint32_t *words, size_t words_length,
                    uint16_t *corners, size_t corners_length,
                    struct reference_read_answer *answer)
{
    struct reading reading = {text, text_length, 0, 1};
    struct sheet sheet;
    struct finding refusal;
    if (!take_sheet(&reading, sheet.words, &sheet.word_count, sheet.corners, &sheet.corner_count, &sheet.pitch)) {
        refusal = found(10, reading.line);
    } else {
        refusal = find_short_room(&sheet, words_length, corners_length);
        if (refusal.number == 0) {
            refusal = find_unnamed(sheet.word_count, sheet.corners, sheet.corner_count);
        }
    }
    hand_out_sheet(&sheet, refusal, words, corners, answer);
}

/* `states=S`, S lines `s=`, `triangles=P`, P lines `t=`. */
static int take_set(struct reading *reading, uint16_t *states, size_t *state_count,
                    uint16_t *corners, size_t *corner_count)
{
    if (!take_count_line(reading, "states=", REFERENCE_MOST_STATES, state_count)) {
        return 0;
    }
    for (size_t s = 0; s < *state_count; s++) {
        if (!take_state_line(reading, &states[s])) {
            return 0;
        }
    }
    return take_triangle_lines(reading, REFERENCE_MOST_SET_TRIANGLES, corners, corner_count);
}

/* "ruled as the sheet text is; a wrong line is counted on after the sheet's last". */
void reference_read_set(const uint8_t *text, size_t text_length, size_t first_line,
                        uint16_t *states, size_t states_length,
                        uint16_t *corners, size_t corners_length,
                        struct reference_set_answer *answer)
{
    struct reading reading = {text, text_length, 0, first_line};
    uint16_t read_states[REFERENCE_MOST_STATES];
    uint16_t read_corners[3 * REFERENCE_MOST_SET_TRIANGLES];
    size_t state_count;
    size_t corner_count;
    *answer = (struct reference_set_answer){0, 0, 0, 0};
    if (!take_set(&reading, read_states, &state_count, read_corners, &corner_count)) {
        answer->number = 10;
        answer->place = reading.line;
        return;
    }
    if (states_length < state_count || corners_length < corner_count) {
        answer->number = 3;
        answer->place = states_length < state_count ? 1 : 2;
        return;
    }
    for (size_t s = 0; s < state_count; s++) {
        states[s] = read_states[s];
    }
    for (size_t c = 0; c < corner_count; c++) {
        corners[c] = read_corners[c];
    }
    answer->states = state_count;
    answer->corners = corner_count;
}

/* ---- Reading files of facets ---- */

/* "80 header bytes, a little-endian 32-bit count, then 50 bytes a triangle:
   normal, three corners of three floats, a 16-bit attribute." */
#define COUNT_AT 80
#define NORMAL_BYTES 12
#define FACET_FLOATS 9

static uint32_t file_word(const uint8_t *file, size_t at)
{
    return (uint32_t)file[at] + ((uint32_t)file[at + 1] << 8) + ((uint32_t)file[at + 2] << 16) + ((uint32_t)file[at + 3] << 24);
}

uint32_t reference_count_stl(const uint8_t *file)
{
    return file_word(file, COUNT_AT);
}

/* "Header, normal and attribute are ignored." "negative zero read as zero".
   Gives word 0 to 8 of the facet that begins there. */
static uint32_t facet_word(const uint8_t *file, size_t facet_at, size_t index)
{
    uint32_t word = file_word(file, facet_at + NORMAL_BYTES + 4 * index);
    return word == 0x80000000u ? 0 : word;
}

/* "16, fewer than 84 bytes or a length that isn't 84 plus 50 times the count
   (place 0), comes first of all; then 2 for more than 1,024 facets". */
size_t reference_size_stl(size_t length, uint32_t count)
{
    if (length < REFERENCE_STL_FRONT || length != REFERENCE_STL_FRONT + REFERENCE_STL_FACET * (uint64_t)count) {
        return 16;
    }
    return count > REFERENCE_MOST_TRIANGLES ? 2 : 0;
}

/* "Corners are the same point when all three words agree"; "points are
   numbered by first use." Gives the point's number, and keeps it if it is new
   and there is room. */
static size_t meet_point(struct sheet *sheet, const uint32_t *point)
{
    size_t points = sheet->word_count / 3;
    for (size_t p = 0; p < points; p++) {
        const uint32_t *met = sheet->words + 3 * p;
        if (met[0] == point[0] && met[1] == point[1] && met[2] == point[2]) {
            return p;
        }
    }
    for (size_t w = 0; w < 3 && points < REFERENCE_MOST_POINTS; w++) {
        sheet->words[sheet->word_count] = point[w];
        sheet->word_count += 1;
    }
    return points;
}

/* "1 for more than 1,024 distinct points". */
static struct finding take_facets(struct sheet *sheet, const uint8_t *file, size_t facets)
{
    sheet->word_count = 0;
    sheet->corner_count = 3 * facets;
    sheet->pitch = 1;
    for (size_t c = 0; c < sheet->corner_count; c++) {
        uint32_t point[3];
        for (size_t w = 0; w < 3; w++) {
            point[w] = facet_word(file, REFERENCE_STL_FRONT + REFERENCE_STL_FACET * (c / 3), 3 * (c % 3) + w);
        }
        size_t number = meet_point(sheet, point);
        if (number == REFERENCE_MOST_POINTS) {
            return found(1, 0);
        }
        sheet->corners[c] = (uint16_t)number;
    }
    return found(0, 0);
}

/* "3 for short buffers (words 1, corners 2). No other refusal is the reader's." */
void reference_read_stl(const uint8_t *file, size_t file_length,
                        uint32_t *words, size_t words_length,
                        uint16_t *corners, size_t corners_length,
                        struct reference_read_answer *answer)
{
    struct sheet sheet;
    uint32_t count = file_length < REFERENCE_STL_FRONT ? 0 : reference_count_stl(file);
    struct finding refusal = found(reference_size_stl(file_length, count), 0);
    if (refusal.number == 0) {
        refusal = take_facets(&sheet, file, count);
    }
    if (refusal.number == 0) {
        refusal = find_short_room(&sheet, words_length, corners_length);
    }
    hand_out_sheet(&sheet, refusal, words, corners, answer);
}

/* The float with these bits; all NaNs are one. */
static float float_of(uint32_t word)
{
    uint32_t bits = (word & 0x7fffffffu) > 0x7f800000u ? 0x7fc00000u : word;
    float value;
    memcpy(&value, &bits, sizeof value);
    return value;
}

/* "The reader holds on to the bytes and its own place in them, and hands out
   one facet at a time as a record of floats." */
size_t reference_facet(const uint8_t *file, size_t file_length, size_t *at, float *floats, size_t floats_length)
{
    if (*at > file_length || file_length - *at < REFERENCE_STL_FACET || floats_length < FACET_FLOATS) {
        return 0;
    }
    for (size_t f = 0; f < FACET_FLOATS; f++) {
        floats[f] = float_of(facet_word(file, *at, f));
    }
    *at += REFERENCE_STL_FACET;
    return FACET_FLOATS;
}

/* ---- Writing texts ---- */

/* A corner that names no point may have five digits, so a text that is then
   refused can be longer than the longest. */
#define MOST_WRITTEN (REFERENCE_LONGEST_TEXT + REFERENCE_MOST_CORNERS)

struct writing {
    uint8_t text[MOST_WRITTEN];
    size_t length;
};

static void put_byte(struct writing *writing, uint8_t byte)
{
    writing->text[writing->length] = byte;
    writing->length += 1;
}

static void put_key(struct writing *writing, const char *key)
{
    for (size_t b = 0; key[b] != 0; b++) {
        put_byte(writing, (uint8_t)key[b]);
    }
}

static void put_decimal(struct writing *writing, size_t value)
{
    if (value >= 10) {
        put_decimal(writing, value / 10);
    }
    put_byte(writing, (uint8_t)('0' + value % 10));
}

static void put_word(struct writing *writing, uint32_t word)
{
    for (int shift = 28; shift >= 0; shift -= 4) {
        put_byte(writing, (uint8_t)"0123456789abcdef"[(word >> shift) & 15]);
    }
}

/* Between the three of a line a comma, after the third a line feed. */
static void put_mark(struct writing *writing, size_t index)
{
    put_byte(writing, index % 3 == 2 ? '\n' : ',');
}

/* "pitch 1 is written without the line, so there is still one text for one sheet." */
static void put_pitch(struct writing *writing, uint32_t pitch)
{
    if (pitch != 1) {
        put_key(writing, "pitch=");
        put_decimal(writing, pitch);
        put_byte(writing, '\n');
    }
}

static void put_sheet(struct writing *writing, const uint32_t *words, size_t word_count,
                      const uint16_t *corners, size_t corner_count)
{
    put_key(writing, "points=");
    put_decimal(writing, word_count / 3);
    put_byte(writing, '\n');
    for (size_t w = 0; w < word_count; w++) {
        put_key(writing, w % 3 == 0 ? "p=" : "");
        put_word(writing, words[w]);
        put_mark(writing, w);
    }
    put_key(writing, "triangles=");
    put_decimal(writing, corner_count / 3);
    put_byte(writing, '\n');
    for (size_t c = 0; c < corner_count; c++) {
        put_key(writing, c % 3 == 0 ? "t=" : "");
        put_decimal(writing, corners[c]);
        put_mark(writing, c);
    }
}

/* "writing gives 1, 2, 3 (text buffer too short for this text, each corner in
   its own digits; number 1) and 4"; 17 before these. */
void reference_write(const uint32_t *words, size_t word_count,
                     const uint16_t *corners, size_t corner_count,
                     uint8_t *text, size_t text_length, uint32_t pitch,
                     struct reference_write_answer *answer)
{
    struct writing writing;
    struct finding refusal = find_wrong_pitch(pitch);
    if (refusal.number == 0) {
        refusal = find_wrong_counts(word_count, corner_count);
    }
    if (refusal.number == 0) {
        writing.length = 0;
        put_pitch(&writing, pitch);
        put_sheet(&writing, words, word_count, corners, corner_count);
        if (text_length < writing.length) {
            refusal = found(3, 1);
        }
    }
    if (refusal.number == 0) {
        refusal = find_unnamed(word_count, corners, corner_count);
    }
    *answer = (struct reference_write_answer){refusal.number, refusal.place, 0};
    if (refusal.number != 0) {
        return;
    }
    for (size_t b = 0; b < writing.length; b++) {
        text[b] = writing.text[b];
    }
    answer->bytes = writing.length;
}
