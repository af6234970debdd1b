/* A seeded maker of surfaces, patch sets, texts and files of facets: shapes, coordinates, damage and buffer lengths. */

#include "generate.h"
#include "reference.h"

/* ---- Chance ---- */

void generate_start(struct generator *generator, uint64_t seed)
{
    generator->state = seed * 0x9e3779b97f4a7c15u + 0x632be59bd9b4e019u;
    if (generator->state == 0) {
        generator->state = 1;
    }
}

/* xorshift64*. */
uint64_t generate_bits(struct generator *generator)
{
    uint64_t x = generator->state;
    x ^= x >> 12;
    x ^= x << 25;
    x ^= x >> 27;
    generator->state = x;
    return x * 0x2545f4914f6cdd1du;
}

size_t generate_below(struct generator *generator, size_t below)
{
    return (size_t)((generate_bits(generator) >> 16) % below);
}

/* Once in `times`. */
static int chance(struct generator *generator, size_t times)
{
    return generate_below(generator, times) == 0;
}

static size_t between(struct generator *generator, size_t low, size_t high)
{
    return low + generate_below(generator, high - low + 1);
}

uint32_t generate_pitch(struct generator *generator)
{
    static const uint32_t pitches[6] = {1, 1, 1, 2, 5, 10};
    return pitches[generate_below(generator, 6)];
}

uint32_t generate_wrong_pitch(struct generator *generator)
{
    static const uint32_t numbers[18] = {0, 3, 4, 6, 7, 8, 9, 11, 15, 20, 50, 100, 257, 258, 65541, 65546, 0x80000001u, 0xffffffffu};
    return numbers[generate_below(generator, 18)];
}

/* ---- Building a surface ---- */

/* A surface as it grows: triangles over points numbered from 0. A point may be meant to lie outside of all others, or where
   another lies; what number each has in the end is decided after the shapes. */
struct build {
    uint16_t corners[REFERENCE_MOST_CORNERS];
    size_t count;
    size_t points;
    unsigned char outside[REFERENCE_MOST_POINTS];
    uint16_t lies_at[REFERENCE_MOST_POINTS];
    uint16_t numbers[REFERENCE_MOST_POINTS];
};

/* A fresh point, or an old one where there are no more. */
static uint16_t new_point(struct build *build)
{
    if (build->points < REFERENCE_MOST_POINTS) {
        build->outside[build->points] = 0;
        build->lies_at[build->points] = (uint16_t)build->points;
        build->numbers[build->points] = (uint16_t)build->points;
        build->points += 1;
    }
    return (uint16_t)(build->points - 1);
}

/* A run of fresh points. */
static void new_points(struct build *build, uint16_t *points, size_t count)
{
    for (size_t p = 0; p < count; p++) {
        points[p] = new_point(build);
    }
}

static void add_any_triangle(struct build *build, uint16_t a, uint16_t b, uint16_t c)
{
    if (build->count + 3 <= REFERENCE_MOST_CORNERS) {
        build->corners[build->count] = a;
        build->corners[build->count + 1] = b;
        build->corners[build->count + 2] = c;
        build->count += 3;
    }
}

/* Adds a triangle unless it repeats a point or a half-edge. */
static void add_triangle(struct build *build, uint16_t a, uint16_t b, uint16_t c)
{
    if (a == b || b == c || c == a
        || reference_find_edge(build->corners, build->count, a, b) != REFERENCE_NO_EDGE
        || reference_find_edge(build->corners, build->count, b, c) != REFERENCE_NO_EDGE
        || reference_find_edge(build->corners, build->count, c, a) != REFERENCE_NO_EDGE) {
        return;
    }
    add_any_triangle(build, a, b, c);
}

/* ---- Shapes ---- */

/* Triangles at random over few points; loose ones may repeat half-edges. */
static void build_random(struct generator *generator, struct build *build, size_t most, int loose)
{
    uint16_t points[REFERENCE_MOST_POINTS];
    size_t count = between(generator, 3, 4 + most / 3);
    size_t triangles = between(generator, 1, most);
    new_points(build, points, count);
    for (size_t t = 0; t < triangles; t++) {
        uint16_t a = points[generate_below(generator, count)];
        uint16_t b = points[generate_below(generator, count)];
        uint16_t c = points[generate_below(generator, count)];
        if (loose && a != b && b != c && c != a) {
            add_any_triangle(build, a, b, c);
        } else {
            add_triangle(build, a, b, c);
        }
    }
}

/* A strip of triangles over a run of points. */
static void build_strip_over(struct build *build, const uint16_t *points, size_t count)
{
    for (size_t p = 0; p + 2 < count; p++) {
        if (p % 2 == 0) {
            add_triangle(build, points[p], points[p + 1], points[p + 2]);
        } else {
            add_triangle(build, points[p + 1], points[p], points[p + 2]);
        }
    }
}

/* A strip; the pinched one ends at the point it began with. */
static void build_strip(struct generator *generator, struct build *build, size_t most, int pinched)
{
    uint16_t points[REFERENCE_MOST_POINTS];
    size_t count = between(generator, 3, most < 1000 ? most + 2 : 1000);
    new_points(build, points, count);
    if (pinched) {
        points[count - 1] = points[0];
        if (count > 6 && chance(generator, 2)) {
            points[count / 2] = points[0];
        }
    }
    build_strip_over(build, points, count);
}

/* A fan of triangles about a hub; the closed one is a cone with a rim of `count` edges. */
static void build_fan_over(struct build *build, uint16_t hub, const uint16_t *rim, size_t count, int closed)
{
    for (size_t r = 0; r + 1 < count; r++) {
        add_triangle(build, hub, rim[r], rim[r + 1]);
    }
    if (closed) {
        add_triangle(build, hub, rim[count - 1], rim[0]);
    }
}

static void build_fan(struct generator *generator, struct build *build, size_t count, int closed)
{
    uint16_t rim[REFERENCE_MOST_POINTS];
    if (count > REFERENCE_MOST_POINTS - 2) {
        count = REFERENCE_MOST_POINTS - 2;
    }
    if (chance(generator, 2)) {
        uint16_t hub = new_point(build);
        new_points(build, rim, count);
        build_fan_over(build, hub, rim, count, closed);
    } else {
        new_points(build, rim, count);
        build_fan_over(build, new_point(build), rim, count, closed);
    }
}

/* A collar between a ring and the frame that closes it in, from spoke to spoke in any order; the ring's edges are open in its
   order, the frame's against theirs. */
static void build_collar_over(struct generator *generator, struct build *build, const uint16_t *ring, size_t length,
                              const uint16_t *frame, size_t edges)
{
    size_t r = 0;
    size_t f = 0;
    while (r + f < length + edges) {
        int inwards = r + f < 2 ? r == 0 : generate_below(generator, length + edges - r - f) < length - r;
        if (inwards) {
            add_triangle(build, ring[r % length], ring[(r + 1) % length], frame[f % edges]);
            r += 1;
        } else {
            add_triangle(build, frame[(f + 1) % edges], frame[f % edges], ring[r % length]);
            f += 1;
        }
    }
}

/* A run of fresh points that are meant to lie outside. */
static void new_points_outside(struct build *build, uint16_t *points, size_t count)
{
    new_points(build, points, count);
    for (size_t p = 0; p < count; p++) {
        build->outside[points[p]] = 1;
    }
}

/* Closes a ring in: by a cone, so that it is the coast of an island, or by a collar, so that it is a hole unless it runs further
   than the frame. */
static void close_in(struct generator *generator, struct build *build, const uint16_t *ring, size_t length)
{
    uint16_t frame[8];
    size_t edges = chance(generator, 2) ? 3 : between(generator, 3, 8);
    if (chance(generator, 4)) {
        build_fan_over(build, new_point(build), ring, length, 1);
        return;
    }
    new_points_outside(build, frame, edges);
    build_collar_over(generator, build, ring, length, frame, edges);
}

/* Several fans, open or closed, at one hub. */
static void build_fans_at_one_vertex(struct generator *generator, struct build *build, size_t most)
{
    uint16_t rim[16];
    uint16_t hub = new_point(build);
    size_t fans = between(generator, 2, 2 + most / 20);
    for (size_t f = 0; f < fans; f++) {
        size_t count = between(generator, 2, 8);
        new_points(build, rim, count);
        build_fan_over(build, hub, rim, count, count > 2 && chance(generator, 4));
    }
}

/* A disc of rows by columns of split squares, some triangles left out as holes. */
static void build_disc(struct generator *generator, struct build *build, size_t most)
{
    size_t side = 1;
    while (2 * side * side < most && side < 22) {
        side += 1;
    }
    size_t rows = between(generator, 1, side);
    size_t columns = between(generator, 1, side);
    size_t first = build->points;
    size_t holes = between(generator, 3, 12);
    for (size_t p = 0; p < (rows + 1) * (columns + 1); p++) {
        new_point(build);
    }
    for (size_t row = 0; row < rows; row++) {
        for (size_t column = 0; column < columns; column++) {
            uint16_t a = (uint16_t)(first + row * (columns + 1) + column);
            uint16_t b = (uint16_t)(a + 1);
            uint16_t c = (uint16_t)(b + columns + 1);
            uint16_t d = (uint16_t)(a + columns + 1);
            if (first + (rows + 1) * (columns + 1) > REFERENCE_MOST_POINTS) {
                return;
            }
            if (!chance(generator, holes)) {
                add_triangle(build, a, b, c);
            }
            if (!chance(generator, holes)) {
                add_triangle(build, a, c, d);
            }
        }
    }
}

/* A band between two rings of `count` edges each, which may be meant to lie in the same places: their runs are then equal. */
static void build_band(struct generator *generator, struct build *build, size_t count)
{
    int equal = chance(generator, 2);
    uint16_t inner[REFERENCE_MOST_POINTS];
    uint16_t outer[REFERENCE_MOST_POINTS];
    if (2 * count > REFERENCE_MOST_POINTS) {
        count = REFERENCE_MOST_POINTS / 2;
    }
    new_points(build, inner, count);
    new_points(build, outer, count);
    for (size_t r = 0; r < count; r++) {
        size_t s = (r + 1) % count;
        build->lies_at[outer[r]] = equal ? inner[r] : outer[r];
        add_triangle(build, inner[r], inner[s], outer[s]);
        add_triangle(build, inner[r], outer[s], outer[r]);
    }
}

/* A closed surface: a tetrahedron, an octahedron, or the pillow (0,1,2),(0,2,1). */
static void build_closed(struct generator *generator, struct build *build)
{
    static const uint16_t tetrahedron[12] = {0, 1, 2, 0, 2, 3, 0, 3, 1, 1, 3, 2};
    static const uint16_t octahedron[24] = {0, 1, 2, 0, 2, 3, 0, 3, 4, 0, 4, 1,
                                            5, 2, 1, 5, 3, 2, 5, 4, 3, 5, 1, 4};
    static const uint16_t pillow[6] = {0, 1, 2, 0, 2, 1};
    static const uint16_t *const shapes[3] = {tetrahedron, octahedron, pillow};
    static const size_t corners[3] = {12, 24, 6};
    static const size_t needs[3] = {4, 6, 3};
    size_t shape = generate_below(generator, 3);
    uint16_t points[6];
    size_t left_out = chance(generator, 3) ? 3 * generate_below(generator, corners[shape] / 3)
                                           : corners[shape];
    new_points(build, points, needs[shape]);
    for (size_t c = 0; c < corners[shape]; c += 3) {
        const uint16_t *triangle = shapes[shape] + c;
        if (c != left_out) {
            add_triangle(build, points[triangle[0]], points[triangle[1]], points[triangle[2]]);
        }
    }
}

/* Rings that share vertices, each closed in, so that a diagonal laid for one bars the others. */
static void build_sharing_rings(struct generator *generator, struct build *build, size_t most)
{
    uint16_t shared[4];
    uint16_t rim[16];
    size_t cones = between(generator, 2, 3 + most / 20);
    size_t sharing = between(generator, 1, 4);
    new_points(build, shared, sharing);
    for (size_t cone = 0; cone < cones; cone++) {
        size_t count = between(generator, 2 * sharing < 4 ? 4 : 2 * sharing, 10);
        new_points(build, rim, count);
        for (size_t s = 0; s < sharing; s++) {
            if (!chance(generator, 5)) {
                rim[2 * s] = shared[s];
            }
        }
        close_in(generator, build, rim, count);
    }
}

/* A ring closed in, with triangles over pairs of its vertices, which bar diagonals: flaps on its edges, islands, and pillows
   without an open edge. */
static void build_barred_ring(struct generator *generator, struct build *build, size_t most)
{
    uint16_t ring[REFERENCE_LONGEST_LOOP + 1];
    size_t longest = most < REFERENCE_LONGEST_LOOP ? most : REFERENCE_LONGEST_LOOP + 1;
    size_t count = between(generator, 4, longest < 5 ? 5 : longest);
    size_t bars = between(generator, 1, count * (chance(generator, 3) ? 3 : 1));
    new_points(build, ring, count);
    close_in(generator, build, ring, count);
    for (size_t bar = 0; bar < bars; bar++) {
        uint16_t a = ring[generate_below(generator, count)];
        uint16_t b = ring[generate_below(generator, count)];
        uint16_t c = chance(generator, 3) ? ring[generate_below(generator, count)] : new_point(build);
        add_triangle(build, a, b, c);
        if (chance(generator, 3)) {
            add_triangle(build, a, c, b);
        }
    }
}

/* A loop of exactly 63, 64 or 65 edges, closed in, on a band or on a strip. */
static void build_edge_of_long(struct generator *generator, struct build *build)
{
    size_t count = between(generator, REFERENCE_LONGEST_LOOP - 1, REFERENCE_LONGEST_LOOP + 1);
    uint16_t points[REFERENCE_LONGEST_LOOP + 1];
    switch (generate_below(generator, 5)) {
    case 0:
        build_band(generator, build, count);
        break;
    case 1:
        new_points(build, points, count);
        build_strip_over(build, points, count);
        break;
    default:
        new_points(build, points, count);
        close_in(generator, build, points, count);
        break;
    }
}

/* How many edges a hole has: three, four, some, or up to more than are patched. */
static size_t hole_length(struct generator *generator, size_t most)
{
    switch (generate_below(generator, most > 50 ? 6 : 40)) {
    case 0: return between(generator, REFERENCE_LONGEST_LOOP - 2, REFERENCE_LONGEST_LOOP + 6);
    case 1: return between(generator, 3, REFERENCE_LONGEST_LOOP);
    default: return chance(generator, 2) ? between(generator, 3, 4) : between(generator, 4, 9);
    }
}

/* The rim of a plate as it grows: its open edges run against its order. */
struct coast {
    uint16_t points[REFERENCE_MOST_POINTS];
    size_t count;
};

/* A frame for one hole more: of fresh points but for two, which are the ends of an edge of the coast, so that the frame is joined
   to it there and lengthens it. */
static size_t lengthen(struct generator *generator, struct build *build, struct coast *coast, uint16_t *frame)
{
    size_t edges = chance(generator, 2) ? 3 : between(generator, 3, 9);
    size_t at = coast->count == 0 ? 0 : generate_below(generator, coast->count);
    new_points_outside(build, frame, edges);
    if (coast->count == 0) {
        for (size_t f = 0; f < edges; f++) {
            coast->points[f] = frame[f];
        }
        coast->count = edges;
        return edges;
    }
    frame[0] = coast->points[(at + 1) % coast->count];
    frame[1] = coast->points[at];
    coast->count += edges - 2;
    for (size_t c = coast->count; c > at + edges - 1; c--) {
        coast->points[c - 1] = coast->points[c - edges + 1];
    }
    for (size_t f = 2; f < edges; f++) {
        coast->points[at + f - 1] = frame[f];
    }
    return edges;
}

/* The ring of a hole: fresh points, and where it is to touch others a point of the plate in place of some. */
static void new_hole(struct generator *generator, struct build *build, size_t first, uint16_t *ring, size_t length)
{
    int touching = build->points > first && chance(generator, 4);
    for (size_t r = 0; r < length; r++) {
        ring[r] = touching && chance(generator, 4)
            ? (uint16_t)between(generator, first, build->points - 1) : new_point(build);
    }
}

/* What lies within a hole: flaps on its edges, an island, an island that touches it, or triangles over its diagonals. */
static void fill_hole(struct generator *generator, struct build *build, const uint16_t *ring, size_t length)
{
    size_t times = between(generator, 1, 3);
    for (size_t t = 0; t < times; t++) {
        size_t r = generate_below(generator, length);
        uint16_t other = ring[generate_below(generator, length)];
        uint16_t fresh = new_point(build);
        switch (generate_below(generator, 5)) {
        case 0: add_triangle(build, ring[(r + 1) % length], ring[r], fresh); break;
        case 1: build_fan(generator, build, between(generator, 3, 6), 1); break;
        case 2: add_triangle(build, ring[r], fresh, new_point(build)); break;
        case 3: add_triangle(build, ring[r], other, fresh); break;
        default: add_triangle(build, ring[(r + 1) % length], ring[r], other); break;
        }
    }
}

/* A plate: one hole or several, each in a collar, and the collars joined at edges of their frames. */
static void build_plate(struct generator *generator, struct build *build, size_t most)
{
    uint16_t ring[REFERENCE_LONGEST_LOOP + 6];
    uint16_t frame[9];
    struct coast coast;
    size_t first = build->points;
    size_t holes = chance(generator, 2) ? 1 : between(generator, 1, 3 + most / 40);
    coast.count = 0;
    for (size_t hole = 0; hole < holes && build->points < REFERENCE_MOST_POINTS - 100; hole++) {
        size_t length = hole_length(generator, most);
        size_t edges = lengthen(generator, build, &coast, frame);
        new_hole(generator, build, first, ring, length);
        build_collar_over(generator, build, ring, length, frame, edges);
        if (chance(generator, 4)) {
            fill_hole(generator, build, ring, length);
        }
    }
}

/* A hole in a frame of many edges, which is then longer than any loop that is patched. */
static void build_long_frame(struct generator *generator, struct build *build)
{
    uint16_t ring[REFERENCE_LONGEST_LOOP + 6];
    uint16_t frame[REFERENCE_LONGEST_LOOP + 36];
    size_t length = hole_length(generator, 100);
    size_t edges = between(generator, REFERENCE_LONGEST_LOOP - 1, REFERENCE_LONGEST_LOOP + 36);
    new_points(build, ring, length);
    new_points_outside(build, frame, edges);
    build_collar_over(generator, build, ring, length, frame, edges);
}

/* The surfaces of the scope's bench examples. */
static void build_example(struct generator *generator, struct build *build)
{
    static const uint16_t examples[7][12] = {
        {0, 1, 2}, {0, 1, 2, 0, 1, 3}, {0, 1, 2, 0, 3, 4},
        {0, 1, 2, 2, 1, 3, 2, 3, 4, 4, 3, 0}, {0, 1, 2, 0, 2, 3},
        {0, 1, 4, 1, 2, 4, 2, 3, 4, 3, 0, 4}, {0, 1, 2, 0, 2, 3, 1, 3, 4}};
    static const size_t counts[7] = {3, 6, 6, 12, 6, 12, 9};
    uint16_t points[5];
    size_t example = generate_below(generator, 7);
    new_points(build, points, 5);
    for (size_t c = 0; c < counts[example]; c += 3) {
        const uint16_t *triangle = examples[example] + c;
        add_any_triangle(build, points[triangle[0]], points[triangle[1]], points[triangle[2]]);
    }
}

static void build_shape(struct generator *generator, struct build *build, size_t most, int loose)
{
    switch (generate_below(generator, 26)) {
    case 0: build_random(generator, build, most, loose); break;
    case 1: build_random(generator, build, most, 0); break;
    case 2: build_strip(generator, build, most, 0); break;
    case 3: build_strip(generator, build, most, 1); break;
    case 4: build_fan(generator, build, between(generator, 2, most + 2), 0); break;
    case 5: build_fan(generator, build, between(generator, 3, most + 3), 1); break;
    case 6: build_fans_at_one_vertex(generator, build, most); break;
    case 7: build_disc(generator, build, most); break;
    case 8: build_disc(generator, build, most + 30); break;
    case 9: build_band(generator, build, between(generator, 3, most / 2 + 3)); break;
    case 10: build_closed(generator, build); break;
    case 11: build_sharing_rings(generator, build, most); break;
    case 12: build_barred_ring(generator, build, most); break;
    case 13: build_barred_ring(generator, build, 8); break;
    case 14: build_barred_ring(generator, build, 5); break;
    case 15: build_edge_of_long(generator, build); break;
    case 16: build_long_frame(generator, build); break;
    case 17: build_example(generator, build); break;
    default: build_plate(generator, build, most); break;
    }
}

/* ---- Changing a whole surface ---- */

/* Makes points one, a few times over, leaving out triangles that no longer fit. */
static void join_points(struct generator *generator, struct build *build)
{
    struct build joined;
    size_t times = between(generator, 1, 4);
    for (size_t j = 0; j < times && build->points > 0; j++) {
        uint16_t keep = (uint16_t)generate_below(generator, build->points);
        uint16_t drop = (uint16_t)generate_below(generator, build->points);
        joined = *build;
        joined.count = 0;
        for (size_t c = 0; c < build->count; c += 3) {
            uint16_t t[3];
            for (size_t s = 0; s < 3; s++) {
                t[s] = build->corners[c + s] == drop ? keep : build->corners[c + s];
            }
            add_triangle(&joined, t[0], t[1], t[2]);
        }
        *build = joined;
    }
}

static void swap_corners(uint16_t *corners, size_t a, size_t b)
{
    uint16_t kept = corners[a];
    corners[a] = corners[b];
    corners[b] = kept;
}

void generate_shuffle_triangles(struct generator *generator, uint16_t *corners, size_t count)
{
    for (size_t t = 0; t < count / 3; t++) {
        size_t other = between(generator, t, count / 3 - 1);
        for (size_t s = 0; s < 3; s++) {
            swap_corners(corners, 3 * t + s, 3 * other + s);
        }
        for (size_t turns = generate_below(generator, 3); turns > 0; turns--) {
            swap_corners(corners, 3 * t, 3 * t + 1);
            swap_corners(corners, 3 * t + 1, 3 * t + 2);
        }
    }
}

/* Gives every point another number. */
static void renumber_points(struct generator *generator, struct build *build)
{
    for (size_t p = 0; p < build->points; p++) {
        swap_corners(build->numbers, p, between(generator, p, build->points - 1));
    }
    for (size_t c = 0; c < build->count; c++) {
        build->corners[c] = build->numbers[build->corners[c]];
    }
}

/* Islands of shapes, at times joined, renumbered, shuffled, with points no triangle uses. */
static void build_surface(struct generator *generator, struct build *build, int loose)
{
    size_t most = 10;
    size_t islands = chance(generator, 3) ? between(generator, 0, 4) : 1;
    if (chance(generator, 10)) {
        most = chance(generator, 8) ? 1022 : 100;
    }
    build->count = 0;
    build->points = 0;
    for (size_t island = 0; island < islands; island++) {
        build_shape(generator, build, most, loose);
    }
    if (chance(generator, 4)) {
        join_points(generator, build);
    }
    if (chance(generator, 4)) {
        for (size_t p = generate_below(generator, 4); p > 0; p--) {
            new_point(build);
        }
    }
    if (chance(generator, 2)) {
        renumber_points(generator, build);
    }
    if (chance(generator, 2)) {
        generate_shuffle_triangles(generator, build->corners, build->count);
    }
    if (loose && build->count > 0 && chance(generator, 8)) {
        size_t t = generate_below(generator, build->count / 3);
        swap_corners(build->corners, 3 * t, 3 * t + 2);
    }
}

/* ---- Coordinates ---- */

/* The bits of value / 2^halvings; the value's size is below 2^24. */
static uint32_t word_of(int64_t value, uint32_t halvings)
{
    uint32_t sign = value < 0 ? 0x80000000u : 0u;
    int64_t magnitude = value < 0 ? -value : value;
    uint32_t field = 150 - halvings;
    if (magnitude == 0) {
        return sign;
    }
    while (magnitude < ((int64_t)1 << 23)) {
        magnitude *= 2;
        field -= 1;
    }
    return sign | (field << 23) | (uint32_t)(magnitude & 0x7fffff);
}

static int64_t signed_between(struct generator *generator, int64_t low, int64_t high)
{
    return low + (int64_t)generate_below(generator, (size_t)(high - low + 1));
}

/* The last value that is kept, in units of 2^-9, which is how close floats lie there: half a pitch behind the farthest multiple, and
   that itself only where the tie goes back to it. */
static int64_t last_kept(uint32_t pitch)
{
    int64_t farthest = reference_greatest(pitch);
    return (2 * farthest + pitch) * 256 - farthest / pitch % 2;
}

/* The farthest values that are kept, and their neighbours inwards. */
static uint32_t extreme_word(struct generator *generator, uint32_t pitch)
{
    int64_t farthest = reference_greatest(pitch);
    const int64_t units[8] = {farthest * 512, last_kept(pitch), (2 * farthest - pitch) * 256, (2 * farthest - pitch) * 256 - 1,
                              farthest * 512 + 1, (farthest - pitch) * 512, 0, farthest * 512 - 1};
    uint32_t sign = (uint32_t)(generate_below(generator, 2) << 31);
    return sign | word_of(units[generate_below(generator, 8)], 9);
}

/* Zeros, subnormals, the smallest normals, and values about a half and one and a half of the pitch. */
static uint32_t tiny_word(struct generator *generator, uint32_t pitch)
{
    const uint32_t half = word_of(pitch, 1), three_halves = word_of(3 * (int64_t)pitch, 1);
    const uint32_t words[12] = {0x00000000, 0x00000001, 0x007fffff, 0x00800000, 0x00800001, half - 1, half, half + 1,
                                three_halves - 1, three_halves, three_halves + 1, 0x33000000};
    uint32_t sign = (uint32_t)(generate_below(generator, 2) << 31);
    if (chance(generator, 4)) {
        return sign | (uint32_t)generate_below(generator, 0x00800000);
    }
    return sign | words[generate_below(generator, 12)];
}

/* Words that are refused: not finite or too far. */
static uint32_t refused_word(struct generator *generator, uint32_t pitch)
{
    const uint32_t off = word_of(last_kept(pitch) + 1, 9);
    const uint32_t words[10] = {0x7f800000, 0x7fc00000, 0x7f800001, 0x7fffffff, off, 0x47000000, 0x7f7fffff, off + 1,
                                0x4b000000, 0x4f000000};
    uint32_t sign = (uint32_t)(generate_below(generator, 2) << 31);
    return sign | words[generate_below(generator, 10)];
}

/* Any fraction below 2^14 in size, most of them tiny. */
static uint32_t small_word(struct generator *generator)
{
    int64_t value = signed_between(generator, -0xffffff, 0xffffff);
    return word_of(value, (uint32_t)between(generator, 10, 60));
}

/* A word on the plate, in one of the moods of a surface. Few numbers are told in pitches, so that a coarse grid does not make one of
   them. */
static uint32_t word_in_mood(struct generator *generator, size_t mood, uint32_t pitch)
{
    int64_t farthest = reference_greatest(pitch);
    switch (mood) {
    case 0: return word_of(pitch * signed_between(generator, 0, 3), 0);
    case 1: return word_of(pitch * signed_between(generator, -9, 9), 1);
    case 2: return word_of(pitch * signed_between(generator, -40, 40), 3);
    case 3: return word_of(signed_between(generator, -farthest, farthest), 0);
    case 4: return extreme_word(generator, pitch);
    case 5: return tiny_word(generator, pitch);
    case 6: return word_of(signed_between(generator, 1 - (2 * farthest + pitch) * 128, (2 * farthest + pitch) * 128 - 1), 8);
    case 7: return small_word(generator);
    default: return word_of(pitch * signed_between(generator, -20, 20), 0);
    }
}

uint32_t generate_word(struct generator *generator, uint32_t pitch)
{
    if (chance(generator, 4)) {
        return (uint32_t)generate_bits(generator);
    }
    if (chance(generator, 4)) {
        return refused_word(generator, pitch);
    }
    if (chance(generator, 4)) {
        int64_t halves = 65540 / pitch;
        return word_of(pitch * signed_between(generator, -halves, halves), 1);
    }
    return word_in_mood(generator, generate_below(generator, 9), pitch);
}

/* Puts the points that are meant to lie outside to the ends of the plate, and those that are meant to lie where another lies there. */
static void place_as_meant(struct generator *generator, const struct build *build, uint32_t *words, uint32_t pitch)
{
    int64_t farthest = reference_greatest(pitch);
    for (size_t p = 0; p < build->points; p++) {
        for (size_t axis = 0; axis < 3; axis++) {
            if (build->outside[p]) {
                int64_t end = p % 2 == 0 ? farthest : -farthest;
                words[3 * p + axis] = word_of(chance(generator, 4) ? signed_between(generator, -farthest, farthest) : end, 0);
            }
            words[3 * p + axis] = words[3 * (size_t)build->lies_at[p] + axis];
        }
    }
}

/* Points all over, all in one place, on a line, or in a plane. Those on a line are on the grid, or they would leave it. */
static void place_points(struct generator *generator, uint32_t *words, size_t points, uint32_t pitch)
{
    size_t mood = generate_below(generator, 11);
    size_t lie = generate_below(generator, 8);
    int64_t step[3];
    for (size_t axis = 0; axis < 3; axis++) {
        step[axis] = signed_between(generator, -3, 3);
    }
    for (size_t p = 0; p < points; p++) {
        int64_t along = signed_between(generator, -2000, 2000) / pitch * pitch;
        for (size_t axis = 0; axis < 3; axis++) {
            uint32_t *word = &words[3 * p + axis];
            *word = word_in_mood(generator, mood > 8 ? generate_below(generator, 9) : mood, pitch);
            if (lie == 0 && p > 0) {
                *word = words[axis];
            } else if (lie == 1) {
                *word = word_of(along * step[axis], 0);
            } else if (lie == 2 && axis == 2) {
                *word = words[2];
            } else if (lie == 3 && p > 2 && chance(generator, 2)) {
                *word = words[3 * (p - 2) + axis];
            }
        }
    }
}

/* ---- Damage and buffers ---- */

static void damage_counts(struct generator *generator, struct generated_surface *surface)
{
    size_t by = between(generator, 1, 2);
    switch (generate_below(generator, 6)) {
    case 0: surface->word_count -= surface->word_count >= by ? by : 0; break;
    case 1: surface->word_count += surface->word_count + by <= GENERATE_WORD_ROOM ? by : 0; break;
    case 2: surface->corner_count -= surface->corner_count >= by ? by : 0; break;
    case 3: surface->corner_count += surface->corner_count + by <= GENERATE_CORNER_ROOM ? by : 0; break;
    case 4: surface->word_count = REFERENCE_MOST_WORDS + between(generator, 1, 12); break;
    default: surface->corner_count = REFERENCE_MOST_CORNERS + between(generator, 1, 12); break;
    }
}

static void damage_corner(struct generator *generator, struct generated_surface *surface)
{
    static const uint16_t far[5] = {1023, 1024, 32768, 65535, 9999};
    size_t points = surface->word_count / 3;
    if (surface->corner_count == 0) {
        return;
    }
    uint16_t *corner = &surface->corners[generate_below(generator, surface->corner_count)];
    switch (generate_below(generator, 3)) {
    case 0: *corner = (uint16_t)(points + generate_below(generator, 2)); break;
    case 1: *corner = far[generate_below(generator, 5)]; break;
    default: *corner = (uint16_t)generate_below(generator, points + 1); break;
    }
}

/* A point twice in a triangle, a triangle twice, or one turned round. */
static void damage_triangle(struct generator *generator, struct generated_surface *surface)
{
    size_t triangles = surface->corner_count / 3;
    if (triangles == 0) {
        return;
    }
    size_t t = 3 * generate_below(generator, triangles);
    size_t other = 3 * generate_below(generator, triangles);
    size_t turn = generate_below(generator, 3);
    switch (generate_below(generator, 3)) {
    case 0:
        surface->corners[t + turn] = surface->corners[t + (turn + 1) % 3];
        break;
    case 1:
        for (size_t s = 0; s < 3; s++) {
            surface->corners[other + s] = surface->corners[t + (s + turn) % 3];
        }
        break;
    default:
        swap_corners(surface->corners, t, t + 2);
        break;
    }
}

/* A number that is no pitch, or another pitch than the points are laid for. */
static void damage_pitch(struct generator *generator, struct generated_surface *surface)
{
    surface->pitch = chance(generator, 4) ? generate_pitch(generator) : generate_wrong_pitch(generator);
}

static void damage_surface(struct generator *generator, struct generated_surface *surface)
{
    switch (generate_below(generator, 7)) {
    case 0:
        damage_counts(generator, surface);
        break;
    case 1:
        damage_corner(generator, surface);
        break;
    case 2:
    case 3:
        damage_triangle(generator, surface);
        break;
    case 4:
        damage_pitch(generator, surface);
        break;
    default:
        if (surface->word_count > 0) {
            uint32_t pitch = reference_is_pitch(surface->pitch) ? surface->pitch : 1;
            surface->words[generate_below(generator, surface->word_count)] = refused_word(generator, pitch);
        }
        break;
    }
}

void generate_lend_exactly(struct generated_surface *surface)
{
    size_t triangles = surface->corner_count / 3;
    surface->lent[0] = surface->word_count;
    surface->lent[1] = 3 * triangles;
    surface->lent[2] = REFERENCE_RECORD * triangles;
    surface->lent[3] = 9 * triangles;
    surface->report_lent = 2 * REFERENCE_ENTRY * triangles;
    surface->lengths_lent = triangles;
}

/* Lends a buffer too long, or, where some are to be short, at times too short by one or empty. */
static void lend_otherwise(struct generator *generator, size_t *length, int shortage)
{
    if (chance(generator, 3)) {
        *length += between(generator, 1, 5);
    } else if (shortage && chance(generator, 3)) {
        *length -= *length > 0 ? 1 : 0;
    } else if (shortage && chance(generator, 6)) {
        *length = 0;
    }
}

/* Lends some buffers too long, and at times some too short; of records also so
   many that one or more of their numbers has no room for any loop, and of the
   report so many that there is room for one entry a triangle, or for one
   number of each. */
static void lend(struct generator *generator, struct generated_surface *surface)
{
    int shortage = chance(generator, 6);
    generate_lend_exactly(surface);
    for (size_t b = 0; b < GENERATE_BUFFERS; b++) {
        lend_otherwise(generator, &surface->lent[b], shortage);
    }
    lend_otherwise(generator, &surface->lengths_lent, shortage);
    if (shortage && chance(generator, 6)) {
        surface->lent[2] = between(generator, 1, REFERENCE_RECORD - 1) * (surface->corner_count / 3);
    }
    lend_otherwise(generator, &surface->report_lent, shortage);
    if (shortage && chance(generator, 6)) {
        surface->report_lent = REFERENCE_ENTRY * (surface->corner_count / 3);
    }
}

static void take_build(struct generator *generator, const struct build *build,
                       struct generated_surface *surface)
{
    uint32_t words[REFERENCE_MOST_WORDS];
    surface->pitch = generate_pitch(generator);
    surface->word_count = 3 * build->points;
    surface->corner_count = build->count;
    for (size_t w = 0; w < GENERATE_WORD_ROOM; w++) {
        surface->words[w] = 0;
    }
    for (size_t c = 0; c < GENERATE_CORNER_ROOM; c++) {
        surface->corners[c] = c < build->count ? build->corners[c] : 0;
    }
    place_points(generator, words, build->points, surface->pitch);
    if (!chance(generator, 4)) {
        place_as_meant(generator, build, words, surface->pitch);
    }
    for (size_t p = 0; p < build->points; p++) {
        for (size_t axis = 0; axis < 3; axis++) {
            surface->words[3 * (size_t)build->numbers[p] + axis] = words[3 * p + axis];
        }
    }
    generate_lend_exactly(surface);
}

void generate_sound_surface(struct generator *generator, struct generated_surface *surface)
{
    struct build build;
    struct reference_answer answer;
    int32_t grid[REFERENCE_MOST_WORDS];
    uint16_t rings[REFERENCE_MOST_CORNERS];
    uint16_t lengths[REFERENCE_MOST_TRIANGLES];
    do {
        build_surface(generator, &build, 0);
        take_build(generator, &build, surface);
        reference_survey(surface->words, surface->word_count, surface->corners, surface->corner_count,
                         grid, REFERENCE_MOST_WORDS, rings, REFERENCE_MOST_CORNERS,
                         lengths, REFERENCE_MOST_TRIANGLES, surface->pitch, &answer);
    } while (answer.number != 0);
}

void generate_surface(struct generator *generator, struct generated_surface *surface)
{
    struct build build;
    size_t faults = chance(generator, 3) ? 1 : 0;
    if (faults == 1 && chance(generator, 3)) {
        faults = between(generator, 2, 4);
    }
    build_surface(generator, &build, 1);
    take_build(generator, &build, surface);
    while (faults > 0) {
        damage_surface(generator, surface);
        faults -= 1;
    }
    lend(generator, surface);
}

/* ---- Patch sets ---- */

/* Which covers a set is made of. */
enum { COVER_OWN, COVER_EQUALLY_LIGHT, COVER_ALLOWED, COVER_ANY };

/* Whether the choice m may be taken in the stretch i..k. */
static int may_choose(const struct reference_memo *memo, size_t i, size_t m, size_t k, int kind)
{
    int64_t left = memo->least[i][m];
    int64_t right = memo->least[m][k];
    if (kind == COVER_ANY) {
        return 1;
    }
    if (left == REFERENCE_NO_COVER || right == REFERENCE_NO_COVER
        || !reference_is_allowed(memo, i, m, k)) {
        return 0;
    }
    return kind == COVER_ALLOWED
        || left + right + reference_weight(memo->grid, memo->ring[i], memo->ring[k], memo->ring[m])
            == memo->least[i][k];
}

/* Lays a cover of the stretch i..k; of the choices that may be taken the own
   cover has the smallest, the others have any. */
static void choose_stretch(struct generator *generator, const struct reference_memo *memo,
                           size_t i, size_t k, int kind, struct generated_set *set)
{
    size_t choices[REFERENCE_LONGEST_LOOP];
    size_t count = 0;
    if (k == i + 1) {
        return;
    }
    for (size_t m = i + 1; m < k; m++) {
        if (may_choose(memo, i, m, k, kind)) {
            choices[count] = m;
            count += 1;
        }
    }
    size_t m = choices[kind == COVER_OWN ? 0 : generate_below(generator, count)];
    set->corners[set->corner_count] = memo->ring[i];
    set->corners[set->corner_count + 1] = memo->ring[k];
    set->corners[set->corner_count + 2] = memo->ring[m];
    set->corner_count += 3;
    choose_stretch(generator, memo, i, m, kind, set);
    choose_stretch(generator, memo, m, k, kind, set);
}

/* What a set does with rims: declares them, declares them and lays triangles for them all the same, or takes them for loops like
   any other. */
enum { RIMS_DECLARED, RIMS_LAID, RIMS_PAVED };

/* The state of one loop and, if it is patched, its triangles. */
static void choose_loop(struct generator *generator, const struct generated_surface *surface,
                        const int32_t *grid, const uint16_t *ring, size_t length, int kind, int shuffled,
                        struct generated_set *set)
{
    struct reference_memo memo;
    size_t before = set->corner_count;
    uint16_t *state = &set->states[set->state_count];
    set->state_count += 1;
    *state = 2;
    if (length > REFERENCE_LONGEST_LOOP) {
        return;
    }
    reference_fill_memo(&memo, grid, ring, length, surface->corners, surface->corner_count,
                        set->corners, set->corner_count);
    *state = 3;
    if (memo.least[0][length - 1] == REFERENCE_NO_COVER && kind != COVER_ANY) {
        return;
    }
    *state = 1;
    choose_stretch(generator, &memo, 0, length - 1, kind, set);
    if (shuffled) {
        generate_shuffle_triangles(generator, set->corners + before, set->corner_count - before);
    }
}

/* A set over all loops: each of the given kind or the patcher's own. */
static void choose_covers(struct generator *generator, const struct generated_surface *surface,
                          int kind, int with_rims, int shuffled, struct generated_set *set)
{
    unsigned char rims[REFERENCE_MOST_TRIANGLES];
    int32_t grid[REFERENCE_MOST_WORDS];
    uint16_t rings[REFERENCE_MOST_CORNERS];
    uint16_t lengths[REFERENCE_MOST_TRIANGLES];
    struct reference_answer answer;
    const uint16_t *ring = rings;
    set->state_count = 0;
    set->corner_count = 0;
    reference_survey(surface->words, surface->word_count, surface->corners, surface->corner_count,
                     grid, REFERENCE_MOST_WORDS, rings, REFERENCE_MOST_CORNERS,
                     lengths, REFERENCE_MOST_TRIANGLES, surface->pitch, &answer);
    if (answer.number == 0) {
        reference_rims(grid, surface->corners, surface->corner_count, rings, lengths, answer.loops, rims);
    }
    for (size_t loop = 0; loop < answer.loops; loop++) {
        if (!rims[loop] || with_rims != RIMS_DECLARED) {
            choose_loop(generator, surface, grid, ring, lengths[loop],
                        chance(generator, 2) ? kind : COVER_OWN, shuffled, set);
        } else {
            set->state_count += 1;
        }
        if (rims[loop] && with_rims != RIMS_PAVED) {
            set->states[loop] = 4;
        }
        ring += lengths[loop];
    }
}

/* Turns one triangle round, or replaces a corner of one. */
static void change_triangle(struct generator *generator, struct generated_set *set)
{
    if (set->corner_count < 3) {
        return;
    }
    size_t t = 3 * generate_below(generator, set->corner_count / 3);
    if (chance(generator, 2)) {
        swap_corners(set->corners, t, t + 2);
    } else if (chance(generator, 4)) {
        set->corners[t] = (uint16_t)generate_below(generator, 65536);
    } else {
        uint16_t other = set->corners[generate_below(generator, set->corner_count)];
        set->corners[t + generate_below(generator, 3)] = other;
    }
}

/* Takes one triangle out, or the last corner. */
static void leave_out(struct generator *generator, struct generated_set *set)
{
    if (set->corner_count < 3) {
        return;
    }
    if (chance(generator, 4)) {
        set->corner_count -= 1;
        return;
    }
    size_t t = 3 * generate_below(generator, set->corner_count / 3);
    for (size_t c = t; c + 3 < set->corner_count; c++) {
        set->corners[c] = set->corners[c + 3];
    }
    set->corner_count -= 3;
}

/* Adds up to four corners: old ones, or ones that may name no point. */
static void put_in(struct generator *generator, struct generated_set *set)
{
    size_t more = chance(generator, 2) ? 3 : between(generator, 1, 4);
    for (size_t c = 0; c < more && set->corner_count < GENERATE_SET_ROOM; c++) {
        set->corners[set->corner_count] = set->corner_count > 0 && chance(generator, 2)
            ? set->corners[generate_below(generator, set->corner_count)]
            : (uint16_t)generate_below(generator, 1024);
        set->corner_count += 1;
    }
}

/* A state that is given, is near those, or is none. */
static uint16_t any_state(struct generator *generator)
{
    static const uint16_t states[8] = {0, 1, 2, 3, 4, 4, 4, 5};
    return chance(generator, 8) ? (uint16_t)generate_below(generator, chance(generator, 2) ? 65536 : 10)
                                : states[generate_below(generator, 8)];
}

/* Changes one state, has two loops change theirs, or changes the number of states. */
static void change_states(struct generator *generator, struct generated_set *set)
{
    if (chance(generator, 6)) {
        set->state_count += set->state_count < GENERATE_STATE_ROOM ? 1 : 0;
        set->states[set->state_count - 1] = 1;
    } else if (chance(generator, 6)) {
        set->state_count -= set->state_count > 0 ? 1 : 0;
    } else if (set->state_count > 0) {
        size_t loop = generate_below(generator, set->state_count);
        if (chance(generator, 4)) {
            swap_corners(set->states, loop, generate_below(generator, set->state_count));
        } else {
            set->states[loop] = any_state(generator);
        }
    }
}

/* Puts all triangles of the set into any order, over the bounds of loops. */
static void mix_loops(struct generator *generator, struct generated_set *set)
{
    generate_shuffle_triangles(generator, set->corners, set->corner_count - set->corner_count % 3);
}

static void change_set(struct generator *generator, struct generated_set *set)
{
    switch (generate_below(generator, 7)) {
    case 0:
    case 1: change_triangle(generator, set); break;
    case 2: leave_out(generator, set); break;
    case 3: put_in(generator, set); break;
    case 4:
    case 5: change_states(generator, set); break;
    default: mix_loops(generator, set); break;
    }
}

void generate_set(struct generator *generator, const struct generated_surface *surface,
                  struct generated_set *set)
{
    int kind = COVER_OWN + (int)generate_below(generator, 4);
    int with_rims = chance(generator, 8) ? RIMS_LAID + (int)generate_below(generator, 2) : RIMS_DECLARED;
    size_t changes = chance(generator, 2) ? between(generator, 1, 2) : 0;
    choose_covers(generator, surface, kind, with_rims, chance(generator, 2), set);
    if (set->state_count == 0 && chance(generator, 4)) {
        change_states(generator, set);
    }
    while (changes > 0) {
        change_set(generator, set);
        changes -= 1;
    }
}

/* ---- Texts ---- */

static size_t put_text(uint8_t *text, size_t at, const char *bytes)
{
    for (size_t b = 0; bytes[b] != 0; b++) {
        text[at] = (uint8_t)bytes[b];
        at += 1;
    }
    return at;
}

/* A number in the digits of a base, at least so many of them. */
static size_t put_number(uint8_t *text, size_t at, size_t value, size_t base, size_t digits)
{
    if (value >= base || digits > 1) {
        at = put_number(text, at, value / base, base, digits > 1 ? digits - 1 : 1);
    }
    text[at] = (uint8_t)"0123456789abcdef"[value % base];
    return at + 1;
}

static size_t put_count(uint8_t *text, size_t at, const char *key, size_t count)
{
    at = put_text(text, at, key);
    at = put_number(text, at, count, 10, 1);
    return put_text(text, at, "\n");
}

static size_t put_triangles(uint8_t *text, size_t at, const uint16_t *corners, size_t count)
{
    at = put_count(text, at, "triangles=", count / 3);
    for (size_t c = 0; c < count - count % 3; c++) {
        at = put_text(text, at, c % 3 == 0 ? "t=" : ",");
        at = put_number(text, at, corners[c], 10, 1);
        at = put_text(text, at, c % 3 == 2 ? "\n" : "");
    }
    return at;
}

size_t generate_sheet_text(const struct generated_surface *surface, uint8_t *text)
{
    size_t words = surface->word_count - surface->word_count % 3;
    size_t at = surface->pitch == 1 ? 0 : put_count(text, 0, "pitch=", surface->pitch);
    at = put_count(text, at, "points=", words / 3);
    for (size_t w = 0; w < words; w++) {
        at = put_text(text, at, w % 3 == 0 ? "p=" : ",");
        at = put_number(text, at, surface->words[w], 16, 8);
        at = put_text(text, at, w % 3 == 2 ? "\n" : "");
    }
    return put_triangles(text, at, surface->corners, surface->corner_count);
}

size_t generate_set_text(const struct generated_set *set, uint8_t *text)
{
    size_t at = put_count(text, 0, "states=", set->state_count);
    for (size_t s = 0; s < set->state_count; s++) {
        at = put_text(text, at, "s=");
        at = put_number(text, at, set->states[s], 10, 1);
        at = put_text(text, at, "\n");
    }
    return put_triangles(text, at, set->corners, set->corner_count);
}

static size_t insert_byte(uint8_t *text, size_t length, size_t at, uint8_t byte)
{
    if (length == GENERATE_TEXT_ROOM) {
        return length;
    }
    for (size_t b = length; b > at; b--) {
        text[b] = text[b - 1];
    }
    text[at] = byte;
    return length + 1;
}

static size_t remove_byte(uint8_t *text, size_t length, size_t at)
{
    for (size_t b = at; b + 1 < length; b++) {
        text[b] = text[b + 1];
    }
    return length - 1;
}

/* The place after a line's end, reached from a chance place; the text's end where there is none. */
static size_t line_start(struct generator *generator, const uint8_t *text, size_t length)
{
    size_t at = generate_below(generator, length + 1);
    while (at > 0 && at < length && text[at - 1] != '\n') {
        at += 1;
    }
    return at;
}

/* Takes a line out, or sets it down twice. */
static size_t damage_line(struct generator *generator, uint8_t *text, size_t length)
{
    size_t from = line_start(generator, text, length);
    size_t end = from;
    int twice = chance(generator, 2);
    while (end < length && text[end] != '\n') {
        end += 1;
    }
    size_t bytes = end < length ? end + 1 - from : 0;
    for (size_t b = 0; b < bytes; b++) {
        length = twice ? insert_byte(text, length, from + bytes + b, text[from + b])
                       : remove_byte(text, length, from);
    }
    return length;
}

/* Puts a line of a pitch, right or wrong, before the text, or before any of its lines. */
static size_t damage_head(struct generator *generator, uint8_t *text, size_t length)
{
    static const char *const heads[12] = {"pitch=1\n", "pitch=2\n", "pitch=5\n", "pitch=10\n", "pitch=3\n", "pitch=02\n",
                                          "pitch=\n", "pitch=2", "pitch=0\n", "pitch=2\r\n", "pitch=20\n", "pitch=100\n"};
    const char *head = heads[generate_below(generator, 12)];
    size_t at = chance(generator, 2) ? 0 : line_start(generator, text, length);
    for (size_t b = 0; head[b] != 0; b++) {
        length = insert_byte(text, length, at + b, (uint8_t)head[b]);
    }
    return length;
}

/* A byte that is likely to matter. */
static uint8_t telling_byte(struct generator *generator)
{
    static const char bytes[] = "0123456789abcdefAF=,\n\r pts-+.x";
    if (chance(generator, 8)) {
        return (uint8_t)generate_below(generator, 256);
    }
    return (uint8_t)bytes[generate_below(generator, sizeof bytes - 1)];
}

size_t generate_text_damage(struct generator *generator, uint8_t *text, size_t length)
{
    size_t at = length == 0 ? 0 : generate_below(generator, length);
    switch (generate_below(generator, 10)) {
    case 0:
        return at;
    case 1:
        return length == 0 ? 0 : length - 1;
    case 2:
        return insert_byte(text, length, at, telling_byte(generator));
    case 3:
        return length == 0 ? 0 : remove_byte(text, length, at);
    case 4:
        return damage_line(generator, text, length);
    case 5:
        return insert_byte(text, length, length, telling_byte(generator));
    case 6:
        while (at > 0 && text[at - 1] != '=' && text[at - 1] != ',') {
            at -= 1;
        }
        return insert_byte(text, length, at, '0');
    case 7:
        return damage_head(generator, text, length);
    case 8:
        /* among the first bytes, where a pitch is told */
        if (length > 0) {
            text[generate_below(generator, length < 10 ? length : 10)] = telling_byte(generator);
        }
        return length;
    default:
        if (length > 0) {
            text[at] = telling_byte(generator);
        }
        return length;
    }
}

/* ---- Files of facets ---- */

/* What the corners of a file are taken from. */
enum corner_kind { CORNERS_OF_SURFACE, CORNERS_MEETING, CORNERS_COUNTED, CORNER_KINDS };

struct corner_source {
    enum corner_kind kind;
    struct generated_surface surface;
    size_t facets;
    size_t points;
};

/* One of few words, of which some are easily mistaken for each other. */
static uint32_t meeting_word(struct generator *generator)
{
    static const uint32_t words[] = {0, 0x80000000u, 1, 0x80000001u, 0x3f800000u, 0xbf800000u, 0x7f800000u, 0xff800000u,
                                     0x7fc00000u, 0xffc00000u, 0x7fc00001u, 0x7f800001u};
    return words[generate_below(generator, sizeof words / sizeof words[0])];
}

/* A count around the greatest that is taken, or a small one. */
static size_t count_around(struct generator *generator, size_t greatest)
{
    return chance(generator, 4) ? between(generator, greatest - 1, greatest + 2) : between(generator, 0, 40);
}

static void choose_source(struct generator *generator, struct corner_source *source)
{
    source->kind = (enum corner_kind)generate_below(generator, CORNER_KINDS);
    source->facets = count_around(generator, REFERENCE_MOST_TRIANGLES);
    source->points = 1;
    if (source->kind == CORNERS_OF_SURFACE) {
        generate_surface(generator, &source->surface);
        source->facets = source->surface.corner_count / 3;
        source->points = source->surface.word_count / 3;
    } else if (source->kind == CORNERS_COUNTED) {
        source->points = between(generator, REFERENCE_MOST_POINTS - 1, REFERENCE_MOST_POINTS + 2);
        source->facets = between(generator, source->points / 3, REFERENCE_MOST_TRIANGLES);
    }
}

/* Word w of corner c. A corner of a surface that names no point is taken for one that does, and a zero has either sign. */
static uint32_t source_word(struct generator *generator, const struct corner_source *source, size_t c, size_t w)
{
    if (source->kind == CORNERS_MEETING) {
        return meeting_word(generator);
    }
    if (source->kind == CORNERS_COUNTED) {
        return (uint32_t)(w == 0 ? 1 + c % source->points : w);
    }
    uint32_t word = source->points == 0 ? 0 : source->surface.words[3 * (source->surface.corners[c] % source->points) + w];
    return word == 0 && chance(generator, 2) ? 0x80000000u : word;
}

static void put_file_word(uint8_t *file, size_t at, uint32_t word)
{
    for (size_t b = 0; b < 4; b++) {
        file[at + b] = (uint8_t)(word >> (8 * b));
    }
}

/* Header, normals and attributes are any bytes; some headers begin as a file in letters does. */
size_t generate_stl(struct generator *generator, uint8_t *file)
{
    static struct corner_source source;
    choose_source(generator, &source);
    size_t length = REFERENCE_STL_FRONT + REFERENCE_STL_FACET * source.facets;
    for (size_t b = 0; b < length; b++) {
        file[b] = (uint8_t)generate_bits(generator);
    }
    if (chance(generator, 3)) {
        put_text(file, 0, "solid part\n");
    }
    put_file_word(file, REFERENCE_STL_FRONT - 4, (uint32_t)source.facets);
    for (size_t c = 0; c < 3 * source.facets; c++) {
        for (size_t w = 0; w < 3; w++) {
            put_file_word(file, REFERENCE_STL_FRONT + REFERENCE_STL_FACET * (c / 3) + 12 + 12 * (c % 3) + 4 * w,
                          source_word(generator, &source, c, w));
        }
    }
    return length;
}

/* The count moved by a few, its bytes turned round, or any bits. */
static void damage_count(struct generator *generator, uint8_t *count)
{
    uint8_t first = count[0], second = count[1];
    switch (generate_below(generator, 3)) {
    case 0:
        count[0] = (uint8_t)(first + between(generator, 1, 255));
        break;
    case 1:
        count[0] = count[3];
        count[1] = count[2];
        count[2] = second;
        count[3] = first;
        break;
    default:
        put_file_word(count, 0, (uint32_t)generate_bits(generator));
    }
}

size_t generate_stl_damage(struct generator *generator, uint8_t *file, size_t length)
{
    size_t more = chance(generator, 2) ? 1 : REFERENCE_STL_FACET;
    switch (generate_below(generator, 5)) {
    case 0:
        return generate_below(generator, length);
    case 1:
        return generate_below(generator, REFERENCE_STL_FRONT + 1);
    case 2:
        return length < REFERENCE_STL_FRONT + more ? length : length - more;
    case 3:
        for (size_t b = length; b < length + more; b++) {
            file[b] = (uint8_t)generate_bits(generator);
        }
        return length + more;
    default:
        damage_count(generator, file + REFERENCE_STL_FRONT - 4);
        return length;
    }
}
