/* Surfaces laid triangle by triangle: cones over common points, sheets with tide pools and lakes, and full sheets of islands and of plates
   with holes. */

#include <string.h>

#include "reference.h"
#include "sheets.h"

uint32_t sheet_word(int32_t whole)
{
    float value = (float)whole;
    uint32_t bits;
    memcpy(&bits, &value, sizeof bits);
    return bits;
}

void sheet_add_triangle(struct generated_surface *surface, size_t a, size_t b, size_t c)
{
    uint16_t *corners = surface->corners + surface->corner_count;
    corners[0] = (uint16_t)a;
    corners[1] = (uint16_t)b;
    corners[2] = (uint16_t)c;
    surface->corner_count += 3;
}

void sheet_add_cone(struct generated_surface *surface, const uint16_t *rim, size_t length, uint16_t hub)
{
    for (size_t r = 0; r < length; r++) {
        uint16_t a = rim[r];
        uint16_t b = rim[(r + 1) % length];
        if (surface->corner_count < REFERENCE_MOST_CORNERS
            && reference_find_edge(surface->corners, surface->corner_count, a, b) == REFERENCE_NO_EDGE) {
            sheet_add_triangle(surface, a, b, hub);
        }
    }
}

void sheet_add_collar(struct generated_surface *surface, const uint16_t *ring, size_t length,
                      const uint16_t *frame, size_t edges)
{
    size_t r = 0;
    size_t f = 0;
    while (r + f < length + edges) {
        if (r * edges <= f * length) {
            sheet_add_triangle(surface, ring[r % length], ring[(r + 1) % length], frame[f % edges]);
            r += 1;
        } else {
            sheet_add_triangle(surface, frame[(f + 1) % edges], frame[f % edges], ring[r % length]);
            f += 1;
        }
    }
}

static void place_point(struct generated_surface *surface, size_t point, int32_t x, int32_t y, int32_t z)
{
    surface->words[3 * point] = sheet_word(x);
    surface->words[3 * point + 1] = sheet_word(y);
    surface->words[3 * point + 2] = sheet_word(z);
}

/* A number from 0 - size to size. */
static int32_t within(struct generator *generator, size_t size)
{
    return (int32_t)generate_below(generator, 2 * size + 1) - (int32_t)size;
}

/* Points in a cube of some size about 0. */
static void place_points(struct generator *generator, struct generated_surface *surface,
                         size_t points, size_t size)
{
    surface->word_count = 3 * points;
    for (size_t w = 0; w < surface->word_count; w++) {
        surface->words[w] = sheet_word(within(generator, size));
    }
    generate_lend_exactly(surface);
}

/* ---- Cones ---- */

/* the most edges of a cut, which is as long as it needs to be to run further than the longest foot */
#define CUT_EDGES (4 + REFERENCE_LONGEST_LOOP / 3)

/* Puts any of the stock to its front, as many as are to be drawn. */
static void draw(struct generator *generator, uint16_t *stock, size_t points, size_t drawn)
{
    for (size_t d = 0; d < drawn; d++) {
        size_t other = d + generate_below(generator, points - d);
        uint16_t kept = stock[d];
        stock[d] = stock[other];
        stock[other] = kept;
    }
}

/* Whether the surface has an edge of the ring already. */
static int has_edge(const struct generated_surface *surface, const uint16_t *ring, size_t length)
{
    for (size_t r = 0; r < length; r++) {
        if (reference_find_edge(surface->corners, surface->corner_count, ring[r], ring[(r + 1) % length])
            != REFERENCE_NO_EDGE) {
            return 1;
        }
    }
    return 0;
}

/* Points from one end of the plate to the other and back: no edge runs further. */
static void place_far(struct generated_surface *surface, const uint16_t *frame, size_t edges)
{
    for (size_t f = 0; f < edges; f++) {
        int32_t end = f % 2 == 0 ? reference_greatest(surface->pitch) : -reference_greatest(surface->pitch);
        place_point(surface, frame[f], end, end, end);
    }
}

void sheet_make_cones(struct generator *generator, struct generated_surface *surface)
{
    uint16_t stock[128];
    uint16_t frame[CUT_EDGES];
    size_t cones = 2 + generate_below(generator, 4);
    size_t points = 64 + generate_below(generator, 65);
    uint32_t pitch = generate_pitch(generator);
    size_t greatest = (size_t)reference_greatest(pitch);
    const size_t sizes[4] = {0, 2 * pitch, 500, greatest};
    size_t size = sizes[generate_below(generator, 4)];
    for (size_t p = 0; p < points; p++) {
        stock[p] = (uint16_t)p;
    }
    surface->pitch = pitch;
    surface->corner_count = 0;
    place_points(generator, surface, points + CUT_EDGES * cones, size);
    for (size_t cone = 0; cone < cones; cone++) {
        size_t length = 4 + generate_below(generator, REFERENCE_LONGEST_LOOP - 3);
        size_t edges = size < greatest ? 3 : 4 + length / 3;
        for (size_t tries = 0; tries == 0 || (tries < 5 && has_edge(surface, stock, length)); tries++) {
            draw(generator, stock, points, length);
        }
        for (size_t f = 0; f < CUT_EDGES; f++) {
            frame[f] = (uint16_t)(points + CUT_EDGES * cone + f);
        }
        if (generate_below(generator, 6) == 0 || has_edge(surface, stock, length)) {
            sheet_add_cone(surface, stock, length, frame[0]);
            continue;
        }
        sheet_add_collar(surface, stock, length, frame, edges);
        if (generate_below(generator, 6) != 0) {
            place_far(surface, frame, edges);
        }
    }
    generate_lend_exactly(surface);
}

/* ---- Coasts ---- */

/* A sheet of so many squares; which of them are left out as one large hole; and once in how often a triangle is, 0 for never. */
struct squares {
    size_t across, down;
    size_t left, top, right, bottom;
    size_t times;
};

/* Single triangles over both diagonals of a square that is left out. */
static void shut_square(struct generated_surface *surface, const size_t *square, size_t *points)
{
    sheet_add_triangle(surface, square[0], square[2], *points);
    sheet_add_triangle(surface, square[1], square[3], *points + 1);
    *points += 2;
}

/* Puts the squares between points that are numbered row by row from the first on. */
static void add_squares(struct generator *generator, struct generated_surface *surface, const struct squares *s, size_t first, size_t *points)
{
    for (size_t q = 0; q < s->across * s->down; q++) {
        size_t row = q / s->across;
        size_t column = q % s->across;
        size_t corner = first + row * (s->across + 1) + column;
        const size_t square[4] = {corner, corner + 1, corner + s->across + 2, corner + s->across + 1};
        if (row >= s->top && row < s->bottom && column >= s->left && column < s->right) {
            continue;
        }
        if (s->times > 0 && generate_below(generator, 8 * s->times) == 0 && *points + 2 <= REFERENCE_MOST_POINTS) {
            shut_square(surface, square, points);
            continue;
        }
        for (size_t half = 0; half < 2; half++) {
            if (s->times == 0 || generate_below(generator, s->times) > 0) {
                sheet_add_triangle(surface, square[0], square[half + 1], square[half + 2]);
            }
        }
    }
}

/* Where the points lie: row by row, in a cube where many lie in one place, or anywhere. */
static void place_squares(struct generator *generator, struct generated_surface *surface, const struct squares *s, size_t first, size_t last)
{
    int32_t pitch = (int32_t)surface->pitch;
    size_t mood = generate_below(generator, 3);
    int32_t away = within(generator, 20);
    for (size_t p = first; p < last; p++) {
        size_t at = p - first;
        if (mood == 0) {
            place_point(surface, p, pitch * (10 * (int32_t)(at % (s->across + 1)) + away), pitch * 10 * (int32_t)(at / (s->across + 1)), 0);
        } else {
            size_t size = mood == 1 ? 1 : (size_t)reference_greatest(surface->pitch) / surface->pitch;
            place_point(surface, p, pitch * within(generator, size), pitch * within(generator, size), pitch * within(generator, size));
        }
    }
}

/* Squares as small as can be, of a middle size, or many with a hole of up to 68 edges. */
static struct squares choose_squares(struct generator *generator)
{
    struct squares s = {1 + generate_below(generator, 6), 1 + generate_below(generator, 6), 0, 0, 0, 0, 3 + generate_below(generator, 30)};
    size_t choice = generate_below(generator, 24);
    if (choice == 0) {
        s = (struct squares){19, 19, 1, 1, 16 + generate_below(generator, 3), 18, 30 + generate_below(generator, 200)};
    } else if (choice == 1) {
        s.across = 10 + generate_below(generator, 9);
        s.down = 10 + generate_below(generator, 9);
    } else if (choice < 8 && s.across > 2 && s.down > 2) {
        s.left = 1;
        s.top = 1;
        s.right = s.across - 1;
        s.bottom = s.down - 1;
        s.times *= 2;
    } else if (choice == 8) {
        s.times = 0;
    }
    return s;
}

/* A sheet of squares, if there is room for it. */
static void add_coast(struct generator *generator, struct generated_surface *surface, size_t *points)
{
    struct squares s = choose_squares(generator);
    size_t first = *points;
    size_t last = first + (s.across + 1) * (s.down + 1);
    if (surface->corner_count + 6 * s.across * s.down > REFERENCE_MOST_CORNERS || last > REFERENCE_MOST_POINTS) {
        return;
    }
    *points = last;
    add_squares(generator, surface, &s, first, points);
    place_squares(generator, surface, &s, first, *points);
}

/* A single triangle, two that lie on each other, or a tetrahedron. */
static void add_islet(struct generator *generator, struct generated_surface *surface, size_t *points)
{
    size_t first = *points;
    size_t choice = generate_below(generator, 3);
    if (surface->corner_count + 12 > REFERENCE_MOST_CORNERS || first + 4 > REFERENCE_MOST_POINTS) {
        return;
    }
    *points += choice == 2 ? 4 : 3;
    sheet_add_triangle(surface, first, first + 1, first + 2);
    if (choice == 1) {
        sheet_add_triangle(surface, first, first + 2, first + 1);
    }
    for (size_t side = 0; choice == 2 && side < 3; side++) {
        sheet_add_triangle(surface, first + (side + 1) % 3, first + side, first + 3);
    }
}

/* One of the points from the first on becomes one of those before it: what is new touches what was there in that point alone. */
static void hang(struct generator *generator, struct generated_surface *surface, size_t corner, size_t first, size_t points)
{
    if (first == 0 || first == points) {
        return;
    }
    size_t gone = first + generate_below(generator, points - first);
    size_t kept = generate_below(generator, first);
    for (size_t c = corner; c < surface->corner_count; c++) {
        if (surface->corners[c] == gone) {
            surface->corners[c] = (uint16_t)kept;
        }
    }
}

/* Whether a triangle has both points. */
static int has_both(const struct generated_surface *surface, size_t a, size_t b)
{
    for (size_t t = 0; t < surface->corner_count / 3; t++) {
        const uint16_t *corners = surface->corners + 3 * t;
        if ((corners[0] == a || corners[1] == a || corners[2] == a) && (corners[0] == b || corners[1] == b || corners[2] == b)) {
            return 1;
        }
    }
    return 0;
}

/* Two points become one, unless they are joined by an edge, or both to a third point: then a half-edge could be there twice. */
static void join(struct generated_surface *surface, size_t kept, size_t gone)
{
    if (kept == gone || has_both(surface, kept, gone)) {
        return;
    }
    for (size_t c = 0; c < surface->corner_count; c++) {
        const uint16_t *corners = surface->corners + c - c % 3;
        if (surface->corners[c] != gone) {
            continue;
        }
        for (size_t other = 0; other < 3; other++) {
            if (corners[other] != gone && has_both(surface, kept, corners[other])) {
                return;
            }
        }
    }
    for (size_t c = 0; c < surface->corner_count; c++) {
        if (surface->corners[c] == gone) {
            surface->corners[c] = (uint16_t)kept;
        }
    }
}

/* A few points become one with others, of the same piece or of another. */
static void join_some(struct generator *generator, struct generated_surface *surface, size_t points)
{
    for (size_t joins = generate_below(generator, 6); joins > 0 && points > 0; joins--) {
        size_t kept = generate_below(generator, points);
        join(surface, kept, generate_below(generator, points));
    }
}

void sheet_make_coasts(struct generator *generator, struct generated_surface *surface)
{
    size_t parts = 1 + generate_below(generator, 6);
    size_t points = 0;
    surface->pitch = generate_pitch(generator);
    surface->corner_count = 0;
    place_points(generator, surface, REFERENCE_MOST_POINTS, 2 * surface->pitch);
    for (size_t part = 0; part < parts; part++) {
        size_t first = points;
        size_t corner = surface->corner_count;
        if (generate_below(generator, 3) == 0) {
            add_islet(generator, surface, &points);
        } else {
            add_coast(generator, surface, &points);
        }
        if (generate_below(generator, 3) > 0) {
            hang(generator, surface, corner, first, points);
        }
    }
    join_some(generator, surface, points);
    if (generate_below(generator, 2) == 0) {
        generate_shuffle_triangles(generator, surface->corners, surface->corner_count);
    }
    surface->word_count = 3 * points;
    generate_lend_exactly(surface);
}

/* ---- Full sheets ---- */

/* A torus of 16 by 32 split squares, of which every third, fifth or other triangle is left out. */
static void make_torus(struct generated_surface *surface, size_t every)
{
    for (size_t q = 0; q < 512; q++) {
        size_t right = q - q % 32 + (q + 1) % 32;
        size_t down = (q + 32) % 512;
        size_t across = (right + 32) % 512;
        if ((2 * q + 1) % every != 0) {
            sheet_add_triangle(surface, q, right, across);
        }
        if ((2 * q + 2) % every != 0) {
            sheet_add_triangle(surface, q, across, down);
        }
    }
}

/* Sixteen cones with rims of 64 edges over points of which each rim begins a step after the one before. */
static void make_rims(struct generated_surface *surface, size_t step)
{
    uint16_t rim[64];
    for (size_t cone = 0; cone < 16; cone++) {
        for (size_t r = 0; r < 64; r++) {
            rim[r] = (uint16_t)((step * cone + (2 * cone + 1) * r % 64) % 1008);
        }
        sheet_add_cone(surface, rim, 64, (uint16_t)(1008 + cone));
    }
}

/* 1,022 triangles: each on the edge after the one before and one of two hubs, or at one hub, or in a strip. */
static void make_row(struct generated_surface *surface, size_t sheet)
{
    for (size_t t = 0; t < 1022; t++) {
        switch (sheet) {
        case 3: sheet_add_triangle(surface, t, (t + 1) % 1022, 1022 + t % 2); break;
        case 4: sheet_add_triangle(surface, 0, t + 1, t + 2); break;
        default: sheet_add_triangle(surface, t + t % 2, t + 1 - t % 2, t + 2); break;
        }
    }
}

/* The points of a hole: anywhere in a small cube somewhere on the plate. It is as small at every pitch, since a hole of many edges must
   not run further than its rim, and wide enough for the coarsest one. */
static void place_hole(struct generator *generator, struct generated_surface *surface,
                       const uint16_t *ring, size_t length)
{
    int32_t middle[3];
    for (size_t axis = 0; axis < 3; axis++) {
        middle[axis] = within(generator, (size_t)reference_greatest(surface->pitch) - 500);
    }
    for (size_t r = 0; r < length; r++) {
        int32_t at[3];
        for (size_t axis = 0; axis < 3; axis++) {
            at[axis] = middle[axis] + within(generator, 500);
        }
        place_point(surface, ring[r], at[0], at[1], at[2]);
    }
}

/* The points of a hole that only a fan about the vertex at that place closes best: all others lie on a
   curve that bends towards it. The nearer the place is to the end, the deeper its patch is listed. */
static void place_fan(struct generated_surface *surface, const uint16_t *ring, size_t length, size_t apex)
{
    int32_t pitch = (int32_t)surface->pitch;
    for (size_t r = 0; r < length; r++) {
        int32_t x = (int32_t)((r + length - apex) % length);
        place_point(surface, ring[r], pitch * x, pitch * (1000 + (x - 32) * (x - 32)), 0);
    }
    place_point(surface, ring[apex], pitch * 32, 0, 0);
}

/* Single triangles over chance diagonals of a hole, which bar them; each is an island of its own. */
static void add_flaps(struct generator *generator, struct generated_surface *surface,
                      const uint16_t *ring, size_t length, size_t flaps, size_t *points)
{
    while (flaps > 0) {
        uint16_t a = ring[generate_below(generator, length)];
        uint16_t b = ring[generate_below(generator, length)];
        if (a != b && reference_find_edge(surface->corners, surface->corner_count, a, b) == REFERENCE_NO_EDGE
            && reference_find_edge(surface->corners, surface->corner_count, b, a) == REFERENCE_NO_EDGE) {
            sheet_add_triangle(surface, a, b, *points);
            *points += 1;
            flaps -= 1;
        }
    }
}

/* Single triangles over all diagonals of a hole's first and last vertex: the edge between these two then lies in no allowed cover, though
   most stretches have one. */
static void shut_hole(struct generated_surface *surface, const uint16_t *ring, size_t length, size_t *points)
{
    for (size_t r = 1; r < length - 1; r++) {
        if (r > 1) {
            sheet_add_triangle(surface, ring[0], ring[r], *points);
            *points += 1;
        }
        if (r < length - 2) {
            sheet_add_triangle(surface, ring[length - 1], ring[r], *points);
            *points += 1;
        }
    }
}

/* The ring of a plate's next hole, in a collar with the frame. */
static void open_hole(struct generated_surface *surface, uint16_t *ring, size_t length, const uint16_t *frame, size_t *points)
{
    for (size_t r = 0; r < length; r++) {
        ring[r] = (uint16_t)*points;
        *points += 1;
    }
    sheet_add_collar(surface, ring, length, frame, 3);
}

/* The next frame has the newest point's edge, in turn the one to it and the one from it, the other way round. */
static void move_frame(uint16_t *frame, size_t hole, size_t *points)
{
    frame[hole % 2 == 0 ? 1 : 0] = frame[2];
    frame[2] = (uint16_t)*points;
    *points += 1;
}

/* One plate with as many holes of that length as fit: each lies in a collar with a frame of three edges, of which one is an
   edge of the frame before. The rim is what is left of the frames. */
static void make_plate(struct generator *generator, struct generated_surface *surface, size_t length, size_t holes,
                       int fans, size_t flaps, int shut)
{
    uint16_t ring[REFERENCE_LONGEST_LOOP];
    uint16_t frame[3] = {0, 1, 2};
    size_t points = 3;
    for (size_t hole = 0; hole < holes; hole++) {
        open_hole(surface, ring, length, frame, &points);
        if (fans) {
            place_fan(surface, ring, length, length - 1 - 4 * hole % length);
        } else {
            place_hole(generator, surface, ring, length);
        }
        add_flaps(generator, surface, ring, length, flaps, &points);
        if (shut) {
            shut_hole(surface, ring, length, &points);
        }
        move_frame(frame, hole, &points);
    }
}

void sheet_make_pair(struct generator *generator, struct generated_surface *surface, size_t first, size_t second, int shut, uint32_t pitch)
{
    uint16_t ring[REFERENCE_LONGEST_LOOP + 1];
    uint16_t frame[3] = {0, 1, 2};
    size_t points = 3;
    surface->pitch = pitch;
    surface->corner_count = 0;
    place_points(generator, surface, REFERENCE_MOST_POINTS, (size_t)reference_greatest(pitch));
    for (size_t hole = 0; hole < 2; hole++) {
        size_t length = hole == 0 ? first : second;
        open_hole(surface, ring, length, frame, &points);
        place_hole(generator, surface, ring, length);
        if (shut && length > 3) {
            shut_hole(surface, ring, length, &points);
        }
        move_frame(frame, hole, &points);
    }
    surface->word_count = 3 * points;
    generate_lend_exactly(surface);
}

/* A torus of so many points in a row that closes: each has an edge to the next, to the one a stride on, and to the one after that,
   and so two triangles. Cut out are those about every seventh point, which makes holes of six edges, or three triangles side by side at
   every fifth, which makes holes of five. By the strides 2 mod 7 and 2 mod 5 no two holes share a point. One hole is the rim: that with
   the greatest run. */
static void make_pierced(struct generated_surface *surface, size_t points, size_t stride, size_t every)
{
    for (size_t v = 0; v < points; v++) {
        size_t next = (v + 1) % points;
        size_t beyond = (v + stride) % points;
        size_t across = (v + stride + 1) % points;
        int star = every == 7;
        if (star ? v % 7 != 0 && next % 7 != 0 && across % 7 != 0 : v % 5 != 0) {
            sheet_add_triangle(surface, v, next, across);
        }
        if (star ? v % 7 != 0 && across % 7 != 0 && beyond % 7 != 0 : v % 5 > 1) {
            sheet_add_triangle(surface, v, across, beyond);
        }
    }
}

/* A cone whose tip is cut off: a hole of that length, and a foot of as many edges that runs further. */
static void make_cut_cone(struct generator *generator, struct generated_surface *surface, size_t length)
{
    uint16_t ring[REFERENCE_LONGEST_LOOP];
    uint16_t foot[REFERENCE_LONGEST_LOOP];
    for (size_t r = 0; r < length; r++) {
        ring[r] = (uint16_t)r;
        foot[r] = (uint16_t)(length + r);
    }
    sheet_add_collar(surface, ring, length, foot, length);
    place_hole(generator, surface, ring, length);
    place_far(surface, foot, length);
}

/* The points of a sheet of squares, ten pitches apart, and as many as it has. */
static void place_rows(struct generated_surface *surface, size_t across, size_t down)
{
    int32_t step = 10 * (int32_t)surface->pitch;
    surface->word_count = 3 * (across + 1) * (down + 1);
    for (size_t p = 0; p < surface->word_count / 3; p++) {
        place_point(surface, p, step * (int32_t)(p % (across + 1)), step * (int32_t)(p / (across + 1)), 0);
    }
}

/* The two triangles of a square, unless they are left out: the one above its diagonal and the one below. */
static void add_square(struct generated_surface *surface, size_t across, size_t row, size_t column, int no_upper, int no_lower)
{
    size_t corner = row * (across + 1) + column;
    if (!no_upper) {
        sheet_add_triangle(surface, corner, corner + 1, corner + across + 2);
    }
    if (!no_lower) {
        sheet_add_triangle(surface, corner, corner + across + 2, corner + across + 1);
    }
}

/* Moves the triangles of the second half to the front. */
static void turn_halves(struct generated_surface *surface)
{
    uint16_t kept[REFERENCE_MOST_CORNERS];
    size_t half = surface->corner_count / 6 * 3;
    memcpy(kept, surface->corners, surface->corner_count * sizeof *kept);
    for (size_t c = 0; c < surface->corner_count; c++) {
        surface->corners[c] = kept[(c + half) % surface->corner_count];
    }
}

/* A sheet of squares with holes of three edges, no two of which touch: along its upper and its left side those that touch the rim in one
   vertex, 17 tide pools, and inside 60 lakes. Of these some are listed before the tide pools and some behind. */
static void make_holed(struct generated_surface *surface)
{
    size_t across = 22;
    size_t down = 23;
    for (size_t q = 0; q < across * down; q++) {
        size_t row = q / across;
        size_t column = q % across;
        int within_rows = row % 2 == 0 && row > 0 && row < down - 1;
        int within_columns = column % 3 == 1 && column < across - 1;
        add_square(surface, across, row, column, column == 0 && within_rows,
                   within_columns && (row == 0 || (within_rows && column > 1)));
    }
    turn_halves(surface);
    place_rows(surface, across, down);
}

/* A strip of two rows of squares with 127 tide pools of three edges along its two sides, and no lake. */
static void make_holed_strip(struct generated_surface *surface)
{
    size_t across = 256;
    for (size_t q = 0; q < 2 * across; q++) {
        size_t row = q / across;
        size_t column = q % across;
        add_square(surface, across, row, column, row == 1 && column % 4 == 3 && column < across - 1, row == 0 && column % 4 == 1);
    }
    place_rows(surface, across, 2);
}

/* ---- Sheets by their number ---- */

/* After so many full sheets come small ones, a plate and a cut cone with one hole of each length from SMALLEST on, and after these full ones
   with tide pools. */
#define FULL_SHEETS 19
#define SMALLEST 4
#define POOL_SHEETS 29

const char *sheet_make(struct generator *generator, size_t sheet, struct generated_surface *surface, uint32_t pitch)
{
    static const char *const names[] = {"closed", "small holes", "large holes", "triangles at two hubs",
                                        "fan", "strip", "rims that share a point",
                                        "rims that share half", "rims that share all",
                                        "plate with holes of 3", "plate with holes of 4", "plate with holes of 10",
                                        "plate with holes of 36", "plate with holes of 64",
                                        "plate with barred holes of 64", "plate with holes closed by fans",
                                        "146 holes of 5", "128 holes of 6", "plate with shut holes of 64",
                                        "plate with a hole of 4", "cone with a hole of 4",
                                        "plate with a hole of 5", "cone with a hole of 5",
                                        "plate with a hole of 6", "cone with a hole of 6",
                                        "plate with a hole of 7", "cone with a hole of 7",
                                        "plate with a hole of 8", "cone with a hole of 8",
                                        "sheet with tide pools and lakes", "strip with tide pools"};
    if (sheet >= sizeof names / sizeof names[0]) {
        return 0;
    }
    surface->pitch = pitch;
    if (sheet >= POOL_SHEETS) {
        surface->corner_count = 0;
        if (sheet == POOL_SHEETS) {
            make_holed(surface);
        } else {
            make_holed_strip(surface);
        }
        generate_lend_exactly(surface);
        return names[sheet];
    }
    if (sheet >= FULL_SHEETS) {
        size_t length = SMALLEST + (sheet - FULL_SHEETS) / 2;
        int cone = (sheet - FULL_SHEETS) % 2 == 1;
        surface->corner_count = 0;
        place_points(generator, surface, cone ? 2 * length : length + 3, (size_t)reference_greatest(pitch));
        if (cone) {
            make_cut_cone(generator, surface, length);
        } else {
            make_plate(generator, surface, length, 1, 0, 0, 0);
        }
        generate_lend_exactly(surface);
        return names[sheet];
    }
    surface->corner_count = 0;
    place_points(generator, surface, REFERENCE_MOST_POINTS, (size_t)reference_greatest(pitch));
    switch (sheet) {
    case 0: make_torus(surface, 1025); break;
    case 1: make_torus(surface, 5); break;
    case 2: make_torus(surface, 3); break;
    case 3:
    case 4:
    case 5: make_row(surface, sheet); break;
    case 6: make_rims(surface, 63); break;
    case 7: make_rims(surface, 32); break;
    case 8: make_rims(surface, 0); break;
    case 9: make_plate(generator, surface, 3, 170, 0, 0, 0); break;
    case 10: make_plate(generator, surface, 4, 146, 0, 0, 0); break;
    case 11: make_plate(generator, surface, 10, 78, 0, 0, 0); break;
    case 12: make_plate(generator, surface, 36, 26, 0, 0, 0); break;
    case 13: make_plate(generator, surface, 64, 15, 0, 0, 0); break;
    case 14: make_plate(generator, surface, 64, 8, 0, 60, 0); break;
    case 15: make_plate(generator, surface, 64, 15, 1, 0, 0); break;
    case 16: make_pierced(surface, 730, 27, 5); break;
    case 17: make_pierced(surface, 896, 30, 7); break;
    default: make_plate(generator, surface, 64, 5, 0, 0, 1); break;
    }
    generate_lend_exactly(surface);
    return names[sheet];
}
