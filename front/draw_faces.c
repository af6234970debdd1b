#include "draw_faces.h"

#include <stdlib.h>
#include <string.h>

#include "output.h"

enum { FACES = WAZELPUNT_TRIANGLES + WAZELPUNT_SET_TRIANGLES };

/* A triangle of the sheet or of a patch. Its area is twice that in the view, positive where the front side is seen; its box is that in the
   view, with `top` for the greatest `up`. */
struct face {
    const uint16_t *corners;
    bool patch;
    unsigned shade;
    size_t number;
    int64_t area, nearness;
    struct box box;
};

static struct face faces[FACES];
static size_t face_count;

/* Twice the area of a triangle in the view, positive where its corners go round to the left. */
static int64_t turn(struct spot a, struct spot b, struct spot c)
{
    return (b.x - a.x) * (c.up - a.up) - (b.up - a.up) * (c.x - a.x);
}

/* ---- What each is ---- */

/* How light the seen side is, by its slope: from 0, turned away from a light at the left above the shoulder, to SHADES - 1. */
static unsigned shade_of(const uint16_t *corners, bool back)
{
    const int64_t *a = solid[corners[0]], *b = solid[corners[1]], *c = solid[corners[2]];
    int64_t p[3], q[3], across[3], most = 0;
    for (size_t i = 0; i < 3; i++) {
        p[i] = b[i] - a[i];
        q[i] = c[i] - a[i];
    }
    for (size_t i = 0; i < 3; i++) {
        across[i] = p[(i + 1) % 3] * q[(i + 2) % 3] - p[(i + 2) % 3] * q[(i + 1) % 3];
        most = greater(most, size_of(across[i]));
    }
    for (; most >= 1 << 20; most /= 2) {
        for (size_t i = 0; i < 3; i++) {
            across[i] /= 2;
        }
    }
    /* the light comes from -4, -4, 7, which is 9 long */
    int64_t length = 9 * square_root(across[0] * across[0] + across[1] * across[1] + across[2] * across[2]);
    int64_t lit = (-4 * across[0] - 4 * across[1] + 7 * across[2]) * (back ? -1 : 1);
    return length == 0 ? SHADES / 2 : (unsigned)lesser(greater((lit + length) * SHADES / (2 * length), 0), SHADES - 1);
}

static void add_face(const uint16_t *corners, bool patch, bool plan)
{
    struct spot a = spots[corners[0]], b = spots[corners[1]], c = spots[corners[2]];
    struct face *face = &faces[face_count];
    face->corners = corners;
    face->patch = patch;
    face->number = face_count++;
    face->area = turn(a, b, c);
    face->shade = shade_of(corners, face->area < 0);
    face->box.left = lesser(a.x, lesser(b.x, c.x));
    face->box.right = greater(a.x, greater(b.x, c.x));
    face->box.bottom = lesser(a.up, lesser(b.up, c.up));
    face->box.top = greater(a.up, greater(b.up, c.up));
    face->nearness = 0;
    for (size_t i = 0; i < 3; i++) {
        const int64_t *at = solid[corners[i]];
        /* obliquely one looks from 3, -10, 5 */
        face->nearness += plan ? at[2] : 3 * at[0] - 10 * at[1] + 5 * at[2];
    }
}

static void add_faces(const struct drawn *sheet, bool plan)
{
    face_count = 0;
    for (size_t i = 0; i < sheet->triangles; i++) {
        add_face(sheet->corners + 3 * i, false, plan);
    }
    for (size_t i = 0; i + 2 < sheet->laid; i += 3) {
        add_face(sheet->patches + i, true, plan);
    }
}

/* ---- Which is painted first ---- */

/* Whether two boxes of the view have more than a side in common. */
static bool faces_meet(const struct box *a, const struct box *b)
{
    return a->left < b->right && b->left < a->right && a->bottom < b->top && b->bottom < a->top;
}

/* How much nearer the plane of a face is than a spot, times the size of the face's area. */
static int64_t nearer_by(const struct face *face, struct spot at)
{
    struct spot a = spots[face->corners[0]], b = spots[face->corners[1]], c = spots[face->corners[2]];
    int64_t sum = turn(b, c, at) * (a.near - at.near) + turn(c, a, at) * (b.near - at.near) + turn(a, b, at) * (c.near - at.near);
    return face->area < 0 ? -sum : sum;
}

static bool covers(const struct face *face, struct spot at)
{
    struct spot a = spots[face->corners[0]], b = spots[face->corners[1]], c = spots[face->corners[2]];
    int side = sign_of(face->area);
    return side != 0 && sign_of(turn(b, c, at)) * side >= 0 && sign_of(turn(c, a, at)) * side >= 0 && sign_of(turn(a, b, at)) * side >= 0;
}

/* 1 where the first edge passes before the second one, -1 where it passes behind it, 0 where they do not cross. */
static int passes_before(struct spot p, struct spot p_end, struct spot q, struct spot q_end)
{
    struct spot zero = {0, 0, 0}, r = {p_end.x - p.x, p_end.up - p.up, p_end.near - p.near};
    struct spot s = {q_end.x - q.x, q_end.up - q.up, q_end.near - q.near}, gap = {q.x - p.x, q.up - p.up, q.near - p.near};
    int64_t whole = turn(zero, r, s), on_p = turn(zero, gap, s), on_q = turn(zero, gap, r);
    if (whole < 0) {
        whole = -whole, on_p = -on_p, on_q = -on_q;
    }
    if (on_p <= 0 || on_p >= whole || on_q <= 0 || on_q >= whole) {
        return 0;
    }
    return sign_of(on_p * r.near - on_q * s.near - whole * gap.near);
}

/* Positive where the first face lies before the second one, negative where it lies behind it, 0 where neither does. */
static int lies_before(const struct face *a, const struct face *b)
{
    int votes = 0;
    for (size_t i = 0; i < 3; i++) {
        struct spot of_a = spots[a->corners[i]], of_b = spots[b->corners[i]];
        votes += covers(a, of_b) ? sign_of(nearer_by(a, of_b)) : 0;
        votes -= covers(b, of_a) ? sign_of(nearer_by(b, of_a)) : 0;
        for (size_t j = 0; j < 3; j++) {
            votes += passes_before(of_a, spots[a->corners[(i + 1) % 3]], spots[b->corners[j]], spots[b->corners[(j + 1) % 3]]);
        }
    }
    return votes;
}

static int by_nearness(const void *first, const void *second)
{
    const struct face *a = first, *b = second;
    int order = sign_of(a->nearness - b->nearness);
    return order != 0 ? order : a->number < b->number ? -1 : 1;
}

/* Of each face the bits of those that are painted after it, and how many are still to be painted before it. */
static uint64_t after[FACES][FACES / 64];
static size_t waits_for[FACES];
static bool painted[FACES];

static void set_order(void)
{
    qsort(faces, face_count, sizeof faces[0], by_nearness);
    for (size_t i = 0; i < face_count; i++) {
        memset(after[i], 0, sizeof after[i]);
        waits_for[i] = 0;
        painted[i] = false;
    }
    for (size_t i = 0; i < face_count; i++) {
        for (size_t j = i + 1; j < face_count; j++) {
            int before = faces_meet(&faces[i].box, &faces[j].box) ? lies_before(&faces[i], &faces[j]) : 0;
            if (before != 0) {
                size_t first = before < 0 ? i : j, second = before < 0 ? j : i;
                after[first][second / 64] |= (uint64_t)1 << second % 64;
                waits_for[second]++;
            }
        }
    }
}

/* The face to paint next: the farthest that waits for none, or the farthest at all where they wait for each other. */
static size_t next_face(void)
{
    size_t farthest = FACES;
    for (size_t i = 0; i < face_count; i++) {
        if (!painted[i] && waits_for[i] == 0) {
            return i;
        }
        if (!painted[i] && farthest == FACES) {
            farthest = i;
        }
    }
    return farthest;
}

static void put_face(const struct face *face)
{
    struct dot a = dots[face->corners[0]], b = dots[face->corners[1]], c = dots[face->corners[2]];
    output("<path class=\"%c%u\" d=\"", face->patch ? 'p' : face->area < 0 ? 'b' : 'f', face->shade);
    put_move(a);
    put_line(a, b);
    put_line(b, c);
    output("z\"/>\n");
}

void put_faces(const struct drawn *sheet, bool plan)
{
    add_faces(sheet, plan);
    set_order();
    output("<g class=\"faces\">\n");
    for (size_t i = 0; i < face_count; i++) {
        size_t next = next_face();
        painted[next] = true;
        for (size_t j = 0; j < face_count; j++) {
            waits_for[j] -= !painted[j] && (after[next][j / 64] >> j % 64 & 1) != 0;
        }
        put_face(&faces[next]);
    }
    output("</g>\n");
}

/* ---- What is hidden ---- */

/* The spot of a face with these sixths of its corners. */
static struct spot spot_on(const struct face *face, const int64_t sixths[3])
{
    struct spot sum = {0, 0, 0};
    for (size_t i = 0; i < 3; i++) {
        struct spot corner = spots[face->corners[i]];
        sum.x += sixths[i] * corner.x, sum.up += sixths[i] * corner.up, sum.near += sixths[i] * corner.near;
    }
    return (struct spot){sum.x / 6, sum.up / 6, sum.near / 6};
}

/* Whether a spot lies behind another face than this one. */
static bool is_behind(const struct face *face, struct spot at)
{
    for (size_t i = 0; i < face_count; i++) {
        if (&faces[i] != face && covers(&faces[i], at) && nearer_by(&faces[i], at) > 0) {
            return true;
        }
    }
    return false;
}

bool is_point_hidden(uint16_t point)
{
    return is_behind(NULL, spots[point]);
}

/* Whether a face is seen at one of ten spots, spread over it. */
static bool is_seen(const struct face *face)
{
    for (int64_t i = 1; i < 5; i++) {
        for (int64_t j = 1; i + j < 6; j++) {
            if (!is_behind(face, spot_on(face, (int64_t[3]){i, j, 6 - i - j}))) {
                return true;
            }
        }
    }
    return false;
}

bool is_back_seen(void)
{
    size_t i = 0;
    while (i < face_count && (faces[i].patch || faces[i].area >= 0 || !is_seen(&faces[i]))) {
        i++;
    }
    return i < face_count;
}

/* The hidden pieces of an edge, in order and apart. */
static struct piece hidden[FACES];
static size_t hidden_count;

/* Narrows a piece to where a measure is positive that has these values at the ends of the edge. */
static void narrow(struct piece *piece, int64_t first, int64_t last)
{
    for (; size_of(first) >= (int64_t)1 << 45 || size_of(last) >= (int64_t)1 << 45; last /= 2) {
        first /= 2;
    }
    if (first <= 0 && last <= 0) {
        piece->to = piece->from;
    } else if (first < 0) {
        piece->from = greater(piece->from, first * WHOLE / (first - last));
    } else if (last < 0) {
        piece->to = lesser(piece->to, first * WHOLE / (first - last));
    }
}

/* The piece of an edge that a face hides. */
static struct piece hidden_by(const struct face *face, struct spot p, struct spot q)
{
    struct piece piece = {0, WHOLE};
    int side = sign_of(face->area);
    for (size_t i = 0; i < 3 && piece.from < piece.to; i++) {
        struct spot a = spots[face->corners[i]], b = spots[face->corners[(i + 1) % 3]];
        narrow(&piece, side * turn(a, b, p), side * turn(a, b, q));
    }
    if (piece.from < piece.to) {
        narrow(&piece, nearer_by(face, p), nearer_by(face, q));
    }
    return piece;
}

/* Adds a piece to those that are there; what lies less than a pixel apart becomes one. */
static void add_hidden(struct piece piece, int64_t pixel)
{
    size_t kept = 0;
    for (size_t i = 0; i < hidden_count; i++) {
        if (hidden[i].to + pixel < piece.from || piece.to + pixel < hidden[i].from) {
            hidden[kept++] = hidden[i];
        } else {
            piece.from = lesser(piece.from, hidden[i].from);
            piece.to = greater(piece.to, hidden[i].to);
        }
    }
    size_t at = kept;
    for (; at > 0 && hidden[at - 1].from > piece.from; at--) {
        hidden[at] = hidden[at - 1];
    }
    hidden[at] = piece;
    hidden_count = kept + 1;
}

size_t find_hidden(uint16_t from, uint16_t to, const struct piece **pieces)
{
    struct spot p = spots[from], q = spots[to];
    struct box box = {lesser(p.x, q.x), greater(p.up, q.up), greater(p.x, q.x), lesser(p.up, q.up)};
    int64_t length = greater(size_of(dots[to].x - dots[from].x), size_of(dots[to].y - dots[from].y));
    int64_t pixel = lesser(10 * WHOLE / greater(length, 1), WHOLE);
    hidden_count = 0;
    for (size_t i = 0; i < face_count; i++) {
        const struct box *other = &faces[i].box;
        if (box.left <= other->right && other->left <= box.right && box.bottom <= other->top && other->bottom <= box.top) {
            struct piece piece = hidden_by(&faces[i], p, q);
            piece.from = piece.from < pixel ? 0 : piece.from;
            piece.to = piece.to > WHOLE - pixel ? WHOLE : piece.to;
            if (faces[i].area != 0 && piece.to - piece.from >= pixel) {
                add_hidden(piece, pixel);
            }
        }
    }
    *pieces = hidden;
    return hidden_count;
}
