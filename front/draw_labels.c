#include "draw_labels.h"

#include <stdio.h>
#include <string.h>

#include "draw_rings.h"
#include "draw_view.h"
#include "listing.h"
#include "output.h"

/* More loops than this are a crowd. */
enum { CROWD = 60 };

/* What each loop takes up on the paper, and the numbers that are there. */
static struct box loop_boxes[WAZELPUNT_TRIANGLES], taken[WAZELPUNT_TRIANGLES];
static size_t taken_count;

/* The diamonds of tide pools, which no label may lie on. */
static struct box diamonds[WAZELPUNT_CORNERS];
static size_t diamond_count;

/* Whether it is marked where loops begin; and if so the lines that no label may lie on: the marks, and the stems of labels. */
static bool marked;
static struct {
    struct dot from, to;
} lines[2 * WAZELPUNT_TRIANGLES];
static size_t line_count;

/* What is written at a loop, and how large it is. The patch is the loop's own, of length - 2 triangles, where the loop is patched. A flag
   has a stem, and so has a number that stands apart from its loop. */
struct label {
    const uint16_t *ring, *patch;
    size_t number, length;
    uint16_t state;
    bool flag, apart;
    char text[32];
    int64_t width, height;
};

static bool overlap(const struct box *a, const struct box *b)
{
    return a->left < b->right && b->left < a->right && a->top < b->bottom && b->top < a->bottom;
}

static struct box box_about(int64_t x, int64_t y, int64_t width, int64_t height)
{
    struct box box = {x - width / 2, y - height / 2, x - width / 2 + width, y - height / 2 + height};
    return box;
}

static void set_loop_boxes(const struct drawn *sheet)
{
    const uint16_t *ring = sheet->rings;
    for (size_t i = 0; i < sheet->loops; ring += sheet->lengths[i], i++) {
        struct box box = {INT64_MAX, INT64_MAX, INT64_MIN, INT64_MIN};
        for (size_t j = 0; j < sheet->lengths[i]; j++) {
            box.left = lesser(box.left, dots[ring[j]].x);
            box.right = greater(box.right, dots[ring[j]].x);
            box.top = lesser(box.top, dots[ring[j]].y);
            box.bottom = greater(box.bottom, dots[ring[j]].y);
        }
        loop_boxes[i] = box;
    }
}

static void set_diamonds(const struct drawn *sheet)
{
    static uint16_t points[WAZELPUNT_CORNERS];
    int64_t size = 2 * diamond_size(marked);
    diamond_count = 0;
    for (size_t i = 0; i < sheet->loops; i++) {
        size_t count = find_meetings(sheet, i, points);
        for (size_t j = 0; j < count; j++) {
            diamonds[diamond_count++] = box_about(dots[points[j]].x, dots[points[j]].y, size, size);
        }
    }
}

/* Twice the area of a triangle on the paper, with a sign. */
static int64_t turn_on_paper(struct dot a, struct dot b, int64_t x, int64_t y)
{
    return (b.x - a.x) * (y - a.y) - (b.y - a.y) * (x - a.x);
}

static bool edge_meets(struct dot a, struct dot b, const struct box *box)
{
    struct box own = {lesser(a.x, b.x) - 1, lesser(a.y, b.y) - 1, greater(a.x, b.x) + 1, greater(a.y, b.y) + 1};
    int sides = sign_of(turn_on_paper(a, b, box->left, box->top)) + sign_of(turn_on_paper(a, b, box->right, box->top)) +
                sign_of(turn_on_paper(a, b, box->left, box->bottom)) + sign_of(turn_on_paper(a, b, box->right, box->bottom));
    return overlap(&own, box) && size_of(sides) < 4;
}

static bool ring_crosses(const uint16_t *ring, size_t length, const struct box *box)
{
    for (size_t i = 0; i < length; i++) {
        if (edge_meets(dots[ring[i]], dots[ring[(i + 1) % length]], box)) {
            return true;
        }
    }
    return false;
}

/* Whether a ring runs round the middle of a box. */
static bool ring_surrounds(const uint16_t *ring, size_t length, const struct box *box)
{
    int64_t x = (box->left + box->right) / 2, y = (box->top + box->bottom) / 2;
    bool inside = false;
    for (size_t i = 0; i < length; i++) {
        struct dot a = dots[ring[i]], b = dots[ring[(i + 1) % length]];
        if ((a.y <= y) != (b.y <= y)) {
            inside ^= (turn_on_paper(a, b, x, y) > 0) == (b.y > a.y);
        }
    }
    return inside;
}

static void add_line(struct dot from, struct dot to)
{
    if (marked) {
        lines[line_count].from = from;
        lines[line_count++].to = to;
    }
}

/* Whether one of those lines goes through a box, or passes it so near. */
static bool is_on_line(const struct box *box, int64_t apart)
{
    struct box room = {box->left - apart, box->top - apart, box->right + apart, box->bottom + apart};
    for (size_t i = 0; i < line_count; i++) {
        if (edge_meets(lines[i].from, lines[i].to, &room)) {
            return true;
        }
    }
    return false;
}

/* Whether a label may stand there: within the panel, so far from all other labels, on no diamond and none of the lines, and on no loop but
   its own and rims. */
static bool is_free(const struct drawn *sheet, const struct label *label, const struct box *box, int64_t apart)
{
    struct box room = {box->left - apart, box->top - apart / 2, box->right + apart, box->bottom + apart / 2};
    if (box->left < 60 || box->right > 10 * PANEL_WIDTH - 60 || box->top < AREA_TOP - 120 || box->bottom > AREA_BOTTOM + 120) {
        return false;
    }
    for (size_t i = 0; i < taken_count; i++) {
        if (overlap(&room, &taken[i])) {
            return false;
        }
    }
    for (size_t i = 0; i < diamond_count; i++) {
        if (overlap(box, &diamonds[i])) {
            return false;
        }
    }
    if (is_on_line(box, label->flag ? 0 : 10)) {
        return false;
    }
    const uint16_t *ring = sheet->rings;
    for (size_t i = 0; i < sheet->loops; ring += sheet->lengths[i], i++) {
        bool harmless = i == label->number || sheet->states[i] == WAZELPUNT_RIM || !overlap(box, &loop_boxes[i]);
        if (!harmless && (ring_crosses(ring, sheet->lengths[i], box) || ring_surrounds(ring, sheet->lengths[i], box))) {
            return false;
        }
    }
    return true;
}

/* Looks for a place beside a box, `gap` away from it: below, to the right, left, above, then at its corners. */
static bool find_beside(const struct drawn *sheet, const struct label *label, const struct box *own, int64_t gap, struct box *box)
{
    static const int ways[8][2] = {{0, 1}, {1, 0}, {-1, 0}, {0, -1}, {1, 1}, {-1, 1}, {1, -1}, {-1, -1}};
    for (size_t i = 0; i < 8; i++) {
        int64_t across = (own->right - own->left + label->width) / 2 + gap, down = (own->bottom - own->top + label->height) / 2 + gap;
        *box = box_about((own->left + own->right) / 2 + ways[i][0] * across, (own->top + own->bottom) / 2 + ways[i][1] * down, label->width,
                         label->height);
        if (is_free(sheet, label, box, !label->flag && !marked && sheet->loops > CROWD ? 400 : 20)) {
            return true;
        }
    }
    return false;
}

/* The lowest vertex of a ring on the paper, the leftmost of several, with its diamond, if it has one. */
static struct box lowest_of(const struct label *label)
{
    struct dot low = dots[label->ring[0]];
    for (size_t i = 1; i < label->length; i++) {
        struct dot dot = dots[label->ring[i]];
        if (dot.y > low.y || (dot.y == low.y && dot.x < low.x)) {
            low = dot;
        }
    }
    struct box box = {low.x, low.y, low.x, low.y};
    for (size_t i = 0; i < diamond_count; i++) {
        bool is_there = diamonds[i].left + diamonds[i].right == 2 * low.x && diamonds[i].top + diamonds[i].bottom == 2 * low.y;
        box = is_there ? diamonds[i] : box;
    }
    return box;
}

/* The middle of the largest triangle of a loop's patch on the paper: it lies within the loop, as the middle of the loop's box need not. */
static struct dot patch_middle(const struct label *label)
{
    struct dot middle = dots[label->ring[0]];
    int64_t largest = 0;
    for (size_t i = 0; i + 2 < label->length; i++) {
        struct dot a = dots[label->patch[3 * i]], b = dots[label->patch[3 * i + 1]], c = dots[label->patch[3 * i + 2]];
        int64_t area = size_of(turn_on_paper(a, b, c.x, c.y));
        if (area > largest) {
            largest = area;
            middle = (struct dot){(a.x + b.x + c.x) / 3, (a.y + b.y + c.y) / 3};
        }
    }
    return middle;
}

/* Looks for a place within a loop: in the middle of its box, where the ring leaves room; or on its patch, where the loop is as large as the
   label. */
static bool find_within(const struct drawn *sheet, const struct label *label, struct box *box)
{
    const struct box *own = &loop_boxes[label->number];
    int64_t x = (own->left + own->right) / 2, y = (own->top + own->bottom) / 2, margin = label->flag ? 160 : 0;
    struct box room = box_about(x, y, label->width + margin, label->height + margin);
    *box = box_about(x, y, label->width, label->height);
    bool inside = !ring_crosses(label->ring, label->length, &room) && ring_surrounds(label->ring, label->length, box);
    if (inside && is_free(sheet, label, box, 20)) {
        return true;
    }
    if (label->state != WAZELPUNT_PATCHED || own->right - own->left < label->width || own->bottom - own->top < label->height) {
        return false;
    }
    struct dot middle = patch_middle(label);
    *box = box_about(middle.x, middle.y, label->width, label->height);
    return is_free(sheet, label, box, 20);
}

/* Looks for a place at a rim: beside where it begins, if that is marked, or at its lowest vertex. */
static bool find_at_rim(const struct drawn *sheet, const struct label *label, struct box *box)
{
    struct mark mark = mark_of(sheet, label->number);
    struct box middle = box_about((mark.from.x + mark.to.x) / 2, (mark.from.y + mark.to.y) / 2, 0, 0), lowest = lowest_of(label);
    return (marked && (find_beside(sheet, label, &middle, 30, box) || find_beside(sheet, label, &middle, 60, box))) ||
           find_beside(sheet, label, &lowest, 20, box);
}

/* Numbers stand at their loops, or a bit further off where loops are marked; flags stand still further off, if they have to. */
static bool find_place(const struct drawn *sheet, struct label *label, struct box *box)
{
    bool rim = label->state == WAZELPUNT_RIM;
    if (rim ? find_at_rim(sheet, label, box) : find_within(sheet, label, box)) {
        return true;
    }
    if (rim && !marked) {
        return false;
    }
    int64_t least = label->flag ? 120 : 10, most = label->flag ? 1200 : marked ? 400 : 10, step = label->flag ? 120 : 30;
    for (int64_t gap = least; gap <= most; gap += step) {
        if (find_beside(sheet, label, &loop_boxes[label->number], gap, box)) {
            label->apart = gap > 40;
            return true;
        }
    }
    return false;
}

/* The vertex of the ring that is nearest to the middle of a box. */
static struct dot nearest_of(const struct label *label, struct dot middle)
{
    struct dot nearest = dots[label->ring[0]];
    int64_t least = INT64_MAX;
    for (size_t i = 0; i < label->length; i++) {
        struct dot dot = dots[label->ring[i]];
        int64_t far = (dot.x - middle.x) * (dot.x - middle.x) + (dot.y - middle.y) * (dot.y - middle.y);
        if (far < least) {
            least = far;
            nearest = dot;
        }
    }
    return nearest;
}

static void put_stem(const struct label *label, const struct box *box, struct dot middle)
{
    static const char *const stems[] = {"tie", "stem long-flag", "stem open-flag"};
    static const char *const boards[] = {"tag", "long-flag", "open-flag"};
    size_t kind = !label->flag ? 0 : label->state == WAZELPUNT_LONG ? 1 : 2;
    struct dot nearest = nearest_of(label, middle);
    add_line(middle, nearest);
    output("<path class=\"%s\" d=\"", stems[kind]);
    put_move(middle);
    put_line(middle, nearest);
    output("\"/><rect class=\"%s\"", boards[kind]);
    put_length("x", box->left);
    put_length("y", box->top);
    put_length("width", label->width);
    put_length("height", label->height);
    output(" rx=\"3\"/>");
}

static void put_label(const struct label *label, const struct box *box)
{
    struct dot middle = {(box->left + box->right) / 2, (box->top + box->bottom) / 2};
    if (label->flag || label->apart) {
        put_stem(label, box, middle);
    }
    output("<text class=\"%s\"", label->flag ? "flag" : label->state == WAZELPUNT_RIM ? "number rim-number" : "number");
    put_length("x", middle.x);
    put_length("y", middle.y + (label->flag ? 40 : 32));
    output(">%s</text>\n", label->text);
    taken[taken_count++] = *box;
}

/* The flags are short where there are so many that long ones would hide the sheet. */
static struct label make_label(const struct drawn *sheet, const uint16_t *ring, const uint16_t *patch, size_t number, bool brief)
{
    uint16_t state = sheet->states[number];
    struct label label = {ring, patch, number, sheet->lengths[number], state, stays_open(state), false, "", 0, 0};
    bool words = label.flag && !brief;
    snprintf(label.text, sizeof label.text, "%zu%s%s", number, words ? " " : "", words ? state_name(label.state) : "");
    label.width = (int64_t)strlen(label.text) * (label.flag ? 64 : 52) + (label.flag ? 80 : 10);
    label.height = label.flag ? 150 : 84;
    return label;
}

/* Puts the numbers of the loops in a state, or of all that are not left open where it is 0. Gives how many have no room. */
static size_t put_numbers(const struct drawn *sheet, uint16_t state, bool brief)
{
    size_t without = 0;
    const uint16_t *ring = sheet->rings, *patch = sheet->patches;
    for (size_t i = 0; i < sheet->loops; i++) {
        struct label label = make_label(sheet, ring, patch, i, brief);
        struct box box;
        ring += label.length;
        patch += label.state == WAZELPUNT_PATCHED ? 3 * (label.length - 2) : 0;
        if (state != 0 ? label.state != state : label.flag) {
            continue;
        }
        bool found = find_place(sheet, &label, &box);
        if (!found && label.flag) {
            int64_t x = lesser(loop_boxes[i].right + label.width / 2 + 120, 10 * PANEL_WIDTH - 60 - label.width / 2);
            box = box_about(x, (loop_boxes[i].top + loop_boxes[i].bottom) / 2, label.width, label.height);
        }
        if (found || label.flag) {
            put_label(&label, &box);
        } else {
            without++;
        }
    }
    return without;
}

size_t put_all_numbers(const struct drawn *sheet, bool marks)
{
    size_t open = count_state(sheet->states, sheet->loops, WAZELPUNT_OPEN);
    bool brief = open + count_state(sheet->states, sheet->loops, WAZELPUNT_LONG) > 24;
    marked = marks;
    taken_count = line_count = 0;
    set_loop_boxes(sheet);
    set_diamonds(sheet);
    for (size_t i = 0; i < sheet->loops; i++) {
        struct mark mark = mark_of(sheet, i);
        add_line(mark.from, mark.to);
    }
    output("<g class=\"numbers\">\n");
    size_t without = put_numbers(sheet, WAZELPUNT_OPEN, brief) + put_numbers(sheet, WAZELPUNT_LONG, brief) + put_numbers(sheet, 0, brief);
    output("</g>\n");
    return without;
}
