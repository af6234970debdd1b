#include "draw_rings.h"

#include "desk.h"
#include "draw_faces.h"
#include "listing.h"
#include "output.h"
#include "report.h"

const uint16_t state_order[STATE_COUNT] = {WAZELPUNT_RIM, WAZELPUNT_PATCHED, WAZELPUNT_LONG, WAZELPUNT_OPEN};

static struct dot dot_on(struct dot a, struct dot b, int64_t at)
{
    struct dot dot = {a.x + (b.x - a.x) * at / WHOLE, a.y + (b.y - a.y) * at / WHOLE};
    return dot;
}

/* A path in the making: whether something of it is put, and whether its end is that of the edge before. */
struct trace {
    const char *class;
    bool begun, joined;
};

static void put_piece(struct trace *trace, struct dot a, struct dot b, struct piece piece)
{
    struct dot from = dot_on(a, b, piece.from), to = dot_on(a, b, piece.to);
    if (piece.from == piece.to) {
        return;
    }
    if (!trace->begun) {
        output("<path class=\"%s\" d=\"", trace->class);
    }
    if (!trace->joined || piece.from > 0) {
        put_move(from);
    }
    put_line(from, to);
    trace->begun = true;
    trace->joined = piece.to == WHOLE;
}

/* A path of all that is seen of the first edges of a ring, so many, or of all that is hidden; false if there is none. */
static bool put_trace(const uint16_t *ring, size_t length, size_t edges, const char *class, bool behind)
{
    struct trace trace = {class, false, false};
    for (size_t i = 0; i < edges; i++) {
        uint16_t from = ring[i], to = ring[(i + 1) % length];
        struct piece seen = {0, 0};
        const struct piece *hidden;
        size_t hidden_count = find_hidden(from, to, &hidden);
        bool joined = behind ? hidden_count > 0 && hidden[0].from == 0 : hidden_count == 0 || hidden[0].from > 0;
        trace.joined = trace.joined && joined;
        for (size_t j = 0; j < hidden_count; j++) {
            seen.to = hidden[j].from;
            put_piece(&trace, dots[from], dots[to], behind ? hidden[j] : seen);
            seen.from = hidden[j].to;
        }
        seen.to = WHOLE;
        if (!behind) {
            put_piece(&trace, dots[from], dots[to], seen);
        }
    }
    output(trace.begun ? "\"/>\n" : "");
    return trace.begun;
}

static const uint16_t *ring_in(const struct drawn *sheet, size_t loop)
{
    const uint16_t *ring = sheet->rings;
    for (size_t before = 0; before < loop; before++) {
        ring += sheet->lengths[before];
    }
    return ring;
}

/* The rim of a piece; how many loops there are, if it has none. */
static size_t rim_of(const struct drawn *sheet, size_t piece)
{
    size_t rim = 0;
    while (rim < sheet->loops && (sheet->kinds[rim] != WAZELPUNT_ENTRY_RIM || sheet->pieces[rim] != piece)) {
        rim++;
    }
    return rim;
}

size_t find_meetings(const struct drawn *sheet, size_t loop, uint16_t *points)
{
    size_t found = 0, rim = rim_of(sheet, sheet->pieces[loop]);
    if (sheet->kinds[loop] != WAZELPUNT_ENTRY_POOL || rim == sheet->loops) {
        return 0;
    }
    const uint16_t *ring = ring_in(sheet, loop), *rim_ring = ring_in(sheet, rim);
    for (size_t i = 0; i < sheet->lengths[loop]; i++) {
        size_t j = 0;
        while (j < sheet->lengths[rim] && rim_ring[j] != ring[i]) {
            j++;
        }
        if (j < sheet->lengths[rim]) {
            points[found++] = ring[i];
        }
    }
    return found;
}

static void put_diamonds(const struct drawn *sheet, size_t loop, int64_t size)
{
    static uint16_t points[WAZELPUNT_CORNERS];
    size_t count = find_meetings(sheet, loop, points);
    for (size_t i = 0; i < count; i++) {
        struct dot at = dots[points[i]], left = {at.x - size, at.y}, top = {at.x, at.y - size};
        struct dot right = {at.x + size, at.y}, bottom = {at.x, at.y + size};
        output("<path class=\"diamond%s\" d=\"", is_point_hidden(points[i]) ? " hollow" : "");
        put_move(left);
        put_line(left, top);
        put_line(top, right);
        put_line(right, bottom);
        output("z\"/>\n");
    }
}

/* How the hidden part of a loop is drawn: one that is left open has to be found. */
static const char *hidden_class(uint16_t state)
{
    return stays_open(state) ? "hidden bold" : state == WAZELPUNT_RIM ? "hidden faint" : "hidden";
}

/* The group of a loop: its classes are its state and, where it is no rim, its kind. */
static void begin_loop(uint16_t state, uint16_t kind, size_t number, size_t length)
{
    const char *class = kind == WAZELPUNT_ENTRY_POOL ? " pool" : kind == WAZELPUNT_ENTRY_LAKE ? " lake" : "";
    bool is_rim = kind == WAZELPUNT_ENTRY_RIM;
    output("<g class=\"loop %s%s\"><title>loop %zu: %s", state_name(state), class, number, kind_name(kind));
    output("%s%s, %zu edges</title>\n", is_rim ? "" : ", ", is_rim ? "" : state_name(state), length);
}

/* Gives whether some of the loop is hidden. */
static bool put_loop(const struct drawn *sheet, size_t number, const uint16_t *ring, bool marks)
{
    uint16_t state = sheet->states[number], kind = sheet->kinds[number];
    size_t length = sheet->lengths[number];
    begin_loop(state, kind, number, length);
    if (stays_open(state)) {
        output("<path class=\"hatch\" fill=\"url(#%s)\" d=\"", state_name(state));
        put_move(dots[ring[0]]);
        for (size_t i = 1; i < length; i++) {
            put_line(dots[ring[i - 1]], dots[ring[i]]);
        }
        output("z\"/>\n");
        put_trace(ring, length, length, "casing", false);
    }
    put_trace(ring, length, length, "seen", false);
    if (kind == WAZELPUNT_ENTRY_LAKE) {
        put_trace(ring, length, length, "core", false);
    }
    bool hides = put_trace(ring, length, length, hidden_class(state), true);
    put_diamonds(sheet, number, diamond_size(marks));
    output("</g>\n");
    return hides;
}

bool put_loops(const struct drawn *sheet, bool marks)
{
    bool hides = false;
    for (size_t i = 0; i < STATE_COUNT; i++) {
        const uint16_t *ring = sheet->rings;
        for (size_t j = 0; j < sheet->loops; ring += sheet->lengths[j], j++) {
            if (sheet->states[j] == state_order[i]) {
                hides |= put_loop(sheet, j, ring, marks);
            }
        }
    }
    return hides;
}

/* ---- Where loops begin ---- */

/* How long the head of an arrow is at most, and how large the dot at its tail, in tenths; it is thin on shorter edges than this. */
enum { HEAD = 80, TAIL = 24, SHORT = 160 };

struct mark mark_of(const struct drawn *sheet, size_t loop)
{
    size_t first = sheet->firsts[loop];
    struct mark mark = {{sheet->corners[first], sheet->corners[edge_after(first)]}, {0, 0}, {0, 0}};
    mark.from = dots[mark.ends[0]];
    mark.to = dots[mark.ends[1]];
    return mark;
}

static int64_t length_of(const struct mark *mark)
{
    int64_t x = mark->to.x - mark->from.x, y = mark->to.y - mark->from.y;
    return square_root(x * x + y * y);
}

/* The head: two lines that meet at the end of the edge. */
static void put_head(const struct mark *mark, const char *class)
{
    int64_t length = length_of(mark), head = lesser(HEAD, length * 2 / 5);
    if (head < 15) {
        return;
    }
    struct dot along = {(mark->to.x - mark->from.x) * head / length, (mark->to.y - mark->from.y) * head / length};
    struct dot left = {mark->to.x - along.x + along.y / 2, mark->to.y - along.y - along.x / 2};
    struct dot right = {mark->to.x - along.x - along.y / 2, mark->to.y - along.y + along.x / 2};
    output("<path class=\"%s\" d=\"", class);
    put_move(left);
    put_line(left, mark->to);
    put_line(mark->to, right);
    output("\"/>\n");
}

static void put_mark(const struct drawn *sheet, size_t loop)
{
    struct mark mark = mark_of(sheet, loop);
    unsigned first = sheet->firsts[loop];
    output("<g class=\"mark%s\"><title>loop %zu, in piece %u, run %llu: ", length_of(&mark) < SHORT ? " fine" : "", loop,
           sheet->pieces[loop], (unsigned long long)sheet->runs[loop]);
    output("half-edge %u of triangle %u, from point %u to point %u</title>\n", first, first / 3, mark.ends[0], mark.ends[1]);
    put_trace(mark.ends, 2, 1, "halo", false);
    put_head(&mark, "halo");
    put_trace(mark.ends, 2, 1, "shaft", false);
    put_trace(mark.ends, 2, 1, "shaft dots", true);
    put_head(&mark, "head");
    output("<circle class=\"tail\"");
    put_length("cx", mark.from.x);
    put_length("cy", mark.from.y);
    put_length("r", lesser(TAIL, greater(length_of(&mark) / 6, 10)));
    output("/></g>\n");
}

void put_marks(const struct drawn *sheet)
{
    output("<g class=\"marks\">\n");
    for (size_t i = 0; i < sheet->loops; i++) {
        put_mark(sheet, i);
    }
    output("</g>\n");
}
