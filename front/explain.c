#include "explain.h"

#include <math.h>
#include <stdlib.h>
#include <string.h>

#include "causes.h"
#include "desk.h"
#include "facets.h"
#include "lines.h"
#include "output.h"

/* Of a line at most so many bytes are shown. */
#define MOST_SHOWN 60

/* What is explained. The set is NULL where there is none. */
struct subject {
    const struct text *sheet;
    const struct text *set;
    struct answer answer;
    struct phrase said;
    struct explanation *told;
};

static struct desk desk;
static struct set set_read_in;

/* ---- Lines ---- */

static void show_line(struct subject *subject, const struct text *text, struct line line)
{
    struct shown_line *shown = &subject->told->lines[subject->told->line_count++];
    struct phrase phrase = {shown->text, sizeof shown->text, 0};
    shown->file = text->name;
    shown->number = line.number;
    shown->text[0] = 0;
    if (line.missing) {
        phrase_add(&phrase, "the text ends here");
        return;
    }
    phrase_add_bytes(&phrase, line.bytes, line.length < MOST_SHOWN ? line.length : MOST_SHOWN);
    if (line.length > MOST_SHOWN || line.cut) {
        phrase_add(&phrase, "...");
    }
}

/* ---- 10, a wrong line ---- */

static void add_due(struct phrase *phrase, const struct text *text, size_t number, const struct due *due)
{
    const struct words *words = words_of(text->kind);
    switch (due->part) {
    case PITCH:
    case FIRST_COUNT:
        phrase_add(phrase, "%s and a count up to 1,024", words->count_key);
        if (text->kind == SHEET && number == 1) {
            phrase_add(phrase, ", or before that %s and 2, 5 or 10", pitch_key);
        }
        break;
    case FIRST:
        phrase_add(phrase, "%s %zu of %zu: %s and %s", words->one, due->index, due->count, words->key,
                   text->kind == SHEET ? "three words of eight digits (0-9, a-f), joined by commas" : "one digit");
        break;
    case SECOND_COUNT:
        phrase_add(phrase, "triangles= and a count up to %s", words->most);
        break;
    case SECOND:
        phrase_add(phrase, "triangle %zu of %zu: t= and three numbers of points, joined by commas", due->index, due->count);
        break;
    case END:
        phrase_add(phrase, "the end of the text");
        break;
    }
}

static void explain_line(struct subject *subject)
{
    bool in_set = subject->set != NULL && desk_read(subject->sheet, &desk).number != WAZELPUNT_LINE;
    const struct text *text = in_set ? subject->set : subject->sheet;
    size_t number = subject->answer.place - (in_set ? lines_ended(subject->sheet) : 0);
    struct line line = line_of(text, number);
    struct due due = due_at(text, number);
    struct phrase due_said = {subject->told->due, sizeof subject->told->due, 0};
    struct phrase cause = {subject->told->cause, sizeof subject->told->cause, 0};
    subject->told->fault = in_set ? FAULT_OF_SET : FAULT_OF_SHEET;
    phrase_add(&subject->said, in_set ? "line %zu of the set is wrong" : "line %zu is wrong", number);
    show_line(subject, text, line);
    add_due(&due_said, text, number, &due);
    cause_add(text, &line, &due, &cause);
}

/* ---- 4 to 8, a fault of the surface ---- */

static void explain_unnamed(struct subject *subject)
{
    size_t corner = subject->answer.place;
    struct line line = line_of_triangle(subject->sheet, corner / 3);
    size_t points = count_first(subject->sheet);
    phrase_add(&subject->said, "corner %zu names point %zu, but ", corner, line_number(&line, corner % 3));
    if (points == 0) {
        phrase_add(&subject->said, "there are no points");
    } else {
        phrase_add(&subject->said, "the points are 0 to %zu", points - 1);
    }
    show_line(subject, subject->sheet, line);
}

static void explain_twice(struct subject *subject)
{
    size_t triangle = subject->answer.place;
    desk_read(subject->sheet, &desk);
    const uint16_t *corners = desk.corners + 3 * triangle;
    unsigned point = corners[0] == corners[1] || corners[0] == corners[2] ? corners[0] : corners[1];
    phrase_add(&subject->said, "triangle %zu names point %u twice", triangle, point);
    show_line(subject, subject->sheet, line_of_triangle(subject->sheet, triangle));
}

static void explain_repeated(struct subject *subject)
{
    size_t edge = subject->answer.place;
    desk_read(subject->sheet, &desk);
    uint16_t from = desk.corners[edge];
    uint16_t to = desk.corners[edge_after(edge)];
    size_t earlier = find_edge(desk.corners, edge, from, to);
    phrase_add(&subject->said, "two triangles run from point %u to point %u: perhaps one of them is turned over, they lie on one another, "
               "or more than two meet in this edge", from, to);
    show_line(subject, subject->sheet, line_of_triangle(subject->sheet, earlier / 3));
    show_line(subject, subject->sheet, line_of_triangle(subject->sheet, edge / 3));
}

static float float_of(uint32_t word)
{
    float value;
    memcpy(&value, &word, sizeof value);
    return value;
}

/* The multiple of a pitch to which a size goes, a tie to the even multiple. What is too far at some pitch is a whole number of 512ths,
   since it is more than 16,384; and it is below 2^22 here. */
static uint64_t multiple_near(float size, uint32_t pitch)
{
    uint64_t parts = (uint64_t)(size * 512);
    uint64_t step = (uint64_t)512 * pitch;
    uint64_t times = parts / step;
    uint64_t left = parts % step;
    if (2 * left > step || (2 * left == step && times % 2 == 1)) {
        times++;
    }
    return times * pitch;
}

/* At pitch 1 it is seen where a value goes, and of one that lies far out it does not matter. */
void value_add(struct phrase *phrase, float value, uint32_t pitch)
{
    if (!isfinite(value)) {
        phrase_add(phrase, "no finite number (%s)", isinf(value) ? "infinite" : "not a number");
        return;
    }
    float size = value < 0 ? -value : value;
    phrase_add(phrase, "%.9g", (double)value);
    if (pitch != 1 && size < 4194304) {
        phrase_add(phrase, ", which goes to %s", value < 0 ? "-" : "");
        phrase_add_number(phrase, multiple_near(size, pitch));
        phrase_add(phrase, " at pitch %u", (unsigned)pitch);
    }
    phrase_add(phrase, ": the grid goes from -32,767 to 32,767");
}

static void explain_coordinate(struct subject *subject)
{
    size_t word = subject->answer.place;
    desk_read(subject->sheet, &desk);
    phrase_add(&subject->said, "the %c of point %zu is ", "xyz"[word % 3], word / 3);
    value_add(&subject->said, float_of(desk.words[word]), desk.pitch);
    show_line(subject, subject->sheet, line_of_first(subject->sheet, word / 3));
}

/* ---- 9 and 11 to 15, a set that does not pass ---- */

/* Reads the sheet and the set and patches the sheet, which all works where a set was judged. */
static void lay_out(struct subject *subject)
{
    desk_patch(subject->sheet, &desk);
    set_read(subject->set, lines_ended(subject->sheet), &set_read_in);
}

static void explain_states(struct subject *subject)
{
    size_t loops = subject->answer.place;
    lay_out(subject);
    size_t states = set_read_in.state_count;
    phrase_add(&subject->said, "the set declares %zu state%s, and the sheet has %zu loop%s", states, states == 1 ? "" : "s", loops,
               loops == 1 ? "" : "s");
    show_line(subject, subject->set, line_of(subject->set, 1));
}

/* The loop that a verdict tells of: its ring, and where its triangles begin in the set, counted by triangles. */
struct judged_loop {
    const uint16_t *ring;
    size_t length;
    size_t first;
};

/* How many triangles of the set belong to a loop by its declared state. */
static size_t declared_cover(size_t loop)
{
    return cover_of(desk.loops.lengths[loop], set_read_in.states[loop]);
}

/* Lays everything out, says which loop it is, and shows the line of the set that declares it. */
static struct judged_loop begin_loop(struct subject *subject)
{
    lay_out(subject);
    size_t number = subject->answer.place;
    struct judged_loop loop = {.ring = desk.loops.rings, .length = desk.loops.lengths[number]};
    for (size_t before = 0; before < number; before++) {
        loop.ring += desk.loops.lengths[before];
        loop.first += declared_cover(before);
    }
    phrase_add(&subject->said, "loop %zu, a ring of %zu from vertices %u, %u, %u: ", number, loop.length, loop.ring[0], loop.ring[1],
               loop.ring[2]);
    show_line(subject, subject->set, line_of_first(subject->set, number));
    return loop;
}

static void explain_misdeclared(struct subject *subject)
{
    struct judged_loop loop = begin_loop(subject);
    uint16_t declared = set_read_in.states[subject->answer.place];
    phrase_add(&subject->said, "declared %u (%s), and ", declared, state_name(declared));
    if (desk.loops.states[subject->answer.place] == WAZELPUNT_RIM) {
        phrase_add(&subject->said, "it is a rim");
    } else if (loop.length > WAZELPUNT_LONGEST) {
        phrase_add(&subject->said, "it is long: more than %d edges", WAZELPUNT_LONGEST);
    } else if (declared == WAZELPUNT_LONG) {
        phrase_add(&subject->said, "it is not long: at most %d edges", WAZELPUNT_LONGEST);
    } else if (declared == WAZELPUNT_OPEN) {
        phrase_add(&subject->said, "it has an allowed cover");
    } else {
        phrase_add(&subject->said, declared == WAZELPUNT_RIM ? "it is no rim" : "states are 1 to 4");
    }
}

/* Adds `triangle 3 of the set is` or `triangles 3 to 5 of the set are`. */
static void add_triangles(struct subject *subject, const struct judged_loop *loop)
{
    if (loop->length == 3) {
        phrase_add(&subject->said, "triangle %zu of the set is", loop->first);
    } else {
        phrase_add(&subject->said, "triangles %zu to %zu of the set are", loop->first, loop->first + loop->length - 3);
    }
}

/* Whether a loop's triangles are a cover if each is turned over: the judge then finds no fault, or another one. */
static bool covers_turned_over(const struct subject *subject, const struct judged_loop *loop)
{
    uint16_t *corners = set_read_in.corners + 3 * loop->first;
    for (size_t t = 0; t < loop->length - 2; t++) {
        uint16_t second = corners[3 * t + 1];
        corners[3 * t + 1] = corners[3 * t + 2];
        corners[3 * t + 2] = second;
    }
    struct answer answer = desk_judge(&desk, &set_read_in);
    return answer.number != WAZELPUNT_UNCOVERED || answer.place != subject->answer.place;
}

static void explain_uncovered(struct subject *subject)
{
    struct judged_loop loop = begin_loop(subject);
    size_t due = loop.length - 2;
    size_t there = set_read_in.corner_count / 3 - loop.first;
    phrase_add(&subject->said, "declared patched, and ");
    if (there < due) {
        phrase_add(&subject->said, "the set has too few triangles: its cover takes %zu, and %zu %s left", due, there,
                   there == 1 ? "is" : "are");
    } else {
        add_triangles(subject, &loop);
        phrase_add(&subject->said, " no cover of it");
        if (covers_turned_over(subject, &loop)) {
            phrase_add(&subject->said, "; turned over %s would be one", due == 1 ? "it" : "they");
        }
    }
}

/* Whether two points are neighbours on a ring. */
static bool is_ring_edge(const struct judged_loop *loop, uint16_t one, uint16_t other)
{
    for (size_t v = 0; v < loop->length; v++) {
        uint16_t here = loop->ring[v];
        uint16_t next = loop->ring[v + 1 == loop->length ? 0 : v + 1];
        if ((here == one && next == other) || (here == other && next == one)) {
            return true;
        }
    }
    return false;
}

/* Whether so many corners have an edge between two points, either way. */
static bool has_edge(const uint16_t *corners, size_t count, uint16_t one, uint16_t other)
{
    return find_edge(corners, count, one, other) < count || find_edge(corners, count, other, one) < count;
}

static void explain_barred(struct subject *subject)
{
    struct judged_loop loop = begin_loop(subject);
    const uint16_t *cover = set_read_in.corners + 3 * loop.first;
    phrase_add(&subject->said, "its cover has a barred diagonal");
    for (size_t edge = 0; edge < 3 * (loop.length - 2); edge++) {
        uint16_t from = cover[edge];
        uint16_t to = cover[edge_after(edge)];
        bool in_sheet = has_edge(desk.corners, desk.corner_count, from, to);
        if (!is_ring_edge(&loop, from, to) && (in_sheet || has_edge(set_read_in.corners, 3 * loop.first, from, to))) {
            phrase_add(&subject->said, ", %u to %u: %s has an edge there", from, to, in_sheet ? "the sheet" : "a patch before it");
            return;
        }
    }
}

/* What a triangle weighs: the sum of the sizes of its cross product's three components. */
static uint64_t weight_of(const uint16_t *corners)
{
    const int32_t *a = desk.grid + (size_t)3 * corners[0];
    const int32_t *b = desk.grid + (size_t)3 * corners[1];
    const int32_t *c = desk.grid + (size_t)3 * corners[2];
    long long weight = 0;
    for (size_t axis = 0; axis < 3; axis++) {
        size_t next = (axis + 1) % 3;
        weight += llabs((int64_t)(b[axis] - a[axis]) * (c[next] - a[next]) - (int64_t)(b[next] - a[next]) * (c[axis] - a[axis]));
    }
    return (uint64_t)weight;
}

/* Whether some triangle of the corners, of so many, is this one, begun at any corner. */
static bool has_triangle(const uint16_t *corners, size_t count, const uint16_t *triangle)
{
    for (size_t edge = 0; edge < count; edge++) {
        size_t next = edge_after(edge);
        if (corners[edge] == triangle[0] && corners[next] == triangle[1] && corners[edge_after(next)] == triangle[2]) {
            return true;
        }
    }
    return false;
}

/* Whether the set lays before a loop what the patcher lays there, so that the same diagonals are barred for both. The patcher has laid
   so many triangles by then. */
static bool lays_the_same_before(size_t loop, size_t *laid)
{
    size_t first = 0;
    *laid = 0;
    for (size_t before = 0; before < loop; before++) {
        first += declared_cover(before);
        *laid += cover_of(desk.loops.lengths[before], desk.loops.states[before]);
    }
    for (size_t t = 0; t < first; t++) {
        if (!has_triangle(desk.loops.patches, 3 * *laid, set_read_in.corners + 3 * t)) {
            return false;
        }
    }
    return first == *laid;
}

static void explain_heavy(struct subject *subject)
{
    struct judged_loop loop = begin_loop(subject);
    size_t laid;
    uint64_t weight = 0;
    for (size_t t = 0; t < loop.length - 2; t++) {
        weight += weight_of(set_read_in.corners + 3 * (loop.first + t));
    }
    phrase_add(&subject->said, "its cover weighs %llu, and a lighter cover exists", (unsigned long long)weight);
    if (lays_the_same_before(subject->answer.place, &laid)) {
        phrase_add(&subject->said, ": the least weight is %llu", (unsigned long long)desk.loops.weights[subject->answer.place]);
    }
}

static void explain_left_over(struct subject *subject)
{
    size_t triangle = subject->answer.place / 3;
    phrase_add(&subject->said, "corners are left over from triangle %zu of the set on", triangle);
    show_line(subject, subject->set, line_of_triangle(subject->set, triangle));
}

/* ---- All answers ---- */

static void (*const explainers[])(struct subject *subject) = {
    [WAZELPUNT_UNNAMED] = explain_unnamed,
    [WAZELPUNT_TWICE] = explain_twice,
    [WAZELPUNT_REPEATED] = explain_repeated,
    [WAZELPUNT_NOT_FINITE] = explain_coordinate,
    [WAZELPUNT_TOO_FAR] = explain_coordinate,
    [WAZELPUNT_WRONG_STATES] = explain_states,
    [WAZELPUNT_LINE] = explain_line,
    [WAZELPUNT_MISDECLARED] = explain_misdeclared,
    [WAZELPUNT_UNCOVERED] = explain_uncovered,
    [WAZELPUNT_BARRED] = explain_barred,
    [WAZELPUNT_HEAVY] = explain_heavy,
    [WAZELPUNT_LEFT_OVER] = explain_left_over,
};

void explain(const struct text *sheet, const struct text *set, struct answer answer, struct explanation *told)
{
    *told = (struct explanation){.fault = FAULT_OF_SHEET};
    struct subject subject = {sheet, set, answer, {told->said, sizeof told->said, 0}, told};
    if (answer.number == WAZELPUNT_WRONG_STATES || (answer.number > WAZELPUNT_LINE && answer.number < WAZELPUNT_MISFIT)) {
        told->fault = FAULT_BETWEEN;
    }
    if (sheet->stl != NULL && facets_explain(sheet, answer, told)) {
        return;
    }
    if (answer.number < sizeof explainers / sizeof explainers[0] && explainers[answer.number] != NULL) {
        explainers[answer.number](&subject);
    } else {
        phrase_add(&subject.said, "%s", wazelpunt_sentence(answer.number));
    }
}

void explanation_say(const struct text *sheet, const struct text *set, struct answer answer, const struct explanation *told)
{
    if (told->fault == FAULT_BETWEEN) {
        const char *shown = said_name(sheet->name);
        say("%s: %s does not pass, answer %u,%zu: %s", shown, said_name(set->name), (unsigned)answer.number, answer.place, told->said);
    } else {
        const struct text *text = told->fault == FAULT_OF_SET ? set : sheet;
        say("%s: refused, answer %u,%zu: %s", said_name(text->name), (unsigned)answer.number, answer.place, told->said);
    }
    /* the sheet is named first where the set does not pass, and the lines are the set's */
    const char *whose = told->fault == FAULT_BETWEEN ? " of the set" : "";
    for (size_t l = 0; l < told->line_count; l++) {
        say_more("line %zu%s: %s", told->lines[l].number, whose, told->lines[l].text);
    }
    for (size_t f = 0; f < told->facet_count; f++) {
        const struct shown_facet *facet = &told->facets[f];
        say_more("facet %zu, bytes %zu to %zu: %s", facet->number, facet->first, facet->last, facet->text);
    }
    if (told->due[0] != 0) {
        say_more("due: %s", told->due);
    }
    if (told->cause[0] != 0) {
        say_more("cause: %s", told->cause);
    }
}
