#include "listing.h"

#include <string.h>

/* ---- A listing taken apart ---- */

/* What is left of the printed bytes. */
struct reading {
    const uint8_t *at;
    const uint8_t *end;
};

static bool take_word(struct reading *reading, const char *word)
{
    size_t length = strlen(word);
    if ((size_t)(reading->end - reading->at) < length || memcmp(reading->at, word, length) != 0) {
        return false;
    }
    reading->at += length;
    return true;
}

/* A decimal number up to `most`. */
static bool take_number(struct reading *reading, uint64_t most, uint64_t *number)
{
    const uint8_t *first = reading->at;
    *number = 0;
    for (; reading->at < reading->end && *reading->at >= '0' && *reading->at <= '9'; reading->at++) {
        uint64_t digit = (uint64_t)(*reading->at - '0');
        if (digit > most || *number > (most - digit) / 10) {
            return false;
        }
        *number = 10 * *number + digit;
    }
    return reading->at > first;
}

/* So many points' numbers joined by commas, and the end of the line. */
static bool take_points(struct reading *reading, uint16_t *points, size_t count)
{
    for (size_t p = 0; p < count; p++) {
        uint64_t point;
        if ((p > 0 && !take_word(reading, ",")) || !take_number(reading, WAZELPUNT_POINTS - 1, &point)) {
            return false;
        }
        points[p] = (uint16_t)point;
    }
    return take_word(reading, "\n");
}

static bool take_answer(struct reading *reading, struct answer *answer)
{
    uint64_t number, place;
    if (!take_word(reading, "answer=") || !take_number(reading, WAZELPUNT_NO_PITCH, &number) || !take_word(reading, ",") ||
        !take_number(reading, SIZE_MAX, &place) || !take_word(reading, "\n")) {
        return false;
    }
    *answer = (struct answer){(uint32_t)number, (size_t)place};
    return true;
}

bool answer_take(const uint8_t *bytes, size_t count, struct answer *answer)
{
    struct reading reading = {bytes, bytes + count};
    return take_answer(&reading, answer);
}

void record_enter(struct loops *loops, size_t loop, const struct wazelpunt_record *record)
{
    loops->lengths[loop] = (uint16_t)record->length;
    loops->states[loop] = (uint16_t)record->state;
    loops->weights[loop] = record->weight;
    loops->firsts[loop] = (uint16_t)record->first;
    loops->pieces[loop] = (uint16_t)record->piece;
    loops->runs[loop] = record->run;
}

/* The line `loop=length,state,weight,first,piece,run` of the loop that comes next. */
static bool take_record(struct reading *reading, struct loops *loops)
{
    struct wazelpunt_record record = {0};
    if (!take_word(reading, "loop=") || !take_number(reading, WAZELPUNT_CORNERS - loops->vertices, &record.length) || record.length < 3 ||
        !take_word(reading, ",") || !take_number(reading, WAZELPUNT_RIM, &record.state) || record.state < WAZELPUNT_PATCHED ||
        !take_word(reading, ",") || !take_number(reading, UINT64_MAX, &record.weight) ||
        !take_word(reading, ",") || !take_number(reading, WAZELPUNT_CORNERS - 1, &record.first) ||
        !take_word(reading, ",") || !take_number(reading, WAZELPUNT_TRIANGLES - 1, &record.piece) ||
        !take_word(reading, ",") || !take_number(reading, UINT64_MAX, &record.run) || !take_word(reading, "\n")) {
        return false;
    }
    record_enter(loops, loops->count, &record);
    return true;
}

static bool take_loop(struct reading *reading, struct loops *loops)
{
    if (!take_record(reading, loops)) {
        return false;
    }
    size_t length = loops->lengths[loops->count];
    if (!take_word(reading, "ring=") || !take_points(reading, loops->rings + loops->vertices, length)) {
        return false;
    }
    loops->vertices += length;
    size_t triangles = cover_of(length, loops->states[loops->count]);
    for (size_t t = 0; t < triangles; t++) {
        if (!take_word(reading, "patch=") || !take_points(reading, loops->patches + loops->laid, 3)) {
            return false;
        }
        loops->laid += 3;
    }
    loops->count++;
    return true;
}

bool listing_take(const uint8_t *bytes, size_t count, struct answer *answer, struct loops *loops)
{
    struct reading reading = {bytes, bytes + count};
    uint64_t due = 0;
    loops->count = loops->vertices = loops->laid = 0;
    if (!take_answer(&reading, answer)) {
        return false;
    }
    if (answer->number == WAZELPUNT_DONE &&
        (!take_word(&reading, "loops=") || !take_number(&reading, WAZELPUNT_TRIANGLES, &due) || !take_word(&reading, "\n"))) {
        return false;
    }
    while (loops->count < due) {
        if (!take_loop(&reading, loops)) {
            return false;
        }
    }
    return reading.at == reading.end;
}

/* ---- What is said of loops ---- */

/* Of each kind of loops that stay open at most so many are named. */
#define MOST_NAMED 5

const char *state_name(uint16_t state)
{
    static const char *const names[] = {
        [WAZELPUNT_PATCHED] = "patched", [WAZELPUNT_LONG] = "long", [WAZELPUNT_OPEN] = "open", [WAZELPUNT_RIM] = "rim",
    };
    return state < WAZELPUNT_PATCHED || state > WAZELPUNT_RIM ? "no state" : names[state];
}

size_t count_state(const uint16_t *states, size_t count, uint16_t state)
{
    size_t times = 0;
    for (size_t loop = 0; loop < count; loop++) {
        times += states[loop] == state;
    }
    return times;
}

size_t cover_of(size_t length, uint16_t state)
{
    return state == WAZELPUNT_PATCHED ? length - 2 : 0;
}

const char *no_loops(bool has_triangles)
{
    return has_triangles ? "no loops: the surface is closed" : "no triangles, so no loops";
}

static size_t count_in(const struct loops *loops, uint16_t state)
{
    return count_state(loops->states, loops->count, state);
}

bool stays_open(uint16_t state)
{
    return state == WAZELPUNT_LONG || state == WAZELPUNT_OPEN;
}

bool loops_stay_open(const struct loops *loops)
{
    return count_in(loops, WAZELPUNT_LONG) + count_in(loops, WAZELPUNT_OPEN) > 0;
}

/* Loops of a state that stay open, by the numbers of the first of them. */
static void add_open(struct phrase *phrase, const char *before, const struct loops *loops, uint16_t state, const char *how)
{
    size_t count = count_in(loops, state);
    size_t named = 0;
    phrase_add(phrase, "%s%zu %s, LEFT OPEN: loop%s ", before, count, how, count == 1 ? "" : "s");
    for (size_t loop = 0; loop < loops->count && named < MOST_NAMED; loop++) {
        if (loops->states[loop] == state) {
            phrase_add(phrase, "%s%zu", named == 0 ? "" : ", ", loop);
            named++;
        }
    }
    if (count > named) {
        phrase_add(phrase, " and %zu more", count - named);
    }
}

void loops_add_open(struct phrase *phrase, const char *before, const struct loops *loops)
{
    if (count_in(loops, WAZELPUNT_LONG) > 0) {
        add_open(phrase, before, loops, WAZELPUNT_LONG, "long");
        before = "; ";
    }
    if (count_in(loops, WAZELPUNT_OPEN) > 0) {
        add_open(phrase, before, loops, WAZELPUNT_OPEN, "without an allowed cover");
    }
}

static size_t count_laid(const struct loops *loops)
{
    size_t triangles = 0;
    for (size_t loop = 0; loop < loops->count; loop++) {
        triangles += cover_of(loops->lengths[loop], loops->states[loop]);
    }
    return triangles;
}

void loops_add(struct phrase *phrase, const struct loops *loops, bool has_triangles)
{
    if (loops->count == 0) {
        phrase_add(phrase, "%s", no_loops(has_triangles));
        return;
    }
    const char *before = ": ";
    phrase_add_many(phrase, "", loops->count, "loop");
    if (count_in(loops, WAZELPUNT_RIM) > 0) {
        phrase_add_many(phrase, before, count_in(loops, WAZELPUNT_RIM), "rim");
        before = "; ";
    }
    if (count_in(loops, WAZELPUNT_PATCHED) > 0) {
        phrase_add(phrase, "%s%zu closed with ", before, count_in(loops, WAZELPUNT_PATCHED));
        phrase_add_many(phrase, "", count_laid(loops), "triangle");
        before = "; ";
    }
    loops_add_open(phrase, before, loops);
}

const uint16_t *ring_of(const struct loops *loops, size_t loop)
{
    const uint16_t *ring = loops->rings;
    for (size_t before = 0; before < loop; before++) {
        ring += loops->lengths[before];
    }
    return ring;
}

void loop_add_size(struct phrase *phrase, const struct loops *loops, size_t loop, const char *before)
{
    phrase_add_many(phrase, before, loops->lengths[loop], "edge");
    phrase_add_many(phrase, ", run ", loops->runs[loop], "plate unit");
}

void loop_add(struct phrase *phrase, const struct loops *loops, size_t loop, const char *triangle)
{
    const uint16_t *ring = ring_of(loops, loop);
    unsigned first = loops->firsts[loop];
    loop_add_size(phrase, loops, loop, ": ");
    phrase_add(phrase, "; begins with half-edge %u of %s %u, from point %u to point %u", first, triangle, first / 3, ring[0], ring[1]);
}

static void say_loop(const struct loops *loops, size_t loop, const char *triangle)
{
    static char said[256];
    struct phrase phrase = {said, sizeof said, 0};
    phrase_add(&phrase, "loop %zu, %s, in piece %u", loop, state_name(loops->states[loop]), loops->pieces[loop]);
    loop_add(&phrase, loops, loop, triangle);
    say_more("%s", said);
}

void loops_say(const struct loops *loops, bool all, const char *triangle)
{
    size_t named[WAZELPUNT_RIM + 1] = {0};
    for (size_t loop = 0; loop < loops->count; loop++) {
        uint16_t state = loops->states[loop];
        if (all || (stays_open(state) && named[state]++ < MOST_NAMED)) {
            say_loop(loops, loop, triangle);
        }
    }
}
