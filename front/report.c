#include "report.h"

struct wazelpunt_entry report_entry(const struct report *report, size_t entry)
{
    return wazelpunt_entry_at(report->numbers, WAZELPUNT_ENTRY * report->entries, entry);
}

struct span report_all(const struct report *report)
{
    return (struct span){0, report->entries};
}

struct span report_piece(const struct report *report, size_t entry)
{
    struct span span = {entry, entry + 1};
    while (span.end < report->entries && report_entry(report, span.end).kind != WAZELPUNT_ENTRY_PIECE) {
        span.end++;
    }
    return span;
}

size_t report_count(const struct report *report, struct span span, uint16_t kind)
{
    size_t count = 0;
    for (size_t e = span.first; e < span.end; e++) {
        count += report_entry(report, e).kind == kind;
    }
    return count;
}

static size_t count_all(const struct report *report, uint16_t kind)
{
    return report_count(report, report_all(report), kind);
}

size_t report_closed(const struct report *report)
{
    return count_all(report, WAZELPUNT_ENTRY_PIECE) - count_all(report, WAZELPUNT_ENTRY_RIM);
}

const char *kind_name(uint16_t kind)
{
    static const char *const names[] = {
        [WAZELPUNT_ENTRY_RIM] = "rim", [WAZELPUNT_ENTRY_POOL] = "tide pool", [WAZELPUNT_ENTRY_LAKE] = "lake",
    };
    return kind < WAZELPUNT_ENTRY_RIM || kind > WAZELPUNT_ENTRY_LAKE ? "no loop" : names[kind];
}

void report_kinds(const struct report *report, uint16_t *kinds)
{
    for (size_t e = 0; e < report->entries; e++) {
        struct wazelpunt_entry entry = report_entry(report, e);
        if (entry.kind != WAZELPUNT_ENTRY_PIECE) {
            kinds[entry.number] = entry.kind;
        }
    }
}

/* ---- In words ---- */

/* How many there are of a kind, also if there are none: `2 tide pools`, `no lakes`. */
static void add_count(struct phrase *phrase, const char *before, const struct report *report, uint16_t kind)
{
    size_t count = count_all(report, kind);
    if (count == 0) {
        phrase_add(phrase, "%sno %ss", before, kind_name(kind));
    } else {
        phrase_add_many(phrase, before, count, kind_name(kind));
    }
}

void report_add(struct phrase *phrase, const struct report *report, const struct loops *loops)
{
    size_t pieces = count_all(report, WAZELPUNT_ENTRY_PIECE), closed = report_closed(report);
    if (pieces == 0) {
        phrase_add(phrase, "no triangles, so no pieces");
        return;
    }
    phrase_add_many(phrase, "", pieces, "piece");
    if (closed > 0) {
        phrase_add(phrase, ", ");
        phrase_add_number(phrase, closed);
        phrase_add(phrase, " closed");
    }
    add_count(phrase, ": ", report, WAZELPUNT_ENTRY_RIM);
    add_count(phrase, ", ", report, WAZELPUNT_ENTRY_POOL);
    add_count(phrase, ", ", report, WAZELPUNT_ENTRY_LAKE);
    loops_add_open(phrase, "; ", loops);
}

/* A piece, by its entries: `piece 0: rim loop 0 of 4 edges, run 48 plate units; 2 tide pools, 1 lake`; `piece 1: closed`. */
static void print_piece(const struct report *report, struct span piece, const struct loops *loops)
{
    static char said[256];
    struct phrase phrase = {said, sizeof said, 0};
    struct wazelpunt_entry rim = report_entry(report, piece.first + 1);
    size_t pools = report_count(report, piece, WAZELPUNT_ENTRY_POOL), lakes = report_count(report, piece, WAZELPUNT_ENTRY_LAKE);
    phrase_add(&phrase, "piece %u: ", report_entry(report, piece.first).number);
    if (rim.kind == WAZELPUNT_ENTRY_RIM) {
        phrase_add(&phrase, "rim loop %u", rim.number);
        loop_add_size(&phrase, loops, rim.number, " of ");
    } else {
        phrase_add(&phrase, "closed");
    }
    if (pools > 0) {
        phrase_add_many(&phrase, "; ", pools, kind_name(WAZELPUNT_ENTRY_POOL));
    }
    if (lakes > 0) {
        phrase_add_many(&phrase, pools > 0 ? ", " : "; ", lakes, kind_name(WAZELPUNT_ENTRY_LAKE));
    }
    output("%s\n", said);
}

/* A tide pool or a lake: `  loop 1, lake, patched: 3 edges, run 40 plate units; begins with ...`. */
static void print_loop(struct wazelpunt_entry entry, const struct loops *loops, const char *triangle)
{
    static char said[256];
    struct phrase phrase = {said, sizeof said, 0};
    phrase_add(&phrase, "loop %u, %s, %s", entry.number, kind_name(entry.kind), state_name(loops->states[entry.number]));
    loop_add(&phrase, loops, entry.number, triangle);
    output("  %s\n", said);
}

void report_print(const struct report *report, const struct loops *loops, const char *triangle)
{
    for (size_t e = 0; e < report->entries; e++) {
        struct wazelpunt_entry entry = report_entry(report, e);
        if (entry.kind == WAZELPUNT_ENTRY_PIECE) {
            print_piece(report, report_piece(report, e), loops);
        } else if (entry.kind != WAZELPUNT_ENTRY_RIM) {
            print_loop(entry, loops, triangle);
        }
    }
}
