#include "json.h"

#include <string.h>

#include "lines.h"
#include "output.h"
#include "stl.h"

/* ---- Strings ---- */

static void put_string(const char *text)
{
    const uint8_t *at = (const uint8_t *)text;
    output("\"");
    while (*at != 0) {
        size_t length = utf_8_length(at);
        if (length == 0) {
            output("\\udc%02x", (unsigned)*at);
            length = 1;
        } else if (*at == '"' || *at == '\\') {
            output("\\%c", *at);
        } else if (*at == '\n' || *at == '\t') {
            output("\\%c", *at == '\n' ? 'n' : 't');
        } else if (*at < 32 || *at == 127) {
            output("\\u%04x", (unsigned)*at);
        } else {
            output_bytes(at, length);
        }
        at += length;
    }
    output("\"");
}

static void put_member(const char *before, const char *name, const char *text)
{
    output("%s\"%s\":", before, name);
    put_string(text);
}

/* ---- Objects ---- */

static void put_names(const char *sheet, const char *set)
{
    put_member("{", "file", sheet);
    if (set != NULL) {
        put_member(",", "patches", set);
    }
}

/* How many facets and points a binary STL file has, as far as that is known. */
static void put_stl(const struct text *sheet)
{
    if (sheet->stl == NULL) {
        return;
    }
    output(",\"stl\":{\"facets\":");
    if (sheet->stl->refusal == WAZELPUNT_MISFIT) {
        output("null");
    } else {
        output("%u", (unsigned)stl_count(sheet->stl->file.bytes));
    }
    output(",\"points\":");
    if (sheet->stl->refusal != WAZELPUNT_DONE) {
        output("null");
    } else {
        output("%zu", count_first(sheet));
    }
    output("}");
}

static void put_answer(struct answer answer)
{
    output(",\"answer\":{\"number\":%u,\"place\":%zu", (unsigned)answer.number, answer.place);
    put_member(",", "sentence", wazelpunt_sentence(answer.number));
    output("}");
}

static void begin(const struct text *sheet, const struct text *set, struct answer answer)
{
    put_names(sheet->name, set == NULL ? NULL : set->name);
    put_stl(sheet);
    put_answer(answer);
}

static void put_numbers(const uint16_t *numbers, size_t count)
{
    output("[");
    for (size_t n = 0; n < count; n++) {
        output("%s%u", n == 0 ? "" : ",", numbers[n]);
    }
    output("]");
}

static void put_patches(const uint16_t *corners, size_t triangles)
{
    output(",\"patches\":[");
    for (size_t t = 0; t < triangles; t++) {
        output("%s", t == 0 ? "" : ",");
        put_numbers(corners + 3 * t, 3);
    }
    output("]");
}

/* The numbers of the loops that stay open though they are no rims. */
static void put_left_open(const struct loops *loops)
{
    const char *before = "";
    output(",\"left_open\":[");
    for (size_t loop = 0; loop < loops->count; loop++) {
        if (stays_open(loops->states[loop])) {
            output("%s%zu", before, loop);
            before = ",";
        }
    }
    output("]");
}

/* How large a sheet is that was listed or charted, and its loops that stay open. */
static void put_sizes(const struct text *sheet, const struct loops *loops)
{
    output(",\"points\":%zu,\"triangles\":%zu,\"pitch\":%zu", count_first(sheet), count_triangles(sheet), pitch_of(sheet));
    put_left_open(loops);
}

/* The members of a loop. */
static void put_loop(const struct loops *loops, size_t loop, const uint16_t *ring)
{
    output("\"length\":%u,\"state\":%u,\"name\":\"%s\",\"weight\":%llu", loops->lengths[loop], loops->states[loop],
           state_name(loops->states[loop]), (unsigned long long)loops->weights[loop]);
    output(",\"first\":%u,\"piece\":%u,\"run\":%llu,\"ring\":", loops->firsts[loop], loops->pieces[loop],
           (unsigned long long)loops->runs[loop]);
    put_numbers(ring, loops->lengths[loop]);
}

void json_listed(const struct text *sheet, const struct loops *loops, bool patches)
{
    const uint16_t *ring = loops->rings;
    const uint16_t *laid = loops->patches;
    begin(sheet, NULL, (struct answer){WAZELPUNT_DONE, 0});
    put_sizes(sheet, loops);
    output(",\"loops\":[");
    for (size_t loop = 0; loop < loops->count; loop++) {
        size_t cover = cover_of(loops->lengths[loop], loops->states[loop]);
        output("%s{", loop == 0 ? "" : ",");
        put_loop(loops, loop, ring);
        if (patches) {
            put_patches(laid, cover);
        }
        output("}");
        ring += loops->lengths[loop];
        laid += 3 * cover;
    }
    output("]}\n");
}

/* How much there is in a report. */
static void put_counts(const struct report *report)
{
    static const struct {
        const char *name;
        uint16_t kind;
    } counts[] = {{"rims", WAZELPUNT_ENTRY_RIM}, {"pools", WAZELPUNT_ENTRY_POOL}, {"lakes", WAZELPUNT_ENTRY_LAKE}};
    struct span all = report_all(report);
    output(",\"counts\":{\"entries\":%zu,\"pieces\":%zu,\"closed\":%zu", report->entries,
           report_count(report, all, WAZELPUNT_ENTRY_PIECE), report_closed(report));
    for (size_t c = 0; c < sizeof counts / sizeof counts[0]; c++) {
        output(",\"%s\":%zu", counts[c].name, report_count(report, all, counts[c].kind));
    }
    output("}");
}

/* The loops of a piece that are of a kind, each with its number, joined by commas. */
static void put_loops_of(const struct report *report, struct span piece, uint16_t kind, const struct loops *loops)
{
    const char *before = "";
    for (size_t e = piece.first; e < piece.end; e++) {
        struct wazelpunt_entry entry = report_entry(report, e);
        if (entry.kind == kind) {
            output("%s{\"loop\":%u,", before, entry.number);
            put_loop(loops, entry.number, ring_of(loops, entry.number));
            output("}");
            before = ",";
        }
    }
}

static void put_piece(const struct report *report, struct span piece, const struct loops *loops)
{
    output("{\"piece\":%u,\"rim\":", report_entry(report, piece.first).number);
    if (report_count(report, piece, WAZELPUNT_ENTRY_RIM) == 0) {
        output("null");
    }
    put_loops_of(report, piece, WAZELPUNT_ENTRY_RIM, loops);
    output(",\"pools\":[");
    put_loops_of(report, piece, WAZELPUNT_ENTRY_POOL, loops);
    output("],\"lakes\":[");
    put_loops_of(report, piece, WAZELPUNT_ENTRY_LAKE, loops);
    output("]}");
}

void json_reported(const struct text *sheet, const struct loops *loops, const struct report *report)
{
    begin(sheet, NULL, (struct answer){WAZELPUNT_DONE, 0});
    put_sizes(sheet, loops);
    put_counts(report);
    output(",\"pieces\":[");
    for (size_t e = 0; e < report->entries;) {
        struct span piece = report_piece(report, e);
        output("%s", e == 0 ? "" : ",");
        put_piece(report, piece, loops);
        e = piece.end;
    }
    output("]}\n");
}

void json_passed(const struct text *sheet, const struct text *set, const struct loops *loops)
{
    begin(sheet, set, (struct answer){WAZELPUNT_DONE, 0});
    put_left_open(loops);
    output("}\n");
}

/* The facets that an explanation is about, where there are some. */
static void put_facets(const struct text *sheet, const struct explanation *told)
{
    for (size_t f = 0; f < told->facet_count; f++) {
        const struct shown_facet *facet = &told->facets[f];
        put_member(f == 0 ? ",\"facets\":[{" : ",{", "file", sheet->name);
        output(",\"facet\":%zu,\"bytes\":[%zu,%zu]", facet->number, facet->first, facet->last);
        put_member(",", "text", facet->text);
        output("}%s", f + 1 == told->facet_count ? "]" : "");
    }
}

void json_explained(const struct text *sheet, const struct text *set, struct answer answer, const struct explanation *told)
{
    begin(sheet, set, answer);
    put_member(",\"explanation\":{", "said", told->said);
    output(",\"lines\":[");
    for (size_t l = 0; l < told->line_count; l++) {
        put_member(l == 0 ? "{" : ",{", "file", told->lines[l].file);
        output(",\"line\":%zu", told->lines[l].number);
        put_member(",", "text", told->lines[l].text);
        output("}");
    }
    output("]");
    put_facets(sheet, told);
    if (told->due[0] != 0) {
        put_member(",", "due", told->due);
    }
    if (told->cause[0] != 0) {
        put_member(",", "cause", told->cause);
    }
    output("}}\n");
}

void json_unread(const char *sheet, const char *set, const char *error)
{
    put_names(sheet, set);
    put_member(",", "error", error);
    output("}\n");
}
