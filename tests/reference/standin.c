/* A stand-in for libwazelpunt.a: every exported function over the reference in plain C, so that a program over the library can be built
   by the host's own compiler on any machine, and with its sanitizers:

       gcc -std=c11 -O2 -Iinclude -Itests/reference tests/reference/standin.c tests/reference/reference.c prog.c -o prog

   It answers as the archive does, slower, and nothing of it is proved. The functions over whole texts share static rooms, so one thread
   at a time may call them. */

#include <stdio.h>
#include <string.h>

#include "reference.h"
#include "wazelpunt.h"

/* ---- The functions over numbers ---- */

uint32_t wazelpunt_coordinate(uint32_t word, int32_t *whole, uint32_t *rest, uint32_t pitch)
{
    return (uint32_t)reference_coordinate(word, whole, rest, pitch);
}

uint32_t wazelpunt_survey(const uint32_t *words, size_t words_count, const uint16_t *corners, size_t corners_count,
                          int32_t *grid, size_t grid_length, uint16_t *rings, size_t rings_length, uint16_t *lengths,
                          size_t lengths_length, size_t *place, size_t *loops, size_t *vertices, uint32_t pitch)
{
    struct reference_answer answer;
    reference_survey(words, words_count, corners, corners_count, grid, grid_length, rings, rings_length, lengths, lengths_length,
                     pitch, &answer);
    *place = answer.place;
    *loops = answer.loops;
    *vertices = answer.vertices;
    return (uint32_t)answer.number;
}

uint32_t wazelpunt_patch(const uint32_t *words, size_t words_count, const uint16_t *corners, size_t corners_count,
                         int32_t *grid, size_t grid_length, uint16_t *rings, size_t rings_length, uint64_t *records,
                         size_t records_length, uint16_t *patches, size_t patches_length, size_t *place, size_t *loops,
                         size_t *vertices, size_t *laid, uint32_t pitch)
{
    struct reference_patch_answer answer;
    reference_patch(words, words_count, corners, corners_count, grid, grid_length, rings, rings_length, records, records_length,
                    patches, patches_length, pitch, &answer);
    *place = answer.place;
    *loops = answer.loops;
    *vertices = answer.vertices;
    *laid = answer.corners;
    return (uint32_t)answer.number;
}

uint32_t wazelpunt_chart(const uint32_t *words, size_t words_count, const uint16_t *corners, size_t corners_count,
                         int32_t *grid, size_t grid_length, uint16_t *rings, size_t rings_length, uint64_t *records,
                         size_t records_length, uint16_t *report, size_t report_length, size_t *place, size_t *loops,
                         size_t *vertices, size_t *entries, uint32_t pitch)
{
    struct reference_report_answer answer;
    reference_report(words, words_count, corners, corners_count, grid, grid_length, rings, rings_length, records, records_length,
                     report, report_length, pitch, &answer);
    *place = answer.place;
    *loops = answer.loops;
    *vertices = answer.vertices;
    *entries = answer.entries;
    return (uint32_t)answer.number;
}

uint32_t wazelpunt_judge(const uint32_t *words, size_t words_count, const uint16_t *corners, size_t corners_count,
                         const uint16_t *states, size_t states_count, const uint16_t *set, size_t set_count, int32_t *grid,
                         size_t grid_length, uint16_t *rings, size_t rings_length, uint16_t *lengths, size_t lengths_length,
                         size_t *place, size_t *loops, size_t *vertices, uint32_t pitch)
{
    struct reference_answer answer;
    reference_check(words, words_count, corners, corners_count, states, states_count, set, set_count, grid, grid_length,
                    rings, rings_length, lengths, lengths_length, pitch, &answer);
    *place = answer.place;
    *loops = answer.loops;
    *vertices = answer.vertices;
    return (uint32_t)answer.number;
}

uint32_t wazelpunt_read(const uint8_t *text, size_t text_length, uint32_t *words, size_t words_length, uint16_t *corners,
                        size_t corners_length, size_t *place, size_t *words_read, size_t *corners_read, uint32_t *pitch)
{
    struct reference_read_answer answer;
    reference_read(text, text_length, words, words_length, corners, corners_length, &answer);
    *place = answer.place;
    *words_read = answer.words;
    *corners_read = answer.corners;
    *pitch = (uint32_t)answer.pitch;
    return (uint32_t)answer.number;
}

uint32_t wazelpunt_read_stl(const uint8_t *file, size_t file_length, uint32_t *words, size_t words_length, uint16_t *corners,
                            size_t corners_length, size_t *place, size_t *words_read, size_t *corners_read)
{
    struct reference_read_answer answer;
    reference_read_stl(file, file_length, words, words_length, corners, corners_length, &answer);
    *place = answer.place;
    *words_read = answer.words;
    *corners_read = answer.corners;
    return (uint32_t)answer.number;
}

uint32_t wazelpunt_size_stl(size_t length, uint32_t count)
{
    return (uint32_t)reference_size_stl(length, count);
}

size_t wazelpunt_facet(const uint8_t *file, size_t file_length, size_t *at, float *floats, size_t floats_length)
{
    return reference_facet(file, file_length, at, floats, floats_length);
}

uint32_t wazelpunt_write(const uint32_t *words, size_t words_count, const uint16_t *corners, size_t corners_count,
                         uint8_t *text, size_t text_length, size_t *place, size_t *bytes, uint32_t pitch)
{
    struct reference_write_answer answer;
    reference_write(words, words_count, corners, corners_count, text, text_length, pitch, &answer);
    *place = answer.place;
    *bytes = answer.bytes;
    return (uint32_t)answer.number;
}

uint32_t wazelpunt_read_set(const uint8_t *text, size_t text_length, uint16_t before, uint16_t *states, size_t states_length,
                            uint16_t *corners, size_t corners_length, size_t *place, size_t *states_read, size_t *corners_read)
{
    struct reference_set_answer answer;
    reference_read_set(text, text_length, (size_t)before + 1, states, states_length, corners, corners_length, &answer);
    *place = answer.place;
    *states_read = answer.states;
    *corners_read = answer.corners;
    return (uint32_t)answer.number;
}

/* ---- The functions over whole texts ---- */

/* A sheet and a set as read, with room for all that the programs are lent. */
static struct {
    uint32_t words[REFERENCE_MOST_WORDS];
    uint16_t corners[REFERENCE_MOST_CORNERS];
    uint16_t set_states[REFERENCE_MOST_STATES];
    uint16_t set_corners[REFERENCE_MOST_PATCH_CORNERS];
    int32_t grid[REFERENCE_MOST_WORDS];
    uint16_t rings[REFERENCE_MOST_CORNERS];
    uint16_t lengths[REFERENCE_MOST_TRIANGLES];
    uint64_t records[REFERENCE_MOST_RECORDS];
    uint16_t patches[REFERENCE_MOST_PATCH_CORNERS];
    uint16_t report[REFERENCE_MOST_REPORT];
} desk;

/* What is printed, before it is copied to the caller: snprintf puts a NUL behind it, for which the caller lends no room. */
static struct {
    char bytes[WAZELPUNT_LISTING_BYTES + 1];
    size_t length;
} printed;

/* Refuses a lent buffer that is shorter than `least`. */
static uint32_t begin(size_t out_length, size_t least, size_t *place, size_t *bytes)
{
    printed.length = 0;
    *bytes = 0;
    *place = out_length < least ? 1 : 0;
    return out_length < least ? WAZELPUNT_BUFFER : 0;
}

static uint32_t end(uint8_t *out, size_t *bytes)
{
    memcpy(out, printed.bytes, printed.length);
    *bytes = printed.length;
    return 0;
}

static void print_number(const char *before, uint64_t number, const char *after)
{
    printed.length += (size_t)snprintf(printed.bytes + printed.length, sizeof printed.bytes - printed.length, "%s%llu%s", before,
                                       (unsigned long long)number, after);
}

static void print_answer(size_t number, size_t place)
{
    print_number("answer=", number, "");
    print_number(",", place, "\n");
}

static void print_list(const char *key, const uint16_t *values, size_t count)
{
    for (size_t v = 0; v < count; v++) {
        print_number(v == 0 ? key : ",", values[v], v + 1 == count ? "\n" : "");
    }
}

static void print_loops(size_t loops)
{
    const uint16_t *ring = desk.rings;
    const uint16_t *patch = desk.patches;
    print_number("loops=", loops, "\n");
    for (size_t loop = 0; loop < loops; loop++) {
        const struct wazelpunt_record record = wazelpunt_record_at(desk.records, REFERENCE_MOST_RECORDS, loop);
        size_t length = (size_t)record.length;
        print_number("loop=", record.length, "");
        print_number(",", record.state, "");
        print_number(",", record.weight, "");
        print_number(",", record.first, "");
        print_number(",", record.piece, "");
        print_number(",", record.run, "\n");
        print_list("ring=", ring, length);
        ring += length;
        for (size_t t = 0; record.state == WAZELPUNT_PATCHED && t < length - 2; t++) {
            print_list("patch=", patch, 3);
            patch += 3;
        }
    }
}

static struct reference_read_answer read_sheet(const uint8_t *text, size_t length)
{
    struct reference_read_answer answer;
    reference_read(text, length, desk.words, REFERENCE_MOST_WORDS, desk.corners, REFERENCE_MOST_CORNERS, &answer);
    return answer;
}

uint32_t wazelpunt_list_text(const uint8_t *text, size_t text_length, uint8_t *out, size_t out_length, size_t *place, size_t *bytes)
{
    if (begin(out_length, WAZELPUNT_LISTING_BYTES, place, bytes) != 0) {
        return WAZELPUNT_BUFFER;
    }
    struct reference_read_answer sheet = read_sheet(text, text_length);
    struct reference_patch_answer patched = {.number = sheet.number, .place = sheet.place};
    if (sheet.number == 0) {
        reference_patch(desk.words, sheet.words, desk.corners, sheet.corners, desk.grid, REFERENCE_MOST_WORDS,
                        desk.rings, REFERENCE_MOST_CORNERS, desk.records, REFERENCE_MOST_RECORDS,
                        desk.patches, REFERENCE_MOST_PATCH_CORNERS, (uint32_t)sheet.pitch, &patched);
    }
    print_answer(patched.number, patched.place);
    if (patched.number == 0) {
        print_loops(patched.loops);
    }
    return end(out, bytes);
}

uint32_t wazelpunt_chart_text(const uint8_t *text, size_t text_length, uint8_t *out, size_t out_length, size_t *place, size_t *bytes)
{
    if (begin(out_length, WAZELPUNT_REPORT_BYTES, place, bytes) != 0) {
        return WAZELPUNT_BUFFER;
    }
    struct reference_read_answer sheet = read_sheet(text, text_length);
    struct reference_report_answer told = {.number = sheet.number, .place = sheet.place};
    if (sheet.number == 0) {
        reference_report(desk.words, sheet.words, desk.corners, sheet.corners, desk.grid, REFERENCE_MOST_WORDS,
                         desk.rings, REFERENCE_MOST_CORNERS, desk.records, REFERENCE_MOST_RECORDS,
                         desk.report, REFERENCE_MOST_REPORT, (uint32_t)sheet.pitch, &told);
    }
    print_answer(told.number, told.place);
    if (told.number == 0) {
        print_number("entries=", told.entries, "\n");
        for (size_t entry = 0; entry < told.entries; entry++) {
            print_list("entry=", desk.report + WAZELPUNT_ENTRY * entry, WAZELPUNT_ENTRY);
        }
    }
    return end(out, bytes);
}

static size_t count_lines(const uint8_t *text, size_t length)
{
    size_t lines = 0;
    for (size_t b = 0; b < length; b++) {
        lines += text[b] == '\n';
    }
    return lines;
}

/* The verdict on texts: a wrong line of the sheet, then of the set, whose lines are counted on, and then everything else. */
static struct reference_answer judge(const uint8_t *sheet_text, size_t sheet_length, const uint8_t *set_text, size_t set_length)
{
    struct reference_read_answer sheet = read_sheet(sheet_text, sheet_length);
    if (sheet.number == WAZELPUNT_LINE) {
        return (struct reference_answer){.number = sheet.number, .place = sheet.place};
    }
    struct reference_set_answer set;
    reference_read_set(set_text, set_length, count_lines(sheet_text, sheet_length) + 1, desk.set_states, REFERENCE_MOST_STATES,
                       desk.set_corners, REFERENCE_MOST_PATCH_CORNERS, &set);
    if (set.number != 0) {
        return (struct reference_answer){.number = set.number, .place = set.place};
    }
    if (sheet.number != 0) {
        return (struct reference_answer){.number = sheet.number, .place = sheet.place};
    }
    struct reference_answer verdict;
    reference_check(desk.words, sheet.words, desk.corners, sheet.corners, desk.set_states, set.states, desk.set_corners, set.corners,
                    desk.grid, REFERENCE_MOST_WORDS, desk.rings, REFERENCE_MOST_CORNERS, desk.lengths, REFERENCE_MOST_TRIANGLES,
                    (uint32_t)sheet.pitch, &verdict);
    return verdict;
}

uint32_t wazelpunt_judge_texts(const uint8_t *sheet, size_t sheet_length, const uint8_t *set, size_t set_length, uint8_t *out,
                               size_t out_length, size_t *place, size_t *bytes)
{
    if (begin(out_length, WAZELPUNT_ANSWER_BYTES, place, bytes) != 0) {
        return WAZELPUNT_BUFFER;
    }
    struct reference_answer verdict = judge(sheet, sheet_length, set, set_length);
    print_answer(verdict.number, verdict.place);
    return end(out, bytes);
}

/* The text of the sheet that was read, or the answer's line. */
static uint32_t print_sheet(const struct reference_read_answer *sheet, uint8_t *out, size_t out_length, size_t *bytes)
{
    if (sheet->number != 0) {
        print_answer(sheet->number, sheet->place);
        return end(out, bytes);
    }
    struct reference_write_answer written;
    reference_write(desk.words, sheet->words, desk.corners, sheet->corners, out, out_length, (uint32_t)sheet->pitch, &written);
    *bytes = written.bytes;
    return (uint32_t)written.number;
}

uint32_t wazelpunt_rewrite_text(const uint8_t *text, size_t text_length, uint8_t *out, size_t out_length, size_t *place, size_t *bytes)
{
    if (begin(out_length, WAZELPUNT_SHEET_BYTES, place, bytes) != 0) {
        return WAZELPUNT_BUFFER;
    }
    struct reference_read_answer sheet = read_sheet(text, text_length);
    return print_sheet(&sheet, out, out_length, bytes);
}

uint32_t wazelpunt_import_stl(const uint8_t *file, size_t file_length, uint8_t *out, size_t out_length, size_t *place, size_t *bytes)
{
    if (begin(out_length, WAZELPUNT_SHEET_BYTES, place, bytes) != 0) {
        return WAZELPUNT_BUFFER;
    }
    struct reference_read_answer sheet;
    reference_read_stl(file, file_length, desk.words, REFERENCE_MOST_WORDS, desk.corners, REFERENCE_MOST_CORNERS, &sheet);
    return print_sheet(&sheet, out, out_length, bytes);
}
