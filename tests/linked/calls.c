/* calls LIBRARY SHEET PATCHES: loads the shared library and calls each of its functions by the header's declaration, on the texts of
   examples/plate: with lent buffers that are as long as the header's factors say and not a number longer, with each of them a number
   shorter, with nothing at all, and at each pitch. The plate is made a file of facets besides, and so is the largest surface. Records and
   entries are read out of numbers of any length by the header's own functions. */
#include <dlfcn.h>
#include <stdio.h>
#include <string.h>

#include "wazelpunt.h"

#define LENGTH(array) (sizeof(array) / sizeof(array)[0])

/* The plate. */
enum { W = 18, C = 18, T = C / 3, LINES = 14 };

static unsigned tried, wrong;

static void expect(const char *what, int holds)
{
    tried++;
    if (holds) return;
    wrong++;
    printf("calls: not so: %s\n", what);
}

static __typeof__(wazelpunt_coordinate) *coordinate;
static __typeof__(wazelpunt_survey) *survey;
static __typeof__(wazelpunt_patch) *patch;
static __typeof__(wazelpunt_chart) *chart;
static __typeof__(wazelpunt_judge) *judge;
static __typeof__(wazelpunt_read) *read_sheet;
static __typeof__(wazelpunt_read_set) *read_set;
static __typeof__(wazelpunt_write) *write_sheet;
static __typeof__(wazelpunt_list_text) *list_text;
static __typeof__(wazelpunt_chart_text) *chart_text;
static __typeof__(wazelpunt_judge_texts) *judge_texts;
static __typeof__(wazelpunt_rewrite_text) *rewrite_text;
static __typeof__(wazelpunt_read_stl) *read_stl;
static __typeof__(wazelpunt_size_stl) *size_stl;
static __typeof__(wazelpunt_import_stl) *import_stl;
static __typeof__(wazelpunt_facet) *hand_out;

/* C has no conversion from dlsym's pointer to that of a function; their bytes are the same. */
static void find(void *library, const char *name, void *function, size_t size)
{
    void *found = dlsym(library, name);
    expect(name, found != NULL);
    memcpy(function, &found, size);
}
#define FIND(name, function) find(library, name, &(function), sizeof(function))

static int load(const char *path)
{
    void *library = dlopen(path, RTLD_NOW | RTLD_LOCAL);
    if (!library) return printf("calls: %s\n", dlerror()), 0;
    FIND("wazelpunt_coordinate", coordinate);
    FIND("wazelpunt_survey", survey);
    FIND("wazelpunt_patch", patch);
    FIND("wazelpunt_chart", chart);
    FIND("wazelpunt_judge", judge);
    FIND("wazelpunt_read", read_sheet);
    FIND("wazelpunt_read_set", read_set);
    FIND("wazelpunt_write", write_sheet);
    FIND("wazelpunt_list_text", list_text);
    FIND("wazelpunt_chart_text", chart_text);
    FIND("wazelpunt_judge_texts", judge_texts);
    FIND("wazelpunt_rewrite_text", rewrite_text);
    FIND("wazelpunt_read_stl", read_stl);
    FIND("wazelpunt_size_stl", size_stl);
    FIND("wazelpunt_import_stl", import_stl);
    FIND("wazelpunt_facet", hand_out);
    return wrong == 0;
}

static uint8_t sheet[1000], set[1000];
static size_t sheet_length, set_length;

static int load_texts(const char *sheet_name, const char *set_name)
{
    FILE *first = fopen(sheet_name, "rb"), *second = fopen(set_name, "rb");
    if (!first || !second) return perror("calls"), 0;
    sheet_length = fread(sheet, 1, sizeof sheet, first);
    set_length = fread(set, 1, sizeof set, second);
    fclose(first);
    fclose(second);
    return 1;
}

static uint32_t words[W];
static uint16_t corners[C], set_states[2], set_corners[3];
static int32_t grid[WAZELPUNT_GRID_FOR(W)];
static uint16_t rings[WAZELPUNT_RINGS_FOR(C)], lengths[WAZELPUNT_LENGTHS_FOR(C)], patches[WAZELPUNT_PATCHES_FOR(C)];
static uint64_t records[WAZELPUNT_RECORDS_FOR(C)];
static uint16_t report[WAZELPUNT_REPORT_FOR(C)];
static size_t place, first, second, third;

/* The pitch at which everything is called, and what reading leaves. */
static uint32_t pitch = 1, pitch_read;

/* Each with lent buffer `less` a number shorter; none is if that is 0. */
static size_t but(size_t length, int buffer, int less) { return length - (buffer == less); }

static uint32_t do_survey(int less)
{
    return survey(words, W, corners, C, grid, but(LENGTH(grid), 1, less), rings, but(LENGTH(rings), 2, less), lengths,
                  but(LENGTH(lengths), 3, less), &place, &first, &second, pitch);
}

/* With so many numbers of records. */
static uint32_t patch_with(int less, size_t numbers)
{
    return patch(words, W, corners, C, grid, but(LENGTH(grid), 1, less), rings, but(LENGTH(rings), 2, less), records, numbers, patches,
                 but(LENGTH(patches), 4, less), &place, &first, &second, &third, pitch);
}

static uint32_t do_patch(int less) { return patch_with(less, but(LENGTH(records), 3, less)); }

/* With so many numbers of the report. */
static uint32_t chart_with(int less, size_t numbers)
{
    return chart(words, W, corners, C, grid, but(LENGTH(grid), 1, less), rings, but(LENGTH(rings), 2, less), records,
                 but(LENGTH(records), 3, less), report, numbers, &place, &first, &second, &third, pitch);
}

static uint32_t do_chart(int less) { return chart_with(less, but(LENGTH(report), 4, less)); }

static uint32_t do_judge(int less)
{
    return judge(words, W, corners, C, set_states, LENGTH(set_states), set_corners, LENGTH(set_corners), grid, but(LENGTH(grid), 1, less),
                 rings, but(LENGTH(rings), 2, less), lengths, but(LENGTH(lengths), 3, less), &place, &first, &second, pitch);
}

static uint32_t do_read(int less)
{
    pitch_read = 77;
    return read_sheet(sheet, sheet_length, words, but(LENGTH(words), 1, less), corners, but(LENGTH(corners), 2, less), &place, &first,
                      &second, &pitch_read);
}

static uint32_t do_read_set(int less)
{
    return read_set(set, set_length, LINES, set_states, but(LENGTH(set_states), 1, less), set_corners, but(LENGTH(set_corners), 2, less),
                    &place, &first, &second);
}

static uint8_t written[WAZELPUNT_SHEET_BYTES], listing[WAZELPUNT_LISTING_BYTES], charted[WAZELPUNT_REPORT_BYTES], answer[WAZELPUNT_ANSWER_BYTES];

static uint32_t do_write(int less) { return write_sheet(words, W, corners, C, written, but(sheet_length, 1, less), &place, &first, pitch); }
static uint32_t do_list(int less) { return list_text(sheet, sheet_length, listing, but(LENGTH(listing), 1, less), &place, &first); }
static uint32_t do_chart_text(int less) { return chart_text(sheet, sheet_length, charted, but(LENGTH(charted), 1, less), &place, &first); }
static uint32_t do_rewrite(int less) { return rewrite_text(sheet, sheet_length, written, but(LENGTH(written), 1, less), &place, &first); }
static uint32_t do_judge_texts(int less)
{
    return judge_texts(sheet, sheet_length, set, set_length, answer, but(LENGTH(answer), 1, less), &place, &first);
}

/* The function is done with these buffers, and refuses each of them that is a number shorter. */
static void fits(const char *what, uint32_t (*call)(int less), int buffers)
{
    place = 77;
    expect(what, call(0) == WAZELPUNT_DONE && place == 0);
    for (int less = 1; less <= buffers; less++) {
        place = first = 77;
        expect(what, call(less) == WAZELPUNT_BUFFER && place == (size_t)less && first == 0);
    }
    expect(what, call(0) == WAZELPUNT_DONE && place == 0);
}

/* Whether a record has these numbers. */
static int is(struct wazelpunt_record record, uint64_t length, uint64_t state, uint64_t weight, uint64_t half_edge, uint64_t run)
{
    return record.length == length && record.state == state && record.weight == weight && record.count == 0 && record.first == half_edge
        && record.piece == 0 && record.run == run;
}

static struct wazelpunt_record record_of(size_t loop) { return wazelpunt_record_at(records, LENGTH(records), loop); }

static void mark_lent(void)
{
    memset(grid, 0x77, sizeof grid);
    memset(rings, 0x77, sizeof rings);
    memset(records, 0x77, sizeof records);
    memset(patches, 0x77, sizeof patches);
    memset(report, 0x77, sizeof report);
}

static int is_marked(const void *numbers, size_t used, size_t size)
{
    const uint8_t *bytes = (const uint8_t *)numbers;
    for (size_t byte = used; byte < size; byte++)
        if (bytes[byte] != 0x77) return 0;
    return 1;
}

/* Whether the buffers that patching and charting share are as they were behind so much of each. */
static int stays_behind_both(size_t words_used, size_t vertices_used, size_t loops_used)
{
    return is_marked(grid, words_used * sizeof grid[0], sizeof grid) && is_marked(rings, vertices_used * sizeof rings[0], sizeof rings)
        && is_marked(records, loops_used * sizeof(struct wazelpunt_record), sizeof records);
}

/* Whether the patcher's buffers are. */
static int stays_behind(size_t words_used, size_t vertices_used, size_t loops_used, size_t laid_used)
{
    return stays_behind_both(words_used, vertices_used, loops_used) && is_marked(patches, laid_used * sizeof patches[0], sizeof patches);
}

/* Whether those of charting are. */
static int stays_behind_entries(size_t words_used, size_t vertices_used, size_t loops_used, size_t entries_used)
{
    return stays_behind_both(words_used, vertices_used, loops_used)
        && is_marked(report, entries_used * sizeof(struct wazelpunt_entry), sizeof report);
}

/* What the patcher leaves of a surface with two loops stays as it was behind their records, and all of it where it is refused: records that
   are long enough for six numbers of each loop are not long enough. */
static void call_patch(void)
{
    static const size_t short_records[] = {0, 1, T, 6 * T, 6 * T + 1, 7 * T - 1};
    mark_lent();
    expect("patched", do_patch(0) == 0 && stays_behind(W, 6, 2, 3));
    expect("a rim and a patch", first == 2 && second == 6 && third == 3);
    expect("the record of the rim", is(record_of(0), 3, WAZELPUNT_RIM, 0, 0, 120));
    expect("the record of the patch", is(record_of(1), 3, WAZELPUNT_PATCHED, 100, 4, 40));
    expect("its corners", patches[0] == 4 && patches[1] == 5 && patches[2] == 3);
    for (int less = 1; less <= 4; less++) {
        mark_lent();
        place = first = second = third = 77;
        expect("a short buffer", do_patch(less) == WAZELPUNT_BUFFER && place == (size_t)less && stays_behind(0, 0, 0, 0));
        expect("no counts then", first == 0 && second == 0 && third == 0);
    }
    for (size_t s = 0; s < LENGTH(short_records); s++) {
        mark_lent();
        expect("short records", patch_with(0, short_records[s]) == WAZELPUNT_BUFFER && place == 3 && stays_behind(0, 0, 0, 0));
        expect("are told before short patches", patch_with(4, short_records[s]) == WAZELPUNT_BUFFER && place == 3);
    }
}

/* Whether an entry of the report is that. */
static int is_entry(size_t entry, uint16_t kind, uint16_t number)
{
    struct wazelpunt_entry told = wazelpunt_entry_at(report, LENGTH(report), entry);
    return told.kind == kind && told.number == number;
}

/* The plate is one piece with a rim and a lake. What charting leaves stays as it was behind its entries, and all of it where it is refused:
   a report that is long enough for an entry a triangle is not long enough. */
static void call_chart(void)
{
    static const size_t short_reports[] = {0, 1, 2 * T, 2 * T + 1, 3 * T, 4 * T - 1};
    uint64_t kept[LENGTH(records)];
    mark_lent();
    expect("patched again", do_patch(0) == 0);
    memcpy(kept, records, sizeof kept);
    mark_lent();
    expect("charted", do_chart(0) == 0 && stays_behind_entries(W, 6, 2, 3));
    expect("two loops and three entries", first == 2 && second == 6 && third == 3);
    expect("a piece, its rim and its lake",
           is_entry(0, WAZELPUNT_ENTRY_PIECE, 0) && is_entry(1, WAZELPUNT_ENTRY_RIM, 0) && is_entry(2, WAZELPUNT_ENTRY_LAKE, 1));
    expect("the grid and the rings", grid[3] == 30 && grid[17] == 0 && rings[2] == 2 && rings[3] == 4 && rings[5] == 5);
    expect("the patcher's records", memcmp(records, kept, sizeof kept) == 0);
    expect("no patches", is_marked(patches, 0, sizeof patches));
    /* the hole reaches corner 2 of the plate where its fourth triangle is left out */
    memmove(corners + 9, corners + 12, 6 * sizeof corners[0]);
    mark_lent();
    expect("a hole at the rim", chart(words, W, corners, C - 3, grid, LENGTH(grid), rings, LENGTH(rings), records, LENGTH(records), report,
                                      LENGTH(report), &place, &first, &second, &third, pitch) == 0 && stays_behind_entries(W, 7, 2, 3));
    expect("is a tide pool",
           is_entry(0, WAZELPUNT_ENTRY_PIECE, 0) && is_entry(1, WAZELPUNT_ENTRY_RIM, 1) && is_entry(2, WAZELPUNT_ENTRY_POOL, 0));
    do_read(0);
    for (int less = 1; less <= 4; less++) {
        mark_lent();
        place = first = second = third = 77;
        expect("a short buffer", do_chart(less) == WAZELPUNT_BUFFER && place == (size_t)less && stays_behind_entries(0, 0, 0, 0));
        expect("no counts then", first == 0 && second == 0 && third == 0);
    }
    for (size_t s = 0; s < LENGTH(short_reports); s++) {
        mark_lent();
        expect("a short report", chart_with(0, short_reports[s]) == WAZELPUNT_BUFFER && place == 4 && stays_behind_entries(0, 0, 0, 0));
        expect("is told behind short records", chart_with(3, short_reports[s]) == WAZELPUNT_BUFFER && place == 3);
    }
}

static int is_nothing(struct wazelpunt_record record)
{
    static const uint64_t nothing[7];
    return memcmp(&record, nothing, sizeof nothing) == 0;
}

/* A number that stands at that place and nowhere else; it has more than 32 bits. */
static uint64_t number_at(size_t place_there) { return UINT64_C(0x100000001) * (place_there + 1); }

/* Whether the record of a loop, read out of so many such numbers, has its own seven. */
static int is_read(const uint64_t *numbers, size_t count, size_t loop)
{
    struct wazelpunt_record record = wazelpunt_record_at(numbers, count, loop);
    size_t begin = 7 * loop;
    return record.length == number_at(begin) && record.state == number_at(begin + 1) && record.weight == number_at(begin + 2)
        && record.count == number_at(begin + 3) && record.first == number_at(begin + 4) && record.piece == number_at(begin + 5)
        && record.run == number_at(begin + 6);
}

/* A record is read out if all of it lies within the numbers, and elsewhere there is nothing. */
static void read_records(void)
{
    uint64_t numbers[23];
    struct wazelpunt_record records_there[3];
    for (size_t i = 0; i < LENGTH(numbers); i++) numbers[i] = number_at(i);
    expect("a record is seven numbers", sizeof(struct wazelpunt_record) == 7 * sizeof(uint64_t) && WAZELPUNT_RECORD == 7);
    expect("and aligned as they are", _Alignof(struct wazelpunt_record) == _Alignof(uint64_t));
    memcpy(records_there, numbers, sizeof records_there);
    for (size_t count = 0; count <= LENGTH(numbers); count++) {
        for (size_t loop = 0; loop < 5; loop++)
            expect("a record that is there, or nothing", loop < count / 7 ? is_read(numbers, count, loop)
                                                                         : is_nothing(wazelpunt_record_at(numbers, count, loop)));
        expect("nothing at the greatest number", is_nothing(wazelpunt_record_at(numbers, count, SIZE_MAX)));
        /* modulo 2^64 seven times these are -2, 5 and 8 */
        expect("nothing at numbers that wrap round", is_nothing(wazelpunt_record_at(numbers, count, SIZE_MAX / 7))
                                                         && is_nothing(wazelpunt_record_at(numbers, count, SIZE_MAX / 7 + 1))
                                                         && is_nothing(wazelpunt_record_at(numbers, count, SIZE_MAX / 7 * 3 + 2)));
    }
    expect("nothing in six numbers, one record in seven", is_nothing(wazelpunt_record_at(numbers, 6, 0)) && is_read(numbers, 7, 0)
                                                              && is_nothing(wazelpunt_record_at(numbers, 7, 1)));
    expect("out of as many numbers as can be", is_read(numbers, SIZE_MAX, 2));
    for (size_t loop = 0; loop < 3; loop++) {
        struct wazelpunt_record record = wazelpunt_record_at(numbers, 21, loop);
        expect("the numbers themselves are records", memcmp(&records_there[loop], &record, sizeof record) == 0);
    }
}

/* Whether the entry at that place of so many numbers, which are 100 and on, is its own two, or none where it is not wholly there. */
static int is_read_entry(const uint16_t *numbers, size_t count, size_t entry)
{
    struct wazelpunt_entry told = wazelpunt_entry_at(numbers, count, entry);
    if (entry >= count / 2) return told.kind == WAZELPUNT_ENTRY_NOTHING && told.number == 0;
    return told.kind == 100 + 2 * entry && told.number == 101 + 2 * entry;
}

static void read_entries(void)
{
    uint16_t numbers[9];
    for (size_t i = 0; i < LENGTH(numbers); i++) numbers[i] = (uint16_t)(100 + i);
    expect("an entry is two numbers", sizeof(struct wazelpunt_entry) == 2 * sizeof(uint16_t) && WAZELPUNT_ENTRY == 2);
    expect("and aligned as they are", _Alignof(struct wazelpunt_entry) == _Alignof(uint16_t));
    for (size_t count = 0; count <= LENGTH(numbers); count++) {
        for (size_t entry = 0; entry < 6; entry++) expect("an entry that is there, or nothing", is_read_entry(numbers, count, entry));
        expect("nothing at the greatest numbers", is_read_entry(numbers, count, SIZE_MAX) && is_read_entry(numbers, count, SIZE_MAX / 2)
                                                      && is_read_entry(numbers, count, SIZE_MAX / 2 + 1));
    }
    expect("out of as many numbers as can be", is_read_entry(numbers, SIZE_MAX, 3));
}

static int holds(const uint8_t *bytes, size_t count, const char *due) { return count == strlen(due) && memcmp(bytes, due, count) == 0; }

static void call_numbers(void)
{
    fits("read", do_read, 2);
    expect("18 words and corners are read", first == W && second == C && words[3] == 0x41f00000 && corners[17] == 5);
    expect("at pitch 1, and at none where it is refused", pitch_read == 1 && do_read(2) == WAZELPUNT_BUFFER && pitch_read == 0);
    fits("survey", do_survey, 3);
    expect("two loops of three", first == 2 && second == 6 && lengths[0] == 3 && lengths[1] == 3);
    expect("their rings, and the grid", rings[2] == 2 && rings[3] == 4 && rings[5] == 5 && grid[3] == 30 && grid[17] == 0);
    fits("patch", do_patch, 4);
    call_patch();
    fits("chart", do_chart, 4);
    call_chart();
    fits("read_set", do_read_set, 2);
    expect("two states and three corners are read", first == 2 && second == 3 && set_states[0] == 4 && set_corners[1] == 5);
    fits("judge", do_judge, 3);
    set_states[1] = WAZELPUNT_OPEN;
    expect("a loop that is declared wrong", do_judge(0) == WAZELPUNT_MISDECLARED && place == 1 && first == 2);
}

static void call_texts(void)
{
    fits("write", do_write, 1);
    expect("the same text", first == sheet_length && memcmp(written, sheet, sheet_length) == 0);
    memset(written, 0, sizeof written);
    fits("rewrite_text", do_rewrite, 1);
    expect("the same text again", first == sheet_length && memcmp(written, sheet, sheet_length) == 0);
    fits("list_text", do_list, 1);
    expect("its listing", holds(listing, first, "answer=0,0\nloops=2\nloop=3,4,0,0,0,120\nring=0,1,2\nloop=3,1,100,4,0,40\nring=4,3,5\n"
                                             "patch=4,5,3\n"));
    fits("chart_text", do_chart_text, 1);
    expect("its report", holds(charted, first, "answer=0,0\nentries=3\nentry=0,0\nentry=1,0\nentry=3,1\n"));
    fits("judge_texts", do_judge_texts, 1);
    expect("its answer", holds(answer, first, "answer=0,0\n"));
    sheet[0] = 'P';
    expect("a wrong text is no refusal of the call", do_list(0) == 0 && place == 0 && holds(listing, first, "answer=10,1\n"));
    expect("of charting either", do_chart_text(0) == 0 && place == 0 && holds(charted, first, "answer=10,1\n"));
}

/* A file of facets, with room for a facet too many; what is read of it, with a number more behind it that has to stay; and the floats of
   a facet, with one more. */
static uint8_t file[WAZELPUNT_STL_BYTES + WAZELPUNT_STL_FACET_BYTES];
static size_t file_length;
static uint32_t file_words[WAZELPUNT_WORDS + 1];
static uint16_t file_corners[WAZELPUNT_CORNERS + 1];
static float floats[10];
static size_t at;

/* Bytes that are not looked at are 0xa5. */
static void begin_file(uint32_t count)
{
    memset(file, 0xa5, sizeof file);
    for (size_t byte = 0; byte < 4; byte++) file[80 + byte] = (uint8_t)(count >> 8 * byte);
    file_length = WAZELPUNT_STL_FRONT + count * WAZELPUNT_STL_FACET_BYTES;
}

/* The words of corner `corner` go to their place. */
static void put_corner(size_t corner, uint32_t x, uint32_t y, uint32_t z)
{
    uint8_t *to = file + WAZELPUNT_STL_FRONT + corner / 3 * WAZELPUNT_STL_FACET_BYTES + 12 + corner % 3 * 12;
    for (size_t byte = 0; byte < 4; byte++) {
        to[byte] = (uint8_t)(x >> 8 * byte);
        to[4 + byte] = (uint8_t)(y >> 8 * byte);
        to[8 + byte] = (uint8_t)(z >> 8 * byte);
    }
}

/* So many facets on so many points: the corners are the points in their order, over and over. */
static void make_file(uint32_t facets, uint32_t points)
{
    begin_file(facets);
    for (uint32_t corner = 0; corner < 3 * facets; corner++) put_corner(corner, 1 + corner % points, 2, 3);
}

static void make_plate_file(void)
{
    begin_file(T);
    for (size_t c = 0; c < C; c++) put_corner(c, words[3 * corners[c]], words[3 * corners[c] + 1], words[3 * corners[c] + 2]);
}

static uint32_t do_read_stl(int less)
{
    memset(file_words, 0x77, sizeof file_words);
    memset(file_corners, 0x77, sizeof file_corners);
    return read_stl(file, file_length, file_words, but(W, 1, less), file_corners, but(C, 2, less), &place, &first, &second);
}

static uint32_t do_read_largest(int less)
{
    return read_stl(file, file_length, file_words, but(WAZELPUNT_WORDS, 1, less), file_corners, but(WAZELPUNT_CORNERS, 2, less), &place,
                    &first, &second);
}

static uint32_t do_import(int less)
{
    memset(written, 0, sizeof written);
    return import_stl(file, file_length, written, but(LENGTH(written), 1, less), &place, &first);
}

static uint32_t bits_of(float number)
{
    uint32_t bits;
    memcpy(&bits, &number, sizeof bits);
    return bits;
}

/* The facets of the plate one after the other, by the corners of the sheet. */
static void hand_out_plate(void)
{
    at = WAZELPUNT_STL_FRONT;
    for (size_t facet = 0; facet < T; facet++) {
        int same = 1;
        floats[9] = 77;
        expect("a facet is handed out", hand_out(file, file_length, &at, floats, 9) == 9 && floats[9] == 77);
        for (size_t i = 0; i < 9; i++) same &= bits_of(floats[i]) == words[3 * corners[3 * facet + i / 3] + i % 3];
        expect("its floats are the sheet's words", same && at == 84 + 50 * (facet + 1));
    }
}

static void no_facet_at(size_t where, size_t room)
{
    at = where;
    floats[0] = 77;
    expect("no facet is there", hand_out(file, file_length, &at, floats, room) == 0);
    expect("and nothing is changed", at == where && floats[0] == 77);
}

static void call_facets(void)
{
    make_plate_file();
    hand_out_plate();
    no_facet_at(file_length, 9);
    no_facet_at(file_length - 49, 9);
    no_facet_at(SIZE_MAX, 9);
    no_facet_at(SIZE_MAX - 48, 9);
    no_facet_at(84, 8);
    no_facet_at(84, 0);
    at = 0;
    expect("it goes by the bytes alone", hand_out(file, 50, &at, floats, 10) == 9 && at == 50 && bits_of(floats[8]) == 0xa5a5a5a5);
    put_corner(0, 0x80000000, 0xff812345, 0x80000001);
    at = 84;
    expect("a facet that is changed", hand_out(file, file_length, &at, floats, 9) == 9);
    expect("negative zero, no number, and what is kept",
           bits_of(floats[0]) == 0 && bits_of(floats[1]) == 0x7fc00000 && bits_of(floats[2]) == 0x80000001);
}

static void call_files(void)
{
    static const uint16_t by_first_use[C] = {0, 1, 2, 1, 3, 2, 1, 4, 3, 4, 5, 3, 4, 0, 5, 0, 2, 5};
    make_plate_file();
    fits("read_stl", do_read_stl, 2);
    expect("18 words and corners of the file", first == W && second == C && memcmp(file_corners, by_first_use, sizeof by_first_use) == 0);
    expect("point 2 is the sheet's point 3", memcmp(file_words, words, 6 * sizeof words[0]) == 0 && file_words[6] == words[9]);
    expect("what lies behind stays", file_words[W] == 0x77777777 && file_corners[C] == 0x7777);
    expect("a short buffer stays", do_read_stl(2) == WAZELPUNT_BUFFER && file_words[0] == 0x77777777 && file_corners[0] == 0x7777);
    expect("words are told before corners", read_stl(file, file_length, file_words, W - 1, file_corners, C - 1, &place, &first, &second)
                                                == WAZELPUNT_BUFFER && place == 1);
    fits("import_stl", do_import, 1);
    expect("its text", do_read_stl(0) == 0 && do_import(0) == 0
                           && write_sheet(file_words, W, file_corners, C, listing, LENGTH(listing), &place, &second, 1) == 0
                           && first == second && memcmp(written, listing, first) == 0 && written[first] == 0);
    file_length++;
    expect("a byte too many", do_read_stl(0) == WAZELPUNT_MISFIT && place == 0 && first == 0 && second == 0 && file_words[0] == 0x77777777);
    expect("is no refusal of the call", do_import(0) == 0 && place == 0 && holds(written, first, "answer=16,0\n"));
    file_length = 83;
    expect("83 bytes", do_read_stl(0) == WAZELPUNT_MISFIT && place == 0);
}

static void call_largest_files(void)
{
    make_file(WAZELPUNT_TRIANGLES, WAZELPUNT_POINTS);
    expect("the longest file", file_length == WAZELPUNT_STL_BYTES);
    file_words[WAZELPUNT_WORDS] = file_corners[WAZELPUNT_CORNERS] = 77;
    fits("read_stl on the longest file", do_read_largest, 2);
    expect("all its words and corners", first == WAZELPUNT_WORDS && second == WAZELPUNT_CORNERS && file_corners[1024] == 0);
    expect("and no more", file_words[WAZELPUNT_WORDS] == 77 && file_corners[WAZELPUNT_CORNERS] == 77);
    expect("its text", do_import(0) == 0 && place == 0 && first > 40000);
    make_file(WAZELPUNT_TRIANGLES, WAZELPUNT_POINTS + 1);
    expect("a point too many", do_read_largest(1) == WAZELPUNT_WRONG_WORDS && place == 0 && first == 0 && second == 0);
    expect("a point too many, told", do_import(0) == 0 && holds(written, first, "answer=1,0\n"));
    make_file(WAZELPUNT_TRIANGLES + 1, WAZELPUNT_POINTS + 1);
    expect("a facet too many", do_read_largest(1) == WAZELPUNT_WRONG_CORNERS && place == 0 && first == 0 && second == 0);
    expect("a facet too many, told", do_import(0) == 0 && holds(written, first, "answer=2,0\n"));
}

static void call_sizes(void)
{
    expect("sizes that are taken", size_stl(84, 0) == 0 && size_stl(134, 1) == 0);
    expect("the longest that is", size_stl(WAZELPUNT_STL_BYTES, WAZELPUNT_TRIANGLES) == 0);
    expect("a facet too many by its size", size_stl(51334, 1025) == WAZELPUNT_WRONG_CORNERS);
    expect("facets in 2^32 + 88 bytes", size_stl(4294967384, 85899346) == WAZELPUNT_WRONG_CORNERS);
    expect("as many as can be counted", size_stl(214748364834, UINT32_MAX) == WAZELPUNT_WRONG_CORNERS);
    expect("sizes that do not fit", size_stl(0, 0) == WAZELPUNT_MISFIT && size_stl(83, 0) == WAZELPUNT_MISFIT
                                        && size_stl(84, 1) == WAZELPUNT_MISFIT && size_stl(51335, 1025) == WAZELPUNT_MISFIT);
    expect("one that fits modulo 2^32", size_stl(88, 85899346) == WAZELPUNT_MISFIT);
    expect("the longest of all", size_stl(SIZE_MAX, UINT32_MAX) == WAZELPUNT_MISFIT);
}

/* Lengths of 0, with pointers that are not null. */
static void call_with_nothing(void)
{
    place = first = second = third = 77;
    expect("no surface", survey(words, 0, corners, 0, grid, 0, rings, 0, lengths, 0, &place, &first, &second, 1) == 0 && first == 0);
    mark_lent();
    expect("no patches", patch(words, 0, corners, 0, grid, 0, rings, 0, records, 0, patches, 0, &place, &first, &second, &third, 1) == 0
                             && place == 0 && first == 0 && second == 0 && third == 0);
    expect("no loops have no records", patch(words, 3, corners, 0, grid, LENGTH(grid), rings, LENGTH(rings), records, LENGTH(records),
                                             patches, LENGTH(patches), &place, &first, &second, &third, 1) == 0
                                           && first == 0 && stays_behind(3, 0, 0, 0));
    place = first = second = third = 77;
    expect("no report", chart(words, 0, corners, 0, grid, 0, rings, 0, records, 0, report, 0, &place, &first, &second, &third, 1) == 0
                            && place == 0 && first == 0 && second == 0 && third == 0);
    mark_lent();
    expect("no pieces have no entries", chart(words, 3, corners, 0, grid, LENGTH(grid), rings, LENGTH(rings), records, LENGTH(records),
                                              report, LENGTH(report), &place, &first, &second, &third, 1) == 0
                                            && third == 0 && stays_behind_entries(3, 0, 0, 0));
    expect("no set", judge(words, 0, corners, 0, set_states, 0, set_corners, 0, grid, 0, rings, 0, lengths, 0, &place, &first, &second, 1)
                         == 0);
    expect("no text", read_sheet(sheet, 0, words, 0, corners, 0, &place, &first, &second, &pitch_read) == WAZELPUNT_LINE && place == 1);
    expect("no text of a set", read_set(set, 0, 0, set_states, 0, corners, 0, &place, &first, &second) == WAZELPUNT_LINE && place == 1);
    expect("no text to list", list_text(sheet, 0, listing, LENGTH(listing), &place, &first) == 0 && holds(listing, first, "answer=10,1\n"));
    expect("no text to chart", chart_text(sheet, 0, charted, LENGTH(charted), &place, &first) == 0 && holds(charted, first, "answer=10,1\n"));
    expect("no texts to judge", judge_texts(sheet, 0, set, 0, answer, LENGTH(answer), &place, &first) == 0);
    expect("their answer", holds(answer, first, "answer=10,1\n"));
    expect("no file", read_stl(file, 0, file_words, 0, file_corners, 0, &place, &first, &second) == WAZELPUNT_MISFIT && place == 0);
    expect("no file to import", import_stl(file, 0, written, LENGTH(written), &place, &first) == 0);
    expect("its answer", holds(written, first, "answer=16,0\n"));
    begin_file(0);
    expect("no facets", read_stl(file, 84, file_words, 0, file_corners, 0, &place, &first, &second) == 0 && place == 0 && second == 0);
    file_length = 0;
    no_facet_at(0, 9);
    no_facet_at(84, 9);
}

static int32_t whole;
static uint32_t rest;

static uint32_t do_coordinate(uint32_t word, uint32_t at_pitch)
{
    whole = 77;
    rest = 77;
    return coordinate(word, &whole, &rest, at_pitch);
}

static void call_coordinates(void)
{
    expect("1.5 goes to 2", do_coordinate(0x3fc00000, 1) == 0 && whole == 2 && rest == 0xbf000000);
    expect("3 goes to 4 at pitch 2", do_coordinate(0x40400000, 2) == 0 && whole == 4 && rest == 0xbf800000);
    expect("-7.5 goes to -10 at pitch 5", do_coordinate(0xc0f00000, 5) == 0 && whole == -10 && rest == 0x40200000);
    expect("5 goes to 0 at pitch 10", do_coordinate(0x40a00000, 10) == 0 && whole == 0 && rest == 0x40a00000);
    expect("32,767 is too far at pitch 2", do_coordinate(0x46fffe00, 2) == WAZELPUNT_TOO_FAR && whole == 0 && rest == 0x46fffe00);
    expect("32,765 is not at pitch 10", do_coordinate(0x46fffa00, 10) == 0 && whole == 32760 && rest == 0x40a00000);
    expect("what follows it is", do_coordinate(0x46fffa01, 10) == WAZELPUNT_TOO_FAR && whole == 0 && rest == 0x46fffa01);
    for (uint32_t no_pitch = 0; no_pitch < 300; no_pitch++) {
        int is_pitch = no_pitch == 1 || no_pitch == 2 || no_pitch == 5 || no_pitch == 10;
        expect("no pitch", is_pitch || (do_coordinate(0x7f800000, no_pitch) == WAZELPUNT_NO_PITCH && whole == 0 && rest == 0));
    }
    expect("a pitch modulo 2^8 or 2^16", do_coordinate(0, 258) == WAZELPUNT_NO_PITCH && do_coordinate(0, 65537) == WAZELPUNT_NO_PITCH
                                             && do_coordinate(0, UINT32_MAX) == WAZELPUNT_NO_PITCH);
}

/* What is refused for its pitch is refused before all else, and everything stays. */
static void call_without_pitch(void)
{
    static const uint32_t others[] = {0, 3, 4, 6, 9, 11, 20, 258, 65541, UINT32_MAX};
    for (size_t o = 0; o < LENGTH(others); o++) {
        pitch = others[o];
        place = first = second = third = 77;
        mark_lent();
        written[0] = 77;
        expect("survey without a pitch", do_survey(1) == WAZELPUNT_NO_PITCH && place == 0 && first == 0 && second == 0);
        place = first = second = third = 77;
        expect("patch without a pitch", patch_with(1, 0) == WAZELPUNT_NO_PITCH && place == 0 && first == 0 && second == 0 && third == 0);
        place = first = second = third = 77;
        expect("chart without a pitch", chart_with(1, 0) == WAZELPUNT_NO_PITCH && place == 0 && first == 0 && second == 0 && third == 0);
        place = first = second = 77;
        expect("judge without a pitch", do_judge(1) == WAZELPUNT_NO_PITCH && place == 0 && first == 0 && second == 0);
        place = first = 77;
        expect("write without a pitch", do_write(1) == WAZELPUNT_NO_PITCH && place == 0 && first == 0);
        expect("and nothing is changed", stays_behind(0, 0, 0, 0) && stays_behind_entries(0, 0, 0, 0) && written[0] == 77);
        place = 77;
        expect("17 before 1", survey(words, 1, corners, 1, grid, 0, rings, 0, lengths, 0, &place, &first, &second, pitch)
                                      == WAZELPUNT_NO_PITCH && place == 0);
    }
    pitch = 1;
}

/* The plate at each pitch: its grid, its patch's weight and its hole's run, and its text, which begins with the pitch and reads back with
   it. */
static void call_at(uint32_t at_pitch, const char *line, int32_t inner, uint64_t weight, uint64_t run)
{
    size_t head = strlen(line), longer = sheet_length + head;
    pitch = at_pitch;
    expect("the grid at a pitch", do_survey(0) == 0 && grid[3] == 30 && grid[9] == inner && grid[17] == 0);
    fits("patch at a pitch", do_patch, 4);
    expect("the rim's record at a pitch", is(record_of(0), 3, WAZELPUNT_RIM, 0, 0, 120));
    expect("the hole's record at a pitch", is(record_of(1), 3, WAZELPUNT_PATCHED, weight, 4, run));
    fits("chart at a pitch", do_chart, 4);
    expect("the same records, and the lake", is(record_of(1), 3, WAZELPUNT_PATCHED, weight, 4, run) && is_entry(2, WAZELPUNT_ENTRY_LAKE, 1));
    set_states[1] = WAZELPUNT_PATCHED;
    fits("judge at a pitch", do_judge, 3);
    expect("the text at a pitch", write_sheet(words, W, corners, C, written, longer, &place, &first, pitch) == 0 && first == longer
                                      && memcmp(written, line, head) == 0 && memcmp(written + head, sheet, sheet_length) == 0);
    expect("has no room in a byte less", write_sheet(words, W, corners, C, written, longer - 1, &place, &first, pitch) == WAZELPUNT_BUFFER
                                             && place == 1 && first == 0);
    expect("reads back", read_sheet(written, longer, words, W, corners, C, &place, &first, &second, &pitch_read) == 0 && first == W
                             && second == C && pitch_read == at_pitch);
    pitch = 1;
}

/* The functions over texts go by the pitch that the text says. */
static void call_texts_at_a_pitch(void)
{
    static uint8_t coarse[sizeof sheet + 9];
    size_t length = sheet_length + 9;
    memcpy(coarse, "pitch=10\n", 9);
    memcpy(coarse + 9, sheet, sheet_length);
    expect("rewritten at a pitch", rewrite_text(coarse, length, written, LENGTH(written), &place, &first) == 0 && first == length
                                       && memcmp(written, coarse, length) == 0);
    /* the hole's points (5,5), (15,5) and (5,15) go to (0,0), (20,0) and (0,20) */
    expect("listed at a pitch", list_text(coarse, length, listing, LENGTH(listing), &place, &first) == 0
                                    && holds(listing, first, "answer=0,0\nloops=2\nloop=3,4,0,0,0,120\nring=0,1,2\n"
                                                             "loop=3,1,400,4,0,80\nring=4,3,5\npatch=4,5,3\n"));
    expect("charted at a pitch", chart_text(coarse, length, charted, LENGTH(charted), &place, &first) == 0
                                     && holds(charted, first, "answer=0,0\nentries=3\nentry=0,0\nentry=1,0\nentry=3,1\n"));
    expect("judged at a pitch", judge_texts(coarse, length, set, set_length, answer, LENGTH(answer), &place, &first) == 0
                                    && holds(answer, first, "answer=0,0\n"));
    expect("a set's lines are counted on", judge_texts(coarse, length, set, 0, answer, LENGTH(answer), &place, &first) == 0
                                               && holds(answer, first, "answer=10,16\n"));
    coarse[6] = '2';
    expect("a wrong pitch is a wrong line", list_text(coarse, length, listing, LENGTH(listing), &place, &first) == 0
                                                && holds(listing, first, "answer=10,1\n"));
}

static void call_at_pitches(void)
{
    uint32_t kept[W];
    memcpy(kept, words, sizeof kept);
    words[9] = words[10] = 0x40f00000; /* point 3 at 7.5 and 7.5 */
    words[13] = words[15] = 0x40f00000;
    expect("the plate with a smaller hole", do_write(0) == 0 && first == sheet_length);
    memcpy(sheet, written, sheet_length);
    call_at(1, "", 8, 49, 28);
    call_at(2, "pitch=2\n", 8, 64, 32);
    call_at(5, "pitch=5\n", 10, 25, 20);
    call_at(10, "pitch=10\n", 10, 100, 40);
    memcpy(words, kept, sizeof kept);
    do_write(0);
    memcpy(sheet, written, sheet_length);
}

/* A hole of four edges in a rim, and the heavier of its two covers, which at pitch 5 weighs no more than the other. */
#define HOLE \
    "points=7\np=00000000,00000000,00000000\np=41200000,00000000,00000000\np=40400000,40400000,00000000\np=00000000,41200000,00000000\n" \
    "p=c2480000,c2480000,00000000\np=42c80000,c2480000,00000000\np=c2480000,42c80000,00000000\n" \
    "triangles=7\nt=0,1,4\nt=5,4,1\nt=1,2,5\nt=2,3,5\nt=6,5,3\nt=3,0,6\nt=4,6,0\n"
#define HEAVIER "states=2\ns=1\ns=4\ntriangles=2\nt=0,3,1\nt=1,3,2\n"

static int judged(const char *text, const char *due)
{
    return judge_texts((const uint8_t *)text, strlen(text), (const uint8_t *)HEAVIER, strlen(HEAVIER), answer, LENGTH(answer), &place,
                       &first) == 0 && holds(answer, first, due);
}

/* What the judging weighs, it weighs on the grid of the sheet's own pitch. */
static void call_judged_at_a_pitch(void)
{
    expect("a cover that is too heavy", judged(HOLE, "answer=14,0\n"));
    expect("and at pitch 5 is not", judged("pitch=5\n" HOLE, "answer=0,0\n"));
    expect("and at pitch 10 is again", judged("pitch=10\n" HOLE, "answer=14,0\n"));
}

int main(int count, char **names)
{
    if (count != 4 || !load(names[1]) || !load_texts(names[2], names[3])) return 1;
    call_coordinates();
    read_records();
    read_entries();
    call_numbers();
    call_without_pitch();
    call_at_pitches();
    call_texts_at_a_pitch();
    call_judged_at_a_pitch();
    call_facets();
    call_files();
    call_largest_files();
    call_sizes();
    call_texts();
    call_with_nothing();
    printf("%u tried, %u wrong\n", tried, wrong);
    return wrong != 0;
}
