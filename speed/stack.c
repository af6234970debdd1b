/* How much stack each exported function takes at most: it is called on a stack that was painted before, and what is no longer painted was
   used. The stack that an empty call takes is taken off.
   stack COUNT SEED  measures on the full sheets at every pitch, on plates whose hole is closed by a fan, on the files of facets that are
                     counted, and on that many made surfaces, sets, texts and files of facets; then, of the functions that patch, chart or
                     judge, by the longest loop that a sheet has to patch.
   stack sheet       prints one of these plates as a sheet text.
   stack facets      prints the file of facets with the most points. */
#include <inttypes.h>
#include <stdint.h>
#include <stdio.h>
#include <stdlib.h>
#include <string.h>
#include <ucontext.h>

#include "../tests/reference/generate.h"
#include "../tests/reference/sheets.h"
#include "files.h"
#include "wazelpunt.h"

#define PAINT 0xa5

static struct generated_surface surface;
static struct generated_set set;
static uint8_t text[GENERATE_TEXT_ROOM], set_text[GENERATE_TEXT_ROOM], out[GENERATE_TEXT_ROOM];
static size_t text_length, set_text_length;
static uint8_t facets[GENERATE_STL_ROOM];
static size_t facets_length;
static uint8_t printed[WAZELPUNT_LISTING_BYTES];

/* what is lent */
static int32_t grid[GENERATE_WORD_ROOM];
static uint32_t words[GENERATE_WORD_ROOM];
static uint16_t rings[GENERATE_CORNER_ROOM], lengths[GENERATE_CORNER_ROOM], states[GENERATE_STATE_ROOM], corners[GENERATE_SET_ROOM];
static uint64_t records[WAZELPUNT_RECORDS_FOR(GENERATE_CORNER_ROOM)];
static uint16_t patches[3 * GENERATE_CORNER_ROOM], report[WAZELPUNT_REPORT_FOR(GENERATE_CORNER_ROOM)];
static float floats[9];
static size_t place, first, second, third, entries;
static uint32_t pitch;

#define SURFACE surface.words, surface.word_count, surface.corners, surface.corner_count
#define PLACED grid, GENERATE_WORD_ROOM, rings, GENERATE_CORNER_ROOM
#define SURVEYED PLACED, lengths, GENERATE_CORNER_ROOM

static void work_none(void) {}

static void work_coordinate(void) {
    int32_t whole;
    uint32_t rest;
    for (size_t w = 0; w < surface.word_count; w++) wazelpunt_coordinate(surface.words[w], &whole, &rest, surface.pitch);
}

static void work_survey(void) {
    wazelpunt_survey(SURFACE, SURVEYED, &place, &first, &second, surface.pitch);
}

static void work_patch(void) {
    wazelpunt_patch(SURFACE, PLACED, records, sizeof records / sizeof *records, patches, 3 * GENERATE_CORNER_ROOM, &place, &first, &second,
                    &third, surface.pitch);
}

static void work_chart(void) {
    wazelpunt_chart(SURFACE, PLACED, records, sizeof records / sizeof *records, report, sizeof report / sizeof *report, &place, &first, &second,
                    &entries, surface.pitch);
}

static void work_judge(void) {
    wazelpunt_judge(SURFACE, set.states, set.state_count, set.corners, set.corner_count, SURVEYED, &place, &first, &second, surface.pitch);
}

static void work_read(void) {
    wazelpunt_read(text, text_length, words, GENERATE_WORD_ROOM, corners, GENERATE_SET_ROOM, &place, &first, &second, &pitch);
}

static void work_write(void) {
    wazelpunt_write(SURFACE, out, sizeof out, &place, &first, surface.pitch);
}

static void work_read_set(void) {
    wazelpunt_read_set(set_text, set_text_length, 0, states, GENERATE_STATE_ROOM, corners, GENERATE_SET_ROOM, &place, &first, &second);
}

static void work_list_text(void) {
    wazelpunt_list_text(text, text_length, printed, sizeof printed, &place, &first);
}

static void work_chart_text(void) {
    wazelpunt_chart_text(text, text_length, printed, sizeof printed, &place, &first);
}

static void work_judge_texts(void) {
    wazelpunt_judge_texts(text, text_length, set_text, set_text_length, printed, sizeof printed, &place, &first);
}

static void work_rewrite_text(void) {
    wazelpunt_rewrite_text(text, text_length, printed, sizeof printed, &place, &first);
}

static void work_read_stl(void) {
    wazelpunt_read_stl(facets, facets_length, words, GENERATE_WORD_ROOM, corners, GENERATE_SET_ROOM, &place, &first, &second);
}

static void work_size_stl(void) {
    for (uint32_t count = 0; count <= WAZELPUNT_TRIANGLES + 1; count++) wazelpunt_size_stl(facets_length, count);
}

static void work_import_stl(void) {
    wazelpunt_import_stl(facets, facets_length, printed, sizeof printed, &place, &first);
}

static void work_facet(void) {
    place = WAZELPUNT_STL_FRONT;
    while (wazelpunt_facet(facets, facets_length, &place, floats, 9) != 0) continue;
}

static struct work {
    const char *name;
    void (*work)(void);
    size_t most;
} works[] = {
    {"nothing", work_none, 0},
    {"wazelpunt_coordinate", work_coordinate, 0},
    {"wazelpunt_survey", work_survey, 0},
    {"wazelpunt_patch", work_patch, 0},
    {"wazelpunt_chart", work_chart, 0},
    {"wazelpunt_judge", work_judge, 0},
    {"wazelpunt_read", work_read, 0},
    {"wazelpunt_write", work_write, 0},
    {"wazelpunt_read_set", work_read_set, 0},
    {"wazelpunt_list_text", work_list_text, 0},
    {"wazelpunt_chart_text", work_chart_text, 0},
    {"wazelpunt_judge_texts", work_judge_texts, 0},
    {"wazelpunt_rewrite_text", work_rewrite_text, 0},
    {"wazelpunt_read_stl", work_read_stl, 0},
    {"wazelpunt_size_stl", work_size_stl, 0},
    {"wazelpunt_import_stl", work_import_stl, 0},
    {"wazelpunt_facet", work_facet, 0},
};

#define WORKS (sizeof works / sizeof *works)

static ucontext_t here, there;
static uint8_t stack[1 << 20];

static void measure(struct work *w) {
    memset(stack, PAINT, sizeof stack);
    getcontext(&there);
    there.uc_stack.ss_sp = stack;
    there.uc_stack.ss_size = sizeof stack;
    there.uc_link = &here;
    makecontext(&there, w->work, 0);
    swapcontext(&here, &there);
    size_t unused = 0;
    while (unused < sizeof stack && stack[unused] == PAINT) unused++;
    if (w->most < sizeof stack - unused) w->most = sizeof stack - unused;
}

static void measure_all(void) {
    for (size_t w = 0; w < WORKS; w++) measure(&works[w]);
}

/* On the surface as it stands, a set and texts for it, and a made file of facets. */
static void measure_on(struct generator *generator) {
    generate_set(generator, &surface, &set);
    text_length = generate_sheet_text(&surface, text);
    set_text_length = generate_set_text(&set, set_text);
    facets_length = generate_stl(generator, facets);
    measure_all();
}

static void put(size_t point, int32_t x, int32_t y) {
    surface.words[3 * point] = sheet_word(x);
    surface.words[3 * point + 1] = sheet_word(y);
    surface.words[3 * point + 2] = sheet_word(0);
}

/* A plate with one hole of 64 edges that only a fan about one of its vertices closes best, which stands at that place of it. The patch of
   such a hole is listed with the deepest recursion. The rim is a large triangle round it. */
static void make_fan(size_t apex) {
    static const uint16_t frame[3] = {64, 65, 66};
    uint16_t ring[64];
    memset(&surface, 0, sizeof surface);
    surface.pitch = 1;
    for (size_t v = 0; v < 64; v++) {
        int32_t x = (int32_t)((v + 64 - apex) % 64);
        put(v, x, 1000 + (x - 32) * (x - 32));
        ring[v] = (uint16_t)v;
    }
    put(apex, 32, 0);
    put(64, -30000, -30000);
    put(65, 30000, -30000);
    put(66, 0, 30000);
    surface.word_count = 3 * 67;
    sheet_add_collar(&surface, ring, 64, frame, 3);
    generate_lend_exactly(&surface);
}

/* What patching, charting and judging take by the longest loop that is patched, on sheets that have as many points and triangles as there may be, and on
   one that has few of either. */
static void (*const by_holes[])(void) = {work_patch, work_chart, work_judge, work_list_text, work_chart_text, work_judge_texts};

static void print_kind(const char *kind, struct generator *generator, void (*make)(struct generator *)) {
    make(generator);
    for (size_t w = 1; w < WORKS; w++) works[w].most = 0;
    /* the set is made anew each time, and one that is damaged may be refused before the table is made */
    for (int times = 0; times < 20; times++) measure_on(generator);
    printf("%-26s", kind);
    for (size_t w = 0; w < WORKS; w++)
        for (size_t h = 0; h < sizeof by_holes / sizeof *by_holes; h++)
            if (works[w].work == by_holes[h]) printf(" %11zu", works[w].most - works[0].most);
    printf("\n");
}

static void make_named(struct generator *generator, const char *name) {
    for (size_t sheet = 0; strcmp(sheet_make(generator, sheet, &surface, 1), name) != 0; sheet++) continue;
}

static void make_closed(struct generator *generator) { make_named(generator, "closed"); }
static void make_fours(struct generator *generator) { make_named(generator, "plate with holes of 4"); }
static void make_sixes(struct generator *generator) { make_named(generator, "128 holes of 6"); }
static void make_longest(struct generator *generator) { make_named(generator, "plate with holes closed by fans"); }
static void make_small(struct generator *generator) { make_named(generator, "plate with a hole of 8"); }
static void make_sixteens(struct generator *generator) { sheet_make_pair(generator, &surface, 16, 16, 0, 1); }
static void make_seventeens(struct generator *generator) { sheet_make_pair(generator, &surface, 17, 17, 0, 1); }

static void print_kinds(struct generator *generator) {
    printf("\n%-26s %11s %11s %11s %11s %11s %11s\n", "bytes by the holes", "patch", "chart", "judge", "list_text", "chart_text", "judge_texts");
    print_kind("none", generator, make_closed);
    print_kind("4", generator, make_fours);
    print_kind("6", generator, make_sixes);
    print_kind("16", generator, make_sixteens);
    print_kind("17", generator, make_seventeens);
    print_kind("64", generator, make_longest);
    print_kind("8, in 11 triangles", generator, make_small);
}

static int print(const uint8_t *bytes, size_t length) {
    return fwrite(bytes, 1, length, stdout) != length;
}

int main(int argc, char **argv) {
    static const uint32_t pitches[] = {1, 2, 5, 10};
    size_t count = argc > 1 ? strtoul(argv[1], 0, 10) : 200;
    uint64_t seed = argc > 2 ? strtoull(argv[2], 0, 10) : 1;
    struct generator generator;
    if (argc == 2 && strcmp(argv[1], "sheet") == 0) {
        make_fan(63);
        return print(text, generate_sheet_text(&surface, text));
    }
    if (argc == 2 && strcmp(argv[1], "facets") == 0) {
        for (size_t file = 0; strcmp(file_make(file, facets, &facets_length), "most-points") != 0; file++) continue;
        return print(facets, facets_length);
    }
    generate_start(&generator, seed);
    for (size_t p = 0; p < sizeof pitches / sizeof *pitches; p++)
        for (size_t sheet = 0; sheet_make(&generator, sheet, &surface, pitches[p]) != 0; sheet++) measure_on(&generator);
    for (size_t apex = 0; apex < 64; apex++) {
        make_fan(apex);
        measure_on(&generator);
        if (third < 3 * 62) {
            fputs("stack: the hole of a plate was not patched\n", stderr);
            return 1;
        }
    }
    for (size_t file = 0; file_make(file, facets, &facets_length) != 0; file++) measure_all();
    for (size_t made = 0; made < count; made++) {
        if (made % 4 == 0) sheet_make_cones(&generator, &surface);
        else if (made % 4 == 1) sheet_make_coasts(&generator, &surface);
        else generate_surface(&generator, &surface);
        measure_on(&generator);
    }
    for (size_t w = 1; w < WORKS; w++) printf("%-22s %8zu bytes\n", works[w].name, works[w].most - works[0].most);
    print_kinds(&generator);
    return 0;
}
