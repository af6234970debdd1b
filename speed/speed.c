/* The archive and the C baseline side by side.
   speed compare COUNT SEED FILE...  compares both with the slow reference, every byte of what is lent, on these files, on full sheets, on
                                     the files of facets and on that many made ones of each; what the archive does not export is left out.
   speed count FILE...               calls both on each file; before each call, which is counted (speed/calls.h), it prints the side, the
                                     work and the file's name.
   speed make FOLDER SEED            writes the full sheets, sheets at every pitch and the files of facets into a folder.
   A file is one of facets where its name ends in .stl, and a sheet elsewhere. */
#include <inttypes.h>
#include <stdint.h>
#include <stdio.h>
#include <stdlib.h>
#include <string.h>

#include "../tests/reference/generate.h"
#include "../tests/reference/reference.h"
#include "../tests/reference/sheets.h"
#include "baseline.h"
#include "calls.h"
#include "files.h"
#include "wazelpunt.h"

/* An archive that lacks one of these is linked all the same; the function is then null. */
#pragma weak wazelpunt_survey
#pragma weak wazelpunt_patch
#pragma weak wazelpunt_chart
#pragma weak wazelpunt_judge
#pragma weak wazelpunt_read
#pragma weak wazelpunt_write
#pragma weak wazelpunt_read_stl

#define GUARD 16

struct side {
    const char *name;
    __typeof__(baseline_survey) *survey;
    __typeof__(baseline_patch) *patch;
    __typeof__(baseline_chart) *chart;
    __typeof__(baseline_check) *check;
    __typeof__(baseline_read) *read;
    __typeof__(baseline_write) *write;
    __typeof__(baseline_read_stl) *read_stl;
};

#define SIDES 2

static const struct side sides[SIDES] = {
    {"ours", wazelpunt_survey, wazelpunt_patch, wazelpunt_chart, wazelpunt_judge, wazelpunt_read, wazelpunt_write, wazelpunt_read_stl},
    {"baseline", baseline_survey, baseline_patch, baseline_chart, baseline_check, baseline_read, baseline_write, baseline_read_stl},
};

/* Everything that is lent, each between guards. */
struct lent {
    int32_t grid[REFERENCE_MOST_WORDS + 2 * GUARD];
    uint16_t rings[REFERENCE_MOST_CORNERS + 2 * GUARD];
    uint16_t lengths[REFERENCE_MOST_TRIANGLES + 2 * GUARD];
    uint64_t records[REFERENCE_MOST_RECORDS + 2 * GUARD];
    uint16_t patches[REFERENCE_MOST_PATCH_CORNERS + 2 * GUARD];
    uint16_t report[REFERENCE_MOST_REPORT + 2 * GUARD];
    uint32_t words[REFERENCE_MOST_WORDS + 2 * GUARD];
    uint16_t corners[REFERENCE_MOST_CORNERS + 2 * GUARD];
    uint8_t text[REFERENCE_LONGEST_TEXT + 2 * GUARD];
};

/* An answer: number, place, and up to three counts, or two and the pitch of a sheet that was read. */
struct answer {
    size_t number, place, counts[3];
};

/* ---- What is worked on ---- */

static struct generated_surface surface;
static struct generated_set set;
static uint8_t text[GENERATE_TEXT_ROOM], facets[GENERATE_STL_ROOM];
static size_t text_length, facets_length;

/* How many words and corners, and how many bytes of text, are lent to the readers and the writer. */
static size_t words_lent, corners_lent, text_lent;

static struct lent before, theirs, due_lent;
static struct answer due;

/* ---- The works, by a side or, where it is null, by the reference ---- */

static void work_survey(const struct side *side, struct lent *l, struct answer *a) {
    const struct generated_surface *s = &surface;
    const size_t *n = s->lent;
    if (side != 0) {
        a->number = side->survey(s->words, s->word_count, s->corners, s->corner_count, l->grid + GUARD, n[0], l->rings + GUARD, n[1],
                                 l->lengths + GUARD, s->lengths_lent, &a->place, &a->counts[0], &a->counts[1], s->pitch);
        return;
    }
    struct reference_answer r;
    reference_survey(s->words, s->word_count, s->corners, s->corner_count, l->grid + GUARD, n[0], l->rings + GUARD, n[1],
                     l->lengths + GUARD, s->lengths_lent, s->pitch, &r);
    *a = (struct answer){r.number, r.place, {r.loops, r.vertices, 0}};
}

static void work_patch(const struct side *side, struct lent *l, struct answer *a) {
    const struct generated_surface *s = &surface;
    const size_t *n = s->lent;
    if (side != 0) {
        a->number = side->patch(s->words, s->word_count, s->corners, s->corner_count, l->grid + GUARD, n[0], l->rings + GUARD, n[1],
                                l->records + GUARD, n[2], l->patches + GUARD, n[3], &a->place, &a->counts[0], &a->counts[1],
                                &a->counts[2], s->pitch);
        return;
    }
    struct reference_patch_answer r;
    reference_patch(s->words, s->word_count, s->corners, s->corner_count, l->grid + GUARD, n[0], l->rings + GUARD, n[1],
                    l->records + GUARD, n[2], l->patches + GUARD, n[3], s->pitch, &r);
    *a = (struct answer){r.number, r.place, {r.loops, r.vertices, r.corners}};
}

static void work_chart(const struct side *side, struct lent *l, struct answer *a) {
    const struct generated_surface *s = &surface;
    const size_t *n = s->lent;
    if (side != 0) {
        a->number = side->chart(s->words, s->word_count, s->corners, s->corner_count, l->grid + GUARD, n[0], l->rings + GUARD, n[1],
                                l->records + GUARD, n[2], l->report + GUARD, s->report_lent, &a->place, &a->counts[0], &a->counts[1],
                                &a->counts[2], s->pitch);
        return;
    }
    struct reference_report_answer r;
    reference_report(s->words, s->word_count, s->corners, s->corner_count, l->grid + GUARD, n[0], l->rings + GUARD, n[1],
                     l->records + GUARD, n[2], l->report + GUARD, s->report_lent, s->pitch, &r);
    *a = (struct answer){r.number, r.place, {r.loops, r.vertices, r.entries}};
}

static void work_check(const struct side *side, struct lent *l, struct answer *a) {
    const struct generated_surface *s = &surface;
    const size_t *n = s->lent;
    if (side != 0) {
        a->number = side->check(s->words, s->word_count, s->corners, s->corner_count, set.states, set.state_count, set.corners,
                                set.corner_count, l->grid + GUARD, n[0], l->rings + GUARD, n[1], l->lengths + GUARD, s->lengths_lent,
                                &a->place, &a->counts[0], &a->counts[1], s->pitch);
        return;
    }
    struct reference_answer r;
    reference_check(s->words, s->word_count, s->corners, s->corner_count, set.states, set.state_count, set.corners, set.corner_count,
                    l->grid + GUARD, n[0], l->rings + GUARD, n[1], l->lengths + GUARD, s->lengths_lent, s->pitch, &r);
    *a = (struct answer){r.number, r.place, {r.loops, r.vertices, 0}};
}

static void work_read(const struct side *side, struct lent *l, struct answer *a) {
    if (side != 0) {
        uint32_t pitch = 77;
        a->number = side->read(text, text_length, l->words + GUARD, words_lent, l->corners + GUARD, corners_lent,
                               &a->place, &a->counts[0], &a->counts[1], &pitch);
        a->counts[2] = pitch;
        return;
    }
    struct reference_read_answer r;
    reference_read(text, text_length, l->words + GUARD, words_lent, l->corners + GUARD, corners_lent, &r);
    *a = (struct answer){r.number, r.place, {r.words, r.corners, r.pitch}};
}

static void work_write(const struct side *side, struct lent *l, struct answer *a) {
    const struct generated_surface *s = &surface;
    if (side != 0) {
        a->number = side->write(s->words, s->word_count, s->corners, s->corner_count, l->text + GUARD, text_lent,
                                &a->place, &a->counts[0], s->pitch);
        return;
    }
    struct reference_write_answer r;
    reference_write(s->words, s->word_count, s->corners, s->corner_count, l->text + GUARD, text_lent, s->pitch, &r);
    *a = (struct answer){r.number, r.place, {r.bytes, 0, 0}};
}

static void work_read_stl(const struct side *side, struct lent *l, struct answer *a) {
    if (side != 0) {
        a->number = side->read_stl(facets, facets_length, l->words + GUARD, words_lent, l->corners + GUARD, corners_lent,
                                   &a->place, &a->counts[0], &a->counts[1]);
        return;
    }
    struct reference_read_answer r;
    reference_read_stl(facets, facets_length, l->words + GUARD, words_lent, l->corners + GUARD, corners_lent, &r);
    *a = (struct answer){r.number, r.place, {r.words, r.corners, 0}};
}

enum { SURVEY, PATCH, CHART, CHECK, READ, WRITE, READ_STL, WORKS };

static const struct {
    const char *name;
    void (*by)(const struct side *, struct lent *, struct answer *);
    int of_facets; /* it is done on a file of facets, and not on a sheet */
} works[WORKS] = {
    {"survey", work_survey, 0}, {"patch", work_patch, 0}, {"chart", work_chart, 0}, {"check", work_check, 0},
    {"read", work_read, 0}, {"write", work_write, 0}, {"read_stl", work_read_stl, 1}};

static int has(const struct side *side, size_t work) {
    switch (work) {
    case SURVEY: return side->survey != 0;
    case PATCH: return side->patch != 0;
    case CHART: return side->chart != 0;
    case CHECK: return side->check != 0;
    case READ: return side->read != 0;
    case WRITE: return side->write != 0;
    default: return side->read_stl != 0;
    }
}

/* ---- Comparing ---- */

#define HIGHEST WAZELPUNT_NO_PITCH

static size_t compared[SIDES][WORKS], wrong, met[WORKS][HIGHEST + 1];

static void compare(size_t work, const char *name, uint64_t seed) {
    due = (struct answer){0};
    due_lent = before;
    works[work].by(0, &due_lent, &due);
    met[work][due.number]++;
    for (size_t s = 0; s < SIDES; s++) {
        if (!has(&sides[s], work)) continue;
        struct answer said = {0};
        theirs = before;
        works[work].by(&sides[s], &theirs, &said);
        compared[s][work]++;
        if (memcmp(&said, &due, sizeof due) == 0 && memcmp(&theirs, &due_lent, sizeof theirs) == 0) continue;
        if (wrong++ < 10)
            printf("%s %s, %s %" PRIu64 ": answered %zu, %zu; due %zu, %zu\n", sides[s].name, works[work].name, name, seed,
                   said.number, said.place, due.number, due.place);
    }
}

static void fill(struct generator *generator) {
    uint8_t *bytes = (uint8_t *)&before;
    for (size_t i = 0; i < sizeof before; i++) bytes[i] = (uint8_t)generate_bits(generator);
}

/* The patcher's own set, as the reference has it. */
static void take_own_set(void) {
    struct answer answer = {0};
    work_patch(0, &due_lent, &answer);
    set.state_count = answer.counts[0];
    set.corner_count = answer.counts[2];
    for (size_t l = 0; l < set.state_count; l++) set.states[l] = (uint16_t)reference_kept(due_lent.records + GUARD, l, REFERENCE_STATE);
    memcpy(set.corners, due_lent.patches + GUARD, set.corner_count * sizeof *set.corners);
}

/* As long as it is, or shorter by one, or anything, or as long as can be; never more than there is. */
static size_t lend(struct generator *generator, size_t needed, size_t most) {
    size_t lent = needed;
    switch (generate_below(generator, 5)) {
    case 0: lent = needed > 0 ? needed - 1 : 0; break;
    case 1: lent = generate_below(generator, needed + 1); break;
    case 2: lent = most; break;
    default: break;
    }
    return lent < most ? lent : most;
}

/* All that can be needed is lent to the readers and the writer. */
static void lend_all(void) {
    words_lent = REFERENCE_MOST_WORDS;
    corners_lent = REFERENCE_MOST_CORNERS;
    text_lent = REFERENCE_LONGEST_TEXT;
}

/* A surface as it stands: patched, charted, its own set judged, written and read again. */
static void compare_sheet(const char *name, uint64_t seed) {
    take_own_set();
    text_length = generate_sheet_text(&surface, text);
    lend_all();
    for (size_t work = 0; work < WORKS; work++)
        if (!works[work].of_facets) compare(work, name, seed);
}

static void compare_facets(const char *name, uint64_t seed) {
    lend_all();
    compare(READ_STL, name, seed);
}

/* A made file of facets, the same with other lengths lent, and damaged. */
static void compare_made_facets(struct generator *generator, uint64_t seed) {
    facets_length = generate_stl(generator, facets);
    compare_facets("seed", seed);
    words_lent = lend(generator, due.counts[0], REFERENCE_MOST_WORDS);
    corners_lent = lend(generator, due.counts[1], REFERENCE_MOST_CORNERS);
    compare(READ_STL, "seed", seed);
    facets_length = generate_stl_damage(generator, facets, facets_length);
    compare(READ_STL, "seed", seed);
}

/* The same with a set and a text that may be wrong, and with other lengths lent. */
static void compare_changed(struct generator *generator, uint64_t seed) {
    generate_set(generator, &surface, &set);
    compare(CHECK, "seed", seed);
    text_lent = lend(generator, text_length, REFERENCE_LONGEST_TEXT);
    compare(WRITE, "seed", seed);
    words_lent = lend(generator, surface.word_count, REFERENCE_MOST_WORDS);
    corners_lent = lend(generator, surface.corner_count, REFERENCE_MOST_CORNERS);
    compare(READ, "seed", seed);
    text_length = generate_text_damage(generator, text, text_length);
    compare(READ, "seed", seed);
}

/* There is room for the longest that can be needed, and no more is lent. */
static void shorten_lent(void) {
    static const size_t most[GENERATE_BUFFERS] = {REFERENCE_MOST_WORDS, REFERENCE_MOST_CORNERS, REFERENCE_MOST_RECORDS,
                                                  REFERENCE_MOST_PATCH_CORNERS};
    for (size_t b = 0; b < GENERATE_BUFFERS; b++)
        if (surface.lent[b] > most[b]) surface.lent[b] = most[b];
    if (surface.report_lent > REFERENCE_MOST_REPORT) surface.report_lent = REFERENCE_MOST_REPORT;
    if (surface.lengths_lent > REFERENCE_MOST_TRIANGLES) surface.lengths_lent = REFERENCE_MOST_TRIANGLES;
}

static void compare_made(size_t many, uint64_t seed) {
    for (uint64_t own = seed; own < seed + many; own++) {
        struct generator generator;
        generate_start(&generator, own);
        if (own % 8 == 7) sheet_make_cones(&generator, &surface);
        else if (own % 8 == 6) sheet_make_coasts(&generator, &surface);
        else if (own % 2 == 0) generate_sound_surface(&generator, &surface);
        else generate_surface(&generator, &surface);
        shorten_lent();
        if (own % 16 == 0) fill(&generator);
        compare_sheet("seed", own);
        compare_changed(&generator, own);
        compare_made_facets(&generator, own);
    }
}

/* ---- Sheets at every pitch ---- */

/* As many points as there may be: alone, so that little more is done than to lay the grid, on a closed surface, and on a plate with holes;
   each at every pitch, which but at 1 has its line in the text. At 1 the last two are full sheets anyway. Gives the name, or 0 where there
   is no such sheet. */
static const char *make_pitched(struct generator *generator, size_t number) {
    static const char *const kinds[3] = {"points", "closed", "plate with holes of 10"};
    static const size_t full[3] = {0, 0, 11};
    static const uint32_t pitches[4] = {1, 2, 5, 10};
    static char name[64];
    size_t kind = number < 4 ? 0 : (number - 1) / 3, p = number < 4 ? number : 1 + (number - 1) % 3;
    if (kind >= 3) return 0;
    sheet_make(generator, full[kind], &surface, pitches[p]);
    if (kind == 0) {
        surface.corner_count = 0;
        generate_lend_exactly(&surface);
    }
    snprintf(name, sizeof name, "%s at %" PRIu32, kinds[kind], pitches[p]);
    return name;
}

/* ---- Files ---- */

static size_t read_file(const char *path, uint8_t *room, size_t size) {
    FILE *file = fopen(path, "rb");
    if (file == 0) {
        perror(path);
        exit(2);
    }
    size_t length = fread(room, 1, size, file);
    fclose(file);
    return length;
}

static int is_of_facets(const char *path) {
    const char *ending = strrchr(path, '.');
    return ending != 0 && strcmp(ending, ".stl") == 0;
}

/* Reads a file of facets, or the sheet of a file, and lends all that can be needed; whether it is not refused. */
static int load(const char *path) {
    struct reference_read_answer read;
    lend_all();
    if (is_of_facets(path)) {
        facets_length = read_file(path, facets, sizeof facets);
        reference_read_stl(facets, facets_length, due_lent.words, words_lent, due_lent.corners, corners_lent, &read);
    } else {
        text_length = read_file(path, text, sizeof text);
        reference_read(text, text_length, surface.words, words_lent, surface.corners, corners_lent, &read);
        surface.pitch = (uint32_t)read.pitch;
        surface.word_count = read.words;
        surface.corner_count = read.corners;
        for (size_t b = 0; b < GENERATE_BUFFERS; b++) surface.lent[b] = SIZE_MAX;
        surface.report_lent = surface.lengths_lent = SIZE_MAX;
        shorten_lent();
    }
    if (read.number != 0) printf("%s: refusal %zu at %zu, left out\n", path, read.number, read.place);
    return read.number == 0;
}

static void compare_file(const char *path) {
    if (!load(path)) return;
    if (is_of_facets(path)) compare_facets(path, 0);
    else compare_sheet(path, 0);
}

static void compare_full(uint64_t seed) {
    struct generator generator;
    const char *name;
    generate_start(&generator, seed);
    fill(&generator);
    for (size_t sheet = 0; (name = sheet_make(&generator, sheet, &surface, 1)) != 0; sheet++) compare_sheet(name, seed);
    for (size_t sheet = 0; (name = make_pitched(&generator, sheet)) != 0; sheet++) compare_sheet(name, seed);
    for (size_t file = 0; (name = file_make(file, facets, &facets_length)) != 0; file++) compare_facets(name, seed);
}

static int run_compare(size_t many, uint64_t seed, char **files, int count) {
    compare_full(seed);
    for (int f = 0; f < count; f++) compare_file(files[f]);
    compare_made(many, seed);
    for (size_t s = 0; s < SIDES; s++) {
        printf("%s, compared with the reference:", sides[s].name);
        for (size_t work = 0; work < WORKS; work++)
            printf(" %s %zu%s", works[work].name, compared[s][work], work + 1 < WORKS ? "," : "\n");
    }
    printf("%zu wrong; by answer:", wrong);
    for (size_t work = 0; work < WORKS; work++) {
        printf(" %s", works[work].name);
        for (size_t n = 0; n <= HIGHEST; n++)
            if (met[work][n] != 0) printf(" %zu: %zu", n, met[work][n]);
        printf(work + 1 < WORKS ? ";" : "\n");
    }
    return wrong != 0;
}

/* ---- Counting ---- */

/* The file's name without its folder and its ending. */
static const char *name_of(const char *path) {
    static char name[256];
    const char *slash = strrchr(path, '/');
    snprintf(name, sizeof name, "%s", slash == 0 ? path : slash + 1);
    char *ending = strrchr(name, '.');
    if (ending != 0) *ending = 0;
    return name;
}

/* One call. What this function and the work's own take is not counted: callgrind collects only within the call, and of the emulator's
   counts by function theirs are left out. */
static void count(const struct side *side, size_t work, const char *file) {
    char name[320];
    struct answer answer = {0};
    snprintf(name, sizeof name, "%s %s %s", side->name, works[work].name, file);
    puts(name);
    fflush(stdout);
    BEGIN;
    works[work].by(side, &theirs, &answer);
    END(name);
}

static int run_count(char **files, int count_of_files) {
    for (int f = 0; f < count_of_files; f++) {
        if (!load(files[f])) continue;
        if (!is_of_facets(files[f])) take_own_set();
        for (size_t work = 0; work < WORKS; work++)
            for (size_t s = 0; s < SIDES; s++)
                if (works[work].of_facets == is_of_facets(files[f]) && has(&sides[s], work)) count(&sides[s], work, name_of(files[f]));
    }
    return 0;
}

/* ---- Making ---- */

static int make_file(const char *folder, const char *name, const char *ending, const uint8_t *bytes, size_t length) {
    char path[4096];
    snprintf(path, sizeof path, "%s/%s.%s", folder, name, ending);
    for (char *at = path + strlen(folder); *at != 0; at++)
        if (*at == ' ') *at = '-';
    FILE *file = fopen(path, "wb");
    if (file == 0 || fwrite(bytes, 1, length, file) != length || fclose(file) != 0) {
        perror(path);
        return 0;
    }
    return 1;
}

static int run_make(const char *folder, uint64_t seed) {
    struct generator generator;
    const char *name;
    generate_start(&generator, seed);
    for (size_t sheet = 0; (name = sheet_make(&generator, sheet, &surface, 1)) != 0; sheet++) {
        text_length = generate_sheet_text(&surface, text);
        if (!make_file(folder, name, "sheet", text, text_length)) return 1;
    }
    for (size_t sheet = 0; (name = make_pitched(&generator, sheet)) != 0; sheet++) {
        text_length = generate_sheet_text(&surface, text);
        if (!make_file(folder, name, "sheet", text, text_length)) return 1;
    }
    for (size_t file = 0; (name = file_make(file, facets, &facets_length)) != 0; file++)
        if (!make_file(folder, name, "stl", facets, facets_length)) return 1;
    return 0;
}

int main(int count_of_arguments, char **arguments) {
    if (count_of_arguments >= 4 && strcmp(arguments[1], "compare") == 0)
        return run_compare(strtoull(arguments[2], 0, 10), strtoull(arguments[3], 0, 10), arguments + 4, count_of_arguments - 4);
    if (count_of_arguments >= 3 && strcmp(arguments[1], "count") == 0) return run_count(arguments + 2, count_of_arguments - 2);
    if (count_of_arguments == 4 && strcmp(arguments[1], "make") == 0)
        return run_make(arguments[2], strtoull(arguments[3], 0, 10));
    fputs("speed compare COUNT SEED FILE... | count FILE... | make FOLDER SEED\n", stderr);
    return 2;
}
