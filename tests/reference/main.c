/* A command that runs the programs of the scope over the reference, on files or on cases. */

#define _POSIX_C_SOURCE 200809L

#include <stdio.h>
#include <stdlib.h>
#include <string.h>

#include "generate.h"
#include "reference.h"
#include "self.h"
#include "sheets.h"

/* ---- Files and texts ---- */

#define MOST_FILE (1 << 20)

/* The first bytes of a file, how many they are, and how many the whole file has. */
struct file {
    uint8_t bytes[MOST_FILE];
    size_t length;
    size_t whole;
};

static size_t count_on(FILE *stream)
{
    static uint8_t passed[MOST_FILE];
    size_t count = 0;
    for (size_t more = 1; more > 0; count += more) {
        more = fread(passed, 1, sizeof passed, stream);
    }
    return count;
}

/* Gives 0, and an empty text, where the file cannot be opened. */
static int read_file(const char *name, struct file *file)
{
    FILE *stream = strcmp(name, "-") == 0 ? stdin : fopen(name, "rb");
    file->length = 0;
    file->whole = 0;
    if (stream == NULL) {
        return 0;
    }
    file->length = fread(file->bytes, 1, MOST_FILE, stream);
    file->whole = file->length + count_on(stream);
    if (stream != stdin) {
        fclose(stream);
    }
    return 1;
}

/* A surface as read, with room for all that the programs are lent. */
struct desk {
    uint32_t words[REFERENCE_MOST_WORDS];
    uint16_t corners[REFERENCE_MOST_CORNERS];
    uint16_t set_states[REFERENCE_MOST_STATES];
    uint16_t set_corners[3 * REFERENCE_MOST_SET_TRIANGLES];
    int32_t grid[REFERENCE_MOST_WORDS];
    uint16_t rings[REFERENCE_MOST_CORNERS];
    uint16_t lengths[REFERENCE_MOST_TRIANGLES];
    uint64_t records[REFERENCE_MOST_RECORDS];
    uint16_t patches[REFERENCE_MOST_PATCH_CORNERS];
    uint16_t report[REFERENCE_MOST_REPORT];
    uint8_t text[REFERENCE_LONGEST_TEXT];
};

static struct desk desk;

/* ---- The programs ---- */

static void print_answer(FILE *out, size_t number, size_t place)
{
    fprintf(out, "answer=%zu,%zu\n", number, place);
}

static void print_list(FILE *out, const char *key, const uint16_t *values, size_t count)
{
    fputs(key, out);
    for (size_t v = 0; v < count; v++) {
        fprintf(out, "%s%u", v == 0 ? "" : ",", (unsigned)values[v]);
    }
    fputs("\n", out);
}

static void print_number(FILE *out, const char *before, uint64_t number)
{
    fprintf(out, "%s%llu", before, (unsigned long long)number);
}

/* "The record kept for a loop must carry its first half-edge, its piece number
   [...] and its run, beside length, state and weight. The listing's `loop=`
   line gains the three at its end in that order." */
static void print_record(FILE *out, size_t loop)
{
    print_number(out, "loop=", reference_kept(desk.records, loop, REFERENCE_LENGTH));
    print_number(out, ",", reference_kept(desk.records, loop, REFERENCE_STATE));
    print_number(out, ",", reference_kept(desk.records, loop, REFERENCE_WEIGHT));
    print_number(out, ",", reference_kept(desk.records, loop, REFERENCE_FIRST));
    print_number(out, ",", reference_kept(desk.records, loop, REFERENCE_PIECE));
    print_number(out, ",", reference_kept(desk.records, loop, REFERENCE_RUN));
    fputs("\n", out);
}

/* "then `loops=`, and for each loop `loop=length,state,weight`, `ring=` its
   vertices, and one `patch=` line for each triangle." */
static void print_loops(FILE *out, size_t loops)
{
    const uint16_t *ring = desk.rings;
    const uint16_t *patch = desk.patches;
    fprintf(out, "loops=%zu\n", loops);
    for (size_t loop = 0; loop < loops; loop++) {
        size_t length = reference_kept(desk.records, loop, REFERENCE_LENGTH);
        int patched = reference_kept(desk.records, loop, REFERENCE_STATE) == 1;
        print_record(out, loop);
        print_list(out, "ring=", ring, length);
        ring += length;
        for (size_t t = 0; patched && t < length - 2; t++) {
            print_list(out, "patch=", patch, 3);
            patch += 3;
        }
    }
}

static void patch_desk(const struct reference_read_answer *sheet, struct reference_patch_answer *answer)
{
    reference_patch(desk.words, sheet->words, desk.corners, sheet->corners,
                    desk.grid, REFERENCE_MOST_WORDS, desk.rings, REFERENCE_MOST_CORNERS,
                    desk.records, REFERENCE_MOST_RECORDS, desk.patches, REFERENCE_MOST_PATCH_CORNERS,
                    (uint32_t)sheet->pitch, answer);
}

static void read_sheet(const struct file *file, struct reference_read_answer *answer)
{
    reference_read(file->bytes, file->length, desk.words, REFERENCE_MOST_WORDS,
                   desk.corners, REFERENCE_MOST_CORNERS, answer);
}

/* "The listing program reads a text from standard input and prints
   `answer=number,place`; if the number is 0, then" the loops. */
static void list_program(FILE *out, const struct file *sheet)
{
    struct reference_read_answer read;
    struct reference_patch_answer patch;
    read_sheet(sheet, &read);
    if (read.number != 0) {
        print_answer(out, read.number, read.place);
        return;
    }
    patch_desk(&read, &patch);
    print_answer(out, patch.number, patch.place);
    if (patch.number == 0) {
        print_loops(out, patch.loops);
    }
}

/* The report as a program prints it, which the requests ask for nowhere: the
   answer as a listing has it, then `entries=`, and for each entry `entry=` its
   kind and its number. */
static void chart_program(FILE *out, const struct file *sheet)
{
    struct reference_read_answer read;
    struct reference_report_answer told;
    read_sheet(sheet, &read);
    if (read.number != 0) {
        print_answer(out, read.number, read.place);
        return;
    }
    reference_report(desk.words, read.words, desk.corners, read.corners,
                     desk.grid, REFERENCE_MOST_WORDS, desk.rings, REFERENCE_MOST_CORNERS,
                     desk.records, REFERENCE_MOST_RECORDS, desk.report, REFERENCE_MOST_REPORT,
                     (uint32_t)read.pitch, &told);
    print_answer(out, told.number, told.place);
    if (told.number == 0) {
        fprintf(out, "entries=%zu\n", told.entries);
        for (size_t entry = 0; entry < told.entries; entry++) {
            print_list(out, "entry=", desk.report + REFERENCE_ENTRY * entry, REFERENCE_ENTRY);
        }
    }
}

/* The number of lines of a text. */
static size_t count_lines(const struct file *file)
{
    size_t lines = 0;
    for (size_t b = 0; b < file->length; b++) {
        lines += file->bytes[b] == '\n';
    }
    return lines;
}

/* "a wrong line is counted on after the sheet's last and comes before 4. It
   prints the answer line alone." */
static void check_program(FILE *out, const struct file *sheet, const struct file *patches)
{
    struct reference_read_answer read;
    struct reference_set_answer set;
    struct reference_answer verdict;
    read_sheet(sheet, &read);
    if (read.number == 10) {
        print_answer(out, read.number, read.place);
        return;
    }
    reference_read_set(patches->bytes, patches->length, count_lines(sheet) + 1,
                       desk.set_states, REFERENCE_MOST_STATES,
                       desk.set_corners, 3 * REFERENCE_MOST_SET_TRIANGLES, &set);
    if (set.number != 0) {
        print_answer(out, set.number, set.place);
        return;
    }
    if (read.number != 0) {
        print_answer(out, read.number, read.place);
        return;
    }
    reference_check(desk.words, read.words, desk.corners, read.corners,
                    desk.set_states, set.states, desk.set_corners, set.corners,
                    desk.grid, REFERENCE_MOST_WORDS, desk.rings, REFERENCE_MOST_CORNERS,
                    desk.lengths, REFERENCE_MOST_TRIANGLES, (uint32_t)read.pitch, &verdict);
    print_answer(out, verdict.number, verdict.place);
}

/* The text of the sheet that was read, or the answer's line. */
static void print_sheet(FILE *out, const struct reference_read_answer *read)
{
    struct reference_write_answer write;
    if (read->number != 0) {
        print_answer(out, read->number, read->place);
        return;
    }
    reference_write(desk.words, read->words, desk.corners, read->corners,
                    desk.text, REFERENCE_LONGEST_TEXT, (uint32_t)read->pitch, &write);
    if (write.number != 0) {
        print_answer(out, write.number, write.place);
        return;
    }
    fwrite(desk.text, 1, write.bytes, out);
}

/* "The rewriting program reads a text from standard input and prints it
   written again, or an answer line." */
static void rewrite_program(FILE *out, const struct file *sheet)
{
    struct reference_read_answer read;
    read_sheet(sheet, &read);
    print_sheet(out, &read);
}

/* "The outcome is a surface as if it had come by sheet text", one without a
   pitch line: a file has no pitch of its own. A file longer than what is kept
   of it has more than 1,024 facets, or no length that fits. */
static void import_program(FILE *out, const struct file *file)
{
    struct reference_read_answer read = {0, 0, 0, 0, 0};
    if (file->whole > file->length) {
        read.number = reference_size_stl(file->whole, reference_count_stl(file->bytes));
    } else {
        reference_read_stl(file->bytes, file->length, desk.words, REFERENCE_MOST_WORDS,
                           desk.corners, REFERENCE_MOST_CORNERS, &read);
    }
    print_sheet(out, &read);
}

/* ---- `reference cases DIR` ---- */

static struct file case_sheet;
static struct file case_patches;
static struct file case_expected;

/* What each program's outputs are named after. */
enum { LIST, CHECK, REWRITE, CHART, PROGRAMS };

static const char *const kinds[PROGRAMS] = {"listing", "verdict", "rewritten", "report"};

static int open_case(const char *directory, unsigned number, const char *kind, struct file *file)
{
    char name[4096];
    snprintf(name, sizeof name, "%s/%04u.%s", directory, number, kind);
    return read_file(name, file);
}

/* Runs one program on the case's texts. */
static void run_program(int program, FILE *out)
{
    if (program == LIST) {
        list_program(out, &case_sheet);
    } else if (program == CHECK) {
        check_program(out, &case_sheet, &case_patches);
    } else if (program == REWRITE) {
        rewrite_program(out, &case_sheet);
    } else {
        chart_program(out, &case_sheet);
    }
}

/* Runs one program and compares what it prints with what is expected. */
static int prints_expected(int program)
{
    char *printed = NULL;
    size_t length = 0;
    FILE *out = open_memstream(&printed, &length);
    run_program(program, out);
    fclose(out);
    int same = length == case_expected.length && memcmp(printed, case_expected.bytes, length) == 0;
    free(printed);
    return same;
}

/* Whether one program agrees with a case of the directory. */
static int agrees(const char *directory, unsigned number, int program)
{
    int same = open_case(directory, number, kinds[program], &case_expected) && prints_expected(program);
    if (!same) {
        printf("differs: %04u.%s\n", number, kinds[program]);
    }
    return same;
}

static int run_cases(const char *directory)
{
    size_t cases = 0;
    size_t agreeing = 0;
    size_t outputs = 0;
    size_t all = 0;
    for (unsigned number = 0; number < 10000; number++) {
        size_t same = 0;
        size_t tried = 0;
        if (!open_case(directory, number, "sheet", &case_sheet)) {
            continue;
        }
        open_case(directory, number, "patches", &case_patches);
        for (int program = 0; program < PROGRAMS; program++) {
            /* cases from before there were reports have none */
            if (program != CHART || open_case(directory, number, kinds[CHART], &case_expected)) {
                same += (size_t)agrees(directory, number, program);
                tried += 1;
            }
        }
        cases += 1;
        outputs += same;
        all += tried;
        agreeing += same == tried;
    }
    printf("cases=%zu agree=%zu outputs=%zu of %zu\n", cases, agreeing, outputs, all);
    return cases > 0 && agreeing == cases ? 0 : 1;
}

/* ---- `reference make DIR N SEED` ---- */

static void write_case(const char *directory, unsigned number, const char *kind, const struct file *file)
{
    char name[4096];
    snprintf(name, sizeof name, "%s/%04u.%s", directory, number, kind);
    FILE *stream = fopen(name, "wb");
    if (stream == NULL || fwrite(file->bytes, 1, file->length, stream) != file->length || fclose(stream) != 0) {
        perror(name);
        exit(2);
    }
}

static void write_printed(const char *directory, unsigned number, int program)
{
    char name[4096];
    snprintf(name, sizeof name, "%s/%04u.%s", directory, number, kinds[program]);
    FILE *out = fopen(name, "wb");
    if (out == NULL) {
        perror(name);
        exit(2);
    }
    run_program(program, out);
    fclose(out);
}

/* Two surfaces in three are sound. */
static void make_surface(struct generator *generator, struct generated_surface *surface)
{
    if (generate_below(generator, 3) == 0) {
        generate_surface(generator, surface);
    } else {
        generate_sound_surface(generator, surface);
    }
}

/* The patcher's own set for the surface. */
static void own_set(const struct generated_surface *surface, struct generated_set *set)
{
    struct reference_patch_answer answer;
    reference_patch(surface->words, surface->word_count, surface->corners, surface->corner_count,
                    desk.grid, REFERENCE_MOST_WORDS, desk.rings, REFERENCE_MOST_CORNERS,
                    desk.records, REFERENCE_MOST_RECORDS, set->corners, REFERENCE_MOST_PATCH_CORNERS, surface->pitch, &answer);
    for (size_t loop = 0; loop < answer.loops; loop++) {
        set->states[loop] = (uint16_t)reference_kept(desk.records, loop, REFERENCE_STATE);
    }
    set->state_count = answer.loops;
    set->corner_count = answer.corners;
}

/* Damages the texts in some cases; one set in eight is missing, and empty then. Gives 0 where it is. */
static int damage_case(struct generator *generator)
{
    if (generate_below(generator, 5) == 0) {
        case_sheet.length = generate_text_damage(generator, case_sheet.bytes, case_sheet.length);
    }
    if (generate_below(generator, 5) == 0) {
        case_patches.length = generate_text_damage(generator, case_patches.bytes, case_patches.length);
    }
    if (generate_below(generator, 8) == 0) {
        case_patches.length = 0;
        return 0;
    }
    return 1;
}

/* A sheet and a set for it: the full sheets first, each at one of the pitches, whole and with the set that passes, and then made ones. */
static void make_case(struct generator *generator, const char *directory, unsigned number)
{
    static const uint32_t pitches[4] = {1, 2, 5, 10};
    static struct generated_surface surface;
    static struct generated_set set;
    int full = sheet_make(generator, number, &surface, pitches[number % 4]) != NULL;
    if (full) {
        own_set(&surface, &set);
    } else {
        make_surface(generator, &surface);
        generate_set(generator, &surface, &set);
    }
    case_sheet.length = generate_sheet_text(&surface, case_sheet.bytes);
    case_patches.length = generate_set_text(&set, case_patches.bytes);
    if (full || damage_case(generator)) {
        write_case(directory, number, "patches", &case_patches);
    }
    write_case(directory, number, "sheet", &case_sheet);
    for (int program = 0; program < PROGRAMS; program++) {
        write_printed(directory, number, program);
    }
}

static int make_cases(const char *directory, unsigned count, uint64_t seed)
{
    struct generator generator;
    generate_start(&generator, seed);
    for (unsigned number = 0; number < count && number < 10000; number++) {
        make_case(&generator, directory, number);
    }
    return 0;
}

/* ---- Bench examples of the scope ---- */

#define ORIGIN "p=00000000,00000000,00000000\n"
#define TEN_X "p=41200000,00000000,00000000\n"
#define FIVE_ORIGINS "points=5\n" ORIGIN ORIGIN ORIGIN ORIGIN ORIGIN
#define SQUARE ORIGIN TEN_X "p=41200000,41200000,00000000\np=00000000,41200000,40800000\n"
#define RIM ORIGIN TEN_X "p=40400000,40400000,00000000\np=00000000,41200000,00000000\n"
#define TIP "p=40800000,40800000,41100000\n"
#define CONE "triangles=4\nt=0,1,4\nt=1,2,4\nt=2,3,4\nt=3,0,4\n"
#define ONE_PATCHED "states=1\ns=1\ntriangles=2\n"
#define ONE_RIM(run) "answer=0,0\nloops=1\nloop=4,4,0,0,0," #run "\nring=0,1,2,3\n"

/* The same rings closed in by a triangle of the points 4, 5 and 6: (-50,-50,0), (100,-50,0) and (-50,100,0). */
#define FRAME "p=c2480000,c2480000,00000000\np=42c80000,c2480000,00000000\np=c2480000,42c80000,00000000\n"
#define COLLAR "t=0,1,4\nt=5,4,1\nt=1,2,5\nt=2,3,5\nt=6,5,3\nt=3,0,6\nt=4,6,0\n"
#define HOLE_PATCHED "states=2\ns=1\ns=4\ntriangles=2\n"
#define HOLE_LIST(weight, run) "answer=0,0\nloops=2\nloop=4,1," #weight ",0,0," #run "\nring=0,1,2,3\n"
#define FRAME_LIST "loop=3,4,0,3,0,600\nring=5,4,6\n"
#define HOLE_IN_RIM "points=7\n" RIM FRAME "triangles=7\n" COLLAR

/* A sheet text, the set text judged against it (NULL where none is), what is
   listed (NULL where it stands above) and what is judged. */
struct example {
    const char *sheet;
    const char *patches;
    const char *listing;
    const char *verdict;
};

/* The scope's sheets, whose loops are rims: what is wrong with a set stays unsaid there. Then the same as holes. */
static const struct example examples[] = {
    {"points=3\n" ORIGIN "p=3f800000,00000000,00000000\np=00000000,3f800000,00000000\ntriangles=1\nt=0,1,2\n",
     NULL, "answer=0,0\nloops=1\nloop=3,4,0,0,0,4\nring=0,1,2\n", "answer=10,7\n"},
    {"points=0\ntriangles=0\n", "states=0\ntriangles=0\n", "answer=0,0\nloops=0\n", "answer=0,0\n"},
    {FIVE_ORIGINS "triangles=2\nt=0,1,2\nt=0,1,3\n", "", "answer=6,3\n", "answer=10,10\n"},
    {FIVE_ORIGINS "triangles=1\nt=0,0,1\n", "states=0\ntriangles=0\n", "answer=5,0\n", "answer=5,0\n"},
    {FIVE_ORIGINS "triangles=2\nt=0,1,2\nt=0,3,4\n", "states=0\ntriangles=0\n",
     "answer=0,0\nloops=2\nloop=3,4,0,0,0,0\nring=0,1,2\nloop=3,4,0,3,1,0\nring=0,3,4\n", "answer=9,2\n"},
    {FIVE_ORIGINS "triangles=4\nt=0,1,2\nt=2,1,3\nt=2,3,4\nt=4,3,0\n",
     "states=2\ns=4\ns=1\ntriangles=1\nt=0,2,4\n",
     "answer=0,0\nloops=2\nloop=3,4,0,0,0,0\nring=0,1,3\nloop=3,1,0,11,0,0\nring=0,4,2\npatch=0,2,4\n",
     "answer=0,0\n"},
    {"points=4\n" SQUARE "triangles=2\nt=0,1,2\nt=0,2,3\n", ONE_PATCHED "t=0,3,2\nt=0,2,1\n", ONE_RIM(48), "answer=11,0\n"},
    {"points=5\n" RIM TIP CONE, ONE_PATCHED "t=3,2,0\nt=2,1,0\n", ONE_RIM(40), "answer=11,0\n"},
    {"points=5\n" RIM TIP CONE, "states=1\ns=4\ntriangles=0\n", NULL, "answer=0,0\n"},
    {"points=5\n" SQUARE TIP CONE, ONE_PATCHED "t=0,3,2\nt=0,2,1\n", ONE_RIM(48), "answer=11,0\n"},
    {FIVE_ORIGINS "triangles=3\nt=0,1,2\nt=0,2,3\nt=1,3,4\n",
     "states=2\ns=4\ns=4\ntriangles=1\nt=0,0,0\n",
     "answer=0,0\nloops=2\nloop=4,4,0,0,0,0\nring=0,1,2,3\nloop=3,4,0,6,1,0\nring=1,3,4\n", "answer=15,0\n"},

    {"points=8\n" SQUARE FRAME TIP "triangles=9\n" COLLAR "t=0,2,7\nt=0,7,2\n", HOLE_PATCHED "t=0,3,2\nt=0,2,1\n",
     HOLE_LIST(280, 48) "patch=0,3,1\npatch=1,3,2\n" FRAME_LIST, "answer=13,0\n"},
    {"points=7\n" RIM FRAME "triangles=7\n" COLLAR, HOLE_PATCHED "t=3,2,0\nt=2,1,0\n",
     HOLE_LIST(60, 40) "patch=0,3,2\npatch=0,2,1\n" FRAME_LIST, "answer=0,0\n"},
    {"points=7\n" RIM FRAME "triangles=7\n" COLLAR, HOLE_PATCHED "t=0,3,1\nt=1,3,2\n", NULL, "answer=14,0\n"},
    {"points=7\n" RIM FRAME "triangles=7\n" COLLAR, HOLE_PATCHED "t=0,2,3\nt=0,2,1\n", NULL, "answer=12,0\n"},
    {"points=7\n" SQUARE FRAME "triangles=7\n" COLLAR, HOLE_PATCHED "t=0,3,2\nt=0,2,1\n",
     HOLE_LIST(280, 48) "patch=0,3,1\npatch=1,3,2\n" FRAME_LIST, "answer=0,0\n"},
    {"points=8\n" SQUARE FRAME TIP "triangles=9\n" COLLAR "t=0,2,7\nt=1,3,7\n", "states=4\ns=3\ns=4\ns=4\ns=4\ntriangles=0\n",
     "answer=0,0\nloops=4\nloop=4,3,0,0,0,48\nring=0,1,2,3\n" FRAME_LIST "loop=3,4,0,21,1,58\nring=0,2,7\nloop=3,4,0,24,2,58\nring=1,3,7\n",
     "answer=0,0\n"},

    /* The lighter cover's point (3,3,0) goes to (4,4,0), (5,5,0) and (0,0,0): at 5 the covers weigh the same, at 10 one weighs nothing. */
    {"pitch=2\n" HOLE_IN_RIM, HOLE_PATCHED "t=3,2,0\nt=2,1,0\n", HOLE_LIST(80, 40) "patch=0,3,2\npatch=0,2,1\n" FRAME_LIST, "answer=0,0\n"},
    {"pitch=2\n" HOLE_IN_RIM, HOLE_PATCHED "t=0,3,1\nt=1,3,2\n", NULL, "answer=14,0\n"},
    {"pitch=5\n" HOLE_IN_RIM, HOLE_PATCHED "t=3,2,0\nt=2,1,0\n", HOLE_LIST(100, 40) "patch=0,3,1\npatch=1,3,2\n" FRAME_LIST,
     "answer=0,0\n"},
    {"pitch=5\n" HOLE_IN_RIM, HOLE_PATCHED "t=0,3,1\nt=1,3,2\n", NULL, "answer=0,0\n"},
    {"pitch=10\n" HOLE_IN_RIM, HOLE_PATCHED "t=0,3,1\nt=1,3,2\n", HOLE_LIST(0, 40) "patch=0,3,2\npatch=0,2,1\n" FRAME_LIST,
     "answer=14,0\n"},
    /* The sheet has 16 lines, or 17: the set's lines are counted on from there. */
    {HOLE_IN_RIM, "states=2\ns=1\ns=x\n", NULL, "answer=10,19\n"},
    {"pitch=10\n" HOLE_IN_RIM, "states=2\ns=1\ns=x\n", NULL, "answer=10,20\n"},
    {"pitch=10\n" HOLE_IN_RIM, NULL, NULL, "answer=10,18\n"},
    {"pitch=10\n" HOLE_IN_RIM, "pitch=10\n" HOLE_PATCHED "t=0,3,1\nt=1,3,2\n", NULL, "answer=10,18\n"},
    {"pitch=5\npoints=0\ntriangles=1\nt=0,0,0\n", "", "answer=4,0\n", "answer=10,5\n"},
    {"pitch=5\npoints=0\ntriangles=1\nt=0,0,0\n", "states=0\ntriangles=0\n", NULL, "answer=4,0\n"},
    {"pitch=1\n" HOLE_IN_RIM, "", "answer=10,1\n", "answer=10,1\n"},
    {"pitch=3\n" HOLE_IN_RIM, "", "answer=10,1\n", "answer=10,1\n"},
    {"pitch=2\n", "", "answer=10,2\n", "answer=10,2\n"},
    {"pitch=2\npitch=2\n" HOLE_IN_RIM, "", "answer=10,2\n", "answer=10,2\n"},
    /* 32,767 is on the grid at pitch 1 and too far at 2. */
    {"points=1\np=46fffe00,00000000,00000000\ntriangles=0\n", "states=0\ntriangles=0\n", "answer=0,0\nloops=0\n", "answer=0,0\n"},
    {"pitch=2\npoints=1\np=46fffe00,00000000,00000000\ntriangles=0\n", "states=0\ntriangles=0\n", "answer=8,0\n", "answer=8,0\n"},
};

static void take_text(struct file *file, const char *text)
{
    file->length = text == NULL ? 0 : strlen(text);
    memcpy(file->bytes, text == NULL ? "" : text, file->length);
}

/* Gives 0 where all examples come out as they stand here, else 1. */
static int run_examples(void)
{
    size_t count = sizeof examples / sizeof examples[0];
    size_t agreeing = 0;
    for (size_t e = 0; e < count; e++) {
        take_text(&case_sheet, examples[e].sheet);
        take_text(&case_patches, examples[e].patches);
        take_text(&case_expected, examples[e].listing);
        int same = examples[e].listing == NULL || prints_expected(LIST);
        take_text(&case_expected, examples[e].verdict);
        same = prints_expected(CHECK) && same;
        /* what was listed was read, and so is written again as it was */
        take_text(&case_expected, examples[e].sheet);
        same = (examples[e].listing == NULL || strncmp(examples[e].listing, "answer=0", 8) != 0 || prints_expected(REWRITE)) && same;
        if (!same) {
            printf("differs: example %zu\n", e);
        }
        agreeing += (size_t)same;
    }
    printf("examples=%zu agree=%zu\n", count, agreeing);
    return agreeing == count ? 0 : 1;
}

/* ---- The command ---- */

static int explain(void)
{
    fputs("reference cases DIR | make DIR N SEED | list FILE | check SHEET PATCHES | rewrite FILE | chart FILE | import FILE | self N SEED\n"
          "(a FILE or SHEET of - is standard input)\n", stderr);
    return 2;
}

int main(int count, char **given)
{
    if (count == 3 && strcmp(given[1], "cases") == 0) {
        return run_cases(given[2]);
    }
    if (count == 5 && strcmp(given[1], "make") == 0) {
        return make_cases(given[2], (unsigned)strtoul(given[3], NULL, 10), strtoull(given[4], NULL, 10));
    }
    if (count == 4 && strcmp(given[1], "self") == 0) {
        int differing = run_examples();
        return self_run((size_t)strtoull(given[2], NULL, 10), strtoull(given[3], NULL, 10)) | differing;
    }
    if (count < 3 || !read_file(given[2], &case_sheet)) {
        return explain();
    }
    if (count == 3 && strcmp(given[1], "list") == 0) {
        list_program(stdout, &case_sheet);
    } else if (count == 3 && strcmp(given[1], "rewrite") == 0) {
        rewrite_program(stdout, &case_sheet);
    } else if (count == 3 && strcmp(given[1], "chart") == 0) {
        chart_program(stdout, &case_sheet);
    } else if (count == 3 && strcmp(given[1], "import") == 0) {
        import_program(stdout, &case_sheet);
    } else if (count == 4 && strcmp(given[1], "check") == 0) {
        read_file(given[3], &case_patches);
        check_program(stdout, &case_sheet, &case_patches);
    } else {
        return explain();
    }
    return 0;
}
