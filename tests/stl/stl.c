/* Compares wazelpunt_read_stl, wazelpunt_size_stl, wazelpunt_import_stl and wazelpunt_facet with the plain reference: the answer, and every
   byte of the lent buffers with what lies before and behind them. Each file lies before a page that cannot be read.
   stl made COUNT SEED: named files with what is due for them, files at each limit, sizes of every kind, small files cut at every byte and
   with every byte changed, and that many made files of each kind, sound and damaged, from that seed on.
   stl files FILE...: files FOLDER/SHEET.TOOL.stl that a tool made from examples/SHEET.sheet. Each has to list as FOLDER/SHEET.listing says,
   and its loops have to be those of the sheet at every pitch: as many, with the same records, at the same points. */
#define _GNU_SOURCE
#include <inttypes.h>
#include <stdint.h>
#include <stdio.h>
#include <stdlib.h>
#include <string.h>
#include <sys/mman.h>
#include <unistd.h>

#include "../reference/generate.h"
#include "../reference/guarded.h"
#include "../reference/reference.h"
#include "wazelpunt.h"

#define FRONT WAZELPUNT_STL_FRONT
#define FACET WAZELPUNT_STL_FACET_BYTES
#define COUNT_AT 80
#define FLOATS 9
#define HIGHEST 16
#define MINUS_ZERO 0x80000000u
/* a count of facets whose bytes are 4 in 32 bits */
#define WRAPS 85899346u
#define OUT_ROOM (WAZELPUNT_SHEET_BYTES + 40)
#define FLOAT_ROOM 12

/* what is lent, each between guards */
struct lent {
    uint32_t words[GUARDED(GENERATE_WORD_ROOM)];
    uint16_t corners[GUARDED(GENERATE_CORNER_ROOM)];
};

struct page {
    uint8_t text[GUARDED(OUT_ROOM)];
};

struct record {
    float floats[GUARDED(FLOAT_ROOM)];
};

/* a file while it is made */
struct file {
    uint8_t bytes[GENERATE_STL_ROOM];
    size_t length;
};

static struct lent before, ours, theirs;
static struct page page_before, our_page, their_page;
static struct record record_before, our_record, their_record;
static uint8_t *room_end;
static size_t cases, wrong;
static size_t read_met[HIGHEST + 1], short_met[3], size_met[HIGHEST + 1], import_met[HIGHEST + 1];
static size_t facets_given, facets_ended, facets_short, tied, read_again;

static void count_wrong(const char *name, size_t number, size_t place) {
    if (wrong++ < 10) printf("%s: answered %zu, %zu\n", name, number, place);
}

/* ---- Files ---- */

static void make_room(void) {
    size_t unreadable = (size_t)sysconf(_SC_PAGESIZE), size = (GENERATE_STL_ROOM / unreadable + 1) * unreadable;
    uint8_t *room = mmap(0, size + unreadable, PROT_READ | PROT_WRITE, MAP_PRIVATE | MAP_ANONYMOUS, -1, 0);
    if (room == MAP_FAILED || mprotect(room + size, unreadable, PROT_NONE) != 0) {
        perror("room for a file");
        exit(2);
    }
    room_end = room + size;
}

/* A copy that ends where the unreadable page begins. */
static const uint8_t *lay(const uint8_t *bytes, size_t length) {
    return memmove(room_end - length, bytes, length);
}

static void put_word(uint8_t *at, uint32_t word) {
    for (int b = 0; b < 4; b++) at[b] = (uint8_t)(word >> 8 * b);
}

static void set_count(struct file *file, uint32_t count) { put_word(file->bytes + COUNT_AT, count); }

/* A file without facets. One header in eight begins as a text would. */
static void start_file(struct file *file, struct generator *g) {
    fill(file->bytes, FRONT, g);
    if (generate_below(g, 8) == 0) memcpy(file->bytes, "solid part", 10);
    set_count(file, 0);
    file->length = FRONT;
}

/* A facet of nine words more; its normal and attribute are anything. */
static void add_facet(struct file *file, const uint32_t *words, struct generator *g) {
    uint8_t *facet = file->bytes + file->length;
    fill(facet, FACET, g);
    for (int w = 0; w < FLOATS; w++) put_word(facet + 12 + 4 * w, words[w]);
    file->length += FACET;
    set_count(file, (uint32_t)((file->length - FRONT) / FACET));
}

/* ---- Reading ---- */

static struct reference_read_answer said, due;

/* Of the reader's answer; a file has no pitch. */
static int same_answer(void) {
    return said.number == due.number && said.place == due.place && said.words == due.words && said.corners == due.corners;
}

static int read_agrees(const uint8_t *bytes, size_t length, size_t words, size_t corners) {
    cases++;
    ours = theirs = before;
    said.number = wazelpunt_read_stl(bytes, length, ours.words + GUARD, words, ours.corners + GUARD, corners, &said.place, &said.words,
                                     &said.corners);
    reference_read_stl(bytes, length, theirs.words + GUARD, words, theirs.corners + GUARD, corners, &due);
    read_met[due.number]++;
    if (due.number == WAZELPUNT_BUFFER) short_met[due.place]++;
    if (!same_answer()) return 0;
    if (due.number != 0 && !(said.words == 0 && said.corners == 0 && memcmp(&ours, &before, sizeof ours) == 0)) return 0;
    return memcmp(&ours, &theirs, sizeof ours) == 0;
}

/* ---- Importing ---- */

static struct reference_write_answer printed;

/* What is printed is the text of the sheet that was read, or the answer's line; the text is read as that sheet again, at pitch 1. */
static int import_agrees(const uint8_t *bytes, size_t length, size_t room) {
    struct reference_write_answer written = {0, 0, 0};
    cases++;
    our_page = their_page = page_before;
    printed.number = wazelpunt_import_stl(bytes, length, our_page.text + GUARD, room, &printed.place, &printed.bytes);
    if (room < WAZELPUNT_SHEET_BYTES) {
        import_met[WAZELPUNT_BUFFER]++;
        written = (struct reference_write_answer){WAZELPUNT_BUFFER, 1, 0};
        return memcmp(&printed, &written, sizeof printed) == 0 && memcmp(&our_page, &page_before, sizeof our_page) == 0;
    }
    theirs = before;
    reference_read_stl(bytes, length, theirs.words + GUARD, REFERENCE_MOST_WORDS, theirs.corners + GUARD, REFERENCE_MOST_CORNERS, &due);
    import_met[due.number]++;
    if (due.number == 0) {
        reference_write(theirs.words + GUARD, due.words, theirs.corners + GUARD, due.corners, their_page.text + GUARD, room, 1,
                        &written);
    } else {
        char line[WAZELPUNT_ANSWER_BYTES];
        written.bytes = (size_t)snprintf(line, sizeof line, "answer=%zu,%zu\n", due.number, due.place);
        memcpy(their_page.text + GUARD, line, written.bytes);
    }
    if (memcmp(&printed, &written, sizeof printed) != 0 || memcmp(&our_page, &their_page, sizeof our_page) != 0) return 0;
    if (due.number != 0) return 1;
    uint32_t pitch = 77;
    read_again++;
    ours = before;
    said.number = wazelpunt_read(our_page.text + GUARD, printed.bytes, ours.words + GUARD, due.words, ours.corners + GUARD, due.corners,
                                 &said.place, &said.words, &said.corners, &pitch);
    return same_answer() && pitch == 1 && memcmp(&ours, &theirs, sizeof ours) == 0;
}

/* ---- Facets ---- */

/* One call from a place; the place it leaves is in *at. */
static int facet_agrees(const uint8_t *bytes, size_t length, size_t *at, size_t floats) {
    size_t from = *at, their_at = from;
    our_record = their_record = record_before;
    size_t given = wazelpunt_facet(bytes, length, at, our_record.floats + GUARD, floats);
    size_t given_due = reference_facet(bytes, length, &their_at, their_record.floats + GUARD, floats);
    facets_given += given_due == FLOATS;
    facets_short += given_due == 0 && floats < FLOATS;
    facets_ended += given_due == 0 && floats >= FLOATS;
    if (given_due == 0 && memcmp(&our_record, &record_before, sizeof our_record) != 0) return 0;
    return given == given_due && *at == their_at && memcmp(&our_record, &their_record, sizeof our_record) == 0;
}

/* Whether float f of facet k is that of the word which the sheet has there. */
static int is_tied(size_t k, size_t f) {
    uint32_t word = theirs.words[GUARD + 3 * (size_t)theirs.corners[GUARD + 3 * k + f / 3] + f % 3], bits;
    memcpy(&bits, &our_record.floats[GUARD + f], sizeof bits);
    tied++;
    return bits == ((word & ~MINUS_ZERO) > 0x7f800000u ? 0x7fc00000u : word);
}

/* From place to place to the end: as many facets as there are bytes for, and of a sheet that was read just before, its own. */
static int walk_agrees(const uint8_t *bytes, size_t length, int was_read) {
    size_t at = FRONT, facets = 0, whole = length < FRONT ? 0 : (length - FRONT) / FACET;
    cases++;
    for (;;) {
        size_t from = at;
        if (!facet_agrees(bytes, length, &at, FLOATS + facets % 3)) return 0;
        if (at == from) break;
        for (size_t f = 0; was_read && f < FLOATS; f++)
            if (!is_tied(facets, f)) return 0;
        facets++;
    }
    return facets == whole && (!was_read || 3 * facets == due.corners);
}

/* ---- One file ---- */

static void read_one(const char *name, const uint8_t *bytes, size_t length, size_t words, size_t corners) {
    const uint8_t *laid = lay(bytes, length);
    int right = read_agrees(laid, length, words, corners);
    if (right) right = walk_agrees(laid, length, due.number == 0);
    if (!right) count_wrong(name, said.number, said.place);
}

static void import_one(const char *name, const uint8_t *bytes, size_t length, size_t room) {
    if (!import_agrees(lay(bytes, length), length, room)) count_wrong(name, printed.number, printed.bytes);
}

/* Both, into as much as can be needed. */
static void try_file(const char *name, const uint8_t *bytes, size_t length) {
    import_one(name, bytes, length, WAZELPUNT_SHEET_BYTES);
    read_one(name, bytes, length, REFERENCE_MOST_WORDS, REFERENCE_MOST_CORNERS);
}

static void expect_said(const char *name, size_t number, size_t place) {
    if (said.number != number || said.place != place) count_wrong(name, said.number, said.place);
}

static void expect(const char *name, const struct file *file, size_t number) {
    try_file(name, file->bytes, file->length);
    expect_said(name, number, 0);
}

static void expect_lent(const char *name, const struct file *file, size_t words, size_t corners, size_t number, size_t place) {
    read_one(name, file->bytes, file->length, words, corners);
    expect_said(name, number, place);
}

/* ---- Named files ---- */

/* up to four facets, and the sheet that is due: its points and its corners */
struct example {
    const char *name;
    size_t facets, points;
    uint32_t words[4 * FLOATS];
    uint32_t due_words[12 * 3];
    uint16_t due_corners[12];
};

#define ONE 0x3f800000u
#define TWO 0x40000000u
#define QUIET 0x7fc00000u
#define OTHER 0x7fc00001u
#define LOUD 0x7f800001u
#define LESS 0xffc00000u
#define FAR 0x7f800000u
#define LEAST 0x00000001u

static const struct example examples[] = {
    {"no facets", 0, 0, {0}, {0}, {0}},
    {"one facet", 1, 3, {0, 0, 0, ONE, 0, 0, 0, ONE, 0}, {0, 0, 0, ONE, 0, 0, 0, ONE, 0}, {0, 1, 2}},
    {"numbered by first use", 2, 4, {TWO, 0, 0, ONE, 0, 0, 0, 0, 0, 0, 0, 0, ONE, 0, 0, 0, ONE, 0},
     {TWO, 0, 0, ONE, 0, 0, 0, 0, 0, 0, ONE, 0}, {0, 1, 2, 2, 1, 3}},
    {"one point for all corners", 1, 1, {ONE, TWO, 0, ONE, TWO, 0, ONE, TWO, 0}, {ONE, TWO, 0}, {0, 0, 0}},
    {"points that differ in one word", 1, 3, {0, 0, 0, LEAST, 0, 0, 0, LEAST, 0}, {0, 0, 0, LEAST, 0, 0, 0, LEAST, 0}, {0, 1, 2}},
    {"points that differ in the last word", 1, 3, {ONE, TWO, 0, ONE, TWO, LEAST, ONE, TWO, ONE},
     {ONE, TWO, 0, ONE, TWO, LEAST, ONE, TWO, ONE}, {0, 1, 2}},
    {"points whose words are exchanged", 2, 6, {0, ONE, TWO, 0, TWO, ONE, ONE, 0, TWO, ONE, TWO, 0, TWO, 0, ONE, TWO, ONE, 0},
     {0, ONE, TWO, 0, TWO, ONE, ONE, 0, TWO, ONE, TWO, 0, TWO, 0, ONE, TWO, ONE, 0}, {0, 1, 2, 3, 4, 5}},
    {"negative zero is zero", 1, 1, {0, MINUS_ZERO, 0, MINUS_ZERO, 0, 0, 0, 0, MINUS_ZERO}, {0, 0, 0}, {0, 0, 0}},
    {"negative zero is kept as zero", 1, 3, {MINUS_ZERO, ONE, 0, ONE, MINUS_ZERO, 0, ONE, ONE, MINUS_ZERO},
     {0, ONE, 0, ONE, 0, 0, ONE, ONE, 0}, {0, 1, 2}},
    {"what is next to negative zero is kept", 1, 3, {MINUS_ZERO + 1, 0, 0, MINUS_ZERO - 1, 0, 0, 0, 0, 0},
     {MINUS_ZERO + 1, 0, 0, MINUS_ZERO - 1, 0, 0, 0, 0, 0}, {0, 1, 2}},
    {"equal NaN words are one point", 2, 2, {QUIET, 0, LOUD, QUIET, 0, LOUD, 0, 0, 0, 0, 0, 0, QUIET, 0, LOUD, QUIET, MINUS_ZERO, LOUD},
     {QUIET, 0, LOUD, 0, 0, 0}, {0, 0, 1, 1, 0, 0}},
    {"different NaN words are different points", 2, 5, {QUIET, 0, 0, OTHER, 0, 0, LOUD, 0, 0, LESS, 0, 0, 0xff800001u, 0, 0, QUIET, 0, 0},
     {QUIET, 0, 0, OTHER, 0, 0, LOUD, 0, 0, LESS, 0, 0, 0xff800001u, 0, 0}, {0, 1, 2, 3, 4, 0}},
    {"both infinities", 1, 2, {FAR, 0, 0, FAR | MINUS_ZERO, 0, 0, FAR, 0, 0}, {FAR, 0, 0, FAR | MINUS_ZERO, 0, 0}, {0, 1, 0}},
    {"words of any bytes", 1, 2, {0x04030201u, 0x80706050u, 0xfffefdfcu, 1, 256, 65536, 0x04030201u, 0x80706050u, 0xfffefdfcu},
     {0x04030201u, 0x80706050u, 0xfffefdfcu, 1, 256, 65536}, {0, 1, 0}},
    {"a facet twice", 2, 3, {0, 0, 0, ONE, 0, 0, 0, ONE, 0, 0, 0, 0, ONE, 0, 0, 0, ONE, 0}, {0, 0, 0, ONE, 0, 0, 0, ONE, 0},
     {0, 1, 2, 0, 1, 2}},
};

static void run_examples(struct generator *g) {
    static struct file file;
    for (size_t i = 0; i < sizeof examples / sizeof *examples; i++) {
        const struct example *e = &examples[i];
        start_file(&file, g);
        for (size_t k = 0; k < e->facets; k++) add_facet(&file, e->words + FLOATS * k, g);
        import_one(e->name, file.bytes, file.length, WAZELPUNT_SHEET_BYTES);
        expect_lent(e->name, &file, 3 * e->points, 3 * e->facets, 0, 0);
        if (said.words != 3 * e->points || said.corners != 3 * e->facets ||
            memcmp(ours.words + GUARD, e->due_words, said.words * sizeof *e->due_words) != 0 ||
            memcmp(ours.corners + GUARD, e->due_corners, said.corners * sizeof *e->due_corners) != 0)
            count_wrong(e->name, said.words, said.corners);
        if (e->points == 0) continue;
        expect_lent("words short by one", &file, 3 * e->points - 1, 3 * e->facets, 3, 1);
        expect_lent("corners short by one", &file, 3 * e->points, 3 * e->facets - 1, 3, 2);
        expect_lent("both short", &file, 3 * e->points - 1, 0, 3, 1);
    }
}

/* ---- Files at the limits ---- */

/* So many facets over so many points, which stand in a row along an axis. All are used, as far as there are corners for them, and then
   the last 24 again and again: 1,000 to 1,023, where there are 1,024. */
static void make_row(struct file *file, size_t facets, size_t points, struct generator *g) {
    size_t axis = generate_below(g, 3);
    start_file(file, g);
    for (size_t k = 0; k < facets; k++) {
        uint32_t words[FLOATS] = {0};
        for (size_t c = 0; c < 3; c++) {
            size_t corner = 3 * k + c;
            words[3 * c + axis] = ONE + (uint32_t)(corner < points ? corner : points - 1 - corner % 24);
        }
        add_facet(file, words, g);
    }
}

static void run_limits(struct generator *g) {
    static struct file file;
    const size_t most = WAZELPUNT_TRIANGLES, points = WAZELPUNT_POINTS;
    for (size_t facets = 0; facets < 70; facets++) {
        make_row(&file, facets, 3 * facets, g);
        expect("a few facets without a common point", &file, 0);
    }
    for (size_t more = 1; more <= 8; more++) {
        make_row(&file, most + more, points, g);
        expect("some facets too many", &file, 2);
        make_row(&file, (points + more + 2) / 3, points + more, g);
        expect("some points too many, in as few facets as can be", &file, 1);
    }
    make_row(&file, most, points, g);
    expect("1,024 facets with 1,024 points", &file, 0);
    /* every point is named, also those of less than four digits, and no pitch: so the text is as long as can be, and shorter than a sheet's
       may be */
    if (file.length != WAZELPUNT_STL_BYTES || printed.bytes != WAZELPUNT_SHEET_BYTES - strlen("pitch=10\n") - (3 * 10 + 2 * 90 + 900))
        count_wrong("the longest file", file.length, printed.bytes);
    expect_lent("exact buffers", &file, 3 * points, 3 * most, 0, 0);
    expect_lent("words short by one at the limit", &file, 3 * points - 1, 3 * most, 3, 1);
    expect_lent("corners short by one at the limit", &file, 3 * points, 3 * most - 1, 3, 2);
    import_one("a byte too short for a text", file.bytes, file.length, WAZELPUNT_SHEET_BYTES - 1);
    file.bytes[file.length++] = 0;
    expect("the longest file and a byte", &file, 16);

    make_row(&file, most, points + 1, g);
    expect("1,025 points", &file, 1);
    expect_lent("1 before 3", &file, 0, 0, 1, 0);
    make_row(&file, most, 3 * most, g);
    expect("3,072 points", &file, 1);

    make_row(&file, most + 1, points, g);
    expect("1,025 facets", &file, 2);
    expect_lent("2 before 3", &file, 0, 0, 2, 0);
    make_row(&file, most + 1, 3 * most, g);
    expect("2 before 1", &file, 2);
    file.length--;
    expect("16 before 2", &file, 16);
    expect_lent("16 before 3", &file, 0, 0, 16, 0);
}

/* The last corner alone is the 1,025th point, or one that was met before, whichever that was. */
static void run_last_corner(struct generator *g) {
    static struct file file;
    make_row(&file, WAZELPUNT_TRIANGLES, WAZELPUNT_POINTS, g);
    uint8_t *last = file.bytes + file.length - 2 - 12;
    memset(last, 0, 12);
    expect("the last corner is one point too many", &file, 1);
    memcpy(last, file.bytes + FRONT + 12, 12);
    expect("the last corner is the first point", &file, 0);
    if (ours.corners[GUARD + 3 * WAZELPUNT_TRIANGLES - 1] != 0) count_wrong("the last corner", said.words, said.corners);
}

/* So many facets whose points are met in one bucket, where buckets are made by multiplying words: as many as there can be, and then all
   of them again. */
static void run_one_bucket(size_t facets, struct generator *g) {
    static struct file file;
    size_t corners = 3 * facets, points = corners < WAZELPUNT_POINTS ? corners : WAZELPUNT_POINTS;
    uint32_t words[FLOATS] = {0}, word = 0;
    start_file(&file, g);
    for (size_t corner = 0; corner < corners; corner++) {
        if (corner % points == 0) word = 0;
        do word++;
        while (((uint64_t)word * 0x1e3779b1u >> 27) % WAZELPUNT_POINTS != 0);
        words[3 * (corner % 3)] = word;
        if (corner % 3 == 2) add_facet(&file, words, g);
    }
    expect("points in one bucket", &file, 0);
    if (said.words != 3 * points) count_wrong("the points of one bucket", said.words, said.corners);
}

/* ---- Sizes ---- */

static void size_one(size_t length, uint32_t count) {
    size_t answer = wazelpunt_size_stl(length, count), answer_due = reference_size_stl(length, count);
    cases++;
    size_met[answer_due]++;
    if (answer != answer_due) count_wrong("a size", answer, length);
}

/* About the length that fits, and that length as it would be if it were counted in so many bits. */
static void size_round(uint32_t count) {
    size_t fits = FRONT + FACET * (size_t)count;
    for (size_t off = 0; off < 3; off++) {
        size_one(fits + off - 1, count);
        size_one(fits + FACET * (off - 1), count);
        size_one((uint32_t)fits + off - 1, count);
        size_one((uint16_t)fits + off - 1, count);
        size_one(fits + ((size_t)off << 32), count);
        size_one(fits - FRONT * off, count);
        size_one(SIZE_MAX - off, count);
    }
}

/* The count with its bytes turned round. */
static uint32_t turned(uint32_t count) { return count << 24 | (count & 0xff00) << 8 | (count >> 8 & 0xff00) | count >> 24; }

static void run_sizes(struct generator *g) {
    for (uint32_t count = 0; count <= 2 * WAZELPUNT_TRIANGLES; count++) {
        size_round(count);
        size_round(turned(count));
        size_round(UINT32_MAX - count);
        size_round(WRAPS - WAZELPUNT_TRIANGLES + count);
        size_one(count, (uint32_t)generate_bits(g));
    }
    for (size_t i = 0; i < 20000; i++) {
        uint32_t count = (uint32_t)generate_bits(g);
        size_round(count >> generate_below(g, 32));
        size_one(generate_bits(g), count);
    }
}

/* Files longer than 32 bits can count. Their pages are not there until they are touched, and only the first one is. */
static void run_over_4_gib(void) {
    size_t length = FRONT + FACET * (size_t)WRAPS;
    uint8_t *file = mmap(0, length + 1, PROT_READ | PROT_WRITE, MAP_PRIVATE | MAP_ANONYMOUS | MAP_NORESERVE, -1, 0);
    if (file == MAP_FAILED) {
        count_wrong("4 GiB could not be had", 0, 0);
        return;
    }
    put_word(file + COUNT_AT, WRAPS);
    static const struct {
        size_t more;
        size_t number;
    } lengths[] = {{0, 2}, {1, 16}};
    for (size_t i = 0; i < 2; i++) {
        int right = read_agrees(file, length + lengths[i].more, 0, 0) && import_agrees(file, length + lengths[i].more, OUT_ROOM);
        if (!right || said.number != lengths[i].number) count_wrong("a file over 4 GiB", said.number, said.place);
    }
    munmap(file, length + 1);
    static struct file wrapped;
    wrapped.length = FRONT + 4;
    set_count(&wrapped, WRAPS);
    expect("a count that wraps round", &wrapped, 16);
}

/* ---- Small files cut and changed ---- */

static void make_small(struct file *file, size_t facets, struct generator *g) {
    static const uint32_t square[2 * FLOATS] = {0, 0, 0, ONE, 0, 0, ONE, ONE, 0, 0, 0, 0, ONE, ONE, MINUS_ZERO, 0, ONE, 0};
    start_file(file, g);
    for (size_t k = 0; k < facets; k++) add_facet(file, square + FLOATS * (k % 2), g);
}

/* Cut at every byte, and longer by every number of bytes up to a facet and more. */
static void run_cut(struct generator *g) {
    static struct file file;
    for (size_t facets = 0; facets < 4; facets++) {
        make_small(&file, facets, g);
        size_t whole = file.length;
        fill(file.bytes + whole, 2 * FACET, g);
        for (file.length = 0; file.length < whole + 2 * FACET; file.length++) expect("a file cut", &file, file.length == whole ? 0 : 16);
    }
}

/* Every byte changed to some values, and the count's to each. Then files of about 256 facets, where the count gets its second byte. */
static void run_changed(struct generator *g) {
    static struct file file;
    make_small(&file, 2, g);
    for (size_t at = 0; at < file.length; at++) {
        size_t step = at / 4 == COUNT_AT / 4 ? 1 : 37;
        uint8_t byte = file.bytes[at];
        for (size_t by = 1; by < 256; by += step) {
            file.bytes[at] = (uint8_t)(byte + by);
            try_file("a byte changed", file.bytes, file.length);
        }
        file.bytes[at] = byte;
    }
    for (size_t facets = 254; facets <= 257; facets++) {
        make_small(&file, facets, g);
        expect("255 facets and about", &file, 0);
        uint32_t count = (uint32_t)facets;
        set_count(&file, turned(count));
        expect("a count with its highest byte first", &file, 16);
        set_count(&file, count + 1);
        expect("a count too high by one", &file, 16);
        set_count(&file, count - 1);
        expect("a count too low by one", &file, 16);
    }
}

/* ---- Facets anywhere ---- */

static void facet_one(const uint8_t *laid, size_t length, size_t at, size_t floats) {
    size_t from = at;
    cases++;
    if (!facet_agrees(laid, length, &at, floats)) count_wrong("a facet", from, floats);
}

static void run_facets(struct generator *g) {
    static struct file file;
    static const size_t far[] = {SIZE_MAX / 2, (size_t)1 << 32, SIZE_MAX - 2 * FACET};
    for (size_t length = 0; length < FRONT + 3 * FACET; length += 1 + generate_below(g, 9)) {
        fill(file.bytes, length, g);
        const uint8_t *laid = lay(file.bytes, length);
        for (size_t at = 0; at < length + 2 * FACET; at++) facet_one(laid, length, at, FLOATS);
        for (size_t floats = 0; floats <= FLOATS + 1; floats++) {
            facet_one(laid, length, 0, floats);
            facet_one(laid, length, FRONT, floats);
            facet_one(laid, length, length, floats);
            facet_one(laid, length, SIZE_MAX - floats, floats);
        }
        for (size_t i = 0; i < sizeof far / sizeof *far; i++)
            for (size_t by = 0; by <= 2 * FACET; by++) facet_one(laid, length, far[i] + by, FLOATS);
    }
}

/* ---- Made files ---- */

/* Words that are easily mistaken for others, and some that are not. */
static uint32_t odd_word(struct generator *g) {
    static const uint32_t words[] = {0, MINUS_ZERO, LEAST, MINUS_ZERO + LEAST, ONE, TWO, QUIET, OTHER, LOUD, LESS, FAR, FAR | MINUS_ZERO};
    size_t kinds = sizeof words / sizeof *words, kind = generate_below(g, 2 * kinds);
    return kind < kinds ? words[kind] : kind % 2 ? generate_word(g, 1) : ONE;
}

/* Facets over a few points, or over points of a few words, which often agree in two of them. */
static void make_soup(struct file *file, size_t facets, size_t points, struct generator *g) {
    static uint32_t words[3 * 64];
    size_t few = 2 + generate_below(g, 4);
    for (size_t w = 0; w < 3 * points; w++) words[w] = w < few || generate_below(g, 8) == 0 ? odd_word(g) : words[generate_below(g, few)];
    start_file(file, g);
    for (size_t k = 0; k < facets; k++) {
        uint32_t nine[FLOATS];
        for (size_t c = 0; c < 3; c++) memcpy(nine + 3 * c, words + 3 * generate_below(g, points), 3 * sizeof *nine);
        add_facet(file, nine, g);
    }
}

/* A length at, just below, far below or above what is needed. */
static size_t lend(struct generator *g, size_t need, size_t most) {
    switch (generate_below(g, 8)) {
    case 0: return need ? need - 1 : 0;
    case 1: return generate_below(g, need + 1);
    case 2: return need + generate_below(g, most - need + 1);
    case 3: return most;
    default: return need;
    }
}

static void try_made(const char *name, const struct file *file, struct generator *g) {
    import_one(name, file->bytes, file->length, lend(g, WAZELPUNT_SHEET_BYTES, OUT_ROOM));
    struct reference_read_answer whole;
    reference_read_stl(file->bytes, file->length, theirs.words, REFERENCE_MOST_WORDS, theirs.corners, REFERENCE_MOST_CORNERS, &whole);
    size_t words = lend(g, whole.words, GENERATE_WORD_ROOM), corners = lend(g, whole.corners, GENERATE_CORNER_ROOM);
    read_one(name, file->bytes, file->length, words, corners);
}

/* As it is, and damaged. */
static void try_both(const char *name, struct file *file, struct generator *g) {
    try_made(name, file, g);
    file->length = generate_stl_damage(g, file->bytes, file->length);
    try_made("a damaged file", file, g);
}

static void run_made(struct generator *g) {
    static struct file file;
    size_t facets = generate_below(g, 40), points = 1 + generate_below(g, 24);
    make_soup(&file, facets, points, g);
    try_both("a made soup", &file, g);
    if (generate_below(g, 16) != 0) return;
    file.length = generate_stl(g, file.bytes);
    try_both("a made file", &file, g);
}

/* ---- Files of other tools ---- */

/* the loops of a surface as they are patched */
struct loops {
    uint32_t words[WAZELPUNT_WORDS];
    uint16_t corners[WAZELPUNT_CORNERS], rings[WAZELPUNT_CORNERS], patches[WAZELPUNT_SET_CORNERS];
    uint64_t records[WAZELPUNT_RECORDS_FOR(WAZELPUNT_CORNERS)];
    size_t word_count, corner_count, loops, vertices, laid, place;
    uint32_t number;
};

static void patch(struct loops *l, uint32_t pitch) {
    static int32_t grid[WAZELPUNT_WORDS];
    l->number = wazelpunt_patch(l->words, l->word_count, l->corners, l->corner_count, grid, WAZELPUNT_WORDS, l->rings, WAZELPUNT_CORNERS,
                                l->records, WAZELPUNT_RECORDS_FOR(WAZELPUNT_CORNERS), l->patches, WAZELPUNT_SET_CORNERS, &l->place,
                                &l->loops, &l->vertices, &l->laid, pitch);
}

/* Whether the points that two lists name, one after the other, have the same words, negative zero read as zero. */
static int same_points(const struct loops *a, const uint16_t *of_a, const struct loops *b, const uint16_t *of_b, size_t count) {
    for (size_t i = 0; i < 3 * count; i++) {
        uint32_t x = a->words[3 * (size_t)of_a[i / 3] + i % 3], y = b->words[3 * (size_t)of_b[i / 3] + i % 3];
        if ((x == MINUS_ZERO ? 0 : x) != (y == MINUS_ZERO ? 0 : y)) return 0;
    }
    return 1;
}

static int same_loops(const struct loops *a, const struct loops *b) {
    return a->number == b->number && a->place == b->place && a->loops == b->loops && a->vertices == b->vertices && a->laid == b->laid &&
           memcmp(a->records, b->records, a->loops * WAZELPUNT_RECORD * sizeof *a->records) == 0 &&
           same_points(a, a->rings, b, b->rings, a->vertices) && same_points(a, a->patches, b, b->patches, a->laid);
}

static size_t take(const char *name, uint8_t *bytes, size_t room) {
    FILE *file = fopen(name, "rb");
    if (file == 0) {
        perror(name);
        exit(2);
    }
    size_t length = fread(bytes, 1, room, file);
    fclose(file);
    return length;
}

/* What the file's text lists. */
static size_t list_file(const uint8_t *bytes, size_t length, uint8_t *listing) {
    static uint8_t text[WAZELPUNT_SHEET_BYTES];
    size_t place, written, listed;
    wazelpunt_import_stl(bytes, length, text, sizeof text, &place, &written);
    wazelpunt_list_text(text, written, listing, WAZELPUNT_LISTING_BYTES, &place, &listed);
    return listed;
}

static void run_file(const char *path) {
    static const uint32_t pitches[4] = {1, 2, 5, 10};
    uint32_t pitch;
    static uint8_t bytes[GENERATE_STL_ROOM], text[WAZELPUNT_SHEET_BYTES];
    static uint8_t listing[WAZELPUNT_LISTING_BYTES], listing_due[WAZELPUNT_LISTING_BYTES];
    static struct loops sheet, file;
    const char *slash = strrchr(path, '/'), *name = slash ? slash + 1 : path;
    int stem = (int)strcspn(name, ".");
    char beside[4096];
    size_t length = take(path, bytes, sizeof bytes), place;

    snprintf(beside, sizeof beside, "examples/%.*s.sheet", stem, name);
    size_t text_length = take(beside, text, sizeof text);
    snprintf(beside, sizeof beside, "%.*s%.*s.listing", (int)(name - path), path, stem, name);
    size_t due_length = take(beside, listing_due, sizeof listing_due);

    try_file(path, bytes, length);
    size_t listed = list_file(bytes, length, listing);
    if (listed != due_length || memcmp(listing, listing_due, listed) != 0) {
        printf("%s: ", path);
        count_wrong("another listing", listed, due_length);
    }

    uint32_t read = wazelpunt_read(text, text_length, sheet.words, WAZELPUNT_WORDS, sheet.corners, WAZELPUNT_CORNERS, &place,
                                   &sheet.word_count, &sheet.corner_count, &pitch);
    uint32_t number = wazelpunt_read_stl(bytes, length, file.words, WAZELPUNT_WORDS, file.corners, WAZELPUNT_CORNERS, &place,
                                         &file.word_count, &file.corner_count);
    for (size_t p = 0; p < sizeof pitches / sizeof *pitches; p++) {
        patch(&sheet, pitches[p]);
        patch(&file, pitches[p]);
        if (read != 0 || number != 0 || pitch != 1 || !same_loops(&sheet, &file)) {
            printf("%s at pitch %" PRIu32 ": ", path, pitches[p]);
            count_wrong("other loops", number, file.number);
        }
    }
}

/* ---- The command ---- */

/* How often each thing was tried, and how often it has to be at least. */
static void demand_met(void) {
    const struct {
        const char *name;
        size_t met, least;
    } demands[] = {
        {"read", read_met[0], 2000},
        {"1 read", read_met[1], 10},
        {"2 read", read_met[2], 10},
        {"words too short", short_met[1], 500},
        {"corners too short", short_met[2], 500},
        {"16 read", read_met[16], 2000},
        {"a size of 0", size_met[0], 1000},
        {"a size of 2", size_met[2], 1000},
        {"a size of 16", size_met[16], 10000},
        {"a text imported", import_met[0], 2000},
        {"1 imported", import_met[1], 5},
        {"2 imported", import_met[2], 5},
        {"no room for a text", import_met[3], 200},
        {"16 imported", import_met[16], 2000},
        {"a facet given", facets_given, 10000},
        {"an end of facets", facets_ended, 10000},
        {"too few floats", facets_short, 1000},
        {"a float tied to its word", tied, 10000},
        {"a text read again", read_again, 2000},
    };
    for (size_t i = 0; i < sizeof demands / sizeof *demands; i++)
        if (demands[i].met < demands[i].least) count_wrong(demands[i].name, demands[i].met, demands[i].least);
}

static void run_all(int argc, char **argv, struct generator *g) {
    size_t count = argc > 2 ? strtoul(argv[2], 0, 10) : 3000;
    uint64_t seed = argc > 3 ? strtoull(argv[3], 0, 10) : 1;
    generate_start(g, seed);
    run_examples(g);
    run_limits(g);
    run_last_corner(g);
    run_one_bucket(16, g);
    run_one_bucket(17, g);
    run_one_bucket(WAZELPUNT_TRIANGLES, g);
    run_sizes(g);
    run_over_4_gib();
    run_cut(g);
    run_changed(g);
    run_facets(g);
    for (size_t i = 0; i < count; i++) run_made(g);
    if (argc <= 2) demand_met();
    printf("stl: seed %" PRIu64 ", %zu cases, %zu wrong; read 0: %zu, 1: %zu, 2: %zu, 3: %zu and %zu, 16: %zu; ", seed, cases, wrong,
           read_met[0], read_met[1], read_met[2], short_met[1], short_met[2], read_met[16]);
    printf("imported 0: %zu, 1: %zu, 2: %zu, 3: %zu, 16: %zu; sizes 0: %zu, 2: %zu, 16: %zu; facets %zu\n", import_met[0], import_met[1],
           import_met[2], import_met[3], import_met[16], size_met[0], size_met[2], size_met[16], facets_given);
}

int main(int argc, char **argv) {
    struct generator g;
    make_room();
    generate_start(&g, 1);
    fill(&before, sizeof before, &g);
    fill(&page_before, sizeof page_before, &g);
    fill(&record_before, sizeof record_before, &g);
    if (argc > 1 && strcmp(argv[1], "made") == 0) {
        run_all(argc, argv, &g);
    } else if (argc > 2 && strcmp(argv[1], "files") == 0) {
        for (int i = 2; i < argc; i++) run_file(argv[i]);
        printf("stl: %d files of other tools, %zu wrong\n", argc - 2, wrong);
    } else {
        fputs("stl made [COUNT [SEED]] | stl files FILE...\n", stderr);
        return 2;
    }
    return wrong != 0;
}
