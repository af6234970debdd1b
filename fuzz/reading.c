/* Fuzzing of the reading of texts and of files of facets. An input is one byte and what is read. The byte chooses whether that is read as a
   sheet, as a set or as facets, and how much is lent; the archive and the plain reference then read it, and their answers and every byte
   lent, with what lies before and behind it, have to be the same. A sheet that is accepted is written again, at the pitch that was read,
   and has to be the text that was read; or at another number, which may be no pitch. Facets are imported besides, and handed out one by
   one. Any difference aborts.
   Made for libFuzzer; with ALONE defined it is a program instead, which takes the inputs from the files given, to try a finding again. */
#define _GNU_SOURCE
#include <stdint.h>
#include <stdio.h>
#include <stdlib.h>
#include <string.h>
#include <sys/mman.h>
#include <unistd.h>

#include "../tests/reference/reference.h"
#include "wazelpunt.h"

#define GUARD 16
#define LONGEST_INPUT ((size_t)1 << 20)
#define FLOATS 9

/* What is lent to a reader, each between guards; a set may have more corners than a sheet. */
struct lent {
    uint32_t words[REFERENCE_MOST_WORDS + 2 * GUARD];
    uint16_t states[REFERENCE_MOST_STATES + 2 * GUARD];
    uint16_t corners[REFERENCE_MOST_PATCH_CORNERS + 2 * GUARD];
};

/* What is lent to a writer. */
struct page {
    uint8_t text[REFERENCE_LONGEST_TEXT + 2 * GUARD];
};

/* A number, its place, up to two counts, and of a sheet that was read its pitch. */
struct answer {
    size_t number, place, counts[2], pitch;
};

/* What is lent to the reader of facets. */
struct record {
    float floats[FLOATS + 2 * GUARD];
};

enum kind { SHEET, SET, FACETS };

/* The byte: one bit for a set, two for each of the two lengths lent, and three for the rest. Where it is no set, the last bit tells facets
   from a sheet, and two are left. */
struct choice {
    enum kind kind;
    unsigned first, second, rest;
};

static struct lent before, ours, theirs;
static struct page page_before, our_page, their_page;
static struct record record_before, our_record, their_record;
static size_t sheets, sheets_accepted, coarse_accepted, sets, sets_accepted, files, files_accepted;

/* ---- Telling ---- */

static void tell(void) {
    fprintf(stderr, "read: %zu sheets, %zu accepted, %zu of them with a pitch; %zu sets, %zu accepted; %zu files of facets, %zu accepted\n",
            sheets, sheets_accepted, coarse_accepted, sets, sets_accepted, files, files_accepted);
}

static void differ(const char *what, const struct answer *said, const struct answer *due) {
    fprintf(stderr, "%s: answered %zu, %zu, %zu, %zu, pitch %zu; due %zu, %zu, %zu, %zu, pitch %zu\n", what, said->number, said->place,
            said->counts[0], said->counts[1], said->pitch, due->number, due->place, due->counts[0], due->counts[1], due->pitch);
    abort();
}

static void compare_answers(const char *what, const struct answer *said, const struct answer *due) {
    if (memcmp(said, due, sizeof *due) != 0) differ(what, said, due);
}

/* Both have left the same; and where they refused, what was there before. */
static void compare_lent(const char *what, const struct answer *said, const struct answer *due) {
    compare_answers(what, said, due);
    if (memcmp(&ours, &theirs, sizeof ours) != 0) differ(what, said, due);
    if (due->number != 0 && memcmp(&ours, &before, sizeof ours) != 0) differ(what, said, due);
}

/* ---- What is lent ---- */

/* Bytes without a pattern, so that one left out or written over shows. */
static void fill(void *room, size_t length) {
    uint8_t *bytes = room;
    uint64_t state = length;
    for (size_t i = 0; i < length; i++) {
        state = state * 6364136223846793005u + 1442695040888963407u;
        bytes[i] = (uint8_t)(state >> 56);
    }
}

/* As much as can be needed, just what is needed, one less, or something between. */
static size_t lend(unsigned choice, size_t needed, size_t most) {
    switch (choice) {
    case 0: return most;
    case 1: return needed;
    case 2: return needed > 0 ? needed - 1 : 0;
    default: return 9;
    }
}

/* A copy of what is read with a page behind it that cannot be, so that reading past its end is found too. */
static const uint8_t *copy_input(const uint8_t *input, size_t length) {
    static uint8_t *room;
    size_t unreadable = (size_t)sysconf(_SC_PAGESIZE);
    if (room == 0) {
        room = mmap(0, LONGEST_INPUT + unreadable, PROT_READ | PROT_WRITE, MAP_PRIVATE | MAP_ANONYMOUS, -1, 0);
        if (room == MAP_FAILED || mprotect(room + LONGEST_INPUT, unreadable, PROT_NONE) != 0) {
            perror("room for the input");
            exit(2);
        }
    }
    if (length > 0) memcpy(room + LONGEST_INPUT - length, input, length);
    return room + LONGEST_INPUT - length;
}

/* ---- Sheets ---- */

static struct answer read_sheet(const uint8_t *text, size_t length, size_t words, size_t corners) {
    struct reference_read_answer r;
    theirs = before;
    reference_read(text, length, theirs.words + GUARD, words, theirs.corners + GUARD, corners, &r);
    return (struct answer){r.number, r.place, {r.words, r.corners}, r.pitch};
}

/* Writes what was read, into as much as the text has, one byte less, or as much as can be; or, there, at another number for the pitch. */
static void write_again(const uint8_t *text, size_t length, unsigned choice, const struct answer *read) {
    const uint32_t *words = ours.words + GUARD;
    const uint16_t *corners = ours.corners + GUARD;
    size_t room = choice == 1 ? length - 1 : choice >= 2 ? REFERENCE_LONGEST_TEXT : length;
    uint32_t pitch = choice == 3 ? (uint32_t)length % 12 : (uint32_t)read->pitch;
    struct answer said = {0};
    struct reference_write_answer r;
    our_page = their_page = page_before;
    said.number = wazelpunt_write(words, read->counts[0], corners, read->counts[1], our_page.text + GUARD, room, &said.place,
                                  &said.counts[0], pitch);
    reference_write(words, read->counts[0], corners, read->counts[1], their_page.text + GUARD, room, pitch, &r);
    const struct answer due = {r.number, r.place, {r.bytes, 0}, 0};
    compare_answers("writing", &said, &due);
    if (memcmp(&our_page, &their_page, sizeof our_page) != 0) differ("writing", &said, &due);
    if (choice == 1 || pitch != read->pitch) return;
    if (said.number != 0 || said.counts[0] != length || memcmp(our_page.text + GUARD, text, length) != 0)
        differ("the text written again", &said, &due);
}

static void try_sheet(const uint8_t *text, size_t length, const struct choice *choice) {
    struct answer needed = read_sheet(text, length, REFERENCE_MOST_WORDS, REFERENCE_MOST_CORNERS), said = {0};
    size_t words = lend(choice->first, needed.counts[0], REFERENCE_MOST_WORDS);
    size_t corners = lend(choice->second, needed.counts[1], REFERENCE_MOST_CORNERS);
    struct answer due = read_sheet(text, length, words, corners);
    ours = before;
    uint32_t pitch = 77;
    said.number = wazelpunt_read(text, length, ours.words + GUARD, words, ours.corners + GUARD, corners, &said.place,
                                 &said.counts[0], &said.counts[1], &pitch);
    said.pitch = pitch;
    compare_lent("a sheet", &said, &due);
    sheets++;
    if (said.number != 0) return;
    sheets_accepted++;
    coarse_accepted += said.pitch != 1;
    write_again(text, length, choice->rest, &said);
}

/* ---- Sets ---- */

static struct answer read_set(const uint8_t *text, size_t length, uint16_t lines, size_t states, size_t corners) {
    struct reference_set_answer r;
    theirs = before;
    reference_read_set(text, length, (size_t)lines + 1, theirs.states + GUARD, states, theirs.corners + GUARD, corners, &r);
    return (struct answer){r.number, r.place, {r.states, r.corners}, 0};
}

static void try_set(const uint8_t *text, size_t length, const struct choice *choice) {
    static const uint16_t lines_before[8] = {0, 1, 2, 100, 2050, 2051, 65534, 65535};
    uint16_t lines = lines_before[choice->rest];
    struct answer needed = read_set(text, length, lines, REFERENCE_MOST_STATES, REFERENCE_MOST_PATCH_CORNERS), said = {0};
    size_t states = lend(choice->first, needed.counts[0], REFERENCE_MOST_STATES);
    size_t corners = lend(choice->second, needed.counts[1], REFERENCE_MOST_PATCH_CORNERS);
    struct answer due = read_set(text, length, lines, states, corners);
    ours = before;
    said.number = wazelpunt_read_set(text, length, lines, ours.states + GUARD, states, ours.corners + GUARD, corners, &said.place,
                                     &said.counts[0], &said.counts[1]);
    compare_lent("a set", &said, &due);
    sets++;
    if (said.number == 0) sets_accepted++;
}

/* ---- Facets ---- */

static struct answer read_facets(const uint8_t *file, size_t length, size_t words, size_t corners) {
    struct reference_read_answer r;
    theirs = before;
    reference_read_stl(file, length, theirs.words + GUARD, words, theirs.corners + GUARD, corners, &r);
    return (struct answer){r.number, r.place, {r.words, r.corners}, 0};
}

/* What is printed is the text of the sheet that was read, or the answer's line. */
static void import_facets(const uint8_t *file, size_t length, const struct answer *read) {
    struct answer said = {0}, due = {0};
    our_page = their_page = page_before;
    said.number = wazelpunt_import_stl(file, length, our_page.text + GUARD, REFERENCE_LONGEST_TEXT, &said.place, &said.counts[0]);
    if (read->number != 0) {
        due.counts[0] = (size_t)sprintf((char *)their_page.text + GUARD, "answer=%zu,%zu\n", read->number, read->place);
        their_page.text[GUARD + due.counts[0]] = page_before.text[GUARD + due.counts[0]];
    } else {
        struct reference_write_answer r;
        reference_write(theirs.words + GUARD, read->counts[0], theirs.corners + GUARD, read->counts[1], their_page.text + GUARD,
                        REFERENCE_LONGEST_TEXT, 1, &r);
        due = (struct answer){r.number, r.place, {r.bytes, 0}, 0};
    }
    compare_answers("importing", &said, &due);
    if (memcmp(&our_page, &their_page, sizeof our_page) != 0) differ("importing", &said, &due);
}

/* One facet after the other to the end, from where they begin or from another place. */
static void walk_facets(const uint8_t *file, size_t length, size_t from, size_t floats) {
    struct answer said = {0, from, {0, 0}, 0}, due = said;
    do {
        our_record = their_record = record_before;
        said.counts[0] = wazelpunt_facet(file, length, &said.place, our_record.floats + GUARD, floats);
        due.counts[0] = reference_facet(file, length, &due.place, their_record.floats + GUARD, floats);
        compare_answers("a facet", &said, &due);
        if (memcmp(&our_record, &their_record, sizeof our_record) != 0) differ("a facet", &said, &due);
    } while (due.counts[0] != 0);
}

static void try_facets(const uint8_t *file, size_t length, const struct choice *choice) {
    struct answer needed = read_facets(file, length, REFERENCE_MOST_WORDS, REFERENCE_MOST_CORNERS), said = {0};
    import_facets(file, length, &needed);
    size_t words = lend(choice->first, needed.counts[0], REFERENCE_MOST_WORDS);
    size_t corners = lend(choice->second, needed.counts[1], REFERENCE_MOST_CORNERS);
    struct answer due = read_facets(file, length, words, corners);
    ours = before;
    said.number = wazelpunt_read_stl(file, length, ours.words + GUARD, words, ours.corners + GUARD, corners, &said.place, &said.counts[0],
                                     &said.counts[1]);
    compare_lent("facets", &said, &due);
    walk_facets(file, length, REFERENCE_STL_FRONT, FLOATS);
    walk_facets(file, length, REFERENCE_STL_FACET * choice->rest + choice->first, FLOATS - choice->second % 2);
    files++;
    if (said.number == 0) files_accepted++;
    if (length < REFERENCE_STL_FRONT) return;
    struct answer size_said = {wazelpunt_size_stl(length, reference_count_stl(file)), 0, {0, 0}, 0};
    struct answer size_due = {reference_size_stl(length, reference_count_stl(file)), 0, {0, 0}, 0};
    compare_answers("a size", &size_said, &size_due);
}

/* ---- Inputs ---- */

static struct choice choose(uint8_t byte) {
    enum kind kind = (byte & 1) ? SET : byte >> 7 ? FACETS : SHEET;
    return (struct choice){kind, byte >> 1 & 3, byte >> 3 & 3, kind == SET ? byte >> 5 : byte >> 5 & 3};
}

int LLVMFuzzerInitialize(int *argc, char ***argv) {
    (void)argc;
    (void)argv;
    fill(&before, sizeof before);
    fill(&page_before, sizeof page_before);
    fill(&record_before, sizeof record_before);
    atexit(tell);
    return 0;
}

int LLVMFuzzerTestOneInput(const uint8_t *input, size_t length) {
    if (length == 0 || length > LONGEST_INPUT) return 0;
    const struct choice choice = choose(input[0]);
    const uint8_t *read = copy_input(input + 1, length - 1);
    (choice.kind == SET ? try_set : choice.kind == FACETS ? try_facets : try_sheet)(read, length - 1, &choice);
    return 0;
}

#ifndef ALONE
size_t LLVMFuzzerMutate(uint8_t *input, size_t length, size_t most);

/* Puts another digit for the one there, if one is: a hexadecimal one in the line of a point, else a decimal one. */
static void change_digit(uint8_t *input, size_t at, unsigned bits) {
    const char *digits = "0123456789abcdef";
    size_t start = at;
    while (start > 1 && input[start - 1] != '\n') start--;
    unsigned base = input[start] == 'p' && input[start + 1] == '=' ? 16 : 10;
    if (memchr(digits, input[at], base) != 0) input[at] = (uint8_t)digits[bits % base];
}

/* Puts a word of one corner, or all of its words, into another, so that points meet or part; or changes a byte of it. */
static void change_corner(uint8_t *input, size_t facets, uint64_t bits) {
    uint8_t *first = input + 1 + REFERENCE_STL_FRONT;
    size_t from = bits >> 40 & 0xffff, to = bits >> 24 & 0xffff, word = bits >> 8 & 3;
    uint8_t *here = first + REFERENCE_STL_FACET * (to / 3 % facets) + 12 + 12 * (to % 3);
    const uint8_t *there = first + REFERENCE_STL_FACET * (from / 3 % facets) + 12 + 12 * (from % 3);
    if (word < 3) memmove(here + 4 * word, there + 4 * word, 4);
    else if (bits & 1) memmove(here, there, 12);
    else here[bits >> 4 & 7] = (uint8_t)(bits >> 12);
}

/* Some facets less, or some once more, up to as many as are read or one more, with the count that fits; gives the length that fits. */
static size_t change_count(uint8_t *input, size_t facets, size_t most, uint64_t bits) {
    size_t other = (bits & 1) ? facets + (bits >> 8) % (facets + 1) : (bits >> 8) % (facets + 1);
    size_t room = (most - 1 - REFERENCE_STL_FRONT) / REFERENCE_STL_FACET;
    if (other > REFERENCE_MOST_TRIANGLES) other = REFERENCE_MOST_TRIANGLES + (bits >> 1 & 1);
    if (other > room) other = room;
    uint8_t *first = input + 1 + REFERENCE_STL_FRONT;
    if (other > facets) memcpy(first + REFERENCE_STL_FACET * facets, first, REFERENCE_STL_FACET * (other - facets));
    for (int b = 0; b < 4; b++) first[b - 4] = (uint8_t)(other >> 8 * b);
    return 1 + REFERENCE_STL_FRONT + REFERENCE_STL_FACET * other;
}

static uint64_t next_bits(uint64_t bits) { return bits * 6364136223846793005u + 1442695040888963407u; }

/* Every second change is of a few digits, or of facets, which mostly leaves sound what is so: with changes of any bytes hardly a text is
   accepted, and no file of another length. */
size_t LLVMFuzzerCustomMutator(uint8_t *input, size_t length, size_t most, unsigned seed) {
    uint64_t bits = next_bits(seed);
    size_t facets = length < 1 + REFERENCE_STL_FRONT ? 0 : (length - 1 - REFERENCE_STL_FRONT) / REFERENCE_STL_FACET;
    int in_facets = length > 0 && choose(input[0]).kind == FACETS;
    if (length < 3 || (in_facets && facets == 0) || (bits >> 63) == 0) return LLVMFuzzerMutate(input, length, most);
    if (in_facets && (bits >> 58 & 3) == 0) return change_count(input, facets, most, next_bits(bits));
    for (unsigned times = 1 + (bits >> 60 & 3); times > 0; times--) {
        bits = next_bits(bits);
        if (in_facets) change_corner(input, facets, bits);
        else change_digit(input, 1 + (bits >> 32) % (length - 2), bits >> 20 & 0xfff);
    }
    return length;
}
#else
int main(int argc, char **argv) {
    static uint8_t input[LONGEST_INPUT];
    LLVMFuzzerInitialize(&argc, &argv);
    for (int f = 1; f < argc; f++) {
        FILE *file = fopen(argv[f], "rb");
        if (file == 0) {
            perror(argv[f]);
            return 2;
        }
        size_t length = fread(input, 1, sizeof input, file);
        fclose(file);
        fprintf(stderr, "%s\n", argv[f]);
        LLVMFuzzerTestOneInput(input, length);
    }
    return 0;
}
#endif
