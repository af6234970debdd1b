/* Compares wazelpunt_read, wazelpunt_write and wazelpunt_read_set with the plain reference: the answer, and every byte of the lent
   buffers with what lies before and behind them. It takes a corpus of named texts with what is said of them, with and without a line for
   the pitch; small sheets and a small set cut at every byte, and with every byte changed to each of 256 values; a first line of 1 GiB; the
   longest texts; and made sheets, sets and texts, sound and damaged, into buffers that are exact, longer or shorter. What is accepted is
   written again and has to be the same text, and what is written is read again and has to be the same sheet.
   texts COUNT SEED: that many made cases of each kind, from that seed on. */
#define _GNU_SOURCE
#include <inttypes.h>
#include <stdint.h>
#include <stdio.h>
#include <stdlib.h>
#include <string.h>
#include <sys/mman.h>

#include "../reference/generate.h"
#include "../reference/guarded.h"
#include "../reference/reference.h"
#include "wazelpunt.h"

#define HIGHEST 17
#define PITCHES 4

/* what is lent, each between guards */
struct lent {
    uint32_t words[GUARDED(GENERATE_WORD_ROOM)];
    uint16_t corners[GUARDED(GENERATE_SET_ROOM)];
    uint16_t states[GUARDED(GENERATE_SET_ROOM)];
    uint8_t text[GUARDED(GENERATE_TEXT_ROOM)];
};

static struct lent before, ours, theirs;
static size_t cases, wrong;
static size_t read_met[HIGHEST + 1], set_met[HIGHEST + 1], write_met[HIGHEST + 1];
static size_t accepted, written_again, accepted_coarse;
static const uint32_t pitches[PITCHES] = {1, 2, 5, 10};

static void count_wrong(const char *name, size_t number, size_t place) {
    if (wrong++ < 10) printf("%s: answered %zu, %zu\n", name, number, place);
}

/* ---- Reading a sheet ---- */

static struct reference_read_answer read_said, read_due;

static int same_sheet_buffers(void) {
    return memcmp(ours.words, theirs.words, sizeof ours.words) == 0 && memcmp(ours.corners, theirs.corners, sizeof ours.corners) == 0;
}

static int sheet_untouched(void) {
    return memcmp(ours.words, before.words, sizeof ours.words) == 0 && memcmp(ours.corners, before.corners, sizeof ours.corners) == 0;
}

static int read_agrees(const uint8_t *text, size_t length, size_t words, size_t corners) {
    struct {
        uint32_t before, pitch, after;
    } head = {0x5a5a5a5a, 77, 0xa5a5a5a5};
    cases++;
    memcpy(ours.words, before.words, sizeof ours.words);
    memcpy(ours.corners, before.corners, sizeof ours.corners);
    memcpy(theirs.words, before.words, sizeof ours.words);
    memcpy(theirs.corners, before.corners, sizeof ours.corners);
    read_said.number = wazelpunt_read(text, length, ours.words + GUARD, words, ours.corners + GUARD, corners, &read_said.place, &read_said.words, &read_said.corners, &head.pitch);
    read_said.pitch = head.pitch;
    reference_read(text, length, theirs.words + GUARD, words, theirs.corners + GUARD, corners, &read_due);
    if (read_due.number <= HIGHEST) read_met[read_due.number]++;
    if (memcmp(&read_said, &read_due, sizeof read_said) != 0 || head.before != 0x5a5a5a5a || head.after != 0xa5a5a5a5) return 0;
    if (read_due.number != 0 && !(read_said.words == 0 && read_said.corners == 0 && read_said.pitch == 0 && sheet_untouched())) return 0;
    return same_sheet_buffers();
}

/* What was accepted, written again, is the text that was read. */
static int writes_back(const uint8_t *text, size_t length) {
    static uint8_t again[REFERENCE_LONGEST_TEXT];
    size_t place, bytes;
    uint32_t number = wazelpunt_write(ours.words + GUARD, read_said.words, ours.corners + GUARD, read_said.corners, again, sizeof again, &place, &bytes, (uint32_t)read_said.pitch);
    written_again++;
    return number == 0 && bytes == length && memcmp(again, text, length) == 0;
}

static void read_one(const char *name, const uint8_t *text, size_t length, size_t words, size_t corners) {
    int right = read_agrees(text, length, words, corners);
    if (right && read_said.number == 0) {
        accepted++;
        accepted_coarse += read_said.pitch != 1;
        right = writes_back(text, length);
    }
    if (!right) count_wrong(name, read_said.number, read_said.place);
}

static void expect_read(const char *name, const uint8_t *text, size_t length, size_t number, size_t place) {
    read_one(name, text, length, REFERENCE_MOST_WORDS, REFERENCE_MOST_CORNERS);
    if (read_said.number != number || read_said.place != place) count_wrong(name, read_said.number, read_said.place);
}

/* ---- Reading a set ---- */

static struct reference_set_answer set_said, set_due;

static int set_untouched(void) {
    return memcmp(ours.states, before.states, sizeof ours.states) == 0 && memcmp(ours.corners, before.corners, sizeof ours.corners) == 0;
}

static int set_agrees(const uint8_t *text, size_t length, uint16_t lines, size_t states, size_t corners) {
    cases++;
    memcpy(ours.states, before.states, sizeof ours.states);
    memcpy(ours.corners, before.corners, sizeof ours.corners);
    memcpy(theirs.states, before.states, sizeof ours.states);
    memcpy(theirs.corners, before.corners, sizeof ours.corners);
    set_said.number = wazelpunt_read_set(text, length, lines, ours.states + GUARD, states, ours.corners + GUARD, corners, &set_said.place, &set_said.states, &set_said.corners);
    reference_read_set(text, length, (size_t)lines + 1, theirs.states + GUARD, states, theirs.corners + GUARD, corners, &set_due);
    if (set_due.number <= HIGHEST) set_met[set_due.number]++;
    if (memcmp(&set_said, &set_due, sizeof set_said) != 0) return 0;
    if (set_due.number != 0 && !(set_said.states == 0 && set_said.corners == 0 && set_untouched())) return 0;
    return memcmp(ours.states, theirs.states, sizeof ours.states) == 0 && memcmp(ours.corners, theirs.corners, sizeof ours.corners) == 0;
}

static void set_one(const char *name, const uint8_t *text, size_t length, uint16_t lines, size_t states, size_t corners) {
    if (!set_agrees(text, length, lines, states, corners)) count_wrong(name, set_said.number, set_said.place);
}

static void expect_set(const char *name, const uint8_t *text, size_t length, size_t number, size_t place) {
    set_one(name, text, length, 0, REFERENCE_MOST_STATES, REFERENCE_MOST_PATCH_CORNERS);
    if (set_said.number != number || set_said.place != place) count_wrong(name, set_said.number, set_said.place);
}

/* ---- Writing a sheet ---- */

static struct reference_write_answer write_said, write_due;

static void write_one(const char *name, const struct generated_surface *s, size_t room) {
    cases++;
    memcpy(ours.text, before.text, sizeof ours.text);
    memcpy(theirs.text, before.text, sizeof ours.text);
    write_said.number = wazelpunt_write(s->words, s->word_count, s->corners, s->corner_count, ours.text + GUARD, room, &write_said.place, &write_said.bytes, s->pitch);
    reference_write(s->words, s->word_count, s->corners, s->corner_count, theirs.text + GUARD, room, s->pitch, &write_due);
    if (write_due.number <= HIGHEST) write_met[write_due.number]++;
    int right = memcmp(&write_said, &write_due, sizeof write_said) == 0 && memcmp(ours.text, theirs.text, sizeof ours.text) == 0;
    if (right && write_said.number != 0) right = write_said.bytes == 0 && memcmp(ours.text, before.text, sizeof ours.text) == 0;
    if (right && write_said.number == 0) {
        right = read_agrees(ours.text + GUARD, write_said.bytes, s->word_count, s->corner_count) && read_said.number == 0 && read_said.pitch == s->pitch && read_said.words == s->word_count && read_said.corners == s->corner_count
            && memcmp(ours.words + GUARD, s->words, s->word_count * sizeof *s->words) == 0 && memcmp(ours.corners + GUARD, s->corners, s->corner_count * sizeof *s->corners) == 0;
    }
    if (!right) count_wrong(name, write_said.number, write_said.place);
}

/* ---- The corpus ---- */

struct text {
    const char *name;
    const char *bytes;
    size_t length;
    size_t number, place, pitch;
};

#define HEADED(name, bytes, number, place, pitch) {name, bytes, sizeof(bytes) - 1, number, place, pitch}
#define TEXT(name, bytes, number, place) HEADED(name, bytes, number, place, (number) == 0)

#define P0 "p=00000000,00000000,00000000\n"
#define P1 "p=3f800000,00000000,00000000\n"
#define P2 "p=00000000,3f800000,00000000\n"
#define POINTS "points=3\n" P0 P1 P2
#define SHEET POINTS "triangles=1\nt=0,1,2\n"

static const struct text sheets[] = {
    TEXT("the sample", SHEET, 0, 0),
    TEXT("nothing at all", "points=0\ntriangles=0\n", 0, 0),
    TEXT("points without triangles", POINTS "triangles=0\n", 0, 0),
    TEXT("words that the patcher refuses", "points=1\np=7fc00001,ff800000,ffffffff\ntriangles=0\n", 0, 0),
    TEXT("an empty text", "", 10, 1),
    TEXT("one byte", "p", 10, 1),
    TEXT("a line feed alone", "\n", 10, 1),
    TEXT("NUL alone", "\0", 10, 1),
    TEXT("a first line without its line feed", "points=0", 10, 1),
    TEXT("a last line without its line feed", POINTS "triangles=1\nt=0,1,2", 10, 6),
    TEXT("the last count without its line feed", POINTS "triangles=0", 10, 5),
    TEXT("a point without its line feed", "points=1\np=00000000,00000000,00000000", 10, 2),
    TEXT("CR LF on the first line", "points=3\r\n" P0 P1 P2 "triangles=1\nt=0,1,2\n", 10, 1),
    TEXT("CR LF on a point", "points=3\n" P0 "p=3f800000,00000000,00000000\r\n" P2 "triangles=1\nt=0,1,2\n", 10, 3),
    TEXT("CR LF on the last line", POINTS "triangles=1\nt=0,1,2\r\n", 10, 6),
    TEXT("a leading zero in a count", "points=03\n" P0 P1 P2 "triangles=1\nt=0,1,2\n", 10, 1),
    TEXT("two zeros for none", "points=00\ntriangles=0\n", 10, 1),
    TEXT("a leading zero in a corner", POINTS "triangles=1\nt=0,01,2\n", 10, 6),
    TEXT("two zeros for a corner", POINTS "triangles=1\nt=00,1,2\n", 10, 6),
    TEXT("five digits with a leading zero", POINTS "triangles=1\nt=0,00001,2\n", 10, 6),
    TEXT("+1 for a count", "points=+1\n" P0 "triangles=0\n", 10, 1),
    TEXT("+1 for a corner", POINTS "triangles=1\nt=0,+1,2\n", 10, 6),
    TEXT("-1 for a corner", POINTS "triangles=1\nt=0,-1,2\n", 10, 6),
    TEXT("no digit in a count", "points=\ntriangles=0\n", 10, 1),
    TEXT("no digit in a corner", POINTS "triangles=1\nt=0,,2\n", 10, 6),
    TEXT("a hexadecimal count", "points=a\n", 10, 1),
    TEXT("upper-case digits", "points=1\np=3F800000,00000000,00000000\ntriangles=0\n", 10, 2),
    TEXT("upper case in the last word", "points=1\np=00000000,00000000,0000000A\ntriangles=0\n", 10, 2),
    TEXT("a digit past f", "points=1\np=0000000g,00000000,00000000\ntriangles=0\n", 10, 2),
    TEXT("seven digits", "points=1\np=0000000,00000000,00000000\ntriangles=0\n", 10, 2),
    TEXT("nine digits", "points=1\np=000000000,00000000,00000000\ntriangles=0\n", 10, 2),
    TEXT("seven digits and nine", "points=1\np=0000000,000000000,00000000\ntriangles=0\n", 10, 2),
    TEXT("0x before a word", "points=1\np=0x000000,00000000,00000000\ntriangles=0\n", 10, 2),
    TEXT("a missing comma", "points=1\np=00000000,0000000000000000\ntriangles=0\n", 10, 2),
    TEXT("a semicolon for a comma", POINTS "triangles=1\nt=0;1,2\n", 10, 6),
    TEXT("two commas", POINTS "triangles=1\nt=0,,1,2\n", 10, 6),
    TEXT("four corners", POINTS "triangles=1\nt=0,1,2,0\n", 10, 6),
    TEXT("two corners", POINTS "triangles=1\nt=0,1\n", 10, 6),
    TEXT("a comma at the end", POINTS "triangles=1\nt=0,1,2,\n", 10, 6),
    TEXT("four words", "points=1\np=00000000,00000000,00000000,00000000\ntriangles=0\n", 10, 2),
    TEXT("a space before a count", "points= 3\n" P0 P1 P2 "triangles=1\nt=0,1,2\n", 10, 1),
    TEXT("a space after a count", "points=3 \n" P0 P1 P2 "triangles=1\nt=0,1,2\n", 10, 1),
    TEXT("a space after a comma", POINTS "triangles=1\nt=0, 1,2\n", 10, 6),
    TEXT("a tab at the end", POINTS "triangles=1\nt=0,1,2\t\n", 10, 6),
    TEXT("NUL in a count", "points=3\0\n" P0 P1 P2 "triangles=1\nt=0,1,2\n", 10, 1),
    TEXT("NUL for a digit", POINTS "triangles=1\nt=0,\0,2\n", 10, 6),
    TEXT("a byte over 127", "points=\xb3\n" P0 P1 P2 "triangles=1\nt=0,1,2\n", 10, 1),
    TEXT("a byte order mark", "\xef\xbb\xbfpoints=0\ntriangles=0\n", 10, 1),
    TEXT("a digit of another script", "points=\xd9\xa3\n", 10, 1),
    TEXT("a byte of 255 in a word", "points=1\np=0000000\xff,00000000,00000000\ntriangles=0\n", 10, 2),
    TEXT("one point too many", "points=1025\n", 10, 1),
    TEXT("one triangle too many", POINTS "triangles=1025\n", 10, 5),
    TEXT("a count of twenty digits", "points=99999999999999999999\n", 10, 1),
    TEXT("a count that wraps round", "points=4294967299\n" P0 P1 P2 "triangles=1\nt=0,1,2\n", 10, 1),
    TEXT("a count that wraps round in 64 bits", "points=18446744073709551619\n" P0 P1 P2 "triangles=1\nt=0,1,2\n", 10, 1),
    TEXT("a corner of 1024", POINTS "triangles=1\nt=0,1,1024\n", 10, 6),
    TEXT("a corner of five digits", POINTS "triangles=1\nt=0,1,10000\n", 10, 6),
    TEXT("a corner that wraps round", POINTS "triangles=1\nt=0,1,65538\n", 10, 6),
    TEXT("a corner of 1023 that names no point", POINTS "triangles=1\nt=0,1,1023\n", 4, 2),
    TEXT("a corner that names no point", POINTS "triangles=1\nt=0,1,3\n", 4, 2),
    TEXT("the first of two corners that name none", POINTS "triangles=2\nt=0,9,3\nt=0,1,9\n", 4, 1),
    TEXT("a corner without points", "points=0\ntriangles=1\nt=0,0,0\n", 4, 0),
    TEXT("10 before 4", POINTS "triangles=2\nt=0,1,9\nt=0,1,x\n", 10, 7),
    TEXT("a triangle that names a point twice is a sheet", POINTS "triangles=1\nt=0,0,1\n", 0, 0),
    TEXT("fewer points than counted", "points=4\n" P0 P1 P2 "triangles=1\nt=0,1,2\n", 10, 5),
    TEXT("more points than counted", "points=2\n" P0 P1 P2 "triangles=1\nt=0,1,2\n", 10, 4),
    TEXT("fewer triangles than counted", POINTS "triangles=2\nt=0,1,2\n", 10, 7),
    TEXT("more triangles than counted", POINTS "triangles=1\nt=0,1,2\nt=0,1,2\n", 10, 7),
    TEXT("triangles where none are counted", POINTS "triangles=0\nt=0,1,2\n", 10, 6),
    TEXT("an empty line after the end", SHEET "\n", 10, 7),
    TEXT("a byte after the end", SHEET "x", 10, 7),
    TEXT("NUL after the end", SHEET "\0", 10, 7),
    TEXT("the text twice", SHEET SHEET, 10, 7),
    TEXT("an empty line at the beginning", "\n" SHEET, 10, 1),
    TEXT("an empty line between", POINTS "\ntriangles=1\nt=0,1,2\n", 10, 5),
    TEXT("the parts exchanged", "triangles=1\nt=0,1,2\n" POINTS, 10, 1),
    TEXT("a key in upper case", "Points=0\ntriangles=0\n", 10, 1),
    TEXT("a key with a space", "points =0\ntriangles=0\n", 10, 1),
    TEXT("another key", "point=0\ntriangles=0\n", 10, 1),
    TEXT("a key of the other kind", "points=1\nt=0,0,0\ntriangles=0\n", 10, 2),
    TEXT("a comment", "# a sheet\n" SHEET, 10, 1),

    HEADED("pitch 2", "pitch=2\n" SHEET, 0, 0, 2),
    HEADED("pitch 5", "pitch=5\n" SHEET, 0, 0, 5),
    HEADED("pitch 10", "pitch=10\n" SHEET, 0, 0, 10),
    HEADED("nothing at all at pitch 10", "pitch=10\npoints=0\ntriangles=0\n", 0, 0, 10),
    TEXT("pitch 1 has no line", "pitch=1\n" SHEET, 10, 1),
    TEXT("pitch 0", "pitch=0\n" SHEET, 10, 1),
    TEXT("pitch 3", "pitch=3\n" SHEET, 10, 1),
    TEXT("pitch 20", "pitch=20\n" SHEET, 10, 1),
    TEXT("pitch 50", "pitch=50\n" SHEET, 10, 1),
    TEXT("pitch 100", "pitch=100\n" SHEET, 10, 1),
    TEXT("a pitch with a leading zero", "pitch=02\n" SHEET, 10, 1),
    TEXT("pitch 10 with a leading zero", "pitch=010\n" SHEET, 10, 1),
    TEXT("+2 for a pitch", "pitch=+2\n" SHEET, 10, 1),
    TEXT("-2 for a pitch", "pitch=-2\n" SHEET, 10, 1),
    TEXT("a pitch that is no whole number", "pitch=2.0\n" SHEET, 10, 1),
    TEXT("two pitches on a line", "pitch=2,5\n" SHEET, 10, 1),
    TEXT("a hexadecimal pitch", "pitch=a\n" SHEET, 10, 1),
    TEXT("a pitch that wraps round in 8 bits", "pitch=258\n" SHEET, 10, 1),
    TEXT("a pitch that wraps round in 32 bits", "pitch=4294967298\n" SHEET, 10, 1),
    TEXT("a pitch that wraps round in 64 bits", "pitch=18446744073709551618\n" SHEET, 10, 1),
    TEXT("no digit in a pitch", "pitch=\n" SHEET, 10, 1),
    TEXT("a pitch without its sign", "pitch2\n" SHEET, 10, 1),
    TEXT("a space before a pitch", "pitch= 2\n" SHEET, 10, 1),
    TEXT("a space after a pitch", "pitch=2 \n" SHEET, 10, 1),
    TEXT("CR LF after a pitch", "pitch=2\r\n" SHEET, 10, 1),
    TEXT("NUL after a pitch", "pitch=2\0\n" SHEET, 10, 1),
    TEXT("a pitch in upper case", "PITCH=2\n" SHEET, 10, 1),
    TEXT("a byte order mark before a pitch", "\xef\xbb\xbfpitch=2\n" SHEET, 10, 1),
    TEXT("an empty line before a pitch", "\npitch=2\n" SHEET, 10, 1),
    TEXT("a pitch without its line feed", "pitch=2" SHEET, 10, 1),
    TEXT("a pitch without its line feed alone", "pitch=2", 10, 1),
    TEXT("half of pitch 10", "pitch=1", 10, 1),
    TEXT("pitch 10 without its line feed", "pitch=10", 10, 1),
    TEXT("the key of a pitch alone", "pitch=", 10, 1),
    TEXT("a pitch alone", "pitch=2\n", 10, 2),
    TEXT("pitch 10 alone", "pitch=10\n", 10, 2),
    TEXT("a pitch twice", "pitch=2\npitch=2\n" SHEET, 10, 2),
    TEXT("two pitches", "pitch=5\npitch=10\n" SHEET, 10, 2),
    TEXT("pitch 1 after a pitch", "pitch=5\npitch=1\n" SHEET, 10, 2),
    TEXT("an empty line after a pitch", "pitch=5\n\n" SHEET, 10, 2),
    TEXT("a pitch after the count of points", "points=3\npitch=2\n" P0 P1 P2 "triangles=1\nt=0,1,2\n", 10, 2),
    TEXT("a pitch among the points", "points=3\n" P0 "pitch=2\n" P1 P2 "triangles=1\nt=0,1,2\n", 10, 3),
    TEXT("a pitch between the parts", POINTS "pitch=2\ntriangles=1\nt=0,1,2\n", 10, 5),
    TEXT("a pitch after the end", SHEET "pitch=2\n", 10, 7),
    TEXT("a pitch before and after", "pitch=2\n" SHEET "pitch=2\n", 10, 8),
    TEXT("after a pitch, a leading zero in a count", "pitch=2\npoints=03\n" P0 P1 P2 "triangles=1\nt=0,1,2\n", 10, 2),
    TEXT("after a pitch, the triangles first", "pitch=2\ntriangles=1\nt=0,1,2\n" POINTS, 10, 2),
    TEXT("after a pitch, CR LF on a point", "pitch=10\npoints=1\np=00000000,00000000,00000000\r\ntriangles=0\n", 10, 3),
    TEXT("after a pitch, one triangle too many", "pitch=5\n" POINTS "triangles=1025\n", 10, 6),
    TEXT("after a pitch, a corner of 1024", "pitch=5\n" POINTS "triangles=1\nt=0,1,1024\n", 10, 7),
    TEXT("after a pitch, a last line without its line feed", "pitch=5\n" POINTS "triangles=1\nt=0,1,2", 10, 7),
    TEXT("after a pitch, fewer triangles than counted", "pitch=5\n" POINTS "triangles=2\nt=0,1,2\n", 10, 8),
    TEXT("after a pitch, a byte after the end", "pitch=5\n" SHEET "x", 10, 8),
    TEXT("after a pitch, a corner that names no point", "pitch=5\n" POINTS "triangles=1\nt=0,1,3\n", 4, 2),
    TEXT("after a pitch, 10 before 4", "pitch=2\n" POINTS "triangles=2\nt=0,1,9\nt=0,1,x\n", 10, 8),
};

#define SET "states=2\ns=1\ns=3\ntriangles=1\nt=0,2,1\n"

static const struct text sets[] = {
    TEXT("a small set", SET, 0, 0),
    TEXT("an empty set", "states=0\ntriangles=0\n", 0, 0),
    TEXT("digits that are no state", "states=3\ns=0\ns=9\ns=4\ntriangles=0\n", 0, 0),
    TEXT("a corner of 1023", "states=0\ntriangles=1\nt=1023,0,1023\n", 0, 0),
    TEXT("no text", "", 10, 1),
    TEXT("a sheet for a set", SHEET, 10, 1),
    TEXT("two digits", "states=1\ns=10\ntriangles=0\n", 10, 2),
    TEXT("a state with a leading zero", "states=1\ns=01\ntriangles=0\n", 10, 2),
    TEXT("no digit for a state", "states=1\ns=\ntriangles=0\n", 10, 2),
    TEXT("a letter for a state", "states=1\ns=a\ntriangles=0\n", 10, 2),
    TEXT("two states on a line", "states=2\ns=1,1\ntriangles=0\n", 10, 2),
    TEXT("a state without its line feed", "states=1\ns=1", 10, 2),
    TEXT("fewer states than counted", "states=3\ns=1\ns=3\ntriangles=1\nt=0,2,1\n", 10, 4),
    TEXT("more states than counted", "states=1\ns=1\ns=3\ntriangles=1\nt=0,2,1\n", 10, 3),
    TEXT("one state too many", "states=1025\n", 10, 1),
    TEXT("one triangle too many for a set", "states=0\ntriangles=3073\n", 10, 2),
    TEXT("a corner of 1024 in a set", "states=0\ntriangles=1\nt=0,1,1024\n", 10, 3),
    TEXT("fewer triangles than counted in a set", "states=0\ntriangles=3072\nt=0,1,2\n", 10, 4),
    TEXT("a set without its last line feed", "states=0\ntriangles=0", 10, 2),
    TEXT("CR LF in a set", "states=1\ns=1\r\ntriangles=0\n", 10, 2),
    TEXT("a byte after a set", SET "x", 10, 6),
    TEXT("a set twice", SET SET, 10, 6),
    TEXT("a set has no pitch", "pitch=2\n" SET, 10, 1),
    TEXT("a pitch within a set", "states=0\npitch=2\ntriangles=0\n", 10, 2),
};

static void run_corpus(void) {
    for (size_t i = 0; i < sizeof sheets / sizeof *sheets; i++) {
        expect_read(sheets[i].name, (const uint8_t *)sheets[i].bytes, sheets[i].length, sheets[i].number, sheets[i].place);
        if (read_said.pitch != sheets[i].pitch) count_wrong(sheets[i].name, read_said.number, read_said.pitch);
    }
    for (size_t i = 0; i < sizeof sets / sizeof *sets; i++) expect_set(sets[i].name, (const uint8_t *)sets[i].bytes, sets[i].length, sets[i].number, sets[i].place);
}

/* Every number in a pitch's line: three are taken. */
static void run_pitches(void) {
    char text[64];
    for (unsigned number = 0; number <= 1100; number++) {
        int taken = number == 2 || number == 5 || number == 10;
        int length = snprintf(text, sizeof text, "pitch=%u\npoints=0\ntriangles=0\n", number);
        expect_read("a number for a pitch", (const uint8_t *)text, (size_t)length, taken ? 0 : 10, taken ? 0 : 1);
        if (read_said.pitch != (taken ? number : 0)) count_wrong("a number for a pitch", read_said.number, read_said.pitch);
    }
}

/* ---- A small text cut and changed ---- */

typedef void expect_text(const char *, const uint8_t *, size_t, size_t, size_t);
typedef void compare_text(const uint8_t *, size_t);

static void compare_sheet(const uint8_t *text, size_t length) { read_one("a sheet with a byte changed", text, length, REFERENCE_MOST_WORDS, REFERENCE_MOST_CORNERS); }

static void compare_set(const uint8_t *text, size_t length) { set_one("a set with a byte changed", text, length, 7, REFERENCE_MOST_STATES, REFERENCE_MOST_PATCH_CORNERS); }

/* Cut anywhere before its end, a text has its fault at the line then due. */
static void cut(const char *text, expect_text *expect) {
    size_t line = 1;
    for (size_t n = 0; n < strlen(text); n++) {
        expect("a text cut short", (const uint8_t *)text, n, 10, line);
        if (text[n] == '\n') line++;
    }
}

/* Each of its first bytes to each of 256 values. */
static void change(const char *text, size_t first, compare_text *compare) {
    static uint8_t changed[256];
    size_t length = strlen(text);
    for (size_t n = 0; n < first; n++) {
        for (size_t b = 0; b < 256; b++) {
            memcpy(changed, text, length);
            changed[n] = (uint8_t)b;
            compare(changed, length);
        }
    }
}

/* ---- Long texts ---- */

static void run_endless(const char *start, uint8_t filler, int set, size_t line) {
    size_t length = (size_t)1 << 30;
    uint8_t *text = mmap(0, length, PROT_READ | PROT_WRITE, MAP_PRIVATE | MAP_ANONYMOUS | MAP_NORESERVE, -1, 0);
    if (text == MAP_FAILED) {
        count_wrong("1 GiB could not be had", 0, 0);
        return;
    }
    memcpy(text, start, strlen(start));
    if (filler) memset(text + strlen(start), filler, 1 << 20);
    (set ? expect_set : expect_read)("a line of 1 GiB", text, length, 10, line);
    munmap(text, length);
}

/* 1,024 points, and 1,024 triangles whose corners all have four digits, at each pitch: written into exact room and into a byte less, and
   read into exact rooms, a byte longer and a byte shorter. */
static void run_longest(size_t p) {
    static const size_t lengths[PITCHES] = {47131, 47139, 47139, REFERENCE_LONGEST_TEXT};
    static struct generated_surface s;
    static uint8_t text[REFERENCE_LONGEST_TEXT + 1];
    size_t length = lengths[p], lines = 1 + 2 * 1025 - (p == 0);
    s.pitch = pitches[p];
    s.word_count = REFERENCE_MOST_WORDS;
    s.corner_count = REFERENCE_MOST_CORNERS;
    for (size_t i = 0; i < s.word_count; i++) s.words[i] = (uint32_t)(i * 2654435761u);
    for (size_t i = 0; i < s.corner_count; i++) s.corners[i] = (uint16_t)(1000 + i % 24);
    write_one("a byte too short for the longest text", &s, length - 1);
    if (write_said.number != 3 || write_said.place != 1) count_wrong("a byte too short for the longest text", write_said.number, write_said.place);
    write_one("the longest text", &s, length);
    if (write_said.number != 0 || write_said.bytes != length) count_wrong("the longest text", write_said.number, write_said.bytes);
    memcpy(text, ours.text + GUARD, length);
    text[length] = '\n';
    expect_read("the longest text read", text, length, 0, 0);
    expect_read("the longest text and a byte", text, length + 1, 10, lines + 1);
    expect_read("the longest text without its end", text, length - 1, 10, lines);
    read_one("the longest text into words short by one", text, length, REFERENCE_MOST_WORDS - 1, REFERENCE_MOST_CORNERS - 1);
    if (read_said.number != 3 || read_said.place != 1) count_wrong("words short by one", read_said.number, read_said.place);
    read_one("the longest text into corners short by one", text, length, REFERENCE_MOST_WORDS, REFERENCE_MOST_CORNERS - 1);
    if (read_said.number != 3 || read_said.place != 2) count_wrong("corners short by one", read_said.number, read_said.place);
}

static void expect_written(const char *name, const struct generated_surface *s, size_t room, size_t number, size_t place) {
    write_one(name, s, room);
    if (write_said.number != number || write_said.place != place) count_wrong(name, write_said.number, write_said.place);
}

/* A sheet with every fault that the writer refuses, which are mended one after the other: a number that is no pitch comes first. Its text
   has 87 bytes, and a line of the pitch besides. */
static void run_refused(void) {
    static const uint32_t no_pitches[] = {0, 3, 4, 9, 11, 20, 257, 65538, 0x8000000a, 0xffffffff};
    static struct generated_surface s;
    for (size_t p = 0; p < PITCHES; p++) {
        size_t length = 87 + (p == 0 ? 0 : p == 3 ? 9 : 8);
        s.word_count = 7;
        s.corner_count = 5;
        s.corners[1] = 1;
        s.corners[2] = 2;
        s.corners[4] = 2;
        for (size_t n = 0; n < sizeof no_pitches / sizeof *no_pitches; n++) {
            s.pitch = no_pitches[n];
            expect_written("17 before all else", &s, 0, 17, 0);
            expect_written("17 with room for a text", &s, GENERATE_TEXT_ROOM, 17, 0);
        }
        s.pitch = pitches[p];
        expect_written("then 1", &s, 0, 1, 0);
        s.word_count = 6;
        expect_written("then 2", &s, 0, 2, 0);
        s.corner_count = 3;
        expect_written("then 3", &s, length - 1, 3, 1);
        expect_written("then 4", &s, length, 4, 2);
        s.corners[2] = 0;
        expect_written("then the text", &s, length, 0, 0);
        if (write_said.bytes != length) count_wrong("the length of a text", write_said.number, write_said.bytes);
    }
}

/* ---- Made texts ---- */

/* A length at, just below, far below or above what is needed. */
static size_t lend(struct generator *g, size_t need, size_t most) {
    size_t kind = generate_below(g, 8);
    size_t length = need;
    if (kind == 0) length = need ? need - 1 : 0;
    if (kind == 1) length = generate_below(g, need + 1);
    if (kind == 2) length = need + generate_below(g, 40);
    if (kind == 3) length = most;
    return length < most ? length : most;
}

static void run_made_sheet(struct generator *g) {
    static struct generated_surface s;
    static uint8_t text[GENERATE_TEXT_ROOM];
    if (generate_below(g, 2)) generate_sound_surface(g, &s); else generate_surface(g, &s);
    size_t length = generate_sheet_text(&s, text);
    read_one("a made text", text, length, lend(g, s.word_count, GENERATE_WORD_ROOM), lend(g, s.corner_count, GENERATE_CORNER_ROOM));
    write_one("a made sheet", &s, lend(g, length, GENERATE_TEXT_ROOM));
    length = generate_text_damage(g, text, length);
    read_one("a damaged text", text, length, lend(g, s.word_count, GENERATE_WORD_ROOM), lend(g, s.corner_count, GENERATE_CORNER_ROOM));
}

static void run_made_set(struct generator *g) {
    static struct generated_surface s;
    static struct generated_set t;
    static uint8_t text[GENERATE_TEXT_ROOM];
    generate_sound_surface(g, &s);
    generate_set(g, &s, &t);
    size_t length = generate_set_text(&t, text);
    uint16_t lines = (uint16_t)(generate_below(g, 4) ? generate_below(g, 2051) : generate_bits(g));
    set_one("a made set", text, length, lines, lend(g, t.state_count, GENERATE_SET_ROOM), lend(g, t.corner_count, GENERATE_SET_ROOM));
    length = generate_text_damage(g, text, length);
    set_one("a damaged set", text, length, lines, lend(g, t.state_count, GENERATE_SET_ROOM), lend(g, t.corner_count, GENERATE_SET_ROOM));
}

/* Every answer that a function can give was met. */
static int all_met(void) {
    static const size_t reads[] = {0, 3, 4, 10}, sets_read[] = {0, 3, 10}, writes[] = {0, 1, 2, 3, 4, 17};
    int all = accepted_coarse > 20;
    for (size_t i = 0; i < sizeof reads / sizeof *reads; i++) all = all && read_met[reads[i]] > 0;
    for (size_t i = 0; i < sizeof sets_read / sizeof *sets_read; i++) all = all && set_met[sets_read[i]] > 0;
    for (size_t i = 0; i < sizeof writes / sizeof *writes; i++) all = all && write_met[writes[i]] > 0;
    return all;
}

int main(int argc, char **argv) {
    struct generator g;
    size_t count = argc > 1 ? strtoul(argv[1], 0, 10) : 4000;
    uint64_t seed = argc > 2 ? strtoull(argv[2], 0, 10) : 1;
    generate_start(&g, seed);
    fill(&before, sizeof before, &g);
    run_corpus();
    run_pitches();
    cut(SHEET, expect_read);
    cut("pitch=2\n" SHEET, expect_read);
    cut("pitch=10\n" SHEET, expect_read);
    cut(SET, expect_set);
    change(SHEET, strlen(SHEET), compare_sheet);
    change("pitch=2\n" SHEET, 20, compare_sheet);
    change("pitch=5\n" SHEET, 8, compare_sheet);
    change("pitch=10\n" SHEET, 9, compare_sheet);
    change(SET, strlen(SET), compare_set);
    run_endless("points=", 0, 0, 1);
    run_endless("points=", '1', 0, 1);
    run_endless("", 'p', 0, 1);
    run_endless("pitch=", '1', 0, 1);
    run_endless("pitch=2", 0, 0, 1);
    run_endless("pitch=2\n", 'p', 0, 2);
    run_endless("states=", '0', 1, 1);
    for (size_t p = 0; p < PITCHES; p++) run_longest(p);
    run_refused();
    for (size_t i = 0; i < count; i++) {
        run_made_sheet(&g);
        run_made_set(&g);
    }
    if (!all_met()) count_wrong("an answer was never met, or few texts with a pitch", 0, 0);
    printf("texts: seed %" PRIu64 ", %zu cases, %zu accepted and written again, %zu of them with a pitch, %zu wrong\n", seed, cases, accepted, accepted_coarse, wrong);
    return wrong != 0 || accepted == 0 || accepted != written_again;
}
