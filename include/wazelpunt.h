/* Wazelpunt for C and C++: finds the gaps (loops of open edges) in a triangle surface and closes them. These are the exported functions of
   libwazelpunt, which is compiled for x86-64. Every function is proved to keep its promise; docs/PROMISES.md says it, docs/API.md has
   the rules, the texts, the files and the answers, examples/viewer.c is a whole program.

   A surface is given by its words, three a point, the bits of binary32 numbers in plate units (0.1 mm), and its corners, three a triangle,
   16-bit numbers of points.

   The pitch of the grid is 1, 2, 5 or 10 plate units. A coordinate goes to the nearest multiple of it, a tie to the even multiple (at pitch
   5 both 2.5 and -2.5 go to 0, and 7.5 goes to 10), and the grid holds that multiple itself: all that is counted on the grid, as weights
   are, is in plate units at every pitch. Whoever makes a grid or writes a text gives the pitch, as the last parameter. A sheet text says
   its own, in a first line pitch= where it is 2, 5 or 10 and by having no such line where it is 1, and reading tells it. A file of facets
   says none.

   What holds of every function:

   - It answers for every input. It returns the number of its answer (enum wazelpunt_answer) and leaves the answer's place in *place.
     wazelpunt_facet alone has no answer: it returns how many floats it leaves.
   - It leaves its results in buffers that the caller lends, each from its start; what lies behind them stays as it was. The length that is
     given with a lent buffer counts its numbers, not its bytes, and may be greater than is needed.
   - A refusal, 1 to 10, 16 or 17, leaves all lent buffers as they were, 0 in every count, and its place. wazelpunt_coordinate and
     wazelpunt_size_stl have no place. 17, for a number that is no pitch, comes before all others.
   - Threads: the functions keep nothing between calls and have no state, so any number of threads may call them at once, as long as no
     thread lends a buffer, or points to a result, that another one uses meanwhile.
   - Overlaps: no lent buffer and no result (*place, *at, *pitch and the counts) may overlap another one, nor anything that is given. What
     is given is only read, so it may overlap.
   - Null: no pointer may be null, not even with a length of 0. With a length of 0 nothing is read or written there, and any pointer
     that is not null will do, such as that of an array of one number.
   - Alignment: each pointer is aligned as its type asks. (What was cast from a byte of a file need not be; copy it.)
   - Memory: nothing is allocated, and no file, signal, environment or locale is touched. Besides what is lent each function needs
     so many bytes of stack, measured at most, on full sheets and made cases:

         wazelpunt_coordinate       56        wazelpunt_read        21,032        wazelpunt_list_text     216,448
         wazelpunt_survey       37,272        wazelpunt_read_set    20,808        wazelpunt_chart_text     90,472
         wazelpunt_patch       116,096        wazelpunt_write        4,936        wazelpunt_judge_texts   176,000
         wazelpunt_chart       134,144        wazelpunt_read_stl    22,984        wazelpunt_rewrite_text   39,496
         wazelpunt_judge       116,608        wazelpunt_size_stl         8        wazelpunt_import_stl     41,448
         wazelpunt_facet            24

     Where no hole has 17 to 64 edges, wazelpunt_patch needs 57,992 of them, wazelpunt_chart 76,216, wazelpunt_judge 62,520,
     wazelpunt_list_text 158,344 and wazelpunt_judge_texts 121,912: the table of the covers is as long as the longest hole asks for.

   - Floats: the promises hold where the calling thread computes with floats as a program does that changed nothing: rounding to the
     nearest, a tie to the even one; denormal numbers kept, neither flushed to zero where they come out nor taken for zero where they go
     in; no exception trapped. A program that is linked with -ffast-math has denormal numbers flushed from its start on (gcc, clang), and
     by older compilers one that loads a library linked so: then the rest of a coordinate that is denormal itself is told as zero, that of
     0x00000005 for one. Under another rounding mode coordinates go to other multiples, and so everything may be another.
     wazelpunt_floats_are_default tells whether they are so, but for exceptions that are trapped. */
#ifndef WAZELPUNT_H
#define WAZELPUNT_H

#include <stddef.h>
#include <stdint.h>

#ifdef __cplusplus
extern "C" {
#endif

/* The version of this header. */
#define WAZELPUNT_VERSION "3.1.0"

/* What a surface may have at most. */
#define WAZELPUNT_POINTS 1024
#define WAZELPUNT_TRIANGLES 1024
#define WAZELPUNT_WORDS 3072
#define WAZELPUNT_CORNERS 3072

/* What a patch set may have at most. */
#define WAZELPUNT_SET_STATES 1024
#define WAZELPUNT_SET_TRIANGLES 3072
#define WAZELPUNT_SET_CORNERS 9216

/* The edges of the longest loop that is patched, the numbers of a loop's record and of a report's entry, those of the report of a full
   surface, and how far the grid reaches from 0 on either side. */
#define WAZELPUNT_LONGEST 64
#define WAZELPUNT_RECORD 7
#define WAZELPUNT_ENTRY 2
#define WAZELPUNT_REPORT 4096
#define WAZELPUNT_GREATEST 32767

/* The bytes of the longest text of a sheet and of a patch set, and room that is enough for every listing, for every report and for every
   answer's line. */
#define WAZELPUNT_SHEET_BYTES 47140
#define WAZELPUNT_SET_BYTES 56347
#define WAZELPUNT_LISTING_BYTES 161424
#define WAZELPUNT_REPORT_BYTES 26720
#define WAZELPUNT_ANSWER_BYTES 48

/* The bytes of the longest file of facets (binary STL) that is read, where its facets begin, behind header and count, and the bytes of a
   facet. */
#define WAZELPUNT_STL_BYTES 51284
#define WAZELPUNT_STL_FRONT 84
#define WAZELPUNT_STL_FACET_BYTES 50

/* How many numbers each lent buffer needs for a surface of so many words and corners. As refusal 3 counts the buffers, grid is 1 and rings
   2; 3 is lengths where a surface is surveyed or judged and records where it is patched or charted, and 4 is patches where it is patched
   and report where it is charted. */
#define WAZELPUNT_GRID_FOR(words_count) (words_count)
#define WAZELPUNT_RINGS_FOR(corners_count) (corners_count)
#define WAZELPUNT_LENGTHS_FOR(corners_count) ((corners_count) / 3)
#define WAZELPUNT_RECORDS_FOR(corners_count) (WAZELPUNT_RECORD * ((corners_count) / 3))
#define WAZELPUNT_PATCHES_FOR(corners_count) (3 * (corners_count))
#define WAZELPUNT_REPORT_FOR(corners_count) (2 * WAZELPUNT_ENTRY * ((corners_count) / 3))

/* The numbers of the answers, and what their places count: 1 to 10, 16 and 17 are refusals, 11 to 15 verdicts on a patch set. */
enum wazelpunt_answer {
    WAZELPUNT_DONE = 0,          /* 0 */
    WAZELPUNT_WRONG_WORDS = 1,   /* 0 */
    WAZELPUNT_WRONG_CORNERS = 2, /* 0 */
    WAZELPUNT_BUFFER = 3,        /* lent buffers, from 1 */
    WAZELPUNT_UNNAMED = 4,       /* corners, from 0 as all that follow but for lines */
    WAZELPUNT_TWICE = 5,         /* triangles */
    WAZELPUNT_REPEATED = 6,      /* half-edges: h runs from corner h to the next corner of its triangle */
    WAZELPUNT_NOT_FINITE = 7,    /* words */
    WAZELPUNT_TOO_FAR = 8,       /* words */
    WAZELPUNT_WRONG_STATES = 9,  /* how many loops there are */
    WAZELPUNT_LINE = 10,         /* lines, from 1; those of a set go on after the sheet's last */
    WAZELPUNT_MISDECLARED = 11,  /* loops */
    WAZELPUNT_UNCOVERED = 12,    /* loops */
    WAZELPUNT_BARRED = 13,       /* loops */
    WAZELPUNT_HEAVY = 14,        /* loops */
    WAZELPUNT_LEFT_OVER = 15,    /* corners of the set */
    WAZELPUNT_MISFIT = 16,       /* 0 */
    WAZELPUNT_NO_PITCH = 17      /* 0 */
};

/* The states of a loop. */
enum wazelpunt_state {
    WAZELPUNT_PATCHED = 1, /* closed with the lightest allowed cover */
    WAZELPUNT_LONG = 2,    /* left open, since it has more than WAZELPUNT_LONGEST edges */
    WAZELPUNT_OPEN = 3,    /* left open, since it has no allowed cover */
    WAZELPUNT_RIM = 4      /* the rim of its piece, at any length: it is never patched */
};

/* What the patcher keeps of a loop: seven numbers, in this order one after the other, and the loops' in listed order. */
struct wazelpunt_record {
    uint64_t length; /* how many edges it has: at least 3 */
    uint64_t state;  /* enum wazelpunt_state */
    uint64_t weight; /* what its patch weighs; 0 in every state but WAZELPUNT_PATCHED */
    uint64_t count;  /* 0 */
    uint64_t first;  /* the half-edge that it is listed from: it runs from the first vertex of its ring to the second */
    uint64_t piece;  /* the piece that it lies in; pieces are numbered from 0 in the order of their smallest triangles */
    uint64_t run;    /* how long it is on the grid: over its edges, the three absolute differences added */
};

/* The record of a loop, out of so many numbers of records. Where they hold no such record all seven numbers are 0: no loop has the
   length 0. */
static inline struct wazelpunt_record wazelpunt_record_at(const uint64_t *records, size_t records_length, size_t loop)
{
    struct wazelpunt_record record = {0, 0, 0, 0, 0, 0, 0};
    if (loop < records_length / WAZELPUNT_RECORD) {
        const uint64_t *kept = records + WAZELPUNT_RECORD * loop;
        record.length = kept[0];
        record.state = kept[1];
        record.weight = kept[2];
        record.count = kept[3];
        record.first = kept[4];
        record.piece = kept[5];
        record.run = kept[6];
    }
    return record;
}

/* The kinds of a report's entries. */
enum wazelpunt_kind {
    WAZELPUNT_ENTRY_PIECE = 0,      /* a piece, by its number */
    WAZELPUNT_ENTRY_RIM = 1,        /* the rim of that piece, as the two that follow by the number of the loop, from 0 in listed order */
    WAZELPUNT_ENTRY_POOL = 2,       /* a tide pool of that piece: a loop that is no rim and shares a vertex with the piece's rim */
    WAZELPUNT_ENTRY_LAKE = 3,       /* a lake of that piece: any other loop that is no rim */
    WAZELPUNT_ENTRY_NOTHING = 65535 /* no entry */
};

/* What a report tells: for each piece the piece itself, its rim, its tide pools and its lakes, each of them in listed order. An entry is
   two numbers, in this order one after the other. */
struct wazelpunt_entry {
    uint16_t kind;   /* enum wazelpunt_kind */
    uint16_t number; /* of the piece, or of the loop */
};

/* The entry with that number, from 0, out of so many numbers of a report. Where they hold no such entry its kind is WAZELPUNT_ENTRY_NOTHING
   and its number 0. */
static inline struct wazelpunt_entry wazelpunt_entry_at(const uint16_t *report, size_t report_length, size_t entry)
{
    struct wazelpunt_entry told = {WAZELPUNT_ENTRY_NOTHING, 0};
    if (entry < report_length / WAZELPUNT_ENTRY) {
        const uint16_t *laid = report + WAZELPUNT_ENTRY * entry;
        told.kind = laid[0];
        told.number = laid[1];
    }
    return told;
}

/* A sentence for the number of an answer. It stands on its own, without a capital letter and a full stop, and is never null. */
static inline const char *wazelpunt_sentence(uint32_t number)
{
    switch (number) {
    case WAZELPUNT_DONE:
        return "done";
    case WAZELPUNT_WRONG_WORDS:
        return "the words are not three a point, or too many";
    case WAZELPUNT_WRONG_CORNERS:
        return "the corners are not three a triangle, or too many";
    case WAZELPUNT_BUFFER:
        return "a lent buffer is too short";
    case WAZELPUNT_UNNAMED:
        return "a corner names no point";
    case WAZELPUNT_TWICE:
        return "a triangle names a point twice";
    case WAZELPUNT_REPEATED:
        return "two triangles run the same way between the same two points";
    case WAZELPUNT_NOT_FINITE:
        return "a coordinate is no finite number";
    case WAZELPUNT_TOO_FAR:
        return "a coordinate lies too far out";
    case WAZELPUNT_WRONG_STATES:
        return "there are not as many states as loops";
    case WAZELPUNT_LINE:
        return "a line of the text is wrong";
    case WAZELPUNT_MISDECLARED:
        return "a loop is declared in a state that it is not in";
    case WAZELPUNT_UNCOVERED:
        return "a loop is declared patched, and its triangles are missing or are no cover";
    case WAZELPUNT_BARRED:
        return "a loop has a cover with a barred diagonal";
    case WAZELPUNT_HEAVY:
        return "a loop has an allowed cover, but a lighter one exists";
    case WAZELPUNT_LEFT_OVER:
        return "corners are left over after the last loop";
    case WAZELPUNT_MISFIT:
        return "the file is too short, or its length does not fit its count of facets";
    case WAZELPUNT_NO_PITCH:
        return "the pitch is none of 1, 2, 5 and 10";
    default:
        return "an answer that this header does not know";
    }
}

/* Whether the calling thread computes with floats, of 32 bits and of 64, as the promises ask: 1 if it rounds to the nearest, a tie to the
   even one, and keeps denormal numbers; else 0. It asks by computing, so it tells of the arithmetic that the unit is compiled for: on
   x86-64 that is the archive's own, unless the compiler was told to use another (-mfpmath=387). */
static inline int wazelpunt_floats_are_default(void)
{
    /* Volatile, so that every step is done by the processor at this moment, and none by the compiler or in another order. */
    volatile float even = 8388608.0f, odd = 8388609.0f, next = 8388610.0f, half = 0.5f, least = 1.17549435e-38f;
    volatile double even64 = 4503599627370496.0, odd64 = 4503599627370497.0, next64 = 4503599627370498.0, half64 = 0.5,
                    least64 = 2.2250738585072014e-308;

    /* Two ties between whole numbers where there is no room for a half. Rounding up moves the first one; rounding down or towards zero
       leaves the second one where it is. */
    volatile float stays = even + half, goes = odd + half;
    volatile double stays64 = even64 + half64, goes64 = odd64 + half64;

    /* The least normal number halved is denormal. If it was flushed, or is taken for zero now, twice that is less than it was. */
    volatile float halved = least * half;
    volatile double halved64 = least64 * half64;
    volatile float again = halved + halved;
    volatile double again64 = halved64 + halved64;

    return !(stays > even) && !(goes < next) && !(again < least) && !(stays64 > even64) && !(goes64 < next64) && !(again64 < least64);
}

/* The answer for the coordinate with these binary32 bits at a pitch. Returns 0, or refusal 17 (no pitch), 7 (not finite) or 8 (too far:
   the multiple lies further out than WAZELPUNT_GREATEST). *whole becomes the nearest multiple of the pitch, in plate units, or 0; *rest
   becomes the bits of what is left of the value, at most half a pitch and exact, or those of the value itself where it is too far, or 0
   where there is none. */
uint32_t wazelpunt_coordinate(uint32_t word, int32_t *whole, uint32_t *rest, uint32_t pitch);

/* Finds the loops of a surface: three words a point, three corners a triangle. Returns 0 or a refusal 17 or 1 to 8, with its place.
   Lent are grid (1: at least words_count numbers), rings (2: corners_count) and lengths (3: corners_count / 3). On 0 they hold
   the grid, the ring vertices of all loops in listed order and the rings' lengths, each from its start, and what lies behind is
   as it was; on a refusal all is as it was and both counts are 0. */
uint32_t wazelpunt_survey(const uint32_t *words, size_t words_count, const uint16_t *corners, size_t corners_count,
                          int32_t *grid, size_t grid_length, uint16_t *rings, size_t rings_length, uint16_t *lengths,
                          size_t lengths_length, size_t *place, size_t *loops, size_t *vertices, uint32_t pitch);

/* Finds the loops of a surface and patches them. Returns 0 or a refusal 17 or 1 to 8, with its place. Lent are grid and rings as above
   (1 and 2), records (3: WAZELPUNT_RECORD numbers a triangle, 7 * (corners_count / 3)) and patches (4: 3 * corners_count). On 0 they hold
   the grid, the ring vertices of all loops in listed order, the record of each loop (struct wazelpunt_record; wazelpunt_record_at reads
   one out), and the corners of all patch triangles in the order in which they are laid; each from its start, and what lies behind is as
   it was. *laid becomes the count of patch corners. On a refusal all is as it was and the three counts are 0. */
uint32_t wazelpunt_patch(const uint32_t *words, size_t words_count, const uint16_t *corners, size_t corners_count,
                         int32_t *grid, size_t grid_length, uint16_t *rings, size_t rings_length, uint64_t *records,
                         size_t records_length, uint16_t *patches, size_t patches_length, size_t *place, size_t *loops,
                         size_t *vertices, size_t *laid, uint32_t pitch);

/* Finds the loops of a surface and tells which of them are rims, tide pools and lakes. Returns 0 or a refusal 17 or 1 to 8, with its place.
   Lent are grid, rings and records as for wazelpunt_patch (1 to 3) and report (4: two entries a triangle, 4 * (corners_count / 3)). On 0
   they hold the grid, the ring vertices and the records as wazelpunt_patch leaves them, and the entries of the report (struct
   wazelpunt_entry; wazelpunt_entry_at reads one out): for each piece, from 0 on, the piece, its rim if it has open edges, its tide pools
   and its lakes, so that each loop stands there once; each from its start, and what lies behind is as it was. *entries becomes how many
   entries there are, twice as many numbers: one for each piece and one for each loop. On a refusal all is as it was and the three counts
   are 0. */
uint32_t wazelpunt_chart(const uint32_t *words, size_t words_count, const uint16_t *corners, size_t corners_count,
                         int32_t *grid, size_t grid_length, uint16_t *rings, size_t rings_length, uint64_t *records,
                         size_t records_length, uint16_t *report, size_t report_length, size_t *place, size_t *loops,
                         size_t *vertices, size_t *entries, uint32_t pitch);

/* Judges a patch set for a surface: a state for each loop (4 for the rim of each piece, and for no other), and the corners of the
   patch triangles of all loops that are declared patched, in any order within a loop and each begun at any corner. Returns 0
   (passed), a refusal 17 or 1 to 9, or a verdict 11 to 15, with its place. Lent are grid, rings and lengths as for wazelpunt_survey. On 0
   and on 11 to 15 they hold the same as there; on a refusal all is as it was and both counts are 0. */
uint32_t wazelpunt_judge(const uint32_t *words, size_t words_count, const uint16_t *corners, size_t corners_count,
                         const uint16_t *states, size_t states_count, const uint16_t *set, size_t set_count, int32_t *grid,
                         size_t grid_length, uint16_t *rings, size_t rings_length, uint16_t *lengths, size_t lengths_length,
                         size_t *place, size_t *loops, size_t *vertices, uint32_t pitch);

/* Reads a sheet text: any bytes. Returns 0 or a refusal 10 (a wrong line), 3 or 4, with its place. Lent are words (1) and corners (2),
   each long enough for this text. On 0 they hold the sheet's words and corners, each from its start, and what lies behind is as it was;
   *words_read and *corners_read become how many there are, and *pitch the pitch that the text says, 1 where it has no such line. On a
   refusal all is as it was, both counts are 0, and so is *pitch. */
uint32_t wazelpunt_read(const uint8_t *text, size_t text_length, uint32_t *words, size_t words_length, uint16_t *corners,
                        size_t corners_length, size_t *place, size_t *words_read, size_t *corners_read, uint32_t *pitch);

/* Writes the text of a sheet, with the line of its pitch where that is not 1. Returns 0 or a refusal 17, 1, 2, 3 or 4, with its place. Lent
   is text (1), long enough for this text. On 0 it holds the text from its start, and what lies behind is as it was; *bytes becomes how long
   the text is. On a refusal all is as it was and the count is 0. */
uint32_t wazelpunt_write(const uint32_t *words, size_t words_count, const uint16_t *corners, size_t corners_count,
                         uint8_t *text, size_t text_length, size_t *place, size_t *bytes, uint32_t pitch);

/* Reads the text of a patch set, which comes after so many lines of a sheet text, the line of its pitch among them. Returns 0 or a refusal
   10 (a wrong line, counted on from the sheet's last) or 3, with its place. Lent are states (1) and corners (2), each long enough for this
   text. On 0 they hold the states of the loops and the corners of all triangles, each from its start, and what lies behind is as it was;
   *states_read and *corners_read become how many there are. On a refusal all is as it was and both counts are 0. */
uint32_t wazelpunt_read_set(const uint8_t *text, size_t text_length, uint16_t before, uint16_t *states, size_t states_length,
                            uint16_t *corners, size_t corners_length, size_t *place, size_t *states_read, size_t *corners_read);

/* The programs as functions, for one who wants their texts and not the numbers behind them. Each prints into `out` exactly the bytes
   that the program prints for such an input, from its start, and *bytes becomes how many; what lies behind is as it was. The input may
   have any length, and any bytes.
   Returns 0, with *place 0, whatever the text is: an answer on the text is printed (such as answer=10,3). Only if `out` is too
   short for what can be printed at most, even if this input would need less, it returns 3, with *place 1 and *bytes 0, and `out`
   is as it was. */

/* The listing of a sheet text: the answer, and after 0 the loops, with rings and patches. Lent are at least WAZELPUNT_LISTING_BYTES. */
uint32_t wazelpunt_list_text(const uint8_t *text, size_t text_length, uint8_t *out, size_t out_length, size_t *place, size_t *bytes);

/* The report of a sheet text: the answer, and after 0 how many entries there are (entries=3) and each of them (entry=2,1: a tide pool, loop
   1). Lent are at least WAZELPUNT_REPORT_BYTES. */
uint32_t wazelpunt_chart_text(const uint8_t *text, size_t text_length, uint8_t *out, size_t out_length, size_t *place, size_t *bytes);

/* The answer's line on the text of a patch set for a sheet text. Lent are at least WAZELPUNT_ANSWER_BYTES. */
uint32_t wazelpunt_judge_texts(const uint8_t *sheet, size_t sheet_length, const uint8_t *set, size_t set_length, uint8_t *out,
                               size_t out_length, size_t *place, size_t *bytes);

/* A sheet text read and written again, which is the same text, or the answer's line. Lent are at least WAZELPUNT_SHEET_BYTES. */
uint32_t wazelpunt_rewrite_text(const uint8_t *text, size_t text_length, uint8_t *out, size_t out_length, size_t *place, size_t *bytes);

/* Files of facets (binary STL): 80 bytes of a header, the count of facets in 32 bits, lowest byte first, and 50 bytes a facet: its normal,
   three corners of three binary32 numbers each, and two bytes of an attribute. Header, normals and attributes are not looked at, not even
   for the word solid. Facet k becomes triangle k. Corners are the same point where all three words agree; negative zero is read as zero,
   and every other word bit for bit. Points are numbered by first use. */

/* Reads a file of facets: any bytes. Returns 0 or a refusal, tried in this order: 16 (fewer than 84 bytes, or a length that is not
   84 + 50 * the count), 2 (more than WAZELPUNT_TRIANGLES facets), 1 (more than WAZELPUNT_POINTS points) or 3, with its place. Lent are
   words (1: three a point) and corners (2: three a facet), each long enough for this file. On 0 they hold the surface's words and corners,
   each from its start, and what lies behind is as it was; *words_read and *corners_read become how many there are. On a refusal all is as
   it was and both counts are 0. Whatever else may be wrong with the surface is left to those that take it. */
uint32_t wazelpunt_read_stl(const uint8_t *file, size_t file_length, uint32_t *words, size_t words_length, uint16_t *corners,
                            size_t corners_length, size_t *place, size_t *words_read, size_t *corners_read);

/* What a file of that length, whose count is that, is answered for its size alone: returns 0, or refusal 16 or 2. For one who has not the
   whole file at hand: a file longer than WAZELPUNT_STL_BYTES never gets 0. Of one shorter than 84 bytes the count may be anything. */
uint32_t wazelpunt_size_stl(size_t length, uint32_t count);

/* The importing program as a function, ruled as the four above: the text of the file's sheet at pitch 1, or the answer's line (answer=16,0
   for one). Lent are at least WAZELPUNT_SHEET_BYTES. For the text at another pitch read the file, and write it at that pitch. */
uint32_t wazelpunt_import_stl(const uint8_t *file, size_t file_length, uint8_t *out, size_t out_length, size_t *place, size_t *bytes);

/* Hands out one facet at a time: that whose 50 bytes begin at *at, as nine floats, x, y and z of its three corners. Lays them from the
   start of floats, moves *at behind the facet and returns 9. Negative zero comes out as zero, and every NaN as one NaN; no proof tells
   its bits, which are seen to be 0x7fc00000. At the end, where fewer than 50 bytes are left from *at on, and where floats has fewer than
   nine, it returns 0 and changes nothing. Begin with *at = WAZELPUNT_STL_FRONT. It goes by the bytes alone; of a file that is not refused
   with 16 it hands out as many facets as the count says. */
size_t wazelpunt_facet(const uint8_t *file, size_t file_length, size_t *at, float *floats, size_t floats_length);

#ifdef __cplusplus
}
#endif

#endif
