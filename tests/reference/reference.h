/* The rules of the scope, rendered slowly and plainly over whole numbers, as a test oracle from outside. */

#ifndef REFERENCE_H
#define REFERENCE_H

#include <stddef.h>
#include <stdint.h>

#define REFERENCE_MOST_POINTS 1024
#define REFERENCE_MOST_TRIANGLES 1024
#define REFERENCE_MOST_WORDS 3072
#define REFERENCE_MOST_CORNERS 3072
#define REFERENCE_MOST_PATCH_CORNERS 9216
#define REFERENCE_MOST_STATES 1024
#define REFERENCE_MOST_SET_TRIANGLES 3072
#define REFERENCE_LONGEST_LOOP 64
#define REFERENCE_GREATEST_COORDINATE 32767
#define REFERENCE_LONGEST_TEXT 47140
#define REFERENCE_LONGEST_STL 51284
#define REFERENCE_STL_FRONT 84
#define REFERENCE_STL_FACET 50

/* What the record of a loop has, in this order, and how many numbers these are. */
enum {
    REFERENCE_LENGTH,
    REFERENCE_STATE,
    REFERENCE_WEIGHT,
    REFERENCE_COUNT,
    REFERENCE_FIRST,
    REFERENCE_PIECE,
    REFERENCE_RUN,
    REFERENCE_RECORD
};

#define REFERENCE_MOST_RECORDS (REFERENCE_RECORD * REFERENCE_MOST_TRIANGLES)

/* The kinds of a report's entries, in the order in which a piece has them, and how many numbers an entry has. */
enum {
    REFERENCE_IS_PIECE,
    REFERENCE_IS_RIM,
    REFERENCE_IS_POOL,
    REFERENCE_IS_LAKE,
    REFERENCE_KINDS
};

#define REFERENCE_ENTRY 2
#define REFERENCE_MOST_REPORT (2 * REFERENCE_ENTRY * REFERENCE_MOST_TRIANGLES)

/* What stands for "no such half-edge" and for "no allowed cover". */
#define REFERENCE_NO_EDGE ((size_t)-1)
#define REFERENCE_NO_COVER ((int64_t)-1)

/* The answer of the survey and of the checker. */
struct reference_answer {
    size_t number;
    size_t place;
    size_t loops;
    size_t vertices;
};

/* The answer of the patcher. */
struct reference_patch_answer {
    size_t number;
    size_t place;
    size_t loops;
    size_t vertices;
    size_t corners;
};

/* The answer of the report. */
struct reference_report_answer {
    size_t number;
    size_t place;
    size_t loops;
    size_t vertices;
    size_t entries;
};

/* The answer of the readers of sheet texts and of files of facets. A file has
   no pitch of its own, and so that of a text without a pitch line: 1. */
struct reference_read_answer {
    size_t number;
    size_t place;
    size_t words;
    size_t corners;
    size_t pitch;
};

/* The answer of the writer of sheet texts. */
struct reference_write_answer {
    size_t number;
    size_t place;
    size_t bytes;
};

/* The answer of the reader of set texts. */
struct reference_set_answer {
    size_t number;
    size_t place;
    size_t states;
    size_t corners;
};

/* One loop of at most 64 edges: its bars, and for each stretch i..k the least
   total weight of an allowed cover, or REFERENCE_NO_COVER. */
struct reference_memo {
    const int32_t *grid;
    const uint16_t *ring;
    size_t length;
    unsigned char barred[REFERENCE_LONGEST_LOOP][REFERENCE_LONGEST_LOOP];
    int64_t least[REFERENCE_LONGEST_LOOP][REFERENCE_LONGEST_LOOP];
};

/* Whether a number is a pitch: 1, 2, 5 or 10. */
int reference_is_pitch(uint32_t number);

/* How far the grid reaches at that pitch: the greatest multiple that is not too far. */
int32_t reference_greatest(uint32_t pitch);

/* Gives 0, 7, 8 or 17. With 0, *whole is the nearest multiple of the pitch
   and *rest the bits of the rest, 0 where exact. With 8, *rest is the word
   and *whole 0. With 7 and 17 both are 0. */
int reference_coordinate(uint32_t word, int32_t *whole, uint32_t *rest, uint32_t pitch);

/* Grid, rings and lengths of all loops, or a refusal 17 or 1 to 8 (buffers:
   grid 1, rings 2, lengths 3). */
void reference_survey(const uint32_t *words, size_t word_count,
                      const uint16_t *corners, size_t corner_count,
                      int32_t *grid, size_t grid_length,
                      uint16_t *rings, size_t rings_length,
                      uint16_t *lengths, size_t lengths_length, uint32_t pitch,
                      struct reference_answer *answer);

/* The patcher with its four buffers. The loops' records lie one after the
   other, in listed order. */
void reference_patch(const uint32_t *words, size_t word_count,
                     const uint16_t *corners, size_t corner_count,
                     int32_t *grid, size_t grid_length,
                     uint16_t *rings, size_t rings_length,
                     uint64_t *records, size_t records_length,
                     uint16_t *patches, size_t patches_length, uint32_t pitch,
                     struct reference_patch_answer *answer);

/* The report with its four buffers: the first three as the patcher's, and the
   entries one after the other, a kind and a number each. */
void reference_report(const uint32_t *words, size_t word_count,
                      const uint16_t *corners, size_t corner_count,
                      int32_t *grid, size_t grid_length,
                      uint16_t *rings, size_t rings_length,
                      uint64_t *records, size_t records_length,
                      uint16_t *report, size_t report_length, uint32_t pitch,
                      struct reference_report_answer *answer);

/* One number of a loop's record: REFERENCE_LENGTH to REFERENCE_RUN. */
uint64_t reference_kept(const uint64_t *records, size_t loop, size_t number);

/* The checker: the set is state_count states and set_count corners. */
void reference_check(const uint32_t *words, size_t word_count,
                     const uint16_t *corners, size_t corner_count,
                     const uint16_t *states, size_t state_count,
                     const uint16_t *set, size_t set_count,
                     int32_t *grid, size_t grid_length,
                     uint16_t *rings, size_t rings_length,
                     uint16_t *lengths, size_t lengths_length, uint32_t pitch,
                     struct reference_answer *answer);

/* Reads a sheet text; refusals 10, 3 (words 1, corners 2) and 4. */
void reference_read(const uint8_t *text, size_t text_length,
                    uint32_t *words, size_t words_length,
                    uint16_t *corners, size_t corners_length,
                    struct reference_read_answer *answer);

/* Writes a sheet text; refusals 17, 1, 2, 3 (text 1) and 4. */
void reference_write(const uint32_t *words, size_t word_count,
                     const uint16_t *corners, size_t corner_count,
                     uint8_t *text, size_t text_length, uint32_t pitch,
                     struct reference_write_answer *answer);

/* Reads the text of a patch set whose first line is line first_line;
   refusals 10 and 3 (states 1, corners 2). */
void reference_read_set(const uint8_t *text, size_t text_length, size_t first_line,
                        uint16_t *states, size_t states_length,
                        uint16_t *corners, size_t corners_length,
                        struct reference_set_answer *answer);

/* Reads a file of facets (binary STL); refusals 16, 2, 1 and 3 (words 1, corners 2). */
void reference_read_stl(const uint8_t *file, size_t file_length,
                        uint32_t *words, size_t words_length,
                        uint16_t *corners, size_t corners_length,
                        struct reference_read_answer *answer);

/* The count of a file of facets, which has at least 84 bytes. */
uint32_t reference_count_stl(const uint8_t *file);

/* Gives 0, 16 or 2: what a file of facets of that length and that count is answered for its size alone. */
size_t reference_size_stl(size_t length, uint32_t count);

/* Hands out the facet that begins at *at as nine floats, moves *at behind it and gives 9; gives 0, and changes
   nothing, where no whole facet is left or the floats are fewer than nine. */
size_t reference_facet(const uint8_t *file, size_t file_length, size_t *at, float *floats, size_t floats_length);

/* Parts, for the generator and for the checks of the reference itself. */

/* The two ends of half-edge h, and the half-edge that follows it in its triangle. */
uint16_t reference_start(const uint16_t *corners, size_t h);
uint16_t reference_end(const uint16_t *corners, size_t h);
size_t reference_following(size_t h);

/* The first half-edge that runs from one point to another, or REFERENCE_NO_EDGE. */
size_t reference_find_edge(const uint16_t *corners, size_t corner_count, uint16_t from, uint16_t to);

/* Whether half-edge h is open. */
int reference_is_open(const uint16_t *corners, size_t corner_count, size_t h);

/* Gives every triangle the number of its piece: from 0, in the order of the pieces' smallest triangles. */
void reference_pieces(const uint16_t *corners, size_t corner_count, uint16_t *pieces);

/* The run of a loop: the sum over its edges, the closing one too, of the three absolute grid differences. */
int64_t reference_run(const int32_t *grid, const uint16_t *ring, size_t length);

/* Gives every loop 1 if it is the rim of its piece, else 0. The rings lie one after the other. */
void reference_rims(const int32_t *grid, const uint16_t *corners, size_t corner_count,
                    const uint16_t *rings, const uint16_t *lengths, size_t loops, unsigned char *rims);

/* The weight of the triangle on points a, b, c. */
int64_t reference_weight(const int32_t *grid, uint16_t a, uint16_t b, uint16_t c);

/* Fills the memo of one loop, its bars taken from the input and from what is laid. */
void reference_fill_memo(struct reference_memo *memo, const int32_t *grid,
                         const uint16_t *ring, size_t length,
                         const uint16_t *corners, size_t corner_count,
                         const uint16_t *laid, size_t laid_count);

/* Whether ring positions a and b are joined by a barred diagonal. */
int reference_is_barred(const struct reference_memo *memo, size_t a, size_t b);

/* Whether the triangle of stretch i..k with the choice m has no barred diagonal. */
int reference_is_allowed(const struct reference_memo *memo, size_t i, size_t m, size_t k);

/* Whether length - 2 triangles are a cover of the loop, in any order, each begun at any corner. */
int reference_is_cover(const uint16_t *ring, size_t length, const uint16_t *triangles);

#endif
