/* A seeded maker of surfaces, patch sets, texts and files of facets, sound and damaged, for tests against the reference. */

#ifndef GENERATE_H
#define GENERATE_H

#include <stddef.h>
#include <stdint.h>

/* Room beyond the limits of the scope, so that counts can be too high. */
#define GENERATE_WORD_ROOM 3084
#define GENERATE_CORNER_ROOM 3084
#define GENERATE_STATE_ROOM 1032
#define GENERATE_SET_ROOM 9240
#define GENERATE_TEXT_ROOM 98304
#define GENERATE_STL_ROOM 51984
#define GENERATE_BUFFERS 4

struct generator {
    uint64_t state;
};

/* A surface with its pitch, and how long each of the patcher's four buffers is
   lent: grid, ring vertices, loop records, patch corners. The report is lent
   the first three as well, and for its fourth there is a length of its own.
   The checker and the survey are lent the first two, and for their third, ring
   lengths, there is one too. */
struct generated_surface {
    uint32_t pitch;
    uint32_t words[GENERATE_WORD_ROOM];
    size_t word_count;
    uint16_t corners[GENERATE_CORNER_ROOM];
    size_t corner_count;
    size_t lent[GENERATE_BUFFERS];
    size_t report_lent;
    size_t lengths_lent;
};

/* A patch set: states, and corners in one flat list. */
struct generated_set {
    uint16_t states[GENERATE_STATE_ROOM];
    size_t state_count;
    uint16_t corners[GENERATE_SET_ROOM];
    size_t corner_count;
};

/* Starts the generator; every seed is good. */
void generate_start(struct generator *generator, uint64_t seed);

/* A number from 0 to below - 1. */
size_t generate_below(struct generator *generator, size_t below);

/* Any 64 bits. */
uint64_t generate_bits(struct generator *generator);

/* A pitch: 1 in every other case, else 2, 5 or 10. */
uint32_t generate_pitch(struct generator *generator);

/* A number that is no pitch: near one, or one but for its higher bits. */
uint32_t generate_wrong_pitch(struct generator *generator);

/* A word of any kind of coordinate at that pitch, also those that are refused. */
uint32_t generate_word(struct generator *generator, uint32_t pitch);

/* Puts triangles into any order and begins each at any corner. */
void generate_shuffle_triangles(struct generator *generator, uint16_t *corners, size_t count);

/* Lends each buffer exactly what is needed. */
void generate_lend_exactly(struct generated_surface *surface);

/* A surface without damage at any pitch, its coordinates all on the plate, buffers exact. */
void generate_sound_surface(struct generator *generator, struct generated_surface *surface);

/* A surface with no fault, one or several, and buffers exact, long, short or empty. */
void generate_surface(struct generator *generator, struct generated_surface *surface);

/* A patch set for a surface: the patcher's own, or one changed in some way. */
void generate_set(struct generator *generator, const struct generated_surface *surface,
                  struct generated_set *set);

/* The sheet text of a surface as it stands, faults and all: any pitch but 1 has its line; gives its length. */
size_t generate_sheet_text(const struct generated_surface *surface, uint8_t *text);

/* The text of a patch set as it stands; gives its length. */
size_t generate_set_text(const struct generated_set *set, uint8_t *text);

/* Damages a text of that length in GENERATE_TEXT_ROOM bytes; gives the new length. */
size_t generate_text_damage(struct generator *generator, uint8_t *text, size_t length);

/* A file of facets whose length fits its count: of a surface, of words that meet often, or of about as many points as are taken; gives
   its length. */
size_t generate_stl(struct generator *generator, uint8_t *file);

/* Damages a file of facets of that length in GENERATE_STL_ROOM bytes; gives the new length. */
size_t generate_stl_damage(struct generator *generator, uint8_t *file, size_t length);

#endif
