/* Compares wazelpunt_survey with the plain reference on made surfaces at every pitch, sound and damaged: the answer, and every byte of
   every lent buffer with what lies before and behind it.
   surfaces COUNT SEED: that many surfaces, from that seed on. */
#include <inttypes.h>
#include <stdint.h>
#include <stdio.h>
#include <stdlib.h>
#include <string.h>

#include "../reference/generate.h"
#include "../reference/guarded.h"
#include "../reference/reference.h"
#include "wazelpunt.h"

#define HIGHEST 17

static struct lent_survey before, ours, theirs;
static size_t refused[HIGHEST + 1], by_buffer[4], loops, by_pitch[11];
static const uint32_t pitches[4] = {1, 2, 5, 10};

static int agree(const struct generated_surface *surface) {
    struct reference_answer due, said;
    ours = theirs = before;
    said.number = wazelpunt_survey(surface->words, surface->word_count, surface->corners, surface->corner_count, ours.grid + GUARD, surface->lent[0], ours.rings + GUARD, surface->lent[1], ours.lengths + GUARD, surface->lengths_lent, &said.place, &said.loops, &said.vertices, surface->pitch);
    reference_survey(surface->words, surface->word_count, surface->corners, surface->corner_count, theirs.grid + GUARD, surface->lent[0], theirs.rings + GUARD, surface->lent[1], theirs.lengths + GUARD, surface->lengths_lent, surface->pitch, &due);
    refused[due.number]++;
    by_buffer[due.number == 3 ? due.place : 0]++;
    loops += due.loops;
    if (due.number == 0) by_pitch[surface->pitch] += due.loops;
    if (said.number != due.number || said.place != due.place || said.loops != due.loops || said.vertices != due.vertices) {
        printf("answered %zu, %zu, %zu, %zu; due %zu, %zu, %zu, %zu\n", said.number, said.place, said.loops, said.vertices, due.number, due.place, due.loops, due.vertices);
        return 0;
    }
    if (memcmp(&ours, &theirs, sizeof ours) != 0) {
        printf("a buffer differs, answer %zu\n", due.number);
        return 0;
    }
    return 1;
}

/* The bench's examples of surfaces and some more, each with what the scope says of it: the answer's number and place, then the
   rings, each ended by -1. */
struct example {
    const char *name;
    size_t points;
    size_t corner_count;
    uint16_t corners[24];
    size_t number, place;
    int rings[16];
};

static const struct example examples[] = {
    {"no triangles", 3, 0, {0}, 0, 0, {0}},
    {"no points", 0, 0, {0}, 0, 0, {0}},
    {"one triangle", 3, 3, {0, 1, 2}, 0, 0, {0, 1, 2, -1}},
    {"a half-edge repeated", 4, 6, {0, 1, 2, 0, 1, 3}, 6, 3, {0}},
    {"a point named twice", 2, 3, {0, 0, 1}, 5, 0, {0}},
    {"5 before 6", 4, 9, {0, 1, 2, 0, 1, 3, 1, 2, 1}, 5, 2, {0}},
    {"4 before 5", 3, 6, {0, 0, 1, 0, 1, 3}, 4, 5, {0}},
    {"bow-tie", 5, 6, {0, 1, 2, 0, 3, 4}, 0, 0, {0, 1, 2, -1, 0, 3, 4, -1}},
    {"pinched strip", 5, 12, {0, 1, 2, 2, 1, 3, 2, 3, 4, 4, 3, 0}, 0, 0, {0, 1, 3, -1, 0, 4, 2, -1}},
    {"tetrahedron", 4, 12, {0, 1, 2, 0, 2, 3, 0, 3, 1, 1, 3, 2}, 0, 0, {0}},
    {"pillow", 3, 6, {0, 1, 2, 0, 2, 1}, 0, 0, {0}},
    {"a vertex met three times in one cycle", 7, 21, {6, 0, 1, 2, 0, 3, 4, 0, 5, 1, 2, 3, 1, 3, 4, 1, 4, 5, 1, 5, 6}, 0, 0, {0, 1, 2, -1, 0, 3, 4, -1, 6, 0, 5, -1}},
};

static int shows(const struct example *example, uint32_t pitch) {
    static const uint32_t words[3 * 8];
    size_t place, loops, vertices, due_loops = 0, due_vertices = 0;
    uint32_t number = wazelpunt_survey(words, 3 * example->points, example->corners, example->corner_count, ours.grid, ROOM, ours.rings, ROOM, ours.lengths, ROOM, &place, &loops, &vertices, pitch);
    int right = number == example->number && place == example->place;
    size_t length = 0;
    for (int i = 0; right && i < 16 && due_vertices <= vertices; i++) {
        if (example->rings[i] == -1) {
            right = ours.lengths[due_loops++] == length;
            length = 0;
        } else if (example->rings[i] == 0 && length == 0 && (i == 15 || example->rings[i + 1] == 0)) {
            break;
        } else {
            right = ours.rings[due_vertices++] == example->rings[i];
            length++;
        }
    }
    right = right && loops == due_loops && vertices == due_vertices;
    if (!right) printf("example \"%s\" at pitch %" PRIu32 ": answered %" PRIu32 ", %zu with %zu loops of %zu vertices\n", example->name, pitch, number, place, loops, vertices);
    return right;
}

/* A cone of n triangles about its last point has one loop of n edges. */
static int cone(size_t n) {
    static uint32_t words[3 * 128];
    static uint16_t corners[3 * 128];
    size_t place, loops, vertices;
    for (size_t i = 0; i < n; i++) {
        corners[3 * i] = (uint16_t)i;
        corners[3 * i + 1] = (uint16_t)((i + 1) % n);
        corners[3 * i + 2] = (uint16_t)n;
    }
    uint32_t number = wazelpunt_survey(words, 3 * (n + 1), corners, 3 * n, ours.grid, ROOM, ours.rings, ROOM, ours.lengths, ROOM, &place, &loops, &vertices, 1);
    int right = number == 0 && loops == 1 && vertices == n && ours.lengths[0] == n && ours.rings[0] == 0 && ours.rings[n - 1] == n - 1;
    if (!right) printf("cone of %zu: answered %" PRIu32 "\n", n, number);
    return right;
}

/* The grid of coordinates at and next to ties and ends, each in every word, at each pitch: the multiple in plate units, or 8 at the first
   word that is too far, and 17 for a number that is no pitch, before all other faults. */
static size_t compare_grids(void) {
    static const struct {
        uint32_t word;
        int32_t at[4];
        int off[4];
    } rows[] = {
        {0x3f800000, {1, 0, 0, 0}, {0}}, {0x40400000, {3, 4, 5, 0}, {0}}, {0x40a00000, {5, 4, 5, 0}, {0}}, {0xc0a00001, {-5, -6, -5, -10}, {0}},
        {0x40f00000, {8, 8, 10, 10}, {0}}, {0x41700000, {15, 16, 15, 20}, {0}}, {0xc1700000, {-15, -16, -15, -20}, {0}},
        {0x40200000, {2, 2, 0, 0}, {0}}, {0x46fffc00, {32766, 32766, 32765, 0}, {0, 0, 0, 1}}, {0x46fffe00, {32767, 0, 32765, 0}, {0, 1, 0, 1}},
        {0xc6fffdff, {-32767, -32766, -32765, 0}, {0, 0, 0, 1}}, {0x46fffa00, {32765, 32764, 32765, 32760}, {0}},
        {0x46fffa01, {32765, 32766, 32765, 0}, {0, 0, 0, 1}}, {0x46fffeff, {32767, 0, 32765, 0}, {0, 1, 0, 1}}, {0x46ffff00, {0}, {1, 1, 1, 1}},
    };
    static const uint32_t no_pitches[] = {0, 3, 4, 20, 258, 0xffffffff};
    static uint32_t words[31];
    static const uint16_t corners[3] = {0, 0, 9};
    size_t place, loops, vertices, wrong = 0;
    for (size_t r = 0; r < sizeof rows / sizeof *rows; r++) {
        for (size_t p = 0; p < 4; p++) {
            int right = 1;
            memset(words, 0, sizeof words);
            for (size_t w = 7; w < 30; w++) words[w] = rows[r].word;
            ours = before;
            uint32_t number = wazelpunt_survey(words, 30, corners, 0, ours.grid, ROOM, ours.rings, ROOM, ours.lengths, ROOM, &place, &loops, &vertices, pitches[p]);
            if (rows[r].off[p]) right = number == 8 && place == 7 && memcmp(&ours, &before, sizeof ours) == 0;
            for (size_t w = 0; !rows[r].off[p] && w < 30; w++) right = right && number == 0 && place == 0 && ours.grid[w] == (w < 7 ? 0 : rows[r].at[p]);
            if (!right) printf("%08" PRIx32 " at pitch %" PRIu32 ": answered %" PRIu32 ", %zu\n", rows[r].word, pitches[p], number, place);
            wrong += !right;
        }
    }
    for (size_t n = 0; n < sizeof no_pitches / sizeof *no_pitches; n++) {
        /* wrong counts, short buffers, a point twice, a point that is none and words too far besides */
        ours = before;
        loops = vertices = place = 77;
        uint32_t number = wazelpunt_survey(words, 31, corners, 2, ours.grid, 0, ours.rings, 0, ours.lengths, 0, &place, &loops, &vertices, no_pitches[n]);
        int right = number == 17 && place == 0 && loops == 0 && vertices == 0 && memcmp(&ours, &before, sizeof ours) == 0;
        if (!right) printf("pitch %" PRIu32 ": answered %" PRIu32 ", %zu\n", no_pitches[n], number, place);
        wrong += !right;
    }
    return wrong;
}

/* Whether every answer was met, every buffer short, and loops at every pitch. */
static int met_all(void) {
    size_t missing = refused[17] == 0;
    for (int b = 1; b <= 3; b++) missing += by_buffer[b] == 0;
    for (int n = 0; n <= 8; n++) missing += refused[n] == 0;
    for (int p = 0; p < 4; p++) missing += by_pitch[pitches[p]] == 0;
    if (missing > 0) printf("%zu answers or pitches were not met\n", missing);
    return missing == 0;
}

int main(int count, char **arguments) {
    size_t many = count > 1 ? strtoull(arguments[1], 0, 10) : 20000;
    uint64_t seed = count > 2 ? strtoull(arguments[2], 0, 10) : 20261115;
    size_t wrong = 0, named = sizeof examples / sizeof examples[0];
    static struct generated_surface surface;
    struct generator filling;
    generate_start(&filling, seed);
    fill(&before, sizeof before, &filling);
    for (size_t i = 0; i < 4 * named; i++) wrong += !shows(&examples[i / 4], pitches[i % 4]);
    wrong += !cone(64) + !cone(65) + compare_grids();
    for (size_t i = 0; i < many; i++) {
        struct generator generator;
        generate_start(&generator, seed + i);
        fill(&before, sizeof before, &generator);
        if (i % 2 == 0) generate_sound_surface(&generator, &surface);
        else generate_surface(&generator, &surface);
        for (int b = 0; b < 2; b++)
            if (surface.lent[b] > ROOM) surface.lent[b] = ROOM;
        if (surface.lengths_lent > ROOM) surface.lengths_lent = ROOM;
        if (!agree(&surface) && wrong++ < 10) printf("surface of seed %" PRIu64 "\n", seed + i);
    }
    wrong += count < 2 && !met_all();
    printf("surfaces: %zu examples, all but two at every pitch, ", named + 2);
    printf("%zu made from seed %" PRIu64 ", %zu wrong; %zu loops; by answer:", many, seed, wrong, loops);
    for (int n = 0; n <= HIGHEST; n++)
        if (n <= 8 || n == 17) printf(" %d: %zu", n, refused[n]);
    printf("; loops by pitch:");
    for (int p = 0; p < 4; p++) printf(" %" PRIu32 ": %zu", pitches[p], by_pitch[pitches[p]]);
    printf("\n");
    return wrong != 0;
}
