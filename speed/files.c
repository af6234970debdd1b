/* Files of facets: small ones, full ones, and one whose points all fall into one bucket. Header, normals and attributes are zero. */
#include <string.h>

#include "../tests/reference/reference.h"
#include "baseline.h"
#include "files.h"

#define COUNT_AT 80
#define NORMAL 12
#define CORNER 12

/* A file that is being made, of so many facets so far. */
struct making {
    uint8_t *file;
    uint32_t facets;
};

struct corner {
    float x, y, z;
};

static uint32_t bits_of(float number) {
    uint32_t bits;
    memcpy(&bits, &number, sizeof bits);
    return bits;
}

static void put_word(uint8_t *at, uint32_t word) {
    for (size_t b = 0; b < 4; b++) at[b] = (uint8_t)(word >> 8 * b);
}

static void put_facet(struct making *making, struct corner a, struct corner b, struct corner c) {
    const struct corner corners[3] = {a, b, c};
    uint8_t *facet = making->file + REFERENCE_STL_FRONT + REFERENCE_STL_FACET * (size_t)making->facets++;
    memset(facet, 0, REFERENCE_STL_FACET);
    for (size_t k = 0; k < 3; k++) {
        uint8_t *at = facet + NORMAL + CORNER * k;
        put_word(at, bits_of(corners[k].x));
        put_word(at + 4, bits_of(corners[k].y));
        put_word(at + 8, bits_of(corners[k].z));
    }
}

/* A field of squares: how many, how far apart its points are, and by how much its heights differ. */
struct field {
    size_t columns, rows;
    float pitch, height;
};

static struct corner point_of(const struct field *field, size_t i, size_t j) {
    return (struct corner){(float)i * field->pitch, (float)j * field->pitch, (float)((37 * i + 91 * j) % 101) * field->height};
}

/* A relief over the field, two facets a square. */
static void put_relief(struct making *making, const struct field *field) {
    for (size_t j = 0; j < field->rows; j++)
        for (size_t i = 0; i < field->columns; i++) {
            struct corner low = point_of(field, i, j), high = point_of(field, i + 1, j + 1);
            put_facet(making, low, point_of(field, i + 1, j), high);
            put_facet(making, low, high, point_of(field, i, j + 1));
        }
}

/* A cube as wide as the pitch. */
static void put_cube(struct making *making, const struct field *field) {
    static const uint8_t sides[6][4] = {{0, 2, 3, 1}, {0, 1, 5, 4}, {1, 3, 7, 5}, {3, 2, 6, 7}, {2, 0, 4, 6}, {4, 5, 7, 6}};
    struct corner corners[8];
    for (size_t k = 0; k < 8; k++)
        corners[k] = (struct corner){(float)(k % 2) * field->pitch, (float)(k / 2 % 2) * field->pitch, (float)(k / 4) * field->pitch};
    for (size_t s = 0; s < 6; s++) {
        const uint8_t *side = sides[s];
        put_facet(making, corners[side[0]], corners[side[1]], corners[side[2]]);
        put_facet(making, corners[side[0]], corners[side[2]], corners[side[3]]);
    }
}

static int is_crowded(struct corner point) {
    return baseline_bucket(bits_of(point.x), bits_of(point.y), bits_of(point.z), REFERENCE_MOST_POINTS) == 0;
}

/* As many points as may be, all of one bucket and one line, so that they differ in their last word alone, and then the oldest three again
   and again, which are the last of the chain: every step of it that can be forced is taken, and looks at all three words. */
static void put_crowd(struct making *making, const struct field *field) {
    static struct corner crowd[REFERENCE_MOST_POINTS + 2];
    size_t met = 0;
    for (size_t k = 0; met < REFERENCE_MOST_POINTS; k++) {
        crowd[met] = (struct corner){0, 0, (float)k * field->pitch};
        met += is_crowded(crowd[met]);
    }
    crowd[met] = crowd[0];
    crowd[met + 1] = crowd[1];
    for (size_t p = 0; p < met; p += 3) put_facet(making, crowd[p], crowd[p + 1], crowd[p + 2]);
    while (making->facets < REFERENCE_MOST_TRIANGLES) put_facet(making, crowd[0], crowd[1], crowd[2]);
}

static const struct {
    const char *name;
    void (*put)(struct making *, const struct field *);
    struct field field;
} files[] = {
    {"two-facets", put_relief, {1, 1, 10, 1}},
    {"cube", put_cube, {0, 0, 100, 0}},
    {"sixteen-facets", put_relief, {4, 2, 10, 1}},
    {"relief", put_relief, {23, 22, 10, 1}},
    {"full", put_relief, {16, 32, 10, 1}},
    {"full-of-fractions", put_relief, {16, 32, 0.37f, 0.13f}},
    {"most-points", put_relief, {511, 1, 10, 1}},
    {"crowded", put_crowd, {0, 0, 1 / 64.0f, 0}},
};

const char *file_make(size_t number, uint8_t *file, size_t *length) {
    struct making making = {file, 0};
    if (number >= sizeof files / sizeof *files) return 0;
    memset(file, 0, REFERENCE_STL_FRONT);
    files[number].put(&making, &files[number].field);
    put_word(file + COUNT_AT, making.facets);
    *length = REFERENCE_STL_FRONT + REFERENCE_STL_FACET * (size_t)making.facets;
    return files[number].name;
}
