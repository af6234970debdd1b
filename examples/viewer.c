/* Wazelpunt in a viewer: reads a sheet from the file that is named, or from standard input, patches it, and prints what is to be drawn: the
   pitch, the points on the grid, the triangles, and each loop with its state, where it comes from, its ring and its patch. The file is a
   sheet text or a binary STL.

       cc viewer.c -lwazelpunt -o viewer && ./viewer plate.sheet

   Exit status: 0 drawn; 1 the sheet is refused; 2 wrong use, or reading or writing failed. */
#include <errno.h>
#include <inttypes.h>
#include <stdio.h>
#include <string.h>

#include <wazelpunt.h>

/* A sheet and what is found of it. Buffers for the largest sheet take 113 KB, so they are static and not on the stack. */
static struct {
    uint32_t words[WAZELPUNT_WORDS];
    uint16_t corners[WAZELPUNT_CORNERS];
    int32_t grid[WAZELPUNT_GRID_FOR(WAZELPUNT_WORDS)];
    uint16_t rings[WAZELPUNT_RINGS_FOR(WAZELPUNT_CORNERS)];
    uint64_t records[WAZELPUNT_RECORDS_FOR(WAZELPUNT_CORNERS)];
    uint16_t patches[WAZELPUNT_PATCHES_FOR(WAZELPUNT_CORNERS)];
    size_t words_count, corners_count, loops, vertices, laid;
    uint32_t pitch;
} sheet;

/* As many numbers as stand in an array, which is the length that is given with a lent buffer. */
#define LENGTH(array) (sizeof(array) / sizeof(array)[0])

/* The file's first bytes. There is room for the longest of both kinds; of a text that is longer still this much is refused at the same
   line, and a file of facets that is longer has too many. */
static uint8_t bytes[WAZELPUNT_STL_BYTES];

/* How many facets a file of facets says that it has. */
static uint32_t said_facets(void)
{
    return (uint32_t)bytes[80] | (uint32_t)bytes[81] << 8 | (uint32_t)bytes[82] << 16 | (uint32_t)bytes[83] << 24;
}

/* Reads the file into `bytes`, and returns how long all of it is, or -1 if it cannot be read. What has no NUL byte is taken for a text, and
   what is longer than its count of facets says is no file of facets: neither is counted to its end. */
static long load(const char *name)
{
    static uint8_t passed[65536];
    FILE *file = name ? fopen(name, "rb") : stdin;
    if (!file) return -1;
    size_t count = fread(bytes, 1, sizeof bytes, file), more = memchr(bytes, 0, count) ? count : 0;
    size_t due = WAZELPUNT_STL_FRONT + (size_t)WAZELPUNT_STL_FACET_BYTES * said_facets();
    for (; more > 0 && count <= due; count += more) more = fread(passed, 1, sizeof passed, file);
    int failed = ferror(file), reason = errno;
    if (name) fclose(file);
    errno = reason;
    return failed ? -1 : (long)count;
}

/* What a file of facets of that length is answered for its size. It is 16 for every text: the bytes of letters and digits make a count of
   more than 100 million facets, of which no text has the length. */
static uint32_t size_as_facets(size_t length)
{
    return wazelpunt_size_stl(length, said_facets());
}

/* Whether something whose length fits no file of facets is one all the same: no text has a NUL byte. But what begins as a sheet text is
   read as one, and its wrong line is told. */
static int is_misfit(size_t held)
{
    return memchr(bytes, 0, held) && memcmp(bytes, "points=", 7) != 0 && memcmp(bytes, "pitch=", 6) != 0;
}

/* Reads the sheet, a file of facets or a text. A text says its pitch; for a file of facets, which says none, the finest is taken. */
static uint32_t read_sheet(size_t length, size_t *place)
{
    size_t held = length < sizeof bytes ? length : sizeof bytes;
    *place = 0;
    sheet.pitch = 1;
    switch (size_as_facets(length)) {
    case WAZELPUNT_DONE:
        return wazelpunt_read_stl(bytes, held, sheet.words, LENGTH(sheet.words), sheet.corners, LENGTH(sheet.corners), place,
                                  &sheet.words_count, &sheet.corners_count);
    case WAZELPUNT_WRONG_CORNERS:
        return WAZELPUNT_WRONG_CORNERS;
    default:
        if (is_misfit(held)) return WAZELPUNT_MISFIT;
        return wazelpunt_read(bytes, held, sheet.words, LENGTH(sheet.words), sheet.corners, LENGTH(sheet.corners), place,
                              &sheet.words_count, &sheet.corners_count, &sheet.pitch);
    }
}

/* Reads and patches the sheet. Returns 0, or the number of a refusal with its place; then nothing of the sheet may be used. */
static uint32_t take(size_t length, size_t *place)
{
    uint32_t number = read_sheet(length, place);
    if (number != WAZELPUNT_DONE) return number;
    return wazelpunt_patch(sheet.words, sheet.words_count, sheet.corners, sheet.corners_count, sheet.grid, LENGTH(sheet.grid), sheet.rings,
                           LENGTH(sheet.rings), sheet.records, LENGTH(sheet.records), sheet.patches, LENGTH(sheet.patches), place,
                           &sheet.loops, &sheet.vertices, &sheet.laid, sheet.pitch);
}

static const char *state_name(uint64_t state)
{
    switch (state) {
    case WAZELPUNT_PATCHED: return "patched";
    case WAZELPUNT_LONG: return "long, left open";
    case WAZELPUNT_OPEN: return "no allowed cover, left open";
    default: return "rim";
    }
}

/* Prints what is kept of a loop. To point at it on the screen the half-edge that it is listed from is enough: half-edge h is edge h % 3 of
   triangle h / 3. */
static void draw_record(size_t loop, const struct wazelpunt_record *record)
{
    printf("loop %zu: %s; weight %" PRIu64 "; run %" PRIu64 "; in piece %" PRIu64 ", from half-edge %" PRIu64 " of triangle %" PRIu64
           "; ring", loop, state_name(record->state), record->weight, record->run, record->piece, record->first, record->first / 3);
}

/* Prints the loops. Rings and patches stand one after another, so each loop begins where the one before ends. */
static void draw_loops(void)
{
    const uint16_t *ring = sheet.rings, *patch = sheet.patches;
    for (size_t loop = 0; loop < sheet.loops; loop++) {
        const struct wazelpunt_record record = wazelpunt_record_at(sheet.records, LENGTH(sheet.records), loop);
        size_t length = (size_t)record.length;
        /* a cover of a ring has two triangles fewer than the ring has vertices */
        size_t triangles = record.state == WAZELPUNT_PATCHED ? length - 2 : 0;
        draw_record(loop, &record);
        for (size_t i = 0; i < length; i++) printf(" %u", (unsigned)ring[i]);
        putchar('\n');
        for (size_t i = 0; i < triangles; i++, patch += 3)
            printf("patch of loop %zu: %u %u %u\n", loop, (unsigned)patch[0], (unsigned)patch[1], (unsigned)patch[2]);
        ring += length;
    }
}

static void draw(void)
{
    printf("pitch: %" PRIu32 "\n", sheet.pitch);
    for (size_t point = 0; point < sheet.words_count / 3; point++) {
        const int32_t *at = sheet.grid + 3 * point;
        printf("point %zu: %" PRId32 " %" PRId32 " %" PRId32 "\n", point, at[0], at[1], at[2]);
    }
    for (size_t triangle = 0; triangle < sheet.corners_count / 3; triangle++) {
        const uint16_t *corner = sheet.corners + 3 * triangle;
        printf("triangle %zu: %u %u %u\n", triangle, (unsigned)corner[0], (unsigned)corner[1], (unsigned)corner[2]);
    }
    draw_loops();
}

static int fail(int status, const char *name, const char *said)
{
    fprintf(stderr, "viewer: %s: %s\n", name, said);
    return status;
}

int main(int count, char **words)
{
    const char *name = count == 2 ? words[1] : "standard input";
    if (count > 2) return fail(2, "wrong use", "name one sheet, or none for standard input");
    if (!wazelpunt_floats_are_default()) return fail(2, "floats", "they are not set as Wazelpunt needs them; was -ffast-math given?");
    long length = load(count == 2 ? name : NULL);
    if (length < 0) return fail(2, name, strerror(errno));
    size_t place;
    uint32_t number = take((size_t)length, &place);
    if (number != WAZELPUNT_DONE) {
        fprintf(stderr, "viewer: %s: refused, answer %" PRIu32 ",%zu: %s\n", name, number, place, wazelpunt_sentence(number));
        return 1;
    }
    draw();
    return fflush(stdout) == 0 && !ferror(stdout) ? 0 : fail(2, "standard output", strerror(errno));
}
