/* The C baseline, a yardstick for speed: the scope's patcher, what finds its loops, the report of tide pools and lakes, the checker, the
   reading and writing of sheet texts, and the reading of files of facets.
   Every function takes, answers and leaves the same as its namesake in wazelpunt.h; baseline_check is that of wazelpunt_judge. */
#ifndef BASELINE_H
#define BASELINE_H

#include <stddef.h>
#include <stdint.h>

uint32_t baseline_survey(const uint32_t *words, size_t words_count, const uint16_t *corners, size_t corners_count,
                         int32_t *grid, size_t grid_length, uint16_t *rings, size_t rings_length, uint16_t *lengths,
                         size_t lengths_length, size_t *place, size_t *loops, size_t *vertices, uint32_t pitch);

uint32_t baseline_patch(const uint32_t *words, size_t words_count, const uint16_t *corners, size_t corners_count,
                        int32_t *grid, size_t grid_length, uint16_t *rings, size_t rings_length, uint64_t *records,
                        size_t records_length, uint16_t *patches, size_t patches_length, size_t *place, size_t *loops,
                        size_t *vertices, size_t *laid, uint32_t pitch);

uint32_t baseline_chart(const uint32_t *words, size_t words_count, const uint16_t *corners, size_t corners_count,
                        int32_t *grid, size_t grid_length, uint16_t *rings, size_t rings_length, uint64_t *records,
                        size_t records_length, uint16_t *report, size_t report_length, size_t *place, size_t *loops,
                        size_t *vertices, size_t *entries, uint32_t pitch);

uint32_t baseline_check(const uint32_t *words, size_t words_count, const uint16_t *corners, size_t corners_count,
                        const uint16_t *states, size_t states_count, const uint16_t *set, size_t set_count, int32_t *grid,
                        size_t grid_length, uint16_t *rings, size_t rings_length, uint16_t *lengths, size_t lengths_length,
                        size_t *place, size_t *loops, size_t *vertices, uint32_t pitch);

uint32_t baseline_read(const uint8_t *text, size_t text_length, uint32_t *words, size_t words_length, uint16_t *corners,
                       size_t corners_length, size_t *place, size_t *words_read, size_t *corners_read, uint32_t *pitch);

uint32_t baseline_read_stl(const uint8_t *file, size_t file_length, uint32_t *words, size_t words_length, uint16_t *corners,
                           size_t corners_length, size_t *place, size_t *words_read, size_t *corners_read);

/* Of so many buckets, a power of two, that of a point with these words. It is the one that crates/stl_gather takes, so that one
   file crowds both. */
static inline size_t baseline_bucket(uint32_t a, uint32_t b, uint32_t c, size_t buckets) {
    return ((uint64_t)a * 0x1e3779b1 + (uint64_t)b * 0x15ebca6b + (uint64_t)c * 0x12b2ae35) >> 27 & (buckets - 1);
}

uint32_t baseline_write(const uint32_t *words, size_t words_count, const uint16_t *corners, size_t corners_count,
                        uint8_t *text, size_t text_length, size_t *place, size_t *bytes, uint32_t pitch);

#endif
