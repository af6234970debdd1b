/* Compares wazelpunt_coordinate with a computation in exact integers that was written from the scope alone, at each pitch.
   With no argument it takes a sample: every sign and exponent with the digits that matter (the ends, single bits, the digits
   next to each multiple on the grid and to the middle between each two) and as many more words by a seeded generator, which take
   turns with the pitches.
   With the argument `all` it takes all 2^32 words at every pitch. Either way numbers that are no pitch get 17, whatever the word is. */
#include <inttypes.h>
#include <stdint.h>
#include <stdio.h>
#include <stdlib.h>
#include <string.h>

#include "wazelpunt.h"

struct answer {
    uint32_t number;
    int32_t whole;
    uint32_t rest;
};

/* The binary32 bits of size * 2^(zeros - 149), for a size below 2^24: shifted up until it has 24 digits or no zeros are left. */
static uint32_t bits_of(uint32_t negative, uint32_t size, int zeros) {
    if (size == 0) return 0;
    while (size < (1u << 23) && zeros > 0) {
        size <<= 1;
        zeros--;
    }
    uint32_t field = size < (1u << 23) ? 0 : (uint32_t)zeros + 1;
    return negative << 31 | field << 23 | (size & 0x7fffff);
}

/* A value is digits * 2^-shift. How many pitches it has and what is left of it are a division's, done on integers. */
static struct answer expected(uint32_t word, uint32_t pitch) {
    uint32_t negative = word >> 31, field = word >> 23 & 255, digits = word & 0x7fffff;
    if (field == 255) return (struct answer){7, 0, 0};
    if (field >= 150) return (struct answer){8, 0, word};
    int shift = field == 0 ? 149 : 150 - (int)field;
    if (field != 0) digits += 1u << 23;
    uint64_t pitches = 0, left = digits, unit = 0;
    if (shift < 40) {
        unit = (uint64_t)pitch << shift;
        pitches = digits / unit;
        left = digits % unit;
    }
    uint32_t turned = 0;
    if (unit != 0 && (2 * left > unit || (2 * left == unit && pitches % 2 == 1))) {
        pitches++;
        left = unit - left;
        turned = 1;
    }
    uint64_t whole = pitches * pitch;
    if (whole > 32767) return (struct answer){8, 0, word};
    return (struct answer){0, negative ? -(int32_t)whole : (int32_t)whole, bits_of(negative ^ turned, (uint32_t)left, 149 - shift)};
}

static uint64_t tried, wrong;
static const uint32_t pitches[4] = {1, 2, 5, 10};

static int is_pitch(uint32_t number) { return number == 1 || number == 2 || number == 5 || number == 10; }

static void try_word(uint32_t word, uint32_t pitch) {
    struct {
        uint64_t before;
        int32_t whole;
        uint32_t rest;
        uint64_t after;
    } room = {0x5a5a5a5a5a5a5a5a, -77, 77, 0xa5a5a5a5a5a5a5a5};
    uint32_t number = wazelpunt_coordinate(word, &room.whole, &room.rest, pitch);
    struct answer due = is_pitch(pitch) ? expected(word, pitch) : (struct answer){17, 0, 0};
    tried++;
    if (number == due.number && room.whole == due.whole && room.rest == due.rest && room.before == 0x5a5a5a5a5a5a5a5a && room.after == 0xa5a5a5a5a5a5a5a5) return;
    if (wrong++ < 10)
        printf("word %08" PRIx32 " at pitch %" PRIu32 ": answered %" PRIu32 ", %" PRId32 ", %08" PRIx32 "; due %" PRIu32 ", %" PRId32 ", %08" PRIx32 "\n", word, pitch, number, room.whole, room.rest, due.number, due.whole, due.rest);
}

/* the word and its neighbours, with either sign */
static void try_near(uint32_t word, uint32_t pitch) {
    for (int32_t step = -2; step <= 2; step++) {
        try_word(word + (uint32_t)step, pitch);
        try_word((word + (uint32_t)step) ^ 0x80000000, pitch);
    }
}

static void try_digits(uint32_t pitch) {
    for (uint32_t field = 0; field < 256; field++) {
        try_near(field << 23, pitch);
        try_near(field << 23 | 0x7fffff, pitch);
        for (int bit = 0; bit < 23; bit++) {
            try_near(field << 23 | 1u << bit, pitch);
            try_near(field << 23 | (0x7fffff & ~(1u << bit)), pitch);
            try_near(field << 23 | (0x7fffffu << bit & 0x7fffff), pitch);
        }
    }
}

/* Every multiple on the grid, the middle between each two, and some behind the last. */
static void try_multiples(uint32_t pitch) {
    for (uint32_t twice = 0; twice <= 65560; twice += pitch) {
        float half = (float)twice / 2;
        uint32_t word;
        memcpy(&word, &half, 4);
        try_near(word, pitch);
    }
}

static void try_sample(uint64_t count, uint64_t seed) {
    for (int p = 0; p < 4; p++) {
        try_digits(pitches[p]);
        try_multiples(pitches[p]);
    }
    for (uint64_t i = 0; i < count; i++) {
        seed ^= seed << 13;
        seed ^= seed >> 7;
        seed ^= seed << 17;
        try_word((uint32_t)(seed >> 16), pitches[i % 4]);
    }
}

/* Small numbers, and those that are a pitch but for bits above it, with words that a pitch would take, and refuse. */
static void try_wrong_pitches(void) {
    static const uint32_t words[] = {0, 0x80000000, 1, 0x3f800000, 0x41200000, 0x46fffa00, 0x46fffe00, 0x46ffff00, 0x7f800000, 0xffc00000};
    for (size_t w = 0; w < sizeof words / sizeof *words; w++) {
        for (uint32_t number = 0; number <= 1024; number++)
            if (!is_pitch(number)) try_word(words[w], number);
        for (int bit = 4; bit < 32; bit++)
            for (int p = 0; p < 4; p++) try_word(words[w], pitches[p] | 1u << bit);
        for (int p = 0; p < 4; p++) try_word(words[w], ~pitches[p] + 1);
        try_word(words[w], UINT32_MAX);
    }
}

int main(int count, char **words) {
    if (count == 2 && strcmp(words[1], "all") == 0) {
        for (int p = 0; p < 4; p++) {
            uint32_t word = 0;
            do try_word(word, pitches[p]);
            while (++word != 0);
        }
    } else {
        try_sample(1 << 24, 20261115);
    }
    try_wrong_pitches();
    printf("coordinates: %" PRIu64 " words tried, %" PRIu64 " wrong\n", tried, wrong);
    return wrong != 0;
}
