/* Asks wazelpunt_floats_are_default under every rounding mode and with denormal numbers flushed, and shows what the archive answers for a
   coordinate then, which is why the header has the question. It is compiled as C and as C++, and in several ways.
   With the argument `flushed` it expects that denormal numbers are flushed from the start on, as in a program linked with -ffast-math. */
#include <stdint.h>
#include <stdio.h>
#include <string.h>

#include "wazelpunt.h"

/* The processor's control word for floats of 32 and 64 bits. */
#define DEFAULT 0x1f80u
#define TAKEN_FOR_ZERO 0x0040u
#define DOWN 0x2000u
#define UP 0x4000u
#define TOWARDS_ZERO 0x6000u
#define FLUSHED 0x8000u

static unsigned tried, wrong;

static void set(uint32_t control) { __asm__ volatile("ldmxcsr %0" : : "m"(control) : "memory"); }

static void expect(const char *what, int holds) {
    tried++;
    if (holds) return;
    wrong++;
    printf("floats: not so: %s\n", what);
}

static const uint32_t pitches[4] = {1, 2, 5, 10};

static int answers_at(uint32_t pitch, uint32_t word, int32_t due, uint32_t due_rest) {
    int32_t whole = -77;
    uint32_t rest = 77;
    return wazelpunt_coordinate(word, &whole, &rest, pitch) == 0 && whole == due && rest == due_rest;
}

static int answers(uint32_t word, int32_t due, uint32_t due_rest) { return answers_at(1, word, due, due_rest); }

/* 5 units of 2^-149, a quarter, and three quarters, which lie near 0, 0 and 1; at every coarse pitch 5 units again, and next to a middle:
   3 and 2.5 at 2, 8 and 7 at 5, 16 and 14 at 10 */
static int answers_as_promised(void) {
    int so = answers(0x00000005, 0, 0x00000005) && answers(0x80000005, 0, 0x80000005) && answers(0x3e800000, 0, 0x3e800000) &&
             answers(0x3f400000, 1, 0xbe800000);
    for (int p = 1; p < 4; p++) so = so && answers_at(pitches[p], 0x00000005, 0, 0x00000005) && answers_at(pitches[p], 0x80000005, 0, 0x80000005);
    return so && answers_at(2, 0x40400000, 4, 0xbf800000) && answers_at(2, 0x40200000, 2, 0x3f000000) &&
           answers_at(5, 0x41000000, 10, 0xc0000000) && answers_at(5, 0x40e00000, 5, 0x40000000) &&
           answers_at(10, 0x41800000, 20, 0xc0800000) && answers_at(10, 0x41600000, 10, 0x40800000);
}

/* Whether flushing changes nothing but the rest of coordinates that are denormal themselves: every exponent, with digits of all kinds, at
   every pitch. */
static int changes_denormal_rests_only(uint32_t control) {
    int same = 1;
    for (uint32_t high = 0; high < 4 * 512; high++) {
        for (uint32_t digits = 1; digits < 0x800000; digits = digits * 3 / 2 + 1) {
            uint32_t word = high << 23 | digits, rest, flushed_rest, number, flushed_number, pitch = pitches[high / 512];
            int32_t whole, flushed_whole;
            number = wazelpunt_coordinate(word, &whole, &rest, pitch);
            set(control);
            flushed_number = wazelpunt_coordinate(word, &flushed_whole, &flushed_rest, pitch);
            set(DEFAULT);
            same = same && number == flushed_number && whole == flushed_whole;
            same = same && (high % 256 == 0 ? rest == word && flushed_rest % 0x80000000 == 0 : rest == flushed_rest);
        }
    }
    return same;
}

/* The question says no under this control word, and yes again after it. */
static void expect_no(const char *what, uint32_t control) {
    set(control);
    int said = wazelpunt_floats_are_default();
    set(DEFAULT);
    expect(what, !said);
    expect("yes again", wazelpunt_floats_are_default());
}

static int answers_under(uint32_t control, uint32_t word, int32_t due, uint32_t due_rest) {
    set(control);
    int so = answers(word, due, due_rest);
    set(DEFAULT);
    return so;
}

static int answers_at_5_under(uint32_t control, uint32_t word, int32_t due, uint32_t due_rest) {
    set(control);
    int so = answers_at(5, word, due, due_rest);
    set(DEFAULT);
    return so;
}

int main(int count, char **words) {
    if (count == 2 && strcmp(words[1], "flushed") == 0) {
        expect("no where denormal numbers are flushed from the start on", !wazelpunt_floats_are_default());
        expect("the rest of 0x00000005 told as 0 there", answers(0x00000005, 0, 0));
        set(DEFAULT);
    }
    expect("yes by default", wazelpunt_floats_are_default());
    expect("coordinates as promised by default", answers_as_promised());

    expect_no("no if flushed", DEFAULT | FLUSHED);
    expect_no("no if taken for zero", DEFAULT | TAKEN_FOR_ZERO);
    expect_no("no if flushed and taken for zero", DEFAULT | FLUSHED | TAKEN_FOR_ZERO);
    expect_no("no if rounded up", DEFAULT | UP);
    expect_no("no if rounded down", DEFAULT | DOWN);
    expect_no("no if rounded towards zero", DEFAULT | TOWARDS_ZERO);
    expect_no("no if rounded up and flushed", DEFAULT | UP | FLUSHED | TAKEN_FOR_ZERO);

    /* what the header warns of */
    expect("another rest if flushed", answers_under(DEFAULT | FLUSHED, 0x00000005, 0, 0));
    expect("another rest if taken for zero", answers_under(DEFAULT | TAKEN_FOR_ZERO, 0x00000005, 0, 0));
    expect("another rest if both", answers_under(DEFAULT | FLUSHED | TAKEN_FOR_ZERO, 0x00000005, 0, 0));
    expect("nothing but such rests if flushed", changes_denormal_rests_only(DEFAULT | FLUSHED));
    expect("nothing but such rests if taken for zero", changes_denormal_rests_only(DEFAULT | TAKEN_FOR_ZERO));
    expect("nothing but such rests if both", changes_denormal_rests_only(DEFAULT | FLUSHED | TAKEN_FOR_ZERO));
    expect("a quarter at 1 if rounded up", answers_under(DEFAULT | UP, 0x3e800000, 1, 0xbf400000));
    expect("three quarters at 0 if rounded down", answers_under(DEFAULT | DOWN, 0x3f400000, 0, 0x3f400000));
    expect("three quarters at 0 if rounded towards zero", answers_under(DEFAULT | TOWARDS_ZERO, 0x3f400000, 0, 0x3f400000));
    expect("6 at 10, at pitch 5, if rounded up", answers_at_5_under(DEFAULT | UP, 0x40c00000, 10, 0xc0800000));
    expect("9 at 5, at pitch 5, if rounded down", answers_at_5_under(DEFAULT | DOWN, 0x41100000, 5, 0x40800000));
    expect("coordinates as promised again", answers_as_promised());

    printf("%u said, %u wrong\n", tried, wrong);
    return wrong != 0;
}
