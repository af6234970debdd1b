#include "lines.h"

#include <string.h>

/* The line that begins at a byte. */
static struct line line_from(const struct text *text, size_t at, size_t number)
{
    struct line line = {.number = number, .bytes = text->bytes + at, .missing = at == text->length && !text->cut};
    const uint8_t *feed = at == text->length ? NULL : memchr(line.bytes, '\n', text->length - at);
    line.fed = feed != NULL;
    line.length = feed == NULL ? text->length - at : (size_t)(feed - line.bytes);
    line.cut = feed == NULL && text->cut;
    return line;
}

struct line line_after(const struct text *text, const struct line *line)
{
    size_t end = (size_t)(line->bytes - text->bytes) + line->length;
    return line_from(text, line->fed ? end + 1 : end, line->number + 1);
}

struct line line_of(const struct text *text, size_t number)
{
    struct line line = line_from(text, 0, 1);
    while (line.number < number) {
        line = line_after(text, &line);
    }
    return line;
}

size_t lines_ended(const struct text *text)
{
    size_t lines = 0;
    for (size_t b = 0; b < text->length; b++) {
        lines += text->bytes[b] == '\n';
    }
    return lines;
}

bool line_begins(const struct line *line, const char *word)
{
    size_t length = strlen(word);
    return line->length >= length && memcmp(line->bytes, word, length) == 0;
}

bool is_decimal_digit(uint8_t byte)
{
    return byte >= '0' && byte <= '9';
}

size_t line_number(const struct line *line, size_t index)
{
    size_t at = 0;
    size_t number = 0;
    while (at < line->length && line->bytes[at] != '=') {
        at++;
    }
    at++;
    for (size_t commas = 0; at < line->length && commas < index; at++) {
        commas += line->bytes[at] == ',';
    }
    for (; at < line->length && is_decimal_digit(line->bytes[at]); at++) {
        number = 10 * number + (size_t)(line->bytes[at] - '0');
    }
    return number;
}

const char pitch_key[] = "pitch=";

size_t pitch_of(const struct text *text)
{
    struct line line = line_of(text, 1);
    return text->kind == SHEET && line_begins(&line, pitch_key) ? line_number(&line, 0) : 1;
}

/* How many lines come before the first count: one where the pitch is told. */
static size_t lines_of_pitch(const struct text *text)
{
    return pitch_of(text) == 1 ? 0 : 1;
}

size_t count_first(const struct text *text)
{
    struct line line = line_of(text, lines_of_pitch(text) + 1);
    return line_number(&line, 0);
}

size_t count_triangles(const struct text *text)
{
    struct line line = line_of(text, lines_of_pitch(text) + count_first(text) + 2);
    return line_number(&line, 0);
}

struct line line_of_first(const struct text *text, size_t index)
{
    return line_of(text, lines_of_pitch(text) + index + 2);
}

struct line line_of_triangle(const struct text *text, size_t index)
{
    return line_of(text, lines_of_pitch(text) + count_first(text) + 3 + index);
}

/* No other line of a sheet begins with these two letters, so one that breaks off behind them is the pitch too. */
static bool is_meant_for_pitch(const struct text *text)
{
    struct line line = line_of(text, 1);
    return text->kind == SHEET && line_begins(&line, "pi");
}

struct due due_at(const struct text *text, size_t number)
{
    if (number == 1) {
        return (struct due){.part = is_meant_for_pitch(text) ? PITCH : FIRST_COUNT};
    }
    number -= lines_of_pitch(text);
    if (number == 1) {
        return (struct due){.part = FIRST_COUNT};
    }
    size_t first = count_first(text);
    if (number <= first + 1) {
        return (struct due){.part = FIRST, .index = number - 2, .count = first};
    }
    if (number == first + 2) {
        return (struct due){.part = SECOND_COUNT, .count = first};
    }
    size_t triangles = count_triangles(text);
    if (number <= first + 2 + triangles) {
        return (struct due){.part = SECOND, .index = number - first - 3, .count = triangles};
    }
    return (struct due){.part = END, .count = triangles};
}

const struct words *words_of(enum kind kind)
{
    static const struct words words[] = {
        [SHEET] = {"points=", "p=", "point", "1,024"},
        [SET] = {"states=", "s=", "state", "3,072"},
    };
    return &words[kind];
}
