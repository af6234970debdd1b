#include "causes.h"

#include <math.h>
#include <stdlib.h>
#include <string.h>

#include "stl.h"

/* A wrong line: all lines before it are right. A file of another kind is told by its first line. */
struct wrong {
    const struct text *text;
    const struct line *line;
    const struct due *due;
    struct phrase *cause;
};

/* ---- What a cause asks ---- */

static bool text_begins(const struct wrong *wrong, const char *bytes, size_t count)
{
    return wrong->text->length >= count && memcmp(wrong->text->bytes, bytes, count) == 0;
}

#define TEXT_BEGINS(wrong, literal) text_begins(wrong, literal, sizeof(literal) - 1)

/* How the wrong line should begin; "" at the end of the text. */
static const char *due_key(const struct wrong *wrong)
{
    const struct words *words = words_of(wrong->text->kind);
    const char *const keys[] = {
        [PITCH] = pitch_key, [FIRST_COUNT] = words->count_key, [FIRST] = words->key, [SECOND_COUNT] = "triangles=", [SECOND] = "t=",
        [END] = "",
    };
    return keys[wrong->due->part];
}

static bool has_key(const struct wrong *wrong)
{
    return wrong->due->part != END && line_begins(wrong->line, due_key(wrong));
}

static bool is_point(const struct wrong *wrong)
{
    return wrong->due->part == FIRST && wrong->text->kind == SHEET;
}

static bool is_state(const struct wrong *wrong)
{
    return wrong->due->part == FIRST && wrong->text->kind == SET;
}

static const char *one_of_part(const struct wrong *wrong)
{
    return wrong->due->part <= FIRST ? words_of(wrong->text->kind)->one : "triangle";
}

/* A digit of what is due on the line. */
static bool is_digit(const struct wrong *wrong, uint8_t byte)
{
    return is_decimal_digit(byte) || (is_point(wrong) && byte >= 'a' && byte <= 'f');
}

/* One of the numbers of a line: what stands between two commas. */
struct field {
    const uint8_t *bytes;
    size_t length;
    size_t byte;            /* its first byte's place in the line, from 1 */
};

/* No line has more numbers; what comes behind them is told by their count. */
#define MOST_FIELDS 3

/* The field `index` of a line that has its key; false if there are fewer, or where it would be one too many. */
static bool field_of(const struct wrong *wrong, size_t index, struct field *field)
{
    if (index == MOST_FIELDS) {
        return false;
    }
    const uint8_t *line = wrong->line->bytes;
    size_t at = strlen(due_key(wrong));
    for (size_t before = 0; before < index; before++) {
        const uint8_t *comma = memchr(line + at, ',', wrong->line->length - at);
        if (comma == NULL) {
            return false;
        }
        at = (size_t)(comma - line) + 1;
    }
    const uint8_t *comma = memchr(line + at, ',', wrong->line->length - at);
    size_t end = comma == NULL ? wrong->line->length : (size_t)(comma - line);
    *field = (struct field){line + at, end - at, at + 1};
    return true;
}

static size_t field_count(const struct wrong *wrong)
{
    size_t count = 1;
    for (size_t b = strlen(due_key(wrong)); b < wrong->line->length; b++) {
        count += wrong->line->bytes[b] == ',';
    }
    return count;
}

/* How many numbers a line of this part has. */
static size_t field_due(const struct wrong *wrong)
{
    return wrong->due->part == SECOND || is_point(wrong) ? 3 : 1;
}

/* Adds the bytes of a field, the first twenty of them. */
static void add_field(const struct wrong *wrong, const struct field *field)
{
    phrase_add_bytes(wrong->cause, field->bytes, field->length < 20 ? field->length : 20);
    phrase_add(wrong->cause, "%s", field->length > 20 ? "..." : "");
}

/* ---- Files of another kind, by their first bytes ---- */

static bool is_empty(const struct wrong *wrong)
{
    if (wrong->text->length > 0) {
        return false;
    }
    phrase_add(wrong->cause, "the text is empty");
    return true;
}

/* Adds that the text is of another kind than the one that is due. */
static bool tell_kind(const struct wrong *wrong, const char *is)
{
    static const char *const due[] = {[SHEET] = "sheet or a binary STL file", [SET] = "set", [FACETS] = "binary STL file"};
    phrase_add(wrong->cause, "this is %s, and a %s is due", is, due[wrong->text->kind]);
    return true;
}

/* Marks that are long enough to be sure, since the header of an STL file may have any bytes. */
static bool has_mark_of_kind(const struct wrong *wrong)
{
    static const struct {
        const char *bytes;
        size_t count;
        const char *is;
    } marks[] = {
        {"PK\3\4", 4, "a zip file (unpack it, or export binary STL where it is 3MF)"},
        {"\x1f\x8b\x08", 3, "a gzip file"},
        {"\xfd" "7zXZ\0", 6, "an xz file"},
        {"7z\xbc\xaf\x27\x1c", 6, "a 7z file"},
        {"%PDF-", 5, "a PDF file"},
        {"\x89PNG\r\n\x1a\n", 8, "a PNG picture"},
        {"\xff\xd8\xff\xe0", 4, "a JPEG picture"},
        {"\xff\xd8\xff\xe1", 4, "a JPEG picture"},
    };
    for (size_t m = 0; m < sizeof marks / sizeof marks[0]; m++) {
        if (text_begins(wrong, marks[m].bytes, marks[m].count)) {
            return tell_kind(wrong, marks[m].is);
        }
    }
    return false;
}

/* Its fourth byte is a digit that tells how it was packed. */
static bool is_bzip2(const struct wrong *wrong)
{
    static const char block[] = "1AY&SY";
    return TEXT_BEGINS(wrong, "BZh") && wrong->text->length >= 4 + sizeof block - 1 &&
           memcmp(wrong->text->bytes + 4, block, sizeof block - 1) == 0 && tell_kind(wrong, "a bzip2 file");
}

/* By a NUL in every second of the first bytes, or of all where there are fewer; a mark of two bytes may come before. The header of an STL
   file may be such a text too, so its count is looked at as well. */
static bool is_utf_16(const struct wrong *wrong)
{
    const uint8_t *bytes = wrong->text->bytes;
    size_t start = TEXT_BEGINS(wrong, "\xff\xfe") || TEXT_BEGINS(wrong, "\xfe\xff") ? 2 : 0;
    size_t most = start + WAZELPUNT_STL_FRONT;
    size_t end = wrong->text->length < most ? wrong->text->length : most;
    bool spaced = wrong->line->number == 1 && end >= start + 4;
    for (size_t b = start + 1; spaced && b < end; b++) {
        spaced = (bytes[b] == 0) != (bytes[b - 1] == 0);
    }
    return spaced && tell_kind(wrong, "a text in UTF-16");
}

static bool has_mark(const struct wrong *wrong)
{
    if (!has_byte_order_mark(wrong->text)) {
        return false;
    }
    phrase_add(wrong->cause, "a byte order mark (bytes ef bb bf) stands before the first line");
    return true;
}

/* Given for a sheet it is taken for one, and no cause is looked for. */
static bool is_binary_stl(const struct wrong *wrong)
{
    return wrong->line->number == 1 && stl_is_well_sized(wrong->text) && tell_kind(wrong, "an STL file (binary)");
}

/* Whether a line begins with a whole word; only where it may stand alone can the line end behind it. */
static bool begins_with_word(const struct line *line, const char *word, bool alone)
{
    size_t length = strlen(word);
    if (!line_begins(line, word)) {
        return false;
    }
    if (line->length == length || line->bytes[length] == '\r') {
        return alone;
    }
    return line->bytes[length] == ' ' || line->bytes[length] == '\t';
}

static bool is_ascii_stl(const struct wrong *wrong)
{
    if (wrong->line->number != 1 || !stl_is_ascii(wrong->text)) {
        return false;
    }
    if (wrong->text->kind == SET) {
        phrase_add(wrong->cause, "this begins as ASCII STL does, and a set is due");
        return true;
    }
    phrase_add(wrong->cause, "this begins as ASCII STL does, which is not read; save it as binary STL: "
               "admesh --no-check --write-binary-stl=OUT.stl IN.stl, or in MeshLab's export dialog tick \"Binary encoding\"");
    return true;
}

/* Whether it is the first line, and that of a text: the header of an STL file may begin with any word. */
static bool is_first_of_text(const struct wrong *wrong)
{
    return wrong->line->number == 1 && !has_nul(wrong->text);
}

/* A binary one is told by its second line. */
static bool is_ply(const struct wrong *wrong)
{
    if (wrong->line->number != 1 || !begins_with_word(wrong->line, "ply", true)) {
        return false;
    }
    struct line second = line_after(wrong->text, wrong->line);
    return (is_first_of_text(wrong) || line_begins(&second, "format ")) && tell_kind(wrong, "a PLY file");
}

/* The first line that is neither empty nor a note behind #, as OBJ and OFF files have them. */
static struct line line_behind_notes(const struct wrong *wrong)
{
    struct line line = line_of(wrong->text, 1);
    while (!line.missing && line.fed && (line.length == 0 || line.bytes[0] == '#' || line.bytes[0] == '\r')) {
        line = line_after(wrong->text, &line);
    }
    return line;
}

static bool begins_with_any(const struct line *line, const char *const *words, bool alone)
{
    for (; *words != NULL; words++) {
        if (begins_with_word(line, *words, alone)) {
            return true;
        }
    }
    return false;
}

static bool is_off(const struct wrong *wrong)
{
    static const char *const words[] = {"OFF", "COFF", "NOFF", "CNOFF", "STOFF", "4OFF", "nOFF", NULL};
    struct line line = line_behind_notes(wrong);
    return is_first_of_text(wrong) && begins_with_any(&line, words, true) && tell_kind(wrong, "an OFF file");
}

static bool is_obj(const struct wrong *wrong)
{
    static const char *const words[] = {"v", "vn", "vt", "f", "o", "g", "s", "mtllib", "usemtl", NULL};
    struct line line = line_behind_notes(wrong);
    return is_first_of_text(wrong) && begins_with_any(&line, words, false) && tell_kind(wrong, "an OBJ file");
}

/* Whether a set begins with the line of a pitch, as sheets do: its own first line comes next. */
static bool is_set_with_pitch(const struct wrong *wrong)
{
    struct line second = line_after(wrong->text, wrong->line);
    return wrong->text->kind == SET && line_begins(wrong->line, pitch_key) && line_begins(&second, "states=");
}

static bool is_sheet(const struct wrong *wrong)
{
    if (wrong->text->kind == SHEET || !is_first_of_text(wrong) || !begins_as_sheet(wrong->text) || is_set_with_pitch(wrong)) {
        return false;
    }
    if (wrong->text->kind == SET) {
        return tell_kind(wrong, "a sheet");
    }
    phrase_add(wrong->cause, "this begins as the text of a sheet does: texts are for list, report, check, draw and rewrite");
    return true;
}

static bool is_set(const struct wrong *wrong)
{
    return wrong->text->kind != SET && is_first_of_text(wrong) && TEXT_BEGINS(wrong, "states=") && tell_kind(wrong, "a set");
}

static bool is_report(const struct wrong *wrong)
{
    return is_first_of_text(wrong) && TEXT_BEGINS(wrong, "answer=0,0\nentries=") && tell_kind(wrong, "a report");
}

static bool is_listing(const struct wrong *wrong)
{
    return is_first_of_text(wrong) && TEXT_BEGINS(wrong, "answer=") && tell_kind(wrong, "a listing");
}

/* ---- Ends of lines ---- */

static bool has_carriage_return(const struct wrong *wrong)
{
    const struct line *line = wrong->line;
    const uint8_t *first = line->length == 0 ? NULL : memchr(line->bytes, '\r', line->length);
    /* behind the end any line is one too many */
    if (first == NULL || wrong->due->part == END || (!has_key(wrong) && line->length > 1)) {
        return false;
    }
    bool last = line->fed && first == line->bytes + line->length - 1;
    phrase_add(wrong->cause, "%s: a line is ended by a line feed alone", last ? "CRLF line ends" : "a carriage return");
    return true;
}

static bool is_empty_line(const struct wrong *wrong)
{
    if (wrong->line->length > 0 || !wrong->line->fed) {
        return false;
    }
    phrase_add(wrong->cause, "an empty line");
    return true;
}

/* Comes behind the causes within a line, so that nothing else is wrong with it. */
static bool lacks_line_feed(const struct wrong *wrong)
{
    const char *key = due_key(wrong);
    size_t length = wrong->line->length < strlen(key) ? wrong->line->length : strlen(key);
    if (wrong->line->fed || wrong->line->cut || length == 0 || memcmp(wrong->line->bytes, key, length) != 0) {
        return false;
    }
    bool within_key = length < strlen(key);
    phrase_add(wrong->cause, within_key ? "the text breaks off within this line" : "no line feed at the end of the last line");
    return true;
}

/* ---- The pitch ---- */

/* The line of a pitch where none may stand: in a set, once more, or behind the first line. */
static bool has_pitch_elsewhere(const struct wrong *wrong)
{
    if (wrong->due->part == PITCH || !line_begins(wrong->line, pitch_key)) {
        return false;
    }
    if (wrong->text->kind == SET) {
        phrase_add(wrong->cause, "a set has no pitch: it goes by that of its sheet");
    } else if (pitch_of(wrong->text) != 1) {
        phrase_add(wrong->cause, "a second pitch: the first line says %zu", pitch_of(wrong->text));
    } else {
        phrase_add(wrong->cause, "a pitch stands on the first line, before %s, or nowhere", words_of(SHEET)->count_key);
    }
    return true;
}

/* A number that is no pitch, or the one that is told by no line; by now it is one number, without a leading zero. */
static bool has_other_pitch(const struct wrong *wrong)
{
    struct field field;
    if (wrong->due->part != PITCH || !has_key(wrong) || !field_of(wrong, 0, &field)) {
        return false;
    }
    if (field.length == 1 && field.bytes[0] == '1') {
        phrase_add(wrong->cause, "pitch 1 has no line: leave it out");
        return true;
    }
    size_t number = field.length > 2 ? 0 : line_number(wrong->line, 0);
    if (number == 2 || number == 5 || number == 10) {
        return false; /* something else is wrong with it */
    }
    phrase_add(wrong->cause, "no pitch, ");
    add_field(wrong, &field);
    phrase_add(wrong->cause, ": pitches are 1, 2, 5 and 10, and 1 has no line");
    return true;
}

/* ---- Too few and too many lines ---- */

static void add_counts(const struct wrong *wrong, const char *how, const char *one, size_t there, const char *more)
{
    phrase_add(wrong->cause, "too %s %ss: the count says %zu and there %s %zu%s", how, one, wrong->due->count,
               there == 1 ? "is" : "are", there, more);
}

/* The next part, or the end, comes early. */
static bool ends_early(const struct wrong *wrong)
{
    const struct line *line = wrong->line;
    bool next = wrong->due->part == FIRST && line_begins(line, "triangles=");
    bool set = wrong->due->part == SECOND && wrong->text->kind == SHEET && line_begins(line, "states=");
    if (!line->missing && !next && !set) {
        return false;
    }
    if (wrong->due->part == FIRST_COUNT || wrong->due->part == SECOND_COUNT) {
        phrase_add(wrong->cause, "too few lines: the text ends before %s", due_key(wrong));
    } else {
        add_counts(wrong, "few", one_of_part(wrong), wrong->due->index, "");
    }
    return true;
}

/* More points, states or triangles than their count says. */
static bool ends_late(const struct wrong *wrong)
{
    bool end = wrong->due->part == END;
    const char *key = end ? "t=" : words_of(wrong->text->kind)->key;
    if ((!end && wrong->due->part != SECOND_COUNT) || !line_begins(wrong->line, key)) {
        return false;
    }
    size_t there = wrong->due->count;
    struct line line = *wrong->line;
    for (; !line.missing && line_begins(&line, key); there++) {
        line = line_after(wrong->text, &line);
    }
    add_counts(wrong, "many", end ? "triangle" : words_of(wrong->text->kind)->one, there, line.cut ? " or more" : "");
    return true;
}

/* ---- Within a line ---- */

/* Whether a field begins with a decimal number that is no word: with a sign, a point or an exponent, or of few digits. */
static bool is_decimal_number(const struct field *field, char *number, size_t room)
{
    size_t length = 0;
    while (length < field->length && length + 1 < room && field->bytes[length] != ' ' && field->bytes[length] != '\t') {
        number[length] = (char)field->bytes[length];
        length++;
    }
    number[length] = 0;
    if (length + 1 == room) {
        return false; /* longer than what people write */
    }
    char *end;
    strtof(number, &end);
    bool short_digits = length <= 5 && strspn(number, "0123456789") == length && (length == 1 || number[0] != '0');
    return length > 0 && *end == 0 && strspn(number, "0123456789.eE+-") == length &&
           (short_digits || strpbrk(number, ".+-") != NULL || (length <= 4 && strpbrk(number, "eE") != NULL));
}

/* A decimal number where a word is due, with the word that it would be. */
static bool has_decimal_number(const struct wrong *wrong)
{
    struct field field;
    char number[32];
    if (!is_point(wrong) || !has_key(wrong)) {
        return false;
    }
    for (size_t f = 0; field_of(wrong, f, &field); f++) {
        if (is_decimal_number(&field, number, sizeof number)) {
            float value = strtof(number, NULL);
            uint32_t word;
            memcpy(&word, &value, sizeof word);
            phrase_add(wrong->cause, "a decimal number, %s, at byte %zu: a word is the bits of a binary32 number", number, field.byte);
            if (isfinite(value)) {
                phrase_add(wrong->cause, ", %08x for %s", (unsigned)word, number);
            }
            return true;
        }
    }
    return false;
}

/* Whether a line has its key if blanks and tabs are left out. */
static bool has_key_but_for_blanks(const struct wrong *wrong)
{
    const char *key = due_key(wrong);
    for (size_t b = 0; b < wrong->line->length && *key != 0; b++) {
        uint8_t byte = wrong->line->bytes[b];
        if (byte == (uint8_t)*key) {
            key++;
        } else if (byte != ' ' && byte != '\t') {
            return false;
        }
    }
    return *key == 0;
}

static bool has_blank(const struct wrong *wrong)
{
    for (size_t b = 0; has_key_but_for_blanks(wrong) && b < wrong->line->length; b++) {
        uint8_t byte = wrong->line->bytes[b];
        if (byte == ' ' || byte == '\t') {
            phrase_add(wrong->cause, "a %s at byte %zu: a line has no blanks and tabs", byte == ' ' ? "blank" : "tab", b + 1);
            return true;
        }
    }
    return false;
}

static bool has_upper_case_digit(const struct wrong *wrong)
{
    for (size_t b = 0; is_point(wrong) && has_key(wrong) && b < wrong->line->length; b++) {
        uint8_t byte = wrong->line->bytes[b];
        if (byte >= 'A' && byte <= 'F') {
            phrase_add(wrong->cause, "an upper-case digit, %c, at byte %zu: digits are 0-9 and a-f", byte, b + 1);
            return true;
        }
    }
    return false;
}

/* A byte that is neither a digit nor a comma. */
static bool has_no_digit(const struct wrong *wrong)
{
    for (size_t b = strlen(due_key(wrong)); has_key(wrong) && b < wrong->line->length; b++) {
        uint8_t byte = wrong->line->bytes[b];
        if (!is_digit(wrong, byte) && byte != ',') {
            phrase_add(wrong->cause, "no digit, ");
            phrase_add_bytes(wrong->cause, &byte, 1);
            phrase_add(wrong->cause, ", at byte %zu", b + 1);
            return true;
        }
    }
    return false;
}

static bool has_other_count_of_numbers(const struct wrong *wrong)
{
    if (!has_key(wrong) || wrong->line->cut || field_count(wrong) == field_due(wrong)) {
        return false;
    }
    size_t there = field_count(wrong);
    size_t due = field_due(wrong);
    phrase_add(wrong->cause, "too %s numbers: %zu, and %s", there < due ? "few" : "many", there, due == 1 ? "one is due" : "three are due");
    return true;
}

static bool has_leading_zero(const struct wrong *wrong)
{
    struct field field;
    for (size_t f = 0; !is_point(wrong) && !is_state(wrong) && has_key(wrong) && field_of(wrong, f, &field); f++) {
        if (field.length > 1 && field.bytes[0] == '0' && is_decimal_digit(field.bytes[1])) {
            phrase_add(wrong->cause, "a leading zero, in ");
            add_field(wrong, &field);
            phrase_add(wrong->cause, ", at byte %zu", field.byte);
            return true;
        }
    }
    return false;
}

/* Words have eight digits, states one, other numbers one at least. */
static bool has_other_count_of_digits(const struct wrong *wrong)
{
    struct field field;
    size_t due = is_point(wrong) ? 8 : 1;
    const char *rule = is_point(wrong) ? "a word has eight" : is_state(wrong) ? "a state has one" : "a number is due";
    for (size_t f = 0; has_key(wrong) && field_of(wrong, f, &field); f++) {
        bool many = field.length > due && (is_point(wrong) || is_state(wrong));
        bool cut = wrong->line->cut && field.byte - 1 + field.length == wrong->line->length;
        if (field.length < due || many) {
            phrase_add(wrong->cause, "too %s digits, %zu%s, at byte %zu: %s", many ? "many" : "few", field.length, cut ? " or more" : "",
                       field.byte, rule);
            return true;
        }
    }
    return false;
}

/* A count or a point's number that is too large; by now it has digits alone and no leading zero. */
static bool has_large_number(const struct wrong *wrong)
{
    bool corner = wrong->due->part == SECOND;
    bool few = wrong->due->part == FIRST_COUNT || wrong->text->kind == SHEET;
    size_t most = corner ? WAZELPUNT_POINTS - 1 : few ? WAZELPUNT_POINTS : WAZELPUNT_SET_TRIANGLES;
    struct field field;
    if (wrong->due->part == PITCH || wrong->due->part == FIRST) {
        return false;
    }
    for (size_t f = 0; has_key(wrong) && field_of(wrong, f, &field); f++) {
        if (field.length > 4 || line_number(wrong->line, f) > most) {
            phrase_add(wrong->cause, "a %s that is too large, ", corner ? "number" : "count");
            add_field(wrong, &field);
            phrase_add(wrong->cause, ": more than ");
            phrase_add_number(wrong->cause, most);
            return true;
        }
    }
    return false;
}

static bool goes_on_behind_the_end(const struct wrong *wrong)
{
    if (wrong->due->part != END) {
        return false;
    }
    phrase_add(wrong->cause, "too many lines: the text goes on behind its last triangle");
    return true;
}

/* ---- All causes, in the order in which they are tried, each list to its NULL ---- */

/* Asked also of what was taken for an STL file, of which no line is due. */
static bool (*const kinds[])(const struct wrong *wrong) = {
    has_mark_of_kind,
    is_bzip2,
    is_utf_16,
    is_binary_stl,
    is_ascii_stl,
    is_ply,
    is_off,
    is_obj,
    is_sheet,
    is_set,
    is_report,
    is_listing,
    NULL,
};

static bool (*const within_text[])(const struct wrong *wrong) = {
    is_empty,
    has_mark,
    has_carriage_return,
    is_empty_line,
    has_pitch_elsewhere,
    ends_early,
    ends_late,
    has_decimal_number,
    has_blank,
    has_upper_case_digit,
    has_no_digit,
    has_other_count_of_numbers,
    has_leading_zero,
    has_other_count_of_digits,
    has_other_pitch,
    has_large_number,
    lacks_line_feed,
    goes_on_behind_the_end,
    NULL,
};

static bool try_each(bool (*const *causes)(const struct wrong *wrong), const struct wrong *wrong)
{
    while (*causes != NULL && !(*causes)(wrong)) {
        causes++;
    }
    return *causes != NULL;
}

void cause_add(const struct text *text, const struct line *line, const struct due *due, struct phrase *cause)
{
    struct wrong wrong = {text, line, due, cause};
    if (!try_each(kinds, &wrong)) {
        try_each(within_text, &wrong);
    }
}

bool kind_add(const struct text *file, struct phrase *cause)
{
    struct line line = line_of(file, 1);
    struct wrong wrong = {file, &line, NULL, cause};
    return try_each(kinds, &wrong);
}
