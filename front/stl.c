#define _POSIX_C_SOURCE 200809L

#include "stl.h"

#include <string.h>
#include <strings.h>

#include "lines.h"
#include "listing.h"
#include "output.h"

#define MARK_LENGTH 3

/* ---- Answers ---- */

/* The library speaks of words and corners, which nobody has seen of a file. */
const char *stl_sentence(const struct stl *stl, uint32_t number)
{
    if (stl != NULL && number == WAZELPUNT_WRONG_WORDS) {
        return "the file has more than 1,024 points";
    }
    if (stl != NULL && number == WAZELPUNT_WRONG_CORNERS) {
        return "the file has more than 1,024 facets";
    }
    return wazelpunt_sentence(number);
}

/* ---- Sizes ---- */

uint32_t stl_count(const uint8_t *file)
{
    const uint8_t *count = file + STL_COUNT_AT;
    return count[0] | (uint32_t)count[1] << 8 | (uint32_t)count[2] << 16 | (uint32_t)count[3] << 24;
}

uint64_t stl_size(uint32_t count)
{
    return WAZELPUNT_STL_FRONT + (uint64_t)WAZELPUNT_STL_FACET_BYTES * count;
}

bool stl_is_well_sized(const struct text *given)
{
    return given->length >= WAZELPUNT_STL_FRONT && given->size == stl_size(stl_count(given->bytes));
}

/* ---- What it looks like ---- */

bool has_nul(const struct text *given)
{
    return given->length > 0 && memchr(given->bytes, 0, given->length) != NULL;
}

static bool is_blank(uint8_t byte)
{
    return byte == ' ' || (byte >= '\t' && byte <= '\r');
}

bool has_byte_order_mark(const struct text *given)
{
    return given->length >= MARK_LENGTH && memcmp(given->bytes, "\xef\xbb\xbf", MARK_LENGTH) == 0;
}

/* Where a text begins, behind a byte order mark. */
static size_t text_start(const struct text *given)
{
    return has_byte_order_mark(given) ? MARK_LENGTH : 0;
}

bool stl_is_ascii(const struct text *given)
{
    static const char word[] = "solid";
    size_t at = text_start(given);
    while (at < given->length && is_blank(given->bytes[at])) {
        at++;
    }
    return given->length - at >= sizeof word - 1 && strncasecmp((const char *)given->bytes + at, word, sizeof word - 1) == 0 &&
           !has_nul(given);
}

/* Whether a text begins with a key, behind a byte order mark. */
static bool begins_with_key(const struct text *given, const char *key)
{
    size_t at = text_start(given);
    size_t length = strlen(key);
    return given->length - at >= length && memcmp(given->bytes + at, key, length) == 0;
}

bool begins_as_sheet(const struct text *given)
{
    return begins_with_key(given, "points=") || begins_with_key(given, pitch_key);
}

const char stl_ending[] = ".stl";

bool is_named_stl(const char *name)
{
    size_t length = strlen(name);
    size_t cut = sizeof stl_ending - 1;
    return length >= cut && strcasecmp(name + length - cut, stl_ending) == 0;
}

/* What something is by its looks, where its length does not fit; the name counts only for what could be either. */
static bool looks_like_text(const struct text *given)
{
    return begins_as_sheet(given) || stl_is_ascii(given) || (!has_nul(given) && !is_named_stl(given->name));
}

/* A text's bytes are tabs at least, so one that is taken for a file of facets has a count of 151 million: nobody sends 7.5 GB through a
   pipe, and who sends a text without an end is answered. */
bool stl_may_fit(const struct text *given)
{
    const uint8_t *count = given->bytes + STL_COUNT_AT;
    bool of_text = count[0] >= '\t' && count[1] >= '\t' && count[2] >= '\t' && count[3] >= '\t';
    return given->kind == FACETS || !of_text || !looks_like_text(given);
}

static enum why why_of(const struct text *given)
{
    return given->kind == FACETS ? ASKED_FOR : stl_is_well_sized(given) ? WELL_SIZED : has_nul(given) ? HAS_NUL : NAMED_SO;
}

/* ---- The text of its sheet ---- */

/* Writes the answer's line, as importing prints it, where there is no text. */
static void put_answer(struct text *sheet, uint32_t number)
{
    struct phrase line = {(char *)sheet->bytes, WAZELPUNT_SHEET_BYTES, 0};
    phrase_add(&line, "answer=%u,0\n", (unsigned)number);
    sheet->length = line.length;
}

/* What is longer than all that is read is refused by its size alone. */
static bool refuse_by_size(struct text *sheet, struct stl *stl)
{
    stl->refusal = wazelpunt_size_stl(stl->file.size, stl_count(stl->file.bytes));
    put_answer(sheet, stl->refusal);
    return stl->refusal != WAZELPUNT_DONE;
}

/* What importing prints, but with the line of the pitch before the text. */
static bool import_at(struct text *sheet, struct stl *stl, uint32_t pitch)
{
    static uint32_t words[WAZELPUNT_WORDS];
    static uint16_t corners[WAZELPUNT_CORNERS];
    size_t place, word_count, corner_count;
    stl->refusal = wazelpunt_read_stl(stl->file.bytes, stl->file.length, words, WAZELPUNT_WORDS, corners, WAZELPUNT_CORNERS, &place,
                                      &word_count, &corner_count);
    if (stl->refusal != WAZELPUNT_DONE) {
        put_answer(sheet, stl->refusal);
        return true;
    }
    return wazelpunt_write(words, word_count, corners, corner_count, sheet->bytes, WAZELPUNT_SHEET_BYTES, &place, &sheet->length, pitch) ==
           WAZELPUNT_DONE;
}

static bool import(struct text *sheet, struct stl *stl)
{
    struct answer answer;
    size_t place;
    if (wazelpunt_import_stl(stl->file.bytes, stl->file.length, sheet->bytes, WAZELPUNT_SHEET_BYTES, &place, &sheet->length) !=
        WAZELPUNT_DONE) {
        return false;
    }
    stl->refusal = answer_take(sheet->bytes, sheet->length, &answer) ? answer.number : WAZELPUNT_DONE;
    return true;
}

bool stl_take(struct text *given, bool longer, uint32_t pitch)
{
    static uint8_t made[WAZELPUNT_SHEET_BYTES];
    static struct stl stl;
    if (given->kind == SHEET && !stl_is_well_sized(given) && looks_like_text(given)) {
        return true;
    }
    stl = (struct stl){.file = *given, .longer = longer, .why = why_of(given)};
    *given = (struct text){.kind = SHEET, .name = given->name, .bytes = made, .stl = &stl};
    bool done = stl.file.cut ? refuse_by_size(given, &stl) : pitch == 1 ? import(given, &stl) : import_at(given, &stl, pitch);
    given->size = given->length;
    return done;
}
