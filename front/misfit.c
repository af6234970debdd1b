#include "misfit.h"

#include <string.h>

#include "causes.h"
#include "stl.h"

static bool has_count(const struct stl *stl)
{
    return stl->file.length >= WAZELPUNT_STL_FRONT;
}

/* ---- How long it is ---- */

static void add_why(const struct stl *stl, struct phrase *said)
{
    const struct text *file = &stl->file;
    if (stl->why == HAS_NUL) {
        const uint8_t *nul = memchr(file->bytes, 0, file->length);
        phrase_add(said, "taken for binary STL, since it has a NUL byte, byte %zu: ", (size_t)(nul - file->bytes));
    } else if (stl->why == NAMED_SO) {
        phrase_add(said, "taken for binary STL, since its name ends in .stl: ");
    }
}

void misfit_add(const struct stl *stl, struct phrase *said)
{
    uint64_t size = stl->file.size;
    add_why(stl, said);
    if (!has_count(stl)) {
        phrase_add_many(said, "it has ", size, "byte");
        phrase_add(said, ", and a binary STL file has %d at least", WAZELPUNT_STL_FRONT);
        return;
    }
    uint32_t count = stl_count(stl->file.bytes);
    uint64_t due = stl_size(count);
    phrase_add_many(said, "its count says ", count, "facet");
    phrase_add_many(said, ": that takes ", due, "byte");
    if (stl->longer) {
        phrase_add(said, ", and it goes on behind them");
    } else {
        phrase_add(said, ", and it has ");
        phrase_add_number(said, size);
        phrase_add(said, ": ");
        phrase_add_number(said, size < due ? due - size : size - due);
        phrase_add(said, " too %s", size < due ? "few" : "many");
    }
}

/* ---- Why ---- */

/* How many facets there are room for in a length, and how many bytes are left over. */
struct room {
    uint64_t facets;
    uint64_t rest;
};

static struct room room_in(uint64_t size)
{
    uint64_t behind = size - WAZELPUNT_STL_FRONT;
    return (struct room){behind / WAZELPUNT_STL_FACET_BYTES, behind % WAZELPUNT_STL_FACET_BYTES};
}

static uint32_t turned_round(uint32_t count)
{
    return count >> 24 | (count >> 8 & 0xff00) | (count << 8 & 0xff0000) | count << 24;
}

/* Whether a file is so much shorter than its count says that the count is wrong rather than the rest lost: some hundred times, or half where
   the count is so high that it hardly counts anything, as 0xffffffff is. */
static bool is_far_off(uint32_t count, uint64_t size)
{
    return stl_size(count) / (count > 4000000000 ? 2 : 100) > size;
}

/* Only a count that fits when it is turned round is certain. */
static void add_length_cause(const struct stl *stl, struct phrase *cause)
{
    uint32_t count = stl_count(stl->file.bytes);
    uint64_t size = stl->file.size;
    uint64_t due = stl_size(count);
    struct room room = room_in(size);
    if (!stl->longer && size == stl_size(turned_round(count))) {
        phrase_add_many(cause, "the count, bytes 80 to 83, is written with its highest byte first: so read, it tells ",
                        turned_round(count), "facet");
        phrase_add(cause, ", which fits");
        return;
    }
    if (is_far_off(count, size)) {
        phrase_add(cause, "more likely the count, bytes 80 to 83, is wrong, or this is no STL file, than that so much is cut off");
    } else if (size > due) {
        phrase_add(cause, "perhaps bytes were put behind the %s, from byte %llu on, or the count, bytes 80 to 83, is too low",
                   count > 0 ? "last facet" : "count", (unsigned long long)due);
    } else {
        phrase_add(cause, "perhaps the file is cut off");
        if (room.rest > 0) {
            phrase_add(cause, ", within facet %llu, which has %llu of its %d bytes", (unsigned long long)room.facets,
                       (unsigned long long)room.rest, WAZELPUNT_STL_FACET_BYTES);
        }
        phrase_add(cause, ", or its count, bytes 80 to 83, is wrong");
    }
    if (room.rest == 0 && !stl->longer) {
        phrase_add_many(cause, ": there is room for ", room.facets, "facet");
    } else if (!is_far_off(count, size)) {
        phrase_add(cause, ", or this is no STL file");
    }
}

/* Below 16,777,216 facets a byte of the count is NUL. */
static void add_no_nul(const struct text *file, struct phrase *cause)
{
    phrase_add(cause, "this is hardly a binary STL file: none of its ");
    if (file->cut) {
        phrase_add_many(cause, "first ", file->length, "byte");
    } else {
        phrase_add(cause, "bytes");
    }
    phrase_add(cause, " is NUL, and below 16,777,216 facets one of the count's is");
}

void misfit_cause_add(const struct stl *stl, struct phrase *cause)
{
    if (stl->file.size == 0) {
        phrase_add(cause, "the file is empty");
    } else if (kind_add(&stl->file, cause)) {
        return;
    } else if (!has_count(stl)) {
        phrase_add(cause, "the file is cut off before its first facet, or it is no STL file");
    } else if (!has_nul(&stl->file)) {
        add_no_nul(&stl->file, cause);
    } else {
        add_length_cause(stl, cause);
    }
}
