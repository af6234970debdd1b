#define _POSIX_C_SOURCE 200809L

#include "input.h"

#include <errno.h>
#include <fcntl.h>
#include <poll.h>
#include <string.h>
#include <sys/stat.h>
#include <unistd.h>

#include "output.h"
#include "stl.h"

const char input_closed[] = "standard input is closed";
const char input_unknown[] = "the library printed what is not known here";
const char input_pitched[] = "--pitch is for STL files, and this is the text of a sheet, which says its own pitch: pitch=5 on its first "
                             "line for one, or no such line for 1; leave --pitch out";

/* The longest file of facets is longer than the longest text of a sheet, and either may be given. */
static uint8_t sheet_room[WAZELPUNT_STL_BYTES + 1];
static uint8_t set_room[WAZELPUNT_SET_BYTES + 1];

/* Reads some bytes, and waits for them where they are not there yet. Gives how many, 0 at the end, or -1, with errno. */
static ssize_t read_some(int descriptor, uint8_t *bytes, size_t room)
{
    for (;;) {
        ssize_t count = read(descriptor, bytes, room);
        if (count >= 0) {
            return count;
        }
        if (errno != EINTR && (errno != EAGAIN || !wait_for(descriptor, POLLIN))) {
            return -1;
        }
    }
}

/* Reads until the room is full or the input ends; false, with errno, if it cannot be read. */
static bool read_all(int descriptor, struct text *text, size_t room)
{
    ssize_t count = 1;
    while (text->length < room && count > 0) {
        count = read_some(descriptor, text->bytes + text->length, room - text->length);
        text->length += count > 0 ? (size_t)count : 0;
    }
    text->cut = text->length == room;
    return count >= 0;
}

/* How long a file is that goes on behind what was read, as the system tells it; 0 where it does not: it is no regular file, or one that
   grows, or that has no length of its own. */
static uint64_t told_size(int descriptor, const struct stat *about, size_t length)
{
    off_t at = S_ISREG(about->st_mode) ? lseek(descriptor, 0, SEEK_CUR) : -1;
    return at < 0 || at > about->st_size ? 0 : length + (uint64_t)(about->st_size - at);
}

/* Counts the bytes that follow, to the end or until there are more than the count of facets says: then its length does not fit whatever
   comes. False, with errno, if they cannot be read. */
static bool count_on(int descriptor, struct text *text, bool *longer)
{
    static uint8_t passed[65536];
    uint64_t most = stl_size(stl_count(text->bytes));
    ssize_t count = 1;
    text->size = text->length;
    while (text->size <= most && count > 0) {
        count = read_some(descriptor, passed, sizeof passed);
        text->size += count > 0 ? (uint64_t)count : 0;
    }
    *longer = text->size > most;
    return count >= 0;
}

static const char *read_descriptor(int descriptor, uint32_t pitch, struct text *text)
{
    static const char *const directory[] = {
        [SHEET] = "is a directory, not a sheet",
        [SET] = "is a directory, not a patch set",
        [FACETS] = "is a directory, not an STL file",
    };
    struct stat about;
    bool longer = false;
    if (fstat(descriptor, &about) != 0) {
        return strerror(errno);
    }
    if (S_ISDIR(about.st_mode)) {
        return directory[text->kind];
    }
    if (!read_all(descriptor, text, text->kind == SET ? sizeof set_room : sizeof sheet_room)) {
        return strerror(errno);
    }
    text->size = text->cut ? told_size(descriptor, &about, text->length) : text->length;
    if (text->cut && text->size == 0 && text->kind != SET && stl_may_fit(text) && !count_on(descriptor, text, &longer)) {
        return strerror(errno);
    }
    if (text->kind == SET) {
        return NULL;
    }
    if (!stl_take(text, longer, pitch == 0 ? 1 : pitch)) {
        return input_unknown;
    }
    return pitch != 0 && text->stl == NULL && begins_as_sheet(text) ? input_pitched : NULL;
}

/* Opening waits where the file is a fifo, so a signal can break it off. */
static int open_file(const char *name)
{
    int descriptor;
    do {
        descriptor = open(name, O_RDONLY | O_CLOEXEC | O_NOCTTY);
    } while (descriptor < 0 && errno == EINTR);
    return descriptor;
}

const char *input_read(enum kind kind, const char *name, uint32_t pitch, struct text *text)
{
    *text = (struct text){.kind = kind, .name = name, .bytes = kind == SET ? set_room : sheet_room};
    if (strcmp(name, "-") == 0) {
        return was_closed(STDIN_FILENO) ? input_closed : read_descriptor(STDIN_FILENO, pitch, text);
    }
    int descriptor = open_file(name);
    if (descriptor < 0) {
        return strerror(errno);
    }
    const char *error = read_descriptor(descriptor, pitch, text);
    close(descriptor);
    return error;
}
