#define _POSIX_C_SOURCE 200809L

#include "output.h"

#include <errno.h>
#include <fcntl.h>
#include <poll.h>
#include <signal.h>
#include <stdarg.h>
#include <stdio.h>
#include <stdlib.h>
#include <string.h>
#include <unistd.h>

/* No file has a longer name, and each byte of it takes four at most where it is shown. */
#define LONGEST_NAME 4096
#define NAME_ROOM (4 * LONGEST_NAME + 4)

/* Two names, and a sentence. */
#define SENTENCE_ROOM (2 * NAME_ROOM + 8192)

static bool closed[3];
static char buffer[65536];
static size_t buffered;

void output_begin(void)
{
    for (int descriptor = 0; descriptor < 3; descriptor++) {
        if (fcntl(descriptor, F_GETFD) != -1 || errno != EBADF) {
            continue;
        }
        closed[descriptor] = true;
        if (open("/dev/null", O_RDWR) != descriptor) {
            say("descriptor %d is closed, and /dev/null cannot be opened in its place", descriptor);
            exit(STATUS_FAILED);
        }
    }
    signal(SIGPIPE, SIG_IGN);
}

bool was_closed(int descriptor)
{
    return closed[descriptor];
}

bool wait_for(int descriptor, short events)
{
    struct pollfd waiting = {.fd = descriptor, .events = events};
    return poll(&waiting, 1, -1) >= 0 || errno == EINTR;
}

static bool write_all(int descriptor, const char *bytes, size_t count)
{
    while (count > 0) {
        ssize_t written = write(descriptor, bytes, count);
        if (written > 0) {
            bytes += written;
            count -= (size_t)written;
        } else if (written < 0 && errno == EAGAIN) {
            if (!wait_for(descriptor, POLLOUT)) {
                return false;
            }
        } else if (written == 0 || errno != EINTR) {
            return false;
        }
    }
    return true;
}

/* Says why standard output is no good, and ends the program. What is still in the buffer is lost. */
static _Noreturn void stop(const char *why)
{
    buffered = 0;
    say("standard output %s", why);
    exit(STATUS_FAILED);
}

static _Noreturn void stop_by_error(int error)
{
    static char why[256];
    struct phrase phrase = {why, sizeof why, 0};
    phrase_add(&phrase, "cannot be written: %s", strerror(error));
    stop(why);
}

static void flush(void)
{
    if (buffered > 0 && closed[STDOUT_FILENO]) {
        stop("is closed");
    }
    if (!write_all(STDOUT_FILENO, buffer, buffered)) {
        stop_by_error(errno);
    }
    buffered = 0;
}

void output_bytes(const void *bytes, size_t count)
{
    const char *from = bytes;
    while (count > 0) {
        if (buffered == sizeof buffer) {
            flush();
        }
        size_t fits = sizeof buffer - buffered;
        size_t part = count < fits ? count : fits;
        memcpy(buffer + buffered, from, part);
        buffered += part;
        from += part;
        count -= part;
    }
}

/* Formats into what is left of the buffer; false if it does not fit. */
static bool output_fits(const char *format, va_list values)
{
    size_t room = sizeof buffer - buffered;
    int length = vsnprintf(buffer + buffered, room, format, values);
    if (length < 0 || (size_t)length >= room) {
        return false;
    }
    buffered += (size_t)length;
    return true;
}

void output(const char *format, ...)
{
    va_list values;
    va_start(values, format);
    bool fits = output_fits(format, values);
    va_end(values);
    if (fits) {
        return;
    }
    flush();
    va_start(values, format);
    fits = output_fits(format, values);
    va_end(values);
    if (!fits) {
        stop("would get a text that is longer than its buffer");
    }
}

void output_end(void)
{
    flush();
    if (!closed[STDOUT_FILENO] && close(STDOUT_FILENO) != 0 && errno != EINTR) {
        stop_by_error(errno);
    }
}

static void phrase_add_list(struct phrase *phrase, const char *format, va_list values)
{
    size_t room = phrase->room - phrase->length;
    int length = vsnprintf(phrase->text + phrase->length, room, format, values);
    if (length > 0) {
        phrase->length += (size_t)length < room ? (size_t)length : room - 1;
    }
}

void phrase_add(struct phrase *phrase, const char *format, ...)
{
    va_list values;
    va_start(values, format);
    phrase_add_list(phrase, format, values);
    va_end(values);
}

void phrase_add_number(struct phrase *phrase, uint64_t number)
{
    if (number < 1000) {
        phrase_add(phrase, "%u", (unsigned)number);
    } else {
        phrase_add_number(phrase, number / 1000);
        phrase_add(phrase, ",%03u", (unsigned)(number % 1000));
    }
}

void phrase_add_many(struct phrase *phrase, const char *before, uint64_t count, const char *one)
{
    phrase_add(phrase, "%s", before);
    phrase_add_number(phrase, count);
    phrase_add(phrase, " %s%s", one, count == 1 ? "" : "s");
}

static void say_line(const char *begin, const char *format, va_list values)
{
    static char line[SENTENCE_ROOM];
    struct phrase sentence = {line, sizeof line - 1, 0};
    phrase_add(&sentence, "%s", begin);
    phrase_add_list(&sentence, format, values);
    line[sentence.length] = '\n';
    flush();
    if (closed[STDERR_FILENO] || !write_all(STDERR_FILENO, line, sentence.length + 1)) {
        exit(STATUS_FAILED);
    }
}

void say(const char *format, ...)
{
    va_list values;
    va_start(values, format);
    say_line("wazelpunt: ", format, values);
    va_end(values);
}

void say_more(const char *format, ...)
{
    va_list values;
    va_start(values, format);
    say_line("  ", format, values);
    va_end(values);
}

void phrase_add_bytes(struct phrase *phrase, const void *bytes, size_t count)
{
    const unsigned char *from = bytes;
    for (size_t b = 0; b < count; b++) {
        if (from[b] == '\n' || from[b] == '\t') {
            phrase_add(phrase, "\\%c", from[b] == '\n' ? 'n' : 't');
        } else if (from[b] < 32 || from[b] >= 127) {
            phrase_add(phrase, "\\x%02x", (unsigned)from[b]);
        } else {
            phrase_add(phrase, "%c", from[b]);
        }
    }
}

static bool is_between(uint8_t byte, uint8_t least, uint8_t most)
{
    return byte >= least && byte <= most;
}

size_t utf_8_length(const uint8_t *at)
{
    if (at[0] < 0x80) {
        return 1;
    }
    if (is_between(at[0], 0xc2, 0xdf)) {
        return is_between(at[1], 0x80, 0xbf) ? 2 : 0;
    }
    /* no overlong forms, no surrogates, nothing above 10ffff */
    uint8_t least = at[0] == 0xe0 ? 0xa0 : at[0] == 0xf0 ? 0x90 : 0x80;
    uint8_t most = at[0] == 0xed ? 0x9f : at[0] == 0xf4 ? 0x8f : 0xbf;
    if (!is_between(at[0], 0xe0, 0xf4) || !is_between(at[1], least, most) || !is_between(at[2], 0x80, 0xbf)) {
        return 0;
    }
    if (at[0] < 0xf0) {
        return 3;
    }
    return is_between(at[3], 0x80, 0xbf) ? 4 : 0;
}

size_t plain_length(const uint8_t *at)
{
    bool control = at[0] < 32 || at[0] == 127 || (at[0] == 0xc2 && at[1] < 0xa0);
    return control ? 0 : utf_8_length(at);
}

const char *shown_name(const char *name)
{
    static char rooms[2][NAME_ROOM];
    static unsigned turn;
    turn = 1 - turn;
    struct phrase shown = {rooms[turn], NAME_ROOM, 0};
    const char *at = name;
    rooms[turn][0] = 0;
    while (*at != 0 && at < name + LONGEST_NAME) {
        size_t length = plain_length((const uint8_t *)at);
        if (length == 0) {
            phrase_add_bytes(&shown, at, 1);
            at++;
        } else {
            phrase_add(&shown, "%.*s", (int)length, at);
            at += length;
        }
    }
    phrase_add(&shown, "%s", *name == 0 ? "''" : *at == 0 ? "" : "...");
    return rooms[turn];
}

const char *said_name(const char *name)
{
    return strcmp(name, "-") == 0 ? "standard input" : shown_name(name);
}
