/* Standard output and standard error: one buffer for what is printed, every write checked, and sentences for people. */
#ifndef OUTPUT_H
#define OUTPUT_H

#include <stdbool.h>
#include <stddef.h>
#include <stdint.h>

/* What the command ends with. */
enum status { STATUS_DONE = 0, STATUS_ANSWERED = 1, STATUS_FAILED = 2, STATUS_OPEN = 3 };

/* Fills the descriptors 0 to 2 that are closed with /dev/null, so that no file gets their numbers, and ignores SIGPIPE. Comes first. */
void output_begin(void);

/* Whether the descriptor, 0 to 2, was closed at the start. */
bool was_closed(int descriptor);

/* Waits until a descriptor that would block is ready for these events of poll; false if that cannot be waited for. */
bool wait_for(int descriptor, short events);

/* Prints bytes on standard output. It never fails to its caller: a failed write is said, and ends the program with status 2. */
void output_bytes(const void *bytes, size_t count);

/* Prints a text on standard output, as printf does and as output_bytes fails. */
void output(const char *format, ...) __attribute__((format(printf, 1, 2)));

/* Writes what is still in the buffer and closes standard output; a failure is said, and ends the program with status 2. */
void output_end(void);

/* Says one line on standard error, begun with `wazelpunt: `, behind all that was printed before; if it cannot be said, the program ends
   with status 2. */
void say(const char *format, ...) __attribute__((format(printf, 1, 2)));

/* Says one line more, indented by two blanks. */
void say_more(const char *format, ...) __attribute__((format(printf, 1, 2)));

/* A text that grows in a lent room; what does not fit is cut off. */
struct phrase {
    char *text;
    size_t room;
    size_t length;
};

void phrase_add(struct phrase *phrase, const char *format, ...) __attribute__((format(printf, 2, 3)));

/* Adds a number with its digits parted by commas: `150,994,944`. */
void phrase_add_number(struct phrase *phrase, uint64_t number);

/* Adds how many there are of something: `1 facet`, `1,024 facets`. */
void phrase_add_many(struct phrase *phrase, const char *before, uint64_t count, const char *one);

/* Adds bytes, those that are not printed in ASCII as \n, \t or \xHH. */
void phrase_add_bytes(struct phrase *phrase, const void *bytes, size_t count);

/* How many bytes the UTF-8 sequence has that begins here, 1 to 4; 0 if none does. The bytes end with a NUL, which continues nothing. */
size_t utf_8_length(const uint8_t *at);

/* The same, and 0 also for control signs, which would steer a terminal. */
size_t plain_length(const uint8_t *at);

/* A file's name for one line of text, control signs and bytes that are no UTF-8 escaped, and an empty one as ''. It stays until the second
   call after this one. */
const char *shown_name(const char *name);

/* The same for messages, where `-` is called standard input. */
const char *said_name(const char *name);

#endif
