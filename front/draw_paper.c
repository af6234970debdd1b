#include "draw_paper.h"

#include <stdbool.h>
#include <string.h>

#include "output.h"

int64_t square_root(int64_t of)
{
    int64_t root = 0;
    for (int64_t bit = (int64_t)1 << 31; bit > 0; bit /= 2) {
        if ((root + bit) * (root + bit) <= of) {
            root += bit;
        }
    }
    return root;
}

void put_tenths(int64_t tenths)
{
    int64_t size = size_of(tenths);
    output(tenths < 0 ? "-" : "");
    if (size % 10 != 0) {
        output("%lld.%lld", (long long)(size / 10), (long long)(size % 10));
    } else {
        output("%lld", (long long)(size / 10));
    }
}

/* A minus parts two numbers as well as a blank does. */
void put_pair(int64_t x, int64_t y)
{
    put_tenths(x);
    output(y < 0 ? "" : " ");
    put_tenths(y);
}

void put_move(struct dot to)
{
    output("M");
    put_pair(to.x, to.y);
}

void put_line(struct dot from, struct dot to)
{
    output("l");
    put_pair(to.x - from.x, to.y - from.y);
}

void put_length(const char *name, int64_t tenths)
{
    output(" %s=\"", name);
    put_tenths(tenths);
    output("\"");
}

/* How many bytes the UTF-8 sign has that begins here, 0 where none does. Those that XML forbids or advises against, control signs and
   the last two signs of a plane, are none. */
static size_t sign_length(const unsigned char *at)
{
    size_t length = plain_length(at);
    bool in_last_row = length == 3 ? at[0] == 0xef && at[1] == 0xbf : length == 4 && (at[1] & 0x0f) == 0x0f && at[2] == 0xbf;
    return in_last_row && at[length - 1] >= 0xbe ? 0 : length;
}

/* The next sign of a name as it stands in XML: control bytes and bytes that are no UTF-8 escaped. Gives how many columns it takes. */
static size_t next_sign(const unsigned char **at, char form[8])
{
    static const char *const named[] = {"<&lt;", ">&gt;", "&&amp;", "\"&quot;", "\n\\n", "\t\\t"};
    unsigned char byte = **at;
    size_t length = sign_length(*at);
    for (size_t i = 0; i < sizeof named / sizeof named[0]; i++) {
        if (byte == (unsigned char)named[i][0]) {
            strcpy(form, named[i] + 1);
            *at += 1;
            return form[0] == '\\' ? 2 : 1;
        }
    }
    if (length == 0) {
        static const char digits[] = "0123456789abcdef";
        char escaped[] = {'\\', 'x', digits[byte >> 4], digits[byte & 15], 0};
        strcpy(form, escaped);
        *at += 1;
        return 4;
    }
    memcpy(form, *at, length);
    form[length] = 0;
    *at += length;
    /* the signs of East Asia are twice as wide */
    return byte >= 0xe3 ? 2 : 1;
}

size_t name_columns(const char *name)
{
    char form[8];
    size_t count = 0;
    for (const unsigned char *at = (const unsigned char *)name; *at != 0;) {
        count += next_sign(&at, form);
    }
    return count;
}

void put_name(const char *name, size_t most)
{
    char form[8];
    size_t left = name_columns(name);
    bool cut = left > most;
    const unsigned char *at = (const unsigned char *)name;
    while (left > most - cut) {
        left -= next_sign(&at, form);
    }
    output(cut ? "\xe2\x80\xa6" : "");
    while (*at != 0) {
        next_sign(&at, form);
        output("%s", form);
    }
}
