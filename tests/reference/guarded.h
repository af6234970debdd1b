/* Lent buffers that stand between guards: what lies before and behind a buffer has to stay as it was. */
#ifndef GUARDED_H
#define GUARDED_H

#include <stdint.h>

#include "generate.h"

#define ROOM 4096
#define GUARD 16

/* a buffer of so many numbers, with what stands before and behind it */
#define GUARDED(count) ((count) + 2 * GUARD)

/* the lent buffers 1 to 3, each between guards */
struct lent_survey {
    int32_t grid[GUARDED(ROOM)];
    uint16_t rings[GUARDED(ROOM)];
    uint16_t lengths[GUARDED(ROOM)];
};

/* Fills what is lent, and its guards, with bytes that nothing would leave there by chance. */
static inline void fill(void *lent, size_t size, struct generator *generator) {
    uint8_t *bytes = lent;
    for (size_t i = 0; i < size; i++) bytes[i] = (uint8_t)generate_bits(generator);
}

#endif
