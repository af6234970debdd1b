/* The files of facets (binary STL) on which reading is counted and its stack is measured, always the same. */
#ifndef FILES_H
#define FILES_H

#include <stddef.h>
#include <stdint.h>

/* Lays the file of that number into GENERATE_STL_ROOM bytes and leaves its length; gives its name, or 0 where there is no file of that
   number. */
const char *file_make(size_t number, uint8_t *file, size_t *length);

#endif
