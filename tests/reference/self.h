/* The command `reference self`: the reference checked against itself. */

#ifndef SELF_H
#define SELF_H

#include <stddef.h>
#include <stdint.h>

/* Checks `count` generated surfaces, the first of them from this seed, and
   prints what was met; gives 0 where there was no fault, else 1. */
int self_run(size_t count, uint64_t seed);

#endif
