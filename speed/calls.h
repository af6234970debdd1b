/* A call that is counted stands between BEGIN and END, which is given its name. Under callgrind what it cost is left in a dump of that
   name; compiled as EMULATED, these are the marks that speed/count.c looks for. */
#ifndef CALLS_H
#define CALLS_H

#ifdef EMULATED
#include "marks.h"
#define MARK(number) __asm__ volatile("nopl %c0(%%rax,%%rax)" : : "i"(number) : "memory")
#define BEGIN MARK(MARK_BEGIN)
#define END(name) MARK(MARK_END)
#else
#include <valgrind/callgrind.h>
#define BEGIN \
    do { \
        CALLGRIND_START_INSTRUMENTATION; \
        CALLGRIND_ZERO_STATS; \
    } while (0)
#define END(name) \
    do { \
        CALLGRIND_DUMP_STATS_AT(name); \
        CALLGRIND_STOP_INSTRUMENTATION; \
    } while (0)
#endif

#endif
