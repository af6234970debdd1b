/* The marks between which speed/count.c counts: an instruction that does nothing, with a number that no compiler gives it. */
#ifndef MARKS_H
#define MARKS_H

#define MARK_BEGIN 0x00015a57
#define MARK_END 0x00025a57

/* The instruction `nopl NUMBER(%rax,%rax)` before its number. */
#define MARK_BYTES "\x0f\x1f\x84\x00"

#endif
