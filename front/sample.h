/* The sample: the plate with a hole of examples/plate.sheet, and its patch set. */
#ifndef SAMPLE_H
#define SAMPLE_H

extern const char sample_sheet[];
extern const char sample_patches[];

#endif
