#include "sample.h"

const char sample_sheet[] =
    "points=6\n"
    "p=00000000,00000000,00000000\n"
    "p=41f00000,00000000,00000000\n"
    "p=00000000,41f00000,00000000\n"
    "p=40a00000,40a00000,00000000\n"
    "p=41700000,40a00000,00000000\n"
    "p=40a00000,41700000,00000000\n"
    "triangles=6\n"
    "t=0,1,3\n"
    "t=1,4,3\n"
    "t=1,2,4\n"
    "t=2,5,4\n"
    "t=2,0,5\n"
    "t=0,3,5\n";

const char sample_patches[] =
    "states=2\n"
    "s=4\n"
    "s=1\n"
    "triangles=1\n"
    "t=4,5,3\n";
