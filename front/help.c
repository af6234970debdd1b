#include "help.h"

#include <string.h>

#include "output.h"

/* Lines have at most 80 signs. */

#define STATUSES \
    "Exit status:\n" \
    "  0  done\n" \
    "  1  a sheet, an STL file or a set was refused, or a set does not pass\n" \
    "  2  wrong use, or something could not be read or written\n"

#define STATUS_CLOSED \
    "  3  only with --closed: a loop that is no rim stays open (state 2 or 3)\n"

#define STATUS_ORDER \
    "Of several sheets the worst decides: 2 before 1 before 0. What is wrong, where\n" \
    "and why is told on standard error.\n"

#define STATUS_ORDER_JSON \
    "Of several sheets the worst decides: 2 before 1 before 0. What is refused or\n" \
    "fails is told on standard error; with --json only what fails, and the rest in\n" \
    "the objects.\n"

#define STATUS_ORDER_CLOSED \
    "Of several sheets the worst decides: 2 before 1 before 3 before 0. What is\n" \
    "refused, does not pass or fails is told on standard error; with --json only\n" \
    "what fails, and the rest in the objects. With --quiet nothing is said of loops\n" \
    "that stay open.\n"

#define STATES \
    "States of a loop:\n" \
    "  1  patched  closed with the lightest triangles that are allowed\n" \
    "  2  long     it has more than 64 edges: LEFT OPEN\n" \
    "  3  open     nothing that closes it is allowed, since all of it would need an\n" \
    "              edge that is there already: LEFT OPEN\n" \
    "  4  rim      the border of its piece that runs furthest: it stays open by rule\n"

#define KINDS \
    "Kinds of loops:\n" \
    "  rim        the loop of its piece that runs furthest\n" \
    "  tide pool  no rim, and it has a point in common with the rim of its own piece\n" \
    "  lake       no rim, and it has none in common with it\n"

#define NAMES \
    " is a file, or - for standard input; without any, standard input is read.\n" \
    "A file whose name begins with - is given as ./-NAME or after --.\n"

#define EITHER \
    "A sheet is given as its text, or as a binary STL file of up to 1,024 facets; its\n" \
    "bytes tell which it is.\n"

#define SHEETS \
    "SHEET" NAMES EITHER

#define PITCH \
    "      --pitch N  the pitch of STL files, in plate units: 1, 2, 5 or 10; without\n" \
    "                 it 1. A text says its own, and is not taken together with this\n"

#define HEADINGS \
    "With several sheets each output comes after a line `# NAME`.\n"

static const char all[] =
    "wazelpunt: find the gaps in a triangle surface and close them\n"
    "\n"
    "  wazelpunt list [SHEET...]             the loops of sheets and their patches\n"
    "      [--quiet] [--loops] [--json [--patches]] [--closed] [--pitch N]\n"
    "  wazelpunt report [SHEET...]           their pieces, rims, tide pools and lakes\n"
    "      [--quiet] [--json | --entries] [--pitch N]\n"
    "  wazelpunt check SHEET [PATCHES]       judge a patch set for a sheet\n"
    "  wazelpunt check --beside SHEET...     judge the set beside each sheet\n"
    "      [--quiet] [--json] [--closed] [--pitch N]\n"
    "  wazelpunt rewrite [SHEET...]          read sheets and write them again\n"
    "      [--quiet] [--pitch N]\n"
    "  wazelpunt import [FILE...]            binary STL files as texts of sheets\n"
    "      [--quiet] [--pitch N]\n"
    "  wazelpunt draw [SHEET...]             a picture (SVG) of sheets and patches\n"
    "      [--quiet] [--plan] [--loops] [--pitch N]\n"
    "  wazelpunt example [patches]           a sample sheet, or its patch set\n"
    "  wazelpunt help [COMMAND]              this, or more on a command\n"
    "  wazelpunt --version                   the version\n"
    "\n"
    EITHER
    "\n"
    "Coordinates go to multiples of the pitch, which is 1, 2, 5 or 10 plate units of\n"
    "0.1 mm. A text says its pitch; for an STL file --pitch does, and without it the\n"
    "pitch is 1.\n"
    "\n"
    "The short forms of --help, --quiet and --version are -h, -q and -V. Results go\n"
    "to standard output, and what is said of them to standard error.\n"
    "\n"
    "To begin with:\n"
    "  wazelpunt example >plate.sheet\n"
    "  wazelpunt list plate.sheet\n"
    "  wazelpunt draw plate.sheet >plate.svg\n"
    "\n"
    STATES
    "\n"
    KINDS
    "\n"
    STATUSES
    STATUS_CLOSED
    STATUS_ORDER_CLOSED;

static const char list[] =
    "wazelpunt list [--quiet] [--loops] [--json [--patches]] [--closed] [--pitch N]\n"
    "               [SHEET...]\n"
    "\n"
    "Lists the loops of open edges of sheets, and the triangles that close them.\n"
    SHEETS
    HEADINGS
    "\n"
    "  -q, --quiet    say nothing of a sheet that is listed\n"
    "      --loops    say of each loop in which piece it lies, how long it is, and\n"
    "                 where it begins; without this that is said of loops that stay\n"
    "                 open, of at most five of a state\n"
    "      --json     an object a line for each sheet, instead of its listing\n"
    "      --patches  with --json: each loop also has the triangles that close it\n"
    "      --closed   end with status 3 if a loop that is no rim stays open\n"
    PITCH
    "\n"
    "A listing:\n"
    "  answer=0,0     the answer's number and place: 0,0 is done\n"
    "  loops=2        how many loops there are; they are counted from 0\n"
    "  loop=3,1,100,4,0,40\n"
    "                 a loop: how many edges it has, its state, its patch's weight,\n"
    "                 the half-edge that it begins with, its piece, its run\n"
    "  ring=4,3,5     the points around it, the two of that half-edge first\n"
    "  patch=4,5,3    a triangle that closes it; a line for each\n"
    "\n"
    "Triangle t has the half-edges 3t, 3t+1 and 3t+2, each from a corner to the next.\n"
    "A piece is all triangles that hang together by edges; pieces are counted from 0\n"
    "in the order of their first triangles. The run of a loop is how far it goes on\n"
    "the grid: in x, in y and in z, edge by edge, all added, in plate units.\n"
    "\n"
    STATES
    "\n"
    "Examples:\n"
    "  wazelpunt list plate.sheet\n"
    "  wazelpunt list --loops plate.sheet >/dev/null\n"
    "  wazelpunt list --pitch 5 part.stl\n"
    "  wazelpunt list --quiet --closed *.sheet >listings && echo all holes are closed\n"
    "\n"
    STATUSES
    STATUS_CLOSED
    STATUS_ORDER_CLOSED;

static const char report[] =
    "wazelpunt report [--quiet] [--json | --entries] [--pitch N] [SHEET...]\n"
    "\n"
    "Reports the pieces of sheets, each with its rim, its tide pools and its lakes,\n"
    "in words on standard output. Of a sheet that is refused the answer is printed.\n"
    SHEETS
    HEADINGS
    "\n"
    "  -q, --quiet    say nothing of a sheet whose entries are printed; of other\n"
    "                 sheets that are reported nothing is said anyway\n"
    "      --json     an object a line for each sheet, instead of its report\n"
    "      --entries  the entries of the report, by their numbers, instead of words\n"
    PITCH
    "\n"
    "A report, here broken into lines:\n"
    "  4 pieces, 1 closed: 3 rims, 2 tide pools, 1 lake\n"
    "                 how much there is, and behind that the loops that stay open\n"
    "  piece 0: rim loop 2 of 24 edges, run 1,492 plate units; 2 tide pools, 1 lake\n"
    "                 a piece: which loop is its rim, and how much lies in it\n"
    "    loop 0, tide pool, patched: 4 edges, run 316 plate units; begins with\n"
    "    half-edge 22 of triangle 7, from point 4 to point 11\n"
    "                 a tide pool or a lake of that piece: its state, its size, and\n"
    "                 where it begins\n"
    "  piece 3: closed\n"
    "                 a piece that has no loop\n"
    "\n"
    "The entries of a report:\n"
    "  answer=0,0     the answer's number and place: 0,0 is done\n"
    "  entries=3      how many entries there are\n"
    "  entry=0,0      an entry: its kind and a number. Kind 0 is a piece; behind it\n"
    "  entry=1,0      come its own loops, each by its number: kind 1 is the rim of\n"
    "  entry=3,1      the piece, 2 a tide pool, 3 a lake\n"
    "\n"
    KINDS
    "\n"
    STATES
    "\n"
    "Pieces, loops, runs and half-edges are those of list; see wazelpunt list --help.\n"
    "\n"
    "Examples:\n"
    "  wazelpunt report plate.sheet\n"
    "  wazelpunt report *.sheet >resurvey\n"
    "  wazelpunt report --quiet --entries plate.sheet\n"
    "\n"
    STATUSES
    STATUS_ORDER_JSON;

static const char check[] =
    "wazelpunt check [--quiet] [--json] [--closed] [--pitch N] SHEET [PATCHES]\n"
    "wazelpunt check [--quiet] [--json] [--closed] [--pitch N] --beside SHEET...\n"
    "\n"
    "Judges a patch set for a sheet, and prints the answer's number and place:\n"
    "answer=0,0 if the set passes.\n"
    "SHEET and PATCHES are files; one of them may be - for standard input. Without\n"
    "PATCHES the set beside the sheet is judged: plate.patches for plate.sheet, and\n"
    "for plate.stl. A file whose name begins with - is given as ./-NAME or after --.\n"
    EITHER
    "\n"
    "  -q, --quiet    say nothing of a set that passes\n"
    "      --json     an object a line for each sheet, instead of its answer\n"
    "      --closed   end with status 3 if a set that passes leaves a loop open that\n"
    "                 is no rim\n"
    "      --beside   any number of sheets, each with the set beside it; with several\n"
    "                 each answer comes after a line `# NAME`\n"
    PITCH
    "\n"
    "A patch set:\n"
    "  states=2       as many states as the sheet has loops\n"
    "  s=4            the state of a loop, in the order in which list lists them\n"
    "  s=1\n"
    "  triangles=1    the triangles of all patched loops, loop after loop\n"
    "  t=4,5,3        a triangle: three points, by their numbers\n"
    "\n"
    STATES
    "\n"
    "Examples:\n"
    "  wazelpunt check plate.sheet plate.patches\n"
    "  wazelpunt check --quiet --beside *.sheet\n"
    "\n"
    STATUSES
    STATUS_CLOSED
    STATUS_ORDER_CLOSED;

static const char rewrite[] =
    "wazelpunt rewrite [--quiet] [--pitch N] [SHEET...]\n"
    "\n"
    "Reads sheets and writes their texts again. A text that is accepted comes out as\n"
    "it was, byte for byte; of a binary STL file the text of its sheet is printed,\n"
    "and of what is refused the answer. Loops are not looked for.\n"
    SHEETS
    HEADINGS
    "\n"
    "  -q, --quiet    say nothing of a binary STL file that is written as a sheet; of\n"
    "                 other sheets nothing is said anyway\n"
    PITCH
    "\n"
    "A sheet has up to 1,024 points and 1,024 triangles, each line ended by a line\n"
    "feed and without blanks:\n"
    "  pitch=5        the pitch of its grid, 2, 5 or 10; at pitch 1 there is no such\n"
    "                 line, and points= comes first\n"
    "  points=3       how many points there are\n"
    "  p=00000000,00000000,00000000\n"
    "  p=3f800000,00000000,00000000\n"
    "  p=00000000,3f800000,00000000\n"
    "                 a point: x, y and z, each by the bits of a binary32 number in\n"
    "                 eight digits (0-9, a-f); 3f800000 is 1\n"
    "  triangles=1    how many triangles there are\n"
    "  t=0,1,2        a triangle: three points, by their numbers from 0\n"
    "\n"
    "Example:\n"
    "  wazelpunt rewrite plate.sheet | cmp - plate.sheet\n"
    "\n"
    STATUSES
    STATUS_ORDER;

static const char import[] =
    "wazelpunt import [--quiet] [--pitch N] [FILE...]\n"
    "\n"
    "Reads binary STL files and prints the texts of their sheets. Each is taken for\n"
    "binary STL whatever it looks like; where it is none, the answer is printed.\n"
    "FILE" NAMES
    "With several files each output comes after a line `# NAME`.\n"
    "\n"
    "  -q, --quiet    say nothing of a file that is read\n"
    "      --pitch N  the pitch of the sheets, in plate units: 1, 2, 5 or 10; without\n"
    "                 it 1, of which a text has no line\n"
    "\n"
    "Such a file has up to 1,024 facets, and its length has to fit:\n"
    "  80 bytes       of any kind; they are not looked at\n"
    "  4 bytes        how many facets there are, lowest byte first\n"
    "  50 bytes       a facet: its normal, three corners of three binary32 numbers,\n"
    "                 and an attribute; normal and attribute are not looked at\n"
    "\n"
    "Facet k becomes triangle k. Corners with the same three numbers, by their bits,\n"
    "are one point, -0 being 0; there may be up to 1,024, numbered as they are met. A\n"
    "number of the file is taken as one of the sheet, in units of 0.1 mm; nothing is\n"
    "converted.\n"
    "\n"
    "A pipe is read to its end, or until it is longer than its count says, which may\n"
    "be after 214 GB.\n"
    "\n"
    "ASCII STL is not read. It is made binary by\n"
    "  admesh --no-check --write-binary-stl=OUT.stl IN.stl\n"
    "which leaves the facets as they are, or by MeshLab, with \"Binary encoding\"\n"
    "ticked in its export dialog. MeshLab drops facets with equal corners, and takes\n"
    "a file of several solids. admesh wants one, with solid on its first line and\n"
    "line feeds; of another file it writes nothing, and may not come to an end.\n"
    "\n"
    "Examples:\n"
    "  wazelpunt import part.stl >part.sheet\n"
    "  wazelpunt import --pitch 5 part.stl >schoolroom.sheet\n"
    "\n"
    STATUSES
    STATUS_ORDER;

static const char draw[] =
    "wazelpunt draw [--quiet] [--plan] [--loops] [--pitch N] [SHEET...]\n"
    "\n"
    "Draws sheets with their loops and patches: one picture, in SVG, on standard\n"
    "output.\n"
    SHEETS
    "Several sheets get a panel each, with its name; one that is refused or cannot\n"
    "be read, a panel that says so. Alone, such a sheet is not drawn.\n"
    "The line of a loop goes by its state. A lake has a double line, a tide pool has\n"
    "a diamond where it meets the rim of its piece, and a rim has neither; a legend\n"
    "names what there is.\n"
    "\n"
    "  -q, --quiet    say nothing of a sheet that is drawn\n"
    "      --plan     seen straight from above\n"
    "      --loops    with an arrow along the half-edge that each loop begins with,\n"
    "                 and all numbers of loops that have room; and say of each loop\n"
    "                 what list --loops says\n"
    PITCH
    "\n"
    STATES
    "\n"
    KINDS
    "\n"
    "Examples:\n"
    "  wazelpunt draw plate.sheet >plate.svg\n"
    "  wazelpunt draw --plan *.sheet >all.svg\n"
    "  wazelpunt draw --quiet --loops plate.sheet >loops.svg\n"
    "\n"
    STATUSES
    STATUS_ORDER;

static const char example[] =
    "wazelpunt example [patches]\n"
    "\n"
    "Prints a sample sheet, a plate with a hole, or its patch set.\n"
    "\n"
    "Examples:\n"
    "  wazelpunt example | wazelpunt list\n"
    "  wazelpunt example >plate.sheet\n"
    "  wazelpunt example patches | wazelpunt check plate.sheet -\n"
    "\n"
    "Exit status:\n"
    "  0  done\n"
    "  2  wrong use, or it could not be written\n";

static const char help[] =
    "wazelpunt help [COMMAND]\n"
    "wazelpunt COMMAND --help\n"
    "\n"
    "Prints what there is, or more on a command: list, report, check, rewrite,\n"
    "import, draw, example.\n";

void help_print_all(void)
{
    output_bytes(all, sizeof all - 1);
}

bool help_print(const char *command)
{
    static const struct {
        const char *command;
        const char *text;
    } texts[] = {
        {"list", list},     {"report", report}, {"check", check},     {"rewrite", rewrite},
        {"import", import}, {"draw", draw},     {"example", example}, {"help", help},
    };
    for (size_t t = 0; t < sizeof texts / sizeof texts[0]; t++) {
        if (strcmp(command, texts[t].command) == 0) {
            output_bytes(texts[t].text, strlen(texts[t].text));
            return true;
        }
    }
    return false;
}
