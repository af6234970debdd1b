/* The command wazelpunt, for people: sheets, STL files and sets are read, the proved library answers, and what it means is said. */

#define _POSIX_C_SOURCE 200809L

#include <stdlib.h>
#include <string.h>
#include <unistd.h>

#include "desk.h"
#include "draw.h"
#include "explain.h"
#include "help.h"
#include "input.h"
#include "json.h"
#include "lines.h"
#include "listing.h"
#include "output.h"
#include "report.h"
#include "sample.h"
#include "stl.h"
#include "wazelpunt.h"

/* ---- A call ---- */

enum options {
    QUIET = 1, JSON = 2, PATCHES = 4, CLOSED = 8, BESIDE = 16, PLAN = 32, LOOPS = 64, HELP = 128, VERSION = 256, AT_PITCH = 512,
    ENTRIES = 1024
};

struct call {
    const struct command *command;
    unsigned options;
    uint32_t pitch;         /* that of --pitch; 0 where that is not given */
    char **names;
    size_t count;
};

struct command {
    const char *name;
    unsigned options;
    enum status (*run)(const struct call *call);
};

static bool has(const struct call *call, enum options option)
{
    return (call->options & option) != 0;
}

static enum status wrong_use(const struct call *call, const char *sentence)
{
    say("%s: %s; see wazelpunt %s --help", call->command->name, sentence, call->command->name);
    return STATUS_FAILED;
}

/* How often standard input is named. */
static size_t count_inputs(const struct call *call)
{
    size_t times = 0;
    for (size_t n = 0; n < call->count; n++) {
        times += strcmp(call->names[n], "-") == 0;
    }
    return times;
}

/* The worse of two: 2 before 1 before 3 before 0. */
static enum status worse(enum status one, enum status other)
{
    static const int rank[] = {[STATUS_DONE] = 0, [STATUS_OPEN] = 1, [STATUS_ANSWERED] = 2, [STATUS_FAILED] = 3};
    return rank[one] > rank[other] ? one : other;
}

/* ---- One sheet ---- */

static struct text sheet;
static struct text set;
static uint8_t printed[WAZELPUNT_LISTING_BYTES];
static size_t printed_bytes;
static struct desk desk;
static struct set declared;
static struct explanation explanation;

/* Where there are several sheets, the line with the name that comes before the output of each. */
static void print_heading(const struct call *call, const char *name)
{
    if (call->count > 1) {
        output("# ");
        const char *shown = shown_name(name);
        output_bytes(shown, strlen(shown));
        output("\n");
    }
}

/* A sheet that cannot be read or, where it is named, the set of a sheet. */
static enum status tell_unread(const struct call *call, const char *name, const char *set_name, const char *error)
{
    if (has(call, JSON)) {
        json_unread(name, set_name, error);
    }
    const char *said = said_name(name);
    if (error == input_closed) {
        say("%s", error);
    } else if (set_name == NULL) {
        say("%s: %s", said, error);
    } else {
        say("%s: %s: %s", said, said_name(set_name), error);
    }
    return STATUS_FAILED;
}

/* What the library printed is not what it promises. */
static enum status tell_unknown(const struct call *call, const char *name)
{
    return tell_unread(call, name, NULL, input_unknown);
}

/* An answer that is not 0, on the sheet or on the set. */
static enum status tell_answer(const struct call *call, const struct text *of_set, struct answer answer)
{
    explain(&sheet, of_set, answer, &explanation);
    if (has(call, JSON)) {
        json_explained(&sheet, of_set, answer, &explanation);
    } else {
        explanation_say(&sheet, of_set, answer, &explanation);
    }
    return STATUS_ANSWERED;
}

/* Whether a sheet is a binary STL file that is refused, so that there is no text of it but the answer's line. */
static bool is_refused(void)
{
    return sheet.stl != NULL && sheet.stl->refusal != WAZELPUNT_DONE;
}

static struct answer refusal(void)
{
    return (struct answer){sheet.stl->refusal, 0};
}

/* Prints the answer's line of such a file, and tells it. */
static enum status tell_refused(const struct call *call, const struct text *of_set)
{
    if (!has(call, JSON)) {
        print_heading(call, sheet.name);
        output_bytes(sheet.bytes, sheet.length);
    }
    return tell_answer(call, of_set, refusal());
}

/* What a sheet was made of, where that is a binary STL file, and its pitch, where that is not 1: `binary STL, 12 facets, 8 points`,
   `pitch 5`; with what stands before and behind it, where it is anything at all. */
static const char *made_of(const char *before, const char *behind)
{
    static char made[80];
    struct phrase phrase = {made, sizeof made, 0};
    bool is_coarse = pitch_of(&sheet) != 1;
    made[0] = 0;
    if (sheet.stl == NULL && !is_coarse) {
        return made;
    }
    phrase_add(&phrase, "%s", before);
    if (sheet.stl != NULL) {
        phrase_add_many(&phrase, "binary STL, ", count_triangles(&sheet), "facet");
        phrase_add_many(&phrase, ", ", count_first(&sheet), "point");
    }
    if (is_coarse) {
        phrase_add(&phrase, "%spitch %zu", sheet.stl != NULL ? ", " : "", pitch_of(&sheet));
    }
    phrase_add(&phrase, "%s", behind);
    return made;
}

/* What a triangle of a sheet is called. */
static const char *triangle_name(void)
{
    return sheet.stl != NULL ? "facet" : "triangle";
}

/* Says what became of the loops, by a listing or by the states that a set declares, and gives the status. */
static enum status tell_loops(const struct call *call, const struct text *of_set, const struct loops *loops)
{
    static char said[4096];
    struct phrase phrase = {said, sizeof said, 0};
    if (!has(call, QUIET) && !has(call, JSON)) {
        loops_add(&phrase, loops, count_triangles(&sheet) > 0);
        const char *name = said_name(sheet.name);
        if (of_set == NULL) {
            say("%s%s: %s", name, made_of(": ", ""), said);
        } else {
            say("%s%s: %s passes: %s", name, made_of(": ", ""), said_name(of_set->name), said);
        }
        loops_say(loops, has(call, LOOPS), triangle_name());
    }
    return has(call, CLOSED) && loops_stay_open(loops) ? STATUS_OPEN : STATUS_DONE;
}

/* ---- list ---- */

static enum status list_sheet(const struct call *call, const char *name)
{
    struct answer answer;
    size_t place;
    const char *error = input_read(SHEET, name, call->pitch, &sheet);
    if (error != NULL) {
        return tell_unread(call, name, NULL, error);
    }
    if (is_refused()) {
        return tell_refused(call, NULL);
    }
    if (wazelpunt_list_text(sheet.bytes, sheet.length, printed, sizeof printed, &place, &printed_bytes) != WAZELPUNT_DONE ||
        !listing_take(printed, printed_bytes, &answer, &desk.loops)) {
        return tell_unknown(call, name);
    }
    if (!has(call, JSON)) {
        print_heading(call, name);
        output_bytes(printed, printed_bytes);
    } else if (answer.number == WAZELPUNT_DONE) {
        json_listed(&sheet, &desk.loops, has(call, PATCHES));
    }
    return answer.number == WAZELPUNT_DONE ? tell_loops(call, NULL, &desk.loops) : tell_answer(call, NULL, answer);
}

/* ---- report ---- */

/* Prints the report of a sheet in words or as its object, or says of its entries, which are printed, how much there is. */
static enum status tell_report(const struct call *call)
{
    static char said[4096];
    struct phrase phrase = {said, sizeof said, 0};
    report_add(&phrase, &desk.report, &desk.loops);
    if (has(call, JSON)) {
        json_reported(&sheet, &desk.loops, &desk.report);
    } else if (!has(call, ENTRIES)) {
        output("%s%s\n", made_of("", ": "), said);
        report_print(&desk.report, &desk.loops, triangle_name());
    } else if (!has(call, QUIET)) {
        say("%s%s: %s", said_name(sheet.name), made_of(": ", ""), said);
    }
    return STATUS_DONE;
}

static enum status report_sheet(const struct call *call, const char *name)
{
    size_t place;
    const char *error = input_read(SHEET, name, call->pitch, &sheet);
    if (error != NULL) {
        return tell_unread(call, name, NULL, error);
    }
    if (is_refused()) {
        return tell_refused(call, NULL);
    }
    struct answer answer = desk_chart(&sheet, &desk);
    /* what the charting program prints: the entries or, where there are none, the answer's line */
    bool is_plain = !has(call, JSON) && (has(call, ENTRIES) || answer.number != WAZELPUNT_DONE);
    if (is_plain &&
        wazelpunt_chart_text(sheet.bytes, sheet.length, printed, sizeof printed, &place, &printed_bytes) != WAZELPUNT_DONE) {
        return tell_unknown(call, name);
    }
    if (!has(call, JSON)) {
        print_heading(call, name);
    }
    if (is_plain) {
        output_bytes(printed, printed_bytes);
    }
    return answer.number == WAZELPUNT_DONE ? tell_report(call) : tell_answer(call, NULL, answer);
}

/* ---- rewrite and import ---- */

/* Says of a sheet that is printed what it was made of. */
static enum status tell_made(const struct call *call)
{
    if (sheet.stl != NULL && !has(call, QUIET)) {
        say("%s%s", said_name(sheet.name), made_of(": ", ""));
    }
    return STATUS_DONE;
}

static enum status import_file(const struct call *call, const char *name)
{
    const char *error = input_read(FACETS, name, call->pitch, &sheet);
    if (error != NULL) {
        return tell_unread(call, name, NULL, error);
    }
    if (is_refused()) {
        return tell_refused(call, NULL);
    }
    print_heading(call, name);
    output_bytes(sheet.bytes, sheet.length);
    return tell_made(call);
}

static enum status rewrite_sheet(const struct call *call, const char *name)
{
    struct answer answer;
    size_t place;
    const char *error = input_read(SHEET, name, call->pitch, &sheet);
    if (error != NULL) {
        return tell_unread(call, name, NULL, error);
    }
    if (is_refused()) {
        return tell_refused(call, NULL);
    }
    if (wazelpunt_rewrite_text(sheet.bytes, sheet.length, printed, sizeof printed, &place, &printed_bytes) != WAZELPUNT_DONE) {
        return tell_unknown(call, name);
    }
    print_heading(call, name);
    output_bytes(printed, printed_bytes);
    /* a sheet that is written again begins otherwise */
    return answer_take(printed, printed_bytes, &answer) ? tell_answer(call, NULL, answer) : tell_made(call);
}

/* ---- check ---- */

/* How long a name is without the ending .sheet, or .stl in any letters, or all of it if it has no such ending. */
static size_t length_of_stem(const char *name)
{
    static const char ending[] = ".sheet";
    size_t length = strlen(name);
    size_t cut = sizeof ending - 1;
    if (length >= cut && strcmp(name + length - cut, ending) == 0) {
        return length - cut;
    }
    return is_named_stl(name) ? length - strlen(stl_ending) : length;
}

/* The name of the set beside a sheet: .patches instead of its ending, or behind the name if it has none. The caller frees it. */
static char *name_beside(const char *name)
{
    static const char other[] = ".patches";
    size_t length = length_of_stem(name);
    char *beside = malloc(length + sizeof other);
    if (beside != NULL) {
        memcpy(beside, name, length);
        memcpy(beside + length, other, sizeof other);
    }
    return beside;
}

/* The loops with the states that the set declares, which passed. */
static enum status tell_passed(const struct call *call)
{
    desk_patch(&sheet, &desk);
    set_read(&set, lines_ended(&sheet), &declared);
    memcpy(desk.loops.states, declared.states, declared.state_count * sizeof declared.states[0]);
    if (has(call, JSON)) {
        json_passed(&sheet, &set, &desk.loops);
    }
    return tell_loops(call, &set, &desk.loops);
}

static enum status check_sheet(const struct call *call, const char *name, const char *set_name)
{
    struct answer answer;
    size_t place;
    const char *error = input_read(SHEET, name, call->pitch, &sheet);
    if (error != NULL) {
        return tell_unread(call, name, NULL, error);
    }
    error = input_read(SET, set_name, 0, &set);
    if (error != NULL) {
        return tell_unread(call, name, set_name, error);
    }
    if (is_refused()) {
        return tell_refused(call, &set);
    }
    if (wazelpunt_judge_texts(sheet.bytes, sheet.length, set.bytes, set.length, printed, sizeof printed, &place, &printed_bytes) !=
            WAZELPUNT_DONE ||
        !answer_take(printed, printed_bytes, &answer)) {
        return tell_unknown(call, name);
    }
    if (!has(call, JSON)) {
        print_heading(call, name);
        output_bytes(printed, printed_bytes);
    }
    return answer.number == WAZELPUNT_DONE ? tell_passed(call) : tell_answer(call, &set, answer);
}

static enum status check_beside(const struct call *call, const char *name)
{
    char *set_name = name_beside(name);
    if (set_name == NULL) {
        return tell_unread(call, name, NULL, "there is no memory for the name of its set");
    }
    enum status status = check_sheet(call, name, set_name);
    free(set_name);
    return status;
}

/* ---- draw ---- */

static void draw_desk(const char *name)
{
    static uint16_t kinds[WAZELPUNT_TRIANGLES];
    const struct loops *loops = &desk.loops;
    report_kinds(&desk.report, kinds);
    struct drawn drawn = {
        .name = name,
        .points = desk.word_count / 3,
        .triangles = desk.corner_count / 3,
        .loops = loops->count,
        .pitch = desk.pitch,
        .grid = desk.grid,
        .corners = desk.corners,
        .rings = loops->rings,
        .lengths = loops->lengths,
        .states = loops->states,
        .kinds = kinds,
        .firsts = loops->firsts,
        .pieces = loops->pieces,
        .runs = loops->runs,
        .patches = loops->patches,
        .laid = loops->laid,
    };
    draw_sheet(&drawn);
}

/* A sheet that stands alone gets a picture only if it is drawn; among several each has its panel. */
static enum status draw_one(const struct call *call, const char *name)
{
    bool alone = call->count == 1;
    const char *title = strcmp(name, "-") == 0 ? "standard input" : name;
    const char *error = input_read(SHEET, name, call->pitch, &sheet);
    if (error != NULL) {
        if (!alone) {
            draw_unread(title);
        }
        return tell_unread(call, name, NULL, error);
    }
    struct answer answer = is_refused() ? refusal() : desk_chart(&sheet, &desk);
    if (answer.number == WAZELPUNT_DONE) {
        answer = desk_patch(&sheet, &desk);
    }
    if (answer.number != WAZELPUNT_DONE) {
        if (!alone) {
            draw_refused(title, answer.number, answer.place, stl_sentence(sheet.stl, answer.number));
        }
        return tell_answer(call, NULL, answer);
    }
    if (alone) {
        draw_begin(1, has(call, PLAN), has(call, LOOPS));
    }
    draw_desk(title);
    if (alone) {
        draw_end();
    }
    return tell_loops(call, NULL, &desk.loops);
}

/* ---- The commands ---- */

static enum status each(const struct call *call, enum status (*one)(const struct call *call, const char *name))
{
    enum status status = STATUS_DONE;
    for (size_t n = 0; n < call->count; n++) {
        status = worse(status, one(call, call->names[n]));
    }
    return status;
}

/* The names of a call that takes any number of sheets, or of what is due in their place: where there is none, standard input. False if
   that is a terminal. */
static bool take_names(struct call *call, const char *due)
{
    static char standard_input[] = "-";
    static char *names[] = {standard_input};
    if (call->count > 0) {
        return true;
    }
    if (isatty(STDIN_FILENO)) {
        say("no %s is given; name a file, or - for standard input", due);
        return false;
    }
    call->names = names;
    call->count = 1;
    return true;
}

static enum status list(const struct call *call)
{
    struct call sheets = *call;
    if (has(call, PATCHES) && !has(call, JSON)) {
        return wrong_use(call, "--patches goes with --json");
    }
    return take_names(&sheets, "sheet") ? each(&sheets, list_sheet) : STATUS_FAILED;
}

static enum status report(const struct call *call)
{
    struct call sheets = *call;
    if (has(call, ENTRIES) && has(call, JSON)) {
        return wrong_use(call, "--entries does not go with --json");
    }
    return take_names(&sheets, "sheet") ? each(&sheets, report_sheet) : STATUS_FAILED;
}

static enum status rewrite(const struct call *call)
{
    struct call sheets = *call;
    return take_names(&sheets, "sheet") ? each(&sheets, rewrite_sheet) : STATUS_FAILED;
}

static enum status import(const struct call *call)
{
    struct call files = *call;
    return take_names(&files, "STL file") ? each(&files, import_file) : STATUS_FAILED;
}

static enum status draw(const struct call *call)
{
    struct call sheets = *call;
    if (!take_names(&sheets, "sheet")) {
        return STATUS_FAILED;
    }
    if (sheets.count == 1) {
        return draw_one(&sheets, sheets.names[0]);
    }
    draw_begin(sheets.count, has(call, PLAN), has(call, LOOPS));
    enum status status = each(&sheets, draw_one);
    draw_end();
    return status;
}

static enum status check(const struct call *call)
{
    if (call->count == 0) {
        return wrong_use(call, "no sheet is given");
    }
    if (has(call, BESIDE) || call->count == 1) {
        return count_inputs(call) == 0 ? each(call, check_beside) : wrong_use(call, "no set is beside standard input");
    }
    if (call->count > 2) {
        return wrong_use(call, "more than a sheet and a set are named; with --beside each sheet is judged with the set beside it");
    }
    struct call one = *call;
    one.count = 1;
    return check_sheet(&one, call->names[0], call->names[1]);
}

static enum status example(const struct call *call)
{
    bool patches = call->count == 1 && strcmp(call->names[0], "patches") == 0;
    if (call->count > 0 && !patches) {
        return wrong_use(call, "it takes nothing, or the word patches");
    }
    output("%s", patches ? sample_patches : sample_sheet);
    return STATUS_DONE;
}

static enum status help_with(const char *command)
{
    if (help_print(command)) {
        return STATUS_DONE;
    }
    say("there is no command %s; see wazelpunt --help", shown_name(command));
    return STATUS_FAILED;
}

static enum status help_all(void)
{
    help_print_all();
    return STATUS_DONE;
}

static enum status help(const struct call *call)
{
    if (call->count > 1) {
        return wrong_use(call, "it takes one command");
    }
    return call->count == 0 ? help_all() : help_with(call->names[0]);
}

static const struct command commands[] = {
    {"list", QUIET | JSON | PATCHES | CLOSED | LOOPS | AT_PITCH, list},
    {"report", QUIET | JSON | ENTRIES | AT_PITCH, report},
    {"check", QUIET | JSON | CLOSED | BESIDE | AT_PITCH, check},
    {"rewrite", QUIET | AT_PITCH, rewrite},
    {"import", QUIET | AT_PITCH, import},
    {"draw", QUIET | PLAN | LOOPS | AT_PITCH, draw},
    {"example", 0, example},
    {"help", 0, help},
};

/* ---- The command line ---- */

struct option {
    const char *name;
    const char *brief;      /* "" where there is no short form */
    enum options option;
};

static const struct option known[] = {
    {"--quiet", "-q", QUIET},     {"--json", "", JSON},      {"--patches", "", PATCHES}, {"--closed", "", CLOSED},
    {"--beside", "", BESIDE},     {"--plan", "", PLAN},      {"--loops", "", LOOPS},     {"--help", "-h", HELP},
    {"--version", "-V", VERSION}, {"--pitch", "", AT_PITCH}, {"--entries", "", ENTRIES},
};

static const struct option *find_option(const char *word)
{
    for (size_t o = 0; o < sizeof known / sizeof known[0]; o++) {
        if (strcmp(word, known[o].name) == 0 || strcmp(word, known[o].brief) == 0) {
            return &known[o];
        }
    }
    return NULL;
}

/* The one option that has a value: the word behind it, or what stands behind its equals sign. */
static const char pitch_option[] = "--pitch";

static bool is_pitch_option(const char *word)
{
    size_t length = sizeof pitch_option - 1;
    return strncmp(word, pitch_option, length) == 0 && (word[length] == 0 || word[length] == '=');
}

/* Takes the value of --pitch; NULL where there is none. False if it is no pitch, or if another one was given before. */
static bool take_pitch(struct call *call, const char *value)
{
    static const struct {
        const char *said;
        uint32_t pitch;
    } pitches[] = {{"1", 1}, {"2", 2}, {"5", 5}, {"10", 10}};
    uint32_t pitch = 0;
    if (value == NULL) {
        say("--pitch has no value: pitches are 1, 2, 5 and 10; see wazelpunt --help");
        return false;
    }
    for (size_t p = 0; p < sizeof pitches / sizeof pitches[0]; p++) {
        pitch = strcmp(value, pitches[p].said) == 0 ? pitches[p].pitch : pitch;
    }
    if (pitch == 0) {
        say("--pitch %s: pitches are 1, 2, 5 and 10; see wazelpunt --help", shown_name(value));
        return false;
    }
    if (call->pitch != 0 && call->pitch != pitch) {
        say("--pitch is given twice, as %u and as %u; see wazelpunt --help", (unsigned)call->pitch, (unsigned)pitch);
        return false;
    }
    call->options |= AT_PITCH;
    call->pitch = pitch;
    return true;
}

/* Takes the options out of the words, so that names are left, the command's first; false if there is an unknown one. */
static bool take_words(struct call *call, int count, char **words)
{
    bool only_names = false;
    for (int w = 1; w < count; w++) {
        char *word = words[w];
        if (only_names || word[0] != '-' || word[1] == 0) {
            call->names[call->count++] = word;
        } else if (strcmp(word, "--") == 0) {
            only_names = true;
        } else if (is_pitch_option(word)) {
            const char *within = strchr(word, '=');
            w += within == NULL;
            if (!take_pitch(call, within != NULL ? within + 1 : w < count ? words[w] : NULL)) {
                return false;
            }
        } else {
            const struct option *option = find_option(word);
            if (option == NULL) {
                const char *shown = shown_name(word);
                say("unknown option %s; see wazelpunt --help. A file of that name is given as ./%s or after --", shown, shown);
                return false;
            }
            call->options |= (unsigned)option->option;
        }
    }
    return true;
}

static bool find_command(struct call *call)
{
    for (size_t c = 0; c < sizeof commands / sizeof commands[0]; c++) {
        if (strcmp(call->names[0], commands[c].name) == 0) {
            call->command = &commands[c];
            call->names++;
            call->count--;
            return true;
        }
    }
    say("there is no command %s; see wazelpunt --help", shown_name(call->names[0]));
    return false;
}

/* Whether the command has all options that are given. */
static bool takes_options(const struct call *call)
{
    for (size_t o = 0; o < sizeof known / sizeof known[0]; o++) {
        if (has(call, known[o].option) && (call->command->options & (unsigned)known[o].option) == 0) {
            say("%s has no option %s; see wazelpunt %s --help", call->command->name, known[o].name, call->command->name);
            return false;
        }
    }
    return true;
}

/* Standard input can be read once. */
static bool takes_input_once(const struct call *call)
{
    size_t times = count_inputs(call);
    if (times > 1) {
        say("- is given %zu times, and standard input can be read once", times);
    }
    return times <= 1;
}

static enum status run(struct call *call)
{
    if (has(call, VERSION)) {
        output("wazelpunt %s\n", WAZELPUNT_VERSION);
        return STATUS_DONE;
    }
    if (call->count == 0 && has(call, HELP)) {
        return help_all();
    }
    if (call->count == 0) {
        say("no command is given; see wazelpunt --help");
        return STATUS_FAILED;
    }
    if (!find_command(call)) {
        return STATUS_FAILED;
    }
    if (has(call, HELP)) {
        return help_with(call->command->name);
    }
    return takes_options(call) && takes_input_once(call) ? call->command->run(call) : STATUS_FAILED;
}

int main(int count, char **words)
{
    struct call call = {.names = words};
    output_begin();
    if (!wazelpunt_floats_are_default()) {
        say("this process computes with floats in another way than the library's promises ask for, so it does not answer");
        return STATUS_FAILED;
    }
    enum status status = take_words(&call, count, words) ? run(&call) : STATUS_FAILED;
    output_end();
    return (int)status;
}
