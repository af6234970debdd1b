#include "desk.h"

/* How many numbers the records of all loops of a sheet have at most. */
enum { RECORDS = WAZELPUNT_RECORDS_FOR(WAZELPUNT_CORNERS) };

struct answer desk_read(const struct text *sheet, struct desk *desk)
{
    struct answer answer;
    answer.number = wazelpunt_read(sheet->bytes, sheet->length, desk->words, WAZELPUNT_WORDS, desk->corners, WAZELPUNT_CORNERS,
                                   &answer.place, &desk->word_count, &desk->corner_count, &desk->pitch);
    return answer;
}

/* The records of all loops as the library leaves them. */
static uint64_t records[RECORDS];

static void enter_records(struct loops *loops)
{
    for (size_t loop = 0; loop < loops->count; loop++) {
        struct wazelpunt_record record = wazelpunt_record_at(records, RECORDS, loop);
        record_enter(loops, loop, &record);
    }
}

struct answer desk_patch(const struct text *sheet, struct desk *desk)
{
    struct answer answer = desk_read(sheet, desk);
    struct loops *loops = &desk->loops;
    loops->count = loops->vertices = loops->laid = 0;
    if (answer.number == WAZELPUNT_DONE) {
        answer.number = wazelpunt_patch(desk->words, desk->word_count, desk->corners, desk->corner_count, desk->grid, WAZELPUNT_WORDS,
                                        loops->rings, WAZELPUNT_CORNERS, records, RECORDS, loops->patches,
                                        WAZELPUNT_SET_CORNERS, &answer.place, &loops->count, &loops->vertices, &loops->laid,
                                        desk->pitch);
    }
    enter_records(loops);
    return answer;
}

struct answer desk_chart(const struct text *sheet, struct desk *desk)
{
    struct answer answer = desk_read(sheet, desk);
    struct loops *loops = &desk->loops;
    struct report *report = &desk->report;
    loops->count = loops->vertices = loops->laid = report->entries = 0;
    if (answer.number == WAZELPUNT_DONE) {
        answer.number = wazelpunt_chart(desk->words, desk->word_count, desk->corners, desk->corner_count, desk->grid, WAZELPUNT_WORDS,
                                        loops->rings, WAZELPUNT_CORNERS, records, RECORDS, report->numbers, WAZELPUNT_REPORT,
                                        &answer.place, &loops->count, &loops->vertices, &report->entries, desk->pitch);
    }
    enter_records(loops);
    return answer;
}

struct answer set_read(const struct text *text, size_t before, struct set *set)
{
    struct answer answer;
    answer.number = wazelpunt_read_set(text->bytes, text->length, (uint16_t)before, set->states, WAZELPUNT_SET_STATES,
                                       set->corners, WAZELPUNT_SET_CORNERS, &answer.place, &set->state_count, &set->corner_count);
    return answer;
}

struct answer desk_judge(const struct desk *desk, const struct set *set)
{
    /* where the judge leaves the grid and the loops, which the desk has */
    static int32_t grid[WAZELPUNT_WORDS];
    static uint16_t rings[WAZELPUNT_CORNERS];
    static uint16_t lengths[WAZELPUNT_TRIANGLES];
    size_t loops, vertices;
    struct answer answer;
    answer.number = wazelpunt_judge(desk->words, desk->word_count, desk->corners, desk->corner_count, set->states, set->state_count,
                                    set->corners, set->corner_count, grid, WAZELPUNT_WORDS, rings, WAZELPUNT_CORNERS, lengths,
                                    WAZELPUNT_TRIANGLES, &answer.place, &loops, &vertices, desk->pitch);
    return answer;
}

size_t edge_after(size_t edge)
{
    return edge % 3 == 2 ? edge - 2 : edge + 1;
}

size_t find_edge(const uint16_t *corners, size_t count, uint16_t from, uint16_t to)
{
    size_t edge = 0;
    while (edge < count && (corners[edge] != from || corners[edge_after(edge)] != to)) {
        edge++;
    }
    return edge;
}
