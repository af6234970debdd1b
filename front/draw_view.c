#include "draw_view.h"

/* The greatest coordinate that is computed with; a small sheet is drawn as finely as a large one. */
enum { FINEST = 2 * WAZELPUNT_GREATEST };

bool used[WAZELPUNT_POINTS];
int64_t solid[WAZELPUNT_POINTS][3];
struct spot spots[WAZELPUNT_POINTS];
struct dot dots[WAZELPUNT_POINTS];

static void find_used(const struct drawn *sheet)
{
    for (size_t i = 0; i < sheet->points; i++) {
        used[i] = sheet->triangles == 0;
    }
    for (size_t i = 0; i < 3 * sheet->triangles; i++) {
        used[sheet->corners[i]] = true;
    }
}

/* The least and the greatest number of the used points on an axis. */
static void find_ends(const struct drawn *sheet, size_t axis, int64_t *least, int64_t *most)
{
    *least = WAZELPUNT_GREATEST;
    *most = -WAZELPUNT_GREATEST;
    for (size_t i = 0; i < sheet->points; i++) {
        if (used[i]) {
            *least = lesser(*least, sheet->grid[3 * i + axis]);
            *most = greater(*most, sheet->grid[3 * i + axis]);
        }
    }
}

static void set_factors(struct view *view)
{
    int64_t side = greater(view->sizes[0], view->sizes[1]), high = view->sizes[2];
    view->height_factor = view->plan_factor = 1;
    while (high > 0 && 12 * view->height_factor * high < side) {
        view->height_factor *= 2;
    }
    while (side > 0 && 4 * view->plan_factor * side < high) {
        view->plan_factor *= 2;
    }
}

/* Puts the used points into `solid`. */
static void set_solid(const struct drawn *sheet, struct view *view)
{
    int64_t least[3], longest = 1;
    for (size_t axis = 0; axis < 3; axis++) {
        int64_t most;
        find_ends(sheet, axis, &least[axis], &most);
        view->sizes[axis] = most - least[axis];
    }
    set_factors(view);
    int64_t factors[3] = {view->plan_factor, view->plan_factor, view->height_factor};
    for (size_t axis = 0; axis < 3; axis++) {
        longest = greater(longest, factors[axis] * view->sizes[axis]);
    }
    for (size_t i = 0; i < sheet->points; i++) {
        for (size_t axis = 0; used[i] && axis < 3; axis++) {
            solid[i][axis] = (sheet->grid[3 * i + axis] - least[axis]) * factors[axis] * (FINEST / longest);
        }
    }
}

static struct spot look(const int64_t at[3], bool plan)
{
    struct spot oblique = {10 * at[0] + 3 * at[1], 10 * at[2] + 5 * at[1], -at[1]};
    struct spot above = {at[0], at[1], at[2]};
    return plan ? above : oblique;
}

/* Looks at the used points, and fits them into the area. */
static void set_spots(const struct drawn *sheet, bool plan)
{
    struct box view = {INT64_MAX, INT64_MIN, INT64_MIN, INT64_MAX};
    for (size_t i = 0; i < sheet->points; i++) {
        if (used[i]) {
            spots[i] = look(solid[i], plan);
            view.left = lesser(view.left, spots[i].x);
            view.right = greater(view.right, spots[i].x);
            view.bottom = lesser(view.bottom, spots[i].up);
            view.top = greater(view.top, spots[i].up);
        }
    }
    int64_t width = AREA_RIGHT - AREA_LEFT, height = AREA_BOTTOM - AREA_TOP;
    int64_t wide = view.right - view.left, high = view.top - view.bottom;
    bool by_width = wide * height >= high * width;
    int64_t paper = by_width ? width : height, drawn = greater(by_width ? wide : high, 1);
    int64_t left = (AREA_LEFT + AREA_RIGHT - wide * paper / drawn) / 2, bottom = (AREA_TOP + AREA_BOTTOM + high * paper / drawn) / 2;
    for (size_t i = 0; i < sheet->points; i++) {
        if (used[i]) {
            dots[i].x = left + ((spots[i].x - view.left) * paper + drawn / 2) / drawn;
            dots[i].y = bottom - ((spots[i].up - view.bottom) * paper + drawn / 2) / drawn;
        }
    }
}

struct view view_sheet(const struct drawn *sheet, bool plan)
{
    struct view view = {{0, 0, 0}, 1, 1};
    if (sheet->points > 0) {
        find_used(sheet);
        set_solid(sheet, &view);
        set_spots(sheet, plan);
    }
    return view;
}
