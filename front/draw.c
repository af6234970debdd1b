/* The picture of sheets: its head, its panels, and what stands about a sheet in its panel. All is computed in whole numbers, so that the
   picture of a sheet is the same on every machine. */

#include "draw.h"

#include <stdio.h>
#include <string.h>

#include "draw_faces.h"
#include "draw_labels.h"
#include "draw_rings.h"
#include "listing.h"
#include "output.h"
#include "report.h"

/* The picture's own width is never more than this. */
enum { WIDEST = 2 * PANEL_WIDTH };

/* How many columns the picture has, which panel is next, whether it is a plan, and whether it is marked where loops begin. */
static size_t columns, panel;
static bool plan, marked;

/* ---- The legend ---- */

/* Where the next entry of the legend goes. */
static struct dot legend_at;

/* An entry: a swatch, if it has one, and its text. It goes to the next row where it would go beyond the panel. */
static void put_entry(const char *swatch, const char *text)
{
    int64_t sign = swatch[0] == 0 ? 0 : 300, width = sign + (int64_t)strlen(text) * 64;
    if (legend_at.x + width > 10 * PANEL_WIDTH - 240) {
        legend_at.x = 240;
        legend_at.y += 180;
    }
    if (sign > 0) {
        output("<g transform=\"translate(");
        put_pair(legend_at.x, legend_at.y);
        output(")\">%s</g>", swatch);
    }
    output("<text class=\"key\"");
    put_length("x", legend_at.x + sign);
    put_length("y", legend_at.y);
    output(">%s</text>\n", text);
    legend_at.x += width + 160;
}

/* What kinds of loops there are. The line of a swatch is grey, since its colour goes by the state. */
static void put_kind_entry(const struct drawn *sheet, uint16_t kind)
{
    static const char *const swatches[] = {
        [WAZELPUNT_ENTRY_RIM] = "<path class=\"rim seen\" d=\"M0-4.5h24\"/>",
        [WAZELPUNT_ENTRY_POOL] = "<path class=\"any seen\" d=\"M0-4.5h24\"/><path class=\"diamond\" d=\"M8-4.5l4-4l4 4l-4 4z\"/>",
        [WAZELPUNT_ENTRY_LAKE] = "<g class=\"lake\"><path class=\"any seen\" d=\"M0-4.5h24\"/><path class=\"core\" d=\"M0-4.5h24\"/></g>",
    };
    size_t count = count_state(sheet->kinds, sheet->loops, kind);
    char text[96];
    snprintf(text, sizeof text, "%zu %s%s", count, kind_name(kind), count == 1 ? "" : "s");
    if (count > 0) {
        put_entry(swatches[kind], text);
    }
}

static void put_state_entry(const struct drawn *sheet, uint16_t state)
{
    static const char *const swatches[] = {
        "", "<path class=\"p10\" d=\"M1 0l11-9 11 9z\"/><path class=\"patched seen\" d=\"M1 0l11-9 11 9z\"/>",
        "<path fill=\"url(#long)\" class=\"hatch\" d=\"M0-9h24v9h-24z\"/><path class=\"long seen\" d=\"M0-4.5h24\"/>",
        "<path fill=\"url(#open)\" class=\"hatch\" d=\"M0-9h24v9h-24z\"/><path class=\"open seen\" d=\"M0-4.5h24\"/>"};
    static const char *const more[] = {"", "", ", LEFT OPEN", " (no allowed cover), LEFT OPEN"};
    size_t count = count_state(sheet->states, sheet->loops, state), laid = sheet->laid / 3;
    char text[96];
    int length = snprintf(text, sizeof text, "%zu %s%s", count, state_name(state), more[state]);
    if (state == WAZELPUNT_PATCHED) {
        snprintf(text + length, sizeof text - (size_t)length, " with %zu %s", laid, laid == 1 ? "triangle" : "triangles");
    }
    if (count > 0) {
        put_entry(swatches[state], text);
    }
}

/* What the lines, signs and colours mean, as far as they occur, the pitch where it is not 1, and what was left out. */
static void put_legend(const struct drawn *sheet, bool hides, size_t without)
{
    char text[96];
    legend_at.x = 240;
    legend_at.y = 4960;
    output("<g class=\"legend\">\n");
    for (uint16_t kind = WAZELPUNT_ENTRY_RIM; kind <= WAZELPUNT_ENTRY_LAKE; kind++) {
        put_kind_entry(sheet, kind);
    }
    for (uint16_t state = WAZELPUNT_PATCHED; state <= WAZELPUNT_OPEN; state++) {
        put_state_entry(sheet, state);
    }
    if (sheet->loops == 0) {
        put_entry("", no_loops(sheet->triangles > 0));
    }
    if (is_back_seen()) {
        put_entry("<path class=\"b10\" d=\"M1 0l11-9 11 9z\"/>", "back side");
    }
    if (hides) {
        put_entry("<path class=\"rim hidden\" d=\"M0-4.5h24\"/>", "hidden");
    }
    if (marked && sheet->loops > 0) {
        put_entry("<g class=\"mark\"><path class=\"shaft\" d=\"M3-4.5h21m-8-4l8 4-8 4\"/>"
                  "<circle class=\"tail\" cx=\"3\" cy=\"-4.5\" r=\"2.4\"/></g>", "first half-edge");
    }
    if (sheet->pitch != 1) {
        snprintf(text, sizeof text, "pitch %u", (unsigned)sheet->pitch);
        put_entry("", text);
    }
    if (without > 0) {
        snprintf(text, sizeof text, "(%zu %s no room)", without, without == 1 ? "number has" : "numbers have");
        put_entry("", text);
    }
    output("</g>\n");
}

/* ---- Panels ---- */

/* The three axes, or two, at the upper right. */
static void put_axes(void)
{
    output(plan ? "<path class=\"axis\" d=\"M664 46h26m-26 0v-24\"/><text class=\"small\" x=\"693\" y=\"49\">x</text>"
                  "<text class=\"small\" x=\"661\" y=\"18\">y</text>\n"
                : "<path class=\"axis\" d=\"M664 46h26m-26 0v-24m0 24l8.4-14\"/><text class=\"small\" x=\"693\" y=\"49\">x</text>"
                  "<text class=\"small\" x=\"674\" y=\"31\">y</text><text class=\"small\" x=\"661\" y=\"18\">z</text>\n");
}

/* From where the sheet is seen, and how heights are drawn. */
static void put_view(const struct view *view)
{
    output("<text class=\"view\" x=\"648\" y=\"30\">%s</text>\n", plan ? "plan, from above" : "from the front above");
    if (!plan && (view->height_factor > 1 || view->plan_factor > 1)) {
        output("<text class=\"view strong\" x=\"648\" y=\"48\">heights %s %lld</text>\n",
               view->height_factor > 1 ? "\xc3\x97" : "\xc3\xb7", (long long)greater(view->height_factor, view->plan_factor));
    }
    put_axes();
}

static void begin_panel(const char *name)
{
    size_t wide = name_columns(name);
    output("<g class=\"panel\" transform=\"translate(%zu %zu)\"><title>", panel % columns * PANEL_WIDTH, panel / columns * PANEL_HEIGHT);
    put_name(name, SIZE_MAX);
    output("</title>\n<rect class=\"paper\" x=\".5\" y=\".5\" width=\"%d\" height=\"%d\"/>\n", PANEL_WIDTH - 1, PANEL_HEIGHT - 1);
    output("<text class=\"%s\" x=\"24\" y=\"34\">", wide > 32 ? "name long-name" : "name");
    put_name(name, 54);
    output("</text>\n");
    panel++;
}

static void put_count(size_t count, const char *one, const char *many)
{
    output("%zu %s", count, count == 1 ? one : many);
}

/* The line below the name: how much there is, and how large it is. A unit of the grid is a tenth of a millimetre. */
static void put_sizes(const struct drawn *sheet, const int64_t sizes[3])
{
    output("<text class=\"sizes\" x=\"24\" y=\"54\">");
    put_count(sheet->points, "point", "points");
    output(", ");
    put_count(sheet->triangles, "triangle", "triangles");
    output(", ");
    put_count(sheet->loops, "loop", "loops");
    if (sheet->points > 0) {
        output("; ");
        for (size_t i = 0; i < 3; i++) {
            put_tenths(sizes[i]);
            output(i < 2 ? " \xc3\x97 " : " mm");
        }
    }
    output("</text>\n");
}

static void put_message(const char *text, int y)
{
    output("<text class=\"message\" x=\"%d\" y=\"%d\">%s</text>\n", PANEL_WIDTH / 2, y, text);
}

static void put_point(struct dot at)
{
    output("<circle class=\"point\"");
    put_length("cx", at.x);
    put_length("cy", at.y);
    output(" r=\"2.5\"/>\n");
}

/* Points are drawn themselves where there are no triangles, or none that show since all points are in one place. */
static void put_points(const struct drawn *sheet, bool one_place)
{
    for (size_t i = 0; (sheet->triangles == 0 || one_place) && i < sheet->points; i++) {
        if (used[i]) {
            put_point(dots[i]);
        }
    }
    if (sheet->points == 0) {
        put_message("no points", PANEL_HEIGHT / 2);
    } else if (one_place && sheet->points > 1) {
        put_message("all points lie in one place", 320);
    }
}

void draw_sheet(const struct drawn *sheet)
{
    struct view view = view_sheet(sheet, plan);
    begin_panel(sheet->name);
    put_sizes(sheet, view.sizes);
    put_view(&view);
    put_faces(sheet, plan);
    put_points(sheet, view.sizes[0] + view.sizes[1] + view.sizes[2] == 0);
    bool hides = put_loops(sheet, marked);
    if (marked) {
        put_marks(sheet);
    }
    size_t without = put_all_numbers(sheet, marked);
    put_legend(sheet, hides, without);
    output("</g>\n");
}

void draw_refused(const char *name, uint32_t number, size_t place, const char *sentence)
{
    char text[64];
    begin_panel(name);
    snprintf(text, sizeof text, "refused, answer %lu,%zu", (unsigned long)number, place);
    put_message(text, 260);
    put_message(sentence, 286);
    output("</g>\n");
}

void draw_unread(const char *name)
{
    begin_panel(name);
    put_message("could not be read", 260);
    output("</g>\n");
}

/* ---- The picture ---- */

/* The colours of faces, from the darkest to the lightest shade: the front side, the back side and patches; their edges are darker. */
static void put_shades(void)
{
    static const struct {
        char class;
        int dark[3], light[3];
    } kinds[] = {{'f', {176, 164, 140}, {252, 249, 241}}, {'b', {120, 128, 186}, {206, 212, 244}}, {'p', {72, 150, 88}, {186, 232, 182}}};
    for (size_t i = 0; i < sizeof kinds / sizeof kinds[0]; i++) {
        for (int shade = 0; shade < SHADES; shade++) {
            int colour[3];
            for (size_t j = 0; j < 3; j++) {
                colour[j] = kinds[i].dark[j] + (kinds[i].light[j] - kinds[i].dark[j]) * shade / (SHADES - 1);
            }
            output(".%c%d{fill:#%02x%02x%02x;stroke:#%02x%02x%02x}\n", kinds[i].class, shade, (unsigned)colour[0], (unsigned)colour[1],
                   (unsigned)colour[2], (unsigned)colour[0] * 7 / 10, (unsigned)colour[1] * 7 / 10, (unsigned)colour[2] * 7 / 10);
        }
    }
}

static void put_style(void)
{
    output("<style type=\"text/css\">\n"
           "text{font-family:sans-serif;fill:#333}\n"
           ".paper{fill:#fff;stroke:#ddd}\n"
           ".name{font-size:20px;font-weight:bold}\n"
           ".long-name{font-size:12px}\n"
           ".sizes,.view,.key{font-size:12px}\n"
           ".view{text-anchor:end}\n"
           ".strong{font-weight:bold}\n"
           ".message{font-size:16px;text-anchor:middle;fill:#777}\n"
           ".small{font-size:10px;fill:#777}\n"
           ".axis{fill:none;stroke:#777}\n"
           ".faces,.legend{stroke-width:.5;stroke-linejoin:round}\n");
    put_shades();
    output(".point{fill:#333}\n"
           ".loop{fill:none;stroke-linejoin:round}\n"
           ".seen{fill:none}\n"
           ".rim{stroke:#333;stroke-width:1.4}\n"
           ".patched{stroke:#0b6b2b;stroke-width:1.2}\n"
           ".long{stroke:#c25700;stroke-width:2.6;stroke-dasharray:14 4}\n"
           ".open{stroke:#c4001d;stroke-width:3.4;stroke-dasharray:6 3}\n"
           ".casing{stroke:#fff;stroke-width:5.6;stroke-dasharray:none}\n"
           ".any{stroke:#555;stroke-width:1.4}\n"
           ".lake .seen{stroke-width:3}\n"
           ".lake.long .seen{stroke-width:4.2}\n"
           ".lake.open .seen{stroke-width:4.8}\n"
           ".lake .casing{stroke-width:7}\n"
           ".core{fill:none;stroke:#9cf;stroke-width:1.1}\n"
           ".diamond{fill:#7b1fa2;stroke:#fff;stroke-width:.8;stroke-dasharray:none}\n"
           ".hollow{fill:none;stroke:#7b1fa2}\n"
           ".hidden{stroke-width:1.3;stroke-dasharray:.1 3;stroke-linecap:round}\n"
           ".faint{stroke:#666;stroke-width:.9}\n"
           ".bold{stroke-width:2.4;stroke-dasharray:.1 4}\n"
           ".hatch{stroke:none;fill-opacity:.45}\n"
           ".number{font-size:9px;text-anchor:middle;fill:#063f19}\n"
           ".rim-number{fill:#333}\n"
           ".flag{font-size:11px;font-weight:bold;text-anchor:middle;fill:#fff}\n"
           ".open-flag{fill:#c4001d;stroke:#c4001d}\n"
           ".long-flag{fill:#c25700;stroke:#c25700}\n"
           ".stem{stroke-width:1.4}\n");
    if (marked) {
        output(".mark{fill:none;stroke:#0b57d0;stroke-width:2.2;stroke-linejoin:round;stroke-linecap:round}\n"
               ".halo{stroke:#fff;stroke-width:4.6}\n"
               ".fine{stroke-width:1.3}\n"
               ".fine .halo{stroke-width:2.6}\n"
               ".dots{stroke-dasharray:.1 4.5}\n"
               ".tail{fill:#0b57d0;stroke:#fff;stroke-width:.8}\n"
               ".tag{fill:#fff;stroke:#777;stroke-width:.6}\n"
               ".tie{stroke:#777;stroke-width:.8}\n");
    }
    output("</style>\n"
           "<defs>\n"
           "<pattern id=\"open\" width=\"5\" height=\"5\" patternUnits=\"userSpaceOnUse\" patternTransform=\"rotate(45)\">"
           "<path fill=\"#c4001d\" d=\"M0 0h2v5h-2z\"/></pattern>\n"
           "<pattern id=\"long\" width=\"8\" height=\"8\" patternUnits=\"userSpaceOnUse\" patternTransform=\"rotate(-45)\">"
           "<path fill=\"#c25700\" d=\"M0 0h2v8h-2z\"/></pattern>\n"
           "</defs>\n");
}

void draw_begin(size_t sheets, bool from_above, bool marks)
{
    plan = from_above;
    marked = marks;
    panel = 0;
    columns = 1;
    while (columns * columns < sheets) {
        columns++;
    }
    size_t rows = sheets == 0 ? 1 : (sheets + columns - 1) / columns;
    size_t width = columns * PANEL_WIDTH, height = rows * PANEL_HEIGHT;
    size_t own = width < WIDEST ? width : WIDEST;
    output("<?xml version=\"1.0\" encoding=\"UTF-8\"?>\n"
           "<svg xmlns=\"http://www.w3.org/2000/svg\" version=\"1.1\" width=\"%zu\" height=\"%zu\" viewBox=\"0 0 %zu %zu\">\n",
           own, height * own / width, width, height);
    put_style();
}

void draw_end(void)
{
    output("</svg>\n");
}
