/* One plot end on a time line, as SVG: a lane for each step, and in it the mark, the frames that left, and the answers. */
#include "host.h"

/* Places in pixels: the lanes, the ticks, and within a lane the row of the mark, of the frames and of the answers, so that none hides another. */
enum { LEFT = 236, TICK_WIDTH = 26, TOP = 136, LANE = 74, MARK_ROW = 16, FRAME_ROW = 36, ANSWER_ROW = 56, RIGHT = 40, LEGEND = 126 };

struct picture {
    FILE *file;
    const struct sheet *sheet;
    const struct sheet_plot *plot;
    size_t slowest;                 /* the step whose first answer took longest, if it is shown for that; else no step */
    int width, bottom;
};

static const char head[] =
    "<style>\n"
    "text { font-family: \"DejaVu Sans\", Verdana, Arial, sans-serif; font-size: 13px; fill: #555555 }\n"
    ".title { font-size: 20px; font-weight: bold; fill: #222222 }\n"
    ".why { font-size: 14px; fill: #222222 }\n"
    ".step { font-size: 15px; font-weight: bold; fill: #222222 }\n"
    ".axis { font-size: 12px; text-anchor: middle }\n"
    ".before { text-anchor: end }\n"
    ".grid { stroke: #e2e2e2 }\n"
    ".half { stroke: #c4c4c4 }\n"
    ".wait { stroke: #c2571a; stroke-width: 2; stroke-dasharray: 3 3 }\n"
    ".run { stroke: #8fcba0; stroke-width: 5 }\n"
    "</style>\n"
    "<defs>\n"
    "<path id=\"due\" d=\"M0 6l-6 -10h12z\" fill=\"#c2571a\"/>\n"
    "<circle id=\"left\" r=\"6\" fill=\"#1f5fa8\"/>\n"
    "<circle id=\"again\" r=\"3\" fill=\"#7da7d9\"/>\n"
    "<rect id=\"started\" x=\"-5\" y=\"-5\" width=\"10\" height=\"10\" fill=\"#ffffff\" stroke=\"#2e8b4a\" stroke-width=\"2\"/>\n"
    "<rect id=\"done\" x=\"-6\" y=\"-6\" width=\"12\" height=\"12\" fill=\"#2e8b4a\"/>\n"
    "</defs>\n"
    "<rect width=\"100%\" height=\"100%\" fill=\"#ffffff\"/>\n";

static const char legend[] =
    "<use href=\"#due\" x=\"30\"/><text x=\"48\" y=\"4\">due: the mark is reached</text>\n"
    "<line class=\"wait\" x1=\"258\" x2=\"288\"/><text x=\"298\" y=\"4\">waits for the steps before it</text>\n"
    "<use href=\"#left\" x=\"530\"/><text x=\"548\" y=\"4\">the command leaves</text>\n"
    "<use href=\"#again\" x=\"30\" y=\"28\"/><text x=\"48\" y=\"32\">repeated, every second tick</text>\n"
    "<use href=\"#started\" x=\"280\" y=\"28\"/><text x=\"298\" y=\"32\">answered: started</text>\n"
    "<use href=\"#done\" x=\"530\" y=\"28\"/><text x=\"548\" y=\"32\">answered: done</text>\n";

static int picture_x(uint32_t tick)
{
    return LEFT + TICK_WIDTH * (int)tick;
}

static void picture_symbol(FILE *f, const char *name, int x, int y)
{
    fprintf(f, "<use href=\"#%s\" x=\"%d\" y=\"%d\"/>\n", name, x, y);
}

static void picture_line(FILE *f, const char *kind, int x1, int y1, int x2, int y2)
{
    fprintf(f, "<line class=\"%s\" x1=\"%d\" y1=\"%d\" x2=\"%d\" y2=\"%d\"/>\n", kind, x1, y1, x2, y2);
}

static void picture_text(FILE *f, const char *kind, int x, int y, const char *words)
{
    fprintf(f, "<text class=\"%s\" x=\"%d\" y=\"%d\">%s</text>\n", kind, x, y, words);
}

static void picture_step_text(const struct picture *p, size_t step, char text[POOL_TEXT_BYTES])
{
    const scm_step_view *s = &p->sheet->recorded[step];

    pool_step_text(&p->sheet->clients[s->slot], s->function, s->state, text);
}

/* Why this plot is the one to look at. */
static void picture_why(const struct picture *p, size_t step, char words[256])
{
    const struct sheet_line *line = &p->plot->lines[step];
    uint32_t ticks = step == p->slowest ? line->answered - line->left : line->late;
    char text[POOL_TEXT_BYTES], seconds[SHEET_TENTHS_BYTES];

    picture_step_text(p, step, text);
    sheet_tenths_text(ticks, seconds);
    if (step == p->slowest) {
        snprintf(words, 256, "Why this plot: in no plot did a first answer take longer than here that to step %zu, %s: %" PRIu32 " ticks (%s s). "
                 "%u are in time.", step + 1, text, ticks, seconds, SCM_ANSWER_TICKS);
    } else {
        snprintf(words, 256, "Why this plot: in no plot did a step leave more ticks after it was due than here step %zu, %s: %" PRIu32 " (%s s, %" PRIu32
                 " mm).", step + 1, text, ticks, seconds, line->late_mm);
    }
}

/* What the picture is: in its title and description, for who cannot see it, and at its top. */
static void picture_headlines(const struct picture *p, size_t step)
{
    char title[160], why[256], text[POOL_TEXT_BYTES], client[POOL_TEXT_BYTES], speed[SHEET_TENTHS_BYTES];

    pool_shown_text(&p->sheet->clients[POOL_DRILL], POOL_COULTERS, p->plot->depth, text);
    sheet_tenths_text(sheet_speed(p->plot), speed);
    snprintf(title, sizeof title, "Plot %zu: depth commanded %s, driven at %s km/h (%" PRIu32 " mm a tick)", (size_t)(p->plot - p->sheet->plot) + 1, text,
             speed, sheet_pace(p->plot));
    picture_why(p, step, why);
    fprintf(p->file, "<title id=\"title\">%s</title>\n<desc id=\"desc\">%s A lane for each step, over %" PRIu32 " ticks of a tenth of a second.", title, why,
            p->plot->ticks);
    for (size_t i = 0; i < p->plot->sent; i++) {
        const struct sheet_line *l = &p->plot->lines[i];
        picture_step_text(p, i, text);
        pool_client_text(&p->sheet->clients[l->frame[0]], client);
        fprintf(p->file, "\nStep %zu, %s, client %s: due at tick %" PRIu32 ", left at %" PRIu32 ", answered at %" PRIu32 ", done at %" PRIu32 ".", i + 1, text,
                client, l->due, l->left, l->answered, l->done);
    }
    fprintf(p->file, "</desc>\n%s", head);
    picture_text(p->file, "title", 20, 34, title);
    picture_text(p->file, "why", 20, 60, why);
    picture_text(p->file, "", 20, 82, "One plot end as it was replayed. A tick is a tenth of a second; at most one new command leaves at a tick.");
}

/* An axis: ticks, and beyond them the seconds of every fifth. */
static void picture_axis(const struct picture *p, int ticks, int seconds)
{
    char words[32];

    picture_text(p->file, "before", LEFT - 20, ticks, "tick");
    picture_text(p->file, "before", LEFT - 20, seconds, "seconds");
    for (uint32_t tick = 0; tick <= p->plot->ticks; tick++) {
        snprintf(words, sizeof words, "%" PRIu32, tick);
        picture_text(p->file, "axis", picture_x(tick), ticks, words);
        sheet_tenths_text(tick, words);
        if (tick % 5 == 0) {
            picture_text(p->file, "axis", picture_x(tick), seconds, words);
        }
    }
}

/* The stripes of the lanes, and a grid line for each tick. */
static void picture_grid(const struct picture *p)
{
    for (int y = TOP; y < p->bottom; y += 2 * LANE) {
        fprintf(p->file, "<rect y=\"%d\" width=\"%d\" height=\"%d\" fill=\"#f6f6f2\"/>\n", y, p->width, LANE);
    }
    for (uint32_t tick = 0; tick <= p->plot->ticks; tick++) {
        picture_line(p->file, tick % 5 == 0 ? "half" : "grid", picture_x(tick), TOP, picture_x(tick), p->bottom);
    }
    picture_axis(p, TOP - 8, TOP - 26);
    picture_axis(p, p->bottom + 18, p->bottom + 36);
}

/* What stands at the left of a lane: the step, its client, and the value that was sent. */
static void picture_label(const struct picture *p, size_t i, int y)
{
    const struct sheet_line *l = &p->plot->lines[i];
    const struct pool *client = &p->sheet->clients[l->frame[0]];
    char words[160], text[POOL_TEXT_BYTES];

    picture_step_text(p, i, text);
    snprintf(words, sizeof words, "%zu  %s", i + 1, text);
    picture_text(p->file, "step", 20, y + 23, words);
    pool_client_text(client, text);
    snprintf(words, sizeof words, "client: %s", text);
    picture_text(p->file, "", 20, y + 42, words);
    pool_shown_text(client, l->command.function, l->command.value, text);
    snprintf(words, sizeof words, text[0] == '-' && text[1] == '\0' ? "value %" PRIu32 : "value %" PRIu32 ", shown %s", l->command.value, text);
    picture_text(p->file, "", 20, y + 60, words);
}

static void picture_lane(const struct picture *p, size_t i, int y)
{
    const struct sheet_line *l = &p->plot->lines[i];
    FILE *f = p->file;
    char words[64];

    picture_label(p, i, y);
    snprintf(words, sizeof words, p->sheet->recorded[i].distance ? "%" PRIu32 " mm" : "tick %" PRIu32, p->sheet->recorded[i].mark);
    picture_symbol(f, "due", picture_x(l->due), y + MARK_ROW);
    picture_text(f, "", picture_x(l->due) + 11, y + MARK_ROW + 4, words);
    if (l->left > l->due) {
        picture_line(f, "wait", picture_x(l->due), y + FRAME_ROW, picture_x(l->left) - 6, y + FRAME_ROW);
    }
    picture_symbol(f, "left", picture_x(l->left), y + FRAME_ROW);
    for (uint32_t tick = l->left + 1; tick <= l->answered; tick++) {
        if (sheet_left_at(l, tick)) {
            picture_symbol(f, "again", picture_x(tick), y + FRAME_ROW);
        }
    }
    if (i == p->slowest) {
        snprintf(words, sizeof words, "answered %" PRIu32 " ticks after it left", l->answered - l->left);
        picture_text(f, "before", picture_x(l->answered) - 12, y + ANSWER_ROW + 4, words);
    }
    if (l->done > l->answered) {
        picture_line(f, "run", picture_x(l->answered), y + ANSWER_ROW, picture_x(l->done), y + ANSWER_ROW);
        picture_symbol(f, "started", picture_x(l->answered), y + ANSWER_ROW);
    }
    picture_symbol(f, "done", picture_x(l->done), y + ANSWER_ROW);
}

void picture_write(FILE *f, const struct sheet *sheet, enum picture_kind kind)
{
    const struct sheet_plot *plot = &sheet->plot[kind == PICTURE_SLOWEST ? sheet->slowest_plot : sheet->latest_plot];
    struct picture p = {.file = f, .sheet = sheet, .plot = plot, .slowest = kind == PICTURE_SLOWEST ? sheet->slowest_step : SCM_STEPS,
                        .width = picture_x(plot->ticks) + RIGHT, .bottom = TOP + LANE * (int)plot->sent};
    int height = p.bottom + LEGEND;

    fprintf(f, "<svg xmlns=\"http://www.w3.org/2000/svg\" width=\"%d\" height=\"%d\" viewBox=\"0 0 %d %d\" role=\"img\" aria-labelledby=\"title desc\">\n",
            p.width, height, p.width, height);
    picture_headlines(&p, kind == PICTURE_SLOWEST ? sheet->slowest_step : plot->latest);
    picture_grid(&p);
    for (size_t i = 0; i < plot->sent; i++) {
        picture_lane(&p, i, TOP + LANE * (int)i);
    }
    fprintf(f, "<g transform=\"translate(0 %d)\">\n%s</g>\n</svg>\n", p.bottom + 74, legend);
}
