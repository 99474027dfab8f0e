/* The plot sheet. It is filled from what left and what came in: commanded values are read from the frames, and due ticks are reckoned here, apart
   from the library, so that the sheet is a check on it. */
#include <string.h>

#include "host.h"

bool sheet_recorded(struct sheet *sheet, const struct pool *clients, const scm_master *master, struct fault *fault)
{
    bool ok = true;

    *sheet = (struct sheet){.clients = clients, .steps = scm_step_count(master), .edition = scm_sequence_edition(master)};
    for (size_t i = 0; ok && i < sheet->steps; i++) {
        ok = fault_unless_done(fault, "step", scm_step(master, i, &sheet->recorded[i]))
          && (sheet->recorded[i].slot < POOL_CLIENTS || fault_say(fault, FAULT_RUN, "step %zu is of a client that the drill does not have", i + 1));
    }
    return ok;
}

/* The line of a command, by its slot and TAN; NULL where it has not left yet. */
static struct sheet_line *sheet_line_of(struct sheet_plot *plot, uint32_t slot, uint8_t tan)
{
    for (size_t i = 0; i < plot->sent; i++) {
        if (plot->lines[i].frame[0] == slot && plot->lines[i].command.tan == tan) {
            return &plot->lines[i];
        }
    }
    return NULL;
}

bool sheet_left_at(const struct sheet_line *line, uint32_t tick)
{
    return tick >= line->left && tick - line->left < 32 && (line->times >> (tick - line->left) & 1) != 0;
}

/* A command leaves, and then at every second tick until it is answered; 16 ticks after it first left the playback would be aborted. */
static bool sheet_leaves_now(const struct sheet_plot *plot, const struct sheet_line *line)
{
    uint32_t after = plot->ticks - line->left;

    return line->answered == 0 && after <= SCM_ANSWER_TICKS && after % 2 == 0;
}

static bool sheet_frame(struct sheet *sheet, struct sheet_plot *plot, const uint8_t frame[SCM_FRAME_BYTES], struct fault *fault)
{
    struct sheet_line *line;
    scm_message command;

    if (!event_message(SCM_MASTER, SCM_COMMAND, frame + 1, &command, fault)) {
        return false;
    }
    line = sheet_line_of(plot, frame[0], command.step.tan);
    if (line == NULL && plot->sent < sheet->steps) {
        line = &plot->lines[plot->sent++];
        line->left = plot->ticks;
        line->late = plot->ticks - line->due;
        line->late_mm = plot->distance - line->due_mm;
        line->command = command.step;
        memcpy(line->frame, frame, SCM_FRAME_BYTES);
    } else if (line == NULL || !sheet_leaves_now(plot, line) || sheet_left_at(line, plot->ticks) || memcmp(line->frame, frame, SCM_FRAME_BYTES) != 0) {
        return fault_say(fault, FAULT_RUN, "plot %zu, tick %" PRIu32 ": a frame is neither a step's first command nor the same again when it may leave",
                         sheet->plots, plot->ticks);
    }
    line->times |= (uint32_t)1 << (plot->ticks - line->left);
    return true;
}

/* A tick and its frames. A step is due at the first tick that reaches its mark. */
bool sheet_tick(struct sheet *sheet, uint32_t mm, const struct event_outcome *outcome, struct fault *fault)
{
    struct sheet_plot *plot = &sheet->plot[sheet->plots - 1];
    uint32_t leaving = 0;
    bool ok = true;

    plot->ticks++;
    plot->distance += mm;
    for (size_t i = 0; i < sheet->steps; i++) {
        const scm_step_view *step = &sheet->recorded[i];
        if (plot->lines[i].due == 0 && (step->distance ? plot->distance : plot->ticks) >= step->mark) {
            plot->lines[i].due = plot->ticks;
            plot->lines[i].due_mm = plot->distance;
        }
    }
    for (uint32_t i = 0; ok && i < outcome->count; i++) {
        ok = sheet_frame(sheet, plot, outcome->frames + SCM_FRAME_BYTES * i, fault);
    }
    for (size_t i = 0; i < plot->sent; i++) {
        leaving += sheet_leaves_now(plot, &plot->lines[i]);
    }
    return ok && (outcome->count == leaving
                  || fault_say(fault, FAULT_RUN, "plot %zu, tick %" PRIu32 ": not one frame for each command that leaves", sheet->plots, plot->ticks));
}

/* An E.7 and the E.8 that acknowledges it. */
bool sheet_answer(struct sheet *sheet, const struct event *event, const struct event_outcome *outcome, struct fault *fault)
{
    struct sheet_plot *plot = &sheet->plot[sheet->plots - 1];
    struct sheet_line *line;
    scm_message answer, acknowledged;

    if (!event_message(SCM_CLIENT, SCM_ANSWER, event->bytes, &answer, fault)
        || !event_message(SCM_MASTER, SCM_ANSWER_ACKNOWLEDGEMENT, outcome->out, &acknowledged, fault)) {
        return false;
    }
    line = sheet_line_of(plot, event->slot, answer.step.tan);
    if (line == NULL || acknowledged.step.tan != answer.step.tan || acknowledged.step.status != answer.step.status) {
        return fault_say(fault, FAULT_RUN, "plot %zu, tick %" PRIu32 ": an answer to no command, or not acknowledged", sheet->plots, plot->ticks);
    }
    if (line->answered == 0) {
        line->answered = plot->ticks;
    }
    if (answer.step.status != SCM_STARTED) {
        line->done = plot->ticks;
    }
    return true;
}

/* When step i leaves: the latest of these ticks, for each step j up to i: the tick where j is due, plus i minus j. */
static uint32_t sheet_leaving_tick(const struct sheet_plot *plot, size_t i)
{
    uint32_t latest = 0;

    for (size_t j = 0; j <= i; j++) {
        uint32_t tick = plot->lines[j].due + (uint32_t)(i - j);
        latest = tick > latest ? tick : latest;
    }
    return latest;
}

static uint32_t sheet_bits(uint32_t set)
{
    uint32_t count = 0;

    for (; set != 0; set &= set - 1) {
        count++;
    }
    return count;
}

/* NULL, or what is wrong with step i of the plot. */
static const char *sheet_wrong(const struct sheet *sheet, const struct sheet_plot *plot, size_t i)
{
    const scm_step_view *step = &sheet->recorded[i];
    const struct sheet_line *line = &plot->lines[i];

    if (i >= plot->sent || line->frame[0] != step->slot || line->command.function != step->function || line->command.state != step->state
        || line->command.value != step->value) {
        return "the command is not the recorded step";
    }
    if (line->due == 0 || line->left != sheet_leaving_tick(plot, i)) {
        return "left at another tick than promised";
    }
    if (line->answered == 0 || line->answered - line->left > SCM_ANSWER_TICKS || line->done == 0) {
        return "not answered in time, or not done";
    }
    return NULL;
}

/* What step i of plot p adds to the sheet's figures. */
static void sheet_count(struct sheet *sheet, size_t p, size_t i)
{
    struct sheet_plot *plot = &sheet->plot[p];
    const struct sheet_line *line = &plot->lines[i];
    const struct sheet_line *latest = &plot->lines[plot->latest];
    const struct sheet_line *slowest = &sheet->plot[sheet->slowest_plot].lines[sheet->slowest_step];

    sheet->commands++;
    sheet->repeats += sheet_bits(line->times) - 1;
    for (uint32_t rest = line->times; rest != 0; rest >>= 1) {
        uint32_t often = sheet_bits(rest & 0x3FF);          /* ten ticks in a row */
        sheet->busiest = often > sheet->busiest ? often : sheet->busiest;
    }
    if (line->late > latest->late || (line->late == latest->late && line->late_mm > latest->late_mm)) {
        plot->latest = i;
    }
    if (line->late_mm > sheet->plot[sheet->furthest_plot].lines[sheet->furthest_step].late_mm) {
        sheet->furthest_plot = p;
        sheet->furthest_step = i;
    }
    if (line->answered - line->left > slowest->answered - slowest->left) {
        sheet->slowest_plot = p;
        sheet->slowest_step = i;
    }
    if (line->frame[0] == POOL_DRILL && line->command.function == POOL_COULTERS && line->command.state == POOL_DOWN) {
        plot->lowered = true;
        plot->depth = line->command.value;
    }
}

bool sheet_check(struct sheet *sheet, struct fault *fault)
{
    struct sheet_plot *plot = &sheet->plot[sheet->plots - 1];
    const struct sheet_plot *latest = &sheet->plot[sheet->latest_plot];

    for (size_t i = 0; i < sheet->steps; i++) {
        const char *wrong = sheet_wrong(sheet, plot, i);
        if (wrong != NULL) {
            return fault_say(fault, FAULT_RUN, "plot %zu, step %zu: %s", sheet->plots, i + 1, wrong);
        }
        sheet_count(sheet, sheet->plots - 1, i);
    }
    if (plot->lines[plot->latest].late > latest->lines[latest->latest].late) {
        sheet->latest_plot = sheet->plots - 1;
    }
    return plot->lowered || fault_say(fault, FAULT_RUN, "plot %zu: the coulters never went down", sheet->plots);
}

/* The nearest whole number, and of two that are equally near the even one, as the library prints. In whole numbers, for a quotient in a double is
   rounded when it is made, and again when it is printed. */
static uint32_t sheet_nearest(uint64_t number, uint64_t by)
{
    uint64_t whole = number / by, rest = number % by;

    return (uint32_t)(whole + (rest > by - rest || (rest == by - rest && whole % 2 == 1)));
}

uint32_t sheet_speed(const struct sheet_plot *plot)
{
    return sheet_nearest((uint64_t)plot->distance * 9, (uint64_t)plot->ticks * 25);     /* a millimetre a tick is 0.036 km/h, 9 / 25 of a tenth */
}

uint32_t sheet_pace(const struct sheet_plot *plot)
{
    return sheet_nearest(plot->distance, plot->ticks);
}

void sheet_tenths_text(uint32_t tenths, char text[SHEET_TENTHS_BYTES])
{
    snprintf(text, SHEET_TENTHS_BYTES, "%" PRIu32 ".%" PRIu32, tenths / 10, tenths % 10);
}

static void sheet_print_answers(FILE *f, const struct sheet *sheet)
{
    const struct sheet_plot *latest = &sheet->plot[sheet->latest_plot];
    uint32_t late = latest->lines[latest->latest].late;
    uint32_t depth = sheet->plot[0].depth;
    size_t alike = 0;
    char shown[POOL_TEXT_BYTES], seconds[SHEET_TENTHS_BYTES];

    for (size_t p = 0; p < sheet->plots; p++) {
        alike += sheet->plot[p].depth == depth;
    }
    pool_shown_text(&sheet->clients[POOL_DRILL], POOL_COULTERS, depth, shown);
    sheet_tenths_text(late, seconds);
    fprintf(f, "The inspector's three questions\n"
            "1. At what depth was each plot drilled?\n"
            "   Commanded: %s. In %zu of %zu plots the coulters were commanded down to the recorded value, %" PRIu32 ".\n"
            "   The depth is printed from the exact value, to the nearest last digit. The double for a screen is %s.\n"
            "   How deep the soil was cut the library does not know.\n", shown, alike, sheet->plots, depth,
            pool_shown_exact(&sheet->clients[POOL_DRILL], POOL_COULTERS, depth) ? "exact" : "rounded");
    fprintf(f, "2. Was the replayed step the recorded step?\n"
            "   Yes: %zu of %zu commands had the recorded client, function, state and value, and %zu repeats were the same eight bytes again.\n",
            sheet->commands, sheet->steps * sheet->plots, sheet->repeats);
    fprintf(f, "3. How late could it come?\n"
            "   Here a step left at most %" PRIu32 " ticks (%s s) after its own mark was reached, first so in plot %zu, step %zu; and at most %" PRIu32
            " mm\n   beyond where it was due, first so in plot %zu, step %zu.\n",
            late, seconds, sheet->latest_plot + 1, latest->latest + 1, sheet->plot[sheet->furthest_plot].lines[sheet->furthest_step].late_mm,
            sheet->furthest_plot + 1, sheet->furthest_step + 1);
    fprintf(f, "   Proved for every playback: no step leaves before its mark, and step n leaves at most n - 1 ticks after the last mark of steps 1 to n\n"
            "   was reached; so step %zu at most %zu ticks after all marks were reached.\n", sheet->steps, sheet->steps - 1);
}

/* A line for each plot, and the test bench's question. */
static void sheet_print_plots(FILE *f, const struct sheet *sheet)
{
    char shown[POOL_TEXT_BYTES], step[POOL_TEXT_BYTES], speed[SHEET_TENTHS_BYTES];

    fprintf(f, "\nThe plots, a line each. The latest step is the one that left most ticks, of a tenth of a second, after the tick at which it was due;\n"
            "the millimetres are those driven between these two ticks.\n"
            "  plot     speed  depth commanded  latest step, ticks    mm  step\n");
    for (size_t p = 0; p < sheet->plots; p++) {
        const struct sheet_plot *plot = &sheet->plot[p];
        const struct sheet_line *line = &plot->lines[plot->latest];
        pool_shown_text(&sheet->clients[POOL_DRILL], POOL_COULTERS, plot->depth, shown);
        pool_step_text(&sheet->clients[line->frame[0]], line->command.function, line->command.state, step);
        sheet_tenths_text(sheet_speed(plot), speed);
        fprintf(f, "  %4zu  %s km/h  %15s  %18" PRIu32 "  %4" PRIu32 "  %4zu  %s\n", p + 1, speed, shown, line->late, line->late_mm, plot->latest + 1, step);
    }
    fprintf(f, "\nThe test bench's question\n"
            "   How often does a command leave? Here at most %" PRIu32 " times in a second, which is ten ticks in a row.\n"
            "   Proved for every run of calls: at most five times in ten ticks in a row, and never at two ticks in a row.\n", sheet->busiest);
}

/* Step i as the lines of a sheet begin, and in shown what a screen says of this value of it. */
static void sheet_print_step(FILE *f, const struct sheet *sheet, size_t i, uint32_t value, char shown[POOL_TEXT_BYTES])
{
    const scm_step_view *s = &sheet->recorded[i];
    const struct pool *client = &sheet->clients[s->slot];
    char name[POOL_TEXT_BYTES], step[POOL_TEXT_BYTES];

    pool_client_text(client, name);
    pool_step_text(client, s->function, s->state, step);
    pool_shown_text(client, s->function, value, shown);
    fprintf(f, "  %4zu  %-17s  %-13s  %8" PRIu32, i + 1, name, step, s->value);
}

static void sheet_print_sheets(FILE *f, const struct sheet *sheet)
{
    char shown[POOL_TEXT_BYTES];

    fprintf(f, "\nA step is due at the first tick that reaches its mark. Its command leaves, is repeated at every second tick until its client answers, and\n"
            "is done when the client says so.\n\nThe plot end as recorded, edition %" PRIu32 ": %s\n"
            "  step  client             function       recorded       shown    mark\n",
            sheet->edition, sheet->edition == SCM_EDITION_2 ? "bound to the drill that recorded it" : "masks and master NAMEs say who may replay it");
    for (size_t i = 0; i < sheet->steps; i++) {
        const scm_step_view *s = &sheet->recorded[i];
        sheet_print_step(f, sheet, i, s->value, shown);
        fprintf(f, "  %10s  %6" PRIu32 " %s\n", shown, s->mark, s->distance ? "mm" : "ticks");
    }
    for (size_t p = 0; p < sheet->plots; p++) {
        const struct sheet_plot *plot = &sheet->plot[p];
        fprintf(f, "\nPlot %zu: %" PRIu32 " mm in %" PRIu32 " ticks\n", p + 1, plot->distance, plot->ticks);
        fprintf(f, "  step  client             function       recorded  commanded       shown  due  left  answered  done\n");
        for (size_t i = 0; i < plot->sent; i++) {
            const struct sheet_line *l = &plot->lines[i];
            sheet_print_step(f, sheet, i, l->command.value, shown);
            fprintf(f, "  %9" PRIu32 "  %10s  %3" PRIu32 "  %4" PRIu32 "  %8" PRIu32 "  %4" PRIu32 "\n", l->command.value, shown, l->due, l->left,
                    l->answered, l->done);
        }
    }
}

void sheet_print(FILE *f, const struct sheet *sheet, bool full)
{
    sheet_print_answers(f, sheet);
    sheet_print_plots(f, sheet);
    if (full) {
        sheet_print_sheets(f, sheet);
    }
}
