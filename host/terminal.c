/* A terminal over include/scm.h, to try and to copy. It plays a drill of two clients: records one plot end, or takes it up from a file, binds it to the
   drill where that is wanted, and replays it at twenty. */
#include <stdarg.h>
#include <string.h>

#include "host.h"

#define SILENT_TICKS 10u            /* a client that has not answered a command for so long is named; the playback ends after SCM_ANSWER_TICKS */
#define STATE_BYTES 8u              /* a state's object in a pool */

bool terminal_make(struct terminal *t, FILE *log, struct fault *fault)
{
    *t = (struct terminal){.drill.mute = POOL_CLIENTS, .log = log};
    scm_init(&t->master);
    ticker_simulated(&t->ticker);
    return pool_make(POOL_DRILL, &t->clients[POOL_DRILL], fault) && pool_make(POOL_FAN, &t->clients[POOL_FAN], fault);
}

static void terminal_remark(struct terminal *t, const char *format, ...)
{
    va_list values;

    if (t->log != NULL) {
        va_start(values, format);
        vfprintf(t->log, format, values);
        va_end(values);
    }
}

/* An event that must give this number. */
static bool terminal_expect(struct terminal *t, struct event event, uint8_t number, struct fault *fault)
{
    struct event_text text;

    if (t->log != NULL) {
        event_write(t->log, &event);
    }
    event_run(&t->master, &event, &t->outcome);
    event_outcome_text(&event, &t->outcome, &text);
    terminal_remark(t, "%s", text.bytes);
    return t->outcome.number == number
        || fault_say(fault, FAULT_RUN, "%s: %.*s", event_forms[event.kind].word, (int)strcspn(text.bytes, "\n") - 3, text.bytes + 3);
}

static bool terminal_do(struct terminal *t, struct event event, struct fault *fault)
{
    return terminal_expect(t, event, SCM_OK, fault);
}

/* All attached clients report. On a drill each does so by itself, several times a second. */
static bool terminal_all_report(struct terminal *t, uint8_t report, struct fault *fault)
{
    bool ok = true;

    for (uint32_t slot = 0; ok && slot < POOL_CLIENTS; slot++) {
        scm_slot_view view;
        ok = fault_unless_done(fault, "slot", scm_slot(&t->master, slot, &view))
          && (view.taken == 0 || terminal_do(t, (struct event){.kind = EVENT_REPORT, .slot = slot, .report = report}, fault));
    }
    return ok;
}

/* A client's pool has come. */
static struct event terminal_pool(const struct terminal *t, uint32_t slot)
{
    const struct pool *pool = &t->clients[slot];

    return (struct event){.kind = EVENT_ATTACH, .slot = slot, .name = pool->name, .bytes = pool->bytes, .length = pool->length};
}

/* A client's pool has come, and the operator wants the client. */
static bool terminal_join(struct terminal *t, uint32_t slot, struct fault *fault)
{
    return terminal_do(t, terminal_pool(t, slot), fault) && terminal_do(t, (struct event){.kind = EVENT_ENABLE, .slot = slot}, fault);
}

static bool terminal_set_up(struct terminal *t, struct fault *fault)
{
    return terminal_do(t, (struct event){.kind = EVENT_ON}, fault) && terminal_join(t, POOL_DRILL, fault) && terminal_join(t, POOL_FAN, fault)
        && terminal_all_report(t, SCM_REPORT_READY, fault);
}

/* Ticks are called by the clock: each one that is called is counted. */
static bool terminal_tick(struct terminal *t, uint32_t mm, struct fault *fault)
{
    t->ticker.called++;
    return terminal_do(t, (struct event){.kind = EVENT_TICK, .mm = mm}, fault);
}

/* What the clients indicate up to this tick. An E.5 may say no though the number is 0: so it is looked at. */
static bool terminal_indications(struct terminal *t, uint32_t tick, uint32_t depth, struct fault *fault)
{
    struct event event;
    scm_message answer;
    bool ok = true;

    while (ok && drill_indicates(&t->drill, tick, depth, &event)) {
        ok = terminal_do(t, event, fault) && event_message(SCM_MASTER, SCM_INDICATION_RESPONSE, t->outcome.out, &answer, fault)
          && (answer.step.error == SCM_INDICATION_TAKEN
              || fault_say(fault, FAULT_RUN, "an indication was not recorded: %s", scm_indication_error_text(answer.step.error)));
    }
    return ok;
}

/* The driver drives one plot end by hand, at 140 mm a tick, which is 5 km/h, and the clients indicate what he does. */
static bool terminal_record(struct terminal *t, uint32_t depth, struct fault *fault)
{
    bool ok = terminal_do(t, (struct event){.kind = EVENT_RECORD}, fault) && terminal_all_report(t, SCM_REPORT_RECORD, fault);
    uint32_t tick = 0;
    uint32_t due;

    drill_begins(&t->drill, 0);
    while (ok && t->drill.said < DRILL_INDICATIONS) {
        ok = ticker_due(&t->ticker, &due, fault);
        for (; ok && due > 0; due--) {
            tick++;
            ok = terminal_tick(t, 140, fault) && terminal_indications(t, tick, depth, fault)
              && (tick != DRILL_STOPS || terminal_do(t, (struct event){.kind = EVENT_STOP}, fault));
        }
    }
    return ok && (scm_state(&t->master) == SCM_READY || fault_say(fault, FAULT_RUN, "the recording did not end"))
        && terminal_all_report(t, SCM_REPORT_READY, fault);
}

/* The millimetres driven in a tick: each plot has its speed, and it varies within the plot. */
static uint32_t terminal_driven(unsigned plot, uint32_t tick)
{
    static const uint32_t speeds[SHEET_PLOTS] = {140, 131, 118, 152, 163, 127, 109, 145, 170, 136, 122, 158, 174, 113, 148, 133, 166, 105, 141, 155};
    static const uint32_t more[8] = {0, 3, 7, 9, 8, 4, 1, 2};

    return speeds[plot % SHEET_PLOTS] + more[(tick + plot) % 8];
}

/* The E.7s that have come up to a tick, and the E.8s to send. */
static bool terminal_answers(struct terminal *t, uint32_t tick, struct fault *fault)
{
    struct event event;
    bool ok = true;

    while (ok && drill_answers(&t->drill, tick, &event)) {
        ok = terminal_do(t, event, fault) && (t->sheet == NULL || sheet_answer(t->sheet, &event, &t->outcome, fault));
    }
    return ok;
}

/* For how many ticks a command has had no answer, the longest, and who has to give it; 0 where none waits. */
static uint32_t terminal_silence(const struct terminal *t, char who[128])
{
    scm_progress_view progress = scm_progress(&t->master);
    char client[POOL_TEXT_BYTES];
    scm_step_view step;
    scm_sent_view sent;

    for (size_t i = 0; i < progress.count && scm_sent(&t->master, i, &sent) == SCM_OK && scm_step(&t->master, i, &step) == SCM_OK; i++) {
        if (sent.answer == SCM_UNANSWERED && step.slot < POOL_CLIENTS) {
            pool_client_text(&t->clients[step.slot], client);
            snprintf(who, 128, "%s (slot %u) for step %zu", client, (unsigned)step.slot, i + 1);
            return progress.ticks - sent.left;              /* they left one after the other: the first one found has waited longest */
        }
    }
    return 0;
}

/* The frames of the ticks that are called at once. A frame that comes in more than one of them is sent once. */
struct terminal_frames {
    size_t count, again;
    uint8_t frames[SCM_STEPS][SCM_FRAME_BYTES];
};

static void terminal_collect(struct terminal_frames *box, const struct event_outcome *outcome)
{
    for (uint32_t i = 0; i < outcome->count; i++) {
        const uint8_t *frame = outcome->frames + SCM_FRAME_BYTES * i;
        size_t k = 0;
        while (k < box->count && memcmp(box->frames[k], frame, SCM_FRAME_BYTES) != 0) {
            k++;
        }
        if (k < box->count) {
            box->again++;
        } else if (k < SCM_STEPS) {
            memcpy(box->frames[box->count++], frame, SCM_FRAME_BYTES);
        }
    }
}

/* One tick. A client that has not answered for long is named while there is time, and again where the tick ends the playback for it. */
static bool terminal_one_tick(struct terminal *t, struct terminal_frames *box, struct fault *fault)
{
    uint32_t mm = terminal_driven(t->drill.plot, scm_progress(&t->master).ticks + 1);
    bool playing = scm_state(&t->master) == SCM_PLAYBACK;
    char who[128];
    uint32_t silent = terminal_silence(t, who);

    if (silent == SILENT_TICKS) {
        terminal_remark(t, "# no answer for %" PRIu32 " ticks: %s\n", silent, who);
    }
    if (!terminal_tick(t, mm, fault)) {
        return false;
    }
    terminal_collect(box, &t->outcome);
    if (scm_state(&t->master) == SCM_ABORT && silent == SCM_ANSWER_TICKS) {
        snprintf(t->why, sizeof t->why, "no answer in time: %s", who);
        terminal_remark(t, "# %s\n", t->why);
    }
    return !playing || scm_state(&t->master) != SCM_PLAYBACK || t->sheet == NULL || sheet_tick(t->sheet, mm, &t->outcome, fault);
}

/* A turn of the terminal: it waits for the clock, hands over what came before, calls a tick for each 100 ms that have passed, in whatever state, sends
   the frames, each once, and hands over what comes before the next tick. */
static bool terminal_turn(struct terminal *t, struct fault *fault)
{
    struct terminal_frames box = {.count = 0};
    uint32_t tick = scm_progress(&t->master).ticks;
    uint32_t due;
    bool ok = ticker_due(&t->ticker, &due, fault) && terminal_answers(t, tick + due - 1, fault);

    for (uint32_t called = 0; ok && called < due; called++) {
        ok = terminal_one_tick(t, &box, fault);
    }
    if (ok && due > 1) {
        terminal_remark(t, "# late: %" PRIu32 " ticks at once; frames sent: %zu, the same again and not sent twice: %zu\n", due, box.count, box.again);
    }
    for (size_t i = 0; ok && i < box.count; i++) {
        ok = drill_takes(&t->drill, tick + due, box.frames[i], fault);
    }
    t->at_once = ok && due > t->at_once ? due : t->at_once;
    return ok && (scm_state(&t->master) != SCM_PLAYBACK || terminal_answers(t, tick + due, fault));
}

/* Turns until the playback has ended, or so many ticks have been called. */
static bool terminal_turns(struct terminal *t, uint32_t ticks, struct fault *fault)
{
    uint32_t until = t->ticker.called + ticks;
    bool ok = true;

    while (ok && scm_state(&t->master) == SCM_PLAYBACK && t->ticker.called < until) {
        ok = terminal_turn(t, fault);
    }
    return ok;
}

static bool terminal_replay(struct terminal *t, unsigned plot, uint32_t ticks, struct fault *fault)
{
    drill_begins(&t->drill, plot);
    snprintf(t->why, sizeof t->why, "not for want of an answer");
    if (t->sheet != NULL) {
        t->sheet->plots++;
    }
    return terminal_do(t, (struct event){.kind = EVENT_START}, fault) && terminal_all_report(t, SCM_REPORT_PLAYBACK, fault)
        && terminal_turns(t, ticks, fault);
}

/* From abort to ready: the clients report abort, and then ready. */
static bool terminal_back_to_ready(struct terminal *t, struct fault *fault)
{
    return terminal_all_report(t, SCM_REPORT_ABORT, fault) && (scm_state(&t->master) == SCM_READY || fault_say(fault, FAULT_RUN, "the abort did not end"))
        && terminal_all_report(t, SCM_REPORT_READY, fault);
}

bool terminal_september(struct terminal *t, uint32_t depth, struct fault *fault)
{
    return terminal_set_up(t, fault) && terminal_record(t, depth, fault);
}

/* From now on a client with another identity number gets 9, whatever its mask leaves open: here, and wherever the sequence is loaded that is stored
   now. */
bool terminal_bind(struct terminal *t, struct fault *fault)
{
    return terminal_do(t, (struct event){.kind = EVENT_EDITION, .edition = SCM_EDITION_2}, fault);
}

bool terminal_save(struct terminal *t, const char *path, struct fault *fault)
{
    return terminal_do(t, (struct event){.kind = EVENT_STORE, .lent = SCM_STORE_BYTES}, fault)
        && keep_write(path, t->outcome.blocks, t->outcome.written, fault);
}

bool terminal_march(struct terminal *t, const char *path, struct fault *fault)
{
    uint8_t blocks[KEEP_BYTES];
    struct event load = {.kind = EVENT_LOAD, .bytes = blocks};
    struct fault inner;

    return keep_read(path, blocks, &load.length, fault) && terminal_set_up(t, fault)
        && (terminal_do(t, load, &inner) || keep_refused(path, load.length, t->outcome.number, fault));
}

bool terminal_verified(const struct terminal *t, const char *path, struct fault *fault)
{
    scm_check_view where;
    uint8_t number = scm_verify(&t->master, &where);
    char step[32] = "";

    if (number == SCM_NOT_IN_POOL) {
        snprintf(step, sizeof step, ", step %zu", where.step + 1);
    }
    return number == SCM_OK || fault_say(fault, FAULT_RUN, "%s: a start would be refused: %u %s: slot %zu%s", path, (unsigned)number,
                                         scm_number_text(number), where.slot, step);
}

bool terminal_play(struct terminal *t, struct sheet *sheet, struct fault *fault)
{
    bool ok = sheet_recorded(sheet, t->clients, &t->master, fault);

    t->sheet = sheet;
    for (unsigned plot = 0; ok && plot < SHEET_PLOTS; plot++) {
        ok = terminal_replay(t, plot, SCM_LAST_TICK, fault)
          && (scm_state(&t->master) == SCM_READY || fault_say(fault, FAULT_RUN, "plot %u: the playback ended in an abort: %s", plot + 1, t->why))
          && sheet_check(sheet, fault) && terminal_all_report(t, SCM_REPORT_READY, fault);
    }
    return ok;
}

bool terminal_live(struct terminal *t, uint32_t seconds, struct fault *fault)
{
    bool ok = terminal_september(t, 240, fault) && ticker_real(&t->ticker, fault);
    uint32_t last = 10 * seconds;

    for (unsigned plot = 0; ok && t->ticker.called < last; plot++) {
        ok = terminal_replay(t, plot, last - t->ticker.called, fault)
          && (scm_state(&t->master) != SCM_PLAYBACK || terminal_do(t, (struct event){.kind = EVENT_ABORT}, fault))
          && (scm_state(&t->master) == SCM_ABORT ? terminal_back_to_ready(t, fault) : terminal_all_report(t, SCM_REPORT_READY, fault));
    }
    return ok;
}

/* ---- What goes wrong on a field. The log is a file of events like every other. */

static bool terminal_refused_pool(struct terminal *t, struct fault *fault)
{
    struct event cut = terminal_pool(t, POOL_FAN);
    bool ok;

    terminal_remark(t, "# What goes wrong on a field, and how the terminal goes on, as terminal --mishaps prints it. Remarks in small letters are its own.\n\n"
                    "# The fan's pool comes without its last object, which its function lists. It is refused: D.9 has the code and the object.\n");
    cut.length -= STATE_BYTES;
    ok = terminal_do(t, (struct event){.kind = EVENT_ON}, fault) && terminal_expect(t, cut, SCM_POOL_REFUSED, fault);
    terminal_remark(t, "\n# It comes again, whole, and so does the drill's: D.9 has code 00 and object FFFF. One plot end is recorded.\n");
    return ok && terminal_join(t, POOL_FAN, fault) && terminal_join(t, POOL_DRILL, fault) && terminal_all_report(t, SCM_REPORT_READY, fault)
        && terminal_record(t, 240, fault);
}

static bool terminal_stopped(struct terminal *t, struct fault *fault)
{
    terminal_remark(t, "\n# The operator stops a replay. The master is ready again when every enabled client has reported abort; then they report ready.\n");
    return terminal_replay(t, 0, 5, fault) && terminal_do(t, (struct event){.kind = EVENT_ABORT}, fault) && terminal_back_to_ready(t, fault);
}

static bool terminal_silent_client(struct terminal *t, struct fault *fault)
{
    bool ok;

    terminal_remark(t, "\n# The drill's controller still reports its state, but answers no command: it is named, and the replay ends in an abort.\n");
    t->drill.mute = POOL_DRILL;
    ok = terminal_replay(t, 0, SCM_LAST_TICK, fault);
    t->drill.mute = POOL_CLIENTS;
    return ok && terminal_back_to_ready(t, fault);
}

/* How long to wait for a status message is the host's choice; then the client is lost, and joins again as a new one does. */
static bool terminal_lost_client(struct terminal *t, struct fault *fault)
{
    bool ok;

    terminal_remark(t, "\n# The fan's status message has not come in time: it is lost. Its slot is empty, and the replay ends in an abort.\n");
    ok = terminal_replay(t, 0, 5, fault) && terminal_do(t, (struct event){.kind = EVENT_LOST, .slot = POOL_FAN}, fault) && terminal_back_to_ready(t, fault);
    terminal_remark(t, "\n# Without the fan a start is refused; with it again the sequence, which has stayed, is replayed to its end.\n");
    return ok && terminal_expect(t, (struct event){.kind = EVENT_START}, SCM_NOT_ENABLED, fault) && terminal_join(t, POOL_FAN, fault)
        && terminal_all_report(t, SCM_REPORT_READY, fault) && terminal_replay(t, 0, SCM_LAST_TICK, fault) && terminal_all_report(t, SCM_REPORT_READY, fault);
}

static bool terminal_held_up(struct terminal *t, struct fault *fault)
{
    bool ok;

    terminal_remark(t, "\n# The terminal is held up for half a second after tick 3: five ticks are called at once, and no frame is sent twice for them.\n");
    ok = terminal_replay(t, 0, 3, fault);
    t->ticker.late = 400;
    return ok && terminal_turns(t, SCM_LAST_TICK, fault);
}

bool terminal_mishaps(struct terminal *t, struct fault *fault)
{
    return terminal_refused_pool(t, fault) && terminal_stopped(t, fault) && terminal_silent_client(t, fault) && terminal_lost_client(t, fault)
        && terminal_held_up(t, fault)
        && (scm_state(&t->master) == SCM_READY || fault_say(fault, FAULT_RUN, "the replay after a delay did not end in ready"));
}
