/* The drill's two clients. While the driver records, they indicate what he does; while the master replays, they take commands and answer them. */
#include "host.h"

#define NO_VALUE 0xFFFFFFFFu        /* a start has no value yet */

/* A client's message as an event. Every field of the messages below is in its range, so each is written. */
static bool drill_sends(struct drill *drill, uint32_t slot, enum event_kind kind, const scm_message *message, struct event *event)
{
    size_t length;
    uint8_t number = scm_message_write(message, drill->message, sizeof drill->message, &length);

    *event = (struct event){.kind = kind, .slot = slot, .bytes = drill->message, .length = length};
    return number == SCM_OK;
}

/* Those of a catch-up come one after the other: each is sent once its tick has come. */
bool drill_indicates(struct drill *drill, uint32_t tick, uint32_t depth, struct event *event)
{
    /* The driver's plot end: tick, client, and of the E.4 function, state, status, 0 (it has no error), TAN, value. */
    const struct {
        uint32_t tick;
        uint32_t slot;
        scm_message_step step;
    } said[DRILL_INDICATIONS] = {
        {2, POOL_DRILL, {POOL_GATE, POOL_SHUT, SCM_AT_ONCE, 0, 0, 0}},
        {2, POOL_DRILL, {POOL_COULTERS, POOL_UP, SCM_STARTED, 0, 1, NO_VALUE}},
        {3, POOL_FAN, {POOL_BLOWER, POOL_SLOW, SCM_STARTED, 0, 0, NO_VALUE}},
        {8, POOL_DRILL, {POOL_COULTERS, POOL_UP, SCM_DONE, 0, 1, 0}},
        {9, POOL_FAN, {POOL_BLOWER, POOL_SLOW, SCM_DONE, 0, 0, 2400}},
        {14, POOL_FAN, {POOL_BLOWER, POOL_FAST, SCM_STARTED, 0, 1, NO_VALUE}},
        {16, POOL_DRILL, {POOL_COULTERS, POOL_DOWN, SCM_STARTED, 0, 2, NO_VALUE}},
        {19, POOL_FAN, {POOL_BLOWER, POOL_FAST, SCM_DONE, 0, 1, 4800}},
        {20, POOL_DRILL, {POOL_GATE, POOL_OPEN, SCM_AT_ONCE, 0, 3, 100}},
        {23, POOL_DRILL, {POOL_COULTERS, POOL_DOWN, SCM_DONE, 0, 2, depth}},    /* the driver has stopped already; the master waits for this one */
    };
    scm_message indication = {.kind = SCM_INDICATION};
    size_t i = drill->said;

    if (i >= DRILL_INDICATIONS || said[i].tick > tick) {
        return false;
    }
    drill->said++;
    indication.step = said[i].step;
    return drill_sends(drill, said[i].slot, EVENT_INDICATION, &indication, event);
}

void drill_begins(struct drill *drill, unsigned plot)
{
    *drill = (struct drill){.plot = plot, .mute = drill->mute};
}

/* How many ticks pass before a command's first answer, and how many more until it is done: no two plots are quite alike. At plot 13 the gate
   sticks when it opens, and answers as late as it may. */
static uint32_t drill_reply_time(const struct drill *drill, const scm_message_step *step)
{
    uint32_t more = drill->plot % 3;

    if (step->function == POOL_GATE && step->state == POOL_OPEN && drill->plot == 12) {
        return SCM_ANSWER_TICKS;
    }
    switch (step->function) {
    case POOL_GATE: return more;
    case POOL_COULTERS: return 1 + more;
    default: return 3 - more;
    }
}

static uint32_t drill_run_time(const struct drill *drill, const scm_message_step *step)
{
    switch (step->function) {
    case POOL_GATE: return 0;
    case POOL_COULTERS: return 6 + drill->plot % 2;
    default: return 5;
    }
}

bool drill_takes(struct drill *drill, uint32_t tick, const uint8_t frame[SCM_FRAME_BYTES], struct fault *fault)
{
    scm_message command;
    uint32_t answered;

    if (!event_message(SCM_MASTER, SCM_COMMAND, frame + 1, &command, fault)) {
        return false;
    }
    for (size_t i = 0; i < drill->count; i++) {
        if (drill->tasks[i].slot == frame[0] && drill->tasks[i].step.tan == command.step.tan) {
            return true;
        }
    }
    if (drill->count >= SCM_STEPS) {
        return fault_say(fault, FAULT_RUN, "more commands than a sequence has steps");
    }
    answered = tick + drill_reply_time(drill, &command.step);
    drill->tasks[drill->count++] = (struct drill_task){.slot = frame[0], .step = command.step, .answered = answered,
                                                       .done = answered + drill_run_time(drill, &command.step)};
    return true;
}

bool drill_answers(struct drill *drill, uint32_t tick, struct event *event)
{
    for (size_t i = 0; i < drill->count; i++) {
        struct drill_task *task = &drill->tasks[i];
        bool first = !task->told && task->answered <= tick;
        bool last = !task->finished && task->done <= tick && (task->told || task->done == task->answered);
        scm_message answer = {.kind = SCM_ANSWER, .step = task->step};

        if (task->slot != drill->mute && (first || last)) {
            answer.step.status = last ? SCM_DONE : SCM_STARTED;
            if (first && last) {
                answer.step.status = SCM_AT_ONCE;
            }
            task->told = true;
            task->finished = last;
            return drill_sends(drill, task->slot, EVENT_ANSWER, &answer, event);
        }
    }
    return false;
}
