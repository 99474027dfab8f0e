/* An event is one call of the library. What came of it is written down after "#=", so that a log is a file of events itself: run again, it gives
   the same log. */
#include <stdarg.h>

#include "host.h"

const struct event_form event_forms[EVENT_KINDS] = {
    [EVENT_ON] = {"on", "", NULL}, [EVENT_OFF] = {"off", "", NULL}, [EVENT_ATTACH] = {"attach", "snb", "D.9"}, [EVENT_ENABLE] = {"enable", "s", "E.2"},
    [EVENT_DISABLE] = {"disable", "s", "E.2"}, [EVENT_REPORT] = {"report", "sr", NULL}, [EVENT_LOST] = {"lost", "s", NULL},
    [EVENT_RECORD] = {"record", "", NULL}, [EVENT_STOP] = {"stop", "", NULL}, [EVENT_CANCEL] = {"cancel", "", NULL},
    [EVENT_INDICATION] = {"indication", "sb", "E.5"}, [EVENT_CLIENT_ABORT] = {"client_abort", "sb", NULL}, [EVENT_START] = {"start", "", NULL},
    [EVENT_ABORT] = {"abort", "", NULL}, [EVENT_TICK] = {"tick", "m", NULL}, [EVENT_ANSWER] = {"answer", "sb", "E.8"},
    [EVENT_STORE] = {"store", "l", NULL}, [EVENT_LOAD] = {"load", "k", NULL}, [EVENT_EDITION] = {"edition", "e", NULL},
};

#define ALIKE 8u                    /* of blocks, which are mostly 0, so many bytes alike in a row are written as one, with their number */

/* A client's pool has come. It is answered by D.9: where the pool is refused with the code and the object that the master gives, else with 00 and FFFF. */
static uint8_t event_attach(scm_master *m, const struct event *e, struct event_outcome *o)
{
    scm_message answer = {.kind = SCM_POOL_ACKNOWLEDGEMENT, .code = SCM_POOL_TAKEN, .object = 0xFFFF};
    uint8_t number = scm_attach(m, e->slot, e->name, e->bytes, e->length, &o->code, &o->object);

    if (number == SCM_POOL_REFUSED) {
        answer.code = o->code;
        answer.object = o->object;
    }
    if (number == SCM_OK || number == SCM_POOL_REFUSED) {
        o->sends = scm_message_write(&answer, o->out, sizeof o->out, NULL) == SCM_OK;
    }
    return number;
}

/* A start that is refused gives the number of the first check that does not hold, which is read before it, with slot and step. */
static uint8_t event_start(scm_master *m, struct event_outcome *o)
{
    uint8_t first = scm_verify(m, &o->check);
    uint8_t number = scm_start(m);

    o->checked = number == first && number >= SCM_NOT_ENABLED && number <= SCM_NOT_READY;
    return number;
}

/* The sequence is the one of the blocks. How many steps it has, and its edition, is read where it was taken up. */
static uint8_t event_load(scm_master *m, const struct event *e, struct event_outcome *o)
{
    uint8_t number = scm_load(m, e->bytes, e->length);

    o->steps = number == SCM_OK ? scm_step_count(m) : 0;
    o->edition = number == SCM_OK ? scm_sequence_edition(m) : 0;
    return number;
}

/* The edition is read where it was set. */
static uint8_t event_edition(scm_master *m, const struct event *e, struct event_outcome *o)
{
    uint8_t number = scm_edition(m, e->edition);

    o->edition = number == SCM_OK ? scm_sequence_edition(m) : 0;
    return number;
}

/* The library leaves the new state in the master; with any number but 0 the old one stays. */
static uint8_t event_call(scm_master *m, const struct event *e, struct event_outcome *o)
{
    switch (e->kind) {
    case EVENT_ON: return scm_on(m);
    case EVENT_OFF: return scm_off(m);
    case EVENT_ATTACH: return event_attach(m, e, o);
    case EVENT_ENABLE: return scm_enable(m, e->slot, o->out, sizeof o->out);
    case EVENT_DISABLE: return scm_disable(m, e->slot, o->out, sizeof o->out);
    case EVENT_REPORT: return scm_report(m, e->slot, e->report);
    case EVENT_LOST: return scm_lost(m, e->slot);
    case EVENT_RECORD: return scm_record(m);
    case EVENT_STOP: return scm_stop(m);
    case EVENT_CANCEL: return scm_cancel(m);
    case EVENT_INDICATION: return scm_indication(m, e->slot, e->bytes, e->length, o->out, sizeof o->out);
    case EVENT_CLIENT_ABORT: return scm_client_abort(m, e->slot, e->bytes, e->length);
    case EVENT_START: return event_start(m, o);
    case EVENT_ABORT: return scm_abort(m);
    case EVENT_TICK: return scm_tick(m, e->mm, o->frames, sizeof o->frames, &o->count);
    case EVENT_ANSWER: return scm_answer(m, e->slot, e->bytes, e->length, o->out, sizeof o->out);
    case EVENT_STORE: return scm_store(m, o->blocks, e->lent, &o->written);
    case EVENT_LOAD: return event_load(m, e, o);
    case EVENT_EDITION: return event_edition(m, e, o);
    default: return SCM_WRONG_VALUE;
    }
}

void event_run(scm_master *master, const struct event *e, struct event_outcome *o)
{
    uint32_t ticks = scm_progress(master).ticks;

    *o = (struct event_outcome){.before = scm_state(master)};
    o->number = event_call(master, e, o);
    o->after = scm_state(master);
    if (o->number == SCM_OK && e->kind != EVENT_ATTACH) {
        o->sends = event_forms[e->kind].message != NULL;
    }
    if (o->number == SCM_OK && e->kind == EVENT_TICK && (o->before == SCM_RECORD || o->before == SCM_RECORD_COMPLETE || o->before == SCM_PLAYBACK)) {
        o->tick = ticks + 1;
    }
}

/* The byte at the front as it is written, and how many it stands for: of as many alike as are wanted in a row for that, XX*N stands for all. */
static size_t event_byte(const uint8_t *bytes, size_t length, size_t wanted, char text[32])
{
    size_t alike = 1;

    while (alike < length && bytes[alike] == bytes[0]) {
        alike++;
    }
    if (alike < wanted) {
        snprintf(text, 32, " %02X", bytes[0]);
        return 1;
    }
    snprintf(text, 32, " %02X*%zu", bytes[0], alike);
    return alike;
}

void event_write(FILE *log, const struct event *e)
{
    char byte[32];


    fprintf(log, "%s", event_forms[e->kind].word);
    for (const char *field = event_forms[e->kind].fields; *field != '\0'; field++) {
        switch (*field) {
        case 's': fprintf(log, " %" PRIu32, e->slot); break;
        case 'n': fprintf(log, " %016" PRIX64, e->name); break;
        case 'r': fprintf(log, " %s", scm_report_text(e->report)); break;
        case 'm': fprintf(log, " %" PRIu32, e->mm); break;
        case 'e': fprintf(log, " %" PRIu32, e->edition); break;
        case 'l': fprintf(log, e->lent < SCM_STORE_BYTES ? " %" PRIu32 : "", e->lent); break;
        default: break;                                     /* bytes come last */
        }
    }
    for (size_t i = 0; i < e->length;) {
        i += event_byte(e->bytes + i, e->length - i, e->kind == EVENT_LOAD ? ALIKE : SIZE_MAX, byte);
        fprintf(log, "%s", byte);
    }
    fprintf(log, "\n");
}

static void event_add(struct event_text *text, const char *format, ...)
{
    size_t room = sizeof text->bytes - text->length;
    va_list values;
    int length;

    va_start(values, format);
    length = vsnprintf(text->bytes + text->length, room, format, values);
    va_end(values);
    text->length += length > 0 && (size_t)length < room ? (size_t)length : 0;
}

/* A message to send. */
static void event_add_message(struct event_text *text, const char *message, uint32_t slot, const uint8_t bytes[8])
{
    event_add(text, "#=   %s to slot %" PRIu32 ":", message, slot);
    for (size_t i = 0; i < 8; i++) {
        event_add(text, " %02X", bytes[i]);
    }
    event_add(text, "\n");
}

/* A stored sequence, a line for each block. */
static void event_add_blocks(struct event_text *text, const struct event_outcome *o)
{
    char byte[32];

    for (size_t block = 0; block < o->written; block += SCM_BLOCK_BYTES) {
        event_add(text, "#=   block %zu:", block / SCM_BLOCK_BYTES + 1);
        for (size_t i = 0; i < SCM_BLOCK_BYTES;) {
            i += event_byte(o->blocks + block + i, SCM_BLOCK_BYTES - i, ALIKE, byte);
            event_add(text, "%s", byte);
        }
        event_add(text, "\n");
    }
}

/* The number in words, and what belongs to it: code and object of a refused pool, slot and step at which a start was refused, the bytes stored, the
   steps loaded, the edition loaded or set. */
static void event_add_number(struct event_text *text, const struct event_outcome *o)
{
    event_add(text, "#= %u %s", (unsigned)o->number, scm_number_text(o->number));
    if (o->number == SCM_POOL_REFUSED) {
        event_add(text, ": code %02X, object %04X, %s", o->code, o->object, scm_pool_code_text(o->code));
    }
    if (o->checked) {
        event_add(text, ": slot %zu", o->check.slot);
    }
    if (o->checked && o->number == SCM_NOT_IN_POOL) {
        event_add(text, ", step %zu", o->check.step + 1);   /* counted from 1, as on the sheet */
    }
    if (o->tick > 0) {
        event_add(text, ", tick %" PRIu32, o->tick);
    }
    if (o->written > 0) {
        event_add(text, ", %zu bytes", o->written);
    }
    if (o->steps > 0) {
        event_add(text, ", %zu step%s", o->steps, o->steps == 1 ? "" : "s");
    }
    if (o->edition > 0) {
        event_add(text, ", edition %" PRIu32, o->edition);
    }
    event_add(text, o->number == SCM_NOT_EXPECTED ? ": send a NACK\n" : "\n");
}

void event_outcome_text(const struct event *e, const struct event_outcome *o, struct event_text *text)
{
    text->length = 0;
    event_add_number(text, o);
    for (uint32_t i = 0; i < o->count; i++) {
        const uint8_t *frame = o->frames + SCM_FRAME_BYTES * i;
        event_add_message(text, "E.6", frame[0], frame + 1);
    }
    if (o->sends) {
        event_add_message(text, event_forms[e->kind].message, e->slot, o->out);
    }
    event_add_blocks(text, o);
    if (o->before != o->after) {
        event_add(text, "#=   the master goes from %s to %s\n", scm_state_text(o->before), scm_state_text(o->after));
    }
}

bool event_message(uint32_t side, uint8_t kind, const uint8_t *bytes, scm_message *message, struct fault *fault)
{
    return fault_unless_done(fault, "reading a message", scm_message_read(side, bytes, 8, message))
        && (message->kind == kind || fault_say(fault, FAULT_RUN, "a message of kind %u instead of %u", (unsigned)message->kind, (unsigned)kind));
}
