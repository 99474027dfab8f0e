/* What the files of this terminal share, a part for each file. Nothing is kept between calls but in structs that the caller owns, and every text is
   written into a buffer that the caller gives. A function that may fail gives back a bool; with false its fault says what went wrong. */
#ifndef HOST_H
#define HOST_H

#include <inttypes.h>
#include <stdbool.h>
#include <stdio.h>

#include "scm.h"

/* ---- main.c: the command line, and what went wrong */

enum fault_kind {
    FAULT_NONE,
    FAULT_RUN,                      /* a run does not do what it should, or cannot write what it has to say */
    FAULT_INPUT,                    /* a file that is given cannot be read */
    FAULT_USAGE                     /* words on the command line that mean nothing */
};

struct fault {
    enum fault_kind kind;
    char text[512];
};

/* Always gives false, so that a function can say what went wrong and end in one line. */
bool fault_say(struct fault *fault, enum fault_kind kind, const char *format, ...);
/* Whether a call gave 0; every number that a call gives is looked at. */
bool fault_unless_done(struct fault *fault, const char *what, uint8_t number);

/* ---- pools.c: the two clients of the drill, and what their pools say */

enum pool_slot { POOL_DRILL = 0, POOL_FAN = 1, POOL_CLIENTS = 2 };
enum pool_function { POOL_GATE = 4, POOL_COULTERS = 5, POOL_BLOWER = 9 };
enum pool_state { POOL_SHUT = 0, POOL_OPEN = 1, POOL_UP = 1, POOL_DOWN = 2, POOL_SLOW = 1, POOL_FAST = 2 };

#define POOL_TEXT_BYTES 80u         /* enough for each text below; the longest is a shown value with its unit */

struct pool {                       /* a client */
    uint64_t name;
    size_t length;
    uint8_t bytes[256];             /* enough for these two; what comes from the bus needs SCM_POOL_BYTES */
};

bool pool_make(uint32_t slot, struct pool *pool, struct fault *fault);
/* The function's object; of kind SCM_OBJECT_NONE where the pool has none. */
scm_object pool_function(const struct pool *pool, uint8_t function);
/* For the screen and the sheet: the client; function and state; the value as the library prints it, with its unit, or "-" where the pool says that no
   number is shown. "?" stands for what the pool does not have. */
void pool_client_text(const struct pool *pool, char text[POOL_TEXT_BYTES]);
void pool_step_text(const struct pool *pool, uint8_t function, uint8_t state, char text[POOL_TEXT_BYTES]);
void pool_shown_text(const struct pool *pool, uint8_t function, uint32_t value, char text[POOL_TEXT_BYTES]);
/* Whether a double holds the shown value exactly. The text above does not ask: it is never made from one. */
bool pool_shown_exact(const struct pool *pool, uint8_t function, uint32_t value);

/* ---- events.c: an event, handed to the library and written down */

enum event_kind {
    EVENT_ON, EVENT_OFF, EVENT_ATTACH, EVENT_ENABLE, EVENT_DISABLE, EVENT_REPORT, EVENT_LOST, EVENT_RECORD, EVENT_STOP, EVENT_CANCEL, EVENT_INDICATION,
    EVENT_CLIENT_ABORT, EVENT_START, EVENT_ABORT, EVENT_TICK, EVENT_ANSWER, EVENT_STORE, EVENT_LOAD, EVENT_EDITION, EVENT_KINDS
};

struct event {                      /* fields that its kind does not have are not looked at */
    enum event_kind kind;
    uint32_t slot;
    uint64_t name;                  /* attach */
    uint8_t report;                 /* report: SCM_REPORT_... */
    uint32_t mm;                    /* tick: driven since the last one */
    uint32_t lent;                  /* store: the bytes that are lent, at most SCM_STORE_BYTES */
    uint32_t edition;               /* edition: SCM_EDITION_..., or what is none */
    const uint8_t *bytes;           /* attach: the pool; indication, client_abort and answer: the message; load: the blocks */
    size_t length;
};

struct event_outcome {              /* what came of an event; what it does not have is 0 */
    uint8_t number;
    uint8_t code;                   /* attach: with number 6 the code of D.9, and the object */
    uint16_t object;
    bool checked;                   /* start: a check of 8 to 12 does not hold, and where */
    scm_check_view check;
    uint32_t count;                 /* tick: frames */
    uint8_t frames[SCM_FRAMES_BYTES];
    bool sends;                     /* there is a message to send: attach D.9, enable and disable E.2, indication E.5, answer E.8 */
    uint8_t out[SCM_ANSWER_BYTES];
    uint8_t before, after;          /* the master's states */
    uint32_t tick;                  /* tick: its number since the recording or the playback began; 0 in other states */
    size_t written;                 /* store: the bytes of the blocks */
    uint8_t blocks[SCM_STORE_BYTES];
    size_t steps;                   /* load: the steps of the sequence that was taken up */
    uint32_t edition;               /* load and edition: that of the sequence afterwards */
};

struct event_form {                 /* how an event stands in a file of events */
    const char *word;
    const char *fields;             /* s slot, n NAME, r report, m millimetres, e edition, b bytes, k blocks or none, l bytes lent, all where none are
                                       named */
    const char *message;            /* the one that its outcome sends, or NULL */
};

struct event_text {                 /* lines that begin with #= */
    size_t length;
    char bytes[12288];              /* enough for an outcome with 64 frames, and for the blocks of the longest sequence */
};

extern const struct event_form event_forms[EVENT_KINDS];
void event_run(scm_master *master, const struct event *event, struct event_outcome *outcome);
/* An event as a line of a file of events; and what came of it, the number in the first line. */
void event_write(FILE *log, const struct event *event);
void event_outcome_text(const struct event *event, const struct event_outcome *outcome, struct event_text *text);
/* A message of eight bytes that must be of this kind. */
bool event_message(uint32_t side, uint8_t kind, const uint8_t *bytes, scm_message *message, struct fault *fault);

/* ---- ticker.c: how many ticks are to be called now, by the clock or as fast as it goes */

struct ticker {
    bool (*wait)(struct ticker *ticker, uint64_t until);    /* sets now, to until at the least */
    uint64_t begun, now;            /* milliseconds */
    uint32_t called;                /* ticks; whoever calls one counts it here */
    uint32_t late;                  /* a simulated clock: by how many milliseconds it comes late, once */
};

void ticker_simulated(struct ticker *ticker);
bool ticker_real(struct ticker *ticker, struct fault *fault);
/* Waits until a tick is due, and gives how many are: one for each 100 ms that have passed and for which none was called. */
bool ticker_due(struct ticker *ticker, uint32_t *due, struct fault *fault);

/* ---- drill.c: the clients as they behave; on a real drill they are at the other end of the bus */

#define DRILL_INDICATIONS 10u       /* how many E.4s the driver's plot end has */
#define DRILL_STOPS 20u             /* the tick after which he stops the recording */

struct drill_task {                 /* a command that a client has taken */
    uint32_t slot;
    scm_message_step step;
    uint32_t answered, done;        /* the ticks of its first and of its last answer */
    bool told, finished;            /* which of them are out */
};

struct drill {
    unsigned plot;                  /* no two plots are quite alike */
    uint32_t mute;                  /* the slot of a client that gives no answer; POOL_CLIENTS for none */
    size_t said;                    /* E.4s */
    size_t count;
    struct drill_task tasks[SCM_STEPS];
    uint8_t message[8];             /* the last one that a client sent */
};

void drill_begins(struct drill *drill, unsigned plot);
/* Whether a client has an E.4, or an E.7, to send up to this tick; then it is the event. */
bool drill_indicates(struct drill *drill, uint32_t tick, uint32_t depth, struct event *event);
bool drill_answers(struct drill *drill, uint32_t tick, struct event *event);
/* A client takes an E.6; one that it has taken before changes nothing. */
bool drill_takes(struct drill *drill, uint32_t tick, const uint8_t frame[SCM_FRAME_BYTES], struct fault *fault);

/* ---- keep.c: a sequence in a file */

#define KEEP_BYTES (SCM_STORE_BYTES + 1u)                   /* a file of so many bytes is longer than that of any sequence */

/* Replaces the file, or makes it. It is the old one until it is the new one, and after true it is that whatever happens. */
bool keep_write(const char *path, const uint8_t *bytes, size_t length, struct fault *fault);
/* The bytes of a file, to be judged by the library: none, or those of a whole file of up to SCM_STORE_BYTES. */
bool keep_read(const char *path, uint8_t bytes[KEEP_BYTES], size_t *length, struct fault *fault);
/* Always gives false: a file of this length was refused with this number, in words for the screen. */
bool keep_refused(const char *path, size_t length, uint8_t number, struct fault *fault);

/* ---- sheet.c: the plot sheet, the inspector's answers and the test bench's */

#define SHEET_PLOTS 20u
#define SHEET_TENTHS_BYTES 16u      /* enough for the text of any number of tenths */

struct sheet_line {                 /* a step of a plot; a tick of 0 has not come yet */
    uint8_t frame[SCM_FRAME_BYTES]; /* slot and E.6, as they first left */
    scm_message_step command;       /* what the E.6 says */
    uint32_t due, left, answered, done;
    uint32_t due_mm;                /* how far was driven when it was due */
    uint32_t late, late_mm;         /* how long after its own due tick it left, and how far was driven between the two */
    uint32_t times;                 /* bit k: the command left k ticks after it first left */
};

struct sheet_plot {
    uint32_t ticks, distance;
    bool lowered;                   /* the coulters were commanded down, and by which value */
    uint32_t depth;
    size_t sent;
    size_t latest;                  /* the step that left latest after its own due tick; of two that left so, the one that came further */
    struct sheet_line lines[SCM_STEPS];
};

struct sheet {
    const struct pool *clients;
    size_t steps;
    uint32_t edition;
    scm_step_view recorded[SCM_STEPS];
    size_t plots;                   /* begun; the last one is the one that is driven */
    struct sheet_plot plot[SHEET_PLOTS];
    size_t commands, repeats;       /* in all plots that were checked */
    size_t latest_plot;             /* where a step left latest, first so: that plot's latest */
    size_t furthest_plot, furthest_step;                    /* where a step left furthest from where it was due, first so */
    size_t slowest_plot, slowest_step;                      /* where a first answer took longest, first so */
    uint32_t busiest;               /* the most often that one command left in ten ticks in a row */
};

bool sheet_recorded(struct sheet *sheet, const struct pool *clients, const scm_master *master, struct fault *fault);
bool sheet_tick(struct sheet *sheet, uint32_t mm, const struct event_outcome *outcome, struct fault *fault);
bool sheet_answer(struct sheet *sheet, const struct event *event, const struct event_outcome *outcome, struct fault *fault);
/* Whether the plot just driven keeps to the promises. */
bool sheet_check(struct sheet *sheet, struct fault *fault);
/* The answers and a line for each plot; with full also every step of every plot. */
void sheet_print(FILE *file, const struct sheet *sheet, bool full);
/* Whether a step's command left at this tick, for the first time or again. */
bool sheet_left_at(const struct sheet_line *line, uint32_t tick);
/* On the whole plot, to the nearest: tenths of a kilometre an hour, and millimetres a tick. */
uint32_t sheet_speed(const struct sheet_plot *plot);
uint32_t sheet_pace(const struct sheet_plot *plot);
/* Tenths as text: 2.3 of 23. Ticks are tenths of a second. */
void sheet_tenths_text(uint32_t tenths, char text[SHEET_TENTHS_BYTES]);

/* ---- picture.c: one plot end on a time line, as SVG: that where a step left latest, or that where a first answer took longest */

enum picture_kind { PICTURE_LATEST, PICTURE_SLOWEST };

void picture_write(FILE *file, const struct sheet *sheet, enum picture_kind kind);

/* ---- terminal.c: the terminal itself */

struct terminal {
    scm_master master;
    struct pool clients[POOL_CLIENTS];
    struct drill drill;
    struct ticker ticker;
    struct event_outcome outcome;   /* of the last event */
    struct sheet *sheet;            /* to fill, or NULL */
    FILE *log;                      /* where to write down what happens, or NULL */
    uint32_t at_once;               /* the most ticks that were called at once */
    char why[160];                  /* why the last playback ended in an abort */
};

/* Everything as it is before the master is switched on, with a simulated clock. */
bool terminal_make(struct terminal *terminal, FILE *log, struct fault *fault);
/* The drill is attached, and one plot end is recorded. */
bool terminal_september(struct terminal *terminal, uint32_t depth, struct fault *fault);
/* Binds the sequence to the drill that recorded it. */
bool terminal_bind(struct terminal *terminal, struct fault *fault);
/* Keeps the sequence in a file. */
bool terminal_save(struct terminal *terminal, const char *path, struct fault *fault);
/* The drill is attached again, and the sequence is taken up from a file. */
bool terminal_march(struct terminal *terminal, const char *path, struct fault *fault);
/* For the screen, before the driver starts: whether a start of what was taken up would be taken, and if not, which client or step stands against it. */
bool terminal_verified(const struct terminal *terminal, const char *path, struct fault *fault);
/* The sequence is replayed at twenty plot ends. */
bool terminal_play(struct terminal *terminal, struct sheet *sheet, struct fault *fault);
/* Replays by the clock for so many seconds; then the operator stops. */
bool terminal_live(struct terminal *terminal, uint32_t seconds, struct fault *fault);
/* What goes wrong on a field, and how the terminal goes on. */
bool terminal_mishaps(struct terminal *terminal, struct fault *fault);

/* ---- script.c: a file of events */

#define SCRIPT_LINE_BYTES 65535u    /* a full pool in hex fits, with blanks */
#define SCRIPT_BYTES 32767u         /* so many bytes that an event hands over, two digits each, fill a line; with XX*N it may not have more either */

struct script {
    scm_master master;
    FILE *out;                      /* where to write what each line gives; NULL where that is held to the lines with #= */
    unsigned long number, events;   /* of the line, and how many events were run */
    size_t length;                  /* of the line, without its end */
    char line[SCRIPT_LINE_BYTES + 1];
    uint8_t bytes[SCRIPT_BYTES];
    struct event_text given;        /* by the last event, one line after the other */
    size_t met;                     /* how much of it has stood in the file */
};

bool script_number(const char *text, uint32_t *number, struct fault *fault);
/* Runs a file and writes down what each line gives, or holds it to the file. */
bool script_run(struct script *script, const char *path, FILE *out, struct fault *fault);

#endif
