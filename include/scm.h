/* scm.h: the master (SCM) of ISO 11783-14, for a terminal's host in C. Link with libscm.a; HOST.md is the guide, with an example of a whole program.

   Every call takes all input: any numbers, any bytes, in any order. It never traps and always returns. What it refuses, it refuses by a number of
   enum scm_number (scm_pool_check by a code of D.9; scm_object_at and scm_profile_of, which take any bytes, give nothing of what they cannot read);
   then the master and every lent byte are as they were. There is no start-up call, no global, no heap and no thread here.

   Pointers. A pointer that comes with a length (pool, msg, bytes, out, frames, blocks, text) is lent memory: it points to that many bytes, and is not
   NULL, even where the length is 0. A master, and an object or a message that is to be written, is not NULL. What a call reads and what it writes do
   not overlap.

   Out-parameters. One that is no lent memory (code, object, count, written, length, next, message, shown, view) may be NULL, and is not written then.
   Otherwise it is always written, also where the call is refused: with 0 in it where there is nothing to say (next: the place that was passed). Lent
   output is written with number 0 alone, and only where the call says; its other bytes stay.

   Wrappers. The archive takes and gives structs by value. The inline functions here stand over its calls (scm_on over scm_master_on) and do nothing
   but hand over and copy what is wanted, and scm_shown_text puts a 0 after its text; they are what a host calls and what is explained. A call on a
   master takes up to 162 KB of stack; HOST.md has each one's. */
#ifndef SCM_H
#define SCM_H

#if !defined __SIZEOF_POINTER__ || __SIZEOF_POINTER__ != 8 || !defined __BYTE_ORDER__ || __BYTE_ORDER__ != __ORDER_LITTLE_ENDIAN__
#error "scm.h and libscm.a are for x86-64 Linux: pointers of 64 bits, numbers with the least significant byte first"
#else

#include <stddef.h>
#include <stdint.h>

/* Internal: a fact about the layout that a compiler has to keep, or stop; see the end. */
#ifdef __cplusplus
#define SCM_HOLDS(fact) static_assert(fact, "not the layout of libscm.a: " #fact)
#else
#define SCM_HOLDS(fact) _Static_assert(fact, "not the layout of libscm.a: " #fact)
#endif

/* Marks a call whose result has to be looked at: a compiler that can warns where it is not. GCC takes no cast to void for looking at it in C. */
#if defined __cplusplus && __cplusplus >= 201703L
#define SCM_MUST_USE [[nodiscard]]
#elif defined __GNUC__
#define SCM_MUST_USE __attribute__((warn_unused_result))
#else
#define SCM_MUST_USE
#endif

#ifdef __cplusplus
extern "C" {
#endif

/* ---- Version */

/* The version of this header: major * 1,000,000 + minor * 1,000 + patch. */
#define SCM_VERSION 2001001u

/* The version of the archive, counted likewise. A host compiled with this header wants SCM_VERSION: compare once, at its start. */
SCM_MUST_USE uint32_t scm_version(void);

/* ---- Sizes and limits */

#define SCM_SLOTS          8u       /* slots for clients, 0 to 7 */
#define SCM_STEPS          64u      /* the most steps of a sequence, and of a recording, whose failed ones count */
#define SCM_POOL_BYTES     16384u   /* the most bytes of a pool */
#define SCM_OBJECT_BYTES   663u     /* the most bytes of a legal object: a base with labels of 63 bytes and 255 functions */
#define SCM_MESSAGE_BYTES  80u      /* enough for every message but D.6, which has its pool's bytes and one more */
#define SCM_ANSWER_BYTES   8u       /* what a call writes to be sent: E.2, E.5, E.8 */
#define SCM_FRAME_BYTES    9u       /* a frame of a tick: the slot, then the eight bytes of E.6 */
#define SCM_FRAMES_BYTES   576u     /* what a tick fills: room for 64 frames */
#define SCM_ANSWER_TICKS   15u      /* so many ticks after a command left, its first answer is still in time; the next tick aborts the playback */
#define SCM_LAST_TICK      36000u   /* the tick, an hour, at which a recording is thrown away and a playback is aborted */
#define SCM_BLOCK_BYTES    512u     /* a block of a stored sequence */
#define SCM_STORE_BYTES    3584u    /* enough for every sequence: seven blocks */
#define SCM_SHOWN_BYTES    58u      /* enough for every text of a shown value: the longest has 57 characters, and a 0 after them */

/* ---- The numbers that calls give back

   Where several apply: 1, 4, 3, 2, then the rest in the order that the call names them; scm_shown_text alone looks at 4 before 1. Every number but
   SCM_OK leaves the master and all lent memory as they were. While the master is inactive, every event but scm_on gives 2, unless 1, 4 or 3 comes
   first. */
enum scm_number {
    SCM_OK = 0,                     /* done */
    SCM_TOO_SHORT = 1,              /* lent output too short */
    SCM_WRONG_STATE = 2,            /* not allowed in this state */
    SCM_WRONG_SLOT = 3,             /* slot above 7, empty, or (attaching) taken, or NAME already attached; a reader: no such slot, step or command */
    SCM_WRONG_VALUE = 4,            /* message of wrong length, code unknown for its side or call, value not allowed, report of no known state, tick
                                       of more than 65,535 mm, scale not finite and above zero, decimals above 7, object not legal */
    SCM_NOT_EXPECTED = 5,           /* message not expected now: send a NACK */
    SCM_POOL_REFUSED = 6,           /* pool refused, with the D.9 code and object number */
    SCM_NO_STEP = 7,                /* sequence has no step */
    SCM_NOT_ENABLED = 8,            /* a client of the sequence is not enabled */
    SCM_NAME_DIFFERS = 9,           /* a NAME differs; in edition 2 an identity number that differs is enough, no matter what the mask says */
    SCM_LABEL_DIFFERS = 10,         /* a label differs */
    SCM_NOT_IN_POOL = 11,           /* function or state not in the loaded pool */
    SCM_NOT_READY = 12,             /* a client is not reporting ready */
    SCM_NOT_DISABLED = 13,          /* a client is still not disabled */
    SCM_NO_CLIENT = 14,             /* no enabled client */
    SCM_NO_MATCH = 15,              /* answer matches no sent step; ignored */
    SCM_CHECK_WRONG = 16,           /* the check of a block is wrong */
    SCM_NOT_STORED = 17             /* blocks that no sequence has, with every check right; or an unknown edition */
};

/* What a number says, for a log or a screen. Here and in the other texts each code has words of its own, and all that are no code share one text. */
static inline const char *scm_number_text(uint8_t number)
{
    switch (number) {
    case SCM_OK: return "done";
    case SCM_TOO_SHORT: return "lent output too short";
    case SCM_WRONG_STATE: return "not allowed in this state";
    case SCM_WRONG_SLOT: return "slot above 7, empty or taken, or NAME already attached";
    case SCM_WRONG_VALUE: return "message of wrong length or unknown code, or a value that is not allowed";
    case SCM_NOT_EXPECTED: return "message not expected now";
    case SCM_POOL_REFUSED: return "pool refused";
    case SCM_NO_STEP: return "sequence has no step";
    case SCM_NOT_ENABLED: return "a client of the sequence is not enabled";
    case SCM_NAME_DIFFERS: return "a NAME differs";
    case SCM_LABEL_DIFFERS: return "a label differs";
    case SCM_NOT_IN_POOL: return "function or state not in the loaded pool";
    case SCM_NOT_READY: return "a client is not reporting ready";
    case SCM_NOT_DISABLED: return "a client is still not disabled";
    case SCM_NO_CLIENT: return "no enabled client";
    case SCM_NO_MATCH: return "answer matches no sent step";
    case SCM_CHECK_WRONG: return "the check of a block is wrong";
    case SCM_NOT_STORED: return "blocks that no sequence has, or an unknown edition";
    default: return "no number of a call";
    }
}

/* ---- The pool: what a client hands over of itself, one base, its functions and their states; HOST.md has the three objects as tables of bytes */

/* The codes of D.9, by which a pool is judged. 08 is never given: a pool holds no strings. */
enum scm_pool_code {
    SCM_POOL_TAKEN = 0x00,          /* no fault */
    SCM_POOL_UNKNOWN_TYPE = 0x01,   /* object type is not 0, 1 or 2 */
    SCM_POOL_NO_BASE = 0x02,        /* no base object; names object 0 */
    SCM_POOL_NO_FUNCTION = 0x03,    /* a listed function is absent; names the listed number */
    SCM_POOL_NO_STATE = 0x04,       /* a listed state is absent; names the listed number */
    SCM_POOL_NUMBER_TWICE = 0x05,   /* object number seen before */
    SCM_POOL_FUNCTION_TWICE = 0x06, /* two listed functions with one function ID */
    SCM_POOL_STATE_TWICE = 0x07,    /* two states of one function with one state ID */
    SCM_POOL_VERSION_LENGTH = 0x09, /* version label is not of 1 to 63 bytes */
    SCM_POOL_VERSION_BYTES = 0x0A,  /* version label has a byte that is not allowed */
    SCM_POOL_CONFIGURATION_LENGTH = 0x0B, /* configuration label is not of 1 to 63 bytes */
    SCM_POOL_WRONG_VERSION = 0x0C,  /* version of the standard is not 2 */
    SCM_POOL_OTHER = 0xFF           /* an object is cut, a field is out of its range, or the pool is too long */
};

/* What a code of D.9 says. */
static inline const char *scm_pool_code_text(uint8_t code)
{
    switch (code) {
    case SCM_POOL_TAKEN: return "taken";
    case SCM_POOL_UNKNOWN_TYPE: return "object type is not 0, 1 or 2";
    case SCM_POOL_NO_BASE: return "no base object";
    case SCM_POOL_NO_FUNCTION: return "a listed function is absent";
    case SCM_POOL_NO_STATE: return "a listed state is absent";
    case SCM_POOL_NUMBER_TWICE: return "object number seen before";
    case SCM_POOL_FUNCTION_TWICE: return "two listed functions with one function ID";
    case SCM_POOL_STATE_TWICE: return "two states of one function with one state ID";
    case SCM_POOL_VERSION_LENGTH: return "version label is not of 1 to 63 bytes";
    case SCM_POOL_VERSION_BYTES: return "version label has a byte that is not allowed";
    case SCM_POOL_CONFIGURATION_LENGTH: return "configuration label is not of 1 to 63 bytes";
    case SCM_POOL_WRONG_VERSION: return "version of the standard is not 2";
    case SCM_POOL_OTHER: return "an object is cut, a field is out of its range, or the pool is too long";
    default: return "no code of a pool's check";
    }
}

/* A pool's judgement. */
typedef struct scm_verdict {
    uint8_t code;                   /* enum scm_pool_code */
    uint16_t object;                /* the object that the code names; 0xFFFF with SCM_POOL_TAKEN, for a pool that is too long, and where fewer
                                       than 3 bytes are left for an object */
} scm_verdict;

/* Judges any bytes at all as a client's pool, by the rules by which scm_attach judges it, and keeps nothing. More than SCM_POOL_BYTES give 0xFF and
   0xFFFF, none at all 0x02 and 0. Of several faults one is named: HOST.md has their order, and which object each names. Writes no memory. Afterwards:
   code and object are what a D.9 says. */
SCM_MUST_USE scm_verdict scm_pool_check(const uint8_t *pool, size_t pool_len);

/* scm_object.kind: the object's type, as it stands at offset 2 of its bytes, or none. */
enum scm_object_kind {
    SCM_OBJECT_BASE = 0,            /* table A.1 */
    SCM_OBJECT_FUNCTION = 1,        /* table A.2 */
    SCM_OBJECT_STATE = 2,           /* table A.3 */
    SCM_OBJECT_NONE = 255           /* past the end, or cut, or illegal: place and next are the place, all else is 0 */
};

/* scm_object.trigger: by what the mark of a step of this function is counted when it is recorded. */
enum scm_trigger {
    SCM_TRIGGER_TIME = 1,           /* in ticks */
    SCM_TRIGGER_DISTANCE = 2,       /* in millimetres */
    SCM_TRIGGER_EITHER = 255        /* the client does not care: counted in ticks */
};

/* scm_object.attribute: the style of a function's value. It says what a screen does; the master does not look at it, nor at minimum and maximum: a
   client's value is recorded and replayed as it came, in all 32 bits, whatever they say. */
enum scm_style {
    SCM_STYLE_HIDDEN = 0,           /* not shown: minimum, maximum, offset, scale, decimals and unit are all one bits */
    SCM_STYLE_SHOWN = 1,            /* shown: minimum and maximum are all one bits */
    SCM_STYLE_CHANGED = 2           /* shown, and the operator may change it from minimum to maximum */
};

/* An object by value. scm_object_at leaves 0 in the fields that its kind does not have, and in the cells after a label and after the list. */
typedef struct scm_object {
    uint8_t  kind;                  /* enum scm_object_kind */
    size_t   place;                 /* scm_object_at: as it was passed */
    size_t   next;                  /* scm_object_at: the place after the object */
    uint16_t number;                /* object number: a base 0, another 1 to 65534 */
    uint8_t  standard;              /* base: version of the standard, 0 to 2; the pool's check takes 2 alone */
    uint64_t master;                /* base: NAME of the working set master */
    uint64_t mask;                  /* base: NAME mask */
    uint16_t name;                  /* number of the text object, not 0xFFFF */
    uint16_t picture;               /* number of the picture object, not 0xFFFF */
    uint8_t  function;              /* function: function ID */
    uint8_t  trigger;               /* function: preferred trigger, enum scm_trigger */
    uint8_t  attribute;             /* function: enum scm_style */
    uint32_t minimum;               /* function: least value */
    uint32_t maximum;               /* function: greatest value */
    uint32_t offset;                /* function: bits of an int32_t */
    uint32_t scale;                 /* function: bits of a float */
    uint8_t  decimals;              /* function: decimals shown, 0 to 7 */
    uint16_t unit;                  /* function: number of the unit's text object */
    uint8_t  state;                 /* state: state ID, 0 to 63 */
    uint8_t  n;                     /* base: bytes of the version label, 1 to 63 */
    uint8_t  m;                     /* base: bytes of the configuration label, 1 to 63 */
    uint8_t  count;                 /* numbers in the list: of a base 1 to 255 functions, of a function 0 to 64 states */
    uint8_t  version[63];           /* base: version label */
    uint8_t  configuration[63];     /* base: configuration label */
    uint16_t list[255];             /* numbers of the objects listed */
} scm_object;

/* What writing an object gives by value. */
typedef struct scm_placed {
    uint8_t number;
    size_t next;
} scm_placed;

/* What scm_object_write stands over. */
SCM_MUST_USE scm_placed scm_write_object(scm_object object, size_t place, uint8_t *out, size_t out_len);

/* Writes an object's bytes at a place of out. A pool is made by writing its objects one after the other, each at the next of the one before, from
   place 0; the last next is the pool's length. Set the struct to 0 first: numbers that the kind does not have are not looked at, nor are place and
   next; but in version, configuration and list every cell that is not in use has to be 0: those after a label and after the list, all cells of both
   labels of a function, and all cells of labels and list of a state. So a state with count 255 is written, and one with list[0] = 1 gives 4.

     0  the bytes from place up to *next are the object's, the other bytes of out stay
     1  no room: place + size is above out_len. The size goes by the fields as given: base 27 + n + m + 2 * count, function 30 + 2 * count, state 8,
        else 0
     4  the object is not legal: kind is not 0, 1 or 2; n or m is not 1 to 63; a field is out of its range (HOST.md has the table); a cell that has to
        be 0 is not

   *next: with 0 the place after the object, else place. Afterwards: it has judged this object alone; whether the pool holds together (every listed
   object is there, no number stands twice, version 2, the label's characters) scm_pool_check says. */
SCM_MUST_USE static inline uint8_t scm_object_write(const scm_object *object, size_t place, uint8_t *out, size_t out_len, size_t *next)
{
    scm_placed w = scm_write_object(*object, place, out, out_len);
    if (next != NULL) {
        *next = w.next;
    }
    return w.number;
}

/* The object at a place of any bytes at all, for a screen. The first object stands at place 0, each other one at the next of the one before; a walk
   ends where kind is SCM_OBJECT_NONE, which gives no number: whether the pool is good, scm_pool_check says. Bytes of more than SCM_POOL_BYTES hold no
   object. */
SCM_MUST_USE scm_object scm_object_at(const uint8_t *pool, size_t pool_len, size_t place);

/* What writing a pool again gives. */
typedef struct scm_rewritten {
    uint8_t  number;                /* 0 done, 1 out is shorter than the pool, 6 pool refused */
    uint8_t  code;                  /* with 6 the code of D.9, else 0 */
    uint16_t object;                /* with 6 the object it names, else 0 */
} scm_rewritten;

/* Takes an accepted pool apart, object by object, and writes it again: out begins with exactly the pool's bytes, and the bytes after them stay. 1 is
   looked at before the pool is judged. With any number but 0 no byte of out changes. pool and out do not overlap. */
SCM_MUST_USE scm_rewritten scm_pool_rewrite(const uint8_t *pool, size_t pool_len, uint8_t *out, size_t out_len);

/* A label: the first `length` bytes count; the library leaves 0 in the others. */
typedef struct scm_label {
    uint8_t length;
    uint8_t bytes[63];
} scm_label;

/* What the master keeps of a pool. */
typedef struct scm_profile {
    uint64_t master;                /* NAME of the working set master */
    uint64_t mask;                  /* NAME mask */
    scm_label version;              /* version label */
    scm_label configuration;        /* configuration label */
    uint8_t trigger[256];           /* of function f its preferred trigger, enum scm_trigger; 0 where the base lists no function f */
    uint64_t states[256];           /* bit s: function f has state s */
} scm_profile;

/* What the master would keep of any bytes at all; of a pool that the check refuses, nothing: all is 0. Writes no memory. */
SCM_MUST_USE scm_profile scm_profile_of(const uint8_t *pool, size_t pool_len);

/* ---- Messages C.2 to C.5, D.2 to D.15, E.2 to E.8

   C and D messages are read and written; which answer to give is the host's choice. Of the E messages, the calls on a master read E.3, E.4 and E.7
   and write E.2, E.5, E.6 and E.8 themselves: a host hands over the bytes as they came and sends the bytes as they were written. It reads what was
   written to see what it says. HOST.md has the bytes of D.9 and of the E messages. Where a byte of a message is named here as the standard names it,
   it is counted from 1; msg[2] and out[3] count from 0. */

/* The side that sent a message: the message's code means another message on the other side. */
enum scm_side {
    SCM_CLIENT = 0,                 /* a client sent it */
    SCM_MASTER = 1                  /* the master sent it */
};

/* scm_message.kind, and the fields that each message has. A reading gives 0 in every field that its message lacks; writing does not
 * look at them. "->" is a message to the master, sent by a client; "<-" one from the master. */
enum scm_kind {
    SCM_NOTHING = 0,                /*          none: what a refused reading holds; writing it gives 4 */
    SCM_CAPABILITY_REQUEST = 1,     /* C.2  ->  code: the version, 0 to 2 */
    SCM_CAPABILITY_RESPONSE = 2,    /* C.3  <-  capability */
    SCM_MEMORY_REQUEST = 3,         /* C.4  ->  memory: the bytes that the pool needs */
    SCM_MEMORY_RESPONSE = 4,        /* C.5  <-  code: 0 enough, 1 not enough */
    SCM_VERSION_REQUEST = 5,        /* D.2  -> */
    SCM_VERSION_RESPONSE = 6,       /* D.3  <-  code: 0 and a label of 1 to 63 bytes; 1 no match or 255 other error, and no label */
    SCM_CONFIGURATION_REQUEST = 7,  /* D.4  -> */
    SCM_CONFIGURATION_RESPONSE = 8, /* D.5  <-  code and label as in D.3 */
    SCM_TRANSFER = 9,               /* D.6  ->  the pool is bytes 2 on of what was read: bytes + 1, len - 1.
                                                Written by scm_transfer_write; scm_message_write gives 4 */
    SCM_TRANSFER_RESPONSE = 10,     /* D.7  <-  code: 0 none, 1 error while transferring, 255 other */
    SCM_ACTIVATION_COMMAND = 11,    /* D.8  -> */
    SCM_POOL_ACKNOWLEDGEMENT = 12,  /* D.9  <-  code: 0 to 12, 255, enum scm_pool_code; object: the one at fault, to be 65535 with code 0, but any
                                                is read and written */
    SCM_DELETE_COMMAND = 13,        /* D.10 ->  code: 0 volatile memory, 1 non-volatile */
    SCM_DELETE_RESPONSE = 14,       /* D.11 <-  code: 0 none, 1 no such pool, 255 other */
    SCM_STORE_COMMAND = 15,         /* D.12 -> */
    SCM_STORE_RESPONSE = 16,        /* D.13 <-  code: 0 none, 1 not parsed yet, 2 no room, 255 other */
    SCM_LOAD_COMMAND = 17,          /* D.14 -> */
    SCM_LOAD_RESPONSE = 18,         /* D.15 <-  code: 0 none, 1 not found, 2 damaged, 3 no room, 255 other */
    SCM_STATE_COMMAND = 19,         /* E.2  <-  code: enum scm_commanded; reason: enum scm_reason */
    SCM_CLIENT_ABORT = 20,          /* E.3  ->  code: enum scm_abort_error */
    SCM_INDICATION = 21,            /* E.4  ->  step: function, state, status, tan, value */
    SCM_INDICATION_RESPONSE = 22,   /* E.5  <-  step: function, state, status, error: enum scm_indication_error, tan */
    SCM_COMMAND = 23,               /* E.6  <-  step: function, state, tan, value */
    SCM_ANSWER = 24,                /* E.7  ->  step: function, state, status, error: enum scm_answer_error, tan */
    SCM_ANSWER_ACKNOWLEDGEMENT = 25 /* E.8  <-  step: function, state, status, tan */
};

/* scm_message_step.status, bits 7 and 8 of byte 3 (msg[2] >> 6); any other number gives 4 where the message has a status. Also
   scm_taken_view.status, where SCM_STARTED is a step that is open: begun and not yet done. */
enum scm_status {
    SCM_AT_ONCE = 0,                /* 00: started and done at once; a one-shot step */
    SCM_STARTED = 1,                /* 01: started */
    SCM_DONE = 2,                   /* 10: done */
    SCM_FAILED = 3                  /* 11: failed; in playback also: the operator has interfered at the client */
};

/* What a status says. */
static inline const char *scm_status_text(uint8_t status)
{
    switch (status) {
    case SCM_AT_ONCE: return "started and done at once";
    case SCM_STARTED: return "started";
    case SCM_DONE: return "done";
    case SCM_FAILED: return "failed";
    default: return "no execution status";
    }
}

/* E.2, code: the state that the client is told to take. */
enum scm_commanded {
    SCM_DISABLE = 0,                /* disabled */
    SCM_ENABLE = 1                  /* enabled */
};

/* E.2, reason. The master's own E.2 (scm_enable, scm_disable) always says SCM_REASON_OPERATOR. */
enum scm_reason {
    SCM_REASON_OPERATOR = 1,        /* the operator commanded it */
    SCM_REASON_NOT_IN_SEQUENCE = 2, /* the client is no part of the selected sequence */
    SCM_REASON_IN_SEQUENCE = 3,     /* the client is part of the selected sequence */
    SCM_REASON_NONE = 255           /* no particular reason */
};

/* What a reason of E.2 says. */
static inline const char *scm_reason_text(uint8_t reason)
{
    switch (reason) {
    case SCM_REASON_OPERATOR: return "the operator commanded it";
    case SCM_REASON_NOT_IN_SEQUENCE: return "the client is no part of the selected sequence";
    case SCM_REASON_IN_SEQUENCE: return "the client is part of the selected sequence";
    case SCM_REASON_NONE: return "no particular reason";
    default: return "no reason of E.2";
    }
}

/* E.3, code: why a client wants the playback to end. */
enum scm_abort_error {
    SCM_ABORT_TIMED_OUT = 1,        /* the status message timed out */
    SCM_ABORT_OPERATOR = 2,         /* the operator has interfered */
    SCM_ABORT_FAULT = 3,            /* a fault while a function was executed */
    SCM_ABORT_OTHER = 255           /* other error */
};

/* What a code of E.3 says. */
static inline const char *scm_abort_text(uint8_t code)
{
    switch (code) {
    case SCM_ABORT_TIMED_OUT: return "the status message timed out";
    case SCM_ABORT_OPERATOR: return "the operator has interfered";
    case SCM_ABORT_FAULT: return "a fault while a function was executed";
    case SCM_ABORT_OTHER: return "other error";
    default: return "no error of E.3";
    }
}

/* E.5, error: what the master did with an indication. Anything but 0 says no. */
enum scm_indication_error {
    SCM_INDICATION_TAKEN = 0,       /* no error */
    SCM_INDICATION_NO_FUNCTION = 1, /* function ID is not defined: the client's pool does not list it */
    SCM_INDICATION_NO_STATE = 2,    /* state ID is not defined: this function has no such state */
    SCM_INDICATION_WRONG_STATUS = 3, /* status does not match: done or failed without a start, or not what this TAN began with */
    SCM_INDICATION_FULL = 4,        /* no memory: 64 steps are held */
    SCM_INDICATION_GOES_ON = 5,     /* the playback goes on, and the function gets no more commands: legal in a message, never given by this master */
    SCM_INDICATION_STOPPED = 6,     /* the operator has interfered: the playback is aborted */
    SCM_INDICATION_OTHER = 255      /* other: the step failed, a new step in record complete, or in playback a function that is no step */
};

/* What an error of E.5 says. */
static inline const char *scm_indication_error_text(uint8_t error)
{
    switch (error) {
    case SCM_INDICATION_TAKEN: return "no error";
    case SCM_INDICATION_NO_FUNCTION: return "function ID is not defined";
    case SCM_INDICATION_NO_STATE: return "state ID is not defined";
    case SCM_INDICATION_WRONG_STATUS: return "execution status does not match";
    case SCM_INDICATION_FULL: return "the master's memory is full";
    case SCM_INDICATION_GOES_ON: return "the playback goes on without further commands to this function";
    case SCM_INDICATION_STOPPED: return "the operator has interfered: the playback is stopped";
    case SCM_INDICATION_OTHER: return "other error";
    default: return "no error of E.5";
    }
}

/* E.7, error: what went wrong at a client. Anything but 0 aborts a playback, unless the step was done already. */
enum scm_answer_error {
    SCM_ANSWER_NO_ERROR = 0,        /* no error */
    SCM_ANSWER_FAULT = 1,           /* the function is at fault */
    SCM_ANSWER_OPERATOR = 2,        /* the operator has interfered */
    SCM_ANSWER_CONDITIONS = 3,      /* the client's conditions do not allow it */
    SCM_ANSWER_OTHER = 255          /* other error */
};

/* What an error of E.7 says. */
static inline const char *scm_answer_error_text(uint8_t error)
{
    switch (error) {
    case SCM_ANSWER_NO_ERROR: return "no error";
    case SCM_ANSWER_FAULT: return "the function is at fault";
    case SCM_ANSWER_OPERATOR: return "the operator has interfered";
    case SCM_ANSWER_CONDITIONS: return "the client's conditions do not allow it";
    case SCM_ANSWER_OTHER: return "other error";
    default: return "no error of E.7";
    }
}

/* C.3: what the master can show. */
typedef struct scm_capability {
    uint8_t version;                /* of the standard, 0 to 2 */
    uint8_t width;                  /* pixels, 32 at least */
    uint8_t height;                 /* pixels, 32 at least */
    uint16_t characters;            /* 32 at least */
    uint8_t colour;                 /* of the font: any byte */
    uint8_t size;                   /* of the font: any byte */
    uint8_t font;                   /* any byte */
    uint8_t style;                  /* of the font: any byte */
} scm_capability;

/* E.4 to E.8: what they say of a step. */
typedef struct scm_message_step {
    uint8_t function;               /* function ID */
    uint8_t state;                  /* state ID, at most 63 */
    uint8_t status;                 /* enum scm_status */
    uint8_t error;                  /* E.5: enum scm_indication_error; E.7: enum scm_answer_error */
    uint8_t tan;                    /* the number that ties an answer to what it answers */
    uint32_t value;                 /* the function's value, all 32 bits; E.4 carries one at every status */
} scm_message_step;

/* A message by value. enum scm_kind says which fields a kind has. */
typedef struct scm_message {
    uint8_t kind;                   /* enum scm_kind */
    uint8_t code;                   /* what the kind says: an error, a version, a command */
    uint8_t reason;                 /* E.2: enum scm_reason */
    uint16_t object;                /* D.9: the first object at fault */
    uint32_t memory;                /* C.4: bytes */
    scm_capability capability;      /* C.3 */
    scm_message_step step;          /* E.4 to E.8 */
    scm_label label;                /* D.3, D.5 */
} scm_message;

/* What reading a message gives by value. */
typedef struct scm_message_reading {
    uint8_t number;
    scm_message message;
} scm_message_reading;

/* What writing a message, or the text of a shown value, gives by value. */
typedef struct scm_written {
    uint8_t number;
    size_t length;
} scm_written;

/* What scm_message_read, scm_message_write and scm_transfer_write stand over. */
SCM_MUST_USE scm_message_reading scm_read(uint32_t side, const uint8_t *bytes, size_t len);
SCM_MUST_USE scm_written scm_write(scm_message message, uint8_t *out, size_t out_len);
SCM_MUST_USE scm_written scm_write_transfer(const uint8_t *pool, size_t pool_len, uint8_t *out, size_t out_len);

/* What `len` bytes that `side` sent say. Reserved bytes and bits are not looked at.

     0  *message is what they say
     4  side is neither SCM_CLIENT nor SCM_MASTER; a code that this side does not send; a wrong length; a reserved code or a value that its field does
        not allow

   *message: with 4 of kind SCM_NOTHING, with 0 in every field. */
SCM_MUST_USE static inline uint8_t scm_message_read(uint32_t side, const uint8_t *bytes, size_t len, scm_message *message)
{
    scm_message_reading r = scm_read(side, bytes, len);
    if (message != NULL) {
        *message = r.message;
    }
    return r.number;
}

/* Writes a message to the front of out. Reserved bytes are FF. It looks at the fields that the kind has, and of a label at the first `length` bytes.

     0  the first *length bytes of out are the message, the others stay
     1  out_len is below the message's length: C.3 has 10 bytes, D.3 and D.5 have 3 + label.length and at least 8, every other message 8. A kind that
        is not written here asks for 8 too, SCM_TRANSFER for 1
     4  a kind that is not written here (SCM_NOTHING, SCM_TRANSFER, above 25), or a value that its field does not allow

   *length: with 1 and 4 it is 0. SCM_MESSAGE_BYTES are enough for every message. */
SCM_MUST_USE static inline uint8_t scm_message_write(const scm_message *message, uint8_t *out, size_t out_len, size_t *length)
{
    scm_written w = scm_write(*message, out, out_len);
    if (length != NULL) {
        *length = w.length;
    }
    return w.number;
}

/* Writes a transfer, D.6: its code and the pool, whose objects are not judged.

     0  the first *length bytes of out, pool_len + 1, are the message, the others stay
     1  out_len is below pool_len + 1, or below 16,385 where the pool has more than SCM_POOL_BYTES
     4  the pool has fewer than 8 bytes or more than SCM_POOL_BYTES

   *length: with 1 and 4 it is 0. */
SCM_MUST_USE static inline uint8_t scm_transfer_write(const uint8_t *pool, size_t pool_len, uint8_t *out, size_t out_len, size_t *length)
{
    scm_written w = scm_write_transfer(pool, pool_len, out, out_len);
    if (length != NULL) {
        *length = w.length;
    }
    return w.number;
}

/* ---- The shown value: keep the value, not what is shown; no call takes a shown value back */

/* What scm_shown_of and scm_shown_bits give by value. */
typedef struct scm_shown_value {
    uint8_t number;                 /* 0, or 4: the scale is not finite and above zero */
    uint8_t exact;                  /* 1 where the double below is the exact product, else 0; with 4 it is 0 */
    double value;                   /* (value + offset) * scale; with 4 it is 0 */
} scm_shown_value;

/* What scm_shown stands over. It says also whether the double is exact. */
SCM_MUST_USE scm_shown_value scm_shown_of(uint32_t value, int32_t offset, float scale);

/* As scm_shown_of, from the scale's 32 bits, as they stand in a pool and in scm_object.scale. The offset there is the bits of an int32_t: cast it. */
SCM_MUST_USE scm_shown_value scm_shown_bits(uint32_t value, int32_t offset, uint32_t scale);

/* The number for the screen, (value + offset) * scale: the sum exact, the product rounded once to a double. It is exact where the sum is below 2^29 in
   magnitude, and beyond that wherever a double holds the product: exact of scm_shown_of and scm_shown_bits says whether it is. To print it, take the
   text of scm_shown_text, which is not made from the double.

     0  *shown is the shown value
     4  the scale is not finite and above zero, as that of a function of SCM_STYLE_HIDDEN; *shown is 0 */
SCM_MUST_USE static inline uint8_t scm_shown(uint32_t value, int32_t offset, float scale, double *shown)
{
    scm_shown_value r = scm_shown_of(value, offset, scale);
    if (shown != NULL) {
        *shown = r.value;
    }
    return r.number;
}

/* What scm_shown_text stands over. It writes the characters alone, with no 0 after them. */
SCM_MUST_USE scm_written scm_write_shown(uint32_t value, int32_t offset, float scale, uint32_t decimals, uint8_t *out, size_t out_len);

/* The shown value as text, with so many decimals, 0 to 7: of all numbers with these decimals the nearest to (value + offset) * scale, and of two that
   are equally near the one whose last digit is even. It is made from the exact sum and the exact scale as whole numbers, and not from the double. A
   minus sign, only where a digit is not zero; at least one digit; with decimals above 0 a point, whatever the locale, and exactly that many digits. A 0
   stands after the characters, so that C has a string: len counts that byte, and SCM_SHOWN_BYTES are enough for every text. The scale of an object is
   the bits of a float: copy them into one.

     0  the first *length bytes of text are the characters, the next one is 0, the others stay
     4  the scale is not finite and above zero, as that of a function of SCM_STYLE_HIDDEN, or decimals is above 7. It comes before 1
     1  len is below the characters and the 0 after them, as len 0 always is

   *length: with 0 the characters without the 0 after them, 1 to 57; with 4 and 1 it is 0. */
SCM_MUST_USE static inline uint8_t scm_shown_text(uint32_t value, int32_t offset, float scale, uint32_t decimals, char *text, size_t len,
                                                  size_t *length)
{
    scm_written w = scm_write_shown(value, offset, scale, decimals, (uint8_t *)text, len == 0 ? 0 : len - 1);
    if (w.number == SCM_OK) {
        text[w.length] = '\0';
    }
    if (length != NULL) {
        *length = w.length;
    }
    return w.number;
}

/* ---- The master: clients, states, recording and playback

   The host owns the master's memory, one scm_master for each master, made by scm_init. The calls from scm_on to scm_edition are events, and all of
   them but scm_store change it; the readers after them answer in every state and change nothing.

     inactive --on--> ready --record--> record --stop--> record complete (while a step is open) --> ready
              <-off--       --start---> playback --all steps done--> ready
                                                 --abort--> abort --every enabled client reports abort--> ready

   slot       a place for a client, 0 to 7: empty, or taken by a client that was attached.
   wanted     the operator wants the client: since scm_enable, until scm_disable, or until its slot is emptied.
   enabled    wanted, and its last report is another than disabled. A client's last report is disabled when it is attached, so scm_enable alone
              enables nobody: the client has to report something else.
   recording  what is taken from scm_record on. It has its own steps; the sequence stays as it was until the recording ends and has kept a step.
   sequence   steps with the NAMEs and labels of their clients: those that the last recording that kept any has kept, in order of start, or those that
              were loaded after it, in the order of their blocks. It is what scm_start replays.
   edition    of a sequence: by which rule scm_start looks at its clients' NAMEs. A recording gives edition 1, a load what its blocks say, and
              scm_edition sets it.
   step       a function of a client that took a state, with its 32-bit value and its mark.
   block      SCM_BLOCK_BYTES bytes of a stored sequence, with a check of their own; HOST.md has them as a table of bytes.
   tick       an accepted scm_tick, 100 ms. A recording numbers its ticks from 1, from the accepted scm_record on; a playback from the accepted
              scm_start on.
   mark       what a recording had counted when the step began: ticks, or millimetres where the function's trigger is SCM_TRIGGER_DISTANCE; 0 before
              tick 1. Of a loaded step it is what its block says: at most 35,999 ticks or 2,359,194,465 mm. From step to step of a recording marks in
              ticks do not fall, nor do those in millimetres; in a loaded sequence they may.
   due        a step is due at tick t of a playback where its mark is t or less; with a mark in millimetres, where so many or more have been driven
              since the accepted scm_start, those of tick t among them. Marks of 0 and 1 ticks are due at tick 1 alike.
   TAN        a byte that ties an answer to what it answers. A client gives each step of a recording one of its own; the master counts those of its
              commands up. */

/* scm_state. The numbering is the library's own. */
enum scm_states {
    SCM_INACTIVE = 0,               /* switched off: as it is made, and after scm_off */
    SCM_READY = 1,                  /* clients are attached, enabled and disabled; a recording or a playback may begin */
    SCM_RECORD = 2,                 /* ticks are counted, E.4s begin and end steps */
    SCM_RECORD_COMPLETE = 3,        /* stopped, and a step is still open: E.4s end steps and begin none, ticks are still counted */
    SCM_PLAYBACK = 4,               /* ticks send the steps of the sequence, E.7s answer them */
    SCM_ABORT = 5                   /* a playback was broken off; the clients have to report abort */
};

/* What a state is called. */
static inline const char *scm_state_text(uint8_t state)
{
    switch (state) {
    case SCM_INACTIVE: return "inactive";
    case SCM_READY: return "ready";
    case SCM_RECORD: return "record";
    case SCM_RECORD_COMPLETE: return "record complete";
    case SCM_PLAYBACK: return "playback";
    case SCM_ABORT: return "abort";
    default: return "no state of a master";
    }
}

/* What a client reports, decoded from its status message as HOST.md says. The numbering is the library's own. */
enum scm_reports {
    SCM_REPORT_DISABLED = 0,        /* disabled or starting up; every client's last report when it is attached */
    SCM_REPORT_READY = 1,
    SCM_REPORT_RECORD = 2,          /* also of a client that still records while the master is in record complete */
    SCM_REPORT_PLAYBACK = 4,
    SCM_REPORT_ABORT = 5
};

/* What a report is called. */
static inline const char *scm_report_text(uint8_t report)
{
    switch (report) {
    case SCM_REPORT_DISABLED: return "disabled";
    case SCM_REPORT_READY: return "ready";
    case SCM_REPORT_RECORD: return "record";
    case SCM_REPORT_PLAYBACK: return "playback";
    case SCM_REPORT_ABORT: return "abort";
    default: return "no report of a client";
    }
}

/* scm_step_view.distance: what a step's mark counts. Of a recorded step it goes by the function's trigger in the pool loaded then; of a loaded one
   its block says it. */
enum scm_mark {
    SCM_MARK_TICKS = 0,             /* ticks: the trigger was SCM_TRIGGER_TIME or SCM_TRIGGER_EITHER */
    SCM_MARK_MILLIMETRES = 1        /* millimetres: it was SCM_TRIGGER_DISTANCE */
};

/* scm_sequence_edition: who may replay the sequence. HOST.md, "Who may replay", has both rules. With no sequence it is 0. */
enum scm_editions {
    SCM_EDITION_1 = 1,              /* whoever masks and master NAMEs let pass: what a recording gives, and what was stored before there were editions */
    SCM_EDITION_2 = 2               /* bound to the drill that recorded: each client's identity number, the lowest 21 bits of its NAME, agrees too */
};

/* scm_sent_view.answer: what a client has answered to a command. */
enum scm_answered {
    SCM_UNANSWERED = 0,             /* nothing yet: tick left + 16 aborts */
    SCM_ANSWERED_STARTED = 1,       /* started: no limit but tick 36,000 */
    SCM_ANSWERED_DONE = 2           /* done */
};

/* The parts of a master. A host declares an scm_master and reads it by the readers; the fields are here because the struct crosses by value. */

/* A client's slot. An empty slot is all 0. */
typedef struct scm_slot_state {
    uint8_t taken;                  /* 0 or 1 */
    uint8_t wanted;                 /* 0 or 1 */
    uint8_t report;                 /* the last report, enum scm_reports */
    uint64_t name;                  /* the NAME that it was attached with */
    scm_profile profile;            /* what is kept of its pool */
} scm_slot_state;

/* What a sequence or a recording keeps of a client, as it was when its first step was taken; of a loaded sequence as its blocks say. */
typedef struct scm_client_record {
    uint8_t used;                   /* 1 where there is a step of this slot, else 0 and all else 0 */
    uint64_t name;                  /* the NAME that it was attached with */
    uint64_t master;                /* the master NAME of its pool */
    scm_label version;
    scm_label configuration;
} scm_client_record;

/* A step. */
typedef struct scm_sequence_step {
    uint8_t slot;                   /* of the client */
    uint8_t function;               /* function ID */
    uint8_t state;                  /* state ID */
    uint8_t distance;               /* enum scm_mark: what the mark counts */
    uint32_t value;                 /* what the client sent, or as loaded: all 32 bits, whatever minimum and maximum say */
    uint32_t mark;                  /* ticks or millimetres since the recording began, as its start came, 0 before the first tick; or as loaded */
} scm_sequence_step;

/* A step while it is recorded. Its value is 0 while it is open, and stays 0 where it failed. */
typedef struct scm_taken_step {
    scm_sequence_step step;
    uint8_t tan;                    /* the client's */
    uint8_t status;                 /* enum scm_status: SCM_AT_ONCE and SCM_DONE will be kept, SCM_STARTED is open, SCM_FAILED will be dropped */
} scm_taken_step;

/* A command that has left. */
typedef struct scm_sent_step {
    uint8_t tan;                    /* the master's */
    uint8_t answer;                 /* enum scm_answered */
    uint32_t left;                  /* the tick of the playback at which it first left */
} scm_sent_step;

/* A sequence, from a recording or from a load. Used cells come first, clients stand by slot, unused cells are 0. */
typedef struct scm_sequence {
    size_t count;                   /* steps */
    uint32_t edition;               /* enum scm_editions; 0 where there is no step */
    scm_sequence_step steps[64];    /* in order of start; of a loaded sequence in the order of its blocks */
    scm_client_record clients[8];   /* by slot */
} scm_sequence;

/* A recording; all 0 outside record and record complete. */
typedef struct scm_recording {
    uint32_t ticks;                 /* counted so far */
    uint32_t distance;              /* millimetres driven so far */
    size_t count;                   /* steps held, failed ones too */
    scm_taken_step steps[64];       /* in order of start */
    scm_client_record clients[8];   /* by slot */
} scm_recording;

/* A playback; all 0 outside playback. */
typedef struct scm_playback {
    uint32_t ticks;                 /* counted so far */
    uint32_t distance;              /* millimetres driven so far */
    size_t sent;                    /* steps that have left */
    scm_sent_step commands[64];     /* that of step i of the sequence is command i */
} scm_playback;

/* A master: plain data without pointers, 24,504 bytes. It may be copied, and kept in a file for the same version of the library. What is to outlast
   that is the sequence, by scm_store. */
typedef struct scm_master {
    uint8_t state;                  /* enum scm_states */
    uint8_t tan;                    /* that of the last new command */
    scm_slot_state slots[8];
    scm_sequence sequence;
    scm_recording recording;
    scm_playback playback;
} scm_master;

/* What an event gives by value. code and object belong to number 6; count is the frames of a tick, or the bytes that a store has written. Else they
   are 0. */
typedef struct scm_outcome {
    uint8_t number;                 /* enum scm_number */
    uint8_t code;
    uint16_t object;
    uint32_t count;
    scm_master master;              /* the master after it; with any number but 0 as it was */
} scm_outcome;

/* What the readers give by value: number is 0, or 3 where there is no such slot, step or command, and then all else is 0. */
typedef struct scm_slot_result {
    uint8_t number;
    uint8_t taken;
    uint8_t wanted;
    uint8_t report;
    uint64_t name;
} scm_slot_result;

/* scm_step by value. */
typedef struct scm_step_result {
    uint8_t number;
    scm_sequence_step step;
} scm_step_result;

/* scm_client by value. */
typedef struct scm_client_result {
    uint8_t number;
    scm_client_record client;
} scm_client_result;

/* scm_taken by value. */
typedef struct scm_taken_result {
    uint8_t number;
    scm_taken_step taken;
} scm_taken_result;

/* scm_sent by value. */
typedef struct scm_sent_result {
    uint8_t number;
    scm_sent_step sent;
} scm_sent_result;

/* scm_verify by value: number is 0 or 7 to 12. */
typedef struct scm_check_result {
    uint8_t number;
    size_t slot;
    size_t step;
} scm_check_result;

/* scm_progress gives this by value to a host too. */
typedef struct scm_progress_view {
    uint32_t ticks;                 /* accepted ticks since the recording or the playback began */
    uint32_t distance;              /* millimetres driven in them */
    size_t count;                   /* steps taken, failed ones too, or commands that have left; at most SCM_STEPS */
} scm_progress_view;

/* What the wrappers below stand over. */
SCM_MUST_USE scm_master scm_master_new(void);
SCM_MUST_USE scm_outcome scm_master_on(scm_master master);
SCM_MUST_USE scm_outcome scm_master_off(scm_master master);
SCM_MUST_USE scm_outcome scm_master_attach(scm_master master, size_t slot, uint64_t name, const uint8_t *pool, size_t pool_len);
SCM_MUST_USE scm_outcome scm_master_enable(scm_master master, size_t slot, uint8_t *out, size_t out_len);
SCM_MUST_USE scm_outcome scm_master_disable(scm_master master, size_t slot, uint8_t *out, size_t out_len);
SCM_MUST_USE scm_outcome scm_master_report(scm_master master, size_t slot, uint32_t report);
SCM_MUST_USE scm_outcome scm_master_lost(scm_master master, size_t slot);
SCM_MUST_USE scm_outcome scm_master_record(scm_master master);
SCM_MUST_USE scm_outcome scm_master_stop(scm_master master);
SCM_MUST_USE scm_outcome scm_master_cancel(scm_master master);
SCM_MUST_USE scm_outcome scm_master_indication(scm_master master, size_t slot, const uint8_t *msg, size_t msg_len, uint8_t *out, size_t out_len);
SCM_MUST_USE scm_outcome scm_master_client_abort(scm_master master, size_t slot, const uint8_t *msg, size_t msg_len);
SCM_MUST_USE scm_outcome scm_master_start(scm_master master);
SCM_MUST_USE scm_outcome scm_master_abort(scm_master master);
SCM_MUST_USE scm_outcome scm_master_tick(scm_master master, uint32_t mm, uint8_t *frames, size_t frames_len);
SCM_MUST_USE scm_outcome scm_master_answer(scm_master master, size_t slot, const uint8_t *msg, size_t msg_len, uint8_t *out, size_t out_len);
SCM_MUST_USE scm_outcome scm_master_store(scm_master master, uint8_t *blocks, size_t blocks_len);
SCM_MUST_USE scm_outcome scm_master_load(scm_master master, const uint8_t *blocks, size_t blocks_len);
SCM_MUST_USE scm_outcome scm_master_edition(scm_master master, uint32_t edition);
SCM_MUST_USE uint8_t scm_master_state(uint8_t state);
SCM_MUST_USE scm_slot_result scm_master_slot(scm_master master, size_t slot);
SCM_MUST_USE size_t scm_master_step_count(scm_sequence sequence);
SCM_MUST_USE uint32_t scm_master_sequence_edition(scm_sequence sequence);
SCM_MUST_USE scm_step_result scm_master_step(scm_sequence sequence, size_t i);
SCM_MUST_USE scm_client_result scm_master_client(scm_sequence sequence, size_t slot);
SCM_MUST_USE scm_progress_view scm_master_progress(uint8_t state, scm_recording recording, scm_playback playback);
SCM_MUST_USE scm_taken_result scm_master_taken(scm_recording recording, size_t i);
SCM_MUST_USE scm_sent_result scm_master_sent(scm_playback playback, size_t i);
SCM_MUST_USE scm_check_result scm_master_verify(scm_master master);

/* Internal to the wrappers: the master goes on to what the call gave. */
SCM_MUST_USE static inline uint8_t scm_moved_on(scm_master *m, const scm_outcome *o)
{
    *m = o->master;
    return o->number;
}

/* ---- Events. Each comment gives the states in which the call may be accepted, and its numbers in the order in which they are looked at. */

/* Makes a master: inactive, eight empty slots, no sequence, TAN 0. Once, before all other calls; whatever stood in *m is gone. */
static inline void scm_init(scm_master *m)
{
    *m = scm_master_new();
}

/* The operator switches on: inactive to ready. Clients, sequence and TAN are as they were at scm_off.

     0  the state is ready
     2  not inactive */
SCM_MUST_USE static inline uint8_t scm_on(scm_master *m)
{
    scm_outcome o = scm_master_on(*m);
    return scm_moved_on(m, &o);
}

/* The operator switches off: ready to inactive. Nothing else changes: clients, their last reports and the sequence stay.

     0   the state is inactive
     2   not ready: end a recording or a playback first
     13  an attached client, wanted or not, last reported something else than disabled

   What to do with 13: scm_disable each client that scm_slot shows with another report, send its E.2, and try again when all have reported
   disabled. */
SCM_MUST_USE static inline uint8_t scm_off(scm_master *m)
{
    scm_outcome o = scm_master_off(*m);
    return scm_moved_on(m, &o);
}

/* A client and its pool (D.6, D.8) fill an empty slot: not wanted, last report disabled. In ready. The slot matters: a sequence goes by slots, so a
   client that is to replay what it recorded is attached in the slot in which it recorded it. The pool's bytes stay with the host, who needs them for
   the screen alone.

     0  attached. Send D.9 with code 0x00 and object 0xFFFF
     3  slot above 7 or taken, or a client of this NAME is attached already, in whatever slot
     2  not in ready
     6  the pool is refused. Send D.9 with *code and *object

   *code, *object: with 6 the code of D.9 and the object it names; with every other number, 0 too, both are 0.
   Afterwards: the client is not enabled. scm_enable, send the E.2, and hand over its reports. To load another pool of the same client: scm_lost, then
   attach. */
SCM_MUST_USE static inline uint8_t scm_attach(scm_master *m, size_t slot, uint64_t name, const uint8_t *pool, size_t pool_len, uint8_t *code,
                                              uint16_t *object)
{
    scm_outcome o = scm_master_attach(*m, slot, name, pool, pool_len);
    if (code != NULL) {
        *code = o.code;
    }
    if (object != NULL) {
        *object = o.object;
    }
    return scm_moved_on(m, &o);
}

/* The operator wants a client: it is wanted, and E.2 (enable, reason operator) is written to out[0] to out[7]. In ready; again for a wanted client
   too.

     0  wanted. Send the E.2
     1  out_len is below SCM_ANSWER_BYTES
     3  slot above 7 or empty
     2  not in ready

   Afterwards: it is not enabled yet. It is from its first report on that is not disabled; until then scm_record gives 14 (if no other client is
   enabled) and scm_start 8 (if it is a client of the sequence). Only a client whose last report is not disabled, since it was enabled before, is
   enabled at once. scm_slot shows wanted and the last report. */
SCM_MUST_USE static inline uint8_t scm_enable(scm_master *m, size_t slot, uint8_t *out, size_t out_len)
{
    scm_outcome o = scm_master_enable(*m, slot, out, out_len);
    return scm_moved_on(m, &o);
}

/* The operator wants a client no more: it is not wanted, and E.2 (disable, reason operator) is written to out[0] to out[7]. In ready; again for an
   unwanted client too.

     0  not wanted. Send the E.2
     1  out_len is below SCM_ANSWER_BYTES
     3  slot above 7 or empty
     2  not in ready

   Afterwards: the client is enabled no more, at once. It stays attached, and its last report stays: scm_off gives 13 until it has reported disabled.
   Its reports are taken up to and with that one, then only disabled is. A disabled client keeps its slot for the next scm_enable; scm_lost is what
   empties it. */
SCM_MUST_USE static inline uint8_t scm_disable(scm_master *m, size_t slot, uint8_t *out, size_t out_len)
{
    scm_outcome o = scm_master_disable(*m, slot, out, out_len);
    return scm_moved_on(m, &o);
}

/* A client's status message has come, decoded to one of enum scm_reports: call it with every one. In every active state. It becomes the client's last
   report; but an enabled client that reports disabled, which is a wanted one that reports it after another report, loses its slot and has to be
   attached again (scm_attach, scm_enable) to be used. A client whose last report is disabled already keeps its slot, wanted or not, and so does one
   that is not wanted.

     0  taken
     4  state is none of enum scm_reports: 3, or above 5
     3  slot above 7 or empty
     2  inactive
     5  the client is not wanted, its last report is disabled, and this one is not: not expected, not kept. So it is with every report of a client
        that is ready before the operator wants it. Whether a status message gets a NACK is annex F's to say, which is the host's

   Afterwards look at scm_state. Of a client that was enabled before this report:
     in record and record complete, disabled: the recording is thrown away, to ready, the old sequence stays. Any other report is just kept: while it
       is another than record, the client's E.4s give 5
     in playback, disabled, record or abort: to abort. ready and playback are just kept
   In abort, a report of any client that leaves every enabled client's last report at abort: to ready. The report that went to abort does not count
   for this: it takes a later report, loss or tick. In ready the clients then have to report ready before scm_record or scm_start gives 0: until then
   it gives 12. */
SCM_MUST_USE static inline uint8_t scm_report(scm_master *m, size_t slot, uint32_t state)
{
    scm_outcome o = scm_master_report(*m, slot, state);
    return scm_moved_on(m, &o);
}

/* A client is gone: its status message has not come in time, or the host takes it off. In every active state. Its slot is emptied. How long to wait
   is the host's choice. What the sequence keeps of it stays: attached again in this slot, it can replay.

     0  the slot is empty
     3  slot above 7 or empty
     2  inactive

   Afterwards look at scm_state. Where the client was enabled: in record and record complete the recording is thrown away, of all clients, to ready,
   and the old sequence stays; in playback to abort. A client that was not enabled ends neither. In abort any loss may be the last thing wanted: with
   every enabled client that is left at abort, to ready. */
SCM_MUST_USE static inline uint8_t scm_lost(scm_master *m, size_t slot)
{
    scm_outcome o = scm_master_lost(*m, slot);
    return scm_moved_on(m, &o);
}

/* The operator records: ready to record. Marks count from here.

     0   the state is record. A tick every 100 ms from now on
     2   not in ready
     14  no client is enabled: after scm_enable a client has to report, see there
     12  an enabled client's last report is not ready. Clients that are not enabled do not count; scm_slot shows whose it is

   Afterwards: tell the clients by the status message. A client's E.4s give 5 until it has reported record. scm_progress and scm_taken show what is
   recorded; scm_step_count, scm_step and scm_sequence_edition stay the old sequence's until the recording ends. */
SCM_MUST_USE static inline uint8_t scm_record(scm_master *m)
{
    scm_outcome o = scm_master_record(*m);
    return scm_moved_on(m, &o);
}

/* The operator stops the recording, in record: to record complete while a step is open, else to ready.

     0  stopped
     2  not in record; in record complete too

   Afterwards look at scm_state. In record complete go on with ticks, reports and E.4s: with the E.4 that ends the last open step, done or failed, it
   goes to ready; a client that never ends it holds the master there until scm_cancel, until an enabled client is lost or reports disabled, or until
   tick 36,000.
   When it goes to ready, the steps that are one-shot or done are the new sequence, in order of their starts and of edition 1; scm_step_count and
   scm_step show it.
   Where there is none, the OLD sequence stays, and scm_start replays that: ask scm_taken before the end, or compare scm_step and scm_step_count,
   where it matters. */
SCM_MUST_USE static inline uint8_t scm_stop(scm_master *m)
{
    scm_outcome o = scm_master_stop(*m);
    return scm_moved_on(m, &o);
}

/* The operator throws the recording away, in record and record complete: to ready. The old sequence stays.

     0  the state is ready
     2  neither in record nor in record complete */
SCM_MUST_USE static inline uint8_t scm_cancel(scm_master *m)
{
    scm_outcome o = scm_master_cancel(*m);
    return scm_moved_on(m, &o);
}

/* E.4 has come, msg as it came; E.5 is written to out[0] to out[7]. In every active state.

     0  answered: send the E.5. It may say no: look at its error, out[3], or read it by scm_message_read of SCM_MASTER
     1  out_len is below SCM_ANSWER_BYTES
     4  msg is no E.4: not 8 bytes, or another code
     3  slot above 7 or empty
     2  inactive
     5  not expected: send a NACK. The E.4 counts if its client is enabled and its last report is record, in record and record complete; and with
        status SCM_FAILED from an enabled client in playback

   In record and record complete the client's TAN says which step is meant. A TAN by which this client has begun no step of the recording is new: it
   begins one, with SCM_AT_ONCE (and its value) or with SCM_STARTED; the mark is what is counted so far, in millimetres where the function's trigger
   is SCM_TRIGGER_DISTANCE in the pool now loaded, else in ticks. A TAN that has begun a step means this step until the recording ends. The error of
   E.5, enum scm_indication_error, is the first of these that applies:

     0x01  a new TAN, and the client's pool does not list the function
     0x02  a new TAN, and the function has not the state
     0x03  a new TAN with status SCM_DONE or SCM_FAILED; a known one with another function or state, or with a status that does not follow: a one-shot
           step takes SCM_AT_ONCE alone, an open one all but that, a done one SCM_STARTED and SCM_DONE, a failed one SCM_STARTED and SCM_FAILED
     0xFF  a new TAN in record complete; or SCM_FAILED of an open or failed step: it is failed and will not be kept, the client begins again with a
           new TAN
     0x04  a new TAN, and SCM_STEPS steps are held, failed ones too
     0x00  taken: a step has begun, or an open one is done and has this message's value, or it was said before (a repeated start is no second step)

   With 0x01 to 0x04, and 0xFF for a new TAN, no step is kept of it and nothing changes. The value is not held against minimum and maximum.
   In playback SCM_FAILED says that the operator has interfered: where the sequence has a step of this slot and function, the error is 0x06 and the
   master goes to abort; else it is 0xFF and nothing changes.
   Afterwards: scm_state (record complete may have gone to ready, playback to abort), scm_taken for the step. */
SCM_MUST_USE static inline uint8_t scm_indication(scm_master *m, size_t slot, const uint8_t *msg, size_t msg_len, uint8_t *out, size_t out_len)
{
    scm_outcome o = scm_master_indication(*m, slot, msg, msg_len, out, out_len);
    return scm_moved_on(m, &o);
}

/* E.3 has come, msg as it came: a client wants the playback to end. Each error of enum scm_abort_error ends it alike.

     0  the state is abort: tell the clients by the status message
     4  msg is no E.3: not 8 bytes, another code, or an error that is none of enum scm_abort_error
     3  slot above 7 or empty
     2  inactive
     5  not in playback, or the client is not enabled: send a NACK */
SCM_MUST_USE static inline uint8_t scm_client_abort(scm_master *m, size_t slot, const uint8_t *msg, size_t msg_len)
{
    scm_outcome o = scm_master_client_abort(*m, slot, msg, msg_len);
    return scm_moved_on(m, &o);
}

/* The operator replays the sequence: ready to playback, where every check holds. Ticks and millimetres of the playback count from here.

     0   the state is playback. A tick every 100 ms from now on; tell the clients by the status message. Commands leave whether or not they report
         playback
     2   not in ready
     7   the sequence has no step: nothing was ever recorded and kept, or loaded
     8   a client of the sequence is not enabled: its slot is empty, or it is not wanted, or its last report is disabled
     9   its NAME differs from the one kept: another machine, by the rule of the sequence's edition; HOST.md, "Who may replay", has both. In edition 2
         an identity number that differs is enough, no matter what the mask says
     10  its version label or its configuration label differs from the one kept
     11  its pool has not the function and state of a step
     12  its last report is not ready. Clients that are not in the sequence need not be ready

   They are looked at in this order: 7; then slot by slot, lowest first, 8, 9, 10; then step by step 11; then slot by slot 12. Which slot or step it
   is, scm_verify says. What is replayed is the sequence: after a recording that kept no step, or was thrown away, it is the one before. One that was
   loaded is checked and replayed as one that was recorded. */
SCM_MUST_USE static inline uint8_t scm_start(scm_master *m)
{
    scm_outcome o = scm_master_start(*m);
    return scm_moved_on(m, &o);
}

/* The operator stops the playback: playback to abort.

     0  the state is abort
     2  not in playback

   Afterwards: tell the clients by the status message, and go on with reports and ticks. The master goes to ready at the first later report that is
   taken, loss or tick at which every enabled client's last report is abort; with no enabled client, at the first of them. */
SCM_MUST_USE static inline uint8_t scm_abort(scm_master *m)
{
    scm_outcome o = scm_master_abort(*m);
    return scm_moved_on(m, &o);
}

/* 100 ms have passed, in which mm millimetres were driven. In every active state; it counts in record, record complete and playback, and may end an
   abort.
   Fills frames[0] to frames[575]: *count frames of nine bytes (the slot, then the eight of an E.6), and 0 after them; bytes past these 576 stay.
   There is room for 64 frames, as document 01 has it; no tick has more than 8.

     0  counted. Send each of the *count frames once, to the client of its slot: frames[9 * i], and from frames[9 * i + 1] on the E.6
     1  frames_len is below SCM_FRAMES_BYTES
     4  mm is above 65,535
     2  inactive

   *count: the frames to send, at most 8; 0 where the tick is refused, outside playback, and at a tick that aborts.
   In playback, in this order: the tick is counted; at tick 36,000 to abort; where a command has no answer 16 ticks after it first left, to abort;
   else the next step of the sequence leaves if it is due. One new step leaves a tick, in the sequence's order, with the next TAN: a step that is due
   waits while one before it waits, and not for its answer. A command is in the frames of the tick at which it first leaves and of every second tick
   after it until it is answered, byte for byte the same: at most five times in ten ticks. So *count is not how many commands are unanswered; it may
   be 0 while some are.
   In record and record complete: tick 36,000 throws the recording away, to ready; the old sequence stays.
   In abort: to ready, where every enabled client's last report is abort.
   Afterwards: scm_state; scm_progress and scm_sent for the screen. In abort they show nothing of the playback any more: a host that is to say which
   client gave no answer asks them before the tick. A refused tick has counted nothing: hand its millimetres over with the next one. */
SCM_MUST_USE static inline uint8_t scm_tick(scm_master *m, uint32_t mm, uint8_t *frames, size_t frames_len, uint32_t *count)
{
    scm_outcome o = scm_master_tick(*m, mm, frames, frames_len);
    if (count != NULL) {
        *count = o.count;
    }
    return scm_moved_on(m, &o);
}

/* E.7 has come, msg as it came: a client answers a command. E.8 is written to out[0] to out[7].

     0   send the E.8
     1   out_len is below SCM_ANSWER_BYTES
     4   msg is no E.7: not 8 bytes, another code, or an error that is none of enum scm_answer_error
     3   slot above 7 or empty
     2   inactive
     15  it matches no command that has left: slot, TAN, function and state are not those of one. Outside playback none counts as sent, so every E.7
         gives 15, also a late one after the playback has ended. Ignore it: nothing is written and nothing is sent

   Afterwards look at scm_state. SCM_STARTED: the command is not repeated, and may take any time up to tick 36,000. SCM_AT_ONCE and SCM_DONE: the step
   is done; with the last one to ready. SCM_FAILED, or an error other than 0 with any status: to abort. A further answer for a step that is done,
   whatever it says, gives 0 and an E.8 and changes nothing. */
SCM_MUST_USE static inline uint8_t scm_answer(scm_master *m, size_t slot, const uint8_t *msg, size_t msg_len, uint8_t *out, size_t out_len)
{
    scm_outcome o = scm_master_answer(*m, slot, msg, msg_len, out, out_len);
    return scm_moved_on(m, &o);
}

/* Writes the sequence to the front of blocks, as blocks of SCM_BLOCK_BYTES, each with its check: what a host keeps in a file, and what scm_load
   takes, in this master or another one. In ready. The master is only read, and no client need be attached. The blocks hold the edition, the steps
   and, of each of their clients, slot, NAME, master NAME and labels; they hold no pool, and nothing of the master's state, of its TAN or of who is
   attached.

     0  the first *written bytes of blocks are the sequence, the others stay
     1  len is below the bytes of the sequence's blocks: 1 + clients / 3 + steps / 31 of them, each quotient rounded up. SCM_STORE_BYTES are always
        enough; with no step none are asked for
     2  not in ready
     7  the sequence has no step: there is nothing to keep

   *written: with 0 the bytes of the blocks, 1,536 to SCM_STORE_BYTES; else 0.
   Afterwards: write them to a file beside the old one, flush, and rename, so that a power cut leaves the old file or the new one; HOST.md, "A
   sequence in a file", has the order. The same sequence gives the same bytes. The messages D.12 to D.15, by which a client has its pool stored and
   loaded, have nothing to do with this. */
SCM_MUST_USE static inline uint8_t scm_store(const scm_master *m, uint8_t *blocks, size_t len, size_t *written)
{
    scm_outcome o = scm_master_store(*m, blocks, len);
    if (written != NULL) {
        *written = o.count;
    }
    return o.number;
}

/* Takes up a sequence that scm_store has written: hand over just the bytes that it wrote, which is the whole file. Any bytes at all are judged. In
   ready. The sequence that stood there is replaced, and not asked back: store it first where it is to be kept. Nothing else changes: clients, their
   last reports, the TAN and the state are as they were.

     0   the sequence is that of the blocks, step for step, of their edition, with what they keep of its clients. Blocks that were stored before there
         were editions are of edition 1
     2   not in ready
     16  the check of a block is wrong, of any whole block among the bytes: they are not what was written. The file is damaged, or holds no stored
         sequence at all: take another copy of it
     17  every whole block has its check, and yet no sequence is stored so: len is 0 or no number of whole blocks, blocks are missing or left over, a
         count or a field is out of its range, the edition is neither 1 nor 2, a fill is not 0, a slot has two records, a step has no record of its
         client, or a record has no step. The file was cut, or written by something else or by a later version: do not mend it

   Afterwards: scm_step_count, scm_sequence_edition, scm_step and scm_client show what was loaded, and scm_verify whether it may be replayed: scm_start
   checks it as it checks one that was recorded. Every whole block is looked at, however many there are: read no more of a file than SCM_STORE_BYTES
   and one. */
SCM_MUST_USE static inline uint8_t scm_load(scm_master *m, const uint8_t *blocks, size_t len)
{
    scm_outcome o = scm_master_load(*m, blocks, len);
    return scm_moved_on(m, &o);
}

/* Sets the sequence's edition, one of enum scm_editions: SCM_EDITION_2 binds what was recorded or loaded to the drill that recorded it, SCM_EDITION_1
   releases it again. In ready. Nothing else changes: the steps, and what is kept of their clients, are as they were.

     0   the sequence is of this edition
     2   not in ready
     7   the sequence has no step: there is nothing to bind
     17  edition is neither 1 nor 2

   Afterwards: scm_start and scm_verify go by it, and so they do wherever the sequence is loaded again: set it before scm_store. It stays until it is
   set again, and goes with its sequence: one that is recorded in its place is of edition 1, one that is loaded of its own edition. */
SCM_MUST_USE static inline uint8_t scm_edition(scm_master *m, uint32_t edition)
{
    scm_outcome o = scm_master_edition(*m, edition);
    return scm_moved_on(m, &o);
}

/* ---- Readers: for the screen and the status message. They answer in every state and change nothing; a view is always written unless it is NULL. */

/* A slot as a host sees it. An empty slot is all 0. */
typedef struct scm_slot_view {
    uint8_t taken;                  /* 0 or 1 */
    uint8_t wanted;                 /* 0 or 1 */
    uint8_t report;                 /* the last report, enum scm_reports; enabled is wanted 1 and a report that is not SCM_REPORT_DISABLED */
    uint64_t name;                  /* the NAME that it was attached with */
} scm_slot_view;

/* A step as a host sees it. */
typedef scm_sequence_step scm_step_view;

/* A step of a recording as a host sees it. */
typedef scm_taken_step scm_taken_view;

/* A command of a playback as a host sees it. */
typedef scm_sent_step scm_sent_view;

/* Where a check of a start does not hold. */
typedef struct scm_check_view {
    size_t slot;                    /* with 8, 9, 10, 11 and 12; else 0 */
    size_t step;                    /* with 11, counted from 0; else 0 */
} scm_check_view;

/* What a sequence keeps of a client, as a host sees it. */
typedef struct scm_client_view {
    uint8_t used;                   /* 1 where the sequence has a step of this slot, else 0 and all else 0 */
    uint64_t name;                  /* the NAME that it was attached with when its first step was recorded; of a loaded sequence what its blocks say */
    uint64_t master_name;           /* the master NAME of its pool then; the same */
    uint8_t version_length;
    uint8_t version[63];
    uint8_t configuration_length;
    uint8_t configuration[63];
} scm_client_view;

/* The state, enum scm_states: the host puts it into its status message (F.2). Look at it after every event that gave 0. */
SCM_MUST_USE static inline uint8_t scm_state(const scm_master *m)
{
    return scm_master_state(m->state);
}

/* A slot: whether it is taken, its client's NAME, wanted and last report.

     0  *view is the slot; all 0 where it is empty
     3  slot above 7; *view is all 0 */
SCM_MUST_USE static inline uint8_t scm_slot(const scm_master *m, size_t slot, scm_slot_view *view)
{
    scm_slot_result r = scm_master_slot(*m, slot);
    if (view != NULL) {
        view->taken = r.taken;
        view->wanted = r.wanted;
        view->report = r.report;
        view->name = r.name;
    }
    return r.number;
}

/* How many steps the sequence has, at most SCM_STEPS. During a recording it is still the old sequence's; scm_progress counts what is recorded. */
SCM_MUST_USE static inline size_t scm_step_count(const scm_master *m)
{
    return scm_master_step_count(m->sequence);
}

/* The sequence's edition, enum scm_editions, or 0 where it has no step. During a recording it is still the old sequence's. */
SCM_MUST_USE static inline uint32_t scm_sequence_edition(const scm_master *m)
{
    return scm_master_sequence_edition(m->sequence);
}

/* Step i of the sequence, counted from 0; during a recording of the old one.

     0  *view is the step
     3  i is not below scm_step_count; *view is all 0 */
SCM_MUST_USE static inline uint8_t scm_step(const scm_master *m, size_t i, scm_step_view *view)
{
    scm_step_result r = scm_master_step(m->sequence, i);
    if (view != NULL) {
        *view = r.step;
    }
    return r.number;
}

/* What the sequence keeps of a slot's client.

     0  *view is what is kept; all 0 where the sequence has no step of this slot
     3  slot above 7; *view is all 0 */
SCM_MUST_USE static inline uint8_t scm_client(const scm_master *m, size_t slot, scm_client_view *view)
{
    scm_client_result r = scm_master_client(m->sequence, slot);
    if (view != NULL) {
        view->used = r.client.used;
        view->name = r.client.name;
        view->master_name = r.client.master;
        view->version_length = r.client.version.length;
        view->configuration_length = r.client.configuration.length;
        for (size_t i = 0; i < sizeof view->version; i++) {
            view->version[i] = r.client.version.bytes[i];
            view->configuration[i] = r.client.configuration.bytes[i];
        }
    }
    return r.number;
}

/* How far it has come. In record and record complete: the recording's ticks and millimetres so far, and the steps taken, failed ones too. In
   playback: the playback's ticks and millimetres so far, and the commands that have left; compare with scm_step_count. In every other state all is
   0. */
SCM_MUST_USE static inline scm_progress_view scm_progress(const scm_master *m)
{
    return scm_master_progress(m->state, m->recording, m->playback);
}

/* Step i of what is being recorded, counted from 0, in order of start, failed ones too: what it is, its client's TAN and its status.

     0  *view is the step. While it is open (SCM_STARTED) its value is 0; the value comes with SCM_DONE
     3  i is not below scm_progress(m).count; outside record and record complete always. *view is all 0 */
SCM_MUST_USE static inline uint8_t scm_taken(const scm_master *m, size_t i, scm_taken_view *view)
{
    scm_taken_result r = scm_master_taken(m->recording, i);
    if (view != NULL) {
        *view = r.taken;
    }
    return r.number;
}

/* Command i of the playback, which is that of step i of the sequence (scm_step): its TAN, its answer, the tick at which it first left.

     0  *view is the command
     3  step i has not left yet, or there is none; outside playback always. *view is all 0

   A client that is silent: answer is SCM_UNANSWERED and scm_progress(m).ticks - left comes near 16, at which the playback is aborted; the step's slot
   names it. */
SCM_MUST_USE static inline uint8_t scm_sent(const scm_master *m, size_t i, scm_sent_view *view)
{
    scm_sent_result r = scm_master_sent(m->playback, i);
    if (view != NULL) {
        *view = r.sent;
    }
    return r.number;
}

/* Why a start is refused, to the screen, in every state and without starting: the number of the first check that does not hold, in scm_start's order,
   with its slot and step. In ready, scm_start gives exactly this number; in every other state it gives 2.

     0         every check holds; *view is all 0
     7         the sequence has no step; *view is all 0
     8, 9, 10  view->slot is the client that is not enabled, whose NAME differs, or whose label differs
     11        view->step is the step that is not in the pool of view->slot
     12        view->slot is the client that is not reporting ready */
SCM_MUST_USE static inline uint8_t scm_verify(const scm_master *m, scm_check_view *view)
{
    scm_check_result r = scm_master_verify(*m);
    if (view != NULL) {
        view->slot = r.slot;
        view->step = r.step;
    }
    return r.number;
}

/* ---- The layout

   Bytes of each struct that crosses to the library, and where its fields stand, on x86-64 Linux. A compiler that lays them out otherwise stops
   here. */
#define SCM_LAYOUT(SIZE, FIELD) \
    SIZE(scm_verdict, 4) FIELD(scm_verdict, code, 0) FIELD(scm_verdict, object, 2) \
    SIZE(scm_object, 720) FIELD(scm_object, kind, 0) FIELD(scm_object, place, 8) FIELD(scm_object, next, 16) FIELD(scm_object, number, 24) \
        FIELD(scm_object, standard, 26) FIELD(scm_object, master, 32) FIELD(scm_object, mask, 40) FIELD(scm_object, name, 48) \
        FIELD(scm_object, picture, 50) FIELD(scm_object, function, 52) FIELD(scm_object, trigger, 53) FIELD(scm_object, attribute, 54) \
        FIELD(scm_object, minimum, 56) FIELD(scm_object, maximum, 60) FIELD(scm_object, offset, 64) FIELD(scm_object, scale, 68) \
        FIELD(scm_object, decimals, 72) FIELD(scm_object, unit, 74) FIELD(scm_object, state, 76) FIELD(scm_object, n, 77) FIELD(scm_object, m, 78) \
        FIELD(scm_object, count, 79) FIELD(scm_object, version, 80) FIELD(scm_object, configuration, 143) FIELD(scm_object, list, 206) \
    SIZE(scm_placed, 16) FIELD(scm_placed, number, 0) FIELD(scm_placed, next, 8) \
    SIZE(scm_rewritten, 4) FIELD(scm_rewritten, number, 0) FIELD(scm_rewritten, code, 1) FIELD(scm_rewritten, object, 2) \
    SIZE(scm_label, 64) FIELD(scm_label, length, 0) FIELD(scm_label, bytes, 1) \
    SIZE(scm_profile, 2448) FIELD(scm_profile, master, 0) FIELD(scm_profile, mask, 8) FIELD(scm_profile, version, 16) \
        FIELD(scm_profile, configuration, 80) FIELD(scm_profile, trigger, 144) FIELD(scm_profile, states, 400) \
    SIZE(scm_capability, 10) FIELD(scm_capability, version, 0) FIELD(scm_capability, width, 1) FIELD(scm_capability, height, 2) \
        FIELD(scm_capability, characters, 4) FIELD(scm_capability, colour, 6) FIELD(scm_capability, size, 7) FIELD(scm_capability, font, 8) \
        FIELD(scm_capability, style, 9) \
    SIZE(scm_message_step, 12) FIELD(scm_message_step, function, 0) FIELD(scm_message_step, state, 1) FIELD(scm_message_step, status, 2) \
        FIELD(scm_message_step, error, 3) FIELD(scm_message_step, tan, 4) FIELD(scm_message_step, value, 8) \
    SIZE(scm_message, 100) FIELD(scm_message, kind, 0) FIELD(scm_message, code, 1) FIELD(scm_message, reason, 2) FIELD(scm_message, object, 4) \
        FIELD(scm_message, memory, 8) FIELD(scm_message, capability, 12) FIELD(scm_message, step, 24) FIELD(scm_message, label, 36) \
    SIZE(scm_message_reading, 104) FIELD(scm_message_reading, number, 0) FIELD(scm_message_reading, message, 4) \
    SIZE(scm_written, 16) FIELD(scm_written, number, 0) FIELD(scm_written, length, 8) \
    SIZE(scm_shown_value, 16) FIELD(scm_shown_value, number, 0) FIELD(scm_shown_value, exact, 1) FIELD(scm_shown_value, value, 8) \
    SIZE(scm_slot_state, 2464) FIELD(scm_slot_state, taken, 0) FIELD(scm_slot_state, wanted, 1) FIELD(scm_slot_state, report, 2) \
        FIELD(scm_slot_state, name, 8) FIELD(scm_slot_state, profile, 16) \
    SIZE(scm_client_record, 152) FIELD(scm_client_record, used, 0) FIELD(scm_client_record, name, 8) FIELD(scm_client_record, master, 16) \
        FIELD(scm_client_record, version, 24) FIELD(scm_client_record, configuration, 88) \
    SIZE(scm_sequence_step, 12) FIELD(scm_sequence_step, slot, 0) FIELD(scm_sequence_step, function, 1) FIELD(scm_sequence_step, state, 2) \
        FIELD(scm_sequence_step, distance, 3) FIELD(scm_sequence_step, value, 4) FIELD(scm_sequence_step, mark, 8) \
    SIZE(scm_taken_step, 16) FIELD(scm_taken_step, step, 0) FIELD(scm_taken_step, tan, 12) FIELD(scm_taken_step, status, 13) \
    SIZE(scm_sent_step, 8) FIELD(scm_sent_step, tan, 0) FIELD(scm_sent_step, answer, 1) FIELD(scm_sent_step, left, 4) \
    SIZE(scm_sequence, 2000) FIELD(scm_sequence, count, 0) FIELD(scm_sequence, edition, 8) FIELD(scm_sequence, steps, 12) \
        FIELD(scm_sequence, clients, 784) \
    SIZE(scm_recording, 2256) FIELD(scm_recording, ticks, 0) FIELD(scm_recording, distance, 4) FIELD(scm_recording, count, 8) \
        FIELD(scm_recording, steps, 16) FIELD(scm_recording, clients, 1040) \
    SIZE(scm_playback, 528) FIELD(scm_playback, ticks, 0) FIELD(scm_playback, distance, 4) FIELD(scm_playback, sent, 8) \
        FIELD(scm_playback, commands, 16) \
    SIZE(scm_master, 24504) FIELD(scm_master, state, 0) FIELD(scm_master, tan, 1) FIELD(scm_master, slots, 8) FIELD(scm_master, sequence, 19720) \
        FIELD(scm_master, recording, 21720) FIELD(scm_master, playback, 23976) \
    SIZE(scm_outcome, 24512) FIELD(scm_outcome, number, 0) FIELD(scm_outcome, code, 1) FIELD(scm_outcome, object, 2) FIELD(scm_outcome, count, 4) \
        FIELD(scm_outcome, master, 8) \
    SIZE(scm_slot_result, 16) FIELD(scm_slot_result, number, 0) FIELD(scm_slot_result, taken, 1) FIELD(scm_slot_result, wanted, 2) \
        FIELD(scm_slot_result, report, 3) FIELD(scm_slot_result, name, 8) \
    SIZE(scm_step_result, 16) FIELD(scm_step_result, number, 0) FIELD(scm_step_result, step, 4) \
    SIZE(scm_client_result, 160) FIELD(scm_client_result, number, 0) FIELD(scm_client_result, client, 8) \
    SIZE(scm_taken_result, 20) FIELD(scm_taken_result, number, 0) FIELD(scm_taken_result, taken, 4) \
    SIZE(scm_sent_result, 12) FIELD(scm_sent_result, number, 0) FIELD(scm_sent_result, sent, 4) \
    SIZE(scm_check_result, 24) FIELD(scm_check_result, number, 0) FIELD(scm_check_result, slot, 8) FIELD(scm_check_result, step, 16) \
    SIZE(scm_progress_view, 16) FIELD(scm_progress_view, ticks, 0) FIELD(scm_progress_view, distance, 4) FIELD(scm_progress_view, count, 8)

/* Internal: the table, asserted row by row. */
#define SCM_SIZE_HOLDS(type, bytes) SCM_HOLDS(sizeof(type) == bytes);
#define SCM_FIELD_HOLDS(type, field, at) SCM_HOLDS(offsetof(type, field) == at);
SCM_LAYOUT(SCM_SIZE_HOLDS, SCM_FIELD_HOLDS)

#ifdef __cplusplus
}
#endif

#endif

#endif
