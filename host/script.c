/* A file of events: one event a line, its word and its fields as events.c has them; from # on a line is a remark. Lines that begin with #= are what
   an earlier run gave: they are written anew, or held to what this run gives. */
#include <stdlib.h>
#include <string.h>

#include "host.h"

#define BLANKS " \t\r"
#define DIGITS "0123456789"

/* A function that reads a word says by its fault why it cannot; file and line are put before it by script_run. */

bool script_number(const char *text, uint32_t *number, struct fault *fault)
{
    size_t length = strspn(text, DIGITS);
    size_t zeros = strspn(text, "0");                       /* as many as there are */
    unsigned long long value = length - zeros <= 10 ? strtoull(text, NULL, 10) : UINT64_MAX;

    *number = (uint32_t)value;
    return ((length > 0 && text[length] == '\0') || fault_say(fault, FAULT_INPUT, "not a number"))
        && (value <= UINT32_MAX || fault_say(fault, FAULT_INPUT, "a number above 4294967295"));
}

static bool script_name(const char *text, uint64_t *name, struct fault *fault)
{
    *name = strtoull(text, NULL, 16);
    return (strlen(text) == 16 && strspn(text, DIGITS "ABCDEFabcdef") == 16) || fault_say(fault, FAULT_INPUT, "a NAME is 16 hex digits");
}

static bool script_report(const char *text, uint8_t *report, struct fault *fault)
{
    for (*report = 0; *report <= SCM_REPORT_ABORT; (*report)++) {
        if (strcmp(text, scm_report_text(*report)) == 0) {  /* what is said of a number that is no report is more than one word */
            return true;
        }
    }
    return fault_say(fault, FAULT_INPUT, "a report is disabled, ready, record, playback or abort");
}

/* How often a byte stands: once, or as often as the number after a star says, which a blank or the end follows. */
static bool script_times(const char **text, size_t *times, struct fault *fault)
{
    *times = 1;
    if (**text != '*') {
        return true;
    }
    *times = 0;
    for (++*text; **text != '\0' && strchr(DIGITS, **text) != NULL; ++*text) {
        *times = *times > SCRIPT_BYTES ? *times : 10 * *times + (size_t)(**text - '0');     /* more than there is room for is enough */
    }
    return (*times > 0 && strcspn(*text, BLANKS) == 0) || fault_say(fault, FAULT_INPUT, "after a star stands how often, 1 or more, and a blank");
}

/* Two hex digits for each byte, with or without blanks between them; XX*N and a blank stand for N of them. */
static bool script_bytes(const char *text, uint8_t *bytes, size_t *length, struct fault *fault)
{
    static const char digits[] = DIGITS "ABCDEF" DIGITS "abcdef";

    for (text += strspn(text, BLANKS); *text != '\0'; text += strspn(text, BLANKS)) {
        const char *high = strchr(digits, text[0]);
        const char *low = text[1] == '\0' ? NULL : strchr(digits, text[1]);
        size_t times;
        if (high == NULL || low == NULL) {
            return fault_say(fault, FAULT_INPUT, "a byte is two hex digits");
        }
        text += 2;
        if (!script_times(&text, &times, fault)) {
            return false;
        }
        if (times > SCRIPT_BYTES - *length) {
            return fault_say(fault, FAULT_INPUT, "more than %u bytes", SCRIPT_BYTES);
        }
        memset(bytes + *length, (int)((high - digits) % 16 * 16 + (low - digits) % 16), times);
        *length += times;
    }
    return true;
}

/* How many bytes are lent to a store: all that there is room for, unless a number stands there. */
static bool script_lent(const char *word, uint32_t *lent, struct fault *fault)
{
    *lent = SCM_STORE_BYTES;
    return word == NULL
        || (script_number(word, lent, fault) && (*lent <= SCM_STORE_BYTES || fault_say(fault, FAULT_INPUT, "more than %u bytes lent", SCM_STORE_BYTES)));
}

/* Cuts the next word off the rest of the line, which ends where one of these bytes stands; NULL where there is none. */
static char *script_word(char **rest, const char *ends)
{
    char *word = *rest + strspn(*rest, ends);
    size_t length = strcspn(word, ends);

    *rest = word + length;
    if (**rest != '\0') {
        *(*rest)++ = '\0';
    }
    return length > 0 ? word : NULL;
}

/* A word for each field, which two may do without; bytes take all that is left. */
static bool script_field(struct script *script, char field, char **rest, struct event *event, struct fault *fault)
{
    char *word = script_word(rest, field == 'b' || field == 'k' ? "" : BLANKS);

    if (word == NULL && field != 'k' && field != 'l') {
        return fault_say(fault, FAULT_INPUT, "a word is missing");
    }
    switch (field) {
    case 's': return script_number(word, &event->slot, fault);
    case 'n': return script_name(word, &event->name, fault);
    case 'r': return script_report(word, &event->report, fault);
    case 'm': return script_number(word, &event->mm, fault);
    case 'e': return script_number(word, &event->edition, fault);
    case 'l': return script_lent(word, &event->lent, fault);
    case 'k': return word == NULL || script_bytes(word, script->bytes, &event->length, fault);
    default:
        return script_bytes(word, script->bytes, &event->length, fault) && (event->length > 0 || fault_say(fault, FAULT_INPUT, "bytes are missing"));
    }
}

static bool script_event(struct script *script, char *rest, struct event *event, struct fault *fault)
{
    const char *word = script_word(&rest, BLANKS);
    bool ok = true;

    *event = (struct event){.bytes = script->bytes};
    while (event->kind < EVENT_KINDS && strcmp(word, event_forms[event->kind].word) != 0) {
        event->kind++;
    }
    if (event->kind == EVENT_KINDS) {
        return fault_say(fault, FAULT_INPUT, "no known event");
    }
    for (const char *field = event_forms[event->kind].fields; ok && *field != '\0'; field++) {
        ok = script_field(script, *field, &rest, event, fault);
    }
    return ok && (script_word(&rest, BLANKS) == NULL || fault_say(fault, FAULT_INPUT, "more words than the event has"));
}

/* Runs the event that stands in the words of a line; whatever number it gives is written down, or held to the file. */
static bool script_words(struct script *script, char *words, struct fault *fault)
{
    struct event event;
    struct event_outcome outcome;

    if (!script_event(script, words, &event, fault)) {
        return false;
    }
    event_run(&script->master, &event, &outcome);
    event_outcome_text(&event, &outcome, &script->given);
    script->met = 0;
    script->events++;
    if (script->out != NULL) {
        fputs(script->given.bytes, script->out);
    }
    return true;
}

/* The next line that the last event gave must be this one: a line with #=, or for any other line and the end of the file none, of length 0. */
static bool script_meets(struct script *script, const char *expected, size_t length, struct fault *fault)
{
    const char *given = script->given.bytes + script->met;
    bool more = script->met < script->given.length;
    size_t next = more ? strcspn(given, "\n") : 0;

    if (next != length || memcmp(given, expected, length) != 0) {
        return fault_say(fault, FAULT_RUN, "expected: %.*s, got: %.*s", length > 0 ? (int)length : 12, length > 0 ? expected : "nothing more",
                         more ? (int)next : 12, more ? given : "nothing more");
    }
    script->met += more ? next + 1 : 0;
    return true;
}

/* Of a line the words before a remark are an event. One with #= is passed over where what the events give is written, else it is held to that. */
static bool script_line(struct script *script, struct fault *fault)
{
    char *line = script->line;
    bool check = script->out == NULL;
    bool given = script->length >= 2 && memcmp(line, "#=", 2) == 0;
    char *remark = memchr(line, '#', script->length);
    size_t words = remark == NULL || (given && check) ? script->length : (size_t)(remark - line);

    if (memchr(line, '\0', words) != NULL) {
        return fault_say(fault, FAULT_INPUT, "a zero byte belongs to no word");
    }
    if (check && !script_meets(script, line, given ? script->length : 0, fault)) {
        return false;
    }
    if (given) {
        return true;
    }
    if (!check) {
        fwrite(line, 1, script->length, script->out);       /* a remark may hold any byte */
        putc('\n', script->out);
    }
    line[words] = '\0';
    return line[strspn(line, BLANKS)] == '\0' || script_words(script, line, fault);
}

/* The next line, without its end; false with no fault at the end of the file. */
static bool script_next(struct script *script, FILE *file, struct fault *fault)
{
    int byte = getc(file);

    if (byte == EOF) {
        return ferror(file) != 0 && fault_say(fault, FAULT_INPUT, "the file cannot be read");
    }
    script->number++;
    for (script->length = 0; byte != '\n' && byte != EOF && script->length < SCRIPT_LINE_BYTES; byte = getc(file)) {
        script->line[script->length++] = (char)byte;
    }
    script->line[script->length] = '\0';
    return byte == '\n' || byte == EOF || fault_say(fault, FAULT_INPUT, "the line is too long");
}

bool script_run(struct script *script, const char *path, FILE *out, struct fault *fault)
{
    FILE *file = fopen(path, "rb");
    struct fault inner = {FAULT_NONE, ""};

    *script = (struct script){.out = out};
    scm_init(&script->master);
    if (file == NULL) {
        return fault_say(fault, FAULT_INPUT, "%s: the file cannot be opened", path);
    }
    while (inner.kind == FAULT_NONE && script_next(script, file, &inner) && script_line(script, &inner)) {
    }
    fclose(file);
    if (inner.kind == FAULT_NONE && out == NULL) {
        script->number++;                                   /* what is missing at the end would stand on the next line */
        script_meets(script, "", 0, &inner);
    }
    return inner.kind == FAULT_NONE || fault_say(fault, inner.kind, "%s, line %lu: %s", path, script->number, inner.text);
}
