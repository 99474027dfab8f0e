/* The command line. What goes wrong anywhere comes back to main, which alone says it and decides the exit status. */
#include <stdarg.h>
#include <string.h>

#include "host.h"

static const char usage[] =
    "usage: terminal [--sheets] [--bind] [--save FILE] [DEPTH [LATEST.svg [SLOWEST.svg]]]\n"
    "                                play the drill: the inspector's answers and a line for each plot, with --sheets every step of every plot, and\n"
    "                                pictures of two plots; the depth is 0 to 1000 tenths of a millimetre, or else 240; with --bind the recorded\n"
    "                                sequence is bound to the drill, with --save it is kept in a file\n"
    "       terminal [--sheets] [--bind [--save FILE]] --load FILE [LATEST.svg [SLOWEST.svg]]\n"
    "                                the same with a sequence that was kept, and none recorded\n"
    "       terminal --log [--bind] [--save FILE] DEPTH, terminal --log [--bind [--save FILE]] --load FILE\n"
    "                                the same, but print the events\n"
    "       terminal --mishaps       what goes wrong on a field, and how the terminal goes on, as events\n"
    "       terminal --live SECONDS  replay by the clock, for 1 to 3600 seconds\n"
    "       terminal --events FILE   run a file of events and print what each line gives\n"
    "       terminal --check FILE    run it and hold what each line gives to the file's lines with #=\n";

bool fault_say(struct fault *fault, enum fault_kind kind, const char *format, ...)
{
    va_list values;

    fault->kind = kind;
    va_start(values, format);
    vsnprintf(fault->text, sizeof fault->text, format, values);
    va_end(values);
    return false;
}

bool fault_unless_done(struct fault *fault, const char *what, uint8_t number)
{
    return number == SCM_OK || fault_say(fault, FAULT_RUN, "%s: number %u, %s", what, (unsigned)number, scm_number_text(number));
}

static bool main_end(FILE *file, const char *path, struct fault *fault)
{
    bool broken = ferror(file) != 0;

    return (fclose(file) == 0 && !broken) || fault_say(fault, FAULT_RUN, "%s cannot be written", path);
}

static bool main_picture(const char *path, const struct sheet *sheet, enum picture_kind kind, struct fault *fault)
{
    FILE *file = fopen(path, "w");

    if (file == NULL) {
        return fault_say(fault, FAULT_RUN, "%s cannot be written", path);
    }
    picture_write(file, sheet, kind);
    return main_end(file, path, fault);
}

/* How the drill is played: what stands before the depth and the pictures. */
struct options {
    bool sheets, log, bind;
    const char *save, *load;        /* the file to keep the sequence in, or to take it up from; or NULL */
};

/* Takes the options off the front of the words. Which of them go together is looked at here as well. */
static bool main_options(int *count, char ***words, struct options *options, struct fault *fault)
{
    for (; *count > 0; --*count, ++*words) {
        const char *word = **words;
        const char **file = strcmp(word, "--save") == 0 ? &options->save : strcmp(word, "--load") == 0 ? &options->load : NULL;

        if (file != NULL && *count > 1) {
            --*count;
            *file = *++*words;
        } else if (strcmp(word, "--sheets") == 0) {
            options->sheets = true;
        } else if (strcmp(word, "--log") == 0) {
            options->log = true;
        } else if (strcmp(word, "--bind") == 0) {
            options->bind = true;
        } else {
            break;
        }
    }
    return !((options->save != NULL && options->load != NULL && !options->bind)
             || (options->log && (options->sheets || *count != (options->load == NULL))))
        || fault_say(fault, FAULT_USAGE, "options that do not go together, or words that they lack");
}

/* What is said of a file goes to standard error: what is printed is the sheet alone. Always gives true. */
static bool main_says(const scm_master *master, const char *path, const char *what)
{
    scm_client_view client;
    unsigned clients = 0;

    for (size_t slot = 0; slot < SCM_SLOTS; slot++) {
        clients += scm_client(master, slot, &client) == SCM_OK && client.used == 1;
    }
    fprintf(stderr, "terminal: %s: %zu steps of %u clients, edition %" PRIu32 ", %s\n", path, scm_step_count(master), clients,
            scm_sequence_edition(master), what);
    return true;
}

/* The sequence, from a recording or from a file. It is bound before it is verified and kept. */
static bool main_sequence(struct terminal *terminal, const struct options *options, uint32_t depth, struct fault *fault)
{
    const char *load = options->load, *save = options->save;

    return (load != NULL ? terminal_march(terminal, load, fault) : terminal_september(terminal, depth, fault))
        && (!options->bind || terminal_bind(terminal, fault))
        && (load == NULL || (terminal_verified(terminal, load, fault) && main_says(&terminal->master, load, "verified: a start would be taken")))
        && (save == NULL || (terminal_save(terminal, save, fault) && main_says(&terminal->master, save, "kept")));
}

/* The words are a depth, but for a sequence from a file, and the paths of pictures, as many as are given. */
static bool main_play(struct terminal *terminal, int count, char **words, struct fault *fault)
{
    struct options options = {.save = NULL, .load = NULL};
    struct sheet sheet;
    struct fault inner;
    uint32_t depth = 240;
    int pictures;

    if (!main_options(&count, &words, &options, fault) || !terminal_make(terminal, options.log ? stdout : NULL, fault)) {
        return false;
    }
    pictures = options.load == NULL && count > 0 ? 1 : 0;   /* where their paths begin */
    if (count > pictures + 2 || (pictures == 1 && !script_number(words[0], &depth, &inner))
        || depth > pool_function(&terminal->clients[POOL_DRILL], POOL_COULTERS).maximum) {
        return fault_say(fault, FAULT_USAGE, "no depth, or too many words");
    }
    if (!main_sequence(terminal, &options, depth, fault) || !terminal_play(terminal, &sheet, fault)) {
        return false;
    }
    if (!options.log) {
        sheet_print(stdout, &sheet, options.sheets);
    }
    return (count < pictures + 1 || main_picture(words[pictures], &sheet, PICTURE_LATEST, fault))
        && (count < pictures + 2 || main_picture(words[pictures + 1], &sheet, PICTURE_SLOWEST, fault));
}

static bool main_live(struct terminal *terminal, const char *word, struct fault *fault)
{
    struct fault inner;
    uint32_t seconds;

    if (!script_number(word, &seconds, &inner) || seconds < 1 || seconds > 3600) {
        return fault_say(fault, FAULT_USAGE, "no seconds from 1 to 3600");
    }
    if (!terminal_make(terminal, NULL, fault) || !terminal_live(terminal, seconds, fault)) {
        return false;
    }
    printf("%" PRIu32 " ticks in %" PRIu64 " ms by the clock, at most %" PRIu32 " at once; the master's state: %s\n", terminal->ticker.called,
           terminal->ticker.now - terminal->ticker.begun, terminal->at_once, scm_state_text(scm_state(&terminal->master)));
    return true;
}

static bool main_script(const char *path, bool check, struct fault *fault)
{
    struct script script;

    if (!script_run(&script, path, check ? NULL : stdout, fault)) {
        return false;
    }
    if (check) {
        printf("%s: %lu events gave what the file says\n", path, script.events);
    }
    return true;
}

static bool main_run(int count, char **words, struct fault *fault)
{
    const char *first = count > 0 ? words[0] : "";
    struct terminal terminal;

    if (count == 1 && strcmp(first, "--mishaps") == 0) {
        return terminal_make(&terminal, stdout, fault) && terminal_mishaps(&terminal, fault);
    } else if (count == 2 && strcmp(first, "--live") == 0) {
        return main_live(&terminal, words[1], fault);
    } else if (count == 2 && (strcmp(first, "--events") == 0 || strcmp(first, "--check") == 0)) {
        return main_script(words[1], strcmp(first, "--check") == 0, fault);
    }
    return main_play(&terminal, count, words, fault);
}

int main(int argc, char **argv)
{
    struct fault fault = {FAULT_NONE, ""};
    bool done = main_run(argc > 0 ? argc - 1 : 0, argv + 1, &fault);

    fflush(stdout);                 /* what was printed comes before what went wrong */
    if (done && main_end(stdout, "standard output", &fault)) {
        return 0;
    }
    fprintf(stderr, "terminal: %s\n%s", fault.text, fault.kind == FAULT_USAGE ? usage : "");
    return fault.kind == FAULT_RUN ? 1 : 2;
}
