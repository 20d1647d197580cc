/* The program: which subcommand is meant, with which files, and how it ends. */
#define _POSIX_C_SOURCE 200809L
#include "commands.h"
#include "dates.h"
#include "files.h"
#include "help.h"
#include "towhepamu.h"
#include <signal.h>
#include <stdio.h>
#include <string.h>
#include <sys/resource.h>

typedef struct {
    const char *name, *help;
    size_t least, most; /* files */
    int (*run)(const arguments *);
} command;

static const command commands[] = {
    {"plan", HELP_PLAN, 1, 1, run_plan},    {"check", HELP_CHECK, 2, 3, run_check},
    {"slots", HELP_SLOTS, 2, 3, run_slots}, {"compare", HELP_COMPARE, 2, 2, run_compare},
    {"sums", HELP_SUMS, 1, 1, run_sums},    {"picture", HELP_PICTURE, 1, 1, run_picture},
    {"sleep", HELP_SLEEP, 1, 3, run_sleep}, {"dispatch", HELP_DISPATCH, 1, 2, run_dispatch},
    {"quote", HELP_QUOTE, 1, 1, run_quote}, {"hours", HELP_HOURS, 1, 1, run_hours},
};

static bool is_help(const char *word) {
    return strcmp(word, "--help") == 0 || strcmp(word, "-h") == 0;
}

static _Noreturn void give_up_on(const char *problem, const char *word, const char *name) {
    give_up("%s%s; towhepamu %s%s--help tells how it is used", problem, word, name,
            *name == 0 ? "" : " ");
}

/* Where the word that follows an option is kept, or NULL for an option that none follows. */
static const char **kept_at(const command *of, const char *word, arguments *given) {
    if (of->run == run_plan && strcmp(word, "--plan") == 0)
        return &given->plan;
    if (of->run == run_plan && strcmp(word, "--table") == 0)
        return &given->table;
    if (of->run == run_sleep && strcmp(word, "--energy") == 0)
        return &given->energy;
    if (of->run == run_sleep && strcmp(word, "--time") == 0)
        return &given->time;
    if (of->run == run_dispatch && strcmp(word, "--core") == 0)
        return &given->core;
    if (of->run == run_dispatch && strcmp(word, "--ended") == 0)
        return &given->ended;
    return NULL;
}

static bool is_number(const char *word) {
    return *word != 0 && word[strspn(word, "0123456789")] == 0;
}

/* Whether a number follows an option, and not a file's name. */
static bool takes_number(const command *of, const char *option) {
    return of->run == run_sleep || strcmp(option, "--core") == 0;
}

/* Whether a word may follow an option; a file that is written is not -. */
static bool may_follow(const command *of, const char *option, const char *word) {
    return word != NULL &&
           (takes_number(of, option) ? is_number(word)
                                     : of->run != run_plan || strcmp(word, "-") != 0);
}

/* Takes the word at `*at`, and the next one where it belongs to it. */
static void take_option(const command *of, char **words, arguments *given, size_t *at) {
    const char *word = words[*at];
    const char **kept = kept_at(of, word, given);
    if (of->run == run_picture && strcmp(word, "--text") == 0) {
        given->text = true;
        return;
    }
    if (kept == NULL)
        give_up_on("no such option: ", word, of->name);
    if (!may_follow(of, word, words[*at + 1]))
        give_up_on(takes_number(of, word) ? "a number must follow " : "a file's name must follow ",
                   word, of->name);
    if (*kept != NULL)
        give_up_on("given twice: ", word, of->name);
    *kept = words[++*at];
}

/* Takes one of the numbers of `quote`. */
static void take_number(const command *of, const char *word, arguments *given) {
    if (!is_number(word))
        give_up_on("not a number: ", word, of->name);
    if (given->numbers == MOST_NUMBERS)
        give_up_on("one number too many: ", word, of->name);
    given->number[given->numbers++] = word;
}

/* Takes the date or the time of `hours`. */
static void take_moment(const command *of, const char *word, arguments *given) {
    bool is_first = given->date == NULL;
    if (given->clock != NULL)
        give_up_on("one word too many: ", word, of->name);
    if (!(is_first ? is_written_as_date(word) : is_written_as_time(word)))
        give_up_on(is_first ? "not a date as 2024-02-28: " : "not a time as 08:00: ", word,
                   of->name);
    *(is_first ? &given->date : &given->clock) = word;
}

/* Takes a word that is no option: a file, or what the subcommand has after its files. */
static void take_word(const command *of, const char *word, arguments *given) {
    if (given->files < of->most)
        given->file[given->files++] = word;
    else if (of->run == run_quote)
        take_number(of, word, given);
    else if (of->run == run_hours)
        take_moment(of, word, given);
    else
        give_up_on("one file too many: ", word, of->name);
}

/* What is missing beside files, by its name in the help; NULL where all is there. */
static const char *missing_of(const command *of, const arguments *given) {
    static const char *const of_a_task[NUMBERS_OF_A_TASK] = {"TASK", "LOW", "HIGH"};
    size_t last = given->numbers % NUMBERS_OF_A_TASK;
    if (of->run == run_sleep && given->energy == NULL)
        return "--energy";
    if (of->run == run_sleep && given->time == NULL)
        return "--time";
    if (of->run == run_dispatch && given->core == NULL)
        return "--core";
    if (of->run == run_quote && (given->numbers == 0 || last != 0))
        return of_a_task[last];
    return NULL;
}

/* The arguments after the subcommand; false where its help is asked for. */
static bool take_arguments(const command *of, char **words, arguments *given) {
    bool options = true;
    for (size_t i = 0; words[i] != NULL; i++) {
        if (options && is_help(words[i]))
            return false;
        if (options && strcmp(words[i], "--") == 0)
            options = false;
        else if (options && words[i][0] == '-' && words[i][1] != 0)
            take_option(of, words, given, &i);
        else
            take_word(of, words[i], given);
    }
    if (given->files < of->least)
        give_up_on("a file is missing", "", of->name);
    const char *missing = missing_of(of, given);
    if (missing != NULL)
        give_up_on("missing: ", missing, of->name);
    return true;
}

static void test_stack(void) {
    struct rlimit stack;
    rlim_t needed = TOWHEPAMU_STACK_BYTES + 64 * 1024;
    if (getrlimit(RLIMIT_STACK, &stack) == 0 && stack.rlim_cur != RLIM_INFINITY &&
        stack.rlim_cur < needed)
        give_up("the stack is limited to %s; planning needs %s (ulimit -s)",
                amount_of(stack.rlim_cur, "byte").text, amount_of(needed, "byte").text);
}

static int run(const command *of, char **words) {
    arguments given = {0};
    if (!take_arguments(of, words, &given)) {
        fputs(of->help, stdout);
        return WELL;
    }
    for (size_t i = 0; i < given.files; i++)
        keep_apart(given.file[i], given.plan, given.table);
    test_stack();
    return of->run(&given);
}

int main(int argc, char **argv) {
    signal(SIGPIPE,
           SIG_IGN); /* a reader that is gone and a file that may not grow are failed writes, */
    signal(SIGXFSZ, SIG_IGN); /* and told as such */
    open_streams();
    if (argc < 2) {
        fputs(HELP, stderr);
        return UNUSABLE;
    }
    for (size_t i = 0; i < sizeof commands / sizeof commands[0]; i++)
        if (strcmp(argv[1], commands[i].name) == 0)
            return finish(run(&commands[i], argv + 2));
    if (is_help(argv[1]))
        fputs(HELP, stdout);
    else if (strcmp(argv[1], "--version") == 0)
        puts("towhepamu " TOWHEPAMU_VERSION);
    else
        give_up_on("no such subcommand: ", argv[1], "");
    return finish(WELL);
}
