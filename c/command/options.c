/*
** The words of the command line, as Python's argparse reads those of the package's
** command: an option may be cut to what no other begins with, its value may stand
** behind `=`, and options and other words may come in any order, but for `exec`,
** of whose command all words are. help.h is made from that command's parser.
*/
#include <ctype.h>
#include <errno.h>
#include <stddef.h>
#include <stdio.h>
#include <stdlib.h>
#include <string.h>
#include <unistd.h>

#include "command.h"
#include "help.h"

enum kind { SETS, TEXT, NUMBER_OF_SECONDS, WHOLE, DURATION, LOST, MAY_HAVE_SECONDS, PORT };

/* An option: of which commands it is one, and where its value is kept. */
struct option {
    const char *name;
    enum kind kind;
    unsigned commands;
    size_t place;
};

#define OF(command) (1U << (command))
#define ALL (OF(COMMANDS) - 1)
#define AT(field) offsetof(struct given, field)

static const struct option options[] = {
    {"--store", TEXT, ALL, AT(store)},
    {"--name", TEXT, ALL, AT(name)},
    {"--declaration", TEXT, ALL, AT(declaration)},
    {"--timeout", NUMBER_OF_SECONDS, OF(DO_EXEC) | OF(DO_PASS), AT(timeout)},
    {"--nonblock", SETS, OF(DO_EXEC), AT(nonblock)},
    {"--conflict-status", WHOLE, OF(DO_EXEC), AT(conflict_status)},
    {"--token-env", TEXT, OF(DO_EXEC), AT(token_env)},
    {"--every", DURATION, OF(DO_EXEC), AT(every)},
    {"--passed", TEXT, OF(DO_EXEC), AT(passed)},
    {"--failed", TEXT, OF(DO_EXEC), AT(failed)},
    {"--quiet", SETS, OF(DO_EXEC), AT(quiet)},
    {"--lost", LOST, OF(DO_EXEC), AT(lost)},
    {"--no-sync", SETS, OF(DO_EXEC), AT(no_sync)},
    {"--json", SETS, OF(DO_STATUS), AT(json)},
    {"--watch", MAY_HAVE_SECONDS, OF(DO_STATUS), AT(watch)},
    {"--port", PORT, OF(DO_VIEW), AT(port)},
    {"--open", SETS, OF(DO_VIEW), AT(opens)},
    {"--even-alive", SETS, OF(DO_RECOVER), AT(even_alive)},
};
#define COUNT (sizeof options / sizeof *options)

/* The other word that each command takes, which has to be there. */
static const char *const operands[COMMANDS] = {[DO_EXEC] = "OPERATION, -- COMMAND ..", [DO_RECOVER] = "WORKER", [DO_PASS] = "OPERATION"};

/* What is read, and which of it isn't anything. */
struct reading {
    struct given *given;
    struct text unknown;
    const char *operand;
    bool is_over; /* behind `--` all words are others than options */
};

static void end_with(enum command command, const char *said) __attribute__((noreturn));

/* Says the usage of a command and what is wrong. Of `exec` it ends with a status of its own, so that it can't be taken for the command's. */
static void end_with(enum command command, const char *said) {
    const char *help = help_of[command], *end = strstr(help, "\n\n");
    struct text told = {NULL, 0, 0};
    add(&told, "%.*s\nwanzoche%s%s: error: %s\n", (int)(end - help), help, command == NO_COMMAND ? "" : " ", names_of_commands[command], said);
    if (write(2, told.at, told.length) < 0) errno = 0; /* nobody is told */
    _Exit(status_without_memory == IS_OWN_FAULT ? IS_OWN_FAULT : IS_USAGE);
}

static void end_with_help(enum command command) __attribute__((noreturn));

static void end_with_help(enum command command) {
    if (is_open_stream(1) && !write_out(help_of[command], strlen(help_of[command]))) say("%s", fault());
    exit(0);
}

/* Whether an option is one of this command, and begins with these letters. */
static bool begins(const struct option *option, enum command command, const char *word, size_t length) {
    return (option->commands & OF(command)) != 0 && strncmp(option->name, word, length) == 0;
}

static void end_as_ambiguous(enum command command, const char *word, size_t length) __attribute__((noreturn));

static void end_as_ambiguous(enum command command, const char *word, size_t length) {
    struct text said = {NULL, 0, 0};
    const char *between = "";
    add(&said, "ambiguous option: %s could match ", word);
    if (strncmp("--help", word, length) == 0) {
        add(&said, "--help");
        between = ", ";
    }
    for (size_t k = 0; k < COUNT; k++) {
        if (!begins(&options[k], command, word, length)) continue;
        add(&said, "%s%s", between, options[k].name);
        between = ", ";
    }
    end_with(command, said.at);
}

/* The option that a word names, whole or cut. Null if none does. */
static const struct option *find_option(enum command command, const char *word, size_t length) {
    const struct option *found = NULL;
    size_t count = length > 2 && strncmp("--help", word, length) == 0;
    for (size_t k = 0; k < COUNT; k++) {
        if (!begins(&options[k], command, word, length)) continue;
        if (options[k].name[length] == 0) return &options[k];
        found = &options[k];
        count++;
    }
    if (count > 1) end_as_ambiguous(command, word, length);
    if (count == 1 && found == NULL) end_with_help(command);
    return found;
}

/* Whether a word looks like an option, and can't be a value: a number below 0 may be one. */
static bool is_like_option(const char *word) {
    const char *at = word + 1;
    if (word[0] != '-' || word[1] == 0 || strchr(word, ' ') != NULL) return false;
    at += strspn(at, "0123456789");
    if (*at == '.') at += 1 + strspn(at + 1, "0123456789");
    return *at != 0 || !isdigit((unsigned char)at[-1]);
}

static void end_with_value(enum command command, const struct option *option, const char *wrong, const char *value) __attribute__((noreturn));

/* Says what is wrong with the value of an option, and behind that which it is: where the library that says so in Python quotes it, too. */
static void end_with_value(enum command command, const struct option *option, const char *wrong, const char *value) {
    struct text said = {NULL, 0, 0};
    bool is_quoted = strncmp(wrong, "invalid ", 8) == 0 || strncmp(wrong, "ignored ", 8) == 0;
    add(&said, "argument %s: %s", option->name, wrong);
    if (is_quoted) add_quoted(&said, value);
    else add(&said, "%s", value);
    if (option->kind == LOST) add(&said, " (choose from 'finish', 'keep')");
    end_with(command, said.at);
}

/* Keeps the value of an option. */
static void take_value(struct reading *reading, const struct option *option, const char *value) {
    struct given *given = reading->given;
    void *place = (char *)given + option->place;
    const char *wrong = NULL;
    double seconds;
    if (option->kind == TEXT) *(const char **)place = value;
    else if (option->kind == NUMBER_OF_SECONDS) {
        given->has_timeout = true;
        if (!read_seconds(value, place)) wrong = "invalid float value: ";
    } else if (option->kind == WHOLE) {
        if (!read_whole(value, place)) wrong = "invalid int value: ";
    } else if (option->kind == DURATION) {
        if (!read_duration(value, place)) wrong = "a duration is wanted, as 90s, 15m, 23h or 7d, and not ";
    } else if (option->kind == LOST) {
        *(const char **)place = value;
        if (strcmp(value, "finish") != 0 && strcmp(value, "keep") != 0) wrong = "invalid choice: ";
    } else if (option->kind == PORT) {
        if (!read_whole(value, place) || given->port < 1 || given->port > 65535) wrong = "the number of a port is wanted, from 1 to 65535, and not ";
    } else if (!read_seconds(value, &seconds)) wrong = "invalid _more_than_none value: ";
    else if (!(seconds > 0 && seconds <= 1e300)) wrong = "more than no seconds are wanted, not ";
    else given->watch = seconds;
    if (wrong != NULL) end_with_value(given->command, option, wrong, value);
}

/* Reads an option, whose value may be the next word: how many words these are. */
static size_t read_option(struct reading *reading, char **words) {
    enum command command = reading->given->command;
    size_t length = strcspn(words[0], "=");
    const char *value = words[0][length] == '=' ? words[0] + length + 1 : NULL;
    const struct option *option = find_option(command, words[0], length);
    bool is_beside = option != NULL && option->kind != SETS && value == NULL && words[1] != NULL && !is_like_option(words[1]);
    if (option == NULL) add(&reading->unknown, " %s", words[0]);
    else if (option->kind == SETS) {
        if (value != NULL) end_with_value(command, option, "ignored explicit argument ", value);
        *(bool *)((char *)reading->given + option->place) = true;
    } else if (value == NULL && !is_beside && option->kind != MAY_HAVE_SECONDS) end_with_value(command, option, "expected one argument", "");
    else {
        if (option->kind == MAY_HAVE_SECONDS) reading->given->watches = true;
        if (value != NULL || is_beside) take_value(reading, option, value != NULL ? value : words[1]);
    }
    return is_beside ? 2 : 1;
}

/* Reads the words of a command: true if what follows is the command of `exec`. */
static bool read_next(struct reading *reading, char ***words) {
    enum command command = reading->given->command;
    char *word = **words;
    if (!reading->is_over && strcmp(word, "--") == 0) {
        reading->is_over = true;
        ++*words;
    } else if (!reading->is_over && strcmp(word, "-h") == 0) end_with_help(command);
    else if (!reading->is_over && is_like_option(word)) *words += read_option(reading, *words);
    else {
        if (operands[command] != NULL && reading->operand == NULL) reading->operand = word;
        else add(&reading->unknown, " %s", word);
        ++*words;
        return command == DO_EXEC;
    }
    return false;
}

/* Ends if something is missing, or isn't anything. */
static void check_whole(const struct reading *reading) {
    const struct given *given = reading->given;
    struct text said = {NULL, 0, 0};
    bool has_store = given->store != NULL || given->command == DO_OPERATIONS;
    bool has_operand = operands[given->command] == NULL || reading->operand != NULL;
    if (!has_store || !has_operand) {
        add(&said, "the following arguments are required: %s%s%s", has_store ? "" : "--store", has_store || has_operand ? "" : ", ",
            has_operand ? "" : operands[given->command]);
        end_with(given->command, said.at);
    }
    if (reading->unknown.length > 0) {
        add(&said, "unrecognized arguments:%s", reading->unknown.at);
        end_with(NO_COMMAND, said.at);
    }
}

static void end_with_version(void) __attribute__((noreturn));

static void end_with_version(void) {
    static const char version[] = "wanzoche " WANZOCHE_VERSION "\n";
    if (is_open_stream(1) && !write_out(version, sizeof version - 1)) say("%s", fault());
    exit(0);
}

/* The command of this name; NO_COMMAND if there is none. */
static enum command find_command(const char *name) {
    enum command command = COMMANDS - 1;
    while (command > NO_COMMAND && strcmp(names_of_commands[command], name) != 0) command--;
    return command;
}

static void end_as_no_command(const char *name) __attribute__((noreturn));

static void end_as_no_command(const char *name) {
    struct text said = {NULL, 0, 0};
    add(&said, "argument COMMAND: invalid choice: ");
    add_quoted(&said, name);
    for (enum command command = DO_EXEC; command < COMMANDS; command++)
        add(&said, "%s'%s'", command == DO_EXEC ? " (choose from " : ", ", names_of_commands[command]);
    add(&said, ")");
    end_with(NO_COMMAND, said.at);
}

/* Reads the options before the command, and the name of that: where it stands. */
static char **read_command(struct reading *reading, char **words) {
    for (; *words != NULL && is_like_option(*words) && strcmp(*words, "--") != 0; words++) {
        size_t length = strlen(*words);
        if (strcmp(*words, "-h") == 0 || (length > 2 && strncmp("--help", *words, length) == 0)) end_with_help(NO_COMMAND);
        if (length > 2 && strncmp("--version", *words, length) == 0) end_with_version();
        add(&reading->unknown, " %s", *words);
    }
    if (*words != NULL && strcmp(*words, "--") == 0) words++;
    if (*words == NULL) end_with(NO_COMMAND, "the following arguments are required: COMMAND");
    reading->given->command = find_command(*words);
    if (reading->given->command == NO_COMMAND) end_as_no_command(*words);
    return words;
}

/* Reads the words behind the program's name. Ends the program with a message if they are wrong, and with what they ask for, as `--help`. */
void read_words(struct given *given, char **words) {
    struct reading reading = {given, {NULL, 0, 0}, NULL, false};
    *given = (struct given){.watch = 1, .conflict_status = 1};
    if (words[0] != NULL && strcmp(words[0], "exec") == 0) status_without_memory = IS_OWN_FAULT;
    words = read_command(&reading, words) + 1;
    while (*words != NULL && !read_next(&reading, &words)) continue;
    if (*words != NULL && strcmp(*words, "--") == 0) words++;
    given->operation = reading.operand;
    given->run = words;
    check_whole(&reading);
    clear_text(&reading.unknown);
}
