/* The command `exec`: another command as an operation, and what begins and ends behind it. */
#include <errno.h>
#include <signal.h>
#include <stdio.h>
#include <stdlib.h>
#include <string.h>
#include <unistd.h>

#include "command.h"

/* An operation, as `exec` has it. */
struct execution {
    struct shared *shared;
    const struct given *given;
    wanzoche_store_record record;
    const double *timeout; /* null for none */
    sigset_t before;       /* the mask with which this program began */
};

static bool is_twice(const char *name, const struct given *given) {
    const char *const names[] = {given->operation, given->passed, given->failed};
    int count = 0;
    for (int k = 0; k < 3; k++) count += names[k] != NULL && strcmp(names[k], name) == 0;
    return count > 1;
}

static bool check_name(struct declared *declared, const struct given *given, const char *name) {
    uint32_t operation;
    if (name == NULL) return true;
    if (!find_operation(declared, name, &operation)) return false;
    return !is_twice(name, given) ||
           fails("%s is named twice: the operation, that of --passed and that of --failed are different ones", name);
}

/* Whether the words of `exec` are right, of this declaration. */
bool check_words(struct declared *declared, const struct given *given) {
    uint32_t operation;
    if (given->run[0] == NULL) return fails("there is no command behind --");
    if (!find_operation(declared, given->operation, &operation)) return false;
    if (given->every > 0 && (given->passed != NULL || given->failed != NULL))
        return fails("--every goes without --passed and --failed: the operation also ends where nothing is run");
    if (given->every > 0 && !check_every(declared, operation)) return false;
    return check_name(declared, given, given->operation) && check_name(declared, given, given->passed) && check_name(declared, given, given->failed);
}

/* The command isn't run: the status for that. */
static int conflict(const struct given *given, const char *told) {
    if (given->conflict_status != 0 && !given->quiet) say("%s", told);
    return given->conflict_status;
}

/* Waits for what is to be passed, unless a signal comes: whether it was passed, or else was told why it wasn't. */
static bool pass_later(struct execution *execution, uint32_t operation, const char *name) {
    wanzoche_store_record record = {.number = 0};
    sigset_t stops;
    int signal;
    enum entered ended;
    sigemptyset(&stops);
    add_handed_on(&stops);
    ended = enter(execution->shared, operation, execution->timeout, execution->given->quiet, &stops, &record, &signal);
    if (ended == IS_IN_PROGRESS) return leave(execution->shared, &record);
    if (ended == IS_STOPPED) say("%s wasn't passed: %s came; `wanzoche pass` makes up for it", name, name_of_signal(signal));
    else if (ended == IS_NOT_IN_TIME) say("%s wasn't passed: %s; `wanzoche pass` makes up for it", name, fault());
    return ended != IS_REFUSED;
}

/* Keeps the fault with what it means for the pass. */
static bool fails_to_pass(const char *name) {
    return fails("%s wasn't passed: %s; `wanzoche pass` makes up for it", name, fault());
}

/*
** Ends the operation and passes another: in one turn, if that is admitted then. Where
** that one doesn't get its turn, this is said. False if it can't be made.
*/
static bool end_with(struct execution *execution, const char *name) {
    struct shared *shared = execution->shared;
    uint32_t operation;
    wanzoche_answer answer;
    if (!find_operation(&shared->declared, name, &operation)) return false;
    answer = wanzoche_store_pass(shared->store, operation, &execution->record, -1);
    if (answer.code == WANZOCHE_STARTED) return true;
    if (answer.code == WANZOCHE_LOST)
        return fails("activation %llu was finished by others, which took this process for dead", (unsigned long long)execution->record.number);
    if (answer.code == WANZOCHE_BLOCKED || answer.code == WANZOCHE_WITHHELD || answer.code == WANZOCHE_LATE || answer.code == WANZOCHE_NO_ROOM)
        return pass_later(execution, operation, name) || fails_to_pass(name);
    is_refused(shared, answer);
    return fails_to_pass(name);
}

/* The variable in which the command gets the token. */
static bool set_token(const struct execution *execution) {
    const char *name = execution->given->token_env;
    char token[24];
    if (name == NULL || name[0] == 0) return true;
    snprintf(token, sizeof token, "%llu", (unsigned long long)execution->record.number);
    return setenv(name, token, 1) == 0 || fails("illegal environment variable name");
}

/* Within the operation: the status, also that of a conflict by --every. False if it can't be told whether it is due. */
static bool run_if_due(struct execution *execution, int *status, bool *was_run) {
    const struct given *given = execution->given;
    bool is_due = true;
    double ago = 0;
    char told[80];
    if (given->every > 0 && !find_due(execution->shared, execution->record.number, given->every, &is_due, &ago)) return false;
    snprintf(told, sizeof told, "%.32s began %g seconds ago", given->operation, ago);
    if (is_due && !set_token(execution)) return false;
    *was_run = is_due;
    *status = is_due ? run_command(execution->shared, given->run, &execution->before) : conflict(given, told);
    return true;
}

/* Runs the command within the operation, which has begun, and ends that: the status. */
static int run_within(struct execution *execution) {
    const struct given *given = execution->given;
    bool was_run = false, is_whole;
    int status = IS_OWN_FAULT;
    const char *outcome;
    is_whole = run_if_due(execution, &status, &was_run);
    if (!is_whole) say("%s", fault());
    outcome = is_whole && was_run && status == 0 ? given->passed : given->failed;
    if (outcome == NULL ? leave(execution->shared, &execution->record) : end_with(execution, outcome)) return status;
    say("%s", fault());
    return IS_OWN_FAULT;
}

/* Begins the operation, and runs the command: the status. */
int execute(struct shared *shared, const struct given *given) {
    static const double none = 0;
    struct execution execution = {.shared = shared, .given = given, .timeout = given->nonblock ? &none : given->has_timeout ? &given->timeout : NULL};
    sigset_t stops;
    uint32_t operation;
    int signal;
    enum entered ended;
    block_interrupt(&stops, &execution.before);
    if (!find_operation(&shared->declared, given->operation, &operation) || !is_limit(given->timeout)) ended = IS_REFUSED;
    else ended = enter(shared, operation, execution.timeout, given->quiet, &stops, &execution.record, &signal);
    if (ended == IS_IN_PROGRESS && has_interrupt()) {
        if (!leave(shared, &execution.record)) say("%s", fault());
        ended = IS_STOPPED;
    }
    if (ended == IS_IN_PROGRESS) return run_within(&execution);
    if (ended == IS_STOPPED) return OF_SIGNAL + SIGINT;
    if (ended == IS_NOT_IN_TIME) return conflict(given, fault());
    say("%s", fault());
    return IS_OWN_FAULT;
}
