/* The command `wanzoche`: operations from the shell, over a store. */
#include <errno.h>
#include <signal.h>
#include <stdio.h>
#include <stdlib.h>
#include <string.h>
#include <unistd.h>

#include "command.h"

/* Writes the names of the operations. The store isn't opened, so nothing of it changes. */
static int write_operations(const struct declared *declared) {
    struct text names = {NULL, 0, 0};
    bool is_told;
    for (uint32_t k = 0; k < declared->count; k++) add(&names, "%s\n", declared->names[k]);
    is_told = write_text(&names);
    clear_text(&names);
    if (!is_told) say("%s", fault());
    return is_told ? 0 : IS_FAULT;
}

/* What a command does with an open store: the status. */
static int do_command(struct shared *shared, const struct given *given) {
    switch (given->command) {
    case DO_EXEC: return execute(shared, given);
    case DO_PASS: return pass_by_hand(shared, given);
    case DO_RECOVER: return recover(shared, given);
    case DO_AUDIT: return audit(shared);
    case DO_LOG: return write_log(shared);
    case DO_WATCH: return watch_log(shared);
    default: return given->watches ? watch_status(shared, given) : write_status(shared, given);
    }
}

/* Says the fault: the status of that. */
static int end_with_fault(const struct given *given) {
    if (given->command == DO_AUDIT) return end_audit();
    say("%s", fault());
    return given->command == DO_EXEC ? IS_OWN_FAULT : IS_FAULT;
}

/* Whether a command only looks. */
static bool looks(const struct given *given) {
    return given->command == DO_STATUS || given->command == DO_LOG || given->command == DO_AUDIT || given->command == DO_WATCH;
}

/* Whether it reads the files itself: to read on where it was, or to say in which of them a line is wrong. */
static bool reads(const struct given *given) {
    return given->command == DO_WATCH || given->command == DO_AUDIT;
}

/* Finds the declaration where the files may only be read. */
static bool find_readable(const struct given *given, struct text *text) {
    clear_text(text);
    if (given->declaration != NULL) return read_file(given->declaration, text);
    if (find_declaration(given, text)) return true;
    if (is_forbidden() && access(given->path, R_OK) != 0) return fails("%s can't be opened: %s", given->path, strerror(errno));
    return fails("%s: who may read the journal alone names its declaration by --declaration", fault());
}

/* Whether the declaration that is given is the store's, as far as this user may know that. */
static bool is_of_store(const struct given *given, const struct declared *declared) {
    struct given without = *given;
    struct declared own = {.text = NULL};
    struct text text = {NULL, 0, 0}, where = {NULL, 0, 0};
    bool is_same;
    without.declaration = NULL;
    is_same = !find_declaration(&without, &text) || !open_declared(&own, text.at, text.length) || strcmp(own.text, declared->text) == 0;
    if (!is_same) {
        add_difference(&where, own.text, declared->text);
        fails("%s is of another declaration: %s", given->path, where.at);
    }
    clear_text(&text);
    clear_text(&where);
    if (own.text != NULL) close_declared(&own);
    return is_same;
}

/* The same as a command over an open store that only looks, where its files may only be read. */
static int run_reading(const struct given *given) {
    static struct shared shared;
    struct text text = {NULL, 0, 0};
    int status;
    bool is_found = find_readable(given, &text) && open_declared(&shared.declared, text.at, text.length) && is_of_store(given, &shared.declared);
    clear_text(&text);
    if (!is_found) return end_with_fault(given);
    shared.path = given->path;
    shared.reader = new_reader(shared.path, &shared.declared);
    status = do_command(&shared, given);
    close_reader(shared.reader);
    close_declared(&shared.declared);
    return status;
}

/* Opens the store, and does the command. */
static int run(const struct given *given) {
    static struct shared shared;
    struct text text = {NULL, 0, 0};
    int status;
    bool is_declared = find_declaration(given, &text);
    if (!is_declared && looks(given) && is_forbidden()) return run_reading(given);
    is_declared = is_declared && open_declared(&shared.declared, text.at, text.length);
    clear_text(&text);
    if (!is_declared || (given->command == DO_EXEC && !check_words(&shared.declared, given))) return end_with_fault(given);
    if (given->command == DO_OPERATIONS) return write_operations(&shared.declared);
    if (!open_shared(&shared, given)) {
        if (looks(given) && is_forbidden()) return run_reading(given);
        if (is_other_declaration()) (void)is_of_store(given, &shared.declared);
        return end_with_fault(given);
    }
    if (reads(given)) shared.reader = new_reader(shared.path, &shared.declared);
    status = do_command(&shared, given);
    if (!close_shared(&shared)) return end_with_fault(given);
    close_declared(&shared.declared);
    return status;
}

int main(int count, char **words) {
    static struct given given;
    take_closed_streams();
    keep_signals();
    end_by(SIGINT);
    read_words(&given, words + (count > 0));
    if (!is_open_stream(1) && given.command != DO_EXEC) {
        say("standard output is closed");
        return IS_FAULT;
    }
    if (given.command == DO_VIEW) return hand_to_python(words + 1, "`view`", IS_FAULT);
    if (is_served(&given)) return hand_to_python(words + 1, "a store in PostgreSQL", status_without_memory);
    if (given.name != NULL && given.store != NULL) {
        fails("--name is wanted for a store in PostgreSQL, and for no other");
        return end_with_fault(&given);
    }
    if (given.store != NULL) given.path = whole_path(given.store);
    return run(&given);
}
