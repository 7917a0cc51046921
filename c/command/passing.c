/* The command `pass`: an operation that begins and ends at once, so that the paths go on to what stands behind it. */
#include <signal.h>
#include <stdio.h>
#include <stdlib.h>

#include "command.h"

static int by_number(const void *one, const void *other) {
    const uint32_t *a = one, *b = other;
    return *a < *b ? -1 : *a > *b;
}

/* Adds the dead of a report, each once, and how what they have is finished. */
static void add_dead(struct text *text, const struct report *report) {
    uint32_t *dead = take_memory(report->count, sizeof *dead);
    size_t count = 0;
    for (size_t k = 0; k < report->count; k++)
        if (report->live[k].is_lost) dead[count++] = report->live[k].worker;
    qsort(dead, count, sizeof *dead, by_number);
    for (size_t k = 0; k < count; k++)
        if (k == 0 || dead[k] != dead[k - 1]) add(text, "; process %u is dead: `wanzoche recover %u` finishes what it has", dead[k], dead[k]);
    free(dead);
}

/* Says why it wasn't passed. */
static void say_not_passed(struct shared *shared, const char *name) {
    struct text dead = {NULL, 0, 0}, told = {NULL, 0, 0};
    struct report report;
    add(&told, "%s wasn't passed: %s", name, fault());
    add(&dead, "%s", "");
    if (ask_report(shared, -1, &report)) {
        add_dead(&dead, &report);
        close_report(&report);
    }
    say("%s%s", told.at, dead.at);
    clear_text(&told);
    clear_text(&dead);
}

static int tell_passed(uint64_t number) {
    struct text told = {NULL, 0, 0};
    bool is_told;
    add(&told, "passed %llu\n", (unsigned long long)number);
    is_told = write_text(&told);
    clear_text(&told);
    if (!is_told) say("%s", fault());
    return is_told ? 0 : IS_FAULT;
}

/* Waits for its turn, begins it and ends it. */
static int pass_later(struct shared *shared, const struct given *given, uint32_t operation) {
    wanzoche_store_record record = {.number = 0};
    sigset_t stops, before;
    int signal;
    enum entered ended;
    block_interrupt(&stops, &before);
    ended = enter(shared, operation, &given->timeout, true, &stops, &record, &signal);
    if (ended == IS_IN_PROGRESS && leave(shared, &record)) return tell_passed(record.number);
    if (ended == IS_STOPPED) return OF_SIGNAL + SIGINT;
    if (ended == IS_NOT_IN_TIME) say_not_passed(shared, given->operation);
    else say("%s", fault());
    return IS_FAULT;
}

/* Makes a pass by hand, and writes its number: the status. It waits for its turn only if that was asked for. */
int pass_by_hand(struct shared *shared, const struct given *given) {
    uint32_t operation;
    wanzoche_answer answer;
    if (!find_operation(&shared->declared, given->operation, &operation) || !is_limit(given->timeout)) {
        say("%s", fault());
        return IS_FAULT;
    }
    answer = wanzoche_store_pass(shared->store, operation, NULL, -1);
    if (answer.code == WANZOCHE_STARTED) return tell_passed(answer.number);
    if (answer.code == WANZOCHE_BLOCKED || answer.code == WANZOCHE_WITHHELD || answer.code == WANZOCHE_LATE || answer.code == WANZOCHE_NO_ROOM)
        return pass_later(shared, given, operation);
    is_refused(shared, answer);
    say("%s", fault());
    return IS_FAULT;
}
