/* How a store is, and that as lines. */
#include <stdio.h>
#include <stdlib.h>
#include <string.h>

#include "command.h"

void close_state(struct state *state) {
    for (size_t k = 0; k < state->report.count && state->processes != NULL; k++) clear_text(&state->processes[k].command);
    free(state->processes);
    close_report(&state->report);
}

/* Asks for the state of a store: what can happen next, who waits, and which processes those are that have something in progress. */
bool ask_state(struct shared *shared, struct state *state) {
    char beside[4200];
    state->processes = NULL;
    if (!ask_report(shared, -1, &state->report)) return false;
    if (!count_waiting(shared, state->waiting)) {
        close_report(&state->report);
        return false;
    }
    snprintf(beside, sizeof beside, "%s.shared", shared->path);
    state->processes = take_memory(state->report.count, sizeof *state->processes);
    find_processes(&state->report, state->processes, beside);
    return true;
}

/* The report, with a line for each operation that a dead worker has in progress, and for each worker whose process is known. */
void add_lines(struct text *text, const struct report *report) {
    for (const char *at = report->text.at; *at != 0;) {
        const char *end = strchr(at, '\n');
        size_t length = end == NULL ? strlen(at) : (size_t)(end - at) + 1;
        if (strncmp(at, "waiting ", 8) != 0) add_bytes(text, at, length);
        at += length;
    }
}

/* How often each operation is in progress. */
void count_running(const struct report *report, uint32_t counts[WANZOCHE_MOST_OPERATIONS]) {
    memset(counts, 0, WANZOCHE_MOST_OPERATIONS * sizeof *counts);
    for (size_t k = 0; k < report->count; k++) counts[report->live[k].operation]++;
}
