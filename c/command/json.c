/* How a store is, as JSON. */
#include <stdio.h>
#include <stdlib.h>
#include <string.h>
#include <time.h>

#include "command.h"

#define FORM 1 /* its number changes when something in it gets another meaning or goes; what is added leaves it as it is */

/* Adds a text as a string in quotation marks, or `null` for a null one. All signs beyond ASCII are escaped. */
static void add_string(struct text *text, const char *from) {
    if (from == NULL) {
        add(text, "null");
        return;
    }
    add(text, "\"");
    while (*from != 0) {
        uint32_t sign = next_sign(&from);
        if (sign == '"' || sign == '\\') add(text, "\\%c", (int)sign);
        else if (sign == '\n') add(text, "\\n");
        else if (sign == '\t') add(text, "\\t");
        else if (sign == '\r') add(text, "\\r");
        else if (sign == '\b') add(text, "\\b");
        else if (sign == '\f') add(text, "\\f");
        else if (sign >= ' ' && sign < 127) add(text, "%c", (int)sign);
        else if (sign < 0x10000) add(text, "\\u%04x", sign);
        else add(text, "\\u%04x\\u%04x", 0xd800 + ((sign - 0x10000) >> 10), 0xdc00 + ((sign - 0x10000) & 0x3ff));
    }
    add(text, "\"");
}

static void add_process(struct text *text, const struct process *process) {
    char since[40];
    struct tm parts;
    time_t time = process == NULL ? 0 : (time_t)process->since;
    if (time > 0 && gmtime_r(&time, &parts) != NULL && strftime(since, sizeof since, "%Y-%m-%dT%H:%M:%SZ", &parts) > 0)
        add(text, ", \"since\": \"%s\"", since);
    else add(text, ", \"since\": null");
    if (process == NULL || process->number == 0) add(text, ", \"pid\": null, \"host\": null, \"command\": null}");
    else {
        add(text, ", \"pid\": %llu, \"host\": ", (unsigned long long)process->number);
        add_string(text, process->host);
        add(text, ", \"command\": ");
        add_string(text, process->command.at);
        add(text, "}");
    }
}

static const char *said(bool is_so) {
    return is_so ? "true" : "false";
}

static void add_counts(struct text *text, const struct state *state, const struct declared *declared) {
    size_t lost = 0, waiting = 0;
    for (size_t k = 0; k < state->report.count; k++) lost += state->report.live[k].is_lost;
    for (uint32_t k = 0; k < declared->count; k++) waiting += state->waiting[k];
    add(text, "{\"form\": %d, \"frozen\": %s, \"counts\": {\"in_progress\": %zu, \"lost\": %zu, \"waiting\": %zu}, \"operations\": [", FORM,
        said(state->report.is_frozen), state->report.count, lost, waiting);
}

static void add_operations(struct text *text, const struct state *state, const struct declared *declared) {
    uint32_t running[WANZOCHE_MOST_OPERATIONS];
    count_running(&state->report, running);
    for (uint32_t k = 0; k < declared->count; k++) {
        int64_t path = state->report.blocked_by[k];
        add(text, "%s{\"operation\": \"%s\", \"can_start\": %s, \"blocked_by\": ", k == 0 ? "" : ", ", declared->names[k], said(path < 0));
        if (path < 0) add(text, "null");
        else add(text, "%lld", (long long)path);
        add(text, ", \"in_progress\": %u, \"waiting\": %u}", running[k], state->waiting[k]);
    }
}

/* Adds the state as one line of JSON. docs/shared.md says what stands in it. */
void add_state(struct text *text, const struct state *state, const struct declared *declared) {
    const char *between = "";
    add_counts(text, state, declared);
    add_operations(text, state, declared);
    add(text, "], \"in_progress\": [");
    for (size_t k = 0; k < state->report.count; k++) {
        const struct live *live = &state->report.live[k];
        add(text, "%s{\"activation\": %llu, \"operation\": \"%s\", \"worker\": %u, \"lost\": %s", k == 0 ? "" : ", ",
            (unsigned long long)live->activation, declared->names[live->operation], live->worker, said(live->is_lost));
        add_process(text, &state->processes[k]);
    }
    add(text, "], \"waiting\": [");
    for (uint32_t k = 0; k < declared->count; k++) {
        if (state->waiting[k] == 0) continue;
        add(text, "%s{\"operation\": \"%s\", \"count\": %u, \"worker\": null", between, declared->names[k], state->waiting[k]);
        add_process(text, NULL);
        between = ", ";
    }
    add(text, "]}\n");
}
