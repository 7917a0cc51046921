/* What can happen next, and who waits, as a store says it. */
#include <stdio.h>
#include <stdlib.h>
#include <string.h>

#include "command.h"

/* The process of a worker. */
struct known {
    uint32_t worker;
    uint64_t process;
};

static int by_worker(const void *one, const void *other) {
    const struct known *a = one, *b = other;
    return a->worker < b->worker ? -1 : a->worker > b->worker;
}

/* Copies a line, cut to what those have that are read here: where the next one begins, or null. */
static const char *take_copy(const char *at, char line[128]) {
    const char *end = strchr(at, '\n');
    snprintf(line, 128, "%.*s", end == NULL ? 0 : (int)(end - at), at);
    return end == NULL || end[1] == 0 ? NULL : end + 1;
}

/* How many lines begin with a word. */
static size_t count_lines(const char *text, const char *word) {
    size_t count = 0, length = strlen(word);
    char line[128];
    for (const char *at = text; at != NULL; count += strncmp(line, word, length) == 0) at = take_copy(at, line);
    return count;
}

static void take_line(struct report *report, struct declared *declared, const char *line, struct known *known, size_t *count) {
    char name[33];
    unsigned long long number;
    unsigned worker, path;
    int64_t operation;
    if (sscanf(line, "blocked %32s %u", name, &path) == 2) {
        operation = wanzoche_operation(&declared->system, name, strlen(name));
        if (operation >= 0) report->blocked_by[operation] = path;
    } else if (sscanf(line, "live %llu %u %32s", &number, &worker, name) == 3) {
        operation = wanzoche_operation(&declared->system, name, strlen(name));
        report->live[report->count++] = (struct live){number, worker, (uint32_t)operation, false, 0};
    } else if (sscanf(line, "process %u %llu", &worker, &number) == 2) known[(*count)++] = (struct known){worker, number};
    else if (strncmp(line, "frozen yes", 10) == 0) report->is_frozen = true;
}

/* Marks what the dead have, which comes in the same order. */
static void mark_lost(struct report *report) {
    unsigned long long number;
    char line[128];
    size_t live = 0;
    for (const char *at = report->text.at; at != NULL;) {
        at = take_copy(at, line);
        if (sscanf(line, "lost %llu", &number) != 1) continue;
        while (live < report->count && report->live[live].activation != number) live++;
        if (live < report->count) report->live[live].is_lost = true;
    }
}

/* Gives each operation in progress the process of its worker, if that is known. */
static void give_processes(struct report *report, struct known *known, size_t count) {
    qsort(known, count, sizeof *known, by_worker);
    for (size_t k = 0; k < report->count; k++) {
        struct known wanted = {report->live[k].worker, 0}, *found = bsearch(&wanted, known, count, sizeof *known, by_worker);
        if (found != NULL) report->live[k].process = found->process;
    }
}

/* Reads the text of a report. */
void read_report(struct report *report, struct declared *declared) {
    const char *text = report->text.at;
    char line[128];
    struct known *known = take_memory(count_lines(text, "process "), sizeof *known);
    size_t count = 0;
    report->live = take_memory(count_lines(text, "live "), sizeof *report->live);
    for (int k = 0; k < WANZOCHE_MOST_OPERATIONS; k++) report->blocked_by[k] = -1;
    for (const char *at = text; at != NULL; take_line(report, declared, line, known, &count)) at = take_copy(at, line);
    mark_lost(report);
    give_processes(report, known, count);
    free(known);
}

void close_report(struct report *report) {
    clear_text(&report->text);
    free(report->live);
    report->live = NULL;
}

/* The same where the files are read. */
static bool read_report_of(struct shared *shared, struct report *report) {
    bool is_again;
    if (!look(shared->reader, NULL, &is_again)) return false;
    add_report(shared->reader, &report->text);
    read_report(report, &shared->declared);
    return true;
}

/* Asks for a report; with a limit in milliseconds, -1 for none. */
bool ask_report(struct shared *shared, int64_t limit, struct report *report) {
    wanzoche_answer answer = {WANZOCHE_TOO_SMALL, 4000};
    *report = (struct report){.is_frozen = false};
    if (shared->reader != NULL) return read_report_of(shared, report);
    while (answer.code == WANZOCHE_TOO_SMALL) {
        size_t size = (size_t)answer.number + 4096;
        clear_text(&report->text);
        report->text = (struct text){take_memory(size, 1), 0, size};
        answer = wanzoche_store_report(shared->store, report->text.at, size, limit);
    }
    if (answer.code != WANZOCHE_WRITTEN) clear_text(&report->text);
    if (answer.code != WANZOCHE_WRITTEN) return is_refused(shared, answer);
    report->text.length = (size_t)answer.number;
    read_report(report, &shared->declared);
    return true;
}

/* How many wait for each operation, in all processes that are alive. */
bool count_waiting(struct shared *shared, uint32_t counts[WANZOCHE_MOST_OPERATIONS]) {
    size_t room = 64;
    wanzoche_store_waiter *waiting;
    wanzoche_answer answer;
    if (shared->reader != NULL) {
        count_at(shared->reader, counts);
        return true;
    }
    waiting = take_memory(room, sizeof *waiting);
    answer = wanzoche_store_list_waiting(shared->store, waiting, room, -1);
    memset(counts, 0, WANZOCHE_MOST_OPERATIONS * sizeof *counts);
    while (answer.code == WANZOCHE_COUNTED && answer.number > room) {
        room = (size_t)answer.number + 64;
        free(waiting);
        waiting = take_memory(room, sizeof *waiting);
        answer = wanzoche_store_list_waiting(shared->store, waiting, room, -1);
    }
    for (uint64_t k = 0; answer.code == WANZOCHE_COUNTED && k < answer.number; k++) counts[waiting[k].operation]++;
    free(waiting);
    return answer.code == WANZOCHE_COUNTED || is_refused(shared, answer);
}
