/* Why an operation can't begin now, in words. */
#include <stdio.h>
#include <string.h>

#include "command.h"

/* The path that is meant: the one that forbids it, or of one that is withheld the first that both are in. False if there is none. */
static bool find_meant(struct declared *declared, uint32_t operation, const struct report *report, const wanzoche_store_waiter *behind,
                       struct path *path, uint32_t *number) {
    if (behind == NULL) {
        *number = (uint32_t)report->blocked_by[operation];
        return find_path(declared->text, *number, path);
    }
    for (*number = 0; find_path(declared->text, *number, path); ++*number)
        if (is_in_path(path, declared->names[operation]) && is_in_path(path, declared->names[behind->operation])) return true;
    return false;
}

/* What of the path is in progress, and by whom: how much that is. */
static size_t add_running(struct text *text, struct declared *declared, const struct path *path, const struct report *report) {
    size_t count = 0;
    bool is_named[WANZOCHE_MOST_OPERATIONS];
    for (uint32_t k = 0; k < declared->count; k++) is_named[k] = is_in_path(path, declared->names[k]);
    for (size_t k = 0; k < report->count; k++) {
        const struct live *live = &report->live[k];
        if (is_named[live->operation]) add(text, "%s%s by process %u", count++ == 0 ? "" : ", ", declared->names[live->operation], live->worker);
    }
    return count;
}

/* The operations of the path that may begin, in its order. */
static void add_startable(struct text *text, struct declared *declared, const struct path *path, const struct report *report) {
    char word[40];
    size_t count = 0;
    for (const char *at = path->text.at; (at = next_word(at, word)) != NULL;) {
        int64_t operation = wanzoche_operation(&declared->system, word, strlen(word));
        if (operation >= 0 && report->blocked_by[operation] < 0) add(text, "%s%s", count++ == 0 ? "" : ", ", word);
    }
    if (count == 0) add(text, "nothing");
}

/* Adds why a report forbids an operation, or that it is withheld for one who waits; behind so many seconds, if these are more than none. */
void add_why(struct text *text, struct declared *declared, uint32_t operation, const struct report *report,
             const wanzoche_store_waiter *behind, double after) {
    struct path path = {.resource = ""};
    uint32_t number;
    if (!find_meant(declared, operation, report, behind, &path, &number)) return;
    add(text, "%s is %s", declared->names[operation], behind == NULL ? "blocked" : "withheld");
    if (after > 0) add(text, " for %g seconds", after);
    add(text, ":");
    if (behind != NULL)
        add(text, " behind %s by process %u, which has waited %.1f s,", declared->names[behind->operation], behind->worker,
            (double)behind->waited / 1000);
    add(text, " path %u of %s: %s; in progress: ", number, path.resource, path.text.at);
    if (add_running(text, declared, &path, report) == 0) {
        add(text, "nothing of it; may begin next: ");
        add_startable(text, declared, &path, report);
    }
    clear_text(&path.text);
}

static void add_process(struct text *text, uint32_t worker, uint64_t process) {
    char one[40];
    snprintf(one, sizeof one, "process %u is ", worker);
    if (process == 0 || (text->at != NULL && strstr(text->at, one) != NULL)) return;
    add(text, "%s%s%llu", text->length == 0 ? "" : ", ", one, (unsigned long long)process);
}

/* The process of a worker that has something in progress. */
static uint64_t process_of(const struct report *report, uint32_t worker) {
    for (size_t k = 0; k < report->count; k++)
        if (report->live[k].worker == worker) return report->live[k].process;
    return 0;
}

/* Adds which processes those are that are in the way, as far as the store knows. */
void add_who(struct text *text, struct declared *declared, uint32_t operation, const struct report *report, const wanzoche_store_waiter *behind) {
    struct path path = {.resource = ""};
    struct text who = {NULL, 0, 0};
    uint32_t number;
    if (!find_meant(declared, operation, report, behind, &path, &number)) return;
    if (behind != NULL) add_process(&who, behind->worker, process_of(report, behind->worker));
    for (size_t k = 0; k < report->count && who.length < 4096; k++)
        if (is_in_path(&path, declared->names[report->live[k].operation])) add_process(&who, report->live[k].worker, report->live[k].process);
    if (who.length > 0) add(text, " (%s)", who.at);
    clear_text(&who);
    clear_text(&path.text);
}
