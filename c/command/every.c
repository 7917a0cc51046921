/*
** `exec --every`: a command runs at most once in some time, over all that ask. When
** it last began is kept in the cell of the operation's resource, in milliseconds
** since 1970, so the journal has it, and whoever opens the store next knows it.
*/
#include <stdlib.h>
#include <string.h>
#include <time.h>

#include "command.h"

#define EARLIEST UINT64_C(1500000000000) /* a number before this one, of 2017, isn't a time that was kept here */

/* The report of a system, without what is in progress, which the caller frees. */
static char *report_of(wanzoche *system) {
    wanzoche_answer size = wanzoche_report(system, NULL, 0);
    char *text = take_memory((size_t)size.number + 1, 1);
    if (wanzoche_report(system, text, (size_t)size.number + 1).code != WANZOCHE_WRITTEN) end_without_memory();
    return text;
}

/* What is wrong with an operation of paths in which nothing is begun; null if it is one at a time, and they are behind it as before. */
static const char *find_wrong(wanzoche *system, uint32_t operation) {
    char *before = report_of(system), *behind;
    wanzoche_answer start = wanzoche_start(system, 0, operation);
    const char *wrong = start.code != WANZOCHE_STARTED ? "comes behind another" : NULL;
    if (wrong == NULL && wanzoche_can_start(system, operation).code == WANZOCHE_CAN_START) wrong = "may run beside itself";
    if (start.code == WANZOCHE_STARTED) wanzoche_finish(system, 0, start.number);
    behind = report_of(system);
    if (wrong == NULL && strcmp(before, behind) != 0) wrong = "lets others begin";
    free(before);
    free(behind);
    return wrong;
}

/* Whether this operation of a declaration may run at most once in some time. */
bool check_every(struct declared *declared, uint32_t operation) {
    char resource[33], law[40];
    const char *name = declared->names[operation], *wrong = find_wrong(&declared->system, operation);
    find_device(declared->text, name, resource, law);
    if (strcmp(law, "cell") != 0) return fails("--every keeps a time in a cell, and %s is a %s", resource, law);
    return wrong == NULL || fails("--every ends the operation also where it runs no command, and so wants one at a time, "
                                  "behind which nothing else is: %s %s", name, wrong);
}

static uint64_t milliseconds_of_clock(void) {
    struct timespec time;
    clock_gettime(CLOCK_REALTIME, &time);
    return (uint64_t)time.tv_sec * 1000 + (uint64_t)time.tv_nsec / 1000000;
}

/* A use of the operation's cell: what stood there. */
static bool use(struct shared *shared, uint64_t activation, uint32_t verb, uint64_t number, uint64_t *found) {
    wanzoche_answer answer = wanzoche_store_use(shared->store, activation, verb, number, -1);
    *found = answer.number;
    if (answer.code == WANZOCHE_USED) return true;
    if (answer.code == WANZOCHE_STALE || answer.code == WANZOCHE_NOT_YOURS)
        return fails("activation %llu was finished by others, which took this process for dead", (unsigned long long)activation);
    return is_refused(shared, answer);
}

/*
** Within an operation: whether it is due, which is kept then, and if not, how many
** seconds ago it was. A time that is to come is no reason to run it, unless it is
** further than that: then the clock was set back. False if that can't be said.
*/
bool find_due(struct shared *shared, uint64_t activation, int64_t seconds, bool *is_due, double *ago) {
    uint64_t time = milliseconds_of_clock(), last, before;
    if (!use(shared, activation, WANZOCHE_LOOK, 0, &last)) return false;
    if (last > 0 && last < EARLIEST)
        return fails("the cell has %llu, which isn't a time: --every wants a resource of its own", (unsigned long long)last);
    *ago = time >= last ? (double)(time - last) / 1000 : -((double)(last - time) / 1000);
    *is_due = last == 0 || !(*ago < (double)seconds && *ago > -(double)seconds);
    return !*is_due || use(shared, activation, WANZOCHE_PUT, time, &before);
}
