/*
** Beginning an operation, and the wait for that.
**
** While this thread waits, another one sees to the signals that end the wait, and
** tells on a terminal what is waited for. It is there only where the operation
** isn't admitted at once.
*/
#include <errno.h>
#include <pthread.h>
#include <signal.h>
#include <time.h>
#include <unistd.h>

#include "command.h"

#define TURN 45        /* for so many milliseconds a call waits for its turn before it is looked whether a signal came */
#define NEVER INT64_MAX
#define OVER SIGURG    /* what the other thread gets when the wait is over */

/* A wait, as both threads see it. */
struct wait {
    struct shared *shared;
    uint32_t operation;
    wanzoche_store_record *record;
    int64_t end;          /* when its time is over */
    double seconds;       /* so long it waits at most, for messages; 0 without a limit */
    enum entered over;    /* how it has ended, if that is said already */
    sigset_t stops;       /* the signals that end it; this process has them blocked, and OVER */
    bool tells;
    _Atomic int signal;   /* which one came; 0 for none */
    pthread_mutex_t lock; /* nothing is told when it is over */
    bool is_over;
};

/* Nanoseconds of the monotonic clock. */
static int64_t now(void) {
    struct timespec time;
    clock_gettime(CLOCK_MONOTONIC, &time);
    return (int64_t)time.tv_sec * 1000000000 + time.tv_nsec;
}

/* When so many seconds are over; NEVER if none are given. */
static int64_t end_of(const double *seconds) {
    if (seconds == NULL || *seconds > 1e9) return NEVER;
    return now() + (int64_t)(*seconds > 0 ? *seconds * 1e9 : 0);
}

/* What is in the way of who comes now: false if nothing is, or there is no turn to find that out. */
static bool add_reason(struct shared *shared, uint32_t operation, struct text *why, struct text *who) {
    wanzoche_store_waiter behind;
    struct report report;
    wanzoche_answer answer = wanzoche_store_may_start(shared->store, operation, 0, 0, &behind, TURN);
    bool is_withheld = answer.code == WANZOCHE_WITHHELD;
    if ((answer.code != WANZOCHE_BLOCKED && !is_withheld) || !ask_report(shared, TURN, &report)) return false;
    if (is_withheld || report.blocked_by[operation] >= 0) {
        add_why(why, &shared->declared, operation, &report, is_withheld ? &behind : NULL, 0);
        add_who(who, &shared->declared, operation, &report, is_withheld ? &behind : NULL);
    }
    close_report(&report);
    return why->length > 0;
}

/* Tells what is waited for, once. */
static void tell(struct wait *wait) {
    struct text why = {NULL, 0, 0}, who = {NULL, 0, 0};
    bool is_known = add_reason(wait->shared, wait->operation, &why, &who);
    pthread_mutex_lock(&wait->lock);
    if (is_known && !wait->is_over) {
        say("waiting: %s%s", why.at, who.at == NULL ? "" : who.at);
        wait->tells = false;
    }
    pthread_mutex_unlock(&wait->lock);
    clear_text(&why);
    clear_text(&who);
}

/* The other thread: until the wait is over, or a signal ends it. */
static void *see_to_signals(void *given) {
    static const struct timespec second = {1, 0};
    struct wait *wait = given;
    sigset_t all = wait->stops;
    sigaddset(&all, OVER);
    for (;;) {
        int number = wait->tells ? sigtimedwait(&all, NULL, &second) : sigwaitinfo(&all, NULL);
        if (number == OVER) return NULL;
        if (number < 0 && errno == EAGAIN) tell(wait);
        if (number <= 0) continue;
        wait->signal = number;
        wanzoche_store_wake(wait->shared->store, wait->record);
    }
}

/* Of one whose time is over: keeps why it isn't in progress. False if nothing forbids it any more. */
static bool is_late(struct wait *wait, wanzoche_answer known) {
    struct shared *shared = wait->shared;
    const wanzoche_store_waiter *behind = known.code == WANZOCHE_WITHHELD ? &wait->record->behind : NULL;
    struct text why = {NULL, 0, 0};
    struct report report;
    bool is_blocked;
    wait->over = IS_REFUSED;
    if (known.code == WANZOCHE_LATE) return !is_refused(shared, known);
    if (!ask_report(shared, TURN, &report)) return true;
    wait->over = IS_NOT_IN_TIME;
    is_blocked = behind != NULL || report.blocked_by[wait->operation] >= 0;
    if (is_blocked) {
        add_why(&why, &shared->declared, wait->operation, &report, behind, wait->seconds);
        fails("%s", why.at);
    }
    clear_text(&why);
    close_report(&report);
    return is_blocked;
}

static bool is_conflict(wanzoche_answer answer) {
    return answer.code == WANZOCHE_BLOCKED || answer.code == WANZOCHE_WITHHELD || answer.code == WANZOCHE_LATE;
}

/* How long it may sleep now, in whole milliseconds. */
static int64_t sleep_until(int64_t end) {
    int64_t left = end - now();
    if (end == NEVER) return -1;
    return left > 0 ? (left + 999999) / 1000000 : 0;
}

/* One that wasn't admitted at once: sleeps and asks again, until it is, its time is over, or a signal came. */
static wanzoche_answer wait_for_turn(struct wait *wait, wanzoche_answer answer) {
    wanzoche_store *store = wait->shared->store;
    wanzoche_answer known = answer;
    while (wait->signal == 0 && is_conflict(answer)) {
        bool is_over = now() >= wait->end;
        if (answer.code != WANZOCHE_LATE) known = answer;
        if (is_over && is_late(wait, known)) return answer;
        wait->over = IS_IN_PROGRESS;
        if (!is_over && wait->record->is_waiting) (void)!wanzoche_store_wait(store, wait->record, sleep_until(wait->end)).code;
        if (wait->signal == 0)
            answer = wanzoche_store_begin(store, wait->operation, 0, 0, now() >= wait->end ? WANZOCHE_TRY : WANZOCHE_WAIT, wait->record, TURN);
    }
    return answer;
}

/* The same beside the other thread. */
static wanzoche_answer wait_beside(struct wait *wait, wanzoche_answer answer) {
    sigset_t blocked = wait->stops, before;
    pthread_t thread;
    sigaddset(&blocked, OVER);
    pthread_sigmask(SIG_BLOCK, &blocked, &before);
    if (pthread_create(&thread, NULL, see_to_signals, wait) != 0) end_without_memory();
    answer = wait_for_turn(wait, answer);
    pthread_mutex_lock(&wait->lock);
    wait->is_over = true;
    pthread_mutex_unlock(&wait->lock);
    pthread_kill(thread, OVER);
    pthread_join(thread, NULL);
    pthread_sigmask(SIG_SETMASK, &before, NULL);
    return answer;
}

/* Of an answer that is neither an admission nor a conflict. */
static bool refuse_start(struct shared *shared, uint32_t operation, wanzoche_answer answer) {
    struct report report;
    if (answer.code != WANZOCHE_NO_ROOM) return is_refused(shared, answer);
    if (!ask_report(shared, -1, &report)) return false;
    fails("no room for %s: %zu in progress, in a room of %d", shared->declared.names[operation], report.count, WANZOCHE_MOST_LINES);
    close_report(&report);
    return false;
}

/* What an answer comes to. What is begun is on the disk then. */
static enum entered entered_by(struct wait *wait, wanzoche_answer answer) {
    struct shared *shared = wait->shared;
    if (wait->signal != 0) wait->over = IS_STOPPED;
    if (wait->over != IS_IN_PROGRESS) {
        (void)!wanzoche_store_end(shared->store, wait->record, TURN).code;
        return wait->over;
    }
    if (answer.code != WANZOCHE_STARTED) {
        refuse_start(shared, wait->operation, answer);
        return IS_REFUSED;
    }
    answer = wanzoche_store_sync(shared->store, wait->record);
    return answer.code == WANZOCHE_SYNCED || is_refused(shared, answer) ? IS_IN_PROGRESS : IS_REFUSED;
}

/*
** Begins an operation when it is admitted, within so many seconds, or without a
** limit. One of the signals ends the wait, which have to be blocked, and `signal` says
** which. Where it isn't in progress, the fault says why.
*/
enum entered enter(struct shared *shared, uint32_t operation, const double *timeout, bool is_quiet, const sigset_t *stops,
                   wanzoche_store_record *record, int *signal) {
    struct wait wait = {.shared = shared, .operation = operation, .record = record, .stops = *stops, .lock = PTHREAD_MUTEX_INITIALIZER};
    uint32_t waits = timeout == NULL || *timeout > 0 ? WANZOCHE_WAIT : WANZOCHE_TRY;
    wanzoche_answer answer;
    wait.end = end_of(timeout);
    wait.seconds = timeout == NULL ? 0 : *timeout;
    wait.tells = !is_quiet && isatty(2);
    answer = wanzoche_store_begin(shared->store, operation, 0, 0, waits, record, TURN);
    if (is_conflict(answer)) answer = wait_beside(&wait, answer);
    *signal = wait.signal;
    return entered_by(&wait, answer);
}

/* Ends an operation in progress. */
bool leave(struct shared *shared, wanzoche_store_record *record) {
    wanzoche_answer answer = wanzoche_store_end(shared->store, record, TURN);
    if (answer.code == WANZOCHE_LOST)
        return fails("activation %llu was finished by others, which took this process for dead", (unsigned long long)record->number);
    if (answer.code != WANZOCHE_FINISHED && answer.code != WANZOCHE_OWED) return is_refused(shared, answer);
    answer = wanzoche_store_sync(shared->store, record);
    return answer.code == WANZOCHE_SYNCED || is_refused(shared, answer);
}
