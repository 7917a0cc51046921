/*
** A monitor over a system of path expressions: threads wait until they are
** admitted. Header only, for POSIX threads.
**
**     static wanzoche_monitor m;
**     wanzoche_monitor_open(&m, text, strlen(text), 65536, why, sizeof why);
**     deposit = (uint32_t)wanzoche_monitor_operation(&m, "deposit");
**     ..
**     wanzoche_answer a = wanzoche_enter(&m, me, deposit, -1);
**     .. the operation ..
**     wanzoche_leave(&m, me, a.number);
**
** The monitor is for all threads at once, from its opening on. It must not be
** copied or moved. Its calls answer as those of wanzoche.h do.
**
** WAITING. A thread that may not start gives way WANZOCHE_YIELDS times, since
** most operations are short, and then sleeps. Threads that sleep stand in one
** order: a higher priority comes first, and then who came first. Where something
** ends, begins, or waits no longer, the next one that may start is woken.
**
** WHO COMES NEXT. At first anybody who may start goes past those who wait. From
** the moment when one has waited for the patience of the monitor, 5 ms unless
** wanzoche_monitor_set_patience says otherwise, starts of those behind it are
** withheld if they would stand in its way (wanzoche_may_start says when). So a
** writer comes in though readers overlap, and of many threads each has its turn.
** Each 0.2 s its door opens for those who came meanwhile, since one of them may
** be what it waits for. What a thread has in progress while it waits itself
** isn't waited for: a thread may enter a second operation inside of one. Threads
** are known by pthread_self. A start that is withheld is no attempt: it has no
** line in the journal. A thread that waits for what never comes waits for
** ever, unless it has a time limit.
**
** MEMORY. Who begins to wait takes memory if more wait than ever before, and so
** does who first asks behind one that has waited for the patience. If there is
** none, the answer is WANZOCHE_OUT_OF_MEMORY, and nothing was started. An entry
** takes some if more are in progress than ever before; without it the entry is
** unknown to the order, which lets more go past. Closing gives all of it back.
**
** CANCELLING. wanzoche_enter and wanzoche_enter_with_priority are cancellation
** points while they wait, and only then. A thread that is cancelled there has started nothing, and holds
** no lock. A thread that may be cancelled inside an operation pushes
** wanzoche_leave_entry as a cleanup handler. Asynchronous cancelling
** (PTHREAD_CANCEL_ASYNCHRONOUS) isn't allowed in these calls.
**
** CLOSING. wanzoche_monitor_close may come from any thread at any time, also
** while others wait or are inside an operation. Who waits is answered by
** WANZOCHE_CLOSED, which no call of an open monitor answers, and so is each
** later call, as the leave of who was inside. The monitor's storage stays until
** all calls have returned, as it does if their threads are joined.
**
** THE LOG. When the room is used up the monitor rotates by itself. It hands
** the text of the lines to the function `log` before, if one was set after the
** opening, and else drops them. `log` is called under the lock, in a thread
** that can't be cancelled meanwhile: it is quick, returns, calls nothing of
** this monitor, and may be null. If there is no memory for the text, the lines
** stay, and the call answers WANZOCHE_OUT_OF_MEMORY. A monitor that was opened
** without a journal needs no rotation, and calls no log.
**
** FORKS. After a fork the monitor is only used in the parent.
*/
#ifndef WANZOCHE_MONITOR_H
#define WANZOCHE_MONITOR_H

#include "wanzoche.h"

#include <errno.h>
#include <pthread.h>
#include <sched.h>
#include <stdlib.h>
#include <string.h>
#include <time.h>

#ifdef __cplusplus
extern "C" {
#endif

/*
** How often a thread gives way before it sleeps. 0 is right for operations that
** take long.
*/
#ifndef WANZOCHE_YIELDS
#define WANZOCHE_YIELDS 30
#endif

/* How long the door of one that waits stays shut, in nanoseconds. Then it opens
** for those who came meanwhile. */
#define WANZOCHE_SHUT UINT64_C(200000000)

/* How many conditions there are for those that sleep, which share one if there
** are more of them; how many entries are known without further memory, a power
** of two; and how near to its own place an entry lies. */
#ifndef WANZOCHE_CONDITIONS
#define WANZOCHE_CONDITIONS 64
#endif
#define WANZOCHE_FEW 32
#define WANZOCHE_NEAR 8

/* Stands before what few calls need, and so isn't to burden the others. */
#if defined(__GNUC__) || defined(__clang__)
#define WANZOCHE_SELDOM static __attribute__((noinline, cold, unused))
#else
#define WANZOCHE_SELDOM static inline
#endif

/* An entry that is known to the order: `held` is one more than its activation,
** and 0 in a free place. */
typedef struct wanzoche_holding {
    uint64_t held;
    pthread_t thread;
    uint32_t operation;
    bool rests; /* its thread waits */
} wanzoche_holding;

struct wanzoche_sleeper;

/*
** A monitor. The fields are private, but for `log` and `log_for`.
*/
typedef struct wanzoche_monitor {
    wanzoche system;
    pthread_mutex_t lock;
    pthread_cond_t answered; /* whoever was blocked has an answer */
    uint32_t operations;     /* 0 if it wasn't opened; stays when it is closed */
    unsigned waiting;        /* how many threads stand in the order */
    unsigned blocked;        /* the same, and those that give way before */
    void (*log)(void *log_for, const char *lines, size_t length);
    void *log_for;
    uint64_t patience;                       /* in nanoseconds */
    struct wanzoche_sleeper *first, *last;   /* those who wait, in their order */
    struct wanzoche_sleeper *oldest, *newest; /* and as they came */
    wanzoche_waiter *list; /* room for the library's list of them */
    size_t places;         /* how many fit there */
    wanzoche_holding *holdings; /* a table of entries by their activations */
    uint32_t *running;          /* room for the library's list of them */
    size_t mask;                /* how many places they have, less one */
    unsigned turn;              /* of the conditions */
    pthread_cond_t conditions[WANZOCHE_CONDITIONS];
    unsigned queues[WANZOCHE_MOST_OPERATIONS]; /* how many wait for each */
    bool is_free[WANZOCHE_MOST_OPERATIONS]; /* whether one waits for it and no
                                               path forbade it at the last look */
    wanzoche_holding few[WANZOCHE_FEW];
    uint32_t few_running[WANZOCHE_FEW];
} wanzoche_monitor;

/*
** A thread that waits: its worker, what for, with which priority, and for how
** many milliseconds up to now.
*/
typedef struct wanzoche_waiting {
    uint32_t worker;
    uint32_t operation;
    uint32_t priority;
    int64_t milliseconds;
} wanzoche_waiting;

/*
** An operation in progress, for wanzoche_leave_entry.
*/
typedef struct wanzoche_entry {
    wanzoche_monitor *monitor;
    uint32_t worker;
    uint64_t activation;
} wanzoche_entry;

/* One thread that asks, and waits. It lies on that thread's stack. */
struct wanzoche_sleeper {
    wanzoche_monitor *monitor;
    struct wanzoche_sleeper *before, *behind; /* in the order */
    struct wanzoche_sleeper *older, *newer;   /* as they came */
    pthread_cond_t *condition;
    pthread_t thread;
    uint64_t arrived; /* in nanoseconds */
    uint64_t opens;   /* when the door opens for which it waits; UINT64_MAX if
                         it isn't withheld */
    wanzoche_waiting *ahead; /* who is told for whom it is withheld, or null */
    uint32_t worker, operation, priority;
    bool woken; /* it is to ask again */
};

/* Conditions whose time limits no change of the clock moves, and one for who
** closes; false if the system has no more. */
static inline bool wanzoche_open_conditions(wanzoche_monitor *m) {
    pthread_condattr_t monotonic;
    int made = 0;
    if (pthread_condattr_init(&monotonic) != 0) return false;
    if (pthread_condattr_setclock(&monotonic, CLOCK_MONOTONIC) == 0)
        while (made < WANZOCHE_CONDITIONS &&
               pthread_cond_init(&m->conditions[made], &monotonic) == 0)
            made++;
    pthread_condattr_destroy(&monotonic);
    if (made == WANZOCHE_CONDITIONS && pthread_cond_init(&m->answered, NULL) == 0)
        return true;
    while (made > 0) pthread_cond_destroy(&m->conditions[--made]);
    return false;
}

/* Nobody waits, and nothing is known of entries. */
static inline void wanzoche_forget(wanzoche_monitor *m) {
    m->waiting = m->blocked = 0;
    m->first = m->last = m->oldest = m->newest = NULL;
    m->list = NULL;
    m->places = 0;
    m->holdings = m->few;
    m->running = m->few_running;
    m->mask = WANZOCHE_FEW - 1;
    memset(m->few, 0, sizeof m->few);
    memset(m->queues, 0, sizeof m->queues);
}

/* Open a monitor, with a journal or without. */
static inline wanzoche_answer
wanzoche_open_monitor(wanzoche_monitor *m, const char *text, size_t length,
                      uint32_t room, char *message, size_t size, bool journal) {
    const wanzoche_answer no_memory = {WANZOCHE_OUT_OF_MEMORY, 0};
    const wanzoche nothing = WANZOCHE_CLOSED_HANDLE;
    wanzoche_answer (*opens)(wanzoche *, const char *, size_t, uint32_t, char *,
                             size_t) =
        journal ? wanzoche_open : wanzoche_open_without_journal;
    wanzoche_answer a;
    if (m == NULL) return opens(NULL, text, length, room, message, size);
    m->system = nothing;
    m->operations = 0;
    m->turn = 0;
    m->patience = 5000000;
    m->log = NULL;
    m->log_for = NULL;
    wanzoche_forget(m);
    a = opens(&m->system, text, length, room, message, size);
    if (a.code != WANZOCHE_OPENED) return a;
    m->operations = wanzoche_operations(&m->system);
    if (pthread_mutex_init(&m->lock, NULL) == 0) {
        if (wanzoche_open_conditions(m)) return a;
        pthread_mutex_destroy(&m->lock);
    }
    wanzoche_close(&m->system);
    m->operations = 0;
    return no_memory;
}

/*
** Open a monitor, whatever bytes it has: as wanzoche_open, and with
** WANZOCHE_OUT_OF_MEMORY and an empty message if there is no lock to be had. A
** monitor that is open must not be opened again. Unless it answers
** WANZOCHE_OPENED, the monitor is closed.
*/
WANZOCHE_CHECKED
static inline wanzoche_answer
wanzoche_monitor_open(wanzoche_monitor *m, const char *text, size_t length,
                      uint32_t room, char *message, size_t size) {
    return wanzoche_open_monitor(m, text, length, room, message, size, true);
}

/*
** The same without a journal: as wanzoche_open_without_journal. There are no
** lines to hand over, so `log` stays null.
*/
WANZOCHE_CHECKED
static inline wanzoche_answer
wanzoche_monitor_open_without_journal(wanzoche_monitor *m, const char *text,
                                      size_t length, uint32_t room,
                                      char *message, size_t size) {
    return wanzoche_open_monitor(m, text, length, room, message, size, false);
}

/* Hand the lines to the log, and rotate. Under the lock. */
WANZOCHE_SELDOM wanzoche_answer wanzoche_give_lines(wanzoche_monitor *m) {
    const wanzoche_answer no_memory = {WANZOCHE_OUT_OF_MEMORY, 0};
    if (m->log != NULL) {
        wanzoche_answer a = wanzoche_journal(&m->system, NULL, 0);
        char *text;
        int cancelling;
        if (a.code != WANZOCHE_TOO_SMALL) return a;
        text = (char *)malloc((size_t)a.number + 1);
        if (text == NULL) return no_memory;
        a = wanzoche_journal(&m->system, text, (size_t)a.number + 1);
        if (a.code == WANZOCHE_WRITTEN) {
            pthread_setcancelstate(PTHREAD_CANCEL_DISABLE, &cancelling);
            m->log(m->log_for, text, (size_t)a.number);
            pthread_setcancelstate(cancelling, NULL);
        }
        free(text);
        if (a.code != WANZOCHE_WRITTEN) return a;
    }
    return wanzoche_rotate(&m->system);
}

/* A start, in an empty journal if the room is used up. Under the lock. */
static inline wanzoche_answer
wanzoche_start_in_room(wanzoche_monitor *m, uint32_t worker, uint32_t operation) {
    wanzoche_answer a = wanzoche_start(&m->system, worker, operation);
    if (a.code == WANZOCHE_NO_ROOM && wanzoche_lines(&m->system) > 0) {
        a = wanzoche_give_lines(m);
        if (a.code == WANZOCHE_ROTATED)
            a = wanzoche_start(&m->system, worker, operation);
    }
    return a;
}

/* The time this many milliseconds from now. */
static inline struct timespec wanzoche_in(int64_t milliseconds) {
    struct timespec t;
    clock_gettime(CLOCK_MONOTONIC, &t);
    if (milliseconds > INT64_C(1000000000000)) milliseconds = INT64_C(1000000000000);
    t.tv_sec += (time_t)(milliseconds / 1000);
    t.tv_nsec += (long)(milliseconds % 1000) * 1000000;
    if (t.tv_nsec >= 1000000000) {
        t.tv_sec++;
        t.tv_nsec -= 1000000000;
    }
    return t;
}

/* A time in nanoseconds, as it is now, and back. */
static inline uint64_t wanzoche_now(void) {
    const struct timespec now = wanzoche_in(0);
    return (uint64_t)now.tv_sec * 1000000000 + (uint64_t)now.tv_nsec;
}

static inline struct timespec wanzoche_time(uint64_t nanoseconds) {
    struct timespec t;
    t.tv_sec = (time_t)(nanoseconds / 1000000000);
    t.tv_nsec = (long)(nanoseconds % 1000000000);
    return t;
}

static inline bool wanzoche_is_before(const struct timespec *one, const struct timespec *other) {
    return one->tv_sec < other->tv_sec ||
           (one->tv_sec == other->tv_sec && one->tv_nsec < other->tv_nsec);
}

/* Whether a time limit is over; null is none. */
static inline bool wanzoche_is_over(const struct timespec *until) {
    struct timespec now;
    if (until == NULL) return false;
    now = wanzoche_in(0);
    return !wanzoche_is_before(&now, until);
}

/* The place of an activation among the entries that are known, as `held`, or a
** free one for it, as 0; null if there is none. Places are its own and the next. */
static inline wanzoche_holding *wanzoche_place(wanzoche_monitor *m, uint64_t activation, uint64_t held) {
    size_t n;
    for (n = 0; n < WANZOCHE_NEAR; n++) {
        wanzoche_holding *h = &m->holdings[(activation + n) & m->mask];
        if (h->held == held) return h;
    }
    return NULL;
}

/* The table gets twice as many places, unless there is no memory. What has no
** free place then either becomes unknown. */
WANZOCHE_SELDOM void wanzoche_widen(wanzoche_monitor *m) {
    wanzoche_holding *had = m->holdings, *made, *place;
    const size_t places = m->mask + 1;
    size_t n;
    made = (wanzoche_holding *)calloc(2 * places, sizeof(wanzoche_holding) + sizeof(uint32_t));
    if (made == NULL) return;
    m->holdings = made;
    m->running = (uint32_t *)(void *)&made[2 * places];
    m->mask = 2 * places - 1;
    for (n = 0; n < places; n++)
        if (had[n].held != 0 && (place = wanzoche_place(m, had[n].held - 1, 0)) != NULL) *place = had[n];
    if (had != m->few) free(had);
}

/* A free place for an activation; null if there is none. */
WANZOCHE_SELDOM wanzoche_holding *wanzoche_free_place(wanzoche_monitor *m, uint64_t activation) {
    wanzoche_holding *place = wanzoche_place(m, activation, 0);
    if (place != NULL) return place;
    wanzoche_widen(m);
    return wanzoche_place(m, activation, 0);
}

/* A thread has entered. If there is no place the entry stays unknown, and doesn't
** count as running. Under the lock. */
static inline void wanzoche_hold(wanzoche_monitor *m, pthread_t thread,
                                 uint64_t activation, uint32_t operation) {
    wanzoche_holding *place = &m->holdings[activation & m->mask];
    if (place->held != 0) place = wanzoche_free_place(m, activation);
    if (place == NULL) return;
    place->held = activation + 1;
    place->thread = thread;
    place->operation = operation;
    place->rests = false;
}

/* The same entry is over, and lies elsewhere than in its own place. */
WANZOCHE_SELDOM void wanzoche_let_go_nearby(wanzoche_monitor *m, uint64_t activation) {
    wanzoche_holding *place = wanzoche_place(m, activation, activation + 1);
    if (place != NULL) place->held = 0;
}

/* An entry is over. Under the lock. */
static inline void wanzoche_let_go(wanzoche_monitor *m, uint64_t activation) {
    wanzoche_holding *place = &m->holdings[activation & m->mask];
    if (place->held == activation + 1) place->held = 0;
    else wanzoche_let_go_nearby(m, activation);
}

/* A thread begins to wait, or has waited: what it has entered rests so long.
** Says whether that is anything. Under the lock. */
static inline bool wanzoche_rest(wanzoche_monitor *m, pthread_t thread, bool rests) {
    bool some = false;
    size_t n;
    for (n = 0; n <= m->mask; n++) {
        wanzoche_holding *h = &m->holdings[n];
        if (h->held == 0 || !pthread_equal(h->thread, thread)) continue;
        h->rests = rests;
        some = true;
    }
    return some;
}

/* List what runs, for one that asks or for null: the operations of the entries
** of those who don't wait, without its own. Says how many. Under the lock. */
static inline size_t wanzoche_list_running(wanzoche_monitor *m, const struct wanzoche_sleeper *asks) {
    size_t n, count = 0;
    for (n = 0; n <= m->mask; n++) {
        const wanzoche_holding *h = &m->holdings[n];
        if (h->held == 0 || h->rests) continue;
        if (asks == NULL || !pthread_equal(h->thread, asks->thread)) m->running[count++] = h->operation;
    }
    return count;
}

/* By now, starts of those who came later than this are withheld for one that
** came then; UINT64_MAX: of nobody. */
static inline uint64_t wanzoche_shut_at(const wanzoche_monitor *m, uint64_t arrived, uint64_t now) {
    const uint64_t age = now > arrived ? now - arrived : 0;
    uint64_t times;
    if (age < m->patience) return UINT64_MAX;
    times = (age - m->patience) / WANZOCHE_SHUT;
    return times == 0 ? 0 : arrived + m->patience + times * WANZOCHE_SHUT;
}

/* When the door of one opens next that came then and keeps it shut. */
static inline uint64_t wanzoche_opens_at(const wanzoche_monitor *m, uint64_t arrived, uint64_t now) {
    const uint64_t times = (now - arrived - m->patience) / WANZOCHE_SHUT;
    return arrived + m->patience + (times + 1) * WANZOCHE_SHUT;
}

/* Whether anybody has waited for long enough that starts are withheld for it.
** Under the lock. */
static inline bool wanzoche_is_impatient(const wanzoche_monitor *m, uint64_t now) {
    return m->oldest != NULL && wanzoche_shut_at(m, m->oldest->arrived, now) != UINT64_MAX;
}

/* List those who wait, as the library takes them: those that stand before one
** that asks, or all for null. Says how many. Under the lock. */
static inline size_t wanzoche_list_waiting(wanzoche_monitor *m, const struct wanzoche_sleeper *asks, uint64_t now) {
    const uint32_t least = asks == NULL ? 0 : asks->priority;
    const struct wanzoche_sleeper *s;
    size_t n = 0;
    for (s = m->first; s != NULL && s != asks && s->priority >= least; s = s->behind) {
        m->list[n].operation = s->operation;
        m->list[n].priority = s->priority;
        m->list[n].arrived = s->arrived;
        m->list[n].shut_at = wanzoche_shut_at(m, s->arrived, now);
        n++;
    }
    return n;
}

/* The one at a place of the order. Under the lock. */
static inline struct wanzoche_sleeper *wanzoche_at(wanzoche_monitor *m, uint64_t place) {
    struct wanzoche_sleeper *s = m->first;
    while (place-- > 0) s = s->behind;
    return s;
}

/* Tell of one that waits. */
static inline void wanzoche_tell(wanzoche_waiting *told, const struct wanzoche_sleeper *s, uint64_t now) {
    told->worker = s->worker;
    told->operation = s->operation;
    told->priority = s->priority;
    told->milliseconds = (int64_t)(now > s->arrived ? (now - s->arrived) / 1000000 : 0);
}

/* Whether a start that is asked for may go, by those who wait: answers
** WANZOCHE_WITHHELD, with the operation for which it is, or what
** wanzoche_may_start does. Under the lock. */
static inline wanzoche_answer wanzoche_judge(struct wanzoche_sleeper *asks) {
    wanzoche_monitor *m = asks->monitor;
    const uint64_t now = wanzoche_now();
    wanzoche_answer a = wanzoche_can_start(&m->system, asks->operation);
    asks->opens = UINT64_MAX;
    if (a.code != WANZOCHE_CAN_START || !wanzoche_is_impatient(m, now)) return a;
    a = wanzoche_may_start(&m->system, asks->operation, asks->priority, asks->arrived, m->list,
                           wanzoche_list_waiting(m, asks, now), m->running, wanzoche_list_running(m, asks));
    if (a.code == WANZOCHE_WITHHELD) {
        const struct wanzoche_sleeper *ahead = wanzoche_at(m, a.number);
        asks->opens = wanzoche_opens_at(m, ahead->arrived, now);
        if (asks->ahead != NULL) wanzoche_tell(asks->ahead, ahead, now);
        a.number = ahead->operation;
    }
    return a;
}

/* Start what is asked for, unless it is withheld. What the paths refuse has its
** line in the journal. Under the lock. */
static inline wanzoche_answer wanzoche_ask(struct wanzoche_sleeper *asks) {
    const wanzoche_answer a = wanzoche_judge(asks);
    if (a.code == WANZOCHE_WITHHELD || a.code == WANZOCHE_OUT_OF_MEMORY) return a;
    return wanzoche_start_in_room(asks->monitor, asks->worker, asks->operation);
}

/* Whether an answer says that one has to wait. */
static inline bool wanzoche_has_to_wait(wanzoche_answer a) {
    return a.code == WANZOCHE_BLOCKED || a.code == WANZOCHE_WITHHELD;
}

/* See which operations that are waited for no path forbids now, and whether
** there are any. Under the lock. */
static inline bool wanzoche_look(wanzoche_monitor *m) {
    bool some = false;
    uint32_t n;
    for (n = 0; n < m->operations; n++) {
        m->is_free[n] = m->queues[n] > 0 &&
                        wanzoche_can_start(&m->system, n).code == WANZOCHE_CAN_START;
        some = some || m->is_free[n];
    }
    return some;
}

/* One that waits is to ask again. Under the lock. */
static inline void wanzoche_wake(struct wanzoche_sleeper *s) {
    s->woken = true;
    pthread_cond_broadcast(s->condition);
}

/* Nobody may start. Those whose start no path forbids any more are to see for
** whom it is withheld, and when that door opens. Under the lock. */
static inline void wanzoche_wake_withheld(wanzoche_monitor *m) {
    struct wanzoche_sleeper *s;
    for (s = m->first; s != NULL; s = s->behind)
        if (m->is_free[s->operation] && s->opens == UINT64_MAX && !s->woken) wanzoche_wake(s);
}

/* The first but one whose start no path forbids; null if there is none. */
static inline struct wanzoche_sleeper *
wanzoche_first_free(wanzoche_monitor *m, const struct wanzoche_sleeper *but) {
    struct wanzoche_sleeper *s = m->first;
    while (s != NULL && (s == but || !m->is_free[s->operation])) s = s->behind;
    return s;
}

/* Who comes next; null if nobody may start. If the library has no memory to say
** it, the first whose start no path forbids is to ask; but not the one that has
** just asked in vain, if any. Under the lock. */
static inline struct wanzoche_sleeper *
wanzoche_find_next(wanzoche_monitor *m, const struct wanzoche_sleeper *in_vain) {
    const uint64_t now = wanzoche_now();
    wanzoche_answer a;
    if (!wanzoche_is_impatient(m, now)) return wanzoche_first_free(m, NULL);
    a = wanzoche_next(&m->system, m->list, wanzoche_list_waiting(m, NULL, now), m->running,
                      wanzoche_list_running(m, NULL));
    if (a.code == WANZOCHE_NEXT) return wanzoche_at(m, a.number);
    if (a.code != WANZOCHE_NOBODY) return wanzoche_first_free(m, in_vain);
    wanzoche_wake_withheld(m);
    return NULL;
}

/* Say to who comes next that it is to ask again: its condition, on which that
** is to be broadcast; null if nobody is, or it knows. Under the lock. */
WANZOCHE_SELDOM pthread_cond_t *
wanzoche_mark_next(wanzoche_monitor *m, const struct wanzoche_sleeper *in_vain) {
    struct wanzoche_sleeper *next;
    if (!wanzoche_look(m)) return NULL;
    next = wanzoche_find_next(m, in_vain);
    if (next == NULL || next->woken) return NULL;
    next->woken = true;
    return next->condition;
}

/* Unlock, and wake who comes next when the lock is free, so that it needn't wait
** for that. */
static inline void wanzoche_unlock_and_wake(wanzoche_monitor *m) {
    pthread_cond_t *next = m->waiting == 0 ? NULL : wanzoche_mark_next(m, NULL);
    pthread_mutex_unlock(&m->lock);
    if (next != NULL) pthread_cond_broadcast(next);
}

/* Wake who comes next, where one that waits begins to, or has asked in vain.
** Under the lock. */
static inline void wanzoche_wake_next(const struct wanzoche_sleeper *me) {
    pthread_cond_t *next = wanzoche_mark_next(me->monitor, me);
    if (next != NULL) pthread_cond_broadcast(next);
}

/* Start what is asked for if that may go now, and else say why not. Under the
** lock. */
static inline wanzoche_answer wanzoche_look_again(struct wanzoche_sleeper *asks) {
    const wanzoche_answer a = wanzoche_judge(asks);
    if (a.code != WANZOCHE_CAN_START) return a;
    return wanzoche_start_in_room(asks->monitor, asks->worker, asks->operation);
}

/* Give way to others while there is time and a path forbids the start, and start
** if it may go then. A lock that is taken isn't waited for meanwhile, but at the
** end, for one look more: so the lock is held without a break since the last
** look. Under the lock. */
static inline wanzoche_answer
wanzoche_give_way(struct wanzoche_sleeper *me, const struct timespec *until, wanzoche_answer a) {
    wanzoche_monitor *m = me->monitor;
    bool locked = true;
    int n;
    for (n = 0; n < WANZOCHE_YIELDS && a.code == WANZOCHE_BLOCKED && !wanzoche_is_over(until); n++) {
        if (locked) pthread_mutex_unlock(&m->lock);
        sched_yield();
        locked = pthread_mutex_trylock(&m->lock) == 0;
        if (locked) a = wanzoche_look_again(me);
    }
    if (locked) return a;
    pthread_mutex_lock(&m->lock);
    return wanzoche_look_again(me);
}

/* Whether one comes behind another. */
static inline bool wanzoche_is_behind(const struct wanzoche_sleeper *me, const struct wanzoche_sleeper *other) {
    if (me->priority != other->priority) return me->priority < other->priority;
    return me->arrived >= other->arrived;
}

/* Stand in the order. Under the lock. */
static inline void wanzoche_stand(struct wanzoche_sleeper *me) {
    wanzoche_monitor *m = me->monitor;
    me->before = m->last;
    while (me->before != NULL && !wanzoche_is_behind(me, me->before)) me->before = me->before->before;
    me->behind = me->before == NULL ? m->first : me->before->behind;
    *(me->before == NULL ? &m->first : &me->before->behind) = me;
    *(me->behind == NULL ? &m->last : &me->behind->before) = me;
    m->queues[me->operation]++;
    m->waiting++;
}

/* The same in the list by their age alone. */
static inline void wanzoche_stand_by_age(struct wanzoche_sleeper *me) {
    wanzoche_monitor *m = me->monitor;
    me->older = m->newest;
    while (me->older != NULL && me->older->arrived > me->arrived) me->older = me->older->older;
    me->newer = me->older == NULL ? m->oldest : me->older->newer;
    *(me->older == NULL ? &m->oldest : &me->older->newer) = me;
    *(me->newer == NULL ? &m->newest : &me->newer->older) = me;
}

/* Wait no longer. What its thread has entered runs again. Under the lock. */
static inline void wanzoche_step_out(struct wanzoche_sleeper *me) {
    wanzoche_monitor *m = me->monitor;
    *(me->before == NULL ? &m->first : &me->before->behind) = me->behind;
    *(me->behind == NULL ? &m->last : &me->behind->before) = me->before;
    *(me->older == NULL ? &m->oldest : &me->older->newer) = me->newer;
    *(me->newer == NULL ? &m->newest : &me->newer->older) = me->older;
    (void)wanzoche_rest(m, me->thread, false);
    m->queues[me->operation]--;
    m->waiting--;
}

/* A thread that was blocked has its answer. Under the lock. */
static inline void wanzoche_is_answered(wanzoche_monitor *m) {
    if (--m->blocked == 0) pthread_cond_broadcast(&m->answered);
}

/* A cancelled thread has the lock again: it was woken for nothing, perhaps. */
static inline void wanzoche_gives_up(void *at) {
    struct wanzoche_sleeper *me = (struct wanzoche_sleeper *)at;
    wanzoche_step_out(me);
    wanzoche_is_answered(me->monitor);
    wanzoche_unlock_and_wake(me->monitor);
}

/* Sleep until it is to ask again, as it is when a door opens, or until the time
** is over: says whether that. May end before. Under the lock. */
static inline bool wanzoche_sleep(struct wanzoche_sleeper *me, const struct timespec *until) {
    pthread_mutex_t *lock = &me->monitor->lock;
    const struct timespec opens = wanzoche_time(me->opens);
    const bool is_door = me->opens != UINT64_MAX && (until == NULL || wanzoche_is_before(&opens, until));
    bool over;
    if (is_door) until = &opens;
    if (until == NULL) over = pthread_cond_wait(me->condition, lock) != 0;
    else over = pthread_cond_timedwait(me->condition, lock, until) != 0;
    if (is_door && over) me->woken = true;
    return over && !is_door;
}

/* Whether the library's list has a place for one more. Under the lock. */
static inline bool wanzoche_has_place(wanzoche_monitor *m) {
    const size_t places = m->places == 0 ? 8 : 2 * m->places;
    wanzoche_waiter *list;
    if (m->waiting < m->places) return true;
    list = (wanzoche_waiter *)realloc(m->list, places * sizeof *list);
    if (list == NULL) return false;
    m->list = list;
    m->places = places;
    return true;
}

/* Ask whenever it is to, until there is another answer than that it has to wait,
** or the time is over. Under the lock. */
static inline wanzoche_answer
wanzoche_ask_again(struct wanzoche_sleeper *me, const struct timespec *until) {
    wanzoche_answer a;
    bool over = false;
    for (;;) {
        while (!me->woken && !over) over = wanzoche_sleep(me, until);
        me->woken = false;
        a = wanzoche_ask(me);
        if (over || !wanzoche_has_to_wait(a)) return a;
        wanzoche_wake_next(me);
    }
}

/* Sleep in the order. Under the lock. */
static inline wanzoche_answer
wanzoche_sleep_in_order(struct wanzoche_sleeper *me, const struct timespec *until) {
    wanzoche_answer a = {WANZOCHE_OUT_OF_MEMORY, 0};
    if (!wanzoche_has_place(me->monitor)) return a;
    wanzoche_stand(me);
    wanzoche_stand_by_age(me);
    if (wanzoche_rest(me->monitor, me->thread, true)) wanzoche_wake_next(me);
    pthread_cleanup_push(wanzoche_gives_up, me);
    a = wanzoche_ask_again(me, until);
    pthread_cleanup_pop(0);
    wanzoche_step_out(me);
    return a;
}

/* Wait, since it has to by this answer: give way, unless the order is strict, and
** then sleep. Under the lock. */
static inline wanzoche_answer
wanzoche_wait(struct wanzoche_sleeper *me, const struct timespec *until, wanzoche_answer a) {
    wanzoche_monitor *m = me->monitor;
    m->blocked++;
    if (m->patience > 0) a = wanzoche_give_way(me, until, a);
    if (wanzoche_has_to_wait(a)) a = wanzoche_sleep_in_order(me, until);
    wanzoche_is_answered(m);
    return a;
}

/* One that asks now, and doesn't wait. Under the lock. */
static inline void
wanzoche_come(struct wanzoche_sleeper *me, wanzoche_monitor *m, uint32_t worker,
              uint32_t operation, uint32_t priority, wanzoche_waiting *ahead) {
    me->monitor = m;
    me->condition = &m->conditions[m->turn++ % WANZOCHE_CONDITIONS];
    me->thread = pthread_self();
    me->arrived = wanzoche_now();
    me->opens = UINT64_MAX;
    me->ahead = ahead;
    me->worker = worker;
    me->operation = operation;
    me->priority = priority;
    me->woken = false;
}

/* Ask where others wait, and wait where it has to: until there is another
** answer, or the time is over. What was answered already, if anything. Under
** the lock. */
WANZOCHE_SELDOM wanzoche_answer
wanzoche_in_turn(wanzoche_monitor *m, uint32_t worker, uint32_t operation, int64_t milliseconds,
                 const struct timespec *until, uint32_t priority, wanzoche_waiting *ahead, wanzoche_answer a) {
    struct wanzoche_sleeper me;
    wanzoche_come(&me, m, worker, operation, priority, ahead);
    if (m->waiting > 0) a = wanzoche_ask(&me);
    return milliseconds != 0 && wanzoche_has_to_wait(a) ? wanzoche_wait(&me, until, a) : a;
}

/*
** Start an operation for a worker, and wait until it is admitted, but no
** longer than this many milliseconds from the call; without a limit if they
** are negative, not at all if they are 0. The priority says where the thread
** stands among those who wait; wanzoche_enter has 0.
**
** WANZOCHE_STARTED  the operation is in progress; the number is its activation
** WANZOCHE_BLOCKED  the time is over; the number is the path that forbids the
**                   start at last
** WANZOCHE_WITHHELD the time is over, and no path forbids the start; the number
**                   is the operation of the one for whom it is withheld, of whom
**                   `ahead` then tells more, unless it is null
** WANZOCHE_UNKNOWN_OPERATION
** WANZOCHE_CLOSED   the monitor is closed, or was closed while the thread waited
** WANZOCHE_OUT_OF_MEMORY  no memory for the text of the lines, or to wait
** WANZOCHE_NO_ROOM  more activations would be live than the room has places
**                   for, or 4,294,967,295 starts were admitted
*/
WANZOCHE_CHECKED
static inline wanzoche_answer
wanzoche_enter_with_priority(wanzoche_monitor *m, uint32_t worker,
                             uint32_t operation, int64_t milliseconds,
                             uint32_t priority, wanzoche_waiting *ahead) {
    wanzoche_answer a = {WANZOCHE_CLOSED, 0};
    struct timespec limit, *until = NULL;
    const pthread_t self = pthread_self();
    if (m == NULL || m->operations == 0) return a;
    if (milliseconds > 0) {
        limit = wanzoche_in(milliseconds);
        until = &limit;
    }
    pthread_mutex_lock(&m->lock);
    if (m->waiting == 0) a = wanzoche_start_in_room(m, worker, operation);
    if (m->waiting > 0 || (a.code == WANZOCHE_BLOCKED && milliseconds != 0))
        a = wanzoche_in_turn(m, worker, operation, milliseconds, until, priority, ahead, a);
    if (a.code == WANZOCHE_STARTED) wanzoche_hold(m, self, a.number, operation);
    wanzoche_unlock_and_wake(m);
    return a;
}

/*
** The same with priority 0, and without `ahead`.
*/
WANZOCHE_CHECKED
static inline wanzoche_answer wanzoche_enter(wanzoche_monitor *m, uint32_t worker,
                                             uint32_t operation,
                                             int64_t milliseconds) {
    return wanzoche_enter_with_priority(m, worker, operation, milliseconds, 0, NULL);
}

/* What wanzoche_can_enter answers. Under the lock. */
static inline wanzoche_answer wanzoche_judge_now(wanzoche_monitor *m, uint32_t operation,
                                                 uint32_t priority, wanzoche_waiting *ahead) {
    struct wanzoche_sleeper me;
    wanzoche_come(&me, m, 0, operation, priority, ahead);
    return wanzoche_judge(&me);
}

/*
** What wanzoche_enter_with_priority would be answered with a limit of 0, but for
** the room: WANZOCHE_CAN_START instead of WANZOCHE_STARTED. Nothing is started,
** and no line is written.
*/
WANZOCHE_CHECKED
static inline wanzoche_answer wanzoche_can_enter(wanzoche_monitor *m, uint32_t operation,
                                                 uint32_t priority, wanzoche_waiting *ahead) {
    wanzoche_answer a = {WANZOCHE_CLOSED, 0};
    if (m == NULL || m->operations == 0) return a;
    pthread_mutex_lock(&m->lock);
    a = wanzoche_judge_now(m, operation, priority, ahead);
    pthread_mutex_unlock(&m->lock);
    return a;
}

/*
** Finish an activation of the worker, as wanzoche_finish, and wake who comes
** next. Any thread may do that.
*/
static inline wanzoche_answer wanzoche_leave(wanzoche_monitor *m, uint32_t worker,
                                             uint64_t activation) {
    const wanzoche_answer closed = {WANZOCHE_CLOSED, 0};
    wanzoche_answer a;
    if (m == NULL || m->operations == 0) return closed;
    pthread_mutex_lock(&m->lock);
    a = wanzoche_finish(&m->system, worker, activation);
    if (a.code == WANZOCHE_FINISHED) wanzoche_let_go(m, activation);
    wanzoche_unlock_and_wake(m);
    return a;
}

/*
** Close a monitor: what is in progress is over, and threads that wait are
** released with WANZOCHE_CLOSED. When it returns, each of them has this answer.
** It is no cancellation point. One that is closed or null stays so. It may be
** opened again when all calls have returned.
*/
static inline void wanzoche_monitor_close(wanzoche_monitor *m) {
    struct wanzoche_sleeper *s;
    int cancelling;
    if (m == NULL || m->operations == 0) return;
    pthread_setcancelstate(PTHREAD_CANCEL_DISABLE, &cancelling);
    pthread_mutex_lock(&m->lock);
    wanzoche_close(&m->system);
    for (s = m->first; s != NULL; s = s->behind) wanzoche_wake(s);
    while (m->blocked > 0) pthread_cond_wait(&m->answered, &m->lock);
    free(m->list);
    if (m->holdings != m->few) free(m->holdings);
    wanzoche_forget(m);
    pthread_mutex_unlock(&m->lock);
    pthread_setcancelstate(cancelling, NULL);
}

/*
** How many milliseconds one waits before starts are withheld for it: 5 unless
** this is called. 0 keeps the order strictly, from the first moment on; if they
** are negative nothing is withheld ever, and anybody who may start goes past
** those who wait. It holds at once, also for those who wait. Does nothing to a
** monitor that isn't open.
*/
static inline void wanzoche_monitor_set_patience(wanzoche_monitor *m, int64_t milliseconds) {
    const int64_t most = INT64_C(1000000000000);
    if (m == NULL || m->operations == 0) return;
    pthread_mutex_lock(&m->lock);
    if (milliseconds < 0) m->patience = UINT64_MAX;
    else m->patience = (uint64_t)(milliseconds < most ? milliseconds : most) * 1000000;
    wanzoche_unlock_and_wake(m);
}

/*
** Write those who wait to a list, in their order, as far as they fit: as many as
** `capacity` says. Returns how many wait, also if fewer fit; 0 if the monitor
** isn't open. A null list has no place.
*/
static inline size_t wanzoche_monitor_waiting(wanzoche_monitor *m, wanzoche_waiting *list,
                                              size_t capacity) {
    const struct wanzoche_sleeper *s;
    size_t written = 0, waiting;
    uint64_t now;
    if (m == NULL || m->operations == 0) return 0;
    pthread_mutex_lock(&m->lock);
    now = wanzoche_now();
    for (s = m->first; list != NULL && s != NULL && written < capacity; s = s->behind)
        wanzoche_tell(&list[written++], s, now);
    waiting = m->waiting;
    pthread_mutex_unlock(&m->lock);
    return waiting;
}

/*
** Finish an entry: a cleanup handler, for pthread_cleanup_push.
*/
static inline void wanzoche_leave_entry(void *entry) {
    wanzoche_entry *e = (wanzoche_entry *)entry;
    (void)wanzoche_leave(e->monitor, e->worker, e->activation);
}

/*
** The number of the operation of this name; -1 if none is declared, and of a
** monitor that isn't open. Ask once, and keep it: wanzoche_enter takes it.
*/
WANZOCHE_CHECKED
static inline int64_t wanzoche_monitor_operation(wanzoche_monitor *m,
                                                 const char *name) {
    int64_t number;
    if (m == NULL || name == NULL || m->operations == 0) return -1;
    pthread_mutex_lock(&m->lock);
    number = wanzoche_operation(&m->system, name, strlen(name));
    pthread_mutex_unlock(&m->lock);
    return number;
}

/*
** Use the device of a live activation, as wanzoche_use. If the room is used
** up, the monitor rotates.
*/
WANZOCHE_CHECKED
static inline wanzoche_answer wanzoche_monitor_use(wanzoche_monitor *m,
                                                   uint32_t worker,
                                                   uint64_t activation,
                                                   uint32_t verb, uint64_t number) {
    const wanzoche_answer closed = {WANZOCHE_CLOSED, 0};
    wanzoche_answer a;
    if (m == NULL || m->operations == 0) return closed;
    pthread_mutex_lock(&m->lock);
    a = wanzoche_use(&m->system, worker, activation, verb, number);
    if (a.code == WANZOCHE_NO_ROOM && wanzoche_lines(&m->system) > 0) {
        a = wanzoche_give_lines(m);
        if (a.code == WANZOCHE_ROTATED)
            a = wanzoche_use(&m->system, worker, activation, verb, number);
    }
    pthread_mutex_unlock(&m->lock);
    return a;
}

/*
** The report and the journal, as wanzoche_report and wanzoche_journal. Without
** a journal the second answers WANZOCHE_NO_JOURNAL.
*/
WANZOCHE_CHECKED
static inline wanzoche_answer wanzoche_monitor_report(wanzoche_monitor *m,
                                                      char *buffer, size_t size) {
    const wanzoche_answer closed = {WANZOCHE_CLOSED, 0};
    wanzoche_answer a;
    if (m == NULL || m->operations == 0) return closed;
    pthread_mutex_lock(&m->lock);
    a = wanzoche_report(&m->system, buffer, size);
    pthread_mutex_unlock(&m->lock);
    return a;
}

WANZOCHE_CHECKED
static inline wanzoche_answer wanzoche_monitor_journal(wanzoche_monitor *m,
                                                       char *buffer, size_t size) {
    const wanzoche_answer closed = {WANZOCHE_CLOSED, 0};
    wanzoche_answer a;
    if (m == NULL || m->operations == 0) return closed;
    pthread_mutex_lock(&m->lock);
    a = wanzoche_journal(&m->system, buffer, size);
    pthread_mutex_unlock(&m->lock);
    return a;
}

/*
** Hand the lines to the log and rotate now, as at the end of a file.
**
** WANZOCHE_ROTATED, WANZOCHE_OUT_OF_MEMORY, WANZOCHE_CLOSED
** WANZOCHE_NO_JOURNAL  there is a log, but no journal
*/
WANZOCHE_CHECKED
static inline wanzoche_answer wanzoche_monitor_rotate(wanzoche_monitor *m) {
    const wanzoche_answer closed = {WANZOCHE_CLOSED, 0};
    wanzoche_answer a;
    if (m == NULL || m->operations == 0) return closed;
    pthread_mutex_lock(&m->lock);
    a = wanzoche_give_lines(m);
    pthread_mutex_unlock(&m->lock);
    return a;
}

#ifdef __cplusplus
}
#endif
#endif
