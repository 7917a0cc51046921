/* The monitor: time limits, cancelled threads, who is woken, the log. */
#include <pthread.h>
#include <sched.h>
#include <time.h>

/* The monitor's clock, its giving way, its tries for the lock and its sleep are these, so that a test can say how time passes. */
static int clock_of_test(clockid_t clock, struct timespec *now);
static int yield_of_test(void);
static int try_of_test(pthread_mutex_t *lock);
static int sleep_of_test(pthread_cond_t *condition, pthread_mutex_t *lock, const struct timespec *until);
#define clock_gettime clock_of_test
#define sched_yield yield_of_test
#define pthread_mutex_trylock try_of_test
#define pthread_cond_timedwait sleep_of_test
#include "wanzoche_monitor.h"
#undef clock_gettime
#undef sched_yield
#undef pthread_mutex_trylock
#undef pthread_cond_timedwait

#include <stdio.h>
#include <string.h>
#include <unistd.h>

static int failures;

#define CHECK(that)                                                        \
    do {                                                                   \
        if (!(that)) {                                                     \
            printf("%s:%d: not so: %s\n", __FILE__, __LINE__, #that);      \
            failures++;                                                    \
        }                                                                  \
    } while (0)

static const char SLOT[] = "resource slot cell operation deposit, remove path deposit ; remove end end";
static const char BOOK[] = "resource book cell operation read, write path { read } , write end end";
enum { DEPOSIT, REMOVE };
enum { READ, WRITE };

static wanzoche_monitor m;

static void open_with(const char *text, uint32_t room) {
    CHECK(wanzoche_monitor_open(&m, text, strlen(text), room, NULL, 0).code == WANZOCHE_OPENED);
}

/* How many threads wait, as they do once they can't go on. */
static void until_waiting(unsigned n) {
    for (;;) {
        pthread_mutex_lock(&m.lock);
        unsigned waiting = m.waiting;
        pthread_mutex_unlock(&m.lock);
        if (waiting == n) return;
        usleep(200);
    }
}

static void *removes(void *me) {
    wanzoche_answer a = wanzoche_enter(&m, (uint32_t)(size_t)me, REMOVE, -1);
    CHECK(a.code == WANZOCHE_STARTED);
    CHECK(wanzoche_leave(&m, (uint32_t)(size_t)me, a.number).code == WANZOCHE_FINISHED);
    return NULL;
}

static void deposit(void) {
    wanzoche_answer a = wanzoche_enter(&m, 1, DEPOSIT, 0);
    CHECK(a.code == WANZOCHE_STARTED);
    CHECK(wanzoche_leave(&m, 1, a.number).code == WANZOCHE_FINISHED);
}

/* While the clock stands still, only giving way takes time, five milliseconds, and the clock shows a time that is long over. */
static bool stands_still;
static struct timespec still;
static int yields;

static int clock_of_test(clockid_t clock, struct timespec *now) {
    *now = still;
    return stands_still ? 0 : clock_gettime(clock, now);
}

/* While the lock is taken whenever it is tried, something is deposited at the last time of giving way. */
static bool is_taken;
static int sleeps;

/* While this is so, the first thread that gives way does so until the monitor is closed. */
static bool gives_way_for_ever;

static int yield_of_test(void) {
    if (gives_way_for_ever) {
        __atomic_store_n(&yields, 1, __ATOMIC_RELEASE);
        for (bool open = true; open; sched_yield()) {
            pthread_mutex_lock(&m.lock);
            open = wanzoche_operations(&m.system) > 0;
            pthread_mutex_unlock(&m.lock);
        }
        gives_way_for_ever = false;
        return 0;
    }
    if (!stands_still && !is_taken) return sched_yield();
    still.tv_nsec += 5000000;
    yields++;
    if (is_taken && yields == WANZOCHE_YIELDS) deposit();
    return 0;
}

static int try_of_test(pthread_mutex_t *lock) {
    return is_taken ? EBUSY : pthread_mutex_trylock(lock);
}

static int sleep_of_test(pthread_cond_t *condition, pthread_mutex_t *lock, const struct timespec *until) {
    sleeps++;
    return pthread_cond_timedwait(condition, lock, until);
}

/* What comes free while the lock was never to be had is seen before the thread sleeps. */
static void a_last_look(void) {
    open_with(SLOT, 4096);
    is_taken = true;
    yields = 0;
    sleeps = 0;
    wanzoche_answer a = wanzoche_enter(&m, 2, REMOVE, 1000);
    is_taken = false;
    CHECK(a.code == WANZOCHE_STARTED && yields == WANZOCHE_YIELDS && sleeps == 0);
    CHECK(wanzoche_leave(&m, 2, a.number).code == WANZOCHE_FINISHED);
    wanzoche_monitor_close(&m);
}

/* A limit counts from the call: ten times of giving way are its fifty milliseconds. */
static void limits_count_from_the_call(void) {
    open_with(SLOT, 4096);
    stands_still = true;
    CHECK(wanzoche_enter(&m, 1, REMOVE, 50).code == WANZOCHE_BLOCKED && yields == 10);
    CHECK(wanzoche_enter(&m, 1, REMOVE, 0).code == WANZOCHE_BLOCKED && yields == 10);
    CHECK(wanzoche_enter(&m, 1, REMOVE, 10000).code == WANZOCHE_BLOCKED && yields == 10 + WANZOCHE_YIELDS);
    stands_still = false;
    wanzoche_monitor_close(&m);
}

static void time_limits(void) {
    open_with(SLOT, 4096);
    CHECK(wanzoche_enter(&m, 1, REMOVE, 0).code == WANZOCHE_BLOCKED);
    struct timespec before = wanzoche_in(0), after;
    CHECK(wanzoche_enter(&m, 1, REMOVE, 50).code == WANZOCHE_BLOCKED);
    after = wanzoche_in(0);
    CHECK((after.tv_sec - before.tv_sec) * 1000 + (after.tv_nsec - before.tv_nsec) / 1000000 >= 49);
    CHECK(m.waiting == 0);
    CHECK(wanzoche_enter(&m, 1, 9, -1).code == WANZOCHE_UNKNOWN_OPERATION);
    CHECK(wanzoche_leave(&m, 1, 0).code == WANZOCHE_STALE);
    pthread_t t;
    pthread_create(&t, NULL, removes, (void *)2);
    until_waiting(1);
    deposit();
    pthread_join(t, NULL);
    wanzoche_monitor_close(&m);
}

/* What a thread that waits for a removal is answered. */
static void *is_released(void *milliseconds) {
    CHECK(wanzoche_enter(&m, 2, REMOVE, (int64_t)(intptr_t)milliseconds).code == WANZOCHE_CLOSED);
    return NULL;
}

/* Who waits when the monitor is closed is released, with a limit and without, and who is inside finds it closed. */
static void closed_while_others_wait(void) {
    pthread_t t[6];
    open_with(SLOT, 4096);
    wanzoche_answer inside = wanzoche_enter(&m, 1, DEPOSIT, 0);
    for (size_t n = 0; n < 6; n++) pthread_create(&t[n], NULL, is_released, (void *)(n % 2 ? (intptr_t)-1 : (intptr_t)600000));
    until_waiting(6);
    wanzoche_monitor_close(&m);
    pthread_mutex_lock(&m.lock);
    CHECK(m.waiting == 0 && m.blocked == 0);
    pthread_mutex_unlock(&m.lock);
    for (size_t n = 0; n < 6; n++) pthread_join(t[n], NULL);
    CHECK(wanzoche_leave(&m, 1, inside.number).code == WANZOCHE_CLOSED);
    CHECK(wanzoche_enter(&m, 1, DEPOSIT, -1).code == WANZOCHE_CLOSED);
    wanzoche_monitor_close(&m);
    open_with(SLOT, 4096);
    deposit();
    wanzoche_monitor_close(&m);
}

/* One that is closed while a thread gives way, before it sleeps: it doesn't go to sleep. */
static void closed_while_one_gives_way(void) {
    pthread_t t;
    open_with(SLOT, 4096);
    yields = 0;
    gives_way_for_ever = true;
    pthread_create(&t, NULL, is_released, (void *)(intptr_t)-1);
    while (__atomic_load_n(&yields, __ATOMIC_ACQUIRE) == 0) sched_yield();
    wanzoche_monitor_close(&m);
    pthread_join(t, NULL);
    CHECK(m.blocked == 0);
}

static void *goes_in_and_out(void *me) {
    uint32_t worker = (uint32_t)(size_t)me;
    for (;;) {
        wanzoche_answer a = wanzoche_enter(&m, worker, worker % 2, worker % 3 ? -1 : 1);
        if (a.code == WANZOCHE_CLOSED) return NULL;
        CHECK(a.code == WANZOCHE_STARTED || a.code == WANZOCHE_BLOCKED || a.code == WANZOCHE_WITHHELD);
        if (a.code == WANZOCHE_STARTED && wanzoche_leave(&m, worker, a.number).code == WANZOCHE_CLOSED) return NULL;
    }
}

static void *closes(void *unused) {
    wanzoche_monitor_close(&m);
    return unused;
}

/* Two threads close a monitor in which six go in and out. */
static void closed_by_two_among_callers(void) {
    for (int n = 0; n < 30; n++) {
        pthread_t t[8];
        open_with(n % 2 ? SLOT : BOOK, 4096);
        for (size_t k = 0; k < 6; k++) pthread_create(&t[k], NULL, goes_in_and_out, (void *)k);
        for (int turns = 0; turns < n; turns++) sched_yield();
        for (size_t k = 6; k < 8; k++) pthread_create(&t[k], NULL, closes, NULL);
        for (size_t k = 0; k < 8; k++) pthread_join(t[k], NULL);
        CHECK(m.waiting == 0 && m.blocked == 0);
    }
}

/* A monitor that is closed or null answers so; one that can't be opened is closed. */
static void closed_ones(void) {
    char why[WANZOCHE_MESSAGE], text[8];
    wanzoche_monitor *monitors[] = {NULL, &m};
    open_with(SLOT, 4096);
    wanzoche_monitor_close(&m);
    for (int n = 0; n < 2; n++) {
        wanzoche_monitor_close(monitors[n]);
        CHECK(wanzoche_enter(monitors[n], 1, REMOVE, 0).code == WANZOCHE_CLOSED);
        CHECK(wanzoche_leave(monitors[n], 1, 0).code == WANZOCHE_CLOSED);
        CHECK(wanzoche_monitor_use(monitors[n], 1, 0, WANZOCHE_PUT, 1).code == WANZOCHE_CLOSED);
        CHECK(wanzoche_monitor_report(monitors[n], text, sizeof text).code == WANZOCHE_CLOSED);
        CHECK(wanzoche_monitor_journal(monitors[n], text, sizeof text).code == WANZOCHE_CLOSED);
        CHECK(wanzoche_monitor_rotate(monitors[n]).code == WANZOCHE_CLOSED);
        CHECK(wanzoche_monitor_operation(monitors[n], "deposit") == -1);
    }
    CHECK(wanzoche_monitor_open(NULL, SLOT, strlen(SLOT), 1, why, sizeof why).code == WANZOCHE_CLOSED);
    CHECK(wanzoche_monitor_open(&m, "resource", 8, 1, why, sizeof why).code == WANZOCHE_UNEXPECTED && !strcmp(why, "unexpected at 8"));
    CHECK(wanzoche_enter(&m, 1, REMOVE, 0).code == WANZOCHE_CLOSED);
}

/* A thread that is cancelled while it waits has started nothing, and the others go on; also if its turn has just come. */
static void cancelled_while_waiting(void) {
    open_with(SLOT, 1048576);
    for (int n = 0; n < 300; n++) {
        pthread_t first, second;
        void *end;
        pthread_create(&first, NULL, removes, (void *)2);
        until_waiting(1);
        pthread_create(&second, NULL, removes, (void *)3);
        until_waiting(2);
        if (n % 2) pthread_cancel(first);
        deposit();
        if (n % 2 == 0) pthread_cancel(first);
        pthread_join(first, &end);
        if (end != PTHREAD_CANCELED) {
            /* It had its turn, so the second needs another deposit. */
            wanzoche_answer a = wanzoche_enter(&m, 1, DEPOSIT, 0);
            if (a.code == WANZOCHE_STARTED) wanzoche_leave(&m, 1, a.number);
        }
        pthread_join(second, NULL);
        wanzoche_answer a = wanzoche_enter(&m, 4, REMOVE, 0);
        if (a.code == WANZOCHE_STARTED) wanzoche_leave(&m, 4, a.number);
        CHECK(m.waiting == 0 && wanzoche_live(&m.system) == 0);
    }
    wanzoche_monitor_close(&m);
}

static void *holds(void *me) {
    wanzoche_entry e = {&m, (uint32_t)(size_t)me, 0};
    e.activation = wanzoche_enter(&m, e.worker, WRITE, -1).number;
    pthread_cleanup_push(wanzoche_leave_entry, &e);
    pause();
    pthread_cleanup_pop(1);
    return NULL;
}

static void cancelled_inside(void) {
    open_with(BOOK, 4096);
    pthread_t t;
    pthread_create(&t, NULL, holds, (void *)2);
    for (uint32_t live = 0; live == 0; usleep(200)) {
        pthread_mutex_lock(&m.lock);
        live = wanzoche_live(&m.system);
        pthread_mutex_unlock(&m.lock);
    }
    CHECK(wanzoche_enter(&m, 1, WRITE, 0).code == WANZOCHE_BLOCKED);
    pthread_cancel(t);
    pthread_join(t, NULL);
    wanzoche_answer a = wanzoche_enter(&m, 1, WRITE, 1000);
    CHECK(a.code == WANZOCHE_STARTED);
    wanzoche_monitor_close(&m);
}

static int reading;
static pthread_barrier_t together;

static void *reads(void *me) {
    wanzoche_answer a = wanzoche_enter(&m, (uint32_t)(size_t)me, READ, -1);
    CHECK(a.code == WANZOCHE_STARTED);
    pthread_barrier_wait(&together); /* all read at once, or none gets further */
    __atomic_add_fetch(&reading, 1, __ATOMIC_RELAXED);
    wanzoche_leave(&m, (uint32_t)(size_t)me, a.number);
    return NULL;
}

/* One leave lets all readers in. */
static void readers_together(void) {
    open_with(BOOK, 4096);
    wanzoche_answer a = wanzoche_enter(&m, 1, WRITE, -1);
    pthread_t t[6];
    pthread_barrier_init(&together, NULL, 6);
    for (size_t n = 0; n < 6; n++) pthread_create(&t[n], NULL, reads, (void *)(n + 2));
    until_waiting(6);
    wanzoche_leave(&m, 1, a.number);
    for (size_t n = 0; n < 6; n++) pthread_join(t[n], NULL);
    CHECK(reading == 6);
    pthread_barrier_destroy(&together);
    wanzoche_monitor_close(&m);
}

static pthread_barrier_t all_in;

static void *waits_for(void *operation) {
    uint32_t mine = (uint32_t)(size_t)operation;
    wanzoche_answer a = wanzoche_enter(&m, mine + 2, mine, -1);
    CHECK(a.code == WANZOCHE_STARTED);
    pthread_barrier_wait(&all_in); /* none of them leaves before all are in */
    CHECK(wanzoche_leave(&m, mine + 2, a.number).code == WANZOCHE_FINISHED);
    return NULL;
}

/* One leave lets three operations in, for which a thread waits each, and no other leave comes. */
static void one_leave_for_three(void) {
    open_with("resource r cell operation x, a, b, c path x ; a end path x ; b end path x ; c end end", 4096);
    wanzoche_answer x = wanzoche_enter(&m, 1, 0, 0);
    pthread_t t[3];
    CHECK(x.code == WANZOCHE_STARTED);
    pthread_barrier_init(&all_in, NULL, 3);
    for (size_t n = 0; n < 3; n++) pthread_create(&t[n], NULL, waits_for, (void *)(n + 1));
    until_waiting(3);
    CHECK(wanzoche_leave(&m, 1, x.number).code == WANZOCHE_FINISHED);
    for (size_t n = 0; n < 3; n++) pthread_join(t[n], NULL);
    pthread_barrier_destroy(&all_in);
    wanzoche_monitor_close(&m);
}

static void *has_its_own(void *me) {
    wanzoche w = WANZOCHE_CLOSED_HANDLE;
    char text[4096];
    CHECK(wanzoche_open(&w, SLOT, strlen(SLOT), 64, NULL, 0).code == WANZOCHE_OPENED);
    for (int n = 0; n < 30; n++) {
        wanzoche_answer a = wanzoche_start(&w, (uint32_t)(size_t)me, n % 2);
        CHECK(a.code == WANZOCHE_STARTED && wanzoche_finish(&w, (uint32_t)(size_t)me, a.number).code == WANZOCHE_FINISHED);
    }
    wanzoche_answer a = wanzoche_journal(&w, text, sizeof text);
    CHECK(a.code == WANZOCHE_WRITTEN);
    CHECK(wanzoche_audit(SLOT, strlen(SLOT), 64, text, (size_t)a.number, NULL, 0).code == WANZOCHE_SOUND);
    wanzoche_close(&w);
    return NULL;
}

/* Threads with handles of their own need no order. */
static void handles_apart(void) {
    pthread_t t[4];
    for (size_t n = 0; n < 4; n++) pthread_create(&t[n], NULL, has_its_own, (void *)n);
    for (size_t n = 0; n < 4; n++) pthread_join(t[n], NULL);
}

static void is_cancelled_here(void *count, const char *text, size_t length) {
    (void)text;
    (void)length;
    pthread_cancel(pthread_self());
    pthread_testcancel();
    ++*(int *)count;
}

static void *enters_and_leaves(void *unused) {
    (void)unused;
    for (int n = 0; n < 3; n++) wanzoche_leave(&m, 1, wanzoche_enter(&m, 1, READ, -1).number);
    pthread_testcancel();
    return NULL;
}

/* A thread that is cancelled while the log has the lines is cancelled later: the monitor stays whole. */
static void cancelled_in_the_log(void) {
    int count = 0;
    void *end;
    open_with(BOOK, 4);
    m.log = is_cancelled_here;
    m.log_for = &count;
    pthread_t t;
    pthread_create(&t, NULL, enters_and_leaves, NULL);
    pthread_join(t, &end);
    CHECK(count == 1 && end == PTHREAD_CANCELED);
    CHECK(wanzoche_enter(&m, 1, WRITE, 1000).code == WANZOCHE_STARTED);
    wanzoche_monitor_close(&m);
}

static char lines[1 << 16];
static size_t filled;

static void keep(void *unused, const char *text, size_t length) {
    (void)unused;
    memcpy(lines + filled, text, length);
    filled += length;
}

/* Lines that were rotated by a small room are one sound journal. */
static void the_log(void) {
    open_with(SLOT, 5);
    m.log = keep;
    for (int n = 0; n < 200; n++) {
        wanzoche_answer a = wanzoche_enter(&m, 1, n % 2, -1);
        CHECK(a.code == WANZOCHE_STARTED);
        CHECK(wanzoche_monitor_use(&m, 1, a.number, n % 2 ? WANZOCHE_LOOK : WANZOCHE_PUT, 7).code == WANZOCHE_USED);
        CHECK(wanzoche_leave(&m, 1, a.number).code == WANZOCHE_FINISHED);
    }
    CHECK(wanzoche_monitor_rotate(&m).code == WANZOCHE_ROTATED);
    wanzoche_monitor_close(&m);
    CHECK(wanzoche_audit(SLOT, strlen(SLOT), 1000, lines, filled, NULL, 0).code == WANZOCHE_SOUND);
    open_with(SLOT, 1);
    CHECK(wanzoche_enter(&m, 1, DEPOSIT, -1).code == WANZOCHE_NO_ROOM);
    wanzoche_monitor_close(&m);
}

/* Without a journal nothing has to be rotated, and there are no lines to hand over. */
static void without_journal(void) {
    char text[64];
    CHECK(wanzoche_monitor_open_without_journal(&m, SLOT, strlen(SLOT), 2, NULL, 0).code == WANZOCHE_OPENED);
    for (int n = 0; n < 200; n++) {
        wanzoche_answer a = wanzoche_enter(&m, 1, n % 2, -1);
        CHECK(a.code == WANZOCHE_STARTED && a.number == (uint64_t)n);
        CHECK(wanzoche_monitor_use(&m, 1, a.number, n % 2 ? WANZOCHE_LOOK : WANZOCHE_PUT, 7).code == WANZOCHE_USED);
        CHECK(wanzoche_enter(&m, 2, n % 2, 0).code == WANZOCHE_NO_ROOM);
        CHECK(wanzoche_leave(&m, 1, a.number).code == WANZOCHE_FINISHED);
    }
    CHECK(wanzoche_monitor_operation(&m, "deposit") == 0 && wanzoche_monitor_operation(&m, "remove") == 1);
    CHECK(wanzoche_monitor_operation(&m, "remov") == -1 && wanzoche_monitor_operation(&m, NULL) == -1);
    CHECK(wanzoche_monitor_report(&m, text, sizeof text).code == WANZOCHE_WRITTEN);
    CHECK(!strcmp(text, "startable deposit\nblocked remove 0\nfrozen no\n"));
    CHECK(wanzoche_monitor_journal(&m, text, sizeof text).code == WANZOCHE_NO_JOURNAL);
    CHECK(wanzoche_monitor_rotate(&m).code == WANZOCHE_ROTATED);
    m.log = keep;
    CHECK(wanzoche_monitor_rotate(&m).code == WANZOCHE_NO_JOURNAL);
    wanzoche_monitor_close(&m);
    CHECK(wanzoche_monitor_open_without_journal(NULL, SLOT, strlen(SLOT), 2, NULL, 0).code == WANZOCHE_CLOSED);
    CHECK(wanzoche_monitor_open_without_journal(&m, "resource", 8, 2, NULL, 0).code == WANZOCHE_UNEXPECTED);
    CHECK(wanzoche_enter(&m, 1, DEPOSIT, 0).code == WANZOCHE_CLOSED);
}

/* With an argument no thread is cancelled: the thread sanitizer doesn't follow one that is. */
int main(int arguments, char **argument) {
    (void)argument;
    closed_ones();
    limits_count_from_the_call();
    a_last_look();
    time_limits();
    if (arguments == 1) {
        cancelled_while_waiting();
        cancelled_inside();
        cancelled_in_the_log();
    }
    closed_while_others_wait();
    closed_while_one_gives_way();
    closed_by_two_among_callers();
    readers_together();
    one_leave_for_three();
    handles_apart();
    the_log();
    without_journal();
    printf("monitor: %d failures\n", failures);
    return failures != 0;
}
