/* Who comes next in a monitor: whom those who wait go past, who is woken, what the order costs in memory. The clock is the test's own, so
** nothing depends on how long a step takes. */
#include <errno.h>
#include <pthread.h>
#include <sched.h>
#include <semaphore.h>
#include <stdlib.h>
#include <time.h>

#include "wanzoche.h"

/* The monitor's clock, its giving way, its sleep, its memory and what it asks the library for are these. */
static int yield_of_test(void);
static int clock_of_test(clockid_t clock, struct timespec *now);
static int sleep_of_test(pthread_cond_t *condition, pthread_mutex_t *lock, const struct timespec *until);
static void *realloc_of_test(void *at, size_t size);
static void *calloc_of_test(size_t count, size_t size);
static wanzoche_answer next_of_test(wanzoche *w, const wanzoche_waiter *waiting, size_t waiters, const uint32_t *running, size_t count);
#define clock_gettime clock_of_test
#define sched_yield yield_of_test
#define pthread_cond_timedwait sleep_of_test
#define realloc realloc_of_test
#define calloc calloc_of_test
#define wanzoche_next next_of_test
#define WANZOCHE_CONDITIONS 4
#include "wanzoche_monitor.h"
#undef clock_gettime
#undef sched_yield
#undef pthread_cond_timedwait
#undef realloc
#undef calloc
#undef wanzoche_next

#include <stdio.h>
#include <string.h>
#include <unistd.h>

static int failures;

#define CHECK(that)                                                        \
    do {                                                                   \
        if (!(that)) {                                                     \
            printf("%s:%d: not so: %s\n", __FILE__, __LINE__, #that);      \
            failures++;                                                    \
        }                                                                  \
    } while (0)

static const char SLOT[] = "resource slot cell operation deposit, remove path deposit ; remove end end";
static const char BUFFER[] = "resource buffer cell operation deposit, remove"
                             " path { deposit ; remove : 2 } end path deposit end path remove end end";
static const char BOOK[] = "resource book cell operation read, write, lock path { read } , write end path lock end end";
enum { DEPOSIT, REMOVE };
enum { READ, WRITE, LOCK };

#define MILLISECOND UINT64_C(1000000)

static wanzoche_monitor m;
static uint64_t nanoseconds = UINT64_C(5000000000);
static bool has_memory = true, says_next = true;

static uint64_t time_of_test(void) {
    return __atomic_load_n(&nanoseconds, __ATOMIC_SEQ_CST);
}

static void passes(uint64_t milliseconds) {
    __atomic_add_fetch(&nanoseconds, milliseconds * MILLISECOND, __ATOMIC_SEQ_CST);
}

static int clock_of_test(clockid_t clock, struct timespec *now) {
    (void)clock;
    *now = wanzoche_time(time_of_test());
    return 0;
}

/* How often threads gave way, and whether the next one that does is held there. */
static unsigned yields;
static bool holds_next, is_held;

static int yield_of_test(void) {
    __atomic_add_fetch(&yields, 1, __ATOMIC_SEQ_CST);
    if (__atomic_exchange_n(&holds_next, false, __ATOMIC_SEQ_CST))
        while (__atomic_load_n(&is_held, __ATOMIC_SEQ_CST)) usleep(200);
    return sched_yield();
}

/* How many have begun to sleep with a limit, and whether those that are woken get the lock only later. */
static unsigned sleeps;
static bool holds_back;

/* Sleeps until it is woken or the clock of the test has come to this time, but no longer than a millisecond: a sleep may end before. */
static int sleep_of_test(pthread_cond_t *condition, pthread_mutex_t *lock, const struct timespec *until) {
    const struct timespec now = wanzoche_time(time_of_test());
    struct timespec soon;
    __atomic_add_fetch(&sleeps, 1, __ATOMIC_SEQ_CST);
    if (!wanzoche_is_before(&now, until)) return ETIMEDOUT;
    clock_gettime(CLOCK_MONOTONIC, &soon);
    soon = wanzoche_time((uint64_t)soon.tv_sec * 1000000000 + (uint64_t)soon.tv_nsec + MILLISECOND);
    pthread_cond_timedwait(condition, lock, &soon);
    pthread_mutex_unlock(lock);
    while (__atomic_load_n(&holds_back, __ATOMIC_SEQ_CST)) usleep(200);
    pthread_mutex_lock(lock);
    return 0;
}

static void *realloc_of_test(void *at, size_t size) {
    return has_memory ? realloc(at, size) : NULL;
}

static void *calloc_of_test(size_t count, size_t size) {
    return has_memory ? calloc(count, size) : NULL;
}

static wanzoche_answer next_of_test(wanzoche *w, const wanzoche_waiter *waiting, size_t waiters, const uint32_t *running, size_t count) {
    const wanzoche_answer no_memory = {WANZOCHE_OUT_OF_MEMORY, 0};
    return says_next ? wanzoche_next(w, waiting, waiters, running, count) : no_memory;
}

/* A monitor of the text, with this patience in milliseconds. */
static void open_with(const char *text, int64_t patience) {
    CHECK(wanzoche_monitor_open(&m, text, strlen(text), 16384, NULL, 0).code == WANZOCHE_OPENED);
    wanzoche_monitor_set_patience(&m, patience);
}

static void close_it(void) {
    CHECK(wanzoche_live(&m.system) == 0 && wanzoche_monitor_waiting(&m, NULL, 0) == 0);
    wanzoche_monitor_close(&m);
}

/* A thread that enters, and leaves when it is told to. */
struct job {
    uint32_t worker, operation, priority;
    int64_t limit;
    wanzoche_waiting ahead;
    wanzoche_answer a;
    unsigned turn; /* which one it was that had its answer */
    sem_t answered, leaves;
    pthread_t thread;
};

static unsigned turns;

static void *works(void *at) {
    struct job *job = (struct job *)at;
    job->a = wanzoche_enter_with_priority(&m, job->worker, job->operation, job->limit, job->priority, &job->ahead);
    job->turn = __atomic_fetch_add(&turns, 1, __ATOMIC_SEQ_CST);
    sem_post(&job->answered);
    sem_wait(&job->leaves);
    if (job->a.code == WANZOCHE_STARTED) CHECK(wanzoche_leave(&m, job->worker, job->a.number).code == WANZOCHE_FINISHED);
    return NULL;
}

static void begins_with(struct job *job, uint32_t worker, uint32_t operation, int64_t limit, uint32_t priority) {
    memset(job, 0, sizeof *job);
    job->worker = worker;
    job->operation = operation;
    job->limit = limit;
    job->priority = priority;
    sem_init(&job->answered, 0, 0);
    sem_init(&job->leaves, 0, 0);
    pthread_create(&job->thread, NULL, works, job);
}

static void begins(struct job *job, uint32_t worker, uint32_t operation) {
    begins_with(job, worker, operation, -1, 0);
}

/* Begins, and waits behind so many others. */
static void waits_behind(struct job *job, uint32_t worker, uint32_t operation, size_t others) {
    begins(job, worker, operation);
    while (wanzoche_monitor_waiting(&m, NULL, 0) != others + 1) usleep(200);
}

static uint32_t answer_of(struct job *job) {
    sem_wait(&job->answered);
    return job->a.code;
}

static void ends(struct job *job) {
    sem_post(&job->leaves);
    pthread_join(job->thread, NULL);
    sem_destroy(&job->answered);
    sem_destroy(&job->leaves);
}

/* What another thread is answered that only tries, and leaves. */
static struct job tried;

static uint32_t tries_with(uint32_t operation, uint32_t priority) {
    begins_with(&tried, 99, operation, 0, priority);
    ends(&tried);
    return tried.a.code;
}

static uint32_t tries(uint32_t operation) {
    return tries_with(operation, 0);
}

/* While readers read and a writer waits, no reader comes in, unless nobody is ever to wait for the writer. */
static void a_reader_behind_a_writer(void) {
    struct job reader, writer;
    open_with(BOOK, 0);
    begins(&reader, 1, READ);
    CHECK(answer_of(&reader) == WANZOCHE_STARTED);
    waits_behind(&writer, 2, WRITE, 0);
    passes(7);
    CHECK(tries(READ) == WANZOCHE_WITHHELD && tried.a.number == WRITE);
    CHECK(tried.ahead.worker == 2 && tried.ahead.operation == WRITE && tried.ahead.priority == 0 && tried.ahead.milliseconds == 7);
    CHECK(tries(WRITE) == WANZOCHE_BLOCKED && tried.a.number == 0);
    CHECK(tries(LOCK) == WANZOCHE_STARTED);
    CHECK(wanzoche_can_enter(&m, READ, 0, NULL).code == WANZOCHE_WITHHELD);
    CHECK(wanzoche_can_enter(&m, READ, 1, NULL).code == WANZOCHE_CAN_START);
    CHECK(tries_with(READ, 1) == WANZOCHE_STARTED);
    wanzoche_monitor_set_patience(&m, -1);
    CHECK(tries(READ) == WANZOCHE_STARTED);
    ends(&reader);
    CHECK(answer_of(&writer) == WANZOCHE_STARTED);
    ends(&writer);
    close_it();
}

/* Readers go past a writer for as long as the patience says, and no longer. */
static void patience_ends(void) {
    struct job reader, writer;
    open_with(BOOK, 5);
    begins(&reader, 1, READ);
    CHECK(answer_of(&reader) == WANZOCHE_STARTED);
    waits_behind(&writer, 2, WRITE, 0);
    passes(4);
    CHECK(tries(READ) == WANZOCHE_STARTED);
    passes(1);
    CHECK(tries(READ) == WANZOCHE_WITHHELD);
    ends(&reader);
    ends(&writer);
    close_it();
}

/* Who asks first comes first, though it gave way for longer; and its age counts. Where the order is strict nobody gives way. */
static void who_asks_first(void) {
    struct job reader, first, second;
    wanzoche_waiting list[2];
    open_with(BOOK, 5);
    begins(&reader, 1, READ);
    CHECK(answer_of(&reader) == WANZOCHE_STARTED);
    is_held = holds_next = true;
    begins(&first, 2, WRITE);
    while (__atomic_load_n(&holds_next, __ATOMIC_SEQ_CST)) usleep(200);
    passes(1);
    waits_behind(&second, 3, WRITE, 0);
    __atomic_store_n(&is_held, false, __ATOMIC_SEQ_CST);
    while (wanzoche_monitor_waiting(&m, list, 2) != 2) usleep(200);
    CHECK(list[0].worker == 2 && list[0].milliseconds == 1 && list[1].worker == 3 && list[1].milliseconds == 0);
    passes(4);
    CHECK(tries(READ) == WANZOCHE_WITHHELD && tried.ahead.worker == 2);
    ends(&reader);
    ends(&first);
    ends(&second);
    close_it();
    open_with(BOOK, 0);
    yields = 0;
    begins(&reader, 1, READ);
    CHECK(answer_of(&reader) == WANZOCHE_STARTED);
    waits_behind(&first, 2, WRITE, 0);
    CHECK(__atomic_load_n(&yields, __ATOMIC_SEQ_CST) == 0);
    ends(&reader);
    ends(&first);
    close_it();
}

/* Who reads may read once more inside of that, though a writer waits: else both would wait for ever. */
static void a_reader_inside_of_a_reader(void) {
    struct job reader, writer;
    open_with(BOOK, 0);
    wanzoche_answer outer = wanzoche_enter(&m, 1, READ, -1), inner;
    begins(&reader, 2, READ);
    CHECK(outer.code == WANZOCHE_STARTED && answer_of(&reader) == WANZOCHE_STARTED);
    waits_behind(&writer, 3, WRITE, 0);
    CHECK(tries(READ) == WANZOCHE_WITHHELD);
    inner = wanzoche_enter(&m, 1, READ, 0);
    CHECK(inner.code == WANZOCHE_STARTED);
    CHECK(wanzoche_leave(&m, 1, inner.number).code == WANZOCHE_FINISHED);
    CHECK(wanzoche_leave(&m, 1, outer.number).code == WANZOCHE_FINISHED);
    ends(&reader);
    ends(&writer);
    close_it();
}

/* Lets go of the lock when the reader behind it is in. */
static struct job locker, behind;

static void *unlocks(void *unused) {
    CHECK(answer_of(&behind) == WANZOCHE_STARTED);
    ends(&locker);
    return unused;
}

/* A reader begins to wait for the lock. The writer can't come in before that, so the reader behind the writer is let in at once. */
static void a_holder_begins_to_wait(void) {
    struct job writer;
    pthread_t unlocker;
    open_with(BOOK, 0);
    wanzoche_answer reading = wanzoche_enter(&m, 1, READ, -1), locked;
    begins(&locker, 2, LOCK);
    CHECK(reading.code == WANZOCHE_STARTED && answer_of(&locker) == WANZOCHE_STARTED);
    waits_behind(&writer, 3, WRITE, 0);
    waits_behind(&behind, 4, READ, 1);
    pthread_create(&unlocker, NULL, unlocks, NULL);
    locked = wanzoche_enter(&m, 1, LOCK, -1);
    CHECK(locked.code == WANZOCHE_STARTED);
    pthread_join(unlocker, NULL);
    CHECK(tries(READ) == WANZOCHE_WITHHELD); /* who waited runs again */
    CHECK(wanzoche_leave(&m, 1, locked.number).code == WANZOCHE_FINISHED);
    CHECK(wanzoche_leave(&m, 1, reading.number).code == WANZOCHE_FINISHED);
    ends(&behind);
    ends(&writer);
    close_it();
}

/* The writer's time is over, and the reader behind it is let in. */
static void a_waiter_gives_up(void) {
    struct job reader, writer;
    open_with(BOOK, 0);
    begins(&reader, 1, READ);
    CHECK(answer_of(&reader) == WANZOCHE_STARTED);
    begins_with(&writer, 2, WRITE, 50, 0);
    while (wanzoche_monitor_waiting(&m, NULL, 0) != 1) usleep(200);
    waits_behind(&behind, 3, READ, 1);
    passes(50);
    CHECK(answer_of(&writer) == WANZOCHE_BLOCKED && writer.a.number == 0);
    CHECK(answer_of(&behind) == WANZOCHE_STARTED);
    ends(&behind);
    ends(&writer);
    ends(&reader);
    close_it();
}

/* The same for one that is cancelled. */
static void a_waiter_is_cancelled(void) {
    struct job reader, writer;
    open_with(BOOK, 0);
    begins(&reader, 1, READ);
    CHECK(answer_of(&reader) == WANZOCHE_STARTED);
    waits_behind(&writer, 2, WRITE, 0);
    waits_behind(&behind, 3, READ, 1);
    pthread_cancel(writer.thread);
    CHECK(answer_of(&behind) == WANZOCHE_STARTED);
    ends(&writer);
    ends(&behind);
    ends(&reader);
    close_it();
}

/* A limit ends though no path forbids the start: the answer says for whom it is withheld, and for how long that one has waited. */
static void a_limit_behind_a_writer(void) {
    struct job reader, writer, late;
    open_with(BOOK, 0);
    begins(&reader, 1, READ);
    CHECK(answer_of(&reader) == WANZOCHE_STARTED);
    waits_behind(&writer, 2, WRITE, 0);
    passes(10);
    begins_with(&late, 3, READ, 40, 0);
    while (wanzoche_monitor_waiting(&m, NULL, 0) != 2) usleep(200);
    passes(40);
    CHECK(answer_of(&late) == WANZOCHE_WITHHELD && late.a.number == WRITE);
    CHECK(late.ahead.worker == 2 && late.ahead.operation == WRITE && late.ahead.milliseconds == 50);
    ends(&late);
    ends(&reader);
    ends(&writer);
    close_it();
}

/* A reader joins a thread that wants to read, while a writer waits. That one comes in when the writer's door opens. */
static void a_door_opens(void) {
    struct job reader, writer;
    open_with(BOOK, 0);
    begins(&reader, 1, READ);
    CHECK(answer_of(&reader) == WANZOCHE_STARTED);
    waits_behind(&writer, 2, WRITE, 0);
    passes(100);
    waits_behind(&behind, 3, READ, 1);
    passes(99);
    CHECK(tries(READ) == WANZOCHE_WITHHELD);
    passes(1);
    CHECK(answer_of(&behind) == WANZOCHE_STARTED);
    passes(1);
    CHECK(tries(READ) == WANZOCHE_WITHHELD); /* it is shut again for those who come now */
    ends(&behind);
    ends(&reader);
    CHECK(answer_of(&writer) == WANZOCHE_STARTED);
    ends(&writer);
    close_it();
}

/* The same, where a path forbade the start at first, and it is withheld only behind that. */
static void a_door_opens_for_one_that_was_refused(void) {
    struct job first, reader, writer;
    open_with(BOOK, 0);
    begins(&first, 1, WRITE);
    CHECK(answer_of(&first) == WANZOCHE_STARTED);
    waits_behind(&reader, 2, READ, 0);
    waits_behind(&writer, 3, WRITE, 1);
    waits_behind(&behind, 4, READ, 2);
    ends(&first);
    CHECK(answer_of(&reader) == WANZOCHE_STARTED);
    passes(200);
    CHECK(answer_of(&behind) == WANZOCHE_STARTED);
    ends(&behind);
    ends(&reader);
    ends(&writer);
    close_it();
}

/* A patience that gets longer lets in those who were withheld. */
static void a_longer_patience(void) {
    struct job reader, writer;
    open_with(BOOK, 0);
    begins(&reader, 1, READ);
    CHECK(answer_of(&reader) == WANZOCHE_STARTED);
    waits_behind(&writer, 2, WRITE, 0);
    waits_behind(&behind, 3, READ, 1);
    wanzoche_monitor_set_patience(&m, 60000);
    CHECK(answer_of(&behind) == WANZOCHE_STARTED);
    ends(&behind);
    ends(&reader);
    ends(&writer);
    close_it();
}

/* Who is woken first asks in vain, since one before it counts meanwhile. So another is woken, whose operation came free with that one's. */
static void one_asks_in_vain(void) {
    enum { R, W, COPY, HOLD, LIST };
    struct job reader, writer, copier, lister;
    open_with("resource book cell operation r, w, copy, hold, list"
              " path { r , copy } , w end path copy , hold end path list , hold end end",
              5);
    begins(&reader, 1, R);
    CHECK(answer_of(&reader) == WANZOCHE_STARTED);
    wanzoche_answer a = wanzoche_enter(&m, 2, HOLD, 0);
    CHECK(a.code == WANZOCHE_STARTED);
    waits_behind(&writer, 3, W, 0);
    sleeps = 0;
    begins_with(&copier, 4, COPY, 10000, 0);
    while (__atomic_load_n(&sleeps, __ATOMIC_SEQ_CST) == 0) usleep(200);
    waits_behind(&lister, 5, LIST, 2);
    __atomic_store_n(&holds_back, true, __ATOMIC_SEQ_CST);
    CHECK(wanzoche_leave(&m, 2, a.number).code == WANZOCHE_FINISHED);
    passes(5);
    __atomic_store_n(&holds_back, false, __ATOMIC_SEQ_CST);
    CHECK(answer_of(&lister) == WANZOCHE_STARTED);
    CHECK(wanzoche_monitor_waiting(&m, NULL, 0) == 2);
    ends(&lister);
    ends(&reader);
    CHECK(answer_of(&writer) == WANZOCHE_STARTED);
    ends(&writer);
    CHECK(answer_of(&copier) == WANZOCHE_STARTED);
    ends(&copier);
    close_it();
}

/* A remover that waits first isn't waited for by those whom it waits for. */
static void a_slot(void) {
    struct job first, second;
    open_with(SLOT, 0);
    waits_behind(&first, 1, REMOVE, 0);
    waits_behind(&second, 2, REMOVE, 1);
    wanzoche_answer a = wanzoche_enter(&m, 3, DEPOSIT, -1);
    CHECK(a.code == WANZOCHE_STARTED && wanzoche_leave(&m, 3, a.number).code == WANZOCHE_FINISHED);
    CHECK(answer_of(&first) == WANZOCHE_STARTED);
    ends(&first);
    a = wanzoche_enter(&m, 3, DEPOSIT, -1);
    CHECK(a.code == WANZOCHE_STARTED && wanzoche_leave(&m, 3, a.number).code == WANZOCHE_FINISHED);
    CHECK(answer_of(&second) == WANZOCHE_STARTED);
    ends(&second);
    close_it();
}

/* A full buffer: who takes out goes past those who want to put in, and they come in in their order. */
static void a_buffer(void) {
    struct job first, second;
    open_with(BUFFER, 0);
    for (int n = 0; n < 2; n++) CHECK(tries(DEPOSIT) == WANZOCHE_STARTED);
    waits_behind(&first, 1, DEPOSIT, 0);
    waits_behind(&second, 2, DEPOSIT, 1);
    CHECK(tries(DEPOSIT) == WANZOCHE_BLOCKED && tries(REMOVE) == WANZOCHE_STARTED);
    CHECK(answer_of(&first) == WANZOCHE_STARTED);
    CHECK(tries(DEPOSIT) == WANZOCHE_BLOCKED && tries(REMOVE) == WANZOCHE_STARTED);
    ends(&first);
    CHECK(answer_of(&second) == WANZOCHE_STARTED);
    ends(&second);
    while (tries(REMOVE) == WANZOCHE_STARTED) continue;
    close_it();
}

/* Those who wait are let in by their priority, and then as they came. */
static void priorities(void) {
    enum { MANY = 5 };
    static const uint32_t priority[MANY] = {0, 2, 1, 2, 0}, comes[MANY] = {3, 0, 2, 1, 4};
    struct job first, jobs[MANY];
    wanzoche_waiting list[MANY + 1];
    open_with(BOOK, 0);
    begins(&first, 9, WRITE);
    CHECK(answer_of(&first) == WANZOCHE_STARTED);
    for (uint32_t n = 0; n < MANY; n++) {
        begins_with(&jobs[n], n, WRITE, -1, priority[n]);
        while (wanzoche_monitor_waiting(&m, NULL, 0) != n + 1) usleep(200);
        passes(1);
    }
    CHECK(wanzoche_monitor_waiting(&m, list, 2) == MANY && wanzoche_monitor_waiting(&m, list, MANY + 1) == MANY);
    for (uint32_t n = 0; n < MANY; n++) {
        const wanzoche_waiting *it = &list[comes[n]];
        CHECK(it->worker == n && it->operation == WRITE && it->priority == priority[n] && it->milliseconds == MANY - n);
    }
    turns = 0;
    for (int n = 0; n < MANY; n++) sem_post(&jobs[n].leaves);
    ends(&first);
    for (int n = 0; n < MANY; n++) {
        ends(&jobs[n]);
        CHECK(jobs[n].a.code == WANZOCHE_STARTED && jobs[n].turn == comes[n]);
    }
    close_it();
}

/* More wait than there are conditions, and the last of them come first: each is let in, and in order. */
static void many_wait(void) {
    enum { SHARE = 2, MANY = WANZOCHE_CONDITIONS + SHARE };
    static struct job jobs[MANY];
    struct job first;
    open_with(BOOK, 0);
    begins(&first, 999, WRITE);
    CHECK(answer_of(&first) == WANZOCHE_STARTED);
    for (uint32_t n = 0; n < MANY; n++) {
        begins_with(&jobs[n], n, WRITE, -1, n >= WANZOCHE_CONDITIONS);
        while (wanzoche_monitor_waiting(&m, NULL, 0) != n + 1) usleep(200);
    }
    turns = 0;
    for (int n = 0; n < MANY; n++) sem_post(&jobs[n].leaves);
    ends(&first);
    for (unsigned n = 0; n < MANY; n++) {
        ends(&jobs[n]);
        CHECK(jobs[n].a.code == WANZOCHE_STARTED && jobs[n].turn == (n + SHARE) % MANY);
    }
    close_it();
}

/* Each of many entries is known: if one weren't, the writer's way wouldn't be clear, and readers would go past it. */
static void many_entries(void) {
    enum { MANY = 5 * WANZOCHE_FEW };
    static uint64_t activations[MANY];
    struct job writer;
    open_with(BOOK, 0);
    for (int n = 0; n < MANY; n++) {
        wanzoche_answer a = wanzoche_enter(&m, 1, READ, -1);
        CHECK(a.code == WANZOCHE_STARTED);
        activations[n] = a.number;
        /* Others come and go, so that the numbers of those that stay lie apart. */
        for (int others = 0; others < n % 40; others++) wanzoche_leave(&m, 9, wanzoche_enter(&m, 9, LOCK, 0).number);
    }
    waits_behind(&writer, 2, WRITE, 0);
    CHECK(tries(READ) == WANZOCHE_WITHHELD);
    for (int n = 0; n < MANY; n++) {
        CHECK(wanzoche_leave(&m, 1, activations[(7 * n) % MANY]).code == WANZOCHE_FINISHED);
        if (n % 50 == 0) CHECK(tries(READ) == WANZOCHE_WITHHELD);
    }
    CHECK(answer_of(&writer) == WANZOCHE_STARTED);
    ends(&writer);
    for (size_t n = 0; n <= m.mask; n++) CHECK(m.holdings[n].held == 0);
    close_it();
}

/* Without memory nobody can begin to wait, and entries stay unknown; nothing else is lost. */
static void no_memory(void) {
    enum { MANY = 2 * WANZOCHE_FEW };
    struct job writer;
    wanzoche_answer a[MANY];
    open_with(BOOK, 0);
    has_memory = false;
    for (int n = 0; n < MANY; n++) {
        a[n] = wanzoche_enter(&m, 1, READ, -1);
        CHECK(a[n].code == WANZOCHE_STARTED);
    }
    CHECK(wanzoche_enter(&m, 2, WRITE, -1).code == WANZOCHE_OUT_OF_MEMORY);
    CHECK(wanzoche_enter(&m, 2, WRITE, 1000).code == WANZOCHE_OUT_OF_MEMORY);
    CHECK(wanzoche_monitor_waiting(&m, NULL, 0) == 0 && wanzoche_live(&m.system) == MANY);
    has_memory = true;
    waits_behind(&writer, 2, WRITE, 0);
    CHECK(tries(READ) == WANZOCHE_STARTED); /* the writer's way isn't clear, as far as is known */
    for (int n = 0; n < MANY; n++) CHECK(wanzoche_leave(&m, 1, a[n].number).code == WANZOCHE_FINISHED);
    CHECK(answer_of(&writer) == WANZOCHE_STARTED);
    ends(&writer);
    close_it();
}

/* If the library has no memory to say who comes next, those who wait come in all the same. */
static void no_memory_for_who_is_next(void) {
    struct job reader, writer;
    open_with(BOOK, 0);
    says_next = false;
    begins(&reader, 1, READ);
    CHECK(answer_of(&reader) == WANZOCHE_STARTED);
    waits_behind(&writer, 2, WRITE, 0);
    waits_behind(&behind, 3, READ, 1);
    ends(&reader);
    CHECK(answer_of(&writer) == WANZOCHE_STARTED);
    ends(&writer);
    CHECK(answer_of(&behind) == WANZOCHE_STARTED);
    ends(&behind);
    says_next = true;
    close_it();
}

/* Closing releases who is refused and who is withheld. */
static void closing(void) {
    struct job reader, writer;
    open_with(BOOK, 0);
    begins(&reader, 1, READ);
    CHECK(answer_of(&reader) == WANZOCHE_STARTED);
    waits_behind(&writer, 2, WRITE, 0);
    waits_behind(&behind, 3, READ, 1);
    wanzoche_monitor_close(&m);
    CHECK(answer_of(&writer) == WANZOCHE_CLOSED && answer_of(&behind) == WANZOCHE_CLOSED);
    CHECK(wanzoche_leave(&m, 1, reader.a.number).code == WANZOCHE_CLOSED);
    reader.a.code = WANZOCHE_CLOSED;
    ends(&reader);
    ends(&writer);
    ends(&behind);
    CHECK(wanzoche_can_enter(&m, READ, 0, NULL).code == WANZOCHE_CLOSED && wanzoche_can_enter(NULL, READ, 0, NULL).code == WANZOCHE_CLOSED);
    CHECK(wanzoche_enter_with_priority(NULL, 1, READ, 0, 1, NULL).code == WANZOCHE_CLOSED);
    CHECK(wanzoche_monitor_waiting(NULL, NULL, 0) == 0);
    wanzoche_monitor_set_patience(NULL, 0);
    open_with(BOOK, 0);
    CHECK(tries(WRITE) == WANZOCHE_STARTED);
    close_it();
}

/* What is withheld is no attempt: the journal has no line of it. */
static void the_journal(void) {
    struct job reader, writer;
    open_with(BOOK, 0);
    begins(&reader, 1, READ);
    CHECK(answer_of(&reader) == WANZOCHE_STARTED);
    waits_behind(&writer, 2, WRITE, 0);
    pthread_mutex_lock(&m.lock);
    const size_t lines = wanzoche_lines(&m.system);
    pthread_mutex_unlock(&m.lock);
    CHECK(tries(READ) == WANZOCHE_WITHHELD && wanzoche_lines(&m.system) == lines);
    CHECK(tries(WRITE) == WANZOCHE_BLOCKED && wanzoche_lines(&m.system) == lines + 1);
    ends(&reader);
    ends(&writer);
    close_it();
}

/* With an argument no thread is cancelled: the thread sanitizer doesn't follow one that is. If somebody is never woken it doesn't end. */
int main(int arguments, char **argument) {
    (void)argument;
    a_reader_behind_a_writer();
    patience_ends();
    who_asks_first();
    a_reader_inside_of_a_reader();
    a_holder_begins_to_wait();
    a_waiter_gives_up();
    if (arguments == 1) a_waiter_is_cancelled();
    a_limit_behind_a_writer();
    a_door_opens();
    a_door_opens_for_one_that_was_refused();
    a_longer_patience();
    one_asks_in_vain();
    a_slot();
    a_buffer();
    priorities();
    many_wait();
    many_entries();
    no_memory();
    no_memory_for_who_is_next();
    closing();
    the_journal();
    printf("order: %d failures\n", failures);
    return failures != 0;
}
