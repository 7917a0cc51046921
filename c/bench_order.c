/* Who comes next, and how soon: eight threads over one operation, and a writer under readers that overlap, beside a mutex and conditions
** that prefer writers. An argument says for how many seconds each is looked at (5). */
#include "wanzoche_monitor.h"

#include <stdio.h>
#include <unistd.h>

#define THREADS 8
#define READERS 16
#define WAITS 100000

static const char ALONE[] = "resource r cell operation a path a end end";
static const char BOOK[] = "resource book cell operation read, write path { read } , write end end";
enum { READ, WRITE };

static wanzoche_monitor monitor;
static bool over;

static bool goes_on(void) {
    return !__atomic_load_n(&over, __ATOMIC_RELAXED);
}

static double milliseconds(void) {
    struct timespec t;
    clock_gettime(CLOCK_MONOTONIC, &t);
    return (double)t.tv_sec * 1e3 + (double)t.tv_nsec / 1e6;
}

static unsigned entries[THREADS];

/* One of eight threads: half a millisecond inside, and none outside. */
static void *is_alone(void *at) {
    unsigned me = (unsigned)(size_t)at;
    while (goes_on()) {
        wanzoche_answer a = wanzoche_enter(&monitor, me, 0, -1);
        if (a.code != WANZOCHE_STARTED) break;
        usleep(500);
        entries[me]++;
        wanzoche_leave(&monitor, me, a.number);
    }
    return NULL;
}

/* A lock for readers and writers by hand: who writes waits for no reader that came later. */
static pthread_mutex_t lock = PTHREAD_MUTEX_INITIALIZER;
static pthread_cond_t may_read = PTHREAD_COND_INITIALIZER, may_write = PTHREAD_COND_INITIALIZER;
static unsigned reading, writing, to_write;

static uint64_t enters_by_hand(uint32_t me, uint32_t operation) {
    (void)me;
    pthread_mutex_lock(&lock);
    if (operation == READ) {
        while (writing + to_write > 0) pthread_cond_wait(&may_read, &lock);
        reading++;
    } else {
        to_write++;
        while (reading + writing > 0) pthread_cond_wait(&may_write, &lock);
        to_write--;
        writing++;
    }
    pthread_mutex_unlock(&lock);
    return operation;
}

static void leaves_by_hand(uint32_t me, uint64_t operation) {
    (void)me;
    pthread_mutex_lock(&lock);
    if (operation == READ) reading--;
    else writing--;
    if (to_write > 0) pthread_cond_signal(&may_write);
    else pthread_cond_broadcast(&may_read);
    pthread_mutex_unlock(&lock);
}

static uint64_t enters_by_paths(uint32_t me, uint32_t operation) {
    wanzoche_answer a = wanzoche_enter(&monitor, me, operation, -1);
    if (a.code != WANZOCHE_STARTED) exit(1);
    return a.number;
}

static void leaves_by_paths(uint32_t me, uint64_t activation) {
    wanzoche_leave(&monitor, me, activation);
}

static uint64_t (*enters)(uint32_t, uint32_t);
static void (*leaves)(uint32_t, uint64_t);
static unsigned reads;

/* A reader: about a millisecond inside, so that readers don't fall into step, and half a one outside. */
static void *reader(void *at) {
    uint32_t me = (uint32_t)(size_t)at, random = me + 1;
    while (goes_on()) {
        uint64_t entry = enters(me, READ);
        random = random * 1664525 + 1013904223;
        usleep(500 + (random >> 22));
        leaves(me, entry);
        __atomic_add_fetch(&reads, 1, __ATOMIC_RELAXED);
        usleep(500);
    }
    return NULL;
}

static double waited[WAITS];
static unsigned writes;

/* The writer: a millisecond inside, and ten outside. */
static void *writer(void *unused) {
    (void)unused;
    while (goes_on() && writes < WAITS) {
        double began = milliseconds();
        uint64_t entry = enters(READERS, WRITE);
        waited[writes++] = milliseconds() - began;
        usleep(1000);
        leaves(READERS, entry);
        usleep(10000);
    }
    return NULL;
}

static int ascending(const void *a, const void *b) {
    double x = *(const double *)a, y = *(const double *)b;
    return (x > y) - (x < y);
}

static void opens(const char *text, int64_t patience) {
    if (wanzoche_monitor_open_without_journal(&monitor, text, strlen(text), 4096, NULL, 0).code != WANZOCHE_OPENED) exit(1);
    wanzoche_monitor_set_patience(&monitor, patience);
}

static void eight(unsigned seconds, int64_t patience) {
    pthread_t t[THREADS];
    unsigned least = ~0u, most = 0;
    opens(ALONE, patience);
    over = false;
    for (size_t n = 0; n < THREADS; n++) {
        entries[n] = 0;
        pthread_create(&t[n], NULL, is_alone, (void *)n);
    }
    sleep(seconds);
    __atomic_store_n(&over, true, __ATOMIC_RELAXED);
    for (int n = 0; n < THREADS; n++) {
        pthread_join(t[n], NULL);
        if (entries[n] < least) least = entries[n];
        if (entries[n] > most) most = entries[n];
    }
    printf("eight threads, patience %2lld ms: %u entries at least, %u at most\n", (long long)patience, least, most);
    wanzoche_monitor_close(&monitor);
}

static void under_readers(const char *what, unsigned seconds, size_t readers) {
    pthread_t t[READERS + 1];
    over = false;
    reads = writes = 0;
    pthread_create(&t[READERS], NULL, writer, NULL);
    for (size_t n = 0; n < readers; n++) pthread_create(&t[n], NULL, reader, (void *)n);
    sleep(seconds);
    __atomic_store_n(&over, true, __ATOMIC_RELAXED);
    for (size_t n = 0; n < readers; n++) pthread_join(t[n], NULL);
    pthread_join(t[READERS], NULL);
    qsort(waited, writes, sizeof *waited, ascending);
    printf("%2zu readers, %s: %4u writes, %6u reads; the writer waits %.1f ms by the median, %.1f at most\n", readers, what, writes, reads,
           waited[writes / 2], waited[writes - 1]);
}

static void by_paths(const char *what, unsigned seconds, size_t readers, int64_t patience) {
    opens(BOOK, patience);
    enters = enters_by_paths;
    leaves = leaves_by_paths;
    under_readers(what, seconds, readers);
    wanzoche_monitor_close(&monitor);
}

int main(int arguments, char **argument) {
    int seconds = arguments > 1 ? atoi(argument[1]) : 5;
    if (seconds < 1) return 2;
    eight((unsigned)seconds, 5);
    eight((unsigned)seconds, 0);
    eight((unsigned)seconds, -1);
    for (size_t readers = 4; readers <= READERS; readers *= 2) {
        enters = enters_by_hand;
        leaves = leaves_by_hand;
        under_readers("by hand        ", (unsigned)seconds, readers);
        by_paths("patience   5 ms", (unsigned)seconds, readers, 5);
        by_paths("patience   0 ms", (unsigned)seconds, readers, 0);
        by_paths("without any end", (unsigned)seconds, readers, -1);
    }
    return 0;
}
