/* What a call costs: a start with its finish, and a bounded buffer under a monitor beside the same by hand, in turn. The least and the
** median of the rounds; their number may be given. */
#include "wanzoche_monitor.h"

#include <stdio.h>
#include <string.h>

#define PLACES 8
#define THREADS 4
#define EACH 50000
#define ROUNDS 101

static const char SLOT[] = "resource slot cell operation deposit, remove path deposit ; remove end end";
static const char BUFFER[] = "resource buffer cell operation deposit, remove"
                             " path { deposit ; remove : 8 } end path deposit end path remove end end";

static double now(void) {
    struct timespec t;
    clock_gettime(CLOCK_MONOTONIC, &t);
    return (double)t.tv_sec * 1e9 + (double)t.tv_nsec;
}

typedef wanzoche_answer (*opening)(wanzoche *, const char *, size_t, uint32_t, char *, size_t);

/* A start with its finish, the least of 2,000 rounds of as many as a journal of this room takes. */
static double pairs(opening opens, const char *text, uint32_t room) {
    wanzoche w = WANZOCHE_CLOSED_HANDLE;
    double best = 1e18;
    if (opens(&w, text, strlen(text), room, NULL, 0).code != WANZOCHE_OPENED) return -1;
    for (int r = 0; r < 2000; r++) {
        double began = now();
        uint32_t n = 0;
        for (; n < room / 2; n++) {
            wanzoche_answer a = wanzoche_start(&w, 1, n & 1);
            if (a.code != WANZOCHE_STARTED) break;
            wanzoche_finish(&w, 1, a.number);
        }
        double took = (now() - began) / n;
        if (took < best) best = took;
        wanzoche_rotate(&w);
    }
    wanzoche_close(&w);
    return best;
}

static wanzoche_monitor monitor;
static unsigned buffer[PLACES], first, after;

static void *by_paths(void *at) {
    uint32_t me = (uint32_t)(size_t)at, op = me % 2;
    for (unsigned n = 0; n < EACH; n++) {
        wanzoche_answer a = wanzoche_enter(&monitor, me, op, -1);
        if (op == 0) buffer[after++ % PLACES] = n;
        else buffer[first++ % PLACES] = 0;
        wanzoche_leave(&monitor, me, a.number);
    }
    return NULL;
}

static pthread_mutex_t lock = PTHREAD_MUTEX_INITIALIZER;
static pthread_cond_t not_full = PTHREAD_COND_INITIALIZER, not_empty = PTHREAD_COND_INITIALIZER;
static unsigned held;

/* By hand: the item is moved under the lock, so an operation takes it once and not twice. */
static void *by_hand(void *at) {
    size_t op = (size_t)at % 2;
    for (unsigned n = 0; n < EACH; n++) {
        pthread_mutex_lock(&lock);
        if (op == 0) {
            while (held == PLACES) pthread_cond_wait(&not_full, &lock);
            buffer[after++ % PLACES] = n;
            held++;
            pthread_cond_signal(&not_empty);
        } else {
            while (held == 0) pthread_cond_wait(&not_empty, &lock);
            buffer[first++ % PLACES] = 0;
            held--;
            pthread_cond_signal(&not_full);
        }
        pthread_mutex_unlock(&lock);
    }
    return NULL;
}

static double threads(void *(*work)(void *)) {
    pthread_t t[2 * THREADS];
    double began = now();
    for (size_t n = 0; n < 2 * THREADS; n++) pthread_create(&t[n], NULL, work, (void *)n);
    for (int n = 0; n < 2 * THREADS; n++) pthread_join(t[n], NULL);
    return (now() - began) / (2 * THREADS * EACH);
}

static int ascending(const void *a, const void *b) {
    double x = *(const double *)a, y = *(const double *)b;
    return (x > y) - (x < y);
}

static void tell(const char *what, double *hand, double *paths, int rounds) {
    double each[ROUNDS];
    for (int r = 0; r < rounds; r++) each[r] = paths[r] / hand[r];
    qsort(each, (size_t)rounds, sizeof *each, ascending);
    qsort(hand, (size_t)rounds, sizeof *hand, ascending);
    qsort(paths, (size_t)rounds, sizeof *paths, ascending);
    printf("%s: by hand %.0f ns at least, %.0f by the median; by the monitor %.0f and %.0f; ratio %.2f, %.2f, in turn %.2f\n", what,
           hand[0], hand[rounds / 2], paths[0], paths[rounds / 2], paths[0] / hand[0], paths[rounds / 2] / hand[rounds / 2], each[rounds / 2]);
}

int main(int arguments, char **argument) {
    int rounds = arguments > 1 ? atoi(argument[1]) : 21;
    double hand[ROUNDS], paths[ROUNDS];
    if (rounds < 1 || rounds > ROUNDS) return 2;
    printf("a start with its finish: %.1f ns in a room of 4,096, %.1f over two paths; %.1f in one of 65,536\n",
           pairs(wanzoche_open, SLOT, 4096), pairs(wanzoche_open, BUFFER, 4096), pairs(wanzoche_open, SLOT, 65536));
    printf("without a journal: %.1f ns, %.1f over two paths\n", pairs(wanzoche_open_without_journal, SLOT, 4096),
           pairs(wanzoche_open_without_journal, BUFFER, 4096));
    if (wanzoche_monitor_open(&monitor, BUFFER, strlen(BUFFER), 65536, NULL, 0).code != WANZOCHE_OPENED) return 1;
    for (int r = 0; r < rounds; r++) {
        hand[r] = threads(by_hand);
        paths[r] = threads(by_paths);
    }
    tell("an operation of a bounded buffer", hand, paths, rounds);
    wanzoche_monitor_close(&monitor);
    return 0;
}
