/*
** One of the processes that c/tests/store_together kills: it reads and writes at a store, and a witness that knows nothing of paths looks
** on. The workers in Rust, Go and Python do the same.
**
** store_worker FILE FOLDER         until FOLDER/end is there. A byte in FOLDER/entries is an entry
** store_worker FILE FOLDER blind   asks no store, so that the witness has something to see: ends with 3
** store_worker FILE FOLDER check   whether nothing is in progress, and the journal is sound
**
** Where the variable STORE_IS_SYNCED is set, answers wait for the disk.
**
** The witness is two locks by flock, shared to read and exclusive to write: on FOLDER/below, by a descriptor below those of the store, and
** on FOLDER/above, by one above them. A process that is killed gives one of them back before the store's, whichever way the kernel goes.
** So whoever gets neither has met one that lives.
*/
#include <pthread.h>
#include <stdint.h>
#include <sys/file.h>

#include "store.h"

enum { THREADS = 2, ABOVE = 200, VIOLATION = 3 };

static const wanzoche_store_options SYNCED = {.no_sync = false};
static wanzoche_store *mine;
static const char *place;
static int below[THREADS], entries;
static bool is_blind;

static const char *in_place(const char *name) {
    static _Thread_local char path[512];
    snprintf(path, sizeof path, "%s/%s", place, name);
    return path;
}

static int witness(const char *name) {
    int f = open(in_place(name), O_RDWR | O_CREAT | O_CLOEXEC, 0600);
    if (f < 0) exit(9);
    return f;
}

/* Locks both, or ends the process. */
static void look_on(int one, int other, int how) {
    bool has_one = flock(one, how | LOCK_NB) == 0, has_other = flock(other, how | LOCK_NB) == 0;
    if (!(has_one || has_other) || (is_blind && !(has_one && has_other))) {
        printf("store_worker: the witness saw an overlap\n");
        fflush(stdout);
        _exit(VIOLATION);
    }
    /* Of one that is about to be gone. */
    while (!has_one && flock(one, how) != 0) continue;
    while (!has_other && flock(other, how) != 0) continue;
}

static void fail(const char *what, wanzoche_answer a) {
    wanzoche_store_message(mine, why, sizeof why);
    printf("store_worker: %s answers %s: %s\n", what, wanzoche_words(a.code), why);
    fflush(stdout);
    _exit(4);
}

static bool goes_on(wanzoche_answer a) {
    return a.code == WANZOCHE_BLOCKED || a.code == WANZOCHE_WITHHELD || a.code == WANZOCHE_LATE;
}

static void *works(void *given) {
    int thread = (int)(intptr_t)given, above = ABOVE + thread;
    uint32_t seed = (uint32_t)getpid() * 7919u + (uint32_t)thread;
    while (access(in_place("end"), F_OK) != 0) {
        wanzoche_answer a = {WANZOCHE_STARTED, 0};
        uint32_t operation;
        seed = seed * 1664525u + 1013904223u;
        operation = (seed >> 12) % 3 == 0 ? WRITE : READ;
        if (!is_blind) a = wanzoche_store_enter(mine, operation, (seed >> 16) % 30);
        if (goes_on(a)) continue;
        if (a.code != WANZOCHE_STARTED) fail("an enter", a);
        look_on(below[thread], above, operation == WRITE ? LOCK_EX : LOCK_SH);
        if (write(entries, "c", 1) != 1 || flock(below[thread], LOCK_UN) != 0 || flock(above, LOCK_UN) != 0) exit(5);
        if (!is_blind) a = wanzoche_store_leave(mine, a.number, 0);
        if (!is_blind && a.code != WANZOCHE_FINISHED && a.code != WANZOCHE_OWED) fail("a leave", a);
    }
    return NULL;
}

static int check(void) {
    bool is_idle;
    mine = opened(&QUICK);
    is_idle = strstr(report(mine), "live") == NULL && strstr(report(mine), "waiting") == NULL;
    return is_idle && wanzoche_store_audit(mine, LONGEST).code == WANZOCHE_SOUND && is_closed(mine) ? 0 : 1;
}

int main(int arguments, char **argument) {
    pthread_t threads[THREADS];
    if (arguments < 3) return 2;
    snprintf(file, sizeof file, "%s", argument[1]);
    place = argument[2];
    if (arguments > 3 && strcmp(argument[3], "check") == 0) return check();
    is_blind = arguments > 3;
    for (int t = 0; t < THREADS; t++) below[t] = witness("below");
    entries = open(in_place("entries"), O_WRONLY | O_APPEND | O_CREAT | O_CLOEXEC, 0600);
    mine = is_blind ? NULL : opened(getenv("STORE_IS_SYNCED") == NULL ? &QUICK : &SYNCED);
    for (int t = 0; t < THREADS; t++) {
        int f = witness("above");
        if (dup2(f, ABOVE + t) < 0 || close(f) != 0) return 9;
    }
    for (int t = 0; t < THREADS; t++)
        if (pthread_create(&threads[t], NULL, works, (void *)(intptr_t)t) != 0) return 7;
    for (int t = 0; t < THREADS; t++) pthread_join(threads[t], NULL);
    return is_blind || is_closed(mine) ? 0 : 8;
}
