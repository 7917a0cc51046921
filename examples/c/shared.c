/*
** Two programs that share paths over a file: services that query, at most three at
** once in all processes together, and a backup that runs alone.
**
** shared FILE query    queries now and then, until it gets SIGTERM
** shared FILE backup   makes one backup
*/
#include <wanzoche_store.h>

#include <signal.h>
#include <stdio.h>
#include <stdlib.h>
#include <string.h>
#include <time.h>

static const char POOL[] = "resource pool cell\n"
                           "operation query, backup\n"
                           "path { query : 3 } , backup end\n"
                           "end\n";
enum { QUERY, BACKUP };

static volatile sig_atomic_t ends;

static void end(int signal) {
    (void)signal;
    ends = 1;
}

static void work(long milliseconds) {
    struct timespec time = {milliseconds / 1000, milliseconds % 1000 * 1000000};
    nanosleep(&time, NULL);
}

static int fail(wanzoche_store *pool, const char *what, wanzoche_answer answer) {
    char why[WANZOCHE_STORE_MESSAGE];
    wanzoche_store_message(pool, why, sizeof why);
    fprintf(stderr, "shared: %s: %s %s\n", what, wanzoche_words(answer.code), why);
    wanzoche_store_close(pool, 1000);
    return 1;
}

/* The work goes beside others only as the paths allow. One that is late says so, and goes on. */
static int query(wanzoche_store *pool) {
    while (!ends) {
        wanzoche_answer a = wanzoche_store_enter(pool, QUERY, 500);
        if (a.code == WANZOCHE_BLOCKED || a.code == WANZOCHE_WITHHELD || a.code == WANZOCHE_LATE) continue;
        if (a.code != WANZOCHE_STARTED) return fail(pool, "query", a);
        work(5);
        a = wanzoche_store_leave(pool, a.number, -1);
        if (a.code != WANZOCHE_FINISHED) return fail(pool, "query", a);
        work(5);
    }
    return 0;
}

static int backup(wanzoche_store *pool) {
    wanzoche_answer a = wanzoche_store_enter(pool, BACKUP, 60000);
    if (a.code != WANZOCHE_STARTED) return fail(pool, "backup", a);
    puts("backup: nobody queries");
    work(20);
    a = wanzoche_store_leave(pool, a.number, -1);
    return a.code == WANZOCHE_FINISHED ? 0 : fail(pool, "backup", a);
}

int main(int arguments, char **argument) {
    static const wanzoche_store_options options = {.no_sync = true}; /* a pool of connections goes down with the machine */
    char why[WANZOCHE_STORE_MESSAGE];
    wanzoche_store *pool;
    int status;
    if (arguments != 3) return 2;
    signal(SIGTERM, end);
    signal(SIGXFSZ, SIG_IGN); /* a file that has reached its limit is an answer, and doesn't end the program */
    if (wanzoche_store_open(&pool, argument[1], POOL, strlen(POOL), &options, 5000, why, sizeof why).code != WANZOCHE_OPENED) {
        fprintf(stderr, "shared: %s\n", why);
        return 1;
    }
    status = strcmp(argument[2], "backup") == 0 ? backup(pool) : query(pool);
    if (status != 0) return status;
    return wanzoche_store_close(pool, 1000).code == WANZOCHE_CLOSED ? 0 : 1;
}
