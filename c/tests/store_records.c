/* Records: an operation by steps, as other languages have it. Each test has a journal of its own. */
#include <pthread.h>

#include "records.h"

static void null_ones(void) {
    wanzoche_store_record r = {0};
    wanzoche_store_waiter w;
    uint32_t heard = 0;
    CHECK(wanzoche_store_begin(NULL, 0, 0, 0, 0, &r, 0).code == WANZOCHE_CLOSED && wanzoche_store_wait(NULL, &r, 0).code == WANZOCHE_CLOSED);
    CHECK(wanzoche_store_end(NULL, &r, 0).code == WANZOCHE_CLOSED && wanzoche_store_sync(NULL, &r).code == WANZOCHE_CLOSED);
    CHECK(wanzoche_store_listen(NULL, NULL, 0, &heard, 0).code == WANZOCHE_CLOSED && wanzoche_store_pass(NULL, 0, NULL, 0).code == WANZOCHE_CLOSED);
    CHECK(wanzoche_store_may_start(NULL, 0, 0, 0, &w, 0).code == WANZOCHE_CLOSED && wanzoche_store_list_waiting(NULL, &w, 1, 0).code == WANZOCHE_CLOSED);
    CHECK(wanzoche_store_stamp(NULL) == 0 && wanzoche_store_presence(NULL) == -1 && wanzoche_store_stop(NULL, 0).code == WANZOCHE_CLOSED);
    wanzoche_store_ring(NULL);
    begin_anew();
    mine = opened(&QUICK);
    CHECK(wanzoche_store_begin(mine, 0, 0, 0, 0, NULL, 0).code == WANZOCHE_STALE && wanzoche_store_wait(mine, NULL, 0).code == WANZOCHE_STALE);
    CHECK(wanzoche_store_end(mine, NULL, 0).code == WANZOCHE_STALE && wanzoche_store_sync(mine, NULL).code == WANZOCHE_SYNCED);
    CHECK(is_closed(mine));
}

static void a_life(void) {
    wanzoche_store_record r = {0}, blocked = {0};
    open_two(NULL);
    CHECK(begun(mine, 2, WANZOCHE_TRY, &r).code == WANZOCHE_UNKNOWN_OPERATION && !r.is_live);
    CHECK(begun(mine, WRITE, WANZOCHE_TRY, &r).code == WANZOCHE_STARTED && r.is_live && r.number == 0);
    CHECK(begun(mine, WRITE, WANZOCHE_TRY, &r).code == WANZOCHE_NOT_YOURS && r.is_live && r.number == 0);
    CHECK(wanzoche_store_wait(mine, &r, 0).code == WANZOCHE_STALE);
    CHECK(wanzoche_store_use(mine, r.number, WANZOCHE_PUT, 3, LONGEST).code == WANZOCHE_USED);
    CHECK(wanzoche_store_sync(mine, &r).code == WANZOCHE_SYNCED);
    CHECK(begun(other, READ, WANZOCHE_TRY, &blocked).code == WANZOCHE_BLOCKED && !blocked.is_live && !blocked.is_waiting);
    CHECK(blocked.answered == 0 && begun(other, WRITE, WANZOCHE_TRY, &blocked).code == WANZOCHE_BLOCKED && blocked.answered == 0);
    CHECK(is_over(mine, &r) && wanzoche_store_sync(mine, &r).code == WANZOCHE_SYNCED);
    CHECK(wanzoche_store_end(mine, &r, LONGEST).code == WANZOCHE_STALE);
    CHECK(begun(other, READ, WANZOCHE_TRY, &blocked).code == WANZOCHE_STARTED && blocked.number == 1 && is_over(other, &blocked));
    close_two();
}

/* The line of what is begun isn't on the disk, so the next has a mark; when it is synced, it has none. */
static void begun_before_it_is_synced(void) {
    wanzoche_store_record r = {0};
    char text[300] = "";
    FILE *lines;
    begin_anew();
    mine = opened(NULL);
    for (int k = 0; k < 2; k++) {
        CHECK(begun(mine, READ, WANZOCHE_TRY, &r).code == WANZOCHE_STARTED);
        if (k == 1) CHECK(wanzoche_store_sync(mine, &r).code == WANZOCHE_SYNCED);
        CHECK(is_over(mine, &r) && wanzoche_store_sync(mine, &r).code == WANZOCHE_SYNCED);
    }
    lines = fopen(file, "r");
    CHECK(lines != NULL && fread(text, 1, sizeof text - 1, lines) > 0);
    if (lines != NULL) fclose(lines);
    CHECK(strstr(text, "\n+1 start read: started 0\n+1 finish 0: finished\n1 start read: started 1\n1 finish 1: finished\n") != NULL);
    CHECK(is_closed(mine));
}

static void in_order(void) {
    wanzoche_store_record holds = {0}, one = {.caller = 7}, two = {.caller = 8}, urgent = {.caller = 9};
    wanzoche_store_waiter who[2];
    open_two(&STRICT);
    CHECK(begun(mine, READ, WANZOCHE_TRY, &holds).code == WANZOCHE_STARTED);
    CHECK(begun(mine, WRITE, WANZOCHE_WAIT, &one).code == WANZOCHE_BLOCKED && one.is_waiting);
    CHECK(begun(other, READ, WANZOCHE_WAIT, &two).code == WANZOCHE_WITHHELD && two.is_waiting);
    CHECK(two.behind.operation == WRITE && two.behind.worker == 1 && two.behind.caller == 7 && two.behind.process == (uint64_t)getpid());
    CHECK(wanzoche_store_begin(other, WRITE, 1, 9, WANZOCHE_WAIT, &urgent, LONGEST).code == WANZOCHE_BLOCKED);
    CHECK(wanzoche_store_list_waiting(mine, NULL, 0, LONGEST).number == 3 && wanzoche_store_list_waiting(mine, who, 2, LONGEST).number == 3);
    CHECK(who[0].caller == 9 && who[0].priority == 1 && who[0].worker == 2 && who[0].operation == WRITE && who[1].caller == 7);
    CHECK(wanzoche_store_may_start(mine, READ, 0, 5, who, LONGEST).code == WANZOCHE_WITHHELD && who[0].caller == 9);
    CHECK(wanzoche_store_may_start(mine, WRITE, 0, 5, who, LONGEST).code == WANZOCHE_BLOCKED);
    CHECK(wanzoche_store_may_start(mine, 2, 0, 5, who, LONGEST).code == WANZOCHE_UNKNOWN_OPERATION);
    CHECK(is_over(mine, &holds));
    CHECK(wanzoche_store_wait(other, &urgent, LONGEST).code == WANZOCHE_CALLED && begun(other, WRITE, WANZOCHE_WAIT, &urgent).code == WANZOCHE_STARTED);
    CHECK(is_over(other, &urgent));
    CHECK(wanzoche_store_wait(mine, &one, LONGEST).code == WANZOCHE_CALLED && begun(mine, WRITE, WANZOCHE_WAIT, &one).code == WANZOCHE_STARTED);
    CHECK(begun(other, READ, WANZOCHE_WAIT, &two).code == WANZOCHE_BLOCKED && is_over(mine, &one));
    CHECK(wanzoche_store_wait(other, &two, LONGEST).code == WANZOCHE_CALLED && begun(other, READ, WANZOCHE_TRY, &two).code == WANZOCHE_STARTED);
    CHECK(is_over(other, &two));
    close_two();
}

/* What a caller has in progress isn't waited for while it waits, whichever thread makes its calls. */
static void callers(void) {
    wanzoche_store_record holds = {.caller = 1}, nested = {.caller = 1}, waits = {.caller = 2}, newcomer = {.caller = 3}, rests = {.caller = 2};
    open_two(&STRICT);
    CHECK(begun(mine, READ, WANZOCHE_TRY, &holds).code == WANZOCHE_STARTED && begun(mine, WRITE, WANZOCHE_WAIT, &waits).code == WANZOCHE_BLOCKED);
    CHECK(begun(mine, READ, WANZOCHE_TRY, &newcomer).code == WANZOCHE_WITHHELD);
    CHECK(begun(mine, READ, WANZOCHE_TRY, &nested).code == WANZOCHE_STARTED); /* else it would wait for itself */
    CHECK(is_over(mine, &nested) && wanzoche_store_end(mine, &waits, LONGEST).code == WANZOCHE_STALE);
    CHECK(begun(mine, READ, WANZOCHE_TRY, &rests).code == WANZOCHE_STARTED && begun(mine, WRITE, WANZOCHE_WAIT, &waits).code == WANZOCHE_BLOCKED);
    CHECK(begun(mine, READ, WANZOCHE_TRY, &newcomer).code == WANZOCHE_STARTED && is_over(mine, &newcomer));
    CHECK(begun(other, READ, WANZOCHE_TRY, &newcomer).code == WANZOCHE_STARTED && is_over(other, &newcomer));
    CHECK(is_over(mine, &holds) && is_over(mine, &rests));
    CHECK(begun(mine, WRITE, WANZOCHE_WAIT, &waits).code == WANZOCHE_STARTED && is_over(mine, &waits));
    close_two();
}

/* What is begun for nobody is known of nobody: one that waits may wait for itself, until a door opens. */
static void no_caller(void) {
    wanzoche_store_record holds = {0}, waits = {.caller = 2}, nested = {0};
    open_two(&STRICT);
    holds.caller = nested.caller = WANZOCHE_NO_CALLER;
    CHECK(begun(mine, READ, WANZOCHE_TRY, &holds).code == WANZOCHE_STARTED && begun(mine, WRITE, WANZOCHE_WAIT, &waits).code == WANZOCHE_BLOCKED);
    CHECK(begun(mine, READ, WANZOCHE_WAIT, &nested).code == WANZOCHE_WITHHELD);
    do CHECK(wanzoche_store_wait(mine, &nested, LONGEST).code == WANZOCHE_CALLED);
    while (begun(mine, READ, WANZOCHE_WAIT, &nested).code == WANZOCHE_WITHHELD);
    CHECK(is_over(mine, &nested) && is_over(mine, &holds) && wanzoche_store_end(mine, &waits, LONGEST).code == WANZOCHE_STALE);
    close_two();
}

/* Signals */

static void ignores(int number) {
    (void)number;
}

static _Atomic uint32_t step;
static pthread_t waiting_thread;

static void *is_signalled(void *given) {
    wanzoche_store_record *r = given;
    wanzoche_answer a = {WANZOCHE_CALLED, 0};
    step = 1;
    while (a.code == WANZOCHE_CALLED) a = wanzoche_store_wait(mine, r, LONGEST); /* it is called to look for the dead, too */
    CHECK(a.code == WANZOCHE_INTERRUPTED && r->is_waiting);
    step = 2;
    return NULL;
}

static void a_signal_ends_a_wait(void) {
    wanzoche_store_record holds = {0}, r = {0}, late = {0};
    struct sigaction action = {.sa_handler = ignores, .sa_flags = SA_RESTART}; /* which is no reason to go on */
    open_two(&STRICT);
    sigaction(SIGUSR1, &action, NULL);
    CHECK(begun(other, WRITE, WANZOCHE_TRY, &holds).code == WANZOCHE_STARTED);
    CHECK(begun(mine, WRITE, WANZOCHE_WAIT, &r).code == WANZOCHE_BLOCKED);
    CHECK(wanzoche_store_begin(other, WRITE, 0, 0, WANZOCHE_WAIT, &late, LONGEST).code == WANZOCHE_BLOCKED);
    step = 0;
    if (pthread_create(&waiting_thread, NULL, is_signalled, &r) != 0) exit(7);
    for (int k = 0; k < LONGEST && step < 2; k++) {
        usleep(1000);
        if (step == 1) pthread_kill(waiting_thread, SIGUSR1);
    }
    pthread_join(waiting_thread, NULL);
    CHECK(wanzoche_store_wait(mine, &r, 0).code != WANZOCHE_STALE && is_over(other, &holds));
    CHECK(begun(other, WRITE, WANZOCHE_WAIT, &late).code == WANZOCHE_WITHHELD); /* it has kept its place before this one */
    CHECK(begun(mine, WRITE, WANZOCHE_WAIT, &r).code == WANZOCHE_STARTED && is_over(mine, &r));
    CHECK(begun(other, WRITE, WANZOCHE_WAIT, &late).code == WANZOCHE_STARTED && is_over(other, &late));
    close_two();
}

/* One that gives up when it was called passes the call on. */
static void a_call_is_passed_on(void) {
    wanzoche_store_record holds = {0}, one = {0}, two = {0};
    open_two(&STRICT);
    CHECK(begun(other, WRITE, WANZOCHE_TRY, &holds).code == WANZOCHE_STARTED);
    CHECK(begun(mine, WRITE, WANZOCHE_WAIT, &one).code == WANZOCHE_BLOCKED && begun(other, WRITE, WANZOCHE_WAIT, &two).code == WANZOCHE_BLOCKED);
    CHECK(is_over(other, &holds));
    CHECK(wanzoche_store_end(mine, &one, LONGEST).code == WANZOCHE_STALE && !one.is_waiting);
    CHECK(wanzoche_store_wait(other, &two, LONGEST).code == WANZOCHE_CALLED && begun(other, WRITE, WANZOCHE_WAIT, &two).code == WANZOCHE_STARTED);
    CHECK(is_over(other, &two));
    close_two();
}

/* Listening */

enum { TASKS = 40 };
static wanzoche_store_record tasks[TASKS], *listed[TASKS];
static _Atomic uint32_t came, rung;

/* Begins what may begin, of all tasks, and ends it. */
static void *listens(void *given) {
    uint32_t heard = 0;
    (void)given;
    while (came < TASKS) {
        wanzoche_answer a = wanzoche_store_listen(mine, (wanzoche_store_record *const *)listed, TASKS, &heard, LONGEST);
        if (a.code == WANZOCHE_INTERRUPTED) rung++;
        else if (a.code != WANZOCHE_CALLED) break;
        else if (begun(mine, WRITE, WANZOCHE_LISTEN, listed[a.number]).code == WANZOCHE_STARTED) {
            came++;
            CHECK(is_over(mine, listed[a.number]));
        }
    }
    return NULL;
}

static void one_listens_for_many(void) {
    wanzoche_store_record holds = {0};
    pthread_t thread;
    open_two(&STRICT);
    came = rung = 0;
    CHECK(begun(other, WRITE, WANZOCHE_TRY, &holds).code == WANZOCHE_STARTED);
    for (uint32_t k = 0; k < TASKS; k++) {
        tasks[k] = (wanzoche_store_record){.caller = k + 1};
        listed[k] = &tasks[k];
        CHECK(begun(mine, WRITE, WANZOCHE_LISTEN, &tasks[k]).code == WANZOCHE_BLOCKED);
    }
    if (pthread_create(&thread, NULL, listens, NULL) != 0) exit(7);
    for (uint32_t k = 1; k <= 3; k++) {
        wanzoche_store_ring(mine);
        until(&rung, k);
    }
    CHECK(came == 0 && is_over(other, &holds));
    pthread_join(thread, NULL);
    CHECK(came == TASKS);
    close_two();
}

/* Nobody is told of a record that doesn't wait. */
static void one_that_does_not_wait(void) {
    wanzoche_store_record over = {0}, *one[] = {&over};
    uint32_t heard = 0;
    open_two(&QUICK);
    CHECK(wanzoche_store_listen(mine, (wanzoche_store_record *const *)one, 1, &heard, 1).code == WANZOCHE_LATE);
    CHECK(begun(mine, READ, WANZOCHE_LISTEN, &over).code == WANZOCHE_STARTED);
    CHECK(wanzoche_store_listen(mine, (wanzoche_store_record *const *)one, 1, &heard, 1).code == WANZOCHE_LATE);
    CHECK(is_over(mine, &over));
    close_two();
}

int main(void) {
    null_ones();
    a_life();
    begun_before_it_is_synced();
    in_order();
    callers();
    no_caller();
    a_signal_ends_a_wait();
    a_call_is_passed_on();
    one_listens_for_many();
    one_that_does_not_wait();
    remove_all();
    printf("store_records: %d failures\n", failures);
    return failures != 0;
}
