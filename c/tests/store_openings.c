/* An opening as other languages have it: its end beside calls that come still, its passes, its news, and its words. */
#include <pthread.h>

#include "records.h"

static wanzoche_store_record listener, *const listed[] = {&listener};

static void *listens_to_the_end(void *given) {
    wanzoche_answer *a = given;
    uint32_t heard = 0;
    do *a = wanzoche_store_listen(mine, listed, 1, &heard, -1);
    while (a->code == WANZOCHE_CALLED || a->code == WANZOCHE_INTERRUPTED);
    return NULL;
}

/* Whoever comes behind a stop is told so, and who waited by a record is in nobody's way. */
static void stopped(void) {
    wanzoche_store_record holds = {.caller = 5}, live = {.caller = 6};
    wanzoche_answer a = {WANZOCHE_NOBODY, 0};
    pthread_t thread;
    open_two(&STRICT);
    listener = (wanzoche_store_record){.caller = 1};
    CHECK(begun(other, READ, WANZOCHE_TRY, &holds).code == WANZOCHE_STARTED && begun(mine, READ, WANZOCHE_TRY, &live).code == WANZOCHE_STARTED);
    CHECK(begun(mine, WRITE, WANZOCHE_LISTEN, &listener).code == WANZOCHE_BLOCKED);
    CHECK(wanzoche_store_enter(other, READ, 0).code == WANZOCHE_WITHHELD);
    if (pthread_create(&thread, NULL, listens_to_the_end, &a) != 0) exit(7);
    usleep(1000);
    CHECK(wanzoche_store_presence(mine) > 2 && wanzoche_store_stamp(mine) != 0);
    CHECK(wanzoche_store_stop(mine, LONGEST).code == WANZOCHE_CLOSED && wanzoche_store_stop(mine, LONGEST).code == WANZOCHE_CLOSED);
    pthread_join(thread, NULL);
    CHECK(a.code == WANZOCHE_CLOSED && wanzoche_store_waiting(other, WRITE).number == 0);
    CHECK(wanzoche_store_end(mine, &live, 0).code == WANZOCHE_CLOSED && !live.is_live && wanzoche_store_stamp(mine) == 0);
    CHECK(begun(mine, READ, WANZOCHE_TRY, &live).code == WANZOCHE_CLOSED && wanzoche_store_presence(mine) == -1);
    CHECK(wanzoche_store_report(mine, NULL, 0, 0).code == WANZOCHE_CLOSED && wanzoche_store_worker(mine) == 1);
    CHECK(left(other, entered(other, READ)) && is_over(other, &holds) && left(other, entered(other, WRITE)));
    CHECK(is_closed(other));
    CHECK(wanzoche_store_close(mine, LONGEST).code == WANZOCHE_CLOSED); /* when its neighbour's memory is gone */
}

static _Atomic uint32_t enters;

static void *enters_and_leaves(void *given) {
    wanzoche_store_record r = {0};
    (void)given;
    for (;;) {
        wanzoche_answer a = wanzoche_store_begin(mine, READ, 0, 0, WANZOCHE_TRY, &r, 0);
        enters++;
        if (a.code == WANZOCHE_CLOSED) return NULL;
        if (a.code == WANZOCHE_STARTED) (void)!wanzoche_store_end(mine, &r, LONGEST).code;
    }
}

/* Calls come in all the time while it is stopped. */
static void stopped_under_load(void) {
    pthread_t threads[4];
    open_two(&QUICK);
    enters = 0;
    for (int k = 0; k < 4; k++)
        if (pthread_create(&threads[k], NULL, enters_and_leaves, NULL) != 0) exit(7);
    while (enters < 1000) usleep(100);
    CHECK(wanzoche_store_stop(mine, LONGEST).code == WANZOCHE_CLOSED);
    for (int k = 0; k < 4; k++) pthread_join(threads[k], NULL);
    CHECK(is_closed(mine));
    mine = opened(&QUICK);
    close_two();
}

/* Passes */

static void passes(void) {
    static const char STAGES[] = "resource r cell operation load, swap, wipe path load ; swap , wipe end end";
    wanzoche_store_record r = {0};
    wanzoche_answer a;
    char *text;
    begin_anew();
    if (open_with(&mine, STAGES, &QUICK).code != WANZOCHE_OPENED) exit(8);
    CHECK(wanzoche_store_pass(mine, 1, NULL, LONGEST).code == WANZOCHE_BLOCKED);
    CHECK(wanzoche_store_pass(mine, 9, NULL, LONGEST).code == WANZOCHE_UNKNOWN_OPERATION);
    CHECK(wanzoche_store_pass(mine, 1, &r, LONGEST).code == WANZOCHE_STALE);
    CHECK(begun(mine, 0, WANZOCHE_TRY, &r).code == WANZOCHE_STARTED);
    a = wanzoche_store_pass(mine, 1, &r, LONGEST);
    CHECK(a.code == WANZOCHE_STARTED && a.number == 1 && !r.is_live);
    CHECK(begun(mine, 0, WANZOCHE_TRY, &r).code == WANZOCHE_STARTED);
    CHECK(wanzoche_store_pass(mine, 0, &r, LONGEST).code == WANZOCHE_BLOCKED && !r.is_live); /* it ends in any case */
    text = journal(mine);
    CHECK(strcmp(text, "1 start load: started 0\n1 finish 0: finished\n1 start swap: started 1\n1 finish 1: finished\n"
                       "1 start load: started 2\n1 finish 2: finished\n") == 0);
    free(text);
    CHECK(is_closed(mine));
}

/* Another recovers what is live: who has it is told, and it is over. */
static void recovered(void) {
    wanzoche_store_record r = {0};
    open_two(&QUICK);
    CHECK(begun(mine, WRITE, WANZOCHE_TRY, &r).code == WANZOCHE_STARTED);
    CHECK(wanzoche_store_recover(other, 1, true, LONGEST).number == 1);
    CHECK(wanzoche_store_pass(mine, READ, &r, LONGEST).code == WANZOCHE_LOST && !r.is_live);
    CHECK(begun(mine, WRITE, WANZOCHE_TRY, &r).code == WANZOCHE_STARTED && wanzoche_store_recover(other, 1, true, LONGEST).number == 1);
    CHECK(wanzoche_store_end(mine, &r, LONGEST).code == WANZOCHE_LOST && !r.is_live);
    close_two();
}

static void dies_holding(void) {
    (void)entered(opened(&QUICK), WRITE);
}

/* What an opening does by itself is told once, and the oldest go when it is too much. */
static void news(void) {
    wanzoche_store_news n;
    wanzoche_store_record r = {0};
    open_two(&QUICK);
    CHECK(!wanzoche_store_next_news(mine, &n) && !wanzoche_store_next_news(NULL, &n));
    CHECK(has_ended(child(dies_holding)));
    CHECK(begun(mine, READ, WANZOCHE_TRY, &r).code == WANZOCHE_STARTED && is_over(mine, &r));
    CHECK(wanzoche_store_next_news(mine, &n) && n.kind == WANZOCHE_FINISHED_LOST && n.worker == 3 && n.operation == WRITE && n.number == 0);
    CHECK(!wanzoche_store_next_news(mine, &n) && !wanzoche_store_next_news(other, &n));
    for (int k = 1; k <= 70; k++) CHECK(left(mine, entered(mine, READ)) && wanzoche_store_rotate(mine, LONGEST).code == WANZOCHE_ROTATED);
    for (uint64_t k = 7; k <= 70; k++) CHECK(wanzoche_store_next_news(mine, &n) && n.kind == WANZOCHE_MOVED && n.number == k);
    CHECK(!wanzoche_store_next_news(mine, &n));
    close_two();
}

/* What one thread is told stays, whatever goes wrong for another. */
static void *fails_otherwise(void *given) {
    wanzoche_store_options much = {.room = WANZOCHE_MOST_LINES + 1};
    (void)given;
    begin_anew();
    CHECK(wanzoche_store_recover(mine, 2, false, LONGEST).code == WANZOCHE_ALIVE);
    CHECK(open_with(&other, BOOK, &much).code == WANZOCHE_BAD_ROOM);
    return NULL;
}

static void words_for_each_thread(void) {
    wanzoche_store_record holds = {.caller = 5}, waits = {0}, withheld = {0};
    wanzoche_store *kept;
    pthread_t thread;
    char words[WANZOCHE_STORE_MESSAGE];
    open_two(&STRICT);
    kept = other;
    CHECK(begun(mine, READ, WANZOCHE_TRY, &holds).code == WANZOCHE_STARTED && begun(mine, WRITE, WANZOCHE_WAIT, &waits).code == WANZOCHE_BLOCKED);
    CHECK(begun(kept, READ, WANZOCHE_TRY, &withheld).code == WANZOCHE_WITHHELD);
    if (pthread_create(&thread, NULL, fails_otherwise, NULL) != 0) exit(7);
    pthread_join(thread, NULL);
    wanzoche_store_message(kept, words, sizeof words);
    CHECK(strncmp(words, "behind write of process 1, which has waited ", 44) == 0);
    CHECK(is_over(mine, &holds) && wanzoche_store_end(mine, &waits, 0).code == WANZOCHE_STALE);
    CHECK(is_closed(kept) && is_closed(mine));
}

int main(void) {
    stopped();
    stopped_under_load();
    passes();
    recovered();
    words_for_each_thread();
    news();
    remove_all();
    printf("store_openings: %d failures\n", failures);
    return failures != 0;
}
