/*
** Who was called, and gives up since its time is over before it has its turn,
** passes the call on. Who listens and is called just before it sleeps, goes on. It
** is built with WANZOCHE_STORE_POINTS, and with a SLICE that
** never ends: nobody goes on but who is woken.
*/
#include "store.h"

static bool stops; /* at the end of its turn */
static wanzoche_store *mine, *leaver;
static uint64_t leaves; /* with the next sleep: what the other opening leaves just before */

int wanzoche_store_point(const char *call);
void wanzoche_store_torn(void);

int wanzoche_store_point(const char *call) {
    if (stops && strcmp(call, "give") == 0) {
        stops = false;
        kill(getpid(), SIGSTOP);
    }
    if (leaver != NULL && strcmp(call, "futex_wait") == 0) {
        wanzoche_store *s = leaver;
        leaver = NULL;
        CHECK(left(s, leaves));
    }
    return 0;
}

void wanzoche_store_torn(void) {}

static void writes_for_a_time(void) {
    mine = opened(&QUICK);
    CHECK(wanzoche_store_enter(mine, WRITE, 20000).code == WANZOCHE_BLOCKED); /* and ends without a close, which would wait for a turn */
}

static void writes(void) {
    mine = opened(&QUICK);
    CHECK(left(mine, entered(mine, WRITE)) && is_closed(mine));
}

static void stops_in_turn(void) {
    mine = opened(&QUICK);
    stops = true;
    CHECK(wanzoche_store_can_start(mine, WRITE, LONGEST).code == WANZOCHE_CAN_START); /* no close, in which others are called, too */
}

/* Who listens has looked, and is called before it sleeps. */
static void called_before_it_sleeps(void) {
    wanzoche_store_record r = {0}, *one[] = {&r};
    uint32_t heard = 0;
    wanzoche_store *s;
    begin_anew();
    mine = opened(&QUICK);
    s = opened(&QUICK);
    leaves = entered(s, WRITE);
    CHECK(wanzoche_store_begin(mine, READ, 0, 1, WANZOCHE_LISTEN, &r, LONGEST).code == WANZOCHE_BLOCKED);
    leaver = s;
    CHECK(wanzoche_store_listen(mine, (wanzoche_store_record *const *)one, 1, &heard, LONGEST).code == WANZOCHE_CALLED);
    CHECK(leaver == NULL && wanzoche_store_begin(mine, READ, 0, 1, WANZOCHE_LISTEN, &r, LONGEST).code == WANZOCHE_STARTED);
    CHECK(wanzoche_store_end(mine, &r, LONGEST).code == WANZOCHE_FINISHED && is_closed(mine) && is_closed(s));
}

int main(void) {
    pid_t one, other, holder;
    wanzoche_store *s;
    uint64_t reading;
    begin_anew();
    s = opened(&QUICK);
    reading = entered(s, READ);
    one = child(writes_for_a_time);
    until_waiting(s, WRITE, 1);
    other = child(writes);
    until_waiting(s, WRITE, 2);
    kill(one, SIGSTOP);
    until_stopped(one);
    CHECK(left(s, reading)); /* calls the first, which has waited longer */
    holder = child(stops_in_turn);
    until_stopped(holder);
    kill(one, SIGCONT); /* it has no turn until its time is over */
    CHECK(has_ended(one));
    kill(holder, SIGCONT);
    CHECK(has_ended(holder));
    CHECK(has_ended(other));
    CHECK(is_closed(s));
    called_before_it_sleeps();
    remove_all();
    printf("store_passed: %d failures\n", failures);
    return failures != 0;
}
