/* The store's calls, alone and beside other processes. Each test has a journal of its own. */
#include <pthread.h>

#include "store.h"

static wanzoche_store *mine;
static _Atomic uint32_t *words;

static void null_ones(void) {
    wanzoche_answer a;
    char text[8] = "x";
    a = wanzoche_store_open(NULL, file, BOOK, strlen(BOOK), NULL, 0, NULL, 0);
    CHECK(a.code == WANZOCHE_CLOSED);
    CHECK(wanzoche_store_enter(NULL, 0, 0).code == WANZOCHE_CLOSED && wanzoche_store_leave(NULL, 0, 0).code == WANZOCHE_CLOSED);
    CHECK(wanzoche_store_use(NULL, 0, WANZOCHE_PUT, 0, 0).code == WANZOCHE_CLOSED && wanzoche_store_use(NULL, 0, 9, 0, 0).code == WANZOCHE_NO_VERB);
    CHECK(wanzoche_store_can_start(NULL, 0, 0).code == WANZOCHE_CLOSED && wanzoche_store_report(NULL, NULL, 0, 0).code == WANZOCHE_CLOSED);
    CHECK(wanzoche_store_waiting(NULL, 0).code == WANZOCHE_CLOSED && wanzoche_store_recover(NULL, 1, true, 0).code == WANZOCHE_CLOSED);
    CHECK(wanzoche_store_rotate(NULL, 0).code == WANZOCHE_CLOSED && wanzoche_store_journal(NULL, NULL, 0, 0).code == WANZOCHE_CLOSED);
    CHECK(wanzoche_store_audit(NULL, 0).code == WANZOCHE_CLOSED && wanzoche_store_operation(NULL, "read", 4) == -1);
    CHECK(wanzoche_store_worker(NULL) == 0 && wanzoche_store_close(NULL, 0).code == WANZOCHE_CLOSED);
    wanzoche_store_message(NULL, text, sizeof text);
    CHECK(text[0] == 0);
}

static void a_book(void) {
    uint64_t one, two;
    begin_anew();
    mine = opened(NULL);
    CHECK(wanzoche_store_worker(mine) == 1);
    CHECK(wanzoche_store_operation(mine, "read", 4) == READ && wanzoche_store_operation(mine, "write", 5) == WRITE);
    CHECK(wanzoche_store_operation(mine, "writ", 4) == -1 && wanzoche_store_operation(mine, "writes", 6) == -1);
    one = entered(mine, READ);
    two = entered(mine, READ);
    CHECK(one == 0 && two == 1);
    CHECK(wanzoche_store_can_start(mine, WRITE, LONGEST).code == WANZOCHE_BLOCKED);
    CHECK(wanzoche_store_can_start(mine, READ, LONGEST).code == WANZOCHE_CAN_START);
    CHECK(wanzoche_store_enter(mine, WRITE, 0).code == WANZOCHE_BLOCKED && wanzoche_store_enter(mine, WRITE, 5).code == WANZOCHE_BLOCKED);
    CHECK(wanzoche_store_enter(mine, 2, 0).code == WANZOCHE_UNKNOWN_OPERATION);
    CHECK(wanzoche_store_waiting(mine, 2).code == WANZOCHE_UNKNOWN_OPERATION && wanzoche_store_waiting(mine, WRITE).number == 0);
    CHECK(wanzoche_store_leave(mine, 7, LONGEST).code == WANZOCHE_STALE);
    CHECK(left(mine, one) && wanzoche_store_leave(mine, one, LONGEST).code == WANZOCHE_STALE);
    CHECK(wanzoche_store_use(mine, one, WANZOCHE_LOOK, 0, LONGEST).code == WANZOCHE_STALE);
    CHECK(wanzoche_store_use(mine, two, WANZOCHE_PUT, 5, LONGEST).number == 0);
    CHECK(wanzoche_store_use(mine, two, WANZOCHE_LOOK, 0, LONGEST).number == 5);
    CHECK(wanzoche_store_use(mine, two, WANZOCHE_TAKE, 0, LONGEST).code == WANZOCHE_NOT_OFFERED);
    CHECK(strstr(report(mine), "blocked write 0\nlive 1 1 read\nfrozen no\nprocess 1 ") != NULL);
    CHECK(wanzoche_store_audit(mine, LONGEST).code == WANZOCHE_SOUND);
    CHECK(is_closed(mine)); /* which finishes what is in progress */
    mine = opened(NULL);
    CHECK(strstr(report(mine), "live") == NULL && wanzoche_store_worker(mine) == 2);
    CHECK(is_closed(mine));
}

static const char LINES[] = "1 start read: started 0\n1 use 0 put 7: used 0\n1 finish 0: finished\n"
                            "2 start write: started 1\n2 use 1 look: used 7\n2 finish 1: finished\n";

/* Whether a text stands in the journal's file. */
static bool has_text(const char *wanted) {
    static char text[1000];
    int f = open(file, O_RDONLY);
    ssize_t length = read(f, text, sizeof text - 1);
    close(f);
    text[length < 0 ? 0 : length] = 0;
    return strstr(text, wanted) != NULL;
}

static void lines_of_two(const wanzoche_store_options *options, bool rotates) {
    wanzoche_store *other;
    uint64_t number;
    char *text;
    begin_anew();
    mine = opened(options);
    number = entered(mine, READ);
    CHECK(wanzoche_store_use(mine, number, WANZOCHE_PUT, 7, LONGEST).code == WANZOCHE_USED && left(mine, number));
    CHECK(has_text(options == NULL ? "\n1 finish 0: finished\n" : "\n+1 finish 0: finished\n")); /* a mark says that a sync was owed */
    other = opened(options);
    if (rotates) CHECK(wanzoche_store_rotate(other, LONGEST).code == WANZOCHE_ROTATED && wanzoche_store_rotate(mine, LONGEST).code == WANZOCHE_ROTATED);
    number = entered(other, WRITE);
    CHECK(wanzoche_store_use(other, number, WANZOCHE_LOOK, 0, LONGEST).number == 7 && left(other, number));
    text = journal(mine);
    CHECK(strcmp(text, LINES) == 0);
    free(text);
    CHECK(access(beside(".1"), F_OK) == (rotates ? 0 : -1) && access(beside(".2"), F_OK) != 0);
    CHECK(wanzoche_store_audit(other, LONGEST).code == WANZOCHE_SOUND);
    CHECK(is_closed(other) && is_closed(mine));
}

/* A small room is used up again and again. */
static void small_room(void) {
    wanzoche_store_options small = {.no_sync = true, .room = 7};
    uint64_t held[3];
    begin_anew();
    mine = opened(&small);
    for (int k = 0; k < 20; k++) CHECK(left(mine, entered(mine, READ)));
    for (int k = 0; k < 3; k++) held[k] = entered(mine, READ);
    CHECK(wanzoche_store_enter(mine, READ, 0).code == WANZOCHE_STARTED || access(beside(".7"), F_OK) == 0);
    for (int k = 0; k < 3; k++) CHECK(left(mine, held[k]));
    CHECK(wanzoche_store_audit(mine, LONGEST).code == WANZOCHE_SOUND);
    CHECK(is_closed(mine));
    mine = opened(NULL);
    CHECK(entered(mine, WRITE) > held[2] && wanzoche_store_audit(mine, LONGEST).code == WANZOCHE_SOUND);
    CHECK(is_closed(mine));
}

/* Waiting, in many processes at once */

enum { READERS = 6 };

static void reads_once(void) {
    wanzoche_store *s = opened(&QUICK);
    uint64_t number = entered(s, READ);
    words[0]++;
    until(&words[0], READERS);
    CHECK(left(s, number) && is_closed(s));
}

/* All readers are called by one leave, each by the one before it. */
static void one_leave_for_all(void) {
    pid_t pids[READERS];
    uint64_t number;
    begin_anew();
    words = shared_words(1);
    mine = opened(&QUICK);
    number = entered(mine, WRITE);
    for (int k = 0; k < READERS; k++) pids[k] = child(reads_once);
    until_waiting(mine, READ, READERS);
    CHECK(words[0] == 0);
    CHECK(strstr(report(mine), "waiting read 6\n") != NULL);
    CHECK(left(mine, number));
    for (int k = 0; k < READERS; k++) CHECK(has_ended(pids[k]));
    CHECK(wanzoche_store_waiting(mine, READ).number == 0 && is_closed(mine));
}

static void *writes_for_long(void *given) {
    wanzoche_answer *a = given;
    *a = wanzoche_store_enter(mine, WRITE, -1);
    return NULL;
}

/* Who waits while the store is closed is told so, and nothing is left in progress. */
static void closed_while_one_waits(void) {
    wanzoche_store *other;
    wanzoche_answer a = {WANZOCHE_NOBODY, 0};
    pthread_t thread;
    uint64_t number;
    begin_anew();
    other = opened(&QUICK);
    number = entered(other, READ);
    mine = opened(&QUICK);
    if (pthread_create(&thread, NULL, writes_for_long, &a) != 0) exit(7);
    until_waiting(other, WRITE, 1);
    CHECK(is_closed(mine));
    pthread_join(thread, NULL);
    CHECK(a.code == WANZOCHE_CLOSED && wanzoche_store_waiting(other, WRITE).number == 0);
    CHECK(left(other, number) && is_closed(other));
}

/* Steps of one thread that another ends */

struct steps {
    wanzoche_store_record record;
    wanzoche_answer answer;
    uint32_t operation;
    _Atomic bool is_stopped;
    pthread_t thread;
};

static void *goes_by_steps(void *given) {
    struct steps *one = given;
    do {
        one->answer = wanzoche_store_begin(mine, one->operation, 0, WANZOCHE_NO_CALLER, WANZOCHE_WAIT, &one->record, 20);
        if (one->is_stopped) break;
        if (one->record.is_waiting) CHECK(wanzoche_store_wait(mine, &one->record, LONGEST).code == WANZOCHE_CALLED);
    } while (!one->is_stopped && (one->record.is_waiting || one->answer.code == WANZOCHE_LATE));
    if (one->record.is_waiting) CHECK(wanzoche_store_end(mine, &one->record, 0).code == WANZOCHE_STALE);
    return NULL;
}

static void begin_steps(struct steps *one, uint32_t operation) {
    memset(one, 0, sizeof *one);
    one->operation = operation;
    if (pthread_create(&one->thread, NULL, goes_by_steps, one) != 0) exit(7);
}

static void stop(struct steps *one) {
    one->is_stopped = true;
    wanzoche_store_wake(mine, &one->record);
}

static wanzoche_answer ended(struct steps *one) {
    pthread_join(one->thread, NULL);
    return one->answer;
}

static void stopped_as_it_waits(void) {
    struct steps one;
    uint64_t number;
    begin_anew();
    mine = opened(&QUICK);
    number = entered(mine, READ);
    begin_steps(&one, WRITE);
    until_waiting(mine, WRITE, 1);
    wanzoche_store_wake(mine, NULL);
    wanzoche_store_wake(NULL, &one.record);
    wanzoche_store_wake(mine, &one.record); /* it asks, and waits on */
    until_waiting(mine, WRITE, 1);
    stop(&one);
    CHECK(ended(&one).code == WANZOCHE_BLOCKED && wanzoche_store_waiting(mine, WRITE).number == 0);
    wanzoche_store_wake(mine, &one.record);
    CHECK(one.record.place == 0 && left(mine, number) && is_closed(mine));
}

/* Who is stopped passes its call on, also where that comes at the same time. */
static void stopped_when_called(void) {
    begin_anew();
    mine = opened(&QUICK);
    for (int k = 0; k < 300; k++) {
        struct steps first, second;
        uint64_t number = entered(mine, READ);
        begin_steps(&first, WRITE);
        until_waiting(mine, WRITE, 1);
        begin_steps(&second, WRITE);
        until_waiting(mine, WRITE, 2);
        CHECK(left(mine, number));
        stop(&first);
        if (ended(&first).code == WANZOCHE_STARTED) CHECK(left(mine, first.answer.number));
        CHECK(ended(&second).code == WANZOCHE_STARTED && left(mine, second.answer.number));
    }
    CHECK(is_closed(mine));
}

/* The word of the turn, in the file beside the journal: as if one had the turn who doesn't give it. */
static void hand_turn(uint32_t worker) {
    int f = open(beside(".shared"), O_WRONLY);
    CHECK(pwrite(f, &worker, sizeof worker, 64) == sizeof worker);
    close(f);
}

static bool sleeps_for_turn(void) {
    uint32_t word = 0;
    int f = open(beside(".shared"), O_RDONLY);
    CHECK(pread(f, &word, sizeof word, 64) == sizeof word);
    close(f);
    return word >> 30 != 0;
}

static void stopped_without_a_turn(void) {
    wanzoche_store *other;
    struct steps one;
    begin_anew();
    mine = opened(&QUICK);
    other = opened(&QUICK);
    hand_turn(wanzoche_store_worker(other));
    begin_steps(&one, READ);
    for (int k = 0; k < LONGEST && !sleeps_for_turn(); k++) usleep(1000);
    stop(&one);
    CHECK(ended(&one).code == WANZOCHE_LATE);
    hand_turn(0);
    CHECK(is_closed(other) && is_closed(mine));
}

/* Who is closed without a turn says so, and leaves what it had in progress to whoever has the next one, also if the dead keep theirs. */
static void closed_without_a_turn(void) {
    wanzoche_store *other;
    begin_anew();
    other = opened(&KEEP);
    mine = opened(&KEEP);
    entered(mine, WRITE);
    hand_turn(wanzoche_store_worker(other));
    CHECK(wanzoche_store_close(mine, 0).code == WANZOCHE_LATE);
    hand_turn(UINT32_C(1) << 31); /* what was left to it stays */
    CHECK(left(other, entered(other, READ)));
    CHECK(is_closed(other));
}

enum { THREADS = 8, EACH = 1500 };
static _Atomic uint32_t writers, readers, overlaps;

static void *works(void *given) {
    for (int k = 0; k < EACH; k++) {
        uint32_t operation = (uint32_t)((k + (int)(size_t)given) % 3 == 0);
        uint64_t number = entered(mine, operation);
        if (operation == WRITE) writers++;
        else readers++;
        if (writers > 1 || (writers == 1 && readers > 0)) overlaps++;
        if (operation == WRITE) writers--;
        else readers--;
        if (!left(mine, number)) overlaps++;
    }
    return NULL;
}

static void many_threads(void) {
    pthread_t threads[THREADS];
    begin_anew();
    mine = opened(&QUICK);
    for (size_t k = 0; k < THREADS; k++)
        if (pthread_create(&threads[k], NULL, works, (void *)k) != 0) exit(7);
    for (int k = 0; k < THREADS; k++) pthread_join(threads[k], NULL);
    CHECK(overlaps == 0 && wanzoche_store_audit(mine, LONGEST).code == WANZOCHE_SOUND);
    CHECK(strstr(report(mine), "live") == NULL && is_closed(mine));
}

/* Other declarations */

static void declarations(void) {
    wanzoche_store *s;
    wanzoche_store_options much = {.room = WANZOCHE_MOST_LINES + 1};
    begin_anew();
    CHECK(open_with(&s, "resource book cell", NULL).code == WANZOCHE_UNEXPECTED && s == NULL && strstr(why, "unexpected") != NULL);
    CHECK(open_with(&s, BOOK, &much).code == WANZOCHE_BAD_ROOM && access(file, F_OK) != 0);
    mine = opened(&QUICK);
    CHECK(open_with(&s, "resource book cell operation read, write path read , write end end", NULL).code == WANZOCHE_OTHER_DECLARATION);
    CHECK(strstr(why, "`{ read }, write end end`") != NULL && strstr(why, "`read, write end end`") != NULL && s == NULL);
    CHECK(open_with(&s, "resource book cell\noperation read,write path{read},write end end", NULL).code == WANZOCHE_OPENED);
    CHECK(is_closed(s) && is_closed(mine));
    CHECK(open_with(&s, "resource book cell operation read, writes path { read } , writes end end", NULL).code == WANZOCHE_OTHER_DECLARATION);
}

int main(void) {
    null_ones();
    a_book();
    lines_of_two(NULL, false);
    lines_of_two(NULL, true);
    lines_of_two(&QUICK, true);
    small_room();
    one_leave_for_all();
    closed_while_one_waits();
    stopped_as_it_waits();
    stopped_when_called();
    stopped_without_a_turn();
    closed_without_a_turn();
    many_threads();
    declarations();
    remove_all();
    printf("store_calls: %d failures\n", failures);
    return failures != 0;
}
