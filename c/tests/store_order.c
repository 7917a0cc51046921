/* Who comes next, over processes and threads. Built with slices that never end (SLICE), so that no look for the dead mends what was forgotten, and
** with doors that stay shut as long (SHUT), but for the tests of doors. */
#include <pthread.h>

#include "store.h"

static const wanzoche_store_options STRICT = {.no_sync = true, .is_strict = true}, ENDLESS = {.no_sync = true, .patience = -1};
static const char SEVERAL[] = "resource book cell operation read, write, other, more, long_read, hold"
                              " path { read , long_read } , write end path other end path { more } end path { read } , hold end end";
enum { OTHER = 2, MORE, LONG_READ, HOLD };

static wanzoche_store *mine;
static _Atomic uint32_t *words; /* 0: how many have come; from 8 on: who came, in order; at a process's own place: 1 if it may leave */
enum { CAME = 0, ORDER = 8, MAY_LEAVE = 40, PLACES = 80 };
static uint32_t next_place, next_operation, next_priority;
static const wanzoche_store_options *next_options = &STRICT;
static const char *next_text = BOOK;

static wanzoche_store *opened_strictly(void) {
    wanzoche_store *s;
    if (open_with(&s, next_text, next_options).code == WANZOCHE_OPENED) return s;
    printf("not opened: %s\n", why);
    exit(8);
}

static void comes_and_stays(void) {
    wanzoche_store *s = opened_strictly();
    wanzoche_answer a = wanzoche_store_enter_with_priority(s, next_operation, next_priority, LONGEST);
    CHECK(a.code == WANZOCHE_STARTED);
    words[ORDER + words[CAME]++] = next_place;
    until(&words[MAY_LEAVE + next_place], 1);
    CHECK(left(s, a.number) && is_closed(s));
}

/* A process that enters and stays, of this place: when this returns it is in, or waits. */
static pid_t comes(uint32_t place, uint32_t operation, uint32_t priority, bool has_to_wait) {
    uint32_t came = words[CAME];
    uint64_t waiting = wanzoche_store_waiting(mine, operation).number;
    pid_t pid;
    next_place = place;
    next_operation = operation;
    next_priority = priority;
    pid = child(comes_and_stays);
    if (has_to_wait) until_waiting(mine, operation, waiting + 1);
    else until(&words[CAME], came + 1);
    return pid;
}

static void leaves(uint32_t place) {
    words[MAY_LEAVE + place] = 1;
}

static void begin(const char *text, const wanzoche_store_options *options) {
    begin_anew();
    words = shared_words(PLACES);
    next_text = text;
    next_options = options;
    mine = opened_strictly();
}

static void end(void) {
    CHECK(strstr(report(mine), "live") == NULL && strstr(report(mine), "waiting") == NULL);
    CHECK(wanzoche_store_audit(mine, LONGEST).code == WANZOCHE_SOUND && is_closed(mine));
}

static void a_newcomer_is_withheld(void) {
    pid_t pids[3];
    char *before, *behind;
    wanzoche_answer a;
    begin(BOOK, &STRICT);
    pids[0] = comes(1, READ, 0, false);
    pids[1] = comes(2, WRITE, 0, true);
    before = journal(mine);
    for (int limit = 0; limit < 10; limit += 5) {
        a = wanzoche_store_enter(mine, READ, limit);
        CHECK(a.code == WANZOCHE_WITHHELD && a.number == WRITE);
        wanzoche_store_message(mine, why, sizeof why);
        CHECK(strncmp(why, "behind write of process 3, which has waited ", 44) == 0);
    }
    CHECK(wanzoche_store_can_start(mine, READ, LONGEST).code == WANZOCHE_CAN_START); /* no path forbids it */
    behind = journal(mine);
    CHECK(strcmp(before, behind) == 0);
    pids[2] = comes(3, READ, 0, true);
    leaves(1);
    until(&words[CAME], 2);
    CHECK(words[ORDER + 1] == 2);
    leaves(2);
    until(&words[CAME], 3);
    leaves(3);
    for (int k = 0; k < 3; k++) CHECK(has_ended(pids[k]));
    free(before);
    free(behind);
    end();
}

static void nobody_is_withheld_without_patience_for_it(void) {
    pid_t pids[2];
    begin(BOOK, &ENDLESS);
    pids[0] = comes(1, READ, 0, false);
    pids[1] = comes(2, WRITE, 0, true);
    CHECK(left(mine, entered(mine, READ)));
    leaves(1);
    leaves(2);
    for (int k = 0; k < 2; k++) CHECK(has_ended(pids[k]));
    end();
}

enum { MANY = 6 };

/* They come in the order in which they came, and who has a higher priority before. */
static void in_order(const uint32_t priorities[MANY], const uint32_t order[MANY]) {
    pid_t pids[MANY];
    uint64_t number;
    begin(BOOK, &STRICT);
    number = entered(mine, WRITE);
    for (uint32_t k = 0; k < MANY; k++) pids[k] = comes(k, WRITE, priorities[k], true);
    CHECK(left(mine, number));
    for (uint32_t k = 0; k < MANY; k++) {
        until(&words[CAME], k + 1);
        CHECK(words[ORDER + k] == order[k]);
        leaves(order[k]);
    }
    for (int k = 0; k < MANY; k++) CHECK(has_ended(pids[k]));
    end();
}

/* A waiter that is dead keeps nobody out. */
static void the_dead_shut_no_door(void) {
    pid_t reader, writers[2];
    begin(BOOK, &STRICT);
    reader = comes(1, READ, 0, false);
    for (int k = 0; k < 2; k++) writers[k] = comes(2, WRITE, 0, true);
    CHECK(wanzoche_store_enter(mine, READ, 0).code == WANZOCHE_WITHHELD);
    for (int k = 0; k < 2; k++) kill_child(writers[k]);
    CHECK(left(mine, entered(mine, READ)));
    leaves(1);
    CHECK(has_ended(reader));
    end();
}

/* One whose time is over lets others go on. */
static void *gives_up(void *given) {
    wanzoche_answer *a = given;
    *a = wanzoche_store_enter(mine, WRITE, 300);
    return NULL;
}

static void when_one_gives_up(void) {
    wanzoche_answer a = {WANZOCHE_NOBODY, 0};
    pthread_t thread;
    pid_t pids[2];
    begin(BOOK, &STRICT);
    pids[0] = comes(1, READ, 0, false);
    if (pthread_create(&thread, NULL, gives_up, &a) != 0) exit(7);
    until_waiting(mine, WRITE, 1);
    next_place = 2;
    next_operation = READ;
    next_priority = 0;
    pids[1] = child(comes_and_stays);
    until(&words[CAME], 2); /* however it went: when the writer has given up nobody keeps the reader out */
    pthread_join(thread, NULL);
    CHECK(a.code == WANZOCHE_BLOCKED);
    leaves(1);
    leaves(2);
    for (int k = 0; k < 2; k++) CHECK(has_ended(pids[k]));
    end();
}

enum { MOST_HELD = 5 };
static int next_held;

static void reads_and_waits(void) {
    wanzoche_store *s = opened_strictly();
    uint64_t numbers[MOST_HELD];
    for (int k = 0; k < next_held; k++) numbers[k] = entered(s, k == next_held - 1 ? READ : MORE);
    words[CAME]++;
    until(&words[MAY_LEAVE], 1);
    CHECK(left(s, entered(s, OTHER)));
    for (int k = 0; k < next_held; k++) CHECK(left(s, numbers[k]));
    CHECK(is_closed(s));
}

/* One that holds a read waits for what another has: so nobody knows when it ends, and the writer's way isn't clear. Also if it holds more than a
** slot has room for. */
static void when_a_holder_begins_to_wait(int held) {
    pid_t holder, writer, reader;
    uint64_t other;
    next_held = held;
    begin(SEVERAL, &STRICT);
    other = entered(mine, OTHER);
    holder = child(reads_and_waits);
    until(&words[CAME], 1);
    writer = comes(1, WRITE, 0, true);
    reader = comes(2, READ, 0, true);
    words[MAY_LEAVE] = 1;
    until(&words[CAME], 2);
    CHECK(words[ORDER + 1] == 2);
    CHECK(left(mine, other));
    leaves(2);
    leaves(1);
    CHECK(has_ended(holder) && has_ended(writer) && has_ended(reader));
    end();
}

static uint64_t entered_at_once(uint32_t operation) {
    wanzoche_answer a = wanzoche_store_enter(mine, operation, 0);
    CHECK(a.code == WANZOCHE_STARTED);
    return a.number;
}

/* What a thread has in progress isn't waited for where it asks itself: also when it has more than fits into a slot. */
static void a_read_within_reads(void) {
    enum { DEEP = 5 };
    uint64_t numbers[DEEP];
    pid_t writer;
    begin(BOOK, &STRICT);
    numbers[0] = entered(mine, READ);
    writer = comes(1, WRITE, 0, true);
    for (int k = 1; k < DEEP; k++) numbers[k] = entered_at_once(READ);
    for (int k = 0; k < DEEP; k++) CHECK(left(mine, numbers[k]));
    leaves(1);
    CHECK(has_ended(writer));
    end();
}

/* The order knows of thousands in progress by which thread they were begun. */
static void many_in_progress(void) {
    enum { READS = 3000 };
    static uint64_t numbers[READS];
    pid_t writer;
    begin(BOOK, &STRICT);
    for (int k = 0; k < READS; k++) numbers[k] = entered(mine, READ);
    writer = comes(1, WRITE, 0, true);
    for (int k = 0; k < READS; k += 2) {
        CHECK(left(mine, numbers[k]));
        if (k % 100 == 0) CHECK(left(mine, entered_at_once(READ)));
    }
    for (int k = 1; k < READS; k += 2) CHECK(left(mine, numbers[k]));
    leaves(1);
    CHECK(has_ended(writer));
    end();
}

/* A reader waits within its read for the end of another process that wants to read, too: its door opens. */
static void reads_once(void) {
    wanzoche_store *s = opened_strictly();
    CHECK(left(s, entered(s, READ)) && is_closed(s));
}

static void a_door_opens(void) {
    pid_t reader, writer, other;
    begin(BOOK, &STRICT);
    reader = comes(1, READ, 0, false);
    writer = comes(2, WRITE, 0, true);
    other = child(reads_once);
    CHECK(has_ended(other));
    leaves(1);
    leaves(2);
    CHECK(has_ended(reader) && has_ended(writer));
    end();
}

/* One whom a path forbade, and from whom its start is withheld now, learns when the door opens. */
static void a_door_opens_for_one_that_was_blocked(void) {
    pid_t pids[3];
    uint64_t hold;
    begin(SEVERAL, &STRICT);
    pids[0] = comes(1, LONG_READ, 0, false);
    hold = entered(mine, HOLD);
    pids[1] = comes(2, WRITE, 0, true);
    pids[2] = comes(3, READ, 0, true);
    CHECK(left(mine, hold));
    until(&words[CAME], 2);
    CHECK(words[ORDER + 1] == 3);
    for (uint32_t k = 1; k <= 3; k++) leaves(k);
    for (int k = 0; k < 3; k++) CHECK(has_ended(pids[k]));
    end();
}

/* A writer comes in, although readers come again and again: with the usual patience. */
static void *reads_again(void *given) {
    _Atomic uint32_t *is_over = given;
    while (*is_over == 0) {
        uint64_t number = entered(mine, READ);
        usleep(2000);
        CHECK(left(mine, number));
    }
    return NULL;
}

static void a_writer_among_readers(void) {
    enum { READERS = 6, WRITES = 20 };
    pthread_t threads[READERS];
    static _Atomic uint32_t is_over;
    begin(BOOK, &QUICK);
    is_over = 0;
    for (int k = 0; k < READERS; k++)
        if (pthread_create(&threads[k], NULL, reads_again, &is_over) != 0) exit(7);
    for (int k = 0; k < WRITES; k++) CHECK(left(mine, entered(mine, WRITE)));
    is_over = 1;
    for (int k = 0; k < READERS; k++) pthread_join(threads[k], NULL);
    end();
}

int main(int count, char **given) {
    static const uint32_t same[MANY] = {0}, as_they_came[MANY] = {0, 1, 2, 3, 4, 5};
    static const uint32_t mixed[MANY] = {0, 7, 1, 7, 0, 1}, by_priority[MANY] = {1, 3, 2, 5, 0, 4};
    if (count > 1 && strcmp(given[1], "doors") == 0) {
        a_door_opens();
        a_door_opens_for_one_that_was_blocked();
        a_writer_among_readers();
        remove_all();
        printf("store_order, doors: %d failures\n", failures);
        return failures != 0;
    }
    a_newcomer_is_withheld();
    nobody_is_withheld_without_patience_for_it();
    in_order(same, as_they_came);
    in_order(mixed, by_priority);
    the_dead_shut_no_door();
    when_one_gives_up();
    for (int held = 1; held <= MOST_HELD; held++) when_a_holder_begins_to_wait(held);
    a_read_within_reads();
    many_in_progress();
    remove_all();
    printf("store_order: %d failures\n", failures);
    return failures != 0;
}
