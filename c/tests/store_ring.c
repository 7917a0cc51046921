/*
** The ring by which processes follow each other (c/store/ring.c), attacked: too far behind, stopped while it copies, killed between a line and
** its record, and with records that say something else than was answered.
**
** It is built with the parts of the store, with WANZOCHE_STORE_POINTS, a ring of a few ATTEMPTS, and a LOOK that doesn't end: so an opening that
** has its place in the ring makes no call of the system but to write its lines.
*/
#include <stdatomic.h>

#include "../store/page.h"
#include "records.h"

static struct page *page; /* as the openings have it */
static struct attempt *ring;

/* Calls */

enum { LIMIT = 3000 }; /* milliseconds */

static const char *counted = ""; /* the call that is counted, and at which of them this process is ended or stopped */
static uint32_t calls, last;
static int last_signal;
static uint32_t pauses_at; /* at which of them it pauses for longer than LIMIT */
static pid_t stopped;      /* a process that goes on when this one sleeps for a turn the third time */
static bool tears; /* half a line is written, and neither the rest can be, nor can it be taken back */

int wanzoche_store_point(const char *call);
void wanzoche_store_torn(void);

int wanzoche_store_point(const char *call) {
    static uint32_t sleeps;
    if (strcmp(call, counted) == 0 && ++calls == last) kill(getpid(), last_signal);
    if (strcmp(call, counted) == 0 && calls == pauses_at) usleep((LIMIT + 100) * 1000);
    if (stopped > 0 && strcmp(call, "futex_wait") == 0 && ++sleeps == 3) kill(stopped, SIGCONT);
    if (!tears) return 0;
    if (strcmp(call, "write") == 0) return calls++ == 0 ? -1 : ENOSPC;
    return strcmp(call, "ftruncate") == 0 ? EIO : 0;
}

void wanzoche_store_torn(void) {}

static void count(const char *call) {
    counted = call;
    calls = 0;
}

/* How often this is called by what is done. */
static uint32_t count_in(const char *call, void (*does)(void)) {
    count(call);
    does();
    counted = "";
    return calls;
}

/* Openings */

static void map_shared(void) {
    int f = open(beside(".shared"), O_RDWR | O_CLOEXEC);
    if (page != NULL) munmap(page, SHARED_SIZE);
    page = f < 0 ? MAP_FAILED : mmap(NULL, SHARED_SIZE, PROT_READ | PROT_WRITE, MAP_SHARED, f, 0);
    if (page == MAP_FAILED || close(f) != 0) exit(9);
    ring = (struct attempt *)(void *)(page + 1);
}

static struct attempt *newest(void) {
    return &ring[(page->attempts - 1) % ATTEMPTS];
}

static void enter_and_leave(wanzoche_store *s, uint32_t operation, uint64_t often) {
    for (uint64_t k = 0; k < often; k++) CHECK(left(s, entered(s, operation)));
}

/* Two openings, which have their places in the ring. */
static void open_two_in_ring(const wanzoche_store_options *options) {
    open_two(options);
    map_shared();
    enter_and_leave(mine, READ, 1);
    enter_and_leave(other, READ, 1);
    enter_and_leave(mine, READ, 1);
}

/* Each knows what is in progress as the other does. */
static void check_same(void) {
    char *one = strdup(report(mine));
    if (strcmp(one, report(other)) != 0) printf("one says\n%sthe other\n%s", one, report(other));
    CHECK(strlen(one) > 0 && strcmp(one, report(other)) == 0);
    free(one);
}

/* Following */

static void take_turns(void) {
    for (int k = 0; k < 1000; k++) {
        uint64_t number = entered(mine, READ);
        CHECK(wanzoche_store_enter(other, WRITE, 0).code == WANZOCHE_BLOCKED);
        CHECK(left(other, entered(other, READ)) && left(mine, number));
    }
}

/* Nobody reads the file, or looks at it, and each line is written by one call. */
static void follows_without_the_file(void) {
    open_two_in_ring(&QUICK);
    CHECK(count_in("pread", take_turns) == 0 && count_in("fstat", take_turns) == 0);
    CHECK(count_in("write", take_turns) == 4000);
    check_same();
    close_two();
}

static void ask_other(void) {
    CHECK(wanzoche_store_enter(other, WRITE, 0).code == WANZOCHE_BLOCKED);
}

/* Behind so many records it reads the file only if they aren't all there any more: one that may be in writing counts as if it were. */
static void is_behind(uint64_t records, bool has_to_read) {
    uint64_t starts = 2 - records % 2, number[2] = {0, 0};
    open_two_in_ring(&QUICK);
    enter_and_leave(other, READ, 1);
    enter_and_leave(mine, READ, (records - starts) / 2);
    for (uint64_t k = 0; k < starts; k++) number[k] = entered(mine, READ);
    CHECK((count_in("pread", ask_other) > 0) == has_to_read);
    check_same();
    enter_and_leave(mine, READ, 1);
    CHECK(count_in("pread", ask_other) == 0);
    for (uint64_t k = 0; k < starts; k++) CHECK(left(other, number[k]) == false && left(mine, number[k]));
    close_two();
}

static void overrun(void) {
    is_behind(1, false);
    is_behind(ATTEMPTS - 1, false);
    is_behind(ATTEMPTS, true);
    is_behind(ATTEMPTS + 1, true);
    is_behind(10 * ATTEMPTS, true);
}

/* The numbers that a device has given, and files that were moved away, stand in the file alone. */
static void uses_and_files(void) {
    wanzoche_answer a;
    uint64_t number;
    open_two_in_ring(&QUICK);
    for (uint64_t k = 1; k < 5; k++) {
        wanzoche_store *one = k % 2 == 0 ? mine : other, *next = k % 2 == 0 ? other : mine;
        number = entered(one, WRITE);
        CHECK(wanzoche_store_use(one, number, WANZOCHE_PUT, k, LONGEST).code == WANZOCHE_USED);
        if (k > 2) CHECK(wanzoche_store_rotate(k == 3 ? one : next, LONGEST).code == WANZOCHE_ROTATED);
        CHECK(left(one, number));
        number = entered(next, WRITE);
        a = wanzoche_store_use(next, number, WANZOCHE_LOOK, 0, LONGEST);
        CHECK(a.code == WANZOCHE_USED && a.number == k && left(next, number));
        check_same();
    }
    CHECK(count_in("pread", take_turns) == 0); /* they are in the ring again */
    close_two();
}

/* One that is stopped while it copies goes on when others have written over the rest. */

static _Atomic uint32_t *goes; /* 1 when it has its place, 2 when it may copy; 3 when it has ended well */

static void copies(void) {
    mine = opened(&QUICK);
    enter_and_leave(mine, READ, 1);
    *goes = 1;
    until(goes, 2);
    count("copy");
    last = 3;
    last_signal = SIGSTOP;
    CHECK(wanzoche_store_enter(mine, WRITE, 0).code == WANZOCHE_BLOCKED);
    counted = "";
    enter_and_leave(mine, READ, 1);
    CHECK(strstr(report(mine), "live ") != NULL && is_closed(mine));
}

static void stopped_while_it_copies(uint64_t further) {
    uint64_t number;
    pid_t pid;
    open_two_in_ring(&QUICK);
    *goes = 0;
    pid = child(copies);
    until(goes, 1);
    enter_and_leave(mine, READ, 4);
    *goes = 2;
    until_stopped(pid);
    enter_and_leave(mine, READ, further);
    number = entered(mine, READ);
    kill(pid, SIGCONT);
    CHECK(has_ended(pid));
    CHECK(left(mine, number));
    close_two();
}

/* Ends */

static const char *end_at; /* where one is killed, and the how manieth time it gets there */
static uint32_t end_at_time;

static void dies(void) {
    mine = opened(&QUICK);
    enter_and_leave(mine, READ, 1);
    count(end_at);
    last = end_at_time;
    last_signal = SIGKILL;
    for (int k = 0; k < 4; k++) enter_and_leave(mine, k % 2 == 0 ? WRITE : READ, 1);
    CHECK(is_closed(mine));
}

/* It is killed at this point. Then all others agree: who mends it, who follows by the ring, and who reads all. */
static void killed(const char *point, uint32_t time, bool writes_at_once) {
    wanzoche_store *fresh;
    pid_t pid;
    open_two_in_ring(&KEEP);
    end_at = point;
    end_at_time = time;
    pid = child(dies);
    CHECK(!has_ended(pid));
    if (!writes_at_once) check_same();
    CHECK(wanzoche_store_recover(mine, 3, false, LONGEST).code == WANZOCHE_RECOVERED);
    enter_and_leave(mine, WRITE, 1); /* so there is a record behind what was mended */
    check_same();
    fresh = opened(&KEEP);
    enter_and_leave(fresh, WRITE, 2);
    enter_and_leave(other, WRITE, 2);
    check_same();
    CHECK(is_closed(fresh));
    close_two();
}

static void ends(void) {
    static const char *const points[] = {"take", "write", "record", "half_record", "end", "attempts", "give"};
    for (size_t k = 0; k < sizeof points / sizeof *points; k++)
        for (uint32_t time = 1; time <= 4; time++) {
            int before = failures;
            killed(points[k], time, true);
            killed(points[k], time, false);
            if (failures > before) printf("store_ring: at %s, time %u\n", points[k], time);
        }
}

/* What one couldn't take back is found by whoever has the next turn, itself or another, though none looks at the file by itself. */
static void torn(bool is_found_by_other) {
    wanzoche_store *finder;
    open_two_in_ring(&QUICK);
    finder = is_found_by_other ? other : mine;
    calls = 0;
    tears = true;
    CHECK(wanzoche_store_enter(mine, WRITE, 0).code == WANZOCHE_SYSTEM);
    tears = false;
    enter_and_leave(finder, WRITE, 2);
    check_same();
    enter_and_leave(is_found_by_other ? mine : other, WRITE, 2);
    close_two();
}

/* Records that say something else */

static void turn_kind(struct attempt *at) { at->kind = 0; }
static void turn_kind_high(struct attempt *at) { at->kind = 9; }
static void turn_to_file(struct attempt *at) { at->kind = ATTEMPT_IN_FILE; at->number = 0; at->end = at->end + 1; }
static void turn_operation(struct attempt *at) { at->operation = 77; }
static void turn_number(struct attempt *at) { at->number = at->number + 1; }
static void turn_end(struct attempt *at) { at->end = at->end - 100; }
static void turn_end_high(struct attempt *at) { at->end = at->end + 3; }
static void turn_worker(struct attempt *at) { at->worker = at->worker + 1; }
static void turn_start(struct attempt *at) { at->kind = ATTEMPT_FINISHED; }

enum { START_ALONE, START, FINISH }; /* which record is turned: of a start that goes on, or is over by then, or of its finish */

/* Whoever comes to such a record says that the store is corrupt, and stays so. */
static void turned(void (*turns)(struct attempt *), int which) {
    uint64_t number;
    open_two_in_ring(&QUICK);
    enter_and_leave(other, READ, 1);
    number = entered(mine, READ);
    if (which != FINISH) turns(newest());
    if (which != START_ALONE) CHECK(left(mine, number));
    if (which == FINISH) turns(newest());
    CHECK(wanzoche_store_enter(other, READ, 0).code == WANZOCHE_CORRUPT);
    wanzoche_store_message(other, why, sizeof why);
    CHECK(strncmp(why, file, strlen(file)) == 0 && wanzoche_store_enter(other, READ, 0).code == WANZOCHE_CORRUPT);
    CHECK(wanzoche_store_close(other, LONGEST).code == WANZOCHE_CORRUPT);
    (void)wanzoche_store_close(mine, LONGEST);
}

static void turned_all(void) {
    static void (*const ways[])(struct attempt *) = {turn_kind,   turn_kind_high, turn_to_file,  turn_operation,
                                                     turn_number, turn_end,       turn_end_high, turn_start};
    for (size_t k = 0; k < sizeof ways / sizeof *ways; k++) {
        int before = failures;
        turned(ways[k], START_ALONE);
        if (failures > before) printf("store_ring: way %zu\n", k);
    }
    turned(turn_kind, FINISH);
    turned(turn_kind_high, FINISH);
    turned(turn_end, START);
    turned(turn_worker, START); /* which is found at its finish */
    CHECK(strstr(why, "`not yours` is owed") != NULL);
}

/* What doesn't count yet isn't looked at, whatever it is. */
static void unsaid(void) {
    open_two_in_ring(&QUICK);
    for (uint64_t k = 0; k < ATTEMPTS / 2; k++) {
        struct attempt *at = &ring[(page->attempts + k) % ATTEMPTS];
        at->kind = ATTEMPT_STARTED;
        at->number = 1 << 20;
        at->end = page->end + 40 * (k + 1);
    }
    enter_and_leave(other, READ, 1);
    enter_and_leave(mine, READ, 1);
    check_same();
    close_two();
}

/* Nobody has it open, and the ring isn't what the page says, as when the machine has crashed. */
static void older_ring(int64_t fewer) {
    uint64_t number;
    open_two_in_ring(&QUICK);
    CHECK(is_closed(mine) && is_closed(other));
    page->attempts = page->attempts - (uint64_t)fewer;
    mine = opened(&QUICK);
    other = opened(&QUICK);
    number = entered(mine, WRITE);
    CHECK(wanzoche_store_enter(other, READ, 0).code == WANZOCHE_BLOCKED && left(mine, number));
    enter_and_leave(other, WRITE, 3);
    enter_and_leave(mine, WRITE, 3);
    check_same();
    close_two();
}

/* An opening that reads for longer than its limit, while another is stopped in its turn. */

static void opens(void) {
    wanzoche_store *s = NULL;
    CHECK(wanzoche_store_open(&s, file, BOOK, strlen(BOOK), &QUICK, LIMIT, why, sizeof why).code == WANZOCHE_OPENED);
    if (s != NULL) CHECK(is_closed(s));
}

static void stops_in_its_turn(void) {
    mine = opened(&QUICK);
    count("give");
    last = 1;
    last_signal = SIGSTOP;
    enter_and_leave(mine, READ, 1);
    CHECK(is_closed(mine));
}

/* What the reading takes isn't part of the limit: it waits for its turn for as long behind it. */
static void reads_for_long(void) {
    pid_t pid;
    open_two_in_ring(&QUICK);
    pauses_at = count_in("pread", opens); /* the last is of the journal's lines */
    pid = child(stops_in_its_turn);
    until_stopped(pid);
    stopped = pid;
    (void)count_in("pread", opens);
    kill(pid, SIGCONT);
    CHECK(has_ended(pid));
    stopped = 0;
    pauses_at = 0;
    close_two();
}

int main(void) {
    goes = shared_words(1);
    follows_without_the_file();
    overrun();
    uses_and_files();
    stopped_while_it_copies(ATTEMPTS / 2);
    stopped_while_it_copies(ATTEMPTS);
    stopped_while_it_copies(3 * ATTEMPTS);
    ends();
    torn(false);
    torn(true);
    turned_all();
    unsaid();
    older_ring(3);
    older_ring(-3);
    older_ring(1000);
    reads_for_long();
    remove_all();
    printf("store_ring: %d failures\n", failures);
    return failures != 0;
}
