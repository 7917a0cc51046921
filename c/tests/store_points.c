/*
** The store where it is cut off: at each of its calls of the system, and each
** exchange of a word of the page, the process is killed, killed in the middle of a
** line, stopped, or has the call refused. Then others go on, what was answered is
** in the journal, and nothing else is in progress. With `owe` another leaves its
** operation while the process is stopped, which goes on then, or is killed.
**
** It is built with the parts of the store, and with WANZOCHE_STORE_POINTS.
** store_points kill|torn|stop|refuse|owe [FROM]
*/
#include <pthread.h>
#include <stdatomic.h>

#include "store.h"

enum { KILL, TORN, STOP, REFUSE, OWE };

/* What the process that is cut off shares with the test. */
struct log {
    _Atomic uint32_t points, starts, finishes;
    _Atomic uint32_t is_over; /* it wasn't cut off */
    uint64_t started[64], finished[64];
    char call[16];
};

static struct log *told;
static int how, error;
static uint32_t at;
static bool is_armed;

int wanzoche_store_point(const char *call);
void wanzoche_store_torn(void);

static bool is_of_system(const char *call) {
    static const char *const others[] = {"take", "give", "steal", "claim", "publish", "free", "call", "syncer", "futex_wait", "futex_wake",
                                         "record", "half_record", "end", "attempts", "copy"};
    for (size_t k = 0; k < sizeof others / sizeof *others; k++)
        if (strcmp(call, others[k]) == 0) return false;
    return true;
}

int wanzoche_store_point(const char *call) {
    if (!is_armed || ++told->points != at) return 0;
    snprintf(told->call, sizeof told->call, "%s", call);
    if (how == KILL) kill(getpid(), SIGKILL);
    if (how == STOP || how == OWE) kill(getpid(), SIGSTOP);
    if (how == TORN && strcmp(call, "write") == 0) return -1;
    return how == REFUSE && is_of_system(call) ? error : 0;
}

void wanzoche_store_torn(void) {
    kill(getpid(), SIGKILL);
}

static void note_start(wanzoche_answer a) {
    if (a.code != WANZOCHE_STARTED) return;
    told->started[told->starts] = a.number;
    told->starts++;
}

static void note_finish(uint64_t activation, wanzoche_answer a) {
    if (a.code != WANZOCHE_FINISHED) return;
    told->finished[told->finishes] = activation;
    told->finishes++;
}

/* An opening whose sync has failed is of no use any more. */
static bool is_unsynced(wanzoche_store **s, wanzoche_answer a) {
    if (a.code != WANZOCHE_UNSYNCED) return false;
    wanzoche_store_close(*s, LONGEST);
    return open_with(s, BOOK, &QUICK).code == WANZOCHE_OPENED;
}

static wanzoche_answer enters(wanzoche_store **s, uint32_t operation, int64_t limit) {
    wanzoche_answer a = wanzoche_store_enter(*s, operation, limit);
    if (is_unsynced(s, a)) a = wanzoche_store_enter(*s, operation, limit);
    note_start(a);
    return a;
}

/* What couldn't be left since the system has refused something is left again. */
static void leaves(wanzoche_store **s, wanzoche_answer started) {
    wanzoche_answer a = {WANZOCHE_SYSTEM, 0};
    if (started.code != WANZOCHE_STARTED) return;
    while (a.code == WANZOCHE_SYSTEM) a = wanzoche_store_leave(*s, started.number, LONGEST);
    is_unsynced(s, a);
    note_finish(started.number, a);
}

struct waiter {
    wanzoche_store **s;
    wanzoche_answer answer;
};

static void *waits(void *given) {
    struct waiter *w = given;
    w->answer = enters(w->s, READ, LONGEST);
    return NULL;
}

/* One waits in another opening, and is called by this one's leave. */
static void hand_over(wanzoche_store **one, wanzoche_store **other) {
    struct waiter waiter = {other, {0, 0}};
    wanzoche_answer writing = enters(one, WRITE, LONGEST);
    pthread_t thread;
    if (writing.code != WANZOCHE_STARTED) return;
    if (pthread_create(&thread, NULL, waits, &waiter) != 0) exit(7);
    for (int k = 0; k < 2000 && wanzoche_store_waiting(*one, READ).number == 0; k++) usleep(1000);
    leaves(one, writing);
    pthread_join(thread, NULL);
    leaves(other, waiter.answer);
}

/* What is done by the process that is cut off. */
static void act(void) {
    wanzoche_store *one, *other;
    wanzoche_answer a;
    wanzoche_store_options options = {.room = 40};
    is_armed = true;
    if (open_with(&one, BOOK, &options).code == WANZOCHE_OPENED) {
        a = enters(&one, WRITE, LONGEST);
        if (a.code == WANZOCHE_STARTED) (void)!wanzoche_store_use(one, a.number, WANZOCHE_PUT, 7, LONGEST).code;
        if (open_with(&other, BOOK, &QUICK).code == WANZOCHE_OPENED) {
            leaves(&other, enters(&other, READ, 1)); /* waits, and gives up */
            leaves(&one, a);
            hand_over(&one, &other);
            wanzoche_store_rotate(one, LONGEST);
            enters(&other, READ, LONGEST);
            wanzoche_store_close(other, LONGEST);
        } else leaves(&one, a);
        leaves(&one, enters(&one, WRITE, 2000));
        wanzoche_store_close(one, LONGEST);
    }
    is_armed = false;
    told->is_over = 1;
}

/* Whether a line stands in a text: as `+3 start read: started 7`, from behind the worker. */
static bool has_line(const char *text, const char *format, const char *name, uint64_t number) {
    char line[80];
    snprintf(line, sizeof line, format, name, (unsigned long long)number);
    return strstr(text, line) != NULL;
}

static void until_finished(wanzoche_store *s, uint64_t activation) {
    bool is_finished = false;
    for (int k = 0; k < LONGEST && !is_finished; k++) {
        char *text = journal(s);
        is_finished = has_line(text, " finish%s %llu: finished\n", "", activation);
        free(text);
        usleep(500);
    }
    CHECK(is_finished);
}

static void check_answered(wanzoche_store *s) {
    char *text = journal(s);
    for (uint32_t k = 0; k < told->starts; k++)
        CHECK(has_line(text, " start %s: started %llu\n", "read", told->started[k]) || has_line(text, " start %s: started %llu\n", "write", told->started[k]));
    for (uint32_t k = 0; k < told->finishes; k++) CHECK(has_line(text, " finish%s %llu: finished\n", "", told->finished[k]));
    free(text);
}

/* Others go on, alone and beside each other, and what was answered is there. */
static void check_others(wanzoche_store *s) {
    wanzoche_store *fresh;
    uint64_t number = entered(s, WRITE);
    CHECK(strstr(report(s), "live ") != NULL && strstr(strstr(report(s), "live ") + 1, "live ") == NULL);
    CHECK(left(s, number));
    fresh = opened(&QUICK);
    CHECK(wanzoche_store_worker(fresh) > wanzoche_store_worker(s));
    number = entered(fresh, READ);
    CHECK(wanzoche_store_enter(s, WRITE, 0).code == WANZOCHE_BLOCKED);
    CHECK(left(fresh, number));
    CHECK(strstr(report(s), "live ") == NULL && strstr(report(s), "waiting ") == NULL);
    CHECK(wanzoche_store_audit(s, LONGEST).code == WANZOCHE_SOUND);
    check_answered(fresh);
    CHECK(is_closed(fresh));
}

static uint64_t longest; /* of the calls beside one that is stopped, in nanoseconds, with a limit of 1 millisecond or none */

static uint64_t time_now(void) {
    struct timespec t;
    clock_gettime(CLOCK_MONOTONIC, &t);
    return (uint64_t)t.tv_sec * 1000000000u + (uint64_t)t.tv_nsec;
}

/* While it is stopped: each call of another is back, whatever its answer, and what it began is over. */
static void check_beside_stopped(wanzoche_store *s) {
    uint64_t begun = time_now();
    wanzoche_answer a = wanzoche_store_enter(s, WRITE, 1), b;
    if (time_now() - begun > longest) longest = time_now() - begun;
    CHECK(a.code == WANZOCHE_STARTED || a.code == WANZOCHE_BLOCKED || a.code == WANZOCHE_WITHHELD || a.code == WANZOCHE_LATE);
    if (a.code != WANZOCHE_STARTED) return;
    b = wanzoche_store_leave(s, a.number, 0);
    CHECK(b.code == WANZOCHE_FINISHED || b.code == WANZOCHE_OWED);
}

/* A short part beside one that reads. */
static void act_beside_reader(void) {
    wanzoche_store *one;
    is_armed = true;
    if (open_with(&one, BOOK, NULL).code == WANZOCHE_OPENED) {
        leaves(&one, enters(&one, READ, LONGEST));
        (void)!wanzoche_store_enter(one, WRITE, 1).code;
        wanzoche_store_close(one, LONGEST);
    }
    is_armed = false;
    told->is_over = 1;
}

/* One that is stopped at this point while another leaves. Whether it got there. */
static bool owed_beside(uint32_t point, uint32_t *owed) {
    wanzoche_store *s;
    int status = 0;
    wanzoche_answer a;
    uint64_t reading;
    pid_t pid;
    begin_anew();
    memset(told, 0, sizeof *told);
    at = point;
    s = opened(&KEEP);
    reading = entered(s, READ);
    pid = child(act_beside_reader);
    if (waitpid(pid, &status, WUNTRACED) != pid) exit(7);
    a = wanzoche_store_leave(s, reading, 0);
    CHECK(a.code == WANZOCHE_FINISHED || a.code == WANZOCHE_OWED);
    *owed += a.code == WANZOCHE_OWED;
    if (a.code == WANZOCHE_OWED) CHECK(WIFSTOPPED(status) && wanzoche_store_enter(s, WRITE, 0).code == WANZOCHE_LATE);
    if (WIFSTOPPED(status)) kill(pid, point % 2 == 0 ? SIGCONT : SIGKILL);
    if (WIFSTOPPED(status) && waitpid(pid, &status, 0) != pid) exit(7);
    until_finished(s, reading);
    (void)!wanzoche_store_recover(s, wanzoche_store_worker(s) + 1, false, LONGEST).code; /* what that one had stays */
    check_others(s);
    CHECK(is_closed(s));
    return told->points >= point;
}

/* One that is cut off at this point, beside one that has the store open, or alone. Whether it got there. */
static bool cut_off(uint32_t point, bool is_alone) {
    wanzoche_store *s;
    int status = 0;
    pid_t pid;
    begin_anew();
    memset(told, 0, sizeof *told);
    at = point;
    s = is_alone ? NULL : opened(&QUICK);
    if (s != NULL) CHECK(left(s, entered(s, READ)));
    pid = child(act);
    if (waitpid(pid, &status, WUNTRACED) != pid) exit(7);
    if (WIFSTOPPED(status)) {
        if (s != NULL) check_beside_stopped(s);
        kill(pid, SIGCONT);
        if (waitpid(pid, &status, 0) != pid) exit(7);
    }
    CHECK(WIFEXITED(status) ? WEXITSTATUS(status) == 0 : WTERMSIG(status) == SIGKILL);
    if (s == NULL) s = opened(&QUICK);
    check_others(s);
    CHECK(is_closed(s));
    s = opened(NULL);
    CHECK(wanzoche_store_audit(s, LONGEST).code == WANZOCHE_SOUND);
    check_answered(s);
    CHECK(is_closed(s));
    return told->points >= point;
}

int main(int arguments, char **argument) {
    static const char *const names[] = {"kill", "torn", "stop", "refuse", "owe"};
    static const int errors[] = {ENOSPC, EIO, EMFILE, EACCES};
    uint32_t from = arguments > 2 ? (uint32_t)atoi(argument[2]) : 1, step = arguments > 3 ? (uint32_t)atoi(argument[3]) : 1, cut = 0, owed = 0;
    told = mmap(NULL, sizeof *told, PROT_READ | PROT_WRITE, MAP_SHARED | MAP_ANONYMOUS, -1, 0);
    while (how < OWE && strcmp(names[how], argument[1]) != 0) how++;
    for (int alone = 0; alone < 2; alone++)
        for (uint32_t point = from;; point += step) {
            int before = failures;
            bool got_there;
            error = errors[point % 4];
            got_there = how == OWE ? owed_beside(point, &owed) : cut_off(point, alone != 0);
            if (failures > before) printf("store_points %s: at point %u, %s, %s\n", names[how], point, told->call, alone ? "alone" : "beside another");
            if (!got_there || failures > 20) break;
            cut++;
        }
    CHECK(how != OWE || owed > 0);
    remove_all();
    if (how == STOP) printf("store_points: beside one that is stopped a call with a limit of 1 ms took %.1f ms at most\n", (double)longest / 1e6);
    printf("store_points: %s at %u points, %d failures\n", names[how], cut, failures);
    return failures != 0;
}
