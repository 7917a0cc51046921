/*
** The store under load: many processes, each of two threads, and a witness that
** knows nothing of paths.
**
** store_load kills   while processes are killed and stopped at random, and each
**                    gets a storm of signals
** store_load wakes   built with a SLICE that never ends: all go on by being woken,
**                    though some give up, or the test hangs
*/
#include <pthread.h>
#include <stdatomic.h>
#include <sys/time.h>

#include "store.h"

enum { PROCESSES = 6, THREADS = 2, KILLS = 120, ROUNDS = 400 };

/* The witness: what each thread is in, and whether its process lives, by a lock of its own. */
struct witness {
    _Atomic uint32_t in[PROCESSES][THREADS]; /* operation + 1 */
    _Atomic uint32_t life[PROCESSES];        /* how often this one was begun */
    _Atomic uint32_t entries, lates, owed, violations, ends;
};

static struct witness *witness;
static int locks = -1;
static wanzoche_store *mine;
static uint32_t me, life;
static bool kills;

static bool is_alive(uint32_t process) {
    struct flock asked = {.l_type = F_WRLCK, .l_whence = SEEK_SET, .l_start = process, .l_len = 1};
    return fcntl(locks, F_OFD_GETLK, &asked) != 0 || asked.l_type != F_UNLCK;
}

static bool is_against(uint32_t one, uint32_t other) {
    return other != 0 && (one == WRITE + 1 || other == WRITE + 1);
}

/* Whether somebody who lives is in what excludes this. Who died in it left its word; whoever lives has taken it back before it left. */
static void look_around(uint32_t thread, uint32_t in) {
    for (uint32_t k = 0; k < PROCESSES; k++)
        for (uint32_t t = 0; t < THREADS; t++) {
            uint32_t before = witness->life[k], other = witness->in[k][t];
            if ((k == me && t == thread) || !is_against(in, other) || (k != me && !is_alive(k))) continue;
            if (witness->in[k][t] == other && witness->life[k] == before && (k == me || is_alive(k))) witness->violations++;
        }
}

static uint32_t next(uint32_t *seed) {
    *seed = *seed * 1664525u + 1013904223u;
    return *seed >> 12;
}

static void end_one(wanzoche_answer a) {
    if (a.code == WANZOCHE_FINISHED) return;
    if (a.code == WANZOCHE_OWED) witness->owed++;
    else {
        printf("store_load: a leave answers %s\n", wanzoche_words(a.code));
        witness->violations++;
    }
}

static void *works(void *given) {
    uint32_t thread = (uint32_t)(size_t)given, seed = (me + 1) * 7919 + thread * 104729 + life;
    for (int k = 0; kills ? witness->ends == 0 : k < ROUNDS; k++) {
        uint32_t operation = next(&seed) % 3 == 0 ? WRITE : READ;
        bool waits = !kills && next(&seed) % 2 != 0;
        wanzoche_answer a = wanzoche_store_enter(mine, operation, waits ? -1 : (int64_t)(next(&seed) % (kills ? 30 : 3)));
        if (a.code == WANZOCHE_BLOCKED || a.code == WANZOCHE_WITHHELD || a.code == WANZOCHE_LATE) {
            witness->lates++;
            continue;
        }
        if (a.code != WANZOCHE_STARTED) {
            printf("store_load: an enter answers %s\n", wanzoche_words(a.code));
            witness->violations++;
            break;
        }
        witness->in[me][thread] = operation + 1;
        look_around(thread, operation + 1);
        for (uint32_t spin = next(&seed) % 4000; spin > 0; spin--) atomic_thread_fence(memory_order_seq_cst);
        look_around(thread, operation + 1);
        witness->in[me][thread] = 0;
        end_one(wanzoche_store_leave(mine, a.number, kills ? 0 : -1));
        witness->entries++;
    }
    return NULL;
}

static void nothing(int signal) {
    (void)signal;
}

static void storm(void) {
    struct sigaction action;
    struct itimerval often = {{0, 700}, {0, 700}};
    memset(&action, 0, sizeof action);
    action.sa_handler = nothing; /* without SA_RESTART: each call of the system that sleeps is cut off */
    sigaction(SIGALRM, &action, NULL);
    setitimer(ITIMER_REAL, &often, NULL);
}

static void run(void) {
    struct flock alive = {.l_type = F_WRLCK, .l_whence = SEEK_SET, .l_start = me, .l_len = 1};
    pthread_t threads[THREADS];
    char name[80];
    snprintf(name, sizeof name, "%s/witness", folder);
    if (locks >= 0) close(locks);
    locks = open(name, O_RDWR | O_CREAT, 0600); /* below the store's descriptors, so that the kernel closes it before them */
    while (fcntl(locks, F_OFD_SETLK, &alive) != 0) usleep(1000);
    mine = opened(&QUICK);
    if (kills) storm();
    for (size_t t = 0; t < THREADS; t++)
        if (pthread_create(&threads[t], NULL, works, (void *)t) != 0) exit(7);
    for (size_t t = 0; t < THREADS; t++) pthread_join(threads[t], NULL);
    CHECK(is_closed(mine));
}

static pid_t begun(uint32_t process) {
    me = process;
    for (int t = 0; t < THREADS; t++) witness->in[process][t] = 0;
    life = ++witness->life[process];
    return child(run);
}

/* Kills one, and waits until others have got further; or stops one, and goes on with the next. */
static void disturb(pid_t pids[PROCESSES]) {
    uint32_t seed = 5, stopped = PROCESSES;
    for (int k = 0; k < KILLS && witness->violations == 0; k++) {
        uint32_t one = next(&seed) % PROCESSES, before = witness->entries;
        if (stopped < PROCESSES) kill(pids[stopped], SIGCONT);
        stopped = next(&seed) % PROCESSES;
        kill(pids[stopped], SIGSTOP);
        if (one != stopped) {
            kill_child(pids[one]);
            pids[one] = begun(one);
        }
        usleep(next(&seed) % 20000);
        kill(pids[stopped], SIGCONT);
        stopped = PROCESSES;
        for (int wait = 0; wait < LONGEST && witness->entries - before < 20; wait++) usleep(1000);
        if (witness->entries - before < 20) {
            printf("store_load: nobody gets further\n");
            failures++;
            break;
        }
    }
    witness->ends = 1;
}

int main(int arguments, char **argument) {
    pid_t pids[PROCESSES];
    witness = mmap(NULL, sizeof *witness, PROT_READ | PROT_WRITE, MAP_SHARED | MAP_ANONYMOUS, -1, 0);
    kills = arguments > 1 && strcmp(argument[1], "kills") == 0;
    begin_anew();
    for (uint32_t k = 0; k < PROCESSES; k++) pids[k] = begun(k);
    if (kills) disturb(pids);
    for (uint32_t k = 0; k < PROCESSES; k++) CHECK(has_ended(pids[k]));
    mine = opened(NULL);
    CHECK(witness->violations == 0 && witness->entries > 0);
    CHECK(strstr(report(mine), "live") == NULL && strstr(report(mine), "waiting") == NULL);
    CHECK(wanzoche_store_audit(mine, LONGEST).code == WANZOCHE_SOUND && is_closed(mine));
    remove_all();
    printf("store_load: %s, %u entries, %u late, %u finishes left to others, %d failures\n", kills ? "kills" : "wakes", witness->entries,
           witness->lates, witness->owed, failures);
    return failures != 0;
}
