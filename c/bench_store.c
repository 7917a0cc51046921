/*
** How many entries processes make at a store, an enter and a leave each, beside the same by hand: two turns by flock with a line each, which keep
** nothing and ask nobody. Each in turn, for so many processes at once and for SECONDS. Lines go to a file in FOLDER, without syncs. What an entry
** takes of all processors is told, too, since that is less in need of an idle machine.
**
**     cc -O2 -std=c11 -D_GNU_SOURCE -Iout/include c/bench_store.c out/lib/libwanzoche.a -lpthread -o out/bench_store
**     out/bench_store FOLDER SECONDS
*/
#include <fcntl.h>
#include <stdio.h>
#include <stdlib.h>
#include <string.h>
#include <sys/file.h>
#include <sys/mman.h>
#include <sys/wait.h>
#include <time.h>
#include <unistd.h>

#include "wanzoche_store.h"

static const char TEXT[] = "resource book cell operation read, write path { read } , write end end";
enum { MOST = 32 };

static char file[512];
/* How many entries one has made, and what it took of the processors for that, in seconds. */
struct made {
    uint64_t count;
    double took;
};

static double ends; /* when each of them ends */

static double time_of(clockid_t clock) {
    struct timespec t;
    clock_gettime(clock, &t);
    return (double)t.tv_sec + (double)t.tv_nsec * 1e-9;
}

static bool is_over(void) {
    return time_of(CLOCK_MONOTONIC) >= ends;
}

/* A line under the lock of the file. */
static bool put_line(int lines, const char *format, uint64_t number) {
    char line[64];
    int length = snprintf(line, sizeof line, format, (unsigned long long)number);
    return flock(lines, LOCK_EX) == 0 && write(lines, line, (size_t)length) == length && flock(lines, LOCK_UN) == 0;
}

static bool by_hand(struct made *made) {
    int lines = open(file, O_WRONLY | O_APPEND | O_CREAT, 0600);
    bool goes_on = lines >= 0;
    double begun = time_of(CLOCK_PROCESS_CPUTIME_ID);
    while (goes_on && !is_over())
        if ((goes_on = put_line(lines, "+1 start read: started %llu\n", made->count) && put_line(lines, "+1 finish %llu: finished\n", made->count)))
            made->count++;
    made->took = time_of(CLOCK_PROCESS_CPUTIME_ID) - begun;
    return goes_on;
}

/* Reads alone, or reads and writes that exclude each other. */
static bool at_the_store(struct made *made, uint32_t writes) {
    const wanzoche_store_options options = {.no_sync = true};
    char why[WANZOCHE_STORE_MESSAGE];
    wanzoche_store *store;
    double begun;
    wanzoche_answer a = wanzoche_store_open(&store, file, TEXT, strlen(TEXT), &options, 60000, why, sizeof why);
    if (a.code != WANZOCHE_OPENED) fprintf(stderr, "%s\n", why);
    begun = time_of(CLOCK_PROCESS_CPUTIME_ID);
    while (a.code == WANZOCHE_OPENED || (a.code == WANZOCHE_FINISHED && !is_over())) {
        a = wanzoche_store_enter(store, (uint32_t)made->count % 2 & writes, 60000);
        if (a.code == WANZOCHE_STARTED) a = wanzoche_store_leave(store, a.number, 60000);
        made->count++;
    }
    made->took = time_of(CLOCK_PROCESS_CPUTIME_ID) - begun;
    return a.code == WANZOCHE_FINISHED && wanzoche_store_close(store, 60000).code == WANZOCHE_CLOSED;
}

static bool works(const char *how, struct made *made) {
    if (strcmp(how, "hand") == 0) return by_hand(made);
    return at_the_store(made, strcmp(how, "writes") == 0);
}

/* The journal with this end of its name goes: whether there was one. */
static bool remove_with(const char *end) {
    char name[600];
    snprintf(name, sizeof name, "%s%s", file, end);
    return unlink(name) == 0;
}

static void begin_anew(void) {
    char end[16] = ".shared";
    int moved = 0;
    remove_with("");
    remove_with(end);
    do snprintf(end, sizeof end, ".%d", ++moved);
    while (remove_with(end));
}

/* Tells how many entries so many processes together make in a second, and what one takes of the processors. Whether nothing failed. */
static bool measure(const char *name, const char *how, int processes, double seconds, struct made *made) {
    struct made all = {0, 0};
    bool is_well = true;
    int status;
    begin_anew();
    ends = time_of(CLOCK_MONOTONIC) + seconds;
    for (int k = 0; k < processes; k++) {
        made[k] = all;
        if (fork() == 0) _exit(works(how, &made[k]) ? 0 : 1);
    }
    while (wait(&status) > 0) is_well = is_well && status == 0;
    for (int k = 0; k < processes; k++) {
        all.count += made[k].count;
        all.took += made[k].took;
    }
    printf("  %s %.0f a second, %.2f us each", name, (double)all.count / seconds, all.took * 1e6 / (double)all.count);
    fflush(stdout);
    return is_well;
}

int main(int count, char **given) {
    static const int processes[] = {1, 2, 8, MOST};
    double seconds = count == 3 ? atof(given[2]) : 0;
    bool is_well = true;
    struct made *made;
    if (seconds <= 0) return fprintf(stderr, "bench_store FOLDER SECONDS\n"), 2;
    snprintf(file, sizeof file - 16, "%.400s/bench_store.log", given[1]);
    made = mmap(NULL, MOST * sizeof *made, PROT_READ | PROT_WRITE, MAP_SHARED | MAP_ANONYMOUS, -1, 0);
    if (made == MAP_FAILED) return 1;
    for (size_t k = 0; k < sizeof processes / sizeof *processes && is_well; k++) {
        printf("%2d processes:", processes[k]);
        is_well = measure("by hand", "hand", processes[k], seconds, made) && measure("reads", "reads", processes[k], seconds, made) &&
                  measure("reads and writes", "writes", processes[k], seconds, made);
        printf("\n");
    }
    begin_anew();
    return is_well ? 0 : 1;
}
