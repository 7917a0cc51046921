/* What the tests of the store share. Nothing here waits for a time: what is waited for is a state, and LONGEST only ends a test that hangs. */
#ifndef STORE_TEST_H
#define STORE_TEST_H

#include <errno.h>
#include <fcntl.h>
#include <signal.h>
#include <stdio.h>
#include <stdlib.h>
#include <string.h>
#include <sys/mman.h>
#include <sys/stat.h>
#include <sys/wait.h>
#include <time.h>
#include <unistd.h>

#include "wanzoche_store.h"

#define LONGEST 120000 /* milliseconds */

static int failures;

#define CHECK(that)                                                        \
    do {                                                                   \
        if (!(that)) {                                                     \
            printf("%s:%d: not so: %s\n", __FILE__, __LINE__, #that);      \
            failures++;                                                    \
        }                                                                  \
    } while (0)

static const char BOOK[] = "resource book cell operation read, write path { read } , write end end";
enum { READ, WRITE };

static char folder[] = "/dev/shm/wanzoche-store-XXXXXX", file[64]; /* in memory, where that is a folder: nothing here is about the disk's time */
static char why[WANZOCHE_STORE_MESSAGE];

static inline const char *beside(const char *end) {
    static char name[4][128];
    static int k;
    k = (k + 1) % 4;
    snprintf(name[k], sizeof name[k], "%s%s", file, end);
    return name[k];
}

/* Another file in an empty folder. */
static inline void begin_anew(void) {
    static int count;
    if (count++ == 0 && mkdtemp(folder) == NULL && mkdtemp(strcpy(folder, "/tmp/wanzoche-store-XXXXXX")) == NULL) exit(9);
    snprintf(file, sizeof file, "%s/%d.log", folder, count);
}

static inline void remove_all(void) {
    char command[128];
    snprintf(command, sizeof command, "rm -rf %s", folder);
    if (system(command) != 0) failures++;
}

static inline wanzoche_answer open_with(wanzoche_store **s, const char *text, const wanzoche_store_options *options) {
    return wanzoche_store_open(s, file, text, strlen(text), options, LONGEST, why, sizeof why);
}

static const wanzoche_store_options QUICK = {.no_sync = true}, KEEP = {.no_sync = true, .keep_lost = true};

static inline wanzoche_store *opened(const wanzoche_store_options *options) {
    wanzoche_store *s;
    wanzoche_answer a = open_with(&s, BOOK, options);
    if (a.code == WANZOCHE_OPENED) return s;
    printf("not opened: %s: %s\n", wanzoche_words(a.code), why);
    exit(8);
}

/* An operation that has to begin: its activation. */
static inline uint64_t entered(wanzoche_store *s, uint32_t operation) {
    wanzoche_answer a = wanzoche_store_enter(s, operation, LONGEST);
    if (a.code == WANZOCHE_STARTED) return a.number;
    wanzoche_store_message(s, why, sizeof why);
    printf("not entered: %s: %s\n", wanzoche_words(a.code), why);
    exit(8);
}

static inline bool left(wanzoche_store *s, uint64_t activation) {
    return wanzoche_store_leave(s, activation, LONGEST).code == WANZOCHE_FINISHED;
}

static inline bool is_closed(wanzoche_store *s) {
    return wanzoche_store_close(s, LONGEST).code == WANZOCHE_CLOSED;
}

static inline const char *report(wanzoche_store *s) {
    static char text[1 << 16];
    if (wanzoche_store_report(s, text, sizeof text, LONGEST).code != WANZOCHE_WRITTEN) text[0] = 0;
    return text;
}

/* All lines, which the caller frees, with room for those that come meanwhile. */
static inline char *journal(wanzoche_store *s) {
    wanzoche_answer a = {WANZOCHE_TOO_SMALL, 0};
    char *text = NULL;
    while (a.code == WANZOCHE_TOO_SMALL) {
        size_t size = (size_t)a.number + 1000;
        free(text);
        text = malloc(size);
        a = wanzoche_store_journal(s, text, size, LONGEST);
    }
    if (a.code != WANZOCHE_WRITTEN) exit(7);
    return text;
}

static inline void until_waiting(wanzoche_store *s, uint32_t operation, uint64_t many) {
    for (int k = 0; k < LONGEST; k++) {
        if (wanzoche_store_waiting(s, operation).number == many) return;
        usleep(1000);
    }
    CHECK(!"so many wait");
}

/* Behind this an opening looks at its file again: LOOK of c/store/journal.c is over. */
static inline void until_looked_at(void) {
    usleep(20);
}

/* A child that does this. */
static inline pid_t child(void (*does)(void)) {
    pid_t pid;
    fflush(stdout);
    pid = fork();
    if (pid != 0) return pid;
    failures = 0;
    does();
    fflush(stdout);
    _exit(failures != 0);
}

/* Whether a child ends by itself, and all was as it should be. */
static inline bool has_ended(pid_t pid) {
    int status;
    return waitpid(pid, &status, 0) == pid && WIFEXITED(status) && WEXITSTATUS(status) == 0;
}

static inline void until_stopped(pid_t pid) {
    int status;
    CHECK(waitpid(pid, &status, WUNTRACED) == pid && WIFSTOPPED(status));
}

static inline void kill_child(pid_t pid) {
    kill(pid, SIGKILL);
    waitpid(pid, NULL, 0);
}

/* A word that all processes of a test see. */
static inline _Atomic uint32_t *shared_words(size_t many) {
    void *at = mmap(NULL, many * sizeof(uint32_t), PROT_READ | PROT_WRITE, MAP_SHARED | MAP_ANONYMOUS, -1, 0);
    if (at == MAP_FAILED) exit(9);
    return at;
}

static inline void until(_Atomic uint32_t *word, uint32_t is) {
    for (int k = 0; k < LONGEST && *word != is; k++) usleep(1000);
    CHECK(*word == is);
}

#endif
