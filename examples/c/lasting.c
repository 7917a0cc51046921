/* A slot whose log lasts: what was answered is known after a crash at any moment, and the slot goes on from there. Usage: lasting FILE.
**
** It answers attempts from standard input, each in a line, as `1 start deposit` or `1 finish 0`. Each answer is a line of the log, which is
** on the disk before it is told. */
#include "wanzoche.h"

#include <errno.h>
#include <fcntl.h>
#include <inttypes.h>
#include <libgen.h>
#include <signal.h>
#include <stdbool.h>
#include <stdio.h>
#include <stdlib.h>
#include <string.h>
#include <sys/file.h>
#include <unistd.h>

static const char DECLARATION[] = "resource slot cell operation deposit, remove path deposit ; remove end end";
enum { ROOM = 1024, LINE = 128 };

static int fail(const char *what) {
    fprintf(stderr, "lasting: %s: %s\n", what, strerror(errno));
    exit(3);
}

/* Opens the file, or makes it: then its name has to be on the disk, too, in the folder where it lies, also if the path is a link. */
static int open_log(const char *path) {
    int file = open(path, O_RDWR | O_CREAT | O_APPEND | O_CLOEXEC, 0666);
    if (file < 0) fail("the log can't be opened");
    if (flock(file, LOCK_EX | LOCK_NB)) fail("the log is in use");
    char *real = realpath(path, NULL);
    if (real == NULL || fsync(file)) fail("the log can't be synced");
    int folder = open(dirname(real), O_RDONLY | O_CLOEXEC);
    if (folder < 0 || fsync(folder)) fail("the log's folder can't be synced");
    close(folder);
    free(real);
    return file;
}

/* All that stands in the file. */
static char *text_of(int file, size_t *length) {
    off_t size = lseek(file, 0, SEEK_END);
    char *text = malloc((size_t)size + 1);
    if (text == NULL) fail("memory");
    *length = 0;
    while (*length < (size_t)size) {
        ssize_t part = pread(file, text + *length, (size_t)size - *length, (off_t)*length);
        if (part <= 0) fail("the log can't be read");
        *length += (size_t)part;
    }
    return text;
}

/* Opens the slot behind the lines of the log. What stands behind the last whole line is cut off: a crash has cut that, and nobody was told
** of it. */
static void go_on(wanzoche *slot, int file) {
    char why[WANZOCHE_MESSAGE];
    size_t length;
    char *text = text_of(file, &length);
    wanzoche_answer opened = wanzoche_resume_without_journal(slot, DECLARATION, strlen(DECLARATION), ROOM, text, length, why, sizeof why);
    free(text);
    if (opened.code != WANZOCHE_OPENED) {
        fprintf(stderr, "lasting: the log: %s\n", why);
        exit(5);
    }
    if (opened.number == length) return;
    fprintf(stderr, "lasting: cut off what a crash has left: %zu bytes\n", length - (size_t)opened.number);
    if (ftruncate(file, (off_t)opened.number)) fail("the log can't be cut");
}

/* Puts a line on the disk, whole or not at all. */
static void keep(int file, const char *line) {
    off_t end = lseek(file, 0, SEEK_END);
    ssize_t length = (ssize_t)strlen(line);
    ssize_t written = write(file, line, (size_t)length);
    if (written == length) {
        if (fdatasync(file)) fail("the log can't be synced");
        return;
    }
    if (written >= 0) errno = ENOSPC;
    int error = errno;
    if (ftruncate(file, end)) fail("the log can't be cut");
    errno = error;
    fail("the log can't be written");
}

typedef struct Attempt {
    bool is_start;
    uint32_t worker;
    uint32_t operation;  /* of a start */
    uint64_t activation; /* of a finish */
} Attempt;

/* Reads an attempt. False unless the text is spelled as a line of the log spells it: that line begins with the text as it came. */
static bool read_attempt(wanzoche *slot, const char *text, Attempt *attempt) {
    uint64_t worker, activation;
    char name[33], spelled[LINE];
    if (sscanf(text, "%19" SCNu64 " start %32s", &worker, name) == 2) {
        int64_t operation = wanzoche_operation(slot, name, strlen(name));
        if (operation < 0) return false;
        *attempt = (Attempt){.is_start = true, .worker = (uint32_t)worker, .operation = (uint32_t)operation};
        snprintf(spelled, sizeof spelled, "%" PRIu32 " start %s", attempt->worker, name);
    } else if (sscanf(text, "%19" SCNu64 " finish %19" SCNu64, &worker, &activation) == 2) {
        *attempt = (Attempt){.worker = (uint32_t)worker, .activation = activation};
        snprintf(spelled, sizeof spelled, "%" PRIu32 " finish %" PRIu64, attempt->worker, activation);
    } else {
        return false;
    }
    return strcmp(text, spelled) == 0;
}

/* The line of a reply. False if there is no such line: the room is used up. */
static bool write_line(char *line, const char *attempt, wanzoche_answer owed) {
    bool has_number = owed.code == WANZOCHE_STARTED || owed.code == WANZOCHE_BLOCKED;
    const char *words = wanzoche_words(owed.code);
    if (owed.code == WANZOCHE_NO_ROOM) return false;
    if (has_number)
        snprintf(line, LINE, "%s: %s %" PRIu64 "\n", attempt, words, owed.number);
    else
        snprintf(line, LINE, "%s: %s\n", attempt, words);
    return true;
}

/* First the line of the reply that is owed, then the attempt, which gets that reply, and then the answer. */
static void answer(wanzoche *slot, int file, const char *text) {
    Attempt it;
    char line[LINE];
    if (!read_attempt(slot, text, &it)) {
        fprintf(stderr, "lasting: not an attempt: %s\n", text);
        return;
    }
    wanzoche_answer owed =
        it.is_start ? wanzoche_owed_start(slot, it.worker, it.operation) : wanzoche_owed_finish(slot, it.worker, it.activation);
    if (!write_line(line, text, owed)) {
        fprintf(stderr, "lasting: no room for %s\n", text);
        return;
    }
    keep(file, line);
    wanzoche_answer given = it.is_start ? wanzoche_start(slot, it.worker, it.operation) : wanzoche_finish(slot, it.worker, it.activation);
    if (given.code != owed.code) fail("the attempt isn't what was owed");
    fputs(line, stdout);
    fflush(stdout);
}

int main(int count, char **words) {
    wanzoche slot = WANZOCHE_CLOSED_HANDLE;
    char *text = NULL;
    size_t room = 0;
    ssize_t length;
    if (count != 2) {
        fputs("usage: lasting FILE\n", stderr);
        return 2;
    }
    signal(SIGXFSZ, SIG_IGN); /* so that a file that may not grow is an error */
    int file = open_log(words[1]);
    go_on(&slot, file);
    fprintf(stderr, "lasting: %" PRIu32 " in progress\n", wanzoche_live(&slot));
    while ((length = getline(&text, &room, stdin)) > 0) {
        if (text[length - 1] == '\n') text[--length] = 0;
        if (strlen(text) == (size_t)length)
            answer(&slot, file, text);
        else
            fputs("lasting: not an attempt: it has a zero byte\n", stderr);
    }
    free(text);
    wanzoche_close(&slot);
    return 0;
}
