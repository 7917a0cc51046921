/* Commands that go on until they are ended: they wait for what changes in a store, and show it. */
#include <errno.h>
#include <math.h>
#include <poll.h>
#include <signal.h>
#include <stdio.h>
#include <stdlib.h>
#include <string.h>
#include <sys/ioctl.h>
#include <time.h>
#include <unistd.h>

#include "command.h"

#define LOOKS 50 /* so many milliseconds are between two looks whether something has changed */

/* Lines that stay at one place of a terminal, whose other lines are left alone. Nothing has to be set back at the end. */
struct table {
    size_t *widths; /* of the lines that were drawn last */
    size_t count;
};

static volatile sig_atomic_t goes_on_behind_stop;

static void note_stop(int number) {
    (void)number;
    goes_on_behind_stop = 1;
}

static double now(void) {
    struct timespec time;
    clock_gettime(CLOCK_MONOTONIC, &time);
    return (double)time.tv_sec + (double)time.tv_nsec / 1e9;
}

/* Waits so many milliseconds. Ends the program if nobody reads standard output any more. */
static void pause_for(int milliseconds) {
    struct pollfd output = {.fd = 1};
    if (poll(&output, 1, milliseconds < 1 ? 1 : milliseconds) > 0) exit(OF_SIGNAL + SIGPIPE);
}

/* What is another number when something has changed. */
static uint64_t stamp_now(struct shared *shared) {
    return shared->reader == NULL ? wanzoche_store_stamp(shared->store) : stamp_of(shared->reader);
}

/* Waits until something has changed since the stamp was taken, or so many seconds are over, and not at once. */
static void wait_for_change(struct shared *shared, uint64_t stamp, double seconds) {
    double until = now() + seconds;
    do {
        double left = (until - now()) * 1000;
        pause_for(left < LOOKS ? (int)left : LOOKS);
    } while (now() < until && stamp_now(shared) == stamp);
}

/* Writes the lines of the journal as they come, until a signal ends it. Returns only with a fault: the status. */
int watch_log(struct shared *shared) {
    size_t written = 0;
    bool is_told = true;
    while (is_told) {
        struct text lines = {NULL, 0, 0};
        uint64_t stamp = stamp_now(shared); /* before the journal is read, so that a change between the two is found */
        is_told = read_new(shared, &written, &lines) && write_text(&lines);
        clear_text(&lines);
        if (is_told) wait_for_change(shared, stamp, INFINITY);
    }
    say("%s", fault());
    return IS_FAULT;
}

/* The columns and rows of the terminal: two at least. */
static void find_size(size_t *columns, size_t *rows) {
    struct winsize size = {0};
    if (ioctl(1, TIOCGWINSZ, &size) != 0) size.ws_col = size.ws_row = 0;
    *columns = size.ws_col == 0 ? 80 : size.ws_col < 2 ? 2 : size.ws_col;
    *rows = size.ws_row == 0 ? 24 : size.ws_row < 2 ? 2 : size.ws_row;
}

/* How many lines of the terminal those have that were drawn last: a narrower window has broken them. */
static size_t count_above(const struct table *table, size_t columns) {
    size_t above = 0;
    for (size_t k = 0; k < table->count; k++) above += table->widths[k] <= columns ? 1 : (table->widths[k] + columns - 1) / columns;
    return above;
}

/* Adds the lines that fit, cut to the width, and keeps how wide they are. */
static void add_fitting(struct text *drawn, struct table *table, const char *lines, size_t columns, size_t rows) {
    table->widths = realloc(table->widths, rows * sizeof *table->widths);
    if (table->widths == NULL) end_without_memory();
    for (table->count = 0; *lines != 0 && table->count < rows - 1; table->count++) {
        size_t length = strcspn(lines, "\n"), kept = length < columns - 1 ? length : columns - 1;
        add(drawn, "%.*s\n", (int)kept, lines);
        table->widths[table->count] = kept;
        lines += length + (lines[length] != 0);
    }
}

/* Writes these lines in the place of those that were drawn last. */
static bool draw(struct table *table, const char *lines) {
    struct text drawn = {NULL, 0, 0};
    size_t columns, rows, above;
    bool is_drawn;
    find_size(&columns, &rows);
    above = count_above(table, columns);
    if (above > 0) add(&drawn, "\x1b[%zuF\x1b[J", above < rows ? above : rows - 1);
    add_fitting(&drawn, table, lines, columns, rows);
    is_drawn = write_text(&drawn);
    clear_text(&drawn);
    return is_drawn;
}

/* Asks how the store is, as the words want to have it. */
static bool ask_told(struct shared *shared, const struct given *given, bool is_table, struct text *told) {
    struct state state;
    if (!given->json && !is_table) {
        if (!ask_report(shared, -1, &state.report)) return false;
        add_lines(told, &state.report);
        close_report(&state.report);
        return true;
    }
    if (!ask_state(shared, &state)) return false;
    if (given->json) add_state(told, &state, &shared->declared);
    else add_table(told, &state, &shared->declared, given->store);
    close_state(&state);
    return true;
}

/* Writes how the store is, once. */
int write_status(struct shared *shared, const struct given *given) {
    struct text told = {NULL, 0, 0};
    bool is_told = ask_told(shared, given, false, &told) && write_text(&told);
    clear_text(&told);
    if (!is_told) say("%s", fault());
    return is_told ? 0 : IS_FAULT;
}

/* Writes what differs from what was told before: an empty line stands between two. */
static bool write_change(const struct text *told, const struct text *before, bool is_json) {
    if (before->at != NULL && strcmp(told->at, before->at) == 0) return true;
    return (is_json || before->at == NULL || write_out("\n", 1)) && write_text(told);
}

/* Whether standard output is a terminal whose lines can be written anew. */
static bool can_draw(void) {
    const char *kind = getenv("TERM");
    return isatty(1) && kind != NULL && strcmp(kind, "dumb") != 0;
}

/* Shows how the store is, and again whenever that has changed, until a signal ends it: on a terminal as a table. Returns only with a fault. */
int watch_status(struct shared *shared, const struct given *given) {
    bool is_table = !given->json && can_draw(), is_told = true;
    struct table table = {NULL, 0};
    struct text before = {NULL, 0, 0};
    end_by(SIGTERM);
    if (is_table) signal(SIGCONT, note_stop);
    while (is_told) {
        uint64_t stamp = stamp_now(shared);
        struct text told = {NULL, 0, 0};
        is_told = ask_told(shared, given, is_table, &told);
        if (goes_on_behind_stop) table.count = 0; /* others may have written there */
        goes_on_behind_stop = 0;
        if (is_told) is_told = is_table ? draw(&table, told.at) : write_change(&told, &before, given->json);
        clear_text(&before);
        before = told;
        if (is_told) wait_for_change(shared, stamp, given->watch);
    }
    clear_text(&before);
    free(table.widths);
    say("%s", fault());
    return IS_FAULT;
}
