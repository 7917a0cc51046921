/* How a store is, as a table for people. */
#include <stdio.h>
#include <stdlib.h>
#include <string.h>
#include <time.h>

#include "command.h"

#define COLUMNS 6

/* Rows of cells, which are aligned when they are added to a text. */
struct rows {
    struct text (*cells)[COLUMNS];
    size_t count;
    int columns;
};

static struct rows new_rows(size_t most, int columns) {
    return (struct rows){take_memory(most + 1, sizeof(struct text[COLUMNS])), 0, columns};
}

/* The text of the next cell of the last row, the first of a new one behind a row that is full. */
static struct text *cell(struct rows *rows, int column) {
    if (column == 0) rows->count++;
    add(&rows->cells[rows->count - 1][column], "%s", "");
    return &rows->cells[rows->count - 1][column];
}

static void add_heads(struct rows *rows, const char *const heads[COLUMNS]) {
    for (int k = 0; k < rows->columns; k++) add(cell(rows, k), "%s", heads[k]);
}

static int width_of(const struct rows *rows, int column) {
    size_t width = 0;
    for (size_t k = 0; k < rows->count; k++)
        if (rows->cells[k][column].length > width) width = rows->cells[k][column].length;
    return (int)width;
}

/* Adds a row without the spaces at its end. */
static void add_row(struct text *text, struct text cells[COLUMNS], const int widths[COLUMNS], int columns) {
    for (int k = 0; k < columns; k++) add(text, "%s%-*s", k == 0 ? "" : "  ", widths[k], cells[k].at);
    while (text->length > 0 && text->at[text->length - 1] == ' ') text->at[--text->length] = 0;
    add(text, "\n");
}

/* Adds the rows as lines, in columns, and gives their memory back. */
static void add_aligned(struct text *text, struct rows *rows) {
    int widths[COLUMNS];
    for (int k = 0; k < rows->columns; k++) widths[k] = width_of(rows, k);
    for (size_t k = 0; k < rows->count; k++) {
        add_row(text, rows->cells[k], widths, rows->columns);
        for (int column = 0; column < rows->columns; column++) clear_text(&rows->cells[k][column]);
    }
    free(rows->cells);
}

static void add_table_of_operations(struct text *text, const struct state *state, const struct declared *declared) {
    static const char *const heads[COLUMNS] = {"OPERATION", "RUNS", "WAITS", "CAN START"};
    struct rows rows = new_rows(declared->count, 4);
    uint32_t running[WANZOCHE_MOST_OPERATIONS];
    count_running(&state->report, running);
    add_heads(&rows, heads);
    for (uint32_t k = 0; k < declared->count; k++) {
        add(cell(&rows, 0), "%s", declared->names[k]);
        add(cell(&rows, 1), "%u", running[k]);
        add(cell(&rows, 2), "%u", state->waiting[k]);
        if (state->report.blocked_by[k] < 0) add(cell(&rows, 3), "yes");
        else add(cell(&rows, 3), "no: path %lld", (long long)state->report.blocked_by[k]);
    }
    add_aligned(text, &rows);
}

static void add_cells_of(struct rows *rows, const struct process *process) {
    char since[20];
    struct tm parts;
    time_t time = (time_t)process->since;
    bool has_time = time > 0 && localtime_r(&time, &parts) != NULL && strftime(since, sizeof since, "%d %H:%M:%S", &parts) > 0;
    add(cell(rows, 2), "%s", has_time ? since : "");
    if (process->number == 0) add(cell(rows, 3), "%s", "");
    else add(cell(rows, 3), "%llu", (unsigned long long)process->number);
    add_plain(cell(rows, 4), process->host == NULL ? "" : process->host);
    add_plain(cell(rows, 5), process->command.at == NULL ? "" : process->command.at);
}

static void add_table_of_progress(struct text *text, const struct state *state, const struct declared *declared) {
    static const char *const heads[COLUMNS] = {"IN PROGRESS", "WORKER", "SINCE", "PID", "HOST", "COMMAND"};
    struct rows rows = new_rows(state->report.count, COLUMNS);
    add_heads(&rows, heads);
    for (size_t k = 0; k < state->report.count; k++) {
        const struct live *live = &state->report.live[k];
        add(cell(&rows, 0), "%s", declared->names[live->operation]);
        add(cell(&rows, 1), "%u%s", live->worker, live->is_lost ? ", dead" : "");
        add_cells_of(&rows, &state->processes[k]);
    }
    add(text, "\n");
    add_aligned(text, &rows);
}

/* Adds the state as lines for people, without signs that a terminal would act on: of the operations, and of what is in progress. */
void add_table(struct text *text, const struct state *state, const struct declared *declared, const char *store) {
    char clock[20] = "";
    struct tm parts;
    time_t seconds = time(NULL);
    size_t waiting = 0;
    if (localtime_r(&seconds, &parts) != NULL) strftime(clock, sizeof clock, "%H:%M:%S", &parts);
    for (uint32_t k = 0; k < declared->count; k++) waiting += state->waiting[k];
    add_plain(text, store);
    add(text, ", %s: %zu in progress, %zu waiting%s\n\n", clock, state->report.count, waiting, state->report.is_frozen ? ", frozen" : "");
    add_table_of_operations(text, state, declared);
    if (state->report.count > 0) add_table_of_progress(text, state, declared);
}
