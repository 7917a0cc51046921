/* What this machine says of the processes that take part in a store, by /proc. Each may end at any moment: then it isn't known. */
#include <ctype.h>
#include <dirent.h>
#include <stdio.h>
#include <stdlib.h>
#include <string.h>
#include <unistd.h>

#include "command.h"

#define NAME_OF_EXEC "wanzoche exec\n"

/* All that stands in a file of a process; nothing if it can't be read. */
static struct text read_of(uint64_t process, const char *name) {
    char path[80];
    struct text text = {NULL, 0, 0};
    snprintf(path, sizeof path, "/proc/%llu/%s", (unsigned long long)process, name);
    if (!read_file(path, &text)) {
        clear_text(&text);
        add(&text, "%s", "");
    }
    return text;
}

/* Whether a process has a file open, as far as this one may know: a number may have been given again. */
static bool has_open(uint64_t process, const struct stat *wanted) {
    char path[80];
    struct stat state;
    struct dirent *entry;
    DIR *folder;
    bool has = false;
    snprintf(path, sizeof path, "/proc/%llu/fd", (unsigned long long)process);
    folder = opendir(path);
    while (folder != NULL && !has && (entry = readdir(folder)) != NULL)
        has = fstatat(dirfd(folder), entry->d_name, &state, 0) == 0 && state.st_ino == wanted->st_ino && state.st_dev == wanted->st_dev;
    if (folder != NULL) closedir(folder);
    return has;
}

/* Takes the spaces from both ends of a text. */
static void trim(struct text *text) {
    size_t begin = 0;
    while (text->length > 0 && isspace((unsigned char)text->at[text->length - 1])) text->at[--text->length] = 0;
    while (begin < text->length && isspace((unsigned char)text->at[begin])) begin++;
    memmove(text->at, text->at + begin, text->length - begin + 1);
    text->length -= begin;
}

/* The words of a process with a space between two; a null text if there are none. */
static struct text words_of(uint64_t process) {
    struct text words = read_of(process, "cmdline");
    for (size_t k = 0; k < words.length; k++)
        if (words.at[k] == 0) words.at[k] = ' ';
    trim(&words);
    if (words.length == 0) clear_text(&words);
    return words;
}

/* When the machine was started, in seconds since 1970; 0 if it isn't known. */
static long long start_of_machine(void) {
    struct text text = {NULL, 0, 0};
    long long start = 0;
    const char *line = read_file("/proc/stat", &text) ? strstr(text.at, "\nbtime ") : NULL;
    if (line != NULL) start = atoll(line + 7);
    clear_text(&text);
    return start;
}

/* When a process began, in seconds since 1970; 0 if it isn't known. */
static int64_t begin_of(uint64_t process) {
    struct text text = read_of(process, "stat");
    char *at = strrchr(text.at, ')'), *rest = NULL;
    long long start = start_of_machine(), ticks = 0;
    const char *field = at == NULL ? NULL : strtok_r(at + 1, " ", &rest);
    for (int k = 0; field != NULL && k < 19; k++) field = strtok_r(NULL, " ", &rest);
    if (field != NULL) ticks = atoll(field);
    clear_text(&text);
    return field == NULL || start == 0 ? 0 : start + ticks / sysconf(_SC_CLK_TCK);
}

/* The first child of a process; 0 if it has none. */
static uint64_t child_of(uint64_t process) {
    char name[60];
    struct text text;
    uint64_t child;
    snprintf(name, sizeof name, "task/%llu/children", (unsigned long long)process);
    text = read_of(process, name);
    child = strtoull(text.at, NULL, 10);
    clear_text(&text);
    return child;
}

/* Finds what is known of a process that has the file beside the journal open: of `wanzoche exec` its command. */
static void find_command(struct process *process) {
    struct text name = read_of(process->number, "comm");
    bool is_exec = strcmp(name.at, NAME_OF_EXEC) == 0;
    uint64_t child = is_exec ? child_of(process->number) : 0;
    clear_text(&name);
    if (!is_exec) process->command = words_of(process->number);
    else if (child > 0) {
        process->command = words_of(child);
        process->since = begin_of(child);
    }
}

static void find_process(struct process *process, uint64_t number, const char *host, const struct stat *beside) {
    *process = (struct process){.number = number};
    if (number == 0 || beside == NULL || !has_open(number, beside)) return;
    process->host = host;
    find_command(process);
}

/* An operation in progress by its place, in order of the workers. */
struct place {
    uint32_t worker;
    size_t at;
};

static int by_worker(const void *one, const void *other) {
    const struct place *a = one, *b = other;
    return a->worker < b->worker ? -1 : a->worker > b->worker;
}

/* The places of what is in progress, worker by worker, which the caller frees. */
static struct place *sorted_places(const struct report *report) {
    struct place *places = take_memory(report->count, sizeof *places);
    for (size_t k = 0; k < report->count; k++) places[k] = (struct place){report->live[k].worker, k};
    qsort(places, report->count, sizeof *places, by_worker);
    return places;
}

static void copy_process(struct process *process, const struct process *from) {
    *process = *from;
    process->command = (struct text){NULL, 0, 0};
    if (from->command.at != NULL) add_bytes(&process->command, from->command.at, from->command.length);
}

/* Finds the process of each operation in progress: each worker's is looked at once. */
void find_processes(const struct report *report, struct process *processes, const char *beside) {
    static char host[256];
    struct stat state;
    bool has_state = stat(beside, &state) == 0;
    struct place *places = sorted_places(report);
    gethostname(host, sizeof host - 1);
    for (size_t k = 0; k < report->count; k++) {
        size_t at = places[k].at;
        bool is_first = k == 0 || places[k].worker != places[k - 1].worker;
        if (is_first) find_process(&processes[at], report->live[at].process, host, has_state ? &state : NULL);
        else copy_process(&processes[at], &processes[places[k - 1].at]);
    }
    free(places);
}
