/*
** A store for who may only read its files: each line is taken over by the proved
** core exactly if its reply is owed. It takes no turn and no lock, and is no worker.
** So nobody waits for it, nor it for anybody.
*/
#include <errno.h>
#include <fcntl.h>
#include <stdio.h>
#include <stdlib.h>
#include <string.h>
#include <unistd.h>

#include "command.h"

#define HEAD "journal 3 room 1048576\n" /* what lines are offered to the core behind */
#define HEAD_LENGTH (sizeof HEAD - 1)
#define CHUNK ((size_t)1 << 20)
#define MOST_SHOWN 90 /* so much of a line that is wrong */
#define ROOM 65536 /* of what is in progress, of all processes together */

struct reader {
    const char *path;
    struct text beside_path;
    const struct declared *declared;
    wanzoche system;
    int beside;       /* the file beside the journal; -1 if this user may not read it */
    int file;         /* the file of the journal that is read */
    uint64_t segment; /* how many files were read to their ends */
    uint64_t at;      /* how many bytes of this one were; 0 before its head */
    uint64_t lines;   /* how many lines of this one, without its head */
    bool is_new;      /* all is read anew by the next look */
    char *buffer;     /* HEAD_LENGTH + CHUNK bytes */
};

static bool is_at(const char *path, int file) {
    struct stat one, other;
    return file >= 0 && stat(path, &one) == 0 && fstat(file, &other) == 0 && one.st_ino == other.st_ino && one.st_dev == other.st_dev;
}

static bool is_there(const char *path) {
    struct stat state;
    return stat(path, &state) == 0;
}

/* Where the file that is read will be when it is moved away. */
static struct text archive_of(const struct reader *reader) {
    struct text path = {NULL, 0, 0};
    add(&path, "%s.%llu", reader->path, (unsigned long long)reader->segment + 1);
    return path;
}

static bool fails_at(const char *path, const char *what) {
    return fails_by_store((wanzoche_answer){WANZOCHE_SYSTEM, (uint64_t)errno}, "%s %s: %s", path, what, strerror(errno));
}

/* What is wrong with a file of the journal, in this line of it, from 1; 0 if none is meant. */
static bool is_broken(struct reader *reader, uint64_t line, const char *what) {
    wanzoche_answer corrupt = {WANZOCHE_CORRUPT, line};
    struct text archive = archive_of(reader);
    const char *path = is_at(reader->path, reader->file) ? reader->path : archive.at;
    reader->is_new = true;
    if (line == 0) fails_by_store(corrupt, "%s: %s", path, what);
    else fails_by_store(corrupt, "%s in line %llu: %s", path, (unsigned long long)line, what);
    clear_text(&archive);
    return false;
}

static void close_files(struct reader *reader) {
    if (reader->beside >= 0) close(reader->beside);
    if (reader->file >= 0) close(reader->file);
    reader->beside = reader->file = -1;
    wanzoche_close(&reader->system);
}

/* Opens the next file of the journal: one that was moved away, or the last. */
static bool open_next(struct reader *reader) {
    struct text archive = archive_of(reader);
    bool is_right = false, is_moved;
    const char *path = reader->path;
    reader->at = reader->lines = 0;
    while (!is_right) {
        if (reader->file >= 0) close(reader->file);
        is_moved = is_there(archive.at);
        path = is_moved ? archive.at : reader->path;
        reader->file = open(path, O_RDONLY | O_CLOEXEC);
        /* else it was moved away meanwhile, and another one stands there */
        is_right = reader->file < 0 || is_moved || !is_there(archive.at) || is_at(archive.at, reader->file);
    }
    is_right = reader->file >= 0 || fails_at(path, "can't be opened");
    clear_text(&archive);
    return is_right;
}

/* Opens the files, and knows nothing of the journal. */
static bool begin_anew(struct reader *reader) {
    char message[WANZOCHE_MESSAGE];
    const char *text = reader->declared->text;
    wanzoche_answer answer;
    close_files(reader);
    reader->segment = 0;
    reader->beside = open(reader->beside_path.at, O_RDONLY | O_CLOEXEC);
    if (reader->beside < 0 && errno != EACCES) return fails_at(reader->beside_path.at, "can't be opened");
    answer = wanzoche_open_without_journal(&reader->system, text, strlen(text), ROOM, message, sizeof message);
    if (answer.code != WANZOCHE_OPENED) end_without_memory();
    return open_next(reader);
}

/* Goes behind the first line. True if that is being written, too; then nothing was read. */
static bool read_head(struct reader *reader) {
    char head[64];
    int behind = 0;
    unsigned long room = 0;
    ssize_t found = pread(reader->file, head, sizeof head - 1, 0);
    if (found < 0) return fails_at(reader->path, "can't be read");
    head[found] = 0;
    if (sscanf(head, "journal 3 room %7lu%n", &room, &behind) == 1 && head[behind] == '\n' && head[sizeof "journal 3 room"] != '0')
        reader->at = (uint64_t)behind + 1;
    if (reader->at > 0 || (memchr(head, '\n', (size_t)found) == NULL && found < (ssize_t)sizeof head - 1)) return true;
    return is_broken(reader, 1, "it has no head as `journal 3 room 1048576`");
}

/* Of lines that aren't taken over: which one it is, and what is owed. */
static bool is_wrong(struct reader *reader, const char *lines, wanzoche_answer answer, const wanzoche_taken *taken) {
    uint64_t before = answer.code == WANZOCHE_WRONG_LINE ? answer.number : answer.number - 1;
    uint32_t owed = taken->owed.code;
    struct text what = {NULL, 0, 0};
    for (uint64_t k = 0; k < before; k++) lines = strchr(lines, '\n') + 1;
    add(&what, "`%.*s`", (int)(strcspn(lines, "\n") < MOST_SHOWN ? strcspn(lines, "\n") : MOST_SHOWN), lines);
    if (answer.code != WANZOCHE_WRONG_LINE) add(&what, " isn't a line of a journal");
    else if (owed == WANZOCHE_STARTED || owed == WANZOCHE_BLOCKED || owed == WANZOCHE_USED)
        add(&what, ", where `%s %llu` is owed", wanzoche_words(owed), (unsigned long long)taken->owed.number);
    else add(&what, ", where `%s` is owed", wanzoche_words(owed));
    is_broken(reader, reader->lines + before + 2, what.at);
    clear_text(&what);
    return false;
}

/* Adds lines without their marks. */
static void add_unmarked(struct text *text, const char *lines, size_t length) {
    const char *end = lines + length;
    while (lines < end) {
        const char *feed = memchr(lines, '\n', (size_t)(end - lines));
        lines += *lines == '+';
        add_bytes(text, lines, (size_t)(feed + 1 - lines));
        lines = feed + 1;
    }
}

/* Takes over whole lines, which stand in the buffer behind a head. */
static bool take_over(struct reader *reader, size_t length, struct text *text) {
    char *lines = reader->buffer + HEAD_LENGTH;
    wanzoche_taken taken;
    wanzoche_answer answer;
    memcpy(reader->buffer, HEAD, HEAD_LENGTH);
    answer = wanzoche_take_over(&reader->system, reader->buffer, HEAD_LENGTH + length, &taken);
    if (answer.code == WANZOCHE_OUT_OF_MEMORY) end_without_memory();
    lines[length] = 0;
    if (answer.code != WANZOCHE_TAKEN) return is_wrong(reader, lines, answer, &taken);
    if (taken.bytes < HEAD_LENGTH + length) return is_broken(reader, reader->lines + taken.lines + 2, "this isn't a line of a journal");
    if (text != NULL) add_unmarked(text, lines, length);
    reader->at += length;
    reader->lines += taken.lines;
    return true;
}

/* What is there of this file, up to its last whole line. */
static bool read_lines(struct reader *reader, struct text *text) {
    struct stat state;
    if (fstat(reader->file, &state) != 0) return fails_at(reader->path, "can't be read");
    if ((uint64_t)state.st_size < reader->at) return is_broken(reader, 0, "lines are gone that were there");
    if (reader->at == 0 && !read_head(reader)) return false;
    while (reader->at > 0 && reader->at < (uint64_t)state.st_size) {
        uint64_t left = (uint64_t)state.st_size - reader->at;
        ssize_t found = pread(reader->file, reader->buffer + HEAD_LENGTH, left < CHUNK ? (size_t)left : CHUNK, (off_t)reader->at);
        if (found < 0) return fails_at(reader->path, "can't be read");
        while (found > 0 && reader->buffer[HEAD_LENGTH + (size_t)found - 1] != '\n') found--;
        if (found == 0) return true;
        if (!take_over(reader, (size_t)found, text)) return false;
    }
    return true;
}

/* All that is there, to the end of the last file. */
static bool read_on(struct reader *reader, struct text *text) {
    struct stat state;
    for (;;) {
        bool is_last = is_at(reader->path, reader->file); /* asked before it is read: when it has been moved away nothing is added to it */
        if (!is_last && !is_there(reader->path)) return fails("%s is gone", reader->path);
        if (!read_lines(reader, text)) return false;
        if (is_last) return true;
        if (fstat(reader->file, &state) != 0 || reader->at < (uint64_t)state.st_size)
            return is_broken(reader, 0, "a file that was moved away doesn't end with a whole line");
        reader->segment++;
        if (!open_next(reader)) return false;
    }
}

/* Whether the files are those that are followed, moved away or not. */
static bool has_same_files(struct reader *reader) {
    struct text archive = archive_of(reader);
    bool is_same = (reader->beside < 0 || is_at(reader->beside_path.at, reader->beside)) &&
                   (is_at(reader->path, reader->file) || is_at(archive.at, reader->file));
    clear_text(&archive);
    return is_same;
}

/*
** Takes over what was appended since the last look, and adds it to a text that isn't
** null. `is_again` says whether all was read anew, as the first time, and where other
** files are there than before.
*/
bool look(struct reader *reader, struct text *text, bool *is_again) {
    *is_again = false;
    if (!reader->is_new && has_same_files(reader)) {
        if (read_on(reader, text)) return true;
        if (!is_corrupt()) return false; /* else a line was read that was taken back; or it comes again below */
    }
    *is_again = reader->is_new = true;
    if (text != NULL) clear_text(text);
    if (!begin_anew(reader) || !read_on(reader, text)) return false;
    reader->is_new = false;
    return true;
}

struct reader *new_reader(const char *path, const struct declared *declared) {
    struct reader *reader = take_memory(1, sizeof *reader);
    *reader = (struct reader){.path = path, .declared = declared, .beside = -1, .file = -1, .is_new = true};
    reader->buffer = take_memory(HEAD_LENGTH + CHUNK + 1, 1);
    add(&reader->beside_path, "%s.shared", path);
    return reader;
}

/* A number that is another one when the files or who waits have changed. */
uint64_t stamp_of(const struct reader *reader) {
    struct stat state = {0}, beside = {0};
    uint64_t sum;
    (void)!stat(reader->path, &state);
    (void)!stat(reader->beside_path.at, &beside);
    sum = ((uint64_t)state.st_size * 31 + (uint64_t)state.st_ino) * 31 + (uint64_t)beside.st_ino;
    return reader->beside < 0 ? sum : sum + stamp_beside(reader->beside);
}

/* Whether each operation in progress is the first of its worker's: which ones have told of it already is kept in a table by workers. */
static bool *find_firsts(const wanzoche_activation *live, uint32_t count) {
    size_t mask = 15;
    bool *firsts = take_memory(count, sizeof *firsts);
    uint32_t *told;
    while (mask < (size_t)count * 2) mask = mask * 2 + 1;
    told = take_memory(mask + 1, sizeof *told);
    for (uint32_t k = 0; k < count; k++) {
        size_t at = (size_t)(live[k].worker * UINT32_C(2654435761)) & mask;
        while (told[at] != 0 && live[told[at] - 1].worker != live[k].worker) at = (at + 1) & mask;
        firsts[k] = told[at] == 0;
        if (firsts[k]) told[at] = k + 1;
    }
    free(told);
    return firsts;
}

/* Adds who is dead of those that have something in progress, and which processes they are. */
static void add_workers(const struct reader *reader, struct text *text, const wanzoche_activation *live, uint32_t count) {
    bool *firsts = find_firsts(live, count);
    for (uint32_t k = 0; k < count; k++)
        if (is_gone_beside(reader->beside, live[k].worker))
            add(text, "lost %llu %u %s\n", (unsigned long long)live[k].number, live[k].worker, reader->declared->names[live[k].operation]);
    for (uint32_t k = 0; k < count; k++) {
        uint64_t process = firsts[k] ? process_beside(reader->beside, live[k].worker) : 0;
        if (process > 0) add(text, "process %u %llu\n", live[k].worker, (unsigned long long)process);
    }
    free(firsts);
}

/* Adds the text of a report, as a store that is open would write it, as far as the files were read, and this user may know. */
void add_report(struct reader *reader, struct text *text) {
    wanzoche_answer size = wanzoche_report(&reader->system, NULL, 0);
    uint32_t count = wanzoche_live(&reader->system);
    wanzoche_activation *live;
    char *report = take_memory((size_t)size.number + 1, 1);
    if (wanzoche_report(&reader->system, report, (size_t)size.number + 1).code != WANZOCHE_WRITTEN) end_without_memory();
    add_bytes(text, report, (size_t)size.number);
    free(report);
    live = take_memory(count, sizeof *live);
    if (reader->beside >= 0) add_workers(reader, text, live, wanzoche_list_live(&reader->system, live, count));
    free(live);
}

/* How many wait for each operation, as far as this user may know. */
void count_at(const struct reader *reader, uint32_t counts[WANZOCHE_MOST_OPERATIONS]) {
    memset(counts, 0, WANZOCHE_MOST_OPERATIONS * sizeof *counts);
    if (reader->beside >= 0) count_beside(reader->beside, counts);
}

/* Gives the files and the memory back. */
void close_reader(struct reader *reader) {
    close_files(reader);
    clear_text(&reader->beside_path);
    free(reader->buffer);
    free(reader);
}
