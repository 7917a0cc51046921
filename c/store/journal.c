/*
** Following the journal: all lines that count, of all its files in their order,
** are taken over by the proved core, each only if its reply is owed. They are read
** here by an opening that has no place in the ring (ring.c): a new one, or one that
** was too far behind.
**
** Outside of a turn a line counts up to the page's `end`, which never goes back,
** and in a file that was moved away to its end. Who rotates says `segment` before
** `inode`, and both before `end`: so an `end` that was read before a `segment`
** lies in a file up to that one, and a file with the `inode` of the page is the
** one of `segment` if that is the same before and behind.
*/
#include <stdio.h>

#include "store.h"

#ifndef LOOK
#define LOOK UINT64_C(10000) /* so many nanoseconds the file isn't looked at again while nothing is strange about it */
#endif

static uint64_t count_moved(store *s);

/* What is followed is of no use any more, and so this opening isn't. The file is that which is followed, which may have been moved away. */
bool break_at(store *s, uint64_t line, const char *text, size_t length, const char *why) {
    uint64_t segment = s->replica.segment;
    char where[64] = "";
    int behind = 0;
    if (line > 0 && segment < count_moved(s)) behind = snprintf(where, sizeof where, ".%llu", (unsigned long long)segment + 1);
    if (line > 0) snprintf(where + behind, sizeof where - (size_t)behind, " in line %llu", (unsigned long long)line);
    return give_up_store(s, WANZOCHE_CORRUPT, line, "%.250s%s: %s%.*s%s", s->path, where, length == 0 ? "" : "`", (int)(length > 90 ? 90 : length), text, why);
}

/* A reply, as a line has it. */
void write_reply(char *to, size_t size, wanzoche_answer reply) {
    bool has_number = reply.code == WANZOCHE_STARTED || reply.code == WANZOCHE_BLOCKED || reply.code == WANZOCHE_USED;
    if (has_number) snprintf(to, size, "%s %llu", wanzoche_words(reply.code), (unsigned long long)reply.number);
    else snprintf(to, size, "%s", wanzoche_words(reply.code));
}

/* Of lines that the core doesn't take: which one it is, and why. */
static bool break_at_line(store *s, const char *lines, const char *end, wanzoche_answer answer, const wanzoche_taken *taken) {
    uint64_t before = answer.code == WANZOCHE_WRONG_LINE ? answer.number : answer.number > 0 ? answer.number - 1 : 0;
    char why[120], reply[60];
    const char *at = lines, *feed = NULL;
    for (uint64_t k = 0; k <= before && at != NULL; k++) {
        feed = memchr(at, '\n', (size_t)(end - at));
        if (k < before) at = feed == NULL ? NULL : feed + 1;
    }
    write_reply(reply, sizeof reply, taken->owed);
    if (answer.code == WANZOCHE_WRONG_LINE) snprintf(why, sizeof why, "`, where `%s` is owed", reply);
    else snprintf(why, sizeof why, "` isn't a line of a journal");
    return break_at(s, s->replica.lines + before + 2, at == NULL ? "" : at, at == NULL || feed == NULL ? 0 : (size_t)(feed - at), why);
}

static void note_workers(struct replica *r, const char *lines, size_t length) {
    const char *end = lines + length;
    while (lines < end) {
        uint64_t worker = 0;
        if (*lines == '+') lines++;
        while (lines < end && *lines >= '0' && *lines <= '9' && worker < UINT32_MAX) worker = worker * 10 + (uint64_t)(*lines++ - '0');
        if (worker > r->highest) r->highest = worker > UINT32_MAX ? UINT32_MAX : (uint32_t)worker;
        lines = memchr(lines, '\n', (size_t)(end - lines));
        if (lines == NULL) return;
        lines++;
    }
}

/* Takes over what stands in a text behind a head: up to the first line that no crash leaves so, or all whole lines. */
static bool take_over(store *s, const char *text, size_t length) {
    struct replica *r = &s->replica;
    wanzoche_taken taken;
    wanzoche_answer answer = wanzoche_take_over(&r->system, text, HEAD_LENGTH + length, &taken);
    size_t whole = taken.bytes > HEAD_LENGTH ? taken.bytes - HEAD_LENGTH : 0;
    if (answer.code == WANZOCHE_OUT_OF_MEMORY) return refuse_for_memory(s);
    if (answer.code != WANZOCHE_TAKEN) return break_at_line(s, text + HEAD_LENGTH, text + HEAD_LENGTH + length, answer, &taken);
    if (s->worker == 0) note_workers(r, text + HEAD_LENGTH, whole);
    r->lines += taken.lines;
    r->at += whole;
    return true;
}

/* Follows this file up to there, or to a line that isn't whole before it. */
bool follow(store *s, uint64_t to) {
    struct replica *r = &s->replica;
    while (r->at < to) {
        size_t wanted = to - r->at < CHUNK ? (size_t)(to - r->at) : CHUNK, whole = wanted;
        uint64_t before = r->at;
        ssize_t found = read_at(r->file->file, s->buffer + HEAD_LENGTH, wanted, r->at);
        if (found < 0) return refuse_by_system(s, "can't be read");
        if ((size_t)found < wanted) return break_at(s, 0, "", 0, "lines are gone that were there");
        while (whole > 0 && s->buffer[HEAD_LENGTH + whole - 1] != '\n') whole--;
        if (whole == 0) return true;
        if (!take_over(s, s->buffer, whole)) return false;
        if (r->at - before < whole) return true;
    }
    return true;
}

/*
** Takes over the whole lines at the end of the file, and cuts off what a crash
** has left behind them. The core says which lines these are: behind a broken line
** no other counts that may have been written before it was on the disk.
*/
bool mend(store *s, uint64_t size) {
    struct replica *r = &s->replica;
    size_t length = (size_t)(size - r->at);
    char *text = malloc(HEAD_LENGTH + length);
    bool is_taken = false;
    if (text == NULL) return refuse_for_memory(s);
    memcpy(text, HEAD, HEAD_LENGTH);
    for (size_t got = 0; got < length;) {
        ssize_t found = read_at(r->file->file, text + HEAD_LENGTH + got, length - got, r->at + got);
        if (found > 0) got += (size_t)found;
        else if (found == 0) length = got;
        else {
            free(text);
            return refuse_by_system(s, "can't be read");
        }
    }
    is_taken = take_over(s, text, length);
    /* While others have it open no machine has crashed: only a part of a line is there that one didn't write to its end. */
    if (is_taken && s->page->is_ready && r->at < size && memchr(text + HEAD_LENGTH + (r->at - (size - length)), '\n', (size_t)(size - r->at)) != NULL)
        is_taken = break_at(s, r->lines + 2, "", 0, "this isn't a line of a journal");
    free(text);
    if (!is_taken) return false;
    if (s->page->is_ready) s->page->end = r->base + r->at;
    r->place = NO_PLACE; /* what was taken over has no record yet */
    if (r->at < size && cut_file(r->file->file, r->at) != 0) return refuse_by_system(s, "has a torn end that can't be cut off");
    return true;
}

/* Reads the head of a file: false if there is none. */
static bool read_head(store *s) {
    struct replica *r = &s->replica;
    char head[64];
    unsigned long room = 0;
    size_t at = sizeof "journal 3 room " - 1;
    ssize_t found = read_at(r->file->file, head, sizeof head - 1, 0);
    if (found < (ssize_t)at || memcmp(head, "journal 3 room ", at) != 0 || head[at] == '0') return false;
    head[found] = 0;
    while (head[at] >= '0' && head[at] <= '9' && room <= WANZOCHE_MOST_LINES) room = room * 10 + (unsigned long)(head[at++] - '0');
    if (head[at] != '\n' || room == 0 || room > WANZOCHE_MOST_LINES) return false;
    r->room = (uint32_t)room;
    r->at = at + 1;
    r->lines = 0;
    return true;
}

/* How many files were moved away, as far as is known outside of a turn. */
static uint64_t count_moved(store *s) {
    struct stat state;
    bool is_half_moved;
    uint64_t segment = s->page->segment;
    if (s->page->is_ready) return segment;
    if (state_at(s->folder, s->name, &state) != 0) return segment;
    return count_archives(s, (uint64_t)state.st_ino, &is_half_moved);
}

/* Opens the file that comes next. True without one if somebody is moving it just now. */
static bool open_next(store *s) {
    struct replica *r = &s->replica;
    char name[NAME_SIZE];
    struct stat state;
    bool was_ready = s->page->is_ready, is_last = r->segment >= count_moved(s), is_it;
    struct lines *lines;
    archive_name(s, r->segment, name);
    lines = open_lines(s, is_last ? s->name : name, 0, 0, r->segment);
    if (lines == NULL && errno == ENOENT)
        return refuse(s, WANZOCHE_NOT_A_STORE, 0, "%.300s: the file %.100s of the journal is gone", s->path, is_last ? s->name : name);
    if (lines == NULL) return refuse_by_system(s, "can't be opened");
    is_it = !is_last || (file_state(lines->file, &state) == 0 && s->page->is_ready == was_ready &&
                         (!was_ready || (s->page->inode == (uint64_t)state.st_ino && s->page->segment == r->segment)));
    /* If one has the file to itself for a moment, nothing changes: that one sees who is alive. */
    if (is_it && is_last && lock_file(lines->file, LOCK_SH) == 0 && !meets_here(s, lines->file)) {
        let_go(lines);
        return false;
    }
    if (is_it) r->file = lines;
    else let_go(lines);
    return true;
}

/* Goes on behind a file that was moved away. */
static void retire(struct replica *r) {
    r->segment++;
    r->base += r->at;
    r->at = r->lines = 0;
    let_go(r->file);
    r->file = NULL;
}

/* Up to where this file counts, and whether it was moved away, so that this is its end. */
static bool find_end(store *s, uint64_t *to, bool *is_moved) {
    struct replica *r = &s->replica;
    struct stat state;
    bool was_ready;
    do {
        uint64_t end;
        was_ready = s->page->is_ready;
        end = s->page->end;
        *is_moved = r->segment < count_moved(s);
        if (was_ready && !*is_moved) {
            *to = end > r->base ? end - r->base : 0;
            return true;
        }
        if (file_state(r->file->file, &state) != 0) return refuse_by_system(s, "can't be read");
        *to = (uint64_t)state.st_size;
    } while (!was_ready && s->page->is_ready); /* else somebody may have written there by now */
    return true;
}

/* Reads all that counts in the files, as far as it can be known outside of a turn. In a turn that is all of it. */
static bool read_files(store *s) {
    struct replica *r = &s->replica;
    for (;;) {
        uint64_t to = 0;
        bool is_moved;
        if (r->file == NULL && !open_next(s)) return false;
        if (r->file == NULL) return true;
        if (!find_end(s, &to, &is_moved)) return false;
        if (r->at == 0 && !read_head(s)) {
            if (is_moved || s->page->is_ready) return break_at(s, 1, "", 0, "it has no head as `journal 3 room 1048576`");
            return true;
        }
        if (r->at < to && !follow(s, to)) return false;
        if (r->at < to && (is_moved || s->page->is_ready)) return break_at(s, r->lines + 2, "", 0, "this isn't a whole line of a journal");
        if (!is_moved) return true;
        retire(r);
    }
}

/* Follows what counts, outside of a turn, or in one: then all of it, but for what somebody has left without a record who died. */
bool follow_ahead(store *s) {
    if (s->is_over || !follow_ring(s)) return false;
    return s->replica.place != NO_PLACE || read_files(s);
}

/*
** Outside of a turn, each LOOK: whether the file is what it was. What is strange, as
** a file that is shorter than it was, is looked at again in the turn, and so is one
** that is longer than the journal then is: no line of another is under way there.
*/
void glance_at_file(store *s, uint64_t time) {
    struct replica *r = &s->replica;
    struct glance *glance = &s->glance;
    uint64_t end = s->page->end, inode = s->page->inode;
    struct stat state;
    if (glance->is_usual && time < glance->time + LOOK) return;
    glance->time = time;
    glance->is_usual = r->file != NULL && file_state(r->file->file, &state) == 0 && state.st_nlink > 0;
    if (!glance->is_usual) return;
    glance->end = r->base + (uint64_t)state.st_size;
    if (s->page->segment != r->segment) return; /* its name is another file's by now */
    glance->is_usual = glance->end >= end && (uint64_t)state.st_ino == inode && (uint64_t)state.st_dev == s->device;
}

/* In a turn, in which all was followed: whether the file is still what it was. */
static bool look_at_file(store *s) {
    struct replica *r = &s->replica;
    struct stat state;
    uint64_t size;
    if (file_state(r->file->file, &state) != 0) return refuse_by_system(s, "can't be used");
    if ((uint64_t)state.st_ino != s->page->inode || (uint64_t)state.st_dev != s->device)
        return give_up_store(s, WANZOCHE_CORRUPT, 0, "%.300s: this process has closed the file, and others have its descriptor", s->path);
    if (state.st_nlink == 0) return break_at(s, 0, "", 0, "the file was removed");
    size = (uint64_t)state.st_size;
    if (size < r->at) return break_at(s, 0, "", 0, "lines are gone that were there");
    return size == r->at || mend(s, size);
}

/* In a turn: follows all, and looks whether the file is still what it was, where it has to, or something was strange. */
bool catch_up(store *s, bool has_to_look) {
    struct replica *r = &s->replica;
    if (!follow_ahead(s)) return false;
    if (r->place != NO_PLACE && journal_end(s) != s->page->end) {
        r->place = NO_PLACE;
        if (!read_files(s)) return false;
    }
    if (r->file == NULL || r->segment != s->page->segment || journal_end(s) != s->page->end)
        return break_at(s, 0, "", 0, "it isn't the file that others have open");
    if (!has_to_look && s->glance.is_usual && s->glance.end <= journal_end(s)) return true;
    return look_at_file(s);
}
