/*
** Writing lines, in a turn in which all others were followed. The core says first
** which reply is owed, then the line is written, and then the attempt is made: so
** a line that can't be written has changed nothing, here or in the journal.
*/
#include "store.h"

#define LINE_SIZE 128 /* more than the longest line has */

char *put_number(char *at, uint64_t number) {
    char digits[20];
    int count = 0;
    do digits[count++] = (char)('0' + number % 10);
    while ((number /= 10) > 0);
    while (count > 0) *at++ = digits[--count];
    return at;
}

static char *put_word(char *at, const char *word) {
    size_t length = strlen(word);
    memcpy(at, word, length);
    return at + length;
}

/* The begin of a line: `+` if the line before it may not be on the disk. */
static char *put_worker(const store *s, char *at, uint32_t worker) {
    if (s->page->synced < journal_end(s)) *at++ = '+';
    return put_number(at, worker);
}

/*
** Appends a whole line, or nothing, and puts what it says into the ring. It counts for
** all others from the moment when the page says so. If a part of it can't be taken back, the file is longer than
** that, and the next turn sees it.
*/
static bool append(store *s, const char *line, char *end, struct answered attempt) {
    struct replica *r = &s->replica;
    *end++ = '\n';
    if (!write_whole(r->file->file, line, (size_t)(end - line))) {
        refuse_by_system(s, "can't be written");
        s->is_current = cut_file(r->file->file, r->at) == 0;
        return false;
    }
    r->at += (uint64_t)(end - line);
    r->lines++;
    put_attempt(s, attempt);
    return true;
}

/* What the core does has to be what it has said. */
static bool has_kept(store *s, wanzoche_answer owed, wanzoche_answer given) {
    if (owed.code == given.code && owed.number == given.number) return true;
    return give_up_store(s, WANZOCHE_CORRUPT, 0, "%.300s: an attempt wasn't answered as it was owed", s->path);
}

/* A start, if it is admitted: false only if something is wrong. */
bool write_start(store *s, uint32_t operation, wanzoche_answer *answer) {
    char line[LINE_SIZE], *at;
    bool has;
    *answer = wanzoche_owed_start(&s->replica.system, s->worker, operation);
    if (answer->code != WANZOCHE_STARTED) return true;
    if (!has_room(s, 2, &has)) return false;
    if (!has) {
        *answer = (wanzoche_answer){WANZOCHE_NO_ROOM, 0};
        return true;
    }
    at = put_word(put_worker(s, line, s->worker), " start ");
    at = put_word(put_word(at, s->names[operation]), ": started ");
    return append(s, line, put_number(at, answer->number), (struct answered){ATTEMPT_STARTED, s->worker, operation, answer->number, 0}) &&
           has_kept(s, *answer, wanzoche_start(&s->replica.system, s->worker, operation));
}

/* A finish, if the activation is the worker's. */
bool write_finish(store *s, uint32_t worker, uint64_t activation, wanzoche_answer *answer) {
    char line[LINE_SIZE], *at;
    *answer = wanzoche_owed_finish(&s->replica.system, worker, activation);
    if (answer->code != WANZOCHE_FINISHED) return true;
    at = put_word(put_worker(s, line, worker), " finish ");
    at = put_word(put_number(at, activation), ": finished");
    return append(s, line, at, (struct answered){ATTEMPT_FINISHED, worker, 0, activation, 0}) &&
           has_kept(s, *answer, wanzoche_finish(&s->replica.system, worker, activation));
}

/* A use, if the device serves it. */
bool write_use(store *s, uint64_t activation, uint32_t verb, uint64_t number, wanzoche_answer *answer) {
    static const char *const VERBS[] = {" put ", " take", " look", " add "};
    char line[LINE_SIZE], *at;
    bool has;
    *answer = wanzoche_owed_use(&s->replica.system, s->worker, activation, verb, number);
    if (answer->code != WANZOCHE_USED) return true;
    if (!has_room(s, 1, &has)) return false;
    if (!has) {
        *answer = (wanzoche_answer){WANZOCHE_NO_ROOM, 0};
        return true;
    }
    at = put_number(put_word(put_worker(s, line, s->worker), " use "), activation);
    at = put_word(at, VERBS[verb]);
    if (verb == WANZOCHE_PUT || verb == WANZOCHE_ADD) at = put_number(at, number);
    at = put_number(put_word(at, ": used "), answer->number);
    return append(s, line, at, (struct answered){.kind = ATTEMPT_IN_FILE, .number = s->replica.segment}) &&
           has_kept(s, *answer, wanzoche_use(&s->replica.system, s->worker, activation, verb, number));
}
