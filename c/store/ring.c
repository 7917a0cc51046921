/*
** The ring of attempts: what was answered last, for others to follow without the
** file. Whoever has the turn puts each start and finish there behind its line. The
** others make the same attempt, each in its own system of the core, and compare the
** answers: outside of a turn as far as they can.
**
** ORDER. The line is written, then its record, then the page's `end`, and then the
** page's `attempts`. So what counts in the ring stands in the file, and somebody who
** dies in between leaves
**
**   a part of a line, or a line behind `end`: the next turn mends it (journal.c);
**   a part of a record, or a record behind `attempts`: nobody looks at it, and the
**   next one is written in its place;
**   an `end` without a record: who has followed all records, has the turn, and isn't
**   at `end` reads the file.
**
** Who has read the file in a turn puts a record there that sends others to it, too.
** The lines of uses, and where another file begins, stand in the file alone likewise.
**
** OVERRUN. Outside of a turn a record may be written over while it is copied, with the
** one that comes ATTEMPTS later. Before that is begun `attempts` is as high as to tell
** it: so what was copied counts if `attempts` is less behind the copying. Else this
** opening has lost its place: it reads the file, and finds its place in its next turn,
** in which nobody writes there.
**
** All of that is stored by releases and loaded by acquires at least: who has copied a
** part of a later record finds the `attempts` that was stored before it.
*/
#include <stdio.h>

#include "store.h"

#define BATCH 32

static void set_word(_Atomic uint32_t *word, uint32_t to) {
    atomic_store_explicit(word, to, memory_order_release);
}

static void set_number(_Atomic uint64_t *number, uint64_t to) {
    atomic_store_explicit(number, to, memory_order_release);
}

static struct attempt *record_at(const store *s, uint64_t place) {
    return &s->ring[place % ATTEMPTS];
}

/* In a turn, in which all was followed: what was written up to the end of what is followed counts from now on, and this is its record. */
void put_attempt(store *s, struct answered attempt) {
    struct page *page = s->page;
    uint64_t place = page->attempts;
    struct attempt *at = record_at(s, place);
    goes_on("record");
    set_word(&at->kind, attempt.kind);
    set_word(&at->worker, attempt.worker);
    goes_on("half_record");
    set_word(&at->operation, attempt.operation);
    set_number(&at->number, attempt.number);
    set_number(&at->end, journal_end(s));
    goes_on("end");
    set_number(&page->end, journal_end(s));
    goes_on("attempts");
    set_number(&page->attempts, place + 1);
    s->replica.place = place + 1;
}

/* In a turn, in which all was followed: one that has lost its place has it again. */
void find_place(store *s) {
    struct page *page = s->page;
    uint64_t made = page->attempts;
    if (s->replica.place != NO_PLACE) return;
    if (made > 0 && record_at(s, made - 1)->end == page->end) s->replica.place = made;
    else put_attempt(s, (struct answered){.kind = ATTEMPT_IN_FILE, .number = s->replica.segment});
}

/* Copies so many records: false if one of them may have been written over meanwhile. */
static bool copy_attempts(store *s, uint64_t from, uint64_t count, struct answered *to) {
    for (uint64_t k = 0; k < count; k++) {
        const struct attempt *at = record_at(s, from + k);
        goes_on("copy");
        to[k] = (struct answered){at->kind, at->worker, at->operation, at->number, at->end};
    }
    return s->page->attempts - from < ATTEMPTS;
}

static bool break_at_attempt(store *s, const struct answered *attempt, wanzoche_answer owed) {
    const char *name = attempt->operation < s->operations ? s->names[attempt->operation] : "?";
    unsigned long long number = attempt->number;
    char line[120], reply[60], why[120];
    if (attempt->kind == ATTEMPT_STARTED) snprintf(line, sizeof line, "%u start %s: started %llu", attempt->worker, name, number);
    else snprintf(line, sizeof line, "%u finish %llu: finished", attempt->worker, number);
    write_reply(reply, sizeof reply, owed);
    snprintf(why, sizeof why, "` was answered to another process, where `%s` is owed", reply);
    return break_at(s, s->replica.lines + 2, line, strlen(line), why);
}

/* Makes an attempt that others have made: their answer has to be owed here, too. */
static bool make_attempt(store *s, const struct answered *attempt) {
    struct replica *r = &s->replica;
    wanzoche_answer owed;
    bool is_same;
    if (attempt->kind == ATTEMPT_STARTED) {
        owed = wanzoche_start(&r->system, attempt->worker, attempt->operation);
        is_same = owed.code == WANZOCHE_STARTED && owed.number == attempt->number;
    } else {
        owed = wanzoche_finish(&r->system, attempt->worker, attempt->number);
        is_same = owed.code == WANZOCHE_FINISHED;
    }
    if (!is_same) return break_at_attempt(s, attempt, owed);
    r->at = attempt->end - r->base;
    r->lines++;
    r->place++;
    return true;
}

/* Reads lines that stand in the file alone. If that is another file this opening has lost its place. */
static bool read_attempts(store *s, const struct answered *attempt) {
    struct replica *r = &s->replica;
    if (attempt->number != r->segment || r->file == NULL) {
        r->place = NO_PLACE;
        return true;
    }
    if (!follow(s, attempt->end - r->base)) return false;
    if (journal_end(s) != attempt->end) return break_at(s, r->lines + 2, "", 0, "this isn't a whole line of a journal");
    r->place++;
    return true;
}

static bool follow_attempt(store *s, const struct answered *attempt) {
    bool is_known = attempt->kind >= ATTEMPT_STARTED && attempt->kind <= ATTEMPT_IN_FILE;
    if (!is_known || attempt->end <= journal_end(s)) return break_at(s, s->replica.lines + 2, "", 0, "what was told of this line isn't whole");
    return attempt->kind == ATTEMPT_IN_FILE ? read_attempts(s, attempt) : make_attempt(s, attempt);
}

/* Follows the ring to its end. True, too, if this opening has no place in it, or has lost it: then the file goes on. */
bool follow_ring(store *s) {
    struct replica *r = &s->replica;
    struct answered copied[BATCH];
    while (r->place != NO_PLACE) {
        uint64_t left = s->page->attempts - r->place, count = left < BATCH ? left : BATCH;
        if (count == 0) return true;
        if (!copy_attempts(s, r->place, count, copied)) r->place = NO_PLACE;
        for (uint64_t k = 0; k < count && r->place != NO_PLACE; k++)
            if (!follow_attempt(s, &copied[k])) return false;
    }
    return true;
}
