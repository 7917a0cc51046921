/*
** Records: an operation by steps, for callers that are cut off by exceptions, that
** may not sleep, or that aren't threads. What a step has done stands in the record
** before it returns.
**
** A record is in one call at a time: `is_busy` is taken by an exchange, and who finds
** it taken changes nothing.
*/
#include "store.h"

_Static_assert(sizeof(record) == 112, "as Rust has it");

static bool take_record(record *r) {
    return !__atomic_exchange_n(&r->is_busy, 1, __ATOMIC_SEQ_CST);
}

static void give_record(record *r) {
    __atomic_store_n(&r->is_busy, 0, __ATOMIC_SEQ_CST);
}

/* Up to when a step waits for its turn. */
static struct limit step_limit(int64_t milliseconds) {
    uint64_t time = now();
    return (struct limit){time, milliseconds == 0 ? 0 : deadline_from(time, milliseconds)};
}

/* What was written last is its own: up to there it is synced. */
static void note_end(record *r, struct written written) {
    if (written.file == NULL) return;
    r->end = written.end;
    let_go(written.file);
}

/* Beginning */

static wanzoche_answer begin(store *s, record *r, bool waits, struct limit limit) {
    struct written written = {NULL, 0};
    wanzoche_answer answer = begin_turn(s, limit);
    if (answer.code == WANZOCHE_LATE) return answer;
    if (answer.code != DONE) give_up(s, r);
    else try_in_turn(s, r, waits ? NEVER : 0, &answer, &written);
    r->answered = answer.number;
    note_end(r, written);
    return answer;
}

/* It begins to be this caller's, unless it waits already. */
static void set_out(record *r, uint32_t operation, uint32_t priority, uint32_t caller, uint32_t waits) {
    if (!r->is_waiting) {
        begin_record(r, operation, priority, waits == WANZOCHE_TRY);
        r->caller = caller;
    }
    r->rings = waits == WANZOCHE_LISTEN;
}

wanzoche_answer wanzoche_store_begin(wanzoche_store *store, uint32_t operation, uint32_t priority, uint32_t caller, uint32_t waits,
                                     wanzoche_store_record *record, int64_t limit) {
    static const wanzoche_answer stale = {WANZOCHE_STALE, 0}, busy = {WANZOCHE_NOT_YOURS, 0};
    int cancel;
    wanzoche_answer answer = record == NULL ? stale : come_in(store, &cancel);
    if (answer.code != DONE) return answer;
    answer = busy;
    if (take_record(record)) {
        if (!record->is_live) {
            set_out(record, operation, priority, caller, waits);
            answer = begin(store, record, waits != WANZOCHE_TRY, step_limit(limit));
        }
        give_record(record);
    }
    go_out(store, cancel);
    return answer;
}

/* Waiting */

wanzoche_answer wanzoche_store_wait(wanzoche_store *store, wanzoche_store_record *record, int64_t limit) {
    static const wanzoche_answer stale = {WANZOCHE_STALE, 0}, busy = {WANZOCHE_NOT_YOURS, 0};
    int cancel;
    wanzoche_answer answer = record == NULL ? stale : come_in(store, &cancel);
    if (answer.code != DONE) return answer;
    answer = busy;
    if (take_record(record)) {
        answer = stale;
        if (record->is_waiting) answer.code = sleep_in_slot(store, record, deadline(limit), true);
        if (answer.code == WANZOCHE_CLOSED) give_up(store, record);
        give_record(record);
    }
    go_out(store, cancel);
    return answer;
}

/* Ending */

static bool stays_live(wanzoche_answer answer) {
    return answer.code == WANZOCHE_SYSTEM || answer.code == WANZOCHE_LATE || answer.code == WANZOCHE_OUT_OF_MEMORY;
}

/* Of the answer to a finish. */
static wanzoche_answer end_of(wanzoche_answer answer) {
    if (answer.code == WANZOCHE_STALE || answer.code == WANZOCHE_NOT_YOURS) answer.code = WANZOCHE_LOST;
    return answer;
}

static wanzoche_answer end(store *s, record *r, struct limit limit) {
    struct written written = {NULL, 0};
    wanzoche_answer answer = {WANZOCHE_STALE, 0};
    if (r->is_waiting) give_up(s, r);
    if (!r->is_live) return answer;
    answer = end_of(leave(s, r->number, limit, limit.until > 0, &written));
    r->is_live = stays_live(answer);
    r->answered = answer.number;
    note_end(r, written);
    return answer;
}

wanzoche_answer wanzoche_store_end(wanzoche_store *store, wanzoche_store_record *record, int64_t limit) {
    static const wanzoche_answer stale = {WANZOCHE_STALE, 0}, busy = {WANZOCHE_NOT_YOURS, 0};
    int cancel;
    wanzoche_answer answer = record == NULL ? stale : come_in(store, &cancel);
    if (record != NULL && (answer.code == WANZOCHE_CLOSED || answer.code == WANZOCHE_FORKED)) record->is_live = record->is_waiting = false;
    if (answer.code != DONE) return answer;
    answer = busy;
    if (take_record(record)) {
        answer = end(store, record, step_limit(limit));
        give_record(record);
    }
    go_out(store, cancel);
    return answer;
}

/* On the disk */

static wanzoche_answer sync_to(store *s, uint64_t end) {
    static const wanzoche_answer synced = {WANZOCHE_SYNCED, 0};
    struct written written = {NULL, end};
    if (s->no_sync || s->page->synced >= end) return synced;
    while (!lock_until(&s->lock, NEVER)) continue;
    if (!s->is_over) written.file = hold(s->replica.file); /* the file with this line, or one behind it, before which that is synced */
    unlock(&s->lock);
    return written.file == NULL ? fault_of(s) : wait_for_sync(s, written, synced);
}

wanzoche_answer wanzoche_store_sync(wanzoche_store *store, const wanzoche_store_record *record) {
    int cancel;
    wanzoche_answer answer = come_in(store, &cancel);
    if (answer.code != DONE) return answer;
    answer = sync_to(store, record == NULL ? 0 : record->end);
    go_out(store, cancel);
    return answer;
}

/* Passes */

/* In a turn: a finish that isn't written, as on a full disk, is left to the next one. */
static void finish_later(store *s, uint64_t activation) {
    int slot = claim_slot(s);
    if (slot < 0) return;
    s->page->slots[slot].activation = activation;
    publish_slot(s, slot, SLOT_OWED);
}

/* In a turn: begins and ends it, if it is admitted. Behind an end of the same turn it isn't withheld: that one goes on, and is over at once. */
static wanzoche_answer pass_in_turn(store *s, uint32_t operation, bool is_behind) {
    struct asker asker = {operation, 0, now(), NEVER, caller_of(0)};
    wanzoche_answer answer, over;
    int whom;
    (void)bury(s, false);
    whom = is_behind ? -1 : withheld_for(s, &asker, asker.arrived);
    if (whom >= 0) return (wanzoche_answer){WANZOCHE_WITHHELD, s->page->slots[whom].operation};
    if (!write_start(s, operation, &answer)) return s->trouble;
    if (answer.code != WANZOCHE_STARTED || write_finish(s, s->worker, answer.number, &over)) return answer;
    finish_later(s, answer.number);
    return s->trouble;
}

static wanzoche_answer pass(store *s, uint32_t operation, record *r, int64_t limit) {
    struct written written = {NULL, 0};
    wanzoche_answer answer = begin_turn(s, turn_limit(limit)), over = {WANZOCHE_FINISHED, 0};
    if (answer.code != DONE) return answer;
    if (r != NULL && !write_finish(s, s->worker, r->number, &over)) over = s->trouble;
    over = end_of(over);
    if (r != NULL) r->is_live = stays_live(over);
    if (r != NULL && !r->is_live) forget_held(s, r->number);
    answer = over.code == WANZOCHE_FINISHED ? pass_in_turn(s, operation, r != NULL) : over;
    if (s->is_current) {
        written = note_written(s);
        announce(s);
    }
    end_turn(s);
    return wait_for_sync(s, written, answer);
}

wanzoche_answer wanzoche_store_pass(wanzoche_store *store, uint32_t operation, wanzoche_store_record *record, int64_t limit) {
    static const wanzoche_answer stale = {WANZOCHE_STALE, 0}, busy = {WANZOCHE_NOT_YOURS, 0};
    int cancel;
    wanzoche_answer answer = come_in(store, &cancel);
    if (answer.code != DONE) return answer;
    answer = busy;
    if (record == NULL || take_record(record)) {
        answer = record != NULL && !record->is_live ? stale : pass(store, operation, record, limit);
        if (record != NULL) give_record(record);
    }
    go_out(store, cancel);
    return answer;
}
