/* Operations: they are begun, used and ended, each in a turn. */
#include "store.h"

#define WITHOUT_SLOT (5 * MILLISECOND) /* so long it sleeps if all slots are taken */
#define NOWHERE (SLOTS + 1)            /* the place of one that waits without a slot */

/* One that comes now. */
void begin_record(record *r, uint32_t operation, uint32_t priority, bool looks) {
    r->operation = operation;
    r->priority = priority;
    r->looks = looks;
    SET(r->place, 0);
    r->ticket = NEVER;
    r->arrived = now();
    r->opens = NEVER;
}

static struct asker asker_of(const record *r) {
    return (struct asker){r->operation, r->priority, r->arrived, r->ticket, caller_of(r->caller)};
}

static bool has_slot(const record *r) {
    return r->place > 0 && r->place < NOWHERE;
}

/* In a turn: it was called, and asks. If it is blocked again it waits on. */
static void hear(store *s, const record *r) {
    struct page *page = s->page;
    uint32_t called = SLOT_OF(s->worker, SLOT_CALLED);
    if (!has_slot(r)) return;
    atomic_compare_exchange_strong(&page->slots[r->place - 1].word, &called, SLOT_OF(s->worker, SLOT_WAITING));
    if (page->called[r->operation] == r->place) page->called[r->operation] = 0;
}

/* In a turn: waits from now on, in the order of the tickets. */
static void begin_to_wait(store *s, record *r) {
    struct asker asker = asker_of(r);
    int slot;
    r->is_waiting = true;
    SET(r->looks_at, now() + (r->place == NOWHERE ? WITHOUT_SLOT : SLICE));
    if (has_slot(r)) return;
    slot = claim_slot(s);
    __atomic_store_n(&r->place, slot < 0 ? NOWHERE : (uint32_t)slot + 1, __ATOMIC_SEQ_CST); /* before the caller looks whether it is to end */
    if (slot < 0) return;
    stand(s, slot, &asker);
    s->page->slots[slot].rings = r->rings;
    r->ticket = s->page->slots[slot].ticket;
    publish_slot(s, slot, SLOT_WAITING);
}

/* In a turn: whether its start is withheld, if any is, and for whom. Of one that is too late the message tells it. */
static bool is_withheld(store *s, record *r, bool withheld, uint64_t time, wanzoche_answer *answer) {
    struct asker asker = asker_of(r);
    int whom = withheld ? withheld_for(s, &asker, time) : -1;
    const struct slot *slot = &s->page->slots[whom < 0 ? 0 : whom];
    SET(r->opens, whom < 0 ? NEVER : opens_at(s, whom, time));
    if (whom < 0) return false;
    *answer = (wanzoche_answer){WANZOCHE_WITHHELD, slot->operation};
    tell_waiter(s, slot, time, &r->behind);
    refuse(s, WANZOCHE_WITHHELD, slot->operation, "behind %s of process %u, which has waited %.1f s", s->names[slot->operation],
           (unsigned)SLOT_WORKER(slot->word), (double)(time - slot->arrived) * 1e-9);
    return true;
}

/* In a turn: the answer to a start. */
static wanzoche_answer ask(store *s, record *r, bool withheld, uint64_t time) {
    wanzoche_answer answer;
    if (is_withheld(s, r, withheld, time, &answer)) return answer;
    if (!write_start(s, r->operation, &answer)) return s->trouble;
    if (answer.code != WANZOCHE_BLOCKED || !r->looks || !bury(s, has_slot(r))) return answer;
    if (is_withheld(s, r, withheld, time, &answer)) return answer;
    return write_start(s, r->operation, &answer) ? answer : s->trouble;
}

static bool has_to_wait(wanzoche_answer answer) {
    return answer.code == WANZOCHE_BLOCKED || answer.code == WANZOCHE_WITHHELD;
}

/* In a turn: waits no more. */
static void end_to_wait(store *s, record *r) {
    if (has_slot(r)) free_slot(s, (int)r->place - 1, s->worker);
    SET(r->place, 0);
    r->is_waiting = false;
}

/* In a turn: it is in progress. */
static void note_start(store *s, record *r, wanzoche_answer answer, struct written *written) {
    r->number = answer.number;
    r->is_live = true;
    *written = note_written(s);
    note_held(s, answer.number, asker_of(r).caller);
}

/* Its whole turn: whether it goes on waiting behind it. */
bool try_in_turn(store *s, record *r, uint64_t until, wanzoche_answer *answer, struct written *written) {
    uint64_t time = has_slots(s) ? now() : r->arrived; /* where nobody waits no time is looked at */
    bool waited = has_slot(r), withheld = withholds(s, time), waits;
    hear(s, r);
    *answer = ask(s, r, withheld, time);
    waits = has_to_wait(*answer) && now() < until;
    if (waits) begin_to_wait(s, r);
    else end_to_wait(s, r);
    if (waits && has_slot(r)) s->page->slots[r->place - 1].is_shut = r->opens != NEVER;
    if (answer->code == WANZOCHE_STARTED) note_start(s, r, *answer, written);
    /* Behind a start that was waited for, others may start beside it; and a call that comes to nothing is passed on. Where starts are withheld,
    ** others may go on behind any start, and behind one that begins to wait. */
    if (s->is_current && (r->looks || withheld || (waited && answer->code != WANZOCHE_BLOCKED))) announce(s);
    end_turn(s);
    return waits;
}

/* Waits no more, without a turn. A call that had come is passed on, and others may go on from whom starts were withheld for it. */
void give_up(store *s, record *r) {
    uint32_t place = r->place;
    bool withheld = has_slot(r) && withholds(s, now());
    SET(r->place, 0);
    r->is_waiting = false;
    if (place > 0 && place < NOWHERE && (free_slot(s, (int)place - 1, s->worker) == SLOT_CALLED || withheld)) leave_duty(s);
}

static wanzoche_answer enter(store *s, uint32_t operation, uint32_t priority, int64_t limit) {
    wanzoche_answer answer = {WANZOCHE_LATE, 0};
    struct limit turn;
    uint64_t until;
    record r = {0};
    begin_record(&r, operation, priority, limit == 0);
    until = deadline_from(r.arrived, limit);
    turn = turn_limit_from(r.arrived, limit);
    for (;;) {
        struct written written = {NULL, 0};
        wanzoche_answer begun = begin_turn(s, turn);
        uint32_t slept;
        if (begun.code != DONE) {
            give_up(s, &r);
            return begun.code == WANZOCHE_LATE ? answer : begun;
        }
        if (!try_in_turn(s, &r, until, &answer, &written)) return wait_for_sync(s, written, answer);
        slept = sleep_in_slot(s, &r, until, false);
        turn.begun = now();
        if (slept == WANZOCHE_CALLED) continue;
        give_up(s, &r);
        return slept == WANZOCHE_LATE ? answer : (wanzoche_answer){slept, 0};
    }
}

/* Leaves a finish to whoever has the next turn. */
static wanzoche_answer owe(store *s, uint64_t activation) {
    wanzoche_answer late = {WANZOCHE_LATE, 0}, owed = {WANZOCHE_OWED, 0};
    int slot = claim_slot(s);
    if (slot < 0) return late;
    s->page->slots[slot].activation = activation;
    publish_slot(s, slot, SLOT_OWED);
    leave_duty(s);
    return owed;
}

wanzoche_answer leave(store *s, uint64_t activation, struct limit limit, bool may_owe, struct written *written) {
    wanzoche_answer answer = begin_turn(s, limit);
    if (answer.code == WANZOCHE_LATE && may_owe) return owe(s, activation);
    if (answer.code != DONE) return answer;
    if (!write_finish(s, s->worker, activation, &answer)) answer = s->trouble;
    else forget_held(s, activation);
    if (answer.code == WANZOCHE_FINISHED) {
        *written = note_written(s);
        announce(s);
    }
    end_turn(s);
    return answer;
}

static wanzoche_answer use(store *s, uint64_t activation, uint32_t verb, uint64_t number, int64_t limit) {
    struct written written = {NULL, 0};
    wanzoche_answer answer = begin_turn(s, turn_limit(limit));
    if (answer.code != DONE) return answer;
    if (!write_use(s, activation, verb, number, &answer)) answer = s->trouble;
    if (answer.code == WANZOCHE_USED) written = note_written(s);
    end_turn(s);
    return wait_for_sync(s, written, answer);
}

wanzoche_answer wanzoche_store_enter_with_priority(wanzoche_store *store, uint32_t operation, uint32_t priority, int64_t limit) {
    int cancel;
    wanzoche_answer answer = come_in(store, &cancel);
    if (answer.code != DONE) return answer;
    answer = enter(store, operation, priority, limit);
    go_out(store, cancel);
    return answer;
}

wanzoche_answer wanzoche_store_enter(wanzoche_store *store, uint32_t operation, int64_t limit) {
    return wanzoche_store_enter_with_priority(store, operation, 0, limit);
}

wanzoche_answer wanzoche_store_leave(wanzoche_store *store, uint64_t activation, int64_t limit) {
    int cancel;
    struct written written = {NULL, 0};
    wanzoche_answer answer = come_in(store, &cancel);
    if (answer.code != DONE) return answer;
    answer = leave(store, activation, turn_limit(limit), true, &written);
    answer = wait_for_sync(store, written, answer);
    go_out(store, cancel);
    return answer;
}

wanzoche_answer wanzoche_store_use(wanzoche_store *store, uint64_t activation, uint32_t verb, uint64_t number, int64_t limit) {
    static const wanzoche_answer no_verb = {WANZOCHE_NO_VERB, 0};
    int cancel;
    wanzoche_answer answer;
    if (verb > WANZOCHE_ADD) return no_verb;
    answer = come_in(store, &cancel);
    if (answer.code != DONE) return answer;
    answer = use(store, activation, verb, number, limit);
    go_out(store, cancel);
    return answer;
}
