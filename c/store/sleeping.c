/*
** Sleeping until one that waits may ask again: it was called, a door opens, or it is
** to look for the dead. One sleeps at the word of its slot; who listens for many
** sleeps at the bell of its opening, which is rung with each call of theirs.
**
** What is read of a record here may be written meanwhile by a thread that begins or
** ends it: each number is read in one piece, and that thread rings behind it.
*/
#include "store.h"

/* At most one look for the dead in a slice, of all that wait. This is only for pace: a clock that goes back does no harm. */
static bool may_look(store *s, uint64_t time) {
    uint64_t looked = s->page->looked;
    return (looked > time || time - looked >= SLICE) && atomic_compare_exchange_strong(&s->page->looked, &looked, time);
}

/* Whether it is to ask again. Its slice doesn't begin anew with each sleep, so that signals don't move its end. */
static bool has_to_ask(store *s, record *r, uint64_t time) {
    uint32_t place = GET(r->place);
    bool has_slot = place > 0 && place <= SLOTS, looks;
    if (has_slot && s->page->slots[place - 1].word != SLOT_OF(s->worker, SLOT_WAITING)) return true;
    if (time >= GET(r->opens)) return true;
    if (time < GET(r->looks_at)) return false;
    looks = may_look(s, time);
    SET(r->looks, looks);
    SET(r->looks_at, time + SLICE);
    return looks || !has_slot;
}

/* When it asks again by itself. */
static uint64_t asks_at(record *r) {
    return sooner(GET(r->looks_at), GET(r->opens));
}

/* WANZOCHE_CALLED, or why it doesn't sleep any more. */
uint32_t sleep_in_slot(store *s, record *r, uint64_t until, bool ends_by_signal) {
    uint32_t waiting = SLOT_OF(s->worker, SLOT_WAITING);
    _Atomic uint32_t *word = r->place > SLOTS ? NULL : &s->page->slots[r->place - 1].word;
    bool is_signal = false;
    SET(r->looks, false);
    for (;;) {
        uint64_t time = now(), next;
        if (has_to_ask(s, r, time)) return WANZOCHE_CALLED;
        if (s->is_closing) return WANZOCHE_CLOSED;
        if (time >= until) return WANZOCHE_LATE;
        if (is_signal && ends_by_signal) return WANZOCHE_INTERRUPTED;
        next = sooner(asks_at(r), until);
        is_signal = word != NULL ? futex_wait(word, waiting, next, 0) : pause_for(next - time);
    }
}

/* The place of the first that is to ask again, from 0; NEVER if none is. And when one of them asks by itself. Those that don't wait any more are
** left out. */
static uint64_t first_to_ask(store *s, record *const *records, size_t count, uint64_t time, uint64_t *next) {
    for (size_t k = 0; k < count; k++) {
        if (GET(records[k]->place) == 0) continue;
        if (has_to_ask(s, records[k], time)) return k;
        *next = sooner(*next, asks_at(records[k]));
    }
    return NEVER;
}

static wanzoche_answer hear_all(store *s, record *const *records, size_t count, uint32_t *heard, uint64_t until) {
    _Atomic uint32_t *bell = &s->page->bells[s->worker % BELLS];
    bool is_signal = false;
    for (;;) {
        uint32_t seen = *bell, rung = s->rung;
        uint64_t time = now(), next = until, first = first_to_ask(s, records, count, time, &next);
        if (rung != *heard || is_signal) {
            *heard = rung;
            return (wanzoche_answer){WANZOCHE_INTERRUPTED, 0};
        }
        if (first != NEVER) return (wanzoche_answer){WANZOCHE_CALLED, first};
        if (s->is_closing) return (wanzoche_answer){WANZOCHE_CLOSED, 0};
        if (time >= until) return (wanzoche_answer){WANZOCHE_LATE, 0};
        is_signal = futex_wait(bell, seen, next, 0);
    }
}

wanzoche_answer wanzoche_store_listen(wanzoche_store *store, wanzoche_store_record *const *records, size_t count, uint32_t *heard,
                                      int64_t limit) {
    int cancel;
    wanzoche_answer answer = come_in(store, &cancel);
    if (answer.code != DONE) return answer;
    answer = hear_all(store, records, count, heard, deadline(limit));
    go_out(store, cancel);
    return answer;
}

/*
** The word of its slot is exchanged as by a call, so it isn't what one sleeps at any more, and whoever gives up then passes on what it may have been
** called for. If it comes to its slot only now, its caller looks before it sleeps. If the slot is another's of this opening by now, that one asks,
** and waits on.
*/
static void wake(store *s, record *r) {
    uint32_t place = __atomic_load_n(&r->place, __ATOMIC_SEQ_CST), waiting = SLOT_OF(s->worker, SLOT_WAITING);
    _Atomic uint32_t *word;
    if (place == 0 || place > SLOTS) return;
    word = &s->page->slots[place - 1].word;
    if (atomic_compare_exchange_strong(word, &waiting, SLOT_OF(s->worker, SLOT_CALLED))) futex_wake(word, 1, 0);
}

void wanzoche_store_wake(wanzoche_store *store, wanzoche_store_record *record) {
    int cancel;
    if (record == NULL || come_in(store, &cancel).code != DONE) return;
    wake(store, record);
    go_out(store, cancel);
}

void wanzoche_store_ring(wanzoche_store *store) {
    int cancel;
    if (come_in(store, &cancel).code != DONE) return;
    store->rung++;
    ring_bell(store);
    go_out(store, cancel);
}

/* Who listens in this opening looks again. */
void ring_bell(store *s) {
    _Atomic uint32_t *bell = &s->page->bells[s->worker % BELLS];
    ++*bell;
    futex_wake(bell, INT32_MAX, 0);
}
