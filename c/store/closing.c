/* Ending an opening: what is in progress is finished, and all is given back. */
#include <pthread.h>
#include <sys/mman.h>

#include "store.h"

/* Gives back whatever there is but memory. */
static void give_back(store *s) {
    void *page = s->page;
    take_from_forks(s);
    if (s->is_forked) return; /* what a child had of it is given back */
    s->page = NULL;
    if (page != NULL) munmap(page, SHARED_SIZE);
    if (s->beside >= 0) close(s->beside);
    if (s->folder >= 0) close(s->folder);
    s->beside = s->folder = -1;
    wanzoche_close(&s->replica.system); /* a thread that isn't there may have been in a call of it, in a child */
    let_go(s->door);
    let_go(s->replica.file);
    s->door = s->replica.file = NULL;
}

/* The whole of it. */
void take_apart(store *s) {
    give_back(s);
    free(s->names);
    free(s->declaration);
    free(s->buffer);
    free(s->list);
    free(s->held);
    free(s);
}

/* Of what can't be finished in time, leaves the finishes to others. */
static void owe_all(store *s) {
    uint32_t count;
    while (!lock_until(&s->lock, NEVER)) continue;
    if (s->is_over || !list_live(s, &count)) count = 0;
    unlock(&s->lock);
    for (uint32_t k = 0; k < count; k++) {
        int slot = s->list[k].worker == s->worker ? claim_slot(s) : -1;
        if (slot < 0) continue;
        s->page->slots[slot].activation = s->list[k].number;
        publish_slot(s, slot, SLOT_OWED);
    }
    if (count > 0) leave_duty(s);
}

/* Nobody waits here any more, of those too that wait by records. */
static void free_slots(store *s) {
    for (int slot = 0; slot < SLOTS; slot++) {
        uint32_t word = s->page->slots[slot].word;
        if (SLOT_WORKER(word) == s->worker && (word & SLOT_STATE) != SLOT_OWED) free_slot(s, slot, s->worker);
    }
}

/* Finishes what this opening has in progress. */
static wanzoche_answer finish_all(store *s, int64_t limit) {
    uint32_t count;
    struct written written;
    wanzoche_answer answer = begin_turn(s, turn_limit(limit)), one;
    if (answer.code == WANZOCHE_LATE) owe_all(s);
    if (answer.code != DONE) return answer;
    answer = (wanzoche_answer){WANZOCHE_CLOSED, 0};
    free_slots(s);
    if (!list_live(s, &count)) {
        answer = s->trouble;
        count = 0;
    }
    for (uint32_t k = 0; k < count && answer.code == WANZOCHE_CLOSED; k++)
        if (s->list[k].worker == s->worker && !write_finish(s, s->worker, s->list[k].number, &one)) answer = s->trouble;
    if (s->is_current) announce(s);
    written = note_written(s);
    end_turn(s);
    return wait_for_sync(s, written, answer);
}

/*
** Waits until all calls have returned. Who sleeps in a slot is woken, again and
** again, since it may have looked just before; who sleeps for the turn sees it at
** the end of its slice.
*/
static void wait_for_visitors(store *s) {
    while (s->visitors > 0) {
        for (int slot = 0; slot < SLOTS; slot++)
            if (SLOT_WORKER(s->page->slots[slot].word) == s->worker) futex_wake(&s->page->slots[slot].word, 1, 0);
        ring_bell(s);
        pause_for(MILLISECOND / 5);
    }
    s->is_ending = true;
}

wanzoche_answer wanzoche_store_stop(wanzoche_store *store, int64_t limit) {
    wanzoche_answer answer = {WANZOCHE_CLOSED, 0};
    int cancel;
    if (store == NULL) return answer;
    if (store->is_forked) return (wanzoche_answer){WANZOCHE_FORKED, 0};
    if (atomic_exchange(&store->is_closing, true)) return answer;
    pthread_setcancelstate(PTHREAD_CANCEL_DISABLE, &cancel);
    wait_for_visitors(store);
    answer = finish_all(store, limit);
    give_back(store);
    pthread_setcancelstate(cancel, &cancel);
    return answer;
}

wanzoche_answer wanzoche_store_close(wanzoche_store *store, int64_t limit) {
    wanzoche_answer answer = wanzoche_store_stop(store, limit);
    if (answer.code == WANZOCHE_FORKED) answer.code = WANZOCHE_CLOSED;
    if (store != NULL) take_apart(store);
    return answer;
}
