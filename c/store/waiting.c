/*
** Who waits: slots in the page. A slot is claimed by one exchange of its word, so
** it is known from then on whose it is. Its bit in `used` is set when it has
** something to say, and is clear before its word is 0 again.
**
** Who is blocked has a slot that waits before it gives its turn: each finish is
** behind that, and sees it. announce exchanges WAITING for CALLED, and the word
** isn't what its owner sleeps at any more; so it doesn't matter whether it sleeps
** already. Who is called takes a turn, waits again, and asks. Who gives up
** exchanges the word for itself, and sees whether it was called: then the call is
** passed on by a duty, and reaches another.
*/
#include "store.h"

/* Whether any slot says something. */
bool has_slots(const store *s) {
    uint64_t used = 0;
    for (int k = 0; k < SLOTS / 64; k++) used |= s->page->used[k];
    return used != 0;
}

/* A slot of this opening, which nobody looks at yet; -1 if all are taken. */
int claim_slot(store *s) {
    struct page *page = s->page;
    for (int k = 0; k < SLOTS / 64; k++)
        for (uint64_t free = ~page->used[k]; free != 0; free &= free - 1) {
            int slot = k * 64 + __builtin_ctzll(free);
            uint32_t none = 0;
            if (page->slots[slot].word == 0 && goes_on("claim") &&
                atomic_compare_exchange_strong(&page->slots[slot].word, &none, SLOT_OF(s->worker, SLOT_CLAIMED)))
                return slot;
        }
    return -1;
}

/* From now on others look at it: what it says was written before. */
void publish_slot(store *s, int slot, uint32_t state) {
    s->page->slots[slot].word = SLOT_OF(s->worker, state);
    goes_on("publish");
    atomic_fetch_or(&s->page->used[slot / 64], UINT64_C(1) << slot % 64);
}

/* Gives a slot of this worker back, if it is still that one's: its state before. */
uint32_t free_slot(store *s, int slot, uint32_t worker) {
    struct page *page = s->page;
    uint32_t word = page->slots[slot].word;
    do
        if (SLOT_WORKER(word) != worker) return 0;
    while (!atomic_compare_exchange_strong(&page->slots[slot].word, &word, SLOT_OF(worker, SLOT_CLAIMED)));
    goes_on("free");
    atomic_fetch_and(&page->used[slot / 64], ~(UINT64_C(1) << slot % 64));
    page->slots[slot].word = 0;
    return word & SLOT_STATE;
}

/* In a turn: writes the finish that somebody has left to it. If that can't be written, the slot stays for another turn. */
static void finish_owed(store *s, int slot) {
    uint32_t worker = SLOT_WORKER(s->page->slots[slot].word);
    wanzoche_answer answer;
    if (write_finish(s, worker, s->page->slots[slot].activation, &answer)) free_slot(s, slot, worker);
}

/* Calls f for each slot that says something. */
static void for_used(store *s, void (*f)(store *, int, uint32_t, void *), void *with) {
    for (int k = 0; k < SLOTS / 64; k++)
        for (uint64_t used = s->page->used[k]; used != 0; used &= used - 1) {
            int slot = k * 64 + __builtin_ctzll(used);
            f(s, slot, s->page->slots[slot].word, with);
        }
}

static void note_owed(store *s, int slot, uint32_t word, void *with) {
    (void)with;
    if ((word & SLOT_STATE) == SLOT_OWED && s->is_current) finish_owed(s, slot);
}

/* Whether one was called for the operation that hasn't asked yet. It goes on with this when it has. */
static bool has_called(store *s, uint32_t operation) {
    uint16_t called = s->page->called[operation];
    return called != 0 && (s->page->slots[called - 1].word & SLOT_STATE) == SLOT_CALLED && s->page->slots[called - 1].operation == operation;
}

/* In a turn: calls one that waits. */
static void call(store *s, uint16_t slot) {
    struct slot *one = &s->page->slots[slot];
    uint32_t word = one->word;
    if ((word & SLOT_STATE) != SLOT_WAITING || s->dues == OPERATIONS || !goes_on("call")) return;
    if (!atomic_compare_exchange_strong(&one->word, &word, (word & ~(uint32_t)SLOT_STATE) | SLOT_CALLED)) return;
    s->page->called[one->operation] = (uint16_t)(slot + 1);
    s->due[s->dues] = &one->word;
    if (one->rings) {
        s->due[s->dues] = &s->page->bells[SLOT_WORKER(word) % BELLS];
        ++*s->due[s->dues];
    }
    s->dues++;
}

/*
** In a turn: writes the finishes that were left to it, and calls the first waiter
** for each operation and priority that may start, but for operations of which one
** is called. They are woken when the turn is over.
*/
void announce(store *s) {
    struct firsts firsts;
    uint64_t time;
    if (!has_slots(s)) return;
    for_used(s, note_owed, NULL);
    list_firsts(s, &firsts);
    time = now();
    for (unsigned k = 0; k < firsts.count; k++)
        if (!has_called(s, s->page->slots[firsts.slot[k]].operation) && is_to_be_called(s, &firsts, k, time)) call(s, firsts.slot[k]);
}

/* In a turn: what is in progress stands in `list`. */
bool list_live(store *s, uint32_t *count) {
    *count = wanzoche_live(&s->replica.system);
    if (*count > s->list_capacity) {
        wanzoche_activation *list = realloc(s->list, *count * sizeof *list);
        if (list == NULL) return refuse_for_memory(s);
        s->list = list;
        s->list_capacity = *count;
    }
    *count = wanzoche_list_live(&s->replica.system, s->list, *count);
    return true;
}

/* In a turn: frees the slots of the dead, and writes the finishes that stood in them. */
static void bury_slots(store *s) {
    for (int slot = 0; slot < SLOTS; slot++) {
        uint32_t word = s->page->slots[slot].word, state = word & SLOT_STATE;
        if (word == 0 || (state != SLOT_OWED && !is_gone(s, SLOT_WORKER(word)))) continue;
        if (state == SLOT_OWED) finish_owed(s, slot);
        else free_slot(s, slot, SLOT_WORKER(word));
    }
}

/*
** In a turn: finishes what the dead have in progress, unless that is to stay:
** whether there was any. With `slots` it also frees their slots, and those who were
** called longer ago than a slice and haven't asked, since they are stopped, aren't
** waited for any more.
*/
bool bury(store *s, bool slots) {
    uint32_t count, alive = s->worker;
    uint64_t before = journal_end(s);
    if (slots) memset(s->page->called, 0, sizeof s->page->called);
    if (slots) bury_slots(s);
    if (s->keep_lost || !list_live(s, &count)) return journal_end(s) != before;
    for (uint32_t k = 0; k < count && s->is_current; k++) {
        wanzoche_answer answer;
        if (s->list[k].worker == alive) continue;
        if (!is_gone(s, s->list[k].worker)) alive = s->list[k].worker;
        else if (!write_finish(s, s->list[k].worker, s->list[k].number, &answer)) break;
        else add_news(s, WANZOCHE_FINISHED_LOST, s->list[k].worker, s->list[k].operation, s->list[k].number);
    }
    return journal_end(s) != before;
}

struct count {
    uint32_t operation, count;
};

static void note_waiting(store *s, int slot, uint32_t word, void *with) {
    struct count *count = with;
    uint32_t state = word & SLOT_STATE;
    if ((state == SLOT_WAITING || state == SLOT_CALLED) && s->page->slots[slot].operation == count->operation && !is_gone(s, SLOT_WORKER(word)))
        count->count++;
}

uint32_t count_waiting(store *s, uint32_t operation) {
    struct count count = {operation, 0};
    for_used(s, note_waiting, &count);
    return count.count;
}
