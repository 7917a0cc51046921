/*
** Who comes next among those who wait, over all processes: docs/waiting.md has the
** rule, and the core judges by it. It is told of those who are first for their
** operation and priority: behind one of them others wait for the same, and can't
** begin before it.
**
** What runs is what is in progress of those who don't wait. A slot says what the
** caller holds that waits in it, so that others know: a thread, or whoever a record
** says. Each opening knows by which of its callers its own operations were begun.
**
** Whose start is withheld has a slot that says so, and asks again by itself when
** the door opens. Who is dead shuts no door: who finds a start withheld for it
** frees its slot first.
**
** All is done in a turn, but for withholds.
*/
#include "store.h"

#ifndef SHUT
#define SHUT (200 * MILLISECOND) /* so long a door stays shut; then it opens for those who came meanwhile */
#endif

/* What is in progress, and by which thread */

/* The place of an activation in the table, or where it would be put. */
static size_t place_of(const store *s, uint64_t activation) {
    size_t at = activation & s->held_mask;
    while (s->held[at].is_used && s->held[at].activation != activation) at = (at + 1) & s->held_mask;
    return at;
}

/* Twice as many places; false if there is no memory. */
static bool widen(store *s) {
    struct holding *had = s->held;
    size_t places = had == NULL ? 0 : s->held_mask + 1, more = places == 0 ? 32 : 2 * places;
    s->held = calloc(more, sizeof *s->held);
    if (s->held == NULL) {
        s->held = had;
        return false;
    }
    s->held_mask = more - 1;
    for (size_t k = 0; k < places; k++)
        if (had[k].is_used) s->held[place_of(s, had[k].activation)] = had[k];
    free(had);
    return true;
}

/* Who calls: as it says, or this thread of the process, by a number above those that can be said; 0 if nobody is to be known by it. */
uint64_t caller_of(uint32_t said) {
    static _Atomic uint64_t last = UINT32_MAX;
    static _Thread_local uint64_t me;
    if (said == WANZOCHE_NO_CALLER) return 0;
    if (said != 0) return said;
    if (me == 0) me = ++last;
    return me;
}

/* This caller has it. Of nobody that isn't known, nor without memory, and it counts as running: a start may be withheld for as long as a door is
** shut. */
void note_held(store *s, uint64_t activation, uint64_t caller) {
    if (caller == 0 || ((s->held == NULL || 2 * s->held_count > s->held_mask) && !widen(s))) return;
    s->held[place_of(s, activation)] = (struct holding){activation, caller, true};
    s->held_count++;
}

/* Nobody here has it any more. What stands behind it moves up, so that it is found. */
void forget_held(store *s, uint64_t activation) {
    size_t at, next;
    if (s->held == NULL || !s->held[at = place_of(s, activation)].is_used) return;
    s->held_count--;
    for (next = (at + 1) & s->held_mask; s->held[next].is_used; next = (next + 1) & s->held_mask) {
        size_t home = s->held[next].activation & s->held_mask;
        if (((next - home) & s->held_mask) < ((next - at) & s->held_mask)) continue;
        s->held[at] = s->held[next];
        at = next;
    }
    s->held[at].is_used = false;
}

static bool is_of(const store *s, uint64_t activation, uint64_t caller) {
    const struct holding *one = s->held == NULL ? NULL : &s->held[place_of(s, activation)];
    return one != NULL && one->is_used && one->caller == caller;
}

/* What the caller holds stands in its slot; if it is more than a slot has room for, all of its process counts as waiting. */
static void say_held(store *s, struct slot *slot, uint64_t caller) {
    slot->helds = 0;
    for (size_t k = 0; s->held != NULL && k <= s->held_mask && slot->helds != HELD_ALL; k++) {
        if (!s->held[k].is_used || s->held[k].caller != caller) continue;
        if (slot->helds < HELD) slot->held[slot->helds++] = s->held[k].activation;
        else slot->helds = HELD_ALL;
    }
}

/* Patience */

/* How often the door of one has been shut by then; 0 before it has waited for its patience. */
static uint64_t times_shut(const struct slot *slot, uint64_t time) {
    return time < slot->shuts ? 0 : 1 + (time - slot->shuts) / SHUT;
}

/* Starts of those who came later than this are withheld for one by then; NEVER: of nobody. */
static uint64_t shut_at(const struct slot *slot, uint64_t time) {
    uint64_t times = times_shut(slot, time);
    return times == 0 ? NEVER : times == 1 ? 0 : slot->shuts + (times - 1) * SHUT;
}

bool waits(uint32_t word) {
    return (word & SLOT_STATE) == SLOT_WAITING || (word & SLOT_STATE) == SLOT_CALLED;
}

/* Whether somebody has waited for so long that starts may be withheld. It needs no turn: what it reads of a slot stays while the slot is used. */
bool withholds(store *s, uint64_t time) {
    for (int k = 0; k < SLOTS / 64; k++)
        for (uint64_t used = s->page->used[k]; used != 0; used &= used - 1) {
            const struct slot *slot = &s->page->slots[k * 64 + __builtin_ctzll(used)];
            if (waits(slot->word) && times_shut(slot, time) > 0) return true;
        }
    return false;
}

/* What the core is told */

/* Whether one stands before another, by their priorities and tickets. */
bool is_before(const struct slot *one, uint32_t priority, uint64_t ticket) {
    return one->priority != priority ? one->priority > priority : one->ticket < ticket;
}

static void add_first(store *s, struct firsts *firsts, uint16_t place) {
    const struct slot *slots = s->page->slots, *slot = &slots[place];
    unsigned at;
    for (at = 0; at < firsts->count; at++) {
        const struct slot *other = &slots[firsts->slot[at]];
        if (other->operation != slot->operation || other->priority != slot->priority) continue;
        if (slot->ticket < other->ticket) firsts->slot[at] = place;
        return;
    }
    firsts->slot[firsts->count++] = place;
}

/* Who is first for an operation and priority, in order. */
void list_firsts(store *s, struct firsts *firsts) {
    const struct slot *slots = s->page->slots;
    firsts->count = 0;
    for (int k = 0; k < SLOTS / 64; k++)
        for (uint64_t used = s->page->used[k]; used != 0; used &= used - 1) {
            int place = k * 64 + __builtin_ctzll(used);
            if (waits(slots[place].word) && slots[place].operation < s->operations) add_first(s, firsts, (uint16_t)place);
        }
    for (unsigned k = 1; k < firsts->count; k++) {
        uint16_t place = firsts->slot[k];
        unsigned at = k;
        for (; at > 0 && is_before(&slots[place], slots[firsts->slot[at - 1]].priority, slots[firsts->slot[at - 1]].ticket); at--)
            firsts->slot[at] = firsts->slot[at - 1];
        firsts->slot[at] = place;
    }
}

/* Whether somebody waits who holds it. */
static bool rests(store *s, const wanzoche_activation *one) {
    for (int k = 0; k < SLOTS / 64; k++)
        for (uint64_t used = s->page->used[k]; used != 0; used &= used - 1) {
            const struct slot *slot = &s->page->slots[k * 64 + __builtin_ctzll(used)];
            if (slot->helds == 0 || !waits(slot->word) || SLOT_WORKER(slot->word) != one->worker) continue;
            if (slot->helds == HELD_ALL) return true;
            for (unsigned n = 0; n < slot->helds && n < HELD; n++)
                if (slot->held[n] == one->number) return true;
        }
    return false;
}

/* In `list`, from its begin: the operations that run, but for those of the caller who asks, if it is of this process. False without memory. */
static bool list_running(store *s, uint64_t caller, uint32_t *count) {
    uint32_t live;
    uint32_t *running;
    *count = 0;
    if (!list_live(s, &live)) return false;
    running = (uint32_t *)(void *)s->list; /* each number is written behind where it is read */
    for (uint32_t k = 0; k < live; k++) {
        wanzoche_activation one = s->list[k];
        if ((caller != 0 && one.worker == s->worker && is_of(s, one.number, caller)) || rests(s, &one)) continue;
        running[(*count)++] = one.operation;
    }
    return true;
}

/* What a start would be answered that stands before none but these, and for whom it is withheld if it is: a slot, or -1. */
static uint32_t ruling(store *s, const struct asker *asker, const struct firsts *ahead, uint64_t time, int *whom) {
    wanzoche_waiter waiting[SLOTS];
    wanzoche_answer answer = {WANZOCHE_OUT_OF_MEMORY, 0};
    uint32_t running;
    bool shuts = false;
    *whom = -1;
    for (unsigned k = 0; k < ahead->count; k++) {
        const struct slot *slot = &s->page->slots[ahead->slot[k]];
        waiting[k] = (wanzoche_waiter){slot->operation, slot->priority, slot->arrived, shut_at(slot, time)};
        shuts = shuts || waiting[k].shut_at < asker->arrived;
    }
    if (shuts && list_running(s, asker->caller, &running))
        answer = wanzoche_may_start(&s->replica.system, asker->operation, asker->priority, asker->arrived, waiting, ahead->count,
                                    (const uint32_t *)(const void *)s->list, running);
    if (answer.code == WANZOCHE_OUT_OF_MEMORY) return wanzoche_can_start(&s->replica.system, asker->operation).code;
    if (answer.code == WANZOCHE_WITHHELD) *whom = ahead->slot[answer.number];
    return answer.code;
}

/* Those of them who stand before one who asks, but for its own slot. */
static void keep_ahead(store *s, struct firsts *firsts, const struct asker *asker) {
    unsigned kept = 0;
    for (unsigned k = 0; k < firsts->count; k++)
        if (is_before(&s->page->slots[firsts->slot[k]], asker->priority, asker->ticket)) firsts->slot[kept++] = firsts->slot[k];
    firsts->count = kept;
}

/* For whom a start is withheld: a slot, or -1. */
int withheld_for(store *s, const struct asker *asker, uint64_t time) {
    struct firsts ahead;
    uint32_t owner;
    int whom;
    for (int tries = 0; tries < SLOTS; tries++) {
        if (!withholds(s, time)) return -1;
        list_firsts(s, &ahead);
        keep_ahead(s, &ahead, asker);
        ruling(s, asker, &ahead, time, &whom);
        owner = whom < 0 ? 0 : SLOT_WORKER(s->page->slots[whom].word);
        if (whom < 0 || !is_gone(s, owner)) return whom;
        free_slot(s, whom, owner);
    }
    return -1;
}

/* When the door opens next that one has shut. */
uint64_t opens_at(const store *s, int slot, uint64_t time) {
    const struct slot *one = &s->page->slots[slot];
    return one->shuts + times_shut(one, time) * SHUT;
}

/* Whether one of the firsts is to be called: it may start, or it is withheld and has to set itself a time. */
bool is_to_be_called(store *s, const struct firsts *firsts, unsigned at, uint64_t time) {
    const struct slot *slot = &s->page->slots[firsts->slot[at]];
    struct asker asker = {slot->operation, slot->priority, slot->arrived, slot->ticket, 0};
    struct firsts ahead = *firsts;
    uint32_t code;
    int whom;
    ahead.count = at;
    code = ruling(s, &asker, &ahead, time, &whom);
    return code == WANZOCHE_CAN_START || (whom >= 0 && !slot->is_shut);
}

/* Stands in the order from now on. */
void stand(store *s, int slot, const struct asker *asker) {
    struct slot *one = &s->page->slots[slot];
    one->operation = asker->operation;
    one->priority = asker->priority;
    one->ticket = s->page->tickets++;
    one->arrived = asker->arrived;
    one->shuts = s->patience == NEVER ? NEVER : asker->arrived + s->patience;
    one->caller = asker->caller;
    one->is_shut = false;
    say_held(s, one, asker->caller);
}

/* What is told of one who waits. */
void tell_waiter(store *s, const struct slot *slot, uint64_t time, wanzoche_store_waiter *waiter) {
    uint32_t worker = SLOT_WORKER(slot->word);
    *waiter = (wanzoche_store_waiter){.operation = slot->operation, .priority = slot->priority, .worker = worker,
                                      .caller = slot->caller > UINT32_MAX ? 0 : (uint32_t)slot->caller,
                                      .waited = time > slot->arrived ? (time - slot->arrived) / MILLISECOND : 0,
                                      .process = process_of(s, worker)};
}
