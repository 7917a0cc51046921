/*
** Who may append: a word in the page, at which processes sleep.
**
** TAKING. 0 is exchanged for one's number. Who finds a number sets TURN_WAIT, and
** sleeps until whoever has the turn gives it, or for a slice: then it asks whether
** that one is dead, and takes the turn from it. No word comes back while somebody
** looks away, since the number of a dead one is never given again. The slice ends
** at a time that is set once for each owner: a storm of signals doesn't move it.
**
** NO WAKING IS LOST. Who gives the turn with TURN_WAIT set wakes one. Who has slept
** takes the turn with TURN_WAIT, since others may sleep still; and if it finds
** another number it sets TURN_WAIT before it asks whether it is late. So while
** somebody sleeps, the word has TURN_WAIT, or one that was woken is under way to
** it; if that one dies, the slices of the others end.
**
** DUTIES. Who gives up, or leaves late, sets TURN_DUTY without a turn. Who has the
** turn can't give it before it has cleared that and done the duty (announce): the
** exchange for 0 fails while it is set. If it dies in between, who takes the turn
** from it sets it again. Who sets it where nobody has the turn takes that turn
** itself, unless another thread of its opening has the lock, which looks behind
** its unlocking. One that can't do the duty, as with want of memory, leaves it in
** the word, and whoever takes the next turn finds it. So does one that couldn't take
** back what it has written of a line. Who takes a turn of a dead one, or with a duty,
** looks at the file, whatever it saw of it before.
*/
#include "store.h"

#define SPINS 60

/* Takes the turn of a dead owner. */
static bool steal(store *s, uint32_t seen) {
    return is_gone(s, seen & TURN_OWNER) && goes_on("steal") &&
           atomic_compare_exchange_strong(&s->page->turn, &seen, s->me | TURN_WAIT | TURN_DUTY);
}

static bool take_free(store *s, uint32_t mark, uint32_t *before) {
    *before = s->page->turn;
    return (*before & TURN_OWNER) == 0 && goes_on("take") && atomic_compare_exchange_strong(&s->page->turn, before, s->me | *before | mark);
}

/* Whether the call ends: it is late, or the opening is being closed. */
static bool is_late(store *s, uint64_t time, uint64_t until) {
    return time >= until || (s->is_closing && !s->is_ending);
}

/* Takes the turn: what the word was before. False if it isn't to be had until then. */
static bool take(store *s, uint64_t until, uint32_t *before) {
    _Atomic uint32_t *word = &s->page->turn;
    uint32_t mark = 0, owner = 0;
    uint64_t slice = 0;
    for (;;) {
        uint32_t seen;
        uint64_t time;
        for (int spin = 0; spin < SPINS; spin++) {
            if (take_free(s, mark, before)) return true;
            if (mark != 0) break;
            give_way();
        }
        seen = *word;
        if ((seen & TURN_OWNER) == 0) continue;
        time = now();
        if ((seen & TURN_OWNER) != owner) slice = time + SLICE;
        owner = seen & TURN_OWNER;
        if (time >= slice) {
            *before = seen;
            if (steal(s, seen)) return true;
            slice = time + SLICE;
        }
        if ((seen & TURN_WAIT) == 0 && !atomic_compare_exchange_strong(word, &seen, seen | TURN_WAIT)) continue;
        if (is_late(s, time, until)) return false;
        futex_wait(word, seen | TURN_WAIT, sooner(slice, until), 0);
        mark = TURN_WAIT;
        if (s->worker != 0) (void)follow_ahead(s); /* so that little is left for the turn, which finds it again if it fails */
    }
}

/* With the turn: follows what others have written, and mends what one that died has left. */
static bool enter_turn(store *s, uint32_t before) {
    struct page *page = s->page;
    s->is_current = false;
    s->dues = 0;
    if ((before & TURN_OWNER) != 0) memset(page->called, 0, sizeof page->called);
    if (page->is_ready && page->is_rotating && !finish_rotation(s)) return false;
    if (page->is_ready ? !catch_up(s, (before & (TURN_OWNER | TURN_DUTY)) != 0) : !settle(s)) return false;
    find_place(s);
    s->is_current = true;
    return true;
}

static void give(store *s) {
    struct page *page = s->page;
    uint32_t seen;
    for (;;) {
        seen = page->turn;
        if ((seen & TURN_OWNER) != s->me) return; /* this process has closed its descriptors, and was taken for dead */
        if ((seen & TURN_DUTY) != 0 && s->is_current) {
            atomic_fetch_and(&page->turn, ~TURN_DUTY);
            announce(s);
            continue;
        }
        if (goes_on("give") && atomic_compare_exchange_strong(&page->turn, &seen, s->is_current ? 0 : TURN_DUTY)) break;
    }
    if ((seen & TURN_WAIT) != 0) futex_wake(&page->turn, 1, 0);
    for (unsigned k = 0; k < s->dues; k++) futex_wake(s->due[k], INT32_MAX, 0);
    s->dues = 0;
}

/* Does the duty that stands in the word, if nobody has the turn and no thread of this opening is about to take it. */
static void attend(store *s) {
    uint32_t free = 0, before;
    bool is_done = true;
    while (is_done && (s->page->turn & (TURN_OWNER | TURN_DUTY)) == TURN_DUTY && !s->is_over &&
           atomic_compare_exchange_strong(&s->lock, &free, 1)) {
        if (take_free(s, 0, &before)) {
            is_done = enter_turn(s, before);
            give(s);
        }
        unlock(&s->lock);
        free = 0;
    }
}

/* Has whoever has the turn next look at the slots. */
void leave_duty(store *s) {
    atomic_fetch_or(&s->page->turn, TURN_DUTY);
    attend(s);
}

static wanzoche_answer begin_locked(store *s, struct limit limit) {
    static const wanzoche_answer late = {WANZOCHE_LATE, 0}, closed = {WANZOCHE_CLOSED, 0};
    uint32_t before;
    if (s->is_over) return fault_of(s);
    if (s->is_closing && !s->is_ending) return closed;
    if (s->worker != 0 && !follow_ahead(s)) return s->trouble;
    glance_at_file(s, limit.begun);
    if (!take(s, limit.until, &before)) return s->is_closing && !s->is_ending ? closed : late;
    if (!enter_turn(s, before)) {
        wanzoche_answer trouble = s->trouble;
        give(s);
        return trouble;
    }
    return done;
}

struct limit turn_limit_from(uint64_t time, int64_t milliseconds) {
    return (struct limit){time, later(deadline_from(time, milliseconds), time + PATIENCE)};
}

struct limit turn_limit(int64_t milliseconds) {
    return turn_limit_from(now(), milliseconds);
}

/* Begins a turn: DONE, or why not. */
wanzoche_answer begin_turn(store *s, struct limit limit) {
    wanzoche_answer answer = {WANZOCHE_LATE, 0};
    if (!lock_until(&s->lock, limit.until)) return answer;
    answer = begin_locked(s, limit);
    if (answer.code != DONE) {
        unlock(&s->lock);
        attend(s);
    }
    return answer;
}

void end_turn(store *s) {
    give(s);
    unlock(&s->lock);
    attend(s);
}
