/* Who waits, and what is seen of an opening without a turn. */
#include "store.h"

static wanzoche_answer may_start(store *s, const struct asker *asker, wanzoche_store_waiter *behind, int64_t limit) {
    struct written written = {NULL, 0};
    wanzoche_answer answer = begin_turn(s, turn_limit(limit));
    int whom;
    if (answer.code != DONE) return answer;
    look(s, &written);
    answer = wanzoche_can_start(&s->replica.system, asker->operation);
    whom = answer.code == WANZOCHE_UNKNOWN_OPERATION ? -1 : withheld_for(s, asker, asker->arrived);
    if (whom >= 0) {
        answer = (wanzoche_answer){WANZOCHE_WITHHELD, s->page->slots[whom].operation};
        if (behind != NULL) tell_waiter(s, &s->page->slots[whom], asker->arrived, behind);
    }
    end_turn(s);
    return wait_for_sync(s, written, answer);
}

wanzoche_answer wanzoche_store_may_start(wanzoche_store *store, uint32_t operation, uint32_t priority, uint32_t caller,
                                         wanzoche_store_waiter *behind, int64_t limit) {
    struct asker asker = {operation, priority, now(), NEVER, caller_of(caller)};
    int cancel;
    wanzoche_answer answer = come_in(store, &cancel);
    if (answer.code != DONE) return answer;
    answer = may_start(store, &asker, behind, limit);
    go_out(store, cancel);
    return answer;
}

/* In a turn: the slots in which somebody waits, as they are. */
static uint32_t copy_waiting(store *s, struct slot *slots) {
    uint32_t count = 0;
    for (int k = 0; k < SLOTS / 64; k++)
        for (uint64_t used = s->page->used[k]; used != 0; used &= used - 1) {
            struct slot *slot = &s->page->slots[k * 64 + __builtin_ctzll(used)];
            if (waits(slot->word) && slot->operation < s->operations) slots[count++] = *slot;
        }
    return count;
}

static int in_order(const void *one, const void *other) {
    const struct slot *a = one, *b = other;
    return is_before(a, b->priority, b->ticket) ? -1 : is_before(b, a->priority, a->ticket);
}

static wanzoche_answer list_waiting(store *s, wanzoche_store_waiter *waiting, size_t room, int64_t limit) {
    struct slot *slots = malloc(SLOTS * sizeof *slots);
    wanzoche_answer answer = {WANZOCHE_OUT_OF_MEMORY, 0};
    uint32_t count = 0, alive = 0;
    if (slots != NULL) answer = begin_turn(s, turn_limit(limit));
    if (answer.code == DONE) {
        count = copy_waiting(s, slots);
        end_turn(s);
        answer.code = WANZOCHE_COUNTED;
    }
    if (count > 0) qsort(slots, count, sizeof *slots, in_order);
    for (uint32_t k = 0; k < count; k++) {
        if (is_gone(s, SLOT_WORKER(slots[k].word))) continue;
        if (alive < room) tell_waiter(s, &slots[k], now(), &waiting[alive]);
        alive++;
    }
    free(slots);
    answer.number = answer.code == WANZOCHE_COUNTED ? alive : answer.number;
    return answer;
}

wanzoche_answer wanzoche_store_list_waiting(wanzoche_store *store, wanzoche_store_waiter *waiting, size_t room, int64_t limit) {
    int cancel;
    wanzoche_answer answer = come_in(store, &cancel);
    if (answer.code != DONE) return answer;
    answer = list_waiting(store, waiting, waiting == NULL ? 0 : room, limit);
    go_out(store, cancel);
    return answer;
}

/* One number of several, by FNV. */
static uint64_t mix(uint64_t sum, uint64_t number) {
    return (sum ^ number) * UINT64_C(1099511628211);
}

uint64_t wanzoche_store_stamp(wanzoche_store *store) {
    int cancel;
    uint64_t sum = UINT64_C(14695981039346656037);
    if (come_in(store, &cancel).code != DONE) return 0;
    sum = mix(mix(sum, store->page->end), store->page->tickets);
    for (int k = 0; k < SLOTS / 64; k++) sum = mix(sum, store->page->used[k]);
    go_out(store, cancel);
    return sum | 1;
}

/* In a turn. The oldest go when nobody asks for them. */
void add_news(store *s, uint32_t kind, uint32_t worker, uint32_t operation, uint64_t number) {
    unsigned count = s->news_count;
    s->news[(s->news_at + count) % NEWS] = (wanzoche_store_news){kind, worker, operation, number};
    if (count == NEWS) s->news_at = (s->news_at + 1) % NEWS;
    else s->news_count = count + 1;
}

static bool take_news(store *s, wanzoche_store_news *news) {
    bool is_locked = s->news_count > 0 && lock_until(&s->lock, 0), has_news = is_locked && s->news_count > 0;
    if (has_news) {
        *news = s->news[s->news_at];
        s->news_at = (s->news_at + 1) % NEWS;
        s->news_count--;
    }
    if (is_locked) unlock(&s->lock);
    return has_news;
}

bool wanzoche_store_next_news(wanzoche_store *store, wanzoche_store_news *news) {
    int cancel;
    bool has_news;
    if (come_in(store, &cancel).code != DONE) return false;
    has_news = take_news(store, news);
    go_out(store, cancel);
    return has_news;
}

int wanzoche_store_presence(const wanzoche_store *store) {
    return store == NULL || store->is_closing || store->is_forked ? -1 : store->beside;
}
