/* What is asked of a store. */
#include <stdarg.h>
#include <stdio.h>

#include "store.h"

/* A text that grows. `at` is null when there was no memory for it. */
struct text {
    char *at;
    size_t length, size;
};

/* So many bytes more, at the end: null, and nothing is left, if there is no memory. */
static char *grow_text(struct text *text, size_t more) {
    size_t wanted = text->length + more + 1, size = text->size > wanted / 2 ? text->size * 2 : wanted;
    char *at = text->at;
    if (text->size < wanted) {
        at = text->size > 0 && text->at == NULL ? NULL : realloc(text->at, size);
        if (at == NULL) free(text->at);
        text->at = at;
        text->size = size;
    }
    return at == NULL ? NULL : at + text->length;
}

static void add(struct text *text, const char *format, ...) {
    char *at = grow_text(text, 128);
    va_list given;
    if (at == NULL) return;
    va_start(given, format);
    text->length += (size_t)vsnprintf(at, 129, format, given);
    va_end(given);
}

/* Puts a text into a caller's buffer, and frees it. */
static wanzoche_answer hand_out(struct text *text, char *buffer, size_t size) {
    wanzoche_answer answer = {WANZOCHE_WRITTEN, text->length};
    if (text->at == NULL) answer = (wanzoche_answer){WANZOCHE_OUT_OF_MEMORY, 0};
    else if (buffer == NULL || size <= text->length) answer.code = WANZOCHE_TOO_SMALL;
    else {
        memcpy(buffer, text->at, text->length);
        buffer[text->length] = 0;
    }
    free(text->at);
    return answer;
}

/* In a turn, before a question is answered: what the dead had is over, unless it is to stay. */
void look(store *s, struct written *written) {
    if (!bury(s, false)) return;
    *written = note_written(s);
    announce(s);
}

static wanzoche_answer can_start(store *s, uint32_t operation, int64_t limit) {
    struct written written = {NULL, 0};
    wanzoche_answer answer = begin_turn(s, turn_limit(limit));
    if (answer.code != DONE) return answer;
    look(s, &written);
    answer = wanzoche_can_start(&s->replica.system, operation);
    end_turn(s);
    return wait_for_sync(s, written, answer);
}

/* The number that a worker's process gave itself; 0 if it isn't known. */
uint64_t process_of(store *s, uint32_t worker) {
    uint64_t process = 0;
    if (worker >= FIRST_OPENER || read_at(s->beside, &process, sizeof process, place_of_process(s, worker)) != sizeof process) return 0;
    return process;
}

/* In a turn: whether a worker stands in the list before. */
static bool is_told(const store *s, uint32_t place) {
    for (uint32_t k = 0; k < place; k++)
        if (s->list[k].worker == s->list[place].worker) return true;
    return false;
}

/* In a turn: the lines behind the core's report. */
static void add_workers(store *s, struct text *text, uint32_t count) {
    for (uint32_t k = 0; k < count; k++)
        if (is_gone(s, s->list[k].worker))
            add(text, "lost %llu %u %s\n", (unsigned long long)s->list[k].number, s->list[k].worker, s->names[s->list[k].operation]);
    for (uint32_t operation = 0; operation < s->operations; operation++) {
        uint32_t waiting = count_waiting(s, operation);
        if (waiting > 0) add(text, "waiting %s %u\n", s->names[operation], waiting);
    }
    for (uint32_t k = 0; k < count; k++) {
        uint64_t process = is_told(s, k) ? 0 : process_of(s, s->list[k].worker);
        if (process > 0) add(text, "process %u %llu\n", s->list[k].worker, (unsigned long long)process);
    }
}

/* In a turn. */
static wanzoche_answer write_report(store *s, struct text *text) {
    uint32_t count;
    wanzoche_answer answer = wanzoche_report(&s->replica.system, NULL, 0);
    if (answer.code != WANZOCHE_TOO_SMALL) return answer;
    if (!list_live(s, &count)) return s->trouble;
    if (grow_text(text, (size_t)answer.number) == NULL) return (wanzoche_answer){WANZOCHE_OUT_OF_MEMORY, 0};
    answer = wanzoche_report(&s->replica.system, text->at, text->size);
    text->length = (size_t)answer.number;
    add_workers(s, text, count);
    return answer;
}

static wanzoche_answer report(store *s, char *buffer, size_t size, int64_t limit) {
    struct text text = {NULL, 0, 0};
    struct written written = {NULL, 0};
    wanzoche_answer answer = begin_turn(s, turn_limit(limit));
    if (answer.code != DONE) return answer;
    look(s, &written);
    answer = write_report(s, &text);
    end_turn(s);
    if (answer.code == WANZOCHE_WRITTEN) answer = hand_out(&text, buffer, size);
    else free(text.at);
    return wait_for_sync(s, written, answer);
}

static wanzoche_answer recover(store *s, uint32_t worker, bool even_alive, int64_t limit) {
    struct written written = {NULL, 0};
    uint32_t count;
    uint64_t finished = 0;
    wanzoche_answer answer = begin_turn(s, turn_limit(limit)), one = {WANZOCHE_FINISHED, 0};
    if (answer.code != DONE) return answer;
    answer = (wanzoche_answer){WANZOCHE_ALIVE, 0};
    if (even_alive || is_gone(s, worker)) answer = list_live(s, &count) ? done : s->trouble;
    for (uint32_t k = 0; answer.code == DONE && k < count; k++) {
        if (s->list[k].worker != worker) continue;
        if (!write_finish(s, worker, s->list[k].number, &one)) answer = s->trouble;
        else finished++;
    }
    if (finished > 0) {
        written = note_written(s);
        if (s->is_current) announce(s);
    }
    end_turn(s);
    if (answer.code == DONE) answer = (wanzoche_answer){WANZOCHE_RECOVERED, finished};
    return wait_for_sync(s, written, answer);
}

/* The calls */

wanzoche_answer wanzoche_store_can_start(wanzoche_store *store, uint32_t operation, int64_t limit) {
    int cancel;
    wanzoche_answer answer = come_in(store, &cancel);
    if (answer.code != DONE) return answer;
    answer = can_start(store, operation, limit);
    go_out(store, cancel);
    return answer;
}

wanzoche_answer wanzoche_store_report(wanzoche_store *store, char *buffer, size_t size, int64_t limit) {
    int cancel;
    wanzoche_answer answer = come_in(store, &cancel);
    if (answer.code != DONE) return answer;
    answer = report(store, buffer, size, limit);
    go_out(store, cancel);
    return answer;
}

wanzoche_answer wanzoche_store_waiting(wanzoche_store *store, uint32_t operation) {
    int cancel;
    wanzoche_answer answer = come_in(store, &cancel);
    if (answer.code != DONE) return answer;
    answer = (wanzoche_answer){WANZOCHE_UNKNOWN_OPERATION, 0};
    if (operation < store->operations) answer = (wanzoche_answer){WANZOCHE_COUNTED, count_waiting(store, operation)};
    go_out(store, cancel);
    return answer;
}

wanzoche_answer wanzoche_store_recover(wanzoche_store *store, uint32_t worker, bool even_alive, int64_t limit) {
    int cancel;
    wanzoche_answer answer = come_in(store, &cancel);
    if (answer.code != DONE) return answer;
    answer = recover(store, worker, even_alive, limit);
    go_out(store, cancel);
    return answer;
}

int64_t wanzoche_store_operation(wanzoche_store *store, const char *name, size_t length) {
    if (store == NULL || name == NULL) return -1;
    for (uint32_t k = 0; k < store->operations; k++)
        if (strlen(store->names[k]) == length && memcmp(store->names[k], name, length) == 0) return k;
    return -1;
}

uint32_t wanzoche_store_worker(const wanzoche_store *store) {
    return store == NULL ? 0 : store->worker;
}
