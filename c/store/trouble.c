/* Why something can't be done: an answer, and words for people. */
#include <stdarg.h>
#include <stdio.h>

#include "store.h"

/* Why the last call of this thread failed that failed, whatever others are told meanwhile. */
static _Thread_local char told[WANZOCHE_STORE_MESSAGE];

static void note(store *s, uint32_t code, uint64_t number, const char *format, va_list given) {
    s->trouble = (wanzoche_answer){code, number};
    vsnprintf(s->message, sizeof s->message, format, given);
    memcpy(told, s->message, sizeof told);
}

bool refuse(store *s, uint32_t code, uint64_t number, const char *format, ...) {
    va_list given;
    va_start(given, format);
    note(s, code, number, format, given);
    va_end(given);
    return false;
}

bool refuse_by_system(store *s, const char *what) {
    return refuse(s, WANZOCHE_SYSTEM, (uint64_t)errno, "%.400s %s: %m", s->path, what);
}

bool refuse_for_memory(store *s) {
    return refuse(s, WANZOCHE_OUT_OF_MEMORY, 0, "out of memory");
}

/* From now on each call of this opening answers so. */
bool give_up_store(store *s, uint32_t code, uint64_t number, const char *format, ...) {
    va_list given;
    va_start(given, format);
    note(s, code, number, format, given);
    va_end(given);
    s->fault = s->trouble;
    memcpy(s->words_of_fault, told, sizeof told);
    s->is_over = true;
    return false;
}

wanzoche_answer fault_of(const store *s) {
    memcpy(told, s->words_of_fault, sizeof told);
    return s->fault;
}

void wanzoche_store_message(wanzoche_store *store, char *buffer, size_t size) {
    if (buffer == NULL || size == 0) return;
    buffer[0] = 0;
    if (store != NULL && !store->is_forked) snprintf(buffer, size, "%s", told);
}
