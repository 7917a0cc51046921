/*
** The names of wanzoche.h, over the exports of the crate path_c.
**
** The exports answer for every handle and every text, but they take
** references, which are never null. Here a null handle is a closed one, and a
** null text or buffer is one without bytes.
**
** What has no export of its own is decided here, and c/tests/calls.c tests it:
** the record of wanzoche_begin and wanzoche_end, the lines that
** wanzoche_rotate_at compares, the list of wanzoche_list_live, the version,
** and the words of codes.
*/
#include "wanzoche.h"
#include "wanzoche_store.h"

#if defined(__STDC_VERSION__) && __STDC_VERSION__ >= 201112L
_Static_assert(sizeof(wanzoche) == 2 * sizeof(void *), "a pointer and a bool");
_Static_assert(offsetof(wanzoche, live) == sizeof(void *), "the bool is second");
_Static_assert(sizeof(wanzoche_answer) == 16, "a code and a number");
_Static_assert(sizeof(wanzoche_taken) == 32, "two numbers and an answer");
_Static_assert(sizeof(wanzoche_waiter) == 24, "two words and two numbers");
#endif

wanzoche_answer path_c_open(wanzoche *, const uint8_t *, size_t, uint32_t, bool, uint8_t *, size_t);
void path_c_close(wanzoche *);
int64_t path_c_operation(wanzoche *, const uint8_t *, size_t);
wanzoche_answer path_c_start(wanzoche *, uint32_t, uint32_t);
wanzoche_answer path_c_use(wanzoche *, uint32_t, uint64_t, uint32_t, uint64_t);
wanzoche_answer path_c_finish(wanzoche *, uint32_t, uint64_t);
wanzoche_answer path_c_can_start(wanzoche *, uint32_t);
wanzoche_answer path_c_may_start(wanzoche *, uint32_t, uint32_t, uint64_t, const wanzoche_waiter *, size_t, const uint32_t *, size_t);
wanzoche_answer path_c_next(wanzoche *, const wanzoche_waiter *, size_t, const uint32_t *, size_t);
size_t path_c_lines(wanzoche *);
uint32_t path_c_live(wanzoche *);
uint32_t path_c_room_left(wanzoche *);
uint32_t path_c_operations(wanzoche *);
uint32_t path_c_live_at(wanzoche *, uint32_t, wanzoche_activation *);
wanzoche_answer path_c_journal(wanzoche *, uint8_t *, size_t);
wanzoche_answer path_c_rotate(wanzoche *);
wanzoche_answer path_c_report(wanzoche *, uint8_t *, size_t);
wanzoche_answer path_c_declaration(wanzoche *, uint8_t *, size_t);
wanzoche_answer path_c_owed_start(wanzoche *, uint32_t, uint32_t);
wanzoche_answer path_c_owed_use(wanzoche *, uint32_t, uint64_t, uint32_t, uint64_t);
wanzoche_answer path_c_owed_finish(wanzoche *, uint32_t, uint64_t);
wanzoche_answer path_c_take_over(wanzoche *, const uint8_t *, size_t, wanzoche_taken *);
wanzoche_answer path_c_resume(wanzoche *, const uint8_t *, size_t, uint32_t, bool, const uint8_t *, size_t, uint8_t *, size_t);
wanzoche_answer path_c_audit(const uint8_t *, size_t, uint32_t, const uint8_t *, size_t, uint8_t *, size_t);
wanzoche_answer path_c_explore(const uint8_t *, size_t, const uint8_t *, size_t, uint32_t, uint8_t *, size_t, uint8_t *, size_t);
wanzoche_answer path_c_finding(const uint8_t *, size_t, uint8_t *, size_t);

static const wanzoche_answer closed = {WANZOCHE_CLOSED, 0};

static const wanzoche_taken none_taken = {0, 0, {0, 0}};

/* A byte at a good address, for texts and buffers without bytes. */
static uint8_t nothing[1];

static const uint8_t *text_at(const char *text) {
    return text == NULL ? nothing : (const uint8_t *)text;
}

static size_t length_of(const char *text, size_t length) {
    return text == NULL ? 0 : length;
}

/* One at a good address, for lists without any. */
static const wanzoche_waiter no_waiter;
static const uint32_t no_operation;

static const wanzoche_waiter *waiters_at(const wanzoche_waiter *waiting) {
    return waiting == NULL ? &no_waiter : waiting;
}

static size_t waiters_in(const wanzoche_waiter *waiting, size_t waiters) {
    return waiting == NULL ? 0 : waiters;
}

static const uint32_t *running_at(const uint32_t *running) {
    return running == NULL ? &no_operation : running;
}

static size_t running_in(const uint32_t *running, size_t count) {
    return running == NULL ? 0 : count;
}

static uint8_t *buffer_at(char *buffer) {
    return buffer == NULL ? nothing : (uint8_t *)buffer;
}

/* An answer that a handle which isn't there is closed. */
static wanzoche_answer no_handle(char *message, size_t size) {
    if (message != NULL && size > 0) message[0] = 0;
    return closed;
}

wanzoche_answer wanzoche_open(wanzoche *handle, const char *text, size_t length,
                              uint32_t room, char *message, size_t size) {
    if (handle == NULL) return no_handle(message, size);
    return path_c_open(handle, text_at(text), length_of(text, length), room,
                       true, buffer_at(message), length_of(message, size));
}

wanzoche_answer wanzoche_open_without_journal(wanzoche *handle,
                                              const char *text, size_t length,
                                              uint32_t room, char *message,
                                              size_t size) {
    if (handle == NULL) return no_handle(message, size);
    return path_c_open(handle, text_at(text), length_of(text, length), room,
                       false, buffer_at(message), length_of(message, size));
}

void wanzoche_close(wanzoche *handle) {
    if (handle != NULL) path_c_close(handle);
}

int64_t wanzoche_operation(wanzoche *handle, const char *name, size_t length) {
    if (handle == NULL) return -1;
    return path_c_operation(handle, text_at(name), length_of(name, length));
}

wanzoche_answer wanzoche_start(wanzoche *handle, uint32_t worker,
                               uint32_t operation) {
    if (handle == NULL) return closed;
    return path_c_start(handle, worker, operation);
}

wanzoche_answer wanzoche_use(wanzoche *handle, uint32_t worker,
                             uint64_t activation, uint32_t verb,
                             uint64_t number) {
    if (handle == NULL) {
        wanzoche_answer no_verb = {WANZOCHE_NO_VERB, 0};
        return verb > WANZOCHE_ADD ? no_verb : closed;
    }
    return path_c_use(handle, worker, activation, verb, number);
}

wanzoche_answer wanzoche_finish(wanzoche *handle, uint32_t worker,
                                uint64_t activation) {
    if (handle == NULL) return closed;
    return path_c_finish(handle, worker, activation);
}

uint32_t wanzoche_begin(wanzoche *handle, uint32_t worker, uint32_t operation,
                        wanzoche_record *record) {
    wanzoche_answer answer;
    if (record == NULL) return WANZOCHE_STALE;
    if (record->live) return WANZOCHE_NOT_YOURS;
    answer = wanzoche_start(handle, worker, operation);
    record->number = answer.number;
    record->worker = worker;
    record->live = answer.code == WANZOCHE_STARTED;
    return answer.code;
}

uint32_t wanzoche_end(wanzoche *handle, wanzoche_record *record) {
    wanzoche_answer answer;
    if (record == NULL || !record->live) return WANZOCHE_STALE;
    answer = wanzoche_finish(handle, record->worker, record->number);
    record->live = false;
    return answer.code;
}

wanzoche_answer wanzoche_can_start(wanzoche *handle, uint32_t operation) {
    if (handle == NULL) return closed;
    return path_c_can_start(handle, operation);
}

wanzoche_answer wanzoche_may_start(wanzoche *handle, uint32_t operation,
                                   uint32_t priority, uint64_t arrived,
                                   const wanzoche_waiter *waiting,
                                   size_t waiters, const uint32_t *running,
                                   size_t count) {
    if (handle == NULL) return closed;
    return path_c_may_start(handle, operation, priority, arrived,
                            waiters_at(waiting), waiters_in(waiting, waiters),
                            running_at(running), running_in(running, count));
}

wanzoche_answer wanzoche_next(wanzoche *handle, const wanzoche_waiter *waiting,
                              size_t waiters, const uint32_t *running,
                              size_t count) {
    if (handle == NULL) return closed;
    return path_c_next(handle, waiters_at(waiting),
                       waiters_in(waiting, waiters), running_at(running),
                       running_in(running, count));
}

size_t wanzoche_lines(wanzoche *handle) {
    return handle == NULL ? 0 : path_c_lines(handle);
}

uint32_t wanzoche_live(wanzoche *handle) {
    return handle == NULL ? 0 : path_c_live(handle);
}

uint32_t wanzoche_room_left(wanzoche *handle) {
    return handle == NULL ? 0 : path_c_room_left(handle);
}

uint32_t wanzoche_operations(wanzoche *handle) {
    return handle == NULL ? 0 : path_c_operations(handle);
}

uint32_t wanzoche_list_live(wanzoche *handle, wanzoche_activation *list, uint32_t capacity) {
    uint32_t written = 0;
    if (handle == NULL) return 0;
    if (list != NULL)
        while (written < capacity && path_c_live_at(handle, written, &list[written])) written++;
    return path_c_live(handle);
}

wanzoche_answer wanzoche_journal(wanzoche *handle, char *buffer, size_t size) {
    if (handle == NULL) return closed;
    return path_c_journal(handle, buffer_at(buffer), length_of(buffer, size));
}

wanzoche_answer wanzoche_rotate(wanzoche *handle) {
    if (handle == NULL) return closed;
    return path_c_rotate(handle);
}

wanzoche_answer wanzoche_rotate_at(wanzoche *handle, size_t lines,
                                   uint64_t *rotations) {
    wanzoche_answer answer = {WANZOCHE_TOO_SMALL, wanzoche_lines(handle)};
    if (wanzoche_can_start(handle, 0).code == WANZOCHE_CLOSED) return closed;
    if (answer.number != lines) return answer;
    answer = wanzoche_rotate(handle);
    if (rotations != NULL) *rotations += 1;
    return answer;
}

wanzoche_answer wanzoche_report(wanzoche *handle, char *buffer, size_t size) {
    if (handle == NULL) return closed;
    return path_c_report(handle, buffer_at(buffer), length_of(buffer, size));
}

wanzoche_answer wanzoche_declaration(wanzoche *handle, char *buffer,
                                     size_t size) {
    if (handle == NULL) return closed;
    return path_c_declaration(handle, buffer_at(buffer), length_of(buffer, size));
}

wanzoche_answer wanzoche_owed_start(wanzoche *handle, uint32_t worker,
                                    uint32_t operation) {
    if (handle == NULL) return closed;
    return path_c_owed_start(handle, worker, operation);
}

wanzoche_answer wanzoche_owed_use(wanzoche *handle, uint32_t worker,
                                  uint64_t activation, uint32_t verb,
                                  uint64_t number) {
    if (handle == NULL) {
        wanzoche_answer no_verb = {WANZOCHE_NO_VERB, 0};
        return verb > WANZOCHE_ADD ? no_verb : closed;
    }
    return path_c_owed_use(handle, worker, activation, verb, number);
}

wanzoche_answer wanzoche_owed_finish(wanzoche *handle, uint32_t worker,
                                     uint64_t activation) {
    if (handle == NULL) return closed;
    return path_c_owed_finish(handle, worker, activation);
}

wanzoche_answer wanzoche_take_over(wanzoche *handle, const char *text,
                                   size_t length, wanzoche_taken *taken) {
    wanzoche_taken unseen;
    if (taken == NULL) taken = &unseen;
    *taken = none_taken;
    if (handle == NULL) return closed;
    return path_c_take_over(handle, text_at(text), length_of(text, length),
                            taken);
}

wanzoche_answer wanzoche_resume(wanzoche *handle, const char *text,
                                size_t length, uint32_t room,
                                const char *journal, size_t journal_length,
                                char *message, size_t size) {
    if (handle == NULL) return no_handle(message, size);
    return path_c_resume(handle, text_at(text), length_of(text, length), room,
                         true, text_at(journal),
                         length_of(journal, journal_length),
                         buffer_at(message), length_of(message, size));
}

wanzoche_answer wanzoche_resume_without_journal(wanzoche *handle,
                                                const char *text,
                                                size_t length, uint32_t room,
                                                const char *journal,
                                                size_t journal_length,
                                                char *message, size_t size) {
    if (handle == NULL) return no_handle(message, size);
    return path_c_resume(handle, text_at(text), length_of(text, length), room,
                         false, text_at(journal),
                         length_of(journal, journal_length),
                         buffer_at(message), length_of(message, size));
}

wanzoche_answer wanzoche_audit(const char *declaration, size_t length,
                               uint32_t room, const char *journal,
                               size_t journal_length, char *message,
                               size_t size) {
    return path_c_audit(text_at(declaration), length_of(declaration, length),
                        room, text_at(journal),
                        length_of(journal, journal_length),
                        buffer_at(message), length_of(message, size));
}

wanzoche_answer wanzoche_explore(const char *declaration, size_t length,
                                 const char *script, size_t script_length,
                                 uint32_t most, char *journal,
                                 size_t journal_size, char *message,
                                 size_t size) {
    return path_c_explore(text_at(declaration), length_of(declaration, length),
                          text_at(script), length_of(script, script_length),
                          most, buffer_at(journal),
                          length_of(journal, journal_size),
                          buffer_at(message), length_of(message, size));
}

wanzoche_answer wanzoche_explain(const char *text, size_t length, char *buffer,
                                 size_t size) {
    return path_c_finding(text_at(text), length_of(text, length),
                          buffer_at(buffer), length_of(buffer, size));
}

const char *wanzoche_version(void) {
    return WANZOCHE_VERSION;
}

const char *wanzoche_words(uint32_t code) {
    switch (code) {
    case WANZOCHE_CLOSED: return "closed";
    case WANZOCHE_STARTED: return "started";
    case WANZOCHE_BLOCKED: return "blocked";
    case WANZOCHE_UNKNOWN_OPERATION: return "unknown operation";
    case WANZOCHE_USED: return "used";
    case WANZOCHE_NOT_OFFERED: return "not offered";
    case WANZOCHE_EMPTY: return "empty";
    case WANZOCHE_FULL: return "full";
    case WANZOCHE_OVERFLOW: return "overflow";
    case WANZOCHE_DEVICE_FAILED: return "device failed";
    case WANZOCHE_FINISHED: return "finished";
    case WANZOCHE_STALE: return "stale";
    case WANZOCHE_NOT_YOURS: return "not yours";
    case WANZOCHE_NO_ROOM: return "no room";
    case WANZOCHE_NO_VERB: return "no such verb";
    case WANZOCHE_CAN_START: return "can start";
    case WANZOCHE_ROTATED: return "rotated";
    case WANZOCHE_WRITTEN: return "written";
    case WANZOCHE_TOO_SMALL: return "too small";
    case WANZOCHE_OPENED: return "opened";
    case WANZOCHE_ALREADY_OPEN: return "already open";
    case WANZOCHE_BAD_ROOM: return "bad room";
    case WANZOCHE_OUT_OF_MEMORY: return "out of memory";
    case WANZOCHE_SOUND: return "sound";
    case WANZOCHE_WRONG_LINE: return "wrong line";
    case WANZOCHE_JOURNAL_TOO_LONG: return "journal too long";
    case WANZOCHE_BAD_LINE: return "bad line";
    case WANZOCHE_UNDECLARED_LINE: return "undeclared in line";
    case WANZOCHE_NO_JOURNAL: return "no journal";
    case WANZOCHE_TOO_LONG: return "text too long";
    case WANZOCHE_BAD_BYTE: return "bad byte";
    case WANZOCHE_WORD_TOO_LONG: return "word too long";
    case WANZOCHE_NUMBER_TOO_LONG: return "number too long";
    case WANZOCHE_UNEXPECTED: return "unexpected";
    case WANZOCHE_TOO_DEEP: return "too deep";
    case WANZOCHE_DUPLICATE_RESOURCE: return "duplicate resource";
    case WANZOCHE_DUPLICATE_OPERATION: return "duplicate operation";
    case WANZOCHE_UNDECLARED: return "undeclared";
    case WANZOCHE_REPEATED_NAME: return "repeated name";
    case WANZOCHE_NESTED_BRACES: return "nested braces";
    case WANZOCHE_BAD_CAPACITY: return "bad capacity";
    case WANZOCHE_BAD_COUNT: return "bad count";
    case WANZOCHE_TOO_MANY: return "too many";
    case WANZOCHE_TAKEN: return "taken";
    case WANZOCHE_ALL_DONE: return "all done";
    case WANZOCHE_STALLS: return "stalls";
    case WANZOCHE_REFUSED: return "refused";
    case WANZOCHE_UNDECIDED: return "undecided";
    case WANZOCHE_SCRIPT_TOO_LONG: return "script too long";
    case WANZOCHE_SCRIPT_BAD_LINE: return "bad line in script";
    case WANZOCHE_SCRIPT_UNDECLARED: return "undeclared in script";
    case WANZOCHE_SCRIPT_UNBALANCED: return "unbalanced in script";
    case WANZOCHE_SCRIPT_TOO_DEEP: return "too deep in script";
    case WANZOCHE_SCRIPT_TOO_MANY: return "too many in script";
    case WANZOCHE_WITHHELD: return "withheld";
    case WANZOCHE_NEXT: return "next";
    case WANZOCHE_NOBODY: return "nobody";
    case WANZOCHE_LATE: return "late";
    case WANZOCHE_OWED: return "owed";
    case WANZOCHE_SYSTEM: return "refused by the system";
    case WANZOCHE_IN_USE: return "in use";
    case WANZOCHE_OTHER_DECLARATION: return "other declaration";
    case WANZOCHE_NOT_A_STORE: return "not a store";
    case WANZOCHE_CORRUPT: return "corrupt";
    case WANZOCHE_UNSYNCED: return "unsynced";
    case WANZOCHE_FORKED: return "forked";
    case WANZOCHE_ALIVE: return "alive";
    case WANZOCHE_RECOVERED: return "recovered";
    case WANZOCHE_COUNTED: return "counted";
    case WANZOCHE_CALLED: return "called";
    case WANZOCHE_INTERRUPTED: return "interrupted";
    case WANZOCHE_SYNCED: return "synced";
    case WANZOCHE_LOST: return "lost";
    default: return "no such code";
    }
}
