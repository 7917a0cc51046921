/*
** What the module exports: the calls of wanzoche.h, with numbers that
** JavaScript has. An address, a length, a code, a worker and an operation are
** 32 bits each, and so is an activation, since 4,294,967,295 starts are
** admitted at most. A call returns its code. The number that an answer has
** besides is told by `number_low` and `number_high`, up to the next call.
**
** Texts and handles lie in memory that JavaScript has reserved. A handle that
** was reserved is opened first; nothing else reads it.
*/
#include <stddef.h>
#include <stdint.h>

#include "memory.h"
#include "wanzoche.h"

#define EXPORT(name) __attribute__((export_name(#name)))

static uint64_t number;
static wanzoche_taken taken;

static wanzoche *handle_at(uint32_t address) {
    return (wanzoche *)(uintptr_t)address;
}

static char *text_at(uint32_t address) {
    return (char *)(uintptr_t)address;
}

static const wanzoche_waiter *waiters_at(uint32_t address) {
    return (const wanzoche_waiter *)(uintptr_t)address;
}

static const uint32_t *operations_at(uint32_t address) {
    return (const uint32_t *)(uintptr_t)address;
}

static uint32_t told(wanzoche_answer answer) {
    number = answer.number;
    return answer.code;
}

EXPORT(number_low) uint32_t number_low(void) {
    return (uint32_t)number;
}

EXPORT(number_high) uint32_t number_high(void) {
    return (uint32_t)(number >> 32);
}

/* Memory for so many bytes; 0 if there is none. */
EXPORT(reserve) uint32_t reserve(uint32_t size) {
    return (uint32_t)(uintptr_t)take_memory(size);
}

EXPORT(release) void release(uint32_t address) {
    give_memory(text_at(address));
}

/*
** Takes so many kilobytes of the engine's stack, at least, and gives them back.
** If the stack has no such room left, the engine says so here, where nothing
** has been begun that could stay half done.
**
** A function has its whole frame from its beginning on. So this one has a
** branch that is never taken, in which 128 numbers outlive a call.
*/
#define FOUR(X, n) X(n##0) X(n##1) X(n##2) X(n##3)
#define SIXTEEN(X, n) FOUR(X, n##0) FOUR(X, n##1) FOUR(X, n##2) FOUR(X, n##3)
#define SIXTY_FOUR(X, n) SIXTEEN(X, n##0) SIXTEEN(X, n##1) SIXTEEN(X, n##2) SIXTEEN(X, n##3)
#define ALL(X) SIXTY_FOUR(X, 0) SIXTY_FOUR(X, 1)
#define READ(n) uint64_t of##n = never;
#define WRITE(n) never = of##n;

static volatile uint64_t never; /* always 0 */

__attribute__((noinline)) static void go_deeper(uint32_t depth) {
    if (never != 0) {
        ALL(READ)
        go_deeper(depth);
        ALL(WRITE)
    }
    if (depth > 0) go_deeper(depth - 1);
    never = 0;
}

EXPORT(has_stack) void has_stack(uint32_t kilobytes) {
    go_deeper(kilobytes);
}

/* A handle that is closed; 0 if there is no memory for it. */
EXPORT(new_handle) uint32_t new_handle(void) {
    wanzoche closed_handle = WANZOCHE_CLOSED_HANDLE;
    wanzoche *it = take_memory(sizeof(wanzoche));
    if (it != NULL) *it = closed_handle;
    return (uint32_t)(uintptr_t)it;
}

EXPORT(open) uint32_t open(uint32_t handle, uint32_t text, uint32_t length, uint32_t room, uint32_t keeps) {
    wanzoche *at = handle_at(handle);
    return told(keeps != 0 ? wanzoche_open(at, text_at(text), length, room, NULL, 0)
                           : wanzoche_open_without_journal(at, text_at(text), length, room, NULL, 0));
}

EXPORT(close) void close(uint32_t handle) {
    wanzoche_close(handle_at(handle));
}

EXPORT(start) uint32_t start(uint32_t handle, uint32_t worker, uint32_t operation) {
    return told(wanzoche_start(handle_at(handle), worker, operation));
}

EXPORT(use) uint32_t use(uint32_t handle, uint32_t worker, uint32_t activation, uint32_t verb, uint32_t low, uint32_t high) {
    return told(wanzoche_use(handle_at(handle), worker, activation, verb, (uint64_t)high << 32 | low));
}

EXPORT(finish) uint32_t finish(uint32_t handle, uint32_t worker, uint32_t activation) {
    return told(wanzoche_finish(handle_at(handle), worker, activation));
}

EXPORT(can_start) uint32_t can_start(uint32_t handle, uint32_t operation) {
    return told(wanzoche_can_start(handle_at(handle), operation));
}

EXPORT(may_start) uint32_t may_start(uint32_t handle, uint32_t operation, uint32_t priority, uint32_t low, uint32_t high, uint32_t waiting,
                                     uint32_t waiters, uint32_t running, uint32_t count) {
    return told(wanzoche_may_start(handle_at(handle), operation, priority, (uint64_t)high << 32 | low, waiters_at(waiting), waiters,
                                   operations_at(running), count));
}

EXPORT(next) uint32_t next(uint32_t handle, uint32_t waiting, uint32_t waiters, uint32_t running, uint32_t count) {
    return told(wanzoche_next(handle_at(handle), waiters_at(waiting), waiters, operations_at(running), count));
}

EXPORT(lines) uint32_t lines(uint32_t handle) {
    return (uint32_t)wanzoche_lines(handle_at(handle));
}

EXPORT(live) uint32_t live(uint32_t handle) {
    return wanzoche_live(handle_at(handle));
}

EXPORT(rotate) uint32_t rotate(uint32_t handle) {
    return told(wanzoche_rotate(handle_at(handle)));
}

EXPORT(journal) uint32_t journal(uint32_t handle, uint32_t buffer, uint32_t size) {
    return told(wanzoche_journal(handle_at(handle), text_at(buffer), size));
}

EXPORT(report) uint32_t report(uint32_t handle, uint32_t buffer, uint32_t size) {
    return told(wanzoche_report(handle_at(handle), text_at(buffer), size));
}

EXPORT(declaration) uint32_t declaration(uint32_t handle, uint32_t buffer, uint32_t size) {
    return told(wanzoche_declaration(handle_at(handle), text_at(buffer), size));
}

/* How much of the text was taken over, and the reply that was owed, are told by the four calls below, up to the next such call. */
EXPORT(take_over) uint32_t take_over(uint32_t handle, uint32_t text, uint32_t length) {
    return told(wanzoche_take_over(handle_at(handle), text_at(text), length, &taken));
}

EXPORT(taken_lines) uint32_t taken_lines(void) {
    return (uint32_t)taken.lines;
}

EXPORT(taken_bytes) uint32_t taken_bytes(void) {
    return (uint32_t)taken.bytes;
}

EXPORT(owed_code) uint32_t owed_code(void) {
    return taken.owed.code;
}

/* Also tells the number of that reply. */
EXPORT(owed_number) void owed_number(void) {
    number = taken.owed.number;
}

EXPORT(audit) uint32_t audit(uint32_t text, uint32_t length, uint32_t room, uint32_t lines_at, uint32_t lines_length) {
    return told(wanzoche_audit(text_at(text), length, room, text_at(lines_at), lines_length, NULL, 0));
}

EXPORT(explore) uint32_t explore(uint32_t text, uint32_t length, uint32_t script, uint32_t script_length, uint32_t most,
                                 uint32_t buffer, uint32_t size, uint32_t message, uint32_t message_size) {
    return told(wanzoche_explore(text_at(text), length, text_at(script), script_length, most, text_at(buffer), size,
                                 text_at(message), message_size));
}

EXPORT(explain) uint32_t explain(uint32_t text, uint32_t length, uint32_t buffer, uint32_t size) {
    return told(wanzoche_explain(text_at(text), length, text_at(buffer), size));
}

/* The address of a code's words, which end with a zero byte. */
EXPORT(words) uint32_t words(uint32_t code) {
    return (uint32_t)(uintptr_t)wanzoche_words(code);
}
