/* What went wrong, in words for standard error. */
#include <errno.h>
#include <stdarg.h>
#include <stdio.h>
#include <stdlib.h>
#include <string.h>

#include "command.h"

static _Thread_local char *told;
static _Thread_local wanzoche_answer told_by;

static void keep(wanzoche_answer answer, const char *format, va_list given) {
    char *before = told;
    if (vasprintf(&told, format, given) < 0) told = NULL;
    told_by = answer;
    free(before);
}

/* Keeps the words in the place of those before. Always false. */
bool fails(const char *format, ...) {
    va_list given;
    va_start(given, format);
    keep((wanzoche_answer){WANZOCHE_CLOSED, 0}, format, given);
    va_end(given);
    return false;
}

/* The same where a store has answered so. */
bool fails_by_store(wanzoche_answer answer, const char *format, ...) {
    va_list given;
    va_start(given, format);
    keep(answer, format, given);
    va_end(given);
    return false;
}

/* The same where the system refuses something: by errno. */
bool fails_by_system(const char *what) {
    return fails("%s: %s", what, strerror(errno));
}

/* The words that were kept last by this thread. */
const char *fault(void) {
    return told == NULL ? "out of memory" : told;
}

/* Whether the store's answer was that this process may not do what it tried. */
bool is_forbidden(void) {
    return told_by.code == WANZOCHE_SYSTEM && (told_by.number == EACCES || told_by.number == EPERM || told_by.number == EROFS);
}

/* Whether it was that the store was made with another declaration. */
bool is_other_declaration(void) {
    return told_by.code == WANZOCHE_OTHER_DECLARATION;
}

/* Whether it was that a line of the journal isn't owed, or is gone. */
bool is_corrupt(void) {
    return told_by.code == WANZOCHE_CORRUPT;
}

/* Which line of its file that is, from 1 with the head; 0 if no line behind the head is meant. */
uint64_t wrong_line(void) {
    return is_corrupt() && told_by.number > 1 ? told_by.number : 0;
}
