/* Texts that grow, and memory that is there or ends the program. */
#include <ctype.h>
#include <stdarg.h>
#include <stdio.h>
#include <stdlib.h>
#include <string.h>

#include "command.h"

/* How it ends without memory: of `exec` with its own status, so that it can't be taken for the command's. */
int status_without_memory = IS_FAULT;

/* What it has in progress is over as that of the dead. */
void end_without_memory(void) {
    say("out of memory");
    _Exit(status_without_memory);
}

/* So many things of this size, all bytes zero. */
void *take_memory(size_t count, size_t size) {
    void *at = calloc(count == 0 ? 1 : count, size);
    if (at == NULL) end_without_memory();
    return at;
}

static void make_room(struct text *text, size_t more) {
    size_t wanted = text->length + more + 1, size = text->size > wanted / 2 ? text->size * 2 : wanted;
    if (wanted <= text->size) return;
    text->at = realloc(text->at, size);
    if (text->at == NULL) end_without_memory();
    text->size = size;
}

void add_bytes(struct text *text, const char *from, size_t length) {
    make_room(text, length);
    memcpy(text->at + text->length, from, length);
    text->length += length;
    text->at[text->length] = 0;
}

void add(struct text *text, const char *format, ...) {
    va_list given;
    int length;
    va_start(given, format);
    length = vsnprintf(NULL, 0, format, given);
    va_end(given);
    if (length < 0) end_without_memory();
    make_room(text, (size_t)length);
    va_start(given, format);
    vsnprintf(text->at + text->length, (size_t)length + 1, format, given);
    va_end(given);
    text->length += (size_t)length;
}

/* Gives the memory back. */
void clear_text(struct text *text) {
    free(text->at);
    *text = (struct text){NULL, 0, 0};
}

/* The next word, number or sign of a text, and where it ends: null at the end of the text. One that is longer is cut. */
const char *next_word(const char *at, char word[40]) {
    size_t length = 0, kept;
    while (isspace((unsigned char)*at)) at++;
    if (*at == 0) return NULL;
    while (isalnum((unsigned char)at[length]) || at[length] == '_') length++;
    if (length == 0) length = 1;
    kept = length < 39 ? length : 39;
    memcpy(word, at, kept);
    word[kept] = 0;
    return at + length;
}
