/* Declarations: of a file, or of a store, and why a text isn't one. */
#include <errno.h>
#include <fcntl.h>
#include <limits.h>
#include <stdio.h>
#include <stdlib.h>
#include <string.h>
#include <unistd.h>

#include "command.h"

#define PIECE 65536

/* All that stands in a file. */
bool read_file(const char *path, struct text *text) {
    int file = open(path, O_RDONLY | O_CLOEXEC);
    char *piece = take_memory(PIECE, 1);
    ssize_t found = file < 0 ? -1 : 1;
    while (found > 0) {
        found = read(file, piece, PIECE);
        if (found > 0) add_bytes(text, piece, (size_t)found);
    }
    free(piece);
    if (found < 0) fails_by_system(path);
    if (file >= 0) close(file);
    add(text, "%s", "");
    return found == 0;
}

/* The store's own. Only `exec` makes a store, so it has to be there. */
static bool find_stored(const char *file, struct text *text) {
    char why[WANZOCHE_STORE_MESSAGE];
    wanzoche_answer answer = wanzoche_store_declaration(file, NULL, 0, why, sizeof why);
    while (answer.code == WANZOCHE_TOO_SMALL) {
        clear_text(text);
        text->at = take_memory((size_t)answer.number + 1, 1);
        text->size = (size_t)answer.number + 1;
        answer = wanzoche_store_declaration(file, text->at, text->size, why, sizeof why);
    }
    text->length = answer.code == WANZOCHE_WRITTEN ? (size_t)answer.number : 0;
    if (answer.code == WANZOCHE_OUT_OF_MEMORY) end_without_memory();
    if (answer.code == WANZOCHE_WRITTEN) return true;
    if (answer.code == WANZOCHE_SYSTEM && answer.number == ENOENT)
        return fails("%s.shared isn't there: `wanzoche exec` with --declaration makes a store", file);
    return fails_by_store(answer, "%s", why);
}

/* The declaration in the file that the words name, else the store's own, which has to be there but for `exec` with a file. */
bool find_declaration(const struct given *given, struct text *text) {
    bool is_given = given->declaration != NULL;
    if (is_given && (given->store == NULL || given->command == DO_EXEC)) return read_file(given->declaration, text);
    if (given->store == NULL) return fails("--store or --declaration is wanted");
    if (!find_stored(given->path, text) && !(is_given && given->command == DO_OPERATIONS && is_forbidden())) return false;
    if (!is_given) return true;
    clear_text(text);
    return read_file(given->declaration, text);
}

/* Says why a text isn't a declaration: the place, what is wrong, and behind that the line with a mark and what could stand there. */
static bool fails_to_declare(wanzoche_answer answer, const char *text, size_t length) {
    struct text told = {NULL, 0, 0};
    unsigned long line = 0, column = 0;
    int behind = 0;
    wanzoche_answer size = wanzoche_explain(text, length, NULL, 0);
    char *words = take_memory((size_t)size.number + 1, 1);
    add(&told, "%s", wanzoche_words(answer.code));
    if (answer.code != WANZOCHE_TOO_LONG && wanzoche_explain(text, length, words, (size_t)size.number + 1).code == WANZOCHE_WRITTEN &&
        sscanf(words, "declaration:%lu:%lu%n", &line, &column, &behind) == 2) {
        while (size.number > 0 && words[size.number - 1] == '\n') words[--size.number] = 0;
        add(&told, " in line %lu, column %lu", line, column);
        for (const char *at = words + behind; *at != 0; at++) add(&told, *at == '\n' ? "\n  " : "%c", *at);
    }
    fails("%s", told.at);
    free(words);
    clear_text(&told);
    return false;
}

/* The names of the operations, in the order of the declaration. */
static void read_names(struct declared *declared) {
    char word[40];
    bool is_naming = false;
    uint32_t count = 0;
    declared->count = wanzoche_operations(&declared->system);
    declared->names = take_memory(declared->count, sizeof *declared->names);
    for (const char *at = declared->text; count < declared->count && (at = next_word(at, word)) != NULL;) {
        if (is_naming && strcmp(word, ",") != 0 && wanzoche_operation(&declared->system, word, strlen(word)) == (int64_t)count)
            memcpy(declared->names[count++], word, 33);
        else is_naming = strcmp(word, "operation") == 0 || (is_naming && strcmp(word, ",") == 0);
    }
}

/* Opens a system of a text in which nothing is begun. */
bool open_declared(struct declared *declared, const char *text, size_t length) {
    char message[WANZOCHE_MESSAGE];
    wanzoche_answer answer;
    *declared = (struct declared){WANZOCHE_CLOSED_HANDLE, NULL, 0, NULL};
    answer = wanzoche_open_without_journal(&declared->system, text, length, 2, message, sizeof message);
    if (answer.code == WANZOCHE_OUT_OF_MEMORY) end_without_memory();
    if (answer.code != WANZOCHE_OPENED) return fails_to_declare(answer, text, length);
    answer = wanzoche_declaration(&declared->system, NULL, 0);
    declared->text = take_memory((size_t)answer.number + 1, 1);
    if (wanzoche_declaration(&declared->system, declared->text, (size_t)answer.number + 1).code != WANZOCHE_WRITTEN) end_without_memory();
    read_names(declared);
    return true;
}

void close_declared(struct declared *declared) {
    wanzoche_close(&declared->system);
    free(declared->text);
    free(declared->names);
    declared->text = NULL;
    declared->names = NULL;
}

/* The number of an operation. */
bool find_operation(struct declared *declared, const char *name, uint32_t *operation) {
    int64_t found = wanzoche_operation(&declared->system, name, strlen(name));
    struct text told = {NULL, 0, 0};
    *operation = (uint32_t)found;
    if (found >= 0) return true;
    add(&told, "no operation ");
    add_quoted(&told, name);
    add(&told, " is declared; there are ");
    for (uint32_t k = 0; k < declared->count; k++) add(&told, "%s%s", k == 0 ? "" : ", ", declared->names[k]);
    fails("%s", told.at);
    clear_text(&told);
    return false;
}
