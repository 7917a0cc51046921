/* What stands in a declaration, as the library spells it: words and signs, each behind the one before it. */
#include <ctype.h>
#include <stdio.h>
#include <string.h>

#include "command.h"

/* Reads the words of a path, up to its end: where that is. */
static const char *read_path(const char *at, struct path *path) {
    char word[40];
    while ((at = next_word(at, word)) != NULL && strcmp(word, "end") != 0)
        add(&path->text, "%s%s", path->text.length == 0 ? "" : " ", word);
    return at;
}

/* Finds a path by its number, from 0: what it says, and of which resource it is. False if there are fewer. */
bool find_path(const char *declaration, uint32_t number, struct path *path) {
    char word[40];
    clear_text(&path->text);
    for (const char *at = declaration; at != NULL && (at = next_word(at, word)) != NULL;) {
        if (strcmp(word, "resource") == 0 && (at = next_word(at, word)) != NULL) memcpy(path->resource, word, sizeof path->resource);
        else if (at != NULL && strcmp(word, "path") == 0) {
            clear_text(&path->text);
            at = read_path(at, path);
            if (number-- == 0) return true;
        }
    }
    clear_text(&path->text);
    return false;
}

/* Whether a path names an operation. */
bool is_in_path(const struct path *path, const char *name) {
    char word[40];
    for (const char *at = path->text.at; (at = next_word(at, word)) != NULL;)
        if (strcmp(word, name) == 0) return true;
    return false;
}

/* The resource of an operation, and its device, as `queue 8`. Both are empty for an operation that isn't declared. */
void find_device(const char *declaration, const char *name, char resource[33], char law[40]) {
    char word[40];
    bool is_naming = false;
    resource[0] = law[0] = 0;
    for (const char *at = declaration; at != NULL && (at = next_word(at, word)) != NULL;) {
        if (is_naming && strcmp(word, name) == 0) return;
        if (strcmp(word, "resource") == 0 && (at = next_word(at, word)) != NULL) {
            memcpy(resource, word, 33);
            at = next_word(at, law);
        } else if (isdigit((unsigned char)word[0]) && !is_naming) snprintf(law + strlen(law), 40 - strlen(law), " %.10s", word);
        else is_naming = strcmp(word, "operation") == 0 || (is_naming && strcmp(word, "path") != 0 && strcmp(word, "end") != 0);
    }
    resource[0] = law[0] = 0;
}

#define SPACES " \n"

/* Where the next word between spaces begins, and how long it is: 0 at the end of the text. */
static const char *find_word(const char *at, size_t *length) {
    at += strspn(at, SPACES);
    *length = strcspn(at, SPACES);
    return at;
}

/* Adds so many of the next words, or that there is none. */
static void add_words(struct text *text, const char *at, size_t count, const char *none) {
    size_t length;
    at = find_word(at, &length);
    if (length == 0 || count == 0) add(text, "%s", none);
    for (size_t k = 0; k < count && length > 0; k++) {
        add(text, "%s%.*s", k == 0 ? "" : " ", (int)length, at);
        at = find_word(at + length, &length);
    }
}

/* Adds where two declarations differ first: what stands before that, and what each has there. */
void add_difference(struct text *text, const char *found, const char *given) {
    const char *before[4] = {given, given, given, given};
    size_t count = 0, ours, theirs;
    for (;;) {
        const char *here = find_word(found, &theirs), *there = find_word(given, &ours);
        if (ours != theirs || ours == 0 || memcmp(here, there, ours) != 0) break;
        before[count++ % 4] = there;
        found = here + theirs;
        given = there + ours;
    }
    add(text, "behind `");
    add_words(text, before[count < 4 ? 0 : count % 4], count < 4 ? count : 4, "");
    add(text, "` it has `");
    add_words(text, found, 4, "the end");
    add(text, "`, and this one `");
    add_words(text, given, 4, "the end");
    add(text, "`");
}
