/* The store that the words name, open. */
#include <limits.h>
#include <stdio.h>
#include <stdlib.h>
#include <string.h>

#include "command.h"

#define PATIENCE 30000 /* so many milliseconds an opening waits for another that makes the store or mends it */
#define CLOSING 1000   /* and so many a close for its turn; then others finish what is in progress */

/* The path of a file without links in it, as far as that can be found, also of one that isn't there. The caller frees it. */
char *whole_path(const char *file) {
    const char *slash = strrchr(file, '/');
    char *found = realpath(file, NULL), *folder;
    struct text name = {NULL, 0, 0};
    if (found != NULL) return found;
    add(&name, "%.*s", slash == NULL || slash == file ? 1 : (int)(slash - file), slash == NULL ? "." : file);
    folder = realpath(name.at, NULL);
    clear_text(&name);
    if (folder == NULL) add(&name, "%s", file);
    else add(&name, "%s/%s", strcmp(folder, "/") == 0 ? "" : folder, slash == NULL ? file : slash + 1);
    free(folder);
    return name.at;
}

/* Keeps why the store has answered so. Always false. */
bool is_refused(struct shared *shared, wanzoche_answer answer) {
    char why[WANZOCHE_STORE_MESSAGE];
    if (answer.code == WANZOCHE_OUT_OF_MEMORY) return fails("no memory for %s", shared->path);
    if (answer.code == WANZOCHE_LATE) return fails("%s: no turn was to be had in time, since a process that has it is stopped", shared->path);
    shared->has_fault = shared->has_fault || answer.code == WANZOCHE_CORRUPT || answer.code == WANZOCHE_UNSYNCED;
    wanzoche_store_message(shared->store, why, sizeof why);
    return fails_by_store(answer, "%s", why);
}

/* Opens it, or makes it for `exec`. What the dead have in progress stays, but for an `exec` that wasn't told to keep it. */
bool open_shared(struct shared *shared, const struct given *given) {
    char why[WANZOCHE_STORE_MESSAGE];
    bool is_run = given->command == DO_EXEC;
    wanzoche_store_options options = {
        .no_sync = is_run && given->no_sync,
        .keep_lost = !is_run || (given->lost != NULL && strcmp(given->lost, "keep") == 0),
        .room = WANZOCHE_MOST_LINES,
    };
    const char *text = shared->declared.text;
    wanzoche_answer answer;
    shared->path = given->path;
    answer = wanzoche_store_open(&shared->store, shared->path, text, strlen(text), &options, PATIENCE, why, sizeof why);
    if (answer.code == WANZOCHE_OPENED) return true;
    if (answer.code == WANZOCHE_OUT_OF_MEMORY || answer.code == WANZOCHE_LATE) return is_refused(shared, answer);
    return fails_by_store(answer, "%s", why);
}

/* Finishes what is in progress still. False, with why, if that can't be written, and no other fault was said before. */
bool close_shared(struct shared *shared) {
    wanzoche_answer answer = wanzoche_store_stop(shared->store, CLOSING);
    bool is_whole = (answer.code != WANZOCHE_SYSTEM && answer.code != WANZOCHE_UNSYNCED) || shared->has_fault || is_refused(shared, answer);
    (void)!wanzoche_store_close(shared->store, 0).code;
    shared->store = NULL;
    return is_whole;
}
