/* Commands that ask a store once: `recover`, `audit`, `log` and `status`. */
#include <stdio.h>
#include <stdlib.h>
#include <string.h>

#include "command.h"

static int tell(const struct text *text) {
    if (write_text(text)) return 0;
    say("%s", fault());
    return IS_FAULT;
}

static int end_with_fault(void) {
    say("%s", fault());
    return IS_FAULT;
}

/* Finishes what a worker has in progress, and writes how much that was. */
int recover(struct shared *shared, const struct given *given) {
    struct text told = {NULL, 0, 0};
    uint32_t worker;
    wanzoche_answer answer;
    int status;
    if (!read_worker(given->operation, &worker)) {
        add_quoted(&told, given->operation);
        say("a worker is a number or `process NUMBER`, not %s", told.at);
        clear_text(&told);
        return IS_FAULT;
    }
    answer = wanzoche_store_recover(shared->store, worker, given->even_alive, -1);
    if (answer.code == WANZOCHE_ALIVE) say("process %u is alive", worker);
    if (answer.code == WANZOCHE_ALIVE) return IS_FAULT;
    if (answer.code != WANZOCHE_RECOVERED) return is_refused(shared, answer) ? 0 : end_with_fault();
    add(&told, "finished %llu\n", (unsigned long long)answer.number);
    status = tell(&told);
    clear_text(&told);
    return status;
}

/* All lines of the journal so far. */
static bool read_journal(struct shared *shared, struct text *text) {
    wanzoche_answer answer = wanzoche_store_journal(shared->store, NULL, 0, -1);
    while (answer.code == WANZOCHE_TOO_SMALL) {
        size_t size = (size_t)answer.number + 4096; /* for lines that come meanwhile */
        clear_text(text);
        *text = (struct text){malloc(size), 0, size};
        if (text->at == NULL) end_without_memory();
        answer = wanzoche_store_journal(shared->store, text->at, size, -1);
    }
    if (answer.code != WANZOCHE_WRITTEN) return is_refused(shared, answer);
    text->length = (size_t)answer.number;
    return true;
}

/* Reads the lines of the journal behind so many bytes of all of them, and counts these, too. The text is empty before. */
bool read_new(struct shared *shared, size_t *written, struct text *text) {
    bool is_whole = true, is_read = shared->reader == NULL ? read_journal(shared, text) : look(shared->reader, text, &is_whole);
    size_t known = is_whole ? *written : 0;
    if (!is_read) return false;
    *written = is_whole ? text->length : *written + text->length;
    if (text->length < known) known = text->length;
    if (known > 0) memmove(text->at, text->at + known, text->length - known);
    text->length -= known;
    return true;
}

int write_log(struct shared *shared) {
    struct text journal = {NULL, 0, 0};
    size_t written = 0;
    int status = read_new(shared, &written, &journal) ? tell(&journal) : end_with_fault();
    clear_text(&journal);
    return status;
}

/*
** Says which line of which file isn't owed, from 0 and without the head, and on standard error why, with the line as editors count: whoever has
** found it, the opening too. Behind another fault there is no verdict.
*/
int end_audit(void) {
    uint64_t line = wrong_line();
    struct text told = {NULL, 0, 0}, where = {NULL, 0, 0};
    const char *why = fault(), *behind;
    int status = IS_FAULT;
    if (line > 0) {
        add(&where, " in line %llu: ", (unsigned long long)line);
        behind = strstr(why, where.at);
        add(&told, "wrong line %llu of %.*s\n", (unsigned long long)line - 2, (int)(behind == NULL ? 0 : behind - why), why);
        status = write_text(&told) ? IS_WRONG_LINE : IS_FAULT;
    }
    say("%s", why);
    clear_text(&told);
    clear_text(&where);
    return status;
}

/* Whether each reply in the journal was owed. */
int audit(struct shared *shared) {
    bool is_again;
    if (!look(shared->reader, NULL, &is_again)) return end_audit();
    return tell(&(struct text){(char *)"sound\n", 6, 0});
}
