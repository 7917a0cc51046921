/* Opening a store. */
#include <pthread.h>
#include <stdio.h>
#include <sys/mman.h>

#include "store.h"

#define NEAR 65536 /* so many bytes of the journal may be left for the first turn */

/* Calls */

/* Begins a call: DONE, or why there is nothing to call. The thread can't be cancelled in it. */
wanzoche_answer come_in(store *s, int *cancel) {
    static const wanzoche_answer closed = {WANZOCHE_CLOSED, 0}, forked = {WANZOCHE_FORKED, 0};
    if (s == NULL) return closed;
    if (s->is_forked) return forked;
    pthread_setcancelstate(PTHREAD_CANCEL_DISABLE, cancel);
    s->visitors++;
    if (!s->is_closing) return done;
    go_out(s, *cancel);
    return closed;
}

void go_out(store *s, int cancel) {
    s->visitors--;
    pthread_setcancelstate(cancel, &cancel);
}

/* The declaration */

/* The names of the operations, in the order of the declaration, which is spelled with a space behind each word. */
static bool read_names(store *s) {
    const char *at = s->declaration;
    uint32_t count = 0;
    s->operations = wanzoche_operations(&s->replica.system);
    s->names = calloc(s->operations + 1u, sizeof *s->names);
    if (s->names == NULL) return refuse_for_memory(s);
    while (count < s->operations && (at = strstr(at, "operation ")) != NULL) {
        at += strlen("operation ");
        for (bool goes_on = true; goes_on && count < s->operations;) {
            size_t length = strcspn(at, " ,\n");
            if (length > 32 || wanzoche_operation(&s->replica.system, at, length) != (int64_t)count) break;
            memcpy(s->names[count++], at, length);
            goes_on = at[length] == ',';
            at += length + (goes_on ? 2 : 0);
        }
    }
    return count == s->operations || refuse(s, WANZOCHE_UNEXPECTED, 0, "the declaration has other names than it says");
}

static bool read_declaration(store *s, const char *text, size_t length) {
    wanzoche *system = &s->replica.system;
    s->trouble = wanzoche_open_without_journal(system, text, length, ROOM, s->message, sizeof s->message);
    if (s->trouble.code != WANZOCHE_OPENED) return false;
    s->trouble = wanzoche_declaration(system, NULL, 0);
    s->declaration = malloc((size_t)s->trouble.number + 1);
    s->buffer = malloc(HEAD_LENGTH + CHUNK);
    if (s->trouble.code != WANZOCHE_TOO_SMALL || s->declaration == NULL || s->buffer == NULL) return refuse_for_memory(s);
    s->trouble = wanzoche_declaration(system, s->declaration, (size_t)s->trouble.number + 1);
    if (s->trouble.code != WANZOCHE_WRITTEN) return refuse_for_memory(s);
    s->declaration_length = (size_t)s->trouble.number;
    while (s->declaration_length > 0 && s->declaration[s->declaration_length - 1] == '\n') s->declaration[--s->declaration_length] = 0;
    memcpy(s->buffer, HEAD, HEAD_LENGTH);
    return read_names(s);
}

/* Arriving */

/* Opens the journal's file. It is made if there is none, but not where there was one: then the file beside it is there. */
static bool open_door(store *s) {
    struct stat state;
    bool is_new = state_at(s->folder, s->beside_name, &state) != 0;
    s->door = open_lines(s, s->name, O_NONBLOCK | (is_new ? O_CREAT : 0), 0666, 0);
    if (s->door == NULL && errno == ENOENT && !is_new)
        return refuse(s, WANZOCHE_NOT_A_STORE, 0,
                      "%.200s is gone, and %.100s, which belongs to it, is there: put the journal back, or remove that file, too, to begin anew", s->path,
                      s->beside_name);
    if (s->door == NULL || file_state(s->door->file, &state) != 0) return refuse_by_system(s, "can't be opened");
    if (!S_ISREG(state.st_mode)) return refuse(s, WANZOCHE_NOT_A_STORE, 0, "%.300s isn't a regular file", s->path);
    s->device = (uint64_t)state.st_dev;
    return has_one_name(s);
}

/* Whether the file may be a journal, before anything is put beside it. */
static bool may_be_journal(store *s) {
    static const char whole[] = "journal 3 room ";
    char head[sizeof whole] = "";
    ssize_t found = read_at(s->door->file, head, sizeof whole - 1, 0);
    if (found < 0) return refuse_by_system(s, "can't be read");
    if (found == 0 || head[0] == 0 || memcmp(head, whole, (size_t)found) == 0) return true;
    return refuse(s, WANZOCHE_NOT_A_STORE, 0, "%.300s isn't a journal: it has no head as `journal 3 room 1048576`", s->path);
}

/* Nobody has it open: what the page says of who has the turn, and who waits, is over. */
static void clear_page(struct page *page) {
    page->is_ready = 0;
    page->turn = 0;
    page->syncer = 0;
    page->looked = 0;
    for (int k = 0; k < SLOTS / 64; k++) page->used[k] = 0;
    memset(page->called, 0, sizeof page->called);
    for (int k = 0; k < SLOTS; k++) page->slots[k].word = 0;
}

/*
** Comes into the world, with a number for the first turn. One at a time: so each
** sees whether others are there already, and whoever comes first clears the page.
*/
static bool come_into_world(store *s, uint64_t until) {
    struct flock asked;
    while (lock_bytes(s->beside, F_OFD_SETLK, F_WRLCK, OPENING_BYTE, 1, &asked) != 0) {
        if (errno != EAGAIN && errno != EACCES) return refuse_by_system(s, "can't be locked");
        if (now() >= until) return refuse(s, WANZOCHE_LATE, 0, "late");
        pause_for(MILLISECOND);
    }
    if (!has_others(s)) clear_page(s->page);
    s->me = FIRST_OPENER + (atomic_fetch_add(&s->page->openers, 1) & (FIRST_OPENER - 1));
    return arrive(s, s->me) && (lock_bytes(s->beside, F_OFD_SETLK, F_UNLCK, OPENING_BYTE, 1, &asked) == 0 || refuse_by_system(s, "can't be unlocked"));
}

/* Reads what is there, until little is left for the turn, or it doesn't get less. */
static bool read_ahead(store *s) {
    uint64_t left = NEVER, before, end;
    do {
        before = left;
        if (!follow_ahead(s)) return false;
        end = s->page->is_ready ? s->page->end : 0;
        left = end > journal_end(s) ? end - journal_end(s) : 0;
    } while (left > NEAR && left < before && s->replica.file != NULL);
    return true;
}

/* In the first turn: a number that was never given. */
static bool take_number(store *s) {
    struct page *page = s->page;
    if (page->workers + 1 >= FIRST_OPENER)
        return refuse(s, WANZOCHE_NOT_A_STORE, 0, "%.300s has no number left for another worker: begin anew with other files", s->path);
    page->workers++;
    if (!arrive(s, (uint32_t)page->workers)) return false;
    s->worker = (uint32_t)page->workers;
    return true;
}

static bool join(store *s, uint64_t until) {
    uint32_t opener;
    bool has_number;
    uint64_t time = now();
    wanzoche_answer answer = begin_turn(s, (struct limit){time, later(until, time + PATIENCE)});
    if (answer.code != DONE) {
        s->trouble = answer;
        return answer.code != WANZOCHE_LATE ? false : refuse(s, WANZOCHE_LATE, 0, "late");
    }
    has_number = take_number(s);
    end_turn(s);
    opener = s->me;
    if (!has_number) return false;
    s->me = s->worker;
    depart(s, opener);
    let_go(s->door);
    s->door = NULL;
    return true;
}

#define USUAL_PATIENCE (5 * MILLISECOND)

/* How long one waits before starts are withheld for it. */
static uint64_t patience_of(const wanzoche_store_options *options) {
    if (options->is_strict) return 0;
    if (options->patience == 0) return USUAL_PATIENCE;
    if (options->patience < 0 || (uint64_t)options->patience > NEVER / MILLISECOND / 2) return NEVER;
    return (uint64_t)options->patience * MILLISECOND;
}

/* The limit is that of its waiting for others: what the reading takes isn't part of it. */
static bool open_all(store *s, const char *file, const char *text, size_t length, const wanzoche_store_options *options, uint64_t until) {
    uint64_t read;
    s->patience = USUAL_PATIENCE;
    s->replica.place = NO_PLACE;
    if (options != NULL) {
        s->no_sync = options->no_sync;
        s->keep_lost = options->keep_lost;
        s->patience = patience_of(options);
    }
    s->replica.room = options == NULL || options->room == 0 ? WANZOCHE_MOST_LINES : options->room;
    if (!read_declaration(s, text, length)) return false;
    if (s->replica.room > WANZOCHE_MOST_LINES) return refuse(s, WANZOCHE_BAD_ROOM, 0, "bad room");
    if (!add_to_forks(s) || !find_file(s, file) || !open_door(s) || !may_be_journal(s) || !open_page(s, until) || !come_into_world(s, until))
        return false;
    read = now();
    return read_ahead(s) && join(s, until == NEVER ? NEVER : until + (now() - read));
}

wanzoche_answer wanzoche_store_open(wanzoche_store **store, const char *file, const char *text, size_t length,
                                    const wanzoche_store_options *options, int64_t limit, char *message, size_t size) {
    wanzoche_answer answer = {WANZOCHE_OPENED, 0};
    wanzoche_store *s;
    int cancel;
    if (message != NULL && size > 0) message[0] = 0;
    if (store == NULL) return (wanzoche_answer){WANZOCHE_CLOSED, 0};
    *store = NULL;
    s = calloc(1, sizeof *s);
    if (s == NULL) return (wanzoche_answer){WANZOCHE_OUT_OF_MEMORY, 0};
    pthread_setcancelstate(PTHREAD_CANCEL_DISABLE, &cancel);
    s->folder = s->beside = -1;
    if (open_all(s, file, text, length, options, deadline(limit))) {
        s->message[0] = 0;
        *store = s;
    } else {
        answer = s->trouble;
        if (message != NULL && size > 0) snprintf(message, size, "%s", s->message);
        take_apart(s);
    }
    pthread_setcancelstate(cancel, &cancel);
    return answer;
}
