/*
** Beginning another file of the journal. The old file gets its other name before
** the new one takes its place, so one of them always has the name. What is about
** to be said stands in the page before the first step: whoever finds that somebody
** has died in between says it to its end, or undoes it. Nothing is synced here:
** whoever answers with a sync does that before (sync.c).
*/
#include <stdio.h>

#include "store.h"

static void name_new(const store *s, char name[NAME_SIZE]) {
    snprintf(name, NAME_SIZE, "%s.new", s->name);
}

/* A file with a head, which takes the journal's place. */
static struct lines *make_file(store *s, uint64_t *length) {
    struct replica *r = &s->replica;
    char name[NAME_SIZE], head[64];
    struct stat like;
    struct lines *lines;
    bool is_made;
    name_new(s, name);
    unlink_at(s->folder, name); /* of one who died here */
    lines = open_lines(s, name, O_CREAT | O_EXCL, 0600, r->segment + 1);
    is_made = lines != NULL && file_state(r->file->file, &like) == 0;
    if (is_made) give_access(lines->file, &like, false);
    *length = (uint64_t)snprintf(head, sizeof head, "journal 3 room %u\n", r->room);
    is_made = is_made && write_whole(lines->file, head, (size_t)*length);
    if (!is_made) refuse_by_system(s, "can't be moved away");
    if (is_made && lock_file(lines->file, LOCK_SH) == 0) is_made = meets_here(s, lines->file);
    if (is_made) return lines;
    let_go(lines);
    unlink_at(s->folder, name);
    return NULL;
}

/* Says to all that there is a new file: journal.c says why in this order. */
static void say_rotation(struct page *page) {
    page->segment = page->next.segment;
    page->inode = page->next.inode;
    page->base = page->next.base;
    page->end = page->next.end;
    page->is_rotating = 0;
}

/* Gives both names: false, with neither of them, if that can't be. */
static bool exchange_names(store *s) {
    char name[NAME_SIZE], archive[NAME_SIZE];
    int error;
    name_new(s, name);
    archive_name(s, s->replica.segment, archive);
    if (link_at(s->folder, s->name, archive) == 0) {
        if (rename_at(s->folder, name, s->name) == 0) return true;
        error = errno;
        unlink_at(s->folder, archive);
        errno = error;
    }
    return refuse_by_system(s, "can't be moved away");
}

bool rotate_file(store *s) {
    struct replica *r = &s->replica;
    struct page *page = s->page;
    struct stat state;
    char name[NAME_SIZE];
    uint64_t length;
    struct lines *lines = make_file(s, &length);
    if (lines == NULL) return false;
    name_new(s, name);
    if (file_state(lines->file, &state) != 0) {
        refuse_by_system(s, "can't be moved away");
        let_go(lines);
        return false;
    }
    page->next = (struct rotation){r->segment + 1, journal_end(s), journal_end(s) + length, (uint64_t)state.st_ino};
    page->is_rotating = 1; /* atomic, so behind `next` */
    if (!exchange_names(s)) {
        unlink_at(s->folder, name);
        page->is_rotating = 0;
        let_go(lines);
        return false;
    }
    say_rotation(page);
    let_go(r->file);
    r->file = lines;
    add_news(s, WANZOCHE_MOVED, s->worker, 0, page->segment);
    r->segment = page->segment;
    r->base = page->base;
    r->at = length;
    r->lines = 0;
    put_attempt(s, (struct answered){.kind = ATTEMPT_IN_FILE, .number = r->segment});
    return true;
}

/* In a turn, after somebody died in the middle of that. */
bool finish_rotation(store *s) {
    struct page *page = s->page;
    char name[NAME_SIZE];
    struct stat state, other;
    if (state_at(s->folder, s->name, &state) != 0) return refuse_by_system(s, "can't be used");
    if ((uint64_t)state.st_ino == page->next.inode) {
        say_rotation(page);
        return true;
    }
    archive_name(s, page->next.segment - 1, name);
    if (state_at(s->folder, name, &other) == 0 && other.st_ino == state.st_ino && unlink_at(s->folder, name) != 0)
        return refuse_by_system(s, "has a second name that can't be removed");
    name_new(s, name);
    unlink_at(s->folder, name);
    page->is_rotating = 0;
    return true;
}

/* Whether the file has so many places beside those for the finishes of what is in progress; begins another one if it hasn't. */
bool has_room(store *s, uint32_t places, bool *has) {
    struct replica *r = &s->replica;
    uint64_t wanted = (uint64_t)wanzoche_live(&r->system) + places;
    if (r->lines + wanted > r->room && r->lines > 0 && wanted <= r->room && !rotate_file(s)) return false;
    *has = r->lines + wanted <= r->room;
    return true;
}

wanzoche_answer wanzoche_store_rotate(wanzoche_store *s, int64_t limit) {
    int cancel;
    wanzoche_answer answer = come_in(s, &cancel);
    if (answer.code != DONE) return answer;
    answer = begin_turn(s, turn_limit(limit));
    if (answer.code == DONE) {
        answer = (wanzoche_answer){WANZOCHE_ROTATED, 0};
        if (s->replica.lines > 0 && !rotate_file(s)) answer = s->trouble;
        end_turn(s);
    }
    go_out(s, cancel);
    return answer;
}
