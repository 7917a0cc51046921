/*
** What is on the disk. Nobody syncs in a turn. Those who need a sync at once share
** one: a word in the page says who makes it, and the others sleep at it for a
** slice. If it isn't made by then, since that one is stopped, dead or slow, each
** makes its own: more syncs than one do no harm.
**
** `synced` and `named` only grow, and each is said behind the sync that makes it
** true: so it doesn't matter in which order who says it.
*/
#include "store.h"

static void grow(_Atomic uint64_t *number, uint64_t to) {
    uint64_t seen = *number;
    while (seen < to && !atomic_compare_exchange_weak(number, &seen, to)) continue;
}

/* Syncs a file that was moved away. */
static int sync_archive(store *s, uint64_t segment) {
    char name[NAME_SIZE];
    int file, said, error;
    archive_name(s, segment, name);
    file = open_beside_others(s->folder, name, O_RDONLY, 0);
    if (file < 0) return -1;
    said = sync_lines(file);
    error = errno;
    close(file);
    errno = error;
    return said;
}

/* Syncs this file, and those before it that were moved away since somebody has done so. False with errno. */
static bool sync_all(store *s, const struct lines *file, uint64_t end) {
    struct page *page = s->page;
    uint64_t known = page->end, named = page->named;
    /* What was said when this was still the last file lies in it, or in one before it: journal.c says why in this order. */
    if (page->segment == file->segment) end = later(end, known);
    for (uint64_t segment = named > 0 ? named - 1 : 0; segment < file->segment && named <= file->segment; segment++)
        if (sync_archive(s, segment) != 0) return false;
    if (sync_lines(file->file) != 0) return false;
    if (named <= file->segment && sync_folder(s) != 0) return false;
    grow(&page->named, file->segment + 1);
    grow(&page->synced, end);
    return true;
}

static void give_word(store *s, uint32_t owner) {
    _Atomic uint32_t *word = &s->page->syncer;
    uint32_t seen = *word;
    while ((seen & TURN_OWNER) == owner && !atomic_compare_exchange_weak(word, &seen, 0)) continue;
    if ((seen & TURN_OWNER) == owner && (seen & TURN_WAIT) != 0) futex_wake(word, INT32_MAX, 0);
}

/* Waits until the lines are synced, or it is this one's part to sync them. Whether it has the word. */
static bool wait_for_word(store *s, uint64_t end) {
    _Atomic uint32_t *word = &s->page->syncer;
    uint64_t slice = now() + SLICE;
    while (s->page->synced < end && now() < slice) {
        uint32_t seen = *word;
        if (seen == 0) {
            if (goes_on("syncer") && atomic_compare_exchange_strong(word, &seen, s->worker)) return true;
        } else if ((seen & TURN_WAIT) != 0 || atomic_compare_exchange_strong(word, &seen, seen | TURN_WAIT))
            futex_wait(word, seen | TURN_WAIT, slice, 0);
    }
    return false;
}

/* Nobody can say what is on the disk. */
static wanzoche_answer fail(store *s, int error) {
    while (!lock_until(&s->lock, NEVER)) continue;
    errno = error;
    if (!s->is_over)
        give_up_store(s, WANZOCHE_UNSYNCED, (uint64_t)error, "%.300s can't be synced, so what was answered last may be lost at a crash: %m", s->path);
    unlock(&s->lock);
    return fault_of(s);
}

/* In a turn: up to where has to be synced what was written in it; nothing, if answers don't wait for that. */
struct written note_written(store *s) {
    return (struct written){s->no_sync ? NULL : hold(s->replica.file), journal_end(s)};
}

/* Gives an answer when what was written is on the disk. */
wanzoche_answer wait_for_sync(store *s, struct written written, wanzoche_answer answer) {
    if (written.file == NULL) return answer;
    if (!s->no_sync && s->page->synced < written.end) {
        bool has_word = wait_for_word(s, written.end), is_synced = s->page->synced >= written.end || sync_all(s, written.file, written.end);
        int error = errno;
        uint32_t owner = has_word ? s->worker : s->page->syncer & TURN_OWNER;
        if (has_word || (owner != 0 && is_gone(s, owner))) give_word(s, owner);
        if (!is_synced) answer = fail(s, error);
    }
    let_go(written.file);
    return answer;
}
