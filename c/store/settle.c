/*
** The first turn after nobody had the store open: the page may be new, or older
** than the journal, and a crash of the machine may have left a torn end.
*/
#include <stdio.h>

#include "store.h"

/* How many files of the journal were moved away. One that was cut off in the middle of that has both names, and isn't among them. */
uint64_t count_archives(store *s, uint64_t inode, bool *is_half_moved) {
    char name[NAME_SIZE];
    struct stat state;
    uint64_t count = 0;
    *is_half_moved = false;
    for (;; count++) {
        archive_name(s, count, name);
        if (state_at(s->folder, name, &state) != 0) return count;
        if ((uint64_t)state.st_ino == inode) break;
    }
    *is_half_moved = true;
    return count;
}

/*
** Whether the file of the journal has no other name than this one, and the one
** that it gets when it is moved away. Counted again if somebody moves it meanwhile.
*/
bool has_one_name(store *s) {
    struct stat before, behind;
    bool is_half_moved;
    do {
        if (file_state(s->door->file, &before) != 0) return refuse_by_system(s, "can't be opened");
        count_archives(s, (uint64_t)before.st_ino, &is_half_moved);
        if (file_state(s->door->file, &behind) != 0) return refuse_by_system(s, "can't be opened");
    } while (before.st_nlink != behind.st_nlink);
    if (before.st_nlink - is_half_moved <= 1) return true;
    return refuse(s, WANZOCHE_NOT_A_STORE, 0,
                  "%.200s has %lu names (hard links), and who opens another of them shares nothing with who opens this one: remove all but one",
                  s->path, (unsigned long)before.st_nlink);
}

/* Which start of the machine this is; empty if it doesn't say. */
static void read_boot(char boot[48]) {
    int file = above_streams(open("/proc/sys/kernel/random/boot_id", O_RDONLY | O_CLOEXEC));
    memset(boot, 0, 48);
    if (file < 0) return;
    if (read(file, boot, 36) != 36) memset(boot, 0, 48);
    close(file);
}

/* Whether what is there is at least what is known to have been there. */
static bool is_long_enough(store *s, uint64_t archives, uint64_t found) {
    struct page *page = s->page;
    char boot[48], name[NAME_SIZE];
    uint64_t known = page->synced;
    read_boot(boot);
    if (boot[0] != 0 && memcmp(boot, page->boot, sizeof boot) == 0) known = later(known, page->end);
    archive_name(s, archives, name);
    if (archives < page->segment) return refuse(s, WANZOCHE_NOT_A_STORE, 0, "%.300s: the file %.100s of the journal is gone", s->path, name);
    if (found >= known) return true;
    return refuse(s, WANZOCHE_NOT_A_STORE, 0,
                  "%.200s is shorter than it was, by %llu bytes: put it back, or remove %.100s to go on with what is there", s->path,
                  (unsigned long long)(known - found), s->beside_name);
}

/* Whether a file without a whole head has only a part of one, or what a crash leaves of it. */
static bool is_torn_head(store *s, uint64_t size) {
    static const char whole[] = "journal 3 room ";
    char head[64];
    ssize_t found = read_at(s->replica.file->file, head, sizeof head, 0);
    size_t zeros = 0, same = 0, length = found < 0 ? sizeof head : (size_t)found;
    while (zeros < length && head[zeros] == 0) zeros++;
    while (same < length && same < sizeof whole - 1 && head[same] == whole[same]) same++;
    if (same == sizeof whole - 1)
        while (same < length && head[same] >= '0' && head[same] <= '9') same++;
    return found >= 0 && size < sizeof head && (zeros == length || (same == length && length < HEAD_LENGTH));
}

/* Begins an empty file, or one in which only a part of a head stands. */
static bool begin_file(store *s, uint64_t size) {
    struct replica *r = &s->replica;
    char head[64];
    int length = snprintf(head, sizeof head, "journal 3 room %u\n", r->room);
    if (!is_torn_head(s, size)) return refuse(s, WANZOCHE_NOT_A_STORE, 0, "%.300s isn't a journal: it has no head as `journal 3 room 1048576`", s->path);
    if (cut_file(r->file->file, 0) != 0 || !write_whole(r->file->file, head, (size_t)length)) return refuse_by_system(s, "can't be written");
    r->at = (uint64_t)length;
    return true;
}

/* A rotation in the middle of which somebody died, and nobody came since, is undone. */
static bool undo_half_move(store *s, uint64_t *archives) {
    char name[NAME_SIZE];
    struct stat state;
    bool is_half_moved;
    if (state_at(s->folder, s->name, &state) != 0) return refuse_by_system(s, "can't be opened");
    *archives = count_archives(s, (uint64_t)state.st_ino, &is_half_moved);
    archive_name(s, *archives, name);
    if (is_half_moved && unlink_at(s->folder, name) != 0) return refuse_by_system(s, "has a second name that can't be removed");
    return true;
}

bool settle(store *s) {
    struct replica *r = &s->replica;
    struct page *page = s->page;
    uint64_t archives = 0;
    struct stat state;
    r->place = NO_PLACE;
    if (!undo_half_move(s, &archives) || !follow_ahead(s)) return false;
    if (r->file == NULL || file_state(r->file->file, &state) != 0) return refuse_by_system(s, "can't be read");
    if (!is_long_enough(s, archives, r->base + (uint64_t)state.st_size)) return false;
    if (r->at == 0 && !begin_file(s, (uint64_t)state.st_size)) return false;
    if (r->at < (uint64_t)state.st_size && !mend(s, (uint64_t)state.st_size)) return false;
    page->workers = later(page->workers, r->highest);
    page->segment = r->segment;
    page->inode = (uint64_t)state.st_ino;
    page->base = r->base;
    page->synced = sooner(page->synced, journal_end(s));
    page->named = 0;
    page->end = journal_end(s);
    page->is_rotating = 0;
    read_boot(page->boot);
    page->is_ready = 1;
    return true;
}
