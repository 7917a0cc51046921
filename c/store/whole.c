/* The whole journal: its text, and its audit. All that was there in one turn is read behind it, while others go on. */
#include "store.h"

/* Up to where it goes. */
struct extent {
    struct lines *last; /* its last file */
    uint64_t archives, at;
};

static wanzoche_answer find_extent(store *s, int64_t limit, struct extent *extent) {
    wanzoche_answer answer = begin_turn(s, turn_limit(limit));
    if (answer.code != DONE) return answer;
    *extent = (struct extent){hold(s->replica.file), s->replica.segment, s->replica.at};
    end_turn(s);
    return answer;
}

/* Outside of a turn the message wants the lock. */
static wanzoche_answer fail_to_read(store *s, int error) {
    while (!lock_until(&s->lock, NEVER)) continue;
    errno = error;
    refuse_by_system(s, "can't be read");
    unlock(&s->lock);
    return (wanzoche_answer){WANZOCHE_SYSTEM, (uint64_t)error};
}

static bool read_whole(int file, char *to, uint64_t length) {
    for (uint64_t got = 0; got < length;) {
        ssize_t found = read_at(file, to + got, (size_t)(length - got), got);
        if (found == 0) errno = EIO;
        if (found <= 0) return false;
        got += (uint64_t)found;
    }
    return true;
}

/* Reads one file of it, which the caller frees. */
static wanzoche_answer read_file(store *s, int file, uint64_t length, char **text) {
    *text = malloc((size_t)length + 1);
    if (*text == NULL) return (wanzoche_answer){WANZOCHE_OUT_OF_MEMORY, 0};
    if (read_whole(file, *text, length)) return done;
    free(*text);
    return fail_to_read(s, errno);
}

/* The text of the file with this number, of the extent. */
static wanzoche_answer read_segment(store *s, const struct extent *extent, uint64_t segment, char **text, uint64_t *length) {
    char name[NAME_SIZE];
    struct stat state;
    wanzoche_answer answer;
    int file;
    *length = extent->at;
    if (segment == extent->archives) return read_file(s, extent->last->file, *length, text);
    archive_name(s, segment, name);
    file = open_beside_others(s->folder, name, O_RDONLY, 0);
    if (file < 0 || file_state(file, &state) != 0) answer = fail_to_read(s, errno);
    else {
        *length = (uint64_t)state.st_size;
        answer = read_file(s, file, *length, text);
    }
    if (file >= 0) close(file);
    return answer;
}

/* Copies the lines of a file without its head and their marks: how many bytes that are. Without a place to copy to it only counts. */
static uint64_t copy_lines(const char *text, uint64_t length, char *to) {
    const char *at = memchr(text, '\n', (size_t)length), *end = text + length;
    uint64_t copied = 0;
    for (at = at == NULL ? end : at + 1; at < end;) {
        const char *feed = memchr(at, '\n', (size_t)(end - at));
        size_t size;
        if (*at == '+') at++;
        size = (size_t)(feed == NULL ? end - at : feed + 1 - at);
        if (to != NULL) memcpy(to + copied, at, size);
        copied += size;
        at += size;
    }
    return copied;
}

static wanzoche_answer copy_all(store *s, const struct extent *extent, char *buffer, uint64_t *copied) {
    *copied = 0;
    for (uint64_t segment = 0; segment <= extent->archives; segment++) {
        uint64_t length;
        char *text;
        wanzoche_answer answer = read_segment(s, extent, segment, &text, &length);
        if (answer.code != DONE) return answer;
        *copied += copy_lines(text, length, buffer == NULL ? NULL : buffer + *copied);
        free(text);
    }
    return done;
}

static wanzoche_answer write_journal(store *s, char *buffer, size_t size, int64_t limit) {
    struct extent extent;
    uint64_t length;
    wanzoche_answer answer = find_extent(s, limit, &extent);
    if (answer.code != DONE) return answer;
    answer = copy_all(s, &extent, NULL, &length);
    if (answer.code == DONE && (buffer == NULL || size <= length)) answer = (wanzoche_answer){WANZOCHE_TOO_SMALL, length};
    if (answer.code == DONE) answer = copy_all(s, &extent, buffer, &length);
    let_go(extent.last);
    if (answer.code != DONE) return answer;
    buffer[length] = 0;
    return (wanzoche_answer){WANZOCHE_WRITTEN, length};
}

/* Takes a file over behind those before it: SOUND, if all of its lines are owed. */
static wanzoche_answer audit_file(wanzoche *system, const char *text, uint64_t length) {
    wanzoche_taken taken;
    wanzoche_answer answer = wanzoche_take_over(system, text, (size_t)length, &taken);
    if (answer.code == WANZOCHE_OUT_OF_MEMORY) return answer;
    if (answer.code == WANZOCHE_TAKEN && taken.bytes == length) return (wanzoche_answer){WANZOCHE_SOUND, 0};
    return (wanzoche_answer){WANZOCHE_CORRUPT, answer.code == WANZOCHE_WRONG_LINE ? answer.number + 2 : taken.lines + 2};
}

static wanzoche_answer audit(store *s, int64_t limit) {
    struct extent extent;
    wanzoche system = WANZOCHE_CLOSED_HANDLE;
    wanzoche_answer answer = wanzoche_open_without_journal(&system, s->declaration, s->declaration_length, ROOM, NULL, 0);
    if (answer.code != WANZOCHE_OPENED) return answer;
    answer = find_extent(s, limit, &extent);
    if (answer.code == DONE) {
        answer.code = WANZOCHE_SOUND;
        for (uint64_t segment = 0; segment <= extent.archives && answer.code == WANZOCHE_SOUND; segment++) {
            uint64_t length;
            char *text;
            answer = read_segment(s, &extent, segment, &text, &length);
            if (answer.code != DONE) break;
            answer = audit_file(&system, text, length);
            free(text);
        }
        let_go(extent.last);
    }
    wanzoche_close(&system);
    return answer;
}

wanzoche_answer wanzoche_store_journal(wanzoche_store *store, char *buffer, size_t size, int64_t limit) {
    int cancel;
    wanzoche_answer answer = come_in(store, &cancel);
    if (answer.code != DONE) return answer;
    answer = write_journal(store, buffer, size, limit);
    go_out(store, cancel);
    return answer;
}

wanzoche_answer wanzoche_store_audit(wanzoche_store *store, int64_t limit) {
    int cancel;
    wanzoche_answer answer = come_in(store, &cancel);
    if (answer.code != DONE) return answer;
    answer = audit(store, limit);
    go_out(store, cancel);
    return answer;
}
