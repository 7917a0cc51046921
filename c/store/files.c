/*
** Files of a store: none becomes a standard stream, no program gets one that
** this process runs, each is written whole, and a new one has the access of the
** one before it. All are named in their folder, which may be renamed meanwhile.
*/
#include <limits.h>
#include <stdio.h>

#include "store.h"

#define MOST_LINKS 40

/* The same file with a descriptor above those of the streams, if it has one of these. */
int above_streams(int file) {
    int above, error;
    if (file < 0 || file > STDERR_FILENO) return file;
    above = fcntl(file, F_DUPFD_CLOEXEC, STDERR_FILENO + 1);
    error = errno;
    close(file);
    errno = error;
    return above;
}

int open_beside_others(int folder, const char *name, int flags, mode_t mode) {
    return goes_on("openat") ? above_streams(openat(folder, name, flags | O_CLOEXEC, mode)) : -1;
}

/*
** Gives a new file the owner, the group and the mode of another, as far as this
** process may. If its group is another one, that gets no more than all others.
** Nobody who may only read gets the file beside the journal: with a lock for
** reading, or by sleeping at a word of it, they could stop everybody.
*/
void give_access(int file, const struct stat *like, bool is_page) {
    mode_t mode = like->st_mode & 0777;
    if (fchown(file, like->st_uid, like->st_gid) != 0 && fchown(file, (uid_t)-1, like->st_gid) != 0)
        mode = (mode & ~(mode_t)070) | (mode & 07) << 3;
    if (is_page)
        for (int shift = 0; shift <= 6; shift += 3)
            if ((mode >> shift & 06) != 06) mode &= ~((mode_t)07 << shift);
    (void)!fchmod(file, is_page ? (mode & 0666) | 0600 : mode);
}

/* False, with errno, if not all of it was written. */
bool write_whole(int file, const char *text, size_t length) {
    while (length > 0) {
        ssize_t written = write_on(file, text, length);
        if (written < 0 && errno == EINTR) continue;
        if (written == 0) errno = EIO;
        if (written <= 0) return false;
        text += written;
        length -= (size_t)written;
    }
    return true;
}

/* Puts where a link leads in the place of its name; false if it isn't one. */
static bool follow_link(char path[PATH_MAX]) {
    char target[PATH_MAX], folder[PATH_MAX];
    char *slash = strrchr(path, '/');
    ssize_t length = readlink(path, target, sizeof target - 1);
    if (length < 0) return false;
    target[length] = 0;
    memcpy(folder, path, PATH_MAX);
    if (slash != NULL) folder[slash - path + 1] = 0;
    if (target[0] == '/' || slash == NULL) folder[0] = 0;
    if (strlen(folder) + (size_t)length >= PATH_MAX) return false;
    strcpy(path, folder);
    strcat(path, target);
    return true;
}

/* The whole path of a file, which may not be there yet, without links in it. */
static bool resolve(store *s, const char *file, char path[PATH_MAX]) {
    char folder[PATH_MAX];
    char *slash;
    if (file == NULL || strlen(file) >= PATH_MAX) {
        errno = file == NULL ? EFAULT : ENAMETOOLONG;
        return refuse_by_system(s, "can't be opened");
    }
    strcpy(path, file);
    for (int links = 0; links < MOST_LINKS && follow_link(path); links++) continue;
    slash = strrchr(path, '/');
    if (slash == NULL) strcpy(folder, ".");
    else snprintf(folder, sizeof folder, "%.*s", slash == path ? 1 : (int)(slash - path), path);
    slash = slash == NULL ? path : slash + 1;
    if (realpath(folder, s->path) == NULL) {
        snprintf(s->path, sizeof s->path, "%s", file);
        return refuse_by_system(s, "can't be opened");
    }
    memmove(path, slash, strlen(slash) + 1);
    return true;
}

/* Finds out which file is meant, and opens its folder. */
bool find_file(store *s, const char *file) {
    char name[PATH_MAX];
    size_t length;
    snprintf(s->path, sizeof s->path, "%s", file == NULL ? "" : file);
    if (!resolve(s, file, name)) return false;
    length = strlen(s->path);
    s->folder = above_streams(open(s->path, O_PATH | O_DIRECTORY | O_CLOEXEC));
    if (s->folder < 0) return refuse_by_system(s, "can't be opened");
    if (name[0] == 0 || strlen(name) >= sizeof s->name || length + strlen(name) + 2 > sizeof s->path) {
        errno = name[0] == 0 ? EISDIR : ENAMETOOLONG;
        return refuse_by_system(s, "can't be opened");
    }
    strcpy(s->name, name);
    snprintf(s->beside_name, sizeof s->beside_name, "%.255s.shared", s->name);
    if (length > 1) s->path[length++] = '/';
    strcpy(s->path + length, name);
    return true;
}

/* The name in the folder that a file of the journal has which was moved away; the first is 0. */
void archive_name(const store *s, uint64_t segment, char name[NAME_SIZE]) {
    snprintf(name, NAME_SIZE, "%s.%llu", s->name, (unsigned long long)segment + 1);
}

/* So that names in it are found there after a crash. */
int sync_folder(const store *s) {
    int error, folder = open_beside_others(s->folder, ".", O_RDONLY | O_DIRECTORY, 0), said;
    if (folder < 0) return -1;
    said = sync_file(folder);
    error = errno;
    close(folder);
    errno = error;
    return said;
}

/*
** Tells at an open file of the journal, by a lock on a byte of it, which file
** lies beside it here. False if it is another one for others who have it open.
*/
bool meets_here(store *s, int file) {
    struct stat state;
    struct flock asked;
    int64_t place;
    if (file_state(s->beside, &state) != 0) return refuse_by_system(s, "can't be opened");
    place = 1 + (int64_t)(((uint64_t)state.st_dev * 1000003 + (uint64_t)state.st_ino) % (uint64_t)(MOST_BESIDE - 2));
    if (lock_bytes(file, F_OFD_SETLK, F_RDLCK, BESIDE_BYTES + place, 1, &asked) != 0) return refuse_by_system(s, "can't be locked");
    if (lock_bytes(file, F_OFD_GETLK, F_WRLCK, BESIDE_BYTES, place, &asked) == 0 && asked.l_type == F_UNLCK &&
        lock_bytes(file, F_OFD_GETLK, F_WRLCK, BESIDE_BYTES + place + 1, MOST_BESIDE - place - 1, &asked) == 0 && asked.l_type == F_UNLCK)
        return true;
    return refuse(s, WANZOCHE_IN_USE, 0, "%.300s is open in another place, with another file beside it than %.100s", s->path, s->beside_name);
}

/* Opens a file of the journal. Null, with errno, if that can't be. */
struct lines *open_lines(store *s, const char *name, int flags, mode_t mode, uint64_t segment) {
    struct lines *lines = malloc(sizeof *lines);
    if (lines == NULL) return NULL;
    *lines = (struct lines){.holders = 1, .segment = segment};
    lines->file = open_beside_others(s->folder, name, O_RDWR | O_APPEND | flags, mode);
    if (lines->file < 0) {
        int error = errno;
        free(lines);
        errno = error;
        return NULL;
    }
    for (int k = 0; k < MOST_FILES && lines->place == NULL; k++) {
        int none = 0;
        if (atomic_compare_exchange_strong(&s->files[k], &none, lines->file)) lines->place = &s->files[k];
    }
    return lines;
}

/* One more who needs a file. */
struct lines *hold(struct lines *file) {
    file->holders++;
    return file;
}

/* One less: the last closes it. */
void let_go(struct lines *file) {
    if (file == NULL || --file->holders > 0) return;
    if (file->place != NULL) *file->place = 0;
    close(file->file);
    free(file);
}
