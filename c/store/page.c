/*
** The file beside the journal, FILE.shared: the page, the ring of attempts, the
** declaration, and behind that the numbers of the workers' processes.
**
** Older packages keep another page there: those of Python of version 1, and
** libraries without a ring of version 2. Which of them lies there is changed only
** by who has the journal to itself (LOCK_EX), while each opening has its LOCK_SH on
** it to its end, and only if no lock at all is on the file beside it. So whoever
** has the store open is never left with a page that others don't look at.
*/
#include <stdio.h>
#include <sys/mman.h>

#include "store.h"

static const char MAGIC[8] = {'w', 'a', 'n', 'z', 'o', 'c', 'h', 'e'};

/* What both packages have at the begin of the file. */
struct head {
    char magic[8];
    uint32_t version, declaration;
};

/* Where a page of each version has its declaration, and the last number that was given to a worker. */
static const struct {
    uint64_t declaration, workers;
} PLACES[] = {
    [PAGE_VERSION_OF_PYTHON] = {4096, 32},
    [PAGE_VERSION_WITHOUT_RING] = {sizeof(struct page), offsetof(struct page, workers)},
    [PAGE_VERSION] = {SHARED_SIZE, offsetof(struct page, workers)},
};

#define LONG (30000 * MILLISECOND)         /* so long one waits for another that makes the store or mends it */
#define SHORT (1000 * MILLISECOND)         /* and so long for an opening of the other package that ends */

uint64_t place_of_process(const store *s, uint32_t worker) {
    return SHARED_SIZE + (s->declaration_length + 8) / 8 * 8 + (uint64_t)worker * sizeof(uint64_t);
}

/* Where two declarations differ first, in words. */
static bool refuse_declaration(store *s, const char *found) {
    const char *given = s->declaration;
    size_t same = 0, word = 0;
    while (found[same] != 0 && found[same] == given[same]) same++;
    for (size_t k = 0; k < same; k++)
        if (given[k] == ' ') word = k + 1;
    return refuse(s, WANZOCHE_OTHER_DECLARATION, 0,
                  "%.160s is of another declaration: behind `%.*s` it has `%.60s`, and this one `%.60s`", s->path,
                  (int)(word > 60 ? 60 : word > 0 ? word - 1 : 0), given + (word > 60 ? word - 61 : 0), found + word, given + word);
}

/* The declaration in the file, without a line feed at its end: null if it can't be read. The caller frees it. */
static char *declaration_in(store *s, int file, const struct head *head) {
    size_t length = head->declaration;
    char *found = NULL;
    if (length > (size_t)1 << 20) refuse(s, WANZOCHE_NOT_A_STORE, 0, "%.300s.shared isn't whole", s->path);
    else if ((found = calloc(1, length + 1)) == NULL) refuse_for_memory(s);
    else if (read_at(file, found, length, PLACES[head->version].declaration) < 0) {
        refuse_by_system(s, "can't be opened");
        free(found);
        found = NULL;
    }
    for (size_t end = length; found != NULL && end > 0 && found[end - 1] == '\n'; end--) found[end - 1] = 0;
    return found;
}

/* Whether the declaration in the file is the one that is given. */
static bool has_declaration(store *s, int file, const struct head *head) {
    char *found = declaration_in(s, file, head);
    bool is_same = found != NULL && (strcmp(found, s->declaration) == 0 || refuse_declaration(s, found));
    free(found);
    return is_same;
}

/* Fills a new file beside the journal, whose name is another one yet. */
static bool fill_page(store *s, int file, const struct stat *like, uint64_t workers) {
    struct page *page = aligned_alloc(_Alignof(struct page), sizeof *page);
    bool is_filled;
    int error;
    if (page == NULL) return refuse_for_memory(s);
    memset(page, 0, sizeof *page);
    memcpy(page->magic, MAGIC, sizeof MAGIC);
    page->version = PAGE_VERSION;
    page->declaration = (uint32_t)s->declaration_length + 1;
    page->workers = workers;
    give_access(file, like, true);
    /* All its bytes are allocated, so that none is refused when it is touched. */
    error = goes_on("fallocate") ? posix_fallocate(file, 0, (off_t)(SHARED_SIZE + page->declaration)) : errno;
    if (error != 0) errno = error;
    is_filled = error == 0 && write_whole(file, (const char *)page, sizeof *page) && lseek(file, (off_t)SHARED_SIZE, SEEK_SET) > 0 &&
                write_whole(file, s->declaration, s->declaration_length) && write_whole(file, "\n", 1) && sync_file(file) == 0;
    error = errno;
    free(page);
    errno = error;
    return is_filled || refuse_by_system(s, "can't get a file beside it");
}

/* Makes the file, whole or not at all. Whoever has the journal to itself. */
static bool make_page(store *s, uint64_t workers) {
    char part[NAME_SIZE + 24];
    struct stat like;
    bool is_made;
    int file, error;
    snprintf(part, sizeof part, "%s.%ld", s->beside_name, (long)getpid());
    if (file_state(s->door->file, &like) != 0) return refuse_by_system(s, "can't be opened");
    unlinkat(s->folder, part, 0); /* of one who died here, and had this number */
    file = open_beside_others(s->folder, part, O_RDWR | O_CREAT | O_EXCL, 0600);
    if (file < 0) return refuse_by_system(s, "can't get a file beside it");
    is_made = fill_page(s, file, &like, workers);
    if (is_made && (rename_at(s->folder, part, s->beside_name) != 0 || sync_folder(s) != 0)) is_made = refuse_by_system(s, "can't get a file beside it");
    error = errno;
    close(file);
    unlinkat(s->folder, part, 0);
    errno = error;
    return is_made;
}

static bool read_page_head(store *s, int file, struct head *head) {
    struct stat state;
    memset(head, 0, sizeof *head);
    if (file_state(file, &state) != 0 || read_at(file, head, sizeof *head, 0) < 0) return refuse_by_system(s, "can't be opened");
    if (!S_ISREG(state.st_mode) || memcmp(head->magic, MAGIC, sizeof MAGIC) != 0)
        return refuse(s, WANZOCHE_NOT_A_STORE, 0, "%.300s.shared isn't the file that a store has beside its journal", s->path);
    if (head->version == 0 || head->version > PAGE_VERSION)
        return refuse(s, WANZOCHE_NOT_A_STORE, 0, "%.300s.shared is of version %u, and this library has %u", s->path, head->version, PAGE_VERSION);
    if (head->version == PAGE_VERSION && (uint64_t)state.st_size < SHARED_SIZE + head->declaration)
        return refuse(s, WANZOCHE_NOT_A_STORE, 0, "%.300s.shared is cut off: remove it when no process has the store open", s->path);
    return true;
}

/* Without an opening: the declaration of the store whose file was found, which the caller frees. Null if there is none to be read. */
char *stored_declaration(store *s) {
    struct head head;
    char *found = NULL;
    int error, file = open_beside_others(s->folder, s->beside_name, O_RDONLY, 0);
    if (file < 0) {
        error = errno;
        refuse(s, WANZOCHE_SYSTEM, (uint64_t)error, "%.300s.shared can't be opened: %s", s->path, strerror(error));
        return NULL;
    }
    if (read_page_head(s, file, &head)) found = declaration_in(s, file, &head);
    close(file);
    return found;
}

static bool refuse_older(store *s, const struct head *head) {
    const char *whose = head->version == PAGE_VERSION_OF_PYTHON ? "Python package" : "library";
    return refuse(s, WANZOCHE_IN_USE, 0, "%.400s is open by processes of an older %s", s->path, whose);
}

/* Puts a page of this library in the place of an older one that nobody has open. */
static bool take_over_page(store *s, int file, const struct head *head) {
    struct flock asked;
    uint64_t workers = 0;
    if (lock_bytes(file, F_OFD_GETLK, F_WRLCK, OPENING_BYTE, 0, &asked) != 0 || asked.l_type != F_UNLCK) return refuse_older(s, head);
    if (!has_declaration(s, file, head)) return false;
    if (read_at(file, &workers, sizeof workers, PLACES[head->version].workers) < 0) return refuse_by_system(s, "can't be opened");
    return make_page(s, workers);
}

/* With the journal to itself: sees to it that this library's page is there. */
static bool provide_page(store *s) {
    struct head head;
    bool is_provided;
    int file = open_beside_others(s->folder, s->beside_name, O_RDWR, 0);
    if (file < 0 && errno == ENOENT) return make_page(s, 0);
    if (file < 0) return refuse_by_system(s, "has a file beside it that can't be opened");
    is_provided = read_page_head(s, file, &head) && (head.version == PAGE_VERSION || take_over_page(s, file, &head));
    close(file);
    return is_provided;
}

/* Maps the page by a descriptor of its own: a mapping keeps the open file, and a child of a fork would keep the locks of it. */
static bool map_page(store *s) {
    struct stat one, other;
    void *page = MAP_FAILED;
    int file = open_beside_others(s->folder, s->beside_name, O_RDWR, 0);
    bool is_same = file >= 0 && file_state(file, &one) == 0 && file_state(s->beside, &other) == 0 && one.st_ino == other.st_ino && one.st_dev == other.st_dev;
    if (is_same && goes_on("mmap")) page = mmap(NULL, SHARED_SIZE, PROT_READ | PROT_WRITE, MAP_SHARED, file, 0);
    if (page == MAP_FAILED) refuse_by_system(s, "has a file beside it that can't be mapped");
    else s->page = page;
    s->ring = s->page == NULL ? NULL : (struct attempt *)(void *)(s->page + 1);
    if (file >= 0) close(file);
    return page != MAP_FAILED;
}

/* Beside others that share the journal: opens the page that is there. */
static bool join_page(store *s) {
    struct head head;
    s->beside = open_beside_others(s->folder, s->beside_name, O_RDWR, 0);
    if (s->beside < 0 && errno == ENOENT)
        return refuse(s, WANZOCHE_IN_USE, 0, "%.300s is in use by a program that doesn't share it, or %.100s is gone", s->path, s->beside_name);
    if (s->beside < 0) return refuse_by_system(s, "has a file beside it that can't be opened");
    if (read_page_head(s, s->beside, &head) && (head.version == PAGE_VERSION || refuse_older(s, &head)) && has_declaration(s, s->beside, &head) &&
        meets_here(s, s->door->file) && map_page(s))
        return true;
    close(s->beside);
    s->beside = -1;
    return false;
}

/*
** Opens the page, or makes it. In the end this opening shares the journal, and
** keeps that to its end. To share what one has alone isn't one step, and another
** may come between: so it joins only when it shares.
*/
bool open_page(store *s, uint64_t until) {
    int file = s->door->file;
    uint64_t began = now(), patience = LONG;
    for (;;) {
        refuse(s, WANZOCHE_IN_USE, 0, "%.400s is in use by a program that doesn't share it", s->path);
        if (lock_file(file, LOCK_EX) == 0 && !provide_page(s) && s->trouble.code != WANZOCHE_IN_USE) return false;
        if (lock_file(file, LOCK_SH) == 0) {
            if (join_page(s)) return true;
            lock_file(file, LOCK_UN);
            if (s->trouble.code != WANZOCHE_IN_USE) return false;
            patience = SHORT;
        }
        if (now() >= sooner(until, began + patience)) return false;
        pause_for(2 * MILLISECOND);
    }
}
