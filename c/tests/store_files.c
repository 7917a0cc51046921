/* What lies in the folder: links, torn ends, files that are gone, other programs' files, descriptors, forks, full disks. */
#include <sys/file.h>
#include <sys/resource.h>

#include "store.h"

static wanzoche_store *mine;

/* The answer to an opening, which is ended at once. */
static uint32_t code_of(const char *name) {
    wanzoche_store *s;
    uint32_t code = wanzoche_store_open(&s, name, BOOK, strlen(BOOK), NULL, LONGEST, why, sizeof why).code;
    if (code == WANZOCHE_OPENED) CHECK(is_closed(s) && why[0] == 0);
    return code;
}

static void put(const char *name, const char *text, int flags) {
    int f = open(name, O_WRONLY | O_CREAT | flags, 0644);
    if (f < 0 || write(f, text, strlen(text)) != (ssize_t)strlen(text)) exit(7);
    close(f);
}

static uint64_t size_of(const char *name) {
    struct stat state;
    return stat(name, &state) == 0 ? (uint64_t)state.st_size : 0;
}

/* A journal in which one writes, and finishes. */
static void made(const wanzoche_store_options *options) {
    begin_anew();
    mine = opened(options);
    CHECK(left(mine, entered(mine, WRITE)));
    CHECK(is_closed(mine));
}

static void links(void) {
    char link_name[128], absolute[128];
    made(NULL);
    snprintf(link_name, sizeof link_name, "%s/link", folder);
    snprintf(absolute, sizeof absolute, "%s/absolute", folder);
    CHECK(symlink(strrchr(file, '/') + 1, link_name) == 0 && symlink(link_name, absolute) == 0);
    mine = opened(NULL);
    CHECK(code_of(absolute) == WANZOCHE_OPENED && access(beside(".shared"), F_OK) == 0);
    snprintf(absolute, sizeof absolute, "%s/link.shared", folder);
    CHECK(access(absolute, F_OK) != 0 && is_closed(mine));
    CHECK(link(file, beside(".hard")) == 0 && code_of(file) == WANZOCHE_NOT_A_STORE && strstr(why, "hard links") != NULL);
    CHECK(unlink(beside(".hard")) == 0 && code_of(file) == WANZOCHE_OPENED);
    unlink(link_name);
    CHECK(symlink("later.log", link_name) == 0 && code_of(link_name) == WANZOCHE_OPENED); /* it leads to nothing yet */
    snprintf(absolute, sizeof absolute, "%s/later.log.shared", folder);
    CHECK(access(absolute, F_OK) == 0 && code_of("/nowhere/x.log") == WANZOCHE_SYSTEM && code_of(folder) == WANZOCHE_SYSTEM);
    unlink(link_name);
}

static void torn_ends(void) {
    uint64_t whole;
    made(NULL);
    whole = size_of(file);
    put(file, "+1 fini", O_APPEND);
    CHECK(code_of(file) == WANZOCHE_OPENED && size_of(file) == whole);
    put(file, "garbage\n+1 start read: started 1\n", O_APPEND); /* of a crash of the machine: the second was written before the first was there */
    CHECK(code_of(file) == WANZOCHE_OPENED && size_of(file) == whole);
    put(file, "garbage\n1 start read: started 1\n", O_APPEND);
    CHECK(code_of(file) == WANZOCHE_CORRUPT && strstr(why, "line 4") != NULL);
    CHECK(truncate(file, (off_t)whole) == 0 && code_of(file) == WANZOCHE_OPENED);
    put(file, "1 start read: started 5\n", O_APPEND);
    CHECK(code_of(file) == WANZOCHE_CORRUPT && strstr(why, "`started 1` is owed") != NULL);
}

static void torn_while_open(void) {
    uint64_t whole;
    made(&QUICK);
    mine = opened(&QUICK);
    whole = size_of(file);
    put(file, "+1 fini", O_APPEND);
    CHECK(left(mine, entered(mine, READ)) && size_of(file) > whole);
    put(file, "1 finish 1: finished\n", O_APPEND); /* one that isn't owed */
    until_looked_at();
    CHECK(wanzoche_store_enter(mine, READ, 0).code == WANZOCHE_CORRUPT);
    wanzoche_store_message(mine, why, sizeof why);
    CHECK(strstr(why, "`stale` is owed") != NULL);
    CHECK(wanzoche_store_enter(mine, READ, 0).code == WANZOCHE_CORRUPT && wanzoche_store_close(mine, 0).code == WANZOCHE_CORRUPT);
}

static void gone(void) {
    made(NULL);
    mine = opened(NULL);
    CHECK(truncate(file, 0) == 0);
    until_looked_at();
    CHECK(wanzoche_store_enter(mine, READ, 0).code == WANZOCHE_CORRUPT);
    wanzoche_store_close(mine, 0);
    CHECK(code_of(file) == WANZOCHE_NOT_A_STORE && strstr(why, "shorter") != NULL);
    CHECK(unlink(file) == 0 && code_of(file) == WANZOCHE_NOT_A_STORE && strstr(why, "is gone") != NULL && access(file, F_OK) != 0);
    CHECK(unlink(beside(".shared")) == 0 && code_of(file) == WANZOCHE_OPENED);
    mine = opened(NULL);
    CHECK(unlink(file) == 0);
    until_looked_at();
    CHECK(wanzoche_store_enter(mine, READ, 0).code == WANZOCHE_CORRUPT);
    wanzoche_store_close(mine, 0);
    made(NULL);
    mine = opened(NULL);
    CHECK(wanzoche_store_rotate(mine, LONGEST).code == WANZOCHE_ROTATED && is_closed(mine));
    CHECK(rename(beside(".1"), beside(".away")) == 0 && code_of(file) == WANZOCHE_NOT_A_STORE && strstr(why, ".1 of the journal is gone") != NULL);
    CHECK(rename(beside(".away"), beside(".1")) == 0 && code_of(file) == WANZOCHE_OPENED);
}

static void no_stores(void) {
    begin_anew();
    put(file, "a text of mine\n", 0);
    CHECK(code_of(file) == WANZOCHE_NOT_A_STORE && size_of(file) == 15 && access(beside(".shared"), F_OK) != 0);
    made(NULL);
    put(beside(".shared"), "WANZOCHE", 0);
    CHECK(code_of(file) == WANZOCHE_NOT_A_STORE && strstr(why, ".shared isn't") != NULL);
    CHECK(truncate(beside(".shared"), 100) == 0);
    put(beside(".shared"), "wanzoche\4", 0);
    CHECK(code_of(file) == WANZOCHE_NOT_A_STORE && strstr(why, "version 4") != NULL);
    put(beside(".shared"), "wanzoche\3", 0);
    CHECK(code_of(file) == WANZOCHE_NOT_A_STORE && strstr(why, "cut off") != NULL);
    CHECK(unlink(beside(".shared")) == 0);
    put(beside(".shared"), "", 0);
    CHECK(code_of(file) == WANZOCHE_NOT_A_STORE);
}

/* A program that has the journal to itself: it ends its time. */
static void in_use(void) {
    wanzoche_store *s;
    int f;
    made(NULL);
    f = open(file, O_RDWR | O_CLOEXEC);
    CHECK(flock(f, LOCK_EX) == 0);
    CHECK(wanzoche_store_open(&s, file, BOOK, strlen(BOOK), NULL, 20, why, sizeof why).code == WANZOCHE_IN_USE && s == NULL);
    close(f);
    CHECK(code_of(file) == WANZOCHE_OPENED);
}

/* No program that this process runs gets a file of the store. */
static void programs(void) {
    char command[200], text[16] = "";
    int f;
    begin_anew();
    mine = opened(NULL);
    CHECK(left(mine, entered(mine, READ)));
    snprintf(command, sizeof command, "ls -l /proc/self/fd | grep -cE '%s(.shared)?$' > %s", file, beside(".count"));
    if (system(command) != 0) errno = 0;
    f = open(beside(".count"), O_RDONLY);
    CHECK(read(f, text, sizeof text - 1) > 0 && text[0] == '0');
    close(f);
    CHECK(is_closed(mine));
}

/* No stream of this process is one, whichever is closed. */
static void streams(void) {
    if (close(0) != 0 || close(1) != 0 || close(2) != 0) exit(7);
    begin_anew();
    mine = opened(NULL);
    CHECK(fcntl(0, F_GETFD) == -1 && fcntl(1, F_GETFD) == -1 && fcntl(2, F_GETFD) == -1);
    CHECK(left(mine, entered(mine, READ)) && wanzoche_store_rotate(mine, LONGEST).code == WANZOCHE_ROTATED);
    CHECK(fcntl(0, F_GETFD) == -1 && fcntl(1, F_GETFD) == -1 && fcntl(2, F_GETFD) == -1);
    CHECK(is_closed(mine));
}

/* One that closes everything, as a daemon does at its begin, ends its part, also where its descriptors are other files by then. */
static void closes_all(void) {
    wanzoche_answer a;
    uint64_t number;
    mine = opened(&QUICK);
    number = entered(mine, READ);
    for (int f = 3; f < 100; f++) close(f);
    a = wanzoche_store_enter(mine, READ, 0);
    CHECK(a.code == WANZOCHE_SYSTEM && a.number == EBADF);
    for (int f = 3; f < 20; f++) CHECK(open(beside(".mine"), O_RDWR | O_CREAT, 0600) == f);
    CHECK(wanzoche_store_leave(mine, number, 0).code == WANZOCHE_CORRUPT && wanzoche_store_enter(mine, READ, 0).code == WANZOCHE_CORRUPT);
    CHECK(size_of(beside(".mine")) == 0);
}

static void all_closed(void) {
    wanzoche_store *s;
    begin_anew();
    s = opened(&QUICK);
    CHECK(has_ended(child(closes_all)));
    CHECK(left(s, entered(s, WRITE)) && wanzoche_store_audit(s, LONGEST).code == WANZOCHE_SOUND && is_closed(s));
}

static wanzoche_store *parents;
static uint64_t held;

/* A child has no part in it, and its parent's death is seen though it lives. */
static void forked_child(void) {
    CHECK(wanzoche_store_enter(parents, READ, 0).code == WANZOCHE_FORKED && wanzoche_store_leave(parents, held, 0).code == WANZOCHE_FORKED);
    CHECK(wanzoche_store_report(parents, why, sizeof why, 0).code == WANZOCHE_FORKED);
    CHECK(wanzoche_store_close(parents, 0).code == WANZOCHE_CLOSED);
    mine = opened(&KEEP);
    CHECK(wanzoche_store_worker(mine) == 2 && wanzoche_store_enter(mine, WRITE, 0).code == WANZOCHE_BLOCKED);
    CHECK(is_closed(mine));
}

static _Atomic uint32_t *words;

static void parent_of_one_that_lives(void) {
    parents = opened(&KEEP);
    held = entered(parents, WRITE);
    if (fork() == 0) {
        words[0] = 1;
        until(&words[1], 1);
        _exit(0);
    }
    until(&words[0], 1);
}

static void forks(void) {
    begin_anew();
    parents = opened(&KEEP);
    held = entered(parents, READ);
    CHECK(has_ended(child(forked_child)));
    CHECK(left(parents, held) && is_closed(parents));
    words = shared_words(2);
    CHECK(has_ended(child(parent_of_one_that_lives)));
    mine = opened(&KEEP);
    CHECK(wanzoche_store_enter(mine, READ, 0).code == WANZOCHE_BLOCKED && strstr(report(mine), "lost 1 3 write\n") != NULL);
    CHECK(wanzoche_store_recover(mine, 4, false, LONGEST).code == WANZOCHE_ALIVE);
    CHECK(wanzoche_store_recover(mine, 3, false, LONGEST).number == 1 && left(mine, entered(mine, READ)));
    words[1] = 1;
    CHECK(is_closed(mine));
}

/* The file may not grow: nothing is begun, what is in progress stays so, and the file ends with a whole line. */
static void full(void) {
    struct rlimit limit, before;
    uint64_t number;
    begin_anew();
    signal(SIGXFSZ, SIG_IGN);
    mine = opened(&QUICK);
    number = entered(mine, READ);
    getrlimit(RLIMIT_FSIZE, &before);
    limit = (struct rlimit){size_of(file) + 9, before.rlim_max};
    setrlimit(RLIMIT_FSIZE, &limit);
    CHECK(wanzoche_store_enter(mine, READ, 0).code == WANZOCHE_SYSTEM && wanzoche_store_enter(mine, READ, 0).number == EFBIG);
    CHECK(wanzoche_store_leave(mine, number, 0).code == WANZOCHE_SYSTEM && wanzoche_store_can_start(mine, WRITE, 0).code == WANZOCHE_BLOCKED);
    CHECK(wanzoche_store_rotate(mine, 0).code == WANZOCHE_ROTATED || access(beside(".1"), F_OK) != 0);
    setrlimit(RLIMIT_FSIZE, &before);
    CHECK(left(mine, number) && wanzoche_store_audit(mine, LONGEST).code == WANZOCHE_SOUND && is_closed(mine));
}

static void modes(void) {
    struct stat state;
    static const mode_t given[][2] = {{0644, 0600}, {0660, 0660}, {0640, 0600}, {0666, 0666}, {0600, 0600}};
    for (size_t k = 0; k < sizeof given / sizeof *given; k++) {
        begin_anew();
        put(file, "", 0);
        CHECK(chmod(file, given[k][0]) == 0 && code_of(file) == WANZOCHE_OPENED);
        CHECK(stat(beside(".shared"), &state) == 0 && (state.st_mode & 07777) == given[k][1]);
        mine = opened(NULL);
        CHECK(left(mine, entered(mine, READ)) && wanzoche_store_rotate(mine, LONGEST).code == WANZOCHE_ROTATED);
        CHECK(stat(file, &state) == 0 && (state.st_mode & 07777) == given[k][0] && is_closed(mine));
    }
}

/* The declaration of a store, whose text is empty if it can't be told. */
static uint32_t declaration_of(const char *name, char text[256]) {
    wanzoche_answer size = wanzoche_store_declaration(name, NULL, 0, why, sizeof why), a;
    text[0] = 0;
    if (size.code != WANZOCHE_TOO_SMALL) return size.code == WANZOCHE_SYSTEM ? (uint32_t)size.number + 1000 : size.code;
    CHECK(why[0] == 0 && wanzoche_store_declaration(name, text, (size_t)size.number, NULL, 0).code == WANZOCHE_TOO_SMALL && text[0] == 0);
    a = wanzoche_store_declaration(name, text, (size_t)size.number + 1, why, sizeof why);
    CHECK(a.number == size.number && strlen(text) == size.number);
    return a.code;
}

/* It is told of a store that is open, of one that isn't, and by another name; and nothing of it changes. */
static void declarations(void) {
    char text[256], link[128];
    begin_anew();
    CHECK(declaration_of(file, text) == 1000 + ENOENT && strstr(why, ".shared can't be opened: No such file") != NULL && access(file, F_OK) != 0);
    CHECK(declaration_of(NULL, text) == 1000 + EFAULT && declaration_of("/none/none", text) == 1000 + ENOENT);
    mine = opened(NULL);
    CHECK(left(mine, entered(mine, READ)));
    CHECK(declaration_of(file, text) == WANZOCHE_WRITTEN && strcmp(text, "resource book cell operation read, write path { read }, write end end\n") == 0);
    CHECK(wanzoche_store_worker(mine) == 1 && is_closed(mine) && chmod(beside(".shared"), 0400) == 0);
    snprintf(link, sizeof link, "%s.link", file);
    CHECK(symlink(file, link) == 0 && declaration_of(link, text) == WANZOCHE_WRITTEN && strncmp(text, BOOK, 30) == 0);
    CHECK(chmod(beside(".shared"), 0600) == 0 && code_of(file) == WANZOCHE_OPENED);
    put(beside(".shared"), "xanzoche", 0);
    CHECK(declaration_of(file, text) == WANZOCHE_NOT_A_STORE && strstr(why, "isn't the file that a store has beside its journal") != NULL);
}

/* A page of an older package, by its version, as it begins; and where it has its declaration, and the last number that was given to a worker. */
static const struct older {
    uint32_t version;
    off_t declaration, workers;
    const char *whose;
} OLDER[] = {{1, 4096, 32, "Python package"}, {2, 69632, 168, "library"}};

/* Such a page lies there, which nobody has open or somebody has. */
static void other_page(const struct older *older, const char *declaration, bool is_open, uint32_t code) {
    struct flock lock = {.l_type = F_WRLCK, .l_whence = SEEK_SET, .l_start = (INT64_C(1) << 41) + 1, .l_len = 1};
    struct {
        char magic[8];
        uint32_t version, length;
    } head = {"wanzoche", older->version, (uint32_t)strlen(declaration)};
    uint64_t workers = 9;
    int f;
    made(NULL);
    CHECK(unlink(beside(".shared")) == 0);
    f = open(beside(".shared"), O_RDWR | O_CREAT | O_CLOEXEC, 0600);
    CHECK(pwrite(f, declaration, strlen(declaration), older->declaration) > 0 && pwrite(f, &head, sizeof head, 0) == sizeof head);
    CHECK(pwrite(f, &workers, sizeof workers, older->workers) == sizeof workers);
    if (is_open) CHECK(fcntl(f, F_OFD_SETLK, &lock) == 0);
    CHECK(code_of(file) == code);
    CHECK(size_of(beside(".shared")) < 80000 || code == WANZOCHE_OPENED);
    close(f);
    if (code == WANZOCHE_IN_USE) CHECK(strstr(why, older->whose) != NULL && code_of(file) == WANZOCHE_OPENED);
    if (code != WANZOCHE_OPENED) return;
    mine = opened(NULL);
    CHECK(wanzoche_store_worker(mine) == 11 && is_closed(mine)); /* no number that was given */
}

static void other_pages(void) {
    for (size_t k = 0; k < sizeof OLDER / sizeof *OLDER; k++) {
        other_page(&OLDER[k], "resource book cell operation read, write path { read }, write end end", false, WANZOCHE_OPENED);
        other_page(&OLDER[k], "resource book cell operation read, write path { read }, write end end", true, WANZOCHE_IN_USE);
        other_page(&OLDER[k], "resource book cell operation read, write path read, write end end", false, WANZOCHE_OTHER_DECLARATION);
    }
}

int main(void) {
    links();
    torn_ends();
    torn_while_open();
    gone();
    no_stores();
    in_use();
    forks();
    full();
    modes();
    declarations();
    other_pages();
    programs();
    all_closed();
    CHECK(has_ended(child(streams)));
    remove_all();
    printf("store_files: %d failures\n", failures);
    return failures != 0;
}
