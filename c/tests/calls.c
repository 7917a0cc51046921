/* Each answer of wanzoche.h, and what each call leaves. */
#include "wanzoche.h"

#include <stdio.h>
#include <stdlib.h>
#include <string.h>
#include <sys/wait.h>
#include <unistd.h>

static int failures;

#define CHECK(that)                                                        \
    do {                                                                   \
        if (!(that)) {                                                     \
            printf("%s:%d: not so: %s\n", __FILE__, __LINE__, #that);      \
            failures++;                                                    \
        }                                                                  \
    } while (0)

static const char SLOT[] = "resource slot cell operation deposit, remove path deposit ; remove end end";
static const char THREE[] = "resource a cell operation put1, look1 end"
                            " resource b tally operation add1 end"
                            " resource c queue 1 operation push, pop path { push } , pop end end";

static bool is(wanzoche_answer a, uint32_t code, uint64_t number) {
    if (a.code != code || a.number != number)
        printf("answered %s (%u) %llu\n", wanzoche_words(a.code), a.code, (unsigned long long)a.number);
    return a.code == code && a.number == number;
}

static wanzoche_answer open_with(wanzoche *w, const char *text, uint32_t room, char *message) {
    return wanzoche_open(w, text, strlen(text), room, message, WANZOCHE_MESSAGE);
}

/* The README's slot, line by line. */
static void a_slot(void) {
    wanzoche w = WANZOCHE_CLOSED_HANDLE;
    char why[WANZOCHE_MESSAGE] = "?", text[512];
    CHECK(is(open_with(&w, SLOT, 4096, why), WANZOCHE_OPENED, 0));
    CHECK(why[0] == 0);
    CHECK(wanzoche_operation(&w, "deposit", 7) == 0 && wanzoche_operation(&w, "remove", 6) == 1);
    CHECK(wanzoche_operation(&w, "slot", 4) == -1 && wanzoche_operation(&w, "\xff\xfe", 2) == -1);
    CHECK(wanzoche_operation(&w, "", 0) == -1 && wanzoche_operation(&w, NULL, 5) == -1);
    CHECK(is(wanzoche_start(&w, 1, 0), WANZOCHE_STARTED, 0));
    CHECK(is(wanzoche_start(&w, 2, 1), WANZOCHE_BLOCKED, 0));
    CHECK(is(wanzoche_can_start(&w, 1), WANZOCHE_BLOCKED, 0));
    CHECK(is(wanzoche_can_start(&w, 2), WANZOCHE_UNKNOWN_OPERATION, 0));
    CHECK(is(wanzoche_use(&w, 1, 0, WANZOCHE_PUT, 7), WANZOCHE_USED, 0));
    CHECK(is(wanzoche_finish(&w, 2, 0), WANZOCHE_NOT_YOURS, 0));
    CHECK(is(wanzoche_finish(&w, 1, 0), WANZOCHE_FINISHED, 0));
    CHECK(is(wanzoche_finish(&w, 1, 0), WANZOCHE_STALE, 0));
    CHECK(is(wanzoche_can_start(&w, 1), WANZOCHE_CAN_START, 0));
    CHECK(is(wanzoche_start(&w, 2, 1), WANZOCHE_STARTED, 1));
    CHECK(is(wanzoche_use(&w, 2, 1, WANZOCHE_LOOK, 99), WANZOCHE_USED, 7));
    CHECK(is(wanzoche_use(&w, 2, 1, WANZOCHE_TAKE, 0), WANZOCHE_NOT_OFFERED, 0));
    CHECK(is(wanzoche_use(&w, 2, 1, 4, 0), WANZOCHE_NO_VERB, 0));
    CHECK(is(wanzoche_start(&w, 3, 9), WANZOCHE_UNKNOWN_OPERATION, 0));
    CHECK(wanzoche_lines(&w) == 10 && wanzoche_live(&w) == 1 && wanzoche_room_left(&w) == 4085);
    CHECK(is(wanzoche_report(&w, text, sizeof text), WANZOCHE_WRITTEN, 71) && strlen(text) == 71);
    CHECK(!strcmp(text, "startable\nblocked deposit 0\nblocked remove 0\nlive 1 2 remove\nfrozen no\n"));
    CHECK(is(wanzoche_journal(&w, text, sizeof text), WANZOCHE_WRITTEN, 239) && strlen(text) == 239);
    CHECK(strstr(text, "1 start deposit: started 0\n2 start remove: blocked 0\n1 use 0 put 7: used 0\n") == text);
    CHECK(is(wanzoche_audit(SLOT, strlen(SLOT), 4096, text, strlen(text), NULL, 0), WANZOCHE_SOUND, 0));
    CHECK(is(wanzoche_audit(SLOT, strlen(SLOT), 10, text, strlen(text), NULL, 0), WANZOCHE_WRONG_LINE, 9));
    CHECK(is(wanzoche_declaration(&w, text, sizeof text), WANZOCHE_WRITTEN, 74) && strlen(text) == 74);
    CHECK(!strcmp(text, "resource slot cell operation deposit, remove path deposit; remove end end\n"));
    wanzoche_close(&w);
    CHECK(is(wanzoche_finish(&w, 2, 1), WANZOCHE_CLOSED, 0));
}

/* A text that comes in needs no zero byte at its end, and isn't kept. */
static void texts(void) {
    static const char text[] = "resource a cell operation b path ( b ) end end";
    wanzoche w = WANZOCHE_CLOSED_HANDLE;
    char *copy = malloc(sizeof text - 1), shown[64];
    memcpy(copy, text, sizeof text - 1);
    CHECK(is(wanzoche_open(&w, copy, sizeof text - 1, 4, NULL, 0), WANZOCHE_OPENED, 0));
    memset(copy, 'x', sizeof text - 1);
    free(copy);
    CHECK(is(wanzoche_declaration(&w, shown, sizeof shown), WANZOCHE_WRITTEN, 43));
    CHECK(!strcmp(shown, "resource a cell operation b path b end end\n"));
    CHECK(wanzoche_operation(&w, "bc", 1) == 0);
    wanzoche_close(&w);
}

/* Each device, with each of its answers. */
static void devices(void) {
    wanzoche w = WANZOCHE_CLOSED_HANDLE;
    uint64_t most = UINT64_MAX;
    CHECK(is(open_with(&w, THREE, 64, NULL), WANZOCHE_OPENED, 0));
    CHECK(is(wanzoche_start(&w, 1, 2), WANZOCHE_STARTED, 0));
    CHECK(is(wanzoche_use(&w, 1, 0, WANZOCHE_ADD, most), WANZOCHE_USED, most));
    CHECK(is(wanzoche_use(&w, 1, 0, WANZOCHE_ADD, 1), WANZOCHE_OVERFLOW, 0));
    CHECK(is(wanzoche_use(&w, 1, 0, WANZOCHE_PUT, 1), WANZOCHE_NOT_OFFERED, 0));
    CHECK(is(wanzoche_start(&w, 1, 3), WANZOCHE_STARTED, 1));
    CHECK(is(wanzoche_use(&w, 1, 1, WANZOCHE_TAKE, 0), WANZOCHE_EMPTY, 0));
    CHECK(is(wanzoche_use(&w, 1, 1, WANZOCHE_PUT, 5), WANZOCHE_USED, 1));
    CHECK(is(wanzoche_use(&w, 1, 1, WANZOCHE_PUT, 6), WANZOCHE_FULL, 0));
    CHECK(is(wanzoche_use(&w, 1, 1, WANZOCHE_TAKE, 0), WANZOCHE_USED, 5));
    CHECK(is(wanzoche_use(&w, 2, 1, WANZOCHE_LOOK, 0), WANZOCHE_NOT_YOURS, 0));
    CHECK(is(wanzoche_use(&w, 1, 9, WANZOCHE_LOOK, 0), WANZOCHE_STALE, 0));
    wanzoche_close(&w);
}

/* A record has what wanzoche_use needs while its operation is in progress, and is begun and ended once. */
static void records(void) {
    wanzoche w = WANZOCHE_CLOSED_HANDLE;
    wanzoche_record first = {0, 0, false}, second = first, third = first;
    CHECK(is(open_with(&w, SLOT, 11, NULL), WANZOCHE_OPENED, 0));
    CHECK(wanzoche_begin(&w, 7, 1, &second) == WANZOCHE_BLOCKED && !second.live && second.number == 0);
    CHECK(wanzoche_begin(&w, 7, 0, &first) == WANZOCHE_STARTED && first.live && first.number == 0 && first.worker == 7);
    CHECK(wanzoche_begin(&w, 8, 0, &first) == WANZOCHE_NOT_YOURS && first.live && first.number == 0 && first.worker == 7);
    CHECK(wanzoche_lines(&w) == 2 && wanzoche_live(&w) == 1);
    CHECK(is(wanzoche_use(&w, first.worker, first.number, WANZOCHE_PUT, 3), WANZOCHE_USED, 0));
    CHECK(wanzoche_begin(&w, 8, 2, &third) == WANZOCHE_UNKNOWN_OPERATION && !third.live);
    CHECK(wanzoche_end(&w, &third) == WANZOCHE_STALE && wanzoche_live(&w) == 1);
    CHECK(wanzoche_end(&w, &first) == WANZOCHE_FINISHED && !first.live);
    CHECK(wanzoche_end(&w, &first) == WANZOCHE_STALE && wanzoche_lines(&w) == 5);
    CHECK(wanzoche_begin(&w, 9, 1, &second) == WANZOCHE_STARTED && second.number == 1 && second.worker == 9);
    CHECK(wanzoche_end(&w, &second) == WANZOCHE_FINISHED);
    CHECK(wanzoche_begin(&w, 7, 0, &first) == WANZOCHE_STARTED && first.number == 2);
    CHECK(wanzoche_begin(&w, 7, 1, &third) == WANZOCHE_BLOCKED && third.number == 0);
    CHECK(wanzoche_begin(&w, 7, 1, &third) == WANZOCHE_NO_ROOM && !third.live);
    wanzoche_close(&w);
    CHECK(wanzoche_end(&w, &first) == WANZOCHE_CLOSED && !first.live);
    CHECK(wanzoche_end(&w, &first) == WANZOCHE_STALE);
}

static bool is_live(wanzoche_activation a, uint64_t number, uint32_t worker, uint32_t operation) {
    return a.number == number && a.worker == worker && a.operation == operation;
}

/* What is live is listed in the order of the starts, as far as it fits, and what is behind it in the list stays. */
static void lists(void) {
    wanzoche w = WANZOCHE_CLOSED_HANDLE;
    wanzoche_activation list[4] = {{9, 9, 9}, {9, 9, 9}, {9, 9, 9}, {9, 9, 9}};
    CHECK(is(open_with(&w, THREE, 64, NULL), WANZOCHE_OPENED, 0));
    CHECK(wanzoche_operations(&w) == 5 && wanzoche_list_live(&w, list, 4) == 0 && is_live(list[0], 9, 9, 9));
    CHECK(is(wanzoche_start(&w, 7, 0), WANZOCHE_STARTED, 0));
    CHECK(is(wanzoche_start(&w, 8, 2), WANZOCHE_STARTED, 1));
    CHECK(is(wanzoche_start(&w, UINT32_MAX, 3), WANZOCHE_STARTED, 2));
    CHECK(is(wanzoche_finish(&w, 8, 1), WANZOCHE_FINISHED, 0));
    CHECK(is(wanzoche_start(&w, 8, 3), WANZOCHE_STARTED, 3));
    CHECK(wanzoche_list_live(&w, list, 2) == 3 && is_live(list[0], 0, 7, 0) && is_live(list[1], 2, UINT32_MAX, 3));
    CHECK(is_live(list[2], 9, 9, 9));
    CHECK(wanzoche_list_live(&w, list, 4) == 3 && is_live(list[2], 3, 8, 3) && is_live(list[3], 9, 9, 9));
    CHECK(wanzoche_list_live(&w, list, 0) == 3 && wanzoche_list_live(&w, NULL, 4) == 3);
    CHECK(wanzoche_lines(&w) == 5 && wanzoche_live(&w) == 3);
    wanzoche_close(&w);
    CHECK(wanzoche_operations(&w) == 0 && wanzoche_list_live(&w, list, 4) == 0 && is_live(list[0], 0, 7, 0));
}

/* A null pointer, a closed handle and a second close are answers; a second open changes nothing. */
static void closed_ones(void) {
    wanzoche w = WANZOCHE_CLOSED_HANDLE, *handles[] = {NULL, &w};
    char why[WANZOCHE_MESSAGE], text[8];
    for (int n = 0; n < 2; n++) {
        wanzoche *h = handles[n];
        memset(text, 'x', sizeof text);
        wanzoche_close(h);
        wanzoche_close(h);
        CHECK(is(wanzoche_start(h, 1, 0), WANZOCHE_CLOSED, 0));
        CHECK(is(wanzoche_use(h, 1, 0, WANZOCHE_PUT, 1), WANZOCHE_CLOSED, 0));
        CHECK(is(wanzoche_use(h, 1, 0, 4, 1), WANZOCHE_NO_VERB, 0));
        CHECK(is(wanzoche_finish(h, 1, 0), WANZOCHE_CLOSED, 0));
        wanzoche_record record = {0, 0, false};
        CHECK(wanzoche_begin(h, 7, 0, &record) == WANZOCHE_CLOSED && !record.live && record.number == 0);
        CHECK(wanzoche_begin(h, 7, 0, NULL) == WANZOCHE_STALE && wanzoche_end(h, NULL) == WANZOCHE_STALE);
        CHECK(wanzoche_end(h, &record) == WANZOCHE_STALE);
        record.live = true;
        CHECK(wanzoche_end(h, &record) == WANZOCHE_CLOSED && !record.live);
        CHECK(is(wanzoche_can_start(h, 0), WANZOCHE_CLOSED, 0));
        CHECK(is(wanzoche_may_start(h, 0, 0, 0, NULL, 0, NULL, 0), WANZOCHE_CLOSED, 0));
        CHECK(is(wanzoche_next(h, NULL, 0, NULL, 0), WANZOCHE_CLOSED, 0));
        CHECK(is(wanzoche_rotate(h), WANZOCHE_CLOSED, 0));
        uint64_t rotated = 5;
        CHECK(is(wanzoche_rotate_at(h, 0, &rotated), WANZOCHE_CLOSED, 0) && rotated == 5);
        CHECK(is(wanzoche_journal(h, text, sizeof text), WANZOCHE_CLOSED, 0));
        CHECK(is(wanzoche_report(h, text, sizeof text), WANZOCHE_CLOSED, 0));
        CHECK(is(wanzoche_declaration(h, text, sizeof text), WANZOCHE_CLOSED, 0));
        CHECK(text[0] == 'x' && text[7] == 'x');
        CHECK(wanzoche_operation(h, "deposit", 7) == -1);
        CHECK(wanzoche_lines(h) == 0 && wanzoche_live(h) == 0 && wanzoche_room_left(h) == 0);
        wanzoche_activation list = {9, 9, 9};
        CHECK(wanzoche_operations(h) == 0 && wanzoche_list_live(h, &list, 1) == 0 && is_live(list, 9, 9, 9));
    }
    strcpy(why, "?");
    CHECK(is(open_with(NULL, SLOT, 64, why), WANZOCHE_CLOSED, 0) && why[0] == 0);
    CHECK(is(open_with(&w, SLOT, 64, why), WANZOCHE_OPENED, 0));
    CHECK(is(wanzoche_start(&w, 1, 0), WANZOCHE_STARTED, 0));
    CHECK(is(open_with(&w, THREE, 64, why), WANZOCHE_ALREADY_OPEN, 0) && !strcmp(why, "already open"));
    CHECK(is(wanzoche_finish(&w, 1, 0), WANZOCHE_FINISHED, 0));
    wanzoche moved = w;
    CHECK(is(wanzoche_start(&moved, 1, 1), WANZOCHE_STARTED, 1));
    wanzoche_close(&moved);
    CHECK(is(open_with(&moved, THREE, 64, why), WANZOCHE_OPENED, 0));
    wanzoche_close(&moved);
}

/* A text of this length has a fault here, whether it is opened or a journal is audited under it; the handle stays closed. */
static void has_fault(const char *text, size_t length, uint32_t code, uint64_t at, const char *words) {
    wanzoche w = WANZOCHE_CLOSED_HANDLE;
    char why[WANZOCHE_MESSAGE], audited[WANZOCHE_MESSAGE];
    CHECK(is(wanzoche_open(&w, text, length, 0, why, sizeof why), code, at) && !strcmp(why, words) && !w.live);
    CHECK(!strncmp(words, wanzoche_words(code), strlen(wanzoche_words(code))));
    CHECK(is(wanzoche_audit(text, length, 0, "hello", 5, audited, sizeof audited), code, at));
    CHECK(!strncmp(audited, "declaration: ", 13) && !strcmp(audited + 13, words));
    if (strcmp(why, words)) printf("%s, not %s, of %.60s\n", why, words, text);
}

static void faults(void) {
    static const struct { const char *text; uint32_t code; uint64_t at; const char *why; } table[] = {
        {"", WANZOCHE_UNEXPECTED, 0, "unexpected at 0"},
        {"resource", WANZOCHE_UNEXPECTED, 8, "unexpected at 8"},
        {"resource ?", WANZOCHE_BAD_BYTE, 9, "bad byte at 9"},
        {"resource abcdefghabcdefghabcdefghabcdefghi", WANZOCHE_WORD_TOO_LONG, 9, "word too long at 9"},
        {"resource a queue 1234567890", WANZOCHE_NUMBER_TOO_LONG, 17, "number too long at 17"},
        {"resource a cell operation b end resource a cell operation c end", WANZOCHE_DUPLICATE_RESOURCE, 41, "duplicate resource at 41"},
        {"resource a cell operation b, b end", WANZOCHE_DUPLICATE_OPERATION, 29, "duplicate operation at 29"},
        {"resource a cell operation b path c end end", WANZOCHE_UNDECLARED, 33, "undeclared at 33"},
        {"resource a cell operation b path b ; b end end", WANZOCHE_REPEATED_NAME, 37, "repeated name at 37"},
        {"resource a cell operation b path { { b } } end end", WANZOCHE_NESTED_BRACES, 35, "nested braces at 35"},
        {"resource a queue 0 operation b end", WANZOCHE_BAD_CAPACITY, 17, "bad capacity at 17"},
        {"resource a cell operation b path { b : 0 } end end", WANZOCHE_BAD_COUNT, 39, "bad count at 39"},
    };
    for (size_t n = 0; n < sizeof table / sizeof *table; n++)
        has_fault(table[n].text, strlen(table[n].text), table[n].code, table[n].at, table[n].why);
    char *spaces = malloc(65537), parentheses[67] = "resource a cell operation b path ";
    memset(parentheses + 33, '(', 33);
    has_fault(parentheses, 66, WANZOCHE_TOO_DEEP, 65, "too deep at 65");
    memset(spaces, ' ', 65537);
    has_fault(spaces, 65537, WANZOCHE_TOO_LONG, 0, "text too long");
    free(spaces);
}

/* `before`, so many pieces with their number in each, of which the last has the fault this far behind its beginning, and `behind`. */
static void is_one_too_many(const char *before, unsigned pieces, const char *piece, uint64_t behind, const char *after) {
    char text[16384], words[WANZOCHE_MESSAGE];
    size_t length = (size_t)sprintf(text, "%s", before), last = 0;
    for (unsigned n = 0; n < pieces; n++) {
        last = length;
        length += (size_t)sprintf(text + length, piece, n, n);
    }
    length += (size_t)sprintf(text + length, "%s", after);
    snprintf(words, sizeof words, "too many at %llu", (unsigned long long)(last + behind));
    has_fault(text, length, WANZOCHE_TOO_MANY, last + behind, words);
}

/* 64 resources, 256 operations, 256 paths and 64 names in a path are the most. */
static void too_many(void) {
    char names[1024] = "resource a cell operation ";
    is_one_too_many("", 65, "resource r%u cell operation o%u end ", 9, "");
    is_one_too_many("resource a cell operation ", 257, "o%u, ", 0, "last end");
    is_one_too_many("resource a cell operation b ", 257, "path b end ", 0, "end");
    for (unsigned n = 0; n < 65; n++) sprintf(names + strlen(names), n < 64 ? "o%u, " : "o%u path ", n);
    is_one_too_many(names, 65, "o%u ; ", 0, "o99 end end");
}

/* A message is cut to its buffer, which may be null, and so may a text; a room is refused behind the faults of its text. */
static void messages(void) {
    wanzoche w = WANZOCHE_CLOSED_HANDLE;
    char why[WANZOCHE_MESSAGE], few[6];
    CHECK(is(wanzoche_open(&w, "resource", 8, 1, few, sizeof few), WANZOCHE_UNEXPECTED, 8) && !strcmp(few, "unexp"));
    CHECK(is(wanzoche_open(&w, "resource", 8, 1, few, 1), WANZOCHE_UNEXPECTED, 8) && few[0] == 0);
    CHECK(is(wanzoche_open(&w, "resource", 8, 1, NULL, 5), WANZOCHE_UNEXPECTED, 8));
    CHECK(is(wanzoche_open(&w, NULL, 8, 1, why, sizeof why), WANZOCHE_UNEXPECTED, 0));
    CHECK(is(open_with(&w, SLOT, 0, why), WANZOCHE_BAD_ROOM, 0) && !strcmp(why, "bad room"));
    CHECK(is(open_with(&w, SLOT, WANZOCHE_MOST_LINES + 1, why), WANZOCHE_BAD_ROOM, 0));
}

/* A buffer that is too small stays, and the answer says how long the text is. */
static void buffers(void) {
    wanzoche w = WANZOCHE_CLOSED_HANDLE;
    char text[64];
    CHECK(is(open_with(&w, SLOT, 4, NULL), WANZOCHE_OPENED, 0));
    CHECK(is(wanzoche_journal(&w, text, 1), WANZOCHE_WRITTEN, 0) && text[0] == 0);
    CHECK(is(wanzoche_journal(&w, NULL, 64), WANZOCHE_TOO_SMALL, 0));
    CHECK(is(wanzoche_start(&w, 4294967295u, 1), WANZOCHE_BLOCKED, 0));
    memset(text, 'x', sizeof text);
    CHECK(is(wanzoche_journal(&w, text, 35), WANZOCHE_TOO_SMALL, 35) && text[0] == 'x' && text[34] == 'x');
    CHECK(is(wanzoche_journal(&w, text, 36), WANZOCHE_WRITTEN, 35) && text[36] == 'x');
    CHECK(!strcmp(text, "4294967295 start remove: blocked 0\n"));
    wanzoche_close(&w);
}

/* A rotation keeps what is live, and gives the room back. */
static void rotations(void) {
    wanzoche w = WANZOCHE_CLOSED_HANDLE;
    char first[128], second[128], all[512];
    uint64_t rotated = 8;
    CHECK(is(open_with(&w, SLOT, 4, NULL), WANZOCHE_OPENED, 0));
    CHECK(is(wanzoche_start(&w, 1, 0), WANZOCHE_STARTED, 0));
    CHECK(is(wanzoche_start(&w, 2, 1), WANZOCHE_BLOCKED, 0));
    CHECK(is(wanzoche_start(&w, 2, 1), WANZOCHE_NO_ROOM, 0));
    CHECK(is(wanzoche_use(&w, 1, 0, WANZOCHE_LOOK, 0), WANZOCHE_USED, 0));
    CHECK(is(wanzoche_use(&w, 1, 0, WANZOCHE_PUT, 1), WANZOCHE_NO_ROOM, 0));
    CHECK(is(wanzoche_finish(&w, 2, 0), WANZOCHE_NO_ROOM, 0));
    CHECK(wanzoche_room_left(&w) == 0 && wanzoche_lines(&w) == 3);
    CHECK(wanzoche_journal(&w, first, sizeof first).code == WANZOCHE_WRITTEN);
    CHECK(is(wanzoche_rotate_at(&w, 2, &rotated), WANZOCHE_TOO_SMALL, 3) && is(wanzoche_rotate_at(&w, 4, NULL), WANZOCHE_TOO_SMALL, 3));
    CHECK(wanzoche_lines(&w) == 3 && rotated == 8);
    CHECK(is(wanzoche_rotate_at(&w, 3, &rotated), WANZOCHE_ROTATED, 0) && rotated == 9);
    CHECK(wanzoche_lines(&w) == 0 && wanzoche_live(&w) == 1 && wanzoche_room_left(&w) == 3);
    CHECK(is(wanzoche_finish(&w, 1, 0), WANZOCHE_FINISHED, 0));
    CHECK(is(wanzoche_start(&w, 2, 1), WANZOCHE_STARTED, 1));
    CHECK(wanzoche_journal(&w, second, sizeof second).code == WANZOCHE_WRITTEN);
    for (int n = 0; n < 1000; n++) CHECK(is(wanzoche_rotate(&w), WANZOCHE_ROTATED, 0));
    CHECK(is(wanzoche_rotate_at(&w, 0, NULL), WANZOCHE_ROTATED, 0));
    snprintf(all, sizeof all, "journal 2 room 7\n%s%s", first, second);
    CHECK(is(wanzoche_audit(SLOT, strlen(SLOT), 0, all, strlen(all), NULL, 0), WANZOCHE_SOUND, 0));
    wanzoche_close(&w);
}

/* How a handle is opened. */
typedef wanzoche_answer (*opening)(wanzoche *, const char *, size_t, uint32_t, char *, size_t);

/* Attempts of each kind, and what is seen of the system behind them. */
static void attempts(opening opens, wanzoche_answer *answers, char *report, size_t size) {
    wanzoche w = WANZOCHE_CLOSED_HANDLE;
    CHECK(is(opens(&w, THREE, strlen(THREE), 64, NULL, 0), WANZOCHE_OPENED, 0));
    answers[0] = wanzoche_start(&w, 1, 2);
    answers[1] = wanzoche_use(&w, 1, 0, WANZOCHE_ADD, 5);
    answers[2] = wanzoche_use(&w, 1, 0, WANZOCHE_PUT, 5);
    answers[3] = wanzoche_start(&w, 2, 3);
    answers[4] = wanzoche_start(&w, 3, 4);
    answers[5] = wanzoche_use(&w, 2, 1, WANZOCHE_PUT, 8);
    answers[6] = wanzoche_finish(&w, 1, 1);
    answers[7] = wanzoche_finish(&w, 2, 1);
    answers[8] = wanzoche_finish(&w, 2, 1);
    answers[9] = wanzoche_start(&w, 3, 5);
    answers[10] = wanzoche_can_start(&w, 4);
    CHECK(wanzoche_report(&w, report, size).code == WANZOCHE_WRITTEN);
    wanzoche_close(&w);
}

/* Without a journal each attempt gets the same answer, and what is live takes the room alone. */
static void without_journal(void) {
    wanzoche w = WANZOCHE_CLOSED_HANDLE;
    wanzoche_answer with[11], without[11];
    wanzoche_activation list[3];
    char report[256], same[256], why[WANZOCHE_MESSAGE] = "?", text[8] = "xxxxxxx";
    uint64_t rotated = 5;
    attempts(wanzoche_open, with, report, sizeof report);
    attempts(wanzoche_open_without_journal, without, same, sizeof same);
    for (int n = 0; n < 11; n++) CHECK(is(without[n], with[n].code, with[n].number));
    CHECK(!strcmp(report, same));
    CHECK(is(wanzoche_open_without_journal(&w, THREE, strlen(THREE), 3, why, sizeof why), WANZOCHE_OPENED, 0) && why[0] == 0);
    CHECK(wanzoche_operations(&w) == 5 && wanzoche_operation(&w, "look1", 5) == 1 && wanzoche_room_left(&w) == 3);
    for (uint64_t n = 0; n < 1000; n++) {
        CHECK(is(wanzoche_start(&w, 1, 0), WANZOCHE_STARTED, n));
        CHECK(is(wanzoche_use(&w, 1, n, WANZOCHE_PUT, n), WANZOCHE_USED, n == 0 ? 0 : n - 1));
        CHECK(is(wanzoche_finish(&w, 1, n), WANZOCHE_FINISHED, 0) && is(wanzoche_finish(&w, 1, n), WANZOCHE_STALE, 0));
    }
    CHECK(is(wanzoche_start(&w, 7, 1), WANZOCHE_STARTED, 1000) && is(wanzoche_start(&w, 8, 3), WANZOCHE_STARTED, 1001));
    CHECK(is(wanzoche_start(&w, 9, 0), WANZOCHE_NO_ROOM, 0) && is(wanzoche_can_start(&w, 0), WANZOCHE_CAN_START, 0));
    CHECK(is(wanzoche_use(&w, 8, 1001, WANZOCHE_TAKE, 0), WANZOCHE_EMPTY, 0) && is(wanzoche_finish(&w, 9, 1001), WANZOCHE_NOT_YOURS, 0));
    CHECK(wanzoche_live(&w) == 2 && wanzoche_lines(&w) == 0 && wanzoche_room_left(&w) == 1);
    CHECK(wanzoche_list_live(&w, list, 3) == 2 && is_live(list[0], 1000, 7, 1) && is_live(list[1], 1001, 8, 3));
    CHECK(is(wanzoche_journal(&w, text, sizeof text), WANZOCHE_NO_JOURNAL, 0) && !strcmp(text, "xxxxxxx"));
    CHECK(is(wanzoche_rotate(&w), WANZOCHE_ROTATED, 0) && is(wanzoche_rotate_at(&w, 1, &rotated), WANZOCHE_TOO_SMALL, 0));
    CHECK(is(wanzoche_rotate_at(&w, 0, &rotated), WANZOCHE_ROTATED, 0) && rotated == 6 && wanzoche_live(&w) == 2);
    CHECK(is(wanzoche_declaration(&w, text, sizeof text), WANZOCHE_TOO_SMALL, 144));
    CHECK(is(open_with(&w, SLOT, 64, why), WANZOCHE_ALREADY_OPEN, 0));
    CHECK(is(wanzoche_open_without_journal(&w, SLOT, strlen(SLOT), 64, why, sizeof why), WANZOCHE_ALREADY_OPEN, 0));
    CHECK(is(wanzoche_finish(&w, 7, 1000), WANZOCHE_FINISHED, 0) && is(wanzoche_start(&w, 9, 0), WANZOCHE_STARTED, 1002));
    wanzoche_close(&w);
    CHECK(is(wanzoche_start(&w, 9, 0), WANZOCHE_CLOSED, 0));
    CHECK(is(wanzoche_open_without_journal(&w, SLOT, strlen(SLOT), 0, why, sizeof why), WANZOCHE_BAD_ROOM, 0) && !strcmp(why, "bad room"));
    CHECK(is(wanzoche_open_without_journal(&w, "resource", 8, 4, why, sizeof why), WANZOCHE_UNEXPECTED, 8));
    CHECK(!strcmp(why, "unexpected at 8"));
    CHECK(is(wanzoche_open_without_journal(NULL, SLOT, strlen(SLOT), 64, why, sizeof why), WANZOCHE_CLOSED, 0) && why[0] == 0);
    CHECK(is(wanzoche_open_without_journal(&w, SLOT, strlen(SLOT), 1, NULL, 0), WANZOCHE_OPENED, 0));
    CHECK(is(wanzoche_start(&w, 1, 0), WANZOCHE_NO_ROOM, 0) && is(wanzoche_finish(&w, 1, 0), WANZOCHE_STALE, 0));
    wanzoche_close(&w);
}

static wanzoche_answer audited(const char *text, char *why) {
    return wanzoche_audit(SLOT, strlen(SLOT), 4096, text, strlen(text), why, WANZOCHE_MESSAGE);
}

static void audits(void) {
    char why[WANZOCHE_MESSAGE] = "?";
    CHECK(is(audited("", why), WANZOCHE_SOUND, 0) && why[0] == 0);
    CHECK(is(audited("1 start deposit: started 0\n1 start remove: started 1\n", why), WANZOCHE_WRONG_LINE, 1) && why[0] == 0);
    CHECK(is(audited("journal 2 room 9\n1 start remove: started 0\n", why), WANZOCHE_WRONG_LINE, 0));
    CHECK(is(audited("1 start deposit: started 0\nhello\n", why), WANZOCHE_BAD_LINE, 1) && !strcmp(why, "journal: bad line 1"));
    CHECK(is(audited("journal 2 room 9\nhello\n", why), WANZOCHE_BAD_LINE, 1));
    CHECK(is(audited("1 start steal: blocked 0\n", why), WANZOCHE_UNDECLARED_LINE, 0) && !strcmp(why, "journal: undeclared in line 0"));
    CHECK(is(wanzoche_audit(SLOT, strlen(SLOT), 0, "", 0, why, sizeof why), WANZOCHE_BAD_ROOM, 0) && !strcmp(why, "bad room"));
    CHECK(is(wanzoche_audit("resource", 8, 1, "", 0, why, sizeof why), WANZOCHE_UNEXPECTED, 8));
    CHECK(!strcmp(why, "declaration: unexpected at 8"));
    CHECK(is(wanzoche_audit(NULL, 8, 1, NULL, 9, why, sizeof why), WANZOCHE_UNEXPECTED, 0));
    CHECK(is(wanzoche_audit(SLOT, strlen(SLOT), 1, NULL, 9, NULL, 9), WANZOCHE_SOUND, 0));
    char *much = malloc(134217729);
    memset(much, '\n', 134217729);
    CHECK(is(wanzoche_audit(SLOT, strlen(SLOT), 1, much, 134217729, why, sizeof why), WANZOCHE_JOURNAL_TOO_LONG, 0));
    CHECK(!strcmp(why, "journal: too long"));
    free(much);
}

/* Why a text isn't a declaration, in the words of `pathsys check`; nothing of one that is. */
static void explained(void) {
    static const char bad[] = "resource slot cell\noperation deposit, remove\npath deposit ; remov end end\n";
    static const char told[] = "declaration:3:16: this isn't an operation of the path's resource\n"
                               "path deposit ; remov end end\n"
                               "               ^^^^^\n"
                               "expected an operation that the resource declares\n"
                               "nearest name: remove\n";
    char text[sizeof told], before[sizeof told];
    CHECK(is(wanzoche_explain(bad, strlen(bad), text, sizeof text), WANZOCHE_WRITTEN, strlen(told)) && !strcmp(text, told));
    memset(text, 'x', sizeof text);
    memcpy(before, text, sizeof text);
    CHECK(is(wanzoche_explain(bad, strlen(bad), text, sizeof text - 1), WANZOCHE_TOO_SMALL, strlen(told)));
    CHECK(is(wanzoche_explain(bad, strlen(bad), NULL, 9), WANZOCHE_TOO_SMALL, strlen(told)));
    CHECK(!memcmp(text, before, sizeof text));
    CHECK(is(wanzoche_explain(SLOT, strlen(SLOT), text, 1), WANZOCHE_WRITTEN, 0) && text[0] == 0 && text[1] == 'x');
    CHECK(is(wanzoche_explain(SLOT, strlen(SLOT), NULL, 9), WANZOCHE_TOO_SMALL, 0));
    CHECK(wanzoche_explain(NULL, 9, text, sizeof text).code == WANZOCHE_WRITTEN && !strncmp(text, "declaration:1:1: ", 17));
    char *much = calloc(65537, 1), large[4096];
    CHECK(wanzoche_explain(much, 65537, large, sizeof large).code == WANZOCHE_WRITTEN);
    CHECK(strstr(large, "the text has more than 65,536 bytes") != NULL);
    free(much);
}

static const char CROSSWISE[] = "process p\nenter a\nenter b\nleave\nleave\nend\nprocess q\nenter b\nenter a\nleave\nleave\nend\n";
static const char EMPTY[] = "process p\nenter b\nuse take\nleave\nend\nprocess q\nend\n";
static const char LOCKS[] = "resource one cell operation a path a end end resource two queue 1 operation b path b end end";

static wanzoche_answer explored(const char *script, uint32_t most, char *journal, size_t size, char *why) {
    return wanzoche_explore(LOCKS, strlen(LOCKS), script, strlen(script), most, journal, size, why, WANZOCHE_STANDINGS);
}

/* A stall, a refused step, no schedule that goes wrong, and too many states to say. */
static void searches(void) {
    char journal[1024] = "?", why[WANZOCHE_STANDINGS] = "?", few[6];
    CHECK(is(explored("process p\nenter a\nuse put 7\nleave\nend\n", 9, journal, sizeof journal, why), WANZOCHE_ALL_DONE, 4));
    CHECK(!strcmp(journal, "?") && why[0] == 0);
    CHECK(is(explored(CROSSWISE, 100, journal, sizeof journal, why), WANZOCHE_STALLS, 107));
    CHECK(!strcmp(journal, "journal 2 room 1048576\n0 start a: started 0\n1 start b: started 1\n"
                           "0 start b: blocked 1\n1 start a: blocked 0\n"));
    CHECK(!strcmp(why, "p: stalled b\nq: stalled a\n"));
    CHECK(is(wanzoche_audit(LOCKS, strlen(LOCKS), 0, journal, strlen(journal), why, 1), WANZOCHE_SOUND, 0));
    CHECK(is(explored(EMPTY, 100, journal, sizeof journal, why), WANZOCHE_REFUSED, 64));
    CHECK(!strcmp(journal, "journal 2 room 1048576\n0 start b: started 0\n0 use 0 take: empty\n"));
    CHECK(!strcmp(why, "p: faulted empty\nq: done\n"));
    strcpy(journal, "?");
    CHECK(is(explored(CROSSWISE, 2, journal, sizeof journal, why), WANZOCHE_UNDECIDED, 2) && !strcmp(journal, "?") && why[0] == 0);
    CHECK(is(explored(CROSSWISE, 0, journal, sizeof journal, why), WANZOCHE_UNDECIDED, 0));
    CHECK(is(explored("", 1, journal, sizeof journal, why), WANZOCHE_ALL_DONE, 1));
    CHECK(is(wanzoche_explore(LOCKS, strlen(LOCKS), NULL, 9, 1, journal, sizeof journal, NULL, 9), WANZOCHE_ALL_DONE, 1));
    wanzoche_answer a = wanzoche_explore(LOCKS, strlen(LOCKS), CROSSWISE, strlen(CROSSWISE), 99, journal, sizeof journal, few, sizeof few);
    CHECK(is(a, WANZOCHE_STALLS, strlen(journal)) && !strcmp(few, "p: st"));
}

/* A buffer that could be too small, and each fault of a text: nothing is searched, and the buffer stays. */
static void searches_nothing(void) {
    static const struct { const char *script; uint32_t code; uint64_t line; const char *why; } table[] = {
        {"process p\nenter a\nleav\nend\n", WANZOCHE_SCRIPT_BAD_LINE, 2, "script: bad line 2"},
        {"process p\n", WANZOCHE_SCRIPT_BAD_LINE, 1, "script: bad line 1"},
        {"process p\nenter c\nleave\nend\n", WANZOCHE_SCRIPT_UNDECLARED, 1, "script: undeclared in line 1"},
        {"process p\nleave\nend\n", WANZOCHE_SCRIPT_UNBALANCED, 1, "script: unbalanced in line 1"},
    };
    char journal[2048] = "?", why[WANZOCHE_STANDINGS], *much = malloc(262145);
    uint64_t wanted = 8 * strlen(CROSSWISE) + 64;
    CHECK(is(explored(CROSSWISE, 100, NULL, sizeof journal, why), WANZOCHE_TOO_SMALL, wanted) && !strcmp(why, "too small"));
    CHECK(is(explored(CROSSWISE, 100, journal, wanted, why), WANZOCHE_TOO_SMALL, wanted) && !strcmp(journal, "?"));
    CHECK(is(wanzoche_explore("resource", 8, CROSSWISE, 4, 9, journal, 64, NULL, 9), WANZOCHE_TOO_SMALL, 96));
    for (size_t n = 0; n < sizeof table / sizeof *table; n++) {
        CHECK(is(explored(table[n].script, 9, journal, sizeof journal, why), table[n].code, table[n].line) && !strcmp(why, table[n].why));
        CHECK(!strcmp(journal, "?"));
    }
    CHECK(is(wanzoche_explore("resource", 8, "x", 1, 9, journal, sizeof journal, why, sizeof why), WANZOCHE_UNEXPECTED, 8));
    CHECK(!strcmp(why, "declaration: unexpected at 8") && !strcmp(journal, "?"));
    CHECK(is(wanzoche_explore(NULL, 8, NULL, 9, 9, journal, sizeof journal, why, 0), WANZOCHE_UNEXPECTED, 0));
    strcpy(journal, "process p\n");
    for (unsigned n = 0; n < 17; n++) strcat(journal, "enter a\n");
    CHECK(is(explored(journal, 9, much, 262145, why), WANZOCHE_SCRIPT_TOO_DEEP, 17) && !strcmp(why, "script: too deep in line 17"));
    journal[0] = 0;
    for (unsigned n = 0; n < 17; n++) strcat(journal, "process p\nend\n");
    CHECK(is(explored(journal, 9, much, 262145, why), WANZOCHE_SCRIPT_TOO_MANY, 32) && !strcmp(why, "script: too many in line 32"));
    memset(much, '\n', 262145);
    char *large = malloc(2097217);
    CHECK(is(wanzoche_explore(LOCKS, strlen(LOCKS), much, 262145, 9, large, 2097216, why, sizeof why), WANZOCHE_TOO_SMALL, 2097216));
    CHECK(is(wanzoche_explore(LOCKS, strlen(LOCKS), much, 262145, 9, large, 2097217, why, sizeof why), WANZOCHE_SCRIPT_TOO_LONG, 0));
    CHECK(!strcmp(why, "script: too long"));
    free(large);
    free(much);
}

/* One process of so many of these steps, behind an `enter` and before `behind`: the journal of its one schedule that goes wrong, which is
 * as long as any can be, fits where the call takes a buffer. */
static void is_long(const char *device, const char *first, const char *step, unsigned steps, const char *behind) {
    size_t size = 64 + strlen(first) + strlen(behind) + steps * strlen(step), length = 0;
    char declaration[256], *script = malloc(size), why[WANZOCHE_STANDINGS];
    snprintf(declaration, sizeof declaration, "resource r %s operation a, z path a end path z end end", device);
    for (unsigned n = 0; n < 15; n++) length += (size_t)sprintf(script + length, "process p\nend\n");
    script = realloc(script, size + length);
    length += (size_t)sprintf(script + length, "process p\n%s", first);
    for (unsigned n = 0; n < steps; n++) length += (size_t)sprintf(script + length, "%s", step);
    length += (size_t)sprintf(script + length, "%s", behind);
    size_t most = 8 * length + 65;
    char *journal = malloc(most);
    wanzoche_answer a = wanzoche_explore(declaration, strlen(declaration), script, length, 9999, journal, most, why, sizeof why);
    CHECK((a.code == WANZOCHE_STALLS || a.code == WANZOCHE_REFUSED) && a.number < most - 1 && strlen(journal) == a.number);
    if (a.code != WANZOCHE_STALLS && a.code != WANZOCHE_REFUSED) printf("%s: %s\n", wanzoche_words(a.code), why);
    free(journal);
    free(script);
}

static void longest_journals(void) {
    is_long("tally", "enter a\nuse add 18446744073709551615\n", "use look\n", 4092, "use add 1\nleave\nend\n");
    is_long("queue 1", "enter a\nuse put 18446744073709551615\n", "use look\n", 4092, "use put 1\nleave\nend\n");
    is_long("cell", "", "enter a\nleave\n", 2046, "enter a\nuse take\nleave\nend\n");
    is_long("cell", "enter a\n", "enter z\nleave\n", 2046, "enter a\nleave\nleave\nend\n");
}

/* The child of a process with one thread has a copy of the handle, which is its own. */
static void forks(void) {
    wanzoche w = WANZOCHE_CLOSED_HANDLE;
    int status = 0;
    CHECK(is(open_with(&w, SLOT, 8, NULL), WANZOCHE_OPENED, 0));
    fflush(stdout);
    pid_t child = fork();
    if (child == 0) {
        int before = failures;
        CHECK(is(wanzoche_start(&w, 1, 0), WANZOCHE_STARTED, 0));
        wanzoche_close(&w);
        _exit(failures != before);
    }
    CHECK(waitpid(child, &status, 0) == child && status == 0);
    CHECK(wanzoche_lines(&w) == 0 && is(wanzoche_start(&w, 1, 0), WANZOCHE_STARTED, 0));
    wanzoche_close(&w);
}

/* A line of a journal is read that has the words of this code behind its colon, and then this text. */
static bool is_reply(uint32_t code, const char *behind) {
    char line[64];
    snprintf(line, sizeof line, "1 start deposit: %s%s", wanzoche_words(code), behind);
    return audited(line, NULL).code != WANZOCHE_BAD_LINE;
}

/* Each line of this journal ends with the words of the answer that it got, and with its number if its kind has one. */
static bool are_told(const char *journal, const wanzoche_answer *answers, size_t count) {
    char told[64];
    for (size_t n = 0; n < count; n++) {
        const char *reply = strstr(journal, ": "), *next = reply == NULL ? NULL : strchr(reply, '\n');
        if (next == NULL) return false;
        snprintf(told, sizeof told, ": %s %llu", wanzoche_words(answers[n].code), (unsigned long long)answers[n].number);
        if (is_reply(answers[n].code, "")) *strrchr(told, ' ') = 0;
        strcat(told, "\n");
        if (strncmp(reply, told, strlen(told)) || reply + strlen(told) != next + 1) return false;
        journal = next + 1;
    }
    return *journal == 0;
}

/* The words of the replies are those of journals. */
static void replies(void) {
    wanzoche w = WANZOCHE_CLOSED_HANDLE;
    wanzoche_answer answers[12];
    char journal[1024];
    CHECK(is(open_with(&w, THREE, 64, NULL), WANZOCHE_OPENED, 0));
    answers[0] = wanzoche_start(&w, 1, 2);
    answers[1] = wanzoche_use(&w, 1, 0, WANZOCHE_ADD, UINT64_MAX);
    answers[2] = wanzoche_use(&w, 1, 0, WANZOCHE_ADD, 1);
    answers[3] = wanzoche_use(&w, 1, 0, WANZOCHE_PUT, 1);
    answers[4] = wanzoche_start(&w, 1, 3);
    answers[5] = wanzoche_use(&w, 1, 1, WANZOCHE_TAKE, 0);
    answers[6] = wanzoche_use(&w, 1, 1, WANZOCHE_PUT, 5);
    answers[7] = wanzoche_use(&w, 1, 1, WANZOCHE_PUT, 6);
    answers[8] = wanzoche_use(&w, 2, 1, WANZOCHE_LOOK, 0);
    answers[9] = wanzoche_start(&w, 2, 4);
    answers[10] = wanzoche_finish(&w, 1, 0);
    answers[11] = wanzoche_finish(&w, 1, 0);
    CHECK(answers[9].code == WANZOCHE_BLOCKED && answers[10].code == WANZOCHE_FINISHED && answers[11].code == WANZOCHE_STALE);
    CHECK(wanzoche_journal(&w, journal, sizeof journal).code == WANZOCHE_WRITTEN && are_told(journal, answers, 12));
    wanzoche_close(&w);
    for (uint32_t code = WANZOCHE_STARTED; code <= WANZOCHE_NO_ROOM; code++) CHECK(is_reply(code, "") != is_reply(code, " 0"));
    CHECK(is_reply(WANZOCHE_DEVICE_FAILED, "") && is_reply(WANZOCHE_NO_ROOM, "") && is_reply(WANZOCHE_UNKNOWN_OPERATION, ""));
    CHECK(!is_reply(WANZOCHE_CLOSED, "") && !is_reply(WANZOCHE_NO_VERB, "") && !is_reply(WANZOCHE_CAN_START, ""));
}

/* What an attempt would be answered is what it is answered then, and nothing changes by asking. */
static void owed(void) {
    wanzoche w = WANZOCHE_CLOSED_HANDLE, *handles[] = {NULL, &w};
    for (int n = 0; n < 2; n++) {
        CHECK(is(wanzoche_owed_start(handles[n], 1, 0), WANZOCHE_CLOSED, 0));
        CHECK(is(wanzoche_owed_use(handles[n], 1, 0, WANZOCHE_LOOK, 0), WANZOCHE_CLOSED, 0));
        CHECK(is(wanzoche_owed_use(handles[n], 1, 0, 4, 0), WANZOCHE_NO_VERB, 0));
        CHECK(is(wanzoche_owed_finish(handles[n], 1, 0), WANZOCHE_CLOSED, 0));
    }
    CHECK(is(open_with(&w, THREE, 16, NULL), WANZOCHE_OPENED, 0));
    CHECK(is(wanzoche_owed_start(&w, 1, 3), WANZOCHE_STARTED, 0) && is(wanzoche_owed_start(&w, 1, 9), WANZOCHE_UNKNOWN_OPERATION, 0));
    CHECK(wanzoche_lines(&w) == 0 && wanzoche_live(&w) == 0 && is(wanzoche_start(&w, 1, 3), WANZOCHE_STARTED, 0));
    CHECK(is(wanzoche_owed_start(&w, 2, 4), WANZOCHE_BLOCKED, 0) && is(wanzoche_owed_finish(&w, 2, 0), WANZOCHE_NOT_YOURS, 0));
    CHECK(is(wanzoche_owed_use(&w, 1, 0, WANZOCHE_TAKE, 0), WANZOCHE_EMPTY, 0));
    CHECK(is(wanzoche_owed_use(&w, 1, 0, WANZOCHE_PUT, 5), WANZOCHE_USED, 1));
    CHECK(is(wanzoche_use(&w, 1, 0, WANZOCHE_PUT, 5), WANZOCHE_USED, 1));
    CHECK(is(wanzoche_owed_use(&w, 1, 0, WANZOCHE_PUT, 6), WANZOCHE_FULL, 0));
    CHECK(is(wanzoche_owed_use(&w, 1, 0, WANZOCHE_ADD, 6), WANZOCHE_NOT_OFFERED, 0));
    CHECK(is(wanzoche_owed_use(&w, 1, 0, WANZOCHE_TAKE, 0), WANZOCHE_USED, 5));
    CHECK(is(wanzoche_owed_use(&w, 1, 0, WANZOCHE_TAKE, 0), WANZOCHE_USED, 5));
    CHECK(is(wanzoche_owed_use(&w, 2, 0, WANZOCHE_TAKE, 0), WANZOCHE_NOT_YOURS, 0));
    CHECK(is(wanzoche_owed_use(&w, 1, 8, WANZOCHE_TAKE, 0), WANZOCHE_STALE, 0));
    CHECK(is(wanzoche_start(&w, 1, 2), WANZOCHE_STARTED, 1));
    CHECK(is(wanzoche_owed_use(&w, 1, 1, WANZOCHE_ADD, UINT64_MAX), WANZOCHE_USED, UINT64_MAX));
    CHECK(is(wanzoche_use(&w, 1, 1, WANZOCHE_ADD, 7), WANZOCHE_USED, 7));
    CHECK(is(wanzoche_owed_use(&w, 1, 1, WANZOCHE_ADD, UINT64_MAX), WANZOCHE_OVERFLOW, 0));
    CHECK(is(wanzoche_start(&w, 1, 0), WANZOCHE_STARTED, 2) && is(wanzoche_owed_use(&w, 1, 2, WANZOCHE_PUT, 9), WANZOCHE_USED, 0));
    CHECK(is(wanzoche_owed_finish(&w, 1, 2), WANZOCHE_FINISHED, 0) && is(wanzoche_owed_finish(&w, 1, 9), WANZOCHE_STALE, 0));
    CHECK(wanzoche_lines(&w) == 5 && wanzoche_live(&w) == 3 && wanzoche_room_left(&w) == 8);
    while (wanzoche_room_left(&w) > 0) CHECK(wanzoche_use(&w, 1, 2, WANZOCHE_LOOK, 0).code == WANZOCHE_USED);
    CHECK(is(wanzoche_owed_start(&w, 1, 1), WANZOCHE_NO_ROOM, 0) && is(wanzoche_owed_use(&w, 1, 2, WANZOCHE_LOOK, 0), WANZOCHE_NO_ROOM, 0));
    CHECK(is(wanzoche_owed_finish(&w, 1, 9), WANZOCHE_NO_ROOM, 0) && is(wanzoche_owed_finish(&w, 1, 2), WANZOCHE_FINISHED, 0));
    wanzoche_close(&w);
}

/* The lines of two workers at the three resources, each with another kind of answer. */
static const char LINES[] = "1 start push: started 0\n2 start pop: blocked 0\n1 use 0 put 5: used 1\n1 use 0 put 6: full\n"
                            "2 use 0 look: not yours\n1 finish 0: finished\n1 finish 0: stale\n2 start pop: started 1\n"
                            "2 use 1 take: used 5\n2 use 1 take: empty\n1 start add1: started 2\n1 use 2 add 4: device failed\n"
                            "1 use 2 add 4: used 4\n1 use 2 put 4: not offered\n1 start put1: started 3\n1 use 3 put 8: used 0\n";

/* Whether both handles have the same lines and the same report. */
static bool agree(wanzoche *one, wanzoche *other) {
    static char texts[4][1024];
    CHECK(wanzoche_report(one, texts[0], 1024).code == WANZOCHE_WRITTEN && wanzoche_report(other, texts[1], 1024).code == WANZOCHE_WRITTEN);
    CHECK(wanzoche_journal(one, texts[2], 1024).code == wanzoche_journal(other, texts[3], 1024).code);
    return !strcmp(texts[0], texts[1]) && !strcmp(texts[2], texts[3]);
}

/* A handle that has taken over all lines. */
static wanzoche behind_all(void) {
    wanzoche w = WANZOCHE_CLOSED_HANDLE;
    CHECK(is(open_with(&w, THREE, 64, NULL), WANZOCHE_OPENED, 0));
    CHECK(is(wanzoche_take_over(&w, LINES, strlen(LINES), NULL), WANZOCHE_TAKEN, 16));
    return w;
}

/* How many lines a text of this length has whole, and in how many bytes they stand. */
static uint64_t whole(const char *text, size_t length, size_t *bytes) {
    uint64_t lines = 0;
    *bytes = 0;
    for (size_t n = 0; n < length; n++)
        if (text[n] == '\n') lines++, *bytes = n + 1;
    return lines;
}

/* Lines are taken over in two pieces, cut anywhere: the rest of a cut line comes with the second piece. */
static void takes_over(void) {
    wanzoche all = behind_all();
    CHECK(wanzoche_lines(&all) == 16 && wanzoche_live(&all) == 3 && is(wanzoche_owed_use(&all, 1, 2, WANZOCHE_LOOK, 0), WANZOCHE_USED, 4));
    for (size_t cut = 0; cut <= strlen(LINES); cut++) {
        wanzoche w = WANZOCHE_CLOSED_HANDLE;
        wanzoche_taken taken = {9, 9, {9, 9}};
        size_t bytes;
        uint64_t lines = whole(LINES, cut, &bytes);
        CHECK(is(open_with(&w, THREE, 64, NULL), WANZOCHE_OPENED, 0));
        CHECK(is(wanzoche_take_over(&w, LINES, cut, &taken), WANZOCHE_TAKEN, lines));
        CHECK(taken.lines == lines && taken.bytes == bytes && is(taken.owed, 0, 0) && wanzoche_lines(&w) == lines);
        CHECK(is(wanzoche_take_over(&w, LINES + bytes, strlen(LINES) - bytes, &taken), WANZOCHE_TAKEN, 16 - lines));
        CHECK(taken.lines == 16 - lines && taken.bytes == strlen(LINES) - bytes && agree(&w, &all));
        wanzoche_close(&w);
    }
    wanzoche_close(&all);
}

static wanzoche_answer takes(wanzoche *w, const char *text, wanzoche_taken *taken) {
    return wanzoche_take_over(w, text, strlen(text), taken);
}

/* A line whose reply isn't owed isn't taken, and the reply that is owed is told. */
static void takes_no_forged_line(void) {
    wanzoche w = WANZOCHE_CLOSED_HANDLE;
    wanzoche_taken taken = {9, 9, {9, 9}};
    CHECK(is(wanzoche_take_over(NULL, LINES, 8, &taken), WANZOCHE_CLOSED, 0) && taken.lines == 0 && taken.bytes == 0);
    CHECK(is(taken.owed, 0, 0));
    CHECK(is(takes(&w, LINES, NULL), WANZOCHE_CLOSED, 0));
    CHECK(is(open_with(&w, SLOT, 4, NULL), WANZOCHE_OPENED, 0));
    CHECK(is(takes(&w, "1 start deposit: started 0\n1 use 0 put 7: used 1\n1 finish 0: finished\n", &taken), WANZOCHE_WRONG_LINE, 1));
    CHECK(taken.lines == 1 && taken.bytes == 70 && is(taken.owed, WANZOCHE_USED, 0) && wanzoche_lines(&w) == 1 && wanzoche_live(&w) == 1);
    CHECK(is(takes(&w, "2 start remove: blocked 1\n", &taken), WANZOCHE_WRONG_LINE, 0) && is(taken.owed, WANZOCHE_BLOCKED, 0));
    CHECK(is(takes(&w, "1 start deposit: no room\n", &taken), WANZOCHE_WRONG_LINE, 0) && is(taken.owed, WANZOCHE_BLOCKED, 0));
    CHECK(is(takes(&w, "1 finish 0: device failed\n", &taken), WANZOCHE_WRONG_LINE, 0) && is(taken.owed, WANZOCHE_FINISHED, 0));
    CHECK(is(takes(&w, "1 use 0 look: device failed\n", &taken), WANZOCHE_TAKEN, 1) && taken.bytes == 28);
    CHECK(is(takes(&w, "hello\n1 finish 0: finished\n", &taken), WANZOCHE_BAD_LINE, 0) && taken.lines == 0 && taken.bytes == 0);
    CHECK(is(takes(&w, "1 finish 0: finished\n1 start steal: blocked 0\n", &taken), WANZOCHE_UNDECLARED_LINE, 1) && wanzoche_live(&w) == 1);
    CHECK(is(takes(&w, "journal 3 room 900\n+1 use 0 look: used 0\n1 fin", &taken), WANZOCHE_TAKEN, 1) && taken.bytes == 41);
    CHECK(is(takes(&w, "1 use 0 look: used 0\n", &taken), WANZOCHE_WRONG_LINE, 0) && is(taken.owed, WANZOCHE_NO_ROOM, 0));
    CHECK(is(takes(&w, "hello", &taken), WANZOCHE_TAKEN, 0) && taken.bytes == 0);
    CHECK(is(wanzoche_take_over(&w, NULL, 9, &taken), WANZOCHE_TAKEN, 0));
    CHECK(is(takes(&w, "1 finish 0: finished\n", &taken), WANZOCHE_TAKEN, 1) && wanzoche_live(&w) == 0 && wanzoche_lines(&w) == 4);
    wanzoche_close(&w);
}

static wanzoche_answer goes_on(wanzoche *w, const char *text, const char *journal, uint32_t room, char *why) {
    return wanzoche_resume(w, text, strlen(text), room, journal, strlen(journal), why, WANZOCHE_MESSAGE);
}

/* A handle goes on behind a journal that is cut anywhere, as the one that wrote its whole lines. */
static void resumes(void) {
    wanzoche all = behind_all();
    for (size_t cut = 0; cut <= strlen(LINES); cut++) {
        wanzoche w = WANZOCHE_CLOSED_HANDLE, bare = w;
        size_t bytes;
        uint64_t lines = whole(LINES, cut, &bytes);
        CHECK(is(wanzoche_resume(&w, THREE, strlen(THREE), 64, LINES, cut, NULL, 0), WANZOCHE_OPENED, bytes));
        CHECK(is(wanzoche_resume_without_journal(&bare, THREE, strlen(THREE), 5, LINES, cut, NULL, 0), WANZOCHE_OPENED, bytes));
        CHECK(wanzoche_lines(&w) == lines && wanzoche_lines(&bare) == 0 && wanzoche_live(&w) == wanzoche_live(&bare));
        CHECK(is(wanzoche_take_over(&w, LINES + bytes, strlen(LINES) - bytes, NULL), WANZOCHE_TAKEN, 16 - lines));
        CHECK(is(wanzoche_take_over(&bare, LINES + bytes, strlen(LINES) - bytes, NULL), WANZOCHE_TAKEN, 16 - lines));
        CHECK(agree(&w, &all) && is(wanzoche_use(&bare, 1, 3, WANZOCHE_LOOK, 0), WANZOCHE_USED, 8));
        CHECK(is(wanzoche_journal(&bare, NULL, 0), WANZOCHE_NO_JOURNAL, 0));
        wanzoche_close(&w);
        wanzoche_close(&bare);
    }
    wanzoche_close(&all);
}

/* What can't be gone on from is told, and the handle stays closed. */
static void resumes_nothing_wrong(void) {
    wanzoche w = WANZOCHE_CLOSED_HANDLE;
    char why[WANZOCHE_MESSAGE] = "?";
    CHECK(is(goes_on(NULL, SLOT, "", 4, why), WANZOCHE_CLOSED, 0) && why[0] == 0);
    CHECK(is(goes_on(&w, SLOT, "1 start deposit: started 0\n1 finish 0: stale\n", 4, why), WANZOCHE_WRONG_LINE, 1));
    CHECK(!strcmp(why, "wrong line 1"));
    CHECK(is(goes_on(&w, SLOT, "hello\n1 start deposit: started 0\n", 4, why), WANZOCHE_BAD_LINE, 0));
    CHECK(!strcmp(why, "journal: bad line 0"));
    CHECK(is(goes_on(&w, SLOT, "1 start steal: blocked 0\n", 4, why), WANZOCHE_UNDECLARED_LINE, 0));
    CHECK(!strcmp(why, "journal: undeclared in line 0"));
    CHECK(is(goes_on(&w, "resource", "", 4, why), WANZOCHE_UNEXPECTED, 8) && !strcmp(why, "declaration: unexpected at 8"));
    CHECK(is(goes_on(&w, SLOT, "", 0, why), WANZOCHE_BAD_ROOM, 0) && !strcmp(why, "bad room"));
    CHECK(is(wanzoche_start(&w, 1, 0), WANZOCHE_CLOSED, 0));
    /* The room that the journal names counts. */
    CHECK(is(goes_on(&w, SLOT, "journal 2 room 2\n1 start deposit: started 0\n2 start remove: blocked 0\n", 64, why),
             WANZOCHE_WRONG_LINE, 1));
    CHECK(is(goes_on(&w, SLOT, "journal 3 room 3\n1 start deposit: started 0\n+2 start remo", 0, why), WANZOCHE_OPENED, 44) && why[0] == 0);
    CHECK(wanzoche_room_left(&w) == 1 && is(goes_on(&w, SLOT, "", 4, why), WANZOCHE_ALREADY_OPEN, 0) && !strcmp(why, "already open"));
    CHECK(is(wanzoche_finish(&w, 1, 0), WANZOCHE_FINISHED, 0));
    wanzoche_close(&w);
    CHECK(is(wanzoche_resume(&w, NULL, 9, 4, NULL, 9, NULL, 9), WANZOCHE_UNEXPECTED, 0));
    CHECK(is(wanzoche_resume(&w, SLOT, strlen(SLOT), 4, NULL, 9, NULL, 9), WANZOCHE_OPENED, 0) && wanzoche_lines(&w) == 0);
    wanzoche_close(&w);
}

/* Who may start, by those who wait, and who comes next: a reader reads, and a writer and a reader wait. */
static void comes_next(opening opens) {
    enum { READ, WRITE, LOCK, NONE };
    static const char BOOK[] = "resource book cell operation read, write, lock path { read } , write end path lock end end";
    wanzoche w = WANZOCHE_CLOSED_HANDLE;
    wanzoche_waiter waiting[2] = {{WRITE, 0, 10, 0}, {READ, 0, 20, UINT64_MAX}};
    const uint32_t running[1] = {READ}, unknown[1] = {NONE};
    CHECK(is(opens(&w, BOOK, strlen(BOOK), 64, NULL, 0), WANZOCHE_OPENED, 0));
    CHECK(is(wanzoche_start(&w, 1, READ), WANZOCHE_STARTED, 0));
    const size_t lines = wanzoche_lines(&w);
    CHECK(is(wanzoche_may_start(&w, READ, 0, 30, waiting, 2, running, 1), WANZOCHE_WITHHELD, 0));
    CHECK(is(wanzoche_may_start(&w, READ, 1, 30, waiting, 2, running, 1), WANZOCHE_CAN_START, 0));
    CHECK(is(wanzoche_may_start(&w, LOCK, 0, 30, waiting, 2, running, 1), WANZOCHE_CAN_START, 0));
    CHECK(is(wanzoche_may_start(&w, WRITE, 1, 30, waiting, 2, running, 1), WANZOCHE_BLOCKED, 0));
    CHECK(is(wanzoche_may_start(&w, READ, 0, 30, waiting, 2, NULL, 1), WANZOCHE_CAN_START, 0));
    CHECK(is(wanzoche_may_start(&w, READ, 0, 30, NULL, 2, running, 1), WANZOCHE_CAN_START, 0));
    CHECK(is(wanzoche_may_start(&w, NONE, 0, 30, waiting, 2, running, 1), WANZOCHE_UNKNOWN_OPERATION, 0));
    CHECK(is(wanzoche_may_start(&w, READ, 0, 30, waiting, 2, unknown, 1), WANZOCHE_CAN_START, 0));
    CHECK(is(wanzoche_next(&w, waiting, 2, running, 1), WANZOCHE_NOBODY, 0));
    waiting[0].shut_at = 20;
    CHECK(is(wanzoche_next(&w, waiting, 2, running, 1), WANZOCHE_NEXT, 1));
    CHECK(is(wanzoche_may_start(&w, READ, 0, 20, waiting, 1, running, 1), WANZOCHE_CAN_START, 0));
    CHECK(is(wanzoche_may_start(&w, READ, 0, 21, waiting, 1, running, 1), WANZOCHE_WITHHELD, 0));
    CHECK(is(wanzoche_next(&w, NULL, 2, NULL, 1), WANZOCHE_NOBODY, 0));
    CHECK(wanzoche_lines(&w) == lines && wanzoche_live(&w) == 1);
    CHECK(is(wanzoche_finish(&w, 1, 0), WANZOCHE_FINISHED, 0));
    CHECK(is(wanzoche_next(&w, waiting, 2, NULL, 0), WANZOCHE_NEXT, 0));
    waiting[1].operation = NONE;
    CHECK(is(wanzoche_next(&w, &waiting[1], 1, NULL, 0), WANZOCHE_NEXT, 0));
    wanzoche_close(&w);
}

static void words(void) {
    CHECK(!strcmp(wanzoche_words(WANZOCHE_BLOCKED), "blocked") && !strcmp(wanzoche_words(60), "no such code"));
    CHECK(!strcmp(wanzoche_version(), WANZOCHE_VERSION));
    for (uint32_t code = 0; code <= WANZOCHE_NOBODY; code++)
        CHECK((code > WANZOCHE_NO_JOURNAL && code < WANZOCHE_TOO_LONG) == !strcmp(wanzoche_words(code), "no such code"));
}

int main(void) {
    a_slot();
    texts();
    devices();
    records();
    lists();
    closed_ones();
    faults();
    too_many();
    messages();
    buffers();
    rotations();
    without_journal();
    audits();
    explained();
    searches();
    searches_nothing();
    longest_journals();
    forks();
    replies();
    owed();
    takes_over();
    takes_no_forged_line();
    resumes();
    resumes_nothing_wrong();
    comes_next(wanzoche_open);
    comes_next(wanzoche_open_without_journal);
    words();
    printf("calls: %d failures\n", failures);
    return failures != 0;
}
