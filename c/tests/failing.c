/* Each allocation refused in turn: the answer is WANZOCHE_OUT_OF_MEMORY, nothing leaks, and the handle is as it was. */
#include "wanzoche.h"

#include <stdio.h>
#include <stdlib.h>
#include <string.h>

/* The library's allocator, with refusals. */
struct block {
    size_t there;
    void *at;
};
static long left = -1, blocks, asked, bytes;
static char nothing;

static struct block given(void *at) {
    struct block none = {0, &nothing}, one = {1, at};
    return at == NULL ? none : one;
}

static int refused(void) {
    asked++;
    return left >= 0 && left-- == 0;
}

struct block rattle_alloc(size_t size, size_t align);
struct block rattle_realloc(void *at, size_t old, size_t size, size_t align);
void rattle_dealloc(void *at, size_t size, size_t align);

struct block rattle_alloc(size_t size, size_t align) {
    struct block b = given(refused() ? NULL : malloc(size ? size : align));
    blocks += (long)b.there;
    bytes += (long)size;
    return b;
}

struct block rattle_realloc(void *at, size_t old, size_t size, size_t align) {
    (void)old;
    return given(refused() ? NULL : realloc(at, size ? size : align));
}

void rattle_dealloc(void *at, size_t size, size_t align) {
    (void)size;
    (void)align;
    blocks--;
    free(at);
}

static const char SLOT[] = "resource slot cell operation deposit, remove path deposit ; remove end end"
                           " resource line queue 4 operation put, get path { put ; get : 4 } end end";
static wanzoche w;
static char text[4096];
static long text_length;

static wanzoche_answer opens(void) {
    return wanzoche_open(&w, SLOT, strlen(SLOT), 64, NULL, 0);
}

/* If there is no memory for the message it says so, and the answer is that of the text. */
static int messages(void) {
    char why[WANZOCHE_MESSAGE];
    int lacked = 0;
    for (long n = 0;; n++) {
        left = n;
        wanzoche_answer a = wanzoche_open(&w, "resource", 8, 64, why, sizeof why);
        left = -1;
        int wants = !strcmp(why, "out of memory");
        if (a.code == WANZOCHE_UNEXPECTED && !wants) return blocks != 0 || lacked == 0 || strcmp(why, "unexpected at 8");
        if (!wants || (a.code != WANZOCHE_OUT_OF_MEMORY && a.code != WANZOCHE_UNEXPECTED)) return 1;
        lacked += a.code == WANZOCHE_UNEXPECTED;
    }
}

static wanzoche_answer opens_without_journal(void) {
    return wanzoche_open_without_journal(&w, SLOT, strlen(SLOT), 64, NULL, 0);
}

typedef wanzoche_answer (*opening)(wanzoche *, const char *, size_t, uint32_t, char *, size_t);

/* How many bytes an opening asks for, in this room. */
static long asks_for(opening open, uint32_t room) {
    bytes = 0;
    open(&w, SLOT, strlen(SLOT), room, NULL, 0);
    wanzoche_close(&w);
    return bytes;
}

/* How many it asks for, for each place of the room. */
static long for_a_place(opening open) {
    return (asks_for(open, 1048576) - asks_for(open, 524288)) / 524288;
}

/* Starts, uses, finishes and rotations, and what can be asked in between: whether an answer is wrong. */
static int steps(bool has_lines) {
    int bad = 0;
    for (int n = 0; n < 100; n++) {
        wanzoche_answer a = wanzoche_start(&w, 1, 0);
        bad |= a.code != WANZOCHE_STARTED || wanzoche_use(&w, 1, a.number, WANZOCHE_PUT, 5).code != WANZOCHE_USED ||
               wanzoche_finish(&w, 1, a.number).code != WANZOCHE_FINISHED;
        a = wanzoche_start(&w, 1, 1);
        bad |= wanzoche_can_start(&w, 0).code != WANZOCHE_BLOCKED || wanzoche_operation(&w, "get", 3) != 3;
        bad |= wanzoche_live(&w) != 1 || (wanzoche_lines(&w) > 0) != has_lines || wanzoche_room_left(&w) == 0;
        bad |= wanzoche_finish(&w, 1, a.number).code != WANZOCHE_FINISHED;
        if (n < 99) bad |= wanzoche_rotate(&w).code != WANZOCHE_ROTATED;
    }
    return bad;
}

/* The same, of which nothing asks for memory. */
static int steps_take_none(bool has_lines) {
    long before = blocks;
    int bad;
    asked = 0;
    left = 0;
    bad = steps(has_lines);
    left = -1;
    if (bad || asked != 0 || blocks != before) printf("steps asked for memory %ld times\n", asked), bad = 1;
    return bad;
}

static wanzoche_answer journals(void) {
    return wanzoche_journal(&w, text, sizeof text);
}

static wanzoche_answer reports(void) {
    return wanzoche_report(&w, text, sizeof text);
}

static wanzoche_answer declares(void) {
    return wanzoche_declaration(&w, text, sizeof text);
}

static wanzoche_answer explains(void) {
    return wanzoche_explain("path deposit ; remov", 20, text, sizeof text);
}

static wanzoche_answer audits(void) {
    return wanzoche_audit(SLOT, strlen(SLOT), 64, text, (size_t)text_length, NULL, 0);
}

static const char STALLS[] = "process p\nenter remove\nleave\nend\n", DONE[] = "process p\nenter deposit\nuse put 7\nleave\nend\n";

static wanzoche_answer explores(const char *script) {
    return wanzoche_explore(SLOT, strlen(SLOT), script, strlen(script), 99, text, sizeof text, NULL, 0);
}

static wanzoche_answer finds_a_stall(void) {
    return explores(STALLS);
}

static wanzoche_answer finds_none(void) {
    return explores(DONE);
}

static const char LINE[] = "1 start deposit: started 0\n";

static wanzoche_answer resumes(void) {
    return wanzoche_resume(&w, SLOT, strlen(SLOT), 64, LINE, strlen(LINE), NULL, 0);
}

static wanzoche_answer takes_over(void) {
    return wanzoche_take_over(&w, "1 finish 0: finished\n", 21, NULL);
}

static const wanzoche_waiter WAITING[] = {{1, 0, 1, 0}, {0, 0, 2, 0}, {2, 0, 3, 0}};
static const uint32_t RUNNING[] = {0};

/* The answer of a call while one who runs deposits, who removes it then. */
static wanzoche_answer while_one_deposits(wanzoche_answer (*call)(void)) {
    wanzoche_answer runs = wanzoche_start(&w, 1, 0), a = call();
    wanzoche_finish(&w, 1, runs.number);
    runs = wanzoche_start(&w, 1, 1);
    wanzoche_finish(&w, 1, runs.number);
    wanzoche_rotate(&w);
    return a;
}

static wanzoche_answer asks_whether_to_start(void) {
    return wanzoche_may_start(&w, 2, 0, 9, WAITING, 3, RUNNING, 1);
}

static wanzoche_answer asks_who_is_next(void) {
    return wanzoche_next(&w, WAITING, 3, RUNNING, 1);
}

static wanzoche_answer may_start(void) {
    return while_one_deposits(asks_whether_to_start);
}

static wanzoche_answer next(void) {
    return while_one_deposits(asks_who_is_next);
}

/* Once memory was had for it, neither of them asks for more. */
static int asks_no_more(void) {
    asked = 0;
    left = 0;
    int bad = may_start().code != WANZOCHE_CAN_START || next().code != WANZOCHE_NEXT || asked != 0;
    left = -1;
    if (bad) printf("who comes next asked for memory %ld times\n", asked);
    return bad;
}

static int each_in_turn(const char *name, wanzoche_answer (*call)(void), uint32_t wanted) {
    long before = blocks;
    bool live = w.live;
    for (long n = 0;; n++) {
        left = n;
        wanzoche_answer a = call();
        left = -1;
        if (a.code == wanted) {
            printf("%s: %ld allocations refused in turn\n", name, n);
            return n == 0;
        }
        if (a.code != WANZOCHE_OUT_OF_MEMORY || a.number != 0 || blocks != before || w.live != live) {
            printf("%s, allocation %ld: answered %s, %ld blocks more\n", name, n, wanzoche_words(a.code), blocks - before);
            return 1;
        }
    }
}

int main(void) {
    int bad = messages();
    if (bad) printf("a message isn't as it should be\n");
    long with = for_a_place(wanzoche_open), without = for_a_place(wanzoche_open_without_journal);
    if (with != 144 || without != 32) printf("%ld and %ld bytes for a place of the room\n", with, without), bad = 1;
    bad |= each_in_turn("open without a journal", opens_without_journal, WANZOCHE_OPENED);
    bad |= steps_take_none(false);
    bad |= wanzoche_journal(&w, text, sizeof text).code != WANZOCHE_NO_JOURNAL || asked != 0;
    bad |= each_in_turn("report without a journal", reports, WANZOCHE_WRITTEN);
    bad |= each_in_turn("next without a journal", next, WANZOCHE_NEXT) || asks_no_more();
    wanzoche_close(&w);
    bad |= each_in_turn("open", opens, WANZOCHE_OPENED);
    bad |= steps_take_none(true);
    bad |= each_in_turn("journal", journals, WANZOCHE_WRITTEN);
    text_length = (long)wanzoche_journal(&w, text, sizeof text).number;
    bad |= text_length == 0;
    bad |= each_in_turn("report", reports, WANZOCHE_WRITTEN);
    bad |= each_in_turn("declaration", declares, WANZOCHE_WRITTEN);
    text_length = 0;
    bad |= each_in_turn("explain", explains, WANZOCHE_WRITTEN);
    bad |= each_in_turn("audit", audits, WANZOCHE_SOUND);
    text[0] = 0;
    bad |= each_in_turn("explore", finds_none, WANZOCHE_ALL_DONE) || text[0] != 0;
    bad |= each_in_turn("explore a stall", finds_a_stall, WANZOCHE_STALLS) || strncmp(text, "journal 2 room 1048576\n", 23);
    bad |= each_in_turn("may start", may_start, WANZOCHE_CAN_START) || asks_no_more();
    wanzoche_close(&w);
    bad |= each_in_turn("resume", resumes, WANZOCHE_OPENED);
    bad |= each_in_turn("take over", takes_over, WANZOCHE_TAKEN);
    bad |= wanzoche_lines(&w) != 2 || wanzoche_live(&w) != 0;
    wanzoche_close(&w);
    if (blocks != 0) printf("%ld blocks are left\n", blocks), bad = 1;
    printf("failing: %d\n", bad);
    return bad;
}
