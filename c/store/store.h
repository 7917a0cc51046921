/* What the parts of the store share: what one opening knows, and what they have for each other. */
#ifndef WANZOCHE_STORE_PARTS_H
#define WANZOCHE_STORE_PARTS_H

#include <pthread.h>
#include <stddef.h>
#include <stdlib.h>
#include <string.h>

#include "page.h"
#include "system.h"
#include "wanzoche.h"
#include "wanzoche_store.h"

#define MOST_FILES 8
#define NEWS 64

/* A file of the journal, for all threads that need it still. */
struct lines {
    _Atomic uint32_t holders;
    int file;
    uint64_t segment;
    _Atomic int *place; /* where its descriptor stands for a child of a fork, which closes it; null if it doesn't */
};

/* The system of the proved core, as the lines leave it that were followed. */
struct replica {
    wanzoche system;
    struct lines *file;
    uint64_t segment; /* how many files were followed to their ends */
    uint64_t base;    /* how many bytes these have */
    uint64_t at;      /* how many bytes of this one were followed; 0 before its head */
    uint64_t lines;   /* how many lines of this one, without its head */
    uint64_t place;   /* how many attempts of the ring are followed; NO_PLACE while it isn't known, and the file is read */
    uint32_t room;
    uint32_t highest; /* the highest number of a worker */
};

#define NO_PLACE UINT64_MAX

/* An attempt as it was answered, out of a record of the ring. */
struct answered {
    uint32_t kind, worker, operation;
    uint64_t number, end;
};

/* What was seen of the file outside of a turn. */
struct glance {
    uint64_t time, end; /* when, and how long the journal was */
    bool is_usual;      /* nothing was strange about it */
};

typedef wanzoche_store_record record;

/* What a record has that one may read who listens for it, while another thread begins or ends it. */
#define GET(field) __atomic_load_n(&(field), __ATOMIC_RELAXED)
#define SET(field, to) __atomic_store_n(&(field), to, __ATOMIC_RELAXED)

/* An operation that is in progress here, and whose. */
struct holding {
    uint64_t activation, caller;
    bool is_used;
};

/* One that asks: it comes now, or stands in a slot. */
struct asker {
    uint32_t operation, priority;
    uint64_t arrived, ticket; /* NEVER: it comes now */
    uint64_t caller;          /* who it is of this process; 0 if it is another's, or nobody is known */
};

/* Who is first for an operation and priority, in order. */
struct firsts {
    unsigned count;
    uint16_t slot[SLOTS];
};

struct wanzoche_store {
    struct page *page;
    struct attempt *ring; /* behind the page */
    struct replica replica;
    struct glance glance;
    struct lines *door;   /* while it is opened: the file by which it shares the journal */
    int folder, beside;   /* the folder, and the file with the locks */
    uint32_t me;          /* who has the turn when this opening has it */
    uint32_t worker;
    bool no_sync, keep_lost;
    uint64_t patience;
    struct holding *held; /* a table by activations, of a power of two places */
    size_t held_mask, held_count;
    bool is_current;      /* in a turn: whether all lines are followed, so that one can be added */
    _Atomic bool is_closing, is_ending;  /* ending: no call is under way any more but the one that ends it */
    _Atomic bool is_forked, is_over;     /* over: each call answers `fault` */
    _Atomic uint32_t lock;     /* among the threads of this opening, around a turn and what is known */
    _Atomic uint32_t visitors; /* how many calls are under way */
    _Atomic uint32_t rung;     /* how often who listens was told to come back */
    wanzoche_answer fault;
    char words_of_fault[WANZOCHE_STORE_MESSAGE];
    wanzoche_answer trouble;  /* why a part failed */
    _Atomic uint32_t *due[OPERATIONS]; /* the words that are woken when the turn is over */
    unsigned dues;
    uint32_t operations;
    char (*names)[33];
    char *declaration;
    size_t declaration_length;
    char *buffer;             /* HEAD_LENGTH + CHUNK bytes */
    wanzoche_activation *list;
    uint32_t list_capacity;
    _Atomic int files[MOST_FILES]; /* descriptors of the journal's files; 0 for none */
    wanzoche_store_news news[NEWS]; /* what wasn't told yet, from its place on */
    unsigned news_at;
    _Atomic unsigned news_count;
    uint64_t device;
    char path[4096];
    char name[256], beside_name[NAME_SIZE];
    char message[WANZOCHE_STORE_MESSAGE];
    struct wanzoche_store *next, *previous; /* all openings of this process, for forks */
};

typedef struct wanzoche_store store;

/* The code of what went well and isn't an answer yet. */
#define DONE UINT32_MAX
static const wanzoche_answer done = {DONE, 0};

/* trouble.c: why something can't be done. Each is false, and leaves `trouble` and the message. Under the lock. */
bool refuse(store *s, uint32_t code, uint64_t number, const char *format, ...) __attribute__((format(printf, 4, 5)));
bool refuse_by_system(store *s, const char *what);        /* by errno; `what` is as "can't be read" */
bool refuse_for_memory(store *s);
bool give_up_store(store *s, uint32_t code, uint64_t number, const char *format, ...) __attribute__((format(printf, 4, 5)));
wanzoche_answer fault_of(const store *s); /* of one that is over, with its words */

/* When a call began, and up to when it waits for its turn. */
struct limit {
    uint64_t begun, until;
};

/* words.c: locks and words to sleep at. */
bool lock_until(_Atomic uint32_t *lock, uint64_t until);
void unlock(_Atomic uint32_t *lock);
uint64_t deadline(int64_t milliseconds);
uint64_t deadline_from(uint64_t time, int64_t milliseconds);
uint64_t later(uint64_t one, uint64_t other);
uint64_t sooner(uint64_t one, uint64_t other);
void give_way(void);

/* presence.c: who is alive. */
bool arrive(store *s, uint32_t number);
void depart(store *s, uint32_t number);
bool is_gone(store *s, uint32_t number);
bool has_others(store *s);

/* files.c: files of the store. */
int above_streams(int file);
int open_beside_others(int folder, const char *name, int flags, mode_t mode);
void give_access(int file, const struct stat *like, bool is_page);
bool write_whole(int file, const char *text, size_t length);
bool find_file(store *s, const char *file);
void archive_name(const store *s, uint64_t segment, char name[NAME_SIZE]);
int sync_folder(const store *s);
bool meets_here(store *s, int file);
struct lines *open_lines(store *s, const char *name, int flags, mode_t mode, uint64_t segment);
struct lines *hold(struct lines *file);
void let_go(struct lines *file);

/* page.c: the file beside the journal. */
bool open_page(store *s, uint64_t until);
char *stored_declaration(store *s);
uint64_t place_of_process(const store *s, uint32_t worker);

/* journal.c: following lines. */
bool break_at(store *s, uint64_t line, const char *text, size_t length, const char *why);
void write_reply(char *to, size_t size, wanzoche_answer reply);
bool follow(store *s, uint64_t to);
bool follow_ahead(store *s);
void glance_at_file(store *s, uint64_t time);
bool catch_up(store *s, bool has_to_look);
bool mend(store *s, uint64_t size);

/* How many bytes of the journal are followed. */
static inline uint64_t journal_end(const store *s) {
    return s->replica.base + s->replica.at;
}

/* ring.c: following attempts that others have made. */
void put_attempt(store *s, struct answered attempt);
void find_place(store *s);
bool follow_ring(store *s);

/* settle.c: what a crash has left. */
bool settle(store *s);
uint64_t count_archives(store *s, uint64_t inode, bool *is_half_moved);
bool has_one_name(store *s);

/* append.c: writing lines. */
bool write_start(store *s, uint32_t operation, wanzoche_answer *answer);
bool write_finish(store *s, uint32_t worker, uint64_t activation, wanzoche_answer *answer);
bool write_use(store *s, uint64_t activation, uint32_t verb, uint64_t number, wanzoche_answer *answer);
char *put_number(char *at, uint64_t number);

/* rotate.c: beginning another file. */
bool has_room(store *s, uint32_t places, bool *has);
bool rotate_file(store *s);
bool finish_rotation(store *s);

/* turn.c: who may append. */
wanzoche_answer begin_turn(store *s, struct limit limit);
void end_turn(store *s);
void leave_duty(store *s);
struct limit turn_limit(int64_t milliseconds);
struct limit turn_limit_from(uint64_t time, int64_t milliseconds);

/* waiting.c: who waits. */
bool has_slots(const store *s);
int claim_slot(store *s);
void publish_slot(store *s, int slot, uint32_t state);
uint32_t free_slot(store *s, int slot, uint32_t worker);
void announce(store *s);
bool bury(store *s, bool slots);
bool list_live(store *s, uint32_t *count);
uint32_t count_waiting(store *s, uint32_t operation);

/* order.c: who comes next. */
uint64_t caller_of(uint32_t said);
void note_held(store *s, uint64_t activation, uint64_t caller);
void forget_held(store *s, uint64_t activation);
bool withholds(store *s, uint64_t time);
void list_firsts(store *s, struct firsts *firsts);
int withheld_for(store *s, const struct asker *asker, uint64_t time);
uint64_t opens_at(const store *s, int slot, uint64_t time);
bool is_to_be_called(store *s, const struct firsts *firsts, unsigned at, uint64_t time);
bool is_before(const struct slot *one, uint32_t priority, uint64_t ticket);
bool waits(uint32_t word);
void stand(store *s, int slot, const struct asker *asker);
void tell_waiter(store *s, const struct slot *slot, uint64_t time, wanzoche_store_waiter *waiter);

/* sync.c: what is on the disk. */
struct written {
    struct lines *file; /* null if nothing was written */
    uint64_t end;
};

/* who.c: what is told. */
void add_news(store *s, uint32_t kind, uint32_t worker, uint32_t operation, uint64_t number);

/* enter.c: attempts. */
void begin_record(record *r, uint32_t operation, uint32_t priority, bool looks);
bool try_in_turn(store *s, record *r, uint64_t until, wanzoche_answer *answer, struct written *written);
void give_up(store *s, record *r);
wanzoche_answer leave(store *s, uint64_t activation, struct limit limit, bool may_owe, struct written *written);

/* sleeping.c: until one may ask again. */
uint32_t sleep_in_slot(store *s, record *r, uint64_t until, bool ends_by_signal);
void ring_bell(store *s);

/* ask.c: what is asked. */
void look(store *s, struct written *written);
uint64_t process_of(store *s, uint32_t worker);
struct written note_written(store *s);
wanzoche_answer wait_for_sync(store *s, struct written written, wanzoche_answer answer);

/* opening.c, closing.c, forks.c: an opening. */
void take_apart(store *s);
wanzoche_answer come_in(store *s, int *cancel);
void go_out(store *s, int cancel);
bool add_to_forks(store *s);
void take_from_forks(store *s);

#endif
