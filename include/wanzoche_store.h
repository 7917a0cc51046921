/*
** Wanzoche: path expressions that the processes of a machine share, for C.
**
** Each process opens the same file. Then an operation begins in any of them
** exactly when the paths allow it, whatever is in progress in the others:
**
**     wanzoche_store *store;
**     char why[WANZOCHE_STORE_MESSAGE];
**     const char *text = "resource pool cell operation query, backup"
**                        " path { query : 3 } , backup end end";
**     if (wanzoche_store_open(&store, "/var/lib/app/pool.log", text,
**                             strlen(text), NULL, 5000, why, sizeof why).code
**         != WANZOCHE_OPENED) { puts(why); exit(1); }
**     uint32_t query = (uint32_t)wanzoche_store_operation(store, "query", 5);
**     wanzoche_answer a = wanzoche_store_enter(store, query, 1000);
**     if (a.code == WANZOCHE_STARTED) {
**         .. the caller's own work ..
**         wanzoche_store_leave(store, a.number, -1);
**     }
**     wanzoche_store_close(store, -1);
**
** docs/store.md says what lies in the folder, what holds when a process dies,
** and what isn't there. Only on Linux, and on a disk of the machine.
**
** LIMITS. Each call that may wait has a time limit in milliseconds: -1 for
** none, and 0 for a try. It returns within the limit and 60 ms, whoever is
** stopped or dies, but for what the disk and a busy machine take. A limit
** below 45 still leaves a call 45 ms for its turn at the file.
**
** ANSWERS. As in wanzoche.h: a code and a number. wanzoche_store_message has
** words for what went wrong last. Whatever a call answers, each operation in
** progress is known by its number, the activation, which rises with each start
** over all processes and is never given again: it is the token with which a
** resource refuses a late writer.
**
** THREADS. All calls of an opened store may come from any thread at any time.
** While wanzoche_store_close runs, others that wait are answered by
** WANZOCHE_CLOSED; no call may come when it has begun, but for those that come
** behind wanzoche_store_stop. No call is a cancellation point, and none is made in
** a signal handler. A signal ends only wanzoche_store_wait and
** wanzoche_store_listen.
**
** OTHER LANGUAGES, whose signals raise exceptions, whose tasks aren't threads, and
** whose loops may not sleep, have what they need from wanzoche_store_begin on.
**
** FORKS. The child of a fork has no part in the store: each call answers
** WANZOCHE_FORKED, and only wanzoche_store_close does something, which is to
** give some memory back. It may open the store itself.
*/
#ifndef WANZOCHE_STORE_H
#define WANZOCHE_STORE_H

#include "wanzoche.h"

#ifdef __cplusplus
extern "C" {
#endif

/* One opening of a store. */
typedef struct wanzoche_store wanzoche_store;

/* How a store is opened. All bytes zero is the usual way, and so is a null
** pointer. */
typedef struct wanzoche_store_options {
    bool no_sync;   /* answers don't wait for the disk: what processes that die
                       had answered is known, but after a loss of power the last
                       lines may be missing */
    bool keep_lost; /* what dead processes have in progress stays, until
                       wanzoche_store_recover; else whoever finds it in the way
                       finishes it. Give all processes the same */
    bool is_strict; /* newcomers never pass those who wait, from the first moment */
    int64_t patience; /* so many milliseconds one waits before newcomers don't
                       pass it any more; 5 for 0, and they always may if it is
                       negative */
    uint32_t room;  /* how many lines a file gets before the next is begun,
                       where the journal is made: 1 to WANZOCHE_MOST_LINES, and
                       that for 0. A journal that is there keeps its own */
} wanzoche_store_options;

/* The codes of a store's answers, behind those of wanzoche.h. They never change
** their numbers. */
enum {
    WANZOCHE_LATE = 64,              /* no turn was to be had in time; nothing changed */
    WANZOCHE_OWED = 65,              /* whoever has the next turn finishes it */
    WANZOCHE_SYSTEM = 66,            /* the system refused; number: its errno */
    WANZOCHE_IN_USE = 67,            /* others have the file who don't share it so */
    WANZOCHE_OTHER_DECLARATION = 68, /* the store was made with another one */
    WANZOCHE_NOT_A_STORE = 69,       /* what lies there isn't one, or is incomplete */
    WANZOCHE_CORRUPT = 70,           /* number: the line, from 1, or 0 if none is meant */
    WANZOCHE_UNSYNCED = 71,          /* a sync failed; number: the errno of that */
    WANZOCHE_FORKED = 72,            /* it is the parent's */
    WANZOCHE_ALIVE = 73,             /* the worker isn't dead */
    WANZOCHE_RECOVERED = 74,         /* number: how many were finished */
    WANZOCHE_COUNTED = 75,           /* number: how many there are */
    WANZOCHE_CALLED = 76,            /* it may ask again */
    WANZOCHE_INTERRUPTED = 77,       /* a signal came, or wanzoche_store_ring */
    WANZOCHE_SYNCED = 78,            /* it is on the disk, if the store is synced */
    WANZOCHE_LOST = 79               /* others have finished it */
};

/* A size that is enough for each message of a store. */
#define WANZOCHE_STORE_MESSAGE 512

/*
** Open a store: the journal in a file, which is made if there is none. The
** declaration is that of the text. The file is known by what it is: a symbolic
** link to it is the same store, and one that has a second hard link is refused.
** Beside it lies FILE.shared, at which the processes meet.
**
** WANZOCHE_OPENED      *store is the opening, which wanzoche_store_close ends
** WANZOCHE_IN_USE      one process has it to itself, as `pathsys follow`, or those
**                      of an older Python package have it open; or it is open
**                      where it has another file beside it
** WANZOCHE_OTHER_DECLARATION
**                      the message says where the two differ first
** WANZOCHE_NOT_A_STORE the file isn't a journal of version 3, FILE.shared isn't
**                      what lies beside one, a file is gone or shorter than it
**                      was, or it has several names; the message says which
** WANZOCHE_CORRUPT     a line isn't owed by those before it, or isn't a line
** WANZOCHE_SYSTEM      the system refuses something
** WANZOCHE_LATE        the time is over
** WANZOCHE_TOO_LONG .. WANZOCHE_TOO_MANY, WANZOCHE_BAD_ROOM
**                      as of wanzoche_open
** WANZOCHE_OUT_OF_MEMORY
**
** Unless it answers WANZOCHE_OPENED, *store is null. The message may be null; it
** is empty if the store was opened. The cost is that of reading the whole
** journal, also what was moved away, while others go on; and of a turn.
*/
WANZOCHE_CHECKED
wanzoche_answer wanzoche_store_open(wanzoche_store **store, const char *file, const char *text, size_t length,
                                    const wanzoche_store_options *options, int64_t limit, char *message, size_t size);

/*
** Write the text of the declaration of a store that is there, as its processes
** have it: what wanzoche_store_open wants, where a program doesn't know it. The
** store isn't opened for that, and nothing of it changes; the right to read
** FILE.shared will do.
**
** WANZOCHE_WRITTEN, WANZOCHE_TOO_SMALL
**                      as of wanzoche_declaration
** WANZOCHE_SYSTEM      the system refuses something: ENOENT if there is no
**                      FILE.shared
** WANZOCHE_NOT_A_STORE what lies there isn't what lies beside a journal
** WANZOCHE_OUT_OF_MEMORY
**
** The message is as of wanzoche_store_open. WANZOCHE_TOO_SMALL has none.
*/
WANZOCHE_CHECKED
wanzoche_answer wanzoche_store_declaration(const char *file, char *buffer, size_t size, char *message, size_t message_size);

/*
** End an opening: finishes what it has in progress, in all threads, and gives
** everything back. Others see it as gone. A null store is none.
**
** WANZOCHE_CLOSED  all is finished, and on the disk if the store is synced
** all others       it is closed too, but not all could be finished or synced in
**                  time; others finish what is left, as that of the dead
*/
wanzoche_answer wanzoche_store_close(wanzoche_store *store, int64_t limit);

/*
** Begin an operation, when the paths allow it, and nobody who waits comes first.
** Those who wait stand in one order, over all processes: a higher priority comes
** first, and then who came first; wanzoche_store_enter has 0. When one of them has
** waited for its patience, starts of those behind it are withheld if they would
** stand in its way, as wanzoche_may_start says. Each 0.2 s its door opens for those
** who came meanwhile. What a thread has in progress while it waits itself isn't
** waited for. A start that is withheld has no line in the journal.
**
** WANZOCHE_STARTED  it is in progress, in the journal, and on the disk unless
**                   the store isn't synced; the number is its activation
** WANZOCHE_BLOCKED  the time is over; the number is the first path that forbade
**                   it when it was asked for last
** WANZOCHE_WITHHELD the time is over, and no path forbade it then: the number is
**                   the operation for which it was withheld, and the message says
**                   of whom and since when
** WANZOCHE_LATE     no turn was to be had in time
** WANZOCHE_NO_ROOM  too much is in progress: 65,535 operations of all processes
**                   at most, or as the room says
** WANZOCHE_SYSTEM   its line can't be written; it wasn't begun
** WANZOCHE_UNKNOWN_OPERATION, WANZOCHE_CORRUPT, WANZOCHE_UNSYNCED,
** WANZOCHE_FORKED, WANZOCHE_CLOSED, WANZOCHE_OUT_OF_MEMORY
**
** After WANZOCHE_UNSYNCED nobody can say what is on the disk: each call of this
** opening answers so, and the store has to be opened again.
*/
WANZOCHE_CHECKED
wanzoche_answer wanzoche_store_enter(wanzoche_store *store, uint32_t operation, int64_t limit);
WANZOCHE_CHECKED
wanzoche_answer wanzoche_store_enter_with_priority(wanzoche_store *store, uint32_t operation, uint32_t priority, int64_t limit);

/*
** End an operation of this opening, begun in any of its threads.
**
** WANZOCHE_FINISHED it is over
** WANZOCHE_OWED     the time is over; whoever has the next turn finishes it, also
**                   if this process is dead by then
** WANZOCHE_STALE, WANZOCHE_NOT_YOURS
**                   it isn't in progress, or another's; others may have finished
**                   it by wanzoche_store_recover
** WANZOCHE_SYSTEM   its line can't be written: it is in progress; leave it again
** WANZOCHE_LATE     as WANZOCHE_OWED, but nobody knows of it: leave it again
** WANZOCHE_CORRUPT, WANZOCHE_UNSYNCED, WANZOCHE_FORKED, WANZOCHE_CLOSED,
** WANZOCHE_OUT_OF_MEMORY
*/
wanzoche_answer wanzoche_store_leave(wanzoche_store *store, uint64_t activation, int64_t limit);

/*
** Use the device of an operation in progress: the verbs and the answers are
** those of wanzoche_use. The line of what was served is on the disk unless the
** store isn't synced. Other codes as of wanzoche_store_leave.
*/
WANZOCHE_CHECKED
wanzoche_answer wanzoche_store_use(wanzoche_store *store, uint64_t activation, uint32_t verb, uint64_t number, int64_t limit);

/*
** Whether the paths would allow the operation now.
**
** WANZOCHE_CAN_START, WANZOCHE_BLOCKED (number: the first path that forbids it),
** WANZOCHE_UNKNOWN_OPERATION, WANZOCHE_LATE, others as of wanzoche_store_enter
*/
WANZOCHE_CHECKED
wanzoche_answer wanzoche_store_can_start(wanzoche_store *store, uint32_t operation, int64_t limit);

/*
** Write a report, as wanzoche_report does, and behind it a line `lost A W NAME`
** for each operation of a dead worker, `waiting NAME N` for each operation for
** which somebody waits in any process, and `process W PID` for each worker that
** has something in progress: the number that its process gave itself.
**
** WANZOCHE_WRITTEN, WANZOCHE_TOO_SMALL as of wanzoche_report; others as of
** wanzoche_store_enter
*/
WANZOCHE_CHECKED
wanzoche_answer wanzoche_store_report(wanzoche_store *store, char *buffer, size_t size, int64_t limit);

/*
** How many wait for an operation, in all processes and threads.
**
** WANZOCHE_COUNTED, WANZOCHE_UNKNOWN_OPERATION, WANZOCHE_FORKED, WANZOCHE_CLOSED
*/
WANZOCHE_CHECKED
wanzoche_answer wanzoche_store_waiting(wanzoche_store *store, uint32_t operation);

/*
** Finish what a dead worker has in progress.
**
** WANZOCHE_RECOVERED the number says how many that were
** WANZOCHE_ALIVE     the worker is alive, and `even_alive` is false. With it
**                    what it has is finished all the same, and it gets
**                    WANZOCHE_STALE: only right if what it guards refuses late
**                    writers by their token
** others             as of wanzoche_store_leave
*/
WANZOCHE_CHECKED
wanzoche_answer wanzoche_store_recover(wanzoche_store *store, uint32_t worker, bool even_alive, int64_t limit);

/*
** Move the file of the journal away, to FILE.1, FILE.2 and so on, and begin the
** next, if it has any lines. The store does so by itself when its room is used
** up. WANZOCHE_ROTATED, or as of wanzoche_store_leave: then nothing was moved.
*/
wanzoche_answer wanzoche_store_rotate(wanzoche_store *store, int64_t limit);

/*
** Write all lines of the journal so far, also those that were moved away,
** without marks and without heads. WANZOCHE_WRITTEN, WANZOCHE_TOO_SMALL as of
** wanzoche_journal; others as of wanzoche_store_enter. Others go on meanwhile.
*/
WANZOCHE_CHECKED
wanzoche_answer wanzoche_store_journal(wanzoche_store *store, char *buffer, size_t size, int64_t limit);

/*
** Read all lines of the journal again, each of which has to be owed by those
** before it. WANZOCHE_SOUND, or WANZOCHE_CORRUPT, which leaves the store as it
** is; others as of wanzoche_store_enter. Others go on meanwhile.
*/
WANZOCHE_CHECKED
wanzoche_answer wanzoche_store_audit(wanzoche_store *store, int64_t limit);

/* The number of the operation with this name, as wanzoche_operation says it. */
WANZOCHE_CHECKED
int64_t wanzoche_store_operation(wanzoche_store *store, const char *name, size_t length);

/* Who this opening is in the journal: a number that is never given again. 0 for
** a null store. */
uint32_t wanzoche_store_worker(const wanzoche_store *store);

/*
** Write in words why the last call of this thread failed that failed, of any
** store, cut to the size of the buffer; nothing if none did.
*/
void wanzoche_store_message(wanzoche_store *store, char *buffer, size_t size);

/* One who waits. */
typedef struct wanzoche_store_waiter {
    uint32_t operation, priority;
    uint32_t worker;  /* of which opening */
    uint32_t caller;  /* who it is there, as its record says; 0 if it has none */
    uint64_t waited;  /* for how many milliseconds */
    uint64_t process; /* the number that its process gave itself; 0 if it isn't known */
} wanzoche_store_waiter;

/*
** Who begins an operation by steps, waits for it, has it in progress, or has ended
** it. All bytes are zero before it is begun first, and only these calls write it. It
** stays where it is while it waits or is live.
*/
typedef struct wanzoche_store_record {
    uint64_t number;   /* its activation while it is live, and after that */
    uint64_t answered; /* the number of the last answer */
    uint32_t caller; /* who has begun it last, or tried to */
    bool is_live;    /* whether it is in progress */
    bool is_waiting; /* whether it stands among those that wait */
    bool looks, rings;
    uint32_t operation, priority, place, is_busy;
    uint64_t ticket, arrived, opens, looks_at, end;
    wanzoche_store_waiter behind; /* after WANZOCHE_WITHHELD: for whom */
} wanzoche_store_record;

/* The caller of a record where a program doesn't know it, as of work that moves
** between threads. */
#define WANZOCHE_NO_CALLER UINT32_MAX

/* Whether one that isn't admitted is to wait. */
enum {
    WANZOCHE_TRY = 0,    /* it doesn't wait, or not any more */
    WANZOCHE_WAIT = 1,   /* it stands among those that wait, and sleeps by wanzoche_store_wait */
    WANZOCHE_LISTEN = 2  /* the same, and another thread listens for it by wanzoche_store_listen */
};

/*
** Try once to begin an operation, in one turn, without a wait for another's
** finish or for the disk. What is begun stands in the record before the call
** returns: nothing is lost if the caller's own flow is cut off there, as where a
** signal raises an exception. The limit is that of the wait for the turn alone: 0
** if it may not sleep for that at all.
**
** The caller is a task or a thread, by a number of the program's choice; 0 is this
** thread of the system. What a caller has in progress isn't waited for while it
** waits. What WANZOCHE_NO_CALLER begins is known of nobody, so it counts as running
** also while whoever has it waits, who may wait for who waits for it, until a door
** opens.
**
** WANZOCHE_STARTED  it is live. Tell nobody of it before wanzoche_store_sync
** WANZOCHE_BLOCKED, WANZOCHE_WITHHELD
**                   if it is to wait, it stands among those that wait: sleep, and
**                   begin it again. Else it doesn't wait any more
** WANZOCHE_LATE     no turn was to be had in time; the record is as it was
** WANZOCHE_NOT_YOURS
**                   it is live already, or another thread has the record in a
**                   call; nothing changed
** WANZOCHE_STALE    the record is null
** others            as of wanzoche_store_enter; it isn't live, and doesn't wait
*/
WANZOCHE_CHECKED
wanzoche_answer wanzoche_store_begin(wanzoche_store *store, uint32_t operation, uint32_t priority, uint32_t caller, uint32_t waits,
                                     wanzoche_store_record *record, int64_t limit);

/*
** Sleep until one that waits may ask again.
**
** WANZOCHE_CALLED      begin it again. It isn't always admitted then
** WANZOCHE_INTERRUPTED a signal has come; it keeps its place
** WANZOCHE_LATE        so many milliseconds are over; likewise
** WANZOCHE_STALE       it doesn't wait
** WANZOCHE_NOT_YOURS, WANZOCHE_CLOSED, WANZOCHE_FORKED
*/
WANZOCHE_CHECKED
wanzoche_answer wanzoche_store_wait(wanzoche_store *store, wanzoche_store_record *record, int64_t limit);

/*
** Call a record that waits: wanzoche_store_wait answers WANZOCHE_CALLED in the thread
** that sleeps by it, or is about to. So any thread can end what another does by steps:
** it says so where that one looks after each step, and then wakes its record. This
** ends no wait for a turn, so such steps have limits.
**
** A record that doesn't wait stays as it is. It has to be there until the call has
** returned; a null one is none.
*/
void wanzoche_store_wake(wanzoche_store *store, wanzoche_store_record *record);

/*
** Sleep until one of these may ask again, of those that were begun with
** WANZOCHE_LISTEN. One thread does so for all tasks of a program; while it does,
** others may begin and end these records, but not give their memory back.
**
** WANZOCHE_CALLED      the number is the place of the record in the array, from 0
** WANZOCHE_INTERRUPTED wanzoche_store_ring was called since `heard` was written
**                      last, which is done now; or a signal has come
** WANZOCHE_LATE        so many milliseconds are over
** WANZOCHE_CLOSED, WANZOCHE_FORKED
**
** Whoever has begun another record, or again one that still waits, rings. So the
** loop of a program is: listen for what there is; if it was rung, gather again what
** there is.
*/
WANZOCHE_CHECKED
wanzoche_answer wanzoche_store_listen(wanzoche_store *store, wanzoche_store_record *const *records, size_t count, uint32_t *heard,
                                      int64_t limit);
void wanzoche_store_ring(wanzoche_store *store);

/*
** End what stands in a record: the operation, if it is live, without a wait for the
** disk; and else its waiting. The limit is as of wanzoche_store_begin.
**
** WANZOCHE_FINISHED, WANZOCHE_OWED
**                   as of wanzoche_store_leave. With a limit of 0 it answers
**                   WANZOCHE_LATE in place of WANZOCHE_OWED
** WANZOCHE_STALE    it wasn't live; it doesn't wait any more
** WANZOCHE_LOST     others have finished it before, by wanzoche_store_recover
** WANZOCHE_SYSTEM, WANZOCHE_LATE, WANZOCHE_OUT_OF_MEMORY
**                   it is live: end it again
** others            it is over for this process
**
** WANZOCHE_NOT_YOURS, and the record is as it was, if another thread has it in a
** call.
*/
wanzoche_answer wanzoche_store_end(wanzoche_store *store, wanzoche_store_record *record, int64_t limit);

/*
** Wait until what was last begun or ended by a record is on the disk: as those calls
** wait that have no record. WANZOCHE_SYNCED, or WANZOCHE_UNSYNCED and others as of
** wanzoche_store_enter.
*/
WANZOCHE_CHECKED
wanzoche_answer wanzoche_store_sync(wanzoche_store *store, const wanzoche_store_record *record);

/*
** End what is live in a record, unless that is null, and then begin and end an
** operation if it is admitted, all in one turn: no line of another comes between.
** Behind a record it is withheld for nobody who waits.
**
** WANZOCHE_STARTED  the number is that of its activation, which is over
** WANZOCHE_BLOCKED, WANZOCHE_WITHHELD
**                   it wasn't begun
** others            as of wanzoche_store_end for the record; then it wasn't begun
*/
WANZOCHE_CHECKED
wanzoche_answer wanzoche_store_pass(wanzoche_store *store, uint32_t operation, wanzoche_store_record *record, int64_t limit);

/*
** Whether a start of one who comes now would be admitted: as
** wanzoche_store_can_start, but also WANZOCHE_WITHHELD, with for whom. The caller is
** as of a record.
*/
WANZOCHE_CHECKED
wanzoche_answer wanzoche_store_may_start(wanzoche_store *store, uint32_t operation, uint32_t priority, uint32_t caller,
                                         wanzoche_store_waiter *behind, int64_t limit);

/*
** Tell who waits, in all processes, in their order. WANZOCHE_COUNTED, and the first
** of them, as many as there is room for, are in the array; others as of
** wanzoche_store_enter.
*/
WANZOCHE_CHECKED
wanzoche_answer wanzoche_store_list_waiting(wanzoche_store *store, wanzoche_store_waiter *waiting, size_t room, int64_t limit);

/* What an opening has done by itself: it has finished an operation of a dead worker,
** or moved the journal's file away. */
enum { WANZOCHE_FINISHED_LOST = 1, WANZOCHE_MOVED = 2 };
typedef struct wanzoche_store_news {
    uint32_t kind, worker, operation;
    uint64_t number; /* the activation; or what the file's new name ends with */
} wanzoche_store_news;

/* The next of these that wasn't told yet: false if there is none, or another thread
** is in its turn. It sleeps for nothing, and keeps the last 64. */
WANZOCHE_CHECKED
bool wanzoche_store_next_news(wanzoche_store *store, wanzoche_store_news *news);

/* A number that is another one when a line was written since, or somebody has begun
** or ceased to wait. It needs no turn. 0 if the opening is over. */
uint64_t wanzoche_store_stamp(wanzoche_store *store);

/* The descriptor by which others see that this opening is alive: it counts so as
** long as a process has it, as one that a program has begun with it. -1 if the
** opening is over. */
int wanzoche_store_presence(const wanzoche_store *store);

/*
** End an opening as wanzoche_store_close does, with the same answers, but keep its
** memory: calls of other threads may come still, and get WANZOCHE_CLOSED.
** wanzoche_store_close gives the memory back then.
*/
wanzoche_answer wanzoche_store_stop(wanzoche_store *store, int64_t limit);

#ifdef __cplusplus
}
#endif
#endif
