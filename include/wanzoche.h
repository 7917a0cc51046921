/*
** Wanzoche: path expressions, for C.
**
** A declaration says beside a resource in which order its operations may
** run, as `path deposit ; remove end`. A system of it admits or refuses each
** start:
**
**     wanzoche w = WANZOCHE_CLOSED_HANDLE;
**     const char *text =
**         "resource slot cell operation deposit, remove"
**         " path deposit ; remove end end";
**     char why[WANZOCHE_MESSAGE];
**     if (wanzoche_open(&w, text, strlen(text), 4096, why, sizeof why).code
**         != WANZOCHE_OPENED) { puts(why); exit(1); }
**     uint32_t deposit = (uint32_t)wanzoche_operation(&w, "deposit", 7);
**     wanzoche_answer a = wanzoche_start(&w, 1, deposit);
**     if (a.code == WANZOCHE_STARTED) {
**         .. the caller's own work ..
**         wanzoche_finish(&w, 1, a.number);
**     }
**     wanzoche_close(&w);
**
** Nothing here waits: a start that the paths forbid is answered by
** WANZOCHE_BLOCKED. To wait until a start is admitted, use
** wanzoche_monitor.h. What declarations, attempts and journals are is in
** docs/language.md, docs/attempts.md and docs/journals.md.
**
** ANSWERS. Each call that can fail returns a code and a number. No call ends
** the program or writes to a stream. A bad argument, a null pointer, a closed
** handle and want of memory are answers.
**
** HANDLES. The caller owns the struct `wanzoche`: it may lie on the stack,
** in a static variable or in a struct of the caller. It is
** WANZOCHE_CLOSED_HANDLE, or all bytes zero, before it is opened. Only the
** functions below change it, and no field is read. An open handle may be
** moved by copying the struct if the old copy isn't used again.
**
** THREADS. A handle is for one thread at a time, which need not be the
** thread that opened it. Calls on one handle are ordered by a lock of the
** caller, or by the start or the join of a thread. Calls on different
** handles need no order, nor do wanzoche_audit, wanzoche_explore and
** wanzoche_explain.
**
** FORKS AND SIGNALS. No function is called from a signal handler. The child of
** a process with one thread has a copy of each handle, which is its own. The
** child of one with several threads calls no function on a handle that was
** open at the fork, since a thread that isn't there may have been in a call. It
** may open others where the C library lets it call malloc, as glibc and musl
** do.
**
** MEMORY. A call allocates by the program's malloc, realloc and free, and
** only these calls do: wanzoche_open, wanzoche_open_without_journal,
** wanzoche_resume, wanzoche_resume_without_journal, wanzoche_take_over,
** wanzoche_journal, wanzoche_report, wanzoche_declaration, wanzoche_audit,
** wanzoche_explore, wanzoche_explain, and the first wanzoche_may_start or
** wanzoche_next on an open handle. If it gets no memory it answers
** WANZOCHE_OUT_OF_MEMORY, keeps nothing, and the handle is as it was. A start,
** a use, a finish and a rotation never lack memory.
**
** TEXTS. A text that comes in is a pointer and a length, need not end with a
** zero byte, and isn't kept. A text that goes out ends with a zero byte,
** which its length doesn't count. A length or a size says how many bytes
** there are at the pointer. A buffer lies apart from the texts that come in
** with it, and from the handle.
*/
#ifndef WANZOCHE_H
#define WANZOCHE_H

#include <stdbool.h>
#include <stddef.h>
#include <stdint.h>

#ifdef __cplusplus
extern "C" {
#endif

/*
** The version of this header. That of the library that a program runs with is
** wanzoche_version.
*/
#define WANZOCHE_VERSION "0.1.0"

/*
** Stands before each call whose answer decides how the caller goes on: gcc and
** clang warn where it is dropped, and to other compilers it is nothing. Define
** it as nothing before this header to have no such warning. What ends or closes
** something has none: it refuses only numbers that the caller has mixed up.
*/
#ifndef WANZOCHE_CHECKED
#if defined(__GNUC__) || defined(__clang__)
#define WANZOCHE_CHECKED __attribute__((warn_unused_result))
#else
#define WANZOCHE_CHECKED
#endif
#endif

/*
** A system, or nothing. The fields are private.
*/
typedef struct wanzoche {
    void *at;
    bool live;
} wanzoche;

#define WANZOCHE_CLOSED_HANDLE {0, false}

/*
** What a call answers. The number is 0 where the code says nothing of it.
*/
typedef struct wanzoche_answer {
    uint32_t code;
    uint64_t number;
} wanzoche_answer;

/*
** A live activation: its number, who started it, and which operation.
*/
typedef struct wanzoche_activation {
    uint64_t number;
    uint32_t worker;
    uint32_t operation;
} wanzoche_activation;

/*
** The record of one operation, begun by wanzoche_begin and ended by
** wanzoche_end. All bytes are zero before it is begun first, and only these
** two functions change it. While `live` is true the operation is in progress,
** `number` is its activation, and `worker` who began it: what wanzoche_use
** needs.
*/
typedef struct wanzoche_record {
    uint64_t number;
    uint32_t worker;
    bool live;
} wanzoche_record;

/*
** One who waits for a start, for wanzoche_may_start and wanzoche_next.
*/
typedef struct wanzoche_waiter {
    uint32_t operation; /* what it waits for */
    uint32_t priority;  /* higher ones come first; 0 is the usual one */
    uint64_t arrived;   /* when it came, by the caller's clock, in any unit */
    uint64_t shut_at;   /* starts of those who arrived later than this are
                           withheld for it; UINT64_MAX: of nobody */
} wanzoche_waiter;

/*
** How much of a journal's text wanzoche_take_over has taken over.
*/
typedef struct wanzoche_taken {
    uint64_t lines;       /* how many lines were taken, from the first on */
    uint64_t bytes;       /* in how many bytes of the text whole lines stand */
    wanzoche_answer owed; /* behind WANZOCHE_WRONG_LINE the reply that was owed
                             to that line's attempt; else two zeros */
} wanzoche_taken;

/*
** The codes of answers. They never change their numbers.
*/
enum {
    WANZOCHE_CLOSED = 0,             /* the handle is closed, or null */

    /* Replies to attempts: each takes a line of the journal, but not NO_ROOM */
    WANZOCHE_STARTED = 1,            /* admitted; number: the activation */
    WANZOCHE_BLOCKED = 2,            /* number: the first path that forbids it */
    WANZOCHE_UNKNOWN_OPERATION = 3,  /* no operation has this number */
    WANZOCHE_USED = 4,               /* number: what the device answered */
    WANZOCHE_NOT_OFFERED = 5,        /* the device doesn't offer this verb */
    WANZOCHE_EMPTY = 6,              /* the queue is empty */
    WANZOCHE_FULL = 7,               /* the queue is full */
    WANZOCHE_OVERFLOW = 8,           /* the total would be above 2^64 - 1 */
    WANZOCHE_DEVICE_FAILED = 9,      /* only in texts: no device here fails */
    WANZOCHE_FINISHED = 10,          /* the activation is over */
    WANZOCHE_STALE = 11,             /* no live activation has this number */
    WANZOCHE_NOT_YOURS = 12,         /* the activation is another worker's */
    WANZOCHE_NO_ROOM = 13,           /* rotate, and try again */

    WANZOCHE_NO_VERB = 14,           /* the verb is none of those below */
    WANZOCHE_CAN_START = 15,         /* no path forbids a start now */
    WANZOCHE_ROTATED = 16,           /* the room counts anew */
    WANZOCHE_WRITTEN = 17,           /* number: the length of the text */
    WANZOCHE_TOO_SMALL = 18,         /* number: the length of the text */
    WANZOCHE_OPENED = 19,            /* the handle was opened */
    WANZOCHE_ALREADY_OPEN = 20,      /* the handle is open, and stays so */
    WANZOCHE_BAD_ROOM = 21,          /* the room is 0 or above the most */
    WANZOCHE_OUT_OF_MEMORY = 22,     /* an allocation failed */
    WANZOCHE_NO_JOURNAL = 28,        /* the handle keeps no lines */

    /* Verdicts on a journal, and why it isn't one; number: the line, from 0 */
    WANZOCHE_SOUND = 23,             /* each reply was owed; no number */
    WANZOCHE_WRONG_LINE = 24,        /* the first line with a reply not owed */
    WANZOCHE_JOURNAL_TOO_LONG = 25,  /* above 134,217,728 bytes; no number */
    WANZOCHE_BAD_LINE = 26,          /* the first line that isn't one */
    WANZOCHE_UNDECLARED_LINE = 27,   /* it names an operation not declared */

    /* Why a text isn't a declaration; number: where in it, in bytes from 0 */
    WANZOCHE_TOO_LONG = 32,          /* above 65,536 bytes; no number */
    WANZOCHE_BAD_BYTE = 33,          /* no word or sign begins with it */
    WANZOCHE_WORD_TOO_LONG = 34,     /* above 32 bytes */
    WANZOCHE_NUMBER_TOO_LONG = 35,   /* above 9 digits */
    WANZOCHE_UNEXPECTED = 36,        /* something else has to stand there */
    WANZOCHE_TOO_DEEP = 37,          /* it opens the 33rd parenthesis or brace */
    WANZOCHE_DUPLICATE_RESOURCE = 38,
    WANZOCHE_DUPLICATE_OPERATION = 39,
    WANZOCHE_UNDECLARED = 40,        /* not an operation of the resource */
    WANZOCHE_REPEATED_NAME = 41,     /* the path has this name already */
    WANZOCHE_NESTED_BRACES = 42,
    WANZOCHE_BAD_CAPACITY = 43,      /* a queue's: 1 to 1,024 */
    WANZOCHE_BAD_COUNT = 44,         /* of braces: 1 to 65,535 */
    WANZOCHE_TOO_MANY = 45,          /* resources, operations, paths or names */

    WANZOCHE_TAKEN = 46,             /* all whole lines were taken over */

    /* What all schedules of a script come to */
    WANZOCHE_ALL_DONE = 47,          /* number: the states looked at */
    WANZOCHE_STALLS = 48,            /* number: the length of the journal */
    WANZOCHE_REFUSED = 49,           /* number: the length of the journal */
    WANZOCHE_UNDECIDED = 50,         /* number: the states looked at */

    /* Why a text isn't a script; number: the line, from 0 */
    WANZOCHE_SCRIPT_TOO_LONG = 51,   /* above 262,144 bytes; no number */
    WANZOCHE_SCRIPT_BAD_LINE = 52,   /* not one, or none that can come there */
    WANZOCHE_SCRIPT_UNDECLARED = 53, /* it enters an operation not declared */
    WANZOCHE_SCRIPT_UNBALANCED = 54, /* it uses, leaves or ends wrongly */
    WANZOCHE_SCRIPT_TOO_DEEP = 55,   /* it enters a 17th operation at once */
    WANZOCHE_SCRIPT_TOO_MANY = 56,   /* a 17th process, or a 4,097th step */

    /* Who comes next among those who wait */
    WANZOCHE_WITHHELD = 57,          /* number: the place of whom it is withheld for */
    WANZOCHE_NEXT = 58,              /* number: the place of who comes next */
    WANZOCHE_NOBODY = 59             /* nobody who waits may start now */
};

/*
** The verbs of a use. What each device answers to which is in
** docs/devices.md: a cell has PUT and LOOK, a tally LOOK and ADD, a queue PUT,
** TAKE and LOOK.
*/
enum {
    WANZOCHE_PUT = 0,  /* puts a number in */
    WANZOCHE_TAKE = 1, /* takes a number out */
    WANZOCHE_LOOK = 2, /* looks at a number, which stays */
    WANZOCHE_ADD = 3   /* adds to the total */
};

/*
** The most lines that a journal may have room for, the most operations that a
** text may declare, and a size that is enough for each message: that of
** wanzoche_explore may have a line for each of 16 processes.
*/
#define WANZOCHE_MOST_LINES 1048576
#define WANZOCHE_MOST_OPERATIONS 256
#define WANZOCHE_MESSAGE 64
#define WANZOCHE_STANDINGS 1280

/*
** Open a handle: a system of the declaration in a text, in which nothing has
** been attempted. Each resource gets a device: a cell or a tally that has 0
** in it, or an empty queue. A service whose resource is its own declares a
** cell and leaves it.
**
** The room is how many lines the journal takes between two rotations, 1 to
** WANZOCHE_MOST_LINES. Each attempt that isn't answered by WANZOCHE_NO_ROOM
** takes one, and room is kept for the finish of each live activation. All
** memory is taken now: for each line of the room 144 bytes, and for each
** queue its capacity.
**
** WANZOCHE_OPENED       the handle is open
** WANZOCHE_ALREADY_OPEN the handle was open, and is as it was
** WANZOCHE_TOO_LONG .. WANZOCHE_TOO_MANY
**                       the text isn't a declaration; the first fault counts
** WANZOCHE_BAD_ROOM     the text is a declaration, and the room isn't one
** WANZOCHE_OUT_OF_MEMORY, WANZOCHE_CLOSED (the handle is null)
**
** Unless it answers WANZOCHE_OPENED, the handle is as it was. The message is
** in words what the answer says, as "unexpected at 8", cut to the size of
** its buffer, and empty if the handle was opened or is null. If there is no
** memory to write it, it is "out of memory". It may be null.
*/
WANZOCHE_CHECKED
wanzoche_answer wanzoche_open(wanzoche *handle, const char *text, size_t length,
                              uint32_t room, char *message, size_t size);

/*
** Open a handle as wanzoche_open does, with the same answers and messages, but
** without a journal: for a service that keeps no log. A start and a finish
** are quicker, and no rotation is needed.
**
** The room is that of what is live, 1 to WANZOCHE_MOST_LINES: at most room - 1
** activations at once. Only a start beyond these is answered by
** WANZOCHE_NO_ROOM, and a start after 4,294,967,295 others. All memory is
** taken now: for each place of the room 32 bytes, and for each queue its
** capacity.
**
** Starts, uses and finishes get the same replies as with a journal that has
** room for them. wanzoche_report, wanzoche_list_live, wanzoche_can_start and
** all other calls answer as ever, but for what needs lines:
** wanzoche_journal answers WANZOCHE_NO_JOURNAL, and wanzoche_lines is 0.
** wanzoche_rotate answers WANZOCHE_ROTATED and changes nothing. What happened
** can't be audited or explained afterwards.
*/
WANZOCHE_CHECKED
wanzoche_answer wanzoche_open_without_journal(wanzoche *handle,
                                              const char *text, size_t length,
                                              uint32_t room, char *message,
                                              size_t size);

/*
** Close a handle, and give all its memory back, whatever is live. A handle
** that is closed or null stays so: a second close does nothing. A closed
** handle may be opened again.
*/
void wanzoche_close(wanzoche *handle);

/*
** The number of the operation with this name: operations count from 0, in the
** order of the text. -1 if no operation has it, or the handle is closed.
** Looks the name up in a table.
*/
WANZOCHE_CHECKED
int64_t wanzoche_operation(wanzoche *handle, const char *name, size_t length);

/*
** Start an operation for a worker. A worker is a number of the caller's
** choice: a thread, a connection, a user. It may have any number of live
** activations.
**
** WANZOCHE_STARTED  the operation is in progress; the number is that of its
**                   activation, which wanzoche_finish gets; they count from 0
** WANZOCHE_BLOCKED  the number is that of the first path, in the order of the
**                   text from 0, that forbids the start now; it stays
**                   forbidden until something finishes
** WANZOCHE_UNKNOWN_OPERATION, WANZOCHE_CLOSED
** WANZOCHE_NO_ROOM  the journal hasn't two places left, for this line and its
**                   finish, or 4,294,967,295 starts were admitted; without a
**                   journal: as many activations are live as there may be
*/
WANZOCHE_CHECKED
wanzoche_answer wanzoche_start(wanzoche *handle, uint32_t worker,
                               uint32_t operation);

/*
** Use the device of the resource whose operation a live activation of the
** worker is. The number is what PUT puts and ADD adds; other verbs don't look
** at it.
**
** WANZOCHE_USED     the number is the device's answer: of a cell the number
**                   before, of a tally the total, of a queue the number
**                   taken or looked at, or how many it has after PUT
** WANZOCHE_NOT_OFFERED, WANZOCHE_EMPTY, WANZOCHE_FULL, WANZOCHE_OVERFLOW
**                   nothing changed in the device
** WANZOCHE_NO_VERB  whatever the handle is; nothing changed
** WANZOCHE_STALE, WANZOCHE_NOT_YOURS, WANZOCHE_NO_ROOM, WANZOCHE_CLOSED
*/
WANZOCHE_CHECKED
wanzoche_answer wanzoche_use(wanzoche *handle, uint32_t worker,
                             uint64_t activation, uint32_t verb,
                             uint64_t number);

/*
** Finish a live activation of the worker. There is always room for that.
**
** WANZOCHE_FINISHED  the activation is over
** WANZOCHE_STALE     no live activation has this number, as after its finish
** WANZOCHE_NOT_YOURS another worker has it
** WANZOCHE_NO_ROOM   it isn't the worker's own live activation, and there is no
**                    room to say so
** WANZOCHE_CLOSED
*/
wanzoche_answer wanzoche_finish(wanzoche *handle, uint32_t worker,
                                uint64_t activation);

/*
** Start and finish an operation as above, with its activation kept in a record
** of the caller, which is written before the call returns. So nothing is lost
** if the caller's own flow can be cut off between a call and the store of its
** answer, as it can in languages where a signal raises an exception.
**
** wanzoche_begin returns the codes of wanzoche_start. If it is
** WANZOCHE_STARTED the operation is in progress; else the record's `number` is
** that of the answer. If the record's operation is in progress already,
** nothing is started, the record is as it was, and the code is
** WANZOCHE_NOT_YOURS.
**
** wanzoche_end returns WANZOCHE_FINISHED once, and WANZOCHE_STALE if the
** record's operation isn't in progress. It is over, too, if the handle was
** closed meanwhile: WANZOCHE_CLOSED. The record may then be begun again.
**
** A null record is answered by WANZOCHE_STALE.
*/
WANZOCHE_CHECKED
uint32_t wanzoche_begin(wanzoche *handle, uint32_t worker, uint32_t operation,
                        wanzoche_record *record);
uint32_t wanzoche_end(wanzoche *handle, wanzoche_record *record);

/*
** The answers that wanzoche_start, wanzoche_use and wanzoche_finish would give
** to the same arguments now. No attempt is made: no line is written, and nothing
** changes. So a caller can put the line on a disk first, and then make the
** attempt, which gets this reply if no other call came between.
*/
WANZOCHE_CHECKED
wanzoche_answer wanzoche_owed_start(wanzoche *handle, uint32_t worker,
                                    uint32_t operation);
WANZOCHE_CHECKED
wanzoche_answer wanzoche_owed_use(wanzoche *handle, uint32_t worker,
                                  uint64_t activation, uint32_t verb,
                                  uint64_t number);
WANZOCHE_CHECKED
wanzoche_answer wanzoche_owed_finish(wanzoche *handle, uint32_t worker,
                                     uint64_t activation);

/*
** Take over lines that were answered elsewhere, as by another process that
** keeps the same log: each moves the system as if it had answered so here.
** Nothing is taken whose reply isn't owed by all lines before it.
**
** The text is that of a journal, of any version, and may end anywhere: what
** follows the last whole line, with its line feed, is left for a later call,
** and `taken->bytes` says where that is. A first line that names a room is
** passed over; lines that begin with `+` need one of version 3.
**
** WANZOCHE_TAKEN      all whole lines were taken; the number says how many
** WANZOCHE_WRONG_LINE the number is that of the first line, from 0, whose reply
**                     isn't owed; `taken->owed` says which is. Those before it
**                     were taken, and no other. A line that says `device
**                     failed` is right wherever the device would have served
** WANZOCHE_JOURNAL_TOO_LONG, WANZOCHE_BAD_LINE, WANZOCHE_UNDECLARED_LINE
**                     the text isn't a journal: a broken line has a whole one
**                     behind it, or names what isn't declared; here a first
**                     line that names the room counts. Nothing was taken
** WANZOCHE_OUT_OF_MEMORY, WANZOCHE_CLOSED
**                     nothing was taken
**
** The lines are kept as those of the handle's own attempts are, and take room
** as they do. `taken` may be null.
*/
WANZOCHE_CHECKED
wanzoche_answer wanzoche_take_over(wanzoche *handle, const char *text,
                                   size_t length, wanzoche_taken *taken);

/*
** Open a handle that goes on behind a journal: a system that answers from then
** on as the one that wrote these lines would. What was live there is live,
** under its number, and the devices have what they had.
**
** The first text is the declaration, and the second a journal under it, of any
** version, which may end anywhere, as in wanzoche_take_over. A room that it
** names counts instead of `room`. wanzoche_resume_without_journal opens a handle
** as wanzoche_open_without_journal does; then any number of lines goes into any
** room that has places for what was live at once.
**
** WANZOCHE_OPENED     the number says in how many bytes of the journal whole
**                     lines stand: cut it there, and append to it
** WANZOCHE_WRONG_LINE, WANZOCHE_JOURNAL_TOO_LONG, WANZOCHE_BAD_LINE,
** WANZOCHE_UNDECLARED_LINE
**                     as in wanzoche_take_over; a line above the room is wrong
** all others          as of wanzoche_open
**
** Unless it answers WANZOCHE_OPENED, the handle is as it was. The message is
** that of wanzoche_open, or of wanzoche_audit, or "wrong line 3".
*/
WANZOCHE_CHECKED
wanzoche_answer wanzoche_resume(wanzoche *handle, const char *text,
                                size_t length, uint32_t room,
                                const char *journal, size_t journal_length,
                                char *message, size_t size);
WANZOCHE_CHECKED
wanzoche_answer wanzoche_resume_without_journal(wanzoche *handle,
                                                const char *text,
                                                size_t length, uint32_t room,
                                                const char *journal,
                                                size_t journal_length,
                                                char *message, size_t size);

/*
** Whether a start of this operation would be admitted now, but for the room.
** Takes no line of the journal.
**
** WANZOCHE_CAN_START, WANZOCHE_BLOCKED, WANZOCHE_UNKNOWN_OPERATION,
** WANZOCHE_CLOSED
*/
WANZOCHE_CHECKED
wanzoche_answer wanzoche_can_start(wanzoche *handle, uint32_t operation);

/*
** Whether a start of this operation may go now, by those who wait. A monitor
** asks so: who must wait stands in a list of the caller's, by priority and then
** by arrival, and who asks stands before all of lower priority and behind the
** others. One who waits and asks again passes only those before it.
**
** `waiting` is those who wait, in their order. `running` is the operations in
** progress of those who don't wait, each as often as it is in progress, but
** without those of who asks. What isn't known is left out: then more may go
** past those who wait, and nobody waits in vain.
**
** A start is withheld for one who waits, stands before it, and has a `shut_at`
** below `arrived`, if a path names both operations, the waiter's start would
** be admitted if all that `running` has were over, and this start stands in
** its way: behind it the waiter's wouldn't be admitted then, or this one takes
** what one of their paths has free for it now.
**
** WANZOCHE_CAN_START  it may, and a start now would be admitted but for the
**                     room
** WANZOCHE_BLOCKED    the number is that of the first path that forbids it
** WANZOCHE_WITHHELD   the number is the place in `waiting`, from 0, of the one
**                     for whom it is withheld
** WANZOCHE_UNKNOWN_OPERATION, WANZOCHE_CLOSED, WANZOCHE_OUT_OF_MEMORY
** WANZOCHE_NO_ROOM    4,294,967,295 starts were admitted
**
** No attempt is made, and nothing changes that another call sees. The two
** lists aren't kept; a null one is empty. An operation in them that isn't
** declared is one that no path names. The first call on an open handle
** takes memory, which wanzoche_close gives back. Where somebody stands before
** it, the cost is that of two gates' values, of a finish for each in `running`,
** and of a look at the paths for each in `waiting`; else that of
** wanzoche_can_start.
*/
WANZOCHE_CHECKED
wanzoche_answer wanzoche_may_start(wanzoche *handle, uint32_t operation,
                                   uint32_t priority, uint64_t arrived,
                                   const wanzoche_waiter *waiting,
                                   size_t waiters, const uint32_t *running,
                                   size_t count);

/*
** Who comes next among those who wait: the first of them whose start is
** neither forbidden by a path nor withheld for one before it. The lists are
** those of wanzoche_may_start; `running` has all that is in progress for those
** who don't wait. Nothing is started: wake that one, who asks by
** wanzoche_may_start. Ask at each finish, when one that has something in
** progress begins to wait, when one waits no longer, and behind each start
** while others wait.
**
** WANZOCHE_NEXT       the number is its place in `waiting`, from 0
** WANZOCHE_NOBODY     each of them has to wait on, or nobody waits
** WANZOCHE_CLOSED, WANZOCHE_OUT_OF_MEMORY, WANZOCHE_NO_ROOM
**                     as of wanzoche_may_start
**
** The cost is that of wanzoche_may_start for each one before it whose start no
** path forbids.
*/
WANZOCHE_CHECKED
wanzoche_answer wanzoche_next(wanzoche *handle, const wanzoche_waiter *waiting,
                              size_t waiters, const uint32_t *running,
                              size_t count);

/*
** How many lines the journal has, how many activations are live, and how many
** places of the room are left beside those of the lines and of the finishes
** to come: a start needs two, and a use one. 0 if the handle is closed. Without
** a journal there are no lines.
*/
size_t wanzoche_lines(wanzoche *handle);
uint32_t wanzoche_live(wanzoche *handle);
uint32_t wanzoche_room_left(wanzoche *handle);

/*
** How many operations are declared: their numbers are those below it. 0 if the
** handle is closed.
*/
uint32_t wanzoche_operations(wanzoche *handle);

/*
** Write the live activations to a list, in the order of their starts, as far as
** they fit: as many as `capacity` says, which counts activations, not bytes.
** Returns how many are live, also if fewer fit; 0 if the handle is closed. A
** null list has no place. The system is as it was, and so is what is behind the
** activations in the list. The cost is that of those that are written.
*/
uint32_t wanzoche_list_live(wanzoche *handle, wanzoche_activation *list,
                            uint32_t capacity);

/*
** Write the text of the journal, the lines since the last rotation, to a
** buffer, each with its line feed: docs/journals.md has their form.
**
** WANZOCHE_WRITTEN   the text and a zero byte are in the buffer
** WANZOCHE_TOO_SMALL the text and a zero byte need number + 1 bytes, and the
**                    buffer is as it was
** WANZOCHE_NO_JOURNAL the handle was opened without one; the buffer is as it
**                    was
** WANZOCHE_OUT_OF_MEMORY, WANZOCHE_CLOSED; the buffer is as it was
**
** A null buffer has no bytes. The system is as it was. The cost is that of the
** text, also if the buffer is too small.
*/
WANZOCHE_CHECKED
wanzoche_answer wanzoche_journal(wanzoche *handle, char *buffer, size_t size);

/*
** Give the lines so far up, and count the room anew. What is live stays live
** under its number, and devices keep what they have. To keep a log, take the
** lines by wanzoche_journal first. Takes constant time and no memory.
**
** WANZOCHE_ROTATED, WANZOCHE_CLOSED
*/
wanzoche_answer wanzoche_rotate(wanzoche *handle);

/*
** The same, if the journal has exactly so many lines: those that the caller
** has put into a log while others went on. Unless it is null, `rotations` is
** one more before the call returns, for a caller that can be cut off there.
**
** WANZOCHE_ROTATED, WANZOCHE_CLOSED
** WANZOCHE_TOO_SMALL  there are more or fewer lines: the number says how many,
**                     and nothing changed
*/
WANZOCHE_CHECKED
wanzoche_answer wanzoche_rotate_at(wanzoche *handle, size_t lines,
                                   uint64_t *rotations);

/*
** Write a report to a buffer, with the answers of wanzoche_journal but for
** WANZOCHE_NO_JOURNAL: a line
** `startable` with the operations that can be started, a line `blocked NAME P`
** for each other one with the first path that forbids it, a line
** `live A W NAME` for each live activation with its number and its worker, and
** `frozen yes` if nothing is live and nothing can ever be started again, or
** `frozen no`.
*/
WANZOCHE_CHECKED
wanzoche_answer wanzoche_report(wanzoche *handle, char *buffer, size_t size);

/*
** Write the text of the declaration to a buffer, with the answers of
** wanzoche_report: one line with its line feed, the words and signs in their
** order, with parentheses only where they are needed, and a space between two
** but none before `,`, `;` and `:`. So path P is what stands between the word
** `path` with P others before it and the next `end`.
*/
WANZOCHE_CHECKED
wanzoche_answer wanzoche_declaration(wanzoche *handle, char *buffer,
                                     size_t size);

/*
** Audit a journal: replay its text under the declaration in another text. It
** needs no handle, and the log may be any program's. Each cell and tally had 0
** in it at first, and each queue was empty. If the journal begins with a line
** `journal 2 room N`, N is its room, and else `room` is.
**
** WANZOCHE_SOUND      each reply was owed by the lines before it
** WANZOCHE_WRONG_LINE the number is that of the first line that wasn't, from
**                     0, not counting a first line that names the room
** WANZOCHE_JOURNAL_TOO_LONG, WANZOCHE_BAD_LINE, WANZOCHE_UNDECLARED_LINE
**                     the text isn't a journal; here a first line that names
**                     the room counts
** WANZOCHE_TOO_LONG .. WANZOCHE_TOO_MANY
**                     the first text isn't a declaration
** WANZOCHE_BAD_ROOM   the journal names no room, and `room` isn't one
** WANZOCHE_OUT_OF_MEMORY
**
** The message is that of wanzoche_open, behind `declaration: ` or `journal: `
** if it is of a text, as "journal: bad line 1", and empty after a verdict.
*/
WANZOCHE_CHECKED
wanzoche_answer wanzoche_audit(const char *declaration, size_t length,
                               uint32_t room, const char *journal,
                               size_t journal_length, char *message,
                               size_t size);

/*
** Look at every schedule of a script under a declaration, as `pathsys explore`
** does: whether each of them ends done, or one stalls, where somebody waits
** and nobody can go on, or one has a step refused, as a `take` from an empty
** queue. It needs no handle, and starts no thread. docs/exploring.md says what
** a schedule is, and docs/scripts.md what a script is.
**
** WANZOCHE_ALL_DONE   every schedule ends done; the number is how many states
**                     were looked at
** WANZOCHE_STALLS, WANZOCHE_REFUSED
**                     the journal of a shortest schedule that goes wrong and a
**                     zero byte are in the buffer: the text that `pathsys
**                     explore` writes; the number is its length
** WANZOCHE_UNDECIDED  there are more than `most` states, which is the number
** WANZOCHE_TOO_SMALL  a journal could need number + 1 bytes, and the buffer has
**                     fewer: 8 for each byte of the script, 2,097,152 at most,
**                     and 65 more. Nothing was searched
** WANZOCHE_TOO_LONG .. WANZOCHE_TOO_MANY
**                     the first text isn't a declaration
** WANZOCHE_SCRIPT_TOO_LONG .. WANZOCHE_SCRIPT_TOO_MANY
**                     it is one, and the second text isn't a script under it
** WANZOCHE_OUT_OF_MEMORY
**
** A null buffer has no bytes, so a call with one says at once which size is
** enough. Only WANZOCHE_STALLS and WANZOCHE_REFUSED change the buffer.
**
** With these two the message has a line for each process, in the order of the
** script: its name, `: `, and `done`, `under way`, `stalled NAME` with the
** operation for which it waits, or `faulted REPLY`. WANZOCHE_STANDINGS bytes
** are enough. Else it is that of wanzoche_open, behind `declaration: ` or
** `script: ` if it is of a text, as "script: undeclared in line 1", and empty
** after WANZOCHE_ALL_DONE and WANZOCHE_UNDECIDED.
**
** The time is that of the states: a step of each process in each. So is the
** memory, which is given back: 8 bytes for each process, semaphore, counter and
** operation, for each resource and each number that it contains, and some 40
** more. Nothing stops the search but `most`: choose it by the time that there
** is.
*/
WANZOCHE_CHECKED
wanzoche_answer wanzoche_explore(const char *declaration, size_t length,
                                 const char *script, size_t script_length,
                                 uint32_t most, char *journal,
                                 size_t journal_size, char *message,
                                 size_t size);

/*
** Say in words for people why a text isn't a declaration: what `pathsys check`
** writes on standard error, with `declaration` in place of the file's name.
** That is the line and the column, counted from 1, and what is wrong; the line
** with a mark below the place; and where it is known what could stand there,
** the nearest name that is declared, and the likely slip:
**
**     declaration:3:16: this isn't an operation of the path's resource
**     path deposit ; remov end end
**                    ^^^^^
**     expected an operation that the resource declares
**     nearest name: remove
**
** No program should read these words; they may change. It needs no handle.
**
** WANZOCHE_WRITTEN    the text and a zero byte are in the buffer; the number
**                     is its length, 0 if the text is a declaration
** WANZOCHE_TOO_SMALL  the buffer stays; it needs number + 1 bytes
** WANZOCHE_OUT_OF_MEMORY
*/
WANZOCHE_CHECKED
wanzoche_answer wanzoche_explain(const char *text, size_t length, char *buffer,
                                 size_t size);

/*
** A code in words, as "blocked"; "no such code" if it is none. The text is
** constant.
*/
const char *wanzoche_words(uint32_t code);

/*
** The version of the library, as "0.1.0". The text is constant.
*/
const char *wanzoche_version(void);

#ifdef __cplusplus
}
#endif
#endif
