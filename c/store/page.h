/*
** The page that all processes map, in FILE.shared. All numbers in it that others look at outside of
** a turn are atomic, and all accesses are sequentially consistent: the few that
** could be weaker aren't what a turn costs. What is written in a turn alone is
** plain: the exchange of the turn's word orders it.
**
** WORKERS. Each opening has a number, which is never given again, and a lock on
** the byte of this number, which the kernel takes off when it dies. So a number
** whose byte is free is dead for ever, and a word that has it can be exchanged
** for another without fear that it has come back meanwhile.
**
** Behind the page lies the ring of attempts, of which ring.c says how it is
** written and read, and behind that the declaration (page.c).
*/
#ifndef WANZOCHE_STORE_PAGE_H
#define WANZOCHE_STORE_PAGE_H

#include <stdatomic.h>
#include <stddef.h>
#include <stdint.h>

#include "system.h"
#include "wanzoche.h"

/* The turn's word: who has it, whether somebody sleeps for it, and whether
** whoever has it has a duty before it gives it. 0 if nobody has it. */
#define TURN_DUTY (UINT32_C(1) << 31)
#define TURN_WAIT (UINT32_C(1) << 30)
#define TURN_OWNER (TURN_WAIT - 1)

/* Numbers of workers are below the first of these; an opening that has none yet
** has one above, for its first turn. */
#define FIRST_OPENER (UINT32_C(1) << 29)

/* A slot's word: its state, and whose it is. 0 if it is free. */
enum { SLOT_CLAIMED = 1, SLOT_WAITING = 2, SLOT_CALLED = 3, SLOT_OWED = 4, SLOT_STATE = 7 };
#define SLOT_OF(worker, state) ((worker) << 3 | (state))
#define SLOT_WORKER(word) ((word) >> 3)

#define SLOTS 1024
#define OPERATIONS WANZOCHE_MOST_OPERATIONS
#define ROOM UINT32_C(65536)              /* of what is in progress, of all processes together */
#ifndef SLICE
#define SLICE (40 * MILLISECOND) /* after so long who sleeps looks for the dead */
#endif
#define PATIENCE (45 * MILLISECOND)       /* so long a call waits for its turn, whatever its limit */
#define CHUNK ((size_t)1 << 20)
#define HEAD "journal 3 room 1048576\n"   /* what lines are offered to the core behind */
#define HEAD_LENGTH (sizeof HEAD - 1)
#define NAME_SIZE 300

/* The bytes that are locked, far behind the end of the file beside the journal:
** one for openings, and those of the workers; and in the journal itself, which
** file lies beside it. Older Python packages have theirs there, so that each sees
** whether the other has the store open. */
#define OPENING_BYTE (INT64_C(1) << 40)
#define WORKER_BYTES (INT64_C(1) << 41)
#define BESIDE_BYTES (INT64_C(1) << 41)
#define MOST_BESIDE (INT64_C(1) << 40)

#define PAGE_VERSION 3
#define BELLS 512 /* openings share them by their numbers */
#define PAGE_VERSION_OF_PYTHON 1
#define PAGE_VERSION_WITHOUT_RING 2

#define HELD 2
#define HELD_ALL UINT16_MAX

struct slot {
    _Atomic uint32_t word; /* a futex: its owner sleeps here */
    uint32_t operation;
    uint64_t ticket;     /* who waits longest has the lowest */
    union {
        uint64_t activation; /* what is to be finished, of SLOT_OWED */
        uint64_t caller;     /* who it is that waits, in its process */
    };
    uint64_t arrived;
    uint64_t shuts;      /* when starts are withheld for it; NEVER: none is */
    uint32_t priority;
    uint16_t helds;      /* how much of what its thread has in progress stands here; HELD_ALL: all that its process has is meant */
    uint8_t is_shut;     /* whether its start was withheld when it asked last: then it asks again by itself */
    uint8_t rings;       /* whether its opening's bell is rung with it, at which one sleeps who listens for many */
    uint64_t held[HELD];
};

/* What a rotation is about to say when the file has its name. */
struct rotation {
    uint64_t segment, base, end, inode;
};

struct page {
    char magic[8];
    uint32_t version, declaration; /* and how long the declaration behind the slots is */
    char boot[48];                 /* of which start of the machine `end` is */
    /* 64 */
    _Alignas(64) _Atomic uint32_t turn; /* a futex */
    /* 128: written in a turn */
    _Alignas(64) _Atomic uint64_t end; /* so many bytes of the journal are lines that count, of all its files together */
    _Atomic uint64_t segment;          /* how many of its files were moved away */
    _Atomic uint64_t inode;            /* which file it is now */
    uint64_t base;                     /* how many bytes those have that were moved away */
    uint64_t tickets;
    uint64_t workers;                  /* the last number that was given */
    _Atomic uint32_t is_ready;         /* 0 until the first turn since nobody had it open */
    _Atomic uint32_t is_rotating;      /* 1 while `next` counts */
    _Atomic uint64_t attempts;         /* how many were put into the ring */
    /* 192: outside of turns */
    _Alignas(64) _Atomic uint64_t synced; /* so many bytes of it are on the disk */
    _Atomic uint64_t named;               /* the names of so many of its files are, and all of these but the last */
    _Atomic uint32_t syncer;              /* who syncs, as the turn's word: a futex */
    _Atomic uint32_t openers;
    _Atomic uint64_t looked;              /* when somebody looked for the dead last */
    struct rotation next;
    /* 256: who waits */
    _Alignas(64) _Atomic uint64_t used[SLOTS / 64]; /* a bit for each slot that has something to say */
    uint16_t called[OPERATIONS];                    /* of each operation the slot, + 1, of who was called and hasn't asked */
    _Alignas(64) _Atomic uint32_t bells[BELLS];     /* futexes: each is another number when one was called whose opening listens */
    _Alignas(4096) struct slot slots[SLOTS];
};

#ifndef ATTEMPTS
#define ATTEMPTS UINT64_C(65536) /* so many of the last ones stand in the ring */
#endif

/* What an attempt in the ring was answered. */
enum {
    ATTEMPT_STARTED = 1,
    ATTEMPT_FINISHED = 2,
    ATTEMPT_IN_FILE = 3 /* the lines up to its end have to be read there */
};

struct attempt {
    _Atomic uint32_t kind, worker, operation, unused;
    _Atomic uint64_t number; /* the activation; of ATTEMPT_IN_FILE in which file of the journal its end is, as `segment` */
    _Atomic uint64_t end;    /* so many bytes of the journal are lines that count with it, as the page's `end` */
};

#define RING_SIZE (ATTEMPTS * sizeof(struct attempt))
#define SHARED_SIZE (sizeof(struct page) + RING_SIZE) /* what is mapped */

_Static_assert(sizeof(struct attempt) == 32, "as other builds have it");
_Static_assert(sizeof(struct slot) == 64, "a line of the cache");
_Static_assert(offsetof(struct page, turn) == 64 && offsetof(struct page, end) == 128, "as other builds have it");
_Static_assert(offsetof(struct page, attempts) == 184, "as other builds have it");
_Static_assert(offsetof(struct page, synced) == 192 && offsetof(struct page, used) == 256, "as other builds have it");
_Static_assert(offsetof(struct page, called) == 384 && offsetof(struct page, bells) == 896, "as other builds have it");
_Static_assert(offsetof(struct page, slots) == 4096, "as other builds have it");
_Static_assert(sizeof(struct page) == 69632, "as other builds have it");
_Static_assert(ATOMIC_INT_LOCK_FREE == 2 && ATOMIC_LONG_LOCK_FREE == 2, "other processes don't see a lock");

#endif
