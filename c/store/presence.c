/*
** Who is alive: locks of the open file beside the journal, one byte for each
** number. The kernel takes them off when the process dies, however that comes.
** A lock is asked for by a reader's: only those of who may write are in its way,
** so nobody who may only read looks alive.
*/
#include <unistd.h>

#include "store.h"

bool arrive(store *s, uint32_t number) {
    struct flock asked;
    uint64_t process = (uint64_t)getpid();
    if (lock_bytes(s->beside, F_OFD_SETLK, F_WRLCK, WORKER_BYTES + number, 1, &asked) != 0) return refuse_by_system(s, "can't be locked");
    /* On a full disk the number of its process isn't known: nobody needs it to go on. */
    if (number < FIRST_OPENER && write_at(s->beside, &process, sizeof process, place_of_process(s, number)) < 0) return true;
    return true;
}

void depart(store *s, uint32_t number) {
    struct flock asked;
    lock_bytes(s->beside, F_OFD_SETLK, F_UNLCK, WORKER_BYTES + number, 1, &asked);
}

/* Whether the opening of this number is dead. It isn't where the system doesn't say. */
bool is_gone(store *s, uint32_t number) {
    struct flock asked;
    if (number == s->me || number == s->worker) return false; /* a lock of one's own is in nobody's way */
    return lock_bytes(s->beside, F_OFD_GETLK, F_RDLCK, WORKER_BYTES + number, 1, &asked) == 0 && asked.l_type == F_UNLCK;
}

bool has_others(store *s) {
    struct flock asked;
    return lock_bytes(s->beside, F_OFD_GETLK, F_RDLCK, WORKER_BYTES, 0, &asked) != 0 || asked.l_type != F_UNLCK;
}
