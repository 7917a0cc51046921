/* Locks among threads, times, and words to sleep at. */
#include "store.h"

/*
** The lock is 0 if it is free, 1 if somebody has it, and 2 if somebody may sleep
** for it, too. Who has slept takes it with 2, since others may sleep still. Who is
** late has set 2 before it asks for the time: so whoever has the lock wakes another
** one in its place, and no waking is lost with it. A signal only makes the loop
** ask again.
*/
bool lock_until(_Atomic uint32_t *lock, uint64_t until) {
    uint32_t free = 0;
    if (atomic_compare_exchange_strong(lock, &free, 1)) return true;
    while (atomic_exchange(lock, 2) != 0) {
        if (now() >= until) return false;
        futex_wait(lock, 2, until, FUTEX_PRIVATE);
    }
    return true;
}

void unlock(_Atomic uint32_t *lock) {
    if (atomic_exchange(lock, 0) == 2) futex_wake(lock, 1, FUTEX_PRIVATE);
}

uint64_t deadline_from(uint64_t time, int64_t milliseconds) {
    if (milliseconds < 0 || (uint64_t)milliseconds > NEVER / MILLISECOND / 2) return NEVER;
    return time + (uint64_t)milliseconds * MILLISECOND;
}

uint64_t deadline(int64_t milliseconds) {
    return deadline_from(now(), milliseconds);
}

uint64_t later(uint64_t one, uint64_t other) {
    return one > other ? one : other;
}

uint64_t sooner(uint64_t one, uint64_t other) {
    return one < other ? one : other;
}

void give_way(void) {
#if defined(__x86_64__)
    __asm__ volatile("pause");
#elif defined(__aarch64__)
    __asm__ volatile("yield");
#endif
}
