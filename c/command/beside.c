/* The file beside a store's journal (c/store/page.h), as who only looks on reads it: with the right to read alone, and without a lock. */
#include <string.h>

#include "../store/page.h"
#include "command.h"

/* Whether nobody has a lock on these bytes. */
static bool is_free(int file, int64_t at, int64_t length) {
    struct flock asked;
    return lock_bytes(file, F_OFD_GETLK, F_RDLCK, at, length, &asked) == 0 && asked.l_type == F_UNLCK;
}

/* Whether a worker has ended or died. */
bool is_gone_beside(int file, uint32_t worker) {
    return is_free(file, WORKER_BYTES + worker, 1);
}

/* The number that a worker's process gave itself; 0 if it isn't known. */
uint64_t process_beside(int file, uint32_t worker) {
    uint64_t process = 0, place = SHARED_SIZE + (uint64_t)worker * sizeof process;
    uint32_t length = 0;
    if (read_at(file, &length, sizeof length, offsetof(struct page, declaration)) != sizeof length) return 0;
    place += (length + UINT64_C(7)) / 8 * 8;
    return read_at(file, &process, sizeof process, place) == sizeof process ? process : 0;
}

/* Reads so many bytes of the page, from its begin. What can't be read of it is 0. */
static const struct page *read_page(int file, size_t length) {
    static struct page page;
    if (read_at(file, &page, length, 0) < (ssize_t)length) memset(&page, 0, sizeof page);
    return &page;
}

/* Whether anybody has a slot. */
static bool has_slots(const struct page *page) {
    uint64_t used = 0;
    for (int k = 0; k < SLOTS / 64; k++) used |= page->used[k];
    return used != 0;
}

/* How many wait for each operation. While any worker is alive, some may be counted that were killed. */
void count_beside(int file, uint32_t counts[WANZOCHE_MOST_OPERATIONS]) {
    const struct page *page;
    memset(counts, 0, WANZOCHE_MOST_OPERATIONS * sizeof *counts);
    if (!has_slots(read_page(file, offsetof(struct page, called))) || is_free(file, WORKER_BYTES, 0)) return;
    page = read_page(file, sizeof *page);
    for (int k = 0; k < SLOTS; k++) {
        const struct slot *slot = &page->slots[k];
        uint32_t state = slot->word & SLOT_STATE;
        if ((page->used[k / 64] >> k % 64 & 1) == 0 || slot->operation >= WANZOCHE_MOST_OPERATIONS) continue;
        if (state == SLOT_WAITING || state == SLOT_CALLED) counts[slot->operation]++;
    }
}

/* A number that is another one when a line was written, or somebody has begun or ceased to wait. */
uint64_t stamp_beside(int file) {
    const struct page *page = read_page(file, offsetof(struct page, called));
    uint64_t sum = page->end * 31 + page->tickets;
    for (int k = 0; k < SLOTS / 64; k++) sum = sum * UINT64_C(1099511628211) + page->used[k];
    return sum;
}
