/*
** The calls of the system that the store makes, and its clock.
**
** The tests build the store with WANZOCHE_STORE_POINTS: then each call passes a
** point, at which a test may end or stop the process, or have the call refused.
*/
#ifndef WANZOCHE_STORE_SYSTEM_H
#define WANZOCHE_STORE_SYSTEM_H

#include <errno.h>
#include <fcntl.h>
#include <stdatomic.h>
#include <stdbool.h>
#include <stdint.h>
#include <stdio.h>
#include <sys/file.h>
#include <sys/stat.h>
#include <sys/syscall.h>
#include <time.h>
#include <unistd.h>

#ifdef WANZOCHE_STORE_POINTS
/* What a test defines: 0, or the errno with which the call is refused; of a
** write also -1: only half of it is written, and the process is killed. */
int wanzoche_store_point(const char *call);
void wanzoche_store_torn(void);
#else
static inline int wanzoche_store_point(const char *call) {
    (void)call;
    return 0;
}
static inline void wanzoche_store_torn(void) {}
#endif

/* Whether the call goes on; else errno says why not. */
static inline bool goes_on(const char *call) {
    int error = wanzoche_store_point(call);
    if (error > 0) errno = error;
    return error <= 0;
}

/* As linux/futex.h has them, which isn't beside each C library. */
#define FUTEX_WAKE 1
#define FUTEX_WAIT_BITSET 9
#define FUTEX_PRIVATE 128

#define MILLISECOND UINT64_C(1000000)
#define NEVER UINT64_MAX

/* The time of the monotonic clock, in nanoseconds: the same for all processes
** of a machine. */
static inline uint64_t now(void) {
    struct timespec t;
    clock_gettime(CLOCK_MONOTONIC, &t);
    return (uint64_t)t.tv_sec * 1000000000u + (uint64_t)t.tv_nsec;
}

static inline struct timespec time_of(uint64_t at) {
    struct timespec t = {(time_t)(at / 1000000000u), (long)(at % 1000000000u)};
    return t;
}

/* Whether a signal has ended the pause. */
static inline bool pause_for(uint64_t nanoseconds) {
    struct timespec t = time_of(nanoseconds);
    return nanosleep(&t, NULL) != 0;
}

/* So long as the word is what was seen, sleeps until it is woken, that time has
** come, or a signal has: whether that is so. The last is FUTEX_PRIVATE for a word
** of this process alone, and else 0. */
static inline bool futex_wait(_Atomic uint32_t *word, uint32_t seen, uint64_t until, int private) {
    struct timespec t = time_of(until);
    if (!goes_on("futex_wait")) return false;
    return syscall(SYS_futex, word, FUTEX_WAIT_BITSET | private, seen, until == NEVER ? NULL : &t, NULL, UINT32_MAX) != 0 && errno == EINTR;
}

static inline void futex_wake(_Atomic uint32_t *word, int most, int private) {
    if (!goes_on("futex_wake")) return;
    syscall(SYS_futex, word, FUTEX_WAKE | private, most, NULL, NULL, 0);
}

/* A lock of the open file on bytes of it: F_OFD_SETLK or F_OFD_GETLK. */
static inline int lock_bytes(int file, int call, short kind, int64_t at, int64_t length, struct flock *asked) {
    if (!goes_on("fcntl")) return -1;
    *asked = (struct flock){.l_type = kind, .l_whence = SEEK_SET, .l_start = at, .l_len = length};
    return fcntl(file, call, asked);
}

static inline int lock_file(int file, int kind) {
    return goes_on("flock") ? flock(file, kind | LOCK_NB) : -1;
}

/* The kernel's own calls, since glibc has these under new names from 2.33 on, and
** a wheel is for older ones, too. On the processors that this is built for a C
** library's struct stat is the kernel's. */
static inline int file_state(int file, struct stat *state) {
    return goes_on("fstat") ? (int)syscall(SYS_fstat, file, state) : -1;
}

static inline int state_at(int folder, const char *name, struct stat *state) {
    return goes_on("fstatat") ? (int)syscall(SYS_newfstatat, folder, name, state, AT_SYMLINK_NOFOLLOW) : -1;
}

static inline int link_at(int folder, const char *from, const char *to) {
    return goes_on("linkat") ? linkat(folder, from, folder, to, 0) : -1;
}

static inline int rename_at(int folder, const char *from, const char *to) {
    return goes_on("renameat") ? renameat(folder, from, folder, to) : -1;
}

static inline int unlink_at(int folder, const char *name) {
    return goes_on("unlinkat") ? unlinkat(folder, name, 0) : -1;
}

static inline int cut_file(int file, uint64_t length) {
    return goes_on("ftruncate") ? ftruncate(file, (off_t)length) : -1;
}

static inline ssize_t read_at(int file, void *to, size_t size, uint64_t at) {
    return goes_on("pread") ? pread(file, to, size, (off_t)at) : -1;
}

static inline ssize_t write_at(int file, const void *from, size_t size, uint64_t at) {
    return goes_on("pwrite") ? pwrite(file, from, size, (off_t)at) : -1;
}

static inline ssize_t write_on(int file, const void *from, size_t size) {
    int point = wanzoche_store_point("write");
    if (point > 0) {
        errno = point;
        return -1;
    }
    if (point < 0) {
        ssize_t written = write(file, from, size / 2);
        wanzoche_store_torn();
        return written;
    }
    return write(file, from, size);
}

static inline int sync_lines(int file) {
    return goes_on("fdatasync") ? fdatasync(file) : -1;
}

static inline int sync_file(int file) {
    return goes_on("fsync") ? fsync(file) : -1;
}

#endif
