/*
** What the generated assembly needs of the system, besides the C library:
** memory, errno, the program's arguments and its environment.
**
** This file is trusted: it is C, and nothing about it is proved. Each function
** does what the proved code above it was told of it, as its comment says.
**
** LIBRARY leaves memory alone, which is all that the library calls.
*/
#define _GNU_SOURCE
#include <stdbool.h>
#include <stddef.h>
#include <stdint.h>
#include <stdlib.h>
#ifndef LIBRARY
#include <errno.h>
#include <malloc.h>
#include <sys/mman.h>
#include <unistd.h>
#endif

/*
** What an allocation answers: whether there was memory, and where. The address
** is never null, since the proved code keeps it as one that isn't.
*/
typedef struct allocation {
    bool is_there;
    void *at;
} allocation;

allocation rattle_alloc(size_t size, size_t alignment);
allocation rattle_realloc(void *at, size_t kept, size_t size, size_t alignment);
void rattle_dealloc(void *at);

/* The address that is answered where there is no memory. Nobody reads or writes there. */
static unsigned char no_memory;

static allocation answer(void *at) {
    allocation it = {at != NULL, at != NULL ? at : &no_memory};
    return it;
}

#if defined(LIBRARY) || !defined(MADV_HUGEPAGE)
/* A library leaves it to its program how memory is laid out. */
static void *in_huge_pages(void *at, size_t size) {
    (void)size;
    return at;
}
#else
/*
** Asks Linux to lay a block of at least 4 MB out in pages of 2 MB, if there is a
** block. The texts and the lines of a large journal are such blocks, and most of
** what their memory costs is the first touch of each page. Where the system has
** no such pages, nothing changes. All pages of the block are named, since one of
** which Linux knows two things can't be moved when it grows, but is copied.
*/
static void *in_huge_pages(void *at, size_t size) {
    uintptr_t page, first, end;
    int error = errno;
    if (at == NULL || size < (size_t)1 << 22) return at;
    page = (uintptr_t)sysconf(_SC_PAGESIZE);
    first = (uintptr_t)at / page * page;
    end = ((uintptr_t)at + malloc_usable_size(at) + page - 1) / page * page;
    madvise((void *)first, end - first, MADV_HUGEPAGE);
    errno = error;
    return at;
}
#endif

/*
** Memory for `size` bytes. An alignment is at most 16, which malloc keeps to on
** the processors that there is assembly for. malloc may answer null for 0
** bytes, so it is asked for some.
*/
allocation rattle_alloc(size_t size, size_t alignment) {
    return answer(in_huge_pages(malloc(size != 0 ? size : alignment), size));
}

/* The same memory with another size. If there is none, it stays as it was. */
allocation rattle_realloc(void *at, size_t kept, size_t size, size_t alignment) {
    (void)kept;
    return answer(in_huge_pages(realloc(at, size != 0 ? size : alignment), size));
}

void rattle_dealloc(void *at) {
    free(at);
}

#ifndef LIBRARY
#include <signal.h>
#include <sys/types.h>

int rattle_errno(void);
void rattle_set_errno(int error);
size_t rattle_arg_count(void);
ssize_t rattle_arg(size_t which, unsigned char *buffer, size_t size);
ssize_t rattle_env(const char *name, unsigned char *buffer, size_t size);

int rattle_errno(void) {
    return errno;
}

void rattle_set_errno(int error) {
    errno = error;
}

/* The words of the command line, from before main on. */
static char **words;
static size_t word_count;

/*
** Before main. A file that has reached its limit is told by the call that
** writes to it, and not by a signal, which would end the program.
*/
static void begin(int count, char **all) {
    words = all;
    word_count = (size_t)count;
    signal(SIGXFSZ, SIG_IGN);
}

/*
** Copies a text without its zero byte, and answers its length; -1 if there is
** no text, and -2 if it is longer than the buffer, which then holds its first
** `size` bytes.
*/
static ssize_t copy_text(const char *text, unsigned char *buffer, size_t size) {
    size_t length;
    if (text == NULL) return -1;
    for (length = 0; text[length] != 0; length++) {
        if (length == size) return -2;
        buffer[length] = (unsigned char)text[length];
    }
    return (ssize_t)length;
}

size_t rattle_arg_count(void) {
    return word_count;
}

ssize_t rattle_arg(size_t which, unsigned char *buffer, size_t size) {
    return copy_text(which < word_count ? words[which] : NULL, buffer, size);
}

ssize_t rattle_env(const char *name, unsigned char *buffer, size_t size) {
    return copy_text(getenv(name), buffer, size);
}

#ifdef __GLIBC__
/* glibc hands the words of the command line to what runs before main. */
__attribute__((constructor)) static void before_main(int count, char **all) {
    begin(count, all);
}
#else
/*
** Other C libraries don't, so the Makefile links with --wrap=main. The rest are
** names that only glibc has.
*/
#include <sys/syscall.h>

int __real_main(int count, char **all);
int __wrap_main(int count, char **all);
void (*__sysv_signal(int number, void (*handler)(int)))(int);
ssize_t __write(int file, const void *buffer, size_t size);
struct statx;
int statx(int folder, const char *path, int flags, unsigned mask, struct statx *to);

int __wrap_main(int count, char **all) {
    begin(count, all);
    return __real_main(count, all);
}

void (*__sysv_signal(int number, void (*handler)(int)))(int) {
    return signal(number, handler);
}

ssize_t __write(int file, const void *buffer, size_t size) {
    return write(file, buffer, size);
}

/* musl has this from 1.2.5 on. */
__attribute__((weak)) int statx(int folder, const char *path, int flags, unsigned mask, struct statx *to) {
    return (int)syscall(SYS_statx, folder, path, flags, mask, to);
}
#endif

/*
** By this the program sees, as it starts, whether the processor has what the
** assembly was made for. glibc has it from 2.33 on.
*/
#ifdef __GLIBC__
#define HAS_CPUID_LEAF __GLIBC_PREREQ(2, 33)
#else
#define HAS_CPUID_LEAF 0
#endif
#if defined(__x86_64__) && !HAS_CPUID_LEAF
#include <cpuid.h>

/* What cpuid says in one of its leaves: in eax, ebx, ecx and edx. */
typedef struct cpuid_leaf {
    unsigned present[4], active[4];
} cpuid_leaf;

const cpuid_leaf *__x86_get_cpuid_feature_leaf(unsigned which);

const cpuid_leaf *__x86_get_cpuid_feature_leaf(unsigned which) {
    static const unsigned numbers[] = {1, 7, 0x80000001u};
    static cpuid_leaf leaves[3];
    cpuid_leaf *leaf = &leaves[which];
    int at;
    __get_cpuid_count(numbers[which], 0, &leaf->present[0], &leaf->present[1], &leaf->present[2], &leaf->present[3]);
    for (at = 0; at < 4; at++) leaf->active[at] = leaf->present[at];
    return leaf;
}
#endif
#endif
