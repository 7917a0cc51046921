/* What dist/system.c promises of memory: a large block is laid out in huge pages, a small one isn't, and errno stays as it was. */
#include <errno.h>
#include <stdbool.h>
#include <stddef.h>
#include <stdint.h>
#include <stdio.h>
#include <string.h>

typedef struct allocation {
    bool is_there;
    void *at;
} allocation;

allocation rattle_alloc(size_t size, size_t alignment);
allocation rattle_realloc(void *at, size_t kept, size_t size, size_t alignment);
void rattle_dealloc(void *at);

enum { MIB = 1 << 20 };

#ifdef FAILING
int __wrap_madvise(void *at, size_t size, int advice);

/* In the place of the system's, by --wrap=madvise: there are no huge pages. */
int __wrap_madvise(void *at, size_t size, int advice) {
    (void)at, (void)size, (void)advice;
    errno = EINVAL;
    return -1;
}
#endif

/* Whether the kernel has noted of an address that its memory may be in huge pages: "hg" among the flags in /proc/self/smaps. */
static bool may_be_huge(const void *at) {
    char line[512];
    bool within = false, huge = false;
    unsigned long first, end;
    FILE *maps = fopen("/proc/self/smaps", "r");
    if (maps == NULL) return false;
    while (fgets(line, sizeof line, maps) != NULL) {
        if (sscanf(line, "%lx-%lx ", &first, &end) == 2) within = first <= (uintptr_t)at && (uintptr_t)at < end;
        if (within && strncmp(line, "VmFlags:", 8) == 0) huge = strstr(line, " hg") != NULL;
    }
    fclose(maps);
    return huge;
}

/* Prints what was expected, unless it is so. */
static int expect(bool so, const char *what) {
    if (!so) printf("it isn't so: %s\n", what);
    return so ? 0 : 1;
}

int main(int count, char **words) {
    bool has_huge_pages = count > 1 && strcmp(words[1], "huge") == 0;
    int wrong = 0;
    errno = EBADF;
    allocation small = rattle_alloc(1000, 16), large = rattle_alloc(9 * MIB, 16);
    wrong += expect(errno == EBADF, "errno stays after an allocation");
    wrong += expect(small.is_there && large.is_there, "there is memory");
    memset(small.at, 5, 1000);
    memset(large.at, 7, 9 * MIB);
    wrong += expect(!may_be_huge(small.at), "a small block isn't in huge pages");
    wrong += expect(may_be_huge((char *)large.at + 4 * MIB) == has_huge_pages, "a large block is");
    errno = EBADF;
    large = rattle_realloc(large.at, 9 * MIB, 64 * MIB, 16);
    wrong += expect(errno == EBADF, "errno stays after a block has grown, so it wasn't refused to be moved, and copied");
    wrong += expect(large.is_there && ((char *)large.at)[9 * MIB - 1] == 7, "it keeps what was in it");
    wrong += expect(may_be_huge((char *)large.at + 40 * MIB) == has_huge_pages, "what has grown is in huge pages too");
    small = rattle_realloc(small.at, 1000, 9 * MIB, 16);
    wrong += expect(may_be_huge((char *)small.at + 4 * MIB) == has_huge_pages, "a small block that has grown is");
    wrong += expect(((char *)small.at)[999] == 5, "and keeps what was in it");
    rattle_dealloc(small.at);
    allocation none = rattle_alloc((size_t)1 << 62, 16);
    wrong += expect(!none.is_there && none.at != NULL, "a block that can't be had has an address all the same");
    allocation still = rattle_realloc(large.at, 64 * MIB, (size_t)1 << 62, 16);
    wrong += expect(!still.is_there && ((char *)large.at)[0] == 7, "a block that can't grow stays as it was");
    rattle_dealloc(large.at);
    return wrong;
}
