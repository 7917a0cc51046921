/* What a store can't do without: lock a file, append a line, unlock it, and the same again. Usage: two_locks FILE ROUNDS [sync] */
#define _GNU_SOURCE
#include <fcntl.h>
#include <stdio.h>
#include <stdlib.h>
#include <string.h>
#include <sys/file.h>
#include <time.h>
#include <unistd.h>

static void append(int file, const char *line, int syncs) {
    if (flock(file, LOCK_EX) || write(file, line, strlen(line)) < 0 || flock(file, LOCK_UN)) exit(1);
    if (syncs && fdatasync(file)) exit(1);
}

int main(int count, char **words) {
    int file = open(words[1], O_WRONLY | O_CREAT | O_TRUNC | O_APPEND, 0666), rounds = atoi(words[2]), syncs = count > 3;
    char start[64], finish[64];
    struct timespec from, to;
    if (file < 0) return 1;
    clock_gettime(CLOCK_MONOTONIC, &from);
    for (int i = 0; i < rounds; i++) {
        snprintf(start, sizeof start, "%s1 start write: started %d\n", syncs ? "" : "+", i);
        snprintf(finish, sizeof finish, "%s1 finish %d: finished\n", syncs ? "" : "+", i);
        append(file, start, syncs);
        append(file, finish, syncs);
    }
    clock_gettime(CLOCK_MONOTONIC, &to);
    printf("%.3f\n", ((to.tv_sec - from.tv_sec) * 1e9 + (to.tv_nsec - from.tv_nsec)) / rounds / 1e3);
    return 0;
}
