/* Appends the lines of a file to another one by one, each with a write, and nothing else: what a follow whose journal stands in a file is
 * compared with. Prints how many nanoseconds a line took on the average. The words are the file of the lines, the file to make, and `each`
 * if each line is synced by fdatasync, or `never`. With a fourth word, `asked`, each line waits for one on standard input, and is answered
 * by one on standard output. */
#define _POSIX_C_SOURCE 200809L
#include <fcntl.h>
#include <stdio.h>
#include <stdlib.h>
#include <string.h>
#include <sys/stat.h>
#include <time.h>
#include <unistd.h>

static double now(void)
{
    struct timespec time;
    clock_gettime(CLOCK_MONOTONIC, &time);
    return (double)time.tv_sec * 1e9 + (double)time.tv_nsec;
}

/* The bytes of a file, and how many; NULL if it can't be read. */
static char *read_file(const char *name, size_t *length)
{
    struct stat about;
    int file = open(name, O_RDONLY);
    if (file < 0 || fstat(file, &about) != 0) return NULL;
    char *text = malloc((size_t)about.st_size + 1);
    if (!text || read(file, text, (size_t)about.st_size) != about.st_size) return NULL;
    *length = (size_t)about.st_size;
    close(file);
    return text;
}

/* What is done for each line beside its write. */
struct way {
    int syncs;
    int is_asked;
};

/* Waits for a line on standard input. Returns whether there was one. */
static int asked(void)
{
    char line[256];
    return read(0, line, sizeof line) > 0;
}

/* Writes a line, and syncs and answers it if that is the way. Returns whether all went well. */
static int append(int file, const char *line, size_t length, struct way way)
{
    if (write(file, line, length) != (ssize_t)length) return 0;
    if (way.syncs && fdatasync(file) != 0) return 0;
    return !way.is_asked || write(1, "written\n", 8) == 8;
}

/* Writes each line, as long as one is asked for if that is the way. Returns how many there were, or -1 if one wasn't written. */
static long append_lines(int file, const char *text, size_t length, struct way way)
{
    long count = 0;
    for (size_t at = 0; at < length && (!way.is_asked || asked()); count++) {
        const char *end = memchr(text + at, '\n', length - at);
        size_t line = (end ? (size_t)(end - text) + 1 : length) - at;
        if (!append(file, text + at, line, way)) return -1;
        at += line;
    }
    return count;
}

int main(int count, char **words)
{
    size_t length;
    char *text = count == 4 || count == 5 ? read_file(words[1], &length) : NULL;
    int file = text ? open(words[2], O_WRONLY | O_CREAT | O_EXCL | O_APPEND, 0666) : -1;
    struct way way = {.syncs = text && strcmp(words[3], "each") == 0, .is_asked = count == 5};
    double begun = now();
    long lines = file < 0 ? -1 : append_lines(file, text, length, way);
    double ended = now();
    if (lines <= 0) {
        perror("bare_write");
        return 1;
    }
    printf("%.1f\n", (ended - begun) / (double)lines);
    return 0;
}
