/* Runs a program, writes the lines of a file to it one by one, each after the line that answers the one before, and prints how many
 * nanoseconds an answer took on the average. The words are the file of the lines, and the program with its words. */
#define _POSIX_C_SOURCE 200809L
#include <stdio.h>
#include <stdlib.h>
#include <string.h>
#include <sys/wait.h>
#include <time.h>
#include <unistd.h>

enum { LONGEST = 256 };

static double now(void)
{
    struct timespec time;
    clock_gettime(CLOCK_MONOTONIC, &time);
    return (double)time.tv_sec * 1e9 + (double)time.tv_nsec;
}

/* Starts a program whose standard input and output are these pipes. Returns whether it began. */
static int start(char **words, int *asks, int *answers)
{
    int in[2], out[2];
    if (pipe(in) != 0 || pipe(out) != 0) return 0;
    pid_t child = fork();
    if (child == 0) {
        dup2(in[0], 0), dup2(out[1], 1);
        close(in[0]), close(in[1]), close(out[0]), close(out[1]);
        execv(words[0], words);
        _exit(127);
    }
    close(in[0]), close(out[1]);
    *asks = in[1], *answers = out[0];
    return child > 0;
}

/* Reads one line, which comes alone. Returns whether it came whole. */
static int answered(int answers)
{
    char line[LONGEST];
    ssize_t count = read(answers, line, sizeof line);
    return count > 0 && line[count - 1] == '\n';
}

/* Asks all lines. Returns how many there were, or 0 if one had no answer. */
static long ask_all(FILE *lines, int asks, int answers)
{
    char line[LONGEST];
    long count = 0;
    while (fgets(line, sizeof line, lines)) {
        if (write(asks, line, strlen(line)) != (ssize_t)strlen(line) || !answered(answers)) return 0;
        count++;
    }
    return count;
}

int main(int count, char **words)
{
    int asks, answers;
    FILE *lines = count > 2 ? fopen(words[1], "r") : NULL;
    char line[LONGEST];
    /* The first answer waits for the program to begin, and isn't counted. */
    if (!lines || !start(words + 2, &asks, &answers) || !fgets(line, sizeof line, lines)) return 1;
    if (write(asks, line, strlen(line)) < 0 || !answered(answers)) return 1;
    double begun = now();
    long all = ask_all(lines, asks, answers);
    double ended = now();
    close(asks);
    int status;
    if (wait(&status) < 0 || status != 0 || all == 0) return 1;
    printf("%.1f\n", (ended - begun) / (double)all);
    return 0;
}
