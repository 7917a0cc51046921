/* Signals: their names, and which end this program by themselves. */
#include <signal.h>
#include <stdlib.h>
#include <unistd.h>

#include "command.h"

/* What is written past a limit, or to a pipe that nobody reads, is an error and no signal. */
void keep_signals(void) {
    signal(SIGPIPE, SIG_IGN);
    signal(SIGXFSZ, SIG_IGN);
}

static void end_at_once(int number) {
    _exit(OF_SIGNAL + number);
}

/* From now on this signal ends the program with the status that a shell has for that, unless it is ignored. */
void end_by(int number) {
    struct sigaction action = {.sa_handler = SIG_DFL};
    if (sigaction(number, NULL, &action) != 0 || action.sa_handler == SIG_IGN) return;
    action = (struct sigaction){.sa_handler = end_at_once};
    sigaction(number, &action, NULL);
}

const char *name_of_signal(int number) {
    static const struct {
        int number;
        const char *name;
    } names[] = {{SIGTERM, "SIGTERM"}, {SIGHUP, "SIGHUP"}, {SIGUSR1, "SIGUSR1"}, {SIGUSR2, "SIGUSR2"}, {SIGINT, "SIGINT"}, {SIGQUIT, "SIGQUIT"}};
    for (size_t k = 0; k < sizeof names / sizeof *names; k++)
        if (names[k].number == number) return names[k].name;
    return "a signal";
}

/* Blocks SIGINT, unless it is ignored, for a wait that it ends: that signal alone, and the mask before. */
void block_interrupt(sigset_t *stops, sigset_t *before) {
    struct sigaction action;
    sigemptyset(stops);
    if (sigaction(SIGINT, NULL, &action) == 0 && action.sa_handler != SIG_IGN) sigaddset(stops, SIGINT);
    sigprocmask(SIG_BLOCK, stops, before);
}

/* Whether one came while it was blocked. */
bool has_interrupt(void) {
    sigset_t pending;
    struct sigaction action;
    if (sigaction(SIGINT, NULL, &action) != 0 || action.sa_handler == SIG_IGN) return false;
    return sigpending(&pending) == 0 && sigismember(&pending, SIGINT) == 1;
}

/* As a program has them that begins, for one that this becomes. */
void use_usual_signals(void) {
    signal(SIGPIPE, SIG_DFL);
    signal(SIGXFSZ, SIG_DFL);
}
