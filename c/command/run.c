/*
** Running a command to its end, while this process has an operation in progress.
**
** The signals that are handed on to it are blocked from before its begin to the end
** of the program, so that none is lost: this process takes them one at a time. The
** command begins with the mask that this program began with.
*/
#include <errno.h>
#include <signal.h>
#include <spawn.h>
#include <stdlib.h>
#include <string.h>
#include <sys/prctl.h>
#include <sys/wait.h>
#include <unistd.h>

#include "command.h"

extern char **environ;

/* The signals that reach the command. An ignored SIGHUP stays ignored, for the command, too: that is what `nohup` wants. */
void add_handed_on(sigset_t *signals) {
    static const int numbers[] = {SIGTERM, SIGUSR1, SIGUSR2, SIGINT, SIGQUIT};
    struct sigaction action;
    for (size_t k = 0; k < sizeof numbers / sizeof *numbers; k++) sigaddset(signals, numbers[k]);
    if (sigaction(SIGHUP, NULL, &action) == 0 && action.sa_handler != SIG_IGN) sigaddset(signals, SIGHUP);
}

/* Whether the path of a command leads to something that may be one. */
static bool is_there(const char *path) {
    struct stat state;
    return stat(path, &state) == 0 && !S_ISDIR(state.st_mode);
}

/* Whether the command is there, in a folder of PATH unless it names one. */
static bool is_found(const char *name, int error) {
    const char *folders = getenv("PATH") == NULL ? "/bin:/usr/bin" : getenv("PATH");
    if (strchr(name, '/') != NULL) return error != ENOENT;
    for (size_t length; folders != NULL; folders = folders[length] == 0 ? NULL : folders + length + 1) {
        struct text path = {NULL, 0, 0};
        bool is_here;
        length = strcspn(folders, ":");
        add(&path, "%.*s%s%s", (int)length, folders, length == 0 ? "" : "/", name);
        is_here = is_there(path.at);
        clear_text(&path);
        if (is_here) return true;
    }
    return false;
}

/* What a shell says, too. A folder of PATH that may not be searched gives "permission denied", although the command isn't there. */
static int tell_not_run(const char *name, int error) {
    bool is_here = is_found(name, error);
    say("%s: %s", name, strerror(is_here ? error : ENOENT));
    return is_here ? IS_NOT_RUNNABLE : IS_NOT_FOUND;
}

/*
** Begins it, with this process's presence: if this one is killed, the command counts
** as alive. It gets no other file of the store, and signals as a program has them
** that begins. 0, or the errno of what was refused.
*/
static int begin(struct shared *shared, char **words, const sigset_t *before, pid_t *child) {
    sigset_t usual;
    posix_spawnattr_t how;
    int error, presence = dup(wanzoche_store_presence(shared->store));
    if (presence < 0) return errno;
    sigemptyset(&usual);
    add_handed_on(&usual);
    sigaddset(&usual, SIGPIPE);
    sigaddset(&usual, SIGXFSZ);
    error = posix_spawnattr_init(&how);
    if (error != 0) return error;
    posix_spawnattr_setsigmask(&how, before);
    posix_spawnattr_setsigdefault(&how, &usual);
    posix_spawnattr_setflags(&how, POSIX_SPAWN_SETSIGMASK | POSIX_SPAWN_SETSIGDEF);
    error = posix_spawnp(child, words[0], NULL, &how, words, environ);
    posix_spawnattr_destroy(&how);
    return error;
}

/* Hands signals on until the command has ended: its status. A terminal sends its own to the command, too. */
static int hand_on(pid_t child, const sigset_t *signals) {
    bool has_terminal = isatty(0);
    int status;
    for (;;) {
        int number = sigwaitinfo(signals, NULL);
        if (number == SIGCHLD && waitpid(child, &status, WNOHANG) == child) break;
        if (number <= 0 || number == SIGCHLD || (has_terminal && (number == SIGINT || number == SIGQUIT))) continue;
        kill(child, number);
    }
    return WIFSIGNALED(status) ? OF_SIGNAL + WTERMSIG(status) : WEXITSTATUS(status);
}

/* Runs the command to its end: its status, or that of one that can't be run. The mask is that with which this program began. */
int run_command(struct shared *shared, char **words, const sigset_t *before) {
    sigset_t signals;
    pid_t child = 0;
    int error;
    sigemptyset(&signals);
    add_handed_on(&signals);
    sigaddset(&signals, SIGCHLD);
    sigprocmask(SIG_BLOCK, &signals, NULL);
    signal(SIGCHLD, SIG_DFL); /* an ignored one gives no status */
    prctl(PR_SET_NAME, "wanzoche exec"); /* by which `status` knows it, and asks for the command in its place */
    error = begin(shared, words, before, &child);
    return error == 0 ? hand_on(child, &signals) : tell_not_run(words[0], error);
}
