/* What the parts of the command `wanzoche` share. */
#ifndef WANZOCHE_COMMAND_H
#define WANZOCHE_COMMAND_H

#include <signal.h>
#include <stdbool.h>
#include <stddef.h>
#include <stdint.h>
#include <sys/stat.h>

#include "wanzoche.h"
#include "wanzoche_store.h"

/* How it ends, where it isn't done and no command was run. */
enum {
    IS_FAULT = 1,
    IS_USAGE = 2,
    IS_WRONG_LINE = 5,
    IS_OWN_FAULT = 125, /* of `exec`, as `env` and `timeout` have it: the fault is this program's, and the command wasn't run */
    IS_NOT_RUNNABLE = 126,
    IS_NOT_FOUND = 127,
    OF_SIGNAL = 128     /* and the number of what has ended it */
};

enum command { NO_COMMAND, DO_EXEC, DO_STATUS, DO_LOG, DO_AUDIT, DO_WATCH, DO_VIEW, DO_RECOVER, DO_PASS, DO_OPERATIONS, COMMANDS };

/* What the words say. A text that isn't given is null. */
struct given {
    enum command command;
    const char *store, *name, *declaration;
    char *path;              /* that of the store's file, without links in it, as far as that can be found */
    const char *operation;   /* or the worker of `recover` */
    char **run;              /* the command with its words, of `exec` */
    bool has_timeout, nonblock, quiet, no_sync, json, watches, even_alive, opens;
    double timeout, watch;   /* seconds */
    int conflict_status, port;
    const char *token_env, *passed, *failed, *lost;
    int64_t every;           /* seconds; 0 for none */
};

/* A text that grows, with a zero byte behind it. Without memory the program ends (`end_without_memory`). */
struct text {
    char *at;
    size_t length, size;
};

/* A declaration, and a system of it in which nothing is begun. */
struct declared {
    wanzoche system;
    char *text; /* as the library spells it */
    uint32_t count;
    char (*names)[33];
};

/* One path of a declaration. */
struct path {
    char resource[33];
    struct text text; /* its words and signs, with a space between two */
};

/* A store that is open, or whose files are read. */
struct shared {
    wanzoche_store *store;
    struct reader *reader; /* null unless the files may only be read */
    struct declared declared;
    const char *path;
    bool has_fault; /* a line isn't owed, or nobody knows what is on the disk */
};

/* An operation in progress. */
struct live {
    uint64_t activation;
    uint32_t worker, operation;
    bool is_lost;     /* whether its worker is dead */
    uint64_t process; /* the number that the worker's process gave itself; 0 if it isn't known */
};

/* What can happen next. */
struct report {
    struct text text;
    bool is_frozen;
    int64_t blocked_by[WANZOCHE_MOST_OPERATIONS]; /* the first path that forbids it; -1 if it can be started */
    struct live *live;
    size_t count;
};

/* What this machine says of a process. What isn't known is null or 0. */
struct process {
    uint64_t number;
    const char *host;
    struct text command; /* its words, as UTF-8 */
    int64_t since;       /* when the command of a `wanzoche exec` was started, in seconds since 1970 */
};

/* A store at a moment. */
struct state {
    struct report report;
    struct process *processes; /* of what is in progress, in its order */
    uint32_t waiting[WANZOCHE_MOST_OPERATIONS];
};

/* How a wait for an operation ends. */
enum entered { IS_IN_PROGRESS, IS_NOT_IN_TIME, IS_STOPPED, IS_REFUSED };

/* text.c */
extern int status_without_memory;
void end_without_memory(void) __attribute__((noreturn));
void *take_memory(size_t count, size_t size);
void add(struct text *text, const char *format, ...) __attribute__((format(printf, 2, 3)));
void add_bytes(struct text *text, const char *from, size_t length);
void clear_text(struct text *text);
const char *next_word(const char *at, char word[40]);

/* fault.c: what went wrong, in words; of each thread its own */
bool fails(const char *format, ...) __attribute__((format(printf, 1, 2)));
bool fails_by_store(wanzoche_answer answer, const char *format, ...) __attribute__((format(printf, 2, 3)));
bool fails_by_system(const char *what);
const char *fault(void);
bool is_forbidden(void);
bool is_corrupt(void);
uint64_t wrong_line(void);
bool is_other_declaration(void);

/* streams.c */
void take_closed_streams(void);
bool is_open_stream(int stream);
void say(const char *format, ...) __attribute__((format(printf, 1, 2)));
bool write_out(const char *text, size_t length);
bool write_text(const struct text *text);

/* options.c */
void read_words(struct given *given, char **words);

/* numbers.c */
bool read_seconds(const char *text, double *seconds);
bool is_limit(double seconds);
bool read_whole(const char *text, int *number);
bool read_duration(const char *text, int64_t *seconds);
bool read_worker(const char *text, uint32_t *worker);
void add_quoted(struct text *text, const char *word);

/* handing.c: to the Python package */
bool is_served(const struct given *given);
int hand_to_python(char **words, const char *what, int status);

/* declared.c */
bool read_file(const char *path, struct text *text);
bool find_declaration(const struct given *given, struct text *text);
bool open_declared(struct declared *declared, const char *text, size_t length);
void close_declared(struct declared *declared);
bool find_operation(struct declared *declared, const char *name, uint32_t *operation);

/* paths.c: what stands in a declaration */
bool find_path(const char *declaration, uint32_t number, struct path *path);
bool is_in_path(const struct path *path, const char *name);
void add_difference(struct text *text, const char *found, const char *given);
void find_device(const char *declaration, const char *name, char resource[33], char law[40]);

/* opened.c */
char *whole_path(const char *file);
bool open_shared(struct shared *shared, const struct given *given);
bool close_shared(struct shared *shared);
bool is_refused(struct shared *shared, wanzoche_answer answer);

/* beside.c, reading.c: where the files may only be read */
bool is_gone_beside(int file, uint32_t worker);
uint64_t process_beside(int file, uint32_t worker);
void count_beside(int file, uint32_t counts[WANZOCHE_MOST_OPERATIONS]);
uint64_t stamp_beside(int file);
struct reader *new_reader(const char *path, const struct declared *declared);
void close_reader(struct reader *reader);
bool look(struct reader *reader, struct text *text, bool *is_again);
uint64_t stamp_of(const struct reader *reader);
void add_report(struct reader *reader, struct text *text);
void count_at(const struct reader *reader, uint32_t counts[WANZOCHE_MOST_OPERATIONS]);

/* report.c */
bool ask_report(struct shared *shared, int64_t limit, struct report *report);
void read_report(struct report *report, struct declared *declared);
void close_report(struct report *report);
bool count_waiting(struct shared *shared, uint32_t counts[WANZOCHE_MOST_OPERATIONS]);

/* signs.c */
uint32_t next_sign(const char **at);
void add_plain(struct text *text, const char *from);

/* processes.c, state.c, json.c, table.c: how a store is */
void find_processes(const struct report *report, struct process *processes, const char *beside);
bool ask_state(struct shared *shared, struct state *state);
void close_state(struct state *state);
void count_running(const struct report *report, uint32_t counts[WANZOCHE_MOST_OPERATIONS]);
void add_lines(struct text *text, const struct report *report);
void add_state(struct text *text, const struct state *state, const struct declared *declared);
void add_table(struct text *text, const struct state *state, const struct declared *declared, const char *store);

/* why.c */
void add_why(struct text *text, struct declared *declared, uint32_t operation, const struct report *report,
             const wanzoche_store_waiter *behind, double after);
void add_who(struct text *text, struct declared *declared, uint32_t operation, const struct report *report, const wanzoche_store_waiter *behind);

/* enter.c */
enum entered enter(struct shared *shared, uint32_t operation, const double *timeout, bool is_quiet, const sigset_t *stops,
                   wanzoche_store_record *record, int *signal);
bool leave(struct shared *shared, wanzoche_store_record *record);

/* signals.c */
void keep_signals(void);
void end_by(int signal);
const char *name_of_signal(int signal);
void block_interrupt(sigset_t *stops, sigset_t *before);
bool has_interrupt(void);
void use_usual_signals(void);

/* run.c */
void add_handed_on(sigset_t *signals);
int run_command(struct shared *shared, char **words, const sigset_t *before);

/* exec.c, every.c, passing.c, looking.c, watching.c: the commands; what they return is the status */
bool check_words(struct declared *declared, const struct given *given);
int execute(struct shared *shared, const struct given *given);
bool check_every(struct declared *declared, uint32_t operation);
bool find_due(struct shared *shared, uint64_t activation, int64_t seconds, bool *is_due, double *ago);
int pass_by_hand(struct shared *shared, const struct given *given);
int recover(struct shared *shared, const struct given *given);
int audit(struct shared *shared);
int end_audit(void);
bool read_new(struct shared *shared, size_t *written, struct text *text);
int write_log(struct shared *shared);
int write_status(struct shared *shared, const struct given *given);
int watch_log(struct shared *shared);
int watch_status(struct shared *shared, const struct given *given);

#endif
