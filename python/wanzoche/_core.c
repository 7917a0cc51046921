/*
** What is quick of entries: to make one, begin it, and finish it, without ctypes and without a Python object but the entry. Of a thread
** that waits, the order of its steps. Last, what is quick of a store.
**
** Everything that takes longer is Python, and called by its name: to sleep, to make room, to wake those that wait, to say what is wrong. It
** may be cut off by an interrupt at any instruction; what is undone then, and in which order, is said here.
**
** A call of the library keeps the interpreter's lock and calls nothing back. So two of them are never in one system at once, and no signal
** handler, finalizer or fork comes in between. The library writes the record of an entry before it returns, and no Python runs between
** that and the return of __enter__: so what was begun is known to the entry, which finishes it when nobody holds it any more.
**
** Only the stable part of Python's interface is used, that of 3.8: one file serves each version from there on. It serves no Python without
** the interpreter's lock, whose interface has no such part; the package does without this file there.
**
** Neither type has a tp_clear: an entry never changes what it refers to, and a system refers only to what can be cleared itself, so each
** circle has another member that breaks it.
*/
#include <Python.h>
#include <structmember.h>

#include <errno.h>
#include <fcntl.h>
#include <limits.h>
#include <linux/futex.h>
#include <stdio.h>
#include <sys/stat.h>
#include <sys/syscall.h>
#include <time.h>
#include <unistd.h>

#include "_order.h"

#ifdef Py_GIL_DISABLED
#error "a Python without the interpreter's lock is served by the form without this file"
#endif

typedef uint32_t begin_call(wanzoche *, uint32_t worker, uint32_t operation, wanzoche_record *);
typedef uint32_t end_call(wanzoche *, wanzoche_record *);
typedef wanzoche_answer can_start_call(wanzoche *, uint32_t operation);

/* A handle, and what is called on it. */
typedef struct Calls {
    PyObject_HEAD
    PyObject *holder; /* has the handle in its memory */
    wanzoche *handle;
    begin_call *begin;
    end_call *end;
    can_start_call *can_start;
    uint64_t entries[WANZOCHE_MOST_OPERATIONS]; /* how often each operation was begun */
} Calls;

/* The base of Paths. */
typedef struct System {
    PyObject_HEAD
    uint64_t serial;   /* no other system of this process has it; 0 where a thread isn't one worker, but each of its greenlets is */
    Calls *calls;      /* null until it is set up, as are those below */
    PyObject *numbers; /* of the operations, by their names: a dict */
    PyObject *queues;  /* those that wait */
    PyObject *due;     /* the queues of which one may have to be woken: a set */
    Line *line;        /* the same ones in their order; null where there is none */
    PyTypeObject *entry_class;
} System;

/* The base of entries. */
typedef struct Entry {
    PyObject_HEAD
    System *system;
    PyObject *name;
    PyObject *timeout;
    uint32_t operation, priority;
    wanzoche_record record;
} Entry;

static PyTypeObject *calls_type, *system_type, *entry_type;

/* What a second gets that enters an entry in progress. It is made here, so that no interrupt can come in its place. */
static PyObject *in_use;

/* The methods of Python that are called, and attributes that are read or set; last, how many these are. */
enum Name {
    ACQUIRE,
    ADMITTED,
    CLOSED,
    DROPPED,
    IS_LATE,
    JOIN,
    LEAVE,
    NEW_WAITER,
    NOT_IN_PROGRESS,
    NUMBER,
    PLACE,
    QUIT,
    RELEASE,
    THREAD_WORKER,
    UNUSED,
    WAIT,
    WAITERS,
    WAKE_ALL,
    NAMES
};

static const char *const spelled[NAMES] = {
    [ACQUIRE] = "acquire",
    [ADMITTED] = "_admitted",
    [CLOSED] = "_closed",
    [DROPPED] = "_dropped",
    [IS_LATE] = "_is_late",
    [JOIN] = "join",
    [LEAVE] = "leave",
    [NEW_WAITER] = "_new_waiter",
    [NOT_IN_PROGRESS] = "_not_in_progress",
    [NUMBER] = "_number",
    [PLACE] = "place",
    [QUIT] = "quit",
    [RELEASE] = "release",
    [THREAD_WORKER] = "_thread_worker",
    [UNUSED] = "_unused",
    [WAIT] = "wait",
    [WAITERS] = "waiters",
    [WAKE_ALL] = "wake_all",
};

/* Their names as Python has them, made once: a name that is made anew isn't in the interpreter's cache of methods. */
static PyObject *names[NAMES];

/* What a method returns, called with these arguments, of which the second or both may be null. Null with an exception. */
static PyObject *answer_of(void *object, enum Name method, void *first, void *second) {
    return PyObject_CallMethodObjArgs(object, names[method], first, second, NULL);
}

/* The same for a method that returns nothing of use. False with an exception. */
static bool call(void *object, enum Name method, void *argument) {
    PyObject *nothing = answer_of(object, method, argument, NULL);
    Py_XDECREF(nothing);
    return nothing != NULL;
}

/* In 3.8 the type of an instance is visited for it; later its own traverse has to. */
static bool visits_type;

/* A new reference to None. The macro for it of 3.12 and 3.13.0 makes none, since None needs no count from 3.12 on; before, it does. */
static PyObject *none(void) {
    Py_INCREF(Py_None);
    return Py_None;
}

/* The number of an operation or of a worker that a Python object is. False with an exception. */
static bool number_in(PyObject *object, uint32_t *number) {
    unsigned long value = PyLong_AsUnsignedLong(object);
    if (value == (unsigned long)-1 && PyErr_Occurred()) return false;
    if (value > UINT32_MAX) {
        PyErr_SetString(PyExc_OverflowError, "a number of the library has 32 bits");
        return false;
    }
    *number = (uint32_t)value;
    return true;
}

/* Calls. */

static PyObject *calls_new(PyTypeObject *type, PyObject *args, PyObject *named) {
    PyObject *at[4], *holder;
    void *addresses[4];
    Calls *calls;
    (void)named;
    if (!PyArg_ParseTuple(args, "OOOOO:Calls", &at[0], &at[1], &at[2], &at[3], &holder)) return NULL;
    for (int i = 0; i < 4; i++) {
        addresses[i] = PyLong_AsVoidPtr(at[i]);
        if (addresses[i] != NULL) continue;
        if (!PyErr_Occurred()) PyErr_SetString(PyExc_ValueError, "nothing lies at the address 0");
        return NULL;
    }
    calls = (Calls *)PyType_GenericAlloc(type, 0);
    if (calls == NULL) return NULL;
    calls->begin = (begin_call *)addresses[0];
    calls->end = (end_call *)addresses[1];
    calls->can_start = (can_start_call *)addresses[2];
    calls->handle = addresses[3];
    Py_INCREF(holder);
    calls->holder = holder;
    return (PyObject *)calls;
}

static void calls_dealloc(PyObject *self) {
    PyTypeObject *type = Py_TYPE(self);
    PyObject_GC_UnTrack(self);
    Py_XDECREF(((Calls *)self)->holder);
    PyObject_GC_Del(self);
    Py_DECREF(type);
}

static int calls_traverse(PyObject *self, visitproc visit, void *arg) {
    if (visits_type) Py_VISIT(Py_TYPE(self));
    Py_VISIT(((Calls *)self)->holder);
    return 0;
}

static PyObject *calls_is_blocked(PyObject *self, PyObject *operation) {
    Calls *calls = (Calls *)self;
    uint32_t number;
    if (!number_in(operation, &number)) return NULL;
    return PyBool_FromLong(calls->can_start(calls->handle, number).code == WANZOCHE_BLOCKED);
}

static PyObject *calls_entries(PyObject *self, PyObject *operation) {
    uint32_t number;
    if (!number_in(operation, &number)) return NULL;
    return PyLong_FromUnsignedLongLong(number < WANZOCHE_MOST_OPERATIONS ? ((Calls *)self)->entries[number] : 0);
}

static PyMethodDef calls_methods[] = {
    {"entries", calls_entries, METH_O, "How often the operation of this number was begun."},
    {"is_blocked", calls_is_blocked, METH_O, "Whether a path forbids the operation of this number now."},
    {NULL, NULL, 0, NULL},
};

static PyType_Slot calls_slots[] = {
    {Py_tp_doc, "A handle at an address, what holds it, and the addresses of begin, end and can_start."},
    {Py_tp_new, calls_new},
    {Py_tp_dealloc, calls_dealloc},
    {Py_tp_traverse, calls_traverse},
    {Py_tp_methods, calls_methods},
    {0, NULL},
};

static PyType_Spec calls_spec = {
    "wanzoche._core.Calls", sizeof(Calls), 0, Py_TPFLAGS_DEFAULT | Py_TPFLAGS_HAVE_GC, calls_slots,
};

/* Who a thread is. */

/*
** The worker's numbers of a thread, of the systems that it met last. Entry._thread_worker gives them, and always gives a thread the same
** one, so a number that was pushed out by another system's is only asked for again.
*/
#define KNOWN 16
static _Thread_local struct {
    uint64_t serial; /* 0: nothing here */
    uint32_t worker;
} known[KNOWN];

/* The number of this thread, which is to enter, or false with an exception. */
static bool number_of_thread(Entry *entry, uint32_t *worker) {
    System *system = entry->system;
    size_t place = system->serial % KNOWN;
    if (known[place].serial != system->serial || system->serial == 0) {
        PyObject *number = answer_of(entry, THREAD_WORKER, NULL, NULL);
        bool is_number = number != NULL && number_in(number, worker);
        Py_XDECREF(number);
        if (!is_number) return false;
        known[place].serial = system->serial;
        known[place].worker = *worker;
    }
    *worker = known[place].worker;
    return true;
}

/* Those that wait. */

/*
** Calls a method after an exception, which stays. An interrupt may have cut such a call off. If another cuts this one off, it is tried
** again, and the first exception is the one that goes on.
*/
static void call_surely(void *object, enum Name method, void *argument) {
    PyObject *kind, *error, *trace;
    PyErr_Fetch(&kind, &error, &trace);
    for (int tries = 0; tries < 3 && !call(object, method, argument); tries++) PyErr_Clear();
    PyErr_Restore(kind, error, trace);
}

/* Wakes those whose turn has come. False with an exception, after which they are woken, too. */
static bool wake(System *system) {
    if (PySet_Size(system->due) == 0) return true;
    if (call(system->queues, WAKE_ALL, Py_False)) return true;
    call_surely(system->queues, WAKE_ALL, Py_True);
    return false;
}

/* Entries. */

/* Tries to begin it, and has the code of the answer. False with an exception if it is in progress already. */
static bool begin(Entry *entry, uint32_t worker, uint32_t *code) {
    Calls *calls = entry->system->calls;
    *code = calls->begin(calls->handle, worker, entry->operation, &entry->record);
    if (*code == WANZOCHE_STARTED) calls->entries[entry->operation]++;
    if (*code != WANZOCHE_NOT_YOURS) return true;
    PyErr_Format(in_use, "this entry of %S is in progress already", entry->name);
    return false;
}

/* What a start would be answered, whoever waits. */
static uint32_t can_start(Entry *entry) {
    Calls *calls = entry->system->calls;
    return calls->can_start(calls->handle, entry->operation).code;
}

static uint32_t end(Entry *entry) {
    Calls *calls = entry->system->calls;
    return calls->end(calls->handle, &entry->record);
}

/* The number of an operation. False with an exception. */
static bool number_of_operation(System *system, PyObject *name, uint32_t *operation) {
    PyObject *number = PyDict_GetItemWithError(system->numbers, name);
    bool is_number;
    if (number != NULL) return number_in(number, operation);
    if (PyErr_Occurred()) return false;
    number = answer_of(system, NUMBER, name, NULL); /* which says what is wrong */
    is_number = number != NULL && number_in(number, operation);
    Py_XDECREF(number);
    return is_number;
}

/* Whether it is a limit of time: None, or a number. Else there is an exception. */
static bool is_limit(PyObject *timeout) {
    double seconds;
    if (timeout == Py_None) return true;
    seconds = PyFloat_AsDouble(timeout);
    if (seconds == seconds && !(seconds == -1.0 && PyErr_Occurred())) return true;
    PyErr_Clear();
    PyErr_Format(PyFloat_Check(timeout) || PyLong_Check(timeout) ? PyExc_ValueError : PyExc_TypeError,
                 "a limit of time is None or a number of seconds, not %R", timeout);
    return false;
}

/* The priority that it is, 0 if it is null. False with an exception. */
static bool is_priority(PyObject *given, uint32_t *priority) {
    long long number = 0;
    *priority = 0;
    if (given == NULL) return true;
    if (PyLong_Check(given)) {
        number = PyLong_AsLongLong(given);
        if (number == -1 && PyErr_Occurred()) PyErr_Clear();
        if (number >= 0 && number <= UINT32_MAX) {
            *priority = (uint32_t)number;
            return true;
        }
    }
    PyErr_Format(PyLong_Check(given) ? PyExc_ValueError : PyExc_TypeError, "a priority is a number from 0 to 4,294,967,295, not %R", given);
    return false;
}

/* A new entry that isn't begun. Null with an exception. */
static PyObject *new_entry(System *system, PyTypeObject *type, PyObject *name, PyObject *timeout, PyObject *given) {
    Entry *entry;
    uint32_t operation, priority;
    if (!is_limit(timeout) || !is_priority(given, &priority)) return NULL;
    if (system->calls == NULL) {
        PyErr_SetString(PyExc_RuntimeError, "these paths were never opened");
        return NULL;
    }
    if (!number_of_operation(system, name, &operation)) return NULL;
    entry = (Entry *)PyType_GenericAlloc(type, 0);
    if (entry == NULL) return NULL;
    Py_INCREF(system);
    entry->system = system;
    Py_INCREF(name);
    entry->name = name;
    Py_INCREF(timeout);
    entry->timeout = timeout;
    entry->operation = operation;
    entry->priority = priority;
    return (PyObject *)entry;
}

static PyObject *entry_new(PyTypeObject *type, PyObject *args, PyObject *named) {
    static char *keywords[] = {"paths", "operation", "timeout", "priority", NULL};
    PyObject *system, *name, *timeout, *priority = NULL;
    if (!PyArg_ParseTupleAndKeywords(args, named, "O!OO|O:Entry", keywords, system_type, &system, &name, &timeout, &priority)) return NULL;
    return new_entry((System *)system, type, name, timeout, priority);
}

/* Of one in progress that nobody holds: finishes it, and says so. */
static void drop(Entry *entry) {
    PyObject *kind, *error, *trace;
    System *system = entry->system;
    PyErr_Fetch(&kind, &error, &trace);
    end(entry);
    if (!call(system, DROPPED, entry->name)) {
        call_surely(system->queues, WAKE_ALL, Py_True);
        PyErr_WriteUnraisable((PyObject *)system);
    }
    PyErr_Restore(kind, error, trace);
}

/* Of one that nobody holds: says that nobody has entered it. */
static void tell_unused(Entry *entry) {
    PyObject *kind, *error, *trace;
    PyErr_Fetch(&kind, &error, &trace);
    if (!call(entry, UNUSED, NULL)) PyErr_WriteUnraisable((PyObject *)entry);
    PyErr_Restore(kind, error, trace);
}

/* The library writes the worker with the first attempt, whatever it answers, and no worker has the number 0. */
static void entry_finalize(PyObject *self) {
    Entry *entry = (Entry *)self;
    if (entry->record.live) {
        drop(entry);
    } else if (entry->record.worker == 0) {
        tell_unused(entry);
    }
}

static void entry_dealloc(PyObject *self) {
    Entry *entry = (Entry *)self;
    PyTypeObject *type = Py_TYPE(self);
    PyObject_GC_UnTrack(self);
    if (entry->record.live) drop(entry);
    Py_XDECREF(entry->timeout);
    Py_XDECREF(entry->name);
    Py_XDECREF(entry->system);
    PyObject_GC_Del(self);
    Py_DECREF(type);
}

static int entry_traverse(PyObject *self, visitproc visit, void *arg) {
    Entry *entry = (Entry *)self;
    if (visits_type) Py_VISIT(Py_TYPE(self));
    Py_VISIT(entry->system);
    Py_VISIT(entry->name);
    Py_VISIT(entry->timeout);
    return 0;
}

/* How a thread waits for its turn. */
typedef struct Wait {
    Entry *entry;
    uint32_t worker;
    uint32_t code;     /* of the last answer to an attempt */
    PyObject *waiter;  /* null until it is made */
    PyObject *queue;   /* where the waiter waits; null before */
    PyObject *waiters; /* all that wait there: a dict in their order */
    PyObject *place;   /* where it stands in line; null where there is no line */
} Wait;

/* Whether starts may be withheld now for one who waits. */
static bool withholds(const System *system) {
    return system->line != NULL && line_withholds(system->line);
}

/* Makes a waiter, and lets it join its queue. False with an exception. */
static bool join(Wait *wait) {
    Entry *entry = wait->entry;
    PyObject *worker = PyLong_FromUnsignedLong(wait->worker);
    if (worker == NULL) return false;
    wait->waiter = answer_of(entry, NEW_WAITER, worker, NULL);
    Py_DECREF(worker);
    if (wait->waiter == NULL) return false;
    wait->queue = answer_of(entry->system->queues, JOIN, wait->waiter, NULL);
    if (wait->queue == NULL) return false;
    wait->waiters = PyObject_GetAttr(wait->queue, names[WAITERS]);
    if (wait->waiters == NULL) return false;
    if (entry->system->line == NULL) return true;
    wait->place = PyObject_GetAttr(wait->waiter, names[PLACE]);
    if (wait->place == NULL || !PyObject_TypeCheck(wait->place, place_type)) return false;
    if (!withholds(entry->system) || !line_holds(entry->system->line, wait->worker)) return true;
    return call(entry->system->queues, WAKE_ALL, Py_False); /* what it has in progress isn't waited for any more */
}

/* Of one that was admitted: it waits no more, and the next is woken. False with an exception. */
static bool quit(Wait *wait) {
    System *system = wait->entry->system;
    Calls *calls = system->calls;
    const bool withheld = withholds(system); /* others from whom a start was withheld for this one may go on */
    PyObject *nothing = answer_of(system->queues, LEAVE, wait->queue, wait->waiter);
    Py_XDECREF(nothing);
    if (nothing == NULL || PySet_Add(system->due, wait->queue) < 0) return false;
    if (withheld) return call(system->queues, WAKE_ALL, Py_False);
    if (PyObject_Size(wait->waiters) == 0) return true;
    if (calls->can_start(calls->handle, wait->entry->operation).code == WANZOCHE_BLOCKED) return true;
    return call(system->queues, WAKE_ALL, Py_False);
}

/* Sleeps until it is woken, the time is over, or a door opens, and is going to ask again. False with an exception, also if the time was over
** before. */
static bool sleep_once(Wait *wait) {
    Entry *entry = wait->entry;
    if (entry->timeout != Py_None && !call(entry, IS_LATE, wait->waiter)) return false;
    return call(wait->waiter, WAIT, NULL) && PySet_Add(entry->system->due, wait->queue) == 0;
}

/* Lets Python do what an answer asks for that is neither started nor blocked, and has the answer after that. False with an exception. */
static bool answer_otherwise(Wait *wait) {
    PyObject *code = PyLong_FromUnsignedLong(wait->code);
    PyObject *worker = code == NULL ? NULL : PyLong_FromUnsignedLong(wait->worker);
    PyObject *is_admitted = worker == NULL ? NULL : answer_of(wait->entry, ADMITTED, code, worker);
    Py_XDECREF(worker);
    Py_XDECREF(code);
    if (is_admitted == NULL) return false;
    wait->code = is_admitted == Py_True ? WANZOCHE_STARTED : WANZOCHE_BLOCKED;
    Py_DECREF(is_admitted);
    return true;
}

/*
** From an answer to an attempt to the next. Who waits joins its queue before it asks once more, so that a finish comes before that question
** or finds it in the queue. Only what isn't blocked or withheld is attempted again. False with an exception.
*/
static bool try_again(Wait *wait) {
    Entry *entry = wait->entry;
    uint32_t code;
    if (wait->code != WANZOCHE_BLOCKED) return answer_otherwise(wait);
    if (!(wait->waiter == NULL ? join(wait) : sleep_once(wait))) return false;
    code = wait->place == NULL ? can_start(entry) : place_asks(wait->place);
    if (code == WANZOCHE_BLOCKED || code == WANZOCHE_WITHHELD) return true;
    return begin(entry, wait->worker, &wait->code);
}

/* After an exception, which stays: this turn has begun nothing, nobody waits for it, and others have their turn. */
static void undo(Wait *wait) {
    Entry *entry = wait->entry;
    bool is_of_this_turn = entry->record.worker == wait->worker && !PyErr_ExceptionMatches(in_use);
    if (wait->waiter != NULL) call_surely(entry->system->queues, QUIT, wait->waiter);
    if (is_of_this_turn) end(entry);
    call_surely(entry->system->queues, WAKE_ALL, Py_True);
}

/* Tries to begin it for one who comes now, and has the code of the answer: that of one that is blocked if it is withheld. Others may go on behind
** it. False with an exception. */
static bool ask(Entry *entry, uint32_t worker, uint32_t *code) {
    System *system = entry->system;
    *code = WANZOCHE_BLOCKED;
    if (!withholds(system)) return begin(entry, worker, code);
    if (!entry->record.live && line_is_ahead(system->line, entry->operation, entry->priority, worker)) {
        entry->record.worker = worker; /* as the library writes it with an attempt: somebody enters this entry */
        return true;
    }
    if (!begin(entry, worker, code)) return false;
    if (*code != WANZOCHE_STARTED || wake(system)) return true;
    undo(&(Wait){entry, worker, *code, NULL, NULL, NULL, NULL});
    return false;
}

/* Waits until it is admitted, from the answer to the first attempt on. False with an exception, and then nothing is left of it. */
static bool wait_for_turn(Entry *entry, uint32_t worker, uint32_t code) {
    Wait wait = {entry, worker, code, NULL, NULL, NULL, NULL};
    bool is_well = true;
    while (is_well && wait.code != WANZOCHE_STARTED) is_well = try_again(&wait);
    if (is_well && wait.waiter != NULL) is_well = quit(&wait);
    if (!is_well) undo(&wait);
    Py_XDECREF(wait.place);
    Py_XDECREF(wait.waiters);
    Py_XDECREF(wait.queue);
    Py_XDECREF(wait.waiter);
    return is_well;
}

static PyObject *entry_enter(PyObject *self, PyObject *nothing) {
    Entry *entry = (Entry *)self;
    uint32_t worker, code;
    (void)nothing;
    if (!number_of_thread(entry, &worker) || !ask(entry, worker, &code)) return NULL;
    if (code != WANZOCHE_STARTED && !wait_for_turn(entry, worker, code)) return NULL;
    Py_INCREF(self);
    return self;
}

static PyObject *entry_exit(PyObject *self, PyObject *args) {
    Entry *entry = (Entry *)self;
    if (PyTuple_Size(args) != 3) {
        PyErr_SetString(PyExc_TypeError, "__exit__ takes the kind of an exception, the exception and its traceback, or None for each");
        return NULL;
    }
    if (end(entry) != WANZOCHE_STALE && !wake(entry->system)) return NULL;
    return none();
}

/* Raises what a method of Python's returns. */
static PyObject *raise_from(void *object, enum Name method) {
    PyObject *error = answer_of(object, method, NULL, NULL);
    if (error == NULL) return NULL;
    PyErr_SetObject((PyObject *)Py_TYPE(error), error);
    Py_DECREF(error);
    return NULL;
}

static PyObject *entry_leave(PyObject *self, PyObject *nothing) {
    Entry *entry = (Entry *)self;
    uint32_t code = end(entry);
    (void)nothing;
    if (code != WANZOCHE_STALE && !wake(entry->system)) return NULL;
    if (code == WANZOCHE_CLOSED) return raise_from(entry->system, CLOSED);
    if (code != WANZOCHE_FINISHED) return raise_from(entry, NOT_IN_PROGRESS);
    return none();
}

/* For what is Python of an entry. */

static PyObject *entry_begin(PyObject *self, PyObject *worker) {
    uint32_t number, code;
    if (!number_in(worker, &number) || !begin((Entry *)self, number, &code)) return NULL;
    return PyLong_FromUnsignedLong(code);
}

static PyObject *entry_ask(PyObject *self, PyObject *worker) {
    uint32_t number, code;
    if (!number_in(worker, &number) || !ask((Entry *)self, number, &code)) return NULL;
    return PyLong_FromUnsignedLong(code);
}

static PyObject *entry_end(PyObject *self, PyObject *nothing) {
    (void)nothing;
    return PyLong_FromUnsignedLong(end((Entry *)self));
}

static PyObject *entry_operation(PyObject *self, void *nothing) {
    (void)nothing;
    Py_INCREF(self);
    return self;
}

static PyObject *entry_live(PyObject *self, void *nothing) {
    (void)nothing;
    return PyBool_FromLong(((Entry *)self)->record.live);
}

static PyObject *entry_number(PyObject *self, void *nothing) {
    (void)nothing;
    return PyLong_FromUnsignedLongLong(((Entry *)self)->record.number);
}

static PyObject *entry_worker(PyObject *self, void *nothing) {
    (void)nothing;
    return PyLong_FromUnsignedLong(((Entry *)self)->record.worker);
}

static int entry_set_worker(PyObject *self, PyObject *number, void *nothing) {
    (void)nothing;
    if (number == NULL) {
        PyErr_SetString(PyExc_AttributeError, "an entry always has the number of a worker");
        return -1;
    }
    return number_in(number, &((Entry *)self)->record.worker) ? 0 : -1;
}

static PyMethodDef entry_methods[] = {
    {"__enter__", entry_enter, METH_NOARGS, "__enter__($self, /)\n--\n\nBegins the operation, and waits until it is admitted."},
    {"__exit__", entry_exit, METH_VARARGS, "__exit__($self, kind, error, trace, /)\n--\n\nFinishes the operation if it is in progress."},
    {"leave", entry_leave, METH_NOARGS,
     "leave($self, /)\n--\n\n"
     "Finishes the operation. Raises `NotInProgress` if it isn't in progress, and `Closed` if the paths were closed meanwhile."},
    {"_begin", entry_begin, METH_O, "What the library answers to a start by this worker."},
    {"_ask", entry_ask, METH_O, "The same of one who comes now: as of one that is blocked where it is withheld for one who waits."},
    {"_end", entry_end, METH_NOARGS, "What the library answers to a finish."},
    {NULL, NULL, 0, NULL},
};

static PyGetSetDef entry_attributes[] = {
    {"_operation", entry_operation, NULL, "The entry itself.", NULL},
    {"_live", entry_live, NULL, "Whether it is in progress.", NULL},
    {"_number", entry_number, NULL, "The number of its activation.", NULL},
    {"_worker", entry_worker, entry_set_worker, "The number of who began it, or tried to; 0: nobody has.", NULL},
    {NULL, NULL, NULL, NULL, NULL},
};

static PyMemberDef entry_members[] = {
    {"_paths", T_OBJECT, offsetof(Entry, system), READONLY, "Whose entry it is."},
    {"_name", T_OBJECT, offsetof(Entry, name), READONLY, "The operation's name."},
    {"_timeout", T_OBJECT, offsetof(Entry, timeout), READONLY, "For how many seconds it waits; None: for ever."},
    {"_op", T_UINT, offsetof(Entry, operation), READONLY, "The operation's number."},
    {"_priority", T_UINT, offsetof(Entry, priority), READONLY, "Where it stands among those who wait: the higher, the earlier."},
    {NULL, 0, 0, 0, NULL},
};

static PyType_Slot entry_slots[] = {
    {Py_tp_doc, "What is quick of an entry."},
    {Py_tp_new, entry_new},
    {Py_tp_finalize, entry_finalize},
    {Py_tp_dealloc, entry_dealloc},
    {Py_tp_traverse, entry_traverse},
    {Py_tp_methods, entry_methods},
    {Py_tp_members, entry_members},
    {Py_tp_getset, entry_attributes},
    {0, NULL},
};

static PyType_Spec entry_spec = {
    "wanzoche._core.Entry", sizeof(Entry), 0, Py_TPFLAGS_DEFAULT | Py_TPFLAGS_BASETYPE | Py_TPFLAGS_HAVE_GC, entry_slots,
};

/* Systems. */

static PyObject *system_new(PyTypeObject *type, PyObject *args, PyObject *named) {
    static uint64_t serials;
    System *system = (System *)PyType_GenericAlloc(type, 0);
    (void)args, (void)named;
    if (system == NULL) return NULL;
    system->serial = ++serials;
    return (PyObject *)system;
}

static void system_dealloc(PyObject *self) {
    System *system = (System *)self;
    PyTypeObject *type = Py_TYPE(self);
    PyObject_GC_UnTrack(self);
    Py_XDECREF(system->entry_class);
    Py_XDECREF(system->line);
    Py_XDECREF(system->due);
    Py_XDECREF(system->queues);
    Py_XDECREF(system->numbers);
    Py_XDECREF(system->calls);
    PyObject_GC_Del(self);
    Py_DECREF(type);
}

static int system_traverse(PyObject *self, visitproc visit, void *arg) {
    System *system = (System *)self;
    if (visits_type) Py_VISIT(Py_TYPE(self));
    Py_VISIT(system->entry_class);
    Py_VISIT(system->line);
    Py_VISIT(system->due);
    Py_VISIT(system->queues);
    Py_VISIT(system->numbers);
    Py_VISIT(system->calls);
    return 0;
}

/* Puts a new reference where there may be one, and gives that up afterwards, when nothing leads to it any more. */
static void put(PyObject **place, PyObject *object) {
    PyObject *before = *place;
    Py_INCREF(object);
    *place = object;
    Py_XDECREF(before);
}

/* The same, or nothing for None. */
static void put_or_clear(PyObject **place, PyObject *object) {
    PyObject *before = *place;
    if (object != Py_None) {
        put(place, object);
        return;
    }
    *place = NULL;
    Py_XDECREF(before);
}

static PyObject *system_set_up(PyObject *self, PyObject *args) {
    System *system = (System *)self;
    PyObject *calls, *numbers, *queues, *due, *line, *entry_class;
    int has_threads;
    if (!PyArg_ParseTuple(args, "O!O!OO!OO!p:_set_up", calls_type, &calls, &PyDict_Type, &numbers, &queues, &PySet_Type, &due, &line,
                          &PyType_Type, &entry_class, &has_threads))
        return NULL;
    if (line != Py_None && !PyObject_TypeCheck(line, line_type)) {
        PyErr_SetString(PyExc_TypeError, "the line isn't one of _core.Line, nor None");
        return NULL;
    }
    if (!PyType_IsSubtype((PyTypeObject *)entry_class, entry_type)) {
        PyErr_SetString(PyExc_TypeError, "the class of entries isn't one of _core.Entry");
        return NULL;
    }
    if (!has_threads) system->serial = 0;
    put(&system->numbers, numbers);
    put(&system->queues, queues);
    put(&system->due, due);
    put((PyObject **)&system->entry_class, entry_class);
    put_or_clear((PyObject **)&system->line, line);
    put((PyObject **)&system->calls, calls);
    return none();
}

static PyObject *system_call(PyObject *self, PyObject *args, PyObject *named) {
    static char *keywords[] = {"operation", "timeout", "priority", NULL};
    System *system = (System *)self;
    PyObject *name, *timeout = Py_None, *priority = NULL;
    if (named == NULL && PyTuple_Size(args) == 1) {
        name = PyTuple_GetItem(args, 0);
    } else if (!PyArg_ParseTupleAndKeywords(args, named, "O|OO:__call__", keywords, &name, &timeout, &priority)) {
        return NULL;
    }
    return new_entry(system, system->entry_class, name, timeout, priority);
}

static PyMethodDef system_methods[] = {
    {"_set_up", system_set_up, METH_VARARGS,
     "What belongs to it: its calls, the numbers of its operations, its queues, those that are due, the line of those who wait or None, and the "
     "class of its entries."},
    {NULL, NULL, 0, NULL},
};

static PyType_Slot system_slots[] = {
    {Py_tp_doc, "What is quick of paths."},
    {Py_tp_new, system_new},
    {Py_tp_dealloc, system_dealloc},
    {Py_tp_traverse, system_traverse},
    {Py_tp_call, system_call},
    {Py_tp_methods, system_methods},
    {0, NULL},
};

static PyType_Spec system_spec = {
    "wanzoche._core.System", sizeof(System), 0, Py_TPFLAGS_DEFAULT | Py_TPFLAGS_BASETYPE | Py_TPFLAGS_HAVE_GC, system_slots,
};

/* Steps at a store. */

typedef wanzoche_answer begin_step(void *, uint32_t operation, uint32_t priority, uint32_t caller, uint32_t waits, void *, int64_t limit);
typedef wanzoche_answer end_step(void *, void *, int64_t limit);

/* The base of stores: to begin and to end an operation where the turn is to be had at once. The interpreter keeps its lock meanwhile. */
typedef struct Steps {
    PyObject_HEAD
    begin_step *begin;
    end_step *end;
    void *store; /* null until it is opened */
} Steps;

static PyTypeObject *steps_type;

/* The store. Null with an exception. */
static void *opened(Steps *steps) {
    if (steps->store == NULL) PyErr_SetString(PyExc_RuntimeError, "this store was never opened");
    return steps->store;
}

static PyObject *steps_begin(PyObject *self, PyObject *args) {
    Steps *steps = (Steps *)self;
    unsigned long long record;
    unsigned operation, priority, caller, waits;
    if (!PyArg_ParseTuple(args, "KIIII:_begin_now", &record, &operation, &priority, &caller, &waits) || opened(steps) == NULL) return NULL;
    return PyLong_FromUnsignedLong(steps->begin(steps->store, operation, priority, caller, waits, (void *)(uintptr_t)record, 0).code);
}

static PyObject *steps_end(PyObject *self, PyObject *at) {
    Steps *steps = (Steps *)self;
    void *record = PyLong_AsVoidPtr(at);
    if (PyErr_Occurred() || opened(steps) == NULL) return NULL;
    return PyLong_FromUnsignedLong(steps->end(steps->store, record, 0).code);
}

static PyObject *steps_aim(PyObject *self, PyObject *args) {
    Steps *steps = (Steps *)self;
    unsigned long long begin, end, store;
    if (!PyArg_ParseTuple(args, "KKK:_aim", &begin, &end, &store)) return NULL;
    steps->begin = (begin_step *)(uintptr_t)begin;
    steps->end = (end_step *)(uintptr_t)end;
    steps->store = (void *)(uintptr_t)store;
    return none();
}

static PyObject *steps_new(PyTypeObject *type, PyObject *args, PyObject *named) {
    (void)args, (void)named;
    return PyType_GenericAlloc(type, 0);
}

static void steps_dealloc(PyObject *self) {
    PyTypeObject *type = Py_TYPE(self);
    PyObject_GC_UnTrack(self);
    PyObject_GC_Del(self);
    Py_DECREF(type);
}

static int steps_traverse(PyObject *self, visitproc visit, void *arg) {
    if (visits_type) Py_VISIT(Py_TYPE(self));
    return 0;
}

static PyMethodDef steps_methods[] = {
    {"_begin_now", steps_begin, METH_VARARGS, "Begins the operation of a record, if the turn is to be had at once: the code of the answer."},
    {"_end_now", steps_end, METH_O, "Ends it likewise."},
    {"_aim", steps_aim, METH_VARARGS, "Where the library's calls to begin and to end lie, and the store."},
    {NULL, NULL, 0, NULL},
};

static PyType_Slot steps_slots[] = {
    {Py_tp_doc, "What is quick of a store."},
    {Py_tp_new, steps_new},
    {Py_tp_dealloc, steps_dealloc},
    {Py_tp_traverse, steps_traverse},
    {Py_tp_methods, steps_methods},
    {0, NULL},
};

static PyType_Spec steps_spec = {
    "wanzoche._core.Steps", sizeof(Steps), 0, Py_TPFLAGS_DEFAULT | Py_TPFLAGS_BASETYPE | Py_TPFLAGS_HAVE_GC, steps_slots,
};

static struct PyModuleDef module = {
    PyModuleDef_HEAD_INIT, "wanzoche._core", "What is quick of paths, entries and stores.", -1, NULL, NULL, NULL, NULL, NULL,
};

static bool add(PyObject *made, const char *name, void *object) {
    Py_INCREF((PyObject *)object);
    if (PyModule_AddObject(made, name, object) == 0) return true;
    Py_DECREF((PyObject *)object);
    return false;
}

/* A type, made when the module is first loaded. Null with an exception. */
static PyTypeObject *made_of(PyTypeObject **type, PyType_Spec *spec) {
    if (*type == NULL) *type = (PyTypeObject *)PyType_FromSpec(spec);
    return *type;
}

static bool make_names(void) {
    for (int name = 0; name < NAMES; name++) {
        if (names[name] == NULL) names[name] = PyUnicode_InternFromString(spelled[name]);
        if (names[name] == NULL) return false;
    }
    return true;
}

PyMODINIT_FUNC PyInit__core(void) {
    PyObject *made;
    if (!make_names()) return NULL;
    visits_type = strncmp(Py_GetVersion(), "3.8.", 4) != 0;
    if (!made_of(&calls_type, &calls_spec) || !made_of(&system_type, &system_spec) || !made_of(&entry_type, &entry_spec)) return NULL;
    if (!made_of(&steps_type, &steps_spec) || !make_order_types(visits_type)) return NULL;
    if (in_use == NULL) in_use = PyErr_NewException("wanzoche._attempts.InUse", PyExc_RuntimeError, NULL);
    if (in_use == NULL) return NULL;
    made = PyModule_Create(&module);
    if (made == NULL) return NULL;
    if (add(made, "Calls", calls_type) && add(made, "System", system_type) && add(made, "Entry", entry_type) && add(made, "Steps", steps_type)
        && add(made, "Line", line_type) && add(made, "Place", place_type) && add(made, "InUse", in_use))
        return made;
    Py_DECREF(made);
    return NULL;
}
