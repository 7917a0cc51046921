/*
** Who comes next among those who wait at paths of one process. docs/waiting.md has the rule, and the library judges by it: here is who stands
** in line, since when, and what the others have in progress.
**
** The library is told of those alone who are first for their operation and priority. Behind one of them others wait for the same, so they
** can't begin before it, and who doesn't stand in its way doesn't stand in theirs.
**
** Nothing here runs code in Python, and the interpreter's lock is kept all the time: so no signal handler, finalizer or other thread comes in
** between. A line doesn't hold its places. One that nobody has any more steps out, whatever cut off who had it.
**
** Where memory is wanting to judge, nothing is withheld: then who comes may go past those who wait.
*/
#include "_order.h"

#include <stdlib.h>
#include <time.h>

typedef wanzoche_answer can_start_call(wanzoche *, uint32_t operation);
typedef wanzoche_answer may_start_call(wanzoche *, uint32_t operation, uint32_t priority, uint64_t arrived, const wanzoche_waiter *waiting,
                                       size_t waiters, const uint32_t *running, size_t count);
typedef uint32_t list_live_call(wanzoche *, wanzoche_activation *list, uint32_t capacity);

/* What is told of one who waits. Times are in nanoseconds of the monotonic clock. */
typedef struct Waiter {
    uint32_t operation, priority, worker;
    uint64_t arrived;
    uint64_t turn; /* who came before has a lower one; UINT64_MAX: it comes now */
} Waiter;

/* The place of one who waits, or is going to. */
typedef struct Place {
    PyObject_HEAD
    Line *line;
    struct Place *ahead, *behind; /* in its rank */
    PyObject *worker;             /* the number of the worker, for a dict */
    Waiter is;
    uint64_t opens; /* when the door opens from which it was turned away; 0: it wasn't */
    Waiter whom;    /* of one that was turned away: for whom */
    bool stands;
} Place;

/* Those who wait for one operation with one priority, as they came. */
typedef struct Rank {
    Place *first, *last;
    uint32_t operation, priority;
} Rank;

struct Line {
    PyObject_HEAD
    PyObject *holder; /* has the handle in its memory */
    wanzoche *handle;
    can_start_call *can_start;
    may_start_call *may_start;
    list_live_call *list_live;
    uint64_t patience; /* UINT64_MAX: nothing is ever withheld */
    uint64_t shut;     /* so long a door stays shut; then it opens for those who came meanwhile */
    uint64_t turns;
    Py_ssize_t length;
    Rank *ranks;
    size_t ranks_used, ranks_room;
    PyObject *resting;         /* how many places each worker has that stands in line: a dict */
    wanzoche_waiter *waiting;  /* room for what the library is told of those who wait, as many as there may be ranks */
    Place **told;              /* and who they are */
    wanzoche_activation *live; /* room for all that is in progress */
    uint32_t *running;         /* and for what of it the library is told */
    uint32_t live_room;
};

PyTypeObject *line_type, *place_type;
static bool visits;

static uint64_t now(void) {
    struct timespec time;
    clock_gettime(CLOCK_MONOTONIC, &time);
    return (uint64_t)time.tv_sec * 1000000000 + (uint64_t)time.tv_nsec;
}

static double seconds(uint64_t nanoseconds) {
    return (double)nanoseconds * 1e-9;
}

/* Patience. */

/* How often the door of one has been shut by then; 0 before it has waited for the patience. */
static uint64_t times_shut(const Place *place, uint64_t time) {
    const uint64_t age = time > place->is.arrived ? time - place->is.arrived : 0, patience = place->line->patience;
    return age < patience ? 0 : 1 + (age - patience) / place->line->shut;
}

/* Starts of those who came later than this are withheld for one by then; UINT64_MAX: of nobody. */
static uint64_t shut_at(const Place *place, uint64_t time) {
    const uint64_t times = times_shut(place, time);
    if (times < 2) return times == 0 ? UINT64_MAX : 0;
    return place->is.arrived + place->line->patience + (times - 1) * place->line->shut;
}

/* When the door opens next that one has shut. */
static uint64_t opens_at(const Place *place, uint64_t time) {
    return place->is.arrived + place->line->patience + times_shut(place, time) * place->line->shut;
}

bool line_withholds(const Line *line) {
    uint64_t time;
    if (line->length == 0 || line->patience == UINT64_MAX) return false;
    time = now();
    for (size_t i = 0; i < line->ranks_used; i++)
        if (times_shut(line->ranks[i].first, time) > 0) return true;
    return false;
}

/* What the library is told. */

/* Whether one stands before another. */
static bool is_before(const Waiter *one, const Waiter *other) {
    return one->priority != other->priority ? one->priority > other->priority : one->turn < other->turn;
}

/* The first of a rank whom one who asks might have to wait for; null if there is none. That isn't itself: a signal handler may ask in the middle
** of its thread's wait, which can't go on before. */
static Place *first_but(const Rank *rank, const Waiter *asker) {
    Place *first = rank->first;
    while (first != NULL && first->is.worker == asker->worker) first = first->behind;
    return first != NULL && is_before(&first->is, asker) ? first : NULL;
}

/* Lists the firsts that stand before one who asks, in their order: how many they are. `shuts` says whether one of them may withhold anything. */
static size_t list_waiting(Line *line, const Waiter *asker, uint64_t time, bool *shuts) {
    size_t count = 0, at;
    *shuts = false;
    for (size_t i = 0; i < line->ranks_used; i++) {
        Place *first = first_but(&line->ranks[i], asker);
        if (first == NULL) continue;
        for (at = count++; at > 0 && is_before(&first->is, &line->told[at - 1]->is); at--) line->told[at] = line->told[at - 1];
        line->told[at] = first;
    }
    for (at = 0; at < count; at++) {
        const Waiter *is = &line->told[at]->is;
        line->waiting[at] = (wanzoche_waiter){is->operation, is->priority, is->arrived, shut_at(line->told[at], time)};
        *shuts = *shuts || line->waiting[at].shut_at < asker->arrived;
    }
    return count;
}

/* Has room for so many in progress. False if there is no memory. */
static bool has_live_room(Line *line, uint32_t count) {
    wanzoche_activation *live;
    uint32_t *running;
    if (count <= line->live_room) return true;
    if (count > UINT32_MAX / 2) return false;
    live = (wanzoche_activation *)PyMem_Realloc(line->live, 2 * (size_t)count * sizeof *live);
    if (live == NULL) return false;
    line->live = live;
    running = (uint32_t *)PyMem_Realloc(line->running, 2 * (size_t)count * sizeof *running);
    if (running == NULL) return false;
    line->running = running;
    line->live_room = 2 * count;
    return true;
}

/* Lists what is in progress. False if there is no memory. */
static bool list_live(Line *line, uint32_t *count) {
    *count = line->list_live(line->handle, line->live, line->live_room);
    if (*count <= line->live_room) return true;
    return has_live_room(line, *count) && line->list_live(line->handle, line->live, line->live_room) == *count;
}

/* Whether a worker waits. Where that can't be told it counts as waiting: what isn't known doesn't run. */
static bool rests(Line *line, uint32_t number) {
    PyObject *worker = PyLong_FromUnsignedLong(number);
    const bool is_resting = worker == NULL || PyDict_GetItemWithError(line->resting, worker) != NULL || PyErr_Occurred() != NULL;
    Py_XDECREF(worker);
    PyErr_Clear();
    return is_resting;
}

/* Lists the operations in progress of those who don't wait, without those of who asks: how many they are. False if there is no memory. */
static bool list_running(Line *line, uint32_t asker, size_t *count) {
    uint32_t live;
    *count = 0;
    if (!list_live(line, &live)) return false;
    for (uint32_t i = 0; i < live; i++)
        if (line->live[i].worker != asker && !rests(line, line->live[i].worker)) line->running[(*count)++] = line->live[i].operation;
    return true;
}

/* What a start would be answered now, and for whom it is withheld if it is. */
static uint32_t ruling(Line *line, const Waiter *asker, uint64_t time, Place **ahead) {
    wanzoche_answer answer;
    size_t waiting, running;
    bool shuts;
    *ahead = NULL;
    waiting = list_waiting(line, asker, time, &shuts);
    if (shuts && list_running(line, asker->worker, &running)) {
        answer = line->may_start(line->handle, asker->operation, asker->priority, asker->arrived, line->waiting, waiting, line->running, running);
        if (answer.code == WANZOCHE_WITHHELD && answer.number < waiting) *ahead = line->told[answer.number];
        if (answer.code != WANZOCHE_OUT_OF_MEMORY) return answer.code;
    }
    return line->can_start(line->handle, asker->operation).code;
}

/* For whom the start of one who comes now is withheld; null if it isn't. */
static Place *ahead_of(Line *line, uint32_t operation, uint32_t priority, uint32_t worker) {
    const uint64_t time = now();
    const Waiter asker = {operation, priority, worker, time, UINT64_MAX};
    Place *ahead;
    ruling(line, &asker, time, &ahead);
    return ahead;
}

bool line_is_ahead(Line *line, uint32_t operation, uint32_t priority, uint32_t worker) {
    return ahead_of(line, operation, priority, worker) != NULL;
}

bool line_holds(Line *line, uint32_t worker) {
    uint32_t live;
    if (!list_live(line, &live)) return true;
    while (live > 0)
        if (line->live[--live].worker == worker) return true;
    return false;
}

uint32_t place_asks(PyObject *self) {
    Place *place = (Place *)self, *ahead;
    const uint64_t time = now();
    const uint32_t code = ruling(place->line, &place->is, time, &ahead);
    place->opens = 0;
    if (ahead == NULL) return code;
    place->opens = opens_at(ahead, time);
    place->whom = ahead->is;
    return code;
}

/* Places. */

/* Adds to how many places of the worker stand in line. False with an exception. */
static bool add_resting(Line *line, PyObject *worker, long added) {
    PyObject *had = PyDict_GetItemWithError(line->resting, worker), *has;
    const long count = (had == NULL ? 0 : PyLong_AsLong(had)) + added;
    bool is_set;
    if (PyErr_Occurred()) return false;
    if (count == 0) return PyDict_DelItem(line->resting, worker) == 0;
    has = PyLong_FromLong(count);
    is_set = has != NULL && PyDict_SetItem(line->resting, worker, has) == 0;
    Py_XDECREF(has);
    return is_set;
}

/* Has room for one rank more. False with an exception. */
static bool has_rank_room(Line *line) {
    const size_t room = line->ranks_room == 0 ? 8 : 2 * line->ranks_room;
    void *made;
    if (line->ranks_used < line->ranks_room) return true;
    if ((made = PyMem_Realloc(line->ranks, room * sizeof *line->ranks)) != NULL) line->ranks = (Rank *)made;
    if (made != NULL && (made = PyMem_Realloc(line->waiting, room * sizeof *line->waiting)) != NULL) line->waiting = (wanzoche_waiter *)made;
    if (made != NULL && (made = PyMem_Realloc(line->told, room * sizeof *line->told)) != NULL) line->told = (Place **)made;
    if (made == NULL) {
        PyErr_NoMemory();
        return false;
    }
    line->ranks_room = room;
    return true;
}

/* The rank of an operation and priority, which may be new and have nobody. Null with an exception. */
static Rank *rank_of(Line *line, uint32_t operation, uint32_t priority) {
    for (size_t i = 0; i < line->ranks_used; i++)
        if (line->ranks[i].operation == operation && line->ranks[i].priority == priority) return &line->ranks[i];
    if (!has_rank_room(line)) return NULL;
    line->ranks[line->ranks_used] = (Rank){NULL, NULL, operation, priority};
    return &line->ranks[line->ranks_used];
}

/* Stands in line from now on, behind all others of its rank. False with an exception. */
static bool stand(Place *place) {
    Line *line = place->line;
    Rank *rank = rank_of(line, place->is.operation, place->is.priority);
    if (rank == NULL || !add_resting(line, place->worker, 1)) return false;
    if (rank->first == NULL) line->ranks_used++;
    place->ahead = rank->last;
    place->behind = NULL;
    *(rank->last == NULL ? &rank->first : &rank->last->behind) = place;
    rank->last = place;
    place->is.arrived = now();
    place->is.turn = ++line->turns;
    place->stands = true;
    line->length++;
    return true;
}

/* Stands in line no more. */
static void step_out(Place *place) {
    Line *line = place->line;
    Rank *rank = rank_of(line, place->is.operation, place->is.priority); /* which is there */
    *(place->ahead == NULL ? &rank->first : &place->ahead->behind) = place->behind;
    *(place->behind == NULL ? &rank->last : &place->behind->ahead) = place->ahead;
    if (rank->first == NULL) *rank = line->ranks[--line->ranks_used];
    place->stands = false;
    line->length--;
    if (!add_resting(line, place->worker, -1)) PyErr_Clear();
}

/* A number of 32 bits. False with an exception. */
static int number_in(PyObject *object, void *number) {
    const unsigned long value = PyLong_AsUnsignedLong(object);
    if (value == (unsigned long)-1 && PyErr_Occurred()) return 0;
    if (value > UINT32_MAX) {
        PyErr_SetString(PyExc_OverflowError, "a number of the library has 32 bits");
        return 0;
    }
    *(uint32_t *)number = (uint32_t)value;
    return 1;
}

static PyObject *place_new(PyTypeObject *type, PyObject *args, PyObject *named) {
    PyObject *line;
    Waiter is = {0, 0, 0, 0, UINT64_MAX};
    Place *place;
    (void)named;
    if (!PyArg_ParseTuple(args, "O!O&O&O&:Place", line_type, &line, number_in, &is.operation, number_in, &is.priority, number_in, &is.worker))
        return NULL;
    place = (Place *)PyType_GenericAlloc(type, 0);
    if (place == NULL) return NULL;
    Py_INCREF(line);
    place->line = (Line *)line;
    place->is = is;
    place->worker = PyLong_FromUnsignedLong(is.worker);
    if (place->worker != NULL) return (PyObject *)place;
    Py_DECREF(place);
    return NULL;
}

static void place_dealloc(PyObject *self) {
    Place *place = (Place *)self;
    PyTypeObject *type = Py_TYPE(self);
    PyObject *kind, *error, *trace;
    PyObject_GC_UnTrack(self);
    if (place->stands) {
        PyErr_Fetch(&kind, &error, &trace);
        step_out(place);
        PyErr_Restore(kind, error, trace);
    }
    Py_XDECREF(place->worker);
    Py_XDECREF(place->line);
    PyObject_GC_Del(self);
    Py_DECREF(type);
}

static int place_traverse(PyObject *self, visitproc visit, void *arg) {
    if (visits) Py_VISIT(Py_TYPE(self));
    Py_VISIT(((Place *)self)->line);
    return 0;
}

static PyObject *nothing(void) {
    return Py_BuildValue("");
}

/* One who waits, as Python is told of it. Null with an exception. */
static PyObject *told_of(const Waiter *is, uint64_t time) {
    const uint64_t age = time > is->arrived ? time - is->arrived : 0;
    return Py_BuildValue("IIId", (unsigned)is->operation, (unsigned)is->worker, (unsigned)is->priority, seconds(age));
}

static PyObject *place_stand(PyObject *self, PyObject *unused) {
    (void)unused;
    if (!((Place *)self)->stands && !stand((Place *)self)) return NULL;
    return nothing();
}

static PyObject *place_step_out(PyObject *self, PyObject *unused) {
    (void)unused;
    if (((Place *)self)->stands) step_out((Place *)self);
    return nothing();
}

static PyObject *place_asks_again(PyObject *self, PyObject *unused) {
    (void)unused;
    return PyLong_FromUnsignedLong(place_asks(self));
}

static PyObject *place_is_held_back(PyObject *self, PyObject *unused) {
    Place *place = (Place *)self, *ahead;
    const uint32_t code = ruling(place->line, &place->is, now(), &ahead);
    (void)unused;
    return PyBool_FromLong(code == WANZOCHE_BLOCKED || (ahead != NULL && place->opens != 0));
}

static PyObject *place_opens(PyObject *self, void *unused) {
    const Place *place = (Place *)self;
    (void)unused;
    return place->opens == 0 ? nothing() : PyFloat_FromDouble(seconds(place->opens));
}

static PyObject *place_behind_whom(PyObject *self, void *unused) {
    const Place *place = (Place *)self;
    (void)unused;
    return place->opens == 0 ? nothing() : told_of(&place->whom, now());
}

static PyMethodDef place_methods[] = {
    {"stand", place_stand, METH_NOARGS, "Stands in line from now on. To do so twice does no harm."},
    {"step_out", place_step_out, METH_NOARGS, "Stands in line no more. To do so twice does no harm."},
    {"asks", place_asks_again, METH_NOARGS,
     "Called by who waits: what its start would be answered now. Of one that is withheld it is noted when it is to ask again."},
    {"is_held_back", place_is_held_back, METH_NOARGS,
     "Whether a path forbids its start, or it is withheld and asks again by itself."},
    {NULL, NULL, 0, NULL},
};

static PyGetSetDef place_attributes[] = {
    {"opens", place_opens, NULL, "When it is to ask again, by the monotonic clock; None where no start of it is withheld.", NULL},
    {"behind", place_behind_whom, NULL,
     "For whom its start is withheld: the operation, the worker, the priority, and for how many seconds that one has waited. None as above.",
     NULL},
    {NULL, NULL, NULL, NULL, NULL},
};

static PyType_Slot place_slots[] = {
    {Py_tp_doc, "One who waits at a line, for an operation, with a priority: a worker."},
    {Py_tp_new, place_new},
    {Py_tp_dealloc, place_dealloc},
    {Py_tp_traverse, place_traverse},
    {Py_tp_methods, place_methods},
    {Py_tp_getset, place_attributes},
    {0, NULL},
};

static PyType_Spec place_spec = {"wanzoche._core.Place", sizeof(Place), 0, Py_TPFLAGS_DEFAULT | Py_TPFLAGS_HAVE_GC, place_slots};

/* Lines. */

static PyObject *line_new(PyTypeObject *type, PyObject *args, PyObject *named) {
    unsigned long long can_start, may_start, live, handle, patience, shut;
    PyObject *holder;
    Line *line;
    (void)named;
    if (!PyArg_ParseTuple(args, "KKKKOKK:Line", &can_start, &may_start, &live, &handle, &holder, &patience, &shut)) return NULL;
    if (can_start == 0 || may_start == 0 || live == 0 || handle == 0 || shut == 0) {
        PyErr_SetString(PyExc_ValueError, "nothing lies at the address 0, and a door is shut for longer than 0");
        return NULL;
    }
    line = (Line *)PyType_GenericAlloc(type, 0);
    if (line == NULL) return NULL;
    line->can_start = (can_start_call *)(uintptr_t)can_start;
    line->may_start = (may_start_call *)(uintptr_t)may_start;
    line->list_live = (list_live_call *)(uintptr_t)live;
    line->handle = (wanzoche *)(uintptr_t)handle;
    line->patience = patience;
    line->shut = shut;
    Py_INCREF(holder);
    line->holder = holder;
    line->resting = PyDict_New();
    if (line->resting != NULL) return (PyObject *)line;
    Py_DECREF(line);
    return NULL;
}

static void line_dealloc(PyObject *self) {
    Line *line = (Line *)self;
    PyTypeObject *type = Py_TYPE(self);
    PyObject_GC_UnTrack(self);
    PyMem_Free(line->running);
    PyMem_Free(line->live);
    PyMem_Free(line->told);
    PyMem_Free(line->waiting);
    PyMem_Free(line->ranks);
    Py_XDECREF(line->resting);
    Py_XDECREF(line->holder);
    PyObject_GC_Del(self);
    Py_DECREF(type);
}

static int line_traverse(PyObject *self, visitproc visit, void *arg) {
    if (visits) Py_VISIT(Py_TYPE(self));
    Py_VISIT(((Line *)self)->resting);
    Py_VISIT(((Line *)self)->holder);
    return 0;
}

static PyObject *line_does_withhold(PyObject *self, PyObject *unused) {
    (void)unused;
    return PyBool_FromLong(line_withholds((Line *)self));
}

static PyObject *line_does_hold(PyObject *self, PyObject *worker) {
    uint32_t number;
    if (!number_in(worker, &number)) return NULL;
    return PyBool_FromLong(line_holds((Line *)self, number));
}

static PyObject *line_ahead_of(PyObject *self, PyObject *args) {
    uint32_t operation, priority, worker;
    const Place *ahead;
    Waiter is;
    if (!PyArg_ParseTuple(args, "O&O&O&:ahead_of", number_in, &operation, number_in, &priority, number_in, &worker)) return NULL;
    ahead = ahead_of((Line *)self, operation, priority, worker);
    if (ahead == NULL) return nothing();
    is = ahead->is;
    return told_of(&is, now());
}

static int compare(const void *one, const void *other) {
    if (is_before((const Waiter *)one, (const Waiter *)other)) return -1;
    return is_before((const Waiter *)other, (const Waiter *)one) ? 1 : 0;
}

/* A copy of all who wait, in order. Null if there is no memory. */
static Waiter *copy_of_all(const Line *line) {
    Waiter *all = (Waiter *)PyMem_Malloc((size_t)(line->length + 1) * sizeof *all);
    size_t count = 0;
    if (all == NULL) return NULL;
    for (size_t i = 0; i < line->ranks_used; i++)
        for (const Place *place = line->ranks[i].first; place != NULL; place = place->behind) all[count++] = place->is;
    qsort(all, count, sizeof *all, compare);
    return all;
}

/* A copy, since to make what Python gets may let finalizers run, which change the line. */
static PyObject *line_waiters(PyObject *self, PyObject *unused) {
    const Py_ssize_t length = ((Line *)self)->length;
    const uint64_t time = now();
    Waiter *all = copy_of_all((Line *)self);
    PyObject *told, *list = all == NULL ? PyErr_NoMemory() : PyList_New(0);
    (void)unused;
    for (Py_ssize_t i = 0; list != NULL && i < length; i++) {
        told = told_of(&all[i], time);
        if (told == NULL || PyList_Append(list, told) < 0) Py_CLEAR(list);
        Py_XDECREF(told);
    }
    PyMem_Free(all);
    return list;
}

static Py_ssize_t line_length(PyObject *self) {
    return ((Line *)self)->length;
}

static PyMethodDef line_methods[] = {
    {"withholds", line_does_withhold, METH_NOARGS, "Whether somebody has waited for so long that starts may be withheld."},
    {"holds", line_does_hold, METH_O, "Whether this worker has something in progress."},
    {"ahead_of", line_ahead_of, METH_VARARGS,
     "For whom the start of an operation is withheld of a worker who comes now with a priority: the operation, the worker, the priority, and "
     "for how many seconds that one has waited. None if it isn't."},
    {"waiters", line_waiters, METH_NOARGS, "All who wait, in order, each told of as above."},
    {NULL, NULL, 0, NULL},
};

static PyType_Slot line_slots[] = {
    {Py_tp_doc, "Those who wait at a handle. It takes the addresses of can_start, may_start, list_live and the handle, what holds that, how many "
                "nanoseconds one waits before starts are withheld for it, and for how many its door then stays shut."},
    {Py_tp_new, line_new},
    {Py_tp_dealloc, line_dealloc},
    {Py_tp_traverse, line_traverse},
    {Py_tp_methods, line_methods},
    {Py_sq_length, line_length},
    {0, NULL},
};

static PyType_Spec line_spec = {"wanzoche._core.Line", sizeof(Line), 0, Py_TPFLAGS_DEFAULT | Py_TPFLAGS_HAVE_GC, line_slots};

bool make_order_types(bool visits_type) {
    visits = visits_type;
    if (line_type == NULL) line_type = (PyTypeObject *)PyType_FromSpec(&line_spec);
    if (place_type == NULL) place_type = (PyTypeObject *)PyType_FromSpec(&place_spec);
    return line_type != NULL && place_type != NULL;
}
