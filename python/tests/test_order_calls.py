"""Who comes next, by `wanzoche_may_start` and `wanzoche_next`: what these calls of the C library answer, and that nobody who waits by them
waits for ever.

The answers are compared with their definition. And processes that wait as monitors do are followed through every schedule of small random
declarations and scripts. Where the gate alone, at which nobody waits for others, ends every schedule, each has to end here, too. A case
follows from its number. `python3 -m tests.test_order_calls 100000` follows so many cases, and says what it saw.
"""

import collections
import contextlib
import ctypes
import itertools
import random
import resource
import struct
import sys
import time
import unittest
from ctypes import c_char_p, c_size_t, c_uint32, c_uint64, c_void_p

from wanzoche import _native as native
from wanzoche._form import core

from .stores import THOROUGH

ALL = THOROUGH and core is None
"""Whether all cases are followed. The package's form makes no difference here, so only where it has no core in C."""
CASES = 10000 if ALL else 500
RULINGS = 20000 if ALL else 2000

WITHHELD, NEXT, NOBODY = 57, 58, 59
SHUT, OPEN = 0, 2**64 - 1
"""When one who waits has shut its door: before anybody came, or never."""

DONE = ("done",)
"""What is left of an execution that is over."""
WAITER = struct.Struct("IIQQ")

library = ctypes.PyDLL(native._at)
may_start = library.wanzoche_may_start
may_start.restype = native.Answer
may_start.argtypes = [c_void_p, c_uint32, c_uint32, c_uint64, c_char_p, c_size_t, c_char_p, c_size_t]
who_is_next = library.wanzoche_next
who_is_next.restype = native.Answer
who_is_next.argtypes = [c_void_p, c_char_p, c_size_t, c_char_p, c_size_t]


def random_tree(chance, operations, braces=True):
    """A path's tree, in which each of these operations is once: ("op", a), ("seq", s, t), ("alt", s, t) or ("burst", bound or None, s)."""
    if braces and chance.random() < 0.35:
        return ("burst", chance.choice([None, None, 1, 2, 3]), random_tree(chance, operations, False))
    if len(operations) == 1:
        return ("op", operations[0])
    kind, middle = chance.choice(["seq", "seq", "alt"]), chance.randrange(1, len(operations))
    return (kind, random_tree(chance, operations[:middle], braces), random_tree(chance, operations[middle:], braces))


def operations_in(tree):
    if tree[0] == "op":
        return {tree[1]}
    return set().union(*[operations_in(each) for each in tree[1:] if isinstance(each, tuple)])


def name_of(operation):
    return "abcde"[operation]


def text_of(tree):
    """The tree, as a path has it."""
    if tree[0] == "op":
        return name_of(tree[1])
    if tree[0] == "burst":
        return "{{ {}{} }}".format(text_of(tree[2]), " : {}".format(tree[1]) if tree[1] else "")
    return "( {} {} {} )".format(text_of(tree[1]), ";" if tree[0] == "seq" else ",", text_of(tree[2]))


def begun(rest, operation):
    """What is left of an execution behind a start of this operation; None where the start can't come now.

    It is a tree where what is in progress is ("in", a) and braces are ("open", bound, s, what is left of each execution of s)."""
    kind = rest[0]
    if kind == "op" and rest[1] == operation:
        return ("in", operation)
    if kind == "seq":
        left = begun(rest[1], operation)
        return left and ("seq", left, rest[2])
    if kind == "alt":
        return begun(rest[1], operation) or begun(rest[2], operation)
    if kind == "burst":
        first = begun(rest[2], operation)
        return first and ("open", rest[1], rest[2], (first,))
    return begun_in_braces(rest, operation) if kind == "open" else None


def begun_in_braces(rest, operation):
    _, bound, inner, parts = rest
    for place, part in enumerate(parts):
        changed = begun(part, operation)
        if changed:
            return ("open", bound, inner, tuple(sorted((*parts[:place], changed, *parts[place + 1 :]))))
    one_more = begun(inner, operation) if bound is None or len(parts) < bound else None
    return one_more and ("open", bound, inner, tuple(sorted((*parts, one_more))))


def ended(rest, operation):
    """What is left of an execution behind a finish of this operation; None where it isn't in progress."""
    kind = rest[0]
    if kind == "in" and rest[1] == operation:
        return DONE
    if kind == "seq":
        left = ended(rest[1], operation)
        return rest[2] if left == DONE else left and ("seq", left, rest[2])
    return ended_in_braces(rest, operation) if kind == "open" else None


def ended_in_braces(rest, operation):
    _, bound, inner, parts = rest
    for place, part in enumerate(parts):
        changed = ended(part, operation)
        if changed:
            others = (*parts[:place], *parts[place + 1 :])
            left = others if changed == DONE else tuple(sorted((*others, changed)))
            return ("open", bound, inner, left) if left else DONE
    return None


class Gate:
    """What the words of a declaration's paths allow, as docs/semantics.md defines it. Its states have numbers: 0 is the first."""

    def __init__(self, trees, operations):
        self.operations = range(operations)
        self.paths = range(len(trees))
        self.trees = trees
        self.named = [operations_in(tree) for tree in trees]
        paths = " ".join("path {} end".format(text_of(tree)) for tree in trees)
        self.text = "resource r cell operation {} {} end".format(", ".join(map(name_of, self.operations)), paths)
        self._rests, self._numbers = [trees], {trees: 0}
        self._behind = {}
        self._ways = [None]

    def forbids(self, path, state, operation):
        """Whether a path forbids a start now."""
        return operation in self.named[path] and begun(self._rests[state][path], operation) is None

    def started(self, state, operation):
        """The state behind a start; None where a path forbids it."""
        return self._moved(state, begun, operation)

    def finished(self, state, operation):
        """The state behind a finish; None where a path sees no such operation in progress."""
        return self._moved(state, ended, operation)

    def history(self, state):
        """The starts and finishes that lead to a state: each as (`begun` or `ended`, operation)."""
        events = []
        while state:
            state, event = self._ways[state]
            events.append(event)
        return events[::-1]

    def _moved(self, state, step, operation):
        key = state, step, operation
        if key not in self._behind:
            self._behind[key] = self._number(state, step, operation)
        return self._behind[key]

    def _number(self, state, step, operation):
        rests = list(self._rests[state])
        for path in self.paths:
            if operation in self.named[path]:
                rest = step(rests[path], operation)
                if rest is None:
                    return None
                rests[path] = self.trees[path] if rest == DONE else rest
        behind = tuple(rests)
        if behind not in self._numbers:
            self._numbers[behind] = len(self._rests)
            self._rests.append(behind)
            self._ways.append((state, (step, operation)))
        return self._numbers[behind]


def random_gate(chance, most):
    operations = chance.randint(2, most)
    trees = []
    for _ in range(chance.randint(1, 3)):
        named = [each for each in range(operations) if chance.random() < 0.7] or [chance.randrange(operations)]
        chance.shuffle(named)
        trees.append(random_tree(chance, named))
    return Gate(tuple(trees), operations)


class Definition:
    """The answers as they are defined: a code, and which numbers are right. A waiter is (operation, priority, arrived, shut_at)."""

    def __init__(self, gate):
        self.gate = gate

    def over(self, state, running):
        """The state if all of these were over; what isn't in progress counts for nothing."""
        for operation in running:
            behind = self.gate.finished(state, operation)
            state = state if behind is None else behind
        return state

    def is_clear(self, state, running, y):
        """Whether y would be admitted if all that the running have in progress were over."""
        return self.gate.started(self.over(state, running), y) is not None

    def takes(self, state, x, y):
        """Whether x takes what a path has free for y now."""
        behind = self.gate.started(state, x)
        return any(self.gate.forbids(path, behind, y) and not self.gate.forbids(path, state, y) for path in self.gate.paths)

    def stands_in_the_way(self, state, running, x, y):
        if not any(x in named and y in named for named in self.gate.named) or not self.is_clear(state, running, y):
            return False
        return self.takes(state, x, y) or not self.is_clear(self.gate.started(state, x), running, y)

    def ruling(self, state, asking, ahead, running):
        x, _, arrived, _ = asking
        forbidding = [path for path in self.gate.paths if self.gate.forbids(path, state, x)]
        if forbidding:
            return native.BLOCKED, {forbidding[0]}
        shut = [place for place, each in enumerate(ahead) if each[3] < arrived]
        places = {place for place in shut if self.stands_in_the_way(state, running, x, ahead[place][0])}
        return (WITHHELD, places) if places else (native.CAN_START, {0})

    def may_start(self, state, asking, waiting, running):
        return self.ruling(state, asking, [each for each in waiting if each[1] >= asking[1]], running)

    def next(self, state, waiting, running):
        for place, asking in enumerate(waiting):
            if self.ruling(state, asking, waiting[:place], running)[0] == native.CAN_START:
                return NEXT, {place}
        return NOBODY, {0}


def random_waiter(chance, operations):
    """Times are so few that many are equal."""
    door = chance.choice((SHUT, SHUT, SHUT, chance.randint(0, 5), chance.randint(0, 5), OPEN))
    return chance.choice(operations), chance.choice((0, 0, 1)), chance.randint(0, 5), door


def random_move(chance, gate, state, live):
    """A start that the gate admits, or a finish, as (`begun` or `ended`, operation); (None, None) if there is none. `live` is what is in
    progress, and changes by it."""
    starts = [each for each in gate.operations if gate.started(state, each) is not None]
    if starts and len(live) < 6 and (not live or chance.random() < 0.6):
        live.append(chance.choice(starts))
        return begun, live[-1]
    return (ended, live.pop(chance.randrange(len(live)))) if live else (None, None)


class System:
    """A system of the C library, to be closed."""

    def __init__(self, text):
        self._handle = native.Handle()
        self._at = ctypes.addressof(self._handle)
        self._live = collections.defaultdict(list)
        answer = native.open_without_journal(self._at, text.encode(), len(text), 32, None, 0)
        if answer.code != native.OPENED:
            raise AssertionError("{}: {}".format(text, native.words(answer.code).decode()))

    def move(self, step, operation):
        """A start or a finish, by `begun` or `ended`, which the gate has to admit."""
        live = self._live[operation]
        if step is begun:
            answer = native.start(self._at, 1, operation)
            live.append(answer.number)
        else:
            answer = native.finish(self._at, 1, live.pop())
        if answer.code != (native.STARTED if step is begun else native.FINISHED):
            raise AssertionError("{}: {}".format(name_of(operation), native.words(answer.code).decode()))

    def may_start(self, asking, waiting, running):
        operation, priority, arrived, _ = asking
        answer = may_start(self._at, operation, priority, arrived, *listed(waiting, running))
        return answer.code, answer.number

    def next(self, waiting, running):
        answer = who_is_next(self._at, *listed(waiting, running))
        return answer.code, answer.number

    def close(self):
        native.close(self._at)


def listed(waiting, running):
    waiters = b"".join([WAITER.pack(*each) for each in waiting])
    return waiters, len(waiting), struct.pack("{}I".format(len(running)), *running), len(running)


class Calls:
    """What the library answers in each state of a gate, to be closed: a system for each state in which somebody asks. A question changes
    nothing there, so each is asked once."""

    def __init__(self, gate):
        self._gate = gate
        self._systems = {}
        self._told = {}

    def may_start(self, *question):
        """Whether a start may go: in this state, who asks, who waits and what runs."""
        if question not in self._told:
            state, (operation, *_), _, _ = question
            code, _ = self._system(state).may_start(*question[1:])
            if (code == native.BLOCKED) != (self._gate.started(state, operation) is None):
                raise AssertionError("{} in {}: {}".format(question, self._gate.text, native.words(code).decode()))
            self._told[question] = code == native.CAN_START
        return self._told[question]

    def next(self, *question):
        """The place of who comes next, None if nobody does: in this state, who waits and what runs."""
        if question not in self._told:
            code, place = self._system(question[0]).next(*question[1:])
            self._told[question] = place if code == NEXT else None
        return self._told[question]

    def _system(self, state):
        if state not in self._systems:
            self._systems[state] = system = System(self._gate.text)
            for step, operation in self._gate.history(state):
                system.move(step, operation)
        return self._systems[state]

    def close(self):
        for each in self._systems.values():
            each.close()


def random_script(chance, operations):
    """One to three starts, each with its finish: steps as (whether it starts, operation, priority)."""
    steps, live, starts = [], [], chance.randint(1, 3)
    while starts or live:
        if starts and (not live or chance.random() < 0.5):
            steps.append((True, chance.choice(operations), chance.choice((0, 0, 1))))
            live.append(steps[-1][1])
            starts -= 1
        else:
            steps.append((False, live.pop(chance.randrange(len(live))), 0))
    return steps


def held_in(script):
    """What a process has in progress before each of its steps, and behind the last."""
    held = [()]
    for starts, operation, _ in script:
        before = held[-1]
        place = len(before) if starts else before.index(operation)
        held.append(before + (operation,) if starts else before[:place] + before[place + 1 :])
    return held


class Case:
    """A declaration and two or three scripts, which follow from the case's number."""

    def __init__(self, number):
        chance = random.Random(number)
        self.number = number
        self.gate = random_gate(chance, 4)
        self.scripts = [random_script(chance, self.gate.operations) for _ in range(chance.randint(2, 3))]

    def __str__(self):
        lines = ["case {}: {}".format(self.number, self.gate.text)]
        for process, script in enumerate(self.scripts):
            steps = ["start {} at {}".format(name_of(x), priority) if starts else "finish " + name_of(x) for starts, x, priority in script]
            lines.append("process {}: {}".format(process, ", ".join(steps)))
        return "\n".join(lines)


def advanced(steps, process):
    return (*steps[:process], steps[process] + 1, *steps[process + 1 :])


def asked_by(step):
    """Who waits for this start, as the calls know it, by whether it has shut its door."""
    _, operation, priority = step
    return {door: (operation, priority, 1, door) for door in (SHUT, OPEN)}


class AtTheGate:
    """Processes at a gate, where who is refused tries again. A state is the step of each, those who wait, and the gate's state; here nobody
    waits."""

    def __init__(self, case):
        self.gate, self.scripts = case.gate, case.scripts
        self.first = (0,) * len(case.scripts), (), 0

    def moves(self, steps, queue, at):
        """What processes can do next: who does what, and the state behind it."""
        moves = []
        for process, script in enumerate(self.scripts):
            if steps[process] < len(script):
                starts, operation, _ = script[steps[process]]
                behind = self.gate.started(at, operation) if starts else self.gate.finished(at, operation)
                if behind is not None:
                    moves.append((process, "starts" if starts else "finishes", (advanced(steps, process), queue, behind)))
        return moves

    def meanwhile(self, steps, queue, at):
        """What else may happen."""
        return ()

    def is_done(self, steps, queue, at):
        return all(step == len(script) for step, script in zip(steps, self.scripts))


class Waiting(AtTheGate):
    """Processes that wait as monitors do. Each who waits is (process, when it shut its door, whether it was woken), in order. Who was woken
    asks again at any later moment; and at any moment one who waits shuts its door, or gives up, and asks anew later."""

    def __init__(self, case, calls):
        super().__init__(case)
        self.calls = calls
        self.held = [held_in(script) for script in case.scripts]
        self.asked = [[asked_by(step) for step in script] for script in case.scripts]

    def moves(self, steps, queue, at):
        moves = [self.asks_again(place, steps, queue, at) for place, (_, _, woken) in enumerate(queue) if woken]
        waiting = [process for process, _, _ in queue]
        for process, script in enumerate(self.scripts):
            if process not in waiting and steps[process] < len(script):
                moves.append(self.goes_on(process, steps, queue, at))
        return moves

    def goes_on(self, process, steps, queue, at):
        """The next step of one who doesn't wait. Before a start it asks whether it may, if others wait."""
        starts, operation, priority = self.scripts[process][steps[process]]
        if not starts:
            return process, "finishes", self.wake(advanced(steps, process), queue, self.gate.finished(at, operation))
        behind = self.gate.started(at, operation)
        if self.may_start((process, OPEN, False), queue, steps, queue, at) if queue else behind is not None:
            return process, "starts", self.wake(advanced(steps, process), queue, behind)
        ahead = [each for each in queue if self.waiter(steps, each)[1] >= priority]
        queue = (*ahead, (process, OPEN, False), *queue[len(ahead) :])
        return process, "waits to start", self.begun_to_wait(process, steps, queue, at)

    def asks_again(self, place, steps, queue, at):
        """One who was woken asks whether it may start, behind those before it."""
        process, door, _ = asking = queue[place]
        ahead, behind = queue[:place], queue[place + 1 :]
        if self.may_start(asking, ahead, steps, queue, at):
            started = self.gate.started(at, self.scripts[process][steps[process]][1])
            return process, "was woken and starts", self.wake(advanced(steps, process), ahead + behind, started)
        return process, "was woken and waits on to start", self.wake(steps, (*ahead, (process, door, False), *behind), at)

    def meanwhile(self, steps, queue, at):
        for place, (process, door, woken) in enumerate(queue):
            ahead, behind = queue[:place], queue[place + 1 :]
            if door == OPEN:
                yield process, "shuts the door, waiting to start", (steps, (*ahead, (process, SHUT, woken), *behind), at)
            yield process, "gives up to start", self.given_up(steps, ahead + behind, at)

    def begun_to_wait(self, process, steps, queue, at):
        """The state behind that: if it holds something, that no longer runs."""
        return self.wake(steps, queue, at) if self.held[process][steps[process]] else (steps, queue, at)

    def given_up(self, steps, queue, at):
        return self.wake(steps, queue, at)

    def wake(self, steps, queue, at):
        """The state in which who is next was woken."""
        place = self.calls.next(at, self.waiters(steps, queue), self.running(steps, queue)) if queue else None
        if place is None:
            return steps, queue, at
        process, door, _ = queue[place]
        return steps, (*queue[:place], (process, door, True), *queue[place + 1 :]), at

    def may_start(self, asking, ahead, steps, queue, at):
        running = self.running(steps, queue, asking[0])
        return self.calls.may_start(at, self.waiter(steps, asking), self.waiters(steps, ahead), running)

    def waiter(self, steps, waiting):
        """One who waits, as the calls know it."""
        process, door, _ = waiting
        return self.asked[process][steps[process]][door]

    def waiters(self, steps, queue):
        return tuple([self.asked[process][steps[process]][door] for process, door, _ in queue])

    def running(self, steps, queue, asking=None):
        """What is in progress for those who neither wait nor ask."""
        resting = [asking] + [process for process, _, _ in queue]
        return sum([held[step] for process, (held, step) in enumerate(zip(self.held, steps)) if process not in resting], ())


class ForgetsHolders(Waiting):
    """When one that holds something begins to wait, nobody is woken."""

    def begun_to_wait(self, process, steps, queue, at):
        return steps, queue, at


class ForgetsWhoGivesUp(Waiting):
    """When one gives up, nobody is woken."""

    def given_up(self, steps, queue, at):
        return steps, queue, at


class WakesTheFirst(Waiting):
    """The first who waits is woken, whether it may start or not."""

    def wake(self, steps, queue, at):
        return steps, tuple([(process, door, woken or not place) for place, (process, door, woken) in enumerate(queue)]), at


class CountsTheWaiting(Waiting):
    """What those hold who wait counts as running."""

    def running(self, steps, queue, asking=None):
        return sum([held[step] for held, step in zip(self.held, steps)], ())


def stall_of(processes):
    """A shortest schedule from where no moves lead to the end, as a list of who does what; None if there is none. And how many states were
    seen."""
    seen, states, moved = {processes.first: None}, [processes.first], {}
    for state in states:
        moves = processes.moves(*state)
        if not moves and not processes.is_done(*state):
            return schedule_to(state, seen, processes.scripts), len(states)
        moved[state] = [behind for _, _, behind in moves]
        for process, does, behind in itertools.chain(moves, processes.meanwhile(*state)):
            if behind not in seen:
                seen[behind] = state, process, does
                states.append(behind)
    ending = leading_to([state for state in states if processes.is_done(*state)], moved)
    stuck = next((state for state in states if state not in ending), None)
    return stuck and schedule_to(stuck, seen, processes.scripts), len(states)


def leading_to(ends, moved):
    """All states from where moves lead to one of these."""
    before = collections.defaultdict(list)
    for state, behind in moved.items():
        for each in behind:
            before[each].append(state)
    leading, todo = set(ends), list(ends)
    while todo:
        fresh = [each for each in before[todo.pop()] if each not in leading]
        leading.update(fresh)
        todo += fresh
    return leading


def schedule_to(state, seen, scripts):
    schedule = []
    while seen[state]:
        state, process, does = seen[state]
        _, operation, _ = scripts[process][state[0][process]]
        schedule.append("{} {} {}".format(process, does, name_of(operation)))
    return schedule[::-1]


def cases(most):
    """The first cases of which the gate alone ends every schedule."""
    ending = (case for case in map(Case, itertools.count()) if stall_of(AtTheGate(case))[0] is None)
    return itertools.islice(ending, most)


def stall_in(case, form=Waiting):
    """As `stall_of`, where processes wait in this form."""
    with contextlib.closing(Calls(case.gate)) as calls:
        return stall_of(form(case, calls))


class Rulings(unittest.TestCase):
    def test_they_are_as_defined(self):
        chance, told = random.Random(1974), collections.Counter()
        while sum(told.values()) < RULINGS:
            gate = random_gate(chance, 5)
            with contextlib.closing(System(gate.text)) as system:
                self.along_a_walk(chance, gate, system, told)
        for code in (native.CAN_START, native.BLOCKED, WITHHELD, NEXT, NOBODY):
            self.assertGreater(told[code], RULINGS // 50, code)

    def along_a_walk(self, chance, gate, system, told):
        """Asks in each state along a random history."""
        state, live, definition = 0, [], Definition(gate)
        for _ in range(20):
            self.asked_in(state, chance, live, definition, system, told)
            step, operation = random_move(chance, gate, state, live)
            if step:
                system.move(step, operation)
                state = gate.started(state, operation) if step is begun else gate.finished(state, operation)

    def asked_in(self, state, chance, live, definition, system, told):
        """Asks both calls about random others, the first mostly for what the gate admits."""
        gate, operations = definition.gate, definition.gate.operations
        waiting = sorted([random_waiter(chance, operations) for _ in range(chance.randint(0, 6))], key=lambda each: -each[1])
        running = [each for each in live if chance.random() < 0.6]
        running += [chance.choice(operations) for _ in range(2) if chance.random() < 0.1]
        starts = [each for each in operations if gate.started(state, each) is not None]
        asking = random_waiter(chance, starts if starts and chance.random() < 0.8 else operations)
        for call, question in (("may_start", (asking, waiting, running)), ("next", (waiting, running))):
            code, number = getattr(system, call)(*question)
            right, numbers = getattr(definition, call)(state, *question)
            if code != right or number not in numbers:
                of = "{}\nin progress: {}\n{}{}".format(gate.text, live, call, question)
                self.fail("{}\ntold {} {}, and not {} {}".format(of, code, number, right, numbers))
            told[code] += 1


class Schedules(unittest.TestCase):
    def test_each_ends(self):
        for case in cases(CASES):
            stall, _ = stall_in(case)
            if stall is not None:
                self.fail("a stall\n{}\n{}".format(case, "\n".join(stall)))

    @unittest.skipUnless(ALL, "it takes long")
    def test_wrong_forms_stall(self):
        for form in (ForgetsHolders, ForgetsWhoGivesUp, WakesTheFirst, CountsTheWaiting):
            with self.subTest(form.__doc__):
                self.assertTrue(any(stall_in(case, form)[0] for case in cases(CASES)))


def follow(most):
    """Follows so many cases, and says what it saw. Returns how many stalls."""
    stalls, states, largest, tried = 0, 0, 0, 0
    for case in cases(most):
        stall, seen = stall_in(case)
        if stall is not None:
            print("a stall\n{}\n{}".format(case, "\n".join(stall)))
            stalls += 1
        states, largest, tried = states + seen, max(largest, seen), case.number + 1
    spent, memory = time.process_time(), resource.getrusage(resource.RUSAGE_SELF).ru_maxrss
    print("{} of {} cases, {} states, at most {} in a case: {} stalls".format(most, tried, states, largest, stalls))
    print("{:.0f} s of processor time, at most {} KiB of memory".format(spent, memory))
    return stalls


if __name__ == "__main__":
    if len(sys.argv) == 2 and sys.argv[1].isdigit():
        sys.exit(follow(int(sys.argv[1])) > 0)
    else:
        unittest.main()
