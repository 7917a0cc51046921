"""What the tests of interrupts share: something that happens before the n-th instruction that the package runs."""

import contextlib
import faulthandler
import gc
import os
import random
import signal
import sys
import threading
import types
import warnings

import wanzoche

from .limits import LONGEST

_PACKAGE = os.path.dirname(wanzoche.__file__)


class Interrupt(BaseException):
    """What the tests raise, as a signal raises KeyboardInterrupt."""


def interrupt():
    raise Interrupt


class Alarms:
    """Real signals that cut a call of the main thread off, as Ctrl-C does, however late the machine brings them. One raises `Interrupt`
    within the call, and does nothing before it, behind it, or where an interrupt is being handled."""

    def __init__(self, test):
        self._is_calling = False
        before = signal.signal(signal.SIGALRM, self._come)
        test.addCleanup(signal.signal, signal.SIGALRM, before)
        test.addCleanup(signal.setitimer, signal.ITIMER_REAL, 0)

    def _come(self, *_):
        if self._is_calling and not isinstance(sys.exc_info()[1], Interrupt):
            raise Interrupt

    def cut_off(self, call, soonest, latest):
        """Calls again and again until one is cut off, by a signal that comes after so many seconds."""
        try:
            self._is_calling = True
            # Once more after a while: Python sleeps on if a signal comes just before it goes to sleep, and a finalizer hands nothing on.
            signal.setitimer(signal.ITIMER_REAL, random.uniform(soonest, latest), 0.5)
            while True:
                call()
        except Interrupt:
            self._is_calling = False
        finally:
            self._is_calling = False
            signal.setitimer(signal.ITIMER_REAL, 0)

    def cut_off_waiting(self, call, waits):
        """Calls once, and cuts that off when it waits, as `waits` tells another thread. Whether it was cut off."""
        is_over, main = threading.Event(), threading.get_ident()

        def sends():
            while not is_over.wait(0.001):
                if waits():
                    signal.pthread_kill(main, signal.SIGALRM)
                    is_over.wait(0.5)

        thread = threading.Thread(target=sends)
        thread.start()
        try:
            self._is_calling = True
            call()
            return False
        except Interrupt:
            self._is_calling = False
            return True
        finally:
            self._is_calling = False
            is_over.set()
            thread.join()


class _Countdown:
    """Lets an action happen before an instruction of the thread that made it."""

    def __init__(self, number, action):
        self.left = number
        self.action = action
        self.thread = threading.get_ident()

    def step(self, *_):
        if self.left >= 0 and threading.get_ident() == self.thread:
            self.left -= 1
            if self.left < 0:
                self.action()


def at_instruction(number, action, call, also=()):
    """Calls, and lets the action happen before the instruction of this number that the package runs, from 0. Whether there was one.

    The instructions of the functions in `also` count, too.
    """
    countdown = _Countdown(number, action)
    with _quiet_finalizers(), _stepping(countdown.step, frozenset(function.__code__ for function in also)):
        try:
            call()
        except Interrupt:
            pass
    return countdown.left < 0


def each_instruction(action, call, also=()):
    """Does that for each instruction in turn, and yields after each."""
    number = 0
    while at_instruction(number, action, call, also):
        number += 1
        yield number


if sys.version_info >= (3, 12):

    def _codes_of(code):
        yield code
        for part in code.co_consts:
            if isinstance(part, types.CodeType):
                yield from _codes_of(part)

    def _all_codes():
        """The code of each function of the package."""
        for function in gc.get_objects():
            if isinstance(function, types.FunctionType) and os.path.dirname(function.__code__.co_filename) == _PACKAGE:
                yield from _codes_of(function.__code__)

    _OF_PACKAGE = frozenset(_all_codes())

    @contextlib.contextmanager
    def _stepping(step, also):
        """Calls before each instruction of the package, and of these codes."""
        codes = _OF_PACKAGE | also
        monitoring = sys.monitoring
        tool, event = monitoring.DEBUGGER_ID, monitoring.events.INSTRUCTION
        monitoring.use_tool_id(tool, "interrupts")
        monitoring.register_callback(tool, event, step)
        for code in codes:
            monitoring.set_local_events(tool, code, event)
        try:
            yield
        finally:
            for code in codes:
                monitoring.set_local_events(tool, code, 0)
            monitoring.register_callback(tool, event, None)
            monitoring.free_tool_id(tool)

else:

    @contextlib.contextmanager
    def _stepping(step, also):
        """Calls before each instruction of the package, and of these codes, that this thread runs."""

        def trace(frame, event, _):
            if event == "opcode":
                step()
            return trace

        def begin(frame, event, _):
            if os.path.dirname(frame.f_code.co_filename) != _PACKAGE and frame.f_code not in also:
                return None
            frame.f_trace_opcodes = True
            return trace

        sys.settrace(begin)
        try:
            yield
        finally:
            sys.settrace(None)


@contextlib.contextmanager
def _quiet_finalizers():
    """Says nothing of an interrupt of a finalizer, which Python can't hand on."""
    before = sys.unraisablehook
    sys.unraisablehook = lambda what: None if issubclass(what.exc_type, Interrupt) else before(what)
    try:
        yield
    finally:
        sys.unraisablehook = before


def may_leave_unused(test):
    """In this test an entry may be dropped that nobody has entered."""
    filters = warnings.catch_warnings()
    filters.__enter__()
    test.addCleanup(filters.__exit__, None, None, None)
    warnings.filterwarnings("ignore", "an entry of .* was dropped, and nobody had entered it", ResourceWarning)


@contextlib.contextmanager
def ends_a_hang():
    """Ends the process with a traceback of all threads if the block takes far longer than any test."""
    faulthandler.dump_traceback_later(4 * LONGEST, exit=True)
    try:
        yield
    finally:
        faulthandler.cancel_dump_traceback_later()
