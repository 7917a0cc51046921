"""The tests of the package. They begin with each signal as at a login: who runs them behind a `&` or `nohup` ignores some, and a test of what
an interrupt does would wait for ever."""

import signal


def as_at_login() -> None:
    """Each signal does what it does by itself, and none is blocked. Those that the C library keeps for itself are left alone."""
    signal.pthread_sigmask(signal.SIG_SETMASK, ())
    for number in signal.valid_signals():
        if signal.getsignal(number) is signal.SIG_IGN and number not in (signal.SIGPIPE, signal.SIGXFSZ):  # Python ignores these two itself
            signal.signal(number, signal.default_int_handler if number == signal.SIGINT else signal.SIG_DFL)


as_at_login()
