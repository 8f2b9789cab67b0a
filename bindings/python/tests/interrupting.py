"""A signal handler beside the calls of a test."""

import contextlib
import signal


@contextlib.contextmanager
def interrupted_by(handle):
    """Calls `handle` in a signal handler, again and again: each time half a millisecond after the last one has ended, so that the calls beside
    it go on however slow the machine is."""
    goes_on = True

    def handle_and_ask_again(*_):
        handle()
        if goes_on:
            signal.setitimer(signal.ITIMER_REAL, 0.0005)

    earlier = signal.signal(signal.SIGALRM, handle_and_ask_again)
    signal.setitimer(signal.ITIMER_REAL, 0.0005)
    try:
        yield
    finally:
        goes_on = False
        signal.setitimer(signal.ITIMER_REAL, 0)
        signal.signal(signal.SIGALRM, earlier)
