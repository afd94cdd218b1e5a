"""Ends the tools cleanly when a signal asks them to: nothing is left running."""
import ctypes
import signal
import sys

# The running calls, to be ended with the tool.
RUNNING = set()
# prctl(2): which signal a process gets when its parent ends.
PARENT_DEATH_SIGNAL = 1
LIBC = ctypes.CDLL(None)


def end_with_parent():
    """Called in a new process: it is killed when the tool ends, even if the tool itself is killed."""
    LIBC.prctl(PARENT_DEATH_SIGNAL, int(signal.SIGKILL))


def leave_on_signals():
    """Makes the tool exit cleanly on `kill` or when its terminal closes: calls are ended, the terminal is restored."""
    def leave(number, _):
        # A second signal must not interrupt the handling of the first.
        for other in (signal.SIGTERM, signal.SIGHUP):
            signal.signal(other, signal.SIG_IGN)
        for run in list(RUNNING):
            # This includes the calls of other threads.
            run.kill()
        sys.exit(128 + number)
    for number in (signal.SIGTERM, signal.SIGHUP):
        signal.signal(number, leave)
