"""How a build is ended from without: what it started ends with it, and its own end tells which signal it was. A build looks for that
between its steps alone, so that nothing is left half started."""

import contextlib
import fcntl
import os
import signal
import subprocess
import time

SIGNALS = signal.SIGINT, signal.SIGTERM, signal.SIGHUP
# How often a build looks whether it is to end, and what ended meanwhile, in seconds.
LOOKS_EVERY = 0.2


class Ended(Exception):
    """A signal asks to end, or whoever started this is gone."""

    def __init__(self, number):
        super().__init__(number)
        self.number = number


class Caller:
    """Whoever started this process. Signals that it asks to ignore stay ignored."""

    def __init__(self, is_needed):
        self.parent = os.getppid() if is_needed else None
        self.asked = None
        for number in SIGNALS:
            if signal.getsignal(number) != signal.SIG_IGN:
                signal.signal(number, self.note)

    def note(self, number, _):
        self.asked = self.asked or number

    def heed(self):
        """Raises Ended if a signal came or, where it is needed, whoever started this is gone."""
        if self.asked:
            raise Ended(self.asked)
        if self.parent is not None and os.getppid() != self.parent:
            raise Ended(signal.SIGTERM)

    def pause(self):
        time.sleep(LOOKS_EVERY)
        self.heed()


def end_by(number):
    """Ends this process by the signal."""
    signal.signal(number, signal.SIG_DFL)
    os.kill(os.getpid(), number)


def start(words, **how):
    """Starts a process in a group of its own."""
    return subprocess.Popen(words, stdin=subprocess.DEVNULL, start_new_session=True, **how)


def end(process):
    """Ends a process that start() gave, and all that it started."""
    if process.poll() is None:
        with contextlib.suppress(ProcessLookupError):
            os.killpg(process.pid, signal.SIGKILL)
        process.wait()


@contextlib.contextmanager
def turn(path, caller, say_waiting):
    """Waits until no other process has its turn at a file of the repository, and keeps others out until it is left."""
    with open(path, encoding="utf-8") as held:
        is_waiting = False
        while True:
            try:
                fcntl.flock(held, fcntl.LOCK_EX | fcntl.LOCK_NB)
                break
            except BlockingIOError:
                if not is_waiting:
                    say_waiting()
                is_waiting = True
                caller.pause()
        yield
