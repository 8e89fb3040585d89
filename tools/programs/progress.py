"""What a build says on standard error: in a terminal a line that is written over, elsewhere plain lines, one a minute. All times are in seconds."""

import contextlib
import os
import sys
import time

SAYS_EVERY = 60
SHOWS_EVERY = 0.5
BAR = 20
COLUMNS = 80


def columns():
    """How wide the terminal on standard error is: standard output may be a pipe."""
    with contextlib.suppress(OSError):
        return os.get_terminal_size(sys.stderr.fileno()).columns or COLUMNS
    return COLUMNS


class Progress:
    def __init__(self):
        self.is_terminal = sys.stderr.isatty()
        self.begun = self.said = self.shown = time.monotonic()
        self.is_line_open = False

    def seconds(self):
        return time.monotonic() - self.begun

    def write(self, text):
        # Nobody may read it any more.
        with contextlib.suppress(OSError, ValueError):
            sys.stderr.write(text)
            sys.stderr.flush()

    def say(self, text):
        """Says something that stays."""
        self.clear()
        self.said = time.monotonic()
        self.write(f"{text}\n")

    def is_due(self):
        """Tells whether it is time to show how far the build is."""
        return time.monotonic() - max(self.said, self.shown) > (SHOWS_EVERY if self.is_terminal else SAYS_EVERY)

    def show(self, text):
        """Shows how far the build is."""
        if self.is_terminal:
            self.shown = time.monotonic()
            self.write(f"\r{text[:columns() - 1]}\x1b[K")
            self.is_line_open = True
        else:
            self.say(text)

    def show_part(self, what, percent, more):
        """Shows how far the build is, with a bar in a terminal."""
        if not self.is_terminal:
            self.show(f"{what}: {percent:.0f} %, {more}")
            return
        full = int(percent / 100 * BAR)
        self.show(f"{what} [{'#' * full}{'-' * (BAR - full)}] {percent:.0f} % {more}")

    def clear(self):
        if self.is_line_open:
            self.write("\r\x1b[K")
            self.is_line_open = False
