"""A bar on a terminal, for what takes longer than a second."""
import sys
import time

WIDTH = 40


def silent(share, what):
    """No bar."""


class Bar:
    """A bar on standard error, drawn at most ten times a second, and not before a second has passed; none where standard error is no terminal."""

    def __init__(self, stream=None):
        self.stream = stream or sys.stderr
        self.shown = self.stream.isatty()
        self.next, self.drawn = time.monotonic() + 1, False

    def __call__(self, share, what):
        now = time.monotonic()
        if self.shown and now >= self.next:
            filled = int(WIDTH * min(share, 1))
            self.stream.write(f"\r{what} [{'#' * filled}{'.' * (WIDTH - filled)}] {100 * min(share, 1):3.0f} %\033[K")
            self.stream.flush()
            self.next, self.drawn = now + 0.1, True

    def clear(self):
        """Takes the bar away."""
        if self.drawn:
            self.stream.write("\r\033[K")
            self.stream.flush()
            self.drawn = False
