"""What anvilwater-world tells: results on standard output, as text or as objects of JSON, a line each; all else on standard error."""
import contextlib
import json
import os
import time

from world_faults import Problem


def say(line):
    """Tells a result. It is written at once, so that a device that fails is noticed."""
    try:
        os.write(1, os.fsencode(line + "\n"))
    except OSError as why:
        raise Problem("standard output: %s" % why.strerror) from why


def note(line):
    clear = "\r\033[K" if os.isatty(2) else ""
    with contextlib.suppress(OSError):
        os.write(2, os.fsencode(clear + line + "\n"))


def complain(line):
    note("anvilwater-world: " + line)


class Progress:
    """Tells which step is done, how many of its files are, and about how long it still takes."""

    def __init__(self, shown):
        self.terminal = os.isatty(2)
        self.shown = shown or self.terminal
        self.name, self.total, self.files, self.start = "", 0, 0, 0.0

    def begin(self, name, total=0):
        self.name, self.total, self.files, self.start = name, total, 0, time.monotonic()
        self.show("%s: begins" % name, not total)

    def step(self):
        """One file more is done."""
        self.files += 1
        rest = (time.monotonic() - self.start) / self.files * (self.total - self.files)
        self.show("%s: %d of %d files, about %.0f s left" % (self.name, self.files, self.total, rest))

    def end(self):
        self.show("%s: done in %.0f s" % (self.name, time.monotonic() - self.start), True)

    def show(self, text, stays=False):
        """On a terminal what stays not is written over."""
        if self.shown and self.terminal and not stays:
            with contextlib.suppress(OSError):
                os.write(2, ("\r\033[K" + text).encode())
        elif self.shown:
            note(text)


class Teller:
    """Tells results, each as text or as an object of JSON."""

    def __init__(self, as_json=False):
        self.as_json = as_json

    def tell(self, text, **fields):
        """A result in words, which may be none, and what an object says of it."""
        if self.as_json:
            say(json.dumps(fields))
        elif text is not None:
            say(text)

    def complain(self, text, **fields):
        """What is not as it should be. An object of it is a result."""
        if self.as_json:
            say(json.dumps(fields))
        else:
            note(text)
