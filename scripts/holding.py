"""Folders that a process holds."""
import contextlib
import fcntl
import os


@contextlib.contextmanager
def held(folder):
    """A folder that this process holds, as one that works on it does."""
    opened = os.open(folder, os.O_RDONLY)
    try:
        fcntl.flock(opened, fcntl.LOCK_EX)
        yield
    finally:
        os.close(opened)
