"""Signals that ask for an end: held back where they would leave something half begun, as a thread or a process, and heeded elsewhere."""
import contextlib
import signal

STOPS = signal.SIGINT, signal.SIGTERM, signal.SIGHUP


@contextlib.contextmanager
def masked(how):
    before = signal.pthread_sigmask(how, STOPS)
    try:
        yield
    finally:
        signal.pthread_sigmask(signal.SIG_SETMASK, before)


def held():
    """They wait until this ends. Threads and processes that begin meanwhile hold them too."""
    return masked(signal.SIG_BLOCK)


def heeded():
    """They are heeded, also those that waited."""
    return masked(signal.SIG_UNBLOCK)


class Stopped(BaseException):
    """A signal asks for an end."""


def stops_to_heed():
    """Those that are not ignored already, as by nohup."""
    return [which for which in STOPS if signal.getsignal(which) is not signal.SIG_IGN]


def heed_stops(stops):
    """Each of these raises Stopped, once."""
    def stop(which, _):
        ignore_stops()
        raise Stopped(which)
    for which in stops:
        signal.signal(which, stop)


def ignore_stops():
    """One that came before this raises Stopped here."""
    with held():
        for which in STOPS:
            signal.signal(which, signal.SIG_IGN)


@contextlib.contextmanager
def unstopped_behind():
    """What is cleared away behind this is not stopped."""
    try:
        yield
    finally:
        ignore_stops()
