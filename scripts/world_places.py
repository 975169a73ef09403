"""The locks that keep others from a world's region files, and a first look at these."""
import contextlib
import errno
import fcntl
import os
import re
import shlex
import stat
import sys
import typing

from chunk_data import SECTOR, Refused, Unread
from region_files import EXTERNAL_NAME, HEADER, MOST_SECTORS, REGION_NAME, Region, externals, make_alike, opened
from world_faults import Held, Problem
from world_folders import LEVEL, SESSION

SNOWMAN = "\u2603".encode()
# About how many chunks of a world are looked at, and of each region at least.
SAMPLES, LEAST = 64, 4
MIB = 1 << 20
# As far out as the program goes.
MOST_PLACE = 60_000
# The Ints of a chunk that are the version of the game that wrote it, and the lowest section of its world; and the Byte that is a section's, behind
# which another tag begins, or compounds end: an array can have the same bytes.
VERSION, LOWEST, SECTION = b"\x03\x00\x0bDataVersion", b"\x03\x00\x04yPos", \
    re.compile(rb"\x01\x00\x01Y(.)(?=\x00{0,2}[\x01-\x0c]\x00[\x01-\x20][A-Za-z]|\x00{1,3}\Z)", re.DOTALL)
# Why nothing can be written to a folder.
CLOSED = errno.EACCES, errno.EPERM, errno.EROFS
# The journal of a run of the program in the folder itself, and how that begins by which this command keeps the program from the folder.
JOURNAL, GUARD = ".anvilwater-journal", b"anvilwater-world"

# ---------------------------------------------------------------- locks


def opened_lock(path, flags):
    """A file to be locked. It is left open, since what closes it gives the lock back."""
    descriptor = os.open(path, os.O_RDWR | os.O_NONBLOCK | flags, 0o644)
    if not stat.S_ISREG(os.fstat(descriptor).st_mode):
        os.close(descriptor)
        raise Problem("%s is no file" % path)
    return descriptor


def hold_session(top, stack):
    """Locks a world's session.lock, as the game does while it has the world open. One that is missing is made for that time."""
    path = os.path.join(top, SESSION)
    while True:
        try:
            descriptor, made = opened_lock(path, 0), False
        except FileNotFoundError:
            descriptor, made = opened_lock(path, os.O_CREAT | os.O_EXCL), True
        stack.callback(os.close, descriptor)
        try:
            fcntl.lockf(descriptor, fcntl.LOCK_EX | fcntl.LOCK_NB)
        except (BlockingIOError, PermissionError) as why:
            raise Held("%s is locked: the game has the world open, or another program works on it; nothing is done" % path) from why
        if is_at(descriptor, path):
            break
    if made:
        stack.callback(remove_own, descriptor, path)
        os.write(descriptor, SNOWMAN)
        make_alike(descriptor, os.stat(os.path.join(top, LEVEL)))
    return descriptor, path


def hold_region(world, stack):
    """Locks a file of this command's own beside the folder. One that was left behind holds nobody."""
    path = world.beside("lock")
    while True:
        descriptor = opened_lock(path, os.O_CREAT | os.O_NOFOLLOW)
        try:
            fcntl.flock(descriptor, fcntl.LOCK_EX | fcntl.LOCK_NB)
        except BlockingIOError as why:
            number = os.pread(descriptor, 20, 0).decode("ascii", "replace").strip()
            os.close(descriptor)
            raise Held("process %s works on %s already; nothing is done" % (number, world.region)) from why
        except OSError as why:
            # One that another call holds has its number.
            if os.fstat(descriptor).st_size == 0:
                os.unlink(path)
            os.close(descriptor)
            raise Problem("%s: %s; nothing is done" % (path, why.strerror)) from why
        if is_at(descriptor, path):
            break
        os.close(descriptor)
    stack.callback(os.close, descriptor)
    stack.callback(remove_own, descriptor, path)
    os.ftruncate(descriptor, 0)
    os.pwrite(descriptor, b"%d\n" % os.getpid(), 0)
    hold_folder(world, stack)


def hold_folder(world, stack):
    """Locks the folder as the program does that runs in it, and refuses what such a run left behind when it was cut off."""
    descriptor = os.open(world.region, os.O_RDONLY | os.O_DIRECTORY)
    stack.callback(os.close, descriptor)
    try:
        fcntl.flock(descriptor, fcntl.LOCK_EX | fcntl.LOCK_NB)
    except BlockingIOError as why:
        raise Held("another program works on %s; nothing is done" % world.region) from why
    except OSError:
        # A file system that has no locks of folders is worked on without one, as by the program.
        pass
    journal = os.path.join(world.region, JOURNAL)
    if os.path.lexists(journal) and not is_guard(journal):
        raise Problem("a run of the program was cut off and left %s, and `anvilwater check --in %s` finishes it; nothing is done" % (
            journal, shlex.quote(world.region)))


def hold_reading(world, stack):
    """Keeps the game, and calls that change it, from a world that is only read, as far as this user may. Answers the locks of the game that are held,
    or None where what a call left behind may not be finished."""
    try:
        hold_region(world, stack)
        return [hold_session(top, stack) for top in world.tops]
    except OSError as why:
        if why.errno not in CLOSED:
            raise
        for top in world.tops:
            share_session(top, stack)
        return None


def share_session(top, stack):
    """Refuses a world that the game has open, by a lock for which a file need only be read."""
    path = os.path.join(top, SESSION)
    with contextlib.suppress(FileNotFoundError, PermissionError):
        descriptor = os.open(path, os.O_RDONLY | os.O_NONBLOCK)
        stack.callback(os.close, descriptor)
        try:
            fcntl.lockf(descriptor, fcntl.LOCK_SH | fcntl.LOCK_NB)
        except (BlockingIOError, PermissionError) as why:
            raise Held("%s is locked: the game has the world open, or another program works on it; nothing is done" % path) from why


def is_guard(path):
    with contextlib.suppress(OSError), opened(path) as file:
        return file.read(len(GUARD)) == GUARD
    return False


def remove_own(descriptor, path):
    """Takes a file of a lock away, but for one that came in its place."""
    if is_at(descriptor, path):
        os.unlink(path)


def check_held(locks):
    """Refuses to go on where the game may have a new session.lock, since the one that is held was taken away."""
    for descriptor, path in locks:
        if not is_at(descriptor, path):
            raise Problem("%s was taken away while the world was worked on, and the game may have it open; nothing is done" % path)


def is_at(descriptor, path):
    """Whether an open file still has its name, which who held it before took away at its end."""
    try:
        return os.path.samestat(os.fstat(descriptor), os.stat(path))
    except FileNotFoundError:
        return False


# ---------------------------------------------------------------- a first look


class Size(typing.NamedTuple):
    """How many chunks a region has, and about how many bytes it has when they are plain."""
    chunks: int
    plain: int

    def of(self, count):
        """That of so many of its chunks, or of all."""
        count = min(count, self.chunks)
        return Size(count, self.plain * count // max(1, self.chunks))


class Survey(typing.NamedTuple):
    """What the files of a folder are: the status of each by its name, the size of each region, and what some chunks say of their world; and of
    regions that can't be read, or taken there and back, why not."""
    files: dict
    sizes: dict
    marks: set
    bad: dict

    @property
    def stored(self):
        """The bytes that all files have."""
        return sum(status.st_size for status in self.files.values())


class Mark(typing.NamedTuple):
    """What a chunk says: the version of the game that wrote it, the lowest section of its world, and its own highest."""
    version: typing.Optional[int]
    lowest: typing.Optional[int]
    highest: typing.Optional[int]


def mark_of(payload):
    sections = [int.from_bytes(number, "big", signed=True) for number in SECTION.findall(payload)]
    return Mark(int_behind(payload, VERSION), int_behind(payload, LOWEST), max(sections, default=None))


def int_behind(payload, name):
    at = payload.find(name)
    return None if at < 0 else int.from_bytes(payload[at + len(name):at + len(name) + 4], "big", signed=True)


def surveyed(folder, found, is_read_alone=False):
    """Looks at these region files and each file c.X.Z.mcc of them. One that is not only read may be no link, and have no chunk that can't be
    brought back."""
    survey, beside = Survey({}, {}, set(), {}), externals(folder)
    for place in sorted(found):
        names = [place.name, *sorted(beside[place])]
        try:
            if max(map(abs, place)) > MOST_PLACE:
                raise Refused("%s is farther out than the program goes" % place.name)
            files = {} if is_read_alone else {name: replaceable(folder, name) for name in names}
            size, marks = looked_at(folder, place, len(found), is_read_alone)
        except (OSError, Unread) as why:
            survey.bad[place] = "%s: %s" % (place.name, getattr(why, "strerror", None) or why)
        except Refused as why:
            survey.bad[place] = str(why) if str(why).startswith(tuple(names)) else "%s: %s" % (place.name, why)
        else:
            survey.files.update(files)
            survey.sizes[place] = size
            survey.marks.update(marks)
    return survey


def looked_at(folder, place, count, is_read_alone):
    """The size of a region that is one of so many, and what some of its chunks say."""
    with opened(os.path.join(folder, place.name)) as file:
        region = Region(folder, place, file)
        indices = [index for index in range(1024) if region.locations[index]]
        if not is_read_alone:
            check_chunks(region, indices)
        payloads = sampled(region, indices[::max(1, len(indices) // max(LEAST, SAMPLES // count))])
    return size_of(len(indices), payloads), set(map(mark_of, payloads))


def size_of(count, payloads):
    """The size of a region of so many chunks, of which some have these bytes."""
    mean = sum(map(len, payloads)) // len(payloads) if payloads else 0
    return Size(count, HEADER + count * (mean // SECTOR + 1) * SECTOR)


def replaceable(folder, name):
    """The status of a file in whose place another can come."""
    path = os.path.join(folder, name)
    status = os.lstat(path)
    if stat.S_ISLNK(status.st_mode):
        raise Refused("%s is a symbolic link, in whose place a file would come" % name)
    if not stat.S_ISREG(status.st_mode):
        raise Refused("%s is no file" % name)
    if is_fixed(path):
        raise Refused("%s can't be replaced, since it has the attribute i or a (chattr)" % name)
    return status


def check_folder(folder, files):
    """Refuses a folder in which this user can't replace a file: one that it may not write to, or a sticky one with files of others."""
    status, user = os.stat(folder), os.geteuid()
    is_sticky = status.st_mode & stat.S_ISVTX and user not in (0, status.st_uid)
    if not os.access(folder, os.W_OK | os.X_OK) or is_sticky and any(file.st_uid != user for file in files.values()):
        raise Problem("%s: its files can't be replaced by this user; nothing is done" % folder)


# FS_IOC_GETFLAGS, and FS_IMMUTABLE_FL and FS_APPEND_FL.
ATTRIBUTES, FIXED = 0x80086601, 0x30


def is_fixed(path):
    """Whether a file has an attribute by which nobody can replace it."""
    try:
        with open(path, "rb", buffering=0) as file:
            return int.from_bytes(fcntl.ioctl(file, ATTRIBUTES, bytes(8))[:4], sys.byteorder) & FIXED != 0
    except OSError:
        return False


def check_chunks(region, indices):
    """Refuses a chunk whose sectors are not in the file, since it could not be brought back."""
    for index in indices:
        offset, count = region.locations[index] >> 8, region.locations[index] & 255
        if offset < HEADER // SECTOR or count in (0, MOST_SECTORS) or SECTOR * (offset + count) > region.size:
            region.kept(index)


def sampled(region, indices):
    """The plain bytes of some chunks."""
    payloads = []
    for index in indices:
        try:
            payloads.append(region.plain(index, *region.record(index)))
        except Unread:
            pass
    return payloads


def is_ours(name):
    """Whether a file has a name of region files."""
    return bool(REGION_NAME.fullmatch(name) or EXTERNAL_NAME.fullmatch(name))
