"""New region files take the places of old ones, so that each is whole whenever it ends, and the old ones are kept.

A working folder beside the region files has the new files in `packed`, the old ones in `old` by links, and a journal. All these names are
synced before the first file takes its place, by whoever lets it. With the journal the next call goes on where one ended; a folder without it
is only taken away.
"""
import contextlib
import errno
import filecmp
import json
import os
import re
import secrets
import shutil
import stat

from chunk_data import SECTOR
from region_files import EXTERNAL_NAME, HEADER, REGION_NAME, externals, give_attributes, make_alike
from world_faults import Problem, Stuck
from world_places import GUARD, JOURNAL, is_guard, is_ours

FORM = 1
# What a new file of an exchange does.
WAITS, PLACED, CHANGED, LOST = "waits", "placed", "changed", "lost"
# What a folder of old files has besides them.
RECORD = ".anvilwater-record"
NO_LINKS = {errno.EPERM, errno.EXDEV, errno.EMLINK, errno.EOPNOTSUPP, errno.ENOSYS}

# ---------------------------------------------------------------- files


def sync(path):
    descriptor = os.open(path, os.O_RDONLY)
    try:
        os.fsync(descriptor)
    finally:
        os.close(descriptor)


def seen(path):
    """By what a file is known again; None where there is none."""
    try:
        return known_by(os.lstat(path))
    except FileNotFoundError:
        return None


def known_by(status):
    return [status.st_size, status.st_mtime_ns]


def stamps(path):
    """The timestamps of a region file."""
    with open(path, "rb") as file:
        return file.read(HEADER)[SECTOR:]


def copied(source, target):
    """Copies a file with its owner, mode and time, and syncs it. What has the name is whole."""
    part = target + ".part"
    shutil.copyfile(source, part, follow_symlinks=False)
    with open(part, "rb") as file:
        make_alike(file.fileno(), os.lstat(source))
        shutil.copystat(source, part, follow_symlinks=False)
        os.fsync(file.fileno())
    os.rename(part, target)


def linked(source, target):
    """Gives a file a second name, or copies it where the file system has no such names."""
    try:
        os.link(source, target, follow_symlinks=False)
    except OSError as why:
        if why.errno not in NO_LINKS:
            raise
        copied(source, target)


# ---------------------------------------------------------------- working folders


def check_near(world, work, name):
    """Refuses a folder that is mounted by itself, also from the same device, since no file can be renamed into it from beside it."""
    trial = os.path.join(work, "trial")
    try:
        os.link(os.path.join(world.region, name), trial, follow_symlinks=False)
        os.unlink(trial)
    except OSError as why:
        if why.errno == errno.EXDEV:
            raise Problem("%s is where a file system is mounted, so that nothing of it is beside the folder" % world.region) from why


@contextlib.contextmanager
def working_folder(world):
    """A new folder beside the region files. At the end it goes, unless it has a journal."""
    path = world.beside("%s.work" % secrets.token_hex(8))
    try:
        os.mkdir(path, 0o700)
        yield path
    finally:
        if not os.path.lexists(os.path.join(path, "journal")):
            shutil.rmtree(path, ignore_errors=True)


def left_behind(world):
    """The working folders that calls left behind which didn't come to their end."""
    form = re.compile(re.escape(world.mark) + "[0-9a-f]{16}[.]work")
    paths = [os.path.join(world.parent, name) for name in sorted(os.listdir(world.parent)) if form.fullmatch(name)]
    return [path for path in paths if is_own(path)]


def is_own(path):
    status = os.lstat(path)
    if not stat.S_ISDIR(status.st_mode) or status.st_uid != os.geteuid():
        raise Problem("%s was left behind by another user, or is none of this command's folders; nothing is done" % path)
    return True


# ---------------------------------------------------------------- the exchange


def unguard(region):
    """Takes away what keeps the program from the folder."""
    path = os.path.join(region, JOURNAL)
    if os.path.lexists(path) and is_guard(path):
        os.unlink(path)
        sync(region)


class Changed(Stuck):
    """A file is another than it was when the journal was written, or its new one is lost."""

    def __init__(self, name, state, exchange):
        what = "was changed since it began to be replaced" if state == CHANGED else "is to be replaced, but its new file is lost"
        self.cause = "%s %s" % (name, "was changed by another program before it was replaced" if state == CHANGED else what)
        super().__init__("%s %s; nothing is done. To go on with the files as they are, move %s to another place, since it alone has the old files "
                         "of those that were replaced, and then remove %s and %s" % (
                             name, what, exchange.old, exchange.work, os.path.join(exchange.region, JOURNAL)))


class Exchange:
    """An exchange of files by a working folder."""

    def __init__(self, world, work):
        self.world, self.region, self.work = world, world.region, work
        self.packed, self.old, self.journal, self.next = (os.path.join(work, name) for name in ("packed", "old", "journal", "next"))
        # How many owners could not be kept.
        self.foreign = 0

    def changes(self, files, stored):
        """The names of files that are to be replaced or added, and of those that are to go. `files` has what was there, and `stored` the regions
        whose chunks are all as they were stored, which are left alone."""
        aside, packed = self.alone(stored), set(os.listdir(self.packed))
        new = [name for name in sorted(packed) if name not in aside and (name not in files or not self.is_same(name))]
        gone = [name for name in files if name not in aside and EXTERNAL_NAME.fullmatch(name) and name not in packed]
        # What a region names is there before it, and goes after it.
        new.sort(key=lambda name: (REGION_NAME.fullmatch(name) is not None, name))
        return new, gone

    def prepare(self, files, new, gone, backup):
        """Keeps the old files by second names. Answers what the journal is to have, or None where nothing changes."""
        if not new and not gone:
            return None
        self.foreign = [self.like_old(name, files) for name in new].count(False)
        self.record(files, new, gone)
        self.keep([name for name in new + gone if name in files])
        for name, status in files.items():
            self.check_same(name, status)
        for name in new:
            if name not in files and os.path.lexists(os.path.join(self.region, name)):
                raise Problem("%s came while the world was worked on; nothing is done" % name)
        before = {name: known_by(status) for name, status in files.items()}
        return {"form": FORM, "backup": backup, "new": [[name, before.get(name)] for name in new],
                "gone": [[name, before[name]] for name in gone]}

    def record(self, files, new, gone):
        """Has the old files tell by which new ones they were replaced, so that they can be brought back where these have not changed since."""
        os.mkdir(self.old)
        marks = {name: seen(os.path.join(self.packed, name)) for name in new}
        with open(os.path.join(self.old, RECORD), "x", encoding="ascii") as file:
            json.dump({"form": FORM, "replaced": {name: marks[name] for name in new if name in files},
                       "added": {name: marks[name] for name in new if name not in files}, "removed": gone}, file)
            file.flush()
            os.fsync(file.fileno())

    def alone(self, stored):
        """The files of these regions, but for regions whose timestamps changed."""
        found, beside = set(), externals(self.region)
        for place in stored:
            if stamps(os.path.join(self.packed, place.name)) == stamps(os.path.join(self.region, place.name)):
                found |= {place.name} | beside[place]
        return found

    def is_same(self, name):
        return filecmp.cmp(os.path.join(self.packed, name), os.path.join(self.region, name), shallow=False)

    def like_old(self, name, files):
        """Gives a new file the owner and mode of the old one, and one that had none those of a region's."""
        model = name if name in files else next(iter(files))
        with open(os.path.join(self.packed, name), "rb") as file:
            given = make_alike(file.fileno(), files[model])
            give_attributes(file.fileno(), os.path.join(self.region, model))
            os.fsync(file.fileno())
        return given

    def keep(self, names):
        """Gives old files second names in a folder that is like theirs."""
        os.makedirs(self.old, exist_ok=True)
        for name in names:
            linked(os.path.join(self.region, name), os.path.join(self.old, name))
        descriptor = os.open(self.old, os.O_RDONLY)
        make_alike(descriptor, os.stat(self.region))
        os.fsync(descriptor)
        os.close(descriptor)

    def check_same(self, name, status):
        """Refuses a file that is another than the one that was read."""
        path = os.path.join(self.region, name)
        if seen(path) != known_by(status) or os.lstat(path).st_ino != status.st_ino:
            raise Problem("%s was changed by another program while the world was worked on; nothing is done" % name)

    def write_journal(self, content):
        part = self.journal + ".part"
        with open(part, "w", encoding="ascii") as file:
            json.dump(content, file)
            file.flush()
            os.fsync(file.fileno())
        self.guard()
        self.sync_names()
        os.rename(part, self.journal)

    def guard(self):
        """Has the program refuse the folder until this is at its end: what stands in the place of its journal is none."""
        path, part = os.path.join(self.region, JOURNAL), os.path.join(self.work, "guard")
        if not os.path.lexists(path):
            with open(part, "wb") as file:
                file.write(b"%s is at work by %s; call it again, and it finishes that\n" % (GUARD, os.fsencode(self.work)))
                file.flush()
                os.fsync(file.fileno())
            os.rename(part, path)
            sync(self.region)

    def sync_names(self):
        """The names of old and new files and of the journal are on the device behind this, each before that of the folder that has it."""
        for folder in filter(os.path.lexists, (self.old, self.packed, self.work, self.world.parent)):
            sync(folder)

    # ------------------------------------------------------------ places

    def read_journal(self):
        try:
            with open(self.journal, encoding="ascii") as file:
                content = json.load(file)
            names = [name for name, _ in content["new"] + content["gone"]]
            if content["form"] != FORM or not isinstance(content["backup"], str) or not all(map(is_ours, names)):
                raise ValueError
        except (ValueError, KeyError, TypeError) as why:
            raise Stuck("%s is no journal of this command; nothing is done" % self.journal) from why
        return content

    def place(self, check):
        """Lets each new file take its place by a rename, then removes those that no region names any more, and answers the journal.
        What was done before is not done again. Where a file changed, or `check` says that another may have the world, before one has its place, the
        journal goes, and all is as it was."""
        content = self.read_journal()
        try:
            waiting = [(name, before) for name, before in content["new"] if self.waits(name, before)]
            going = [name for name, before in content["gone"] if seen(os.path.join(self.region, name)) == before]
            self.make_durable(waiting, going)
            check()
            for name, before in waiting:
                if self.waits(name, before):
                    self.put(name)
        except Problem as why:
            if any(self.state(name, before) == PLACED for name, before in content["new"]):
                raise
            unguard(self.region)
            os.unlink(self.journal)
            raise Problem("%s; nothing is done" % why.cause) if isinstance(why, Changed) else why
        for name in going:
            os.unlink(os.path.join(self.region, name))
        for folder in filter(os.path.lexists, (self.region, self.packed, self.work)):
            sync(folder)
        return content

    def make_durable(self, waiting, going):
        """The journal may be that of a call which was killed before it synced its name, on a file system that has lost names of old files."""
        kept = [name for name, before in waiting if before is not None] + going
        if lost := [name for name in kept if not os.path.lexists(os.path.join(self.old, name))]:
            self.keep(lost)
        if waiting:
            self.guard()
        self.sync_names()

    def state(self, name, before):
        """Whether a new file has still to take its place, has it, is lost, or another file than it was when the journal was written is there. One that
        has its place keeps its name in `packed`, or had that alone where there are no links; a file system without a journal can also leave it both
        names of a rename, and in a copy of the world they are two files."""
        part, path = os.path.join(self.packed, name), os.path.join(self.region, name)
        has_part, is_old, is_there = os.path.lexists(part), seen(path) == before, os.path.lexists(path)
        if has_part and is_there and os.path.samestat(os.lstat(part), os.lstat(path)):
            return PLACED
        if has_part == is_old:
            return WAITS if has_part else PLACED
        if has_part and is_there and filecmp.cmp(part, path, shallow=False):
            return PLACED
        return CHANGED if has_part else LOST

    def waits(self, name, before):
        """Whether a new file has still to take its place. Refuses to go on where it is lost, or where another file is there."""
        state = self.state(name, before)
        if state in (CHANGED, LOST):
            raise Changed(name, state, self)
        return state == WAITS

    def put(self, name):
        """Lets a new file take its place by a second name, so that it has one in the working folder whichever half of the rename is lost."""
        part, path = os.path.join(self.packed, name), os.path.join(self.region, name)
        if os.path.lexists(self.next):
            os.unlink(self.next)
        try:
            os.link(part, self.next, follow_symlinks=False)
        except OSError as why:
            if why.errno not in NO_LINKS:
                raise
            os.replace(part, path)
        else:
            os.replace(self.next, path)

    def deliver(self, backup, chosen):
        """Moves the old files to the folder in which they are to be kept: one beside the region files, or that which this call names
        too (`chosen`). Another is not taken from a journal, which may have come with a world that somebody else made."""
        target = os.path.join(self.world.parent, backup)
        if os.path.lexists(self.old):
            if backup != chosen and not re.fullmatch(re.escape(self.world.name) + r"[.]before-[0-9-]+(-more)*", backup):
                target = os.path.join(self.world.parent, "%s.before-%s" % (self.world.name, self.work[-len("0123456789abcdef.work"):-5]))
            try:
                self.move_old(target)
            except OSError as why:
                hint = " (without --backup they come beside the region files)" if backup == chosen else ""
                raise Problem("%s: %s; the new files are in their places, and the old ones are in %s%s" % (
                    target, why.strerror, self.old, hint)) from why
        return target

    def move_old(self, target):
        try:
            os.rename(self.old, target)
        except OSError as why:
            if why.errno != errno.EXDEV:
                raise
            self.copy_old(target)
        for folder in (os.path.dirname(target), self.work):
            sync(folder)

    def copy_old(self, target):
        """Copies the old files to another file system."""
        begun = os.path.join(self.work, "copying")
        if not os.path.lexists(begun):
            if os.path.lexists(target) and os.listdir(target):
                raise FileExistsError(errno.EEXIST, os.strerror(errno.EEXIST))
            open(begun, "x").close()
            sync(self.work)
        os.makedirs(target, exist_ok=True)
        for name in sorted(os.listdir(self.old)):
            copied(os.path.join(self.old, name), os.path.join(target, name))
        descriptor = os.open(target, os.O_RDONLY)
        make_alike(descriptor, os.stat(self.region))
        os.fsync(descriptor)
        os.close(descriptor)
        sync(os.path.dirname(target))
        # At once, so that a part of them is never taken for all.
        os.rename(self.old, self.old + ".copied")

    def clear(self):
        """Takes all away but the journal."""
        for name in os.listdir(self.work):
            path = os.path.join(self.work, name)
            if path != self.journal:
                shutil.rmtree(path) if os.path.isdir(path) else os.unlink(path)

    def forget(self):
        unguard(self.region)
        os.unlink(self.journal)
        os.rmdir(self.work)
        sync(self.world.parent)
