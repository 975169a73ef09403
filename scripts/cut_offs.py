"""Runs of a small world in place that halt.c stops or lets fail, for check_cut_off.py and check_devices.py, and what they leave."""
import dataclasses
import errno
import itertools
import os
import signal
import stat
import subprocess
import sys
import typing

from flat_runs import TABLE, WATER, chunk, edit, said
from preloads import built_library
from written_regions import region_bytes

# A chunk of each of four regions. A source of water is set in the first three, so that they change with every run.
CHUNKS = (-1, 0), (0, 0), (0, 32), (96, 96)
REGIONS = ["r.%d.%d.mca" % (x >> 5, z >> 5) for x, z in CHUNKS]
CHANGED, LEFT_ALONE = REGIONS[:3], REGIONS[3]
EDITS = "".join(edit(1, 16 * x + 8, 64, 16 * z + 8, WATER) for x, z in CHUNKS[:3])
TOLD = "chunks 4 turns 3"

# Files that only look as if a run had left them.
FOREIGN = {".anvilwater-r.0.0.mca.old": b"of somebody else", ".anvilwater-r.00.0.mca": b"of somebody else", "r.0.0.mca.part": b""}

JOURNAL, NEW_JOURNAL, TRIAL = ".anvilwater-journal", ".anvilwater-journal-new", ".anvilwater-trial"
STAND, GO = "rename %s %s" % (NEW_JOURNAL, JOURNAL), "unlink " + JOURNAL
PLACES = ["rename .anvilwater-%s %s" % (name, name) for name in CHANGED]
HEAD = b"anvilwater journal 2\n"
FINISHED = "%s: a run that was cut off is finished: %d files took their places"
TAKEN_AWAY = "%s: %d files that a run left behind when it was cut off are taken away"
NOTHING_ELSE = "  nothing else is done, so that no tick is run twice: --again runs it anew"


@dataclasses.dataclass(frozen=True)
class Shot:
    """What a name of a folder has: a file's bytes, or where a link leads to, the mode and the owner. The time at which it was written last
    makes no difference."""
    content: typing.Union[bytes, str, None]
    mode: int
    user: int
    group: int
    time: int = dataclasses.field(compare=False)

    def rights(self):
        return self.mode, self.user, self.group


class Answer(typing.NamedTuple):
    """What a call answers: its status, without one where it does not end, its line, and its lines on standard error."""
    status: typing.Optional[int]
    line: str
    errors: list


def shot(path):
    found = os.lstat(path)
    if stat.S_ISLNK(found.st_mode):
        return Shot(os.readlink(path), 0, found.st_uid, found.st_gid, 0)
    content = None
    if stat.S_ISREG(found.st_mode):
        with open(path, "rb") as file:
            content = file.read()
    return Shot(content, found.st_mode, found.st_uid, found.st_gid, found.st_mtime_ns)


def shots(folder):
    return {name: shot(os.path.join(folder, name)) for name in os.listdir(folder)}


def contents(files):
    return {name: file.content for name, file in files.items()}


def differing(want, got, names=None):
    """The names, of these or of all, under which there is something else."""
    return sorted(name for name in names or {*want, *got} if want.get(name) != got.get(name))


def laid(folder, files):
    """A folder with these files, as shots or as bytes of this process's own, or with links to these paths."""
    os.makedirs(folder, exist_ok=True)
    for name, file in files.items():
        path = os.path.join(folder, name)
        content = file.content if isinstance(file, Shot) else file
        if isinstance(content, str):
            os.symlink(content, path)
            continue
        with open(path, "wb") as opened:
            opened.write(content)
        if isinstance(file, Shot):
            os.chmod(path, file.mode)
            if (file.user, file.group) != (os.geteuid(), os.getegid()):
                os.chown(path, file.user, file.group)
            os.utime(path, ns=(file.time, file.time))
    return folder


def part(name):
    return ".anvilwater-" + name


def mark(file):
    """The line by which a journal knows a file again, or that none has its name."""
    return b"-\n" if file is None else b"%d %d %d\n" % (len(file.content), *divmod(file.time, 10 ** 9))


def journal_of(names, files):
    """The journal of a run whose new files have these names, where these files were when it was written."""
    return HEAD + b"".join(name.encode() + b"\n" for name in names) + b"\n" + b"".join(mark(files.get(name)) for name in names)


def is_left(name):
    """Is it the name of what a run that is cut off may leave?"""
    return name in (NEW_JOURNAL, TRIAL) or name in map(part, REGIONS)


class World:
    """A world of four regions in a folder of its own, as it is before, after one run in place and after two."""

    def __init__(self, program, work):
        self.program, self.work, self.library, self.folders = program, os.path.realpath(work), built_library("halt", work), itertools.count()
        for name, text in (("table", TABLE), ("edits", EDITS)):
            with open(self.path(name), "w") as file:
                file.write(text)
        raw = {name: region_bytes({at: chunk(*at, {}, (), {})}) for name, at in zip(REGIONS, CHUNKS)}
        source, lit = laid(self.path("source"), raw), laid(self.path("lit"), {})
        self.ask([program, "run", "--in", source, "--out", lit, "--table", self.path("table"), "--ticks", "0"])
        for name, mode in zip(REGIONS, (0o640, 0o604, 0o444, 0o644)):
            os.chmod(os.path.join(lit, name), mode)
        if os.geteuid() == 0:
            os.chown(os.path.join(lit, REGIONS[0]), 1234, 2345)
        laid(self.path("foreign"), FOREIGN)
        self.old = {**shots(lit), **shots(self.path("foreign"))}
        folder = self.laid(self.old)
        self.first, self.new = self.run(folder), shots(folder)
        self.second, self.twice = self.run(folder), shots(folder)

    def path(self, name):
        return os.path.join(self.work, name)

    def laid(self, files):
        """These files in a folder of their own."""
        return laid(self.path("folder%d" % next(self.folders)), files)

    def ask(self, words, environment=(), **options):
        try:
            done = subprocess.run(words, stdin=subprocess.DEVNULL, capture_output=True, text=True, env=dict(environment), timeout=60, **options)
        except subprocess.TimeoutExpired:
            return Answer(None, "", ["it does not end"])
        return Answer(done.returncode, done.stdout.strip(), said(done.stderr).splitlines())

    def words(self, folder, *more, source=None):
        return [self.program, "run", "--in", source or folder, "--out", folder, "--table", self.path("table"), "--edits", self.path("edits"),
                "--ticks", "6", "--workers", "1", *more]

    def check_words(self, folder):
        return [self.program, "check", "--in", folder]

    def run(self, folder, *more):
        return self.ask(self.words(folder, *more))

    def check(self, folder):
        return self.ask(self.check_words(folder))

    def halted(self, words, folder, call=0, when="before", error=0, sent=signal.SIGKILL):
        """What a command answers of which this call that changes the folder gets a signal, or an error, and the calls that it makes."""
        told, tell = os.pipe()
        environment = {"LD_PRELOAD": self.library, "HALT_FOLDER": folder, "HALT": str(call), "HALT_WHEN": when, "HALT_ERROR": str(error),
                       "HALT_SIGNAL": str(int(sent)), "HALT_TO": str(tell)}
        answer = self.ask(words, environment, pass_fds=(tell,))
        os.close(tell)
        with os.fdopen(told) as calls:
            return answer, calls.read().splitlines()

    def unlocked(self, words, folder):
        """What a command answers where nothing can be locked."""
        return self.ask(words, {"LD_PRELOAD": self.library, "HALT_FOLDER": folder, "HALT_LOCKS": str(errno.ENOLCK)})

    def stopped(self, words, folder, call, change, locks=0):
        """What a command answers that is stopped before this call that changes the folder, until this is done."""
        environment = {"LD_PRELOAD": self.library, "HALT_FOLDER": folder, "HALT": str(call), "HALT_SIGNAL": str(int(signal.SIGSTOP)),
                       "HALT_LOCKS": str(locks)}
        with subprocess.Popen(words, stdin=subprocess.DEVNULL, stdout=subprocess.PIPE, stderr=subprocess.PIPE, text=True, env=environment) as process:
            try:
                os.waitid(os.P_PID, process.pid, os.WSTOPPED | os.WEXITED | os.WNOWAIT)
                change()
                process.send_signal(signal.SIGCONT)
                out, err = process.communicate(timeout=60)
            except BaseException:
                process.kill()
                raise
        return Answer(process.returncode, out.strip(), said(err).splitlines())


def with_journal(world, journal=None):
    """The files of a world in which a run was cut off when it had its journal, or this one."""
    journal = journal_of(CHANGED, world.old) if journal is None else journal
    return {**world.old, **{part(name): world.new[name] for name in CHANGED}, JOURNAL: journal}


def refused(folder):
    """What a command answers that refuses a folder."""
    return Answer(1, "", ["fault 25: Device " + folder])


def report(what, examples):
    """Prints the examples that are wrong and how many there were, and exits."""
    wrong = [(name, want, got) for name, want, got in examples if want != got]
    for name, want, got in wrong:
        print("%s: %s, and not %s" % (name, got, want))
    print("%d asked of %s, %d wrong" % (len(examples), what, len(wrong)))
    sys.exit(len(wrong) > 0)
