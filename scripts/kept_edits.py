"""What earlier runs of scripts/edits.py saw refused on this machine, by the checksums of all that each check read. Nothing of it is committed, so no
record is written by who is judged by it."""
import functools
import hashlib
import json
import os
import pathlib
import subprocess
import tempfile

import rattle_text

HERE = pathlib.Path(__file__).resolve().parent
SCRIPTS = [HERE / name for name in ("edits.py", "kept_edits.py", "laid_edits.py", "rattle_text.py")]
FOLDER = pathlib.Path(os.environ.get("XDG_CACHE_HOME") or pathlib.Path.home() / ".cache") / "anvilwater/edits"


def digest(words):
    """A checksum of texts."""
    return hashlib.sha256(repr(words).encode(errors="surrogateescape")).hexdigest()


@functools.cache
def tools():
    """What tries an edit: the kit, and these scripts."""
    kit = subprocess.run(["rt", "version"], capture_output=True, text=True, stdin=subprocess.DEVNULL, check=True).stdout
    return kit, [digest(path.read_text()) for path in SCRIPTS]


class Kept:
    """The edits that were refused, by what stands in a tree."""

    def __init__(self, top, below, lists):
        self.top, self.below, self.lists = top, below, lists

    @functools.cache
    def sum_of(self, name, without_bodies):
        """A checksum of a crate's files, and of what crates.txt says of it."""
        folder = self.top / "crates" / name
        said = [self.lists[name]]
        for part in ("src", "specs", "proofs"):
            for path in sorted((folder / part).rglob("*")):
                if path.suffix in (".rt", ".antt"):
                    file, text = path.relative_to(folder), path.read_text()
                    said.append((str(file), rattle_text.without_bodies(file, text) if without_bodies and part == "src" else text))
        return digest(said)

    @functools.cache
    def name_of(self, crate, edit, without_bodies):
        """The name of what is known of an edit, by all files of its crate and below, or without the bodies of those below."""
        text = (self.top / "crates" / crate / "must-fail" / edit).read_text()
        others = [(other, self.sum_of(other, without_bodies)) for other in sorted(self.below(crate))]
        return digest((tools(), crate, edit, text, self.sum_of(crate, False), others, without_bodies))

    def known(self, crate, edit, without_bodies=False):
        """How an edit was refused, or None where that is not known."""
        try:
            return json.loads((FOLDER / self.name_of(crate, edit, without_bodies)).read_text())
        except (OSError, ValueError):
            return None

    def keep(self, crate, edit, how):
        """Keeps that an edit was refused. Where that can't be kept, it is only tried again."""
        try:
            FOLDER.mkdir(parents=True, exist_ok=True)
            for without_bodies in (False, True):
                with tempfile.NamedTemporaryFile("w", dir=FOLDER, delete=False) as file:
                    json.dump(how, file)
                os.replace(file.name, FOLDER / self.name_of(crate, edit, without_bodies))
        except OSError:
            pass


def is_drawn(commit, label):
    """Whether an edit is among the tenth that is tried in a commit though a body alone changed below it."""
    return int(digest((commit, label)), 16) % 10 == 0
