"""Must-fail edits that are laid over one another: what each changes, which can be tried by one check, and what that check said of each."""
import dataclasses
import pathlib
import re

import rattle_text

# What a batch adds to the crate's root, and what must be proved of it: that tells that the batch was read.
HARMLESS = "harmless_edit_of_this_batch"
HARMLESS_TEXT = "\n/// What an edit adds that changes nothing.\npub(crate) fn %s() -> u8 {\n    7\n}\n" % HARMLESS
# What a proof file says of a name that an edit took away, or of an answer that cites such a proof. It tells nothing of a contract.
GONE = re.compile(r"has no field|is not in scope|has no `|was not admitted")


class Unreadable(Exception):
    """An edit that can't be applied, and why."""


@dataclasses.dataclass(frozen=True)
class Edit:
    """A must-fail edit: the lines that it changes, by their files in the crate and their numbers from 0, and the functions in whose bodies it
    changes something. There are none where it changes what is in no body."""

    crate: str
    name: str
    changes: tuple
    own: frozenset

    def label(self):
        return "%s/%s" % (self.crate, self.name)


def pairs_of(text):
    """The file, the old and the new text of each of an edit's pairs."""
    file, old, found = None, None, []
    for line in text.splitlines():
        word, _, rest = line.partition(":")
        rest = rest[1:] if rest.startswith(" ") else rest
        if word == "file":
            file = rest.strip()
        elif word == "old":
            old = rest
        elif word == "new" and old is not None:
            found.append((file, old, rest))
            old = None
    return found


def edited_texts(folder, pairs):
    """The texts of the files that an edit changes, with what they were."""
    texts = {}
    for file, old, new in pairs:
        path = folder / (file or "")
        if not path.is_file():
            raise Unreadable("there is no file %s" % file)
        was, now = texts.get(file) or (path.read_text(),) * 2
        if now.count(old) != 1:
            raise Unreadable("its old text is in %s %d times, and not once" % (file, now.count(old)))
        texts[file] = was, now.replace(old, new)
    return texts


def owners(file, text, lines):
    """The functions whose bodies hold lines of a file, or None where one is in no body. A line that imports counts for nothing, nor does the first of a
    function's head, which may name a parameter in another way, where its body is changed too."""
    if not file.startswith("src/"):
        return None
    every, all_lines = rattle_text.functions(pathlib.Path(file), text), text.split("\n")
    inside = {at: next((one.name for one in every if one.begin <= at <= one.end), None) for at in lines}
    found = {name for name in inside.values() if name}
    for at, name in inside.items():
        line = all_lines[at]
        head = rattle_text.FUNCTION.match(line)
        if name is None and not re.match(r"\s*use ", line) and not (head and any(one.endswith("::" + head.group(2)) for one in found)):
            return None
    return found


def read_edit(folder, path):
    """Reads an edit of the crate in a folder. Raises Unreadable where it can't be applied."""
    changes, own, is_inside = [], set(), True
    for file, (was, now) in edited_texts(folder, pairs_of(path.read_text())).items():
        old, new = was.split("\n"), now.split("\n")
        lines = [at for at, (one, other) in enumerate(zip(old, new)) if one != other]
        found = owners(file, was, lines)
        is_inside = is_inside and found is not None
        own |= found or set()
        changes += [(file, at, new[at]) for at in lines]
    return Edit(folder.name, path.name, tuple(changes), frozenset(own if is_inside else ()))


def next_batch(edits):
    """Edits that can be laid over one another: no two change the same function or line. And those that are left."""
    batch, left, functions, lines = [], [], set(), set()
    for edit in edits:
        changed = {change[:2] for change in edit.changes}
        if functions & edit.own or lines & changed:
            left.append(edit)
        else:
            batch.append(edit)
            functions |= edit.own
            lines |= changed
    return batch, left


def lay(folder, edits):
    """Lays edits over the files of a crate, and the harmless one."""
    changes = {}
    for edit in edits:
        for file, at, line in edit.changes:
            changes.setdefault(file, {})[at] = line
    for file, lines in changes.items():
        text = (folder / file).read_text().split("\n")
        for at, line in lines.items():
            text[at] = line
        (folder / file).write_text("\n".join(text))
    root = next(path for path in (folder / "src/lib.rt", folder / "src/main.rt") if path.exists())
    root.write_text(root.read_text() + HARMLESS_TEXT)
    return [*changes, str(root.relative_to(folder))]


def lines_of(crate, name, printed):
    """What a check says of a function, or nothing."""
    return re.findall(r"^fn %s::(?:\S+::)?%s: (.*)$" % (re.escape(crate), re.escape(name)), printed, re.MULTILINE)


def was_read(crate, printed):
    """Whether a check of a batch came to its functions and proved the harmless one."""
    return lines_of(crate, HARMLESS, printed) in (["proved"], ["no holes"])


def goal_of(crate, name, printed):
    """The goal of its own at which a check refused a function, or None where it was proved, or not for one of its own."""
    said = "".join(lines_of(crate, name, printed))
    open_goal = re.search(r"did not prove (`[^`]+`)", said)
    if open_goal and said.startswith("no proof"):
        return open_goal.group(1)
    if said.startswith("not proved"):
        path = re.escape(name.replace("::", "/"))
        for line in re.findall(r"^(?:\./)?proofs/(?:\S+/)?%s/\S+: error: (.*)$" % path, printed, re.MULTILINE):
            if not GONE.search(line):
                goal = re.match(r"`[^`]+`", line)
                return goal.group() if goal else line[:80]
    return None


def is_hidden(crate, edit, printed):
    """Whether nothing is known of an edit since a function that its own ones call was refused."""
    return any(re.search(r"\bit calls .*(is|are) not proved", line) for name in edit.own for line in lines_of(crate, name, printed))


def is_at_own(folder, edit, said):
    """Whether what the kit said first of an edit of the crate in a folder, which it tried alone, is of one of its own functions."""
    found = re.search(r"\bproofs/(\S+?)/\w+\.antt:", said)
    if found:
        return any(("/" + found.group(1)).endswith("/" + name.replace("::", "/")) for name in edit.own)
    found = re.search(r"\b(src/\S+?\.rt):(\d+):\d+", said)
    if not found:
        return False
    file, line = pathlib.Path(found.group(1)), int(found.group(2)) - 1
    every = rattle_text.functions(file, (folder / file).read_text())
    return any(one.head <= line <= one.end and one.name in edit.own for one in every)
