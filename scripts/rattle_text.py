"""Where functions and their bodies stand in a Rattle file that is laid out by `rt fmt`.

It reads the layout and not the language: a body's last line is a brace under the function's own first letter.
"""
import dataclasses
import re

FUNCTION = re.compile(r"^( *)(?:pub(?:\([^)]*\))? )?(?:const )?(?:unsafe )?fn (\w+)")
IMPL = re.compile(r"^( *)(?:unsafe )?impl\b")


@dataclasses.dataclass(frozen=True)
class Function:
    """A function's name as a check prints it, or the end of it: of a method without the module of its type, which may be another one; the line with that name, and the lines of its body, from the one with the
    brace that opens it up to the one with the brace that closes it. Lines are counted from 0."""

    name: str
    head: int
    begin: int
    end: int


def module_of(path):
    """The module that a file of a crate holds, as the words of a path."""
    words = list(path.with_suffix("").parts[1:])
    return words[:-1] if words[-1] in ("lib", "main", "mod") else words


def without_parameters(text):
    """A type or trait without what stands between < and >."""
    depth, kept = 0, []
    for letter in text.replace("->", "  "):
        depth += letter == "<"
        if depth == 0:
            kept.append(letter)
        depth -= letter == ">"
    return "".join(kept)


def last_word(text):
    """The last name of a path of types, as `Vec` of `std::vec::Vec`."""
    found = re.findall(r"\w+", without_parameters(text))
    return found[-1] if found else ""


def impl_name(header):
    """The name of an `impl` block as a check prints it: the type, or the type, the trait and the names among the trait's parameters."""
    text = re.sub(r"\s+", " ", header).strip()
    text = re.sub(r"^(?:unsafe )?impl\b ?", "", text)
    own_parameters = set()
    if text.startswith("<"):
        depth = 0
        for at, letter in enumerate(text):
            depth += (letter == "<") - (letter == ">" and text[at - 1] != "-")
            if depth == 0:
                own_parameters = set(re.findall(r"[<,] ?(?:const )?([A-Z]\w*)", text[:at]))
                text = text[at + 1:].strip()
                break
    text = text.split(" where ")[0].rstrip("{ ")
    trait, found, own = text.partition(" for ")
    if not found:
        return last_word(trait)
    given = re.search(r"<(.*)>", trait)
    names = [name for name in re.findall(r"[A-Z]\w*", given.group(1)) if name not in own_parameters] if given else []
    return last_word(own) + last_word(trait) + "".join(names)


def is_opening(line, indent, first):
    """Whether a function's body begins on this line of it."""
    if line in (indent + "{", indent + "{}"):
        return True
    return line.endswith("{") and (first or line.startswith(indent + ")"))


def body_of(lines, at, indent):
    """The first and the last line of the body of the function that begins on a line, or None where it has none, as in a trait."""
    for begin in range(at, len(lines)):
        line = lines[begin]
        if line == indent + "{}" or begin == at and line.endswith("{}"):
            return begin, begin
        if is_opening(line, indent, begin == at):
            end = next((end for end in range(begin + 1, len(lines)) if lines[end] == indent + "}"), None)
            return end and (begin, end)
        if line.endswith(";") and not line.startswith(indent + " "):
            return None
        if begin > at and line.strip() and len(line) - len(line.lstrip()) < len(indent):
            return None
    return None


def header_at(lines, at):
    """The text of an `impl` block's header that begins on a line."""
    text = []
    for line in lines[at:]:
        text.append(line)
        if "{" in line:
            break
    return " ".join(text)


def functions(path, text):
    """The functions of a file, by its path in the crate."""
    lines = text.split("\n")
    module, block, found, behind = module_of(path), None, [], -1
    for at, line in enumerate(lines):
        if at <= behind:
            continue
        if IMPL.match(line):
            block = impl_name(header_at(lines, at))
        elif line == "}":
            block = None
        head = FUNCTION.match(line)
        body = head and body_of(lines, at, head.group(1))
        if body:
            owner = [block] if block and head.group(1) else module
            found.append(Function("::".join(owner + [head.group(2)]), at, *body))
            behind = body[1]
    return found


def without_bodies(path, text):
    """The text of a file without what stands in its functions' bodies: all that a crate above it can see, and more. The body of a `const fn` stays, since
    a constant may have its value."""
    lines = text.split("\n")
    for function in reversed(functions(path, text)):
        if "const fn " not in lines[function.head]:
            del lines[function.begin + 1:function.end]
    return "\n".join(lines)
