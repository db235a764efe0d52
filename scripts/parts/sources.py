"""What the sources of the crates say: areas, functions with their sentences and clauses, and what
a root gives out."""
import os
import re

TOP = os.path.abspath(f"{os.path.dirname(os.path.abspath(__file__))}/../..")

FUNCTION = re.compile(r'^( *)(pub |pub\(crate\) )?(?:unsafe )?(?:extern "C" )?fn (\w+)')
CLAUSE = re.compile(r"^ +(ensures|requires)\*?(?: (\w+))? \{")
OPENS = re.compile(r"^(pub )?(trait|impl)\b")


def read(path):
    with open(os.path.join(TOP, path), encoding="utf-8") as file:
        return file.read()


def sources(crate, folder, ending):
    """The files of a crate with this ending, below this folder of it."""
    found = []
    for place, _, names in os.walk(os.path.join(TOP, "crates", crate, folder)):
        paths = [os.path.join(place, name) for name in names if name.endswith(ending)]
        found += [os.path.relpath(path, TOP) for path in paths]
    return sorted(found)


def areas():
    """The headings of crates.txt, each with its crates."""
    found = []
    for line in read("crates.txt").splitlines()[1:]:
        if line.startswith("#"):
            found.append((line[1:].strip().rstrip("."), []))
        elif re.match(r"\w+( \w+)?:", line):
            found[-1][1].append(re.match(r"\w+", line)[0])
    return found


class Function:
    """A function of a file: its name, its owner (a type or a trait), its sentence, its labels."""

    def __init__(self, name, owner, trait, sentence):
        self.name, self.owner, self.trait, self.sentence = name, owner, trait, sentence
        self.ensures, self.requires, self.public, self.is_traits = [], [], False, False

    @property
    def shown(self):
        return f"{self.owner}::{self.name}" if self.owner else self.name


def without_parameters(text):
    """A type or a trait without what stands between angle brackets."""
    kept, depth = "", 0
    for char in text.replace("->", "  "):
        depth += char == "<"
        if depth == 0:
            kept += char
        depth -= char == ">"
    return kept


def head_of(line):
    """What an item belongs to below the first line of a trait or an impl: a type and its trait."""
    words = without_parameters(line[: line.index("{")] if "{" in line else line).split()
    words = [word for word in words if word != "pub"]
    if words[0] == "trait":
        return words[1].rstrip(":"), None
    words = words[1:] if words[0] == "impl" else [words[0][4:]] + words[1:]
    if "for" in words:
        at = words.index("for")
        return words[at + 1], words[at - 1].split("::")[-1]
    return words[0], None


def functions_of(path):
    """The functions of a source file, in order. A comment's first paragraph is the sentence."""
    found, comment, now, owner, is_trait = [], [], None, (None, None), False
    for line in read(path).splitlines():
        if OPENS.match(line):
            owner, is_trait, comment = head_of(line), "trait" in line.split()[:2], []
        elif line.startswith("}"):
            owner, is_trait, now = (None, None), False, None
        elif line.strip().startswith("///"):
            comment.append(line.strip()[3:].strip())
        elif begun := FUNCTION.match(line):
            first = " ".join(comment).split("  ")[0].strip()
            now = Function(begun[3], *(owner if begun[1] else (None, None)), first)
            now.is_traits = bool(begun[1]) and is_trait
            now.public = begun[2] == "pub " or now.is_traits or now.trait is not None
            found.append(now)
            comment = []
        elif now and re.match(r" *\{", line):
            now = None
        elif now and (clause := CLAUSE.match(line)):
            getattr(now, clause[1]).append(clause[2])
        elif not line.strip().startswith("#["):
            comment = []
    return found


def given_out(crate):
    """What the root of a crate gives out: its public modules, and the names of the others that are
    used publicly."""
    root = f"crates/{crate}/src/lib.rt"
    if not os.path.exists(os.path.join(TOP, root)):
        return set(), set()
    text = read(root)
    modules = set(re.findall(r"^pub mod (\w+);", text, re.M))
    names = set()
    for used in re.findall(r"^pub use ([^;]*);", text, re.M):
        inner = re.search(r"\{(.*)\}", used, re.S)
        for one in (inner[1] if inner else used.split("::")[-1]).split(","):
            if one.strip():
                names.add(one.split(" as ")[-1].strip())
    return modules, names


def purpose(path):
    """What the head of a file says that it is."""
    lines = []
    for line in read(path).splitlines():
        if not line.startswith("//") or not line.strip("/! "):
            break
        lines.append(line.lstrip("/!").strip())
    return " ".join(lines)
