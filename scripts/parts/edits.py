"""The wrong bodies of a crate: what each changes, in which functions, and which go together."""
import glob
import os
import re

from sources import TOP

FUNCTION = re.compile(
    r'( *)(?:pub(?:\(crate\))? )?(?:const )?(?:final )?(?:unsafe )?(?:extern "C" )?fn (\w+)')


def crates_with_edits():
    return sorted(path.split("/")[-2] for path in glob.glob(f"{TOP}/crates/*/wrong-bodies"))


class Body:
    """A function of a source file with a body: its module, its name, where the body stands,
    whether it has a contract of its own, and the name of its cycle of calls."""

    def __init__(self, module, name, lines, has_contract, cycle, text):
        self.module, self.name, self.lines = module, name, lines
        self.has_contract, self.cycle, self.text = has_contract, cycle, text

    @property
    def key(self):
        """What at most one edit of a group may change: all functions of a module that bear one
        name, or all of a cycle."""
        return ("cycle", self.cycle) if self.cycle else (self.module, self.name)

    def is_named(self, path):
        """Whether a path, behind that of the module, is this function or a part of it."""
        parts = path.split("::")
        if "fn" in parts[:-1]:
            return parts[parts.index("fn") + 1] == self.name
        return parts[-1] == self.name


def module_of(path):
    """The module of a source file, with `::` behind it, or nothing for the root of a crate."""
    inner = re.sub(r"^src/|(/mod)?\.rt$", "", path)
    return "" if inner in ("lib", "main") else inner.replace("/", "::") + "::"


def bodies_of(path, text):
    """The functions of a source file that have a body."""
    lines, found = text.split("\n"), []
    for at, line in enumerate(lines):
        begun = FUNCTION.match(line)
        if not begun:
            continue
        indent = begun[1]
        opens = at if line.endswith("{") else None
        for below in range(at, len(lines) if opens is None else at):
            if lines[below] == indent + "{":
                opens = below
            if lines[below] == indent + "{" or lines[below].endswith(";"):
                break
        if opens is None:
            continue
        ends = next((it for it in range(opens + 1, len(lines)) if lines[it] == indent + "}"), opens)
        head = "\n".join(lines[at:opens + 1])
        cycle = re.search(r"#\[cycle\((\w+)\)\]", "\n".join(lines[max(0, at - 4):at]))
        found.append(Body(module_of(path), begun[2], range(opens, ends + 1), " ensures" in head,
                          cycle and cycle[1], "\n".join(lines[opens:ends + 1])))
    return found


class Edit:
    """A wrong body: the texts that it changes, and the functions in which it changes them."""

    def __init__(self, crate, path):
        self.crate, self.path, self.name = crate, path, os.path.basename(path)
        self.pairs, self.bodies, self.is_inside, self.fault = [], [], True, None
        with open(path, encoding="utf-8") as file:
            self.read(file.read())
        self.look()

    def read(self, text):
        file = old = None
        for line in text.split("\n"):
            if line.startswith("file: "):
                file = line[6:].strip()
            elif line.startswith("old: "):
                old = line[5:]
            elif line.startswith("new:") and file and old:
                self.pairs.append((file, old, re.sub(r"\A ", "", line[4:])))
                old = None

    def look(self):
        """Finds the functions that it changes, or why it can't be applied."""
        texts = {}
        self.fault = self.apply(texts)
        for file, old, _ in self.pairs if self.fault is None else ():
            with open(f"{TOP}/crates/{self.crate}/{file}", encoding="utf-8") as source:
                text = source.read()
            place = text[:text.find(old)].count("\n")
            within = [it for it in bodies_of(file, text) if place in it.lines and old in text]
            self.bodies += within[-1:]
            self.is_inside &= bool(within) and within[-1].has_contract

    def apply(self, texts):
        """Applies it to the texts of files, those of the crate where they aren't there yet,
        and returns why it can't be applied, if it can't."""
        now = dict(texts)
        for file, old, new in self.pairs:
            path = f"{TOP}/crates/{self.crate}/{file}"
            if file not in now:
                if not os.path.isfile(path):
                    return f"there is no file {file}"
                with open(path, encoding="utf-8") as source:
                    now[file] = source.read()
            if now[file].count(old) != 1:
                return f"an 'old:' text is in {file} {now[file].count(old)} times, and not once"
            now[file] = now[file].replace(old, new)
        if not self.pairs:
            return "it has no 'old:' and 'new:' pair"
        texts.update(now)
        return None

    @property
    def keys(self):
        return {body.key for body in self.bodies}


def edits_of(crate):
    paths = sorted(glob.glob(f"{TOP}/crates/{crate}/wrong-bodies/*.edit"))
    return [Edit(crate, path) for path in paths]


def groups_of(edits):
    """Edits that can be tried together: no two change one function, and each still applies behind
    the others."""
    groups = []
    for edit in edits:
        for group, keys, texts in groups:
            if not keys & edit.keys and edit.apply(texts) is None:
                group.append(edit)
                keys |= edit.keys
                break
        else:
            texts = {}
            edit.apply(texts)
            groups.append(([edit], set(edit.keys), texts))
    return [(group, texts) for group, _, texts in groups]
