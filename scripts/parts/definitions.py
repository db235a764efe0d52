"""The page of the definitions that the promises cite: a chapter for each promise, which is a law of
crates/run_promises/src/promises.rt, and a last one for the contracts of the calls.

A chapter has the law, the definitions of that crate, of the top call, of the crates of the commands
and of call_parts that the law cites, in full, and a row for each further one that these cite and no
chapter before it has. Each sentence is the
one above the definition in its file.
"""
import glob
import os
import re

from sources import TOP, read

LAWS_CRATE = "run_promises"
TOP_CRATE = "hotsync_run"
# The crates whose definitions are shown in full where a law cites them.
ON_TOP = (LAWS_CRATE, TOP_CRATE, "cmd_session", "cmd_files", "call_parts")
PROMISES = f"crates/{LAWS_CRATE}/src/promises.rt"
CALLS = [f"crates/{TOP_CRATE}/src/{name}.rt" for name in ("command", "program")]
# The sentences aren't looked for behind these, and what the contracts say comes last.
STOPS = {(f"{LAWS_CRATE}.{where}", name) for where, name in (
    ("Headline", "Headline"), ("RunCalls", "IsAnsweredRun"), ("Calls", "IsAnsweredCall"))}
NAMES_TAKEN = re.compile(r"use Rattle\.(\w+)\.specs\.(\w+)\.\{(.*)\}$")
MODULE_TAKEN = re.compile(r"use Rattle\.(\w+)\.specs\.(\w+)(?: as (\w+))?$")
ITEM = re.compile(r"(?:(?:pub|abbrev|unfoldable|record|data)\s+)+([^\s:({]+)")
CITED = re.compile(r"([^\W\d][\w'-]*)((?:\.[^\W\d][\w'-]*)*)")

HEAD = """\
# Definitions

What the promises stand on. Each is a law, a chapter here: the law, the definitions of its crate, of
the top call, of the crates of the commands and of `call_parts` that it cites, in full, and a row
for each further definition that these cite and no chapter before it has, down to the layouts of
bytes. These are what a reader has to believe. A proof says that the program meets them, and no
proof says that they are the ones that were meant. A file is whole where all of its definitions are
in some chapter, and part where others stand beside them.

In a contract a byte or a number is a natural number, a text or a slice is a list, and a type with
private fields is seen as plain data: a name as its bytes, an id as its number, a date as its
seconds, a content as `ContentValue`, a database as `DatabaseValue`. Types of the code that a
clause names, such as `Status` or `Report`, stand in `crates/CRATE/src`.

The page that gathers the promises comes first, and the contracts of the calls, from which they
follow, last. In a chapter the crates follow each other from the program down, and each definition
is explained by those behind it or beside it. docs/PROVED.md says which contract cites what.
"""


class File:
    """A file of definitions: its names, their sentences and texts, what it takes from others."""

    def __init__(self):
        self.names, self.sentence, self.text, self.taken, self.modules = [], {}, {}, {}, {}

    def take(self, line):
        """Notes what a line takes from other files."""
        if found := NAMES_TAKEN.match(line):
            for one in re.split(r",\s*", found[3]):
                what, _, name = one.partition(" as ")
                self.taken[name or what] = (f"{found[1]}.{found[2]}", what)
        elif found := MODULE_TAKEN.match(line):
            self.modules[found[3] or found[2]] = f"{found[1]}.{found[2]}"

    def begin(self, name, comment):
        if name not in self.text:
            self.names.append(name)
        self.sentence[name] = " ".join(it for it in comment if not it.startswith("----"))

    def read(self, path):
        current, comment = "", []
        for number, line in enumerate(read(path).splitlines()):
            if line.startswith("use "):
                self.take(line)
            elif line.startswith("--"):
                comment += [re.sub(r"^--\s?", "", line)] * (number > 0)
                current = ""
            elif not line.strip():
                current, comment = "", []
            else:
                if begun := ITEM.match(line):
                    current = begun[1]
                    self.begin(current, comment)
                    comment = []
                elif not line[0].isspace() and line.split()[0] in self.text:
                    current = line.split()[0]
                if current:
                    self.text[current] = self.text.get(current, "") + line + "\n"
        return self


class Definitions:
    """All files of definitions, and the chapters that have been made of them."""

    def __init__(self):
        self.files = {}
        for path in sorted(glob.glob(f"{TOP}/crates/*/specs/*.antt")):
            crate, name = re.search(r"crates/(\w+)/specs/(\w+)\.antt$", path).groups()
            if name != "Lib":
                self.files[f"{crate}.{name}"] = File().read(os.path.relpath(path, TOP))
        self.below, self.heights, self.seen = below(), {}, set()

    def height(self, crate):
        """The longest way down from a crate."""
        if crate not in self.heights:
            own = [self.height(it) + 1 for it in self.below.get(crate, ()) if it in self.below]
            self.heights[crate] = max(own, default=0)
        return self.heights[crate]

    def has(self, where, name):
        return where in self.files and name in self.files[where].text

    def cited_in(self, here, text, own=None):
        """What a text that stands in a file cites, in order."""
        for word, behind in CITED.findall(text):
            if other := here.modules.get(word):
                inner = re.match(r"\.([\w'-]+)", behind)
                if inner and self.has(other, inner[1]):
                    yield other, inner[1]
            elif taken := here.taken.get(word):
                if self.has(*taken):
                    yield taken
            elif own and word in here.text:
                yield own, word

    def cited(self, where, name):
        here = self.files[where]
        found = self.cited_in(here, here.text[name], where)
        return [one for one in found if one != (where, name)]

    def chapter(self, cites):
        """What a chapter shows of the definitions that it cites, and all else that they lead to."""
        shown, others, direct, left = [], [], set(cites), list(cites)
        for one in left:
            if one not in self.seen:
                self.seen.add(one)
                is_shown = one in direct and one[0].split(".")[0] in ON_TOP
                (shown if is_shown else others).append(one)
                left += self.cited(*one) if one not in STOPS else []
        return shown, others

    def link(self, where):
        """A link to a file, and whether the chapters have all of its definitions."""
        crate, name = where.split(".")
        whole = all((where, it) in self.seen for it in self.files[where].names)
        return f"[{name}](../crates/{crate}/specs/{name}.antt), {'whole' if whole else 'part'}"

    def own_text(self, where, name):
        """A definition without a sentence speaks for itself, where it is short."""
        lines = self.files[where].text[name].splitlines()
        found = len(lines) == 2 and re.match(rf"{re.escape(name)}[^=]*= (.{{1,90}})$", lines[1])
        return f"`{found[1]}`" if found else ""

    def rows(self, definitions):
        """The definitions of a chapter, by their crates from the top down, and by their files."""
        crates = {}
        for where, name in definitions:
            crates.setdefault(where.split(".")[0], {}).setdefault(where, []).append(name)
        text = "| Name | What it says | File |\n|---|---|---|\n"
        for crate in sorted(crates, key=lambda it: (-self.height(it), it)):
            text += f"| **`{crate}`** | | |\n"
            for where, names in crates[crate].items():
                for name in names:
                    said = self.files[where].sentence[name] or self.own_text(where, name)
                    file = self.link(where) if name == names[0] else ""
                    text += f"| `{name}` | {said.replace('|', chr(92) + '|')} | {file} |\n"
        return text

    def block(self, where, name):
        said = self.files[where].sentence[name]
        text = f"```antt\n{self.files[where].text[name]}```\n\nFrom {self.link(where)}.\n"
        return f"{said}\n\n{text}" if said else text

    def functions(self, path):
        """The functions of a source file: of each its name, the comment above it, its contract and
        what that cites."""
        here, found, comment, is_head = File(), [], [], False
        for line in read(path).splitlines():
            if line.startswith("ghost use "):
                here.take(line[len("ghost "):].rstrip(";"))
            elif line.startswith("///"):
                comment.append(re.sub(r"^/// ?", "", line))
            elif begun := re.match(r"pub fn (\w+)", line):
                found.append([begun[1], " ".join(comment), ""])
                comment, is_head = [], True
            elif line.startswith("{"):
                is_head = False
            elif is_head:
                found[-1][2] += line + "\n"
            else:
                comment = []
        return [(*one, list(self.cited_in(here, one[2]))) for one in found]


def below():
    """The libraries of each crate."""
    lines = re.findall(r"^(\w+):(.*)", read("crates.txt"), re.M)
    return {crate: rest.split() for crate, rest in lines}


def page(wanted=()):
    """The whole page, or the chapters of the laws that are wanted."""
    all_of = Definitions()
    laws = [one for one in all_of.functions(PROMISES) if not wanted or one[0] in wanted]
    calls = [one for path in CALLS for one in all_of.functions(path)] if not wanted else []
    if calls:
        cites = [one for _, _, _, cited in calls for one in cited]
        laws.append(("contracts", "The contracts of the calls.", "", cites))
    chapters = [(law, all_of.chapter(law[3])) for law in laws]
    text = "" if wanted else HEAD
    for (name, comment, contract, _), (shown, others) in chapters:
        text += f"\n## {re.match(r'(.*?)[.:;](?:' + chr(92) + 's|$)', comment)[1]}\n\n"
        if contract:
            text += f"Law `{name}`. {comment}\n\n```antt\n{contract}```\n"
            text += "".join("\n" + all_of.block(*one) for one in shown)
        else:
            others = others + shown
        text += "\n" + (all_of.rows(others) if others else "What it cites stands above.\n")
    return text
