"""What pages name: fails where one names, between back-quotes, what no source has, or a file that
isn't there, and where docs/ARCHITECTURE.md has other crates under a heading than crates.txt.

  python3 scripts/parts/names.py PAGE..
"""
import glob
import os
import re
import sys

from sources import TOP, areas, functions_of, read, sources

NAME = r"[A-Za-z_][\w'-]*"
RUST_ITEM = re.compile(r" *(?:pub |pub\(crate\) )?(?:struct|enum|trait|type|const|static) (\w+)")
RUST_MEMBER = re.compile(r" +(?:pub |pub\(crate\) |ghost )*(\w+)(?::|,|\(| \{| = |$)")
ITEM = re.compile(r" *(?:(?:pub|abbrev|unfoldable|record|data) )+([^\s:({]+)")
MEMBER = re.compile(rf" +(?:pub )?({NAME}) [:=]")
ARM = re.compile(rf"({NAME}) ")
LABELS_OF = re.compile(rf"((?:`{NAME}`(?:, and |, | and )?)+) of `([^`]+)`")


# Names of the system, of Rust, of packages and of other software that the pages use.
FOREIGN = set("cc pkg-config stdin stdout PATH umask flock RLIMIT_FSIZE match Vec".split())
FOREIGN |= {"mem::swap", "jiff::civil::Date", "RT_JOBS", "libhotsync-dev"}


class Names:
    """The names in the sources; for each function, type or crate those of its clauses, members or
    parts; and of each definition, as often as there is one of its name, its fields and what its
    text cites."""

    def __init__(self):
        self.known, self.parts, self.definitions = set(FOREIGN), {}, {}
        self.known |= set(re.findall(r"\w+", re.sub(r"#.*", "", read("crates.txt"))))
        self.known |= set(re.findall(r"\bHS_\w+", read("include/hotsync.h")))
        for _, crates in areas():
            for crate in crates:
                self.add_crate(crate)

    def add(self, owner, name):
        self.known.add(name)
        self.parts.setdefault(owner, set()).add(name)

    def add_crate(self, crate):
        for path in sources(crate, "src", ".rt"):
            self.add(crate, os.path.basename(path)[:-3])
            self.add_functions(crate, path)
            self.add_items(crate, path)
        for path in sources(crate, "specs", ".antt") + sources(crate, "proofs", ".antt"):
            self.add(crate, os.path.basename(path)[:-5])
            self.add_definitions(crate, path)

    def add_functions(self, crate, path):
        for function in functions_of(path):
            self.add(crate, function.name)
            self.known.add(function.shown)
            for label in function.ensures + function.requires:
                owners = {function.name, function.shown, f"{function.trait}::{function.name}"}
                for owner in owners if label else ():
                    self.add(owner, label)

    def add_items(self, crate, path):
        now = None
        for line in read(path).splitlines():
            self.known |= set(re.findall(NAME, " ".join(re.findall(r'"([^"]*)"', line))))
            if begun := RUST_ITEM.match(line):
                now = begun[1]
                self.add(crate, now)
            elif member := RUST_MEMBER.match(line):
                self.add(now, member[1])
            if line.startswith("}"):
                now = None

    def add_definitions(self, crate, path):
        now, fields, cites = None, set(), set()
        for line in read(path).splitlines():
            if line.startswith("use "):
                continue
            self.known |= set(re.findall(NAME, " ".join(re.findall(r'"([^"]*)"', line))))
            if begun := ITEM.match(line):
                for owner in crate, path:
                    self.add(owner, begun[1])
                if line.startswith(" "):
                    fields.add(begun[1])
                else:
                    now, fields, cites = begun[1], set(), set()
                    self.definitions.setdefault(now, []).append((fields, cites))
            elif member := MEMBER.match(line):
                fields.add(member[1])
                self.known.add(member[1])
            elif arm := ARM.match(line):
                self.known.add(arm[1])
            cites.update(re.findall(NAME, line.split("--")[0]))

    def parts_of(self, name):
        """What a name has: as a function, a type or a crate, as a record its fields, and as another
        name for records theirs."""
        found = set(self.parts.get(name, ()))
        for fields, cites in self.definitions.get(name, ()):
            found |= fields or self.fields_of(cites)
        return found

    def fields_of(self, names):
        found = [fields for name in names for fields, _ in self.definitions.get(name, ())]
        return {field for fields in found for field in fields}


def spread(quoted):
    """The names that stand for `a::{b, c}`."""
    group = re.fullmatch(r"(.*::)\{(.*)\}", quoted)
    return [group[1] + one.strip() for one in group[2].split(",")] if group else [quoted]


def is_known(name, names):
    parts = name.split("::")
    return name in names.known or len(parts) > 1 and parts[1] in names.parts.get(parts[0], ())


# A kit by its name, of which check-docs has its own test.
KIT = re.compile(r"rattle-kit-\w+")


PATH = re.compile(
    r"(?<![\w/.$-])(?:\w+/)*(?:crates|docs|scripts|src|specs|proofs)/[\w/.-]*\w")


def missing_files(page):
    """The files that a page names, and that aren't there. Capitals stand for any name."""
    for path in PATH.findall(read(page)):
        if not re.search(r"(^|/)[A-Z_]+(\.|/|$)", path):
            places = [path, f"{os.path.dirname(page)}/{path}", f"crates/{path}"]
            places += [f"crates/*/{path}", f"crates/*/{path}.antt"]
            if not any(glob.glob(os.path.join(TOP, place)) for place in places):
                yield f"{page}: there is no file {path}"


def strangers(page, names):
    """What a page names between back-quotes as one name, and no source has."""
    yield from missing_files(page)
    text = re.sub(r"^```.*?^```", "", read(page), flags=re.M | re.S)
    for quoted in re.findall(r"`([^`\n]+)`", text):
        for name in spread(quoted):
            is_name = re.fullmatch(rf"{NAME}(::{NAME})*", name) and not KIT.fullmatch(name)
            if is_name and not is_known(name, names):
                yield f"{page}: no source has the name {name}"
    for cited, owners in LABELS_OF.findall(text):
        for owner in spread(owners):
            for label in re.findall(rf"`({NAME})`", cited):
                if label not in names.parts_of(owner):
                    yield f"{page}: {owner} has no {label}"


def other_areas():
    """The areas of crates.txt whose crates aren't those of docs/ARCHITECTURE.md under the same
    heading, in this order."""
    page = read("docs/ARCHITECTURE.md")
    for area, crates in areas():
        section = re.search(rf"^### {re.escape(area)}$(.*?)(?=^##|\Z)", page, re.M | re.S)
        rows = re.findall(r"^\| `(\w+)` \|", section[1], re.M) if section else []
        named = rows or [crate for crate in crates if section and f"`{crate}`" in section[1]]
        if named != crates:
            yield f"docs/ARCHITECTURE.md has not the crates of crates.txt under {area}"


def check(pages):
    names = Names()
    found = [*other_areas(), *(one for page in pages for one in strangers(page, names))]
    if found:
        sys.exit("\n".join("check-docs: " + one for one in found))


check(sys.argv[1:])
