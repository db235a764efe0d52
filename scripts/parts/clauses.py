"""The page of the public functions: crate by crate each with its sentence and its clauses.

Crates come in the order and under the headings of crates.txt. A function is public where its
crate's root gives it out: by `pub mod`, by `pub use`, or as a method of a type or a trait that
stands there. Each sentence is the one above the function in its file.
"""
import os
import re

from sources import areas, functions_of, given_out, purpose, sources

HEAD = """\
# Each public function, with its clauses

Crate by crate, from the bottom up: what a function does, in the sentence above it in its file,
and the labels of the clauses that are proved of it for every input. A clause without a label is
shown as *its contract*; what a caller has to show first stands behind *asks*; a row without
either is proved to be safe and to end, and no more. A law has no body: its contract is all that
there is of it. The methods that a type has for a trait are proved to keep the trait's clauses,
and stand here only where they have clauses of their own. What the program promises is in
docs/PROVED.md, and what the words in the clauses mean in `scripts/pages definitions` and in the
folder `specs` of each crate.
"""


def cell(text):
    """A text for a page: without the links that lead to an item, and without a bar."""
    text = re.sub(r"\[([^\]]*)\]\((?:crate|super|self)\b[^)]*\)", r"\1", text)
    return text.replace("|", "\\|")


def labels(function):
    """The cell of a function's clauses."""
    def some(kind, bare):
        named = [f"`{label}`" for label in dict.fromkeys(kind) if label]
        return ", ".join(named + [bare] * (None in kind))

    said = some(function.ensures, "its contract")
    asked = some(function.requires, "its condition")
    return said + ("; asks " if said else "asks ") * bool(asked) + asked


def beyond_the_trait(function, traits):
    """Leaves a method the clauses that aren't its trait's, and says whether there are any."""
    kept = traits.get(f"{function.trait}::{function.name}")
    if kept:
        function.ensures = [label for label in function.ensures if label not in kept.ensures]
        function.requires = [label for label in function.requires if label not in kept.requires]
    function.sentence = function.sentence or f"As `{function.trait}` has it, and beside that:"
    return bool(function.ensures or function.requires)


def rows_of(path, modules, names, traits):
    module = os.path.basename(path)[:-3]
    rows = []
    for function in functions_of(path):
        seen = module in modules or (function.owner or function.name) in names
        if not (function.public and seen):
            continue
        if function.trait and not beyond_the_trait(function, traits):
            continue
        rows.append(f"| `{function.shown}` | {cell(function.sentence)} | {labels(function)} |\n")
    return rows


def chapter(crate, traits):
    """The text of a crate, or None where it has no public function."""
    modules, names = given_out(crate)
    text = ""
    for path in sources(crate, "src", ".rt"):
        rows = rows_of(path, modules, names, traits)
        if rows:
            file = os.path.basename(path)
            head = "" if file == "lib.rt" else cell(purpose(path))
            text += f"| [{file}](../{path}) | {head} | |\n" + "".join(rows)
    if not text:
        return None
    said = cell(purpose(f"crates/{crate}/src/lib.rt"))
    heads = "| Function | What it does | Clauses |\n|---|---|---|\n"
    return f"\n### `{crate}`\n\n{said}\n\n{heads}{text}"


def page(wanted=()):
    """The whole page, or the chapters of the crates that are wanted."""
    listed = areas()
    every = [crate for _, crates in listed for crate in crates]
    paths = [path for crate in every for path in sources(crate, "src", ".rt")]
    traits = {one.shown: one for path in paths for one in functions_of(path) if one.is_traits}
    text = "" if wanted else HEAD
    for area, crates in listed:
        chosen = [crate for crate in crates if not wanted or crate in wanted]
        chapters = [one for one in (chapter(crate, traits) for crate in chosen) if one]
        if chapters:
            text += f"\n## {area}\n" + "".join(chapters)
    return text
