"""Tries README as a new user would: in a copy of what git keeps, its steps are taken as they stand.

The program is proved, built and installed by the scripts that README names, but for the gate;
HOTSYNC stands for the program that the kit would build. Then each command in a block of a console
has to print what stands below it, the files that README names have to lie where it says, and each
example of a command in README, in docs/MANUAL.md, with names in place of capitals, and in what
`hotsync help COMMAND` prints, has to be done. Ends with 1 where something is otherwise, or the
examples have become few.
"""
import os
import re
import shutil
import struct
import subprocess
import sys
import tempfile

TOP = os.path.abspath(f"{os.path.dirname(__file__)}/../..")
BUILT = "crates/hotsync_cli/out/hotsync_cli"
STEPS = "## The package and the first build"
MANUAL = "docs/MANUAL.md"
FEWEST = 56
LEFT = ["desktop/MemoDB.pdb", "desktop/MemoDB.base", "desktop/desktop.inf", "handheld/device.inf"]
# What stands for a name in both pages: capitals, and an option's value of one letter.
PLACEHOLDER = re.compile(r"\b[A-Z][A-Z-]+\b(?!\.)|=[A-Z]\b|\b[A-Z]\b")

failed = []


def fail(text):
    failed.append(text)
    print(f"transcripts: {text}", file=sys.stderr)


def fresh_copy(to):
    """What a clone would have."""
    kept = subprocess.run(["git", "ls-files", "-z"], cwd=TOP, capture_output=True, check=True)
    for name in filter(None, kept.stdout.decode().split("\0")):
        if os.path.exists(f"{TOP}/{name}"):
            os.makedirs(os.path.dirname(f"{to}/{name}"), exist_ok=True)
            shutil.copy2(f"{TOP}/{name}", f"{to}/{name}")


def with_kit(scratch):
    """The surroundings of a new user: a home of its own, and where a program is named an `rt` that
    has built it."""
    os.makedirs(f"{scratch}/kit")
    program = os.environ.get("HOTSYNC")
    if program:
        if not os.access(program, os.X_OK):
            sys.exit(f"transcripts: there is no program at {program}")
        with open(f"{scratch}/kit/rt", "w", encoding="utf-8") as file:
            file.write(f"#!/bin/sh\nmkdir -p {os.path.dirname(BUILT)}\n")
            file.write(f"cp '{os.path.abspath(program)}' {BUILT}\n")
        os.chmod(f"{scratch}/kit/rt", 0o755)
    home = f"{scratch}/home"
    os.makedirs(home)
    others = {name: value for name, value in os.environ.items() if name != "HOTSYNC"}
    return {**others, "HOME": home, "PATH": f"{scratch}/kit:{home}/.local/bin:{os.environ['PATH']}"}


def page(repository, name):
    with open(f"{repository}/{name}", encoding="utf-8") as file:
        return file.read()


def run(command, where, surroundings):
    """What a command prints and its status."""
    ran = subprocess.run(["bash", "-c", command], cwd=where, env=surroundings, check=False,
                         stdin=subprocess.DEVNULL, stdout=subprocess.PIPE,
                         stderr=subprocess.STDOUT, text=True)
    return ran.stdout, ran.returncode


def must_run(command, where, surroundings):
    said, status = run(command, where, surroundings)
    if status != 0:
        last = "\n".join(said.splitlines()[-20:])
        fail(f"`{command}` ends with {status}, and last says\n{last}")
    return said


def quoted(text, begins):
    """The texts between back-quotes that begin so, and have no placeholder."""
    found = re.findall(rf"`({begins}[^`]*)`", re.sub(r"^```.*?^```", "", text, flags=re.M | re.S))
    return [one for one in dict.fromkeys(found) if not PLACEHOLDER.search(without_names(one))]


def without_names(command):
    """A command without the names of databases, files and words that have capitals of their own."""
    return re.sub(r"\b\w+\.(?:pdb|prc)\b|\b[A-Za-z]+DB\b|/dev/\S+|\d{4}-\S+", "", command)


def try_blocks(text, where, surroundings):
    """The commands in the blocks of a console, in order, against what stands below each."""
    for block in re.findall(r"^```console\n(.*?)^```", text, re.M | re.S):
        for part in re.split(r"^\$ ", block, flags=re.M)[1:]:
            command, _, wanted = part.partition("\n")
            said, _ = run(command, where, surroundings)
            if said != wanted:
                fail(f"`{command}` prints\n{said}where README has\n{wanted}")


def program_file():
    """The file of a small program: a database of one resource."""
    head = struct.pack(">32sHHIIIIII", b"Chess", 1, 1, 0, 0, 0, 0, 0, 0)
    head += struct.pack(">4s4sIIH", b"appl", b"Chss", 0, 0, 1)
    return head + struct.pack(">4sHI", b"code", 1, 90) + b"\0\0" + b"\x4e\x75"


def prepare(repository, place, surroundings):
    """A folder that has what the examples of commands name."""
    os.makedirs(f"{place}/desktop")
    os.makedirs(f"{place}/backup")
    shutil.copytree(f"{repository}/demo/handheld", f"{place}/handheld")
    examples = f"{repository}/examples"
    for path in [f"{examples}/categories/handheld/MemoDB.pdb",
                 f"{examples}/address-book/AddressDB.pdb", f"{examples}/address-book/ToDoDB.pdb",
                 f"{examples}/date-book/DatebookDB.pdb"]:
        shutil.copy(path, place)
    shutil.copy(f"{place}/MemoDB.pdb", f"{place}/backup")
    with open(f"{place}/Chess.prc", "wb") as file:
        file.write(program_file())
    must_run("hotsync export MemoDB.pdb --as=txt >memos.txt", place, surroundings)
    must_run("cp -r handheld other && mkdir side", place, surroundings)
    must_run("hotsync run other side --date=now --trace=trace.txt", place, surroundings)
    with open(f"{place}/trace.txt", encoding="utf-8") as file:
        frames = [line.split() for line in file]
    with open(f"{place}/sent", "wb") as file:
        file.write(b"".join(bytes.fromhex(frame[-1]) for frame in frames if frame[1] == "D"))


def examples_of_help(place, surroundings):
    """The examples that help shows of each command, but for those at a port."""
    said = must_run("hotsync help", place, surroundings)
    found = []
    for command in re.findall(r"^  hotsync ([a-z]+) [^[]", said, re.M):
        _, _, shown = must_run(f"hotsync help {command}", place, surroundings).partition("examples:\n")
        examples = [line.strip() for line in shown.splitlines()]
        if len(examples) != 2:
            fail(f"`hotsync help {command}` shows {len(examples)} examples")
        found += [one for one in examples if one.startswith("hotsync ")]
    return found


def try_examples(text, repository, scratch, surroundings):
    """Each example of a command, in a folder of its own."""
    prepare(repository, f"{scratch}/place", surroundings)
    # A command alone, as `hotsync device`, is no example, and what reads the desktop's files is one
    # of the steps.
    commands = [one for one in quoted(text, "hotsync ") if len(one.split()) > 2]
    commands = [one for one in commands if " desktop/" not in one]
    options = quoted(text, "--(?:actions|only)=")
    commands += [f"hotsync run handheld desktop --date=now '{one}'" for one in options]
    commands += examples_of_help(f"{scratch}/place", surroundings)
    for number, command in enumerate(commands):
        shutil.copytree(f"{scratch}/place", f"{scratch}/{number}")
        must_run(command, f"{scratch}/{number}", surroundings)
    return len(commands)


def main():
    with tempfile.TemporaryDirectory() as scratch:
        repository = f"{scratch}/hotsync"
        os.makedirs(repository)
        fresh_copy(repository)
        surroundings = with_kit(scratch)
        readme, manual = (page(repository, name) for name in ["README.md", MANUAL])
        steps = readme[readme.index(STEPS):]
        if "HOTSYNC" in os.environ:
            must_run("scripts/build", repository, surroundings)
        block = re.search(r"^```sh\n(.*?)^```", steps, re.M | re.S)[1]
        commands = re.findall(r"^(scripts/\S+)", block, re.M)
        for command in commands + quoted(steps, "scripts/package --install"):
            must_run(command, repository, surroundings)
        for command in quoted(steps, "(?:cp|mkdir) "):
            must_run(command, repository, surroundings)
        try_blocks(steps, repository, surroundings)
        for name in LEFT:
            if name.split("/")[-1] not in steps or not os.path.exists(f"{repository}/{name}"):
                fail(f"README and the steps don't agree on {name}")
        for command in quoted(steps, "hotsync export desktop/"):
            must_run(command, repository, surroundings)
        count = try_examples(f"{readme}\n{manual}", repository, scratch, surroundings)
        if count < FEWEST:
            fail(f"README and {MANUAL} have {count} examples of commands, and had {FEWEST}")
    if failed:
        sys.exit(1)
    print(f"README's steps come out as shown, and {count} examples of commands, with those of the"
          " manual and of help, are done")


if __name__ == "__main__":
    main()
