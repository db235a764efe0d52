"""Tries `run --dry-run` before each run of the examples, of the demo, of the cases that
crates/run_cases has and of some folders that it makes: it prints what the run then prints, with the
same status and the same trace, and neither folder has changed: no byte, no name, no time.

HOTSYNC names another program than the built one. Ends with 1 where something comes out otherwise.
"""
import importlib.machinery
import importlib.util
import os
import random
import shlex
import shutil
import struct
import subprocess
import sys
import tempfile

TOP = os.path.abspath(f"{os.path.dirname(__file__)}/../..")
PROGRAM = os.environ.get("HOTSYNC") or f"{TOP}/crates/hotsync_cli/out/hotsync_cli"
DATE = "--date=2001-09-09T01:46:40"
LATER = "--date=2001-09-10T01:46:40"
FAILED = []


def state(folder):
    """All that stands at and in a folder: kinds, modes, times, bytes."""
    found = {}
    for path, folders, files in os.walk(folder):
        for name in [".", *folders, *files]:
            full = os.path.join(path, name)
            stat = os.lstat(full)
            content = None
            if os.path.isfile(full) and os.access(full, os.R_OK):
                with open(full, "rb") as file:
                    content = file.read()
            found[full] = (stat.st_mode, stat.st_mtime_ns, stat.st_ctime_ns, content)
    return found


def call(words):
    done = subprocess.run([PROGRAM, *words], capture_output=True, timeout=60)
    trace = next((word[8:] for word in words if word.startswith("--trace=")), None)
    written = None
    if trace and os.path.isfile(trace):
        with open(trace, "rb") as file:
            written = file.read()
    return done.returncode, done.stdout, done.stderr, written


def try_run(title, words):
    """A dry run, and then the run."""
    handheld, desktop = [word for word in words[1:] if not word.startswith("--")][:2]
    before = state(handheld), state(desktop)
    dry = call([*words, "--dry-run"])
    if (state(handheld), state(desktop)) != before:
        FAILED.append(f"{title}: a folder has changed: {shlex.join(words)}")
    run = call(words)
    for what, one, other in zip(("status", "lines", "hints", "trace"), dry, run):
        if one != other:
            said = f"{one!r}, and then {other!r}"
            FAILED.append(f"{title}: another {what}: {shlex.join(words)}: {said}")
    return run[0]


def try_transcript(folder):
    """The commands of a transcript, with a dry run before each run that is none itself."""
    with open("transcript") as file:
        lines = [line[2:].rstrip("\n") for line in file if line.startswith("$ ")]
    runs = 0
    for line in lines:
        words = shlex.split(line)
        if words[:2] == ["hotsync", "run"] and "--dry-run" not in words:
            try_run(folder, words[1:])
            runs += 1
        else:
            subprocess.run(line, shell=True, capture_output=True)
    return runs


def pdb(name, records):
    """The bytes of a database with these records: attributes, id, bytes."""
    place = 78 + 8 * len(records) + 2
    head = struct.pack(">32sHHIIIIII", name.encode(), 0, 0, 1, 1, 0, 0, 0, 0)
    head += struct.pack(">4s4sIIH", b"DATA", b"test", 0, 0, len(records))
    entries, data = b"", b""
    for attributes, number, text in records:
        entries += struct.pack(">IB", place + len(data), attributes) + number.to_bytes(3, "big")
        data += text
    return head + entries + b"\0\0" + data


def put(path, content):
    os.makedirs(os.path.dirname(path) or ".", exist_ok=True)
    with open(path, "wb") as file:
        file.write(content)


def some_bytes(dice):
    return dice.randbytes(dice.randint(1, 50)) + b"\0"


def sides(dice):
    """Two folders of a few databases each, some of them on both sides."""
    for side in ("handheld", "desktop"):
        os.makedirs(side)
        for name in dice.sample(("MemoDB", "ToDoDB", "AddressDB", "Notes"), dice.randint(0, 3)):
            numbers = dice.sample(range(1, 40), dice.randint(0, 8))
            records = [(dice.choice((0, 0, 0x40)), number, some_bytes(dice)) for number in numbers]
            put(f"{side}/{name}.pdb", pdb(name, records))


def made(seed):
    """Made folders, synchronised three times, with edits between, over a line that loses frames."""
    dice = random.Random(seed)
    sides(dice)
    lost = sorted(dice.sample(range(1, 300), 12))
    put("line.txt", b"".join(b"%d lost\n" % number for number in lost))
    for day in (10, 11, 12):
        words = ["run", "handheld", "desktop", f"--date=2001-09-{day}T01:46:40"]
        try_run(f"made of {seed}", [*words, "--script=line.txt", "--trace=trace.txt"])
        numbers = dice.sample(range(1, 40), 5)
        records = [(0x40, number, b"%d at %d\0" % (number, day)) for number in numbers]
        put("handheld/MemoDB.pdb", pdb("MemoDB", records))


def around():
    """What may stand in a folder beside the files of a side, or in their place."""
    memos = pdb("MemoDB", [(0, 1, b"one\0"), (0, 2, b"two\0")])
    run = ["run", "handheld", "desktop", DATE]

    def fresh():
        for side in ("handheld", "desktop"):
            shutil.rmtree(side, ignore_errors=True)
            os.makedirs(side)
        put("handheld/MemoDB.pdb", memos)

    fresh()
    put("handheld/photos/one.txt", b"a folder in it")
    os.symlink("nowhere", "desktop/notes")
    os.mkfifo("desktop/pipe")
    try_run("other files", run)
    fresh()
    for side in ("handheld", "desktop"):
        put(f"{side}/hotsync.tmp", b"half")
    try_run("files that a killed run left half written", run)
    fresh()
    os.symlink("nowhere", "handheld/ToDoDB.pdb")
    try_run("a link to nothing", run)
    fresh()
    os.makedirs("handheld/ToDoDB.pdb")
    try_run("a folder in the place of a database", run)
    fresh()
    put("desktop/MemoDB.pdb", b"short")
    try_run("a bad file", run)
    fresh()
    put("handheld/desktop.inf", b"")
    try_run("a folder of the wrong side", run)
    fresh()
    put("desktop/hotsync.journal", b"no journal")
    try_run("a bad journal", run)
    fresh()
    shutil.rmtree("desktop")
    os.makedirs("desktop2")
    run2 = ["run", "handheld", "desktop2", DATE]
    try_run("a session", run2)
    try_run("a session of the same date", run2)
    run3 = ["run", "handheld", "desktop2", LATER, "--actions=*:desktop"]
    try_run("a session by the desktop", run3)
    with_missing = subprocess.run([PROGRAM, *run, "--dry-run"], capture_output=True)
    told = with_missing.returncode, with_missing.stdout, os.path.exists("desktop")
    if told != (4, b"desktop folder failed\n", False):
        FAILED.append(f"a folder that is not there: {with_missing}")


def journal():
    """A journal that a stopped run left: the desktop's information file and one of memos, as bytes
    that lay over them."""
    name, content = b"MemoDB.pdb", pdb("MemoDB", [(0, 7, b"from the journal\0")])
    entry = bytes([len(name)]) + name + struct.pack(">I", len(content)) + content
    os.makedirs("handheld")
    put("desktop/hotsync.journal", b"HSJ1" + struct.pack(">H", 1) + entry)
    try_run("a journal that was left", ["run", "handheld", "desktop", DATE])


def rows():
    """The runs of the cases, over real folders, as scripts/device-sessions has them."""
    loader = importlib.machinery.SourceFileLoader("device_sessions", f"{TOP}/scripts/device-sessions")
    cases = importlib.util.module_from_spec(importlib.util.spec_from_loader("device_sessions", loader))
    sys.dont_write_bytecode = True
    loader.exec_module(cases)
    count = 0
    for case, words, source in cases.calls():
        if words[0] == "run" and sum(not word.startswith("--") for word in words) == 3:
            if os.path.exists("trace"):
                os.remove("trace")
            try_run(case, [*cases.over_folders(words, source), "--trace=trace"])
            count += 1
    return count


def into(folder):
    os.makedirs(folder)
    os.chdir(folder)


def transcripts(scratch):
    """The runs of the demo and of the examples."""
    runs, names = 0, sorted(os.listdir(f"{TOP}/examples"))
    for folder in [f"{TOP}/demo", *(f"{TOP}/examples/{name}" for name in names)]:
        if os.path.exists(f"{folder}/transcript"):
            name = os.path.basename(folder)
            shutil.copytree(folder, f"{scratch}/{name}")
            os.chdir(f"{scratch}/{name}")
            os.makedirs("desktop", exist_ok=True)
            runs += try_transcript(name)
    return runs


def main():
    if not os.access(PROGRAM, os.X_OK):
        sys.exit(f"transcripts: {PROGRAM} is not built: scripts/build")
    with tempfile.TemporaryDirectory() as scratch:
        runs = transcripts(scratch)
        for seed in range(20):
            into(f"{scratch}/made{seed}")
            made(seed)
        for title, situation in (("around", around), ("journal", journal)):
            into(f"{scratch}/{title}")
            situation()
        into(f"{scratch}/rows")
        cases = rows()
        os.chdir(TOP)
    for failed in FAILED:
        print(f"transcripts: {failed}", file=sys.stderr)
    if not FAILED:
        print(f"{runs} runs of the examples, {cases} of the cases and those of made folders:"
              " what their dry runs printed")
    sys.exit(bool(FAILED))


main()
