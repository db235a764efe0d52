"""What is asked for and told: traces, dates, names, hints, texts from an editor."""
import datetime
import os
import subprocess

from situations.rig import (
    DATE, DIRTY, LATER, LATEST, PROGRAM, all_files, call, call_into, memos, mode, pdb, put, situation, texts, two_sides,
    want, want_error, want_line, want_run,
)


# ---- traces


@situation
def a_trace_takes_no_database():
    """A trace under the name of a file that a side reads is refused, and what stands there stays."""
    two_sides()
    for path in ("h/MemoDB.pdb", "h/ToDoDB.pdb", "h/device.inf", "d/MemoDB.base", "d/A.arc", "d/desktop.inf", "d/hotsync.journal"):
        before = all_files("h", "d")
        want_line(call("run", "h", "d", LATER, f"--trace={path}"), 4, "trace write failed")
        want(all_files("h", "d"), before, "files")


@situation
def a_trace_comes_whole():
    """A trace replaces a file with its permissions, and where the words or a folder are refused the file stays."""
    two_sides()
    put("t.txt", "old")
    os.chmod("t.txt", 0o600)
    call("run", "nowhere", "d", LATER, "--trace=t.txt")
    want(open("t.txt").read(), "old", "trace")
    want_run("h", "d", LATER, "--trace=t.txt")
    assert open("t.txt").read().startswith("1 H ok "), "no trace"
    want(mode("t.txt"), 0o600, "permissions")
    want(sorted(os.listdir(".")), ["d", "h", "t.txt"], "names")
    put("mine", "mine")
    os.symlink("mine", "u.txt.hotsync-tmp")
    want_line(call("run", "h", "d", LATEST, "--trace=u.txt"), 4, "trace write failed")
    want(open("mine").read(), "mine", "what a link leads to")


def closed(number):
    """What closes a descriptor of a call before it begins."""
    return lambda: os.close(number)


def commands_of_files():
    """Each command that opens files, with its words."""
    put("memos.txt", "--- new\none\n")
    put("line.txt", "")
    put("Book.pdb", pdb("Book", memos("a")))
    put("from/Book.pdb", pdb("Book", memos("a")))
    put("memos.pdb", pdb("MemoDB", memos("a"), creator=b"memo"))
    os.makedirs("to", exist_ok=True)
    yield "run", ("run", "h", "d", LATER, "--trace=t", "--script=line.txt")
    yield "categories", ("categories", "h", "d", "--trace=t")
    yield "install", ("install", "h", "Book.pdb", "--trace=t")
    yield "restore", ("restore", "h", "from", "--trace=t")
    yield "backup", ("backup", "h", "to", "--trace=t")
    for word in ("check", "show"):
        yield word, (word, "h/MemoDB.pdb")
    yield "export", ("export", "memos.pdb", "--as=txt")
    yield "import", ("import", "memos.txt", "--as=txt")


@situation
def standard_descriptors_are_closed():
    """Where standard input, output or error is closed, no file gets the lines of the program, and each command does what it does."""
    for number in (0, 1, 2):
        found = []
        for before in (None, closed(number)):
            place = f"{number}-{before is None}"
            os.makedirs(place)
            os.chdir(place)
            two_sides()
            found.append([(name, call(*words, before=before)[0], all_files(".")) for name, words in commands_of_files()])
            os.chdir("..")
        for usual, other in zip(*found):
            want(usual[1], 0, f"{usual[0]} with all descriptors")
            want(other, usual, f"{usual[0]} without descriptor {number}")


# ---- dates, names, hints


@situation
def now_is_now():
    """The date now is the clock's."""
    put("h/MemoDB.pdb", pdb("MemoDB", memos("one")))
    os.makedirs("d")
    before = datetime.datetime.utcnow()
    want_run("h", "d", "--date=now")
    last = [line.split()[-1] for line in open("h/device.inf") if line.startswith("last ")][0]
    told = datetime.datetime(int(last[:4], 16), *(int(last[place : place + 2], 16) for place in (4, 6, 8, 10, 12)))
    assert abs((told - before).total_seconds()) < 100, last


@situation
def a_name_prints_no_line():
    """A file name with a line feed in it prints no line of its own."""
    put("h/a\nended\n.pdb", "no database")
    os.makedirs("d")
    status, lines, _ = call("run", "h", "d", DATE)
    want((status, len(lines)), (3, 1), "status and number of lines")
    assert lines[0].startswith("bad file handheld a"), lines


@situation
def hints_are_apart():
    """Hints stand on standard error alone, and where that is closed nothing fails."""
    two_sides()
    put("h/TODODB.PDB", pdb("ToDoDB", memos("one")))
    words = ("run", "h", "d", LATER, "--actions=memodb:nothing")
    status, lines, hints = call(*words)
    want((status, lines[-1]), (0, "ended"), "status and last line")
    assert any("TODODB.PDB" in hint for hint in hints), hints
    assert any("memodb" in hint for hint in hints), hints
    want((call(*words, before=lambda: os.close(2))[:2]), (0, lines), "without standard error")


@situation
def hints_name_what_helps():
    """A date that is not behind the last one, and a database that the handheld lost, get a hint with the word that helps."""
    two_sides()
    status, lines, hints = call("run", "h", "d", DATE)
    want((status, lines[-1]), (0, "ended"), "status and last line")
    assert any("--slow" in hint for hint in hints), hints
    os.remove("h/MemoDB.pdb")
    status, lines, hints = call("run", "h", "d", LATER)
    want((status, lines), (0, ["MemoDB skipped missing", "ended"]), "status and lines")
    want(hints, ["hint: --actions=MemoDB:desktop brings MemoDB back to the handheld"], "hints")
    want_run("h", "d", LATEST, "--actions=MemoDB:desktop")
    want(texts("h/MemoDB.pdb"), texts("d/MemoDB.pdb"), "both sides")


@situation
def kept_twice_is_told():
    """Where both sides changed a record, each its own way, a hint says how many of a database are there twice now."""
    two_sides()
    put("h/MemoDB.pdb", pdb("MemoDB", memos("one here", "two here", "three", attributes=DIRTY)))
    put("d/MemoDB.pdb", pdb("MemoDB", memos("one there", "two here", "three there")))
    status, lines, hints = call("run", "h", "d", LATER)
    want((status, lines[-1]), (0, "ended"), "status and last line")
    want(hints, ["hint: MemoDB: changed on both sides, and kept in both versions: 1"], "hints")
    want(texts("h/MemoDB.pdb"), texts("d/MemoDB.pdb"), "both sides")


@situation
def nothing_to_do_writes_no_database():
    """Where nothing changed no database is written again: each keeps its place on the disk and its times."""
    two_sides()
    put("h/MemoDB.pdb", pdb("MemoDB", memos("new", attributes=DIRTY)))
    want_run("h", "d", LATER)
    stood = lambda: {path: (os.stat(path).st_ino, os.stat(path).st_mtime_ns) for path in all_files("h", "d") if not path.endswith(".inf")}
    before = stood()
    want_run("h", "d", LATEST)
    want(stood(), before, "files")


@situation
def sources_are_files():
    """A pipe is no source, and is not waited for."""
    two_sides()
    os.mkfifo("script")
    want_line(call("run", "h", "d", LATER, "--script=script"), 4, "source read failed")
    want_error(call("check", "script"), 4, "source read failed")

@situation
def memos_come_from_an_editor():
    """A text becomes a database, and a session brings its memos to the other side."""
    text = "--- new Errands\nShopping\nflour 1 kg\n--- 00a001 private\nKeys\n----- under the mat\n--- new\n\u20ac 5\n"
    put("notes.txt", text)
    os.makedirs("d", exist_ok=True)
    with open("h.pdb", "wb") as file:
        done = subprocess.run([PROGRAM, "import", "notes.txt", "--as=txt"], stdout=file, timeout=60)
    want(done.returncode, 0, "status of the import")
    os.makedirs("h", exist_ok=True)
    os.rename("h.pdb", "h/MemoDB.pdb")
    want_line(call("check", "h/MemoDB.pdb"), 0, "ok 3 records")
    want_run("h", "d", DATE)
    told = call("export", "d/MemoDB.pdb", "--as=txt")
    want(sorted(line for line in told[1] if not line.startswith("--- ")),
         sorted(line for line in text.splitlines() if not line.startswith("--- ")), "lines of the memos")
    heads = [line[10:] for line in call("export", "h/MemoDB.pdb", "--as=txt")[1] if line.startswith("--- ")]
    want(sorted(heads), ["", " Errands", " private"], "heads on the handheld")
    put("bad.txt", "Shopping\n")
    want_error(call("import", "bad.txt", "--as=txt"), 3, "bad text line 1 column 1: no head line above it")
    put("long.txt", f"--- new\n{'a' * 65_499}\n")
    want(call_into("long.pdb", "import", "long.txt", "--as=txt"), (0, []), "the longest memo")
    put("long.txt", f"--- new\n{'a' * 65_500}\n")
    want_error(call("import", "long.txt", "--as=txt"), 3, "bad text line 2 column 1: memo too long")


@situation
def a_long_result_comes_whole():
    """All of a long text comes on standard output."""
    words = [f"{number:05d} " + 94 * "x" for number in range(300)]
    put("MemoDB.pdb", pdb("MemoDB", memos(*words), creator=b"memo"))
    status, lines, _ = call("export", "MemoDB.pdb", "--as=txt")
    shown = [line for line in lines if not line.startswith("--- ")]
    want((status, len(shown), shown == words), (0, len(words), True), "status, lines, and whether they are those of the memos")


@situation
def a_result_holds_no_refusal():
    """What is refused stands on standard error where standard output is the result, also where the words are at fault; what is
    refused of a session stands where its lines do."""
    put("bad.pdb", "no database")
    put("bad.txt", "no trace")
    for word in ("check", "show"):
        want_error(call(word, "bad.pdb"), 3, "bad file source bad.pdb short 11")
    want_error(call("export", "bad.pdb", "--as=txt"), 3, "bad file source bad.pdb short 11")
    want_error(call("import", "bad.txt", "--as=txt"), 3, "bad text line 1 column 1: no head line above it")
    for word in ("verify", "picture"):
        want_error(call(word, "bad.txt"), 3, "bad trace line 1")
    for words in (("check",), ("export", "a.pdb", "--as=tyt"), ("import", "a.txt", "--like=a.pdb"), ("packet", "x"), ("verify", "a", "b")):
        status, lines, errors = call(*words)
        want((status, lines, errors[0][:6]), (2, [], "usage:"), f"words at fault of {words[0]}")
    for words in (("run", "h"), ("install",), ("nothing",), ()):
        status, lines, _ = call(*words)
        want((status, lines[0][:6]), (2, "usage:"), "words at fault of a session, or of no command")


@situation
def what_could_not_be_opened_is_named():
    """Behind a failure a hint names the path and the system's reason."""
    two_sides()
    hinted = lambda *words: call(*words)[2][-1:]
    want(hinted("check", "nothing.pdb"), ["hint: nothing.pdb: nothing is there"], "a file that is missing")
    want(hinted("import", "h", "--as=txt"), ["hint: h: it is a folder"], "a folder in a file's place")
    want(hinted("run", "h/MemoDB.pdb", "d", LATER), ["hint: h/MemoDB.pdb: it is no folder"], "a file in a folder's place")
    want(hinted("run", "h", "e", LATER), ["hint: e: nothing is there"], "a desktop that is missing")
    want(hinted("run", "h", "d", LATER, "--script=s"), ["hint: s: nothing is there"], "a script that is missing")
    want(hinted("check", "h/MemoDB.pdb/x"), ["hint: h/MemoDB.pdb/x: a folder of its path is none"], "a file in a file")
    if os.geteuid():
        os.chmod("h/MemoDB.pdb", 0)
        want(hinted("check", "h/MemoDB.pdb"), ["hint: h/MemoDB.pdb: permission denied"], "a file that may not be read")


@situation
def a_first_run_the_wrong_way_round_is_hinted_at():
    """Where both folders meet for the first time, and the databases lie on the desktop alone, a hint says which one is named first."""
    put("h/MemoDB.pdb", pdb("MemoDB", memos("one")))
    put("d/notes.txt", "none of ours")
    hinted = lambda *words: call(*words)[2]
    hint = ["hint: HANDHELD had no database and DESKTOP had some: the handheld's folder is named first"]
    want(hinted("run", "d", "h", DATE, "--dry-run"), hint, "hints of a dry run")
    want(hinted("run", "h", "d", DATE, "--dry-run"), [], "hints of the right way")
    want(hinted("run", "d", "nowhere", DATE), ["hint: nowhere: nothing is there"], "hints of a refusal")
    want(hinted("run", "d", "h", DATE), hint, "hints of a run")
    want(hinted("run", "d", "h", LATER), [], "hints of the next run")
