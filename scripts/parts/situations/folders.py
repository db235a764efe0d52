"""Folders as other programs, users and disks leave them, and two calls at once."""
import fcntl
import os
import random
import resource
import shutil
import signal
import subprocess

from situations.rig import (
    DATE, DIRTY, LATER, LATEST, NAMES, PROGRAM, all_files, call, memos, mode, pdb, put, records_of, situation,
    texts, two_sides, user, want, want_line, want_run,
)


# ---- two calls at once


def four_databases(folder, mark):
    for name in NAMES:
        put(f"{folder}/{name}.pdb", pdb(name, memos(*(f"{mark} {name} {number}" for number in range(60)))))


def change_one(folder, word):
    for name in NAMES:
        records = records_of(f"{folder}/{name}.pdb")
        records[7] = (DIRTY, records[7][1], f"{word} {name}".encode() + b"\0")
        put(f"{folder}/{name}.pdb", pdb(name, records))


def at_once(calls):
    """Runs these calls side by side."""
    begun = [subprocess.Popen([PROGRAM, "run", *words], stdout=subprocess.PIPE, stderr=subprocess.DEVNULL) for words in calls]
    ended = [(it.communicate(timeout=60)[0].decode().splitlines(), it.returncode) for it in begun]
    return [(lines[-1], status) for lines, status in ended]


def pairs(number, begin, calls, refused, check):
    """Has pairs of calls run at once, and then each of them alone. One is done and one refused, unless they came one after
    the other. Says how many were refused."""
    told, chance = 0, random.Random(1)
    for _ in range(number):
        begin()
        answers = at_once(chance.sample(calls, 2))
        done = answers.count(("ended", 0))
        told += answers.count((refused, 4))
        want(done + answers.count((refused, 4)), 2, "answers")
        assert done >= 1, answers
        for words in calls:
            want_run(*[LATEST if word == LATER else word for word in words])
        check()
    print(f"  {told} of {number} pairs met")


@situation
def two_users_at_once():
    """Two users synchronise with one desktop at once: one is told that it is in use, and nothing is lost."""
    for name, number in (("a", 1), ("b", 2)):
        four_databases(f"base/{name}", name)
        put(f"base/{name}/device.inf", user(number, name))
    os.makedirs("base/d")
    want_run("base/a", "base/d", DATE)
    want_run("base/b", "base/d", DATE, "--add-user")
    change_one("base/a", "new a")
    change_one("base/b", "new b")

    def begin():
        shutil.rmtree("now", ignore_errors=True)
        shutil.copytree("base", "now")

    def check():
        for prefix, side in (("", "a"), ("s1.", "b")):
            for name in NAMES:
                wanted = sorted(text for _, _, text in records_of(f"base/{side}/{name}.pdb"))
                want(texts(f"now/d/{prefix}{name}.pdb"), wanted, f"{prefix}{name}")
                want(texts(f"now/{side}/{name}.pdb"), wanted, f"{side}/{name}")

    pairs(100, begin, [("now/a", "now/d", LATER), ("now/b", "now/d", LATER)], "desktop folder in use", check)


@situation
def two_handhelds_at_once():
    """Two handhelds of one user synchronise with one desktop at once. Each knows an older session than the desktop's last, so they
    are told to keep both sides: the desktop has what the last one has then."""
    four_databases("base/a", "a")
    put("base/a/device.inf", user(1, "a"))
    os.makedirs("base/d")
    want_run("base/a", "base/d", DATE)
    shutil.copytree("base/a", "base/b")
    change_one("base/a", "new a")
    change_one("base/b", "new b")

    def begin():
        shutil.rmtree("now", ignore_errors=True)
        shutil.copytree("base", "now")

    def check():
        for name in NAMES:
            held = texts(f"now/b/{name}.pdb")
            want(texts(f"now/d/{name}.pdb"), held, name)
            for side in ("a", "b"):
                assert f"new {side} {name}".encode() + b"\0" in held, f"the change of {name} is lost"

    both = "--actions=*:both"
    pairs(100, begin, [("now/a", "now/d", LATER, both), ("now/b", "now/d", LATER, both)], "desktop folder in use", check)


@situation
def a_folder_is_held():
    """A folder that somebody else holds is not touched, nor is the other one, and the same folder cannot be both sides."""
    two_sides()
    for folder, line in (("h", "handheld folder in use"), ("d", "desktop folder in use")):
        before = all_files("h", "d")
        held = os.open(folder, os.O_RDONLY)
        fcntl.flock(held, fcntl.LOCK_EX)
        want_line(call("run", "h", "d", LATER), 4, line)
        os.close(held)
        want(all_files("h", "d"), before, "files")
    want_run("h", "d", LATER)
    put("x/MemoDB.pdb", pdb("MemoDB", memos("one")))
    before = all_files("x")
    want_line(call("run", "x", "x", DATE), 4, "desktop folder in use")
    want(all_files("x"), before, "files")

# ---- what lies beside the databases


@situation
def other_things_beside():
    """What neither side reads is not opened: a subfolder, a pipe, a link that leads nowhere, a film of five gigabytes."""
    for folder in ("h", "d"):
        os.makedirs(f"{folder}/Backup")
        os.mkfifo(f"{folder}/notes")
        os.symlink("nowhere", f"{folder}/gone")
        put(f"{folder}/notes.txt", "private")
        os.chmod(f"{folder}/notes.txt", 0)
        with open(f"{folder}/movie.avi", "wb") as film:
            film.truncate(5_000_000_000)
    two_sides()
    want_run("h", "d", LATER)
    want(texts("d/MemoDB.pdb"), texts("h/MemoDB.pdb"), "memos")


@situation
def a_name_is_no_text():
    """A file whose name is no UTF-8 is passed over, where new files are written too."""
    for folder in (b"h", b"d"):
        os.makedirs(folder)
        open(folder + b"/caf\xe9.txt", "wb").close()
    two_sides()
    want(texts("d/MemoDB.pdb"), texts("h/MemoDB.pdb"), "memos")


@situation
def a_link_becomes_a_file():
    """A name that is a link becomes a file, and what the link led to stays."""
    put("elsewhere/MemoDB.pdb", pdb("MemoDB", memos("one", attributes=DIRTY)))
    os.makedirs("h")
    os.makedirs("d")
    os.symlink("../elsewhere/MemoDB.pdb", "h/MemoDB.pdb")
    before = all_files("elsewhere")
    want_run("h", "d", DATE)
    want(all_files("elsewhere"), before, "files")
    want(texts("d/MemoDB.pdb"), [b"one\0"], "memos")


@situation
def a_temporary_file_was_left():
    """What a run that was killed left half written goes with the next run."""
    two_sides()
    for folder in ("h", "d"):
        put(f"{folder}/hotsync.tmp", "half")
    want_run("h", "d", LATER)
    want([os.path.exists(f"{folder}/hotsync.tmp") for folder in ("h", "d")], [False, False], "temporary files")


@situation
def a_disk_is_full():
    """A write that fails is told, leaves nothing half written, and the next run is done."""
    put("h/MemoDB.pdb", pdb("MemoDB", [(0, number + 1, b"x" * 999) for number in range(100)]))
    os.makedirs("d")

    def small_files():
        signal.signal(signal.SIGXFSZ, signal.SIG_IGN)
        resource.setrlimit(resource.RLIMIT_FSIZE, (20_000, 20_000))

    want_line(call("run", "h", "d", DATE, before=small_files), 4, "desktop folder failed")
    want(os.listdir("d"), [], "names")
    want_run("h", "d", LATER)
    want(texts("d/MemoDB.pdb"), texts("h/MemoDB.pdb"), "memos")


# ---- permissions


@situation
def permissions_stay():
    """A file keeps its permissions; a new one has those that all others have in common, less what the user's mask takes."""
    umask = os.umask(0o022)
    two_sides()
    want({mode(path) for path in all_files("h", "d")}, {0o644}, "permissions")
    for path in all_files("h", "d"):
        os.chmod(path, 0o600)
    put("h/MemoDB.pdb", pdb("MemoDB", memos("new", attributes=DIRTY)))
    put("h/ToDoDB.pdb", pdb("ToDoDB", memos("new", attributes=DIRTY)))
    want_run("h", "d", LATER)
    want({mode(path) for path in all_files("h", "d") if path != "h/ToDoDB.pdb"}, {0o600}, "permissions")
    os.umask(umask)


def as_user(number, group, mask):
    """What a call does first that is one of another user, of this group and with this mask."""

    def become():
        os.setgroups([])
        os.setgid(group)
        os.setuid(number)
        os.umask(mask)

    return become


@situation
def two_people_share_a_desktop():
    """In a folder of a group each member's run goes on from the other one's, whatever the mask leaves the group."""
    if os.geteuid():
        print("two_people_share_a_desktop: wants root, and was not tried")
        return
    group, first, second = 61_000, 61_001, 61_002
    os.chmod(".", 0o755)
    shutil.copy(PROGRAM, "hotsync")
    os.chmod("hotsync", 0o755)
    for mask in (0o007, 0o002, 0o027):
        for number in (first, second):
            put(f"h{number}/MemoDB.pdb", pdb("MemoDB", memos("one")))
            put(f"h{number}/device.inf", user(number, "somebody"))
            for path in (f"h{number}", *all_files(f"h{number}")):
                os.chown(path, number, group)
        os.makedirs("d")
        os.chown("d", 0, group)
        os.chmod("d", 0o2770)
        for date in (DATE, LATER):
            for number in (first, second):
                words = ["./hotsync", "run", f"h{number}", "d", date, "--add-user"]
                done = subprocess.run(words, stdout=subprocess.PIPE, preexec_fn=as_user(number, group, mask), timeout=60)
                want((done.returncode, done.stdout.splitlines()[-1:]), (0, [b"ended"]), f"{words[2]} under {mask:03o}")
        shared = {mode(path) for path in all_files("d")}
        want(shared, {0o666 & ~mask}, f"permissions under the mask {mask:03o}")
        for folder in ("d", f"h{first}", f"h{second}"):
            shutil.rmtree(folder)
