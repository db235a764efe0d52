"""What one command leaves to the next, to another desktop and to another handheld: nothing is lost that nobody let go."""
import os
import shutil

from situations.categories import categorised
from situations.rig import (
    DATE, DIRTY, LATER, LATEST, all_files, blocks_of, call, call_into, memos, mode, pdb, put, records_of, texts, two_sides, want, want_line, want_run, situation,
)

THREE = [b"one\0", b"three\0", b"two\0"]


def want_refused(*words, name="MemoDB"):
    """The handheld is refused by a database, before anything is written."""
    before = all_files(".")
    want_line(call("run", *words), 7, f"new handheld {name}")
    want(all_files("."), before, "files behind a refusal")


def reset(*names):
    """A hard reset: the folder has empty databases of these names."""
    shutil.rmtree("h")
    os.makedirs("h")
    for name in names:
        put(f"h/{name}.pdb", pdb(name, []))


def two_named_sides():
    """A handheld with one database, and a desktop that it met before, by its user's name."""
    put("h/MemoDB.pdb", pdb("MemoDB", memos("one", "two", "three")))
    os.makedirs("d")
    want_run("h", "d", DATE, "--user=Jane")


def want_both(*wanted, name="MemoDB"):
    """Both sides have these contents, and no other."""
    want((texts(f"h/{name}.pdb"), texts(f"d/{name}.pdb")), (sorted(wanted), sorted(wanted)), f"both sides of {name}")


@situation
def a_database_that_was_missing_is_empty_when_it_comes_back():
    """A hard reset, a run in which the database is missing, and then the empty one that each Palm makes."""
    two_sides()
    reset()
    want(call("run", "h", "d", LATER)[:2], (0, ["MemoDB skipped missing", "ended"]), "a run without the database")
    put("h/MemoDB.pdb", pdb("MemoDB", []))
    want_refused("h", "d", LATEST)
    put("h/MemoDB.pdb", pdb("MemoDB", memos("welcome", attributes=DIRTY)))
    want_run("h", "d", LATEST, "--actions=MemoDB:both")
    want_both(*THREE, b"welcome\0")


@situation
def a_backup_makes_its_folder():
    """A backup makes the folder that it fills, but none above it. A handheld that is refused makes none, and neither does another command."""
    two_sides()
    before = os.umask(0o027)
    status, lines, hints = call("backup", "h", "b")
    os.umask(before)
    want((status, lines[-1], hints), (0, "ended", []), "status, last line and hints")
    want(texts("b/MemoDB.pdb"), texts("h/MemoDB.pdb"), "texts")
    want(mode("b"), 0o750, "permissions")
    want_line(call("backup", "h", "b"), 0, "ended")
    want_line(call("backup", "h", "none/b"), 4, "desktop folder failed")
    want_line(call("backup", "nowhere", "c"), 4, "handheld folder failed")
    want_line(call("restore", "h", "r"), 4, "desktop folder failed")
    want_line(call("run", "h", "e", LATER), 4, "desktop folder failed")
    want(sorted(os.listdir(".")), ["b", "d", "h"], "names")


@situation
def a_backup_is_put_back_over_a_later_session():
    """What came since the backup stays on the desktop, and comes back to the handheld where its user asks for both."""
    two_sides()
    os.makedirs("b")
    want_line(call("backup", "h", "b"), 0, "ended")
    old = records_of("h/MemoDB.pdb")
    put("h/MemoDB.pdb", pdb("MemoDB", [(DIRTY, old[0][1], b"one more\0"), *old[1:], (DIRTY, 99, b"four\0")]))
    want_run("h", "d", LATER)
    want_line(call("restore", "h", "b"), 0, "ended")
    want_refused("h", "d", LATEST)
    want_run("h", "d", LATEST, "--actions=MemoDB:both")
    want_both(*THREE, b"one more\0", b"four\0")


@situation
def a_new_edition_is_installed_over_a_synchronised_one():
    """The edition is on both sides behind the next run."""
    two_sides()
    put("edition/MemoDB.pdb", pdb("MemoDB", [(0, 0, text) for text in (b"preface\0", b"one\0", b"two\0", b"three\0")]))
    want_line(call("install", "h", "edition/MemoDB.pdb"), 0, "ended")
    want_run("h", "d", LATER)
    want_both(*THREE, b"preface\0")


@situation
def two_empty_databases_come_back_one_by_one():
    """Bringing one of them back lets the other one go no more than before."""
    put("h/ToDoDB.pdb", pdb("ToDoDB", memos("task")))
    two_sides()
    reset("MemoDB", "ToDoDB")
    want_refused("h", "d", LATER)
    want_run("h", "d", LATER, "--only=MemoDB", "--actions=MemoDB:desktop")
    want_both(*THREE)
    want_refused("h", "d", LATEST, name="ToDoDB")
    want_run("h", "d", LATEST, "--actions=ToDoDB:desktop")
    want_both(b"task\0", name="ToDoDB")


@situation
def an_empty_handheld_meets_another_desktop_first():
    """A session with a fresh folder in between takes nothing from the first desktop."""
    two_sides()
    reset("MemoDB")
    want_refused("h", "d", LATER)
    os.makedirs("e")
    want_run("h", "e", LATER)
    want_refused("h", "d", LATEST)
    want_run("h", "d", LATEST, "--actions=MemoDB:desktop")
    want_both(*THREE)


@situation
def somebody_elses_handheld_meets_a_desktop():
    """A handheld of another person, synchronised with a desktop of its own, takes nothing from this one."""
    two_sides()
    put("other/MemoDB.pdb", pdb("MemoDB", [(0, 0x777, b"theirs\0")]))
    os.makedirs("theirs")
    want_run("other", "theirs", DATE)
    want_refused("other", "d", LATER)
    want_run("h", "d", LATER)
    want_both(*THREE)


@situation
def somebody_elses_handheld_with_a_name_meets_a_desktop():
    """Both have a name of their own: it is another user, whatever name is asked for."""
    two_named_sides()
    put("other/MemoDB.pdb", pdb("MemoDB", [(0, 0x777, b"theirs\0")]))
    os.makedirs("theirs")
    want_run("other", "theirs", DATE, "--user=Tom")
    before = all_files(".")
    for words in ((), ("--user=Jane",), ("--user=Tom",)):
        status, lines, _ = call("run", "other", "d", LATER, *words)
        want((status, lines[0].split()[:2]), (7, ["other", "user"]), f"another user with {words}")
    want(all_files("."), before, "files behind three refusals")
    want_run("h", "d", LATER, "--user=Jane")
    want_both(*THREE)


@situation
def a_reset_handheld_with_a_name_is_a_stranger():
    """Its desktop is found by the name, and keeps what the handheld lost; both sides get another number."""
    two_named_sides()
    shutil.rmtree("h")
    put("h/MemoDB.pdb", pdb("MemoDB", []))
    want_refused("h", "d", LATER, "--user=Jane")
    want_run("h", "d", LATER, "--user=Jane", "--actions=MemoDB:desktop")
    want_both(*THREE)
    want_run("h", "d", LATEST)
    want_both(*THREE)


@situation
def a_database_is_made_anew_between_two_sessions():
    """It was deleted on the handheld and made again, empty."""
    two_sides()
    put("h/MemoDB.pdb", pdb("MemoDB", []))
    want_refused("h", "d", LATER)
    want_run("h", "d", LATER, "--actions=MemoDB:desktop")
    want_both(*THREE)


@situation
def databases_come_back_to_a_reset_handheld_with_their_blocks():
    """Categories, labels and sort order are in the blocks: a database that the handheld lacks is made with both."""
    two_sides()
    rows = records_of("d/MemoDB.pdb")
    put("d/MemoDB.pdb", pdb("MemoDB", rows, app=b"labels\0", sort=b"\1\2"))
    put("d/ToDoDB.pdb", pdb("ToDoDB", memos("task"), sort=b"\3"))
    reset()
    want_run("h", "d", LATER, "--actions=*:desktop")
    want_both(*THREE)
    want(blocks_of("h/MemoDB.pdb"), (b"labels\0", b"\1\2"), "blocks of the memos")
    want(blocks_of("h/ToDoDB.pdb"), (b"", b"\3"), "blocks of the tasks")
    want(blocks_of("d/MemoDB.pdb"), (b"labels\0", b"\1\2"), "blocks of the desktop's memos")


@situation
def a_handheld_keeps_the_blocks_of_a_database_that_it_has():
    """A handheld that was reset made an empty database with blocks of its own."""
    two_sides()
    put("d/MemoDB.pdb", pdb("MemoDB", records_of("d/MemoDB.pdb"), app=b"labels\0", sort=b"\1\2"))
    reset()
    put("h/MemoDB.pdb", pdb("MemoDB", [], app=b"its own\0"))
    want_run("h", "d", LATER, "--actions=*:desktop")
    want_both(*THREE)
    want(blocks_of("h/MemoDB.pdb"), (b"its own\0", b""), "blocks of the handheld's")
    want(blocks_of("d/MemoDB.pdb"), (b"labels\0", b"\1\2"), "blocks of the desktop's")


@situation
def a_desktops_new_file_has_no_blocks():
    """A session reads no blocks."""
    put("h/MemoDB.pdb", pdb("MemoDB", memos("one"), app=b"labels\0", sort=b"\1\2"))
    os.makedirs("d")
    want_run("h", "d", DATE)
    want(blocks_of("d/MemoDB.pdb"), (b"", b""), "blocks of the desktop's")
    want(blocks_of("h/MemoDB.pdb"), (b"labels\0", b"\1\2"), "blocks of the handheld's")


def table(**labels):
    """An application block whose categories have these labels, by their numbers, and ids."""
    names, ids = [b""] * 16, [0] * 16
    for word, label in labels.items():
        number = int(word[1:])
        names[number], ids[number] = label.encode(), number
    return b"\0\0" + b"".join(name.ljust(16, b"\0") for name in names) + bytes([*ids, 15]) + b"\0" * 7


def filed(path):
    """The contents of the records of a database file, each behind the number of its category."""
    return sorted((attributes & 15, text) for attributes, _, text in records_of(path))


@situation
def memos_that_are_edited_as_text_keep_their_categories():
    """A text of the desktop's memos gets a new one and is imported like the file that it came from: no memo is filed anew."""
    block = table(n0="Unfiled", n2="Home", n5="Work")
    three = [(5, 1, b"one\0"), (2, 2, b"two\0"), (0, 3, b"three\0")]
    put("h/MemoDB.pdb", pdb("MemoDB", three, app=block, creator=b"memo", attributes=8))
    os.makedirs("d")
    want_run("h", "d", DATE)
    put("d/MemoDB.pdb", pdb("MemoDB", records_of("d/MemoDB.pdb"), app=block, creator=b"memo", attributes=8))
    want(call_into("memos.txt", "export", "d/MemoDB.pdb", "--as=txt"), (0, []), "an export")
    with open("memos.txt", "ab") as text:
        text.write(b"--- new Garden\nfour\n")
    words = ("import", "memos.txt", "--as=txt", "--like=d/MemoDB.pdb")
    want(call_into("new.pdb", *words), (0, []), "an import like the file that is there")
    os.replace("new.pdb", "d/MemoDB.pdb")
    want_run("h", "d", LATER)
    wanted = [(0, b"three\0"), (1, b"four\0"), (2, b"two\0"), (5, b"one\0")]
    want((filed("h/MemoDB.pdb"), filed("d/MemoDB.pdb")), (wanted, wanted), "categories of both sides")
    made = bytearray(block)
    made[18:34], made[259] = b"Garden".ljust(16, b"\0"), 128
    want((blocks_of("h/MemoDB.pdb")[0], blocks_of("d/MemoDB.pdb")[0]), (block, bytes(made)), "blocks of both sides")


NAMED = ["Unfiled", "Business", "Personal"], [0, 1, 2], 2


@situation
def a_desktops_new_file_gets_the_names_of_its_categories():
    """`categories` gives a desktop's file without a block the handheld's whole one, and an export has the names then."""
    put("h/MemoDB.pdb", categorised(*NAMED, [(1, 1, b"one\0"), (2, 2, b"two\0")], rest=b"\0\0\1\0"))
    os.makedirs("d")
    want_run("h", "d", DATE)
    want(call("export", "d/MemoDB.pdb", "--as=txt")[1], ["--- 000001", "one", "--- 000002", "two"], "an export without names")
    want(call("categories", "h", "d")[:2], (0, ["MemoDB categories 3 moved 0", "ended"]), "a session of categories")
    want(blocks_of("d/MemoDB.pdb"), blocks_of("h/MemoDB.pdb"), "blocks of both sides")
    want(call("export", "d/MemoDB.pdb", "--as=txt")[1], ["--- 000001 Business", "one", "--- 000002 Personal", "two"], "an export with names")
    before = all_files("h", "d")
    want(call("categories", "h", "d")[:2], (0, ["MemoDB categories 3 moved 0", "ended"]), "another session of categories")
    want(all_files("h", "d"), before, "both sides behind it")
    want_run("h", "d", LATER)
    want_both(b"one\0", b"two\0")


@situation
def a_handhelds_database_without_a_block_gets_the_desktops():
    """A handheld's program made it without one."""
    put("h/MemoDB.pdb", categorised(*NAMED, [(1, 1, b"one\0")], rest=b"\0\0\1\0"))
    os.makedirs("d")
    want_run("h", "d", DATE)
    put("d/MemoDB.pdb", categorised(*NAMED, [(1, 1, b"one\0")], rest=b"\0\0\1\0"))
    put("h/MemoDB.pdb", pdb("MemoDB", records_of("h/MemoDB.pdb"), creator=b"memo"))
    want(call("categories", "h", "d")[:2], (0, ["MemoDB categories 3 moved 0", "ended"]), "a session of categories")
    want(blocks_of("h/MemoDB.pdb"), blocks_of("d/MemoDB.pdb"), "blocks of both sides")
    want_run("h", "d", LATER)
    want_both(b"one\0")


@situation
def a_memo_in_a_category_that_got_another_number_is_edited():
    """The handheld renumbers two categories and changes a memo in one: behind `categories` it is one memo still."""
    put("h/MemoDB.pdb", categorised(*NAMED, [(1, 1, b"one\0"), (2, 2, b"two\0")]))
    os.makedirs("d")
    want_run("h", "d", DATE)
    want(call("categories", "h", "d")[:2], (0, ["MemoDB categories 3 moved 0", "ended"]), "a session of categories")
    moved = [(DIRTY | 2, 1, b"one more\0"), (DIRTY | 1, 2, b"two\0")]
    put("h/MemoDB.pdb", categorised(["Unfiled", "Personal", "Business"], [0, 2, 1], 2, moved))
    want(call("categories", "h", "d")[:2], (0, ["MemoDB categories 3 moved 2", "ended"]), "a session behind new numbers")
    want_run("h", "d", LATER)
    wanted = [(1, b"two\0"), (2, b"one more\0")]
    want((filed("h/MemoDB.pdb"), filed("d/MemoDB.pdb")), (wanted, wanted), "categories of both sides")


@situation
def two_databases_without_a_block_are_passed_over():
    two_sides()
    want(call("categories", "h", "d")[:2], (0, ["MemoDB skipped blocks", "ended"]), "a session of categories")


@situation
def what_a_user_deletes_is_let_go():
    """Memos that were deleted on the handheld, all of them, are there until they are purged: nothing is refused."""
    two_sides()
    put("h/MemoDB.pdb", pdb("MemoDB", [(0x80 | DIRTY, number, text) for _, number, text in records_of("h/MemoDB.pdb")]))
    want_run("h", "d", LATER)
    want_both()


def stopped_behind_the_commit(*words):
    """The session is pulled at the first frame behind which the desktop has its new base, and the handheld its old memos."""
    before, old = texts("h/MemoDB.pdb"), all_files("d")["d/MemoDB.base"]
    for side in "hd":
        shutil.copytree(side, f"{side}-before")
    for frame in range(1, 500):
        put("line.txt", f"{frame} unplug\n")
        call("run", "h", "d", *words, "--script=line.txt")
        if all_files("d")["d/MemoDB.base"] != old:
            want(texts("h/MemoDB.pdb"), before, "the handheld's memos behind the commit")
            return
        for side in "hd":
            shutil.rmtree(side)
            shutil.copytree(f"{side}-before", side)
    raise AssertionError("no frame stops behind the commit")


@situation
def a_purge_that_was_missed_is_done_behind_a_session_of_another_database():
    """A memo that was deleted on the desktop doesn't come back, though a session of the tasks alone ended in between."""
    put("h/ToDoDB.pdb", pdb("ToDoDB", memos("task")))
    two_sides()
    put("d/MemoDB.pdb", pdb("MemoDB", [one for one in records_of("d/MemoDB.pdb") if one[2] != b"two\0"]))
    stopped_behind_the_commit(LATER)
    want_run("h", "d", LATEST, "--only=ToDoDB")
    want_run("h", "d", "--date=2001-09-12T01:46:40")
    want_both(b"one\0", b"three\0")
