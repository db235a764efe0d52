"""Handhelds that are new, were reset, or are moved whole."""
import os
import shutil

from situations.rig import (
    DIRTY, LATER, LATEST, all_files, call, folder_of, memos, pdb, performed_at, put, records_of, situation, texts, two_sides, want,
    want_line, want_run,
)


# ---- a handheld that is new, folders that are elsewhere


@situation
def a_new_handheld_empties_no_desktop():
    """A handheld that was reset takes nothing from a desktop without being told so."""
    two_sides()
    shutil.rmtree("h")
    put("h/MemoDB.pdb", pdb("MemoDB", []))
    before = all_files("h", "d")
    status, lines, hints = call("run", "h", "d", LATER)
    want((status, lines), (7, ["new handheld MemoDB"]), "status and lines")
    ways = ["MemoDB:both keeps what both sides have", "MemoDB:desktop brings back the desktop's",
            "MemoDB:handheld takes the handheld's"]
    want(hints, [f"hint: --actions={', '.join(ways)}"], "hints")
    want(all_files("h", "d"), before, "files")
    put("h/MemoDB.pdb", pdb("MemoDB", memos("welcome")))
    want_line(call("run", "h", "d", LATER), 7, "new handheld MemoDB")
    want_run("h", "d", LATER, "--actions=MemoDB:desktop")
    want(texts("h/MemoDB.pdb"), sorted([b"one\0", b"three\0", b"two\0"]), "memos")
    shutil.rmtree("h")
    put("h/MemoDB.pdb", pdb("MemoDB", memos("welcome")))
    want_run("h", "d", LATEST, "--actions=*:handheld")
    want(texts("d/MemoDB.pdb"), [b"welcome\0"], "memos")


@situation
def a_new_handheld_keeps_its_memos_beside_the_desktops():
    """A handheld that was reset and has memos again gets the desktop's beside them, and the desktop gets its own; again, nothing
    changes. What one side deleted since comes back."""
    two_sides()
    shutil.rmtree("h")
    put("h/MemoDB.pdb", pdb("MemoDB", memos("welcome", "two")))
    want_run("h", "d", LATER, "--actions=*:both")
    all_of_them = sorted([b"one\0", b"three\0", b"two\0", b"welcome\0"])
    want((texts("h/MemoDB.pdb"), texts("d/MemoDB.pdb")), (all_of_them, all_of_them), "memos")
    rows = list(records_of("d/MemoDB.pdb"))
    want_run("h", "d", LATEST, "--actions=*:both")
    want((texts("h/MemoDB.pdb"), list(records_of("d/MemoDB.pdb"))), (all_of_them, rows), "memos")


@situation
def the_wrong_way_round():
    """Folders that are given the wrong way round are refused, and keep their files."""
    two_sides()
    before = all_files("h", "d")
    want_line(call("run", "d", "h", LATER), 7, "wrong side HANDHELD")
    shutil.copytree("h", "h2")
    want_line(call("run", "h", "h2", LATER), 7, "wrong side DESKTOP")
    shutil.rmtree("h2")
    want(all_files("h", "d"), before, "files")

# ---- a handheld that is moved


def bare(name, records):
    """The bytes of a database as a handheld keeps one that a session made: no dates."""
    whole = bytearray(pdb(name, records))
    whole[36:60] = bytes(24)
    return bytes(whole)


def restored(before, databases):
    """What a handheld's folder holds once 0, 1, 2 and so on requests of a restore were performed: greeting and end change
    nothing, and a database is taken away, made, filled record after record, counted as unchanged, and closed."""
    held, states = dict(before), [dict(before)] * 3
    for name, records in sorted(databases.items()):
        path = f"{name}.pdb"
        held.pop(path, None)
        states.append(dict(held))
        for count in range(len(records) + 1):
            held[path] = bare(name, [(DIRTY, number, text) for _, number, text in records[:count]])
            states.append(dict(held))
        held[path] = bare(name, records)
        states += [dict(held)] * 2
    return [*states, dict(held)]


@situation
def a_restore_is_unplugged_at_each_frame():
    databases = {"A": memos("one"), "MemoDB": memos("two", "three")}
    for chosen in (["A"], ["A", "MemoDB"]):
        files = {name: databases[name] for name in chosen}
        before = {"A.pdb": pdb("A", memos("old")), "Z.pdb": pdb("Z", memos("stays"))}
        states = restored(before, files)
        shutil.rmtree("f", ignore_errors=True)
        for name, records in files.items():
            put(f"f/{name.upper()}.PDB", pdb(name, records))
        kept = folder_of("f")
        frames = 4 + 4 * (len(states) - 1)
        for frame in range(1, frames + 2):
            shutil.rmtree("h", ignore_errors=True)
            for path, content in before.items():
                put(f"h/{path}", content)
            put("script", f"{frame} unplug\n")
            answer = call("restore", "h", "f", "--script=script")
            if frame > frames:
                want_line(answer, 0, "ended")
            else:
                want_line(answer, 6, f"unplugged {frame}")
            want(folder_of("h"), states[min(performed_at(frame), len(states) - 1)], f"a handheld unplugged at frame {frame}")
            want(folder_of("f"), kept, "the folder that is restored")


@situation
def a_backup_is_unplugged_at_each_frame():
    databases = {"A": memos("one"), "MemoDB": memos("two", "three")}
    before = {f"{name}.pdb": bare(name, records) for name, records in databases.items()}
    # The greeting, a request for each entry of the list, and for each database: open, count, both blocks, records, close.
    closed, requests = [], 2 + len(databases)
    for name, records in sorted(databases.items()):
        requests += 5 + len(records)
        closed.append((f"{name}.pdb", requests))
    frames = 4 + 4 * (requests + 1)
    for frame in range(1, frames + 2):
        for folder in ("h", "f"):
            shutil.rmtree(folder, ignore_errors=True)
        for path, content in before.items():
            put(f"h/{path}", content)
        put("f/A.pdb", b"old")
        put("f/other", b"stays")
        put("script", f"{frame} unplug\n")
        answer = call("backup", "h", "f", "--script=script")
        if frame > frames:
            want_line(answer, 0, "ended")
        else:
            want_line(answer, 6, f"unplugged {frame}")
        # A file is put once the acknowledgement of its database's last reply has gone.
        wanted = {"A.pdb": b"old", "other": b"stays"}
        wanted.update({path: before[path] for path, request in closed if frame > 4 + 4 * request})
        want(folder_of("f"), wanted, f"a backup unplugged at frame {frame}")
        want(folder_of("h"), before, "the handheld")


@situation
def a_folder_of_another_program_is_restored():
    os.mkdir("h")
    put("f/MEMODB.PDB", pdb("MemoDB", memos("one")))
    put("f/Saved Memos.Prc", pdb("Saved Memos", memos("two")))
    put("f/README.txt", b"no database")
    kept = folder_of("f")
    want(call("restore", "h", "f")[:2], (0, ["MemoDB installed entries 1", "Saved%20Memos installed entries 1", "ended"]), "a restore")
    want(folder_of("h"), {"MemoDB.pdb": bare("MemoDB", memos("one")), "Saved%20Memos.pdb": bare("Saved Memos", memos("two"))}, "the handheld")
    put("f/memos.pdb", pdb("MemoDB", memos("other")))
    want_line(call("restore", "h", "f"), 7, "same database MEMODB.PDB and memos.pdb")
    os.remove("f/memos.pdb")
    want(folder_of("f"), kept, "the folder that is restored")
