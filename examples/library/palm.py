"""Palm databases and a handheld in Python, by the package `hotsync` (below `python`, or of the wheel):

palm.py FILE.pdb prints what a database's file holds;
palm.py records FOLDER prints a line for each record of each database of a folder: its database, id and length;
palm.py merge HANDHELD DESKTOP NAME SECONDS [agree] merges the files of one database, as merge.c does;
palm.py device HANDHELD SENT SAID answers the bytes of a desktop, as device.c does."""

import sys
from dataclasses import astuple
from pathlib import Path

from hotsync import Database, Handheld, HotSyncError, Phase, Sides, merge, show


def merge_files(handheld, desktop, name, date, agree):
    """Merges the files of a database in two folders."""
    paths = [Path(handheld, f"{name}.pdb"), *(Path(desktop, f"{name}.{ending}") for ending in ("pdb", "base", "arc"))]
    files = Sides(*(path.read_bytes() if path.exists() else b"" for path in paths))
    for path, data in zip(paths, astuple(merge(files, date, agree))):
        if data:
            path.write_bytes(data)


def device_of(folder, sent, said):
    """Answers the bytes of a desktop as the handheld of a folder does."""
    paths = list(Path(folder).iterdir())
    handheld = Handheld({path.name: path.read_bytes() for path in paths})
    handheld.take(Path(sent).read_bytes())
    for path in paths:
        path.unlink()
    for name, data in handheld.files().items():
        Path(folder, name).write_bytes(data)
    Path(said).write_bytes(handheld.said)
    return 0 if handheld.phase == Phase.ENDED else 1


def records_in(folder):
    for path in sorted(Path(folder).glob("*.pdb")):
        for record in Database.from_bytes(path.read_bytes()).records:
            print(path.stem, f"{record.id:06x}", len(record.content))


def main(words):
    if words[0] == "merge":
        merge_files(*words[1:4], int(words[4]), len(words) > 5)
    elif words[0] == "device":
        return device_of(*words[1:4])
    elif words[0] == "records":
        records_in(words[1])
    else:
        sys.stdout.write(show(Path(words[0]).read_bytes()))
    return 0


if __name__ == "__main__":
    try:
        sys.exit(main(sys.argv[1:]))
    except HotSyncError as error:
        sys.exit(f"palm.py: {error}")
