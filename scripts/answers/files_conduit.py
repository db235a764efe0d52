"""Lines `cell ..` and `plan ..`: what becomes of records, by hs_merge over files that have them.

`cell HANDHELD DESKTOP EQUAL` is a cell of the conduit's table: record 1, whose base row has the
text b, is on each side in this state, with the text h or d where that changed it, or h on both
where they are `equal`. Where one of them has b the last word says nothing. `plan COUNTS
ACTION|VIEW|ROWS|BASE` is the plan of a database, read off what a merge leaves. COUNTS is `yes`
where gone rows count, ACTION `sync`, which may be left out, `handheld` or `desktop`. A record is
its id, a mark and its text: `:` for a live one, `!` for one with the delete bit, and in views `-`
for a deleted one and `?` for one that wasn't read, which a merge reads as a live one.
"""
from files_call import MADE_SECONDS, memos, merged, records_of

DELETED = 0x80
ACTIONS = {"sync": 0, "handheld": 1, "desktop": 2}
# What each state of a side is in its file; in place of * stands its own text.
STATES = {"Same": "1:b", "Changed": "1:*", "Deleted": "1-",
          "ArchivedSame": "1!b", "ArchivedChanged": "1!*"}


def answer(library, line):
    """What a line on the conduit comes to."""
    if line.startswith("cell "):
        return cell(library, *line.split(" ")[1:])
    front, view, rows, base = line.split("|")
    words = front.split(" ")
    action = ACTIONS[words[2] if len(words) > 2 else "sync"]
    left = merge(library, view, rows, base, action, words[1] == "yes")
    return f"refused {left}" if isinstance(left, int) else plan(entries(view), entries(base), left)


def entries(text):
    """The records that a list gives: attributes, id, bytes."""
    return [(DELETED * (entry[1] in "!-"), int(entry[0]), entry[2:].encode())
            for entry in text.split()]


def merge(library, view, rows, base, action, counts):
    """What a merge of these records leaves: the handheld's, the rows, the base rows and the
    archive.
    """
    files = [memos(b"MemoDB", entries(side)) for side in (view, rows, base)]
    left = merged(library, [*files, b""], action, int(not counts), MADE_SECONDS)
    return left if isinstance(left, int) else [records_of(file) if file else [] for file in left]


def cell(library, handheld, desktop, equal):
    """A cell in the words of the table: b is the base row's text, h the handheld's, d the
    desktop's.
    """
    gone = desktop == "Gone"
    view = STATES[handheld].replace("*", "h")
    own = "h" if equal == "equal" and "Changed" in handheld else "d"
    rows = "" if gone else STATES[desktop].replace("*", own)
    left = merge(library, view, rows, "1!b" if gone else "1:b", 0, True)
    if isinstance(left, int):
        return f"refused {left}"
    kept = [content.decode() for _, number, content in left[1] if number == 1]
    news = [content.decode() for _, number, content in left[1] if number != 1]
    away = [content.decode() for _, _, content in left[3]]
    said = [f"keep {text}" for text in kept] + [f"news {text}" for text in news]
    said += [f"archive {' and '.join(away)}"] if away else []
    return ", ".join(said) or "-"


def plan(view, base, left):
    """A plan in the words of its lists, by what a merge left of the records of a handheld and of
    these base rows. New records stand on the handheld in the order in which they were added.
    """
    old = {number: (bits & DELETED, content) for bits, number, content in view}
    known = {number for _, number, _ in view + base}
    handheld, rows, rest, archive = left
    now = {number for _, number, _ in handheld}
    kept = [(number, content) for _, number, content in rows if number in known]
    replaced = [(number, content) for number, content in kept if old.get(number) != (0, content)]
    gone = [(number, content) for bits, number, content in rest if bits & DELETED]
    away = [(number, content) for _, number, content in archive]
    lists = (("kept", kept), ("replace", replaced), ("archive", away), ("gone", gone))
    said = [f"{name} {number} {content.decode()}"
            for name, entries_of in lists for number, content in entries_of]
    said += [f"add {content.decode()}" for _, number, content in handheld if number not in known]
    live = [number for number, (deleted, _) in old.items() if not deleted]
    said += [f"purge {number}" for number in live if number not in now]
    return "plan " + "".join(f"{entry}; " for entry in said)
