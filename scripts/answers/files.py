"""Lines on files of databases, their texts, the conduit's table and plans, and a desktop's files.

`case TEXT` begins anew, and is printed. The modules files_*.py say which lines there are.
"""
import struct

import files_categories
import files_conduit
import files_desk
import files_made
import files_values
from files_database import Loaded
from files_export import Exports

DESK = ("file", "many", "files", "open", "finish", "list", "pick")
FILES = ("names", "reads", "device", "desktop", "holds", "journal")
VALUES = ("stem", "id", "kind", "user", "password", "date", "seconds")


class Answers:
    """What the lines so far have made."""

    def __init__(self, tools):
        self.tools = tools
        self.begin()

    def begin(self):
        """A case begins."""
        self.exports = Exports(self.tools)
        self.loaded = Loaded(self.tools)
        self.desk = files_desk.Desk(self.tools)

    def answer(self, line):
        """What a line comes to. None: nothing is printed."""
        word, *words = line.split(" ")
        if word == "case":
            self.begin()
            return line
        if word == "export":
            return self.exports.answer(words)
        if word == "db":
            return self.loaded.answer(words)
        if word in ("cell", "plan"):
            return files_conduit.answer(self.tools.library, line)
        if word == "categories":
            return files_categories.answer(self.tools, words)
        if word == "made":
            return files_made.answer(self.tools, words)
        if word in DESK:
            return self.desk.answer([word, *words])
        if word in FILES:
            return files_desk.file_answer(self.tools, [word, *words])
        if word in VALUES:
            return files_values.answer(self.tools, line)
        return f"no such line: {line}"


def answers(lines, tools):
    """What each line comes to."""
    made = Answers(tools)
    said = (answered(made, line) for line in lines)
    return [line for line in said if line is not None]


def answered(made, line):
    """What a line comes to, also where what was printed has another form than it should have."""
    try:
        return made.answer(line)
    except (AttributeError, IndexError, KeyError, TypeError, ValueError, StopIteration,
            struct.error) as error:
        return f"no answer: {error!r}"
