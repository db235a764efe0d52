"""A handheld over a folder, by `hotsync device` at a port and over captured bytes.

Bytes are hexadecimal. `case TEXT` begins with an empty folder.

- The folder: `file NAME H` puts a file into it, `many N` one of an empty database for each number
  below N, `full NAME KIND` one of 65,535 empty entries: `ids` records with ids from 1, `zeros`
  with id 0, `sevens` with id 7, `codes` resources; `large NAME` one of a record of 65,501 bytes.
  `fail N` makes the Nth call on it fail. `files` lists its files with their lengths, `bytes NAME`
  shows one, `changes` says how often it was changed.
- `open` stands a handheld over it at a port, or says why there is none; `serve` begins the
  requests to it, `close` ends its talk.
- What is asked of it: a line of hexadecimal is a request and answers the reply; in both `<new>`
  stands for the id that the last new record got. `talk H` is a request, too. `databases`,
  `entries H`, `user N`, `create H ATTRIBUTES`, `delete H`, `lend H MODE CHANGE..` and `ids H N`,
  which gives ids to new records and takes them out again, are requests that do this
  (device_words.py).
- `make H ATTRIBUTES` makes a database, and then `do CHANGE` says whether its file was put;
  `insert H..` makes databases, and says in which order they stand (device_made.py).
- `device MOST 0 FULL H` is what it says to captured bytes, over files, or, where MOST is not 0, at
  the port in pieces of so many bytes; `feed H..` what it says to each of these packets there. It
  says how it ended, how many requests it served, and what it said. With FULL 1 what is said goes
  to a full device.
"""

import os
import shutil

import device_captured
import device_made
import device_words
from device_files import file_of, full_file, large_file, no_files, without
from handheld import Handheld


class Cases:
    """The folder, the handheld at a port over it, and what the lines before have said."""

    def __init__(self, tools):
        self.tools, self.folder = tools, f"{tools.scratch}/palm"
        self.talk, self.made, self.given = None, None, ""
        self.begin()

    def begin(self):
        self.close()
        shutil.rmtree(self.folder, ignore_errors=True)
        os.mkdir(self.folder)
        self.fails, self.changes, self.made = 0, 0, None

    def put(self, name, data):
        with open(f"{self.folder}/{name}", "wb") as file:
            file.write(data)

    def files(self):
        """The files with their bytes, by their names."""
        found = {}
        for name in sorted(os.listdir(self.folder)):
            with open(f"{self.folder}/{name}", "rb") as file:
                found[name] = file.read()
        return found

    def open(self):
        """Stands a handheld over the folder. A call fails there by what the folder is."""
        names = os.listdir(self.folder)
        calls = 1 + sum(name.endswith((".pdb", ".prc", ".inf")) for name in names)
        self.later = self.fails > calls
        away, links = f"{self.folder}.away", 0 < self.fails <= calls
        if links:
            os.rename(self.folder, away)
            if self.fails > 1:
                no_files(away, self.folder)
        self.talk = Handheld(self.tools.program, self.folder)
        if self.talk.wake is None:
            lines, _ = self.talk.end()
            self.talk = None
        if links:
            shutil.rmtree(self.folder, ignore_errors=True)
            os.rename(away, self.folder)
        self.fails = 0
        return "opened" if self.talk else device_words.refusal(lines)

    def ask(self, message):
        """The reply to a request. None: the program ended. Where a call is to fail a file stands
        in the folder's place meanwhile."""
        if self.talk.done:
            self.close()
            self.open()
        if not self.later:
            return self.talk.ask(message)
        self.later = False
        with without(self.folder):
            return self.talk.ask(message)

    def close(self):
        if self.talk:
            self.talk.end()
            self.changes += self.talk.changes
            self.talk = None

    def said_to(self, text):
        """The reply to a request in hexadecimal, or why there is none."""
        if self.talk.over():
            return "not sound"
        text = text.replace("<new>", self.given, 1)
        reply = self.ask(bytes.fromhex(text if text != "-" else ""))
        if reply is None:
            return "keeper"
        said = reply.hex()
        is_new = text.startswith("2101") and text[12:20] == "00000000"
        if is_new and said.startswith("a10100002004"):
            self.given = said[12:]
        return said.replace(self.given, "<new>", 1) if self.given else said


def prepared(cases, words):
    """Does what a line asks of the folder, without an answer. Whether it was such a line."""
    match words:
        case ["file", name, data]:
            cases.put(name, bytes.fromhex("" if data == "-" else data))
        case ["many", count]:
            for number in range(int(count)):
                cases.put(f"D{number}.pdb", file_of(f"D{number}", 0, 0))
        case ["full", name, kind]:
            cases.put(f"{name}.{'prc' if kind == 'codes' else 'pdb'}", full_file(name, kind))
        case ["large", name]:
            cases.put(f"{name}.pdb", large_file(name))
        case ["fail", count]:
            cases.fails = int(count)
        case ["serve"]:
            cases.given = ""
        case ["close"]:
            cases.close()
        case ["make", name, attributes]:
            cases.made = device_made.Made(cases, bytes.fromhex(name), int(attributes))
        case _:
            return False
    return True


def told(cases, words):
    """What a line on the folder, or on a handheld as a whole, answers."""
    match words:
        case ["open"]:
            return cases.open()
        case ["files"]:
            found = cases.files()
            return "files" + "".join(f" {name} {len(data)}" for name, data in found.items())
        case ["bytes", name]:
            found = cases.files()
            return found[name].hex() if name in found else "none"
        case ["changes"]:
            return f"changes {cases.changes}"
        case ["device", most, "0", full, *data]:
            heard = bytes.fromhex("".join(data))
            return device_captured.device(cases, int(most), full == "1", heard)
        case ["feed", *pieces]:
            return device_captured.feed(cases, [bytes.fromhex(piece) for piece in pieces])
        case ["do", change]:
            return cases.made.changed(change.split(":"))
        case ["insert", *names]:
            return device_made.inserted(cases, [bytes.fromhex(name) for name in names])
        case ["talk", text]:
            said = cases.said_to(text)
            return "down" if said == "keeper" else said
        case [text] if all(byte in "0123456789abcdef-<new>" for byte in text):
            return cases.said_to(text)
    return device_words.answer(cases, words)


def answers(lines, tools):
    found, cases = [], Cases(tools)
    for line in lines:
        words = line.split(" ")
        if words[0] == "case":
            cases.begin()
            found.append(line)
        elif not prepared(cases, words):
            said = told(cases, words)
            if said is not None:
                found.append(said)
    cases.close()
    return found
