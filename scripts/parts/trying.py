"""Tries wrong bodies, each crate on a copy of the repository: many over one proof, and some alone."""
import os
import re
import shutil
import subprocess
import tempfile
import threading
from concurrent.futures import ThreadPoolExecutor

from edits import bodies_of, edits_of, groups_of
from sources import TOP

VERDICT = re.compile(r"^fn (.+?): (proved|not proved|no proof|could not tell)\b(.*)", re.M)
# What the prover couldn't read of an edited file: then no contract was tried.
UNREAD = re.compile(r"^(?:\./)?(src/\S+?):(\d+):\d+: error", re.M)
ALONE = re.compile(
    r"^(?:rt: )?must-fail \S+?/(\S+\.edit): (refused|NOT REFUSED|NOT TRIED|BAD EDIT)(.*)", re.M)
HOW = {"stdin": subprocess.DEVNULL, "stdout": subprocess.PIPE, "stderr": subprocess.STDOUT,
       "text": True, "errors": "replace"}
PRINTING = threading.Lock()


def link_or_copy(one, other):
    try:
        os.link(one, other)
    except OSError:
        shutil.copy2(one, other)


def copied(crate, to):
    """Copies what a proof of the crate reads, and gives it the library that was built of it."""
    for part in ("src", "specs", "proofs"):
        if os.path.isdir(f"{TOP}/crates/{crate}/{part}"):
            shutil.copytree(f"{TOP}/crates/{crate}/{part}", f"{to}/{part}")
    built = f"{TOP}/crates/{crate}/out/rlib"
    if os.path.isdir(built):
        shutil.copytree(built, f"{to}/out/rlib", copy_function=link_or_copy)


def copy_to(scratch):
    for name in ("crates.txt", "HANDLES"):
        shutil.copy(f"{TOP}/{name}", scratch)
    for crate in os.listdir(f"{TOP}/crates"):
        copied(crate, f"{scratch}/crates/{crate}")


class Trial:
    """The wrong bodies of one crate, tried in its folder of a copy."""

    def __init__(self, crate, folder):
        self.crate, self.folder = crate, folder
        self.refused, self.alone, self.told, self.proofs = set(), [], [], 0

    def check(self, texts):
        """What a check of the crate says with these texts in place of its own, over what the
        check of the crate as it stands left."""
        kept, base = f"{self.folder}/out/incremental", f"{self.folder}/out/base"
        was = {}
        for path, text in texts.items():
            with open(f"{self.folder}/{path}", encoding="utf-8") as file:
                was[path] = file.read()
            with open(f"{self.folder}/{path}", "w", encoding="utf-8") as file:
                file.write(text)
        if os.path.isdir(base):
            shutil.rmtree(kept, ignore_errors=True)
            shutil.copytree(base, kept, copy_function=copy_of_work)
        ran = subprocess.run(["rt", "check"], cwd=self.folder, **HOW)
        for path, text in was.items():
            with open(f"{self.folder}/{path}", "w", encoding="utf-8") as file:
                file.write(text)
        self.proofs += 1
        return ran

    def base(self):
        """Proves the crate as it stands, and keeps what that leaves."""
        ran = self.check({})
        kept = f"{self.folder}/out/incremental"
        if ran.returncode == 0 and os.path.isdir(kept):
            shutil.copytree(kept, f"{self.folder}/out/base", copy_function=copy_of_work)
        return ran

    def try_group(self, group, texts):
        """Tries edits together, and what that doesn't tell again in halves, or alone."""
        said = self.check(texts).stdout
        unread = UNREAD.findall(said)
        if unread or not VERDICT.search(said):
            keys = {key for file, line in unread for key in keys_at(file, int(line), texts)}
            strange = [it for it in group if keys & it.keys]
            return self.apart(group, strange) if strange else self.halve(group)
        hidden = []
        for edit in group:
            how = {self.state(said, body) for body in edit.bodies}
            if "open" in how:
                self.refused.add(edit.name)
            elif "hidden" in how:
                hidden.append(edit)
            else:
                self.alone.append(edit)
        self.again(hidden, len(group))

    def state(self, said, body):
        """Whether a goal of a function is open, by what a check said; or whether it has no proof
        for another reason, as that of a function that it calls; or None."""
        prefix, state = f"{self.crate}::{body.module}", None
        for path, verdict, why in VERDICT.findall(said):
            is_own = path.startswith(prefix) and body.is_named(path[len(prefix):])
            if is_own and verdict in ("not proved", "no proof"):
                folder = re.escape(path.split("::", 1)[1].replace("::", "/"))
                error = rf"^(?:\./)?proofs/{folder}/\S+: error: (?!.*not admitted)"
                if "did not prove" in why or re.search(error, said, re.M):
                    return "open"
                state = "hidden"
        return state

    def again(self, edits, before):
        """Tries edits once more, without those that were told apart from them."""
        if len(edits) == before:
            self.halve(edits)
        elif edits:
            for group, texts in groups_of(edits):
                self.try_group(group, texts)

    def halve(self, edits):
        if len(edits) == 1:
            self.alone += edits
            return
        for half in (edits[:len(edits) // 2], edits[len(edits) // 2:]):
            for group, texts in groups_of(half):
                self.try_group(group, texts)

    def apart(self, group, strange):
        """Tries alone what couldn't be read, and the others together once more."""
        self.alone += strange
        self.again([it for it in group if it not in strange], len(group))

    def try_alone(self):
        """Has `rt must-fail` judge what no group told."""
        if not self.alone:
            return
        os.makedirs(f"{self.folder}/must-fail")
        for edit in self.alone:
            shutil.copy(edit.path, f"{self.folder}/must-fail")
        top = os.path.dirname(os.path.dirname(self.folder))
        ran = subprocess.run(["rt", "must-fail", self.crate], cwd=top, **HOW)
        said = {name: (verdict, why) for name, verdict, why in ALONE.findall(ran.stdout)}
        for edit in self.alone:
            verdict, why = said.get(edit.name, ("NOT TRIED", f": {ran.stdout.strip()[-200:]}"))
            if verdict == "refused":
                self.refused.add(edit.name)
            else:
                self.told.append(f"{self.crate}/{edit.name}: {verdict}{why}")

    def run(self):
        edits = edits_of(self.crate)
        self.told += [f"{self.crate}/{it.name}: BAD EDIT: {it.fault}" for it in edits if it.fault]
        good = [it for it in edits if not it.fault]
        base = self.base()
        if base.returncode:
            said = base.stdout[-400:]
            self.told.append(f"{self.crate}: NOT TRIED: it isn't proved as it stands: {said}")
        else:
            self.alone += [it for it in good if not it.is_inside]
            for group, texts in groups_of([it for it in good if it.is_inside]):
                self.try_group(group, texts)
            self.try_alone()
        with PRINTING:
            print(f"{self.crate}: {len(edits)} tried, {len(self.refused)} refused"
                  f" ({len(self.alone)} of them alone, {self.proofs} proofs)", flush=True)
            for line in self.told:
                print(line, flush=True)
        return len(self.refused) == len(edits)


def keys_at(path, line, texts):
    """The functions of an edited file that have this line."""
    bodies = bodies_of(path, texts[path]) if path in texts else []
    return [body.key for body in bodies if line - 1 in body.lines]


def copy_of_work(one, other):
    """What was proved by a link, since a check replaces such a file and changes none."""
    return link_or_copy(one, other) if one.endswith(".oantt") else shutil.copy2(one, other)


def try_crate(crate):
    """Whether all wrong bodies of a crate are refused, tried in a copy of their own: another crate
    that is tried meanwhile may stand on this one."""
    with tempfile.TemporaryDirectory() as scratch:
        copy_to(scratch)
        return Trial(crate, f"{scratch}/crates/{crate}").run()


def list_groups(crates):
    for crate in crates:
        edits = [it for it in edits_of(crate) if not it.fault]
        groups = groups_of([it for it in edits if it.is_inside])
        print(f"{crate}: {len(groups)} groups")
        for number, (group, _) in enumerate(groups):
            print(f"  {number + 1}: {' '.join(it.name[:-5] for it in group)}")
        alone = [it.name[:-5] for it in edits if not it.is_inside]
        if alone:
            print(f"  alone: {' '.join(alone)}")


def main(crates, jobs, is_list):
    if is_list:
        list_groups(crates)
        return 0
    with ThreadPoolExecutor(jobs) as pool:
        return 0 if all(pool.map(try_crate, crates)) else 1
