"""What a person who types a mistake reads: calls of the program, and all that each prints.

`case TEXT` begins with an empty folder, and is printed. `$ hotsync WORDS` calls the program there,
its words as a shell takes them, and comes to the line itself, then `status N`, then each line of
standard output behind `out `, and each of standard error behind `err `. So each case reads as a
terminal does: what was typed, and what there is to go on with.
"""
import os
import shlex
import shutil
import subprocess


def called(tools, words):
    """The lines of a call."""
    ran = subprocess.run([tools.program, *words], cwd=f"{tools.scratch}/place", check=False,
                         stdin=subprocess.DEVNULL, capture_output=True, timeout=60)
    yield f"status {ran.returncode}"
    for stream, said in [("out", ran.stdout), ("err", ran.stderr)]:
        for line in said.decode(errors="backslashreplace").splitlines():
            yield f"{stream} {line}"


def answers(lines, tools):
    """What each line comes to."""
    found = []
    for line in lines:
        found.append(line)
        if line.startswith("case "):
            shutil.rmtree(f"{tools.scratch}/place", ignore_errors=True)
            os.mkdir(f"{tools.scratch}/place")
            continue
        dollar, program, *words = shlex.split(line)
        if (dollar, program) != ("$", "hotsync"):
            found.append(f"no such line: {line}")
            continue
        found += called(tools, words)
    return found
