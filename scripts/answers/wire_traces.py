"""Scripts of a line by `hotsync run`, traces by `hotsync verify` and `hotsync picture`."""
import html
import re

from wire_line import folder, got, program, put

DATE = "--date=2001-09-09T01:46:40"
# An acknowledgement, for the frames in front of one that is looked at.
ACKNOWLEDGEMENT = "beefed030302000401a702c00002ce11"


def run(tools, script):
    """The lines of the trace of a session of two empty folders by this script, or what is told of
    the script."""
    for side in ("palm", "desk"):
        folder(tools, side, {})
    put(tools, "script", script)
    put(tools, "trace", b"")
    said, _ = program(tools, "run", "palm", "desk", DATE, "--script=script", "--trace=trace")
    bad = re.match(r"bad script line (\d+)\n|source too long\n", said)
    if bad:
        return None, f"bad line {bad[1]}" if bad[1] else "too long"
    return got(tools, "trace").decode().split("\n")[:-1] or None, said


def fate(line):
    """The fate in the line of a frame."""
    words = line.split()[2:-2]
    if words[0] == "hit":
        return f"hit {words[1]} of {len(words[2]) // 2} bytes"
    if words[0] == "noise":
        return f"noise of {len(words[1]) // 2} bytes"
    return " ".join(words)


def fates(tools, script, numbers):
    """The fates of these frames. The whole script is read by one run; then the line of each frame
    stands alone, with its number as the session's frame bears it, or under 1 where the session has
    no frame of that number."""
    lines, said = run(tools, script)
    if lines is None:
        return said
    by_number = {line.split(b" ", 1)[0]: line for line in script.split(b"\n") if line}
    told = []
    for number in numbers:
        line = by_number.get(number.encode())
        place = int(number) if 0 < int(number) <= 20 else 1
        alone = b"%d %s\n" % (place, line.split(b" ", 1)[1]) if line else b""
        told.append(f", {number} {fate(run(tools, alone)[0][place - 1])}")
    return "script" + "".join(told)


def many(tools, count, rest, numbers):
    """The same of a script of so many lines and these bytes behind them."""
    return fates(tools, b"".join(b"%d lost\n" % n for n in range(1, count + 1)) + rest, numbers)


def frame(tools, number, end, mark, text, words):
    """The line of a frame: that of a session whose frame it is, else that of its row in a page."""
    is_ok = words == ["ok"]
    lines, _ = run(tools, b"" if is_ok else f"{number} {' '.join(words)}\n".encode())
    if lines and number <= len(lines) and lines[number - 1].endswith(f" {text}"):
        return f"|{lines[number - 1]}\n|"
    before = "".join(f"{n} H ok + {ACKNOWLEDGEMENT}\n" for n in range(1, number))
    page = picture(tools, f"{before}{number} {end} {' '.join(words)} {mark} {text}\n".encode())
    return f"|{rows(page)[-1]}\n|"


def picture(tools, trace):
    """The page of a trace, or what is told of it."""
    put(tools, "trace", trace)
    return program(tools, "picture", "trace")[0]


def rows(page):
    """The lines of the trace that a page shows."""
    return [html.unescape(line) for line in re.findall(r"<code>(.*?)</code></li>", page)]


def verdict(tools, trace):
    put(tools, "trace", trace)
    return program(tools, "verify", "trace")[0].rstrip("\n")


def trace_of(tools, trace):
    """How many frames a trace has, and whether its page shows each line as it is; or its first bad
    line."""
    said = verdict(tools, trace)
    if said.startswith("bad trace line"):
        return said.replace("trace ", "")
    page = picture(tools, trace)
    count = re.search(r"<p>(\d+) frames", page)[1]
    same = "".join(f"{line}\n" for line in rows(page)).encode() == trace
    return f"trace of {count} frames, the same text: {str(same).lower()}"


def page_of(tools, trace):
    """The lines of its page that say something of a trace."""
    page = picture(tools, trace)
    if not page.startswith("<"):
        return "no trace" if page.startswith("bad trace line") else page
    says = re.compile("<p>.*|.*</code></li>")
    return "\n".join(["page", *filter(says.fullmatch, page.split("\n"))])
