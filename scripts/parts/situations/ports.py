"""Sessions at ports."""
import fcntl
import os
import signal
import subprocess
import termios
import time
import tty

from situations.rig import LATER, PROGRAM, TOP, all_files, call, pdb, put, situation, two_sides, want, want_run


def set_port():
    """A pair of pseudo terminals, the second one set as hotsync-port sets a port, with a tick of a tenth of a second."""
    master, slave = os.openpty()
    tty.setraw(slave)
    settings = termios.tcgetattr(slave)
    settings[6][termios.VMIN], settings[6][termios.VTIME] = 0, 1
    termios.tcsetattr(slave, termios.TCSANOW, settings)
    return master, slave


def at_port(port):
    """The words of both commands at a port."""
    return ["sync", port, "d", LATER], ["device", "h", f"--port={port}"]


@situation
def a_port_that_is_no_terminal_is_not_opened():
    """A file, a pipe, a folder and a path where nothing is: a pipe that was opened would wait for ever."""
    two_sides("one")
    put("file", b"bytes")
    os.mkfifo("pipe")
    os.mkdir("folder")
    before = all_files("h", "d"), os.listdir("d")
    for port in ("file", "pipe", "folder", "nothing"):
        for words in at_port(port):
            want(call(*words)[:2], (4, ["port failed"]), f"{words[0]} at {port}")
    want((all_files("h", "d"), os.listdir("d")), before, "the folders")
    want(os.path.exists("nothing"), False, "a file of the port's name")
    want_run("h", "d", LATER)


@situation
def a_port_is_set_awaited_and_never_made():
    """hotsync-port refuses what is no port, makes nothing in its place, keeps others out, and has a session at one that is."""
    two_sides("one", "two")
    script = f"{TOP}/scripts/hotsync-port"
    given = {**os.environ, "HOTSYNC": PROGRAM, "WAIT": "1", "TICK": "1"}

    def at(*words, **more):
        return subprocess.run(["sh", script, *words], env=given, stdout=subprocess.PIPE, stderr=subprocess.PIPE, timeout=60, **more)

    words = ("sync", "d", LATER)
    for port, reason in (("nowhere", "did not come"), ("h/MemoDB.pdb", "is no device"), ("/dev/null", "is no serial port")):
        done = at(port, *words)
        want((done.returncode, reason in done.stderr.decode()), (4, True), f"{port} as a port")
    want((at("nowhere").returncode, at("nowhere", "make", "d", LATER).returncode), (2, 2), "words out of the form")
    want(os.path.exists("nowhere"), False, "a port that was made")
    master, slave = os.openpty()
    port = os.ttyname(slave)
    with open(port, "rb") as held:
        fcntl.flock(held, fcntl.LOCK_EX)
        want("somebody else" in at(port, *words).stderr.decode(), True, "a port that another one has")
    done = at(port, *words)
    want((done.returncode, done.stdout.decode()), (6, "no handheld\n"), "a port where nobody is")
    os.close(master)
    os.close(slave)


@situation
def a_port_that_is_silent_ends_by_its_ticks():
    """Thirty reads without a byte are no handheld, and ten wakes without an acknowledgement a line that is down. Reads of
    /dev/null end at once, and writes to /dev/full fail."""
    two_sides("one")
    before = all_files("h", "d")
    master, slave = set_port()
    sync, device = at_port(os.ttyname(slave))
    backup = ["backup", f"--port={os.ttyname(slave)}", "b"]
    for words, line, least in ((sync, "no handheld", 2.5), (backup, "no handheld", 2.5), (device, "line down handheld", 0.5)):
        begun = time.monotonic()
        want(call(*words)[:2], (6, [line]), f"{words[0]} at a silent port")
        took = time.monotonic() - begun
        want(least < took < 4 * least + 10, True, f"{took} seconds are as many ticks")
    os.close(master)
    os.close(slave)
    sync, device = at_port("/dev/null")
    want(call(*sync)[:2], (6, ["no handheld"]), "sync at /dev/null")
    want(call("backup", "--port=/dev/null", "d")[:2], (7, ["not a backup folder"]), "a backup at a port into a desktop's folder")
    want(os.listdir("b"), [], "the folder of a backup without a handheld")
    want(call(*device)[:2], (6, ["line down handheld"]), "device at /dev/null")
    want(call(*at_port("/dev/full")[1])[:2], (4, ["port failed"]), "device at /dev/full")
    want(all_files("h", "d"), before, "the folders")


@situation
def a_port_that_hangs_up_is_told():
    """A plug that is pulled is no silence: reads of the port fail from then on, and that is told at once."""
    two_sides("one")
    before = all_files("h", "d")
    for number in (0, 1):
        master, slave = set_port()
        words = at_port(os.ttyname(slave))[number]
        waiting = subprocess.Popen([PROGRAM, *words], stdout=subprocess.PIPE)
        time.sleep(0.3)
        os.close(slave)
        os.close(master)
        told, _ = waiting.communicate(timeout=2)
        want((told, waiting.returncode), (b"port failed\n", 4), f"{words[0]} once its port hung up")
    want(all_files("h", "d"), before, "the folders")


@situation
def a_port_that_nobody_set_waits():
    """A read of a terminal that stty did not set has no end where no line comes: the program waits until it is stopped."""
    two_sides("one")
    before = all_files("h", "d")
    master, slave = os.openpty()
    for words in at_port(os.ttyname(slave)):
        waiting = subprocess.Popen([PROGRAM, *words], stdout=subprocess.PIPE)
        try:
            want(waiting.wait(2), None, f"{words[0]} at a port that nobody set")
        except subprocess.TimeoutExpired:
            waiting.kill()
        want((waiting.stdout.read(), waiting.wait()), (b"", -signal.SIGKILL), f"{words[0]} once it was stopped")
    os.close(master)
    os.close(slave)
    want(all_files("h", "d"), before, "the folders")
    want_run("h", "d", LATER)
