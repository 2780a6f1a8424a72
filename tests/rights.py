#!/usr/bin/env python3
"""The daemon as a user who may not do all: what it may read and not write, what it may not read yet, and the places of service.py.

Use: rights.py PROGRAM. Run by root, it runs the daemon as nobody; run by another user, it says what is skipped. Prints a line for each check,
and ends with 1 if one fails.
"""
import os
import shutil
import subprocess
import sys
import tempfile

from harness import *

ROOM = tempfile.TemporaryDirectory()
FOLDER = ROOM.name
PROGRAM = os.path.join(FOLDER, "gpsrelay")  # a copy that all may run
TESTS = os.path.dirname(os.path.abspath(__file__))
NOBODY = 65534
GROUP = 64_999  # of nobody's daemon and of a FIFO; no group of this number is needed
PLACES = ["terminal_again", "fifo_again", "host_again", "daemon_again", "edges_again"]


def as_nobody(groups):
    return ["setpriv", f"--reuid={NOBODY}", f"--regid={NOBODY}", groups]


class NobodysDaemon(Daemon):
    """A daemon of nobody, who is in GROUP too."""

    def call(self, program, words):
        return [*as_nobody(f"--groups={GROUP}"), *super().call(program, words)]


def made(name, mode, group=0):
    """A FIFO of root."""
    path = os.path.join(FOLDER, name)
    os.mkfifo(path)
    os.chown(path, 0, group)
    os.chmod(path, mode)
    return path


def opened(path):
    """This FIFO, open for writing, once the daemon reads it; None if it never does."""
    found = []

    def is_open():
        try:
            found.append(os.open(path, os.O_WRONLY | os.O_NONBLOCK))
        except OSError:
            return False
        return True

    return found[0] if until(is_open) else None


def passes_on(client, path, t):
    """Whether a writer's second comes to the client."""
    writer = opened(path)
    if writer is None:
        return "nobody reads it"
    os.write(writer, second(t))
    os.close(writer)
    found = (client.line() or b"") + (client.line() or b"")
    return found == second(t) or found


def read_only():
    """A FIFO that may be read and not written is read, with --reopen too."""
    for what, reopen in {"without --reopen": [], "with --reopen": ["--reopen", "1"]}.items():
        path = made(f"fifo{len(reopen)}", 0o644)
        daemon = NobodysDaemon(PROGRAM, *reopen, f"gps0=file:{path}")
        client = daemon.client()
        client.watching('{"nmea":true}')
        check(f"root's FIFO that all may read, {what}: its sentences", True, passes_on(client, path, 0))
        if reopen:
            check("with the next writer, they go on", True, passes_on(client, path, 1))
        else:
            check("its end is the end", 0, daemon.wait()[0])
        check(f"{what}: nothing is denied", False, "denied" in daemon.said())
        client.close()
        daemon.stop()


def edges():
    """The recipe's edges: a FIFO of a group that the daemon is in, and one that all may read."""
    for name, mode, group in ("the group's", 0o660, GROUP), ("root's, that all may read", 0o644, 0):
        path = made(f"edges{mode:o}", mode, group)
        device = TcpDevice()
        daemon = NobodysDaemon(PROGRAM, "--reopen", "1", device.word, f"gps0=edges:{path}")
        client = daemon.client()
        client.watching('{"pps":true}')
        writer = opened(path)
        check(f"edges, {name}: the FIFO is read", True, writer is not None)
        if writer is not None:
            device.take().send(second(0))
            host = client.object()
            # Two edges, a second apart: the latter is half a second after the serial time.
            for n, half in enumerate((-1, 1)):
                at = divmod(1_000_000_000 * host["clock_sec"] + host["clock_nsec"] + half * 500_000_000, 1_000_000_000)
                os.write(writer, b"assert %d.%09d#%d\n" % (*at, n))
            pulse = client.object()
            check(f"edges, {name}: a pulse", ("PPS", host["real_sec"] + 1), (pulse["class"], pulse["real_sec"]))
            os.close(writer)
        client.close()
        daemon.stop()
        device.close()


def refused():
    """What may not be read is said, and is read once it may."""
    path = made("shut", 0o600)
    daemon = NobodysDaemon(PROGRAM, "--reopen", "1", f"gps0=file:{path}")
    client = daemon.client()
    client.watching('{"nmea":true}')
    check("a FIFO that may not be read: it is said", True, daemon.says(f"file:{path} cannot be opened: permission denied"))
    os.chmod(path, 0o644)
    check("once it may be read: its sentences", True, passes_on(client, path, 0))
    client.close()
    daemon.stop()


def places():
    """The places of service.py, all of it run by nobody."""
    python = next((it for it in (sys.executable, "/usr/bin/python3") if subprocess.run([*as_nobody("--clear-groups"), it, "-c", ""], capture_output=True).returncode == 0), None)
    if not python:
        return print("skipped: no Python that nobody may run: the places of service.py")
    own = os.path.join(FOLDER, "own")
    os.mkdir(own)
    os.chown(own, NOBODY, NOBODY)
    copy = os.path.join(FOLDER, "tests")
    shutil.copytree(TESTS, copy, ignore=shutil.ignore_patterns("__pycache__", "by_hand"))
    subprocess.run(["chmod", "-R", "a+rX", copy], check=True)
    done = subprocess.run([*as_nobody("--clear-groups"), python, "-B", f"{copy}/service.py", PROGRAM, *PLACES], capture_output=True, text=True, timeout=600 * slowness(),
                          env={**os.environ, "TMPDIR": own, "HOME": own}, cwd=own)
    for row in done.stdout.splitlines():
        print(f"        {row}" if row.startswith("ok") else row)
    check("the places of service.py, by nobody", (0, True), (done.returncode, "ok" in done.stdout))


if os.geteuid() != 0 or not shutil.which("setpriv"):
    print("skipped: rights of places: it is not run by root, or there is no setpriv (util-linux)")
    sys.exit(0)
os.chmod(FOLDER, 0o755)
shutil.copy(sys.argv[1], PROGRAM)
os.chmod(PROGRAM, 0o755)
if subprocess.run([*as_nobody("--clear-groups"), "test", "-x", PROGRAM]).returncode != 0:
    print(f"skipped: rights of places: nobody may not reach {FOLDER}")
    sys.exit(0)
sys.exit(run_parts(read_only, edges, refused, places))
