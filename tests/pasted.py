#!/usr/bin/env python3
"""Pastes the blocks of README.md into one interactive shell, in order, as a reader does, and looks that each command succeeds and ends.

Use: pasted.py PROGRAM. Prints a line for each block, and ends with 1 if one fails. It takes some ten seconds.

A block is an indented one, or one whose info string is `console`, of which the commands are pasted. Each of its commands must end with
status 0. A comment just above a block says what else there is to know, as in commands.py:

    <!-- paste: shows='"class":"TPV"' -->

    shows=TEXT       the last command goes on; it must show this, and is then ended by Ctrl-C
    page=URL         before that, this page must be there
    skip="REASON"    the block is not pasted
    seconds=N        how long the block may take (60 if it does not say)

The shell has its own network, if the system lets it, so that the ports of the document are free; if not, and one is taken, nothing is
tried. `sudo` installs below a folder of the test and does nothing else, `rt` and `systemctl` do nothing, and /dev/ttyACM0 is a terminal that
sends the sentences of samples/drive.nmea once a daemon listens.
"""
import fcntl
import os
import pty
import re
import select
import shutil
import signal
import socket
import struct
import subprocess
import sys
import tempfile
import threading
import time
import urllib.request

from checks import WAIT, check, exit_status
from commands import words_of

PROGRAM = os.path.abspath(sys.argv[1])
TOP = os.path.dirname(os.path.dirname(os.path.abspath(__file__)))
PORTS = 2947, 2948, 8947
DEVICE = "/dev/ttyACM0"
KNOWN = {"shows", "page", "skip", "seconds", "wanted"}

# Commands that need another machine, or a proof of an hour. gpspipe is here for systems without gpsd's clients: theirs comes first.
STAND_INS = {
    "first/sudo": '#!/bin/sh\nDESTDIR={root} PROGRAM={program} exec "$@"\n',
    "first/systemctl": "#!/bin/sh\nexit 0\n",
    "first/rt": "#!/bin/sh\nexit 0\n",
    "last/gpspipe": """#!{python} -IS
import socket
with socket.create_connection(("127.0.0.1", 2947)) as daemon:
    daemon.sendall(b'?WATCH={{"json":true}};')
    for line in daemon.makefile():
        print(line, end="", flush=True)
""",
}

# What must fail: a command that fails, one that does not end, a text that does not come, and a second daemon at the port of the first.
EXAMPLES = """
<!-- paste: wanted=passed shows=2947 -->
    gpsrelay serve --listen 127.0.0.1:2947 gps0=file:/dev/ttyACM0

<!-- paste: wanted=passed -->
    mkfifo first second
    gpsrelay serve gps0=file:first &
    sleep 1

```console
$ seq 2
1
2
```

<!-- paste: wanted=failed -->
    true
    false

<!-- paste: wanted=failed seconds=1 -->
    sleep 1000

<!-- paste: wanted=failed seconds=1 shows=never -->
    cat

<!-- paste: wanted=failed seconds=1 colour=red -->
    true

<!-- paste: wanted=failed seconds=2 -->
    gpsrelay serve gps0=file:second &
    cat samples/drive.nmea > second
"""


class Block:
    """A block: its row in the document, the words of its comment, and the rows to paste."""

    def __init__(self, row, words):
        self.row, self.words, self.rows = row, words, []


def blocks_of(text):
    """The blocks of a Markdown text. A comment belongs to the block on the next row that is not blank."""
    found, words, block, fence, blank = [], {}, None, "", True
    for number, row in enumerate([*text.split("\n"), ""], 1):
        opened = re.fullmatch(r"(```+)\s*(\S*).*", row)
        if fence:
            if row.strip() == fence:
                found += [block] if block and block.rows else []
                block, fence, words = None, "", {}
            elif block and (row.startswith("$ ") or row.startswith("> ") and block.rows):
                block.rows.append(row[2:])
            continue
        if block and (row.startswith("    ") or not row.strip()):
            block.rows.append(row[4:])
            blank = not row.strip()
            continue
        if block:
            while not block.rows[-1]:
                block.rows.pop()
            found.append(block)
            block, words = None, {}
        if opened:
            fence, block = opened[1], Block(number, words) if opened[2] == "console" else None
        elif comment := re.fullmatch(r"<!-- paste:(.*)-->\s*", row):
            words, blank = words_of(comment[1]), True
            continue
        elif row.startswith("    ") and blank:
            block = Block(number, words)
            block.rows.append(row[4:])
        elif row.strip():
            words = {}
        blank = not row.strip()
    if block and any(block.rows):
        found.append(block)
    return found


class Place:
    """A folder as a reader has it, with the stand-ins and the device beside it."""

    def __init__(self):
        self.folder = tempfile.mkdtemp(prefix="pasted")
        self.home, self.root = os.path.join(self.folder, "gpsrelay"), os.path.join(self.folder, "root")
        os.makedirs(os.path.join(self.home, "crates", "gpsrelay"))
        for name in "README.md", "docs", "examples", "samples", "tools":
            copy = shutil.copytree if os.path.isdir(os.path.join(TOP, name)) else shutil.copy
            copy(os.path.join(TOP, name), os.path.join(self.home, name))
        shutil.copy(os.path.join(TOP, "samples", "drive.nmea"), os.path.join(self.home, "drive.log"))  # the reader's own log
        for name, text in STAND_INS.items():
            path = os.path.join(self.folder, name)
            os.makedirs(os.path.dirname(path), exist_ok=True)
            with open(path, "w", encoding="utf-8") as it:
                it.write(text.format(root=self.root, program=PROGRAM, python=sys.executable))
            os.chmod(path, 0o755)
        self.leader, self.follower = pty.openpty()
        self.device = os.ttyname(self.follower)
        os.set_blocking(self.leader, False)

    def path(self):
        return os.pathsep.join([f"{self.root}/usr/local/bin", f"{self.folder}/first", os.environ["PATH"], f"{self.folder}/last"])

    def feed(self):
        """What the receiver sends: a second of the drive every tenth of a second. What nobody reads is lost."""
        with open(os.path.join(TOP, "samples", "drive.nmea"), "rb") as it:
            seconds = re.findall(rb"\$..RMC.*?(?=\$..RMC|\Z)", it.read(), re.S)
        while True:
            for data in seconds:
                try:
                    os.write(self.leader, data)
                except BlockingIOError:
                    pass
                except OSError:
                    return
                time.sleep(0.1)

    def install(self):
        """What `sudo tools/install.sh` does, for blocks that are tried without it."""
        subprocess.run([os.path.join(self.folder, "first", "sudo"), "tools/install.sh"], cwd=self.home, check=True, stdout=subprocess.DEVNULL)

    def remove(self):
        os.close(self.leader)
        os.close(self.follower)
        shutil.rmtree(self.folder, ignore_errors=True)


class Shell:
    """An interactive bash at a terminal of its own."""

    def __init__(self, place):
        self.place, self.said, self.is_fed = place, b"", False
        environment = {"PATH": place.path(), "HOME": place.home, "TERM": "dumb", "LC_ALL": "C.UTF-8", "HISTFILE": "/dev/null"}
        self.pid, self.terminal = pty.fork()
        if self.pid == 0:
            os.chdir(place.home)
            signal.signal(signal.SIGINT, signal.SIG_DFL)  # a shell in the background has it ignored, and Ctrl-C would end nothing
            os.execvpe("bash", ["bash", "--norc", "--noprofile", "--noediting", "-i"], environment)
        self.type("stty -echo; PS1= PS2= PROMPT_COMMAND='echo \"==status $?==\"'; echo rea''dy")
        if not self.shows(b"ready\r\n==status 0==", 0, WAIT):
            raise RuntimeError(f"the shell does not begin, and wrote {self.said!r}")

    def type(self, text):
        data = (text + "\n").encode()
        while data:
            data = data[os.write(self.terminal, data):]

    def shows(self, text, start, seconds):
        """Waits until this is shown; whether it is. The receiver begins to send once a daemon listens."""
        end = time.monotonic() + seconds
        while text not in self.said[start:] and time.monotonic() < end:
            if select.select([self.terminal], [], [], 0.1)[0]:
                try:
                    self.said += os.read(self.terminal, 65536)
                except OSError:
                    break
            if b"listening at" in self.said and not self.is_fed:
                self.is_fed = True
                threading.Thread(target=self.place.feed, daemon=True).start()
        return text in self.said[start:]

    def paste(self, number, block):
        """What is wrong with a block, or None."""
        if unknown := set(block.words) - KNOWN:
            return f"its comment says {sorted(unknown)}, which means nothing"
        start, seconds, wanted = len(self.said), float(block.words.get("seconds", WAIT)), block.words.get("shows", "").encode()
        self.type("\n".join(block.rows).replace(DEVICE, self.place.device))
        fault, end = None, None
        if wanted:
            if not self.shows(wanted, start, seconds):
                fault = f"does not show {wanted.decode()}"
            elif page := block.words.get("page"):
                fault = self.missing(page)
            end = len(self.said)
            self.interrupt()
        mark = f"==block {number} has ended=="
        self.type(f"echo '{mark}'")
        if not self.shows(mark.encode(), start, WAIT if wanted else seconds) and not fault:
            fault = "does not end"
        status = re.search(rb"==status ([1-9]\d*)==", self.said[start:end])
        if status and not fault:
            fault = f"ends with {int(status[1])}"
        if fault:
            self.interrupt()  # what still runs
        return fault and f"{fault}; it wrote {self.said[start:][-600:].decode(errors='replace')!r}"

    def interrupt(self):
        """Ctrl-C, and a wait for the prompt: what is typed before it would be lost."""
        start = len(self.said)
        os.write(self.terminal, b"\x03")
        self.shows(b"==status ", start, WAIT)
        self.shows(b"==\r\n", start, WAIT)

    def missing(self, page):
        try:
            with urllib.request.urlopen(page, timeout=WAIT) as it:
                return None if it.status == 200 and b"<html" in it.read() else f"{page} is no page"
        except OSError as error:
            return f"{page} is not there: {error}"

    def end(self):
        """Ends the shell and all that it started."""
        for name in filter(str.isdigit, os.listdir("/proc")):
            try:
                with open(f"/proc/{name}/stat", encoding="utf-8", errors="replace") as it:
                    session = int(it.read().rpartition(")")[2].split()[3])
                if session == self.pid:
                    os.kill(int(name), signal.SIGKILL)
            except (OSError, IndexError, ValueError):
                pass
        os.waitpid(self.pid, 0)
        os.close(self.terminal)


def paste_all(name, text, installed=False):
    """Pastes each block, and checks that it is as it must be: good, or as the comment of an example says."""
    place = Place()
    if installed:
        place.install()
    shell = Shell(place)
    try:
        for number, block in enumerate(blocks_of(text)):
            title = f"{name}:{block.row}: {block.rows[0][:70]}"
            if "skip" in block.words:
                print(f"skipped {title}: {block.words['skip']}", flush=True)
            elif "wanted" in block.words:
                fault = shell.paste(number, block)
                check(f"{title}: must be {block.words['wanted']}", block.words["wanted"], "failed" if fault else "passed")
            else:
                check(title, None, shell.paste(number, block))
    finally:
        shell.end()
        place.remove()


def begin_loopback():
    """Brings up the loopback of a network that is new."""
    with socket.socket() as it:
        request = bytearray(struct.pack("16sH14x", b"lo", 0))
        fcntl.ioctl(it, 0x8913, request)  # SIOCGIFFLAGS
        name, flags = struct.unpack_from("16sH", request)
        fcntl.ioctl(it, 0x8914, struct.pack("16sH14x", name, flags | 1))  # SIOCSIFFLAGS, IFF_UP


def is_taken(port):
    with socket.socket() as it:
        it.setsockopt(socket.SOL_SOCKET, socket.SO_REUSEADDR, 1)
        try:
            it.bind(("127.0.0.1", port))
        except OSError:
            return True
    return False


def main():
    own = ["unshare", "--net", "--map-root-user"]
    if "--own-network" in sys.argv:
        begin_loopback()
    elif shutil.which("unshare") and subprocess.run([*own, "true"], capture_output=True).returncode == 0:
        return subprocess.run([*own, sys.executable, *sys.argv, "--own-network"]).returncode
    if taken := [it for it in PORTS if is_taken(it)]:
        print(f"skipped: port {taken[0]} is taken, and there is no network of its own for this test")
        return 0
    begun = time.monotonic()
    paste_all("examples", EXAMPLES, installed=True)
    with open(os.path.join(TOP, "README.md"), encoding="utf-8") as it:
        text = it.read()
    check("README.md has blocks", True, len(blocks_of(text)) > 6)
    paste_all("README.md", text)
    print(f"{time.monotonic() - begun:.1f} s")
    return exit_status()


if __name__ == "__main__":
    sys.exit(main())
