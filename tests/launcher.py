#!/usr/bin/env python3
"""The launcher of examples/: signals become an orderly stop, and the daemon's status is handed on. What the unit beside it runs, as systemd
does. And the udev rule, which sets a terminal raw before it makes its link.

Use: launcher.py PROGRAM. Prints a line for each check, and ends with 1 if one fails. It takes some ten seconds.
"""
import os
import pty
import re
import select
import shlex
import shutil
import signal
import subprocess
import sys
import tempfile
import termios
import time

from harness import VERSION, WAIT, Client, check, free_port, run, run_parts, slowness, until, within

PROGRAM = os.path.abspath(sys.argv[1])
TOP = os.path.dirname(os.path.dirname(os.path.abspath(__file__)))
LAUNCHER = os.path.join(TOP, "examples", "launcher.sh")
RULES = os.path.join(TOP, "examples", "60-gpsrelay.rules")
UNIT = os.path.join(TOP, "examples", "gpsrelay.service")
SHELLS = [it for it in (["dash"], ["bash", "--posix"], ["busybox", "sh"]) if shutil.which(it[0])]

# A program that says which words it got and which descriptors it has. It reads a byte of the FIFO (or its end) after `open` seconds, and
# then ends with its status after `end` seconds.
STAND_IN = """import os, sys, time
status, open_after, end_after = int(sys.argv[1]), float(sys.argv[2]), float(sys.argv[3])
print("words", *sys.argv[4:-1], "files", *sorted(it for it in os.listdir("/proc/self/fd") if int(it) < 10)[:4], flush=True)
time.sleep(open_after)
if sys.argv[4] == "reads":
    print("read", sys.stdin.read(), flush=True)
if sys.argv[4] != "ends":
    with open(sys.argv[-1], "rb") as it:
        print("opened", flush=True)
        print("told", it.read(1), flush=True)
time.sleep(end_after)
if sys.argv[4] == "killed":
    os.kill(os.getpid(), 9)
print("done", flush=True)
sys.exit(status)
"""


class Launched:
    """A program under the launcher, in a folder of its own."""

    def __init__(self, shell, *words, given=None):
        self.folder = tempfile.mkdtemp(prefix="launcher")
        self.said = b""
        self.process = subprocess.Popen([*shell, LAUNCHER, *words], stdin=subprocess.PIPE if given else subprocess.DEVNULL, stdout=subprocess.PIPE,
                                        stderr=subprocess.STDOUT, env={**os.environ, "TMPDIR": self.folder}, start_new_session=True)
        if given:
            self.process.stdin.write(given)
            self.process.stdin.close()

    def says(self, text):
        """Waits until it has written this; whether it has."""
        end = time.monotonic() + WAIT
        out = self.process.stdout.fileno()
        while text not in self.said and time.monotonic() < end:
            if select.select([out], [], [], 0.1)[0]:
                data = os.read(out, 65536)
                if not data:
                    break
                self.said += data
        return text in self.said

    def end(self):
        """Its status, all that it wrote, and what is left in its folder. Whatever still runs is killed."""
        try:
            self.process.wait(WAIT)
        except subprocess.TimeoutExpired:
            pass
        done = self.says(b"done")
        try:
            os.killpg(self.process.pid, signal.SIGKILL)
        except ProcessLookupError:
            pass
        status = self.process.wait()
        self.process.stdout.close()
        left = os.listdir(self.folder)
        shutil.rmtree(self.folder)
        return status, done, left


def stand_in(shell, status, open_after, end_after, *words, given=None):
    return Launched(shell, sys.executable, "-IS", "-c", STAND_IN, str(status), str(open_after), str(end_after), *words, given=given)


def signals():
    for shell in SHELLS:
        name = " ".join(shell)
        for number in signal.SIGTERM, signal.SIGINT, signal.SIGHUP:
            it = stand_in(shell, 3, 0, 0.1, "a b", "*")
            check(f"{name}: the words come as they are, then `--stop`, and no descriptor besides", True, it.says(b"words a b * --stop files 0 1 2 3\n"))
            it.process.send_signal(number)
            check(f"{name}: {number.name} stops it, and its status is handed on", (3, True, []), it.end())
            check(f"{name}: {number.name} is a byte in the FIFO", True, b"told b'\\n'" in it.said)


def other_ends():
    shell = SHELLS[0]
    for shell in SHELLS:
        name = " ".join(shell)
        it = stand_in(shell, 0, 0.5, 0.5, "late")
        it.says(b"words")
        for number in signal.SIGTERM, signal.SIGTERM, signal.SIGINT:
            it.process.send_signal(number)
            time.sleep(0.05)
        it.says(b"told")
        it.process.send_signal(signal.SIGTERM)
        check(f"{name}: signals before it reads the FIFO, and while it ends", (0, True, []), it.end())
        check(f"{name}: it ends by itself, and its status is handed on", (8, True, []), stand_in(shell, 8, 0, 0, "ends").end())
        check(f"{name}: it is killed, and a shell's status of that is handed on", (137, False, []), killed(shell))
        check(f"{name}: there is no such program", (127, False, []), Launched(shell, "no-such-program").end())
        it = stand_in(shell, 0, 0, 0, "reads", given=b"what comes")
        it.says(b"read")
        it.process.send_signal(signal.SIGTERM)
        check(f"{name}: standard input is the program's", ((0, True, []), True), (it.end(), b"read what comes" in it.said))
        it = stand_in(shell, 5, 0, 0.2, "group")
        it.says(b"opened")
        os.killpg(it.process.pid, signal.SIGTERM)
        check(f"{name}: TERM to its whole process group is a byte in the FIFO too", ((5, True, []), True), (it.end(), b"told b'\\n'" in it.said))
        it = stand_in(shell, 0, 0, 0.2, "alone")
        it.says(b"opened")
        it.process.kill()
        it.process.wait(WAIT)
        check(f"{name}: the launcher is killed, and the program still stops in order", True, it.says(b"told b''") and it.says(b"done"))
        check(f"{name}: no folder is left then", True, until(lambda: not os.listdir(it.folder)))
        it.end()


def killed(shell):
    it = stand_in(shell, 0, 0, 0, "killed")
    it.says(b"words")
    it.process.send_signal(signal.SIGTERM)
    return it.end()


def has_stop():
    if b"--stop" in run(PROGRAM, "help")[1]:
        return True
    print("skipped: this program has no --stop")
    return False


def daemon():
    """The built program: a client is sent what it is due, and the closing lines are written."""
    if not has_stop():
        return
    port = free_port()
    with tempfile.TemporaryDirectory() as folder:
        device = os.path.join(folder, "device")
        os.mkfifo(device)
        it = Launched(SHELLS[0], PROGRAM, "serve", "--listen", f"127.0.0.1:{port}", f"gps0=file:{device}")
        check("the daemon listens under the launcher", True, it.says(b"listening at"))
        client = Client(port)
        check("it greets a client", VERSION, client.line())
        begun = time.monotonic()
        it.process.send_signal(signal.SIGTERM)
        check("the client's stream ends", b"", client.rest())
        client.close()  # the daemon waits for that, ten seconds at most
        check("the daemon stops in order: its closing line", True, it.says(b"s0 drained "))
        status, _, left = it.end()
        check("its status, and nothing is left", (0, []), (status, left))
        took = time.monotonic() - begun
        within("within two seconds, and what a busy machine adds", took < 8 * slowness(), took)


def unit():
    """The commands of the unit, in order, with the built program and a folder of the test's own."""
    if not has_stop():
        return
    port = free_port()
    with tempfile.TemporaryDirectory() as folder:
        os.makedirs(f"{folder}/bin")
        os.makedirs(f"{folder}/run")
        os.mkfifo(f"{folder}/device")
        os.symlink(PROGRAM, f"{folder}/bin/gpsrelay")
        with open(UNIT, encoding="utf-8") as it:
            rows = it.read().replace("@PREFIX@", folder).replace("/run/gpsrelay/", f"{folder}/run/").splitlines()
        settings = {"TERMINALS": f"{folder}/no-such-terminal", "SPEED": "9600", "LISTEN": f"127.0.0.1:{port}", "OPTIONS": "--history 1000000 --queue 64",
                    "DEVICES": f"gps0=file:{folder}/device gps1=file:{folder}/not-there-yet"}
        environment = {**os.environ, **settings}

        def commands(key):
            """The words of each command: `$NAME` alone is cut at blanks, and `${NAME}` is one word."""
            for row in (row.removeprefix(f"{key}=") for row in rows if row.startswith(f"{key}=")):
                words = []
                for word in shlex.split(row.removeprefix("-")):
                    alone = re.fullmatch(r"\$(\w+)", word)
                    words += settings[alone[1]].split() if alone else [re.sub(r"\$\{(\w+)\}", lambda it: settings[it[1]], word).replace("$$", "$")]
                yield words, row.startswith("-")

        done = [may_fail or subprocess.run(words, env=environment, stderr=subprocess.DEVNULL).returncode == 0 for words, may_fail in commands("ExecStartPre")]
        check("unit: what comes before the start", [True, True], done)
        [(start, _)] = commands("ExecStart")
        [(stop, _)] = commands("ExecStop")
        process = subprocess.Popen(start, stdin=subprocess.DEVNULL, stdout=subprocess.PIPE, stderr=subprocess.PIPE, env=environment)
        said = b""
        while b"listening at" not in said and (line := process.stderr.readline()):
            said += line
        check("unit: the daemon listens, though a receiver is not there", True, b"listening at" in said or said)
        client = Client(port)
        check("unit: it greets a client", VERSION, client.line())
        stopping = subprocess.Popen(stop, env={**environment, "MAINPID": str(process.pid)})
        check("unit: the client's stream ends", b"", client.rest())
        client.close()
        out, _ = process.communicate(timeout=WAIT)
        check("unit: the daemon stops in order, with its closing line", (0, True), (process.returncode, out.startswith(b"s0 drained ")))
        check("unit: the stop waited for it", 0, stopping.wait(WAIT))


def commands_of(action):
    """What the rules run for this action: the words of each command, with udev's marks still in them."""
    with open(RULES, encoding="utf-8") as it:
        text = it.read().replace("\\\n", "")
    rules = [row for row in text.splitlines() if row and not row.startswith("#")]
    chosen = [row for row in rules if f'ACTION=="{action}"' in row]
    for row in chosen:
        rest = re.sub(r'\s*[A-Z]+(\{\w+\})?(==|!=|\+=|=)"[^"]*"\s*(,|$)', "", row)
        check(f"a rule for `{action}` is a list of matches and assignments", "", rest)
        yield from (shlex.split(it) for it in re.findall(r'RUN\+="([^"]*)"', row))


def ran(action, kernel, link):
    """Runs what the rules run for a terminal of this name in /dev, with a link of the test's own."""
    statuses = []
    for words in commands_of(action):
        words = [it.replace("%k", kernel).replace("$$", "$").replace("/run/gps0", link) for it in words]
        statuses.append(subprocess.run(words, env={}, stderr=subprocess.DEVNULL).returncode)
    return statuses


def rules():
    leader, follower = pty.openpty()
    kernel = os.ttyname(follower).removeprefix("/dev/")
    with tempfile.TemporaryDirectory() as folder:
        link = os.path.join(folder, "gps0")
        check("a terminal is cooked at first", True, bool(termios.tcgetattr(follower)[3] & termios.ICANON))
        check("the rule runs", [0], ran("add", kernel, link))
        flags = termios.tcgetattr(follower)
        check("then it is raw, and echoes nothing", 0, flags[3] & (termios.ICANON | termios.ECHO | termios.ISIG))
        check("no byte that comes is changed", 0, flags[0] & (termios.ICRNL | termios.INLCR | termios.IGNCR | termios.IXON | termios.ISTRIP))
        check("and the link names it", f"/dev/{kernel}", os.readlink(link))
        check("another terminal is unplugged", [0], ran("remove", "ttyACM9", link))
        check("the link stays", True, os.path.islink(link))
        check("the terminal is unplugged", [0], ran("remove", kernel, link))
        check("the link goes", False, os.path.lexists(link))
        check("it is unplugged once more", [0], ran("remove", kernel, link))
        check("a terminal that cannot be set raw", True, ran("add", "no-such-terminal", link) != [0])
        check("gets no link", False, os.path.lexists(link))
    os.close(leader)
    os.close(follower)


sys.exit(run_parts(signals, other_ends, daemon, unit, rules))
