#!/usr/bin/env python3
"""The units of examples/, and the unit and the statuses in docs/RECIPES.md: what systemd says of them, their shell commands, and the notice
that tells systemd that the daemon listens. What needs a systemd that runs is in tests/by_hand/systemd.sh.

Use: units.py PROGRAM. Prints a line for each check, and ends with 1 if one fails. Without systemd-analyze it says what is skipped.
"""
import glob
import os
import re
import shutil
import socket
import subprocess
import sys
import tempfile
import threading

from harness import *

PROGRAM = os.path.abspath(sys.argv[1])
TOP = os.path.dirname(os.path.dirname(os.path.abspath(__file__)))
READY = b"READY=1\n"
LONGEST = 10 * WAIT  # for a command of systemd or of a unit


def text_of(name):
    with open(os.path.join(TOP, name), encoding="utf-8") as it:
        return it.read()


class Unit:
    """A unit as text: the values of each key, in order."""

    def __init__(self, text):
        self.text = text
        self.rows = [row.split("=", 1) for row in text.splitlines() if re.match(r"\w+=", row)]

    def all(self, key):
        return [value for name, value in self.rows if name == key]

    def words(self, key):
        return set(" ".join(self.all(key)).split())

    def shell(self, key, part):
        """The shell command of this key that has this part, as the shell gets it from systemd."""
        [command] = [value for value in self.all(key) if part in value]
        return re.fullmatch(r"-?/bin/sh -c '(.*)'", command)[1].replace("$$", "$")


def recipe_unit(name):
    """The unit of docs/RECIPES.md whose first line names this file."""
    found = re.search(rf"^    # /etc/systemd/system/{re.escape(name)}\n((?:    .*\n|\n(?=    ))+)", text_of("docs/RECIPES.md"), re.M)
    return re.sub(r"^    ", "", found[1], flags=re.M)


DAEMON = Unit(text_of("examples/gpsrelay.service"))
ALL = {os.path.basename(it): Unit(text_of(it)) for it in glob.glob(os.path.join(TOP, "examples", "*.service"))}


def verified():
    """systemd reads all units as they are installed, and has nothing to say."""
    if not shutil.which("systemd-analyze"):
        return print("skipped: systemd-analyze is not installed: what systemd says of the units")
    with tempfile.TemporaryDirectory() as folder:
        prefix = os.path.join(folder, "usr")
        subprocess.run([f"{TOP}/tools/install.sh", "--prefix", prefix], env={**os.environ, "PROGRAM": PROGRAM}, check=True, capture_output=True)
        units = glob.glob(f"{prefix}/lib/systemd/system/*.service")
        units.append(os.path.join(folder, "gps0-edges.service"))
        with open(units[-1], "w") as it:
            it.write(recipe_unit("gps0-edges.service"))
        check("all units are looked at", sorted([*ALL, "gps0-edges.service"]), sorted(map(os.path.basename, units)))
        done = subprocess.run(["systemd-analyze", "verify", "--man=no", *units], capture_output=True, text=True, timeout=LONGEST)
        named = [row for row in done.stderr.splitlines() if any(os.path.basename(it) in row for it in units)]
        check("systemd has nothing to say of the units", [], named)
        wrong = os.path.join(folder, "wrong.service")
        with open(wrong, "w") as it:
            it.write("[Service]\nExecStart=/bin/true\nRestartt=always\n")
        done = subprocess.run(["systemd-analyze", "verify", "--man=no", wrong], capture_output=True, text=True, timeout=LONGEST)
        check("it would name a key that is wrong", True, "Restartt" in done.stderr)


def keys():
    """What the units say of starting, of gpsd, of the network and of rights."""
    for name, unit in sorted(ALL.items()):
        check(f"{name}: it waits for no network", False, "network-online" in unit.text)
        check(f"{name}: it neither stops gpsd nor is stopped by it", [], unit.all("Conflicts"))
        check(f"{name}: a wrong word is not tried again", ["2"], unit.all("RestartPreventExitStatus"))
        check(f"{name}: it may ask avahi for a name", True, "AF_UNIX" in unit.words("RestrictAddressFamilies"))
    check("it has started when it says so", ["notify"], DAEMON.all("Type"))
    check("without its file it is skipped", ["/etc/gpsrelay.env"], DAEMON.all("ConditionPathExists"))
    check("each kind of terminal that it may open", {f"char-{it}" for it in ("ttyACM", "ttyUSB", "ttyS", "ttyAMA", "rfcomm")} | {"rw"}, DAEMON.words("DeviceAllow"))
    most = int(DAEMON.all("LogRateLimitBurst")[0])
    check("the journal takes the closing lines of 100,000 sessions at once", True, most > 100_000)
    check("what keeps hosts out is said to keep out name servers too", True,
          bool(re.search(r"(#.*\n)*#.*name server(.*\n)(#.*\n)*#IPAddressDeny=any", DAEMON.text)))


def listening():
    """The notice comes when a client is served, and not before; without it the daemon serves too."""
    with tempfile.TemporaryDirectory() as folder:
        for name in (os.path.join(folder, "notify"), f"@gpsrelay-{os.getpid()}"):
            kind = "abstract" if name.startswith("@") else "file"
            with socket.socket(socket.AF_UNIX, socket.SOCK_DGRAM) as manager:
                manager.bind(name.replace("@", "\0", 1) if kind == "abstract" else name)
                manager.settimeout(WAIT)
                daemon = Daemon(PROGRAM, "--reopen", "1", f"gps0=file:{folder}/none", environment={"NOTIFY_SOCKET": name})
                check(f"a socket of kind {kind}: the notice", READY, manager.recv(100))
                client = Client(daemon.port)
                check(f"a socket of kind {kind}: then a client is served at once", VERSION, client.line())
                client.close()
                taken = Daemon(PROGRAM, "--reopen", "1", f"gps0=file:{folder}/none", port=daemon.port, environment={"NOTIFY_SOCKET": name})
                check(f"a socket of kind {kind}: a port that is taken", 8, taken.wait()[0])
                manager.setblocking(False)
                try:
                    found = manager.recv(100)
                except BlockingIOError:
                    found = None
                check(f"a socket of kind {kind}: no notice of it", None, found)
                daemon.stop()
        for what, name in {"no such socket": f"{folder}/none", "a relative path": "notify", "a path too long": "/" + 200 * "x", "no path": ""}.items():
            daemon = Daemon(PROGRAM, "--reopen", "1", f"gps0=file:{folder}/none", environment={"NOTIFY_SOCKET": name})
            check(f"{what}: it serves", VERSION, daemon.client().line())
            daemon.stop()


def commands():
    """The shell commands of the unit: how it ends, and when it is not to be started again."""
    after, before = DAEMON.shell("ExecStopPost", "played"), DAEMON.shell("ExecCondition", "played")
    with tempfile.TemporaryDirectory() as folder:
        log, fifo, run = (os.path.join(folder, it) for it in ("log", "fifo", "run"))
        with open(log, "w"):
            pass
        os.mkfifo(fifo)

        def shell(command, **given):
            return subprocess.run(["sh", "-c", command.replace("/run/gpsrelay", run)], env={**os.environ, **given}, capture_output=True, text=True, timeout=LONGEST)

        rows = [
            ("a log was read", "0", f"a=file:{log}", True, 1),
            ("two logs were read, one with edges", "0", f"a=file:{log} a=edges:{log} b=file:{log}", True, 1),
            ("a FIFO beside a log", "0", f"a=file:{log} b=file:{fifo}", True, 0),
            ("a host", "0", "a=tcp:127.0.0.1:5000", True, 0),
            ("a receiver that is away", "0", f"a=file:{folder}/none", True, 0),
            ("a log, but it failed", "3", f"a=file:{log}", True, 0),
            ("a log, but it was killed", "KILL", f"a=file:{log}", True, 0),
            ("a log, but it was told to stop", "0", f"a=file:{log}", False, 0),
        ]
        for name, status, devices, has_fifo, wanted in rows:
            shutil.rmtree(run, ignore_errors=True)
            os.mkdir(run)
            if has_fifo:
                os.mkfifo(f"{run}/stop")
            check(f"{name}: after the end", 0, shell(after, EXIT_STATUS=status, DEVICES=devices).returncode)
            done = shell(before)
            check(f"{name}: whether it is started again", wanted, done.returncode)
            check(f"{name}: whether that is said", bool(wanted), "not started again" in done.stdout)
        shutil.rmtree(run)
        os.mkdir(run)
        os.mkfifo(f"{run}/stop")
        reader = subprocess.Popen(["sh", "-c", f"read -r word <{run}/stop; sleep 0.5"])
        threading.Thread(target=reader.wait).start()
        check("a stop: it goes well", 0, shell(DAEMON.shell("ExecStop", "MAINPID"), MAINPID=str(reader.pid)).returncode)
        check("a stop: the end was waited for", False, os.path.exists(f"/proc/{reader.pid}"))
        check("a stop: it leaves word that it was told", False, os.path.exists(f"{run}/stop"))


def statuses():
    """The table of docs/RECIPES.md has the names that systemd prints of statuses."""
    rows = re.findall(r"^\| (\d) \| `(\d)/(\S+)` \|", text_of("docs/RECIPES.md"), re.M)
    check("the statuses of the daemon", {"0", "2", "3", "4", "7", "8"}, {row[0] for row in rows})
    check("each is named by its number", [row[0] for row in rows], [row[1] for row in rows])
    if not shutil.which("systemd-analyze"):
        return print("skipped: systemd-analyze is not installed: the names of statuses")
    said = subprocess.run(["systemd-analyze", "exit-status"], capture_output=True, text=True, timeout=LONGEST).stdout
    names = {number: name for name, number in re.findall(r"^(\w+)\s+(\d+)\s", said, re.M)}
    check("each has systemd's name", [names.get(row[0], "n/a") for row in rows], [row[2] for row in rows])


sys.exit(run_parts(verified, keys, listening, commands, statuses))
