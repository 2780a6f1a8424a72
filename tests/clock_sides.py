"""tools/clock.py and what is on both sides of it: a daemon whose lines a script gives, and what reads the time that is handed on, which are
sockets and segments of the script's own, gpsd's ntpshmmon, and chronyd.

The layouts are those of chrony 4 (struct sock_sample) and of the NTP shared memory driver (struct shmTime) on a 64-bit machine.
"""
import atexit
import ctypes
import errno
import importlib.util
import json
import os
import pwd
import shutil
import socket
import struct
import subprocess
import sys
import tempfile
import time

from harness import VERSION, WAIT, run, until

__all__ = ["BILLION", "CHRONYC", "CHRONYD", "CLOCK", "NTPSHMMON", "SHM", "SOCK", "Chrony", "Clock", "Lines", "Noted", "Reader", "Unit", "datagram", "has_units",
           "is_made", "monitored", "reading_of", "segment_words", "tool"]

CLOCK = os.path.join(os.path.dirname(os.path.dirname(os.path.abspath(__file__))), "tools", "clock.py")
sys.path.append(os.path.dirname(CLOCK))
CHRONYD = shutil.which("chronyd") or shutil.which("chronyd", path="/usr/sbin")
CHRONYC, NTPSHMMON = shutil.which("chronyc"), shutil.which("ntpshmmon")

BILLION = 1_000_000_000
# struct sock_sample of chrony 4 on a 64-bit machine: timeval, offset, pulse, leap, padding, magic
SOCK = struct.Struct("<qqdiiii")
# struct shmTime of the NTP shared memory driver on a 64-bit machine: mode, count, clock seconds and microseconds, receive seconds and
# microseconds, leap, precision, nsamples, valid, clock nanoseconds, receive nanoseconds, and eight words of nothing
SHM = struct.Struct("<iiqi4xqiiiiiII36x")
SHM_KEY = 0x4E545030
IPC_CREAT, IPC_RMID, CLONE_NEWIPC = 0o1000, 0, 0x08000000

libc = ctypes.CDLL(None, use_errno=True)
libc.shmget.argtypes = ctypes.c_int, ctypes.c_size_t, ctypes.c_int
libc.shmat.argtypes, libc.shmat.restype = (ctypes.c_int, ctypes.c_void_p, ctypes.c_int), ctypes.c_void_p
libc.shmctl.argtypes = ctypes.c_int, ctypes.c_int, ctypes.c_void_p


def tool():
    """tools/clock.py as a module."""
    spec = importlib.util.spec_from_file_location("the_tool", CLOCK)
    module = importlib.util.module_from_spec(spec)
    spec.loader.exec_module(module)
    return module


class Clock:
    """The tool, which follows the daemon at this port."""

    def __init__(self, port, *words):
        self.errors = tempfile.TemporaryFile()
        self.process = subprocess.Popen([sys.executable, CLOCK, f"127.0.0.1:{port}", *words], stdin=subprocess.DEVNULL, stderr=self.errors)
        atexit.register(self.process.kill)

    def said(self):
        return os.pread(self.errors.fileno(), 1 << 20, 0).decode()

    def says(self, text, times=1):
        """Waits until it says this: True, or what it said in its place."""
        until(lambda: self.said().count(text) >= times or self.process.poll() is not None)
        return self.said().count(text) >= times or self.said()

    def stop(self):
        """Its status and its last line after SIGTERM."""
        self.process.terminate()
        try:
            return self.process.wait(WAIT), self.said().splitlines()[-1]
        except subprocess.TimeoutExpired:
            self.process.kill()
            return "still running", self.said()


class Lines:
    """A daemon of this script's own: it says what the script says."""

    def __init__(self, *names):
        self.listener = socket.create_server(("127.0.0.1", 0))
        self.listener.settimeout(WAIT)
        self.port = self.listener.getsockname()[1]
        self.names, self.link = names, None

    def take(self):
        """Takes a connection, greets it, and answers both of its requests: the second one."""
        self.link, _ = self.listener.accept()
        self.link.settimeout(WAIT)
        self.requests = self.link.makefile("rb")
        self.link.sendall(VERSION)
        devices = {"class": "DEVICES", "devices": [{"class": "DEVICE", "path": name} for name in self.names]}
        first = self.requests.readline()
        self.send(devices)
        second = self.requests.readline()
        self.send(devices, {"class": "WATCH", "enable": True})
        return first, second

    def send(self, *reports):
        self.link.sendall(b"".join(json.dumps(report, separators=(",", ":")).encode() + b"\r\n" for report in reports))

    def fix(self, mode=3, device="gps0"):
        self.send({"class": "TPV", "device": device, "mode": mode})

    def time(self, kind, real, clock, device="gps0"):
        """A TOFF or a PPS; both times in nanoseconds."""
        report = {"class": kind, "device": device, "real_sec": real // BILLION, "real_nsec": real % BILLION,
                  "clock_sec": clock // BILLION, "clock_nsec": clock % BILLION}
        self.send(report | ({"precision": -20} if kind == "PPS" else {}))

    def hang_up(self):
        self.requests.close()
        self.link.close()

    def close(self):
        if self.link:
            self.hang_up()
        self.listener.close()


class Unit:
    """A segment of the shared memory driver: this script is its reader. It is made here, and removed."""

    def __init__(self, number, size=SHM.size):
        self.id = libc.shmget(SHM_KEY + number, size if not is_made(number) else 0, IPC_CREAT | 0o600)
        self.place = libc.shmat(self.id, None, 0)
        if self.id < 0 or self.place == ctypes.c_void_p(-1).value:
            raise OSError(ctypes.get_errno(), f"unit {number}")
        self.bytes = (ctypes.c_char * SHM.size).from_address(self.place)

    def words(self):
        return SHM.unpack(self.bytes.raw)

    def set(self, place, value):
        ctypes.c_int.from_address(self.place + place).value = value

    def is_valid(self):
        return self.words()[9] == 1

    def remove(self):
        libc.shmctl(self.id, IPC_RMID, None)


def is_made(number):
    """Whether the segment of a unit is there."""
    return libc.shmget(SHM_KEY + number, 0, 0) >= 0


def has_units():
    """Whether the segments of all four units are this script's own: in an IPC namespace of its own, or because nobody has one yet. If they
    are, none is left at its end."""
    own = libc.unshare(CLONE_NEWIPC) == 0
    own = own or all(libc.shmget(SHM_KEY + unit, 0, 0) < 0 and ctypes.get_errno() == errno.ENOENT for unit in range(4))
    if own:
        atexit.register(lambda: [Unit(unit).remove() for unit in range(4) if is_made(unit)])
    return own


class Reader:
    """What chronyd makes for its SOCK refclock: a datagram socket of that path."""

    def __init__(self, folder, name):
        self.path = os.path.join(folder, name)
        self.socket = socket.socket(socket.AF_UNIX, socket.SOCK_DGRAM)
        self.socket.bind(self.path)

    def next(self, seconds=WAIT / 2):
        """The next datagram, or None if none comes."""
        self.socket.settimeout(seconds)
        try:
            return self.socket.recv(4096)
        except (socket.timeout, BlockingIOError):
            return None

    def close(self):
        self.socket.close()
        os.unlink(self.path)


def datagram(real, clock):
    """What the SOCK refclock must be sent of these times: the stamp of the clock in whole microseconds, and how far the clock is slow. A
    pulse is no `pulse`, since its second is known."""
    return SOCK.pack(clock // BILLION, clock % BILLION // 1000, (real - clock) / 1e9, 0, 0, 0, 0x534F434B)


def segment_words(real, clock, precision, count):
    """What a segment must hold after the sample of these times."""
    return (1, count, real // BILLION, real % BILLION // 1000, clock // BILLION, clock % BILLION // 1000, 0, precision, 3, 1, real % BILLION, clock % BILLION)


class Noted:
    """A segment that notes the stores into it."""

    def __init__(self):
        super().__setattr__("stores", [])
        super().__setattr__("count", 4)

    def __setattr__(self, name, value):
        self.stores.append((name, value))
        super().__setattr__(name, value)


def reading_of(segment):
    """A reading in mode 1: the body, if the counts around it are equal and `valid` was 1. Else None."""
    before = segment.count
    if not segment.valid:
        return None
    body = (segment.clockTimeStampSec, segment.clockTimeStampUSec, segment.receiveTimeStampSec, segment.receiveTimeStampUSec,
            segment.clockTimeStampNSec, segment.receiveTimeStampNSec)
    return body if segment.count == before else None


def nanoseconds(text):
    seconds, _, rest = text.partition(".")
    return int(seconds) * BILLION + int(rest.ljust(9, "0"))


def monitored(count):
    """What ntpshmmon reads, this many samples of all units: of each unit how far the clock is slow in nanoseconds, the leap word and the
    precision of each sample. It looks for segments once, so they must be there. Its lines are `sample NAME SEEN CLOCK REAL LEAP PRECISION`."""
    _, out, _ = run(NTPSHMMON, "-n", str(count), "-t", str(WAIT))
    found = {}
    for line in out.decode().splitlines():
        if line.startswith("sample"):
            _, name, _, clock, real, leap, precision = line.split()
            found.setdefault(name, []).append((nanoseconds(real) - nanoseconds(clock), leap, precision))
    return found


class Chrony:
    """A chronyd in a folder of its own, which does not touch the clock and serves nobody. Its sources are the pulses and the serial times
    of two sockets, SOCP and SOCS, and with `segments` those of the units 1 and 0, SHMP and SHMS. The `offset` of serial times is `late`."""

    def __init__(self, folder, late, segments):
        self.folder = folder
        self.program = shutil.copy(CHRONYD, os.path.join(folder, "chronyd"))  # a copy, as Debian's AppArmor confines the installed file
        lines = ["port 0", "cmdport 0", f"bindcmdaddress {folder}/chronyd.sock", f"pidfile {folder}/chronyd.pid", f"logdir {folder}", "log refclocks",
                 f"refclock SOCK {folder}/pulse.sock refid SOCP poll 0 filter 1",
                 f"refclock SOCK {folder}/serial.sock refid SOCS poll 0 filter 1 offset {late} noselect"]
        if segments:
            lines += [f"refclock SHM 0 refid SHMS poll 0 offset {late} noselect", "refclock SHM 1 refid SHMP poll 0 pps lock SHMS"]
        with open(os.path.join(folder, "chrony.conf"), "w") as out:
            out.write("\n".join(lines) + "\n")
        self.names = ["SOCP", "SOCS"] + (["SHMP", "SHMS"] if segments else [])
        self.start()

    def start(self):
        user = ["-U", "-u", pwd.getpwuid(os.geteuid()).pw_name]  # -U: it need not be root
        with open(os.path.join(self.folder, "said"), "a") as errors:
            self.process = subprocess.Popen([self.program, "-x", "-d", *user, "-f", os.path.join(self.folder, "chrony.conf")],
                                            stdin=subprocess.DEVNULL, stderr=errors)
        atexit.register(self.process.kill)
        until(lambda: os.path.exists(os.path.join(self.folder, "chronyd.sock")) or self.process.poll() is not None)

    def said(self):
        with open(os.path.join(self.folder, "said")) as it:
            return it.read()

    def states(self):
        """Of each source the state: * is selected, + agrees with it, ? is not selected."""
        out = subprocess.run([CHRONYC, "-h", os.path.join(self.folder, "chronyd.sock"), "-c", "sources"], capture_output=True, text=True, timeout=WAIT).stdout
        return {row.split(",")[2]: row.split(",")[1] for row in out.splitlines() if row.count(",") > 3}

    def is_selected(self, *names):
        return any(self.states().get(name) == "*" for name in names)

    def offsets(self, name, after=0, column=6):
        """The raw offsets of the samples of a source after this Unix time: how far the clock is slow, in seconds. In column 7 those to
        which chronyd has added the `offset` of the source, and what it would have done to the clock."""
        try:
            with open(os.path.join(self.folder, "refclocks.log")) as it:
                rows = [row.split() for row in it if row.startswith("2")]
        except FileNotFoundError:
            return []
        return [float(row[column]) for row in rows if row[2] == name and row[6] != "-" and row[0] + "T" + row[1] > time.strftime("%FT%T", time.gmtime(after))]

    def stop(self):
        self.process.terminate()
        self.process.wait(WAIT)
