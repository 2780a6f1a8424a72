#!/usr/bin/env python3
"""Hands the time of a receiver from the daemon to chrony and ntpd.

    clock.py [HOST:PORT] [--device NAME] [--sock-pulse PATH] [--sock-serial PATH] [--shm-pulse UNIT] [--shm-serial UNIT]

It is a client of the daemon (127.0.0.1:2947 unless told otherwise). TOFF lines are the serial time, PPS lines the pulses. Each line
is handed on at once: to a socket of chrony's SOCK refclock, or to a segment of the NTP shared memory driver, which ntpd and
chrony's SHM refclock read. The daemon must run on this machine, as the stamps in its lines are those of its machine's clock.
Time is handed on only while the receiver has a fix. A sample that is more than two seconds old is dropped. If the receiver's time
leaps by more than a second, its samples are dropped until ten have agreed on the new time. A daemon that is gone is tried again, at
least every 8 seconds. Standard error says what happens, and nothing of a single sample. SIGTERM and Ctrl-C end it.
"""
import argparse
import ctypes
import errno
import json
import os
import platform
import re
import signal
import socket
import struct
import sys
import time

sys.dont_write_bytecode = True  # nothing is left in the folder of the installed program

import command  # noqa: E402
from clock_barrier import NoBarrier, barrier_of  # noqa: E402
from clock_samples import AGREEING, BILLION, REPEAT, Leaps, Sample  # noqa: E402
from command import address_of, address_words, say  # noqa: E402

LONGEST_LINE = 1_048_576  # bytes; a longer one is passed over
OLDEST = 2_000_000_000  # nanoseconds that a sample may lie before now, or after it
FIRST_PAUSE, LONGEST_PAUSE = 0.25, 8.0  # seconds before a daemon that is gone is tried again
SILENCE = 60.0  # seconds without a sample before that is said
NAME_FORM = re.compile(r'[!#-<>-\[\]-~]{1,64}')  # printable ASCII without space, ", = and backslash
CLASSES = {"TOFF": "serial time", "PPS": "pulse"}


class Failed(Exception):
    """A reason to end. `status` is the exit status."""

    def __init__(self, text, status=1):
        super().__init__(text)
        self.status = status


class Ended(Exception):
    """SIGTERM or Ctrl-C."""


# chrony's SOCK refclock

SOCK_FORM = struct.Struct("@qqdiiii")  # struct sock_sample of chrony 4: timeval, offset, pulse, leap, padding, magic
SOCK_MAGIC = 0x534F434B
HINTS = {errno.ENOENT: "; chronyd makes it when it starts", errno.ECONNREFUSED: "; chronyd has ended", errno.EACCES: "; run as root",
         errno.EAGAIN: "; chronyd does not read it"}


def sock_sample(sample):
    """The datagram of a sample. `pulse` is 0 for pulses too: it would say that the second is unknown, and a PPS line names its second.
    (With `pulse` 1, chrony 4.3 takes the offset with its sign turned.)"""
    seconds, nanoseconds = divmod(sample.clock, BILLION)
    return SOCK_FORM.pack(seconds, nanoseconds // 1000, sample.offset(), 0, 0, 0, SOCK_MAGIC)


class Sock:
    """A socket that chronyd makes. If it is not there, or takes nothing, the sample is lost; the next one is tried again."""

    def __init__(self, path):
        self.name = path
        self.socket = socket.socket(socket.AF_UNIX, socket.SOCK_DGRAM)
        self.fault = None

    def open(self):
        """Nothing is to be opened: each datagram looks for the path anew, as chronyd may have made it anew."""

    def put(self, sample):
        try:
            self.socket.sendto(sock_sample(sample), socket.MSG_DONTWAIT, self.name)
            fault = None
        except OSError as error:
            fault = error.strerror + HINTS.get(error.errno, "")
        if fault != self.fault:
            say(f"{self.name} takes samples" if fault is None else f"{self.name} takes no sample: {fault}")
            self.fault = fault

    def close(self):
        self.socket.close()


# The NTP shared memory driver, refclock type 28

class Segment(ctypes.Structure):
    """struct shmTime, as a C compiler lays it out on a 64-bit machine: 96 bytes."""
    _fields_ = [("mode", ctypes.c_int), ("count", ctypes.c_int),
                ("clockTimeStampSec", ctypes.c_int64), ("clockTimeStampUSec", ctypes.c_int),
                ("receiveTimeStampSec", ctypes.c_int64), ("receiveTimeStampUSec", ctypes.c_int),
                ("leap", ctypes.c_int), ("precision", ctypes.c_int), ("nsamples", ctypes.c_int), ("valid", ctypes.c_int),
                ("clockTimeStampNSec", ctypes.c_uint), ("receiveTimeStampNSec", ctypes.c_uint), ("dummy", ctypes.c_int * 8)]


def store(segment, sample, barrier):
    """The thirteen stores of a sample, in the order of mode 1: valid 0, an odd count, the body, an even count, valid 1. A reader that
    finds two equal counts around its reading, and valid 1, has a whole sample. The stamp of the clock is the `receive` one. Between
    the body's own stores no order is needed."""
    real_sec, real_nsec = divmod(sample.real, BILLION)
    clock_sec, clock_nsec = divmod(sample.clock, BILLION)
    before = segment.count + segment.count % 2  # a writer that was killed may have left an odd one
    segment.valid = 0
    barrier()
    segment.count = before + 1
    barrier()
    segment.clockTimeStampSec = real_sec
    segment.clockTimeStampUSec = real_nsec // 1000
    segment.receiveTimeStampSec = clock_sec
    segment.receiveTimeStampUSec = clock_nsec // 1000
    segment.leap = 0
    segment.precision = sample.precision
    segment.nsamples = 3
    segment.clockTimeStampNSec = real_nsec
    segment.receiveTimeStampNSec = clock_nsec
    barrier()
    segment.count = before + 2
    barrier()
    segment.valid = 1


SHM_KEY = 0x4E545030  # "NTP0"; that of unit N is N more
IPC_CREAT = 0o1000


class SharedMemory:
    """A unit of the shared memory driver. Units 0 and 1 are for root alone, units 2 and 3 for everybody, as with ntpd and gpsd."""

    def __init__(self, unit):
        self.name = f"unit {unit}"
        self.key = SHM_KEY + unit
        self.rights = 0o600 if unit < 2 else 0o666
        self.id = self.segment = self.place = self.barrier = None
        self.libc = ctypes.CDLL(None, use_errno=True)
        self.libc.shmget.argtypes = ctypes.c_int, ctypes.c_size_t, ctypes.c_int
        self.libc.shmat.argtypes = ctypes.c_int, ctypes.c_void_p, ctypes.c_int
        self.libc.shmat.restype = ctypes.c_void_p
        self.libc.shmdt.argtypes = ctypes.c_void_p,

    def open(self):
        """Attaches the segment, which is made if it is not there yet."""
        self.barrier = barrier_of(platform.machine())
        self.id = self.libc.shmget(self.key, ctypes.sizeof(Segment), IPC_CREAT | self.rights)
        if self.id < 0:
            raise self.failure()
        self.place = self.libc.shmat(self.id, None, 0)
        if self.place in (None, ctypes.c_void_p(-1).value):
            raise self.failure()
        self.segment = Segment.from_address(self.place)
        self.segment.mode = 1

    def failure(self):
        """Why the last call did not succeed."""
        why = {errno.EACCES: "this user may not write to its segment; `ipcs -m` shows whose it is",
               errno.EINVAL: "its segment is too small; another program made it"}
        return Failed(f"{self.name} of the shared memory: {why.get(ctypes.get_errno()) or os.strerror(ctypes.get_errno())}")

    def put(self, sample):
        if self.libc.shmget(self.key, 0, 0) != self.id:  # it was removed, and perhaps made anew
            self.close()
            self.open()
        store(self.segment, sample, self.barrier)

    def close(self):
        """No reader that comes later finds an old sample."""
        if self.segment is not None:
            self.segment.valid = 0
            self.segment = None
            self.libc.shmdt(self.place)


# What the daemon says

class Feed:
    """Takes the lines of one connection: finds the device, and hands its samples to their readers."""

    def __init__(self, targets, device, without_fix, leaps=None):
        self.targets, self.wanted, self.without_fix = targets, device, without_fix
        self.leaps = leaps or {kind: Leaps() for kind in CLASSES}
        self.device = None
        self.has_fix = None  # None until the device has sent a TPV
        self.first = set(CLASSES)  # the classes of which no sample was handed on yet
        self.last = {kind: time.monotonic() for kind in CLASSES if targets[kind]}  # when its last sample was handed on, or when this began
        self.silent = set()  # the classes of which it was said that none comes
        self.dropped, self.dropped_said = 0, None
        self.is_strange = False  # whether it was said that what answers is no daemon

    def take(self, line):
        """One line. What is no report changes nothing. What is to be sent to the daemon, or None."""
        try:
            report = json.loads(line)
        except (ValueError, RecursionError):
            report = None
        if not isinstance(report, dict):
            if self.device is None and not self.is_strange:
                say("what answers there is no daemon: it sends lines that are no JSON objects")
                self.is_strange = True
            return None
        kind = report.get("class")
        if kind == "DEVICES" and self.device is None:
            return self.choose(report.get("devices"))
        if kind == "DEVICE" and report.get("path") == self.device and "activated" not in report:
            say(f"{self.device} has ended")
            self.has_fix = None
        elif kind == "ERROR":
            say(f"the daemon says: {report.get('message')}")
        elif self.device is not None and report.get("device") == self.device:
            self.take_report(kind, report)
        return None

    def choose(self, listed):
        """The device to watch: the one that was asked for, or the first that the daemon has."""
        names = [one.get("path") for one in listed if isinstance(one, dict)] if isinstance(listed, list) else []
        names = [name for name in names if isinstance(name, str) and NAME_FORM.fullmatch(name)]
        if (self.wanted or next(iter(names), None)) not in names:
            say(f"the daemon has no device {self.wanted or 'at all'}" + (f"; it has {', '.join(names)}" if names else "")
                + "; nothing is handed on until it is started anew")
            self.device = self.wanted or ""
        else:
            self.device = self.wanted or names[0]
            others = [name for name in names if name != self.device]
            say(f"device {self.device}" + (f"; the daemon has {', '.join(others)} too, see --device" if others and not self.wanted else ""))
        return f'?WATCH={{"enable":true,"json":true,"pps":true,"device":"{self.device}"}};\n'.encode()

    def take_report(self, kind, report):
        if kind == "TPV":
            has_fix = report.get("mode") in (2, 3)
            if has_fix != self.has_fix and not self.without_fix:
                say(f"{self.device} has a fix" if has_fix else f"{self.device} has no fix: its time is not handed on")
            self.has_fix = has_fix
        elif kind in ("TOFF", "PPS") and self.targets[kind] and (self.has_fix or self.without_fix):
            try:
                self.hand_on(kind, Sample(report))
            except ValueError as fault:
                self.drop(f"it says no time: {fault}")

    def hand_on(self, kind, sample):
        age = time.time_ns() - sample.clock
        if abs(age) > OLDEST:
            self.drop(f"its stamp lies {abs(age) / BILLION:.1f} s {'before' if age > 0 else 'after'} now")
            return
        leap = self.leaps[kind].leap(sample)
        if leap is not None:
            if self.leaps[kind].is_news():
                say(f"the {CLASSES[kind]} of {self.device} leaps by {leap / BILLION:+.1f} s: it is dropped until {AGREEING} samples have agreed")
            return
        for target in self.targets[kind]:
            target.put(sample)
        if kind in self.first:
            self.first.remove(kind)
            say(f"first {CLASSES[kind]} of {self.device}: by this machine's clock it came {(sample.clock - sample.real) / BILLION:.6f} s after its second")
        elif kind in self.silent:
            say(f"a {CLASSES[kind]} again")
        self.silent.discard(kind)
        self.last[kind] = time.monotonic()

    def drop(self, why):
        """Says that a sample is dropped: at the first one, and then no more than once in ten minutes."""
        self.dropped += 1
        now = time.monotonic()
        if self.dropped_said is None or now - self.dropped_said > REPEAT:
            self.dropped_said = now
            say(f"dropped a sample: {why} ({self.dropped} dropped so far)")

    def look(self):
        """Says once of each class that none of it comes."""
        for kind, last in self.last.items():
            if kind not in self.silent and time.monotonic() - last > SILENCE:
                self.silent.add(kind)
                why = "; it has no fix" if not (self.has_fix or self.without_fix) else "; has it edges?" if kind == "PPS" and kind in self.first else ""
                say(f"no {CLASSES[kind]} of {self.device or 'the device'} for {SILENCE:.0f} s{why}")


def is_here(address):
    """Whether an address is one of this machine: only then can a socket have it."""
    family = socket.AF_INET6 if ":" in address[0] else socket.AF_INET
    with socket.socket(family, socket.SOCK_DGRAM) as it:
        try:
            it.bind((address[0], 0, *address[2:]))
            return True
        except OSError:
            return False


def lines_of(link, feed):
    """The lines of a link. Of one that is too long only its end is given, which is none. `feed` looks around every few seconds."""
    rest = b""
    link.settimeout(5)
    while True:
        try:
            data = link.recv(65_536)
        except socket.timeout:
            feed.look()
            continue
        if not data:
            return
        *lines, rest = (rest + data).split(b"\n")
        yield from lines
        rest = rest[-LONGEST_LINE:]
        feed.look()


def follow(words, targets, leaps):
    """One connection, from its beginning to its end: whether the daemon said anything, and how it ended."""
    heard = False
    try:
        with socket.create_connection(words.daemon, timeout=LONGEST_PAUSE) as link:
            if not is_here(link.getpeername()):
                raise Failed(f"{words.daemon[0]} is another machine, and the stamps of its daemon are those of its clock: run this program there", 2)
            feed = Feed(targets, words.device, words.without_fix, leaps)
            link.sendall(b"?DEVICES;\n")
            for line in lines_of(link, feed):
                if not heard:
                    say(f"connected to {address_words(*words.daemon)}")
                    heard = True
                if request := feed.take(line):
                    link.sendall(request)
    except OSError as fault:
        return heard, fault.strerror or str(fault)
    return heard, "the connection was closed"


def keep_following(words, targets):
    """Connects again and again, after longer and longer pauses if the connections do not last. That a daemon is not there is said once
    for each reason."""
    pause, said, leaps = FIRST_PAUSE, None, {kind: Leaps() for kind in CLASSES}
    while True:
        begun = time.monotonic()
        heard, why = follow(words, targets, leaps)
        if time.monotonic() - begun > LONGEST_PAUSE:
            pause = FIRST_PAUSE
        if heard or why != said:
            say(f"{'disconnected from' if heard else 'cannot connect to'} {address_words(*words.daemon)}: {why}; trying again")
            said = why
        time.sleep(pause)
        pause = min(pause * 2, LONGEST_PAUSE)


# The program

def unit_of(text):
    if text not in ("0", "1", "2", "3"):
        raise argparse.ArgumentTypeError(f"{text} is no unit: there are 0, 1, 2 and 3")
    return int(text)


def path_of(text):
    if not text.startswith("/") or len(text.encode()) > 107:
        raise argparse.ArgumentTypeError(f"{text} is no path of a socket: it begins with / and has at most 107 bytes")
    return text


def name_of(text):
    if not NAME_FORM.fullmatch(text):
        raise argparse.ArgumentTypeError(f"{text or 'an empty word'} is no name of a device")
    return text


def command_line():
    parser = command.Parser(__doc__.split("\n", 1)[0])
    parser.add_argument("daemon", nargs="?", type=address_of, default="127.0.0.1:2947", metavar="HOST:PORT", help="the daemon (127.0.0.1:2947)")
    parser.add_argument("--device", type=name_of, metavar="NAME", help="the device whose time is handed on (the daemon's first)")
    parser.add_argument("--sock-pulse", type=path_of, metavar="PATH", help="pulses to this socket of chrony's refclock SOCK")
    parser.add_argument("--sock-serial", type=path_of, metavar="PATH", help="serial time to this socket of chrony's refclock SOCK")
    parser.add_argument("--shm-pulse", type=unit_of, metavar="UNIT", help="pulses to this unit, 0 to 3, of the NTP shared memory driver")
    parser.add_argument("--shm-serial", type=unit_of, metavar="UNIT", help="serial time to this unit of the NTP shared memory driver")
    parser.add_argument("--without-fix", action="store_true", help="hand on time without a fix too, for a timing receiver that reports none")
    words = parser.parse_args()
    socks, units = (words.sock_pulse, words.sock_serial), (words.shm_pulse, words.shm_serial)
    if all(word is None for word in socks + units):
        parser.error("say where the time goes: --sock-pulse, --sock-serial, --shm-pulse or --shm-serial")
    if socks[0] is not None and socks[0] == socks[1]:
        parser.error(f"{socks[0]} is given twice: pulses and serial time need a socket each")
    if units[0] is not None and units[0] == units[1]:
        parser.error(f"unit {units[0]} is given twice: pulses and serial time need a unit each")
    return words


def targets_of(words):
    """Of each class of lines the readers that it goes to."""
    ways = (("PPS", words.sock_pulse, words.shm_pulse), ("TOFF", words.sock_serial, words.shm_serial))
    return {kind: [*([Sock(path)] if path is not None else []), *([SharedMemory(unit)] if unit is not None else [])]
            for kind, path, unit in ways}


def end(*_):
    raise Ended


def main():
    words = command_line()
    targets = targets_of(words)
    every = [target for found in targets.values() for target in found]
    try:
        signal.signal(signal.SIGTERM, end)
        signal.signal(signal.SIGINT, end)
        if ctypes.sizeof(ctypes.c_void_p) != 8:
            raise Failed("the structures of chrony and ntpd are known for 64-bit machines alone", 2)
        for target in every:
            target.open()
        keep_following(words, targets)
    except (Failed, NoBarrier) as fault:
        say(str(fault))
        return fault.status
    except Ended:
        signal.signal(signal.SIGTERM, signal.SIG_IGN)
        signal.signal(signal.SIGINT, signal.SIG_IGN)
        say("ended")
        return 0
    finally:
        for target in every:
            target.close()


if __name__ == "__main__":
    sys.exit(command.run(main))
