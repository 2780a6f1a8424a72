#!/usr/bin/env python3
"""Holds two built programs against each other over random streams: `decode`, `pseudo` and `replay` must give the same bytes.

Use: random_streams.py OLD NEW COUNT [FIRST]. OLD and NEW are built programs, COUNT is the number of streams; the first is number FIRST
(1 by default). A number makes the same stream each time, on each machine.

A stream is some KB: sentences and frames of all kinds, with fields that are right, empty, out of range or nonsense; broken and cut
packets, packets in packets, junk, and long runs of one byte. `decode` and `pseudo` read it, some with a short history. `replay` plays a
script that brings the same bytes in random pieces, between edges, requests, takes, stores and loads; some scripts have a line that is
refused. Output, status and standard error are compared. A stream that differs is kept in a folder, which is named; the status is then 1.
As many run at a time as there are processors (`taskset` makes it fewer).
"""
import os
import random
import signal
import struct
import sys
import tempfile
import time
from collections import Counter
from multiprocessing import Pool

sys.path.insert(0, os.path.join(os.path.dirname(os.path.dirname(os.path.abspath(__file__))), "tests"))
from packets import BEGIN, frame, sentence

SECONDS = 60  # for one run
TALKERS = ["GP", "GN", "GL", "GA", "GB", "GQ", "BD", "P", "GPX"]


# ---- sentences

def digits(rng, count):
    return "".join(rng.choice("0123456789") for _ in range(count))


def odd(rng, right):
    """A field: mostly the right text, sometimes empty, cut, with more digits, or nonsense."""
    turn = rng.random()
    if turn < 0.88:
        return right
    if turn < 0.92:
        return ""
    if turn < 0.94:
        return right[:rng.randrange(len(right) + 1)]
    if turn < 0.96:
        return right + rng.choice(["0", "9", ".", ".5", "x", " ", "00000000000000000000"])
    if turn < 0.98:
        return rng.choice(["-", "+"]) + right
    return "".join(chr(rng.randrange(33, 127)) for _ in range(rng.randrange(12))).replace("*", "").replace("$", "")


def clock(rng, at):
    text = time.strftime("%H%M%S", time.gmtime(at))
    if rng.random() < 0.03:
        text = rng.choice(["235960", "240000", "126000", "125961", "000000", "235959"])
    return odd(rng, text + rng.choice(["", "", ".00", ".5", "." + digits(rng, rng.randrange(1, 11))]))


def date(rng, at):
    return odd(rng, time.strftime("%d%m%y", time.gmtime(at)) if rng.random() < 0.95 else digits(rng, 6))


def place(rng):
    north = f"{rng.randrange(91):02}{rng.randrange(61):02}" + rng.choice(["", "." + digits(rng, rng.randrange(1, 9))])
    east = f"{rng.randrange(181):03}{rng.randrange(61):02}" + rng.choice(["", "." + digits(rng, rng.randrange(1, 9))])
    return f"{odd(rng, north)},{odd(rng, rng.choice('NS'))},{odd(rng, east)},{odd(rng, rng.choice('EW'))}"


def number(rng, most, decimals=1):
    return odd(rng, f"{rng.randrange(most)}" + ("." + digits(rng, rng.randrange(1, decimals + 3)) if rng.random() < 0.7 else ""))


def dilutions(rng):
    return ",".join(number(rng, 110, 2) for _ in range(3))


def in_view(rng, talker):
    total = rng.randrange(1, 4)
    for part in range(total):
        groups = ["{},{},{},{}".format(odd(rng, f"{rng.randrange(1, 120):02}"), odd(rng, f"{rng.randrange(95):02}"),
                                       odd(rng, f"{rng.randrange(365):03}"), odd(rng, f"{rng.randrange(99):02}"))
                  for _ in range(rng.randrange(0, 5))]
        signal = rng.choice(["", "", ",1", ",A", ",g"])
        yield f"{talker}GSV,{total},{part + 1},{rng.randrange(20):02}," + ",".join(groups) + signal


def zda(rng, at):
    day = time.strftime("%d,%m,%Y", time.gmtime(at)) if rng.random() < 0.9 else f"{digits(rng, 2)},{digits(rng, 2)},{digits(rng, 4)}"
    return f"ZDA,{clock(rng, at)},{day}" + rng.choice(["", ",00,00", ",,"])


def sentences(rng, at):
    """The bodies of some sentences of a second."""
    talker = rng.choice(TALKERS) if rng.random() < 0.2 else "GP"
    for kind in rng.sample(["RMC", "GGA", "GLL", "GSA", "GSV", "VTG", "ZDA", "other"], rng.randrange(1, 6)):
        if kind == "RMC":
            yield (f"{talker}RMC,{clock(rng, at)},{odd(rng, rng.choice('AAAV'))},{place(rng)},{number(rng, 600)},{number(rng, 362, 2)},"
                   f"{date(rng, at)},,{rng.choice([',A', ',N', '', ',D,V'])}")
        elif kind == "GGA":
            yield (f"{talker}GGA,{clock(rng, at)},{place(rng)},{odd(rng, rng.choice('01111245689'))},{number(rng, 20, 0)},{number(rng, 110)},"
                   f"{rng.choice(['', '-'])}{number(rng, 9000)},M,{number(rng, 100)},M,{rng.choice(['', number(rng, 60)])},{rng.choice(['', '0001'])}")
        elif kind == "GLL":
            yield f"{talker}GLL,{place(rng)},{clock(rng, at)},{odd(rng, rng.choice('AAV'))}"
        elif kind == "GSA":
            used = ",".join(rng.choice(["", f"{rng.randrange(1, 120):02}"]) for _ in range(12))
            yield f"{talker}GSA,{rng.choice('AM')},{odd(rng, rng.choice('1233'))},{used},{dilutions(rng)}" + rng.choice(["", ",1", ",2", ",9"])
        elif kind == "GSV":
            yield from in_view(rng, talker)
        elif kind == "VTG":
            yield f"{talker}VTG,{number(rng, 362, 2)},T,{number(rng, 362)},M,{number(rng, 600)},N,{number(rng, 900)},K,A"
        elif kind == "ZDA":
            yield talker + zda(rng, at)
        else:
            yield rng.choice(["GPTXT,01,01,02,ANTENNA OK", "PUBX,00", "GPGST,,,,,,,,", "", "A", "GPGGA", "GPRMC,", "x" * rng.randrange(140)])


# ---- frames

def any_of(rng, least, most, *more):
    """A number of a field: mostly of the range, sometimes an end of it or one of `more`."""
    return rng.randrange(least, most + 1) if rng.random() < 0.9 else rng.choice([least, most, *more])


def pvt(rng, at, itow):
    t = time.gmtime(at)
    year = t.tm_year if rng.random() < 0.97 else rng.choice([0, 1979, 1980, 2079, 2080, 2099, 2100, 65535])
    second = t.tm_sec if rng.random() < 0.97 else rng.choice([59, 60, 61, 255])
    nanoseconds = any_of(rng, -1_000_000, 999_999_999, -10**9, 10**9, -10**9 - 1, 10**9 + 1, -2**31, 2**31 - 1)
    return struct.pack("<IHBBBBBBIiBBBBiiiiIIiiiiiIIHHIihH", itow, year, t.tm_mon, t.tm_mday, t.tm_hour, t.tm_min, second,
                       any_of(rng, 6, 7, 0, 3, 255), 50, nanoseconds, any_of(rng, 0, 5), any_of(rng, 0, 3), 0, 12,
                       any_of(rng, -1_800_000_000, 1_800_000_000, -2**31, 1_800_000_001),
                       any_of(rng, -900_000_000, 900_000_000, 2**31 - 1, -900_000_001),
                       any_of(rng, -500_000, 9_000_000, -2**31, 2**31 - 1), any_of(rng, -500_000, 9_000_000, -2**31, 2**31 - 1), 900, 1400, 10, 20,
                       any_of(rng, -100_000, 100_000, -2**31, 2**31 - 1), any_of(rng, 0, 600_000_000, -1, 2**31 - 1),
                       any_of(rng, -18_000_000, 36_000_000, -18_000_001, 36_000_001, 35_999_999), 300, 90_000, any_of(rng, 0, 9_999, 65_535),
                       0, 0, 0, 0, 0)


def sat(rng, itow):
    count = any_of(rng, 0, 20)
    told = count if rng.random() < 0.95 else rng.randrange(256)
    return struct.pack("<IBBH", itow, 1, told, 0) + b"".join(
        struct.pack("<BBBbhhI", rng.choice([0, 0, 1, 2, 3, 5, 6, 7, 255]), rng.randrange(256), rng.randrange(60), any_of(rng, -90, 90, -91, 127),
                    any_of(rng, 0, 360, -1, 361), 0, rng.randrange(2**32)) for _ in range(count))


def frames(rng, at):
    """Some frames of a second."""
    itow = at % 604_800 * 1000 if rng.random() < 0.97 else rng.randrange(2**32)
    for kind in rng.sample(["PVT", "SAT", "DOP", "EOE", "other"], rng.randrange(1, 5)):
        if kind == "PVT":
            yield frame(1, 7, pvt(rng, at, itow))
        elif kind == "SAT":
            yield frame(1, 0x35, sat(rng, itow))
        elif kind == "DOP":
            yield frame(1, 4, struct.pack("<I7H", itow, *(any_of(rng, 50, 3_000, 0, 65_535) for _ in range(7))))
        elif kind == "EOE":
            yield frame(1, 0x61, struct.pack("<I", itow))
        else:
            yield frame(rng.randrange(256), rng.randrange(256), rng.randbytes(rng.choice([0, 1, 4, 8, 18, 92, rng.randrange(300), 2_047, 2_048, 2_049])))


# ---- streams

def spoiled(rng, packet):
    """A packet with a fault."""
    turn, at = rng.randrange(7), rng.randrange(len(packet))
    if turn == 0:
        return packet[:at]
    if turn == 1:
        return packet[at:]
    if turn == 2:
        return packet[:at] + bytes([rng.randrange(256)]) + packet[at + 1:]
    if turn == 3:
        return packet[:at] + packet + packet[at:]
    if turn == 4:
        return packet.replace(b"\r\n", rng.choice([b"\n", b"\r", b"", b"\n\r"]))
    if turn == 5:
        return packet.lower()
    return packet[:at] + packet[at + 1:]


def junk(rng):
    turn = rng.randrange(6)
    if turn == 0:
        return rng.randbytes(rng.randrange(1, 200))
    if turn == 1:
        return bytes([rng.choice(b"$\xb5\x62\r\n*,0\x00\xff")]) * rng.choice([1, 2, 80, 82, 83, 128, 129, 2_055, rng.randrange(3_000)])
    if turn == 2:
        head = struct.pack("<BBH", rng.randrange(3), rng.randrange(256), any_of(rng, 0, 2_048, 2_049, 65_535))
        return b"\xb5\x62" + head + rng.randbytes(rng.randrange(60))
    if turn == 3:
        return b"$GP" + rng.randbytes(rng.randrange(8))
    if turn == 4:
        return b"$" + bytes(rng.randrange(32, 127) for _ in range(rng.randrange(140))) + rng.choice([b"\r\n", b"*00\r\n", b"\n", b""])
    return b"\r\n" * rng.randrange(1, 20)


def stream(rng):
    """A random stream of some KB."""
    at = rng.choice([BEGIN, BEGIN + 43_195, 315_964_795, 3_471_292_790, 4_102_444_790, rng.randrange(315_964_800, 4_102_444_800)])
    good = rng.choice([1.0, 0.98, 0.9, 0.5])
    family = rng.choice(["nmea", "ubx", "both"])
    out, size = bytearray(), rng.choice([200, 1_000, 3_000, 6_000])
    while len(out) < size:
        packets = [sentence(body) for body in sentences(rng, at)] if family != "ubx" else []
        if family != "nmea":
            packets += frames(rng, at)
        for packet in packets:
            out += packet if rng.random() < good else spoiled(rng, packet)
            if rng.random() > good:
                out += junk(rng)
        at = max(0, at + rng.choice([0, 1, 1, 1, 1, 1, 1, 2, 60, 43_200, 43_201, 86_400, -1]))
    return bytes(out) if rng.random() < 0.8 else bytes(out[:rng.randrange(len(out))])


# ---- scripts

def watch(rng):
    """The text of a request."""
    if rng.random() < 0.1:
        return rng.choice(["?WATCH={", "?WATCH;", "?POLL;", "?DEVICES;", "?VERSION;", "?NONE;", ";", "?WATCH={\"json\":1};", "?WATCH={\"raw\":3};"])
    members = [("enable", "true true false"), ("json", "true false"), ("nmea", "true false"), ("raw", "0 1 2"), ("pps", "true false"),
               ("device", '"a" "b" "none" null')]
    return "?WATCH={" + ",".join(f'"{name}":{rng.choice(values.split())}' for name, values in members if rng.random() < 0.5) + "};"


class Script:
    """A script that is being made: it brings the bytes of a stream to its devices, some pieces to each."""

    def __init__(self, rng):
        self.rng, self.at, self.sessions, self.monitors, self.edges = rng, BEGIN * 10**9, 0, 0, 0
        self.devices = rng.randrange(1, 4)
        self.running = list(range(self.devices))
        self.lines = [f"device {name}" for name in "abc"[:self.devices]]
        self.lines += [f"segment {self.unit()} {rng.choice([0, 1, 7, 1_073_741_820, 1_073_741_823])}" for _ in range(rng.randrange(3))]

    def unit(self):
        return self.rng.randrange(2 * self.devices)

    def stamp(self, later):
        self.at += later
        return f"{self.at // 10**9}.{self.at % 10**9:09}"

    def feed(self, given):
        """A line with the next bytes; what is left of them."""
        size = self.rng.choice([1, 2, 7, 60, 200, 512, self.rng.randrange(1, 513)])
        self.lines.append(f"bytes {self.rng.choice(self.running)} {self.stamp(self.rng.choice([0, 1, 1_000_000, 100_000_000]))} {given[:size].hex()}")
        return given[size:]

    def edge(self):
        self.edges += self.rng.choice([1, 1, 1, 1, 2, 0])
        later = self.rng.choice([0, 1_000_000_000 - self.at % 10**9, 1_000_000_000, 990_000_000, 500_000])
        kind = self.rng.choice(["assert", "assert", "assert", "clear"])
        self.lines.append(f"edge {self.rng.choice(self.running)} {kind} {self.stamp(later)}#{self.edges}")

    def open(self):
        if self.sessions < 6:
            self.lines.append(f"open {self.sessions}" + self.rng.choice(["", "", "", " 400", " 400", " 20", " 3", " 1"]))
            self.lines.append(f"say {self.sessions} {watch(self.rng)}")
            self.sessions += 1

    def ask(self):
        if self.sessions:
            session = self.rng.randrange(self.sessions)
            self.lines.append(self.rng.choice([f"say {session} {watch(self.rng)}", f"part {session} {watch(self.rng)[:9]}",
                                               f"input {session} {self.rng.randbytes(self.rng.randrange(1, 40)).hex()}"]))

    def take(self):
        if self.sessions:
            self.lines.append(f"take {self.rng.randrange(self.sessions)} {self.rng.choice([1, 2, 10, 65_536])}")

    def store(self):
        self.lines.append(f"store {self.unit()} {self.rng.choice([1, 2, 5, 11, 13, 26, 200])}")

    def load(self):
        if not self.monitors or (self.monitors < 5 and self.rng.random() < 0.2):
            self.lines.append(f"monitor {self.monitors} {self.unit()}")
            self.monitors += 1
        self.lines.append(f"load {self.rng.randrange(self.monitors)} {self.rng.choice([1, 2, 3, 6, 11, 12, 30])}")

    def stop(self):
        if len(self.running) > 1 and self.rng.random() < 0.1:
            device = self.running.pop(self.rng.randrange(len(self.running)))
            self.lines.append(f"{self.rng.choice(['end', 'lose'])} {device}")
        else:
            self.lines.append(self.rng.choice(["", "# a line that does nothing"]))


def script(rng, given):
    made = Script(rng)
    others = [made.edge] * 5 + [made.open] * 3 + [made.ask] * 3 + [made.take] * 4 + [made.store] * 4 + [made.load] * 5 + [made.stop]
    while given:
        if rng.random() < 0.45:
            given = made.feed(given)
        else:
            rng.choice(others)()
    lines = made.lines
    if rng.random() < 0.15:
        lines.insert(rng.randrange(len(lines) + 1), rng.choice(["frob", "take 99 1", "hang 99", "load 9 1", "open 77", "edge 0 assert 1.5#1", "x" * 4_097]))
    ending = rng.choice(["\n", "\n", "\r\n"])
    return (ending.join(lines) + rng.choice([ending, ""])).encode()


# ---- runs

def cases(number):
    """The words and the input of each run of a stream."""
    rng = random.Random(f"random_streams {number}")
    given = stream(rng)
    short = ["--history", str(rng.randrange(1, len(given) + 2))] if rng.random() < 0.1 else []
    played = [word for name, values in (("--history", [1, 7, 100, 5_000]), ("--queue", [1, 2, 30, 4_096])) if rng.random() < 0.5
              for word in (name, str(rng.choice(values)))]
    return [(["decode", *short], given), (["pseudo", *short], given), (["replay", *played], script(rng, given))]


class Files:
    """A worker's files in memory: the input of its runs, and what they write to their two outputs."""

    def __init__(self):
        self.handles = [os.memfd_create(name) for name in ("input", "output", "errors")]

    def fill(self, given):
        self.empty(0)
        os.pwrite(self.handles[0], given, 0)

    def empty(self, number):
        os.ftruncate(self.handles[number], 0)
        os.lseek(self.handles[number], 0, os.SEEK_SET)

    def content(self, number):
        return os.pread(self.handles[number], os.fstat(self.handles[number]).st_size, 0)


FILES = None  # of this worker


def begin_worker():
    global FILES
    FILES = Files()
    signal.signal(signal.SIGALRM, give_up)


def give_up(number, where):
    raise TimeoutError(f"a run took more than {SECONDS} seconds")


def outcome(program, words):
    """What a run over the worker's input gives: its output, its status, and what stands on standard error."""
    os.lseek(FILES.handles[0], 0, os.SEEK_SET)
    FILES.empty(1)
    FILES.empty(2)
    actions = [(os.POSIX_SPAWN_DUP2, handle, number) for number, handle in enumerate(FILES.handles)]
    pid = os.posix_spawn(program, ["gpsrelay", *words], os.environ, file_actions=actions)
    signal.alarm(SECONDS)
    try:
        _, status = os.waitpid(pid, 0)
    except TimeoutError:
        os.kill(pid, signal.SIGKILL)
        raise
    finally:
        signal.alarm(0)
    return FILES.content(1), os.waitstatus_to_exitcode(status), FILES.content(2)


def compared(call):
    """The runs of one stream that differ, the statuses, and how many bytes were read and written."""
    number, old, new, make = call
    differing, statuses, read, written = [], Counter(), 0, 0
    for words, given in make(number):
        FILES.fill(given)
        one, other = outcome(old, words), outcome(new, words)
        statuses[f"{words[0]} {one[1]}"] += 1
        read, written = read + len(given), written + len(one[0])
        if one != other:
            differing.append((words, given, one, other))
    return number, differing, statuses, read, written


def keep(folder, number, words, given, one, other):
    """Writes a run that differs to the folder, and says so."""
    name = os.path.join(folder, f"{number}-{words[0]}")
    for ending, content in (("in", given), ("old", one[0]), ("new", other[0]), ("old.err", one[2]), ("new.err", other[2])):
        with open(f"{name}.{ending}", "wb") as file:
            file.write(content)
    parts = [part for part, a, b in zip(("output", "status", "standard error"), one, other) if a != b]
    print(f"FAILED  stream {number}, {' '.join(words)}: other {', '.join(parts)} (statuses {one[1]} and {other[1]}), see {name}.*", flush=True)


def main(make, use):
    """Compares the runs that `make` gives for each number; `use` says how the script is called."""
    if len(sys.argv) not in (4, 5):
        sys.exit(use)
    old, new = (os.path.abspath(path) for path in sys.argv[1:3])
    first = int(sys.argv[4]) if len(sys.argv) == 5 else 1
    numbers = range(first, first + int(sys.argv[3]))
    statuses, read, written, failed, folder, begin = Counter(), 0, 0, 0, None, time.monotonic()
    with Pool(len(os.sched_getaffinity(0)), begin_worker) as pool:
        for number, differing, here, came, went in pool.imap_unordered(compared, ((number, old, new, make) for number in numbers), chunksize=8):
            statuses, read, written = statuses + here, read + came, written + went
            failed += bool(differing)
            for run in differing:
                folder = folder or tempfile.mkdtemp(prefix="random_streams.")
                keep(folder, number, *run)
    taken = time.monotonic() - begin
    print(f"{len(numbers)} streams from number {first} on, {read} bytes read and {written} written, {len(numbers) / taken:.0f} streams a second")
    print("runs by command and status: " + ", ".join(f"{name}: {count}" for name, count in sorted(statuses.items())))
    print(f"FAILED: {failed} streams differ" if failed else "ok: the two programs give the same")
    sys.exit(1 if failed else 0)


if __name__ == "__main__":
    main(cases, __doc__)
