#!/usr/bin/env python3
"""Runs tools/clock.py, which hands the receiver's time to chrony and ntpd, and reads what it writes.

Use: clock.py PROGRAM. First against a daemon of this script's own, whose lines are known: the datagrams of chrony's SOCK refclock and the
segments of the NTP shared memory driver, byte for byte. Then against the built daemon with a made receiver, whose pulses say that this
machine's clock is 80 ms fast: gpsd's `ntpshmmon` and a real `chronyd -x`, which does not touch the clock, must see that offset, with its
sign. chronyd must select the pulses, and find them again after the daemon was started anew. The segments are in an IPC namespace of this
script's own, if it may have one. Exits with 1 if a check failed.
"""
import ctypes
import mmap
import os
import platform
import re
import shutil
import signal
import subprocess
import sys
import tempfile
import threading
import time

from clock_leaps import leaps_are_dropped
from clock_sides import *
from harness import *

PROGRAM = os.path.abspath(sys.argv[1])
TOP = os.path.dirname(os.path.dirname(os.path.abspath(__file__)))
FAST = 80_000_000  # nanoseconds by which the made pulses say that this machine's clock is fast
LATE = 0.25  # seconds after its second at which the made receiver sends its sentences


def words_are_checked():
    sock = ("--sock-pulse", "/tmp/none.sock")
    for words, reason in (("127.0.0.1:1",), "say where the time goes"), (("--shm-pulse", "4"), "4 is no unit"), (("--shm-serial", "-1"), "-1 is no unit"), \
            (("--shm-serial", "1", "--shm-pulse", "1"), "unit 1 is given twice"), (("--sock-pulse", "x.sock"), "no path of a socket"), \
            (("--sock-pulse", "/" + "x" * 107), "no path of a socket"), (("--sock-serial", sock[1], *sock), "is given twice"), \
            (("127.0.0.1", *sock), "no HOST:PORT"), (("127.0.0.1:65536", *sock), "no HOST:PORT"), ((*sock, "--device", 'a"b'), "no name of a device"), \
            ((*sock, "--sock"), "unrecognized arguments"), (("192.0.2.1:1", "127.0.0.1:1", *sock), "unrecognized arguments"):
        status, out, errors = run(CLOCK, *words)
        check(f"{' '.join(words)[:60]}: refused", (2, b"", True), (status, out, reason in errors.decode() or errors))
    status, out, errors = run(CLOCK, "--help")
    check("help", (0, b"", True), (status, errors, b"--without-fix" in out))


def datagrams_are_exact():
    pulses, serials = Reader(FOLDER, "pulse"), Reader(FOLDER, "serial")
    daemon = Lines("gps0", "gps1")
    clock = Clock(daemon.port, "--sock-pulse", pulses.path, "--sock-serial", serials.path)
    check("the requests", (b"?DEVICES;\n", b'?WATCH={"enable":true,"json":true,"pps":true,"device":"gps0"};\n'), daemon.take())
    now = time.time_ns()
    slow, fast = (now, now - 123_456_789), (now, now + 7)
    daemon.time("TOFF", *slow)  # no fix is known yet
    daemon.fix()
    daemon.time("TOFF", now - BILLION, now - BILLION + 50, "gps1")
    daemon.time("TOFF", *slow)
    daemon.time("PPS", *fast)
    check("serial time: a clock that is slow by 123456789 ns", datagram(*slow), serials.next())
    check("a pulse: a clock that is fast by 7 ns", datagram(*fast), pulses.next())
    check("the structure has 40 bytes", 40, SOCK.size)
    for bad in {"real_sec": 1}, {"real_sec": "1", "real_nsec": 0, "clock_sec": 1, "clock_nsec": 0}, {"real_sec": 1, "real_nsec": BILLION, "clock_sec": 1, "clock_nsec": 0}:
        daemon.send({"class": "PPS", "device": "gps0", **bad})
    daemon.link.sendall(b"nothing\r\n[1]\r\n\x00\r\n")
    now = time.time_ns()
    daemon.time("PPS", now, now)
    check("lines that say no time are passed over", datagram(now, now), pulses.next())
    now = time.time_ns()
    daemon.fix(1)
    daemon.time("PPS", now, now + 1)
    daemon.fix(2)
    daemon.time("PPS", now, now + 2)
    check("without a fix nothing is handed on", datagram(now, now + 2), pulses.next())
    now = time.time_ns()
    old, young = now - 2 * BILLION - 100_000_000, now - 900_000_000
    daemon.time("PPS", now, old)
    daemon.time("PPS", now, old + 6 * BILLION)
    daemon.time("PPS", now, young)
    check("what is more than two seconds old, or after now, is dropped", datagram(now, young), pulses.next())
    pulses.close()
    daemon.time("PPS", time.time_ns(), time.time_ns())
    check("a socket that has gone", True, clock.says("takes no sample"))
    pulses = Reader(FOLDER, "pulse")
    made = time.time_ns()
    daemon.time("PPS", made, made)
    check("a socket that is made anew is found", datagram(made, made), pulses.next())
    daemon.hang_up()
    daemon.take()
    daemon.fix()
    made = time.time_ns()
    daemon.time("PPS", made, made)
    check("it connects again", datagram(made, made), pulses.next())
    clock.says("first pulse of gps0", 2)  # it says so after it has sent the datagram
    check("it says how it ended", (0, "clock.py: ended"), clock.stop())
    place = f"127.0.0.1:{daemon.port}"
    said = [f"connected to {place}", "device gps0; the daemon has gps1 too, see --device", "gps0 has a fix",
            "first serial time of gps0: by this machine's clock it came -0.123457 s after its second",
            "first pulse of gps0: by this machine's clock it came 0.000000 s after its second",
            "dropped a sample: it says no time: None is no whole number from 0 to 999999999 (1 dropped so far)",
            "gps0 has no fix: its time is not handed on", "gps0 has a fix",
            f"{pulses.path} takes no sample: No such file or directory", f"{pulses.path} takes samples",
            f"disconnected from {place}: the connection was closed; trying again", f"connected to {place}", "device gps0; the daemon has gps1 too",
            "gps0 has a fix", "first pulse of gps0", "ended"]
    found = [line.removeprefix("clock.py: ") for line in clock.said().splitlines()]
    check("it says what happens, and nothing else", said, [wanted if line.startswith(wanted) else line for wanted, line in zip(said, found)] + found[len(said):])
    for it in daemon, pulses, serials:
        it.close()


def messages_are_few():
    """What is said of samples that do not come, or are dropped, is said once."""
    module, found = tool(), []
    module.say = found.append
    feed = module.Feed({"TOFF": [], "PPS": [module]}, None, False)
    feed.choose([{"path": "gps0"}])
    module.SILENCE = 0
    feed.look()
    feed.has_fix = True
    feed.look()
    feed.silent.clear()
    feed.look()
    old = {"real_sec": 1, "real_nsec": 0, "clock_sec": 1, "clock_nsec": 0}
    for _ in range(3):
        feed.hand_on("PPS", module.Sample(old))
    module.REPEAT = 0
    feed.hand_on("PPS", module.Sample(old))
    check("silence, and dropped samples", ["device gps0", "no pulse of gps0 for 0 s; it has no fix", "no pulse of gps0 for 0 s; has it edges?", True, True],
          found[:3] + [bool(re.fullmatch(r"dropped a sample: its stamp lies \d+\.\d s before now \(%d dropped so far\)" % number, line))
                       for number, line in zip((1, 4), found[3:])])


def nobody_is_waited_for():
    """A socket that nobody reads takes as many datagrams as the system lets wait; those after them are lost, and the other reader has all."""
    full, other = Reader(FOLDER, "full"), Reader(FOLDER, "other")
    daemon = Lines("gps0")
    clock = Clock(daemon.port, "--sock-pulse", full.path, "--sock-serial", other.path)
    daemon.take()
    daemon.fix()
    with open("/proc/sys/net/unix/max_dgram_qlen") as it:
        room = int(it.read())
    now = time.time_ns()
    for number in range(room + 10):
        daemon.time("PPS", now, now + number)
    daemon.time("TOFF", now, now)
    check("a full socket keeps nobody waiting", datagram(now, now), other.next())
    check("it says so", True, clock.says(f"{full.path} takes no sample: Resource temporarily unavailable; chronyd does not read it"))
    while full.next(0):
        pass
    now = time.time_ns()
    daemon.time("PPS", now, now)
    check("once it is read, it gets the next pulse", datagram(now, now), full.next())
    check("it says that too", True, clock.says(f"{full.path} takes samples"))
    clock.stop()
    for it in daemon, full, other:
        it.close()


def devices_are_picked():
    reader = Reader(FOLDER, "picked")
    for option, wanted in (("gps1",), b'"gps1"'), (("gps7",), b'"gps7"'):
        daemon = Lines("gps0", "gps1")
        clock = Clock(daemon.port, "--sock-pulse", reader.path, "--device", *option)
        check(f"--device {option[0]}: the request", True, b'"device":' + wanted in daemon.take()[1])
        now = time.time_ns()
        for device in "gps0", "gps1":
            daemon.fix(3, device)
            daemon.time("PPS", now, now + len(device) * 1000, device)
        if option == ("gps1",):
            check("--device gps1: its pulse", datagram(now, now + 4000), reader.next())
        else:
            check("--device gps7: it names the devices of the daemon", True, clock.says("no device gps7; it has gps0, gps1"))
        check(f"--device {option[0]}: no other pulse", None, reader.next(0.2))
        clock.stop()
        daemon.close()
    daemon = Lines("gps0")
    clock = Clock(daemon.port, "--sock-pulse", reader.path, "--without-fix")
    daemon.take()
    now = time.time_ns()
    daemon.fix(1)
    daemon.time("PPS", now, now)
    check("--without-fix", datagram(now, now), reader.next())
    clock.stop()
    daemon.close()
    reader.close()


def segments_are_exact():
    serials, pulses = Unit(2), Unit(3)
    pulses.set(4, 7)  # the count that a writer leaves that was killed
    daemon = Lines("gps0")
    clock = Clock(daemon.port, "--shm-serial", "2", "--shm-pulse", "3")
    daemon.take()
    daemon.fix()
    now = time.time_ns()
    daemon.time("TOFF", now + 1, now - 123_456_789)
    until(serials.is_valid)
    check("serial time: its words", segment_words(now + 1, now - 123_456_789, -1, 2), serials.words())
    now = time.time_ns()
    daemon.time("PPS", now, now + 7)
    until(pulses.is_valid)
    check("a pulse: its words, and an even count after an odd one", segment_words(now, now + 7, -20, 10), pulses.words())
    for count, taken in (12, False), (14, True):
        if taken:
            pulses.set(48, 0)  # as ntpd and chronyd do with a sample that they have read
        now = time.time_ns()
        daemon.time("PPS", now, now + count)
        until(lambda: pulses.words()[1] == count and pulses.is_valid())
        check(f"the next pulse, if the last one was {'taken' if taken else 'left'}", segment_words(now, now + count, -20, count), pulses.words())
    pulses.remove()
    now = time.time_ns()
    daemon.time("PPS", now, now + 1)
    until(lambda: is_made(3))
    again = Unit(3)
    until(again.is_valid)
    check("a segment that was removed is made anew", segment_words(now, now + 1, -20, 2), again.words())
    clock.stop()
    check("at its end no sample is left", (0, 0), (serials.words()[9], again.words()[9]))
    daemon.close()
    serials.remove()
    again.remove()
    small = Unit(2, 40)
    status, _, errors = run(CLOCK, "--shm-serial", "2")
    check("a segment that is too small ends it", (1, "clock.py: unit 2 of the shared memory: its segment is too small; another program made it\n"), (status, errors.decode()))
    small.remove()


def stores_are_in_order():
    """The order is that of the segments of this repository: valid 0, an odd count, the body, an even count, valid 1."""
    module, noted = tool(), Noted()
    module.store(noted, module.Sample({"real_sec": 5, "real_nsec": 6_007, "clock_sec": 8, "clock_nsec": 9_010, "precision": -20}),
                 lambda: noted.stores.append("barrier"))
    check("the thirteen stores, and what keeps their order", [
        ("valid", 0), "barrier", ("count", 5), "barrier", ("clockTimeStampSec", 5), ("clockTimeStampUSec", 6), ("receiveTimeStampSec", 8),
        ("receiveTimeStampUSec", 9), ("leap", 0), ("precision", -20), ("nsamples", 3), ("clockTimeStampNSec", 6_007),
        ("receiveTimeStampNSec", 9_010), "barrier", ("count", 6), "barrier", ("valid", 1)], noted.stores)
    check("which addresses are of this machine", [True, True, False], [module.is_here((it, 0)) for it in ("127.0.0.1", "127.3.2.1", "192.0.2.1")])
    check("the segment has 96 bytes", (96, 96), (ctypes.sizeof(module.Segment), SHM.size))


def barriers():
    """What keeps the order on each machine. The numbers of membarrier are those of Linux's tables of system calls; that of this machine is called."""
    module, numbers = sys.modules[tool().barrier_of.__module__], {"x86_64": 324, "aarch64": 283}
    check("on x86-64 the processor does", None, module.barrier_of("x86_64")())
    check("on arm64 a system call does", {"aarch64": numbers["aarch64"]}, module.MEMBARRIER)
    try:
        found = module.barrier_of("riscv64")
    except module.NoBarrier as fault:
        found = "this machine is riscv64: use --sock-pulse" in str(fault) and fault.status
    check("on another machine the shared memory is refused", 2, found)
    if number := numbers.get(platform.machine()):
        module.MEMBARRIER = {"here": number}
        check("the system call is there", None, module.barrier_of("here")())
    module.MEMBARRIER = {"here": -1}
    try:
        found = module.barrier_of("here")
    except module.NoBarrier as fault:
        found = "Function not implemented" in str(fault)
    check("a system without it is told", True, found)


def readings_are_whole():
    """A process stores, and this one reads. A look at what the order of stores does on this machine, no proof."""
    module, shared = tool(), mmap.mmap(-1, 4096)
    barrier = module.barrier_of(platform.machine())
    writer = os.fork()
    if writer == 0:
        segment, number = module.Segment.from_buffer(shared), 0
        sample = module.Sample({"real_sec": 0, "real_nsec": 0, "clock_sec": 0, "clock_nsec": 0})
        while True:
            number = (number + 1) % 1_000_000
            sample.real = sample.clock = number * BILLION + number
            module.store(segment, sample, barrier)
            time.sleep(number % 3 * 1e-5)
    segment = module.Segment.from_buffer(shared)
    taken, torn, end = set(), [], time.monotonic() + WAIT
    while len(taken) < 1000 and time.monotonic() < end:
        if (body := reading_of(segment)) is not None:
            number = body[0]
            taken.add(number)
            if body != (number, number // 1000, number, number // 1000, number, number):
                torn.append(body)
    os.kill(writer, signal.SIGKILL)
    os.waitpid(writer, 0)
    check("no reading of many is torn", [], torn[:3])
    check("a thousand samples were read", 1000, len(taken))


class Receiver(threading.Thread):
    """A receiver that keeps this machine's time: each second an edge whose stamp lies FAST after the second, and sentences LATE after it."""

    def __init__(self):
        super().__init__(daemon=True)
        self.device, self.edges = FifoDevice(), FifoDevice(kind="edges")
        self.is_read, self.is_over = threading.Event(), False

    def run(self):
        while not self.is_over:
            at = int(time.time()) + 1
            time.sleep(max(0, at + FAST / BILLION + 0.01 - time.time()))
            self.send(self.edges, f"assert {at}.{FAST:09d}#{at % 1_000_000}\n".encode())
            time.sleep(max(0, at + LATE - time.time()))
            self.send(self.device, rmc(at) + gga(at))

    def send(self, device, data):
        """As on a line: what nobody reads is lost."""
        if self.is_read.is_set():
            device.send(data)

    def serve(self, port=None):
        """A daemon that reads it."""
        daemon = Daemon(PROGRAM, self.device.word, self.edges.word, port=port).listening()
        self.is_read.set()
        return daemon

    def lose(self, daemon):
        self.is_read.clear()
        daemon.stop()

    def close(self):
        self.is_over = True
        self.is_read.clear()
        self.join()
        self.device.close()
        self.edges.close()


def exact_pulse(data):
    """Whether a datagram says that the clock is fast by FAST, at a moment that lies FAST after a second."""
    seconds, microseconds, offset, *rest = SOCK.unpack(data)
    return (microseconds, offset, rest) == (FAST // 1000, -FAST / 1e9, [0, 0, 0, 0x534F434B]) and abs(seconds - time.time()) < 10


def is_late(offset):
    """Whether a serial time came after its second as the made receiver sends it: never earlier, and soon after that on a busy machine."""
    return -LATE - 0.5 < offset <= -LATE


def pulses_of_the_daemon(daemon):
    """Three pulses and serial times of the built daemon, as chronyd would get them."""
    pulses, serials = Reader(FOLDER, "own_pulse"), Reader(FOLDER, "own_serial")
    clock = Clock(daemon.port, "--sock-pulse", pulses.path, "--sock-serial", serials.path)
    check("pulses of the daemon: this machine's clock is 80 ms fast", [True] * 3, [exact_pulse(pulses.next()) for _ in range(3)])
    offsets = [SOCK.unpack(serials.next())[2] for _ in range(3)]
    within("serial times of the daemon come 250 ms after their second, or soon after that", all(map(is_late, offsets)), offsets)
    clock.stop()
    pulses.close()
    serials.close()


def monitor(daemon):
    """What gpsd's ntpshmmon reads of units 2 and 3. Units 0 and 1 may have samples too, for chronyd."""
    clock = Clock(daemon.port, "--shm-serial", "2", "--shm-pulse", "3")
    check("segments of the daemon's samples", (True, True), (clock.says("first pulse"), clock.says("first serial time")))
    found = monitored(12)
    clock.stop()
    check("ntpshmmon: pulses", {(-FAST, "0", "-20")}, set(found["NTP3"]))
    check("ntpshmmon: leap and precision of serial times", {("0", "-1")}, {tuple(rest) for _, *rest in found["NTP2"]})
    within("ntpshmmon: serial times", all(is_late(offset / BILLION) for offset, *_ in found["NTP2"]), found)
    for unit in 2, 3:
        Unit(unit).remove()


def chrony_selects(daemon, receiver, others):
    """chronyd gets both ways at once. When `others` are done, the daemon is started anew, and then chronyd."""
    os.chmod(FOLDER, 0o700)  # chronyd wants it so
    chrony = Chrony(FOLDER, LATE, UNITS)
    words = ["--sock-pulse", f"{FOLDER}/pulse.sock", "--sock-serial", f"{FOLDER}/serial.sock"]
    clock = Clock(daemon.port, *words, *(["--shm-serial", "0", "--shm-pulse", "1"] if UNITS else []))
    try:
        until(lambda: chrony.is_selected("SOCP", "SHMP"))
        check("chronyd selects the pulses", True, chrony.is_selected("SOCP", "SHMP") or (chrony.states(), chrony.said(), clock.said()))
        until(lambda: all(len(chrony.offsets(name)) >= 3 for name in chrony.names))
        offsets_are_right(chrony, "chronyd", 0)
        raw, cooked = (chrony.offsets("SOCS", column=column)[0] for column in (6, 7))
        within("chronyd: `offset` is the delay of serial time, and is added", abs(raw + LATE - cooked) < 2e-6, (raw, cooked))
        for other in others:
            other.join()
        receiver.lose(daemon)
        check("it says that the daemon has gone", True, clock.says("disconnected from"))
        restarted = time.time()
        daemon = receiver.serve(daemon.port)
        until(lambda: all(len(chrony.offsets(name, restarted)) >= 2 for name in chrony.names))
        offsets_are_right(chrony, "chronyd after a restart of the daemon", restarted)
        check("chronyd after a restart of the daemon: the pulses are selected", True, chrony.is_selected("SOCP", "SHMP") or chrony.states())
        chrony.stop()
        restarted = time.time()
        chrony.start()
        until(lambda: len(chrony.offsets("SOCP", restarted)) >= 2)
        check("chronyd after a restart of its own", True, len(chrony.offsets("SOCP", restarted)) >= 2 or clock.said())
        within("it says few lines", len(clock.said().splitlines()) < 20, clock.said())
    finally:
        clock.stop()
        chrony.stop()
        daemon.stop()
        for unit in (0, 1) if UNITS else ():
            Unit(unit).remove()


def offsets_are_right(chrony, what, after):
    """Pulses within 2 microseconds: the SOCK refclock is told whole ones. Serial times: as late as the receiver. These are raw samples, to
    which chronyd has not added its `offset` yet."""
    for name in chrony.names:
        found = chrony.offsets(name, after)
        if name.endswith("P"):
            within(f"{what}: pulses by {name}, 80 ms fast", found and all(abs(it + FAST / BILLION) < 2e-6 for it in found), found)
        else:
            within(f"{what}: serial times by {name}", found and all(map(is_late, found)), found)


def example_is_read():
    """chronyd reads examples/chrony.conf as it is."""
    found = subprocess.run([shutil.copy(CHRONYD, os.path.join(FOLDER, "reader")), "-p", "-f", os.path.join(TOP, "examples", "chrony.conf")],
                           capture_output=True, text=True, timeout=WAIT)
    check("examples/chrony.conf: chronyd reads it", (0, ["refclock", "refclock"]), (found.returncode, [row.split()[0] for row in found.stdout.splitlines() if row.startswith("refclock")]))


def real_receiver():
    """The parts that need the built daemon and a receiver that keeps the time. The short ones run beside the one of chronyd."""
    receiver = Receiver()
    receiver.start()
    daemon = receiver.serve()
    parts = [lambda: pulses_of_the_daemon(daemon)] + ([lambda: monitor(daemon)] if NTPSHMMON and UNITS else [])
    others = [threading.Thread(target=run_parts, args=(part,)) for part in parts]
    for other in others:
        other.start()
    if CHRONYD and CHRONYC:
        chrony_selects(daemon, receiver, others)
    for other in others:
        other.join()
    receiver.close()


def skipped(reason):
    print(f"skipped: {reason}", flush=True)


UNITS = has_units()
if not UNITS:
    skipped("the segments: a unit of the NTP shared memory is there already, and this user may have no IPC namespace of its own")
if not NTPSHMMON:
    skipped("ntpshmmon: gpsd's clients are not installed (gpsd-clients)")
if not (CHRONYD and CHRONYC):
    skipped("chronyd: it is not installed (chrony)")
with tempfile.TemporaryDirectory() as FOLDER:
    PARTS = [words_are_checked, datagrams_are_exact, messages_are_few, lambda: leaps_are_dropped(FOLDER), nobody_is_waited_for, devices_are_picked,
             stores_are_in_order, barriers, readings_are_whole]
    PARTS += [segments_are_exact] if UNITS else []
    PARTS += [example_is_read] if CHRONYD else []
    STATUS = run_parts(*PARTS, real_receiver)
sys.exit(STATUS)
