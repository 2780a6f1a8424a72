#!/usr/bin/env python3
"""Faults of the outside, over the built program: full disks, readers that go, bytes that come and go one by one, inputs that cannot be
read, clients that reset their link at each point of a conversation, a daemon that is stopped and continued, and readers that wait at a
FIFO at the daemon's end. Every wait is bounded.

Use: faults.py PROGRAM. Prints a line for each check, and ends with 1 if one fails.
"""
import contextlib
import fcntl
import os
import re
import signal
import subprocess
import sys
import threading
import time

from harness import WAIT, Daemon, FifoDevice, TcpDevice, check, free_port, run, run_parts, sample_path, second, until, within

PROGRAM = os.path.abspath(sys.argv[1])
DRIVE, SCRIPT = sample_path("drive.nmea"), sample_path("two_devices.script")
COMMANDS = [(("decode",), DRIVE), (("pseudo",), DRIVE), (("replay",), SCRIPT), (("generate", "--seed", "1", "--size", "3"), os.devnull),
            (("lines",), os.devnull), (("serve", "--listen", f"127.0.0.1:{free_port()}", f"g=file:{DRIVE}"), os.devnull)]


def rmc(t):
    """The one sentence of second t."""
    return second(t, "RMC")


def content(path):
    with open(path, "rb") as it:
        return it.read()


def whole(words, path):
    """What the program writes if nothing fails."""
    return run(PROGRAM, *words, given=content(path))[1]


def full_disk():
    for words, path in COMMANDS:
        with open(path, "rb") as it, open("/dev/full", "wb") as out:
            done = subprocess.run([PROGRAM, *words], stdin=it, stdout=out, stderr=subprocess.DEVNULL, timeout=WAIT)
        check(f"{words[0]} onto a full disk: status", 4, done.returncode)


def reader_goes():
    """The reader of standard output goes after some bytes: what it had is the beginning of what was due."""
    for words, path in COMMANDS[:3]:
        due = whole(words, path)
        for count in 1, 100, len(due) // 2:
            reader, writer = os.pipe()
            fcntl.fcntl(writer, fcntl.F_SETPIPE_SZ, 4096)
            with open(path, "rb") as it:
                process = subprocess.Popen([PROGRAM, *words], stdin=it, stdout=writer, stderr=subprocess.DEVNULL)
            os.close(writer)
            had = os.read(reader, count)
            while len(had) < count and (more := os.read(reader, count - len(had))):
                had += more
            os.close(reader)
            status = process.wait(WAIT)
            # If all that was left fits into the pipe the program may have ended before.
            check(f"{words[0]}, its reader goes after {count} bytes", (True, True),
                  (due.startswith(had), status == 4 or status == 0 and len(due) - count <= 4096))


def byte_by_byte():
    """Each read of the program gets one byte or a few, and its pipe holds a page that is emptied in small pieces."""
    for words, path in COMMANDS[:3]:
        due = whole(words, path)
        process = subprocess.Popen([PROGRAM, *words], stdin=subprocess.PIPE, stdout=subprocess.PIPE, bufsize=0)
        fcntl.fcntl(process.stdout, fcntl.F_SETPIPE_SZ, 4096)

        def give():
            data = content(path)
            for at in range(0, 3000):
                process.stdin.write(data[at:at + 1])
            for at in range(3000, len(data), 61):
                process.stdin.write(data[at:at + 61])
            process.stdin.close()

        giver = threading.Thread(target=give, daemon=True)
        giver.start()
        had = bytearray()
        while piece := os.read(process.stdout.fileno(), 7):
            had += piece
        check(f"{words[0]}, byte by byte: status", 0, process.wait(WAIT))
        check(f"{words[0]}, byte by byte: the same", True, bytes(had) == due)


def no_input():
    place = os.open("/", os.O_RDONLY)
    for words in ("decode",), ("pseudo",), ("replay",), ("lines",):
        done = subprocess.run([PROGRAM, *words], stdin=place, stdout=subprocess.PIPE, timeout=WAIT)
        check(f"{words[0]} of a directory: status, and nothing written", (3, b""), (done.returncode, done.stdout))
    os.close(place)


class Served:
    """A daemon with one device over TCP, and a client that watches in JSON from the beginning."""

    def __init__(self):
        self.device = TcpDevice("g")
        self.daemon = Daemon(PROGRAM, self.device.word)
        self.device.take()
        self.good = self.client()
        self.had = b"".join(self.good.watching())

    def client(self, buffer=None):
        return self.daemon.client(buffer, WAIT)

    def counts(self):
        return self.daemon.open_files(), self.daemon.threads()

    def settled(self, wanted):
        until(lambda: self.counts() == wanted)
        return self.counts()

    def end(self):
        """The device ends; the good client's lines, the status and the closing lines."""
        self.device.end()
        self.had += self.good.rest()
        status, out = self.daemon.wait(WAIT)
        return self.had.split(b"\r\n"), status, out.decode()


def fixes_of(lines):
    return [line for line in lines if line.startswith(b'{"class":"TPV"')]


def resets():
    """A client says its part up to each point in turn, and resets the link there, once at once and once with all answers read."""
    served = Served()
    until(served.daemon.at_rest)
    base = served.counts()
    said = b'?VERSION;?WATCH={"json":true,"nmea":true};?POLL;?WATCH={"raw":2};x;'
    points = sorted({0, 1, 3, 9, len(said)} | {at + 1 for at, byte in enumerate(said) if byte == 59} | set(range(12, len(said), 7)))
    t = 0
    for reads in False, True:
        for point in points:
            link = served.client()
            served.device.send(rmc(t))
            with contextlib.suppress(ConnectionResetError):
                link.send(said[:point])
            while reads and link.receive(seconds=0.05):
                pass
            served.device.send(rmc(t + 1))
            t += 2
            link.reset()
    for _ in range(20):  # and before it was greeted
        served.client().reset()
    check("after all resets: open files and threads", base, served.settled(base))
    lines, status, out = served.end()
    check("resets: who watched meanwhile has each fix once, in order", [f"T12:{k // 60:02d}:{k % 60:02d}.000Z".encode() for k in range(t)],
          [re.search(rb"T12:..:..\.000Z", line)[0] for line in fixes_of(lines)])
    check("resets: status", 0, status)
    closings = [line for line in out.splitlines() if line.startswith("s")]
    check("resets: each closing line is one of these", [], [line for line in closings if not re.fullmatch(r"s\d+ (drained|writefault) (hungup|readfault|daemonend) \d+", line)][:3])
    within("resets: at least a session for each point", len(closings) >= 2 * len(points) + 1, len(closings))


def narrow():
    """Reads and writes that are short on both sides: the device sends byte by byte, one client takes a few bytes at a time."""
    served = Served()
    slow = served.client(2304)
    slow.send(b'?WATCH={"json":true};')
    had = bytearray()
    while had.count(b"\n") < 3:  # the watch is answered before anything is fed
        had += slow.receive(37)
    data = b"".join(rmc(t) for t in range(20))

    def feed():
        for at in range(len(data)):
            served.device.send(data[at:at + 1])
        served.device.send(b"".join(rmc(t) for t in range(20, 300)))

    feeder = threading.Thread(target=feed, daemon=True)
    feeder.start()

    def read():
        while piece := slow.receive(37):
            had.extend(piece)

    reader = threading.Thread(target=read, daemon=True)
    reader.start()
    feeder.join(WAIT)
    lines, status, _ = served.end()
    reader.join(WAIT)
    fixes = fixes_of(lines)
    check("short reads of the device: all fixes", 300, len(fixes))
    check("a client that takes 37 bytes at a time: the same fixes", True, fixes_of(bytes(had).split(b"\r\n")) == fixes)
    check("short reads and writes: status", 0, status)


def stopped():
    """A daemon that is stopped and continued again and again takes none of it for a fault."""
    served = Served()
    for t in range(20):
        served.daemon.process.send_signal(signal.SIGSTOP)
        time.sleep(0.01)
        served.daemon.process.send_signal(signal.SIGCONT)
        served.device.send(rmc(t))
        time.sleep(0.02)
    late = served.client()
    check("stopped and continued: a new client is greeted", True, late.receive().startswith(b'{"class":"VERSION"'))
    lines, status, _ = served.end()
    check("stopped and continued: all fixes", 20, len(fixes_of(lines)))
    check("stopped and continued: status", 0, status)


def is_read(path):
    """Whether somebody has this FIFO open for reading."""
    try:
        os.close(os.open(path, os.O_WRONLY | os.O_NONBLOCK))
        return True
    except OSError:
        return False


def lose(daemon, device, readers):
    """Loses a device for lack of memory. Its sentences come one by one until only the threads of this number of readers, that of the
    messages and the calling one are left, and nothing comes after the last."""
    daemon.starve()
    for t in range(100):
        device.send(rmc(t))
        until(lambda: not daemon.running() or daemon.at_rest())
        if not daemon.running() or daemon.threads() <= 2 + readers:
            break


def waiting_readers():
    """At the daemon's end the reader of a device waits for the next byte, and that of its edges for a writer. Both are woken."""
    device, edges = FifoDevice("g"), FifoDevice("g", "edges")
    edges.end()
    daemon = Daemon(PROGRAM, device.word, edges.word).listening()
    until(lambda: daemon.said().count("waiting for a writer") == 2)
    lose(daemon, device, 2)
    # The reader of the edges opens its FIFO only then. If there is no memory for that, it is a fault of its source, which comes first.
    status = daemon.wait()[0]
    check("no memory, while readers wait at FIFOs: status", True, status in (3, 7) or status)
    device.close()
    edges.close()


def waiting_writer():
    """No reader waits at the daemon's end, and a writer waits at a FIFO for the next daemon. It waits on."""
    device, other = FifoDevice("g"), TcpDevice("h")
    daemon = Daemon(PROGRAM, device.word, other.word).listening()
    other.take()
    device.alone()
    check("a FIFO is opened", True, until(lambda: is_read(device.path)))
    device.end()
    check("a FIFO that has ended is closed", True, until(lambda: not is_read(device.path)))
    writer = threading.Thread(target=lambda: os.close(os.open(device.path, os.O_WRONLY)), daemon=True)
    writer.start()
    other.end()
    check("a writer waits at a FIFO for the next daemon: status", 0, daemon.wait()[0])
    check("a writer waits at a FIFO for the next daemon: it waits on", False, until(lambda: not writer.is_alive(), 1))
    os.close(os.open(device.path, os.O_RDONLY | os.O_NONBLOCK))
    writer.join(WAIT)
    device.close()


def replaced():
    """A file that has taken the place of a FIFO is not written into. The reader at the FIFO ends with its next read, which waits a second."""
    device = FifoDevice("g")
    device.alone()
    daemon = Daemon(PROGRAM, device.word).listening()
    until(lambda: is_read(device.path))
    os.remove(device.path)
    open(device.path, "wb").close()
    lose(daemon, device, 1)
    check("no memory, and a file in the place of the FIFO: status", 7, daemon.wait()[0])
    check("no memory, and a file in the place of the FIFO: it stays empty", b"", content(device.path))
    device.close()


sys.exit(run_parts(full_disk, reader_goes, byte_by_byte, no_input, resets, narrow, stopped, waiting_readers, waiting_writer, replaced))
