#!/usr/bin/env python3
"""Memory that does not grow: a daemon answers five million requests of one client, reads three million bytes of a device one at a time, and reads what a
line of 115,200 baud gives in an hour. Its greatest memory after all of each is what it was after the first tenth.

Use: flat_memory.py PROGRAM. Prints a line for each check and one of figures, and ends with 1 if one fails. Every wait is bounded.

The device is a pipe in packet mode (O_DIRECT, see pipe(2)): however many writes wait in it, a read gets the bytes of one. That this is so is seen
by the daemon's number of reads. A client watches and is waited for after each round, so its queue never overruns.
"""
import fcntl
import os
import re
import signal
import sys
import time

from harness import Daemon, FifoDevice, check, run, run_parts, sample, until, within

PROGRAM = os.path.abspath(sys.argv[1])
DRIVE = sample("drive.nmea")
MOST = 300  # seconds, for each of the three
ROOM = 500  # KB: it rose by 0 to 300 each time that it was tried, and a byte for each request or piece would be 900 at least


def too_long(*_):
    raise TimeoutError(f"not over after {MOST} s")


def flat(name, daemon, play, rounds):
    """Plays these rounds. The first tenth may take memory, the others none."""
    signal.alarm(MOST)
    begun = time.monotonic()
    for number in range(rounds):
        if number == rounds // 10:
            before = daemon.peak()
        play()
    after = daemon.peak()
    within(f"{name}: memory rises by at most {ROOM} KB after the first tenth", after - before <= ROOM, (before, after))
    print(f"        {before:,} KB, and then {after:,}; {time.monotonic() - begun:.1f} s", flush=True)


def lines_of(client, count):
    """Waits for the given number of lines of this client."""
    while count > 0:
        data = client.receive()
        if not data:
            raise RuntimeError(f"a client that is still to get {count} lines got {data!r}")
        count -= data.count(b"\n")


def requests(rounds=5_000, each=1_000):
    """One client asks, and reads each answer."""
    device = FifoDevice()
    daemon = Daemon(PROGRAM, "--requests", "4294967294", device.word)
    client = daemon.client()
    client.line()

    def play():
        client.send(b"?POLL;" * each)
        lines_of(client, each)

    flat(f"{rounds * each:,} requests", daemon, play, rounds)
    client.close()
    device.end()
    check("requests: status", 0, daemon.wait()[0])


def reads_of(daemon):
    """How many reads the process has made."""
    with open(f"{daemon.place}/io") as it:
        return int(re.search(r"syscr: (\d+)", it.read())[1])


def pieces(name, size, rounds):
    """A device sends a recorded drive again and again, in pieces of this size."""
    device = FifoDevice()
    fcntl.fcntl(device.file, fcntl.F_SETFL, fcntl.fcntl(device.file, fcntl.F_GETFL) | os.O_DIRECT)
    daemon = Daemon(PROGRAM, device.word)
    client = daemon.client()
    client.watching()
    cut = [DRIVE[at:at + size] for at in range(0, len(DRIVE), size)]
    lines = run(PROGRAM, "decode", given=DRIVE)[1].count(b"\n")
    late = 2  # the fix and the sky of the last second, which come with the next round
    due = lines - late

    def play():
        nonlocal due
        for piece in cut:
            device.file.write(piece)
        lines_of(client, due)
        due = lines

    before = reads_of(daemon)
    flat(f"{len(DRIVE) * rounds:,} bytes {name}", daemon, play, rounds)
    enough = before + len(cut) * rounds
    within(f"{name}: a read of the daemon for each", until(lambda: reads_of(daemon) >= enough), (before, reads_of(daemon), enough))
    device.end()
    client.rest()
    check(f"{name}: status", 0, daemon.wait()[0])


def single_bytes():
    pieces("one at a time", 1, 46)


def an_hour():
    pieces("in pieces of 64", 64, 630)


signal.signal(signal.SIGALRM, too_long)  # a write to a pipe whose reader reads no more would wait without end
sys.exit(run_parts(requests, single_bytes, an_hour))
