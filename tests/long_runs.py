#!/usr/bin/env python3
"""What a daemon does only after a quarter of an hour, or after a hundred thousand clients. The gate leaves this out, because it takes so long.

Use: long_runs.py PROGRAM [NAME..]. NAME picks some of the parts: `idle` (15 minutes) and `sessions` (three hours, since the door takes ten
clients a second). Prints a line for each check, and ends with 1 if one fails. Every wait is bounded.
"""
import os
import socket
import sys
import threading
import time
from concurrent.futures import ThreadPoolExecutor

from harness import *

PROGRAM = os.path.abspath(sys.argv[1])
IDLE = 900        # seconds without a request after which a client that watches nothing is closed
LATE = 10         # seconds that this may come late
SESSIONS = 100_000
MANY = 90_000
NEAR = "90000 of the 100000 sessions of a run are used"
LAST = "the last of the 100000 sessions of a run is used"
AWAY = "a client was turned away: all 100000 sessions of this run are used"
AT_A_TIME = 16    # clients that come and go
SOURCES = 10_000  # clients from one address of the loopback, so that their closed ports do not run out


class Waiting(threading.Thread):
    """A client that sends these requests, each at its time, and then waits for its end: `at` is when that came, in seconds from its last
    request."""

    def __init__(self, daemon, *requests):
        super().__init__(daemon=True)
        self.client, self.requests, self.at = daemon.client(), requests, None
        self.start()

    def run(self):
        begun = time.monotonic()
        for after, request in self.requests:
            time.sleep(max(0, begun + after - time.monotonic()))
            self.client.send(request)
            last = time.monotonic()
        while (data := self.client.receive(seconds=IDLE + LATE)) is not None:
            if not data:
                self.at = time.monotonic() - last
                return


def idle():
    """A client that has asked and watches nothing is closed 15 minutes after its last request; one that watches is not."""
    device = TcpDevice()
    daemon = Daemon(PROGRAM, device.word)
    device.take()
    asked = Waiting(daemon, (0, b"?VERSION;"))
    turned_off = Waiting(daemon, (0, b'?WATCH={"json":true};'), (5, b'?WATCH={"enable":false};'))
    again = Waiting(daemon, (0, b"?VERSION;"), (IDLE / 2, b"?DEVICES;"))
    watching = Waiting(daemon, (0, b'?WATCH={"json":true};'))
    begun = time.monotonic()
    time.sleep(IDLE - 5)
    check("5 s before the 15 minutes: all four are connected", [None] * 4, [it.at for it in (asked, turned_off, again, watching)])
    until(lambda: asked.at and turned_off.at, 5 + 5 + LATE, pause=0.1)
    for title, it in ("has asked", asked), ("watches no more", turned_off):
        print(f"        one that {title} was closed {it.at and round(it.at, 1)} s after its last request", flush=True)
        check(f"one that {title} is closed 15 minutes after its last request", True, it.at is not None and IDLE - 1 <= it.at <= IDLE + LATE)
    time.sleep(max(0, begun + IDLE + 5 + LATE - time.monotonic()))
    check("one that asked again in between is not", None, again.at)
    check("nor is one that watches", None, watching.at)
    device.send(second(0) + second(1))
    device.end()
    status, out = daemon.wait()
    check("idle: status", 0, status)
    check("idle: the closings", ["hungup", "hungup"], [line.split()[2] for line in out.decode().splitlines()[:2]])


def come_and_go(daemon, number):
    """A client that is greeted and goes; whether it was greeted."""
    with socket.socket() as link:
        link.settimeout(WAIT)
        link.bind((f"127.0.0.{2 + number // SOURCES}", 0))
        link.connect(("127.0.0.1", daemon.port))
        try:
            return link.recv(4096).startswith(b'{"class":"VERSION"')
        except ConnectionResetError:
            return False


def sessions():
    """It says when the sessions of a run come to their end, turns away who comes then, and serves its clients on."""
    device = TcpDevice()
    daemon = Daemon(PROGRAM, device.word)
    device.take()
    watching = daemon.client()
    watching.watching()
    before, begun, greeted, tries = daemon.memory(), time.monotonic(), 1, 0

    def reach(count):
        """Lets clients come and go, sixteen at a time, until the given number was greeted."""
        nonlocal greeted, tries
        with ThreadPoolExecutor(AT_A_TIME) as pool:
            while greeted < count and tries < 2 * SESSIONS:
                some = range(tries, tries + min(count - greeted, 1_000))
                tries += len(some)
                greeted += sum(pool.map(lambda number: come_and_go(daemon, number), some))

    reach(MANY - 1)
    check("before the 90,000th client it says nothing of it", False, NEAR in daemon.said())
    reach(MANY + 1)  # what became of a client is looked at when the next one comes
    check("at the 90,000th it says so, once", True, until(lambda: daemon.said().count(NEAR) == 1, 5))
    reach(SESSIONS)
    check("100,000 clients are greeted", SESSIONS, greeted)
    print(f"        {greeted} clients within {time.monotonic() - begun:.0f} s, {tries + 1 - greeted} turned away before; "
          f"{before / 1024:.1f} MB of memory before and {daemon.memory() / 1024:.1f} after them", flush=True)
    check("the next is not", False, come_and_go(daemon, tries) or come_and_go(daemon, tries))
    check("it says that the last session is used", True, until(lambda: LAST in daemon.said(), 5))
    check("and that a client was turned away", True, until(lambda: come_and_go(daemon, tries) or AWAY in daemon.said(), 5))
    device.send(second(0) + second(1))
    device.end()
    check("the first client is served to the end", 2, sum(b'"TPV"' in line for line in watching.lines()))
    status, out = daemon.wait()
    check("sessions: status and closing lines", (0, SESSIONS), (status, sum(line.startswith(b"s") for line in out.splitlines())))


PARTS = {"idle": idle, "sessions": sessions}
sys.exit(run_parts(*(PARTS[name] for name in sys.argv[2:] or PARTS)))
