#!/usr/bin/env python3
"""The last bytes of a session, over the built program: a client that reads on sees every byte of a session that is called drained, whatever it
sends meanwhile. Every wait is bounded.

Use: last_bytes.py PROGRAM. Prints a line for each check, and ends with 1 if one fails.
"""
import os
import re
import sys
import threading
import time

from harness import WAIT, Daemon, TcpDevice, check, run_parts, second, slowness, until, within

PROGRAM = os.path.abspath(sys.argv[1])
WATCH = b'?WATCH={"json":true};'
SMALL = 4096


def fixes(count):
    """Sentences of this number of fixes; each is told once the next one begins."""
    return b"".join(second(t, "RMC") for t in range(count + 1))


class Asker:
    """Sends a request each 20 ms until its link ends, as a client does that never stops asking."""

    def __init__(self, client, request=b"?VERSION;"):
        self.client, self.request = client, request
        self.thread = threading.Thread(target=self.ask, daemon=True)
        self.thread.start()

    def ask(self):
        try:
            while True:
                self.client.send(self.request)
                time.sleep(0.02)
        except OSError:
            pass


def started(*words):
    device = TcpDevice()
    daemon = Daemon(PROGRAM, *words, device.word).listening()
    return daemon, device.take()


def watching(daemon):
    client = daemon.client(buffer=SMALL)
    client.line()
    client.send(WATCH)
    client.line(), client.line()
    return client


def read_on(client, pause=0.002, found=b""):
    """How many lines come to the end of the link, with those that came before, read slowly enough that the daemon has done its part long before."""
    found, end = bytearray(client.buffer) + found, time.monotonic() + 2 * WAIT
    while time.monotonic() < end:
        try:
            data = client.receive(8192)
        except OSError:
            break
        if not data:
            break
        found += data
        time.sleep(pause)
    return found.count(b"\r\n")


def closing(out):
    """How the first session ended: whether it was drained, why it was closed, and how many items it was given."""
    how, why, items = re.search(rb"^s0 (\w+) (\w+) (\d+)$", out, re.M).groups()
    return how, why, int(items)


def ask_at_the_end():
    """The device ends, and so does the daemon, beside a client that asks on and reads slowly: it sees all."""
    daemon, device = started("--queue", "65536")
    client = watching(daemon)
    Asker(client)
    device.send(fixes(6_000))
    device.end()
    lines = read_on(client)
    client.close()
    status, out = daemon.wait()
    how, why, items = closing(out)
    # Each item is one line, but for the answer to WATCH, which has two.
    check("asking at the daemon's end: how it ended", (0, b"drained", b"daemonend"), (status, how, why))
    check("asking at the daemon's end: the lines that came", items + 1 - 3, lines)


def ask_after_an_overrun():
    """A client that was closed, as it fell behind, asks on and reads: it sees all that was put into its queue."""
    daemon, device = started("--queue", "2000")
    client = watching(daemon)
    before = daemon.threads()
    Asker(client)
    feeder = threading.Thread(target=device.send, args=(fixes(60_000),))
    feeder.start()
    # It takes little until the daemon has read all that the device sends, so that its queue is full long before.
    slow = bytearray()
    while feeder.is_alive() or len(slow) < 20_000 or not daemon.at_rest():
        slow += client.receive(1_000) or b""
        time.sleep(0.02)
    feeder.join()
    lines = read_on(client, 0, slow)
    client.close()
    gone = until(lambda: daemon.threads() < before)
    device.end()
    status, out = daemon.wait()
    how, why, items = closing(out)
    within("asking after an overrun: its threads are gone", gone, gone)
    check("asking after an overrun: how it ended", (0, b"drained", b"overrun"), (status, how, why))
    check("asking after an overrun: the lines that came", items + 1 - 3, lines)


def end_beside(title, count, least, most):
    """The daemon's end beside a client that has taken one line of this number of fixes, reads nothing more and keeps its link: its session is
    not called drained, and the daemon waits for it as many seconds as these bounds say. Returns what the client could still read then, and how
    long the daemon waited."""
    daemon, device = started()
    client = watching(daemon)
    device.send(fixes(count))
    client.line()
    until(daemon.at_rest)
    start = time.monotonic()
    device.end()
    status, out = daemon.wait()
    took = time.monotonic() - start
    lines = read_on(client, 0)
    client.close()
    within(f"{title}: the daemon ends within {most} s", took < most * slowness(), took)
    check(f"{title}: the daemon waits for {least} s", True, took > least)
    how, why, items = closing(out)
    check(f"{title}: how it ended", (0, b"writefault", b"daemonend"), (status, how, why))
    return lines, items, took


def stay_at_the_end():
    """A client that stays cannot be known to have read all. If its system has all, the daemon waits two seconds, and the client loses nothing; while
    bytes are on their way, ten."""
    lines, items, short = end_beside("a client that stays and whose system has all", 3, 1.5, 4)
    check("a client that stays and whose system has all: the lines that came", items + 1 - 3 - 1, lines)
    # More than a client's small buffer takes, and less than the system takes of the daemon.
    _, _, long = end_beside("a client that stays while bytes are on their way", 100, 9, 13)
    within("a client that stays and whose system has all: it is waited for some eight seconds less", short < long - 4, (short, long))


def resets_in_the_drain():
    """Clients that reset their links while the daemon waits for them to take what it has sent: none of them has all, and none is called drained."""
    daemon, device = started()
    clients = [watching(daemon) for _ in range(24)]
    device.send(fixes(100))  # more than a client's small buffer takes, and less than the system takes of the daemon
    device.end()
    until(lambda: "has ended" in daemon.said())
    until(daemon.at_rest)
    for client in clients:
        client.reset()
    status, out = daemon.wait()
    ends = [line.split()[1:3] for line in out.splitlines() if line.startswith(b"s")]
    check("resets in the drain: how they ended", (0, [[b"writefault", b"daemonend"]] * 24), (status, ends))


def half_closed():
    """A client that has closed its sending side before, and reads: it sees all, and the daemon does not wait for it."""
    daemon, device = started("--queue", "65536")
    client = watching(daemon)
    device.send(fixes(50))
    client.line()
    client.finish()
    start = time.monotonic()
    lines = read_on(client)
    took = time.monotonic() - start
    client.close()
    device.end()
    status, out = daemon.wait()
    how, why, items = closing(out)
    within("a client that closed its side: it ends at once", took < 5 * slowness(), took)
    check("a client that closed its side: how it ended", (0, b"drained", b"hungup"), (status, how, why))
    check("a client that closed its side: the lines that came", items + 1 - 3 - 1, lines)


def main():
    sys.exit(run_parts(ask_at_the_end, ask_after_an_overrun, stay_at_the_end, resets_in_the_drain, half_closed))


main()
