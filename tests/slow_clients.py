#!/usr/bin/env python3
"""Clients that take little or nothing, and a system that starts no more threads, over the built program: what they cost is bounded, and nobody
waits for them. Every wait is bounded.

Use: slow_clients.py PROGRAM [NAME..]. Prints a line for each check, and ends with 1 if one fails. NAME picks some of the parts.
"""
import os
import re
import shutil
import sys
import tempfile
import threading
import time

from harness import VERSION, Daemon, TcpDevice, check, run_parts, second, side_by_side, slowness, until, within

PROGRAM = os.path.abspath(sys.argv[1])
NOBODY = "61234"  # a user of whom nothing else runs, since a limit of threads counts all threads of a user
WATCH = b'?WATCH={"json":true};'
SMALL = 2048
AWAY = re.compile(r"(a client was|(\d+) clients were) turned away: (.*)")
FULL = ("at most 64 clients are served at a time, and 80 with those that have still to take what is left",
        "all 80 places were held, also by clients that have gone or have still to take what is left, or there was no memory or no thread")


def fixes(count):
    """Sentences of this number of fixes; each is told once the next one begins."""
    return b"".join(second(t, "RMC") for t in range(count + 1))


def started(*words):
    device = TcpDevice()
    return Daemon(PROGRAM, *words, device.word).listening(), device.take()


def watching(daemon):
    """A client with a small buffer, which watches."""
    client = daemon.client(buffer=SMALL)
    client.line()
    client.send(WATCH)
    return client


def one_watching():
    """A daemon with a long queue, its device, and a client with a small buffer that watches; and how many threads the daemon has with it."""
    daemon, device = started("--queue", "65536")
    client = watching(daemon)
    until(daemon.at_rest)
    return daemon, device, client, daemon.threads()


def end_well(title, daemon, device, client):
    """The client goes, then the device ends, and the daemon with it."""
    client.close()
    device.end()
    check(f"{title}: status", 0, daemon.wait()[0])


class Takers:
    """Takes this number of bytes from each client by turns, with a pause between, until it is told to stop."""

    def __init__(self, clients, size, pause):
        self.told, self.clients, self.size, self.pause = threading.Event(), clients, size, pause
        for client in clients:
            client.socket.setblocking(False)
        self.thread = threading.Thread(target=self.take)
        self.thread.start()

    def take(self):
        while not self.told.wait(self.pause):
            for client in self.clients:
                try:
                    client.socket.recv(self.size)
                except OSError:
                    pass

    def stop(self):
        self.told.set()
        self.thread.join()
        for client in self.clients:
            client.close()


def full_house():
    """A daemon and its device, 64 clients that are closed, but take 2,000 bytes each 0.3 s of what is left, and forty that come beside them; how
    many of these are greeted; how many threads the daemon had before, and when the first was closed."""
    daemon, device = started("--queue", "8192")
    until(daemon.at_rest)
    before = daemon.threads()
    takers = Takers([watching(daemon) for _ in range(64)], 2000, 0.3)
    time.sleep(0.5)
    device.send(fixes(30_000))
    until(lambda: daemon.client().receive(len(VERSION), 1))  # it is greeted once one of the 64 is closed; the others follow
    start = time.monotonic()
    time.sleep(0.5)
    later = [daemon.client() for _ in range(40)]
    greeted = sum(client.receive(len(VERSION), 5) == VERSION for client in later)
    return daemon, device, takers, later, greeted, before, start


def draining():
    """64 clients that are closed, but take 2,000 bytes each 0.3 s of what is left: no more than sixteen come beside them, and after ten seconds
    all are gone."""
    daemon, device, takers, later, greeted, before, start = full_house()
    threads = daemon.threads() - before
    print(f"        beside 64 clients that take slowly {greeted} of 40 are greeted, and the clients have {threads} threads", flush=True)
    within("closed clients that still take: others are served beside them", greeted >= 16, greeted)
    within("closed clients that still take: no more than 80 have threads", threads <= 2 * 80, threads)
    for client in later:
        client.close()
    gone = until(lambda: daemon.threads() <= before)
    took = time.monotonic() - start
    takers.stop()
    within("closed clients that still take: after ten seconds all are gone", gone and took < 13 * slowness(), took)
    client = daemon.client()
    check("closed clients that still take: the next one is served", VERSION, client.line())
    end_well("closed clients that still take", daemon, device, client)


def all_go_at_once():
    """The same house: if all go at once, the next client finds a place at once."""
    daemon, device, takers, later, _, before, _ = full_house()
    takers.stop()
    for client in later:
        client.close()
    gone = until(lambda: daemon.threads() <= before, 5 * slowness())
    client = daemon.client()
    check("eighty clients that go at once: the next one is served", (True, VERSION), (gone, client.receive(len(VERSION))))
    end_well("eighty clients that go at once", daemon, device, client)


def connections_of(port):
    """How many connections of this port the system keeps, besides those that are over (TIME_WAIT) and the listener."""
    with open("/proc/net/tcp") as it:
        rows = [line.split() for line in it.readlines()[1:]]
    return sum(row[1].endswith(f":{port:04X}") and row[3] not in ("06", "0A") for row in rows)


def left_to_the_system():
    """What clients that take nothing have not taken when they are ended is not kept by the system for as long as they stay."""
    daemon, device = started("--queue", "65536")
    clients = [watching(daemon) for _ in range(6)]
    before = connections_of(daemon.port)
    device.send(fixes(20_000))
    ended = until(lambda: daemon.threads() <= 8)
    start = time.monotonic()
    within("clients that take nothing: they are ended", ended and before == len(clients), (daemon.threads(), before))
    gone = until(lambda: connections_of(daemon.port) == 0)
    took = time.monotonic() - start
    within("clients that take nothing: the system keeps nothing for them ten seconds later", gone and took < 10 * slowness(), (took, connections_of(daemon.port)))
    for client in clients[1:]:
        client.close()
    end_well("clients that take nothing, and the system", daemon, device, clients[0])


def slow_end():
    """At the daemon's end a client takes 2,000 bytes each 0.3 s of the megabytes that are left: the daemon ends within some ten seconds."""
    daemon, device, client, _ = one_watching()
    device.send(fixes(20_000))
    takers = Takers([client], 2000, 0.3)
    start = time.monotonic()
    device.end()
    status = daemon.wait()[0]
    took = time.monotonic() - start
    takers.stop()
    print(f"        it ended after {took:.1f} s", flush=True)
    within("a client that takes slowly at the end: the daemon ends within 12 s", took < 12 * slowness(), took)
    check("a client that takes slowly at the end: status", 0, status)


def slow_reader():
    """A client that takes 8,000 bytes a second, by the clock, through a small buffer is slow, but takes: it keeps its link, and loses nothing. Its
    system tells of room once half of the buffer is free, which is each 0.15 s."""
    count, rate = 20_000, 8_000
    daemon, device, client, threads = one_watching()
    feeder = threading.Thread(target=device.send, args=(fixes(count),))
    feeder.start()
    start, found = time.monotonic(), bytearray()
    while (passed := time.monotonic() - start) < 20 and daemon.threads() >= threads:
        found += client.receive(max(1, int(rate * passed) - len(found)))
        time.sleep(0.05)
    took = time.monotonic() - start
    within("a reader that is slow keeps its link for 20 s", took >= 20, took)
    while found.count(b'"TPV"') < count and (data := client.receive()):
        found += data
    feeder.join()
    check("a reader that is slow loses nothing", count, found.count(b'"TPV"'))
    end_well("a reader that is slow", daemon, device, client)


def deaf():
    """A client that takes nothing is ended after a second."""
    daemon, device, client, before = one_watching()
    start = time.monotonic()
    device.send(fixes(20_000))
    gone = until(lambda: daemon.threads() < before)
    took = time.monotonic() - start
    within("a client that takes nothing is ended after some second", gone and 1 <= took <= 5 * slowness(), took)
    end_well("a client that takes nothing", daemon, device, client)


class Flood:
    """Clients that send requests as fast as they are taken and read nothing, until all go at once."""

    def __init__(self, daemon, count):
        self.told = threading.Event()
        self.clients = [daemon.client(buffer=SMALL) for _ in range(count)]
        for client in self.clients:
            client.socket.setblocking(False)
        self.thread = threading.Thread(target=self.send)
        self.thread.start()

    def send(self):
        while not self.told.wait(0.01):
            for client in self.clients:
                try:
                    client.socket.send(b"?POLL;" * 2000)
                except OSError:
                    pass

    def go(self):
        self.told.set()
        self.thread.join()
        for client in self.clients:
            client.reset()


def greetings(daemon, count):
    """What each of the given number of clients is sent that come at once, and then go: the greeting, or nothing."""

    def come():
        client = daemon.client()
        first = client.receive(len(VERSION))
        client.close()
        return first

    return list(side_by_side(come, [(number,) for number in range(count)]).values())


def flood():
    """60 clients flood the daemon with requests, read nothing and go, while thirty come at once, again and again: each is greeted, or closed without a
    byte, counted, and the reason said. Nothing more is read of a client that has gone, so soon all of thirty are greeted."""
    daemon, device = started("--report", "86400")
    until(daemon.at_rest)
    before = daemon.threads()
    crowd = Flood(daemon, 60)
    time.sleep(1)
    found = greetings(daemon, 4)
    check("beside 60 clients that flood: four more are greeted", 4, found.count(VERSION))
    going = threading.Thread(target=crowd.go)
    going.start()
    start, last = time.monotonic(), []
    while last.count(VERSION) < 30 and time.monotonic() - start < 10 * slowness():
        last = greetings(daemon, 30)
        found += last
    took = time.monotonic() - start
    going.join()
    away = found.count(b"")
    print(f"        while 60 that flood go, {away} of {len(found)} are turned away, the last after {took:.1f} s", flush=True)
    check("60 that flood and go: each that comes is greeted, or closed without a byte", len(found), found.count(VERSION) + away)
    check("60 that flood and go: soon thirty that come at once are greeted", 30, last.count(VERSION))
    within("60 that flood and go: their threads end", until(lambda: daemon.threads() <= before, 5 * slowness()), daemon.threads())
    device.end()
    check("60 that flood and go: status", 0, daemon.wait()[0])
    device.close()
    said = AWAY.findall(daemon.said())
    counts = f"{60 + len(found) - away} sessions, {away} turned away"
    check("60 that flood and go: those that are turned away are counted", counts, re.findall(r"\d+ sessions, \d+ turned away", daemon.said())[-1])
    check("60 that flood and go: their number is said", away, sum(int(number or 1) for _, number, _ in said))
    check("60 that flood and go: with a true reason", [], [reason for _, _, reason in said if reason not in FULL])


class FewThreads(Daemon):
    """A daemon that may have this number of threads, started as another user."""

    def __init__(self, folder, most, *words):
        program = os.path.join(folder, "gpsrelay")
        if not os.path.exists(program):
            os.chmod(folder, 0o755)
            os.chmod(shutil.copy(PROGRAM, program), 0o755)
        self.most = most
        super().__init__(program, *words, folder="/")

    def call(self, program, words):
        return ["setpriv", f"--reuid={NOBODY}", f"--regid={NOBODY}", "--clear-groups", "prlimit", f"--nproc={self.most}",
                *super().call(program, words)]


def few_threads():
    """No thread for a device that is silent, nor for a client: the others are served, and nothing waits for these."""
    if os.getuid() != 0 or not (shutil.which("setpriv") and shutil.which("prlimit")):
        print("        few threads: left out, as it wants root, setpriv and prlimit", flush=True)
        return
    with tempfile.TemporaryDirectory() as folder:
        # The daemon, its messages, its publisher and its door have four threads; a fifth one reads the first device.
        for most in 5, 4:
            device, silent = TcpDevice("gps0"), TcpDevice("gps1")
            words = [device.word] if most == 5 else []
            daemon = FewThreads(folder, most, *words, silent.word)
            if most == 5:
                client = daemon.client()
                check(f"{most} threads: a client is greeted", VERSION, client.line())
                check(f"{most} threads: and closed", None, client.line())
                client.close()
                device.take().send(fixes(1))
                device.end()
            status = daemon.wait()[0]
            check(f"{most} threads: status", 7, status)
            check(f"{most} threads: the silent device is lost", True, f"{silent.word.partition('=')[2]} was lost: out of memory" in daemon.said())
            device.close()
            silent.close()


def main():
    parts = [deaf, few_threads, flood, draining, all_go_at_once, left_to_the_system, slow_end, slow_reader]
    for name in sys.argv[2:]:
        if name not in [part.__name__ for part in parts]:
            sys.exit(f"slow_clients.py: no part {name}")
    sys.exit(run_parts(*[part for part in parts if not sys.argv[2:] or part.__name__ in sys.argv[2:]]))


main()
