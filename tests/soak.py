#!/usr/bin/env python3
"""A soak of the daemon: `gpsrelay serve` with three receivers, pulse edges and monitors, and sixteen clients that come, watch, change
their policy and go at random while the history turns many times.

Use: soak.py PROGRAM [SECONDS [SEED]]. Prints a line for each check, and ends with 1 if one fails. Every wait is bounded.

Two receivers, gps0 of sentences and gps2 of u-blox frames, are fed as fast as their bytes are taken, but never more than WINDOW seconds
of their time ahead of the slowest client that watches them, so that no client's queue can overrun. Another of sentences, gps1, is fed in
real time beside its pulse edges. What a client must be given is known beforehand (`soak_receivers`); each client holds its stream against
that list, item by item (`soak_clients`, `soak_tracks`); at the end the closing lines are held against both (`soak_closing`).
"""
import os
import sys
import threading
import time

from harness import WAIT, Daemon, FifoDevice, check, many_files, run_parts, until, within
from soak_clients import Sessions, SoakClient
from soak_closing import Closing
from soak_receivers import Frames, Sentences
from soak_tracks import FAR

PROGRAM = os.path.abspath(sys.argv[1])
SECONDS = float(sys.argv[2]) if len(sys.argv) > 2 else 10
SEED = int(sys.argv[3]) if len(sys.argv) > 3 else 1
CLIENTS, STAYERS = 16, 2  # two of the sixteen stay from the beginning to the end
WINDOW, QUEUE, HISTORY = 100, 4096, 100_000
# A trial build keeps freed memory and frames back, to find uses of them; here memory is measured.
TRIAL = {"ASAN_OPTIONS": "quarantine_size_mb=0:thread_local_quarantine_size_kb=0:detect_stack_use_after_return=0"}


class Soak:
    """The daemon with its receivers, its clients and what feeds them."""

    def __init__(self):
        self.begun = time.monotonic()
        self.receivers = [Sentences("gps0", "GP", "GP", 0), Sentences("gps1", "GN", "GL", 6), Frames("gps2")]
        check("replay gives of 200 seconds what is awaited", [True] * 3, [it.as_replayed(PROGRAM, 0, 200) for it in self.receivers])
        self.pulses, self.pulses_told = FifoDevice("gps1", "edges"), 0
        self.stop, self.halt = threading.Event(), threading.Event()
        self.daemon = Daemon(PROGRAM, "--queue", str(QUEUE), "--history", str(HISTORY), "--monitor", "1000",
                             *(it.word for it in self.receivers), self.pulses.word, environment=TRIAL)
        for receiver in self.receivers:
            receiver.take()
        self.sessions = Sessions(self.daemon)
        self.daemon.client().close()
        self.sessions.opened = 1
        self.clients = [SoakClient(self.sessions, self.receivers, self.stop, SEED * 1000 + n, n + 1 if n < STAYERS else 0)
                        for n in range(CLIENTS)]
        self.stayers, self.guests = self.clients[:STAYERS], self.clients[STAYERS:]

    def look(self):
        """Memory in KB, open files, threads."""
        if not self.daemon.running():
            raise RuntimeError(f"the daemon has ended with {self.daemon.process.returncode}, and said {self.daemon.said()[-2000:]}")
        return self.daemon.memory(), self.daemon.open_files(), self.daemon.threads()

    def feed_fast(self, receiver):
        while not self.halt.is_set():
            slowest = min((it.slow.get(receiver.name, FAR) for it in self.clients), default=FAR)
            if receiver.fed - slowest >= WINDOW:
                time.sleep(0.001)
            else:
                receiver.feed(10)

    def feed_slowly(self, receiver):
        """A pulse at each whole second, and the sentences of that second 0.3 s after it."""
        at = int(time.time()) + 1
        while not self.halt.wait(max(0, at - time.time())):
            number = self.pulses_told + 1
            self.pulses.send(f"assert {at}.000000000#{number}\nclear {at}.100000000#{number}\n".encode())
            if self.halt.wait(max(0, at + 0.3 - time.time())):
                break
            receiver.feed()
            self.pulses_told, at = number, at + 1

    def feeders(self):
        """The threads that feed the three receivers, started."""
        fast, slow, frames = self.receivers
        calls = [(self.feed_fast, fast), (self.feed_slowly, slow), (self.feed_fast, frames)]
        threads = [threading.Thread(target=call, args=(receiver,), daemon=True) for call, receiver in calls]
        for it in threads:
            it.start()
        return threads

    def turns(self):
        """How often the bytes of the first receiver have filled the history."""
        first = self.receivers[0]
        return sum(len(packet) for k in range(100) for packet in first.packets(k)) / 100 * first.fed / HISTORY

    def settled(self, wanted):
        """Open files and threads, once they have come down to those wanted, or after a bounded wait."""
        until(lambda: all(a <= b for a, b in zip(self.look()[1:], wanted)), pause=0.05)
        return self.look()[1:]

    def guests_go(self, before):
        """The guests go; what they leave of files and threads is nothing."""
        self.stop.set()
        for client in self.guests:
            client.join(WAIT)
        check("the clients that go have gone", 0, sum(it.is_alive() for it in self.guests))
        files, threads = self.settled(before[1:])
        within("open files are those from before the clients that have gone", files <= before[1], (before[1], files))
        within("threads are those from before the clients that have gone", threads <= before[2], (before[2], threads))

    def end(self):
        """The devices end, then the clients that stayed, then the daemon: what it wrote."""
        for receiver in self.receivers:
            receiver.end()
        self.pulses.end()
        for client in self.stayers:
            client.join(WAIT)
        status, out = self.daemon.wait()
        check("the daemon ends", True, status != "still running")
        check("the status", 0, status)
        return out.decode().splitlines()

    def go(self):
        """The whole soak."""
        time.sleep(0.5)
        base = self.look()
        for client in self.stayers:
            client.start()
        until(lambda: all(it.changes for it in self.stayers))
        feeders = self.feeders()
        time.sleep(SECONDS * 0.15)
        warm = self.look()
        for client in self.guests:
            client.start()
        time.sleep(SECONDS * 0.6)
        until(lambda: self.turns() > 2, pause=0.5)
        # The guests go, and for the rest of the time only those that stay are there: memory must not rise by what is fed alone.
        self.guests_go(warm)
        middle, fed = self.look(), self.receivers[0].fed
        time.sleep(SECONDS * 0.25)
        last = self.look()
        self.halt.set()
        for it in feeders:
            it.join(WAIT)
        count = self.sessions.opened - 1 - STAYERS
        within("while nobody comes or goes memory rises by at most 2 MB", last[0] - middle[0] <= 2048, (middle[0], last[0]))
        within("a client that has gone leaves at most 2 KB", middle[0] - warm[0] <= 8192 + 2 * count, (warm[0], middle[0], count))
        self.results(self.end(), (base[0], warm[0], middle[0], last[0]), self.receivers[0].fed - fed)

    def results(self, lines, memory, seconds):
        closing = Closing(lines)
        closing.streams(self.clients, self.receivers)
        check("replay gives of 200 seconds out of the middle what was awaited", [True] * 3,
              [it.as_replayed(PROGRAM, it.fed // 2, 200) for it in self.receivers])
        closing.sessions(self.clients, self.sessions.opened)
        closing.units(self.receivers, self.pulses_told)
        closing.monitor()
        turns = self.turns()
        within("the history turned", turns > 2, turns)
        print(f"        {[it.fed for it in self.receivers]} seconds fed, {turns:.0f} turns, {self.sessions.opened} sessions, "
              f"{sum(it.changes for it in self.clients)} changes of policy, {sum(it.lines for it in self.clients)} items checked, "
              f"{closing.pulses} pulses; memory in KB at the beginning, before the guests, after them, and {seconds} seconds later: {memory}; "
              f"{time.monotonic() - self.begun:.1f} s", flush=True)


def soak():
    Soak().go()


many_files()
sys.exit(run_parts(soak))
