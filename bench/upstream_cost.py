#!/usr/bin/env python3
"""What another daemon as a device costs beside a TCP device that sends the same bytes: processor time of the daemon, by turns.

Use: upstream_cost.py PROGRAM [ROUNDS]. In each of the rounds (7) two daemons read the same 100,000 sentences, as fast as they take them:
one with the word `up=tcp:..`, one with `up=gpsd:..`, whose server sends a daemon's answer before. Once nobody listens, and once one client
watches. Printed: the least and the middle time of each, and the middle of the rounds' ratios. The clients' lines must be the same.
"""
import os
import statistics
import sys
import threading
from hashlib import sha256

sys.path.insert(0, os.path.join(os.path.dirname(os.path.dirname(os.path.abspath(__file__))), "tests"))
from harness import VERSION, Daemon, TcpDevice, second

PROGRAM = os.path.abspath(sys.argv[1])
ROUNDS = int(sys.argv[2]) if len(sys.argv) > 2 else 7
SECONDS = 50_000  # an RMC and a GGA each
ANSWER = (VERSION + b'{"class":"DEVICES","devices":[{"class":"DEVICE","path":"gps0"}]}\r\n'
          b'{"class":"WATCH","enable":true,"json":false,"nmea":false,"raw":2,"pps":false}\r\n')


def used_at_end(daemon):
    """Its processor time in seconds, once it ended with status 0."""
    _, status, usage = os.wait4(daemon.process.pid, 0)
    daemon.process.returncode = os.waitstatus_to_exitcode(status)
    if daemon.process.returncode != 0:
        sys.exit(f"status {daemon.process.returncode}: {daemon.said()}")
    return usage.ru_utime + usage.ru_stime


class Reading(threading.Thread):
    """A client that watches; `sum` is that of the fixes and skies that it is sent."""

    def __init__(self, daemon):
        super().__init__()
        self.client, self.sum = daemon.client(), None
        self.client.watching()
        self.start()

    def run(self):
        kept = [line for line in self.client.rest().splitlines() if line.startswith((b'{"class":"TPV"', b'{"class":"SKY"'))]
        self.sum = len(kept), sha256(b"\n".join(kept)).hexdigest()


def one_run(kind, data, listens):
    """The processor time of a daemon with a device of this kind, and what its client was sent."""
    device = TcpDevice("up")
    daemon = Daemon(PROGRAM, "--queue", "65536", "--wait", "0", device.word.replace("tcp:", kind + ":"))
    reading = Reading(daemon) if listens else None
    device.take()
    if kind == "gpsd":
        device.link.recv(4096)
        device.send(ANSWER)
    device.send(data)
    device.end()
    used = used_at_end(daemon)
    if reading:
        reading.join()
    device.close()
    return used, reading and reading.sum


def main():
    data = b"".join(second(t) for t in range(SECONDS))
    for listens in False, True:
        found = {"tcp": [], "gpsd": []}
        sums = set()
        for number in range(ROUNDS):
            for kind in ("tcp", "gpsd") if number % 2 else ("gpsd", "tcp"):
                used, got = one_run(kind, data, listens)
                found[kind].append(used)
                sums.add(got)
        title = f"one client watches, of {sums.copy().pop()[0]:,} lines" if listens else "nobody listens"
        print(f"{title} ({len(data):,} bytes, {2 * SECONDS:,} sentences, {ROUNDS} rounds):")
        for kind, times in found.items():
            print(f"  {kind:4}  least {min(times):.3f} s, middle {statistics.median(times):.3f} s")
        ratios = [there / here for here, there in zip(found["tcp"], found["gpsd"])]
        print(f"  ratio: of the least {min(found['gpsd']) / min(found['tcp']):.3f}, middle of the rounds {statistics.median(ratios):.3f}")
        if len(sums) > 1:
            sys.exit("the clients were not sent the same")


main()
