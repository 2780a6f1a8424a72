#!/usr/bin/env python3
"""Runs the built daemon as a service: `--reopen`, with a place of each kind that goes and comes back, and `--stop`, in each state of the
daemon. A client beside it keeps one connection, and each byte that it is given is held against what was sent.

Use: service.py PROGRAM [NAME.. | LIMIT]. NAME picks some of the parts, as `tree`. LIMIT is the number of sessions at which PROGRAM stops by
itself, if it was built with a small one (SESSIONS in telling_door.rt): then that alone is run. gpsd is tried where it is installed. Prints a
line for each check, and ends with 1 if one fails. Every wait is bounded.
"""
import select
import signal
import sys
import threading
import time

from harness import *
from service_places import (daemon_again, edges_again, fifo_again, fifo_between, gpsd_again, host_again, other_files, own_address, terminal_again, tree,
                            two_names)
from service_stops import stop_after_fault, stop_anew, stop_at_once, stop_connecting, stop_looking_up, stop_twice, stop_under_flood, stop_waits
from service_tools import PROGRAM, SOON, Service, Watched, Watcher, freeze

BURST = 128       # links that are taken at once
PACE = 10         # links a second after them
NONE_LEFT = "has no file descriptor left: raise LimitNOFILE"


def pace():
    """Links that come in a loop: a burst at once, and then at most ten a second. A newcomer is served beside them."""
    device = TcpDevice()
    service = Service(device.word, "--queue", "16")
    service.listening()
    device.take()

    def visit():
        client = service.client()
        greeting = client.line()
        client.close()
        return greeting == VERSION

    begun = time.monotonic()
    first = sum(visit() for _ in range(BURST))
    quick = time.monotonic() - begun
    more = 25
    begun = time.monotonic()
    later = sum(visit() for _ in range(more))
    slow = time.monotonic() - begun
    check("pace: all are greeted", BURST + more, first + later)
    within(f"pace: {BURST} links at once", quick < 8 * slowness(), f"{quick:.1f} s")
    spare = PACE * quick  # links that the time of the burst allowed besides
    least = max(0, (more - spare - 2) / PACE)
    within(f"pace: {more} more take at least {least:.1f} s", least <= slow <= 12 * slowness(), f"{slow:.1f} s")
    service.ends("after a burst")
    device.close()


def sessions(limit):
    """A build whose limit is small: at the last session the daemon stops in order."""
    device = TcpDevice()
    service = Service(device.word)
    watcher = Watcher(service)
    device.take().send(second(0))
    check("the last session: sentences before it", True, watcher.takes(second(0)))
    opened = 1
    while opened < limit:
        client = service.client()
        client.line()
        client.close()
        opened += 1
    client = None
    status, out = service.wait(SOON + 12)
    check("the last session: status", 0, status)
    check("the last session: closing lines", limit, out.count(b"\ns") + out.startswith(b"s"))
    check("the last session: the stream's end", b"", watcher.rest())
    check("the last session: it is said", True, f"the last of the {limit} sessions of a run is used: the daemon stops" in service.said())
    device.close()


def few_files():
    """No descriptor is left for a client: that is said once. A client needs two; if there is none it waits, and if there is one it is closed."""
    waited = []
    for files in 16, 17:
        device = TcpDevice()
        daemon = Daemon(PROGRAM, device.word, files=files)
        device.take()
        clients, greeting = [], VERSION
        while greeting and len(clients) < files:
            clients.append(daemon.client())
            until(lambda: select.select([clients[-1].socket], [], [], 0)[0] or NONE_LEFT in daemon.said())
            greeting = clients[-1].receive(seconds=1)
        check(f"{files} files: it is said that none is left", True, daemon.says(NONE_LEFT))
        time.sleep(1)
        check(f"{files} files: once", 1, daemon.said().count("LimitNOFILE"))
        clients[0].close()
        if greeting is None:
            waited.append(clients[-1].receive())
        for client in clients:
            client.close()
        device.end()
        check(f"{files} files: status", 0, daemon.wait()[0])
        device.close()
    check("one that waits for a descriptor is served once another has gone", [VERSION], waited)


def frozen():
    """A process that is stopped for more than a minute ends no client that did ask meanwhile."""
    device = TcpDevice()
    daemon = Daemon(PROGRAM, device.word)
    device.take()
    asked = daemon.client()
    asked.line()
    silent = daemon.client()
    silent.line()
    time.sleep(1)
    freeze(daemon)
    asked.send(b'?WATCH={"nmea":true};')
    time.sleep(63)
    daemon.process.send_signal(signal.SIGCONT)
    check("stopped for a minute: who asked meanwhile is answered", [b"DEVICES", b"WATCH"],
          [(asked.line() or b"").partition(b'"class":"')[2].partition(b'"')[0] for _ in range(2)])
    device.send(second(0))
    check("stopped for a minute: and is served", second(0), asked.line() + asked.line())
    check("stopped for a minute: who asked nothing is closed", b"", silent.receive())
    asked.close()
    silent.close()
    device.end()
    check("stopped for a minute: status", 0, daemon.wait()[0])
    device.close()


def frozen_head():
    """The answer of another daemon was whole in time, but this one was stopped meanwhile."""
    upstream = TcpDevice("up")
    daemon = Watched(f"up=gpsd:127.0.0.1:{upstream.port}")
    watcher = Watcher(daemon)
    upstream.take()
    upstream.link.recv(1000)
    time.sleep(0.5)
    freeze(daemon)
    answer = VERSION + b'{"class":"DEVICES","devices":[]}\r\n{"class":"WATCH","enable":true,"raw":2}\r\n'
    upstream.send(answer)
    time.sleep(12)
    daemon.process.send_signal(signal.SIGCONT)
    upstream.send(second(0))
    check("an answer that was whole before its time is taken", True, watcher.takes(second(0)))
    upstream.end()
    check("an answer that was whole before its time: status", 0, daemon.wait()[0])
    upstream.close()


QUICK = [terminal_again, fifo_again, fifo_between, other_files, two_names, host_again, daemon_again, gpsd_again, edges_again, tree, stop_at_once, stop_waits, stop_connecting, stop_looking_up, stop_anew, stop_twice,
         stop_after_fault, stop_under_flood, pace, own_address, few_files]
SLOW = [frozen, frozen_head]


def all_parts():
    """All of them; the slow ones beside the others."""
    slow = [threading.Thread(target=run_parts, args=(part,)) for part in SLOW]
    for thread in slow:
        thread.start()
    run_parts(*QUICK)
    for thread in slow:
        thread.join()


words = sys.argv[2:]
if not words:
    all_parts()
elif words[0].isdigit():
    run_parts(lambda: sessions(int(words[0])))
else:
    run_parts(*(part for part in QUICK + SLOW if part.__name__ in words))
sys.exit(exit_status())
