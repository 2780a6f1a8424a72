#!/usr/bin/env python3
"""Which bytes of a client are a request, told by when it is closed: a client that has asked nothing is closed after a minute, one that has
asked and watches nothing after 15 minutes, and one that watches never. And how often a daemon wakes whose device is silent, or sends once a second.

Use: idle.py PROGRAM [whole]. It looks after a minute, and with `whole` after 15 minutes once more. Prints a line for each check, and ends with
1 if one fails. Every wait is bounded.
"""
import os
import sys
import time

from harness import Daemon, TcpDevice, check, run_parts, second, slowness, until, within

PROGRAM = os.path.abspath(sys.argv[1])
MINUTE, QUARTER = 60, 900  # seconds
LATE = 12                  # seconds that an end may come late
WOKEN = 10                 # seconds in which wake-ups are counted
LONG = 1_025 * b"x"        # one byte more than a request has

ASKED_NOTHING = [b"", b" ;\r\n", b"?VERSION", b'?WATCH={"enable":true', b'?WATCH={"device":"a;\n\\"b"', LONG + b";"]
ASKED = [b"?VERSION;", b"?WATCH;", b'?WATCH={}\n?WATCH={"enable":false} \r\n', LONG + b";\n?POLL;"]
WATCHES = [b'?WATCH={"enable":true};', b'?WATCH={};?WATCH={"enable":false,"enable":true};', b'?WATCH={};x?WATCH={"enable":false};',
           b"?WATCH={};?POLL;"]


def is_closed(client):
    """Whether the daemon has closed it; what it was sent is dropped."""
    while data := client.receive(seconds=0.01):
        pass
    return data is not None


def closed(clients):
    return [sent for sent, client in clients if is_closed(client)]


def looks(clients, begun, after, wanted):
    """Shortly before this time as few are closed as before, and soon after it these are."""
    before = closed(clients)
    time.sleep(max(0, begun + after - 5 - time.monotonic()))
    check(f"5 s before {after} s: nobody else is closed", before, closed(clients))
    until(lambda: closed(clients) == wanted, max(0, begun + after + LATE * slowness() - time.monotonic()), pause=0.5)
    check(f"after {after} s: who is closed", wanted, closed(clients))


def idle():
    device = TcpDevice()
    daemon = Daemon(PROGRAM, device.word)
    device.take()
    clients = [(sent, daemon.client()) for sent in ASKED_NOTHING + ASKED + WATCHES]
    begun = time.monotonic()
    for sent, client in clients:
        client.line()
        client.send(sent)
    looks(clients, begun, MINUTE, ASKED_NOTHING)
    if "whole" in sys.argv[2:]:
        looks(clients, begun, QUARTER, ASKED_NOTHING + ASKED)
    device.send(second(0) + second(1))
    device.end()
    check("status", 0, daemon.wait()[0])


def wakeups():
    """`--cycle-gap`: none more while the device is silent, and three more for each burst: its reader, the pump, the client's writer."""
    def woken(seconds, send):
        before = [daemon.wakeups() for daemon in daemons]
        for t in range(seconds):
            if send:
                for device in devices:
                    device.send(second(1 + t))
            time.sleep(1)
        return [daemon.wakeups() - was for daemon, was in zip(daemons, before)]

    devices = [TcpDevice(), TcpDevice()]
    daemons = [Daemon(PROGRAM, *words, device.word) for words, device in zip(([], ["--cycle-gap", "50"]), devices)]
    clients = [daemon.client() for daemon in daemons]
    for client, device in zip(clients, devices):
        client.watching()
        device.take().send(second(0))
    time.sleep(2)
    without, with_it = woken(WOKEN, send=False)
    within("silent: no more wake-ups with --cycle-gap, but for five", with_it <= without + 5, (without, with_it))
    without, with_it = woken(WOKEN, send=True)
    within("a burst a second: three more wake-ups each, but for ten", with_it <= without + 3 * WOKEN + 10, (without, with_it))
    for client, daemon in zip(clients, daemons):
        client.close()
        daemon.stop()


sys.exit(run_parts(wakeups, idle))
