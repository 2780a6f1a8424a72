#!/usr/bin/env python3
"""What the daemon's memory is made of: without clients, and with clients that watch.

Use: daemon_memory.py PROGRAM [CLIENTS [MEGABYTES]]. A daemon with one device behind TCP. Printed, in MB of memory in use: without a client;
with CLIENTS (64) that watch in JSON, before anything was sent; and after MEGABYTES (1) of a receiver's sentences were read and all clients
took their lines. Each is split: what is mapped from files, the heap, the stacks of threads (with the KB of one), the arenas that the C
library makes for threads, and what else is anonymous. The same is done with `--queue 1`, which shows what the clients' lanes take, and with
`MALLOC_ARENA_MAX=2` in the environment. Last come the wake-ups a second, without a client. Root is needed to tell the stacks apart.
"""
import os
import selectors
import sys
import threading
import time

sys.path.insert(0, os.path.join(os.path.dirname(os.path.dirname(os.path.abspath(__file__))), "tests"))
from harness import Daemon, TcpDevice, until
from packets import BEGIN, gga, rmc, sentence

PROGRAM = os.path.abspath(sys.argv[1])
CLIENTS = int(sys.argv[2]) if len(sys.argv) > 2 else 64
SIZE = int(1e6 * float(sys.argv[3])) if len(sys.argv) > 3 else 1_000_000
ARENA = 64 << 20  # the C library's arenas of threads begin at a multiple of this
SECONDS = 4
KINDS = ["files", "heap", "stacks", "arenas", "other"]
FORMS = {"default": ([], {}), "--queue 1": (["--queue", "1"], {}), "MALLOC_ARENA_MAX=2": ([], {"MALLOC_ARENA_MAX": "2"})}


def stack_places(daemon):
    """For each thread an address within its stack."""
    places = []
    for task in daemon.tasks():
        with open(f"{daemon.place}/task/{task}/syscall", encoding="ascii") as it:
            words = it.read().split()
        if len(words) > 2:  # else it runs
            places.append(int(words[-2], 16))
    return places


def parts(daemon):
    """The memory in use by kind, in KB, and how many stacks there are."""
    until(daemon.at_rest, 20)
    kinds, stacks, places = dict.fromkeys(KINDS, 0), 0, stack_places(daemon)
    with open(f"{daemon.place}/smaps", encoding="ascii") as it:
        for line in it:
            words = line.split()
            if not words[0].endswith(":"):
                begin, end = (int(address, 16) for address in words[0].split("-"))
                name = words[5] if len(words) > 5 else ""
                if any(begin <= place < end for place in places):
                    kind, stacks = "stacks", stacks + 1
                elif name.startswith("/") or name in ("[vdso]", "[vvar]"):
                    kind = "files"
                elif name == "[heap]":
                    kind = "heap"
                else:
                    kind = "arenas" if begin % ARENA == 0 else "other"
            elif words[0] == "Rss:":
                kinds[kind] += int(words[1])
    return kinds, stacks


def show(name, daemon):
    kinds, stacks = parts(daemon)
    split = ", ".join(f"{kind} {kinds[kind] / 1_000:.2f}" for kind in KINDS)
    each = f" ({stacks} stacks of {kinds['stacks'] / max(stacks, 1):.0f} KB)"
    print(f"  {name:<28} {sum(kinds.values()) / 1_000:6.2f} MB: {split}{each}", flush=True)


def second(t):
    satellites = [f"GPGSV,3,{part + 1},12," + ",".join(f"{4 * part + k:02},40,083,46" for k in range(1, 5)) for part in range(3)]
    return rmc(BEGIN + t) + gga(BEGIN + t) + b"".join(map(sentence, satellites))


class Drain(threading.Thread):
    """Takes what the clients are sent, and counts the bytes of each."""

    def __init__(self, clients):
        super().__init__(daemon=True)
        self.counts, self.chooser = dict.fromkeys(clients, 0), selectors.DefaultSelector()
        for client in clients:
            self.chooser.register(client.socket, selectors.EVENT_READ, client)
        self.start()

    def run(self):
        while True:
            for key, _ in self.chooser.select():
                try:
                    data = key.fileobj.recv(1 << 20)
                except OSError:
                    data = b""
                if not data:
                    self.chooser.unregister(key.fileobj)
                self.counts[key.data] += len(data)


def watched(name, words, environment):
    device = TcpDevice()
    daemon = Daemon(PROGRAM, *words, device.word, environment=environment)
    daemon.listening()
    print(name, flush=True)
    send = device.take().send
    time.sleep(1)
    show("without a client", daemon)
    clients = [daemon.client() for _ in range(CLIENTS)]
    for client in clients:
        client.send(b'?WATCH={"enable":true,"json":true};\n')
    drain = Drain(clients)
    time.sleep(1)
    show(f"{CLIENTS} clients, nothing sent", daemon)
    sent = t = 0
    while sent < SIZE:
        data = b"".join(second(k) for k in range(t, t + 10))
        send(data)
        sent, t = sent + len(data), t + 10
        time.sleep(0.001)
    quiet = 0
    while quiet < 5 and len(drain.chooser.get_map()):  # until nothing more came for a second
        before = sum(drain.counts.values())
        time.sleep(0.2)
        quiet = quiet + 1 if sum(drain.counts.values()) == before else 0
    lost = CLIENTS - len(drain.chooser.get_map())
    show(f"{sent / 1e6:.1f} MB read" + (f", {lost} clients lost" if lost else ""), daemon)
    for client in clients:
        client.close()
    device.close()
    daemon.stop()


def idle():
    device = TcpDevice()
    daemon = Daemon(PROGRAM, device.word)
    daemon.listening()
    device.take()
    time.sleep(1)
    before = daemon.wakeups()
    time.sleep(SECONDS)
    print(f"without a client: {(daemon.wakeups() - before) / SECONDS:.2f} wake-ups a second")
    device.close()
    daemon.stop()


for each, (options, around) in FORMS.items():
    watched(each, options, around)
idle()
