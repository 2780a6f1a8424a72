#!/usr/bin/env python3
"""A soak of the daemon as a service, `--reopen 1 --stop`: a terminal, a FIFO, a host and another daemon, each of which ends and comes back every
five seconds. One client watches over one connection all the time. No sentence may be lost or come twice, and memory, files and threads stay flat.

Use: service_soak.py PROGRAM [SECONDS]. Ten minutes if no time is given. Prints a line for each check, and ends with 1 if one fails.
"""
import os
import socket
import sys
import tempfile
import threading
import time

from harness import *
from service_tools import PROGRAM, Service, Terminal, Watcher

SECONDS = float(sys.argv[2]) if len(sys.argv) > 2 else 600
PERIOD = 5        # seconds from one end of a device to the next
EACH = 20         # seconds of a receiver's time that are sent each time
QUARTERS = 4


class Going(threading.Thread):
    """A device that comes, sends, and goes, each five seconds. `sent` is what it sent, `faults` what broke."""

    def __init__(self, talker, over, turn):
        super().__init__(daemon=True)
        self.talker, self.over, self.turn = talker, over, turn
        self.sent, self.turns, self.faults = [], 0, []

    def made(self):
        """What it sends next."""
        data = b"".join(second((len(self.sent) * EACH + t) % 86_400, talker=self.talker) for t in range(EACH))
        self.sent.append(data)
        return data

    def run(self):
        try:
            while not self.over.is_set():
                begun = time.monotonic()
                self.turn(self.made)
                self.turns += 1
                self.over.wait(max(0, begun + PERIOD - time.monotonic()))
        except Exception as error:
            self.faults.append(repr(error))


def soak():
    folder = tempfile.TemporaryDirectory()
    tty_path, fifo_path = os.path.join(folder.name, "tty"), os.path.join(folder.name, "fifo")
    os.mkfifo(fifo_path)
    host = socket.create_server(("127.0.0.1", 0))
    host.settimeout(WAIT)
    port = free_port()
    service = Service("--history", "100000", f"a=file:{tty_path}", f"b=file:{fifo_path}", f"c=tcp:127.0.0.1:{host.getsockname()[1]}",
                      f"d=gpsd:127.0.0.1:{port}")
    watcher = Watcher(service)
    watcher.read_on()
    over = threading.Event()

    def terminal(made):
        it = Terminal(tty_path)
        if not it.is_read_by(service):
            raise RuntimeError("the terminal was not opened")
        it.send(made())
        time.sleep(1)  # what a terminal has not handed on is lost when it is closed
        it.unplug()

    def fifo(made):
        with open(fifo_path, "wb", buffering=0) as it:
            it.write(made())

    def connection(made):
        link, _ = host.accept()
        link.sendall(made())
        link.close()

    def daemon(made):
        device = TcpDevice()
        root = Daemon(PROGRAM, "--wait", "1", device.word, port=port)  # it reads nothing before somebody watches
        device.take().send(made())
        device.end()
        device.close()
        root.wait()

    devices = [Going("GP", over, terminal), Going("GN", over, fifo), Going("GL", over, connection), Going("GA", over, daemon)]
    for it in devices:
        it.start()
    figures = [[] for _ in range(QUARTERS)]
    begun = time.monotonic()
    while (passed := time.monotonic() - begun) < SECONDS:
        figures[int(QUARTERS * passed / SECONDS)].append((service.memory(), service.open_files(), service.threads()))
        time.sleep(0.25)
    over.set()
    for it in devices:
        it.join(WAIT)
    time.sleep(2)
    status, _ = service.told()
    lines = watcher.rest().splitlines(keepends=True)
    check("soak: status", 0, status)
    for it in devices:
        check(f"soak: {it.name} {it.talker}: faults", [], it.faults)
        within(f"soak: {it.talker} came back", it.turns >= SECONDS / PERIOD * 0.7, it.turns)
        had = b"".join(line for line in lines if line.startswith(b"$" + it.talker.encode()))
        check(f"soak: {it.talker}: {len(it.sent) * EACH * 2} sentences, none lost and none twice", True, had == b"".join(it.sent) or
              (len(had), len(b"".join(it.sent))))
    greatest = [[max(column) for column in zip(*quarter)] for quarter in figures]
    print(f"        greatest memory in KB, files and threads, by quarters: {greatest}", flush=True)
    (memory, files, threads), last = greatest[1], greatest[-1]
    within("soak: memory is flat", last[0] <= memory + 1024, greatest)
    within("soak: files and threads are flat", last[1] <= files + 2 and last[2] <= threads + 2, greatest)
    host.close()


sys.exit(run_parts(soak))
