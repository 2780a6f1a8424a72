#!/usr/bin/env python3
"""Measures the daemon as its clients see it, and gpsd beside it if it is installed.

Use: fan_out.py PROGRAM [SENTENCES [CLIENTS [PART...]]]. A receiver behind TCP sends sentences as fast as they are taken; the clients watch in JSON.
Printed: the time until all have all lines, the daemon's processor time a line, whether all streams are the same, peak memory (with
queues so long that no client overruns); the same with the default queues, from a FIFO that keeps at most AHEAD fixes ahead of the
slowest client; the processor time of idle clients; the longest silence of a quick client beside three that never read, from its first fix
on; and the time from a sentence's last byte to a client's first byte at ten sentences a second, both daemons by turns. With PARTs only
those of fan_out, from_fifo, idle, stuck and latency.
"""
import os
import selectors
import shutil
import socket
import sys
import threading
import time
from hashlib import sha256

sys.path.insert(0, os.path.join(os.path.dirname(os.path.dirname(os.path.abspath(__file__))), "tests"))
from harness import Daemon, FifoDevice, Gpsd, TcpDevice, gga, rmc

PROGRAM = os.path.abspath(sys.argv[1])
SENTENCES = int(sys.argv[2]) if len(sys.argv) > 2 else 100_000
CLIENTS = int(sys.argv[3]) if len(sys.argv) > 3 else 64
AHEAD = 2_000
SAMPLES = 200  # sentences of which the time to a client is taken
GPSD = shutil.which("gpsd") or shutil.which("gpsd", path="/usr/sbin")
MIDNIGHT = 1717200000  # of 2024-06-01


def stream(count):
    """RMC and GGA by turns, a second each pair, so that each pair is an epoch."""
    out = []
    for k in range(count // 2):
        place = f"4807.{k % 1000:03d},N,01131.000,E"
        out += [rmc(MIDNIGHT + k, place), gga(MIDNIGHT + k, place)]
    return out


class Run:
    """A daemon with one device, behind TCP or, of gpsrelay, a FIFO."""

    def __init__(self, kind, *words, fifo=False):
        self.device = FifoDevice() if fifo else TcpDevice()
        if kind == "gpsd":
            self.daemon = Gpsd(GPSD, f"tcp://127.0.0.1:{self.device.port}")
        else:
            self.daemon = Daemon(PROGRAM, *words, self.device.word)
        self.cpu = self.daemon.cpu

    def sender(self):
        """What sends to the daemon as the device."""
        return self.device.take().send

    def client(self, watch=b'?WATCH={"enable":true,"json":true};\n'):
        it = self.daemon.client(seconds=20)
        if watch:
            it.send(watch)
        return it

    def end(self):
        self.device.close()
        self.daemon.wait(5)


def fan_out(kind, fifo=False):
    run = Run(kind, fifo=True) if fifo else Run(kind, "--queue", "65536")
    links = [run.client() for _ in range(CLIENTS)]
    clients = [it.socket for it in links]
    send = run.sender()
    time.sleep(0.5)
    lines = stream(SENTENCES)
    wanted = len(lines) // 2 - 2
    chooser = selectors.DefaultSelector()
    state = {}
    for client in clients:
        client.setblocking(False)
        chooser.register(client, selectors.EVENT_READ)
        state[client] = [b"", 0, sha256()]
    done = set()
    before, begun = run.cpu(), time.monotonic()

    def feed():
        for at in range(0, len(lines), 1_000):
            while fifo and at // 2 - min(it[1] for it in state.values()) > AHEAD and len(done) < len(clients):
                time.sleep(0.0005)
            send(b"".join(lines[at:at + 1_000]))

    feeder = threading.Thread(target=feed)
    feeder.start()
    end = time.monotonic() + 120
    while len(done) < len(clients) and time.monotonic() < end:
        for key, _ in chooser.select(1):
            client = key.fileobj
            try:
                data = client.recv(1 << 20)
            except (BlockingIOError, ConnectionResetError):
                continue
            if not data:
                chooser.unregister(client)
                done.add(client)
                continue
            rest, count, digest = state[client]
            whole, _, rest = (rest + data).rpartition(b"\n")
            for line in whole.split(b"\n"):
                if line.startswith(b'{"class":"TPV"'):
                    count += 1
                    if count <= wanted:
                        digest.update(line)
            state[client] = [rest, count, digest]
            if count >= wanted:
                done.add(client)
    wall, spent = time.monotonic() - begun, run.cpu() - before
    counts = [it[1] for it in state.values()]
    total = sum(counts)
    same = len({it[2].hexdigest() for it in state.values()})
    print(f"{kind:9} {SENTENCES} sentences{' from a FIFO, default queues' if fifo else ''}, {CLIENTS} clients: {wall:.2f} s, {spent / max(total, 1) * 1e6:.2f} us of processor time a line, "
          f"{total} lines, {sum(c >= wanted for c in counts)} clients have all, {same} different streams, peak {run.daemon.peak() / 1024:.1f} MB", flush=True)
    feeder.join(10)
    for link in links:
        link.close()
    run.end()


def from_fifo(kind):
    if kind == "gpsrelay":
        fan_out(kind, fifo=True)


class Answers:
    """A daemon with one client that watches sentences, and how long each took to it."""

    def __init__(self, kind):
        self.kind, self.run, self.waits = kind, Run(kind), []
        self.client = self.run.client(b'?WATCH={"enable":true,"nmea":true};\n')
        self.send = self.run.sender()
        time.sleep(0.5)
        self.client.receive(seconds=2)
        while self.client.receive(seconds=0.3):
            pass

    def ask(self, line):
        self.send(line)
        begun = time.monotonic()
        if self.client.receive(seconds=3) is not None:
            self.waits.append((time.monotonic() - begun) * 1000)

    def middle(self):
        waits = sorted(self.waits[20:])
        print(f"{self.kind:9} from a sentence's last byte to the client's first: {waits[len(waits) // 2]:.2f} ms at the middle, "
              f"{waits[len(waits) // 10]:.2f} ms at the tenth of a hundred, {waits[int(len(waits) * 0.99) - 1]:.2f} ms at the 99th", flush=True)
        self.client.close()
        self.run.end()
        return waits[len(waits) // 2]


def latency(kinds):
    """The daemons by turns, sentence by sentence, so that a busy machine delays both alike."""
    sides = [Answers(kind) for kind in kinds]
    for line in stream(SAMPLES + 20):
        for side in sides:
            side.ask(line)
            time.sleep(0.1 / len(sides))
    middles = [side.middle() for side in sides]
    if len(middles) == 2:
        print(f"          that is {middles[0] / middles[1]:.2f} of gpsd's", flush=True)


def idle(kind):
    run = Run(kind)
    clients = [run.client() for _ in range(CLIENTS)]
    run.sender()
    time.sleep(1)
    before, woken = run.cpu(), run.daemon.wakeups()
    time.sleep(5)
    print(f"{kind:9} {CLIENTS} idle clients: {(run.cpu() - before) / 5 * 100:.2f} % of a processor, "
          f"{(run.daemon.wakeups() - woken) / 5:.0f} wake-ups a second", flush=True)
    for client in clients:
        client.close()
    run.end()


def stuck(kind):
    run = Run(kind)
    quick = run.client()
    others = []
    for _ in range(3):
        it = run.client(None)
        it.socket.setsockopt(socket.SOL_SOCKET, socket.SO_RCVBUF, 4096)
        it.send(b'?WATCH={"enable":true,"json":true,"nmea":true};\n')
        others.append(it)
    send = run.sender()
    lines = stream(60_000)  # made before anything is measured
    stamps, stop = [], threading.Event()

    def read():
        while not stop.is_set() and not quick.ended:
            data = quick.receive(seconds=1)
            if data and (stamps or b'"TPV"' in data):
                stamps.append(time.monotonic())

    reader = threading.Thread(target=read)
    reader.start()
    for at in range(0, len(lines), 20):
        send(b"".join(lines[at:at + 20]))
        time.sleep(0.004)
    time.sleep(1)
    stop.set()
    reader.join(5)
    gaps = [b - a for a, b in zip(stamps, stamps[1:])]
    print(f"{kind:9} longest silence of a quick client beside 3 stuck ones: {max(gaps, default=0):.3f} s", flush=True)
    for it in others + [quick]:
        it.close()
    run.end()


KINDS = ["gpsrelay", "gpsd"] if GPSD else ["gpsrelay"]
PARTS = sys.argv[4:] or ["fan_out", "from_fifo", "idle", "stuck", "latency"]
for part in fan_out, from_fifo, idle, stuck:
    for each in KINDS if part.__name__ in PARTS else []:
        part(each)
if "latency" in PARTS:
    latency(KINDS)
