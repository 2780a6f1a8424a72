#!/usr/bin/env python3
"""Runs the built daemon behind other daemons, `NAME=gpsd:HOST:PORT`, and checks what its clients get and what it says.

Use: upstream.py PROGRAM. Two daemons in a chain; a chain of three whose middle one is killed; a tree of one root, eight daemons and
sixty-four clients; gpsd before and behind, if it is installed; and small servers that are no daemon, or stop too early. Exits with 1 if
a check failed.
"""
import json
import os
import shutil
import socket
import sys
import threading
import time

from harness import *

PROGRAM = os.path.abspath(sys.argv[1])
GPSD = shutil.which("gpsd") or shutil.which("gpsd", path="/usr/sbin")
SECONDS = 20
HEAD_WAIT = 10  # seconds that the answer of a daemon may take
MOST = 1_048_576  # bytes of the longest answer
DEVICES = b'{"class":"DEVICES","devices":[]}\r\n'


def behind(port, name="up", **more):
    """A daemon whose device is the daemon at this port."""
    return Daemon(PROGRAM, *more.pop("words", []), f"{name}=gpsd:127.0.0.1:{port}", **more)


def reports(lines):
    """The fixes and skies among these lines, without the device's name."""
    found = []
    for line in lines:
        value = json.loads(line)
        if value["class"] in ("TPV", "SKY"):
            value.pop("device")
            found.append(value)
    return found


def names(lines):
    return {value["device"] for value in map(json.loads, lines) if value["class"] in ("TPV", "SKY")}


def watch(daemon):
    client = daemon.client()
    client.watching()
    return client


def is_connected(daemon, port):
    return until(lambda: f"connecting to gpsd:127.0.0.1:{port}" in daemon.said())


def two_in_a_chain():
    device = TcpDevice("gps0")
    first = Daemon(PROGRAM, "--wait", "2", device.word)
    one = watch(first)
    second_daemon = behind(first.listening().port, words=["--wait", "1"])
    two = watch(second_daemon)
    device.take()
    for t in range(SECONDS):
        device.send(second(t))
    device.end()
    ones, twos = one.lines(), two.lines()
    check("chain of two: the first has fixes", True, len(reports(ones)) >= SECONDS - 1)
    check("chain of two: the second's fixes and skies are the first's", reports(ones), reports(twos))
    check("chain of two: the names", ({"gps0"}, {"up"}), (names(ones), names(twos)))
    check("chain of two: it says that it connects", True, is_connected(second_daemon, first.port))
    check("chain of two: it says that its device has ended", True, f"gpsd:127.0.0.1:{first.port} has ended" in second_daemon.said())
    check("chain of two: statuses", [0, 0], [it.wait()[0] for it in (first, second_daemon)])


def middle_killed():
    device, other = TcpDevice("gps0"), TcpDevice("own")
    first = Daemon(PROGRAM, "--wait", "1", device.word)
    middle = behind(first.listening().port, words=["--wait", "1"])
    last = behind(middle.listening().port, words=[other.word])
    client = watch(last)
    device.take(), other.take()
    device.send(second(0) + second(1))
    while client.object().get("device") != "up":
        pass
    middle.process.kill()
    middle.wait()
    place = f"gpsd:127.0.0.1:{middle.port}"
    check("middle killed: the last says so", True, until(lambda: f"gpsrelay: {place} has ended\n" in last.said()))
    other.send(second(5) + second(6))
    found = None
    while found != "own":
        found = client.object().get("device")
    check("middle killed: its other device is served on", "own", found)
    other.end()
    client.lines()
    check("middle killed: status", 0, last.wait()[0])
    device.end()
    first.stop()


def tree():
    many_files()
    device = TcpDevice("gps0")
    root = Daemon(PROGRAM, "--wait", "9", device.word)
    own = watch(root)
    daemons = [behind(root.listening().port, words=["--wait", "8"]) for _ in range(8)]
    clients = [watch(daemon) for daemon in daemons for _ in range(8)]
    device.take()
    for t in range(SECONDS):
        device.send(second(t))
    device.end()
    wanted = reports(own.lines())
    found = [reports(client.lines()) for client in clients]
    check("tree: the root's client has fixes", True, len(wanted) >= SECONDS - 1)
    check("tree: 64 streams are the same", 64, sum(each == wanted for each in found))
    check("tree: statuses", [0] * 9, [it.wait()[0] for it in (root, *daemons)])


class AskingGpsd(Gpsd):
    """gpsd without its option -b, with which it would send no request to another daemon."""

    def call(self, program, words):
        return [program, "-N", "-n", "-S", str(self.port), *words]


def with_gpsd():
    if GPSD is None:
        print("left out: gpsd is not installed", flush=True)
        return
    device = TcpDevice("gps0")
    up = Gpsd(GPSD, f"tcp://127.0.0.1:{device.port}")
    down = behind(up.listening().port)
    client = watch(down)
    device.take()
    stop = threading.Event()

    def send():
        t = 0
        while not stop.is_set() and t < 200:
            try:
                device.send(second(t))
            except OSError:
                return
            t += 1
            stop.wait(0.05)

    sender = threading.Thread(target=send)
    sender.start()
    value = {}
    while value is not None and value.get("class") != "TPV":
        value = client.object()
    stop.set()
    sender.join()
    check("behind gpsd: a fix", ("up", 48.1173), (value["device"], round(value["lat"], 4)))
    down.stop(), up.stop()

    source = TcpDevice("gps0")
    up = Daemon(PROGRAM, "--wait", "1", source.word)
    down = AskingGpsd(GPSD, f"gpsd://127.0.0.1:{up.listening().port}")
    client = down.client()
    client.watching()
    source.take()
    value, t = {}, 0
    while t < 100 and value.get("class") != "TPV":
        source.send(second(t))
        t += 1
        if client.buffer or (got := client.receive(seconds=0.1)):
            client.buffer += got if not client.buffer else b""
            while b"\n" in client.buffer and value.get("class") != "TPV":
                value = client.object()
    check("gpsd behind gpsrelay: a fix", 48.1173, round(value.get("lat", 0), 4))
    down.stop(), up.stop()


class Fake:
    """A server that sends these bytes to the first that connects, at once or one each `drip` seconds, and then keeps the connection or
    closes it."""

    def __init__(self, data=b"", keeps=True, drip=0):
        self.data, self.keeps, self.drip = data, keeps, drip
        self.listener = socket.create_server(("127.0.0.1", 0))
        self.listener.settimeout(WAIT)
        self.port = self.listener.getsockname()[1]
        self.asked, self.link = b"", None
        self.thread = threading.Thread(target=self.serve, daemon=True)
        self.thread.start()

    def serve(self):
        self.link, _ = self.listener.accept()
        self.link.settimeout(WAIT)
        try:
            if self.keeps or self.data:
                self.asked = self.link.recv(4096)
            for piece in ([byte] for byte in self.data) if self.drip else [self.data]:
                self.link.sendall(bytes(piece))
                time.sleep(self.drip)
        except OSError:
            pass  # the daemon may close before it has taken all
        if not self.keeps:
            self.link.close()


def bad_answer(wanted, seconds, port):
    """A daemon behind what listens at this port must lose that device with this message, and serve its other one on: what is found of both."""
    other = TcpDevice("own")
    begun = time.monotonic()
    daemon = behind(port, words=[other.word])
    client = watch(daemon)
    other.take()
    until(lambda: "failed" in daemon.said())
    took = time.monotonic() - begun
    said = [line for line in daemon.said().split("\n") if "failed" in line]
    other.send(second(0) + second(1))
    value = {}
    while value is not None and value.get("class") != "TPV":
        value = client.object()
    other.end()
    client.lines()
    return [("the message", [f"gpsrelay: gpsd:127.0.0.1:{port} failed: {wanted}"], said),
            (f"lost within {seconds} s", True, took <= seconds * slowness() or took),
            ("the other device is served on", "own", value and value["device"]),
            ("status", 3, daemon.wait()[0])]


def refusals():
    long = b'{"class":"DEVICES","devices":[' + b"x" * MOST
    early = "the connection ended before its answer was whole"
    none = "what answers there is neither gpsd nor gpsrelay"
    rows = [
        ("silence", "its answer was not whole within 10 seconds", HEAD_WAIT + 2, Fake()),
        ("half an answer", "its answer was not whole within 10 seconds", HEAD_WAIT + 2, Fake(VERSION + DEVICES)),
        ("a byte of an answer each half second", "its answer was not whole within 10 seconds", HEAD_WAIT + 2, Fake(VERSION + DEVICES, drip=0.5)),
        ("a bad third line", none, 4, Fake(VERSION + DEVICES + b"HTTP/1.1 400 Bad Request\r\n")),
        ("closed in the answer", early, 4, Fake(VERSION + DEVICES[:20], keeps=False)),
        ("a long answer", none, 4, Fake(VERSION + long)),
        ("closed at once", early, 4, Fake(keeps=False)),
    ]
    rows.append(("nobody listens", "connection refused", 4, None))
    found = side_by_side(lambda wanted, seconds, fake: bad_answer(wanted, seconds, fake.port if fake else free_port()), rows)
    for title, *_ in rows:
        for what, wanted, got in found.get(title, [("ran to its end", True, False)]):
            check(f"{title}: {what}", wanted, got)


sys.exit(run_parts(two_in_a_chain, middle_killed, tree, with_gpsd, refusals))
