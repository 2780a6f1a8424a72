#!/usr/bin/env python3
"""Two hosts whose link is cut without a word: each is a network namespace, and the cut is a neighbour's address that nobody has.

 device   a receiver's host loses its power and comes back: the daemon connects to it again.
 places   64 clients go with their host while the receiver is silent: their places become free.
 tree     the daemon at the root goes with its host and comes back: the leaf's client keeps its connection, and is served again.

Use: far_hosts.py PROGRAM [NAME ..]. NAME picks some of them. It needs root, ip (iproute2) and namespaces: without them it says what is skipped.
The parts run side by side, and take about a minute. Prints a line for each check, and ends with 1 if one fails.
"""
import atexit
import contextlib
import ctypes
import os
import shutil
import socket
import subprocess
import sys
import threading
import time

from harness import *

PROGRAM = os.path.abspath(sys.argv[1])
NET = 0x40000000        # CLONE_NEWNET of setns(2)
NOBODY = "02:00:00:00:00:99"
PORT = 2947
PROBED = 20 + 3 * 10    # seconds: a connection is probed after 20 s of silence, and given up after three probes, 10 s apart
MOST = 64               # clients at a time
LIBC = ctypes.CDLL(None, use_errno=True)


def ip(*words):
    subprocess.run(["ip", *words], check=True, capture_output=True)


def enter(place):
    with open(place) as it:
        if LIBC.setns(it.fileno(), NET) != 0:
            raise OSError(ctypes.get_errno(), "setns")


@contextlib.contextmanager
def inside(name):
    """This thread, and what it starts, is in that namespace. A socket stays in the namespace in which it was made."""
    own = f"/proc/self/task/{threading.get_native_id()}/ns/net"
    with open(own) as back:
        enter(f"/run/netns/{name}")
        try:
            yield
        finally:
            if LIBC.setns(back.fileno(), NET) != 0:
                raise OSError(ctypes.get_errno(), "setns")


class Pair:
    """Two hosts with a link: `near` has 10.9.N.1, and `far` has 10.9.N.2."""

    def __init__(self, number):
        self.number = number
        self.near, self.far = (f"gpsrelay{os.getpid()}{side}{number}" for side in "nf")
        self.links = [f"gr{os.getpid() % 100000}{side}{number}" for side in "nf"]
        self.addresses = [f"10.9.{number}.1", f"10.9.{number}.2"]
        atexit.register(self.remove)
        ip("netns", "add", self.near)
        ip("-n", self.near, "link", "set", "lo", "up")
        self.connect()

    def connect(self):
        ip("netns", "add", self.far)
        ip("link", "add", self.links[0], "netns", self.near, "type", "veth", "peer", "name", self.links[1], "netns", self.far)
        for name, link, address in zip((self.near, self.far), self.links, self.addresses):
            ip("-n", name, "link", "set", "lo", "up")
            ip("-n", name, "address", "add", f"{address}/24", "dev", link)
            ip("-n", name, "link", "set", link, "up")

    def cut(self):
        """From here on nothing that one sends comes to the other, and neither is told so."""
        for name, link, address in zip((self.near, self.far), self.links, reversed(self.addresses)):
            ip("-n", name, "neighbour", "replace", address, "lladdr", NOBODY, "nud", "permanent", "dev", link)

    def come_back(self):
        """The far host begins anew at the same address, and knows no connection."""
        ip("-n", self.near, "link", "delete", self.links[0])
        ip("netns", "delete", self.far)
        self.connect()

    def remove(self):
        for name in (self.near, self.far):
            subprocess.run(["ip", "netns", "delete", name], capture_output=True)


class Host:
    """A receiver at an address: it accepts one connection."""

    def __init__(self, namespace, address, port=5000):
        with inside(namespace):
            self.listener = socket.create_server((address, port))
        self.listener.settimeout(WAIT)
        self.link = None

    def take(self):
        self.link, _ = self.listener.accept()
        return self

    def send(self, data):
        self.link.sendall(data)

    def lose_power(self):
        self.listener.close()
        if self.link:
            self.link.close()


def daemon_in(namespace, address, *words):
    with inside(namespace):
        return Daemon(PROGRAM, "--reopen", "1", *words, port=PORT, listen=f"{address}:{PORT}").listening()


def client_in(namespace, address, words='{"nmea":true}'):
    with inside(namespace):
        client = Client(PORT, host=address)
    client.watching(words)
    return client


def comes(client, wanted, seconds):
    """What the client is sent in this time, as far as it is as long as this; True if it is this."""
    end = time.monotonic() + seconds
    while len(client.buffer) < len(wanted) and time.monotonic() < end:
        more = client.receive(seconds=1)
        if more == b"":
            break
        client.buffer += more or b""
    found, client.buffer = client.buffer[:len(wanted)], client.buffer[len(wanted):]
    return found == wanted or found


def device():
    pair = Pair(1)
    near, far = pair.addresses
    host = Host(pair.far, far)
    daemon = daemon_in(pair.near, "127.0.0.1", f"roof=tcp:{far}:5000")
    client = client_in(pair.near, "127.0.0.1")
    host.take().send(second(0))
    check("device: its sentences before the cut", True, comes(client, second(0), WAIT))
    pair.cut()
    host.lose_power()
    pair.come_back()
    begun = time.monotonic()
    host = Host(pair.far, far)
    check("device: the daemon connects again", True, until(lambda: took(host), PROBED + WAIT))
    within(f"device: within {PROBED} s", time.monotonic() - begun <= PROBED * slowness(), f"{time.monotonic() - begun:.0f} s")
    host.send(second(1))
    check("device: its sentences come to the same client", True, comes(client, second(1), WAIT))
    check("device: it is said that it is back", 1, daemon.said().count("is back"))
    host.lose_power()
    daemon.stop()


def took(host):
    host.listener.settimeout(1)
    try:
        return bool(host.take())
    except socket.timeout:
        return False


def places():
    pair = Pair(2)
    receiver = FifoDevice("gps0")
    daemon = daemon_in(pair.near, "0.0.0.0", receiver.word)
    begun = time.monotonic()
    clients = [client_in(pair.far, pair.addresses[0]) for _ in range(MOST)]
    came = time.monotonic() - begun

    def newcomer():
        with inside(pair.near):
            client = Client(PORT)
        found = client.line() or b""
        client.close()
        return found

    check("places: one client more is closed without a byte", b"", newcomer())
    # What a host has not acknowledged is sent again for minutes, and is no silence: so all is to be acknowledged before the cut.
    check("places: all clients have what they were sent", True, until(lambda: unacknowledged(pair.near) == 0))
    pair.cut()
    for client in clients:
        client.close()
    begun = time.monotonic()
    check("places: a newcomer is served", True, until(lambda: newcomer() == VERSION, PROBED + WAIT, pause=3))
    within(f"places: within {PROBED + 5} s", time.monotonic() - begun <= (PROBED + 5) * slowness(), f"{time.monotonic() - begun:.0f} s")
    check("places: all are freed", True, until(lambda: open_links(pair.near) == 0, came + WAIT))
    receiver.close()
    daemon.stop()


def links(namespace):
    """The rows of the established connections to the daemon's port in the system's table."""
    with inside(namespace), open(f"/proc/self/task/{threading.get_native_id()}/net/tcp") as it:
        rows = [row.split() for row in it.read().splitlines()[1:]]
    return [row for row in rows if row[1].endswith(f":{PORT:04X}") and row[3] == "01"]


def open_links(namespace):
    """How many connections to the daemon's port are established."""
    return len(links(namespace))


def unacknowledged(namespace):
    """On how many of them something was sent that is not acknowledged yet."""
    return sum(not row[4].startswith("00000000:") for row in links(namespace))


def asks(pair, name, *daemons):
    """Waits until the leaf has connected to the root and asked, and both have handled that."""
    check(f"tree: {name}", True, until(lambda: open_links(pair.far) > 0, PROBED + WAIT))
    time.sleep(2)
    until(lambda: all(it.at_rest() for it in daemons))


def tree():
    pair = Pair(3)
    far = pair.addresses[1]

    def root_starts():
        host = Host(pair.far, "127.0.0.1")
        root = daemon_in(pair.far, "0.0.0.0", "roof=tcp:127.0.0.1:5000")
        return host.take(), root

    host, root = root_starts()
    leaf = daemon_in(pair.near, "127.0.0.1", f"roof=gpsd:{far}:{PORT}")
    client = client_in(pair.near, "127.0.0.1")
    asks(pair, "the leaf asks the root", leaf, root)
    host.send(second(0))
    check("tree: the root's sentences before the cut", True, comes(client, second(0), WAIT))
    pair.cut()
    root.process.kill()
    root.stop()
    host.lose_power()
    pair.come_back()
    host, root = root_starts()
    asks(pair, "the leaf asks the root again", leaf, root)
    host.send(second(1))
    check("tree: the root's sentences come to the leaf's client", True, comes(client, second(1), WAIT))
    host.lose_power()
    leaf.stop()
    root.stop()


def lack():
    """Why this machine can run none of this; None if it can."""
    if os.geteuid() != 0:
        return "it is not run by root"
    if not shutil.which("ip"):
        return "ip (iproute2) is not installed"
    name = f"gpsrelay{os.getpid()}"
    try:
        ip("netns", "add", name)
        ip("-n", name, "link", "add", f"gr{os.getpid() % 100000}a", "type", "veth", "peer", "name", f"gr{os.getpid() % 100000}b")
        return None
    except subprocess.CalledProcessError as error:
        return f"it may have no network namespaces: {error.stderr.decode(errors='replace').strip()}"
    finally:
        subprocess.run(["ip", "netns", "delete", name], capture_output=True)


PARTS = [device, places, tree]
picked = [part for part in PARTS if part.__name__ in sys.argv[2:] or not sys.argv[2:]]
if why := lack():
    print(f"skipped: {', '.join(part.__name__ for part in picked)}: {why}")
else:
    many_files()
    threads = [threading.Thread(target=run_parts, args=(part,)) for part in picked]
    for thread in threads:
        thread.start()
    for thread in threads:
        thread.join()
sys.exit(exit_status())
