#!/usr/bin/env python3
"""A daemon that runs for years, at its edges: files that must be closed, standard streams that are closed, openings that block, clients
that use nothing, an idle machine, writes that signals interrupt. Each check failed before it was seen to. Every wait is bounded.

Use: years.py PROGRAM [NAME..]. Prints a line for each check, and ends with 1 if one fails. NAME picks some of the parts.
"""
import os
import signal
import socket
import subprocess
import sys
import tempfile
import threading
import time

import harness
from harness import WAIT, Client, TcpDevice, check, exit_status, free_port, slowness, until, within
from packets import second as packets_of

PROGRAM = os.path.abspath(sys.argv[1])
WATCH = b'?WATCH={"json":true};'
CLOSE_ALL = "exec 0<&- 1>&- 2>&-"


def second(t):
    return packets_of(t, "RMC")


class Daemon(harness.Daemon):
    """A daemon that is started after the words of a shell, if there are any. It may say nothing, so its clients try until it listens."""

    def __init__(self, *words, shell="", **how):
        self.shell = shell
        super().__init__(PROGRAM, *words, **how)

    def call(self, program, words):
        words = super().call(program, words)
        return ["sh", "-c", self.shell + '; exec "$@"', "sh", *words] if self.shell else words

    def connect(self, host="127.0.0.1", buffer=None, seconds=WAIT):
        """A client, or None if it does not listen in time."""
        end = time.monotonic() + seconds
        while True:
            try:
                return Client(self.port, buffer, WAIT, host)
            except OSError:
                if time.monotonic() > end:
                    return None
                time.sleep(0.02)

    def greets(self, host="127.0.0.1", seconds=WAIT):
        """Whether a client is greeted in time."""
        end = time.monotonic() + seconds
        while (client := self.connect(host, seconds=max(0, end - time.monotonic()))) is not None:
            said = client.receive(seconds=max(0.1, end - time.monotonic()))
            client.close()
            if said and said.startswith(b'{"class":"VERSION"'):
                return True
            if time.monotonic() > end:
                break
            time.sleep(0.05)
        return False

    def status(self, seconds=WAIT):
        """Its exit status, once it has ended."""
        return self.wait(seconds)[0]


def started(*words, **how):
    device = TcpDevice()
    daemon = Daemon(*words, device.word, **how)
    device.take()
    return daemon, device


def flood(client, data):
    """Sends as much as goes."""
    try:
        client.send(data)
    except OSError:
        pass


def files():
    """Clients that ask much, read nothing and go: no file stays open, and with 64 files nobody is locked out."""
    daemon, device = started(files=64)
    check("few files: a client is served", True, daemon.greets())
    before = daemon.open_files()
    for _ in range(100):
        client = daemon.connect()
        client.socket.settimeout(5)
        flood(client, b"?VERSION;" * 10_000)
        client.close()
    check("100 floods: files are closed", True, until(lambda: daemon.open_files() <= before) or daemon.open_files())
    check("100 floods: a client is served", True, daemon.greets())
    device.end()
    check("files: status", 0, daemon.status())
    daemon, device = started("--queue", "65536")
    until(daemon.listening().at_rest)
    before = daemon.open_files()
    for more in 0, 50_000:
        client = daemon.connect()
        sender = threading.Thread(target=flood, args=(client, b"?FROB;" * (65_537 + more)))
        sender.start()
        found = client.rest()
        sender.join()
        client.close()
        if not more:
            check("65,536 requests are answered, and then the client is closed", 65_536, found.count(b'"ERROR"'))
        check("too many requests: files are closed", True, until(lambda: daemon.open_files() <= before) or daemon.open_files())
    device.end()
    check("too many requests: status", 0, daemon.status())


def streams():
    """Standard streams that are closed: nothing else takes their numbers."""
    for shell in "exec 2>&-", "exec 0<&- 2>&-", CLOSE_ALL:
        daemon, device = started(shell=shell)
        client = daemon.connect()
        client.receive()
        client.send(WATCH)
        device.send(second(1) + second(2))
        for number in 0, 1, 2:
            where = os.readlink(f"{daemon.place}/fd/{number}")
            is_closed = f"{number}<&-" in shell or f"{number}>&-" in shell
            good = where == "/dev/null" if is_closed else not where.startswith("socket:")
            check(f"{shell}: number {number}", True, good or where)
        device.end()
        lines = client.rest().split(b"\r\n")[:-1]
        check(f"{shell}: a client has JSON alone", [], [line for line in lines if not line.startswith(b'{"class"')])
        check(f"{shell}: status", 4 if "1>" in shell else 0, daemon.status())
    for shell, status in ("exec 1>&-", 4), ("exec 0<&-", 3), (CLOSE_ALL, 3):
        done = subprocess.run(["sh", "-c", shell + '; exec "$@"', "sh", PROGRAM, "decode"], input=second(1) + second(2),
                              stdout=subprocess.DEVNULL, stderr=subprocess.DEVNULL, timeout=WAIT)
        check(f"decode, {shell}: status", status, done.returncode)


def deaf_host():
    """A port whose host does not answer: its backlog is full."""
    listener = socket.socket()
    listener.bind(("127.0.0.1", 0))
    listener.listen(0)
    waiting = []
    for _ in range(4):
        link = socket.socket()
        link.setblocking(False)
        link.connect_ex(listener.getsockname())
        waiting.append(link)
    return listener, waiting


def openings():
    """A pipe without a writer and hosts that do not answer keep nobody from being served."""
    with tempfile.TemporaryDirectory() as folder:
        pipe = os.path.join(folder, "gps")
        os.mkfifo(pipe)
        device = TcpDevice()
        daemon = Daemon(device.word, f"pipe=file:{pipe}")
        check("a pipe without a writer: a client is served", True, daemon.greets())
        if daemon.running() and until(lambda: "waiting for a writer of file:" + pipe in daemon.said()):
            check("a pipe without a writer: it is said", True, True)
            client = daemon.connect()
            client.receive()
            client.send(WATCH)
            client.receive()
            with open(pipe, "wb") as writer:
                writer.write(second(1) + second(2))
            found = b""
            while b'"device":"pipe"' not in found and (data := client.receive()):
                found += data
            check("the pipe's fixes come once it has a writer", True, b'"device":"pipe"' in found)
            device.take()
        else:
            check("a pipe without a writer: it is said", True, daemon.said())
            subprocess.run(["timeout", "1", "sh", "-c", f": > {pipe}"], check=False)
            device.take()
        device.end()
        check("a pipe without a writer: status", 0, daemon.status())
        check("a missing file is a fault at once", 3, Daemon(f"gps0=file:{folder}/none").status(5 * slowness()))

    listener, waiting = deaf_host()
    device = TcpDevice()
    daemon = Daemon(device.word, f"deaf=tcp:127.0.0.1:{listener.getsockname()[1]}")
    check("a host that does not answer: a client is served", True, daemon.greets(seconds=4))
    client = daemon.connect()
    if client:
        client.receive()
        device.take()
        time.sleep(6)
        device.end()
        client.rest()
        check("a host that does not answer: status", 3, daemon.status())
    else:
        daemon.stop()
    daemon = Daemon(f"deaf=tcp:127.0.0.1:{listener.getsockname()[1]}")
    check("a host that does not answer is a fault after five seconds", 3, daemon.status(8 * slowness()))
    for it in listener, *waiting:
        it.close()
    device = TcpDevice()
    daemon = Daemon(device.word, f"gone=tcp:127.0.0.1:{free_port()}")
    check("a host that refuses: a client is served", True, daemon.greets())
    if daemon.running():
        device.take()
        device.end()
    check("a host that refuses: status", 3, daemon.status())


def is_open(client):
    """Whether the daemon has not closed it."""
    client.socket.setblocking(False)
    try:
        while data := client.socket.recv(65536):
            del data
        return False
    except BlockingIOError:
        return True
    except OSError:
        return False


def places():
    """64 links that ask nothing give their places back after a minute; those that watch or asked keep theirs."""
    daemon, device = started()
    watching, asking = daemon.connect(), daemon.connect()
    watching.send(WATCH)
    asking.send(b"?VERSION;")
    silent = [daemon.connect() for _ in range(61)]
    trickling = daemon.connect()
    check("64 links: the next is not served", False, daemon.greets(seconds=1))
    start = time.monotonic()
    while time.monotonic() - start < 69:
        flood(trickling, b"?")
        time.sleep(0.5)
    check("silent links are ended after a minute", 0, sum(is_open(client) for client in silent))
    check("so is one that ends no request", False, is_open(trickling))
    check("one that watches is not", True, is_open(watching))
    silence = f"{device.word.partition('=')[2]} has been silent for 60 s"
    check("that the device is silent is said after a minute", True, silence in daemon.said() or daemon.said())
    check("nor is one that has asked", True, is_open(asking))
    check("the next client is served", True, daemon.greets())
    device.end()
    check("places: status", 0, daemon.status())


def idle():
    """64 clients that watch, and nothing comes: the daemon sleeps, and ends at once when its device does."""
    daemon, device = started()
    clients = [daemon.connect() for _ in range(64)]
    for client in clients:
        client.send(WATCH)
    time.sleep(2)
    switches, cpu, start = daemon.wakeups(), daemon.cpu(), time.monotonic()
    time.sleep(10)
    seconds = time.monotonic() - start
    rate, used = (daemon.wakeups() - switches) / seconds, daemon.cpu() - cpu
    print(f"        64 idle clients: {rate:.2f} wake-ups a second, {used:.2f} s of processor time in {seconds:.1f} s", flush=True)
    check("64 idle clients: below two wake-ups a second", True, rate < 2 or rate)
    check("64 idle clients: no processor time", True, used < 0.02 or used)
    start = time.monotonic()
    device.end()
    for client in clients:
        client.rest()
    check("64 idle clients: status", 0, daemon.status())
    took = time.monotonic() - start
    print(f"        it ended after {took * 1000:.0f} ms", flush=True)
    within("64 idle clients: the end comes within 0.2 s", took < 0.2 * slowness(), took)


def signals():
    """A daemon that is stopped and continued while a write to a client waits for room: the client loses nothing."""
    daemon, device = started("--queue", "65536")
    client = daemon.connect(buffer=2048)
    client.send(WATCH)
    until(daemon.listening().at_rest)
    count = 30_000
    feeder = threading.Thread(target=device.send, args=(b"".join(second(t) for t in range(count)),))
    feeder.start()
    had, turns = b"", 0
    while feeder.is_alive() or turns < 25:  # the client takes a little, so that its link stays
        had += client.receive(1_000) or b""
        time.sleep(0.02)
        if (turns := turns + 1) in (15, 20, 25):
            daemon.process.send_signal(signal.SIGSTOP)
            time.sleep(0.05)
            daemon.process.send_signal(signal.SIGCONT)
    feeder.join()
    device.end()
    check("stopped while it writes: all lines come", count, (had + client.rest()).count(b'"TPV"'))
    check("stopped while it writes: status", 0, daemon.status())


def addresses():
    """It listens where it is told, and a device is found by a name or by a number."""
    for address, hosts in ("[::1]", ["::1"]), ("[::]", ["::1", "127.0.0.1"]), ("localhost", ["localhost"]), ("0.0.0.0", ["127.0.0.1"]):
        port = free_port()
        device = TcpDevice()
        daemon = Daemon(device.word.replace("127.0.0.1", "localhost"), port=port, listen=f"{address}:{port}")
        for host in hosts:
            check(f"it listens at {address}, as {host} finds", True, daemon.greets(host))
        device.take()
        device.end()
        check(f"{address}: status", 0, daemon.status())
    listener = socket.create_server(("::1", 0), family=socket.AF_INET6)
    daemon = Daemon(f"gps0=tcp:[::1]:{listener.getsockname()[1]}")
    link, _ = listener.accept()
    link.close()
    check("a device at [::1]: status", 0, daemon.status())


def main():
    parts = [files, streams, openings, idle, signals, addresses, places]
    for name in sys.argv[2:]:
        if name not in [it.__name__ for it in parts]:
            sys.exit(f"years.py: no part {name}")
    for it in parts:
        if not sys.argv[2:] or it.__name__ in sys.argv[2:]:
            it()
    sys.exit(exit_status())


main()
