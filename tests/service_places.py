"""`--reopen`: a place of each kind that goes and comes back, and a device that is the daemon itself."""
import os
import shutil
import socket
import tempfile
import time

from harness import *
from service_tools import PROGRAM, Service, Terminal, Watched, Watcher, slack

GPSD = shutil.which("gpsd") or shutil.which("gpsd", path="/usr/sbin")
LEAVES = 32       # clients of each of two daemons


def terminal_again():
    with tempfile.TemporaryDirectory() as folder:
        path = os.path.join(folder, "gps0")
        service = Service(f"gps0=file:{path}")
        watcher = Watcher(service)
        service.says("cannot be opened: no such file")
        for t in range(3):
            terminal = Terminal(path)
            check(f"terminal, time {t}: it is opened", True, terminal.is_read_by(service))
            terminal.send(second(2 * t))
            check(f"terminal, time {t}: its sentences", True, watcher.takes(second(2 * t)))
            terminal.send(second(2 * t + 1)[:40])
            time.sleep(0.2)
            terminal.unplug()
            until(lambda: sum(service.counts(f"file:{path}", "has ended", "failed")) > t)
        ends = service.counts(f"file:{path}", "has ended; it is opened again every 1 s", "failed: ")
        check("terminal: its ends are said", 3, sum(ends))
        check("terminal: it is said that it is back", [3], service.counts(f"file:{path}", "is back"))
        told = service.counts(f"file:{path}", "cannot be opened: no such file; it is opened again every 1 s")
        check("terminal: each time that it is missing is said once", True, 1 <= told[0] <= 4)
        service.ends("a terminal that is away")
        check("terminal: nothing more was sent", b"", watcher.rest())


def fifo_again():
    service = Service(reopen=("--reopen", "1", "gps0=file:" + (path := os.path.join(tempfile.mkdtemp(), "gps0"))))
    watcher = Watcher(service)
    os.mkfifo(path)
    for t in range(3):
        with open(path, "wb", buffering=0) as writer:
            writer.write(second(t))
        check(f"FIFO, writer {t}: its sentences", True, watcher.takes(second(t)))
    with open(path, "wb", buffering=0):
        pass
    os.unlink(path)
    os.mkfifo(path)
    begun = time.monotonic()
    with open(path, "wb", buffering=0) as writer:
        took = time.monotonic() - begun
        within("a FIFO that was made again: it is opened within 5 s", took <= 5 + slack(), took)
        writer.write(second(3))
        check("a FIFO that was made again: its sentences", True, watcher.takes(second(3)))
        service.ends("a FIFO whose writer is silent")
    check("FIFO: nothing more was sent", b"", watcher.rest())
    shutil.rmtree(os.path.dirname(path))


def write(path, *times):
    """A writer of a FIFO comes, writes these seconds, and goes."""
    with open(path, "wb", buffering=0) as writer:
        for t in times:
            writer.write(second(t))


def fifo_between():
    """Writers that come and go between the end of a FIFO and its next opening."""
    service = Service(reopen=("--reopen", "2", "gps0=file:" + (path := os.path.join(tempfile.mkdtemp(), "gps0"))))
    watcher = Watcher(service)
    os.mkfifo(path)
    for t in 0, 3, 6:
        ends = service.counts(f"file:{path}", "has ended")
        write(path, t)
        check(f"FIFO, writer {t}: its sentences", True, watcher.takes(second(t)))
        until(lambda: service.counts(f"file:{path}", "has ended") > ends)
        write(path, t + 1)
        write(path, t + 2)
        check("FIFO: two writers before it is opened again", True, watcher.takes(second(t + 1) + second(t + 2)))
    service.ends("a FIFO that is away")
    check("FIFO: nothing more was sent", b"", watcher.rest())
    shutil.rmtree(os.path.dirname(path))


def other_files():
    """A folder, and later a regular file, in the place of a FIFO."""
    path = os.path.join(tempfile.mkdtemp(), "gps0")
    os.mkdir(path)
    service = Service(f"gps0=file:{path}")
    watcher = Watcher(service)
    check("a folder: is said", True, service.says("cannot be opened: it is a folder; it is opened again every 1 s"))
    os.rmdir(path)
    os.mkfifo(path)
    write(path, 0)
    check("a FIFO after a folder: its sentences", True, watcher.takes(second(0)))
    os.unlink(path)
    with open(path, "wb") as file:
        file.write(second(1))
    check("a regular file: is said", True, service.says("cannot be opened: it is a regular file; it is opened again every 1 s"))
    os.unlink(path)
    os.mkfifo(path)
    write(path, 2)
    check("a FIFO after a regular file: its sentences, and none of the file", True, watcher.takes(second(2)))
    service.ends("a FIFO after other files")
    shutil.rmtree(os.path.dirname(path))


def two_names():
    """A FIFO that comes to have a second name: its bytes go to the device that opened it first."""
    folder = tempfile.mkdtemp()
    one, two = (os.path.join(folder, name) for name in ("one", "two"))
    os.mkfifo(one)
    os.mkfifo(two)
    service = Service(f"gps0=file:{one}", f"gps1=file:{two}")
    watcher = Watcher(service)
    write(two, 0)
    check("two FIFOs: sentences of the second", True, watcher.takes(second(0)))
    os.unlink(two)
    os.link(one, two)
    check("a second name: is said", True, service.says(f"file:{two} cannot be opened: it is open under another name; it is opened again every 1 s"))
    write(one, *range(1, 9))
    check("a second name: the first has all sentences", True, watcher.takes(b"".join(map(second, range(1, 9)))))
    os.unlink(two)
    os.mkfifo(two)
    write(two, 9)
    check("a FIFO of its own again: its sentences", True, watcher.takes(second(9)))
    service.ends("two names")
    shutil.rmtree(folder)


def host_again():
    device = TcpDevice()
    service = Service(device.word)
    watcher = Watcher(service)
    for t, end in enumerate((device.end, device.reset, device.end)):
        device.take().send(second(t))
        check(f"host, connection {t}: its sentences", True, watcher.takes(second(t)))
        (device.end if t == 0 else device.reset)()
        device.link.close()
        device.link = None
        if t == 1:
            device.listener.close()
            check("a host that refuses: is said", True, service.says("cannot be opened: connection refused; it is opened again every 1 s"))
            device.listener = socket.create_server(("127.0.0.1", device.port))
            device.listener.settimeout(WAIT)
    place = f"tcp:127.0.0.1:{device.port}"
    check("host: its end and its reset are said", True, until(lambda: sum(service.counts(place, "has ended; ", "failed: ")) == 3))
    check("host: it is said that it is back", [2], service.counts(place, "is back"))
    check("host: that it is connected to is said once", 1, service.said().count("connecting to"))
    device.take()
    time.sleep(0.5)
    service.ends("a host that is silent")
    check("host: nothing more was sent", b"", watcher.rest())
    device.close()


def daemon_again():
    port = free_port()
    leaf = Service(f"up=gpsd:127.0.0.1:{port}")
    watcher = Watcher(leaf)
    leaf.says("cannot be opened: connection refused")
    for t in range(3):
        device = TcpDevice()
        root = Daemon(PROGRAM, "--wait", "1", device.word, port=port)  # it reads nothing before somebody watches
        device.take().send(second(t))
        check(f"another daemon, start {t}: its sentences", True, watcher.takes(second(t)))
        root.process.kill()
        root.stop()
        device.close()
    check("another daemon: it is said that it is back", [3], leaf.counts(f"gpsd:127.0.0.1:{port}", "is back"))
    leaf.ends("another daemon that is away")
    check("another daemon: nothing more was sent", b"", watcher.rest())


def gpsd_again():
    if not GPSD:
        return print("skipped gpsd as a device that comes back: gpsd is not installed")
    port = free_port()
    leaf = Service(f"up=gpsd:127.0.0.1:{port}")
    watcher = Watcher(leaf)
    sent = 0
    for start in range(2):
        device = TcpDevice()
        root = Gpsd(GPSD, f"tcp://127.0.0.1:{device.port}", port=port)
        device.take()
        begun, had = sent, bytearray()

        def comes(data):
            had.extend(watcher.client.receive(seconds=0.2) or b"")
            return data in had

        while not comes(b"$") and sent < begun + 20:  # gpsd takes a while to see what the device is
            device.send(second(sent))
            sent += 1
        last = second(sent)
        device.send(last)
        sent += 1
        until(lambda: comes(last))
        whole = b"".join(second(t) for t in range(begun, sent))
        check(f"gpsd, start {start}: the last sentences that it was sent, without a gap", True, whole.endswith(had) and last in had or had)
        root.process.kill()
        root.stop()
        device.close()
    check("gpsd: it is said that it is back", True, leaf.counts(f"gpsd:127.0.0.1:{port}", "is back")[0] >= 1)
    leaf.ends("gpsd that is away")


def edges_again():
    receiver, edges = FifoDevice("gps0"), os.path.join(tempfile.mkdtemp(), "edges")
    service = Service(receiver.word, f"gps0=edges:{edges}")
    client = service.client()
    client.watching('{"pps":true}')
    os.mkfifo(edges)
    pulses = []
    with open(edges, "wb", buffering=0):
        pass
    for t in range(2):
        receiver.send(rmc(BEGIN + t))
        toff = client.object()
        while toff["class"] != "TOFF":
            toff = client.object()
        sec, nsec = toff["clock_sec"], toff["clock_nsec"]
        before, after = (divmod(1_000_000_000 * sec + nsec + half * 500_000_000, 1_000_000_000) for half in (-1, 1))
        with open(edges, "wb", buffering=0) as writer:
            writer.write(b"assert %d.%09d#%d\nassert %d.%09d#%d\n" % (*before, 2 * t, *after, 2 * t + 1))
        pulse = client.object()
        pulses.append((pulse["class"], pulse["real_sec"] - toff["real_sec"], (pulse["clock_sec"], pulse["clock_nsec"]) == after))
        until(lambda: sum(service.counts(f"file:{edges}", "has ended")) > t)
    check("edges that come back: a pulse each time", [("PPS", 1, True)] * 2, pulses)
    check("edges: it is said that they are back", True, service.counts(f"file:{edges}", "is back")[0] >= 1)
    client.close()
    service.ends("edges that are away")
    receiver.close()
    shutil.rmtree(os.path.dirname(edges))


def tree():
    """A root that restarts, two daemons behind it, and the clients of those."""
    port = free_port()
    middles = [Service(f"up=gpsd:127.0.0.1:{port}") for _ in range(2)]
    leaves = [Watcher(middle) for middle in middles for _ in range(LEAVES)]
    for t in range(2):
        device = TcpDevice()
        root = Daemon(PROGRAM, "--wait", "2", device.word, port=port)
        sent = b"".join(second(10 * t + s) for s in range(10))
        device.take().send(sent)
        check(f"tree, start {t}: what each of {2 * LEAVES} clients got", 2 * LEAVES, sum(leaf.takes(sent) is True for leaf in leaves))
        root.process.kill()
        root.stop()
        device.close()
    found = [middle.told() for middle in middles]
    check("tree: statuses", [0, 0], [status for status, _ in found])
    check("tree: clients that were sent more", 0, sum(leaf.rest() != b"" for leaf in leaves))
    check("tree: sessions of the two daemons", [LEAVES, LEAVES], [middle.out.count(b" drained daemonend ") for middle in middles])


def own_address():
    """A device that is the daemon itself."""
    port = free_port()
    for listen, place in ((f"127.0.0.1:{port}", f"gpsd:127.0.0.1:{port}"), (f"127.0.0.1:{port}", f"tcp:localhost:{port}"),
                          (f"0.0.0.0:{port}", f"gpsd:127.0.0.1:{port}"), (f"[::]:{port}", f"gpsd:[::1]:{port}"),
                          (f"[::]:{port}", f"tcp:127.0.0.1:{port}")):
        for words in (), ("--reopen", "1"):
            daemon = Daemon(PROGRAM, *words, f"up={place}", port=port, listen=listen)
            status, _ = daemon.wait()
            check(f"{place} at {listen} {' '.join(words)}: status", 3, status)
            check(f"{place} at {listen} {' '.join(words)}: why", True, "this daemon itself listens there" in daemon.said())
    device = TcpDevice()
    other = Daemon(PROGRAM, "--wait", "1", device.word, listen=f"127.0.0.2:{port}", port=port).listening()
    here = Watched(f"up=gpsd:127.0.0.2:{port}", port=port)
    watcher = Watcher(here)
    device.take().send(second(0))
    check("another daemon at the same port of another address: it is read", True, watcher.takes(second(0)))
    device.end()
    check("another daemon at the same port: statuses", [0, 0], [other.wait()[0], here.wait()[0]])
    device.close()
