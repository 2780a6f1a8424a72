"""`--stop`, in each state of the daemon."""
import os
import re
import socket
import subprocess
import tempfile
import threading
import time

from harness import *
from service_tools import SOON, Service, Terminal, Watched, Watcher, slack, stopped_server

CONNECTING = 5    # seconds that a connection in the making may take


def stop_at_once():
    service = Service("gps0=file:/dev/null", reopen=("--reopen", "1"))
    service.listening()
    service.ends("before the first byte")
    device = TcpDevice()
    daemon = Watched("--stop", "/dev/null", "--wait", "1", device.word)
    status, out = daemon.wait(SOON + slack())
    check("a stop that was there before the start, with --wait: status and lines", (0, b""), (status, out))
    device.close()
    daemon = Watched("--stop", "/nonexistent/stop", (device := TcpDevice()).word)
    check("a path whose folder is missing: status and lines", (2, b""), daemon.wait())
    check("a path whose folder is missing: it is said, and nothing is opened",
          "gpsrelay: --stop /nonexistent/stop: there is no folder /nonexistent; make it first, and then the file: mkfifo /nonexistent/stop\n", daemon.said())
    device.close()


def stop_waits():
    """A stop while each kind of reader waits, without --reopen."""
    with tempfile.TemporaryDirectory() as folder:
        terminal, silent, host = Terminal(os.path.join(folder, "tty")), FifoDevice("c"), TcpDevice("d")
        os.mkfifo(os.path.join(folder, "fifo"))
        words = [f"a=file:{folder}/tty", f"b=file:{folder}/fifo", silent.word, host.word]
        for word in words:
            service = Service(word, reopen=())
            watcher = Watcher(service)
            if word == host.word:
                host.take()
            service.ends(f"a silent {word[0]}: {dict(a='terminal', b='FIFO without a writer', c='FIFO', d='host')[word[0]]}")
            check("the client that waited: its stream and its closing line", (b"", b"s0 drained daemonend 2"),
                  (watcher.rest(), service.out.partition(b"\n")[0]))
        terminal.unplug()
        silent.close()
        host.close()


def stop_connecting():
    """A stop while a connection comes about that nobody answers."""
    listener, waiting = stopped_server()
    place = f"tcp:127.0.0.1:{listener.getsockname()[1]}"
    service, other = Service(f"gps0={place}", reopen=()), Service(f"gps0={place}")
    watcher = Watcher(service)
    other.listening()
    os.write(other.both, b"\n")
    service.ends("a connection in the making", seconds=CONNECTING)
    check("a connection in the making: no fault is said", False, "failed" in service.said())
    check("a connection in the making: the client's stream", b"", watcher.rest())
    check("a connection in the making, with --reopen: status", 0, other.wait(CONNECTING + slack())[0])
    for it in [listener, *waiting]:
        it.close()


def stop_looking_up():
    """A stop while names are looked up, and the name server says nothing. Skipped where this user may not make a name server of the test's own."""
    silent = socket.socket(socket.AF_INET, socket.SOCK_DGRAM)
    with tempfile.TemporaryDirectory() as folder:
        with open(f"{folder}/resolv.conf", "w") as it:
            it.write("nameserver 127.0.0.1\n")
        words = ["unshare", "--mount", "sh", "-c", f"mount --bind {folder}/resolv.conf /etc/resolv.conf && exec \"$@\"", "sh"]
        try:
            silent.bind(("127.0.0.1", 53))
            subprocess.run([*words, "true"], check=True, capture_output=True)
        except (OSError, subprocess.CalledProcessError) as why:
            print(f"skipped: a stop while names are looked up: {why}")
            return
        finally:
            silent.settimeout(WAIT)
        for reopen in (), ("--reopen", "1"):
            service = Service("a=tcp:receiver.example:1", "b=gpsd:daemon.example:2", reopen=reopen, before=words)
            service.listening()
            check("a name is looked up", True, bool(silent.recv(512)))
            service.ends(f"names that are looked up {reopen}", seconds=SOON)
            check("names that are looked up: no fault is said", False, "failed" in service.said() or "opened again" in service.said())
    silent.close()


def stop_anew():
    """The FIFO of --stop is made anew, and the new one stops the daemon, while the old one is open still; what comes of a place after the stop is
    not said."""
    device = TcpDevice()
    service = Service(device.word)
    service.listening()
    device.take()
    old = service.both
    os.unlink(service.stop_path)
    os.mkfifo(service.stop_path)
    service.both = os.open(service.stop_path, os.O_RDWR)
    check("a FIFO that was made anew: it is opened", True, until(lambda: service.has_open(service.stop_path)))
    service.ends("a FIFO that was made anew")
    os.close(old)
    check("a FIFO that was made anew: nothing is opened again after the stop", False, "opened again" in service.said().partition("told to stop")[2])
    device.close()


def stop_twice():
    device = TcpDevice()
    service = Service(device.word)
    watcher = Watcher(service)
    device.take().send(second(0))
    check("stopped twice: sentences before it", True, watcher.takes(second(0)))
    os.write(service.both, b"\n\n")
    service.ends("stopped twice")
    check("stopped twice: the stream's end", b"", watcher.rest())
    device.close()


def stop_after_fault():
    refused, device = free_port(), TcpDevice("b")
    service = Service(f"a=tcp:127.0.0.1:{refused}", device.word, reopen=())
    watcher = Watcher(service)
    device.take().send(second(0))
    check("a stop after a fault: sentences before it", True, watcher.takes(second(0)))
    service.ends("a stop after a device failed", status=3)
    check("a stop after a fault: the stream's end", b"", watcher.rest())
    device.close()


def stop_under_flood():
    """A device that sends as fast as it can, 64 clients that read and one of them that is held against what was sent."""
    device = TcpDevice()
    service = Service(device.word, "--queue", "65536")
    honest = Watcher(service)
    for _ in range(63):
        Watcher(service)
    device.take()
    sent = b"".join(second(t) for t in range(3600))
    over = threading.Event()

    def flood():
        try:
            while not over.is_set():
                device.send(sent)
                time.sleep(0.02)
        except OSError:
            pass

    flooding = threading.Thread(target=flood)
    for it in service.watchers:
        it.read_on()
    flooding.start()
    time.sleep(1)
    status, took = service.told()
    over.set()
    device.close()
    flooding.join(WAIT)
    had = honest.rest()
    whole = sent * (1 + len(had) // len(sent))
    check("a stop under a flood: status", 0, status)
    within("a stop under a flood: the end within the ten seconds of a closed session", took <= 10 + slack(), f"{took:.1f} s")
    check("a stop under a flood: the honest client got what was sent, without a gap", True, had == whole[:len(had)] and len(had) > 0)
    check("a stop under a flood: it ends with a whole sentence", b"\r\n", had[-2:])
    number = re.search(rb"^s0 drained daemonend (\d+)$", service.out, re.M)
    # The greeting is one item of the session's, the answer to its request another, and then each sentence.
    check("a stop under a flood: all that its session gave came", 2 + had.count(b"\n"), number and int(number[1]))
    check("a stop under a flood: sessions that were drained", 64, service.out.count(b" drained "))
