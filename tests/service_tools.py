"""What the parts of service.py share: a client whose bytes are held against what was sent, a terminal with a name, and the daemon as a service."""
import os
import pty
import signal
import socket
import sys
import tempfile
import threading
import time
import tty

from harness import *

PROGRAM = os.path.abspath(sys.argv[1])
SOON = 2          # seconds after a stop at which no reader waits any more


def slack():
    """Seconds that may pass besides: two on an idle machine, more on a busy one."""
    return 2 * slowness()


class Watcher:
    """A client that watches the sentences of a daemon's devices, over one connection, and closes it at the end of what it is sent."""

    def __init__(self, daemon):
        self.client = daemon.client()
        self.client.watching('{"nmea":true}')
        self.had, self.reader = self.client.buffer, threading.Thread(target=self.read_all)
        daemon.watchers.append(self)

    def takes(self, data, seconds=WAIT):
        """What comes in place of these bytes; True if it is they."""
        end = time.monotonic() + seconds
        while len(self.had) < len(data) and time.monotonic() < end:
            more = self.client.receive(seconds=1)
            if more == b"":
                break
            self.had += more or b""
        found, self.had = self.had[:len(data)], self.had[len(data):]
        return found == data or found

    def read_all(self):
        self.client.buffer = self.had
        self.had = self.client.rest()
        self.client.close()

    def read_on(self):
        """From here on it reads to the end of the stream, beside what else is done."""
        if self.reader.ident is None:
            self.reader.start()

    def rest(self):
        """All that it has not taken, up to the end of the stream."""
        self.read_on()
        self.reader.join(WAIT)
        return self.had


class Terminal:
    """A raw terminal under a name, as udev gives one to a receiver."""

    def __init__(self, path):
        self.path = path
        self.master, child = pty.openpty()
        tty.setraw(child)
        self.name = os.ttyname(child)
        os.symlink(self.name, path)
        os.close(child)

    def is_read_by(self, daemon):
        return until(lambda: daemon.has_open(self.name))

    def send(self, data):
        os.write(self.master, data)

    def unplug(self):
        os.unlink(self.path)
        os.close(self.master)


class Watched(Daemon):
    """A daemon whose watchers read on while it ends."""

    def __init__(self, *words, before=(), **more):
        """`before` are the words of a command that runs the daemon in its own place."""
        self.watchers, self.before = [], before
        super().__init__(PROGRAM, *words, **more)

    def call(self, program, words):
        return [*self.before, *super().call(program, words)]

    def has_open(self, path):
        """Whether it has the file open that has this path now."""
        def is_led_to_by(file):
            try:
                return os.readlink(f"{self.place}/fd/{file}") == path
            except FileNotFoundError:  # it was closed meanwhile
                return False

        return any(map(is_led_to_by, os.listdir(f"{self.place}/fd")))

    def wait(self, seconds=WAIT):
        for watcher in self.watchers:
            watcher.read_on()
        return super().wait(seconds)


class Service(Watched):
    """A daemon that opens its places again and is told to stop by a FIFO."""

    def __init__(self, *words, reopen=("--reopen", "1"), **more):
        self.folder = tempfile.TemporaryDirectory()
        self.stop_path = os.path.join(self.folder.name, "stop")
        os.mkfifo(self.stop_path)
        self.both = os.open(self.stop_path, os.O_RDWR)
        super().__init__("--stop", self.stop_path, *reopen, *words, **more)

    def path(self, name):
        return os.path.join(self.folder.name, name)

    def told(self, text=b"\n"):
        """Tells it to stop: its status, and the seconds that it took."""
        begun = time.monotonic()
        os.write(self.both, text)
        status, self.out = self.wait()
        return status, time.monotonic() - begun

    def ends(self, what, status=0, seconds=SOON):
        found, took = self.told()
        check(f"{what}: status at the stop", status, found)
        within(f"{what}: the end at most {seconds} s after the stop", took <= seconds + slack(), f"{took:.1f} s")
        check(f"{what}: says that it was told", 1, self.said().count("told to stop"))

    def counts(self, place, *texts):
        """How often it said each of these of a place."""
        return [self.said().count(f"gpsrelay: {place} {text}") for text in texts]


def stopped_server():
    """A host that takes no connection: the room for those that wait is used up. The listener, and what uses up its room."""
    listener = socket.socket()
    listener.bind(("127.0.0.1", 0))
    listener.listen(0)
    waiting = []
    for _ in range(8):
        it = socket.socket()
        it.setblocking(False)
        it.connect_ex(listener.getsockname())
        waiting.append(it)
    time.sleep(0.2)
    return listener, waiting


def freeze(daemon):
    """Stops the process of a daemon, and waits until all of its threads are stopped."""

    def is_stopped(task):
        with open(f"{daemon.place}/task/{task}/stat") as it:
            return it.read().rpartition(") ")[2][0] == "T"

    daemon.process.send_signal(signal.SIGSTOP)
    until(lambda: all(map(is_stopped, daemon.tasks())))
