"""What the scripts over the built program share: running a command, the daemon, its devices and its clients. Every wait is bounded.

    from harness import *          # in tests/; a script in bench/ puts tests/ on sys.path first

    device = TcpDevice("gps0")
    daemon = Daemon(PROGRAM, device.word)
    device.take()
    client = daemon.client()
    client.line()                  # the greeting
    device.send(second(0))
    device.end()
    status, out = daemon.wait()

`checks` counts the checks, `packets` makes what a receiver sends; both are here too, so that one import does.
"""
import atexit
import json
import os
import re
import resource
import socket
import struct
import subprocess
import tempfile
import threading
import time
import tty

from checks import WAIT, check, exit_status, free_port, run_parts, slowness, starting, within
from packets import BEGIN, PLACE, clock_of, frame, gga, nav_eoe, nav_pvt, rmc, second, sentence

__all__ = ["check", "exit_status", "run_parts", "slowness", "within", "BEGIN", "PLACE", "clock_of", "frame", "gga", "nav_eoe", "nav_pvt", "rmc",
           "second", "sentence", "WAIT", "SAMPLES", "VERSION", "Client", "Daemon", "FifoDevice", "Gpsd", "TcpDevice", "TerminalDevice", "cpu_of",
           "end_process", "free_port", "limited", "many_files", "run", "sample", "sample_path", "side_by_side", "until"]

SAMPLES = os.path.join(os.path.dirname(os.path.dirname(os.path.abspath(__file__))), "samples")
VERSION = b'{"class":"VERSION","release":"gpsrelay-1","rev":"1","proto_major":3,"proto_minor":1}\r\n'


def sample_path(name):
    return os.path.join(SAMPLES, name)


def sample(name):
    with open(sample_path(name), "rb") as it:
        return it.read()


def many_files():
    """Lets this process and what it starts open a few thousand files."""
    resource.setrlimit(resource.RLIMIT_NOFILE, (4096, 4096))


def until(done, seconds=WAIT, pause=0.02):
    """Waits until `done()` is true; whether it is."""
    end = time.monotonic() + seconds
    while not (found := done()) and time.monotonic() < end:
        time.sleep(pause)
    return bool(found)


def cpu_of(process):
    """The processor time of a process so far, in seconds."""
    with open(f"/proc/{process}/stat") as it:
        fields = it.read().rpartition(")")[2].split()
    return (int(fields[11]) + int(fields[12])) / os.sysconf("SC_CLK_TCK")


def limited(kilobytes, files=0):
    """What gives a process that starts this much address space and this number of files; None for no limit."""
    limits = [(resource.RLIMIT_AS, kilobytes * 1024), (resource.RLIMIT_NOFILE, files)]

    def limit():
        for kind, most in limits:
            if most:
                resource.setrlimit(kind, (most, most))

    return limit if kilobytes or files else None


def run(program, *words, given=b"", kilobytes=0, seconds=60):
    """Runs a command on these bytes: its status, its standard output and its standard error."""
    done = subprocess.run([program, *words], input=given, capture_output=True, preexec_fn=limited(kilobytes), timeout=seconds)
    return done.returncode, done.stdout, done.stderr


def end_process(process, seconds=WAIT):
    """Waits for the end of a process: its status and its standard output. It is killed if it takes longer."""
    try:
        out, _ = process.communicate(timeout=seconds)
        return process.returncode, out
    except subprocess.TimeoutExpired:
        process.kill()
        return "still running", process.communicate()[0]


def side_by_side(call, rows):
    """Calls this with each row, all at once: what each call gives, by the first word of its row. One that breaks gives nothing."""
    found = {}

    def keep(row):
        found[row[0]] = call(*row[1:])

    threads = [threading.Thread(target=keep, args=(row,)) for row in rows]
    for thread in threads:
        thread.start()
    for thread in threads:
        thread.join()
    return found


def reset_at_close(link):
    """Makes the closing of this socket a reset."""
    link.setsockopt(socket.SOL_SOCKET, socket.SO_LINGER, struct.pack("ii", 1, 0))


class TcpDevice:
    """A receiver over TCP: it accepts one connection and sends what it is given."""

    def __init__(self, name="gps0"):
        self.name, self.link = name, None
        self.listener = socket.create_server(("127.0.0.1", 0))
        self.listener.settimeout(WAIT)
        self.port = self.listener.getsockname()[1]
        self.word = f"{name}=tcp:127.0.0.1:{self.port}"

    def take(self):
        """Accepts the daemon's connection, if that is not done yet."""
        if self.link is None:
            self.link, _ = self.listener.accept()
            self.link.settimeout(WAIT)
            self.link.setsockopt(socket.IPPROTO_TCP, socket.TCP_NODELAY, 1)
        return self

    def send(self, data):
        self.link.sendall(data)

    def end(self):
        """The end of the device's bytes."""
        self.link.shutdown(socket.SHUT_WR)

    def reset(self):
        reset_at_close(self.link)
        self.link.close()

    def close(self):
        self.listener.close()
        if self.link:
            self.link.close()


class FifoDevice:
    """A receiver, or its pulse edges, behind a FIFO in a folder of its own. It is open at both ends from the beginning, so that neither
    side waits for the other; `alone` closes the end that this script would read from, once the daemon has opened its own."""

    def __init__(self, name="gps0", kind="file"):
        self.folder = tempfile.TemporaryDirectory()
        self.path = os.path.join(self.folder.name, "device")
        os.mkfifo(self.path)
        self.name, self.word = name, f"{name}={kind}:{self.path}"
        self.both = os.open(self.path, os.O_RDWR)
        self.file = open(self.path, "wb", buffering=0)

    def take(self):
        return self

    def alone(self):
        """From here on a write fails if the daemon has closed its end."""
        if self.both is not None:
            os.close(self.both)
            self.both = None

    def send(self, data):
        view = memoryview(data)
        while len(view):
            view = view[self.file.write(view):]

    def end(self):
        self.alone()
        self.file.close()

    def close(self):
        self.end()
        self.folder.cleanup()


class TerminalDevice:
    """A receiver at a terminal that is set raw."""

    def __init__(self, name="gps0"):
        self.ours, self.theirs = os.openpty()
        tty.setraw(self.ours)
        tty.setraw(self.theirs)
        self.path = os.ttyname(self.theirs)
        self.name, self.word = name, f"{name}=file:{self.path}"

    def take(self):
        return self

    def send(self, data):
        view = memoryview(data)
        while len(view):
            view = view[os.write(self.ours, view):]

    def close(self):
        """It is unplugged."""
        os.close(self.ours)
        os.close(self.theirs)


class Client:
    """A client of a daemon: what it sends, and what it is sent by lines or as it comes."""

    def __init__(self, port, buffer=None, seconds=WAIT, host="127.0.0.1"):
        self.socket = socket.socket(socket.AF_INET6 if ":" in host else socket.AF_INET)
        if buffer:
            self.socket.setsockopt(socket.SOL_SOCKET, socket.SO_RCVBUF, buffer)
        self.socket.settimeout(seconds)
        try:
            self.socket.connect((host, port))
        except OSError:
            self.socket.close()
            raise
        self.seconds, self.buffer, self.ended = seconds, b"", False

    def send(self, data):
        self.socket.sendall(data)

    def receive(self, most=65536, seconds=None):
        """The bytes that come next; none at the end of the stream, None if nothing comes within that time."""
        self.socket.settimeout(self.seconds if seconds is None else max(seconds, 0.001))
        try:
            data = self.socket.recv(most)
        except socket.timeout:
            return None
        except ConnectionResetError:
            data = b""
        finally:
            self.socket.settimeout(self.seconds)
        self.ended = not data
        return data

    def line(self):
        """The next line, or None if the stream ends or nothing comes."""
        while b"\n" not in self.buffer:
            data = self.receive()
            if not data:
                self.ended = True
                return None
            self.buffer += data
        line, _, self.buffer = self.buffer.partition(b"\n")
        return line + b"\n"

    def object(self):
        """The next line's JSON value, or None at the end."""
        line = self.line()
        return None if line is None else json.loads(line)

    def lines(self):
        """All lines up to the end of the stream, at which it closes its side too."""
        found = []
        while (line := self.line()) is not None:
            found.append(line)
        self.close_at_end()
        return found

    def rest(self):
        """All bytes up to the end of the stream, at which it closes its side too."""
        had = bytearray(self.buffer)
        while data := self.receive():
            had += data
        self.buffer = b""
        self.close_at_end()
        return bytes(had)

    def close_at_end(self):
        if self.ended:
            self.close()

    def watching(self, words='{"json":true}'):
        """Reads the greeting, watches with these words, and reads the two lines of the answer."""
        greeting = self.line()
        self.send(f"?WATCH={words};".encode())
        return greeting, self.line(), self.line()

    def finish(self):
        """The client sends no more."""
        self.socket.shutdown(socket.SHUT_WR)

    def reset(self):
        reset_at_close(self.socket)
        self.socket.close()

    def close(self):
        self.socket.close()


class Daemon:
    """`gpsrelay serve` on a free port of the loopback, or at the address `listen`; `words` are its options and devices."""

    def __init__(self, program, *words, port=None, listen=None, kilobytes=0, files=0, environment=None, folder=None):
        self.port = port or free_port()
        self.address = listen or f"127.0.0.1:{self.port}"
        self.errors = tempfile.TemporaryFile()
        with starting:
            self.process = subprocess.Popen(self.call(program, words), stdin=subprocess.DEVNULL, stdout=subprocess.PIPE, stderr=self.errors,
                                            preexec_fn=limited(kilobytes, files), env={**os.environ, **(environment or {})}, cwd=folder)
        self.place, self.has_listened = f"/proc/{self.process.pid}", False
        atexit.register(self.stop)  # whatever breaks the script, no daemon is left

    def call(self, program, words):
        return [program, "serve", "--listen", self.address, *words]

    def running(self):
        return self.process.poll() is None

    def said(self):
        """What it wrote on standard error so far."""
        return os.pread(self.errors.fileno(), 1 << 24, 0).decode(errors="replace")

    def says(self, text, seconds=WAIT):
        """Waits until it says this, or ends: True, or what it said in its place."""
        until(lambda: text in self.said() or not self.running(), seconds)
        return text in self.said() or self.said()

    def is_listening(self):
        return "listening at" in self.said()

    def listening(self, seconds=WAIT):
        """Waits until it says that it listens. An error if it ends first, or says nothing of it."""
        if not self.has_listened:
            until(lambda: self.is_listening() or not self.running(), seconds)
            self.has_listened = self.is_listening()
        if not self.has_listened:
            raise RuntimeError(f"the daemon does not listen (status {self.process.poll()}), and said {self.said()[-2000:]!r}")
        return self

    def client(self, buffer=None, seconds=WAIT):
        """A new client, once the daemon listens."""
        return Client(self.listening().port, buffer, seconds)

    def wait(self, seconds=WAIT):
        """Its exit status and what it wrote, once it ends by itself; it is killed if it does not."""
        return end_process(self.process, seconds)

    def starve(self):
        """From here on it gets no more memory than it has."""
        resource.prlimit(self.process.pid, resource.RLIMIT_DATA, (0, 0))

    def stop(self):
        """Kills it if it still runs."""
        if self.running():
            self.process.kill()
        if not self.process.stdout.closed:
            self.process.communicate()

    def cpu(self):
        """Its processor time in seconds."""
        return cpu_of(self.process.pid)

    def figure(self, name, folder=""):
        """A number of the process's status."""
        with open(f"{self.place}{folder}/status") as it:
            return int(re.search(rf"^{name}:\s+(\d+)", it.read(), re.M)[1])

    def memory(self):
        """Its memory in KB."""
        return self.figure("VmRSS")

    def peak(self):
        """Its greatest memory so far, in KB."""
        return self.figure("VmHWM")

    def open_files(self):
        return len(os.listdir(f"{self.place}/fd"))

    def tasks(self):
        return os.listdir(f"{self.place}/task")

    def threads(self):
        return len(self.tasks())

    def at_rest(self):
        """Whether all its threads sleep, and none of them was awake in between: what came to it so far, it has handled."""
        try:
            before = self.wakeups()
            return all(self.state(task) == "S" for task in self.tasks()) and self.wakeups() == before
        except (FileNotFoundError, ProcessLookupError):
            return False  # a thread has just ended

    def state(self, task):
        with open(f"{self.place}/task/{task}/stat") as it:
            return it.read().rpartition(")")[2].split()[0]

    def wakeups(self):
        """How often its threads that live went to sleep of themselves, and were woken again."""
        return sum(self.figure("voluntary_ctxt_switches", f"/task/{task}") for task in self.tasks())


class Gpsd(Daemon):
    """gpsd on a free port of the loopback, beside which gpsrelay is measured; `words` are its devices."""

    def call(self, program, words):
        return [program, "-N", "-n", "-b", "-S", str(self.port), *words]

    def is_listening(self):
        try:
            Client(self.port).close()
            return True
        except OSError:
            return False
