#!/usr/bin/env python3
"""What the tools in Python have in common: their messages never stop them, whatever standard error is; --version and --help; streams that are
closed; and files that cannot be written.

Use: tools.py PROGRAM. Prints a line for each check, and ends with 1 if one fails. Takes some 10 seconds.
"""
import http.client
import os
import re
import socket
import subprocess
import sys
import tempfile
import time

from clock_sides import Lines, Reader, datagram
from harness import *
from serial_line import SPEEDS, Line, in_pieces

PROGRAM = os.path.abspath(sys.argv[1])
TOOLS = os.path.join(os.path.dirname(os.path.dirname(os.path.abspath(__file__))), "tools")
NAMES = "clock", "export", "mqtt", "port", "top", "track", "view"
TPV = b'{"class":"TPV","device":"gps0","mode":3,"time":"2024-06-01T12:00:00.000Z","lat":48.1,"lon":11.5}\r\n'


def path_of(name):
    return os.path.join(TOOLS, f"{name}.py")


class Errors:
    """A standard error of each kind that takes nothing: a pipe that is full and that nobody reads, /dev/full, one that is closed, and a pipe whose
    reader is gone."""
    KINDS = "a full pipe", "/dev/full", "closed", "a pipe without a reader"

    def __init__(self, kind):
        self.kind, self.reader = kind, None
        if kind == "/dev/full":
            self.file = os.open(kind, os.O_WRONLY)
        elif kind == "closed":
            self.file = os.open(os.devnull, os.O_WRONLY)
        else:
            self.reader, self.file = os.pipe()
            if kind == "a full pipe":
                self.fill()
            else:
                os.close(self.reader)
                self.reader = None

    def fill(self):
        os.set_blocking(self.file, False)
        try:
            while True:
                os.write(self.file, b"x" * 4096)
        except BlockingIOError:
            os.set_blocking(self.file, True)

    def start(self, name, *words, **how):
        """The tool with this standard error."""
        before = (lambda: os.close(2)) if self.kind == "closed" else None
        return subprocess.Popen([sys.executable, path_of(name), *words], stderr=self.file, preexec_fn=before, **{"stdin": subprocess.DEVNULL, **how})

    def close(self):
        os.close(self.file)
        if self.reader is not None:
            os.close(self.reader)


def each_kind(part):
    """Calls a part with a standard error of each kind."""
    def parts():
        for kind in Errors.KINDS:
            errors = Errors(kind)
            part(errors, kind)
            errors.close()

    parts.__name__ = part.__name__
    return parts


@each_kind
def clock(errors, kind):
    with tempfile.TemporaryDirectory() as folder:
        pulses, daemon = Reader(folder, "pulse"), Lines("gps0")
        running = errors.start("clock", f"127.0.0.1:{daemon.port}", "--sock-pulse", pulses.path)
        requests = b"?DEVICES;\n", b'?WATCH={"enable":true,"json":true,"pps":true,"device":"gps0"};\n'
        check(f"{kind}: clock.py sends the daemon its two requests", requests, daemon.take())
        daemon.fix()
        for _ in range(2):
            now = time.time_ns()
            daemon.time("PPS", now, now)
            check(f"{kind}: clock.py hands on a pulse", datagram(now, now), pulses.next())
        daemon.fix(1)
        daemon.fix(3)
        daemon.link.settimeout(0.2)
        check(f"{kind}: clock.py sends the daemon nothing else", b"", received(daemon.link))
        running.terminate()
        check(f"{kind}: clock.py ends", 0, end_process(running)[0])
        daemon.close()
        pulses.close()


def received(link):
    try:
        return link.recv(4096)
    except TimeoutError:
        return b""


@each_kind
def mqtt(errors, kind):
    with socket.create_server(("127.0.0.1", 0)) as daemon, socket.create_server(("127.0.0.1", 0)) as broker:
        for it in daemon, broker:
            it.settimeout(WAIT)
        running = errors.start("mqtt", f"127.0.0.1:{daemon.getsockname()[1]}", "--broker", f"127.0.0.1:{broker.getsockname()[1]}")
        to_broker, to_daemon = broker.accept()[0], daemon.accept()[0]
        to_broker.settimeout(WAIT)
        to_daemon.settimeout(WAIT)
        to_broker.recv(4096)  # CONNECT
        to_broker.sendall(b"\x20\x02\x00\x00")
        check(f"{kind}: mqtt.py watches", b'?WATCH={"json":true};\n', to_daemon.recv(4096))
        to_daemon.sendall(TPV)
        # PUBLISH, retained; the length of the rest, which is below 128; the topic with its length; the line without its end
        rest = b"\x00\x11gpsrelay/gps0/TPV" + TPV.rstrip()
        check(f"{kind}: mqtt.py publishes", b"\x31" + bytes([len(rest)]) + rest, to_broker.recv(4096))
        to_daemon.close()
        check(f"{kind}: mqtt.py ends with the daemon", 1, end_process(running)[0])
        to_broker.close()


@each_kind
def view(errors, kind):
    port = free_port()
    running = errors.start("view", f"127.0.0.1:{free_port()}", "--listen", f"127.0.0.1:{port}")

    def status():
        link = http.client.HTTPConnection("127.0.0.1", port, timeout=WAIT)
        try:
            link.request("GET", "/")
            return link.getresponse().status
        except OSError:
            return None
        finally:
            link.close()

    check(f"{kind}: view.py serves its page", True, until(lambda: status() == 200))
    running.terminate()
    check(f"{kind}: view.py ends", 0, end_process(running)[0])


@each_kind
def follows(errors, kind):
    with tempfile.TemporaryDirectory() as folder, socket.create_server(("127.0.0.1", 0)) as daemon:
        daemon.settimeout(WAIT)
        out = os.path.join(folder, "out.gpx")
        running = errors.start("export", "--daemon", f"127.0.0.1:{daemon.getsockname()[1]}", "-o", out)
        link = daemon.accept()[0]
        link.settimeout(WAIT)
        check(f"{kind}: export.py watches", b'?WATCH={"json":true};\n', link.recv(4096))
        link.sendall(b"{\n" + TPV)
        link.close()  # it says so
        again = daemon.accept()[0]
        again.settimeout(WAIT)
        again.recv(4096)
        running.terminate()
        check(f"{kind}: export.py ends", 0, end_process(running)[0])
        with open(out, encoding="utf-8") as it:
            check(f"{kind}: export.py writes the track", 1, it.read().count("<trkpt "))
        again.close()


@each_kind
def port(errors, kind):
    line = Line(38_400, in_pieces(lambda moment: rmc(moment)))
    running = errors.start("port", line.path)
    check(f"{kind}: port.py ends", 0, end_process(running)[0])
    check(f"{kind}: port.py sets the speed", SPEEDS[38_400], line.settings()[4])
    line.hang_up()


def left_out():
    """A standard error that is read again is told how many messages it missed."""
    errors, daemon = Errors("a full pipe"), Lines("gps0")
    running = errors.start("clock", f"127.0.0.1:{daemon.port}", "--sock-pulse", "/tmp/none.sock")
    daemon.take()  # that it is connected, and which device it takes, is said before its second request
    os.set_blocking(errors.reader, False)
    had = b"".join(iter(lambda: available(errors.reader), b""))
    daemon.fix()
    said = bytearray()
    until(lambda: said.extend(available(errors.reader)) or said.count(b"\n") == 2)
    check("nothing of what it said before is there", set(b"x"), set(had))
    check("what it says once it is read again", ["clock.py: 2 messages were left out", "clock.py: gps0 has a fix"], said.decode().splitlines())
    running.kill()
    running.wait()
    daemon.close()
    errors.close()


def available(file):
    """What can be read at once."""
    try:
        return os.read(file, 65_536)
    except BlockingIOError:
        return b""


def another_server():
    """A server that is no daemon of this kind, such as one of ssh."""
    with socket.create_server(("127.0.0.1", 0)) as other, socket.create_server(("127.0.0.1", 0)) as broker, tempfile.TemporaryFile() as errors:
        for it in other, broker:
            it.settimeout(WAIT)
        place = f"127.0.0.1:{other.getsockname()[1]}"
        for name, words in (("clock", ["--sock-pulse", "/tmp/none.sock"]), ("mqtt", ["--broker", f"127.0.0.1:{broker.getsockname()[1]}"])):
            running = subprocess.Popen([path_of(name), place, *words], stdin=subprocess.DEVNULL, stderr=errors)
            if name == "mqtt":
                to_broker = broker.accept()[0]
                to_broker.recv(4096)
                to_broker.sendall(b"\x20\x02\x00\x00")
            link = other.accept()[0]
            link.sendall(b"SSH-2.0-OpenSSH_9.2\r\n")
            wanted = f"{name}.py: what answers there is no daemon: "
            check(f"{name}.py and another server", True, until(lambda: wanted in os.pread(errors.fileno(), 65_536, 0).decode()))
            if name == "mqtt":
                check("mqtt.py and another server: status", 1, end_process(running)[0])
                to_broker.close()
            running.kill()
            running.wait()
            link.close()


def words():
    release = run(PROGRAM, "--version")[1].decode().split(",")[0].strip()
    for name in NAMES:
        check(f"{name}.py --version", (0, f"{name}.py of {release}\n".encode(), b""), run(path_of(name), "--version"))
        status, out, errors = run(path_of(name), "--help")
        check(f"{name}.py --help", (0, True, b""), (status, out.startswith(f"usage: {name}.py".encode()), errors))
        status, out, errors = run(path_of(name), "--no-such")
        check(f"{name}.py --no-such", (2, b"", True), (status, out, b"--no-such" in errors or b"required" in errors))
    with open("/dev/full", "wb") as full:
        done = subprocess.run([path_of("port"), "--help"], stdout=full, stderr=subprocess.PIPE, timeout=WAIT)
    check("--help, to a full disk", (1, b"port.py: standard output: No space left on device\n"), (done.returncode, done.stderr))


def completed(*words):
    """What bash offers for the last of these words, the first of which is the command."""
    script = '. "$1"; shift; COMP_WORDS=("$@"); COMP_CWORD=$(($# - 1)); _gpsrelay_tool; printf "%s\\n" "${COMPREPLY[@]}"'
    done = subprocess.run(["bash", "-c", script, "bash", os.path.join(TOOLS, "gpsrelay.bash"), *words], capture_output=True, text=True, timeout=WAIT)
    return done.stdout.split()


def completion():
    for name in NAMES:
        told = run(path_of(name), "--help")[1].decode()
        check(f"bash completes the options of gpsrelay-{name}", sorted(set(re.findall(r"--[a-z][a-z-]+", told))), sorted(completed(f"gpsrelay-{name}", "--")))
    check("bash completes a speed", ["19200", "115200"], completed("gpsrelay-port", "/dev/ttyS0", "1"))
    check("bash completes a format", ["gpx", "geojson"], completed("gpsrelay-export", "--format", "g"))
    check("bash completes a terminal", ["/dev/null"], completed("gpsrelay-port", "/dev/nul"))


def closed_streams():
    for name, words in (("export", ("--format", "gpx")), ("track", ())):
        for number in 0, 1:
            done = subprocess.run([path_of(name), *words], preexec_fn=lambda: os.close(number), input=TPV, capture_output=True, timeout=WAIT)
            reason = f"{name}.py: input or output: Bad file descriptor\n".encode()
            check(f"{name}.py with standard {('input', 'output')[number]} closed", (1, reason), (done.returncode, done.stderr))


def files():
    """What cannot be written is said at once, not after hours of a track; and a file that is there is not lost for it."""
    with tempfile.TemporaryDirectory() as folder:
        nowhere = f"{folder}/none/out.svg"
        begun = time.monotonic()
        status, _, errors = run(path_of("track"), "--daemon", f"127.0.0.1:{free_port()}", "-o", nowhere)
        check("a folder that is not there", (1, f"track.py: {nowhere}: No such file or directory\n"), (status, errors.decode()))
        status, _, errors = run(path_of("track"), "--daemon", f"127.0.0.1:{free_port()}", "-o", folder)
        check("a folder in place of a file", (1, f"track.py: {folder}: Is a directory\n"), (status, errors.decode()))
        within("both at once", time.monotonic() - begun < 2 * slowness(), time.monotonic() - begun)
        kept = f"{folder}/kept.svg"
        with open(kept, "wb") as out:
            out.write(b"kept")
        status, _, errors = run(path_of("track"), "-o", kept, given=b"nothing\n" * 3)
        reason = "track.py: standard input has no line of `gpsrelay decode` or of a daemon (bad lines: 3)\n"
        check("no good line: status and a reason", (1, reason), (status, errors.decode()))
        with open(kept, "rb") as it:
            check("no good line: the file stays", b"kept", it.read())
        for words, reason in (("-o", "x.png"), "x.png: it would be SVG, so give it a name that ends in .svg"), \
                (("--gpx", "x.kml"), "x.kml: it would be GPX"), (("x.json", "y.svg"), "y.svg: no such file; to write it, say -o y.svg"):
            status, _, errors = run(path_of("track"), *words, given=TPV)
            check(f"{' '.join(words)}: refused", (2, True, False), (status, reason in errors.decode() or errors, os.path.exists(words[1])))
        check("-o -: standard output", (0, run(path_of("track"), given=TPV)[1]), run(path_of("track"), "-o", "-", given=TPV)[:2])


if __name__ == "__main__":
    sys.exit(run_parts(words, completion, closed_streams, files, another_server, clock, mqtt, view, follows, port, left_out))
