#!/usr/bin/env python3
"""Runs tools/top.py in a terminal of 80 by 24 that is played here: what it shows of a built daemon's receivers, line by line, how it finds the
daemon again, how it ends, and what it refuses.

Use: top.py PROGRAM. Prints a line for each check, and ends with 1 if one fails. Takes some 10 seconds.
"""
import fcntl
import os
import pty
import re
import select
import signal
import socket
import struct
import subprocess
import sys
import termios
import threading

from harness import *

PROGRAM = os.path.abspath(sys.argv[1])
TOOL = os.path.join(os.path.dirname(os.path.dirname(os.path.abspath(__file__))), "tools", "top.py")
CODES = re.compile(r"\x1b\[(\??[0-9;]*)([A-Za-z])|\x1b[()][A-Z0-9]|\x1b[=>78cHM]|[\x00-\x1f]|[^\x00-\x1f\x1b]+")


class Terminal:
    """A terminal of the kind vt100 with a program in it: what stands on its screen, and the keys that are typed."""

    def __init__(self, *words, columns=80, rows=24, kind="vt100"):
        self.columns, self.rows = columns, rows
        self.lines = [[" "] * columns for _ in range(rows)]
        self.row = self.column = 0
        self.had, self.rest = "", ""
        self.far, near = pty.openpty()
        self.size(columns, rows)
        self.before = termios.tcgetattr(near)
        self.process = subprocess.Popen([sys.executable, TOOL, *words], stdin=near, stdout=near, stderr=near, env={**os.environ, "TERM": kind},
                                        preexec_fn=lambda: (os.setsid(), fcntl.ioctl(0, termios.TIOCSCTTY, 0)))
        self.near, self.lock, self.is_over = near, threading.Lock(), threading.Event()
        self.reader = threading.Thread(target=self.read, daemon=True)
        self.reader.start()

    def size(self, columns, rows):
        fcntl.ioctl(self.far, termios.TIOCSWINSZ, struct.pack("HHHH", rows, columns, 0, 0))

    def resize(self, columns, rows):
        with self.lock:
            self.columns, self.rows = columns, rows
            self.lines = [[" "] * columns for _ in range(rows)]
        self.size(columns, rows)

    def read(self):
        while not self.is_over.is_set():
            if not select.select([self.far], [], [], 0.05)[0]:
                continue
            try:
                text = os.read(self.far, 65_536).decode("ascii", "replace")
            except OSError:
                return  # the program and this script have closed the other side
            with self.lock:
                self.had += text
                self.rest += text
                self.take()

    def take(self):
        """Does what the program wrote. A sequence that is not whole yet waits for its rest."""
        at = 0
        while at < len(self.rest):
            found = CODES.match(self.rest, at)
            if found is None:
                break  # it begins with an escape that has no end yet
            self.do(found)
            at = found.end()
        self.rest = self.rest[at:]

    def do(self, found):
        numbers, code = found[1], found[2]
        if code:
            given = [int(number or 0) for number in numbers.lstrip("?").split(";")]
            self.control(code, given)
        elif found[0] == "\r":
            self.column = 0
        elif found[0] == "\n":
            self.row = min(self.row + 1, self.rows - 1)
        elif found[0] == "\b":
            self.column = max(self.column - 1, 0)
        elif found[0] == "\t":
            self.column = min((self.column // 8 + 1) * 8, self.columns - 1)
        elif found[0][0] >= " ":
            for sign in found[0]:
                if self.row < self.rows and self.column < self.columns:
                    self.lines[self.row][self.column] = sign
                self.column += 1

    def control(self, code, given):
        first = max(given[0], 1)
        if code == "H":
            self.row, self.column = first - 1, (given[1] if len(given) > 1 and given[1] else 1) - 1
        elif code in "ABCD":
            self.row += {"A": -first, "B": first}.get(code, 0)
            self.column += {"C": first, "D": -first}.get(code, 0)
        elif code == "K" and self.row < self.rows:
            begin, end = {0: (self.column, self.columns), 1: (0, self.column + 1), 2: (0, self.columns)}[given[0]]
            self.lines[self.row][begin:end] = " " * (min(end, self.columns) - begin)
        elif code == "J":
            begin = self.row * self.columns + self.column if given[0] == 0 else 0
            for at in range(begin, self.rows * self.columns):
                self.lines[at // self.columns][at % self.columns] = " "

    def screen(self):
        with self.lock:
            return ["".join(line).rstrip() for line in self.lines]

    def shows(self, *texts, seconds=WAIT):
        """Waits until all of these stand on the screen: True, or what stands there in their place."""
        until(lambda: all(text in "\n".join(self.screen()) for text in texts) or self.process.poll() is not None, seconds)
        return all(text in "\n".join(self.screen()) for text in texts) or self.screen()

    def type(self, keys):
        os.write(self.far, keys)

    def ended(self):
        """Its status, and whether the terminal is as it was."""
        status = end_process(self.process)[0]
        return status, termios.tcgetattr(self.near) == self.before

    def hang_up(self):
        self.is_over.set()
        self.reader.join()
        os.close(self.near)
        os.close(self.far)

    def close(self):
        self.process.kill()
        self.process.wait()
        self.hang_up()


def sky(numbers):
    """A GSA and the GSV of these satellites, whose strengths are 50 less their place in the list; the first two are used."""
    each = [f"{number:02d},{10 + at},{100 + at},{50 - at}" for at, number in enumerate(numbers)]
    rows = [",".join(each[begin:begin + 4]) for begin in range(0, len(numbers), 4)]
    listed = [sentence(f"GPGSV,{len(rows)},{at},{len(numbers):02d},{row}") for at, row in enumerate(rows, 1)]
    return sentence(f"GPGSA,A,3,{numbers[0]:02d},{numbers[1]:02d},,,,,,,,,,,1.8,0.9,1.5") + b"".join(listed)


def shown():
    """A fix of the rows in packets.py: 4807.038 N, 01131.000 E, 545.4 m above the sea, 46.9 m more above the ellipsoid, 22.4 knots, 84.4 degrees."""
    device = TcpDevice("gps0")
    daemon = Daemon(PROGRAM, device.word, "--wait", "0").listening()
    device.take()
    terminal = Terminal(f"127.0.0.1:{daemon.port}")
    check("the head", True, terminal.shows(f"top.py  127.0.0.1:{daemon.port}: connected", "Devices: *gps0 (not active)", "nothing came yet", "q ends"))
    for t in range(2):
        device.send(second(t) + sky([5, 12, 24, 31, 2]))
    check("a fix", True, terminal.shows("Fix       3D", "Time      2024-06-01T12:00:00.000Z", "Latitude  48.1173000 N", "Longitude 11.5166667 E",
                                        "Height    545.4 m above the sea", "Speed     11.52 m/s, 41.5 km/h", "Track     84.4 degrees", "HDOP      0.9"))
    wanted = ["Sky: 2 of 5 satellites used", "PRN System  el  az dBHz", "  5 GPS     10 100   50 ###########", " 12 GPS     11 101   49 ###########",
              " 24 GPS     12 102   48 ..........", " 31 GPS     13 103   47 ..........", "  2 GPS     14 104   46 .........."]
    terminal.shows(*wanted)
    check("the sky: used satellites first, the strongest first", wanted, [row[40:] for row in terminal.screen()[3:10]])
    check("its size: the last row is the last of the screen", ("q ends", 24), (terminal.screen()[23], len(terminal.screen())))
    ages = re.findall(r"Age +(\d+\.\d) s", "\n".join(terminal.screen()))
    check("the age of the fix", True, len(ages) == 1 and float(ages[0]) < WAIT)
    age = float(ages[0])
    check("the age grows", True, until(lambda: float((re.findall(r"Age +(\d+\.\d) s", "\n".join(terminal.screen())) or [0])[0]) > age + 1))
    device.send(second(2) + sky(range(1, 33)) + second(3))
    check("more satellites than rows", True, terminal.shows("Sky: 2 of 32 satellites used", "and 15 more"))
    # a second without a fix: RMC with the status V
    device.send(sentence(f"GPRMC,{clock_of(BEGIN + 4)},V,,,,,,,010624,,,N") + second(5))
    check("a fix that is lost, for the second of its RMC", True,
          "Fix       no fix, the last place:" in terminal.had or terminal.shows("no fix, the last place:"))
    terminal.resize(60, 10)
    check("a smaller terminal", True, terminal.shows("connected", "Fix ", "q ends"))
    check("a smaller terminal: its rows", True, until(lambda: terminal.screen()[9].startswith("q ends")))
    terminal.resize(80, 24)
    check("its former size", True, terminal.shows("Climb", "q ends"))
    again(daemon, device, terminal)
    terminal.close()


def again(daemon, device, terminal):
    """The daemon is killed, and another one is there later."""
    daemon.stop()
    device.close()
    check("a daemon that is gone", True, terminal.shows("the daemon is gone; trying again"))
    device = TcpDevice("roof")
    other = TcpDevice("van")
    daemon = Daemon(PROGRAM, device.word, other.word, port=daemon.port).listening()
    check("it finds the daemon again", True, terminal.shows("connected", "*roof (not active)  van (not active)", "n shows the next device"))
    other.take()
    other.send(second(7) + second(8))
    check("the other device is active", True, terminal.shows("*roof (not active)  van\n"))
    terminal.type(b"n")
    check("n: the other device", True, terminal.shows("roof (not active)  *van", "2024-06-01T12:00:07.000Z"))
    terminal.type(b"\x1b[Cx")  # an arrow and a letter that mean nothing
    terminal.type(b"q")
    check("q ends it, and the terminal is as it was", (0, True), terminal.ended())
    daemon.stop()
    for it in device, other:
        it.close()


def ends():
    nobody = free_port()
    for name, way in (("Ctrl-C", b"\x03"), ("SIGTERM", signal.SIGTERM), ("SIGHUP", signal.SIGHUP), ("Q", b"Q")):
        terminal = Terminal(f"127.0.0.1:{nobody}")
        check(f"{name}: nobody is there yet", True, terminal.shows(f"127.0.0.1:{nobody}: Connection refused; trying again"))
        if isinstance(way, bytes):
            terminal.type(way)
        else:
            terminal.process.send_signal(way)
        check(f"{name} ends it, and the terminal is as it was", (0, True), terminal.ended())
        terminal.close()


def terminal_goes():
    """An ssh that breaks: the terminal is hung up."""
    terminal = Terminal(f"127.0.0.1:{free_port()}")
    terminal.shows("trying again")
    terminal.hang_up()
    check("a terminal that is hung up ends it", 0, end_process(terminal.process)[0])


def strange():
    """What no daemon of this project sends: a name with signs for the terminal, and lines that are none."""
    listener = socket.create_server(("127.0.0.1", 0))
    listener.settimeout(WAIT)
    terminal = Terminal(f"127.0.0.1:{listener.getsockname()[1]}")
    link, _ = listener.accept()
    name = r"a\u001b[2Jb\u00e9\u0007c"
    link.sendall(b"\xff\n[]\n{\n" + f'{{"class":"DEVICES","devices":[{{"class":"DEVICE","path":"{name}","activated":"x"}}]}}\n'.encode() +
                 f'{{"class":"TPV","device":"{name}","mode":3,"lat":-1.5,"lon":-2.25,"altMSL":1e300,"time":"2024-06-01T00:00:00.000Z"}}\n'.encode())
    check("signs of a terminal in a name", True, terminal.shows("Devices: *a?[2Jb?" + "?c", "1.5000000 S", "2.2500000 W"))
    terminal.type(b"q")
    check("it ends", 0, terminal.ended()[0])
    link.close()
    terminal.close()
    terminal = Terminal(f"127.0.0.1:{listener.getsockname()[1]}")
    link, _ = listener.accept()
    link.sendall(b"SSH-2.0-OpenSSH_9.2\r\n")
    check("another server", True, terminal.shows("what answers there is no daemon"))
    link.close()
    listener.close()
    terminal.close()


def refused():
    done = run(TOOL, "127.0.0.1:1")
    check("no terminal", (1, b"", b"top.py: it needs a terminal; gpsrelay-view shows the same in a browser\n"), done)
    for words, reason in (("127.0.0.1",), "127.0.0.1 is no HOST:PORT"), (("-x",), "unrecognized arguments: -x"), (("tcp://host:2947",), "is no HOST:PORT"):
        done = run(TOOL, *words)
        check(f"{words[0]}: refused", (2, True), (done[0], reason in done[2].decode() or done[2]))
    for kind in "dumb", "no-such-kind":
        terminal = Terminal(f"127.0.0.1:{free_port()}", kind=kind)
        check(f"a terminal of the kind {kind}: status", 1, terminal.ended()[0])
        reason = f"it cannot draw in a terminal of the kind {kind}: "
        check(f"a terminal of the kind {kind}: a reason", True, until(lambda: reason in terminal.had) or terminal.had)
        terminal.close()


def can_draw():
    """Whether this Python has curses, and this machine knows the terminal that is played here."""
    try:
        import curses
    except ImportError:
        return False
    try:
        with open(os.devnull, "wb") as out:
            curses.setupterm("vt100", out.fileno())
        return True
    except curses.error:
        return False


if __name__ == "__main__":
    if not can_draw():
        print("skipped: this Python has no curses, or this machine does not know the terminal vt100")
        sys.exit(0)
    sys.exit(run_parts(refused, shown, ends, terminal_goes, strange))
