#!/usr/bin/env python3
"""Finds the speed of a serial line by what its receiver sends, and makes the terminal raw.

    port.py DEVICE [SPEED]

Without SPEED it tries the line's own speed, and then the usual ones from 4,800 to 921,600 baud. It listens a second at each, or a little
longer if parts of sentences come, until a sentence of NMEA 0183 with a right checksum has come, or a frame of u-blox. It sets that speed,
says it, and ends. If there is none, the line has its former speed again, and the status is 1. With SPEED it sets that speed, and listens to
nothing. In both cases the terminal is raw then: 8 bits, no parity, no echo, no carrier. It writes nothing to the receiver.
"""
import argparse
import grp
import os
import re
import select
import signal
import sys
import termios
import time

sys.dont_write_bytecode = True  # nothing is left in the folder of the installed program

import command  # noqa: E402
from command import say  # noqa: E402

USUAL = (9_600, 38_400, 115_200, 4_800, 19_200, 57_600, 230_400, 460_800, 921_600)  # baud, the most frequent first
KNOWN = {int(name[1:]): getattr(termios, name) for name in dir(termios) if re.fullmatch(r"B[1-9][0-9]*", name)}  # to the system's own numbers
LISTEN = 1.0  # seconds at each speed
LONGER = 0.6  # seconds more if what came looks like parts of sentences or of a frame: of one sentence a second none may be whole before
SETTLE = 0.1  # seconds after a change of speed, for which what comes may be of the former speed
LATEST = 16_384  # bytes of what came that are looked at: no sentence and no usual frame is longer
SENTENCE = re.compile(rb"[$!]([A-Z][A-Z0-9]{2,14},[^$!*\x00-\x1f\x7f-\xff]*)\*([0-9A-Fa-f]{2})\r?\n")
FRAME = b"\xb5\x62"
PRINTABLE = bytes(range(32, 127)) + b"\r\n"
SIGNALS = signal.SIGINT, signal.SIGTERM, signal.SIGHUP


class Failed(Exception):
    """A reason to end with 1."""


class Ended(Exception):
    """A signal came."""


# What a receiver sends

def has_sentence(data):
    """Whether bytes have a sentence whose checksum is right: that is the exclusive or of what is between its first sign and the star."""
    for found in SENTENCE.finditer(data):
        total = 0
        for byte in found[1]:
            total ^= byte
        if total == int(found[2], 16):
            return True
    return False


def has_frame(data):
    """Whether bytes have a whole frame of u-blox: two fixed bytes, class, id, the length of the payload, the payload, and Fletcher's
    checksum of two bytes over all from the class on."""
    at = data.find(FRAME)
    while at >= 0:
        end = at + 6 + int.from_bytes(data[at + 4:at + 6], "little")
        if len(data) >= end + 2 and fletcher(data[at + 2:end]) == data[end:end + 2]:
            return True
        at = data.find(FRAME, at + 1)
    return False


def fletcher(data):
    first = second = 0
    for byte in data:
        first = first + byte & 255
        second = second + first & 255
    return bytes((first, second))


def looks_good(data):
    """Whether bytes may be parts of sentences, which are printable, or of a frame."""
    return FRAME in data or len(data.translate(None, PRINTABLE)) < len(data) / 8


# The terminal

class Terminal:
    """A serial line, which this program reads and never writes to."""

    def __init__(self, path):
        self.path = path
        try:
            self.file = os.open(path, os.O_RDONLY | os.O_NOCTTY | os.O_NONBLOCK)  # without a wait for a carrier
        except OSError as fault:
            raise Failed(f"{path}: {fault.strerror}{hint(path, fault)}") from None
        if not os.isatty(self.file):
            raise Failed(f"{path}: it is no terminal, and only a serial line has a speed")
        self.former = termios.tcgetattr(self.file)[4]

    def speed(self):
        """The speed that the line has, or None if it is none of those that have a number of the system's."""
        number = termios.tcgetattr(self.file)[4]
        return next((speed for speed, it in KNOWN.items() if it == number), None)

    def make_raw(self, number):
        """Makes it raw, at a speed by the system's own number. Whether the line has that speed then: an adapter may not know it."""
        try:
            settings = termios.tcgetattr(self.file)
        except termios.error:
            return False
        settings[0] = settings[1] = settings[3] = 0
        settings[2] &= ~(termios.CSIZE | termios.PARENB | termios.CSTOPB | termios.CRTSCTS)
        settings[2] |= termios.CS8 | termios.CREAD | termios.CLOCAL
        settings[4] = settings[5] = number
        settings[6][termios.VMIN], settings[6][termios.VTIME] = 1, 0
        try:
            termios.tcsetattr(self.file, termios.TCSANOW, settings)
            return termios.tcgetattr(self.file)[4] == number
        except termios.error:
            return False

    def listen(self):
        """How many bytes come at this speed, up to the first sentence or frame, and whether there is one."""
        time.sleep(SETTLE)
        termios.tcflush(self.file, termios.TCIFLUSH)
        size, data, begun = 0, b"", time.monotonic()
        while (left := begun + LISTEN + (LONGER if looks_good(data) else 0) - time.monotonic()) > 0:
            if not select.select([self.file], [], [], left)[0]:
                continue
            try:
                more = os.read(self.file, 65_536)
            except BlockingIOError:
                continue
            if not more:
                raise Failed(f"{self.path}: the line was hung up")
            size += len(more)
            data = (data + more)[-LATEST:]
            if has_sentence(data) or has_frame(data):
                return size, True
        return size, False


def hint(path, fault):
    """What to do about a terminal that cannot be opened."""
    if isinstance(fault, FileNotFoundError) and "/" not in path and os.path.exists(f"/dev/{path}"):
        return f"; there is /dev/{path}"
    if isinstance(fault, FileNotFoundError) and os.path.exists(path.rpartition(":")[0]):
        return "; the speed is a word of its own"
    if isinstance(fault, PermissionError):
        try:
            return f"; its group is {grp.getgrgid(os.stat(path).st_gid).gr_name}"
        except (OSError, KeyError):
            return ""
    return ""


def readers(path):
    """Which other programs have this terminal open, as far as this user may see that."""
    device, found = os.stat(path).st_rdev, []
    for process in filter(str.isdigit, os.listdir("/proc")):
        try:
            files = [os.stat(f"/proc/{process}/fd/{number}") for number in os.listdir(f"/proc/{process}/fd")]
            if int(process) != os.getpid() and any(it.st_rdev == device for it in files):
                with open(f"/proc/{process}/comm", encoding="utf-8", errors="replace") as name:
                    found.append(f"{name.read().strip()} ({process})")
        except OSError:
            continue  # it has ended, or is another user's
    return found


# The search

def find(terminal):
    """Tries one speed after another: the first at which the receiver can be read. Failed if there is none."""
    own, came, tried = terminal.speed(), 0, 0
    for speed in dict.fromkeys((*([own] if own else []), *USUAL)):
        if not terminal.make_raw(KNOWN[speed]):
            continue
        tried += 1
        size, is_good = terminal.listen()
        if is_good:
            return speed
        came += size
        if os.isatty(2):
            say(f"{terminal.path}: {speed} baud: {size} bytes, none of which can be read")
    if not tried:
        raise Failed(f"{terminal.path}: no speed can be set; is there a line behind it?")
    others = readers(terminal.path)
    raise Failed(f"{terminal.path}: " + (f"{came} bytes came, but no sentence with a right checksum and no frame of u-blox at any speed" if came else
                                         "nothing came at any speed: is the receiver on, and is this its line?")
                 + (f"; it is read by {', '.join(others)} too" if others else ""))


def speed_of(text):
    if "/" in text:
        raise argparse.ArgumentTypeError(f"{text} is no speed, which comes behind the terminal: {command.PROGRAM} {text} 9600")
    if not text.isascii() or not text.isdigit() or int(text) not in KNOWN:
        raise argparse.ArgumentTypeError(f"{text} is no speed; there are {', '.join(str(it) for it in sorted(KNOWN) if it >= 1_200)}")
    return int(text)


def path_of(text):
    """A path, and no word of the daemon's."""
    if re.match(r"[^/]*=?file:", text):
        raise argparse.ArgumentTypeError(f"{text}: give the path alone, as {re.sub(r'^.*?file:', '', text)}")
    return text


def end(*_):
    for number in SIGNALS:
        signal.signal(number, signal.SIG_IGN)  # one more must not keep the line from its former speed
    raise Ended


def main():
    parser = command.Parser(__doc__.split("\n", 1)[0])
    parser.add_argument("device", type=path_of, metavar="DEVICE", help="the terminal of the line, as /dev/ttyUSB0")
    parser.add_argument("speed", nargs="?", type=speed_of, metavar="SPEED", help="its speed in baud (the one at which the receiver can be read)")
    words = parser.parse_args()
    for number in SIGNALS:
        signal.signal(number, end)
    terminal = None
    try:
        terminal = Terminal(words.device)
        speed = words.speed or find(terminal)
        if not terminal.make_raw(KNOWN[speed]):
            raise Failed(f"{words.device}: the line does not take {speed} baud")
        say(f"{words.device} is raw, at {speed} baud" + ("" if words.speed else ": its receiver can be read"))
        return 0
    except (Failed, Ended, OSError, termios.error) as fault:
        if terminal is not None and not words.speed:
            terminal.make_raw(terminal.former)
        say("ended by a signal" if isinstance(fault, Ended) else str(fault) if isinstance(fault, Failed) else f"{words.device}: {fault.args[-1]}")
        return 1


if __name__ == "__main__":
    sys.exit(command.run(main))
