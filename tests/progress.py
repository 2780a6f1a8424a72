#!/usr/bin/env python3
"""How far a command has come, as it shows it on a terminal, and that nothing is shown anywhere else.

Use: progress.py PROGRAM. Each command reads for three seconds and a half, or until it has shown something. Prints a line for each check, and
ends with 1 if one fails.
"""
import os
import pty
import re
import subprocess
import sys
import threading
import time

from harness import WAIT, check, run_parts, second, side_by_side

PROGRAM = os.path.abspath(sys.argv[1])
LONG, SHORT = 3.5, 0.5
LINE = rb"\r\x1b\[Kgpsrelay: \d+\.\d MB, \d+ lines, \d+ kB/s"
SAID = rb'{"class":"VERSION","release":"gpsrelay-1","rev":"1","proto_major":3,"proto_minor":1}' + b"\r\n"


class Terminal:
    """A terminal whose other side keeps what is written to it."""

    def __init__(self):
        self.master, self.slave = pty.openpty()
        self.got = b""
        self.thread = threading.Thread(target=self.read)
        self.thread.start()

    def read(self):
        try:
            while data := os.read(self.master, 65536):
                self.got += data
        except OSError:
            pass  # all have closed the terminal

    def end(self):
        os.close(self.slave)
        self.thread.join()
        os.close(self.master)
        return self.got


def shown(word, piece, seconds, on_both=False, at_least=0):
    """Its status and what it shows on a terminal, if it reads this piece again and again for so long, and until it has shown the least number of lines;
    and how long it ran."""
    terminal, begun = Terminal(), time.monotonic()
    process = subprocess.Popen([PROGRAM, word], stdin=subprocess.PIPE, stderr=terminal.slave,
                               stdout=terminal.slave if on_both else subprocess.DEVNULL)
    number = 0
    while (passed := time.monotonic() - begun) < seconds or terminal.got.count(b"kB/s") < at_least and passed < WAIT:
        process.stdin.write(piece(number))
        process.stdin.flush()
        number += 1
        time.sleep(0.05)
    process.stdin.close()
    return process.wait(), terminal.end(), time.monotonic() - begun


PIECES = {"decode": second, "pseudo": second, "lines": lambda _: SAID, "replay": lambda number: b"# a comment\n"}


def terminals():
    rows = [(word, word, piece, LONG, False, 1) for word, piece in PIECES.items()]
    rows += [("short", "decode", second, SHORT), ("both", "decode", second, LONG, True)]
    found = side_by_side(shown, rows)
    for word in PIECES:
        status, text, seconds = found[word]
        check(f"{word}: status", 0, status)
        check(f"{word}: one line in each second from the third on, which is taken away at the end", True,
              re.fullmatch(rb"(" + LINE + rb"){1,%d}\r\x1b\[K" % (seconds - 1), text) is not None or (seconds, text))
    check("a short run shows nothing", (0, b""), found["short"][:2])
    check("nor does one whose output is on a terminal too", (0, False), (found["both"][0], b"kB/s" in found["both"][1]))


def pipes():
    process = subprocess.Popen([PROGRAM, "decode"], stdin=subprocess.PIPE, stdout=subprocess.DEVNULL, stderr=subprocess.PIPE)
    for number in range(int(LONG / 0.1)):
        process.stdin.write(second(number))
        process.stdin.flush()
        time.sleep(0.1)
    check("nothing is shown in a pipe", b"", process.communicate()[1])


sys.exit(run_parts(terminals, pipes))
