#!/usr/bin/env python3
"""Runs tools/port.py over terminals whose other side is a made receiver: it sends what fits the speed that is set, and noise at any other.

Use: port.py PROGRAM. All lines are tried at once. Then the built daemon reads one of them. Prints a line for each check, and ends with 1 if
one fails. Takes some 15 seconds.
"""
import os
import re
import signal
import subprocess
import sys
import tempfile
import termios
import threading
import time

from harness import *
from serial_line import SPEEDS, Line, in_pieces

PROGRAM = os.path.abspath(sys.argv[1])
LONG = 5 * WAIT  # seconds, since a busy machine may take a minute to start a Python
TOOL = os.path.join(os.path.dirname(os.path.dirname(os.path.abspath(__file__))), "tools", "port.py")


def once_a_second(data):
    """A stream: one sentence a second, as it comes at 4,800 baud, which is 480 bytes a second."""
    state = {"second": 0, "sent": 0}

    def next_piece(_):
        now = time.monotonic()
        rest = b""
        if int(now) != state["second"]:
            rest, state["second"], state["sent"] = data[state["sent"]:] if state["sent"] else b"", int(now), 0
        begin, state["sent"] = state["sent"], min(int(now % 1 * 480), len(data))
        return rest + data[begin:state["sent"]]

    return next_piece


def port(line, *words):
    """(status, what it wrote, what it said without its name, how long it took)."""
    begun = time.monotonic()
    status, out, said = run(TOOL, line.path, *words, seconds=LONG)
    said = said.decode().replace(line.path, "LINE").removeprefix("port.py: ").rstrip("\n")
    return status, out.decode(), said, time.monotonic() - begun


def is_raw(settings):
    """Whether a terminal changes nothing, echoes nothing, and waits for no carrier: eight bits and no parity."""
    changes = settings[0] & (termios.ICRNL | termios.INLCR | termios.IGNCR | termios.ISTRIP | termios.IXON | termios.INPCK) or settings[1] & termios.OPOST
    talks = settings[3] & (termios.ICANON | termios.ECHO | termios.ISIG | termios.IEXTEN)
    line = settings[2] & (termios.CSIZE | termios.PARENB | termios.CLOCAL | termios.CREAD)
    return not changes and not talks and line == termios.CS8 | termios.CLOCAL | termios.CREAD


def sentences(moment):
    return second(moment)


def frames(moment):
    return second(moment, "PVT EOE")


FOUND = {"sentences at 4800": (4_800, in_pieces(sentences)), "frames at 115200": (115_200, in_pieces(frames)), "both at 921600": (921_600, in_pieces(
    lambda moment: second(moment, "PVT RMC EOE"))), "the speed that it has": (38_400, in_pieces(sentences)), "one sentence a second at 4800":
    (4_800, once_a_second(rmc(BEGIN)))}
NO_SPEED = "no sentence with a right checksum and no frame of u-blox at any speed"
WRONG = {"noise alone": (None, lambda _: b""), "wrong checksums": (9_600, in_pieces(lambda moment: sentence("GPTXT,01,01,02,hello", error=1))),
         "sentences without a checksum": (9_600, in_pieces(lambda moment: b"$GPRMC,101510.00,A,4807.038,N,01131.000,E,,,010624,,,A\r\n")),
         "frames with a wrong checksum": (9_600, in_pieces(lambda moment: nav_eoe(moment)[:-1] + b"\0"))}


def speeds():
    lines = {name: Line(*row) for name, row in {**FOUND, **WRONG}.items()}
    lines["silence"] = Line(None, lambda _: b"", noise=False)
    ended = side_by_side(port, [(name, line) for name, line in lines.items()])
    for name, (speed, _) in FOUND.items():
        status, out, said, seconds = ended[name]
        check(f"{name}: what it says", (0, "", f"LINE is raw, at {speed} baud: its receiver can be read"), (status, out, said))
        settings = lines[name].settings()
        check(f"{name}: the terminal", ([SPEEDS[speed]] * 2, True), (settings[4:6], is_raw(settings)))
    check("the speed that it has is tried first", {SPEEDS[38_400]}, lines["the speed that it has"].seen)
    for name in WRONG:
        status, out, said, seconds = ended[name]
        form = rf"LINE: \d+ bytes came, but {NO_SPEED}(; it is read by .*)?"
        check(f"{name}: what it says", (1, "", True), (status, out, bool(re.fullmatch(form, said)) or said))
    status, _, said, _ = ended["silence"]
    check("silence: what it says", (1, True), (status, said.startswith("LINE: nothing came at any speed: is the receiver on") or said))
    within("nine speeds take some 12 seconds", ended["silence"][3] < 16 * slowness() + 5, ended["silence"][3])
    for name in [*WRONG, "silence"]:
        settings = lines[name].settings()
        check(f"{name}: the former speed, and raw", ([SPEEDS[38_400]] * 2, True), (settings[4:6], is_raw(settings)))
    check("silence: who reads it too", f"; it is read by {name_of(os.getpid())} too", ended["silence"][2].partition("line?")[2])
    for line in lines.values():
        line.hang_up()


def name_of(process):
    with open(f"/proc/{process}/comm") as it:
        return f"{it.read().strip()} ({process})"


def given_speed():
    line = Line(None, lambda _: b"", noise=False)
    os.write(line.far, b"first\n")
    status, out, said, _ = port(line, "9600")
    check("a speed that is given", (0, "", "LINE is raw, at 9600 baud"), (status, out, said))
    check("a speed that is given: the terminal", ([SPEEDS[9_600]] * 2, True), (line.settings()[4:6], is_raw(line.settings())))
    check("a speed that is given: nothing is read", b"first\n", os.read(line.near, 100))
    line.hang_up()


def amid_the_search():
    """A line with noise, and the tool when it has come to its second speed."""
    line = Line(None, lambda _: b"")
    running = subprocess.Popen([sys.executable, TOOL, line.path], stdin=subprocess.DEVNULL, stdout=subprocess.DEVNULL, stderr=subprocess.PIPE, text=True)
    until(lambda: line.settings()[4] == SPEEDS[9_600], LONG)
    return line, running


def is_signalled():
    for number in signal.SIGTERM, signal.SIGINT, signal.SIGHUP:
        line, running = amid_the_search()
        running.send_signal(number)
        said = running.communicate(timeout=LONG)[1]
        check(f"{number.name}: what it says", (1, "port.py: ended by a signal\n"), (running.returncode, said))
        check(f"{number.name}: the former speed", [SPEEDS[38_400]] * 2, line.settings()[4:6])
        line.hang_up()


def is_unplugged():
    line, running = amid_the_search()
    line.hang_up()
    said = running.communicate(timeout=LONG)[1]
    reasons = [f"port.py: {line.path}: {reason}\n" for reason in ("the line was hung up", "Input/output error")]
    check("a line that is unplugged", (1, True), (running.returncode, said in reasons or said))


def mistakes():
    with tempfile.NamedTemporaryFile() as file:
        rows = [((), 2, "the following arguments are required: DEVICE"), (("gps0=file:/dev/ttyUSB0",), 2, "give the path alone, as /dev/ttyUSB0"),
                ((file.name,), 1, "it is no terminal, and only a serial line has a speed"), (("/dev/none",), 1, "/dev/none: No such file or directory"),
                (("null", "9600"), 1, "null: No such file or directory; there is /dev/null"), ((f"{file.name}:9600",), 1, "; the speed is a word of its own"),
                (("/dev/null", "9601"), 2, "9601 is no speed; there are 1200, "), (("/dev/null", "0"), 2, "0 is no speed"), (("/dev/null", "-s"), 2, "-s"),
                (("--speed", "9600", "/dev/ttyS0"), 2, "/dev/ttyS0 is no speed, which comes behind the terminal: port.py /dev/ttyS0 9600"),
                (("/dev/null", "9600", "8N1"), 2, "unrecognized arguments: 8N1"), ((os.path.dirname(file.name),), 1, "it is no terminal")]
        for words, status, reason in rows:
            done, name = run(TOOL, *words, seconds=LONG), " ".join(words).replace(file.name, "FILE") or "no word"
            check(f"{name}: refused", (status, b"", True), (*done[:2], reason in done[2].decode() or done[2]))


def daemon_reads_it():
    """A receiver whose speed nobody knows, from a terminal that is not raw to a client of the daemon."""
    line = Line(115_200, in_pieces(sentences))
    check("for the daemon: the speed", 0, port(line)[0])
    daemon = Daemon(PROGRAM, f"gps0=file:{line.path}")
    client = daemon.client(seconds=WAIT)
    client.watching()
    # It may be opened in the middle of a moment, so the first fix may lack a part.
    found = next((report for report in iter(client.object, None) if report["class"] == "TPV" and report["mode"] == 3), None)
    check("the daemon reads the line: a fix", 48.1173, found and found["lat"])
    client.close()
    daemon.stop()
    line.hang_up()


if __name__ == "__main__":
    parts = [speeds, daemon_reads_it, is_unplugged, is_signalled, mistakes, given_speed]
    others = [threading.Thread(target=run_parts, args=(part,)) for part in parts]
    for other in others:
        other.start()
    for other in others:
        other.join()
    sys.exit(exit_status())
