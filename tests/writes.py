#!/usr/bin/env python3
"""How the program's lines are written: few large writes while input is ready, and all that is due before the program waits for input.

Use: writes.py PROGRAM. Prints a line for each check, and ends with 1 if one fails. The counts of writes need strace; without it they are
skipped, with a line that says so.
"""
import fcntl
import os
import pty
import random
import select
import shutil
import signal
import struct
import subprocess
import sys
import tempfile
import termios
import time

from checks import WAIT, check, exit_status
from harness import until
from packets import sentence
from rows_decode import MADE
from rows_text import EOE_FRAME, PVT_FRAME, RMC, at, fix, rmc_fix

PROGRAM = os.path.abspath(sys.argv[1])
SIZE = 8_000_000
# the most writes for that input: two for each 32 KB that are read, and some to spare
MOST_WRITES = 800  # of 8 MB: three for each 32 KB that are read ahead, as they make some 70 KB of lines and 32 KB wait at most


def sentences(rng, t):
    """The sentences of one second: position, satellites in use, eleven satellites in view, minimum data."""
    time_of_day = f"{t // 3600 % 24:02}{t // 60 % 60:02}{t % 60:02}.00"
    place = f"{rng.randrange(90):02}{rng.randrange(60):02}.{rng.randrange(100000):05},N,{rng.randrange(180):03}{rng.randrange(60):02}.{rng.randrange(100000):05},E"
    bodies = [f"GPGGA,{time_of_day},{place},1,11,0.90,{rng.randrange(3000)}.{rng.randrange(10)},M,46.9,M,,"]
    bodies.append("GPGSA,A,3," + ",".join(f"{n:02}" for n in range(1, 12)) + ",,1.60,0.90,1.30")
    for part in range(3):
        satellites = [f"{n:02},{rng.randrange(91):02},{rng.randrange(360):03},{rng.randrange(51):02}" for n in range(4 * part + 1, min(4 * part + 5, 12))]
        bodies.append(f"GPGSV,3,{part + 1},11," + ",".join(satellites))
    bodies.append(f"GPRMC,{time_of_day},A,{place},{rng.randrange(100):03}.4,084.4,010624,,,A")
    return b"".join(sentence(body) for body in bodies)


def made(size):
    rng = random.Random(8)
    out, t = bytearray(), 0
    while len(out) < size:
        out += sentences(rng, t)
        t += 1
    return bytes(out[:size])


def counted(words, path, folder):
    """How many writes the program makes for a file that comes through a pipe in one go, and its status."""
    counts = os.path.join(folder, "counts")
    with subprocess.Popen(["cat", path], stdout=subprocess.PIPE) as feeder:
        done = subprocess.run(["strace", "-f", "-qq", "-e", "trace=write", "-e", "signal=none", "-o", counts, PROGRAM, *words],
                              stdin=feeder.stdout, stdout=subprocess.DEVNULL, timeout=300)
    with open(counts, encoding="latin-1") as file:
        return sum("write(1," in row for row in file), done.returncode


def many_at_once(folder):
    if not shutil.which("strace"):
        print("skipped the counts of writes: strace is not installed")
        return
    path = os.path.join(folder, "nmea")
    with open(path, "wb") as file:
        file.write(made(SIZE))
    for command in ("decode", "pseudo"):
        writes, status = counted([command], path, folder)
        print(f"        {command}: {writes} writes for {SIZE} bytes")
        check(f"{command}: status", 0, status)
        check(f"{command}: at most {MOST_WRITES} writes", True, 0 < writes <= MOST_WRITES)


def slow_feed():
    """A sentence each 50 ms: each one closes the epoch before it, whose line comes before the next sentence."""
    child = subprocess.Popen([PROGRAM, "decode"], stdin=subprocess.PIPE, stdout=subprocess.PIPE)
    lines = []
    for t in range(10):
        child.stdin.write(sentence(f"GPRMC,{120000 + t:06},A,4807.038,N,01131.000,E,022.4,084.4,010624,,,A"))
        child.stdin.flush()
        if t > 0:
            ready, _, _ = select.select([child.stdout], [], [], WAIT)
            lines.append(os.read(child.stdout.fileno(), 65536).count(b"\n") if ready else 0)
        time.sleep(0.05)
    rest = child.communicate()[0]
    check("a sentence each 50 ms: one line after each", [1] * 9, lines)
    check("a sentence each 50 ms: the last line at the end", (1, 0), (rest.count(b"\n"), child.returncode))


class Waiting:
    """A command that reads a FIFO, which stays open."""

    def __init__(self, command, folder):
        path = os.path.join(folder, command)
        os.mkfifo(path)
        self.input = os.open(path, os.O_RDWR)
        with open(path, "rb") as reading:
            self.child = subprocess.Popen([PROGRAM, command], stdin=reading, stdout=subprocess.PIPE)
        self.output = self.child.stdout.fileno()

    def comes(self, seconds):
        return bool(select.select([self.output], [], [], seconds)[0])

    def gives(self, data, wanted):
        """What comes of these bytes while nothing else does: as much as is wanted, or what came in time, and what follows at once."""
        os.write(self.input, data)
        found = b""
        while len(found) < len(wanted) and self.comes(WAIT):
            found += os.read(self.output, 65536)
        return found + (os.read(self.output, 65536) if self.comes(0.2) else b"")

    def ends(self):
        """What comes once the input is closed, and the status."""
        os.close(self.input)
        return self.child.communicate(timeout=WAIT)[0], self.child.returncode


def time_alone(clock):
    """An RMC without a position, and its fix."""
    body = f"GPRMC,{clock},V,,,,,,,230394,,"
    return sentence(body), fix(1, at(f"1994-03-23T{clock[:2]}:{clock[2:4]}:{clock[4:]}.000Z"))


def while_input_waits(folder):
    """What is due of the bytes so far comes while the input is open and brings nothing more."""
    (second, second_fix), (third, third_fix) = time_alone("123520"), time_alone("123521")
    many = [time_alone(f"13{t // 60:02}{t % 60:02}") for t in range(500)]
    sentences = MADE[0][3]  # of the fix of PVT_FRAME
    reading = b"m0 notready 0 0\n"
    for command, steps, last in (
            ("decode", [("a sentence, whose epoch may go on", RMC, b""), ("the next second", second, rmc_fix()),
                        ("a sentence without its last byte", third[:-1], b""), ("its last byte", third[-1:], second_fix),
                        ("500 seconds", b"".join(given for given, _ in many), third_fix + b"".join(line for _, line in many[:-1]))], many[-1][1]),
            ("pseudo", [("a frame, whose epoch may go on", PVT_FRAME, b""), ("the end of its epoch", EOE_FRAME, sentences),
                        ("200 epochs", (PVT_FRAME + EOE_FRAME) * 200, sentences * 200)], b""),
            ("replay", [("a reading", b"device g\nmonitor 0 0\nload 0 2\n", reading), ("a line without its end", b"load 0 2", b""),
                        ("its end", b"\n", reading), ("3,000 readings", b"load 0 2\n" * 3_000, reading * 3_000)], b"")):
        program = Waiting(command, folder)
        for what, given, wanted in steps:
            check(f"{command}, the input waits: {what}", wanted, program.gives(given, wanted))
        check(f"{command}, the input ends: what is left, and the status", (last, 0), program.ends())


def closed_output():
    reading, writing = os.pipe()
    os.close(reading)
    done = subprocess.run([PROGRAM, "decode"], input=made(100_000), stdout=writing)
    os.close(writing)
    check("a closed output: status", 4, done.returncode)


def full_disk():
    with open("/dev/full", "wb") as full:
        done = subprocess.run([PROGRAM, "decode"], input=made(1_000), stdout=full)
    check("a full disk, few lines: status", 4, done.returncode)


PAGE, TAIL = 4_096, 3  # the bytes that the pipe takes first, and those of the line `bad line 1234` that it takes later: `34` and LF


def bad_script(lengths):
    """A script whose line 1234 is bad, in two parts; the output of both is due at the second one. It has a sentence of each length."""
    texts = [sentence("GPTXT," + "a" * length).strip() for length in lengths]
    rows = [b"device g", b"open 0", b'say 0 ?WATCH={"nmea":true};', *(b"text 0 1.000000000 " + text for text in texts)]
    return b"\n".join(rows + [b"#"] * (1232 - len(rows)) + [b""]), b"take 0 100\nnothing\n"


def waits_for(child, size):
    """Whether it waits in a write of this many bytes to its standard output."""
    with open(f"/proc/{child.pid}/syscall", encoding="ascii") as file:
        words = file.read().split()
    return len(words) > 3 and int(words[1], 0) == 1 and int(words[3], 0) == size


def part_of_a_write():
    """A pipe takes a part of a write, which ends within the number of the bad line: as for `replay | less` that is stopped and goes on."""
    lengths = [90] * 31
    alone = subprocess.run([PROGRAM, "replay"], input=b"".join(bad_script(lengths)), capture_output=True).stdout
    lacking = PAGE + TAIL - len(alone)
    lengths = [90 + lacking // 31 + (1 if k < lacking % 31 else 0) for k in range(31)]
    first, second = bad_script(lengths)
    reading, writing = os.pipe()
    fcntl.fcntl(writing, fcntl.F_SETPIPE_SZ, PAGE)
    child = subprocess.Popen([PROGRAM, "replay"], stdin=subprocess.PIPE, stdout=writing, stderr=subprocess.PIPE)
    os.close(writing)
    child.stdin.write(first)
    child.stdin.flush()
    child.stdin.write(second)
    child.stdin.close()
    until(lambda: struct.unpack("i", fcntl.ioctl(reading, termios.FIONREAD, b"\0" * 4))[0] == PAGE)
    child.send_signal(signal.SIGSTOP)
    os.waitpid(child.pid, os.WUNTRACED)
    child.send_signal(signal.SIGCONT)
    try:
        check("a part of a write: the rest of the number is left", True, until(lambda: waits_for(child, TAIL)))
    except OSError as error:
        print(f"skipped what is left of the write: {error}")
    with open(reading, "rb") as pipe:
        out = pipe.read()
    errors = child.stderr.read()
    check("a part of a write: the bad line", (PAGE + TAIL, b"\nbad line 1234\n"), (len(out), out[-15:]))
    check("a part of a write: its number on standard error, and the status", (True, 6), (b": line 1234 of the input" in errors or errors, child.wait()))


def end_of_a_terminal():
    """One Ctrl-D at the beginning of a line ends the input of a terminal: after a read without a byte the source is not read again."""
    leader, follower = pty.openpty()
    child = subprocess.Popen([PROGRAM, "decode"], stdin=follower, stdout=subprocess.PIPE, stderr=subprocess.DEVNULL)
    os.close(follower)
    os.write(leader, RMC + b"\x04")
    try:
        out, status = child.communicate(timeout=WAIT)[0], child.returncode
    except subprocess.TimeoutExpired:
        child.kill()
        out, status = child.communicate()[0], None
    os.close(leader)
    check("one Ctrl-D ends decode: its fix, and the status", (rmc_fix(), 0), (out, status))


def limit_of_history():
    """All lines of the bytes within the limit are there when one more byte comes."""
    given = made(200_000)
    within = subprocess.run([PROGRAM, "decode"], input=given, capture_output=True).stdout
    cut = subprocess.run([PROGRAM, "decode", "--history", "100000"], input=given, capture_output=True)
    check("the limit of the history: status", 5, cut.returncode)
    check("the limit of the history: the lines so far", True, within.startswith(cut.stdout) and cut.stdout.count(b"\n") > 100)


with tempfile.TemporaryDirectory() as place:
    many_at_once(place)
    while_input_waits(place)
slow_feed()
closed_output()
full_disk()
part_of_a_write()
end_of_a_terminal()
limit_of_history()
sys.exit(exit_status())
