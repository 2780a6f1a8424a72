"""Reads and writes that fail after an exact count of bytes, and reads that bring nothing, over the built program."""
import fcntl
import os
import resource
import signal
import socket
import subprocess
import tempfile

from rows_text import EOE_FRAME, MIDNIGHT, PVT_FRAME, RMC, VERSION, at, fix, rmc_fix, shown

SECONDS = 60


def read_fails(program, words, given):
    """The input is a socket whose peer has gone with bytes unread: these bytes come, and the next read fails."""
    ours, theirs = socket.socketpair()
    with ours, theirs:
        ours.sendall(given)
        theirs.sendall(b"unread")
        process = subprocess.Popen([program, *words], stdin=theirs, stdout=subprocess.PIPE)
    out, _ = process.communicate(timeout=SECONDS)
    return process.returncode, out


def reads_bring_nothing(program, words, given):
    """The input is a socket that never waits: these bytes come, and each later read would block."""
    ours, theirs = socket.socketpair()
    with ours, theirs:
        ours.sendall(given)
        fcntl.fcntl(theirs, fcntl.F_SETFL, os.O_NONBLOCK)
        done = subprocess.run([program, *words], stdin=theirs, stdout=subprocess.PIPE, timeout=SECONDS)
    return done.returncode, done.stdout


def write_fails(program, words, given, most):
    """The output is a file that takes this many bytes: a write beyond them is cut, and the next one fails."""
    def limit():
        signal.signal(signal.SIGXFSZ, signal.SIG_IGN)
        resource.setrlimit(resource.RLIMIT_FSIZE, (most, most))

    with tempfile.TemporaryFile() as out:
        done = subprocess.run([program, *words], input=given, stdout=out, preexec_fn=limit, timeout=SECONDS)
        out.seek(0)
        return done.returncode, out.read()


PVT_LINE = fix(3, at("2024-06-01T12:00:00.000Z") + ',"lat":48.000000000,"lon":10.000000000,"altHAE":500.000,"altMSL":453.000,'
               '"geoidSep":47.000,"track":90.0000,"speed":1.500,"climb":1.000')
FIX = rmc_fix()
COUNT = b"version 0 devices 0 device 0 watch 0 poll 0 tpv 1 sky 0 toff 0 pps 0 error 0\n"
SCRIPT = b"open 0\ntake 0 1\ntake 9 1\n"
FIRST = shown(0, VERSION)
DRAINED = b"s0 drained daemonend 1\n"


def rows(program, commands=("decode", "pseudo", "lines", "replay")):
    """Each row of these commands: its name, what is wanted, and what was found."""
    for name, words, given, wanted in (
            # The epoch that is open at a failed read is not written; one that a NAV-EOE closed was.
            ("decode, a sentence", ["decode"], RMC, (3, b"")),
            ("decode, two seconds", ["decode"], RMC + MIDNIGHT, (3, FIX)),
            ("decode, a frame", ["decode"], PVT_FRAME, (3, b"")),
            ("decode, an epoch of frames", ["decode"], PVT_FRAME + EOE_FRAME, (3, PVT_LINE)),
            ("decode, nothing", ["decode"], b"", (3, b"")),
            ("pseudo, a sentence", ["pseudo"], RMC, (3, b"")),
            # A line that is refused comes before the failed read after it; one that has not ended does not.
            ("lines, a bad line", ["lines"], FIX + b"{\n" + FIX, (6, b"bad line 2\n")),
            ("lines, a line that has not ended", ["lines"], FIX + b"{", (3, b"")),
            ("lines, a good line", ["lines"], FIX, (3, b"")),
    ):
        if words[0] in commands:
            yield f"a read fails: {name}", wanted, read_fails(program, words, given)
    for count in range(len(SCRIPT) + 1) if "replay" in commands else ():
        wanted = (3, b"") if count < 16 else (3, FIRST) if count < len(SCRIPT) else (6, FIRST + b"bad line 3\n")
        found = read_fails(program, ["replay"], SCRIPT[:count])
        if found != wanted or count == len(SCRIPT):
            yield f"a read fails: replay, after each of {len(SCRIPT)} bytes", (count, wanted), (count, found)
    for command, given, wanted in (("decode", RMC + MIDNIGHT, (3, FIX)), ("lines", FIX, (3, b""))):
        if command in commands:
            yield f"reads bring nothing: {command}", wanted, reads_bring_nothing(program, [command], given)
    for command, given, whole in (("decode", RMC, FIX), ("replay", SCRIPT[:16], FIRST + DRAINED), ("lines", FIX, COUNT)):
        for most in range(len(whole) + 1) if command in commands else ():
            wanted = (0 if most == len(whole) else 4), whole[:most]
            found = write_fails(program, [command], given, most)
            if found != wanted or most == len(whole):
                yield f"a write fails: {command}, after each of {len(whole)} bytes", (most, wanted), (most, found)
