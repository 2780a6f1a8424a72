#!/usr/bin/env python3
"""Out of memory: the program is run with less and less address space. It ends with 0 or 7, and its output is a prefix of what it writes
with ample memory, or it cannot be started at all (the system's loader says so, with 127). The daemon, which serves one client, may
besides end with 3 or 8 and say what it could not open; what its client was sent is a prefix too.

Use: memory.py PROGRAM. Prints a line for each command, and ends with 1 if one fails.
"""
import os
import re
import subprocess
import sys
import threading
import time

from harness import WAIT, Client, Daemon, FifoDevice, exit_status, run, sample, within
from packets import sentence

PROGRAM = os.path.abspath(sys.argv[1])
FEW = [*range(2_000, 6_000, 100), *range(6_000, 24_000, 1_000)]  # kilobytes
MANY = [*range(2_000, 12_000, 500), *range(12_000, 80_000, 4_000)]
CLOSING = rb"(?:s0 (?:drained|writefault) [a-z]+ \d+\n)?(?:u0 published \d+ count \d+ left \d+\n)?"


def report(name, needed, seen, wrong):
    """The check of one command: each status of `needed` was seen, and nothing was wrong."""
    statuses = sorted(map(str, seen))
    within(f"{name} with less and less memory: {statuses}", not wrong and needed <= seen, wrong or statuses)


def tried(name, words, given):
    """Runs a command under each limit."""
    whole = run(PROGRAM, *words, given=given)[1]
    seen, wrong = set(), []
    for kilobytes in FEW:
        try:
            status, out, _ = run(PROGRAM, *words, given=given, kilobytes=kilobytes)
        except subprocess.TimeoutExpired:
            status, out = "no end", b""
        seen.add(status)
        if status not in (0, 7, 127) or not whole.startswith(out) or (status == 127 and out):
            wrong.append((kilobytes, status, len(out)))
    report(name, {0, 7}, seen, wrong)


def asked(daemon):
    """A client that watches sentences, and what it was sent up to the answer; None if the daemon ends or takes no link. The daemon may
    have had no memory to say that it listens, so its port is tried."""
    while daemon.running():
        try:
            client = Client(daemon.port)
            break
        except OSError:
            time.sleep(0.01)
    else:
        return None, b""
    had = b""
    try:
        client.send(b'?WATCH={"nmea":true};')
        while b'"class":"WATCH"' not in had and (data := client.receive()):
            had += data
    except OSError:
        pass
    return client, had


def serve(given, kilobytes):
    """The daemon's status, its output, what it said on standard error, and what its client was sent. Its device is a FIFO, which is given
    the bytes once the client was answered or its link closed, and which then ends."""
    device = FifoDevice("g")
    daemon = Daemon(PROGRAM, device.word, kilobytes=kilobytes)
    client, had = asked(daemon)
    device.alone()

    def give():
        while daemon.running():
            try:
                device.send(given)
                device.end()
                return
            except BrokenPipeError:  # the daemon has not opened the FIFO yet, or has closed it
                time.sleep(0.01)

    giver = threading.Thread(target=give, daemon=True)
    giver.start()
    if client:
        had += client.rest()
        client.close()
    status, out = daemon.wait()
    giver.join(WAIT)
    device.close()
    return status, out, daemon.said(), had


def served(name, given):
    """Runs the daemon under each limit."""
    status, out, _, whole = serve(given, 0)
    seen, wrong = {status}, [] if status == 0 and given in whole and re.fullmatch(CLOSING, out) else [(0, status, out)]
    for kilobytes in MANY:
        status, out, errors, had = serve(given, kilobytes)
        seen.add(status)
        causes = {0: True, 7: True, 127: not out and not had, 3: "cannot be opened" in errors or "failed" in errors, 8: "cannot listen" in errors}
        if not causes.get(status) or not whole.startswith(had) or not re.fullmatch(CLOSING, out):
            wrong.append((kilobytes, status, out, errors[-200:], len(had)))
    report(name, {7}, seen, wrong)


def full_outlets(sessions, items):
    """A script at whose end each session's outlet keeps this number of items: the opening, a WATCH answer, and sentences."""
    line = sentence("GPTXT,01,01,02," + "x" * 60)
    opened = b"".join(b'open %d\nsay %d ?WATCH={"nmea":true};\n' % (s, s) for s in range(sessions))
    pieces = [6] * ((items - 2) // 6) + [(items - 2) % 6]
    return b"device g\n" + opened + b"".join(b"bytes 0 1717243200.000000000 %s\n" % (line * n).hex().encode() for n in pieces if n)


def ended(sessions, items):
    """The end of a script whose outlets are full: with far less room than its lines take, and then with ever closer to too little."""
    given, words = full_outlets(sessions, items), ["replay", "--queue", str(items)]
    status, whole, _ = run(PROGRAM, *words, given=given, kilobytes=30_000)
    found = (status, len(whole) >> 20, whole.count(b"\n"), whole[-40:])
    good = found[:3] == (0, 45, sessions * (items + 1)) and whole.endswith(b"s%d drained daemonend %d\n" % (sessions - 1, items))
    within(f"the end of {sessions} sessions with full outlets, 45 MB of lines, in 30 MB", good, found)
    low, high, seen, wrong = 8_000, 30_000, set(), []
    while high - low > 50:
        kilobytes = (low + high) // 2
        status, out, _ = run(PROGRAM, *words, given=given, kilobytes=kilobytes)
        seen.add(status)
        if status not in (0, 7) or not whole.startswith(out) or (status == 0) != (len(out) == len(whole)):
            wrong.append((kilobytes, status, len(out)))
        low, high = (low, kilobytes) if status == 0 else (kilobytes, high)
    report("the same end", {0, 7}, seen, wrong)


def without_end(times, kilobytes):
    """`decode --history all` over more bytes than any number of --history allows takes no more memory than over few."""
    drive = sample("drive.nmea")
    lines = run(PROGRAM, "decode", given=drive)[1].count(b"\n")
    status, out, _ = run(PROGRAM, "decode", "--history", "all", given=drive * times, kilobytes=kilobytes)
    found = (status, out.count(b"\n"), times * lines)
    good = status == 0 and found[1] > found[2] - 3 * times and len(drive) * times > 33_554_432
    within(f"decode --history all of {len(drive) * times:,} bytes in {kilobytes:,} KB of address space", good, found)


def flat(times):
    """`decode --history all` over 200 MB, a piece at a time: its greatest memory is that of a short log."""
    drive = sample("drive.nmea")
    decode = subprocess.Popen([PROGRAM, "decode", "--history", "all"], stdin=subprocess.PIPE, stdout=subprocess.DEVNULL)
    for _ in range(times):
        decode.stdin.write(drive)
    decode.stdin.flush()
    with open(f"/proc/{decode.pid}/status", encoding="ascii") as it:
        peak = int(re.search(r"VmHWM:\s+(\d+)", it.read())[1])
    decode.stdin.close()
    status = decode.wait(WAIT)
    within(f"decode --history all of {times * len(drive):,} bytes: status 0, and at most 4,000 KB", status == 0 and peak <= 4_000, (status, peak))


tried("decode", ["decode"], sample("drive.nmea"))
flat(200_000_000 // len(sample("drive.nmea")) + 1)
without_end(33_554_432 // len(sample("drive.nmea")) + 1, 8_000)
tried("pseudo", ["pseudo"], sample("drive.nmea"))
tried("replay", ["replay"], sample("two_devices.script"))
tried("generate", ["generate", "--seed", "1", "--size", "100"], b"")
ended(32, 16_384)
served("serve", sample("drive.nmea"))
sys.exit(exit_status())
