#!/usr/bin/env python3
"""Measures how long a burst of the pump holds the daemon's lock, in processor time, under the flood of greeting.py.

Use, as root: holds.py PROGRAM [SECONDS [CLIENTS]]. It needs `perf` and the kernel's tracing files. A probe at the entry and at the return of
`Floor::burst` reads the task clock of the pump's thread each time, so what other threads take meanwhile does not count; what the machine's
host takes of a virtual processor does. Printed: what greeting.py prints, and the holds: middle, 99th of a hundred, 999th of a thousand, the six
longest, and how many were above 2 ms.
"""
import os
import re
import shutil
import signal
import subprocess
import sys
import tempfile
import time

HERE = os.path.dirname(os.path.abspath(__file__))
PROGRAM = os.path.abspath(sys.argv[1])
SECONDS = sys.argv[2] if len(sys.argv) > 2 else "10"
CLIENTS = sys.argv[3] if len(sys.argv) > 3 else "63"
BURST = "serve_floor::floor::Floor::burst::"
EVENTS = "/sys/kernel/tracing/uprobe_events"
GROUP = f"gpsrelay{os.getpid()}"
ROOM = tempfile.mkdtemp(prefix=GROUP)
DATA = f"{ROOM}/perf.data"


def output(*words):
    return subprocess.run(words, capture_output=True, text=True).stdout


def offset():
    """Where `Floor::burst` begins in the program's file."""
    place = next((int(line.split()[0], 16) for line in output("nm", PROGRAM).splitlines() if BURST in line and " t " in line.lower()), None)
    if place is None:
        sys.exit("the program has no symbol Floor::burst: was it stripped?")
    for line in output("readelf", "-lW", PROGRAM).splitlines():
        fields = line.split()
        if fields[:1] == ["LOAD"]:
            at, begin, _, size = (int(it, 16) for it in fields[1:5])
            if begin <= place < begin + size:
                return place - begin + at
    sys.exit("no part of the program's file has Floor::burst")


def say(text):
    """One line for the kernel's list of probes."""
    file = os.open(EVENTS, os.O_WRONLY | os.O_APPEND)
    os.write(file, text.encode())
    os.close(file)


def daemon():
    """The process of the daemon, once it is there."""
    end = time.monotonic() + 20
    while time.monotonic() < end:
        for pid in filter(str.isdigit, os.listdir("/proc")):
            try:
                with open(f"/proc/{pid}/cmdline", "rb") as it:
                    words = it.read().split(b"\0")
            except OSError:
                continue
            if words[0] == PROGRAM.encode() and b"serve" in words:
                return pid
        time.sleep(0.1)
    sys.exit("the daemon did not start")


def record(*words):
    """Records until the words' command ends, or the daemon."""
    done = subprocess.run(["perf", "record", "-q", "-o", DATA, *words], stderr=subprocess.PIPE, text=True)
    if not os.path.exists(DATA):
        sys.exit(done.stderr)


def pump(pid):
    """The thread that calls `Floor::burst`, once it is busy."""
    for _ in range(50):
        record("-e", f"{GROUP}:entry", "-p", pid, "--", "sleep", "0.2")
        threads = output("perf", "script", "-i", DATA, "-F", "tid").split()
        if len(threads) > 100:
            return max(set(threads), key=threads.count)
    sys.exit("no burst was seen")


def holds(text):
    """Each hold in milliseconds: the task clock of a return less that of the entry before it. A line gives what the clock went on by since the
    last event of the same kind."""
    clock, kind, entry, found = {"entry": 0, "ret": 0}, None, None, []
    for line in text.splitlines():
        period, event = line.split()[:2]
        if event.startswith(GROUP):
            kind = event.rstrip(":").rpartition(":")[2]
        elif kind:
            clock[kind] += int(period)
            if kind == "entry":
                entry = clock[kind]
            elif entry is not None:
                found.append((clock[kind] - entry) / 1e6)
                entry = None
            kind = None
    return sorted(found)


def main():
    place, flood, probes = offset(), None, []
    try:
        for kind, name in ("p", "entry"), ("r", "ret"):
            say(f"{kind}:{GROUP}/{name} {PROGRAM}:{place:#x}\n")
            probes.append(name)
        # It lasts longer than what is recorded of it: to find the thread takes some seconds.
        flood = subprocess.Popen([sys.executable, f"{HERE}/greeting.py", PROGRAM, str(float(SECONDS) + 5), CLIENTS], stdout=subprocess.PIPE, text=True)
        thread = pump(daemon())
        record("-i", "-m", "2048", "-e", f"{{{GROUP}:entry,task-clock}}:S", "-e", f"{{{GROUP}:ret,task-clock}}:S", "-t", thread, "--", "sleep", SECONDS)
        print(re.sub(r"\n+", "\n", flood.communicate()[0]).strip())
        found = holds(output("perf", "script", "-i", DATA, "-F", "period,event"))
    finally:
        if flood and flood.poll() is None:
            flood.send_signal(signal.SIGINT)
        for name in probes:
            say(f"-:{GROUP}/{name}\n")
        shutil.rmtree(ROOM)
    if not found:
        sys.exit("no burst was seen")
    middle, most, rare = (found[int(len(found) * share)] for share in (0.5, 0.99, 0.999))
    print(f"{len(found)} bursts: middle {middle:.2f}, 99th of a hundred {most:.2f}, 999th of a thousand {rare:.2f} ms; "
          f"longest {' '.join(f'{it:.2f}' for it in found[-6:])} ms; {sum(it > 2 for it in found)} above 2 ms")


main()
