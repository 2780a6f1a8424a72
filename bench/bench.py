#!/usr/bin/env python3
"""Measures `gpsrelay decode` on made inputs, and on the same bytes gpsd's `gpsdecode` if it is installed, and if `cc` is
installed a C program that writes the same lines (decode.c, built with -O2).

    python3 bench/bench.py [PROGRAM] [ROUNDS]

PROGRAM is the built program (default crates/gpsrelay/out/gpsrelay, which `rt run` leaves). The inputs are made
by a fixed seed, so they are the same bytes everywhere. For each input the programs run by turns, ROUNDS
times (default 3), from a file to /dev/null, and the first two also into a pipe that another process drains; the best
round counts. Printed: megabytes a processor second, nanoseconds a packet, processor seconds and peak memory (of which
some 10 MB are this script's, from before the program begins), the ratio of the other programs' processor seconds to gpsrelay's,
and whether the C program wrote the same bytes. Only ratios of one run compare programs.
"""
import filecmp
import os
import random
import shutil
import struct
import subprocess
import sys
import tempfile
import time

TOP = os.path.dirname(os.path.dirname(os.path.abspath(__file__)))
sys.path.insert(0, os.path.join(TOP, "tests"))
from packets import frame, nav_eoe, nav_pvt, sentence

MB = 1_000_000
MIDNIGHT = 1717200000  # of 2024-06-01


def nmea_second(rng, t):
    clock = "%02d%02d%02d.00" % (t // 3600 % 24, t // 60 % 60, t % 60)
    date = "%02d0624" % (1 + t // 86400 % 28)
    where = "4807.%05d,N,01131.%05d,E" % (rng.randrange(100_000), rng.randrange(100_000))
    yield "GPRMC,%s,A,%s,%d.%03d,084.40,%s,,,A" % (clock, where, rng.randrange(40), rng.randrange(1000), date)
    yield "GPVTG,084.40,T,,M,0.500,N,0.926,K,A"
    yield "GPGGA,%s,%s,1,08,0.94,545.4,M,46.9,M,," % (clock, where)
    yield "GPGSA,A,3,01,02,12,14,15,18,22,25,,,,,1.83,0.94,1.57"
    for n in range(3):
        group = "".join(",%02d,%02d,%03d,%02d" % (4 * n + k + 1, rng.randrange(91), rng.randrange(360), rng.randrange(50))
                        for k in range(4))
        yield "GPGSV,3,%d,12%s" % (n + 1, group)
    yield "GPGLL,%s,%s,A,A" % (where, clock)


def nmea(size, error=0):
    rng, out, t, count = random.Random(1), bytearray(), 0, 0
    while len(out) < size:
        for body in nmea_second(rng, t):
            out += sentence(body, error)
            count += 1
        t += 1
    return bytes(out), count


def ubx(size):
    rng, out, t, count = random.Random(2), bytearray(), 0, 0
    while len(out) < size:
        itow = 1000 * t
        nanoseconds, east, north = rng.randrange(1000), rng.randrange(10_000), rng.randrange(10_000)
        pvt = nav_pvt(MIDNIGHT + t % (28 * 86400), itow, nanoseconds, 12, east, north)
        sat = struct.pack("<IBBH", itow, 1, 12, 0) + b"".join(
            struct.pack("<BBBbhhI", 0, n + 1, rng.randrange(50), rng.randrange(91), rng.randrange(360), 0, 8 * (n % 2))
            for n in range(12))
        dop = struct.pack("<IHHHHHHH", itow, 200, 183, 90, 157, 94, 60, 70)
        for message in (pvt, frame(1, 0x35, sat), frame(1, 4, dop), nav_eoe(itow)):
            out += message
            count += 1
        t += 1
    return bytes(out), count


def junk(size):
    return bytes(random.Random(3).randbytes(size)), 0


def dollars(size):
    return b"$" * size, 0


def bad_sums(size):
    return nmea(size, error=1)[0], 0


def false_heads(size):
    return bytes.fromhex("b56200000008") * (size // 6), 0


INPUTS = [("nmea, 16 MB", lambda: nmea(16 * MB)), ("ubx, 16 MB", lambda: ubx(16 * MB)),
          ("junk, 4 MB", lambda: junk(4 * MB)), ("$ without end, 4 MB", lambda: dollars(4 * MB)),
          ("bad sums, 4 MB", lambda: bad_sums(4 * MB)), ("false frame heads, 4 MB", lambda: false_heads(4 * MB))]


# The inputs that are also measured into a pipe.
PIPED = INPUTS[:2]


def drain():
    """A pipe's end to write to, and the process that reads all of it from the other."""
    reader, writer = os.pipe()
    pid = os.fork()
    if pid == 0:
        os.close(writer)
        while os.read(reader, 65_536):
            pass
        os._exit(0)
    os.close(reader)
    return writer, pid


def run(command, path, piped):
    """One run: wall seconds, processor seconds, peak kilobytes, status."""
    out, drainer = drain() if piped else (os.open("/dev/null", os.O_WRONLY), None)
    start = time.monotonic()
    pid = os.fork()
    if pid == 0:
        os.dup2(os.open(path, os.O_RDONLY), 0)
        os.dup2(out, 1)
        os.dup2(os.open("/dev/null", os.O_WRONLY), 2)
        os.close(out)
        os.execv(command[0], command)
    os.close(out)
    _, status, usage = os.wait4(pid, 0)
    wall = time.monotonic() - start
    if drainer:
        os.waitpid(drainer, 0)
    return wall, usage.ru_utime + usage.ru_stime, usage.ru_maxrss, os.waitstatus_to_exitcode(status)


def made(make, path):
    """Makes an input in a process of its own, so that this one stays small: what a run's peak memory begins with is this process's."""
    reader, writer = os.pipe()
    if os.fork() == 0:
        data, packets = make()
        with open(path, "wb") as file:
            file.write(data)
        os.write(writer, f"{len(data)} {packets}".encode())
        os._exit(0)
    os.close(writer)
    size, packets = map(int, os.read(reader, 100).split())
    os.close(reader)
    os.wait()
    return size, packets


def built(folder):
    """The C program, or None if there is no C compiler."""
    compiler = shutil.which("cc")
    if not compiler:
        return None
    program = os.path.join(folder, "decode")
    subprocess.run([compiler, "-O2", "-o", program, os.path.join(TOP, "bench", "decode.c")], check=True)
    return program


def are_alike(one, other, path):
    """Whether two commands write the same bytes; by files, so that this process stays small."""
    for command, to in (one, f"{path}.1"), (other, f"{path}.2"):
        with open(path, "rb") as given, open(to, "wb") as out:
            subprocess.run(command, stdin=given, stdout=out, stderr=subprocess.DEVNULL, check=True)
    return filecmp.cmp(f"{path}.1", f"{path}.2", shallow=False)


def line(name, best, size, packets):
    wall, cpu, peak, status = best
    each = f"{1e9 * cpu / packets:7.0f} ns/packet" if packets else " " * 17
    return f"  {name:<10} {size / MB / max(cpu, 1e-3):8.1f} MB/s {each} {cpu:7.3f} s cpu {peak / 1000:7.1f} MB peak, status {status}"


def main():
    program = sys.argv[1] if len(sys.argv) > 1 else os.path.join(TOP, "crates/gpsrelay/out/gpsrelay")
    rounds = int(sys.argv[2]) if len(sys.argv) > 2 else 3
    commands = {"gpsrelay": [program, "decode", "--history", "33554432"]}
    other = shutil.which("gpsdecode") or shutil.which("gpsdecode", path="/usr/bin:/usr/sbin")
    if other:
        commands["gpsdecode"] = [other]
    print(f"{os.cpu_count()} processors; best of {rounds} rounds, programs by turns")
    with tempfile.TemporaryDirectory() as folder:
        written_in_c = built(folder)
        if written_in_c:
            commands["C program"] = [written_in_c]
        for (name, make), piped in [(it, False) for it in INPUTS] + [(it, True) for it in PIPED]:
            path = os.path.join(folder, "input")
            size, packets = made(make, path)
            results = {each: [] for each in commands}
            for _ in range(rounds):
                for each, command in commands.items():
                    results[each].append(run(command, path, piped))
            print(f"{name}{', into a pipe' if piped else ''} ({size:,} bytes, {packets:,} packets)")
            for each in commands:
                print(line(each, min(results[each]), size, packets))
            own = min(r[1] for r in results["gpsrelay"])
            for each in list(commands)[1:]:
                print(f"  ratio      {min(r[1] for r in results[each]) / own:8.1f} {each}")
            if written_in_c and packets and not piped:
                same = are_alike(commands["gpsrelay"], [written_in_c], path)
                print(f"  the C program's lines are {'the same' if same else 'others'}")


if __name__ == "__main__":
    main()
