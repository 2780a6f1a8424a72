#!/usr/bin/env python3
"""How many instructions `gpsrelay decode` takes for each byte that it reads, beside the C programs of this folder.

Use: instructions.py [--functions N] [--brief] PROGRAM... Each PROGRAM is a built gpsrelay; with two, the second is beside the first. It needs
`valgrind` and a C compiler. Instructions are counted by callgrind, one run each: a count is the same each time, on a busy machine too. The
inputs are made by fixed seeds:

 nmea          2 MB of seconds with eleven satellites: RMC, VTG, GGA, GSA, three GSV, GLL
 ublox         2 MB of epochs with sixteen satellites: NAV-PVT, NAV-SAT, NAV-DOP, NAV-EOE
 false heads   0.4 MB of frame heads one behind the other, each with a length of 2,048
 heads, mixed  0.4 MB of such heads with lengths of all sizes, three to nine random bytes between them
 bad sums      0.4 MB of the first, each sentence with a wrong sum
 $, $AAA       0.4 MB of these bytes over and over
 noise         0.4 MB of random bytes

The C programs are decode.c by `cc -O2`, and its second form by `cc -O3 -DWIDE`; a star marks one that wrote other lines than the first PROGRAM.
Unless --brief is given, printed besides: the writes of `decode` for each 2 MB, its greatest memory, and the time and greatest memory of
`generate --seed 1 --size 10000`, the best of three. With --functions, the N functions of the last PROGRAM that take most, each with its
instructions a byte and its share, for the first two inputs and the false heads.
"""
import argparse
import collections
import hashlib
import os
import random
import re
import struct
import subprocess
import sys
import tempfile
import time

HERE = os.path.dirname(os.path.abspath(__file__))
sys.path.insert(0, os.path.join(os.path.dirname(HERE), "tests"))
from packets import BEGIN, clock_of, frame, nav_eoe, nav_pvt, sentence

LARGE, SMALL = 2_000_000, 400_000


def nmea_second(rng, t, error):
    """The sentences of a second with eleven satellites in view."""
    clock, place = clock_of(BEGIN + t) + ".00", f"4807.{rng.randrange(100_000):05},N,01131.{rng.randrange(100_000):05},E"
    day = time.strftime("%d%m%y", time.gmtime(BEGIN + t))
    groups = [f"{n:02},{rng.randrange(91):02},{rng.randrange(360):03},{rng.randrange(51):02}" for n in range(1, 12)]
    bodies = [f"GPRMC,{clock},A,{place},{rng.randrange(40)}.{rng.randrange(1_000):03},084.40,{day},,,A", "GPVTG,084.40,T,,M,0.500,N,0.926,K,A",
              f"GPGGA,{clock},{place},1,11,0.94,545.4,M,46.9,M,,", "GPGSA,A,3,01,02,03,04,05,06,07,08,09,10,11,,1.83,0.94,1.57",
              *(f"GPGSV,3,{part + 1},11," + ",".join(groups[4 * part:4 * part + 4]) for part in range(3)), f"GPGLL,{place},{clock},A,A"]
    return b"".join(sentence(body, error) for body in bodies)


def ublox_epoch(rng, t):
    """The frames of an epoch with sixteen satellites in view."""
    itow = 1_000 * t
    satellites = b"".join(struct.pack("<BBBbhhI", 0, n + 1, rng.randrange(50), rng.randrange(91), rng.randrange(360), 0, 8 * (n % 2)) for n in range(16))
    return (nav_pvt(BEGIN + t, itow, rng.randrange(1_000), 12, rng.randrange(10_000), rng.randrange(10_000))
            + frame(1, 0x35, struct.pack("<IBBH", itow, 1, 16, 0) + satellites)
            + frame(1, 4, struct.pack("<I7H", itow, 200, 183, 90, 157, 94, 60, 70)) + nav_eoe(itow))


def filled(size, seed, make):
    """Whole pieces of `make` until they have this size; it is given a generator of random numbers and the number of the piece."""
    rng, out, number = random.Random(seed), bytearray(), 0
    while len(out) < size:
        out += make(rng, number)
        number += 1
    return bytes(out)


def mixed_head(rng, _):
    length = rng.choice([rng.randrange(64), rng.randrange(2_049), 2_048])
    return b"\xb5\x62" + struct.pack("<BBH", 1, rng.randrange(256), length) + rng.randbytes(rng.randrange(3, 10))


INPUTS = {
    "nmea": filled(LARGE, 1, lambda rng, t: nmea_second(rng, t, 0)),
    "ublox": filled(LARGE, 2, ublox_epoch),
    "false heads": bytes.fromhex("b56200000008") * (SMALL // 6),
    "heads, mixed": filled(SMALL, 3, mixed_head),
    "bad sums": filled(SMALL, 1, lambda rng, t: nmea_second(rng, t, 1)),
    "$": b"$" * SMALL,
    "$AAA": b"$AAA" * (SMALL // 4),
    "noise": random.Random(4).randbytes(SMALL),
}
FORMS = {"decode.c": ["-O2"], "decode.c, wide": ["-O3", "-DWIDE"]}
PROFILED = ["nmea", "ublox", "false heads"]


class Counted:
    """A command's run over an input under callgrind: its instructions, those of each function, and what it wrote."""

    def __init__(self, command, path, folder):
        out, lines = os.path.join(folder, "callgrind"), os.path.join(folder, "lines")
        with open(path, "rb") as given, open(lines, "wb") as written:
            done = subprocess.run(["valgrind", "--tool=callgrind", f"--callgrind-out-file={out}", *command], stdin=given, stdout=written,
                                  stderr=subprocess.PIPE, text=True, check=False)
        found = re.search(r"Collected : (\d+)", done.stderr)
        if done.returncode or not found:
            sys.exit(f"{' '.join(command)}: status {done.returncode}\n{done.stderr[-1_000:]}")
        self.instructions = int(found[1])
        self.functions = own_costs(out)
        with open(lines, "rb") as written:
            self.digest = hashlib.file_digest(written, "sha256").digest()


def own_costs(path):
    """The instructions of each function without those of what it calls, from a file of callgrind."""
    names, costs, current, is_call = {}, collections.Counter(), None, False
    with open(path, encoding="utf-8", errors="replace") as file:
        for line in file:
            if line.startswith("fn="):
                number, _, name = line[3:].strip().partition(" ")
                current = names.setdefault(number, name)
            elif line.startswith("cfn="):
                number, _, name = line[4:].strip().partition(" ")
                names.setdefault(number, name)
            elif line.startswith("calls="):
                is_call = True  # the next line is what the call took
            elif line[:1] in "0123456789+-*":
                if not is_call:
                    costs[current] += int(line.split()[1])
                is_call = False
    return costs


def short(name):
    """The last parts of a function's name, without the compiler's own."""
    name = re.sub(r"<[^<>]*>|\{[^{}]*\}|'\d+|\.llvm\.\d+|::h[0-9a-f]{16}", "", re.sub(r"<[^<>]*>", "", name))
    return "::".join([part for part in name.split("::") if part][-3:])


def built(words, folder):
    """decode.c, built by these words."""
    program = os.path.join(folder, "decode" + "".join(words))
    subprocess.run(["cc", *words, "-o", program, os.path.join(HERE, "decode.c")], check=True)
    return program


class Run:
    """A run without valgrind: its time, its writes, and its greatest memory in MB, looked at each millisecond. What the system says of that
    at a process's end begins with the memory of the script that started it."""

    def __init__(self, command, path):
        self.peak = 0
        with open(path, "rb") as given, open(os.devnull, "wb") as nowhere:
            begun = time.monotonic()
            child = subprocess.Popen(command, stdin=given, stdout=nowhere, stderr=subprocess.DEVNULL)
            while found := re.search(r"VmHWM:\s+(\d+)", content(child.pid, "status")):
                self.peak = int(found[1]) / 1_000
                time.sleep(0.001)
            self.seconds = time.monotonic() - begun
        self.writes = int(re.search(r"syscw: (\d+)", content(child.pid, "io"))[1])
        child.wait()


def content(process, name):
    with open(f"/proc/{process}/{name}", encoding="ascii") as file:
        return file.read()


def row(*cells):
    print("| " + " | ".join(cells) + " |", flush=True)


def table(programs, names, paths, folder):
    """The instructions of each program for each input; what the last gpsrelay's functions take, by input."""
    row("instructions a byte", *names)
    row(*["---"] * (len(names) + 1))
    functions = {}
    for kind, given in INPUTS.items():
        runs = [Counted(program, paths[kind], folder) for program in programs]
        cells = [f"{run.instructions / len(given):.1f}" + ("" if run.digest == runs[0].digest else "*") for run in runs]
        row(f"{kind}, {len(given) / 1e6:.1f} MB", *cells)
        functions[kind] = [run.functions for run in runs]
    return functions


def main():
    words = argparse.ArgumentParser(usage=__doc__)
    words.add_argument("--functions", type=int, default=0)
    words.add_argument("--brief", action="store_true")
    words.add_argument("programs", nargs="+")
    words = words.parse_args()
    given = [os.path.abspath(program) for program in words.programs]
    with tempfile.TemporaryDirectory() as folder:
        paths = {}
        for kind, content in INPUTS.items():
            paths[kind] = os.path.join(folder, f"input {kind}")
            with open(paths[kind], "wb") as file:
                file.write(content)
        commands = [[program, "decode"] for program in given] + [[built(form, folder)] for form in FORMS.values()]
        functions = table(commands, words.programs + list(FORMS), paths, folder)
        for kind in PROFILED if words.functions else []:
            costs, size = functions[kind][len(given) - 1], len(INPUTS[kind])
            print(f"\n{kind}, {words.programs[-1]}")
            for name, cost in costs.most_common(words.functions):
                print(f"  {cost / size:6.2f} a byte, {100 * cost / costs.total():5.1f} %  {short(name)}")
        if words.brief:
            return
        print()
        row("", *words.programs)
        row(*["---"] * (len(given) + 1))
        for kind in ("nmea", "ublox"):
            runs = [Run([program, "decode"], paths[kind]) for program in given]
            row(f"{kind}: writes for 2 MB; greatest memory", *(f"{run.writes}; {run.peak:.1f} MB" for run in runs))
        runs = [[Run([program, "generate", "--seed", "1", "--size", "10000"], os.devnull) for _ in range(3)] for program in given]
        row("`generate` of 10,000: time; greatest memory", *(f"{min(it.seconds for it in three):.2f} s; {three[0].peak:.1f} MB" for three in runs))


if __name__ == "__main__":
    main()
