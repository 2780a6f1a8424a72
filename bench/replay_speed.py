#!/usr/bin/env python3
"""Measures how `gpsrelay replay` grows with its script.

Use: replay_speed.py PROGRAM [ROUNDS]

It makes four scripts in a folder of its own and plays them by turns, ROUNDS times (3 by default): one of about
100 MB of two receivers, three clients and a monitor (once more with small generations), the first half of it, and 2 MB of
a receiver's bytes in lines of 512 and in lines of one. Each figure is the least processor time of the rounds, and the
greatest memory, of which some 11 MB are this script's, from before the program begins.
"""

import os
import sys
import tempfile

from bench import run

sys.path.insert(0, os.path.join(os.path.dirname(os.path.dirname(os.path.abspath(__file__))), "tests"))
from packets import BEGIN, clock_of, gga, rmc, sentence

OPENING = [
    "device a", "device b", "monitor 0 0",
    "open 0", 'say 0 ?WATCH={"json":true};',
    "open 1", 'say 1 ?WATCH={"nmea":true,"device":"b"};',
    "open 2", 'say 2 ?WATCH={"pps":true};',
]
TAKING = ["store 0 13", "store 1 13", "store 2 13", "store 3 13", "load 0 12", "take 0 64", "take 1 64", "take 2 64"]


def sentences(t):
    at, part = BEGIN + t, f"{t * 7919 % 100000:05}"
    place = f"4807.{part},N,01131.{part},E"
    return [whole[:-2].decode() for whole in [
        rmc(at, place, motion="0.50,84.40"),
        sentence("GPVTG,84.40,T,,M,0.50,N,0.93,K,A"),
        gga(at, place, quality="04,0.90"),
        sentence("GPGSA,A,3,01,02,12,14,,,,,,,,,2.50,1.30,2.10"),
        sentence("GPGSV,1,1,04,01,40,083,46,02,17,308,41,12,07,344,39,14,22,228,45"),
        sentence(f"GPGLL,{place},{clock_of(at)},A,A"),
    ]]


def lines(t):
    """The lines of a script for second t."""
    at = BEGIN + t
    for device in 0, 1:
        yield f"edge {device} assert {at}.000000000#{t + 1}"
    for device in 0, 1:
        for line in sentences(t):
            yield f"text {device} {at}.100000000 {line}"
    yield from TAKING


def write_seconds(path, size):
    """Writes whole seconds until the script has `size` bytes."""
    with open(path, "w", encoding="ascii") as script:
        script.write("\n".join(OPENING) + "\n")
        t = 0
        while script.tell() < size:
            script.write("".join(line + "\n" for u in range(t, t + 100) for line in lines(u)))
            t += 100


def write_bytes(path, size, width):
    """Writes `size` bytes of one receiver, `width` of them a line."""
    stream = bytearray()
    t = 0
    while len(stream) < size:
        stream += "".join(line + "\r\n" for line in sentences(t)).encode()
        t += 1
    with open(path, "w", encoding="ascii") as script:
        script.write("device a\nopen 0 65536\nsay 0 ?WATCH={\"json\":true};\n")
        for at in range(0, size, width):
            script.write(f"bytes 0 {BEGIN}.100000000 {stream[at:min(at + width, size)].hex()}\n")


def played(program, path, words=()):
    """The processor time of a run in seconds, and its memory in MB."""
    _, cpu, peak, status = run([program, "replay", *words], path, piped=False)
    if status != 0:
        sys.exit(f"{path}: status {status}")
    return cpu, peak / 1024


def main():
    program, rounds = sys.argv[1], int(sys.argv[2]) if len(sys.argv) > 2 else 3
    with tempfile.TemporaryDirectory() as place:
        paths = {name: os.path.join(place, name) for name in ("whole", "half", "long", "single")}
        write_seconds(paths["whole"], 100_000_000)
        write_seconds(paths["half"], 50_000_000)
        write_bytes(paths["long"], 2_000_000, 512)
        write_bytes(paths["single"], 2_000_000, 1)
        plays = [(name, path, ()) for name, path in paths.items()]
        plays.append(("small generations", paths["whole"], ("--history", "1000")))
        runs = {name: [] for name, _, _ in plays}
        for _ in range(rounds):
            for name, path, words in plays:
                runs[name].append(played(program, path, words))
        least = {}
        for name, path, _ in plays:
            least[name] = min(time for time, _ in runs[name])
            memory = max(memory for _, memory in runs[name])
            print(f"{name:17} {os.path.getsize(path) / 1e6:6.1f} MB {least[name]:7.2f} s {memory:6.1f} MB of memory")
        print(f"whole by half  {least['whole'] / least['half']:.2f}")
        print(f"single by long {least['single'] / least['long']:.2f}")


if __name__ == "__main__":
    main()
