#!/usr/bin/env python3
"""From a burst's last byte to its fix, with `--cycle-gap` and without, and by gpsd in the same run if it is installed.

Use: cycle_gap.py PROGRAM [SECONDS [RATE BAUD GAP...]]. Terminals that send a burst RATE times a second, in the pieces of a serial line of
BAUD (0: at once), for SECONDS (12); a daemon for each GAP in milliseconds. Without them the rows of ROWS are measured one after another: 1, 5
and 10 Hz at 9,600 and 115,200 baud, with the gaps that the manual names. A burst has the nine sentences RMC, VTG, GGA, GSA, four GSV and GLL,
or, if they take more than three quarters of the time between two bursts, RMC alone. Printed for each daemon: the middle and the greatest
number of milliseconds, how many moments had a fix, how many had more than one, and how often its threads woke in a second.
"""
import os
import statistics
import sys
import threading
import time
import tty

sys.path.insert(0, os.path.join(os.path.dirname(os.path.dirname(os.path.abspath(__file__))), "tests"))
from harness import BEGIN, PLACE, Daemon, Gpsd, sentence

PROGRAM = os.path.abspath(sys.argv[1])
SECONDS = int(sys.argv[2]) if len(sys.argv) > 2 else 12
# Rate, baud, gaps. RMC alone at 10 Hz and 9,600 baud leaves a silence of 27 ms; half of that is given too.
ROWS = [(1, 9_600, [100]), (1, 115_200, [100]), (5, 9_600, [50]), (5, 115_200, [50]), (10, 9_600, [25, 13]), (10, 115_200, [25])]
PIECE = 8  # bytes after which a serial chip hands on what it has
GPSD = "/usr/sbin/gpsd"


def burst(number, rate, baud):
    """The burst of a moment, and the time that its fix must have."""
    at, hundredths = BEGIN + number // rate, 100 * (number % rate) // rate
    clock, day = time.strftime("%H%M%S", time.gmtime(at)) + f".{hundredths:02}", time.strftime("%d%m%y", time.gmtime(at))
    bodies = [f"GPRMC,{clock},A,{PLACE},0.504,84.40,{day},,,A", "GPVTG,84.40,T,,M,0.504,N,0.933,K,A",
              f"GPGGA,{clock},{PLACE},1,08,0.90,545.4,M,46.9,M,,", "GPGSA,A,3,01,02,03,04,05,06,07,08,,,,,2.50,1.30,2.10",
              *(f"GPGSV,4,{i + 1},16," + ",".join(f"{4 * i + j:02},40,083,46" for j in range(1, 5)) for i in range(4)), f"GPGLL,{PLACE},{clock},A,A"]
    data = b"".join(map(sentence, bodies))
    if baud and 10 * len(data) / baud > 0.75 / rate:
        data = sentence(bodies[0])
    return data, time.strftime("%Y-%m-%dT%H:%M:%S", time.gmtime(at)) + f".{hundredths:02}0Z"


class Side:
    """A daemon, its terminal and a client that notes when each fix comes."""

    def __init__(self, name, make):
        self.name, self.fixes, self.sent = name, {}, {}
        self.ours, self.theirs = os.openpty()
        tty.setraw(self.ours)
        tty.setraw(self.theirs)
        os.chmod(os.ttyname(self.theirs), 0o666)
        self.daemon = make(os.ttyname(self.theirs))
        self.client = self.daemon.client()
        self.client.line()
        self.client.send(b'?WATCH={"enable":true,"json":true};\n')
        threading.Thread(target=self.listen, daemon=True).start()

    def listen(self):
        while (value := self.client.object()) is not None:
            if value["class"] == "TPV" and "time" in value:
                self.fixes.setdefault(value["time"], []).append(time.monotonic())

    def send(self, piece, moment):
        os.write(self.ours, piece)
        self.sent[moment] = time.monotonic()

    def show(self, woke):
        late = sorted(1000 * (self.fixes[moment][0] - sent) for moment, sent in self.sent.items() if moment in self.fixes)
        twice = sum(len(self.fixes.get(moment, [])) > 1 for moment in self.sent)
        middle, most = (statistics.median(late), late[-1]) if late else (float("nan"), float("nan"))
        print(f"  {self.name:8} {middle:8.1f} ms, at most {most:8.1f}; {len(late)} of {len(self.sent)} moments, {twice} twice; {woke:.1f} wake-ups a second")


def measured(rate, baud, gaps):
    """A row: daemons side by side, each of which gets each burst."""
    size = len(burst(0, rate, baud)[0])
    print(f"{rate} Hz, {baud or 'no'} baud, {size} bytes a burst" + (f", a silence of {1000 / rate - 10_000 * size / baud:.0f} ms" if baud else ""), flush=True)
    sides = [Side("without" if gap is None else f"gap {gap}", lambda path, words=[] if gap is None else ["--cycle-gap", str(gap)]:
                  Daemon(PROGRAM, *words, f"gps0=file:{path}")) for gap in [None, *gaps]]
    if os.path.exists(GPSD):
        sides.append(Side("gpsd", lambda path: Gpsd(GPSD, path)))
    time.sleep(1)
    before, begun = [side.daemon.wakeups() for side in sides], time.monotonic()
    for number in range(rate * SECONDS):
        data, moment = burst(number, rate, baud)
        due = begun + number / rate
        for at in range(0, len(data), PIECE if baud else len(data)):
            piece = data[at:at + PIECE] if baud else data
            time.sleep(max(0, due + (10 * (at + len(piece)) / baud if baud else 0) - time.monotonic()))
            for side in sides:
                side.send(piece, moment)
    time.sleep(max(0, begun + SECONDS - time.monotonic()))
    woke = [(side.daemon.wakeups() - was) / SECONDS for side, was in zip(sides, before)]
    time.sleep(1.5)
    for side, each in zip(sides, woke):
        side.show(each)
        side.daemon.stop()


for row in [(int(sys.argv[3]), int(sys.argv[4]), list(map(int, sys.argv[5:])))] if len(sys.argv) > 5 else ROWS:
    measured(*row)
