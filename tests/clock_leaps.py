"""Leaps of a receiver's time, which tools/clock.py does not hand on at once: for clock.py."""
import time
from unittest import mock

from clock_sides import BILLION, Clock, Lines, Reader, datagram, tool
from harness import check


def leaps_are_dropped(folder):
    """A receiver whose week counter wraps, 1,024 weeks back; one whose time is wrong once; and a step of this machine's clock."""
    pulses = Reader(folder, "leaps")
    daemon = Lines("gps0")
    clock = Clock(daemon.port, "--sock-pulse", pulses.path)
    daemon.take()
    daemon.fix()
    back = -1024 * 7 * 86_400 * BILLION

    def pulse(ahead=0):
        """A pulse whose time is ahead by these nanoseconds, and what chronyd must get of it."""
        now = time.time_ns()
        daemon.time("PPS", now + ahead, now)
        return datagram(now + ahead, now)

    check("the first pulse", pulse(), pulses.next())
    check("a second less 100 ms is no leap", [pulse(BILLION - 100_000_000), pulse()], [pulses.next(), pulses.next()])
    pulse(back)
    check("one time that leaps is dropped, and the next is handed on", pulse(), pulses.next())
    for _ in range(9):
        pulse(back)
    check("after nine that leap the former time is handed on", pulse(), pulses.next())
    for number in range(10):
        pulse(back + number * 1000)
    check("after ten that agree the new time is handed on", pulse(back), pulses.next())
    check("and nothing else", None, pulses.next(0.2))
    for number in range(20):
        pulse(number * 5 * BILLION)
    check("times that do not agree are dropped", pulse(back), pulses.next())
    said = [line.removeprefix("clock.py: ") for line in clock.said().splitlines() if "leaps" in line]
    check("each leap is said once", ["the pulse of gps0 leaps by -619315200.0 s: it is dropped until 10 samples have agreed",
                                     "the pulse of gps0 leaps by +619315200.0 s: it is dropped until 10 samples have agreed"], said)
    clock.stop()
    daemon.close()
    pulses.close()
    module, now = tool(), time.time_ns()
    leaps, stepped = module.Leaps(), now + 5_000 * BILLION
    leaps.leap(sample_at(module, now, now))
    with mock.patch("time.time_ns", lambda: stepped):
        check("a step of this machine's clock is no leap", None, leaps.leap(sample_at(module, now, stepped)))


def sample_at(module, real, clock):
    return module.Sample({"real_sec": real // BILLION, "real_nsec": real % BILLION, "clock_sec": clock // BILLION, "clock_nsec": clock % BILLION})
