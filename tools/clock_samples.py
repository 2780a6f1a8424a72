"""What clock.py hands on: samples of a receiver's time, and which of them leap."""
import time

REPEAT = 600.0  # seconds before a message about dropped samples is said again
BILLION = 1_000_000_000
LEAP = BILLION  # nanoseconds by which the time of a sample may differ from what the one before leads to expect
AGREEING = 10  # samples that agree on a new time are dropped; it is taken after them


class Sample:
    """What one TOFF or PPS line says: `real`, the time of the receiver, and `clock`, what this machine's clock showed then; both in
    nanoseconds since 1970. `precision` is the power of two of its error in seconds."""
    __slots__ = ("real", "clock", "precision")

    def __init__(self, report):
        self.real = stamp_of(report, "real")
        self.clock = stamp_of(report, "clock")
        self.precision = whole(report.get("precision", -1), -128, 127)

    def offset(self):
        """The true time minus that of this machine's clock, in seconds: positive if the clock is slow."""
        return (self.real - self.clock) / BILLION


def whole(value, low, high):
    if type(value) is not int or not low <= value <= high:
        raise ValueError(f"{value!r} is no whole number from {low} to {high}")
    return value


def stamp_of(report, name):
    return whole(report.get(name + "_sec"), 0, 1 << 40) * BILLION + whole(report.get(name + "_nsec"), 0, BILLION - 1)


class Leaps:
    """Whether the receiver's time goes on as it did, for one class of lines. Its measure is how far a sample is ahead of the clock of the
    system's start, which nobody sets: so a step of this machine's clock is no leap."""

    def __init__(self):
        self.known = None  # how far the last sample that was handed on was ahead
        self.new, self.agreed = None, 0  # the same of the last sample that was dropped, and how many agreed on it
        self.said = None  # when a leap was said, on the monotonic clock

    def leap(self, sample):
        """By how many nanoseconds a sample leaps that is to be dropped, or None."""
        ahead = sample.real - sample.clock + time.time_ns() - time.clock_gettime_ns(time.CLOCK_BOOTTIME)
        agrees = self.agreed > 0 and abs(ahead - self.new) <= LEAP
        is_new = agrees and self.agreed == AGREEING
        if self.known is None or abs(ahead - self.known) <= LEAP or is_new:
            self.known, self.agreed = ahead, 0
            self.said = None if is_new else self.said
            return None
        self.new, self.agreed = ahead, self.agreed + 1 if agrees else 1
        return ahead - self.known

    def is_news(self):
        """Whether a leap is to be said now: each once, but those of a receiver that leaps to and fro once in ten minutes."""
        now = time.monotonic()
        if self.said is not None and now - self.said <= REPEAT:
            return False
        self.said = now
        return True
