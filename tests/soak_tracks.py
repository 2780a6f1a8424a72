"""What a client of a soak has asked for, and where it is in each device's history: each item is held against what is due."""
import calendar
import re
import time

from harness import BEGIN

FAR = 1 << 60


class Policy:
    """The policy of a session, by the requests that were answered."""

    def __init__(self):
        self.enable = self.json = self.nmea = self.pps = False
        self.raw, self.device = 0, ""

    def change(self, rng):
        """The members of a WATCH at random."""
        words = {"enable": rng.random() < 0.9}
        for name in "json", "nmea", "pps":
            if rng.random() < 0.7:
                words[name] = rng.random() < 0.6
        if rng.random() < 0.7:
            words["raw"] = rng.choice((0, 0, 1, 2))
        if rng.random() < 0.5:
            words["device"] = rng.choice(("", "gps0", "gps1", "gps2"))
        return words

    def take(self, words):
        for name, value in words.items():
            setattr(self, name, value)

    def line(self):
        """The line that answers the last WATCH."""
        text = "".join(f',"{name}":{str(getattr(self, name)).lower()}' for name in ("enable", "json", "nmea"))
        device = f',"device":"{self.device}"' if self.device else ""
        return f'{{"class":"WATCH"{text},"raw":{self.raw},"pps":{str(self.pps).lower()}{device}}}\r\n'.encode()

    def selects(self, kind):
        return self.nmea or self.raw > 0 if kind == "nmea" else getattr(self, kind) > 0

    def places(self, receiver):
        """Which of the six items of a second this policy selects of that device."""
        if not self.enable or self.device not in ("", receiver.name):
            return ()
        return tuple(n for n, kind in enumerate(receiver.KINDS) if self.selects(kind))


class Track:
    """Where a client is in one device's history. `low` and `high` hold the place of the last change of policy: after the one,
    not after the other."""

    def __init__(self, receiver):
        self.receiver, self.places, self.raw = receiver, (), 0
        self.last, self.low, self.high, self.clock, self.over = None, -1, FAR, 0, False

    def following(self, places, at):
        """The first selected item at or after `at`."""
        if not places:
            return FAR
        k, n = divmod(at, 6)
        found = next((6 * k + it for it in places if it >= n), 6 * k + 6 + places[0])
        return self.following(places, found + 1) if found in self.receiver.EARLY else found

    def before(self, places, at):
        """The last selected item before `at`."""
        if not places:
            return -1
        k, n = divmod(at, 6)
        found = next((6 * k + it for it in reversed(places) if it < n), 6 * k - 6 + places[-1])
        return self.before(places, found) if found in self.receiver.EARLY else found

    def turn(self, policy):
        """From here on another policy selects."""
        places = policy.places(self.receiver)
        if self.last is not None:
            self.low, self.high = self.last, self.following(self.places, self.last + 1)
        else:  # nothing was given since then: the new place is anywhere up to what would have been given
            self.high = self.following(self.places, self.high) if self.places and self.high < FAR else FAR
        self.last, self.places, self.raw = None, places, policy.raw

    def take(self, line):
        """None, or what is wrong with this line or frame."""
        if self.over:
            return "an item after the device's end"
        at = self.due() if self.last is not None else self.find(line)
        if at is None:
            return "an item that nobody fed"
        if self.last is None and max(self.low, self.before(self.places, at)) >= min(self.high, at):
            return f"item {at} is the first after a change of policy between {self.low} and {self.high}"
        if at % 6 not in self.places:
            return f"item {at}, which the policy does not select"
        wrong = self.differs(at, line)
        if wrong is None:
            self.last = at
        return wrong

    def due(self):
        """The item that comes next."""
        at = self.following(self.places, self.last + 1)
        if at // 6 >= self.receiver.fed:  # the end closes the last second without another sentence
            at = self.following([n for n in self.places if n in self.receiver.EARLY], at)
        return at

    def differs(self, at, line):
        """None, or how this line differs from item `at`."""
        wanted, kind = self.receiver.items(at // 6)[at % 6], self.receiver.KINDS[at % 6]
        if kind == "pps":
            found = re.fullmatch(rb'(\d+),"clock_nsec":(\d+)}\r\n', line[len(wanted):]) if line.startswith(wanted) else None
            if not found:
                return f"not item {at}"
            clock = int(found[1]) * 10**9 + int(found[2])
            if clock < self.clock:
                return f"the host stamp of item {at} falls"
            self.clock = clock
        elif line != (wanted.hex().encode() + b"\r\n" if kind == "raw" and self.raw == 1 else wanted):
            return f"not item {at}, {wanted!r}"
        return None

    def find(self, line):
        """The place of a line or frame, by the time in it."""
        if line[:1] != b"{":
            return self.receiver.place(line)
        found = re.search(rb'"time":"([^"]+)\.000Z"', line)
        if found:
            k = calendar.timegm(time.strptime(found[1].decode(), "%Y-%m-%dT%H:%M:%S")) - BEGIN
            n = self.receiver.KINDS.index("json") + (not line.startswith(b'{"class":"TPV"'))
            return 6 * (k + bool(self.receiver.EARLY)) + n
        found = re.search(rb'"real_sec":(\d+)', line)
        return 6 * (int(found[1]) - BEGIN) + self.receiver.KINDS.index("pps") if found else None
