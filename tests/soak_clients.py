"""The clients of a soak: each watches, changes its policy, asks and goes at random, and holds its whole stream against what is due."""
import random
import re
import threading
import time

from harness import BEGIN, VERSION, WAIT
from soak_tracks import Policy, Track


def cut(data):
    """The whole items at the head of what came, and the rest: lines, and frames as the receiver sends them."""
    items, at = [], 0
    while at < len(data):
        if data[at] == 0xb5:
            end = at + 8 + int.from_bytes(data[at + 4:at + 6], "little") if at + 6 <= len(data) else len(data) + 1
        else:
            end = data.find(b"\n", at) + 1 or len(data) + 1
        if end > len(data):
            break
        items.append(data[at:end])
        at = end
    return items, data[at:]


class Sessions:
    """Counts the sessions in the order in which the daemon greets them, so that a client knows the number of its closing line."""

    def __init__(self, daemon):
        self.daemon, self.opened, self.gate = daemon, 0, threading.Lock()

    def open(self):
        """A client that was greeted, and the number of its session."""
        with self.gate:
            link = self.daemon.client()
            if link.line() != VERSION:
                raise RuntimeError("a client is not greeted")
            self.opened += 1
            return link, self.opened - 1


class SoakClient(threading.Thread):
    """A client that comes and goes until `stop` is set, or, if `stays` is 1 or 2, one session from the beginning to the end."""

    def __init__(self, sessions, receivers, stop, seed, stays):
        super().__init__(daemon=True)
        self.opener, self.receivers, self.stop, self.random, self.stays = sessions, receivers, stop, random.Random(seed), stays
        self.faults, self.sessions, self.lines, self.changes = [], [], 0, 0
        self.slow = {}  # of each device that this client watches the second that it has reached
        self.link = self.number = None

    def run(self):
        try:
            if self.stays:
                self.session()
            while not self.stop.is_set() and not self.stays:
                self.session()
                time.sleep(self.random.random() * 0.05)
        except Exception as error:
            self.faults.append(f"{type(error).__name__}: {error}")
        finally:
            self.slow = {}
            if self.link:
                self.link.close()

    def session(self):
        self.policy, self.tracks = Policy(), {it.name: Track(it) for it in self.receivers}
        self.asked, self.items, self.pulse = [], 1, None
        self.link, self.number = self.opener.open()
        why = self.stay() if self.stays else self.visit()
        self.slow = {}
        self.sessions.append((self.number, self.items, why))

    def stay(self):
        self.watch({"enable": True, "json": True, "nmea": self.stays == 1, "raw": 3 - self.stays, "pps": self.stays == 1})
        while self.step(WAIT):
            pass
        return "daemonend"

    def visit(self):
        """Asks for this and that, and goes in one of four ways. Returns how its session may end."""
        for _ in range(self.random.randrange(1, 6)):
            which = self.random.random()
            if which < 0.6:
                self.watch(self.policy.change(self.random))
            elif which < 0.7:
                self.ask(b"?POLL;\n", "poll")
            elif which < 0.8:
                self.ask(b"?DEVICES;", "devices")
            elif which < 0.9:
                self.ask(b"?VERSION;\r\n", "version")
            else:
                self.ask(b"?FROB;", "error")
            end = time.monotonic() + self.random.random() * 0.2
            while time.monotonic() < end:
                if not self.step(0.05) and self.link.ended:
                    return "daemonend"
            if self.stop.is_set():
                break
        self.leave(self.random.randrange(4))
        return "hungup|readfault|daemonend"

    def leave(self, way):
        if way == 0:  # a whole end: the watch is ended, all is read, the half of the client closed, and the rest is nothing
            self.watch({"enable": False})
            self.link.finish()
            while self.step(WAIT):
                pass
        elif way == 1:  # in the middle of a request
            self.link.send(b'?WATCH={"json":tr')
        if way == 2:
            self.link.reset()
        else:
            self.link.close()

    def watch(self, words):
        """Asks for a WATCH in two pieces, and reads on until it is answered."""
        text = "{" + ",".join(f'"{name}":"{value}"' if name == "device" else f'"{name}":{str(value).lower()}' for name, value in words.items()) + "}"
        whole = f"?WATCH={text};".encode()
        part = self.random.randrange(len(whole))
        self.link.send(whole[:part])
        # From here on the daemon may send of each device; nothing is fed too far ahead of what was fed before.
        self.slow = {**{it.name: it.fed for it in self.receivers}, **self.slow}
        self.ask(whole[part:], words)
        end = time.monotonic() + WAIT
        while self.asked:
            if not self.step(max(0.01, end - time.monotonic())):
                if self.link.ended:
                    return
                if time.monotonic() > end:
                    raise RuntimeError("a WATCH is not answered")

    def ask(self, data, what):
        self.link.send(data)
        self.asked.append(what)

    def step(self, wait):
        """Takes what comes within that time; false if nothing did."""
        data = self.link.receive(seconds=wait)
        if data is None:
            return False
        if not data:
            if self.link.buffer:
                self.faults.append(f"the stream ends within a line: {self.link.buffer[:80]!r}")
            return False
        items, self.link.buffer = cut(self.link.buffer + data)
        for item in items:
            wrong = self.take(item)
            if wrong:
                self.faults.append(f"{wrong}; found {item[:120]!r}")
                raise RuntimeError("the stream is not what it must be")
        self.slow = {**self.slow, **{name: track.last // 6 for name, track in self.tracks.items() if track.last is not None}}
        return True

    def take(self, line):
        """None, or what is wrong with this item."""
        self.lines += 1
        self.items += 1
        if line[:1] == b"\xb5":
            return self.tracks["gps2"].take(line)
        if line[-2:] != b"\r\n":
            return "a line without CR LF"
        if line[:1] == b"b":
            return self.tracks["gps2"].take(line)
        if line[:1] == b"$":
            return self.tracks["gps0" if line[1:3] == b"GP" else "gps1"].take(line)
        kind = line[10:line.index(b'"', 10)]
        if kind in (b"TPV", b"SKY", b"TOFF"):
            return self.tracks[re.search(rb'"device":"(\w+)"', line)[1].decode()].take(line)
        if kind == b"PPS":
            return self.pps(line)
        if kind == b"DEVICE":
            return self.device(line)
        if kind == b"DEVICES" and self.asked and isinstance(self.asked[0], dict):
            self.items -= 1  # one item with the WATCH line that follows
            return None if re.findall(rb'"path":"([^"]+)"', line) == [b"gps0", b"gps1", b"gps2"] else "not the devices"
        return self.answer(kind.decode().lower(), line)

    def device(self, line):
        track = self.tracks[re.search(rb'"path":"(\w+)"', line)[1].decode()]
        if b"activated" not in line:
            track.over = True
        elif track.last is not None:
            return "a device that begins twice"
        return None if self.policy.enable and self.policy.json else "a DEVICE without a watch"

    def answer(self, kind, line):
        if not self.asked:
            return "an answer to nothing"
        asked = self.asked.pop(0)
        if isinstance(asked, dict):
            self.policy.take(asked)
            self.changes += 1
            for track in self.tracks.values():
                track.turn(self.policy)
            self.slow = {name: self.slow[name] for name, track in self.tracks.items() if track.places}
            return None if line == self.policy.line() else f"not {self.policy.line()!r}"
        if kind != asked:
            return f"not a reply to {asked}"
        if asked == "version":
            return None if line == VERSION else "not the version"
        return self.poll(line) if asked == "poll" else None

    def poll(self, line):
        """The last fix that this client was given is the last one of all."""
        for track in self.tracks.values():
            if track.last is not None and self.policy.json and not track.over:
                k = track.receiver.fix_before(track.last)
                if k >= 0 and track.receiver.reports(k)[0][:-2] not in line:
                    return f"POLL does not have the fix of second {k} of {track.receiver.name}"
        return None

    def pps(self, line):
        found = re.fullmatch(rb'{"class":"PPS","device":"gps1","real_sec":(\d+),"real_nsec":0,"clock_sec":(\d+),"clock_nsec":0,"precision":-20}\r\n', line)
        if not found or not self.policy.pps:
            return "not a PPS of gps1"
        at, track = (int(found[1]), int(found[2])), self.tracks["gps1"]
        if self.pulse and (at[0] <= self.pulse[0] or at[1] <= self.pulse[1]):
            return "a PPS that does not rise"
        # Its reference is the second after the last TOFF; between that TOFF and the PPS other items of the device may come.
        if track.last is not None and 3 in track.places:
            k = track.last // 6 - (track.last % 6 < 3)
            if at[0] != BEGIN + k + 1:
                return f"a PPS of another second than that after {k}"
        self.pulse = at
        return None
