"""The end of a soak: the daemon's closing lines against what its clients took and its receivers were fed."""
import re

from harness import BEGIN, check, slowness, within


class Closing:
    """The lines that the daemon wrote: of each session how it ended and its items, of each unit its samples, and the monitor's."""

    def __init__(self, lines):
        self.lines, self.said, self.counts, self.pulses = lines, {}, {}, 0
        for line in lines:
            if found := re.fullmatch(r"s(\d+) (drained|writefault) (\w+) (\d+)", line):
                self.said[int(found[1])] = found[3], int(found[4])
            if found := re.fullmatch(r"u(\d) published (\d+) count (\d+) left (\d+)", line):
                self.counts[found[1]] = tuple(int(it) for it in found.groups()[1:])

    def streams(self, clients, receivers):
        """No client found a fault in its stream, and the first has all there was."""
        for number, client in enumerate(clients):
            if client.faults:
                check(f"client {number}, whose last session is {client.number} and ended by {self.said.get(client.number)}", [], client.faults[:2])
        check("each client's stream is whole, in order, and has nothing twice or missing", len(clients), sum(not it.faults for it in clients))
        tracks = clients[0].tracks
        for receiver in receivers:
            track = tracks[receiver.name]
            check(f"who stayed has all of {receiver.name}, to its last fix", 6 * receiver.fed + receiver.LEFT,
                  (track.last or 0) if track.over else "no end of the device")

    def sessions(self, clients, opened):
        check("a closing line for each session", list(range(opened)), sorted(self.said))
        wrong = [(number, items, why, self.said.get(number)) for it in clients for number, items, why in it.sessions
                 if not self.agrees(number, items, why, it.stays)]
        check("the closing lines say how each client went, and at least as many items as it took", [], wrong[:3])

    def agrees(self, number, items, why, stays):
        """Whether the closing line of a session says what its client saw; of one that stayed the exact number of items."""
        ended, count = self.said.get(number, ("", -1))
        return ended in why.split("|") and (count == items if stays else count >= items)

    def units(self, receivers, pulses_told):
        for unit, receiver in zip("024", receivers):
            check(f"unit {unit} published a sample for each second of {receiver.name}", (receiver.fed, 2 * receiver.fed, 0),
                  self.counts.get(unit, (0, 0, 0)))
        self.pulses = self.counts.get("3", (0, 0, 0))[0]
        within("pulses were paired in at least half of the seconds", 2 * self.pulses * slowness() >= pulses_told - 2, (self.pulses, pulses_told))

    def monitor(self):
        for line in self.lines:
            if found := re.fullmatch(r"m0 taken (\d+) (\d+)\.000000000 \d+\.\d{9} -1", line):
                check("the monitor's last sample is that of its number", BEGIN + int(found[1]) - 1, int(found[2]))
        within("a monitor took a sample", any(line.startswith("m0 taken ") for line in self.lines), self.lines[-4:])
