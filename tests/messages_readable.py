"""What comes of a receiver and cannot be read, or gives no fix; and the numbers of the daemon: for messages.py."""
import os
import re
import sys
import tempfile
import threading

from harness import WAIT, Daemon, FifoDevice, TerminalDevice, check, sentence, until, within

PROGRAM = os.path.abspath(sys.argv[1])
RMC = sentence("GPRMC,123519,A,4807.038,N,01131.000,E,022.4,084.4,230394,003.1,W")


class Feed(threading.Thread):
    """Sends each device its next piece once a second, until it is told to stop: `pieces[device]` gives it for the number of the second."""

    def __init__(self, pieces):
        super().__init__(daemon=True)
        self.pieces, self.over, self.sent = pieces, threading.Event(), 0
        self.start()

    def run(self):
        while not self.over.wait(1):
            for device in self.pieces:
                device.send(self.pieces[device](self.sent))
            self.sent += 1

    def stop(self):
        self.over.set()
        self.join()
        return self.sent


def fix(number):
    return sentence(f"GPRMC,12{number // 60:02}{number % 60:02},A,4807.038,N,01131.000,E,022.4,084.4,230394,003.1,W")


def numbers_in(daemon, device, text):
    """The numbers in a message of a device, once it is there. AMOUNT stands for the bytes and the seconds in which they came."""
    form = re.compile(f"^gpsrelay: file:{re.escape(device.path)} {text}$".replace("AMOUNT", r"(\d+) bytes in (\d+) s"), re.M)
    until(lambda: form.search(daemon.said()), 2 * WAIT)
    found = form.search(daemon.said())
    check(f"of {device.name} it is said: {text}", True, bool(found) or daemon.said())
    return [int(it) for it in found.groups()]


def readable():
    """What comes for ten seconds and cannot be read, or gives no fix, is said once; so is that it can be read. And the numbers, each ten seconds,
    and once more at a stop."""
    noise, plain, heading, good = devices = [FifoDevice(name) for name in ("noise", "plain", "heading", "good")]
    devices.append(line := TerminalDevice("line"))
    hdt, unchecked, rubbish = sentence("GPHDT,274.07,T"), RMC.partition(b"*")[0] + b"\r\n", bytes(range(128, 168)) * 2
    pieces = {noise: lambda _: rubbish, line: lambda _: rubbish, plain: lambda _: unchecked, heading: lambda _: hdt, good: fix}
    with tempfile.TemporaryDirectory() as folder:
        os.mkfifo(stop := f"{folder}/stop")
        daemon = Daemon(PROGRAM, "--report", "10", "--stop", stop, *[it.word for it in devices])
        client = daemon.client()
        client.line()
        feed = Feed(pieces)
        size, seconds = numbers_in(daemon, noise, "cannot be read: AMOUNT, and no packet among them: is it NMEA 0183 or UBX\\?")
        check("noise: it is said that it cannot be read", True, size % len(rubbish) == 0 and seconds >= 10 or (size, seconds))
        numbers_in(daemon, line, "cannot be read: AMOUNT, and no packet among them; a wrong speed is the usual cause: "
                   f"gpsrelay-port {line.path} finds the right one")
        size, seconds, number = numbers_in(daemon, plain, "cannot be read: AMOUNT: (\\d+) sentences without a checksum, which are passed over")
        check("sentences without a checksum: so it is said, and how many", True, size == number * len(unchecked) and seconds >= 10 or (size, seconds, number))
        size, _, number, kind = numbers_in(daemon, heading, "gives no fix: AMOUNT: (\\d+) sentences, none that gives a fix: HDT (\\d+)")
        check("headings alone: what came is said, by kind", True, size == number * len(hdt) and number == kind or (size, number, kind))
        head = "gpsrelay: report: 1 clients now, 1 at most, 1 sessions, 0 turned away; "
        check("the numbers come by themselves", True, daemon.says(head, 2 * WAIT))
        pieces[noise] = pieces[heading] = fix
        check("noise that becomes fixes: it is said", True, daemon.says(f"gpsrelay: file:{noise.path} can be read now\n", 2 * WAIT))
        check("headings that become fixes: it is said", True, daemon.says(f"gpsrelay: file:{heading.path} gives fixes now\n", 2 * WAIT))
        sent = feed.stop()
        until(daemon.at_rest)
        before = daemon.said().count("gpsrelay: report: ")
        with open(stop, "wb") as it:
            it.write(b"\n")
        client.rest()
        check("a stop: status", 0, daemon.wait()[0])
        said = daemon.said()
    counts = [len(re.findall(f"{re.escape(it.path)} (?:cannot be read|gives no fix): ", said)) for it in devices]
    check("what cannot be read, or gives no fix, is said once, and nothing of fixes", [1, 1, 1, 0, 1], counts)
    reports = [row.split("; ") for row in re.findall(r"^gpsrelay: report: (.*)$", said, re.M)]
    within("the numbers once more at a stop", before < len(reports) and said.rstrip().rpartition("\n")[2].startswith("gpsrelay: report: "), said[-500:])
    check("the numbers: of clients", "0 clients now, 1 at most, 1 sessions, 0 turned away", reports[-1][0])
    fields = dict(it.split(": ", 1) for it in reports[-1][1:])
    check("the numbers: the devices in their order", [it.name for it in devices], list(fields))
    wanted = f"{sum(len(fix(number)) for number in range(sent))} bytes, {sent} packets, the last "
    within("the numbers: each byte and packet of a device, and when the last came", re.fullmatch(re.escape(wanted) + r"\d+\.\d s ago", fields["good"]), fields)
    check("the numbers: noise has no packets", f"{sent * len(rubbish)} bytes, 0 packets", fields["line"].partition(", the last")[0])
    for it in devices:
        it.close()
    numbers = "report: 0 clients now, 0 at most, 0 sessions, 0 turned away; g: 0 bytes, 0 packets\n"
    daemon = Daemon(PROGRAM, "--report", "86400", "g=file:/dev/null")
    check("the numbers at the end", (0, True), (daemon.wait()[0], numbers in daemon.said() or daemon.said()))
