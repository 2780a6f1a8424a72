#!/usr/bin/env python3
"""`serve --cycle-gap MS`: a receiver that was silent so long has said all of a moment, so the daemon puts a NAV-EOE frame behind what it sent.

Use: cycle.py PROGRAM. Each kind of place, each form of a client, where a frame may not stand, what is said of a gap that is too short, and how soon a
fix comes. Prints a line for each check, and ends with 1 if one fails. Every wait is bounded.
"""
import os
import signal
import statistics
import sys
import tempfile
import time

from harness import *

PROGRAM = os.path.abspath(sys.argv[1])
END = bytes.fromhex("b562 0161 0400 00000000 66c7")  # NAV-EOE with a time of week of 0, by the u-blox interface description
GAP = 50  # milliseconds
PAUSE = 8 * GAP / 1000  # seconds: a silence that is longer than the gap, on a busy machine too
RAW = '{"raw":2}'


def serve(*words, gap=GAP):
    return Daemon(PROGRAM, "--cycle-gap", str(gap), *words)


def watch(daemon, words='{"json":true}'):
    client = daemon.client()
    client.watching(words)
    return client


def next_of(client, kind, seconds=WAIT):
    """The next report of this class, or None if none comes."""
    client.seconds = seconds
    while (value := client.object()) is not None:
        if value["class"] == kind:
            return value
    return None


def fix(client):
    return next_of(client, "TPV")


def exactly(client, wanted):
    """As many bytes as are wanted, and what more comes in a pause."""
    found = bytearray(client.buffer)
    while len(found) < len(wanted) and (data := client.receive()):
        found += data
    return bytes(found) + (client.receive(seconds=PAUSE) or b"")


def raw_of(daemon):
    """A client that is sent packets as they came."""
    return watch(daemon, RAW)


def places():
    """The fix of each kind of place comes without a further byte, at another daemon behind it too."""
    for kind, device in [("FIFO", FifoDevice()), ("terminal", TerminalDevice()), ("tcp:", TcpDevice())]:
        daemon = serve(device.word)
        client = watch(daemon)
        device.take()
        found = []
        for t in range(2):
            device.send(second(t))
            found.append((fix(client) or {}).get("time"))
        check(f"{kind}: a fix without a further byte", ["2024-06-01T12:00:00.000Z", "2024-06-01T12:00:01.000Z"], found)
        daemon.stop()


def relays():
    """The first of two daemons has the option, and then the second."""
    for words in (["--cycle-gap", str(GAP)], []), ([], ["--cycle-gap", str(GAP)]):
        device = TerminalDevice()
        first = Daemon(PROGRAM, "--wait", "1", *words[0], device.word)
        last = Daemon(PROGRAM, "--wait", "2", *words[1], f"up=gpsd:127.0.0.1:{first.listening().port}")
        client, raw = watch(last), raw_of(last)
        device.send(second(0))
        where = "first" if words[0] else "second"
        check(f"relay, the {where} has the option: a fix without a further byte", "2024-06-01T12:00:00.000Z", (fix(client) or {}).get("time"))
        check(f"relay, the {where} has the option: its packets", second(0) + END, exactly(raw, second(0) + END))
        first.stop(), last.stop()


def forms():
    """What clients of each form are sent: the frame is a packet, and no sentence."""
    device = TcpDevice()
    daemon = serve(device.word)
    raw, lines, nmea = raw_of(daemon), watch(daemon, '{"raw":1}'), watch(daemon, '{"nmea":true}')
    device.take()
    device.send(second(0))
    wanted = second(0) + END
    check("raw 2: the sentences, and the frame behind them", wanted, exactly(raw, wanted))
    wanted = second(0) + END.hex().encode() + b"\r\n"
    check("raw 1: the sentences, and the frame in hexadecimal", wanted, exactly(lines, wanted))
    check("nmea: the sentences alone", second(0), exactly(nmea, second(0)))
    device.send(second(1))
    wanted = second(1) + END
    check("raw 2: one frame for each burst", wanted, exactly(raw, wanted))
    daemon.stop()


def leading():
    """A receiver that sends what has no time first: its speed belongs to the moment that follows it in its burst."""
    device = TerminalDevice()
    daemon = serve(device.word)
    client = watch(daemon)
    found = []
    for t, knots in enumerate((10, 20, 30)):
        place = f"GPGGA,{clock_of(BEGIN + t)},{PLACE},1,08,0.9,545.4,M,46.9,M,,"
        device.send(sentence(f"GPVTG,84.4,T,,M,{knots},N,,K,A") + sentence(place))
        found.append((fix(client) or {}).get("speed"))
    check("VTG first: each fix has the speed of its own burst, in m/s", [round(knots * 1852 / 3600, 3) for knots in (10, 20, 30)], found)
    found = []
    for t in 3, 4, 5:
        satellites = ",".join(f"{number:02},40,083,46" for number in range(1, t))
        device.send(sentence(f"GPGSV,1,1,{t - 1:02},{satellites}") + second(t, "RMC"))
        sky = next_of(client, "SKY") or {}
        found.append((sky.get("time"), sky.get("nSat")))
    check("GSV first: each sky has the satellites of its own burst", [(f"2024-06-01T12:00:0{t}.000Z", t - 1) for t in (3, 4, 5)], found)
    daemon.stop()


def frames():
    """UBX: a NAV-PVT alone, and one with its own end."""
    device = TerminalDevice()
    daemon = serve(device.word)
    raw = raw_of(daemon)
    for name, wanted in [("NAV-PVT without NAV-EOE: one is put in", second(0, "PVT") + END), ("NAV-PVT with NAV-EOE: none is put in", second(1, "PVT EOE"))]:
        device.send(wanted.removesuffix(END))
        check(name, wanted, exactly(raw, wanted))
    daemon.stop()


def pauses():
    """A silence within a sentence or a frame, and among bytes that are no packet."""
    device = TerminalDevice()
    daemon = serve(device.word)
    raw = raw_of(daemon)
    sentences, pvt = second(0), frame(1, 7, b"\n" * 92)
    middle = 6 + 40
    for name, parts, wanted in [
            ("a pause within a sentence", [sentences[:20], sentences[20:]], sentences + END),
            ("a pause within a frame, behind a line feed", [pvt[:middle], pvt[middle:]], pvt + END),
            ("junk alone", [b"junk\r\n", b"junk\r\n"], b""),
            ("a beginning that ends nowhere, and a burst", [b"$GPRMC,1", b"\r\n" + sentences], sentences + END)]:
        for part in parts:
            device.send(part)
            time.sleep(PAUSE)
        check(name, wanted, exactly(raw, wanted))
    daemon.process.send_signal(signal.SIGSTOP)
    device.send(sentences[:70])
    time.sleep(PAUSE)
    device.send(sentences[70:])
    daemon.process.send_signal(signal.SIGCONT)
    check("a daemon that stood still within a burst", sentences + END, exactly(raw, sentences + END))
    daemon.stop()


def others():
    """A regular file and pulse edges have no gap."""
    with tempfile.TemporaryDirectory() as folder:
        path = os.path.join(folder, "log")
        with open(path, "wb") as it:
            it.write(second(0) + second(1))
        daemon = serve("--wait", "1", f"gps0=file:{path}", gap=1)
        check("a regular file: its bytes alone", second(0) + second(1), raw_of(daemon).rest())
        check("a regular file: status", 0, daemon.wait()[0])
    device, edges = FifoDevice(), FifoDevice(kind="edges")
    daemon = serve(device.word, edges.word)
    client = watch(daemon, '{"json":true,"pps":true}')
    begun = int(time.time()) + 1
    for at in range(begun, begun + 3):
        time.sleep(max(0, at - time.time()))
        edges.send(f"assert {at}.000000000#{at - begun + 1}\n".encode())
        time.sleep(0.1)
        device.send(rmc(at))
    time.sleep(PAUSE)
    device.end(), edges.end()
    classes = [value["class"] for value in iter(client.object, None)]
    check("with edges: fixes, pulses and offsets", (3, 3), (classes.count("TPV"), classes.count("TOFF")))
    check("with edges: a pulse for each but the first", True, classes.count("PPS") >= 2)
    check("with edges: status", 0, daemon.wait()[0])


def losses():
    """A FIFO whose writer goes and comes back: nothing is put in, and no message is other than without the option, until bytes come."""
    device = FifoDevice()
    daemon = serve("--reopen", "1", device.word, gap=3_000)
    raw = raw_of(daemon)
    device.send(second(0))
    check("a loss: the burst before it", second(0), exactly(raw, second(0)))
    device.end()
    place = device.word.partition("=")[2]
    check("a loss: it is said", True, daemon.says(f"{place} has ended; it is opened again every 1 s"))
    time.sleep(4)
    check("a loss: nothing comes while it is away", None, raw.receive(seconds=0.01))
    check("a loss: it is not back yet", False, "is back" in daemon.said())
    with open(device.path, "wb", buffering=0) as it:
        it.write(second(1))
        check("a return: the burst and its end", second(1) + END, exactly(raw, second(1) + END))
    check("a return: it is said", True, daemon.says(f"{place} is back"))
    daemon.stop()


def stops():
    """A long gap does not hold up a stop."""
    with tempfile.TemporaryDirectory() as folder:
        path = os.path.join(folder, "stop")
        os.mkfifo(path)
        device = TerminalDevice()
        daemon = serve("--stop", path, device.word, gap=10_000)
        client = raw_of(daemon)
        device.send(second(0))
        exactly(client, second(0))
        begun = time.monotonic()
        with open(path, "wb") as it:
            it.write(b"\n")
        client.rest()
        check("a stop within the gap: status", 0, daemon.wait()[0])
        within("a stop within the gap: its seconds, at most 3", time.monotonic() - begun < 3 * slowness(), time.monotonic() - begun)


def long_gap():
    """A gap that is longer than one read waits."""
    device = TerminalDevice()
    daemon = serve(device.word, gap=2_500)
    raw = raw_of(daemon)
    device.send(second(0))
    begun = time.monotonic()
    check("a gap of 2.5 s", second(0) + END, exactly(raw, second(0) + END))
    within("a gap of 2.5 s: not before it", time.monotonic() - begun >= 2.5, time.monotonic() - begun)
    daemon.stop()


def too_short():
    """A burst with a pause in it that is longer than the gap; and a receiver whose clock stands still."""
    device, still = TcpDevice("gps0"), TcpDevice("gps1")
    daemon = serve(device.word, still.word)
    raw = raw_of(daemon)
    device.take(), still.take()
    for t in 1, 2:
        for part in second(t, "RMC"), second(t, "GGA"):
            device.send(part)
            time.sleep(PAUSE)
    for _ in range(3):
        still.send(second(0))
        time.sleep(PAUSE)
    message = f"gpsrelay: tcp:127.0.0.1:{device.port}: --cycle-gap {GAP} is too short: 12:00:01 came in two parts\n"
    check("a gap that is too short is said", True, daemon.says(message))
    check("a gap that is too short is said once, and of no other device", 1, daemon.said().count("too short"))
    raw.close()
    daemon.stop()


def latency():
    """From a burst's last byte to its fix at 1 Hz, the median of ten: the gap, and at most 10 ms."""
    device = TerminalDevice()
    daemon = serve(device.word)
    client = watch(daemon)
    found = []
    for t in range(10):
        begun = time.monotonic()
        device.send(second(t))
        sent = time.monotonic()
        fix(client)
        found.append(1000 * (time.monotonic() - sent))
        time.sleep(max(0, begun + 1 - time.monotonic()))
    median = statistics.median(found)
    within("1 Hz: milliseconds from the last byte to the fix, median of ten, below 60", GAP <= median + 1 and median < 60 * slowness(), found)
    daemon.stop()


sys.exit(run_parts(places, relays, forms, leading, frames, pauses, others, losses, stops, long_gap, too_short, latency))
