#!/usr/bin/env python3
"""The daemon over real sockets: `gpsrelay serve` is started on ports of its own on the loopback, and each thing that a client or a
device may do to it is tried. Every wait is bounded.

Use: serve.py PROGRAM. Prints a line for each check, and ends with 1 if one fails.
"""
import itertools
import json
import os
import re
import socket
import sys
import threading
import time

from harness import VERSION, WAIT, Daemon, FifoDevice, TcpDevice, check, many_files, run_parts, second, slowness, until, within

PROGRAM = os.path.abspath(sys.argv[1])
WATCH = b'?WATCH={"json":true};'
LINKS = 400  # how many clients come and go one after another: a burst at once, and then ten a second


def started(*words):
    """A daemon with one device, gps0, which is there."""
    device = TcpDevice()
    daemon = Daemon(PROGRAM, *words, device.word)
    return daemon, device.take()


def classes_of(lines):
    return [json.loads(line)["class"] for line in lines]


def a_day():
    """A client that watches, a device that ends: the whole of it."""
    daemon, device = started()
    client = daemon.client()
    check("a client is greeted", VERSION, client.line())
    client.send(WATCH)
    check("a WATCH is answered by the devices", {"class": "DEVICES", "devices": [{"class": "DEVICE", "path": "gps0"}]}, client.object())
    check("and by the watch itself", b'{"class":"WATCH","enable":true,"json":true,"nmea":false,"raw":0,"pps":false}\r\n', client.line())
    device.send(second(0))
    told = client.object()
    check("the first byte announces the device", ("DEVICE", "gps0", True), (told["class"], told["path"], "activated" in told))
    device.send(second(1))
    check("an epoch is written once the next begins",
          b'{"class":"TPV","device":"gps0","mode":3,"time":"2024-06-01T12:00:00.000Z","lat":48.117300000,"lon":11.516666667,'
          b'"altMSL":545.400,"geoidSep":46.900,"track":84.4000,"speed":11.524}\r\n', client.line())
    client.send(b"?POLL;\n")
    poll = client.object()
    check("POLL has the last fix", ("POLL", 1, "2024-06-01T12:00:00.000Z"), (poll["class"], poll["active"], poll["tpv"][0]["time"]))
    client.send(b"?FROB;")
    check("an unknown request is named", {"class": "ERROR", "message": "Unrecognized request"}, client.object())
    client.send(b"?WATCH={")
    client.send(b'"json":1}\n')
    check("a bad WATCH in two pieces", {"class": "ERROR", "message": "Invalid WATCH"}, client.object())
    device.end()
    rest = client.lines()
    client.close()
    check("the end: the last fix, the device's end, and nothing else", ["TPV", "DEVICE"], classes_of(rest))
    status, out = daemon.wait()
    check("the daemon ends by itself: status", 0, status)
    within("the closing lines", re.fullmatch(rb"s0 drained daemonend \d+\nu0 published 2 count 4 left 0\n", out) is not None, out)


def forms():
    """Clients that want sentences, and one that wants nothing."""
    daemon, device = started()
    json_client, text_client, silent = daemon.client(), daemon.client(), daemon.client()
    for client in json_client, text_client, silent:
        client.line()
    json_client.send(WATCH)
    text_client.send(b'?WATCH={"nmea":true}\r\n')
    for client in json_client, text_client:
        client.line(), client.line()
    device.send(second(0) + b"junk" + second(1))
    device.end()
    check("sentences as they came, junk left out", [line + b"\n" for line in (second(0) + second(1)).split(b"\n")[:-1]], text_client.lines())
    check("one JSON line a fix", 2, sum(b'"TPV"' in line for line in json_client.lines()))
    check("a client that asked for nothing gets nothing", [], silent.lines())
    check("forms: status", 0, daemon.wait()[0])


def bad_clients():
    """Garbage, megabytes, one byte at a time, half a close, a reset: nobody else is touched."""
    daemon, device = started()
    good = daemon.client()
    good.watching()
    garbage, huge, half, gone, slow = (daemon.client() for _ in range(5))
    garbage.line(), huge.line(), half.line(), slow.line()
    garbage.send(bytes(range(1, 256)) * 4 + b"\n;")
    check("garbage is answered by an error", "ERROR", garbage.object()["class"])
    sender = threading.Thread(target=lambda: huge.send(b"x" * 4_000_000 + b"\n?VERSION;"))
    sender.start()
    check("a request of megabytes is too long, once", {"class": "ERROR", "message": "Request too long"}, huge.object())
    check("and what follows its line is answered", VERSION, huge.line())
    sender.join()
    half.send(b"?VERSION;")
    half.finish()
    check("a client that closes its half has had its answer", VERSION, half.line())
    check("and its link is closed", None, half.line())
    for byte in b"?VERSION;":
        slow.send(bytes([byte]))
        time.sleep(0.01)
    check("one byte at a time", VERSION, slow.line())
    gone.send(b'?WATCH={"json":true};?POLL;?POLL;?POL')
    until(daemon.at_rest)
    threads = daemon.threads()
    gone.reset()
    until(lambda: daemon.threads() < threads)  # the daemon notices it, so that its end is not what closes this session
    device.send(second(0) + second(1) + second(2))
    device.end()
    check("the good client has it all", ["DEVICE", "TPV", "TPV", "TPV", "DEVICE"], classes_of(good.lines()))
    status, out = daemon.wait()
    check("bad clients: status", 0, status)
    within("bad clients: the one that reset hung up or could not be written to",
           re.search(rb"^s4 (drained (hungup|readfault)|writefault [a-z]+) \d+$", out, re.M) is not None, out)


def crowd():
    """The 65th client, and many that come and go. Of each that has gone little stays until the daemon ends."""
    daemon, device = started("--queue", "64")
    until(daemon.listening().at_rest)
    alone = daemon.threads()
    clients = [daemon.client() for _ in range(64)]
    for client in clients:
        client.line()
    late = daemon.client()
    check("the 65th link is dropped without a byte", None, late.line())
    clients[7].close()
    again = daemon.client()
    end = time.monotonic() + WAIT
    while again.line() != VERSION and time.monotonic() < end:
        time.sleep(0.05)
        again = daemon.client()
    check("when one has gone the next is taken", False, again.ended)
    for client in clients:
        client.close()
    again.close()
    until(lambda: daemon.threads() <= alone)
    probe = daemon.client()
    probe.line()
    files, memory, threads = daemon.open_files(), daemon.memory(), daemon.threads()
    for _ in range(LINKS):
        client = daemon.client()
        client.line()
        client.close()
    within(f"{LINKS:,} links later: open files", until(lambda: daemon.open_files() <= files + 8), (files, daemon.open_files()))
    within(f"{LINKS:,} links later: threads", until(lambda: daemon.threads() <= threads + 8), (threads, daemon.threads()))
    within(f"{LINKS:,} links later: at most 10 KB each", daemon.memory() <= memory + LINKS * 10, (memory, daemon.memory()))
    device.end()
    check("the crowd: status", 0, daemon.wait()[0])


def few_requests():
    """`--requests 3`: three requests of each client are answered, and the next one closes its session alone."""
    daemon, device = started("--requests", "3")
    client = daemon.client()
    client.line()
    other = daemon.client()
    other.line()
    client.send(b"?DEVICES;?POLL;?VERSION;?VERSION;")
    check("three requests are answered, and the fourth ends the session", ["DEVICES", "POLL", "VERSION"], classes_of(client.lines()))
    other.send(b"?VERSION;")
    check("another client has three of its own", VERSION, other.line())
    device.end()
    other.lines()
    status, out = daemon.wait()
    check("few requests: status", 0, status)
    check("few requests: the closing lines", b"s0 drained toomany 4\ns1 drained daemonend 2\n", out)


def stuck_client():
    """A client that never reads: it is ended, and nobody waits for it."""
    daemon, device = started("--queue", "4000")
    quick = daemon.client()
    quick.line()
    until(daemon.at_rest)
    files = daemon.open_files()
    stuck = daemon.client(4096)
    stuck.line()
    for client in quick, stuck:
        client.send(b'?WATCH={"json":true,"nmea":true};')
    quick.line(), quick.line()
    stamps = []

    def read():
        while quick.line() is not None:
            stamps.append(time.monotonic())

    reader = threading.Thread(target=read)
    reader.start()
    for t in range(2_000):
        device.send(second(t) * 20)
        time.sleep(0.002)
    fed = time.monotonic()
    until(lambda: daemon.open_files() <= files)
    check("of a stuck one no file is left", files, daemon.open_files())
    device.end()
    reader.join(WAIT)
    gaps = [b - a for a, b in zip(stamps, stamps[1:]) if b <= fed]
    within("a quick client beside a stuck one waits less than half a second", max(gaps, default=9) < 0.5 * slowness(), max(gaps, default=9))
    within("and gets every sentence", len(stamps) >= 2_000 * 20 * 2, len(stamps))
    status, out = daemon.wait()
    check("a stuck client: status", 0, status)
    # If the device is slow, its second without a byte taken comes before its queue is full.
    within("the stuck one overran, or was ended as it took nothing", re.search(rb"^s1 (drained|writefault) (overrun|hungup) \d+$", out, re.M) is not None, out)


def devices():
    """Devices that send junk, end in mid-packet, reset, or are not there; edges; FIFOs."""
    daemon, device = started()
    client = daemon.client()
    client.watching()
    device.send(os.urandom(5000).replace(b"$", b"%").replace(b"\xb5", b"\xb6") + second(0) + second(1)[:20])
    device.end()
    check("junk, and an end in the middle of a packet", ["DEVICE", "TPV", "DEVICE"], classes_of(client.lines()))
    check("junk: status", 0, daemon.wait()[0])

    daemon, device = started()
    client = daemon.client()
    client.watching()
    device.send(second(0) + second(1))
    client.line(), client.line()
    device.reset()
    check("a device that fails adds nothing", [], client.lines())
    check("a device that fails: status", 3, daemon.wait()[0])

    device = FifoDevice()
    edges, now = os.path.join(device.folder.name, "edges"), int(time.time())
    with open(edges, "w") as it:
        it.write(f"assert {now}.000000000#1\r\nnonsense\nclear {now}.500000000#2\nassert {now + 1}.000000000#2")
    daemon = Daemon(PROGRAM, "--wait", "1", device.word, f"gps0=edges:{edges}")
    client = daemon.client()
    client.line()
    device.send(second(0) + second(1))
    client.send(b'?WATCH={"json":true,"pps":true}\n')
    client.line(), client.line()
    check("with --wait nothing is read before a client watches", "DEVICE", client.object()["class"])
    device.send(second(2))
    device.end()
    classes = classes_of(client.lines())
    check("a FIFO and its edges: fixes", 3, classes.count("TPV"))
    check("a FIFO and its edges: serial times", 3, classes.count("TOFF"))
    check("a FIFO and its edges: status", 0, daemon.wait()[0])

    daemon = Daemon(PROGRAM, "gps0=file:/nonexistent/path")
    check("a device that is not there: status", 3, daemon.wait()[0])


def bursts():
    """Bursts that fill a lane many times over, each with silence after it: a worker that calls its lanes empty too early leaves the rest."""
    daemon, device = started()
    watcher, asker = daemon.client(), daemon.client()
    watcher.watching('{"nmea":true}')
    asker.line()
    for begun in range(0, 1500, 500):
        burst = b"".join(second(t) for t in range(begun, begun + 500))
        device.send(burst)
        check("a device's burst is there before its next byte", burst, b"".join(itertools.islice(iter(watcher.line, None), 1000)))
        asker.send(b"?VERSION;" * 2000)
        check("a burst of requests is answered before the next one", [VERSION] * 2000, list(itertools.islice(iter(asker.line, None), 2000)))
    device.end()
    check("bursts: status", 0, daemon.wait()[0])


def listening():
    with socket.create_server(("127.0.0.1", 0)) as taken:
        port = taken.getsockname()[1]
        daemon = Daemon(PROGRAM, "gps0=file:/dev/null", port=port)
        check("a port that is taken: status", 8, daemon.wait()[0])
        within("a port that is taken is named", str(port) in daemon.said(), daemon.said())
    daemon = Daemon(PROGRAM, "gps0=file:/dev/null")
    check("an empty device: status", 0, daemon.wait()[0])
    within("where it listens is said", f"127.0.0.1:{daemon.port}" in daemon.said(), daemon.said())
    for words in (), ("frob",), ("gps0=",), ("gps0=file:",), ("gps0=file:a", "gps0=tcp:b:1"), ("gps0=edges:a",), ("--queue", "0", "gps0=file:a"):
        daemon = Daemon(PROGRAM, *words)
        check(f"refused words {' '.join(words)!r}: status", 2, daemon.wait()[0])


def idle():
    """64 clients that wait cost next to nothing, and a sentence reaches them at once."""
    daemon, device = started()
    clients = [daemon.client() for _ in range(64)]
    for client in clients:
        client.line()
        client.send(b'?WATCH={"nmea":true}\n')
        client.line(), client.line()
    until(daemon.at_rest)
    before = daemon.cpu()
    time.sleep(5)
    spent = daemon.cpu() - before
    within("64 idle clients cost at most a hundredth of a processor", spent <= 0.05, spent)
    waits = []
    for t in range(30):
        device.send(second(t))
        begun = time.monotonic()
        clients[t].line()
        waits.append(time.monotonic() - begun)
        for client in clients:
            if client is not clients[t]:
                client.line()
            client.line()
    within("a sentence is there within 20 ms, at the middle of thirty", sorted(waits)[15] < 0.02 * slowness(), sorted(waits)[15])
    device.end()
    for client in clients:
        client.lines()
    check("idle clients: status", 0, daemon.wait()[0])


many_files()
sys.exit(run_parts(a_day, forms, bad_clients, crowd, few_requests, stuck_client, devices, bursts, listening, idle))
