"""Rows of the daemon over files, FIFOs and sockets of the loopback: all bytes that its clients get, its status and its closing lines."""
import datetime
import os
import re
import socket
import tempfile
import time

from harness import Daemon, FifoDevice
from rows_text import RMC, VERSION, device, devices, policy, rmc_fix, time_pair, unit

ACTIVATED = re.compile(rb',"activated":"(\d{4}-\d\d-\d\dT\d\d:\d\d:\d\d\.\d{3}Z)"')
STAMP = re.compile(rb'"TOFF".*"clock_sec":(\d+),"clock_nsec":(\d+)}')
SERIAL = re.compile(rb'("real_sec":764426119,"real_nsec":0),"clock_sec":\d+,"clock_nsec":\d+')


def bare(items):
    """What came, without the times that the machine's clock gave."""
    return SERIAL.sub(rb"\1", ACTIVATED.sub(b"", items))


def served(program, words, requests, then=None):
    """Clients that come one after another, each once the one before it was greeted: what each got, the status and the closing lines."""
    daemon = Daemon(program, *words)
    clients, greetings = [], []
    for request in requests:
        clients.append(daemon.client())
        clients[-1].send(request)
        greetings.append(clients[-1].line())
    if then:
        greetings[0] += then(clients[0])
    got = []
    for greeting, client in zip(greetings, clients):
        got.append(greeting + client.rest())
        client.close()
    return got, *daemon.wait()


JSON, NMEA, PPS = b'?WATCH={"json":true};\n', b'?WATCH={"nmea":true};\n', b'?WATCH={"pps":true};\n'
# The first byte announces the device; the time of it is left out here.
FIXES = VERSION + devices("g") + policy(json=True) + device("g") + rmc_fix("g") + device("g")
TEXTS = VERSION + devices("g") + policy(nmea=True) + RMC
TOFF = SERIAL.sub(rb"\1", time_pair("TOFF", 764426119, (0, 0)))


def files(program):
    """A device that is a file of one sentence."""
    with tempfile.TemporaryDirectory() as place:
        path = os.path.join(place, "x")
        with open(path, "wb") as it:
            it.write(RMC)
        file = f"g=file:{path}"
        whole = [FIXES], 0, b"s0 drained daemonend 5\n" + unit(0, 1)

        begun = time.time() - 0.001
        (told,), *ended = served(program, ["--wait", "1", file], [JSON])
        first = datetime.datetime.fromisoformat(ACTIVATED.search(told)[1].decode().replace("Z", "+00:00")).timestamp()
        yield "a device and a client", whole, ([bare(told)], *ended)
        yield "the time of the first byte is the machine's", True, begun <= first <= time.time()

        (told,), *ended = served(program, ["--wait", "1", "--history", "69", file], [JSON])
        yield "a history of 69 bytes", whole, ([bare(told)], *ended)

        (told,), status, closing = served(program, ["--wait", "1", "--monitor", "100", file], [JSON])
        closing = re.sub(rb"\nm0 taken 1 764426119\.000000000 \d+\.\d{9} -1\n$", b"\n", closing)
        yield "a monitor takes the sample, or came too early", whole, ([bare(told)], status, closing)

        (one, two), *ended = served(program, ["--wait", "2", file], [JSON, NMEA])
        yield "two clients, each with what it selects", (
            [FIXES, TEXTS], 0, b"s0 drained daemonend 5\ns1 drained daemonend 3\n" + unit(0, 1)), ([bare(one), two], *ended)

        with socket.create_server(("127.0.0.1", 0)) as receiver:
            def end(client):
                receiver.accept()[0].close()
                return b""

            words = ["--wait", "1", file, f"h=tcp:127.0.0.1:{receiver.getsockname()[1]}", f"g=edges:{os.devnull}"]
            found = served(program, words, [b'?WATCH={"nmea":true};'], end)
        yield "devices in the order of their words", (
            [VERSION + devices("g", "h") + policy(nmea=True) + RMC], 0, b"s0 drained daemonend 3\n" + unit(0, 1)), found


def edges(program):
    """Edges half a second before and after the stamp of a sentence. A line of more than 64 bytes is left out, and the last has no end."""
    receiver, edge_lines = FifoDevice("g"), FifoDevice("g", "edges")
    wanted = []

    def pulse(client):
        receiver.send(RMC)
        told = b"".join(client.line() for _ in range(3))
        sec, nsec = map(int, STAMP.search(told).groups())
        before, after = (divmod(1_000_000_000 * sec + nsec + half * 500_000_000, 1_000_000_000) for half in (-1, 1))
        edge_lines.send(b"assert %d.%09d#4294967295\r\n" % before + 65 * b"x" + b"\nassert %d.%09d#0" % after)
        edge_lines.end()
        told += client.line()
        receiver.end()
        wanted.append(time_pair("PPS", 764426120, after))
        return told

    (told,), *ended = served(program, ["--wait", "1", receiver.word, edge_lines.word], [PPS], pulse)
    yield "edges beside a sentence give its pulse", (
        [VERSION + devices("g") + policy(pps=True) + TOFF + b"".join(wanted)], 0, b"s0 drained daemonend 4\n" + unit(0, 1) + unit(1, 1)), (
        [bare(told)], *ended)


def rows(program):
    """Each row: its name, what is wanted, and what was found."""
    for part in (files, edges):
        for name, wanted, found in part(program):
            yield f"serve: {name}", wanted, found
