#!/usr/bin/env python3
"""Answers that wait for clients, over the built program: a text that comes again is kept once. So the daemon's memory grows with the texts that
differ, and not with the clients or their requests. Every wait is bounded.

Use: answers.py PROGRAM [NAME..]. Prints a line for each check, and ends with 1 if one fails. NAME picks some of the parts.
"""
import json
import os
import select
import socket
import sys
import time

from harness import WAIT, Daemon, TcpDevice, check, many_files, run_parts, second, sentence, until, within

PROGRAM = os.path.abspath(sys.argv[1])
MEGABYTE = 1024  # in KB
SMALL = 2048
CLIENTS = 20
REQUESTS = 3_000  # of each client: fewer than wait in the default queue
LAST = sentence("GPTXT,01,01,02,the last one")
TALKERS = [("GP", range(1, 17)), ("GL", range(65, 81)), ("GA", range(1, 17)), ("GB", range(1, 13))]


def sky():
    """GSV sentences of 60 satellites."""
    for talker, ids in TALKERS:
        for first in range(0, len(ids), 4):
            told = "".join(f",{number:02},{7 * number % 90:02},{13 * number % 360:03},{30 + number % 20:02}" for number in ids[first:first + 4])
            yield sentence(f"{talker}GSV,{len(ids) // 4},{first // 4 + 1},{len(ids)}{told}")


def epoch(t):
    return second(t) + b"".join(sky())


class Receivers:
    """A daemon over this number of receivers of 60 satellites, each of which has told two whole epochs; and the POLL that shows them."""

    def __init__(self, count, *words):
        self.devices = [TcpDevice(f"gps{number}") for number in range(count)]
        self.daemon = Daemon(PROGRAM, *words, *[device.word for device in self.devices]).listening()
        client = self.daemon.client()
        client.watching('{"nmea":true}')
        for device in self.devices:
            device.take().send(epoch(0) + epoch(1) + epoch(2) + LAST)
        for _ in self.devices:
            while client.line() not in (LAST, None):
                pass
        client.send(b'?WATCH={"enable":false};?POLL;')
        self.poll = [client.line() for _ in range(3)][-1]
        client.close()
        self.began = self.daemon.peak()

    def growth(self):
        """By how much the daemon's greatest memory has grown, in KB."""
        return self.daemon.peak() - self.began

    def end(self):
        for device in self.devices:
            device.end()
        return self.daemon.wait()


def asking(receivers, requests):
    """A client with a small buffer for each of these texts, which it sends at once."""
    clients = [receivers.daemon.client(buffer=SMALL) for _ in requests]
    for client, text in zip(clients, requests):
        client.line()
        client.send(text)
    return clients


def unread(port):
    """How many bytes of requests a daemon has not read yet."""
    with open("/proc/net/tcp") as it:
        rows = [row.split() for row in it.read().splitlines()[1:]]
    return sum(int(row[4].partition(":")[2], 16) for row in rows if row[1].endswith(f":{port:04X}") and row[3] == "01")


def wait_unread(receivers, clients):
    """Takes a little of what each client is sent, so that its link stays, until the daemon has read all requests. Returns that little."""
    had = [bytearray() for _ in clients]

    def all_are_read():
        for client, taken in zip(clients, had):
            taken += client.receive(4000, 0) or b""
        return unread(receivers.daemon.port) == 0

    until(all_are_read, pause=0.1)
    return had


def take_all(clients, had, lines):
    """Reads this number of lines of each client, by turns and through a greater buffer, so that none of them takes little for long. Each client's
    bytes."""
    for client in clients:
        client.socket.setsockopt(socket.SOL_SOCKET, socket.SO_RCVBUF, 1_000_000)
    left = {client.socket: (client, taken, lines - taken.count(b"\n")) for client, taken in zip(clients, had)}
    while left and (ready := select.select(left, [], [], WAIT)[0]):
        for link in ready:
            client, taken, count = left.pop(link)
            data = client.receive(1_000_000)
            taken += data
            if data and count > data.count(b"\n"):
                left[link] = client, taken, count - data.count(b"\n")
    return had


def unread_polls():
    """20 clients ask for 60,000 POLLs at once, and take next to nothing for as long as the daemon answers."""
    receivers = Receivers(1)
    clients = asking(receivers, [b"?POLL;" * REQUESTS] * CLIENTS)
    told = take_all(clients, wait_unread(receivers, clients), REQUESTS)
    grown = receivers.growth()
    of = len(receivers.poll) * REQUESTS * CLIENTS // 1_000_000
    print(f"        {of} MB of POLLs that nobody takes yet: the daemon's memory grew by {grown // MEGABYTE} MB", flush=True)
    check("unread POLLs: each client has its answers in the end", [True] * CLIENTS, [text == receivers.poll * REQUESTS for text in told])
    within("unread POLLs: 60,000 of one text take less than 25 MB", grown < 25 * MEGABYTE, grown)
    for client in clients:
        client.close()
    until(lambda: receivers.daemon.threads() < 8)
    time.sleep(0.5)
    left = receivers.daemon.memory() - receivers.began
    within("unread POLLs: once the clients have gone, less than 25 MB are left", left < 25 * MEGABYTE, left)
    status, out = receivers.end()
    check("unread POLLs: status", 0, status)
    ends = [line.partition(b" ")[2] for line in out.splitlines() if line.startswith(b"s")]
    check("unread POLLs: how the clients ended", [b"drained hungup %d" % (REQUESTS + 1)] * CLIENTS, ends[-CLIENTS:])


def own_answers():
    """Two clients ask by turns for far more texts than are kept, each of them again and again, while the receiver's time goes on."""
    receivers = Receivers(2)
    policies = [{"enable": False, "json": bool(n & 1), "nmea": bool(n & 2), "raw": n // 4 % 3, "pps": bool(n // 12 % 2), "device": f"gps{n // 24}"}
                for n in range(48)]
    one, other = (receivers.daemon.client() for _ in range(2))
    wrong, times = [], []
    one.line()
    other.line()
    for turn in range(2):
        for number, policy in enumerate(policies):
            receivers.devices[0].send(sentence(f"GPTXT,01,01,02,{turn} {number}"))
            for client in one, other:
                client.send(f"?WATCH={json.dumps(policy)};?POLL;?VERSION;".encode())
                told = [client.object() for _ in range(4)]
                times.append(told[2]["time"])
                if [it["class"] for it in told] != ["DEVICES", "WATCH", "POLL", "VERSION"] or {key: told[1][key] for key in policy} != policy:
                    wrong.append((turn, policy, told))
    check("own answers: each WATCH tells its own policy, and each answer is of its own class", [], wrong)
    within("own answers: the POLLs' times go on", times == sorted(times) and len(set(times)) > len(policies), times[-4:])
    one.close()
    other.close()
    check("own answers: status", 0, receivers.end()[0])


def many_times():
    """Answers that differ wait for as long as a client leaves them: at most as many for each client as its queue has room for. Each POLL tells
    another time. A client leaves its first megabytes to the system, and the rest to its queue, which in the end is full."""
    queue, count, most = 200, 12, 1_200
    receivers = Receivers(1, "--queue", str(queue))
    clients = asking(receivers, [b""] * count)
    asked = 0
    while receivers.daemon.threads() >= 2 * count and asked < most:
        receivers.devices[0].send(sentence(f"GPTXT,01,01,02,{asked}"))
        for client in clients:
            try:
                client.send(b"?POLL;")
                if asked % 100 == 0:
                    client.receive(1000, 0.1)
            except OSError:
                pass  # it was closed, as its queue was full
        asked += 1
    grown, bound = receivers.growth(), count * queue * len(receivers.poll) // 1024
    print(f"        {asked} POLLs of each of {count} clients with --queue {queue}: the daemon's memory grew by {grown // MEGABYTE} MB", flush=True)
    within("answers of many times: no more than the clients' queues hold, and 8 MB", grown < bound + 8 * MEGABYTE, (grown, bound))
    for client in clients:
        client.close()
    status, out = receivers.end()
    check("answers of many times: status", 0, status)
    within("answers of many times: the queues were full", out.count(b" overrun ") >= count // 2, out)


def main():
    many_files()
    parts = [unread_polls, own_answers, many_times]
    for name in sys.argv[2:]:
        if name not in [part.__name__ for part in parts]:
            sys.exit(f"answers.py: no part {name}")
    sys.exit(run_parts(*[part for part in parts if not sys.argv[2:] or part.__name__ in sys.argv[2:]]))


main()
