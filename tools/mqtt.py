#!/usr/bin/env python3
"""Hands the lines of a daemon to an MQTT broker, which serves them to any number of subscribers.

    mqtt.py [HOST:PORT] [--broker HOST:PORT] [--prefix WORD] [--user NAME]

It is one client of the daemon (127.0.0.1:2947 unless told otherwise) and one of the broker (127.0.0.1:1883). Each line is
published without its CR LF: one of a device under WORD/DEVICE/CLASS, as gpsrelay/gps0/TPV, any other under WORD/CLASS. The broker
retains the last TPV of each device for later subscribers. In a topic each character of a device's name but letters, digits and
`_.-~` is written as `%` and two hexadecimal digits. The password of --user is that of the environment, MQTT_PASSWORD.
When the daemon or the broker is gone, it says so and ends with status 1; a service manager starts it again. SIGINT and SIGTERM
end it with status 0.

The messages are those of MQTT 3.1.1 (OASIS Standard, 29 October 2014): CONNECT, PUBLISH with QoS 0, PINGREQ.
"""
import json
import os
import select
import signal
import socket
import sys
import time
import urllib.parse

sys.dont_write_bytecode = True  # nothing is left in the folder of the installed program

import command  # noqa: E402
from command import address_of, address_words, say  # noqa: E402

WATCH = b'?WATCH={"json":true};\n'
LONGEST_LINE = 1_048_576  # bytes; no line of the daemon is longer
PATIENCE = 10  # seconds for a connection, for the broker's first answer, and for a write to the broker
PING = 15  # seconds between two PINGREQ, each of which the broker must answer before the next
KEEP_ALIVE = 60  # seconds after which the broker drops a client that sends nothing
CONNECT, PUBLISH, RETAIN, PINGREQ = 0x10, 0x30, 0x01, b"\xc0\x00"
REFUSALS = {1: "it does not speak MQTT 3.1.1", 2: "the client's identifier is refused", 3: "it is not available",
            4: "wrong user or password", 5: "this user may not connect"}


class Over(Exception):
    """Why there is nothing more to hand on."""


def connected(address, whose):
    """A connection that notices within a minute that the other machine is gone."""
    try:
        link = socket.create_connection(address, PATIENCE)
    except OSError as fault:
        raise Over(f"no {whose} at {address_words(*address)}: {fault.strerror or fault}") from None
    link.setsockopt(socket.SOL_SOCKET, socket.SO_KEEPALIVE, 1)
    for name, value in ("TCP_KEEPIDLE", 30), ("TCP_KEEPINTVL", 10), ("TCP_KEEPCNT", 3):
        if hasattr(socket, name):
            link.setsockopt(socket.IPPROTO_TCP, getattr(socket, name), value)
    return link


# MQTT

def packet(head, body):
    """A packet: its first byte, the length of the rest in groups of seven bits, the lowest first, and the rest (section 2.2)."""
    size, length = len(body), b""
    while size > 127:
        length += bytes([size & 127 | 128])
        size >>= 7
    return bytes([head]) + length + bytes([size]) + body


def text(value):
    """A text with its length before it (section 1.5.3)."""
    data = value.encode()
    return len(data).to_bytes(2, "big") + data


def connect(user, password):
    """The CONNECT of a clean session (section 3.1)."""
    flags = 0x02 | (0x80 if user else 0) | (0x40 if user and password else 0)
    words = [f"gpsrelay{os.urandom(6).hex()}", *([user] if user else []), *([password] if user and password else [])]
    return packet(CONNECT, text("MQTT") + bytes([4, flags]) + KEEP_ALIVE.to_bytes(2, "big") + b"".join(map(text, words)))


def greet(broker, user, password):
    """Opens the session at the broker (sections 3.1 and 3.2)."""
    broker.sendall(connect(user, password))
    answer = b""
    while len(answer) < 4:
        try:
            data = broker.recv(4 - len(answer))
        except TimeoutError:
            raise Over(f"the broker has not answered for {PATIENCE} s") from None
        if not data:
            raise Over("the broker closed the connection before it answered")
        answer += data
    if answer[:2] != b"\x20\x02":
        raise Over("what answers there is no MQTT broker")
    if answer[3]:
        raise Over(f"the broker refuses: {REFUSALS.get(answer[3], f'reason {answer[3]}')}")


def published(prefix, line):
    """The PUBLISH of one line of the daemon (section 3.3). Nothing of a line that is no report."""
    try:
        report = json.loads(line)
        kind = report["class"]
        name = report.get("path" if kind == "DEVICE" else "device")
        levels = [prefix] + [urllib.parse.quote(level, safe="") for level in ([kind] if name is None else [name, kind])]
        return packet(PUBLISH | (RETAIN if kind == "TPV" else 0), text("/".join(levels)) + line)
    except (ValueError, TypeError, KeyError, AttributeError, OverflowError, RecursionError):
        return b""


# The program

def hand_on(daemon, broker, prefix):
    """Publishes what the daemon sends, until one of the two is gone."""
    rest, answered, next_ping, has_begun = b"", True, time.monotonic() + PING, False
    while True:
        ready, _, _ = select.select([daemon, broker], [], [], max(0.0, next_ping - time.monotonic()))
        if broker in ready:
            if not broker.recv(4096):
                raise Over("the broker closed the connection")
            answered = True
        if daemon in ready:
            data = daemon.recv(65_536)
            if not data:
                raise Over("the daemon closed the connection")
            *lines, rest = (rest + data).split(b"\n")
            if len(rest) > LONGEST_LINE:
                raise Over("what answers there is no daemon: it sends no lines")
            packets = [published(prefix, line.rstrip(b"\r")) for line in lines]
            if packets and not has_begun and not packets[0]:
                raise Over("what answers there is no daemon: its first line is none of a daemon's")
            has_begun = has_begun or bool(packets)
            broker.sendall(b"".join(packets))
        if time.monotonic() >= next_ping:
            if not answered:
                raise Over(f"the broker has not answered for {PING} s")
            broker.sendall(PINGREQ)
            answered, next_ping = False, time.monotonic() + PING


def command_line():
    parser = command.Parser(__doc__.split("\n", 1)[0])
    parser.add_argument("daemon", nargs="?", type=address_of, default="127.0.0.1:2947", metavar="HOST:PORT", help="the daemon (127.0.0.1:2947)")
    parser.add_argument("--broker", type=address_of, default="127.0.0.1:1883", metavar="HOST:PORT", help="the MQTT broker (127.0.0.1:1883)")
    parser.add_argument("--prefix", default="gpsrelay", metavar="WORD", help="the first level of each topic (gpsrelay)")
    parser.add_argument("--user", metavar="NAME", help="the user at the broker; the environment has MQTT_PASSWORD")
    words = parser.parse_args()
    if not words.prefix or set(words.prefix) & set("+#\0") or len(words.prefix) > 1000:
        parser.error(f"{words.prefix}: a topic has no + and no #, and is not empty")
    return words


def main():
    words = command_line()
    for number in signal.SIGINT, signal.SIGTERM:
        signal.signal(number, lambda *_: sys.exit(0))
    try:
        with connected(words.broker, "broker") as broker, connected(words.daemon, "daemon") as daemon:
            greet(broker, words.user, os.environ.get("MQTT_PASSWORD"))
            daemon.sendall(WATCH)
            say(f"the lines of {address_words(*words.daemon)} go to {address_words(*words.broker)} under {words.prefix}/")
            hand_on(daemon, broker, words.prefix)
    except Over as reason:
        say(str(reason))
    except TimeoutError:
        say(f"the broker has taken nothing for {PATIENCE} s")
    except OSError as fault:
        say(f"the connection broke: {fault.strerror or fault}")
    return 1


if __name__ == "__main__":
    sys.exit(command.run(main))
