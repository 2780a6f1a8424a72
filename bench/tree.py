#!/usr/bin/env python3
"""Measures a tree of daemons: one root, eight daemons behind it, and clients behind each.

Use: tree.py PROGRAM [CLIENTS [SECONDS]]. CLIENTS of each of the eight (64), SECONDS of a receiver's RMC and GGA (200), sent as fast as they
are taken. Printed: how many clients got the same fixes and skies as a client of the root, and the time until all have all lines.
"""
import os
import sys
import threading
import time
from hashlib import sha256

sys.path.insert(0, os.path.join(os.path.dirname(os.path.dirname(os.path.abspath(__file__))), "tests"))
from harness import Daemon, TcpDevice, many_files, second

PROGRAM = os.path.abspath(sys.argv[1])
CLIENTS = int(sys.argv[2]) if len(sys.argv) > 2 else 64
SECONDS = int(sys.argv[3]) if len(sys.argv) > 3 else 200


def summary(lines, name):
    """A sum over the fixes and skies, without the device's name."""
    total, count = sha256(), 0
    for line in lines:
        if line.startswith((b'{"class":"TPV"', b'{"class":"SKY"')):
            total.update(line.replace(b'"device":"' + name + b'"', b'"device":""'))
            count += 1
    return total.hexdigest(), count


class Reader(threading.Thread):
    def __init__(self, daemon, name):
        super().__init__()
        self.client, self.device, self.sum = daemon.client(), name.encode(), None
        self.client.watching()
        self.start()

    def run(self):
        self.sum = summary(self.client.lines(), self.device)


def main():
    many_files()
    device = TcpDevice("gps0")
    root = Daemon(PROGRAM, "--queue", "65536", "--wait", "9", device.word)
    place = f"127.0.0.1:{root.listening().port}"
    readers = [Reader(root, "gps0")]
    daemons = [Daemon(PROGRAM, "--queue", "65536", "--wait", str(CLIENTS), f"up=gpsd:{place}") for _ in range(8)]
    readers += [Reader(daemon, "up") for daemon in daemons for _ in range(CLIENTS)]
    device.take()
    begun = time.monotonic()
    for t in range(SECONDS):
        device.send(second(t))
    device.end()
    for reader in readers:
        reader.join()
    took = time.monotonic() - begun
    wanted = readers[0].sum
    same = sum(reader.sum == wanted for reader in readers[1:])
    print(f"{same} of {8 * CLIENTS} clients got the root's {wanted[1]} fixes and skies, within {took:.2f} s")
    print(f"statuses {[it.wait()[0] for it in (root, *daemons)]}")
    return 0 if same == 8 * CLIENTS else 1


sys.exit(main())
