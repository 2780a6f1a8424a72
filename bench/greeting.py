#!/usr/bin/env python3
"""Measures how long a new client waits for its greeting while seven receivers send as fast as they are read and 63 clients watch.

Use: greeting.py PROGRAM [SECONDS [CLIENTS]]. The daemon has one lock, which each burst of the devices holds with all that it gives the clients;
a link is admitted under that lock. Printed: the time from the connection to the greeting, its median and its longest, the sentences that were
read in a second, and how many clients fell behind. The longest one bounds how long the lock was held, but for the time that the machine itself
takes; so it is measured on an idle machine, with processors to spare for the clients.
"""
import os
import selectors
import statistics
import sys
import threading
import time

sys.path.insert(0, os.path.join(os.path.dirname(os.path.dirname(os.path.abspath(__file__))), "tests"))
from harness import Client, Daemon, TcpDevice, many_files, second

PROGRAM = os.path.abspath(sys.argv[1])
SECONDS = float(sys.argv[2]) if len(sys.argv) > 2 else 10.0
CLIENTS = int(sys.argv[3]) if len(sys.argv) > 3 else 63
DEVICES = 7
BLOCK = 200  # sentences of one send


def send(device, stop, sent, place):
    blocks = [b"".join(second(t + k, "RMC") for k in range(BLOCK)) for t in range(0, 20 * BLOCK, BLOCK)]
    while not stop.is_set():
        for block in blocks:
            try:
                device.send(block)
            except OSError:
                return
            sent[place] += BLOCK
            if stop.is_set():
                return


def take(clients, stop, lost):
    waiting = selectors.DefaultSelector()
    for client in clients:
        client.socket.setblocking(False)
        waiting.register(client.socket, selectors.EVENT_READ)
    while not stop.is_set():
        for key, _ in waiting.select(0.1):
            try:
                data = key.fileobj.recv(1 << 18)
            except BlockingIOError:
                continue
            except OSError:
                data = b""
            if not data:
                waiting.unregister(key.fileobj)
                lost.append(key.fileobj)


def main():
    many_files()
    devices = [TcpDevice(f"gps{k}") for k in range(DEVICES)]
    daemon = Daemon(PROGRAM, "--queue", "65536", *[device.word for device in devices])
    for device in devices:
        device.take()
    clients = [daemon.client() for _ in range(CLIENTS)]
    for client in clients:
        client.watching()
    stop, lost, sent = threading.Event(), [], [0] * DEVICES
    threads = [threading.Thread(target=take, args=(clients[k::2], stop, lost), daemon=True) for k in range(2)]
    threads += [threading.Thread(target=send, args=(device, stop, sent, k), daemon=True) for k, device in enumerate(devices)]
    for thread in threads:
        thread.start()
    time.sleep(1)
    times, before, start = [], sum(sent), time.monotonic()
    while time.monotonic() - start < SECONDS:
        begin = time.monotonic()
        client = Client(daemon.port)
        greeting = client.line()
        times.append(time.monotonic() - begin)
        client.close()
        if not greeting:
            times.pop()
        time.sleep(0.05)
    rate = (sum(sent) - before) / (time.monotonic() - start)
    stop.set()
    for device in devices:
        device.close()
    daemon.stop()
    times.sort()
    print(f"{len(times)} greetings under a flood of {DEVICES} devices and {CLIENTS} clients: median {statistics.median(times) * 1000:.1f} ms, "
          f"9 of 10 within {times[len(times) * 9 // 10] * 1000:.1f} ms, longest {times[-1] * 1000:.1f} ms; "
          f"{rate:,.0f} sentences a second, {len(lost)} clients fell behind")


main()
