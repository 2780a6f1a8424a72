#!/usr/bin/env python3
"""Runs real clients against the daemon and against gpsd over the same log, and prints what each sent and what it showed.

Use: clients.py LOG PROGRAM [NAME..]. LOG holds what a receiver sent; it is played over and over, five of its seconds
in each second. Needs gpsd
and its clients (Debian: gpsd, gpsd-clients, gpsd-tools, python3-gps); a client that is not there is passed over. Those with a screen
(cgps, gpsmon, xgps) are not run here. gpsd is started on a port of its own and ended again. For each client and each daemon: the
status (`cut` where it was ended after its time), the requests, and the first lines of what it wrote.
"""
import os
import re
import shutil
import socket
import subprocess
import sys
import tempfile
import threading
import time

sys.path.insert(0, os.path.join(os.path.dirname(os.path.dirname(os.path.abspath(__file__))), "tests"))
from harness import Daemon, Gpsd

LOG, PROGRAM, NAMES = sys.argv[1], os.path.abspath(sys.argv[2]), sys.argv[3:]
SHOWN, WIDTH = 5, 150
PYTHON = r"""
import gps, sys
s = gps.gps(host="127.0.0.1", port=sys.argv[1], mode=gps.WATCH_ENABLE)
for n, report in enumerate(s):
    if report["class"] == "TPV":
        print(s.fix.mode, s.fix.time, s.fix.latitude, s.fix.longitude, s.fix.altHAE, s.fix.altMSL, s.fix.speed, s.fix.climb, s.satellites_used, len(s.satellites))
    if n > 12:
        break
s.stream(gps.WATCH_DISABLE)
"""
CLIENTS = [("gpspipe -w", "gpspipe -w -n 8 127.0.0.1:PORT"), ("gpspipe -r", "gpspipe -r -n 8 127.0.0.1:PORT"),
           ("gpspipe -R", "gpspipe -R -n 8 127.0.0.1:PORT | cat -v"), ("gpspipe -x", "gpspipe -w -x 2 127.0.0.1:PORT"),
           ("gpspipe -P", "gpspipe -P -w -n 8 127.0.0.1:PORT"), ("gpxlogger", "gpxlogger -i 1 127.0.0.1:PORT | sed -n '13,$p'"),
           ("gpscsv", "gpscsv -n 4 127.0.0.1:PORT"), ("gpscsv SAT", "gpscsv -n 4 -c SAT 127.0.0.1:PORT"),
           ("gpsprof", "gpsprof -f space -n 5 127.0.0.1:PORT | grep -o 'cep = [^\\\\]*\\|hep = [^\\\\]*'"), ("gps2udp", "gps2udp -j -c 4 -d 1 -u 127.0.0.1:9 127.0.0.1:PORT"),
           ("gegps", "timeout 5 gegps -d PLACE 127.0.0.1:PORT; grep coordinates PLACE/Realtime_GPS.kml"), ("gpssubframe", "gpssubframe -x 3 127.0.0.1:PORT"),
           ("ubxtool", "ubxtool -p MON-VER -w 2 127.0.0.1:PORT"), ("gpsrinex", "gpsrinex -n 2 -i 1 -f PLACE/obs 127.0.0.1:PORT"),
           ("python3-gps", "/usr/bin/python3 PLACE/python.py PORT")]


def parts(data):
    """The log cut where a second begins: before the first sentence's kind, or before each NAV-PVT."""
    if data[:1] == b"$":
        head = next(line[:6] for line in data.splitlines() if line[3:6] in (b"RMC", b"GGA"))
        places = [found.start() for found in re.finditer(re.escape(head), data)]
    else:
        places = [found.start() for found in re.finditer(rb"\xb5\x62\x01\x07\x5c\x00", data)]
    return [data[a:b] for a, b in zip([0] + places[1:], places[1:] + [len(data)])]


def play(listener, seconds):
    """Each link gets the log again and again."""

    def one(link):
        try:
            while True:
                for part in seconds:
                    link.sendall(part)
                    time.sleep(0.2)
        except OSError:
            link.close()

    while True:
        link, _ = listener.accept()
        threading.Thread(target=one, args=(link,), daemon=True).start()


def hand_on(listener, port, sent):
    """A proxy that keeps what the clients send."""

    def pump(source, sink, kept):
        try:
            while data := source.recv(65536):
                if kept is not None:
                    kept.append(data)
                sink.sendall(data)
            sink.shutdown(socket.SHUT_WR)
        except OSError:
            pass

    while True:
        client, _ = listener.accept()
        server = socket.create_connection(("127.0.0.1", port))
        threading.Thread(target=pump, args=(client, server, sent), daemon=True).start()
        threading.Thread(target=pump, args=(server, client, None), daemon=True).start()


def run(call, seconds):
    """The status, and what was written. The client and what it started are ended after its time."""
    process = subprocess.Popen(["bash", "-c", call], stdout=subprocess.PIPE, stderr=subprocess.STDOUT, start_new_session=True)
    try:
        return process.communicate(timeout=seconds)[0], process.returncode
    except subprocess.TimeoutExpired:
        os.killpg(process.pid, 15)
        try:
            return process.communicate(timeout=3)[0], "cut"
        except subprocess.TimeoutExpired:
            os.killpg(process.pid, 9)
            return process.communicate()[0], "cut"


with open(LOG, "rb") as it:
    SECONDS = parts(it.read())
receiver = socket.create_server(("127.0.0.1", 0))
threading.Thread(target=play, args=(receiver, SECONDS), daemon=True).start()
source = receiver.getsockname()[1]
place = tempfile.mkdtemp()
with open(os.path.join(place, "python.py"), "w") as it:
    it.write(PYTHON)
daemons = {"gpsrelay": Daemon(PROGRAM, "--history", "100000", f"gps0=tcp:127.0.0.1:{source}")}
gpsd = shutil.which("gpsd") or shutil.which("gpsd", path="/usr/sbin")
if gpsd:
    daemons["gpsd"] = Gpsd(gpsd, f"tcp://127.0.0.1:{source}")
proxies = []
for name, daemon in daemons.items():
    sent, proxy = [], socket.create_server(("127.0.0.1", 0))
    threading.Thread(target=hand_on, args=(proxy, daemon.listening().port, sent), daemon=True).start()
    proxies.append((name, proxy.getsockname()[1], sent))
time.sleep(2)
try:
    for client, call in CLIENTS:
        if NAMES and client not in NAMES or not shutil.which(client.split()[0]) and client != "python3-gps":
            continue
        print(f"\n{client}", flush=True)
        for name, port, sent in proxies:
            sent.clear()
            out, status = run(call.replace("PORT", str(port)).replace("PLACE", place), 8)
            print(f"  {name}: status {status}, sent {b''.join(sent).decode(errors='backslashreplace')!r}")
            for line in out.decode(errors="replace").splitlines()[:SHOWN]:
                print(f"    {line[:WIDTH].rstrip()}", flush=True)
finally:
    for daemon in daemons.values():
        daemon.stop()
    shutil.rmtree(place)
