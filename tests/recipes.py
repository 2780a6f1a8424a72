#!/usr/bin/env python3
"""Runs the recipes of docs/RECIPES.md that need a receiver that speaks meanwhile, as one would paste them: logs that rotate, metrics,
two receivers, a broker for other machines, and what clients do when the daemon is upgraded.

Use: recipes.py PROGRAM. Prints a line for each check, and ends with 1 if one fails; says what it skips without gpspipe, logrotate, jq,
promtool, mosquitto or gpsd's Python module. Takes some 20 seconds.

A block is run whose line before it is `<!-- tested: NAME -->`. Ports and places of files are replaced, and nothing else; `gpspipe` is
told the port of the test's daemon by a script of that name, which comes first on PATH.
"""
import glob
import gzip
import json
import os
import re
import shlex
import shutil
import signal
import subprocess
import sys
import tempfile
import time

import live_page
import mqtt
from harness import *

PROGRAM = os.path.abspath(sys.argv[1])
TOP = os.path.dirname(os.path.dirname(os.path.abspath(__file__)))
RECIPES = os.path.join(TOP, "docs", "RECIPES.md")
PYTHONS = [sys.executable, "/usr/bin/python3"]
VIEW_PAUSE = 3  # seconds: the most that view.py waits before it tries again


def recipe(name, **places):
    """The block of this name, with these texts replaced."""
    with open(RECIPES, encoding="utf-8") as it:
        found = re.search(rf"<!-- tested: {name} -->\n```\w*\n(.*?)```\n", it.read(), re.S)
    text = found[1]
    for old, new in places.get("replaced", {}).items():
        if old not in text:
            raise ValueError(f"the recipe {name} has no {old}")
        text = text.replace(old, str(new))
    return text


def lacks(*programs):
    """Whether a program is not installed: then it is said which part is skipped."""
    missing = [it for it in programs if not shutil.which(it, path=mqtt.FOLDERS)]
    if missing:
        print(f"skipped: {', '.join(missing)} not installed: {sys._getframe(1).f_code.co_name.replace('_', ' ')}", flush=True)
    return bool(missing)


class Room:
    """A folder, a daemon with these devices, and a `gpspipe` that connects to it."""

    def __init__(self, *names):
        self.folder = tempfile.mkdtemp(prefix="recipes")
        self.shells = []
        self.port = free_port()
        os.mkdir(f"{self.folder}/bin")
        if real := shutil.which("gpspipe"):
            with open(f"{self.folder}/bin/gpspipe", "w") as out:
                out.write(f'#!/bin/sh\nexec {real} "$@" 127.0.0.1:{self.port}\n')
            os.chmod(f"{self.folder}/bin/gpspipe", 0o755)
        self.begin(*names)

    def begin(self, *names):
        self.devices = [TcpDevice(name) for name in names]
        self.daemon = Daemon(PROGRAM, *(device.word for device in self.devices), port=self.port)
        for device in self.devices:
            device.take()
        self.daemon.listening()

    def client(self):
        """A client that watches, and its first three lines."""
        client = self.daemon.client()
        return client, list(client.watching())

    def run(self, script, shell="sh"):
        """Runs a script in the background. What it writes is left in `NUMBER.out`."""
        path = f"{self.folder}/{len(self.shells)}.out"
        with open(path, "wb") as out:
            shell = subprocess.Popen([shell, "-c", script], cwd=self.folder, stdin=subprocess.DEVNULL, stdout=out, stderr=subprocess.STDOUT,
                                     env={**os.environ, "PATH": f"{self.folder}/bin:{mqtt.FOLDERS}"}, start_new_session=True)
        shell.out = path
        self.shells.append(shell)
        return shell

    def read(self, name):
        with open(os.path.join(self.folder, name), "rb") as it:
            return it.read()

    def close(self):
        for shell in self.shells:
            try:
                os.killpg(shell.pid, signal.SIGKILL)
            except ProcessLookupError:
                pass
            shell.wait()
        self.daemon.stop()
        for device in self.devices:
            device.close()
        shutil.rmtree(self.folder, ignore_errors=True)


def written(shell):
    with open(shell.out, "rb") as it:
        return it.read()


def links(port):
    """How many connections to this port of this machine are open."""
    with open("/proc/net/tcp") as it:
        rows = [row.split() for row in it.read().splitlines()[1:]]
    return sum(row[2].endswith(f":{port:04X}") and row[3] == "01" for row in rows)


def are_watching(port, number):
    """Waits until that many clients are connected, and half a second more, in which each sends its request."""
    until(lambda: links(port) >= number)
    time.sleep(0.5 * slowness())


def holds(path, text):
    """Waits until a file has this text."""
    def there():
        try:
            with open(path, "rb") as it:
                return text in it.read()
        except FileNotFoundError:
            return False
    return until(there)


def a_log_that_rotates():
    if lacks("gpspipe", "logrotate"):
        return
    room = Room("gps0")
    log = f"{room.folder}/gps.json"
    with open(f"{room.folder}/rotate", "w") as out:
        out.write(recipe("rotate", replaced={"/var/log/gps.json": log}))
    shell = room.run(recipe("log", replaced={"/var/log/gps.json": log}))
    holds(log, b'"class":"WATCH"')
    client, lines = room.client()
    turns = [20, 40, 60]
    for t in range(80):
        room.devices[0].send(mqtt.epoch(t))
        time.sleep(0.01)
        if t in turns:
            done = subprocess.run(["logrotate", "-f", "-s", f"{room.folder}/state", f"{room.folder}/rotate"], capture_output=True, text=True,
                                  timeout=WAIT, env={**os.environ, "PATH": mqtt.FOLDERS})
            check(f"log: logrotate in second {t}", (0, ""), (done.returncode, done.stderr))
    room.devices[0].end()
    lines += client.lines()
    check("log: the script ends with the daemon", 0, end_process(shell)[0])
    files = sorted(glob.glob(f"{log}*"))
    check("log: the files", ["gps.json", "gps.json.1", "gps.json.2.gz", "gps.json.3.gz"], list(map(os.path.basename, files)))
    parts = [gzip.decompress(room.read(name)) if name.endswith(".gz") else room.read(name) for name in files]
    check("log: no file is empty", True, all(parts))
    check("log: no line is lost, cut or doubled", b"".join(lines), b"".join(reversed(parts)))
    room.close()


def a_unit():
    """The unit of the script, as systemd reads it."""
    check("unit: it starts the script again", (True, True), ("\nRestart=always\n" in recipe("unit"), "\nStartLimitIntervalSec=0\n" in recipe("unit")))
    if lacks("systemd-analyze"):
        return
    units = {"gps-log.service": recipe("unit", replaced={"/usr/local/bin/gps-log": "/bin/true"}), "gpsrelay.service": "[Service]\nExecStart=/bin/true\n"}
    with tempfile.TemporaryDirectory() as folder:
        for name, text in units.items():
            with open(f"{folder}/{name}", "w") as out:
                out.write(text)
        done = subprocess.run(["systemd-analyze", "verify", "--man=no", f"{folder}/gps-log.service"], capture_output=True, text=True, timeout=WAIT,
                              env={**os.environ, "SYSTEMD_UNIT_PATH": f"{folder}:/lib/systemd/system"})
        check("unit: systemd understands it", (0, []), (done.returncode, [row for row in done.stderr.splitlines() if folder in row]))


def a_recording_in_parts():
    with tempfile.TemporaryDirectory() as folder:
        whole = b"".join(map(mqtt.epoch, range(200)))
        with open(f"{folder}/receiver", "wb") as out:
            out.write(whole)
        script = recipe("parts", replaced={"/dev/ttyACM0": "receiver", "16M": "16K"})
        subprocess.run(["sh", "-c", script], cwd=folder, check=True, timeout=WAIT)
        parts = []
        for name in sorted(glob.glob(f"{folder}/drive.*.log")):
            with open(name, "rb") as it:
                parts.append(it.read())
        check("parts: joined they are what came", (True, whole), (len(parts) > 1, b"".join(parts)))
        fixes = [json.loads(line)["time"] for part in parts for line in run(PROGRAM, "decode", given=part)[1].splitlines() if b"TPV" in line]
        check("parts: each second has its fix", 200, len(set(fixes)))


def metrics():
    if lacks("jq", "promtool"):
        return
    room = Room("gps0", "van")
    file = f"{room.folder}/gps.prom"
    replaced = {"/var/lib/prometheus/node-exporter/gps.prom": file, "127.0.0.1/2947": f"127.0.0.1/{room.port}", "sleep 15": "sleep 0.2"}
    shell = room.run(recipe("metrics", replaced=replaced), "bash")
    for t in range(3):
        room.devices[0].send(mqtt.epoch(t))
    wanted = recipe("metrics-shown")
    shown = lambda: "".join(row + "\n" for row in room.read("gps.prom").decode().splitlines() if 'device="gps0"' in row)
    until(lambda: os.path.exists(file) and shown() == wanted)
    check("metrics: of a device as they are shown", wanted, shown())
    # A receiver without a fix: no sky was sent, so only its mode is known.
    room.devices[1].send(sentence("GPRMC,120000,V,,,,,,,010624,,,N") + sentence("GPRMC,120001,V,,,,,,,010624,,,N"))
    holds(file, b'"van"')
    check("metrics: a receiver without a fix", ['gps_mode{device="van"} 1'], sorted({row for row in room.read("gps.prom").decode().splitlines() if "gps_mode" in row and "van" in row}))
    check("metrics: and no time of it", False, b'gps_fix_timestamp_seconds{device="van"}' in room.read("gps.prom"))
    done = subprocess.run(["promtool", "check", "metrics"], input=room.read("gps.prom"), capture_output=True, timeout=WAIT)
    check("metrics: promtool has nothing to say", (0, b"", b""), (done.returncode, done.stdout, done.stderr))
    room.devices[0].send(mqtt.epoch(3) + mqtt.epoch(4))
    check("metrics: they follow the receiver", True, holds(file, b'gps_fix_timestamp_seconds{device="gps0"} %d\n' % (BEGIN + 3)))
    room.devices[0].end()
    gone = lambda: os.path.exists(file) and b"gps0" not in room.read("gps.prom")
    check("metrics: a device that has ended is left out", True, until(gone))
    room.devices[1].end()
    room.daemon.wait()
    end_process(shell)
    check("metrics: with the daemon the script ends, and the file goes", False, os.path.exists(file))
    room.close()


def numbers():
    """What the recipe makes of a report. The line is written by hand, as the manual page says it."""
    with tempfile.TemporaryDirectory() as folder:
        file, log = f"{folder}/gpsrelay.prom", f"{folder}/log"
        with open(log, "w", encoding="utf-8") as it:
            it.write("report: 3 clients now, 5 at most, 17 sessions, 2 turned away; roof: 1234 bytes, 18 packets, the last 0.4 s ago; van: 0 bytes, 0 packets\n")
        replaced = {"/var/lib/prometheus/node-exporter/gpsrelay.prom": file, "journalctl -fu gpsrelay -n 0 -o cat": f"cat {log}"}
        subprocess.run(["bash", "-c", recipe("numbers", replaced=replaced)], check=True, timeout=WAIT)
        with open(file, encoding="utf-8") as it:
            found = it.read().splitlines()
        wanted = ["gpsrelay_clients 3", "gpsrelay_sessions_total 17", "gpsrelay_turned_away_total 2", 'gpsrelay_bytes_total{device="roof"} 1234',
                  'gpsrelay_packets_total{device="roof"} 18', 'gpsrelay_bytes_total{device="van"} 0', 'gpsrelay_packets_total{device="van"} 0']
        check("the daemon's own numbers", wanted, found)


def chosen(lines):
    """The fixes of `roof`, and those of the other if there was none of `roof` in the three seconds before; none that is not later than the
    one before it: by the rule."""
    last, given, found = -10, -1, []
    for report in map(json.loads, lines):
        if report["class"] == "TPV" and report["mode"] > 1:
            now = int(report["time"][17:19])
            last = now if report["device"] == "roof" else last
            if (report["device"] == "roof" or now - last > 3) and now > given:
                given = now
                found.append((report["device"], now))
    return found


def two_receivers():
    if lacks("gpspipe", "jq"):
        return
    room = Room("roof", "van")
    roof, van = room.devices
    shell = room.run(recipe("failover"))
    client, lines = room.client()
    are_watching(room.port, 2)
    for t in range(20):
        if t < 5 or t >= 12:  # roof says nothing for seven seconds
            roof.send(mqtt.epoch(t))
            time.sleep(0.05)  # so that its fix comes before that of van
        van.send(mqtt.epoch(t))
        time.sleep(0.05)
    roof.end()
    time.sleep(0.2)
    for t in range(20, 30):
        van.send(mqtt.epoch(t))
        time.sleep(0.02)
    van.end()
    lines += client.lines()
    end_process(shell)
    found = [(row["device"], int(row["time"][17:19])) for row in map(json.loads, written(shell).splitlines())]
    check("two receivers: the rule, over what a client got", chosen(lines), found)
    # With sentences the fix of roof's second 4 comes only after its silence, and is too late then. So roof has fixes of the seconds 0 to 3
    # and 12 to 19. Van's are more than three seconds after these from 7 and from 23 on.
    wanted = [*(("roof", t) for t in range(4)), *(("van", t) for t in range(7, 12)), *(("roof", t) for t in range(12, 20)), *(("van", t) for t in range(23, 30))]
    check("two receivers: roof, and van while roof is silent or gone", wanted, found)
    told = [(report["path"], "activated" in report) for report in map(json.loads, lines) if report["class"] == "DEVICE"]
    check("two receivers: the client is told that each began and ended", [("roof", True), ("van", True), ("roof", False), ("van", False)], told)
    room.close()


def python_with_gps():
    """A Python that has gpsd's module."""
    for path in PYTHONS:
        if os.path.exists(path) and not subprocess.run([path, "-c", "import gps"], capture_output=True, timeout=WAIT).returncode:
            return path
    return None


def upgrade():
    """The daemon is ended under its clients, and is back three seconds later."""
    if lacks("gpspipe"):
        return
    room = Room("gps0")
    once = room.run("gpspipe -w")
    loop = room.run(recipe("gpspipe-again"))
    drawn = room.run(f"gpspipe -w | {shlex.quote(TOP)}/tools/track.py -o drawn.svg")
    tool = python_with_gps()
    if tool:
        python = room.run(f"exec {tool} -c {shlex.quote(recipe('python-again', replaced={'gps.gps(': f'gps.gps(port={room.port}, '}))}")
        plain = room.run(f"exec {tool} -c {shlex.quote(PLAIN % room.port)}")
    else:
        print("skipped: python3-gps is not installed: what it does at an upgrade")
    view = live_page.View(room.port)
    events = live_page.Events(view)
    are_watching(room.port, 8 if tool else 4)
    until(lambda: b"WATCH" in written(once) and b"WATCH" in written(loop) and events.state()["connected"])
    for t in range(3):
        room.devices[0].send(mqtt.epoch(t))
    events.until(lambda told: (told.get("fix") or {}).get("time", "").endswith("12:00:01.000Z"))
    holds(loop.out, b"12:00:01.000Z")
    if tool:
        holds(python.out, b"12:00:01.000Z")
    room.daemon.process.terminate()
    room.daemon.wait()
    check("upgrade: gpspipe ends with status 0", 0, end_process(once)[0])
    check("upgrade: track.py draws what came, and ends", (0, True), (end_process(drawn)[0], b"</svg>" in room.read("drawn.svg")))
    check("upgrade: the page says that the daemon is gone", False, events.until(lambda told: not told["connected"])["connected"])
    without = subprocess.run([f"{room.folder}/bin/gpspipe", "-w"], capture_output=True, timeout=WAIT)
    check("upgrade: gpspipe without a daemon", (1, True), (without.returncode, b"could not connect to gpsd" in without.stderr))
    if tool:
        check("upgrade: python3-gps's loop, next and read end without an error", (0, b"over\nstop\n-1\nrefused\n"), (end_process(plain)[0], written(plain)))
    time.sleep(2.5)
    room.begin("gps0")
    since = time.monotonic()
    check("upgrade: the page is connected again", True, events.until(lambda told: told["connected"])["connected"])
    took = time.monotonic() - since
    within("upgrade: within three seconds", took < VIEW_PAUSE + slowness(), took)
    until(lambda: written(loop).count(b'"class":"WATCH"') == 2)
    are_watching(room.port, 3 if tool else 2)
    for t in range(10, 13):
        room.devices[0].send(mqtt.epoch(t))
    check("upgrade: the loop of gpspipe has the new fixes", True, holds(loop.out, b"12:00:11.000Z"))
    if tool:
        check("upgrade: the program in Python has the old fixes and the new ones", True,
              holds(python.out, b"12:00:11.000Z") and b"12:00:01.000Z" in written(python) and b"Traceback" not in written(python))
    track = live_page.Events(view)
    state = track.until(lambda told: (told.get("fix") or {}).get("time", "").endswith("12:00:11.000Z"))
    check("upgrade: the page has the new fixes", True, (state["fix"] or {}).get("time", "").endswith("12:00:11.000Z"))
    check("upgrade: and the track from before, with a gap", True, None in live_page.Events(view).state()["points"][2:])
    view.end(signal.SIGINT)
    room.close()


# Three sessions that were there when the daemon ended: the loop over one, `next` of another, `read` of the third. Then a new one.
PLAIN = '''
import time
import gps
port = %d
sessions = [gps.gps(port=port, mode=gps.WATCH_ENABLE, reconnect=True) for _ in range(3)]
for report in sessions[0]:
    pass
print("over")
try:
    while True:
        sessions[1].next()
except StopIteration:
    print("stop")
while (found := sessions[2].read()) >= 0:
    pass
print(found, flush=True)
time.sleep(0.5)
try:
    gps.gps(port=port)
except ConnectionRefusedError:
    print("refused", flush=True)
'''


def a_broker_for_others():
    """The pasted commands; and the pasted rights: all may read, one user may write."""
    if lacks("mosquitto", "mosquitto_sub", "mosquitto_pub", "mosquitto_passwd"):
        return
    room = Room("gps0")
    broker = mqtt.Broker()
    install, *rest = recipe("mqtt", replaced={"2947": room.port, "1883": broker.port, "tools/mqtt.py": f"{shlex.quote(sys.executable)} {TOP}/tools/mqtt.py"}).splitlines()
    check("broker: the first command installs", True, install.startswith("sudo apt-get install "))
    client, lines = room.client()
    shell = room.run("\n".join(rest))
    check("broker: the tool begins", True, holds(shell.out, b"under gpsrelay/"))
    time.sleep(0.5 * slowness())
    for t in range(4):
        room.devices[0].send(mqtt.epoch(t))
    room.devices[0].end()
    lines += client.lines()
    wanted = b"".join(line.rstrip(b"\r\n") + b"\n" for line in lines if b'"class":"TPV"' in line)
    holds(shell.out, wanted)
    check("broker: a subscriber has the fixes", (4, True), (wanted.count(b"\n"), wanted in written(shell)))
    broker.stop()
    room.close()
    rights()


def rights():
    with tempfile.TemporaryDirectory() as folder:
        os.chmod(folder, 0o755)
        for name, text in ("acl", recipe("rights")), ("passwords", "gpsrelay:s3cret\n"):
            with open(f"{folder}/{name}", "w") as out:
                out.write(text)
        subprocess.run([mqtt.PASSWORDS, "-U", f"{folder}/passwords"], check=True, timeout=WAIT)
        os.chmod(f"{folder}/passwords", 0o644)
        port = free_port()
        replaced = {"1883 0.0.0.0": f"{port} 127.0.0.1", "/etc/mosquitto/gpsrelay.passwords": f"{folder}/passwords", "/etc/mosquitto/gpsrelay.acl": f"{folder}/acl"}
        broker = mqtt.Broker(port, recipe("broker", replaced=replaced))
        reader = mqtt.subscriber(port)
        reader.settimeout(WAIT)
        for who, said in ([], "nobody"), (["-u", "gpsrelay", "-P", "wrong"], "wrong"), (["-u", "gpsrelay", "-P", "s3cret"], "right"):
            subprocess.run(["mosquitto_pub", "-p", str(port), *who, "-r", "-t", "gpsrelay/gps0/TPV", "-m", said], capture_output=True, timeout=WAIT)
        check("rights: all may read, and only the user may write", mqtt.publish("gpsrelay/gps0/TPV", b"right"), reader.recv(1024))
        reader.close()
        broker.stop()


def main():
    begun = time.monotonic()
    status = run_parts(a_log_that_rotates, a_unit, a_recording_in_parts, metrics, numbers, two_receivers, upgrade, a_broker_for_others)
    print(f"        {time.monotonic() - begun:.1f} s")
    return status


if __name__ == "__main__":
    sys.exit(main())
