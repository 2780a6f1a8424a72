#!/usr/bin/env python3
"""Runs tools/mqtt.py between the built daemon and a real broker: 1,000 subscribers, each compared byte for byte with a client of the
daemon; late subscribers; the daemon's processor time; restarts of the daemon and of the broker; what it refuses.

Use: mqtt.py PROGRAM. Prints a line for each check, and ends with 1 if one fails. Needs mosquitto, without which it skips all but the
messages and the unit. Takes some 10 seconds.
"""
import contextlib
import importlib.util
import json
import os
import resource
import select
import shutil
import signal
import socket
import subprocess
import sys
import tempfile
import time

from harness import *

PROGRAM = os.path.abspath(sys.argv[1])
TOOL = os.path.join(os.path.dirname(os.path.dirname(os.path.abspath(__file__))), "tools", "mqtt.py")
FOLDERS = os.environ["PATH"] + ":/usr/sbin"
MOSQUITTO, PASSWORDS = (shutil.which(name, path=FOLDERS) for name in ("mosquitto", "mosquitto_passwd"))
SUBSCRIBERS = 1_000
EPOCHS = 25
PAUSE = 0.05  # seconds between two epochs
CLOSED = ["mqtt.py: the daemon closed the connection", "mqtt.py: the broker closed the connection",
          "mqtt.py: the connection broke: Connection reset by peer", "mqtt.py: the connection broke: Broken pipe"]
NAME, LEVEL = "a/b+c#d", "a%2Fb%2Bc%23d"  # a device's name, and its level of a topic


# What MQTT 3.1.1 says, in this script's own words

def packet(head, body):
    size, length = len(body), []
    while True:
        size, group = divmod(size, 128)
        length.append(group + (128 if size else 0))
        if not size:
            return bytes([head, *length]) + body


def text(words):
    return len(words.encode()).to_bytes(2, "big") + words.encode()


def publish(topic, line, retained=False):
    return packet(0x31 if retained else 0x30, text(topic) + line)


def topic_of(line, prefix="gpsrelay"):
    """The topic of a line of the daemon, whose devices are gps0 and NAME."""
    report = json.loads(line)
    name = report.get("path") if report["class"] == "DEVICE" else report.get("device")
    return "/".join([prefix, *([LEVEL if name == NAME else name] if name else []), report["class"]])


def published(lines):
    """What a subscriber of all topics is sent of these lines."""
    return b"".join(publish(topic_of(line), line.rstrip(b"\r\n")) for line in lines)


class Broker:
    """mosquitto at a port of this machine, with its own defaults but for these lines of its configuration."""

    def __init__(self, port=None, lines=None):
        self.port = port or free_port()
        self.folder = tempfile.TemporaryDirectory()
        path = os.path.join(self.folder.name, "conf")
        os.chmod(self.folder.name, 0o755)
        with open(path, "w") as out:
            out.write(lines or f"listener {self.port} 127.0.0.1\nallow_anonymous true\n")
        self.process = subprocess.Popen([MOSQUITTO, "-c", path], stdout=subprocess.DEVNULL, stderr=subprocess.DEVNULL)
        until(self.is_there)

    def is_there(self):
        try:
            socket.create_connection(("127.0.0.1", self.port), 1).close()
            return True
        except OSError:
            return False

    def stop(self):
        self.process.kill()
        self.process.wait()
        self.folder.cleanup()


def subscriber(port, topic="gpsrelay/#"):
    """A subscription: the CONNECT of a clean session without a name, and a SUBSCRIBE with QoS 0."""
    link = socket.create_connection(("127.0.0.1", port), WAIT)
    link.sendall(packet(0x10, text("MQTT") + b"\x04\x02\x00\x00" + text("")) + packet(0x82, b"\x00\x01" + text(topic) + b"\x00"))
    answer = b""
    while len(answer) < 9 and (data := link.recv(9 - len(answer))):
        answer += data
    if answer != b"\x20\x02\x00\x00\x90\x03\x00\x01\x00":
        raise RuntimeError(f"the broker answers {answer!r}")
    return link


class Subscribers:
    """Many subscriptions, read by this one process."""

    def __init__(self, port, number):
        self.poll, self.links = select.epoll(), {}
        for _ in range(number):
            link = subscriber(port)
            link.setblocking(False)
            self.links[link.fileno()] = (link, bytearray())
            self.poll.register(link, select.EPOLLIN)

    def take(self, seconds):
        """Reads for this time."""
        end = time.monotonic() + seconds
        while True:
            for number, _ in self.poll.poll(max(0.0, end - time.monotonic())):
                link, had = self.links[number]
                data = link.recv(262_144)
                had += data
                if not data:
                    self.poll.unregister(link)
            if time.monotonic() >= end:
                return

    def until(self, size, seconds=60):
        """Reads until each has as many bytes, or that long. What each has."""
        end = time.monotonic() + seconds
        while any(len(had) < size for _, had in self.links.values()) and time.monotonic() < end:
            self.take(0.05)
        self.take(0.1)
        return [bytes(had) for _, had in self.links.values()]

    def forget(self):
        for _, had in self.links.values():
            had.clear()

    def close(self):
        for link, _ in self.links.values():
            link.close()
        self.poll.close()


class Tool:
    """A running tools/mqtt.py."""

    def __init__(self, daemon, broker, *words, password=None):
        self.errors = tempfile.TemporaryFile()
        self.process = subprocess.Popen([sys.executable, TOOL, f"127.0.0.1:{daemon}", "--broker", f"127.0.0.1:{broker}", *words],
                                        stdin=subprocess.DEVNULL, stderr=self.errors,
                                        env={**os.environ, **({"MQTT_PASSWORD": password} if password else {})})

    def said(self):
        return os.pread(self.errors.fileno(), 65_536, 0).decode()

    def started(self):
        until(lambda: "under gpsrelay/" in self.said() or self.process.poll() is not None)
        return self

    def end(self):
        """Its status and the last thing that it said."""
        status = end_process(self.process)[0]
        return status, self.said().rstrip("\n").rpartition("\n")[2]

    def stop(self):
        self.process.kill()
        self.process.wait()


def refused(*words, status=1):
    done = subprocess.run([sys.executable, TOOL, *words], capture_output=True, text=True, timeout=WAIT)
    return (done.returncode == status, done.stderr.rstrip("\n").rpartition("\n")[2])


def messages():
    """Faults that need no broker. A server that is played here answers as a broker may."""
    nobody = free_port()
    check("no broker", (True, f"mqtt.py: no broker at 127.0.0.1:{nobody}: Connection refused"), refused("--broker", f"127.0.0.1:{nobody}"))
    for word in "", "a+b", "a/#":
        right, said = refused("--prefix", word, status=2)
        check(f"prefix {word!r}: refused", (True, True), (right, "a topic has no + and no #" in said))
    check("an address that is none", (True, True), (lambda found: (found[0], "here is no HOST:PORT" in found[1]))(refused("here", status=2)))
    answers = {b"HTTP/1.0 400\r\n": "what answers there is no MQTT broker", b"": "the broker closed the connection before it answered",
               b"\x20\x02\x00\x05": "the broker refuses: this user may not connect", b"\x20\x02\x00\x09": "the broker refuses: reason 9"}
    with socket.create_server(("127.0.0.1", 0)) as played, socket.create_server(("127.0.0.1", 0)) as daemon:
        played.settimeout(WAIT)
        for answer, said in answers.items():
            tool = Tool(daemon.getsockname()[1], played.getsockname()[1])
            link, _ = played.accept()
            asked = link.recv(1024)
            link.sendall(answer)
            with contextlib.suppress(OSError):  # the tool may have ended already
                link.shutdown(socket.SHUT_WR)
            check(f"a broker that answers {answer!r}", (1, f"mqtt.py: {said}"), tool.end())
            link.close()
        # protocol name, level 4, a clean session without a user, 60 s to keep alive, an identifier of at most 23 letters and digits
        check("the CONNECT", (b"\x10", b"\x00\x04MQTT\x04\x02\x00\x3c\x00\x14gpsrelay", 34, True),
              (asked[:1], asked[2:22], len(asked), asked[22:].isalnum()))


def lengths():
    """The lengths of section 2.2.3, whose bounds it lists."""
    sys.path.append(os.path.dirname(TOOL))
    found = importlib.util.spec_from_file_location("tool", TOOL)
    tool = importlib.util.module_from_spec(found)
    found.loader.exec_module(tool)
    wanted = {0: "00", 127: "7f", 128: "8001", 16_383: "ff7f", 16_384: "808001", 2_097_151: "ffff7f", 2_097_152: "80808001"}
    check("lengths of packets", wanted, {size: tool.packet(0x30, bytes(size))[1:-size or None].hex() for size in wanted})
    bad = [b"", b"{", b"[]", b"7", b'{"class":7}', b'{"class":"TPV","device":{}}', b"\xff", b"[" * 100_000,
           b'{"class":"TPV","device":"' + b"x" * 70_000 + b'"}']
    check("what is no report is passed over", [b""] * len(bad), [tool.published("gpsrelay", line) for line in bad])


def epoch(t):
    """What a receiver sends in second t: a fix and a sky of two satellites."""
    return second(t) + sentence("GPGSA,A,3,05,12,,,,,,,,,,,1.8,0.9,1.5") + sentence("GPGSV,1,1,02,05,61,210,44,12,33,087,40")


def nanoseconds(daemon):
    """The processor time of a daemon's threads so far."""
    total = 0
    for task in daemon.tasks():
        with open(f"{daemon.place}/task/{task}/schedstat") as it:
            total += int(it.read().split()[0])
    return total


def play(devices, between):
    for t in range(EPOCHS):
        for device in devices:
            device.send(epoch(t))
        between(PAUSE)


def two_devices():
    devices = TcpDevice("gps0"), TcpDevice(NAME)
    daemon = Daemon(PROGRAM, *(device.word for device in devices))
    for device in devices:
        device.take()
    return daemon, devices


def reference(daemon):
    """A client of the daemon: it, and the three lines that it has already."""
    client = daemon.client()
    return client, list(client.watching())


def time_of_a_client():
    """The daemon's processor time with two clients."""
    daemon, devices = two_devices()
    clients = [reference(daemon)[0] for _ in range(2)]
    before = nanoseconds(daemon)
    play(devices, time.sleep)
    until(lambda: False, 0.5)
    spent = nanoseconds(daemon) - before
    for device in devices:
        device.end()
    for client in clients:
        client.rest()
    daemon.wait()
    return spent


def thousand():
    """A client beside the tool, which has 1,000 subscribers at the broker."""
    alone = time_of_a_client()
    broker = Broker()
    many = Subscribers(broker.port, SUBSCRIBERS)
    daemon, devices = two_devices()
    client, lines = reference(daemon)
    tool = Tool(daemon.listening().port, broker.port).started()
    many.until(len(published(lines)))
    before = nanoseconds(daemon)
    play(devices, many.take)
    many.take(0.5)
    spent = nanoseconds(daemon) - before
    for device in devices:
        device.end()
    lines += client.lines()
    wanted = published(lines)
    found = many.until(len(wanted))
    classes = [json.loads(line)["class"] for line in lines]
    # An epoch of each device gives a TPV and a SKY; the first bytes and the end of each give a DEVICE.
    check("the client has a TPV and a SKY of each epoch", (2 * EPOCHS, 2 * EPOCHS, 4), tuple(map(classes.count, ("TPV", "SKY", "DEVICE"))))
    check(f"{SUBSCRIBERS} subscribers: each has the client's lines, in order", SUBSCRIBERS, sum(had == wanted for had in found))
    if any(had != wanted for had in found):
        bad = next(had for had in found if had != wanted)
        print(f"        {len(bad)} bytes, not {len(wanted)}; from byte {len(os.path.commonprefix([bad, wanted]))} on they differ")
    within(f"the daemon's processor time is that with a client in its place: {spent / 1e6:.1f} ms, {alone / 1e6:.1f} ms",
           spent < 2 * alone + 20e6, (spent, alone))
    check("the daemon ends, and so does the tool", (0, (1, "mqtt.py: the daemon closed the connection")), (daemon.wait()[0], tool.end()))
    late(broker, lines)
    restarts(broker, many)
    many.close()


def late(broker, lines):
    """A subscriber that comes later gets what the broker retained: the last TPV of each device, and nothing else."""
    last = {topic_of(line): line.rstrip(b"\r\n") for line in lines if b'"class":"TPV"' in line}
    many = Subscribers(broker.port, 3)
    wanted = sorted(publish(topic, line, retained=True) for topic, line in last.items())
    for had in many.until(sum(map(len, wanted))):
        check("a late subscriber: the last TPV of each device", True, had in (wanted[0] + wanted[1], wanted[1] + wanted[0]) or had)
    many.close()


def restarts(broker, many):
    """As a unit with Restart=always does, the tool is started again once it has ended."""
    many.forget()
    device = TcpDevice("gps0")
    daemon = Daemon(PROGRAM, device.word)
    device.take()
    client, lines = reference(daemon)
    tool = Tool(daemon.listening().port, broker.port).started()
    many.until(len(published(lines)))
    device.send(epoch(0) + epoch(1))
    lines += [client.line() for _ in range(3)]
    wanted = published(lines)
    check("after a restart: each has the new daemon's lines", SUBSCRIBERS, sum(had == wanted for had in many.until(len(wanted))))
    daemon.stop()
    check("a daemon that is killed", (1, True), (lambda found: (found[0], found[1] in CLOSED or found[1]))(tool.end()))
    device.close()
    device = TcpDevice("gps0")
    daemon = Daemon(PROGRAM, device.word)
    device.take()
    tool = Tool(daemon.listening().port, broker.port).started()
    broker.stop()
    check("a broker that is killed", (1, True), (lambda found: (found[0], found[1] in CLOSED or found[1]))(tool.end()))
    again = Broker(broker.port)
    link = subscriber(again.port, "gpsrelay/gps0/+")
    tool = Tool(daemon.port, again.port).started()
    device.send(epoch(0) + epoch(1))
    device.end()
    had = b""
    link.settimeout(WAIT)
    while had.count(b'"class":"DEVICE"') < 2 and (data := link.recv(65_536)):
        had += data
    check("a broker that is back: DEVICE, two TPV, two SKY, DEVICE", (2, 2, 2), tuple(had.count(b'"class":"%s"' % kind) for kind in (b"DEVICE", b"TPV", b"SKY")))
    tool.end()
    link.close()
    again.stop()


def passwords():
    """A user with a password, as the broker checks it."""
    with tempfile.TemporaryDirectory() as folder:
        os.chmod(folder, 0o755)
        path = os.path.join(folder, "passwords")
        with open(path, "w") as out:
            out.write("roof:s3cret\n")
        subprocess.run([PASSWORDS, "-U", path], check=True, timeout=WAIT)
        os.chmod(path, 0o644)
        port = free_port()
        broker = Broker(port, f"listener {port} 127.0.0.1\nallow_anonymous false\npassword_file {path}\n")
        device = TcpDevice("gps0")
        daemon = Daemon(PROGRAM, device.word)
        device.take()
        port = daemon.listening().port
        check("no user", (1, "mqtt.py: the broker refuses: this user may not connect"), Tool(port, broker.port).end())
        check("a wrong password", (1, True), (lambda found: (found[0], "mqtt.py: the broker refuses: " in found[1]))(
            Tool(port, broker.port, "--user", "roof", password="wrong").end()))
        tool = Tool(port, broker.port, "--user", "roof", password="s3cret").started()
        check("the right one: it begins", f"mqtt.py: the lines of 127.0.0.1:{port} go to 127.0.0.1:{broker.port} under gpsrelay/\n", tool.said())
        tool.process.send_signal(signal.SIGTERM)
        check("SIGTERM ends it", 0, tool.end()[0])
        device.close()
        daemon.stop()
        broker.stop()


def unit():
    """examples/gpsrelay-mqtt.service: what it starts, that it starts it again, and what systemd says of it."""
    with tempfile.TemporaryDirectory() as folder:
        os.mkdir(f"{folder}/bin")
        os.symlink(TOOL, f"{folder}/bin/gpsrelay-mqtt")
        path = f"{folder}/gpsrelay-mqtt.service"
        with open(os.path.join(os.path.dirname(os.path.dirname(TOOL)), "examples", "gpsrelay-mqtt.service")) as it:
            rows = it.read().replace("@PREFIX@", folder).splitlines()
        with open(path, "w") as out:
            out.write("\n".join(rows) + "\n")
        again = {"Restart=always", "RestartSec=2", "RestartPreventExitStatus=2", "StartLimitIntervalSec=0"}
        check("unit: it starts the tool again, whatever its status but that of wrong words", again, again & set(rows))
        nobody = free_port()
        [command] = [row.removeprefix("ExecStart=") for row in rows if row.startswith("ExecStart=")]
        done = subprocess.run(["sh", "-c", command], env={**os.environ, "OPTIONS": f"--broker 127.0.0.1:{nobody}"}, capture_output=True, text=True, timeout=WAIT)
        check("unit: its command, with options", (1, f"gpsrelay-mqtt: no broker at 127.0.0.1:{nobody}: Connection refused\n"), (done.returncode, done.stderr))
        if not shutil.which("systemd-analyze"):
            print("skipped: systemd-analyze is not installed: what systemd says of the unit")
            return
        done = subprocess.run(["systemd-analyze", "verify", "--man=no", path], capture_output=True, text=True, timeout=WAIT)
        check("unit: systemd understands it", (0, []), (done.returncode, [row for row in done.stderr.splitlines() if folder in row]))
        done = subprocess.run(["systemd-analyze", "security", "--offline=true", "--threshold=20", path], capture_output=True, timeout=WAIT)
        check("unit: it is hardened: an exposure of at most 2.0 of 10", 0, done.returncode)


def main():
    begun = time.monotonic()
    resource.setrlimit(resource.RLIMIT_NOFILE, (4096, 4096))
    parts = [messages, lengths, unit]
    if MOSQUITTO:
        parts += [thousand, *([passwords] if PASSWORDS else [])]
    else:
        print("skipped: mosquitto is not installed: subscribers, restarts and passwords at a broker")
    status = run_parts(*parts)
    print(f"        {time.monotonic() - begun:.1f} s")
    return status


if __name__ == "__main__":
    sys.exit(main())
