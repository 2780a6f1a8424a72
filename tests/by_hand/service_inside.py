"""The service inside the container of systemd.sh: systemctl, its journal, its /etc/gpsrelay.env, units beside it, and a receiver that speaks."""
import contextlib
import glob
import json
import os
import socket
import subprocess
import sys
import time

CHECKOUT = "/checkout"
sys.path.insert(0, f"{CHECKOUT}/tests")
from harness import *  # noqa: E402  (the folder of harness.py is named first)

UNIT = "gpsrelay"
ENV = "/etc/gpsrelay.env"
HERE = ("127.0.0.1", 2947)
AGAIN = 6  # seconds within which systemd has started it again on an idle machine: its pause is two


def call(*words, **more):
    """Runs a command without an input: its status, and what it said."""
    done = subprocess.run(words, stdin=subprocess.DEVNULL, stdout=subprocess.PIPE, stderr=subprocess.STDOUT, text=True, timeout=900, **more)
    return done.returncode, done.stdout


def systemctl(*words):
    return call("systemctl", *words)[0]


def shows(what, unit=UNIT):
    """A property of a unit, or of systemd itself."""
    return call("systemctl", "show", "-p", what, "--value", *filter(None, [unit]))[1].strip()


def is_active(unit=UNIT, seconds=0):
    return until(lambda: shows("ActiveState", unit) == "active", seconds)


class Journal:
    """What the service wrote since now, and what systemd said of it."""

    def __init__(self):
        rows = call("journalctl", "-q", "-n", "1", "-o", "json")[1].strip()
        self.cursor = json.loads(rows)["__CURSOR"] if rows else None

    def rows(self):
        call("journalctl", "--sync")
        after = ["--after-cursor", self.cursor] if self.cursor else []
        return [json.loads(row) for row in call("journalctl", "-q", "-u", UNIT, "-o", "json", *after)[1].splitlines()]

    def texts(self):
        return [row["MESSAGE"] for row in self.rows()]

    def says(self, text, seconds=WAIT):
        return until(lambda: any(text in it for it in self.texts()), seconds, 0.3)


def environment(devices, listen="127.0.0.1:2947", options=""):
    with open(ENV, "w", encoding="utf-8") as it:
        it.write(f'DEVICES="{devices}"\nTERMINALS=\nSPEED=\nLISTEN={listen}\nOPTIONS="{options}"\n')


RECEIVER = "gps0=tcp:127.0.0.1:5000"


def speak():
    """A receiver at 127.0.0.1:5000: a second of sentences, five times a second, to all who are connected."""
    listener = socket.create_server(("127.0.0.1", 5000))
    listener.settimeout(0.2)
    links = []
    for t in range(100_000):
        try:
            links.append(listener.accept()[0])
        except socket.timeout:
            pass
        for link in links[:]:
            try:
                link.sendall(second(t))
            except OSError:
                links.remove(link)


def line_of(words, name, seconds=2 * WAIT):
    """Whether a new client that watches with these words gets a line of this class."""
    end = time.monotonic() + seconds
    client = Client(HERE[1])
    client.watching(words)
    found = False
    while not found and time.monotonic() < end and (line := client.line()):
        found = f'"class":"{name}"'.encode() in line
    client.close()
    return found


def is_greeted():
    try:
        client = Client(HERE[1])
    except OSError as error:
        return repr(error)
    line = client.line()
    client.close()
    return line


def serves_again(name):
    """It is started again soon, by itself."""
    begun = time.monotonic()
    check(f"{name}: it serves", True, is_active(seconds=WAIT))
    within(f"{name}: within {AGAIN} s", (seconds := time.monotonic() - begun) <= AGAIN * slowness(), f"{seconds:.1f} s")


def took(command):
    begun = time.monotonic()
    command()
    return time.monotonic() - begun


@contextlib.contextmanager
def unit(name, text):
    """A unit of its own, which is stopped at the end."""
    with open(f"/etc/systemd/system/{name}", "w", encoding="utf-8") as it:
        it.write(text)
    systemctl("daemon-reload")
    try:
        yield
    finally:
        systemctl("stop", name)
        os.unlink(f"/etc/systemd/system/{name}")
        systemctl("daemon-reload")


def deb(version):
    return glob.glob(f"/root/gpsrelay_{version}_*.deb")[0]
