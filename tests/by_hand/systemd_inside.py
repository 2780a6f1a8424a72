#!/usr/bin/env python3
"""What tests/by_hand/systemd.sh asks of systemd inside its container. Each part leaves the service as it found it, or says so.

Use: systemd_inside.py PROGRAM PART .., as root of that container: it installs, edits /etc, and removes.
"""
import glob
import os
import re
import socket
import sys
import threading
import time

from service_inside import *


def package():
    check("package: apt-get -y installs it, and asks nothing", 0, call("apt-get", "-y", "install", deb("1-1"))[0])
    with open(ENV) as made, open(f"{CHECKOUT}/examples/usb.env") as example:
        check("package: /etc/gpsrelay.env is the example", example.read(), made.read())
    check("package: it is not enabled", "disabled", shows("UnitFileState"))
    units = sorted(glob.glob("/lib/systemd/system/gpsrelay*.service"))
    check("package: systemd has nothing to say of its units", (0, ""), call("systemd-analyze", "verify", "--man=no", *units))
    check("package: enable --now", 0, systemctl("enable", "--now", UNIT))
    check("package: a client is greeted, without a receiver", VERSION, is_greeted())


def fails_once(name, count):
    """A start that cannot go well is refused at once, and not tried again."""
    systemctl("stop", UNIT)
    journal = Journal()
    check(f"{name}: systemctl start says so", 1, systemctl("start", UNIT))
    time.sleep(AGAIN)
    check(f"{name}: it is not started again", ("failed", "0", "2"), (shows("ActiveState"), shows("NRestarts"), shows("ExecMainStatus")))
    within(f"{name}: at most {count} lines in the journal", len(journal.texts()) <= count, len(journal.texts()))


def starts():
    environment("gps0=flie:/dev/ttyS0")
    fails_once("a wrong word", 12)
    with open(ENV, "w") as it:
        it.write(f"DEVICES={RECEIVER}\n")
    fails_once("no LISTEN", 12)

    environment(RECEIVER)
    systemctl("stop", UNIT)
    holder = socket.create_server(HERE)
    journal = Journal()
    check("a taken port: systemctl start says so", 1, systemctl("start", UNIT))
    check("a taken port: the journal says why", True, journal.says("cannot listen at 127.0.0.1:2947"))
    holder.close()
    serves_again("a taken port, once it is free")

    environment(RECEIVER, listen="10.77.0.1:2947")
    check("an address that is not there: systemctl restart says so", 1, systemctl("restart", UNIT))
    call("ip", "address", "add", "10.77.0.1/32", "dev", "lo")
    serves_again("an address that comes later")
    call("ip", "address", "delete", "10.77.0.1/32", "dev", "lo")

    systemctl("stop", UNIT)
    systemctl("reset-failed", UNIT)
    os.rename(ENV, f"{ENV}.kept")
    journal = Journal()
    systemctl("start", UNIT)
    time.sleep(AGAIN)
    check("no /etc/gpsrelay.env: it is said once", 1, sum("ConditionPathExists=/etc/gpsrelay.env" in it for it in journal.texts()))
    check("no /etc/gpsrelay.env: it is not started", "inactive", shows("ActiveState"))
    os.rename(f"{ENV}.kept", ENV)

    environment(RECEIVER)
    client = "import socket; s = socket.create_connection((\"127.0.0.1\", 2947)); s.settimeout(60); assert s.recv(9)"
    after = f"[Unit]\nAfter=gpsrelay.service\n[Service]\nType=oneshot\nExecStart=/usr/bin/python3 -c '{client}'\n"
    with unit("early.service", after):
        found = []
        for _ in range(5):
            systemctl("stop", UNIT)
            found.append(systemctl("start", UNIT, "early.service"))
            found.append(is_greeted())
        check("started is listening: a unit after it, and a client at once, five times", [0, VERSION] * 5, found)


def files():
    """A regular file is read once, and again at each start by hand."""
    with open("/var/lib/drive.nmea", "wb") as it:
        it.write(sample("drive.nmea"))
    environment("gps0=file:/var/lib/drive.nmea")
    for time_ in ("first", "second"):
        journal = Journal()
        systemctl("restart", UNIT)
        is_at_rest = until(lambda: (shows("ActiveState"), shows("Result")) == ("inactive", "exec-condition"), 2 * WAIT, 0.5)
        check(f"a regular file, {time_} start: the service is at rest", True, is_at_rest or (shows("ActiveState"), shows("Result")))
        time.sleep(AGAIN)
        check(f"a regular file, {time_} start: it stays so", "inactive", shows("ActiveState"))
        check(f"a regular file, {time_} start: it is read once", 1, sum("drive.nmea has ended" in it for it in journal.texts()))
    check("a regular file: it is said", True, journal.says("all devices are regular files"))


def recipe(name, **places):
    """The unit of docs/RECIPES.md whose first line names this file, with places replaced."""
    with open(f"{CHECKOUT}/docs/RECIPES.md", encoding="utf-8") as it:
        text = re.search(rf"^    # /etc/systemd/system/{re.escape(name)}\n(?:    .*\n|\n(?=    ))+", it.read(), re.M)[0]
    text = re.sub(r"^    ", "", text, flags=re.M)
    for old, new in places["replaced"].items():
        assert old in text, old
        text = text.replace(old, new)
    return text


class Pulses(threading.Thread):
    """A pulse device, as its file in /sys would show it."""

    path = "/run/assert"

    def __init__(self):
        super().__init__(daemon=True)
        self.start()

    def run(self):
        for at in range(int(time.time()) + 1, 2**31):
            time.sleep(max(0, at - time.time()))
            with open(f"{self.path}.new", "w") as it:
                it.write(f"{at}.000000000#{at}\n")
            os.rename(f"{self.path}.new", self.path)


def opened(fifo):
    """This FIFO, open for writing; None if nobody reads it."""
    try:
        return os.open(fifo, os.O_WRONLY | os.O_NONBLOCK)
    except OSError:
        return None


def pulses():
    Pulses()
    text = recipe("gps0-edges.service", replaced={"/dev/ttyS0": "/run", "/sys/class/pps/pps0/assert": Pulses.path})
    environment(f"{RECEIVER} gps0=edges:/run/gps0.edges")
    with unit("gps0-edges.service", text):
        systemctl("start", "gps0-edges")
        systemctl("restart", UNIT)
        check("pulses: PPS lines come under the unit, as the recipe says", True, line_of('{"json":true,"pps":true}', "PPS"))
        check("pulses: the FIFO is dialout's, and nobody else's", "660 root dialout", call("stat", "-c", "%a %U %G", "/run/gps0.edges")[1].strip())
        systemctl("restart", "gps0-edges")
        check("pulses: PPS lines come after a restart of the edges", True, line_of('{"json":true,"pps":true}', "PPS"))

    os.mkfifo("/run/roots.fifo", 0o644)
    environment("gps0=file:/run/roots.fifo")
    systemctl("restart", UNIT)
    client = Client(HERE[1])
    client.watching('{"nmea":true}')
    for t in range(2):
        writer = []
        until(lambda: writer.append(opened("/run/roots.fifo")) or writer[-1])
        check(f"a FIFO of root that all may read, writer {t}: the service reads it", True, bool(writer[-1]))
        if writer[-1]:
            os.write(writer[-1], second(t))
            os.close(writer[-1])
            found = b"".join(client.line() or b"" for _ in range(2))
            check(f"a FIFO of root that all may read, writer {t}: its sentences", second(t), found)
        time.sleep(3)
    client.close()
    within("a stop while nobody writes into it takes at most 5 s", (seconds := took(lambda: systemctl("stop", UNIT))) < 5 * slowness(), f"{seconds:.1f} s")
    os.unlink("/run/roots.fifo")


def names():
    """A name that avahi finds: it is asked over a Unix socket, at which this part answers in its place."""
    call("dpkg", "--force-depends", "-i", glob.glob("/root/libnss-mdns_*.deb")[0])
    call("sed", "-i", "s/^hosts:.*/hosts: files mdns4_minimal [NOTFOUND=return] dns/", "/etc/nsswitch.conf")
    os.makedirs("/run/avahi-daemon", exist_ok=True)
    server = socket.socket(socket.AF_UNIX)
    server.bind("/run/avahi-daemon/socket")
    os.chmod("/run/avahi-daemon/socket", 0o666)
    server.listen(9)

    def answer():
        while True:
            link, _ = server.accept()
            words = link.recv(500).decode().split()
            link.sendall(f"+ 2 0 {words[1]} 127.0.0.1\n".encode())
            link.close()

    threading.Thread(target=answer, daemon=True).start()
    environment("gps0=tcp:ublox.local:5000")
    systemctl("restart", UNIT)
    check("a name of mDNS: the receiver is found", True, line_of('{"json":true}', "TPV"))
    call("sed", "-i", "s/^hosts:.*/hosts: files dns/", "/etc/nsswitch.conf")
    call("dpkg", "--purge", "libnss-mdns")


def journal():
    os.makedirs("/etc/systemd/journald.conf.d", exist_ok=True)
    with open("/etc/systemd/journald.conf.d/test.conf", "w") as it:
        it.write("[Journal]\nRateLimitIntervalSec=60s\nRateLimitBurst=20\n")
    systemctl("restart", "systemd-journald")
    environment("gps0=tcp:127.0.0.1:5001")  # where nobody listens
    systemctl("restart", UNIT)
    seen = Journal()
    for _ in range(100):
        is_greeted()
    systemctl("restart", UNIT)

    def closing_lines():
        return sum(bool(re.match(r"s\d+ \w+", it)) for it in seen.texts())

    until(lambda: closing_lines() >= 100, WAIT, 0.5)
    check("the journal has the closing line of each of 100 sessions", 100, closing_lines())
    seen.says("cannot be opened")
    seen.says("listening at")
    rows = [row for row in seen.rows() if row.get("_COMM") == "gpsrelay"]
    check("the journal names the program once in a line", [], [row["MESSAGE"] for row in rows if row["MESSAGE"].startswith("gpsrelay: ")])
    faults = {row["PRIORITY"] for row in rows if "cannot be opened" in row["MESSAGE"]}
    check("the journal has faults as errors, and the rest not", ({"3"}, {"6"}), (faults, {row["PRIORITY"] for row in rows if "listening at" in row["MESSAGE"]}))
    os.unlink("/etc/systemd/journald.conf.d/test.conf")
    systemctl("restart", "systemd-journald")


def stops():
    environment(RECEIVER)
    systemctl("restart", UNIT)
    time.sleep(2)
    within("a restart without clients takes at most 4 s", (seconds := took(lambda: systemctl("restart", UNIT))) < 4 * slowness(), f"{seconds:.1f} s")
    clients = [Client(HERE[1]) for _ in range(20)]
    for client in clients:
        client.watching()
    readers = [threading.Thread(target=client.rest) for client in clients]
    for reader in readers:
        reader.start()
    within("a restart with 20 clients takes at most 5 s", (seconds := took(lambda: systemctl("restart", UNIT))) < 5 * slowness(), f"{seconds:.1f} s")
    for reader in readers:
        reader.join(WAIT)
    check("their streams end in order", True, all(client.ended for client in clients))
    client = Client(HERE[1])
    client.watching()
    reader = threading.Thread(target=lambda: [client.receive(seconds=1) for _ in range(40)], daemon=True)
    reader.start()
    seconds = took(lambda: systemctl("restart", UNIT))
    within("a restart with a client that has all, but does not close, takes at most 5 s", seconds < 5 * slowness(), f"{seconds:.1f} s")
    check("its result", "success", shows("Result"))
    client.close()


def upgrade():
    environment(RECEIVER)
    with open(ENV) as it:
        before = it.read()
    systemctl("restart", UNIT)
    client = Client(HERE[1])
    client.watching()
    rest = []
    reader = threading.Thread(target=lambda: rest.append(client.rest()))
    reader.start()
    time.sleep(1)
    begun = time.monotonic()
    check("upgrade: apt-get -y asks nothing, though the example changed", 0, call("apt-get", "-y", "install", deb("1-2"))[0])
    check("upgrade: it serves at once", VERSION, is_greeted())
    print(f"        it took {time.monotonic() - begun:.1f} s")
    reader.join(WAIT)
    check("upgrade: the client's stream ended with a whole line", b"}\r\n", rest[0][-3:])
    with open(ENV) as it:
        check("upgrade: /etc/gpsrelay.env stays", before, it.read())
    check("upgrade: it stays enabled", "enabled", shows("UnitFileState"))
    systemctl("stop", UNIT)
    call("apt-get", "-y", "--allow-downgrades", "install", deb("1-1"))
    check("upgrade: one that was stopped stays so", "inactive", shows("ActiveState"))
    systemctl("start", UNIT)


def gpsd():
    return call("dpkg", "-i", glob.glob("/root/gpsd_*.deb")[0], env={**os.environ, "DEBIAN_FRONTEND": "noninteractive"})[0]


def gpsd_comes():
    environment("gps0=tcp:127.0.0.1:5000")
    systemctl("restart", UNIT)
    for what in ("installed", "upgraded"):
        status = gpsd()
        time.sleep(AGAIN)
        check(f"gpsd is {what} beside it: it serves", (0, "active", VERSION), (status, shows("ActiveState"), is_greeted()))
    check("gpsd.socket could not start", "failed", shows("ActiveState", "gpsd.socket"))
    check("both are enabled", ["enabled"] * 2, [shows("UnitFileState", it) for it in (UNIT, "gpsd.socket")])


def gpsd_was_first():
    """After a boot gpsd.socket has the port. The two lines of README bring gpsrelay back."""
    until(lambda: shows("ActiveState", "gpsd.socket") == "active", 2 * WAIT)
    check("after a boot gpsd.socket has the port", ("active", False), (shows("ActiveState", "gpsd.socket"), is_active()))
    said = until(lambda: any("cannot listen at 127.0.0.1:2947" in it for it in call("journalctl", "-b", "-u", UNIT, "-o", "cat")[1].splitlines()), 2 * WAIT, 0.5)
    check("gpsrelay says so", True, said)
    with open(f"{CHECKOUT}/README.md", encoding="utf-8") as it:
        lines = re.findall(r"^    sudo (systemctl (?:stop|mask) gpsd\S* gpsd\S*)", it.read(), re.M)
    check("README has two lines for that", 2, len(lines))
    for line in lines:
        call("sh", "-c", line)
    serves_again("after them gpsrelay")
    status = gpsd()
    time.sleep(AGAIN)
    check("gpsd is upgraded after them: gpsrelay serves", (0, "active", VERSION), (status, shows("ActiveState"), is_greeted()))


def gpsd_is_masked():
    check("after them, and a boot, gpsrelay serves", True, is_active(seconds=2 * WAIT))
    call("systemctl", "unmask", "gpsd.socket", "gpsd.service")
    call("dpkg", "--purge", "gpsd")


def no_network_comes():
    """A bridge without a port, which never gets an address."""
    for name, text in {"netdev": "[NetDev]\nName=never0\nKind=bridge\n", "network": "[Match]\nName=never0\n[Network]\nDHCP=yes\n"}.items():
        with open(f"/etc/systemd/network/10-never.{name}", "w") as it:
            it.write(text)
    check("networkd is enabled", 0, systemctl("enable", "systemd-networkd", "systemd-networkd-wait-online"))
    with open("/etc/systemd/system/needs.service", "w") as it:
        it.write("[Unit]\nAfter=network-online.target\nWants=network-online.target\n[Service]\nExecStart=/bin/sleep 999\n[Install]\nWantedBy=multi-user.target\n")
    systemctl("enable", "needs")


def boots_without_network():
    check("without a network: it serves", (True, VERSION), (is_active(seconds=2 * WAIT), is_greeted()))
    seconds = (int(shows("ActiveEnterTimestampMonotonic")) - int(shows("UserspaceTimestampMonotonic", ""))) / 1e6
    within("without a network: within 15 s of the boot", seconds <= 15 * slowness(), f"{seconds:.1f} s")
    check("a unit that waits for the network still does", "inactive", shows("ActiveState", "needs"))
    systemctl("disable", "--now", "systemd-networkd", "systemd-networkd-wait-online", "needs")
    os.unlink("/etc/systemd/system/needs.service")
    for it in glob.glob("/etc/systemd/network/10-never.*"):
        os.unlink(it)
    systemctl("daemon-reload")


def install_sh():
    copy = "/root/copy"
    call("cp", "-r", *(f"{CHECKOUT}/{it}" for it in ("tools", "docs", "examples", "samples", "README.md")), "--target-directory", os.makedirs(copy, exist_ok=True) or copy)
    script = f"{copy}/tools/install.sh"
    program = {**os.environ, "PROGRAM": "/usr/bin/gpsrelay"}
    check("install.sh over the package", 0, call(script, env=program)[0])
    systemctl("daemon-reload")
    systemctl("restart", UNIT)
    below = f"/usr/local/lib/systemd/system/{UNIT}.service"
    check("its unit is used, and serves", (below, VERSION), (shows("FragmentPath"), is_greeted()))
    said = call("apt-get", "-y", "--reinstall", "install", deb("1-1"))[1]
    check("the package over it says which unit wins", True, f"{below} is used in place of" in said)
    check("install.sh --remove", 0, call(script, "--remove", env=program)[0])
    check("the service is stopped and disabled, and the package's unit is found", ("inactive", "disabled", f"/lib/systemd/system/{UNIT}.service"),
          (shows("ActiveState"), shows("UnitFileState"), shows("FragmentPath")))
    check("systemd reads the package's units", 0, systemctl("enable", "--now", UNIT))


def removal():
    check("removal: apt-get -y remove", 0, call("apt-get", "-y", "remove", "gpsrelay")[0])
    check("removal: it is stopped, and its file of words stays", ("inactive", True), (shows("ActiveState"), os.path.exists(ENV)))
    check("removal: apt-get -y purge", 0, call("apt-get", "-y", "purge", "gpsrelay")[0])
    left = call("find", "/etc", "/usr", "/lib", "/var/lib/systemd", "-name", "*gpsrelay*")[1].split("\n")
    check("removal: nothing is left", [], [it for it in left if it.startswith("/") and "No such file" not in it])


threading.Thread(target=speak, daemon=True).start()
for name in sys.argv[2:]:
    run_parts(globals()[name])
sys.exit(exit_status())
