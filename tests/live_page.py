"""The live page of tools/view.py, for pictures.py: by HTTP, with a daemon that is played here; and in a real browser, with the
built daemon and a FIFO as its device."""
import json
import os
import signal
import socket
import subprocess
import sys
import tempfile
import time
import xml.etree.ElementTree as xml

import browser
from harness import WAIT, Daemon, check, cpu_of, free_port, slowness, within

VIEW = os.path.join(os.path.dirname(os.path.dirname(os.path.abspath(__file__))), "tools", "view.py")


class View:
    """A running view.py and its address."""

    def __init__(self, daemon_port, program=(VIEW,)):
        self.port = free_port()
        self.process = subprocess.Popen([sys.executable, *program, f"127.0.0.1:{daemon_port}", "--listen", f"127.0.0.1:{self.port}"],
                                        stderr=subprocess.PIPE)
        self.said = self.process.stderr.readline().decode()

    def ask(self, path="/", host=None, method="GET", buffer=None):
        link = socket.socket()
        if buffer:
            link.setsockopt(socket.SOL_SOCKET, socket.SO_RCVBUF, buffer)
            link.setsockopt(socket.IPPROTO_TCP, socket.TCP_MAXSEG, 536)  # or the other side's buffer grows to megabytes
        link.settimeout(WAIT)
        link.connect(("127.0.0.1", self.port))
        link.sendall(f"{method} {path} HTTP/1.1\r\nHost: {host or f'127.0.0.1:{self.port}'}\r\nConnection: close\r\n\r\n".encode())
        return link

    def answer(self, path="/", **words):
        """(status, headers, body)"""
        with self.ask(path, **words) as link:
            head, _, body = b"".join(iter(lambda: link.recv(65_536), b"")).partition(b"\r\n\r\n")
        first, *rest = head.decode().split("\r\n")
        return int(first.split()[1]), dict(line.split(": ", 1) for line in rest), body

    def end(self, how):
        """(status, seconds) of the end by a signal."""
        began = time.monotonic()
        self.process.send_signal(how)
        try:
            return self.process.wait(WAIT), time.monotonic() - began
        except subprocess.TimeoutExpired:
            self.process.kill()
            return "still running", WAIT

    def cpu(self):
        """Its processor time in seconds."""
        return cpu_of(self.process.pid)


class Events:
    """A browser's end of the events, without a browser. `silence` is the longest time that `until` waited for one state."""

    def __init__(self, view, device=None):
        self.link = view.ask("/events" + (f"?device={device}" if device else ""))
        self.lines = self.link.makefile("rb")

    def state(self):
        while line := self.lines.readline():
            if line.startswith(b"data: "):
                return json.loads(line[6:])
        return None

    def until(self, test, seconds=WAIT):
        """The first state that passes the test, or the last one in this time."""
        end, state, self.silence = time.monotonic() + seconds, None, 0.0
        while (asked := time.monotonic()) < end and (state := self.state()) is not None:
            self.silence = max(self.silence, time.monotonic() - asked)
            if test(state):
                break
        return state

    def close(self):
        self.lines.close()
        self.link.close()


class PlayedDaemon:
    """The daemon's end of one link, which sends what it is told."""

    def __init__(self):
        self.listener = socket.create_server(("127.0.0.1", 0))
        self.listener.settimeout(WAIT)
        self.port = self.listener.getsockname()[1]

    def take(self):
        self.link, _ = self.listener.accept()
        self.link.settimeout(WAIT)
        return self.link.recv(1024)

    def send(self, *lines):
        self.link.sendall(b"".join(line + b"\r\n" for line in lines))


def tpv(second, device="gps0"):
    return (f'{{"class":"TPV","device":"{device}","mode":3,"time":"2024-06-01T10:{second // 60 % 60:02d}:{second % 60:02d}.000Z",'
            f'"lat":{48 + second * 1e-5:.9f},"lon":11.500000000,"speed":1.000}}').encode()


BAD = [b"\xff\xfe\x00", b"{", b"[]", b"null", b'{"class":"TPV"}', b'{"class":"TPV","device":"gps0","mode":"x"}',
       b'{"class":"TPV","device":["gps0"],"mode":3}', b'{"class":"SKY","device":"gps0","satellites":{}}', b'{"class":"DEVICES","devices":7}',
       b'{"class":"DEVICE"}', b"[" * 200_000, b'{"class":"TPV","device":"gps0","mode":' + b"1" * 5_000 + b"}", b"x" * 3_000_000]
ODD = [b'{"class":"TPV","device":"gps0","mode":3,"lat":1e999,"lon":NaN,"speed":"fast","time":"<b>"}',
       b'{"class":"SKY","device":"gps0","satellites":[1,{},{"PRN":"x"},{"PRN":9,"el":1000,"az":-1,"used":1}]}',
       b'{"class":"AIS","device":"gps0"}']


def over_http():
    """What a browser is sent, by a daemon that is played here."""
    daemon = PlayedDaemon()
    view = View(daemon.port)
    try:
        conversation(daemon, view)
    finally:
        view.process.kill()
        view.process.wait()


def conversation(daemon, view):
    check("view: it says where it is", f"view.py: http://127.0.0.1:{view.port}/ shows the daemon at 127.0.0.1:{daemon.port}\n", view.said)
    check("view: it watches", b'?WATCH={"json":true};\n', daemon.take())
    page(view)
    daemon.send(b'{"class":"DEVICES","devices":[{"class":"DEVICE","path":"gps0","activated":"2024-06-01T10:00:00.000Z"}]}')
    daemon.send(*BAD, *ODD, *[tpv(second) for second in range(10)])
    first = Events(view)
    state = first.until(lambda told: told.get("fix") and told["fix"].get("time", "")[11:19] == "10:00:09")
    check("view: bad lines are counted, and what follows is shown", (len(BAD), "10:00:09"), (state["badLines"], state["fix"]["time"][11:19]))
    late = Events(view)
    state = late.state()
    check("view: a new browser has the whole track at once", (True, [[round(48 + s * 1e-5, 7), 11.5] for s in range(10)]), (state["whole"], state["points"]))
    daemon.send(tpv(10))
    state = late.until(lambda told: told["points"])
    check("view: and then what is new", (False, [[48.0001, 11.5]]), (state["whole"], state["points"]))
    many(daemon, view, first)
    several(daemon, view)
    taken = subprocess.run([sys.executable, VIEW, "--listen", f"127.0.0.1:{view.port}"], capture_output=True, timeout=WAIT)
    check("view: a port that is taken: status and one line", (1, b"view.py: cannot serve at 127.0.0.1:%d: Address already in use\n" % view.port),
          (taken.returncode, taken.stderr))
    daemon.link.close()
    check("view: the daemon is gone", False, late.until(lambda told: not told["connected"])["connected"])
    daemon.take()
    daemon.send(tpv(20))
    check("view: and is found again", (True, "10:00:20"), (lambda told: (told["connected"], told["fix"]["time"][11:19]))(
        late.until(lambda told: told["connected"] and told["fix"]["time"][11:19] == "10:00:20")))
    status, seconds = view.end(signal.SIGINT)
    check("view: SIGINT ends it, with browsers open", (0, True), (status, seconds < 3 * slowness()))
    first.close(), late.close()


def page(view):
    status, headers, body = view.answer()
    policy = headers["Content-Security-Policy"]
    check("view: one page", (200, True), (status, body.startswith(b"<!DOCTYPE html>")))
    check("view: nothing from elsewhere, nothing unsafe", (True, False, False),
          ("default-src 'none'" in policy, "unsafe" in policy, b"//" in body.replace(b"http://www.w3.org/2000/svg", b"").split(b"<script>")[0]))
    check("view: another page, another name, another method", (404, 421, 501),
          (view.answer("/etc/passwd")[0], view.answer(host="evil.example")[0], view.answer(method="POST")[0]))


def waiting_links(port):
    """How many links of a server have bytes that the other side does not take."""
    with open("/proc/net/tcp") as it:
        rows = [row.split() for row in it.read().splitlines()[1:]]
    return sum(row[1].endswith(f":{port:04X}") and int(row[4].partition(":")[0], 16) > 0 for row in rows)


def many(daemon, view, quick):
    """A browser that takes nothing holds up no other, and the memory stays bounded."""
    before = view.cpu()
    stuck = [view.ask("/events", buffer=4096) for _ in range(5)]
    for first in range(100, 20_100, 1_000):
        daemon.send(*[tpv(second) for second in range(first, first + 1_000)])
    last = json.loads(tpv(20_099))["lat"]
    state = quick.until(lambda told: told["fix"]["lat"] == last)
    check("view: 20,000 lines, and five browsers that take nothing: another has the last one", last, state["fix"]["lat"])
    within("view: the five are stuck", waiting_links(view.port) >= len(stuck), waiting_links(view.port))
    within("view: and is sent states all the while, so that nobody waited for the five", quick.silence < 10, quick.silence)  # they are dropped after 20
    spent = view.cpu() - before
    within("view: within 5 seconds of the processor", spent < 5 * slowness(time.process_time), spent)
    fresh = Events(view)
    check("view: an hour of the track is kept", 3_600, len(fresh.state()["points"]))
    with open(f"/proc/{view.process.pid}/status") as told:
        memory = next(int(line.split()[1]) for line in told if line.startswith("VmRSS"))
    check("view: at most 60 MB", True, memory < 60_000 or memory)
    for link in [*stuck, fresh]:
        link.close()


def several(daemon, view):
    daemon.send(tpv(30, "gps1"), *[b'{"class":"TPV","device":"made%d","mode":1}' % k for k in range(100)])
    events = Events(view)
    events.until(lambda told: told["badLines"] >= len(BAD) + 86)
    events.close()
    events = Events(view, "gps1")
    state = events.state()
    check("view: a device is chosen; sixteen are kept and no more", ("gps1", 1, 16), (state["device"], len(state["points"]), len(state["devices"])))
    events.close()


# In a browser

OTHER = "/dev/serial/by-id/usb-u-blox_AG_u-blox_GNSS_receiver-if00"
PAPER = {"light": "rgb(255, 255, 255)", "dark": "rgb(13, 17, 23)"}


def writer(fifo):
    """The writer's end of a FIFO, once somebody reads it."""
    end = time.monotonic() + WAIT
    while True:
        try:
            end_of_it = os.open(fifo, os.O_WRONLY | os.O_NONBLOCK)
            os.set_blocking(end_of_it, True)
            return open(end_of_it, "wb", buffering=0)
        except OSError:
            if time.monotonic() > end:
                raise
            time.sleep(0.02)


class Drive:
    """The built daemon with FIFOs as its devices, gps0 and one of a long name, which are given seconds of the sample drive; and a client of its own."""

    def __init__(self, program, folder):
        import make_drive
        self.seconds, sentences = [], ""
        for sentence in make_drive.drive():
            if sentence.startswith("$GPRMC") and sentences:
                self.seconds.append(sentences.encode())
                sentences = ""
            sentences += sentence
        self.program, self.port = program, free_port()
        self.fifos = {"gps0": os.path.join(folder, "gps0"), OTHER: os.path.join(folder, "other")}
        for fifo in self.fifos.values():
            os.mkfifo(fifo)
        self.positions, self.last = 0, None  # of gps0: how many, and the last report that has one
        self.start()

    def start(self):
        self.daemon = Daemon(self.program, *[f"{name}=file:{fifo}" for name, fifo in self.fifos.items()], port=self.port)
        self.feeds = {name: writer(fifo) for name, fifo in self.fifos.items()}
        self.client = self.daemon.client()
        self.client.watching()

    def drive(self, first, last, device="gps0"):
        """Feeds these seconds, and gives the last TPV that the daemon sends of them: of the second before the last."""
        for sentences in self.seconds[first:last]:
            self.feeds[device].write(sentences)
        clock = f"2024-06-01T10:{15 + (last - 2) // 60}:{(last - 2) % 60:02d}.000Z"
        while report := self.client.object():
            if report["class"] != "TPV":
                continue
            if "lat" in report and report["device"] == "gps0":
                self.positions, self.last = self.positions + 1, report
            if (report["device"], report["time"]) == (device, clock):
                return report
        return None

    def kill(self):
        self.daemon.stop()
        for feed in self.feeds.values():
            feed.close()
        self.client.close()


def words(name):
    return f"document.getElementById('{name}').textContent"


def shows(chromium, fix):
    """The page shows a fix of the daemon's own lines."""
    wanted = {"lat": f"{fix['lat']:.7f}° N", "lon": f"{fix['lon']:.7f}° E", "mode": f"{fix['mode']}D fix",
              "speed": f"{fix['speed'] * 3.6:.1f} km/h", "speed-ms": f"{fix['speed']:.2f} m/s", "course": f"{fix['track']:.1f}°", "msl": f"{fix['altMSL']:.1f} m",
              "clock": f"{fix['time'][11:19]} UTC", "date": fix["time"][:10], "status": f"{fix['mode']}D fix"}
    chromium.wait(words("clock"), wanted["clock"])
    check(f"page: the fix of {wanted['clock']}", wanted, {name: chromium.value(words(name)) for name in wanted})


def drawn(chromium, drive):
    points = "(document.querySelector('#trackplot .track').getAttribute('d').match(/,/g) || []).length"
    check("page: a point of the track for each position", drive.positions, chromium.wait(points, drive.positions))
    check("page: the satellites and the devices", ["5 of 8 used, HDOP 0.94", 8, ["gps0", f"{OTHER} (silent)"]],
          chromium.value("[document.getElementById('used').textContent, "
                         "document.querySelectorAll('#skyplot circle[style]').length, [...document.getElementById('device').options].map(o => o.text)]"))
    check("page: the age of the last fix goes on", True, chromium.wait(f"parseInt({words('age')}) >= 1", True))


def in_browser(program, path, shots):
    with tempfile.TemporaryDirectory() as folder:
        drive = Drive(program, folder)
        view = View(drive.port)
        chromium = browser.Browser(path)
        try:
            chromium.size(360, 800)
            chromium.call("Page.navigate", url=f"http://127.0.0.1:{view.port}/")
            the_drive(chromium, drive, shots)
            sideways(chromium, shots)
            links(chromium, view, drive, folder)
            another_device(chromium, drive)
            by_keyboard(chromium)
            gone_and_back(chromium, drive, shots)
            hosts = {event["request"]["url"].split("/")[2] for event in chromium.told("Network.requestWillBeSent")}
            check("page: nothing is asked of anyone else", {f"127.0.0.1:{view.port}"}, hosts)
            faults = [event["entry"]["text"] for event in chromium.told("Log.entryAdded")] + chromium.told("Runtime.exceptionThrown")
            check("page: no fault and nothing against its policy", [], faults)
            status, seconds = view.end(signal.SIGTERM)
            check("view: SIGTERM ends it", (0, True), (status, seconds < 3 * slowness()))
            gone = "The server of this page is gone. Trying again."
            check("page: its own server is gone", gone, chromium.wait(words("status"), gone))
        finally:
            chromium.close()
            view.process.kill()
            drive.kill()


def the_drive(chromium, drive, shots):
    waiting = "Waiting for gps0"
    check("page: before the first line", waiting, chromium.wait(words("status"), waiting))
    drive.drive(0, 6)
    check("page: no fix is said", "No fix", chromium.wait(words("status"), "No fix"))
    check("page: a change of mode is said aloud", ["polite", "status"],
          chromium.value("[document.getElementById('status').ariaLive, document.getElementById('status').getAttribute('role')]"))
    shows(chromium, drive.drive(6, 40))
    in_the_tunnel(chromium, drive, shots)
    shows(chromium, drive.drive(105, 120))
    check("page: and in colour again", False, chromium.value("document.getElementById('fix').classList.contains('lost')"))
    drawn(chromium, drive)
    for width in 360, 1280:
        fits(chromium, width)
        for colours in "light", "dark":
            chromium.prefer(color_scheme=colours)
            check(f"page: {colours}", PAPER[colours], chromium.wait("getComputedStyle(document.body).backgroundColor", PAPER[colours]))
            chromium.screenshot(os.path.join(shots, f"view-{width}-{colours}.png"))
    chromium.prefer(reduced_motion="reduce")
    check("page: nothing moves if motion is not wanted", "none",
          chromium.value("getComputedStyle(document.getElementById('status'), '::before').animationName"))


def in_the_tunnel(chromium, drive, shots):
    """The fix is lost: the last position is kept in grey, the clock goes on, and what is not known is not shown."""
    lost = drive.drive(40, 105)
    wanted = {"lat": f"{drive.last['lat']:.7f}° N", "lon": f"{drive.last['lon']:.7f}° E", "msl": f"{drive.last['altMSL']:.1f} m", "speed": "–",
              "course": "–", "mode": "No fix", "clock": f"{lost['time'][11:19]} UTC", "status": "No fix. The last position is in grey."}
    chromium.wait(words("clock"), wanted["clock"])
    check("page: the fix is lost, the last position stays", (False, wanted), ("lat" in lost, {name: chromium.value(words(name)) for name in wanted}))
    colours = ("(() => { const of = (id, what) => getComputedStyle(typeof id === 'string' ? document.getElementById(id) : id)[what], "
               "grey = of(document.querySelector('dt'), 'color'); return [of('lat', 'color') === grey, of('lon', 'color') === grey, "
               "of('msl', 'color') === grey, of('clock', 'color') === grey, of(document.querySelector('.here'), 'fill') === grey]; })()")
    check("page: place, height and mark are grey, and the clock is not", [True, True, True, False, True], chromium.value(colours))
    chromium.screenshot(os.path.join(shots, "view-lost.png"))


def fits(chromium, width, height=800):
    chromium.size(width, height)
    check(f"page: nothing is wider than {width} pixels", True, chromium.wait(f"document.documentElement.scrollWidth <= {width} "
          "&& [...document.querySelectorAll('dd, dt, h2, button, .button, #status')].every(e => e.scrollWidth <= e.clientWidth + 1)", True))


def another_device(chromium, drive):
    """The other device is chosen, and then the first one again."""
    choose = "(name => {{ const list = document.getElementById('device'); list.value = name; list.dispatchEvent(new Event('change')); }})('{}')"
    chromium.value(choose.format(OTHER))
    waiting = f"Waiting for {OTHER}"
    check("page: another device is chosen", (waiting, "–"), (chromium.wait(words("status"), waiting), chromium.value(words("lat"))))
    fits(chromium, 360)
    shows(chromium, drive.drive(60, 65, OTHER))
    check("page: the choice is in its address", OTHER, chromium.value("new URLSearchParams(location.search).get('device')"))
    chromium.value(choose.format("gps0"))
    check("page: and the first one again", "10:16:58 UTC", chromium.wait(words("clock"), "10:16:58 UTC"))


def sideways(chromium, shots):
    """A phone held sideways shows the values and the whole track at once."""
    for width, height in (800, 360), (667, 375):
        fits(chromium, width, height)
        on_one_screen = ("['status', 'lat', 'lon', 'mode', 'age', 'speed', 'course', 'msl', 'clock', 'maps', 'trackplot'].filter(id => { "
                         f"const box = document.getElementById(id).getBoundingClientRect(); return box.top < 0 || box.bottom > {height}; }})")
        check(f"page: {width} by {height}: all of it on one screen", [], chromium.wait(on_one_screen, []))
        tall = "document.getElementById('trackplot').getBoundingClientRect().height >= 150"
        check(f"page: {width} by {height}: the track is not too small", True, chromium.wait(tall, True))
        chromium.screenshot(os.path.join(shots, f"view-{width}-sideways.png"), whole=False)
    chromium.size(360, 800)


def links(chromium, view, drive, folder):
    """A map is opened by a click alone, and the track is a file of this page's own server."""
    place = f"{drive.last['lat']:.6f},{drive.last['lon']:.6f}"
    north, east = place.split(",")
    osm = f"https://www.openstreetmap.org/?mlat={north}&mlon={east}#map=17/{north}/{east}"
    found = chromium.value("[document.getElementById('geo').href, document.getElementById('osm').href, document.getElementById('osm').rel]")
    check("page: links to a map", [f"geo:{place}", osm, "noopener noreferrer"], found)
    chromium.downloads(folder)
    chromium.value("document.getElementById('gpx').click()")
    path, end = os.path.join(folder, "gps0-2024-06-01.gpx"), time.monotonic() + WAIT
    while not os.path.exists(path) and time.monotonic() < end:
        time.sleep(0.05)
    points = []
    if os.path.exists(path):
        points = [(point.get("lat"), point.get("lon")) for point in xml.parse(path).getroot().iter("{http://www.topografix.com/GPX/1/1}trkpt")]
    check("page: the track is downloaded as GPX", (drive.positions, [f"{drive.last['lat']:.9f}", f"{drive.last['lon']:.9f}"]),
          (len(points), list(points[-1]) if points else None))


def by_keyboard(chromium):
    focus, pressed = "document.activeElement.id || document.activeElement.tagName", "document.getElementById('follow').ariaPressed"
    places = []
    for _ in range(6):
        chromium.press("Tab", 9)
        places.append(chromium.value(focus))
        if places[-1] == "follow":
            chromium.press(" ", 32)
    check("page: device, links, button and list by the keyboard", (["device", "geo", "osm", "gpx", "follow", "SUMMARY"], "true"), (places, chromium.value(pressed)))
    chromium.press("\r", 13)
    check("page: the list of satellites opens", 8, chromium.wait("document.querySelectorAll('#satellites tr').length", 8))


def gone_and_back(chromium, drive, shots):
    drive.kill()
    gone = f"The daemon at 127.0.0.1:{drive.port} is gone. Trying again."
    check("page: the daemon is gone", gone, chromium.wait(words("status"), gone))
    chromium.size(360, 800)
    chromium.screenshot(os.path.join(shots, "view-gone.png"))
    drive.start()
    back = "gps0 sends nothing."
    check("page: the daemon is there again", back, chromium.wait(words("status"), back))
    shows(chromium, drive.drive(120, 150))


def run(program, shots):
    """All of it; that of the browser if one is installed."""
    os.makedirs(shots, exist_ok=True)
    over_http()
    path = browser.installed()
    if path is None:
        print(f"skipped the page in a browser: none of {', '.join(browser.NAMES)} is installed")
        return
    in_browser(program, path, shots)
