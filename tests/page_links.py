"""The links of tools/view.py, for pictures.py: the track as GPX, slow connections that keep nobody out, and a daemon that restarts, which
tools/track.py follows too."""
import json
import os
import signal
import socket
import subprocess
import sys
import tempfile
import threading
import time
import xml.etree.ElementTree as xml

from harness import WAIT, Daemon, FifoDevice, check, free_port, run_parts, second, slowness, until, within
from live_page import Events, PlayedDaemon, View, tpv

TRACK = os.path.join(os.path.dirname(os.path.dirname(os.path.abspath(__file__))), "tools", "track.py")
POINT = "{http://www.topografix.com/GPX/1/1}trkpt"
SEGMENT, TIME = POINT.replace("trkpt", "trkseg"), POINT.replace("trkpt", "time")
LINKS = 64  # that view.py has room for
PATIENT = ["-c", "import sys; sys.path[0] = sys.argv.pop(1); import view; view.HEADER = 1_000.0; sys.exit(view.main())", os.path.dirname(TRACK)]


def points_of(document):
    """The segments of a GPX, each a list of (latitude, longitude, time)."""
    return [[(point.get("lat"), point.get("lon"), point.findtext(TIME)) for point in segment.iter(POINT)]
            for segment in xml.fromstring(document).iter(SEGMENT)]


def track_as_gpx():
    """The points of a device, their times, a gap where the fix was lost, and one where the lines were silent."""
    daemon = PlayedDaemon()
    view = View(daemon.port)
    try:
        daemon.take()
        name = "a/b<&\\\"c"
        lost = b'{"class":"TPV","device":"gps0","mode":1,"time":"2024-06-01T10:00:05.000Z"}'
        daemon.send(tpv(0, name), *[tpv(at) for at in range(5)], lost, *[tpv(at) for at in (6, 7, 17, 28)])
        events = Events(view, "gps0")
        events.until(lambda told: told.get("fix") and told["fix"].get("time", "")[11:19] == "10:00:28")
        events.close()
        wanted = [[(f"{48 + at * 1e-5:.9f}", "11.500000000", f"2024-06-01T10:00:{at:02d}.000Z") for at in run]
                  for run in ([0, 1, 2, 3, 4], [6, 7, 17], [28])]
        status, headers, body = view.answer("/track.gpx?device=gps0")
        check("view: the track as GPX", (200, wanted), (status, points_of(body)))
        check("view: as a file of its own name", ("application/gpx+xml", 'attachment; filename="gps0-2024-06-01.gpx"'),
              (headers["Content-Type"], headers["Content-Disposition"]))
        status, headers, body = view.answer("/track.gpx?device=a/b%3C%26%22c")
        check("view: a device of any name", (200, 'attachment; filename="a-b-c-2024-06-01.gpx"', 1),
              (status, headers["Content-Disposition"], len(points_of(body)[0])))
        daemon.send(lost)
        events = Events(view, "gps0")
        state = events.until(lambda told: told["fix"]["mode"] == 1)
        events.close()
        check("view: a browser that comes after the fix was lost has the last position", (False, json.loads(tpv(28))["lat"], "2024-06-01T10:00:28.000Z"),
              ("lat" in state["fix"], state["last"]["lat"], state["last"]["time"]))
        check("view: a device that is not there, and none", (404, 404), (view.answer("/track.gpx?device=gps7")[0], view.answer("/track.gpx")[0]))
    finally:
        view.process.kill()
        view.process.wait()


def status_of(view):
    """The status of the page, or what went wrong."""
    try:
        return view.answer()[0]
    except (OSError, IndexError) as fault:
        return repr(fault)


def has_ended(link):
    """Whether the other side has closed a link on which nothing is sent to us."""
    link.setblocking(False)
    try:
        return not link.recv(1)
    except BlockingIOError:
        return False
    except OSError:
        return True


class Slow:
    """Connections that send a header byte by byte, and never to its end."""

    def __init__(self, port, count):
        self.links = [socket.create_connection(("127.0.0.1", port), timeout=10) for _ in range(count)]
        self.over = threading.Event()
        self.thread = threading.Thread(target=self.dribble, daemon=True)
        self.thread.start()

    def dribble(self):
        for byte in b"GET / HTTP/1.1\r\nX-Slow: " + b"x" * 1_000:
            for link in self.links:
                try:
                    link.sendall(bytes([byte]))
                except OSError:
                    pass  # it was dropped
            if self.over.wait(0.5):
                return

    def ended(self):
        """The numbers of those that were dropped so far."""
        return [number for number, link in enumerate(self.links) if has_ended(link)]

    def close(self):
        self.over.set()
        self.thread.join()
        for link in self.links:
            link.close()


def slow_headers():
    """As many slow connections as there are places keep nobody out, though a header may take longer than anyone here waits; a browser with events
    stays."""
    daemon = PlayedDaemon()
    view = View(daemon.port, PATIENT)
    try:
        daemon.take()
        daemon.send(tpv(1))
        events = Events(view, "gps0")
        events.until(lambda told: told.get("fix"))
        slow = Slow(view.port, LINKS)
        check("view: 64 slow connections keep nobody out", [200] * 10, [status_of(view) for _ in range(10)])
        dropped = slow.ended()
        check("view: the oldest make room, and no more than are needed", list(range(min(max(len(dropped), 1), 12))), dropped)
        daemon.send(tpv(2))
        state = events.until(lambda told: told["fix"]["time"][17:19] == "02")
        check("view: a browser with events stays", "02", state["fix"]["time"][17:19])
        slow.close(), events.close()
    finally:
        view.process.kill()
        view.process.wait()


def late_headers():
    """A header has 5 seconds, and so has the next request of a link that is kept after its answer."""
    daemon = PlayedDaemon()
    view = View(daemon.port)
    try:
        begun = time.monotonic()
        slow = Slow(view.port, 3)
        kept = socket.create_connection(("127.0.0.1", view.port), timeout=WAIT)
        kept.sendall(b"GET /icon.svg HTTP/1.1\r\nHost: 127.0.0.1\r\n\r\n")
        answer = b""
        while b"</svg>" not in answer and (data := kept.recv(65_536)):
            answer += data
        check("view: a link is kept after its answer", True, answer.endswith(b"</svg>"))
        all_gone = until(lambda: len(slow.ended()) == len(slow.links))
        seconds = time.monotonic() - begun
        check("view: each slow header is ended", True, all_gone or slow.ended())
        within(f"view: after 5 seconds ({seconds:.1f} s)", 4.5 < seconds < 12 * slowness(), seconds)
        check("view: a link that is kept after its answer has 5 seconds for the next request", b"", kept.recv(65_536))
        slow.close(), kept.close()
    finally:
        view.process.kill()
        view.process.wait()


def gpx_is_there(view, count):
    return sum(map(len, points_of(view.answer("/track.gpx?device=gps0")[2]))) >= count


def restarts(program):
    """A daemon that is killed and started again at its port: the page and the picture come back by themselves, and the track has a gap."""
    port, fifo = free_port(), FifoDevice("gps0")
    with tempfile.TemporaryDirectory() as folder:
        picture, gpx = os.path.join(folder, "drive.svg"), os.path.join(folder, "drive.gpx")
        # Both begin before the daemon is there.
        view = View(port)
        said = open(os.path.join(folder, "said"), "w+b")
        track = subprocess.Popen([sys.executable, TRACK, "--daemon", f"127.0.0.1:{port}", "-o", picture, "--gpx", gpx], stderr=said)
        events = Events(view, "gps0")
        first = events.state()
        check("view: before the daemon is there", False, first["connected"])
        try:
            wanted = []
            for turn, begin in enumerate((0, 5)):
                daemon = Daemon(program, fifo.word, port=port).listening()
                there, gone = (f"track.py: the daemon at 127.0.0.1:{port} is {how}\n".encode() for how in ("there", "gone; trying again"))
                check(f"view: the daemon is there ({turn})", True, events.until(lambda told: told["connected"])["connected"])
                check(f"track: the daemon is there ({turn})", True, until(lambda: read(said).count(there) == turn + 1) or read(said))
                fifo.send(b"".join(second(at) for at in range(begin, begin + 4)))
                wanted.append([f"2024-06-01T12:00:{at:02d}.000Z" for at in range(begin, begin + 3)])
                check(f"view: its fixes come ({turn})", True, until(lambda: gpx_is_there(view, 3 * turn + 3)))
                check(f"the daemon has sent all ({turn})", True, until(daemon.at_rest))
                daemon.stop()
                check(f"view: the daemon is gone ({turn})", False, events.until(lambda told: not told["connected"])["connected"])
                check(f"track: it says that the daemon is gone ({turn})", True, until(lambda: read(said).count(gone) == turn + 1) or read(said))
            times = [[time_of for _, _, time_of in run] for run in points_of(view.answer("/track.gpx?device=gps0")[2])]
            check("view: both parts of the track, with a gap between", wanted, times)
            track.send_signal(signal.SIGINT)
            check("track: Ctrl-C ends it", 0, track.wait(WAIT))
            with open(gpx, encoding="utf-8") as it:
                times = [[time_of for _, _, time_of in run] for run in points_of(it.read())]
            check("track: both parts of the track, with a gap between", wanted, times)
            with open(picture, encoding="utf-8") as it:
                check("track: the picture has both", True, "6 fixes" in it.read())
        finally:
            events.close()
            for process in view.process, track:
                process.kill()
                process.wait()
            said.close()
            fifo.close()


def default_address():
    """track.py --daemon without an address, which is then ended: whether a daemon is there or not."""
    with tempfile.TemporaryDirectory() as folder:
        picture = os.path.join(folder, "drive.svg")
        track = subprocess.Popen([sys.executable, TRACK, "--daemon", "-o", picture], stderr=subprocess.PIPE)
        check("track: the address of a daemon by default", b"track.py: following the daemon at 127.0.0.1:2947; Ctrl-C ends it\n", track.stderr.readline())
        track.send_signal(signal.SIGTERM)
        check("track: SIGTERM ends it with a picture", (0, True), (track.wait(WAIT), os.path.exists(picture)))
        track.stderr.close()


def read(file):
    return os.pread(file.fileno(), 1 << 20, 0)


def run(program):
    """The parts, which mostly wait, side by side."""
    def restart():
        restarts(program)

    threads = [threading.Thread(target=run_parts, args=(part,)) for part in (track_as_gpx, slow_headers, late_headers, restart, default_address)]
    for thread in threads:
        thread.start()
    for thread in threads:
        thread.join()
