#!/usr/bin/env python3
"""Shows receivers live on one page for a browser: the track, the sky, the fix, and whether the daemon is there.

    view.py [HOST:PORT] [--listen HOST:PORT]

It is a client of the daemon (127.0.0.1:2947 unless told otherwise), and serves the page view.html, which is beside it,
at http://127.0.0.1:8947/. The page asks this program alone, by HTTP and server-sent events; /track.gpx is the track as GPX.
Whoever can reach the address of --listen sees where the receiver is: there is no password. A daemon that is gone is tried
again, after a pause of at most 3 seconds. Ctrl-C ends it.
"""
import functools
import base64
import hashlib
import http.server
import ipaddress
import json
import os
import re
import signal
import socket
import socketserver
import sys
import threading
import time
import urllib.parse

sys.dont_write_bytecode = True  # nothing is left in the folder of the installed program

import command  # noqa: E402
import track_files  # noqa: E402
from command import address_of, address_words, say  # noqa: E402
from daemon_link import daemon_lines  # noqa: E402
from track_lines import segments  # noqa: E402
from view_board import Board  # noqa: E402

PAGE = os.path.join(os.path.dirname(os.path.realpath(__file__)), "view.html")
ICON = (b'<svg xmlns="http://www.w3.org/2000/svg" viewBox="0 0 16 16"><circle cx="8" cy="8" r="7" fill="#0b62c4"/>'
        b'<path d="M8 3l3.4 9L8 10.4 4.6 12z" fill="#fff"/></svg>')

MOST_BROWSERS = 32  # that are sent events
MOST_LINKS = 64
PULSE = 5.0  # seconds after which a browser is sent a line though nothing has changed
SMALLEST_GAP = 0.1  # seconds between two messages to one browser
HEADER = 5.0  # seconds for the header of a request
STUCK = 20.0  # seconds after which a browser that takes nothing is dropped


# The daemon

class DaemonLink(threading.Thread):
    """The client of the daemon: it hands each line to the board, from one link after another, until the board closes."""

    def __init__(self, address, board):
        super().__init__(daemon=True)
        self.address, self.board = address, board

    def run(self):
        def absent(why):
            say(f"no daemon at {address_words(*self.address)}: {why}; trying again")

        for line in daemon_lines(self.address, self.board.tell, lambda: self.board.closing, absent):
            self.board.take(line)


# The browsers

HEADER_STAGE, ANSWER_STAGE, EVENTS_STAGE = range(3)


class Page:
    """The page and the policy that goes with it: its own style and script by their hashes, this server, and nothing else."""

    def __init__(self, path):
        with open(path, "rb") as source:
            self.body = source.read()
        self.policy = ("default-src 'none'; connect-src 'self'; img-src 'self'; base-uri 'none'; form-action 'none'; frame-ancestors 'none'; "
                       f"script-src {self.hashes(b'script')}; style-src {self.hashes(b'style')}")

    def hashes(self, tag):
        found = re.findall(rb"<%s>(.*?)</%s>" % (tag, tag), self.body, re.S)
        return " ".join(f"'sha256-{base64.b64encode(hashlib.sha256(text).digest()).decode()}'" for text in found)


class Server(http.server.ThreadingHTTPServer):
    """The server of the page: a thread for each link, and no more links than there is room for. Of each link it knows since when it is in
    its stage: in HEADER_STAGE a request has not come whole yet, in ANSWER_STAGE it is answered, in EVENTS_STAGE it is sent events."""
    daemon_threads = True
    request_queue_size = 128

    def __init__(self, address, page, board):
        self.address_family = socket.getaddrinfo(*address, type=socket.SOCK_STREAM)[0][0]
        self.page, self.board = page, board
        self.room = threading.BoundedSemaphore(MOST_BROWSERS)
        self.links, self.lock = {}, threading.Lock()
        self.names = {"localhost", address[0].lower(), socket.gethostname().lower(), socket.gethostname().lower() + ".local"}
        super().__init__(address, Browser)

    def server_bind(self):
        """As that of TCPServer: that of HTTPServer asks the network for this machine's name."""
        socketserver.TCPServer.server_bind(self)
        self.server_name, self.server_port = self.server_address[:2]

    def process_request(self, request, client_address):
        if not self.take(request):
            self.shutdown_request(request)
            return
        try:
            super().process_request(request, client_address)
        except BaseException:
            self.forget(request)
            raise

    def process_request_thread(self, request, client_address):
        try:
            super().process_request_thread(request, client_address)
        finally:
            self.forget(request)

    def take(self, request):
        """Whether there is room for a new link. If all places are taken, the oldest link that has sent no whole header makes room; if there
        is none, the oldest that is answered. A link with events stays."""
        with self.lock:
            if len(self.links) >= MOST_LINKS:
                waiting = [link for link, (stage, _) in self.links.items() if stage != EVENTS_STAGE]
                if not waiting:
                    return False
                self.drop(min(waiting, key=self.links.get))
            self.links[request] = (HEADER_STAGE, time.monotonic())
            return True

    def enter(self, request, stage):
        """A link begins a stage. One that was dropped does not."""
        with self.lock:
            if request in self.links:
                self.links[request] = (stage, time.monotonic())

    def forget(self, request):
        with self.lock:
            self.links.pop(request, None)

    def drop(self, request):
        """Ends a link, whose thread then sees its end. The lock is held."""
        del self.links[request]
        try:
            request.shutdown(socket.SHUT_RDWR)
        except OSError:
            pass  # it has ended already

    def service_actions(self):
        """What serve_forever does between two looks for new links: a header that takes too long ends its link."""
        with self.lock:
            late = time.monotonic() - HEADER
            for request in [link for link, (stage, since) in self.links.items() if stage == HEADER_STAGE and since < late]:
                self.drop(request)

    def handle_error(self, request, client_address):
        """A browser that goes in the middle of an answer is nothing to tell."""


class Browser(http.server.BaseHTTPRequestHandler):
    """One link of a browser, with its requests: the page, its icon, the events, or the track as GPX."""
    protocol_version = "HTTP/1.1"
    server_version, sys_version = "view", ""
    timeout = STUCK
    disable_nagle_algorithm = True

    def handle_one_request(self):
        self.server.enter(self.connection, HEADER_STAGE)
        super().handle_one_request()

    def parse_request(self):
        whole = super().parse_request()
        self.server.enter(self.connection, ANSWER_STAGE)
        return whole

    def do_GET(self):
        path, _, query = self.path.partition("?")
        wanted = urllib.parse.parse_qs(query).get("device", [None])[0]
        if not self.is_for_us():
            self.answer(421, "text/plain", b"This server does not go by that name.\n")
        elif path == "/":
            self.answer(200, "text/html; charset=utf-8", self.server.page.body)
        elif path == "/icon.svg":
            self.answer(200, "image/svg+xml", ICON)
        elif path == "/events":
            self.answer_events(wanted)
        elif path == "/track.gpx":
            self.answer_track(wanted)
        else:
            self.answer(404, "text/plain", b"There is one page here: /\n")

    do_HEAD = do_GET

    def is_for_us(self):
        """Whether the Host is an address or a name of this machine: a foreign name that leads here is someone else's page."""
        host = re.sub(r":\d*$", "", self.headers.get("Host", "")).lower()
        try:
            ipaddress.ip_address(host.removeprefix("[").removesuffix("]"))
            return True
        except ValueError:
            return host in self.server.names

    def answer_track(self, name):
        """The points of a device that are kept, as GPX for a file."""
        points = self.server.board.track(name)
        if points is None:
            self.answer(404, "text/plain", b"There is no such device.\n")
            return
        runs = segments(points)
        title = track_files.name_of(name, runs)
        file = re.sub(r"[^A-Za-z0-9-]+", "-", title).strip("-") or "track"
        self.answer(200, "application/gpx+xml", track_files.gpx(title, name, runs).encode(), f'attachment; filename="{file}.gpx"')

    def answer(self, status, kind, body, disposition=None):
        self.send_response(status)
        self.send_common(kind)
        if disposition:
            self.send_header("Content-Disposition", disposition)
        self.send_header("Content-Length", str(len(body)))
        self.end_headers()
        if self.command != "HEAD":
            self.wfile.write(body)

    def send_common(self, kind):
        for name, value in (("Content-Type", kind), ("Content-Security-Policy", self.server.page.policy), ("Cache-Control", "no-store"),
                            ("X-Content-Type-Options", "nosniff"), ("Referrer-Policy", "no-referrer"),
                            ("Cross-Origin-Resource-Policy", "same-origin")):
            self.send_header(name, value)

    def answer_events(self, wanted):
        if self.command == "HEAD" or not self.server.room.acquire(blocking=False):
            self.answer(503, "text/plain", b"Too many browsers.\n")
            return
        try:
            self.server.enter(self.connection, EVENTS_STAGE)
            self.close_connection = True
            self.send_response(200)
            self.send_common("text/event-stream")
            self.send_header("Connection", "close")
            self.end_headers()
            self.wfile.write(b"retry: 1000\n\n")
            self.send_states(wanted)
        except OSError:
            pass  # the browser has gone
        finally:
            self.server.room.release()

    def send_states(self, wanted):
        """Sends the state now, and then whenever it has changed, with the points that this browser does not have yet."""
        board, version, seen, whose = self.server.board, -1, 0, None
        while True:
            with board.changed:
                board.changed.wait_for(lambda: board.version != version, PULSE)
                if board.closing:
                    return
                version = board.version
                told, seen, whose = board.state(wanted, seen, whose)
            self.wfile.write(b"data: " + json.dumps(told, separators=(",", ":")).encode() + b"\n\n")
            time.sleep(SMALLEST_GAP)

    def log_message(self, *_):
        """Requests are not told."""


# The program

def command_line():
    parser = command.Parser(__doc__.split("\n", 1)[0])
    parser.add_argument("daemon", nargs="?", type=address_of, default="127.0.0.1:2947", metavar="HOST:PORT", help="the daemon (127.0.0.1:2947)")
    parser.add_argument("--listen", type=functools.partial(address_of, lowest=0), default="127.0.0.1:8947", metavar="HOST:PORT", help="where the page is (127.0.0.1:8947)")
    return parser.parse_args()


def main():
    words = command_line()
    board = Board(address_words(*words.daemon))
    try:
        server = Server(words.listen, Page(PAGE), board)
    except OSError as fault:
        say(f"{fault.filename or 'cannot serve at ' + address_words(*words.listen)}: {fault.strerror}")
        return 1
    ended = threading.Event()
    for number in signal.SIGINT, signal.SIGTERM:
        signal.signal(number, lambda *_: ended.set())
    DaemonLink(words.daemon, board).start()
    threading.Thread(target=server.serve_forever, kwargs={"poll_interval": 0.1}, daemon=True).start()
    host, port = server.server_address[:2]
    warning = "" if ipaddress.ip_address(host).is_loopback else "; whoever reaches it sees where the receiver is"
    say(f"http://{address_words(host, port)}/ shows the daemon at {board.daemon}{warning}")
    ended.wait()
    board.close()
    server.shutdown()
    server.server_close()
    return 0


if __name__ == "__main__":
    sys.exit(command.run(main))
