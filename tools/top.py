#!/usr/bin/env python3
"""Shows a receiver live in a terminal: its fix, its sky, the devices, and how old the fix is.

    top.py [HOST:PORT]

It is a client of the daemon (127.0.0.1:2947 unless told otherwise), and needs a terminal, best of 80 by 24 or more. A daemon that is
gone is tried again, after a pause of at most 3 seconds. The key n shows the next device; q, Ctrl-C and SIGTERM end it.
"""
import contextlib
import os
import select
import signal
import sys
import threading

try:
    import curses
except ImportError:  # a Python that was built without it
    curses = None

sys.dont_write_bytecode = True  # nothing is left in the folder of the installed program

import command  # noqa: E402
from command import address_of, address_words, say  # noqa: E402
from daemon_link import daemon_lines  # noqa: E402
from track_marks import SYSTEMS  # noqa: E402
from view_board import Board  # noqa: E402

NAMES = {system: row[0] for system, row in SYSTEMS.items() if system is not None}
MODES = {2: "2D", 3: "3D"}
LOOK = 0.25  # seconds between two looks at what has come
LEFT = 40  # columns of the fix; the sky is beside it
TOP = 3  # rows above them
STRONGEST = 55  # dBHz of a full bar
BAR = 12  # its columns
SIGNALS = signal.SIGTERM, signal.SIGHUP, signal.SIGINT


class Ended(Exception):
    """A signal, or a terminal that is gone."""


class Link(threading.Thread):
    """The client of the daemon, which hands each line to the board. `fault` is why there is none, until there was one."""

    def __init__(self, address, board):
        super().__init__(daemon=True)
        self.address, self.board, self.fault = address, board, None

    def run(self):
        for line in daemon_lines(self.address, self.board.tell, fails=self.absent):
            self.board.take(line)

    def absent(self, why):
        self.fault = why


# What is shown, as rows of text

def shown(value, unit, form="{:g}"):
    """A number with its unit, or a dash."""
    return "-" if value is None else f"{form.format(value)} {unit}".rstrip()


def degrees(value, names):
    """A latitude or longitude with its side."""
    return "-" if value is None else f"{abs(value):.7f} {names[value < 0]}"


def age_of(seconds):
    """How old the last position is."""
    if seconds is None:
        return "no position yet"
    if seconds >= 3600:
        return f"{seconds // 3600:.0f} h {seconds % 3600 // 60:.0f} min"
    return f"{seconds // 60:.0f} min {seconds % 60:.0f} s" if seconds >= 60 else f"{seconds:.1f} s"


def fix_rows(told):
    """The fix. If it is lost, the place is that of the last one."""
    fix = told.get("fix") or {}
    is_lost = "lat" not in fix
    place = (told.get("last") or {}) if is_lost else fix
    mode = MODES.get(fix.get("mode"), "no fix") if fix else "nothing came yet"
    speed = fix.get("speed")
    rows = [("Fix", mode + (", the last place:" if is_lost and place else "")), ("Age", age_of(told.get("age"))), ("Time", fix.get("time") or "-"),
            ("Latitude", degrees(place.get("lat"), "NS")), ("Longitude", degrees(place.get("lon"), "EW")),
            ("Height", shown(place.get("altMSL"), "m above the sea", "{:.1f}")), ("", shown(place.get("altHAE"), "m, ellipsoid", "{:.1f}")),
            ("Speed", "-" if speed is None else f"{speed:.2f} m/s, {speed * 3.6:.1f} km/h"), ("Track", shown(fix.get("track"), "degrees", "{:.1f}")),
            ("Climb", shown(fix.get("climb"), "m/s", "{:.2f}")), ("HDOP", shown((told.get("sky") or {}).get("hdop"), ""))]
    return [f"{name:10}{value}" for name, value in rows]


def sky_rows(told, room):
    """The satellites in `room` rows at most: those that the fix uses first, the strongest first."""
    listed = sorted((told.get("sky") or {}).get("satellites", []), key=lambda it: (not it["used"], -it["ss"], it["PRN"]))
    rows = [f"Sky: {sum(it['used'] for it in listed)} of {len(listed)} satellites used", "PRN System  el  az dBHz"]
    rows += map(satellite_row, listed)
    if len(rows) > room:
        rows[room - 1:] = [f"and {len(rows) - room + 1} more"]
    return rows[:max(room, 0)]


def satellite_row(it):
    place = [f"{it[name]:.0f}" if name in it else "-" for name in ("el", "az")]
    bar = ("#" if it["used"] else ".") * round(min(it["ss"] / STRONGEST, 1) * BAR)
    return f"{it['PRN']:3.0f} {NAMES.get(it.get('gnssid'), '-'):7}{place[0]:>3}{place[1]:>4}{it['ss'] or '-':>5} {bar}"


def state_words(told, fault):
    """Whether the daemon is there. `fault` is why it never was."""
    if told["badLines"] and not told["devices"]:
        return "what answers there is no daemon"
    if told["connected"]:
        return "connected"
    return "the daemon is gone; trying again" if told["devices"] else f"{fault}; trying again" if fault else "trying"


def screen_rows(told, fault, width, height):
    """All rows of a screen of this size, from the top."""
    names = [("*" if one["name"] == told["device"] else "") + one["name"] + ("" if one["active"] else " (not active)") for one in told["devices"]]
    head = [f"{command.PROGRAM}  {told['daemon']}: {state_words(told, fault)}", f"Devices: {'  '.join(names) or '-'}", ""]
    room = height - TOP - 1
    left, right = fix_rows(told)[:max(room, 0)], sky_rows(told, room)
    if width < LEFT + 20:
        right = []
    count = max(len(left), len(right))
    body = [f"{(left + [''] * count)[at][:LEFT - 1]:{LEFT}}{(right + [''] * count)[at]}".rstrip() for at in range(count)]
    keys = "q ends" + ("   n shows the next device" if len(names) > 1 else "")
    rows = [*head, *body, *[""] * (height - len(head) - len(body) - 1), keys]
    return ["".join(c if " " <= c <= "~" else "?" for c in row)[:width - 1] for row in rows[:height]]


# The terminal

class Screen:
    """The terminal, and which device it shows."""

    def __init__(self, window, board, link):
        self.window, self.board, self.link = window, board, link
        self.wanted, self.seen, self.whose = None, 0, None
        window.nodelay(True)
        try:
            curses.curs_set(0)
        except curses.error:
            pass  # this terminal cannot hide it

    def draw(self):
        with self.board.changed:
            told, self.seen, self.whose = self.board.state(self.wanted, self.seen, self.whose)
        height, width = self.window.getmaxyx()
        self.window.erase()
        for at, row in enumerate(screen_rows(told, self.link.fault, width, height)):
            try:
                self.window.addstr(at, 0, row, curses.A_BOLD if at == 0 else curses.A_NORMAL)
            except curses.error:
                pass  # the terminal has become smaller meanwhile
        self.window.refresh()
        return told

    def run(self):
        """Draws and takes keys, until one ends it."""
        keys = select.poll()
        keys.register(0, select.POLLIN)
        while True:
            told = self.draw()
            if any(events & ~select.POLLIN for _, events in keys.poll(LOOK * 1000)):
                raise Ended  # the terminal is gone
            key = self.window.getch()  # it looks at the size of the terminal too
            if key in (ord("q"), ord("Q")):
                return
            if key in (ord("n"), ord("N"), ord("\t")) and told["devices"]:
                names = [one["name"] for one in told["devices"]]
                self.wanted = names[(names.index(told["device"]) + 1) % len(names)]
            if key in (curses.KEY_RESIZE, 12):
                self.window.clear()


def draw(board, link):
    """Takes the terminal for as long as it draws, and leaves it as it was. Of a terminal that is gone that fails, and nobody sees it."""
    window = curses.initscr()
    try:
        curses.noecho()
        curses.cbreak()
        window.keypad(True)
        Screen(window, board, link).run()
    finally:
        with contextlib.suppress(curses.error):
            curses.endwin()


def end(*_):
    for number in SIGNALS:
        signal.signal(number, signal.SIG_IGN)  # one more must not keep the terminal from being as it was
    raise Ended


def main():
    parser = command.Parser(__doc__.split("\n", 1)[0])
    parser.add_argument("daemon", nargs="?", type=address_of, default="127.0.0.1:2947", metavar="HOST:PORT", help="the daemon (127.0.0.1:2947)")
    words = parser.parse_args()
    if not (os.isatty(0) and os.isatty(1)):
        say("it needs a terminal; gpsrelay-view shows the same in a browser")
        return 1
    if curses is None:
        say("this Python has no module curses")
        return 1
    board = Board(address_words(*words.daemon))
    link = Link(words.daemon, board)
    try:
        for number in SIGNALS:
            signal.signal(number, end)
        curses.setupterm()
        if curses.tigetstr("cup") is None:
            raise curses.error("no way to place the cursor")
        link.start()
        draw(board, link)
    except Ended:
        pass
    except curses.error as fault:
        say(f"it cannot draw in a terminal of the kind {os.environ.get('TERM') or 'nothing'}: {fault}; set TERM, as TERM=vt100")
        return 1
    return 0


if __name__ == "__main__":
    sys.exit(command.run(main))
