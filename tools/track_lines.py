"""What track.py and export.py read: the JSON lines of `gpsrelay decode` or of a session with the daemon, as fixes and skies of each
device; and the rule where a track has a gap."""
import json
import re
import shlex
from datetime import datetime, timezone

LONGEST_LINE = 1_048_576  # bytes; no line of the daemon is longer
TIME_FORM = re.compile(r"(19[7-9]|2\d\d)\d-\d\d-\d\dT\d\d:\d\d:\d\d(\.\d{1,9})?Z", re.ASCII)
SENTENCE = re.compile(rb"[$!][A-Z0-9]{3,12},[^*]*\*[0-9A-Fa-f]{2}\s*\Z")
FRAME = b"\xb5\x62"
RAW_LINES = 100  # after this number of lines without a report the source is not read on
GAP = 10.0  # seconds


class BadLine(ValueError):
    """A line that says nothing that can be drawn or passed over."""


class Undecoded(ValueError):
    """The source holds what a receiver sends, or no report at all."""


class Fix:
    """One TPV line. `clock` is its time as it is written there, `time` the same in seconds since 1970; `lat` and `lon` are degrees,
    `msl` and `hae` metres above the sea and above the ellipsoid, `geoid` metres from the ellipsoid up to the sea, `track` degrees from
    north, `speed` and `climb` metres a second. What the line leaves out is None."""
    __slots__ = ("clock", "time", "mode", "lat", "lon", "msl", "hae", "geoid", "track", "speed", "climb")

    def __init__(self, report):
        self.clock = report.get("time")
        self.time = seconds_of(self.clock)
        self.mode = number(report, "mode", 0, 3)
        self.lat = number(report, "lat", -90, 90)
        self.lon = number(report, "lon", -180, 180)
        self.msl = number(report, "altMSL")
        self.hae = number(report, "altHAE")
        self.geoid = number(report, "geoidSep")
        self.track = number(report, "track", 0, 360)
        self.speed = number(report, "speed", 0)
        self.climb = number(report, "climb")
        if self.mode is None or (self.lat is None) != (self.lon is None):
            raise BadLine("a TPV without a mode, or with half a position")
        if self.mode < 2:
            self.lat = self.lon = None

    @property
    def has_place(self):
        return self.lat is not None

    @property
    def above_ellipsoid(self):
        """The height above the ellipsoid, also if only that above the sea and the geoid are told."""
        if self.hae is None and None not in (self.msl, self.geoid):
            return round(self.msl + self.geoid, 3)
        return self.hae


class Satellite:
    """One satellite of a sky. `system` is its gnssid or None, `elevation` and `azimuth` are in degrees or None."""
    __slots__ = ("prn", "system", "elevation", "azimuth", "used")

    def __init__(self, report):
        if not isinstance(report, dict) or type(report.get("used")) is not bool:
            raise BadLine("a satellite that does not say whether it is used")
        self.prn = number(report, "PRN", 0, 99_999)
        self.system = number(report, "gnssid", 0, 255)
        self.elevation = number(report, "el", -90, 90)
        self.azimuth = number(report, "az", 0, 360)
        self.used = report["used"]
        if self.prn is None:
            raise BadLine("a satellite without a PRN")

    @property
    def has_place(self):
        return self.elevation is not None and self.azimuth is not None


class Sky:
    """One SKY line. A satellite that is seen with several signals is one here, used if one of them is."""

    def __init__(self, report):
        self.hdop = number(report, "hdop", 0)
        self.pdop = number(report, "pdop", 0)
        listed = report.get("satellites", [])
        if not isinstance(listed, list):
            raise BadLine("a SKY whose satellites are no list")
        found = {}
        for satellite in map(Satellite, listed):
            first = found.setdefault((satellite.system, satellite.prn), satellite)
            first.used = first.used or satellite.used
            if not first.has_place:
                first.elevation, first.azimuth = satellite.elevation, satellite.azimuth
        self.satellites = list(found.values())


class Run:
    """What lines say of each device, in their order: its fixes, and its last sky with satellites."""

    def __init__(self):
        self.fixes = {}
        self.skies = {}
        self.reports = self.bad = self.lines = self.raw = 0
        self.first_bad = None

    def take(self, line):
        """Takes one line of bytes. An empty one counts for nothing."""
        self.lines += 1
        try:
            if line.strip():
                self.take_report(report_of(line))
                self.reports += 1
        except BadLine:
            self.bad += 1
            self.raw += is_raw(line)
            self.first_bad = self.first_bad or self.lines

    def take_report(self, report):
        if report["class"] not in ("TPV", "SKY"):
            return
        device = report.get("device", "")
        if not isinstance(device, str):
            raise BadLine("a device whose name is no text")
        if report["class"] == "TPV":
            fix = Fix(report)
            self.fixes.setdefault(device, []).append(fix)
        else:
            sky = Sky(report)
            if sky.satellites or device not in self.skies:
                self.skies[device] = sky

    def cut(self):
        """What follows does not follow what was: a fix of mode 0, of which nothing is known, is between."""
        for fixes in self.fixes.values():
            fixes.append(Fix({"mode": 0}))

    def devices(self):
        """The names of the devices: those with fixes first, each kind in the order of the lines."""
        return list(dict.fromkeys([*self.fixes, *self.skies]))

    def chosen(self, wanted):
        """The device that is wanted, or the first one; None if the one that is wanted is in no line."""
        devices = self.devices()
        if wanted is None:
            return devices[0] if devices else ""
        return wanted if wanted in devices or not devices else None


def is_raw(line):
    """Whether a line is, or has, what a receiver sends."""
    return FRAME in line or SENTENCE.match(line) is not None


def number(report, name, low=-1e9, high=1e9):
    """The number that a member has, or None if it is absent. Anything else makes the line a bad one."""
    value = report.get(name)
    if value is None:
        return None
    if type(value) not in (int, float) or not low <= value <= high:
        raise BadLine(f"{name} is no number in its range")
    return value


def seconds_of(text):
    """The seconds since 1970 of a time as `2024-06-01T10:15:13.000Z`, or None if there is none."""
    if text is None:
        return None
    if not isinstance(text, str) or not TIME_FORM.fullmatch(text):
        raise BadLine("a time of another form")
    try:
        whole = datetime.fromisoformat(text[:19]).replace(tzinfo=timezone.utc).timestamp()
    except ValueError as fault:
        raise BadLine("a time that is none") from fault
    return whole + float("0" + text[19:-1])


def report_of(line):
    """The JSON object of a line of bytes, which has a class."""
    try:
        report = json.loads(line)
    except (ValueError, RecursionError) as fault:
        raise BadLine("no JSON") from fault
    if not isinstance(report, dict) or not isinstance(report.get("class"), str):
        raise BadLine("no object with a class")
    return report


def lines_of(source):
    """The lines of a source of bytes. One that is too long comes in pieces, which are bad lines."""
    while line := source.readline(LONGEST_LINE):
        yield line


def read_lines(run, lines, name, then):
    """Takes lines to their end or to Ctrl-C. `name` is the file's, or None of standard input; `then` is the command that reads the
    decoded lines. Undecoded if there is no report in them, but bad lines."""
    before = run.reports
    bad, raw = run.bad, run.raw
    try:
        for line in lines:
            run.take(line)
            if run.reports == before and run.raw - raw >= RAW_LINES:
                break
    except KeyboardInterrupt:
        pass
    if run.reports > before or run.bad == bad:
        return
    place = "standard input" if name is None else name
    if run.raw > raw:
        file = "FILE" if name is None else shlex.quote(name)
        raise Undecoded(f"{place} holds what a receiver sends; decode it first: gpsrelay decode < {file} | {then}")
    raise Undecoded(f"{place} has no line of `gpsrelay decode` or of a daemon (bad lines: {run.bad - bad})")


def segments(fixes, gap=GAP):
    """The fixes with a position, in runs. A new run begins after a fix without one, or None; if more than `gap` seconds have passed
    since the last position; and if time goes back."""
    runs, last = [], None
    for fix in fixes:
        if fix is None or not fix.has_place:
            last = None
            continue
        timed = last is not None and None not in (last.time, fix.time)
        if last is None or (timed and not 0 <= fix.time - last.time <= gap):
            runs.append([])
        runs[-1].append(fix)
        last = fix
    return runs
