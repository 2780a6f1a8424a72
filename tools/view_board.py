"""What view.py knows of the daemon and its devices, and what it tells a browser of them."""
import json
import threading
import time
from collections import deque
from itertools import islice

from track_lines import BadLine, Fix, seconds_of

TRACK_POINTS = 3_600  # for each device: an hour of one fix a second
MOST_DEVICES = 16


def is_number(value, low=-1e9, high=1e9):
    return type(value) in (int, float) and low <= value <= high


TPV_RANGES = {"lat": (-90, 90), "lon": (-180, 180), "altMSL": (-1e6, 1e9), "altHAE": (-1e6, 1e9), "geoidSep": (-1e4, 1e4),
              "speed": (0, 1e6), "track": (0, 360), "climb": (-1e6, 1e6)}
SATELLITE_RANGES = {"PRN": (0, 99_999), "el": (-90, 90), "az": (0, 360), "ss": (0, 99), "gnssid": (0, 255)}


def numbers_of(report, ranges):
    """The members that are numbers within their ranges. Any other is left out."""
    return {name: report[name] for name, (low, high) in ranges.items() if is_number(report.get(name), low, high)}


def fix_of(report):
    """A TPV as the page gets it, or None if it has no mode. Below mode 2 it has no position."""
    if not is_number(report.get("mode"), 0, 3):
        return None
    fix = {"mode": int(report["mode"]), **numbers_of(report, TPV_RANGES)}
    try:
        if seconds_of(report.get("time")) is not None:
            fix["time"] = report["time"]
    except BadLine:
        pass
    if fix["mode"] < 2 or "lat" not in fix or "lon" not in fix:
        fix.pop("lat", None), fix.pop("lon", None)
    return fix


def sky_of(report):
    """A SKY as the page gets it: one entry for each satellite, used if one of its signals is. None if it has no list."""
    if not isinstance(report.get("satellites"), list):
        return None
    found = {}
    for listed in report["satellites"][:200]:
        satellite = numbers_of(listed, SATELLITE_RANGES) if isinstance(listed, dict) else {}
        if "PRN" not in satellite:
            continue
        first = found.setdefault((satellite.get("gnssid"), satellite["PRN"]), satellite)
        first["used"] = first.get("used", False) or listed.get("used") is True
        first["ss"] = max(first.get("ss", 0), satellite.get("ss", 0))
    return {"hdop": report.get("hdop") if is_number(report.get("hdop"), 0) else None, "satellites": list(found.values())}


class Device:
    """What is known of one device. `last` is its last fix with a position. `points` are its last fixes with one, None if the fix was
    lost between; `count` is how many there were in all, so that a browser knows which of them it has."""

    def __init__(self):
        self.active = True
        self.fix = self.last = self.sky = None
        self.fixed_at = None  # on the monotonic clock: when the last fix with a position came
        self.points = deque(maxlen=TRACK_POINTS)
        self.count = 0

    def add(self, point):
        if point is not None or (self.points and self.points[-1] is not None):
            self.points.append(point)
            self.count += 1

    def take_fix(self, fix):
        self.fix = fix
        if "lat" in fix:
            self.last, self.fixed_at = fix, time.monotonic()
            self.add(Fix(fix))
        else:
            self.add(None)

    def points_after(self, seen):
        """The places of the points from number `seen` on, and whether they are all that there are, not only the new ones."""
        first = self.count - len(self.points)
        whole = not first <= seen <= self.count
        fresh = islice(self.points, 0 if whole else seen - first, None)
        return [None if fix is None else [round(fix.lat, 7), round(fix.lon, 7)] for fix in fresh], whole


class Board:
    """What the daemon has said so far. One thread writes it; each browser's thread waits for it to change and reads it. Nobody
    waits for a browser here: what a slow one misses it finds in the next state."""

    def __init__(self, daemon):
        self.daemon = daemon  # its address in words
        self.changed = threading.Condition()
        self.version = 0
        self.connected = False
        self.devices = {}
        self.bad_lines = 0
        self.closing = False

    def tell(self, connected):
        """The daemon is there, or is gone."""
        with self.changed:
            self.connected = connected
            if not connected:
                for device in self.devices.values():
                    device.add(None)
            self.touch()

    def close(self):
        with self.changed:
            self.closing = True
            self.touch()

    def touch(self):
        self.version += 1
        self.changed.notify_all()

    def take(self, line):
        """One line of the daemon. What is no report is counted and changes nothing else."""
        try:
            report = json.loads(line)
        except (ValueError, RecursionError):
            report = None
        with self.changed:
            if not isinstance(report, dict) or not self.take_report(report):
                self.bad_lines += 1
            self.touch()

    def take_report(self, report):
        """False if a report of a class that is drawn cannot be read."""
        kind = report.get("class")
        if kind == "DEVICES":
            return self.take_devices(report.get("devices"))
        if kind == "DEVICE":
            return self.take_device(report)
        if kind not in ("TPV", "SKY"):
            return isinstance(kind, str)
        device = self.device(report.get("device"))
        seen = fix_of(report) if kind == "TPV" else sky_of(report)
        if device is None or seen is None:
            return False
        device.active = True
        if kind == "TPV":
            device.take_fix(seen)
        else:
            device.sky = seen
        return True

    def device(self, name):
        """The device of a name, a new one if the name is new. None if it is no name, or if there are too many."""
        if not isinstance(name, str) or not 0 < len(name) <= 200:
            return None
        if name not in self.devices and len(self.devices) < MOST_DEVICES:
            self.devices[name] = Device()
        return self.devices.get(name)

    def take_devices(self, listed):
        """The list of all devices: those that are not in it any more are forgotten."""
        if not isinstance(listed, list):
            return False
        reports = [report for report in listed if isinstance(report, dict)]
        names = [report.get("path") for report in reports]
        self.devices = {name: device for name, device in self.devices.items() if name in names}
        return all([self.take_device(report) for report in reports]) and len(reports) == len(listed)

    def take_device(self, report):
        device = self.device(report.get("path"))
        if device is not None:
            device.active = bool(report.get("activated"))
        return device is not None

    def state(self, wanted, seen, whose):
        """What a browser is told that wants the device of a name and has `seen` points of the device `whose`; the number of points
        that it has then; and the device that it is shown."""
        name = wanted if wanted in self.devices else next(iter(self.devices), None)
        told = {"daemon": self.daemon, "connected": self.connected, "badLines": self.bad_lines, "device": name,
                "devices": [{"name": one, "active": device.active} for one, device in self.devices.items()]}
        if name is None:
            return told, 0, None
        device = self.devices[name]
        points, whole = device.points_after(seen if device is whose else -1)
        told |= {"fix": device.fix, "last": device.last, "sky": device.sky, "points": points, "whole": whole, "kept": TRACK_POINTS,
                 "age": None if device.fixed_at is None else round(time.monotonic() - device.fixed_at, 2)}
        return told, device.count, device

    def track(self, name):
        """The points of a device, or None if there is none of that name."""
        with self.changed:
            return list(self.devices[name].points) if name in self.devices else None
