#!/usr/bin/env python3
"""Holds two decoders against each other: the same bytes through gpsd's `gpsdecode` and through `gpsrelay decode`, field by field.

Use: compare_decoders.py LOG PROGRAM. LOG holds what a receiver sent. Printed: how many fixes and skies each gave and how they pair, and
for each field how often it was equal, differed by rounding alone, stood on one side alone, or differed otherwise, with the largest
difference. Needs gpsdecode (Debian: gpsd-tools).

Fixes pair if their times are at most 5 ms apart; whole turns of 1,024 weeks are taken off first. Of several reports that gpsdecode
gives for one time the first one is compared. A sky pairs with the last SKY that gpsdecode gave for that time.
"""
import json
import os
import sys
from collections import Counter
from datetime import datetime, timezone

sys.path.insert(0, os.path.join(os.path.dirname(os.path.dirname(os.path.abspath(__file__))), "tests"))
from harness import run

LOG, PROGRAM = sys.argv[1], sys.argv[2]
TURN = 1024 * 7 * 86400 * 1000
# The last decimal that both write, in units of that field.
UNITS = {"lat": 1e-9, "lon": 1e-9, "altHAE": 1e-3, "altMSL": 1e-3, "geoidSep": 1e-3, "track": 1e-4, "speed": 1e-3, "climb": 1e-3,
         "pdop": 1e-2, "hdop": 1e-2, "vdop": 1e-2}
FIX = "mode", "lat", "lon", "altHAE", "altMSL", "geoidSep", "track", "speed", "climb"
SKY = "nSat", "uSat", "pdop", "hdop", "vdop"


def reports(*call):
    return [json.loads(line) for line in run(*call, given=GIVEN, seconds=120)[1].splitlines() if line.startswith(b"{")]


def stamp(report):
    """Milliseconds, or None."""
    if "time" not in report:
        return None
    at = datetime.strptime(report["time"], "%Y-%m-%dT%H:%M:%S.%fZ").replace(tzinfo=timezone.utc)
    return round(at.timestamp() * 1000)


def apart(a, b):
    """Milliseconds between two times with whole turns of the week taken off, and the number of turns."""
    turns = round((a - b) / TURN)
    return a - b - turns * TURN, turns


def near(at, times):
    return next((other for other in times if abs(apart(at, other)[0]) <= 5), None)


def sent(satellite, by_gpsd):
    """The id that the receiver sent. In sentences gpsd counts the ids of GLONASS and SBAS anew, and those of Galileo above 100."""
    system, number = satellite.get("gnssid"), satellite.get("svid", satellite["PRN"])
    if not NMEA:
        return system, number
    if by_gpsd:
        return number + {1: -87, 6: 64}.get(system, 0)
    return number - 100 if system == 2 and number > 100 else number


def bare(report, by_gpsd):
    """What a SKY says of its satellites, without order, systems and signals."""
    return Counter((sent(it, by_gpsd), it.get("el", 0), it.get("az", 0), it.get("ss", 0)) for it in report["satellites"])


class Field:
    def __init__(self):
        self.kinds, self.most = Counter(), 0

    def take(self, name, ours, theirs):
        if ours is None and theirs is None:
            return
        if theirs is None or ours is None:
            kind = "gpsrelay alone" if theirs is None else "gpsd alone"
        elif ours == theirs:
            kind = "equal"
        else:
            gap = abs(ours - theirs)
            kind = "rounding" if gap <= UNITS.get(name, 0) * 1.001 else "other"
            self.most = max(self.most, gap)
        self.kinds[kind] += 1

    def text(self):
        return ", ".join(f"{kind} {count}" for kind, count in sorted(self.kinds.items())) + (f" (most {self.most:.6g})" if self.most else "")


with open(LOG, "rb") as it:
    GIVEN = it.read()
NMEA = GIVEN[:1] == b"$"
ours, theirs = reports(PROGRAM, "decode"), reports("gpsdecode")

# gpsd's fixes and skies by time. Of sentences a SKY stands before the TPV of its epoch; of frames it has the time itself.
fixes, skies, waiting = {}, {}, None
extra, doubled, changed, without = Counter(), 0, 0, 0
for report in theirs:
    at = stamp(report)
    if report["class"] == "SKY":
        extra.update(key for key in report if key not in ("class", "device", "time", "satellites", *SKY))
        if NMEA:
            waiting = report
        elif at is not None:
            skies[at] = report
    elif report["class"] == "TPV":
        extra.update(key for key in report if key not in ("class", "device", "time", *FIX))
        if at is None:
            without += 1
        else:
            if at in fixes:
                doubled += 1
                changed += any(report.get(name) != fixes[at].get(name) for name in FIX)
            else:
                fixes[at] = report
        if NMEA and waiting and at is not None:
            skies[at], waiting = waiting, None

count = Counter(report["class"] for report in ours)
print(f"{LOG.rsplit('/')[-1]}: gpsrelay {count['TPV']} TPV {count['SKY']} SKY; gpsdecode "
      + " ".join(f"{n} {name}" for name, n in sorted(Counter(r["class"] for r in theirs).items())))
print(f"  gpsdecode gave {doubled} TPV for a time that it had given before, {changed} of them with another value; {without} without a time")

fields, times, only, met = {name: Field() for name in FIX + SKY}, Counter(), [], set()
satellites = Counter()
ours_fixes = [report for report in ours if report["class"] == "TPV"]
for place, report in enumerate(ours_fixes):
    at = stamp(report)
    other = near(at, fixes) if at is not None else None
    if other is None:
        only.append(place)
        continue
    met.add(other)
    gap, turns = apart(other, at)
    times[("equal" if not gap else f"{gap:+d} ms") + (f" and {turns:+d} turns of 1,024 weeks" if turns else "")] += 1
    for name in FIX:
        fields[name].take(name, report.get(name), fixes[other].get(name))
print(f"  fixes that gpsrelay alone gave: {len(only)}" + (f" (numbers {', '.join(str(k + 1) for k in only[:8])} of {len(ours_fixes)})" if only else ""))
print(f"  fixes that gpsdecode alone gave: {len(set(fixes) - met)}")
print("  time: " + ", ".join(f"{kind} {count}" for kind, count in times.items()))
for name in FIX:
    print(f"  {name}: {fields[name].text()}")

alone = later = 0
for report in ours:
    if report["class"] != "SKY":
        continue
    at = stamp(report)
    other = near(at, skies) if at is not None else None
    if other is None:
        alone += 1
        continue
    following = min((it for it in skies if it > other), default=None)
    if following is not None:
        mine, this, that = bare(report, False), bare(skies[other], True), bare(skies[following], True)
        later += (mine & that).total() > (mine & this).total()
    for name in SKY:
        fields[name].take(name, report.get(name), skies[other].get(name))
    left = list(skies[other]["satellites"])
    for mine in report["satellites"]:
        same = [it for it in left if sent(it, True) == sent(mine, False) and it.get("el", 0) == mine.get("el", 0) and it.get("az", 0) == mine.get("az", 0)]
        if not same:
            satellites["in gpsrelay's list alone"] += 1
            continue
        left.remove(same[0])
        satellites["paired"] += 1
        satellites["of these with another ss"] += same[0].get("ss", 0) != mine.get("ss", 0)
        satellites["of these used by gpsrelay alone"] += mine["used"] and not same[0]["used"]
        satellites["of these used by gpsdecode alone"] += same[0]["used"] and not mine["used"]
        satellites["of these with another gnssid"] += same[0].get("gnssid") != mine.get("gnssid")
        satellites["of these with a sigid from gpsrelay alone"] += "sigid" in mine and "sigid" not in same[0]
    satellites["in gpsdecode's list alone"] += len(left)
if count["SKY"]:
    print(f"  skies that gpsrelay alone gave: {alone}; those with more in common with what gpsdecode gave for the next time: {later}")
    for name in SKY:
        print(f"  {name}: {fields[name].text()}")
    print("  satellites: " + ", ".join(f"{kind} {n}" for kind, n in satellites.items() if n))
print("  members that gpsdecode alone has: " + " ".join(f"{name} {n}" for name, n in sorted(extra.items())))
