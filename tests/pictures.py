#!/usr/bin/env python3
"""tools/track.py and tools/view.py over the built program: the picture of the sample drive against the geometry that made it, and
the live page against the lines that the daemon sends, in a real browser if one is installed.

Use: pictures.py PROGRAM [FOLDER]. Screenshots of the page are left in FOLDER if it is given. Prints a line for each check, and
ends with 1 if one fails.
"""
import json
import math
import os
import re
import resource
import subprocess
import sys
import tempfile
import time
import xml.etree.ElementTree as xml

import live_page
import page_links
from checks import check, exit_status, slowness, within

HERE = os.path.dirname(os.path.abspath(__file__))
ROOT = os.path.dirname(HERE)
TRACK, EXPORT = (os.path.join(ROOT, "tools", name) for name in ("track.py", "export.py"))
SVG = "{http://www.w3.org/2000/svg}"

sys.path.insert(0, os.path.join(ROOT, "samples"))
import make_drive  # noqa: E402

# The other classes of a session's lines, which are passed over.
OTHERS = [b'{"class":"VERSION","release":"gpsrelay-1","rev":"1","proto_major":3,"proto_minor":1}',
          b'{"class":"DEVICES","devices":[{"class":"DEVICE","path":"gps0"}]}',
          b'{"class":"WATCH","enable":true,"json":true,"nmea":false,"raw":0,"pps":false}',
          b'{"class":"DEVICE","path":"gps0","activated":"2024-06-01T10:15:00.000Z"}',
          b'{"class":"TOFF","device":"gps0","real_sec":1,"real_nsec":0,"clock_sec":1,"clock_nsec":5}',
          b'{"class":"PPS","device":"gps0","real_sec":1,"real_nsec":0,"clock_sec":1,"clock_nsec":5,"precision":-20}',
          b'{"class":"POLL","active":0,"tpv":[],"sky":[]}', b'{"class":"ERROR","message":"Unrecognized request"}', b""]
BAD = [b"\xff\xfe", b"{", b"[]", b"7", b'{"class":5}', b'{"class":"TPV","device":"x"}',
       b'{"class":"TPV","device":"x","mode":3,"lat":91,"lon":0}', b'{"class":"TPV","device":"x","mode":3,"lat":NaN,"lon":0}',
       b'{"class":"TPV","device":"x","mode":3,"lat":1}', b'{"class":"TPV","device":"x","mode":true}', b'{"class":"TPV","device":7,"mode":3}',
       b'{"class":"TPV","device":"x","mode":3,"time":"yesterday"}', b'{"class":"TPV","device":"x","mode":3,"time":{}}',
       b'{"class":"TPV","device":"x","mode":3,"time":"9999-12-31T23:59:59Z"}', b'{"class":"SKY","device":"x","satellites":5}',
       b'{"class":"SKY","device":"x","satellites":[{"PRN":1}]}', b"[" * 100_000, b'{"class":"TPV","mode":' + b"1" * 5_000 + b"}"]


def track(lines, *words):
    """(status, picture as a tree or None, text, standard error) of track.py over lines."""
    run = subprocess.run([sys.executable, TRACK, *words], input=b"".join(line + b"\r\n" for line in lines), capture_output=True, timeout=60)
    return run.returncode, xml.fromstring(run.stdout) if run.stdout else None, run.stdout.decode(), run.stderr.decode()


def by_id(picture, name):
    return next((part for part in picture.iter() if part.get("id") == name), None)


def pixels(path):
    """The points of a path's text."""
    return [(float(x), float(y)) for x, y in re.findall(r"(-?[\d.]+),(-?[\d.]+)", path.get("d"))]


def words_of(picture):
    return [part.text for part in picture.iter(SVG + "text")]


def positions(lines):
    return [report for report in map(json.loads, lines) if report["class"] == "TPV" and "lat" in report]


def made():
    """The seconds of the made drive in which its receiver has a fix."""
    return [moment for moment in make_drive.moments() if moment.fix]


def metres_of_drive():
    """The length of the made drive from its first to its last fix: its own way, and straight on through the tunnel."""
    return sum(after.way - before.way if after.at == before.at + 1 else math.dist((before.east, before.north), (after.east, after.north))
               for before, after in zip(made(), made()[1:]))


def near(wanted, found, part=0.01):
    return abs(found - wanted) <= abs(wanted) * part


def decoded(lines):
    """Each fix of the lines is the made one, as exactly as its sentences tell it: 1e-4 minute, 0.1 m, 0.01 degree, 0.001 knot."""
    def clock(moment):
        return f"2024-06-01T{moment.at // 3600:02d}:{moment.at // 60 % 60:02d}:{moment.at % 60:02d}.000Z"

    found = positions(lines)
    check("the made drive: a position in each second with a fix, and in no other", [clock(moment) for moment in made()], [fix["time"] for fix in found])
    exact = {"lat": 0.5e-4 / 60 + 1e-9, "lon": 0.5e-4 / 60 + 1e-9, "altMSL": 0.0501, "track": 0.00501, "speed": 0.001}
    wrong = [(fix["time"], name) for moment, fix in zip(made(), found) for name, most in exact.items()
             if abs(fix[name] - getattr(moment, "height" if name == "altMSL" else name)) > most]
    check("the made drive: place, height, track and speed", [], wrong)


def the_drive(lines):
    status, picture, text, errors = track(lines)
    words, speeds, heights = words_of(picture), [moment.speed * 3.6 for moment in made()], [moment.height for moment in made()]
    check("the drive: status and no word", (0, ""), (status, errors))
    check("the drive: a point for each position", len(made()), len(pixels(by_id(picture, "track"))))
    check("the drive: device and date", "stdin, 1 June 2024", words[0])
    told = re.fullmatch(rf"10:15:10 to 10:17:59 UTC  ·  2 min 49 s  ·  ([\d.]+) km  ·  {len(made())} fixes", words[1])
    check("the drive: times, duration and number of fixes", True, told is not None or words[1])
    check("the drive: the distance is that of its way", True, near(metres_of_drive(), float(told[1]) * 1000) or told[1])
    scales(picture, words)
    sky(picture)
    check("the drive: speeds and heights with their units", True,
          {"Speed, km/h", f"{min(speeds):.1f} to {max(speeds):.1f} km/h", "Height above the sea, m",
           f"{min(heights):.1f} to {max(heights):.1f} m"} <= set(words) or words)
    check("the drive: a tunnel and a beginning without a fix, in both strips", 4, words.count("no fix"))
    gap = pixels(by_id(picture, "gaps"))
    points = pixels(by_id(picture, "track"))
    enters = next(number for number, (before, after) in enumerate(zip(made(), made()[1:])) if after.at > before.at + 1)
    check("the drive: the tunnel is dotted", points[enters:enters + 2], gap)
    check("the drive: for dark and for light", True, "@media (prefers-color-scheme:dark)" in text)
    with open(os.path.join(ROOT, "samples", "drive.svg"), encoding="utf-8") as shown:
        check("samples/drive.svg is this picture", True, shown.read() == text)


def scales(picture, words):
    """Each point is where it must be from the first one, by the scale of the bar: east to the right, north up."""
    points = pixels(by_id(picture, "track"))
    bar = next(float(found[1]) for part in picture.iter(SVG + "path") if (found := re.search(r"v8h([\d.]+)v-8", part.get("d"))))
    metres = next(float(found[1]) for word in words if (found := re.fullmatch(r"([\d.]+) m", word)))
    wanted = [(points[0][0] + moment.east * bar / metres, points[0][1] - moment.north * bar / metres) for moment in made()]
    check("each point within a pixel of its place, by the bar's scale", True, max(map(math.dist, wanted, points)) < 1 or max(map(math.dist, wanted, points)))


def sky(picture):
    """Each satellite is at its azimuth and elevation, and filled if it is used."""
    horizon = next(part for part in picture.iter(SVG + "circle") if part.get("class") == "axis")
    x, y, radius = (float(horizon.get(name)) for name in ("cx", "cy", "r"))
    found = [(part.get("class"), float(part.get("cx")), float(part.get("cy"))) for part in by_id(picture, "satellites")]
    wanted = [("used0" if prn in make_drive.USED else "seen0",
               x + radius * (90 - elevation) / 90 * math.sin(math.radians(azimuth)),
               y - radius * (90 - elevation) / 90 * math.cos(math.radians(azimuth))) for prn, elevation, azimuth, _ in make_drive.SATELLITES]
    check("the satellites: used or not", [one[0] for one in wanted], [one[0] for one in found])
    check("the satellites: within a pixel of their places", True, all(math.dist(one[1:], other[1:]) < 1 for one, other in zip(wanted, found)))


def other_streams(lines):
    status, picture, _, errors = track([])
    check("no line: a picture that says so", (0, "", True), (status, errors, "No fix" in words_of(picture)))
    lost = [line for line in lines if b'"mode":1' in line]
    status, picture, _, errors = track(lost)
    check("no fix: a picture that says so", (0, "", True, None), (status, errors, "No fix" in words_of(picture), by_id(picture, "track")))
    plain = track(lines)[2]
    status, _, text, errors = track([*OTHERS, *lines])
    check("other classes are passed over", (0, "", True), (status, errors, text == plain))
    status, _, text, errors = track([*OTHERS, *BAD, *lines])
    told = f"track.py: {len(BAD)} bad lines of {len(OTHERS) + len(BAD) + len(lines)}, the first is line {len(OTHERS) + 1}\n"
    check("bad lines are counted and change nothing", (0, told, True), (status, errors, text == plain))
    cut = lines[:60] + [b'{"class":"TPV","device":"stdin","mode":1}'] + lines[60:]
    status, picture, _, _ = track(cut)
    check("a fix that is lost in between: one run more, no point less", (3, len(positions(lines))),
          (by_id(picture, "track").get("d").count("M"), len(pixels(by_id(picture, "track")))))
    untimed = [re.sub(rb'"time":"[^"]*",', b"", line) for line in lines]
    check("without times: a point for each position", len(positions(lines)), len(pixels(by_id(track(untimed)[1], "track"))))
    check("a file that is not there: status and one line", (1, None, "track.py: /nowhere: No such file or directory\n"),
          track([], "/nowhere")[:2] + (track([], "/nowhere")[3],))


def further_words(lines):
    """A title, a gap of another length, the same track as GPX, and a file that is not decoded."""
    check("a title", "Over <the> hill", words_of(track(lines, "--title", "Over <the> hill")[1])[0])
    late = [line for line in lines if not re.search(rb"T10:17:3[0-4]", line)]
    runs = [by_id(track(late, *words)[1], "track").get("d").count("M") for words in ((), ("--gap", "4"))]
    check("five seconds without a line: no gap; one if --gap is 4", [2, 3], runs)
    check("a gap that is none", 2, track(lines, "--gap", "0")[0])
    with tempfile.TemporaryDirectory() as folder:
        both, alone = (os.path.join(folder, name) for name in ("both.gpx", "alone.gpx"))
        text = track(lines, "--gpx", both)[2]
        check("the picture is the same with --gpx", True, text == track(lines)[2])
        subprocess.run([sys.executable, EXPORT, "-o", alone], input=b"".join(line + b"\r\n" for line in lines), check=True, timeout=60)
        with open(both, "rb") as one, open(alone, "rb") as other:
            check("--gpx is the file of export.py", True, one.read() == other.read())
    drive = os.path.join(ROOT, "samples", "drive.nmea")
    told = f"track.py: {drive} holds what a receiver sends; decode it first: gpsrelay decode < {drive} | track.py -o OUT.svg\n"
    check("a file of sentences: status, no picture, and what to do", (1, "", told), (lambda found: (found[0], found[2], found[3]))(track([], drive)))
    told = "track.py: standard input has no line of `gpsrelay decode` or of a daemon (bad lines: 2)\n"
    check("lines of something else: status and a reason", (1, "", told), (lambda found: (found[0], found[2], found[3]))(track([b"a", b"b"])))


def devices(lines):
    name = b'a<b>&\\"c\\u0007'
    both = [other for line in lines for other in (line, line.replace(b'"stdin"', b'"' + name + b'"'))]
    check("several devices: the first one", "stdin, 1 June 2024", words_of(track(both)[1])[0])
    check("and the others are told", True, "devices: stdin, a<b>&" in track(both)[3])
    status, picture, _, _ = track(both, "--device", 'a<b>&"c\x07')
    check("a device by its name, which XML and a screen can bear", (0, 'a<b>&"c\N{REPLACEMENT CHARACTER}, 1 June 2024'), (status, words_of(picture)[0]))
    check("a device that is not there", (1, None), track(both, "--device", "gps7")[:2])


def an_hour(lines):
    """3,600 fixes and skies out of the last fix and sky of the drive: the processor time, which a busy machine does not change."""
    fix, sky_line = [line for line in lines if b"TPV" in line][-1], [line for line in lines if b"SKY" in line][-1]
    many = []
    for second in range(3_600):
        clock = f"T11:{second // 60:02d}:{second % 60:02d}.000Z".encode()
        at = re.sub(rb"T10:17:59.000Z", clock, fix)
        many += [re.sub(rb'"lat":48', b'"lat":%.6f' % (48 + math.sin(second / 300) / 100) + b"0", at, count=1) if second % 7 else at,
                 re.sub(rb"T10:17:59.000Z", clock, sky_line)]
    many = [re.sub(rb'("lat":\d+\.\d{7})0?\.?\d*', rb"\1", line) for line in many]
    before, began = resource.getrusage(resource.RUSAGE_CHILDREN), time.monotonic()
    status, picture, _, errors = track(many)
    after, seconds = resource.getrusage(resource.RUSAGE_CHILDREN), time.monotonic() - began
    spent = after.ru_utime + after.ru_stime - before.ru_utime - before.ru_stime
    check("an hour: a point for each position", (0, "", 3_600), (status, errors, len(pixels(by_id(picture, "track")))))
    within("an hour: below two seconds", spent < 2 * slowness(time.process_time), spent)
    print(f"        {sum(map(len, many)) / 1e6:.1f} MB: {spent:.2f} s of the processor, {seconds:.2f} s by the clock")


def main():
    program = os.path.abspath(sys.argv[1])
    with open(os.path.join(ROOT, "samples", "drive.nmea"), "rb") as drive:
        lines = subprocess.run([program, "decode"], stdin=drive, capture_output=True, check=True, timeout=60).stdout.split(b"\r\n")[:-1]
    decoded(lines)
    the_drive(lines)
    other_streams(lines)
    devices(lines)
    further_words(lines)
    an_hour(lines)
    page_links.run(program)
    with tempfile.TemporaryDirectory() as folder:
        live_page.run(program, sys.argv[2] if len(sys.argv) > 2 else folder)
    return exit_status()


if __name__ == "__main__":
    sys.exit(main())
