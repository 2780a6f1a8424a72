#!/usr/bin/env python3
"""tools/export.py over the built program: each file is read back, with Python's own library and with gpsbabel, and compared with the lines
that `gpsrelay decode` wrote.

Use: export.py PROGRAM. Prints a line for each check, and ends with 1 if one fails. Without gpsbabel or mandoc it says what is skipped.
"""
import csv
import glob
import importlib.util
import io
import json
import os
import re
import shutil
import subprocess
import sys
import tempfile
import xml.etree.ElementTree as xml

from harness import check, exit_status, run_parts, sample, second, within

PROGRAM = os.path.abspath(sys.argv[1])
ROOT = os.path.dirname(os.path.dirname(os.path.abspath(__file__)))
EXPORT = os.path.join(ROOT, "tools", "export.py")
FORMATS = "gpx", "kml", "geojson", "csv"
GPX, GARMIN = "{http://www.topografix.com/GPX/1/1}", "{http://www.garmin.com/xmlschemas/TrackPointExtension/v2}"
KML, GOOGLE = "{http://www.opengis.net/kml/2.2}", "{http://www.google.com/kml/ext/2.2}"
# The order of a point's elements in the schema of GPX 1.1.
GPX_ORDER = ["ele", "time", "magvar", "geoidheight", "name", "cmt", "desc", "src", "link", "sym", "type", "fix", "sat", "hdop", "vdop", "pdop",
             "ageofdgpsdata", "dgpsid", "extensions"]

sys.path.insert(0, os.path.join(ROOT, "samples"))
import make_drive  # noqa: E402


def decode(data):
    """The lines of `gpsrelay decode`."""
    return subprocess.run([PROGRAM, "decode"], input=data, capture_output=True, check=True, timeout=60).stdout


def program():
    """export.py as a module: a start of Python for each of the hundred calls here would take longer than all that they do."""
    sys.path.insert(0, os.path.dirname(EXPORT))
    made = importlib.util.module_from_spec(found := importlib.util.spec_from_file_location("tool", EXPORT))
    found.loader.exec_module(made)
    return made


def export(lines, *words):
    """(status, what it writes, standard error) of export.py over lines, in a process of its own."""
    with tempfile.TemporaryFile() as given, tempfile.TemporaryFile() as out, tempfile.TemporaryFile() as errors:
        given.write(lines)
        given.seek(0)
        sys.stdout.flush()
        child = os.fork()
        if child == 0:
            status = 70
            try:
                for number, file in enumerate((given, out, errors)):
                    os.dup2(file.fileno(), number)
                sys.argv = [EXPORT, *words]
                status = TOOL.main()
            except SystemExit as end:
                status = end.code
            finally:
                sys.stdout.flush(), sys.stderr.flush()
                os._exit(status)
        status = os.waitstatus_to_exitcode(os.waitpid(child, 0)[1])
        return status, os.pread(out.fileno(), 1 << 26, 0).decode(), os.pread(errors.fileno(), 1 << 20, 0).decode()


def file_of(lines, format_, *words):
    """What it writes of lines without a fault."""
    status, text, errors = export(lines, "--format", format_, *words)
    if (status, errors) != (0, ""):
        raise RuntimeError(f"--format {format_} ends with {status} and says {errors!r}")
    return text


def tpv(second_, lat=48.0, lon=11.5, mode=3, device="gps0", **further):
    """A TPV of the second of a day; `time` may be another text, or None."""
    clock = f"2024-06-01T{second_ // 3600:02d}:{second_ // 60 % 60:02d}:{second_ % 60:02d}.000Z"
    report = {"class": "TPV", "device": device, "mode": mode, "time": clock, "lat": lat, "lon": lon, **further}
    report = {name: value for name, value in report.items() if value is not None and not (mode < 2 and name in ("lat", "lon"))}
    return json.dumps(report).encode() + b"\r\n"


# What a file must have: of each point its time, latitude, longitude, height above the sea and speed, as the line has them

def wanted_points(lines):
    reports = [json.loads(line) for line in lines.splitlines()]
    return [(report.get("time"), report["lat"], report["lon"], report.get("altMSL"), report.get("speed"))
            for report in reports if report["class"] == "TPV" and report["mode"] >= 2 and "lat" in report]


def real(text):
    return None if text in (None, "") else float(text)


def of_gpx(text):
    """The segments of a GPX."""
    return [[(point.findtext(GPX + "time"), float(point.get("lat")), float(point.get("lon")), real(point.findtext(GPX + "ele")),
              real(point.findtext(f"{GPX}extensions/{GARMIN}TrackPointExtension/{GARMIN}speed"))) for point in segment.iter(GPX + "trkpt")]
            for segment in xml.fromstring(text.encode()).iter(GPX + "trkseg")]


def of_kml(text):
    """The segments of a KML whose fixes have times. A height of 0 on the ground is none."""
    found = []
    for track in xml.fromstring(text.encode()).iter(GOOGLE + "Track"):
        times = [when.text for when in track.iter(KML + "when")]
        places = [[float(number) for number in place.text.split(" ")] for place in track.iter(GOOGLE + "coord")]
        speeds = [float(value.text) for value in track.iter(GOOGLE + "value")] or [None] * len(times)
        if not len(times) == len(places) == len(speeds):
            raise ValueError(f"a track with {len(times)} times, {len(places)} places and {len(speeds)} speeds")
        ground = track.findtext(KML + "altitudeMode") == "clampToGround"
        found.append([(time, lat, lon, None if ground and not height else height, speed)
                      for time, (lon, lat, height), speed in zip(times, places, speeds)])
    return found


def of_geojson(text):
    found = []
    for feature in json.loads(text)["features"]:
        shape, each = feature["geometry"], feature["properties"]["coordinateProperties"]
        places = [shape["coordinates"]] if shape["type"] == "Point" else shape["coordinates"]
        if not len(places) == len(each["times"]) == len(each["altMSL"]) == len(each["speeds"]):
            raise ValueError("a feature with more of one than of another")
        found.append([(time, place[1], place[0], height, speed) for time, place, height, speed in zip(each["times"], places, each["altMSL"], each["speeds"])])
    return found


def of_csv(text):
    found = {}
    for row in csv.DictReader(io.StringIO(text)):
        found.setdefault(int(row["segment"]), []).append((row["time"] or None, float(row["lat"]), float(row["lon"]), real(row["altMSL"]), real(row["speed"])))
    if sorted(found) != list(range(1, len(found) + 1)):
        raise ValueError("segments that are not counted from 1")
    return [found[number] for number in sorted(found)]


READERS = {"gpx": of_gpx, "kml": of_kml, "geojson": of_geojson, "csv": of_csv}


def ends(points):
    """The number of points, and the time and place of the first and the last one."""
    return (len(points), points[0][:3], points[-1][:3]) if points else 0


def all_formats(name, lines, segments):
    """Each format has each point of the lines, in segments of these lengths."""
    wanted = wanted_points(lines)
    for format_ in FORMATS:
        found = READERS[format_](file_of(lines, format_))
        check(f"{name}, {format_}: segments", segments, [len(segment) for segment in found])
        found = [point for segment in found for point in segment]
        check(f"{name}, {format_}: number of points, first and last time and place", ends(wanted), ends(found))
        check(f"{name}, {format_}: each time, place, height and speed", True, found == wanted or next((a, b) for a, b in zip(wanted, found) if a != b))


def drive_segments():
    """The lengths of the parts of the made drive before and after its tunnel."""
    parts = "".join("x" if moment.fix else " " for moment in make_drive.moments()).split()
    return [len(part) for part in parts]


def the_drive():
    lines = decode(sample("drive.nmea"))
    check("the drive: the made drive has as many fixes", sum(drive_segments()), len(wanted_points(lines)))
    all_formats("the drive", lines, drive_segments())


def other_receivers():
    """Frames, which tell both heights; south and west; fractions of a second."""
    frames = decode(b"".join(second(at, "PVT EOE") for at in range(20)))
    check("frames: twenty fixes", 20, len(wanted_points(frames)))
    all_formats("frames", frames, [20])
    first = json.loads(file_of(frames, "geojson"))["features"][0]["geometry"]["coordinates"][0]
    check("GeoJSON: the third number is the height above the ellipsoid", json.loads(frames.splitlines()[0])["altHAE"], first[2])
    first = json.loads(file_of(decode(sample("drive.nmea")), "geojson"))["features"][0]["geometry"]["coordinates"][0]
    check("GeoJSON: which sentences tell by the sea and the geoid", round(make_drive.BEGIN[2] + make_drive.GEOID, 3), first[2])
    far = b"".join(tpv(at, round(-33.9 - at * 1e-9, 9), round(-179.999999999 + at, 9), time=f"2024-06-01T00:00:0{at}.25{at}Z", altMSL=-12.5) for at in range(4))
    all_formats("south and west", far, [4])


def gaps():
    """The rule of a segment, by numbers of points."""
    for name, lines, wanted, words in [
            ("ten seconds are no gap", [tpv(0), tpv(10), tpv(20)], [3], []),
            ("eleven are one", [tpv(0), tpv(11), tpv(12)], [1, 2], []),
            ("a line without a fix", [tpv(0), tpv(1, mode=1), tpv(2)], [1, 1], []),
            ("a line without a position", [tpv(0), tpv(1, lat=None, lon=None), tpv(2)], [1, 1], []),
            ("lines of another device are none", [tpv(0), tpv(1, mode=1, device="gps1"), tpv(2)], [2], []),
            ("time goes back", [tpv(5), tpv(6), tpv(5), tpv(6)], [2, 2], []),
            ("two of one time", [tpv(5), tpv(5)], [2], []),
            ("without times", [tpv(0, time=None), tpv(900, time=None)], [2], []),
            ("--gap 60", [tpv(0), tpv(60), tpv(121)], [2, 1], ["--gap", "60"]),
            ("a day is no gap if --gap says so", [tpv(0), tpv(86_399)], [2], ["--gap", "86400"])]:
        text = b"".join(lines)
        status, found, _ = export(text, "--format", "gpx", *words)
        check(f"gaps: {name}", (0, wanted), (status, [len(segment) for segment in of_gpx(found)]))


def left_out():
    """What a line does not tell is not in the file either."""
    lines = b"".join([tpv(0, time=None), tpv(1, time=None, altMSL=500.0, speed=2.5), tpv(2, time=None, altHAE=520.0)])
    wanted = wanted_points(lines)
    for format_ in "gpx", "geojson", "csv":
        check(f"left out, {format_}", [wanted], READERS[format_](file_of(lines, format_)))
    tree = xml.fromstring(file_of(lines, "kml").encode())
    places = [place.split(",") for line in tree.iter(KML + "coordinates") for place in line.text.split()]
    check("left out, kml: a line on the ground, as there is no time", ([(48.0, 11.5)] * 3, ["clampToGround"], 0),
          ([(float(lat), float(lon)) for lon, lat, _ in places], [mode.text for mode in tree.iter(KML + "altitudeMode")], len(list(tree.iter(GOOGLE + "Track")))))
    nothing = b"".join(tpv(at, mode=1) for at in range(3))
    for lines, name in (nothing, "no fix"), (b"", "no line"):
        for format_ in FORMATS:
            status, text, errors = export(lines, "--format", format_)
            check(f"{name}, {format_}: an empty track, and a word", (0, [], "export.py: no line tells a position; the track is empty\n"),
                  (status, READERS[format_](text), errors))


def forms():
    """What the four forms demand of a file beside the points."""
    lines, title = decode(sample("drive.nmea")), 'a<b>&"c\x07'
    shown = title.replace("\x07", "\N{REPLACEMENT CHARACTER}")
    gpx = xml.fromstring(file_of(lines, "gpx", "--title", title).encode())
    check("GPX: version, name, in the metadata and of the track", (f"{GPX}gpx", "1.1", shown, shown),
          (gpx.tag, gpx.get("version"), gpx.findtext(f"{GPX}metadata/{GPX}name"), gpx.findtext(f"{GPX}trk/{GPX}name")))
    orders = {tuple(GPX_ORDER.index(part.tag.removeprefix(GPX)) for part in point) for point in gpx.iter(GPX + "trkpt")}
    check("GPX: the elements of a point in the order of the schema", True, all(list(order) == sorted(set(order)) for order in orders) and bool(orders))
    check("GPX: three dimensions, and the geoid", ({"3d"}, {f"{make_drive.GEOID:.3f}"}),
          ({fix.text for fix in gpx.iter(GPX + "fix")}, {geoid.text for geoid in gpx.iter(GPX + "geoidheight")}))
    kml = xml.fromstring(file_of(lines, "kml", "--title", title).encode())
    check("KML: name, and heights above the sea", (f"{KML}kml", shown, {"absolute"}),
          (kml.tag, kml.findtext(f"{KML}Document/{KML}name"), {mode.text for mode in kml.iter(KML + "altitudeMode")}))
    orders = {tuple(dict.fromkeys(part.tag for part in track)) for track in kml.iter(GOOGLE + "Track")}
    check("KML: times before places", {(f"{KML}altitudeMode", f"{KML}when", f"{GOOGLE}coord", f"{KML}ExtendedData")}, orders)
    told = json.loads(file_of(lines, "geojson", "--title", title))
    check("GeoJSON: its features", ("FeatureCollection", [(title, "stdin", 1), (title, "stdin", 2)]),
          (told["type"], [tuple(feature["properties"][name] for name in ("name", "device", "segment")) for feature in told["features"]]))
    for format_ in FORMATS:
        status, text, errors = export(tpv(0, device="a\ud800b"), "--format", format_, "--title", "c\udcff")
        check(f"{format_}: a device and a title that UTF-8 cannot say", (0, [wanted_points(tpv(0))], ""), (status, READERS[format_](text) if status == 0 else text, errors[-200:]))
    point = json.loads(file_of(tpv(0), "geojson"))["features"][0]["geometry"]
    check("GeoJSON: one fix is a point", {"type": "Point", "coordinates": [11.5, 48.0]}, point)
    first = file_of(lines, "csv").split("\n", 2)
    check("CSV: its header has the names of TPV", "segment,time,lat,lon,altHAE,altMSL,geoidSep,speed,track,climb,mode", first[0])
    check("CSV: the first fix", "1,2024-06-01T10:15:10.000Z,48.117300000,11.516666667,,545.400,46.900,13.900,84.4000,,3", first[1])
    check("the name of a track: device and date", "stdin, 2024-06-01", xml.fromstring(file_of(lines, "gpx").encode()).findtext(f"{GPX}trk/{GPX}name"))


def words():
    """Files, devices, formats by a name, and what is refused."""
    lines = decode(sample("drive.nmea"))
    with tempfile.TemporaryDirectory() as folder:
        half = lines.splitlines(keepends=True)
        names = [os.path.join(folder, name) for name in ("first.json", "second part.json")]
        for name, part in zip(names, (half[:100], half[100:])):
            with open(name, "wb") as out:
                out.writelines(part)
        for ending, format_ in ("gpx", "gpx"), ("KML", "kml"), ("geojson", "geojson"), ("json", "geojson"), ("csv", "csv"):
            out = os.path.join(folder, f"drive.{ending}")
            status, text, errors = export(b"", "-o", out, *names)
            with open(out, encoding="utf-8", newline="") as it:
                check(f"two files into drive.{ending}: that of all lines", (0, "", "", True), (status, text, errors, it.read() == file_of(lines, format_)))
        raw = os.path.join(folder, "my drive.nmea")
        with open(raw, "wb") as out:
            out.write(sample("drive.nmea"))
        told = f"export.py: {raw} holds what a receiver sends; decode it first: gpsrelay decode < '{raw}' | export.py -o OUT.gpx\n"
        check("a file of sentences: status, and what to do", (1, "", told), export(b"", "--format", "gpx", raw))
        advice = re.search(r"first: (.*)", told)[1].replace("gpsrelay", PROGRAM).replace("export.py", f"{sys.executable} {EXPORT}")
        done = subprocess.run(advice, shell=True, cwd=folder, timeout=60)
        with open(os.path.join(folder, "OUT.gpx"), encoding="utf-8", newline="") as it:
            check("what it says works", (0, True), (done.returncode, it.read() == file_of(lines, "gpx")))
        missing = os.path.join(folder, "none.json")
        check("a file that is not there", (1, "", f"export.py: {missing}: No such file or directory\n"), export(b"", "--format", "gpx", missing))
        nowhere = os.path.join(folder, "none", "drive.gpx")
        check("a folder that is not there", (1, "", f"export.py: {nowhere}: No such file or directory\n"), export(lines, "-o", nowhere))
    frames = b"".join(second(at, "PVT EOE") for at in range(200))
    check("frames that are not decoded: status, and what to do", (1, "", True),
          (lambda found: (*found[:2], "standard input holds what a receiver sends; decode it first: gpsrelay decode < FILE |" in found[2]))(
              export(frames, "--format", "gpx")))
    check("something else", (1, "", "export.py: standard input has no line of `gpsrelay decode` or of a daemon (bad lines: 2)\n"), export(b"a,b\n1,2\n", "--format", "gpx"))
    status, text, errors = export(b"{\n" + lines, "--format", "csv")
    check("a bad line is counted, the others are written", (0, True, f"export.py: 1 bad line of {len(half) + 1}, the first is line 1\n"),
          (status, text == file_of(lines, "csv"), errors))
    both = b"".join(other for line in half for other in (line, line.replace(b'"stdin"', b'"van"')))
    status, text, errors = export(both, "--format", "csv")
    check("several devices: the first one, and a word", (0, True, "export.py: devices: stdin, van; the track is that of stdin\n"),
          (status, text == file_of(lines, "csv"), errors))
    check("the other one", True, export(both, "--format", "csv", "--device", "van")[1] == file_of(lines, "csv"))
    check("a device that is not there", (1, "", "export.py: no line of device gps7\n"), export(lines, "--format", "csv", "--device", "gps7"))
    for refused, reason in [([], "which format?"), (["-o", "drive.txt"], "which format?"), (["--format", "shp"], "invalid choice"),
                            (["--format", "gpx", "--gap", "0"], "0 is no number of seconds"), (["--format", "gpx", "--gap", "x"], "x is no number of seconds"),
                            (["--format", "gpx", "--daemon", "127.0.0.1"], "127.0.0.1 is no HOST:PORT"),
                            (["--format", "gpx", "--daemon", "127.0.0.1:2947", "drive.json"], "--daemon or FILE, not both"),
                            (["--format", "gpx", "-o", EXPORT, "drive.json", EXPORT], "would be read and written")]:
        status, text, errors = export(b"", *refused)
        check(f"refused: {' '.join(refused) or 'no word'}", (2, "", True), (status, text, reason in errors or errors))
    with open("/dev/full", "wb") as full:
        done = subprocess.run([sys.executable, EXPORT, "--format", "gpx"], input=lines, stdout=full, stderr=subprocess.PIPE, timeout=60)
    check("a full disk", (1, b"export.py: input or output: No space left on device\n"), (done.returncode, done.stderr))


def by_gpsbabel():
    """gpsbabel reads the files, and writes GPX of its own, in which the points are counted and compared."""
    if not shutil.which("gpsbabel"):
        print("skipped: reading GPX, KML, GeoJSON and CSV back with gpsbabel, which is not installed")
        return
    lines = decode(sample("drive.nmea"))
    wanted = [(time.replace(".000Z", "Z"), lat, lon, height) for time, lat, lon, height, _ in wanted_points(lines)]
    with tempfile.TemporaryDirectory() as folder:
        for format_, kind, reader in ("gpx", "-t", "gpx"), ("kml", "-t", "kml"), ("csv", "-t", "unicsv"), ("geojson", "-r", "geojson"):
            path = os.path.join(folder, f"drive.{format_}")
            export(lines, "-o", path)
            out = subprocess.run(["gpsbabel", kind, "-i", reader, "-f", path, "-o", "gpx,gpxver=1.1", "-F", "-"], capture_output=True, timeout=60)
            check(f"gpsbabel reads {format_} without a word", (0, b""), (out.returncode, out.stderr))
            tree = xml.fromstring(out.stdout)
            points = [(point.findtext(GPX + "time"), float(point.get("lat")), float(point.get("lon")), real(point.findtext(GPX + "ele")))
                      for point in tree.iter(GPX + ("rtept" if kind == "-r" else "trkpt"))]
            keep = 4
            if format_ == "geojson":  # of which it reads places alone
                points, keep = [(None, *point[1:3]) for point in points], 3
            expected = [(None, *point[1:3]) if keep == 3 else point for point in wanted]
            check(f"gpsbabel, {format_}: number of points, first and last time and place", ends(expected), ends(points))
            check(f"gpsbabel, {format_}: each point", True, points == expected or next((a, b) for a, b in zip(expected, points) if a != b))


def six_hours():
    """21,600 fixes: the greatest memory of the program."""
    lines = b"".join(tpv(at, round(48 + at * 1e-6, 9), altMSL=500.0, speed=1.0) for at in range(21_600))
    done = subprocess.run([sys.executable, "-c", MEASURED, EXPORT, "--format", "gpx", "-o", os.devnull], input=lines, capture_output=True, timeout=120)
    peak = int(done.stderr)
    within(f"six hours, {len(lines) / 1e6:.1f} MB of lines: {peak / 1000:.0f} MB of memory, 60 at the most", peak < 60_000, peak)


# Runs a program of Python, and writes its greatest memory in KB on standard error.
MEASURED = """import os, resource, runpy, sys
sys.argv = sys.argv[1:]
sys.path.insert(0, os.path.dirname(sys.argv[0]))
try:
    runpy.run_path(sys.argv[0], run_name="__main__")
except SystemExit:
    print(resource.getrusage(resource.RUSAGE_SELF).ru_maxrss, file=sys.stderr)
"""


def manuals():
    if not shutil.which("mandoc"):
        print("skipped: the manual pages of the tools, as mandoc is not installed")
        return
    for name in "clock", "export", "mqtt", "port", "top", "track", "view":
        [page] = glob.glob(os.path.join(ROOT, "docs", f"gpsrelay-{name}.[1-8]"))
        done = subprocess.run(["mandoc", "-T", "lint", "-W", "warning", page], capture_output=True, timeout=20)
        check(f"{os.path.basename(page)} is clean", (0, b""), (done.returncode, done.stdout))
        program = os.path.join(ROOT, "tools", f"{name}.py")
        told = subprocess.run([sys.executable, program, "--help"], capture_output=True, timeout=20).stdout.decode()
        with open(page, encoding="utf-8") as it:
            text = it.read()
        options = sorted(set(re.findall(r"--[a-z][a-z-]+", told)))
        check(f"{os.path.basename(page)} has each option", [], [option for option in options if f"Fl -{option[2:]}" not in text])


TOOL = program()

if __name__ == "__main__":
    sys.exit(run_parts(the_drive, other_receivers, gaps, left_out, forms, words, by_gpsbabel, six_hours, manuals) or exit_status())
