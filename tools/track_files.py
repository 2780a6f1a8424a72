"""A track as GPX 1.1, KML 2.2, GeoJSON (RFC 7946) or CSV (RFC 4180, with LF): what export.py, track.py and view.py write.

Each writer takes the track's name, its device and its segments: lists of fixes with a position, as `segments` of track_lines.py gives
them. Times are those of the lines, letter for letter. Metres, metres a second and degrees are those of the lines, as numbers.
"""
import csv
import io
import json
import os
from xml.sax.saxutils import escape

GPX_HEAD = ('<?xml version="1.0" encoding="UTF-8"?>\n'
            '<gpx version="1.1" creator="gpsrelay" xmlns="http://www.topografix.com/GPX/1/1" '
            'xmlns:gpxtpx="http://www.garmin.com/xmlschemas/TrackPointExtension/v2">\n')
KML_HEAD = ('<?xml version="1.0" encoding="UTF-8"?>\n'
            '<kml xmlns="http://www.opengis.net/kml/2.2" xmlns:gx="http://www.google.com/kml/ext/2.2">\n')
# Of each column: its name, which is that of the TPV member, and its text of a fix.
COLUMNS = [("time", lambda fix: fix.clock or ""), ("lat", lambda fix: f"{fix.lat:.9f}"), ("lon", lambda fix: f"{fix.lon:.9f}"),
           ("altHAE", lambda fix: plain(fix.hae, 3)), ("altMSL", lambda fix: plain(fix.msl, 3)), ("geoidSep", lambda fix: plain(fix.geoid, 3)),
           ("speed", lambda fix: plain(fix.speed, 3)), ("track", lambda fix: plain(fix.track, 4)), ("climb", lambda fix: plain(fix.climb, 3)),
           ("mode", lambda fix: str(int(fix.mode)))]


def plain(value, digits):
    """A number without an exponent; nothing if there is none."""
    return "" if value is None else f"{value:.{digits}f}"


def words(content):
    """A text as XML takes it, without control characters."""
    return escape("".join(c if c.isprintable() else "\N{REPLACEMENT CHARACTER}" for c in content))


def name_of(device, runs):
    """The name of a track that was given none: the device and the date."""
    date = next((fix.clock[:10] for run in runs for fix in run if fix.clock), None)
    return ", ".join(part for part in (device, date) if part) or "Track"


def element(name, content):
    """An element of XML, or nothing if it has no content."""
    return f"<{name}>{content}</{name}>" if content else ""


# GPX

def gpx(name, device, runs):
    """GPX has one height, that above the sea; speed and track are in the extension of Garmin that most programs know."""
    rows = [GPX_HEAD, f"<metadata>{element('name', words(name))}</metadata>\n<trk>{element('name', words(name))}{element('src', words(device))}\n"]
    for run in runs:
        rows += ["<trkseg>\n", *map(gpx_point, run), "</trkseg>\n"]
    return "".join([*rows, "</trk>\n</gpx>\n"])


def gpx_point(fix):
    """The elements come in the order that the schema demands."""
    motion = element("gpxtpx:speed", plain(fix.speed, 3)) + element("gpxtpx:course", plain(fix.track, 4))
    known = (element("ele", plain(fix.msl, 3)) + element("time", fix.clock) + element("geoidheight", plain(fix.geoid, 3))
             + element("fix", f"{int(fix.mode)}d") + element("extensions", element("gpxtpx:TrackPointExtension", motion)))
    return f'<trkpt lat="{fix.lat:.9f}" lon="{fix.lon:.9f}">{known}</trkpt>\n'


# KML

def kml(name, device, runs):
    """A track with times for each segment whose fixes all have one, a line for any other. Heights are above the sea; a segment that does
    not have all of them lies on the ground."""
    title = element("name", words(name))
    rows = [KML_HEAD, f"<Document>{title}\n", '<Style id="track"><LineStyle><color>ffc4620b</color><width>4</width></LineStyle></Style>\n',
            '<Schema id="fix"><gx:SimpleArrayField name="speed" type="float"><displayName>Speed, m/s</displayName></gx:SimpleArrayField></Schema>\n']
    timed = [run for run in runs if all(fix.clock for fix in run)]
    untimed = [run for run in runs if not all(fix.clock for fix in run)]
    for tag, some, write in ("gx:MultiTrack", timed, kml_track), ("MultiGeometry", untimed, kml_line):
        if some:
            rows += [f'<Placemark>{title}{element("description", words(device))}<styleUrl>#track</styleUrl>\n<{tag}>\n', *map(write, some),
                     f"</{tag}>\n</Placemark>\n"]
    return "".join([*rows, "</Document>\n</kml>\n"])


def kml_ground(run):
    return "<altitudeMode>absolute</altitudeMode>" if all(fix.msl is not None for fix in run) else "<altitudeMode>clampToGround</altitudeMode>"


def kml_place(fix, mark):
    return mark.join([f"{fix.lon:.9f}", f"{fix.lat:.9f}", plain(fix.msl, 3) or "0"])


def kml_track(run):
    rows = ["<gx:Track>" + kml_ground(run) + "\n"]
    rows += [f"<when>{fix.clock}</when>\n" for fix in run]
    rows += [f"<gx:coord>{kml_place(fix, ' ')}</gx:coord>\n" for fix in run]
    if all(fix.speed is not None for fix in run):
        speeds = "".join(f"<gx:value>{fix.speed:.3f}</gx:value>" for fix in run)
        rows.append('<ExtendedData><SchemaData schemaUrl="#fix"><gx:SimpleArrayData name="speed">' + speeds
                    + "</gx:SimpleArrayData></SchemaData></ExtendedData>\n")
    return "".join([*rows, "</gx:Track>\n"])


def kml_line(run):
    """A line of one place has two equal ones: KML has no shorter line."""
    places = [kml_place(fix, ",") for fix in (run if len(run) > 1 else run * 2)]
    return f"<LineString><tessellate>1</tessellate>{kml_ground(run)}<coordinates>{' '.join(places)}</coordinates></LineString>\n"


# GeoJSON

def geojson(name, device, runs):
    """A feature for each segment: a line, or a point if it has one fix. The third number of a place is the height above the ellipsoid, as
    RFC 7946 says; it is left out if it is not known."""
    features = [feature(name, device, number, run) for number, run in enumerate(runs, 1)]
    return json.dumps({"type": "FeatureCollection", "features": features}, separators=(",", ":"), ensure_ascii=False) + "\n"


def feature(name, device, number, run):
    places = [[fix.lon, fix.lat] if fix.above_ellipsoid is None else [fix.lon, fix.lat, fix.above_ellipsoid] for fix in run]
    shape = {"type": "Point", "coordinates": places[0]} if len(run) == 1 else {"type": "LineString", "coordinates": places}
    each = {"times": [fix.clock for fix in run], "altMSL": [fix.msl for fix in run], "speeds": [fix.speed for fix in run],
            "tracks": [fix.track for fix in run]}
    return {"type": "Feature", "geometry": shape,
            "properties": {"name": name, "device": device, "segment": number, "coordinateProperties": each}}


# CSV

def csv_rows(name, device, runs):
    """A row for each fix, with the number of its segment. A column has the name that the value has in a TPV line."""
    out = io.StringIO()
    writer = csv.writer(out, lineterminator="\n")
    writer.writerow(["segment", *(column for column, _ in COLUMNS)])
    for number, run in enumerate(runs, 1):
        writer.writerows([number, *(text(fix) for _, text in COLUMNS)] for fix in run)
    return out.getvalue()


FORMATS = {"gpx": gpx, "kml": kml, "geojson": geojson, "csv": csv_rows}
ENDINGS = {".gpx": "gpx", ".kml": "kml", ".geojson": "geojson", ".json": "geojson", ".csv": "csv"}


def format_of(path):
    """The format that a file's name asks for, or None."""
    return ENDINGS.get(os.path.splitext(path)[1].lower())
