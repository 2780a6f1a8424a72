#!/usr/bin/env python3
"""Writes samples/drive.nmea: three minutes of a receiver that drives over a hill and through a tunnel, and stops at a light.

The drive is made, not recorded: once a second the sentences RMC, GGA, GSA, GSV (two) and VTG, as a GPS
receiver of NMEA 0183 writes them. There is no fix in the first ten seconds, nor in the tunnel. Run it anew with

    python3 samples/make_drive.py > samples/drive.nmea
"""
import math
import sys
from typing import NamedTuple

START = 10 * 3600 + 15 * 60  # 10:15:00 UTC
DATE = "010624"  # 2024-06-01
SEARCHING = 10  # seconds before the first fix
GEOID = 46.9  # metres from the ellipsoid up to the sea
SATELLITES = [(2, 17, 308, 41), (5, 62, 112, 47), (12, 7, 344, 33), (14, 22, 228, 45),
              (21, 38, 71, 44), (25, 51, 190, 46), (29, 74, 20, 48), (31, 11, 265, 36)]  # PRN, elevation, azimuth, signal
USED = [5, 14, 21, 25, 29]
EQUATOR_RADIUS, ECCENTRICITY_SQUARED = 6_378_137.0, 0.00669437999014  # of WGS 84, metres
STEPS = 100  # of the motion, in a second


class Leg(NamedTuple):
    """A part of the way: how long it takes, how far it turns to the right, the speed at its end, and how far it climbs."""
    seconds: int
    turn: float  # degrees
    speed: float  # metres a second
    climb: float  # metres
    tunnel: bool = False


BEGIN = (48.1173, 11.516667, 545.4, 84.4, 13.9)  # latitude, longitude, height above the sea, track, speed
LEGS = [Leg(14, -18, 13.9, 1.5), Leg(16, 55, 13.9, -4.0), Leg(6, 5, 0.0, -0.5), Leg(9, 0, 0.0, 0.0), Leg(8, -95, 11.0, 1.0),
        Leg(12, -40, 13.0, 9.0), Leg(16, 105, 12.0, 14.0), Leg(10, -60, 12.5, 9.0), Leg(14, -25, 16.0, 2.0, tunnel=True),
        Leg(14, -85, 14.0, -9.0), Leg(12, -35, 12.0, -12.0), Leg(15, 115, 12.0, -10.0), Leg(14, -50, 16.0, -4.0), Leg(10, 20, 12.0, 0.0)]


class Moment(NamedTuple):
    """Where the receiver is at a second: degrees, metres above the sea, degrees from north, metres a second. In `fix` it knows it.
    `way` is the length of the way since the first fix, `east` and `north` the place from there, all in metres."""
    at: int  # seconds of the day
    fix: bool
    lat: float
    lon: float
    height: float
    track: float
    speed: float
    way: float
    east: float
    north: float


def eased(part):
    """From 0 to 1, with no jolt at the ends."""
    return (1 - math.cos(math.pi * part)) / 2


def radii(lat):
    """Metres a degree towards north and towards east, on the ellipsoid of WGS 84."""
    phi = math.radians(lat)
    flat = 1 - ECCENTRICITY_SQUARED * math.sin(phi) ** 2
    return (math.radians(EQUATOR_RADIUS * (1 - ECCENTRICITY_SQUARED) / flat ** 1.5),
            math.radians(EQUATOR_RADIUS / math.sqrt(flat) * math.cos(phi)))


def moments():
    """The drive, second by second."""
    lat, lon, height, track, speed = BEGIN
    for at in range(START, START + SEARCHING):
        yield Moment(at, False, lat, lon, height, track, speed, 0.0, 0.0, 0.0)
    at, way, east, north = START + SEARCHING, 0.0, 0.0, 0.0
    for leg in LEGS:
        heading, begun, low = track, speed, height
        for step in range(leg.seconds * STEPS):
            if step % STEPS == 0:
                yield Moment(at, not leg.tunnel, lat, lon, height, track % 360, speed, way, east, north)
                at += 1
            part = eased((step + 1) / (leg.seconds * STEPS))
            track, speed, height = heading + leg.turn * part, begun + (leg.speed - begun) * part, low + leg.climb * part
            metres, angle = speed / STEPS, math.radians(track)
            north_degree, east_degree = radii(lat)
            lat, lon = lat + metres * math.cos(angle) / north_degree, lon + metres * math.sin(angle) / east_degree
            way, east, north = way + metres, east + metres * math.sin(angle), north + metres * math.cos(angle)


def sentence(body):
    total = 0
    for byte in body.encode("ascii"):
        total ^= byte
    return f"${body}*{total:02X}\r\n"


def coordinate(degrees, whole_digits, letters):
    letter = letters[0] if degrees >= 0 else letters[1]
    units = round(abs(degrees) * 60 * 10_000)  # 1e-4 minute
    whole, rest = divmod(units, 60 * 10_000)
    minutes, parts = divmod(rest, 10_000)
    return f"{whole:0{whole_digits}d}{minutes:02d}.{parts:04d},{letter}"


def satellites(heard):
    """What is known of each satellite; without its signal if it is not heard."""
    groups = [SATELLITES[:4], SATELLITES[4:]]
    for number, group in enumerate(groups, 1):
        fields = "".join(f",{prn:02d},{el:02d},{az:03d},{f'{ss:02d}' if heard else ''}" for prn, el, az, ss in group)
        yield sentence(f"GPGSV,2,{number},{len(SATELLITES):02d}{fields}")


def second(moment):
    """What the receiver sends of a moment."""
    at = moment.at
    time = f"{at // 3600:02d}{at // 60 % 60:02d}{at % 60:02d}.00"
    if not moment.fix:
        yield sentence(f"GPRMC,{time},V,,,,,,,{DATE},,,N")
        yield sentence(f"GPGGA,{time},,,,,0,00,99.99,,,,,,")
        yield sentence("GPGSA,A,1,,,,,,,,,,,,,99.99,99.99,99.99")
        yield from satellites(heard=at < START + SEARCHING)
        yield sentence("GPVTG,,,,,,,,,N")
        return
    ids = ",".join(f"{prn:02d}" for prn in USED) + "," * (12 - len(USED))
    knots, kmh = moment.speed * 3600 / 1852, moment.speed * 3.6
    where = f"{coordinate(moment.lat, 2, 'NS')},{coordinate(moment.lon, 3, 'EW')}"
    yield sentence(f"GPRMC,{time},A,{where},{knots:.3f},{moment.track:.2f},{DATE},,,A")
    yield sentence(f"GPGGA,{time},{where},1,{len(USED):02d},0.94,{moment.height:.1f},M,{GEOID:.1f},M,,")
    yield sentence(f"GPGSA,A,3,{ids},1.83,0.94,1.57")
    yield from satellites(heard=True)
    yield sentence(f"GPVTG,{moment.track:.2f},T,,M,{knots:.3f},N,{kmh:.3f},K,A")


def drive():
    for moment in moments():
        yield from second(moment)


if __name__ == "__main__":
    for line in drive():
        sys.stdout.write(line)
