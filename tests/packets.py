"""Sentences and u-blox frames with their sums, and whole seconds of a made receiver."""
import calendar
import struct
import time

BEGIN = calendar.timegm((2024, 6, 1, 12, 0, 0))  # second 0 of a made receiver
PLACE = "4807.038,N,01131.000,E"


def sentence(body, error=0):
    """The sentence of this body; its sum is wrong by `error`."""
    total = error
    for byte in body.encode():
        total ^= byte
    return f"${body}*{total:02X}\r\n".encode()


def frame(kind, number, payload):
    """The u-blox frame of this class, id and payload."""
    inner = bytes([kind, number]) + struct.pack("<H", len(payload)) + payload
    a = b = 0
    for byte in inner:
        a = (a + byte) & 255
        b = (b + a) & 255
    return b"\xb5\x62" + inner + bytes([a, b])


def clock_of(at):
    """The time of day of a Unix time, as a sentence has it."""
    return time.strftime("%H%M%S", time.gmtime(at))


def rmc(at, place=PLACE, talker="GP", motion="022.4,084.4"):
    """The RMC of a Unix time; `motion` is the speed in knots and the track."""
    return sentence(f"{talker}RMC,{clock_of(at)},A,{place},{motion},{time.strftime('%d%m%y', time.gmtime(at))},,,A")


def gga(at, place=PLACE, talker="GP", quality="08,0.9"):
    """The GGA of a Unix time; `quality` is the number of satellites and the HDOP."""
    return sentence(f"{talker}GGA,{clock_of(at)},{place},1,{quality},545.4,M,46.9,M,,")


def nav_pvt(at, itow, nanoseconds=0, used=2, east=0, north=0):
    """The NAV-PVT of a Unix time, with a time of week in milliseconds; `east` and `north` are 1e-7 degrees."""
    utc = time.gmtime(at)
    return frame(1, 0x07, struct.pack("<IHBBBBBBIiBBBBiiiiIIiiiiiIIHHIihH", itow, *utc[:6], 7, 50, nanoseconds, 3, 1, 0, used,
                                      115_166_667 + east, 481_173_000 + north, 592_300, 545_400, 900, 1_400, 10, 20, -30, 22,
                                      8_440_000, 300, 90_000, 183, 0, 0, 0, 0, 0))


def nav_eoe(itow):
    """The NAV-EOE, the end of an epoch."""
    return frame(1, 0x61, struct.pack("<I", itow))


def second(t, kinds="RMC GGA", place=PLACE, talker="GP"):
    """What a receiver sends for second t: its packets of these kinds (RMC, GGA, PVT, EOE), in this order."""
    at, itow = BEGIN + t, 1000 * t
    makers = {"RMC": lambda: rmc(at, place, talker), "GGA": lambda: gga(at, place, talker),
              "PVT": lambda: nav_pvt(at, itow), "EOE": lambda: nav_eoe(itow)}
    return b"".join(makers[kind]() for kind in kinds.split())
