"""Which lines `lines` reads back, how it counts them, and which it refuses."""
from rows_text import VERSION, device, devices, error, fix, policy, rmc_fix, sky, time_pair

CLASSES = ("version", "devices", "device", "watch", "poll", "tpv", "sky", "toff", "pps", "error")
FIX = rmc_fix()


def counted(given, **numbers):
    text = " ".join(f"{name} {numbers.get(name, 0)}" for name in CLASSES)
    return ["lines"], given, 0, f"{text}\n".encode()


def refused(given, line=1):
    return ["lines"], given, 6, f"bad line {line}\n".encode()


POLL = b'{"class":"POLL","time":"1970-01-01T00:00:02.000Z","active":1,"tpv":[{"class":"TPV","device":"g","mode":1}],"sky":[]}\r\n'
GOOD = [
    counted(VERSION, version=1),
    counted(devices(), devices=1),
    counted(devices("a;b", "c"), devices=1),
    counted(device("a;b", "1970-01-01T00:00:02.000Z"), device=1),
    counted(policy(json=True, device="a;b"), watch=1),
    counted(POLL, poll=1),
    counted(FIX, tpv=1),
    counted(sky('"pdop":2.50,', ['"PRN":65,"el":-4,"az":83,"ss":46,"used":true,"gnssid":6,"svid":65,"sigid":1', '"PRN":1,"used":false'], 1),
            sky=1),
    counted(sky("", device="g"), sky=1),
    counted(time_pair("TOFF", 764426119, (99, 1)), toff=1),
    counted(time_pair("PPS", 764426120, (100, 0)), pps=1),
    counted(error("Invalid WATCH"), error=1),
    counted(FIX + devices("g") + FIX, tpv=2, devices=1),
]

ONE = b'{"class":"TPV","device":"g","mode":1}\r\n'
BAD = [refused(line) for line in (
    b"hello\r\n",
    ONE[:-2],
    ONE.replace(b"1}", b"4}"),
    ONE.replace(b"1}", b"01}"),
    b'{"class":"TPV","mode":1,"device":"g"}\r\n',
    fix(2, ',"speed":11.52', "g"),
    fix(2, ',"speed":-0.000', "g"),
    fix(2, ',"speed":1234567890.000', "g"),
    b'{"class":"SKY","device":"g","nSat":1,"uSat":0,"satellites":[]}\r\n',
    b'{"class":"SKY","device":"g","nSat":1,"uSat":0,"satellites":[{"PRN":1,"used":false}}\r\n',
    sky("", ['"PRN":4294967296,"used":false'], 0, "g"),
    policy(json=True).replace(b'"raw":0', b'"raw":3'),
    FIX.replace(b"11.524", b"11.52"),
    b'{"class":"DEVICE"\r\n', b'{"class":"DEVICES"}\r\n', b'{"class":"SKYE"\r\n', b'{ "class":"SKY"\r\n', b"\r\n", b"{",
)] + [refused(ONE + b"\n", 2), refused(FIX + b"{" + FIX, 2), refused(FIX + b"{", 2)]

# A line with one byte raised by one: another name, and another mode, are lines still.
CHANGED = []
for place in range(len(ONE)):
    other = ONE[:place] + bytes([ONE[place] + 1]) + ONE[place + 1:]
    CHANGED.append(counted(other, tpv=1) if other in (ONE.replace(b'"g"', b'"h"'), ONE.replace(b"1}", b"2}")) else refused(other))


def dated(text, is_one):
    line = device("g", text)
    return counted(line, device=1) if is_one else refused(line)


STAMPS = [dated(text, True) for text in ("1970-01-01T00:00:00.000Z", "1994-03-23T12:35:19.007Z", "2000-02-29T23:59:59.999Z",
                                         "2286-11-20T17:46:39.000Z")] + [
    dated(text, False) for text in ("2286-11-20T17:46:40.000Z", "1969-12-31T23:59:59.000Z", "2023-02-29T00:00:00.000Z",
                                    "1994-03-23T12:35:60.000Z", "1994-03-23T24:00:00.000Z", "1994-03-23T12:35:19.00Z",
                                    "1994-03-23 12:35:19.000Z", "1994-03-23T12:35:1:.000Z")]

TABLES = [
    ("lines: each class", GOOD),
    ("lines: what is none", BAD),
    ("lines: a line with one byte changed", CHANGED),
    ("lines: stamps", STAMPS),
]
