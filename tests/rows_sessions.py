"""Whole scripts: what sessions, units and monitors get, whatever a generation of the history may hold."""
from packets import sentence
from rows_text import (EOE_FRAME, GGA, MIDNIGHT, RMC, VERSION, ZDA, device, devices, height_fix, policy, rmc_fix, session, shown, sky, time_pair,
                       unit)

ONE, TWO = "1970-01-01T00:00:01.000Z", "1970-01-01T00:00:02.000Z"
JSON = devices("g") + policy(json=True)
NMEA = devices("g") + policy(nmea=True)
LATE_FIX = height_fix("1994-03-24T00:00:00.000Z", "g")
ACTIVE, ENDED = device("g", ONE), device("g")


def script(*lines):
    """Lines as texts, or as a pair: an event's words and the sentence after them."""
    return b"".join((line[0].encode() + b" " + line[1].rstrip(b"\r\n") if isinstance(line, tuple) else line.encode()) + b"\n" for line in lines)


def played(lines, *output, status=0, histories=("1", "70", "16777216")):
    return [(["replay", "--history", history], script(*lines), status, b"".join(output)) for history in histories]


FED = ("text 0 1.000000000", RMC)
FED_LATE = ("text 0 2.000000000", MIDNIGHT)
WATCH, WATCH_NMEA = 'say 0 ?WATCH={"json":true};', 'say 0 ?WATCH={"nmea":true};'

WATCHED = (
    played(["device g", "open 0", WATCH, FED, FED_LATE], session(0, [VERSION, JSON, ACTIVE, rmc_fix("g"), LATE_FIX, ENDED]), unit(0, 2))
    + played(["device g", "open 0", WATCH, FED, FED_LATE, "end 0"], session(0, [VERSION, JSON, ACTIVE, rmc_fix("g"), LATE_FIX, ENDED]),
             unit(0, 2))
    # A device that is lost has neither its last fix nor its end.
    + played(["device g", "open 0", WATCH, FED, "lose 0"], session(0, [VERSION, JSON, ACTIVE]), unit(0, 1))
    # A policy holds from its answer on, and its request may come in parts.
    + played(["device g", "open 0", 'part 0 ?WATCH={"nm', 'part 0 ea":true};', FED, ("text 0 1.000000000", GGA),
              'say 0 ?WATCH={"enable":false};', FED_LATE],
             session(0, [VERSION, NMEA, RMC, GGA, devices(("g", ONE)) + policy(enable=False, nmea=True)]), unit(0, 2))
    # A name may have a semicolon in it.
    + played(["device a;b", "device c", "open 0", 'part 0 ?WATCH={"enable":true,"json":true,"dev', 'part 0 ice":"a;', 'part 0 b"};',
              ("text 1 1.000000000", RMC), ("text 0 2.000000000", RMC)],
             session(0, [VERSION, devices("a;b", "c") + policy(json=True, device="a;b"), device("a;b", TWO), rmc_fix("a;b"), device("a;b")]),
             unit(0, 1), unit(2, 1)))


def poll(time, active, fixes=(), skies=()):
    def objects(lines):
        return b",".join(line[:-2] for line in lines)

    said = f'"time":"{time}",' if time else ""
    return f'{{"class":"POLL",{said}"active":{active},"tpv":['.encode() + objects(fixes) + b'],"sky":[' + objects(skies) + b"]}\r\n"


SKY = sky('"hdop":0.90,', ['"PRN":65,"el":40,"az":83,"ss":46,"used":true,"gnssid":6,"svid":65,"sigid":1'], 1, "g")
SKY_LINES = [("text 0 1.000000000", sentence("GNGSA,A,3,65,,,,,,,,,,,,,0.9,,2")), ("text 0 1.000000000", sentence("GLGSV,1,1,01,65,40,083,46,1")),
             f"bytes 0 1.000000000 {EOE_FRAME.hex()}"]
POLLED = (
    played(["device g", "open 0", FED, FED_LATE, "say 0 ?POLL;"], session(0, [VERSION, poll(TWO, 1, [rmc_fix("g")])]), unit(0, 2))
    # The running epoch is not yet told, and a device that ended is not shown.
    + played(["device g", "open 0", FED, "say 0 ?POLL;", FED_LATE, "end 0", "say 0 ?POLL;"],
             session(0, [VERSION, poll(ONE, 1), poll(TWO, 0)]), unit(0, 2))
    + played(["device g", "open 0", *SKY_LINES, "say 0 ?POLL;"], session(0, [VERSION, poll(ONE, 1, [], [SKY])])))

RAW = "bytes 0 1.000000000 " + EOE_FRAME.hex()
PACKETS = (
    played(["device g", "open 0", 'say 0 ?WATCH={"raw":1};', RAW],
           session(0, [VERSION, devices("g") + policy(raw=1), EOE_FRAME.hex().encode() + b"\r\n"]))
    + played(["device g", "open 0", 'say 0 ?WATCH={"raw":2};', RAW], session(0, [VERSION, devices("g") + policy(raw=2), EOE_FRAME])))

QUEUES = (
    # The session of two items is closed at the third; the other goes on.
    played(["device g", "open 0 2", "open 1", WATCH_NMEA, WATCH_NMEA.replace("0", "1"), FED],
           session(0, [VERSION, NMEA], "overrun"), session(1, [VERSION, NMEA, RMC]), unit(0, 1))
    + played(["open 0 1", "say 0 ?VERSION;"], session(0, [VERSION], "overrun"))
    + played(["open 0 2", "say 0 ?DEVICES;?DEVICES;"], session(0, [VERSION, devices()], "overrun"))
    # One gets the ends of two devices, the other the pulse, for which its queue has room once.
    + played(["device a", "device b", "open 0 8", "open 1 3", 'part 0 ?WATCH={"json"', "part 0 :true};?DEV", "part 0 ICES;",
              'say 1 ?WATCH={"pps":true};', ("text 1 1.000000000", RMC), ("text 1 2.000000000", MIDNIGHT), "end 0", "end 1", "say 0 ?VERSION;"],
             session(0, [VERSION, devices("a", "b") + policy(json=True), devices("a", "b"), device("b", ONE), rmc_fix("b"), device("a"),
                         height_fix("1994-03-24T00:00:00.000Z", "b"), device("b")], "overrun"),
             session(1, [VERSION, devices("a", "b") + policy(pps=True), time_pair("TOFF", 764426119, (1, 0), "b")], "overrun"),
             unit(2, 2))
    # Items are taken in order, also after their session was closed.
    + played(["open 0 2", "say 0 ?DEVICES;?DEVICES;", "take 0 1", "take 0 5"],
             shown(0, VERSION), shown(0, devices()), b"s0 drained overrun 2\n")
    + [(["replay", "--queue", "1"], script("open 0", "say 0 ?VERSION;"), 0, session(0, [VERSION], "overrun"))])

TAKEN_ONE = b"m0 taken 1 764426119.000000000 1.000000000 -1\n"
TAKEN_TWO = b"m0 taken 2 1735689599.000000000 2.000000000 -1\n"
NEXT = ("text 0 2.000000000", ZDA)
MONITORS = (
    # A store between the loads is a clash; valid is 0 until the last store.
    played(["device g", "monitor 0 0", FED, "store 0 13", "load 0 6", NEXT, "store 0 2", "load 0 6", "load 0 2", "store 0 11", "load 0 12"],
           b"m0 clash 2 3\nm0 notready 3 0\n", TAKEN_TWO, unit(0, 2))
    # The greatest number is the last: the next sample stays.
    + played(["device g", "segment 0 1073741822", "monitor 0 0", FED, NEXT, "store 0 13", "store 0 1", "load 0 12"],
             TAKEN_ONE.replace(b"taken 1", b"taken 1073741823"), unit(0, 1, 2147483646, 1))
    # One sample may be taken twice.
    + played(["device g", "monitor 0 0", "load 0 2", FED, "store 0 13", "load 0 24"], b"m0 notready 0 0\n", TAKEN_ONE, TAKEN_ONE, unit(0, 1))
    # A turn of the history amid the stores loses nothing, and each sample takes thirteen of them.
    + played(["device g", "monitor 0 0", FED, "store 0 5", NEXT, "store 0 7", "load 0 2", "store 0 1", "load 0 12", "store 0 13", "load 0 12"],
             b"m0 notready 2 0\n", TAKEN_ONE, TAKEN_TWO, unit(0, 2))
    # A pulse has its own unit and precision.
    + played(["device g", "monitor 0 1", "edge 0 assert 99.000000000#1", ("text 0 99.000002000", RMC), "edge 0 assert 100.000001999#2",
              "store 1 13", "load 0 12"],
             b"m0 taken 1 764426120.000000000 100.000001999 -20\n", unit(0, 1), unit(1, 1)))

REFUSED = (
    played(["open 0", "take 0 1", "take 9 1"], shown(0, VERSION), b"bad line 3\n", status=6)
    + played(["open 0", "hang 0", "say 0 ?VERSION;"], b"bad line 3\n", status=6)
    + [(["replay"], b"open 0\ntake 0 1\ntake 0", 6, shown(0, VERSION) + b"bad line 3\n")])

# What is no printable character, and the backslash, is shown as two digits of hexadecimal.
ODD = sentence("GP\\~")
SHOWN = played(["device g", "open 0", 'say 0 ?WATCH={"raw":2};', "bytes 0 1.000000000 " + ODD.hex(), "take 0 2", "bytes 0 1.000000000 " + ODD.hex()],
               shown(0, VERSION), shown(0, devices("g") + policy(raw=2)), 2 * (b"s0 $GP\\x5c~*" + ODD[-4:-2] + b"\\x0d\\x0a\n"),
               b"s0 drained daemonend 4\n")

TABLES = [
    ("replay: what a session is told", WATCHED),
    ("replay: what a poll shows", POLLED),
    ("replay: packets as they came", PACKETS),
    ("replay: queues and their order", QUEUES),
    ("replay: monitors between the stores", MONITORS),
    ("replay: lines that are refused", REFUSED),
    ("replay: how items are shown", SHOWN),
]
