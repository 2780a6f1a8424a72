"""What the requests of a session are answered, and what each policy selects."""
from rows_text import EOE_FRAME, RMC, VERSION, device, devices, error, policy, rmc_fix, session, time_pair, unit

UNKNOWN, MALFORMED = error("Unrecognized request"), error("Malformed JSON")
REFUSED, TOO_LONG = error("Invalid WATCH"), error("Request too long")
NO_DEVICES = devices()
NO_POLL = b'{"class":"POLL","active":0,"tpv":[],"sky":[]}\r\n'
OFF = NO_DEVICES + policy(enable=False)


def on(**members):
    return NO_DEVICES + policy(**members)


def sent(pieces, *replies):
    """Pieces of a session's input without a device, and the replies to the requests in them."""
    script = b"open 0\n" + b"".join(f"input 0 {piece.hex()}\n".encode() for piece in pieces)
    return ["replay"], script, 0, session(0, [VERSION, *replies])


def asked(request, *replies):
    """One piece, as it is and byte by byte."""
    return [sent([request], *replies), sent([bytes([byte]) for byte in request], *replies)]


def flat(rows):
    return [row for some in rows for row in some]


WORDS = flat(asked(request, reply) for request, reply in (
    (b" ?VERSION;", VERSION),
    (b"?VERSION \t\r\n", VERSION),
    (b"\r\n?DEVICES;", NO_DEVICES),
    (b"?POLL\r\n", NO_POLL),
    (b";; ?WATCH ;\n", OFF),
    (b"?WATCH={};", on()),
    (b'?WATCH= { "scaled" : true, "timing":false,"split24":1 } \r\n', on()),
    (b'?WATCH={"scaled":true,"timing":1,"split24":null};', on()),
    (b'?WATCH={"enable":false};', OFF),
    (b'?WATCH={"raw":2,"nmea":false};', on(raw=2)),
    (b'?WATCH={"json":true,"nmea":false};', on(json=True)),
    (b'?WATCH={"raw":2,"pps":true};', on(raw=2, pps=True)),
    (b'?WATCH={"device":""};', on()),
    (b'?WATCH={"device":"a;b"};', on(device="a;b")),
    (b'?WATCH={"device":"\\u0067"};', on(device="g")),
    (b'?WATCH={"raw":1,"raw":0};', on()),
    (b'?WATCH={"x":"\\";\\\\"};', on()),
    (b'?WATCH={"x":"\\u00e9\xc3\xa9"};', on()),
))

FAULTS = flat(asked(request, reply) for reply, requests in (
    (UNKNOWN, (b"?FOO;", b"VERSION;", b"?version;", b"?VERSION?;", b"?DEVICE;", b"?WATCH {};", b"?WATCHES;", b'";";', b"\xff;")),
    (MALFORMED, (b"?WATCH=;", b"?WATCH={;", b'?WATCH={"raw":};', b'?WATCH={"raw":01};', b'?WATCH={"raw":1e999};', b'?WATCH={"raw":NaN};',
                 b"?WATCH={} {};", b"?WATCH={'raw':1};", b'?WATCH={"raw":1,};', b'?WATCH="\xff";', b'?WATCH="\\ud800";')),
    (REFUSED, (b"?WATCH=[];", b"?WATCH=null;", b"?WATCH=7;", b'?WATCH="json";', b'?WATCH={"raw":2.0};', b'?WATCH={"raw":3};',
               b'?WATCH={"raw":-1};', b'?WATCH={"raw":1e0};', b'?WATCH={"raw":true};', b'?WATCH={"raw":null};', b'?WATCH={"enable":null};',
               b'?WATCH={"enable":1};', b'?WATCH={"json":"true"};', b'?WATCH={"nmea":null};', b'?WATCH={"pps":[]};',
               b'?WATCH={"device":null};', b'?WATCH={"device":1};', b'?WATCH={"device":"a b"};', b'?WATCH={"device":"a\\"b"};',
               b'?WATCH={"device":"a=b"};', b'?WATCH={"device":"\\u00e9"};')),
) for request in requests)

# An array in an array is read 127 deep. A request may have 1,024 bytes, and one that is too long is passed over with its line.
LENGTHS = [
    sent([b"?WATCH=" + 127 * b"[" + 127 * b"]" + b";"], REFUSED),
    sent([b"?WATCH=" + 128 * b"[" + 128 * b"]" + b";"], MALFORMED),
    sent([b"?WATCH={" + 492 * b" ", 500 * b" ", b";"], MALFORMED),
    sent([500 * b"x", 500 * b"x", 30 * b"x" + b"\n", b"?VERSION;\n"], TOO_LONG, VERSION),
    sent([500 * b"x", 500 * b"x", 30 * b"x", b";\n", b"?VERSION;\n"], TOO_LONG, VERSION),
    # The line feed that is the 1,025th byte is in a string.
    sent([b'"' + 511 * b"x", 512 * b"x", b"\n?POLL;"], TOO_LONG, NO_POLL),
    sent([512 * b"x", 512 * b"x", b";?DEVICES\n"], UNKNOWN, NO_DEVICES),
    sent([bytes([byte]) for byte in 1030 * b"x" + b"\n?VERSION;\n"], TOO_LONG, VERSION),
]

ORDERS = flat(asked(*row) for row in (
    (b'?WATCH={"raw":3};?FOO;?WATCH;\n', REFUSED, UNKNOWN, OFF),
    (b'?VERSION;?DEVICES;?POLL;?FOO;?WATCH={"json":true};?WATCH={"json":false,"raw":3};?WATCH;',
     VERSION, NO_DEVICES, NO_POLL, UNKNOWN, on(json=True), REFUSED, on(json=True)),
    (b'?WATCH;?WATCH={"json":true};?WATCH={"enable":1};?POLL;?WATCH={"enable":false};?WATCH;',
     OFF, on(json=True), REFUSED, NO_POLL, NO_DEVICES + policy(enable=False, json=True), NO_DEVICES + policy(enable=False, json=True)),
)) + [
    sent([b'?WATCH={"enable":true,"json":true,"dev', b'ice":"a;', b'b"};'], on(json=True, device="a;b")),
    sent([b"?VERSI", b"ON;?PO", b"LL;"], VERSION, NO_POLL),
]

# A sentence, a frame, a pulse and the end of the second of two devices; the replay's end then ends the first.
EVENTS = (b"edge 1 assert 99.000000000#4294967295\ntext 1 99.000000001 " + RMC[:-2] + b"\nbytes 1 99.500000000 " + EOE_FRAME.hex().encode()
          + b"\nedge 1 assert 100.000000000#0\nend 1\n")
SENTENCE, FIX = [RMC], [device("g", "1970-01-01T00:01:39.000Z"), rmc_fix("g"), device("g")]
TIMES = [time_pair("TOFF", 764426119, (99, 1)), time_pair("PPS", 764426120, (100, 0))]
ENDED = device("f")


def selects(text, members, items):
    script = b"device f\ndevice g\nopen 0\nsay 0 ?WATCH={" + text + b"};\n" + EVENTS
    all_items = [VERSION, devices("f", "g") + policy(**members), *items]
    closing = session(0, all_items) + unit(2, 1) + unit(3, 1)
    return [(["replay", "--history", history], script, 0, closing) for history in ("1", "70", "16777216")]


HEX = EOE_FRAME.hex().encode() + b"\r\n"
SELECTED = flat(selects(*row) for row in (
    (b"", {}, []),
    (b'"json":true', {"json": True}, [*FIX, ENDED]),
    (b'"pps":true', {"pps": True}, TIMES),
    (b'"nmea":true', {"nmea": True}, SENTENCE),
    (b'"raw":1', {"raw": 1}, [RMC, HEX]),
    (b'"raw":2', {"raw": 2}, [RMC, EOE_FRAME]),
    (b'"json":true,"raw":1', {"json": True, "raw": 1}, [FIX[0], RMC, HEX, FIX[1], FIX[2], ENDED]),
    (b'"enable":false,"json":true,"nmea":true', {"enable": False, "json": True, "nmea": True}, []),
    (b'"nmea":true,"device":"g"', {"nmea": True, "device": "g"}, SENTENCE),
    (b'"nmea":true,"device":"f"', {"nmea": True, "device": "f"}, []),
    (b'"nmea":true,"device":"gg"', {"nmea": True, "device": "gg"}, []),
))

def stamped(second, nanoseconds, text):
    """The DEVICE line that says when the first byte came."""
    script = b'device g\nopen 0\nsay 0 ?WATCH={"json":true};\n' + f"bytes 0 {second}.{nanoseconds:09} 00\n".encode()
    items = [VERSION, devices("g") + policy(json=True), device("g", text), device("g")]
    return ["replay"], script, 0, session(0, items)


STAMPS = [stamped(*row) for row in (
    (0, 0, "1970-01-01T00:00:00.000Z"),
    (951782400, 1999999, "2000-02-29T00:00:00.001Z"),
    (764426119, 0, "1994-03-23T12:35:19.000Z"),
    (1735689599, 999999999, "2024-12-31T23:59:59.999Z"),
    (4107542399, 0, "2100-02-28T23:59:59.000Z"),
    (9999999999, 0, "2286-11-20T17:46:39.000Z"),
)]

TABLES = [
    ("requests: words and WATCH objects", WORDS),
    ("requests: faults", FAULTS),
    ("requests: lengths and depths", LENGTHS),
    ("requests: in their order", ORDERS),
    ("policies: what each selects", SELECTED),
    ("stamps as texts", STAMPS),
]
