"""The packets and pulses that a device's bytes and edges give, as a session of a replay is shown them."""
from packets import frame
from rows_text import EOE_FRAME, PVT_FRAME, RMC, VERSION, devices, policy, session, time_pair, unit

RMC_SECOND, PVT_SECOND = 764426119, 1717243200
# The sentences and the frame of these rows that tell a time with its day.
SECONDS = {RMC: RMC_SECOND, RMC[:-2] + b"\n": RMC_SECOND, RMC[:-4] + b"6a\n": RMC_SECOND, PVT_FRAME: PVT_SECOND}
HEAD = b'device g\nopen 0\nsay 0 ?WATCH={"raw":2,"pps":true};\n'
REPLY = devices("g") + policy(raw=2, pps=True)


def brought(pieces, packets):
    """Pieces, each with its whole second, and the packets that come of them, each with the second of its first byte."""
    script, items, times = HEAD, [VERSION, REPLY], 0
    for second, piece in pieces:
        for begin in range(0, len(piece), 512):
            script += f"bytes 0 {second}.000000000 {piece[begin:begin + 512].hex()}\n".encode()
    for second, packet in packets:
        items.append(packet)
        if packet in SECONDS:
            items.append(time_pair("TOFF", SECONDS[packet], (second, 0)))
            times += 1
    return ["replay"], script, 0, session(0, items) + (unit(0, times) if times else b"")


def cut(stream, *packets):
    """A stream in two pieces, cut at each place, and byte by byte; each packet is given by its place and its bytes."""
    rows = [brought([(0, stream[:place]), (1, stream[place:])], [(int(start >= place), packet) for start, packet in packets])
            for place in range(len(stream) + 1)]
    rows.append(brought([(place, stream[place:place + 1]) for place in range(len(stream))], packets))
    return rows


ACK = b"\xb5b\x05\x01\x02\x00\x06\x01\x0f8"
LATE_EOE = b"\xb5b\x01a\x04\x00xV4\x12z#"
STREAMS = (
    cut(RMC, (0, RMC)) + cut(PVT_FRAME + EOE_FRAME, (0, PVT_FRAME), (100, EOE_FRAME))
    # A wrong sum, and a sentence without its LF.
    + cut(RMC[:-3] + b"B\r\n") + cut(RMC[:-1])
    # The head of a frame of 100 bytes whose sums are wrong, a length that no frame has, and the head of the longest frame, which is waited for.
    + cut(b"\xb5b\x01\x07\x5c\x00" + RMC + 24 * b".", (6, RMC)) + cut(b"\xb5b\x01\x07\xff\xff" + RMC, (6, RMC))
    + cut(b"\xb5b\x01\x07\x00\x08" + RMC)
    # A line that is no sentence.
    + cut(b"$" + 200 * b"A" + RMC, (201, RMC))
    # Frames (the acknowledgement of the u-blox description, and a NAV-EOE), junk, a sentence, and the beginning of a frame.
    + cut(b"\xb5" + ACK + b"$$" + LATE_EOE + RMC + b"\xb5b\x01a\x04\x00x", (1, ACK), (13, LATE_EOE), (25, RMC)))


def first(text, length=None):
    """The packet of this length that a text begins with, if it begins with one; what comes after it is none."""
    return brought([(0, text)], [] if length is None else [(0, text[:length])])


SENTENCES = [
    first(RMC, 70),
    first(RMC[:-4] + b"6a\n$GP", 69),
    first(b"$GPGLL,4916.45,N,12311.12,W,225444,A*31\r\n", 41),
    first(b"$A*41\n", 6),
    # Bodies of 122, 123 and 124 times `A`: a sentence has 128 bytes at most, of which a CR is one.
    first(b"$" + 122 * b"A" + b"*00\r\n", 128),
    first(b"$" + 123 * b"A" + b"*41\n", 128),
    first(b"$" + 123 * b"A" + b"*41\r\n"),
    first(b"$" + 124 * b"A" + b"*00\n"),
]

# None of these is the beginning of a sentence, so what comes after it is found.
OTHERS = [brought([(0, text + RMC)], [(0, RMC)]) for text in (
    b"GPGLL", b"$A*40\r\n", b"$*00\r\n", b"$A$GPGLL", b"$A\x1f*5E\r\n", b"$A\x7f*3E\r\n", b"$A**", b"$A*g", b"$A*4:", b"$A*41\r\r", b"$A*41 ",
    b"$" + 127 * b"A", b"", b"$", b"$GPGLL,49", b"$A*", b"$A*F", b"$A*00", b"$A*00\r")]

LONGEST = frame(0, 0, bytes(2048))
FRAMES = [
    first(EOE_FRAME, 12),
    first(PVT_FRAME, 100),
    first(EOE_FRAME + b"\xb5a", 12),
    # Its sums are those of the one byte 8 of its length, counted 2,049 times.
    first(b"\xb5b\x00\x00\x00\x08" + bytes(2048) + b"\x08\x08", 2056),
    first(LONGEST[:-1]),
    first(b"\xb5b\x00\x00\x00\x08" + bytes(2050)),
] + [brought([(0, text + RMC)], [(0, RMC)]) for text in (
    EOE_FRAME[:-2] + b"\x67\xc7", EOE_FRAME[:-2] + b"\x66\xc8", b"\xb5a", b"$GP", b"\xb5b\x00\x00\x01\x08")]


def pulses(is_pulse, edges, serial, later=()):
    """Edges, the time of a sentence that comes at this stamp, later edges, and the edge 0 at 100 s, which is a pulse or not."""
    lines = [f"edge 0 {edge}" for edge in edges] + [f"text 0 {serial[0]}.{serial[1]:09} {RMC[:-2].decode()}"]
    lines += [f"edge 0 {edge}" for edge in later] + ["edge 0 assert 100.000000000#0"]
    items = [VERSION, devices("g") + policy(pps=True), time_pair("TOFF", RMC_SECOND, serial)]
    if is_pulse:
        items.append(time_pair("PPS", RMC_SECOND + 1, (100, 0)))
    script = b'device g\nopen 0\nsay 0 ?WATCH={"pps":true};\n' + "".join(f"{line}\n" for line in lines).encode()
    closing = session(0, items) + unit(0, 1) + (unit(1, 1) if is_pulse else b"")
    return [(["replay", "--history", history], script, 0, closing) for history in ("1", "16777216")]


LAST = 4294967295
PULSES = (
    pulses(True, [f"assert 99.000000000#{LAST}"], (99, 1))
    + pulses(False, [f"assert 99.000000000#{LAST - 1}"], (99, 1))
    + pulses(False, [f"clear 99.000000000#{LAST}"], (99, 1))
    # The serial time is 0, 1, 999,999,999 and 1,000,000,000 ns old.
    + pulses(False, [f"assert 99.000000000#{LAST}"], (100, 0))
    + pulses(True, [f"assert 99.000000000#{LAST}"], (99, 999999999))
    + pulses(False, [f"assert 99.000000000#{LAST}"], (99, 0))
    # The edge before is 990,000,000 and 1,010,000,000 ns away, and one beyond each.
    + pulses(True, [f"assert 99.010000000#{LAST}"], (99, 1)) + pulses(False, [f"assert 99.010000001#{LAST}"], (99, 1))
    + pulses(True, [f"assert 98.990000000#{LAST}"], (99, 1)) + pulses(False, [f"assert 98.989999999#{LAST}"], (99, 1))
    # A clear edge between the two changes nothing.
    + pulses(True, [f"assert 99.000000000#{LAST}"], (99, 1), [f"clear 99.100000000#{LAST}"]))

TABLES = [
    ("packets: streams, cut at each place", STREAMS),
    ("packets: sentences", SENTENCES),
    ("packets: what is no sentence", OTHERS),
    ("packets: frames", FRAMES),
    ("pulses: which edges give one", PULSES),
]
