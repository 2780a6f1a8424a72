#!/usr/bin/env python3
"""Holds two built programs against each other over hostile streams: `decode` and `replay` must give the same bytes.

Use: hostile_streams.py OLD NEW COUNT [FIRST], as random_streams.py, which tells random damage of good input; here a stream is made to
mislead the search for packets:

 heads      false frame heads close together or far apart, of all lengths; good frames within them, behind them and over their ends
 frames     frames whose sums are wrong by a little, that are cut, that hold frames, or whose length is another
 sentences  wrong sums, bodies about the longest, cut ones, sentences in sentences, wrong ends
 runs       one to four bytes over and over: `$`, `$AAA`, a head's first byte, a head
 mixed      pieces of all of these

`decode` reads it in its own pieces. `replay` gets it in pieces of one byte, of a few, or of up to 512, between two clients of which one
watches reports and sentences and the other all packets.
"""
import os
import random
import struct
import sys

sys.path.insert(0, os.path.dirname(os.path.abspath(__file__)))
from random_streams import BEGIN, frame, frames, main, sentence, sentences

MOST = 2_048  # the longest payload of a frame
LONGEST = 123  # the longest body of a sentence


def head(rng):
    """The first six bytes of a frame, whose length is often near an end of what is allowed."""
    length = rng.choice([0, 1, 8, MOST - 1, MOST, MOST + 1, 65_535, rng.randrange(64), rng.randrange(MOST)])
    return b"\xb5\x62" + bytes([rng.randrange(3), rng.randrange(256)]) + struct.pack("<H", length)


def good(rng):
    """A few right packets."""
    at = BEGIN + rng.randrange(10_000)
    return b"".join(frames(rng, at)) if rng.random() < 0.5 else b"".join(map(sentence, sentences(rng, at)))


def filler(rng):
    """Bytes of which no packet is made; some of them change a sum by nothing or by a round number."""
    return rng.choice([b"\x00", b"\xff", b"\x80", b"\xb5", b"U"]) * rng.randrange(300) if rng.random() < 0.5 else rng.randbytes(rng.randrange(300))


def heads(rng):
    gap = rng.choice([0, 0, 1, 10, 2_000])
    return b"".join(head(rng) + rng.randbytes(rng.randrange(gap + 1)) for _ in range(rng.randrange(1, 12 if gap > 100 else 120))) + rng.choice(
        [good, filler])(rng)


def any_frame(rng, depth=0):
    """A frame, in whose payload there may be frames."""
    payload = rng.choice([b"", filler(rng), rng.randbytes(rng.choice([MOST, MOST - 1, rng.randrange(40)])), good(rng)[:MOST]])
    if depth < 3 and rng.random() < 0.5:
        payload = (payload[:rng.randrange(len(payload) + 1)] + any_frame(rng, depth + 1))[-MOST:]
    return frame(rng.choice([1, 1, rng.randrange(256)]), rng.choice([4, 7, 0x35, 0x61, rng.randrange(256)]), payload)


def bad_frame(rng):
    made = bytearray(any_frame(rng))
    turn = rng.randrange(6)
    if turn == 0:
        made[-rng.randrange(1, 3)] ^= rng.choice([1, 128, rng.randrange(1, 256)])
    elif turn == 1:
        made[4 + rng.randrange(2)] += rng.choice([1, -1]) if 0 < made[4] < 255 and 0 < made[5] < 255 else 0
    elif turn == 2:
        del made[rng.randrange(len(made)):]
    elif turn == 3:
        del made[:rng.randrange(len(made))]
    elif turn == 4:  # two bytes change places: the first sum stays, the second does not
        at = rng.randrange(2, len(made) - 1)
        made[at], made[at + 1] = made[at + 1], made[at]
    return bytes(made)


def bad_sentence(rng):
    body = rng.choice([*sentences(rng, BEGIN), "GPTXT," + "x" * (LONGEST - 6 + rng.randrange(-3, 4))])
    made = sentence(body, rng.choice([0, 0, 1, 16, 255]))
    turn, at = rng.randrange(7), rng.randrange(len(made))
    if turn == 0:
        return made[:at]
    if turn == 1:
        return made[:at] + sentence(body) + made[at:]
    if turn == 2:
        return made[:-2] + rng.choice([b"\n", b"\r", b"\r\r\n", b"\n\r", b"", b"\x00\r\n"])
    if turn == 3:
        return made[:-4].replace(b"*", rng.choice([b"**", b"", b"*$", b"$"])) + made[-4:]
    if turn == 4:
        return made[:-4] + made[-4:].lower()
    if turn == 5:
        return made[:at] + head(rng) + made[at:]
    return made


def run_of(rng):
    unit = rng.choice([b"$", b"$A", b"$AAA", b"$GP", b"\xb5", b"\xb5\x62", b"\xb5\x62\x01", head(rng), b"\r\n", b"*", rng.randbytes(4)])
    return (unit * 3_000)[:rng.choice([1, 2, 5, LONGEST, LONGEST + 5, 511, 512, 513, MOST + 8, rng.randrange(3_000)])]


KINDS = [heads, bad_frame, bad_sentence, run_of]


def stream(rng):
    size, kind = rng.choice([100, 600, 2_500, 6_000]), rng.choice([None, *KINDS])
    out = bytearray()
    while len(out) < size:
        out += (kind or rng.choice(KINDS))(rng)
        if rng.random() < 0.4:
            out += rng.choice([good, any_frame, filler])(rng)
    return bytes(out[:8_000])


def script(rng, given):
    """The stream in pieces, between two clients."""
    lines = ["device a", "open 0", 'say 0 ?WATCH={"enable":true,"json":true,"nmea":true};', "open 1", 'say 1 ?WATCH={"enable":true,"raw":2};']
    sizes = rng.choice([[1], [1], [1, 2, 3, 5, 20], [512], [1, 60, 511, 512]])
    given = given[:2_500 if sizes == [1] else 8_000]
    at = 0
    while at < len(given):
        size = rng.choice(sizes)
        lines.append(f"bytes 0 {BEGIN + len(lines) // 10}.{len(lines) % 10}00000000 {given[at:at + size].hex()}")
        at += size
        if rng.random() < 0.01:
            lines.append(f"take {rng.randrange(2)} 65536")
    return "\n".join([*lines, "take 0 65536", "take 1 65536", ""]).encode()


def cases(number):
    """The words and the input of each run of a stream."""
    rng = random.Random(f"hostile_streams {number}")
    given = stream(rng)
    return [(["decode"], given), (["replay"], script(rng, given))]


if __name__ == "__main__":
    main(cases, __doc__)
