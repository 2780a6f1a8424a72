"""What `decode` and `pseudo` write of sentences and of u-blox frames."""
from packets import frame, sentence
from rows_text import (BEFORE_MIDNIGHT, COURSE, EOE_FRAME, GGA, HEIGHT, MIDNIGHT, PLACE, PVT, PVT_FRAME, RMC, ZDA, at, fix, height_fix, rmc_fix,
                       sentences, sky)

NO_FIX = fix(1)
EAST = ',"lat":48.000000000,"lon":10.000000000'
NOON = at("2024-06-01T12:00:00.000Z")


def decoded(given, *lines):
    return ["decode"], given, 0, b"".join(lines)


def dated(time, *bodies):
    """A fix of mode 1 with this time, or without one."""
    return decoded(sentences(*bodies), fix(1, at(time) if time else ""))


KINDS = [decoded(sentence(body), NO_FIX) for body in ("GPGGA,", "GNRMC,", "GPZDA,", "GPGLL,")] + [
    decoded(sentence(body)) for body in ("GPGST,", "PXGGA,", "GPGGAX,", "GGA,", "GPVTG,", "GPGSA,")]

# A sentence that gives a time alone shows the day that is known beside it.
TIMES = [
    dated("2024-12-31T23:59:59.000Z", "GPZDA,235959,31,12,2024,00,00"),
    dated("2025-01-01T00:00:00.000Z", "GPZDA,235960,31,12,2024,00,00"),
    dated("2100-01-01T00:00:00.750Z", "GPZDA,235960.75,31,12,2099,00,00"),
    dated(None, "GPZDA,120000,29,02,2023"),
    dated(None, "GPZDA,120000,31,04,2024"),
    dated(None, "GPZDA,120000,01,00,2024"),
    dated(None, "GPZDA,120000,01,13,2024"),
    dated(None, "GPZDA,120000,00,01,2024"),
    dated(None, "GPZDA,120000,31,12,1979"),
    dated(None, "GPZDA,120000,01,01,2100"),
    dated("1980-01-01T12:00:00.000Z", "GPZDA,120000,01,01,1980"),
    dated("1980-02-29T12:00:00.000Z", "GPZDA,120000,29,02,1980"),
    dated("2000-02-29T12:00:00.000Z", "GPZDA,120000,29,02,2000"),
    dated("2000-01-01T00:00:00.500Z", "GPRMC,235960.5,V,,,,,,,311299"),
    dated("1980-01-01T00:00:01.000Z", "GPRMC,123519.,V,,,,,,,010180", "GPGLL,,,,,000001,V"),
    dated("2079-01-01T00:00:01.000Z", "GPRMC,240000,V,,,,,,,010179", "GPGLL,,,,,000001,V"),
    dated(None, "GPRMC,125961,V,,,,,,,300299", "GPGLL,,,,,000001,V"),
    dated("1980-01-01T00:00:00.123Z", "GPZDA,,01,01,1980", "GPGLL,,,,,000000.1234567899,V"),
]


def placed(where, *fields):
    return decoded(sentence("GPGLL," + ",".join(fields)), fix(2, where) if where else NO_FIX)


PLACES = [
    placed(PLACE, "4807.038", "N", "01131.000", "E", "", "A"),
    placed(',"lat":-48.117300000,"lon":-11.516666667', "4807.038", "S", "01131.000", "W", "", "A"),
    placed(',"lat":90.000000000,"lon":-180.000000000', "9000.00000001", "N", "18000.0", "W", "", "A"),
    placed(',"lat":0.000000002,"lon":0.000000003', "0000.0000001", "N", "00000.0000002", "E", "", "A"),
    placed(None, "9000.0000001", "N", "00000", "E", "", "A"),
    placed(None, "4860.000", "N", "01131.000", "E", "", "A"),
    placed(None, "4807.", "N", "01131.000", "E", "", "A"),
    placed(None, "4807.038", "E", "01131.000", "E", "", "A"),
    placed(None, "4807.038", "N", "01131.000", "E", "", "V"),
]

GLL = "GPGLL,4807.038,N,01131.000,E,,A"
COURSES = [decoded(sentences(GLL, "GPVTG," + fields), fix(2, PLACE + course)) for fields, course in (
    ("084.4,T,,M,022.4,N,041.5,K", COURSE),
    ("360.00009,X,,X,-0.0009,X", ',"track":360.0000,"speed":0.000'),
    ("360.0001,T,,M,-0.001,N", ""),
    ("5.,T,,M,.5,N", ',"track":5.0000,"speed":0.257'),
    (",T,,M,1000000,N", ',"speed":514444.444'),
    ("-1,T,,M,1000000.001,N", ""),
)]

ONE_SEEN = "GPGSV,1,1,01,01,40,083,46"
SEEN = '"PRN":1,"el":40,"az":83,"ss":46,"used":false,"gnssid":0,"svid":1'
QUALITIES = [
    decoded(sentences("GPGGA,,4807.038,N,01131.000,E,1,08,0.9,545.4,M,46.9,M,,", ONE_SEEN),
            fix(3, PLACE + HEIGHT), sky('"hdop":0.90,', [SEEN])),
    decoded(sentences(GLL, "GPGGA,,,,,,8,,100,-3.5,M,-0.001,M", ONE_SEEN),
            fix(3, PLACE + ',"altMSL":-3.500,"geoidSep":-0.001'), sky("", [SEEN])),
    decoded(sentences(GLL, "GPGGA,,,,,,0,,0.9,545.4,M,46.9", ONE_SEEN), NO_FIX, sky("", [SEEN])),
    decoded(sentences(GLL, "GPGGA,,,,,,9,,0.9,545.4,M,46.9", ONE_SEEN), fix(2, PLACE), sky("", [SEEN])),
]

# A height is read with three decimals.
NUMBERS = [decoded(sentence(f"GPGGA,,4807.038,N,01131.000,E,1,,,{text},M,,M,,"),
                   fix(3, PLACE + f',"altMSL":{height}') if height else fix(2, PLACE)) for text, height in (
    ("022.4", "22.400"), ("5.", "5.000"), (".5", "0.500"), ("-.5", "-0.500"), ("-0.0009", "0.000"), ("-1.2399", "-1.239"), ("7", "7.000"),
    ("1.000000000000000000000000000001", "1.000"), ("1234567890", None), (".", None), ("-", None), ("+1", None), ("--1", None),
    ("1.2.3", None), ("1e3", None),
)]

DILUTIONS = '"pdop":2.50,"hdop":1.30,"vdop":2.10,'
USED = [
    decoded(sentences("GNGSA,A,3,65,,,,,,,,,,,,2.5,1.3,2.1,2", "GLGSV,1,1,02,65,40,083,46,66,17,308,41,1", "GPGSV,1,1,01,65,10,010,30,1"),
            sky(DILUTIONS, ['"PRN":65,"el":40,"az":83,"ss":46,"used":true,"gnssid":6,"svid":65,"sigid":1',
                            '"PRN":66,"el":17,"az":308,"ss":41,"used":false,"gnssid":6,"svid":66,"sigid":1',
                            '"PRN":65,"el":10,"az":10,"ss":30,"used":false,"gnssid":0,"svid":65,"sigid":1'], 1)),
    decoded(sentences("GPGSA,A,3,04,05,,09,12,,,24,,,,,2.5,1.3,2.1") +
            2 * sentences("GPGSV,2,1,08,01,40,083,46,02,17,308,41,12,07,344,39,14,22,228,45"),
            sky(DILUTIONS, [SEEN, '"PRN":2,"el":17,"az":308,"ss":41,"used":false,"gnssid":0,"svid":2',
                            '"PRN":12,"el":7,"az":344,"ss":39,"used":true,"gnssid":0,"svid":12',
                            '"PRN":14,"el":22,"az":228,"ss":45,"used":false,"gnssid":0,"svid":14'], 1)),
    decoded(sentences(GLL, "GNGSA,A,1,0,1000,-1,999,,,,,,,,,2.5,1.3,2.1,1", "GPGSV,1,1,01,999,,,"),
            NO_FIX, sky(DILUTIONS, ['"PRN":999,"used":true,"gnssid":0,"svid":999'], 1)),
    decoded(sentences(GLL, "GPGGA,,,,,,1,,,5,M,6,M", "GNGSA,A,2,,,,,,,,,,,,,2.5,1.3,2.1,3"), fix(2, PLACE)),
    decoded(sentences("GNGSA,A,3,1,2", "GAGSV,1,1,01,1,,,", "GPGSV,1,1,01,2,,,"),
            sky("", ['"PRN":1,"used":true,"gnssid":2,"svid":1', '"PRN":2,"used":true,"gnssid":0,"svid":2'], 2)),
    decoded(sentences("GPGSA,A,3,,,,,,,,,,,,,2.5,99.999,100", "GPGSV,1,1,00"), sky('"pdop":2.50,"hdop":99.99,')),
    # A GSA of a system speaks of that one and of satellites that name none; one without a system speaks of all. Others are not asked.
    decoded(sentences("GPGSV,1,1,01,12,,,", "GAGSV,1,1,01,12,,,", "GNGSV,1,1,01,12,,,", "GPGSV,1,1,01,12,,,,1", "GAGSV,1,1,01,12,,,",
                      "GPGSV,1,1,01,12,,,,1", "GNGSA,A,3,12,,,,,,,,,,,,,,,3", "GPRMC,,V"),
            NO_FIX, sky("", ['"PRN":12,"used":false,"gnssid":0,"svid":12', '"PRN":12,"used":true,"gnssid":2,"svid":12',
                             '"PRN":12,"used":true', '"PRN":12,"used":false,"gnssid":0,"svid":12,"sigid":1'], 2)),
    decoded(sentences("GPGSA,A,3,12", "GNGSV,1,1,01,12,,,", "GPGSV,1,1,01,12,,,,1", "GPGSV,1,1,01,12,,,"),
            sky("", ['"PRN":12,"used":true', '"PRN":12,"used":true,"gnssid":0,"svid":12,"sigid":1',
                     '"PRN":12,"used":true,"gnssid":0,"svid":12'], 3)),
]

VIEWS = [decoded(sentence(body), sky("", [f'"PRN":{prn},"el":40,"az":83,"ss":46,"used":false{system}'])) for body, prn, system in (
    ("GPGSV,1,1,01,01,40,083,46", 1, ',"gnssid":0,"svid":1'),
    ("GLGSV,1,1,01,65,40,083,46,1", 65, ',"gnssid":6,"svid":65,"sigid":1'),
    ("GAGSV,1,1,01,5,40,083,46,b", 5, ',"gnssid":2,"svid":5,"sigid":11'),
    ("GBGSV,1,1,01,5,40,083,46,F", 5, ',"gnssid":3,"svid":5,"sigid":15'),
    ("GPGSV,1,1,01,5,40,083,46,10", 5, ',"gnssid":0,"svid":5'),
    ("GPGSV,1,1,01,5,40,083,46,1,", 5, ',"gnssid":0,"svid":5'),
)] + [decoded(sentence(body), sky("")) for body in ("GPGSV,1,1,01,5,40,083", "GPGSV,1,1,01,1000,40,083,46")] + [
    decoded(sentence("GPGSV,2,1,08,01,40,083,46,,17,308,41,12,-90,360,,14,91,361,100"),
            sky("", [SEEN, '"PRN":12,"el":-90,"az":360,"used":false,"gnssid":0,"svid":12', '"PRN":14,"used":false,"gnssid":0,"svid":14']))]


def pvt(at_byte, data, line):
    """A NAV-PVT that has these bytes at this place, and its line."""
    return decoded(frame(1, 7, PVT[:at_byte] + data + PVT[at_byte + len(data):]), line)


def number(value):
    return value.to_bytes(4, "little", signed=True)


def whole(time=NOON, place=EAST, heights=',"altHAE":500.000,"altMSL":453.000,"geoidSep":47.000', track=',"track":90.0000', speed=',"speed":1.500',
          climb=',"climb":1.000'):
    return fix(3, time + place + heights + track + speed + climb)


FLAT = fix(2, NOON + EAST + ',"track":90.0000,"speed":1.500')
MODES = [pvt(20, bytes(flags), {1: fix(1, NOON), 2: FLAT, 3: whole()}[mode]) for flags, mode in (
    ((0, 1), 1), ((1, 1), 1), ((2, 1), 2), ((3, 1), 3), ((4, 0xFF), 3), ((5, 1), 1), ((3, 0), 1), ((3, 0xFE), 1))]


def clock(year, parts, nano, time):
    given = PVT[:4] + year.to_bytes(2, "little") + bytes(parts) + PVT[12:16] + number(nano) + PVT[20:]
    return decoded(frame(1, 7, given), whole(at(time) if time else ""))


CLOCKS = [clock(*row) for row in (
    (2024, (6, 1, 0, 0, 0, 3), -1, "2024-05-31T23:59:59.999Z"),
    (2024, (6, 1, 12, 0, 0, 3), -1_000_000_000, "2024-06-01T11:59:59.000Z"),
    (2024, (6, 1, 23, 59, 59, 3), 1_000_000_000, "2024-06-02T00:00:00.000Z"),
    (2024, (6, 1, 23, 59, 60, 0xF3), 0, "2024-06-02T00:00:00.000Z"),
    (2024, (2, 29, 1, 2, 3, 3), 4, "2024-02-29T01:02:03.000Z"),
    (1980, (1, 1, 0, 0, 0, 3), 0, "1980-01-01T00:00:00.000Z"),
    (2099, (12, 31, 23, 59, 60, 3), -1, "2099-12-31T23:59:59.999Z"),
    (2024, (6, 1, 12, 0, 0, 1), 0, None),
    (2024, (6, 1, 12, 0, 0, 2), 0, None),
    (2024, (6, 1, 24, 0, 0, 3), 0, None),
    (2024, (6, 1, 12, 60, 0, 3), 0, None),
    (2024, (6, 1, 12, 0, 61, 3), 0, None),
    (2024, (6, 1, 12, 0, 0, 3), 1_000_000_001, None),
    (2024, (6, 1, 12, 0, 0, 3), -1_000_000_001, None),
    (2023, (2, 29, 12, 0, 0, 3), 0, None),
    (1980, (1, 1, 0, 0, 0, 3), -1, None),
    (2099, (12, 31, 23, 59, 60, 3), 0, None),
    (2100, (1, 1, 0, 0, 0, 3), -1, None),
)]

NOWHERE = fix(1, NOON)
RANGES = [
    pvt(28, number(900_000_000), whole(place=',"lat":90.000000000,"lon":10.000000000')),
    pvt(28, number(900_000_001), NOWHERE),
    pvt(28, number(-900_000_000), whole(place=',"lat":-90.000000000,"lon":10.000000000')),
    pvt(28, number(-900_000_001), NOWHERE),
    pvt(24, number(1_800_000_000), whole(place=',"lat":48.000000000,"lon":180.000000000')),
    pvt(24, number(1_800_000_001), NOWHERE),
    pvt(24, number(-1_800_000_000), whole(place=',"lat":48.000000000,"lon":-180.000000000')),
    pvt(24, number(-1_800_000_001), NOWHERE),
] + [pvt(64, number(heading), whole(track=f',"track":{track}' if track else "")) for heading, track in (
    (-18_000_001, None), (-18_000_000, "180.0000"), (-1, "360.0000"), (4, "0.0000"), (5, "0.0001"), (36_000_000, "360.0000"),
    (36_000_001, None))] + [
    pvt(60, number(-1), whole(speed="")),
    pvt(60, number(0), whole(speed=',"speed":0.000')),
    pvt(60, number(2**31 - 1), whole(speed=',"speed":2147483.647')),
    pvt(56, number(1_000), whole(climb=',"climb":-1.000')),
    pvt(56, number(-(2**31)), whole(climb=',"climb":2147483.648')),
    pvt(36, number(-(2**31)), whole(heights=',"altHAE":500.000,"altMSL":-2147483.648,"geoidSep":2147983.648')),
]


def numbered(tag, payload=b"\x01\x00\x00\x00"):
    """A NAV-SAT of this time of the week."""
    return frame(1, 0x35, tag.to_bytes(4, "little") + payload)


FRAMES = [
    decoded(PVT_FRAME, whole()),
    decoded(PVT_FRAME + numbered(0), whole(), sky(NOON[1:] + ',"pdop":1.50,')),
    decoded(frame(1, 7, PVT[:76] + b"\xff\xff" + PVT[78:]) + numbered(0), whole(), sky(NOON[1:] + ',"pdop":655.35,')),
    decoded(frame(1, 7, PVT) + numbered(1), whole(), sky("")),
    decoded(numbered(16, bytes.fromhex("01030000" "00052fa66801000008000000" "06ff00a569010000f7ffffff" "ff01ff5affff00000f000000")),
            sky("", ['"PRN":5,"el":-90,"az":360,"ss":47,"used":true,"gnssid":0,"svid":5',
                     '"PRN":855,"ss":0,"used":false,"gnssid":6,"svid":255',
                     '"PRN":25501,"el":90,"ss":255,"used":true,"gnssid":255,"svid":1'], 2)),
    decoded(frame(1, 4, bytes.fromhex("010203049999960099990a0164009999" "9999")) + numbered(0x04030201),
            sky('"pdop":1.50,"hdop":1.00,"vdop":2.66,')),
    # The first epoch ends by the NAV-EOE, and the second at the end: what came first has no tag and joins the next note.
    decoded(2 * sentences(ONE_SEEN) + RMC + frame(1, 0x61, b"\x01\x00\x00\x00") + RMC + EOE_FRAME,
            rmc_fix(), sky(at("1994-03-23T12:35:19.000Z")[1:] + ",", [SEEN]), rmc_fix()),
    # A tag is compared with the last of its own kind: only the NAV-SAT begins another epoch.
    decoded(sentence("GPGGA,000001") + PVT_FRAME + sentence("GPGGA,000001") + frame(1, 4, bytes(18)) + numbered(8),
            whole(at("2024-06-01T00:00:01.000Z")), sky("")),
] + [decoded(it) for it in (
    frame(2, 7, PVT), frame(1, 6, PVT), frame(1, 7, PVT[:84]), frame(1, 0x35, bytes(7)), frame(1, 4, bytes(19)), frame(1, 0x61, b""),
    frame(1, 0x35, bytes.fromhex("100000000102000000052fa66801000008000000")))]

EPOCHS = [
    decoded(b""),
    decoded(RMC, rmc_fix()),
    decoded(b"$GPRMC,123518,A,4807.038,N,01131.000,E,022.4,084.4,230394,003.1,W*6B\r\n" + RMC,
            fix(2, at("1994-03-23T12:35:18.000Z") + PLACE + COURSE), rmc_fix()),
    decoded(RMC + GGA, fix(3, at("1994-03-23T12:35:19.000Z") + PLACE + HEIGHT + COURSE)),
    decoded(b"$GPRMC,123519,A,4860.000,N,,E,022.4,084.4,230394,003.1,W*4C\r\n", fix(1, at("1994-03-23T12:35:19.000Z"))),
    decoded(ZDA + BEFORE_MIDNIGHT + MIDNIGHT, height_fix("2024-12-31T23:59:59.000Z"), height_fix("2025-01-01T00:00:00.000Z")),
    decoded(b"$GPZDA,235959,31,12,2099,00,00*4A\r\n" + MIDNIGHT + BEFORE_MIDNIGHT + MIDNIGHT,
            fix(1, at("2099-12-31T23:59:59.000Z")), height_fix("2100-01-01T00:00:00.000Z"), height_fix("2100-01-01T23:59:59.000Z"),
            height_fix(None)),
]

# What is broken gives nothing, and what is in it or after it is found, or is waited for.
BROKEN = [
    decoded(RMC[:-3] + b"B\r\n"),
    decoded(RMC[:-1]),
    decoded(b"$" + 200 * b"A" + RMC, rmc_fix()),
    decoded(b"\xb5b\x01\x07\x5c\x00" + RMC + 24 * b".", rmc_fix()),
    decoded(b"\xb5b\x01\x07\xff\xff" + RMC, rmc_fix()),
    decoded(b"\xb5b\x01\x07\x00\x08" + RMC),
]

# The sentence has 70 bytes.
WORDS = [
    (["decode", "--history", "69"], RMC, 5, b""),
    (["decode", "--history", "70"], RMC, 0, rmc_fix()),
    (["decode", "--history", "0"], RMC, 2, b""),
    (["decode", "--history", "70", "--history", "70"], RMC, 2, b""),
    (["pseudo", "--history=5"], RMC, 5, b""),
    (["replay", "--queue=2"], b"", 0, b""),
    (["generate", "--seed", "1"], b"", 2, b""),
    (["pseudo", "--history", "69"], RMC, 5, b""),
    (["lines"], RMC, 6, b"bad line 1\n"),
    (["frob"], RMC, 2, b""),
    ([], RMC, 2, b""),
]

MADE = [
    (["pseudo"], PVT_FRAME, 0,
     b"$GPRMC,120000.000000000,A,4800.0000000,N,01000.0000000,E,2.916,90.0000,010624,,,A*64\r\n"
     b"$GPGGA,120000.000000000,4800.0000000,N,01000.0000000,E,1,,,453.000,M,47.000,M,,*7D\r\n"),
    (["pseudo"], b"$GPRMC,123519,A,4860.000,N,,E,022.4,084.4,230394,003.1,W*4C\r\n", 0,
     b"$GPRMC,123519.000000000,V,,,,,,,230394,,,N*4F\r\n$GPGGA,123519.000000000,,,,,0,,,,M,,M,,*75\r\n"),
]

TABLES = [
    ("decode: kinds of sentences", KINDS),
    ("decode: times and days", TIMES),
    ("decode: places", PLACES),
    ("decode: tracks and speeds", COURSES),
    ("decode: the quality of a fix", QUALITIES),
    ("decode: numbers", NUMBERS),
    ("decode: used satellites and dilutions", USED),
    ("decode: satellites in view", VIEWS),
    ("decode: NAV-PVT, its modes", MODES),
    ("decode: NAV-PVT, its clock", CLOCKS),
    ("decode: NAV-PVT, the ends of its ranges", RANGES),
    ("decode: other frames, and their epochs", FRAMES),
    ("decode: epochs of sentences", EPOCHS),
    ("decode: broken packets", BROKEN),
    ("pseudo: the sentences of a fix", MADE),
    ("words, and a history of 69 bytes", WORDS),
]
