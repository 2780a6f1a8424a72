"""The texts that rows are made of: sentences and lines."""
from packets import sentence


def sentences(*bodies):
    return b"".join(map(sentence, bodies))


def fix(mode, members="", device="stdin"):
    """A TPV line; the members come after the mode, each with its comma before it."""
    return f'{{"class":"TPV","device":"{device}","mode":{mode}{members}}}\r\n'.encode()


def at(text):
    """The member of a time."""
    return f',"time":"{text}"'


def sky(members, satellites=(), used=0, device="stdin"):
    """A SKY line; each of the members has its comma after it."""
    seen = ",".join(f"{{{it}}}" for it in satellites)
    return (f'{{"class":"SKY","device":"{device}",{members}"nSat":{len(satellites)},"uSat":{used},'
            f'"satellites":[{seen}]}}\r\n').encode()


RMC = b"$GPRMC,123519,A,4807.038,N,01131.000,E,022.4,084.4,230394,003.1,W*6A\r\n"
GGA = b"$GPGGA,123519,4807.038,N,01131.000,E,1,08,0.9,545.4,M,46.9,M,,*47\r\n"
ZDA = b"$GPZDA,235959,31,12,2024,00,00*4C\r\n"
BEFORE_MIDNIGHT = b"$GPGGA,235959,4807.038,N,01131.000,E,1,08,0.9,545.4,M,46.9,M,,*4B\r\n"
MIDNIGHT = b"$GPGGA,000000,4807.038,N,01131.000,E,1,08,0.9,545.4,M,46.9,M,,*4A\r\n"

PLACE = ',"lat":48.117300000,"lon":11.516666667'
HEIGHT = ',"altMSL":545.400,"geoidSep":46.900'
COURSE = ',"track":84.4000,"speed":11.524'


def rmc_fix(device="stdin"):
    return fix(2, at("1994-03-23T12:35:19.000Z") + PLACE + COURSE, device)


def height_fix(time, device="stdin"):
    """The fix of MIDNIGHT and of BEFORE_MIDNIGHT."""
    return fix(3, (at(time) if time else "") + PLACE + HEIGHT, device)


# A NAV-PVT of 2024-06-01 12:00:00, at 48 degrees north and 10 degrees east, with all that a fix has.
PVT = bytes.fromhex(
    "00000000e80706010c000007000000000000000003010008"
    "00e1f50500389c1c20a1070088e90600"
    "00000000000000000000000000000000"
    "18fcffffdc050000405489000000000000000000"
    "96000000000000000000000000000000")
PVT_FRAME = b"\xb5b\x01\x07\x5c\x00" + PVT + b"\x29\x4d"
EOE_FRAME = bytes.fromhex("b562016104000000000066c7")


VERSION = b'{"class":"VERSION","release":"gpsrelay-1","rev":"1","proto_major":3,"proto_minor":1}\r\n'


def devices(*names):
    """The DEVICES line of these names, each alone or with the time of its first byte."""
    listed = []
    for name in names:
        path, first = name if isinstance(name, tuple) else (name, None)
        listed.append(f'{{"class":"DEVICE","path":"{path}"' + (f',"activated":"{first}"' if first else "") + "}")
    return f'{{"class":"DEVICES","devices":[{",".join(listed)}]}}\r\n'.encode()


def policy(enable=True, json=False, nmea=False, raw=0, pps=False, device=None):
    """The WATCH line of this policy."""
    truth = {False: "false", True: "true"}
    return (f'{{"class":"WATCH","enable":{truth[enable]},"json":{truth[json]},"nmea":{truth[nmea]},"raw":{raw},"pps":{truth[pps]}'
            + (f',"device":"{device}"' if device else "") + "}\r\n").encode()


def device(name, first=None):
    return (f'{{"class":"DEVICE","path":"{name}"' + (f',"activated":"{first}"' if first else "") + "}\r\n").encode()


def time_pair(kind, real, clock, name="g"):
    """A TOFF line, or a PPS line; the stamps are texts of seconds and nanoseconds."""
    members = [f'"real_sec":{real}', '"real_nsec":0', f'"clock_sec":{clock[0]}', f'"clock_nsec":{clock[1]}'] + ['"precision":-20'] * (kind == "PPS")
    return f'{{"class":"{kind}","device":"{name}",{",".join(members)}}}\r\n'.encode()


def error(message):
    return f'{{"class":"ERROR","message":"{message}"}}\r\n'.encode()


def shown(session, item):
    """The line of a replay that shows an item of a session."""
    text = "".join(chr(byte) if 32 <= byte <= 126 and byte != 92 else f"\\x{byte:02x}" for byte in item)
    return f"s{session} {text}\n".encode()


def session(number, items, why="daemonend"):
    """All items of a session, and its closing line."""
    return b"".join(shown(number, item) for item in items) + f"s{number} drained {why} {len(items)}\n".encode()


def unit(number, published, count=None, left=0):
    """The closing line of a unit."""
    return f"u{number} published {published} count {2 * published if count is None else count} left {left}\n".encode()
