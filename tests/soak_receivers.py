"""The receivers of a soak, and the history that their bytes make: what a client must be given is known beforehand.

The packets are those that are fed. The JSON lines are worked out here, and are what `gpsrelay replay` gives a client of such bytes.
Item 6 k + n is the n-th of second k of a receiver.
"""
import re
import struct
import time

from harness import BEGIN, TcpDevice, frame, gga, nav_eoe, nav_pvt, rmc, run, sentence

WEEK = 604_800  # seconds
STAMPED = b'%d,"clock_nsec":0}\r\n' % BEGIN  # the end of a TOFF that `replay` gives


def replayed(program, name, packets):
    """What `replay` gives a client that watches all of a device whose bytes are these packets, up to the device's end; without what
    greets the client, and what says that the device begins and ends."""
    script = [f"device {name}", "open 0 65536", 'say 0 ?WATCH={"json":true,"nmea":true,"raw":2,"pps":true};']
    script += [f"bytes 0 {BEGIN}.000000000 {packet.hex()}" for packet in packets] + ["end 0", "take 0 65536"]
    status, out, _ = run(program, "replay", "--queue", "65536", given="\n".join(script).encode() + b"\n", seconds=300)
    if status != 0:
        raise RuntimeError(f"replay ended with {status}")
    items = [line[3:] for line in out.splitlines() if line.startswith(b"s0 ")]
    return [re.sub(rb"\\x(..)", lambda found: bytes.fromhex(found[1].decode()), item) for item in items][3:-2]


def iso(k):
    """The time of second k."""
    return time.strftime("%Y-%m-%dT%H:%M:%S.000Z", time.gmtime(BEGIN + k))


def near(place, turn, fed):
    """The number nearest to `fed` that differs from `place` by whole turns."""
    return place + (fed - place + turn // 2) // turn * turn


class Receiver(TcpDevice):
    """A device and its history. `KINDS` says by which member of a policy each of the six items of a second is selected, `EARLY` which of
    them are of the second before, and so are not there in second 0."""
    toff = '{{"class":"TOFF","device":"{}","real_sec":{},"real_nsec":0,"clock_sec":'

    def __init__(self, name):
        super().__init__(name)
        self.fed = 0
        self.known = {}

    def items(self, k):
        """The six items of second k; of the TOFF its beginning."""
        if k not in self.known:
            self.known[k] = self.made(k)
            self.known.pop(k - 20_000, None)
        return self.known[k]

    def feed(self, count=1):
        """Sends the next seconds."""
        data = b"".join(b"".join(self.packets(k)) for k in range(self.fed, self.fed + count))
        self.fed += count
        self.send(data)

    def as_replayed(self, program, first, count):
        """Whether `replay` says of these seconds what the items say."""
        seconds = range(first, first + count)
        items = [item + STAMPED if kind == "pps" else item for k in seconds for kind, item in zip(self.KINDS, self.items(k))]
        wanted = [item for n, item in enumerate(items) if n not in self.EARLY]
        if self.EARLY:  # the end closes the last second
            wanted += self.reports(first + count - 1)
        return wanted == replayed(program, self.name, [packet for k in seconds for packet in self.packets(k)])


class Sentences(Receiver):
    """The RMC, the TPV and the SKY of the second before, the TOFF, the GGA and the GSV."""
    KINDS, EARLY = ("nmea", "json", "json", "pps", "nmea", "nmea"), (1, 2)
    LEFT = 2  # the last item that the end gives is this far behind the seconds that were fed

    def __init__(self, name, talker, satellites, system):
        super().__init__(name)
        self.talker, self.satellites, self.system = talker, satellites, system

    def packets(self, k):
        """The RMC, the GGA and the GSV of second k. The elevation and the azimuth of the GSV hold k, modulo 32,400."""
        place = f"4807.{k % 1000 * 6:04d},N,01131.000,E"
        return (rmc(BEGIN + k, place, self.talker), gga(BEGIN + k, place, self.talker),
                sentence(f"{self.satellites}GSV,1,1,02,01,{k // 360 % 90:02d},{k % 360:03d},46,02,17,308,41"))

    def reports(self, k):
        """The TPV and the SKY of second k."""
        fix = (f'{{"class":"TPV","device":"{self.name}","mode":3,"time":"{iso(k)}","lat":48.{116666667 + k % 1000 * 10000:09d},"lon":11.516666667,'
               '"altMSL":545.400,"geoidSep":46.900,"track":84.4000,"speed":11.524}\r\n')
        seen = (f'{{"PRN":1,"el":{k // 360 % 90},"az":{k % 360},"ss":46,"used":false,"gnssid":{self.system},"svid":1}},'
                f'{{"PRN":2,"el":17,"az":308,"ss":41,"used":false,"gnssid":{self.system},"svid":2}}')
        sky = f'{{"class":"SKY","device":"{self.name}","time":"{iso(k)}","hdop":0.90,"nSat":2,"uSat":0,"satellites":[{seen}]}}\r\n'
        return fix.encode(), sky.encode()

    def made(self, k):
        of_rmc, of_gga, of_gsv = self.packets(k)
        tpv, sky = self.reports(k - 1) if k else (None, None)
        return of_rmc, tpv, sky, self.toff.format(self.name, BEGIN + k).encode(), of_gga, of_gsv

    def fix_before(self, at):
        """The second of the last fix at or before item `at`."""
        return at // 6 - (1 if at % 6 else 2)

    def place(self, line):
        """The place of a packet, by the time in it; the day is the nearest to what was fed."""
        n = {b"RMC": 0, b"GGA": 4, b"GSV": 5}.get(line[3:6])
        if n is None:
            return None
        fields = line.split(b",")
        if n == 5:
            return 6 * near(int(fields[5]) * 360 + int(fields[6]), 32_400, self.fed) + n
        clock = fields[1]
        tod = int(clock[:2]) * 3600 + int(clock[2:4]) * 60 + int(clock[4:6])
        return 6 * near((tod - BEGIN) % 86_400, 86_400, self.fed) + n


class Frames(Receiver):
    """The NAV-PVT, the TOFF, the NAV-SAT, the NAV-EOE, and at once the TPV and the SKY. The time of week of second k is k seconds."""
    KINDS, EARLY = ("raw", "pps", "raw", "raw", "json", "json"), ()
    LEFT = -1

    def packets(self, k):
        itow = 1000 * (k % WEEK)
        sat = struct.pack("<IBBHBBBbhhIBBBbhhI", itow, 1, 2, 0, 0, 1, 46, k // 360 % 90, k % 360, 0, 8, 6, 2, 41, -17, 308, 0, 0)
        return nav_pvt(BEGIN + k, itow, north=k % 1000), frame(1, 0x35, sat), nav_eoe(itow)

    def reports(self, k):
        fix = (f'{{"class":"TPV","device":"{self.name}","mode":3,"time":"{iso(k)}","lat":48.{117300000 + k % 1000 * 100:09d},"lon":11.516666700,'
               '"altHAE":592.300,"altMSL":545.400,"geoidSep":46.900,"track":84.4000,"speed":0.022,"climb":0.030}\r\n')
        seen = (f'{{"PRN":1,"el":{k // 360 % 90},"az":{k % 360},"ss":46,"used":true,"gnssid":0,"svid":1}},'
                '{"PRN":602,"el":-17,"az":308,"ss":41,"used":false,"gnssid":6,"svid":2}')
        sky = f'{{"class":"SKY","device":"{self.name}","time":"{iso(k)}","pdop":1.83,"nSat":2,"uSat":1,"satellites":[{seen}]}}\r\n'
        return fix.encode(), sky.encode()

    def made(self, k):
        pvt, sat, eoe = self.packets(k)
        return pvt, self.toff.format(self.name, BEGIN + k).encode(), sat, eoe, *self.reports(k)

    def fix_before(self, at):
        return at // 6 - (at % 6 < 4)

    def place(self, line):
        packet = bytes.fromhex(line.decode()) if line[:1] == b"b" else line
        n = {0x07: 0, 0x35: 2, 0x61: 3}.get(packet[3])
        return None if n is None else 6 * near(int.from_bytes(packet[6:10], "little") // 1000, WEEK, self.fed) + n
