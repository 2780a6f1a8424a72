#!/usr/bin/env python3
"""Writes the track of one receiver as GPX, KML, GeoJSON or CSV, with times, heights and speeds.

    gpsrelay decode < drive.log | export.py -o drive.gpx
    gpsrelay decode < drive.log | export.py --format csv > drive.csv
    export.py --daemon -o today.kml

It reads the JSON lines of `gpsrelay decode` or of a session with the daemon, from files, from standard input or from the daemon itself,
until their end or Ctrl-C, and writes one file. Each fix with a position is one point, with the line's own time. A new segment begins
after a line that tells no position, after more than --gap seconds without one, where time goes back, and where the daemon was gone.
Of several devices the first is written, or the one that --device names. A line that is no JSON object with a class, or whose members
cannot be right, is counted on standard error. If no line is good, nothing is written.
"""
import sys

sys.dont_write_bytecode = True  # nothing is left in the folder of the installed program

import command  # noqa: E402
import track_files  # noqa: E402
import track_input  # noqa: E402
from command import say  # noqa: E402
from track_lines import segments  # noqa: E402


def words():
    def further(parser):
        parser.add_argument("--format", choices=track_files.FORMATS, help="the format (by default that of the ending of OUT)")

    parser, given = track_input.command_line(__doc__.split("\n", 1)[0], "OUT", further)
    given.format = given.format or track_files.format_of(given.output or "")
    if given.format is None:
        parser.error("which format? Say --format, or give -o a name that ends in .gpx, .kml, .geojson or .csv")
    return given


def work(given):
    run, device = track_input.read_run(given, f"OUT.{given.format}", [given.output])
    if device is None:
        say(f"no line of device {given.device}")
        return 1
    runs = segments(run.fixes.get(device, []), given.gap)
    if not runs:
        say("no line tells a position; the track is empty")
    name = given.title or track_files.name_of(device, runs)
    track_input.write(given.output, track_files.FORMATS[given.format](name, device, runs))
    return 0


def main():
    given = words()
    return track_input.written(lambda: work(given))


if __name__ == "__main__":
    sys.exit(command.run(main))
