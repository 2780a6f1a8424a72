#!/usr/bin/env python3
"""Draws a run of one receiver as a picture: its track, its last sky, and its speed and height over time.

    gpsrelay decode < drive.log | track.py -o drive.svg
    track.py --daemon -o today.svg --gpx today.gpx

It reads the JSON lines of `gpsrelay decode` or of a session with the daemon, from files, from standard input or from the daemon itself,
until their end or Ctrl-C, and writes one SVG; and the same track as GPX if --gpx asks for it. TPV and SKY lines are drawn; other classes
are passed over. A line that is no JSON object with a class, or whose members cannot be right, is a bad line: it is counted on standard
error. If no line is good, nothing is written. Of several devices the first is drawn, or the one that --device names.
"""
import os
import sys

sys.dont_write_bytecode = True  # nothing is left in the folder of the installed program

import command  # noqa: E402
import track_files  # noqa: E402
import track_input  # noqa: E402
import track_picture  # noqa: E402
from command import say  # noqa: E402
from track_lines import segments  # noqa: E402


def ends_in(path, ending):
    """Whether the ending of a name is this one, or it has none."""
    return os.path.splitext(path or "")[1].lower() in ("", ending)


def words():
    def further(parser):
        parser.add_argument("--gpx", metavar="OUT.gpx", help="writes the same track as GPX too")

    parser, given = track_input.command_line(__doc__.split("\n", 1)[0], "OUT.svg", further)
    if given.gpx and given.output and os.path.realpath(given.gpx) == os.path.realpath(given.output):
        parser.error(f"{given.output} would be written twice")
    for path, ending in (given.output, ".svg"), (given.gpx, ".gpx"):
        if not ends_in(path, ending):
            parser.error(f"{path}: it would be {ending[1:].upper()}, so give it a name that ends in {ending}")
    return given


def work(given):
    run, device = track_input.read_run(given, "OUT.svg", [given.output, given.gpx])
    if device is None:
        say(f"no line of device {given.device}")
        return 1
    fixes = run.fixes.get(device, [])
    track_input.write(given.output, track_picture.draw(device, fixes, run.skies.get(device), given.title, given.gap))
    if given.gpx is not None:
        runs = segments(fixes, given.gap)
        track_input.write(given.gpx, track_files.gpx(given.title or track_files.name_of(device, runs), device, runs))
    return 0


def main():
    given = words()
    return track_input.written(lambda: work(given))


if __name__ == "__main__":
    sys.exit(command.run(main))
