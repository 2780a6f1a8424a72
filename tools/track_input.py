"""The words and the input that track.py and export.py have in common."""
import argparse
import errno
import os
import shlex
import signal

import command
from command import PROGRAM, address_of, address_words, say
from daemon_link import daemon_lines
from track_lines import GAP, Run, Undecoded, lines_of, read_lines


def seconds(text):
    """A number of seconds above 0."""
    try:
        value = float(text)
    except ValueError:
        value = 0.0
    if not 0 < value < float("inf"):
        raise argparse.ArgumentTypeError(f"{text} is no number of seconds")
    return value


def command_line(about, output, further):
    """The words. `output` is what -o is called, `further` adds the words of one program to the parser."""
    parser = command.Parser(about)
    parser.add_argument("files", nargs="*", metavar="FILE", help="lines of decode or of a session, one file after another (standard input by default)")
    parser.add_argument("-o", "--output", metavar=output, help="the file that is written (standard output by default)")
    parser.add_argument("--daemon", nargs="?", type=address_of, const="127.0.0.1:2947", metavar="HOST:PORT",
                        help="reads no file, but follows a daemon until Ctrl-C (127.0.0.1:2947), also if it restarts")
    parser.add_argument("--device", metavar="NAME", help="the device (the first one by default)")
    parser.add_argument("--title", metavar="TEXT", help="the title (device and date by default)")
    parser.add_argument("--gap", type=seconds, default=GAP, metavar="SECONDS",
                        help=f"a track without a position for longer is cut there ({GAP:g})")
    further(parser)
    given = parser.parse_args()
    if given.daemon is not None and given.files:
        parser.error("--daemon or FILE, not both")
    for name in given.files:
        if not os.path.exists(name) and name.lower().endswith((".svg", ".gpx", ".kml", ".geojson", ".csv")):
            parser.error(f"{name}: no such file; to write it, say -o {shlex.quote(name)}")
    if given.output and os.path.exists(given.output) and any(os.path.exists(name) and os.path.samefile(name, given.output) for name in given.files):
        parser.error(f"{given.output} would be read and written")
    return parser, given


def read_run(given, output, files):
    """All that the words name, and the device of it. `output` is the word of -o in an example, `files` are those that will be written. The
    device is None if there is nothing to write."""
    for path in files:
        look_at(path)
    run = Run()
    if given.daemon is not None:
        follow(run, given.daemon)
    for name in given.files or ([None] if given.daemon is None else []):
        then = f"{PROGRAM} -o {shlex.quote(given.output or output)}"
        with open(0 if name is None else name, "rb", closefd=name is not None) as source:
            read_lines(run, lines_of(source), name, then)
    device = run.chosen(given.device)
    if run.bad:
        say(f"{run.bad} bad line{'s' if run.bad > 1 else ''} of {run.lines}, the first is line {run.first_bad}")
    if len(run.devices()) > 1:
        say(f"devices: {', '.join(run.devices())}; the track is that of {device}")
    return run, device


def look_at(path):
    """Finds out before anything is read whether a file can be written: what a daemon sends in hours is not lost for a typing error."""
    folder = os.path.dirname(path or "") or "."
    if path in (None, "-"):
        return
    if os.path.isdir(path):
        raise IsADirectoryError(errno.EISDIR, os.strerror(errno.EISDIR), path)
    if not os.path.isdir(folder):
        raise FileNotFoundError(errno.ENOENT, os.strerror(errno.ENOENT), path)
    if not os.access(path if os.path.exists(path) else folder, os.W_OK):
        raise PermissionError(errno.EACCES, os.strerror(errno.EACCES), path)


def follow(run, address):
    """Takes the lines of a daemon until Ctrl-C or SIGTERM. Where a link ends, the track is cut."""
    place = address_words(*address)

    def tell(connected):
        say(f"the daemon at {place} is there" if connected else f"the daemon at {place} is gone; trying again")
        if not connected:
            run.cut()

    def end(number, frame):
        signal.signal(signal.SIGINT, signal.SIG_IGN)  # one more must not lose what is to be written
        signal.signal(signal.SIGTERM, signal.SIG_DFL)
        raise KeyboardInterrupt

    for number in signal.SIGINT, signal.SIGTERM:
        signal.signal(number, end)
    try:
        say(f"following the daemon at {place}; Ctrl-C ends it")
        for line in daemon_lines(address, tell, fails=lambda why: say(f"no daemon at {place}: {why}; trying again")):
            run.take(line)
    except KeyboardInterrupt:
        if run.bad and not run.reports:
            raise Undecoded(f"what answers at {place} is no daemon (bad lines: {run.bad})") from None


def written(call):
    """The exit status of a program whose work is `call`: 1, with a line on standard error, if its input or output fails."""
    try:
        return call()
    except Undecoded as fault:
        say(str(fault))
    except OSError as fault:
        say(f"{fault.filename or 'input or output'}: {fault.strerror}")
    return 1


def write(path, text):
    """Writes a text to a file, or to standard output if the path is none, or `-`. What UTF-8 cannot say, as half a pair of UTF-16 in a device's
    name, is a question mark there."""
    with open(1, "wb", closefd=False) if path in (None, "-") else open(path, "wb") as out:
        out.write(text.encode(errors="replace"))
