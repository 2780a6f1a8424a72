"""What all tools have in common: messages that never stop them, the version, the command line, addresses, and the end.

    if __name__ == "__main__":
        sys.exit(command.run(main))
"""
import argparse
import errno
import os
import re
import select
import sys
import threading

PROGRAM = os.path.basename(sys.argv[0])  # view.py, or gpsrelay-view as it is installed
VERSION = "gpsrelay-1"  # of the program that it belongs to
AT_ONCE = 4096  # bytes that a pipe takes whole if it takes any (PIPE_BUF of Linux)


# Messages

class Messages:
    """Lines on standard error. One that it does not take at once is left out, as nobody may read there; a later one says how many were."""

    def __init__(self):
        self.left_out, self.lock = 0, threading.Lock()

    def say(self, text):
        with self.lock:
            if self.left_out and self.take(line_of(f"{self.left_out} message{'s were' if self.left_out > 1 else ' was'} left out")):
                self.left_out = 0
            self.left_out += not (self.left_out == 0 and self.take(line_of(text)))

    @staticmethod
    def take(data):
        """Whether standard error takes these bytes, without a wait."""
        try:
            return bool(select.select([], [2], [], 0)[1]) and os.write(2, data) == len(data)
        except OSError:
            return False


def printable(text):
    """A text for a terminal: a name in it may hold anything, so what is no printable character is shown as a question mark."""
    return "".join(c if c.isprintable() else "?" for c in text)


def line_of(text):
    return f"{PROGRAM}: {printable(text)}".encode(errors="replace")[:AT_ONCE - 1] + b"\n"


say = Messages().say  # one line on standard error


# The command line

class Parser(argparse.ArgumentParser):
    """A command line with --help and --version, which are written to standard output."""

    def __init__(self, about):
        super().__init__(prog=PROGRAM, description=about, allow_abbrev=False)
        self.add_argument("--version", action="version", version=f"{PROGRAM} of {VERSION}", help="show the version and end")

    def _print_message(self, message, file=None):
        if file is not None and file is sys.stdout:
            show(message)
        elif message:
            Messages.take(message.encode(errors="replace")[:AT_ONCE])


def address_of(text, lowest=1):
    """(host, port) of HOST:PORT; a host with colons is in brackets."""
    host, colon, port = text.rpartition(":")
    if not colon or not re.fullmatch(r"[0-9]{1,5}", port) or not lowest <= int(port) <= 65_535 or re.search(r"[\s/=]", host):
        raise argparse.ArgumentTypeError(f"{text} is no HOST:PORT, as 127.0.0.1:2947")
    return host.removeprefix("[").removesuffix("]") or "127.0.0.1", int(port)


def address_words(host, port):
    return f"[{host}]:{port}" if ":" in host else f"{host}:{port}"


# From the beginning to the end

def run(main):
    """The exit status of a tool whose work is `main`."""
    stand_in()
    try:
        return main()
    except KeyboardInterrupt:  # before it has said what Ctrl-C does
        return 130


def show(text):
    """Writes a text to standard output, or ends with 1."""
    try:
        with open(1, "wb", closefd=False) as out:
            out.write(text.encode(errors="replace"))
    except OSError as fault:
        say(f"standard output: {fault.strerror}")
        sys.exit(1)


def stand_in():
    """Puts something in the place of standard streams that are closed, so that no file or socket gets their numbers. What is put there can
    be neither read nor written, as if it were closed."""
    for number in range(3):
        try:
            os.fstat(number)
        except OSError as fault:
            if fault.errno == errno.EBADF:
                os.open(os.devnull, os.O_WRONLY if number == 0 else os.O_RDONLY)
