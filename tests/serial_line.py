"""A serial line whose speed matters: a terminal whose other side sends only what fits the speed that is set, and noise at any other."""
import fcntl
import os
import pty
import random
import termios
import threading
import time

SPEEDS = {9_600: termios.B9600, 38_400: termios.B38400, 4_800: termios.B4800, 115_200: termios.B115200, 921_600: termios.B921600}
PERIOD = 0.01  # seconds between two pieces of what the other side sends
MOST = 20  # pieces that are sent at once: a terminal holds 4,096 bytes


class Line(threading.Thread):
    """A terminal at 38,400 baud that echoes, as a system gives it, and its other side: `stream` gives the bytes of the next moment at `speed`,
    or None for silence at every speed."""

    def __init__(self, speed, stream, noise=True):
        super().__init__(daemon=True)
        self.speed, self.stream, self.noise = speed, stream, noise
        self.far, self.near = pty.openpty()
        self.path = os.ttyname(self.near)
        fcntl.fcntl(self.far, fcntl.F_SETFL, os.O_NONBLOCK)
        self.set(termios.B38400)
        self.random, self.over = random.Random(7), threading.Event()
        self.seen = set()  # the speeds at which something was sent
        self.start()

    def set(self, number):
        settings = termios.tcgetattr(self.near)
        settings[4] = settings[5] = number
        termios.tcsetattr(self.near, termios.TCSANOW, settings)

    def settings(self):
        return termios.tcgetattr(self.near)

    def run(self):
        moment, begun = 0, time.monotonic()
        while not self.over.wait(PERIOD):
            passed = int((time.monotonic() - begun) / PERIOD)  # on a busy machine more than one
            moments, moment = range(max(moment, passed - MOST) + 1, passed + 1), passed
            now = termios.tcgetattr(self.far)[4]
            self.seen.add(now)
            if now == SPEEDS.get(self.speed):
                data = b"".join(self.stream(it) for it in moments)
            else:
                data = self.random.randbytes(9 * len(moments)) if self.noise else b""
            try:
                os.write(self.far, data)
                os.read(self.far, 65_536)  # what the terminal echoes
            except (BlockingIOError, InterruptedError):
                pass
            except OSError:
                return

    def hang_up(self):
        self.over.set()
        self.join()
        os.close(self.near)
        os.close(self.far)


def in_pieces(seconds_of, size=150):
    """A stream: what `seconds_of(n)` gives for second n comes in pieces of `size` bytes, one each PERIOD."""
    left = bytearray()

    def next_piece(moment):
        if not left:
            left.extend(seconds_of(moment))
        piece = bytes(left[:size])
        del left[:size]
        return piece

    return next_piece
