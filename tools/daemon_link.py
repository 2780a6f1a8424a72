"""A client of the daemon that comes back by itself: what track.py, export.py, view.py and top.py follow a daemon with."""
import socket
import time

WATCH = b'?WATCH={"json":true};\n'
GREETING = b'"class":"VERSION"'  # is in the line that a daemon sends before it has read anything
LONGEST_LINE = 1_048_576  # bytes; a longer one is passed over
FIRST_PAUSE, LONGEST_PAUSE = 0.25, 3.0  # seconds before a daemon that is gone is tried again
SETTLED = 5.0  # seconds after which a link that ends was a good one: the next pause is the first one again


def daemon_lines(address, tell, over=lambda: False, fails=lambda why: None):
    """The lines of a daemon, which it is asked for by WATCH; from one link after another, until `over()`. `tell` is called with True at the
    first line of a link after the greeting, since the daemon has taken the WATCH then and sends all that comes from there on, and with False
    when such a link has ended. `fails` is called once, with the reason, if no link had such a line yet. A daemon that is gone, or takes no
    client, is tried again after a pause, which is doubled each time up to the longest one."""
    pause, told = FIRST_PAUSE, False
    while not over():
        begun, heard = time.monotonic(), False
        try:
            with socket.create_connection(address, timeout=LONGEST_PAUSE) as link:
                link.settimeout(None)
                keep_alive(link)
                link.sendall(WATCH)
                for line in lines_of(link):
                    if not heard and GREETING not in line:
                        tell(True)
                        heard = True
                    yield line
        except OSError as fault:
            if not heard and not told:
                fails(fault.strerror or str(fault))
                told = True
        if heard:
            tell(False)
            told = True
        if heard and time.monotonic() - begun > SETTLED:
            pause = FIRST_PAUSE
        time.sleep(pause)
        pause = min(pause * 2, LONGEST_PAUSE)


def keep_alive(link):
    """Lets the system find out within 15 seconds that the other machine is gone, if it can."""
    link.setsockopt(socket.SOL_SOCKET, socket.SO_KEEPALIVE, 1)
    for name, value in ("TCP_KEEPIDLE", 6), ("TCP_KEEPINTVL", 3), ("TCP_KEEPCNT", 3):
        if hasattr(socket, name):
            link.setsockopt(socket.IPPROTO_TCP, getattr(socket, name), value)


def lines_of(link):
    """The lines of a link. Of one that is too long only its end is given, which is a bad line."""
    rest = b""
    while data := link.recv(65_536):
        *whole, rest = (rest + data).split(b"\n")
        yield from (line for line in whole if line.strip())
        rest = rest[-LONGEST_LINE:]
