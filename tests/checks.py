"""Checks that are counted: a script prints one line for each and ends with 1 if one failed. And a port that is free."""
import random
import socket
import threading
import time

WAIT = 60  # seconds, for whatever must come, on a slow and busy machine too
USUAL = {time.monotonic: 0.1, time.process_time: 0.04}  # seconds that the piece of work of `slowness` takes on an idle machine, by each clock
worst = dict.fromkeys(USUAL, 1.0)
failures = []
starting = threading.Lock()  # a child holds what is open until it runs its program: no port is tried in that time


def check(name, wanted, found):
    if wanted == found:
        print(f"ok      {name}", flush=True)
    else:
        failures.append(name)
        print(f"FAILED  {name}: wanted {wanted!r}, found {found!r}", flush=True)


def within(name, good, found):
    """A check of a figure, or of what else has a bound: `found` is shown if it is not good."""
    check(name, "within its bound", "within its bound" if good else found)


def slowness(clock=time.monotonic):
    """How many times longer than on an idle machine a piece of work takes here, by this clock, with fifty short sleeps in it: the worst that was found
    so far, and at least 1. A limit of time is multiplied by it, so that it says the same on a slow or a busy machine. By `time.process_time` it is
    that of the processor alone."""
    begun = clock()
    for _ in range(50):
        time.sleep(0.001)
        for _ in range(20_000):
            pass
    worst[clock] = max(worst[clock], (clock() - begun) / USUAL[clock])
    return worst[clock]


def free_port():
    """A port that nobody has. Linux gives connections ports from 32768 on, so none of these takes it before it is listened at."""
    while True:
        with starting, socket.socket() as it:
            try:
                it.bind(("127.0.0.1", random.randint(10_000, 32_000)))
            except OSError:
                continue
            return it.getsockname()[1]


def exit_status():
    """The exit status of a script: 1 if a check failed."""
    return 1 if failures else 0


def run_parts(*parts):
    """Calls each part. One that breaks counts as a failure and does not hide the others. Returns the exit status."""
    for part in parts:
        try:
            part()
        except Exception as error:
            check(f"{part.__name__} ran to its end", None, repr(error))
    return exit_status()
