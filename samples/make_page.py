#!/usr/bin/env python3
"""Takes the picture of the live page that README.md shows: page.png, of the daemon that reads drive.nmea.

    python3 samples/make_page.py PROGRAM [OUT]

PROGRAM is the built program, OUT is page.png beside this file unless told otherwise. It needs Chromium, and takes a few seconds. Two
pictures are not the same bytes: the age of the last fix is in them.
"""
import os
import sys

TOP = os.path.dirname(os.path.dirname(os.path.abspath(__file__)))
sys.path.insert(0, os.path.join(TOP, "tests"))

import browser
from harness import Daemon, FifoDevice, sample
from live_page import View

WIDTH, HEIGHT = 900, 800
LAST = "10:17:58"  # the last fix but one: that of the last second comes only at the end


def main():
    if len(sys.argv) not in (2, 3):
        sys.exit(__doc__)
    out = sys.argv[2] if len(sys.argv) == 3 else os.path.join(TOP, "samples", "page.png")
    if not browser.installed():
        sys.exit("make_page.py: no Chromium is installed")
    device = FifoDevice("gps0")
    daemon = Daemon(os.path.abspath(sys.argv[1]), device.word).listening()
    view = View(daemon.port)
    page = browser.Browser(browser.installed())
    try:
        page.size(WIDTH, HEIGHT)
        page.prefer(color_scheme="light", reduced_motion="reduce")
        page.call("Page.navigate", url=f"http://127.0.0.1:{view.port}/")
        page.wait("document.querySelector('#device').value", "gps0")
        device.send(sample("drive.nmea"))
        found = page.wait("document.querySelector('#clock').textContent.slice(0, 8)", LAST)
        if found != LAST:
            sys.exit(f"make_page.py: the page shows {found}, not {LAST}")
        page.screenshot(out)
    finally:
        page.close()
        view.process.kill()
        view.process.wait()
        daemon.stop()
        device.close()
    print(f"{out}: {os.path.getsize(out):,} bytes")


if __name__ == "__main__":
    main()
