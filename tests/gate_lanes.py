#!/usr/bin/env python3
"""How many proofs the gate may run at one time.

Use: RT_JOBS=$(gate_lanes.py). It prints the number of processors if the memory that is free holds the dearest proofs at one time. If not, or
if the kit lacks what this looks at, it prints nothing: then rt reckons by itself, and takes fewer. By its own reckoning a proof takes two to
three times what was measured, so processors wait; with RT_JOBS it takes that many proofs at one time, and looks at no memory.
"""
import os
import sys

TOP = os.path.dirname(os.path.dirname(os.path.realpath(__file__)))
sys.dont_write_bytecode = True
sys.path.insert(0, os.path.join(TOP, "tools"))
import build_kit  # noqa: E402

NEEDS = ("need", "free", "processors", "rtlib.crates_below", "rtlib.Crate.has_tests")


def main():
    rt = build_kit.toolchain("gate_lanes.py")
    if build_kit.lacking(rt, NEEDS):
        return
    crates = rt.rtlib.crates_below(TOP)
    # The tests of a crate are proved by a check of their own.
    peaks = sorted((build_kit.peak(rt, it) for it in crates for _ in range(1 + it.has_tests())), reverse=True)
    if sum(peaks[:rt.processors()]) <= build_kit.SPARE * rt.free():
        print(rt.processors())


if __name__ == "__main__":
    main()
