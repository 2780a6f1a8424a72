#!/usr/bin/env python3
"""Gives this checkout the libraries that `rt ci` has proved and kept on this machine, for developers.

    tools/kept_libraries.py [CRATE ..]      the libraries below these crates, and their own; all crates if none is named

In a fresh checkout `rt check` of a crate proves every library below it first, which may take an hour. With the kept libraries it
begins with the crate itself. Only libraries whose text, and whose libraries' text, are those that were proved are given. A library
that a check built here by itself is replaced if there is a kept one, since kept libraries fit only each other. It can be called
again at any time while no other rt works here, and adds what was kept meanwhile. It proves nothing, and the gate does not need it.

It calls the toolchain's own functions. Not every kit keeps libraries: if this one does not, the status is 3.
"""
import functools
import os
import shutil
import sys

import build_kit

TOP = os.path.dirname(os.path.dirname(os.path.realpath(__file__)))
NEEDS = ("Kept.key", "Kept.place", "Kept.give", "Kept.is_built", "Crate.allowed", "handles_of",
         "rtlib.Crate.stamp", "rtlib.crates_below", "rtlib.lock", "rtlib.text_of")
NOT_KEPT = 3  # the status if the kit keeps no libraries


def give(rt, kept, crate, given):
    """Gives a crate its kept library; whether it has it now. `given` has the names of those that have theirs."""
    if any(below.name not in given for below in crate.below()):
        return False
    rlib = os.path.join(crate.folder, "out", "rlib")
    key, note = kept.key(crate), os.path.join(rlib, "given")
    if rt.rtlib.text_of(note) != key or not crate.is_built():
        is_kept = os.path.isdir(kept.place(crate, False, key))
        if is_kept or os.path.exists(note):  # what was given before, and fits no more
            shutil.rmtree(rlib, ignore_errors=True)
        if not is_kept or not kept.give(crate, False, key):
            return False
    kept.is_built(crate)
    for path, text in (os.path.join(rlib, "stamp"), crate.stamp()), (note, key):
        with open(path, "w", encoding="utf-8") as it:
            it.write(text)
    return True


def main():
    names = sys.argv[1:]
    if any(it.startswith("-") for it in names):
        print(__doc__, end="", file=sys.stderr)
        return 2
    os.chdir(TOP)
    rt = build_kit.toolchain("kept_libraries.py")
    if not hasattr(rt, "Kept"):
        print("kept_libraries.py: this kit keeps no libraries", file=sys.stderr)
        return NOT_KEPT
    if lacks := build_kit.lacking(rt, NEEDS):
        print(f"kept_libraries.py: this kit keeps libraries in another form: its rt has no {', '.join(lacks)}", file=sys.stderr)
        return NOT_KEPT
    # The sum of a crate is that of its files and of all below it: each is needed often, and stays the same here.
    rt.rtlib.Crate.stamp = functools.cache(rt.rtlib.Crate.stamp)
    every = rt.rtlib.crates_below(TOP)
    if unknown := set(names) - {it.name for it in every}:
        sys.exit(f"kept_libraries.py: there is no crate {sorted(unknown)[0]}")
    chosen = [below for it in every if not names or it.name in names for below in [*it.below(), it] if not below.is_program]
    crates = sorted(dict.fromkeys(chosen), key=lambda it: len(it.below()))
    held = rt.rtlib.lock(crates)  # until this ends
    rt.Crate.allowed = rt.handles_of(TOP)
    kept = rt.Kept(crates)
    kept.drop = lambda path: None  # nothing that was kept is removed
    given = set()
    for crate in crates:
        if give(rt, kept, crate, given):
            given.add(crate.name)
    lacking = [it.name for it in crates if it.name not in given]
    print(f"{len(given)} of {len(crates)} libraries are there" + (f"; not kept, or over one that is not: {' '.join(lacking)}" if lacking else ""))
    del held
    return 0


if __name__ == "__main__":
    sys.exit(main())
