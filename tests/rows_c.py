#!/usr/bin/env python3
"""The rows of `decode` over the C program of bench/decode.c, in both its forms. rows.py has the same rows over gpsrelay.

Use: rows_c.py, from anywhere; it needs only gcc. Builds the program with `-O2`, and on x86-64 also with `-O3 -DWIDE`. Prints a line for each table and for each row of faults, and ends with 1 if a row fails.
What the C program leaves out by design is named and counted apart:

 - it has no options, so rows of `--history` are not run;
 - at a failed read it writes the epoch that is open, which gpsrelay does not. There its status must be the same, and its output must go on
   after the expected one.
"""
import os
import platform
import subprocess
import sys
import tempfile

sys.dont_write_bytecode = True
import rows_faults
from rows import MODULES, compare, try_table

SOURCE = os.path.join(os.path.dirname(os.path.dirname(os.path.abspath(__file__))), "bench", "decode.c")
WRITES_OPEN_EPOCH = {"a read fails: decode, a sentence", "a read fails: decode, two seconds", "a read fails: decode, a frame",
                     "reads bring nothing: decode"}


def goes_on(wanted, found):
    """The status is the wanted one, and more is written than was wanted."""
    return found[0] == wanted[0] and found[1] != wanted[1] and found[1].startswith(wanted[1])


def failed(words):
    """Runs the rows over the program that gcc builds by these words: how many failed."""
    alike, bad, apart = 0, 0, []
    with tempfile.TemporaryDirectory() as folder:
        program = os.path.join(folder, "decode")
        subprocess.run(["gcc", *words, "-o", program, SOURCE], check=True)
        for name, rows in (table for module in MODULES for table in module.TABLES):
            if plain := [row for row in rows if row[0] == ["decode"]]:
                alike += len(plain)
                bad += try_table(program, name, plain)
            apart += [" ".join(words) for words, *_ in rows if words[:1] == ["decode"] and len(words) > 1]
        for name, wanted, found in rows_faults.rows(program, ("decode",)):
            if name not in WRITES_OPEN_EPOCH:
                alike += 1
                bad += compare(name, wanted, found)
            elif goes_on(wanted, found):
                apart.append(name)
            else:
                bad += 1
                print(f"FAILED  {name}:\n  wanted {wanted!r} and the open epoch\n  found  {found!r}")
    for name in apart:
        print(f"apart   {name}")
    print(f"{alike} rows as gpsrelay must answer them, {len(apart)} apart, {bad} failed: gcc {' '.join(words)}")
    return bad


FORMS = [["-O2"], ["-O3", "-DWIDE"]] if platform.machine() == "x86_64" else [["-O2"]]
sys.exit(1 if sum(map(failed, FORMS)) else 0)
