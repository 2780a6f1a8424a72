#!/usr/bin/env python3
"""Rows over the built program: what it is given, and the exact bytes and the status that it is to answer with.

Use: rows.py PROGRAM, from anywhere. Prints a line for each table and for each row of faults and of the daemon, and ends with 1 if a row fails. Each
expected text was worked out by hand from the rules, or is of a receiver or of a standard's example. None was taken from the program.
rows_c.py has the rows of `decode` over the C program of bench/.
"""
import os
import subprocess
import sys

sys.dont_write_bytecode = True
import rows_decode
import rows_faults
import rows_lines
import rows_packets
import rows_requests
import rows_serve
import rows_sessions

MODULES = rows_decode, rows_packets, rows_requests, rows_sessions, rows_lines


def fails(program, words, given, status, output):
    """Why this row fails, or None."""
    it = subprocess.run([program, *words], input=given, capture_output=True, timeout=120)
    if (it.returncode, it.stdout) == (status, output):
        return None
    return f"{' '.join(words)} of {given!r}\n  wanted {status} {output!r}\n  found  {it.returncode} {it.stdout!r}"


def try_table(program, name, rows):
    """Prints a line for this table; how many of its rows fail."""
    found = [why for why in (fails(program, *row) for row in rows) if why]
    print(f"{'FAILED ' if found else 'ok     '} {name}: {len(rows)} rows" + "".join("\n" + why for why in found[:5]))
    return len(found)


def compare(name, wanted, found):
    """Prints a line for this row; whether it fails."""
    print(f"ok      {name}" if wanted == found else f"FAILED  {name}:\n  wanted {wanted!r}\n  found  {found!r}")
    return wanted != found


def main():
    program = os.path.realpath(sys.argv[1])
    bad = sum(try_table(program, name, rows) for module in MODULES for name, rows in module.TABLES)
    bad += sum(compare(*row) for row in (*rows_faults.rows(program), *rows_serve.rows(program)))
    sys.exit(1 if bad else 0)


if __name__ == "__main__":
    main()
