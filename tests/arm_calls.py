#!/usr/bin/env python3
"""The C functions of tools/build_arm64.c, which a program for arm64 calls, over tests/arm_calls.c: what each call must give by its contract.

Use: arm_calls.py. Prints a line for each check, and ends with 1 if one fails. On x86-64 it runs them with the address and undefined behaviour
sanitizers, and then the toolchain's own functions, which must give the same. Under qemu-aarch64 it runs them as arm64. What is not installed
is skipped. It takes some ten seconds.
"""
import os
import re
import shutil
import subprocess
import sys
import tempfile

from checks import check, exit_status

HERE = os.path.dirname(os.path.abspath(__file__))
TOP = os.path.dirname(HERE)
CALLS, FUNCTIONS, IN_FULL = (os.path.join(TOP, it) for it in ("tests/arm_calls.c", "tools/build_arm64.c", "docs/ASSUMPTIONS.md"))
WARNINGS = ["-std=gnu11", "-Wall", "-Wextra", "-Werror"]
SANITIZERS = ["-O1", "-g", "-fsanitize=address,undefined", "-fno-sanitize-recover=all"]
SYSROOT = "/usr/aarch64-linux-gnu"
WORDS = ["abc", ""]  # the arguments of the program
# By the contracts in the toolchain's os/src/c.rt and libc/src/heap.rt. An address: 127.0.0.1 in 16 bytes (family 2), ::1 in 28 (family 10), each with port 0;
# `sum` is that of the bytes after the family, and `after` counts the bytes of 0xee that lie behind an address and stay as they were.
IPV4 = "family 2 len 16 port 0 sum 128 after 112"
IPV6 = "family 10 len 28 port 0 sum 1 after 100"
WANTED = f"""\
arguments: 3
arg 1 room 0: -2 ................
arg 1 room 1: -2 a...............
arg 1 room 2: -2 ab..............
arg 1 room 3: 3 abc.............
arg 1 room 4: 3 abc.............
arg 2 room 0: 0 ................
arg 2 room 16: 0 ................
arg 3 room 16: -1 ................
arg 18446744073709551615 room 16: -1 ................
variable A room 16: 3 xyz.............
variable A room 3: 3 xyz.............
variable A room 2: -2 xy..............
variable A room 0: -2 ................
variable B room 16: 0 ................
variable C room 16: -1 ................
entry 0 room 16: 5 A=xyz...........
entry 0 room 4: -2 A=xy............
entry 1 room 16: 2 B=..............
entry 2 room 16: -1 ................
entry 18446744073709551615 room 16: -1 ................
variable A room 16: -1 ................
entry 0 room 16: -1 ................
alloc 0: ok 1, null 0, off by 0, kept 0
alloc 1: ok 1, null 0, off by 0, kept 0
alloc 24: ok 1, null 0, off by 0, kept 0
alloc 1048576: ok 1, null 0, off by 0, kept 0
alloc too much: ok 0, null 0, off by 0, kept 0
a block: ok 1, null 0, off by 0, kept 0
realloc too much: ok 0, null 0
as it was: ok 1, null 0, off by 0, kept 100
realloc to more: ok 1, null 0, off by 0, kept 100
realloc to less: ok 1, null 0, off by 0, kept 10
realloc to nothing: ok 1, null 0, off by 0, kept 0
and back: ok 1, null 0, off by 0, kept 0
errno: 7, C's 7
errno of C: 9
nonblocking: 0, adds 1, drops 0
blocking: 0, as before 1
no descriptor: -1, errno 9
host 127.0.0.1 room 3: 1, {IPV4}, next as it was
host ::1 room 3: 1, {IPV6}, next as it was
host 127.0.0.1 room 0: 0, next as it was
host ::1 room 1: 1, {IPV6}, next as it was
host  room 3: -2, next as it was
host 127.0.0.1:80 room 3: -2, next as it was
"""


def made(room, name, compiler, *words):
    """The path of the program of the calls, compiled with these words. What the compiler says is a failed check."""
    path = os.path.join(room, name)
    ran = subprocess.run([compiler, *WARNINGS, *words, "-o", path, "-pthread"], capture_output=True, text=True)
    check(f"{name}: it is compiled without a warning", (0, ""), (ran.returncode, ran.stderr))
    return path


def gives(name, command):
    """Holds what the calls give against what they must give."""
    ran = subprocess.run([*command, *WORDS], capture_output=True, text=True, timeout=60, env={**os.environ, "ASAN_OPTIONS": "allocator_may_return_null=1"})
    check(f"{name}: it ends", (0, 0), (ran.returncode, ran.stderr.count("ERROR") + ran.stderr.count("runtime error")))
    for wanted, found in zip(WANTED.splitlines(), [*ran.stdout.splitlines(), *[None] * 40]):
        check(f"{name}: {wanted.partition(':')[0]}", wanted, found)


def in_full():
    """docs/ASSUMPTIONS.md has the functions in full, without comments and declarations."""
    with open(FUNCTIONS, encoding="utf-8") as it:
        code = re.sub(r"/\*.*?\*/", "", it.read(), flags=re.S)
    with open(IN_FULL, encoding="utf-8") as it:
        shown = re.search(r"^```c\n(static unsigned char nothing;\n.*?)^```$", it.read(), re.M | re.S)
    wanted = [row for row in code[code.index("static unsigned char nothing;"):].splitlines() if row.strip()]
    check("docs/ASSUMPTIONS.md has them in full", wanted, shown and shown[1].splitlines())


def kit_archives():
    """The toolchain's own functions, for x86-64."""
    if not shutil.which("rt"):
        return []
    kit = os.path.dirname(subprocess.run(["rt", "doc"], capture_output=True, text=True, check=True).stdout.strip())
    paths = [os.path.join(kit, "c", name) for name in ("libos_c.a", "liblibc_c.a")]
    return paths if all(map(os.path.isfile, paths)) else []


def main():
    in_full()
    with tempfile.TemporaryDirectory() as room:
        compiler = shutil.which("gcc") or shutil.which("cc")
        if compiler:
            gives("with sanitizers", [made(room, "with sanitizers", compiler, *SANITIZERS, CALLS, FUNCTIONS)])
        else:
            print("skipped: the calls on this machine, since there is no C compiler")
        archives = kit_archives()
        if compiler and archives and os.uname().machine == "x86_64":
            gives("the toolchain's own", [made(room, "the toolchain's own", compiler, "-O1", CALLS, *archives)])
        else:
            print("skipped: the toolchain's own functions, which are not there, or not for this machine")
        if shutil.which("aarch64-linux-gnu-gcc") and shutil.which("qemu-aarch64"):
            arm = made(room, "as arm64", "aarch64-linux-gnu-gcc", "-O2", "-fPIE", CALLS, FUNCTIONS)
            gives("as arm64", ["qemu-aarch64", "-L", SYSROOT, arm])
        else:
            print("skipped: the calls as arm64, which need gcc-aarch64-linux-gnu and qemu-user")
    return exit_status()


if __name__ == "__main__":
    sys.exit(main())
