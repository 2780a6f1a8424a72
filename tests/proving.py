#!/usr/bin/env python3
"""The build that proves side by side, over a small repository of three crates in a temporary folder: two libraries that do not wait for each
other, and a program over both.

Use: proving.py. Prints a line for each check, and ends with 1 if one fails. It takes about a minute, and needs the toolchain.
"""
import os
import random
import re
import shutil
import signal
import subprocess
import sys
import tempfile
import time

from checks import WAIT, check, run_parts
from kits import poorer_kit

TOP = os.path.dirname(os.path.dirname(os.path.abspath(__file__)))
TOOL = os.path.join(TOP, "tools", "build_proved.py")
# Hand-made: `same` gives its argument back, so the program prints 40 + 2.
LIBRARY = """//! A library of one function.
#![tactic(auto)]

ghost use Rattle.std.specs.Prelude.{{◌≡◌}};

pub fn same(x: usize) -> usize
    ensures {{ result ≡ x }}
{{
    {body}
}}
"""
PROGRAM = """//! A program over two libraries.
#![tactic(auto)]

use std::io;

fn main(rt: HostRuntime) -> io::Result<()> {
    let sum = low_a::same(40).wrapping_add(low_b::same(2));
    println!(rt; "{sum}")
}
"""
GOOD, BAD = "x", "if x == 7 { 8 } else { x }"
VERDICT = re.compile(r"^logic=proved functions=\d+", re.M)


def write(path, text):
    os.makedirs(os.path.dirname(path), exist_ok=True)
    with open(path, "w", encoding="utf-8") as it:
        it.write(text)


def repository(room, body_of_b):
    """Its files name the folder, so that rt has kept nothing of them: not from an earlier run on this machine, nor from the other folder."""
    own = f"// in {os.path.basename(room)}\n"
    write(os.path.join(room, "HANDLES"), "Handles allowed: none.\n")
    write(os.path.join(room, "crates.txt"), "low_a:\nlow_b:\ntop: low_a low_b\n")
    write(os.path.join(room, "crates", "low_a", "src", "lib.rt"), LIBRARY.format(body=GOOD) + own + "// longer than the other, so it is begun first\n")
    write(os.path.join(room, "crates", "low_b", "src", "lib.rt"), LIBRARY.format(body=body_of_b) + own)
    write(os.path.join(room, "crates", "top", "src", "main.rt"), PROGRAM + own)


def started(words, cwd, env=None, processors=None):
    how = {"stdin": subprocess.DEVNULL, "stdout": subprocess.PIPE, "stderr": subprocess.PIPE, "text": True}
    pinned = (lambda: os.sched_setaffinity(0, processors)) if processors else None
    return subprocess.Popen(words, cwd=cwd, env=env, preexec_fn=pinned, **how)


def build(room, env=None, processors=None):
    return started([sys.executable, TOOL, room, "top"], "/", env, processors)


def stamp_of(room, crate):
    """When a library was last proved, or None if it is not. rt takes a library without this file for none."""
    path = os.path.join(room, "crates", crate, "out", "rlib", "stamp")
    return os.stat(path).st_mtime_ns if os.path.exists(path) else None


def is_prover(pid):
    try:
        with open(f"/proc/{pid}/cmdline", "rb") as it:
            return it.read().partition(b"\0")[0].endswith(b"/rattle")
    except OSError:
        return False


def workers(room, crate=""):
    """The processes that work in this repository, or in this crate of it."""
    found = []
    for pid in map(int, filter(str.isdigit, os.listdir("/proc"))):
        try:
            if os.readlink(f"/proc/{pid}/cwd").startswith(os.path.join(room, "crates", crate) if crate else room):
                found.append(pid)
        except OSError:
            pass
    return found


def waited(look):
    """What this gives once it is true, or what it gives when the time is up."""
    end = time.monotonic() + WAIT
    while not (found := look()) and time.monotonic() < end:
        time.sleep(0.02)
    return found


def failing(room):
    ran = build(room)
    _, said = ran.communicate()
    check("a library that is not proved: the status", 1, ran.returncode)
    check("its goal is named", True, bool(re.search(r"^build_proved.py: low_b is NOT PROVED: fn low_b::same: .*`\S+`$", said, re.M)) or said)
    check("the other library is proved", True, stamp_of(room, "low_a") is not None or said)
    check("the failing one is not taken for a proved one", None, stamp_of(room, "low_b"))
    check("the program above is not begun", False, os.path.exists(os.path.join(room, "crates", "top", "out")))


def interrupted(room):
    """Ended three times while low_b is proved, each at a random moment."""
    was = stamp_of(room, "low_a")
    for number in signal.SIGINT, signal.SIGTERM, signal.SIGKILL:
        ran = build(room)
        # rt's guard ends a check that has begun. Only a build that can still act ends one that is just being started too.
        has_begun = is_prover if number == signal.SIGKILL else bool
        check(f"{number.name}: the library is being proved", True, bool(waited(lambda: any(map(has_begun, workers(room, "low_b"))))))
        time.sleep(random.uniform(0, 1))
        ran.send_signal(number)
        _, said = ran.communicate()
        check(f"{number.name}: it ends by it", -number, ran.returncode)
        check(f"{number.name}: it says how to go on", number != signal.SIGKILL, "ended early; the next call goes on from here" in said)
        check(f"{number.name}: no process is left", True, waited(lambda: not workers(room)) or workers(room))
        check(f"{number.name}: no half-made library is taken for a whole one", (was, None), (stamp_of(room, "low_a"), stamp_of(room, "low_b")))


def begun_again(room, plain):
    """On one processor, and the first check is killed, as the system does if memory runs out."""
    was = stamp_of(room, "low_a")
    ran = build(room, processors={min(os.sched_getaffinity(0))})
    for pid in waited(lambda: workers(room, "low_b")):
        os.kill(pid, signal.SIGKILL)
    printed, said = ran.communicate()
    killed = "build_proved.py: the check of low_b was killed, most likely for memory: once more with nothing beside it"
    check("a check that is killed is done again", True, killed in said or said)
    check("begun again, it ends well", (0, "42\n"), (ran.returncode, printed) if not ran.returncode else said)
    check("what was proved is not proved again", was, stamp_of(room, "low_a"))
    check("it says what it does", True, bool(re.search(r"^1 of 3 proved, 0 minutes; low_b$", said, re.M)) or said)
    check("and what it did", True, bool(re.search(r"^build_proved.py: 3 of 3 proved, \d+ minutes?; 2 functions in this call$", said, re.M)) or said)
    with open(os.path.join(room, "out", "proved.log"), encoding="utf-8") as it:
        verdicts = sorted(VERDICT.findall(it.read()))
    printed, said = plain.communicate()
    check("`rt run` ends as well", (0, "42\n"), (plain.returncode, printed) if not plain.returncode else said)
    check("and proves the same number of functions", sorted(VERDICT.findall(said)), verdicts)


def other_kit(room):
    with tempfile.TemporaryDirectory() as kit:
        ran = build(room, poorer_kit(kit, "free"))
        printed, said = ran.communicate()
        first = said.split("\n")[0]
        check("a kit that lacks something: it is said", "build_proved.py: this kit's rt has no free, so `rt run` proves one crate after another", first)
        check("and `rt run` builds the program", (0, "42\n"), (ran.returncode, printed))


def unknown_crate(room):
    ran = started([sys.executable, TOOL, room, "no_such"], "/")
    _, said = ran.communicate()
    check("a crate that is not there", (1, True), (ran.returncode, "crates/no_such: No such file or directory" in said))


def main():
    with tempfile.TemporaryDirectory() as room, tempfile.TemporaryDirectory() as other:
        room = os.path.realpath(room)
        repository(other, GOOD)
        plain = started(["rt", "run"], os.path.join(other, "crates", "top"))
        try:
            repository(room, BAD)
            parts = [lambda: unknown_crate(room), lambda: failing(room), lambda: repository(room, GOOD), lambda: interrupted(room),
                     lambda: begun_again(room, plain), lambda: other_kit(room)]
            return run_parts(*parts)
        finally:
            plain.kill()


if shutil.which("rt"):
    sys.exit(main())
print("skipped: the toolchain's command rt is not on the PATH")
