#!/usr/bin/env python3
"""The build without proof, over a small program of the kit, and the libraries that `rt ci` kept: neither proves or compiles a crate of this
repository.

Use: build.py. Prints a line for each check, and ends with 1 if one fails. It takes some 25 seconds, and needs the toolchain. What a kit
lacks is looked for in the kit: if it keeps no libraries, the check is that the tool says so.
"""
import os
import re
import shutil
import subprocess
import sys
import tempfile

from checks import check, run_parts
from kits import poorer_kit

TOP = os.path.dirname(os.path.dirname(os.path.abspath(__file__)))
sys.dont_write_bytecode = True
sys.path.insert(0, os.path.join(TOP, "tools"))
import build_kit  # noqa: E402
import build_unproved  # noqa: E402


def small_program():
    with tempfile.TemporaryDirectory() as room:
        crate, built = os.path.join(room, "small"), os.path.join(room, "built")
        subprocess.run(["rt", "new", crate, "start_io"], check=True, capture_output=True)
        rt = build_unproved.kit_for(os.path.join(room, "own"), built)
        with open(os.path.join(crate, "stdin"), "rb") as given, open(os.path.join(crate, "stdout"), "rb") as wanted:
            data, wanted = given.read(), wanted.read()
        ran = subprocess.run([rt, "try", "--steps", "1000"], cwd=crate, stdin=subprocess.DEVNULL, capture_output=True, text=True)
        check("the program is built without proof", True, os.path.exists(built) or ran.stderr[-2000:])
        found = subprocess.run([built], input=data, capture_output=True)
        check("it runs by itself, and writes what it must", (0, wanted), (found.returncode, found.stdout))
        with open(built, "rb") as it:
            check("it has no address sanitizer", False, b"__asan_init" in it.read())
        check("`rt try` found that nothing is proved", True, "proved=no" in ran.stderr)


def sources():
    with tempfile.TemporaryDirectory() as room:
        copy = os.path.dirname(os.path.dirname(build_unproved.sources_for(room)))
        differs = []
        for folder, _, names in os.walk(os.path.join(copy, "crates")):
            for name in names:
                path = os.path.relpath(os.path.join(folder, name), copy)
                with open(os.path.join(copy, path), "rb") as ours, open(os.path.join(TOP, path), "rb") as theirs:
                    differs += [path] if ours.read() != theirs.read() else []
        check("the version is the one source that differs", [build_unproved.VERSION_FILE], differs)
        with open(os.path.join(copy, build_unproved.VERSION_FILE), encoding="utf-8") as it:
            check("it says that nothing is proved", 1, it.read().count('= "gpsrelay-1, built without proof";'))


def words():
    for given in [], ["--help"], ["a", "b"]:
        ran = subprocess.run([sys.executable, os.path.join(TOP, "tools", "build_unproved.py"), *given], capture_output=True, text=True)
        check(f"{given}: how it is called", (2, True), (ran.returncode, "tools/build.sh --unproved" in ran.stderr))


def small_checkout(room):
    """A checkout of two low crates, and the call that gives it kept libraries."""
    os.mkdir(os.path.join(room, "tools"))
    for name in "kept_libraries.py", "build_kit.py":
        shutil.copy(os.path.join(TOP, "tools", name), os.path.join(room, "tools"))
    shutil.copy(os.path.join(TOP, "HANDLES"), room)
    for name in "ubx_frame", "nmea_frame":
        shutil.copytree(os.path.join(TOP, "crates", name), os.path.join(room, "crates", name), ignore=shutil.ignore_patterns("out"))
    with open(os.path.join(room, "crates.txt"), "w", encoding="utf-8") as it:
        it.write("ubx_frame:\nnmea_frame:\n")
    return [sys.executable, os.path.join(room, "tools", "kept_libraries.py")]


def keeps_nothing():
    """A kit without a store of libraries, which some are and any can be made to be."""
    with tempfile.TemporaryDirectory() as room, tempfile.TemporaryDirectory() as other:
        call = small_checkout(room)
        ran = subprocess.run([*call, "ubx_frame"], capture_output=True, text=True, env=poorer_kit(other, "Kept"))
        check("a kit that keeps no libraries is said to", (3, "", "kept_libraries.py: this kit keeps no libraries\n"), (ran.returncode, ran.stdout, ran.stderr))
        check("and nothing is given", False, os.path.exists(os.path.join(room, "crates", "ubx_frame", "out")))


def kept_libraries():
    if not hasattr(build_kit.toolchain("build.py"), "Kept"):
        print("skipped: what a kit has kept, since this kit keeps no libraries")
        return
    with tempfile.TemporaryDirectory() as room:
        call = small_checkout(room)
        ran = subprocess.run([*call, "ubx_frame"], capture_output=True, text=True)
        said = re.fullmatch(r"([01]) of 1 libraries are there(; not kept, or over one that is not: ubx_frame)?\n", ran.stdout)
        check("it says how many libraries are there", True, bool(said) or ran.stdout + ran.stderr)
        rlib = os.path.join(room, "crates", "ubx_frame", "out", "rlib")
        is_there = os.path.isfile(f"{rlib}/stamp") and os.path.isdir(f"{rlib}/ubx_frame.rlib")
        check("and those are there, with the stamp that rt looks at", said and said[1] == "1", is_there)
        check("no other is given", False, os.path.isdir(os.path.join(room, "crates", "nmea_frame", "out", "rlib")))
        again = subprocess.run([*call, "ubx_frame"], capture_output=True, text=True)
        check("a second call finds the same", ran.stdout, again.stdout)
        with open(os.path.join(room, "crates", "ubx_frame", "src", "frame.rt"), "a", encoding="utf-8") as it:
            it.write("\n// another text\n")
        other = subprocess.run([*call, "ubx_frame"], capture_output=True, text=True)
        check("another text has no kept library", "0 of 1", other.stdout[:6])
        check("and what was given before is gone", False, os.path.isdir(rlib))
        ran = subprocess.run([*call, "no_such"], capture_output=True, text=True)
        check("a crate that is not there", (1, True), (ran.returncode, "there is no crate no_such" in ran.stderr))


# A program that is busy for two seconds of its own time, and an rt that runs it in another folder.
BUSY = "import time\nwhile time.process_time() < 2: pass"
STARTS = "import subprocess, sys\nsubprocess.run(sys.argv[2:], executable=sys.executable, cwd=sys.argv[1])"


def gate_table():
    """Provers below this checkout, one of them for arm64, one in another folder, and one in another folder that an rt of this checkout started."""
    with tempfile.TemporaryDirectory() as elsewhere:
        edited, table, rt = os.path.join(elsewhere, "rt-edit-1"), os.path.join(elsewhere, "table"), os.path.join(elsewhere, "rt")
        os.mkdir(edited)
        with open(rt, "w", encoding="utf-8") as it:
            it.write(STARTS)
        prover = lambda name: ["/kit/rattle", "-c", BUSY, "--crate-name", name]
        ran = [subprocess.Popen(prover("mine"), executable=sys.executable, cwd=TOP),
               subprocess.Popen([*prover("for_arm"), "--target", "aarch64-unknown-linux-gnu"], executable=sys.executable, cwd=TOP),
               subprocess.Popen(prover("others"), executable=sys.executable, cwd=elsewhere),
               subprocess.Popen([sys.executable, rt, edited, *prover("edited")], cwd=TOP)]
        watcher = subprocess.Popen([sys.executable, os.path.join(TOP, "tests", "gate_times.py"), table])
        for it in ran:
            it.wait()
        watcher.terminate()
        watcher.wait()
        with open(table, encoding="utf-8") as it:
            rows = {row.split()[0]: [float(it) > 0 for it in row.split()[1:]] for row in it.read().splitlines()[1:] if not row.startswith("rt itself")}
        check("the gate's table has what works below this checkout: in proofs", [True, False, False, False, True], rows.get("mine"))
        check("and an edit in a temporary folder, in edits", [False, False, True, False, True], rows.get("edited"))
        check("and a proof for arm64, in a column of its own", [False, False, False, True, True], rows.get("for_arm"))
        check("and nothing else", ["edited", "for_arm", "mine", "together"], sorted(rows))


if shutil.which("rt"):
    sys.exit(run_parts(words, gate_table, sources, small_program, keeps_nothing, kept_libraries))
print("skipped: the toolchain's command rt is not on the PATH")
