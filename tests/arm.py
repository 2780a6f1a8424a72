#!/usr/bin/env python3
"""The program for arm64: its proof, its build, and the program under qemu beside the one for x86-64.

Use: arm.py PROGRAM [ARM]. PROGRAM is the program for x86-64. ARM is a program for arm64 to try; without it one is proved and built, over the
libraries that `rt ci` has proved. Prints a line for each check, and ends with 1 if one fails. The proof needs only the toolchain: one or
two minutes over what a check kept, some five from nothing. The rest needs gcc-aarch64-linux-gnu, libc6-dev-arm64-cross and qemu-user, and
takes some five minutes. What is missing is skipped. qemu shows neither the order of memory of an ARM processor nor its speed.
"""
import hashlib
import os
import random
import re
import shutil
import subprocess
import sys
import tempfile
from collections import Counter
from concurrent.futures import ThreadPoolExecutor

from checks import check, exit_status, slowness
from harness import sample_path

HERE = os.path.dirname(os.path.abspath(__file__))
TOP = os.path.dirname(HERE)
sys.dont_write_bytecode = True
sys.path.insert(0, os.path.join(TOP, "tools"))
import build_arm64  # noqa: E402
import build_kit  # noqa: E402

TOOL, KEPT = (os.path.join(TOP, "tools", name) for name in ("build_arm64.py", "kept_libraries.py"))
LIBRARIES = "/usr/aarch64-linux-gnu/lib"  # of libc6-dev-arm64-cross
QEMU, COMPILER, DISASSEMBLER = "qemu-aarch64", "aarch64-linux-gnu-gcc", "aarch64-linux-gnu-objdump"
# Scripts that hold for the program under qemu as they do on x86-64. The longest is begun first.
SCRIPTS = "rows.py", "replay.sh", "words.py", "upstream.py", "last_bytes.py"
# In these a limit of memory or threads ends qemu itself, which needs more of both than the program, or its own memory is counted.
LEFT_OUT = "program.sh", "messages.py", "slow_clients.py", "faults.py", "serve.py", "soak.py", "memory.py", "flat_memory.py"
STREAMS = 500
SIDE_BY_SIDE = 2
LONGEST = 400  # seconds for one script on an idle machine; most take 15 there, rows.py 140
TARGET = "target=aarch64-unknown-linux-gnu"
# Of instructions for atomic steps: those that a sequentially consistent load, store or exchange becomes, and all that order less or that the code for
# the first ARMv8 does not have.
ORDERED = re.compile(r"(ldar|stlr|ldaxr|stlxr)[bh]?")
OTHERS = re.compile(r"ldxr[bh]?|ldxp|stxr[bh]?|stxp|ldaxp|stlxp|ldapu?r\w*|ldlar[bh]?|stllr[bh]?|casp?[al]?\w*|swp\w*|(ld|st)(add|clr|eor|set|[su]max|[su]min)\w*")


def skip(text):
    print(f"skipped: {text}", flush=True)


def answers_without(room):
    """What the build says on an ARM machine, and on one without a C compiler for arm64."""
    machine = os.path.join(room, "uname")
    with open(machine, "w") as it:
        it.write("#!/bin/sh\necho aarch64\n")
    os.chmod(machine, 0o755)
    for words in ["--arch", "arm64"], ["--arch", "arm64", "--unproved"]:
        ran = subprocess.run([os.path.join(TOP, "tools", "build.sh"), *words], capture_output=True, text=True,
                             env={**os.environ, "PATH": f"{room}:{os.environ['PATH']}"})
        wanted = "build.sh: the toolchain runs on x86-64 machines alone, and this one is aarch64: build there, with --arch arm64 for 64-bit ARM\n"
        check(f"{' '.join(words)} on an ARM machine", (1, wanted), (ran.returncode, ran.stderr))
    ran = subprocess.run([sys.executable, TOOL, "--look"], capture_output=True, text=True, env={**os.environ, "PATH": room})
    check("without a C compiler for arm64", (1, f"build_arm64.py: there is no {COMPILER}: sudo apt install gcc-aarch64-linux-gnu libc6-dev-arm64-cross\n"),
          (ran.returncode, ran.stderr))


def build(room):
    """The path of the program for arm64, proved and built, or None. Without a C compiler for arm64 it is only proved."""
    if not shutil.which("rt"):
        return skip("the proof for arm64, which needs the toolchain's rt")
    if lacks := build_kit.lacking(build_kit.toolchain("arm.py"), build_arm64.NEEDS):
        return skip(f"the proof for arm64, as this kit's rt has no {', '.join(lacks)}")
    # When `rt ci` has ended, libraries that this checkout had before are in their places again. They fit only each other, and may be of another text.
    # If this kit keeps what `rt ci` proved, that takes their places.
    subprocess.run([sys.executable, KEPT, "gpsrelay"], capture_output=True)
    can_link = subprocess.run([sys.executable, TOOL, "--look"], capture_output=True, text=True)
    arm = os.path.join(room, "gpsrelay")
    ran = subprocess.run([sys.executable, TOOL, "--after-gate", "--check" if can_link.returncode else arm], capture_output=True, text=True)
    verdict = re.search(r"^logic=proved .*$", ran.stdout, re.M)
    print(verdict[0] if verdict else ran.stdout[-2000:] + ran.stderr[-2000:], flush=True)
    check("the program is proved for arm64", (0, True), (ran.returncode, bool(verdict) and TARGET in verdict[0]))
    if can_link.returncode:
        return skip(f"the build for arm64: {can_link.stderr.strip()}")
    return None if ran.returncode else arm


def atomic_steps(arm):
    """Each atomic step of the program is a sequentially consistent one."""
    if not shutil.which(DISASSEMBLER):
        return skip(f"the atomic steps of the program for arm64, which need {DISASSEMBLER}")
    ran = subprocess.run([DISASSEMBLER, "-d", "--no-show-raw-insn", arm], capture_output=True, text=True, check=True)
    found = Counter(re.findall(r"^\s+[0-9a-f]+:\t(\w+)", ran.stdout, re.M))
    steps = Counter()
    for name, count in found.items():
        if ordered := ORDERED.fullmatch(name):
            steps[ordered[1]] += count
    check(f"atomic steps, each in one order: {dict(steps)}", True, all(steps[it] for it in ("ldar", "stlr", "ldaxr")) and steps["ldaxr"] == steps["stlxr"])
    check("and none with less order", [], [name for name in found if OTHERS.fullmatch(name)])
    return None


def commands(noise):
    """Command lines, each with the file of its standard input."""
    drive, script = sample_path("drive.nmea"), sample_path("two_devices.script")
    return [("--version", os.devnull), ("help", os.devnull), ("decode", drive), ("decode --history 100", drive), ("pseudo", drive), ("replay", script),
            ("replay --history 70", script), ("generate --seed 1 --size 10", os.devnull), ("generate --seed 7 --size 1000", os.devnull),
            ("decode", os.devnull), ("decode --histry 1", os.devnull), ("decode", noise), ("lines", noise), ("replay", noise)]


def output(program, words, path):
    with open(path, "rb") as given:
        return subprocess.run([program, *words.split()], stdin=given, capture_output=True, timeout=LONGEST)


def gives(program, words, path):
    """What a command gives, short enough to be shown: its status, the number and a sum of its bytes, and what it says."""
    ran = output(program, words, path)
    return ran.returncode, len(ran.stdout), hashlib.sha256(ran.stdout).hexdigest()[:16], ran.stderr[-300:]


def same_bytes(x86, arm, room):
    """Bytes, messages and statuses, beside those of the program for x86-64."""
    noise, lines = os.path.join(room, "noise"), os.path.join(room, "lines")
    with open(noise, "wb") as out:
        out.write(random.Random(1).randbytes(300_000))
    with open(lines, "wb") as out:
        out.write(output(x86, "decode", sample_path("drive.nmea")).stdout)
    for words, path in [*commands(noise), ("lines", lines)]:
        found = gives(arm, words, path)
        check(f"{words}, from {os.path.basename(path)}: as on x86-64, {found[1]} bytes, status {found[0]}", gives(x86, words, path), found)


def script(name, _, arm):
    """One of the other scripts over the program for arm64: its failures, and how many checks it made."""
    call = ["bash" if name.endswith(".sh") else sys.executable, os.path.join(HERE, name), arm]
    longest = LONGEST * slowness()
    try:
        ran = subprocess.run(call, capture_output=True, text=True, errors="replace", timeout=longest, stdin=subprocess.DEVNULL)
    except subprocess.TimeoutExpired:
        return f"not ended after {longest:.0f} s", 0
    failed = [row for row in ran.stdout.splitlines() if row.startswith("FAILED")]
    return (failed or [ran.returncode, ran.stderr[-1000:]])[:3] if ran.returncode else [], ran.stdout.count("\nok") + ran.stdout.startswith("ok")


def random_streams(_, x86, arm):
    call = [sys.executable, os.path.join(TOP, "bench", "random_streams.py"), x86, arm, str(STREAMS)]
    ran = subprocess.run(call, capture_output=True, text=True, timeout=2 * LONGEST * slowness())
    return [] if ran.returncode == 0 else [ran.returncode, ran.stdout[-1000:], ran.stderr[-1000:]], STREAMS


def tried(run, *given):
    """As .ci/run does, what fails is tried once more: some of its checks are of times, which a busy machine may miss."""
    failed, count = run(*given)
    return run(*given) if failed else (failed, count)


def scripts(x86, arm):
    """The other scripts and the random streams, side by side."""
    with ThreadPoolExecutor(SIDE_BY_SIDE) as pool:
        calls = [(name, script) for name in SCRIPTS] + [(f"{STREAMS} random streams", random_streams)]
        runs = [(name, pool.submit(tried, call, name, x86, arm)) for name, call in calls]
        for name, run in runs:
            failed, count = run.result()
            check(f"{name} under qemu", [], failed)
            print(f"        {count} checks", flush=True)


def package(x86, arm, room):
    """A package of it, unpacked into a root that has nothing but the C library for arm64, and run there."""
    if not shutil.which("dpkg-deb"):
        return skip("the package, which needs dpkg-deb")
    out, root = os.path.join(room, "packed"), os.path.join(room, "root")
    tool = os.path.join(TOP, "tools", "package.sh")
    ran = subprocess.run([tool, "--arch", "arm64", "--output", out], capture_output=True, text=True, env={**os.environ, "PROGRAM": arm})
    packages = os.listdir(out) if os.path.isdir(out) else []
    check("one package is made, for arm64", (0, 1, True), (ran.returncode, len(packages), all(it.endswith("_arm64.deb") for it in packages)))
    ran = subprocess.run([tool, "--arch", "amd64", "--output", out], capture_output=True, text=True, env={**os.environ, "PROGRAM": arm})
    check("none for another architecture than the program's", (1, "package.sh: the program is for arm64, and not for amd64\n"), (ran.returncode, ran.stderr))
    ran = subprocess.run([os.path.join(TOP, "tools", "install.sh"), "--prefix", os.path.join(room, "here")], capture_output=True, text=True,
                         env={**os.environ, "PROGRAM": arm})
    check("it is not installed on this machine", (1, False), (ran.returncode, os.path.exists(os.path.join(room, "here"))))
    if len(packages) != 1:
        return None
    deb = os.path.join(out, packages[0])
    fields = subprocess.run(["dpkg-deb", "-f", deb, "Architecture", "Depends"], capture_output=True, text=True, check=True).stdout
    is_right = re.fullmatch(r"Architecture: arm64\nDepends: libc6 \(>= 2\.\d+\), python3 .*\n", fields) is not None
    check("its architecture, and what it needs", True, is_right or fields)
    subprocess.run(["dpkg-deb", "-x", deb, root], check=True)
    installed = os.path.join(root, "usr", "bin", "gpsrelay")
    symbols = subprocess.run(["aarch64-linux-gnu-nm", installed], capture_output=True, text=True)
    check("it is stripped", True, "no symbols" in symbols.stderr)
    os.makedirs(os.path.join(root, "lib"), exist_ok=True)  # it has the units of systemd
    for name in "ld-linux-aarch64.so.1", "libc.so.6", "libm.so.6", "libgcc_s.so.1":
        shutil.copy(os.path.join(LIBRARIES, name), os.path.join(root, "lib", name))
    drive = sample_path("drive.nmea")
    check("the installed program decodes the recorded drive in that root", gives(x86, "decode", drive), gives(wrapper(installed, room, root), "decode", drive))
    return None


def wrapper(arm, room, root):
    """A program that runs the one for arm64 under qemu, with the C library of this root."""
    path = os.path.join(room, "under-qemu")
    with open(path, "w") as it:
        it.write(f'#!/bin/sh\nexec {QEMU} -L {root} {arm} "$@"\n')
    os.chmod(path, 0o755)
    return path


def main():
    if not 2 <= len(sys.argv) <= 3:
        print(__doc__, file=sys.stderr)
        return 2
    x86 = os.path.realpath(sys.argv[1])
    with tempfile.TemporaryDirectory() as room:
        answers_without(room)
        arm = os.path.realpath(sys.argv[2]) if len(sys.argv) == 3 else build(room)
        if arm:
            atomic_steps(arm)
        if arm and not (shutil.which(QEMU) and os.path.isdir(LIBRARIES)):
            skip("the program for arm64 is not run: that needs qemu-user and libc6-dev-arm64-cross")
        elif arm:
            under = wrapper(arm, room, os.path.dirname(LIBRARIES))
            same_bytes(x86, under, room)
            scripts(x86, under)
            package(x86, arm, room)
            skip(f"{', '.join(LEFT_OUT)} under qemu: a limit of memory or threads ends qemu itself, or counts qemu's own")
    return exit_status()


if __name__ == "__main__":
    sys.exit(main())
