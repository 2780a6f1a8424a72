#!/usr/bin/env python3
"""Builds the program without any proof, in some three minutes.

    tools/build.sh --unproved            runs this script; the program is out/unproved/gpsrelay
    tools/build_unproved.py PROGRAM      writes it to PROGRAM

It is for trying the program over real files, sockets and limits. Nothing is proved of it, and `gpsrelay --version` says so.
It has the checks of `rt try`: it stops at an overflow, or at an index out of bounds. It takes about twice the instructions
of the proved program, so it is no measure of speed.

How: `rt try` compiles without a proof, runs the program once, and keeps no file. So it is given a toolchain whose clang
leaves the address sanitizer out and optimizes, and whose linker copies the program. The sources are copied too, because the
copy's version says that nothing is proved.

How far it is, it says on standard error: the crates as they are read, and then what is done with all of them. If it is ended, by
Ctrl-C or SIGTERM, no process and no folder of it is left.
"""
import os
import shutil
import signal
import stat
import subprocess
import sys
import tempfile
import time

TOP = os.path.dirname(os.path.dirname(os.path.realpath(__file__)))
VERSION_FILE = "crates/gps_help/src/help.rt"
RELEASE = 'pub const RELEASE: &str = "gpsrelay-1";'
UNPROVED = "built without proof"
SIGNALS = signal.SIGINT, signal.SIGTERM, signal.SIGHUP

COMPILED = "compiled"  # a file of the folder in which it is built: it is there once clang was started
LOOK = 0.25  # seconds between two looks at how far it is
PATIENCE = 30.0  # seconds between two lines that say so, where nobody sees a line that is written over
TO_END = 10.0  # seconds for `rt try` to end what it started

# What `rt try` starts in place of clang: the address sanitizer is left out, and the code optimized.
CLANG = """#!{python} -IS
import os, sys
open({note!r}, "a").close()
words = [word.replace("--sysroot={own}", "--sysroot={real}") for word in sys.argv[1:] if not word.startswith("-fsanitize=")]
words = ["-O2" if word == "-O0" else word for word in words]
os.execv("{real}/bin/clang", ["{real}/bin/clang", *words])
"""
# What it starts in place of the linker: what was linked is copied.
LINKER = """#!{python} -IS
import os, shutil, subprocess, sys
status = subprocess.run(["ld.lld", *sys.argv[1:]], executable={linker!r}).returncode
if status == 0:
    shutil.copy(sys.argv[sys.argv.index("-o") + 1], {copy!r})
sys.exit(status)
"""


def script(path, text):
    with open(path, "w", encoding="utf-8") as it:
        it.write(text)
    os.chmod(path, 0o755)


def link_all(real, own, but=()):
    """Makes the folder `own`, with a link to each file of `real` but these."""
    os.makedirs(own)
    for name in os.listdir(real):
        if name not in but:
            os.symlink(os.path.join(real, name), os.path.join(own, name))


def kit_for(room, built):
    """A folder that is the kit, but for the compiler: it leaves the program in `built`."""
    kit = os.path.dirname(subprocess.run(["rt", "doc"], capture_output=True, text=True, check=True, cwd=TOP).stdout.strip())
    own = os.path.join(room, "kit")
    link_all(kit, own, ("bin", "c", "toolchain"))
    link_all(os.path.join(kit, "bin"), os.path.join(own, "bin"), ("rt", "rtlib.py", "rattle"))
    for name in "rt", "rtlib.py":  # they look for the kit beside themselves, links followed
        shutil.copy(os.path.join(kit, "bin", name), os.path.join(own, "bin", name))
    script(os.path.join(own, "bin", "rattle"), "#!/bin/sh\nexit 1\n")  # `rt try` asks it for hints on names only
    link_all(os.path.join(kit, "c"), os.path.join(own, "c"), ("asan.a",))
    toolchain = os.path.join(own, "toolchain")
    link_all(os.path.join(kit, "toolchain"), toolchain, ("bin",))
    real = os.path.join(kit, "toolchain")
    link_all(os.path.join(real, "bin"), os.path.join(toolchain, "bin"), ("clang", "ld.lld"))
    script(os.path.join(toolchain, "bin", "clang"), CLANG.format(python=sys.executable, own=toolchain, real=real, note=os.path.join(room, COMPILED)))
    linker = os.path.realpath(os.path.join(real, "bin", "ld.lld"))
    script(os.path.join(toolchain, "bin", "ld.lld"), LINKER.format(python=sys.executable, linker=linker, copy=built))
    subprocess.run([os.path.join(toolchain, "bin", "llvm-ar"), "rcs", os.path.join(own, "c", "asan.a")], check=True)
    return os.path.join(own, "bin", "rt")


def sources_for(room):
    """A copy of the sources whose version says that nothing is proved."""
    tree = os.path.join(room, "tree")
    shutil.copytree(os.path.join(TOP, "crates"), os.path.join(tree, "crates"), ignore=shutil.ignore_patterns("out", "proofs", "must-fail"))
    for name in "crates.txt", "HANDLES":
        shutil.copy(os.path.join(TOP, name), tree)
    path = os.path.join(tree, VERSION_FILE)
    with open(path, encoding="utf-8") as it:
        text = it.read()
    if text.count(RELEASE) != 1:
        sys.exit(f"build_unproved.py: {VERSION_FILE} has no line `{RELEASE}`")
    with open(path, "w", encoding="utf-8") as it:
        it.write(text.replace(RELEASE, f'{RELEASE[:-2]}, {UNPROVED}";'))
    return os.path.join(tree, "crates", "gpsrelay")


def below(crate):
    """A crate and those that it needs, as crates.txt says: `NAME OPTION ..: CRATE ..` in each line."""
    with open(os.path.join(TOP, "crates.txt"), encoding="utf-8") as it:
        rows = [line.partition(":") for line in it if ":" in line and not line.startswith("#")]
    table = {name.split()[0]: words.split() for name, _, words in rows}
    found, left = [], [crate]
    while left:
        name = left.pop()
        if name not in found and os.path.isdir(os.path.join(TOP, "crates", name)):
            found.append(name)
            left += table.get(name, [])
    return found


class Progress:
    """How far a build is: which sources were read, and whether clang was started. On a terminal it is one line, which is written over."""

    def __init__(self, room, crate):
        crates = os.path.dirname(crate)
        self.room, self.begun, self.said = room, time.monotonic(), 0.0
        self.left = {name: os.path.join(crates, name, "src") for name in below(os.path.basename(crate))}
        self.number, self.last, self.stage = len(self.left), "", ""
        for folder in self.left.values():
            for name in os.listdir(folder):
                os.utime(os.path.join(folder, name), (0, 1))  # not read yet

    def look(self):
        """The crates that have been read since the last look. Where files have no time of reading there are none."""
        found = [name for name, folder in self.left.items() if any(os.stat(os.path.join(folder, it)).st_atime > 0 for it in os.listdir(folder))]
        for name in found:
            del self.left[name]
        return found

    def tell(self):
        read = self.look()
        self.last = read[-1] if read else self.last
        stage = "compiling" if os.path.exists(os.path.join(self.room, COMPILED)) else "reading" if self.left else "translating"
        seconds = time.monotonic() - self.begun
        last = f", {self.last}" if stage == "reading" and self.last else ""
        words = f"{stage}: {self.number - len(self.left)} of {self.number} crates{last}; {seconds:.0f} s"
        if sys.stderr.isatty():
            print(f"\r\33[K{words}", end="", file=sys.stderr, flush=True)
        elif stage != self.stage or seconds - self.said > PATIENCE:
            print(words, file=sys.stderr, flush=True)
            self.said = seconds
        self.stage = stage

    def end(self):
        if sys.stderr.isatty():
            print("\r\33[K", end="", file=sys.stderr, flush=True)


def tried(rt, crate, room, said):
    """The status of `rt try`, which says on the way how far it is. It is ended with this program; its own folders are in `room`."""
    progress = Progress(room, crate)
    running = subprocess.Popen([rt, "try", "--", "--version"], cwd=crate, stdin=subprocess.DEVNULL, stdout=said, stderr=subprocess.STDOUT,
                               env={**os.environ, "TMPDIR": room}, start_new_session=True)
    try:
        while running.poll() is None:
            progress.tell()
            time.sleep(LOOK)
    finally:
        progress.end()
        if running.poll() is None:
            running.terminate()  # it ends what it started
            try:
                running.wait(TO_END)
            except subprocess.TimeoutExpired:
                os.killpg(running.pid, signal.SIGKILL)
                running.wait()
    return running.returncode


def ended(number, _):
    for it in SIGNALS:
        signal.signal(it, signal.SIG_IGN)  # one more must not keep the folder from going
    sys.exit(128 + number)


def main():
    if len(sys.argv) != 2 or sys.argv[1].startswith("-"):
        print(__doc__, end="", file=sys.stderr)
        return 2
    out = os.path.abspath(sys.argv[1])
    if not shutil.which("rt"):
        sys.exit("build_unproved.py: the toolchain's command rt is not on the PATH")
    for number in SIGNALS:
        signal.signal(number, ended)
    with tempfile.TemporaryDirectory(prefix="gpsrelay-unproved-") as room, tempfile.TemporaryFile() as said:
        built = os.path.join(room, "built")
        rt, crate = kit_for(room, built), sources_for(room)
        status = tried(rt, crate, room, said)
        if not os.path.exists(built):
            said.seek(0)
            sys.exit(f"build_unproved.py: `rt try` built nothing (status {status}):\n{said.read()[-6000:].decode(errors='replace')}")
        os.chmod(built, os.stat(built).st_mode | stat.S_IRUSR | stat.S_IXUSR | stat.S_IRGRP | stat.S_IXGRP | stat.S_IROTH | stat.S_IXOTH)
        said = subprocess.run([built, "--version"], capture_output=True, text=True, stdin=subprocess.DEVNULL)
        if UNPROVED not in said.stdout + said.stderr:
            sys.exit("build_unproved.py: the version of the program does not say that it is built without proof")
        os.makedirs(os.path.dirname(out), exist_ok=True)
        new = f"{out}.new{os.getpid()}"  # in one step, also over a program that runs
        shutil.copy(built, new)
        os.replace(new, out)
    print(f"{out}: {UNPROVED}")
    return 0


if __name__ == "__main__":
    sys.exit(main())
