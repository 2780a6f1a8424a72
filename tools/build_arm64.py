#!/usr/bin/env python3
"""Builds the program for arm64 (64-bit ARM Linux with glibc) on an x86-64 machine, as the toolchain runs there alone.

    tools/build.sh --arch arm64 [--unproved]      runs this script, and before it, without --unproved, the proof for x86-64
    tools/build_arm64.py PROGRAM                  proves the program for arm64 over the proved libraries, builds it, and writes it to PROGRAM
    tools/build_arm64.py --after-gate PROGRAM     the same over libraries as `rt ci` has just left them, whose text it cannot compare
    tools/build_arm64.py --after-gate --check     proves it only, which needs no C compiler for arm64
    tools/build_arm64.py --unproved PROGRAM       builds it without any proof, in some four minutes
    tools/build_arm64.py --look                   only says what is missing on this machine

The libraries' proofs name no processor, so they serve both. The check of the program for arm64 goes over what its last x86-64 check kept,
in one or two minutes; without that it begins from nothing, in some fourteen minutes of one processor. Its last line, the verdict, is shown.

Besides the toolchain this needs a C compiler and a C library for arm64: Debian's packages gcc-aarch64-linux-gnu and libc6-dev-arm64-cross.
The C functions that the toolchain has for x86-64 alone are in tools/build_arm64.c. Without a proof, the module that `rt try` makes for x86-64
is rewritten for arm64: its layout, its processor, and the number of one system call differ.
"""
import os
import re
import shutil
import signal
import stat
import subprocess
import sys
import tempfile

import build_kit
import build_proved
import build_unproved

TOP = build_unproved.TOP
TARGET = "aarch64-unknown-linux-gnu"
COMPILER = "aarch64-linux-gnu-gcc"
PACKAGES = "gcc-aarch64-linux-gnu libc6-dev-arm64-cross"
C_SOURCE = os.path.join(TOP, "tools", "build_arm64.c")
C_WORDS = ("-O2", "-fPIC", "-std=gnu11", "-Wall", "-Wextra", "-Werror", "-ffunction-sections", "-fstack-clash-protection")
# What rattle-link wants of the C library and of the compiler's own.
PARTS = ("Scrt1.o", "crti.o", "crtn.o", "crtbeginS.o", "crtendS.o", "libc.so.6", "libm.so.6", "libc_nonshared.a", "libgcc.a", "libgcc_s.so.1",
         "ld-linux-aarch64.so.1")
NEEDS = ("rtlib.RATTLE", "rtlib.guarded", "rtlib.lock", "rtlib.crates_below", "rtlib.Crate.words", "rtlib.Crate.below", "rtlib.Crate.is_built",
         "rtlib.Crate.stamp", "processors", "need", "free")
VERDICT = re.compile(rf"^logic=proved .*\btarget={TARGET}\b.*$", re.M)
MOST_JOBS = 4
ELF_ARM64 = b"\x7fELF\x02\x01", (183).to_bytes(2, "little")  # 64 bits, little-endian; and the machine, in bytes 18 and 19

# What `rt try` starts in place of clang, for a build without proof: it also compiles the program's module for arm64, once that is rewritten.
CLANG = """#!{python} -IS
import os, sys
sys.path.insert(0, {tools!r})
sys.dont_write_bytecode = True
open({note!r}, "a").close()
words = [word.replace("--sysroot={own}", "--sysroot={real}") for word in sys.argv[1:] if not word.startswith("-fsanitize=")]
import build_arm64
build_arm64.compile_module("{real}/bin/clang", words, os.path.dirname({note!r}))
os.execv("{real}/bin/clang", ["{real}/bin/clang", *words])
"""
MODULE, LEAST_MODULE = "module.bc", 100_000  # the module's name in the folder where clang runs; a smaller one is only a trial of the compiler
ARM_OBJECT = "arm64.o"
LAYOUT = "e-m:e-p270:32:32-p271:32:32-p272:64:64-i8:8:32-i16:16:32-i64:64-i128:128-n32:64-S128-Fn32"
REWRITES = (  # pattern, text in its place, and what it is
    (r'^target datalayout = ".*"$', f'target datalayout = "{LAYOUT}"', "data layout"),
    (r'^target triple = ".*"$', f'target triple = "{TARGET}"', "target"),
    (r'"target-cpu"="x86-64"', '"target-cpu"="generic"', "processor"),
    (r'(@"\+threads::[^"]*"\()i64 202,', r"\1i64 98,", "call of futex"),  # its number on x86-64, and on arm64
)
OF_X86 = re.compile(r"@(llvm\.x86\.[\w.]+|__x86\w+|__cpu\w+)")
ARM_WORDS = (f"--target={TARGET}", "-march=armv8-a", "-mno-outline-atomics", "-O2", "-fPIE", "-ffunction-sections", "-fdata-sections", "--no-default-config",
             "-fno-crash-diagnostics", "-Werror")


def stop(text):
    sys.exit(f"build_arm64.py: {text}")


def say(text):
    print(f"build_arm64.py: {text}", file=sys.stderr, flush=True)


# --- what the machine must have

def parts():
    """The path of each file of the C library and the compiler, or the end with the packages that are missing."""
    if not shutil.which(COMPILER):
        stop(f"there is no {COMPILER}: sudo apt install {PACKAGES}")
    found = {name: subprocess.run([COMPILER, f"-print-file-name={name}"], capture_output=True, text=True, check=True).stdout.strip() for name in PARTS}
    if missing := [name for name, path in found.items() if not os.path.isabs(path)]:
        stop(f"{COMPILER} has no {', '.join(missing)}: sudo apt install {PACKAGES}")
    return found


def kit_folder():
    if not shutil.which("rt"):
        stop("the toolchain's command rt is not on the PATH")
    return os.path.dirname(subprocess.run(["rt", "doc"], capture_output=True, text=True, check=True, cwd=TOP).stdout.strip())


class Toolchain:
    """A folder as `rattle build` and `rattle-link` want it: the kit's compiler, the C library for arm64, and beside it the C functions."""

    def __init__(self, room):
        self.kit, self.folder, self.functions = kit_folder(), os.path.join(room, "toolchain"), os.path.join(room, "build_arm64.o")
        found = parts()
        build_unproved.link_all(os.path.join(self.kit, "toolchain", "bin"), os.path.join(self.folder, "bin"))
        os.makedirs(os.path.join(self.folder, "lib"))
        for name, path in found.items():
            os.symlink(os.path.realpath(path), os.path.join(self.folder, "lib", name))
        subprocess.run([COMPILER, *C_WORDS, "-c", C_SOURCE, "-o", self.functions], check=True)

    def link(self, made, program):
        """Links an object file, and puts the program in its place in one step."""
        new = f"{program}.new{os.getpid()}"
        os.makedirs(os.path.dirname(program), exist_ok=True)
        try:
            linker = os.path.join(self.kit, "bin", "rattle-link")
            ran = subprocess.run([linker, "--target", TARGET, "--toolchain", self.folder, "-o", new, made, self.functions])
            if ran.returncode:
                stop("it could not be linked, as is said above; a C function that is undefined belongs into tools/build_arm64.c")
            os.chmod(new, os.stat(new).st_mode | stat.S_IXUSR | stat.S_IRGRP | stat.S_IXGRP | stat.S_IROTH | stat.S_IXOTH)
            if not is_arm64(new):
                stop("what was linked is no program for arm64")
            os.replace(new, program)
        finally:
            if os.path.exists(new):
                os.remove(new)


def is_arm64(path):
    with open(path, "rb") as it:
        head = it.read(20)
    return head[:6] == ELF_ARM64[0] and head[18:20] == ELF_ARM64[1]


# --- proved

def words_over_kept(crate, room):
    """The words that have a check go over what the x86-64 check of this crate kept. It is a copy, as the x86-64 checks go on with their own."""
    kept, own = os.path.join(crate.folder, "out", "incremental"), os.path.join(room, "incremental")
    if not os.path.isdir(kept):
        return []
    shutil.copytree(kept, own, symlinks=True)
    return ["--incremental", own]


def jobs(rt, crate):
    """How many jobs the check may have: as many as there are processors, and memory for them. Each further one takes some six tenths of the first."""
    by_memory = 1 + int((build_kit.SPARE * rt.free() / build_kit.peak(rt, crate) - 1) / 0.6)
    return max(1, min(MOST_JOBS, rt.processors(), by_memory))


def prove_and_compile(rt, crate, over, toolchain, made):
    """Proves the program for arm64, and shows the verdict. With a toolchain, what was proved is compiled into an object file."""
    words = [*crate.words(["--jobs", str(jobs(rt, crate))], keeps=bool(over)), "--target", TARGET, *over]
    words = ["build", *words, "--toolchain", toolchain.folder, "--backend", "llvm", "-o", made] if toolchain else ["check", *words]
    ran = subprocess.run([*rt.rtlib.guarded(), rt.rtlib.RATTLE, *words], cwd=crate.folder, stdin=subprocess.DEVNULL, stdout=subprocess.PIPE,
                         stderr=subprocess.STDOUT, text=True, errors="replace")
    verdict = VERDICT.search(ran.stdout)
    if ran.returncode or not verdict:
        print(ran.stdout[-6000:], end="", file=sys.stderr)
        stop(f"{crate.name} is {'proved, but not compiled' if verdict else 'NOT PROVED'} for arm64 (status {ran.returncode})")
    print(verdict[0], flush=True)


def is_proved(library, is_after_gate):
    """Whether a library is there as its text is now. `rt ci` leaves those that it has just proved without a sum of their text."""
    is_unmarked = os.path.isdir(library.rlib) and not os.path.exists(os.path.join(os.path.dirname(library.rlib), "stamp"))
    return library.is_built() or is_after_gate and is_unmarked


def proved(name, program, is_after_gate=False):
    """Proves the program for arm64 over the libraries that are proved, and builds it, if a path is given."""
    rt = build_kit.toolchain("build_arm64.py")
    if lacks := build_kit.lacking(rt, NEEDS):
        stop(f"this kit's rt has no {', '.join(lacks)}")
    rt.rtlib.guarded()
    build_proved.sums_once(rt.rtlib.Crate)
    crate = next(it for it in rt.rtlib.crates_below(os.path.join(TOP, "crates", name)) if it.name == name)
    held = rt.rtlib.lock([*crate.below(), crate])
    if missing := [it.name for it in crate.below() if not is_proved(it, is_after_gate)]:
        stop(f"not proved yet: {', '.join(missing[:6])}{' ..' if len(missing) > 6 else ''}; tools/build.sh --arch arm64 proves them first")
    with tempfile.TemporaryDirectory(prefix="gpsrelay-arm64-") as room:
        toolchain = Toolchain(room) if program else None
        over, made = words_over_kept(crate, room), os.path.join(room, "program.o")
        say(f"proving {crate.name} for arm64, {'over what its x86-64 check kept' if over else 'from nothing'} ...")
        prove_and_compile(rt, crate, over, toolchain, made)
        if program:
            toolchain.link(made, program)
            print(f"{program}: built for arm64 from what is proved")
    for it in held:
        os.close(it)


# --- without proof

def to_arm64(text):
    """A module that was made for x86-64, in LLVM's text form, as one for arm64."""
    for pattern, new, what in REWRITES:
        text, count = re.subn(pattern, new, text, flags=re.M)
        if not count:
            stop(f"the module that `rt try` makes has no {what} as it is known here: this kit needs another way")
    if found := sorted(set(OF_X86.findall(text))):
        stop(f"the module calls what x86-64 alone has: {', '.join(found[:4])}")
    return text


def compile_module(clang, words, room):
    """Called in place of clang: compiles the program's module for arm64 too, if this call compiles that."""
    if MODULE not in words or os.path.getsize(MODULE) < LEAST_MODULE:
        return
    x86, arm = os.path.join(room, "x86.ll"), os.path.join(room, "arm64.ll")
    as_text = ("-S", "-emit-llvm", "-x", "ir", "-O0", "-Xclang", "-disable-llvm-passes", "--target=x86_64-unknown-linux-gnu")
    subprocess.run([clang, *as_text, MODULE, "-o", x86], check=True)
    with open(x86, encoding="utf-8", errors="surrogateescape") as it:
        text = to_arm64(it.read())
    with open(arm, "w", encoding="utf-8", errors="surrogateescape") as it:
        it.write(text)
    subprocess.run([clang, *ARM_WORDS, "-c", "-x", "ir", arm, "-o", os.path.join(room, ARM_OBJECT)], check=True)


def unproved(program):
    """Builds it as build_unproved.py does, whose program for x86-64 is made on the way and run once."""
    for number in build_unproved.SIGNALS:
        signal.signal(number, build_unproved.ended)
    build_unproved.CLANG = CLANG.replace("{tools!r}", repr(os.path.join(TOP, "tools")))
    with tempfile.TemporaryDirectory(prefix="gpsrelay-arm64-") as room, tempfile.TemporaryFile() as said:
        toolchain, made = Toolchain(room), os.path.join(room, ARM_OBJECT)
        rt, crate = build_unproved.kit_for(room, os.path.join(room, "built")), build_unproved.sources_for(room)
        status = build_unproved.tried(rt, crate, room, said)
        if not os.path.exists(made):
            said.seek(0)
            stop(f"`rt try` built nothing (status {status}):\n{said.read()[-6000:].decode(errors='replace')}")
        toolchain.link(made, program)
    with open(program, "rb") as it:
        if build_unproved.UNPROVED.encode() not in it.read():
            os.remove(program)
            stop("the program does not say that it is built without proof")
    print(f"{program}: for arm64, {build_unproved.UNPROVED}")


def main(words):
    if words == ["--look"]:
        parts()
        return 0
    is_unproved, is_after_gate = words[:1] == ["--unproved"], words[:1] == ["--after-gate"]
    words = words[is_unproved or is_after_gate:]
    if is_after_gate and words == ["--check"]:
        proved("gpsrelay", None, is_after_gate)
        return 0
    if len(words) != 1 or words[0].startswith("-"):
        print(__doc__, end="", file=sys.stderr)
        return 2
    program = os.path.abspath(words[0])
    if is_unproved:
        unproved(program)
    else:
        proved("gpsrelay", program, is_after_gate)
    return 0


if __name__ == "__main__":
    sys.exit(main(sys.argv[1:]))
