#!/usr/bin/env python3
"""Proves the libraries that a program needs, side by side, and then builds the program. `rt run` proves them one after another.

    tools/build.sh                              runs this script
    tools/build_proved.py TOP CRATE [WORD ..]   proves and builds TOP/crates/CRATE, and ends with `rt run -- WORD ..` there

It proves what `rt run` proves. Each library is built by the kit's own function with rt's own flags, and other calls of rt wait for it. The
last step is `rt run` itself, which looks at each library again. Two things differ:

 - Crates that do not wait for each other are proved at one time, as many as processors and memory allow.
 - rt knows by a sum over files whether a crate changed. Here a sum reads each crate once, and not once for each path through crates.txt.

What is proved is kept, so the next call goes on where this one was ended. If one crate is not proved, those that are being proved come to
their end, and no other is begun. What the prover says is added to TOP/out/proved.log. The status is 0, or that of `rt run`, or 1 if a
crate is not proved. If the kit's rt lacks what this needs, it says so and calls `rt run`.
"""
import contextlib
import copy
import dataclasses
import os
import re
import shutil
import signal
import sys
import tempfile
import threading
import time
from concurrent.futures import FIRST_COMPLETED, ThreadPoolExecutor, wait

import build_kit

NEEDS = ("main", "processors", "free", "need", "rtlib.guarded", "rtlib.lock", "rtlib.crates_below", "rtlib.Crate.stamp", "rtlib.Crate.below",
         "rtlib.Crate.is_built", "rtlib.Crate.build_rlib", "rtlib.Crate.count")
MOST_JOBS = 4  # of one check: more gain nothing, since single functions take most of a large crate's time
JOB_SHARE = 0.6  # of a check's memory that each further job takes
SHOWN = 6  # names in a row of progress
PATIENCE = 60  # seconds until progress is said again
GIGA = 1e9
DISK = 300_000  # bytes that out/ keeps for a line of source
DULL = re.compile(r"fn \S+: proved$|(statements|library|crate) \w+: modules ")  # rows that say nothing of what is open


def say(text):
    print(f"build_proved.py: {text}", file=sys.stderr, flush=True)


@dataclasses.dataclass(eq=False)
class Task:
    """A crate that is to be proved."""
    crate: object
    below: set  # the names of the libraries that it waits for
    lines: int
    behind: int  # lines of the longest chain of crates that begins with it
    need: int  # bytes of memory, for one job

    @property
    def name(self):
        return self.crate.name

    def memory(self, jobs):
        return self.need * (1 + JOB_SHARE * (jobs - 1))


def tasks_of(rt, program):
    """A task for each library below the program and for the program, in an order in which they can be proved."""
    crates, tasks = [*program.below(), program], []
    below = {it.name: {dep.name for dep in it.below()} for it in crates}
    for it in reversed(crates):
        lines = it.count(rb"\n")
        behind = lines + max((above.behind for above in tasks if it.name in above.below), default=0)
        tasks.append(Task(it, below[it.name], lines, behind, build_kit.peak(rt, it)))
    return tasks[::-1]


def sums_once(crates):
    """Has a sum of files look at each crate once. It is rt's own sum, and each call takes a new one."""
    plain, here = crates.stamp, threading.local()

    def stamp(crate):
        known = getattr(here, "sums", None)
        if known is not None:
            if crate.folder not in known:
                known[crate.folder] = plain(crate)
            return known[crate.folder]
        here.sums = {}
        try:
            return plain(crate)
        finally:
            here.sums = None

    crates.stamp = stamp


def faults_in(said):
    """The rows of a check's output that name what is not proved."""
    rows = said.split("\n")
    open_goals = [it for it in rows if re.match(r"fn \S+: (?!proved$)", it)]
    errors = [it for it in rows if re.search(r"(^|: )error\b", it) or it.startswith("rt: ")]
    return open_goals or errors[:1] or [it for it in rows if it.strip()][-1:]


def functions_in(said):
    return sum(map(int, re.findall(r"^logic=proved functions=(\d+)", said, re.M)))


def counted(number, unit):
    return f"{number:,} {unit}{'' if number == 1 else 's'}"


class Log:
    """TOP/out/proved.log. In the place of standard error it also shows what it is given, and keeps it."""

    def __init__(self, top):
        os.makedirs(os.path.join(top, "out"), exist_ok=True)
        self.file, self.shown, self.kept = open(os.path.join(top, "out", "proved.log"), "a", encoding="utf-8", errors="replace"), sys.stderr, []

    def write(self, text):
        self.kept.append(text)
        self.file.write(text)
        return self.shown.write(text)

    def flush(self):
        self.file.flush()
        self.shown.flush()

    def add(self, name, said):
        self.file.write(f"== {name}\n{said}")
        self.file.flush()


class Build:
    """One call: what is proved, what runs, and what may begin."""

    def __init__(self, rt, program, log):
        self.rt, self.log, self.begun = rt, log, time.monotonic()
        *tasks, self.last = tasks_of(rt, program)
        self.proved = {it.name for it in tasks if it.crate.is_built()}
        self.left = sorted((it for it in tasks if it.name not in self.proved), key=lambda it: -it.behind)
        self.total, self.functions = len(tasks) + 1, 0
        self.running, self.failed, self.killed = {}, [], set()  # running: of a future its task, its jobs, and its processors
        self.processors, self.memory = rt.processors(), build_kit.SPARE * rt.free()

    def progress(self):
        names = [it.name for it, _, _ in self.running.values()] or [self.last.name]
        more = " .." if len(names) > SHOWN else ""
        print(f"{len(self.proved)} of {self.total} proved, {self.minutes()}; {', '.join(names[:SHOWN])}{more}", file=sys.stderr, flush=True)

    def minutes(self):
        return counted(int((time.monotonic() - self.begun) / 60), "minute")

    def look_at_machine(self):
        """Says what is there, and what is too little."""
        todo, free = [*self.left, self.last], self.memory / build_kit.SPARE / GIGA
        say(f"{counted(self.processors, 'processor')}, {free:.0f} GB of free memory, {len(todo)} of {self.total} crates to prove")
        dearest = max(todo, key=lambda it: it.need)
        if dearest.need > self.memory:
            say(f"{dearest.name} alone may take {dearest.need / GIGA:.1f} GB of memory, and {free:.1f} GB are free: its check may be killed")
        space, kept = shutil.disk_usage(os.getcwd()).free, DISK * sum(it.lines for it in todo)
        if kept > space:
            say(f"what is kept may take {kept / GIGA:.0f} GB of the disk, and {space / GIGA:.0f} GB are free")

    def room(self):
        """Memory in bytes that no running check may still take."""
        return min(self.memory - sum(it.memory(jobs) for it, jobs, _ in self.running.values()), build_kit.SPARE * self.rt.free())

    def idle(self):
        return self.processors - sum(processors for _, _, processors in self.running.values())

    def begin(self, pool):
        """Begins what processors and memory allow, the longest chain first. A check that was killed is done again with nothing beside it."""
        ready = [it for it in self.left if it.below <= self.proved]
        if again := [it for it in ready if it.name in self.killed]:
            if not self.running:
                self.start(pool, again[0], 1, self.processors)
            return
        for at, task in enumerate(ready):
            if self.idle() > 0 and (not self.running or task.need <= self.room()):
                self.start(pool, task, *self.jobs_of(task, ready[at + 1:]))

    def jobs_of(self, task, others):
        """How many jobs a check gets if these others can begin too, and how many processors are set aside for it."""
        share = max(1, min(MOST_JOBS, self.idle() - len(others)))
        later = [it for it in self.left if it is not task and it not in others]
        # What all later work waits for gets more jobs than its share of processors.
        is_neck = (later or not others) and all(task.name in it.below for it in later)
        jobs = min(MOST_JOBS, self.processors) if is_neck else share
        while jobs > 1 and task.memory(jobs) > self.room():
            jobs -= 1
        return jobs, min(share, jobs)

    def start(self, pool, task, jobs, processors):
        self.left.remove(task)
        self.running[pool.submit(prove, task.crate, jobs)] = task, jobs, processors

    def end(self, future):
        """Takes what one check gave."""
        task, _, _ = self.running.pop(future)
        status, said = future.result()
        self.log.add(task.name, said)
        if not status:
            self.proved.add(task.name)
            self.functions += functions_in(said)
        elif status == -signal.SIGKILL and task.name not in self.killed and not self.failed:
            say(f"the check of {task.name} was killed, most likely for memory: once more with nothing beside it")
            self.killed.add(task.name)
            self.left.append(task)
        else:
            print("".join(it for it in said.splitlines(True) if not DULL.match(it)), end="", file=sys.stderr)
            self.fail(task.name, said)

    def fail(self, name, said):
        """Names the open goals of a crate. No other crate is begun."""
        self.failed.append(name)
        self.left = []
        for row in faults_in(said):
            say(f"{name} is NOT PROVED: {row}")

    def libraries(self):
        """Proves all libraries that are left; whether they are proved."""
        with ThreadPoolExecutor(self.processors) as pool:
            self.begin(pool)
            while self.running:
                self.progress()
                for it in wait(self.running, timeout=PATIENCE, return_when=FIRST_COMPLETED).done:
                    self.end(it)
                self.begin(pool)
        return not self.failed

    def program(self, words):
        """The status of `rt run` in the program's folder, over the proved libraries."""
        ended = threading.Event()

        def tell():
            self.progress()
            while not ended.wait(PATIENCE):
                self.progress()

        self.log.add(self.last.name, "")
        threading.Thread(target=tell, daemon=True).start()
        jobs, _ = self.jobs_of(self.last, [])
        shown, sys.stderr = sys.stderr, self.log
        try:
            status = self.rt.main(["run", "--jobs", str(jobs), "--", *words])
        finally:
            ended.set()
            sys.stderr = shown
            self.log.flush()
        said = "".join(self.log.kept)
        if re.search(r"^logic=not-proved", said, re.M):
            self.fail(self.last.name, said)
        elif not status:
            self.proved.add(self.last.name)
            self.functions += functions_in(said)
            say(f"{len(self.proved)} of {self.total} proved, {self.minutes()}; {counted(self.functions, 'function')} in this call")
        return status


def prove(crate, jobs):
    """The status of rt's own build of the library, and what it said."""
    crate = copy.copy(crate)
    with tempfile.TemporaryFile("w+", errors="replace") as crate.out:
        try:
            status = crate.build_rlib(["--jobs", str(jobs)], anew=False)
        except SystemExit as error:  # rt stops so, after a message
            status = error.code or 1
        crate.out.seek(0)
        return status, crate.out.read()


def just_started():
    """The processes that this one has started and that are not yet in the process group of rt's guard."""
    for pid in map(int, filter(str.isdigit, os.listdir("/proc"))):
        try:
            with open(f"/proc/{pid}/stat", encoding="utf-8", errors="replace") as it:
                _, parent, group = it.read().rpartition(")")[2].split()[:3]
        except OSError:
            continue
        if (int(parent), int(group)) == (os.getpid(), os.getpgrp()):
            yield pid


def end_early(number, _frame):
    """At a signal: the guard of rt ends all checks as soon as this process is gone. One that is just being started would join its group too late."""
    os.write(2, b"\nbuild_proved.py: ended early; the next call goes on from here\n")
    for pid in just_started():
        with contextlib.suppress(ProcessLookupError):
            os.kill(pid, signal.SIGKILL)
    signal.signal(number, signal.SIG_DFL)
    os.kill(os.getpid(), number)


def one_after_another(why, words):
    say(f"{why}, so `rt run` proves one crate after another")
    os.execvp("rt", ["rt", "run", "--", *words])


def main():
    if len(sys.argv) < 3 or sys.argv[1].startswith("-"):
        print(__doc__, end="", file=sys.stderr)
        return 2
    top, name, *words = sys.argv[1:]
    top = os.path.realpath(top)
    try:
        os.chdir(os.path.join(top, "crates", name))
    except OSError as error:
        sys.exit(f"build_proved.py: {error.filename}: {error.strerror}")
    try:
        rt = build_kit.toolchain("build_proved.py")
    except Exception as error:
        return one_after_another(f"this kit's rt cannot be loaded ({type(error).__name__})", words)
    if lacks := build_kit.lacking(rt, NEEDS):
        return one_after_another(f"this kit's rt has no {', '.join(lacks)}", words)
    for it in signal.SIGINT, signal.SIGTERM, signal.SIGHUP:
        signal.signal(it, end_early)
    rt.rtlib.guarded()  # before any thread begins
    sums_once(rt.rtlib.Crate)
    program = next(it for it in rt.rtlib.crates_below(os.getcwd()) if it.name == name)
    held = rt.rtlib.lock([*program.below(), program])
    build = Build(rt, program, Log(top))
    build.look_at_machine()
    is_proved = build.libraries()
    for it in held:
        os.close(it)
    return build.program(words) if is_proved else 1


if __name__ == "__main__":
    sys.exit(main())
