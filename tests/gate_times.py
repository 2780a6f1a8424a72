#!/usr/bin/env python3
"""Processor time that the prover takes for each crate: its proofs, its tests, its must-fail edits and its proof for arm64, and what rt takes itself.

Use: gate_times.py FILE, beside a run of the gate. It looks twice a second at the processes of the prover and of rt that belong to this
checkout. What else the machine proves is not counted. When it is ended by SIGTERM it writes one line a crate to FILE, the dearest first,
in processor seconds, and a line for rt itself: sums over files, and what it reads of sources. What a process takes after its last look is
missed.
"""
import os
import signal
import sys
import time

TICKS = os.sysconf("SC_CLK_TCK")
TOP = os.path.dirname(os.path.dirname(os.path.realpath(__file__)))
KINDS = ("proofs", "tests", "edits", "arm64")
ARM64 = "aarch64-unknown-linux-gnu"  # what a check for arm64 is told as its target


class Process:
    """What /proc says of a process. It raises OSError or IndexError if the process is gone."""

    def __init__(self, pid):
        with open(f"/proc/{pid}/cmdline", "rb") as it:
            self.words = it.read().decode(errors="replace").split("\0")
        with open(f"/proc/{pid}/stat") as it:
            fields = it.read().rpartition(")")[2].split()
        self.pid, self.parent, self.key = pid, fields[1], (pid, fields[19])
        self.seconds = (int(fields[11]) + int(fields[12])) / TICKS
        self.folder = os.readlink(f"/proc/{pid}/cwd")

    def is_here(self):
        return f"{self.folder}/".startswith(f"{TOP}/")

    def is_rt(self):
        return any(os.path.basename(it) == "rt" for it in self.words[:3])

    def kind(self):
        """The kind of work of a prover."""
        if "/rt-edit-" in self.folder:
            return "edits"
        if "--test" in self.words:
            return "tests"
        return "arm64" if ARM64 in self.words else "proofs"

    def is_ours(self):
        """Whether it works below this checkout, or for an rt that does: an edit is checked in a temporary folder."""
        it = self
        while not self.is_here() and not it.is_rt():
            if it.parent in ("0", "1"):
                return False
            it = Process(it.parent)
        return it.is_here()


def look():
    """Yields each process of the prover, and of rt: its key, the crate, the kind of work, and its processor time so far."""
    for pid in filter(str.isdigit, os.listdir("/proc")):
        try:
            it = Process(pid)
            if it.is_rt():
                if it.is_here():
                    yield it.key, None, None, it.seconds
            elif it.words[0].endswith("/rattle") and "--crate-name" in it.words and it.is_ours():
                yield it.key, it.words[it.words.index("--crate-name") + 1], it.kind(), it.seconds
        except (OSError, IndexError):
            continue


def main():
    spent, done = {}, []
    signal.signal(signal.SIGTERM, lambda *_: done.append(True))
    while not done:
        for key, crate, kind, seconds in look():
            spent[key] = crate, kind, seconds
        time.sleep(0.5)
    table = {}
    for crate, kind, seconds in spent.values():
        if crate:
            row = table.setdefault(crate, dict.fromkeys(KINDS, 0.0))
            row[kind] += seconds
    own = sum(seconds for crate, _, seconds in spent.values() if not crate)
    with open(sys.argv[1], "w") as out:
        print(f"{'crate':<16}" + "".join(f"{kind:>9}" for kind in KINDS) + f"{'all':>9}", file=out)
        rows = sorted(table.items(), key=lambda it: -sum(it[1].values()))
        total = {kind: sum(row[kind] for row in table.values()) for kind in KINDS}
        for crate, row in rows:
            print(f"{crate:<16}" + "".join(f"{row[kind]:>9.0f}" for kind in KINDS) + f"{sum(row.values()):>9.0f}", file=out)
        print(f"{'rt itself':<{16 + 9 * len(KINDS)}}{own:>9.0f}", file=out)
        print(f"{'together':<16}" + "".join(f"{total[kind]:>9.0f}" for kind in KINDS) + f"{sum(total.values()) + own:>9.0f}", file=out)


if __name__ == "__main__":
    main()
