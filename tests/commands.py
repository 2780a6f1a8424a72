#!/usr/bin/env python3
"""Runs each command that the documents show in marked blocks, on the built program, and compares what is shown with what comes.

Use: commands.py PROGRAM [FILE ..]. Prints a line for each block, and ends with 1 if one fails. Without FILE it looks at README.md,
docs/*.md and the manual pages; all blocks together may take a minute.

In Markdown a block is marked by its info string `console`:

    <!-- run: needs=jq -->
    ```console
    $ gpsrelay decode < samples/drive.nmea | head -1
    {"class":"TPV","device":"stdin","mode":1,"time":"2024-06-01T10:15:00.000Z"}
    $ printf 'a\\nb\\n'
    ...
    b
    ```

A line `$ COMMAND` is run by bash, and what follows, up to the next one, is all that it must write on standard output and standard error
(a carriage return at the end of a line is not shown). `...` alone on a line stands for any lines, also for none. A line `> REST` after
a command is its next row. The commands of a block run one after another in one shell, in a folder of their own with `samples/`, `tools/` and
`examples/` of the repository and `gpsrelay` on PATH; what they leave in the background is ended with the block. Each must end with
status 0. The comment before the block is not needed; it says, separated by blanks:

    needs=jq,xmllint        the block is passed over, with a word, if one of these programs is not installed
    skip="no receiver"      the block is passed over, with this reason
    status=2                the last command of the block ends with this status
    seconds=20              how long the block may take (60 if it does not say)
    serve="WORDS"           a daemon with these options and devices runs beside the block; a 2947 in a command is its port. The device word
                            NAME=feed:PATH is a FIFO that is given the bytes of PATH and stays open to the end of the block

In a manual page (mdoc) a block is a `.Bd -literal` or a `.Dl` after a comment `.\\" run` or `.\\" run: needs=jq`. A line there without `$ ` is
a command too, whose status counts and whose output is not compared.
"""
import glob
import os
import re
import shlex
import shutil
import signal
import subprocess
import sys
import tempfile
import threading
import time

from harness import Daemon, FifoDevice, check, exit_status, slowness, within

PROGRAM = os.path.abspath(sys.argv[1])
TOP = os.path.dirname(os.path.dirname(os.path.abspath(__file__)))
EXAMPLES = [os.path.join(TOP, "tests", name) for name in ("commands_example.md", "commands_example.8")]
TOKEN = "==end of a command=="
MINUTE = 60
ESCAPES = {"\\e": "\\", "\\-": "-", "\\&": "", "\\(aq": "'", "\\(dq": '"', "\\(ha": "^", "\\(ti": "~", "\\(rs": "\\", "\\(ga": "`"}


class Block:
    """A marked block: where it is, what its comment says, and its commands, each with the lines that are shown of it (None if
    nothing is compared)."""

    def __init__(self, place, words):
        self.place, self.words, self.commands = place, words, []

    def take(self, row, compared=True):
        """A row of the block."""
        if row.startswith("$ "):
            self.commands.append([row[2:], []])
        elif not compared:
            self.commands.append([row, None])
        elif not self.commands:
            raise ValueError(f"{self.place}: a block begins with a command")
        elif row.startswith("> ") and not self.commands[-1][1]:
            self.commands[-1][0] += "\n" + row[2:]
        else:
            self.commands[-1][1].append(row)


def words_of(text):
    """What a comment says: NAME=VALUE, the value in quotes if it has blanks."""
    return dict(word.split("=", 1) for word in shlex.split(text))


def blocks_of_markdown(name, rows):
    block, fence, words = None, "", {}
    for number, row in enumerate(rows, 1):
        opened = re.fullmatch(r"(\s*)(```+)\s*(\S*).*", row)
        if fence:
            if row.strip() == fence:
                if block:
                    yield block
                block, fence, words = None, "", {}
            elif block:
                block.take(row[indent:] if not row[:indent].strip() else row)
        elif opened:
            indent, fence = len(opened[1]), opened[2]
            block = Block(f"{name}:{number}", words) if opened[3] == "console" else None
        elif found := re.fullmatch(r"\s*<!-- run:(.*)-->\s*", row):
            words = words_of(found[1])
        elif row.strip():
            words = {}


def unescaped(row):
    return re.sub(r"\\(?:\((?:aq|dq|ha|ti|rs|ga)|[e&-])", lambda found: ESCAPES[found[0]], row)


def blocks_of_manual(name, rows):
    block, words = None, None
    for number, row in enumerate(rows, 1):
        if block:
            if row.startswith(".Ed"):
                yield block
                block, words = None, None
            else:
                compared = row.startswith("$ ") or bool(block.commands and block.commands[-1][1] is not None)
                block.take(unescaped(row), compared)
        elif found := re.fullmatch(r'\.\\" run:?(.*)', row):
            words = words_of(found[1])
        elif words is not None and row.startswith(".Bd -literal"):
            block = Block(f"{name}:{number}", words)
        elif words is not None and row.startswith(".Dl "):
            line = Block(f"{name}:{number}", words)
            line.take(unescaped(row[4:]), row.startswith(".Dl $ "))
            words = None
            yield line


def blocks_of(path):
    with open(path, encoding="utf-8") as it:
        rows = it.read().split("\n")
    name = os.path.relpath(path, TOP)
    return list((blocks_of_markdown if path.endswith(".md") else blocks_of_manual)(name, rows))


def agrees(shown, found):
    """Whether these lines are those that are shown, of which `...` is any number."""
    pattern = "".join(r"(?:[^\n]*\n)*?" if row.strip() == "..." else re.escape(row.rstrip()) + r"\n" for row in shown)
    return re.fullmatch(pattern, "".join(row.rstrip() + "\n" for row in found)) is not None


class Place:
    """A folder in which one block runs."""

    def __init__(self):
        self.folder = tempfile.mkdtemp(prefix="commands")
        self.home = os.path.join(self.folder, "home")
        os.makedirs(os.path.join(self.folder, "bin"))
        os.makedirs(self.home)
        os.symlink(PROGRAM, os.path.join(self.folder, "bin", "gpsrelay"))
        for name in "samples", "tools", "examples":
            if os.path.isdir(os.path.join(TOP, name)):
                shutil.copytree(os.path.join(TOP, name), os.path.join(self.home, name))

    def path(self):
        return os.path.join(self.folder, "bin") + os.pathsep + os.environ["PATH"]

    def remove(self):
        shutil.rmtree(self.folder, ignore_errors=True)


class Served:
    """The daemon beside a block, with the FIFOs that feed it."""

    def __init__(self, text, place):
        self.fifos, words = [], []
        for word in shlex.split(text):
            found = re.fullmatch(r"(\w+)=feed:(.*)", word)
            words.append(self.fed(found[1], os.path.join(place.home, found[2])) if found else word)
        self.daemon = Daemon(PROGRAM, *words, folder=place.home).listening()

    def fed(self, name, path):
        fifo = FifoDevice(name)
        self.fifos.append(fifo)
        with open(path, "rb") as it:
            threading.Thread(target=fifo.send, args=(it.read(),), daemon=True).start()
        return fifo.word

    def stop(self):
        self.daemon.stop()
        for fifo in self.fifos:
            fifo.close()


def run_shell(script, place, seconds):
    """What bash and all that it starts write. All of it is ended with the block."""
    with tempfile.TemporaryFile() as out:
        shell = subprocess.Popen(["bash", "-c", script], cwd=place.home, env={**os.environ, "PATH": place.path(), "LC_ALL": "C.UTF-8"},
                                 stdin=subprocess.DEVNULL, stdout=out, stderr=subprocess.STDOUT, start_new_session=True)
        try:
            shell.wait(seconds)
        except subprocess.TimeoutExpired:
            pass
        try:
            os.killpg(shell.pid, signal.SIGKILL)
        except ProcessLookupError:
            pass
        shell.wait()
        out.seek(0)
        return out.read().decode(errors="backslashreplace")


def outcome(block, port, text):
    """What is wrong with what a block wrote, or None."""
    last = int(block.words.get("status", 0))
    parts = re.split(rf"\n{TOKEN} (\d+)\n", text)
    for number, (command, shown) in enumerate(block.commands):
        if len(parts) < 2 * number + 2:
            return f"`{command}` does not end within {block.words.get('seconds', MINUTE)} s, and wrote {parts[-1][-300:]!r}"
        found, status = parts[2 * number].split("\n"), int(parts[2 * number + 1])
        found = found[:-1] if found[-1] == "" else found
        if port:
            found = [row.replace(str(port), "2947") for row in found]
        wanted = last if number == len(block.commands) - 1 else 0
        if status != wanted:
            return f"`{command}` ends with {status}, not {wanted}, and wrote {found[-3:]}"
        if shown is not None and not agrees(shown, found):
            at = next((k for k, (a, b) in enumerate(zip(shown, found)) if a.rstrip() != b.rstrip()), min(len(shown), len(found)))
            return f"`{command}` writes {len(found)} lines; from line {at + 1} on it is not {shown[at:at + 2]} but {found[at:at + 2]}"
    return None


def passed_over(block):
    """Why a block is not run, or None."""
    missing = [it for it in block.words.get("needs", "").split(",") if it and not shutil.which(it)]
    return block.words.get("skip") or (f"{', '.join(missing)} is not installed" if missing else None)


def run_block(block):
    """What is wrong, or None."""
    if not block.commands:
        return "a block without a command"
    unknown = set(block.words) - {"needs", "skip", "status", "seconds", "serve", "wanted"}
    if unknown:
        return f"the comment says {sorted(unknown)}, which means nothing"
    place, served = Place(), None
    try:
        if "serve" in block.words:
            served = Served(block.words["serve"], place)
        port = served.daemon.port if served else None
        script = "".join((command.replace("2947", str(port)) if port else command) + f"\nprintf '\\n{TOKEN} %d\\n' $?\n" for command, _ in block.commands)
        return outcome(block, port, run_shell(script, place, float(block.words.get("seconds", MINUTE))))
    finally:
        if served:
            served.stop()
        place.remove()


def examples():
    """The blocks of the examples, each of which says itself whether it must pass, fail or be passed over: so a failure is seen to be one."""
    for block in [block for name in EXAMPLES for block in blocks_of(name)]:
        found = "skipped" if passed_over(block) else "failed" if run_block(block) else "passed"
        check(f"{block.place}: a block that must be {block.words['wanted']}", block.words["wanted"], found)


def documents():
    """README.md, docs/*.md and the manual pages."""
    pages = [it for it in glob.glob(f"{TOP}/docs/*.[1-8]")]
    return [os.path.join(TOP, "README.md"), *sorted(glob.glob(f"{TOP}/docs/*.md")), *sorted(pages)]


def main():
    begun = time.monotonic()
    examples()
    for name in sys.argv[2:] or documents():
        blocks = blocks_of(name)
        if name.endswith("README.md"):
            check(f"{os.path.relpath(name, TOP)} shows commands", True, bool(blocks))
        for block in blocks:
            if why := passed_over(block):
                print(f"skipped {block.place}: {why}", flush=True)
            else:
                check(f"{block.place}: {block.commands[0][0].splitlines()[0][:70] if block.commands else ''}", None, run_block(block))
    taken = time.monotonic() - begun
    within(f"all within a minute: {taken:.1f} s", taken < MINUTE * slowness(), taken)
    return exit_status()


if __name__ == "__main__":
    sys.exit(main())
