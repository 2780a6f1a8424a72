#!/usr/bin/env python3
"""The daemon's messages on standard error: what it waits for, why it ends, how a terminal is set, what cannot be read, its numbers, which clients
are turned away, what the journal gets, and that a standard error which takes nothing holds nobody.

Use: messages.py PROGRAM. Prints a line for each check, and ends with 1 if one fails. Every wait is bounded.
"""
import fcntl
import grp
import os
import re
import resource
import shutil
import socket
import subprocess
import sys
import tempfile
import time
import tty

from harness import (WAIT, Client, Daemon, TcpDevice, TerminalDevice, check, end_process, exit_status, free_port, run_parts, sentence,
                     slowness, until, within)
from messages_readable import readable

PROGRAM = os.path.abspath(sys.argv[1])
NOBODY = 65534

RMC = sentence("GPRMC,123519,A,4807.038,N,01131.000,E,022.4,084.4,230394,003.1,W")


def says(name, text, errors):
    check(name, True, text in errors or errors)


def started(*words, listen="127.0.0.1:0"):
    return Daemon(PROGRAM, *words, listen=listen)


def port_of(daemon):
    """The port that a daemon got, as it says."""
    return int(daemon.listening().said().partition("listening at ")[2].split()[0].rpartition(":")[2])


def ends(name, daemon, status, *texts):
    """The daemon ends with this status, and has said these."""
    check(f"{name}: status", status, daemon.wait(WAIT)[0])
    for text in texts:
        says(f"{name}: {text!r}", text, daemon.said())


def faults():
    ends("a file that is missing", started("g=file:/nonexistent/gps"), 3, "file:/nonexistent/gps cannot be opened: no such file")
    ends("a folder as a device", started("g=file:/tmp"), 3, "file:/tmp ", ": is a directory")
    closed = free_port()
    ends("a peer that is not there", started(f"g=tcp:127.0.0.1:{closed}"), 3, f"connecting to tcp:127.0.0.1:{closed}", ": connection refused")
    ends("a device that ends", started("g=file:/dev/null"), 0, "file:/dev/null has ended")
    with tempfile.TemporaryDirectory() as place:
        path = f"{place}/secret"
        open(path, "w").close()
        os.chmod(path, 0)
        if not os.access(path, os.R_OK):
            ends("a file that is forbidden", started(f"g=file:{path}"), 3, f"file:{path} cannot be opened: permission denied")
    with socket.create_server(("127.0.0.1", 0)) as taken:
        port = taken.getsockname()[1]
        ends("an address that is taken", started("g=file:/dev/null", listen=f"127.0.0.1:{port}"), 8,
             f"cannot listen at 127.0.0.1:{port}: address in use")
    ends("an address of another machine", started("g=file:/dev/null", listen="192.0.2.1:2947"), 8,
         "cannot listen at 192.0.2.1:2947: address not available")
    ends("a star for all addresses", started("g=file:/dev/null", listen="*:2947"), 8, "cannot listen at *:2947", "say --listen 0.0.0.0:2947, or --listen [::]:2947")
    terminal = TerminalDevice()
    ends("a speed behind a terminal", started(f"{terminal.word}:9600"), 3, f"file:{terminal.path}:9600 cannot be opened: no such file",
         f"gpsrelay-port {terminal.path} 9600")
    terminal.close()
    # The system knows the address, so the reason is the connection's, and not an unknown host.
    scoped = started("g=tcp:[fe80::1%lo]:1")
    check("an address with a scope: status", 3, scoped.wait()[0])
    check("an address with a scope: the reason is of the connection", True, "before a byte came: " in scoped.said() and "no such" not in scoped.said() or scoped.said())


def waiting():
    with tempfile.TemporaryDirectory() as place:
        path = f"{place}/fifo"
        os.mkfifo(path)
        fifo = started(f"g=file:{path}")
        check("a FIFO: what is waited for", True, fifo.says(f"waiting for a writer of file:{path}"))
        with open(path, "wb"):
            pass
        ends("a FIFO", fifo, 0, f"file:{path} has ended")
        with open(path, "r+b", buffering=0):  # its writer is there already
            for more in [], ["--reopen", "1"]:
                fifo = started(*more, f"g=file:{path}")
                with open(path, "wb", buffering=0) as writer:
                    fifo.listening()
                    writer.write(RMC)
                    time.sleep(1.5)
                    check(f"a FIFO with a writer that has written {more}: it is not said that it waits", False, "waiting for" in fifo.said())
                fifo.stop()


def terminals():
    """How to set a terminal is said only if what comes shows that it is not raw: then each CR LF of a receiver comes as two LF."""
    for name, is_raw in ("a raw terminal", True), ("a terminal that is not raw", False):
        master, slave = os.openpty()
        if is_raw:
            tty.setraw(slave)
        path = os.ttyname(slave)
        terminal = started(f"g=file:{path}")
        client = Client(port_of(terminal), seconds=WAIT)
        client.watching('{"nmea":true}')
        os.write(master, RMC * 2)
        check(f"{name}: a sentence comes through", is_raw, client.line() == RMC if is_raw else client.line() == RMC)
        hint = f"file:{path} is a terminal that changes what comes: set it raw: stty -F {path} raw -echo"
        if is_raw:
            check(f"{name}: nothing is said of it", False, "stty" in terminal.said())
        else:
            check(f"{name}: how to set it", True, terminal.says(hint))
        client.close()
        os.close(slave)
        os.close(master)
        # Its hang-up is an end or a fault of the read, whichever the system's read meets.
        check(f"{name} that hangs up: status", True, terminal.wait(WAIT)[0] in (0, 3))
        says(f"{name} that hangs up: it is said", f"file:{path} ", terminal.said().partition("listening at ")[2])
        check(f"{name}: it is said once", 0 if is_raw else 1, terminal.said().count("stty"))


def clients():
    """The port that `:0` got, and the 65th client."""
    device = TcpDevice("g")
    full = started(device.word)
    device.take()
    port = port_of(full)
    check("the port that it got is said", True, port > 0 or full.said())
    links = []
    for _ in range(64):
        links.append(socket.create_connection(("127.0.0.1", port), WAIT))
        check_first = links[-1].recv(1)
        if check_first != b"{":
            check("64 clients: each is served", b"{", check_first)
    check("64 clients: none is turned away", True, "turned away" not in full.said() or full.said())
    for _ in range(3):
        further = socket.create_connection(("127.0.0.1", port), WAIT)
        check("a further client: it is closed without a byte", b"", further.recv(1))
        further.close()
    check("a further client: it is said", True, full.says("a client was turned away: at most 64 clients are served at a time"))
    check("further clients: it is said once", 1, full.said().count("turned away"))
    for it in links:
        it.close()
    device.close()
    ends("a device that is closed", full, 0, "has ended")


def starved_client():
    """A client for which there is no memory: the reason is not the number of clients."""
    device = TcpDevice("g")
    daemon = started(device.word, "--queue", "65536")
    device.take()
    port = port_of(daemon)
    daemon.starve()
    for _ in range(3):
        link = socket.create_connection(("127.0.0.1", port), WAIT)
        link.settimeout(WAIT)
        check("a client without memory for it: it is closed without a byte", b"", link.recv(1))
        link.close()
    check("a client without memory for it: the reason", True, daemon.says("a client was turned away: no memory or no thread: "))
    check("a client without memory for it: no other reason", False, "64 clients" in daemon.said())
    device.close()
    daemon.wait(WAIT)


def same_file():
    """A FIFO or a terminal under two names is refused before anything is opened; a file or /dev/null is not."""
    with tempfile.TemporaryDirectory() as place:
        fifo, other, plain = f"{place}/fifo", f"{place}/link", f"{place}/file"
        os.mkfifo(fifo)
        os.symlink(fifo, other)
        with open(plain, "wb") as it:
            it.write(RMC)
        master, slave = os.openpty()
        terminal = os.ttyname(slave)
        rows = [
            ([f"roof=file:{fifo}", f"van=file:{other}"], "roof and van name the same file"),
            ([f"roof=file:{fifo}", f"roof=edges:{fifo}"], "roof and the edges of roof name the same file"),
            (["x=file:/dev/null", f"roof=file:{fifo}", f"x=edges:{other}"], "roof and the edges of x name the same file"),
            ([f"roof=file:{terminal}", f"van=file:{terminal}"], "roof and van name the same file"),
            (["--stop", fifo, f"roof=file:{other}"], "roof and --stop name the same file"),
        ]
        for words, text in rows:
            done = subprocess.run([PROGRAM, "serve", "--listen", "127.0.0.1:0", *words], capture_output=True, timeout=WAIT)
            found = (done.returncode, done.stdout, done.stderr.decode())
            check(f"{text}: refused", (2, b"", f"gpsrelay: {text}\n"), found)
        for path, text in [
            (f"{place}/missing", f"no such file; make it first: mkfifo {place}/missing"),
            (f"{fifo}/stop", f"there is no folder {fifo}; make it first, and then the file: mkfifo {fifo}/stop"),
        ]:
            done = subprocess.run([PROGRAM, "serve", "--listen", "127.0.0.1:0", "--stop", path, f"roof=file:{plain}"], capture_output=True, timeout=WAIT)
            found = (done.returncode, done.stdout, done.stderr.decode())
            check(f"--stop {path.removeprefix(place)}: refused", (2, b"", f"gpsrelay: --stop {path}: {text}\n"), found)
        os.close(master)
        os.close(slave)
        ends("a file under two names", started(f"roof=file:{plain}", f"van=file:{plain}"), 0, "has ended")
        ends("/dev/null under two names", started("roof=file:/dev/null", "van=file:/dev/null"), 0, "has ended")


def unprivileged():
    """What a user who is not root is told. Skipped where nobody can run the program, or this user cannot become nobody."""
    with tempfile.TemporaryDirectory() as place:
        os.chmod(place, 0o755)
        program = shutil.copy(PROGRAM, f"{place}/gpsrelay")
        os.chmod(program, 0o755)
        path = f"{place}/receiver"
        open(path, "w").close()

        def call(*words):
            done = subprocess.run([program, "serve", *words], capture_output=True, timeout=WAIT, user=NOBODY, group=NOBODY, extra_groups=[])
            return done.returncode, done.stderr.decode()

        try:
            call("--listen", "127.0.0.1:0", "g=file:/dev/null")
        except OSError as why:
            print(f"skipped: what nobody is told: {why}")
            return
        for mode, group, text in (0o660, "dialout", "permission denied; its group is dialout: is this user in it?"), (0o600, "root", "permission denied; only its owner may read it"):
            os.chown(path, 0, grp.getgrnam(group).gr_gid)
            os.chmod(path, mode)
            status, errors = call("--listen", "127.0.0.1:0", f"g=file:{path}")
            check(f"a file of the group {group} with the mode {mode:o}: status", 3, status)
            says(f"a file of the group {group} with the mode {mode:o}: {text!r}", f"file:{path} cannot be opened: {text}", errors)
        status, errors = call("--listen", "127.0.0.1:80", "g=file:/dev/null")
        if status == 0:
            print("skipped: a low port: this system gives it to everybody")
        elif "address in use" not in errors:
            check("a low port: status", 8, status)
            says("a low port: why", "cannot listen at 127.0.0.1:80: permission denied; a port below 1024 needs root or CAP_NET_BIND_SERVICE", errors)


def journal():
    """Where standard error is the journal, as JOURNAL_STREAM says, each line has its priority and no name; and never elsewhere."""
    for is_journal in True, False:
        with tempfile.TemporaryFile() as errors:
            file = os.fstat(errors.fileno())
            environment = {**os.environ, "JOURNAL_STREAM": f"{file.st_dev}:{file.st_ino if is_journal else file.st_ino + 1}"}
            for words in ["--listen", "127.0.0.1:0", "g=file:/dev/null"], ["g=file:/nonexistent"], ["--queue", "g=file:/dev/null"]:
                subprocess.run([PROGRAM, "serve", *words], stdout=subprocess.DEVNULL, stderr=errors, env=environment, timeout=WAIT)
            rows = os.pread(errors.fileno(), 1 << 20, 0).decode().splitlines()
        heads = [row[:3] if is_journal else row[:10] for row in rows if not row.startswith("usage: ")]
        wanted = ["<6>", "<6>", "<3>", "<3>", "<3>"] if is_journal else ["gpsrelay: "] * 5
        check(f"the heads of two events, two faults and a refusal{'' if is_journal else ', at another file'}", wanted, heads if len(heads) == 5 else rows)


def no_thread():
    """Clients for which no thread can be started: a user's threads are limited. Skipped where this user cannot become nobody."""
    with tempfile.TemporaryDirectory() as place:
        os.chmod(place, 0o755)
        program, port, device = shutil.copy(PROGRAM, f"{place}/gpsrelay"), free_port(), TcpDevice("g")
        os.chmod(program, 0o755)

        def start(threads):
            return subprocess.Popen([program, "serve", "--listen", f"127.0.0.1:{port}", device.word], stdout=subprocess.DEVNULL, stderr=errors, user=NOBODY,
                                    group=NOBODY, extra_groups=[], preexec_fn=lambda: resource.setrlimit(resource.RLIMIT_NPROC, (threads, threads)))

        with tempfile.TemporaryFile() as errors:
            def said():
                return os.pread(errors.fileno(), 1 << 20, 0).decode()

            try:
                daemon = start(24)
            except OSError as why:
                print(f"skipped: clients without a thread: {why}")
                device.close()
                return
            try:
                device.take()
                clients = [connected(port) for _ in range(20)]
                text = r"^gpsrelay: (a client was|\d+ clients were) closed: the system started no thread: raise TasksMax, or ulimit -u$"
                until(lambda: re.search(text, said(), re.M), WAIT)
                check("clients without a thread: it is said", True, bool(re.search(text, said(), re.M)) or said())
                for it in clients:
                    it.close()
            finally:
                daemon.kill()
                daemon.wait(WAIT)
        device.close()


class BlockedErrors:
    """A pipe for standard error that is full, until it is read."""

    def __init__(self):
        self.reader, self.writer = os.pipe()
        fcntl.fcntl(self.writer, fcntl.F_SETPIPE_SZ, 4096)
        os.set_blocking(self.writer, False)
        self.filled = 0
        try:
            while True:
                self.filled += os.write(self.writer, b"." * 4096)
        except BlockingIOError:
            os.set_blocking(self.writer, True)

    def start(self, *words):
        daemon = subprocess.Popen([PROGRAM, "serve", *words], stdin=subprocess.DEVNULL, stdout=subprocess.PIPE, stderr=self.writer)
        os.close(self.writer)
        return daemon

    def rest(self):
        """All that is written to it, from now to the end."""
        with open(self.reader, "rb") as it:
            return it.read()[self.filled:].decode()


def connected(port):
    """A client, as soon as the daemon takes it."""
    found = []

    def tries():
        try:
            found.append(Client(port, seconds=WAIT))
        except ConnectionRefusedError:
            pass
        return found

    until(tries, WAIT)
    return found[0]


def blocked_errors():
    """A standard error that takes nothing holds neither the door nor a device, nor the end of the daemon. What found no room is counted."""
    for is_read in False, True:
        name = "a standard error that is read late" if is_read else "a standard error that is never read"
        with tempfile.TemporaryDirectory() as place:
            folder = place
            while len(folder) < 3_600:
                folder = f"{folder}/{'f' * 200}"
            os.makedirs(folder)
            paths = [f"{folder}/receiver{n}" for n in range(8)]
            for path in paths:
                os.mkfifo(path)
            port, errors = free_port(), BlockedErrors()
            daemon = errors.start("--listen", f"127.0.0.1:{port}", *[f"g{n}=file:{path}" for n, path in enumerate(paths)])
            client = connected(port)
            client.watching('{"nmea":true}')
            writers = [os.open(path, os.O_WRONLY) for path in paths]
            for writer in writers:
                os.write(writer, RMC)
            check(f"{name}: each device is read, and a client is served", [RMC] * 8, [client.line() for _ in writers])
            further = connected(port)
            check(f"{name}: a further client is greeted", True, (further.line() or b"").startswith(b'{"class":"VERSION"'))
            for writer in writers[1:]:
                os.close(writer)
            time.sleep(0.5)
            begun = time.monotonic()
            if is_read:
                os.set_blocking(errors.reader, False)
                os.read(errors.reader, errors.filled)
                errors.filled = 0
                os.set_blocking(errors.reader, True)
            os.close(writers[0])
            for it in client, further:
                it.rest()
                it.close()
            if is_read:
                said = errors.rest()
            status, out = end_process(daemon, WAIT)
            taken = time.monotonic() - begun
            check(f"{name}: status, and a closing line for each of 2 clients and 8 segments", (0, 10), (status, out.count(b"\n")))
            within(f"{name}: it ends within 5 s: {taken:.1f} s", taken < 5 * slowness(), taken)
            if not is_read:
                os.close(errors.reader)
                continue
            left_out = sum(int(it) for it in re.findall(r"^gpsrelay: (\d+) messages? (?:was|were) left out$", said, re.M))
            whole = len([line for line in said.splitlines() if "left out" not in line])
            check(f"{name}: messages were left out", True, left_out > 0 or said[-500:])
            # That it listens, and the end of each device. That a device waits for a writer is not said any more once one has come.
            check(f"{name}: each of 9 messages was written or counted as left out", 9, whole + left_out)


run_parts(faults, waiting, terminals, clients, starved_client, no_thread, readable, journal, same_file, unprivileged, blocked_errors)
sys.exit(exit_status())
