"""Shared by the tools: the command line, how a tool ends, running programs, and lapd at work."""

import argparse
import contextlib
import glob
import hashlib
import os
import re
import select
import shlex
import shutil
import signal
import socket
import subprocess
import sys
import tempfile
import threading
import time

sys.dont_write_bytecode = True
TOP = os.path.dirname(os.path.dirname(os.path.realpath(__file__)))
PROGRAM = f"{TOP}/crates/lapd_cli/out/lapd_cli"
NAME = os.path.basename(sys.argv[0])
SECONDS = 120
SIGNALS = signal.SIGINT, signal.SIGTERM, signal.SIGHUP
# The parts of a usage line: an option, perhaps with a value, or a word, which may be repeated.
USAGE = re.compile(r"\[(--[\w-]+)(?: ([A-Z]+))?\]|(\[?)([A-Z]+)(\.\.)?")


class Failed(Exception):
    """The tool cannot continue: the reason, and the status that it ends with."""

    def __init__(self, reason, status=2):
        super().__init__(reason)
        self.status = status


def start(main, text, name=NAME):
    """Runs a tool with this text about it. `main` gets the options, and returns whether all is
    well. An error begins with the name."""
    status = 1
    try:
        for number in SIGNALS:
            signal.signal(number, stopped)
        status = 0 if main(options_of(text)) else 1
        sys.stdout.flush()
    except BrokenPipeError:
        os.dup2(os.open(os.devnull, os.O_WRONLY), 1)
    except (AssertionError, Failed, OSError, subprocess.SubprocessError) as error:
        say(f"{name}: {error}")
        status = getattr(error, "status", 2)
    sys.exit(status)


def stopped(number, _frame):
    """A signal ends the tool, once."""
    for it in SIGNALS:
        signal.signal(it, lambda *_: None)
    sys.exit(128 + number)


def end_children():
    """Ends the programs that this tool runs."""
    for path in glob.glob("/proc/self/task/*/children"):
        # The task, or the program, may have ended meanwhile.
        with contextlib.suppress(FileNotFoundError, ProcessLookupError):
            for process in text_at(path).split():
                with contextlib.suppress(ProcessLookupError):
                    os.kill(int(process), signal.SIGTERM)


@contextlib.contextmanager
def reporting(what):
    """Reports how long something has taken, every half minute until it ends."""
    begun, ended = time.monotonic(), threading.Event()

    def report():
        while not ended.wait(30):
            say(f"lapd: {what}, {clock(time.monotonic() - begun)} so far")

    threading.Thread(target=report, daemon=True).start()
    try:
        yield
    finally:
        ended.set()


def options_of(text):
    """The options and words of the command line, of which the text has a usage line."""
    parser = argparse.ArgumentParser(NAME, "-h prints it", add_help=False, allow_abbrev=False)
    parser.print_help = lambda: print(text, end="")
    parser.add_argument("-h", "--help", action="help")
    for option, value, bracket, word, more in USAGE.findall(re.search("usage: .*", text)[0]):
        if value:
            parser.add_argument(option, type=int if value == "N" else str)
        elif option:
            parser.add_argument(option, action="store_true")
        else:
            parser.add_argument(word.lower(), nargs="*" if more else "?" if bracket else None)
    return parser.parse_args()


def chosen(names, known):
    """The names, which must be known, or all that are known if there are none."""
    for it in names:
        if it not in known:
            raise Failed(f"unknown name {it}; these are known: {' '.join(known)}")
    return names or list(known)


def say(text):
    print(text, file=sys.stderr, flush=True)


def clock(seconds):
    return f"{int(seconds) // 60}:{int(seconds) % 60:02}"


def text_at(path):
    """The text of a file."""
    with open(path, encoding="utf-8") as file:
        return file.read()


def text_of(path):
    """The text of a file of the repository."""
    return text_at(f"{TOP}/{path}")


def printed(*words, **how):
    """The output of a program, which must end with status 0."""
    how = {"stdout": subprocess.PIPE, "stderr": subprocess.DEVNULL, "timeout": SECONDS, **how}
    return subprocess.run(words, text=True, check=True, **how).stdout


def compile_c(*words):
    subprocess.run([*shlex.split(os.environ.get("CC", "cc")), *words], check=True)


def rows_below(name):
    """The rows of crates.txt of a crate and of those below it, lowest first."""
    lines = [it.partition("#")[0].strip() for it in text_of("crates.txt").splitlines()]
    rows, found = {re.split("[ :]", it)[0]: it for it in lines if it}, {}
    if name not in rows:
        raise Failed(f"crates.txt has no crate {name}")

    def add(name):
        for it in rows[name].partition(":")[2].split():
            if it in rows and it not in found:
                add(it)
        found[name] = rows[name]

    add(name)
    return found


def made_of(name):
    """The parts of a crate: the files and folders that ./lapd looks at, an empty line, the rows
    of the crates up to this one and the sums of their files."""
    below = rows_below(name)
    rows = ["crates.txt", *(f"crates/{it}" for it in below), "", *below.values()]
    for folder in (f"{name}/{it}" for name in below for it in ("src", "specs", "proofs")):
        walked = os.walk(f"{TOP}/crates/{folder}")
        for path in sorted(f"{at}/{it}" for at, _, files in walked for it in files):
            with open(path, "rb") as file:
                checksum = hashlib.sha256(file.read()).hexdigest()
            rows.append(f"{checksum} {os.path.relpath(path, TOP)}")
    return "\n".join(rows) + "\n"


def why_build(made, sources, now):
    """Why a file has to be made, or None if it is up to date: the file of sources has what it was
    made of, which is compared with the text for now."""
    if not os.path.isfile(made):
        return "is not built yet"
    try:
        with open(sources, encoding="utf-8") as file:
            return None if file.read() == now else "has changed since it was built"
    except OSError:
        return "was built from unknown sources"


def need_rt():
    """Fails if the kit's rt is not on the PATH."""
    if not shutil.which("rt"):
        raise Failed("rt, of the kit, is not on the PATH")


def rt(crate, *words, **how):
    """Starts rt in the crate's folder, without input. Its output and its errors are one text."""
    how |= {"stdin": subprocess.DEVNULL, "stdout": subprocess.PIPE, "stderr": subprocess.STDOUT}
    return subprocess.Popen(["rt", *words], cwd=f"{TOP}/crates/{crate}", text=True, **how)


def running(room, words):
    """The program of this folder that runs with these words, or with any one word if they are
    `None`; `None` if no such program runs."""
    for process in filter(str.isdigit, os.listdir("/proc")):
        try:
            with open(f"/proc/{process}/cmdline", "rb") as file:
                line = file.read().decode(errors="replace").rstrip("\0").split("\0")
        except OSError:
            continue
        count = len(words) if words else 1
        is_ours = line[-count:] == words if words else "::" in line[-1]
        if is_ours and len(line) > count and line[-count - 1].startswith(f"{room}/"):
            return line[-count - 1]
    return None


def compiled(crate, flags, words, to, top=TOP):
    """Compiles a crate from source, without a proof. `rt try` compiles it and runs it, with these
    words or, if they are `None`, each of its tests, and while it runs, its program is copied to
    this file. Returns the end of what rt printed if it ended before, else `None`."""
    need_rt()
    with tempfile.TemporaryDirectory(prefix="lapd-try-") as room:
        line = ["rt", "try", *flags, "--seconds", "900", *(["--", *words] if words else [])]
        how = {"stdin": subprocess.DEVNULL, "stdout": subprocess.PIPE, "stderr": subprocess.STDOUT}
        how |= {"cwd": f"{top}/crates/{crate}", "env": {**os.environ, "TMPDIR": room}}
        process = subprocess.Popen(line, **how)
        try:
            while True:
                if found := running(room, words):
                    # It may have ended meanwhile, as a test may; then the next one is seen.
                    with contextlib.suppress(FileNotFoundError):
                        shutil.copy(found, to)
                        return None
                elif process.poll() is not None:
                    said = process.stdout.read().decode(errors="replace").rstrip()
                    return "\n".join(said.split("\n")[-3:])
                time.sleep(0.05)
        finally:
            process.terminate()
            process.wait()


def copy_crates(room):
    """Copies the sources of all crates to this folder, which rt then takes for a repository."""
    skip = shutil.ignore_patterns("out", "must-fail", "also-refused", "data")
    shutil.copytree(f"{TOP}/crates", f"{room}/crates", ignore=skip)
    for name in ("crates.txt", "HANDLES"):
        shutil.copyfile(f"{TOP}/{name}", f"{room}/{name}")
    os.mkdir(f"{room}/.git")


def prove(*words):
    """Runs tools/prove, and returns its status. A signal ends it too."""
    process = subprocess.Popen([f"{TOP}/tools/prove", *words], stdin=subprocess.DEVNULL)
    try:
        return process.wait()
    finally:
        process.terminate()
        process.wait()


# ---- Connections, with two octets of length before each frame.


def free_port():
    with socket.socket() as it:
        it.bind(("127.0.0.1", 0))
        return it.getsockname()[1]


def listener():
    """A socket where user sides connect, and its port."""
    it = socket.create_server(("127.0.0.1", 0))
    it.settimeout(SECONDS)
    return it, it.getsockname()[1]


def prepared(peer):
    peer.settimeout(SECONDS)
    peer.setsockopt(socket.IPPROTO_TCP, socket.TCP_NODELAY, 1)
    return peer


def accepted(place):
    """The next connection of a user side."""
    return prepared(place.accept()[0])


def connected(port, room=None):
    """A connection to a network side, with a receive buffer of this number of octets."""
    peer = socket.socket()
    if room is not None:
        peer.setsockopt(socket.SOL_SOCKET, socket.SO_RCVBUF, room)
    peer.connect(("127.0.0.1", port))
    return prepared(peer)


def send(peer, *frames):
    """Sends frames, written as octets in hexadecimal."""
    for octets in map(bytes.fromhex, frames):
        peer.sendall(len(octets).to_bytes(2, "big") + octets)


def receive(peer, seconds=SECONDS):
    """The next frame in hexadecimal: empty if the other side has closed the connection, `None` if
    no octets arrive in time."""
    octets, count = b"", 2
    while len(octets) < count:
        if not select.select([peer], [], [], seconds)[0]:
            return None
        part = peer.recv(count - len(octets))
        if not part:
            return ""
        octets += part
        if len(octets) == 2:
            count += int.from_bytes(octets, "big")
    return octets[2:].hex()


class Side:
    """The program at work on a script, whose lines are divided by `; `, and at its end the lines
    that it printed and that it reported on standard error."""

    program, started = PROGRAM, []

    @staticmethod
    def choose(program):
        """All sides run this program, or else the one that `make` built."""
        Side.program = os.path.abspath(program or PROGRAM)
        if not os.access(Side.program, os.X_OK):
            raise Failed(f"{Side.program} does not exist; `make` proves and builds the program")

    def __init__(self, words, script=None, **streams):
        self.words, self.lines, self.said = words, [], []
        how = {**dict.fromkeys(("stdin", "stdout", "stderr"), subprocess.PIPE), **streams}
        self.process = subprocess.Popen([Side.program, *words.split()], **how)
        Side.started.append(self.process)
        if script is not None:
            self.type(script.replace("; ", "\n") + "\n")
            self.process.stdin.close()
            self.process.stdin = None

    def type(self, lines):
        """Writes these lines to its standard input, and leaves it open."""
        self.process.stdin.write(lines.encode())
        self.process.stdin.flush()

    def port(self):
        """The port that it listens on."""
        line = self.process.stderr.readline().decode()
        found = re.fullmatch(r"listening on 127\.0\.0\.1:(\d+)\n", line)
        assert found, f"{self.words}: no port, but {line!r}"
        return int(found[1])

    def end(self):
        """Ends its standard input, waits until it has ended well, and keeps what it printed."""
        streams = self.process.communicate(timeout=SECONDS)
        self.lines, self.said = [(it or b"").decode().splitlines() for it in streams]
        status, last = self.process.returncode, f"{self.lines[-4:]} {self.said[-2:]}"
        assert status == 0, f"{self.words}: status {status}: {last}"
        return self

    @staticmethod
    def kill_all():
        for process in Side.started:
            process.kill()
        Side.started.clear()
