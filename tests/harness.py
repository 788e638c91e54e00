"""What the tests share: how long they wait, what is counted, the built program, a daemon and its peers.

PATIENCE, in seconds, is for what would hang: it costs nothing where all is well, however busy the machine is. `within` is for a bound
that a promise has: so many seconds where a processor is free, and longer where more wants to run than there are processors.

A file of tests is of one of two kinds. One that looks at many things one after another calls `check` and `check_none`, and `end_tests` or
`counted` last. In the other each test is a function under `@test`, which is given a folder and fails by `same` and `holds`; `run_tests` runs
them.

PROGRAM is the environment's IOVAD, else what was built here, else what bin/dev program finds.
"""
import contextlib
import ctypes
import os
import re
import shutil
import signal
import socket
import stat
import subprocess
import sys
import tempfile
import threading
import time

HERE = os.path.dirname(os.path.realpath(__file__))
TOP = os.path.dirname(HERE)

# How long to wait.

PATIENCE = 600


def within(seconds):
    with open("/proc/loadavg", encoding="ascii") as file:
        minute, _, _, now, _ = file.read().split()
    wants = max(float(minute), float(now.partition("/")[0]))
    return seconds * max(1, wants / os.cpu_count())


def until(condition, what):
    """Waits until it holds."""
    end = time.monotonic() + PATIENCE
    while not condition():
        holds(time.monotonic() < end, what)
        time.sleep(0.002)


# What is counted.


class Score:
    """What was looked at, and what of it was wrong."""

    passed = failed = 0
    longest = 600  # characters that are told of each side of a comparison


def check(name, got, want):
    """Counts a comparison."""
    if got == want:
        Score.passed += 1
    else:
        Score.failed += 1
        print(f"failed: {name}: got {repr(got)[: Score.longest]}, wanted {repr(want)[: Score.longest]}", flush=True)


def check_none(name, wrong):
    """Counts what was looked at; `wrong` is what is wrong with it: a text, or lines of which 40 are told."""
    if not wrong:
        Score.passed += 1
        return
    Score.failed += 1
    if isinstance(wrong, list):
        print("\n  ".join([f"failed: {name}", *map(str, wrong[:40])]), flush=True)
    else:
        print(f"failed: {name}: {str(wrong)[:2000]}", flush=True)


def left_out(what):
    print(f"left out: {what}", flush=True)


def counted():
    """The last line, and the status of the process."""
    print(f"{Score.passed} passed, {Score.failed} failed")
    return 1 if Score.failed else 0


def end_tests():
    sys.exit(counted())


TESTS = []


def test(function):
    TESTS.append(function)
    return function


class Failure(Exception):
    pass


def same(got, want, what=""):
    if got != want:
        raise Failure(f"{what}: got {got!r}, wanted {want!r}")


def holds(condition, what):
    if not condition:
        raise Failure(what)


def run_tests(tests=None, *given):
    """Runs those tests whose names begin as a word of the command line, or all, each in a folder of its own or with what is given.
    With TIMES in the environment their seconds are told. The status of the process."""
    for each in TESTS if tests is None else tests:
        if sys.argv[1:] and not any(each.__name__.startswith(word) for word in sys.argv[1:]):
            continue
        folder, begun = tempfile.mkdtemp(), time.monotonic()
        try:
            each(*(given or (folder,)))
            Score.passed += 1
        except Exception as fault:  # a test that fails in any way is one that failed
            Score.failed += 1
            print(f"failed: {each.__name__}: {type(fault).__name__}: {fault}", flush=True)
        finally:
            shutil.rmtree(folder, ignore_errors=True)
        if os.environ.get("TIMES"):
            print(f"{time.monotonic() - begun:6.2f} s  {each.__name__}", flush=True)
    return counted()


# The program.


def built(variable, path, finder):
    """The environment's, else what was built here, else what a script finds, which may build it first."""
    made = os.environ.get(variable) or os.path.join(TOP, "crates", *path)
    if not os.path.exists(made):
        found = subprocess.run([os.path.join(TOP, "dev", finder)], stdin=subprocess.DEVNULL, stdout=subprocess.PIPE, check=False)
        if found.returncode:
            print("0 passed, 1 failed")
            sys.exit(1)
        made = found.stdout.decode().strip()
    return made


def built_example(work, name, source, old="", new=""):
    """The program of a C source below examples/, over the library. With `old` one place of the examples' folder is edited: of the
    source, or of the header that has it."""
    folder, program = os.path.join(work, name), os.path.join(work, f"{name}.program")
    shutil.copytree(os.path.join(TOP, "examples"), folder)
    below = os.path.dirname(os.path.join(folder, source))
    texts = {}
    for file in os.listdir(below):
        with open(os.path.join(below, file), encoding="utf-8") as opened:
            texts[file] = opened.read()
    check(f"{name}: places of the edit", sum(text.count(old) for text in texts.values()) if old else 1, 1)
    for file, text in texts.items():
        with open(os.path.join(below, file), "w", encoding="utf-8") as opened:
            opened.write(text.replace(old, new) if old else text)
    library = built("LIBIOVA", ("iova_c", "out", "libiova.a"), "library")
    words = ["cc", "-O2", "-std=c11", "-Wall", "-Wextra", "-Werror", "-pthread", f"-I{TOP}/crates/iova_c/include"]
    words += [os.path.join(folder, source), library, "-o", program]
    done = subprocess.run(words, stderr=subprocess.PIPE, text=True, timeout=PATIENCE, check=False)
    check_none(f"{name}: it is built", done.stderr)
    return program


def findings(log):
    """The status of `iovad check`, how many findings there are of each kind, and its counts."""
    done = subprocess.run([program(), "check", log], stdout=subprocess.PIPE, text=True, timeout=PATIENCE, check=False)
    kinds = re.findall(r"^line \d+: (\w+)", done.stdout, re.M)
    counts = {name: int(count) for name, count in re.findall(r"^(\w+) +(\d+)$", done.stdout, re.M)}
    return done.returncode, {kind: kinds.count(kind) for kind in kinds}, counts


def end_with_parent():
    """The kernel kills this process if its parent ends first: for `preexec_fn`."""
    ctypes.CDLL(None).prctl(1, signal.SIGKILL)  # PR_SET_PDEATHSIG


def rust_tool(name):
    """Debian's rustc if it is installed, since it is the oldest that has to do, else that of the PATH."""
    debian = os.path.join("/usr/bin", name)
    return debian if os.path.exists(debian) else name


def __getattr__(name):
    """PROGRAM is looked for where it is asked for."""
    if name != "PROGRAM":
        raise AttributeError(name)
    globals()[name] = built("IOVAD", ("iovad", "out", "iovad"), "program")
    return globals()[name]


def program():
    return sys.modules[__name__].PROGRAM


def sink_words(path):
    """The option for this sink: a socket is a peer's, all else a file."""
    try:
        is_peer = stat.S_ISSOCK(os.stat(path).st_mode)
    except OSError:
        is_peer = False
    return ["--peer" if is_peer else "--sink", path]


def client_words(workers, more):
    """The option for one client at a time for each worker, but where the words have one."""
    return [] if "--clients" in more else ["--clients", workers]


USUAL = re.compile(
    r"^\[WARN \] (records only: no device answers"
    r"|accept: the last of \d+ places is taken: who connects now waits( \.\. and \d+ more)?"
    r"|accept: \.\. and \d+ more)\n",
    re.MULTILINE,
)


def without_usual(notices):
    """Notices without those of a daemon over a file, and of one whose places are all taken."""
    return USUAL.sub("", notices)


# The daemon and its peers.


def listens(path):
    """Whether a socket listens there: bound it is before."""
    with open("/proc/net/unix", encoding="utf-8") as file:
        lines = [line.split() for line in file if line.endswith(f" {path}\n")]
    return any(int(words[3], 16) & 0x10000 for words in lines)


class Daemon:
    """A daemon in a folder of its own, with its socket, its sink's file, and what it prints."""

    def __init__(
        self, folder, workers=1, domain=0, start=1, last=1023, sessions=1, sink=None, more=(), limits=None, stdin=subprocess.DEVNULL
    ):
        self.folder = folder
        self.socket = os.path.join(folder, "socket")
        self.sink = sink or os.path.join(folder, "sink")
        words = ["serve", "--socket", self.socket, "--workers", workers, "--domain", domain, "--start", start]
        words += ["--last", last, *sink_words(self.sink), "--sessions", sessions, *client_words(workers, more), *more]
        self.start(words, limits, stdin)

    def start(self, words, limits=None, stdin=subprocess.DEVNULL):
        # a file: a pipe that nobody reads is full after some thousand notices, and then the daemon waits
        self.notices = tempfile.TemporaryFile()
        words = [program(), *(str(word) for word in words)]
        self.process = subprocess.Popen(words, stdin=stdin, stdout=subprocess.PIPE, stderr=self.notices, preexec_fn=limits)

    def __enter__(self):
        return self

    def __exit__(self, *_):
        self.process.kill()
        self.process.wait()
        self.notices.close()

    def connect(self):
        """A peer's socket, once the daemon listens."""
        end = time.monotonic() + PATIENCE
        while True:
            peer = socket.socket(socket.AF_UNIX, socket.SOCK_STREAM)
            peer.settimeout(PATIENCE)
            try:
                peer.connect(self.socket)
                return peer
            except OSError:
                peer.close()
                holds(self.process.poll() is None, "the daemon ended")
                holds(time.monotonic() < end, "the daemon never listened")
                time.sleep(0.002)

    def await_socket(self):
        """Waits until the socket listens, without a session."""
        until(self.listens, "the daemon never listened")

    def await_threads(self):
        """Waits until each thread of the daemon, which listens, sleeps: all of them have come to where they wait."""
        self.await_socket()
        until(lambda: all(state == "S" for state in self.thread_states()), "the daemon's threads never waited")

    def thread_states(self):
        found = []
        for thread in os.listdir(f"/proc/{self.process.pid}/task"):
            with open(f"/proc/{self.process.pid}/task/{thread}/stat", encoding="ascii") as file:
                found.append(file.read().rpartition(")")[2].split()[0])
        return found

    def listens(self):
        holds(self.process.poll() is None, "the daemon ended")
        return listens(self.socket)

    def ended(self):
        """The status, the output and the notices of a daemon that comes to its end, but for the usual ones."""
        out, _ = self.process.communicate(timeout=PATIENCE)
        self.notices.seek(0)
        return self.process.returncode, out.decode(), without_usual(self.notices.read().decode())

    def report(self):
        """The numbers of the report of a daemon that ends well, by name, and that its socket is gone."""
        status, out, notices = self.ended()
        same(status, 0, notices)
        holds(not os.path.exists(self.socket), "the socket's file stays")
        lines = out.splitlines()
        return {line.split()[0]: int(line.split()[1]) for line in lines}, notices

    def records(self):
        with open(self.sink, "rb") as file:
            return file.read()


class Endless(Daemon):
    """A daemon without `--sessions`."""

    def __init__(self, folder, more, workers=4, limits=None, last=1023):
        self.folder = folder
        self.socket, self.sink = os.path.join(folder, "socket"), os.path.join(folder, "sink")
        words = serve_words(folder, workers=workers, last=last)
        at = words.index("--sessions")
        self.start(words[:at] + words[at + 2 :] + list(more), limits)

    def told(self):
        return without_usual(self.all_told())

    def all_told(self):
        self.notices.seek(0)
        return self.notices.read().decode()


class Worded(Endless):
    """A daemon of these words, and no others."""

    def __init__(self, folder, words):
        self.folder = folder
        self.socket, self.sink = os.path.join(folder, "socket"), os.path.join(folder, "sink")
        self.start(words)


def control_peer(daemon):
    peer = socket.socket(socket.AF_UNIX, socket.SOCK_STREAM)
    peer.settimeout(PATIENCE)
    peer.connect(daemon.control)
    return peer


def counts_of(text):
    pairs = [line.rpartition(" ") for line in text.splitlines() if not line.startswith(("#", "window"))]
    return {name.strip(): float(number) if "." in number else int(number) for name, _, number in pairs}


def exchange(peer, data):
    """Sends all, ends the sending, and gives all that is answered."""
    sender = threading.Thread(target=send_all, args=(peer, data))
    sender.start()
    answers = read_all(peer)
    sender.join()
    peer.close()
    return answers


def send_all(peer, data):
    with contextlib.suppress(OSError):
        peer.sendall(data)
        peer.shutdown(socket.SHUT_WR)


def read_all(peer):
    answers = b""
    while True:
        try:
            piece = peer.recv(65536)
        except ConnectionResetError:
            return answers
        if not piece:
            return answers
        answers += piece


def ask(peer, line):
    """Sends a line and gives the line of its answer, without its LF."""
    peer.sendall(line.encode() + b"\n")
    return read_line(peer)


def read_line(peer):
    line = b""
    while not line.endswith(b"\n"):
        piece = peer.recv(1)
        holds(piece, f"the daemon hung up after {line!r}")
        line += piece
    return line[:-1].decode()


def run(words, data=b"", **more):
    """What the program does with these words and this input: its status, output and errors."""
    done = subprocess.run(
        [program()] + [str(word) for word in words],
        input=data,
        stdout=subprocess.PIPE,
        stderr=subprocess.PIPE,
        timeout=PATIENCE,
        **more,
    )
    return done.returncode, done.stdout.decode(), done.stderr.decode()


def fault(got, status, text, cause, what=""):
    """What was done ended with this status and this line, and its cause stands on the line before, in one notice."""
    lines = without_usual(got[2]).splitlines()
    same((got[0], got[1], lines[-1:]), (status, "", [text]), what)
    holds(len(lines) == 2 and lines[0].startswith("[ERROR] ") and cause in lines[0], f"{what}: {lines}")


def serve_words(folder, **changed):
    words = {
        "socket": os.path.join(folder, "socket"),
        "workers": 1,
        "domain": 0,
        "start": 1,
        "last": 1023,
        "sink": os.path.join(folder, "sink"),
        "sessions": 1,
    }
    words.update(changed)
    pairs = [sink_words(value) if name == "sink" else ["--" + name, value] for name, value in words.items()]
    return ["serve"] + [word for pair in pairs for word in pair]


def region_lines(*regions):
    return "".join(f"0x{first:016x} 0x{last:016x} {kind}\n" for first, last, kind in regions)


class Answering:
    """It listens at a socket, keeps the requests of all connections, each a list of its lines, and answers what `answer` says."""

    def __init__(self, folder, answer=None):
        self.path = os.path.join(folder, "peer")
        self.answer = answer or done
        self.requests = []
        self.connections = 0
        self.listener = socket.socket(socket.AF_UNIX, socket.SOCK_STREAM)
        self.listener.bind(self.path)
        self.listener.listen(64)
        self.accepting = threading.Thread(target=self.accept, daemon=True)
        self.accepting.start()

    def __enter__(self):
        return self

    def __exit__(self, *_):
        # nobody accepts any more once the descriptor's number may be another listener's
        self.listener.shutdown(socket.SHUT_RDWR)
        self.accepting.join()
        self.listener.close()
        os.unlink(self.path)

    def accept(self):
        while True:
            try:
                stream, _ = self.listener.accept()
            except OSError:
                return
            self.connections += 1
            threading.Thread(target=self.serve, args=(stream,), name=f"connection {self.connections}", daemon=True).start()

    def serve(self, stream):
        with stream, stream.makefile("rb") as lines, contextlib.suppress(OSError):
            for line in lines:
                request = [line.decode().rstrip("\n")]
                if request[0].startswith("gone "):
                    request += [lines.readline().decode().rstrip("\n") for _ in range(int(request[0].split()[3]))]
                self.requests.append(request)
                answer = self.answer(request)
                if answer is None:
                    return
                stream.sendall(answer)

    def told(self, word):
        return [request for request in self.requests if request[0].split()[0] == word]


def done(request):
    words = request[0].split()
    return f"done {words[0]} {words[1 if words[0] == 'reset' else 2]}\n".encode()


class Peer(threading.Thread):
    """A server of one connection, which reads until it has seen a line, answers, and hangs up; or reads on, up to the end."""

    def __init__(self, folder, answers, reads_on):
        super().__init__()
        self.path = os.path.join(folder, "peer")
        self.listener = socket.socket(socket.AF_UNIX, socket.SOCK_STREAM)
        self.listener.bind(self.path)
        self.listener.listen()
        self.listener.settimeout(PATIENCE)
        self.answers, self.reads_on, self.got = answers, reads_on, b""
        self.start()

    def run(self):
        stream, _ = self.listener.accept()
        while b"\n" not in self.got:
            piece = stream.recv(4096)
            if not piece:
                break
            self.got += piece
        with contextlib.suppress(OSError):
            stream.sendall(self.answers)
        if self.reads_on:
            self.got += read_all(stream)
        stream.close()
        self.listener.close()
        os.unlink(self.path)
