"""What tests over loopback share: relays of the built program, servers and clients in this process, and what `relayd replay`
prints of a recording. `Relay.program` has to be set first."""

import collections
import concurrent.futures
import contextlib
import itertools
import json
import os
import pathlib
import re
import resource
import shutil
import signal
import socket
import subprocess
import sys
import tempfile
import threading
import time

TESTS = os.path.dirname(os.path.abspath(__file__))
WAIT = 40  # the longest that anything here is waited for, in seconds
STARTED = []  # the processes of the check in progress
# The first line of a relay's log.
STARTED_LINE = re.compile(r"\[INFO  relayd\] relayd \d")
# Has a program run with a descriptor as its third, and in the variable that names the process.
PASS = """import os, sys
os.dup2(int(sys.argv[1]), 3)
if sys.argv[1] != "3":
    os.close(int(sys.argv[1]))
os.set_inheritable(3, True)
os.environ.setdefault("LISTEN_PID", str(os.getpid()))
os.execvp(sys.argv[2], sys.argv[2:])"""
# What a relay at rest records: waits for reports that gave none, and where descriptors are short the tries that follow them.
AT_REST = re.compile(r"(\d+ \d+ (p\d+ poll 0|p\d+ accept starved|second \d+)\n)+")


def in_thread(work, *args):
    """Does this in a thread; answers its result to come."""
    result = concurrent.futures.Future()

    def run():
        try:
            result.set_result(work(*args))
        except BaseException as error:
            result.set_exception(error)

    threading.Thread(target=run, daemon=True).start()
    return result


def start(words, **more):
    """Starts a program, which is killed when the check is over."""
    process = subprocess.Popen(words, text=True, **more)
    STARTED.append(process)
    return process


def kill_all():
    for process in STARTED:
        process.kill()
        process.wait()
    STARTED.clear()


def library(folder):
    """Builds growths/refuse.c there: its path, or nothing where there is no C compiler."""
    path = f"{folder}/refuse.so"
    words = ["cc", "-O2", "-fno-builtin", "-shared", "-fPIC", "-o", path, f"{TESTS}/growths/refuse.c"]
    return path if shutil.which("cc") and subprocess.run(words, check=True) else None


@contextlib.contextmanager
def settings_file(settings):
    """A file with these settings, for a while."""
    with tempfile.NamedTemporaryFile("w", suffix=".toml") as file:
        file.write("".join(f"{key} = {json.dumps(value)}\n" for key, value in settings.items()))
        file.flush()
        yield file.name


def allowed(descriptors, closed=()):
    """What allows so many descriptors to its process, if there is to be a limit, and closes these."""

    def prepare():
        if descriptors is not None:
            hard = resource.getrlimit(resource.RLIMIT_NOFILE)[1]
            resource.setrlimit(resource.RLIMIT_NOFILE, (descriptors, hard))
        for number in closed:
            os.close(number)

    return prepare


class Relay:
    """A relay that forwards to a port, or to this process itself, with these settings beside the two addresses or in their
    place: from a file, or if `typed` on the command line, with options after them; and if there is a `preload`, with the
    library, told by these variables. It records what it does, unless it is to have no thread or descriptor beyond those of a
    relay that does not. It begins with these standard streams closed, and inherits these descriptors and variables. What is
    `passed` it has as descriptor 3, and is told so as by systemd (sd_listen_fds(3)). A tool that it is to run under stands
    before it, with its options."""

    program = None
    library = None
    records = None  # the folder in which relays record, if they are to
    numbers = itertools.count()  # of their recordings, also of relays that begin at the same time
    begun = []  # by the check in progress

    def __init__(
        self, port=None, preload=None, errors=subprocess.PIPE, options=(), typed=False, descriptors=None, stdin=None,
        recorded=True, closed=(), inherited=(), variables=None, under=(), passed=None, **settings
    ):
        if port is None:
            self.listener = socket.create_server(("127.0.0.1", 0))
            self.listener.settimeout(WAIT)
            port = port_of(self.listener)
        settings = {"listen": "127.0.0.1:0", "target": f"127.0.0.1:{port}", **settings}
        is_recorded = recorded and Relay.records and "--record" not in options
        self.record = f"{Relay.records}/{next(Relay.numbers)}" if is_recorded else None
        self.rests = False  # whether it was ended when nothing was left to do
        self.is_over = False  # whether it has ended by itself
        self.told = []  # its log, where that is known to be whole
        if passed is not None:
            inherited, variables = [passed.fileno()], {"LISTEN_FDS": "1", **(variables or {})}
            under = [sys.executable, "-c", PASS, str(passed.fileno()), *under]
        words = ["forward", settings["listen"], settings["target"]]
        for key in settings.keys() - {"listen", "target"}:
            words += ["--" + key.replace("_", "-"), str(settings[key]).lower()]
        with settings_file(settings) as path:
            self.process = start(
                [*under, Relay.program, *(words if typed else ["run", "--config", path]), *options]
                + (["--record", self.record] if self.record else []),
                stdin=stdin,
                stdout=subprocess.PIPE,
                stderr=errors,
                env={**os.environ, **({"LD_PRELOAD": Relay.library, **preload} if preload else {}), **(variables or {})},
                preexec_fn=allowed(descriptors, closed),
                pass_fds=inherited,
            )
            Relay.begun.append(self)
            # It says where it listens, and nothing else, unless it cannot serve.
            host, _, port = self.process.stdout.readline().rpartition(":")
            assert host in ("", "listening " + settings["listen"].partition(":")[0])
            self.port = int(port) if host else None

    def connect(self, to="127.0.0.1", own=""):
        return socket.create_connection((to, self.port), timeout=WAIT, source_address=(own, 0) if own else None)

    def pair(self, **addresses):
        """A client, and the end of its connection that this process has as the target."""
        return self.connect(**addresses), self.listener.accept()[0]

    def end(self):
        """Ends the relay once it has come to rest, and answers its log lines."""
        self.come_to_rest()
        self.rests = True
        self.process.terminate()
        return self.ended(status=None)

    def ended(self, status=0, within=WAIT):
        """The log lines of a relay that ends, with this status if one is given, but for the one that it begins with."""
        self.is_over = not self.rests
        wrote, complained = self.process.communicate(timeout=within)
        assert not wrote and status in (None, self.process.returncode)
        lines = (complained or "").splitlines()
        self.begun_with = [line for line in lines if STARTED_LINE.match(line)]
        self.told = [line for line in lines if line not in self.begun_with]
        return self.told

    def come_to_rest(self):
        """Leaves a relay alone until it has done nothing for a while but wait for reports, by how long its threads have run, and
        by its recording, as far as that is written. It has to come to that."""
        for _ in range(100):
            if self.process.poll() is not None:
                return
            size = os.path.getsize(self.record) if self.record else 0
            begun, ran = time.monotonic(), self.run_time()
            time.sleep(0.3)
            seconds = time.monotonic() - begun
            # A tenth of a processor is a hundred times what polls take that time out.
            if self.run_time() - ran < 0.1 * seconds and self.recorded_rest(size, seconds):
                return
        raise AssertionError("the relay does not come to rest")

    def recorded_rest(self, size, seconds):
        """Whether what it recorded after so many bytes, in so many seconds, are polls that timed out, of each poller five a
        second at most; or its recording is over."""
        if not self.record:
            return True
        with open(self.record) as file:
            file.seek(size)
            text = file.read()
        if not text:
            return "".join(collections.deque(open(self.record), 1)).endswith(" full\n")
        polls = collections.Counter(re.findall(r" (p\d+) poll 0$", text, re.M))
        return AT_REST.fullmatch(text) and max(polls.values(), default=0) <= 5 * seconds + 2

    def sleeps(self):
        """Whether each of its threads waits, but for those that end meanwhile. It looks twice: one may have woken another."""
        states = []
        for task in 2 * self.tasks():
            with contextlib.suppress(FileNotFoundError, ProcessLookupError):
                states.append(pathlib.Path(f"/proc/{self.process.pid}/task/{task}/stat").read_text().rpartition(") ")[2][0])
        return set(states) == {"S"}

    def descriptors(self):
        return [int(name) for name in os.listdir(f"/proc/{self.process.pid}/fd")]

    def tasks(self):
        return os.listdir(f"/proc/{self.process.pid}/task")

    def names(self):
        """The name of each of its threads (proc(5)), but of those that end meanwhile."""
        names = {}
        for task in self.tasks():
            with contextlib.suppress(FileNotFoundError, ProcessLookupError):
                names[int(task)] = pathlib.Path(f"/proc/{self.process.pid}/task/{task}/comm").read_text().strip()
        return names

    def named(self, name, many=1):
        """The threads of this name, once there are so many."""

        def found():
            return sorted(task for task, other in self.names().items() if other == name)

        assert until(lambda: len(found()) == many), f"not {many} threads are named {name}"
        return found()

    def names_of_threads(self):
        """The names of its threads but the first, in alphabetical order."""
        return sorted(name for task, name in self.names().items() if task != self.process.pid)

    def status(self, name, task=None):
        """The number of this name in the status of one of its threads, or the first (proc(5))."""
        text = pathlib.Path(f"/proc/{self.process.pid}/task/{task or self.process.pid}/status").read_text()
        return int(re.search(rf"^{name}:\s+(\d+)", text, re.M)[1])

    def system_call(self, task):
        """The number of the system call in which one of its threads is, as a word (proc(5))."""
        return pathlib.Path(f"/proc/{self.process.pid}/task/{task}/syscall").read_text().split()[0]

    def run_time(self, tasks=None):
        """How many seconds these threads have run, or all."""
        texts = [pathlib.Path(f"/proc/{self.process.pid}/task/{task}/schedstat").read_text() for task in tasks or self.tasks()]
        return sum(int(text.split()[0]) for text in texts) / 1e9

    @contextlib.contextmanager
    def stopped(self):
        """What comes meanwhile it finds all at once, when it goes on."""
        self.process.send_signal(signal.SIGSTOP)
        yield
        time.sleep(0.1)
        self.process.send_signal(signal.SIGCONT)

    def limit(self, which, most):
        """Sets a limit of the running process; without a number it has no limit beyond that of this one."""
        hard = resource.getrlimit(which)[1]
        resource.prlimit(self.process.pid, which, (hard if most is None else most, hard))


def made(relays, seconds=0, work=lambda: None):
    """For each of these relays the system calls that end while this is done and so long, as strace(1) writes them."""
    relay_of = {task: relay for relay in relays for task in relay.tasks()}
    with tempfile.NamedTemporaryFile("r") as file:
        words = [word for relay in relays for word in ("-p", str(relay.process.pid))]
        tracer = start(["strace", "-f", "-qq", "-o", file.name, *words], stderr=subprocess.DEVNULL)
        assert until(lambda: all(relay.status("TracerPid", task) for task, relay in relay_of.items()))
        work()
        time.sleep(seconds)
        tracer.send_signal(signal.SIGINT)
        tracer.wait(WAIT)
        calls = {relay: [] for relay in relays}
        for line in file:
            if " = " in line:
                calls[relay_of[line.split()[0]]].append(line)
    return calls


def beside_polls(calls):
    """Those of such calls that are no polls that time out."""
    return [line for line in calls if not re.search(r"epoll_wait.*, [1-9]\d*\) += 0$", line)]


def replay(path, *options):
    """What `relayd replay` prints of a recording, where that is of a run of the machine."""
    words = [Relay.program, "replay", *options, path]
    done = subprocess.run(words, stdout=subprocess.PIPE, stderr=subprocess.STDOUT, text=True)
    assert done.returncode == 0, done.stdout.partition("\n")[0]
    return done.stdout


def compare(path, relay, totals):
    """Holds a recording against the machine, and against what the log of its relay says of each connection, where that is
    known, and adds how often each kind of event occurred to the totals. A recording that is not right is kept."""
    try:
        told = replay(path, "--steps", *(["--rest"] if relay and relay.rests else []))
        for count, kind in re.findall(r"^(?:count |(?=\d+ connections,))(\d+) ([a-z ]+)", told, re.M):
            totals[kind] += int(count)
        last = collections.deque(open(path), 1)[0]
        assert not relay or not relay.is_over or last.endswith(" end\n"), f"the last record is {last}"
        # Under load records may come faster than they are written. Then the log says more.
        log = relay.told if relay and not last.endswith(" full\n") else []
        logged = re.findall(r"^\[\w+ +relayd\] ((?:done|fail) s=.*)$", "\n".join(log), re.M)
        lines = replay(path, "--ends").splitlines() if logged else []
        ends = [line.split(" opened_us=")[0] for line in lines if not line.startswith("live ")]
        assert sorted(ends) == sorted(logged), f"the log has {sorted(logged)[:9]}, and the machine {sorted(ends)[:9]}"
    except AssertionError as why:
        raise AssertionError(f"{why}; kept {shutil.move(path, tempfile.mkdtemp(prefix='relayd-'))}") from None
    return told.partition("\n")[0]


def port_of(listener):
    return listener.getsockname()[1]


def unheard():
    """A socket whose port refuses clients until it listens, and is nobody else's."""
    found = socket.socket()
    found.bind(("127.0.0.1", 0))
    return found


def fill_backlog(listener):
    """Connects to a server with a backlog of 0 until it answers no more; answers the connections, which keep it so."""
    fillers = []
    with contextlib.suppress(socket.timeout):
        for _ in range(8):
            fillers.append(socket.create_connection(listener.getsockname(), timeout=0.3))
    return fillers


@contextlib.contextmanager
def unanswered():
    """The port of a server that answers no connect, for a while: its backlog is full."""
    with unheard() as full:
        full.listen(0)
        _fillers = fill_backlog(full)
        yield port_of(full)


def target(handle, listener=None):
    """A server that hands each connection to `handle`, in a thread of its own; answers its port."""
    listener = listener or unheard()
    listener.listen(100)

    def serve():
        while True:
            # Its errors, as where a client resets, are for the check to see.
            in_thread(handle, listener.accept()[0])

    in_thread(serve)
    return port_of(listener)


def echo(connection):
    while data := connection.recv(4096):
        connection.sendall(data)
    connection.close()


def read_all(connection):
    parts = []
    while part := connection.recv(65536):
        parts.append(part)
    return b"".join(parts)


def send_and_shut(connection, data):
    connection.sendall(data)
    connection.shutdown(socket.SHUT_WR)


def until(is_so):
    """Whether something comes to be so."""
    ends = time.monotonic() + WAIT
    while not is_so():
        if time.monotonic() > ends:
            return False
        time.sleep(0.05)
    return True
