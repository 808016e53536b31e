"""How a relay starts, stops listening, ends, and is replaced by another one."""

import collections
import contextlib
import functools
import os
import pathlib
import shutil
import signal
import socket
import subprocess
import tempfile
import threading
import time

from loopback import TESTS, WAIT, Relay, allowed, echo, in_thread, port_of, read_all, send_and_shut, settings_file, target, until
from shared import OWN, ask_once, asked, at_once, by_time, connected, few, having, is_open, left_out, served, unused_port


# refuses parks_beside_a_closed_queue: an end parks although it read that the queue is closed
# refuses first_poller_ends_the_workers: the first poller that has ended closes the queue of tickets
def goes_on_behind_its_first_poller():
    # Each of two pollers opens one connection. The first one has ended when the second begins to move much.
    relay = Relay(target(echo), slots=128, workers=2, stop_after=2)
    first, second = served(relay, 2)
    first.close()
    time.sleep(0.5)
    data = os.urandom(4_000_000)
    second.settimeout(10)
    sending = in_thread(send_and_shut, second, data)
    assert read_all(second) == data and not sending.result(WAIT)
    relay.ended(within=10)


def gives_up_its_port(relay, clients):
    """Clients are refused and another relay listens there, while these go on, each of which echoes. Answers the log."""
    assert until(lambda: not is_open(relay.port))
    ask_once(Relay(target(echo), listen=f"127.0.0.1:{relay.port}", log="off"))
    for client in clients:
        assert asked(client) and relay.process.poll() is None
        client.close()
    return relay.ended()


def closes_its_socket_behind_its_last():
    # One poller; and four, of which each has its share of the connections, 3, 3, 2 and 2.
    for most, settings in (4, {"workers": 1, "slots": 4}), (10, {"slots": 256}):
        relay = Relay(target(echo), stop_after=most, **settings)
        assert len(having(gives_up_its_port(relay, served(relay, most)), "] open ")) == most


# refuses end_of_input_overlooked: a relay with --until-eof goes on to accept clients after the end of its standard input
def ends_behind_its_standard_input():
    # What it reads there is thrown away. With 4 pollers and 16, from a file and on the command line.
    for settings in {}, {"workers": 16}, {"typed": True}:
        relay = Relay(target(echo), options=["--until-eof"], stdin=subprocess.PIPE, **settings)
        relay.process.stdin.write("x" * 1_000_000)
        relay.process.stdin.flush()
        clients = served(relay, 20)
        assert relay.process.poll() is None
        relay.process.stdin.close()
        relay.process.stdin = None
        assert "[INFO  relayd] input: has ended, so no more clients are accepted" in gives_up_its_port(relay, clients)


def ends_where_there_is_no_input():
    # Standard input has ended before it begins, or can't be read, as a folder.
    for path, level, why in (os.devnull, "INFO", "has ended"), ("/", "WARN", "Is a directory (os error 21)"):
        file = os.open(path, os.O_RDONLY)
        relay = Relay(options=["--until-eof"], stdin=file)
        os.close(file)
        assert relay.ended() == [f"[{level:5} relayd] input: {why}, so no more clients are accepted"]


# refuses closed_streams_are_not_held: a socket or a file gets the number of a standard stream that is closed
def gives_no_closed_stream_to_another():
    # With each set of streams closed every client has its own bytes alone, and a recording none of another. Without an output
    # it does nothing, since nobody could read where it listens.
    bad = "Bad file descriptor (os error 9)"

    def ask(client):
        for number in range(30):
            assert asked(client, b"%d;" % number)
        client.close()

    for number in range(8):
        closed = [stream for stream in range(3) if number >> stream & 1]
        for settings in {"stop_after": 8}, {"options": ["--until-eof"]}:
            relay = Relay(target(echo), closed=closed, stdin=subprocess.PIPE, typed=True, workers=16, **settings)
            is_unread = 0 in closed and "options" in settings
            unread = [f"[WARN  relayd] input: {bad}, so no more clients are accepted"] * is_unread
            if 1 in closed:
                refused = ["[ERROR relayd] output: is closed; give it one, as > /dev/null", "relayd: output: cannot be written"]
                assert relay.ended(1) == ([] if 2 in closed else refused)
                continue
            if unread:
                assert relay.ended() == ([] if 2 in closed else unread)
                continue
            at_once(*[functools.partial(ask, relay.connect()) for _ in range(8)])
            lines = relay.ended()
            assert len(having(lines, "] done ")) == (0 if 2 in closed else 8)
    if not shutil.which("unshare") or subprocess.run(["unshare", "--mount", "true"], stderr=subprocess.DEVNULL).returncode:
        return left_out("namespace of mounts")
    # Where nothing can stand in for a closed stream, it says so on another.
    for stream, other in (0, "stderr"), (2, "stdout"):
        script = f'mount -t tmpfs none /dev && exec "$0" --version {stream}>&-'
        words = ["unshare", "--mount", "sh", "-c", script, os.path.abspath(Relay.program)]
        done = subprocess.run(words, stdin=subprocess.PIPE, stdout=subprocess.PIPE, stderr=subprocess.PIPE, text=True)
        name = "input" if stream == 0 else "errors"
        cause = "No such file or directory (os error 2)"
        told = f"relayd: {name}: is closed, and /dev/null cannot be opened in its place: {cause}\n"
        assert (done.returncode, getattr(done, other)) == (1, told)


@contextlib.contextmanager
def replaceable():
    """A folder with the settings of a relay, and a program that is the relay, which records where it serves. The folder, the
    port at which that listens, the settings' path and the program's."""
    with tempfile.TemporaryDirectory() as folder:
        port, settings, program = unused_port(), f"{folder}/relay.toml", f"{folder}/relayd"
        pathlib.Path(settings).write_text(f'listen = "127.0.0.1:{port}"\ntarget = "127.0.0.1:{target(echo)}"\n')
        relayd = f'exec "{os.path.abspath(Relay.program)}" "$@"'
        record = f'--record "$(mktemp -p "{Relay.records}")"' if Relay.records else ""
        pathlib.Path(program).write_text(f'#!/bin/sh\n[ "$1" = run ] || {relayd}\n{relayd} {record}\n')
        os.chmod(program, 0o755)
        yield folder, port, settings, program


def replace(folder, settings, program):
    """What the script of the examples did."""
    words = [f"{TESTS}/../examples/replace.sh", folder, settings]
    env = {**os.environ, "RELAYD": program}
    return subprocess.run(words, stdout=subprocess.PIPE, stderr=subprocess.PIPE, text=True, timeout=WAIT, env=env)


def end_holder(folder):
    os.kill(int(pathlib.Path(folder, "holder").read_text()), signal.SIGTERM)


def is_replaced_at_another_address():
    # One that cannot start leaves the other as it is, with its log alone; one that listens elsewhere starts beside it.
    with replaceable() as (folder, port, settings, program), socket.create_server(("127.0.0.1", 0)) as taken:
        text, names = pathlib.Path(settings).read_text(), lambda: {path.name for path in pathlib.Path(folder).glob("log*")}

        def at(address):
            pathlib.Path(settings).write_text(text.replace(f"127.0.0.1:{port}", address))
            return replace(folder, settings, program)

        assert at(f"127.0.0.1:{port}").stdout == f"listening 127.0.0.1:{port}\n"
        with connected(port) as client:
            before, other = names(), unused_port()
            failed = at(f"127.0.0.1:{port_of(taken)}")
            assert failed.returncode == 1 and ": Address already in use" in failed.stderr and names() == before
            pathlib.Path(settings).write_text(text.replace(f"127.0.0.1:{port}", "192.0.2.1:1") + "slots = 0\n")
            assert replace(folder, settings, program).returncode == 1 and names() == before
            assert asked(client) and is_open(port)
            assert at(f"0.0.0.0:{other}").stdout == f"listening 0.0.0.0:{other}\n"
            assert until(lambda: not is_open(port)) and is_open(other) and asked(client) and len(names()) == 3
            assert at(f"127.0.0.1:{other}").stdout == f"listening 127.0.0.1:{other}\n" and asked(client)
        end_holder(folder)
        assert until(lambda: not is_open(other))


def is_replaced_however_late_it_ends():
    # The first one is stopped for three seconds, and listens until then. The new one is to listen at every address.
    with replaceable() as (folder, port, settings, program):
        late, number = pathlib.Path(folder, "late"), pathlib.Path(folder, "number")
        late.write_text(f'#!/bin/sh\necho $$ > {number} && exec "{program}" "$@"\n')
        late.chmod(0o755)
        assert replace(folder, settings, late).stdout == f"listening 127.0.0.1:{port}\n"
        with connected(port) as client:
            assert asked(client)
            os.kill(int(number.read_text()), signal.SIGSTOP)
            threading.Timer(3, os.kill, (int(number.read_text()), signal.SIGCONT)).start()
            pathlib.Path(settings).write_text(pathlib.Path(settings).read_text().replace("127.0.0.1", "0.0.0.0", 1))
            assert replace(folder, settings, program).stdout == f"listening 0.0.0.0:{port}\n" and asked(client)
        end_holder(folder)
        assert until(lambda: not is_open(port))


def is_replaced_under_load():
    # Twice, beside clients that ask one after the other, each time on a connection of its own, and clients that keep theirs. No
    # client is refused, and none is cut: each has its line `done`.
    counts, is_over = collections.Counter(), threading.Event()

    def come_and_go():
        while not is_over.is_set():
            with connected(port) as client:
                assert asked(client, b"?" * 100)
            counts["answered"] += 1

    def stay():
        with connected(port) as client:
            while not is_over.is_set():
                assert asked(client, b"!" * 100)
                time.sleep(0.01)

    with replaceable() as (folder, port, settings, program):

        def begin():
            assert replace(folder, settings, program).stdout == f"listening 127.0.0.1:{port}\n"

        def lines(word):
            return [path.read_text().count(word) for path in pathlib.Path(folder).glob("log.*")]

        begin()
        load = [in_thread(work) for work in [come_and_go] * 4 + [stay] * 4]
        for _ in range(2):
            time.sleep(1)
            begin()
        time.sleep(1)
        is_over.set()
        assert not any(each.result(WAIT) for each in load)
        end_holder(folder)
        assert until(lambda: not is_open(port) and lines("] open ") == lines("] done "))
        assert lines("] fail ") == lines("] drop ") == [0] * 3 and counts["answered"] > 100


# refuses start_is_not_logged: nothing is logged when a relay begins to serve
def says_how_it_serves():
    for settings, sizes in (
        ({}, "1024 slots, 4 workers, 4 pollers"),
        ({"slots": 130, "workers": 3}, "130 slots, 3 workers, 2 pollers"),
        ({"slots": 1, "workers": 1}, "1 slot, 1 worker, 1 poller"),
    ):
        relay = Relay(7, **settings)
        relay.end()
        assert relay.begun_with == [f"[INFO  relayd] relayd 0.1.0: 127.0.0.1:{relay.port} to 127.0.0.1:7, {sizes}"]
    relay = Relay(7, log="warn")
    assert relay.end() == relay.begun_with == []


# refuses warnings_filtered_as_errors: at the level of warnings only errors are logged
# refuses descriptors_of_one_poller: descriptors are counted for one poller, whatever the number of pollers is
def warns_before_it_runs():
    port = unused_port()
    assert Relay(port, listen=f"127.0.0.1:{port}", log="warn").end() == [OWN]

    # `check` warns as `run` does, whatever the file says of `log`, and prints the settings.
    def warned(listen, target, most=2060):
        with settings_file({"listen": f"{listen}:7000", "target": f"{target}:7000", "log": "off"}) as path:
            words = [Relay.program, "check", "--config", path]
            checked = subprocess.run(words, capture_output=True, text=True, preexec_fn=allowed(most))
        assert checked.returncode == 0 and checked.stdout.count("\n") == 10
        return checked.stderr.splitlines()

    own = [("127.0.0.1", "127.0.0.1"), ("0.0.0.0", "127.0.0.9"), ("0.0.0.0", "0.0.0.0"), ("127.0.0.1", "0.0.0.0")]
    # The address from which this machine reaches others, if it has one.
    with socket.socket(socket.AF_INET, socket.SOCK_DGRAM) as reaching, contextlib.suppress(OSError):
        reaching.connect(("192.0.2.1", 9))
        own.append(("0.0.0.0", reaching.getsockname()[0]))
    others = [("127.0.0.1", "127.0.0.2"), ("0.0.0.0", "192.0.2.1")]
    assert all(warned(*pair) == [OWN] for pair in own) and not any(warned(*pair) for pair in others)
    here = "[WARN  relayd] target: 0.0.0.0 means this machine, as 127.0.0.1 does"
    assert warned("127.0.0.2", "0.0.0.0") == [here]
    # With 64 slots or more for each there are four pollers, with 128 two, and else one.
    for most, served in (40, 17), (262, 127), (263, 127), (264, 128), (1024, 506), (2059, 1023):
        assert warned("127.0.0.1", "127.0.0.2", most) == [few(served, most)]


# refuses listens_on_every_address: a server listens on every address
def listens_on_its_address_alone():
    relay = Relay(target(echo))
    # The port at other addresses is left to others, and nobody is there.
    socket.create_server(("127.0.0.3", relay.port)).close()
    with contextlib.suppress(ConnectionRefusedError):
        relay.connect(to="127.0.0.2").close()
        raise AssertionError("it listens at 127.0.0.2")
    taken = f"127.0.0.1:{relay.port}"
    cause = "Address already in use (os error 98): ss -tan shows by what, also as the source of a connection"
    assert Relay(1, listen=taken).ended(1) == [f"[ERROR relayd] listen: {taken}: {cause}", "relayd: listen: failed"]
    ask_once(relay)


def says_which_right_a_port_needs():
    if int(pathlib.Path("/proc/sys/net/ipv4/ip_unprivileged_port_start").read_text()) <= 80:
        return left_out("port that needs a right")
    words, can = [Relay.program, "forward", "127.0.0.1:80", "127.0.0.1:1"], []
    if not os.geteuid():
        can = ["setpriv", "--reuid=65534", "--bounding-set=-all", "--inh-caps=-all"]
    if can and (not shutil.which("setpriv") or subprocess.run([*can, words[0], "--version"], capture_output=True).returncode):
        return left_out("setpriv")
    done = subprocess.run([*can, *words], capture_output=True, text=True, timeout=WAIT)
    cause = "Permission denied (os error 13): a port below 1024 needs CAP_NET_BIND_SERVICE"
    assert done.stderr == f"[ERROR relayd] listen: 127.0.0.1:80: {cause}\nrelayd: listen: failed\n"


# refuses record_is_opened_blindly: a relay waits for a reader of the pipe into which it is to record
# refuses record_link_is_not_followed: a relay records after what is in the file that a link leads to
def looks_where_it_is_to_record():
    # What is wrong is printed before it listens: at that address it cannot.
    with tempfile.TemporaryDirectory() as folder:
        pipe, link, other, file = f"{folder}/pipe", f"{folder}/link", f"{folder}/other", f"{folder}/file"
        os.mkfifo(pipe)
        os.symlink(f"{folder}/nothing", link)
        os.symlink(file, other)
        pathlib.Path(file).write_text("?")
        for path, why in (
            (pipe, "is a FIFO that nobody reads"), (link, "is a link to a file that is not there"),
            (file, "is there, and is no recording"), (other, "is there, and is no recording"),
            (folder, "Is a directory (os error 21)"), (f"{file}/record", "Not a directory (os error 20)"),
        ):
            words = [Relay.program, "forward", "192.0.2.1:0", "127.0.0.1:1", "--record", path]
            done = subprocess.run(words, capture_output=True, text=True, timeout=WAIT)
            shown = path if len(path) <= 64 else ".." + path[-64:]
            told = f"[ERROR relayd] record: {shown}: {why}\nrelayd: record: cannot be created\n"
            assert (done.returncode, done.stdout, done.stderr) == (1, "", told)
        # A pipe that is read has the recording.
        reader = os.open(pipe, os.O_RDONLY | os.O_NONBLOCK)
        relay = Relay(target(echo), options=["--record", pipe], stop_after=1)
        ask_once(relay)
        relay.ended()
        recording = os.read(reader, 65_536)
        os.close(reader)
        assert recording.startswith(b"relayd recording 1 ") and recording.endswith(b" end\n")
