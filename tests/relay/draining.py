"""Relays that `packaging/relayd-drain` runs: what a signal for it does to connections, and with which status it ends."""

import contextlib
import os
import pathlib
import re
import shutil
import signal
import socket
import subprocess
import time

from loopback import TESTS, WAIT, Relay, echo, in_thread, read_all, start, target, until
from shared import LONGEST, asked, connected, is_closed_soon, is_open, left_out, numbers_in

DRAIN = os.path.abspath(f"{TESTS}/../packaging/relayd-drain")
BUSY = 50


@contextlib.contextmanager
def drained(seconds=WAIT, errors=subprocess.PIPE):
    """A relay that it runs in a group of its own, and the port at which that listens; the group is ended with it."""
    words = [DRAIN, "forward", "127.0.0.1:0", f"127.0.0.1:{target(echo)}", "--stats", "86400"]
    variables = {**os.environ, "RELAYD": Relay.program, "RELAYD_DRAIN_SECONDS": str(seconds)}
    process = start(words, env=variables, stdout=subprocess.PIPE, stderr=errors, start_new_session=True)
    try:
        yield process, int(process.stdout.readline().rpartition(":")[2])
    finally:
        with contextlib.suppress(ProcessLookupError):
            os.killpg(process.pid, signal.SIGKILL)


def is_gone(process):
    """Whether within three seconds nothing is left of its group, for which systemd would wait."""
    words = ["timeout", "3", "sh", "-c", f"while kill -0 -- -{process.pid}; do sleep 0.1; done"]
    return subprocess.run(words, stderr=subprocess.DEVNULL).returncode == 0


def ask_until(client, is_over):
    """Has each of many messages come back, until something is so, and then ends the connection well."""
    count = 0
    while not is_over() or count < 9:
        count += asked(client, b"%9d" % count)
    client.shutdown(1)
    return client.recv(1) == b"" and count


def a_signal_cuts_none_of_the_connections():
    # To the process alone as by `kill` and a container's end, and to its group as by systemd and a terminal.
    for send, number in (os.kill, signal.SIGTERM), (os.killpg, signal.SIGTERM), (os.killpg, signal.SIGINT):
        with drained() as (process, port):
            clients, refused = [connected(port) for _ in range(BUSY)], []
            assert all([asked(client) for client in clients])
            asking = [in_thread(ask_until, client, lambda: refused) for client in clients]
            send(process.pid, number)
            assert until(lambda: not is_open(port))
            send(process.pid, number)
            time.sleep(0.2)
            refused.append(True)
            assert all([it.result(LONGEST) for it in asking])
            _, log = process.communicate(timeout=9)
            last = log.splitlines()[-1]
            had = numbers_in(last)
            # Before it was refused, `is_open` connected now and then.
            assert process.returncode == 0 and is_gone(process), log
            assert "] stats " in last and had["open"] == had["failed"] == had["dropped"] == 0, log
            assert had["opened"] == had["done"] >= BUSY


def those_that_are_left_are_cut_in_time():
    # It says how many there are after ten seconds, and how many it cuts after one more, also to a journal that is read too late.
    journal, its_errors = socket.socketpair()
    with contextlib.suppress(BlockingIOError):
        while its_errors.send(bytes(4096), socket.MSG_DONTWAIT):
            pass
    with drained(11, its_errors) as (process, port), connected(port) as client, connected(port) as other:
        its_errors.close()
        assert asked(client) and asked(other)
        begun = time.monotonic()
        process.terminate()
        assert until(lambda: not is_open(port)) and asked(client)
        assert is_closed_soon(client, 20) and time.monotonic() - begun >= 11
        said = in_thread(read_all, journal)
        assert process.wait(WAIT) == 128 + signal.SIGKILL and is_gone(process)
        assert {*re.findall(b"drain: .*", said.result(WAIT))} == {b"drain: 2 left, cut in 1 s", b"drain: 2 cut"}


def a_relay_outlives_what_ran_it_until_its_last_client():
    with drained() as (process, port):
        with connected(port) as client:
            assert asked(client)
            process.kill()
            process.wait()
            assert until(lambda: not is_open(port)) and asked(client)
        # It ends, and so its output.
        assert process.communicate(timeout=WAIT)[1].count("done") >= 1


def a_container_begins_with_it():
    # In a process namespace of its own, by what the Containerfile names. The signal would not end the relay alone, as process 1.
    text = pathlib.Path(TESTS, "../packaging/Containerfile").read_text()
    (stop,), (entry,) = re.findall(r"^STOPSIGNAL (\w+)$", text, re.M), re.findall(r'^ENTRYPOINT \["(\S+)"\]$', text, re.M)
    assert entry == "/usr/local/bin/relayd-drain"
    unshare = ["unshare", "--pid", "--fork", "--kill-child"]
    if not shutil.which("unshare") or subprocess.run([*unshare, "true"], stderr=subprocess.DEVNULL).returncode != 0:
        return left_out("namespace of processes")
    for program in DRAIN, Relay.program:
        words, variables = [*unshare, program, "forward", "127.0.0.1:0", "127.0.0.1:1"], {**os.environ, "RELAYD": Relay.program}
        process = start(words, env=variables, stdout=subprocess.PIPE, stderr=subprocess.DEVNULL)
        assert process.stdout.readline().startswith("listening ")
        first = int(pathlib.Path(f"/proc/{process.pid}/task/{process.pid}/children").read_text())
        # While it starts its threads a relay blocks signals for moments.
        time.sleep(0.5)
        os.kill(first, signal.Signals[stop])
        if program == DRAIN:
            assert process.wait(WAIT) == 0
        else:
            time.sleep(0.5)
            assert process.poll() is None


def its_status_is_that_of_the_relay_or_what_it_refuses():
    # Nothing is made or started for a command line or a variable that it refuses.
    served, seconds = ["forward", "127.0.0.1:0", "127.0.0.1:9"], "RELAYD_DRAIN_SECONDS"
    none, number = {"TMPDIR": "/none"}, "a whole number up to 999999999 is wanted"
    itself = {"RELAYD": DRAIN}, 2, f"{DRAIN} is relayd-drain itself: let RELAYD name relayd\n"
    for words, variables, status, said in (
        (["forward", "127.0.0.1"], {}, 2, "relayd forward"), (["run", "--config", "/none"], {seconds: "9" * 9}, 1, "config: "),
        (served, {"RELAYD": "/no/program"}, 127, "/no/program"), (["check"], none, 2, "usage: relayd-drain run|"),
        (served, *itself), (["--version"], *itself),
        ([*served, "--until-eof"], none, 2, "--until-eof: it is given to relayd anyway, so leave it out\n"),
        *((served, {**none, seconds: it}, 2, f"{seconds}={it}: {number}\n") for it in ("a while", "-1", "07", "9" * 10)),
        *(([it], {"RELAYD": "/none"}, 0, f" after {seconds} (60) are cut: man relayd-drain\n") for it in ("-h", "--help")),
        *(([it], none, 0, "relayd 0.1.0\nusage: relayd-drain run|forward ") for it in ("-V", "--version")),
    ):
        variables = {**os.environ, "RELAYD": Relay.program, **variables}
        done = subprocess.run([DRAIN, *words], env=variables, capture_output=True, text=True, timeout=WAIT)
        assert done.returncode == status and said in (done.stderr if status else done.stdout), (words, variables, done)
