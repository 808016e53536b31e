"""The file of statistics for a monitor."""

import collections
import contextlib
import os
import pathlib
import re
import resource
import tempfile
import threading
import time

from loopback import WAIT, Relay, echo, in_thread, target, until
from shared import answers_soon, ask_once, asking, by_time, having, numbers_in, reset, served

KINDS = ["reset", "pipe", "aborted", "refused", "notconnected", "timedout", "zero", "other"]
FAILED = [f'{{side="{side}",kind="{kind}"}}' for side in ("client", "target") for kind in KINDS]
LABELS = {"connections_failed_total": FAILED, "build_info": ['{version="0.1.0"}']}
# The metrics in order: what follows `relayd_` in the name, the type, and what it is.
METRICS = """\
connections_open gauge Connections that are open.
connections_open_max gauge The most connections that were open at once.
slots gauge How many connections can be open at once.
slots_full_seconds_total counter Seconds with all slots taken.
accept_waiting_seconds_total counter Seconds in which clients waited for want of descriptors or memory.
connections_opened_total counter Connections that were opened.
connections_done_total counter Connections that ended after both ends of input were passed on.
connections_idle_total counter Connections that were ended by the idle limit.
clients_dropped_total counter Clients that were accepted, and closed unopened.
up_bytes_total counter Bytes that were written to targets.
down_bytes_total counter Bytes that were written to clients.
records_lost_total counter Records that the recording lacks.
start_time_seconds gauge When the relay began, in seconds since 1970.
build_info gauge The version of the relay.
connections_failed_total counter Connections that failed by a call on a socket, by its side and how."""


def text_of(series):
    """The whole text of these numbers."""
    text = ""
    for metric in METRICS.splitlines():
        name, kind, what = metric.split(" ", 2)
        text += f"# HELP relayd_{name} {what}\n# TYPE relayd_{name} {kind}\n"
        for labels in LABELS.get(name, [""]):
            text += f"relayd_{name}{labels} {series[f'relayd_{name}{labels}']}\n"
    return text


# refuses type_of_a_metric_is_wrong: a metric that only rises has the type of one that may fall
def read(path):
    """The number of each series of such a file, whose text has to be these numbers' to the byte."""
    with open(path) as file:
        text = file.read()
    series = {name: int(number) for name, number in re.findall(r"^(relayd_\S+) (\d+)$", text, re.MULTILINE)}
    assert text == text_of(series), text
    return series


def as_line(series):
    """The numbers of the line `stats`, of such series."""
    words = {word: series[f"relayd_{name}"] for word, name in {
        "open": "connections_open", "slots": "slots", "opened": "connections_opened_total", "done": "connections_done_total",
        "dropped": "clients_dropped_total", "idle": "connections_idle_total", "up": "up_bytes_total", "down": "down_bytes_total",
        "waited": "accept_waiting_seconds_total", "lost": "records_lost_total",
    }.items()}
    failed = collections.Counter()
    for side in "client", "target":
        for kind in KINDS:
            number = series[f'relayd_connections_failed_total{{side="{side}",kind="{kind}"}}']
            failed.update({side: number, kind: number, "failed": number})
    words["failed"] = failed["failed"] + words["idle"]
    return words | {word: failed[word] for word in ("client", "target", "refused", "reset", "timedout")}


@contextlib.contextmanager
def folder():
    with tempfile.TemporaryDirectory() as found:
        yield found, f"{found}/relayd.prom"


def reset_once(connection):
    """A target that answers, or where the client asks for it, resets the connection."""
    while data := connection.recv(4096):
        if data == b"r":
            return reset(connection)
        connection.sendall(data)


# refuses half_written_file: the file is written where it is read, so that a part of it is seen
@by_time
def a_monitor_finds_the_counts_in_a_file():
    seen, ended, begun = [], threading.Event(), int(time.time())

    def watch():
        while not ended.is_set():
            with contextlib.suppress(FileNotFoundError):
                seen.append(read(path))
            time.sleep(0.001)

    with folder() as (place, path):
        options = ["--stats", "1", "--stats-file", path]
        relay = Relay(target(reset_once), slots=3, stop_after=6, options=options)
        watching = in_thread(watch)
        clients = served(relay, 3)
        time.sleep(3.5)
        for client, end in zip(clients, ("r", "reset", "close")):
            if end == "r":
                client.sendall(b"r")
                with contextlib.suppress(ConnectionResetError):
                    client.recv(1)
            (reset if end == "reset" else type(client).close)(client)
        for _ in range(3):
            ask_once(relay)
        assert relay.process.wait(WAIT) == 0
        ended.set()
        watching.result(WAIT)
        lines, last = relay.ended(), read(path)
        assert os.listdir(place) == ["relayd.prom"]
    told = [numbers_in(line) for line in having(lines, "[INFO  relayd] stats ")]
    assert as_line(last) == told[-1] and told[-1]["opened"] == 6 and told[-1]["failed"] == 2
    for side in "client", "target":
        kinds = {kind: last[f'relayd_connections_failed_total{{side="{side}",kind="{kind}"}}'] for kind in KINDS}
        assert kinds == dict.fromkeys(KINDS, 0) | {"reset": 1}, kinds
    assert last["relayd_connections_open"] == 0 and last["relayd_connections_open_max"] == 3
    assert 2 <= last["relayd_slots_full_seconds_total"] <= 4 and last["relayd_accept_waiting_seconds_total"] == 0
    assert begun <= last["relayd_start_time_seconds"] <= begun + 3 and last[f"relayd_build_info{LABELS['build_info'][0]}"] == 1
    assert len(seen) > 100 and all(as_line(one) in [as_line(seen[0]), *told] for one in seen)
    assert {one["relayd_connections_open"] for one in seen} >= {0, 3}


def those_over_0(path):
    """The numbers of what such a file counts that are not 0, without the first word of their names."""
    counted = {it: number for it, number in read(path).items() if number and not re.match("relayd_(start|build)", it)}
    return {name.partition("_")[2]: number for name, number in counted.items()}


# refuses file_of_another_interval: without --stats the file is replaced once in another time than 15 seconds
# refuses looks_once_an_interval: it is looked once an interval, and not each second, whether all slots are taken
# refuses levels_exchanged: the most connections that were open and the seconds with all slots taken are exchanged
# refuses line_each_second: the line of statistics is logged each second, whatever --stats says
# refuses made_under_a_monitored_name: the file is made under a name that ends in .prom, as those do that a monitor reads
# refuses left_one_stays: the file is not made where a process of the same number has left one
@by_time
def tells_the_counts_as_often_as_is_asked():
    # The line alone comes once in 3 seconds, and the file alone once in 15, with no line.
    with folder() as (place, path):
        begun, other = time.monotonic(), Relay(options=["--stats", "3"], log="warn")
        relay = Relay(target(echo), slots=2, stop_after=2, options=["--stats-file", path])
        assert until(lambda: os.path.exists(path)) and those_over_0(path) == {"slots": 2}
        first, clients = os.stat(path).st_mtime, served(relay, 2)
        # Another process with its number may have left something where the next is made. It is removed, and no link followed.
        os.symlink(f"{path}.other", f"{path}.{relay.process.pid}")
        assert all([" stats open=0 " in other.process.stderr.readline() for _ in range(3)])
        assert 9 <= time.monotonic() - begun < 12 and os.stat(path).st_mtime == first
        assert until(lambda: os.stat(path).st_mtime > first) and 14.9 < os.stat(path).st_mtime - first < 16
        seconds = read(path)["relayd_slots_full_seconds_total"]
        wanted = dict.fromkeys(["slots", "connections_open", "connections_open_max", "connections_opened_total"], 2)
        wanted |= dict.fromkeys(["up_bytes_total", "down_bytes_total"], 2) | {"slots_full_seconds_total": seconds}
        assert those_over_0(path) == wanted and 14 <= seconds <= 15
        for client in clients:
            client.close()
        assert having(relay.ended(), "] stats ") == [] and read(path)["relayd_connections_done_total"] == 2
        assert os.listdir(place) == ["relayd.prom"]


# refuses file_of_others_is_replaced: a file with the statistics of another program is replaced
# refuses file_of_an_earlier_relay_is_refused: a relay does not start where another has left its file
def replaces_no_file_of_others():
    with folder() as (place, path):
        file, how = pathlib.Path(path), {"options": ["--stats-file", path], "log": "off"}
        told = [f"[ERROR relayd] stats-file: {path}: is there, and has no statistics of a relay"]
        for text in "listen = 1\n", "# HELP node_load1 1m load average.\n", "# HELP relayd":
            file.write_text(text)
            assert Relay(1, **how).ended(1) == [*told, "relayd: stats-file: cannot be written"]
            assert file.read_text() == text and os.listdir(place) == ["relayd.prom"]
        # One without a byte is, and then that of the first relay. Who may read it stays so.
        file.write_text("")
        mode = os.stat(path).st_mode
        for _ in range(2):
            relay = Relay(target(echo), stop_after=1, **how)
            ask_once(relay)
            assert relay.ended() == [] and read(path)["relayd_connections_opened_total"] == 1
            assert os.stat(path).st_mode == mode and os.listdir(place) == ["relayd.prom"]


# refuses file_fault_ends_the_relay: a relay whose file cannot be written ends
# refuses file_fault_told_each_time: that the file cannot be written is logged each time
# refuses file_is_given_up: a file that could not be written once is not tried again
# refuses what_is_beside_stays: what was made beside the file stays where it cannot be renamed
def goes_on_without_its_file():
    with folder() as (place, path):
        relay = Relay(target(echo), stop_after=3, options=["--stats", "1", "--stats-file", path], log="warn")
        assert until(lambda: os.path.exists(path))
        ask_once(relay)
        # Its folder is gone, and once that is back, a folder has its name.
        os.rename(place, place + ".gone")
        try:
            warning = next(line for line in relay.process.stderr if "] stats-file: " in line)
            os.remove(f"{place}.gone/relayd.prom")
            os.mkdir(f"{place}.gone/relayd.prom")
        finally:
            os.rename(place + ".gone", place)
        time.sleep(2.5)
        ask_once(relay)
        assert until(lambda: os.listdir(place) == ["relayd.prom"]) and os.path.isdir(path)
        os.rmdir(path)
        assert until(lambda: os.path.exists(path)) and read(path)["relayd_connections_opened_total"] == 2
        ask_once(relay)
        assert having(relay.ended(), "] stats-file: ") == [] and read(path)["relayd_connections_done_total"] == 3
    cause = "No such file or directory (os error 2); it is tried again each time"
    assert warning == f"[WARN  relayd] stats-file: {path}: {cause}\n"


# refuses starved_is_not_counted: the seconds in which a client waits for want of a descriptor are not counted
@by_time
def counts_the_seconds_in_which_clients_wait():
    # The line of the log says so at once; the file, for which there is no descriptor, once there is one again.
    with folder() as (_, path):
        relay = Relay(target(echo), options=["--stats", "1", "--stats-file", path], workers=1)
        early = served(relay, 2)
        assert until(lambda: os.path.exists(path))
        relay.limit(resource.RLIMIT_NOFILE, max(relay.descriptors()) + 1)
        waiting = asking(relay, 2)
        time.sleep(4.5)
        relay.limit(resource.RLIMIT_NOFILE, None)
        assert all([answers_soon(client) for client in waiting])
        assert until(lambda: read(path)["relayd_connections_open"] == 4)
        time.sleep(2.5)
        last = read(path)
        for client in early + waiting:
            client.close()
        waits = [numbers_in(line)["waited"] for line in having(relay.end(), "] stats ")]
    assert waits == sorted(waits) and 3 <= last["relayd_accept_waiting_seconds_total"] == waits[-1] <= 6, waits
    assert waits.count(waits[-1]) >= 2 and {1, 2, 3} <= {*waits}
