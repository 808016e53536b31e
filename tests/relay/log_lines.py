"""The lines of the log, and the statistics."""

import contextlib
import os
import re
import resource
import socket
import tempfile
import time

from loopback import WAIT, Relay, echo, in_thread, port_of, read_all, send_and_shut, target, unanswered, unheard, until
from monitoring import as_line, folder, read
from shared import (
    answer_and_read, ask_once, asked, asking, at_once, by_time, drops_in, having, is_closed_soon, is_silent, leave_one_descriptor,
    name_of, numbers_in, reset, served, told,
)


# refuses closed_unlogged: the end of a connection is not logged
def logs_as_is_set():
    # The option goes before the file's level. Statistics are logged unless the log is off.
    served = ["[INFO  relayd] open s=0 g=1", "[INFO  relayd] done s=0 g=1 up=3 down=3"]
    counted = "opened=1 done=1 failed=0 dropped=0 client=0 target=0 refused=0 reset=0 timedout=0 idle=0 up=3 down=3"
    assert told("--log", "debug", log="off")[1:] == told("--log", "info", log="debug") == served
    assert told("--log", "off", log="debug") == told(log="warn") == []
    assert told("--stats", "1", log="off") == ["[WARN  relayd] stats: does nothing, since log is off"]
    assert told("--stats", "86400", log="error") == [f"[INFO  relayd] stats open=0 slots=1024 {counted} waited=0 lost=0"]


# refuses line_without_its_priority: a line in the journal of systemd has no priority
def marks_its_lines_for_the_journal():
    # If another stream is named, or none, lines begin with their level.
    priorities = {"ERROR": "<3>", "WARN ": "<4>", "INFO ": "<6>", "DEBUG": "<7>"}
    for how in "{0}:{1}", "{0}:{1}0", "{0}", "":
        with tempfile.TemporaryFile("w+") as errors:
            found = os.fstat(errors.fileno())
            variables = {"JOURNAL_STREAM": how.format(found.st_dev, found.st_ino)}
            taken = Relay(target(echo), errors=errors, log="debug", budget=3, stop_after=1, variables=variables)
            Relay(1, errors=errors, listen=f"127.0.0.1:{taken.port}", variables=variables).process.wait(WAIT)
            ask_once(taken)
            assert taken.process.wait(WAIT) == 0
            errors.seek(0)
            lines = [re.fullmatch(r"(<\d>|)\[(.{5}) relayd\] .*\n", line) for line in errors if not line.startswith("relayd: ")]
        assert {line[2] for line in lines} == set(priorities)
        assert all(line[1] == (priorities[line[2]] if how == "{0}:{1}" else "") for line in lines)


# refuses lack_told_of_any_drop: a front is told of a lack of memory for any drop
def target_out_of_reach():
    # No connection to the broadcast address of a network can begin. The first drop is logged, and then a count a second at most.
    cause = "Network is unreachable (os error 101)"
    gone = "[DEBUG relayd] gone from={0} connected=no up=0 down=0 seconds=0 cause={1}"
    for level, causes in ("debug", ["[DEBUG relayd] connect: 127.255.255.255:1: {1}", gone]), ("info", []):
        relay = Relay(target="127.255.255.255:1", slots=1, log=level)
        clients = [relay.connect() for _ in range(40)]
        assert [client.recv(1) for client in clients] == [b""] * 40
        time.sleep(1.3)
        lines = relay.end()
        dropped = having(lines, "] drop")
        assert dropped[0] == "[WARN  relayd] drop kind=connect" and drops_in(dropped) == 40 and len(dropped) <= 4
        assert all(line.startswith("[WARN  relayd] drops kind=connect more=") for line in dropped[1:])
        told = [line.format(name_of(client), cause) for client in clients for line in causes]
        assert [line for line in lines if line not in dropped] == told


# refuses full_told_each_round: that all slots are taken is logged in each round in which a client comes
def says_once_that_clients_wait_for_a_slot():
    # And once more after nobody has waited.
    relay = Relay(target(echo), slots=1)
    for many in 4, 1:
        relay.come_to_rest()
        clients = served(relay, 1)
        for _ in range(many):
            # Each is found by a round of its own.
            clients += asking(relay, 1)
            assert until(relay.sleeps) and is_silent(clients[-1], 0)
        for client, next_one in zip(clients, clients[1:]):
            client.close()
            assert next_one.recv(1) == b"?"
        clients[-1].close()
    words = [re.search(r"\] (\w+)", line)[1] for line in relay.end()]
    assert words == ["open", "slots", *["done", "open"] * 4, "done", "open", "slots", "done", "open", "done"]


# refuses address_of_the_wrong_socket: with --log-clients `via` is not the address that the target sees
# refuses clients_always_at_debug: the level of what is logged of clients is debug, though it is to be info
# refuses done_without_its_client: with --log-clients a connection that is done has no line with its client's address
@by_time
def logs_each_client_as_it_comes_and_goes():
    seen = []
    server = target(lambda connection: (seen.append("%s:%d" % connection.getpeername()), echo(connection)))
    for end, cause, last in (
        (socket.socket.close, "done", "[INFO  relayd] done s=0 g=1 up=3 down=3"),
        (reset, "Connection reset by peer (os error 104)", "[WARN  relayd] fail s=0 g=1 side=client call=read kind=reset"),
    ):
        relay = Relay(server, slots=1, options=["--log-clients"])
        client = relay.connect()
        own = name_of(client)
        assert asked(client, b"one")
        end(client)
        gone = f"[INFO  relayd] gone s=0 g=1 from={own} connected=yes up=3 down=3 seconds=N cause={cause}"
        lines = [re.sub("seconds=[01] ", "seconds=N ", line) for line in relay.end()]
        assert lines == [f"[INFO  relayd] peer s=0 g=1 from={own} via={seen.pop()}", "[INFO  relayd] open s=0 g=1", gone, last]


def shows_whose_it_was(port, sent, end, idle, failed):
    """A relay of two slots logs whose its second connection was, and how it ended."""
    relay = Relay(port, slots=2, log="debug", idle=idle)
    # The first client is in slot 0.
    _, client = relay.connect(), relay.connect()
    own = name_of(client)
    assert asked(client, sent) or not sent
    end(client)
    lines = [re.sub("seconds=[123] ", "seconds=N " if idle else "seconds=0 ", line) for line in having(relay.end(), " s=1 ")]
    assert lines[:2] == [f"[DEBUG relayd] peer s=1 g=1 from={own}", "[INFO  relayd] open s=1 g=1"]
    if failed:
        gone, fail = f"[DEBUG relayd] gone s=1 g=1 from={own} {failed[0]}", f"[WARN  relayd] fail s=1 g=1 {failed[1]}"
        assert lines[2:] == [gone, fail]
    else:
        assert lines[2:] == ["[INFO  relayd] done s=1 g=1 up=3 down=3"]


# refuses silent_target_told_as_absent: a target that has accepted, and says nothing, is logged as not connected
# refuses peer_names_slot_0: the line with the client's address names slot 0, whichever it is
@by_time
def says_whose_a_connection_was_and_how_it_ended():
    refused = "connected=no up=0 down=0 seconds=0 cause=Connection refused (os error 111)", "side=target call=read kind=refused"
    cause = "cause=Connection reset by peer (os error 104)"
    broken = f"connected=yes up=3 down=3 seconds=0 {cause}", "side=client call=read kind=reset"
    # No call has shown whether the target is connected: one accepted and says nothing, and the other does not answer.
    silent, absent = [(f"connected={word} up=0 down=0 seconds=N cause=idle", "idle") for word in ("yes", "no")]
    nobody, server = unheard(), target(echo)
    shows_whose_it_was(port_of(nobody), b"", is_closed_soon, 0, refused)
    shows_whose_it_was(server, b"one", reset, 0, broken)
    shows_whose_it_was(server, b"", is_closed_soon, 1, silent)
    with unanswered() as full:
        shows_whose_it_was(full, b"", is_closed_soon, 1, absent)
    shows_whose_it_was(server, b"one", socket.socket.close, 0, None)


def end_as_asked(connection):
    """Ends a connection as its first byte says."""
    with contextlib.suppress(OSError):
        word = connection.recv(1)
        if word == b"r":
            reset(connection)
        elif word == b"s":
            read_all(connection)
        else:
            send_and_shut(connection, word + read_all(connection))


# refuses event_is_not_kept: an event is not kept in the statistics
# refuses ended_bytes_are_forgotten: the bytes of a slot's earlier connections are not in the statistics
# refuses idle_ones_have_not_failed: those that the idle limit ended are not counted as failed
# refuses stats_in_another_order: two numbers of the line of the statistics stand in each other's place
# refuses metrics_have_each_others_numbers: two metrics for a monitor have each other's numbers
@by_time
def statistics_add_up():
    # Of 1,000 connections that end in every way, after a client that is dropped.
    def sends(word, last=read_all, times=1):
        def work():
            for number in range(times):
                with relay.connect() as client, contextlib.suppress(OSError):
                    client.sendall(word * (number + 1))
                    last(client)

        return work

    def end(client):
        client.shutdown(socket.SHUT_WR)
        read_all(client)

    begun, listener = time.monotonic(), unheard()
    with tempfile.TemporaryFile("w+") as errors, folder() as (_, path):
        options = ["--stats", "1", "--stats-file", path]
        relay = Relay(port_of(listener), errors=errors, slots=256, idle=1, stop_after=1000, options=options, log="debug")
        leave_one_descriptor(relay)
        assert relay.connect().recv(1) == b""
        relay.limit(resource.RLIMIT_NOFILE, None)
        at_once(*[sends(b"?", times=50)] * 4)
        # So that there is a line before the last one.
        time.sleep(1.1)
        target(end_as_asked, listener)
        works = [sends(b"r", times=50), sends(b"s", reset, times=50), sends(b"e", end, times=75)]
        at_once(*[sends(b"s", is_closed_soon)] * 100, *works * 4)
        assert relay.process.wait(WAIT) == 0
        errors.seek(0)
        lines, monitored = errors.read().splitlines(), as_line(read(path))
    each = [numbers_in(line) for line in having(lines, "[INFO  relayd] stats ")]
    names = "open slots opened done failed dropped client target refused reset timedout idle up down waited lost".split()
    numbers = " ".join(f"{name}={each[-1][name]}" for name in names)
    assert having(lines, "] stats ")[-1] == f"[INFO  relayd] stats {numbers}"
    wanted = {"open": 0, "slots": 256, "dropped": drops_in(lines)}
    words = {"opened": "] open s=", "done": "] done s=", "failed": "] fail s=", "client": "side=client", "target": "side=target"}
    words |= {kind: f"kind={kind}" for kind in ("refused", "reset", "timedout")}
    wanted |= {name: len(having(lines, word)) for name, word in words.items()}
    wanted["idle"] = len(having(lines, "] fail s=", " idle"))
    over = [numbers_in(line) for line in having(lines, "] done s=") + having(lines, "] gone s=")]
    wanted |= {way: sum(line[way] for line in over) for way in ("up", "down")}
    last = numbers_in(lines[-1])
    # The drop may have kept it from accepting for a second.
    wanted |= {"waited": last["waited"], "lost": 0}
    assert last["waited"] <= 2 and each[-1] == last == wanted == monitored and last["opened"] == 1000
    assert len(having(lines, "] gone ")) == last["failed"] + 1
    assert all(last[name] for name in last if name not in ("open", "timedout", "waited", "lost"))
    assert all(one["opened"] == one["open"] + one["done"] + one["failed"] for one in each)
    assert 2 <= len(each) <= time.monotonic() - begun + 1


# refuses moved_is_not_counted: the bytes of a connection that is still open are not in the statistics
def statistics_tell_of_open_connections():
    relay, wanted = Relay(target(answer_and_read), options=("--stats", "1"), typed=True, log="warn"), {"open": 1, "slots": 1024}
    wanted |= {"opened": 1, "up": 3, "down": 1}
    with relay.connect() as client:
        client.sendall(b"one")
        assert client.recv(3) == b"o"
        # The first line may come before all of it.
        lines = (numbers_in(relay.process.stderr.readline()) for _ in range(5))
        assert any({name: number for name, number in line.items() if number} == wanted for line in lines)


def writes_each_log_line_at_once_and_goes_on_without_its_log():
    # Each write(2) to such a socket is a packet of its own.
    errors, end = socket.socketpair(socket.AF_UNIX, socket.SOCK_SEQPACKET)
    relay = Relay(target(echo), errors=end, slots=2, log="debug")
    end.close()
    errors.settimeout(WAIT)
    ask_once(relay)
    packets = [errors.recv(4096) for _ in range(4)]
    words = [re.fullmatch(rb"\[\w+ +relayd\] (\w+) .+\n", packet)[1] for packet in packets]
    assert words == [b"relayd", b"peer", b"open", b"done"]
    errors.close()
    first, second = served(relay, 2)
    first.close()
    time.sleep(0.3)
    assert asked(second) and relay.process.poll() is None


# refuses log_rests_for_100_ms: the log's thread rests for 100 ms after it wrote lines
@by_time
def writes_each_log_line_within_5_ms():
    # The line `open` is written at once, and `done` after a rest. A machine under load may take longer for most of them.
    relay, times = Relay(target(echo)), []
    assert "slots" in relay.process.stderr.readline()
    for _ in range(15):
        time.sleep(0.02)
        ask_once(relay)
        before = time.monotonic()
        assert "] open " in relay.process.stderr.readline() and "] done " in relay.process.stderr.readline()
        times.append(time.monotonic() - before)
    assert sorted(times)[3] < 0.02, times


# refuses left_out_is_told_last: how many lines were left out is logged after the lines that wait
def serves_on_when_nobody_reads_its_log():
    reader, writer = os.pipe()
    relay = Relay(target(echo), errors=writer)
    os.close(writer)

    def serve_some():
        for _ in range(5_000):
            ask_once(relay)

    def end_at_rest():
        with contextlib.suppress(AssertionError):
            relay.come_to_rest()
        relay.process.terminate()

    at_once(*[serve_some] * 4)
    # Each connection has its two lines, but for those that are counted as left out.
    with os.fdopen(reader) as log:
        time.sleep(0.1)
        in_thread(end_at_rest)
        lines = log.read().splitlines()[1:]
    numbers = [re.fullmatch(r"\[WARN  relayd\] log: (\d+) lines left out", line) for line in lines]
    # A pipe has some 2,000 lines, and the queue 4,096.
    assert any(numbers[:4_000])
    numbers = [int(number[1]) for number in numbers if number]
    messages = [line for line in lines if line.startswith(("[INFO  relayd] open s=", "[INFO  relayd] done s="))]
    assert numbers and len(messages) + sum(numbers) == 40_000 and len(messages) + len(numbers) == len(lines)


def unread(port=1, **settings):
    """A relay that writes its log into a full pipe, and the end to read from."""
    reader, writer = os.pipe()
    os.set_blocking(writer, False)
    with contextlib.suppress(BlockingIOError):
        while os.write(writer, bytes(4096)):
            pass
    os.set_blocking(writer, True)
    relay = Relay(port, errors=writer, **settings)
    os.close(writer)
    return relay, os.fdopen(reader)


# refuses one_left_out_is_not_told: that a single line was left out is not logged
def tells_of_the_first_line_without_room():
    # The writer has one line, which it cannot write, and 4,096 more have room.
    relay, log = unread(target(echo))
    for _ in range(2048):
        ask_once(relay)
    with log, relay.connect() as client:
        assert asked(client) and until(relay.sleeps)
        assert any(line == "[WARN  relayd] log: 1 lines left out\n" for line in log)


# refuses fault_waits_for_a_reader: a fault of serving is printed by a write that may not end
def ends_by_a_fault_that_nobody_reads():
    relay, log = unread(descriptors=4, recorded=False)
    with log:
        assert relay.process.wait(10) == 1


# refuses last_wait_of_ten_milliseconds: a relay that ends waits for its log's reader for 10 ms, and not for a second
@by_time
def tells_its_last_lines_to_a_late_reader():
    # It ends soon after its last connection, and then waits, but not for a reader that never comes.
    for is_late in True, False:
        relay, log = unread(target(echo), stop_after=1)
        ask_once(relay, b"one")
        with log:
            time.sleep(0.4)
            assert not is_late or log.read().endswith("] done s=0 g=1 up=3 down=3\n")
            assert relay.process.wait(10) == 0
