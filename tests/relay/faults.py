"""What a relay does without descriptors, threads or memory, and how a fault ends it."""

import contextlib
import functools
import itertools
import os
import resource
import socket
import sys
import tempfile
import time

from loopback import Relay, echo, port_of, target, unheard, until
from shared import (
    answers_soon, ask_once, asked, asking, at_once, by_time, drops_in, few, having, is_closed_soon, is_silent,
    leave_one_descriptor, needs, reset, served,
)


# refuses recording_is_no_descriptor: the file of a recording is not counted among the descriptors
def waits_where_descriptors_are_few():
    # The limit covers 17 connections, or 18, with a descriptor to spare or none. Nobody is accepted only to be closed.
    for most, recorded in (40, 0), (41, 0), (42, 0), (43, 0), (41, 1), (42, 1):
        relay = Relay(target(echo), descriptors=most, recorded=recorded)
        recorded = int(bool(relay.record))
        for client in asking(relay, 40):
            # One client after another gives up its place.
            assert client.recv(1) == b"?"
            client.close()
        # Whether a client comes when all slots are taken is left to the schedule.
        first, *lines = [line for line in relay.end() if "] slots: all " not in line]
        assert first == few((most - 6 - recorded) // 2, most, 2060 + recorded)
        assert not any("WARN" in line or "ERROR" in line for line in lines)


# refuses one_connection_without_descriptors: a relay begins that has not the descriptors for one connection
# refuses file_is_no_descriptor: the file of statistics is not counted among the descriptors
# refuses next_part_is_no_descriptor: the next part of a recording is not counted among the descriptors
def needs_descriptors_for_one_connection():
    # Three streams, the listening socket, a poller's two, a connection's two; one that is inherited; one for the file of
    # statistics, one for a recording, and two for one in parts.
    with open(os.devnull) as file, tempfile.TemporaryDirectory() as folder:
        parts = ["--record", f"{folder}/record", "--record-size", "65536"]
        made = [(0, {}), (int(bool(Relay.records)), {"recorded": True}), (2, {"options": parts})]
        made += [(1, {"options": ["--stats-file", f"{folder}/relayd.prom"]})]
        for (more, how), inherited in itertools.product(made, [(), (file.fileno(),)]):
            needed, how = 8 + more + len(inherited), {"recorded": False, "inherited": inherited, "log": "off", **how}
            relay = Relay(target(echo), descriptors=needed, stop_after=1, **how)
            ask_once(relay)
            relay.ended()
            limit = f"the limit is {needed - 1}, and {needed} are needed for one connection (ulimit -n)"
            assert Relay(descriptors=needed - 1, **how).ended(1) == [f"relayd: descriptors: {limit}"]


# refuses cause_is_off: at level off nothing says why a relay could not start
def nothing_to_poll_with():
    # Beside the three standard streams there is a descriptor for the listening socket, and none for epoll(7).
    fault = ["[ERROR relayd] poll: Too many open files (os error 24)", "relayd: poll: failed"]
    for level in "info", "off":
        assert Relay(descriptors=4, recorded=False, log=level).ended(1, within=10) == fault


# refuses off_is_error: at level off a relay that serves logs what it logs at level error
def logs_nothing_at_level_off_while_it_serves():
    relay = Relay(target(echo), slots=64, log="off")
    (_client,) = served(relay, 1)
    relay.limit(resource.RLIMIT_NOFILE, max(relay.descriptors()) + 1)
    (waiting,) = asking(relay, 1)
    assert not answers_soon(waiting) and relay.end() == []


def unstarted(started):
    """What is logged of a thread that cannot be started, once so many are."""
    cause = f"{started}Resource temporarily unavailable (os error 11); raise ulimit -u, TasksMax= or ulimit -v"
    return [f"[ERROR relayd] threads: {cause}", "relayd: threads: failed"]


# refuses unstarted_thread_is_no_fault: a thread that cannot be started is logged, and the others go on
# refuses found_fault_leaves_the_queue_open: a thread that finds a fault does not close the queue of tickets, so workers sleep on
# refuses serves_without_its_recorder: a relay whose recording cannot be written for want of a thread serves on without it
# refuses fault_leaves_the_recording_open: after a fault the relay waits without end for the thread that records
# refuses serves_without_memory_to_record: a relay that has no memory for its recording serves without one
@needs("cc")
def no_thread_or_memory_for_some():
    # One thread writes the log, without which no other is started, two are workers, and one more polls.
    for most, level in itertools.product(range(4), ["info", "off"]):
        relay = Relay(preload={"MOST_THREADS": str(most)}, slots=128, workers=2, recorded=False, log=level)
        assert relay.ended(1, within=10) == unstarted(f"{most} of 4 started: " if most > 0 else "") and relay.port is None
    # One that records, too: it has all but the last, or the log's alone.
    for most, started in ("4", "3 of 4 started: "), ("1", ""):
        relay = Relay(preload={"MOST_THREADS": most}, slots=128, workers=2)
        assert not relay.record or relay.ended(1, within=10) == unstarted(started)
    relay = Relay(under=["sh", "-c", 'ulimit -v 50000; exec "$@"', "sh"])
    assert not relay.record or relay.ended(1)[-1] == "relayd: out of memory"


# refuses failed_poll_is_swallowed: a relay whose poller cannot poll goes on, or ends well
# refuses off_hides_a_cause: at level off nothing says why a relay that served has ended
# refuses goes_on_after_a_fault: other threads go on after a fault
@needs("cc")
def a_poll_that_fails():
    # Two threads poll, at least five times a second each, and two more are workers.
    fault = ["[ERROR relayd] poll: Input/output error (os error 5)", "relayd: poll: failed"]
    for level in "info", "off":
        relay = Relay(target(echo), preload={"POLL_FAILS": "20"}, slots=128, workers=2, log=level)
        clients = served(relay, 2)
        logged = relay.ended(1, within=10)
        assert logged == fault if level == "off" else logged[-2:] == fault
        assert all([is_closed_soon(client) for client in clients])


# refuses starved_told_each_time: that accept(2) is starved is logged each time
@by_time
def out_of_descriptors():
    # With one poller, since each logs that it lacks descriptors.
    relay = Relay(target(echo), slots=100)
    clients = served(relay, 1)
    # Two connections more take the last descriptors, two each, so the fourth is not accepted.
    relay.limit(resource.RLIMIT_NOFILE, max(relay.descriptors()) + 1 + 2 * 2)
    clients += served(relay, 2)
    waiting = asking(relay, 2)
    assert not any([answers_soon(client) for client in waiting])
    before = relay.run_time(relay.tasks())
    time.sleep(2)
    assert relay.run_time(relay.tasks()) - before <= 0.1 and all([asked(client) for client in clients])
    # Each of the two is served when another has gone. Then that there are no descriptors is logged again.
    for client in waiting:
        clients.pop().close()
        assert answers_soon(client)
    lines = relay.end()
    assert len(having(lines, "] open s=")) == 5 and len(having(lines, "accept: ")) == 3 and not having(lines, "] drop ")


# refuses accepts_only_to_close: without a descriptor for a target, one client after the other is accepted, and closed
# refuses looks_for_three: after a lack of descriptors a relay looks for three before it accepts a client
@by_time
def one_descriptor_left():
    # With four pollers, which tell each other that descriptors are short.
    relay = Relay(target(echo), log="debug")
    leave_one_descriptor(relay)
    waiting = asking(relay, 30)
    time.sleep(1)
    closed = [client for client in waiting if not is_silent(client, 0)]
    assert len(closed) == 1 and is_closed_soon(closed[0])
    # Where two are left another is served, and the others as soon as there are more, within a wait of the pollers.
    relay.limit(resource.RLIMIT_NOFILE, 14 + bool(relay.record))
    assert until(lambda: sum(is_silent(client, 0) for client in waiting) == 28)
    relay.limit(resource.RLIMIT_NOFILE, None)
    assert all([answers_soon(client) for client in waiting if client not in closed])
    lines = relay.end()
    assert drops_in(lines) == 1 and len(having(lines, "] open s=")) == 29 and 1 <= len(having(lines, "] accept: ")) <= 8


# refuses target_is_never_closed: the socket to the target is forgotten, and not closed
def closes_what_it_has_opened():
    def ask_and_reset(client):
        assert asked(client)
        reset(client)

    server, nobody, closing = target(echo), unheard(), target(socket.socket.close)
    for port, act in (server, asked), (server, ask_and_reset), (port_of(nobody), is_closed_soon), (closing, is_closed_soon):
        relay = Relay(port, slots=64, log="off")
        # It has no more descriptors after 40 connections than after one.
        for number in range(41):
            with relay.connect() as client:
                act(client)
            if number == 0:
                time.sleep(0.5)
                before = len(relay.descriptors())
        assert until(lambda: len(relay.descriptors()) <= before)


def is_answered(client):
    """Whether a client that sent a byte reads it, and is not closed."""
    with contextlib.suppress(ConnectionError):
        return client.recv(1) == b"?"


# refuses memory_makes_none_wait: without memory for a connection, one client after the other is accepted, and closed
# refuses each_that_comes_costs_one: each client that comes while memory is short has the relay close another
def out_of_memory():
    # The queues of a recording leave holes in the heap.
    relay = Relay(target(echo), recorded=False, ring=65536, slots=64)
    clients = served(relay, 1)
    relay.limit(resource.RLIMIT_AS, 1024 * relay.status("VmSize") + 500_000)
    tries = asking(relay, 60)
    time.sleep(1)
    assert asked(clients[0])
    with relay.stopped():
        waiting = [client for client in tries if is_silent(client, 0)]
        relay.limit(resource.RLIMIT_AS, None)
    # With memory again they are served, and each slot is used, those of the refused too.
    assert len(waiting) > 30 and all([answers_soon(client) for client in waiting])
    clients += [client for client in tries if client in waiting or is_answered(client)]
    refused = 1 + len(tries) - len(clients)
    clients += served(relay, 64 - len(clients))
    assert all([asked(client) for client in clients])
    lines = relay.end()
    opened, drops = having(lines, "] open s="), having(lines, "] drop")
    assert sorted(line.split("] open ")[1] for line in opened) == sorted(f"s={slot} g=1" for slot in range(64))
    # A refused connection is logged, unless there is no memory for that either.
    assert drops[0] == "[WARN  relayd] drop kind=memory" and 0 < drops_in(drops) <= refused
    assert having(lines, "] accept: ")[0] == "[ERROR relayd] accept: out of memory"


# refuses register_told_as_memory: a client whose socket cannot be registered is logged as one that found no memory
# refuses target_stays_open: a target whose socket cannot be registered is not closed
# refuses targets_cause_is_not_kept: the log does not say why a target's socket cannot be registered
@needs("cc")
def an_opening_that_fails_keeps_its_slot():
    # The first client's target finds no memory. The second client is the first socket after the waker and the listener, and
    # its target the next one.
    for socket_number in "34":
        relay = Relay(target(echo), preload={"CONNECTS_LACK": "1", "REGISTER_FAILS": socket_number}, slots=1, log="debug")
        before = relay.descriptors()
        assert [relay.connect().recv(1), relay.connect().recv(1)] == [b"", b""]
        assert until(lambda: relay.descriptors() == before)
        client = relay.connect()
        assert asked(client)
        lines = relay.end()
        assert having(lines, "] gone ")[1].endswith(" cause=Operation not permitted (os error 1)")
        drops = ["[WARN  relayd] drop kind=connect", "[WARN  relayd] drop kind=register"]
        assert [line for line in lines if "] drop" in line or "] open" in line] == [*drops, "[INFO  relayd] open s=0 g=1"]


# refuses system_memory_makes_none_wait: without the system's memory for a target, one client after the other is closed
@needs("cc")
def the_system_lacks_memory():
    # The first twenty connections to the target find none.
    relay = Relay(target(echo), preload={"CONNECTS_LACK": "20"}, slots=64)
    tries = asking(relay, 60)
    time.sleep(1)
    assert sum(is_silent(client, 0) for client in tries) > 40
    assert sum(bool(is_answered(client)) for client in tries) == 40
    lines = relay.end()
    assert having(lines, "] drop")[0] == "[WARN  relayd] drop kind=connect" and drops_in(lines) == 20
    assert having(lines, "] accept: ") == ["[ERROR relayd] accept: out of memory"]


@needs("cc")
def requests_take_no_memory():
    def ask(client):
        assert all(asked(client, b"a request of some bytes") for _ in range(2_500))

    def count():
        return int.from_bytes(os.pread(file.fileno(), 8, 0), sys.byteorder)

    with tempfile.NamedTemporaryFile() as file:
        file.truncate(8)
        relay = Relay(target(echo), preload={"GROWTHS_COUNT": file.name, "GROWTHS_OF_ALL": ""})
        clients, before = served(relay, 4), count()
        at_once(*[functools.partial(ask, client) for client in clients])
        assert 0 < before == count()
