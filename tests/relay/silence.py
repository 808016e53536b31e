"""Peers that are silent, and peers that are gone."""

import contextlib
import os
import shutil
import socket
import subprocess
import sys
import time

from loopback import TESTS, WAIT, Relay, echo, in_thread, port_of, read_all, send_and_shut, target, unanswered, until
from shared import (
    IDLE, answers_soon, asked, asking, by_time, having, is_closed_soon, is_silent, left_out, needs, numbers_in, served, waits_of,
)


# refuses idle_told_as_reset: a connection that moved nothing is logged as one that was reset
@by_time
def ends_connections_once_they_are_silent():
    # Seconds are counted whole, so a limit of 2 leaves a client at least one. A sweep finds it within another limit.
    relay = Relay(target(echo), slots=1, idle=2)
    client = relay.connect()
    for _ in range(10):
        time.sleep(0.5)
        assert asked(client)
    waiting, _other = asking(relay, 2)
    assert is_closed_soon(client, 5) and answers_soon(waiting)
    taken = "[WARN  relayd] slots: all 1 are taken; further clients wait"
    assert relay.end()[:4] == ["[INFO  relayd] open s=0 g=1", taken, IDLE, "[INFO  relayd] open s=0 g=2"]


def answers_after_a_stop(seconds):
    """Whether a relay that was stopped for this many seconds answers all clients that sent something meanwhile."""
    relay = Relay(target(echo), slots=256, idle=2)
    clients = served(relay, 16)
    # Each poller waits for reports, and its wait has ended without any before the bytes come.
    time.sleep(0.5)
    with relay.stopped():
        time.sleep(0.5)
        for client in clients:
            client.sendall(b"?")
        time.sleep(seconds - 0.5)
    with contextlib.suppress(ConnectionResetError):
        return all([client.recv(1) == b"?" for client in clients])


# refuses sweeps_before_it_polls: a sweep goes by a second that was read after the reports of its round
@by_time
def answers_what_came_while_it_was_stopped():
    # For longer than the idle limit, as a container or a machine may be. Of three relays one at most is stopped between the
    # poll of a sweep and the turns for it, by which connections are cut.
    assert sum(answers_after_a_stop(3.2) or 0 for _ in range(3)) >= 2


# refuses idle_limit_of_a_byte: an idle limit over 255 seconds is cut
@by_time
@needs("cc")
def keeps_to_the_longest_idle_limit():
    # A day passes within 2.16 seconds.
    relay = Relay(target(echo), preload={"TIMES_FASTER": "40000"}, slots=1, idle=86400)
    with relay.connect() as client:
        assert is_silent(client, 1) and is_closed_soon(client) and relay.end()[-1] == IDLE


# refuses idle_limit_by_the_wall: an idle limit goes by the wall's clock, which may be set
@by_time
@needs("cc")
def keeps_to_the_idle_limit_while_the_wall_clock_is_set():
    # By the wall of one relay an hour passes each second, and by that of the other no time.
    relays = [Relay(target(echo), preload={"WALL_TIMES_FASTER": times}, slots=1, idle=3) for times in ("3600", "0")]
    clients = [relay.connect() for relay in relays]
    assert all([is_silent(client, 0.8) for client in clients]) and all([is_closed_soon(client, 6) for client in clients])
    assert all([relay.end()[-1] == IDLE for relay in relays])


# refuses joined_without_a_peer: a socket that is still connecting is logged as connected
@by_time
def ends_a_connect_that_nobody_answers():
    with unanswered() as port:
        for act in (lambda client: client.sendall(b"is anybody there?")), (lambda client: client.shutdown(socket.SHUT_WR)):
            relay = Relay(port, slots=1, idle=1)
            with relay.connect() as client:
                act(client)
                assert is_closed_soon(client) and relay.end()[-1] == IDLE


# refuses timed_out_ones_are_not_kept: a connection that failed since a peer did not answer is not in the statistics as such
@by_time
def gives_up_a_target_that_does_not_answer():
    with unanswered() as port:
        relay = Relay(port, slots=1, options=["--connect-timeout", "1", "--stats", "9"], typed=True, stop_after=1)
        waiting = Relay(port).connect()
        client = relay.connect()
        assert is_silent(client, 0.8) and is_closed_soon(client) and is_silent(waiting, 1)
        *_, line, sums = relay.ended()
        assert line == "[WARN  relayd] fail s=0 g=1 side=target call=read kind=timedout" and numbers_in(sums)["timedout"] == 1


# refuses limit_stays: the limit for connecting stays when the target is connected
def keeps_a_target_that_takes_nothing():
    # The system asks it again and again whether it has room, and ends a connection whose limit has passed at one of these times.
    relay = Relay(ring=4096, options=["--connect-timeout", "1"])
    client, end = relay.pair()
    sending = in_thread(send_and_shut, client, bytes(12_000_000))
    assert is_silent(client, 3) and len(read_all(end)) == 12_000_000 and not sending.result(WAIT)
    end.close()
    assert relay.end()[-1].endswith("up=12000000 down=0")


# refuses client_with_a_limit: a client's socket has the limit for connecting
# refuses limit_probes_too: with --connect-timeout alone sockets probe their peers
# refuses probes_by_the_systems_numbers: the system's own numbers say when a socket probes its peer
def has_its_sockets_wait_as_is_asked():
    def found(port, *options):
        relay = Relay(port, options=options)
        with relay.connect() as client:
            if port == echoing:
                assert asked(client)
            return until(lambda: len(waits_of(relay)) == 2) and waits_of(relay)

    most, echoing = ("--connect-timeout", "3600", "--keepalive", "32767"), target(echo)
    # Of a socket that nobody waits for, the system's own numbers stay.
    plain, numbers = found(echoing), [32767, 6553, 5]
    if not plain:
        return left_out("pidfd_getfd")
    own = plain["client"]
    assert own[:2] == [0, 0] and plain["target"] == own == found(echoing, *most[:2])["target"]
    with unanswered() as port:
        assert found(port, *most) == {"client": [1, 0, *numbers], "target": [1, 3_600_000, *numbers]}
        assert found(port, *most[:2]) == {"client": own, "target": [0, 3_600_000, *own[2:]]}
        assert found(port, *most[2:]) == dict.fromkeys(["client", "target"], [1, 0, *numbers])
    assert found(echoing, *most) == {"client": [1, 0, *numbers], "target": [1, 0, *numbers]}
    assert found(echoing, "--keepalive", "1") == dict.fromkeys(["client", "target"], [1, 0, 1, 1, 5])


# refuses peers_are_never_probed: nobody probes a peer that is silent
@by_time
def gives_up_peers_that_are_gone():
    # In a network of its own, if the system allows one: an address there can be cut off.
    if "CUT_OFF" not in os.environ:
        words = ["unshare", "--user", "--map-root-user", "--net"]
        if not shutil.which("unshare") or subprocess.run([*words, "ip", "link"], capture_output=True).returncode:
            return left_out("network of its own")
        words += [sys.executable, f"{TESTS}/relay/run", Relay.program, "gives_up_peers_that_are_gone"]
        done = subprocess.run(words, stdout=subprocess.PIPE, text=True, env={**os.environ, "CUT_OFF": "127.0.0.2"})
        assert done.returncode == 0, done.stdout
        return
    subprocess.run(["ip", "link", "set", "lo", "up"], check=True)
    listener, options = socket.create_server(("127.0.0.2", 0)), ["--keepalive", "1"]
    there = f"127.0.0.2:{port_of(listener)}"
    relay = Relay(target(echo), slots=1, options=options)
    other, patient = Relay(target=there, options=options), Relay(target=there)
    gone, client, waiting, next_one = relay.connect(own="127.0.0.2"), other.connect(), patient.connect(), relay.connect()
    _ends = listener.accept(), listener.accept()
    assert asked(gone)
    next_one.sendall(b"?")
    subprocess.run(["ip", "route", "add", "blackhole", "127.0.0.2", "table", "local"], check=True)
    begun = time.monotonic()
    # A second, and five probes a second apart. Then the next client has the slot, and it is kept, since its peers are there.
    assert next_one.recv(1) == b"?" and 5 < time.monotonic() - begun < 9 and is_closed_soon(client)
    assert is_silent(waiting, 1) and is_silent(next_one, 7) and asked(next_one)
    for each, side in (relay, "client"), (other, "target"):
        assert having(each.end(), f"side={side} call=read kind=timedout")
