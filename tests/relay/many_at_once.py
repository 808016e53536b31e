"""Many connections at once: slots, pollers, workers, and what they do while nothing comes."""

import collections
import pathlib
import re
import resource
import socket
import tempfile
import threading
import time

from loopback import WAIT, Relay, echo, in_thread, made, port_of, target, unheard, until
from shared import (
    answer_and_read, ask_once, asked, asking, by_time, having, is_silent, left_out, move_much, needs, numbers_in, send, served,
)
from tracing import FUTEX, halted


def send_both(pairs):
    for client, end in pairs:
        client.sendall(b"u")
        end.sendall(b"d")


def have_it(pairs):
    return all([end.recv(1) == b"u" and client.recv(1) == b"d" for client, end in pairs])


# refuses half_of_a_batch_told: of 256 reports only the first 128 reach the wires
def answers_a_full_batch_and_a_client():
    # As many reports as one wait gives, of both ends of each connection, and a client that comes with them.
    relay = Relay(slots=300, workers=1, log="off")
    pairs = [relay.pair() for _ in range(128)]
    send_both(pairs)
    assert have_it(pairs)
    for _ in range(3):
        with relay.stopped():
            send_both(pairs)
            late = relay.connect()
        assert have_it(pairs)
        pairs.append((late, relay.listener.accept()[0]))


def uses_each_of_4096_slots():
    if resource.getrlimit(resource.RLIMIT_NOFILE)[0] < 8_300:
        return left_out("8,300 descriptors")
    relay = Relay(slots=4096, log="off")
    pairs = [relay.pair() for _ in range(4096)]
    # In the second round a report has to reach each wire.
    for _ in range(2):
        send_both(pairs)
        assert have_it(pairs)


# refuses listener_watched_by_one_poller: only one front watches the listening socket
# refuses busy_without_claim: a turn answers that its slot is held, without a claim
# refuses accepted_client_closed_untold: of two clients that a poller accepts one is closed, and nothing tells of it
# refuses full_told_by_the_first_poller: the first poller whose slots are all taken tells that all of the server's are
def serves_all_slots_of_several_pollers():
    # Four pollers with 64 slots each. One client more waits, and is served whichever slot comes free.
    relay = Relay(target(echo), slots=256)
    clients = [served(relay, 1)[0] for _ in range(256)]
    for freed in (0, 63, 64, 100, 191, 200, 255, 1, 128, 254, 7, 77):
        (waiting,) = asking(relay, 1)
        assert until(relay.sleeps) and is_silent(waiting, 0)
        clients[freed].close()
        clients[freed] = waiting
        assert waiting.recv(1) == b"?"
    lines = relay.end()
    slots = [numbers_in(line)["s"] for line in having(lines, "] open ")]
    assert len({slot // 64 for slot in slots[:64]}) > 1 and sorted(slots[:256]) == list(range(256)) and len(slots) == 268
    # From the 257th client on somebody always waits.
    (full,) = having(lines, "] slots: all 256 are taken; further clients wait")
    assert len(having(lines[: lines.index(full)], "] open ")) == 256


# refuses late_generations_are_not_told: no report whose number has over 32 bits reaches its wire
# refuses numbers_of_32_bits: a socket is registered under the lowest 32 bits of its number
def serves_65539_in_one_slot():
    # Numbers have over 32 bits from generation 65,536 on. All but the last four find their target out of reach.
    listener = unheard()
    with tempfile.NamedTemporaryFile("w") as errors:
        relay = Relay(port_of(listener), errors=errors, slots=1)
        for _ in range(302):
            for client in [relay.connect() for _ in range(217)]:
                client.close()
        with relay.connect() as last:
            assert last.recv(1) == b""
        target(echo, listener)
        for _ in range(4):
            with relay.connect() as client:
                assert asked(client) and asked(client)
        wanted = [f"[INFO  relayd] open s=0 g={g}" for g in range(65535, 65540)]
        assert until(lambda: having(pathlib.Path(errors.name).read_text().splitlines(), "] open s=")[-5:] == wanted)


# refuses fronts_in_reverse: the pollers have their fronts in reverse, so a worker wakes another poller than the slot's
# refuses wakes_by_64_slots: the poller is woken that the slot would have if each had 64
@by_time
def wakes_the_poller_of_a_freed_slot():
    relay = Relay(target(answer_and_read), slots=256, workers=2)
    clients, slow = served(relay, 256), 0
    for _ in range(20):
        # Its slot is not among the first 64 of its poller, of 128.
        with clients.pop(200) as client:
            (waiting,) = asking(relay, 1)
            move_much(relay, client)
            before = time.monotonic()
            client.shutdown(socket.SHUT_WR)
            assert waiting.recv(1) == b"?"
            slow += time.monotonic() - before > 0.1
        clients.append(waiting)
    # A poller that nobody wakes waits for 200 ms, unless the slot is free before it waits, as about half of these are.
    assert slow < 4


# refuses wake_of_all: a worker that frees a slot wakes every poller, and not the slot's alone
@needs("strace")
def wakes_no_other_poller():
    relay = Relay(target(answer_and_read), slots=256, workers=4)
    clients, waiting = served(relay, 256), asking(relay, 16)
    move_much(relay, *clients[:16])

    def end():
        for client in clients[:16]:
            client.shutdown(socket.SHUT_WR)
            assert client.recv(1) == b""
        assert all([client.recv(1) == b"?" for client in waiting])

    # A thread wakes a poller by the eight bytes that it writes to an eventfd(2), after the two close(2) of a connection.
    acts = collections.defaultdict(str)
    for call in made([relay], 0.1, end)[relay]:
        found = re.match(r"(\d+) +(?:<... )?(close|write)\b.* = [08]$", call)
        if found:
            acts[found[1]] += found[2][0]
    assert "ccw" in "".join(acts.values()) and not any("ww" in of_thread for of_thread in acts.values()), acts


# refuses clients_are_not_dealt: a poller takes each client that it can, however many more than others it has
@by_time
def deals_clients_to_pollers_with_fewer():
    # Of four pollers one keeps its clients and the others lose theirs, before 24 come at once, ten times.
    with tempfile.NamedTemporaryFile("w") as errors:
        relay = Relay(target(echo), errors=errors, slots=1024)

        def opened():
            return having(pathlib.Path(errors.name).read_text().splitlines(), "] open ")

        def pollers(many):
            """The poller of each client so far, once there are this many."""
            assert until(lambda: len(opened()) == many)
            return [numbers_in(line)["s"] // 256 for line in opened()]

        clients = [served(relay, 1)[0] for _ in range(64)]
        first, *others = pollers(64)
        for client, poller in zip(clients[1:], others):
            if poller != first:
                client.close()
        for many in range(88, 328, 24):
            time.sleep(0.1)
            for client in served(relay, 24):
                client.close()
            last = pollers(many)
    # It takes one where others wake after more than a millisecond, and about 60 if it leaves none.
    assert others.count(first) > 6 and last[64:].count(first) < 30


def taken_by_the_fuller(fewer, more):
    """Of 32 clients that come one after the other, how many a poller with more clients takes, beside one with fewer."""
    taken = 0
    for fuller in 0, 1:
        with tempfile.NamedTemporaryFile("w") as errors:
            relay, left = Relay(target(echo), errors=errors, slots=128, workers=2), {fuller: more, 1 - fuller: fewer}

            def told(word, many):
                """The slots of these lines, once there are this many."""
                while len(lines := having(pathlib.Path(errors.name).read_text().splitlines(), word)) < many:
                    time.sleep(0.002)
                return [numbers_in(line)["s"] for line in lines]

            clients, kept = served(relay, 104), []
            for client, slot in zip(clients, told("] open ", len(clients))):
                left[slot // 64] -= 1
                if left[slot // 64] >= 0:
                    kept.append(client)
                else:
                    client.close()
            assert len(kept) == fewer + more
            for number in range(len(clients) - len(kept), len(clients) - len(kept) + 16):
                told("] done ", number)
                time.sleep(0.003)
                ask_once(relay)
            taken += [slot // 64 for slot in told("] open ", len(clients) + 16)[len(clients):]].count(fuller)
    return taken


# refuses margin_of_three: a poller takes a client though another has three fewer
# refuses margin_of_a_quarter: a poller takes a client though it has more by a quarter than another
@by_time
def leaves_clients_by_two_and_by_an_eighth():
    # By the margin a poller takes about half of them. With one more it takes those for which the other does not wake within a
    # millisecond, as under load.
    for fewer, margin in (0, 2), (32, 4):
        assert taken_by_the_fuller(fewer, fewer + margin) >= 8
        assert any(taken_by_the_fuller(fewer, fewer + margin + 1) <= 8 for _ in range(5))


def burst(relay, clients):
    """How long it takes until the last of these clients has its answer, if the relay finds a byte of each at once."""
    with relay.stopped():
        send(clients)
    before = time.monotonic()
    assert all([client.recv(1) == b"!" for client in clients])
    return time.monotonic() - before


def echo_or_read(connection):
    """Echoes, or only reads if the first byte is no question mark."""
    first = connection.recv(1)
    connection.sendall(first)
    if first == b"?":
        return echo(connection)
    buffer = bytearray(1 << 20)
    while connection.recv_into(buffer):
        pass


# refuses light_tickets_put_while_all_work: light tickets after the first 16 of a round are put while all workers work on bulk
@by_time
def small_messages_wait_for_no_bulk():
    relay = Relay(target(echo_or_read), recorded=False, slots=64, workers=1, budget=1024, ring=65536, log="off")
    bulk = [relay.connect() for _ in range(4)]
    assert all([asked(client, b"!") for client in bulk])
    clients = served(relay, 48)
    data, is_over = bytes(1 << 20), threading.Event()

    def flood(client):
        while not is_over.is_set():
            client.sendall(data)

    floods = [in_thread(flood, client) for client in bulk]
    times = {16: [], 48: []}
    for _ in range(15):
        for many, taken in times.items():
            time.sleep(0.05)
            taken.append(burst(relay, clients[:many]))
    is_over.set()
    assert not any(each.result(WAIT) for each in floods)
    few, many = (sorted(taken)[len(taken) // 2] for taken in times.values())
    # After the workers' turns a burst of 48 takes 30 times as long as one of 16.
    assert many < 5 * few + 0.008


# refuses light_ticket_kept_beside_a_sleeper: a poller that polls alone keeps all its light tickets, though a worker sleeps
# refuses light_tickets_put_where_as_many_poll: they go to workers that sleep, though as many threads poll as work
@needs("ptrace")
def wakes_workers_for_what_is_over_16():
    for workers, is_shared in (1, True), (2, False):
        relay = Relay(target(echo), recorded=False, slots=64 * workers, workers=workers, log="off")
        clients, others = served(relay, 48 * workers), relay.named("worker", workers)

        def slept():
            """How often the workers have gone to sleep, once they sleep."""
            assert until(lambda: all(relay.system_call(task) == str(FUTEX) for task in others))
            return sum(relay.status("voluntary_ctxt_switches", task) for task in others)

        def woken(many):
            """How often workers wake by a burst of so many bytes, all of which the pollers find at once."""
            before = slept()
            with halted(relay.process.pid, *relay.named("poller", workers - 1)):
                send(clients[:many])
            assert all([client.recv(1) == b"!" for client in clients[:many]])
            return slept() - before

        few, many = [woken(16) for _ in range(5)], [woken(len(clients)) for _ in range(5)]
        assert not any(few) and any(many) == all(many) == is_shared, (few, many)


# refuses one_worker_runs_all: all tickets are run by one worker
@needs("ptrace")
def goes_on_while_one_worker_stands_still():
    # One thread polls. Of 48 bytes that it finds at once it puts 32: if one put wakes the worker that stands still, the next
    # wakes the other, which has them all.
    relay = Relay(target(echo), recorded=False, slots=64, workers=2, log="off")
    clients = served(relay, 48)
    for worker in relay.named("worker", 2):
        with halted(worker):
            with halted(relay.process.pid):
                send(clients)
            assert all([client.recv(1) == b"!" for client in clients])


def rings_are_as_large_as_is_set():
    def grown(ring):
        """How many bytes more it has by 32 connections."""
        # With one poller, whose thread is the first. The queues of a recording leave holes in the heap.
        relay = Relay(target(echo), recorded=False, ring=ring, slots=64)
        first, before = served(relay, 1), relay.status("VmData")
        others = served(relay, 32)
        return 1024 * (relay.status("VmData") - before)

    most = 32 * 2 * 65536
    assert 0 <= grown(1) < 500_000 and most - 500_000 < grown(65536) < most + 500_000
