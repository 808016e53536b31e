"""How threads sleep and are woken. Two of them stand still for a while before or after any of their atomic instructions: one
that puts something, falls asleep or wakes, and one that falls asleep or wakes. Then they go on in either order, and nothing waits
while its thread sleeps."""

import contextlib
import errno
import os
import random
import time

from loopback import WAIT, Relay, echo, target, until
from shared import MUCH, is_silent, send, served
from tracing import ACCEPT4, CLOSE, EPOLL_WAIT, FUTEX, RECVFROM, SENDTO, SLEEP, SLEEPS, SYSCALL, halted

NEEDS = "ptrace"
TRIES = 48  # of each pair
LAST = 8  # places of an end that falls asleep, from its last look before the announcement on
MOST = 30_000  # instructions that a thread makes by single steps, at most
SOON = 5  # seconds; whoever waits longer is not woken
RESTARTS = -500  # answers below are of calls that go on (ERESTART_RESTARTBLOCK)


class Pair:
    """A thread that puts something, and one that sleeps for it. They stand still but where they are let run."""

    def __init__(self, relay, putter, sleeper, chance=None, places=None):
        self.relay, self.putter, self.sleeper = relay, putter, sleeper
        # In how many places they may stand still in each stage, once it was made.
        self.chance, self.places = chance or random.Random(0), {} if places is None else places
        self.number = 0

    def sleep(self, *threads):
        """Lets these go on until they sleep."""
        for thread in threads:
            thread.go()
        calls = [str(number) for number in SLEEPS]
        assert until(lambda: all(self.relay.system_call(thread.task) in calls for thread in threads)), "a thread does not sleep"
        for thread in threads:
            thread.halt()

    def step(self, thread, stage, to=SLEEP, back=None):
        """Lets a thread make a part of this stage, which ends where it sleeps, or at this call; at first all of it. Each place
        before or after an atomic instruction has its turn for the sleeper, the last first, or the one so far before the end."""
        if stage not in self.places:
            self.places[stage] = 2 * thread.step(MOST, to) + 1
            return
        many = self.places[stage]
        if back is None:
            back = self.number // 2 % many if thread is self.sleeper else self.chance.randrange(many)
        place = many - 1 - back
        thread.step(MOST, to, place // 2)
        thread.step(place % 2, to)

    def go_on(self, stage, to=SLEEP):
        """Lets both go on once the putter has made a part of this stage, or in every second try all, and sleeps."""
        if self.number % 2:
            self.step(self.putter, stage, to)
        else:
            self.sleep(self.putter)
        self.go()

    def go(self):
        """Lets both go on, one of them a little later than the other."""
        for thread in self.chance.sample([self.putter, self.sleeper], 2):
            thread.go()
            time.sleep(0.002)

    def halt(self):
        self.putter.halt()
        self.sleeper.halt()


def tries(relay, putter, sleeper, many=TRIES):
    """The pair of these threads for each try, with its number."""
    with halted(putter, sleeper) as found:
        both = Pair(relay, *found)
        for both.number in range(many):
            yield both
            both.halt()


def gives(reader):
    """What can be read soon."""
    return None if is_silent(reader, SOON) else os.read(reader.fileno(), 4096)


def read_all_of(connection, size):
    """Reads this many bytes."""
    while size > 0:
        size -= len(connection.recv(size))


def in_call(relay, number):
    """The threads that are in this system call. Meanwhile some may end."""
    found = []
    for task in relay.tasks():
        with contextlib.suppress(FileNotFoundError, ProcessLookupError):
            if relay.system_call(task) == str(number):
                found.append(task)
    return found


def woken_of(threads):
    """The one of these threads that no longer sleeps. They stood still before, and all others sleep on."""
    for thread in threads:
        # The call in which it slept begins once more.
        thread.go(SYSCALL)
        assert thread.stops(SOON) is not None
        thread.go(SYSCALL)
    assert until(lambda: any(thread.stops(0) is not None for thread in threads)), "nobody wakes"
    return next(thread for thread in threads if not thread.runs)


def put_twice(both, first, second, readers):
    """The worker sleeps, and gets the last of what these clients send; and then of what the others send, while it wakes or falls
    asleep. Each byte arrives."""
    poller, worker = both.putter, both.sleeper
    both.sleep(poller, worker)
    send(first)
    # It may find more, as what the target has answered since.
    poller.run_to(EPOLL_WAIT, lambda answer: answer >= len(first))
    poller.go()
    both.number, wakes = divmod(both.number, 2)
    # Once it has been woken, or once it has run its ticket.
    if wakes:
        worker.run_to(FUTEX, lambda answer: answer > RESTARTS)
        both.step(worker, "wakes", RECVFROM)
    else:
        worker.run_to(SENDTO, lambda answer: answer > 0)
        both.step(worker, "falls asleep")
    poller.halt()
    both.sleep(poller)
    send(second)
    poller.run_to(EPOLL_WAIT, lambda answer: answer >= len(second))
    both.go_on("puts", RECVFROM)
    assert all([gives(reader) for reader in readers]), (both.number, wakes, both.places)


def a_worker_beside_a_poller():
    # Of 17 clients whose bytes the poller finds at once the worker has the last, if it sleeps.
    relay = Relay(target(echo), recorded=False, slots=64, workers=1, log="off")
    clients = served(relay, 34)
    for both in tries(relay, relay.process.pid, *relay.named("worker")):
        put_twice(both, clients[:17], clients[17:], clients)


def much_moved(both):
    """A client and its end, once so much has gone that the worker gets the next 16 tickets of the connection."""
    both.go()
    client, end = both.relay.pair()
    both.halt()
    client.sendall(bytes(MUCH))
    both.go()
    read_all_of(end, MUCH)
    assert until(both.relay.sleeps)
    both.halt()
    return client, end


# refuses worker_sleeps_without_its_second_look: a worker announces that it sleeps, and sleeps without another look
def a_worker_beside_a_poller_that_puts_in_any_case():
    relay, moved = Relay(recorded=False, slots=64, workers=1, log="off"), []
    for both in tries(relay, relay.process.pid, *relay.named("worker")):
        if both.number % 3 == 0:
            # The earlier ones stay open, or reports that they end would come beside those that the poller waits for.
            moved += much_moved(both), much_moved(both)
            clients, ends = zip(*moved[-2:])
        put_twice(both, clients[:1], clients[1:], ends)


def a_worker_beside_another():
    relay = Relay(recorded=False, slots=64, workers=2, log="off")
    for both in tries(relay, *relay.named("worker", 2), LAST**2):
        if both.number % 5 == 0:
            clients, ends = zip(much_moved(both), much_moved(both))
        workers = [both.putter, both.sleeper]
        backs = dict(zip(workers, divmod(both.number, LAST)))
        both.sleep(*workers)
        send(clients)
        for worker in workers:
            worker.run_to(SENDTO, lambda answer: answer > 0)
        for worker in workers:
            both.step(worker, "falls asleep", back=backs[worker])
        asleep = [worker for worker in workers if not backs[worker]]
        both.sleep(*asleep)
        assert all([gives(end) for end in ends])
        # Each of the two pollers puts once more, and who sleeps wakes.
        send(clients)
        time.sleep(0.005)
        for worker in asleep:
            worker.run_to(FUTEX, lambda answer: answer > RESTARTS)
            both.step(worker, "wakes", RECVFROM)
        both.go()
        assert all([gives(end) for end in ends]), (both.number, both.places)


# refuses writer_sleeps_without_its_last_look: the writer of the log announces that it sleeps after its last look
def the_writer_of_the_log_beside_a_poller():
    relay, lines = Relay(target(echo), recorded=False, workers=1), b""
    clients = served(relay, 1)
    for both in tries(relay, relay.process.pid, *relay.named("log")):
        poller, writer = both.putter, both.sleeper
        both.sleep(poller, writer)
        clients.append(relay.connect())
        poller.go()
        # After a line it rests for 5 ms, and looks again before it sleeps.
        writer.run_to(FUTEX, lambda answer: answer == -errno.ETIMEDOUT)
        both.step(writer, "falls asleep")
        poller.halt()
        both.sleep(poller)
        clients.append(relay.connect())
        poller.run_to(ACCEPT4, lambda answer: answer > 0)
        both.go_on("logs")
        while lines.count(b" open ") < len(clients):
            more = gives(relay.process.stderr)
            assert more, (both.number, both.places)
            lines += more


# refuses waker_before_the_slot: a worker wakes the slot's poller, and gives the slot after that
def a_poller_beside_a_worker_that_gives_its_slot():
    # The slot of the last connection, whose end is a worker's. If nobody wakes its poller, one of 16, it waits for 1.6 seconds.
    chance, places = random.Random(0), {}
    for number in range(TRIES // 6):
        relay = Relay(recorded=False, workers=16, stop_after=1, log="off")
        client, end = relay.pair()
        with relay.stopped():
            client.sendall(bytes(MUCH))
        read_all_of(end, MUCH)
        # Once all other pollers have ended there are the first, the log's thread and the workers.
        assert until(lambda: relay.status("Threads") == 18 and in_call(relay, EPOLL_WAIT))
        with halted(relay.process.pid, *relay.named("worker", 16)) as (poller, *workers):
            client.close()
            end.close()
            poller.go()
            worker = woken_of(workers)
            both = Pair(relay, worker, poller, chance, places)
            for _socket in range(2):
                worker.run_to(CLOSE, lambda answer: answer == 0)
            poller.halt()
            both.step(worker, "gives")
            # That its wait was interrupted is a reason to look for its slots.
            both.step(poller, "looks")
            for each in workers:
                if each is not worker:
                    each.let_go()
            if number % 2:
                worker.let_go()
            # Its worker goes on once it waits, for reports or for a lock of malloc(3). No wait ends since its time is over.
            while poller.begins(EPOLL_WAIT, worker.let_go):
                longest = poller.longest()
                assert poller.ends(worker.let_go) > 0 or longest == 0, places
        assert relay.process.wait(WAIT) == 0


# refuses waits_of_microseconds: a poller that is to wait for milliseconds waits for so many microseconds
# refuses waits_without_end: a poller waits until there is a report
# refuses waits_two_seconds: a poller waits two seconds for a report
def of_a_poller_as_long_as_it_asks():
    for pollers, longest in (1, 200), (16, 1600):
        relay, times = Relay(recorded=False, workers=pollers, slots=64 * pollers, log="off"), []
        with halted(relay.process.pid) as (poller,):
            # A poller that begins tries to accept, and then waits.
            while times[-2:] != [longest] * 2 and len(times) < 50:
                assert poller.begins(EPOLL_WAIT)
                times.append(poller.longest())
                poller.ends()
        assert set(times) - {0} == {longest}, pollers
