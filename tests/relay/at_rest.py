"""What a relay does once it is left alone, and how many calls its turns make."""

import functools
import re

from loopback import WAIT, Relay, beside_polls, echo, in_thread, made, target, unanswered, until
from shared import at_once, by_time, fill, having, needs, served


def warned(budget):
    """The warning of a budget below the fewest calls of a turn."""
    why = "since with fewer calls a silent connection is tried without end"
    return [f"[WARN  relayd] budget: 4 is used in place of {budget}, {why}"] if budget < 4 else []


def rested(calls, has_limit):
    """Whether these are the calls of a second at rest: a poller waits five times, and the limit may end some connections."""
    others = beside_polls(calls)
    return len(calls) - len(others) <= 20 and len(others) <= (200 if has_limit else 0)


# refuses turns_of_fewer_calls: a turn makes no more calls than `budget` says, also if that is below four
@by_time
@needs("strace")
def makes_no_call_while_all_connections_wait():
    # For each budget two relays without a limit and two with one. The target of the first is silent, or nobody reads what is
    # sent one way, the other or both; the other's answers no connect, and has a byte to get or none.
    with unanswered() as absent:
        relays, kept, filled = {}, [], []
        for budget, idle in [(budget, idle) for budget in range(1, 9) for idle in (0, 5)]:
            how = {"slots": 8, "workers": 1, "budget": budget, "idle": idle, "recorded": False}
            heard, unheard = Relay(**how), Relay(absent, **how)
            before = len(heard.descriptors())
            pairs, clients = [heard.pair() for _ in range(4)], [unheard.connect() for _ in range(2)]
            clients[0].sendall(b"?")
            filled += [pairs[1][0], pairs[2][1], *pairs[3]]
            kept += pairs + clients
            relays |= {heard: (budget, idle, 4, before), unheard: (budget, idle, 2, before)}
        at_once(*[functools.partial(fill, connection) for connection in filled])
        at_once(*[relay.come_to_rest for relay in relays])
        # The kernel may still make room in a full socket, and report it. So each has ten seconds to find one at rest.
        busy = relays
        for _second in range(10):
            busy = {relay: calls for relay, calls in made(list(busy), 1).items() if not rested(calls, has_limit=relays[relay][1])}
            if not busy:
                break
        assert not busy, [(relays[relay], len(calls), beside_polls(calls)[:9]) for relay, calls in busy.items()]
        limited = [(relay, before) for relay, (_, idle, _, before) in relays.items() if idle]
        assert until(lambda: all(len(relay.descriptors()) == before for relay, before in limited))
        for relay, told in [(relay, in_thread(relay.end)) for relay in relays]:
            (budget, idle, many, _), lines = relays[relay], told.result(WAIT)
            assert having(lines, "budget") == warned(budget) and len(having(lines, "] open ")) == many
            assert len(having(lines, "] fail ", " idle")) == (many if idle else 0)


# refuses reads_into_half: a read is made into half of the buffer that it gets
@needs("recording")
def makes_as_many_calls_a_turn_as_are_set():
    for budget in 1, 3, 4, 5, 9, 1024:
        relay = Relay(target(echo), slots=64, workers=1, ring=16, budget=budget)
        (client,) = served(relay, 1)
        with relay.stopped():
            client.sendall(bytes(20_000))
        relay.end()
        header, *lines = open(relay.record).read().splitlines()
        used, calls, most = max(budget, 4), 0, 0
        for line in lines:
            is_call = re.search(r" 0\.1\.\w+ (read|write|join|shut) ", line)
            calls = calls + 1 if is_call else 0 if " 0 begin" in line else calls
            most = max(most, calls)
        assert f" budget={used} " in header and having(lines, "client read 16 16") and having(lines, "target write 16 16")
        assert most == used and having(relay.told, "budget") == warned(budget)
