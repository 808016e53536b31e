"""What a request costs a relay: counts, which do not depend on how busy the machine is."""

import collections
import functools
import re
import tempfile

from loopback import Relay, beside_polls, echo, made, target
from shared import ask_once, asked, needs, served

# The system calls of a request and its answer over a connection that is alone. A message is reported, read and written, and
# its side is read once more, which would block; the wire of the other side knows that a read there would.
CALLS = {"epoll_wait": 2, "recvfrom": 4, "sendto": 2}
# Those of a connection that comes, has one answer, and goes. How often it reads and waits depends on what comes together.
CALLS_OF_ONE = {"accept4": 2, "ioctl": 1, "socket": 1, "connect": 1, "epoll_ctl": 2, "setsockopt": 2, "sendto": 2, "shutdown": 2}
CALLS_OF_ONE |= {"close": 2, "epoll_wait": 10, "recvfrom": 20}
# The instructions of such a request outside the system, as callgrind of valgrind(1) counts them: 3,970, with 3 % of room.
INSTRUCTIONS = 4_100


def ask(client, many):
    assert all([asked(client) for _ in range(many)])


def makes(relay, calls, many, work):
    """Whether a relay makes so many calls of each name for each of many things that are done, and no others."""
    lines = beside_polls(made([relay], work=work)[relay])
    found = collections.Counter(re.search(r"(\w+)(?:\(| resumed>)", line)[1] for line in lines)
    # The tracer itself ends a few calls.
    assert all(found[name] <= calls.get(name, 0) * many + 20 for name in found), found


# refuses turn_reads_once_more: a turn makes a read of no bytes before each read that the pair asks for
# refuses polls_twice: a round asks twice for reports, and delivers those of the second time alone
@needs("strace")
def a_request_makes_no_more_calls_than_is_documented():
    relay = Relay(target(echo), slots=8, workers=1, recorded=False)
    (client,) = served(relay, 1)
    ask(client, 20)
    makes(relay, CALLS, 200, functools.partial(ask, client, 200))


# refuses opens_twice: a target is connected to twice
# refuses poller_wakes_itself: a poller's own turn wakes the poller for each connection that it ends
@needs("strace")
def a_connection_makes_no_more_calls_than_it_needs():
    relay = Relay(target(echo), slots=8, workers=1, recorded=False, log="off")
    ask_once(relay)
    makes(relay, CALLS_OF_ONE, 100, lambda: [ask_once(relay) for _ in range(100)])


@needs("valgrind")
def a_request_takes_no_more_instructions_than_is_documented():
    totals, few, many = {}, 500, 1500
    for requests in few, many:
        with tempfile.NamedTemporaryFile("r") as file:
            under = ["valgrind", "-q", "--tool=callgrind", f"--callgrind-out-file={file.name}"]
            relay = Relay(target(echo), under=under, slots=8, workers=1, recorded=False)
            (client,) = served(relay, 1)
            ask(client, requests)
            relay.end()
            totals[requests] = int(re.search(r"^totals: (\d+)", file.read(), re.M)[1])
    found = (totals[many] - totals[few]) / (many - few)
    assert found <= INSTRUCTIONS, found
