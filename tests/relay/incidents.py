"""What a replay says of the connections of a relay that still runs, while they hang."""

import collections
import json
import re
import socket
import subprocess
import time

from loopback import TESTS, Relay, read_all, replay, unanswered, until
from shared import by_time, fill, needs

TIMES = r" opened_us=(\d+) connect_us=(\d+|-) first_us=(\d+|-),(\d+|-) silence_us=(\d+) moved_us=(\d+)"


def is_told(relay, *wanted):
    """Whether its recording comes to say this of its open connections, in the order of their slots."""

    def says():
        lines = replay(relay.record, "--ends").splitlines()
        return len(lines) == len(wanted) and all(re.fullmatch(it + TIMES, line) for it, line in zip(wanted, lines))

    return until(says)


def drawn(relay):
    """The names on each track of its trace, in order. Times do not fall along a track, a slice lies in the one around it, and
    each arrow leads from a slice to one that is not earlier. Times are tenths of a microsecond."""
    named, tracks, arrows = {}, collections.defaultdict(list), collections.defaultdict(list)
    words = [f"{TESTS}/../packaging/relayd-trace", relay.record]
    for event in json.loads(subprocess.run(words, check=True, stdout=subprocess.PIPE).stdout)["traceEvents"]:
        track = event["pid"], event.get("tid")
        if event["ph"] == "M":
            named[track] = event["args"]["name"]
        elif event["ph"] in ("X", "i"):
            tracks[track].append((event["ts"], round(event["ts"] + event.get("dur", 0), 1), event["name"]))
        else:
            arrows[event["id"]].append((event["ph"] + event.get("bp", ""), event["ts"], track))
    for slices in tracks.values():
        around = []
        for at, end, name in slices:
            while around and around[-1] <= at:
                around.pop()
            assert at <= end and not (around and around[-1] < end), name
            around.append(end)
        assert slices == sorted(slices, key=lambda it: it[0])
    for cause, effect in arrows.values():
        assert cause[0] == "s" and effect[0] == "fe" and cause[1] <= effect[1]
        assert all(any(at <= ts <= end for at, end, _ in tracks[track]) for _, ts, track in (cause, effect))
    # Each turn has an arrow from its track to its slot's.
    turns = sum(name.startswith("turn ") for slices in tracks.values() for *_, name in slices)
    assert sum(cause[2][0] == 2 and effect[2][0] == 3 for cause, effect in arrows.values()) == turns / 2 > 0
    return {named[track]: [name for *_, name in slices] for track, slices in tracks.items()}


# refuses waits_of_the_other_side: of two sides that may send, the one that sent last is waited for
@needs("recording")
def tells_whom_a_connection_waits_for():
    relay = Relay(slots=8)
    silent_target, unread, silent_client, half_closed = [relay.pair() for _ in range(4)]
    silent_target[0].sendall(b"?")
    fill(unread[1])
    half_closed[0].sendall(b"?")
    half_closed[0].shutdown(socket.SHUT_WR)
    assert read_all(half_closed[1]) == b"?" and silent_target[1].recv(1) == b"?"
    told = [
        r"live s=0 g=1 connected=yes up=1 down=0 ring=0,0 ended=-,- waits=target-sends",
        r"live s=1 g=1 connected=yes up=0 down=\d{5,} ring=0,16384 ended=-,- waits=client-takes",
        r"live s=2 g=1 connected=yes up=0 down=0 ring=0,0 ended=-,- waits=client-sends,target-sends",
        r"live s=3 g=1 connected=yes up=1 down=0 ring=0,0 ended=passed,- waits=target-sends",
    ]
    assert is_told(relay, *told), replay(relay.record, "--ends")
    for slot, line in enumerate(told):
        first, *_, before, last = replay(relay.record, "--timeline", f"{slot}.1").splitlines()
        assert f" open {slot}.1 ok ring=0,0 at_us=" in first and re.fullmatch(line + TIMES, last)
        assert re.search(" ring=[^ ]*", last)[0] + " at_us=" in before
    for slot, call in enumerate(("target read", "client write", "client read", "target read")):
        calls = [name for name in drawn(relay)[f"slot {slot}"] if name.startswith(call)]
        assert calls[-1].endswith(" blocked")
    # Each goes on: what was sent arrives, and nobody is waited for longer than needed.
    silent_target[1].sendall(b"!")
    assert silent_target[0].recv(1) == b"!"
    silent_client[0].sendall(b"?")
    told[0] = r"live s=0 g=1 connected=yes up=1 down=1 ring=0,0 ended=-,- waits=client-sends"
    told[2] = r"live s=2 g=1 connected=yes up=1 down=0 ring=0,0 ended=-,- waits=target-sends"
    assert is_told(relay, *told), replay(relay.record, "--ends")


@needs("recording")
def tells_that_a_target_does_not_answer():
    with unanswered() as port:
        relay = Relay(port, slots=8)
        with relay.connect() as client:
            client.sendall(b"?")
            assert is_told(relay, r"live s=0 g=1 connected=no up=0 down=0 ring=1,0 ended=-,- waits=target-answers")
            assert " connect_us=- first_us=" in replay(relay.record, "--ends")
            assert until(lambda: drawn(relay)["slot 0"][-1] == "target settle")


def times(relay):
    """The numbers of `TIMES` of the only connection."""
    return [int(number) for number in re.search(TIMES, replay(relay.record, "--ends")).groups()]


# refuses recorder_counts_milliseconds: times are recorded in another unit
@by_time
@needs("recording")
def tells_since_when():
    relay = Relay(slots=8)
    client, end = relay.pair()
    for wait, sends, hears in (0.2, client, end), (0.5, end, client), (0.1, client, end):
        time.sleep(wait)
        sends.sendall(b"?")
        assert hears.recv(1) == b"?"
    assert until(lambda: " up=2 down=1 " in replay(relay.record, "--ends"))
    opened, connected, up, down, silence, moved = times(relay)
    assert connected < 100_000 and 180_000 < up < 300_000 and 480_000 < down - up < 600_000
    assert 480_000 < silence < 600_000 and 780_000 < moved - opened < 1_000_000
