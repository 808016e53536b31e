"""All options at once."""

import functools
import pathlib
import socket
import subprocess
import tempfile
import time

from loopback import WAIT, Relay, fill_backlog, port_of, read_all, send_and_shut, unheard, until
from monitoring import as_line, read
from shared import at_once, by_time, having, is_closed_soon, is_open, line_of, name_of, numbers_in, reset, waits_of


def has_all_options(is_typed):
    """A relay with all options, on the command line and recorded or from a file and not, does what each says."""
    most, seconds = (4, 1) if is_typed else (0, 2)
    options = ["--log-clients", "--stats", str(seconds), "--until-eof", "--connect-timeout", "1", "--keepalive", "7"]
    file = tempfile.NamedTemporaryFile(suffix=".prom")
    options += ["--stats-file", file.name]
    settings = {"ring": 100, "budget": 5, "workers": 2, "slots": 128, "idle": 4, "proxy": True, "stop_after": most}
    listener, pairs, started = unheard(), [], time.monotonic()
    listener.listen(0)
    relay = Relay(port_of(listener), options=options, typed=is_typed, recorded=is_typed, stdin=subprocess.PIPE, **settings)
    begun = time.monotonic()
    # Beside two pollers and two workers there are those of the log, the counts, standard input and the recording.
    names = ["log", "poller", "stats", "stdin", "worker", "worker"] + ["record"] * bool(relay.record)
    assert relay.status("Threads") == len(names) + 1 and until(lambda: relay.names_of_threads() == sorted(names))
    for _ in range(3):
        client, end = relay.connect(), listener.accept()[0]
        pairs.append((client, end, line_of(client)))
        assert end.recv(len(pairs[-1][2]), socket.MSG_WAITALL) == pairs[-1][2]
        if len(pairs) == 1:
            client.sendall(b"one")
            assert end.recv(3) == b"one" and waits_of(relay) in ({}, dict.fromkeys(["client", "target"], [1, 0, 7, 1, 5]))
            send_and_shut(end, b"three")
            client.shutdown(socket.SHUT_WR)
            assert read_all(client) == b"three"
        elif len(pairs) == 2:
            reset(client)
    # The third is silent, and the target answers no fourth. No more are accepted then.
    _fillers, last = fill_backlog(listener), relay.connect()
    names = [name_of(client) for client in (pairs[0][0], pairs[2][0], last)]
    assert is_closed_soon(last)
    if not is_typed:
        relay.process.stdin.close()
        relay.process.stdin = None
        time.sleep(1)
    assert not is_open(relay.port) and is_closed_soon(pairs[2][0], 9) and relay.process.wait(WAIT) == 0
    ended, lines, sent = time.monotonic(), relay.ended(), [len(line) for _, _, line in pairs]
    assert having(lines, "] input: ") == [] if is_typed else len(having(lines, "] input: has ended")) == 1
    counts = [numbers_in(line) for line in having(lines, "[INFO  relayd] stats ")]
    wanted = {"open": 0, "slots": 128, "opened": 4, "done": 1, "failed": 3, "dropped": 0, "client": 1, "target": 1, "refused": 0}
    assert counts[-1] == wanted | {"reset": 1, "timedout": 1, "idle": 1, "up": sum(sent) + 3, "down": 5, "waited": 0, "lost": 0}
    assert (ended - begun) / seconds - 1.5 <= len(counts) - 1 <= (ended - started) / seconds + 1.5, (len(counts), ended - begun)
    assert as_line(read(file.name)) == counts[-1]
    assert len(having(lines, "[INFO  relayd] peer ")) == len(having(lines, "[INFO  relayd] gone ")) == 4
    for name, cause in zip(names, ("cause=done", "cause=idle", "cause=Connection timed out (os error 110)")):
        assert having(lines, "] peer ", name) and having(lines, "] gone ", name, cause)
    if relay.record:
        header = pathlib.Path(relay.record).read_text().partition("\n")[0]
        assert header == "relayd recording 1 slots=128 pollers=2 workers=2 ring=100 budget=5 idle=4 proxy=yes"


# refuses statistics_without_logged_clients: with --log-clients nothing is counted
# refuses logged_clients_without_statistics: with --stats clients are not logged at level info
@by_time
def does_all_that_its_options_say_at_once():
    at_once(*[functools.partial(has_all_options, is_typed) for is_typed in (True, False)])
