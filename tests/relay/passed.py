"""Relays that are started with a listening socket, as by systemd (sd_listen_fds(3))."""

import collections
import contextlib
import os
import socket
import subprocess
import sys
import tempfile
import threading

from draining import DRAIN
from loopback import PASS, WAIT, Relay, echo, in_thread, port_of, settings_file, start, target, until
from shared import ask_once, asked, connected, having, is_open, unused_port


@contextlib.contextmanager
def listening(host="127.0.0.1"):
    with socket.create_server((host, 0), backlog=4096) as made:
        yield made


def address_of(made):
    return "%s:%d" % made.getsockname()


# refuses passed_socket_is_not_used: a relay listens by itself although a socket is passed to it
def serves_on_the_socket_that_is_passed():
    with listening() as made:
        # `listen` says the same, or leaves the port to the system; at the settings' file and on the command line.
        for listen, typed in (address_of(made), False), (address_of(made), True), ("127.0.0.1:0", False):
            relay = Relay(target(echo), passed=made, listen=listen, typed=typed, stop_after=3)
            assert relay.port == port_of(made)
            for _ in range(3):
                ask_once(relay)
            relay.ended()
        # The relay is over, and nobody is refused: the next one serves who waits.
        with connected(port_of(made)) as waiting:
            waiting.sendall(b"?")
            relay = Relay(target(echo), passed=made, listen=address_of(made), stop_after=1)
            assert waiting.recv(1) == b"?"
        relay.ended()


# refuses listen_is_wanted_beside_a_socket: a settings file has to say where to listen although a socket is passed
def needs_no_word_of_where_to_listen():
    settings, refused = {"target": f"127.0.0.1:{target(echo)}", "stop_after": 1}, {"slots": 0}
    for extra in {}, refused:
        with listening() as made, settings_file(settings | extra) as path:
            words = [sys.executable, "-c", PASS, str(made.fileno()), Relay.program, "run", "--config", path]
            how = {"env": {**os.environ, "LISTEN_FDS": "1"}, "pass_fds": [made.fileno()]}
            process = start(words, stdout=subprocess.PIPE, stderr=subprocess.PIPE, **how)
            assert process.stdout.readline() == ("" if extra else f"listening {address_of(made)}\n")
            if not extra:
                with connected(port_of(made)) as client:
                    assert asked(client)
            _, log = process.communicate(timeout=WAIT)
            assert process.returncode == bool(extra) and (": line 3: " in log) == bool(extra), log


# refuses passed_socket_stays_open: a relay that accepts no more clients keeps the passed socket open
def gives_the_passed_socket_up():
    with listening() as made:
        relay = Relay(target(echo), passed=made, listen=address_of(made), stop_after=1)
        with relay.connect() as client:
            assert asked(client)
            made.close()
            # It was the last that had the socket.
            assert until(lambda: not is_open(relay.port)) and asked(client)
        relay.ended()


# refuses sockets_of_others_are_taken: a relay takes descriptor 3 although another process is meant
def leaves_what_is_not_for_it():
    with listening() as made:
        for process in "1", "", "no number":
            relay = Relay(target(echo), passed=made, variables={"LISTEN_PID": process}, stop_after=1)
            assert relay.port != port_of(made)
            ask_once(relay)
            relay.ended()


# refuses passed_socket_is_not_looked_at: a relay begins with a passed socket on which no client can come
def says_what_is_wrong_with_what_is_passed():
    fault, tcp = "relayd: listen: failed", "a TCP socket is wanted"
    silent, six = "is a socket that does not listen", "is a socket over IPv6; write ListenStream=0.0.0.0:PORT"
    with contextlib.ExitStack() as stack, listening() as made:
        new = lambda *words: stack.enter_context(socket.socket(*words))
        bound, datagrams, local = new(), new(socket.AF_INET, socket.SOCK_DGRAM), new(socket.AF_UNIX)
        bound.bind(("127.0.0.1", 0))
        client = stack.enter_context(connected(port_of(made)))
        cases = [
            (bound, silent), (client, silent), (new(), silent),
            *[(other, f"Operation not supported (os error 95); {tcp}") for other in (datagrams, local)],
            (stack.enter_context(tempfile.TemporaryFile()), f"Socket operation on non-socket (os error 88); {tcp}"),
        ]
        with contextlib.suppress(OSError):
            cases.append((stack.enter_context(socket.create_server(("::1", 0), family=socket.AF_INET6)), six))
        for passed, why in cases:
            assert Relay(1, passed=passed).ended(1) == [f"[ERROR relayd] listen: descriptor 3: {why}", fault]
        own = "export LISTEN_PID=$$ LISTEN_FDS=1; exec \"$@\""
        closed = Relay(1, under=["sh", "-c", own, "sh"]).ended(1)
        assert closed == [f"[ERROR relayd] listen: descriptor 3: Bad file descriptor (os error 9); {tcp}", fault]
        for count in "2", "0", "x", "01":
            wrong = Relay(1, passed=made, variables={"LISTEN_FDS": count}).ended(1)
            assert wrong == [f"[ERROR relayd] listen: LISTEN_FDS is {count}, and 1 is wanted", fault]
        for listen in f"127.0.0.1:{unused_port()}", f"127.0.0.2:{port_of(made)}", "0.0.0.0:0":
            wrong = Relay(1, passed=made, listen=listen).ended(1)
            assert wrong == [f"[ERROR relayd] listen: {listen}: the socket that was passed listens at {address_of(made)}", fault]


# refuses drain_keeps_the_passed_socket: the socket that is passed to relayd-drain is not the relay's
def relayd_drain_hands_it_on():
    with listening() as made:
        words = [sys.executable, "-c", PASS, str(made.fileno()), DRAIN, "forward", address_of(made), f"127.0.0.1:{target(echo)}"]
        variables = {**os.environ, "LISTEN_FDS": "1", "RELAYD": Relay.program}
        process = start(words, env=variables, pass_fds=[made.fileno()], stdout=subprocess.PIPE, stderr=subprocess.DEVNULL)
        assert process.stdout.readline() == f"listening {address_of(made)}\n"
        port = port_of(made)
        with connected(port) as client:
            assert asked(client)
            process.terminate()
            made.close()
            # Nobody else has it then.
            assert until(lambda: not is_open(port)) and asked(client)
        assert process.wait(WAIT) == 0


# refuses passed_socket_is_dropped: a client that comes while one relay takes the place of another is refused
def refuses_nobody_while_relays_follow_each_other():
    # Ten times, beside clients that come one after the other, and clients that stay.
    counts, is_over = collections.Counter(), threading.Event()

    def come_and_go():
        while not is_over.is_set():
            with connected(port_of(made)) as client:
                assert asked(client, b"?" * 100)
            counts["answered"] += 1

    def stay():
        with connected(port_of(made)) as client:
            while not is_over.wait(0.01):
                assert asked(client, b"!" * 100)

    with listening() as made, contextlib.ExitStack() as stack:

        def begin():
            ends = os.pipe()
            relay = Relay(port, passed=made, listen=address_of(made), options=["--until-eof"], stdin=ends[0])
            os.close(ends[0])
            return relay, stack.enter_context(open(ends[1], "wb"))

        port = target(echo)
        relays = [begin()]
        load = [in_thread(work) for work in [come_and_go] * 4 + [stay] * 50]
        for _ in range(10):
            assert until(lambda: counts["answered"] > 450 * len(relays))
            relays.append(begin())
            relays[-2][1].close()
        assert until(lambda: counts["answered"] > 5_000)
        is_over.set()
        assert not any(each.result(WAIT) for each in load)
        relays[-1][1].close()
        logs = [relay.ended() for relay, _ in relays]
    assert not any(having(lines, word) for lines in logs for word in ("] fail ", "] drop "))
    assert sum(len(having(lines, "] done ")) for lines in logs) == counts["answered"] + 50
