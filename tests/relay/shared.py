"""What the checks of several topics use."""

import contextlib
import ctypes
import fcntl
import os
import re
import resource
import select
import socket
import struct
import termios

from loopback import WAIT, Relay, echo, in_thread, port_of, read_all, target, until

LONGEST = 300  # the longest that a check may take, in seconds: some take a minute and more on a busy machine
MUCH = 200_000  # bytes that take more calls than a poller's own turn has
OWN = "[WARN  relayd] target: the relay itself listens there, so a connection would go round without end"
PIDFD_GETFD = 438  # pidfd_getfd(2)
TCP_WAITS = [socket.TCP_USER_TIMEOUT, socket.TCP_KEEPIDLE, socket.TCP_KEEPINTVL, socket.TCP_KEEPCNT]
IDLE = "[WARN  relayd] fail s=0 g=1 idle"


def by_time(check):
    """Marks a check whose assertions are about time, which `run` may try again."""
    check.tries = 3
    return check


def needs(what):
    """Marks a check that `run` leaves out where this is not there: a command, leave to use ptrace(2), or a recording."""

    def mark(check):
        check.needs = what
        return check

    return mark


def few(served, limit, needed=2060):
    """The warning of too few descriptors."""
    most = f"at most {served} of 1024 connections are served at a time"
    return f"[WARN  relayd] slots: {most}, since the limit is {limit} descriptors and {needed} are needed (ulimit -n)"


def at_once(*works):
    """Does all of these at once, and waits for the last."""
    for result in [in_thread(work) for work in works]:
        result.result(LONGEST)


def asked(client, data=b"?"):
    """Whether a client reads what it sends."""
    client.sendall(data)
    return client.recv(len(data)) == data


def ask_once(relay, data=b"?"):
    """Has a client come that reads what it sends, and go."""
    with relay.connect() as client:
        assert asked(client, data)


def served(relay, many):
    """This many clients, each of which has had an answer."""
    clients = [relay.connect() for _ in range(many)]
    assert all([asked(client) for client in clients])
    return clients


def asking(relay, many):
    """This many clients, each of which has sent a byte."""
    clients = [relay.connect() for _ in range(many)]
    for client in clients:
        client.sendall(b"?")
    return clients


def send(clients):
    """Has each of these send a byte, and waits until all have arrived: a busy system passes them on in parts."""
    for client in clients:
        client.sendall(b"!")
    assert until(lambda: not any(any(fcntl.ioctl(client, termios.TIOCOUTQ, bytes(4))) for client in clients))


def connected(port):
    """A client at a port of this machine, for what is no `Relay`."""
    return socket.create_connection(("127.0.0.1", port), timeout=WAIT)


def reset(connection):
    connection.setsockopt(socket.SOL_SOCKET, socket.SO_LINGER, struct.pack("ii", 1, 0))
    connection.close()


def fill(connection):
    """Sends until nobody takes more."""
    connection.setsockopt(socket.SOL_SOCKET, socket.SO_SNDBUF, 1 << 15)
    connection.settimeout(1)
    with contextlib.suppress(socket.timeout, ConnectionError):
        while connection.send(bytes(1 << 15)):
            pass


def is_silent(client, seconds):
    """Whether a client gets nothing for this many seconds, not even an end."""
    waiting = select.poll()
    waiting.register(client, select.POLLIN)
    return not waiting.poll(1000 * seconds)


def answers_soon(client):
    """Whether a client that sent a byte before reads it within a second."""
    return not is_silent(client, 1) and client.recv(1) == b"?"


def is_closed_soon(client, seconds=3):
    """Whether a silent client is closed within this many seconds."""
    try:
        return not is_silent(client, seconds) and client.recv(1) == b""
    except ConnectionResetError:
        return True


def is_open(port):
    try:
        connected(port).close()
        return True
    except OSError:
        return False


def name_of(client):
    return "%s:%d" % client.getsockname()


def having(lines, *words):
    return [line for line in lines if all(word in line for word in words)]


def left_out(needed):
    print(f"no {needed}: not tried")


def unused_port():
    """A port at which a relay or another server may listen."""
    with socket.create_server(("127.0.0.1", 0)) as unused:
        return port_of(unused)


def answer_and_read(connection):
    """Answers the first byte, and then only reads."""
    connection.sendall(connection.recv(1))
    read_all(connection)
    connection.close()


def move_much(relay, *clients):
    """Has each connection move so much in one turn that the workers get its next turns, and that of its end."""
    with relay.stopped():
        for client in clients:
            client.sendall(bytes(MUCH))
    assert until(relay.sleeps)


def told(*options, **settings):
    """The log of a relay that serves one connection of three bytes."""
    relay = Relay(target(echo), options=options, stop_after=1, **settings)
    ask_once(relay, b"one")
    return relay.ended()


def numbers_in(line):
    return {name: int(number) for name, number in re.findall(r"(\w+)=(\d+)", line)}


def drops_in(lines):
    """How many clients were closed unopened, by these lines."""
    return sum(numbers_in(line).get("more", 1) for line in having(lines, "] drop"))


def leave_one_descriptor(relay):
    """Leaves one for a client, and none for its target."""
    # Four pollers have two each, beside the listener's, three streams and the recording's.
    assert until(lambda: len(relay.descriptors()) == 12 + bool(relay.record))
    relay.limit(resource.RLIMIT_NOFILE, max(relay.descriptors()) + 2)


def line_of(client):
    """The line that a target is sent first for a client that is connected."""
    (source, source_port), (dest, dest_port) = client.getsockname(), client.getpeername()
    return f"PROXY TCP4 {source} {dest} {source_port} {dest_port}\r\n".encode()


def waits_of(relay):
    """For how long the client's socket and the target's wait for their peers: SO_KEEPALIVE, and TCP_WAITS. Nothing if the
    sockets of another process can't be had."""
    process, found = os.pidfd_open(relay.process.pid), {}
    options = [(socket.SOL_SOCKET, socket.SO_KEEPALIVE), *((socket.IPPROTO_TCP, option) for option in TCP_WAITS)]
    for number in relay.descriptors():
        if os.readlink(f"/proc/{relay.process.pid}/fd/{number}").startswith("socket:"):
            copied = ctypes.CDLL(None).syscall(PIDFD_GETFD, process, number, 0)
            if copied < 0:
                break
            with socket.socket(fileno=copied) as copy:
                if not copy.getsockopt(socket.SOL_SOCKET, socket.SO_ACCEPTCONN):
                    side = "client" if copy.getsockname()[1] == relay.port else "target"
                    found[side] = [copy.getsockopt(*option) for option in options]
    os.close(process)
    return found
