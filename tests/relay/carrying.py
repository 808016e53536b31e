"""What is carried: each byte, each end, and the line with the client's address."""

import collections
import os
import pathlib
import re
import shutil
import socket
import subprocess
import tempfile
import time

from loopback import WAIT, Relay, echo, in_thread, read_all, send_and_shut, start, target, until
from shared import by_time, connected, is_open, left_out, line_of, name_of, needs, reset, served, unused_port


# refuses bit_down_after_a_short_read: a wire stops reading after a short read
# refuses expires_without_limit: a connection without a next call fails, although there is no limit
# refuses counts_swapped: the counts of the two ways are exchanged
# refuses take_out_always_none: a place gives nothing back
# refuses put_in_always_occupied: a connection is given back although its place is empty
# refuses names_exchanged: the names of a connection's two sockets are exchanged
def either_end_may_end_first():
    for first, moved in (0, "up=200000 down=100"), (1, "up=100 down=200000"):
        relay = Relay()
        ends = relay.pair()
        one, other = ends[first], ends[1 - first]
        send_and_shut(one, bytes(200_000))
        assert read_all(other) == bytes(200_000)
        for _ in range(20):
            other.sendall(b"more,")
            time.sleep(0.02)
        other.close()
        assert read_all(one) == b"more," * 20 and relay.end()[-1].endswith(moved)


# refuses reset_told_as_end: a read that finds the connection reset gives the end of input
# refuses told_is_not_heard: a wire that does not read ignores the report that reaches it
# refuses second_error_dropped: a read that was short reads once more, and drops the error that it finds
def client_resets_behind_bytes():
    relay = Relay(target(echo))
    (client,) = served(relay, 1)
    with relay.stopped():
        client.sendall(b"z" * 1000)
        reset(client)
    assert relay.end()[-1].endswith("side=client call=read kind=reset")


# refuses failed_shutdown_told_as_made: a shutdown that fails is returned as made
def target_resets_behind_its_end():
    relay = Relay()
    client, end = relay.pair()
    client.sendall(b"?")
    assert end.recv(1) == b"?"
    send_and_shut(end, b"!")
    assert read_all(client) == b"!"
    reset(end)
    client.close()
    assert relay.end()[-1].endswith("side=target call=shut kind=notconnected")


# refuses long_offer_told_as_whole: of an offer over 16,384 bytes only these are written, and all of it is counted
# refuses short_write_told_as_whole: a short write is told as a whole one
# refuses whole_ring_told_as_none: a write of 65,536 bytes is returned as one of none
def both_sides_stall():
    # All bytes arrive both ways, although neither end reads at first.
    for settings in {}, {"ring": 65536}, {"budget": 1, "workers": 2}, {"budget": 1024, "workers": 2}:
        up, down = os.urandom(12_000_000), os.urandom(12_000_000)
        relay = Relay(**settings)
        client, end = relay.pair()
        sending = [in_thread(send_and_shut, client, up), in_thread(send_and_shut, end, down)]
        time.sleep(0.7)
        reading = in_thread(read_all, end)
        assert read_all(client) == down and reading.result(WAIT) == up
        assert not any(sent.result(WAIT) for sent in sending)
        assert relay.end()[-1].endswith("up=12000000 down=12000000")


# refuses blocked_read_goes_on: a wire goes on reading after a read that would block
# refuses option_unasked: a socket gets an option of `--connect-timeout` or `--keepalive` that nobody asked for
# refuses wires_are_not_told: no wire is told of its socket's reports, so each reads where there is nothing to read
def traced(calls, times, many=1):
    """What strace(1) writes of these calls of a relay whose clients, this many, ask at once, this often."""
    with tempfile.NamedTemporaryFile("r") as file:
        words = ["strace", "-f", "-e", f"trace={calls}", "-o", file.name, Relay.program, "forward", "127.0.0.1:0"]
        words += [f"127.0.0.1:{target(echo)}", "--workers", "1", "--slots", f"{many}", "--stop-after", f"{many}"]
        relay = start(words, stdout=subprocess.PIPE, stderr=subprocess.DEVNULL)
        port = int(relay.stdout.readline().rpartition(":")[2])
        clients = [connected(port) for _ in range(many)]
        for _ in range(times):
            for client in clients:
                client.sendall(b"?")
            assert all([client.recv(1) == b"?" for client in clients])
        for client in clients:
            client.close()
        assert relay.wait(WAIT) == 0
        return file.read()


# refuses busy_poller_keeps_on: a poller that finds several reports each time lets no other thread run
# refuses few_reports_are_forgotten: polls of few reports do not count against those of several
@by_time
@needs("strace")
def lets_others_run_under_load():
    for many, times in (1, 200), (32, 200):
        calls = traced("epoll_wait,sched_yield", times, many)
        busy = lets = 0
        for reports in re.findall(r"epoll_wait.* = (\d+)", calls):
            lets, busy = (lets + 1, 0) if busy == 14 else (lets, busy)
            busy = busy + 1 if int(reports) >= 4 else max(busy - 1, 0)
        assert (lets > 4) == (many > 1) and abs(calls.count("sched_yield(") - lets) <= 1


# refuses listener_stays_registered: a front that stops listening leaves the listening socket in its epoll(7)
@needs("strace")
def makes_no_call_that_nobody_asked_for():
    # From its only accept(2) on. How often it writes and waits is left out.
    _, accepted, after = re.split(r"(accept4.* = \d+\n)", traced("%network,epoll_ctl", 3))
    made = collections.Counter(re.findall(r"^\d+ +(\w+)\(", after, re.M))
    wanted = {"socket": 1, "connect": 1, "epoll_ctl": 3, "setsockopt": 2, "shutdown": 2}
    assert after.count("EAGAIN") <= 10, after  # one for each of the six times that bytes come
    assert {name: made[name] for name in made.keys() - {"recvfrom", "sendto"}} == wanted, accepted


# refuses client_never_sends_at_once: a client's socket is never told to send at once
@by_time
def sends_small_parts_at_once():
    # A socket that waits for more would hold the second byte back until the first is acknowledged, which takes its peer 40 ms
    # here. A machine under load may take as long for most of them.
    for first in 0, 1:
        ends = Relay().pair()
        sender, receiver = ends[first], ends[1 - first]
        sender.setsockopt(socket.IPPROTO_TCP, socket.TCP_NODELAY, 1)
        receiver.setsockopt(socket.IPPROTO_TCP, socket.TCP_QUICKACK, 0)
        times = []
        for _ in range(25):
            start = time.monotonic()
            for byte in (b"a", b"b"):
                sender.sendall(byte)
                time.sleep(0.002)
            assert receiver.recv(1) + receiver.recv(1) == b"ab"
            times.append(time.monotonic() - start)
            receiver.sendall(b"!")
            assert sender.recv(1) == b"!"
        assert sorted(times)[5] < 0.03


def sends_a_line_first():
    # With rings that are smaller than the line; a client without bytes; and other addresses: the accepted one is not that which
    # is listened on.
    data = os.urandom(12_000_000)
    for sent, settings, addresses in (
        (data, {}, {}),
        (data[:500], {"ring": 1, "budget": 1}, {}),
        (b"", {}, {}),
        (b"hello", {"listen": "127.0.0.2:0"}, {"own": "127.0.0.45", "to": "127.0.0.2"}),
        (b"hello", {"listen": "0.0.0.0:0"}, {"own": "127.0.0.4", "to": "127.0.0.4"}),
    ):
        relay = Relay(proxy=True, **settings)
        client, end = relay.pair(**addresses)
        wanted = line_of(client) + sent
        sending = in_thread(send_and_shut, client, sent)
        # A relay has to wait with much that follows the line.
        time.sleep(0.3)
        assert read_all(end) == wanted and not sending.result(WAIT)
        sending = in_thread(send_and_shut, end, wanted)
        assert read_all(client) == wanted and not sending.result(WAIT)
        assert relay.end()[-1].endswith(f" up={len(wanted)} down={len(wanted)}")


# refuses accepted_address_is_kept: a poller asks only for the accepted address of its first client
def tells_each_target_its_own_client():
    # Five pollers; all clients come at once, each from its own address to its own.
    relay = Relay(proxy=True, listen="0.0.0.0:0", slots=320, workers=5)
    clients = [relay.connect(own=f"127.0.1.{number}", to=f"127.0.2.{number}") for number in range(1, 101)]
    lines = [line_of(client) for client in clients]
    for client, line in zip(clients, lines):
        send_and_shut(client, line)
    told = [read_all(relay.listener.accept()[0]) for _ in clients]
    assert sorted(told) == sorted(2 * line for line in lines)


# Servers that read the line, and answer and log what it says.
HAPROXY = """
defaults
    mode http
frontend here
    bind 127.0.0.1:PORT accept-proxy
    log stdout format raw local0
    log-format "%ci:%cp %fi:%fp"
    http-request return status 200 content-type text/plain lf-string "%[src]:%[src_port] %[dst]:%[dst_port]"
"""
NGINX = """
daemon off; master_process off;
pid FOLDER/pid; error_log FOLDER/errors;
events {}
http {
    log_format told '$proxy_protocol_addr:$proxy_protocol_port $proxy_protocol_server_addr:$proxy_protocol_server_port';
    access_log FOLDER/output told;
    client_body_temp_path FOLDER/body; proxy_temp_path FOLDER/proxy;
    fastcgi_temp_path FOLDER/fastcgi; uwsgi_temp_path FOLDER/uwsgi; scgi_temp_path FOLDER/scgi;
    server {
        listen 127.0.0.1:PORT proxy_protocol;
        return 200 "$proxy_protocol_addr:$proxy_protocol_port $proxy_protocol_server_addr:$proxy_protocol_server_port";
    }
}
"""
SERVERS = {"haproxy": ("-db -f FOLDER/settings", HAPROXY), "nginx": ("-p FOLDER -e FOLDER/errors -c FOLDER/settings", NGINX)}


def tells_known_servers_their_clients():
    for name, (words, text) in SERVERS.items():
        if not shutil.which(name):
            left_out(name)
            continue
        with tempfile.TemporaryDirectory() as folder:
            port = unused_port()
            pathlib.Path(folder, "settings").write_text(text.replace("FOLDER", folder).replace("PORT", str(port)))
            with open(f"{folder}/output", "w") as output:
                words = [name, *words.replace("FOLDER", folder).split()]
                server = start(words, stdin=subprocess.DEVNULL, stdout=output, stderr=output)
            assert until(lambda: is_open(port))
            relay = Relay(port, proxy=True, log="warn")
            with relay.connect() as client:
                wanted = f"{name_of(client)} 127.0.0.1:{relay.port}"
                client.sendall(b"GET / HTTP/1.1\r\nHost: here\r\nConnection: close\r\n\r\n")
                answer = read_all(client).decode()
            assert answer.startswith("HTTP/1.1 200 ") and answer.endswith(f"\r\n\r\n{wanted}") and relay.end() == []
            assert until(lambda: f"{wanted}\n" in pathlib.Path(folder, "output").read_text())
            server.terminate()
            server.wait(WAIT)
