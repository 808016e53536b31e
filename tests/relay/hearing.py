"""Who hears of what ends a relay: each of its threads, at once. Of 16 pollers one that nobody wakes waits for 1.6 seconds."""

import socket
import subprocess
import time

from loopback import WAIT, Relay, echo, start, target, until
from shared import answer_and_read, by_time, move_much, needs, served
from tracing import EPOLL_WAIT, halted

MANY = {"workers": 16, "slots": 1024}  # 16 pollers, too
SOON = 0.1  # seconds


def median(times):
    return sorted(times)[len(times) // 2]


def seconds_to_end(process):
    begun = time.monotonic()
    process.wait(WAIT)
    return time.monotonic() - begun


# refuses close_wakes_one_worker: of all workers that sleep one alone is woken once the queue of tickets is closed
# refuses fault_behind_the_eighth_is_unmarked: the fault of a thread with a number over 8 sets no mark, so no thread finds it
@needs("ptrace")
@by_time
def of_a_fault_whichever_thread_met_it():
    times = []
    for number in range(16):
        relay = Relay(target(echo), recorded=False, log="warn", **MANY)
        pollers = [relay.process.pid, *relay.named("poller", 15)]
        assert until(lambda: all(relay.system_call(poller) == str(EPOLL_WAIT) for poller in pollers))
        with halted(pollers[number]) as (poller,):
            poller.end_call()
        times.append(seconds_to_end(relay.process))
        assert relay.ended(1) == ["[ERROR relayd] poll: Bad file descriptor (os error 9)", "relayd: poll: failed"]
    assert len(pollers) == 16 and median(times) < SOON, times


# refuses fault_is_found_in_silence: a thread that finds a fault ends, and wakes nobody
@by_time
@needs("cc")
def of_a_thread_that_does_not_start():
    # Threads for 16 workers and 5 pollers, and none for the next. A tenth of a second passes before that is logged.
    begun = time.monotonic()
    assert Relay(preload={"MOST_THREADS": "22"}, recorded=False, **MANY).ended(1)[-1] == "relayd: threads: failed"
    assert time.monotonic() - begun < 0.1 + 3 * SOON


# refuses stop_wakes_the_first: a stop wakes the first poller alone, which may have opened all that it may
# refuses end_of_input_wakes_nobody: pollers find that standard input has ended when their waits do
@by_time
def of_the_end_of_standard_input():
    times = []
    for most in 5 * [0, 16]:  # each poller may open any number; or one, and the first has
        relay = Relay(target(echo), options=["--until-eof"], stdin=subprocess.PIPE, recorded=False, stop_after=most, **MANY)
        clients = served(relay, most - 1)
        time.sleep(0.2)
        relay.process.stdin.close()
        relay.process.stdin = None
        for client in clients:
            client.close()
        times.append(seconds_to_end(relay.process))
        relay.ended()
    assert max(median(times[::2]), median(times[1::2])) < SOON, times


# refuses unopened_share_stops_nobody: a poller that may open none passes on to nobody that no more may be opened
@by_time
def that_nothing_can_be_printed():
    # The first thread, which finds that out, polls for one of the four that may open none.
    words = [Relay.program, "forward", "127.0.0.1:0", "127.0.0.1:1", "--workers", "16", "--stop-after", "12"]
    times = []
    for _ in range(5):
        with open("/dev/full", "w") as full:
            begun = time.monotonic()
            relay = start(words, stdout=full, stderr=subprocess.PIPE)
        assert relay.communicate(timeout=WAIT)[1].endswith("relayd: output: cannot be written\n") and relay.returncode == 1
        times.append(time.monotonic() - begun)
    assert median(times) < 3 * SOON, times


# refuses no_wake_behind_the_last: nobody wakes a poller whose last connection a worker has ended
# refuses pollers_behind_the_eighth_are_not_woken: of 16 pollers, those after the eighth have the eighth's waker
@by_time
def of_the_last_connection():
    # One for each poller; or four of 16 may open none. A single poller that nobody wakes waits for 200 ms.
    for most, settings in (1, {"workers": 1, "slots": 64}), (16, MANY), (12, MANY):
        times = []
        for _ in range(7):
            relay = Relay(target(answer_and_read), recorded=False, stop_after=most, log="off", **settings)
            clients = served(relay, most)
            move_much(relay, *clients)
            for client in clients:
                client.shutdown(socket.SHUT_WR)
            times.append(seconds_to_end(relay.process))
        assert median(times) < SOON, times
