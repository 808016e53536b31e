"""What a relay records, beside the comparison that is made of each check."""

import contextlib
import os
import pathlib
import re
import subprocess
import tempfile
import threading
import time

from loopback import WAIT, Relay, echo, in_thread, read_all, replay, send_and_shut, target, until
from shared import LONGEST, ask_once, asked, at_once, by_time, having, line_of, needs, numbers_in, reset
from tracing import halted

FULL = "[WARN  relayd] record: records came faster than they were written, so "


# refuses forward_overlooks_record: `forward` takes the option for a recording, and records nothing
# refuses records_wait_for_nobody: where a file cannot be written records wait on, and none counts as lost
def serves_on_where_nothing_can_be_recorded():
    # A disk that is full ends the recording, and not the relay. From then on records are lost.
    relay = Relay(target(echo), options=["--record", "/dev/full", "--stats", "86400"], typed=True, log="warn", stop_after=1)
    why = "No space left on device (os error 28), so the recording ends here"
    assert relay.process.stderr.readline() == f"[WARN  relayd] record: {why}\n"
    ask_once(relay)
    (counted,) = relay.ended()
    assert numbers_in(counted)["lost"] > 0


# refuses recorder_swallows_reports: no report reaches a relay that records
# refuses recorder_calls_twice: a relay that records reads twice, and passes on what the second read gave
# refuses reports_not_recorded: a recording has how many reports came, and not which
# refuses blocked_as_moved: a read that would block is recorded as one of no byte
# refuses header_without_proxy: a recording says that targets get no line, although they do
# refuses header_counts_workers_as_pollers: a recording says that as many threads poll as there are workers
@needs("recording")
def records_what_it_did():
    # Two of these end well, and one by a reset.
    relay = Relay(slots=130, workers=3, ring=1000, idle=30, stop_after=3, proxy=True)
    pairs = [relay.pair() for _ in range(3)]
    lines = [line_of(client) for client, _ in pairs]
    for (client, end), line in zip(pairs[:2], lines):
        send_and_shut(client, b"a" * 2000)
        assert read_all(end) == line + b"a" * 2000
        send_and_shut(end, b"z" * 3000)
        assert read_all(client) == b"z" * 3000
    assert pairs[2][1].recv(100) == lines[2]
    reset(pairs[2][0])
    relay.ended()
    with open(relay.record) as file:
        assert file.readline() == "relayd recording 1 slots=130 pollers=2 workers=3 ring=1000 budget=64 idle=30 proxy=yes\n"
    sent = 4000 + sum(map(len, lines))
    assert f"\nread client=4000 target=6000 written client=6000 target={sent}" in replay(relay.record)


# refuses record_empties_a_file: a file that is there is emptied to record into it
def keeps_what_was_there():
    # A recording gets the first free name after its own, an empty file is used, and any other is left as it is.
    with tempfile.TemporaryDirectory() as folder:
        path = pathlib.Path(folder, "relay.record")
        path.touch()
        texts, told = [], []
        for _ in range(3):
            relay = Relay(target(echo), options=("--record", str(path)), stop_after=1)
            relay.connect().close()
            told.append([line.replace(folder, "") for line in having(relay.ended(), "record: ")])
            texts.append(path.read_text())
        assert told == [[], *([f"[INFO  relayd] record: /relay.record: was there, and is /relay.record.{n} now"] for n in (1, 2))]
        assert [pathlib.Path(f"{path}.{n}").read_text() for n in (1, 2)] == texts[:2] and len(os.listdir(folder)) == 3
        for text in "relayd recording", "relayd recordings are kept here", "listen = 1\n", "\0" * 100_000:
            path.write_text(text)
            fault = [f"[ERROR relayd] record: {path}: is there, and is no recording", "relayd: record: cannot be created"]
            assert Relay(1, options=("--record", str(path)), log="off").ended(1) == fault and path.read_text() == text
        assert len(os.listdir(folder)) == 3


# refuses two_relays_record_into_one_file: a relay records into the file into which another one does
# refuses one_file_by_two_names: a file of a recording is told by its name alone
def shares_its_file_with_nobody():
    # Not by another name, either; and of many that begin at once one records.
    with tempfile.TemporaryDirectory() as folder:
        path = pathlib.Path(folder, "relay.record")
        how = {"options": ["--record", str(path)], "stop_after": 1}
        begun = [in_thread(lambda: Relay(target(echo), **how)) for _ in range(8)]
        relays = [each.result(WAIT) for each in begun]
        (relay,) = [each for each in relays if each.port]
        for each in relays:
            assert each is relay or each.ended(1)[-1] == "relayd: record: cannot be created"
        other = pathlib.Path(folder, "other")
        other.symlink_to(path)
        os.link(path, f"{folder}/another.old")
        for options in [path], [other], [f"{folder}/another.old"], [f"{folder}/another", "--record-size", "65536"]:
            fault = having(Relay(1, options=["--record", *map(str, options)]).ended(1), "record: ")
            assert fault[0].endswith(": another relay records into it (it is locked): each needs a FILE of its own")
        for name in other, f"{folder}/another.old":
            fault = having(Relay(1, options=["--record", str(path), "--stats-file", str(name)]).ended(1), "stats-file: ")
            assert fault[0].endswith(": is a file of --record")
        ask_once(relay)
        relay.ended()
        assert "is a run" in replay(path) and not os.path.exists(f"{path}.1")


# refuses ten_recordings_are_kept: no recording is kept under a number over 10
def keeps_9999_recordings():
    # The last name is free, and then none.
    with tempfile.TemporaryDirectory() as folder:
        path = pathlib.Path(folder, "relay.record")
        path.write_text("relayd recording 1\n")
        for number in range(1, 9999):
            pathlib.Path(f"{path}.{number}").touch()
        how = {"options": ["--record", str(path), "--until-eof"], "stdin": subprocess.DEVNULL}
        kept = f"[INFO  relayd] record: {path}: was there, and is {path}.9999 now"
        assert having(Relay(1, **how).ended(), "record: ") == [kept]
        fault = [f"[ERROR relayd] record: {path}: entity already exists", "relayd: record: cannot be created"]
        assert Relay(1, **how).ended(1) == fault


# refuses parts_grow_by_a_half: a part gets more bytes than it may have
# refuses part_begins_in_a_line: a part begins in the middle of a line
# refuses old_part_stays: the part before the last is not replaced
def keeps_the_end_of_what_it_did_in_two_parts():
    with tempfile.TemporaryDirectory() as folder:
        old, last = names = [f"{folder}/relay.record.old", f"{folder}/relay.record"]
        for name in names:
            pathlib.Path(name).write_text(f"relayd recording 1: {name}")
        relay = Relay(target(echo), options=("--record", last, "--record-size", "65536"), stop_after=1000, slots=8, idle=60)
        are_over, most = threading.Event(), [0]

        def look():
            while not are_over.is_set():
                with contextlib.suppress(FileNotFoundError):
                    most.append(max(map(os.path.getsize, names)))

        looking = in_thread(look)
        at_once(*[lambda: [ask_once(relay) for _ in range(250)]] * 4)
        relay.ended()
        are_over.set()
        assert not looking.result(WAIT) and 30_000 < max(most) <= 32_768
        assert sorted(os.listdir(folder)) == ["relay.record", "relay.record.1", "relay.record.2", "relay.record.old"]
        assert [pathlib.Path(f"{last}.{n}").read_text() for n in (1, 2)] == [f"relayd recording 1: {name}" for name in names]
        parts = [pathlib.Path(name).read_text() for name in names]
        headers = [re.fullmatch(r"relayd recording 1 slots=8 .* from=(\d+)", part.partition("\n")[0]) for part in parts]
        greatest = max(int(line.split()[1]) for line in parts[0].splitlines()[1:])
        assert int(headers[0][1]) < int(headers[1][1]) == greatest and parts[1].endswith(" end\n") and len(parts[0]) > 32_000
        both = pathlib.Path(folder, "both")
        both.write_text("".join(parts))
        known = set()
        for path in (*names, both):
            assert f"begins after count {headers[path == last][1]}: " in replay(path)
            ends = [line.split(" opened_us=")[0] for line in replay(path, "--ends").splitlines()[1:]]
            # Each is printed as the log has it; one that the older part has the end of not is open. The last part may have begun
            # after the last connection.
            logged = {line.partition("] ")[2] for line in relay.told}
            assert (ends or path == last) and all(line in logged or path == old and line.startswith("live ") for line in ends)
            known.add(len(ends))
        assert max(known) == len(replay(both, "--ends").splitlines()) - 1


# refuses gap_ends_the_recording: a recording of a bounded size ends where records are lost
# refuses gap_is_not_written: where records are lost, no `full` is written
# refuses lost_records_are_not_counted: the statistics do not say how many records a recording lacks
@needs("ptrace")
def goes_on_behind_a_gap():
    with tempfile.TemporaryDirectory() as folder:
        path = pathlib.Path(folder, "relay.record")
        options = "--record", path, "--record-size", "100000000", "--stats", "86400"
        relay = Relay(target(echo), options=options, log="warn", slots=64, stop_after=14)
        early = [relay.connect() for _ in range(4)]
        assert all(map(asked, early))
        with halted(*relay.named("record")):
            is_over = threading.Event()

            def ask(client):
                while not is_over.is_set():
                    assert asked(client)

            asking = [in_thread(ask, client) for client in early]
            assert relay.process.stderr.readline() == f"{FULL}some are lost, and another part begins\n"
            is_over.set()
            assert not any(each.result(LONGEST) for each in asking)
            # It is opened in the gap.
            early.append(relay.connect())
            assert asked(early[-1])
        assert until(lambda: asked(early[0]) and os.path.exists(f"{path}.old"))
        for _ in range(9):
            ask_once(relay)
        for client in early:
            client.close()
        (counted,) = relay.ended()
        assert numbers_in(counted)["lost"] > 0 and len(os.listdir(folder)) == 2
        texts = [pathlib.Path(f"{path}{end}").read_text() for end in (".old", "")]
        last, first = texts[0].splitlines()[-1].split(), texts[1].partition("\n")[0]
        assert last[2] == "full" and first.endswith(f" from={last[1]}") and texts[1].endswith(" end\n")
        assert replay(f"{path}.old").startswith("4 connections, ")
        told = replay(path)
        assert told.startswith("9 connections, ") and ", of 5 connections, " in told
        assert f"\nbegins after count {last[1]}: " in told
        assert len(replay(path, "--ends").splitlines()) == 10


# refuses lost_file_ends_the_relay: a relay that can begin no part ends
# refuses other_file_is_replaced: where a part begins, another file that has its name by then is replaced
def serves_on_where_no_part_can_be_begun():
    with tempfile.TemporaryDirectory() as folder:
        os.mkdir(f"{folder}/a")
        options = ("--record", f"{folder}/a/relay.record", "--record-size", "65536")
        relay = Relay(target(echo), options=options, stop_after=100, log="warn")
        os.rename(f"{folder}/a", f"{folder}/b")
        for _ in range(100):
            ask_once(relay)
        assert relay.ended() == ["[WARN  relayd] record: No such file or directory (os error 2), so the recording ends here"]
        assert os.path.getsize(f"{folder}/b/relay.record") <= 32_768 and "is a run" in replay(f"{folder}/b/relay.record")
        relay = Relay(target(echo), options=("--record", f"{folder}/y", "--record-size", "65536"), stop_after=100, log="warn")
        other = pathlib.Path(folder, "y.old")
        other.write_text("?")
        for _ in range(100):
            ask_once(relay)
        what = "another file has the name of one of its parts, so the recording ends here"
        assert relay.ended() == [f"[WARN  relayd] record: {what}"] and other.read_text() == "?"
        for path, what in ("/dev/null", "is there, and is no file"), (f"{folder}/x", "is there, and is no recording"):
            pathlib.Path(folder, "x.old").write_text("?")
            fault = having(Relay(1, options=("--record", path, "--record-size", "65536")).ended(1), "record: ")
            assert fault[0].endswith(what) and pathlib.Path(folder, "x.old").read_text() == "?" and os.path.exists("/dev/null")


# refuses records_wait_half_a_second: records are written once in half a second
# refuses part_is_written_once_it_is_full: of a recording in parts nothing is written before a part is full
@by_time
@needs("recording")
def has_recorded_what_it_did_when_it_is_killed():
    # But for the last five milliseconds. Now and then a machine under load takes longer. Half of these record in parts.
    whole = [0, 0]
    for number in range(10):
        relay = Relay(target(echo), options=["--record-size", "4294967295"] * (number % 2))
        assert until(lambda: os.path.getsize(relay.record) > 100)
        with relay.connect() as client:
            for _ in range(100):
                assert asked(client)
            time.sleep(0.05)
            relay.process.kill()
        relay.process.wait(WAIT)
        whole[number % 2] += pathlib.Path(relay.record).read_text().count("client write 1 1\n") == 100
    assert min(whole) >= 3


# refuses full_is_not_told: a recording that lacks records ends as a whole one
def stops_recording_when_nobody_reads_it():
    # Nobody reads the pipe until a queue of records is full.
    is_over = threading.Event()

    def ask():
        with relay.connect() as client:
            while not is_over.is_set():
                assert asked(client)

    with tempfile.TemporaryDirectory() as folder:
        path = os.path.join(folder, "record")
        os.mkfifo(path)
        reader = os.open(path, os.O_RDONLY | os.O_NONBLOCK)
        relay = Relay(target(echo), options=("--record", path), log="warn", stop_after=8)
        asking = [in_thread(ask) for _ in range(8)]
        assert relay.process.stderr.readline() == f"{FULL}the recording ends here\n"
        os.set_blocking(reader, True)
        with open(reader) as file:
            text = file.read()
        is_over.set()
        assert not any(each.result(LONGEST) for each in asking)
    assert relay.ended() == [] and text.endswith(" full\n") and text.count("\n") > 131_072
