r"""Reads the rows of this folder: what each run of the program is given, and what it must give.

`transcripts` and `help` have runs, of which all output is compared to the byte. These are the lines of a run:

    == NAME             a run begins
    $ relayd WORDS      the command, as a shell reads it. After `<`, `>` and `2>`, in this order, stands where a stream goes:
                        a file, `closed`, `gone` (a pipe that nobody reads) or `terminal` (one where the input is typed,
                        and then Ctrl-D). Where there are several commands, each gives the same
    < TEXT              a line of standard input
    NAME: TEXT          a line of the file NAME, which lies where the program runs; so does the folder `examples`
    > TEXT              a line of standard output; in both ` | ` stands for a line feed
    ~ EVENTS            of a picture that `relayd-trace`, in place of `relayd`, has there, these events after those before, in
                        short: PROCESS.TRACK PHASE TIME NAME each, of an arrow its number, of a slice TIME+LENGTH
    ! TEXT              a line of standard error
    settings KEY=VALUE  standard output is every setting, and these differ from their defaults
    options --NAME=TEXT standard output is a page of help with these options, and their defaults
    status N            the status, 0 where there is no such line

A line of a transcript that ends with `\` has no line feed.

The others are tables. A row is `GIVEN => WANTED`. A line `begins: TEXT` says how what is given in the rows below it begins, or,
where TEXT has `%s`, what stands around it; `begins:` that it is whole. `N * (TEXT)` is TEXT N times, as lines, or as words where
it does not begin a line; in it `{}` counts from 0 up. Where GIVEN has `{A / B}` there is a row for each of these, and it stands
for each `{}` of the row.

`reports` has scripts, or a file of `examples`, and the whole report of each, which for a world leaves out what is as in a world
in which nothing has happened: lists are empty, workers idle, directions have no bytes, and slots are free.

`causes` has scripts with a fault in their last line. WANTED is `WHY: CAUSE`: WHY is `malformed`, `not allowed`, `no world` or
`script too long`, and CAUSE is what the log has, without the number of the line.

`largest` has rows of both kinds, at the largest of everything. Of each world with a report each step is then shown, too.

`recordings` has the acts of recordings. They get the counts from 0 up, but for one with counts before it, which has those;
times and reports get those of their poll. A last one that ends with `\` has no line feed. After `rests:`, in place of
`begins:`, all has come to rest when the relay is stopped; after `scripts:` the script of 0.1 is wanted, which is WANTED, or
`too long` for `sim`.
WANTED is `N connections; LINES`, lines of the output, or `WHOSE: ACT: WHY` of an act that can stand nowhere, or
`malformed: CAUSE`, which has the act in place of its line.

`settings` has settings texts, on which `relayd check` is run. WANTED is the fault that is reported, and after ` | ` the cause
that the log has, or the settings that differ from their defaults, as `ring=1 log=off`.

`words` has the words after `relayd`, as a shell reads them, that are refused. WANTED is such a fault with its cause, or what
the parser of arguments prints.

In all files, after a line `[NAME]: TEXT`, `[NAME]` stands for TEXT, ` | ` for a line feed, `\xHH` for a byte and `\xHH*N` for
that byte N times, but in what the log has of a fault, which is as it stands. A line that ends with ` |`, ` /` or ` =>` goes on
in the next. Lines that begin with `#` are comments.
"""

import functools
import json
import os
import re
import shlex
from dataclasses import dataclass, field, replace

HERE = os.path.dirname(os.path.abspath(__file__))
EXAMPLES = os.path.join(os.path.dirname(os.path.dirname(HERE)), "examples")
# The lines of a world's report on what is there once, in their order, where nothing has happened.
QUIET = {"listener": " backlog=0 flag=up", "queue": "", "batch": "", "ready": "", "free": "", "poller": ""}


@dataclass
class Row:
    """A run of the program: what it is given, and what it must give. Where no bytes say that, `will_do` says of a status,
    an output and errors whether they will do."""

    name: str
    words: list = field(default_factory=list)
    given: bytes = b""
    files: dict = field(default_factory=dict)
    streams: tuple = (None, None, None)
    status: int = 0
    output: bytes = b""
    errors: bytes = b""
    will_do: object = None
    tool: str = ""


def lines_of(path):
    """The lines of a file with their numbers, but for comments and empty ones. One that is not finished goes on in the next."""
    begun = ""
    with open(path, encoding="utf-8") as file:
        for number, line in enumerate(file.read().split("\n"), 1):
            if not begun and (not line or line[0] == "#"):
                continue
            begun += line
            if line.endswith((" |", " /", " =>")):
                begun += " "
            else:
                yield number, begun
                begun = ""


def named(lines):
    """The lines with the texts for which names in them stand, but for those that say what a name stands for."""
    texts = {}
    for number, line in lines:
        for name, text in texts.items():
            line = line.replace(name, text)
        naming = re.fullmatch(r"(\[[a-z ]+\]): (.*)", line)
        if naming:
            texts[naming[1]] = naming[2]
        else:
            yield number, line


def repeated(text):
    """A text in which `N * (TEXT)` stands for TEXT N times."""

    def times(many):
        start, count, one = many.groups()
        return start + (" " if start == " " else " | ").join(one.replace("{}", str(number)) for number in range(int(count)))

    return re.sub(r"(^| \| | )(\d+) \* \((.*?)\)", times, text)


def bytes_of(text):
    """The bytes of a text, in which some stand as numbers."""
    number = re.compile(rb"\\x([0-9a-f]{2})(?:\*([0-9]+))?")
    return number.sub(lambda found: bytes([int(found[1], 16)]) * int(found[2] or 1), text.encode())


def line_of(text):
    return bytes_of(text[:-1]) if text.endswith("\\") else bytes_of(text) + b"\n"


def lines_as_bytes(text):
    return bytes_of(text.replace(" | ", "\n") + "\n")


def printed(different):
    """How settings are printed of which these differ from their defaults: those of the example, which has them all."""
    with open(os.path.join(EXAMPLES, "relayd.toml"), encoding="utf-8") as file:
        values = dict(re.findall(r'^(\w+) = "?(.*?)"?$', file.read(), re.MULTILINE))
    values |= dict(value.split("=", 1) for value in different.split())
    return "".join(f"{key}={value}\n" for key, value in values.items()).encode()


def has_options(wanted, status, output, errors):
    """Whether a page of help has these options, and no others, with their defaults."""
    had = re.findall(r"^ {2,6}(?:-\w, )?(--[\w-]+)|\[default:\s+(\S+)\]", output.decode(), re.MULTILINE)
    had = "".join(f" {name}" if name else f"={default}" for name, default in had)
    return (status, had, errors) == (0, f" {wanted}", b"")


def is_drawn(events, status, output, errors):
    """Whether a picture of these events is written, each but for the names of processes in short."""
    if status or errors:
        return False
    begins, *lines, ends = output.decode().split("\n")[:-1]
    had = []
    for event in map(json.loads, (line.removesuffix(",") for line in lines)):
        said = event.get("id", event["args"]["name"] if event["ph"] == "M" else event["name"])
        at = "" if event["ph"] == "M" else f" {event['ts']}" + (f"+{event['dur']}" if "dur" in event else "")
        had.append(f"{event['pid']}.{event.get('tid')} {event['ph']}{at} {said}")
    return (begins, ends) == ('{"traceEvents":[', "]}") and had[3:] == events


def transcript(lines):
    runs = []
    for number, line in named(lines):
        mark, _, text = line.partition(" ")
        command = re.fullmatch(r"relayd(-trace)?(| .*?)(?: < (\S+))?(?: > (\S+))?(?: 2> (\S+))?", text)
        if mark == "==":
            runs.append((Row(text), [], []))
            continue
        row, commands, drawn = runs[-1]
        if mark == "$" and command:
            commands.append(command)
        elif mark == "<":
            row.given += line_of(text)
        elif mark == ">":
            row.output += line_of(text.replace(" | ", "\n"))
        elif mark == "~":
            drawn += text.split(" | ")
            row.will_do = functools.partial(is_drawn, drawn)
        elif mark == "!":
            row.errors += line_of(text)
        elif mark == "settings":
            row.output = printed(text)
        elif mark == "options":
            row.will_do = functools.partial(has_options, text.replace(" | ", " "))
        elif mark == "status":
            row.status = int(text)
        elif mark.endswith(":"):
            row.files[mark[:-1]] = row.files.get(mark[:-1], b"") + line_of(text.replace(" | ", "\n"))
        else:
            raise ValueError(f"line {number}")
    for row, commands, _ in runs:
        for command in commands:
            tool, told, *streams = command.groups()
            words = [bytes_of(word) for word in shlex.split(told)]
            yield replace(row, name=f"{row.name}: {command[0]}", tool=tool, words=words, streams=tuple(streams))


def choices(line):
    """The rows for which a line stands, each after what is chosen in it."""
    found = re.search(r"\{([^{}]* / [^{}]*)\}(?=.* => )", line)
    if not found:
        return [("", line)]
    return [(one, line.replace(found[0], one).replace("{}", one)) for one in found[1].split(" / ")]


def sides(lines):
    """The rows of a table: how their section is marked, the name of each, and its two sides."""
    mark, begins = "begins", ""
    for number, line in named(lines):
        section = re.fullmatch(r"(begins|rests|scripts): ?(.*)", line)
        if section:
            mark, begins = section.groups()
            continue
        for chosen, row in choices(line):
            given, arrow, wanted = row.rpartition(" => ")
            if not arrow or not wanted:
                raise ValueError(f"line {number}")
            given = begins.replace("%s", given) if "%s" in begins else " | ".join(filter(None, [begins, given]))
            yield mark, f"line {number} {chosen}".rstrip(), repeated(given), repeated(wanted)


def about(line):
    words = line.split(" ")
    return words[0] if words[0] in QUIET else " ".join(words[:2])


def report_of(script, told):
    """The report of a world which has these lines, and is else that of a world in which nothing has happened."""
    header = dict(re.findall(r" (\w+)=(\w+)", re.search(r"^world .*", script, re.MULTILINE)[0]))
    told = {about(line): line for line in told}
    slots = range(int(header["slots"]))
    lines = {name: name + rest for name, rest in QUIET.items()}
    lines["free"] += "".join(f" {slot}" for slot in slots if f"slot {slot}" not in told)
    lines |= {f"worker {worker}": f"worker {worker} idle" for worker in range(int(header["workers"]))}
    for slot in slots:
        lines[f"slot {slot}"] = f"slot {slot} free gen={header.get('gen', 0)} notes=0"
        if re.search(" (live|done|failed) ", told.get(f"slot {slot}", "")):
            lines |= {f"{slot} {way}": f"{slot} {way} sent=- ring=- unread=- end=no shut=no" for way in ("up", "down")}
    # Connections of the past come last.
    return " | ".join({**lines, **told}.values())


def scripts(lines):
    for _, name, script, wanted in sides(lines):
        script = script.replace(" | ", "\n")
        if script.startswith("examples/"):
            with open(os.path.join(EXAMPLES, os.path.basename(script)), encoding="utf-8") as file:
                script = file.read()
        row = Row(name, [b"sim"], bytes_of(script))
        why, _, cause = wanted.partition(": ")
        if why in ("malformed", "not allowed", "no world", "script too long"):
            last = script.rstrip("\n").count("\n") + 1
            where = f"line {last}: " if why in ("malformed", "not allowed") else ""
            word = f": {cause.split(':')[0]}" if why == "not allowed" else ""
            row.status, row.output, row.errors = 1, lines_as_bytes(where + why + word), error(where + cause)
        elif re.search("^flow ", script, re.MULTILINE):
            row.output = lines_as_bytes(wanted)
        else:
            row.output = lines_as_bytes(report_of(script, wanted.split(" | ")))
        yield row


def with_each_step(row):
    """The row of a world's script whose steps are all shown: what is shown last of everything is the report."""
    script = [line for line in row.given.decode().split("\n") if line and line[0] != "#"]
    report = row.output.decode().splitlines()

    def will_do(status, wrote, complained):
        lines = wrote.decode().split("\n")
        steps = [line[2:] for line in lines if line.startswith("> ")]
        last = {about(line): line for line in lines if not line.startswith("> ")}
        return (status, steps, complained) == (0, script, b"") and [last.get(about(line)) for line in report] == report

    return replace(row, name=f"each step of {row.name}", words=[b"sim", b"--each"], will_do=will_do)


def reports(lines):
    """The rows of scripts, and those of worlds of which each step is shown."""
    for row in scripts(lines):
        yield row
        if row.status == 0 and row.given.startswith(b"world "):
            yield with_each_step(row)


def numbered(acts):
    """The text of a recording of these acts, with their counts."""
    count, poll = 0, ""
    lines = acts[:1]
    for act in acts[1:]:
        if re.match(r"p\d+ (time|report) ", act):
            lines.append(f"{poll} {act}")
            continue
        own = re.match(r"(\d+ \d+) ", act)
        lines.append(act if own else f"{count} {count + 1} {act}")
        poll = re.match(r"\d+ \d+", lines[-1])[0]
        count = max(count + 2 if not own else count, *(int(number) + 1 for number in poll.split(" ")))
    return "".join(f"{line}\n" for line in lines).removesuffix("\\\n")


def is_malformed(wanted, text, status, output, errors):
    """Whether a text is no recording for this cause, in which the act of the line stands for its number."""

    def act(line):
        return re.sub(r"^\d+ \d+ ", "", text.split("\n")[int(line[1]) - 1]) + ": "

    found = re.fullmatch(r"\[ERROR relayd\] recording: t\.record: (.*)\nrelayd: recording: malformed\n", errors.decode())
    return (status, output) == (1, b"") and bool(found) and re.sub(r"^line (\d+): ", act, found[1]) == wanted


def is_told(wanted, text, status, output, errors):
    """Whether this is printed of a recording."""
    if wanted == "too long":
        warning = f"[WARN  relayd] output: the script has {len(output)} bytes, and relayd sim takes at most 1048576\n"
        return (status, errors) == (0, warning.encode()) and len(output) > 1_048_576
    if wanted.startswith("world "):
        return (status, output.decode(), errors) == (0, wanted.replace(" | ", "\n") + "\n", b"")
    if wanted.startswith("malformed: "):
        return is_malformed(wanted[11:], text, status, output, errors)
    first, *lines = output.decode().split("\n")
    connections, _, more = wanted.partition("; ")
    if connections.endswith(" connections"):
        told = first.startswith(connections + ", ") and first.endswith(" events: each is a run of the machine")
        return not status and not errors and told and all(line in lines for line in more.split("; "))
    whose, record = wanted.split(": ", 1)
    found = re.fullmatch(r"# (\S+): line \d+: \d+ \d+ (.*)", first)
    return status == 1 and not errors and bool(found) and found.groups() == (whose, record)


def recordings(lines):
    for mark, name, acts, wanted in sides(lines):
        how = {"begins": [b"--steps"], "rests": [b"--steps", b"--rest"], "scripts": [b"--script", b"0.1"]}
        words = [b"replay", *how[mark], b"t.record"]
        text = numbered(acts.split(" | "))
        yield Row(name, words, files={"t.record": bytes_of(text)}, will_do=functools.partial(is_told, wanted, text))


def error(cause):
    """The line by which the log has a cause."""
    return f"[ERROR relayd] {cause}\n".encode()


def fault(told, cause):
    """What is printed of a fault."""
    return error(f"{told.split(':')[0]}: {cause}") + f"relayd: {told}\n".encode()


def settings(lines):
    for _, name, text, wanted in sides(lines):
        row = Row(name, [b"check", b"--config", b"t.toml"], files={"t.toml": lines_as_bytes(text)})
        told, _, cause = wanted.partition(" | ")
        if cause:
            row.status, row.errors = 1, fault(told, f"t.toml: {cause}")
        else:
            row.output = printed(wanted)
        yield row


def words(lines):
    for _, name, text, wanted in sides(lines):
        row = Row(name, [bytes_of(word) for word in shlex.split(text)], status=2)
        told, _, cause = wanted.partition(" | ")
        topic = told.split(":")[0]
        if topic in ("config", "listen", "options", "record", "recording", "settings", "stats-file", "target"):
            row.status, row.errors = 2 if topic in ("options", "settings") else 1, fault(told, cause)
        else:
            row.errors = lines_as_bytes(f"error: {wanted} |  | For more information, try '--help'.")
        yield row


# What reads each file.
READERS = {
    "transcripts": transcript,
    "help": transcript,
    "words": words,
    "settings": settings,
    "reports": reports,
    "causes": scripts,
    "recordings": recordings,
    "largest": reports,
}


def read(name):
    """The rows of a file. A line that is no row is an error."""
    rows = list(READERS[name](lines_of(os.path.join(HERE, name))))
    for row in rows:
        row.name = f"{name}, {row.name}"
    return rows
