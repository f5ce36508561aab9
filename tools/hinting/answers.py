"""The hints that are due after a run."""

import subprocess

from .commands import Call, options_of_commands
from .files import is_regular, length_hint, unread_hint, unwritten_hints, why_unprinted, why_unread
from .lines import log_hint, trace_hint
from .rows import cycle_hint, instance_hint, layout_hint, plain_hint
from .tables import Table, misspelt
from .texts import shown
from .usage import count_hint, usage_hint, word_hint

SECONDS = 60
# The open file to which the run printed.
PRINTED_TO = 0


def hints(program, status, words):
    """What is to be said after the program ended with that status on these words."""
    call = Call(words)
    if not words or words[0] not in options_of_commands():
        yield word_hint(words)
        return
    yield from misspelt_hints(call)
    if status == 5:
        yield from refusal_hints(call)
        return
    hint = fault_hint(program, status, call)
    if hint:
        yield hint


def misspelt_hints(call):
    """The carried columns of the input whose names may be misspelt."""
    name = call.values.get("--input")
    if not name or not is_regular(name) or why_unread(name):
        return
    table = Table(name)
    for place, column in misspelt(table.names()):
        field = table.header[place]
        read = column.decode()
        yield f"{table.at(field)}: the column {shown(field.text)} is carried, and not read; {shown(read)} would be"


def fault_hint(program, status, call):
    """Where the fault is, or None where there is none or its place is not known."""
    if status == 6:
        return "memory ran out"
    if status == 7:
        return length_hint(call)
    if status == 8:
        return "the words are no UTF-8, or memory ran out while they were taken"
    line = asked(program, status, call)
    for word, told in (("malformed ", told_instance), ("wrong ", told_layout), ("refused ", told_log)):
        if line.startswith(word):
            return told(call, line[len(word) :])
    if line.startswith("usage "):
        return usage_hint(call, line[len("usage ") :])
    if line.startswith("too many "):
        return count_hint(line[len("too many ") :])
    if line.startswith("trace "):
        return trace_hint(call.values["--trace"], line[len("trace ") :])
    if line.startswith("cycle "):
        return cycle_hint(Table(call.values["--input"]), call.values["--period"], line[len("cycle ") :])
    if line.startswith("not plain "):
        return plain_hint(Table(call.values["--input"]), int(line[len("not plain ") :]))
    return None


def refusal_hints(call):
    """What the system refused: a read, a write or the printed line."""
    unread = unread_hint(call)
    if unread:
        return [unread]
    unwritten = unwritten_hints(call)
    # With a capacity it hangs on the answer which files are written; else each is, the output first.
    if unwritten and "--capacity" not in call.values:
        return unwritten[:1]
    unprinted = why_unprinted(PRINTED_TO)
    if not (unprinted or unwritten or call.writes()):
        unprinted = "took no text"
    told = [f"printing failed: standard output {unprinted}"] if unprinted else []
    return told + unwritten or [
        "the system refused a read or a write; the disk may be too small for the text, or standard output took none"
    ]


def asked(program, status, call):
    """The line of the fault, as the program prints it once more; empty where that would read a pipe or write a file."""
    words = call.asking(status)
    # With faults of words no file is read.
    if words is None or not (status == 3 or all(is_regular(name) for _, name in Call(words).reads())):
        return ""
    how = {"stdin": subprocess.DEVNULL, "stdout": subprocess.PIPE, "stderr": subprocess.DEVNULL}
    try:
        ran = subprocess.run([program, *words], timeout=SECONDS, check=False, **how)
    except (OSError, subprocess.TimeoutExpired):
        return ""
    return ran.stdout.decode("utf-8", "replace").strip() if ran.returncode == status else ""


def told_instance(call, fault):
    return instance_hint(Table(call.values["--input"]), fault)


def told_layout(call, fault):
    capacity = call.values.get("--capacity", "2^60")
    return layout_hint(Table(call.values["--input"]), Table(call.values["--layout"]), capacity, fault)


def told_log(call, fault):
    return log_hint(Table(call.values["--input"]), call.values["--log"], fault)
