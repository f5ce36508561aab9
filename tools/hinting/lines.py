"""Faults of files that go line by line: logs and traces."""

import re

from .texts import WORD_LIMIT, is_above, power, shown

LOG_TEXTS = {
    "bad line": "has the form of no line and of no end",
    "number too large": "has a number above its limit",
    "not rising": "has buffers that do not rise",
    "bad base": "names a base that is no earlier line",
    "bad change": "has changes that its base does not allow",
}
# The limits of the numbers of a header.
HEADER_LIMITS = (2**64 - 1, WORD_LIMIT, WORD_LIMIT)
# The reasons of lines that are not legal; a number after them is a buffer's.
REASONS = {
    "empty claim": "the claim has no buffer",
    "buffer range": "the claim names a buffer that the input does not have",
    "zero modulus": "the modulus is 0",
    "not multiple": "the height is no multiple of the modulus",
    "empty set": "no buffer of the claim is stacked at this moment from this height on",
    "not over": "what is stacked does not pass the capacity",
    "cites differ": "the cites are not of just the buffers of the claim",
    "not earlier": "the line that is cited for it does not stand before this one",
    "not covered": "the line that is cited for it does not cover what is left where it comes first",
    "not below": "the buffer that is cited for it is not in the claim, or does not end below it",
    "not twin": "the buffer that is cited for it is not in the claim, or is no twin before it",
}
TRACE_TEXTS = {
    "bad line": "is neither 'alloc ID SIZE ALIGNMENT' nor 'free ID'",
    "bad size": "has a size that is not 1 to 2^40",
    "bad alignment": "has an alignment that is not 1 to 2^32",
    "not live": "frees what is not live",
    "too many buffers": "allocates one buffer more than an instance may have",
}


def is_cut_short(name, number):
    """Whether a file's line, from 1, lacks its end."""
    with open(name, "rb") as file:
        return next((not text.endswith(b"\n") for place, text in enumerate(file, 1) if place == number), False)


def line_of(name, number):
    """A file's line, from 1, without its end; the last line where the file is shorter."""
    last = (0, b"")
    with open(name, "rb") as file:
        for place, text in enumerate(file, 1):
            last = (place, text.rstrip(b"\n"))
            if place == number:
                break
    return last


def last_line(name):
    """The number of a file's last line."""
    return line_of(name, -1)[0]


def at(name, number):
    """A file's line, and its text."""
    place, text = line_of(name, number)
    return f"{name}:{place}: {shown(text)}"


def end_line(name):
    """The number of the first line that ends a log."""
    with open(name, "rb") as file:
        return next((place for place, text in enumerate(file, 1) if text.startswith(b"end ")), 1)


def why_no_header(name):
    """What keeps the first line of a file from being a log's header."""
    numbers = re.fullmatch(rb"dsalog ([0-9]+) ([0-9]+) ([0-9]+)", line_of(name, 1)[1])
    if numbers and is_cut_short(name, 1):
        return "has no end of line"
    for text, limit in zip(numbers.groups() if numbers else (), HEADER_LIMITS):
        if is_above(text, limit):
            return f"has a number above {power(limit)}"
        if text != b"0" and text.startswith(b"0"):
            return "has a number that begins with 0"
    return "is no header, as 'dsalog 1 COUNT CAPACITY'"


def log_hint(table, name, fault):
    """Where a log has the fault that the program prints."""
    if fault == "not a log" and last_line(name) == 0:
        return f"{name}: has no line; the first is to be 'dsalog 1 COUNT CAPACITY'"
    if fault == "not a log":
        return f"{at(name, 1)} {why_no_header(name)}"
    if fault.startswith("version "):
        return f"{at(name, 1)} has a version that is not read"
    if fault == "no end":
        return f"{name}:{last_line(name)}: the file ends without a line 'end K'"
    if fault == "after end":
        return f"{at(name, end_line(name) + 1)} comes after the end"
    count = re.fullmatch(r"count (\d+) (\d+)", fault)
    if count:
        return f"{at(name, 1)} is of {count[1]} buffers, where {table.name} has {count[2]}"
    legal = re.fullmatch(r"line (\d+) ([a-z ]+?)(?: (\d+))?", fault)
    if legal:
        who = f"buffer {legal[3]}" if legal[3] else ""
        if who and legal[2] != "buffer range":
            who += f", {shown(table.text(int(legal[3]), b'id'))}"
        why = REASONS.get(legal[2], legal[2])
        return f"{at(name, int(legal[1]) + 2)}: {who}{': ' if who else ''}{why}"
    end = re.fullmatch(r"end (\d+)(?: (?:\w+) (\d+))?", fault)
    if end:
        why = "which is not there"
        if end[2]:
            why = f"whose claim has a bound above the floor of buffer {end[2]}, {shown(table.text(int(end[2]), b'id'))}"
        return f"{at(name, end_line(name))} names line {end[1]}, {why}"
    text = re.fullmatch(r"([a-z ]+) (\d+)", fault)
    if text:
        number = int(text[2]) + 2
        why = "has no end of line" if is_cut_short(name, number) else LOG_TEXTS.get(text[1], text[1])
        return f"{at(name, number)} {why}"
    return None


def trace_hint(name, fault):
    """Where a trace has the fault that the program prints."""
    live = re.fullmatch(r"still live (\d+) (\d+)", fault)
    if live:
        return f"{at(name, int(live[1]) + 1)} allocates what line {int(live[2]) + 1} holds"
    text = re.fullmatch(r"([a-z ]+) (\d+)", fault)
    if text:
        number = int(text[2]) + 1
        is_short = text[1] == "bad line" and is_cut_short(name, number)
        why = "has no end of line" if is_short else TRACE_TEXTS.get(text[1], text[1])
        return f"{at(name, number)} {why}"
    return None
