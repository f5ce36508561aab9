"""Faults of instance files, of layout files and of rows with a period."""

import re

from .tables import LONGEST_NAME, MARK, MOST_NAMES, READ, is_near, is_same_word
from .texts import MOST_BUFFERS, MOST_GAPS, TIME_LIMIT, WORD_LIMIT, shown, why_no_number

LIMITS = dict.fromkeys(("lower", "upper", "size", "alignment", "lowest"), TIME_LIMIT)
# What is wrong with the value of one column.
VALUES = {
    "empty id": ("id", "is empty: an identifier has 1 to 255 bytes"),
    "id too long": ("id", "has more than 255 bytes"),
    "zero size": ("size", "is no size of 1 to 2^40"),
    "too large": ("size", "is above 2^40"),
    "zero alignment": ("alignment", "is no alignment of 1 to 2^32"),
    "alignment too large": ("alignment", "is above 2^32"),
    "too many gaps": ("gaps", f"has more than {MOST_GAPS} gaps"),
    "never live": ("gaps", "leaves no moment of the lifetime"),
    "lowest too large": ("lowest", "is above 2^40"),
}


def mark_hint(table):
    """That the first name of a header begins with a byte order mark."""
    first = table.header[0]
    return f"{table.at(first)}: {shown(first.text)} begins with a {'second ' if table.is_marked else ''}byte order mark; take it off"


def header_hint(table, fault, wanted="id,lower,upper,size"):
    """Where the fault of a header is, or None where the fault is none of a header."""
    name, names = table.name, table.names()
    if fault == "no header":
        return f"{name}: has no record; the first line is to be {wanted}"
    if fault == "marked header":
        return mark_hint(table)
    if fault == "offset column":
        at = table.at(table.header[names.index(b"offset")])
        return f"{at}: 'offset': a file with offsets is a layout and no instance; take the column off"
    duplicate = re.fullmatch(r"duplicate column (\w+)", fault)
    if duplicate:
        places = [k for k, it in enumerate(names) if it == duplicate[1].encode()]
        said = " and ".join(str(k + 1) for k in places[:2])
        return f"{table.at(table.header[places[0]])}: {duplicate[1]}: the columns {said} both have this name"
    missing = re.fullmatch(r"missing column (\w+)", fault)
    if missing:
        column = missing[1].encode()
        if names[0].startswith(MARK) and names[0].lstrip(MARK) == column:
            return mark_hint(table)
        near = [it for it in names[:MOST_NAMES] if len(it) <= LONGEST_NAME and it not in READ]
        near = [it for it in near if is_same_word(it, column) or is_near(it, column)]
        instead = f"; {shown(near[0])} is another name" if near else ""
        if not any(it.encode() in names for it in wanted.split(",")):
            instead = f"; the first line is to be {wanted}"
        return f"{table.at(table.header[0])}: no column has the name {missing[1]}{instead}"
    return None


def field_count_hint(table, number):
    """Where a row has more or fewer fields than the header."""
    row = table.row(number)
    is_open = " (a quote is not closed)" if row[-1].is_open else ""
    fields = "1 field" if len(row) == 1 else f"{len(row)} fields"
    return f"{table.at(row[0])}: {fields}, where the header has {len(table.header)}{is_open}"


def gaps_of(field):
    """The gaps that a field writes."""
    return [tuple(map(int, piece.split(b"-"))) for piece in field.split(b" ")] if field else []


def row_hint(table, number, fault):
    """Where the fault of a row is."""
    if fault == "field count":
        return field_count_hint(table, number)
    duplicate = re.fullmatch(r"duplicate id (\d+)", fault)
    if duplicate:
        field, earlier = table.field(number, b"id"), table.field(int(duplicate[1]), b"id")
        return f"{table.at(field)}: id: {shown(field.text)} stands on line {earlier.line} too"
    bad = re.fullmatch(r"bad number (\w+)", fault)
    if bad:
        field = table.field(number, bad[1].encode())
        why = why_no_number(field.text, LIMITS.get(bad[1], WORD_LIMIT)) or "is no number that may stand there"
        return f"{table.at(field)}: {bad[1]}: {shown(field.text)} {why}"
    if fault == "unknown id":
        field = table.field(number, b"id")
        return f"{table.at(field)}: id: {shown(field.text)} is no buffer of the input"
    if fault == "empty lifetime":
        field, lower = table.field(number, b"upper"), table.text(number, b"lower")
        return f"{table.at(field)}: upper: {shown(field.text)} is not above lower, {shown(lower)}"
    if fault == "bad gap":
        field = table.field(number, b"gaps")
        return f"{table.at(field)}: gaps: {shown(field.text)}: {why_no_gaps(field.text)}"
    gap = re.fullmatch(r"gap (\d+) (empty|outside)", fault)
    if gap:
        return gap_hint(table, number, int(gap[1]), gap[2])
    if fault in VALUES:
        column, why = VALUES[fault]
        field = table.field(number, column.encode())
        return f"{table.at(field)}: {column}: {shown(field.text)} {why}"
    return f"{table.at(table.row(number)[0])}: {shown(table.text(number, b'id'))}: {fault}"


def why_no_gaps(field):
    """What keeps a field from being gaps."""
    for piece in field.split(b" "):
        numbers = piece.split(b"-")
        if len(numbers) != 2 or not all(re.fullmatch(rb"[0-9]{1,20}", it) for it in numbers):
            return f"{shown(piece)} is no gap as 4-6, and there is one space between two"
        if any(int(it) > TIME_LIMIT for it in numbers):
            return f"{shown(piece)} has a number above 2^62 - 1"
    return "these are no gaps as 4-6 8-9"


def gap_hint(table, number, gap, kind):
    """Where a gap is empty, or outside of its buffer's lifetime."""
    field = table.field(number, b"gaps")
    first, last = gaps_of(field.text)[gap]
    lower, upper = table.number(number, b"lower"), table.number(number, b"upper")
    why = "does not end after it begins" if kind == "empty" else f"is not within the lifetime {lower}-{upper}"
    return f"{table.at(field)}: gaps: '{first}-{last}' {why}"


def instance_hint(table, fault):
    """Where an instance file has the fault that the program prints."""
    row = re.fullmatch(r"row (\d+) (.*)", fault)
    if row:
        return row_hint(table, int(row[1]), row[2])
    if fault == "too many buffers":
        row = table.row(MOST_BUFFERS)
        at = table.at(row[0]) if row else table.name
        return f"{at}: one buffer more than {MOST_BUFFERS}"
    return header_hint(table, fault)


def wrap_hint(table, period, fault):
    """Where the gaps of a row that goes round the end of the period have a fault, or None where it is none of these."""
    row = re.fullmatch(r"row (\d+) (too many gaps|gap (\d+) outside)", fault)
    if not row or table.number(int(row[1]), b"lower") <= table.number(int(row[1]), b"upper"):
        return None
    field = table.field(int(row[1]), b"gaps")
    gaps = gaps_of(field.text)
    if row[3] is None:
        return f"{table.at(field)}: gaps: {shown(field.text)} has {len(gaps)} gaps, and going round the end adds one"
    gap = gaps[int(row[3])]
    return f"{table.at(field)}: gaps: '{gap[0]}-{gap[1]}' is not within the period, 0-{int(period)}"


def round_hint(table, period, fault):
    """How a gap that goes round the end of the period is written, where the fault may be of such a one."""
    row = re.fullmatch(r"row (\d+) gap (\d+) empty", fault)
    first, last = gaps_of(table.text(int(row[1]), b"gaps"))[int(row[2])] if row else (0, 0)
    if not period > first > last:
        return ""
    if last == 0:
        return f"; a gap up to the end of the period is written as {first}-{period}"
    return f"; a gap round the end of the period is written as two, as {first}-{period} 0-{last}"


def cycle_hint(table, period, fault):
    """Where rows with a period have the fault that the program prints."""
    wrapped = wrap_hint(table, period, fault)
    if wrapped:
        return wrapped
    row = re.fullmatch(r"row (\d+) outside", fault)
    if not row:
        hint = instance_hint(table, fault)
        return hint and hint + round_hint(table, int(period), fault)
    number = int(row[1])
    lower = table.field(number, b"lower")
    if table.number(number, b"lower") >= int(period):
        return f"{table.at(lower)}: lower: {shown(lower.text)} is not below the period, {int(period)}"
    upper = table.field(number, b"upper")
    return f"{table.at(upper)}: upper: {shown(upper.text)} is above the period, {int(period)}"


def plain_hint(table, number):
    """Why a buffer has no plan by size class."""
    if table.number(number, b"alignment", 1) > 1:
        field = table.field(number, b"alignment")
        return f"{table.at(field)}: alignment: {shown(field.text)}: classes takes no alignment above 1"
    field = table.field(number, b"gaps")
    if field and field.text:
        return f"{table.at(field)}: gaps: {shown(field.text)}: classes takes no gaps"
    field = table.field(number, b"lowest")
    return f"{table.at(field)}: lowest: {shown(field.text)}: classes takes no lowest above 0"


def layout_hint(table, layout, capacity, fault):
    """Where a layout file has the fault that the program prints."""
    row = re.fullmatch(r"row (\d+) (.*)", fault)
    if row:
        return row_hint(layout, int(row[1]), row[2])
    missing = re.fullmatch(r"missing id (\d+)", fault)
    if missing:
        return f"{layout.name}: no row has the id {shown(table.text(int(missing[1]), b'id'))}"
    judged = re.fullmatch(r"(unaligned|too low|above|overlap) (\d+)(?: (\d+) (\d+))?", fault)
    if not judged:
        return header_hint(layout, fault, "id,offset") or buffer_hint(table, layout, fault)
    if judged[1] == "overlap":
        return overlap_hint(table, layout, int(judged[2]), int(judged[3]), int(judged[4]))
    number = int(judged[2])
    field = offset_of(table, layout, number)
    who = shown(table.text(number, b"id"))
    if judged[1] == "unaligned":
        why = f"is no multiple of the alignment of {who}, {table.number(number, b'alignment', 1)}"
    elif judged[1] == "too low":
        why = f"is too low: {who} may not stand below {table.number(number, b'lowest')}"
    else:
        end = int(field.text) + table.number(number, b"size")
        why = f"is too high: {who} ends at {end}, above {capacity}"
    return f"{layout.at(field)}: offset: {shown(field.text)} {why}"


def buffer_hint(table, layout, fault):
    """The buffer of a fault that has no words of its own here."""
    number = re.search(r"(\d+)", fault)
    field = offset_of(table, layout, int(number[1])) if number else None
    if field is None:
        return None
    who = shown(table.text(int(number[1]), b"id"))
    return f"{layout.at(field)}: offset: {shown(field.text)} of {who}: {fault}"


def offset_of(table, layout, number):
    """The field of a layout file that gives a buffer its offset, or None."""
    who, row = table.text(number, b"id"), 0
    while layout.row(row) is not None:
        if layout.text(row, b"id") == who:
            return layout.field(row, b"offset")
        row += 1
    return None


def overlap_hint(table, layout, first, second, moment):
    """Which two buffers share bytes, and when."""
    said = []
    for number in (first, second):
        start = int(offset_of(table, layout, number).text)
        end = start + table.number(number, b"size")
        said.append(f"{shown(table.text(number, b'id'))} at {start}-{end}")
    fields = [offset_of(table, layout, it) for it in (first, second)]
    also = f" of line {fields[1].line}"
    return f"{layout.at(fields[0])}: offset: {said[0]} and {said[1]}{also} share bytes at moment {moment}"
