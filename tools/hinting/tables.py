"""A CSV file as the program reads it, with the line of each field: comma, double quote, no trimming; CR, LF and CRLF end
a record, and an empty line is none."""

import mmap
import re
from dataclasses import dataclass

from .texts import distance

FIELD = re.compile(rb'"([^"]*(?:""[^"]*)*)("?)([^,\r\n]*)|([^,\r\n]*)')
LINE_END = re.compile(rb"\r\n|\r|\n")
READ = (b"id", b"lower", b"upper", b"size", b"alignment", b"gaps", b"lowest", b"offset")
MARK = b"\xef\xbb\xbf"
MOST_FIELDS = 1_000_000
# No name of a column that may be misspelt is longer.
LONGEST_NAME = 40
MOST_NAMES = 1000


@dataclass
class Field:
    text: bytes
    line: int
    is_open: bool = False


def contents(name):
    """The bytes of a file, as they are needed."""
    with open(name, "rb") as file:
        try:
            return mmap.mmap(file.fileno(), 0, access=mmap.ACCESS_READ)
        except ValueError:
            return b""


def field_at(data, place, line):
    """The field that begins at a place, and where it ends."""
    found = FIELD.match(data, place)
    if found[1] is None:
        return Field(found[4], line), found.end()
    text = found[1].replace(b'""', b'"') + found[3]
    return Field(text, line, is_open=not found[2]), found.end()


def records(data):
    """The records of the bytes, each the list of its fields."""
    place, line, fields = 0, 1, []
    if data[:3] == MARK:
        place = 3
    while place < len(data):
        end = LINE_END.match(data, place)
        if end and not fields:
            place, line = end.end(), line + 1
            continue
        field, stop = field_at(data, place, line)
        fields.append(field)
        line += len(LINE_END.findall(data[place:stop])) if b"\n" in field.text or b"\r" in field.text else 0
        place = stop
        if data[place : place + 1] == b"," and len(fields) < MOST_FIELDS:
            place += 1
            if place == len(data) or LINE_END.match(data, place):
                fields.append(Field(b"", line))
            else:
                continue
        yield fields
        fields = []
        end = LINE_END.match(data, place)
        if end:
            place, line = end.end(), line + 1
        elif place < len(data):
            return
    return


class Table:
    """The header of a file and its rows, as far as they are asked for."""

    def __init__(self, name):
        self.name = name
        data = contents(name)
        self.is_marked = data[:3] == MARK
        self.rest = records(data)
        self.header = next(self.rest, [])
        self.rows = []

    def names(self):
        return [it.text for it in self.header]

    def row(self, number):
        """The row of that number, or None."""
        while len(self.rows) <= number:
            row = next(self.rest, None)
            if row is None:
                return None
            self.rows.append(row)
        return self.rows[number]

    def field(self, number, column):
        """The field of a row under a column, or None."""
        row, names = self.row(number), self.names()
        if row is None or column not in names or len(row) <= names.index(column):
            return None
        return row[names.index(column)]

    def text(self, number, column):
        """The text of a field, empty where there is none."""
        field = self.field(number, column)
        return field.text if field else b""

    def number(self, number, column, instead=0):
        """The number that a field writes, or the one to take instead."""
        text = self.text(number, column)
        return int(text) if re.fullmatch(rb"[0-9]{1,20}", text) else instead

    def at(self, field):
        """A field's file and line."""
        return f"{self.name}:{field.line}"


def is_same_word(name, column):
    """Whether a name is a column's but for case, blanks or a plural."""
    plain = re.sub(rb"[\s_-]", b"", name).lower()
    return plain.rstrip(b"s") == column.rstrip(b"s")


def is_near(name, column):
    """Whether a name is a column's but for two letters, the beginning of it, or more around a long one."""
    plain = re.sub(rb"[\s_-]", b"", name).lower()
    if len(plain) >= 3 and column.startswith(plain) or len(column) >= 6 and column in plain:
        return True
    most = 2 if len(column) >= 5 and len(plain) >= 4 else 1 if len(column) == 4 and len(plain) >= 3 else 0
    return distance(plain, column) <= most


def misspelt(names):
    """The places of carried columns whose names may be misspelt, each with the column that may be meant."""
    for place, name in enumerate(names[:MOST_NAMES]):
        if name in READ or len(name) > LONGEST_NAME:
            continue
        for column in READ[:-1]:
            if is_same_word(name, column) or (column not in names and is_near(name, column)):
                yield place, column
                break
