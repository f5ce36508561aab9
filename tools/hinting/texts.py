"""How names, fields and numbers are shown."""

import re

NUMBER = re.compile(rb"[0-9]{1,20}")
# The limits of docs/FORMATS.md that a run's line does not tell.
TIME_LIMIT = 2**62 - 1
WORD_LIMIT = 2**60
MOST_BUFFERS = 4096
MOST_GAPS = 64


def shown(text, most=60):
    """The text between quotes, with control characters written out, and cut where it is long."""
    if isinstance(text, bytes):
        text = text.decode("utf-8", "backslashreplace")
    text = "".join(c if c.isprintable() else c.encode("unicode_escape").decode() for c in text)
    return f"'{text[:most]}..'" if len(text) > most else f"'{text}'"


def why_no_number(field, limit):
    """What keeps a field from being a number, or nothing."""
    if not NUMBER.fullmatch(field):
        return "is no number of 1 to 20 digits"
    if int(field) > limit:
        return f"is above {power(limit)}"
    return ""


def is_above(digits, limit):
    """Whether digits, however many, write a number above a limit."""
    kept = digits.lstrip(b"0")
    return len(kept) > 20 or int(kept or b"0") > limit


def power(limit):
    """A limit as a reader writes it."""
    for exponent in (32, 40, 60, 62, 64):
        if limit in (2**exponent, 2**exponent - 1):
            return f"2^{exponent}" if limit == 2**exponent else f"2^{exponent} - 1"
    return str(limit)


def distance(one, other):
    """How many letters are to be put in, taken out or changed to make one word of the other."""
    row = list(range(len(other) + 1))
    for i, a in enumerate(one, 1):
        before, row[0] = row[0], i
        for j, b in enumerate(other, 1):
            before, row[j] = row[j], min(row[j] + 1, row[j - 1] + 1, before + (a != b))
    return row[-1]


def nearest(word, words):
    """The word that is nearest, if it begins as the word does or is no further than two letters, or than one of a word of
    four or less, and than half of the word."""
    best = min(words, key=lambda it: (not it.startswith(word) or len(word) < 3, distance(word, it)))
    near = distance(word, best) <= min(2 if len(word) > 4 else 1, len(word) // 2) or (len(word) >= 3 and best.startswith(word))
    return best if near else None
