#!/usr/bin/env python3
"""What is printed for each log that differs in one token from the sample log, or from the same log in version 2, `second`.

Written from the definitions of a log's text and of a legal line alone, apart from the program: `changes` lists the changes, each
with the place of the token in bytes, its length and what stands in its place, and `printed` judges a log. `python3
faults.py steps` prints the steps of this case, `python3 faults.py changes` and `python3 faults.py changes2` its files of
changes.
"""
import re
import sys

NUMBER_LIMIT = 2**60
MOMENT_LIMIT = 2**62 - 1
# lower, upper, size, alignment
BUFFERS = [(0, 1, 1, 2), (0, 1, 1, 2), (0, 1, 2, 1)]
NUM = "(?:0|[1-9][0-9]*)"
PAIR = f"{NUM}={NUM}"
CITE = f"{NUM}[><~]{NUM}"
CLAIM = f"{PAIR}(?: {PAIR})*"
DIFFERENCE = f"@{NUM}(?: (?:{PAIR}|-{NUM}))*"
CITES = f"{CITE}(?: {CITE})*"


class Fault(Exception):
    pass


def rises(numbers):
    return all(a < b for a, b in zip(numbers, numbers[1:]))


def claim_of(text):
    """What a claim has: its base, or None, and its pairs or changes, where a dropped buffer has None for a bound."""
    words = text.split(" ")
    base = int(words.pop(0)[1:]) if text.startswith("@") else None
    items = []
    for word in words:
        if word.startswith("-"):
            items.append((int(word[1:]), None))
        else:
            b, bound = word.split("=")
            items.append((int(b), int(bound)))
    return base, items


def cites_of(text):
    found = []
    for cite in text.split(" "):
        b, kind, k = re.fullmatch("([0-9]+)([><~])([0-9]+)", cite).groups()
        found.append((int(b), kind, int(k)))
    return found


def claim_numbers(claim):
    base, items = claim
    return [n for item in items for n in item if n is not None] + ([] if base is None else [base])


def in_full(claim, lines):
    """The claim with its changes carried out, after these lines."""
    base, items = claim
    if base is None:
        return items
    k = len(lines)
    if base >= k:
        raise Fault(f"bad base {k}")
    before = dict(lines[base][1])
    after = dict(before)
    for b, bound in items:
        if (b not in before) if bound is None else (before.get(b) == bound):
            raise Fault(f"bad change {k}")
        after[b] = bound
    kept = sorted((b, bound) for b, bound in after.items() if bound is not None)
    if not kept:
        raise Fault(f"bad change {k}")
    return kept


def read(text):
    if "\n" not in text:
        raise Fault("not a log")
    first, rest = text.split("\n", 1)
    if not re.fullmatch(f"dsalog {NUM} {NUM} {NUM}", first):
        raise Fault("not a log")
    version, count, capacity = (int(n) for n in first.split(" ")[1:])
    if version >= 2**64 or count > NUMBER_LIMIT or capacity > NUMBER_LIMIT:
        raise Fault("not a log")
    if version not in (1, 2):
        raise Fault(f"version {version}")
    claim_form = CLAIM if version == 1 else f"(?:{CLAIM}|{DIFFERENCE})"
    lines = []
    while True:
        k = len(lines)
        if not rest:
            raise Fault("no end")
        if "\n" not in rest:
            raise Fault(f"bad line {k}")
        line, rest = rest.split("\n", 1)
        if re.fullmatch(f"end {NUM}", line):
            final = int(line[len("end "):])
            if final > NUMBER_LIMIT:
                raise Fault(f"number too large {k}")
            if rest:
                raise Fault("after end")
            return count, capacity, lines, final
        if re.fullmatch(f"over {NUM} {NUM} {NUM} : {claim_form}", line):
            start, claim_text = line[len("over "):].split(" : ")
            moment, *numbers = (int(n) for n in start.split(" "))
            cites = []
        elif re.fullmatch(f"case : {claim_form} : {CITES}", line):
            claim_text, cites_text = line[len("case : "):].split(" : ")
            cites = cites_of(cites_text)
            moment, numbers = 0, [n for cite in cites for n in (cite[0], cite[2])]
        else:
            raise Fault(f"bad line {k}")
        claim = claim_of(claim_text)
        if moment > MOMENT_LIMIT or max(numbers + claim_numbers(claim)) > NUMBER_LIMIT:
            raise Fault(f"number too large {k}")
        if not (rises([item[0] for item in claim[1]]) and rises([cite[0] for cite in cites])):
            raise Fault(f"not rising {k}")
        claim = in_full(claim, lines)
        lines.append(("case", claim, cites) if cites else ("over", claim, moment, *numbers))


def rounded(n, modulus):
    return -(-n // modulus) * modulus


def up(claim, b):
    return rounded(dict(claim)[b], BUFFERS[b][3])


def child(claim, b):
    top = up(claim, b)
    rest = []
    for c, _ in claim:
        if c != b:
            shared = max(BUFFERS[b][0], BUFFERS[c][0]) < min(BUFFERS[b][1], BUFFERS[c][1])
            more = BUFFERS[b][2] if shared else (1 if c < b else 0)
            rest.append((c, max(up(claim, c), top + more)))
    return rest


def covers(k, claim):
    there = dict(claim)
    return all(c in there and bound <= up(claim, c) for c, bound in k)


def reason(line, k, lines, capacity):
    claim = line[1]
    for b, _ in claim:
        if b >= len(BUFFERS):
            return f"buffer range {b}"
    if line[0] == "over":
        _, _, moment, height, modulus = line
        if modulus == 0:
            return "zero modulus"
        if height % modulus:
            return "not multiple"
        among = [
            b
            for b, _ in claim
            if BUFFERS[b][0] <= moment < BUFFERS[b][1] and up(claim, b) >= height and BUFFERS[b][3] % modulus == 0
        ]
        if not among:
            return "empty set"
        sizes = [BUFFERS[b][2] for b in among]
        total = sum(rounded(size, modulus) for size in sizes)
        if height + total - max(rounded(size, modulus) - size for size in sizes) <= capacity:
            return "not over"
        return None
    cites = line[2]
    if [b for b, _ in claim] != [cite[0] for cite in cites]:
        return "cites differ"
    there = dict(claim)
    for b, kind, c in cites:
        if kind == ">":
            if c >= k:
                return f"not earlier {b}"
            if not covers(lines[c][1], child(claim, b)):
                return f"not covered {b}"
        elif kind == "<":
            if c == b or c not in there or up(claim, c) + BUFFERS[c][2] > up(claim, b):
                return f"not below {b}"
        elif not (c in there and c < b and BUFFERS[c] == BUFFERS[b] and up(claim, c) <= up(claim, b)):
            return f"not twin {b}"
    return None


def printed(text):
    try:
        count, capacity, lines, final = read(text)
        if count != len(BUFFERS):
            raise Fault(f"count {count} {len(BUFFERS)}")
        for k, line in enumerate(lines):
            why = reason(line, k, lines, capacity)
            if why:
                raise Fault(f"line {k} {why}")
        if final >= len(lines):
            raise Fault(f"end {final}")
        for b, bound in lines[final][1]:
            if bound > 0:
                raise Fault(f"end {final} bound {b}")
        return f"accepted {capacity}", 0
    except Fault as fault:
        return f"refused {fault}", 1


def changes(sample):
    tokens = re.findall(r"[0-9]+|[a-z]+|[=><~:@-]|[ \n]", sample)
    assert "".join(tokens) == sample
    found, texts, at = [], [sample], 0
    for place, token in enumerate(tokens):
        if token.isdigit():
            n = int(token)
            others = [str(n + 1), "0" + token, str(NUMBER_LIMIT), str(NUMBER_LIMIT + 1)]
            others += [str(n - 1)] if n > 0 else []
            others += ["", "x"] if place % 3 == 0 else []
            others += [str(MOMENT_LIMIT), str(MOMENT_LIMIT + 1), str(2**64)] if place % 5 == 0 else []
        elif token in "=><~":
            others = [other for other in "=><~" if other != token]
        elif token in "@-":
            others = ["", "=", "-" if token == "@" else "@"]
        elif token == ":":
            others = ["", ";"]
        elif token in " \n":
            others = ["", "  "] if place % 4 == 0 else ["\t"] if place % 7 == 0 else []
        else:
            others = [other for other in ("over", "case", "end", "dsalog", token.upper()) if other != token]
        for other in others:
            text = sample[:at] + other + sample[at + len(token):]
            if text not in texts:
                texts.append(text)
                found.append((at, len(token), other, text))
        at += len(token)
    return found


def main():
    for name, made in (("sample", "c"), ("second", "d")):
        with open(f"{sys.path[0]}/before/{name}", encoding="ascii") as file:
            sample = file.read()
        assert printed(sample) == ("accepted 4", 0)
        for number, (at, length, other, text) in enumerate(changes(sample)):
            if sys.argv[1] == "steps":
                line, status = printed(text)
                print(f"$ refute --input i --log {made}{number}\n{line}\n? {status}")
            elif (sys.argv[1], name) in (("changes", "sample"), ("changes2", "second")):
                other = other.replace("\t", "\\t")
                print(f"{at}|{length}|{other}|")


main()
