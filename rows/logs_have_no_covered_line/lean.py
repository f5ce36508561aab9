"""The logs of searches on made instances, judged by the definitions of docs/DEFINITIONS.md, written here once more: every
line is legal, no line is covered by an earlier one, Over lines are as low as they can be, Cases lines cite below and twin
wherever that is legal, and all buffers of a log are of one part.

    lean.py PROGRAM SEEDS COUNT

For each seed an instance of so many buffers is made by the rule of docs/FORMATS.md and solved at each capacity from its
bound on that has no layout. A line comes of a claim that was opened, so with fewer steps than the log has lines the
search does not end. Says what is wrong, and fails; or how many logs and lines there were.
"""
import subprocess
import sys
from functools import lru_cache


def made(seed, count):
    """The rows of the made instance: lower, upper, size, alignment, gaps."""
    x = 1 + seed % 2147483646

    def draw(below):
        nonlocal x
        x = x * 48271 % 2147483647
        return x % below

    rows = []
    for _ in range(count):
        lower = draw(2 * count)
        length = 1 + draw(16)
        size, alignment = 1 + draw(64), 1 + draw(4)
        gaps = [(lower + 1, lower + length - 1)] if draw(4) == 0 and length >= 3 else []
        rows.append((lower, lower + length, size, alignment, gaps))
    return rows


def text_of(rows):
    lines = ["id,lower,upper,size,alignment,gaps"]
    for i, (lower, upper, size, alignment, gaps) in enumerate(rows):
        lines.append(f"b{i},{lower},{upper},{size},{alignment}," + " ".join(f"{a}-{b}" for a, b in gaps))
    return "\n".join(lines) + "\n"


def rounded(x, modulus):
    return -(-x // modulus) * modulus


class Instance:
    def __init__(self, rows):
        self.rows = rows
        self.moments = [
            frozenset(t for t in range(lower, upper) if not any(a <= t < b for a, b in gaps))
            for lower, upper, _, _, gaps in rows
        ]

    def size(self, b):
        return self.rows[b][2]

    def alignment(self, b):
        return self.rows[b][3]

    def up(self, claim, b):
        return rounded(claim[b], self.alignment(b))

    def child(self, claim, b):
        made = {}
        for c in claim:
            if c != b:
                step = self.size(b) if self.moments[b] & self.moments[c] else int(c < b)
                made[c] = max(self.up(claim, c), self.up(claim, b) + step)
        return made

    def covers(self, k, claim):
        return all(b in claim and bound <= self.up(claim, b) for b, bound in k.items())

    def ends_below(self, claim, c, b):
        return c != b and c in claim and self.up(claim, c) + self.size(c) <= self.up(claim, b)

    def is_twin(self, claim, c, b):
        alike = c < b and c in claim and self.moments[c] == self.moments[b] and self.rows[c][2:4] == self.rows[b][2:4]
        return alike and self.up(claim, c) <= self.up(claim, b)

    def has_own(self, claim, b):
        return any(self.ends_below(claim, c, b) or self.is_twin(claim, c, b) for c in claim)

    def is_over(self, capacity, claim, moment, height, modulus):
        if not claim or modulus < 1 or height % modulus:
            return False
        stacked = [
            b
            for b in claim
            if moment in self.moments[b] and self.up(claim, b) >= height and self.alignment(b) % modulus == 0
        ]
        sizes = [rounded(self.size(b), modulus) for b in stacked]
        spare = [rounded(self.size(b), modulus) - self.size(b) for b in stacked]
        return bool(stacked) and height + sum(sizes) - max(spare) > capacity

    def is_legal_cite(self, lines, claim, b, mark, other):
        if mark == ">":
            return other < len(lines) and self.covers(lines[other], self.child(claim, b))
        return self.ends_below(claim, other, b) if mark == "<" else self.is_twin(claim, other, b)

    def parts(self):
        """For each buffer the greatest cut at or below its lifetime: buffers of one part have the same one."""
        ends = {t for lower, upper, *_ in self.rows for t in (lower, upper)}
        cuts = [t for t in ends if not any(lower < t < upper for lower, upper, *_ in self.rows)]
        return [max(t for t in cuts if t <= row[0]) for row in self.rows]

    def bound(self):
        """The lower bound."""
        best = 0
        for moment in set().union(*self.moments):
            for modulus in {1} | {row[3] for row in self.rows}:
                live = [b for b in range(len(self.rows)) if moment in self.moments[b]]
                sizes = [self.size(b) for b in live if self.alignment(b) % modulus == 0]
                if sizes:
                    best = max(best, sum(rounded(x, modulus) for x in sizes) - max(rounded(x, modulus) - x for x in sizes))
        return best


def wants(holds, *what):
    if not holds:
        sys.exit(" ".join(str(word) for word in what))


def claim_of(words):
    pairs = [word.split("=") for word in words.split()]
    return {int(b): int(bound) for b, bound in pairs}


def judge_over(instance, capacity, k, claim, moment, height, modulus):
    wants(instance.is_over(capacity, claim, moment, height, modulus), "line", k, "is not over")
    wants(all(moment in instance.moments[b] for b in claim), "line", k, "has a buffer that is not live")
    wants(all(bound == height for bound in claim.values()), "line", k, "has a bound beside its height")
    lower = height - modulus
    lowest = height == 0 or not instance.is_over(capacity, {b: lower for b in claim}, moment, lower, modulus)
    wants(lowest, "line", k, "could be lower")


def judge_cases(instance, lines, k, claim, cites):
    wants([b for b, _, _ in cites] == sorted(claim), "line", k, "has other cites than buffers")
    for b, mark, other in cites:
        wants(instance.is_legal_cite(lines, claim, b, mark, other), "line", k, "has an illegal cite of", b)
        wants(mark != ">" or not instance.has_own(claim, b), "line", k, "cites a line for", b)


def judge(instance, capacity, text):
    """The number of lines of the log, which has to be accepted at the capacity and without waste."""
    head, *body, end = text.splitlines()
    wants(head == f"dsalog 1 {len(instance.rows)} {capacity}", "another first line")
    lines = []
    for k, line in enumerate(body):
        kind, words, *rest = (piece.strip() for piece in line.split(":"))
        kind, *numbers = kind.split()
        claim = claim_of(words)
        wants(claim and all(b < len(instance.rows) for b in claim), "line", k, "has no claim of the instance")
        if kind == "over":
            judge_over(instance, capacity, k, claim, *map(int, numbers))
        else:
            marks = [(word, next(m for m in "><~" if m in word)) for word in rest[0].split()]
            cites = [(int(word.split(m)[0]), m, int(word.split(m)[1])) for word, m in marks]
            judge_cases(instance, lines, k, claim, cites)
        for j, earlier in enumerate(lines):
            wants(not instance.covers(earlier, claim), "line", k, "is covered by line", j)
        lines.append(claim)
    word, final = end.split()
    wants(word == "end" and not any(lines[int(final)].values()), "the end is not whole")
    parts = instance.parts()
    wants(len({parts[b] for claim in lines for b in claim}) == 1, "buffers of two parts")
    return len(lines)


def answer(program, *words):
    return subprocess.run([program, *words], stdout=subprocess.PIPE, check=False).stdout.decode()


def main():
    program, seeds, count = sys.argv[1], int(sys.argv[2]), int(sys.argv[3])
    logs, most, lines = 0, 0, 0
    wants(answer(program) == "usage no command\n", "no program")
    for seed in range(1, seeds + 1):
        instance = Instance(made(seed, count))
        with open("i", "w", encoding="ascii") as file:
            file.write(text_of(instance.rows))
        facts = dict(line.split(" ", 1) for line in answer(program, "bounds", "--input", "i").splitlines())
        bound, best = int(facts["bound"].split()[0]), int(facts["best"])
        wants(bound == instance.bound(), "seed", seed, "has another bound")
        for capacity in range(bound, best):
            words = ["solve", "--capacity", str(capacity), "--input", "i", "--output", "o", "--log", "l"]
            if answer(program, *words) != f"infeasible {capacity}\n":
                break
            with open("l", encoding="ascii") as file:
                size = judge(instance, capacity, file.read())
            early = answer(program, *words, "--steps", str(size - 1))
            wants(early == f"open {bound} {best}\n", "seed", seed, "ends in fewer steps than lines at", capacity)
            logs, most, lines = logs + 1, max(most, size), lines + size
    print(logs, "logs of", lines, "lines, at most", most)
    wants(logs >= seeds and most > 100, "too few logs or lines to show anything")


main()
