#!/usr/bin/env python3
"""How much the below and the twin rule save: the lines of a search's log with both rules and without them.

A model of the search of `search_core` on buffers that are all live together: a claim that a line covers is not opened,
a buffer that is too tall gives an over line, and a claim whose choices are all refuted gives a case line. It prints a
line for each instance: so many buffers of size 2 and alignment 4 and one of size 5, at the capacity just below the least.
"""
import sys

sys.setrecursionlimit(10000)


class TooMany(Exception):
    pass


def lines_of(buffers, capacity, with_rules, most):
    """The lines of the log, or None where they are more than `most`. `buffers` are pairs of size and alignment."""
    log = []

    def up(claim, b):
        alignment = buffers[b][1]
        return -(-claim[b] // alignment) * alignment

    def is_covered(claim):
        return any(all(b in claim and bound <= up(claim, b) for b, bound in line.items()) for line in log)

    def is_excluded(claim, b):
        below = any(c != b and up(claim, c) + buffers[c][0] <= up(claim, b) for c in claim)
        twin = any(c < b and buffers[c] == buffers[b] and up(claim, c) <= up(claim, b) for c in claim)
        return below or twin

    def is_refuted(claim):
        if is_covered(claim):
            return True
        if len(log) > most:
            raise TooMany
        tall = [b for b in sorted(claim) if up(claim, b) + buffers[b][0] > capacity]
        if tall:
            log.append({tall[0]: max(capacity - buffers[tall[0]][0] + 1, 0)})
            return True
        taken = [b for b in claim if not (with_rules and is_excluded(claim, b))]
        for b in sorted(taken, key=lambda b: (up(claim, b), b)):
            top = up(claim, b) + buffers[b][0]
            if not is_refuted({c: max(up(claim, c), top) for c in claim if c != b}):
                return False
            if is_covered(claim):
                return True
        if not claim:
            return False
        log.append(dict(claim))
        return True

    try:
        is_refuted({b: 0 for b in range(len(buffers))})
    except TooMany:
        return None
    return len(log)


for count, capacity in ((6, 25), (8, 33), (12, 49)):
    buffers = [(2, 4)] * count + [(5, 1)]
    with_rules = lines_of(buffers, capacity, True, 4000)
    without = lines_of(buffers, capacity, False, 4000)
    told = "more than 4000" if without is None else without
    print(f"{count} twins at {capacity}: {with_rules} lines with the rules, {told} without")
