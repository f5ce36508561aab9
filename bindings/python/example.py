#!/usr/bin/env python3
"""Plans the buffers of examples/network.py without a file: a layout within the height of the best one, and none below."""

import os
import sys

HERE = os.path.dirname(os.path.abspath(__file__))
sys.path[:0] = [HERE, os.path.join(HERE, "..", "..", "examples")]

import network  # noqa: E402
from dsaplan import Buffer, least, solve  # noqa: E402


def gaps_of(text):
    """The gaps that a field writes, as 4-6 8-9."""
    return tuple(tuple(map(int, gap.split("-"))) for gap in text.split())


rows = list(network.rows())
buffers = [
    Buffer(lower, upper, size, alignment, gaps=gaps_of(gaps)) for _, lower, upper, size, alignment, gaps in rows
]

best = least(buffers)
print(f"least: {best.height}")
print(f"within {best.height - 1}: {solve(buffers, best.height - 1)}")
for (name, *_), offset in list(zip(rows, best.offsets))[:5]:
    print(f"{name} at {offset}")
