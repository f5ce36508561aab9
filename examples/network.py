#!/usr/bin/env python3
"""Prints network.csv: the buffers of a small net, as a compiler for a small device would list them.

The net tells what is seen in a frame of a film, 96 x 96 with three channels. A stem makes the frame smaller; two blocks
of four branches each mix it; what went into the first block is joined to what comes out of the second; and a state goes
from frame to frame. A step is one operator, and a moment is the number of a step. Activations and weights have 8 bits,
sums have 32, and sizes are in bytes.

  X.out      what operator X writes: from its own step to after the last step that reads it
  X.weights  the weights of a convolution, copied from flash one step ahead
  X.patches  the patches of one row that a convolution of 3 x 3 gathers, for its own step
  X.sums     the sums of one row of a convolution, for its own step
"""

# the operators in order: name, kind, what it reads, and side and channels of what it writes
NET = [
    ("frame", "load", [], 96, 3),
    ("stem1", "conv3", ["frame"], 48, 8),
    ("stem2", "conv3", ["stem1"], 48, 16),
    ("pool", "pool", ["stem2"], 24, 16),
    ("mix1a", "conv1", ["pool"], 24, 16),
    ("mix1b1", "conv1", ["pool"], 24, 12),
    ("mix1b2", "conv3", ["mix1b1"], 24, 16),
    ("mix1c1", "conv1", ["pool"], 24, 4),
    ("mix1c2", "conv3", ["mix1c1"], 24, 4),
    ("mix1c3", "conv3", ["mix1c2"], 24, 12),
    ("mix1d1", "pool", ["pool"], 24, 16),
    ("mix1d2", "conv1", ["mix1d1"], 24, 24),
    ("mix1", "join", ["mix1a", "mix1b2", "mix1c3", "mix1d2", "state"], 24, 76),
    ("mix2a", "conv1", ["mix1"], 24, 16),
    ("mix2b1", "conv1", ["mix1"], 24, 4),
    ("mix2b2", "conv3", ["mix2b1"], 24, 12),
    ("mix2c1", "conv1", ["mix1"], 24, 8),
    ("mix2c2", "conv3", ["mix2c1"], 24, 24),
    ("mix2c3", "conv3", ["mix2c2"], 24, 24),
    ("mix2d1", "pool", ["mix1"], 24, 76),
    ("mix2d2", "conv1", ["mix2d1"], 24, 16),
    ("mix2", "join", ["mix2a", "mix2b2", "mix2c3", "mix2d2"], 24, 68),
    ("skip", "join", ["pool", "mix2"], 24, 84),
    ("state", "conv1", ["skip"], 24, 8),
    ("mean", "mean", ["skip"], 1, 84),
    ("scores", "conv1", ["mean"], 1, 10),
]

# What a gap stands for. What the pool wrote is copied out one step after the first block has read it, and back to the
# same place one step before it is joined. The state of the last frame is there from the start, is read once, and is
# written anew later, at the same place.
SPILLED, KEPT = "pool", "state"

# where vectors and copies begin, and where rows of scratch do
TENSOR, SCRATCH = 64, 16

step_of = {name: step for step, (name, *_) in enumerate(NET)}
channels_of = {name: channels for name, _, _, _, channels in NET}
readers_of = {name: [step_of[other] for other, _, reads, _, _ in NET if name in reads] for name in step_of}


def out_row(name, side, channels):
    step, readers, size = step_of[name], readers_of[name], side * side * channels
    if name == KEPT:
        return f"{name}.out", 0, len(NET), size, TENSOR, f"{readers[0] + 1}-{step}"
    gap = f"{readers[-2] + 2}-{readers[-1] - 1}" if name == SPILLED else ""
    return f"{name}.out", step, max([step] + readers) + 1, size, TENSOR, gap


def convolution_rows(name, width, inputs, side, channels):
    step = step_of[name]
    yield f"{name}.weights", step - 1, step + 1, width * width * inputs * channels, TENSOR, ""
    if width > 1:
        yield f"{name}.patches", step, step + 1, side * width * width * inputs, SCRATCH, ""
    yield f"{name}.sums", step, step + 1, side * channels * 4, SCRATCH, ""


def rows():
    for name, kind, reads, side, channels in NET:
        yield out_row(name, side, channels)
        if kind.startswith("conv"):
            yield from convolution_rows(name, int(kind[4:]), channels_of[reads[0]], side, channels)


if __name__ == "__main__":
    print("id,lower,upper,size,alignment,gaps")
    for row in rows():
        print(*row, sep=",")
