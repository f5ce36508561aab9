"""dsaplan for Python: offsets for buffers of known lifetime, size and alignment, so that no two that are live at the same
moment overlap, or the proved answer that they do not fit.

    from dsaplan import Buffer, least, pack, solve

    buffers = [Buffer(0, 3, 4), Buffer(3, 9, 4), Buffer(0, 9, 4), Buffer(9, 21, 4), Buffer(0, 21, 4)]
    solve(buffers, 12)   # [0, 0, 4, 0, 8]
    solve(buffers, 11)   # None: no layout fits
    least(buffers)       # Layout(offsets=[0, 0, 4, 0, 8], height=12, low=12)
    pack(buffers, 1000)  # the lowest layout that 1,000 steps find

It loads libdsaplan.so, which bindings/build makes, from the folder that DSAPLAN_LIBRARY names or from bindings/out.
Moments, bytes and limits are as the program's README has them.
"""

import ctypes
import os
from typing import Iterable, List, NamedTuple, Optional, Tuple

__all__ = ["BadBuffer", "Buffer", "DsaplanError", "Layout", "StepsUsedUp", "TooManyBuffers", "least", "pack", "solve"]


class Buffer(NamedTuple):
    """A buffer that lives from `lower` up to and not including `upper`, and takes `size` bytes.

    Its offset is a multiple of `alignment` and at least `lowest`. Each gap (a, b) is a part of the lifetime, from a up to
    and not including b, in which it holds no storage; it keeps its offset after it.
    """

    lower: int
    upper: int
    size: int
    alignment: int = 1
    lowest: int = 0
    gaps: Tuple[Tuple[int, int], ...] = ()


class Layout(NamedTuple):
    """The offsets, in bytes, by the buffers' numbers; their height; and `low`: no layout fits within less.

    The height is the least capacity where it is `low`.
    """

    offsets: List[int]
    height: int
    low: int


class DsaplanError(ValueError):
    """The buffers can't be planned."""


class TooManyBuffers(DsaplanError):
    """There are more buffers than the planner takes."""


class BadBuffer(DsaplanError):
    """A buffer has a fault: `buffer` is its number, `fault` the fault's name and `gap` the gap's number, if a gap has it."""

    def __init__(self, buffer, fault, gap):
        self.buffer, self.fault, self.gap = buffer, fault, gap
        super().__init__(f"buffer {buffer}: " + FAULTS[fault].format(gap=gap))


class StepsUsedUp(Exception):
    """The search has opened as many claims as it may, and the capacity is not decided."""


# the faults of a buffer by their names, from number 2 on as in dsaplan.h
FAULTS = {
    "time_too_large": "the lifetime begins or ends at 2^62 or later",
    "empty_lifetime": "the lifetime holds no moment",
    "zero_size": "the size is 0",
    "too_large": "the size is above 2^40",
    "zero_alignment": "the alignment is 0",
    "alignment_too_large": "the alignment is above 2^32",
    "gap_empty": "gap {gap} holds no moment",
    "gap_outside": "gap {gap} leaves the lifetime",
    "too_many_gaps": "there are too many gaps",
    "never_live": "the gaps cover the lifetime",
    "lowest_too_large": "the least offset is above 2^40",
}
FAULT_NAMES = list(FAULTS)

FITS, DOES_NOT_FIT, OPEN, LENGTHS_DIFFER, BAD_BUFFERS, NO_MEMORY = 0, 1, 2, 3, 4, 6
TOO_MANY = 1
WORD = 2**64


class _Gap(ctypes.Structure):
    _fields_ = [("from_", ctypes.c_uint64), ("to", ctypes.c_uint64)]


class _Detail(ctypes.Structure):
    _fields_ = [
        ("low", ctypes.c_uint64),
        ("high", ctypes.c_uint64),
        ("buffer", ctypes.c_uint32),
        ("fault", ctypes.c_uint32),
        ("gap", ctypes.c_uint32),
    ]


def _load():
    here = os.path.dirname(os.path.abspath(__file__))
    folder = os.environ.get("DSAPLAN_LIBRARY") or os.path.join(os.path.dirname(here), "out")
    try:
        library = ctypes.CDLL(os.path.join(folder, "libdsaplan.so"))
    except OSError as error:
        raise OSError(f"{error}: bindings/build makes it") from error
    words = [ctypes.POINTER(ctypes.c_uint64), ctypes.c_size_t]
    arrays = words * 5 + [ctypes.POINTER(_Gap), ctypes.c_size_t, ctypes.POINTER(ctypes.c_uint32), ctypes.c_size_t]
    limit = [ctypes.c_bool, ctypes.c_uint64]
    result = words + [ctypes.POINTER(_Detail)]
    library.dsaplan_plan_at.argtypes = arrays + [ctypes.c_uint64] + limit + result
    library.dsaplan_plan_at.restype = ctypes.c_uint32
    library.dsaplan_least.argtypes = arrays + limit + result
    library.dsaplan_least.restype = ctypes.c_uint32
    library.dsaplan_pack.argtypes = arrays + [ctypes.c_uint64] + result
    library.dsaplan_pack.restype = ctypes.c_uint32
    return library


_library = _load()


def _word(number, what):
    """The number, if 64 bits hold it."""
    if not 0 <= number < WORD:
        raise DsaplanError(f"{what} is not in 0 to 2^64 - 1: {number}")
    return number


def _array(kind, items):
    """A C array of the items, with room for one at least, so that there is an address, and how many they are."""
    array = (kind * max(len(items), 1))()
    array[: len(items)] = items
    return array, len(items)


def _arrays(buffers):
    """The arguments of a call that tell of the buffers."""
    arguments = []
    for field in ("lower", "upper", "size", "alignment", "lowest"):
        numbers = [_word(getattr(buffer, field), f"{field} of buffer {b}") for b, buffer in enumerate(buffers)]
        arguments.extend(_array(ctypes.c_uint64, numbers))
    gaps = [
        _Gap(_word(start, f"a gap of buffer {b}"), _word(end, f"a gap of buffer {b}"))
        for b, buffer in enumerate(buffers)
        for start, end in buffer.gaps
    ]
    arguments.extend(_array(_Gap, gaps))
    arguments.extend(_array(ctypes.c_uint32, [len(buffer.gaps) for buffer in buffers]))
    return arguments


def _call(function, buffers, *numbers):
    """The status, the offsets and the detail of a call, where it has an answer."""
    buffers = [buffer if isinstance(buffer, Buffer) else Buffer(*buffer) for buffer in buffers]
    offsets, count = _array(ctypes.c_uint64, [0] * len(buffers))
    detail = _Detail()
    status = function(*_arrays(buffers), *numbers, offsets, count, ctypes.byref(detail))
    if status == BAD_BUFFERS and detail.fault == TOO_MANY:
        raise TooManyBuffers(f"there are too many buffers: {count}")
    if status == BAD_BUFFERS:
        raise BadBuffer(detail.buffer, FAULT_NAMES[detail.fault - 2], detail.gap)
    if status == NO_MEMORY:
        raise MemoryError("memory has run out")
    if status not in (FITS, DOES_NOT_FIT, OPEN):
        raise DsaplanError(f"the library has answered {status}")
    return status, offsets[:count], detail


def _limit(steps):
    return (False, 0) if steps is None else (True, _word(steps, "steps"))


def solve(buffers: Iterable[Buffer], capacity: int, steps: Optional[int] = None) -> Optional[List[int]]:
    """The offsets of a layout within `capacity` bytes, or None: no layout fits.

    With `steps`, StepsUsedUp is raised where they are used up before that is known. A bad buffer raises BadBuffer.
    """
    status, offsets, _ = _call(_library.dsaplan_plan_at, buffers, _word(capacity, "capacity"), *_limit(steps))
    if status == OPEN:
        raise StepsUsedUp(f"the capacity {capacity} is not decided with {steps} steps")
    return offsets if status == FITS else None


def least(buffers: Iterable[Buffer], steps: Optional[int] = None) -> Layout:
    """A layout of the least capacity.

    With `steps` the search may stop early: then `low` is below the height, and the least capacity lies between them.
    A bad buffer raises BadBuffer.
    """
    _, offsets, detail = _call(_library.dsaplan_least, buffers, *_limit(steps))
    return Layout(offsets, detail.high, detail.low)


def pack(buffers: Iterable[Buffer], steps: int) -> Layout:
    """The lowest layout that is found in `steps` steps.

    A step is a claim that a search opens; placing all n buffers anew counts as 1/8 + n**2/2**17 of one.
    The height is the least capacity where it is `low`. A bad buffer raises BadBuffer.
    """
    _, offsets, detail = _call(_library.dsaplan_pack, buffers, _word(steps, "steps"))
    return Layout(offsets, detail.high, detail.low)
