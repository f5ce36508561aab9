"""Tests of the planner for Python: random instances against a judge from the definitions, and what is no instance."""

import ctypes
import os
import random
import sys
import unittest

sys.path.insert(0, os.path.join(os.path.dirname(os.path.abspath(__file__)), "..", "python"))

import dsaplan  # noqa: E402
from dsaplan import BadBuffer, Buffer, DsaplanError, StepsUsedUp, TooManyBuffers, least, pack, solve  # noqa: E402

FIVE = [Buffer(0, 3, 4), Buffer(3, 9, 4), Buffer(0, 9, 4), Buffer(9, 21, 4), Buffer(0, 21, 4)]
BUFFER_LIMIT = 4096


# ---- the judge
def is_live(buffer, moment):
    inside = buffer.lower <= moment < buffer.upper
    return inside and not any(start <= moment < end for start, end in buffer.gaps)


def share(one, other):
    return any(is_live(one, moment) and is_live(other, moment) for moment in range(one.lower, one.upper))


def are_apart(one, x, other, y):
    return x + one.size <= y or y + other.size <= x


def is_layout(buffers, capacity, offsets):
    fits = len(offsets) == len(buffers) and all(
        offset % buffer.alignment == 0 and buffer.lowest <= offset and offset + buffer.size <= capacity
        for buffer, offset in zip(buffers, offsets)
    )
    return fits and all(
        are_apart(buffers[b], offsets[b], buffers[c], offsets[c])
        for b in range(len(buffers))
        for c in range(b)
        if share(buffers[b], buffers[c])
    )


def is_feasible(buffers, capacity, offsets=()):
    """Whether some layout begins with these offsets: each offset of the next buffer is tried."""
    b = len(offsets)
    if b == len(buffers):
        return True
    buffer = buffers[b]
    rivals = [c for c in range(b) if share(buffer, buffers[c])]
    return any(
        all(are_apart(buffer, x, buffers[c], offsets[c]) for c in rivals)
        and is_feasible(buffers, capacity, offsets + (x,))
        for x in range(buffer.lowest + -buffer.lowest % buffer.alignment, capacity - buffer.size + 1, buffer.alignment)
    )


# ---- random instances
def random_buffer(rng):
    lower = rng.randrange(6)
    upper = lower + rng.randrange(1, 7)
    gaps = ()
    if upper - lower >= 3 and rng.random() < 0.4:
        start = rng.randrange(lower, upper - 1)
        end = rng.randrange(start + 1, upper)
        gaps = ((start, end),)
    lowest = rng.choice([0, 0, 0, 1, 2, 5])
    return Buffer(lower, upper, rng.randrange(1, 6), rng.choice([1, 1, 2, 3, 4]), lowest, gaps)


class RandomInstances(unittest.TestCase):
    def test_a_thousand_instances(self):
        rng = random.Random(39)
        answers = {True: 0, False: 0}
        for _ in range(1000):
            buffers = [random_buffer(rng) for _ in range(rng.randrange(6))]
            capacity = rng.randrange(16)
            offsets = solve(buffers, capacity)
            answers[offsets is not None] += 1
            with self.subTest(buffers=buffers, capacity=capacity):
                self.assertEqual(offsets is not None, is_feasible(buffers, capacity))
                if offsets is not None:
                    self.assertTrue(is_layout(buffers, capacity, offsets))
                best = least(buffers)
                self.assertEqual(best.low, best.height)
                self.assertTrue(is_layout(buffers, best.height, best.offsets))
                self.assertFalse(best.height > 0 and is_feasible(buffers, best.height - 1))
                packed = pack(buffers, rng.randrange(40))
                self.assertTrue(is_layout(buffers, packed.height, packed.offsets))
                self.assertTrue(packed.low <= best.height <= packed.height)
        self.assertGreater(min(answers.values()), 200)


class Answers(unittest.TestCase):
    def test_five_buffers(self):
        self.assertEqual(solve(FIVE, 12), [0, 0, 4, 0, 8])
        self.assertIsNone(solve(FIVE, 11))
        self.assertEqual(least(FIVE), ([0, 0, 4, 0, 8], 12, 12))

    def test_no_buffers(self):
        self.assertEqual(solve([], 0), [])
        self.assertEqual(least([]), ([], 0, 0))

    def test_plain_tuples_are_buffers(self):
        self.assertEqual(solve([(0, 1, 3), (0, 1, 1, 4)], 4), [1, 0])

    def test_an_alignment_is_kept(self):
        self.assertEqual(least([Buffer(0, 1, 3, 4), Buffer(0, 1, 3, 4)]), ([0, 4], 7, 7))

    def test_a_lowest_is_kept(self):
        self.assertEqual(least([Buffer(0, 1, 3, lowest=10)]), ([10], 13, 13))

    def test_a_gap_is_filled(self):
        gapped = Buffer(0, 10, 4, gaps=((4, 6),))
        self.assertEqual(least([gapped, Buffer(4, 6, 4)]).height, 4)
        self.assertEqual(least([gapped, Buffer(4, 7, 4)]).height, 8)

    def test_steps_run_out(self):
        below = [Buffer(0, 1, 3), Buffer(0, 1, 1, 4)]
        for steps in range(4):
            with self.assertRaises(StepsUsedUp):
                solve(below, 4, steps=steps)
        self.assertEqual(solve(below, 4, steps=4), [1, 0])
        self.assertEqual(least(below, steps=0), ([0, 4], 5, 4))
        self.assertEqual(pack(below, 0), ([0, 4], 5, 4))

    def test_packed_with_steps_enough(self):
        self.assertEqual(pack([Buffer(0, 1, 3), Buffer(0, 1, 1, 4)], 2**64 - 1), ([1, 0], 4, 4))
        self.assertEqual(pack(FIVE, 0), ([0, 0, 4, 0, 8], 12, 12))
        self.assertEqual(pack([], 0), ([], 0, 0))

    def test_any_capacity_may_be_given(self):
        self.assertEqual(solve(FIVE, 2**64 - 1), solve(FIVE, 2**60))

    def test_as_many_buffers_as_may_be(self):
        self.assertEqual(least([Buffer(0, 1, 1)] * BUFFER_LIMIT).height, BUFFER_LIMIT)


class Faults(unittest.TestCase):
    def assert_bad(self, fault, buffer, gap=0):
        for call in (lambda b: solve(b, 100), least, lambda b: pack(b, 100)):
            with self.assertRaises(BadBuffer) as raised:
                call([Buffer(0, 3, 4), buffer, Buffer(0, 0, 0)])
            told = raised.exception
            self.assertEqual((told.buffer, told.fault, told.gap), (1, fault, gap))

    def test_each_fault_of_a_buffer(self):
        self.assert_bad("time_too_large", Buffer(0, 2**62, 4))
        self.assert_bad("empty_lifetime", Buffer(3, 3, 4))
        self.assert_bad("zero_size", Buffer(0, 3, 0))
        self.assert_bad("too_large", Buffer(0, 3, 2**40 + 1))
        self.assert_bad("zero_alignment", Buffer(0, 3, 4, 0))
        self.assert_bad("alignment_too_large", Buffer(0, 3, 4, 2**32 + 1))
        self.assert_bad("gap_empty", Buffer(0, 9, 4, gaps=((1, 2), (3, 3))), gap=1)
        self.assert_bad("gap_outside", Buffer(0, 9, 4, gaps=((1, 2), (3, 10))), gap=1)
        self.assert_bad("too_many_gaps", Buffer(0, 199, 4, gaps=tuple((2 * k + 1, 2 * k + 2) for k in range(65))))
        self.assert_bad("never_live", Buffer(0, 3, 4, gaps=((0, 3),)))
        self.assert_bad("lowest_too_large", Buffer(0, 3, 4, lowest=2**40 + 1))

    def test_one_buffer_too_many(self):
        many = [Buffer(0, 1, 1)] * (BUFFER_LIMIT + 1)
        with self.assertRaises(TooManyBuffers):
            solve(many, 1)
        with self.assertRaises(TooManyBuffers):
            least(many)

    def test_numbers_past_64_bits(self):
        with self.assertRaises(DsaplanError):
            solve([Buffer(-1, 3, 4)], 4)
        with self.assertRaises(DsaplanError):
            solve(FIVE, 2**64)


class Written(unittest.TestCase):
    """What the library itself writes: nothing, unless it answers with a layout."""

    OLD = 77

    def call(self, buffers, capacity=12, lengths=(0,) * 7, count=None):
        """The status, the detail and the offsets of a call, with so much added to the length of each array."""
        arguments = dsaplan._arrays(buffers)
        for k, more in enumerate(lengths):
            arguments[2 * k + 1] += more
        count = len(buffers) if count is None else count
        offsets = (ctypes.c_uint64 * max(count, 1))(*[self.OLD] * count)
        detail = dsaplan._Detail()
        status = dsaplan._library.dsaplan_plan_at(
            *arguments, capacity, False, 0, offsets, count, ctypes.byref(detail)
        )
        return status, detail, offsets[:count]

    def test_a_layout(self):
        status, detail, offsets = self.call(FIVE)
        self.assertEqual((status, detail.fault, offsets), (dsaplan.FITS, 0, [0, 0, 4, 0, 8]))

    def assert_unwritten(self, wanted, fault, told):
        status, detail, offsets = told
        self.assertEqual((status, detail.fault), (wanted, fault))
        self.assertEqual(set(offsets), {self.OLD})

    def test_nothing_where_nothing_fits(self):
        self.assert_unwritten(dsaplan.DOES_NOT_FIT, 0, self.call(FIVE, capacity=11))

    def test_nothing_where_lengths_differ(self):
        gapped = [Buffer(0, 10, 4, gaps=((4, 6),)), Buffer(4, 6, 4)]
        for k in range(7):
            lengths = tuple(-(j == k) for j in range(7))
            self.assert_unwritten(dsaplan.LENGTHS_DIFFER, 0, self.call(gapped, lengths=lengths))
        self.assert_unwritten(dsaplan.LENGTHS_DIFFER, 0, self.call(gapped, count=1))
        self.assert_unwritten(dsaplan.LENGTHS_DIFFER, 0, self.call(gapped, count=3))

    def test_nothing_with_a_size_of_0(self):
        self.assert_unwritten(dsaplan.BAD_BUFFERS, 4, self.call([Buffer(0, 3, 0)]))

    def test_nothing_with_an_empty_lifetime(self):
        self.assert_unwritten(dsaplan.BAD_BUFFERS, 3, self.call([Buffer(3, 3, 4)]))

    def test_pack_writes_a_layout_or_nothing(self):
        for buffers, wanted in ((FIVE, (dsaplan.FITS, [0, 0, 4, 0, 8])), ([Buffer(0, 3, 0)], (dsaplan.BAD_BUFFERS, [self.OLD]))):
            offsets, detail = (ctypes.c_uint64 * len(buffers))(*[self.OLD] * len(buffers)), dsaplan._Detail()
            status = dsaplan._library.dsaplan_pack(
                *dsaplan._arrays(buffers), 0, offsets, len(buffers), ctypes.byref(detail)
            )
            self.assertEqual((status, offsets[:]), wanted)

    def test_nothing_with_one_buffer_too_many(self):
        self.assert_unwritten(dsaplan.BAD_BUFFERS, 1, self.call([Buffer(0, 1, 1)] * (BUFFER_LIMIT + 1)))


if __name__ == "__main__":
    unittest.main()
