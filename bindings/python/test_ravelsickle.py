"""The entries through Python: the worked examples, every refusal with what it leaves, and every way of giving rows."""

import ctypes
import doctest
import math
import os
import pickle
import random
import struct
import subprocess
import sys
import unittest
from array import array
from fractions import Fraction
from pathlib import Path

import ravelsickle
from ravelsickle import Answer, Bounds, Collector, Frame, Link, Refusal, Solved, Tolerances, WarmStart

try:
    import numpy
except ImportError:
    numpy = None

S3 = [1.0, 1.0, 2.0, -1.0, 1.0, 0.0]
S4 = [0.0, 1.0, 1.0, 0.0, -1.0, -2.0]
S5 = [-1.0, 0.0, 0.0, 1.0, 0.0, 1.0]
Z1 = [0.0, 1.0, 0.0, 1.0, 0.0, -1.0]
TILTED = [3.0, 4.0, 10.0, -3.0, 4.0, 10.0]
TILTED_UNIT = [3 * 0.2, 0.8, 2.0, -3 * 0.2, 0.8, 2.0]
# one row more than an entry takes
TOO_MANY = [3.0, 4.0, 10.0] * (ravelsickle.ROW_LIMIT + 1)
FRAME = Frame(bound=1e6, epsilon=1e-9, reduced=1e-8)
# the lines of 13.12 in docs/RULES.md
SAMPLE_LINES = [
    "1 point 3FF0000000000000 3FF0000000000000 0 1 7",
    "2 point 0000000000000000 4000000000000000 1 - 23",
    "end 2",
]
# a record of kind 9 with an empty body
STRANGE = bytes([0, 0, 0, 0, 9, 0])


def by_rows(floats):
    return [tuple(floats[k : k + 3]) for k in range(0, len(floats), 3)]


def bits(x):
    return struct.pack("<d", x).hex()


def ctypes_address(view):
    return ctypes.addressof(ctypes.c_char.from_buffer(view))


class Checked(unittest.TestCase):
    def refused(self, number, call, *words, **named):
        with self.assertRaises(Refusal) as raised:
            call(*words, **named)
        self.assertEqual(raised.exception.number, number)
        return raised.exception


class Solving(Checked):
    def solve_each_way(self, floats, **named):
        """Solves the rows flat, by rows and in a buffer, and without an allowance by the original's own entry too. All
        do the same. Gives the outcome and the rows left."""
        flat, rows, buffer = list(floats), by_rows(floats), array("d", floats)
        outcomes = []
        for given in (flat, rows, buffer):
            try:
                outcomes.append(ravelsickle.solve(given, **named))
            except Refusal as refusal:
                outcomes.append((refusal.number, refusal.count))
        self.assertEqual(outcomes[0], outcomes[1])
        self.assertEqual(outcomes[0], outcomes[2])
        self.assertEqual(by_rows(flat), rows)
        self.assertEqual(flat, buffer.tolist())
        if "allowance" not in named:
            again = list(floats)
            self.assertEqual(ravelsickle.lp_2d_incre_max_y(again, **named), outcomes[0].answer)
            self.assertEqual(again, flat)
        return outcomes[0], flat

    def solves(self, floats, expected, **named):
        got, left = self.solve_each_way(floats, **named)
        self.assertEqual(got, expected)
        self.assertEqual(left, floats)

    def test_s1_and_s2_no_row_and_one(self):
        nothing = Answer(None, None)
        self.solves([], Solved(nothing, (None, None), 0))
        self.solves([0.0, 2.0, 6.0], Solved(Answer(None, 3.0), (None, None), 1))
        self.solves([0.0, -2.0, 6.0], Solved(nothing, (None, None), 1))

    def test_s3_to_s5_two_rows(self):
        self.solves(S3, Solved(Answer(1.0, 1.0), (0, 1), 7))
        self.solves(S4, Solved(Answer(0.0, 2.0), (1, None), 23))
        self.solves(S5, Solved(Answer(0.0, 1e24), (None, None), 28))

    def test_z1_negative_zero_is_the_lesser(self):
        got, _ = self.solve_each_way(Z1, start=WarmStart(0.0, -0.0))
        self.assertEqual(got, Solved(Answer(-1.0, -0.0), (0, 1), 6))
        self.assertEqual(bits(got.answer.y), bits(-0.0))

    def test_every_number_of_a_task_reaches_the_solve(self):
        start = WarmStart(0.0, 999999.0)
        self.solves(S5, Solved(Answer(0.0, 999999.0), (None, None), 8), start=start)
        self.solves(S3, Solved(Answer(0.25, 0.125), (None, None), 4), start=WarmStart(0.25, 0.125))
        self.solves(S3, Solved(Answer(1.0, 1.0), (0, 1), 5), start=WarmStart(skip=1))
        without_level = WarmStart(0.5, math.nan)
        self.solves(S5, Solved(Answer(0.5, None), (None, None), 4), start=without_level)
        kept, within = WarmStart(0.0, 0.5, 2), Tolerances(feasibility=1.0)
        self.solves(S3, Solved(Answer(0.0, 0.5), (None, None), 2), start=kept, tolerances=within)
        trial, zero_row, low = [1.0, 0.0, -0.5, 0.0, 1.0, 0.0], [0.0, 0.0, 0.0, 1.0, 0.0, -1.0], WarmStart(0.0, 0.0)
        got, _ = self.solve_each_way(trial, start=low, tolerances=Tolerances(feasibility=1.0))
        self.assertEqual(got.count, 6)
        nothing = Solved(Answer(None, None), (None, None), 4)
        self.solves(zero_row, nothing, start=low, tolerances=Tolerances(scale=-1.0))

    def test_a_solve_normalises_the_lent_rows_in_place(self):
        got, left = self.solve_each_way(TILTED, normalize=True)
        self.assertEqual(got.answer.kind, "point")
        self.assertEqual(left, TILTED_UNIT)
        got, _ = self.solve_each_way(S5, normalize=True)
        self.assertEqual(got.count, 42)

    def test_refusal_3_comes_exactly_below_the_count(self):
        self.solves(S3, Solved(Answer(1.0, 1.0), (0, 1), 7), allowance=7)
        for allowance in range(7):
            self.solves(S3, (3, allowance), allowance=allowance)

    def test_refusal_3_leaves_the_rows_of_the_last_normalisation_that_fitted(self):
        self.solves(TILTED, (3, 1), normalize=True, allowance=1)
        self.assertEqual(self.solve_each_way(TILTED, normalize=True, allowance=2), ((3, 2), TILTED_UNIT))

    def test_refusals_1_and_2_leave_the_rows(self):
        for entry in (ravelsickle.solve, ravelsickle.lp_2d_incre_max_y):
            for kind in (list, lambda floats: array("d", floats)):
                rows = kind(TILTED[:5])
                self.refused(1, entry, rows, normalize=True)
                self.assertEqual(list(rows), TILTED[:5])
                rows = kind(TOO_MANY)
                self.assertIsNone(self.refused(2, entry, rows, normalize=True).count)
                self.assertEqual(list(rows), TOO_MANY)
        rows = by_rows(TOO_MANY)
        self.refused(2, ravelsickle.solve, rows, normalize=True, allowance=0)
        self.assertEqual(rows, by_rows(TOO_MANY))

    def test_the_original_entry_gives_the_answer_alone(self):
        entry = ravelsickle.lp_2d_incre_max_y
        self.assertEqual(entry(list(S3)), Answer(1.0, 1.0))
        self.assertEqual(entry(by_rows(S4)), Answer(0.0, 2.0))
        self.assertEqual(entry([]), Answer(None, None))
        self.assertEqual(entry([0.0, 2.0, 6.0]), Answer(None, 3.0))
        self.assertEqual(entry(list(S3), start=WarmStart(0.25, 0.125)), Answer(0.25, 0.125))
        rows = array("d", TILTED)
        entry(rows, normalize=True)
        self.assertEqual(rows.tolist(), TILTED_UNIT)

    def test_the_defaults_are_the_originals(self):
        self.assertEqual(WarmStart(), WarmStart(0.0, 1e6, 0))
        self.assertEqual(Tolerances(), Tolerances(1e-9, 10.0))

    def test_a_number_that_does_not_fit_is_refused_before_the_call(self):
        for number in (-1, 2**64):
            with self.assertRaises(ValueError):
                ravelsickle.solve(list(S3), allowance=number)
            with self.assertRaises(ValueError):
                ravelsickle.solve(list(S3), start=WarmStart(skip=number))

    def test_a_number_that_is_not_whole_is_refused_and_not_cut(self):
        for number in (7.0, 0.5, Fraction(15, 2), Fraction(7), "7", None):
            with self.assertRaisesRegex(TypeError, "whole number"):
                ravelsickle.solve(list(S3), allowance=number)
            with self.assertRaisesRegex(TypeError, "whole number"):
                ravelsickle.solve(list(S3), start=WarmStart(skip=number))

    def test_the_largest_skip(self):
        self.assertEqual(ravelsickle.solve(list(S3), start=WarmStart(skip=2**64 - 1)).answer, Answer(1.0, 1.0))

    def test_every_kind_has_its_answer(self):
        kinds = [ravelsickle._answer(kind, 1.0, 2.0) for kind in range(1, 5)]
        self.assertEqual(kinds, [Answer(1.0, 2.0), Answer(None, 2.0), Answer(1.0, None), Answer(None, None)])
        self.assertEqual([answer.kind for answer in kinds], ["point", "level", "across", "nothing"])
        for kind in (0, 5):
            with self.assertRaises(RuntimeError):
                ravelsickle._answer(kind, 1.0, 2.0)


class SmallEntries(Checked):
    def test_r1_root(self):
        self.assertEqual(bits(ravelsickle.root(2.0)), struct.pack("<Q", 0x3FF6A09E667F3BCD).hex())
        self.assertEqual(bits(ravelsickle.root(-0.0)), bits(-0.0))
        self.assertTrue(math.isnan(ravelsickle.root(-1.0)))

    def test_f1_fused(self):
        x = 1.0 + 2.0**-30
        self.assertEqual(ravelsickle.fused(x, x, -1.0), 2.0**-29 + 2.0**-60)
        self.assertEqual(ravelsickle.fused(2.0, 3.0, 5.0), 11.0)

    def test_n1_and_n2_normalising(self):
        rows = [3.0, 4.0, 10.0, 0.0, 0.0, -5.0, 1e200, 0.0, 1.0]
        ravelsickle.normalize(rows)
        self.assertEqual(rows, [3 * 0.2, 0.8, 2.0] + [0.0] * 6)
        self.assertNotEqual(rows[0], 0.6)

    def test_normalising_refuses(self):
        rows = TILTED[:5]
        self.refused(1, ravelsickle.normalize, rows)
        self.assertEqual(rows, TILTED[:5])
        rows = array("d", TOO_MANY)
        self.refused(2, ravelsickle.normalize, rows)
        self.assertEqual(rows.tolist(), TOO_MANY)

    def test_d1_and_d2_two_equations(self):
        self.assertEqual(ravelsickle.solve_2x2((1, 2, 5), (3, 4, 6)), (-4.0, 4.5))
        self.refused(5, ravelsickle.solve_2x2, (1, 2, 5), (2, 4, 6))

    def test_l1_and_l2_lines(self):
        l1, l2 = [1, 5, -1, -2], [(1, 1), (-1, -2)]
        self.assertEqual(ravelsickle.lp_1d(l1, True), Bounds(5.0, 2.0))
        self.assertEqual(ravelsickle.lp_1d(l2, False), Bounds(1.0, 2.0))
        got = ravelsickle.lp_1d(l2, True)
        self.assertTrue(math.isnan(got.high) and math.isnan(got.low))
        self.assertEqual(ravelsickle.lp_1d(l2, True, Tolerances(feasibility=1.0)), Bounds(1.5, 1.5))
        self.assertEqual(ravelsickle.lp_1d((), True), Bounds(math.inf, -math.inf))

    def test_a_line_refuses(self):
        self.refused(1, ravelsickle.lp_1d, [1.0, 5.0, 1.0], True)
        self.refused(2, ravelsickle.lp_1d, [1.0, 5.0] * (ravelsickle.ROW_LIMIT + 1), True)

    def test_a_refusal_says_its_number_and_why(self):
        self.assertEqual(str(Refusal(7)), "refusal 7: the prefix is longer than the rows")
        self.assertEqual(str(Refusal(10)), "refusal 10: the number for normalising names no mode")
        self.assertEqual(str(Refusal(12)), "refusal 12: the link has been told its end")
        self.assertEqual(str(Refusal(99)), "refusal 99: a number that this module does not know")

    def test_no_refusal_has_the_number_4(self):
        self.assertEqual(str(Refusal(4)), "refusal 4: a number that this module does not know")

    def test_a_pickled_refusal_comes_back_as_it_was(self):
        for refusal in (Refusal(3, 6), Refusal(7)):
            again = pickle.loads(pickle.dumps(refusal))
            self.assertEqual((again.number, again.count, str(again)), (refusal.number, refusal.count, str(refusal)))


class Recovering(Checked):
    def test_a_point_and_its_rows(self):
        collector = Collector(78, 79)
        self.assertEqual(ravelsickle.recover(S3, 2, (0.0, 2.0), FRAME, collector), (1.0, 1.0))
        self.assertEqual(collector, Collector(0, 1))
        collector = Collector(78, 79)
        levels = [(0, 1, 1), (0, 1, 2)]
        self.assertEqual(ravelsickle.recover(levels, 2, (0.0, 2.0), FRAME, collector), (0.0, 1.0))
        self.assertEqual(collector, Collector(0, None))

    def test_without_a_boundary_the_collector_stays(self):
        for collector in (Collector(78, 79), Collector(None, 79), Collector()):
            before = Collector(collector.first, collector.second)
            self.assertEqual(ravelsickle.recover(S3, 0, (0.5, 7.0), FRAME, collector), (0.5, 7.0))
            self.assertEqual(collector, before)

    def test_every_number_of_a_frame_reaches_recovery(self):
        slanted, crossed = [1.0, 2.0, 4.0], [1.0, 0.0, 0.0, -1.0, 0.0, -0.25]
        recover = ravelsickle.recover
        self.assertEqual(recover(slanted, 1, (0.0, 10.0), Frame(16.0, 1e-9, 1e-8), Collector()), (-16.0, 10.0))
        self.refused(6, recover, slanted, 1, (0.0, 10.0), Frame(32.0, 1e-9, 1e-8), Collector())
        self.refused(6, recover, crossed, 2, (0.125, 1.0), Frame(1.0, 1e-9, 1e-8), Collector())
        self.assertEqual(recover(crossed, 2, (0.125, 1.0), Frame(1.0, 0.25, 1e-8), Collector()), (0.125, 1.0))
        self.assertEqual(recover(crossed, 2, (0.125, 1.0), Frame(1.0, 0.25, 1.0), Collector()), (0.0, 1.0))

    def test_refusals_leave_the_collector(self):
        collector = Collector(78, None)
        self.refused(1, ravelsickle.recover, S4[:5], 9, (0.0, 2.0), FRAME, collector)
        self.refused(2, ravelsickle.recover, TOO_MANY, 9999, (0.0, 2.0), FRAME, collector)
        self.refused(7, ravelsickle.recover, S4, 3, (0.0, 2.0), FRAME, collector)
        self.refused(6, ravelsickle.recover, S4, 2, (0.0, 2.0), FRAME, collector)
        self.assertEqual(collector, Collector(78, None))

    def test_a_number_that_does_not_fit_is_refused_before_the_call(self):
        for upto, collector in ((-1, Collector()), (2**64, Collector()), (1, Collector(-1)), (1, Collector(0, 2**64))):
            with self.assertRaises(ValueError):
                ravelsickle.recover(S3, upto, (0.0, 2.0), FRAME, collector)


class GivingRows(Checked):
    def test_a_buffer_is_changed_where_it_lies(self):
        rows = bytearray(struct.pack("<6d", *TILTED))
        ravelsickle.normalize(memoryview(rows).cast("d"))
        self.assertEqual(list(struct.unpack("<6d", rows)), TILTED_UNIT)

    def test_a_buffer_of_two_dimensions(self):
        rows = array("d", TILTED)
        ravelsickle.normalize(memoryview(rows).cast("B").cast("d", [2, 3]))
        self.assertEqual(rows.tolist(), TILTED_UNIT)

    def test_a_part_of_a_buffer(self):
        rows = array("d", TILTED + TILTED)
        ravelsickle.normalize(memoryview(rows)[6:])
        self.assertEqual(rows.tolist(), TILTED + TILTED_UNIT)

    def test_a_buffer_whose_rows_have_another_length_is_refused(self):
        turned = memoryview(array("d", TILTED)).cast("B").cast("d", [3, 2])
        for entry in (ravelsickle.solve, ravelsickle.normalize, ravelsickle.lp_2d_incre_max_y):
            with self.assertRaisesRegex(ValueError, "last dimension has to be 3"):
                entry(turned)
        with self.assertRaisesRegex(ValueError, "last dimension has to be 2"):
            ravelsickle.lp_1d(memoryview(array("d", TILTED)).cast("B").cast("d", [2, 3]), True)

    def test_a_buffer_that_is_not_aligned(self):
        shifted = memoryview(bytearray(8 * len(S3) + 1))[1:].cast("d")
        for k, x in enumerate(S3):
            shifted[k] = x
        aligned = ctypes_address(shifted) % 8 == 0
        for entry in (ravelsickle.solve, ravelsickle.normalize, ravelsickle.lp_2d_incre_max_y):
            if not aligned:
                with self.assertRaisesRegex(ValueError, "where a float64 may lie"):
                    entry(shifted)
        self.assertEqual(ravelsickle.recover(shifted, 2, (0.0, 2.0), FRAME, Collector()), (1.0, 1.0))

    def test_a_kept_error_does_not_hold_the_buffer(self):
        """An array of which a view is held cannot grow. The errors are kept with all that their frames hold."""
        kept = []
        calls = (
            (array("d", S3), lambda rows: ravelsickle.solve(rows, allowance=6)),
            (array("d", S3), lambda rows: ravelsickle.solve(rows, allowance=0.5)),
            (array("d", S3[:4]), ravelsickle.normalize),
            (array("d", S3), lambda rows: ravelsickle.recover(rows, 3, (0.0, 2.0), FRAME, Collector())),
            (array("d", S3[:3]), lambda pairs: ravelsickle.lp_1d(pairs, True)),
            (array("f", S3), ravelsickle.solve),
        )
        for rows, call in calls:
            try:
                call(rows)
            except (Refusal, TypeError) as error:
                kept.append(error)
            rows.append(0.0)
        self.assertEqual(len(kept), len(calls))

    def test_an_empty_buffer(self):
        self.assertEqual(ravelsickle.solve(array("d")).count, 0)

    def test_rows_that_are_lists_stay_the_same_lists(self):
        first = [3, 4, 10]
        rows = [first, (-3, 4, 10)]
        ravelsickle.normalize(rows)
        self.assertIs(rows[0], first)
        self.assertEqual(rows, [TILTED_UNIT[:3], tuple(TILTED_UNIT[3:])])

    def test_a_list_that_is_not_changed_keeps_its_items(self):
        rows = [1, 1, 2, -1, 1, 0]
        ravelsickle.solve(rows)
        self.assertTrue(all(type(item) is int for item in rows))

    def test_other_buffers_are_refused_in_words(self):
        floats32 = array("f", TILTED)
        apart = memoryview(array("d", TILTED + TILTED))[::2]
        read_only = memoryview(array("d", TILTED)).toreadonly()
        for entry in (ravelsickle.solve, ravelsickle.normalize, ravelsickle.lp_2d_incre_max_y):
            with self.assertRaisesRegex(TypeError, "float64"):
                entry(floats32)
            with self.assertRaisesRegex(ValueError, "not contiguous"):
                entry(apart)
            with self.assertRaisesRegex(ValueError, "read-only"):
                entry(read_only)
            with self.assertRaisesRegex(TypeError, "float64"):
                entry(bytes(48))

    def test_other_things_are_refused_in_words(self):
        for rows in (tuple(TILTED), "rows", iter(TILTED), None, 5):
            with self.assertRaisesRegex(TypeError, "rows are a list"):
                ravelsickle.solve(rows)
        for rows in ([(1, 1)], [(1, 1, 2), 3], [3, (1, 1, 2)], [(1, 1, 2, 3)]):
            with self.assertRaisesRegex(ValueError, "3 floats"):
                ravelsickle.solve(rows)
        with self.assertRaises(TypeError):
            ravelsickle.solve(["a", "b", "c"])

    def test_an_entry_that_reads_takes_what_is_read_only(self):
        pairs = memoryview(array("d", [1, 5, -1, -2])).toreadonly()
        self.assertEqual(ravelsickle.lp_1d(pairs, True), Bounds(5.0, 2.0))
        self.assertEqual(ravelsickle.lp_1d(pairs.cast("B").cast("d", [2, 2]), True), Bounds(5.0, 2.0))
        self.assertEqual(ravelsickle.lp_1d(pairs[:0], True), Bounds(math.inf, -math.inf))
        self.assertEqual(ravelsickle.recover(tuple(S3), 2, (0.0, 2.0), FRAME, Collector()), (1.0, 1.0))
        with self.assertRaisesRegex(TypeError, "float64"):
            ravelsickle.lp_1d(array("f", [1, 5]), True)
        with self.assertRaisesRegex(ValueError, "2 floats"):
            ravelsickle.lp_1d([(1, 5, 3)], True)


@unittest.skipIf(numpy is None, "numpy is not on this machine")
class GivingNumpy(Checked):
    def test_an_array_is_changed_where_it_lies(self):
        for shape in ((6,), (2, 3)):
            rows = numpy.array(TILTED).reshape(shape)
            ravelsickle.solve(rows, normalize=True)
            self.assertEqual(rows.ravel().tolist(), TILTED_UNIT)

    def test_answers_are_those_of_a_list(self):
        self.assertEqual(ravelsickle.solve(numpy.array(S3)), ravelsickle.solve(list(S3)))

    def test_other_arrays_are_refused_in_words(self):
        with self.assertRaisesRegex(TypeError, "float64"):
            ravelsickle.solve(numpy.array(TILTED, dtype=numpy.float32))
        with self.assertRaisesRegex(TypeError, "float64"):
            ravelsickle.solve(numpy.array(TILTED, dtype=">f8"))
        with self.assertRaisesRegex(ValueError, "not contiguous"):
            ravelsickle.solve(numpy.array(TILTED + TILTED)[::2])
        with self.assertRaisesRegex(ValueError, "not contiguous"):
            ravelsickle.solve(numpy.asfortranarray(numpy.array(TILTED).reshape(2, 3)))
        rows = numpy.array(TILTED)
        rows.flags.writeable = False
        with self.assertRaisesRegex(ValueError, "read-only"):
            ravelsickle.solve(rows)
        self.assertEqual(ravelsickle.lp_1d(numpy.array([[1.0, 5.0], [-1.0, -2.0]]), True), Bounds(5.0, 2.0))


def record(floats, normalize=0):
    """A record with the usual task, allowance 1000 and this normalise byte."""
    body = struct.pack("<4d2QB", 1e-9, 10.0, 0.0, ravelsickle.BEYOND, 0, 1000, normalize)
    body += struct.pack(f"<{len(floats)}d", *floats)
    return struct.pack("<IH", len(body), 1) + body


# the records of 13.12
SAMPLE = record(S3) + record(S4)


def in_pieces(data, size):
    return [data[at : at + size] for at in range(0, len(data), size)]


def cut_at_random(data, most, seed):
    """The bytes in portions of up to `most`, now and then of one."""
    chance = random.Random(seed)
    portions = []
    while data:
        size = 1 if chance.randrange(8) == 0 else chance.randint(1, most)
        portions.append(data[:size])
        data = data[size:]
    return portions


def fed(portions, **named):
    """All that a link gives for these portions and the end."""
    link = Link(**named)
    return [line for portion in portions for line in link.feed(portion)] + link.end()


class Linking(Checked):
    def test_the_sample_in_every_cut(self):
        self.assertEqual(fed([SAMPLE]), SAMPLE_LINES)
        for at in range(len(SAMPLE) + 1):
            self.assertEqual(fed([SAMPLE[:at], SAMPLE[at:]]), SAMPLE_LINES)
        self.assertEqual(fed(in_pieces(SAMPLE, 1)), SAMPLE_LINES)

    def test_a_line_comes_with_the_last_byte_of_its_record(self):
        link = Link()
        first, second = len(record(S3)), len(SAMPLE)
        self.assertEqual(link.feed(SAMPLE[: first - 1]), [])
        self.assertEqual(link.feed(SAMPLE[first - 1 : second - 1]), SAMPLE_LINES[:1])
        self.assertEqual(link.feed(SAMPLE[second - 1 :]), SAMPLE_LINES[1:2])

    def test_the_records_of_rowrun_cut_at_random(self):
        folder = Path(__file__).resolve().parents[2] / "crates" / "rowrun"
        records, lines = (folder / "stdin").read_bytes(), (folder / "stdout").read_text().splitlines()
        self.assertEqual(fed([records]), lines)
        for seed, most in ((1, 100), (2, 1000), (3, 30000)):
            self.assertEqual(fed(cut_at_random(records, most, seed)), lines)

    def test_an_empty_body_has_its_line_with_the_sixth_byte(self):
        for kind, line in ((1, "1 refused 10"), (9, "1 refused 9")):
            link = Link()
            self.assertEqual(link.feed(bytes([0, 0, 0, 0, kind])), [])
            self.assertEqual(link.feed(bytes([0])), [line])

    def test_a_body_that_never_comes_is_cut(self):
        header = bytes([1, 0, 0, 0, 9, 0])
        self.assertEqual(fed([header]), ["1 refused 8", "end 1"])
        self.assertEqual(fed([header[:1]]), ["1 refused 8", "end 1"])
        self.assertEqual(fed([header, b"7"]), ["1 refused 9", "end 1"])
        self.assertEqual(fed([]), ["end 0"])

    def test_a_skipped_body_of_too_many_rows(self):
        floats = [0.0, 1.0, 1.0] * 2049
        for normalize, refusal in ((0, 2), (1, 2), (2, 10), (255, 10)):
            records = record(floats, normalize) + STRANGE
            lines = [f"1 refused {refusal}", "2 refused 9", "end 2"]
            self.assertEqual(fed([records]), lines)
            self.assertEqual(fed(in_pieces(records, 997)), lines)

    def test_portions_of_no_bytes_change_nothing(self):
        portions = [b""]
        for portion in in_pieces(SAMPLE, 11):
            portions += [portion, b"", b""]
        self.assertEqual(fed(portions), SAMPLE_LINES)

    def state(self, link):
        """All that a link holds."""
        return bytes(link._reader), bytes(link._head), bytes(link._rows), link._text.raw, list(link.last)

    def test_refusal_12_changes_nothing(self):
        for begun in (b"", SAMPLE, SAMPLE[:-20]):
            link = Link()
            link.feed(begun)
            link.end()
            before = self.state(link)
            for call in (lambda: link.feed(STRANGE), lambda: link.feed(b""), link.end) * 2:
                self.refused(12, call)
                self.assertEqual(self.state(link), before)

    def test_bytes_past_a_limit_count_as_not_there(self):
        records = 3 * STRANGE
        for limit in range(len(records) + 2):
            said = fed([records[:limit]])
            self.assertEqual(fed([records], limit=limit), said)
            self.assertEqual(fed(in_pieces(records, 1), limit=limit), said)
        for limit in (ravelsickle.MOST_BYTES, 2**64 - 1):
            self.assertEqual(self.state(Link(limit)), self.state(Link()))
        for limit in (-1, 2**64):
            with self.assertRaisesRegex(ValueError, "a limit is a whole number"):
                Link(limit)

    def test_every_kind_of_portion(self):
        apart = memoryview(bytes(x for byte in SAMPLE for x in (byte, 255)))[::2]
        for portion in (bytearray(SAMPLE), memoryview(SAMPLE), apart, array("B", SAMPLE), memoryview(SAMPLE).cast("c")):
            self.assertEqual(fed([portion]), SAMPLE_LINES)
        grows = bytearray(SAMPLE)
        link = Link()
        link.feed(grows)
        grows.append(0)

    def test_other_things_are_refused_in_words(self):
        link = Link()
        for portion in ("text", 5, None, [0, 0], iter(b"")):
            with self.assertRaisesRegex(TypeError, "a portion is bytes"):
                link.feed(portion)
        with self.assertRaisesRegex(TypeError, "format 'd'; a portion is bytes"):
            link.feed(array("d", S3))
        self.assertEqual(link.feed(SAMPLE) + link.end(), SAMPLE_LINES)

    def test_leaving_a_block_tells_the_end(self):
        with Link() as link:
            self.assertEqual(link.feed(SAMPLE), SAMPLE_LINES[:2])
            self.assertEqual(link.last, [])
        self.assertEqual(link.last, SAMPLE_LINES[2:])
        self.refused(12, link.feed, SAMPLE)
        with Link() as link:
            link.feed(SAMPLE[:-1])
        self.assertEqual(link.last, ["2 refused 8", "end 2"])

    def test_an_end_that_was_told_is_not_told_again(self):
        with Link() as link:
            said = link.end()
        self.assertEqual((said, link.last), (["end 0"], ["end 0"]))

    def test_an_error_on_its_way_tells_no_end(self):
        with self.assertRaises(ZeroDivisionError):
            with Link() as link:
                link.feed(SAMPLE[:-1])
                1 / 0
        self.assertEqual(link.last, [])
        self.assertEqual(link.feed(SAMPLE[-1:]) + link.end(), SAMPLE_LINES[1:])


class Module(unittest.TestCase):
    def test_the_words_at_the_top_are_true(self):
        self.assertGreater(doctest.testmod(ravelsickle).attempted, 0)
        self.assertEqual(doctest.testmod(ravelsickle).failed, 0)

    def said_on_import(self, path):
        """What Python says where the module is to load the library at the path."""
        environment = dict(os.environ, RAVELSICKLE_SHARED=path)
        folder = os.path.dirname(ravelsickle.__file__)
        words = [sys.executable, "-c", "import ravelsickle"]
        said = subprocess.run(words, cwd=folder, env=environment, capture_output=True, text=True)
        self.assertNotEqual(said.returncode, 0)
        return said.stderr.splitlines()[-1]

    def test_a_missing_library_is_said(self):
        path = "/nowhere/libravelsickle.so"
        self.assertIn(f"ImportError: there is no Ravelsickle library at {path}", self.said_on_import(path))

    def test_a_file_that_is_no_library_is_said(self):
        self.assertIn("ImportError", self.said_on_import(__file__))
        self.assertIn("is not one for this processor", self.said_on_import(__file__))

    def test_a_library_without_the_entries_is_said(self):
        other = getattr(sys.modules["_ctypes"], "__file__", None)
        if other is None:
            self.skipTest("this Python has no shared object of its own")
        self.assertIn("ImportError", self.said_on_import(other))
        self.assertIn("has no ravelsickle_root: it is older than this module", self.said_on_import(other))


if __name__ == "__main__":
    unittest.main()
