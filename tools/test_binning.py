"""Tests of binning.py, which puts lists into bins, and of last_cycle.py, which changes the last cycle of a cut dump."""

import os
import random
import sys
import unittest

HERE = os.path.dirname(os.path.abspath(__file__))
sys.path.insert(0, HERE)

import binning  # noqa: E402
import last_cycle  # noqa: E402


class Bins(unittest.TestCase):
    def members(self, lists):
        return sorted(sorted(it.units) for it in binning.bins_of(lists))

    def test_what_a_bin_is_worth(self):
        """One list with one suspect of two: 1/2 each. Two equal ones: 3/8 each, and the second sits down by the first with weight 1."""
        self.assertAlmostEqual(binning.worth(1, {5: 1}, 2), 2 * -0.6931471805599453)
        self.assertAlmostEqual(binning.worth(2, {5: 2}, 2), 2 * -0.9808292530117262)

    def test_lists_without_a_common_suspect_are_never_joined(self):
        self.assertEqual(self.members([[1, 2], [3, 4], [1, 2], [3, 4]]), [[0, 2], [1, 3]])
        self.assertEqual(self.members([[1], [2], [3]]), [[0], [1], [2]])

    def test_lists_that_differ_a_little_are_joined(self):
        self.assertEqual(self.members([[1, 2, 3]] * 3 + [[1, 2]] * 3 + [[7, 8, 9]] * 3), [[0, 1, 2, 3, 4, 5], [6, 7, 8]])

    def test_the_best_pair_is_joined_first(self):
        """The list [1] lies nearest to [1, 2], and then [1, 3] to [3]; had [1, 3] come to [1] first, [3] would be left alone."""
        self.assertEqual(self.members([[3], [1, 2], [1, 3], [1]]), [[0, 2], [1, 3]])

    def test_bins_are_joined_only_where_that_is_likelier(self):
        self.assertEqual(self.members([[1], [4], [3], [1, 3, 4]]), [[0], [1], [2], [3]])

    def test_what_pairs_are_worth_is_what_their_bin_is_worth(self):
        chance = random.Random(3)
        for _ in range(30):
            lists = [sorted(chance.sample(range(7), chance.randrange(1, 5))) for _ in range(12)]
            bins = binning.bins_of_equal_lists(lists)
            joining = binning.Joining(bins, 7)
            both = binning.joined(bins[0], bins[1])
            for other, worth in joining.worths_with(both):
                self.assertAlmostEqual(worth, joining.worth_of(binning.joined(both, other)))
            for one, other in zip(bins, bins[1:]):
                worth = joining.worth_of_plain(one, other, len(one.shared & other.shared))
                self.assertAlmostEqual(worth, joining.worth_of(binning.joined(one, other)))

    def test_a_bin_keeps_a_suspect_that_all_lists_have(self):
        chance = random.Random(7)
        for _ in range(30):
            lists = [sorted(chance.sample(range(9), chance.randrange(1, 5))) for _ in range(20)]
            for it in binning.bins_of(lists):
                self.assertEqual(it.shared, frozenset.intersection(*(frozenset(lists[place]) for place in it.units)))
                self.assertTrue(it.shared)

    def test_the_order_of_tests_does_nothing(self):
        chance = random.Random(5)
        for _ in range(20):
            lists = [sorted(chance.sample(range(8), chance.randrange(1, 4))) for _ in range(15)]
            order = chance.sample(range(15), 15)
            shuffled = binning.bins_of([lists[it] for it in order])
            self.assertEqual(self.members(lists), sorted(sorted(order[place] for place in it.units) for it in shuffled))

    def test_suspects_that_explain_anything_come_last(self):
        made_up = binning.tallied([("y", [2]), ("y", [2, 9]), ("z", [5])])
        self.assertEqual(binning.ranked({2, 5, 9}, {"y"}, made_up), [(5, 0, 2), (9, 1, 2), (2, 2, 2)])
        self.assertEqual(binning.ranked({5, 2}, {"q"}, made_up), [(2, 0, 0), (5, 0, 0)])

    def test_families(self):
        """Bins are of one family where they share a suspect that made-up failures rule in rarely, and not by one that explains anything."""
        bins = [binning.Bin(key, [key], {}, frozenset(shared)) for key, shared in enumerate([{1, 2}, {2, 3}, {3, 4}])]
        made_up = binning.tallied([("y", [3])] * 5)
        self.assertEqual(binning.families_of(bins, [{"y"}] * 3, made_up), [1, 1, 2])
        self.assertEqual(binning.families_of(bins, [{"y"}] * 3, {}), [1, 2, 3])

    def test_a_suspect_that_explains_a_third_of_what_is_made_up_makes_no_family(self):
        bins = [binning.Bin(key, [key], {}, frozenset([1])) for key in (0, 1)]
        for explained, families in ((1, [1, 2]), (0, [1, 1])):
            made_up = binning.tallied([("y", [1])] * explained + [("y", [2])] * (3 - explained))
            self.assertEqual(binning.families_of(bins, [{"y"}] * 2, made_up), families)


class LastCycles(unittest.TestCase):
    TEXT = b"$scope module t $end\n$var wire 1 a y $end\n$upscope $end\n$scope module m $end\n$var wire 1 ! clk $end\n$var reg 4 b y [3:0] $end\n" \
        b"$var wire 4 b q $end\n$upscope $end\n$enddefinitions $end\n#0\n0!\nb11 b\n#5\n1!\n#10\n0!\n#15\n1!\n"

    def test_the_change_stands_before_the_last_stamp_of_a_clock_and_else_at_the_end(self):
        text = self.TEXT.replace(b"$var wire 4 b q $end\n", b"")
        self.assertTrue(last_cycle.with_last(text, {"y": 5}, ["y", "clk"], True).endswith(b"#10\n0!\nb0101 b\n#15\n1!\n"))
        self.assertTrue(last_cycle.with_last(text, {"y": None}, ["y"], False).endswith(b"\nbx a\nbx b\n"))

    def test_a_code_that_is_of_two_ports_is_told_apart(self):
        text = last_cycle.with_last(self.TEXT, {"y": 5}, ["y", "clk"], True)
        self.assertIn(b"$var reg 4 own0 y [3:0] $end\n$var wire 4 b q $end", text)
        self.assertIn(b"#0\n0!\nb11 b\nb11 own0\n", text)
        self.assertTrue(text.endswith(b"0!\nb0101 own0\n#15\n1!\n"))

    def test_each_scope_that_may_be_meant_is_changed(self):
        text = last_cycle.with_last(self.TEXT.replace(b"y $end", b"y $end\n$var reg 1 t clk $end", 1), {"y": 0}, ["y", "clk"], True)
        self.assertTrue(text.endswith(b"0!\nb0 a\nb0000 own0\n#15\n1!\n"))

    def test_where_no_scope_has_the_ports(self):
        with self.assertRaises(last_cycle.NotThere):
            last_cycle.with_last(self.TEXT, {"y": 5}, ["y", "none"], True)


if __name__ == "__main__":
    unittest.main()
