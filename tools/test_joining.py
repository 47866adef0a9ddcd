#!/usr/bin/env python3
"""Tests of tools/joining.py: `python3 tools/test_joining.py`."""

import itertools
import os
import random
import sys
import unittest
import unittest.mock

sys.path.insert(0, os.path.dirname(os.path.abspath(__file__)))
import joining  # noqa: E402


def by_the_law(lists, size):
    """The join in the words of the law: of the unions of one set of each list those of at most `size` members with no other one within."""
    unions = {frozenset().union(*map(frozenset, chosen)) for chosen in itertools.product(*lists)}
    least = [one for one in unions if len(one) <= size and not any(other < one for other in unions)]
    return sorted((sorted(one) for one in least), key=lambda one: (len(one), one))


def random_lists(chance, size):
    """Up to six lists of up to twelve sets with no set within another, of not too many choices of one of each."""
    most, lists, choices = chance.choice([4, 8, 12, 30]), [], 1
    for _ in range(chance.randrange(7)):
        drawn = [chance.sample(range(1, most + 1), chance.randrange(min(size, most) + 1)) for _ in range(chance.randrange(1, 13))]
        listed = [sorted(one) for one in joining.least(map(frozenset, drawn))]
        choices *= len(listed)
        if choices <= 400:
            lists.append(chance.sample(listed, len(listed)))
    return lists


class Joins(unittest.TestCase):
    def test_worked_examples(self):
        for lists, size, wanted in (
                ([[[1], [3, 4]], [[1, 2], [3]]], 2, [[1, 2], [1, 3], [3, 4]]),
                ([[[1], [3, 4]], [[1, 2], [3]]], 1, []),
                ([[[1], [2]], [[1], [2]]], 2, [[1], [2]]),
                ([[[]], [[2], [1, 3]]], 2, [[2], [1, 3]]),
                ([[], [[1]]], 2, []), ([[[]], [[]]], 0, [[]]), ([], 2, [[]]),
                ([[[1]], [[2]], [[3]]], 2, []), ([[[1]], [[2]], [[3]]], 3, [[1, 2, 3]]),
                ([[[1]], [[2]], [[3]], [[4]], [[5]], [[6]], [[7]], [[8]]], 8, [[1, 2, 3, 4, 5, 6, 7, 8]]),
                ([[[10], [9, 11]]], 2, [[10], [9, 11]]), ([[[9], [10]]], 1, [[9], [10]]),
                ([[[1, 2, 3, 4]], [[1, 2, 3, 4], [5]]], 8, [[1, 2, 3, 4]]),
                ([[[1, 2, 3, 4, 5, 6, 7, 8]], [[2, 3, 4, 5, 6, 7], [9]]], 8, [[1, 2, 3, 4, 5, 6, 7, 8]])):
            self.assertEqual(joining.joined(lists, size), wanted)

    def test_random_lists_beside_the_law(self):
        chance = random.Random(7)
        for _ in range(500):
            size = chance.randrange(9)
            lists = random_lists(chance, size)
            self.assertEqual(joining.joined(lists, size), by_the_law(lists, size), (lists, size))

    def test_random_lists_beside_all_sets(self):
        """And as sets of suspects: those of at most `size` members that have one of each list within them, and no part that has."""
        chance = random.Random(3)
        for _ in range(300):
            most, size = chance.randrange(1, 8), chance.randrange(5)
            every = [frozenset(it) for many in range(most + 1) for it in itertools.combinations(range(1, most + 1), many)]
            few = [it for it in every if len(it) <= size]
            lists = [joining.least(chance.sample(few, chance.randrange(min(6, len(few)) + 1))) for _ in range(chance.randrange(4))]
            works = [one for one in few if all(any(part <= one for part in listed) for listed in lists)]
            wanted = sorted((sorted(one) for one in works if not any(part < one for part in works)), key=lambda one: (len(one), one))
            self.assertEqual(joining.joined([[sorted(one) for one in listed] for listed in lists], size), wanted)

    def test_a_long_join(self):
        ones, others = range(1, 41), range(41, 81)
        lists = [[[one] for one in ones], [[other] for other in others]]
        self.assertEqual(joining.joined(lists, 2), [[one, other] for one in ones for other in others])
        self.assertEqual(joining.joined(lists + [[[100]]], 3), [[one, other, 100] for one in ones for other in others])


class Bounds(unittest.TestCase):
    def join(self, **bounds):
        with unittest.mock.patch.multiple(joining, **bounds):
            return joining.joined([[[1], [2], [3]], [[4], [5], [6], [7]], [[8]]], 3)

    def test_what_passes_none(self):
        self.assertEqual(len(self.join(MOST_PAIRS=12, MOST_UNIONS=12)), 12)

    def test_what_passes_one_is_named(self):
        for bounds, said in ((dict(MOST_PAIRS=11), "the join of the 3 shortest lists passes 11 pairs of sets"),
                             (dict(MOST_UNIONS=11), "the join of the 3 shortest lists passes 11 unions")):
            with self.assertRaisesRegex(joining.TooMany, said):
                self.join(**bounds)


if __name__ == "__main__":
    unittest.main()
