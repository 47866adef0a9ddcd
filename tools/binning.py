"""Puts the failing tests of a regression into bins by their lists of single suspects, each bin as if it had one bug of its own. Which
tests belong together is a guess, if a measured one (bench/triage.py): nothing here is proved. The same lists give the same bins, in
whatever order they come.

Tests with equal lists begin as one bin. Of the bins that share a suspect those two are joined that make the whole most likely, as long as
it grows, and where a suspect is left that all their lists have. A bin of n lists, of which count(s) have the suspect s, is worth

    sum over the suspects s of [B(1/2 + count(s), 1/2 + n - count(s)) - B(1/2, 1/2)] + ln (n-1)!    with B = ln of Euler's beta

where the suspects are those that stand in any list: in a bin each suspect has a rate of its own at which it is listed, of which nothing
is known before (Jeffreys' prior), and the bins are a draw of the Chinese restaurant process.
"""

import heapq
from collections import Counter
from dataclasses import dataclass
from functools import lru_cache
from itertools import combinations
from math import lgamma

RARE = 0.15         # a suspect that explains fewer of the made-up failures than this may tell that two bins have one bug


@dataclass
class Bin:
    """The places of its units, how many of their lists have each suspect, and the suspects that all have. `key` is the place of its first list."""
    key: int
    units: list
    counts: dict
    shared: frozenset


def log_beta(a, b):
    return lgamma(a) + lgamma(b) - lgamma(a + b)


@lru_cache(maxsize=None)
def unlisted(number):
    """What a suspect is worth that none of so many lists has, as a logarithm."""
    return log_beta(0.5, 0.5 + number) - log_beta(0.5, 0.5)


@lru_cache(maxsize=None)
def more(count, number):
    """How much more it is worth where so many of them have it."""
    return log_beta(0.5 + count, 0.5 + number - count) - log_beta(0.5, 0.5 + number)


@lru_cache(maxsize=None)
def alone(number, suspects):
    """How likely a bin of so many lists is that have none of the suspects, of which there are so many."""
    return suspects * unlisted(number) + lgamma(number)


def worth(number, counts, suspects):
    """How likely one bin of so many lists is, as a logarithm, where `suspects` stand in any list."""
    return alone(number, suspects) + sum(more(count, number) for count in counts.values())


def sum_of(some, others):
    return {suspect: some.get(suspect, 0) + others.get(suspect, 0) for suspect in some.keys() | others.keys()}


def joined(one, other):
    return Bin(min(one.key, other.key), one.units + other.units, sum_of(one.counts, other.counts), one.shared & other.shared)


def bins_of_equal_lists(lists):
    """The bins to begin with, by their lists."""
    places = {}
    for place, listed in enumerate(lists):
        places.setdefault(tuple(sorted(listed)), []).append(place)
    rows = enumerate(sorted(places.items()))
    return [Bin(key, units, dict.fromkeys(listed, len(units)), frozenset(listed)) for key, (listed, units) in rows]


class Joining:
    """The bins by their keys, and the pairs that may be joined, the best first. A pair of which a bin was joined meanwhile is passed over."""

    def __init__(self, bins, suspects):
        self.suspects, self.bins, self.pairs = suspects, {it.key: it for it in bins}, []
        self.worths = {it.key: self.worth_of(it) for it in bins}
        for one, other in combinations(bins, 2):
            common = len(one.shared & other.shared)
            if common:
                self.offer(one, other, self.worth_of_plain(one, other, common))

    def worth_of(self, it):
        return worth(len(it.units), it.counts, self.suspects)

    def worth_of_plain(self, one, other, common):
        """The worth of two bins together, each of equal lists, that have so many suspects in common."""
        first, second = len(one.units), len(other.units)
        number = first + second
        apart = (len(one.counts) - common) * more(first, number) + (len(other.counts) - common) * more(second, number)
        return alone(number, self.suspects) + common * more(number, number) + apart

    def worths_with(self, it):
        """The worth of this bin together with each that shares a suspect with it."""
        sums = {}
        for other in self.bins.values():
            if it.shared.isdisjoint(other.shared):
                continue
            number = len(it.units) + len(other.units)
            if number not in sums:
                sums[number] = alone(number, self.suspects) + sum(more(count, number) for count in it.counts.values())
            grown = sum(more(it.counts.get(suspect, 0) + count, number) - (more(it.counts[suspect], number) if suspect in it.counts else 0)
                        for suspect, count in other.counts.items())
            yield other, sums[number] + grown

    def offer(self, one, other, both):
        """Notes the pair where its joining makes the bins more likely."""
        gain = both - self.worths[one.key] - self.worths[other.key]
        if gain > 0:
            first, second = sorted([one, other], key=lambda it: it.key)
            heapq.heappush(self.pairs, (-gain, first.key, second.key, len(first.units), len(second.units)))

    def is_as_offered(self, first, second, *numbers):
        """Whether neither bin was joined since: a bin that was is gone, or has more units."""
        return first in self.bins and second in self.bins and numbers == (len(self.bins[first].units), len(self.bins[second].units))

    def run(self):
        while self.pairs:
            _, first, second, *numbers = heapq.heappop(self.pairs)
            if self.is_as_offered(first, second, *numbers):
                both = joined(self.bins.pop(first), self.bins.pop(second))
                self.worths[both.key] = self.worth_of(both)
                for other, worth_of_both in self.worths_with(both):
                    self.offer(both, other, worth_of_both)
                self.bins[both.key] = both
        return sorted(self.bins.values(), key=lambda it: it.key)


def bins_of(lists):
    """The bins of these lists, none of which is empty."""
    return Joining(bins_of_equal_lists(lists), len(set().union(*lists))).run()


# ---- what made-up failures say

def tallied(failures):
    """By outputs, how many failures were made up there, and how many of these each suspect explains; given are pairs of an output and its
    suspects."""
    numbers, hits = Counter(), {}
    for output, suspects in failures:
        numbers[output] += 1
        hits.setdefault(output, Counter()).update(suspects)
    return {output: (number, hits[output]) for output, number in numbers.items()}


def hits_of(suspect, outputs, made_up):
    """Of the failures that were made up at these outputs, how many the suspect explains, and how many there are."""
    of = [made_up[it] for it in outputs if it in made_up]
    return sum(hits[suspect] for _, hits in of), sum(number for number, _ in of)


def rate(hits, number):
    """How often a suspect explains what was made up, never quite 0."""
    return (hits + 0.5) / (number + 1)


def ranked(suspects, outputs, made_up):
    """The suspects, the likeliest first: those last that explain anything at these outputs. Each with its hits, and their number."""
    rows = [(suspect, *hits_of(suspect, outputs, made_up)) for suspect in sorted(suspects)]
    return sorted(rows, key=lambda row: (rate(*row[1:]), row[0]))


def may_be_one_bug(one, other, outputs, made_up):
    """Whether two bins share a suspect that doesn't explain anything whatever at their outputs."""
    return any(rate(*hits_of(suspect, outputs, made_up)) < RARE for suspect in one.shared & other.shared)


def families_of(bins, outputs, made_up):
    """For each bin the number of its family, from 1: bins that may be of one bug. `outputs` are those of each bin."""
    family = list(range(len(bins)))
    for a, b in combinations(range(len(bins)), 2):
        if family[a] != family[b] and may_be_one_bug(bins[a], bins[b], outputs[a] | outputs[b], made_up):
            family = [family[a] if it == family[b] else it for it in family]
    numbers = {it: number for number, it in enumerate(dict.fromkeys(family), 1)}
    return [numbers[it] for it in family]
