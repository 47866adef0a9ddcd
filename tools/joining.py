"""Joins lists of sets, as `IsJoin` of crates/trace_laws says: the least unions of one set of each list."""

from itertools import combinations

MOST_PAIRS = 100000000      # (of a union and a set, that one step may look at)
MOST_UNIONS = 1000000       # (that one step may hold)


class TooMany(Exception):
    """The join of so many lists, the shortest first, passes a bound; what it passes."""

    def __init__(self, lists, bound):
        super().__init__("the join of the %d shortest lists passes %s" % (lists, bound))


def has_one(listed, one):
    """Whether a set of some is within the one set."""
    return any(frozenset(part) in listed for size in range(len(one) + 1) for part in combinations(one, size))


def least(sets):
    """Those that no other one is within."""
    kept = set()
    for one in sorted(sets, key=len):
        if not has_one(kept, one):
            kept.add(one)
    return kept


def join_two(unions, listed, size, number):
    """The least unions of at most `size` members of a set of the first and one of the second."""
    found = {one for one in unions if has_one(listed, one)}
    if len(unions - found) * len(listed) > MOST_PAIRS:
        raise TooMany(number, "%d pairs of sets" % MOST_PAIRS)
    for one in unions - found:
        found.update(it for it in map(one.union, listed) if len(it) <= size)
        if len(found) > MOST_UNIONS:
            raise TooMany(number, "%d unions" % MOST_UNIONS)
    return least(found)


def joined(lists, size):
    """The least unions of at most `size` members of one set of each list, by size and then by members."""
    unions = {frozenset()}
    for number, listed in enumerate(sorted(lists, key=len), 1):
        unions = join_two(unions, {frozenset(one) for one in listed}, size, number)
    return sorted((sorted(one) for one in unions), key=lambda one: (len(one), one))
