#!/usr/bin/env python3
"""Makes a dump of a table: a row for each cycle, a column for each port.

    tools/csv2vcd.py TABLE [--clock NAME] [--base N] [--scope NAME] > DUMP

The first row has the names of the ports, with a range where one is wider than a bit, as `data[7:0]`. In the others stands what a port has
in that cycle: of an input what was applied, of an output what is wanted. A number is of base N (10), or as `0x1f`, `0b0110`, `8'h1f`; in
base 2, 8 and 16 a digit may be `x`. `-3` is the two's complement of 3. An empty cell, or `x`, is unknown: an output isn't checked there (and
an input has to be known). The columns are parted by commas, semicolons or tabs, whichever the first row has.

With --clock the dump has a clock of that name, which rises at the end of each row. --scope names the scope of the ports (`table`), which
may be any name. The status is 2 where a cell can't be read; standard error names it.
"""

import argparse
import csv
import io
import re
import sys

NAME = re.compile(r"\s*(\\\S+|[^\s\[\]]+)\s*(?:\[\s*([0-9]{1,9})\s*:\s*([0-9]{1,9})\s*\])?\s*")
NUMBER = re.compile(r"(?:([0-9]{0,9})'s?([bohdBOHD])|0([xXbB]))?([0-9a-zA-Z?_]+)")
BASES = {"b": 2, "o": 8, "d": 10, "h": 16, "x": 16}
WIDE = {2: 1, 8: 3, 16: 4}      # (the bits of a digit)


class Problem(Exception):
    """What is wrong with the table."""


# ---- the table

def rows_of(text):
    """The rows of a table that have anything, each with its line."""
    first = text.split("\n", 1)[0]
    separator = next((it for it in "\t;" if it in first), ",")
    reader = csv.reader(io.StringIO(text, newline=""), delimiter=separator)
    return [(reader.line_num, row) for row in reader if any(it.strip() for it in row)]


def port_of(cell):
    """The name and the width that a head says, and its range as a dump writes it."""
    head = NAME.fullmatch(cell)
    if not head:
        raise Problem("%r is no name of a port, as `data[7:0]`" % cell)
    name, left, right = head.groups()
    if left is None:
        return name, 1, ""
    return name, abs(int(left) - int(right)) + 1, " [%s:%s]" % (left, right)


def ports_of(row):
    ports = [port_of(it) for it in row]
    names = [name for name, _, _ in ports]
    twice = next((it for it in names if names.count(it) > 1), None)
    if twice:
        raise Problem("there are two columns %s" % twice)
    return ports


# ---- a cell

def value_of(digits, base):
    """A number's value; digits that the base doesn't have are a Problem."""
    try:
        return int(digits, base)
    except ValueError:
        raise Problem("%r is no number of base %d" % (digits, base)) from None


def bits_of_digit(digit, base):
    """The bits of a digit, which may be unknown."""
    return "x" * WIDE[base] if digit in "xXzZ?" else format(value_of(digit, base), "0%db" % WIDE[base])


def complement(bits, width):
    """The bits of the negative number."""
    if "x" in bits or int(bits, 2) > 1 << (width - 1):
        raise Problem("-%s is no number of %d bits" % (bits, width))
    return format(-int(bits, 2) % (1 << width), "b")


def bits_of(text, base, width):
    """The bits of a cell, as many as its digits give."""
    if text in ("", "x", "X"):
        return "x"
    if text.startswith("-"):
        return complement(bits_of(text[1:], base, width), width)
    number = NUMBER.fullmatch(text)
    if not number:
        raise Problem("%r is no number" % text)
    digits, base = number[4].replace("_", ""), BASES.get((number[2] or number[3] or "").lower(), base)
    return "".join(bits_of_digit(it, base) for it in digits) if base in WIDE else format(value_of(digits, base), "b")


def fitted(bits, width):
    """Bits as many as the port has: a first one that is unknown goes on to the left, else there are zeros."""
    short = bits.lstrip("0") if len(bits) > width else bits
    if len(short) > width:
        raise Problem("%d bits are needed, and the port has %d" % (len(short), width))
    return short.rjust(width, "x" if short[:1] == "x" else "0")


def cells_of(row, ports, base):
    """What each port has in a row."""
    if len(row) > len(ports):
        raise Problem("there are %d cells, and %d ports" % (len(row), len(ports)))
    found = []
    for (name, width, _), cell in zip(ports, row + [""] * (len(ports) - len(row))):
        try:
            found.append(fitted(bits_of(cell.strip(), base, width), width))
        except Problem as problem:
            raise Problem("%s: %s" % (name, problem)) from None
    return found


# ---- the dump

def code_of(number):
    return "p%d" % number


def change(bits, number):
    return "b%s %s\n" % (bits, code_of(number))


def header(asked, ports):
    """The declarations: the clock has number 0, and each port the number of its column."""
    variables = [(1, 0, asked.clock, "")] if asked.clock else []
    variables += [(width, number, name, bounds) for number, (name, width, bounds) in enumerate(ports, 1)]
    lines = ["$var wire %d %s %s%s $end\n" % (width, code_of(number), name, bounds) for width, number, name, bounds in variables]
    return "$timescale 1ns $end\n$scope module %s $end\n%s$upscope $end\n$enddefinitions $end\n" % (asked.scope, "".join(lines))


def cycle_text(asked, number, changes):
    """A cycle's changes; with a clock it falls at the beginning, and rises in the middle of the ten units."""
    if not asked.clock:
        return "#%d\n%s" % (number, changes)
    return "#%d\n%s%s#%d\n%s" % (10 * number, change("0", 0), changes, 10 * number + 5, change("1", 0))


def dump_of(asked, rows):
    """The dump of a table's rows."""
    _, head = rows[0]
    ports = ports_of(head)
    if asked.clock in [name for name, _, _ in ports]:
        raise Problem("--clock: the table has a column %s, and each row is a cycle of it: leave the column out" % asked.clock)
    parts, before = [header(asked, ports)], [None] * len(ports)
    for cycle, (line, row) in enumerate(rows[1:]):
        try:
            cells = cells_of(row, ports, asked.base)
        except Problem as problem:
            raise Problem("line %d: %s" % (line, problem)) from None
        changes = [change(now, number) for number, (now, old) in enumerate(zip(cells, before), 1) if now != old]
        parts.append(cycle_text(asked, cycle, "".join(changes)))
        before = cells
    return "".join(parts)


def parsed(words):
    parser = argparse.ArgumentParser(description=__doc__, formatter_class=argparse.RawDescriptionHelpFormatter)
    parser.add_argument("table", metavar="TABLE")
    parser.add_argument("--clock", metavar="NAME", default="")
    parser.add_argument("--base", metavar="N", type=int, choices=range(2, 37), default=10)
    parser.add_argument("--scope", metavar="NAME", default="table")
    return parser.parse_args(words)


def main(words):
    asked = parsed(words)
    try:
        with open(asked.table, encoding="utf-8-sig", newline="") as file:
            rows = rows_of(file.read())
        if len(rows) < 2:
            raise Problem("a row of names and a row of a cycle are needed")
        print(dump_of(asked, rows), end="")
        return 0
    except (OSError, UnicodeDecodeError) as error:
        print("csv2vcd.py: %s: can't be read: %s" % (asked.table, getattr(error, "strerror", None) or error), file=sys.stderr)
    except Problem as problem:
        print("csv2vcd.py: %s: %s" % (asked.table, problem), file=sys.stderr)
    return 2


if __name__ == "__main__":
    sys.exit(main(sys.argv[1:]))
