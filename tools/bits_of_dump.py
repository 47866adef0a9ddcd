#!/usr/bin/env python3
"""Makes of a dump one whose variables are single bits, for a design in AIGER, whose ports are.

    tools/bits_of_dump.py DUMP > BITS

A variable `data` of eight bits becomes eight variables `data_7_` to `data_0_`, in the scope in which it stood, with the names that the ports of
an AIGER file have whose symbols are `data[7]` to `data[0]`. Bits are counted from the lowest, number 0, whatever range the variable is declared
with, since yosys counts them so. Variables of one bit, reals, and all else stay as they are, but for identifier codes, which are new, and white space.

`localise` finds the bits of variables of 2 to 128 bits itself. This is for wider ones, for names that an AIGER file has otherwise, and for
`tools/triage.py`, which changes single outputs.

The status is 0; 1 where the text is no dump, which standard error says.
"""

import sys


def codes():
    """Identifier codes, one after the other: all texts of printable characters, short ones first."""
    number = 0
    while True:
        rest, code = number, ""
        while rest >= 0:
            code += chr(33 + rest % 94)
            rest = rest // 94 - 1
        yield code
        number += 1


def section_of(words):
    """The words of a section up to its `$end`."""
    section = []
    for word in words:
        if word == "$end":
            return section
        section.append(word)
    raise ValueError("it ends in a section")


class Bits:
    """What of a dump was read: the new codes of each code's bits, from the lowest."""

    def __init__(self, out):
        self.out, self.fresh, self.bits, self.reals = out, codes(), {}, set()

    def declare(self, kind, size, code, reference):
        """A `$var`: a variable for each of its bits, the highest first."""
        name = reference.partition("[")[0] if not reference.startswith("\\") else reference[1:]
        is_real = kind in ("real", "realtime")
        width = 1 if is_real else int(size)
        new = self.bits.setdefault(code, [])
        new += [next(self.fresh) for _ in range(width - len(new))]
        if is_real:
            self.reals.add(code)
        if width == 1:
            self.out.write("$var %s %s %s %s $end\n" % (kind, size, new[0], reference))
        for bit in reversed(range(width if width > 1 else 0)):
            self.out.write("$var %s 1 %s %s_%d_ $end\n" % (kind, new[bit], name, bit))

    def change(self, digits, code):
        """A vector: a change of each bit, filled on the left as the standard has it."""
        new = self.bits[code]
        filled = ("0" if digits[0] in "01" else digits[0]) * (len(new) - len(digits)) + digits
        self.out.write(" ".join(digit + new[bit] for bit, digit in zip(range(len(new)), reversed(filled))) + "\n")

    def piece(self, word, words):
        """A section, a time or a change that begins with a word."""
        if word.startswith("$") and word not in ("$dumpvars", "$dumpall", "$dumpon", "$dumpoff", "$end"):
            section = section_of(words)
            if word == "$var":
                self.declare(*section[:4])
            else:
                self.out.write(" ".join([word, *section, "$end"]) + "\n")
        elif word[0] in "bB":
            self.change(word[1:], next(words))
        elif word[0] in "rRsS":
            self.out.write("%s %s\n" % (word, self.bits[next(words)][0]))
        elif word[0] in "01xXzZ":
            self.change(word[0], word[1:])
        else:
            self.out.write(word + "\n")


def words_of(lines):
    for line in lines:
        yield from line.split()


def main(words):
    if len(words) != 1:
        sys.exit(__doc__)
    try:
        with open(words[0], encoding="latin-1") as dump:
            bits, read = Bits(sys.stdout), words_of(dump)
            for word in read:
                bits.piece(word, read)
    except (OSError, ValueError, KeyError, TypeError, StopIteration) as error:
        print("bits_of_dump.py: %s: can't be read as a dump: %r" % (words[0], error), file=sys.stderr)
        return 1
    return 0


if __name__ == "__main__":
    sys.exit(main(sys.argv[1:]))
