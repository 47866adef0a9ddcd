#!/usr/bin/env python3
"""Prints the tables of the crates: each with the first sentence of its README, in the groups of crates.txt.

usage: docs/crates.py [--into FILE]     at the top of the repository

With `--into` they take the place of those that FILE has between its two marks (docs/crates.md has them). docs/check.py says
where that page isn't what this makes.
"""

import os
import re
import sys

BEGIN, END = "<!-- The tables, by docs/crates.py -->\n", "<!-- End of the tables -->\n"
HEAD = "| crate | gives |\n|---|---|\n"


def groups(top):
    """The crates below each heading of crates.txt."""
    found = []
    with open(f"{top}/crates.txt", encoding="utf-8") as file:
        for line in file:
            words = line.partition("#")[0].partition(":")[0].split()
            if line.startswith("# "):
                found.append((line[2:].strip(), []))
            elif words:
                found[-1][1].append(words[0])
    return found


def first_sentence(top, crate):
    """The first sentence of its README, after the title: up to the first full stop that a space follows."""
    with open(f"{top}/crates/{crate}/README.md", encoding="utf-8") as file:
        paragraph = file.read().split("\n\n")[1]
    return re.match(r".*?\.(?=\s|$)", " ".join(paragraph.split())).group().removesuffix(".")


def tables(top):
    def rows(crates):
        return "".join(f"| [`{it}`](../crates/{it}/README.md) | {first_sentence(top, it)} |\n" for it in crates)

    return "\n".join(f"## {title.capitalize()}\n\n{HEAD}{rows(crates)}" for title, crates in groups(top))


def with_tables(text, made):
    """The page with these tables, or None where it lacks the marks."""
    before, begin, rest = text.partition(BEGIN)
    _, end, after = rest.partition(END)
    return before + begin + "\n" + made + "\n" + end + after if end else None


def is_current(top, name):
    """Whether a page has the tables as they are made."""
    with open(f"{top}/{name}", encoding="utf-8") as file:
        text = file.read()
    return with_tables(text, tables(top)) == text


def main(words):
    top = os.path.dirname(os.path.dirname(os.path.abspath(__file__)))
    if not words:
        print(tables(top), end="")
        return
    if len(words) != 2 or words[0] != "--into":
        sys.exit(__doc__)
    with open(words[1], encoding="utf-8") as file:
        text = with_tables(file.read(), tables(top))
    if text is None:
        sys.exit(f"docs/crates.py: {words[1]} has no place for the tables")
    with open(words[1], "w", encoding="utf-8") as file:
        file.write(text)


if __name__ == "__main__":
    main(sys.argv[1:])
