#!/usr/bin/env python3
"""Makes a text that `localise` reads of a design that it doesn't read, by yosys.

    tools/from_yosys.py TOP FILE.. [--read COMMANDS] [--yosys FILE] > WHOLE

FILE is Verilog or SystemVerilog (`.sv`); for other languages COMMANDS are those of yosys that read the files, `{}` in them, as in
--read 'ghdl {} -e chip'. What yosys writes has a net for each operator: it is flat, with the ports of TOP, and registers keep their names.
Before each piece stands a directive `` `line N "FILE" 0`` with the line that it came from, which tools/annotate.py and its page show; what
came from no line has the name `yosys`.

Lost are: statements (an assignment of the source becomes several nets, and those of one register one; so the lists are longer), blocks,
instances and modules as suspects, x and z (they become 0), and what no output depends on. Standard error says how much came from no line.

The status is 0; 2 where yosys can't be started or refuses, which standard error says.
"""

import argparse
import os
import re
import subprocess
import sys
import tempfile

STEPS = ["hierarchy -check -top %s", "proc", "flatten", "pmuxtree", "memory -nomap", "opt_clean", "setundef -zero -undriven", "write_verilog %s"]
ATTRIBUTE = re.compile(r'\(\* (?:"(?:[^"\\]|\\.)*"|[^"])*? \*\) ?')
SOURCE = re.compile(r'\bsrc = "([^"]*)"')
PLACE = re.compile(r"(.*):([1-9][0-9]*)\.[0-9]+(?:-[0-9.]+)?")
LEFT = re.compile(r"(?:assign )?(\\\S+|[A-Za-z_][\w$]*)")
DECLARED = re.compile(r"(?:wire|reg|input|output)\b.*?(\\\S+ |[A-Za-z_][\w$]*)\s*(?:\[[^]]*\])?\s*(?:=.*)?;$")
NOWHERE = "yosys"


class Problem(Exception):
    """Why there is no text."""


# ---- what yosys does

def reading(asked):
    """The commands that read the files."""
    files = " ".join('"%s"' % it for it in asked.files)
    if asked.read:
        return asked.read.replace("{}", files)
    return "read_verilog %s%s" % ("-sv " if any(it.endswith(".sv") for it in asked.files) else "", files)


def written(asked):
    """What yosys writes of the design."""
    with tempfile.TemporaryDirectory(prefix="from-yosys-") as room:
        made = os.path.join(room, "made.v")
        script = "; ".join([reading(asked), *STEPS]) % (asked.top, made)
        try:
            ran = subprocess.run([asked.yosys, "-q", "-p", script], stdin=subprocess.DEVNULL, capture_output=True, text=True, errors="backslashreplace")
        except OSError as error:
            raise Problem("%s: can't be started: %s" % (asked.yosys, error.strerror)) from None
        print(ran.stderr.replace(room + os.sep, ""), end="", file=sys.stderr)
        if ran.returncode:
            raise Problem("yosys refuses the design: %s" % ((ran.stdout + ran.stderr).strip().split("\n") or [""])[-1])
        with open(made, encoding="utf-8", errors="surrogateescape") as file:
            return file.read()


# ---- its pieces

def pieces_of(text):
    """The pieces of a written text, each with its first line: an item of a module, with the attributes before it and the lines that go on."""
    found = []
    for number, line in enumerate(text.split("\n"), 1):
        is_further = line.startswith("   ") or re.match(r"  (end|else)\b", line)
        if found and (is_further or ATTRIBUTE.sub("", found[-1][1]).strip() == "" and line):
            found[-1][1] += "\n" + line
        elif line:
            found.append([number, line])
    return found


def place_of(text):
    """The file and the line of the first attribute of a piece that has one."""
    places = [PLACE.fullmatch(it) for said in SOURCE.findall(text) for it in said.split("|")]
    return next(((it[1], int(it[2])) for it in places if it), None)


def declared_places(pieces):
    """For each declared name its place: that of the operator that it was made for, or of its declaration."""
    named = [(DECLARED.search(ATTRIBUTE.sub("", text).strip()), place_of(text)) for _, text in pieces]
    return {name[1].strip(): place for name, place in named if name and place}


def left_of(text):
    """The name that a piece assigns first."""
    assigned = re.search(r"\S+(?=(?:\s*\[[^]]*\])*\s*<=)|(?<=assign )\S+", text)
    return assigned and assigned[0].split("[")[0] if assigned else None


def mapped(text):
    """The text with each piece on a line of its own behind a directive; how many pieces assign, and how many of these came from no line."""
    pieces, parts, assigning, nowhere = pieces_of(text), [], 0, 0
    places = declared_places(pieces)
    for number, piece in pieces:
        plain = " ".join(ATTRIBUTE.sub("", piece).split())
        place = place_of(piece) or places.get(left_of(plain))
        is_assigning = plain.startswith(("assign", "always"))
        assigning, nowhere = assigning + is_assigning, nowhere + (is_assigning and place is None)
        file, line = place or (NOWHERE, number)
        parts.append('`line %d "%s" 0\n%s\n' % (line, file, plain))
    return "".join(parts), assigning, nowhere


# ---- words

def parsed(words):
    parser = argparse.ArgumentParser(description=__doc__, formatter_class=argparse.RawDescriptionHelpFormatter)
    parser.add_argument("top", metavar="TOP")
    parser.add_argument("files", metavar="FILE", nargs="+")
    parser.add_argument("--read", metavar="COMMANDS", default="")
    parser.add_argument("--yosys", metavar="FILE", default="yosys")
    return parser.parse_args(words)


def main(words):
    try:
        text, assigning, nowhere = mapped(written(parsed(words)))
    except Problem as problem:
        print("from_yosys.py: %s" % problem, file=sys.stderr)
        return 2
    print(text, end="")
    print("from_yosys.py: %d assignments and blocks, of which %d came from no line; no statements, blocks, instances or modules of the source are left, "
          "so ask for `stmt` alone" % (assigning, nowhere), file=sys.stderr)
    return 0


if __name__ == "__main__":
    sys.stdout.reconfigure(errors="surrogateescape")
    sys.exit(main(sys.argv[1:]))
