#!/usr/bin/env python3
"""Runs the built program on the largest inputs that are accepted, with ample memory.

    bench/limits.py [PROGRAM] [--only WORD].. [--dump BYTES]

PROGRAM is crates/localise/out/localise where it isn't given. Of each limit of docs/formats.md a text, a dump or a form is made that comes
near it, and a command is run on it, which must end as it should: never for want of memory (7), and never by a signal. The families of
`bench/elaboration.py` are among them, at their whole size. Printed is a table of the seconds by the clock and the most megabytes that
were resident, each of one run; BYTES is the length of the long dump, 250,000,000 where it isn't given (1,073,741,824 are accepted). The
status is 1 where a run ends otherwise.
"""

import argparse
import os
import sys
import tempfile

HERE = os.path.dirname(os.path.abspath(__file__))
sys.path.insert(0, HERE)
import elaboration  # noqa: E402
from forms import ands, dump_of, frees  # noqa: E402

BUILT = elaboration.BUILT
elaboration.PATIENCE = 3600
ABSENT = (5, "read fault none.vcd")


def dump(ports, cycles, clock=False):
    """A dump of ports of one bit that change in each cycle, with a clock where that is wanted."""
    names = ["clk"] * clock + ports
    head = "".join("$var wire 1 %s %s $end\n" % (name, name) for name in names)
    body = "".join(
        "#%d\n%s%s" % (10 * t, "0clk\n" * clock, "".join("%d%s\n" % (t + at & 1, name) for at, name in enumerate(ports)))
        + ("#%d\n1clk\n" % (10 * t + 5) if clock else "")
        for t in range(cycles)
    )
    return "$scope module top $end\n%s$upscope $end\n$enddefinitions $end\n%s" % (head, body)


def crowded(size):
    """A dump of two cycles, and between them so many bytes of changes of a variable that is no port."""
    text = dump(["w0", "y"], 2).replace("$upscope", "$var wire 1 other other $end\n$upscope", 1)
    return text.replace("#10\n", "0other\n1other\n" * (size // 14) + "#10\n", 1)


def padded(size):
    """A small text of so many bytes."""
    text = "module top(input a, output y);\nassign y = a;\nendmodule\n"
    return text + "/" * 2 + "x" * (size - len(text) - 3) + "\n"


def tokens(count):
    """A text of about so many tokens: declarations of wires."""
    return "module top(input a, output y);\nwire %s;\nassign y = a;\nendmodule\n" % ", ".join("w%d" % at for at in range(count // 2 - 20))


def macros():
    """Uses of a macro of four million spaces, which together stand for 268,435,456 bytes."""
    return "`define S %s a\nmodule top(input a, output y);\nassign y = %s;\nendmodule\n" % (" " * 4194000, " | ".join(["`S"] * 63))


def suspects(count):
    """A chain of assignments, each a suspect."""
    return "module top(input w0, output y);\n%s\nassign y = w%d;\nendmodule\n" % (
        "\n".join("wire w%d; assign w%d = ~w%d;" % (n + 1, n + 1, n) for n in range(count - 1)), count - 1)


def table(dump_bytes):
    """Rows: a name, the files, the arguments, and the status and the last line that are wanted."""
    sim = ["sim", "m.v", "top", "t.vcd"]
    two = dump(["a", "y"], 2)
    rows = [(name, {"m.v": make(most)}, ["sim", "m.v", "top", "none.vcd"] + (["--clock", "clk"] if "input clk" in make(1024) else []), ABSENT)
            for name, (make, most) in elaboration.FAMILIES.items()]
    rows += [
        ("16,777,216 bytes", {"m.v": padded(16777216), "t.vcd": two}, sim, (0, "trace 1 miss")),
        ("2,000,000 tokens", {"m.v": tokens(2000000), "t.vcd": two}, sim, (0, "trace 1 miss")),
        ("268,435,456 bytes of macros", {"m.v": macros(), "t.vcd": two}, sim, (0, "trace 1 miss")),
        ("4,096 suspects", {"m.v": suspects(4096), "t.vcd": dump(["w0", "y"], 4)}, ["find", *sim[1:]], (0, "complete")),
        ("100,000 cycles", {"m.v": suspects(8), "t.vcd": dump(["w0", "y"], 100000)}, ["find", *sim[1:]], (0, "complete")),
        ("256 dumps", {"m.v": suspects(64), "t.vcd": dump(["w0", "y"], 100)}, ["find", *sim[1:], *["t.vcd"] * 255], (0, "complete")),
        ("a long dump", {"m.v": suspects(8), "t.vcd": crowded(dump_bytes)}, sim, (0, "trace 1")),
    ]
    for name, (make, wires, cycles) in (("4,000,000 variables, 64,000,000 literals", (frees, 312, 100)), ("4,000,000 variables, by ANDs", (ands, 104, 99))):
        text, kinds = make(wires, cycles)
        names = ["w0", "y"] if make is frees else ["a", "y"]
        kinds = ",".join(dict.fromkeys(kinds.split(",")))
        rows.append((name, {"m.v": text, "t.vcd": dump_of(names, cycles)}, ["find", *sim[1:], "--suspects", kinds, "--size", "1", "--budget", "1000"], (0, "")))
    return rows


def main():
    words = argparse.ArgumentParser()
    words.add_argument("program", nargs="?", default=BUILT)
    words.add_argument("--only", action="append", help="rows in whose names this stands")
    words.add_argument("--dump", type=int, default=250000000)
    asked = words.parse_args()
    program, wrong = os.path.abspath(asked.program), []
    print("| input | MB | seconds | MB of memory |\n|---|---|---|---|")
    for name, files, arguments, (status, last) in table(asked.dump):
        if asked.only and not any(it in name for it in asked.only):
            continue
        with tempfile.TemporaryDirectory(prefix="limits-") as folder:
            for file, text in files.items():
                with open(os.path.join(folder, file), "w") as put:
                    put.write(text)
            ended, taken, memory, said = elaboration.measured([program, *arguments], folder)
        end = said.splitlines()[-1] if said else "nothing"
        print("| %s | %.1f | %.1f | %.0f |" % (name, sum(map(len, files.values())) / 1e6, taken, memory), flush=True)
        if ended != status or last not in said:
            wrong.append("%s: status %d, %s" % (name, ended, end[:120]))
    print("\n".join(wrong))
    sys.exit(1 if wrong else 0)


if __name__ == "__main__":
    main()
