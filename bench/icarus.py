#!/usr/bin/env python3
"""Gives the texts that cases accept to Icarus Verilog: what is read here is to be read there.

    bench/icarus.py

The texts are the designs `m.v` of the cases below cases/reading whose status is 0. Each is given to
`iverilog -g2005 -t null`, which must take it; those of ONLY_HERE it must refuse. Debian's package
`iverilog` must be installed. The status is 1 where one differs.
"""

import glob
import os
import shutil
import subprocess
import sys
import tempfile

HERE = os.path.dirname(os.path.abspath(__file__))
CASES = os.path.join(HERE, "..", "cases", "reading", "*")
# what it refuses: delays and values where it has no grammar for them, a region in a generate block, a loop over the name of a parameter, a
# bit of a register of one bit, a name on the line behind its directive, a comment that goes on with its macro, a directive in a module,
# a number without a size in a concatenation, the word `config`, and `&&&`, which it takes for one token
ONLY_HERE = {
    "delays_of_nets",
    "two_output_registers_with_values",
    "wires_of_which_one_is_assigned",
    "blocks_of_generates_with_labels",
    "parameter_inside_with_the_name_of_an_integer",
    "index_by_a_number_before_a_register",
    "directives_in_comments",
    "macro_of_three_lines",
    "directives_that_are_read_over",
    "operators_without_spaces",
    "port_with_the_name_config",
    "word_before_a_number_in_a_macro",
}


def texts():
    """Each case that accepts, by its name, and its text."""
    for case in sorted(glob.glob(CASES)):
        if not os.path.isfile(os.path.join(case, "status")):
            with open(os.path.join(case, "m.v"), "rb") as file:
                yield os.path.basename(case), file.read()


def is_taken(icarus, text):
    with tempfile.NamedTemporaryFile(suffix=".v") as file:
        # a module beside it, since Icarus asks for one
        file.write(text + b"\nmodule beside_the_text;\nendmodule\n")
        file.flush()
        return subprocess.run([icarus, "-g2005", "-t", "null", file.name], capture_output=True).returncode == 0


def main():
    icarus = shutil.which("iverilog")
    if icarus is None:
        sys.exit("iverilog isn't installed")
    count, wrong = 0, 0
    for name, text in texts():
        count += 1
        if is_taken(icarus, text) == (name in ONLY_HERE):
            wrong += 1
            print("%s: %s" % (name, "taken" if name in ONLY_HERE else "refused"))
    print("%d texts, %d differ" % (count, wrong))
    sys.exit(1 if wrong or not count else 0)


if __name__ == "__main__":
    main()
