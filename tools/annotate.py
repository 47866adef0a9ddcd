#!/usr/bin/env python3
"""Shows the sets of a report of `localise find` at the lines of the design.

    tools/annotate.py REPORT DESIGN [--format quickfix|github] [--trace DUMP].. [--html OUT [--only N,N] [--cycles FROM-TO]]

Printed is a line for each member of each set, sets in the order of the list:

    DESIGN:LINE: set {1,2}: KIND N LABEL

which editors take as a list of errors, with DESIGN as it is given here, or where the text has `line` directives (as tools/join.py writes
them) with the file and the line that they say; or with `--format github` the same as an annotation of GitHub's actions. With `--trace`, once for each dump in the order of the run, it is looked at whether the report is of just this
design and these dumps, by the digest in it. With `--html` a page is written too: the text with its suspects marked, the list of
sets, and of each the values that make the dumps right. It is one file and loads nothing. `--only` chooses the sets that it has (counted
from 1), `--cycles` the cycles.

The status is 0; 1 where all is printed, but the report and the design don't fit together, which standard error says; 2 where nothing
could be done: wrong arguments, or a text that can't be read or is no report.
"""

import argparse
import os
import re
import sys

sys.path.insert(0, os.path.dirname(os.path.abspath(__file__)))
import page  # noqa: E402
from line_map import LineMap  # noqa: E402
from report import ReportError, design_lines, misfits, read_report, reading_lines, set_text  # noqa: E402


def members_of(report):
    """Each member of each set: the set, the suspect's number, and the suspect."""
    return [(set_text(found), number, report["suspects"][number - 1]) for found in report["sets"] for number in found["members"]]


def quickfix_line(place, found, number, suspect):
    return "%s:%d: set %s: %s %d %s" % (*place, found, suspect["kind"], number, suspect["label"])


def github_line(place, found, number, suspect):
    """A workflow command: what ends a property or a line in it stands there as a percent sign and two digits."""
    name, title = (re.sub("[%\r\n:,]", lambda it: "%%%02X" % ord(it.group()), text) for text in (place[0], "localise: set " + found))
    said = "%s %d %s" % (suspect["kind"], number, suspect["label"].replace("%", "%25"))
    return "::warning file=%s,line=%d,title=%s::%s" % (name, place[1], title, said)


FORMATS = {"quickfix": quickfix_line, "github": github_line}


def numbers(text):
    if not re.fullmatch("[1-9][0-9]{0,8}(,[1-9][0-9]{0,8})*", text):
        raise argparse.ArgumentTypeError("%r is no list of numbers from 1, as 1,4" % text)
    return sorted({int(it) for it in text.split(",")})


def cycles(text):
    ends = re.fullmatch("([0-9]{1,9})-([0-9]{1,9})", text)
    if not ends or int(ends[1]) > int(ends[2]):
        raise argparse.ArgumentTypeError("%r is no range of cycles, as 0-99" % text)
    return int(ends[1]), int(ends[2])


def asked_of(words):
    parser = argparse.ArgumentParser(description=__doc__, formatter_class=argparse.RawDescriptionHelpFormatter)
    parser.add_argument("report", metavar="REPORT", help="the report that localise find wrote")
    parser.add_argument("design", metavar="DESIGN", help="the text of the design that was searched")
    parser.add_argument("--format", choices=list(FORMATS), default="quickfix", help="the form of the lines (quickfix)")
    parser.add_argument("--trace", metavar="DUMP", action="append", default=[], help="a dump of the run; once for each, in order")
    parser.add_argument("--scope", metavar="PATH", help="the scope that the run was told to read of the dumps")
    parser.add_argument("--x-inputs", choices=["0"], help="what the run was told to read unknown inputs as")
    parser.add_argument("--html", metavar="OUT", help="the page to write")
    parser.add_argument("--only", metavar="N,N", type=numbers, help="the sets that the page has, counted from 1")
    parser.add_argument("--cycles", metavar="FROM-TO", type=cycles, help="the cycles that the page has values of")
    asked = parser.parse_args(words)
    if asked.html is None and (asked.only or asked.cycles):
        parser.error("--only and --cycles say what a page has: they need --html")
    return asked


def write_page(asked, report, lines):
    for read in [asked.report, asked.design, *asked.trace]:
        if os.path.exists(asked.html) and os.path.samefile(asked.html, read):
            raise ReportError("%s: is read, so the page isn't written over it" % asked.html)
    beyond = [it for it in asked.only or [] if it > len(report["sets"])]
    if beyond:
        raise ReportError("--only: there is no set %d: the report has %d" % (beyond[0], len(report["sets"])))
    wanted = page.Wanted(asked.design, lines, bool(asked.trace), asked.only, asked.cycles)
    said = page.page_of(report, wanted, misfits(report, asked.design, lines, asked.trace, reading_lines(asked.scope, asked.x_inputs)))
    try:
        with open(asked.html, "w", encoding="utf-8", newline="\n") as file:
            file.write(said)
    except (OSError, ValueError) as error:
        raise ReportError("%s: can't be written: %s" % (asked.html, getattr(error, "strerror", None) or error)) from None


def annotate(asked):
    report, lines = read_report(asked.report), design_lines(asked.design)
    wrong = misfits(report, asked.design, lines, asked.trace, reading_lines(asked.scope, asked.x_inputs))
    if asked.html is not None:
        write_page(asked, report, lines)
    places = LineMap(asked.design, lines)
    for found, number, suspect in members_of(report):
        print(FORMATS[asked.format](places.at(suspect["line"]), found, number, suspect))
    for line in wrong:
        print("annotate.py: " + line, file=sys.stderr)
    return 1 if wrong else 0


def main(words):
    try:
        status = annotate(asked_of(words))
        sys.stdout.flush()
        return status
    except ReportError as error:
        print("annotate.py: %s" % error, file=sys.stderr)
        return 2
    except BrokenPipeError:
        # (who reads the lines wants no more of them)
        os.dup2(os.open(os.devnull, os.O_WRONLY), sys.stdout.fileno())
        return 0


if __name__ == "__main__":
    sys.stdout.reconfigure(errors="surrogateescape")
    sys.stderr.reconfigure(errors="backslashreplace")
    sys.exit(main(sys.argv[1:]))
