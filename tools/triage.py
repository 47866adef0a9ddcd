#!/usr/bin/env python3
"""Sorts the failing tests of a regression by their bugs: which tests belong together, how many bugs there are at least, where each may be.

    tools/triage.py case DESIGN TOP DUMP OUT [--clock NAME] [--format F] [--program FILE] [OPTION OF find]..
    tools/triage.py bins OUT CASE.. [--names FILE]
    tools/triage.py ask OUT BINS N|least [--program FILE] [--budget B] [--sets M] [--workers N]
    tools/triage.py page BINS [ASKED..] [--html OUT] [--json OUT]

`case` looks at one test: `sim` says where its first output is wrong, the dump is cut there, and `find --size 1` lists the single suspects
that explain it; then the same of a failure that is made up. OUT has what was found, also where the test passes, or is refused; where OUT
is a folder, NAME.case in it for a dump NAME.vcd. `bins` puts the tests into bins by these lists; a CASE may be a folder, which stands for
its files that end in `.case`; FILE has further names, one a line. `ask` asks for all tests of bin N together, or for the least number of places that have to be wrong; it
leaves a folder. `page` prints what is known, and writes it as a page or as JSON.

Options that aren't named here are handed through to `find`, as they are given, and --format to `sim` too. Each file, and the folder, is there whole or not at all,
and what stands is not made again: the same command goes on after a break. What the program says on standard error where it refuses
or fails is handed on, each line behind the dump (or the bin) that it is of.

The status is 0; 1 where a run of the program was ended by a signal or for lack of room, or the dump can't be read (the same command tries
again), and of `bins` where no test fails; 2 where the arguments are wrong, or another file can't be read or is of another run, which
standard error says.
"""

import argparse
import dataclasses
import os
import re
import sys

sys.path.insert(0, os.path.dirname(os.path.abspath(__file__)))
import asked_bin  # noqa: E402
import bins_of_tests  # noqa: E402
import triage_page  # noqa: E402
import triage_text  # noqa: E402
from case_of_test import Case, Killed, case_of, parted, value_of  # noqa: E402
from report import design_lines  # noqa: E402
from whole_files import Problem, digest, json_text, load, read_json, write_whole  # noqa: E402

# (how long is searched, and not what is asked: a list that is whole is the same with more)
EFFORT = ("--budget", "--sets", "--workers")
REFUSED = {
    "--size": "a test is known by its single suspects",
    "--log": "the runs of a test leave none: `ask` does",
    "--report": "the runs of a test leave none: `ask` does",
    "--waves": "the runs of a test leave none: `ask` does",
    "--resume": "the runs of a test begin anew",
    "--resume-log": "the runs of a test begin anew",
    "--question": "a function has to be the same in all tests, so the lists of single tests don't tell bugs apart by it",
}


def say(words, *of):
    print("triage.py: " + words % of, file=sys.stderr)


# ---- case

def question_of(asked, text):
    """What a case is of."""
    return {"design": asked.design, "design_digest": digest(load(asked.design)), "top": asked.top, "clock": asked.clock,
            "options": asked.options, "dump": asked.dump, "dump_digest": digest(text)}


def another(out, stands, question, name):
    """Why a case that stands isn't the one that is asked for."""
    if name == "dump" and os.path.basename(stands["dump"]) == os.path.basename(question["dump"]):
        return "%s: is of %s; give the case of %s a name of its own, or another folder" % (out, stands["dump"], question["dump"])
    return "%s: is of another run: its %s differs; take another folder, or remove it" % (out, name.replace("_", "'s "))


def is_there(out, question, effort):
    """Whether the case is made already, and this effort wouldn't change it; a Problem where what stands is of another run."""
    if not os.path.exists(out):
        return False
    stands = bins_of_tests.read_case(out)
    if stands["answer"] == "killed":
        return False
    other = next((name for name in ("dump", *question) if stands.get(name) != question[name]), None)
    if other:
        raise Problem(another(out, stands, question, other))
    return stands["answer"] != "unfinished" or stands["effort"] == effort


def out_of(asked):
    """The file of the case: in a folder it is named for the dump."""
    name = os.path.splitext(os.path.basename(asked.dump))[0] + ".case"
    return os.path.join(asked.out, name) if os.path.isdir(asked.out) else asked.out


def make_case(asked):
    """Leaves the case of a test. A dump that can't be read may be there later, so it is tried again as what was killed is."""
    asked.out, asked.about, case = out_of(asked), asked.dump, None
    try:
        text = load(asked.dump)
    except Problem as problem:
        text, case = b"", Case("killed", str(problem))
    question = question_of(asked, text)
    if is_there(asked.out, question, asked.effort):
        return 0
    case = case or case_of(asked)
    write_whole(asked.out, json_text({"form": bins_of_tests.CASE, **question, "effort": asked.effort, **dataclasses.asdict(case)}))
    if case.answer == "killed":
        say("%s: %s", asked.dump, case.line)
    return 1 if case.answer == "killed" else 0


# ---- bins

def case_paths(asked):
    """The files of cases: of a folder those that end in `.case`."""
    found, named = [], load(asked.names).decode("utf-8", "surrogateescape").split("\n") if asked.names else []
    for name in asked.cases + [it for it in named if it]:
        found += [os.path.join(name, it) for it in sorted(os.listdir(name)) if it.endswith(".case")] if os.path.isdir(name) else [name]
    return list(dict.fromkeys(found))


def make_bins(asked):
    """Leaves the bins of a regression, and prints how many tests there are of each kind."""
    bins = bins_of_tests.bins_file(case_paths(asked))
    print(bins_of_tests.counts_text(bins["counts"]) + ": " + triage_text.many(len(bins["bins"]), "bin"))
    if not bins["counts"]["fails"] + bins["counts"]["unfinished"]:
        say("no test fails%s: there is nothing to put into bins", triage_text.why_none(bins))
        return 1
    write_whole(asked.out, json_text(bins))
    return 0


# ---- ask

def asked_of_bins(asked, bins):
    """The words of a run for these bins."""
    question = bins["question"]
    if digest(load(question["design"])) != question["design_digest"]:
        raise Problem("%s: was changed since the cases were made" % question["design"])
    same = {name: question[name] for name in ("design", "top", "clock", "options")}
    about = "the least number of places" if asked.what == "least" else "bin " + asked.what
    return argparse.Namespace(program=asked.program, effort=asked.effort, about=about, **same)


def make_answer(asked):
    """Leaves the folder of an answer."""
    bins = read_json(asked.bins, bins_of_tests.BINS)
    if asked.what != "least" and not 1 <= int(asked.what) <= len(bins["bins"]) or not bins["bins"]:
        raise Problem("there is no bin %s: %s has %d" % (asked.what, asked.bins, len(bins["bins"])))
    if os.path.exists(asked.out):
        answer = read_json(os.path.join(asked.out, "answer.json"), asked_bin.ASKED)
        if str(answer["bin"]) == asked.what and asked_bin.is_of(answer, bins) and asked_bin.is_settled(answer, asked.effort):
            return 0
    asked_bin.asked_folder(asked_of_bins(asked, bins), bins, asked.what, asked.out)
    return 0


# ---- page

def answers_in(paths, bins):
    """The answers in these folders by what they are of, each with its folder; those of other tests are left out, and said."""
    found = {}
    for path in paths:
        answer = read_json(os.path.join(path, "answer.json"), asked_bin.ASKED)
        if asked_bin.is_of(answer, bins):
            found[answer["bin"]] = dict(answer, folder=path)
        else:
            say("%s is of other tests than these bins, and is left out", path)
    return found


def lines_of_design(question):
    """The lines of the design's text, where it is the one that was searched."""
    try:
        if digest(load(question["design"])) == question["design_digest"]:
            return design_lines(question["design"])
    except Problem:
        pass
    say("%s isn't the text that was searched: its lines are left out", question["design"])
    return []


def make_page(asked):
    """Prints what is known, and writes it in the forms that are wanted."""
    bins = read_json(asked.bins, bins_of_tests.BINS)
    answers, lines = answers_in(asked.asked, bins), lines_of_design(bins["question"])
    known = triage_text.known_of(bins, answers, lines)
    print(triage_text.text_of(known), end="")
    if asked.json:
        write_whole(asked.json, json_text(known))
    if asked.html:
        write_whole(asked.html, triage_page.page_of(known, os.path.dirname(asked.html)))
    return 0


# ---- words

def what_of(text):
    if text != "least" and not re.fullmatch("[1-9][0-9]{0,5}", text):
        raise argparse.ArgumentTypeError("%r is no number of a bin, and not `least`" % text)
    return text


def parser_of():
    parser = argparse.ArgumentParser(description=__doc__, formatter_class=argparse.RawDescriptionHelpFormatter, allow_abbrev=False)
    step = parser.add_subparsers(dest="step", required=True, metavar="STEP")
    case = step.add_parser("case", allow_abbrev=False)
    for name in ("design", "top", "dump", "out"):
        case.add_argument(name, metavar=name.upper())
    case.add_argument("--clock", default=""), case.set_defaults(make=make_case)
    bins = step.add_parser("bins", allow_abbrev=False)
    bins.add_argument("out", metavar="OUT"), bins.add_argument("cases", metavar="CASE", nargs="*")
    bins.add_argument("--names", metavar="FILE"), bins.set_defaults(make=make_bins)
    ask = step.add_parser("ask", allow_abbrev=False)
    ask.add_argument("out", metavar="OUT"), ask.add_argument("bins", metavar="BINS")
    ask.add_argument("what", metavar="N|least", type=what_of), ask.set_defaults(make=make_answer)
    page = step.add_parser("page", allow_abbrev=False)
    page.add_argument("bins", metavar="BINS"), page.add_argument("asked", metavar="ASKED", nargs="*")
    page.add_argument("--html", metavar="OUT"), page.add_argument("--json", metavar="OUT"), page.set_defaults(make=make_page)
    for it in (case, ask):
        it.add_argument("--program", default="localise")
    return parser


def asked_of(words):
    """The words as they are given; what `case` doesn't know itself is for `find`, and of `ask` what says how long it may search."""
    parser = parser_of()
    asked, further = parser.parse_known_args(words)
    asked.effort, asked.options = parted(further, EFFORT)
    asked.format = value_of(asked.options, "--format")
    for name in (word.partition("=")[0] for word in asked.options):
        if name in REFUSED:
            parser.error("%s: %s" % (name, REFUSED[name]))
    if asked.step == "bins" and not asked.cases and not asked.names:
        parser.error("bins: no case is named")
    if asked.step != "case" and asked.options or asked.step in ("bins", "page") and asked.effort:
        parser.error("not known: %s" % " ".join(further))
    return asked


def main(words):
    asked = asked_of(words)
    try:
        status = asked.make(asked)
        sys.stdout.flush()
        return status
    except Problem as problem:
        say("%s", problem)
        return 2
    except BrokenPipeError:
        # (who reads the lines wants no more of them)
        os.dup2(os.open(os.devnull, os.O_WRONLY), sys.stdout.fileno())
        return 0
    except Killed as killed:
        say("%s", killed)
        return 1
    except OSError as error:
        say("%s: %s", error.filename, error.strerror)
        return 2


if __name__ == "__main__":
    sys.stdout.reconfigure(errors="surrogateescape")
    sys.stderr.reconfigure(errors="backslashreplace")
    sys.exit(main(sys.argv[1:]))
