#!/usr/bin/env python3
"""Lists the sets that can explain several dumps from the lists of each dump by itself, which are made side by side.

    tools/by_trace.py DESIGN TOP TRACE.. [--clock NAME] [--size K] [--suspects A,B] [--budget B] [--sets M] [--workers N]
        [--format F] [--jobs N] [--prefix P] [--program FILE] [--only N | --join]

What is printed are the sets that one run of `localise find` on all dumps lists, as it prints them, and `complete N by trace`. For each
dump, at most --jobs at once (1):

    1. a dump that the design passes, as `localise sim` says, has the list of the empty set alone, and isn't searched;
    2. for any other one, the Nth of the words, `find` writes the report P-N.json and the log P-N.log (P is `localise` where it isn't
       given). A pair that stands already isn't made again, but where its list stops early and these words would go on. It is found by
       its inputs, whatever its number; where P-N is another dump's, a new pair has 16 digits in the place of N;
    3. `check` has to say yes to the pair.

Then the lists are joined: a set of at most K suspects makes all dumps right exactly where it has within it a set of each dump's list, so
the list of all is that of the least unions of one set of each (crates/trace_laws proves it). Standard error says of each dump, as soon as
it is known, who vouches for its list. Each check that says yes has found the suspects of the report to be the design's, and all reports
have to have the same.

All pairs that stand are looked at before the first `find` begins. Where all dumps pass, a short `find` of the first one looks at the kinds
of suspects. --sets counts for each dump, and the joined list may be longer; where the joining itself gets too large (100,000,000 pairs of
sets in a step, or 1,000,000 unions) the line `limit join` is printed and no set.

What a run of the program says on standard error is handed on where it refuses or fails, each line behind the dump that it is of.

--only N looks at the dump N alone, and neither checks nor joins: for a scheduler that starts the runs. --join searches no dump: the pairs
have to be there. The other options are those of `find`, for each dump; --program is the program (`localise`). Behind `--` all words are
names. Two runs of this script at once in one folder, with one prefix, have to be of different dumps. A run that is asked to end (SIGINT,
SIGTERM, SIGHUP) ends its children, and leaves the pairs that were whole.

Where a dump has no whole list, there is none of all: printed is a line for each such dump, `trace N` and what the program said of it, as
`trace 2 front 7 budget` or `trace 2 input T4 1` (the last number is the dump's in a run on it alone, always 1), and no set. The status is
0, or else the first of these that holds: 8 where `check` says no; 2 where the arguments are wrong, a file can't be read, or a pair isn't of
its dump, which standard error says; that of the program where it refuses; 4 where the joining is too large; 1 where a list stops early;
128 and the signal's number where a signal ended the run.
"""

import argparse
import json
import os
import re
import sys
import tempfile
from concurrent.futures import FIRST_COMPLETED, ThreadPoolExecutor, wait
from dataclasses import dataclass
from typing import List, Optional

sys.path.insert(0, os.path.dirname(os.path.abspath(__file__)))
from joining import TooMany, joined  # noqa: E402
from report import ReportError, read_report, set_text  # noqa: E402
from running import Children, Stopped, stop_at_signals, word_of  # noqa: E402
from trace_pairs import dump_text, lacking, names_of, new_names, own_report, prints_of, standing  # noqa: E402

OPTIONS = ("clock", "format", "size", "suspects", "budget", "sets", "workers")
REFUSED = {
    "log": "each dump has its own log and report: --prefix names them",
    "report": "each dump has its own log and report: --prefix names them",
    "waves": "no run has the values of a joined set",
    "question": "only what freed values explain is said dump by dump; a function has to be the same in all dumps, so no joining finds it",
}


@dataclass
class Answer:
    """What is known of a dump: the status, what the program said of it, and who vouches; of a whole list its sets and all suspects."""
    number: int
    status: int
    line: str
    by: str
    sets: Optional[List[List[int]]] = None
    suspects: Optional[list] = None


# ---- the program's answers

def run(asked, number, *words):
    """The status of a run of the program for a dump, and the last line that it prints. What it says of a refusal is kept for that dump."""
    try:
        status, last, said = asked.children.last_line([asked.program, *words])
    except (OSError, ValueError) as error:
        raise ReportError("%s: can't be started: %s" % (asked.program, getattr(error, "strerror", None) or error)) from None
    asked.said.setdefault(number, []).extend(said)
    if status < 0:
        raise ReportError("%s %s: ended by signal %d" % (asked.program, words[0], -status))
    return status, last


def options(asked, *names):
    """The words of those options of `find` that are given."""
    values = [(name, getattr(asked, name)) for name in names]
    texts = [(name, ",".join(value) if isinstance(value, list) else str(value)) for name, value in values if value not in ("", None)]
    return [word for name, text in texts for word in ("--" + name, text)]


def inputs_of(asked, number):
    """The words of the design, the top module and the dump."""
    return word_of(asked.design), asked.top, word_of(asked.traces[number - 1])


def simulated(asked, number):
    """What `sim` says of the dump: its list is that of the empty set where it is right."""
    status, last = run(asked, number, "sim", *inputs_of(asked, number), *options(asked, "clock", "format"))
    is_right = status == 0 and last == "trace 1 ok"
    return Answer(number, status, "ok" if is_right else last, "sim", [[]] if is_right else None)


def room_beside(asked):
    """A folder of this run's own, where the pairs are."""
    folder, name = os.path.split(asked.prefix)
    return tempfile.TemporaryDirectory(prefix=name + ".", dir=folder or ".")


def take_names(made, names):
    """Gives a new report and log their names. The old report goes first, so that no end between leaves a pair that is none."""
    if os.path.exists(names[0]):
        os.remove(names[0])
    os.replace(made[1], names[1])
    os.replace(made[0], names[0])


def search(asked, number, names):
    """Makes the dump's pair; where there is none, what the program said. A pair takes its names once it is whole."""
    expect_not_read(asked, names)
    with room_beside(asked) as room:
        made = [os.path.join(room, name) for name in ("report", "log")]
        words = [*inputs_of(asked, number), *options(asked, *OPTIONS), "--report", word_of(made[0]), "--log", word_of(made[1])]
        status, last = run(asked, number, "find", *words)
        if status not in (0, 1):
            return Answer(number, status, last, "find")
        take_names(made, names)
    return None


def goes_on(asked, names, report):
    """Whether a search by these words would go on where the pair's list stops."""
    with open(names[1], "rb") as log:
        learned = sum(line.startswith(b"l ") for line in log)
    return report["ending"] in ("budget", "sets") and learned < asked.budget and len(report["sets"]) < asked.sets


def searched(asked, number):
    """The names of the new pair of a dump that has none; or an answer, where it needs none or there is none."""
    passed = simulated(asked, number)
    if passed.status or passed.sets:
        return passed
    names = new_names(asked, number)
    if asked.join:
        raise ReportError("%s is lacking" % lacking(names))
    return search(asked, number, names) or names


def judged(asked, number, names):
    """What `check` says of the dump's pair, of which no byte may differ when it has said so."""
    before, report = prints_of(names), own_report(asked, number, names)
    design, top, trace = inputs_of(asked, number)
    status, last = run(asked, number, "check", design, top, *map(word_of, names), trace, *options(asked, "format", "workers"))
    if prints_of(names) != before or status == 0 and last != "yes %d" % len(report["sets"]):
        raise ReportError("%s or %s was changed while it was checked" % names)
    sets = None if status else [it["members"] for it in report["sets"]]
    return Answer(number, status, last, "check of %s and %s" % names, sets, same_table(asked, report["suspects"]))


def same_table(asked, suspects):
    """The suspects; equal ones of several reports are held once."""
    return asked.tables.setdefault(json.dumps(suspects), suspects)


def of_pair(asked, number, names):
    """What the dump's pair says, and `check` of it."""
    report = own_report(asked, number, names)
    if report["ending"] != "complete":
        return Answer(number, 1, "front %d %s" % (len(report["sets"]), report["ending"]), "its report")
    if asked.only:
        return Answer(number, 0, "complete %d" % len(report["sets"]), "its report")
    return judged(asked, number, names)


def answer(asked, number, names):
    """What is known of a dump, with the names of the pair that stands for it, if one does."""
    found = names
    if names is None:
        found = searched(asked, number)
    elif not asked.join and goes_on(asked, names, read_report(names[0])):
        found = search(asked, number, names) or names
    return found if isinstance(found, Answer) else of_pair(asked, number, found)


def kinds_answer(asked):
    """What a short `find` says of the first dump, which passes: whether there are such suspects."""
    with room_beside(asked) as room:
        made = [word_of(os.path.join(room, name)) for name in ("report", "log")]
        words = [*inputs_of(asked, 1), *options(asked, "clock", "format", "size", "suspects", "workers"), "--sets", "1"]
        status, last = run(asked, 1, "find", *words, "--report", made[0], "--log", made[1])
        if status in (0, 1) and [it["members"] for it in read_report(made[0])["sets"]] != [[]]:
            raise ReportError("find says %r of it, and sim that it is right" % last)
    return Answer(1, 0 if status in (0, 1) else status, last, "find")


# ---- all dumps

def guarded(number, ask, *of):
    """An answer, or who is to blame that there is none."""
    try:
        return ask(*of)
    except (OSError, ReportError) as error:
        return Answer(number, 2, "", str(error))


def as_done(waiting):
    """What is waited for, as it is done. (A signal may come to another thread; this one has to wake to see it.)"""
    while waiting:
        done, waiting = wait(waiting, timeout=0.5, return_when=FIRST_COMPLETED)
        yield from done


def side_by_side(asked, pairs):
    """The answers of the dumps, each told as it comes; first those whose pair stands."""
    pool = ThreadPoolExecutor(asked.jobs)
    try:
        numbers = sorted(pairs, key=lambda number: pairs[number] is None)
        waiting = [pool.submit(guarded, number, answer, asked, number, pairs[number]) for number in numbers]
        return [tell(asked, it.result()) for it in as_done(waiting)]
    except BaseException:
        asked.children.end()
        raise
    finally:
        pool.shutdown(cancel_futures=True)


def answers_of(asked):
    """The answers of the dumps, by number. No dump is searched where a pair that stands is none of its dump."""
    numbers = [asked.only] if asked.only else range(1, len(asked.traces) + 1)
    pairs = {number: guarded(number, standing, asked, number) for number in numbers}
    wrong = [tell(asked, it) for it in pairs.values() if isinstance(it, Answer)]
    return wrong or sorted(side_by_side(asked, pairs), key=lambda it: it.number)


def expect_same_suspects(asked, answers):
    """The suspects that all reports have; the answers say where they differ."""
    reports = [it for it in answers if it.suspects is not None]
    for it in reports:
        if it.suspects is not reports[0].suspects:
            it.status, it.line = 2, ""
            it.by = "its report has other suspects than that of %s" % dump_text(asked, reports[0].number)
            tell(asked, it)
    return reports[0].suspects if reports else []


def severest(answers):
    """The status of several: that of a `check` that says no, of what isn't as asked, of a refusal, of a list that stops early."""
    statuses = [it.status for it in answers]
    return next((it for it in (8, 2) if it in statuses), next((it for it in statuses if it > 1), max(statuses)))


def list_all(asked):
    answers = answers_of(asked)
    suspects = expect_same_suspects(asked, answers)
    if not asked.only and all(it.by == "sim" and not it.status for it in answers):
        looked = guarded(1, kinds_answer, asked)
        answers += [tell(asked, looked)] if looked.status else []
    status = severest(answers)
    if status or asked.only:
        print_lines(asked, answers)
        return status
    return print_join(asked, answers, suspects)


# ---- what is printed

def say(words, *of):
    print("by_trace.py: " + words % of, file=sys.stderr)


def tell(asked, it):
    """Says on standard error what is known of a dump, behind what the program said of a refusal, and gives it back."""
    for line in asked.said.pop(it.number, []):
        say("%s: %s", dump_text(asked, it.number), line)
    say("%s: %s", dump_text(asked, it.number), it.by if it.line == "" else "%s, by %s" % (it.line, it.by))
    return it


def print_lines(asked, answers):
    for it in answers:
        if it.line and (it.status or asked.only):
            print("trace %d %s" % (it.number, it.line))
    if severest(answers):
        say("nothing is said of all dumps together")


def print_join(asked, answers, suspects):
    """Prints the joined list, and says what it rests on."""
    try:
        sets = joined([it.sets for it in answers], asked.size)
    except TooMany as error:
        say("%s: ask for smaller sets, or leave out a dump whose list is long", error)
        print("limit join")
        return 4
    say("that the list of all dumps is the join of these lists is proved (list_by_trace of crates/trace_laws); this script joined them")
    say("the suspects' kinds, lines and labels are those of the design, by each check that said yes")
    print_list(sets, suspects)
    return 0


def print_list(sets, suspects):
    for members in sets:
        print("set " + set_text({"members": members}))
        for number in members:
            it = suspects[number - 1]
            print("  %d %s %d %s" % (number, it["kind"], it["line"], it["label"]))
    print("complete %d by trace" % len(sets))


# ---- words

def number_in(least_one, most):
    def value(text):
        if not re.fullmatch("[0-9]{1,10}", text) or not least_one <= int(text) <= most:
            raise argparse.ArgumentTypeError("%r is no number from %d to %d" % (text, least_one, most))
        return int(text)
    return value


def words_parser():
    parser = argparse.ArgumentParser(description=__doc__, formatter_class=argparse.RawDescriptionHelpFormatter, allow_abbrev=False)
    parser.add_argument("design", metavar="DESIGN"), parser.add_argument("top", metavar="TOP")
    parser.add_argument("traces", metavar="TRACE", nargs="+")
    parser.add_argument("--clock", default=""), parser.add_argument("--format", choices=("verilog", "aiger"))
    parser.add_argument("--suspects", default="stmt", type=lambda text: text.split(","))
    parser.add_argument("--size", default=2, type=number_in(0, 8))
    parser.add_argument("--budget", default=200000, type=number_in(1, 10000000))
    parser.add_argument("--sets", default=1000, type=number_in(1, 100000)), parser.add_argument("--workers", type=number_in(1, 64))
    parser.add_argument("--jobs", default=1, type=number_in(1, 1024)), parser.add_argument("--prefix", default="localise")
    parser.add_argument("--program", default="localise")
    which = parser.add_mutually_exclusive_group()
    which.add_argument("--only", metavar="N", type=number_in(1, 4294967295)), which.add_argument("--join", action="store_true")
    for name in REFUSED:
        parser.add_argument("--" + name, help=argparse.SUPPRESS)
    return parser


def with_names(words):
    """The words, where all behind `--` are names."""
    at = words.index("--") if "--" in words else len(words)
    return words[:at] + [word_of(it) for it in words[at + 1:]]


def asked_of(words):
    parser = words_parser()
    asked = parser.parse_intermixed_args(with_names(words))
    for name in filter(lambda name: getattr(asked, name) is not None, REFUSED):
        parser.error("--%s: %s" % (name, REFUSED[name]))
    if asked.only and asked.only > len(asked.traces):
        parser.error("--only: there is no dump %d: %d are named" % (asked.only, len(asked.traces)))
    asked.children, asked.digests, asked.tables, asked.said = Children(), {}, {}, {}
    return asked


def expect_not_read(asked, names):
    """Raises a ReportError where a pair would be written over what is read."""
    read = {os.path.realpath(it) for it in [asked.design, *asked.traces]}
    for name in names:
        if os.path.realpath(name) in read:
            raise ReportError("%s: is read, so it can't have that name: --prefix gives another" % name)


def expect_room(asked):
    """Raises a ReportError where the pairs can't stand where they are to."""
    folder = os.path.dirname(asked.prefix)
    if folder and not os.path.isdir(folder):
        raise ReportError("%s: there is no such folder, and --prefix names it" % folder)
    expect_not_read(asked, [name for number in range(1, len(asked.traces) + 1) for name in names_of(asked, number)])


def main(words):
    try:
        asked = asked_of(words)
        expect_room(asked)
        status = list_all(asked)
        sys.stdout.flush()
        return status
    except ReportError as error:
        say("%s", error)
        return 2
    except BrokenPipeError:
        # (who reads the lines wants no more of them)
        os.dup2(os.open(os.devnull, os.O_WRONLY), sys.stdout.fileno())
        return 0
    except Stopped as asked_to:
        say("ended by signal %d", asked_to.args[0])
        return 128 + asked_to.args[0]


if __name__ == "__main__":
    sys.stdout.reconfigure(errors="surrogateescape")
    sys.stderr.reconfigure(errors="backslashreplace")
    stop_at_signals()
    sys.exit(main(sys.argv[1:]))
