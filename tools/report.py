"""Reads the report of `localise find`, and the text of its design; says what is wrong where one can't be read."""

import hashlib
import json
import re

ENDINGS = ("complete", "budget", "sets", "earlier")
MEMBERS = {"clock", "ending", "inputs", "kinds", "sets", "size", "suspects", "top", "version"}
GREATEST = 4294967295


class ReportError(Exception):
    """What is wrong with a text, in one line."""


def load(path):
    """The bytes of a file."""
    try:
        with open(path, "rb") as file:
            return file.read()
    except (OSError, ValueError) as error:
        raise ReportError("%s: can't be read: %s" % (path, getattr(error, "strerror", None) or error)) from None


def design_lines(path):
    """The lines of a design's text, as `localise` counts them: each ends with a newline. What is no UTF-8, and what is
    no character to be shown, stands there as U+FFFD."""
    text = load(path).decode("utf-8", "replace")
    lines = re.sub("[\x00-\x08\x0b-\x1f\x7f-\x9f]", lambda it: "" if it.group() == "\r" else "\ufffd", text).split("\n")
    return lines[:-1] if lines[-1] == "" else lines


def read_report(path):
    """The report in a file, as JSON has it; a ReportError names the first thing that is wrong with it."""
    text = load(path)
    try:
        report = json.loads(text.decode("utf-8"), parse_constant=refuse_constant)
    except UnicodeDecodeError as error:
        raise ReportError("%s: not UTF-8 at byte %d" % (path, error.start)) from None
    except json.JSONDecodeError as error:
        raise ReportError("%s: not JSON: %s at line %d, column %d" % (path, error.msg, error.lineno, error.colno)) from None
    except (RecursionError, ValueError) as error:
        raise ReportError("%s: not JSON that can be read: %s" % (path, error)) from None
    try:
        judge(report)
    except ReportError as error:
        raise ReportError("%s: not a report of localise find: %s" % (path, error)) from None
    return report


def refuse_constant(word):
    raise ValueError("%s is no number of JSON" % word)


# ---- the shape of a report

def expect(holds, words, *of):
    if not holds:
        raise ReportError(words % of)


def is_number(value, least, greatest):
    return type(value) is int and least <= value <= greatest


def is_text(value, pattern):
    return isinstance(value, str) and re.fullmatch(pattern, value) is not None


def judge(report):
    """Raises a ReportError where the value isn't that of a report."""
    expect(isinstance(report, dict), "it is no JSON object")
    lacking, further = MEMBERS - set(report), set(report) - MEMBERS
    expect(not lacking, "it has no member %s", ", ".join(sorted(lacking)))
    expect(not further, "it has a member %s, which reports don't have", ", ".join(map(repr, sorted(further))))
    expect(is_number(report["version"], 1, 1), "its version is %r, and 1 is read", report["version"])
    expect(is_number(report["size"], 0, 8), "size is no whole number from 0 to 8")
    expect(report["ending"] in ENDINGS, "ending is none of %s", ", ".join(ENDINGS))
    expect(is_text(report["inputs"], "[0-9a-f]{64}"), "inputs is not 64 lower-case hex digits")
    expect(is_text(report["top"], "[!-~]+"), "top is no name")
    expect(is_text(report["clock"], "[!-~]*"), "clock is no name")
    kinds = report["kinds"]
    expect(isinstance(kinds, list) and kinds, "kinds is no list of names")
    expect(all(is_text(it, "[a-z0-9_]{1,32}") for it in kinds) and len(set(kinds)) == len(kinds), "kinds is no list of names, each once")
    expect(isinstance(report["suspects"], list), "suspects is no list")
    for number, suspect in enumerate(report["suspects"], 1):
        judge_suspect(number, suspect)
    expect(isinstance(report["sets"], list), "sets is no list")
    for number, found in enumerate(report["sets"], 1):
        judge_set(number, found, len(report["suspects"]))
    shapes = [[len(cycles) for cycles in found["values"]] for found in report["sets"]]
    for number, shape in enumerate(shapes, 1):
        expect(shape == shapes[0], "set %d has values of other dumps or cycles than set 1", number)


def judge_suspect(number, suspect):
    expect(isinstance(suspect, dict) and set(suspect) == {"kind", "label", "line"}, "suspect %d hasn't just kind, label and line", number)
    expect(is_text(suspect["kind"], "[!-~]+"), "the kind of suspect %d is no name", number)
    expect(is_text(suspect["label"], "[!-~]+"), "the label of suspect %d is no name", number)
    expect(is_number(suspect["line"], 0, GREATEST), "the line of suspect %d is no whole number", number)


def judge_set(number, found, suspects):
    expect(isinstance(found, dict) and set(found) == {"members", "values"}, "set %d hasn't just members and values", number)
    members, values = found["members"], found["values"]
    expect(isinstance(members, list) and all(is_number(it, 1, GREATEST) for it in members), "the members of set %d are no list of numbers from 1", number)
    expect(all(a < b for a, b in zip(members, members[1:])), "the members of set %d don't ascend", number)
    expect(not members or members[-1] <= suspects, "set %d has suspect %s, and there are %d suspects", number, members[-1:] and members[-1], suspects)
    expect(isinstance(values, list) and all(isinstance(it, list) for it in values), "the values of set %d are no list of lists", number)
    places = None
    for trace, cycles in enumerate(values, 1):
        for cycle, row in enumerate(cycles):
            where = (number, trace, cycle)
            expect(isinstance(row, list), "the values of set %d, dump %d, cycle %d are no list", *where)
            expect(all(is_text(it, "[0-9a-f]{1,32}") for it in row), "a value of set %d, dump %d, cycle %d is not 1 to 32 lower-case hex digits", *where)
            places = len(row) if places is None else places
            expect(len(row) == places, "set %d has %d values in dump %d, cycle %d, and %d before it", number, len(row), trace, cycle, places)


# ---- what a report says

def set_text(found):
    return "{%s}" % ",".join(map(str, found["members"]))


def ending_words(report):
    """What the last line of the run said, and whether the list is whole."""
    return {"complete": "the list is whole", "budget": "the search ended at its budget: more sets may be due",
            "sets": "as many sets as were asked for: more may be due", "earlier": "a set comes before one that stands here"}[report["ending"]]


def set_places(report, found):
    """For each value of a cycle the member that it is of; None where the report doesn't say it. Each member has a place
    at least, and suspects of one kind have no place together and ascend by their first places."""
    rows = [row for cycles in found["values"] for row in cycles]
    places, members = len(rows[0]) if rows else 0, found["members"]
    kinds = {report["suspects"][it - 1]["kind"] for it in members}
    if len(members) == 1:
        return members * places
    return members if len(kinds) == 1 and places == len(members) else None


def reading_lines(scope, x_inputs):
    """The lines of the digest that say how dumps were read: the path of the scope, and what unknown inputs were, where it was said."""
    return ["%s %s" % pair for pair in (("scope", scope), ("x-inputs", x_inputs)) if pair[1] is not None]


def inputs_digest(report, design, traces, reading=()):
    """The digest of a run's inputs, were these files its design and its dumps, in order; behind them lines that say how dumps were read
    (`reading_lines`)."""
    lines = ["localise 1", "top " + report["top"], "clock " + report["clock"], "kinds " + ",".join(report["kinds"]), "size %d" % report["size"]]
    lines += ["%s %s" % (word, hashlib.sha256(load(path)).hexdigest()) for word, path in [("design", design)] + [("trace", it) for it in traces]]
    lines += reading
    return hashlib.sha256("".join(line + "\n" for line in lines).encode()).hexdigest()


def misfits(report, design, lines, traces, reading=()):
    """What shows that the report is not of this design, in words, one a line."""
    said = []
    if traces and inputs_digest(report, design, traces, reading) != report["inputs"]:
        said.append("%s and the dumps are not the inputs of this report (another text, another dump, another order, scope or x-inputs)" % design)
    for number in sorted({it for found in report["sets"] for it in found["members"]}):
        line = report["suspects"][number - 1]["line"]
        if line > len(lines):
            said.append("suspect %d stands in line %d, and %s has %d lines: is it the text that was searched?" % (number, line, design, len(lines)))
    return said
