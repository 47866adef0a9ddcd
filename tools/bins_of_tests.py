"""The bins of a regression, from the cases of its tests: what `tools/triage.py bins` leaves."""

import binning
from whole_files import Problem, digest, json_text, read_json

CASE = "localise-case 1"
BINS = "localise-bins 1"
SAME = ("design", "design_digest", "top", "clock", "options")


# what a case has, and each of its units
SHAPE = {"design": str, "design_digest": str, "top": str, "clock": str, "options": list, "dump": str, "dump_digest": str, "answer": str,
         "line": str, "cycle": (int, type(None)), "end": (int, type(None)), "names": list, "units": list, "suspects": dict}
UNIT = {"outputs": list, "opened": list, "suspects": list, "ending": str, "made_up": (dict, type(None))}


def has_shape(value, shape):
    return isinstance(value, dict) and all(name in value and isinstance(value[name], kind) for name, kind in shape.items())


def read_case(path):
    """The case in a file; a Problem where it has another shape."""
    case = read_json(path, CASE)
    if not (has_shape(case, SHAPE) and all(has_shape(it, UNIT) and it["outputs"] for it in case["units"])):
        raise Problem("%s: not whole, or changed by hand" % path)
    return dict(case, path=path)


def cases_in(paths):
    """The cases that can be read, by their dumps; and for each that can't its path and why."""
    found, unread = [], []
    for path in paths:
        try:
            found.append(read_case(path))
        except Problem as problem:
            unread.append({"dump": path, "line": str(problem)})
    return sorted(found, key=lambda it: (it["dump"], it["path"])), unread


def expect_one_question(cases):
    """Raises a Problem where two cases are of other designs, tops, clocks or options."""
    for it in cases[1:]:
        other = next((name for name in SAME if it[name] != cases[0][name]), None)
        if other:
            raise Problem("%s and %s are of two runs: their %s differs" % (cases[0]["path"], it["path"], other.replace("_", "'s ")))


# ---- units

def units_of(cases):
    """Each unit whose list is whole, with what a bin has to know of its test."""
    names = ("dump", "dump_digest", "cycle", "end", "names")
    return [{**{name: case[name] for name in names}, **unit} for case in cases for unit in case["units"] if unit["ending"].startswith("complete ")]


def tests_of(units):
    return len({it["dump"] for it in units})


def to_look_at(units):
    """The unit with the shortest list, of those the one with the earliest miss."""
    return min(units, key=lambda it: (len(it["suspects"]), it["cycle"], it["dump"]))


def bin_entry(it, units, made_up):
    """A bin as it stands in the file, but for its number and its family."""
    of = sorted((units[place] for place in it.units), key=lambda unit: (unit["dump"], unit["outputs"]))
    outputs = sorted({name for unit in of for name in unit["outputs"]})
    mostly = {number for number, count in it.counts.items() if 2 * count > len(of)} - it.shared
    return {"tests": tests_of(of), "outputs": outputs, "first_outputs": first_outputs(of), "look_at": to_look_at(of)["dump"], "units": of,
            "suspects": rows_of(it.shared, it, outputs, made_up), "mostly": rows_of(mostly, it, outputs, made_up)}


def rows_of(suspects, it, outputs, made_up):
    """Suspects of a bin, the likeliest first: how many lists have each, and how many of the failures that were made up at its outputs it
    explains."""
    ranked = binning.ranked(suspects, outputs, made_up)
    return [{"number": number, "lists": it.counts[number], "hits": hits, "of": of} for number, hits, of in ranked]


def first_outputs(units):
    """The outputs at which these tests first go wrong, the most frequent first."""
    names = [unit["outputs"][0] for unit in units]
    return sorted(set(names), key=lambda name: (-names.count(name), name))


def bins_of(units):
    """The bins, those with the most tests first."""
    made_up = binning.tallied((it["outputs"][0], it["made_up"]["suspects"]) for it in units if it["made_up"])
    found = binning.bins_of([it["suspects"] for it in units]) if units else []
    entries = [bin_entry(it, units, made_up) for it in found]
    families = binning.families_of(found, [set(it["outputs"]) for it in entries], made_up)
    rows = sorted(zip(entries, families), key=lambda row: (-row[0]["tests"], row[0]["look_at"], row[0]["outputs"]))
    names = {family: number for number, family in enumerate(dict.fromkeys(family for _, family in rows), 1)}
    return [dict(entry, number=number, family=names[family]) for number, (entry, family) in enumerate(rows, 1)]


# ---- what isn't in a bin

def could_be(case, bins):
    """The bins that a test may belong to whose list isn't whole: those of which its sets so far have a suspect."""
    listed = {number for unit in case["units"] for number in unit["suspects"]}
    return [it["number"] for it in bins if listed & {row["number"] for row in it["suspects"]}]


def lines_of(cases, *answers):
    return [{"dump": it["dump"], "line": it["line"]} for it in cases if it["answer"] in answers]


def left_out(cases, unread, units, bins):
    """The tests that are in no bin, by the reason."""
    unexplained = [{name: it[name] for name in ("dump", "cycle", "outputs")} for it in units if not it["suspects"]]
    unfinished = [dict(dump=it["dump"], line=it["line"], bins=could_be(it, bins)) for it in cases if it["answer"] == "unfinished"]
    return {"passing": [it["dump"] for it in cases if it["answer"] == "passes"], "refused": lines_of(cases, "refused"),
            "killed": lines_of(cases, "killed") + unread, "unfinished": unfinished, "unexplained": unexplained}


def counts_of(cases, unread):
    answers = [it["answer"] for it in cases]
    names = ("fails", "passes", "refused", "unfinished", "killed")
    return {name: answers.count(name) + (len(unread) if name == "killed" else 0) for name in names}


def bins_file(paths):
    """What the file of bins has."""
    cases, unread = cases_in(paths)
    expect_one_question(cases)
    units = units_of(cases)
    explained = [it for it in units if it["suspects"]]
    bins = bins_of(explained)
    named = {str(number) for it in explained for number in it["suspects"]}
    suspects = {number: what for it in cases for number, what in it["suspects"].items() if number in named}
    question = {name: cases[0][name] for name in SAME} if cases else {}
    return {"form": BINS, "question": question, "counts": counts_of(cases, unread), "bins": bins, "suspects": suspects,
            "families": len({it["family"] for it in bins}), **left_out(cases, unread, units, bins)}


def digest_of(value):
    return digest(json_text(value).encode("utf-8", "surrogateescape"))


def counts_text(counts):
    """How many tests fail, pass and so on, as a line says it."""
    fail = counts["fails"] + counts["unfinished"]
    said = "%d dump%s" % (fail, " fails" if fail == 1 else "s fail")
    said += " (%d not finished)" % counts["unfinished"] if counts["unfinished"] else ""
    said += ", %d pass%s, %d refused" % (counts["passes"], "es" if counts["passes"] == 1 else "", counts["refused"])
    return said + (", %d without an answer" % counts["killed"] if counts["killed"] else "")
