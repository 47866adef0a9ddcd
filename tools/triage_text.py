"""What is known of a regression, as `tools/triage.py page` writes it as JSON and prints it. What is certified and what is likely is said
of each thing: certified is what a list of `find` says that is whole, likely is what the bins guess.
"""

import os

from bins_of_tests import counts_text
from line_map import LineMap

FORM = "localise-triage 1"
SHOWN = 20          # suspects of a bin, and tests of a kind, that the text names


def many(number, word):
    return "%s %s%s" % (format(number, ",d"), word, "" if number == 1 else "s")


def why_none(bins):
    """Why no test fails, where that isn't since all pass."""
    counts = bins["counts"]
    others = counts["refused"] + counts["killed"]
    if not others:
        return ""
    first = (bins["refused"] + bins["killed"])[0]
    return ", but %s no answer, as %s: %s" % ("one has" if others == 1 else "%d have" % others, first["dump"], first["line"])


# ---- what is known

def suspect_entry(row, bins, lines, places):
    what = bins["suspects"][str(row["number"])]
    text = lines[what["line"] - 1].strip() if 1 <= what["line"] <= len(lines) else ""
    return {**what, **row, "text": text, "where": places.text(what["line"])}


def bin_entry(it, bins, answers, lines):
    answer = answers.get(it["number"])
    joint = answer and {name: answer[name] for name in ("folder", "line", "units")} | {"dumps": len(answer["dumps"])}
    tests = [{name: unit[name] for name in ("dump", "cycle", "outputs")} for unit in it["units"]]
    places = LineMap(bins["question"]["design"], lines)
    suspects = {name: [suspect_entry(row, bins, lines, places) for row in it[name]] for name in ("suspects", "mostly")}
    same = {name: it[name] for name in ("number", "family", "tests", "first_outputs", "look_at")}
    return {**same, **suspects, "dumps": tests, "joint": joint}


def least_of(answers):
    """What the run on a dump of each bin says, where there was one."""
    answer = answers.get("least")
    return answer and {name: answer[name] for name in ("folder", "least", "line", "dumps", "ended")}


def known_of(bins, answers, lines):
    least = least_of(answers)
    fewest = max(bins["families"], least["least"] if least else 0)
    question = bins["question"]
    return {"form": FORM, "design": question["design"], "top": question["top"], "clock": question["clock"], "options": question["options"],
            "counts": bins["counts"], "kinds": sorted({it["kind"] for it in bins["suspects"].values()}), "certified": least,
            "likely": {"least": fewest, "most": max(fewest, len(bins["bins"]))},
            "bins": [bin_entry(it, bins, answers, lines) for it in bins["bins"]],
            **{name: bins[name] for name in ("passing", "refused", "killed", "unfinished", "unexplained")}}


# ---- as text

def range_text(least, most, word):
    return many(least, word) if least == most else "%d to %s" % (least, many(most, word))


def certified_text(known):
    """The certified least number of places, in words."""
    least, kinds = known["certified"], "/".join(known["kinds"])
    ended = " (the search for more ended: %s)" % least["ended"] if least["ended"] else ""
    if least["least"] == 1:
        return "at least 1 place (%s) is wrong, if nothing but values of such places is%s" % (kinds, ended)
    fewer = "no single one explains" if least["least"] == 2 else "no %d explain" % (least["least"] - 1)
    return "at least %d places (%s) are wrong, if nothing but values of such places is: %s these dumps together: %s%s" % (
        least["least"], kinds, fewer, ", ".join(least["dumps"]), ended)


def hits_text(row, verb):
    """How many of the failures that were made up a suspect explains too."""
    return "%s %d of %s" % (verb, row["hits"], many(row["of"], "made-up failure")) if row["of"] else "no made-up failures"


def suspect_line(row, before=""):
    code = ": " + row["text"] if row["text"] else ""
    return "  %5d %s %s %s%s   [%s%s]\n" % (row["number"], row["kind"], row["where"], row["label"], code, before, hits_text(row, "and"))


def mostly_line(row, it):
    return suspect_line(row, "in %d of %d lists; " % (row["lists"], len(it["dumps"])))


def bin_text(it):
    head = "bin %d (family %d): %s, first wrong at %s; look at %s first\n" % (
        it["number"], it["family"], many(it["tests"], "dump"), ", ".join(it["first_outputs"]), it["look_at"])
    rest = len(it["suspects"]) - SHOWN
    further = "        and %s\n" % many(rest, "further suspect") if rest > 0 else ""
    mostly = "".join(mostly_line(row, it) for row in it["mostly"][:SHOWN])
    return head + "".join(map(suspect_line, it["suspects"][:SHOWN])) + further + mostly


def others_text(head, lines):
    """A kind of tests that are in no bin."""
    rest = len(lines) - SHOWN
    shown = "".join("  %s\n" % it for it in lines[:SHOWN]) + ("  and %d more\n" % rest if rest > 0 else "")
    return head + "\n" + shown if lines else ""


def could_be_text(it):
    bins = ", ".join(map(str, it["bins"]))
    return "%s: %s%s" % (it["dump"], it["line"], "; could be of bin %s" % bins if bins else "")


def text_of(known):
    """What is known, as text."""
    kinds = "/".join(known["kinds"]) or "suspect"
    head = "triage of %s, top %s: %s\n" % (os.path.basename(known["design"]), known["top"], counts_text(known["counts"]))
    head += "certified: %s\n" % certified_text(known) if known["certified"] else "not asked: how many places are wrong\n"
    head += "likely:    %s\n" % range_text(known["likely"]["least"], known["likely"]["most"], "bug") if known["bins"] else ""
    parts = [bin_text(it) for it in known["bins"]]
    parts.append(others_text("no single %s explains:" % kinds, [
        "%s, cycle %d, %s" % (it["dump"], it["cycle"], ", ".join(it["outputs"])) for it in known["unexplained"]]))
    parts.append(others_text("not finished:", [could_be_text(it) for it in known["unfinished"]]))
    parts.append(others_text("refused:", ["%s: %s" % (it["dump"], it["line"]) for it in known["refused"]]))
    parts.append(others_text("without an answer:", ["%s: %s" % (it["dump"], it["line"]) for it in known["killed"]]))
    return head + "".join(parts)
