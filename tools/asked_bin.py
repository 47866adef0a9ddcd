"""The joint runs of `tools/triage.py ask`: of the tests of one bin, and of a test of each bin, for the least number of places.

Each leaves a folder: `answer.json`, and of the run that it tells of `report.json`, `log` and `dumps/`, which `localise check` takes; of a
bin also `list.html`, the page of that report, and `waves/`, the values of each suspect in the dump to look at first.
"""

import os
import shutil
import tempfile

import page
from bins_of_tests import digest_of, to_look_at
from case_of_test import Cut, MEMBER, NoAnswer, run_find
from report import design_lines, read_report
from whole_files import Problem, digest, json_text, load

ASKED = "localise-asked 1"
MOST_DUMPS = 256    # (of one run)
MOST_SIZE = 8


# ---- dumps

def cut_text(asked, unit):
    """The cut dump of a unit, as its case was made of it."""
    text = load(unit["dump"])
    if digest(text) != unit["dump_digest"]:
        raise Problem("%s: was changed since its case was made" % unit["dump"])
    cut = Cut(text[: unit["end"]], unit["names"], bool(asked.clock))
    return cut.with_last(dict.fromkeys(unit["opened"]))


def of_each_list(units):
    """Of the units with equal lists the first to be looked at."""
    equal = {}
    for unit in units:
        equal.setdefault(tuple(unit["suspects"]), []).append(unit)
    return [to_look_at(it) for it in equal.values()]


def narrowing(first, units):
    """Units that leave fewer and fewer suspects beside the first one's list, until none of the others takes one away."""
    found, left = [first], set(first["suspects"])
    while True:
        unit = min(units, key=lambda it: len(left & set(it["suspects"])))
        if left <= set(unit["suspects"]):
            return found
        found.append(unit)
        left &= set(unit["suspects"])


def chosen(units):
    """The units that a joint run takes, the first to be looked at first: all of them. Where they are too many, those that all together have
    in common what all units have, and others with lists of their own."""
    first = to_look_at(units)
    if len(units) <= MOST_DUMPS:
        return [first] + [it for it in units if it is not first]
    some = narrowing(first, units)
    return (some + [it for it in of_each_list(units) if not any(it is other for other in some)])[:MOST_DUMPS]


def in_common(units):
    """The suspects that explain each of these units alone, and so all of them together."""
    return sorted(set.intersection(*(set(it["suspects"]) for it in units)))


def write_dumps(asked, units, room):
    """Writes the cut dumps into a folder, and gives their names in it."""
    os.mkdir(os.path.join(room, "dumps"))
    names = [os.path.join("dumps", "%03d.vcd" % number) for number in range(1, len(units) + 1)]
    for name, unit in zip(names, units):
        with open(os.path.join(room, name), "wb") as file:
            file.write(cut_text(asked, unit))
    return names


# ---- a bin

def waves_of(asked, room, dump):
    """Writes a wave of each suspect that explains the first dump; the numbers of these."""
    with tempfile.TemporaryDirectory(prefix="triage-") as other:
        shutil.copy(os.path.join(room, dump), os.path.join(other, "dump.vcd"))
        _, printed = run_find(asked, other, ["dump.vcd"], "1", "--waves", os.path.join(other, "wave"))
        os.mkdir(os.path.join(room, "waves"))
        numbers = [int(it[0]) for it in MEMBER.findall(printed)]
        for place, number in enumerate(numbers, 1):
            shutil.copy(os.path.join(other, "wave-%d-1.vcd" % place), os.path.join(room, "waves", "suspect-%d.vcd" % number))
    return numbers


def write_list(asked, room):
    """Writes the page of the joint run's report."""
    report, lines = read_report(os.path.join(room, "report.json")), design_lines(asked.design)
    said = page.page_of(report, page.Wanted(asked.design, lines, False, None, None), [])
    with open(os.path.join(room, "list.html"), "w", encoding="utf-8", newline="\n") as file:
        file.write(said)


def joint_run(asked, units, room, names):
    """What `find` says of the dumps of these units together: its last line and the suspects; where it passes a limit, that line alone."""
    try:
        last, printed = run_find(asked, room, names, "1")
    except NoAnswer as said:
        return str(said), []
    found = sorted(int(row[0]) for row in MEMBER.findall(printed))
    if last.startswith("complete ") and found != in_common(units):
        raise Problem("one run on these dumps gives other suspects than their lists do: %s, and not %s" % (found, in_common(units)))
    return last, found


def bin_answer(asked, it, room):
    """Asks for all cut dumps of a bin at once, and what the answer has to say."""
    units = chosen(it["units"])
    names = write_dumps(asked, units, room)
    last, found = joint_run(asked, units, room, names)
    waves_of(asked, room, names[0])
    if found:
        write_list(asked, room)
    return {"bin": it["number"], "line": last, "suspects": found, "dumps": [unit["dump"] for unit in units], "units": len(it["units"])}


# ---- the least number of places

def least_answer(asked, units, room):
    """Asks for a dump of each bin, together, for sets of more and more suspects: no set of fewer than `least` makes them all right."""
    names = write_dumps(asked, units, room)
    answer = {"bin": "least", "least": 1, "line": "", "ended": None, "dumps": [unit["dump"] for unit in units]}
    for size in range(1, min(len(units), MOST_SIZE + 1)):
        with tempfile.TemporaryDirectory(prefix="triage-") as other:
            os.symlink(os.path.abspath(os.path.join(room, "dumps")), os.path.join(other, "dumps"))
            try:
                last, _ = run_find(asked, other, names, str(size), "--sets", "1")
            except NoAnswer as said:
                return dict(answer, ended=str(said))
            if last != "complete 0":
                return answer if last == "front 1 sets" else dict(answer, ended=last)
            for name in ("report.json", "log"):
                shutil.copy(os.path.join(other, name), os.path.join(room, name))
        answer.update(least=size + 1, line=last)
    return answer


# ---- the folder

def subject_of(bins, what):
    """What is asked for: a bin, or of each bin the unit to look at first."""
    if what == "least":
        return [to_look_at(it["units"]) for it in bins["bins"]][:MOST_DUMPS]
    return bins["bins"][int(what) - 1]


def digest_of_subject(bins, subject):
    """What an answer is of: the question, and the units with their dumps and lists."""
    return digest_of([bins["question"], subject["units"] if isinstance(subject, dict) else subject])


def is_of(answer, bins):
    """Whether an answer is of these bins: of the same design, and of the same tests."""
    what = answer["bin"]
    if what != "least" and what > len(bins["bins"]):
        return False
    return answer["of"] == digest_of_subject(bins, subject_of(bins, what))


def is_settled(answer, effort):
    """Whether this effort wouldn't change an answer: its search came to an end, or it is the same effort."""
    is_whole = answer["ended"] is None if answer["bin"] == "least" else answer["line"].startswith("complete ")
    return is_whole or answer["effort"] == effort


def asked_folder(asked, bins, what, out):
    """Makes the folder of an answer beside its name, which it takes when it is whole."""
    folder, name = os.path.split(out.rstrip("/"))
    room = tempfile.mkdtemp(prefix="." + name + ".", dir=folder or ".")
    try:
        subject = subject_of(bins, what)
        answer = least_answer(asked, subject, room) if what == "least" else bin_answer(asked, subject, room)
        answer.update(form=ASKED, effort=asked.effort, of=digest_of_subject(bins, subject))
        with open(os.path.join(room, "answer.json"), "w", encoding="utf-8", errors="surrogateescape") as file:
            file.write(json_text(answer))
        os.chmod(room, 0o755)
        if os.path.exists(out):
            shutil.rmtree(out)
        os.rename(room, out)
    finally:
        shutil.rmtree(room, ignore_errors=True)
    return answer
