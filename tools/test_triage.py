#!/usr/bin/env python3
"""Tests of tools/triage.py: `python3 tools/test_triage.py`. Most need no program: functions here stand for `sim` and `find`. With the
built program (crates/localise/out/localise, or the one that the variable LOCALISE names) the pages of bench/regressions are made again,
and have to be the same."""

import argparse
import contextlib
import html.parser
import importlib.util
import io
import json
import os
import random
import re
import sys
import tempfile
import unittest
import unittest.mock

HERE = os.path.dirname(os.path.abspath(__file__))
TOP = os.path.dirname(HERE)
sys.path.insert(0, HERE)
import asked_bin  # noqa: E402
import case_of_test  # noqa: E402
import cut_dump  # noqa: E402
import triage  # noqa: E402
import whole_files  # noqa: E402

PROGRAM = os.environ.get("LOCALISE", os.path.join(TOP, "crates", "localise", "out", "localise"))
HEAD = "$comment %s $end\n$scope module m $end\n$var wire 1 c clk $end\n$var wire 2 y y [1:0] $end\n$var wire 1 z z $end\n" \
    "$upscope $end\n$enddefinitions $end\n"


# ---- what stands for the program

def samples(text):
    """What a dump wants of `y` and `z` before each rising edge of `clk`; None for x."""
    values, clock, found = {"y": "0", "z": "0"}, None, []
    ends = cut_dump.stamps(text)
    for start, end in zip(ends, ends[1:]):
        words, before, rises = text[start:end].decode().split()[1:], dict(values), False
        while words:
            word = words.pop(0)
            bits, code = (word[1:], words.pop(0)) if word[0] == "b" else (word[0], word[1:])
            if code == "c":
                rises, clock = clock == "0" and bits == "1", bits
            else:
                values[code] = bits
        if rises:
            found.append({name: None if "x" in it else int(it, 2) for name, it in before.items()})
    return found


def misses_of(text):
    """Where outputs aren't 0, as the design has them: the cycle and its outputs."""
    return next(((cycle, [name for name in "yz" if row[name]]) for cycle, row in enumerate(samples(text)) if row["y"] or row["z"]), None)


def says_of(text):
    """What a dump says in its comment of how the program is to answer."""
    return json.loads(re.match(rb"\$comment (.*?) \$end", text)[1])


def fake_sim(asked, text):
    says = says_of(text)
    if says.get("refused"):
        raise cut_dump.Refused(says["refused"].encode() + b"\n", says.get("status", 3))
    rows, miss = samples(text), misses_of(text)
    lines = "".join("1 %d y=0 z=0\n" % number for number in range(len(rows))).encode()
    return cut_dump.Simulation(lines, len(rows), miss[0], miss[1][0]) if miss else cut_dump.Simulation(lines, len(rows))


class FakeFind:
    """Lists what a dump says of the outputs that are wrong in its last cycle; all that is wrong at once is explained by what explains each."""

    def __init__(self):
        self.calls = []

    def run(self, asked, room, dumps, size, *further):
        texts = [whole_files.load(os.path.join(room, it)) for it in dumps]
        self.calls.append((len(dumps), size))
        found = set.intersection(*map(self.explain, texts))
        for text in texts:
            ending = says_of(text).get("ending")
            if ending == "killed":
                raise case_of_test.Killed("find was ended by signal 9")
            if ending and not ending.startswith("front"):
                raise case_of_test.NoAnswer(ending)
        self.leave(room, sorted(found), dict(zip(further, further[1:])).get("--waves"))
        last = says_of(texts[0]).get("ending", "complete %d" % len(found)) if size == "1" else "front 1 sets"
        return last, "".join("set {%d}\n  %d stmt %d m\n" % (it, it, it + 1) for it in sorted(found))

    def leave(self, room, found, waves):
        """Writes a report of these suspects, a log, and waves where they are wanted."""
        suspects = [{"kind": "stmt", "label": "m", "line": number + 1} for number in range(1, 9)]
        report = {"clock": "clk", "ending": "complete", "inputs": "0" * 64, "kinds": ["stmt"], "size": 1, "top": "m", "version": 1,
                  "suspects": suspects, "sets": [{"members": [it], "values": [[["0"]]]} for it in found]}
        names = ["wave-%d-1.vcd" % number for number in range(1, len(found) + 1)] if waves else []
        for name, text in [("report.json", json.dumps(report)), ("log", "")] + [(it, "") for it in names]:
            with open(os.path.join(room, name), "w") as file:
                file.write(text)

    def explain(self, text):
        says, (cycle, outputs) = says_of(text), misses_of(text)
        lists = [says.get(name, []) for name in outputs] if cycle == says["at"] else [says.get("made", [])]
        return set.intersection(*map(set, lists))


def dump_of(says, wrong="y", at=3, cycles=5):
    """A dump that wants 1 of some outputs in a cycle, and says how the program is to answer."""
    stamps = []
    for cycle in range(cycles):
        values = ["b%s y" % ("1" if cycle == at and "y" in wrong else "0"), "%dz" % (cycle == at and "z" in wrong)]
        stamps.append("#%d\n0c\n%s\n#%d\n1c\n" % (10 * cycle, "\n".join(values), 10 * cycle + 5))
    return HEAD % json.dumps({"at": at, **says}) + "".join(stamps)


class Room(unittest.TestCase):
    """A folder with a design, and the steps run in it."""

    def setUp(self):
        room = tempfile.TemporaryDirectory(prefix="triage of a night ")
        self.addCleanup(room.cleanup)
        self.room, self.find = room.name, FakeFind()
        for name, it in (("cut_dump.simulated", fake_sim), ("case_of_test.run_find", self.find.run), ("asked_bin.run_find", self.find.run)):
            patch = unittest.mock.patch(name, it)
            patch.start()
            self.addCleanup(patch.stop)
        here = os.getcwd()
        os.chdir(self.room)
        self.addCleanup(os.chdir, here)
        self.write("m.v", "".join("line %d\n" % number for number in range(1, 9)))

    def write(self, name, text):
        with open(name, "w") as file:
            file.write(text)

    def step(self, *words):
        """A step's status, what it prints, and what it says of errors."""
        said, errors = io.StringIO(), io.StringIO()
        with contextlib.redirect_stdout(said), contextlib.redirect_stderr(errors):
            status = triage.main(list(words))
        return status, said.getvalue(), errors.getvalue()

    def case(self, name, says, *further, **of):
        """Makes the case of a dump, and gives it with the step's answer."""
        self.write(name + ".vcd", dump_of(says, **of))
        answer = self.step("case", "m.v", "m", name + ".vcd", name + ".case", "--clock", "clk", *further)
        with open(name + ".case") as file:
            return json.load(file), answer

    def known(self, *asked):
        """What the page has to say as JSON."""
        self.assertEqual(self.step("page", "bins.json", *asked, "--json", "page.json", "--html", "page.html")[0], 0)
        with open("page.json") as file:
            return json.load(file)


# ---- a test

class Cases(Room):
    def test_a_failure_is_cut_at_its_first_miss_and_has_a_made_up_one(self):
        case, answer = self.case("t", {"y": [2, 4], "made": [4]})
        self.assertEqual(answer, (0, "", ""))
        self.assertEqual((case["answer"], case["cycle"], case["names"]), ("fails", 3, ["y", "z", "clk"]))
        text = whole_files.load("t.vcd")
        self.assertEqual(len(samples(text[: case["end"]])), 4)
        (unit,) = case["units"]
        self.assertEqual((unit["outputs"], unit["opened"], unit["suspects"], unit["made_up"]["suspects"]), (["y"], [], [2, 4], [4]))
        self.assertLess(unit["made_up"]["cycle"], 3)
        self.assertEqual(self.find.calls, [(1, "1"), (1, "1")])

    def test_nothing_can_be_made_up_before_the_first_cycle(self):
        self.assertIsNone(self.case("t", {"y": [2]}, at=0)[0]["units"][0]["made_up"])

    def test_outputs_that_no_one_suspect_explains_are_asked_for_one_by_one(self):
        case, _ = self.case("t", {"y": [2, 4], "z": [5]}, wrong="yz")
        units = [(it["outputs"], it["opened"], it["suspects"]) for it in case["units"]]
        self.assertEqual(units, [(["y"], ["z"], [2, 4]), (["z"], ["y"], [5])])

    def test_outputs_that_one_suspect_explains_are_one_unit(self):
        case, _ = self.case("t", {"y": [2, 4], "z": [4]}, wrong="yz")
        self.assertEqual([(it["outputs"], it["suspects"]) for it in case["units"]], [(["y", "z"], [4])])

    def test_passing_refused_unfinished_and_killed(self):
        for name, says, wanted in (("passes", {"at": 9}, ("passes", "")),
                                   ("dump", {"refused": "input T2 1 7"}, ("refused", "input T2 1 7")),
                                   ("limit", {"y": [1], "ending": "limit Z5"}, ("refused", "limit Z5")),
                                   ("front", {"y": [1], "ending": "front 1 budget"}, ("unfinished", "front 1 budget"))):
            case, answer = self.case(name, says, wrong="" if name == "passes" else "y")
            self.assertEqual(((case["answer"], case["line"]), answer[0]), (wanted, 0))
        for name, says, line in (("killed", {"y": [1], "ending": "killed"}, "find was ended by signal 9"),
                                 ("full", {"refused": "memory", "status": 7}, "sim ended with status 7"),
                                 ("late", {"refused": "limit", "status": 124}, "sim ended with status 124"),
                                 ("mute", {"refused": " ", "status": 5}, "sim ended with status 5 and printed nothing")):
            case, answer = self.case(name, says)
            self.assertEqual((case["answer"], case["line"], answer[0]), ("killed", line, 1))

    def test_a_program_that_is_not_there(self):
        self.write("t.vcd", dump_of({"y": [2]}))
        with unittest.mock.patch("cut_dump.simulated", side_effect=FileNotFoundError(2, "No such file or directory", "localise")):
            answer = self.step("case", "m.v", "m", "t.vcd", "t.case", "--clock", "clk")
        self.assertEqual((answer, os.path.exists("t.case")), ((2, "", "triage.py: localise: No such file or directory\n"), False))

    def test_wrong_words_leave_nothing(self):
        self.write("t.vcd", dump_of({"refused": "usage words", "status": 2}))
        status, _, errors = self.step("case", "m.v", "m", "t.vcd", "t.case", "--clock", "clk", "--no-such-option")
        self.assertEqual((status, errors), (2, "triage.py: sim refuses its arguments: usage words\n"))
        self.assertFalse(os.path.exists("t.case"))
        with self.assertRaises(SystemExit), contextlib.redirect_stderr(io.StringIO()):
            triage.main(["case", "m.v", "m", "t.vcd", "t.case", "--size=2"])

    def test_options_of_find_are_handed_through_as_they_are_given(self):
        case, _ = self.case("t", {"y": [2]}, "--suspects", "block", "--x-inputs=free", "--scope", "u.v")
        self.assertEqual(case["options"], ["--suspects", "block", "--x-inputs=free", "--scope", "u.v"])

    def test_the_format_is_handed_to_sim_too(self):
        formats = set()
        with unittest.mock.patch("cut_dump.simulated", lambda asked, text: formats.add(asked.format) or fake_sim(asked, text)):
            for name, words in (("none", []), ("word", ["--format", "aiger"]), ("joined", ["--format=aiger"])):
                formats.clear()
                case, _ = self.case(name, {"y": [2]}, *words)
                self.assertEqual((case["options"], formats), (words, {"aiger" if words else None}))

    def test_more_effort_tries_an_unfinished_test_again_and_no_other(self):
        for name, ending in (("front", "front 1 budget"), ("whole", "complete 1")):
            self.case(name, {"y": [2], "ending": ending})
            self.find.calls.clear()
            case, answer = self.case(name, {"y": [2], "ending": ending}, "--budget=900", "--sets", "7")
            self.assertEqual((answer[0], len(self.find.calls)), (0, int(name == "front")))
        self.assertEqual(case_of_test.parted(["--sets", "7", "--scope", "u", "--sets=8"], ("--sets",)), (["--sets", "7", "--sets=8"], ["--scope", "u"]))

    def test_a_dump_that_is_not_there_is_tried_again(self):
        os.mkdir("cases")
        self.assertEqual(self.step("case", "m.v", "m", "late.vcd", "cases", "--clock", "clk")[0], 1)
        line = whole_files.read_json("cases/late.case", "localise-case 1")["line"]
        self.assertEqual(line, "late.vcd: can't be read: No such file or directory")
        self.write("late.vcd", dump_of({"y": [2]}))
        self.assertEqual(self.step("case", "m.v", "m", "late.vcd", "cases", "--clock", "clk")[0], 0)
        self.assertEqual(whole_files.read_json("cases/late.case", "localise-case 1")["answer"], "fails")

    def test_a_second_start_runs_nothing_but_what_was_killed(self):
        self.case("t", {"y": [2]}), self.case("k", {"y": [2], "ending": "killed"})
        self.find.calls.clear()
        self.case("t", {"y": [2]})
        self.assertEqual(self.find.calls, [])
        self.case("k", {"y": [2], "ending": "killed"})
        self.assertEqual(len(self.find.calls), 1)

    def test_two_dumps_of_one_name(self):
        os.mkdir("cases"), os.mkdir("other")
        for name in ("t.vcd", "other/t.vcd"):
            self.write(name, dump_of({"y": [2]}))
        self.assertEqual(self.step("case", "m.v", "m", "t.vcd", "cases", "--clock", "clk")[0], 0)
        status, _, errors = self.step("case", "m.v", "m", "other/t.vcd", "cases", "--clock", "clk")
        said = "triage.py: cases/t.case: is of t.vcd; give the case of other/t.vcd a name of its own, or another folder\n"
        self.assertEqual((status, errors), (2, said))

    def test_a_case_of_another_run_is_not_written_over(self):
        self.case("t", {"y": [2]})
        before = whole_files.load("t.case")
        self.write("t.vcd", dump_of({"y": [3]}))
        status, _, errors = self.step("case", "m.v", "m", "t.vcd", "t.case", "--clock", "clk")
        self.assertEqual((status, whole_files.load("t.case")), (2, before))
        self.assertIn("t.case: is of another run: its dump's digest differs", errors)


class Told(unittest.TestCase):
    """What the program says on standard error, with a small script for it."""

    def said(self, status):
        """What is handed on of a run with this status."""
        with tempfile.TemporaryDirectory() as room, contextlib.redirect_stderr(io.StringIO()) as errors:
            program = os.path.join(room, "program")
            with open(program, "w") as file:
                file.write("#!/bin/sh\necho line\necho \"$4: why\" >&2\nexit %d\n" % status)
            os.chmod(program, 0o755)
            asked = argparse.Namespace(program=program, design="m.v", top="m", clock="", options=[], effort=[], about="t.vcd")
            try:
                case_of_test.run_find(asked, room, ["dump.vcd"], "1")
            except (case_of_test.NoAnswer, case_of_test.Killed):
                pass
        return errors.getvalue()

    def test_a_refusal_and_a_fault_are_handed_on_behind_the_dump_and_no_answer_is(self):
        self.assertEqual([self.said(it) for it in (0, 1)], ["", ""])
        self.assertEqual([self.said(it) for it in (4, 7)], ["triage.py: t.vcd: dump.vcd: why\n"] * 2)


# ---- a regression

class Night(Room):
    """A folder in which a regression can be run."""

    def regression(self):
        """Two bugs, at y and z, and of each other kind of test one."""
        for number in range(3):
            self.case("a %d" % number, {"y": [2, 4], "made": [4]}), self.case("b %d" % number, {"z": [6, 7], "made": [7]}, wrong="z")
        self.case("c", {"at": 9}, wrong=""), self.case("d", {"refused": "input T2 1 7"})
        self.case("e", {"y": [2], "ending": "front 1 budget"}), self.case("f", {"y": []})
        self.write("g.case", "{")
        return self.step("bins", "bins.json", ".")


class Regressions(Night):
    def test_bins_and_all_others(self):
        status, said, _ = self.regression()
        self.assertEqual((status, said), (0, "8 dumps fail (1 not finished), 1 passes, 1 refused, 1 without an answer: 2 bins\n"))
        known = self.known()
        self.assertEqual([[row["number"] for row in it["suspects"]] for it in known["bins"]], [[2, 4], [6, 7]])
        self.assertEqual([(row["hits"], row["of"]) for row in known["bins"][0]["suspects"]], [(0, 3), (3, 3)])
        self.assertEqual(known["bins"][0]["suspects"][0]["text"], "line 3")
        self.assertEqual((known["unfinished"][0]["bins"], known["passing"], known["unexplained"][0]["dump"]), ([1], ["c.vcd"], "f.vcd"))
        self.assertEqual(known["likely"], {"least": 2, "most": 2})

    def test_cases_that_are_not_whole(self):
        self.case("a", {"y": [2]})
        with open("a.case") as file:
            whole = json.load(file)
        wrong = [{"form": "localise-case 1"}, dict(whole, units=[{}]), dict(whole, dump=3), dict(whole, units=[dict(whole["units"][0], outputs=[])])]
        for number, it in enumerate(wrong):
            self.write("b%d.case" % number, json.dumps(it))
        self.assertEqual(self.step("bins", "bins.json", ".")[:2], (0, "1 dump fails, 0 pass, 0 refused, 4 without an answer: 1 bin\n"))
        self.assertEqual(self.known()["killed"][0], {"dump": "./b0.case", "line": "./b0.case: not whole, or changed by hand"})
        status, _, errors = self.step("case", "m.v", "m", "a.vcd", "b0.case", "--clock", "clk")
        self.assertEqual((status, errors), (2, "triage.py: b0.case: not whole, or changed by hand\n"))

    def test_cases_that_are_named_in_a_file(self):
        """One that isn't there is told, and one that isn't named is left alone."""
        self.case("a b", {"y": [2]}), self.case("old", {"y": [3]})
        self.write("names", "a b.case\ngone.case\n")
        self.assertEqual(self.step("bins", "bins.json", "--names", "names")[:2], (0, "1 dump fails, 0 pass, 0 refused, 1 without an answer: 1 bin\n"))
        self.assertEqual(self.known()["killed"][0]["dump"], "gone.case")
        with self.assertRaises(SystemExit), contextlib.redirect_stderr(io.StringIO()):
            triage.main(["bins", "bins.json"])

    def test_more_lists_than_one_run_takes(self):
        """The dumps of a joint run have no more suspects in common than all of the bin."""
        units = [{"suspects": sorted({1, 2} | {number % 7 + 10, number + 100}), "cycle": 3, "dump": "%d.vcd" % number} for number in range(299)]
        units.append({"suspects": [1, *range(10, 17), *range(100, 399)], "cycle": 3, "dump": "last.vcd"})
        found = asked_bin.chosen(units)
        self.assertEqual((len(found), len({it["dump"] for it in found}), asked_bin.in_common(found)), (256, 256, [1]))
        self.assertIs(found[0], asked_bin.to_look_at(units))

    def test_asked_bins_and_the_least_number_of_places(self):
        self.regression()
        for what in ("1", "2", "least"):
            self.assertEqual(self.step("ask", "bin " + what, "bins.json", what)[0], 0)
        self.find.calls.clear()
        self.assertEqual(self.step("ask", "bin 1", "bins.json", "1")[0], 0)
        self.assertEqual(self.find.calls, [])
        known = self.known("bin 1", "bin 2", "bin least")
        self.assertEqual((known["certified"]["least"], known["certified"]["line"]), (2, "complete 0"))
        self.assertEqual([it["joint"]["line"] for it in known["bins"]], ["complete 2", "complete 2"])

    def test_an_answer_whose_run_is_killed_leaves_nothing(self):
        self.regression()
        before = sorted(os.listdir())
        with unittest.mock.patch("asked_bin.run_find", side_effect=case_of_test.Killed("find was ended by signal 9")):
            self.assertEqual(self.step("ask", "one", "bins.json", "1"), (1, "", "triage.py: find was ended by signal 9\n"))
        self.assertEqual(sorted(os.listdir()), before)

    def test_an_answer_of_other_tests_is_left_out(self):
        self.regression()
        self.step("ask", "one", "bins.json", "1")
        self.case("a 3", {"y": [2, 4]})
        self.step("bins", "bins.json", ".")
        _, said, errors = self.step("page", "bins.json", "one")
        self.assertIn("one is of other tests than these bins", errors)
        self.assertIn("bin 1 (family 1): 4 dumps", said)

    def test_where_no_test_fails(self):
        self.case("c", {"at": 9}, wrong="")
        self.assertEqual(self.step("bins", "bins.json", "."), (1, "0 dumps fail, 1 passes, 0 refused: 0 bins\n",
                                                              "triage.py: no test fails: there is nothing to put into bins\n"))
        os.remove("c.case")
        self.case("d", {"refused": "limit Z1"})
        status, _, errors = self.step("bins", "bins.json", ".")
        said = "triage.py: no test fails, but one has no answer, as d.vcd: limit Z1: there is nothing to put into bins\n"
        self.assertEqual((status, errors), (1, said))
        self.assertFalse(os.path.exists("bins.json"))

    def test_two_runs_in_one_folder(self):
        self.case("a", {"y": [2]})
        self.write("m.v", "another\n")
        self.case("b", {"y": [2]})
        status, _, errors = self.step("bins", "bins.json", ".")
        self.assertEqual((status, errors), (2, "triage.py: ./a.case and ./b.case are of two runs: their design's digest differs\n"))

    def test_many_tests(self):
        """Two thousand tests, of four bugs with noise."""
        chance = random.Random(1)
        for number in range(2000):
            bug = number % 4
            listed = [10 * bug + 1] + [10 * bug + it for it in (2, 3, 4) if chance.random() < 0.5]
            unit = {"outputs": ["y%d" % bug], "opened": [], "suspects": listed, "ending": "complete 1", "made_up": None}
            case = {"form": "localise-case 1", "design": "m.v", "design_digest": "", "top": "m", "clock": "", "options": [],
                    "dump": "%d.vcd" % number, "dump_digest": "", "answer": "fails", "line": "", "cycle": 3, "end": 0, "names": ["y"],
                    "units": [unit], "suspects": {str(it): {"kind": "stmt", "line": 1, "label": "m"} for it in listed}}
            self.write("%d.case" % number, json.dumps(case))
        self.assertEqual(self.step("bins", "bins.json", ".")[:2], (0, "2000 dumps fail, 0 pass, 0 refused: 4 bins\n"))


# ---- the page

class Balanced(html.parser.HTMLParser):
    """Collects the tags that are open, and the links."""

    def __init__(self, text):
        super().__init__()
        self.opened, self.links = [], []
        self.feed(text)

    def handle_starttag(self, tag, attributes):
        self.links += [value for name, value in attributes if name == "href"]
        if tag not in ("meta", "br"):
            self.opened.append(tag)

    def handle_endtag(self, tag):
        if self.opened.pop() != tag:
            raise AssertionError("%s ends out of order" % tag)


class Pages(Night):
    def test_the_page_is_well_formed_and_its_links_are_there(self):
        self.regression()
        self.step("ask", "bin <1>", "bins.json", "1")
        self.known("bin <1>")
        with open("page.html") as file:
            page = Balanced(file.read())
        self.assertEqual(page.opened, [])
        self.assertIn("bin%20%3C1%3E/waves/suspect-2.vcd", page.links)

    def test_one_bin_needs_no_run_for_the_least_number(self):
        self.case("a", {"y": [2]})
        self.step("bins", "bins.json", "."), self.step("ask", "least", "bins.json", "least")
        self.known("least")
        with open("page.html") as file:
            text = file.read()
        self.assertIn(">dumps</a>).", text)
        self.assertNotIn("report, log", text)

    def test_what_was_not_asked_is_not_certified(self):
        self.regression()
        said = self.step("page", "bins.json", "--html", "page.html")[1]
        self.assertIn("\nnot asked: how many places are wrong\n", said)
        with open("page.html") as file:
            self.assertNotIn('class="said certified"', file.read())

    def test_certified_and_likely_are_told_apart_by_word_and_class(self):
        self.regression()
        self.step("ask", "least", "bins.json", "least")
        self.known("least")
        with open("page.html") as file:
            text = file.read()
        self.assertIn('<div class="said certified"><span class="what certified">certified</span>at least 2 places (stmt) are wrong, if nothing but values', text)
        self.assertRegex(text, r'<div class="said likely"><span class="what likely">likely</span>2 bugs')


@unittest.skipUnless(os.path.exists(PROGRAM), "the program isn't built")
class WithTheProgram(unittest.TestCase):
    def test_the_pages_of_five_regressions_are_the_same_whole(self):
        spec = importlib.util.spec_from_file_location("bench_triage", os.path.join(TOP, "bench", "triage.py"))
        bench = importlib.util.module_from_spec(spec)
        spec.loader.exec_module(bench)
        asked = argparse.Namespace(program=os.path.abspath(PROGRAM), jobs=4)
        for name in bench.PLANTED:
            with contextlib.redirect_stdout(io.StringIO()) as said:
                self.assertTrue(bench.same_pages(asked, name), said.getvalue())


if __name__ == "__main__":
    unittest.main()
