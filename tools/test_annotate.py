#!/usr/bin/env python3
"""Tests of tools/annotate.py: `python3 tools/test_annotate.py`. They take a second, and need no program and no network."""

import contextlib
import copy
import html.parser
import io
import json
import os
import re
import subprocess
import sys
import tempfile
import unittest

HERE = os.path.dirname(os.path.abspath(__file__))
sys.path.insert(0, HERE)
import annotate  # noqa: E402
import page  # noqa: E402
import report  # noqa: E402

DESIGN = "module m(input a, input b, output y);\nwire n;\nassign n = a | b;\nassign y = ~n;\nendmodule\n"
DUMP = ("$scope module m $end\n$var wire 1 a a $end\n$var wire 1 b b $end\n$var wire 1 y y $end\n$upscope $end\n$enddefinitions $end\n"
        "#0 0a 0b 1y\n#1 1b\n#2 1a 0b\n#3 1b 0y\n")
# (of this design and this dump alone, size 2 and kind stmt; cases/words/find_alone_with_its_usual_values has the same digest)
DIGEST = "4e8cae5cec1457bb6699c30389d997b502e30db26b5b032c76537885b4803196"
SUSPECT = {"kind": "stmt", "label": "m", "line": 3}
REPORT = {"clock": "", "ending": "complete", "inputs": "0" * 64, "kinds": ["stmt"], "size": 2, "top": "m", "version": 1,
          "suspects": [SUSPECT, {"kind": "stmt", "label": "m", "line": 4}],
          "sets": [{"members": [1], "values": [[["1"]]]}, {"members": [2], "values": [[["0"]]]}]}
VOID = {"meta", "br"}
# (the same lines, 3 and 4, are those of two files)
JOINED = '`line 7 "a.v" 0\nwire n;\nassign n = a | b;\n`line 1 "b <c>.v" 0\nassign y = ~n;\n'
IN_FILES = dict(REPORT, suspects=[SUSPECT, dict(SUSPECT, line=5)])


class Reader(html.parser.HTMLParser):
    """What a page has: its elements, their ends in order, its text, and its ids."""

    def __init__(self, text):
        super().__init__()
        self.open, self.elements, self.ids, self.said, self.faults = [], [], [], "", []
        self.feed(text)
        self.close()

    def handle_starttag(self, tag, attributes):
        self.elements.append((tag, dict(attributes)))
        self.ids += [value for name, value in attributes if name == "id"]
        if tag not in VOID:
            self.open.append(tag)

    def handle_endtag(self, tag):
        if not self.open or self.open.pop() != tag:
            self.faults.append(tag)

    def handle_data(self, text):
        if self.open[-1:] not in (["style"], ["script"]):
            self.said += text


def changed(**members):
    """The report with other members."""
    return {**copy.deepcopy(REPORT), **members}


class Annotating(unittest.TestCase):
    def setUp(self):
        room = tempfile.TemporaryDirectory()
        self.addCleanup(room.cleanup)
        self.room = room.name
        self.addCleanup(os.chdir, os.getcwd())
        os.chdir(self.room)
        for name, text in (("m.v", DESIGN), ("t.vcd", DUMP), ("r.json", json.dumps(REPORT))):
            self.write(name, text)

    def write(self, name, text):
        with open(os.path.join(self.room, name), "wb") as file:
            file.write(text if isinstance(text, bytes) else text.encode())

    def run_script(self, *words):
        """The status, what was printed, and what standard error says."""
        printed, error = io.StringIO(), io.StringIO()
        with contextlib.redirect_stdout(printed), contextlib.redirect_stderr(error):
            try:
                status = annotate.main(list(words))
            except SystemExit as ended:
                status = ended.code
        return status, printed.getvalue(), error.getvalue()

    def page_of(self, value, design=DESIGN, *words):
        self.write("r.json", json.dumps(value))
        self.write("m.v", design)
        self.run_script("r.json", "m.v", "--html", "out.html", *words)
        with open(os.path.join(self.room, "out.html"), encoding="utf-8") as file:
            text = file.read()
        read = Reader(text)
        self.assertEqual((read.faults, read.open), ([], []))
        self.assertEqual(len(read.ids), len(set(read.ids)))
        return text, read

    def refused(self, value, said):
        self.write("r.json", value if isinstance(value, (str, bytes)) else json.dumps(value))
        status, printed, error = self.run_script("r.json", "m.v")
        self.assertEqual((status, printed), (2, ""))
        self.assertRegex(error, said)
        self.assertEqual(error.count("\n"), 1)


class Lines(Annotating):
    def test_a_line_for_each_member(self):
        self.assertEqual(self.run_script("r.json", "m.v"), (0, "m.v:3: set {1}: stmt 1 m\nm.v:4: set {2}: stmt 2 m\n", ""))

    def test_members_of_one_set_stand_together(self):
        self.write("r.json", json.dumps(changed(sets=[{"members": [1, 2], "values": [[["1", "0"]]]}])))
        self.assertEqual(self.run_script("r.json", "./m.v")[1], "./m.v:3: set {1,2}: stmt 1 m\n./m.v:4: set {1,2}: stmt 2 m\n")

    def test_an_empty_set_and_an_empty_list_have_no_lines(self):
        for sets in ([{"members": [], "values": [[[]]]}], []):
            self.write("r.json", json.dumps(changed(sets=sets)))
            self.assertEqual(self.run_script("r.json", "m.v"), (0, "", ""))

    def test_annotations_escape_what_would_end_them(self):
        self.write("r.json", json.dumps(changed(sets=[{"members": [1, 2], "values": [[["1", "0"]]]}], suspects=[dict(SUSPECT, label="a%b")] * 2)))
        printed = self.run_script("r.json", "m.v", "--format", "github")[1]
        self.assertEqual(printed.split("\n")[0], "::warning file=m.v,line=3,title=localise%3A set {1%2C2}::stmt 1 a%25b")

    def test_a_line_beyond_the_text_is_said(self):
        self.write("m.v", "module m;\nendmodule\n")
        status, printed, error = self.run_script("r.json", "m.v")
        self.assertEqual((status, printed.count("\n")), (1, 2))
        self.assertIn("suspect 1 stands in line 3, and m.v has 2 lines", error)

    def test_the_digest_tells_other_inputs(self):
        self.write("r.json", json.dumps(changed(inputs=DIGEST)))
        self.assertEqual(self.run_script("r.json", "m.v", "--trace", "t.vcd")[0], 0)
        self.write("m.v", DESIGN + "\n")
        status, _, error = self.run_script("r.json", "m.v", "--trace", "t.vcd")
        self.assertEqual(status, 1)
        self.assertIn("are not the inputs of this report", error)


class Refusals(Annotating):
    def test_files_that_are_not_there(self):
        for words in (("none.json", "m.v"), ("r.json", "none.v"), ("r.json", "m.v", "--trace", "none.vcd")):
            status, printed, error = self.run_script(*words)
            self.assertEqual((status, printed), (2, ""))
            self.assertRegex(error, r"^annotate.py: none.\w+: can't be read: No such file")

    def test_texts_that_are_no_json(self):
        for text, said in (("{", "not JSON: .* line 1, column 2"), (b"\xff", "not UTF-8 at byte 0"), ("[" * 100000, "not JSON"), ("", "not JSON"),
                           ('{"a":NaN}', "NaN"), ("9" * 5000, "not JSON")):
            self.refused(text, said)

    def test_json_of_another_shape(self):
        self.refused("[]", "no JSON object")
        self.refused("{}", "has no member clock, ending")
        for members, said in (({"version": 2}, "version is 2"), ({"version": True}, "version"), ({"size": 9}, "size"), ({"ending": "open"}, "ending"),
                              ({"inputs": "0" * 63}, "inputs"), ({"top": ""}, "top"), ({"top": "a b"}, "top"), ({"kinds": []}, "kinds"),
                              ({"kinds": ["stmt", "stmt"]}, "kinds"), ({"suspects": [{}]}, "suspect 1"), ({"more": 1}, "'more'"),
                              ({"suspects": [dict(SUSPECT, line=-1)] * 2}, "line of suspect 1"), ({"sets": {}}, "sets is no list")):
            self.refused(changed(**members), said)

    def test_sets_of_another_shape(self):
        for found, said in (({"members": [3], "values": [[["1"]]]}, "set 1 has suspect 3, and there are 2"),
                            ({"members": [2, 1], "values": [[["1", "1"]]]}, "don't ascend"), ({"members": [0], "values": [[["1"]]]}, "from 1"),
                            ({"members": [True], "values": [[["1"]]]}, "members"), ({"members": [1]}, "members and values"),
                            ({"members": [1], "values": [[["G"]]]}, "set 1, dump 1, cycle 0"), ({"members": [1], "values": [["1"]]}, "no list"),
                            ({"members": [1], "values": [[["1"], ["1", "0"]]]}, "has 2 values in dump 1, cycle 1, and 1 before")):
            self.refused(changed(sets=[found]), said)
        self.refused(changed(sets=[{"members": [1], "values": [[["1"]]]}, {"members": [2], "values": [[["1"], ["0"]]]}]), "set 2 .* than set 1")

    def test_a_page_is_not_written_over_what_is_read(self):
        for name in ("r.json", "m.v", "./m.v"):
            status, _, error = self.run_script("r.json", "m.v", "--html", name)
            self.assertEqual(status, 2)
            self.assertIn("is read", error)
        with open(os.path.join(self.room, "m.v")) as file:
            self.assertEqual(file.read(), DESIGN)

    def test_the_program_by_itself(self):
        words = [sys.executable, os.path.join(HERE, "annotate.py"), "r.json", "m.v"]
        ran = subprocess.run(words, cwd=self.room, capture_output=True, text=True)
        self.assertEqual((ran.returncode, ran.stdout.count("\n"), ran.stderr), (0, 2, ""))

    def test_words(self):
        for words in (("r.json",), ("r.json", "m.v", "--only", "1"), ("r.json", "m.v", "--html", "o", "--only", "0"),
                      ("r.json", "m.v", "--html", "o", "--cycles", "3-1"), ("r.json", "m.v", "--format", "other")):
            self.assertEqual(self.run_script(*words)[0], 2)
        status, _, error = self.run_script("r.json", "m.v", "--html", "o", "--only", "3")
        self.assertEqual(status, 2)
        self.assertIn("there is no set 3: the report has 2", error)


class Pages(Annotating):
    def test_the_parts_of_a_page(self):
        text, read = self.page_of(REPORT)
        for said in ("Set {1}", "Set {2}", "assign n = a | b;", "the list is whole", "Cycle", "1, line 3"):
            self.assertIn(said, read.said)
        self.assertIn('<li id="L3" class="marked">', text)
        self.assertNotIn('<li id="L1" class="marked">', text)
        self.assertEqual([tag for tag, _ in read.elements if re.fullmatch("h[1-6]", tag)], ["h1", "h2", "h2", "h3", "h4", "h3", "h4", "h2"])

    def test_links_and_names_lead_somewhere(self):
        _, read = self.page_of(REPORT)
        for _, attributes in read.elements:
            for name in ("href", "aria-labelledby"):
                if name in attributes:
                    self.assertIn(attributes[name].removeprefix("#"), read.ids)

    def test_nothing_is_loaded(self):
        text, read = self.page_of(REPORT)
        self.assertNotRegex(text, r"https?:|//[a-z]|@import|url\(")
        self.assertFalse([it for it in read.elements if {"src", "srcset", "action", "data"} & set(it[1])])

    def test_inputs_are_escaped(self):
        evil = "</code></style></script><script>alert(1)</script>&amp;<!--"
        text, read = self.page_of(changed(top=evil, clock=evil, suspects=[dict(SUSPECT, label=evil, kind=evil)] * 2), "//\n//\n// %s\n" % evil)
        self.assertEqual(text.count("<script>"), 2)
        self.assertIn(evil, read.said)
        self.assertEqual(read.said.count(evil), text.count("&amp;amp;"))

    def test_bytes_that_are_no_characters(self):
        text, read = self.page_of(REPORT, b"module m;\r\n// \xff\x00\x0b\r\n\tassign \xc3\xa4\xe2\x80\xa8;\nx")
        self.assertEqual(text.count('<li id="L'), 4)
        self.assertIn("\tassign \u00e4\u2028;", read.said)
        self.assertIn("// \ufffd\ufffd\ufffd", read.said)
        self.assertNotRegex(text, "[\x00-\x08\x0b-\x1f]")

    def test_equal_cycles_share_a_row(self):
        cycles = [["1"], ["1"], ["1"], ["0"], ["1"]]
        _, read = self.page_of(changed(sets=[{"members": [1], "values": [cycles, cycles[3:]]}]))
        self.assertEqual(re.findall(r"^(?:\d+ to )?\d+(?=[01]$)", read.said, re.M), ["0 to 2", "3", "4", "0", "1"])

    def test_columns_name_their_members_where_the_report_says_so(self):
        for members, row, heads in (([1, 2], ["1", "0"], ["1, line 3", "2, line 4"]), ([1], ["1", "0"], ["1, place 1", "1, place 2"]),
                                    ([1, 2], ["1", "0", "1"], ["place 1 of 3", "place 2 of 3", "place 3 of 3"])):
            _, read = self.page_of(changed(sets=[{"members": members, "values": [[row]]}]))
            self.assertIn("Cycle" + "".join(heads), read.said)

    def test_a_long_dump_is_folded_and_cut(self):
        cycles = [["%02x" % (it % 256)] for it in range(3 * page.ROWS)]
        value = changed(sets=[{"members": [1], "values": [cycles]}])
        text, read = self.page_of(value)
        self.assertEqual([tag for tag, _ in read.elements].count("details"), 2)
        _, read = self.page_of(value, DESIGN, "--cycles", "7-8")
        self.assertIn("cycles 7 to 8", read.said)
        self.assertNotIn("details", [tag for tag, _ in read.elements])
        said, cells = page.dump_html([["1"], ["0"], ["1"]], 0, ["1"], "Dump 1", 2)
        self.assertEqual(cells, 2)
        self.assertIn("Cycles 2 of Dump 1 are left out", said)

    def test_only_some_sets(self):
        _, read = self.page_of(REPORT, DESIGN, "--only", "2")
        self.assertNotIn("Set {1}", read.said)
        self.assertIn("1 further set of the report is not on this page", read.said)

    def test_lists_without_sets(self):
        _, read = self.page_of(changed(sets=[]))
        self.assertIn("no set of at most 2 suspects makes the dumps right.", read.said)
        _, read = self.page_of(changed(sets=[{"members": [], "values": [[[]]]}]))
        self.assertIn("Nothing has to be freed", read.said)


class JoinedFiles(Annotating):
    """A text with `line` directives."""

    def test_lines_name_their_files(self):
        self.write("m.v", JOINED), self.write("r.json", json.dumps(IN_FILES))
        self.assertEqual(self.run_script("r.json", "m.v")[1], "a.v:8: set {1}: stmt 1 m\nb <c>.v:1: set {2}: stmt 2 m\n")
        said = self.run_script("r.json", "m.v", "--format", "github")[1]
        self.assertIn("::warning file=a.v,line=8,title=", said)

    def test_a_page_counts_as_the_files_do(self):
        text, read = self.page_of(IN_FILES, JOINED)
        for said in ("{1} a.v:8", "{2} b <c>.v:1", "1, a.v:8", "a.v, line 7", "b <c>.v, line 1"):
            self.assertIn(said, read.said)
        self.assertIn('<li id="L2" value="7">', text)
        self.assertIn('<li id="L5" value="1" class="marked">', text)
        self.assertIn('<a href="#L5">b &lt;c&gt;.v:1</a>', text)


class Colours(unittest.TestCase):
    """Text has a contrast of 4.5 at least on each paper that it stands on (WCAG 2.2, 1.4.3), and the bars 3."""

    def test_contrast(self):
        light, dark = re.findall(r":root \{([^}]*)\}", page.STYLE)
        for colours in (light, light + dark):
            named = dict(re.findall(r"--(\w+): #(\w{6})", colours))
            pairs = [(text, paper, 4.5) for paper in ("paper", "marked", "chosen") for text in ("ink", "link")]
            pairs += [("faint", "paper", 4.5), ("warn", "paper", 4.5), ("strong", "paper", 4.5), ("bar", "marked", 3), ("strong", "chosen", 3)]
            for text, paper, least in pairs:
                self.assertGreaterEqual(contrast(named[text], named[paper]), least, (text, paper))


def contrast(one, other):
    def light(colour):
        parts = [int(colour[at:at + 2], 16) / 255 for at in (0, 2, 4)]
        return sum(weight * (it / 12.92 if it <= 0.04045 else ((it + 0.055) / 1.055) ** 2.4) for weight, it in zip((0.2126, 0.7152, 0.0722), parts))
    low, high = sorted((light(one), light(other)))
    return (high + 0.05) / (low + 0.05)


if __name__ == "__main__":
    unittest.main()
