#!/usr/bin/env python3
"""Tests of tools/by_trace.py: `python3 tools/test_by_trace.py`. Most need no program: a small script stands for it, and says what the test
wants. With the built program (crates/localise/out/localise, or the one that the variable LOCALISE names) its lists are held against those
of joint runs."""

import contextlib
import io
import json
import os
import re
import shutil
import signal
import subprocess
import sys
import time
import unittest
import unittest.mock

HERE = os.path.dirname(os.path.abspath(__file__))
sys.path.insert(0, HERE)
import by_trace  # noqa: E402
from by_trace_stand_in import InAFolder, WithoutProgram  # noqa: E402

TOP = os.path.dirname(HERE)
PROGRAM = os.environ.get("LOCALISE", os.path.join(TOP, "crates", "localise", "out", "localise"))
EXAMPLE = os.path.join(TOP, "examples", "multiplexer")
# (a program that tells of each dump, and refuses one)
TELLER = """#!/bin/sh
echo about $4 >&2
if [ $1 = check ]; then echo no closing; exit 8; fi
if [ $4 = b.vcd ]; then printf '  under\\n  ^\\n' >&2; echo input T4 1; exit 3; fi
echo trace 1 ok
"""
# (a program whose `sim` says that a dump fails, and whose `find` notes its number, and sleeps)
SLEEPER = """#!/bin/sh
if [ $1 = sim ]; then echo trace 1 miss 0 y; exit 0; fi
touch %s/child-$$
exec sleep 300
"""


class Runs(WithoutProgram):
    def test_a_joined_list(self):
        status, printed, error = self.begin("--jobs", "2")
        lines = ["set {1,2}", "  1 stmt 3 m", "  2 stmt 4 m", "set {1,3}", "  1 stmt 3 m", "  3 stmt 5 m"]
        lines += ["set {3,4}", "  3 stmt 5 m", "  4 stmt 6 m"]
        self.assertEqual((status, printed), (0, "\n".join(lines + ["complete 3 by trace"]) + "\n"))
        self.assertIn("trace 1 (a.vcd): yes 2, by check of localise-1.json and localise-1.log\n", error)
        self.assertIn("trace 2 (b.vcd): ok, by sim\n", error)
        self.assertIn("this script joined them", error)
        self.assertIn("kinds, lines and labels are those of the design, by each check that said yes\n", error)
        self.assertEqual(self.pairs(), ["localise-1.json", "localise-1.log", "localise-3.json", "localise-3.log"])

    def test_a_second_start_searches_nothing(self):
        first = self.begin()
        self.assertEqual(self.calls("find"), ["a.vcd", "c.vcd"])
        self.assertEqual((self.calls("check"), self.calls("sim")), (["a.vcd", "c.vcd"], ["a.vcd", "b.vcd", "c.vcd"]))
        self.assertEqual(self.begin("--jobs", "3")[:2], first[:2])
        self.assertEqual((self.calls("find"), self.calls("check"), self.calls("sim")), ([], ["a.vcd", "c.vcd"], ["b.vcd"]))

    def test_engines_begin_dumps_one_by_one(self):
        said = [(0, "trace 1 complete 2\n"), (0, "trace 2 ok\n"), (0, "trace 3 complete 2\n")]
        self.assertEqual([self.begin("--only", it)[:2] for it in "123"], said)
        self.assertEqual((self.calls("check"), self.calls("find")), ([], ["a.vcd", "c.vcd"]))
        self.assertEqual(self.begin("--join")[0], 0)
        self.assertEqual(self.calls("find"), [])

    def test_all_dumps_pass(self):
        self.dump("pass", "pass")
        self.assertEqual(self.begin()[:2], (0, "set {}\ncomplete 1 by trace\n"))
        self.assertEqual((self.calls("find"), self.pairs()), (["a.vcd"], []))

    def test_all_dumps_pass_and_there_are_no_such_suspects(self):
        self.dump("pass", "pass")
        for words in ((), ("--join",)):
            self.refused(r"trace 1 \(a.vcd\): usage kind, by find", "--suspects", "foo", *words)

    def test_the_size(self):
        self.dump({"sets": [[1, 2]]}, {"sets": [[3]]})
        for size, said in (("2", "complete 0"), ("3", "complete 1"), ("8", "complete 1")):
            status, printed, _ = self.begin("--size", size, "--prefix", "p" + size)
            self.assertEqual((status, printed.splitlines()[-1]), (0, said + " by trace"))

    def test_no_set(self):
        self.dump({"sets": []}, {"sets": [[1]]})
        self.assertEqual(self.begin()[:2], (0, "complete 0 by trace\n"))

    def test_a_list_that_stops_early(self):
        self.dump({"sets": [[1]]}, {"sets": [[2]], "needs": 5})
        for _ in range(2):
            self.assertEqual(self.begin("--budget", "3")[:2], (1, "trace 2 front 1 budget\n"))
        self.assertEqual(self.calls("find"), ["a.vcd", "b.vcd"])
        for words in (("--budget", "3"), ("--budget", "5")):
            self.assertEqual(self.begin("--join", *words)[:2], (1, "trace 2 front 1 budget\n"))
        self.assertEqual(self.calls("find"), [])
        self.assertEqual(self.begin("--budget", "5")[0], 0)
        self.assertEqual(self.calls("find"), ["b.vcd"])

    def test_a_list_with_more_sets_than_asked_for(self):
        self.dump({"sets": [[1]]}, {"sets": [[2], [3], [4]]})
        for words in (("--sets", "2"), ("--sets", "2", "--budget", "9000000")):
            self.assertEqual(self.begin(*words)[:2], (1, "trace 2 front 2 sets\n"))
        self.assertEqual(self.calls("find"), ["a.vcd", "b.vcd"])
        self.assertEqual(self.begin("--sets", "4")[0], 0)
        self.assertEqual(self.calls("find"), ["b.vcd"])

    def test_the_severest_status(self):
        whole, front, odd = {"sets": [[1]]}, {"sets": [[2]], "needs": 5}, "input T4 1"
        cases = ((whole, front, odd), 0, 3), ((odd, front, whole), 0, 3), ((front, odd, whole), 3, 8), ((whole, odd, front), 1, 8)
        for says, cut, status in cases:
            with self.subTest(says):
                self.dump(*says), self.begin("--budget", "3")
                if cut:
                    self.write("localise-%d.log" % cut, self.read("localise-%d.log" % cut)[:-4])
                self.assertEqual(self.begin("--budget", "3")[0], status)
                for name in self.pairs():
                    os.remove(name)

    def test_find_without_memory_leaves_no_pair(self):
        self.dump({"sets": [[1]], "memory": True}, {"sets": [[2]]})
        self.assertEqual(self.begin()[:2], (7, "trace 1 front 1 memory\n"))
        self.assertEqual(self.pairs(), ["localise-2.json", "localise-2.log"])

    def test_at_most_so_many_at_once(self):
        self.dump(*[{"sets": [[1]]}] * 6)
        self.fake.before_find = lambda dump: time.sleep(0.1)
        for number, jobs in enumerate((1, 3)):
            self.fake.most = 0
            self.assertEqual(self.begin("--jobs", str(jobs), "--prefix", "p%d" % number)[0], 0)
            self.assertEqual(self.fake.most, jobs)

    def test_answers_are_told_as_they_come(self):
        def look(dump):
            deadline = time.time() + 10
            while dump == "c.vcd" and "trace 1 (a.vcd)" not in sys.stderr.getvalue() and time.time() < deadline:
                time.sleep(0.01)
            told.append((dump, "trace 1 (a.vcd)" in sys.stderr.getvalue()))
        told, self.fake.before_find = [], look
        self.assertEqual(self.begin()[0], 0)
        self.assertEqual(told, [("a.vcd", False), ("c.vcd", True)])

    def test_a_join_that_is_too_large(self):
        with unittest.mock.patch("joining.MOST_UNIONS", 1):
            status, printed, error = self.begin()
        self.assertEqual((status, printed), (4, "limit join\n"))
        self.assertIn("passes 1 unions", error)

    def test_names_that_begin_as_options(self):
        os.rename("a.vcd", "-a.vcd"), os.rename("m.v", "-m.v")
        printed, error = io.StringIO(), io.StringIO()
        with contextlib.redirect_stdout(printed), contextlib.redirect_stderr(error):
            status = by_trace.main(["--program", "./program", "--", "-m.v", "m", "-a.vcd", "b.vcd"])
        self.assertEqual((status, printed.getvalue()[-21:]), (0, "\ncomplete 2 by trace\n"), error.getvalue())
        self.assertEqual(self.calls("find"), ["./-a.vcd"])

    def test_only_one_dump_is_read(self):
        os.remove("a.vcd"), os.remove("b.vcd")
        self.assertEqual(self.begin("--only", "3")[:2], (0, "trace 3 complete 2\n"))
        self.assertEqual(self.begin("--only", "3")[:2], (0, "trace 3 complete 2\n"))
        self.assertEqual(self.calls("find"), ["c.vcd"])

    def test_an_end_between_the_names_leaves_no_pair(self):
        for after in (0, 1):
            with self.subTest(after):
                self.dump({"sets": [[1]], "needs": 5}), self.begin("--budget", "3", "--prefix", "p%d" % after)
                self.calls("find")
                replace, done = os.replace, []

                def break_off(*names):
                    if len(done) == after:
                        raise OSError("the end")
                    done.append(replace(*names))
                with unittest.mock.patch("os.replace", break_off):
                    self.refused("the end", "--budget", "5", "--prefix", "p%d" % after)
                self.assertEqual((self.calls("find"), os.path.exists("p%d-1.json" % after)), (["a.vcd"], False))
                self.assertEqual(self.begin("--budget", "5", "--prefix", "p%d" % after)[0], 0)
                self.assertEqual(self.calls("find"), ["a.vcd"])

    def test_a_pair_is_not_written_over_what_is_read(self):
        os.rename("c.vcd", "localise-2.log")
        self.dumps[2] = "./localise-2.log"
        self.refused("localise-2.log: is read")
        self.assertEqual(json.loads(self.read("localise-2.log")), {"sets": [[1, 2], [3]]})

    def test_what_the_program_refuses(self):
        self.dump({"sets": [[1]]}, "input T4 1")
        self.assertEqual(self.begin()[:2], (3, "trace 2 input T4 1\n"))

    def test_options_are_handed_on(self):
        words = ("--clock", "clk", "--size=1", "--suspects", "block,gate", "--sets", "7", "--workers", "3", "--budget", "9")
        self.assertEqual(self.begin("--prefix", "p", *words)[0], 0)
        said = json.loads(self.read("p-1.json"))
        self.assertEqual((said["clock"], said["size"], said["kinds"]), ("clk", 1, ["block", "gate"]))
        self.assertEqual({it.get("--clock") for it in self.words("sim")}, {"clk"})
        self.assertEqual({(it.get("--sets"), it.get("--workers"), it.get("--budget")) for it in self.words("find")}, {("7", "3", "9")})
        self.assertEqual({it.get("--workers") for it in self.words("check")}, {"3"})

    def test_the_format_is_handed_on_to_each_run(self):
        for prefix, words in (("p", ()), ("q", ("--format", "aiger"))):
            with self.subTest(words):
                self.fake.given.clear()
                self.assertEqual(self.begin("--prefix", prefix, *words)[0], 0)
                runs = [it.get("--format") for command in ("sim", "find", "check") for it in self.words(command)]
                self.assertEqual((len(runs), set(runs)), (7, {words[1] if words else None}))

    def test_the_format_where_all_dumps_pass(self):
        self.dump("pass", "pass")
        self.assertEqual(self.begin("--format", "aiger")[0], 0)
        self.assertEqual([it.get("--format") for it in self.words("find")], ["aiger"])


class Words(InAFolder):
    def test_no_program(self):
        self.dumps = ["m.v"]
        self.write("m.v", "")
        self.refused("./program: can't be started: No such file")

    def test_a_folder_that_is_not_there(self):
        self.dumps = ["m.v"]
        self.refused("there/to: there is no such folder", "--prefix", "there/to/p")

    def test_a_program_that_a_signal_ends(self):
        self.write("program", "#!/bin/sh\nkill -9 $$\n"), os.chmod("program", 0o755)
        self.write("m.v", "")
        self.dumps = ["m.v"]
        self.refused(r"trace 1 \(m.v\): ./program sim: ended by signal 9")

    def test_what_a_refusal_says_stands_behind_its_dump_and_nothing_else_is_said(self):
        self.write("program", TELLER), os.chmod("program", 0o755)
        self.dumps = ["a.vcd", "b.vcd"]
        for name in ["m.v", *self.dumps]:
            self.write(name, name)
        status, printed, error = self.begin()
        self.assertEqual((status, printed), (3, "trace 2 input T4 1\n"))
        of = ["about b.vcd", "  under", "  ^", "input T4 1, by sim"]
        lines = ["trace 1 (a.vcd): ok, by sim"] + ["trace 2 (b.vcd): " + it for it in of]
        self.assertEqual(sorted(error.splitlines()[:-1]), sorted("by_trace.py: " + it for it in lines))

    def test_a_run_that_is_asked_to_end(self):
        self.write("program", SLEEPER % os.getcwd()), os.chmod("program", 0o755)
        for name in ("m.v", "a.vcd", "b.vcd", "c.vcd"):
            self.write(name, name)
        for number in (signal.SIGTERM, signal.SIGINT):
            words = ["m.v", "m", "a.vcd", "b.vcd", "c.vcd", "--program", "./program", "--jobs", "2"]
            begun = [sys.executable, os.path.join(HERE, "by_trace.py"), *words]
            # (what a shell starts in the background ignores SIGINT, and so do its children, unless it is put back)
            heeding = {"preexec_fn": lambda: signal.signal(signal.SIGINT, signal.SIG_DFL)}
            with subprocess.Popen(begun, stdout=subprocess.PIPE, stderr=subprocess.PIPE, text=True, **heeding) as ran:
                try:
                    self.wait_for(lambda: len(self.children()) == 2)
                    ran.send_signal(number)
                    printed, error = ran.communicate(timeout=60)
                finally:
                    ran.kill()
            self.assertEqual((ran.returncode, printed), (128 + number, ""))
            self.assertEqual(error.splitlines()[-1:], ["by_trace.py: ended by signal %d" % number])
            self.assertNotIn("Traceback", error)
            self.assertEqual(self.pairs(), [])
            for child in self.children():
                self.assertRaises(ProcessLookupError, os.kill, int(child), 0)
                os.remove("child-" + child)

    def children(self):
        return [it[6:] for it in os.listdir() if it.startswith("child-")]

    def wait_for(self, holds):
        deadline = time.time() + 60
        while not holds() and time.time() < deadline:
            time.sleep(0.01)
        self.assertTrue(holds())

    def test_words_that_ask_for_nothing(self):
        self.dumps = ["a.vcd"]
        cases = (("--question", "function"), "a function has to be the same in all dumps"), (("--log", "x"), "--prefix names them"), (
            ("--report", "x"), "--prefix names them"), (("--waves", "x"), "joined set"), (("--size", "9"), "0 to 8"), (
            ("--jobs", "0"), "1 to"), (("--only", "2"), "there is no dump 2: 1 are named"), (
            ("--only", "1", "--join"), "not allowed with"), (("--other", "1"), "unrecognized")
        for words, said in cases:
            self.refused(said, *words)


@unittest.skipUnless(os.path.exists(PROGRAM), "there is no program: build it, or name one by LOCALISE")
class Lists(InAFolder):
    """With the program, on a multiplexer and three tests of it."""

    def setUp(self):
        program = os.path.abspath(PROGRAM)
        super().setUp()
        os.symlink(program, "program")
        self.top = "multiplexer"
        shutil.copy(os.path.join(EXAMPLE, "multiplexer.v"), "m.v")
        self.dumps = ["first.vcd", "second.vcd", "third.vcd"]
        for name in self.dumps:
            shutil.copy(os.path.join(EXAMPLE, "tests", name), name)

    def joint(self, *words):
        """What one run on all dumps prints."""
        ran = subprocess.run(["./program", "find", "m.v", "multiplexer", *self.dumps, *words], capture_output=True, text=True)
        return ran.stdout

    def test_the_lists_are_those_of_one_run(self):
        for number, words in enumerate(((), ("--size", "3"), ("--suspects", "module"))):
            status, printed, _ = self.begin("--prefix", "p%d" % number, "--jobs", "2", *words)
            self.assertEqual((status, printed), (0, re.sub("$", " by trace", self.joint(*words).rstrip("\n")) + "\n"))

    def test_a_front(self):
        self.assertEqual(self.begin("--sets", "7")[:2], (1, "trace 2 front 7 sets\n"))
        self.assertEqual(self.begin("--sets", "100")[0], 0)

    def test_a_cut_log_and_one_of_another_dump(self):
        self.assertEqual(self.begin()[0], 0)
        whole = self.read("localise-2.log")
        self.write("localise-2.log", "".join(whole.splitlines(True)[:-1]))
        self.assertEqual(self.begin()[:2], (8, "trace 2 no closing\n"))
        self.write("localise-2.log", "".join(whole.splitlines(True)[:2]) + "".join(self.read("localise-3.log").splitlines(True)[2:]))
        status, printed, _ = self.begin()
        self.assertEqual(status, 8)
        self.assertRegex(printed, r"^trace 2 no step \d+\n$")

    def test_a_report_that_says_another_digest_of_itself(self):
        """`check` looks at the files themselves: what a report says of its inputs tells other inputs early, and no more."""
        self.assertEqual(self.begin()[0], 0)
        third = json.loads(self.read("localise-3.json"))
        second = json.loads(self.read("localise-2.json"))
        self.write("localise-2.json", json.dumps(dict(third, inputs=second["inputs"])))
        log = self.read("localise-3.log").replace(third["inputs"], second["inputs"])
        self.write("localise-2.log", log)
        status, printed, _ = self.begin()
        self.assertEqual((status, printed[:8]), (8, "trace 2 "))


if __name__ == "__main__":
    unittest.main()
