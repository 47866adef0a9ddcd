"""What the tests of tools/by_trace.py have in common: folders of their own, and what stands for the program."""

import contextlib
import io
import json
import os
import re
import tempfile
import threading
import unittest
import unittest.mock

import by_trace
import report

SUSPECTS = [{"kind": "stmt", "label": "m", "line": line} for line in (3, 4, 5, 6)]


class FakeProgram:
    """What stands for the program: it notes each call. A dump's text says what there is to say of it: `sim` passes "pass", or prints
    another text and refuses; `find` writes sets, after so many learned steps as are needed; `check` takes a log that ends in `end`."""

    def __init__(self):
        self.calls, self.given, self.before_check, self.before_find = [], [], None, None
        self.lock, self.now, self.most = threading.Lock(), 0, 0

    def run(self, asked, number, command, design, top, *words):
        with self.lock:
            self.now += 1
            self.most = max(self.most, self.now)
        try:
            return self.answer(command, design, top, words)
        finally:
            with self.lock:
                self.now -= 1

    def answer(self, command, design, top, words):
        given = dict(zip(words, words[1:]))
        dump = words[2] if command == "check" else words[0]
        self.calls.append((command, dump)), self.given.append((command, given))
        if command == "check":
            return self.check(*words[:2])
        says = json.loads(report.load(dump))
        if command == "find":
            return self.find(design, top, dump, {"sets": [[]]} if says == "pass" else says, given)
        return (0, "trace 1 ok") if says == "pass" else (3, says) if isinstance(says, str) else (0, "trace 1 miss 0 y")

    def check(self, report_path, log_path):
        sets = json.loads(report.load(report_path))["sets"]
        if self.before_check:
            self.before_check(report_path, log_path)
        return (0, "yes %d" % len(sets)) if report.load(log_path).endswith(b"end\n") else (8, "no closing")

    def find(self, design, top, dump, says, given):
        if self.before_find:
            self.before_find(dump)
        question = {"top": top, "clock": given.get("--clock", ""), "kinds": given["--suspects"].split(","), "size": int(given["--size"])}
        if "foo" in question["kinds"]:
            return 2, "usage kind"
        digest = report.inputs_digest(question, design, [dump])
        learned, most = min(says.get("needs", 0), int(given.get("--budget", 200000))), int(given.get("--sets", 1000))
        ending = "budget" if learned < says.get("needs", 0) else "sets" if len(says["sets"]) >= most else "complete"
        sets = [{"members": it, "values": []} for it in says["sets"]][:most]
        with open(given["--report"], "w") as file:
            json.dump(dict(question, ending=ending, inputs=digest, sets=sets, version=1, suspects=SUSPECTS), file)
        with open(given["--log"], "w") as file:
            file.write("localise-log 1\ninputs %s\n" % digest + "l 1 : 2\n" * learned + "end\n")
        if says.get("memory"):
            return 7, "front %d memory" % len(sets)
        return (0, "complete %d" % len(sets)) if ending == "complete" else (1, "front %d %s" % (len(sets), ending))


class InAFolder(unittest.TestCase):
    def setUp(self):
        room = tempfile.TemporaryDirectory()
        self.addCleanup(room.cleanup)
        self.addCleanup(os.chdir, os.getcwd())
        os.chdir(room.name)
        self.top, self.dumps = "m", []

    def write(self, name, text):
        with open(name, "w") as file:
            file.write(text)

    def read(self, name):
        with open(name) as file:
            return file.read()

    def pairs(self):
        """The files of pairs and of this script that are there."""
        return sorted(it for it in os.listdir() if it.startswith("localise"))

    def begin(self, *words):
        """The status, what was printed, and what standard error says."""
        printed, error = io.StringIO(), io.StringIO()
        with contextlib.redirect_stdout(printed), contextlib.redirect_stderr(error):
            try:
                status = by_trace.main(["m.v", self.top, *self.dumps, "--program", "./program", *words])
            except SystemExit as ended:
                status = ended.code
        return status, printed.getvalue(), error.getvalue()

    def change(self, name, **members):
        self.write(name, json.dumps({**json.loads(self.read(name)), **members}))

    def refused(self, said, *words, status=2):
        """That no list is printed, and what standard error says."""
        answer, printed, error = self.begin(*words)
        self.assertEqual((answer, re.search("set|complete", printed)), (status, None))
        self.assertRegex(error, said)


class WithoutProgram(InAFolder):
    """With what stands for the program, and three dumps."""

    def setUp(self):
        super().setUp()
        self.fake = FakeProgram()
        patch = unittest.mock.patch.object(by_trace, "run", self.fake.run)
        patch.start()
        self.addCleanup(patch.stop)
        self.write("m.v", "")
        self.dump({"sets": [[1], [3, 4]]}, "pass", {"sets": [[1, 2], [3]]})

    def dump(self, *says):
        self.dumps = ["%s.vcd" % name for name, _ in zip("abcdef", says)]
        for name, it in zip(self.dumps, says):
            self.write(name, json.dumps(it))

    def calls(self, command):
        """The dumps for which a command was begun since the last look at it, in their order."""
        calls = sorted(dump for begun, dump in self.fake.calls if begun == command)
        self.fake.calls = [it for it in self.fake.calls if it[0] != command]
        return calls


    def words(self, command):
        """The options of the calls of a command."""
        return [given for begun, given in self.fake.given if begun == command]
