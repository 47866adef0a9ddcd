#!/usr/bin/env python3
"""Tests of tools/faults.py: `python3 tools/test_faults.py`. A script stands for the program: one that keeps to the documents, and some with
one bug each. With the built program (crates/localise/out/localise, or the one that the variable LOCALISE names) the table is of that, too."""

import contextlib
import io
import os
import shutil
import sys
import tempfile
import unittest

HERE = os.path.dirname(os.path.abspath(__file__))
sys.path.insert(0, HERE)
import faults  # noqa: E402

PROGRAM = os.environ.get("LOCALISE", faults.BUILT)
# (one that the user `nobody` may run, too)
PYTHON = shutil.which("python3", path="/usr/bin:/bin") or sys.executable
# (what it reads, it answers by the same texts always; a bug takes the place of one of its lines)
STAND_IN = '''#!%s
import os, sys, time

def end(status, line=""):
    if line:
        say(line + "\\n")
    os._exit(status)

def say(text):
    try:
        os.write(1, text.encode())
    except OSError:
        os._exit(6)

while os.open("/dev/null", os.O_RDONLY) < 2:
    pass
used = {}

def file_of(name):
    facts = os.stat(name)
    return facts.st_dev, facts.st_ino

def load(name):
    try:
        with open(name, "rb") as file:
            file.read()
        used[file_of(name)] = None
    except OSError:
        end(5, "read fault " + name)

def write(name, text):
    try:
        out = os.open(name, os.O_WRONLY | os.O_CREAT, 0o644)
        if used.setdefault(file_of(name), name) != name:
            end(6)
        if os.path.isfile(name):
            os.truncate(out, 0)
        while text:
            text = text[os.write(out, text):]
    except OSError:
        end(6)

def ask(name):
    try:
        if os.path.exists(name):
            os.close(os.open(name, os.O_WRONLY))
            if used.get(file_of(name), name) != name:
                end(6)
        elif not os.access(os.path.dirname(os.path.realpath(name)), os.W_OK):
            end(6)
    except OSError:
        end(6)

def path_of(name):
    return [part for part in name.split("/") if part not in ("", ".")]

words = sys.argv[1:]
if words == ["help", "find"]:
    end(0, "no word more")
command, rest = words[0], words[1:]
at = next((i for i, it in enumerate(rest) if it.startswith("--")), len(rest))
names, given = rest[:at], dict(zip(rest[at::2], rest[at + 1::2]))
log, report = given.get("--log", "localise.log"), given.get("--report", "localise.json")
made = [given.get("--design", "made.v"), given.get("--trace", "made.vcd")] if command == "make" else []
read = [names[0], *names[2:]] if command in ("find", "sim") else []
read += [given[it] for it in ("--resume", "--resume-log") if it in given]
paths = [path_of(name) for name in [*read, *made, log, report]]
prefix, saving = given.get("--waves", "/") + "-", given.get("--checkpoint", "/") + "-"
saved = [saving + name for name in ("1.log", "1.json", "2.log", "2.json")] if "--checkpoint" in given else []
if any(paths.count(path) > 1 for path in paths) or any("/".join(path).startswith((prefix, saving)) for path in paths):
    end(2, "usage name")
if command == "check":
    read = [names[2]]
for name in read:
    load(name)
if command == "sim":
    end(0, "trace 1 miss 0 y")
for name in [log, report] + saved[:2] + [prefix + "1-1.vcd"] * ("--waves" in given):
    ask(name)
for name in made:
    write(name, (name * 40 if name != "y" else "made.v" * 40).encode())
write(log, b"log " * 30)
say("set {1}\\n")
for name in saved:
    write(name, b"log\\n" if name.endswith("log") else b"{}\\n")
write(report, b"report " * 60)
if "--waves" in given:
    write(prefix + "1-1.vcd", b"wave\\n")
end(0, "complete 1")
''' % PYTHON
BUGS = {
    "the log is a link to the design": ("        used[file_of(name)] = None\n", ""),
    "the report is a link to the log": ("        if used.setdefault(file_of(name), name) != name:", "        if used.get(file_of(name), name) is None:"),
    "no folder for the report": ("for name in [log, report]", "for name in [log]"),
    "the disk is full at the report": ("    except OSError:\n        end(6)\n\ndef ask", "    except OSError:\n        pass\n\ndef ask"),
    "the output is closed": ("while os.open(\"/dev/null\", os.O_RDONLY) < 2:\n    pass\n", ""),
    "the output of sim is unread": ("        os._exit(6)", "        pass"),
    "one path for log and report": ('part not in ("", ".")', 'part not in ("",)'),
    "the dump is a folder": ('"read fault " + name', '"read fault"'),
    "resumed: no log": ('"--resume", "--resume-log"', '"--resume"'),
    "resumed: the new log is the old one": ("paths = [path_of(name) for name in [*read,", "paths = [path_of(name) for name in [*read[:2],"),
    "resumed: the new report is a second name of the old one": ("        used[file_of(name)] = None\n", ""),
    "the log is a link to no file": ("log, b\"log \" * 30", "log, b\"log \" * (30 if log == 'localise.log' else 29)"),
}


class Faults(unittest.TestCase):
    def setUp(self):
        room = tempfile.TemporaryDirectory()
        self.addCleanup(room.cleanup)
        os.chmod(room.name, 0o755)
        self.program = os.path.join(room.name, "program")

    def program_of(self, text):
        with open(self.program, "w", encoding="utf-8") as file:
            file.write(text)
        os.chmod(self.program, 0o755)
        return self.program

    def test_a_program_that_keeps_to_the_documents_passes(self):
        with contextlib.redirect_stdout(io.StringIO()) as printed:
            status = faults.main(["--kills", "4", self.program_of(STAND_IN)])
        count = len(list(faults.rows())) + 2 * 4
        self.assertIn("find --checkpoint: skipped", printed.getvalue())
        self.assertEqual((printed.getvalue().splitlines()[-1], status), ("%d passed, 0 failed" % count, 0), printed.getvalue())

    def test_each_bug_fails_its_row(self):
        rows = {row.fault: row for row in faults.rows()}
        for fault, (old, new) in BUGS.items():
            with self.subTest(fault):
                self.assertEqual(STAND_IN.count(old), 1)
                trial = faults.Trial(self.program_of(STAND_IN.replace(old, new)))
                self.assertNotEqual(trial.wrong(rows[fault]), [])

    def test_a_killed_run_leaves_a_checkpoint_that_goes_on(self):
        # (it sleeps once they are whole)
        asleep = "if saved:\n    time.sleep(0.5)\nwrite(report"
        text = STAND_IN.replace("no word more", "--checkpoint").replace("write(report", asleep)
        kills = faults.Kills(self.program_of(text))
        self.assertEqual(kills.checkpoint(0.7), [])
        self.program_of(text.replace('say("set {1}\\n")', 'say("set {2}\\n" if given.get("--resume", "").startswith("c-") else "set {1}\\n")'))
        self.assertEqual(len(kills.checkpoint(0.7)), 3)
        self.program_of(text.replace("write(log,", 'if given.get("--resume", "").startswith("c-"):\n    end(3, "input F4 1")\nwrite(log,'))
        self.assertEqual(kills.checkpoint(0.7)[0][:15], "no pair goes on")

    def test_a_row_that_fails_is_told(self):
        with contextlib.redirect_stdout(io.StringIO()) as printed:
            failed = faults.printed_table([("one", "6 ", []), ("another", "6 ", ["m.v: harmed"])])
        self.assertEqual((failed, printed.getvalue().splitlines()[-2:]), (1, ["    m.v: harmed", "1 passed, 1 failed"]))

    def test_a_text_that_no_whole_run_leaves_is_harm(self):
        due = {"log": b"new text"}
        for text in (b"old", b"", b"new", b"new text"):
            self.assertEqual(faults.unharmed({"log": b"old"}, {"log": text}, due), [])
        self.assertEqual(faults.unharmed({"log": b"old"}, {"log": b"text"}, due), ["log: harmed"])
        self.assertEqual(faults.unharmed({"log": b"old"}, {}, due), ["log: gone"])
        self.assertEqual(faults.unharmed({}, {"log": b"new"}, due, True), ["log: written"])

    @unittest.skipUnless(os.access(PROGRAM, os.X_OK), "no program was built")
    def test_the_built_program(self):
        with contextlib.redirect_stdout(io.StringIO()) as printed:
            status = faults.main([PROGRAM])
        self.assertEqual(status, 0, printed.getvalue())


if __name__ == "__main__":
    unittest.main()
