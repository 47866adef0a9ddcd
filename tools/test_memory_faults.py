#!/usr/bin/env python3
"""Tests of tools/memory_faults.py: `python3 tools/test_memory_faults.py`. A C program stands for `localise`: one that keeps to the documents, and
some with one bug each. They need a C compiler, as the script does."""

import contextlib
import io
import os
import shutil
import subprocess
import sys
import tempfile
import unittest

HERE = os.path.dirname(os.path.abspath(__file__))
sys.path.insert(0, HERE)
import memory_faults  # noqa: E402

# (five allocations: before anything, before the log, before either set, before the report; a bug takes the place of one of its lines)
STAND_IN = """
#include <stdio.h>
#include <stdlib.h>
struct answer { unsigned long is_there; void *place; };
struct answer rattle_alloc(size_t size, size_t align) {
    struct answer answer = {1, malloc(size + align)};
    return answer;
}
struct answer rattle_realloc(void *old, size_t before, size_t size, size_t align) {
    struct answer answer = {1, realloc(old, size + align + before)};
    return answer;
}
struct answer (*volatile get)(size_t, size_t) = rattle_alloc;
static void need(const char *line) {
    if (!get(8, 8).is_there) {
        printf("%s", line);
        exit(7);
    }
}
static void put(const char *name, const char *how, const char *text) {
    FILE *file = fopen(name, how);
    fputs(text, file);
    fclose(file);
}
int main(void) {
    need("");
    need("memory\\n");
    put("log", "w", "head\\n");
    need("front 0 memory\\n");
    put("log", "a", "b -1\\n");
    puts("set {1}");
    need("front 1 memory\\n");
    puts("set {2}");
    put("report", "w", "");
    need("front 2 memory\\n");
    put("report", "w", "{}\\n");
    puts("complete 2");
    return 0;
}
"""
BUGS = {
    "a wrong number of sets": ('need("front 1 memory\\n")', 'need("front 2 memory\\n")'),
    "a status of its own": ("exit(7)", "exit(6)"),
    "a line that is cut": ('need("front 1 memory\\n")', 'need("front 1 mem")'),
    "a list that is called whole": ('need("front 1 memory\\n")', 'need("complete 1\\n")'),
    "a fault": ('need("front 0 memory\\n")', "*(char *)get(8, 8).place = *(get(8, 8).is_there ? \"\" : (char *)0)"),
    "a log that is cut in a line": ('put("log", "w", "head\\n");', 'put("log", "w", "he");'),
    "an input that is overwritten": ('put("report", "w", "");', 'put("m.v", "w", "");'),
    "a file of another name": ("exit(7)", 'exit((fopen("other", "w"), 7))'),
}
INPUTS = {"shows": "A case.\n", "args": "find\nm.v\n", "stdout": "set {1}\nset {2}\ncomplete 2\n", "m.v": "module\n"}


@unittest.skipUnless(shutil.which("cc") and shutil.which("nm"), "no C compiler")
class MemoryFaults(unittest.TestCase):
    def setUp(self):
        room = tempfile.TemporaryDirectory()
        self.addCleanup(room.cleanup)
        self.case, self.program = os.path.join(room.name, "case"), os.path.join(room.name, "program")
        os.mkdir(self.case)
        for name, text in INPUTS.items():
            with open(os.path.join(self.case, name), "w", encoding="utf-8") as file:
                file.write(text)

    def table(self, text, *more):
        """What is printed of a program, and the status."""
        subprocess.run(["cc", "-x", "c", "-o", self.program, "-"], input=text, text=True, check=True)
        with contextlib.redirect_stdout(io.StringIO()) as printed:
            status = memory_faults.main([self.program, *more, "--cases", self.case])
        return printed.getvalue().splitlines(), status

    def test_a_program_that_keeps_to_the_documents_passes(self):
        lines, status = self.table(STAND_IN)
        self.assertEqual((lines[1].split()[1:], lines[2:], status), (["5", "5", "1", "3", "1", "0", "0"], ["5 passed, 0 failed"], 0))

    def test_of_many_allocations_some_are_refused(self):
        lines, _ = self.table(STAND_IN, "--most", "3")
        self.assertEqual(lines[1].split()[1:], ["5", "3", "0", "2", "1", "0", "0"])
        self.assertEqual(list(memory_faults.numbers_of(10, 4)), [1, 4, 7, 10])

    def test_a_run_that_goes_on_without_is_as_ever(self):
        lines, status = self.table(STAND_IN.replace('need("memory\\n");', "get(8, 8);"))
        self.assertEqual((lines[1].split()[1:], status), (["5", "5", "0", "3", "1", "1", "0"], 0))

    def test_each_bug_is_found(self):
        for name, (old, new) in BUGS.items():
            with self.subTest(name):
                self.assertEqual(STAND_IN.count(old), 1)
                lines, status = self.table(STAND_IN.replace(old, new))
                self.assertEqual(status, 1, lines)

    def test_a_program_without_the_calls_is_refused(self):
        with self.assertRaises(SystemExit):
            self.table("int main(void) { return 0; }")


if __name__ == "__main__":
    unittest.main()
