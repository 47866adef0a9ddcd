import os
import subprocess
import sys
import tarfile
import tempfile
import unittest

import installing


class Installing(unittest.TestCase):
    def setUp(self):
        room = tempfile.TemporaryDirectory()
        self.addCleanup(room.cleanup)
        self.room = room.name
        self.program = os.path.join(self.room, "built")
        with open(self.program, "w", encoding="utf-8") as file:
            file.write("#!/bin/sh\necho built $1\n")
        os.chmod(self.program, 0o755)

    def test_program_page_and_completions_are_below_the_prefix(self):
        prefix = os.path.join(self.room, "a", "prefix")
        paths = installing.install(self.program, prefix)
        self.assertEqual(
            sorted(os.path.relpath(path, prefix) for path in paths),
            [
                "bin/localise",
                "share/bash-completion/completions/localise",
                "share/fish/vendor_completions.d/localise.fish",
                "share/man/man1/localise.1",
                "share/zsh/site-functions/_localise",
            ],
        )
        self.assertEqual(subprocess.check_output([paths[0], "here"], text=True), "built here\n")

    def test_a_second_install_takes_the_place_of_the_first(self):
        installing.install(self.program, self.room)
        with open(self.program, "a", encoding="utf-8") as file:
            file.write("echo again\n")
        paths = installing.install(self.program, self.room)
        self.assertEqual(subprocess.check_output([paths[0], "here"], text=True), "built here\nagain\n")

    def test_the_archive_has_what_is_installed_and_the_tools_examples_and_documents(self):
        path = installing.archive(self.program, os.path.join(self.room, "localise.tar.xz"))
        with tarfile.open(path) as file:
            file.extractall(self.room)
            modes = {entry.mode for entry in file}
        folder = os.path.join(self.room, "localise")
        self.assertEqual(modes, {0o644, 0o755})
        self.assertEqual(subprocess.check_output([os.path.join(folder, "bin", "localise"), "it"], text=True), "built it\n")
        for name in ["README.md", "docs/formats.md", "examples/uart/uart_tx.v", "share/man/man1/localise.1"]:
            self.assertTrue(os.path.isfile(os.path.join(folder, name)), name)
        said = subprocess.run([sys.executable, os.path.join(folder, "tools", "annotate.py"), "--help"], capture_output=True, text=True)
        self.assertIn("usage", said.stdout)

    def test_two_archives_of_the_same_files_are_the_same_bytes(self):
        texts = []
        for name in ["one", "other"]:
            os.utime(self.program, (len(texts) * 1000, len(texts) * 1000))
            with open(installing.archive(self.program, os.path.join(self.room, name)), "rb") as file:
                texts.append(file.read())
        self.assertEqual(texts[0], texts[1])


class Completing(unittest.TestCase):
    """What bash offers, by the completion that is installed."""

    def offers(self, *words):
        script = (
            f"source {installing.TOP}/docs/help/localise.bash; COMP_WORDS=({' '.join(map(repr, words))}); "
            'COMP_CWORD=$((${#COMP_WORDS[@]} - 1)); _localise; printf "%s\\n" "${COMPREPLY[@]}"'
        )
        return subprocess.check_output(["bash", "-c", script], text=True, cwd=os.path.join(installing.TOP, "examples", "uart")).split()

    def test_the_first_word_is_a_command(self):
        self.assertEqual(self.offers("localise", "f"), ["find"])
        self.assertEqual(self.offers("localise", "--v"), ["--version"])

    def test_options_are_those_of_the_command(self):
        self.assertEqual(self.offers("localise", "find", "--s"), ["--scope", "--size", "--suspects", "--sets"])
        self.assertEqual(self.offers("localise", "sim", "--s"), ["--scope"])
        self.assertEqual(self.offers("localise", "check", "--"), ["--workers", "--format", "--scope", "--x-inputs"])

    def test_kinds_follow_their_option_and_commas(self):
        self.assertEqual(self.offers("localise", "find", "--suspects", "st"), ["stmt"])
        self.assertEqual(self.offers("localise", "find", "--suspects", "stmt,b"), ["stmt,block"])
        self.assertEqual(self.offers("localise", "find", "--suspects", "=", "mod"), ["module"])

    def test_help_is_followed_by_a_command_and_else_files_are_offered(self):
        self.assertEqual(self.offers("localise", "help", "ch"), ["check"])
        self.assertEqual(self.offers("localise", "sim", "uart_tx.vc"), ["uart_tx.vcd"])


if __name__ == "__main__":
    unittest.main()
