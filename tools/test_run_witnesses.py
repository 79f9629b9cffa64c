#!/usr/bin/env python3
"""Tests of run_witnesses.py: how a file of cases is read, and that a program which says otherwise is noticed."""
import os
import stat
import subprocess
import sys
import tempfile
import unittest

import run_witnesses

HEAD = """\
# A comment, and an empty line.

file a 8 = 1 f0 7112023
file b 12 = 1
text one = head | core 0
    | cpu 0 core 0
"""


class ReadTest(unittest.TestCase):
    def read(self, text):
        with tempfile.TemporaryDirectory() as folder:
            with open(os.path.join(folder, "cases.txt"), "w", encoding="ascii") as file:
                file.write(text)
            return run_witnesses.all_cases(folder)

    def test_a_file_has_its_words_up_to_its_length_and_zeros_behind(self):
        case, = self.read(HEAD + "use list a b\ncase 0 x => y\n")
        self.assertEqual(case.files, {"a": b"\1\0\0\0\xf0\0\0\0", "b": b"\1" + bytes(11)})

    def test_a_case_on_one_line(self):
        case, none = self.read(HEAD + "use select t x, t = one, x = from | *\n"
                               "case 2 a | \\# b | \\ | c => error | line\n    | three\ncase 3 a =>\n")
        self.assertEqual((case.words, case.status, case.out), (["select", "t", "x"], 2, "error\nline\nthree\n"))
        self.assertEqual(case.texts, {"t": "head\ncore 0\ncpu 0 core 0\n", "x": "from\na\n# b\n\nc\n"})
        self.assertEqual((none.status, none.out), (3, ""))

    def test_a_session(self):
        case, next_one = self.read(HEAD + "use play t s, t = one, s = head | *\ncase 4\npool 1\nboot a -> up 0 | answer done\n"
                                   "load a b | *60 | end -> answer\nonline 1 -> answer\nboot gone\ncase 0 boot =>\n")
        self.assertEqual(case.texts["s"], "head\npool 1\nboot a\nload a b\n*60\nend\nonline 1\nboot gone\n")
        self.assertEqual(case.out, "command 1 boot\nup 0\nanswer done\ncommand 2 load\nanswer\ncommand 3 online 1\nanswer\n")
        self.assertEqual((case.status, next_one.status), (4, 0))

    def test_a_line_of_no_form_is_told(self):
        for line in ("boot -> answer done", "case 10 x => y", "file a = 1", "text one"):
            with self.assertRaisesRegex(run_witnesses.Malformed, r"cases\.txt:7: "):
                self.read(HEAD + line + "\n")


class RunTest(unittest.TestCase):
    def run_with(self, script):
        """The status, and what is written, with a program that is this shell script."""
        with tempfile.TemporaryDirectory() as folder:
            program = os.path.join(folder, "program")
            with open(program, "w", encoding="ascii") as file:
                file.write("#!/bin/sh\n" + script + "\n")
            os.chmod(program, stat.S_IRWXU)
            with open(os.path.join(folder, "cases.txt"), "w", encoding="ascii") as file:
                file.write("use echo t, t = *\ncase 3 one | two => one | two\ncase 3 three => three\n")
            code = "import sys, run_witnesses\nrun_witnesses.FOLDER = sys.argv.pop()\nrun_witnesses.main()\n"
            done = subprocess.run([sys.executable, "-c", code, program, folder], capture_output=True, text=True,
                                  cwd=os.path.dirname(os.path.abspath(run_witnesses.__file__)), timeout=60)
        return done.returncode, done.stdout, done.stderr

    def test_all_alike(self):
        self.assertEqual(self.run_with("cat $2; exit 3"), (0, "witnesses: 2 of 2 runs as they should be\n", ""))

    def test_another_text_and_another_status(self):
        status, told, whole = self.run_with("cat $2; echo; exit 3")
        self.assertEqual((status, told), (1, "witnesses: 0 of 2 runs as they should be\n"))
        self.assertIn("--- t\none\ntwo\n--- expected, with status 3\none\ntwo\n--- found, with status 3\none\ntwo\n", whole)
        self.assertEqual(self.run_with("cat $2; exit 2")[0], 1)

    def test_faulty_words(self):
        done = subprocess.run([sys.executable, run_witnesses.__file__], capture_output=True, timeout=60)
        self.assertEqual(done.returncode, 2)


if __name__ == "__main__":
    unittest.main()
