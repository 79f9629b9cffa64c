#!/usr/bin/env python3
"""Runs install.sh and the gate's own script in folders that look like this repository, with programs that are stand-ins."""
import os
import shutil
import stat
import subprocess
import tempfile
import unittest

TOP = os.path.dirname(os.path.dirname(os.path.abspath(__file__)))
PROGRAMS = ("crates/ucode/out/ucode", "crates/ucode_live/out/ucode_live")
PAGES = ("docs/ucode.1", "docs/ucode_live.1")


def put(path, text, mode=stat.S_IRWXU):
    os.makedirs(os.path.dirname(path), exist_ok=True)
    with open(path, "w", encoding="utf-8") as file:
        file.write(text)
    os.chmod(path, mode)


class Folder(unittest.TestCase):
    def setUp(self):
        self.place = tempfile.TemporaryDirectory()
        self.addCleanup(self.place.cleanup)
        self.top = os.path.join(self.place.name, "a repository")

    def copy(self, *names):
        for name in names:
            os.makedirs(os.path.dirname(os.path.join(self.top, name)), exist_ok=True)
            shutil.copy2(os.path.join(TOP, name), os.path.join(self.top, name))

    def build(self, *names):
        for name in names:
            put(os.path.join(self.top, name), f"#!/bin/sh\necho {os.path.basename(name)}\n")


class InstallTest(Folder):
    def setUp(self):
        super().setUp()
        self.copy("tools/install.sh", *PAGES)
        self.prefix = os.path.join(self.place.name, "a prefix")

    def install(self, *words):
        done = subprocess.run(["sh", os.path.join(self.top, "tools/install.sh"), *words], cwd=self.place.name,
                              stdin=subprocess.DEVNULL, capture_output=True, text=True, timeout=60)
        self.assertEqual(done.stdout, "")
        return done.returncode, done.stderr

    def installed(self):
        return sorted(os.path.relpath(os.path.join(folder, name), self.prefix)
                      for folder, _, names in os.walk(self.prefix) for name in names)

    def test_programs_and_pages_are_put(self):
        self.build(*PROGRAMS)
        for prefix in (self.prefix, "a prefix"):
            self.assertEqual(self.install(prefix), (0, ""))
            self.assertEqual(self.installed(), ["bin/ucode", "bin/ucode_live", "share/man/man1/ucode.1",
                                                "share/man/man1/ucode_live.1"])
        for name in PROGRAMS:
            program = os.path.basename(name)
            done = subprocess.run([os.path.join(self.prefix, "bin", program)], capture_output=True, text=True, check=True)
            self.assertEqual(done.stdout, program + "\n")
        for name in PAGES:
            path = os.path.join(self.prefix, "share/man/man1", os.path.basename(name))
            with open(path, "rb") as found, open(os.path.join(TOP, name), "rb") as wanted:
                self.assertEqual(found.read(), wanted.read())
            self.assertEqual(stat.S_IMODE(os.stat(path).st_mode), 0o644)

    def test_what_is_not_built_is_refused(self):
        for built, missing in ((), "ucode"), (PROGRAMS[1:], "ucode"), (PROGRAMS[:1], "ucode_live"):
            shutil.rmtree(os.path.join(self.top, "crates"), ignore_errors=True)
            self.build(*built)
            status, said = self.install(self.prefix)
            self.assertEqual((status, self.installed()), (1, []))
            self.assertEqual(said, f"install.sh: {missing} is not built; run 'rt ci' at the top of the repository first\n")

    def test_faulty_words_are_refused(self):
        self.build(*PROGRAMS)
        for words in ((), ("",), ("--help",), (self.prefix, self.prefix)):
            status, said = self.install(*words)
            self.assertEqual((status, self.installed()), (2, []))
            self.assertEqual(said, "install.sh: state one folder to install into: tools/install.sh PREFIX\n")

    def test_a_prefix_that_takes_nothing(self):
        self.build(*PROGRAMS)
        put(self.prefix, "a file")
        status, said = self.install(self.prefix)
        self.assertEqual(status, 1)
        self.assertTrue(said.endswith(f"install.sh: not all was put into {self.prefix}\n"))


class GateTest(Folder):
    """The gate's script, where `rt` and `python3` are stand-ins that end with a status, or are not there."""

    def run_gate(self, rt=0, python=0, built=PROGRAMS):
        self.top = tempfile.mkdtemp(dir=self.place.name)
        self.copy(".ci/run")
        self.build(*built)
        path = os.path.join(self.top, "bin")
        put(os.path.join(path, "rt"), f'#!/bin/sh\necho "rt $*"\nexit {rt}\n')
        if python is not None:
            put(os.path.join(path, "python3"), f'#!/bin/sh\necho "$*"\ncase "$1" in *run_cases*) exit {python};; esac\n')
        os.symlink(shutil.which("dirname"), os.path.join(path, "dirname"))
        done = subprocess.run([shutil.which("bash"), os.path.join(self.top, ".ci/run")], env={"PATH": path}, text=True,
                              stdin=subprocess.DEVNULL, capture_output=True, timeout=60)
        return done.returncode, done.stdout.splitlines(), done.stderr

    def test_all_is_run(self):
        status, run, said = self.run_gate()
        tools = ["play_examples", "run_statuses", "run_faults", "run_cases", "run_witnesses"]
        self.assertEqual((status, run[0], said), (0, "rt ci", ""))
        live = "tools/run_live.py crates/ucode_live/out/ucode_live"
        self.assertEqual(run[-6:], [*(f"tools/{tool}.py crates/ucode/out/ucode" for tool in tools), live])

    def test_the_first_status_that_is_not_0(self):
        self.assertEqual(self.run_gate(python=7)[0], 7)

    def test_a_fault_of_the_proofs_goes_first(self):
        status, run, _ = self.run_gate(rt=3, python=7)
        self.assertEqual((status, run[-1]), (3, "tools/run_live.py crates/ucode_live/out/ucode_live"))

    def test_no_python(self):
        status, run, said = self.run_gate(python=None)
        self.assertEqual((status, run), (1, ["rt ci"]))
        self.assertIn("no python3", said)

    def test_a_program_that_was_not_built(self):
        for k in (0, 1):
            status, run, said = self.run_gate(built=PROGRAMS[1 - k:2 - k])
            self.assertEqual((status, run[0]), (1, "rt ci"))
            self.assertIn(f"{PROGRAMS[k]} was not built", said)


if __name__ == "__main__":
    unittest.main()
