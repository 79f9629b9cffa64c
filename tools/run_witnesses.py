#!/usr/bin/env python3
"""Runs a built `ucode` on the cases of tools/witnesses/, and compares what it prints and its status.

    tools/run_witnesses.py PATH

The cases were computed by an independent reading of the formats and rules; none was taken from the program. A proof ties
the program to definitions, so a rule that is wrong in both is seen by such values alone. The status is 0 where all is as
it should be, 1 where something is not, 2 for faulty words. The first few that differ are shown whole.

How a file of cases is written. A line that begins with spaces goes on where the one before ended. The lines of a text stand
between ` | `; a backslash stands in front of one that is empty or a comment.

    # ..                                a comment
    file NAME LENGTH = WORD ..          a file: words of 32 bits in hexadecimal, then zeros up to its length, or cut there
    text NAME = LINE | LINE             a text that is used by its name
    use WORD .., NAME = LINE | .. | *   the command line of the cases that follow, and their texts; `*` is what each states
    case STATUS LINES => LINES          a case: what it states, and all that is printed
    case STATUS                         a session: each line below is a command as the script has it and, behind `->`, what
    LINES -> LINES                      is printed behind its heading; without `->` nothing is printed, nor a heading
"""
import argparse
import concurrent.futures
import glob
import os
import re
import subprocess
import sys
import tempfile
import threading
from collections import namedtuple

FOLDER = os.path.join(os.path.dirname(os.path.abspath(__file__)), "witnesses")
SHOWN = 3
NAMING_FILES = ("boot", "load", "load-force")

# Where a case stands, its command line, its texts by their names, the set of files it finds, its status and its text.
Case = namedtuple("Case", "place words texts files status out")


class Malformed(Exception):
    """A file of cases that is not written as it should be."""


def lines_of(text):
    """The lines of a text, each with its end."""
    pieces = text.split(" | ") if text else []
    return "".join(piece.removeprefix("\\") + "\n" for piece in pieces)


def file_of(length, words):
    data = b"".join(int(word, 16).to_bytes(4, "little") for word in words.split())
    return data.ljust(int(length), b"\0")[:int(length)]


def heading_of(number, command):
    """The heading of a command, which has the numbers that the command has, and no names of files."""
    first = command.split(" | ")[0]
    return f"command {number} {first.split()[0] if first.split()[0] in NAMING_FILES else first}\n"


def whole_lines(path):
    """The lines of a file of cases with their numbers, without comments, each with the lines that go on where it ends."""
    whole = []
    with open(path, encoding="ascii") as file:
        for number, line in enumerate(file, 1):
            line = line.rstrip("\n")
            if line.startswith(" ") and whole:
                whole[-1][1] += " " + line.lstrip(" ")
            elif line and not line.startswith("#"):
                whole.append([number, line])
    return whole


class Reader:
    """Reads the cases of one file, line by line."""

    def __init__(self, path):
        self.path, self.files, self.named = path, {}, {}
        self.words, self.forms = [], {}
        self.cases, self.open = [], None

    def read(self):
        for number, line in whole_lines(self.path):
            place = f"{os.path.relpath(self.path, os.path.dirname(FOLDER))}:{number}"
            try:
                self.take(place, line)
            except (ValueError, IndexError, KeyError) as fault:
                raise Malformed(f"{place}: {fault!r}") from fault
        self.close()
        return self.cases

    def take(self, place, line):
        if found := re.fullmatch(r"file (\S+) (\d+) =((?: [0-9a-f]+)*)", line):
            self.files[found[1]] = file_of(found[2], found[3])
        elif found := re.fullmatch(r"text (\S+) = (.*)", line):
            self.named[found[1]] = found[2]
        elif found := re.fullmatch(r"use ([^,]+)((?:, \S+ = [^,]+)*)", line):
            self.close()
            self.words = found[1].split(" ")
            self.forms = dict(form.split(" = ", 1) for form in found[2].split(", ")[1:])
        elif found := re.fullmatch(r"case (\d)", line):
            self.close()
            self.open = (place, int(found[1]), [])
        elif found := re.fullmatch(r"case (\d) (.+?) =>(?: (.+))?", line):
            self.close()
            self.add(place, int(found[1]), found[2], lines_of(found[3] or ""))
        elif self.open:
            self.open[2].append(line.split(" -> ", 1))
        else:
            raise ValueError("no form of a line")

    def close(self):
        """Ends the session that is open, where one is."""
        if self.open:
            place, status, commands = self.open
            run = [(command, printed) for command, *shown in commands for printed in shown]
            text = "".join(heading_of(n, command) + lines_of(printed) for n, (command, printed) in enumerate(run, 1))
            self.add(place, status, " | ".join(command[0] for command in commands), text)
            self.open = None

    def add(self, place, status, stated, out):
        texts = {name: self.text_of(form, stated) for name, form in self.forms.items()}
        self.cases.append(Case(place, self.words, texts, self.files, status, out))

    def text_of(self, form, stated):
        """A text by its form, in which `*` is what the case states, and which may be the name of a text."""
        pieces = self.named.get(form, form).split(" | ")
        return lines_of(" | ".join(stated if piece == "*" else piece for piece in pieces))


def all_cases(folder):
    return [case for path in sorted(glob.glob(os.path.join(folder, "*.txt"))) for case in Reader(path).read()]


class Runner:
    """Runs cases with a program, each thread in folders of its own, one for each set of files."""

    def __init__(self, program, top):
        self.program, self.top, self.own = program, top, threading.local()

    def folder_for(self, files):
        folders = self.own.__dict__.setdefault("folders", {})
        if id(files) not in folders:
            folders[id(files)] = tempfile.mkdtemp(dir=self.top)
            for name, data in files.items():
                write(folders[id(files)], name, data)
        return folders[id(files)]

    def run(self, case):
        """The status and the text of a run, or what kept it from its end."""
        folder = self.folder_for(case.files)
        for name, text in case.texts.items():
            write(folder, name, text.encode("ascii"))
        try:
            done = subprocess.run([self.program, *case.words], cwd=folder, stdin=subprocess.DEVNULL,
                                  stdout=subprocess.PIPE, stderr=subprocess.DEVNULL, timeout=60)
        except (OSError, subprocess.TimeoutExpired) as fault:
            return None, str(fault)
        return done.returncode, done.stdout.decode("utf-8", "backslashreplace")


def write(folder, name, data):
    with open(os.path.join(folder, name), "wb") as file:
        file.write(data)


def shown(case, found):
    """A case that differs, whole: its inputs, what is expected, and what was found."""
    parts = [f"{case.place}: ucode {' '.join(case.words)}"]
    parts += [f"--- {name}\n{text}" for name, text in case.texts.items()]
    parts.append(f"--- expected, with status {case.status}\n{case.out}")
    parts.append(f"--- found, with status {found[0]}\n{found[1]}")
    return "\n".join(part.rstrip("\n") for part in parts) + "\n"


def main():
    parser = argparse.ArgumentParser(description="Runs a built `ucode` on cases computed independently, and compares.")
    parser.add_argument("program", metavar="PATH", help="the built program")
    program = os.path.abspath(parser.parse_args().program)
    try:
        cases = all_cases(FOLDER)
    except Malformed as fault:
        sys.exit(f"witnesses: {fault}")
    with tempfile.TemporaryDirectory() as top, concurrent.futures.ThreadPoolExecutor(2 * (os.cpu_count() or 1)) as pool:
        found = list(pool.map(Runner(program, top).run, cases))
    differ = [(case, ending) for case, ending in zip(cases, found) if ending != (case.status, case.out)]
    for case, ending in differ[:SHOWN]:
        print(shown(case, ending), file=sys.stderr)
    print(f"witnesses: {len(cases) - len(differ)} of {len(cases)} runs as they should be")
    sys.exit(1 if differ or not cases else 0)


if __name__ == "__main__":
    main()
