#!/usr/bin/env python3
"""Plays the sessions of examples/ and examples/worked/ with a built `ucode`, and compares its texts and statuses with
those stated there.

    tools/play_examples.py PATH

A script's comments give the command, as `ucode play TOPOLOGY SCRIPT`, with `status N` behind it where that is not 0;
the text stands beside the script. The status is 0 where all are alike, 1 where one is not, 2 for faulty words.
"""
import argparse
import glob
import itertools
import os
import re
import subprocess
import sys

EXAMPLES = os.path.join(os.path.dirname(os.path.dirname(os.path.abspath(__file__))), "examples")
FOLDERS = (EXAMPLES, os.path.join(EXAMPLES, "worked"))
COMMAND = re.compile(r"#\s+ucode (play \S+ \S+)(?:\s+status (\d+))?\s*")


def command_of(script):
    """The words and the status that a script's comments give, or None."""
    with open(script, encoding="utf-8") as file:
        for line in file:
            found = COMMAND.fullmatch(line)
            if found:
                return found[1].split(), int(found[2] or 0)
    return None


def difference(printed, wanted):
    """The first line that differs, in words, or None."""
    if printed == wanted:
        return None
    lines = itertools.zip_longest(printed.split(b"\n"), wanted.split(b"\n"), fillvalue=b"(the end)")
    number, line, want = next((n, a, b) for n, (a, b) in enumerate(lines, 1) if a != b)
    return f"line {number} is '{line.decode(errors='replace')}' and should be '{want.decode(errors='replace')}'"


def fault_of(program, script):
    """What is wrong with how a program plays a script, or None."""
    command = command_of(script)
    if not command or command[0][2] != os.path.basename(script):
        return "no comment gives its command"
    words, status = command
    try:
        done = subprocess.run([program, *words], cwd=os.path.dirname(script), stdin=subprocess.DEVNULL,
                              stdout=subprocess.PIPE, stderr=subprocess.DEVNULL, timeout=60)
        with open(os.path.splitext(script)[0] + ".txt", "rb") as file:
            wanted = file.read()
    except (OSError, subprocess.TimeoutExpired) as fault:
        return str(fault)
    if done.returncode != status:
        return f"ends with status {done.returncode} and should with {status}"
    return difference(done.stdout, wanted)


def main():
    parser = argparse.ArgumentParser(description="Plays the sessions of examples/ with a built `ucode`, and compares.")
    parser.add_argument("program", metavar="PATH", help="the built program")
    program = os.path.abspath(parser.parse_args().program)
    scripts = [script for folder in FOLDERS for script in sorted(glob.glob(os.path.join(folder, "*.script")))]
    faults = [(os.path.relpath(script, EXAMPLES), fault) for script in scripts if (fault := fault_of(program, script))]
    for name, fault in faults:
        print(f"{name}: {fault}", file=sys.stderr)
    print(f"examples: {len(scripts) - len(faults)} of {len(scripts)} as they should be")
    sys.exit(1 if faults or not scripts else 0)


if __name__ == "__main__":
    main()
