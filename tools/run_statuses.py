#!/usr/bin/env python3
"""Runs a built `ucode` where it ends with each of the statuses 0 to 6, and compares what it says.

    tools/run_statuses.py PATH

Standard output is compared byte for byte. On 1, 4 and 5 standard error has one line besides, and else nothing. The status
is 0 where all is as it should be, 1 where something is not, 2 for faulty words.
"""
import argparse
import os
import subprocess
import sys
import tempfile

TOP = os.path.dirname(os.path.dirname(os.path.abspath(__file__)))
EXAMPLES = os.path.join(TOP, "examples")
SAMPLE = os.path.join(TOP, "crates", "ucode", "data", "d.bin")
LISTED = b"""\
file 0 d.bin intel 1
0 at 0 len 2048 rev 0x000000f0 date 2023-07-11 sig 0x000906ea flags 0x00000002
"""
FORMS = "usage: ucode list FILE.. | "
LOST = "ucode: not all of the output could be written"
SESSION = "at-the-limit"
# Thread 1 waits too long for the primary of its core, and halts; the boot behind the load is not run.
HALTS = b"ucode-script 1\nboot\nload a.bin\ns0 s1 s0 s1 s1 s0 s0 s0 t1 s0 s0 s0 s0 s0\nend\nboot\n"
HALTED = b"""\
command 1 boot
up 0 rev 0x000000b4
up 1 rev 0x000000b4
answer done
command 2 load
offer core 0 entry 0 len 64 rev 0x000000f0
0 enter
1 enter
0 arrive
1 arrive
1 go
0 inner
0 inner
0 begin 0
1 halt
0 wrote 0 0x000000f0
0 inner
0 report 0 updated
0 inner
0 leave updated
cpu 0 updated
cpu 1 halted
core 0 rev 0x000000f0
answer panicked 1
"""


def read(path):
    with open(path, "rb") as file:
        return file.read()


def put(folder, name, data):
    with open(os.path.join(folder, name), "wb") as file:
        file.write(data)


def cases():
    """The words, the status, the text, and how the line on standard error begins, or None where there is none."""
    session = read(os.path.join(EXAMPLES, SESSION + ".txt"))
    return [
        (["list", "d.bin"], 0, LISTED, None),
        (["list", "d.bin", "d.bin"], 0, LISTED + LISTED.replace(b"file 0", b"file 1").replace(b"\n0 at", b"\n1 at"), None),
        ([], 1, b"usage 0\n", FORMS),
        (["lost"], 1, b"usage 0\n", FORMS),
        (["list"], 1, b"usage 1\n", FORMS),
        (["show", "d.bin", "-1"], 1, b"usage 2\n", FORMS),
        (["list", b"\xff"], 1, b"usage 1\n", FORMS),
        (["list", "short.bin"], 2, b"error file short.bin at 0 short\n", None),
        (["show", "d.bin", "1"], 2, b"error entry 1\n", None),
        (["play", "machine.topology", "short.bin"], 2, b"error script line 1 head\n", None),
        (["play", "machine.topology", SESSION + ".script"], 3, session, None),
        (["play", "machine.topology", "halts.script"], 6, HALTED, None),
        (["list", "missing.bin"], 4, b"error read missing.bin\n", "ucode: missing.bin: "),
        (["list", "d.bin", "folder"], 4, b"error read folder\n", "ucode: folder: "),
        (["list", ""], 4, b"error read \n", "ucode: : "),
        (["select", "missing", "d.bin"], 4, b"error read missing\n", "ucode: missing: "),
    ]


def fill(folder):
    """The files that the cases name."""
    sample = read(SAMPLE)
    put(folder, "d.bin", sample)
    put(folder, "long.bin", 1000 * sample)
    put(folder, "short.bin", b"abc\n")
    put(folder, "halts.script", HALTS)
    os.mkdir(os.path.join(folder, "folder"))
    put(folder, "machine.topology", read(os.path.join(EXAMPLES, "two-threads.topology")))
    for name in (SESSION + ".script", "a.bin"):
        put(folder, name, read(os.path.join(EXAMPLES, name)))


def fault_in(done, status, text, said):
    """What is wrong with how a run ended, or None."""
    if done.returncode != status:
        return f"ends with status {done.returncode} and should with {status}"
    if text is not None and done.stdout != text:
        return f"writes {done.stdout!r} and should write {text!r}"
    lines = done.stderr.decode(errors="replace").splitlines()
    if said is None and lines:
        return f"says {lines!r} on standard error and should say nothing"
    if said is not None and (len(lines) != 1 or not lines[0].startswith(said)):
        return f"says {lines!r} on standard error and should say one line that begins with {said!r}"
    return None


def run(program, words, folder, output):
    return subprocess.run([program, *words], cwd=folder, stdin=subprocess.DEVNULL, stdout=output,
                          stderr=subprocess.PIPE, timeout=60)


def lost_output(program, words, folder):
    """Runs whose standard output takes nothing: a full disk, and a pipe that no one reads."""
    if os.path.exists("/dev/full"):
        with open("/dev/full", "wb") as full:
            yield "into /dev/full", run(program, words, folder, full)
    reader, writer = os.pipe()
    os.close(reader)
    try:
        yield "into a closed pipe", run(program, words, folder, writer)
    finally:
        os.close(writer)


def faults_of(program, folder):
    """All runs, each with what is wrong with it, or None."""
    for words, status, text, said in cases():
        done = run(program, words, folder, subprocess.PIPE)
        yield f"ucode {words}", fault_in(done, status, text, said)
    for words in (["list", "d.bin"], ["list", "long.bin"], ["list", "missing.bin"], ["lost"]):
        for where, done in lost_output(program, words, folder):
            yield f"ucode {words} {where}", fault_in(done, 5, None, LOST)


def main():
    parser = argparse.ArgumentParser(description="Runs a built `ucode` where it ends with each status, and compares.")
    parser.add_argument("program", metavar="PATH", help="the built program")
    program = os.path.abspath(parser.parse_args().program)
    with tempfile.TemporaryDirectory() as folder:
        fill(folder)
        ended = list(faults_of(program, folder))
    faults = [(name, fault) for name, fault in ended if fault]
    for name, fault in faults:
        print(f"{name}: {fault}", file=sys.stderr)
    print(f"statuses: {len(ended) - len(faults)} of {len(ended)} runs as they should be")
    sys.exit(1 if faults else 0)


if __name__ == "__main__":
    main()
