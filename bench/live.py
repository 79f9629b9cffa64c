#!/usr/bin/env python3
"""Measures `ucode_live`, and prints one table. README.md beside it says what is measured and how."""
import os
import subprocess
import sys
import tempfile
import time

from play import CORE, make_script, make_update, played
from run import SCRIPT, expect

LOADS = {2: 2_000, 4: 1_000, 8: 500, 16: 250, 32: 125}
AGAINST = (2, 8, 32)
RUNS = 15


def make_topology(threads):
    """Writes a machine of so many threads, two on each core, and returns its name."""
    name = f"threads{threads}"
    with open(name, "w") as file:
        file.write("ucode-topology 1\nvendor intel\n")
        file.writelines(f"core {c} {CORE}" for c in range(threads // 2))
        file.writelines(f"cpu {t} core {t // 2}\n" for t in range(threads))
    return name


def make_loads(threads, loads):
    """Writes a script of so many loads, each of an update of its own, in which nobody runs out of patience."""
    name = make_script(f"live{threads}", [f"load {make_update(k)}\nend\n" for k in range(loads)])
    with open(name) as file:
        text = file.read()
    with open(name, "w") as file:
        file.write(text.replace("boot\n", "patience 4294967295\nboot\n", 1))
    return name


def compiled_live():
    """Compiles the plain simulator with threads, and returns its path."""
    source = os.path.join(os.path.dirname(SCRIPT), "plain_play.c")
    path = os.path.abspath("plain_live")
    subprocess.run(["gcc", "-O2", "-DLIVE", "-pthread", "-o", path, source], check=True)
    return path


def seconds(command):
    """How long a command takes, in seconds that pass."""
    before = time.perf_counter()
    subprocess.run(command, stdout=subprocess.DEVNULL, check=True)
    return time.perf_counter() - before


def measure(live):
    """Returns the rows of the table. It works in the current folder."""
    plain = compiled_live()
    rows, mean = [], {}
    for threads, loads in LOADS.items():
        words = [make_topology(threads), make_loads(threads, loads)]
        expect([live, *words], b"".join(played(live, words)), b"".join(played(plain, ["play", *words])))
        times = [(seconds([live, *words]), seconds([plain, "play", *words])) for _ in range(RUNS)]
        ours, theirs = (sorted(column) for column in zip(*times))
        mean[threads] = ours[len(ours) // 2] / loads * 1000
        if threads in AGAINST:
            text = f"{loads:,} loads of {threads} threads: time, to the plain program's"
            rows.append((f"{text}, by the least of {RUNS} runs", f"{ours[0] / theirs[0]:.2f}", "at most 1.2"))
            middle = ours[len(ours) // 2] / theirs[len(theirs) // 2]
            rows.append((f"{text}, by the middle one", f"{middle:.2f}", "at most 1.2"))
    for threads in list(LOADS)[1:]:
        ratio = mean[threads] / mean[threads // 2]
        rows.append((f"one load of {threads} threads: time, to one of {threads // 2}", f"{ratio:.2f}", ""))
    return rows


def main():
    if len(sys.argv) != 2 or not os.access(sys.argv[1], os.X_OK):
        sys.exit("usage: live.py PATH, the path of the built ucode_live")
    live = os.path.abspath(sys.argv[1])
    with tempfile.TemporaryDirectory() as folder:
        os.chdir(folder)
        rows = measure(live)
        os.chdir("/")
    print(f"| `ucode_live`, on {os.cpu_count()} cores | Measured | Target |\n|---|---|---|")
    for row in rows:
        print(f"| {' | '.join(row)} |")


if __name__ == "__main__":
    main()
