#!/usr/bin/env python3
"""Measures `ucode play` and `ucode gen`, and prints one table. README.md beside it says what is measured and how."""
import os
import sys
import tempfile

from run import HEADER, compiled, expect, peak_above, work_ratio, writes_of

THREADS = 256
STORM_TURNS = 14_000  # turns of 255 steps; a script holds at most 14,376 of them in its 16 MiB
ROUND_LOADS = 40
SINGLE_LOADS = 4_095  # with the boot as many commands as a script may have
CORE = "sig 0x906ea flags 0x2 rev 0xb4\n"


def make_update(number):
    """Writes an update of 64 bytes of a revision of its own, and returns its name."""
    words = [1, 0xB5 + number, 0x07112023, 0x000906EA, 0, 1, 2, 16, 64, 0, 0, 0]
    words[4] = -sum(words) % 2**32
    name = f"u{number}.bin"
    with open(name, "wb") as file:
        file.write(HEADER.pack(*words) + bytes(16))
    return name


def make_topologies():
    """Writes machines: 256 threads, two on each core, one group a core or one for all; and one thread."""
    threads = [f"cpu {t} core {t // 2}\n" for t in range(THREADS)]
    cores = range(THREADS // 2)
    for name, text in (
        ("by_core", ["ucode-topology 1\nvendor intel\n", *(f"core {c} {CORE}" for c in cores), *threads]),
        ("one_package", ["ucode-topology 2\nvendor intel\n", *(f"core {c} package 0 {CORE}" for c in cores), *threads]),
        ("one_thread", ["ucode-topology 1\nvendor intel\n", f"core 0 {CORE}", "cpu 0 core 0\n"]),
    ):
        with open(name, "w") as file:
            file.writelines(text)


def make_script(name, commands):
    with open(name, "w") as file:
        file.writelines(["ucode-script 1\nboot\n", *commands])
    return name


def make_storm(turns):
    """A load whose other threads step in turn while thread 0 is held back, and that ends in rounds."""
    turn = " ".join(f"s{t}" for t in range(1, THREADS)) + "\n"
    return make_script(f"storm{turns}", [f"load {make_update(0)}\n", *[turn] * turns, "*60\nend\n"])


def make_rounds(loads):
    """Loads of one group, half of whose threads are offline: thread 0 kicks them, and frees all others, one by one."""
    return make_script(f"rounds{loads}", [*(f"offline {t}\n" for t in range(1, THREADS, 2)),
                                          *(f"load {make_update(k)}\n*5128\nend\n" for k in range(loads))])


def make_singles(loads):
    return make_script(f"singles{loads}", [f"load {make_update(k)}\n*28\nend\n" for k in range(loads)])


def played(program, command):
    """What a program prints for a command, in its writes. It ends the script where nothing is printed."""
    writes = writes_of([program, *command])
    if not writes:
        sys.exit(f"{' '.join([program, *command])}\nprinted nothing, so nothing is measured.")
    return writes


def measure(ucode):
    """Returns the rows of the table. It works in the current folder."""
    plain = compiled("plain_play")
    make_topologies()
    rows = []

    def compare(text, command, half=None, runs=15):
        """Adds the rows of a command, which must print the same bytes as the plain simulator."""
        wanted = b"".join(played(plain, command))
        writes = played(ucode, command)
        expect([ucode, *command], b"".join(writes), wanted)
        ratio = work_ratio([ucode, *command], [plain, *command], runs)
        rows.append((f"{text}: time, to the plain simulator's", f"{ratio:.2f}", "at most 1.2"))
        if half:
            ratio = work_ratio([ucode, *command], [ucode, *half], runs)
            rows.append((f"{text}: time, to half as many", f"{ratio:.2f}", "about 2"))
        return len(writes), -(-len(wanted) // 65536)

    compare("`gen 1`", ["gen", "1"])
    storm = ["play", "by_core", make_storm(STORM_TURNS)]
    text = f"poll storm of {STORM_TURNS * (THREADS - 1):,} steps as words"
    writes, blocks = compare(text, storm, ["play", "by_core", make_storm(STORM_TURNS // 2)])
    rows.append((f"{text}: writes, to blocks of 64 KiB", f"{writes} to {blocks}", "one for each"))
    above = peak_above([ucode, *storm], os.path.getsize(storm[2]))
    rows.append((f"{text}: peak memory", f"the script's size and {above:.1f} MiB",
                 "the script's size and at most 64 MiB"))
    compare(f"{ROUND_LOADS} loads of one group of 256 in rounds", ["play", "one_package", make_rounds(ROUND_LOADS)],
            ["play", "one_package", make_rounds(ROUND_LOADS // 2)])
    singles = ["play", "one_thread", make_singles(SINGLE_LOADS)]
    text = f"{SINGLE_LOADS:,} loads of one thread"
    compare(text, singles, ["play", "one_thread", make_singles(SINGLE_LOADS // 2)])
    rows.append((f"{text}: peak memory", f"{peak_above([ucode, *singles], 0):.1f} MiB", "at most 32 MiB"))
    return rows


def main():
    if len(sys.argv) != 2 or not os.access(sys.argv[1], os.X_OK):
        sys.exit("usage: play.py PATH, the path of the built ucode")
    ucode = os.path.abspath(sys.argv[1])
    with tempfile.TemporaryDirectory() as folder:
        os.chdir(folder)
        rows = measure(ucode)
        os.chdir("/")
    print(f"| `ucode play` and `gen`, on {os.cpu_count()} cores | Measured | Target |\n|---|---|---|")
    for row in rows:
        print(f"| {' | '.join(row)} |")


if __name__ == "__main__":
    main()
