#!/usr/bin/env python3
"""Runs a built `ucode_live` on faulty words, on faulty inputs, and on loads whose answer no order of threads changes, and
compares what it says.

    tools/run_live.py PATH

No thread of these loads gives up: each looks 4,294,967,295 times, or has nothing to wait for. Standard output and the
status are compared. The status is 0 where all is as it should be, 1 where something is not, 2 for faulty words.
"""
from run_cases import ONE, PAIR, SCRIPT, alike, update
from run_faults import fault_of, run

PACKAGE = ("ucode-topology 2\nvendor intel\n"
           + "".join(f"core {c} package 0 sig 0x906ea flags 0x2 rev 0xb4\n" for c in range(2))
           + "".join(f"cpu {t} core {t // 2}\n" for t in range(4)))
PATIENT = "patience 4294967295\nboot\n"
FILES = {"t": ONE.encode(), "e": b"", "many": alike(33).encode()}
# The words, the status, and the text: no file has the names `none` and `missing`.
WORDS = [
    ("", 1, "usage 0\n"), ("t", 1, "usage 1\n"), ("-t s", 1, "usage 0\n"), ("t -s", 1, "usage 1\n"), ("t s more", 1, "usage 2\n"),
    ("missing none", 4, "error read missing\n"), ("t none", 4, "error read none\n"),
    ("e none", 2, "error topology line 0 head\n"), ("many none", 2, "error topology line 0 live-limit\n"),
    ("t e", 2, "error script line 0 head\n"),
]


def booted(threads):
    return "command 1 boot\n" + "".join(f"up {t} rev 0x000000b4\n" for t in range(threads)) + "answer done\n"


def loaded(number, cores, results, length=64):
    """What the load that is a session's command of this number writes, where it is done."""
    return (f"command {number} load\n" + "".join(f"offer core {c} entry 0 len {length} rev 0x000000f0\n" for c in range(cores))
            + "".join(f"cpu {t} {result}\n" for t, result in enumerate(results))
            + "".join(f"core {c} rev 0x000000f0\n" for c in range(cores)) + "answer done\n")


# A machine, the commands of a script, the status, and the text: `a` has 64 bytes, `r` 102,400.
SESSIONS = [
    (ONE, "patience 0\nboot\nload a\nend\n", 0, booted(1) + loaded(2, 1, ["updated"])),
    (PAIR, PATIENT + "offline 1\nload a\nend\n", 0,
     booted(2) + "command 2 offline 1\nanswer done\n" + loaded(3, 1, ["updated", "offline"])),
    (PACKAGE, PATIENT + "load a\nend\n", 0, booted(4) + loaded(2, 2, ["updated", "ok", "ok", "ok"])),
    (alike(32), PATIENT + "load a\nend\n", 0, booted(32) + loaded(2, 32, 32 * ["updated"])),
    (alike(4, 2), PATIENT + "load r\n*168\nend\nload r\n*168\nend\n", 3,
     booted(8) + loaded(2, 4, 4 * ["updated", "ok"], 102400) + "command 3 load\nanswer not-found\n"),
]


def words():
    for line, status, text in WORDS:
        yield line.split(), FILES, status, text.encode()


def loads():
    for topology, commands, status, text in SESSIONS:
        files = {"t": topology.encode(), "s": (SCRIPT + commands).encode(), "a": update(), "r": update(data=102352)}
        yield ["t", "s"], files, status, text.encode()


if __name__ == "__main__":
    run("live", "Runs a built `ucode_live` on faults and on loads, and compares.", (words, loads), fault_of)
