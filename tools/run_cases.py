#!/usr/bin/env python3
"""Runs a built `ucode` on sound inputs that a near mistake would answer otherwise, and compares what it says.

    tools/run_cases.py PATH

The cases stand at the ends of ranges and between neighbours: numbers of two digits, revisions, identifiers and
signatures that differ in their high bits, cores that differ in one fact, a table that passes the first piece of its file,
each form of a line, and sessions that end with each answer. The status is compared, and how standard output begins and ends,
or the whole of it where both are given alike. The status is 0
where all is as it should be, 1 where something is not, 2 for faulty words.
"""
import struct

from run_faults import run

INTEL, AMD = "ucode-topology 1\nvendor intel\n", "ucode-topology 1\nvendor amd\n"
FITS = "sig 0x906ea flags 0x2"
SCRIPT = "ucode-script 1\n"


def update(rev=0xF0, flags=2, least=0, data=16, date=0x07112023):
    """An update for the signature 0x906ea whose data are zeros and whose words sum to 0."""
    words = [1, rev, date, 0x000906EA, 0, 1, flags, data, 48 + data, 0, least, 0] + data // 4 * [0]
    words[4] = -sum(words) % 2**32
    return struct.pack(f"<{len(words)}I", *words)


def container(sig, row_id, patch_id, length=64, table=16, rev=0x0A20102B):
    """A container with one row in a table of so many bytes, and one patch of a revision and zeros."""
    head = struct.pack("<7I", 0x00414D44, 0, table, sig, 0, 0, row_id).ljust(12 + table, b"\0")
    return head + struct.pack("<9I", 1, length, 0, rev, 0, 0, 0, 0, patch_id).ljust(8 + length, b"\0")


def patches(rows, ids, table=None):
    """A container with these rows, signatures with ids, in a table of so many bytes, and a patch of 64 bytes for each id."""
    words = [number for sig, row_id in rows for number in (sig, 1, 2, row_id)]
    held = struct.pack(f"<{len(words)}I", *words)
    held = struct.pack("<3I", 0x00414D44, 0, table or len(held)) + held[:table]
    for place, number in enumerate(ids):
        held += struct.pack("<9I", 1, 64, 3, 0x05000029 + place, 4, 5, 0, 0, number).ljust(72, b"\6")
    return held


def cores(*facts, vendor=INTEL, threads=1):
    """The topology of cores with these facts, each of which has so many threads."""
    lines = [f"core {c} {fact}\n" for c, fact in enumerate(facts)]
    lines += [f"cpu {threads * c + t} core {c}\n" for c in range(len(facts)) for t in range(threads)]
    return vendor + "".join(lines)


def alike(count, threads=1):
    return cores(*count * [FITS + " rev 0xb4"], threads=threads)


ONE, PAIR, THREE, CORES = alike(1), alike(1, 2), alike(1, 3), alike(3)
HIGH = cores(FITS + " rev 0x80000000")
PACKAGES = ("ucode-topology 2\nvendor intel\n"
            + "".join(f"core {c} package {c // 2} {FITS} rev 0xb4\n" for c in range(3))
            + "".join(f"cpu {c} core {c}\n" for c in range(3)))
# Two packages of three cores, with comments, tabs, CRs and both spellings of numbers.
MIXED = ("# two packages\r\n\r\nucode-topology\t2\r\n vendor amd\r\ncore 0 package 0 sig 0x00A20F12 flags 0 rev 4294967295\n"
         "core 1 package 1 sig 0xffffffff flags 0xffffffff rev 0xffffffff\n"
         "core 2 package 0 sig 10620690 flags 0 rev 0xFFFFFFFF\n"
         "cpu 0 core 1\n#\ncpu 1 core 0x2\ncpu 2 core 0\ncpu 3 core 2\r")
FILES = {"a": update(), "b": update(0xF4), "d": update(data=2000), "h": update(0x800000F0, least=0xB4), "short": b"short",
         "m": update(least=0xB4), "n": update(least=0xB5), "bm": update(0xF4) + update(least=0xB4)}

# A container's row and patch, how long the patch is, and how it is listed: its id, its family, and its signature.
LISTED = [
    (0x00F00F22, 0xF022, 64, "0000f022", "1e", True), (0x00000F48, 0, 64, "00000000", "0f", False),
    (0x00600F22, 0x6022, 9000, "00006022", "15", True), (0x00700F22, 0x7022, 9000, "00007022", "16", True),
    (0x00800F22, 0x8022, 9000, "00008022", "17", True), (0x00A00F22, 0xA022, 9000, "0000a022", "19", True),
    (0x00000F48, 0x0F48, 9000, "00000f48", "0f", True), (0x00500F10, 0x5000, 1824, "00005000", "14", True),
]
# Dates, mmddyyyy in binary-coded decimal, and the days that they name.
DATES = [
    (0x07112023, "2023-07-11"), (0x12319999, "9999-12-31"), (0x01010000, "0000-01-01"), (0x02292024, "2024-02-29"),
    (0x02292000, "2000-02-29"), (0x02292023, "-"), (0x02291900, "-"), (0x04302023, "2023-04-30"), (0x04312023, "-"),
    (0x01322023, "-"), (0x13012023, "-"), (0x00012023, "-"), (0x01002023, "-"), (0x0A112023, "-"), (0xA1112023, "-"),
    (0x070A2023, "-"), (0x07A12023, "-"), (0x07112A23, "-"), (0x0711202A, "-"), (0x071120A3, "-"),
]
# Rows of a table, the ids of the patches behind it, and for each of these the signatures that it is for: those whose first
# row has its id, and none for the id 0.
ROWS = [
    ([(0x00500F10, 0x77775010), (0x00500F11, 0x5011), (0x00500F10, 0x5011), (0x00500F12, 0x5010), (0x00500F11, 0x5010),
      (0x00500F13, 0x77770000), (0x00500F13, 0x5010)], [0x77775010, 0], [[0x00500F10, 0x00500F12], []]),
    ([(0x00500F10, 0x5000), (0x00100F21, 0x1020), (0x00500F10, 0x1020), (0x00100F20, 0x1020), (0, 0), (0x00100F23, 0),
      (0x00100F23, 0x1020)], [0x1020, 0x5000, 0x1021], [[0x00100F21, 0x00100F20], [0x00500F10], []]),
]
# The length of a table of which two rows begin, and how many of them it has.
LENGTHS = [(16, 1), (17, 1), (31, 1), (32, 2)]
# Rows of a table, the id of the patch behind it, the signature of a core, and whether the core is offered the patch.
SERVED = [
    ([(0x00100F22, 0x1022)], 0x1022, 0x00100F22, True), ([(0x00200F22, 0x2022)], 0x2022, 0x00200F22, True),
    ([(0x00300F22, 0x3022)], 0x3022, 0x00300F22, True), ([(0x00500F22, 0x5022)], 0x5022, 0x00500F22, True),
    ([(0x00600F22, 0x6022)], 0x6022, 0x00600F22, True), ([(0x00A20F12, 0xA212)], 0xA212, 0x00A20F12, True),
    ([(0x00F00F22, 0xF022)], 0xF022, 0x00F00F22, True), ([(0x00000F48, 0x0F48)], 0x0F48, 0x00000F48, False),
    ([(0x00400F22, 0x4022)], 0x4022, 0x00400F22, False), ([(0x00100F22, 0x2022)], 0x2022, 0x00100F22, False),
    ([(0x00000022, 0x1022)], 0x1022, 0x00000022, False), ([(0x00100F23, 0x1022)], 0x1022, 0x00100F22, False),
    ([(0x00100F22, 0x1023)], 0x1022, 0x00100F22, False), ([(0x00000F22, 0)], 0, 0x00000F22, False),
    ([(0, 0), (0x00100F22, 0x1022)], 0x1022, 0x00100F22, True),
    ([(0x00100F23, 0x1022), (0x00100F22, 0x1022)], 0x1022, 0x00100F22, True),
    ([(0x00100F22, 0x1023), (0x00100F22, 0x1022)], 0x1022, 0x00100F22, False),
    ([(0x00100F22, 0), (0x00100F22, 0x1022)], 0x1022, 0x00100F22, False),
    ([(0x10100F22, 0x1022)], 0x1022, 0x00100F22, False), ([(0x00100F22, 0x1022)], 0x1022, 0x10100F22, False),
    ([(0x001F0F22, 0x1022)], 0x1022, 0x001F0F22, True), ([(0x0010F0FF, 0x0022)], 0x0022, 0x0010F0FF, False),
    ([(0x00200E22, 0x1022)], 0x1022, 0x00200E22, False), ([(0x01100F22, 0x1022)], 0x1022, 0x01100F22, False),
    ([(0x00000F22, 0x0022)], 0x0022, 0x00000F22, False), ([(0x00500F22, 0x0022)], 0x0022, 0x00500F22, False),
]
# Updates of one file, by their revisions, flags and minima, the facts of a core, and what it is offered.
F0, F4, HIGHEST, SEEN = (0xF0, 2, 0), (0xF4, 2, 0), (0x800000F0, 2, 0), "sig 0x906ea flags 2 rev 0xb4"
OFFERED = [
    ([F0, F0], SEEN, "0 rev 0x000000f0"), ([F0, F4, F0, F4], SEEN, "1 rev 0x000000f4"),
    ([F4, (0xF0, 0, 0)], "sig 0x906ea flags 0 rev 0xb4", "1 rev 0x000000f0"),
    ([F4], "sig 0x906ea flags 0 rev 0xb4", "none"), ([F4], "sig 0x906ea flags 2 rev 0xf4", "none"),
    ([F4], "sig 0x906ea flags 2 rev 0xf3", "0 rev 0x000000f4"), ([F4, HIGHEST], SEEN, "1 rev 0x800000f0"),
    ([F4, HIGHEST], "sig 0x906ea flags 2 rev 0x80000000", "1 rev 0x800000f0"),
    ([F4, HIGHEST], "sig 0x906ea flags 2 rev 0x800000f0", "none"), ([F4], "sig 0x906eb flags 2 rev 0xb4", "none"),
    ([(0xF0, 2, 0xB4)], "sig 0x906ea flags 2 rev 0xb3", "0 rev 0x000000f0"),
    ([(0xF0, 2, 0xB4)], SEEN, "0 rev 0x000000f0 safe"), ([(0xF0, 2, 0xB5)], SEEN, "0 rev 0x000000f0"),
    ([(0xF0, 2, 0xB5)], "sig 0x906ea flags 2 rev 0xb5", "0 rev 0x000000f0 safe"),
    ([(0x800000F0, 2, 0xB5)], "sig 0x906ea flags 2 rev 0x80000000", "0 rev 0x800000f0 safe"),
    ([F4, (0xF0, 2, 0xB4)], SEEN, "0 rev 0x000000f4"),
]
# Processor flags of an update and of a core, and whether the core is offered the update.
FLAGS = [
    (0, 0, True), (0, 1, False), (1, 0, False), (1, 1, True), (1, 2, False), (0xF0, 0x80, True),
    (0x80000000, 0x80000000, True), (0x7FFFFFFF, 0x80000000, False),
]
# Signatures and processor flags of cores, and whether the update with a table is for them.
BY_TABLE = [
    (0x000906EA, 2, True), (0x000906EB, 2, True), (0x000906EC, 0x20, True), (0x000906EC, 2, True), (0x000906EC, 4, False),
    (0x000906EB, 0x20, False), (0x000906ED, 2, False),
]
# A machine, the commands of a script, the status, and the last lines.
SESSIONS = [
    (ONE, "boot\nload a short\n*28\nend\nboot\n", 2, "command 2 load\nanswer bad-file short at 0 short\n"),
    (ONE, "boot a none\n", 4, "command 1 boot\nanswer read-fault none\n"),
    (ONE, "boot h\n", 0, "command 1 boot\nup 0 rev 0x800000f0 wrote\nanswer done\n"),
    (HIGH, "boot\nload h\nend\nsuspend\n", 3, "command 2 load\noffer core 0 entry 0 len 64 rev 0x800000f0 safe\n"
     "cpu 0 unfinished\ncore 0 rev 0x80000000\nanswer unfinished 0\n"),
    (ONE, "boot a\nload later\nend\nsuspend\n", 3, "command 2 load\noffer core 0 entry 0 len 64 rev 0x000000f4 safe\n"
     "cpu 0 unfinished\ncore 0 rev 0x000000f0\nanswer unfinished 0\n"),
    (PACKAGES, "refuse 1\nboot a\n", 0, "command 1 refuse 1\nanswer done\ncommand 2 boot\nup 0 rev 0x000000b4 refused\n"
     "up 1 rev 0x000000b4\nup 2 rev 0x000000f0 wrote\nanswer done\n"),
    (PAIR, "boot\nload a\ns0 s1 s0 s1 s1 s0 s0 s0 t1\nend\n", 6,
     "0 begin 0\n1 halt\ncpu 0 unfinished\ncpu 1 halted\ncore 0 rev 0x000000b4\nanswer panicked 1\n"),
    (PAIR, "boot\noffline 1\nload a\ns0 s0 t0 s1 s0 r0 n1 t1 r1 s1 t1 t1 s1\nend\n", 3,
     "1 latched\n1 arrive\n1 inner\n1 leave offline\n1 ordinary\n1 idle\n1 idle\n"
     "cpu 0 unfinished\ncpu 1 offline\ncore 0 rev 0x000000b4\nanswer unfinished 0\n"),
    (THREE, "boot\noffline 1\noffline 2\nload a\ns0 s0 s0 t0 s0 s0 s0\nend\n", 3,
     "0 enter\n0 kick 1\n0 kick 2\n0 drop-kick\n0 withdraw 1\n0 withdraw 2\n0 leave timeout\n"
     "cpu 0 timeout\ncpu 1 withdrawn\ncpu 2 withdrawn\ncore 0 rev 0x000000b4\nanswer offline-silent 2\n"),
    (CORES, "boot\nrefuse 0\nload a\n*80\nend\n", 3,
     "core 0 rev 0x000000b4\ncore 1 rev 0x000000f0\ncore 2 rev 0x000000f0\nanswer incomplete 0\n"),
    (CORES, "boot\nrefuse 0\nrefuse 1\nload a\n*80\nend\nsuspend\nresume\n", 3,
     "up 0 rev 0x000000b4\nup 1 rev 0x000000b4\nup 2 rev 0x000000f0 wrote\nanswer done\n"),
    (ONE, "boot\nload a\n*40\nend\nload b\n*40\nend\nsuspend\nresume\n", 0, "up 0 rev 0x000000f4 wrote\nanswer done\n"),
    (CORES, "boot\nload a\ns0 s2 s0 s2 t2 *60\nend\n", 3, "answer timed-out 2\n"),
    (ONE, "boot\nload h\n*28\nend\n", 0, "cpu 0 updated\ncore 0 rev 0x800000f0\nanswer done\n"),
    (ONE, "boot\nload a\ns0 s0 s0 s0 s0 s0 s0 s0 s0 s0 n0 *3\nend\n", 0,
     "0 report 0 updated\n0 leave updated\ncpu 0 updated\ncore 0 rev 0x000000f0\nanswer done\n"),
    (CORES, "boot a\noffline 1\nsuspend\nresume\nonline 1\n", 0,
     "command 4 resume\nup 0 rev 0x000000f0 wrote\nup 2 rev 0x000000f0 wrote\nanswer done\n"
     "command 5 online 1\nup 1 rev 0x000000f0 wrote\nanswer done\n"),
    (ONE, "pool 1\nboot d\n", 3, "command 1 boot\nanswer pool-full 2\n"),
    (ONE, "pool 2\nboot d\n", 0, "up 0 rev 0x000000f0 wrote\nanswer done\n"),
    (CORES, "pool 1\nboot a\n", 0, "up 2 rev 0x000000f0 wrote\nanswer done\n"),
    (cores(FITS + " rev 0xb4", "sig 0x906eb flags 0x2 rev 0xb4"), "pool 1\nboot b x\nboot x\n", 3,
     "command 2 boot\nup 0 rev 0x000000f0 wrote\nup 1 rev 0x000000f0 wrote\nanswer done\n"),
    (alike(2, 2), "boot\noffline 2\nsuspend\nresume\nload a\n*80\nend\n", 3,
     "up 3 rev 0x000000b4\nanswer done\ncommand 5 load\nanswer busy 2\n"),
    (ONE, "boot\nload-force a\nend\n", 3, "command 2 load-force\nanswer not-found\n"),
    (ONE, "boot\nload-force n\nend\n", 3, "command 2 load-force\nanswer not-found\n"),
    (ONE, "boot\nload n\nend\n", 3, "command 2 load\noffer core 0 entry 0 len 64 rev 0x000000f0\n"
     "cpu 0 unfinished\ncore 0 rev 0x000000b4\nanswer unfinished 0\n"),
    (ONE, "boot\nload-force m\nend\n", 3, "command 2 load-force\noffer core 0 entry 0 len 64 rev 0x000000f0 safe\n"
     "cpu 0 unfinished\ncore 0 rev 0x000000b4\nanswer unfinished 0\n"),
    (ONE, "boot\nload-force bm\nend\n", 3, "command 2 load-force\noffer core 0 entry 1 len 64 rev 0x000000f0 safe\n"
     "cpu 0 unfinished\ncore 0 rev 0x000000b4\nanswer unfinished 0\n"),
    (ONE, "boot\nload bm\nend\n", 3, "command 2 load\noffer core 0 entry 0 len 64 rev 0x000000f4\n"
     "cpu 0 unfinished\ncore 0 rev 0x000000b4\nanswer unfinished 0\n"),
    (MIXED, "boot\noffline 1\nload a\nend\nonline 1\noffline 2\nload a\nend\nonline 2\noffline 3\nload a\nend\n", 3,
     "up 3 rev 0xffffffff\nanswer done\ncommand 2 offline 1\nanswer done\ncommand 3 load\nanswer busy 1\n"
     "command 4 online 1\nup 1 rev 0xffffffff\nanswer done\ncommand 5 offline 2\nanswer done\n"
     "command 6 load\nanswer busy 2\ncommand 7 online 2\nup 2 rev 0xffffffff\nanswer done\n"
     "command 8 offline 3\nanswer done\ncommand 9 load\nanswer not-found\n"),
    (ONE, "# a comment\r\n\r\n\tpool 0x1\r\npatience 1\nboot \td\r\n# end\n", 3, "command 1 boot\nanswer pool-full 2\n"),
    (ONE, "boot\nload a\ns0\ts0 \r\n# s9\n\n*26\nend\r", 0, "cpu 0 updated\ncore 0 rev 0x000000f0\nanswer done\n"),
    (ONE, "boot\nload-force -b\nend", 4, "command 2 load-force\nanswer read-fault -b\n"),
    (ONE, 4096 * "accept 00\n", 0, "command 4096 accept 0\nanswer done\n"),
    (alike(2, 128), "boot\noffline 255\n", 0, "up 255 rev 0x000000b4\nanswer done\ncommand 2 offline 255\nanswer done\n"),
    (alike(1, 13), "boot\nload a\ns12\nend\n", 3, "command 2 load\noffer core 0 entry 0 len 64 rev 0x000000f0\n12 enter\n"
     + "".join(f"cpu {t} unfinished\n" for t in range(13)) + "core 0 rev 0x000000b4\nanswer unfinished 0\n"),
    (alike(2, 2), "pool 1\nboot\nload a\n*80\nend\nload b\n*80\nend\n", 3, "command 3 load\nanswer pool-full 1\n"),
    (alike(2, 2), "pool 2\nboot\nload a\n*80\nend\nload b\n*80\nend\nload a\nend\n", 3,
     "core 0 rev 0x000000f4\ncore 1 rev 0x000000f4\nanswer done\ncommand 4 load\nanswer not-found\n"),
    (alike(2), "pool 2\nboot\nrefuse 0\nrefuse 1\nload d\n*80\nend\naccept 0\nload d\n*80\nend\nload b\n*80\nend\n", 3,
     "core 0 rev 0x000000f0\ncore 1 rev 0x000000b4\nanswer incomplete 1\ncommand 7 load\nanswer pool-full 1\n"),
]
FACTS = "rev 0x000000f0 date 2023-07-11 sig 0x000906ea flags 0x00000002"
PAIRS = "  pair 0x000906eb 0x00000002\n  pair 0x000906ec 0x00000022\n"
# An update of 108 bytes whose table has the pairs (0x906eb, 2) and (0x906ec, 0x22).
WITH_TABLE = struct.pack("<27I", 1, 0xF0, 0x07112023, 0x000906EA, 0xF8E5D783, 1, 2, 16, 108, 0, 0, 0, 0, 0, 0, 0, 2,
                         0x0E224320, 0, 0, 0, 0x000906EB, 2, 0xF8E5D782, 0x000906EC, 0x22, 0xF8E5D761)
# An update of 64 bytes, no two of whose words are alike but the two that have to be 1.
DISTINCT = struct.pack("<16I", 1, 0xB4, 0x07112023, 0x000906EA, 0xF8E5D75A, 1, 0x22, 16, 64, 0x30, 0x15, 0x2C, 0x70000,
                       0xFFF90000, 0, 0)
# Two containers whose tables give one id for two signatures.
TWO = container(0x00A20F10, 0xA210, 0xA210, table=32) + container(0x00A20F12, 0xA210, 0xA210, table=32, rev=0x0A201210)
SAMPLES = {**FILES, "e": b"", "m": update(least=0xB4), "two": update() + update(0xF4), "x": WITH_TABLE, "z": TWO}
# The names behind `list`, and the text.
LISTINGS = [
    ("e", "file 0 e intel 0\n"), ("m", f"file 0 m intel 1\n0 at 0 len 64 {FACTS} min 0x000000b4\n"),
    ("x", f"file 0 x intel 1\n0 at 0 len 108 {FACTS}\n{PAIRS}"),
    ("two", f"file 0 two intel 2\n0 at 0 len 64 {FACTS}\n1 at 64 len 64 {FACTS.replace('f0', 'f4')}\n"),
    ("z", "file 0 z amd 2\n0 at 52 len 64 rev 0x0a20102b id 0x0000a210 family 0x00000019\n  sig 0x00a20f10\n"
     "1 at 168 len 64 rev 0x0a201210 id 0x0000a210 family 0x00000019\n  sig 0x00a20f12\n"),
    ("d z e x", f"file 0 d intel 1\n0 at 0 len 2048 {FACTS}\n"
     "file 1 z amd 2\n1 at 52 len 64 rev 0x0a20102b id 0x0000a210 family 0x00000019\n  sig 0x00a20f10\n"
     "2 at 168 len 64 rev 0x0a201210 id 0x0000a210 family 0x00000019\n  sig 0x00a20f12\n"
     f"file 2 e intel 0\nfile 3 x intel 1\n3 at 0 len 108 {FACTS}\n{PAIRS}"),
    ("x m two", f"file 0 x intel 1\n0 at 0 len 108 {FACTS}\n{PAIRS}file 1 m intel 1\n1 at 0 len 64 {FACTS} min 0x000000b4\n"
     f"file 2 two intel 2\n2 at 0 len 64 {FACTS}\n3 at 64 len 64 {FACTS.replace('f0', 'f4')}\n"),
]
# The words behind `show`, the status, and the text.
SHOWN = [
    ("a 0", 0, f"0 at 0 len 64 {FACTS}\n01000000f000000023201107ea060900afd7e5f8010000000200000010000000\n"
     "4000000000000000000000000000000000000000000000000000000000000000\n"),
    ("x 0", 0, f"0 at 0 len 108 {FACTS}\n01000000f000000023201107ea06090083d7e5f8010000000200000010000000\n"
     "6c00000000000000000000000000000000000000000000000000000000000000\n"
     "020000002043220e000000000000000000000000eb0609000200000082d7e5f8\nec0609002200000061d7e5f8\n"),
    ("z 1", 0, "1 at 168 len 64 rev 0x0a201210 id 0x0000a210 family 0x00000019\n"
     "000000001012200a0000000000000000000000000000000010a2000000000000\n" + 64 * "0" + "\n"),
    ("a 1", 2, "error entry 1\n"), ("a 0x10", 2, "error entry 16\n"),
]
# A machine, the names of update files, and what its cores are offered.
FOUR = ("ucode-topology 2\nvendor intel\ncore 0 package 0 sig 0x906ea flags 0x2 rev 0xb4\n"
        "core 1 package 1 sig 0x906ea flags 0x2 rev 0xb3\ncore 2 package 0 sig 0x906ea flags 0x2 rev 0xb4\n"
        "core 3 package 2 sig 0x906eb flags 0x2 rev 0xb4\n" + "".join(f"cpu {c} core {c}\n" for c in range(4)))
OFFERS = [
    (cores("sig 0xa20f10 flags 0 rev 0xa201000", "sig 0xa20f12 flags 0 rev 0xa201000", vendor=AMD), "z",
     "core 0 rev 0x0a201000 offer 0 rev 0x0a20102b\ncore 1 rev 0x0a201000 offer 1 rev 0x0a201210\n"),
    (PACKAGES, "a", "".join(f"core {c} rev 0x000000b4 offer 0 rev 0x000000f0\n" for c in range(3))),
    (FOUR, "m", "core 0 rev 0x000000b4 offer 0 rev 0x000000f0 safe\ncore 1 rev 0x000000b3 offer 0 rev 0x000000f0\n"
     "core 2 rev 0x000000b4 offer 0 rev 0x000000f0 safe\ncore 3 rev 0x000000b4 offer none\n"),
    (FOUR, "x m two", "core 0 rev 0x000000b4 offer 3 rev 0x000000f4\ncore 1 rev 0x000000b3 offer 3 rev 0x000000f4\n"
     "core 2 rev 0x000000b4 offer 3 rev 0x000000f4\ncore 3 rev 0x000000b4 offer 0 rev 0x000000f0\n"),
]


def lists():
    """The words of the command line, its files, the status, and how the text begins and ends."""
    for sig, number, length, shown, family, serves in LISTED:
        line = f"0 at 36 len {length} rev 0x0a20102b id 0x{shown} family 0x000000{family}\n"
        text = f"file 0 y amd 1\n{line}" + (f"  sig 0x{sig:08x}\n" if serves else "")
        yield ["list", "y"], {"y": container(sig, number, number, length)}, 0, text, text
    text = "file 0 y amd 1\n0 at 65556 len 64 rev 0x0a20102b id 0x0000a210 family 0x00000019\n  sig 0x00a20f10\n"
    yield ["list", "y"], {"y": container(0x00A20F10, 0xA210, 0xA210, table=65536)}, 0, text, text
    line = "11 at 704 len 64 rev 0x000000f0 date 2023-07-11 sig 0x000906ea flags 0x00000002\n"
    yield ["list", "y"], {"y": 12 * update()}, 0, "file 0 y intel 12\n", line
    yield ["list", 255 * "n"], {}, 4, "error read ", f"error read {255 * 'n'}\n"
    for date, day in DATES:
        text = f"file 0 y intel 1\n0 at 0 len 64 rev 0x000000f0 date {day} sig 0x000906ea flags 0x00000002\n"
        yield ["list", "y"], {"y": update(date=date)}, 0, text, text
    text = ("file 0 e intel 0\nfile 1 y intel 1\n0 at 0 len 64 rev 0x000000b4 date 2023-07-11 sig 0x000906ea "
            "flags 0x00000022 min 0x00000015\n")
    for rows, ids, served in ROWS:
        files, told = {"e": b"", "y": DISTINCT, "z": patches(rows, ids)}, text + f"file 2 z amd {len(ids)}\n"
        for place, (number, sigs) in enumerate(zip(ids, served)):
            half = number & 0xFFFF
            told += (f"{place + 1} at {20 + 16 * len(rows) + 72 * place} len 64 rev {0x05000029 + place:#010x} "
                     f"id {half:#010x} family {0x0F + (half >> 12):#010x}\n")
            told += "".join(f"  sig {sig:#010x}\n" for sig in sigs)
        yield ["list", "e", "y", "z"], files, 0, told, told
    for length, count in LENGTHS:
        rows = [(0x00A20F10, 0xA210), (0x00A20F12, 0xA210)]
        text = (f"file 0 y amd 1\n0 at {20 + length} len 64 rev 0x05000029 id 0x0000a210 family 0x00000019\n"
                + "".join(f"  sig {sig:#010x}\n" for sig, _ in rows[:count]))
        yield ["list", "y"], {"y": patches(rows, [0xA210], length)}, 0, text, text
    yield ["list", "y"], {"y": container(0x00500F10, 0x5000, 0)[:28]}, 0, "file 0 y amd 0\n", "file 0 y amd 0\n"
    for names, text in LISTINGS:
        yield ["list", *names.split()], SAMPLES, 0, text, text
    for words, status, text in SHOWN:
        yield ["show", *words.split()], SAMPLES, status, text, text


def selections():
    yield (["select", "t", "a"], {"a": update(), "t": cores(*11 * ["sig 0x906ea flags 0 rev 0xb4"]).encode()}, 0,
           "core 0 rev 0x000000b4 offer none\n", "\ncore 10 rev 0x000000b4 offer none\n")
    text = "core 0 rev 0x80000000 offer 0 rev 0x800000f0 safe\n"
    yield ["select", "t", "h"], {**FILES, "t": HIGH.encode()}, 0, text, text
    text = "core 0 rev 0x000000b4 offer 0 rev 0x000000f0\ncore 1 rev 0x000000b4 offer none\n"
    differ = cores(FITS + " rev 0xb4", "sig 0x906ea flags 0x4 rev 0xb4").encode()
    yield ["select", "t", "a"], {**FILES, "t": differ}, 0, text, text
    for rows, number, sig, serves in SERVED:
        facts = [f"sig {sig:#x} flags 0 rev 1", f"sig {sig:#x} flags 0 rev 0x05000029"]
        for vendor, offer in ((AMD, "0 rev 0x05000029" if serves else "none"), (INTEL, "none")):
            files = {"y": patches(rows, [number]), "t": cores(*facts, vendor=vendor).encode()}
            text = f"core 0 rev 0x00000001 offer {offer}\ncore 1 rev 0x05000029 offer none\n"
            yield ["select", "t", "y"], files, 0, text, text
    for updates, facts, offer in OFFERED:
        files = {"y": b"".join(update(*one) for one in updates), "t": cores(facts).encode()}
        yield ["select", "t", "y"], files, 0, "core 0 rev ", f" offer {offer}\n"
    yield ["select", "t", "b"], {**FILES, "t": cores(SEEN, vendor=AMD).encode()}, 0, "core 0 rev ", " offer none\n"
    for flags, others, serves in FLAGS:
        files = {"y": update(flags=flags), "t": cores(f"sig 0x906ea flags {others} rev 0xb4").encode()}
        offer = "0 rev 0x000000f0" if serves else "none"
        yield ["select", "t", "y"], files, 0, "core 0 rev 0x000000b4 ", f" offer {offer}\n"
    for sig, flags, serves in BY_TABLE:
        offer = "0 rev 0x000000f0" if serves else "none"
        files = {"x": WITH_TABLE, "t": cores(f"sig {sig:#x} flags {flags:#x} rev 0xb4").encode()}
        yield ["select", "t", "x"], files, 0, "core 0 rev 0x000000b4 ", f" offer {offer}\n"
    for rows, ids, served in ROWS:
        sigs = sorted({sig for sig, _ in rows} | {0x00500F14})
        told = "".join(f"core {c} rev 0x00000001 offer " + next(
            (f"{place} rev {0x05000029 + place:#010x}\n" for place, named in enumerate(served) if sig in named), "none\n")
            for c, sig in enumerate(sigs))
        topology = cores(*[f"sig {sig:#x} flags 0 rev 1" for sig in sigs], vendor=AMD).encode()
        yield ["select", "t", "y"], {"y": patches(rows, ids), "t": topology}, 0, told, told
    two = container(0x00A20F10, 0xA210, 0xA210) + container(0x00A20F12, 0xA210, 0xA210)
    topology = cores("sig 0xa20f12 flags 0 rev 1", "sig 0xa20f10 flags 0 rev 1", vendor=AMD).encode()
    text = "core 0 rev 0x00000001 offer 1 rev 0x0a20102b\ncore 1 rev 0x00000001 offer 0 rev 0x0a20102b\n"
    yield ["select", "t", "y"], {"y": two, "t": topology}, 0, text, text
    text = ("core 0 rev 0xffffffff offer none\ncore 1 rev 0xffffffff offer none\n"
            "core 2 rev 0xffffffff offer none\n")
    yield ["select", "t", "y"], {"y": two, "t": MIXED.encode()}, 0, text, text


    for topology, names, text in OFFERS:
        files = {**SAMPLES, "t": topology.encode()}
        yield ["select", "t", *names.split()], files, 0, text, text


def sessions():
    text = "gen 1 lines 12870 last answer done\n"
    yield ["gen", "1"], {}, 0, text, text
    for topology, commands, status, end in SESSIONS:
        files = {**FILES, "x": WITH_TABLE, "later": update(0xF4, least=0xF0)}
        files.update({"t": topology.encode(), "s": (SCRIPT + commands).encode()})
        yield ["play", "t", "s"], files, status, "", end


def fault_of(ending, status, begin, end):
    """What is wrong with how a run ended, or None."""
    found, written = ending
    if found != status:
        return f"ends with status {found} and should with {status}"
    if begin == end and written != end.encode():
        return f"writes {written[:400]!r} and should write {end!r}"
    if not written.startswith(begin.encode()):
        return f"begins with {written[:200]!r} and should with {begin!r}"
    if not written.endswith(end.encode()):
        return f"ends with {written[-400:]!r} and should with {end!r}"
    return None


if __name__ == "__main__":
    run("cases", "Runs a built `ucode` on cases between neighbours, and compares.", (lists, selections, sessions), fault_of)
