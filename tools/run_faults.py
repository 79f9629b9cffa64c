#!/usr/bin/env python3
"""Runs a built `ucode` on files that fail each check, at each bound and one past it, and compares what it says.

    tools/run_faults.py PATH

Each case is a sound input with a few words or bytes changed. Where two checks fail the first in the order of
docs/FORMATS.md is named. Standard output and the status are compared. The status is 0 where all is as it should be, 1
where something is not, 2 for faulty words.
"""
import argparse
import os
import struct
import subprocess
import sys
import tempfile

# An Intel update of 108 bytes: the header's twelve words, four of data, and a table of two entries.
UPDATE = [1, 0xF0, 0x07112023, 0x000906EA, 0xF8E5D783, 1, 2, 16, 108, 0, 0, 0, 0, 0, 0, 0,
          2, 0x0E224320, 0, 0, 0, 0x000906EB, 2, 0xF8E5D782, 0x000906EC, 0x22, 0xF8E5D761]
# Words that are changed, by their places, the length of the file, and where and why it is refused, if it is.
UPDATES = [
    ({}, 0, None), ({7: 1}, 47, "0 short"), ({}, 48, "0 truncated"), ({}, 107, "0 truncated"), ({}, 108, None),
    ({}, 109, "108 short"), ({}, 156, "108 version"),
    ({7: 18}, 108, "0 size-unaligned"), ({7: 5, 8: 44}, 108, "0 size-unaligned"), ({8: 106}, 108, "0 size-unaligned"),
    ({8: 0}, 108, "0 total-small"), ({7: 4, 8: 44}, 108, "0 total-small"), ({7: 4, 8: 48}, 108, "0 data-past-total"),
    ({0: 2, 7: 64}, 108, "0 data-past-total"), ({4: 0xF8E5D757, 7: 60}, 108, None),
    ({0: 0}, 108, "0 version"), ({0: 2}, 48, "0 version"), ({5: 0}, 108, "0 version"), ({5: 2}, 107, "0 version"),
    ({0: 0x10001}, 108, "0 version"), ({5: 0x101}, 108, "0 version"), ({16: 3}, 107, "0 truncated"),
    ({16: 0x80000002}, 108, "0 ext-count"),
    ({4: 0xF8E5D7FF, 7: 0, 8: 0}, 2048, None), ({4: 0xF8E5D793, 7: 0}, 2048, None), ({7: 0}, 2047, "0 truncated"),
    ({8: 80}, 79, "0 truncated"), ({8: 68}, 68, "0 ext-cut"), ({8: 80}, 80, "0 ext-cut"),
    ({4: 0xF8E5D79B, 8: 84, 16: 0, 17: 0}, 84, None), ({8: 84, 16: 1}, 84, "0 ext-count"),
    ({8: 92, 16: 0x15555556}, 92, "0 ext-count"), ({16: 1}, 108, "0 ext-count"), ({16: 3}, 108, "0 ext-count"),
    ({16: 0x40000002}, 108, "0 ext-count"), ({18: 1}, 108, "0 ext-sum"), ({26: 0xF8E5D762}, 108, "0 ext-sum"),
    ({17: 0x0E22431F, 26: 0xF8E5D762, 1: 0xF1}, 108, "0 entry-sum 1"),
    ({17: 0x0E22431E, 23: 0xF8E5D783, 26: 0xF8E5D762}, 108, "0 entry-sum 0"),
    ({1: 0xF1}, 108, "0 sum"), ({12: 1}, 108, "0 sum"), ({15: 0x80000000}, 108, "0 sum"),
    # sizes at their bounds, and two neighbouring checks that both fail
    ({4: 0xF8E5D7AF, 8: 64}, 64, None), ({8: 60}, 108, "0 data-past-total"), ({7: 20, 8: 64}, 108, "0 data-past-total"),
    ({4: 0xF8E5D7C7, 7: 4, 8: 52}, 52, None), ({7: 4, 8: 0}, 108, "0 total-small"),
    ({4: 0xF8E5D7FC, 7: 0, 8: 3}, 2048, None), ({0: 2, 7: 0, 8: 0}, 48, "0 version"),
    ({7: 2000, 8: 2052}, 2051, "0 truncated"), ({7: 2000, 8: 2052}, 2052, "0 ext-cut"),
    ({7: 1}, 108, "0 size-unaligned"), ({7: 2}, 108, "0 size-unaligned"), ({7: 3}, 108, "0 size-unaligned"),
    ({8: 109}, 109, "0 size-unaligned"), ({8: 110}, 110, "0 size-unaligned"), ({8: 111}, 111, "0 size-unaligned"),
    ({7: 0xFFFFFFCC, 8: 0xFFFFFFFC}, 108, "0 truncated"), ({7: 0xFFFFFFD0, 8: 0xFFFFFFFC}, 108, "0 data-past-total"),
    ({7: 4, 8: 43}, 108, "0 size-unaligned"), ({0: 2, 7: 8, 8: 44}, 108, "0 total-small"),
    ({0: 2, 5: 2, 7: 8, 8: 52}, 108, "0 data-past-total"), ({0: 2, 5: 2, 7: 1, 8: 0}, 47, "0 short"),
    ({}, 155, "108 short"),
    # tables of no entry, of one, and with words that count in the sum alone
    ({8: 84, 16: 0, 17: 1}, 84, "0 ext-sum"), ({4: 0xF8E5D79B, 8: 84, 16: 0, 17: 0xFFFFFFFF, 18: 1}, 84, None),
    ({8: 84, 16: 0xFFFFFFFF, 17: 1}, 84, "0 ext-count"), ({8: 88, 16: 0}, 88, "0 ext-count"),
    ({8: 96, 16: 0}, 96, "0 ext-count"), ({8: 96, 16: 2}, 96, "0 ext-count"),
    ({4: 0xF8E5D78F, 8: 96, 16: 1, 17: 0x07112184, 23: 0xF8E5D78E}, 96, None),
    ({8: 96, 16: 1, 17: 0x07112191}, 96, "0 ext-sum"),
    ({8: 96, 16: 1, 17: 0x0711218F, 22: 3}, 96, "0 entry-sum 0"),
    ({20: 5, 17: 0x0E22431B}, 108, None), ({22: 3, 23: 0xF8E5D781}, 108, None),
    ({17: 0x8E224320, 22: 0x80000002}, 108, "0 entry-sum 0"),
    ({8: 96}, 96, "0 ext-count"),
    ({4: 0xF8E5D7FE, 7: 0, 8: 0}, 2048, "0 sum"), ({4: 0xF8E5D7FF, 7: 0, 8: 0}, 2052, "2048 short"),
    ({17: 0x0E224321}, 108, "0 ext-sum"), ({0: 0x00414D44, 7: 0, 8: 0}, 2048, "0 equiv-type"),
]
# A container of 116 bytes: its head, a row and a row of zeros, a section's head, and a patch of 64 bytes.
MAGIC = 0x00414D44
CONTAINER = [MAGIC, 0, 32, 0x00A20F10, 0, 0, 0xA210, 0, 0, 0, 0, 1, 64,
             0, 0x0A20102B, 0, 0, 0, 0, 0xA210, 0, 0, 0, 0, 0, 0, 0, 0, 0]
CONTAINERS = [
    ({}, 3, "0 short"), ({}, 4, "0 equiv-short"), ({1: 1}, 11, "0 equiv-short"),
    ({1: 1, 2: 15}, 12, "0 equiv-type"), ({1: 0x80000000}, 116, "0 equiv-type"),
    ({2: 15}, 12, "0 table-small"), ({2: 0}, 116, "0 table-small"), ({2: 16}, 27, "0 table-cut"), ({2: 16}, 28, None),
    ({2: 17}, 28, "0 table-cut"), ({2: 104}, 116, None), ({2: 105}, 116, "0 table-cut"),
    ({2: 0xFFFFFFFF}, 116, "0 table-cut"), ({}, 44, None), ({11: 2}, 51, "44 section-short"),
    ({11: 2, 12: 63}, 52, "44 section-type"), ({11: 0}, 116, "44 section-type"),
    ({11: 0x10001}, 116, "44 section-type"),
    ({12: 63}, 52, "44 patch-small"), ({12: 0}, 116, "44 patch-small"), ({17: 1}, 115, "44 patch-cut"),
    ({}, 116, None), ({12: 65}, 116, "44 patch-cut"), ({12: 65}, 117, None), ({12: 0xFFFFFFFF}, 116, "44 patch-cut"),
    ({12: 2048, 19: 0x1022}, 2100, None), ({12: 2049, 19: 0x1022, 17: 1}, 2101, "44 family-size"),
    ({12: 2048, 19: 0x2022}, 2100, None), ({12: 2049, 19: 0x2022}, 2101, "44 family-size"),
    ({12: 2048, 19: 0x3022}, 2100, None), ({12: 2049, 19: 0x3022}, 2101, "44 family-size"),
    ({12: 1824, 19: 0x5022}, 1876, None), ({12: 1825, 19: 0x5022}, 1877, "44 family-size"),
    ({12: 1825, 19: 0x5022}, 1876, "44 patch-cut"),
    ({12: 2049, 19: 0x0F48}, 2101, None), ({12: 2049, 19: 0x4022}, 2101, None), ({12: 2049, 19: 0x6022}, 2101, None),
    ({12: 9000, 19: 0x0F48}, 9052, None), ({12: 9000, 19: 0x6022}, 9052, None), ({12: 9000, 19: 0x7022}, 9052, None),
    ({12: 9000, 19: 0x8022}, 9052, None), ({12: 9000, 19: 0xA022}, 9052, None),
    ({17: 1}, 116, "44 chipset"), ({18: 1}, 116, "44 chipset"), ({17: 0x80000000}, 116, "44 chipset"),
    ({16: 1, 20: 1}, 116, None), ({}, 117, "116 section-short"), ({}, 124, "116 section-type"),
    ({11: MAGIC}, 47, "44 section-short"), ({11: MAGIC}, 48, "44 equiv-short"),
    ({11: 2}, 116, "44 section-type"),
    ({11: MAGIC, 12: 1}, 56, "44 equiv-type"), ({11: MAGIC, 12: 0, 13: 15}, 56, "44 table-small"),
    ({11: MAGIC, 12: 0, 13: 16}, 72, None), ({1: 0x100}, 116, "0 equiv-type"), ({2: 16}, 12, "0 table-cut"),
    ({2: 17}, 29, None), ({11: 0x101}, 116, "44 section-type"), ({18: 0x80000000}, 116, "44 chipset"),
    ({12: 1824, 17: 1, 19: 0x5000}, 1876, "44 chipset"), ({12: 1825, 17: 1, 19: 0x5000}, 1877, "44 family-size"),
]
# Ids of patches with the halves of words behind them, lengths of their patches, and whether these pass a bound.
BOUNDED = [
    (0x0000, 2049, False), (0x0FFF, 2049, False), (0x1000, 2048, False), (0x1000, 2049, True), (0x1FFF, 2049, True),
    (0x2031, 2048, False), (0x2031, 2049, True), (0x3010, 2048, False), (0x3010, 2049, True), (0x3FFF, 2049, True),
    (0x4000, 2049, False), (0x5020, 1824, False), (0x5020, 1825, True), (0x5FFF, 2048, True), (0x6012, 2049, False),
    (0x7310, 3458, False), (0x8012, 3200, False), (0xA201, 5568, False), (0xFFFF, 2049, False),
    (0xFFFF0FFF, 2049, False),
]
# What begins a file of four bytes or fewer, and why it is refused.
FRONTS = [
    (b"DMA", "0 short"), (b"DMA\0", "0 equiv-short"), (b"DMB\0", "0 short"), (b"DMA\1", "0 short"), (b"\0AMD", "0 short"),
]
# Words of a 65,537th section, its length, and why it is refused: by a check of its own before the last.
BEHIND_ALL = [
    ({6: 1}, 72, "chipset"), ({1: 1825, 8: 0x5000}, 1833, "family-size"), ({1: 63}, 72, "patch-small"),
    ({}, 72, "too-many"),
]
HEAD = "ucode-topology 1\nvendor intel\n"
HEAD_2 = "ucode-topology 2\nvendor intel\n"
PACKAGES = HEAD_2 + "core 0 package 0 sig 1 flags 2 rev 3\n"
CORE = "core 0 sig 0x906ea flags 0x2 rev 0xb4\n"
CPU = "cpu 0 core 0\n"
# Topologies, and at which line and why they are refused, if they are.
TOPOLOGIES = [
    ("", "0 head"), ("# a comment\n", "0 head"), ("ucode-topology 01\n", "1 head"), ("ucode-topology 3\n", "1 head"),
    ("ucode-topology 1\n", "0 word"), ("ucode-topology 1\nvendor via\n", "2 word"),
    (HEAD + "core 0 sig 1 rev 3\n", "3 word"),
    (HEAD + "core x sig y flags 0 rev\n", "3 word"), (HEAD + "core 1 sig 0x100000000 flags 0 rev 0\n", "3 number"),
    (HEAD + CORE + "cpu 65536 core 0\n", "4 number"), (HEAD + CORE + "cpu 65535 core 0\n", "4 order"),
    (HEAD + CORE + "cpu 1 core 9\n", "4 order"), (HEAD + CORE + "cpu 0 core 1\n", "4 no-core"),
    (HEAD + "core 65535 sig 1 flags 0 rev 0\n", "3 order"), (HEAD + "core 65536 sig 1 flags 0 rev 0\n", "3 number"),
    (HEAD + CORE, "0 empty-core"), (HEAD, "0 empty-core"),
    (HEAD + CORE + "core 1 sig 1 flags 2 rev 3\n" + CPU, "0 empty-core"),
    (HEAD + " # no comment\n" + CORE + CPU, "3 word"),
    (HEAD + "\n# a comment\n" + CORE + "\t cpu  0 core 0\r\n", None),
    (PACKAGES + "core 1 package 2 sig 9 flags 9 rev 9\n", "4 order"),
    (PACKAGES + "core 1 package 0 sig 9 flags 2 rev 3\n", "4 disagree"),
    (PACKAGES + "core 1 package 0 sig 1 flags 9 rev 3\n", "4 disagree"),
    (PACKAGES + "core 1 package 0 sig 1 flags 2 rev 9\n", "4 disagree"),
    (PACKAGES + "core 1 package 65536 sig 1 flags 2 rev 3\n", "4 number"),
    (PACKAGES + "core 1 package 65535 sig 1 flags 2 rev 3\n", "4 order"),
    (PACKAGES + "core 1 package 1 sig 4 flags 5 rev 6\ncpu 0 core 0\ncpu 1 core 1\n", None),
    ("\n# ucode-topology 1\n", "0 head"), ("\nucode-topology 01\n", "2 head"), ("ucode-topology 1", "0 word"),
    (HEAD + "vendor intel\n", "3 word"), (HEAD + "core x sig 0 flags 0 rev 0 0\n", "3 word"),
    (HEAD + "core 0 package 0 sig 0 flags 0 rev 0\n", "3 word"), (HEAD_2 + "core 0 sig 0 flags 0 rev 0\n", "3 word"),
    (HEAD + "core 65536 sig 0 flags 0 rev\n", "3 word"), (HEAD + "core 1 sig 0 flags 0 rev 0x100000000\n", "3 number"),
    (HEAD + "core 0 sig 0 flags 4294967296 rev 0\n", "3 number"), (HEAD + "core 0 sig 0 flags 0 rev -1\n", "3 number"),
    (HEAD + "core 0 sig 0xffffffff flags 0xffffffff rev 0xffffffff\n", "0 empty-core"),
    (HEAD + "core 1 sig 0 flags 0 rev 0\n", "3 order"), (HEAD + "cpu 1 core 9\n", "3 order"),
    (HEAD + "cpu 0 core 0\n", "3 no-core"), (HEAD + "cpu 0 core 65536\n", "3 number"),
    (HEAD + CORE + "cpu 0 core 65535\n", "4 no-core"), (HEAD + CORE + "cpu 0 core 65536\n", "4 number"),
    (HEAD + CORE + "core 1 sig 0 flags 0 rev 0\ncpu 0 core 1\n", "0 empty-core"),
    (HEAD_2 + "core 0 package 1 sig 0 flags 0 rev 0\n", "3 order"),
    (HEAD_2 + "core 0 package 65535 sig 0 flags 0 rev 0\n", "3 order"),
    (HEAD_2 + "core 0 package 65536 sig 0 flags 0 rev 0\n", "3 number"),
    (PACKAGES + "core 2 package 0 sig 9 flags 2 rev 3\n", "4 order"),
    (PACKAGES + "core 1 package 1 sig 4 flags 5 rev 6\n", "0 empty-core"),
    # lines and words: one CR at the end of a line is dropped, also of the last, and a second belongs to a word
    (HEAD + "\r\n" + CORE + CPU[:-1] + "\r", None), (HEAD + "\r\n\n" + CORE + CPU[:-1] + "\r\r", "6 number"),
    (HEAD + CORE[:-1] + "\r\r\n" + CPU, "3 number"), (HEAD + CORE + "cpu 0\rcore 0\n", "4 word"),
    (HEAD + CORE + "cpu 0\vcore 0\n", "4 word"),
]
# How a number may be spelled, with its value, or None where it is no number of 64 bits.
SPELLINGS = [
    ("0", 0), ("0049", 49), ("18446744073709551615", 2**64 - 1), ("18446744073709551616", None), ("0x0", 0),
    ("0x906eA", 0x906EA), ("0x0000ffffFFFFffffFFFF", 2**64 - 1), ("0x10000000000000000", None), ("", None),
    ("0x", None), ("0X1", None), ("x1", None), ("12a", None), ("0x1g", None), ("+1", None), ("1 ", None),
]
SCRIPT = "ucode-script 1\n"
# Scripts for one core with one thread, and at which line and why they are refused, if they are.
SCRIPTS = [
    ("", "0 head"), ("ucode-script 2\n", "1 head"), (SCRIPT, None), (SCRIPT + "boot x\npool 1\n", "3 word"),
    (SCRIPT + "online 0 x\n", "2 word"), (SCRIPT + "online x\n", "2 number"), (SCRIPT + "online 1\n", "2 range"),
    (SCRIPT + "refuse 1\n", "2 range"), (SCRIPT + "pool 0\n", "2 range"), (SCRIPT + "pool 65537\n", "2 range"),
    (SCRIPT + "pool 65536\n", None), (SCRIPT + "pool 1\n", None), (SCRIPT + "patience 4294967296\n", "2 range"),
    (SCRIPT + "patience 4294967295\n", None), (SCRIPT + "patience 18446744073709551616\n", "2 number"),
    (SCRIPT + "patience 0\n", None),
    (SCRIPT + "load a\ns1\nend\n", "3 range"), (SCRIPT + "load a\ns1 sx\nend\n", "3 number"),
    (SCRIPT + "load a\ns1 sx x\nend\n", "3 word"), (SCRIPT + "load a\n*0\nend\n", "3 range"),
    (SCRIPT + "load a\n*65536\nend\n", "3 range"), (SCRIPT + "load a\n*65535\n", "2 no-end"),
    (SCRIPT + "load a\nsuspend\nend\n", "3 number"), (SCRIPT + "load a\nboot\nend\n", "3 word"),
    (SCRIPT + "boot" + 17 * " x" + "\n", "2 word"), (SCRIPT + "load\n", "2 word"),
    (SCRIPT + "load a\n" + 64 * "*65535\n" + "*64\nend\n", None),
    (SCRIPT + "load a\n" + 64 * "*65535\n" + "*64 s0\nend\n", "67 too-many"),
    (SCRIPT + "load a\n" + 64 * "*65535\n" + "*64\ns0\nend\n", "68 too-many"),
    (SCRIPT + "load a\n" + 64 * "*65535\n" + "*56 *8 s0\nend\n", "67 too-many"),
    (SCRIPT + " # no comment\n", "2 word"), (SCRIPT + "boot" + 16 * " e" + "\n", None),
    (SCRIPT + 4096 * "accept 0\n", None), (SCRIPT + 4097 * "accept 0\n", "4098 too-many"),
    (SCRIPT + 4096 * "accept 0\n" + "accept 1\n", "4098 range"),
    (SCRIPT + 4096 * "accept 0\n" + "load a\n", "4098 too-many"),
    (SCRIPT + "load a\n" + 64 * "*65535\n" + "*65 s1\nend\n", "67 range"),
    (SCRIPT + "boot\nload a\n*28\n", "3 no-end"),
    (SCRIPT + "load a\ns0 *65535\tt000  n0\nend\n", None), (SCRIPT + "load a\nt007\nend\n", "3 range"),
    (SCRIPT + "load a\nn400000010\nend\n", "3 range"), (SCRIPT + "load a\nr4000000000\nend\n", "3 range"),
    (SCRIPT + "load a\nr12a\nend\n", "3 number"), (SCRIPT + "load a\nx9\nend\n", "3 word"),
    (SCRIPT + "load a\nq\nend\n", "3 word"),
    ("\n# ucode-script 1\n", "0 head"), ("\nucode-script 01\n", "2 head"), ("ucode-script 1\r\r\n", "1 head"),
    ("boot\n", "1 head"), ("# each\r\n\r\n\tucode-script 1\r\nboot \t e\r\nload e\n*1\nend\r", None),
    (SCRIPT + "begin", "2 word"), (SCRIPT + "end", "2 word"), (SCRIPT + "s0", "2 word"), (SCRIPT + "online", "2 word"),
    (SCRIPT + "pool 1\npool 1", "3 word"), (SCRIPT + "patience 1\npool 1", "3 word"), (SCRIPT + "boot \udcff", "2 word"),
    (SCRIPT + "pool 18446744073709551616", "2 number"),
    (SCRIPT + "load" + 16 * " e" + "\nend\n", None), (SCRIPT + "load" + 17 * " e" + "\nend\n", "2 word"),
    (SCRIPT + "load a\nload x\nend\n", "3 word"), (SCRIPT + "load a\nend x\nend\n", "3 word"),
    (SCRIPT + "load a\nresume\nend\n", "3 number"), (SCRIPT + "load a\nnonsense\nend\n", "3 number"),
    (SCRIPT + "load a\ns9 s\nend\n", "3 number"), (SCRIPT + "load a\n*0x\nend\n", "3 number"),
    (SCRIPT + "\nload-force a\n# end", "3 no-end"),
    (SCRIPT + "load a\ns0 s00 s0x0 s007\nend\n", "3 range"), (SCRIPT + "load a\ns0\n\nt1\nend\n", "5 range"),
]
# The same for one core with two threads. A round is an event for each of them.
SCRIPTS_FOR_TWO = [
    (SCRIPT + "offline 2\n", "2 range"), (SCRIPT + "offline 0x1\nonline 01\n", None), (SCRIPT + "accept 1\n", "2 range"),
    (SCRIPT + "load a\ns1 t1 n1 r1 s0x1 *109\nend\n", None), (SCRIPT + "load a\ns1\nt2\nend\n", "4 range"),
    (SCRIPT + "load a\n" + 32 * "*65535\n" + "*32\nend\n", None),
    (SCRIPT + "load a\n" + 32 * "*65535\n" + "*33\nend\n", "35 too-many"),
    (SCRIPT + "load a\n" + 32 * "*65535\n" + "*32 s0\nend\n", "35 too-many"),
    (SCRIPT + "load a\n" + 32 * "*65535\n" + "*33 s9\nend\n", "35 range"),
    (SCRIPT + "load a\n" + 32 * "*65535\n" + "*24 *8\nend\n", None),
    (SCRIPT + "load a\n" + 32 * "*65535\n" + "*24 *8 s0\nend\n", "35 too-many"),
    (SCRIPT + "load a\n" + 32 * "*65535\n" + "*32\ns0\nend\n", "36 too-many"),
]
# Command lines, and the index of the first word that cannot stand in its place, or the number of words where one is missing.
WORDS = [
    ("help", 0), ("list -x", 1), ("list -x b", 1), ("list a -b", 2),
    ("show", 1), ("show a", 2), ("show a q", 2), ("show -a 0", 1), ("show a 0 0", 3), ("show a 0 0 0", 3),
    ("select", 1), ("select -t a", 1), ("select t", 2), ("select t a -b c", 3),
    ("play", 1), ("play t", 2), ("play -t s", 1), ("play t -s", 2), ("play t s s", 3),
    ("gen", 1), ("gen x", 1), ("gen 1 1", 2),
]
# Command lines of which more than one word names a faulty file, the status, and which is told: `none` and `missing` are not
# there, `e` is empty, and `short` is an update of 5 bytes.
ORDERS = [
    ("list e none short", 4, "read none"), ("list e short none", 2, "file short at 0 short"), ("show none 0", 4, "read none"),
    ("select missing none", 4, "read missing"), ("select e none", 2, "topology line 0 head"),
    ("select t none short", 4, "read none"), ("play missing none", 4, "read missing"), ("play t none", 4, "read none"),
    ("play e none", 2, "topology line 0 head"), ("play t e", 2, "script line 0 head"),
]


def changed(words, changes, length):
    """The words with some of them changed, cut or with zeros behind them up to a length."""
    words = [changes.get(place, word) for place, word in enumerate(words)]
    return struct.pack(f"<{len(words)}I", *words).ljust(length, b"\0")[:length]


def text_of(name, fault):
    """What is written on a refusal, or None where what is written does not matter."""
    return fault and f"error {name} {fault}\n".encode()


def file_cases():
    """The words of the command line, its files, the status, and the text, or None where any will do."""
    for words, cases in ((UPDATE, UPDATES), (CONTAINER, CONTAINERS)):
        for changes, length, fault in cases:
            yield ["list", "f"], {"f": changed(words, changes, length)}, 2 if fault else 0, text_of("file f at", fault)
    for front, fault in FRONTS:
        yield ["list", "f"], {"f": front}, 2, text_of("file f at", fault)
    for number, length, passes in BOUNDED:
        file = changed(CONTAINER, {12: length, 19: number}, 52 + length)
        yield ["list", "f"], {"f": file}, 2 if passes else 0, text_of("file f at", "44 family-size" if passes else None)
    update = changed(UPDATE, {8: 64, 4: 0xF8E5D7AF}, 64)
    later = changed(UPDATE, {8: 64, 1: 0xF4, 4: 0xF8E5D7AB, 15: 1}, 64)
    yield ["list", "f"], {"f": update + later}, 2, b"error file f at 64 sum\n"
    head, section = changed(CONTAINER, {2: 16}, 28), changed(CONTAINER[11:], {}, 72)
    for one, most, front, place in ((update, 65536, b"", 0), (section, 65536, head, 28)):
        yield ["list", "f"], {"f": front + most * one}, 0, None
        fault = f"{place + most * len(one)} too-many"
        yield ["list", "f"], {"f": front + (most + 1) * one}, 2, text_of("file f at", fault)
    all_sections = head + 65536 * section
    for changes, length, fault in BEHIND_ALL:
        file = all_sections + changed(CONTAINER[11:], changes, length)
        yield ["list", "f"], {"f": file}, 2, text_of("file f at", f"{len(all_sections)} {fault}")
    yield ["list", "f"], {"f": all_sections + head}, 0, None
    fault = f"{len(all_sections) + 28} too-many"
    yield ["list", "f"], {"f": all_sections + head + section}, 2, text_of("file f at", fault)


def front_cases():
    """Each front of an update and of two containers."""
    for length in range(1, 108):
        fault = "0 short" if length < 48 else "0 truncated"
        yield ["list", "f"], {"f": changed(UPDATE, {}, length)}, 2, text_of("file f at", fault)
    two = changed(CONTAINER, {}, 116) + changed(CONTAINER, {3: 0x00A20F12, 14: 0x0A201210}, 116)
    faults = [(4, "0 short"), (12, "0 equiv-short"), (44, "0 table-cut"), (52, "44 section-short"), (116, "44 patch-cut"),
              (120, "116 section-short"), (128, "116 equiv-short"), (160, "116 table-cut"), (168, "160 section-short"),
              (232, "160 patch-cut")]
    one = b"0 at 52 len 64 rev 0x0a20102b id 0x0000a210 family 0x00000019\n  sig 0x00a20f10\n"
    whole = {0: b"file 0 f intel 0\n", 44: b"file 0 f amd 0\n", 116: b"file 0 f amd 1\n" + one, 160: b"file 0 f amd 1\n" + one}
    for length in range(232):
        text = whole.get(length) or text_of("file f at", next(fault for end, fault in faults if length < end))
        yield ["list", "f"], {"f": two[:length]}, 0 if length in whole else 2, text


def word_cases():
    files = {"t": (HEAD + CORE + CPU).encode(), "e": b"", "short": b"short"}
    for words, place in WORDS:
        yield words.split(), files, 1, f"usage {place}\n".encode()
    for words, status, fault in ORDERS:
        yield words.split(), files, status, f"error {fault}\n".encode()
    # The longest word that Linux hands on, and one that is no ASCII.
    for name in (131071 * "n", "l\u00efst"):
        yield ["list", name], files, 4, f"error read {name}\n".encode()


def text_cases():
    files = {"t": (HEAD + CORE + CPU).encode(), "e": b""}
    for text, fault in TOPOLOGIES:
        yield ["select", "t", "e"], {**files, "t": text.encode()}, 2 if fault else 0, text_of("topology line", fault)
    for kind, line in (("core", CORE[6:]), ("cpu", "core 0\n")):
        for count, fault in ((256, None), (257, f"{259 + (kind == 'cpu')} too-many")):
            front = CORE if kind == "cpu" else ""
            lines = "".join(f"{kind} {n} {line.lstrip()}" for n in range(count))
            back = "".join(f"cpu {n} core {n}\n" for n in range(256)) if kind == "core" else ""
            topology = (HEAD + front + lines + back).encode()
            yield ["select", "t", "e"], {**files, "t": topology}, 2 if fault else 0, text_of("topology line", fault)
    front = HEAD + "".join(f"core {n} {CORE[6:].lstrip()}" for n in range(256))
    for number, rev, fault in ((999, 0, "259 too-many"), (256, 4294967296, "259 number")):
        topology = f"{front}core {number} sig 0 flags 0 rev {rev}\n".encode()
        yield ["select", "t", "e"], {**files, "t": topology}, 2, text_of("topology line", fault)
    front = HEAD + CORE + "".join(f"cpu {n} core 0\n" for n in range(256))
    for line, fault in (("999 core 0", "too-many"), ("256 core 9", "too-many"), ("256 core 65536", "number")):
        topology = f"{front}cpu {line}\n".encode()
        yield ["select", "t", "e"], {**files, "t": topology}, 2, text_of("topology line", f"260 {fault}")
    two = {**files, "t": (HEAD + CORE + CPU + "cpu 1 core 0\n").encode()}
    for given, cases in ((files, SCRIPTS), (two, SCRIPTS_FOR_TWO)):
        for text, fault in cases:
            script = text.encode(errors="surrogateescape")
            yield ["play", "t", "s"], {**given, "s": script}, 2 if fault else None, text_of("script line", fault)


def limit_cases():
    topology, script = (HEAD + CORE + CPU).encode(), SCRIPT.encode()
    files = {"t": topology, "e": b""}
    yield ["list", "f"], {"f": bytes(67108864)}, 2, b"error file f at 0 version\n"
    yield ["list", "f"], {"f": bytes(67108865)}, 2, b"error file f at 67108864 too-long\n"
    yield ["select", "t", "e"], {**files, "t": topology.ljust(1048576, b"#")}, 0, None
    yield ["select", "t", "e"], {**files, "t": topology.ljust(1048577, b"#")}, 2, b"error topology line 0 too-long\n"
    yield ["play", "t", "s"], {**files, "s": script.ljust(16777216, b"#")}, 0, b""
    yield ["play", "t", "s"], {**files, "s": script.ljust(16777217, b"#")}, 2, b"error script line 0 too-long\n"
    yield ["list", *16 * ["e"]], files, 0, None
    yield ["list", *17 * ["e"]], files, 1, b"usage 17\n"
    yield ["select", "t", *16 * ["e"]], files, 0, None
    yield ["select", "t", *17 * ["e"]], files, 1, b"usage 18\n"
    for word, value in SPELLINGS:
        text = b"usage 2\n" if value is None else f"error entry {value}\n".encode()
        yield ["show", "e", word], files, 1 if value is None else 2, text
    yield ["gen", "18446744073709551616"], files, 1, b"usage 1\n"


def ended(program, words, files):
    """How a run in a folder with these files ended: its status, and what it wrote."""
    with tempfile.TemporaryDirectory() as folder:
        for name, data in files.items():
            with open(os.path.join(folder, name), "wb") as file:
                file.write(data)
        done = subprocess.run([program, *words], cwd=folder, stdin=subprocess.DEVNULL, stdout=subprocess.PIPE,
                              stderr=subprocess.DEVNULL, timeout=60)
    return done.returncode, done.stdout


def fault_of(ending, status, text):
    """What is wrong with how a run ended, or None."""
    found, written = ending
    if status is not None and found != status:
        return f"ends with status {found} and should with {status}"
    if text is not None and written != text:
        return f"writes {written[:200]!r} and should write {text!r}"
    if text is None and written.startswith(b"error "):
        return f"writes {written[:200]!r} and should refuse nothing"
    return None


def run(name, description, groups, fault_of):
    """Runs the cases of all groups with the program of the command line, tells which are not as they should be, and ends."""
    parser = argparse.ArgumentParser(description=description)
    parser.add_argument("program", metavar="PATH", help="the built program")
    program = os.path.abspath(parser.parse_args().program)
    faults = runs = 0
    for cases in groups:
        for number, (words, files, *wanted) in enumerate(cases()):
            runs += 1
            fault = fault_of(ended(program, words, files), *wanted)
            if fault:
                faults += 1
                print(f"{cases.__name__} {number}, {words}: {fault}", file=sys.stderr)
    print(f"{name}: {runs - faults} of {runs} runs as they should be")
    sys.exit(1 if faults else 0)


if __name__ == "__main__":
    run("faults", "Runs a built `ucode` on files that fail each check, and compares.",
        (file_cases, front_cases, word_cases, text_cases, limit_cases), fault_of)
