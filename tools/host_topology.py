#!/usr/bin/env python3
"""Writes the topology of the Linux host that it runs on, in the grammar that docs/FORMATS.md states (version 1).

    tools/host_topology.py > host.topology
    ucode select host.topology FILE..

Cores and threads come from /sys/devices/system/cpu, signatures from /proc/cpuinfo, and processor flags and revisions
from where the kernel shows them. What had to be left out or guessed is said on standard error, a line for each such
thing. The status is 0 where a topology was written, 1 where the host has no processors of Intel or AMD, 2 for faulty
words.
"""
import argparse
import os
import re
import sys

MOST_THREADS = 256  # and so at most as many cores
VENDORS = {"GenuineIntel": "intel", "AuthenticAMD": "amd"}


class Notes:
    """What was left out or guessed, each with the processors that it was so for, in the order of the first of them."""

    def __init__(self):
        self.cpus = {}

    def add(self, text, cpu):
        self.cpus.setdefault(text, []).append(cpu)

    def lines(self):
        return [f"cpu {ranges(cpus)}: {text}" for text, cpus in self.cpus.items()]


def ranges(cpus):
    """The numbers as Linux writes them: 0-3,8. They ascend."""
    runs = []
    for cpu in cpus:
        if runs and runs[-1][1] == cpu - 1:
            runs[-1][1] = cpu
        else:
            runs.append([cpu, cpu])
    return ",".join(str(low) if low == high else f"{low}-{high}" for low, high in runs)


def read(*path):
    """The text of a file, or None where it is not there or not to be read."""
    try:
        with open(os.path.join(*path), encoding="utf-8", errors="replace") as file:
            return file.read()
    except OSError:
        return None


def number(text):
    """The number of 32 bits that a text spells in decimal or after 0x in hexadecimal, or None."""
    text = (text or "").strip()
    if not re.fullmatch(r"[0-9]+|0x[0-9a-fA-F]+", text):
        return None
    value = int(text, 16) if text.startswith("0x") else int(text)
    return value if value < 2**32 else None


def online(root):
    """What /proc/cpuinfo says of each processor that is online, by its number."""
    found = {}
    for block in (read(root, "proc/cpuinfo") or "").split("\n\n"):
        facts = {key.strip(): value.strip() for key, _, value in (line.partition(":") for line in block.splitlines())}
        cpu = number(facts.get("processor"))
        if cpu is not None:
            found[cpu] = facts
    return dict(sorted(found.items()))


def present(root):
    """The numbers of the processors that have a folder, online or not."""
    try:
        names = os.listdir(os.path.join(root, "sys/devices/system/cpu"))
    except OSError:
        return []
    return sorted(int(name[3:]) for name in names if re.fullmatch(r"cpu[0-9]+", name))


def signature(facts):
    """The signature as CPUID leaf 1 has it in EAX, with processor type 0, or None where its parts are not all there."""
    family, model, stepping = (number(facts.get(key)) for key in ("cpu family", "model", "stepping"))
    if family is None or model is None or stepping is None:
        return None
    if family > 15 + 255 or model > 255 or stepping > 15:
        return None
    base, extended = min(family, 15), max(family - 15, 0)
    return extended << 20 | (model >> 4) << 16 | base << 8 | (model & 15) << 4 | stepping


def core_of(folder, cpu, notes):
    """What tells the core of a processor from all others: the lowest of its threads, or its place in its package."""
    for name in ("core_cpus_list", "thread_siblings_list"):
        numbers = re.findall(r"[0-9]+", read(folder, "topology", name) or "")
        if numbers:
            return int(numbers[0])
    place = tuple(number(read(folder, "topology", name)) for name in ("physical_package_id", "die_id", "core_id"))
    if place[0] is not None and place[2] is not None:
        notes.add("no list of its core's threads; they are those with its package and core id", cpu)
        return place
    notes.add("its core is not shown; taken as a core of its own", cpu)
    return cpu


def flags_of(folder, cpu, vendor, notes):
    """The processor flags, which count for Intel alone."""
    if vendor == "amd":
        return 0
    flags = number(read(folder, "microcode/processor_flags"))
    if flags is None:
        notes.add("processor flags are not shown; taken as 0x0, which only entries with flags 0x0 fit", cpu)
    return flags or 0


def revision_of(folder, cpu, facts, notes):
    """The revision that runs."""
    for text in (read(folder, "microcode/version"), facts.get("microcode")):
        revision = number(text)
        if revision is not None:
            if "hypervisor" in facts.get("flags", "").split():
                notes.add("a virtual machine; the revision is what its hypervisor shows", cpu)
            return revision
    notes.add("the revision is not shown; taken as 0x0, which every entry but one of revision 0x0 is above", cpu)
    return 0


def threads(root, vendor, notes):
    """For each processor that can be stated, ascending: its core's name, and its signature, flags and revision."""
    cpus = online(root)
    for cpu in present(root):
        if cpu not in cpus:
            notes.add("not in /proc/cpuinfo, as when it is offline; left out", cpu)
    stated = []
    for cpu, facts in cpus.items():
        sig = signature(facts)
        if VENDORS.get(facts.get("vendor_id")) != vendor:
            notes.add("of another vendor than the first; left out", cpu)
        elif sig is None:
            notes.add("family, model or stepping is not shown; left out", cpu)
        elif len(stated) == MOST_THREADS:
            notes.add(f"{MOST_THREADS} threads stand before it, which are the most; left out", cpu)
        else:
            if len(stated) != cpu:
                notes.add("has a lower number in the topology, which counts without gaps", cpu)
            folder = os.path.join(root, "sys/devices/system/cpu", f"cpu{cpu}")
            core = core_of(folder, cpu, notes)
            runs = (sig, flags_of(folder, cpu, vendor, notes), revision_of(folder, cpu, facts, notes))
            stated.append((cpu, core, runs))
    return stated


def topology(vendor, stated, notes):
    """The text. Cores are numbered in the order of their lowest threads, and a core is what its lowest thread is."""
    cores, lines = {}, []
    for cpu, core, runs in stated:
        place, first = cores.setdefault(core, (len(cores), runs))
        if runs != first:
            notes.add("signature, flags or revision are not those of its core's first thread, which are taken", cpu)
        lines.append(f"cpu {len(lines)} core {place}")
    heads = [f"core {place} sig 0x{sig:08x} flags 0x{flags:08x} rev 0x{rev:08x}"
             for place, (sig, flags, rev) in cores.values()]
    return "\n".join(["ucode-topology 1", f"vendor {vendor}", *heads, *lines, ""])


def main():
    parser = argparse.ArgumentParser(description="Writes the topology of this Linux host for ucode select.")
    parser.add_argument("--root", metavar="DIR", default="/", help="the folder that holds proc and sys (default: /)")
    root = parser.parse_args().root
    name = next((facts.get("vendor_id") for facts in online(root).values()), None)
    vendor = VENDORS.get(name)
    if vendor is None:
        why = "no vendor in /proc/cpuinfo" if name is None else f"vendor {name} is neither Intel nor AMD"
        print(why, file=sys.stderr)
        return 1
    notes = Notes()
    stated = threads(root, vendor, notes)
    text = topology(vendor, stated, notes)
    for line in notes.lines():
        print(line, file=sys.stderr)
    if not stated:
        return 1
    sys.stdout.write(text)
    return 0


if __name__ == "__main__":
    sys.exit(main())
