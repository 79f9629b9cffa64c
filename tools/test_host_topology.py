#!/usr/bin/env python3
"""Runs host_topology.py over small made trees of hosts. The expected texts are stated by hand."""
import os
import subprocess
import sys
import tempfile
import unittest

TOOL = os.path.join(os.path.dirname(os.path.abspath(__file__)), "host_topology.py")
CPUINFO = """\
processor\t: {cpu}
vendor_id\t: {vendor}
cpu family\t: {family}
model\t\t: {model}
model name\t: a made one: not sold
stepping\t: {stepping}
microcode\t: {microcode}
flags\t\t: fpu {flag}

"""
INTEL = {"vendor": "GenuineIntel", "family": 6, "model": 158, "stepping": 10, "microcode": "0xb4", "flag": "vme"}
AMD = {"vendor": "AuthenticAMD", "family": 25, "model": 33, "stepping": 0, "microcode": "0xa201000", "flag": "vme"}


class Host:
    """A made tree of /proc and /sys in a temporary folder."""

    def __init__(self):
        self.folder = tempfile.TemporaryDirectory()
        self.cpuinfo = ""

    def put(self, path, text):
        path = os.path.join(self.folder.name, path)
        os.makedirs(os.path.dirname(path), exist_ok=True)
        with open(path, "w", encoding="utf-8") as file:
            file.write(text)

    def put_cpu(self, cpu, facts, **files):
        """Files of the processor's folder: two underscores in a name stand for a slash."""
        self.put(f"sys/devices/system/cpu/cpu{cpu}/uevent", "")
        if facts:
            self.cpuinfo += CPUINFO.format(cpu=cpu, **facts)
            self.put("proc/cpuinfo", self.cpuinfo)
        for name, text in files.items():
            self.put(f"sys/devices/system/cpu/cpu{cpu}/" + name.replace("__", "/"), text + "\n")

    def run(self):
        with self.folder:
            done = subprocess.run([sys.executable, TOOL, "--root", self.folder.name], capture_output=True, text=True)
        return done.returncode, done.stdout, done.stderr


class Hosts(unittest.TestCase):
    def test_intel_with_siblings_and_one_offline(self):
        host = Host()
        shown = {"microcode__processor_flags": "0x2", "microcode__version": "0xf0"}
        host.put_cpu(0, INTEL, topology__core_cpus_list="0,2", **shown)
        host.put_cpu(1, None)
        host.put_cpu(2, INTEL, topology__core_cpus_list="0,2", **shown)
        host.put_cpu(10, INTEL, topology__thread_siblings_list="10", microcode__processor_flags="0x20")
        self.assertEqual(host.run(), (0, """\
ucode-topology 1
vendor intel
core 0 sig 0x000906ea flags 0x00000002 rev 0x000000f0
core 1 sig 0x000906ea flags 0x00000020 rev 0x000000b4
cpu 0 core 0
cpu 1 core 0
cpu 2 core 1
""", """\
cpu 1: not in /proc/cpuinfo, as when it is offline; left out
cpu 2,10: has a lower number in the topology, which counts without gaps
"""))

    def test_amd_by_packages_and_core_ids(self):
        host = Host()
        for cpu, (package, core) in enumerate([(0, 0), (0, 0), (0, 1), (1, 0)]):
            host.put_cpu(cpu, AMD, topology__physical_package_id=str(package), topology__core_id=str(core))
        self.assertEqual(host.run(), (0, """\
ucode-topology 1
vendor amd
core 0 sig 0x00a20f10 flags 0x00000000 rev 0x0a201000
core 1 sig 0x00a20f10 flags 0x00000000 rev 0x0a201000
core 2 sig 0x00a20f10 flags 0x00000000 rev 0x0a201000
cpu 0 core 0
cpu 1 core 0
cpu 2 core 1
cpu 3 core 2
""", "cpu 0-3: no list of its core's threads; they are those with its package and core id\n"))

    def test_what_is_not_shown_is_guessed_or_left_out(self):
        host = Host()
        host.put_cpu(0, {**INTEL, "flag": "hypervisor"}, topology__core_cpus_list="0-1")
        newer = {**INTEL, "microcode": "0xf0"}
        host.put_cpu(1, newer, topology__core_cpus_list="0-1", microcode__processor_flags="0x2")
        host.put_cpu(2, {**INTEL, "stepping": "unknown"})
        host.put_cpu(3, {**INTEL, "microcode": "-"}, microcode__processor_flags="2 or so")
        host.put_cpu(4, AMD)
        self.assertEqual(host.run(), (0, """\
ucode-topology 1
vendor intel
core 0 sig 0x000906ea flags 0x00000000 rev 0x000000b4
core 1 sig 0x000906ea flags 0x00000000 rev 0x00000000
cpu 0 core 0
cpu 1 core 0
cpu 2 core 1
""", """\
cpu 0,3: processor flags are not shown; taken as 0x0, which only entries with flags 0x0 fit
cpu 0: a virtual machine; the revision is what its hypervisor shows
cpu 2: family, model or stepping is not shown; left out
cpu 3: has a lower number in the topology, which counts without gaps
cpu 3: its core is not shown; taken as a core of its own
cpu 3: the revision is not shown; taken as 0x0, which every entry but one of revision 0x0 is above
cpu 4: of another vendor than the first; left out
cpu 1: signature, flags or revision are not those of its core's first thread, which are taken
"""))

    def test_at_most_256_threads(self):
        host = Host()
        for cpu in range(258):
            host.put_cpu(cpu, AMD, topology__core_cpus_list=str(cpu))
        status, text, notes = host.run()
        lines = text.splitlines()
        self.assertEqual((status, len(lines), lines[-1]), (0, 2 + 256 + 256, "cpu 255 core 255"))
        self.assertEqual(notes, "cpu 256-257: 256 threads stand before it, which are the most; left out\n")

    def test_other_hosts(self):
        host = Host()
        host.put_cpu(0, {**AMD, "vendor": "HygonGenuine"})
        self.assertEqual(host.run(), (1, "", "vendor HygonGenuine is neither Intel nor AMD\n"))
        self.assertEqual(Host().run(), (1, "", "no vendor in /proc/cpuinfo\n"))

    def test_signatures_of_old_and_new_families(self):
        for facts, sig in [({**INTEL, "family": 5, "model": 4, "stepping": 3}, "0x00000543"),
                           ({**INTEL, "family": 15, "model": 6, "stepping": 5}, "0x00000f65"),
                           ({**INTEL, "family": 6, "model": 207, "stepping": 2}, "0x000c06f2"),
                           ({**INTEL, "family": 19, "model": 1, "stepping": 0}, "0x00400f10"),
                           ({**AMD, "family": 16, "model": 10, "stepping": 0}, "0x00100fa0"),
                           ({**AMD, "family": 23, "model": 49, "stepping": 0}, "0x00830f10")]:
            host = Host()
            host.put_cpu(0, facts, topology__core_cpus_list="0")
            self.assertIn(f"core 0 sig {sig} flags", host.run()[1])


if __name__ == "__main__":
    unittest.main()
