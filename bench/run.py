#!/usr/bin/env python3
"""Measures a built `ucode`, and prints one table. README.md beside it says what is measured and how to run it."""
import itertools
import os
import socket
import struct
import subprocess
import sys
import tempfile
import time

SCRIPT = os.path.abspath(__file__)
RUNS = 15
MIB = 2**20
HEADER = struct.Struct("<12I")
UPDATE_ROW, PATCH_ROW = 36, 20  # what a catalogue keeps of an update and of a patch, in bytes
TABLE_ROW = 8 + 12 + 12  # and of a row of an AMD table of a signature of its own: as it came, and in the table's index
FEW = "the rows' size and at most 2 MiB"


def make_file(name, count, total):
    """Writes a file of `count` updates of `total` bytes each, and returns the text that lists it."""
    size = total - HEADER.size
    numbers = range(1, size // 4 + 1)
    data, data_sum = struct.pack(f"<{len(numbers)}I", *numbers), sum(numbers)
    text = [f"file 0 {name} intel {count}\n"]
    with open(name, "wb") as file:
        for k in range(count):
            words = [1, k + 1, 0x07112023, 0x000906EA, 0, 1, 2, size, total, 0, 0, 0]
            words[4] = -(sum(words) + data_sum) % 2**32
            file.write(HEADER.pack(*words) + data)
            text.append(f"{k} at {k * total} len {total} rev 0x{k + 1:08x} "
                        "date 2023-07-11 sig 0x000906ea flags 0x00000002\n")
    return "".join(text).encode()


def make_topology(name, cores, alike=False):
    """Writes a topology of so many cores with a thread each: all alike, or no two of them."""
    with open(name, "w") as file:
        file.write("ucode-topology 1\nvendor intel\n")
        file.writelines(f"core {c} sig 0x906ea flags 0x2 rev {0 if alike else c}\n" for c in range(cores))
        file.writelines(f"cpu {c} core {c}\n" for c in range(cores))


def selection(cores, count):
    """The text of the selection for such a topology from a file of `count` updates."""
    return "".join(f"core {c} rev 0x{c:08x} offer {count - 1} rev 0x{count:08x}\n" for c in range(cores)).encode()


AMD_HEAD, AMD_ROW, AMD_SECTION = struct.Struct("<3I"), struct.Struct("<3I2H"), struct.Struct("<2I")
AMD_PATCH = struct.Struct("<6IH38x")
MANY_PATCHES = MIB // (AMD_SECTION.size + AMD_PATCH.size)


def make_rows(name, rows, patches, id_of_row, id_of_patch):
    """Writes an AMD file of one container: so many rows, no two of one signature, and so many patches of 64 bytes."""
    with open(name, "wb") as file:
        file.write(AMD_HEAD.pack(0x00414D44, 0, AMD_ROW.size * rows))
        file.writelines(AMD_ROW.pack((0xA20F10 + 0x9E3779B1 * i) % 2**32, 0, 0, id_of_row(i), 0) for i in range(rows))
        file.writelines(AMD_SECTION.pack(1, AMD_PATCH.size) + AMD_PATCH.pack(0, i + 1, 0, 0, 0, 0, id_of_patch(i))
                        for i in range(patches))


def make_amd_topology(name, cores):
    """Writes an AMD topology of so many cores with a thread each, no two alike."""
    with open(name, "w") as file:
        file.write("ucode-topology 1\nvendor amd\n")
        file.writelines(f"core {c} sig {0xA20F10 + c:#x} flags 0 rev 0\n" for c in range(cores))
        file.writelines(f"cpu {c} core {c}\n" for c in range(cores))


def hostile(ucode):
    """Returns the rows of the table on AMD files that are made to cost much: ten times the rows, and all else alike."""
    kinds = (
        ("one id for all rows, one patch", 1, lambda i: 0xA210, lambda i: 0xA210),
        (f"65,535 ids in turn, {MANY_PATCHES:,} patches of no row", MANY_PATCHES, lambda i: i % 0xFFFF,
         lambda i: 0xFFFF),
    )
    make_amd_topology("amd256", 256)
    table = []
    for text, patches, id_of_row, id_of_patch in kinds:
        sizes = (10**4, 10**5, 10**6)
        for rows in sizes:
            make_rows(f"rows{rows}", rows, patches, id_of_row, id_of_patch)
        for words in (["list"], ["select", "amd256"]):
            commands = [[ucode, *words, f"rows{rows}"] for rows in sizes]
            ratios = " and ".join(f"{work_ratio(more, less, 5):.1f}" for less, more in zip(commands, commands[1:]))
            table.append((f"`{words[0]}`, {text}: work for 10^5 rows to 10^4, and for 10^6 to 10^5", ratios,
                          "about 12 each"))
            table.append((f"`{words[0]}`, {text}: peak memory for 10^6 rows",
                          peak_above_rows(commands[-1], 10**6 * TABLE_ROW + patches * PATCH_ROW), FEW))
    return table


def start(command, stdout):
    return os.posix_spawn(command[0], command, os.environ, file_actions=[(os.POSIX_SPAWN_DUP2, stdout, 1)])


def writes_of(command):
    """Returns what each write of a command took: on this kind of socket a write is a packet of its own."""
    ours, theirs = socket.socketpair(socket.AF_UNIX, socket.SOCK_SEQPACKET)
    child = start(command, theirs.fileno())
    theirs.close()
    pieces = list(iter(lambda: ours.recv(MIB), b""))
    os.waitpid(child, 0)
    return pieces


def expect(command, printed, wanted):
    """Ends the script where a command printed another text than is wanted."""
    lines = itertools.zip_longest(printed.split(b"\n"), wanted.split(b"\n"), fillvalue=b"(the end)")
    for number, (line, want) in enumerate(lines, 1):
        if line != want:
            sys.exit(f"{' '.join(command)}\nline {number} is   {line.decode(errors='replace')}\n"
                     f"and should be  {want.decode()}\nso nothing is measured.")


def run(command):
    """Runs a command to its end, and returns its time and its processor time in seconds."""
    with open(os.devnull, "wb") as nowhere:
        begin = time.perf_counter()
        _, status, usage = os.wait4(start(command, nowhere.fileno()), 0)
        taken = time.perf_counter() - begin
    if status != 0:
        sys.exit(f"{' '.join(command)}\nended with status {os.waitstatus_to_exitcode(status)}, so nothing is measured.")
    return taken, usage.ru_utime + usage.ru_stime


def peak_above(command, size):
    """Returns by how many MiB the peak resident memory of a command passes a size."""
    looks = subprocess.run([compiled("peak"), *command], stdout=subprocess.PIPE)
    if looks.returncode != 0:
        sys.exit(f"{' '.join(command)}\ndid not end with status 0, so nothing is measured.")
    return (int(looks.stdout) - size) / MIB


def peak_above_rows(command, size):
    """Returns the same as a row's measured text, where the size is that of all rows that the catalogue has to keep."""
    return f"the rows' {size / MIB:.1f} MiB and {peak_above(command, size):.1f} MiB"


def time_ratio(command, to, runs=RUNS):
    """Returns how many times as long as `to` a command takes, by the least times of runs that alternate."""
    times = [(run(command)[0], run(to)[0]) for _ in range(runs)]
    return min(a for a, b in times) / min(b for a, b in times)


def work_ratio(command, to, runs=RUNS):
    """The same of the processor time, which counts no wait for others."""
    works = [(run(command)[1], run(to)[1]) for _ in range(runs)]
    return min(a for a, b in works) / min(b for a, b in works)


def compiled(name):
    """Compiles a C program that lies beside this script into the current folder, and returns its path."""
    source = os.path.join(os.path.dirname(SCRIPT), name + ".c")
    subprocess.run(["gcc", "-O2", "-o", name, source], check=True)
    return os.path.abspath(name)


def measure(ucode):
    """Returns the rows of the table. It works in the current folder."""
    reader, pieces = [compiled("read_and_sum"), "large.bin"], compiled("read_in_pieces")
    summed, listed = [pieces, "sum", "large.bin"], [pieces, "list", "whole.bin"]
    large, whole, half = ([ucode, "list", name] for name in ("large.bin", "whole.bin", "half.bin"))

    text = make_file("large.bin", 4096, 16384)
    expect(large, b"".join(writes_of(large)), text)
    expect(reader, b"".join(writes_of(reader)), b"0x00000000\n")
    expect(summed, b"".join(writes_of(summed)), b"0x00000000\n")
    to_reader, to_summed = time_ratio(large, reader), time_ratio(large, summed)
    large_peak = peak_above_rows(large, 4096 * UPDATE_ROW)

    text = make_file("whole.bin", 65536, 64)
    writes = writes_of(whole)
    expect(whole, b"".join(writes), text)
    expect(listed, b"".join(writes_of(listed)), text)
    to_listed = time_ratio(whole, listed)
    half_text = make_file("half.bin", 32768, 64)
    expect(half, b"".join(writes_of(half)), half_text)
    to_half = time_ratio(whole, half)

    for cores in (128, 256):
        make_topology(f"t{cores}", cores)
    select, half_cores, half_entries = ([ucode, "select", *names] for names in (
        ("t256", "whole.bin"), ("t128", "whole.bin"), ("t256", "half.bin")))
    for command, wanted in ((select, selection(256, 65536)), (half_cores, selection(128, 65536)),
                            (half_entries, selection(256, 32768))):
        expect(command, b"".join(writes_of(command)), wanted)
    for cores in (1, 256):
        make_topology(f"alike{cores}", cores, alike=True)
    alike, one = ([ucode, "select", name, "whole.bin"] for name in ("alike256", "alike1"))
    expect(one, b"".join(writes_of(one)), selection(1, 65536))
    sixteen, eight = ([ucode, "list"] + ["whole.bin"] * n for n in (16, 8))
    of_rows = 65536 * UPDATE_ROW

    return [
        ("64 MiB in 4,096 updates: time, to the plain reader's", f"{to_reader:.2f}", "at most 1.3"),
        ("64 MiB in 4,096 updates: time, to the reader in pieces", f"{to_summed:.2f}", "at most 1.2"),
        ("64 MiB in 4,096 updates: peak memory", large_peak, FEW),
        ("4 MiB in 65,536 updates: writes, to blocks of 64 KiB", f"{len(writes):,} to {-(-len(text) // 65536):,}",
         "one for each"),
        ("4 MiB in 65,536 updates: time, to the reader in pieces that lists", f"{to_listed:.2f}", "at most 1.5"),
        ("4 MiB in 65,536 updates: time, to that of 32,768", f"{to_half:.2f}", "about 2"),
        ("16 such files: time, to that of 8", f"{time_ratio(sixteen, eight, 5):.2f}", "about 2"),
        ("4 MiB in 65,536 updates: peak memory", peak_above_rows(whole, of_rows), FEW),
        ("16 such files: peak memory", peak_above_rows(sixteen, 16 * of_rows), FEW),
        ("`select` for 256 cores from 65,536 updates: time, to that for 128", f"{time_ratio(select, half_cores, 5):.2f}",
         "about 2"),
        ("`select` for 256 cores from 65,536 updates: time, to that from 32,768",
         f"{time_ratio(select, half_entries, 5):.2f}", "about 2"),
        ("`select` for 256 cores that are alike: time, to that for one core", f"{time_ratio(alike, one, 5):.2f}", "about 1"),
        ("`select` for 256 cores from 65,536 updates: peak memory", peak_above_rows(select, of_rows), FEW),
    ]


def main():
    if len(sys.argv) != 2 or not os.access(sys.argv[1], os.X_OK):
        sys.exit("usage: run.py PATH, the path of the built ucode")
    ucode = os.path.abspath(sys.argv[1])
    with tempfile.TemporaryDirectory() as folder:
        os.chdir(folder)
        rows = measure(ucode) + hostile(ucode)
        os.chdir("/")
    print(f"| `ucode list` and `select`, on {os.cpu_count()} cores | Measured | Target |\n|---|---|---|")
    for row in rows:
        print(f"| {' | '.join(row)} |")


if __name__ == "__main__":
    main()
