"""Programs of one page over the repository's crates, for the scripts beside this file."""
import os
import shutil
import subprocess
import sys

ROOT = os.path.dirname(os.path.dirname(os.path.abspath(__file__)))


def crates_below(used):
    """Returns, by name, what crates.txt says the crates stand on: these crates of the repository, and those below them."""
    with open(os.path.join(ROOT, "crates.txt")) as file:
        rows = [line.partition("#")[0].partition(":") for line in file]
    listed = {name.strip(): below.split() for name, colon, below in rows if colon}
    found, todo = {}, used.split()
    while todo:
        name = todo.pop()
        if name in listed and name not in found:
            found[name] = listed[name]
            todo += listed[name]
    return found


def build(name, program, used, *words):
    """Builds a program in the current folder, over copies of the crates that it uses, and returns its path.

    What checks kept in the `out` of those crates is taken over; without it they are proved from nothing. The program is
    run once, with the words, as that is how it is built.
    """
    crates = crates_below(used)
    for crate in crates:
        shutil.copytree(os.path.join(ROOT, "crates", crate), os.path.join("crates", crate))
    shutil.copy(os.path.join(ROOT, "HANDLES"), "HANDLES")
    os.makedirs(f"crates/{name}/src")
    with open(f"crates/{name}/src/main.rt", "w") as file:
        file.write(program.lstrip())
    with open("crates.txt", "w") as file:
        file.writelines(f"{crate}: {' '.join(below)}\n" for crate, below in crates.items())
        file.write(f"{name}: {used}\n")
    subprocess.run(["rt", "run", "--", *words], cwd=f"crates/{name}", stdout=sys.stderr, check=True)
    return os.path.abspath(f"crates/{name}/out/{name}")


def run(command):
    """Runs a command to its end, and returns the processor time that it took in seconds, and what it printed."""
    process = subprocess.Popen(command, stdout=subprocess.PIPE)
    printed = process.stdout.read()
    process.stdout.close()
    _, status, usage = os.wait4(process.pid, 0)
    process.returncode = os.waitstatus_to_exitcode(status)
    if process.returncode:
        sys.exit(f"{' '.join(command)}\nended with status {process.returncode}, so nothing is measured.")
    return usage.ru_utime + usage.ru_stime, printed
