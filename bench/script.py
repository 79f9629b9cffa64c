#!/usr/bin/env python3
"""Measures the reader of scripts, and prints one table. README.md beside it says what and how."""
import os
import subprocess
import sys
import tempfile

import page

RUNS = 15
SIZE = 2**24
MOST_COMMANDS = 4_096
MOST_EVENTS = 4_194_304
THREADS = 256
NAME = "script"
HEAD, LOAD, END = b"ucode-script 1\n", b"load a.bin\n", b"end\n"
USED = "uc_bytes uc_io rendezvous_steps script_text uc_script"
PROGRAM = r"""
//! Reads the script whose name is given, for a machine of 256 threads and 128 cores, and prints how many commands it
//! has and how many beats its loads have; or the line of its first fault.
#![tactic(auto)]

use script_text::{Command, Script};
use std::alloc::Global;
use std::env::Env;
use std::process::ExitCode;
use uc_io::{Files, HostFiles, ReadAnswer};
use uc_script::{ScriptAnswer, read_script};

/// The bytes that a script may have.
const LONGEST: u64 = 16_777_216;

fn beats_of(script: &Script) -> u64 {
    let mut beats = 0u64;
    for command in script.commands() {
        if let Command::Load { beats: schedule, .. } = command {
            beats = beats.wrapping_add(schedule.as_slice().len() as u64);
        }
    }
    beats
}

fn read_file(rt: &HostRuntime, name: &[u8]) -> Result<Vec<u8>, ReadAnswer> {
    HostFiles::new(rt).read(rt.alloc(), str::from_utf8(name).unwrap_or(""), LONGEST)
}

fn read_named(rt: &HostRuntime) -> Result<Vec<u8>, ReadAnswer> {
    let mut word = [0; 256];
    match rt.arg(1, &mut word) {
        Ok(len) => read_file(rt, &word[..len]),
        Err(_) => Err(ReadAnswer::Failed),
    }
}

fn outcome(alloc: Global, bytes: &[u8]) -> Option<(usize, u64)> {
    if bytes.len() > 16_777_216 {
        return None;
    }
    match read_script(alloc, bytes, 256, 128) {
        Ok(script) => Some((script.commands().len(), beats_of(&script))),
        Err(ScriptAnswer::Fault(fault)) => Some((fault.line as usize, 0)),
        Err(ScriptAnswer::NoMemory) => None,
    }
}

fn main(rt: HostRuntime) -> ExitCode {
    let Ok(bytes) = read_named(&rt) else {
        return ExitCode::from(4);
    };
    let Some((commands, beats)) = outcome(rt.alloc(), bytes.as_slice()) else {
        return ExitCode::from(7);
    };
    let printed = println!(rt; "{commands} {beats}");
    ExitCode::from(if printed.is_ok() { 0 } else { 5 })
}
"""


def events_of(words):
    """Returns how many events the words of a schedule come to."""
    return sum(int(word[1:]) * THREADS if word[0] == "*" else 1 for word in words)


def write_loads(words):
    """Writes loads that go on with lines of these words, as many as the text may have, and returns what is in them."""
    line, events = (" ".join(words) + "\n").encode(), events_of(words)
    text, length, load, commands, lines = [HEAD, LOAD], len(HEAD + LOAD + END), 0, 1, 0
    while length + len(line) + len(END + LOAD) <= SIZE:
        if load + events > MOST_EVENTS:
            text.append(END + LOAD)
            length, load, commands = length + len(END + LOAD), 0, commands + 1
        text.append(line)
        length, load, lines = length + len(line), load + events, lines + 1
    with open(NAME, "wb") as file:
        file.write(b"".join(text) + END)
    return f"{commands} {lines * len(words)}\n".encode()


def write_commands():
    """Writes as many commands as a script may have among lines that are skipped, and returns what is in them."""
    skipped = b"# \n" * ((SIZE - len(HEAD)) // MOST_COMMANDS // 3 - 4)
    with open(NAME, "wb") as file:
        file.write(HEAD + b"".join(b"offline %d\n" % (k % 256) + skipped for k in range(MOST_COMMANDS)))
    return f"{MOST_COMMANDS} 0\n".encode()


SHAPES = (
    ("words of two bytes, `s1 t2 n3 r4` and so on, 1,000 in a line",
     lambda: write_loads([f"{'stnr'[k % 4]}{k % 10}" for k in range(1_000)])),
    ("the same with `*4` in each five, `s1 t2 n3 *4 r5`", lambda: write_loads("s1 t2 n3 *4 r5".split() * 200)),
    ("words of two bytes, 16 in a line", lambda: write_loads([f"{'stnr'[k % 4]}{k % 10}" for k in range(16)])),
    ("threads of up to three digits, 1,000 in a line",
     lambda: write_loads([f"{'stnr'[k % 4]}{37 * k % THREADS}" for k in range(1_000)])),
    ("numbers of 20 digits, 1,000 in a line",
     lambda: write_loads([f"{'stnr'[k % 4]}{37 * k % THREADS:020}" for k in range(1_000)])),
    ("words of two bytes, one in a line", lambda: write_loads(["s1"])),
    ("4,096 commands among lines that are skipped", write_commands),
)


def ratio(reader, plain, wanted):
    """Returns the least time of the reader to that of the program that counts words."""
    if page.run([reader, NAME])[1] != wanted:
        sys.exit(f"the reader does not find {wanted.decode().strip()}, so nothing is measured.")
    times = [(page.run([reader, NAME])[0], page.run([plain, NAME])[0]) for _ in range(RUNS)]
    return min(ours for ours, to in times) / min(to for ours, to in times)


def main():
    here = os.path.dirname(os.path.abspath(__file__))
    with tempfile.TemporaryDirectory() as folder:
        os.chdir(folder)
        plain = os.path.join(folder, "count_words")
        subprocess.run(["gcc", "-O2", "-o", plain, os.path.join(here, "count_words.c")], check=True)
        write_loads(["s1"])
        reader = page.build("script_bench", PROGRAM, USED, os.path.abspath(NAME))
        print("| 16 MiB of script: time, to the program's that counts words | Measured | Target |\n|---|---|---|")
        for text, write in SHAPES:
            print(f"| {text} | {ratio(reader, plain, write()):.2f} | at most 1.5 |", flush=True)
        os.chdir("/")


if __name__ == "__main__":
    main()
