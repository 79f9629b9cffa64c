#!/usr/bin/env python3
"""Measures a core that plays a schedule, and prints one table. README.md beside it says what and how."""
import os
import subprocess
import sys
import tempfile

import page

RUNS = 21
USED = "rendezvous_steps rendezvous_rule ctl_words ctl_core uc_bytes uc_io uc_text arrayvec"
PROGRAM = r"""
//! Plays one of two loads of 256 threads, two in each group, and prints how many lines and bytes came out, what was
//! decided, and the sum of the revisions: `storm N` is N steps in turn of all threads but the last, which is held back,
//! and `wide N` is N whole loads. With a third word it prints the lines themselves.
#![tactic(auto)]

ghost use Rattle.std.specs.Prelude.{◌≡◌, All};
ghost use Rattle.ctl_words.specs.Plans.{IsSound};
ghost use Rattle.rendezvous_rule.specs.Runs.{BeatInRange};

use arrayvec::ArrayVec;
use ctl_core::{Beat, Outcome, Plan, Rendezvous, Scheduled, are_in_range};
use ctl_words::Kind;
use std::alloc::Global;
use std::env::Env;
use std::io;
use std::process::ExitCode;
use uc_bytes::NoMemory;
use uc_io::{OutSink, Sink, SinkFailed};
use uc_text::number;

const GROUPS: u16 = 128;

/// Counts what it takes.
#[derive(Drop)]
struct CountingSink {
    lines: u64,
    bytes: u64,
}

impl Sink for CountingSink {
    ghost stands = { λ _ _. ⊥ };

    ghost faults = { λ _. 0 };

    fn write(&mut self, piece: &[u8]) -> Result<(), SinkFailed> {
        if piece.last() == Some(&b'\n') {
            self.lines = self.lines.wrapping_add(1);
        }
        self.bytes = self.bytes.wrapping_add(piece.len() as u64);
        Ok(())
    }
}

fn plan() -> Plan {
    let mut plan = Plan {
        threads: 2 * GROUPS,
        kind: ArrayVec::new(),
        group: ArrayVec::new(),
        primary: ArrayVec::new(),
        offer: ArrayVec::new(),
        refuse: ArrayVec::new(),
        rev0: ArrayVec::new(),
        patience: 0,
    };
    for thread in 0..2 * GROUPS {
        let _ = plan.kind.try_push(Kind::Online);
        let _ = plan.group.try_push(thread % GROUPS);
    }
    for group in 0..GROUPS {
        let _ = plan.primary.try_push(group);
        let _ = plan.offer.try_push(Some(0xf0));
        let _ = plan.refuse.try_push(false);
        let _ = plan.rev0.try_push(0xb4);
    }
    plan
}

fn schedule(alloc: Global, is_storm: bool, number: u64) -> Result<Vec<Beat>, NoMemory> {
    let mut beats = Vec::with_capacity(alloc, if is_storm { number as usize } else { 1 })?;
    if !is_storm {
        beats.push(Beat::Rounds(60))?;
        return Ok(beats);
    }
    for step in 0..number {
        beats.push(Beat::Step((step % 255) as u16))?;
    }
    Ok(beats)
}

fn play<S: Sink>(alloc: Global, is_storm: bool, number: u64, out: &mut S) -> Option<Outcome> {
    let plan = plan();
    let beats = schedule(alloc, is_storm, number).ok()?;
    if !plan.sound() || !are_in_range(beats.as_slice(), plan.threads) {
        return None;
    }
    let mut outcome = Outcome::new();
    let mut ended = false;
    for _ in 0..if is_storm { 1 } else { number } {
        ended = load(alloc, &plan, beats.as_slice(), out, &mut outcome);
    }
    if ended { Some(outcome) } else { None }
}

/// Whether a load came to an outcome.
fn load<S: Sink>(
    alloc: Global,
    plan: &Plan,
    beats: &[Beat],
    out: &mut S,
    outcome: &mut Outcome,
) -> bool
    requires sound { IsSound plan.now }
    requires in_range { All (BeatInRange plan.now.threads) beats.now }
{
    let mut scheduled = Scheduled::new(alloc);
    plan.threads <= scheduled.most() && scheduled.run(alloc, plan, beats, out, outcome).is_ok()
}

fn revisions(outcome: &Outcome) -> u64 {
    let mut sum = 0u64;
    for revision in &outcome.revs {
        sum = sum.wrapping_add(u64::from(*revision));
    }
    sum
}

fn number_in(rt: &HostRuntime, place: usize) -> u64 {
    let mut word = [0; 16];
    match rt.arg(place, &mut word) {
        Ok(len) => number(&word[..len]).unwrap_or(0),
        Err(_) => 0,
    }
}

fn is_storm(rt: &HostRuntime) -> bool {
    let mut word = [0; 16];
    match rt.arg(1, &mut word) {
        Ok(len) => &word[..len] == b"storm".as_slice(),
        Err(_) => false,
    }
}

fn main(rt: HostRuntime) -> ExitCode {
    let (is_storm, number, mut word) = (is_storm(&rt), number_in(&rt, 2), [0; 16]);
    if rt.arg(3, &mut word).is_ok() {
        let mut out = OutSink::new(io::writer(&rt));
        let played = play(rt.alloc(), is_storm, number, &mut out).is_some();
        return ExitCode::from(if played && out.finish().is_ok() { 0 } else { 1 });
    }
    let mut out = CountingSink { lines: 0, bytes: 0 };
    let Some(outcome) = play(rt.alloc(), is_storm, number, &mut out) else {
        return ExitCode::from(1);
    };
    let printed = println!(rt;
        "{} {} {} {}",
        out.lines,
        out.bytes,
        outcome.decide,
        revisions(&outcome)
    );
    ExitCode::from(if printed.is_ok() { 0 } else { 1 })
}
"""


def expect_alike(words, *programs):
    """Ends the script where programs print different texts for the same words."""
    texts = {page.run([program, *words])[1] for program in programs}
    if len(texts) != 1 or texts == {b""}:
        sys.exit(f"{' '.join(words)}: the core and the plain simulator differ, so nothing is measured.")


def ratios(core, plain, load, number):
    """Returns the least time of the core for a load to the plain simulator's, and to its own for half the load."""
    expect_alike([load, str(number)], core, plain)
    commands = [core, load, str(number)], [plain, load, str(number)], [core, load, str(number // 2)]
    times = [[page.run(command)[0] for command in commands] for _ in range(RUNS)]
    whole, to, half = (min(column) for column in zip(*times))
    return f"{whole / to:.2f}", f"{whole / half:.2f}"


def main():
    here = os.path.dirname(os.path.abspath(__file__))
    with tempfile.TemporaryDirectory() as folder:
        os.chdir(folder)
        plain = os.path.join(folder, "rounds")
        subprocess.run(["gcc", "-O2", "-o", plain, os.path.join(here, "rounds.c")], check=True)
        core = page.build("core_bench", PROGRAM, USED, "wide", "1")
        for words in (["storm", "100000", "text"], ["wide", "3", "text"]):
            expect_alike(words, core, plain)
        storm, wide = ratios(core, plain, "storm", 4_000_000), ratios(core, plain, "wide", 1_000)
        os.chdir("/")
    print("| A schedule on the core | Measured | Target |\n|---|---|---|")
    print(f"| poll storm of 4,000,000 events: time, to the plain simulator's | {storm[0]} | at most 1.2 |")
    print(f"| poll storm of 4,000,000 events: time, to that of 2,000,000 | {storm[1]} | about 2 |")
    print(f"| 1,000 wide loads: time, to the plain simulator's | {wide[0]} | at most 1.2 |")
    print(f"| 1,000 wide loads: time, to that of 500 | {wide[1]} | about 2 |")


if __name__ == "__main__":
    main()
