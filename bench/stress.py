#!/usr/bin/env python3
"""Runs live rendezvous at gates that yield at random, and prints what they came to. README.md beside it says more."""
import os
import subprocess
import sys
import tempfile

import page

USED = "rendezvous_steps ctl_words uc_rendezvous ctl_table uc_live arrayvec"
PROGRAM = r"""
//! Lets drawn plans rendezvous at a gate that yields at random, compares what each comes to with what a run may come
//! to, and prints how often each kind of outcome came. It ends with 1 at the first outcome that no run may have.
#![tactic(auto)]

ghost use Rattle.std.specs.Prelude.{◌≤◌};
ghost use Rattle.ctl_words.specs.Plans.{IsSound};

use arrayvec::ArrayVec;
use uc_rendezvous::RunAnswer;
use ctl_table::{End, Outcome, Plan, ThreadResult};
use rendezvous_steps::Kind;
use std::alloc::Global;
use std::process::ExitCode;
use std::sync::Wait;
use std::sync::atomic::{AtomicU64, Ordering};
use std::thread::{Threads, yield_now};
use uc_live::{Gate, LiveRun, Point};

const OLD: u32 = 0xb4;
const NEW: u32 = 0xf0;

/// How many runs are made with so many threads.
const RUNS: [(u16, u32); 3] = [(2, 4_000), (8, 4_000), (32, 2_000)];

const NAMES: [&str; 7] = [
    "went on, all done",
    "went on, a write refused",
    "went on, a thread halted",
    "dropped by a kick",
    "dropped by thread 0",
    "dropped by another thread",
    "dropped, and an Offline thread halted",
];

/// A number that looks like none before it.
fn mixed(seed: u64) -> u64 {
    let seed = (seed ^ (seed >> 30)).wrapping_mul(0xbf58_476d_1ce4_e5b9);
    let seed = (seed ^ (seed >> 27)).wrapping_mul(0x94d0_49bb_1331_11eb);
    seed ^ (seed >> 31)
}

/// Draws numbers one after another.
#[derive(Clone, Copy)]
struct Draws {
    seed: u64,
}

impl Draws {
    fn below(&mut self, limit: u64) -> u64 {
        self.seed = self.seed.wrapping_add(0x9e37_79b9_7f4a_7c15);
        if limit == 0 { 0 } else { mixed(self.seed) % limit }
    }
}

/// Yields at each point for a while that is drawn.
#[derive(Drop)]
struct Restless {
    seed: u64,
    calls: AtomicU64,
}

impl Gate for Restless {
    fn at(&self, thread: u16, _point: Point) {
        let call = self.calls.fetch_add(1, Ordering::SeqCst);
        let drawn = mixed(self.seed ^ call.wrapping_mul(257) ^ u64::from(thread));
        let turns = if drawn % 16 == 0 { 200 } else { drawn % 6 };
        for _ in 0..turns {
            yield_now();
        }
    }

    fn ordinary(&self, _thread: u16) {}
}

/// A plan of groups of one size. Some threads are offline or absent, and some groups refuse or have no offer.
fn drawn_plan(draws: &mut Draws, threads: u16) -> Plan {
    let sizes = [1, 2, 4, threads];
    let size = sizes[draws.below(4) as usize % 4].min(threads).max(1);
    let patience = [0, 1, 4, 60, 1_000, u32::MAX, u32::MAX, u32::MAX];
    let mut plan = Plan {
        threads,
        kind: ArrayVec::new(),
        group: ArrayVec::new(),
        primary: ArrayVec::new(),
        offer: ArrayVec::new(),
        refuse: ArrayVec::new(),
        rev0: ArrayVec::new(),
        patience: patience[draws.below(8) as usize % 8],
    };
    for thread in 0..threads {
        let is_primary = thread % size == 0;
        if is_primary {
            let offer = if draws.below(8) == 0 { None } else { Some(NEW) };
            let _ = plan.primary.try_push(thread);
            let _ = plan.offer.try_push(offer);
            let _ = plan.refuse.try_push(draws.below(8) == 0);
            let _ = plan.rev0.try_push(OLD);
        }
        let kind = match draws.below(16) {
            0 if !is_primary => Kind::Absent,
            1..=4 if !is_primary => Kind::Offline,
            _ => Kind::Online,
        };
        let _ = plan.kind.try_push(kind);
        let _ = plan.group.try_push(thread / size);
    }
    plan
}

/// Whether a thread may come to this end after a go.
fn may_end_after_go(plan: &Plan, thread: usize, end: End) -> Option<bool> {
    let group = usize::from(*plan.group.as_slice().get(thread)?);
    let is_primary = usize::from(*plan.primary.as_slice().get(group)?) == thread;
    let result = match plan.offer.as_slice().get(group)? {
        None => ThreadResult::Current,
        Some(_) if *plan.refuse.as_slice().get(group)? => ThreadResult::Error,
        Some(_) => ThreadResult::Updated,
    };
    let sibling = if result == ThreadResult::Updated {
        ThreadResult::Okay
    } else {
        result
    };
    Some(match plan.kind.as_slice().get(thread)? {
        Kind::Absent => end == End::Absent,
        Kind::Offline => end == End::Halted || end == End::Left(ThreadResult::Offline),
        Kind::Online if is_primary => end == End::Left(result),
        Kind::Online => end == End::Halted || end == End::Left(sibling),
    })
}

/// Whether a thread may come to this end after a drop.
fn may_end_after_drop(plan: &Plan, thread: usize, end: End) -> Option<bool> {
    Some(match plan.kind.as_slice().get(thread)? {
        Kind::Absent => end == End::Absent,
        Kind::Online => end == End::Left(ThreadResult::Timeout),
        Kind::Offline => {
            end == End::Halted
                || end == End::Withdrawn
                || end == End::Left(ThreadResult::Offline)
        }
    })
}

fn count_of(plan: &Plan, kind: Kind) -> usize {
    let mut count = 0usize;
    for other in plan.kind.as_slice() {
        if *other == kind {
            count = count.wrapping_add(1);
        }
    }
    count
}

/// Whether a group's revision is what the decision makes of it.
fn revision_fits(plan: &Plan, group: usize, went_on: bool, revision: u32) -> Option<bool> {
    let wanted = match plan.offer.as_slice().get(group)? {
        Some(offer) if went_on && !*plan.refuse.as_slice().get(group)? => *offer,
        _ => *plan.rev0.as_slice().get(group)?,
    };
    Some(revision == wanted)
}

/// Whether the one who dropped may have: it is Online, thread 0 only where it is not alone and after all Offline threads
/// came, and a kick is dropped only where there is one.
fn decision_fits(plan: &Plan, outcome: &Outcome) -> bool {
    let withdrawn = outcome.ends.as_slice().iter().any(|end| *end == End::Withdrawn);
    match outcome.decide {
        0 => false,
        1 => true,
        2 => count_of(plan, Kind::Offline) > 0,
        3 => count_of(plan, Kind::Online) > 1 && !withdrawn,
        by => plan.kind.as_slice().get((by - 3) as usize) == Some(&Kind::Online),
    }
}

/// Whether a run of the plan may come to the outcome.
fn fits(plan: &Plan, outcome: &Outcome) -> bool {
    let went_on = outcome.decide == 1;
    if outcome.ends.len() != plan.kind.len() || outcome.revs.len() != plan.rev0.len() {
        return false;
    }
    for (thread, end) in outcome.ends.as_slice().iter().enumerate() {
        let may = if went_on {
            may_end_after_go(plan, thread, *end)
        } else {
            may_end_after_drop(plan, thread, *end)
        };
        if may != Some(true) {
            return false;
        }
    }
    for (group, revision) in outcome.revs.as_slice().iter().enumerate() {
        if revision_fits(plan, group, went_on, *revision) != Some(true) {
            return false;
        }
    }
    let is_patient = plan.patience == u32::MAX;
    let halted = has(outcome, End::Halted);
    decision_fits(plan, outcome) && !(is_patient && (!went_on || halted))
}

fn has(outcome: &Outcome, wanted: End) -> bool {
    outcome.ends.as_slice().iter().any(|end| *end == wanted)
}

/// The place of an outcome's name.
fn kind_of(outcome: &Outcome) -> usize {
    let halted = has(outcome, End::Halted);
    match outcome.decide {
        1 if halted => 2,
        1 if has(outcome, End::Left(ThreadResult::Error)) => 1,
        1 => 0,
        _ if halted => 6,
        2 => 3,
        3 => 4,
        _ => 5,
    }
}

fn run_one<R: Threads + Wait>(
    rt: &R,
    alloc: Global,
    plan: &Plan,
    gate: &Restless,
) -> Result<Outcome, RunAnswer>
    requires sound { IsSound plan.now }
    requires few { plan.now.threads ≤ 32 }
{
    let mut live = LiveRun::new(rt, alloc, gate);
    let mut outcome = Outcome::new();
    live.hold(alloc, plan, &mut outcome)?;
    Ok(outcome)
}

/// Makes the runs of so many threads, and counts what they came to. None where memory ran out, or an outcome does not
/// fit.
fn tally<R: Threads + Wait>(rt: &R, alloc: Global, threads: u16, runs: u32) -> Option<[u64; 7]> {
    let mut counts = [0u64; 7];
    let mut draws = Draws {
        seed: u64::from(threads),
    };
    for _ in 0..runs {
        let plan = drawn_plan(&mut draws, threads);
        let gate = Restless {
            seed: draws.below(u64::MAX),
            calls: AtomicU64::new(0),
        };
        if !plan.sound() || plan.threads > 32 {
            return None;
        }
        let outcome = run_one(rt, alloc, &plan, &gate).ok()?;
        if !fits(&plan, &outcome) {
            return None;
        }
        let kind = kind_of(&outcome) % 7;
        counts[kind] = counts[kind].wrapping_add(1);
    }
    Some(counts)
}

fn main(rt: HostRuntime) -> ExitCode {
    for (threads, runs) in &RUNS {
        let Some(counts) = tally(&rt, rt.alloc(), *threads, *runs) else {
            return ExitCode::from(1);
        };
        for (name, count) in NAMES.iter().zip(counts.iter()) {
            if println!(rt; "{threads};{name};{count}").is_err() {
                return ExitCode::from(1);
            }
        }
    }
    ExitCode::from(0)
}
"""


def main():
    with tempfile.TemporaryDirectory() as folder:
        os.chdir(folder)
        stress = page.build("stress", PROGRAM, USED)
        printed = subprocess.run([stress], stdout=subprocess.PIPE, text=True, check=False)
        os.chdir("/")
    if printed.returncode:
        sys.exit("A run came to an outcome that no run may have, or memory ran out.")
    rows = {}
    for line in printed.stdout.splitlines():
        threads, name, count = line.split(";")
        rows.setdefault(name, {})[threads] = int(count)
    columns = ["2", "8", "32"]
    print("| What it came to | " + " | ".join(f"{threads} threads" for threads in columns) + " | all |")
    print("|---|" + "---|" * (len(columns) + 1))
    for name, counts in [*rows.items(), ("runs", {c: sum(row[c] for row in rows.values()) for c in columns})]:
        cells = [counts[threads] for threads in columns]
        print(f"| {name} | " + " | ".join(f"{count:,}" for count in [*cells, sum(cells)]) + " |")


if __name__ == "__main__":
    main()
