#!/usr/bin/env python3
"""Measures puts and frees of a patch region, and prints one table. README.md beside it says what and how."""
import os
import tempfile

import page

RUNS = 15
USED = "uc_bytes region_steps patch_pool"
PROGRAM = """\
//! Fills a region with patches of one block and frees them, one after another: a region of half the blocks where a word
//! is given.
#![tactic(auto)]

use patch_pool::{PatchId, PatchPool};
use std::env::Env;
use std::process::ExitCode;

const ROUNDS: u32 = 20;

fn fill_and_free(pool: &mut PatchPool, patch: &[u8; 1_024], blocks: u32) {
    for _ in 0..blocks {
        let _ = pool.put(patch);
    }
    for id in 0..blocks {
        if pool.holds(PatchId(id)) {
            pool.free(PatchId(id));
        }
    }
}

fn main(rt: HostRuntime) -> ExitCode {
    let mut word = [0; 16];
    let blocks = if rt.arg(1, &mut word).is_ok() { 32_768 } else { 65_536 };
    let Ok(mut pool) = PatchPool::new(rt.alloc(), blocks) else {
        return ExitCode::from(7);
    };
    for _ in 0..ROUNDS {
        fill_and_free(&mut pool, &[7; 1_024], blocks);
    }
    ExitCode::from(if pool.held() == 0 && pool.longest_free() == blocks { 0 } else { 1 })
}
"""


def main():
    with tempfile.TemporaryDirectory() as folder:
        os.chdir(folder)
        program = page.build("pool_bench", PROGRAM, USED)
        times = [(page.run([program])[0], page.run([program, "half"])[0]) for _ in range(RUNS)]
        os.chdir("/")
    ratio = min(whole for whole, half in times) / min(half for whole, half in times)
    print("| Patch region | Measured | Target |\n|---|---|---|")
    print(f"| `put` and `free` of 65,536 one-block patches: time, to that of 32,768 | {ratio:.2f} | about 2 |")


if __name__ == "__main__":
    main()
