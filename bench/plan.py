#!/usr/bin/env python3
"""The plan of an index of 2^22 entries, and where two seeds of as many entries list its chunks.

No command makes a plan of an index alone. So this builds, in a copy of the crates below it, a program that makes
indexes in memory and does one step after another with them; `rt` proves it first, which takes minutes. The time of a
step is the difference between a run with it and one without.
"""

import argparse
import os
import statistics
import sys
import tempfile

sys.path.insert(0, os.path.join(os.path.dirname(os.path.abspath(__file__)), '..', 'tests'))
import over_crates
import program

USES = ['chunk_store', 'caibx_codec', 'extract_plan']
CRATE = 'plan_steps'

PROGRAM = '''//! Makes an index and two seeds, their plan and the places of its wants, up to a step.
#![tactic(auto)]

use caibx_codec::index::{Entry, Index};
use chunk_store::id::ChunkId;
use extract_plan::plan::Plan;
use extract_plan::seeds::SeedIndex;
use std::alloc::Global;
use std::env;
use std::env::Env;
use std::process::ExitCode;

// Ids of neighbouring numbers are far apart in the order of their bytes.
fn id_of(number: u64) -> ChunkId {
    let word = number.wrapping_mul(0x9e37_79b9_7f4a_7c15).to_be_bytes();
    let mut id = [0u8; 32];
    for i in 0..8 {
        id[i] = word[i];
    }
    ChunkId(id)
}

// The index of this many chunks, each once, in an order of its own for each seed.
fn index_of(alloc: Global, count: u64, seed: u64) -> Option<Index> {
    let mut entries = Vec::new(alloc);
    let mut end = 0u64;
    for k in 0..count {
        let number = k.wrapping_mul(5).wrapping_add(seed) % count;
        end = end.saturating_add(1 + number % 16);
        let id = id_of(number);
        entries.push(Entry { end, id }).ok()?;
    }
    Index::new(0xa000_0000_0000_0000, 1, 4, 16, entries).ok()
}

// The number of wants, where all that the step asks for could be made.
fn work(alloc: Global, step: u64, count: u64) -> Option<usize> {
    let index = index_of(alloc, count, 0)?;
    if step == 0 {
        return Some(index.count());
    }
    if step == 1 {
        return Some(Plan::of(alloc, &index, 8).ok()?.wants());
    }
    let seeds = [index_of(alloc, count, 1)?, index_of(alloc, count, 2)?];
    if step == 2 {
        return Some(index.count());
    }
    let Ok(plan) = Plan::of(alloc, &index, 8) else {
        return None;
    };
    if step == 3 {
        return Some(plan.wants());
    }
    let Ok(placed) = SeedIndex::of(alloc, &plan, &index, &seeds) else {
        return None;
    };
    let wants = plan.wants();
    if wants == 0 || placed.places(wants - 1).len() != 2 {
        return None;
    }
    Some(wants)
}

fn number_of(words: &[String], place: usize) -> u64 {
    match words.get(place) {
        Some(word) => word.as_str().parse::<u64>().unwrap_or(0),
        None => 0,
    }
}

fn main(rt: HostRuntime) -> ExitCode {
    let Ok(mut all) = env::args(&rt) else {
        return ExitCode::FAILURE;
    };
    let _program = all.next();
    let Ok(words): Result<Vec<String>, _> = all.collect(rt.alloc()) else {
        return ExitCode::FAILURE;
    };
    let count = number_of(&words, 1);
    match work(rt.alloc(), number_of(&words, 0), count) {
        Some(wants) if wants as u64 == count => ExitCode::SUCCESS,
        _ => ExitCode::FAILURE,
    }
}
'''


def build(folder):
    """The path of the program that does the steps; `folder` takes the copy of the crates."""
    try:
        return over_crates.build(folder, CRATE, USES, {'src/main.rt': PROGRAM}, ['0', '0'])
    except over_crates.NotBuilt as why:
        sys.exit(f'the program that does the steps: {why}')


def measure(built, folder, step, count, runs):
    """The median of the seconds of a step, and its peak memory in KiB."""
    seconds, peaks = [], []
    for _ in range(runs):
        ended, took, peak = program.run_measured([str(step), str(count)], folder, built)
        if ended.status != 0:
            sys.exit(f'step {step}: status {ended.status}')
        seconds.append(took)
        peaks.append(peak)
    return statistics.median(seconds), max(peaks)


def main():
    parser = argparse.ArgumentParser(description=__doc__)
    parser.add_argument('--count', type=int, default=1 << 22, help='entries of each index (default 2^22)')
    parser.add_argument('--runs', type=int, default=3, help='rounds, of which medians are taken (default 3)')
    options = parser.parse_args()
    with tempfile.TemporaryDirectory(prefix='desync-bench-') as folder:
        built = build(folder)
        index, plan, held, planned, placed = (measure(built, folder, step, options.count, options.runs)
                                              for step in range(5))
    print(f'an index of {options.count} entries and two seeds of as many; medians of {options.runs} runs')
    print(f'{"":32} {"seconds":>8} {"peak KiB above the indexes":>28}')
    print(f'{"Plan::of":32} {plan[0] - index[0]:8.3f} {plan[1] - index[1]:28}')
    print(f'{"SeedIndex::of, and the plan":32} {placed[0] - planned[0]:8.3f} {placed[1] - held[1]:28}')


if __name__ == '__main__':
    main()
