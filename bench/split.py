#!/usr/bin/env python3
"""Splitting a target by the plan of an index of 2^22 entries for 32 workers, where the target was empty before.

No command splits a target alone. So this builds, in a copy of the crates below it, a program that makes an index and
its plan in memory, and then splits a file and surveys its shards; `rt` proves it first, which takes minutes. The survey
reads nothing, since the whole target is past its old length. The program tells what each step takes of its processor.
An index of one entry a shard has as many parts and next to no survey: that is the split by itself.
"""

import argparse
import os
import statistics
import subprocess
import sys
import tempfile

sys.path.insert(0, os.path.join(os.path.dirname(os.path.abspath(__file__)), '..', 'tests'))
import over_crates

USES = ['dsy_base', 'dsy_real', 'chunk_store', 'caibx_codec', 'extract_plan', 'range_survey', 'range_ledger',
        'owned_shards']
CRATE = 'split_steps'
WORKERS = 32
SHARDS = 4 * WORKERS
TARGET = 'target'
ZEROS, WHOLE = range(2)

PROGRAM = '''//! Makes the table of zeros of an index, or splits a target by its plan and surveys the shards. Prints the
//! time of the processor that it took, in microseconds.
#![tactic(auto)]

ghost use Rattle.extract_plan.specs.Deal.{IsPlan};
ghost use Rattle.owned_shards.specs.Wholes.{IsRunOver};

use caibx_codec::index::{Entry, Index};
use chunk_store::id::ChunkId;
use dsy_base::name::Name;
use dsy_base::view::{Target, View};
use dsy_real::real_bytes::RealBytes;
use extract_plan::plan::Plan;
use owned_shards::survey::survey_shards;
use range_ledger::run::RunName;
use range_survey::zeros::ZeroNames;
use std::alloc::Global;
use std::env;
use std::env::Env;
use std::fs::File;
use std::marker::Brand;
use std::process::ExitCode;
use std::rt::Files;
use std::thread::Threads;
use std::time::{CpuClock, Duration};

const WORKERS: usize = 32;

// The index of `count` chunks, each once. No chunk is of zeros.
fn index_of(alloc: Global, count: u64) -> Option<Index> {
    let mut entries = Vec::new(alloc);
    let mut end = 0u64;
    for k in 0..count {
        let word = k.wrapping_mul(0x9e37_79b9_7f4a_7c15).to_be_bytes();
        let mut id = [1u8; 32];
        for i in 0..8 {
            id[i] = word[i];
        }
        end = end.saturating_add(1 + k % 16);
        let id = ChunkId(id);
        entries.push(Entry { end, id }).ok()?;
    }
    Index::new(0xa000_0000_0000_0000, 1, 4, 16, entries).ok()
}

// Whether the table of zeros could be made.
fn zeros(alloc: Global, index: &Index) -> bool {
    match index.room(alloc) {
        Ok(mut buf) => ZeroNames::of(alloc, index, 0, &mut buf).is_ok(),
        Err(_) => false,
    }
}

// Whether the target could be split and surveyed.
fn surveyed<W: Threads + Sync, R: RunName + Send + Sync, T: Target>(
    rt: &W,
    alloc: Global,
    index: &Index,
    plan: &Plan,
    target: T,
) -> bool
where
    T::Piece: Send,
    requires over { IsRunOver R.run index.now plan.now T.tells (T.held target) }
{
    let Ok(buf) = index.room(alloc) else {
        return false;
    };
    let Ok(mut buffers) = vec![in alloc; buf] else {
        return false;
    };
    survey_shards::<W, R, T>(rt, alloc, index, plan, target, &mut buffers).is_ok()
}

// Whether the target of this name, which is empty, could be split and surveyed.
fn split<H: Files<File = File> + Threads + Sync>(
    rt: &H,
    alloc: Global,
    index: &Index,
    plan: &Plan,
    name: Name,
) -> bool
    requires plan { IsPlan index.now 32 plan.now }
{
    let target = RealBytes::new(rt, alloc, name, 0);
    surveyed::<H, Brand, RealBytes<H>>(rt, alloc, index, plan, target)
}

// What the step takes of the processor.
fn work<H: Files<File = File> + Threads + Sync + CpuClock>(
    rt: &H,
    alloc: Global,
    step: u64,
    count: u64,
    name: &str,
) -> Option<Duration> {
    let index = index_of(alloc, count)?;
    let Ok(plan) = Plan::of(alloc, &index, WORKERS) else {
        return None;
    };
    let name = Name::of(alloc, name).ok()?;
    let begun = rt.thread_cpu_time().ok()?;
    let done = match step {
        0 => zeros(alloc, &index),
        _ => split(rt, alloc, &index, &plan, name),
    };
    let ended = rt.thread_cpu_time().ok()?;
    if done {
        Some(ended.saturating_sub(begun))
    } else {
        None
    }
}

fn number_of(words: &[String], place: usize) -> u64 {
    match words.get(place) {
        Some(word) => word.as_str().parse::<u64>().unwrap_or(0),
        None => 0,
    }
}

fn main(rt: HostRuntime) -> ExitCode {
    let Ok(mut all) = env::args(&rt) else {
        return ExitCode::FAILURE;
    };
    let _program = all.next();
    let Ok(words): Result<Vec<String>, _> = all.collect(rt.alloc()) else {
        return ExitCode::FAILURE;
    };
    let (step, count) = (number_of(&words, 0), number_of(&words, 1));
    let Some(took) = work(&rt, rt.alloc(), step, count, "target") else {
        return ExitCode::FAILURE;
    };
    let micros = took.as_micros();
    match println!(rt; "{micros}") {
        Ok(()) => ExitCode::SUCCESS,
        Err(_) => ExitCode::FAILURE,
    }
}
'''

PICK = '''use Rattle.std.proofs.Common.{[], true, false}
use Rattle.extract_plan.specs.Deal.{deal_shards}
use Rattle.split_steps.proofs.split.Given as goal

-- the run is over this index and its plan, and over a target that doesn't tell what it holds
abbrev pub ghosts-surveyed : goal.ghosts-surveyed
ghosts-surveyed g a = record {
  run = record {
    listing = a.index.now;
    base = [];
    shards = deal_shards a.plan.now;
    may = λ _. true;
    tells = false;
  };
}
'''

ANSWER = '''use Rattle.std.proofs.Common.{refl, arith}
use Rattle.split_steps.proofs.split.Goals as goal

pub surveyed-requires-clause-over : goal.surveyed-requires-clause-over
surveyed-requires-clause-over g c κs within =
    let plan = c.requires.plan in
    record {
      dealt = record { listing = refl; entries = plan.wants.size; shards = refl };
      workers = omega (arith, plan.workers);
      cuts = plan.cuts;
      base = tt;
      tells = refl;
    }
'''

FILES = {'src/main.rt': PROGRAM, 'proofs/split/Invariants.antt': PICK, 'proofs/split/Answers.antt': ANSWER}


def build(folder):
    """The path of the program that does the steps; `folder` takes the copy of the crates."""
    try:
        return over_crates.build(folder, CRATE, USES, FILES, [str(ZEROS), '0'])
    except over_crates.NotBuilt as why:
        sys.exit(f'the program that does the steps: {why}')


def seconds_of(built, folder, step, count, runs):
    """The median of the seconds of a step over an empty target."""
    seconds = []
    for _ in range(runs):
        with open(os.path.join(folder, TARGET), 'wb'):
            pass
        ended = subprocess.run([built, str(step), str(count)], cwd=folder, stdout=subprocess.PIPE)
        if ended.returncode != 0:
            sys.exit(f'step {step} with {count} entries: status {ended.returncode}')
        seconds.append(int(ended.stdout) / 1_000_000)
    return statistics.median(seconds)


def main():
    parser = argparse.ArgumentParser(description=__doc__)
    parser.add_argument('--count', type=int, default=1 << 22, help='entries of the index (default 2^22)')
    parser.add_argument('--runs', type=int, default=5, help='rounds, of which medians are taken (default 5)')
    options = parser.parse_args()
    with tempfile.TemporaryDirectory(prefix='desync-bench-') as folder:
        built = build(folder)
        zeros, whole = (seconds_of(built, folder, step, options.count, options.runs) for step in (ZEROS, WHOLE))
        alone = seconds_of(built, folder, WHOLE, SHARDS, options.runs)
    print(f'an index of {options.count} entries for {WORKERS} workers; medians of {options.runs} runs')
    for what, took in (('split and survey', whole), ('splitting alone', alone), ('the table of zeros', zeros),
                       ('the fates and their survey', whole - zeros - alone)):
        print(f'{what:32} {took:8.3f} s')


if __name__ == '__main__':
    main()
