"""A program over the library's `Cutter`: it cuts a file that it reads in pieces of a size, and prints the ends.

No command cuts in pieces of other sizes than the library's own, or without naming what it cut. So this lays the
program out in a copy of the crate below it, where `rt` proves and builds it, which takes minutes.
"""

import subprocess

import over_crates

CRATE = 'cut_file'

FILES = {
    'src/main.rt': '''//! Cuts the file that the words name, in pieces of a size, and prints the ends.
#![tactic(auto)]

ghost use Rattle.std.specs.Prelude.{◌≡◌, ◌+◌, ◌^◌, ◌<◌, ◌≤◌, length, OnOk};

use chunk_ends::cutter::Cutter;
use chunk_ends::sizes::CutSizes;
use std::alloc::AllocError;
use std::env::Env;
use std::fs::File;
use std::io::ErrorKind;
use std::os::unix::fs::FileExt;
use std::process::ExitCode;
use std::rt::Files;
use std::{env, fs, io};

// Gives the cutter the block in pieces of this size.
fn cut_block(
    cutter: &mut Cutter,
    block: &[u8],
    size: usize,
    ends: &mut Vec<u64>,
) -> Result<(), AllocError>
    requires at { cutter.old.at < 2 ^ 62 }
    requires size { 1 ≤ size }
    ensures at { OnOk result (cutter.new.at ≡ cutter.old.at + length block.now) }
{
    let mut at = 0usize;
    while at < block.len() {
        let left = size - at % size;
        let upto = at.saturating_add(left).min(block.len());
        let fed = cutter.feed(&block[at..upto]);
        at += fed.taken;
        if let Some(end) = fed.end {
            ends.push(end)?;
        }
    }
    Ok(())
}

// The ends of all chunks of the file.
fn ends_of<R: Files<File = File> + AllocGlobal>(
    rt: &R,
    name: &str,
    size: usize,
    sizes: CutSizes,
) -> io::Result<Vec<u64>> {
    let length = fs::metadata(rt, name)?.len();
    if size == 0 || 1 << 30 < size || 1 << 61 < length {
        return Err(io::Error::from(ErrorKind::InvalidInput));
    }
    let mut block = vec![in rt.alloc(); 0u8; (65536 / size).max(1) * size]?;
    let mut cutter = Cutter::new(rt.alloc(), sizes)?;
    let mut ends = Vec::new(rt.alloc());
    let file = fs::open(rt, name)?;
    let mut at = 0u64;
    while at < length {
        let n = (length - at).min(block.len() as u64) as usize;
        if n == 0 {
            return Err(io::Error::from(ErrorKind::InvalidInput));
        }
        file.read_exact_at(&mut block[..n], at)?;
        cut_block(&mut cutter, &block[..n], size, &mut ends)?;
        at += n as u64;
    }
    if let Some(end) = cutter.finish() {
        ends.push(end)?;
    }
    Ok(ends)
}

fn number_of(words: &[String], place: usize) -> u64 {
    match words.get(place) {
        Some(word) => word.as_str().parse::<u64>().unwrap_or(0),
        None => 0,
    }
}

fn lines_of<R: Env + Files<File = File> + AllocGlobal>(rt: &R) -> io::Result<String> {
    let mut all = env::args(rt)?;
    let _program = all.next();
    let words: Vec<String> = all.collect(rt.alloc())?;
    let sizes = CutSizes::new(
        number_of(&words, 2),
        number_of(&words, 3),
        number_of(&words, 4),
    );
    let (Some(name), Ok(sizes)) = (words.get(0), sizes) else {
        return Err(io::Error::from(ErrorKind::InvalidInput));
    };
    let mut text = String::new(rt.alloc());
    for end in &ends_of(rt, name.as_str(), number_of(&words, 1) as usize, sizes)? {
        let line = format!(in rt.alloc(); "{end}\\n")?;
        text.push_str(line.as_str())?;
    }
    Ok(text)
}

fn main(rt: HostRuntime) -> ExitCode {
    match lines_of(&rt) {
        Ok(text) => {
            let _ = rt.print(text.as_str());
            ExitCode::SUCCESS
        }
        Err(_) => ExitCode::FAILURE,
    }
}
''',
    'proofs/Lib.antt': '',
    'proofs/cut_block/Invariants.antt': '''use Rattle.std.proofs.Common.{◌≡◌, ◌+◌, ◌-◌, ◌≤◌, length}
use Rattle.cut_file.proofs.cut_block.Given as goal

abbrev pub invariant-loop-at : goal.invariant-loop-at
invariant-loop-at l = (l.at ≤ length l.block) × (l.cutter.at ≡ l.fn.cutter.at + l.at)

abbrev pub decreases-loop-at : goal.decreases-loop-at
decreases-loop-at l = length l.block - l.at
''',
    'proofs/ends_of/Invariants.antt': '''use Rattle.std.proofs.Common.{◌≡◌, ◌-◌, ◌≤◌, vec_len}
use Rattle.cut_file.proofs.ends_of.Given as goal

abbrev pub invariant-loop-at : goal.invariant-loop-at
invariant-loop-at g l = (l.at ≤ l.length) × (l.cutter.at ≡ l.at)

abbrev pub decreases-loop-at : goal.decreases-loop-at
decreases-loop-at g l = l.length - l.at
''',
}


def build(folder):
    """Builds the program in a folder that takes the copy of the crates, and answers its path, or raises NotBuilt."""
    return over_crates.build(folder, CRATE, ['chunk_ends'], FILES, ['nothing'])


def words(path, piece, sizes):
    """The program's words: the file, the size of a piece, and the three sizes of chunks, all in bytes."""
    return [path, str(piece), *map(str, sizes)]


def ends_of(built, path, piece, sizes):
    """Where the program cuts the file."""
    done = subprocess.run([built, *words(path, piece, sizes)], stdin=subprocess.DEVNULL, capture_output=True,
                          check=True)
    return [int(line) for line in done.stdout.split()]
