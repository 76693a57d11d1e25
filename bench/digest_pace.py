#!/usr/bin/env python3
"""`desync verify-index -n 1` of an image by either digest, beside the same digest of all its chunks alone by the same
library, in a program of a few lines that `rt` proves and builds first; and beside openssl.

The image is of random bytes, cut every 64 KiB. At least 0.9 of the pace of the digest alone is wanted. Needs the
image's size under the temporary folder.
"""

import os
import shutil
import sys
import tempfile

import side_by_side
import formats
import over_crates
import sliced

CRATE = 'digest_file'

FILES = {
    'src/main.rt': '''//! Computes the digest of each 64 KiB of a file, `sha256` or else SHA-512/256.
#![tactic(auto)]

use chunk_store::id::{ChunkId, DigestKind};
use std::env::Env;
use std::fs::File;
use std::io::ErrorKind;
use std::os::unix::fs::FileExt;
use std::process::ExitCode;
use std::rt::Files;
use std::{env, fs, io};

// The exclusive or of the digests' first bytes.
fn sum_of<R: Files<File = File> + AllocGlobal>(
    rt: &R,
    name: &str,
    kind: DigestKind,
) -> io::Result<u8> {
    let length = fs::metadata(rt, name)?.len();
    let mut block = vec![in rt.alloc(); 0u8; 65_536]?;
    let file = fs::open(rt, name)?;
    let mut sum = 0u8;
    let mut at = 0u64;
    while at < length {
        let n = (length - at).min(block.len() as u64) as usize;
        if n == 0 {
            return Err(io::Error::from(ErrorKind::InvalidInput));
        }
        file.read_exact_at(&mut block[..n], at)?;
        sum ^= ChunkId::of(kind, &block[..n]).0[0];
        at += n as u64;
    }
    Ok(sum)
}

fn sum_of_words<R: Env + Files<File = File> + AllocGlobal>(rt: &R) -> io::Result<u8> {
    let mut all = env::args(rt)?;
    let _program = all.next();
    let words: Vec<String> = all.collect(rt.alloc())?;
    let (Some(name), Some(kind)) = (words.get(0), words.get(1)) else {
        return Err(io::Error::from(ErrorKind::InvalidInput));
    };
    let kind = if kind.as_str() == "sha256" {
        DigestKind::Sha256
    } else {
        DigestKind::Sha512T256
    };
    sum_of(rt, name.as_str(), kind)
}

fn main(rt: HostRuntime) -> ExitCode {
    match sum_of_words(&rt) {
        Ok(sum) => {
            let _ = rt.print(if sum == 0 { "0" } else { "other" });
            ExitCode::SUCCESS
        }
        Err(_) => ExitCode::FAILURE,
    }
}
''',
    'proofs/Lib.antt': '',
    'proofs/sum_of/Invariants.antt': '''use Rattle.std.proofs.Common.{◌-◌, ◌≤◌}
use Rattle.digest_file.proofs.sum_of.Given as goal

abbrev pub invariant-loop-at : goal.invariant-loop-at
invariant-loop-at g l = l.at ≤ l.length

abbrev pub decreases-loop-at : goal.decreases-loop-at
decreases-loop-at g l = l.length - l.at
''',
}


def rows_of(built, kind, flags, folder):
    """The rows of one digest: openssl, the library alone, and the program."""
    index = os.path.join(folder, 'image.caibx')
    with open(index, 'rb') as file:
        ends = [end for end, _ in formats.read_index(file.read()).entries]
    listed = formats.Index([], flags)
    with open(os.path.join(folder, 'image'), 'rb') as image:
        for end in ends:
            listed.add(image.read(end - listed.length()))
    formats.write_index(os.path.join(folder, f'{kind}.caibx'), listed)
    words = ['verify-index', '-n', '1', f'{kind}.caibx', 'image']
    return [side_by_side.Row(f'openssl dgst -{kind}', ['dgst', f'-{kind}', 'image'], command=shutil.which('openssl')),
            side_by_side.Row(f'{kind} of each chunk alone', ['image', kind], command=built),
            side_by_side.Row(f'verify-index -n 1 by {kind}', words)]


def main():
    options = side_by_side.arguments(__doc__, 512)
    with side_by_side.work_folder() as folder, tempfile.TemporaryDirectory(prefix='desync-digests-') as copy:
        try:
            built = over_crates.build(copy, CRATE, ['chunk_store'], FILES, ['nothing'])
        except over_crates.NotBuilt as why:
            sys.exit(str(why))
        size = options.size * side_by_side.MIB
        sliced.lay_out(folder, size, image='image')
        for kind, flags in (('sha512-256', formats.WRITTEN_FLAGS), ('sha256', formats.SHA256_FLAGS)):
            rows = rows_of(built, kind, flags, folder)
            side_by_side.measure(rows, folder, options.runs)
            side_by_side.print_table(rows, size)
            alone, checked = rows[1].median(), rows[2].median()
            print(f'pace of verify-index by {kind}, beside the digest alone: {alone / checked:.2f}, at least 0.90\n')


if __name__ == '__main__':
    main()
