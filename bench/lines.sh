#!/bin/bash
# Times the cutting of a stream into lines alone, beside `wc -l` on a file of the same bytes: a million lines of 200 bytes,
# which a small program of its own, built in a copy of the repository, feeds from memory in pieces of 64 KiB and takes one
# by one (`next`) or in batches (`batch`).
set -e
cd "$(dirname "$0")/.."
name=lines_time
below='lf_core lf_stream'
. bench/program.sh

keeps() { # FUNCTION VARIABLE VALUE: whether the stream is finished is this value, from turn to turn
    mkdir -p "$work/crates/$name/proofs/$1"
    cat >"$work/crates/$name/proofs/$1/Invariants.antt" <<ANTT
use Rattle.std.proofs.Common.{◌≡◌, false}
use Rattle.lf_stream.specs.Standing.{is_finished}
use Rattle.$name.proofs.$1.Given as goal

abbrev pub invariant-loop-$2 : goal.invariant-loop-$2
invariant-loop-$2 l = is_finished l.lines ≡ $3
ANTT
}

if ! is_built; then
    copied
    cat >"$work/crates/$name/src/main.rt" <<'RT'
//! Feeds as many pieces as the second argument says, takes the lines one by one or in batches, as the first says, and
//! prints their number.
#![tactic(auto)]
ghost use Rattle.std.specs.Prelude.{◌≡◌, false};
ghost use Rattle.lf_stream.specs.Standing.{is_finished};

use lf_stream::{Lines, MOST_FED};
use std::alloc::{AllocError, Global};
use std::env;
use std::io;
use std::process::ExitCode;

/// How many bytes are fed at a time.
const PIECE: usize = 65_536;

/// A stream of lines of 200 bytes, long enough for a piece at each place of a line.
fn stream(alloc: Global) -> Result<Vec<u8>, AllocError> {
    let mut text = Vec::new(alloc);
    for k in 1..=PIECE + 200 {
        text.push(if k % 200 == 0 { b'\n' } else { b'a' })?;
    }
    Ok(text)
}

fn take_each(lines: &mut Lines) -> u64
    ensures { is_finished lines.new ≡ is_finished lines.old }
{
    for k in 0..10_000u64 {
        if lines.next().is_none() {
            return k;
        }
    }
    10_000
}

fn take_batches(lines: &mut Lines) -> u64
    ensures { is_finished lines.new ≡ is_finished lines.old }
{
    let mut taken = 0u64;
    for _k in 0..1000u32 {
        let count = lines.batch().marks.len();
        if count == 0 {
            return taken;
        }
        taken = taken.wrapping_add(count as u64);
    }
    taken
}

fn take(lines: &mut Lines, batches: bool) -> u64
    ensures { is_finished lines.new ≡ is_finished lines.old }
{
    if batches {
        return take_batches(lines);
    }
    take_each(lines)
}

fn feed(lines: &mut Lines, piece: &[u8])
    requires { is_finished lines.old ≡ false }
    ensures { is_finished lines.new ≡ false }
{
    if piece.len() <= lines.room() && piece.len() as u64 <= MOST_FED - lines.fed() {
        lines.feed(piece);
    }
}

/// How many lines there are in so many pieces of the stream.
fn count(lines: &mut Lines, stream: &[u8], pieces: u32, batches: bool) -> u64
    requires { is_finished lines.old ≡ false }
{
    let mut count = 0u64;
    for k in 0..pieces {
        let at = k as usize * PIECE % 200;
        let Some(piece) = stream.get(at..at + PIECE) else {
            return count;
        };
        feed(lines, piece);
        count = count.wrapping_add(take(lines, batches));
    }
    count
}

fn main(rt: HostRuntime) -> ExitCode {
    let Ok(args) = env::args(&rt) else {
        return ExitCode::from(2);
    };
    let mut args = args.skip(1);
    let Some(way) = args.next() else {
        return ExitCode::from(2);
    };
    let Some(pieces) = args.next() else {
        return ExitCode::from(2);
    };
    let Ok(pieces) = pieces.as_str().parse::<u32>() else {
        return ExitCode::from(2);
    };
    let Ok(stream) = stream(rt.alloc()) else {
        return ExitCode::from(6);
    };
    let Ok(mut lines) = Lines::new(rt.alloc(), false) else {
        return ExitCode::from(6);
    };
    let count = count(&mut lines, &stream, pieces, way.as_str() == "batch");
    match println!(rt; "{count}") {
        Ok(()) => ExitCode::from(0),
        Err(_) => ExitCode::from(5),
    }
}
RT
    keeps take_each k 'is_finished l.initial.lines'
    keeps take_batches k 'is_finished l.initial.lines'
    keeps count k false
    build next 0
fi

pieces=3052
bytes=$((pieces * 65536))
input=$work/lines
line=$(printf 'a%.0s' {1..199})
[ "$(stat -c %s "$input" 2>/dev/null)" = $bytes ] || yes "$line" | head -c $bytes >"$input" || true
. bench/timing.sh
timed next "$program" next $pieces
timed batch "$program" batch $pieces
timed wc wc -l
cmp "$work/next.out" "$work/wc.out"
cmp "$work/batch.out" "$work/wc.out"
compared wc next batch
