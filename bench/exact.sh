#!/bin/bash
# Times the exact reader alone, without a scan and without JSON, on Apache's combined lines: a small program of its own,
# built in a copy of the repository, reads the lines of its argument again and again. Beside it a scanner of these lines in
# C, written by hand, which prints JSON (scanner.c).
set -e
cd "$(dirname "$0")/.."
name=exact_time
below='lf_core lf_format lf_spelling lf_words lf_fronts lf_compile'
. bench/program.sh

if ! is_built; then
    copied
    cat >"$work/crates/$name/src/main.rt" <<'RT'
//! Reads the lines of the second argument by the format of Apache that the first is, as often as the third says, and
//! prints how many lines were read.
#![tactic(auto)]

use lf_compile::{Reader, compile};
use lf_fronts::parse;
use lf_words::Front;
use std::alloc::Global;
use std::env;
use std::process::ExitCode;

/// How many of the text's lines some record prints.
fn count_lines(alloc: Global, reader: &Reader, text: &str) -> u64 {
    let mut count = 0u64;
    for line in text.lines() {
        if let Ok(Some(_)) = reader.read(alloc, line.as_bytes()) {
            count = count.wrapping_add(1);
        }
    }
    count
}

/// The reader of the format.
fn reader_of(alloc: Global, format: &str) -> Option<Reader> {
    if format.len() > 1_048_576 {
        return None;
    }
    let format = parse(alloc, Front::Apache, format).ok()?;
    compile(alloc, format).ok()
}

fn main(rt: HostRuntime) -> ExitCode {
    let Ok(args) = env::args(&rt) else {
        return ExitCode::from(2);
    };
    let mut args = args.skip(1);
    let Some(format) = args.next() else {
        return ExitCode::from(2);
    };
    let Some(text) = args.next() else {
        return ExitCode::from(2);
    };
    let Some(times) = args.next() else {
        return ExitCode::from(2);
    };
    let Ok(times) = times.as_str().parse::<u32>() else {
        return ExitCode::from(2);
    };
    let Some(reader) = reader_of(rt.alloc(), format.as_str()) else {
        return ExitCode::from(1);
    };
    let mut count = 0u64;
    for _time in 0..times {
        count = count.wrapping_add(count_lines(rt.alloc(), &reader, text.as_str()));
    }
    match println!(rt; "{count}") {
        Ok(()) => ExitCode::from(0),
        Err(_) => ExitCode::from(5),
    }
}
RT
    build %h x 1
fi

cc -O2 -o "$work/scanner" bench/scanner.c
combined='%h %l %u %t "%r" %>s %b "%{Referer}i" "%{User-agent}i"'
text=$(python3 bench/generate.py combined 700)
input=$work/lines
for ((k = 0; k < 1000; k++)); do echo "$text"; done >"$input"
bytes=$(stat -c %s "$input")
. bench/timing.sh
timed exact "$program" "$combined" "$text" 1000
timed scanner "$work/scanner"
compared scanner exact
