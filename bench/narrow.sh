#!/bin/bash
# Times narrowings of 100,000 and of 1,000,000 bytes of a format with one slot, on one core: the least of five runs. One
# is a single term with a long set, one many short terms, and one stops at a fault at its end.
# A word of the command line can't be so long on Linux, so a small program of its own is built beside the crates in a
# copy of the repository.
set -e
cd "$(dirname "$0")/.."
name=narrow_time
below='lf_core lf_format lf_words lf_fronts lf_narrow'
. bench/program.sh
if ! is_built; then
    copied
    cat >"$work/crates/$name/src/main.rt" <<'RT'
//! Narrows Apache's `%h` by a text: the first word, the second so many times as the third says, and the fourth.
//! The status is 0 where the format is narrowed, and 1 where it is refused.
#![tactic(auto)]

use lf_fronts::parse;
use lf_narrow::narrow;
use lf_words::Front;
use std::alloc::{AllocError, Global};
use std::env;
use std::process::ExitCode;

fn spelling(
    alloc: Global,
    before: &str,
    part: &str,
    count: u32,
    after: &str,
) -> Result<String, AllocError> {
    let mut text = String::from_str(alloc, before)?;
    for _k in 0..count {
        text.push_str(part)?;
    }
    text.push_str(after)?;
    Ok(text)
}

fn is_narrowed(alloc: Global, text: &str) -> bool {
    if text.len() > 1_048_576 {
        return false;
    }
    let Ok(format) = parse(alloc, Front::Apache, "%h") else {
        return false;
    };
    match narrow(alloc, format, text) {
        Ok(_) => true,
        Err(_) => false,
    }
}

fn main(rt: HostRuntime) -> ExitCode {
    let Ok(mut words) = env::args(&rt) else {
        return ExitCode::from(2);
    };
    let _program = words.next();
    let (Some(before), Some(part), Some(count), Some(after)) =
        (words.next(), words.next(), words.next(), words.next())
    else {
        return ExitCode::from(2);
    };
    let Ok(count) = count.as_str().parse::<u32>() else {
        return ExitCode::from(2);
    };
    let Ok(text) = spelling(
        rt.alloc(),
        before.as_str(),
        part.as_str(),
        count,
        after.as_str(),
    ) else {
        return ExitCode::from(6);
    };
    if is_narrowed(rt.alloc(), text.as_str()) {
        return ExitCode::from(0);
    }
    ExitCode::from(1)
}
RT
    build 's1:present' '' 0 ''
fi

both() { # WHAT BEFORE PART AFTER STATUS: texts of 100,000 and 1,000,000 bytes
    local few many
    few=$(least_of_five "$5" "$2" "$3" $((100000 / ${#3})) "$4")
    many=$(least_of_five "$5" "$2" "$3" $((1000000 / ${#3})) "$4")
    printf '%-16s %9.4f %9.4f %6.2f\n' "$1" "$few" "$many" "$(echo "$many / $few" | bc -l)"
}

printf '%-16s %9s %9s %6s\n' narrowing 100000 1000000 ratio
both 'a long set' 's1:not ' 'b' '' 0
both 'many terms' 's1:not a' ';s1:not b' '' 0
both 'a fault' 's1:not a' ';s1:not b' ';' 1
