#!/bin/bash
# Times the parsing of formats of 100,000 and of 1,000,000 letters, by each front, on one core: the least of five runs.
# A word of the command line can't be so long on Linux, so a small program of its own is built beside the crates in a
# copy of the repository.
set -e
cd "$(dirname "$0")/.."
name=parse_time
below='lf_core lf_format lf_words lf_fronts apache_front nginx_front haproxy_front envoy_front w3c_front'
. bench/program.sh
if ! is_built; then
    copied
    cat >"$work/crates/$name/src/main.rt" <<'RT'
//! Parses one format: the first word after the front's, so many letters `a` as the next word says, and the last word.
#![tactic(auto)]

use lf_fronts::parse;
use lf_words::Front;
use std::alloc::{AllocError, Global};
use std::env;
use std::process::ExitCode;

fn front_of(word: &str) -> Option<Front> {
    match word {
        "apache" => Some(Front::Apache),
        "nginx" => Some(Front::Nginx),
        "nginx-json" => Some(Front::NginxJson),
        "nginx-none" => Some(Front::NginxNone),
        "nginx-directive" => Some(Front::NginxDirective),
        "haproxy" => Some(Front::Haproxy),
        "envoy" => Some(Front::Envoy),
        "w3c" => Some(Front::W3c),
        "iis" => Some(Front::Iis),
        _ => None,
    }
}

fn spelling(alloc: Global, before: &str, count: u32, after: &str) -> Result<String, AllocError> {
    let mut text = String::from_str(alloc, before)?;
    for _k in 0..count {
        text.push('a')?;
    }
    text.push_str(after)?;
    Ok(text)
}

fn is_one_piece(alloc: Global, front: Front, text: &str) -> bool {
    if text.len() > 1_048_576 {
        return false;
    }
    match parse(alloc, front, text) {
        Ok(format) => format.pieces().len() == 1,
        Err(_) => false,
    }
}

fn main(rt: HostRuntime) -> ExitCode {
    let Ok(mut words) = env::args(&rt) else {
        return ExitCode::from(2);
    };
    let _program = words.next();
    let (Some(front), Some(before), Some(count), Some(after)) =
        (words.next(), words.next(), words.next(), words.next())
    else {
        return ExitCode::from(2);
    };
    let (Some(front), Ok(count)) = (front_of(front.as_str()), count.as_str().parse::<u32>()) else {
        return ExitCode::from(2);
    };
    let Ok(text) = spelling(rt.alloc(), before.as_str(), count, after.as_str()) else {
        return ExitCode::from(6);
    };
    if is_one_piece(rt.alloc(), front, text.as_str()) {
        return ExitCode::from(0);
    }
    ExitCode::from(1)
}
RT
    build apache '' 1 ''
fi

both() { # FRONT BEFORE AFTER
    local few many
    few=$(least_of_five 0 "$1" "$2" 100000 "$3")
    many=$(least_of_five 0 "$1" "$2" 1000000 "$3")
    printf '%-16s %9.4f %9.4f %6.2f\n' "$1" "$few" "$many" "$(echo "$many / $few" | bc -l)"
}

printf '%-16s %9s %9s %6s\n' front 100000 1000000 ratio
for front in apache nginx nginx-json nginx-none haproxy envoy; do
    both "$front" '' ''
done
both nginx-directive 'log_format a ' ';'
both w3c 'cs(' ')'
both iis 'cs(' ')'
