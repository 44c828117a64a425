#!/bin/bash
# Counts how many lines of each server's usual format the scan leaves to the exact reader: a small program of its own, built
# in a copy of the repository, scans five hundred lines of each kind.
set -e
cd "$(dirname "$0")/.."
name=fallbacks
below='lf_core lf_format lf_spelling lf_words lf_fronts lf_narrow lf_stamp lf_scan lf_compile'
. bench/program.sh

if ! is_built; then
    copied
    cat >"$work/crates/$name/src/main.rt" <<'RT'
//! Prints how many lines of the fourth argument the scan leaves to the exact reader, of the front, the format and the
//! narrowing that the first three are.
#![tactic(auto)]

use lf_compile::{Reader, compile};
use lf_core::Bytes;
use lf_fronts::parse;
use lf_narrow::narrow;
use lf_stamp::Recent;
use lf_words::Front;
use std::alloc::Global;
use std::env;
use std::process::ExitCode;

/// Whether the scan reads the line.
fn is_scanned(alloc: Global, reader: &Reader, recent: &mut Recent, line: &[u8]) -> bool {
    let mut into = Bytes::new(alloc);
    matches!(reader.scan(alloc, recent, line, &mut into), Ok(true))
}

/// How many lines the scan doesn't read.
fn count_left(alloc: Global, reader: &Reader, text: &str) -> u64 {
    let mut recent = Recent::new(alloc);
    let mut count = 0u64;
    for line in text.lines() {
        if !is_scanned(alloc, reader, &mut recent, line.as_bytes()) {
            count = count.wrapping_add(1);
        }
    }
    count
}

fn front_of(name: &str) -> Option<Front> {
    match name {
        "apache" => Some(Front::Apache),
        "nginx" => Some(Front::Nginx),
        "haproxy" => Some(Front::Haproxy),
        "iis" => Some(Front::Iis),
        "envoy" => Some(Front::Envoy),
        _ => None,
    }
}

/// The reader of the format, narrowed where the narrowing isn't empty.
fn reader_of(alloc: Global, front: &str, format: &str, narrowing: &str) -> Option<Reader> {
    if format.len() > 1_048_576 || narrowing.len() > 1_048_576 {
        return None;
    }
    let format = parse(alloc, front_of(front)?, format).ok()?;
    if narrowing.is_empty() {
        return compile(alloc, format).ok();
    }
    let narrowed = narrow(alloc, format, narrowing).ok()?;
    compile(alloc, narrowed).ok()
}

fn main(rt: HostRuntime) -> ExitCode {
    let Ok(args) = env::args(&rt) else {
        return ExitCode::from(2);
    };
    let mut args = args.skip(1);
    let Some(front) = args.next() else {
        return ExitCode::from(2);
    };
    let Some(format) = args.next() else {
        return ExitCode::from(2);
    };
    let Some(narrowing) = args.next() else {
        return ExitCode::from(2);
    };
    let Some(text) = args.next() else {
        return ExitCode::from(2);
    };
    let Some(reader) = reader_of(rt.alloc(), front.as_str(), format.as_str(), narrowing.as_str()) else {
        return ExitCode::from(1);
    };
    let count = count_left(rt.alloc(), &reader, text.as_str());
    match println!(rt; "{count}") {
        Ok(()) => ExitCode::from(0),
        Err(_) => ExitCode::from(5),
    }
}
RT
    build apache %h '' x
fi

counted() { # KIND FORMAT NARROWING
    printf '%-9s %4s of 500 lines fell back\n' "$1" "$("$program" "$1" "$2" "$3" "$(python3 bench/generate.py "${4:-$1}" 500 | tr -d '\r')")"
}

fields='date time s-ip cs-method cs-uri-stem cs-uri-query s-port cs-username c-ip cs(User-Agent) cs(Referer) sc-status sc-substatus sc-win32-status time-taken'
envoy='[%START_TIME%] "%REQ(:METHOD)% %REQ(X-ENVOY-ORIGINAL-PATH?:PATH)% %PROTOCOL%" %RESPONSE_CODE% %RESPONSE_FLAGS% %BYTES_RECEIVED% %BYTES_SENT% %DURATION% %RESP(X-ENVOY-UPSTREAM-SERVICE-TIME)% "%REQ(X-FORWARDED-FOR)%" "%REQ(USER-AGENT)%" "%REQ(X-REQUEST-ID)%" "%REQ(:AUTHORITY)%" "%UPSTREAM_HOST%"'
counted apache '%h %l %u %t "%r" %>s %b "%{Referer}i" "%{User-agent}i"' '' combined
counted nginx '$remote_addr - $remote_user [$time_local] "$request" $status $body_bytes_sent "$http_referer" "$http_user_agent"' ''
counted haproxy '%ci:%cp [%tr] %ft %b/%s %TR/%Tw/%Tc/%Tr/%Ta %ST %B %CC %CS %tsc %ac/%fc/%bc/%sc/%rc %sq/%bq %hr %hs %{+Q}r' ''
counted iis "$fields" '*:not +'
counted envoy "$envoy" '*:not "'
