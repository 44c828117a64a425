#!/bin/bash
# Rewrites a million of Apache's combined lines, made with a fixed seed, as nginx's combined lines: by `translate`, beside
# `read` of the same lines, and by gawk (Debian's package gawk), which prints the same lines. Prints seconds, MB/s and the
# ratio to `read`.
set -e
cd "$(dirname "$0")/.."
program=crates/logfmt/out/logfmt
[ -x "$program" ] || bin/logfmt >/dev/null 2>&1 </dev/null || true
work=${TMPDIR:-/tmp}/logfmt-bench-translate
mkdir -p "$work"
input=$work/combined.log
[ -s "$input" ] || python3 bench/generate.py combined "${LINES_OF_LOG:-1000000}" >"$input"
bytes=$(stat -c %s "$input")
apache='%h %l %u %t "%r" %>s %b "%{Referer}i" "%{User-agent}i"'
nginx='$remote_addr - $remote_user [$time_local] "$request" $status $body_bytes_sent "$http_referer" "$http_user_agent"'
map='s1=s1;s2=s3;s3=s4;s4=s5;s5=or(s6,0);s6=s7;s7=s8;s8=s9'

. bench/timing.sh
timed read "$program" read apache "$apache"
timed logfmt "$program" translate apache "$apache" nginx "$nginx" "$map"
timed gawk env LC_ALL=C gawk -F '"' '{
    split($1, head, " ")
    split($3, end, " ")
    print head[1] " - " head[3] " " head[4] " " head[5] " \"" $2 "\" " end[1] " " (end[2] == "-" ? 0 : end[2]) " \"" $4 "\" \"" $6 "\""
}'
cmp "$work/logfmt.out" "$work/gawk.out" && echo "logfmt and gawk give the same lines"
compared read logfmt gawk
