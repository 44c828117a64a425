#!/bin/bash
# The processor time of `read` for a byte, and its resident memory, on 1 MB, 100 MB and 10 GB of Apache's combined lines
# through a pipe: both are to stay the same. usage: flat.sh [MEGABYTES..]
set -e
cd "$(dirname "$0")/.."
program=crates/logfmt/out/logfmt
[ -x "$program" ] || bin/logfmt >/dev/null 2>&1 </dev/null || true
work=${TMPDIR:-/tmp}/logfmt-bench-flat
mkdir -p "$work"
part=$work/part.log
[ -s "$part" ] || python3 bench/generate.py combined 5600 >"$part"
size=$(stat -c %s "$part")

repeated() { # COUNT
    for ((k = 0; k < $1; k++)); do cat "$part"; done
}

printf '%9s %9s %9s %9s\n' MB seconds ns/byte MiB
for megabytes in ${*:-1 100 10000}; do
    count=$(((megabytes * 1000000 + size - 1) / size))
    best=
    for _ in 1 2 3; do
        repeated "$count" | /usr/bin/time -f '%U %S %M' -o "$work/time" "$program" read apache '%h %l %u %t "%r" %>s %b "%{Referer}i" "%{User-agent}i"' >/dev/null
        read -r user system kilobytes <"$work/time"
        took=$(echo "$user + $system" | bc -l)
        if [ -z "$best" ] || [ "$(echo "$took < $best" | bc -l)" = 1 ]; then best=$took; fi
        [ "$megabytes" -lt 1000 ] || break
    done
    printf '%9s %9.2f %9.2f %9s\n' "$megabytes" "$best" "$(echo "$best * 1000000000 / ($count * $size)" | bc -l)" "$((kilobytes / 1024))"
done
