#!/bin/bash
# Writes some 20 MB of records in JSON as lines, with a fixed seed, by logfmt and by jq (Debian's package jq), which
# prints the same lines. Prints seconds, MB/s of JSON and the ratio to logfmt.
set -e
cd "$(dirname "$0")/.."
program=crates/logfmt/out/logfmt
[ -x "$program" ] || bin/logfmt >/dev/null 2>&1 </dev/null || true
work=${TMPDIR:-/tmp}/logfmt-bench-write
mkdir -p "$work"
input=$work/records.json
if [ ! -s "$input" ]; then
    python3 - "$input" <<'PY'
import json, random, sys
random.seed(20261201)
size = 0
with open(sys.argv[1], "w") as out:
    while size < 20_000_000:
        host = ".".join(str(random.randrange(256)) for _ in range(4)) if random.random() < 0.97 else None
        status = random.choice((200, 200, 200, 301, 304, 404, 500))
        line = json.dumps([host, status, random.randrange(10 ** random.randrange(1, 8))], separators=(",", ":")) + "\n"
        out.write(line)
        size += len(line)
PY
fi
bytes=$(stat -c %s "$input")

. bench/timing.sh
timed logfmt "$program" write apache '%h %s %B'
timed jq jq -r '(.[0] // "-") + " " + (.[1] // "-" | tostring) + " " + (.[2] | tostring)'
cmp "$work/logfmt.out" "$work/jq.out" && echo "logfmt and jq give the same lines"
compared logfmt jq
