#!/bin/bash
# Times `check` of real formats and of the largest that the size allows, on one core: the least of three runs, and the
# resident memory. The size, which bounds the number of points, is that of the machine that is searched.
set -e
cd "$(dirname "$0")/.."
program=crates/logfmt/out/logfmt
[ -x "$program" ] || bin/logfmt >/dev/null 2>&1 </dev/null || true

repeated() { # COUNT TEXT
    local text=
    for ((k = 0; k < $1; k++)); do text+=$2; done
    echo "$text"
}

checked() { # NAME SIZE FORMAT [FRONT]
    local best= memory= answer= seconds kilobytes
    for _ in 1 2 3; do
        answer=$({ /usr/bin/time -f '%e %M' -o /tmp/logfmt-bench-check "$program" check "${4:-apache}" "$3" || true; } | head -n 1)
        read -r seconds kilobytes < <(tail -n 1 /tmp/logfmt-bench-check)
        if [ -z "$best" ] || [ "$(echo "$seconds < $best" | bc -l)" = 1 ]; then best=$seconds; memory=$kilobytes; fi
    done
    printf '%-28s %6s %9s %9s  %s\n' "$1" "$2" "$best" "$((memory / 1024))" "$answer"
}

printf '%-28s %6s %9s %9s  %s\n' format size seconds MiB answer
checked 'combined without its time' 367 '%h %l %u "%r" %>s %b "%{Referer}i" "%{User-agent}i"'
checked 'combined' 671 '%h %l %u %t "%r" %>s %b "%{Referer}i" "%{User-agent}i"'
checked 'nginx combined' 668 '$remote_addr - $remote_user [$time_local] "$request" $status $body_bytes_sent "$http_referer" "$http_user_agent"' nginx
checked 'HAProxy HTTP' 2417 '%ci:%cp [%tr] %ft %b/%s %TR/%Tw/%Tc/%Tr/%Ta %ST %B %CC %CS %tsc %ac/%fc/%bc/%sc/%rc %sq/%bq %hr %hs %{+Q}r' haproxy
checked '%B%D' 354 '%B%D'
checked '128 slots %X' 898 "$(repeated 128 %X)"
checked 'free text and a long tail' 8186 "%{A}i$(repeated 8167 a)"
checked '23 numbers' 4050 "$(repeated 23 %B)"
checked '46 numbers' 8098 "$(repeated 46 %B)"
checked '46 numbers, parted' 8143 "$(repeated 45 '%B ')%B"
checked 'free texts, parted' 8147 "$(repeated 127 "%{A}i$(repeated 47 ' ')")%{A}i"
