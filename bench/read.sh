#!/bin/bash
# Reads a million lines of each kind, made with a fixed seed, by logfmt on one core, and lets peers write the same JSON
# (wc counts the lines). Wants cc and gawk (Debian's package gawk). Prints seconds, MB/s and the ratio to logfmt, and the
# time that logfmt takes for a byte over that of a scanner in C, which is written by hand for combined lines (scanner.c).
# usage: read.sh [KIND..], of short, plain, combined, tenth, hundredth (whose tenth or hundredth lines aren't read), nginx,
# haproxy, iis, envoy
set -e
cd "$(dirname "$0")/.."
program=crates/logfmt/out/logfmt
[ -x "$program" ] || bin/logfmt >/dev/null 2>&1 </dev/null || true
work=${TMPDIR:-/tmp}/logfmt-bench-read
mkdir -p "$work"
. bench/timing.sh

cc -O2 -o "$work/scanner" bench/scanner.c

made() { # KIND: its log
    local log=$work/$1.log
    [ -s "$log" ] || python3 bench/generate.py "$1" "${LINES_OF_LOG:-1000000}" >"$log"
    echo "$log"
}

nanoseconds() { # SECONDS BYTES: for a byte
    echo "$1 * 1000000000 / $2" | bc -l
}

beside_scanner() { # logfmt's time for a byte over that of the scanner, which is timed in the same run
    local own scanned
    own=$(nanoseconds "$(cat "$work/logfmt.seconds")" "$bytes")
    input=$(made combined)
    timed scanner "$work/scanner"
    scanned=$(nanoseconds "$(cat "$work/scanner.seconds")" "$(stat -c %s "$input")")
    printf 'for a byte: logfmt %.2f ns, the scanner %.2f ns, ratio %.2f\n' "$own" "$scanned" "$(echo "$own / $scanned" | bc -l)"
}

same() { # NAME: its JSON is logfmt's
    cmp "$work/logfmt.out" "$work/$1.out" && echo "logfmt and $1 give the same JSON"
}

measured() { # KIND FRONT FORMAT OPTION..
    local kind=$1
    shift
    input=$(made "$kind")
    bytes=$(stat -c %s "$input")
    echo "$kind: $((bytes / 1000000)) MB"
    timed logfmt "$program" read "$@"
    timed wc wc -l
    case $kind in
    short)
        timed gawk gawk '{ print "[" ($1 == "-" ? "null" : "\"" $1 "\"") "," ($2 == "-" ? "null" : $2) "," $3 "]" }'
        same gawk
        compared logfmt wc gawk
        ;;
    plain)
        timed gawk gawk 'function text(field) { return field == "-" ? "null" : "\"" field "\"" }
            { print "[" text($1) "," text($2) "," text($3) "," ($4 == "-" ? "null" : $4) "," ($5 == "-" ? 0 : $5) "]" }'
        timed python python3 bench/peer.py "$kind"
        same gawk
        same python
        compared logfmt wc gawk python
        ;;
    combined)
        timed gawk env LC_ALL=C gawk -f bench/combined.awk
        timed python python3 bench/peer.py "$kind"
        timed scanner "$work/scanner"
        same gawk
        same python
        same scanner
        compared logfmt wc gawk python scanner
        ;;
    tenth | hundredth)
        timed scanner "$work/scanner"
        same scanner
        compared logfmt wc scanner
        ;;
    iis | envoy) compared logfmt wc ;;
    *)
        timed python python3 bench/peer.py "$kind"
        same python
        compared logfmt wc python
        ;;
    esac
    /usr/bin/time -f 'logfmt: %M KB resident' "$program" read "$@" <"$input" 2>&1 >/dev/null | tail -n 1
    beside_scanner
}

combined='%h %l %u %t "%r" %>s %b "%{Referer}i" "%{User-agent}i"'
fields='date time s-ip cs-method cs-uri-stem cs-uri-query s-port cs-username c-ip cs(User-Agent) cs(Referer) sc-status sc-substatus sc-win32-status time-taken'
envoy='[%START_TIME%] "%REQ(:METHOD)% %REQ(X-ENVOY-ORIGINAL-PATH?:PATH)% %PROTOCOL%" %RESPONSE_CODE% %RESPONSE_FLAGS% %BYTES_RECEIVED% %BYTES_SENT% %DURATION% %RESP(X-ENVOY-UPSTREAM-SERVICE-TIME)% "%REQ(X-FORWARDED-FOR)%" "%REQ(USER-AGENT)%" "%REQ(X-REQUEST-ID)%" "%REQ(:AUTHORITY)%" "%UPSTREAM_HOST%"'
kinds=${*:-short plain combined tenth hundredth nginx haproxy iis envoy}
for kind in $kinds; do
    case $kind in
    short) measured short apache '%h %s %B' ;;
    plain) measured plain apache '%h %l %u %>s %b' ;;
    combined | tenth | hundredth) measured "$kind" apache "$combined" ;;
    nginx) measured nginx nginx '$remote_addr - $remote_user [$time_local] "$request" $status $body_bytes_sent "$http_referer" "$http_user_agent"' ;;
    haproxy) measured haproxy haproxy '%ci:%cp [%tr] %ft %b/%s %TR/%Tw/%Tc/%Tr/%Ta %ST %B %CC %CS %tsc %ac/%fc/%bc/%sc/%rc %sq/%bq %hr %hs %{+Q}r' ;;
    iis) measured iis iis "$fields" --narrow '*:not +' ;;
    envoy) measured envoy envoy "$envoy" --narrow '*:not "' ;;
    *) echo "no such kind: $kind" >&2; exit 2 ;;
    esac
done
