# Sourced by the benchmarks that time programs on one input: wants `input`, `bytes` and `work` set.

timed() { # NAME COMMAND..: the least of three runs
    local name=$1 best= took
    shift
    for _ in 1 2 3; do
        local start end
        start=$(date +%s.%N)
        "$@" <"$input" >"$work/$name.out" 2>"$work/$name.err" || [ "$?" = 3 ] # some lines aren't read
        end=$(date +%s.%N)
        took=$(echo "$end - $start" | bc -l)
        if [ -z "$best" ] || [ "$(echo "$took < $best" | bc -l)" = 1 ]; then best=$took; fi
    done
    echo "$best" >"$work/$name.seconds"
}

compared() { # NAME..: seconds, MB/s and the ratio to the first
    local own
    own=$(cat "$work/$1.seconds")
    printf '%-8s %9s %9s %9s\n' program seconds MB/s ratio
    for name in "$@"; do
        local seconds
        seconds=$(cat "$work/$name.seconds")
        printf '%-8s %9.3f %9.1f %9.2f\n' "$name" "$seconds" \
            "$(echo "$bytes / 1000000 / $seconds" | bc -l)" "$(echo "$seconds / $own" | bc -l)"
    done
    echo "cores: $(nproc)"
}
