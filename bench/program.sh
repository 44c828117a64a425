# Sourced by the benchmarks that time a small program of their own: wants `name`, the program's, and `below`, the crates
# that it stands on. It is built beside the crates in a copy of the repository, since it is no part of that.
work=${TMPDIR:-/tmp}/logfmt-bench-$name
program=$work/crates/$name/out/$name

is_built() { # whether the program is newer than what it is made of
    local script=bench/$(basename "$0")
    [ -x "$program" ] && [ -z "$(find $(printf 'crates/%s ' $below) "$script" -newer "$program" \( -name '*.rt' -o -path "$script" \) | head -n 1)" ]
}

copied() { # makes the copy, for which the program's sources are to be written
    rm -rf "$work"
    mkdir -p "$work"
    cp -r crates crates.txt HANDLES "$work"
    mkdir -p "$work/crates/$name/src"
    echo "$name: $below" >>"$work/crates.txt"
}

build() { # WORD..: builds the program, and runs it once with these words
    (cd "$work/crates/$name" && rt run -- "$@") >"$work/build.log" 2>&1 || { tail "$work/build.log" >&2; exit 1; }
}

least_of_five() { # STATUS WORD..: the least time of five runs of the program with these words, which end with the status
    local wanted=$1 best= took
    shift
    for _ in 1 2 3 4 5; do
        local start end status=0
        start=$(date +%s.%N)
        "$program" "$@" || status=$?
        end=$(date +%s.%N)
        [ "$status" = "$wanted" ] || { echo "status $status, not $wanted" >&2; return 1; }
        took=$(echo "$end - $start" | bc -l)
        if [ -z "$best" ] || [ "$(echo "$took < $best" | bc -l)" = 1 ]; then best=$took; fi
    done
    echo "$best"
}
