#!/usr/bin/env bash
# Acts a second at the lock, beside stock Rust on the same machine: a std::sync::Mutex, and a ticket lock whose waiters
# load 50 times and then yield the processor. Each thread works about 40 microseconds between acts and 3 inside them.
#
#   bench/lock.sh [ROUNDS] [ACTS]     rounds that are measured (5), and acts in all of one measurement (20000)
#
# In each round every contestant runs once, one after the other, so that all meet the same load of the machine; what is
# printed is the median of the rounds' ratios to the mutex.
set -eu
cd "$(dirname "$0")/.."
rounds=${1:-5}
acts=${2:-20000}
outside=19000
inside=1430
looks="50"
build=$(mktemp -d)
trap 'rm -rf "$build"' EXIT
rustc -C opt-level=3 -C target-cpu=x86-64-v2 -o "$build/stock" bench/lock_stock.rs
(cd crates/lock_bench && rt run >"$build/log" 2>&1) || { tail "$build/log"; exit 1; }
ours=crates/lock_bench/out/lock_bench

# milliseconds that a command takes
took() {
    local from to
    from=$(date +%s%N)
    "$@" >/dev/null
    to=$(date +%s%N)
    echo $(((to - from) / 1000000))
}

median() { sort -n | awk '{ v[NR] = $1 } END { print v[int((NR + 1) / 2)] }'; }

echo "processors: $(nproc); load at the start: $(cut -d' ' -f1-3 /proc/loadavg)"
for threads in 1 2 4 8 16; do
    each=$((acts / threads))
    : >"$build/mutex" && : >"$build/ours"
    for n in $looks; do : >"$build/ticket$n"; done
    for _ in $(seq "$rounds"); do
        mutex=$(took "$build/stock" mutex $threads $each $outside $inside)
        echo "$mutex" >>"$build/mutex"
        us=$(took "$ours" $threads $each $outside $inside)
        awk "BEGIN { print $mutex / $us }" >>"$build/ours"
        for n in $looks; do
            ticket=$(took "$build/stock" "$n" $threads $each $outside $inside)
            awk "BEGIN { print $mutex / $ticket }" >>"$build/ticket$n"
        done
    done
    line="$threads threads: mutex $(awk "BEGIN { printf \"%d\", 1000 * $acts / $(median <"$build/mutex") }") acts a second; ours $(median <"$build/ours") of it"
    for n in $looks; do line="$line; a ticket lock that yields after $n loads $(median <"$build/ticket$n")"; done
    echo "$line; ours from $(sort -n "$build/ours" | head -1) to $(sort -n "$build/ours" | tail -1)"
done
