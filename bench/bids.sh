#!/bin/sh
# Times a bid, from the search to its landing, against the same loops in C++, side by side: the best of many short runs of
# each, and their ratio. Not part of the gate; run it by hand on a quiet machine.
#
# usage: bench/bids.sh [ROUNDS [REPEATS [NOT_ALLOWED_PERCENT]]]    CXX names another compiler than g++
set -eu
here=$(cd "$(dirname "$0")/.." && pwd)
rounds=${1:-20}
repeats=${2:-40}
percent=${3:-10}
cxx=${CXX:-g++}
work=$(mktemp -d)
trap 'rm -rf "$work"' EXIT

ours=$("$here/bench/build.sh" bench_bids "$here/examples/example.sheet" 4 1)
"$cxx" -O3 -march=x86-64 -o "$work/bids" "$here/bench/bids.cpp"
python3 "$here/bench/make_sheet.py" "$work/sheet" "$work/certificate" 256 "$percent"

# The lesser of two times, of which the first may be missing.
lesser() {
    if [ -z "$1" ] || [ "$2" -lt "$1" ]; then echo "$2"; else echo "$1"; fi
}

for increment in 1000000000 10000000 1000000; do
    least_ours= least_cpp=
    round=0
    while [ "$round" -lt "$rounds" ]; do
        a=$("$ours" "$work/sheet" "$increment" "$repeats" 2>&1 >"$work/ours" | sed -n 's/ ns per bid.*//p')
        b=$("$work/bids" "$work/sheet" "$increment" "$repeats" 2>&1 >"$work/cpp" | sed -n 's/ ns per bid.*//p')
        if ! cmp -s "$work/ours" "$work/cpp"; then
            echo "bids.sh: ours says '$(cat "$work/ours")' and C++ says '$(cat "$work/cpp")'" >&2
            exit 1
        fi
        least_ours=$(lesser "$least_ours" "$a")
        least_cpp=$(lesser "$least_cpp" "$b")
        round=$((round + 1))
    done
    echo "increment $increment, $(cat "$work/ours"): ours $least_ours ns per bid, C++ $least_cpp ($cxx -O3), ratio $(awk "BEGIN { printf \"%.2f\", $least_ours / $least_cpp }")"
done
