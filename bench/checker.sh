#!/bin/sh
# Times the checker against the same loops in C, side by side: the best of many short runs of each, and their ratio.
# Not part of the gate; run it by hand on a quiet machine.
#
# usage: bench/checker.sh [ROUNDS [REPEATS [NOT_ALLOWED_PERCENT]]]    CC names another compiler than gcc
set -eu
here=$(cd "$(dirname "$0")/.." && pwd)
rounds=${1:-40}
repeats=${2:-200}
percent=${3:-10}
cc=${CC:-gcc}
work=$(mktemp -d)
trap 'rm -rf "$work"' EXIT

ours=$("$here/bench/build.sh" bench_checker "$here/examples/example.sheet" "$here/examples/example.certificate" 1)
"$cc" -O3 -march=x86-64 -o "$work/checker" "$here/bench/checker.c"
python3 "$here/bench/make_sheet.py" "$work/sheet" "$work/certificate" 256 "$percent"

# The time per check, of one run.
time_of() {
    "$1" "$work/sheet" "$work/certificate" "$repeats" 2>&1 >"$work/total" | sed -n 's/ ns per check.*//p'
}

# What one run says of a certificate: its total or its refusal.
verdict() {
    "$1" "$work/sheet" "$2" 1 2>&1 | grep -E '^(total|refused)'
}

# Both say the same of a certificate, and begin with the word that is expected.
agree() {
    a=$(verdict "$ours" "$1") || a=
    b=$(verdict "$work/checker" "$1") || b=
    case $a in
    "$2 "*) ;;
    *)
        echo "checker.sh: ours says '$a' of a certificate that is $3" >&2
        exit 1
        ;;
    esac
    if [ "$a" != "$b" ]; then
        echo "checker.sh: ours says '$a' and C says '$b' of a certificate that is $3" >&2
        exit 1
    fi
    echo "$3: both say $a"
}
agree "$work/certificate" total whole
for spoil in short number barred taken price content; do
    python3 - "$work/sheet" "$work/certificate" "$work/spoiled" "$spoil" <<'P'
import struct
import sys

sheet, whole, spoiled, how = sys.argv[1:]
words = open(sheet, "rb").read()
data = open(whole, "rb").read()
n = len(data) // 10
seats = list(struct.unpack_from(f"<{n}H", data))
prices = list(struct.unpack_from(f"<{n}Q", data, 2 * n))
if how == "short":
    n, seats, prices = n - 1, seats[:-1], prices[:-1]
elif how == "number":
    seats[n // 2] = n
elif how == "barred":
    row = struct.unpack_from(f"<{n}i", words, 8 + 4 * n * (n // 4))
    seats[n // 4] = row.index(-2**31) if -2**31 in row else n
elif how == "taken":
    seats[n - 1] = seats[0]
elif how == "price":
    prices[n // 3] = 4_000_000_000_000_001
else:
    prices[seats[n - 1]] += 100_000_000
open(spoiled, "wb").write(struct.pack(f"<{n}H{n}Q", *seats, *prices))
P
    agree "$work/spoiled" refused "spoiled ($spoil)"
done

least_ours= least_c=
round=0
while [ "$round" -lt "$rounds" ]; do
    a=$(time_of "$ours")
    b=$(time_of "$work/checker")
    if [ -z "$least_ours" ] || [ "$a" -lt "$least_ours" ]; then least_ours=$a; fi
    if [ -z "$least_c" ] || [ "$b" -lt "$least_c" ]; then least_c=$b; fi
    round=$((round + 1))
done
echo "ours  $least_ours ns per check"
echo "C     $least_c ns per check ($cc -O3)"
echo "ratio $(awk "BEGIN { printf \"%.2f\", $least_ours / $least_c }")"
