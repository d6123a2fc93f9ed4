#!/bin/sh
# Times a settle of a site board of 256 seats: after one telling, and with nothing told since.
here=$(cd "$(dirname "$0")/.." && pwd) || exit 1
program=$("$here/bench/build.sh" bench_settle 1) || exit 1
exec "$program" "${1:-10000000}"
